//! Shapes and lines of a drawing from CSV.

mod lines;
mod numbers;
mod refused;

pub use lines::{Line, LineReader, LINE};
pub use numbers::micrometres;
pub use refused::Fault;

use crate::csv::{self, Heading};
use crate::faults::Faults;
use crate::shown;
use kressedach::{Axis, Shape};
use numbers::{Decimals, Numbers};
use std::borrow::Cow;
use std::collections::HashMap;

const LIMITS: [&str; 6] = ["low_x", "low_y", "low_z", "high_x", "high_y", "high_z"];
const CENTRE: [&str; 4] = ["x", "y", "z", "radius"];

/// A half-space or a box as the library takes it; or a ball's centre and radius, in micrometres.
pub enum Solid {
    Plain(Shape),
    Ball { centre: [i64; 3], radius: i64 },
}

/// The shapes of a drawing. They are meant by name or by number, as the heading says.
pub struct Drawing {
    pub by: &'static str,
    pub labels: Vec<String>,
    pub rows: Vec<usize>,
    pub solids: Vec<Solid>,
}

/// A row of a drawing: its fields by their column; a column that is not there is empty.
struct Row<'a> {
    heading: &'a Heading<'a>,
    fields: &'a [Cow<'a, str>],
}

impl Row<'_> {
    fn field(&self, column: &str) -> &str {
        self.heading.place(column).map_or("", |at| self.fields[at].as_ref())
    }

    fn given(&self, columns: &[&str]) -> Vec<bool> {
        columns.iter().map(|column| !self.field(column).is_empty()).collect()
    }
}

impl Drawing {
    pub fn of(text: &str) -> Result<Drawing, Faults> {
        let due = format!("name or shape, and of {} those that are needed", [&LIMITS[..], &CENTRE].concat().join(","));
        let (heading, rows) = csv::headed(text, &due)?;
        if !known(&heading.fields) {
            return Err(heading.wrong(&due).into());
        }
        let by = if heading.place("name").is_some() { "name" } else { "shape" };
        let mut drawing = Drawing { by, labels: vec![], rows: vec![], solids: vec![] };
        let (mut taken, mut decimals) = (HashMap::new(), Decimals::default());
        rows.each(&heading, |row, fields| {
            let fields = Row { heading: &heading, fields };
            let label = fields.field(by);
            let shown = shown::quoted(label);
            if by == "shape" && label.parse::<u16>().is_err() {
                return Err(format!("shape {shown} is no whole number from 0 to 65535; names stand below the heading 'name'"));
            }
            if let Some(before) = taken.insert(label.to_string(), row) {
                return Err(format!("{shown} stands at row {before} already"));
            }
            let numbers = Numbers { row, separator: heading.separator, decimals: &mut decimals };
            drawing.solids.push(solid(&fields, numbers)?);
            drawing.labels.push(label.into());
            drawing.rows.push(row);
            Ok(())
        })?;
        Ok(drawing)
    }
}

/// The columns of a drawing, each once at most: one that says which shape it is, and those of limits, centre and radius.
fn known(columns: &[Cow<str>]) -> bool {
    let is = |column: &Cow<str>, names: &[&str]| names.contains(&column.as_ref());
    let twice = (1..columns.len()).any(|k| columns[..k].contains(&columns[k]));
    !twice
        && columns.iter().filter(|column| is(column, &["name", "shape"])).count() == 1
        && columns.iter().all(|column| is(column, &["name", "shape"]) || is(column, &LIMITS) || is(column, &CENTRE))
}

/// A row's shape: six limits are a box, one high alone is a half-space, a centre and a radius are a ball.
fn solid(row: &Row, mut numbers: Numbers) -> Result<Solid, String> {
    let (limits, ball) = (row.given(&LIMITS), row.given(&CENTRE));
    let none = |fields: &[bool]| fields.iter().all(|field| !field);
    let all = |fields: &[bool]| fields.iter().all(|field| *field);
    let mut real = |column: &str| numbers.real(column, row.field(column));
    if all(&limits) && none(&ball) {
        let mut six = [0.0; 6];
        for (limit, column) in six.iter_mut().zip(LIMITS) {
            *limit = real(column)?;
        }
        let [a, b, c, d, e, f] = six;
        return Ok(Solid::Plain(Shape::Box { lows: [a, b, c], highs: [d, e, f] }));
    }
    if none(&limits) && all(&ball) {
        return round(row, numbers);
    }
    let axes = [Axis::X, Axis::Y, Axis::Z];
    match (0..3).filter(|axis| limits[3 + axis]).collect::<Vec<usize>>()[..] {
        [axis] if none(&limits[..3]) && none(&ball) => {
            Ok(Solid::Plain(Shape::HalfSpace { axis: axes[axis], face: real(LIMITS[3 + axis])? }))
        }
        _ => Err("a box has three lows and three highs, a half-space one high alone, a ball x, y, z and radius".into()),
    }
}

/// A row's ball.
fn round(row: &Row, mut numbers: Numbers) -> Result<Solid, String> {
    let mut four = [0; 4];
    for (number, column) in four.iter_mut().zip(CENTRE) {
        let text = row.field(column);
        let whole = numbers.micrometres(column, text)?;
        *number = whole.ok_or_else(|| format!("{column} {} of a ball is not in whole micrometres", shown::quoted(text)))?;
    }
    let [x, y, z, radius] = four;
    Ok(Solid::Ball { centre: [x, y, z], radius })
}
