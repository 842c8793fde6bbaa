//! Why there are no crossings: which number of which row is wrong.

use super::{Drawing, Line, Solid, CENTRE, LIMITS, LINE};
use crate::files::Source;
use crate::shown;
use crate::stop::Stop;
use kressedach::{Ball, Reason, Refusal, Shape};

/// Why there are no crossings: something in the file of lines; or a refusal, with its reason and its place.
pub enum Fault {
    Lines(String),
    Refused { refusal: Refusal, why: String, place: Place },
}

/// What is at fault: a line, by its number and row; a shape, by its label and row, on this line or on any; a shape too many.
pub enum Place {
    Line(u32, usize),
    Shape(String, usize, Option<(u32, usize)>),
    TooMany(String, usize),
}

impl Fault {
    /// Said of these files.
    pub fn stop(self, shapes: Source, lines: Source) -> Stop {
        let (refusal, why, place) = match self {
            Fault::Lines(wrong) => return lines.wrong(wrong),
            Fault::Refused { refusal, why, place } => (refusal, why, place),
        };
        let (file, about) = match place {
            Place::Line(number, row) => (lines, format!("row {row}: line {number}")),
            Place::Shape(label, row, None) => (shapes, format!("row {row}: {}", shown::quoted(&label))),
            Place::Shape(label, row, Some((line, line_row))) => {
                (shapes, format!("row {row}: {}, on line {line}, row {line_row} of {}", shown::quoted(&label), lines.shown()))
            }
            Place::TooMany(label, row) => (shapes, format!("row {row}: {} is the 257th", shown::quoted(&label))),
        };
        file.refused_for(refusal, why, about)
    }
}

impl Drawing {
    /// A refusal of one of these shapes, or of the line.
    pub fn fault(&self, line: &Line, refusal: Refusal, shapes: &[usize]) -> Fault {
        let row_of = |shape: usize| (self.labels[shape].clone(), self.rows[shape]);
        let (why, place) = match (refusal.place, shapes.get(refusal.place)) {
            (256, Some(shape)) => {
                let (label, row) = row_of(*shape);
                let what = if refusal.reason == Reason::BallWrong { "balls" } else { "half-spaces and boxes" };
                (format!("more than 256 {what}"), Place::TooMany(label, row))
            }
            (_, Some(shape)) => {
                let (why, on_any) = match &self.solids[*shape] {
                    Solid::Plain(shape) => of_shape(shape, line),
                    Solid::Ball { centre, radius } => of_ball(*centre, *radius, line),
                };
                let (label, row) = row_of(*shape);
                (why, Place::Shape(label, row, (!on_any).then_some((line.number, line.row))))
            }
            (_, None) => (of_line(line), Place::Line(line.number, line.row)),
        };
        Fault::Refused { refusal, why, place }
    }
}

/// A number as a message has it.
fn number(real: f64) -> String {
    match real.abs() {
        size if size == 0.0 || (1e-6..1e15).contains(&size) => real.to_string(),
        _ => format!("{real:e}"),
    }
}

fn of_line(line: &Line) -> String {
    let numbers = line.probe.origin.into_iter().chain(line.probe.direction);
    let infinite = LINE[1..].iter().zip(numbers).find(|(_, real)| !real.is_finite());
    infinite.map_or("dx, dy and dz are all zero".into(), |(column, real)| format!("{column} {} is not finite", number(real)))
}

/// Why a half-space or a box is refused, and whether it would be on any line.
fn of_shape(shape: &Shape, line: &Line) -> (String, bool) {
    let faces: Vec<(usize, f64)> = match *shape {
        Shape::HalfSpace { axis, face } => vec![(3 + axis as usize, face)],
        Shape::Box { lows, highs } => lows.into_iter().chain(highs).enumerate().collect(),
    };
    if let Some((at, face)) = faces.iter().find(|(_, face)| !face.is_finite()) {
        return (format!("{} {} is not finite", LIMITS[*at], number(*face)), true);
    }
    if let Shape::Box { lows, highs } = shape {
        if let Some(axis) = (0..3).find(|axis| lows[*axis] >= highs[*axis]) {
            let (low, high) = (number(lows[axis]), number(highs[axis]));
            return (format!("{} {low} is not below {} {high}", LIMITS[axis], LIMITS[3 + axis]), true);
        }
    }
    let position = |(at, face): &(usize, f64)| {
        let axis = at % 3;
        let position = (face - line.probe.origin[axis]) / line.probe.direction[axis] * 1000.0;
        // halves go to the even number
        let within = position > -2_147_483_647.5 && position <= 2_147_483_646.5;
        (line.probe.direction[axis] != 0.0 && !within).then(|| (LIMITS[*at], *face, position))
    };
    match faces.iter().find_map(position) {
        Some((column, face, position)) => {
            let at = format!("at position {}", number(position.round()));
            (format!("{column} {} lies {at} on this line, and positions are -2147483647 to 2147483646", number(face)), false)
        }
        None => ("a face lies at a position out of range on this line".into(), false),
    }
}

/// Why a ball is refused, and whether it would be on any line.
fn of_ball(centre: [i64; 3], radius: i64, line: &Line) -> (String, bool) {
    let millimetres = |size: i64| number(size as f64 / 1000.0);
    if !(1..=1_000_000).contains(&radius) {
        return (format!("radius {} is none from 0.001 to 1000", millimetres(radius)), true);
    }
    let along = line.along().unwrap_or_default();
    let off = |axis: usize| line.origin[axis].unwrap_or_default().saturating_sub(centre[axis]).unsigned_abs();
    if let Some(axis) = [(along + 1) % 3, (along + 2) % 3].into_iter().find(|axis| off(*axis) > 1_000_000) {
        let (column, far) = (CENTRE[axis], number(off(axis) as f64 / 1000.0));
        return (format!("{column} {} is {far} mm off this line, and 1000 mm are the most", millimetres(centre[axis])), false);
    }
    let ball = line.ball(centre, radius).unwrap_or(Ball { offsets: [0; 2], radius: 0, centre: 0 });
    let at = if ball.centre == i32::MAX { "farther".into() } else { format!("at position {}", ball.centre) };
    let column = format!("{} {}", CENTRE[along], millimetres(centre[along]));
    (format!("{column} lies {at} on this line, and a ball's centre -1000000000 to 1000000000"), false)
}
