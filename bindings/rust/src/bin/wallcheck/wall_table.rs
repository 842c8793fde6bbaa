//! Walls as CSV, and what a wall checker looks for in them: how thick they are, which are too thin, a summary.

use crate::asked::Asked;
use crate::csv;
use crate::drawing::micrometres;
use crate::shown;
use crate::stop::Stop;
use kressedach::{Probe, Wall, OPEN_END, OPEN_START};
use std::borrow::Cow;
use std::fmt::Write as _;

/// What is asked of walls beside the walls themselves.
#[derive(Clone, Copy, Default)]
pub struct Wanted {
    thickness: bool,
    /// In micrometres.
    thinner_than: Option<i64>,
    mm: bool,
    points: bool,
    pub summary: bool,
}

impl Wanted {
    pub fn of(asked: &Asked) -> Result<Wanted, Stop> {
        let thinner_than = asked.value("--thinner-than").map(thickness_asked).transpose()?;
        let [thickness, mm, points, summary] = ["--thickness", "--mm", "--points", "--summary"].map(|option| asked.has(option));
        Ok(Wanted { thickness, thinner_than, mm, points, summary })
    }

    /// The first row. Numbers in another unit have other headings, so that nobody takes them for micrometres.
    pub fn heading(self) -> String {
        let unit = if self.mm { "_mm" } else { "" };
        let thickness = if self.thickness { format!(",thickness{unit}") } else { String::new() };
        let points = if self.points { ",start_x,start_y,start_z,end_x,end_y,end_z" } else { "" };
        format!("line,start{unit},end{unit},start_shape,end_shape{thickness}{points}\n")
    }

    /// Puts a number of micrometres behind a text, in the unit that is asked for. An open end is no number of millimetres.
    fn put(self, text: &mut Vec<u8>, number: i64, open: bool) {
        match self.mm {
            true if open => {}
            true => text.extend_from_slice(millimetres(number).as_bytes()),
            false => csv::put(text, number),
        }
    }
}

/// The value of `--thinner-than`, in micrometres.
fn thickness_asked(value: &[u8]) -> Result<i64, Stop> {
    let number = std::str::from_utf8(value).ok().and_then(micrometres).filter(|number| *number > 0);
    number.ok_or_else(|| {
        let value = shown::path(value);
        Stop::Usage(format!("'--thinner-than' takes millimetres above 0 with three decimals at most, as 2.5, and not '{value}'"))
    })
}

/// Micrometres as millimetres, with three decimals.
pub fn millimetres(number: i64) -> String {
    let (sign, size) = (if number < 0 { "-" } else { "" }, number.unsigned_abs());
    format!("{sign}{}.{:03}", size / 1000, size % 1000)
}

/// How thick a wall is; an open one has no thickness.
pub fn thickness(wall: &Wall) -> Option<i64> {
    (!wall.is_open()).then(|| wall.length().into())
}

/// Walls that are written one after the other, and what they were so far.
pub struct WallTable<'a> {
    wanted: Wanted,
    names: Vec<Cow<'a, str>>,
    walls: u64,
    /// How many lines have walls, and the last of them.
    lines: u64,
    last: Option<u32>,
    open: u64,
    thin: u64,
    thinnest: Option<(i64, Wall)>,
}

impl<'a> WallTable<'a> {
    pub fn of(wanted: Wanted, names: &[&'a str]) -> WallTable<'a> {
        let names = names.iter().map(|name| csv::quoted(name)).collect();
        WallTable { wanted, names, walls: 0, lines: 0, last: None, open: 0, thin: 0, thinnest: None }
    }

    /// 3 where a wall is thinner than it may be.
    pub fn status(&self) -> u8 {
        if self.thin > 0 {
            3
        } else {
            0
        }
    }

    /// Puts a wall behind a text, if it is one of those that are asked for; its line is given where points are.
    pub fn put(&mut self, text: &mut Vec<u8>, wall: &Wall, line: Option<&Probe>) {
        let thick = thickness(wall);
        self.walls += 1;
        self.lines += u64::from(self.last.replace(wall.line) != Some(wall.line));
        self.open += u64::from(thick.is_none());
        if let Some(thick) = thick.filter(|thick| self.thinnest.as_ref().map_or(true, |(least, _)| thick < least)) {
            self.thinnest = Some((thick, *wall));
        }
        if let Some(most) = self.wanted.thinner_than {
            if thick.map_or(true, |thick| thick >= most) {
                return;
            }
            self.thin += 1;
        }
        self.row(text, wall, thick, line);
    }

    /// An open end has no shape, and no name is empty.
    fn row(&self, text: &mut Vec<u8>, wall: &Wall, thick: Option<i64>, line: Option<&Probe>) {
        csv::put(text, wall.line.into());
        for (end, open) in [(wall.start, wall.start == OPEN_START), (wall.end, wall.end == OPEN_END)] {
            text.push(b',');
            self.wanted.put(text, end.into(), open);
        }
        for shape in [wall.start_shape, wall.end_shape] {
            text.push(b',');
            text.extend_from_slice(self.name(shape).as_bytes());
        }
        if self.wanted.thickness {
            text.push(b',');
            thick.into_iter().for_each(|thick| self.wanted.put(text, thick, false));
        }
        if let Some(line) = line.filter(|_| self.wanted.points) {
            point(text, line, wall.start, wall.start == OPEN_START);
            point(text, line, wall.end, wall.end == OPEN_END);
        }
        text.push(b'\n');
    }

    fn name(&self, shape: u16) -> &str {
        self.names.get(usize::from(shape)).map_or("", |name| name)
    }

    /// What was found on so many lines, a row each; `more` are rows that only some commands can tell.
    pub fn summary(&self, lines: u64, more: &str) -> String {
        let mut text = format!("lines: {lines}\nwalls: {}\nthinnest wall: ", self.walls);
        let _ = match &self.thinnest {
            None => writeln!(text, "none"),
            Some((thick, wall)) => {
                let [thick, start, end] = [*thick, wall.start.into(), wall.end.into()].map(millimetres);
                let shapes = format!("{} to {}", self.name(wall.start_shape), self.name(wall.end_shape));
                writeln!(text, "{thick} mm on line {}, from {start} to {end} mm, {shapes}", wall.line)
            }
        };
        if let Some(most) = self.wanted.thinner_than {
            let _ = writeln!(text, "walls thinner than {} mm: {}", millimetres(most), self.thin);
        }
        let _ = writeln!(text, "open walls: {}\nlines that met no metal: {}", self.open, lines - self.lines);
        text + more
    }
}

/// Puts x, y and z of a position on a line behind a text, in millimetres; at an open end nothing.
fn point(text: &mut Vec<u8>, line: &Probe, position: i32, open: bool) {
    for (origin, component) in line.origin.iter().zip(line.direction) {
        text.push(b',');
        if !open {
            let written = format!("{:.3}", origin + component * (f64::from(position) / 1000.0));
            let nothing = written.bytes().all(|letter| b"-0.".contains(&letter));
            text.extend_from_slice(if nothing { b"0.000" } else { written.as_bytes() });
        }
    }
}

/// All walls of a list, with nothing else asked for.
#[cfg(test)]
pub fn walls_of(walls: &[Wall], names: &[&str]) -> Vec<u8> {
    let mut table = WallTable::of(Wanted::default(), names);
    let mut text = Wanted::default().heading().into_bytes();
    walls.iter().for_each(|wall| table.put(&mut text, wall, None));
    text
}

#[cfg(test)]
mod tests {
    use super::*;
    use kressedach::OPEN_SHAPE;

    const WHOLE: Wall = Wall { line: 7, start: -2147483647, end: 2147483646, start_shape: 0, end_shape: 1 };

    fn text(wanted: Wanted, walls: &[Wall]) -> (String, u8) {
        let mut table = WallTable::of(wanted, &["A", "a,b"]);
        let mut text = wanted.heading().into_bytes();
        let along = Probe { origin: [0.0, 0.5, -0.0001], direction: [0.0, -1.0, 0.0] };
        walls.iter().for_each(|wall| table.put(&mut text, wall, Some(&along)));
        (String::from_utf8(text).unwrap(), table.status())
    }

    #[test]
    fn thickness_has_64_bits() {
        assert_eq!(thickness(&WHOLE), Some(4294967293));
        assert_eq!(thickness(&Wall { start: OPEN_START, ..WHOLE }), None);
        assert_eq!(thickness(&Wall { end: OPEN_END, ..WHOLE }), None);
        let wanted = Wanted { thickness: true, ..Wanted::default() };
        let due = "line,start,end,start_shape,end_shape,thickness\n7,-2147483647,2147483646,A,\"a,b\",4294967293\n";
        assert_eq!(text(wanted, &[WHOLE]), (due.into(), 0));
    }

    #[test]
    fn units_points_and_open_ends() {
        let open = Wall { start: OPEN_START, start_shape: OPEN_SHAPE, end: -1500, ..WHOLE };
        let wanted = Wanted { thickness: true, mm: true, points: true, ..Wanted::default() };
        let due = "line,start_mm,end_mm,start_shape,end_shape,thickness_mm,start_x,start_y,start_z,end_x,end_y,end_z\n\
                   7,,-1.500,,\"a,b\",,,,,0.000,2.000,0.000\n";
        assert_eq!(text(wanted, &[open]), (due.into(), 0));
    }

    #[test]
    fn thin_walls_alone() {
        let thin = |end| Wall { start: 0, end, ..WHOLE };
        let wanted = Wanted { thinner_than: Some(3000), ..Wanted::default() };
        let due = "line,start,end,start_shape,end_shape\n7,0,2999,A,\"a,b\"\n";
        assert_eq!(text(wanted, &[thin(3000), thin(2999), thin(OPEN_END)]), (due.into(), 3));
        assert_eq!(text(wanted, &[thin(3000), thin(OPEN_END)]), ("line,start,end,start_shape,end_shape\n".into(), 0));
    }

    #[test]
    fn what_is_a_thickness() {
        for (value, due) in [("2.5", 2500), ("0.001", 1), ("3", 3000)] {
            assert_eq!(thickness_asked(value.as_bytes()).ok(), Some(due), "{value}");
        }
        for value in ["0", "-1", "", "2.0005", "3mm", "nan", "2,5"] {
            assert!(thickness_asked(value.as_bytes()).is_err(), "{value}");
        }
    }

    #[test]
    fn the_summary() {
        let mut table = WallTable::of(Wanted { thinner_than: Some(2000), ..Wanted::default() }, &["A", "a,b"]);
        assert_eq!(
            table.summary(0, ""),
            "lines: 0\nwalls: 0\nthinnest wall: none\nwalls thinner than 2.000 mm: 0\nopen walls: 0\nlines that met no metal: 0\n"
        );
        let walls = [WHOLE, Wall { start: 5, end: 1005, ..WHOLE }, Wall { start: 9, end: 1009, ..WHOLE }, Wall { end: OPEN_END, ..WHOLE }];
        walls.iter().for_each(|wall| table.put(&mut vec![], wall, None));
        let due = "lines: 2\nwalls: 4\nthinnest wall: 1.000 mm on line 7, from 0.005 to 1.005 mm, A to \"a,b\"\n\
                   walls thinner than 2.000 mm: 2\nopen walls: 1\nlines that met no metal: 1\nmore\n";
        assert_eq!(table.summary(2, "more\n"), due);
    }
}
