//! Lines through a box, parallel to an axis and evenly spaced.

use crate::answer::{Answer, Waiting};
use crate::asked::Asked;
use crate::drawing::micrometres;
use crate::shown;
use crate::stop::Stop;
use crate::wall_table::millimetres;
use std::io::{self, Write};

const AXES: [&str; 3] = ["x", "y", "z"];

/// Lines along an axis: where they begin on it, and where they stand on each of the others, in micrometres.
struct Raster {
    along: usize,
    begin: i64,
    /// By rising axis.
    across: [Steps; 2],
}

/// Places from a first one on, a pitch apart.
struct Steps {
    first: i64,
    pitch: i64,
    count: i64,
}

impl Steps {
    fn places(&self) -> impl Iterator<Item = i64> + '_ {
        (0..self.count).map(|k| self.first + k * self.pitch)
    }
}

/// No line has a greater number.
const MOST_LINES: i64 = 1 << 32;

pub fn raster(asked: &Asked) -> Result<Answer, Stop> {
    let [axis, corners, pitch] = [0, 1, 2].map(|place| String::from_utf8_lossy(asked.words()[place]));
    let raster = Raster::of(&axis, &corners, &pitch).map_err(Stop::Usage)?;
    let mut waiting = Waiting::begin(asked.output());
    raster.write(&mut waiting).map_err(|e| waiting.wrong(e))?;
    Ok(Answer::waited(waiting))
}

impl Raster {
    fn of(axis: &str, corners: &str, pitch: &str) -> Result<Raster, String> {
        let along = AXES.iter().position(|name| *name == axis);
        let along = along.ok_or_else(|| format!("AXIS is x, y or z, and not {}", shown::quoted(axis)))?;
        let (lows, highs) = the_box(corners)?;
        let wide = micrometres(pitch).filter(|pitch| *pitch >= 2);
        let due = "PITCH is in millimetres, with three decimals at most, and 0.002 at least";
        let pitch = wide.ok_or_else(|| format!("{due}; it is {}", shown::quoted(pitch)))?;
        let steps = |axis: usize| {
            let (first, high) = (lows[axis] + pitch / 2, highs[axis]);
            match first < high {
                true => Ok(Steps { first, pitch, count: (high - first + pitch - 1) / pitch }),
                false => {
                    let half = millimetres(pitch / 2);
                    Err(format!(
                        "BOX is {} mm wide in {}, and the first line would stand at {half} mm",
                        millimetres(high - lows[axis]),
                        AXES[axis]
                    ))
                }
            }
        };
        let across = match along {
            0 => [steps(1)?, steps(2)?],
            1 => [steps(0)?, steps(2)?],
            _ => [steps(0)?, steps(1)?],
        };
        match across[0].count.checked_mul(across[1].count) {
            Some(..=MOST_LINES) => Ok(Raster { along, begin: lows[along], across }),
            _ => Err(format!("{} times {} lines: more than {MOST_LINES}, which are the most", across[0].count, across[1].count)),
        }
    }

    /// LINES: the first of the other axes goes through all its places at each of the second's.
    fn write(&self, to: &mut impl Write) -> io::Result<()> {
        writeln!(to, "line,x,y,z,dx,dy,dz")?;
        let [inner, outer] = &self.across;
        let direction = ["1,0,0", "0,1,0", "0,0,1"][self.along];
        let mut number = 0u64;
        for second in outer.places() {
            for first in inner.places() {
                let mut origin = [first, second].map(millimetres).to_vec();
                origin.insert(self.along, millimetres(self.begin));
                writeln!(to, "{number},{},{direction}", origin.join(","))?;
                number += 1;
            }
        }
        Ok(())
    }
}

/// Three lows and three highs, in micrometres; a drawing has a kilometre at most.
fn the_box(corners: &str) -> Result<([i64; 3], [i64; 3]), String> {
    let due = "BOX is low_x,low_y,low_z,high_x,high_y,high_z in millimetres, with three decimals at most";
    let numbers: Option<Vec<i64>> = corners.split(',').map(|number| micrometres(number.trim())).collect();
    let Some([a, b, c, d, e, f]) = numbers.as_deref() else { return Err(format!("{due}; it is {}", shown::quoted(corners))) };
    let (lows, highs) = ([*a, *b, *c], [*d, *e, *f]);
    if let Some(axis) = (0..3).find(|axis| lows[*axis] >= highs[*axis]) {
        let [low, high] = [lows[axis], highs[axis]].map(millimetres);
        return Err(format!("BOX has low_{0} {low}, which is not below high_{0} {high}", AXES[axis]));
    }
    let far = 1_000_000_000;
    match numbers.iter().flatten().find(|number| number.abs() > far) {
        Some(number) => Err(format!("BOX has {}, which is farther than {} mm", millimetres(*number), far / 1000)),
        None => Ok((lows, highs)),
    }
}

#[cfg(test)]
mod tests {
    use super::*;

    fn lines(axis: &str, corners: &str, pitch: &str) -> Result<Vec<String>, String> {
        let mut text = Vec::new();
        Raster::of(axis, corners, pitch)?.write(&mut text).unwrap();
        Ok(String::from_utf8(text).unwrap().lines().skip(1).map(String::from).collect())
    }

    #[test]
    fn along_each_axis() {
        let x = ["0,0.000,0.500,0.500,1,0,0", "1,0.000,1.500,0.500,1,0,0", "2,0.000,0.500,1.500,1,0,0", "3,0.000,1.500,1.500,1,0,0"];
        assert_eq!(lines("x", "0,0,0,10,2,2", "1").unwrap(), x);
        assert_eq!(lines("y", "0,-1,0,1,2,1.001", "1").unwrap(), ["0,0.500,-1.000,0.500,0,1,0"]);
        assert_eq!(lines("z", "-1,-0.5,-3,1,0.5,2", "1").unwrap(), ["0,-0.500,0.000,-3.000,0,0,1", "1,0.500,0.000,-3.000,0,0,1"]);
    }

    /// A last step that is not whole has a line where its middle still lies in the box; half of an odd pitch is rounded down.
    #[test]
    fn steps_that_are_not_whole() {
        let last = |wide: &str, pitch: &str| lines("z", &format!("0,0,0,{wide},{wide},1"), pitch).unwrap().pop().unwrap();
        assert_eq!(last("2.5", "1"), "3,1.500,1.500,0.000,0,0,1");
        assert_eq!(last("2.501", "1"), "8,2.500,2.500,0.000,0,0,1");
        assert_eq!(last("0.2", "0.125"), "3,0.187,0.187,0.000,0,0,1");
        assert_eq!(last("0.187", "0.125"), "0,0.062,0.062,0.000,0,0,1");
    }

    #[test]
    fn wrong_words() {
        for (axis, corners, pitch) in [
            ("w", "0,0,0,1,1,1", "1"),
            ("X", "0,0,0,1,1,1", "1"),
            ("x", "0,0,0,1,1", "1"),
            ("x", "0,0,0,1,1,1,1", "1"),
            ("x", "0,0,0,1,1,a", "1"),
            ("x", "0,0,0,1,0,1", "1"),
            ("x", "0,0,0,1,1,1", "0"),
            ("x", "0,0,0,1,1,1", "0.001"),
            ("x", "0,0,0,1,1,1", "-1"),
            ("x", "0,0,0,1,1,1", "2"),
            ("x", "0,0,0,1,1000000.001,1", "1"),
            ("x", "-1000000,-1000000,-1000000,1000000,1000000,1000000", "0.002"),
        ] {
            assert!(lines(axis, corners, pitch).is_err(), "{axis} {corners} {pitch}");
        }
    }
}
