//! The length of a line's direction: positions are micrometres where it is 1.

use crate::drawing::Line;

/// By how much a length may differ from 1.
const TOLERANCE: f64 = 1e-6;

/// The length of a direction; none where it is zero or not finite, which is for the library to refuse.
pub fn length(direction: [f64; 3]) -> Option<f64> {
    scaled(direction).map(|(most, _, length)| most * length)
}

/// Whether a length is 1, within a part in a million.
pub fn is_one(length: f64) -> bool {
    (length - 1.0).abs() <= TOLERANCE
}

/// Asks every line for a direction of length 1, or makes it so.
pub struct Lengths {
    normalise: bool,
    /// How many were made so, and the first of them.
    made: u64,
    first: Option<String>,
}

impl Lengths {
    pub fn of(normalise: bool) -> Lengths {
        Lengths { normalise, made: 0, first: None }
    }

    /// A direction that is zero or not finite is for the library to refuse.
    pub fn judge(&mut self, line: &mut Line) -> Result<(), String> {
        let Some(length) = length(line.probe.direction) else { return Ok(()) };
        let has = || format!("the direction has length {length}");
        if !self.normalise {
            return match is_one(length) {
                true => Ok(()),
                false => Err(has() + ", and not 1: positions would not be micrometres; --normalise divides by it"),
            };
        }
        let made = normalised(line.probe.direction);
        if made != line.probe.direction {
            self.made += 1;
            self.first.get_or_insert_with(|| format!("row {}: {}", line.row, has()));
        }
        line.probe.direction = made;
        Ok(())
    }

    /// How many were made so, if any.
    pub fn said(&self) -> Option<String> {
        let many = match self.made {
            1 => "1 direction is divided by its length".into(),
            many => format!("{many} directions are divided by their length"),
        };
        self.first.as_ref().map(|first| format!("{first}; {many}"))
    }
}

/// The directions of another length, where none is asked for.
#[derive(Default)]
pub struct Others {
    /// The direction of the line before, as most lines have it too, and its length where that is another.
    last: ([f64; 3], Option<f64>),
    first: Option<(usize, f64)>,
    more: u64,
}

impl Others {
    pub fn look_at(&mut self, line: &Line) {
        let direction = line.probe.direction;
        if direction != self.last.0 {
            self.last = (direction, length(direction).filter(|length| !is_one(*length)));
        }
        match self.last.1 {
            Some(length) if self.first.is_none() => self.first = Some((line.row, length)),
            other => self.more += u64::from(other.is_some()),
        }
    }

    /// Where there are some, if any.
    pub fn said(&self) -> Option<String> {
        let (row, length) = self.first?;
        let more = if self.more == 0 { String::new() } else { format!(" (and {} rows more)", self.more) };
        Some(format!("row {row}: the direction has length {length}, and not 1{more}: positions are not micrometres"))
    }
}

/// A direction made of length 1: along an axis exactly 1 or -1, and else divided by its length where that is not 1.
pub fn normalised(direction: [f64; 3]) -> [f64; 3] {
    let along = direction.iter().filter(|component| **component != 0.0).count() == 1;
    match scaled(direction) {
        Some(_) if along => direction.map(|component| if component == 0.0 { component } else { component.signum() }),
        Some((most, parts, length)) if !is_one(most * length) => parts.map(|part| part / length),
        _ => direction,
    }
}

/// The greatest component's size, each component divided by it, and how long that is: no square of it is too great or too small.
fn scaled(direction: [f64; 3]) -> Option<(f64, [f64; 3], f64)> {
    let most = direction.iter().fold(0.0, |most: f64, component| most.max(component.abs()));
    if most == 0.0 || !direction.iter().all(|component| component.is_finite()) {
        return None;
    }
    let parts = direction.map(|component| component / most);
    Some((most, parts, parts.iter().map(|part| part * part).sum::<f64>().sqrt()))
}

#[cfg(test)]
mod tests {
    use super::*;

    #[test]
    fn lengths() {
        for (direction, due) in [([1.0, 0.0, 0.0], 1.0), ([3.0, 4.0, 0.0], 5.0), ([0.0, -2.0, 0.0], 2.0), ([6e200, 0.0, -8e200], 1e201)] {
            let length = length(direction).unwrap();
            assert!((length / due - 1.0).abs() < 1e-12, "{direction:?}: {length}");
        }
        for direction in [[0.0, -0.0, 0.0], [f64::NAN, 0.0, 1.0], [f64::INFINITY, 0.0, 0.0]] {
            assert_eq!(length(direction), None, "{direction:?}");
        }
    }

    #[test]
    fn a_part_in_a_million() {
        assert!([1.0, 1.0 + 0.9e-6, 1.0 - 0.9e-6].into_iter().all(is_one));
        assert!(![1.0 + 1.1e-6, 1.0 - 1.1e-6, 5.0, 0.0, f64::INFINITY].into_iter().any(is_one));
    }

    #[test]
    fn made_one() {
        assert_eq!(normalised([0.0, -1e-300, 0.0]), [0.0, -1.0, 0.0]);
        assert_eq!(normalised([0.0, 0.0, 0.9999999]), [0.0, 0.0, 1.0]);
        assert_eq!(normalised([3.0, 4.0, 0.0]), [0.6, 0.8, 0.0]);
        assert_eq!(normalised([0.6000001, 0.8, 0.0]), [0.6000001, 0.8, 0.0], "within a part in a million");
        for direction in [[1e-310, 2e-310, -1e-310], [f64::MAX, -f64::MAX, f64::MAX], [0.3, 0.2, 0.1]] {
            let one = normalised(direction);
            assert!((length(one).unwrap() - 1.0).abs() < 1e-12 && one[0].signum() == direction[0].signum(), "{direction:?}: {one:?}");
        }
    }
}
