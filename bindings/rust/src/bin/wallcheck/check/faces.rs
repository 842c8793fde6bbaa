//! Lines that lie in a face: what they meet hangs on a hair.

use kressedach::{Probe, Shape};

const LOWS: [&str; 3] = ["low_x", "low_y", "low_z"];
const HIGHS: [&str; 3] = ["high_x", "high_y", "high_z"];

/// The face of a shape in which a line lies, by its column in SHAPES: the line's component there is zero, its origin is on the face, and on
/// the other axes it meets the shape.
pub fn face(line: &Probe, shape: &Shape) -> Option<&'static str> {
    let on = |axis: usize, at: f64| line.direction[axis] == 0.0 && line.origin[axis] == at;
    match shape {
        Shape::HalfSpace { axis, face } => on(*axis as usize, *face).then_some(HIGHS[*axis as usize]),
        Shape::Box { lows, highs } => {
            let sides = (0..3).flat_map(|axis| [(axis, lows[axis], LOWS[axis]), (axis, highs[axis], HIGHS[axis])]);
            let mut lies = sides.filter(|(axis, at, _)| on(*axis, *at) && meets(line, lows, highs, *axis));
            lies.next().map(|(_, _, side)| side)
        }
    }
}

/// Whether a line is between the lows and highs of all axes but one, for some way.
fn meets(line: &Probe, lows: &[f64; 3], highs: &[f64; 3], but: usize) -> bool {
    let (mut enters, mut leaves) = (f64::NEG_INFINITY, f64::INFINITY);
    for axis in (0..3).filter(|axis| *axis != but) {
        let (origin, component) = (line.origin[axis], line.direction[axis]);
        if component == 0.0 {
            if origin < lows[axis] || origin > highs[axis] {
                return false;
            }
            continue;
        }
        let [one, other] = [lows[axis], highs[axis]].map(|limit| (limit - origin) / component);
        (enters, leaves) = (enters.max(one.min(other)), leaves.min(one.max(other)));
    }
    enters < leaves
}

#[cfg(test)]
mod tests {
    use super::*;
    use kressedach::Axis;

    const BLOCK: Shape = Shape::Box { lows: [0.0, 0.0, 0.0], highs: [100.0, 40.0, 30.0] };

    fn lies(origin: [f64; 3], direction: [f64; 3]) -> Option<&'static str> {
        face(&Probe { origin, direction }, &BLOCK)
    }

    #[test]
    fn in_a_face_of_a_box() {
        assert_eq!(lies([-5.0, 0.0, 10.0], [1.0, 0.0, 0.0]), Some("low_y"));
        assert_eq!(lies([-5.0, 40.0, 10.0], [-1.0, 0.0, 0.0]), Some("high_y"));
        assert_eq!(lies([-5.0, 40.0, 30.0], [1.0, 0.0, -0.0]), Some("high_y"), "an edge");
        assert_eq!(lies([-3.0, -4.0, 30.0], [0.6, 0.8, 0.0]), Some("high_z"), "at a slant");
        assert_eq!(lies([-5.0, 20.0, 10.0], [1.0, 0.0, 0.0]), None, "through it");
        assert_eq!(lies([-5.0, 0.0, 30.5], [1.0, 0.0, 0.0]), None, "beside it");
        assert_eq!(lies([-5.0, 0.0, 10.0], [0.8, 0.6, 0.0]), None, "only its origin is level with the face");
        assert_eq!(lies([0.0, -10.0, 30.0], [-0.6, 0.8, 0.0]), None, "past a corner");
        assert_eq!(lies([10.0, -10.0, 30.0], [-1.0, 1.0, 0.0]), None, "at a corner");
    }

    #[test]
    fn in_the_face_of_a_half_space() {
        let below = Shape::HalfSpace { axis: Axis::Z, face: 25.0 };
        let lies = |z: f64, dz: f64| face(&Probe { origin: [0.0, 0.0, z], direction: [1.0, 0.0, dz] }, &below);
        assert_eq!(lies(25.0, 0.0), Some("high_z"));
        assert_eq!((lies(24.9, 0.0), lies(25.0, 0.1)), (None, None));
    }
}
