//! K4 of document 02, case by case, of the plain implementation.

use peer::crossings::{cross, Crossed, Probe, Shapes};
use peer::drawings::{next_down, next_up};
use peer::Refused;

const ROOM: [usize; 3] = [256, 512, 512];
const BOX: u8 = 255;

type Answer = Result<Crossed, Refused>;

fn refused(number: u8, place: usize) -> Answer {
    Err(Refused { number, sheet: 0, place })
}

fn given(starts: &[u8], crossings: &[(i32, u16)]) -> Answer {
    Ok(Crossed { starts: starts.to_vec(), crossings: crossings.to_vec() })
}

/// A line from an origin in a direction.
fn probe(origin: [f64; 3], direction: [f64; 3]) -> Probe {
    Probe { origin, direction }
}

/// The line along x through y = 1 and z = 1.
fn along() -> Probe {
    probe([0.0, 1.0, 1.0], [1.0, 0.0, 0.0])
}

fn crossed(probe: Probe, kinds: &[u8], numbers: &[[f64; 6]]) -> Answer {
    cross(probe, Shapes { kinds, numbers: &numbers.concat() }, ROOM)
}

fn face(face: f64) -> [f64; 6] {
    [face, f64::NAN, f64::NAN, f64::NAN, f64::NAN, f64::NAN]
}

/// One half-space on x, from the origin in this direction.
fn half(direction: f64, at: f64) -> Answer {
    crossed(probe([0.0; 3], [direction, 0.0, 0.0]), &[0], &[face(at)])
}

fn cube(low: f64, high: f64) -> [f64; 6] {
    [low, low, low, high, high, high]
}

#[test]
fn three_shapes_in_order() {
    let numbers = [[5.0, 0.0, 0.0, 6.0, 2.0, 2.0], face(6.0), [-1.0, 0.0, 0.0, 6.0, 2.0, 2.0]];
    let crossings = [(-1000, 2), (5000, 0), (6000, 0), (6000, 1), (6000, 2)];
    assert_eq!(crossed(along(), &[BOX, 0, BOX], &numbers), given(&[0, 1, 0], &crossings));
}

#[test]
fn a_half_space_starts_inside_exactly_if_the_component_is_positive() {
    assert_eq!(half(1.0, 7.0), given(&[1], &[(7000, 0)]));
    assert_eq!(half(-1.0, 7.0), given(&[0], &[(-7000, 0)]));
    assert_eq!(half(-1.0, -7.0), given(&[0], &[(7000, 0)]));
}

#[test]
fn halves_go_to_even() {
    for (at, position) in [(0.0005, 0), (0.0015, 2), (0.0025, 2), (-0.0005, 0), (-0.0015, -2), (-0.0025, -2)] {
        assert_eq!(half(1.0, at), given(&[1], &[(position, 0)]), "{at}");
    }
}

#[test]
fn each_operation_is_rounded_once() {
    // The quotients 2.0125 and 4.0375 are rounded before they are taken times 1000, and then no longer lie halfway.
    assert_eq!(half(40.0, 80.5), given(&[1], &[(2013, 0)]));
    assert_eq!(half(40.0, 161.5), given(&[1], &[(4037, 0)]));
}

#[test]
fn a_component_of_zero_of_either_sign_has_no_position() {
    for zero in [0.0, -0.0] {
        let level = probe([0.0, 1.0, 1.0], [1.0, zero, 0.0]);
        assert_eq!(crossed(level, &[1], &[face(2.0)]), given(&[1], &[]));
        assert_eq!(crossed(level, &[1], &[face(1.0)]), given(&[0], &[]), "an origin on the face is not below it");
        assert_eq!(crossed(level, &[1], &[face(1e300)]), given(&[1], &[]), "a face with no position is judged by none");
        assert_eq!(crossed(level, &[BOX], &[cube(0.0, 2.0)]), given(&[0], &[(0, 0), (2000, 0)]));
        assert_eq!(crossed(level, &[BOX], &[cube(1.0, 2.0)]), given(&[0], &[]), "an origin on a face is not between");
        assert_eq!(crossed(level, &[BOX], &[cube(0.0, 1.0)]), given(&[0], &[]));
    }
}

#[test]
fn a_box_is_entered_last_and_left_first() {
    let slanted = probe([0.0; 3], [1.0, 2.0, 4.0]);
    assert_eq!(crossed(slanted, &[BOX], &[[1.0, 1.0, 1.0, 5.0, 5.0, 5.0]]), given(&[0], &[(1000, 0), (1250, 0)]));
    let back = probe([0.0; 3], [-1.0, -2.0, -4.0]);
    assert_eq!(crossed(back, &[BOX], &[[1.0, 1.0, 1.0, 5.0, 5.0, 5.0]]), given(&[0], &[(-1250, 0), (-1000, 0)]));
}

#[test]
fn a_box_that_is_touched_has_no_crossing() {
    let slanted = probe([0.0; 3], [1.0, 1.0, 0.5]);
    assert_eq!(crossed(slanted, &[BOX], &[[1.0, 0.0, 0.0, 2.0, 1.0, 9.0]]), given(&[0], &[]));
    assert_eq!(crossed(slanted, &[BOX], &[[1.0, -1.0, 0.0, 2.0, 0.5, 9.0]]), given(&[0], &[]));
}

#[test]
fn the_range_is_judged_after_rounding() {
    // These distances are 2147483646.4999998 and 2147483646.5000002, -2147483647.4999995 and -2147483647.5.
    assert_eq!(half(1.0, 2147483.6465), given(&[1], &[(2147483646, 0)]));
    assert_eq!(half(1.0, next_up(2147483.6465)), refused(16, 0));
    assert_eq!(half(1.0, -next_down(2147483.6475)), given(&[1], &[(-2147483647, 0)]));
    assert_eq!(half(1.0, -2147483.6475), refused(16, 0));
}

#[test]
fn the_line_is_judged_before_any_shape() {
    let faulty = [face(f64::NAN)];
    for bad in [f64::NAN, f64::INFINITY, f64::NEG_INFINITY] {
        for place in 0..3 {
            let (mut origin, mut direction) = ([0.0; 3], [1.0; 3]);
            origin[place] = bad;
            assert_eq!(crossed(probe(origin, [1.0; 3]), &[0], &faulty), refused(16, 65535));
            direction[place] = bad;
            assert_eq!(crossed(probe([0.0; 3], direction), &[0], &faulty), refused(16, 65535));
        }
    }
    assert_eq!(crossed(probe([0.0; 3], [0.0, -0.0, 0.0]), &[], &[]), refused(16, 65535));
    assert_eq!(crossed(probe([0.0; 3], [5e-324, 0.0, 0.0]), &[], &[]), given(&[], &[]));
}

#[test]
fn more_than_256_shapes_are_refused_first() {
    let level = vec![face(2.0); 257];
    assert_eq!(crossed(probe([f64::NAN; 3], [0.0; 3]), &[1; 257], &level), refused(16, 256));
    assert_eq!(crossed(along(), &[1; 256], &level[..256]), given(&[1; 256], &[]));
}

#[test]
fn the_first_shape_at_fault_is_named() {
    let good = cube(0.0, 2.0);
    assert_eq!(crossed(along(), &[BOX, 3, 0], &[good, good, face(f64::NAN)]), refused(16, 1));
    assert_eq!(crossed(along(), &[BOX, 254], &[good, good]), refused(16, 1));
    for place in 0..6 {
        for bad in [f64::NAN, f64::INFINITY, f64::NEG_INFINITY] {
            let mut numbers = good;
            numbers[place] = bad;
            assert_eq!(crossed(along(), &[BOX, BOX], &[good, numbers]), refused(16, 1));
        }
    }
    for axis in 0..3 {
        let mut flat = good;
        flat[axis] = flat[axis + 3];
        assert_eq!(crossed(along(), &[BOX], &[flat]), refused(16, 0));
    }
    assert_eq!(half(1.0, f64::INFINITY), refused(16, 0));
    assert_eq!(half(1e-300, 1e300), refused(16, 0), "a distance that is not finite");
}

#[test]
fn a_missed_box_is_judged_too() {
    let far = [3e6, 5.0, 5.0, 4e6, 6.0, 6.0];
    assert_eq!(crossed(along(), &[BOX], &[far]), refused(16, 0));
    assert_eq!(crossed(along(), &[BOX], &[[3.0, 5.0, 5.0, 4.0, 6.0, 6.0]]), given(&[0], &[]));
}

#[test]
fn numbers_lacking_are_not_finite_and_those_past_the_last_shape_are_not_looked_at() {
    let shapes = |numbers: &'static [f64]| Shapes { kinds: &[0, BOX], numbers };
    assert_eq!(cross(along(), shapes(&[]), ROOM), refused(16, 0));
    assert_eq!(cross(along(), shapes(&[1.0]), ROOM), refused(16, 1));
    assert_eq!(cross(along(), shapes(&[1.0, 0.0, 0.0, 0.0, 0.0, 0.0, 3.0, 0.0, 0.0, 4.0, 2.0]), ROOM), refused(16, 1));
    let all = [1.0, 0.0, 0.0, 0.0, 0.0, 0.0, 3.0, 0.0, 0.0, 4.0, 2.0, 2.0, f64::NAN];
    assert_eq!(cross(along(), Shapes { kinds: &[0, BOX], numbers: &all }, ROOM), given(&[1, 0], &[(1000, 0), (3000, 1), (4000, 1)]));
}

#[test]
fn nine_comes_last_for_start_row_positions_and_shapes_in_turn() {
    let numbers = [face(1.0), cube(0.0, 2.0)].concat();
    let lent = |rooms| cross(along(), Shapes { kinds: &[0, BOX], numbers: &numbers }, rooms);
    assert_eq!(lent([1, 0, 0]), refused(9, 2));
    assert_eq!(lent([2, 2, 0]), refused(9, 3));
    assert_eq!(lent([2, 3, 2]), refused(9, 3));
    assert_eq!(lent([2, 3, 3]), given(&[1, 0], &[(0, 1), (1000, 0), (2000, 1)]));
    assert_eq!(cross(along(), Shapes { kinds: &[3], numbers: &[] }, [0; 3]), refused(16, 0));
}
