//! Many lines and one drawing, case by case, of the plain implementation.

use peer::crossings::{cross, Probe, Shapes};
use peer::many::{cross_many, CrossedLines, LineRefused};
use peer::Refused;

const ROOM: [usize; 4] = [usize::MAX; 4];
const BOX: u8 = 255;

type Answer = Result<CrossedLines, LineRefused>;

fn refused(number: u8, place: usize, line: usize) -> Answer {
    Err(LineRefused { refused: Refused { number, sheet: 0, place }, line })
}

fn given(lines: usize, rows: &[u8], crossings: &[(u32, i32, u16)]) -> Answer {
    Ok(CrossedLines { lines, rows: rows.to_vec(), crossings: crossings.to_vec() })
}

/// Along x, through this y and z = 1.
fn along(y: f64) -> [f64; 6] {
    [0.0, y, 1.0, 1.0, 0.0, 0.0]
}

const STILL: [f64; 6] = [0.0; 6];

/// Below x = 5, and a box from 2 to 3 on x, from 0 to 2 on y and z.
const DRAWING: Shapes = Shapes { kinds: &[0, BOX], numbers: &[5.0, 0.0, 0.0, 0.0, 0.0, 0.0, 2.0, 0.0, 0.0, 3.0, 2.0, 2.0] };

fn crossed(lines: &[[f64; 6]], shapes: Shapes) -> Answer {
    cross_many(lines.as_flattened(), shapes, ROOM)
}

#[test]
fn each_line_has_what_it_has_alone() {
    let lines = [along(1.0), along(9.0), [0.0, 1.0, 1.0, -1.0, 0.0, 0.0], [9.0, 1.0, 1.0, 0.0, 0.0, 2.0]];
    let crossings = [(0, 2000, 1), (0, 3000, 1), (0, 5000, 0), (1, 5000, 0), (2, -5000, 0), (2, -3000, 1), (2, -2000, 1)];
    assert_eq!(crossed(&lines, DRAWING), given(4, &[1, 0, 1, 0, 0, 0, 0, 0], &crossings));
    for (line, [a, b, c, d, e, f]) in lines.into_iter().enumerate() {
        let alone = cross(Probe { origin: [a, b, c], direction: [d, e, f] }, DRAWING, [usize::MAX; 3]).unwrap();
        assert!(alone.crossings.into_iter().eq(crossings.iter().filter(|c| c.0 as usize == line).map(|c| (c.1, c.2))));
    }
}

#[test]
fn no_lines_are_given_and_no_shape_is_looked_at() {
    assert_eq!(crossed(&[], DRAWING), given(0, &[], &[]));
    assert_eq!(crossed(&[], Shapes { kinds: &[3], numbers: &[] }), given(0, &[], &[]));
    assert_eq!(cross_many(&[], DRAWING, [0; 4]), given(0, &[], &[]));
}

#[test]
fn with_no_shapes_lines_are_judged() {
    let none = Shapes { kinds: &[], numbers: &[] };
    assert_eq!(cross_many([along(1.0); 2].as_flattened(), none, [0; 4]), given(2, &[], &[]));
    assert_eq!(crossed(&[along(1.0), STILL], none), refused(16, 65535, 1));
}

#[test]
fn more_than_256_shapes_come_before_all_lines() {
    let level = |count: usize| (vec![1u8; count], [9.0, 0.0, 0.0, 0.0, 0.0, 0.0].repeat(count));
    let (kinds, numbers) = level(257);
    let shapes = Shapes { kinds: &kinds, numbers: &numbers };
    for lines in [&[][..], &[STILL], &[along(1.0)]] {
        assert_eq!(crossed(lines, shapes), refused(16, 256, 0));
    }
    let (kinds, numbers) = level(256);
    assert_eq!(crossed(&[along(1.0); 2], Shapes { kinds: &kinds, numbers: &numbers }), given(2, &[1; 512], &[]));
}

#[test]
fn line_by_line_and_in_each_line_the_line_first() {
    let faulty = Shapes { kinds: &[BOX, 3], numbers: &[0.0, 0.0, 0.0, 1.0, 2.0, 2.0] };
    assert_eq!(crossed(&[along(1.0), along(1.0)], faulty), refused(16, 1, 0));
    assert_eq!(crossed(&[STILL, along(1.0)], faulty), refused(16, 65535, 0));
    assert_eq!(crossed(&[along(1.0), STILL], faulty), refused(16, 1, 0), "a wrong shape is refused at the first line");
    assert_eq!(crossed(&[along(1.0), along(2.0), STILL, STILL], DRAWING), refused(16, 65535, 2));
    // a position is out of range on the second line alone
    let far = [0.0, 1.0, 1.0, 1e-9, 0.0, 0.0];
    assert_eq!(crossed(&[along(1.0), far, STILL], DRAWING), refused(16, 0, 1));
    assert_eq!(crossed(&[along(1.0), STILL, far], DRAWING), refused(16, 65535, 1));
}

#[test]
fn a_line_begun_counts() {
    let two = [along(1.0), along(1.0)].concat();
    for numbers in 7..12 {
        assert_eq!(cross_many(&two[..numbers], DRAWING, ROOM), refused(16, 65535, 1), "{numbers} numbers");
    }
    assert_eq!(cross_many(&two[..6], DRAWING, ROOM).map(|crossed| crossed.lines), Ok(1));
    assert_eq!(cross_many(&[1.0], DRAWING, ROOM), refused(16, 65535, 0));
}

#[test]
fn nine_comes_last_for_rows_lines_positions_and_shapes_in_turn() {
    let lines = [along(1.0), along(9.0)].concat();
    let lent = |rooms| cross_many(&lines, DRAWING, rooms);
    assert_eq!(lent([3, 0, 0, 0]), refused(9, 4, 0));
    assert_eq!(lent([4, 3, 0, 0]), refused(9, 4, 0));
    assert_eq!(lent([4, 4, 3, 0]), refused(9, 4, 0));
    assert_eq!(lent([4, 4, 4, 3]), refused(9, 4, 0));
    assert_eq!(lent([4; 4]), given(2, &[1, 0, 1, 0], &[(0, 2000, 1), (0, 3000, 1), (0, 5000, 0), (1, 5000, 0)]));
    assert_eq!(cross_many(&[&lines[..], &STILL].concat(), DRAWING, [0; 4]), refused(16, 65535, 2), "a wrong last line comes before");
}

#[test]
fn a_zero_of_either_sign_is_no_component_on_every_line() {
    // The second axis goes from rising to level to level by the other zero to falling, over the same origin.
    let lines =
        [[0.0, 1.0, 1.0, 1.0, 1.0, 0.0], [0.0, 1.0, 1.0, 1.0, 0.0, 0.0], [0.0, 1.0, 1.0, 1.0, -0.0, 0.0], [0.0, 1.0, 1.0, 1.0, -1.0, 0.0]];
    let wide = Shapes { kinds: &[BOX], numbers: &[-2.0, 0.0, 0.0, 3.0, 2.0, 2.0] };
    let crossings = [(0, -1000, 0), (0, 1000, 0), (1, -2000, 0), (1, 3000, 0), (2, -2000, 0), (2, 3000, 0), (3, -1000, 0), (3, 1000, 0)];
    assert_eq!(crossed(&lines, wide), given(4, &[0; 4], &crossings));
    // an origin of zero, of either sign, is the same origin
    let level = |zero: f64| [zero, 1.0, 1.0, 1.0, 0.0, 0.0];
    assert_eq!(crossed(&[level(0.0), level(-0.0)], wide), given(2, &[0; 2], &[(0, -2000, 0), (0, 3000, 0), (1, -2000, 0), (1, 3000, 0)]));
}
