//! K9 of document 02, case by case, of the plain implementation.

use peer::balls::cross;
use peer::crossings::Crossed;
use peer::Refused;

const ROOM: [usize; 3] = [256, 512, 512];

type Answer = Result<Crossed, Refused>;

fn refused(number: u8, place: usize) -> Answer {
    Err(Refused { number, sheet: 0, place })
}

fn given(starts: &[u8], crossings: &[(i32, u16)]) -> Answer {
    Ok(Crossed { starts: starts.to_vec(), crossings: crossings.to_vec() })
}

/// One ball: the positions of its crossings.
fn one(ball: [i32; 4]) -> Vec<i32> {
    let crossed = cross(&ball, ROOM).unwrap();
    assert_eq!(crossed.starts, [0], "every ball starts outside");
    crossed.crossings.iter().map(|crossing| crossing.0).collect()
}

#[test]
fn the_half_chord_is_the_greatest_whole_number_within() {
    assert_eq!(one([3, 0, 5, -10]), [-14, -6]);
    assert_eq!(one([-3, -4, 13, 100]), [88, 112]);
    assert_eq!(one([1, 1, 5, 0]), [-4, 4], "23 lies between 16 and 25");
    assert_eq!(one([0, 0, 1000000, 1000000000]), [999000000, 1001000000]);
    assert_eq!(one([0, 0, 1, -1000000000]), [-1000000001, -999999999]);
}

#[test]
fn around_perfect_squares() {
    assert_eq!(one([3, 4, 5, 0]), [0; 0], "a half chord of 0");
    assert_eq!(one([3, 5, 5, 0]), [0; 0], "a difference that is negative");
    assert_eq!(one([4, 4, 6, 0]), [-2, 2]);
    assert_eq!(one([5, 3, 6, 0]), [-1, 1]);
    assert_eq!(one([999999, 0, 1000000, 0]), [-1414, 1414], "1999999 lies between 1414 and 1415 squared");
}

#[test]
fn crossings_stand_in_order() {
    let numbers = [0, 0, 5, 0, 0, 0, 3, 2, 0, 0, 5, 0];
    assert_eq!(cross(&numbers, ROOM), given(&[0, 0, 0], &[(-5, 0), (-5, 2), (-1, 1), (5, 0), (5, 1), (5, 2)]));
}

#[test]
fn ranges_to_their_ends() {
    let good = [0, 0, 1, 0];
    for (place, low, high) in [(0, -1000000, 1000000), (1, -1000000, 1000000), (2, 1, 1000000), (3, -1000000000, 1000000000)] {
        for (value, within) in [(low, true), (high, true), (low - 1, false), (high + 1, false), (i32::MIN, false), (i32::MAX, false)] {
            let mut ball = good;
            ball[place] = value;
            let answer = cross(&[good, ball].concat(), ROOM);
            if within {
                assert!(answer.is_ok(), "{place} {value}");
            } else {
                assert_eq!(answer, refused(18, 1), "{place} {value}");
            }
        }
    }
}

#[test]
fn more_than_256_balls_are_refused_first() {
    assert_eq!(cross(&[9, 9, 1, 0].repeat(256), ROOM), given(&[0; 256], &[]));
    assert_eq!(cross(&[0; 4 * 256 + 1], ROOM), refused(18, 256));
}

#[test]
fn a_ball_begun_counts() {
    assert_eq!(cross(&[0, 0, 1, 0, 0], ROOM), refused(18, 1));
    assert_eq!(cross(&[0, 0, 1], ROOM), refused(18, 0));
    assert_eq!(cross(&[], ROOM), given(&[], &[]));
}

#[test]
fn nine_comes_last() {
    let balls = [0, 0, 5, 0, 9, 9, 1, 0];
    assert_eq!(cross(&balls, [1, 2, 2]), refused(9, 2));
    assert_eq!(cross(&balls, [2, 1, 0]), refused(9, 2));
    assert_eq!(cross(&balls, [2, 2, 1]), refused(9, 2));
    assert_eq!(cross(&[0, 0, 0, 0], [0; 3]), refused(18, 0));
}
