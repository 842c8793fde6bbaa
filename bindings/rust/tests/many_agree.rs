//! The crossing maker for many lines and the plain implementation in `peer`, which goes line by line, agree: on many cases made from a
//! seed, on every two reasons to refuse, on all ways in which an axis follows another, and at the ends of the range.
//!
//! Reports are compared field by field, as they cross the boundary, and every answer list from end to end, with entries before and after it
//! that were not lent. `KRESSEDACH_CROSSINGS` and `KRESSEDACH_SEED` say how many cases and from which seed. A difference prints its case.

#[allow(dead_code)]
#[path = "../src/ffi.rs"]
mod ffi;
mod lent;
#[allow(dead_code)]
mod zeros;

use kressedach::{Lines, ManyLists, Probe, Shape, ShapeLists, WallLists, BOX};
use lent::{rooms, Lent};
use peer::crossings::Shapes;
use peer::drawings::{next_down, next_up, EXTREME};
use peer::lines::Crossings;
use peer::make::{self, Dice};
use peer::many::{CrossedLines, LineRefused};
use peer::rasters::{self, Raster};
use peer::sheet::Sheets;
use peer::{from_env, say};
use std::time::Instant;
use zeros::Zeros;

/// One call. A room is the length of an answer list: rows, lines, positions, shapes.
#[derive(Debug)]
struct Case {
    raster: Raster,
    rooms: [usize; 4],
}

/// What a call answers: number, place, line, lines, crossings.
type Report = [usize; 5];

fn theirs(raster: &Raster, rooms: [usize; 4]) -> Result<CrossedLines, LineRefused> {
    peer::many::cross_many(&raster.lines, Shapes { kinds: &raster.kinds, numbers: &raster.numbers }, rooms)
}

/// How many entries each list needs; some where the call is refused anyway.
fn needed(raster: &Raster) -> [usize; 4] {
    theirs(raster, [usize::MAX; 4])
        .map_or([3, 5, 5, 5], |all| [all.rows.len(), all.crossings.len(), all.crossings.len(), all.crossings.len()])
}

fn ours(raster: &Raster, lists: &mut ManyLists) -> Report {
    let Raster { lines, kinds, numbers } = raster;
    // SAFETY: slices are pointers to that many entries; those that are written are borrowed by nobody else.
    let r = unsafe {
        ffi::reported(|report| {
            ffi::kressedach_cross_many(
                report,
                kinds.as_ptr(),
                kinds.len(),
                numbers.as_ptr(),
                numbers.len(),
                lines.as_ptr(),
                lines.len(),
                lists.rows.as_mut_ptr(),
                lists.rows.len(),
                lists.lines.as_mut_ptr(),
                lists.lines.len(),
                lists.positions.as_mut_ptr(),
                lists.positions.len(),
                lists.shapes.as_mut_ptr(),
                lists.shapes.len(),
            )
        })
    };
    [r.number.into(), r.place, r.line, r.lines, r.crossings]
}

fn report(due: &Result<CrossedLines, LineRefused>) -> Report {
    match due {
        Ok(all) => [0, 0, 0, all.lines, all.crossings.len()],
        Err(LineRefused { refused, line }) => [refused.number.into(), refused.place, *line, 0, 0],
    }
}

/// What a case shows.
const SHOWN: [&str; 13] = [
    "crossed",
    "not crossed",
    "no lines",
    "no shapes",
    "too many shapes",
    "the first line",
    "a later line",
    "a shape on the first line",
    "a shape on a later line",
    "9 for rows",
    "9 for lines",
    "9 for positions",
    "9 for shapes",
];

fn shown(case: &Case, report: Report) -> usize {
    let first_short = || case.rooms.iter().zip(needed(&case.raster)).position(|(room, need)| *room < need);
    match report {
        [0, .., 0, _] => 2,
        [0, ..] if case.raster.kinds.is_empty() => 3,
        [0, .., crossings] => usize::from(crossings == 0),
        [16, 256, ..] => 4,
        [16, place, line, ..] => 5 + usize::from(line > 0) + 2 * usize::from(place != 65535),
        _ => 9 + first_short().unwrap_or(4),
    }
}

/// Calls the library and the plain implementation. Gives what the case shows, or in what they differ.
fn compare(case: &Case) -> Result<usize, String> {
    let [a, b, c, d] = case.rooms;
    let (mut rows, mut lines) = (Lent::new(a, |k| k as u8), Lent::new(b, |k| k as u32));
    let (mut positions, mut shapes) = (Lent::new(c, |k| k as i32), Lent::new(d, |k| k as u16));
    let mut lists = ManyLists { rows: rows.list(), lines: lines.list(), positions: positions.list(), shapes: shapes.list() };
    let got = ours(&case.raster, &mut lists);
    let due = theirs(&case.raster, case.rooms);
    if got != report(&due) {
        return Err(format!("number, place, line, lines and crossings are {got:?}, due are {:?}", report(&due)));
    }
    let crossings = || due.iter().flat_map(|all| all.crossings.iter().copied());
    rows.check("rows", due.iter().flat_map(|all| all.rows.iter().copied()))?;
    lines.check("lines", crossings().map(|crossing| crossing.0))?;
    positions.check("positions", crossings().map(|crossing| crossing.1))?;
    shapes.check("shapes", crossings().map(|crossing| crossing.2))?;
    Ok(shown(case, got))
}

fn assert_same(case: Case) -> usize {
    compare(&case).unwrap_or_else(|difference| panic!("{difference}\n{case:?}"))
}

/// With room for exactly what is given, or for what would be.
fn assert_same_exact(raster: Raster) -> usize {
    let rooms = needed(&raster);
    assert_same(Case { raster, rooms })
}

#[test]
fn lines_from_a_seed() {
    let (seed, cases) = (from_env("KRESSEDACH_SEED", 1), from_env("KRESSEDACH_CROSSINGS", 100_000));
    let (began, mut seen) = (Instant::now(), [0u64; SHOWN.len()]);
    for number in 0..cases {
        let dice = &mut Dice::of(seed, number);
        let raster = rasters::raster(dice);
        let needed = needed(&raster);
        // two crossings a shape and line are always enough: now and then just that
        let most = 2 * raster.kinds.len() * raster.lines.len().div_ceil(6);
        let rooms = if dice.once_in(4) { [needed[0], most, most, most] } else { rooms(dice, needed) };
        let case = Case { raster, rooms };
        match compare(&case) {
            Ok(shown) => seen[shown] += 1,
            Err(difference) => panic!("seed {seed}, case {number}: {difference}\n{case:?}"),
        }
    }
    let list: Vec<String> = SHOWN.iter().zip(seen).map(|(what, times)| format!("{what} {times}")).collect();
    say(format!("{cases} cases of many lines agree, in {:.1} s: {}", began.elapsed().as_secs_f64(), list.join(", ")));
    assert!(cases < 100_000 || seen.iter().all(|times| *times >= 100), "{seen:?}");
}

/// What may be wrong in a call, at a line and at a shape.
const WRONG: [fn(&mut Case, usize, usize); 16] = [
    |case, _, _| case.raster.kinds.resize(257, 0),
    |case, line, _| case.raster.lines[6 * line + 1] = f64::NAN,
    |case, line, _| case.raster.lines[6 * line + 3] = f64::INFINITY,
    |case, line, _| case.raster.lines[6 * line + 3..6 * line + 6].copy_from_slice(&[0.0, -0.0, 0.0]),
    |case, line, _| case.raster.lines.truncate(6 * line + 5),
    // positions are out of range on this line alone
    |case, line, _| case.raster.lines[6 * line + 3] = 1e-9,
    |case, _, shape| case.raster.kinds[shape] = 3,
    |case, _, shape| case.raster.numbers[6 * shape] = f64::NEG_INFINITY,
    |case, _, shape| case.raster.numbers[6 * shape] = 3e6,
    // a low at its high, which only boxes have
    |case, _, shape| case.raster.numbers[6 * shape + 1] = case.raster.numbers[6 * shape + 4],
    |case, _, shape| (case.raster.numbers[6 * shape + 2], case.raster.numbers[6 * shape + 5]) = (-0.0, 0.0),
    |case, _, shape| case.raster.numbers.truncate(6 * shape),
    |case, _, _| case.rooms[0] = 11,
    |case, _, _| case.rooms[1] -= 1,
    |case, _, _| case.rooms[2] = 0,
    |case, _, _| case.rooms[3] -= 1,
];

/// Four lines and three shapes, a half-space between two boxes.
fn good() -> Raster {
    let line = |y: f64, dx: f64| [0.0, y, 1.0, dx, 0.0, 0.0];
    let solid = [2.0, 0.0, 0.0, 3.0, 2.0, 2.0];
    Raster {
        lines: [line(1.0, 1.0), line(1.0, 2.0), line(1.5, 2.0), line(9.0, -1.0)].concat(),
        kinds: vec![BOX, 0, BOX],
        numbers: [solid, [5.0, f64::NAN, 0.0, 0.0, 0.0, 0.0], [-2.0, -8.0, 0.5, 7.0, 8.0, 2.0]].concat(),
    }
}

/// Every two reasons to refuse: in one line, in two lines, in shapes and lines, with lists too short.
#[test]
fn every_two_reasons() {
    let rooms = needed(&good());
    assert_eq!((rooms, assert_same(Case { raster: good(), rooms })), ([12, 16, 16, 16], 0));
    let mut seen = [0u64; SHOWN.len()];
    for (first, second) in (0..WRONG.len()).flat_map(|first| (0..WRONG.len()).map(move |second| (first, second))) {
        for (a, b) in (0..4).flat_map(|a| (0..4).map(move |b| (a, b))) {
            for (i, j) in (0..3).flat_map(|i| (0..3).map(move |j| (i, j))) {
                let mut case = Case { raster: good(), rooms };
                WRONG[first](&mut case, a, i);
                // what is cut off cannot be changed
                let there = case.raster.lines.len() >= 6 * b + 6 && case.raster.numbers.len() >= 6 * j + 6;
                if there {
                    WRONG[second](&mut case, b, j);
                }
                seen[assert_same(case)] += 1;
            }
        }
    }
    assert!((4..SHOWN.len()).all(|k| seen[k] > 0), "{seen:?}");
}

/// The lines of these states of one axis, origin and component, the others kept as they are.
fn on_axis(axis: usize, states: &[(f64, f64)]) -> Vec<f64> {
    let line = |&(origin, component): &(f64, f64)| {
        let mut line = [0.25, 0.5, -0.25, 1.0, 1.0, 1.0];
        (line[axis], line[axis + 3]) = (origin, component);
        line
    };
    states.iter().flat_map(line).collect()
}

/// All ways in which three lines follow each other on one axis: kept, another origin, another component, zeros of either sign.
#[test]
fn an_axis_kept_or_changed() {
    let origins = [0.0, -0.0, 0.5, next_down(0.5), 2.0];
    let components = [0.0, -0.0, 1.0, -1.0, 3.0];
    let states: Vec<(f64, f64)> = origins.iter().flat_map(|origin| components.map(|component| (*origin, component))).collect();
    let mut seen = [0u64; SHOWN.len()];
    for (axis, zero) in (0..3).flat_map(|axis| [0.0, -0.0].map(|zero| (axis, zero))) {
        for (first, second) in states.iter().flat_map(|first| states.iter().map(move |second| (*first, *second))) {
            for third in &states {
                let lines = on_axis(axis, &[first, second, *third]);
                seen[assert_same_exact(Raster { lines, ..around_the_origins(zero) })] += 1;
            }
        }
    }
    assert_eq!(seen.iter().sum::<u64>(), seen[0], "all are crossed");
}

/// Shapes with faces at the origins of the lines, so that a box is missed by an origin on a face, and one that is met on every side.
fn around_the_origins(zero: f64) -> Raster {
    let faces = |face: f64| [face, zero, 0.0, 0.0, 0.0, 0.0];
    let boxes = [[-1.0, -1.0, -1.0, 1.0, 1.0, 1.0], [zero, zero, -3.0, 4.0, 4.0, 4.0], [-0.5, -0.5, -0.5, 0.5, 0.5, zero]];
    let numbers = [boxes[0], faces(zero), boxes[1], faces(0.5), boxes[2], faces(2.0)].concat();
    Raster { lines: Vec::new(), kinds: vec![BOX, 0, BOX, 1, BOX, 2], numbers }
}

/// All ways in which four lines follow each other where each axis has one of two states: none changes, one alone, two or all, and any of
/// them goes back to what it was.
#[test]
fn axes_kept_together() {
    for states in [[(0.25, 1.0), (0.5, 1.0)], [(0.25, 1.0), (0.25, -2.0)], [(0.0, 0.0), (-0.0, 1.0)], [(0.25, -0.0), (-0.75, 0.0)]] {
        // the third axis is never level, so that each line has a direction
        let third = [(0.125, 1.0), (-0.5, 3.0)];
        let line = |k: usize| {
            let [(x, dx), (y, dy), (z, dz)] = [states[k & 1], states[k >> 1 & 1], third[k >> 2 & 1]];
            [x, y, z, dx, dy, dz]
        };
        for (sequence, turn) in (0..8usize.pow(4)).flat_map(|sequence| (0..3).map(move |turn| (sequence, turn))) {
            let lines: Vec<f64> = (0..4).flat_map(|at| line(sequence >> (3 * at) & 7)).collect();
            let raster = turned(Raster { lines, ..around_the_origins(0.0) }, [turn, (turn + 1) % 3, (turn + 2) % 3]);
            assert_eq!(assert_same_exact(raster), 0);
        }
    }
}

/// The same lines and shapes, with these axes in the place of the first, the second and the third.
fn turned(mut raster: Raster, axes: [usize; 3]) -> Raster {
    for six in raster
        .lines
        .chunks_mut(6)
        .chain(raster.numbers.chunks_mut(6).zip(&raster.kinds).filter(|(_, kind)| **kind == BOX).map(|(six, _)| six))
    {
        let [a, b, c] = axes;
        let turned = [six[a], six[b], six[c], six[a + 3], six[b + 3], six[c + 3]];
        six.copy_from_slice(&turned);
    }
    for kind in raster.kinds.iter_mut().filter(|kind| **kind < 3) {
        *kind = axes.iter().position(|axis| axis == &usize::from(*kind)).unwrap_or_default() as u8;
    }
    raster
}

/// Grids as a raster gives them, along each axis there and back, and aslant, whichever axis changes first and whichever next.
#[test]
fn grids_along_every_axis() {
    let every = [[0, 1, 2], [0, 2, 1], [1, 0, 2], [1, 2, 0], [2, 0, 1], [2, 1, 0]];
    for (shapes, half_every) in
        [1, 2, 4, 15, 16, 17, 33, 64, 100, 255, 256].into_iter().flat_map(|shapes| [0, 1, 3].map(|half| (shapes, half)))
    {
        for (axes, aslant) in every.into_iter().flat_map(|axes| [false, true].map(|aslant| (axes, aslant))) {
            let there = rasters::plate(shapes, half_every, 6, aslant);
            let mut back = there.clone();
            back.lines.chunks_mut(6).flat_map(|line| &mut line[3..]).for_each(|component| *component = -*component);
            for raster in [there, back] {
                assert!(assert_same_exact(turned(raster, axes)) <= 1);
            }
        }
    }
}

/// A face whose distance lies within four numbers of an end of the range, of a half-space or of a box that may be missed, as the first of
/// many shapes, in their midst or as the last; on a line that keeps the axis of the one before it, or that comes nearer to the end. Origins
/// lie among the shapes or far from them, so that distances from zero say nothing of those from the line.
#[test]
fn at_the_ends_of_the_range() {
    let mut seen = [0u64; SHOWN.len()];
    let ends = [2147483646.0, 2147483646.5, 2147483647.0, -2147483647.0, -2147483647.5, -2147483648.0];
    for (axis, end) in (0..3).flat_map(|axis| ends.map(|end| (axis, end))) {
        for (component, origin) in
            [1.0, -1.0, 0.5, 3.0, -0.001, 1000.0].iter().flat_map(|c| [0.0, 0.25, -77.7, 1e6, -2.1e6].map(|o| (*c, o)))
        {
            let exact = end / 1000.0 * component + origin;
            for step in -4i64..=4 {
                let face = (0..step.abs()).fold(exact, |face: f64, _| if step > 0 { next_up(face) } else { next_down(face) });
                for (at, is_box) in [(0, false), (16, false), (0, true), (7, true), (16, true)] {
                    let lines = on_axis(axis, &[(origin, 0.0), (origin, component), (next_up(origin), component), (origin, component)]);
                    let mut raster = rasters::plate(17, 4, 1, false);
                    raster.lines = lines;
                    let mut six = [-1.0, -1.0, -1.0, 1.0, 1.0, 1.0];
                    if is_box {
                        six[if face < -1.0 { axis } else { axis + 3 }] = face;
                    } else {
                        six[0] = face;
                    }
                    raster.kinds[at] = if is_box { BOX } else { axis as u8 };
                    raster.numbers[6 * at..6 * at + 6].copy_from_slice(&six);
                    seen[assert_same_exact(raster)] += 1;
                }
            }
        }
    }
    assert!(seen[0] > 1000 && seen[8] > 1000, "{seen:?}");
}

/// Every extreme number in every field of a line that follows a good one and is followed by it, and of its shapes, two at a time.
#[test]
fn extremes_in_every_field() {
    let before = [0.5, 1.0, 1.5, 1.0, -2.0, 0.0];
    let good = [0.5, 1.0, 1.5, 1.0, -2.0, 0.0, 3.0, -1.0, -1.0, -1.0, 4.0, 5.0, 6.0];
    let mut seen = [0u64; SHOWN.len()];
    for (axis, first, second) in (0..3).flat_map(|axis| (0..13).flat_map(move |first| (0..13).map(move |second| (axis, first, second)))) {
        for (a, b) in EXTREME.iter().flat_map(|a| EXTREME.iter().map(move |b| (*a, *b))) {
            let mut fields = good;
            fields[first] = a;
            fields[second] = b;
            let lines = [&before, &fields[..6], &before].concat();
            let numbers = [&fields[6..7], &[f64::NAN; 5], &fields[7..13]].concat();
            seen[assert_same(Case { raster: Raster { lines, kinds: vec![axis, BOX], numbers }, rooms: [6, 9, 9, 9] })] += 1;
        }
    }
    assert!([0, 6, 7, 8].iter().all(|k| seen[*k] > 0), "{seen:?}");
}

/// Each list with exactly the room that is needed, with one entry less, with none, and with room for two crossings a shape and line.
#[test]
fn room_for_each_list() {
    for raster in [good(), rasters::plate(16, 4, 5, true), rasters::plate(40, 0, 4, false), rasters::scattered(40, 3, 4)] {
        let (needed, most) = (needed(&raster), 2 * raster.kinds.len() * raster.lines.len() / 6);
        for list in 0..4 {
            for (room, is_short) in
                [(needed[list], false), (needed[list] - 1, true), (0, true), (needed[list] + 1, false), (most - 1, false), (most, false)]
            {
                for others in [needed, [needed[0], most, most, most]] {
                    let mut rooms = others;
                    rooms[list] = room;
                    assert_eq!(assert_same(Case { raster: raster.clone(), rooms }), if is_short { 9 + list } else { 0 });
                }
            }
        }
    }
}

/// From no shapes to 257, boxes alone, half-spaces alone and both, on no line, on one and on nine.
#[test]
fn shapes_of_every_number() {
    for (shapes, half_every) in (0..=257).flat_map(|shapes| [0, 1, 4].map(|half_every| (shapes, half_every))) {
        for (side, aslant) in [(0, false), (1, false), (1, true), (3, false), (3, true)] {
            let due = match (shapes, side) {
                (257, _) => &[4][..],
                (_, 0) => &[2],
                (0, _) => &[3],
                _ => &[0, 1],
            };
            let shown = assert_same_exact(rasters::plate(shapes, half_every, side, aslant));
            assert!(due.contains(&shown), "{shapes} shapes, {side} lines a side: {}", SHOWN[shown]);
        }
    }
}

/// With no shapes lines are judged all the same, and with no lines no shape is looked at.
#[test]
fn with_no_shapes_or_no_lines() {
    let lines = [[0.0, 0.0, 0.0, 1.0, 0.0, 0.0], [0.0, 0.0, 0.0, 0.0, -0.0, 0.0]].concat();
    for (numbers, due) in [(0, 2), (5, 5), (6, 3), (7, 6), (12, 6)] {
        let raster = Raster { lines: lines[..numbers].to_vec(), kinds: vec![], numbers: vec![] };
        assert_eq!(assert_same(Case { raster, rooms: [0; 4] }), due, "{numbers} numbers");
    }
    let raster = Raster { lines: vec![], kinds: vec![3, 0, BOX], numbers: vec![f64::NAN; 4] };
    assert_eq!(assert_same(Case { raster, rooms: [0; 4] }), 2);
}

/// More lines than a number of 16 bits counts, and grids of lines through as many shapes as there may be.
#[test]
fn long_lists() {
    for (shapes, half_every, side, aslant) in
        [(2, 2, 300, true), (256, 0, 40, false), (256, 0, 40, true), (256, 3, 24, true), (256, 1, 20, true)]
    {
        assert_eq!(assert_same_exact(rasters::plate(shapes, half_every, side, aslant)), 0);
    }
    assert_eq!(assert_same_exact(rasters::scattered(256, 5, 30)), 0);
    // the last line of many is at fault
    let mut raster = rasters::plate(5, 4, 260, false);
    let at = raster.lines.len() - 1;
    raster.lines[at] = f64::NAN;
    assert_eq!(assert_same_exact(raster), 6);
}

/// 14 stands between too many shapes and the first line, whose direction is all zero here.
#[test]
fn more_lines_than_there_may_be() {
    let zeros = Zeros::of(6 * 4294967296 + 1);
    let refused = |lines: usize, shapes: usize| {
        let (lines, kinds) = (&zeros.numbers()[..lines], vec![3; shapes]);
        let due = peer::many::cross_many(lines, Shapes { kinds: &kinds, numbers: &[] }, [0; 4]).unwrap_err();
        let mut lists = ManyLists { rows: &mut [], lines: &mut [], positions: &mut [], shapes: &mut [] };
        let got = kressedach::cross_many_into(lines, ShapeLists { kinds: &kinds, numbers: &[] }, &mut lists).unwrap_err();
        assert_eq!((got.refusal.number(), got.refusal.place), (due.refused.number, due.refused.place));
        for threads in [0, 1, 2, 7] {
            assert_eq!(kressedach::cross_into_on(threads, lines, ShapeLists { kinds: &kinds, numbers: &[] }, &mut lists), Err(got));
        }
        (due.refused.number, due.refused.place, got.line)
    };
    assert_eq!(refused(6 * 4294967296, 1), (16, 65535, Some(0)));
    assert_eq!(refused(6 * 4294967296 + 1, 1), (14, 0, None));
    assert_eq!(refused(6 * 4294967296 + 1, 0), (14, 0, None));
    assert_eq!(refused(6 * 4294967296 + 1, 257), (16, 256, None));
}

/// What is given for many lines is what classifying takes, as it is, for sheets with as many names as shapes; and the walls are the peer's.
#[test]
fn what_is_given_is_classified() {
    let (mut calls, mut open) = (0, 0);
    for number in 0..5000 {
        let dice = &mut Dice::of(6, number);
        let Raster { lines, kinds, numbers } = rasters::raster(dice);
        let rows = kinds.len() * lines.len().div_ceil(6);
        let mut all = (vec![0; rows], vec![0; 2 * rows], vec![0; 2 * rows], vec![0; 2 * rows]);
        let mut lists = ManyLists { rows: &mut all.0, lines: &mut all.1, positions: &mut all.2, shapes: &mut all.3 };
        let Ok(counts) = kressedach::cross_many_into(&lines, ShapeLists { kinds: &kinds, numbers: &numbers }, &mut lists) else { continue };
        if kinds.is_empty() {
            continue;
        }
        let names = make::names(dice, kinds.len(), 8);
        let sheet = make::sheet(&names, &make::codes(dice, kinds.len(), kinds.len(), make::Form::Any));
        let n = counts.crossings;
        let crossings = Crossings { rows: &all.0, lines: &all.1[..n], positions: &all.2[..n], shapes: &all.3[..n] };
        let room = n / 2 + counts.lines;
        let due = peer::classify(Sheets::alone(&sheet), crossings, [room; 5]).unwrap();
        let mut walls = (vec![0; room], vec![0; room], vec![0; room], vec![0; room], vec![0; room]);
        let mut lent = WallLists {
            lines: &mut walls.0,
            starts: &mut walls.1,
            ends: &mut walls.2,
            start_shapes: &mut walls.3,
            end_shapes: &mut walls.4,
        };
        let Crossings { rows, lines, positions, shapes } = crossings;
        let got = kressedach::classify_into(&sheet, Lines { rows, lines, positions, shapes }, &mut lent);
        assert_eq!(got, Ok(due.len()));
        for (k, wall) in due.iter().enumerate() {
            assert_eq!((walls.0[k], walls.1[k], walls.2[k]), (wall.line, wall.start, wall.end));
            assert_eq!((walls.3[k], walls.4[k]), (wall.start_shape, wall.end_shape));
        }
        calls += 1;
        open += due.iter().filter(|wall| wall.start == kressedach::OPEN_START).count();
    }
    assert!(calls > 1000 && open > 1000, "{calls} calls, {open} lines that start in metal");
}

/// The answer in lists of its own is that in lent ones, also where lines are crossed in several blocks.
#[test]
fn lists_of_its_own() {
    let below = |k: usize| Shape::HalfSpace { axis: [kressedach::Axis::X, kressedach::Axis::Y][k % 2], face: k as f64 };
    let drawing: Vec<Shape> = (0..200).map(below).collect();
    for lines in [0, 1, 3, 2000] {
        let probes: Vec<Probe> = (0..lines).map(|k| Probe { origin: [k as f64, 0.5, 0.0], direction: [1.0, -2.0, 0.0] }).collect();
        let all = kressedach::cross_many(&probes, &drawing).unwrap();
        let alone: Vec<_> = probes.iter().map(|probe| kressedach::cross(*probe, &drawing).unwrap()).collect();
        assert!(all.rows.iter().eq(alone.iter().flat_map(|line| &line.starts)));
        assert!(all.lines.iter().copied().eq((0..lines as u32).flat_map(|line| [line; 200])));
        assert!(all.positions.iter().eq(alone.iter().flat_map(|line| &line.positions)));
        assert!(all.shapes.iter().eq(alone.iter().flat_map(|line| &line.shapes)));
    }
    let probe = Probe { origin: [0.0; 3], direction: [1.0; 3] };
    let mut probes = vec![probe; 2000];
    for wrong in [1999, 700, 3] {
        probes[wrong].direction = [0.0; 3];
        let refusal = kressedach::cross_many(&probes, &drawing).unwrap_err();
        assert_eq!((refusal.line, refusal.refusal.number(), refusal.refusal.place), (Some(wrong), 16, 65535));
    }
    let refusal = kressedach::cross_many(&[probe], &[below(0); 257]).unwrap_err();
    assert_eq!((refusal.line, refusal.refusal.number(), refusal.refusal.place), (None, 16, 256));
}
