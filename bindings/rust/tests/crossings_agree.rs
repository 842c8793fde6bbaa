//! The crossing makers and the plain implementation in `peer` agree: half-spaces and boxes (document 02, K4), and balls (K9), on many
//! cases made from a seed, and on every field's extremes.
//!
//! Answers and refusals are compared, and every answer list from end to end, with entries before and after it that were not lent.
//! `KRESSEDACH_CROSSINGS` and `KRESSEDACH_SEED` say how many cases of each and from which seed. A difference prints its case whole.

mod lent;

use kressedach::{Counts, LineLists, Refusal, ShapeLists};
use lent::{rooms, Lent};
use peer::crossings::{Crossed, Probe, Shapes};
use peer::drawings::{self, EXTREME};
use peer::make::{self, Dice};
use peer::{from_env, say, Refused};
use std::fmt::Debug;
use std::time::Instant;

/// One call of a crossing maker. A room is the length of an answer list.
#[derive(Debug)]
enum Case {
    Shapes { probe: Probe, kinds: Vec<u8>, numbers: Vec<f64>, rooms: [usize; 3] },
    Balls { numbers: Vec<i32>, rooms: [usize; 3] },
}

impl Case {
    fn ours(&self, lists: &mut LineLists) -> Result<Counts, Refusal> {
        match self {
            Case::Shapes { probe, kinds, numbers, .. } => {
                let probe = kressedach::Probe { origin: probe.origin, direction: probe.direction };
                kressedach::cross_into(probe, ShapeLists { kinds, numbers }, lists)
            }
            Case::Balls { numbers, .. } => kressedach::cross_balls_into(numbers, lists),
        }
    }

    fn theirs(&self) -> Result<Crossed, Refused> {
        match self {
            Case::Shapes { probe, kinds, numbers, rooms } => peer::crossings::cross(*probe, Shapes { kinds, numbers }, *rooms),
            Case::Balls { numbers, rooms } => peer::balls::cross(numbers, *rooms),
        }
    }

    fn rooms(&self) -> [usize; 3] {
        match self {
            Case::Shapes { rooms, .. } | Case::Balls { rooms, .. } => *rooms,
        }
    }
}

/// What a case shows: given with crossings or without, or why it is refused.
const SHOWN: [&str; 6] = ["crossed", "not crossed", "too many", "the line", "a shape", "9"];

/// Calls the library and the plain implementation. Gives what the case shows, or in what they differ.
fn compare(case: &Case) -> Result<usize, String> {
    let [a, b, c] = case.rooms();
    let (mut starts, mut positions, mut shapes) = (Lent::new(a, |k| k as u8), Lent::new(b, |k| k as i32), Lent::new(c, |k| k as u16));
    let got = case.ours(&mut LineLists { starts: starts.list(), positions: positions.list(), shapes: shapes.list() });
    let due = case.theirs();
    let got = got.map(|counts| (counts.shapes, counts.crossings)).map_err(|refusal| (refusal.number(), refusal.sheet, refusal.place));
    let counts = due
        .as_ref()
        .map(|crossed| (crossed.starts.len(), crossed.crossings.len()))
        .map_err(|refused| (refused.number, None, refused.place));
    if got != counts {
        return Err(format!("the answer is {got:?}, due is {counts:?}"));
    }
    let crossings = || due.iter().flat_map(|crossed| crossed.crossings.iter().copied());
    starts.check("starts", due.iter().flat_map(|crossed| crossed.starts.iter().copied()))?;
    positions.check("positions", crossings().map(|crossing| crossing.0))?;
    shapes.check("shapes", crossings().map(|crossing| crossing.1))?;
    Ok(match counts {
        Ok((_, crossings)) => usize::from(crossings == 0),
        Err((9, ..)) => 5,
        Err((_, _, place)) => match place {
            256 => 2,
            65535 => 3,
            _ => 4,
        },
    })
}

fn assert_same(case: Case) -> usize {
    compare(&case).unwrap_or_else(|difference| panic!("{difference}\n{case:?}"))
}

/// A call's answer lists: room for all that it gives, or sometimes less.
fn room_for(dice: &mut Dice, case: Result<Crossed, Refused>) -> [usize; 3] {
    let needed = case.map_or([3, 5, 5], |crossed| [crossed.starts.len(), crossed.crossings.len(), crossed.crossings.len()]);
    rooms(dice, needed)
}

/// Compares so many cases, and asks that each of these things is shown often.
fn agree_on(what: &str, make: impl Fn(&mut Dice) -> Case, can: &[usize]) {
    let (seed, cases) = (from_env("KRESSEDACH_SEED", 1), from_env("KRESSEDACH_CROSSINGS", 100_000));
    let (began, mut seen) = (Instant::now(), [0u64; SHOWN.len()]);
    for number in 0..cases {
        let case = make(&mut Dice::of(seed, number));
        match compare(&case) {
            Ok(shown) => seen[shown] += 1,
            Err(difference) => panic!("{what}: seed {seed}, case {number}: {difference}\n{case:?}"),
        }
    }
    let list: Vec<String> = SHOWN.iter().zip(seen).filter(|(_, times)| *times > 0).map(|(what, times)| format!("{what} {times}")).collect();
    say(format!("{cases} cases of {what} agree, in {:.1} s: {}", began.elapsed().as_secs_f64(), list.join(", ")));
    assert!(cases < 100_000 || can.iter().all(|shown| seen[*shown] >= 100), "{what}: {seen:?}");
}

#[test]
fn shapes_from_a_seed() {
    let make = |dice: &mut Dice| {
        let probe = drawings::probe(dice);
        let (kinds, numbers) = drawings::shapes(dice, &probe);
        let rooms = room_for(dice, peer::crossings::cross(probe, Shapes { kinds: &kinds, numbers: &numbers }, [usize::MAX; 3]));
        Case::Shapes { probe, kinds, numbers, rooms }
    };
    agree_on("half-spaces and boxes", make, &[0, 1, 2, 3, 4, 5]);
}

/// What a maker gives for a line is what classifying takes, its start row and its crossings as they are.
#[test]
fn what_is_given_is_classified() {
    let mut open = 0;
    for number in 0..5000 {
        let dice = &mut Dice::of(6, number);
        let probe = drawings::probe(dice);
        let (kinds, numbers) = drawings::shapes(dice, &probe);
        let (mut starts, mut positions, mut shapes) = (vec![0; kinds.len()], vec![0; 2 * kinds.len()], vec![0; 2 * kinds.len()]);
        let mut lists = LineLists { starts: &mut starts, positions: &mut positions, shapes: &mut shapes };
        let probe = kressedach::Probe { origin: probe.origin, direction: probe.direction };
        let Ok(counts) = kressedach::cross_into(probe, ShapeLists { kinds: &kinds, numbers: &numbers }, &mut lists) else { continue };
        if counts.shapes == 0 {
            continue;
        }
        let names = make::names(dice, counts.shapes, 8);
        let codes = make::codes(dice, counts.shapes, counts.shapes, make::Form::Any);
        let crossed =
            kressedach::Crossed { starts, positions: positions[..counts.crossings].to_vec(), shapes: shapes[..counts.crossings].to_vec() };
        let (inside, crossings): (Vec<_>, Vec<_>) = (crossed.inside(7).collect(), crossed.crossings(7).collect());
        let walls = kressedach::classify_from(&make::sheet(&names, &codes), &inside, &crossings).unwrap();
        open += walls.iter().filter(|wall| wall.start == kressedach::OPEN_START).count();
    }
    assert!(open > 100, "{open} lines that start in metal");
}

#[test]
fn balls_from_a_seed() {
    let make = |dice: &mut Dice| {
        let numbers = drawings::balls(dice);
        let rooms = room_for(dice, peer::balls::cross(&numbers, [usize::MAX; 3]));
        Case::Balls { numbers, rooms }
    };
    agree_on("balls", make, &[0, 1, 2, 4, 5]);
}

/// Every extreme number in every field of a line, of a half-space and of a box, alone and two at a time.
#[test]
fn extremes_in_every_field() {
    let good = [0.5, 1.0, 1.5, 1.0, -2.0, 0.0, 3.0, -1.0, -1.0, -1.0, 4.0, 5.0, 6.0];
    let case = |fields: &[f64; 13], axis: u8| {
        let probe = Probe { origin: [fields[0], fields[1], fields[2]], direction: [fields[3], fields[4], fields[5]] };
        let numbers = [&fields[6..7], &[f64::NAN; 5], &fields[7..13]].concat();
        Case::Shapes { probe, kinds: vec![axis, 255], numbers, rooms: [2, 3, 3] }
    };
    let mut shown = [0u64; SHOWN.len()];
    for (axis, first, second) in (0..3).flat_map(|axis| (0..13).flat_map(move |first| (0..13).map(move |second| (axis, first, second)))) {
        for (a, b) in EXTREME.iter().flat_map(|a| EXTREME.iter().map(move |b| (*a, *b))) {
            let mut fields = good;
            fields[first] = a;
            fields[second] = b;
            shown[assert_same(case(&fields, axis))] += 1;
        }
    }
    assert!([0, 1, 3, 4].iter().all(|k| shown[*k] > 0), "{shown:?}");
}

/// Each number of a ball at, just inside and just outside each end of its range, with all the others.
#[test]
fn balls_at_all_ends_of_their_ranges() {
    let ends = |low: i32, high: i32| [i32::MIN, low - 1, low, low + 1, 0, 3, high - 1, high, high + 1, i32::MAX];
    let (offsets, radii, centres) = (ends(-1_000_000, 1_000_000), ends(1, 1_000_000), ends(-1_000_000_000, 1_000_000_000));
    let mut shown = [0u64; SHOWN.len()];
    for (u, v) in offsets.iter().flat_map(|u| offsets.iter().map(move |v| (*u, *v))) {
        for (radius, centre) in radii.iter().flat_map(|radius| centres.iter().map(move |centre| (*radius, *centre))) {
            shown[assert_same(Case::Balls { numbers: vec![u, v, radius, centre], rooms: [1, 2, 2] })] += 1;
        }
    }
    assert!([0, 1, 4].iter().all(|k| shown[*k] > 0), "{shown:?}");
}

/// Each radius up to 300 with each offset up to it: every difference of two squares there, and those next to it by the other offset.
#[test]
fn balls_around_perfect_squares() {
    for (radius, u) in (1..=300).flat_map(|radius| (0..=radius).map(move |u| (radius, u))) {
        let numbers = [-2, -1, 0, 1, 2].iter().flat_map(|v| [u, *v, radius, 7]).collect();
        assert_same(Case::Balls { numbers, rooms: [5, 10, 10] });
    }
}
