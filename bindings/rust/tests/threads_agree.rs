//! Jobs on several threads, each with a part of the lines, give what one call gives: answers, refusals, and every answer list from end to
//! end. Cases are made from a seed, with 1 to 8 threads; `KRESSEDACH_THREADS` and `KRESSEDACH_SEED` say how many and from which. A
//! difference prints its case.

#[allow(dead_code)]
mod given;
#[allow(dead_code)]
mod lent;

use given::{mostly_good, Given, Ours};
use kressedach::{classify_into, classify_into_on, classify_on, cross_into_on, cross_many, cross_many_into, cross_on};
use kressedach::{judge_lists, judge_lists_on, judge_on, Lines, ManyLists, Opinion, Probe, Shape, ShapeLists, TheirLists, WallLists};
use lent::rooms;
use peer::make::{self, Dice};
use peer::rasters::{self, Raster};
use peer::theirs::{self, Theirs};
use peer::{from_env, say};
use std::fmt::Debug;

fn cases() -> u64 {
    from_env("KRESSEDACH_THREADS", 20_000)
}

fn seed() -> u64 {
    from_env("KRESSEDACH_SEED", 1)
}

/// A list of so many entries, full of noise.
fn noise<T>(room: usize, entry: impl Fn(u64) -> T) -> Vec<T> {
    (0..room).map(|k| entry((k as u64 + 3).wrapping_mul(0x9E37_79B9_7F4A_7C15) >> 17)).collect()
}

/// The five lists of walls.
#[derive(Debug, Clone, PartialEq)]
struct Walls(Vec<u32>, Vec<i32>, Vec<i32>, Vec<u16>, Vec<u16>);

impl Walls {
    fn lent([a, b, c, d, e]: [usize; 5]) -> Walls {
        Walls(noise(a, |k| k as u32), noise(b, |k| k as i32), noise(c, |k| k as i32), noise(d, |k| k as u16), noise(e, |k| k as u16))
    }

    fn lists(&mut self) -> WallLists<'_> {
        WallLists { lines: &mut self.0, starts: &mut self.1, ends: &mut self.2, start_shapes: &mut self.3, end_shapes: &mut self.4 }
    }
}

fn ours(lines: &make::Lines) -> Lines<'_> {
    Lines { rows: &lines.rows, lines: &lines.lines, positions: &lines.positions, shapes: &lines.shapes }
}

/// The number of a refusal, 0 for none.
fn number<T>(answer: &Result<T, kressedach::Refusal>) -> usize {
    answer.as_ref().map_or_else(|refusal| refusal.number().into(), |_| 0)
}

fn assert_same<T: PartialEq + Debug>(got: T, due: T, threads: usize, case: impl Debug) {
    assert!(got == due, "{threads} threads: {got:?}, one call: {due:?}\n{case:?}");
}

/// That whatever can be answered comes up; with few cases it need not.
fn assert_seen(seen: &[u64], can: &[usize]) {
    say(format!("given, then refused 1 to 20: {seen:?}"));
    assert!(cases() < 20_000 || can.iter().all(|number| seen[*number] >= 5), "{seen:?}");
}

#[test]
fn walls_are_those_of_one_call() {
    let mut seen = [0; 21];
    for case in 0..cases() {
        let dice = &mut Dice::of(seed() ^ 0x31, case);
        let (sheet, names) = mostly_good(dice);
        let lines = make::any_lines(dice, names);
        let needed = ours(&lines).room(names);
        let rooms = rooms(dice, [needed; 5]);
        let (mut one, mut several) = (Walls::lent(rooms), Walls::lent(rooms));
        let due = classify_into(sheet.ours(), ours(&lines), &mut one.lists());
        let threads = 1 + dice.below(8);
        let got = classify_into_on(threads, sheet.ours(), ours(&lines), &mut several.lists());
        seen[number(&due)] += 1;
        assert_same((got, several), (due, one), threads, (rooms, &sheet, &lines));
    }
    assert_seen(&seen, &[0, 1, 2, 3, 4, 5, 6, 7, 9, 10, 11, 13, 14, 15, 17]);
}

/// Another's list made of our walls, and damaged; where nothing is refused, also whole.
fn theirs_of(dice: &mut Dice, sheet: &Given, lines: &make::Lines) -> Theirs {
    let walls = peer::classify(sheet.theirs(), lines.lists(), [usize::MAX; 5]).unwrap_or_default();
    theirs::any(dice, &walls)
}

fn lists(theirs: &Theirs) -> TheirLists<'_> {
    TheirLists { lines: &theirs.lines, starts: &theirs.starts, ends: &theirs.ends }
}

#[test]
fn opinions_are_those_of_one_call() {
    let (mut seen, mut opinions) = ([0; 21], [0; 3]);
    for case in 0..cases() {
        let dice = &mut Dice::of(seed() ^ 0x32, case);
        let (sheet, names) = mostly_good(dice);
        let lines = make::any_lines(dice, names);
        let mut theirs = theirs_of(dice, &sheet, &lines);
        // an entry on any line, also on one that there is none of
        if dice.once_in(4) && !theirs.lines.is_empty() {
            let at = dice.below(theirs.lines.len());
            theirs.lines[at] = dice.of_these(&[0, 1, 7, 50, u32::MAX]);
        }
        let due = judge_lists(sheet.ours(), ours(&lines), lists(&theirs));
        let threads = 1 + dice.below(8);
        let got = judge_lists_on(threads, sheet.ours(), ours(&lines), lists(&theirs));
        seen[number(&due)] += 1;
        match due {
            Ok(Opinion::Right) => opinions[0] += 1,
            Ok(Opinion::WrongAt(_)) => opinions[1] += 1,
            Ok(Opinion::Lacking) => opinions[2] += 1,
            Err(_) => {}
        }
        assert_same(got, due, threads, (&sheet, &lines, &theirs));
    }
    assert_seen(&seen, &[0, 1, 2, 3, 4, 5, 6, 7, 10, 11, 13, 14, 15, 17]);
    assert!(cases() < 20_000 || opinions.iter().all(|times| *times >= 100), "{opinions:?}");
}

/// The four lists of many lines' crossings.
#[derive(Debug, Clone, PartialEq)]
struct Crossings(Vec<u8>, Vec<u32>, Vec<i32>, Vec<u16>);

impl Crossings {
    fn lent([a, b, c, d]: [usize; 4]) -> Crossings {
        Crossings(noise(a, |k| k as u8), noise(b, |k| k as u32), noise(c, |k| k as i32), noise(d, |k| k as u16))
    }

    fn lists(&mut self) -> ManyLists<'_> {
        ManyLists { rows: &mut self.0, lines: &mut self.1, positions: &mut self.2, shapes: &mut self.3 }
    }
}

#[test]
fn crossings_are_those_of_one_call() {
    let (mut seen, mut later) = ([0; 21], 0);
    for case in 0..cases() {
        let dice = &mut Dice::of(seed() ^ 0x33, case);
        let Raster { lines, kinds, numbers } = rasters::raster(dice);
        let shapes = ShapeLists { kinds: &kinds, numbers: &numbers };
        let all = peer::many::cross_many(&lines, peer::crossings::Shapes { kinds: &kinds, numbers: &numbers }, [usize::MAX; 4]);
        let needed = all.map_or([3, 5, 5, 5], |all| [all.rows.len(), all.crossings.len(), all.crossings.len(), all.crossings.len()]);
        let rooms = rooms(dice, needed);
        let (mut one, mut several) = (Crossings::lent(rooms), Crossings::lent(rooms));
        let due = cross_many_into(&lines, shapes, &mut one.lists());
        let threads = 1 + dice.below(8);
        let got = cross_into_on(threads, &lines, shapes, &mut several.lists());
        seen[due.as_ref().map_or_else(|refused| refused.refusal.number().into(), |_| 0)] += 1;
        later += u64::from(due.is_err_and(|refused| refused.line.is_some_and(|line| line > 0)));
        assert_same((got, several), (due, one), threads, (rooms, &lines, &kinds, &numbers));
    }
    assert_seen(&seen, &[0, 9, 16]);
    assert!(cases() < 20_000 || later >= 100, "{later} refused for a later line");
}

/// Crossings and starts on lines of any numbers, far from each other.
#[test]
fn lines_of_any_numbers() {
    for case in 0..cases() / 10 {
        let dice = &mut Dice::of(seed() ^ 0x34, case);
        let (sheet, names) = mostly_good(dice);
        let given = make::any_lines(dice, names);
        let apart = dice.of_these(&[1, 3, 1000, 6_000_000]);
        let line = |row: usize| (row as u32).wrapping_mul(apart);
        let crossings: Vec<kressedach::Crossing> = (given.lines.iter().zip(&given.positions).zip(&given.shapes))
            .map(|((row, position), shape)| kressedach::Crossing { line: line(*row as usize), position: *position, shape: *shape })
            .collect();
        let starts: Vec<kressedach::Start> = (given.rows.iter().enumerate().filter(|(_, byte)| **byte > 0))
            .map(|(at, _)| kressedach::Start { line: line(at / names), shape: (at % names) as u16 })
            .collect();
        let threads = dice.below(9);
        let due = kressedach::classify_from(sheet.ours(), &starts, &crossings);
        assert_same(classify_on(threads, sheet.ours(), &starts, &crossings), due.clone(), threads, (&sheet, &starts, &crossings));
        let mut theirs: Vec<kressedach::Entry> =
            (due.iter().flatten()).map(|wall| kressedach::Entry { line: wall.line, start: wall.start, end: wall.end }).collect();
        if dice.once_in(2) && !theirs.is_empty() {
            let at = dice.below(theirs.len());
            theirs[at].line = line(dice.below(700));
        }
        let due = kressedach::judge(sheet.ours(), &starts, &crossings, &theirs);
        assert_same(judge_on(threads, sheet.ours(), &starts, &crossings, &theirs), due, threads, (&sheet, &starts, &crossings, &theirs));
    }
}

/// Lines that the cut falls among: none with a crossing, all crossings on one of them, and every number of lines up to 20 on every number of
/// threads up to 21.
#[test]
fn where_the_cut_falls() {
    let sheet = make::sheet(&["A", "B"], &[0, 1, 0xFFF2]);
    for (count, threads) in (0..=20).flat_map(|count| (0..=21).map(move |threads| (count, threads))) {
        for way in 0..4 {
            let at = |line: usize| match way {
                0 => 0,
                1 => 2 * (line % 3),
                2 => 50 * usize::from(line == count / 2),
                _ => 2 * usize::from(line + 1 == count),
            };
            let lines: Vec<u32> = (0..count).flat_map(|line| (0..at(line)).map(move |_| line as u32)).collect();
            let positions: Vec<i32> = (0..lines.len() as i32).collect();
            let (shapes, rows) = (vec![0; lines.len()], (0..2 * count).map(|k| u8::from(k % 7 == 0)).collect::<Vec<u8>>());
            let all = Lines { rows: &rows, lines: &lines, positions: &positions, shapes: &shapes };
            let (mut one, mut several) = (Walls::lent([all.room(2); 5]), Walls::lent([all.room(2); 5]));
            let due = classify_into(&sheet, all, &mut one.lists());
            assert!(due.is_ok());
            let got = classify_into_on(threads, &sheet, all, &mut several.lists());
            assert_same((got, several), (due, one), threads, (count, way));
        }
    }
}

/// The largest sheet on a thread's stack, and more threads than there may be.
#[test]
fn the_largest_sheet() {
    let dice = &mut Dice::of(seed(), 0x35);
    let names = make::names(dice, 256, 32);
    let sheet = make::sheet(&names, &make::codes(dice, 256, 1024, make::Form::RightChain));
    let crossings = make::crossings(dice, 256, 3000, 20);
    let lines = make::Lines::of(make::rows(dice, 256, 3000), &crossings);
    let room = ours(&lines).room(256);
    let mut one = Walls::lent([room; 5]);
    let due = classify_into(&sheet, ours(&lines), &mut one.lists()).unwrap();
    for threads in [0, 2, 7, usize::MAX] {
        let mut several = Walls::lent([room; 5]);
        assert_eq!(classify_into_on(threads, &sheet, ours(&lines), &mut several.lists()), Ok(due));
        assert!(one == several, "{threads} threads");
        let theirs = TheirLists { lines: &one.0[..due], starts: &one.1[..due], ends: &one.2[..due] };
        assert_eq!(judge_lists_on(threads, &sheet, ours(&lines), theirs), Ok(Opinion::Right));
    }
}

#[test]
fn probes_and_shapes() {
    let block = |k: usize| Shape::Box { lows: [k as f64, 0.0, 0.0], highs: [k as f64 + 0.5, 40.0, 40.0] };
    let drawing: Vec<Shape> = (0..100).map(block).collect();
    let along = |k: usize| Probe { origin: [-5.0, k as f64, 1.0], direction: [1.0, 0.0, 0.0] };
    for (count, threads) in [(0, 3), (1, 3), (2, 3), (50, 1), (50, 0), (50, 4), (50, 50), (50, 80)] {
        let mut probes: Vec<Probe> = (0..count).map(along).collect();
        assert_eq!(cross_on(threads, &probes, &drawing), cross_many(&probes, &drawing));
        if let Some(last) = probes.last_mut() {
            last.direction = [0.0; 3];
            assert_eq!(cross_on(threads, &probes, &drawing).unwrap_err().line, Some(count - 1));
        }
    }
}
