//! Judging another ray caster's wall list (document 02, K12): the library and the plain implementation in `peer` agree, on many cases made
//! from a seed, on all short lists over few numbers, and on every change of an entry.
//!
//! `KRESSEDACH_CASES` and `KRESSEDACH_SEED` say how many cases and from which seed. A difference prints its case whole.

mod given;

use given::{mostly_good, same, Given, Ours};
use kressedach::{Opinion, TheirLists};
use peer::judging::Entry;
use peer::lines::{Crossing, Wall};
use peer::make::{self, Dice, Form, Lines};
use peer::theirs::{self, Theirs};
use peer::{from_env, say};
use std::time::Instant;

/// One call of the library.
#[derive(Debug, Clone)]
struct Case {
    sheet: Given,
    lines: Lines,
    theirs: Theirs,
}

/// What a case shows, and what it is refused with.
const SHOWN: [&str; 4] = ["right", "right and empty", "wrong at an entry", "lacking"];
const REFUSED: [usize; 13] = [1, 2, 3, 4, 5, 6, 7, 10, 11, 13, 14, 15, 17];

/// Whether it is right, and the index, of a list of so many entries.
fn told(opinion: Opinion, length: usize) -> (bool, usize) {
    match opinion {
        Opinion::Right => (true, length),
        Opinion::WrongAt(index) => (false, index),
        Opinion::Lacking => (false, length),
    }
}

fn ours(case: &Case) -> Result<Opinion, kressedach::Refusal> {
    let Case { sheet, lines, theirs } = case;
    let lists = TheirLists { lines: &theirs.lines, starts: &theirs.starts, ends: &theirs.ends };
    let Lines { rows, lines, positions, shapes } = lines;
    kressedach::judge_lists(sheet.ours(), kressedach::Lines { rows, lines, positions, shapes }, lists)
}

/// Calls the library and the plain implementation. Gives the opinion or the refusal's number, or in what they differ.
fn compare(case: &Case) -> Result<Result<Opinion, usize>, String> {
    let (got, length) = (ours(case), case.theirs.lines.len());
    let due = peer::judge(case.sheet.theirs(), case.lines.lists(), case.theirs.lists());
    let number = same(got.map(|opinion| told(opinion, length)), due.as_ref().map(|due| (due.right, due.index)))?;
    Ok(got.map_err(|_| usize::from(number)))
}

fn assert_same(case: &Case) -> Result<Opinion, usize> {
    compare(case).unwrap_or_else(|difference| panic!("{difference}\n{case:?}"))
}

/// Our walls, where nothing is refused.
fn walls(sheet: &Given, lines: &Lines) -> Vec<Wall> {
    peer::classify(sheet.theirs(), lines.lists(), [usize::MAX; 5]).unwrap_or_default()
}

fn make_case(dice: &mut Dice) -> Case {
    let (sheet, names) = mostly_good(dice);
    let lines = make::any_lines(dice, names);
    let theirs = theirs::any(dice, &walls(&sheet, &lines));
    Case { sheet, lines, theirs }
}

#[test]
fn the_two_agree_on_cases_from_a_seed() {
    let seed = from_env("KRESSEDACH_SEED", 1);
    let cases = from_env("KRESSEDACH_CASES", 150_000) / 5;
    let began = Instant::now();
    let (mut shown, mut refused) = ([0u64; 4], [0u64; 21]);
    for number in 0..cases {
        let case = make_case(&mut Dice::of(seed ^ 0x12, number));
        match compare(&case) {
            Ok(Ok(Opinion::Right)) => shown[usize::from(case.theirs.lines.is_empty())] += 1,
            Ok(Ok(Opinion::WrongAt(_))) => shown[2] += 1,
            Ok(Ok(Opinion::Lacking)) => shown[3] += 1,
            Ok(Err(number)) => refused[number] += 1,
            Err(difference) => panic!("seed {seed}, case {number}: {difference}\n{case:?}"),
        }
    }
    let seconds = began.elapsed().as_secs_f64();
    say(format!("{cases} judgements from seed {seed} agree, in {seconds:.1} s; {SHOWN:?}: {shown:?}, then refused: {refused:?}"));
    // the cases are worth something: whatever can be answered comes up
    assert!(cases < 20_000 || shown.iter().all(|times| *times >= 20), "{shown:?}");
    assert!(cases < 20_000 || REFUSED.iter().all(|number| refused[*number] >= 20), "{refused:?}");
}

/// The worked sheet, with a line in air, one that starts in A, one without a crossing, and one that is in A from end to end.
fn small() -> (Given, Lines) {
    let sheet = Given::alone(make::sheet(&["A", "B", "C"], &[0, 1, 2, 0xFFF0, 0xFFF2]));
    let at = |line, position, shape| Crossing { line, position, shape };
    let all = [at(0, 0, 0), at(0, 2, 1), at(0, 3, 1), at(0, 4, 0), at(1, 1, 0)];
    (sheet, Lines::of(vec![0, 0, 0, 1, 0, 0, 0, 0, 0, 1, 0, 0], &all))
}

/// Compares all lists of so many entries out of these, and gives how many are right.
fn right_of(sheet: &Given, lines: &Lines, entries: &[Entry], length: u32) -> usize {
    let mut case = Case { sheet: sheet.clone(), lines: lines.clone(), theirs: Theirs::default() };
    let mut is_right = |number: usize| {
        let digit = |place| entries[number / entries.len().pow(place) % entries.len()];
        case.theirs = Theirs::of(&(0..length).map(digit).collect::<Vec<Entry>>());
        assert_same(&case) == Ok(Opinion::Right)
    };
    (0..entries.len().pow(length)).filter(|number| is_right(*number)).count()
}

/// All lists of two entries and fewer over few numbers, and those of three on the first two lines, which have three walls.
#[test]
fn all_short_lists() {
    let (sheet, mut lines) = small();
    let entries = |lines: u32, positions: &[i32]| -> Vec<Entry> {
        let starts = (0..lines).flat_map(|line| positions.iter().map(move |start| (line, *start)));
        starts.flat_map(|(line, start)| positions.iter().map(move |end| Entry { line, start, end: *end })).collect()
    };
    let all = entries(5, &[i32::MIN, -1, 0, 1, 2, 3, 4, i32::MAX]);
    assert_eq!([0, 1, 2].map(|length| right_of(&sheet, &lines, &all, length)), [0, 0, 0]);
    lines.rows.truncate(6);
    assert_eq!(right_of(&sheet, &lines, &entries(2, &[i32::MIN, 0, 1, 2, 3, 4]), 3), 1);
}

/// Every change of every entry of a right list, and what classifying gives is right.
#[test]
fn every_entry_changed_in_every_way() {
    let (sheet, lines) = small();
    let walls = walls(&sheet, &lines);
    let mut seen = [0; 3];
    for case in 0..40 {
        let dice = &mut Dice::of(6, case);
        let all = if case == 0 { theirs::whole(&walls) } else { theirs::right(dice, &walls) };
        let judge = |all: &[Entry]| assert_same(&Case { sheet: sheet.clone(), lines: lines.clone(), theirs: Theirs::of(all) }).unwrap();
        assert_eq!(judge(&all), Opinion::Right);
        for (way, at) in (0..theirs::WAYS).flat_map(|way| (0..all.len()).map(move |at| (way, at))) {
            let mut changed = all.clone();
            theirs::change(way, at, &mut changed);
            seen[match judge(&changed) {
                Opinion::Right => 0,
                Opinion::WrongAt(_) => 1,
                Opinion::Lacking => 2,
            }] += 1;
        }
    }
    assert!(seen.iter().all(|times| *times >= 20), "{seen:?}");
}

/// The walls that the library gives, as they stand in the answer lists.
fn classified(sheet: &Given, lines: &Lines) -> Theirs {
    let room = lines.lines.len() / 2 + lines.rows.len();
    let (mut wall_lines, mut starts, mut ends) = (vec![0; room], vec![0; room], vec![0; room]);
    let mut lists = kressedach::WallLists {
        lines: &mut wall_lines,
        starts: &mut starts,
        ends: &mut ends,
        start_shapes: &mut vec![0; room],
        end_shapes: &mut vec![0; room],
    };
    let Lines { rows, lines, positions, shapes } = lines;
    let count = kressedach::classify_into(sheet.ours(), kressedach::Lines { rows, lines, positions, shapes }, &mut lists).unwrap();
    Theirs { lines: wall_lines[..count].to_vec(), starts: starts[..count].to_vec(), ends: ends[..count].to_vec() }
}

/// The largest sheets, in every form: what classifying gives is right, and with its last entry changed it is not.
#[test]
fn the_largest_sheets() {
    for (k, form) in Form::ALL.into_iter().enumerate() {
        let dice = &mut Dice::of(7, k as u64);
        let names = make::names(dice, 256, 32);
        let sheet = Given::alone(make::sheet(&names, &make::codes(dice, 256, 1024, form)));
        let rows = (0..50 * 256).map(|_| dice.below(2) as u8).collect();
        let lines = Lines::of(rows, &make::crossings(dice, 256, 40, 1000));
        let mut case = Case { theirs: classified(&sheet, &lines), sheet, lines };
        let last = case.theirs.lines.len() - 1;
        assert_eq!(assert_same(&case), Ok(Opinion::Right));
        case.theirs.starts[last] += 1;
        assert_eq!(assert_same(&case), Ok(Opinion::WrongAt(last)));
    }
}

/// Lists far longer than any block, on one line and on many: each wall whole, each in two parts, and one entry wrong anywhere.
#[test]
fn long_lists() {
    const LONG: usize = 200_000;
    let sheet = Given::alone(make::sheet(&["A", "B", "C"], &[0, 1, 2, 0xFFF0, 0xFFF2]));
    for a_line in [LONG, 1000, 2] {
        let at = |k: usize| Crossing { line: (k / a_line) as u32, position: 4 * (k % a_line) as i32, shape: 0 };
        let all: Vec<Crossing> = (0..LONG).map(at).collect();
        let lines = Lines::of(vec![0; 3 * LONG / a_line], &all);
        let whole = theirs::whole(&walls(&sheet, &lines));
        assert_eq!(whole.len(), LONG / 2);
        let halves: Vec<Entry> =
            whole.iter().flat_map(|w| [Entry { end: w.start + 1, ..*w }, Entry { start: w.start + 1, ..*w }]).collect();
        for list in [whole, halves] {
            let mut case = Case { sheet: sheet.clone(), lines: lines.clone(), theirs: Theirs::of(&list) };
            assert_eq!(assert_same(&case), Ok(Opinion::Right));
            for at in [0, 31, 64, 1000, list.len() / 2, list.len() - 1] {
                case.theirs.ends[at] += 9;
                assert_eq!(assert_same(&case), Ok(Opinion::WrongAt(at)));
                case.theirs.ends[at] -= 9;
            }
            case.theirs = Theirs::of(&list[..list.len() - 1]);
            assert_eq!(assert_same(&case), Ok(Opinion::Lacking));
            case.theirs = Theirs::of(&[&list[..], &[Entry { line: u32::MAX, start: 0, end: 1 }]].concat());
            assert_eq!(assert_same(&case), Ok(Opinion::WrongAt(list.len())));
        }
    }
}

/// What can be wrong with a call: of the sheet, of either three lists, of the start rows, of a crossing, of their list.
#[derive(Debug, Clone, Copy, PartialEq)]
enum Wrong {
    Sheet,
    OurLengths,
    TheirLengths,
    Rows,
    NoShape,
    Mark,
    NoRow,
    Falls,
    TheirEntry,
}

impl Wrong {
    const ALL: [Wrong; 9] = [
        Wrong::Sheet,
        Wrong::OurLengths,
        Wrong::TheirLengths,
        Wrong::Rows,
        Wrong::NoShape,
        Wrong::Mark,
        Wrong::NoRow,
        Wrong::Falls,
        Wrong::TheirEntry,
    ];

    /// Its number in the documents, 0 for none.
    fn number(self) -> usize {
        match self {
            Wrong::Sheet => 1,
            Wrong::OurLengths | Wrong::TheirLengths => 13,
            Wrong::Rows => 14,
            Wrong::NoShape => 10,
            Wrong::Mark | Wrong::NoRow => 15,
            Wrong::Falls => 11,
            Wrong::TheirEntry => 0,
        }
    }

    /// Makes it so, at the third crossing where it is of one.
    fn put(self, case: &mut Case) {
        match self {
            Wrong::Sheet => drop(case.sheet.own.pop()),
            Wrong::OurLengths => case.lines.shapes.push(0),
            Wrong::TheirLengths => drop(case.theirs.ends.pop()),
            Wrong::Rows => case.lines.rows[7] = 2,
            Wrong::NoShape => case.lines.shapes[2] = 3,
            Wrong::Mark => case.lines.positions[2] = i32::MIN,
            Wrong::NoRow => case.lines.lines[2] = 4,
            Wrong::Falls => case.lines.positions[1] = 9,
            Wrong::TheirEntry => case.theirs.starts[0] = -9,
        }
    }
}

/// Any two reasons together: the sheet, 13 of either, 14, then 10, 15 and 11, and their list is looked at last.
#[test]
fn every_two_reasons() {
    const ORDER: [usize; 7] = [1, 13, 14, 10, 15, 11, 0];
    let (sheet, lines) = small();
    let theirs = Theirs::of(&theirs::whole(&walls(&sheet, &lines)));
    for (first, second) in Wrong::ALL.into_iter().flat_map(|first| Wrong::ALL.map(|second| (first, second))) {
        let mut case = Case { sheet: sheet.clone(), lines: lines.clone(), theirs: theirs.clone() };
        first.put(&mut case);
        if second != first {
            second.put(&mut case);
        }
        let due = ORDER.into_iter().find(|number| [first.number(), second.number()].contains(number)).unwrap();
        let got = assert_same(&case);
        assert_eq!(got, if due == 0 { Ok(Opinion::WrongAt(0)) } else { Err(due) }, "{first:?} and {second:?}");
    }
}

/// Any line numbers that rise give the opinion on lines that are numbered by their rows, and the same refusals.
#[test]
fn lines_of_any_numbers() {
    let mut seen = [0u64; 4];
    for case in 0..from_env("KRESSEDACH_CASES", 150_000) / 15 {
        let dice = &mut Dice::of(8, case);
        let (own, names) = make::good_sheet(dice);
        let count = dice.size(12);
        let mut all = make::crossings(dice, names, count, 40);
        if dice.once_in(6) {
            all.iter_mut().for_each(|crossing| crossing.shape = names as u16);
        }
        let lines = Lines::of(make::rows(dice, names, count), &all);
        let sheet = Given::alone(own);
        let mut list = theirs::right(dice, &walls(&sheet, &lines));
        if dice.once_in(2) {
            theirs::damage(dice, &mut list);
        }
        let (first, step) = dice.of_these(&[(0, 1), (7, 1), (1, 1 << 20), (u32::MAX - 13, 1)]);
        let number = |line: u32| first + step * line.min(13);
        let inside = lines.rows.iter().enumerate().filter(|(_, byte)| **byte == 1);
        let starts: Vec<_> =
            inside.map(|(k, _)| kressedach::Start { line: number((k / names) as u32), shape: (k % names) as u16 }).collect();
        let crossing = |c: &Crossing| kressedach::Crossing { line: number(c.line), position: c.position, shape: c.shape };
        let crossings: Vec<_> = all.iter().map(crossing).collect();
        let entry = |e: &Entry| kressedach::Entry { line: number(e.line), start: e.start, end: e.end };
        let entries: Vec<_> = list.iter().map(entry).collect();
        let due = peer::judge(sheet.theirs(), lines.lists(), Theirs::of(&list).lists());
        let got = kressedach::judge(sheet.ours(), &starts, &crossings, &entries);
        let answer = same(got.map(|opinion| told(opinion, list.len())), due.as_ref().map(|due| (due.right, due.index)));
        answer.unwrap_or_else(|wrong| panic!("case {case}: {wrong}"));
        seen[match got {
            Ok(Opinion::Right) => 0,
            Ok(Opinion::WrongAt(_)) => 1,
            Ok(Opinion::Lacking) => 2,
            Err(_) => 3,
        }] += 1;
    }
    assert!(seen.iter().all(|times| *times >= 20), "{seen:?}");
}

/// The working memory is as small as the header says.
#[test]
fn a_small_stack_is_enough() {
    let dice = &mut Dice::of(9, 0);
    let names = make::names(dice, 256, 32);
    let sheet = Given::alone(make::sheet(&names, &make::codes(dice, 256, 1024, Form::Any)));
    let lines = Lines::of(vec![1; 40 * 256], &make::crossings(dice, 256, 40, 1000));
    let case = Case { theirs: classified(&sheet, &lines), sheet, lines };
    let call = move || assert_eq!(ours(&case), Ok(Opinion::Right));
    std::thread::Builder::new().stack_size(256 * 1024).spawn(call).unwrap().join().unwrap();
}
