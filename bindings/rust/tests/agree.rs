//! The proved library and the plain implementation in `peer` agree on all jobs, on many cases made from a seed.
//!
//! Answers and refusals are compared, and every answer list from end to end, with entries before and after it that were not lent.
//! `KRESSEDACH_CASES` and `KRESSEDACH_SEED` say how many cases and from which seed. A difference prints its case whole.

mod given;
mod lent;

use given::{mostly_good, same, Given, Ours};
use kressedach::{Both, Lines, MixedLists, NameLists, NodeLists, RunLists, WallLists};
use lent::{rooms, Lent};
use peer::calls::{any_given, any_mix, any_order, any_toggles};
use peer::lines::{Crossing, Crossings};
use peer::make::{self, Dice, Form};
use peer::toggles::Ran;
use peer::{from_env, say, Refused};
use std::collections::HashMap;
use std::fmt::{self, Debug};
use std::time::Instant;

/// One call of the library. A room is the length of an answer list.
enum Case {
    Read { sheet: Given },
    Build { sheet: Given, rooms: [usize; 3] },
    Run { sheet: Given, toggles: Vec<u16>, rooms: [usize; 3] },
    Both { sheet: Given, order: Vec<u8>, toggles: [Vec<u16>; 2], rooms: [[usize; 3]; 2] },
    Classify { sheet: Given, rows: Vec<u8>, lines: Vec<u32>, positions: Vec<i32>, shapes: Vec<u16>, rooms: [usize; 5] },
}

impl Debug for Case {
    fn fmt(&self, f: &mut fmt::Formatter) -> fmt::Result {
        match self {
            Case::Read { sheet } => write!(f, "read, sheet {sheet:?}"),
            Case::Build { sheet, rooms } => write!(f, "build, rooms {rooms:?}, sheet {sheet:?}"),
            Case::Run { sheet, toggles, rooms } => write!(f, "run, rooms {rooms:?}, sheet {sheet:?}, toggles {toggles:?}"),
            Case::Both { sheet, order, toggles, rooms } => {
                write!(f, "both, rooms {rooms:?}, sheet {sheet:?}, order {order:?}, toggles {toggles:?}")
            }
            Case::Classify { sheet, rows, lines, positions, shapes, rooms } => {
                write!(f, "classify, rooms {rooms:?}, sheet {sheet:?}, rows {rows:?}, ")?;
                write!(f, "lines {lines:?}, positions {positions:?}, shapes {shapes:?}")
            }
        }
    }
}

/// The lists of one foundry, as they are lent.
struct LentRun {
    roots: Lent<u8>,
    counts: Lent<u32>,
    labels: Lent<u8>,
}

impl LentRun {
    fn new(rooms: [usize; 3]) -> LentRun {
        let bytes = |room| Lent::new(room, |k| k as u8);
        LentRun { roots: bytes(rooms[0]), counts: Lent::new(rooms[1], |k| k as u32), labels: bytes(rooms[2]) }
    }

    fn lists(&mut self) -> RunLists<'_> {
        RunLists { roots: self.roots.list(), counts: self.counts.list(), labels: self.labels.list() }
    }

    fn check(&self, due: &Result<Ran, Refused>) -> Result<(), String> {
        self.roots.check("roots", due.iter().flat_map(|ran| ran.roots.iter().copied()))?;
        self.counts.check("counts", due.iter().flat_map(|ran| ran.counts.iter().copied()))?;
        self.labels.check("labels", due.iter().flat_map(|ran| ran.labels.iter().copied()))
    }
}

/// Calls the library and the plain implementation. Gives the refusal's number, 0 for none, or in what they differ; for two foundries, the
/// number of each.
fn compare(case: &Case) -> Result<Vec<u8>, String> {
    if let Case::Both { sheet, order, toggles: [first, second], rooms } = case {
        let [mut to_first, mut to_second] = rooms.map(LentRun::new);
        let mut lists = Both { first: to_first.lists(), second: to_second.lists() };
        let got = kressedach::run_both_into(sheet.ours(), MixedLists { order, first, second }, &mut lists).into_array();
        let due = peer::run_both(sheet.theirs(), order, [first, second], *rooms);
        let lent = [to_first, to_second];
        return got
            .into_iter()
            .zip(&due)
            .zip(lent)
            .map(|((got, due), lent)| {
                lent.check(due)?;
                same(got, due.as_ref().map(|ran| ran.labels.len()))
            })
            .collect();
    }
    compare_one(case).map(|number| vec![number])
}

fn compare_one(case: &Case) -> Result<u8, String> {
    match case {
        Case::Both { .. } => unreachable!(),
        Case::Read { sheet } => {
            let got = kressedach::read(sheet.ours()).map(|r| (r.names, r.leaves, r.formula.start, r.formula.end));
            let due = peer::read(sheet.theirs());
            // some names, and numbers past the last
            let names = due.as_ref().map_or(0, |s| s.names.len());
            for shape in [0, 1, names / 2, names.saturating_sub(1), names, 65535] {
                let due = peer::name(sheet.theirs(), shape);
                same(kressedach::name(sheet.ours(), shape).map(<[u8]>::to_vec), due.as_ref().map(Clone::clone))?;
            }
            // all names, with each list too short in turn, and with none
            for short in 0..4 {
                compare_names(sheet, [0, 1, 2].map(|list| if list == short { names.saturating_sub(1) } else { names + list % 2 }))?;
            }
            // the move, into a list too short, just long enough, and longer; and back
            for room in [sheet.own.len().saturating_sub(1), sheet.own.len(), sheet.own.len() + 3] {
                compare_move(sheet, room)?;
            }
            same(got, due.as_ref().map(|s| (s.names.len(), s.leaves, s.first, s.past)))
        }
        Case::Build { sheet, rooms } => {
            let [mut kinds, mut firsts, mut seconds] = rooms.map(|room| Lent::new(room, |k| k as u16));
            let mut lists = NodeLists { kinds: kinds.list(), firsts: firsts.list(), seconds: seconds.list() };
            let got = kressedach::build_into(sheet.ours(), &mut lists);
            let due = peer::build(sheet.theirs(), *rooms);
            let size = due.as_ref().map(|dwarf| (dwarf.leaves, dwarf.records.len(), dwarf.rounds, dwarf.height()));
            let number = same(got.map(|size| (size.leaves, size.nodes, size.rounds, size.height)), size)?;
            let records = || due.iter().flat_map(|dwarf| &dwarf.records);
            kinds.check("kinds", records().map(|r| r.kind))?;
            firsts.check("firsts", records().map(|r| r.first))?;
            seconds.check("seconds", records().map(|r| r.second))?;
            Ok(number)
        }
        Case::Run { sheet, toggles, rooms } => {
            let mut lent = LentRun::new(*rooms);
            let got = kressedach::run_into(sheet.ours(), toggles, &mut lent.lists());
            let due = peer::run(sheet.theirs(), toggles, *rooms);
            lent.check(&due)?;
            same(got, due.as_ref().map(|ran| ran.labels.len()))
        }
        Case::Classify { sheet, rows, lines, positions, shapes, rooms } => {
            let mut wall_lines = Lent::new(rooms[0], |k| k as u32);
            let (mut starts, mut ends) = (Lent::new(rooms[1], |k| k as i32), Lent::new(rooms[2], |k| k as i32));
            let (mut start_shapes, mut end_shapes) = (Lent::new(rooms[3], |k| k as u16), Lent::new(rooms[4], |k| k as u16));
            let mut lists = WallLists {
                lines: wall_lines.list(),
                starts: starts.list(),
                ends: ends.list(),
                start_shapes: start_shapes.list(),
                end_shapes: end_shapes.list(),
            };
            let got = kressedach::classify_into(sheet.ours(), Lines { rows, lines, positions, shapes }, &mut lists);
            let due = peer::classify(sheet.theirs(), Crossings { rows, lines, positions, shapes }, *rooms);
            let number = same(got, due.as_ref().map(|walls| walls.len()))?;
            wall_lines.check("wall_lines", due.iter().flatten().map(|wall| wall.line))?;
            starts.check("starts", due.iter().flatten().map(|wall| wall.start))?;
            ends.check("ends", due.iter().flatten().map(|wall| wall.end))?;
            start_shapes.check("start_shapes", due.iter().flatten().map(|wall| wall.start_shape))?;
            end_shapes.check("end_shapes", due.iter().flatten().map(|wall| wall.end_shape))?;
            Ok(number)
        }
    }
}

/// The sheet in the other edition; moved back it is the sheet, where that is not refused.
fn compare_move(sheet: &Given, room: usize) -> Result<u8, String> {
    let mut moved = Lent::new(room, |k| k as u8);
    let got = kressedach::move_into(sheet.ours(), moved.list());
    let due = peer::move_sheet(sheet.theirs(), room);
    let number = same(got, due.as_ref().map(Vec::len))?;
    moved.check("moved", due.iter().flatten().copied())?;
    if let Ok(moved) = due {
        let moved = Given { own: moved, ..sheet.clone() };
        let due = peer::move_sheet(moved.theirs(), sheet.own.len());
        if due.as_ref().is_ok_and(|back| *back != sheet.own) {
            return Err("the move there and back is another sheet".into());
        }
        same(kressedach::move_sheet(moved.ours()), due.as_ref().map(Clone::clone))?;
    }
    Ok(number)
}

/// Where all names stand, and what they are.
fn compare_names(sheet: &Given, rooms: [usize; 3]) -> Result<u8, String> {
    let mut sheets = Lent::new(rooms[0], |k| k as u8);
    let (mut firsts, mut pasts) = (Lent::new(rooms[1], |k| k as usize), Lent::new(rooms[2], |k| k as usize));
    let mut lists = NameLists { sheets: sheets.list(), firsts: firsts.list(), pasts: pasts.list() };
    let got = kressedach::names_into(sheet.ours(), &mut lists);
    let due = peer::names(sheet.theirs(), rooms);
    let number = same(got, due.as_ref().map(Vec::len))?;
    sheets.check("sheets", due.iter().flatten().map(|place| place.0))?;
    firsts.check("firsts", due.iter().flatten().map(|place| place.1))?;
    pasts.check("pasts", due.iter().flatten().map(|place| place.2))?;
    let named = peer::read(sheet.theirs()).map(|sheet| sheet.names);
    let got = kressedach::names(sheet.ours()).map(|names| names.iter().map(|name| name.as_bytes().to_vec()).collect());
    same(got, named.as_ref().map(Clone::clone))?;
    Ok(number)
}

/// How many dwarf nodes the sheets have; of refused ones, anything.
fn nodes(sheet: &Given) -> usize {
    peer::build(sheet.theirs(), [usize::MAX; 3]).map_or(5, |dwarf| dwarf.records.len())
}

fn lists(all: &[Crossing]) -> (Vec<u32>, Vec<i32>, Vec<u16>) {
    (all.iter().map(|c| c.line).collect(), all.iter().map(|c| c.position).collect(), all.iter().map(|c| c.shape).collect())
}

fn make_case(dice: &mut Dice, job: u64) -> Case {
    if job == 0 {
        return Case::Read { sheet: any_given(dice) };
    }
    let (sheet, names) = mostly_good(dice);
    match job {
        1 => {
            let rooms = rooms(dice, [nodes(&sheet); 3]);
            Case::Build { sheet, rooms }
        }
        2 => {
            let toggles = any_toggles(dice, names, 600);
            let rooms = rooms(dice, [toggles.len(), toggles.len(), nodes(&sheet)]);
            Case::Run { sheet, toggles, rooms }
        }
        3 => {
            let toggles = [(); 2].map(|()| any_toggles(dice, names, 300));
            let order = any_order(dice, [toggles[0].len(), toggles[1].len()]);
            let nodes = nodes(&sheet);
            let rooms = [0, 1].map(|foundry: usize| rooms(dice, [toggles[foundry].len(), toggles[foundry].len(), nodes]));
            Case::Both { sheet, order, toggles, rooms }
        }
        _ => {
            let make::Lines { rows, lines, positions, shapes } = make::any_lines(dice, names);
            let rooms = rooms(dice, [lines.len() / 2 + rows.len() / names; 5]);
            Case::Classify { sheet, rows, lines, positions, shapes, rooms }
        }
    }
}

const JOBS: [&str; 5] = ["read", "build", "run", "both", "classify"];

/// The refusals that each job can give. 8 is in the table, and it is proved that no formula of a sheet gets it.
const CAN: [&[usize]; 5] = [
    &[0, 1, 2, 3, 4, 5, 6, 7, 17],
    &[0, 1, 2, 3, 4, 5, 6, 7, 9, 17],
    &[0, 1, 2, 3, 4, 5, 6, 7, 9, 10, 17],
    &[0, 1, 2, 3, 4, 5, 6, 7, 9, 10, 13, 17],
    &[0, 1, 2, 3, 4, 5, 6, 7, 9, 10, 11, 13, 14, 15, 17],
];

/// What the two foundries of a call can be told at once, besides one refusal for both.
const MIXED: [[u8; 2]; 8] = [[0, 9], [0, 10], [9, 0], [10, 0], [9, 10], [10, 9], [9, 9], [10, 10]];

#[test]
fn the_two_agree_on_cases_from_a_seed() {
    let seed = from_env("KRESSEDACH_SEED", 1);
    let cases = from_env("KRESSEDACH_CASES", 150_000);
    let began = Instant::now();
    let mut seen = [[0u64; 18]; 5];
    let mut told = HashMap::new();
    for number in 0..cases {
        let job = number % 5;
        let case = make_case(&mut Dice::of(seed, number), job);
        match compare(&case) {
            Ok(answers) => {
                answers.iter().for_each(|answer| seen[job as usize][usize::from(*answer)] += 1);
                *told.entry(answers).or_insert(0u64) += 1;
            }
            Err(difference) => panic!("seed {seed}, case {number}: {difference}\n{case:?}"),
        }
    }
    say(format!("{cases} cases from seed {seed} agree, in {:.1} s; given, then refused 1 to 17:", began.elapsed().as_secs_f64()));
    for job in 0..5 {
        say(format!("  {:<8} {:?}", JOBS[job], seen[job]));
        // the cases are worth something: whatever a job can answer comes up
        assert!(cases < 100_000 || CAN[job].iter().all(|answer| seen[job][*answer] >= 20), "{} {:?}", JOBS[job], seen[job]);
    }
    assert!(cases < 100_000 || MIXED.iter().all(|both| told.get(&both[..]).is_some_and(|times| *times >= 20)), "{told:?}");
}

/// The highest number that the case was refused with.
fn assert_same(case: Case) -> u8 {
    compare(&case).unwrap_or_else(|difference| panic!("{difference}\n{case:?}")).into_iter().max().unwrap()
}

/// Every cut and every changed byte of the worked sheet.
#[test]
fn the_worked_sheet_damaged_everywhere() {
    let sheet = make::sheet(&["A", "B", "C"], &[0, 1, 2, 0xFFF0, 0xFFF2]);
    for at in 0..sheet.len() {
        assert_same(Case::Read { sheet: Given::alone(sheet[..at].to_vec()) });
        for byte in 0..=255 {
            let mut sheet = sheet.clone();
            sheet[at] = byte;
            assert_same(Case::Build { sheet: Given::alone(sheet.clone()), rooms: [6; 3] });
            assert_same(Case::Read { sheet: Given::alone(sheet) });
        }
    }
}

/// Every cut and every changed byte of both sheets of a small pair.
#[test]
fn a_pair_damaged_everywhere() {
    let (fittings, own) = (make::fittings(&["A", "B"]), make::sheet(&["C"], &[0, 1, 2, 0xFFF0, 0xFFF2]));
    let read = |fittings: &[u8], own: &[u8]| {
        assert_same(Case::Read { sheet: Given { fittings: Some(fittings.to_vec()), own: own.to_vec() } });
    };
    for (first, sheet) in [(true, &fittings), (false, &own)] {
        let with = |sheet: &[u8]| if first { read(sheet, &own) } else { read(&fittings, sheet) };
        for at in 0..sheet.len() {
            with(&sheet[..at]);
            for byte in 0..=255 {
                let mut sheet = sheet.clone();
                sheet[at] = byte;
                with(&sheet);
            }
        }
    }
}

/// Moves of sheets from a seed, good ones and others: whatever the move can answer comes up.
#[test]
fn moves_from_a_seed() {
    let (mut seen, cases) = ([0u64; 20], from_env("KRESSEDACH_CASES", 120_000));
    for case in 0..cases / 6 {
        let dice = &mut Dice::of(6, case);
        let sheet = if dice.once_in(2) { mostly_good(dice).0 } else { any_given(dice) };
        let room = sheet.own.len().saturating_sub(usize::from(dice.once_in(4)));
        let number = compare_move(&sheet, room).unwrap_or_else(|wrong| panic!("case {case}: {wrong}\n{:?}", Case::Read { sheet }));
        seen[usize::from(number)] += 1;
    }
    assert!(cases < 120_000 || [0, 1, 2, 3, 4, 5, 6, 7, 9, 17, 19].iter().all(|number| seen[*number] >= 20), "{seen:?}");
}

/// Every two reasons to refuse a move: those of either sheet, then 19, then 9. A sheet of edition 2 is never refused 19.
#[test]
fn every_two_reasons_to_refuse_a_move() {
    let fittings = make::fittings(&["Lug"]);
    let changed = |sheet: &[u8], at: usize, byte: u8| [&sheet[..at], &[byte], &sheet[at + 1..]].concat();
    let many: Vec<String> = (0..256).map(|k| format!("N{k}")).collect();
    for (op, edition) in [(0xFFF0, 1), (0xFFF3, 1), (0xFFF0, 2), (0xFFF3, 2)] {
        let codes = if edition == 1 { [0, 1, op, 2, op] } else { [op, op, 0, 1, 2] };
        let with = |names: &[&str]| if edition == 1 { make::sheet(names, &codes) } else { make::sheet_first(names, &codes) };
        let good = with(&["A", "B"]);
        let cut = good[..good.len() - 1].to_vec();
        let more = [&good[..], &[3]].concat();
        let many = with(&many.iter().map(String::as_str).collect::<Vec<_>>());
        let unknown = changed(&good, 21, 9);
        let own =
            [&good, &cut, &more, &changed(&good, 4, 9), &with(&["A", " "]), &with(&["A", "A"]), &many, &unknown, &with(&["A", "Lug"])];
        let theirs: [&[u8]; 5] =
            [&fittings, &fittings[..4], &changed(&fittings, 5, 9), &changed(&fittings, 4, 2), &changed(&fittings, 8, b' ')];
        for (own, reason) in own.into_iter().zip([0, 1, 2, 3, 4, 5, 6, 7, 17]) {
            for (theirs, unfit) in theirs.iter().zip([0, 1, 2, 3, 4]) {
                for short in [0, 1] {
                    let due = match (unfit, reason, op, edition, short) {
                        (1.., ..) => unfit,
                        (_, 1.., ..) => reason,
                        (_, _, 0xFFF3, 1, _) => 19,
                        (.., short) => 9 * short,
                    };
                    let sheet = Given { fittings: Some(theirs.to_vec()), own: own.clone() };
                    assert_eq!(compare_move(&sheet, own.len() - usize::from(short)), Ok(due), "{:?}", Case::Read { sheet });
                }
            }
        }
    }
}

/// The largest sheet, in every form, with every shape toggled and crossed.
fn largest_sheets() -> Vec<Case> {
    let mut cases = Vec::new();
    for (k, form) in Form::ALL.into_iter().enumerate() {
        let dice = &mut Dice::of(2, k as u64);
        let names = make::names(dice, 256, 32);
        let sheet = make::sheet(&names, &make::codes(dice, 256, 1024, form));
        assert_eq!(sheet.len(), 13_062);
        let sheet = Given::alone(sheet);
        cases.push(Case::Read { sheet: sheet.clone() });
        cases.push(Case::Build { sheet: sheet.clone(), rooms: [3069; 3] });
        let toggles: Vec<u16> = (0..256).chain((0..256).rev()).chain((0..2000).map(|_| dice.below(256) as u16)).collect();
        cases.push(Case::Run { sheet: sheet.clone(), rooms: [toggles.len(), toggles.len(), 3069], toggles: toggles.clone() });
        let order = any_mix(dice, [toggles.len(), 256]);
        let rooms = [toggles.len(), 256].map(|length| [length, length, 3069]);
        cases.push(Case::Both { sheet: sheet.clone(), order, toggles: [toggles, (0..256).collect()], rooms });
        let (lines, positions, shapes) = lists(&make::crossings(dice, 256, 40, 1000));
        for byte in [0, 1] {
            let rows = (0..50 * 256).map(|k| if k % 256 < 3 { byte } else { dice.below(1 + usize::from(byte)) as u8 }).collect();
            let (sheet, lines, positions, shapes) = (sheet.clone(), lines.clone(), positions.clone(), shapes.clone());
            cases.push(Case::Classify { sheet, rows, rooms: [lines.len() / 2 + 50; 5], lines, positions, shapes });
        }
    }
    cases
}

/// 1024 leaves in a chain to the left, and to the right, in both editions.
fn deepest_sheets() -> Vec<Vec<u8>> {
    let dice = &mut Dice::of(4, 0);
    let codes = [Form::LeftChain, Form::RightChain].map(|form| make::without_exclusive(make::codes(dice, 1, 1024, form)));
    let last = codes.map(|codes| make::sheet(&["A"], &codes));
    last.into_iter().flat_map(|sheet| [kressedach::move_sheet(&sheet).unwrap(), sheet]).collect()
}

#[test]
fn the_largest_sheets() {
    for case in largest_sheets() {
        assert_eq!(assert_same(case), 0);
    }
}

/// The working memory is as small as the header says.
#[test]
fn a_small_stack_is_enough() {
    let calls = || {
        for sheet in deepest_sheets() {
            assert_eq!(kressedach::move_sheet(&sheet).map(|moved| kressedach::move_sheet(&moved)), Ok(Ok(sheet)));
        }
        let operations = make::sheet_first(&["A"], &[0xFFF3; 2047]);
        assert_eq!(kressedach::move_sheet(&operations).map_err(|refusal| (refusal.number(), refusal.place)), Err((7, 9)));
        for case in largest_sheets() {
            match case {
                Case::Read { sheet } => drop(kressedach::read(sheet.ours()).unwrap()),
                Case::Build { sheet, .. } => drop(kressedach::build(sheet.ours()).unwrap()),
                Case::Run { sheet, toggles, .. } => drop(kressedach::run(sheet.ours(), &toggles).unwrap()),
                Case::Both { sheet, order, toggles: [first, second], .. } => {
                    let ran = kressedach::run_both(sheet.ours(), MixedLists { order: &order, first: &first, second: &second }).into_array();
                    assert!(ran.iter().all(Result::is_ok));
                }
                Case::Classify { sheet, rows, lines, positions, shapes, .. } => {
                    let (starts, all) = as_entries(256, &rows, &lines, &positions, &shapes, |line| line);
                    drop(kressedach::classify_from(sheet.ours(), &starts, &all).unwrap());
                }
            }
        }
    };
    std::thread::Builder::new().stack_size(256 * 1024).spawn(calls).unwrap().join().unwrap();
}

/// Lists far longer than any block: a million toggles, a million crossings on one line, half a million lines, one position for all.
#[test]
fn long_lists() {
    const LONG: usize = 1_000_000;
    let sheet = Given::alone(make::sheet(&["A", "B", "C"], &[0, 1, 2, 0xFFF0, 0xFFF2]));
    let toggles: Vec<u16> = (0..LONG).map(|k| (k * k / 7 % 3) as u16).collect();
    assert_eq!(assert_same(Case::Run { sheet: sheet.clone(), toggles, rooms: [LONG, LONG, 6] }), 0);
    type Entry = fn(usize) -> (u32, i32, u16);
    let pattern: [Entry; 5] = [
        |k| (1, i32::MIN + 1 + k as i32 / 3, [0, 1, 2, 2, 1, 0][k % 6]),
        |k| (k as u32 / 2, [i32::MIN + 1, i32::MAX - 1][k % 2], (k / 2 % 3) as u16),
        |_| (0, 0, 0),
        |k| (k as u32 / 1000, k as i32 % 1000 / 4, [0, 1, 1, 0][k % 4]),
        |k| (k as u32 / 3 * 2, k as i32 % 3, (k % 3) as u16),
    ];
    for (k, entry) in pattern.into_iter().enumerate() {
        let length = LONG - LONG % 12;
        let (mut lines, mut positions, mut shapes) = (vec![], vec![], vec![]);
        for (line, position, shape) in (0..length).map(entry) {
            lines.push(line);
            positions.push(position);
            shapes.push(shape);
        }
        // in air, and by the dice; with a line after the last crossing
        let count = lines[length - 1] as usize + 2;
        for inside in [1, 2] {
            let dice = &mut Dice::of(3, k as u64);
            let rows = (0..3 * count).map(|_| dice.below(inside) as u8).collect();
            let (lines, positions, shapes) = (lines.clone(), positions.clone(), shapes.clone());
            let case = Case::Classify { sheet: sheet.clone(), rows, lines, positions, shapes, rooms: [length / 2 + count; 5] };
            assert_eq!(assert_same(case), 0, "pattern {k}");
        }
    }
}

/// A million lines with no crossing, of which every third starts in metal.
#[test]
fn long_rows() {
    let sheet = Given::alone(make::sheet(&["A", "B", "C"], &[0, 1, 2, 0xFFF0, 0xFFF2]));
    let rows: Vec<u8> = (0..3_000_000).map(|k| u8::from(k % 9 == 0)).collect();
    let case = |rows: Vec<u8>| Case::Classify {
        sheet: sheet.clone(),
        rows,
        lines: vec![],
        positions: vec![],
        shapes: vec![],
        rooms: [1_000_000; 5],
    };
    assert_eq!(assert_same(case(rows.clone())), 0);
    assert_eq!(assert_same(case(rows[1..].to_vec())), 14);
    for at in [0, 1_500_000, 2_999_999] {
        let mut rows = rows.clone();
        rows[at] = 2;
        assert_eq!(assert_same(case(rows)), 14);
    }
}

/// What can be wrong with lines. Those before the first crossing's are of the whole lists.
#[derive(Debug, Clone, Copy, PartialEq)]
enum Wrong {
    Lengths,
    RowBegun,
    NoByte,
    NoShape,
    LowMark,
    HighMark,
    NoRow,
    LineFalls,
    PositionFalls,
    Room,
}

impl Wrong {
    const ALL: [Wrong; 10] = [
        Wrong::Lengths,
        Wrong::RowBegun,
        Wrong::NoByte,
        Wrong::NoShape,
        Wrong::LowMark,
        Wrong::HighMark,
        Wrong::NoRow,
        Wrong::LineFalls,
        Wrong::PositionFalls,
        Wrong::Room,
    ];

    /// Its number in the documents.
    fn number(self) -> u8 {
        match self {
            Wrong::Lengths => 13,
            Wrong::RowBegun | Wrong::NoByte => 14,
            Wrong::NoShape => 10,
            Wrong::LowMark | Wrong::HighMark | Wrong::NoRow => 15,
            Wrong::LineFalls | Wrong::PositionFalls => 11,
            Wrong::Room => 9,
        }
    }

    /// Makes it so, at this crossing where it is of one.
    fn put(self, case: &mut Case, at: usize) {
        let Case::Classify { rows, lines, positions, shapes, rooms, .. } = case else { return };
        match self {
            Wrong::Lengths => shapes.push(0),
            Wrong::RowBegun => rows.push(0),
            Wrong::NoByte => rows[4] = 2,
            Wrong::NoShape => shapes[at] = 3,
            Wrong::LowMark => positions[at] = i32::MIN,
            Wrong::HighMark => positions[at] = i32::MAX,
            Wrong::NoRow => lines[at] = 4,
            Wrong::LineFalls => lines[at] = 0,
            Wrong::PositionFalls => positions[at] = -9,
            Wrong::Room => rooms[3] -= 1,
        }
    }
}

/// Any two reasons together, at one crossing or at two in either order: 13, 14, then 10, 15 and 11 item by item, then 9.
#[test]
fn every_two_reasons() {
    let due = |wrong: [Wrong; 2], at: [usize; 2]| {
        let rank = |k: usize| match wrong[k].number() {
            13 => (0, 0, 0),
            14 => (1, 0, 0),
            9 => (3, 0, 0),
            number => (2, at[k], [10, 15, 11].iter().position(|of| *of == number).unwrap()),
        };
        wrong[usize::from(rank(1) < rank(0))].number()
    };
    for (first, second) in Wrong::ALL.into_iter().flat_map(|first| Wrong::ALL.map(|second| (first, second))) {
        for at in [[2, 2], [2, 4], [4, 2]] {
            let mut case = Case::Classify {
                sheet: Given::alone(make::sheet(&["A", "B", "C"], &[0, 1, 2, 0xFFF0, 0xFFF2])),
                rows: vec![0, 1, 0, 1, 0, 0, 0, 0, 0, 1, 1, 1],
                lines: vec![1, 1, 1, 2, 2, 2],
                positions: vec![0, 5, 7, 1, 5, 5],
                shapes: vec![0, 1, 2, 0, 1, 2],
                rooms: [7; 5],
            };
            first.put(&mut case, at[0]);
            second.put(&mut case, at[1]);
            let got = assert_same(case);
            // one may undo the other at one crossing, and a line put back makes those after it fall no more
            let apart = at[0] != at[1] || first.number() != second.number();
            if apart && !moves(first, second) {
                assert_eq!(got, due([first, second], at), "{first:?} and {second:?} at {at:?}");
            }
        }
    }
}

/// Both change the line or the position of a crossing, so that what comes first is for the comparison alone to say.
fn moves(first: Wrong, second: Wrong) -> bool {
    let is = |wrong: Wrong| matches!(wrong, Wrong::LowMark | Wrong::HighMark | Wrong::NoRow | Wrong::LineFalls | Wrong::PositionFalls);
    is(first) && is(second)
}

/// Start rows and crossings as the calls that answer in lists of their own take them, with other line numbers.
fn as_entries(
    names: usize,
    rows: &[u8],
    lines: &[u32],
    positions: &[i32],
    shapes: &[u16],
    number: impl Fn(u32) -> u32,
) -> (Vec<kressedach::Start>, Vec<kressedach::Crossing>) {
    let inside = rows.iter().enumerate().filter(|(_, byte)| **byte == 1);
    let starts = inside.map(|(k, _)| kressedach::Start { line: number((k / names) as u32), shape: (k % names) as u16 }).collect();
    let all = lines.iter().zip(positions).zip(shapes);
    let crossing =
        |((line, position), shape): ((&u32, &i32), &u16)| kressedach::Crossing { line: number(*line), position: *position, shape: *shape };
    (starts, all.map(crossing).collect())
}

/// Any line numbers that rise give the walls of the lines that are numbered by their rows, and the same refusals.
#[test]
fn lines_of_any_numbers() {
    let mut seen = [0u64; 18];
    for case in 0..from_env("KRESSEDACH_CASES", 120_000) / 12 {
        let dice = &mut Dice::of(5, case);
        let (own, names) = make::good_sheet(dice);
        let count = dice.size(12);
        let mut all = make::crossings(dice, names, count, 40);
        if dice.once_in(2) {
            make::damage_crossings(dice, names, count, &mut all);
            // a line with no row cannot be said
            all.iter_mut().for_each(|crossing| crossing.line = crossing.line.min(count as u32 - 1));
        }
        let rows = if dice.once_in(3) { vec![0; names * count] } else { make::rows(dice, names, count) };
        let (lines, positions, shapes) = lists(&all);
        let (first, step) = dice.of_these(&[(0, 1), (7, 1), (1, 1 << 20), (u32::MAX - 11, 1)]);
        let number = |line: u32| first + step * line;
        let (mut starts, all) = as_entries(names, &rows, &lines, &positions, &shapes, number);
        if dice.once_in(2) {
            starts.reverse();
        }
        let crossings = Crossings { rows: &rows, lines: &lines, positions: &positions, shapes: &shapes };
        let due = peer::classify(peer::sheet::Sheets::alone(&own), crossings, [usize::MAX; 5]);
        let walls = |walls: Vec<kressedach::Wall>| -> Vec<(u32, i32, i32, u16, u16)> {
            walls.iter().map(|w| (w.line, w.start, w.end, w.start_shape, w.end_shape)).collect()
        };
        let due_walls = |walls: &Vec<peer::lines::Wall>| -> Vec<(u32, i32, i32, u16, u16)> {
            walls.iter().map(|w| (number(w.line), w.start, w.end, w.start_shape, w.end_shape)).collect()
        };
        let answer = same(kressedach::classify_from(&own, &starts, &all).map(walls), due.as_ref().map(due_walls));
        seen[usize::from(answer.unwrap_or_else(|wrong| panic!("case {case}: {wrong}")))] += 1;
        if starts.is_empty() {
            same(kressedach::classify(&own, &all).map(walls), due.as_ref().map(due_walls)).unwrap();
        }
    }
    assert!([0, 10, 11, 15].iter().all(|answer| seen[*answer] >= 20), "{seen:?}");
}
