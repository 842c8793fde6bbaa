//! Runs with edits (document 02, K13): the library and the plain implementation in `peer`, which builds anew at every edit, agree on many
//! cases made from a seed, on every operation of small formulas, and on every order of two reasons to refuse.
//!
//! Answers and refusals are compared, and every answer list from end to end, with entries before and after it that were not lent.
//! `KRESSEDACH_CASES` and `KRESSEDACH_SEED` say how many cases and from which seed. A difference prints its case whole.

mod given;
mod lent;

use given::{mostly_good, same, Given, Ours};
use kressedach::{EditLists, EditedLists, RunLists};
use lent::{rooms, Lent};
use peer::designs::{self, Design};
use peer::make::{self, Dice, Form};
use peer::{from_env, say};
use std::time::Instant;

/// One call of the library. A room is the length of an answer list.
#[derive(Debug, Clone)]
struct Case {
    sheet: Given,
    toggles: Vec<u16>,
    design: Design,
    rooms: [usize; 4],
}

/// The refusals that can be given. 8 is in the table, and it is proved that no formula of a sheet gets it.
const CAN: [usize; 13] = [0, 1, 2, 3, 4, 5, 6, 7, 9, 10, 13, 17, 20];

fn edits(design: &Design) -> EditLists<'_> {
    EditLists { moments: &design.moments, positions: &design.positions, codes: &design.codes }
}

/// Calls the library and the plain implementation. Gives the refusal's number, 0 for none, or in what they differ.
fn compare(case: &Case) -> Result<u8, String> {
    let Case { sheet, toggles, design, rooms: [a, b, c, d] } = case;
    let (mut roots, mut labels) = (Lent::new(*a, |k| k as u8), Lent::new(*c, |k| k as u8));
    let (mut counts, mut edit_counts) = (Lent::new(*b, |k| k as u32), Lent::new(*d, |k| k as u32));
    let run = RunLists { roots: roots.list(), counts: counts.list(), labels: labels.list() };
    let mut lists = EditedLists { run, edit_counts: edit_counts.list() };
    let got = kressedach::run_edited_into(sheet.ours(), toggles, edits(design), &mut lists);
    let due = peer::run_edited(sheet.theirs(), toggles, design.lists(), case.rooms);
    let number = same(got, due.as_ref().map(|due| due.ran.labels.len()))?;
    roots.check("roots", due.iter().flat_map(|due| due.ran.roots.iter().copied()))?;
    counts.check("counts", due.iter().flat_map(|due| due.ran.counts.iter().copied()))?;
    labels.check("labels", due.iter().flat_map(|due| due.ran.labels.iter().copied()))?;
    edit_counts.check("edit_counts", due.iter().flat_map(|due| due.edit_counts.iter().copied()))?;
    Ok(number)
}

fn assert_same(case: &Case) -> u8 {
    compare(case).unwrap_or_else(|difference| panic!("{difference}\n{case:?}"))
}

/// The codes in postfix order, whichever order the sheet has; of refused sheets, some.
fn codes(sheet: &Given) -> Vec<u16> {
    peer::read(sheet.theirs()).map_or(vec![0, 0, 0xFFF0], |sheet| sheet.formula.codes())
}

/// The entries that the four answer lists need.
fn needed(sheet: &Given, toggles: &[u16], design: &Design) -> [usize; 4] {
    let nodes = peer::build(sheet.theirs(), [usize::MAX; 3]).map_or(5, |dwarf| dwarf.records.len());
    [toggles.len(), toggles.len(), nodes, design.moments.len()]
}

fn make_case(dice: &mut Dice) -> Case {
    let (sheet, names) = mostly_good(dice);
    let mut toggles = make::toggles(dice, names, 100);
    if dice.once_in(12) && !toggles.is_empty() {
        let at = dice.below(toggles.len());
        toggles[at] = dice.of_these(&[names as u16, 256, 65535]);
    }
    let design = designs::any(dice, &codes(&sheet), toggles.len());
    let rooms = rooms(dice, needed(&sheet, &toggles, &design));
    Case { sheet, toggles, design, rooms }
}

#[test]
fn the_two_agree_on_cases_from_a_seed() {
    let seed = from_env("KRESSEDACH_SEED", 1);
    let cases = from_env("KRESSEDACH_CASES", 150_000) / 5;
    let began = Instant::now();
    let mut seen = [0u64; 21];
    for number in 0..cases {
        let case = make_case(&mut Dice::of(seed ^ 0x13, number));
        match compare(&case) {
            Ok(answer) => seen[usize::from(answer)] += 1,
            Err(difference) => panic!("seed {seed}, case {number}: {difference}\n{case:?}"),
        }
    }
    let seconds = began.elapsed().as_secs_f64();
    say(format!("{cases} runs with edits from seed {seed} agree, in {seconds:.1} s; given, then refused 1 to 20: {seen:?}"));
    // the cases are worth something: whatever can be answered comes up
    assert!(cases < 20_000 || CAN.iter().all(|answer| seen[*answer] >= 20), "{seen:?}");
}

/// Every operation of small formulas in every form, in both editions, becomes every other, after each toggle of a run that has all shapes
/// in and out.
#[test]
fn every_operation_becomes_every_other() {
    const NAMES: [&str; 3] = ["A", "B", "C"];
    for (leaves, form) in (1..=9).flat_map(|leaves| Form::ALL.map(|form| (leaves, form))) {
        let dice = &mut Dice::of(31, leaves as u64);
        let codes = make::codes(dice, 3, leaves, form);
        let own = Given::alone(make::sheet(&NAMES, &codes));
        // laid here and not moved: no move to edition 2 takes an exclusive union along
        let first = peer::read(own.theirs()).unwrap().formula.codes_first();
        let sheets = [own, Given::alone(make::sheet_first(&NAMES, &first))];
        assert_eq!(sheets.each_ref().map(|sheet| peer::read(sheet.theirs()).unwrap().edition), [1, 2]);
        let toggles = vec![0, 1, 0, 2, 1, 0, 2];
        let operations = (0..codes.len()).filter(|at| codes[*at] >= 0xFFF0);
        for (position, code) in operations.flat_map(|at| (0xFFF0..=0xFFF3).map(move |code| (at as u16, code))) {
            let mut design = Design::default();
            for moment in 0..=toggles.len() as u64 {
                // there, and back
                design.put(moment, position, code);
                design.put(moment, position, codes[usize::from(position)]);
            }
            for sheet in &sheets {
                let rooms = needed(sheet, &toggles, &design);
                assert_eq!(assert_same(&Case { sheet: sheet.clone(), toggles: toggles.clone(), design: design.clone(), rooms }), 0);
            }
        }
    }
}

/// Every edit of a good list changed in every way, and lists of unequal length.
#[test]
fn every_edit_changed_in_every_way() {
    let sheet = Given::alone(make::sheet(&["A", "B", "C"], &[0, 1, 2, 0xFFF0, 0xFFF2]));
    let (codes, toggles) = (codes(&sheet), vec![0, 1, 2, 0]);
    let mut good = Design::default();
    for (moment, position, code) in [(0, 3, 0xFFF1), (1, 4, 0xFFF0), (1, 3, 0xFFF3), (3, 4, 0xFFF2), (4, 3, 0xFFF0)] {
        good.put(moment, position, code);
    }
    let mut seen = [0; 21];
    let mut judge = |design: Design| {
        let rooms = needed(&sheet, &toggles, &design);
        seen[usize::from(assert_same(&Case { sheet: sheet.clone(), toggles: toggles.clone(), design, rooms }))] += 1;
    };
    for (way, at) in (0..designs::WAYS).flat_map(|way| (0..5).map(move |at| (way, at))) {
        let mut design = good.clone();
        designs::change(way, at, &codes, toggles.len(), &mut design);
        judge(design);
    }
    judge(Design { moments: good.moments[1..].to_vec(), ..good.clone() });
    judge(Design { positions: good.positions[1..].to_vec(), ..good.clone() });
    judge(Design { codes: good.codes[1..].to_vec(), ..good.clone() });
    assert_eq!((seen[0], seen[13], seen[20]), (4, 3, 46), "{seen:?}");
}

/// What can be wrong with a call.
#[derive(Debug, Clone, Copy, PartialEq)]
enum Wrong {
    Sheet,
    Lengths,
    Toggle,
    Node,
    Code,
    Moment,
    Roots,
    Counts,
    Labels,
    EditCounts,
}

impl Wrong {
    const ALL: [Wrong; 10] = [
        Wrong::Sheet,
        Wrong::Lengths,
        Wrong::Toggle,
        Wrong::Node,
        Wrong::Code,
        Wrong::Moment,
        Wrong::Roots,
        Wrong::Counts,
        Wrong::Labels,
        Wrong::EditCounts,
    ];

    /// The number and the place that the documents give it.
    fn due(self) -> (u8, usize) {
        match self {
            Wrong::Sheet => (1, 29),
            Wrong::Lengths => (13, 0),
            Wrong::Toggle => (10, 3),
            Wrong::Node => (20, 1),
            Wrong::Code => (20, 0),
            Wrong::Moment => (20, 2),
            Wrong::Roots | Wrong::Counts => (9, 4),
            Wrong::Labels => (9, 6),
            Wrong::EditCounts => (9, 3),
        }
    }

    fn put(self, case: &mut Case) {
        match self {
            Wrong::Sheet => drop(case.sheet.own.pop()),
            Wrong::Lengths => case.design.moments.push(4),
            Wrong::Toggle => case.toggles[3] = 3,
            Wrong::Node => case.design.positions[1] = 2,
            Wrong::Code => case.design.codes[0] = 2,
            Wrong::Moment => case.design.moments[2] = 5,
            Wrong::Roots => case.rooms[0] = 3,
            Wrong::Counts => case.rooms[1] = 3,
            Wrong::Labels => case.rooms[2] = 5,
            Wrong::EditCounts => case.rooms[3] = 2,
        }
    }
}

/// Any two reasons together: the sheet, 13, 10, 20 at the first edit at fault, then 9 for the four lists in their order.
#[test]
fn every_two_reasons() {
    const ORDER: [Wrong; 10] = [
        Wrong::Sheet,
        Wrong::Lengths,
        Wrong::Toggle,
        Wrong::Code,
        Wrong::Node,
        Wrong::Moment,
        Wrong::Roots,
        Wrong::Counts,
        Wrong::Labels,
        Wrong::EditCounts,
    ];
    let mut design = Design::default();
    for (moment, position, code) in [(0, 3, 0xFFF1), (2, 4, 0xFFF0), (4, 3, 0xFFF3)] {
        design.put(moment, position, code);
    }
    let good = Case {
        sheet: Given::alone(make::sheet(&["A", "B", "C"], &[0, 1, 2, 0xFFF0, 0xFFF2])),
        toggles: vec![0, 1, 2, 0],
        design,
        rooms: [4, 4, 6, 3],
    };
    assert_eq!(assert_same(&good), 0);
    for (first, second) in Wrong::ALL.into_iter().flat_map(|first| Wrong::ALL.map(|second| (first, second))) {
        let mut case = good.clone();
        first.put(&mut case);
        if second != first {
            second.put(&mut case);
        }
        let due = ORDER.into_iter().find(|wrong| [first, second].contains(wrong)).unwrap().due();
        let refused = peer::run_edited(case.sheet.theirs(), &case.toggles, case.design.lists(), case.rooms).unwrap_err();
        assert_eq!((refused.number, refused.place), due, "{first:?} and {second:?}");
        assert_eq!(assert_same(&case), due.0);
    }
}

/// The largest sheet in every form, with edits all over it; and the working memory is as small as the header says.
#[test]
fn the_largest_sheets() {
    for (k, form) in Form::ALL.into_iter().enumerate() {
        let dice = &mut Dice::of(32, k as u64);
        let names = make::names(dice, 256, 32);
        let codes = make::codes(dice, 256, 1024, form);
        let sheet = Given::alone(make::sheet(&names, &codes));
        let toggles: Vec<u16> = (0..256).chain((0..400).map(|_| dice.below(256) as u16)).collect();
        let mut design = Design::default();
        let operations: Vec<u16> = (0..2047).filter(|at| codes[usize::from(*at)] >= 0xFFF0).collect();
        for moment in (0..=656).step_by(4) {
            design.put(moment, operations[dice.below(1023)], 0xFFF0 + dice.below(4) as u16);
        }
        let case = Case { rooms: needed(&sheet, &toggles, &design), sheet, toggles, design };
        assert_eq!(assert_same(&case), 0);
        let call = move || {
            let (mut roots, mut counts, mut labels, mut edit_counts) = (vec![0; 656], vec![0; 656], vec![0; 3069], vec![0; 165]);
            let run = RunLists { roots: &mut roots, counts: &mut counts, labels: &mut labels };
            let mut lists = EditedLists { run, edit_counts: &mut edit_counts };
            assert!(kressedach::run_edited_into(case.sheet.ours(), &case.toggles, edits(&case.design), &mut lists).is_ok());
        };
        std::thread::Builder::new().stack_size(256 * 1024).spawn(call).unwrap().join().unwrap();
    }
}

/// Hundreds of thousands of toggles and of edits, at one moment and at all.
#[test]
fn long_lists() {
    const LONG: usize = 300_000;
    let sheet = Given::alone(make::sheet(&["A", "B", "C"], &[0, 1, 2, 0xFFF0, 0xFFF2]));
    let toggles: Vec<u16> = (0..LONG).map(|k| (k * k / 7 % 3) as u16).collect();
    let moments: [fn(usize) -> u64; 3] = [|k| k as u64, |_| LONG as u64, |k| k as u64 / 1000 * 1000];
    for moment in moments {
        let mut design = Design::default();
        for k in 0..LONG {
            design.put(moment(k), 3 + (k / 3 % 2) as u16, 0xFFF0 + (k * k / 5 % 4) as u16);
        }
        let case = Case { sheet: sheet.clone(), toggles: toggles.clone(), design, rooms: [LONG, LONG, 6, LONG] };
        assert_eq!(assert_same(&case), 0);
    }
}

/// Of the library alone: the labels are those of a run on the edited sheet, and without edits it is a run.
#[test]
fn as_a_run_on_the_edited_sheet() {
    for case in 0..from_env("KRESSEDACH_CASES", 150_000) / 50 {
        let dice = &mut Dice::of(33, case);
        let (own, names) = make::good_sheet(dice);
        let sheet = Given::alone(own);
        let mut codes = codes(&sheet);
        let toggles = make::toggles(dice, names, 60);
        let design = designs::good(dice, &codes, toggles.len(), 60);
        let edits: Vec<kressedach::Edit> = (0..design.moments.len())
            .map(|k| kressedach::Edit { after: design.moments[k], position: design.positions[k], code: design.codes[k] })
            .collect();
        let edited = kressedach::run_edited(sheet.ours(), &toggles, &edits).unwrap();
        edits.iter().for_each(|edit| codes[usize::from(edit.position)] = edit.code);
        let all = peer::read(sheet.theirs()).unwrap().names;
        assert_eq!(edited.ran.labels, kressedach::run(&make::sheet(&all, &codes), &toggles).unwrap().labels, "case {case}");
        assert_eq!(Ok(kressedach::run_edited(sheet.ours(), &toggles, &[]).unwrap().ran), kressedach::run(sheet.ours(), &toggles));
    }
}
