//! K13 of document 02, rule by rule, of the plain implementation.

use peer::designs;
use peer::dwarf::{contract, Dwarf};
use peer::edits::{Edited, Edits};
use peer::make::{self, sheet, sheet_first, Dice, Form};
use peer::sheet::Sheets;
use peer::toggles::{afresh, label, Ran};
use peer::Refused;

const UNION: u16 = 0xFFF0;
const INTERSECTION: u16 = 0xFFF1;
const DIFFERENCE: u16 = 0xFFF2;
const EXCLUSIVE: u16 = 0xFFF3;
const ABC: [&str; 3] = ["A", "B", "C"];
const ROOM: [usize; 4] = [4000; 4];

fn refused<T>(number: u8, place: usize) -> Result<T, Refused> {
    Err(Refused { number, sheet: if number <= 7 { 2 } else { 0 }, place })
}

/// A less B union C: the leaves have dwarf nodes 0 to 2, the union node 3, the difference node 4 (A raked), and 5 joins them.
fn worked() -> Vec<u8> {
    sheet(&ABC, &[0, 1, 2, UNION, DIFFERENCE])
}

fn run(sheet: &[u8], toggles: &[u16], edits: &[(u64, u16, u16)]) -> Result<Edited, Refused> {
    run_in(sheet, toggles, edits, ROOM)
}

fn run_in(sheet: &[u8], toggles: &[u16], edits: &[(u64, u16, u16)], rooms: [usize; 4]) -> Result<Edited, Refused> {
    let moments: Vec<u64> = edits.iter().map(|edit| edit.0).collect();
    let positions: Vec<u16> = edits.iter().map(|edit| edit.1).collect();
    let codes: Vec<u16> = edits.iter().map(|edit| edit.2).collect();
    peer::run_edited(Sheets::alone(sheet), toggles, Edits { moments: &moments, positions: &positions, codes: &codes }, rooms)
}

fn edited(roots: &[u8], counts: &[u32], labels: &[u8], edit_counts: &[u32]) -> Result<Edited, Refused> {
    let ran = Ran { roots: roots.to_vec(), counts: counts.to_vec(), labels: labels.to_vec() };
    Ok(Edited { ran, edit_counts: edit_counts.to_vec() })
}

#[test]
fn without_edits_it_is_a_run() {
    assert_eq!(run(&worked(), &[0, 1, 2, 0], &[]), edited(&[1, 0, 0, 0], &[2, 2, 1, 2], &[0, 1, 1, 1, 0, 0], &[]));
}

/// "Designers try a difference where a union stood."
#[test]
fn one_operation_is_another() {
    // A less B: A alone inside; then A or B, so that B's toggle changes nothing
    let less = sheet(&ABC[..2], &[0, 1, DIFFERENCE]);
    assert_eq!(run(&less, &[0, 1], &[(1, 2, UNION)]), edited(&[1, 1], &[1, 1], &[1, 1, 1], &[1]));
    // the union is an intersection from the start: B alone does not take A's metal away
    assert_eq!(run(&worked(), &[0, 1], &[(0, 3, INTERSECTION)]), edited(&[1, 1], &[2, 1], &[1, 1, 0, 0, 1, 1], &[1]));
}

/// "Its own node included": an edit to the code that stands there counts 1; where its label changes, those above it count too.
#[test]
fn what_an_edit_counts() {
    assert_eq!(run(&worked(), &[0], &[(1, 3, UNION), (1, 4, DIFFERENCE)]).unwrap().edit_counts, [1, 1]);
    // A and B inside: the union is 1, an intersection 0, so the root above it is reworked
    let both = run(&worked(), &[0, 1], &[(2, 3, INTERSECTION)]).unwrap();
    assert_eq!((both.edit_counts, both.ran.labels), (vec![2], vec![1, 1, 0, 0, 1, 1]));
    // R's pair (0, 1) becomes (1, 1), and the root above it 1
    let raked = run(&worked(), &[0, 1], &[(2, 4, UNION)]).unwrap();
    assert_eq!((raked.edit_counts, raked.ran.labels), (vec![2], vec![1, 1, 0, 1, 3, 1]));
}

/// "Edits with equal moments act in list order, after the root of the toggle before them is given."
#[test]
fn the_order_of_edits() {
    let less = sheet(&ABC[..2], &[0, 1, DIFFERENCE]);
    // the root after the first toggle is that of the difference
    assert_eq!(run(&less, &[1, 0], &[(1, 2, UNION)]).unwrap().ran.roots, [0, 1]);
    assert_eq!(run(&less, &[1, 0], &[(0, 2, UNION)]).unwrap().ran.roots, [1, 1]);
    let last = |edits: &[(u64, u16, u16)]| *run(&less, &[0, 1], edits).unwrap().ran.labels.last().unwrap();
    assert_eq!(last(&[(2, 2, UNION), (2, 2, EXCLUSIVE)]), 0);
    assert_eq!(last(&[(2, 2, EXCLUSIVE), (2, 2, UNION)]), 1);
    // an edit after the last toggle is in the labels
    assert_eq!(last(&[(2, 2, INTERSECTION)]), 1);
    assert_eq!(last(&[]), 0);
    // and where there is no toggle at all
    assert_eq!(run(&less, &[], &[(0, 2, EXCLUSIVE)]), edited(&[], &[], &[0, 0, 0], &[1]));
}

/// Position counts in postfix order in either edition.
#[test]
fn the_postfix_position_under_edition_2() {
    let first = sheet_first(&ABC, &[DIFFERENCE, 0, UNION, 1, 2]);
    let edits = [(0, 3, EXCLUSIVE), (1, 4, UNION)];
    assert_eq!(run(&first, &[0, 1, 2], &edits), run(&worked(), &[0, 1, 2], &edits));
    assert_eq!(run(&first, &[0], &[(0, 0, UNION)]), refused(20, 0));
}

/// "13; 20 after 10; the edits' count list stands last in the order of 9."
#[test]
fn refusals() {
    let lists = |moments: &[u64], positions: &[u16], codes: &[u16]| {
        peer::run_edited(Sheets::alone(&worked()), &[3], Edits { moments, positions, codes }, [0; 4])
    };
    assert_eq!(lists(&[9], &[9], &[]), refused(13, 0));
    assert_eq!(lists(&[9], &[], &[9]), refused(13, 0));
    assert_eq!(lists(&[], &[9], &[9]), refused(13, 0));
    assert_eq!(lists(&[9], &[9], &[9]), refused(10, 0));
    assert_eq!(run(&worked()[..29], &[3], &[(9, 9, 9)]), refused(1, 29));
    let good = (1, 3, UNION);
    for wrong in [(1, 2, UNION), (1, 5, UNION), (1, 65535, UNION), (1, 3, 0), (1, 3, 0xFFEF), (1, 3, 0xFFF4), (3, 3, UNION), (0, 3, UNION)]
    {
        assert_eq!(run_in(&worked(), &[0, 1], &[good, wrong], [0; 4]), refused(20, 1), "{wrong:?}");
    }
    assert_eq!(run(&worked(), &[0, 1], &[(u64::MAX, 3, UNION)]), refused(20, 0));
    assert_eq!(run(&sheet(&["A"], &[0]), &[], &[(0, 0, UNION)]), refused(20, 0), "a formula of one leaf");
    let rooms = |rooms| run_in(&worked(), &[0, 1], &[good], rooms);
    assert_eq!(rooms([1, 1, 5, 0]), refused(9, 2));
    assert_eq!(rooms([2, 1, 5, 0]), refused(9, 2));
    assert_eq!(rooms([2, 2, 5, 0]), refused(9, 6));
    assert_eq!(rooms([2, 2, 6, 0]), refused(9, 1));
    assert!(rooms([2, 2, 6, 1]).is_ok());
}

/// K2's rule gone through by hand: the node whose kind is another is reworked, and in rising number each node with a changed child.
fn reworked(before: &Dwarf, after: &Dwarf, inside: &[bool]) -> u32 {
    let old = afresh(before, inside);
    let (mut labels, mut count) = (old.clone(), 0);
    for (node, record) in after.records.iter().enumerate() {
        let own = record.kind != before.records[node].kind;
        if own || record.children().into_iter().any(|child| labels[child] != old[child]) {
            labels[node] = label(after, &labels, node);
            count += 1;
        }
    }
    assert_eq!(labels, afresh(after, inside));
    count
}

/// "Each root and label is that of a build of the sheet as edited by then with the same shapes inside", and an edit moves no node: the
/// kind of one is another.
#[test]
fn a_build_of_the_edited_sheet() {
    let sheet_of = |codes: &[u16]| sheet(&ABC, codes);
    let dwarf_of = |codes: &[u16]| contract(&peer::read(Sheets::alone(&sheet_of(codes))).unwrap().formula);
    for case in 0..400 {
        let dice = &mut Dice::of(21, case);
        let (leaves, form) = (1 + dice.below(40), dice.of_these(&Form::ALL));
        let mut codes = make::codes(dice, 3, leaves, form);
        let toggles = make::toggles(dice, 3, 20);
        let design = designs::good(dice, &codes, toggles.len(), 12);
        let ran = peer::run_edited(Sheets::alone(&sheet_of(&codes)), &toggles, design.lists(), ROOM).unwrap();
        let mut inside = [false; 3];
        for moment in 0..=toggles.len() {
            if moment > 0 {
                inside[usize::from(toggles[moment - 1])] ^= true;
                let due = peer::run(Sheets::alone(&sheet_of(&codes)), &toggles[..moment], [4000; 3]).unwrap();
                assert_eq!(ran.ran.roots[moment - 1], due.roots[moment - 1]);
            }
            for edit in (0..design.moments.len()).filter(|edit| design.moments[*edit] == moment as u64) {
                let before = dwarf_of(&codes);
                let was = std::mem::replace(&mut codes[usize::from(design.positions[edit])], design.codes[edit]);
                let after = dwarf_of(&codes);
                let same = was == design.codes[edit];
                let records = || before.records.iter().zip(&after.records);
                assert!(records().all(|(a, b)| (a.first, a.second) == (b.first, b.second)));
                assert_eq!(records().filter(|(a, b)| a.kind != b.kind).count(), usize::from(!same));
                assert_eq!(ran.edit_counts[edit], if same { 1 } else { reworked(&before, &after, &inside) });
            }
        }
        assert_eq!(ran.ran.labels, peer::run(Sheets::alone(&sheet_of(&codes)), &toggles, [4000; 3]).unwrap().labels);
    }
}
