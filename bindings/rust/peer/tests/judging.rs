//! K12 of document 02, rule by rule, of the plain implementation.

use peer::judging::{is_right, opinion, Entry, Opinion, TheirLists};
use peer::lines::{Crossings, Wall};
use peer::make::sheet;
use peer::sheet::Sheets;
use peer::Refused;

const LOW: i32 = i32::MIN;
const HIGH: i32 = i32::MAX;

fn entry((line, start, end): (u32, i32, i32)) -> Entry {
    Entry { line, start, end }
}

fn entries(list: &[(u32, i32, i32)]) -> Vec<Entry> {
    list.iter().copied().map(entry).collect()
}

fn wall((line, start, end): (u32, i32, i32)) -> Wall {
    Wall { line, start, end, start_shape: 0, end_shape: 0 }
}

/// The opinion on a list: right, or the index.
fn judged(ours: &[(u32, i32, i32)], theirs: &[(u32, i32, i32)]) -> Result<(), usize> {
    let walls: Vec<Wall> = ours.iter().copied().map(wall).collect();
    let Opinion { right, index } = opinion(&walls, &entries(theirs));
    assert!(!right || index == theirs.len());
    if right {
        Ok(())
    } else {
        Err(index)
    }
}

const OURS: [(u32, i32, i32); 3] = [(0, 0, 4), (0, 6, 9), (2, LOW, HIGH)];

#[test]
fn our_own_list_is_right() {
    assert_eq!(judged(&OURS, &OURS), Ok(()));
    assert_eq!(judged(&[], &[]), Ok(()));
}

#[test]
fn entries_that_touch_are_joined() {
    assert_eq!(judged(&OURS, &[(0, 0, 1), (0, 1, 3), (0, 3, 4), (0, 6, 9), (2, LOW, 0), (2, 0, HIGH)]), Ok(()));
    // on two lines nothing touches
    assert_eq!(judged(&[(0, 0, 4), (1, 4, 6)], &[(0, 0, 4), (1, 4, 6)]), Ok(()));
}

#[test]
fn the_four_conditions() {
    let ours = entries(&OURS);
    assert!(is_right(&ours, &ours));
    assert!(!is_right(&ours, &entries(&[OURS[2], OURS[0], OURS[1]])), "a line falls");
    assert!(!is_right(&ours, &entries(&[(0, 0, 4), (0, 4, 4), (0, 6, 9), OURS[2]])), "a start that is not below its end");
    assert!(!is_right(&ours, &entries(&[(0, 0, 3), (0, 2, 4), (0, 6, 9), OURS[2]])), "one begins before the one before it has ended");
    assert!(!is_right(&ours, &entries(&[(0, 0, 4), (0, 6, 9)])), "another list when joined");
}

/// The first entry after which no right list could begin that way.
#[test]
fn the_index_of_a_wrong_entry() {
    assert_eq!(judged(&OURS, &[(0, 0, 5), (0, 6, 9), OURS[2]]), Err(0), "past our wall's end");
    assert_eq!(judged(&OURS, &[(0, 1, 4)]), Err(0), "after our wall's start");
    assert_eq!(judged(&OURS, &[(0, 0, 3), (0, 6, 9)]), Err(1), "the first could have gone on, the second cannot follow it");
    assert_eq!(judged(&OURS, &[(0, 0, 3), (0, 4, 4)]), Err(1));
    assert_eq!(judged(&OURS, &[(0, 0, 0)]), Err(0), "no length");
    assert_eq!(judged(&OURS, &[(0, 0, 4), (0, 4, 4)]), Err(1));
    assert_eq!(judged(&OURS, &[(0, 0, 4), (0, 4, 3)]), Err(1));
    assert_eq!(judged(&OURS, &[(0, 0, 4), (0, 3, 9)]), Err(1), "an overlap");
    assert_eq!(judged(&OURS, &[(0, 0, 4), (2, LOW, HIGH)]), Err(1), "a wall left out");
    assert_eq!(judged(&OURS, &[(0, 0, 4), (1, 6, 9)]), Err(1), "another line");
    assert_eq!(judged(&OURS, &[(0, 0, 4), (0, 6, 9), (1, 0, 1)]), Err(2));
    assert_eq!(judged(&OURS, &[(0, 0, 4), (0, 6, 9), (0, 6, 9)]), Err(2), "twice");
    assert_eq!(judged(&OURS, &[(0, 0, 4), (0, 6, 9), OURS[2], (3, 0, 1)]), Err(3), "one too many");
    assert_eq!(judged(&[], &[(0, 0, 1)]), Err(0));
    assert_eq!(judged(&OURS, &[(0, 0, 4), (0, 6, 9), (2, LOW, 5), (1, 0, 1)]), Err(3), "a line that falls");
    assert_eq!(judged(&OURS, &[(4294967295, LOW, HIGH)]), Err(0));
}

/// "Or the list's length if it only lacks entries."
#[test]
fn a_list_that_only_lacks_entries() {
    assert_eq!(judged(&OURS, &[]), Err(0));
    assert_eq!(judged(&OURS, &[(0, 0, 4)]), Err(1));
    assert_eq!(judged(&OURS, &[(0, 0, 2)]), Err(1));
    assert_eq!(judged(&OURS, &[(0, 0, 2), (0, 2, 4), (0, 6, 9)]), Err(3));
    assert_eq!(judged(&OURS, &[(0, 0, 4), (0, 6, 9), (2, LOW, HIGH - 1)]), Err(3));
}

/// By meaning, on all lists of three entries and fewer over few numbers: no list that begins with the entries up to the index is right,
/// and with those before it one is.
#[test]
fn the_index_by_meaning() {
    let ours = [(0, 0, 2), (1, 1, 2)];
    let all: Vec<(u32, i32, i32)> = (0..18).map(|k| (k as u32 / 9, k / 3 % 3, k % 3)).collect();
    let mut lists: Vec<Vec<(u32, i32, i32)>> = vec![vec![]];
    for _ in 0..3 {
        let longer: Vec<_> = lists.iter().flat_map(|list| all.iter().map(|last| [&list[..], &[*last]].concat())).collect();
        lists.extend(longer);
    }
    // every right list of ours is among them: none has more than three entries
    let right: Vec<&Vec<(u32, i32, i32)>> = lists.iter().filter(|list| is_right(&entries(&ours), &entries(list))).collect();
    assert!(right.contains(&&vec![(0, 0, 2), (1, 1, 2)]) && right.contains(&&vec![(0, 0, 1), (0, 1, 2), (1, 1, 2)]));
    let begins = |first: &[(u32, i32, i32)]| right.iter().any(|list| list.starts_with(first));
    for list in &lists {
        let due = match right.contains(&list) {
            true => Ok(()),
            false => Err((0..list.len()).find(|k| !begins(&list[..k + 1])).unwrap_or(list.len())),
        };
        assert_eq!(judged(&ours, list), due, "{list:?}");
    }
}

fn refused<T>(number: u8, place: usize) -> Result<T, Refused> {
    Err(Refused { number, sheet: if number <= 7 { 2 } else { 0 }, place })
}

/// As for lines, with 13 for their lists too, and no 9.
#[test]
fn refusals() {
    let two = sheet(&["A", "B"], &[0, 1, 0xFFF2]);
    let judge = |sheet: &[u8], rows: &[u8], shapes: &[u16], ends: &[i32]| {
        let crossings = Crossings { rows, lines: &[0, 0], positions: &[5, 9], shapes };
        peer::judge(Sheets::alone(sheet), crossings, TheirLists { lines: &[0], starts: &[5], ends })
    };
    assert_eq!(judge(&two, &[0, 0], &[0, 0], &[9]), Ok(Opinion { right: true, index: 1 }));
    assert_eq!(judge(&two, &[0, 0], &[0, 0], &[8]), Ok(Opinion { right: false, index: 1 }));
    assert_eq!(judge(&two, &[0, 0], &[0, 0], &[10]), Ok(Opinion { right: false, index: 0 }));
    assert_eq!(judge(&two[..9], &[2], &[2], &[]), refused(1, 9));
    for ends in [&[][..], &[9, 9]] {
        assert_eq!(judge(&two, &[2], &[0, 2], ends), refused(13, 0));
    }
    assert_eq!(judge(&two, &[2], &[0], &[9]), refused(13, 0));
    assert_eq!(judge(&two, &[0, 2], &[0, 2], &[9]), refused(14, 0));
    assert_eq!(judge(&two, &[0, 0], &[0, 2], &[9]), refused(10, 1));
    assert_eq!(judge(&two, &[], &[0, 0], &[9]), refused(15, 0));
}

/// A line that is cut: an open wall starts and ends at the end marks, and their entry too.
#[test]
fn lines_that_start_in_metal() {
    let one = sheet(&["A"], &[0]);
    let judge = |start, end| {
        let crossings = Crossings { rows: &[1], lines: &[], positions: &[], shapes: &[] };
        peer::judge(Sheets::alone(&one), crossings, TheirLists { lines: &[0], starts: &[start], ends: &[end] })
    };
    assert_eq!(judge(LOW, HIGH), Ok(Opinion { right: true, index: 1 }));
    assert_eq!(judge(LOW, HIGH - 1), Ok(Opinion { right: false, index: 1 }));
    assert_eq!(judge(LOW + 1, HIGH), Ok(Opinion { right: false, index: 0 }));
}
