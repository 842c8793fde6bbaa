//! The worked sheet and the cases of document 01, and the rules of document 02, of the plain implementation: it is worth comparing with only if it meets them.

use peer::dwarf::Dwarf;
use peer::formula::{Formula, Op};
use peer::lines::{Crossings, Wall};
use peer::make::{fittings, sheet};
use peer::sheet::{Sheet, Sheets};
use peer::toggles::{afresh, Label, Ran};
use peer::Refused;

const UNION: u16 = 0xFFF0;
const INTERSECTION: u16 = 0xFFF1;
const DIFFERENCE: u16 = 0xFFF2;
const EXCLUSIVE: u16 = 0xFFF3;
const ROOM: [usize; 3] = [4000; 3];
const WALL_ROOM: [usize; 5] = [usize::MAX; 5];

fn refused<T>(number: u8, place: usize) -> Result<T, Refused> {
    Err(Refused { number, sheet: if number <= 7 || number == 17 { 2 } else { 0 }, place })
}

/// A refusal of the fittings sheet.
fn unfit<T>(number: u8, place: usize) -> Result<T, Refused> {
    Err(Refused { number, sheet: 1, place })
}

fn read(sheet: &[u8]) -> Result<Sheet, Refused> {
    peer::read(Sheets::alone(sheet))
}

fn beside(fittings: &[u8], own: &[u8]) -> Result<Sheet, Refused> {
    peer::read(Sheets { fittings: Some(fittings), own })
}

fn build(sheet: &[u8], rooms: [usize; 3]) -> Result<Dwarf, Refused> {
    peer::build(Sheets::alone(sheet), rooms)
}

fn run(sheet: &[u8], toggles: &[u16], rooms: [usize; 3]) -> Result<Ran, Refused> {
    peer::run(Sheets::alone(sheet), toggles, rooms)
}

fn classify(sheet: &[u8], crossings: Crossings, rooms: [usize; 5]) -> Result<Vec<Wall>, Refused> {
    peer::classify(Sheets::alone(sheet), crossings, rooms)
}

fn worked() -> Vec<u8> {
    sheet(&["A", "B", "C"], &[0, 1, 2, UNION, DIFFERENCE])
}

fn size(d: &Dwarf) -> [usize; 4] {
    [d.leaves, d.records.len(), d.rounds, d.height()]
}

fn ran(roots: &[u8], counts: &[u32], labels: &[u8]) -> Result<Ran, Refused> {
    Ok(Ran { roots: roots.to_vec(), counts: counts.to_vec(), labels: labels.to_vec() })
}

/// The walls of one line, from its start row, positions and shapes.
fn line(sheet: &[u8], row: &[u8], crossings: &[(i32, u16)]) -> Result<Vec<Wall>, Refused> {
    let (positions, shapes): (Vec<i32>, Vec<u16>) = crossings.iter().copied().unzip();
    classify(sheet, Crossings { rows: row, lines: &vec![0; crossings.len()], positions: &positions, shapes: &shapes }, WALL_ROOM)
}

/// Where the walls of one line that starts in air begin and end.
fn walls(sheet: &[u8], crossings: &[(i32, u16)]) -> Result<Vec<(i32, i32)>, Refused> {
    let found = line(sheet, &vec![0; read(sheet)?.names.len()], crossings)?;
    assert!(found.iter().all(|wall| wall.line == 0));
    Ok(found.into_iter().map(|wall| (wall.start, wall.end)).collect())
}

#[test]
fn the_worked_sheet_is_these_bytes() {
    let bytes = [1, 0, 2, 0, 1, 2, 0, 1, 0x41, 2, 0, 1, 0x42, 2, 0, 1, 0x43, 3, 0, 0x0A, 0, 0, 0, 1, 0, 2, 0xFF, 0xF0, 0xFF, 0xF2];
    assert_eq!(worked(), bytes);
    let s = read(&bytes).unwrap();
    assert_eq!((s.names, s.leaves, s.first, s.past), (vec![b"A".to_vec(), b"B".to_vec(), b"C".to_vec()], 3, 20, 30));
    assert_eq!(s.formula.codes(), [0, 1, 2, UNION, DIFFERENCE]);
}

#[test]
fn the_listing() {
    let d = build(&worked(), ROOM).unwrap();
    let [leaves, nodes, rounds, height] = size(&d);
    let mut listing = format!("{leaves} {nodes} {rounds} {height}\n");
    for r in &d.records {
        listing += &format!("{} {} {}\n", r.kind, r.first, r.second);
    }
    assert_eq!(listing, "3 6 2 2\n0 0 65535\n0 1 65535\n0 2 65535\n1 1 2\n7 0 65535\n13 4 3\n");
}

#[test]
fn toggles_on_the_worked_sheet() {
    assert_eq!(run(&worked(), &[0, 1, 2, 0], ROOM), ran(&[1, 0, 0, 0], &[2, 2, 1, 2], &[0, 1, 1, 1, 0, 0]));
    let second = run(&worked(), &[1, 2], ROOM).unwrap();
    assert_eq!((second.counts, second.labels), (vec![2, 1], vec![0, 1, 1, 1, 0, 0]));
}

#[test]
fn one_leaf() {
    let one = sheet(&["A"], &[0]);
    assert_eq!(size(&build(&one, ROOM).unwrap()), [1, 1, 0, 0]);
    assert_eq!(run(&one, &[0], ROOM), ran(&[1], &[0], &[1]));
}

#[test]
fn a_shape_at_two_leaves() {
    assert_eq!(run(&sheet(&["A"], &[0, 0, EXCLUSIVE]), &[0], ROOM), ran(&[0], &[1], &[1, 1, 0]));
}

#[test]
fn a_shape_at_no_leaf_counts_nothing() {
    assert_eq!(run(&sheet(&["A", "B"], &[0]), &[1, 0, 1], ROOM), ran(&[0, 1, 1], &[0, 0, 0], &[1]));
}

#[test]
fn two_sizes() {
    let names = ["A", "B", "C", "D", "E"];
    let chain = sheet(&names, &[0, 1, UNION, 2, DIFFERENCE, 3, INTERSECTION, 4, EXCLUSIVE]);
    assert_eq!(size(&build(&chain, ROOM).unwrap())[1..], [12, 3, 3]);
    let balanced = sheet(&names, &[0, 1, UNION, 2, 3, UNION, INTERSECTION]);
    assert_eq!(size(&build(&balanced, ROOM).unwrap())[1..], [7, 2, 2]);
}

#[test]
fn walls_of_lines() {
    let of = |op| sheet(&["A", "B"], &[0, 1, op]);
    assert_eq!(walls(&of(DIFFERENCE), &[(0, 0), (40, 1), (60, 1), (100, 0)]), Ok(vec![(0, 40), (60, 100)]));
    let touching = [(0, 0), (50, 0), (50, 1), (90, 1)];
    assert_eq!(walls(&of(UNION), &touching), Ok(vec![(0, 90)]));
    assert_eq!(walls(&of(INTERSECTION), &touching), Ok(vec![]));
    let one = sheet(&["A"], &[0]);
    assert_eq!(walls(&one, &[(10, 0), (10, 0)]), Ok(vec![]));
    assert_eq!(walls(&one, &[]), Ok(vec![]));
    assert_eq!(walls(&one, &[(i32::MIN + 1, 0), (i32::MAX - 1, 0)]), Ok(vec![(i32::MIN + 1, i32::MAX - 1)]));
    assert_eq!(walls(&worked(), &[(5, 3)]), refused(10, 0));
    assert_eq!(run(&worked(), &[0, 3], ROOM), refused(10, 1));
}

#[test]
fn walls_do_not_join_across_lines() {
    let lists = Crossings { rows: &[0; 3], lines: &[1, 1, 2, 2], positions: &[0, 5, 5, 9], shapes: &[0; 4] };
    let due = [
        Wall { line: 1, start: 0, end: 5, start_shape: 0, end_shape: 0 },
        Wall { line: 2, start: 5, end: 9, start_shape: 0, end_shape: 0 },
    ];
    assert_eq!(classify(&sheet(&["A"], &[0]), lists, WALL_ROOM).unwrap(), due);
}

/// Where several cross at one position, the lowest number whose state differs before and after.
#[test]
fn the_shapes_that_bound_a_wall() {
    let shapes = |sheet: &[u8], crossings: &[(i32, u16)]| -> Vec<(u16, u16)> {
        line(sheet, &[0; 3], crossings).unwrap().into_iter().map(|wall| (wall.start_shape, wall.end_shape)).collect()
    };
    let of = |codes: &[u16]| sheet(&["A", "B", "C"], codes);
    assert_eq!(shapes(&of(&[0, 1, DIFFERENCE]), &[(0, 0), (40, 1), (60, 1), (100, 0)]), [(0, 1), (1, 0)]);
    // joined stretches name the two ends alone
    assert_eq!(shapes(&of(&[0, 1, UNION]), &[(0, 0), (50, 0), (50, 1), (90, 1)]), [(0, 1)]);
    // in any order
    assert_eq!(shapes(&of(&[0]), &[(0, 2), (0, 1), (0, 0), (9, 1), (9, 2), (9, 0)]), [(0, 0)]);
    // crossed twice is not changed; a shape at no leaf is
    assert_eq!(shapes(&of(&[1]), &[(0, 1), (0, 0), (0, 0), (9, 2), (9, 0), (9, 1), (9, 0), (20, 2)]), [(1, 1)]);
    assert_eq!(shapes(&of(&[1]), &[(0, 1), (0, 0), (9, 1), (20, 0)]), [(0, 1)]);
}

#[test]
fn names_letter_by_letter() {
    assert!(read(&sheet(&["Port", "PORT"], &[0])).is_ok());
    assert_eq!(read(&sheet(&["Port", "Port"], &[0])), refused(5, 12));
    assert!(read(&sheet(&["N".repeat(32)], &[0])).is_ok());
    assert_eq!(read(&sheet(&["N".repeat(33)], &[0])), refused(4, 5));
    for (byte, good) in [(0x20, false), (0x21, true), (0x7E, true), (0x7F, false)] {
        assert_eq!(read(&sheet(&[[byte]], &[0])).is_ok(), good, "{byte:#X}");
    }
}

#[test]
fn the_longest_formula() {
    let mut codes = vec![0];
    for _ in 0..1023 {
        codes.extend([0, UNION]);
    }
    let mut bytes = sheet(&["A"], &codes);
    assert_eq!(read(&bytes).unwrap().leaves, 1024);
    bytes[10..12].copy_from_slice(&4095u16.to_be_bytes());
    assert_eq!(read(&bytes), refused(6, 9));
}

/// Each row of the table of refusals, and the order of the questions at a field.
#[test]
fn refusals_of_reading() {
    let header = [1, 0, 2, 0, 1];
    let with = |rest: &[u8]| read(&[&header, rest].concat());
    assert_eq!(read(&[]), refused(1, 0));
    assert_eq!(read(&[2, 0, 2]), refused(2, 0));
    assert_eq!(read(&[1, 0]), refused(1, 2));
    assert_eq!(read(&[1, 0, 3]), refused(3, 0));
    assert_eq!(read(&[1, 0, 2, 0]), refused(1, 4));
    assert_eq!(read(&[1, 0, 2, 0, 3]), refused(3, 0));
    assert_eq!(with(&[]), refused(1, 5));
    assert_eq!(with(&header), refused(2, 5));
    assert_eq!(with(&[3, 0, 2, 0, 0]), refused(2, 5));
    assert_eq!(with(&[2, 0, 0]), refused(4, 5));
    assert_eq!(with(&[2, 0, 33]), refused(4, 5));
    assert_eq!(with(&[2, 0, 3, 0x20, 0x41]), refused(1, 10));
    assert_eq!(with(&[2, 0, 1, 0x41, 3, 0x10, 0]), refused(6, 9));
    assert_eq!(with(&[2, 0, 1, 0x41, 3, 0, 3]), refused(7, 9));
    assert_eq!(with(&[2, 0, 1, 0x41, 3, 0, 0]), refused(7, 9));
    assert_eq!(with(&[2, 0, 1, 0x41, 3, 0, 2, 0]), refused(1, 13));
    assert_eq!(with(&[2, 0, 1, 0x41, 3, 0, 2, 0, 1]), refused(7, 12));
    assert_eq!(with(&[2, 0, 1, 0x41, 3, 0, 4, 0, 0, 0xFF, 0xF0]), refused(7, 14));
    assert_eq!(with(&[2, 0, 1, 0x41, 3, 0, 4, 0, 0, 0, 0]), refused(7, 9));
    assert_eq!(with(&[2, 0, 1, 0x41, 3, 0, 2, 0, 0, 3]), refused(2, 14));
    let names: Vec<String> = (0..257).map(|k| k.to_string()).collect();
    assert!(read(&sheet(&names[..256], &[255])).is_ok());
    let tag = sheet(&names[..256], &[255]).len() - 5;
    assert_eq!(read(&sheet(&names, &[255])), refused(6, tag));
}

#[test]
fn refusals_in_their_order() {
    let one = sheet(&["A"], &[0]);
    let lists = |lines, positions, shapes| classify(&one, Crossings { rows: &[0; 7], lines, positions, shapes }, [0; 5]);
    assert_eq!(lists(&[0], &[0], &[]), refused(13, 0));
    assert_eq!(lists(&[5, 4], &[0, 0], &[0, 1]), refused(10, 1));
    assert_eq!(lists(&[5, 4, 4], &[0, 0, 0], &[0, 0, 1]), refused(11, 1));
    assert_eq!(lists(&[5, 5], &[1, 0], &[0, 0]), refused(11, 1));
    assert_eq!(lists(&[5, 5, 5], &[1, 2, 3], &[0, 0, 0]), refused(9, 8));
    assert_eq!(lists(&[], &[], &[]), refused(9, 7));
    assert_eq!(build(&worked(), [6, 5, 5]), refused(9, 6));
    assert_eq!(run(&worked(), &[0; 4], [4, 3, 0]), refused(9, 4));
    assert_eq!(run(&worked(), &[0; 4], [4, 4, 5]), refused(9, 6));
}

/// K3: an open wall starts at -2147483648 or ends at 2147483647, and an open end's shape is 65535.
#[test]
fn lines_that_start_in_metal() {
    let wall = |start, end, start_shape, end_shape| Wall { line: 0, start, end, start_shape, end_shape };
    let (low, high, open) = (-2147483648, 2147483647, 65535);
    let one = sheet(&["A"], &[0]);
    // document 02's case, and its mirror
    assert_eq!(line(&one, &[0], &[(5, 0)]), Ok(vec![wall(5, high, 0, open)]));
    assert_eq!(line(&one, &[1], &[(5, 0)]), Ok(vec![wall(low, 5, open, 0)]));
    // no crossing, with metal and without
    assert_eq!(line(&one, &[1], &[]), Ok(vec![wall(low, high, open, open)]));
    assert_eq!(line(&one, &[0], &[]), Ok(vec![]));
    // a stretch of no length is nothing, and what touches is joined
    assert_eq!(line(&one, &[1], &[(5, 0), (5, 0)]), Ok(vec![wall(low, high, open, open)]));
    assert_eq!(line(&one, &[1], &[(5, 0), (7, 0)]), Ok(vec![wall(low, 5, open, 0), wall(7, high, 0, open)]));
    // an odd count is a changed start state: A less B, both inside at the start
    let less = sheet(&["A", "B"], &[0, 1, DIFFERENCE]);
    assert_eq!(line(&less, &[1, 1], &[(-3, 1), (8, 0)]), Ok(vec![wall(-3, 8, 1, 0)]));
    assert_eq!(line(&less, &[1, 0], &[(-3, 1), (4, 1)]), Ok(vec![wall(low, -3, open, 1), wall(4, high, 1, open)]));
}

/// K3: lines are numbered by their rows, and what is left inside at a line's end is so on no other.
#[test]
fn lines_are_numbered_by_their_rows() {
    let lists = Crossings { rows: &[0, 1, 0, 0, 1], lines: &[0, 1, 3], positions: &[5, 7, 5], shapes: &[0; 3] };
    let (low, high, open) = (i32::MIN, i32::MAX, 65535);
    let due = [
        Wall { line: 0, start: 5, end: high, start_shape: 0, end_shape: open },
        Wall { line: 1, start: low, end: 7, start_shape: open, end_shape: 0 },
        Wall { line: 3, start: 5, end: high, start_shape: 0, end_shape: open },
        Wall { line: 4, start: low, end: high, start_shape: open, end_shape: open },
    ];
    assert_eq!(classify(&sheet(&["A"], &[0]), lists, [6; 5]).unwrap(), due);
    assert_eq!(classify(&sheet(&["A"], &[0]), lists, [6, 6, 6, 6, 5]), refused(9, 6));
}

/// K3: 14 after 13, at place 0; 15 between 10 and 11, at its index.
#[test]
fn start_rows_and_end_marks() {
    let two = sheet(&["A", "B"], &[0, 1, UNION]);
    let of = |rows: &[u8], lines: &[u32], positions: &[i32], shapes: &[u16]| {
        classify(&two, Crossings { rows, lines, positions, shapes }, WALL_ROOM)
    };
    assert_eq!(of(&[0; 3], &[0], &[], &[]), refused(13, 0));
    assert_eq!(of(&[0; 3], &[0], &[0], &[2]), refused(14, 0));
    assert_eq!(of(&[0, 1, 2, 0], &[0], &[0], &[2]), refused(14, 0));
    assert_eq!(of(&[0, 1, 1, 255], &[], &[], &[]), refused(14, 0));
    assert_eq!(of(&[], &[], &[], &[]), Ok(vec![]));
    assert_eq!(of(&[], &[0], &[0], &[0]), refused(15, 0));
    assert_eq!(of(&[0; 4], &[1, 2], &[0, 0], &[0, 0]), refused(15, 1));
    assert_eq!(of(&[0; 4], &[1, 2], &[0, 0], &[0, 2]), refused(10, 1));
    for mark in [i32::MIN, i32::MAX] {
        assert_eq!(of(&[0; 4], &[1, 1], &[0, mark], &[0, 0]), refused(15, 1));
        assert_eq!(of(&[0; 4], &[1, 0], &[0, mark], &[0, 0]), refused(15, 1));
        assert_eq!(of(&[0; 4], &[1, 0], &[0, mark], &[0, 2]), refused(10, 1));
    }
    assert_eq!(of(&[0; 4], &[1, 0], &[0, 0], &[0, 0]), refused(11, 1));
    // the last line and the last position that are taken; more than 4294967296 rows are more than a test can lend
    assert_eq!(of(&[0; 4], &[1], &[i32::MAX - 1], &[0]).map(|walls| walls.len()), Ok(1));
}

/// The rake table is the operation itself, with 1 and with 0 on the open side; and the labels give the formula's value.
#[test]
fn labels_mean_the_formula() {
    let shape = |k| Formula::Shape(k);
    for [p, q, r] in (0..64).map(|k| [k / 16, k / 4 % 4, k % 4].map(|j| Op::ALL[j])) {
        let formulas = [
            Formula::node(p, shape(0), Formula::node(q, shape(1), Formula::node(r, shape(2), shape(3)))),
            Formula::node(p, Formula::node(q, Formula::node(r, shape(2), shape(3)), shape(1)), shape(0)),
            Formula::node(p, Formula::node(q, shape(0), shape(1)), Formula::node(r, shape(2), shape(3))),
            Formula::node(p, shape(0), Formula::node(q, Formula::node(r, shape(1), shape(2)), shape(3))),
        ];
        for (formula, bits) in formulas.iter().flat_map(|f| (0..16).map(move |bits| (f, bits))) {
            let inside = [bits & 1, bits & 2, bits & 4, bits & 8].map(|bit| bit != 0);
            let dwarf = peer::dwarf::contract(formula);
            assert_eq!(afresh(&dwarf, &inside).last(), Some(&Label::Bit(formula.inside(&inside))), "{formula:?} {inside:?}");
        }
    }
}

/// K7: shapes of the fittings sheet are numbered first, and the customer's formula may use both.
#[test]
fn a_fittings_sheet_beside_the_customers() {
    let (lugs, own) = (fittings(&["lug", "boss"]), sheet(&["block"], &[2, 0, UNION, 1, DIFFERENCE]));
    let read = beside(&lugs, &own).unwrap();
    assert_eq!(read.names, [&b"lug"[..], b"boss", b"block"]);
    assert_eq!((read.leaves, read.first), (3, 16));
    let pair = Sheets { fittings: Some(&lugs), own: &own };
    assert_eq!(peer::name(pair, 1), Ok(b"boss".to_vec()));
    assert_eq!(peer::name(pair, 2), Ok(b"block".to_vec()));
    assert_eq!(peer::name(pair, 3), refused(10, 0));
    assert_eq!(peer::run(pair, &[2, 3], ROOM), refused(10, 1));
}

/// K7: the fittings sheet is judged first and whole, and a place says which sheet.
#[test]
fn fittings_sheets_refused() {
    let own = sheet(&["A"], &[0]);
    assert_eq!(beside(b"", &own), unfit(1, 0));
    assert_eq!(beside(&fittings::<&str>(&[]), b""), unfit(1, 5));
    assert_eq!(beside(&own, &own), unfit(2, 9));
    assert_eq!(beside(&fittings(&["B", "B"]), b""), unfit(5, 9));
    assert_eq!(beside(&fittings(&["B"]), b""), refused(1, 0));
    let two: Vec<String> = (0..257).map(|k| format!("{k:03}")).collect();
    assert_eq!(beside(&fittings(&two), &own), unfit(6, 5 + 256 * 6));
}

/// K7: 17 stands directly after 5; 6 counts both sheets' names together, and comes before 17; one name of the customer's own at least.
#[test]
fn pairs_refused() {
    let names: Vec<String> = (0..256).map(|k| format!("{k:03}")).collect();
    assert_eq!(beside(&fittings(&["A"]), &sheet(&["A"], &[0])), refused(17, 5));
    assert_eq!(beside(&fittings(&["A"]), &sheet(&["B", "B", "A"], &[0])), refused(5, 9));
    assert_eq!(beside(&fittings(&names), &sheet(&["000"], &[0])), refused(6, 5));
    assert_eq!(beside(&fittings(&names[..255]), &sheet(&["x", "000"], &[0])), refused(6, 9));
    assert_eq!(beside(&fittings(&names[..255]), &sheet(&["000"], &[0])), refused(17, 5));
    assert_eq!(beside(&fittings(&["A"]), &sheet::<&str>(&[], &[0])), refused(2, 5));
    assert!(beside(&fittings(&names[..255]), &sheet(&["x"], &[255])).is_ok());
    assert_eq!(beside(&fittings(&["A"]), &sheet(&["B"], &[2])), refused(7, 12));
}

/// K8: each foundry gets what its list alone would, however the other's reads or is mixed.
#[test]
fn two_foundries_on_one_sheet() {
    let sheet = worked();
    let both = |order: &[u8], lists: [&[u16]; 2]| peer::run_both(Sheets::alone(&sheet), order, lists, [ROOM; 2]);
    let (a, b): (&[u16], &[u16]) = (&[0, 1, 2, 0], &[1, 2]);
    let due = [run(&sheet, a, ROOM), run(&sheet, b, ROOM)];
    for order in [[0, 0, 0, 0, 1, 1], [1, 1, 0, 0, 0, 0], [0, 1, 0, 1, 0, 0]] {
        assert_eq!(both(&order, [a, b]), due);
    }
    assert_eq!(both(&[], [&[], &[]]), [run(&sheet, &[], ROOM), run(&sheet, &[], ROOM)]);
    // 10 and 9 to one alone
    assert_eq!(both(&[0, 1, 1], [&[3], b]), [refused(10, 0), due[1].clone()]);
    let short = [[4000, 4000, 5], [2, 1, 4000]];
    assert_eq!(peer::run_both(Sheets::alone(&sheet), &[1, 0, 1], [&[0], b], short), [refused(9, 6), refused(9, 2)]);
    // 13 to both, place 0, before 10 and after the sheet
    for order in [&[0, 1][..], &[0, 1, 1, 1], &[0, 0, 1], &[0, 1, 2], &[0, 1, 1, 2], &[]] {
        assert_eq!(both(order, [&[3], b]), [refused(13, 0), refused(13, 0)], "{order:?}");
    }
    assert_eq!(peer::run_both(Sheets::alone(b""), &[2], [&[3], b], [ROOM; 2]), [refused(1, 0), refused(1, 0)]);
}
