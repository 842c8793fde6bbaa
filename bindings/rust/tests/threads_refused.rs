//! Where a part of the lines is refused, jobs on several threads are refused as one call is: with its number, its place and its line, and no
//! list is written. Each number that can come is brought about in the first part, in the last, between them and on both sides of every cut,
//! alone and together with another in another part.

#[allow(dead_code)]
mod zeros;

use kressedach::{classify_from, classify_into, classify_into_on, classify_on, cross_into_on, cross_many_into};
use kressedach::{judge, judge_lists, judge_lists_on, judge_on, Crossing, Lines, ManyLists, ShapeLists, TheirLists, WallLists, BOX};
use peer::make;
use zeros::Zeros;

/// So many lines, each with so many crossings; two shapes have names.
const LINES: usize = 24;
const A_LINE: usize = 4;
const NAMES: usize = 2;

/// Also as many as the machine has, and more than there are lines.
const THREADS: [usize; 6] = [0, 1, 2, 3, 7, 2000];

#[derive(Clone)]
struct Given {
    rows: Vec<u8>,
    lines: Vec<u32>,
    positions: Vec<i32>,
    shapes: Vec<u16>,
}

impl Given {
    /// Both shapes are entered and left on each line; every third line starts in the second.
    fn good() -> Given {
        let at = |k: usize| (k % A_LINE) as i32;
        Given {
            rows: (0..LINES * NAMES).map(|k| u8::from(k % (3 * NAMES) == 1)).collect(),
            lines: (0..LINES * A_LINE).map(|k| (k / A_LINE) as u32).collect(),
            positions: (0..LINES * A_LINE).map(|k| 10 * at(k) - 15).collect(),
            shapes: (0..LINES * A_LINE).map(|k| (at(k) % 2) as u16).collect(),
        }
    }

    fn lines(&self) -> Lines<'_> {
        Lines { rows: &self.rows, lines: &self.lines, positions: &self.positions, shapes: &self.shapes }
    }

    fn crossings(&self) -> Vec<Crossing> {
        let entries = self.lines.iter().zip(&self.positions).zip(&self.shapes);
        entries.map(|((line, position), shape)| Crossing { line: *line, position: *position, shape: *shape }).collect()
    }
}

/// What is wrong at a crossing: the number that is due for it, if nothing before it is wrong.
const FAULTS: [(u8, fn(&mut Given, usize)); 9] = [
    (10, |given, at| given.shapes[at] = 2),
    (10, |given, at| given.shapes[at] = 65535),
    (15, |given, at| given.positions[at] = i32::MIN),
    (15, |given, at| given.positions[at] = i32::MAX),
    (15, |given, at| given.lines[at] = LINES as u32),
    (15, |given, at| given.lines[at] = u32::MAX),
    // on the line before, on the first line, and where the last one's place is greater; line 0 has none before it, and then no row
    (11, |given, at| given.lines[at] = given.lines[at].wrapping_sub(1)),
    (11, |given, at| given.lines[at] = if given.lines[at] == 0 { u32::MAX } else { 0 }),
    (11, |given, at| match at % A_LINE {
        0 => given.lines[at] = given.lines[at].wrapping_sub(1),
        _ => given.positions[at] = given.positions[at - 1] - 1,
    }),
];

/// The number that is due for a fault at a crossing: one on line 0 that is moved to the line before has no row.
fn due(number: u8, given: &Given, at: usize) -> u8 {
    if number == 11 && given.lines[at] == u32::MAX {
        15
    } else {
        number
    }
}

/// What is wrong with the lists as they are.
const WHOLE: [(u8, fn(&mut Given)); 8] = [
    (13, |given| given.lines.truncate(LINES * A_LINE - 1)),
    (13, |given| given.positions.push(0)),
    (13, |given| given.shapes.truncate(LINES * A_LINE - 1)),
    (14, |given| given.rows.truncate(LINES * NAMES - 1)),
    (14, |given| given.rows.push(0)),
    (14, |given| given.rows[0] = 2),
    (14, |given| given.rows[LINES * NAMES / 2] = 255),
    (14, |given| given.rows[LINES * NAMES - 1] = 3),
];

fn sheet() -> Vec<u8> {
    make::sheet(&["A", "B"], &[0, 1, 0xFFF2])
}

/// The five lists of walls, each as long as it should be but for one, which lacks an entry.
struct Room(Vec<u32>, Vec<i32>, Vec<i32>, Vec<u16>, Vec<u16>);

impl Room {
    fn lacking(list: Option<usize>) -> Room {
        let room = |k| LINES * A_LINE / 2 + LINES - usize::from(list == Some(k));
        Room(vec![9; room(0)], vec![9; room(1)], vec![9; room(2)], vec![9; room(3)], vec![9; room(4)])
    }

    fn lists(&mut self) -> WallLists<'_> {
        WallLists { lines: &mut self.0, starts: &mut self.1, ends: &mut self.2, start_shapes: &mut self.3, end_shapes: &mut self.4 }
    }

    fn is_as_lent(&self) -> bool {
        let Room(lines, starts, ends, start_shapes, end_shapes) = self;
        let numbers = [starts, ends].into_iter().flatten().all(|number| *number == 9);
        numbers && lines.iter().all(|line| *line == 9) && [start_shapes, end_shapes].into_iter().flatten().all(|shape| *shape == 9)
    }
}

/// That these lines are refused so, in one call and on any number of threads.
fn assert_refused(given: &Given, number: u8, place: usize) {
    let due = classify_into(&sheet(), given.lines(), &mut Room::lacking(None).lists()).unwrap_err();
    assert_eq!((due.number(), due.place), (number, place));
    let theirs = TheirLists { lines: &[], starts: &[], ends: &[] };
    assert_eq!(judge_lists(&sheet(), given.lines(), theirs), Err(due));
    for threads in THREADS {
        let mut room = Room::lacking(None);
        assert_eq!(classify_into_on(threads, &sheet(), given.lines(), &mut room.lists()), Err(due), "{threads} threads");
        assert!(room.is_as_lent(), "{threads} threads");
        assert_eq!(judge_lists_on(threads, &sheet(), given.lines(), theirs), Err(due), "{threads} threads");
    }
}

#[test]
fn a_crossing_in_every_place() {
    for (number, fault) in FAULTS {
        for at in 0..LINES * A_LINE {
            let mut given = Given::good();
            fault(&mut given, at);
            assert_refused(&given, due(number, &given, at), at);
        }
    }
}

/// Of two, the first decides, in whichever parts they are.
#[test]
fn two_crossings_in_two_parts() {
    for ((first, wrong), (_, later_wrong)) in FAULTS.into_iter().flat_map(|first| FAULTS.map(|second| (first, second))) {
        for (at, later) in [(1, 95), (5, 50), (30, 49), (46, 48), (47, 48), (48, 49), (70, 94)] {
            let mut given = Given::good();
            later_wrong(&mut given, later);
            wrong(&mut given, at);
            assert_refused(&given, due(first, &given, at), at);
        }
    }
}

#[test]
fn the_lists_as_they_are() {
    for ((number, wrong), at) in WHOLE.into_iter().flat_map(|whole| [None, Some(0), Some(50), Some(95)].map(|at| (whole, at))) {
        for (_, fault) in FAULTS {
            let mut given = Given::good();
            if let Some(at) = at {
                fault(&mut given, at);
            }
            wrong(&mut given);
            assert_refused(&given, number, 0);
        }
    }
}

/// 13 of their lists.
#[test]
fn their_lists() {
    let (given, sheet) = (Given::good(), sheet());
    for (lines, starts, ends) in [(2, 1, 1), (1, 2, 1), (1, 1, 2), (0, 1, 1)] {
        let theirs = TheirLists { lines: &[0; 2][..lines], starts: &[1; 2][..starts], ends: &[2; 2][..ends] };
        let due = judge_lists(&sheet, given.lines(), theirs);
        assert_eq!(due.unwrap_err().number(), 13);
        for threads in THREADS {
            assert_eq!(judge_lists_on(threads, &sheet, given.lines(), theirs), due);
        }
    }
}

/// 9 of each list, and after all other reasons.
#[test]
fn lists_without_room() {
    let sheet = sheet();
    for (list, threads) in (0..5).flat_map(|list| THREADS.map(|threads| (list, threads))) {
        let (good, mut bad) = (Given::good(), Given::good());
        bad.shapes[50] = 2;
        for (given, number, place) in [(&good, 9, LINES * A_LINE / 2 + LINES), (&bad, 10, 50)] {
            let mut room = Room::lacking(Some(list));
            let refused = classify_into_on(threads, &sheet, given.lines(), &mut room.lists()).unwrap_err();
            assert_eq!((refused.number(), refused.place), (number, place));
            assert_eq!(classify_into(&sheet, given.lines(), &mut room.lists()), Err(refused));
            assert!(room.is_as_lent());
        }
    }
}

/// Lines of any numbers, in lists of its own: 10, 11 and 15, of the sheet, and 14 of a start.
#[test]
fn lists_of_its_own() {
    let sheet = sheet();
    let by_number = |crossing: Crossing| Crossing { line: 1000 * crossing.line + 7, ..crossing };
    for (at, threads) in [0, 40, 95].into_iter().flat_map(|at| THREADS.map(|threads| (at, threads))) {
        for (number, fault) in FAULTS.into_iter().filter(|(number, _)| *number != 15) {
            let mut given = Given::good();
            fault(&mut given, at.max(A_LINE + 1));
            let crossings: Vec<Crossing> = given.crossings().into_iter().map(by_number).collect();
            let due = classify_from(&sheet, &[], &crossings);
            assert_eq!(due.as_ref().unwrap_err().number(), number);
            assert_eq!(classify_on(threads, &sheet, &[], &crossings), due);
            assert_eq!(judge_on(threads, &sheet, &[], &crossings, &[]), judge(&sheet, &[], &crossings, &[]));
        }
        let mut crossings: Vec<Crossing> = Given::good().crossings().into_iter().map(by_number).collect();
        let start = kressedach::Start { line: 7, shape: 2 };
        assert_eq!(classify_on(threads, &sheet, &[start], &crossings).unwrap_err().number(), 14);
        crossings[at].position = i32::MAX;
        assert_eq!(classify_on(threads, &sheet, &[], &crossings), classify_from(&sheet, &[], &crossings));
        assert_eq!(classify_on(threads, &sheet, &[], &crossings).unwrap_err().number(), 15);
        assert_eq!(classify_on(threads, &sheet[1..], &[], &crossings).unwrap_err().number(), 2);
    }
}

/// 14 of more rows than there may be, which parts of them would not show.
#[test]
fn more_rows_than_there_may_be() {
    let rows = Zeros::of(4294967296 / 8 + 1);
    let sheet = make::sheet(&["A"], &[0]);
    let (lines, theirs) = (Lines { rows: &rows.bytes()[..4294967297], lines: &[], positions: &[], shapes: &[] }, [].as_slice());
    let due = classify_into(&sheet, lines, &mut Room::lacking(None).lists());
    assert_eq!(due.unwrap_err().number(), 14);
    for threads in [0, 1, 2, 7] {
        assert_eq!(classify_into_on(threads, &sheet, lines, &mut Room::lacking(None).lists()), due);
        let theirs = TheirLists { lines: &[], starts: theirs, ends: theirs };
        assert_eq!(judge_lists_on(threads, &sheet, lines, theirs), due.map(|_| kressedach::Opinion::Right));
    }
}

/// Three boxes one behind the other, and lines along that go through all of them.
fn drawing() -> (Vec<u8>, Vec<f64>, Vec<f64>) {
    let lines = (0..LINES).flat_map(|k| [-5.0, 1.0 + k as f64, 1.0, 1.0, 0.0, 0.0]).collect();
    let numbers = (0..3).flat_map(|k| [10.0 * k as f64, 0.0, 0.0, 10.0 * k as f64 + 4.0, 100.0, 40.0]).collect();
    (vec![BOX; 3], numbers, lines)
}

/// That many lines are crossed, or refused, as in one call, with these rooms; gives the refusal's number, place and line.
fn crossed_alike(lines: &[f64], kinds: &[u8], numbers: &[f64], rooms: [usize; 4]) -> Option<(u8, usize, Option<usize>)> {
    let lent = || (vec![9; rooms[0]], vec![9; rooms[1]], vec![9; rooms[2]], vec![9; rooms[3]]);
    let crossed = |threads: Option<usize>| {
        let mut lent = lent();
        let mut lists = ManyLists { rows: &mut lent.0, lines: &mut lent.1, positions: &mut lent.2, shapes: &mut lent.3 };
        let given = match threads {
            None => cross_many_into(lines, ShapeLists { kinds, numbers }, &mut lists),
            Some(threads) => cross_into_on(threads, lines, ShapeLists { kinds, numbers }, &mut lists),
        };
        (given, lent)
    };
    let due = crossed(None);
    assert!(due.0.is_ok() || due.1 == lent());
    assert!(THREADS.iter().all(|threads| crossed(Some(*threads)) == due));
    due.0.err().map(|refused| (refused.refusal.number(), refused.refusal.place, refused.line))
}

#[test]
fn lines_of_a_drawing() {
    let (kinds, numbers, lines) = drawing();
    let (rows, all) = (3 * LINES, 6 * LINES);
    let room = [rows + 1, all + 9, all, all + 2];
    for room in [[rows, all, all, all], room] {
        assert_eq!(crossed_alike(&lines, &kinds, &numbers, room), None);
    }
    for (list, room) in [rows, all, all, all].into_iter().enumerate() {
        let mut rooms = [rows, all, all, all];
        rooms[list] -= 1;
        assert_eq!(crossed_alike(&lines, &kinds, &numbers, rooms), Some((9, room, None)));
    }
    for at in 0..LINES {
        let with = |changes: &[(usize, f64)]| {
            let mut lines = lines.clone();
            changes.iter().for_each(|(at, number)| lines[*at] = *number);
            crossed_alike(&lines, &kinds, &numbers, room)
        };
        // of the line, of a shape on it, and of two lines the first
        assert_eq!(with(&[(6 * at + 1, f64::NAN)]), Some((16, 65535, Some(at))));
        assert_eq!(with(&[(6 * at + 3, 0.0)]), Some((16, 65535, Some(at))));
        assert_eq!(with(&[(6 * at, -1e300)]), Some((16, 0, Some(at))));
        assert_eq!(with(&[(6 * at, -2147479.0)]), Some((16, 1, Some(at))));
        assert_eq!(with(&[(6 * at, -1e300), (6 * (LINES - 1) + 3, 0.0)]).map(|(number, _, line)| (number, line)), Some((16, Some(at))));
        // a number that the last line lacks is not finite
        let short = &lines[..6 * at + 5];
        assert_eq!(crossed_alike(short, &kinds, &numbers, room), Some((16, 65535, Some(at))));
    }
    let wrong = |at: usize, number: f64| {
        let mut numbers = numbers.clone();
        numbers[at] = number;
        crossed_alike(&lines, &kinds, &numbers, room)
    };
    assert_eq!(wrong(6, 14.0), Some((16, 1, Some(0))));
    assert_eq!(wrong(17, f64::INFINITY), Some((16, 2, Some(0))));
    for room in [room, [0; 4]] {
        assert_eq!(crossed_alike(&lines, &[BOX, 3, BOX], &numbers, room), Some((16, 1, Some(0))));
        assert_eq!(crossed_alike(&lines, &[BOX; 257], &numbers, room), Some((16, 256, None)));
        assert_eq!(crossed_alike(&[], &[BOX; 257], &numbers, room), Some((16, 256, None)));
        assert_eq!(crossed_alike(&[], &kinds, &numbers, room), None);
        assert_eq!(crossed_alike(&lines, &[], &[], room), None);
    }
}
