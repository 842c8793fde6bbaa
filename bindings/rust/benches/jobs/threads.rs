//! Jobs on one thread and on two beside one call, on long lists.

use crate::best;
use crate::rows::{self, Lines, Room};
use kressedach::{classify_into, classify_into_on, cross_into_on, cross_many_into, judge_lists, judge_lists_on};
use kressedach::{ManyCounts, ManyLists, Opinion, ShapeLists, TheirLists};
use peer::rasters::{self, Raster};
use std::hint::black_box;
use std::rc::Rc;

/// What is timed: a job in one call, on one thread, on two.
pub struct Row {
    job: &'static str,
    what: String,
    /// How many crossings, or lines for the job of crossing, a call has.
    items: usize,
    calls: [Box<dyn FnMut()>; 3],
    /// Compares the answers.
    pub check: Box<dyn Fn()>,
}

/// All rows, with so many crossings each.
pub fn all(crossings: usize) -> Vec<Row> {
    let mut rows = Vec::new();
    for (leaves, a_line) in [(4, 10), (64, 10), (256, 10), (1024, 10), (1024, 200)] {
        let lines = Rc::new(rows::lines("balanced", leaves, a_line, crossings));
        let what = format!("balanced, {leaves} leaves, {a_line} a line");
        rows.push(classify(what.clone(), lines.clone()));
        rows.push(judge(what, lines));
    }
    let side = (crossings as f64 / 10.0).sqrt() as usize;
    for (shapes, aslant) in [(4, false), (256, false), (256, true)] {
        let what = format!("{shapes} boxes, lines {}", if aslant { "aslant" } else { "along" });
        rows.push(cross(what, Rc::new(rasters::plate(shapes, 0, side, aslant))));
    }
    rows
}

fn names(lines: &Lines) -> usize {
    kressedach::read(&lines.sheet).unwrap().names
}

/// The walls of lines, and how many; on no threads in one call.
fn walls(threads: Option<usize>, lines: &Lines, room: &mut Room) -> usize {
    match threads {
        None => classify_into(&lines.sheet, lines.ours(), &mut room.lent()).unwrap(),
        Some(threads) => classify_into_on(threads, &lines.sheet, lines.ours(), &mut room.lent()).unwrap(),
    }
}

const WAYS: [Option<usize>; 3] = [None, Some(1), Some(2)];

fn classify(what: String, lines: Rc<Lines>) -> Row {
    let room = lines.ours().room(names(&lines));
    let timed = |threads| -> Box<dyn FnMut()> {
        let (lines, mut room) = (lines.clone(), Room::of(room));
        Box::new(move || _ = black_box(walls(threads, black_box(&lines), &mut room)))
    };
    let (calls, items) = (WAYS.map(timed), lines.lines.len());
    let check = move || {
        let [one, by_one, by_two] = WAYS.map(|threads| {
            let mut room = Room::of(room);
            (walls(threads, &lines, &mut room), room.lines, room.starts, room.ends)
        });
        assert!(one == by_one && one == by_two);
    };
    Row { job: "classify", what, items, calls, check: Box::new(check) }
}

fn opinion(threads: Option<usize>, lines: &Lines, walls: &Room, count: usize) -> Opinion {
    let theirs = TheirLists { lines: &walls.lines[..count], starts: &walls.starts[..count], ends: &walls.ends[..count] };
    match threads {
        None => judge_lists(&lines.sheet, lines.ours(), theirs).unwrap(),
        Some(threads) => judge_lists_on(threads, &lines.sheet, lines.ours(), theirs).unwrap(),
    }
}

fn judge(what: String, lines: Rc<Lines>) -> Row {
    let mut room = Room::of(lines.ours().room(names(&lines)));
    let (count, items) = (walls(None, &lines, &mut room), lines.lines.len());
    let room = Rc::new(room);
    let timed = |threads| -> Box<dyn FnMut()> {
        let (lines, room) = (lines.clone(), room.clone());
        Box::new(move || _ = black_box(opinion(threads, black_box(&lines), &room, count)))
    };
    let calls = WAYS.map(timed);
    let check = move || assert!(WAYS.iter().all(|threads| opinion(*threads, &lines, &room, count) == Opinion::Right));
    Row { job: "judge", what, items, calls, check: Box::new(check) }
}

/// The lists of a drawing's crossings.
type Lists = (Vec<u8>, Vec<u32>, Vec<i32>, Vec<u16>);

fn crossed(threads: Option<usize>, raster: &Raster, lists: &mut Lists) -> ManyCounts {
    let shapes = ShapeLists { kinds: &raster.kinds, numbers: &raster.numbers };
    let mut lists = ManyLists { rows: &mut lists.0, lines: &mut lists.1, positions: &mut lists.2, shapes: &mut lists.3 };
    match threads {
        None => cross_many_into(&raster.lines, shapes, &mut lists).unwrap(),
        Some(threads) => cross_into_on(threads, &raster.lines, shapes, &mut lists).unwrap(),
    }
}

fn cross(what: String, raster: Rc<Raster>) -> Row {
    let items = raster.lines.len() / 6;
    // two crossings a shape and line: so none of the ways counts before it writes; memory that nobody writes is not there
    let rows = items * raster.kinds.len();
    let lists = move || (vec![0; rows], vec![0; 2 * rows], vec![0; 2 * rows], vec![0; 2 * rows]);
    let timed = |threads| -> Box<dyn FnMut()> {
        let (raster, mut lists) = (raster.clone(), lists());
        Box::new(move || _ = black_box(crossed(threads, black_box(&raster), &mut lists)))
    };
    let calls = WAYS.map(timed);
    let check = move || {
        let [one, by_one, by_two] = WAYS.map(|threads| {
            let mut lists = lists();
            (crossed(threads, &raster, &mut lists), lists)
        });
        assert!(one == by_one && one == by_two);
    };
    Row { job: "cross_many", what, items, calls, check: Box::new(check) }
}

pub fn print(rows: Vec<Row>) {
    let cores = std::thread::available_parallelism().map_or(1, usize::from);
    println!("\nMany lines on many processors: nanoseconds a crossing, and for cross_many a line, on a machine with {cores} cores.");
    println!(
        "A call on threads cuts its lists, has each part answered into lists of its own, and copies them. For cross_many the lists lent"
    );
    println!("have room for two crossings a shape and line, as those of the parts have: so neither one call nor a part counts before it writes.\n");
    println!("| job | lists | items | one call | 1 thread | 2 threads | one call / 2 threads |");
    println!("|---|---|--:|--:|--:|--:|--:|");
    for Row { job, what, items, calls: [mut one, mut by_one, mut by_two], .. } in rows {
        let times = best(&mut [&mut one, &mut by_one, &mut by_two]);
        let [one, by_one, by_two] = [0, 1, 2].map(|k: usize| times[k] / items as f64);
        println!("| {job} | {what} | {items} | {one:.2} | {by_one:.2} | {by_two:.2} | {:.2} |", one / by_two);
    }
}
