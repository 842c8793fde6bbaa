//! Many lines on many processors.
//!
//! Lists are cut between two lines, and each part is a call of its own, on a thread of its own. It is proved of the definitions that lists
//! so cut are accepted exactly if every part is, and that the parts give, one after another, what the whole gives. Where a part is refused,
//! the whole is asked again in one call: so number, place and lists are those of one call.

use crate::classify::{self, Room};
use crate::{classify_into, cross_many, cross_many_into, judge_lists, judging, read};
use crate::{Crossing, Entry, LineRefusal, Lines, ManyCounts, ManyCrossed, ManyLists, Opinion, Probe, Refusal, Shape, ShapeLists};
use crate::{Sheets, Start, TheirLists, Wall, WallLists};
use alloc::borrow::Cow;
use alloc::vec::Vec;
use core::num::NonZero;
use std::{panic, thread};

/// More threads than these are not begun.
const MOST_THREADS: usize = 1024;

/// The stack of a thread in bytes: eight times what the header says is enough.
const STACK: usize = 2 << 20;

/// How many parts there are for so many threads, of which each takes one of so many things at least.
fn so_many(threads: usize, things: usize) -> usize {
    let threads = match threads {
        0 => thread::available_parallelism().map_or(1, NonZero::get),
        threads => threads,
    };
    threads.min(MOST_THREADS).min(things).max(1)
}

/// Does a job for each part, for the first on this thread and for each other on one of its own, and gives the answers in the parts' order.
/// A part for which no thread can be had is done on this one.
fn each<P: Sync, R: Send>(parts: &[P], job: impl Fn(&P) -> R + Sync) -> Vec<R> {
    let job = &job;
    thread::scope(|scope| {
        let begin = |part| thread::Builder::new().stack_size(STACK).spawn_scoped(scope, move || job(part)).ok();
        let begun: Vec<_> = parts.iter().enumerate().map(|(k, part)| if k > 0 { begin(part) } else { None }).collect();
        let ended = |(thread, part): (Option<thread::ScopedJoinHandle<R>>, &P)| match thread {
            Some(thread) => thread.join().unwrap_or_else(|why| panic::resume_unwind(why)),
            None => job(part),
        };
        begun.into_iter().zip(parts).map(ended).collect()
    })
}

/// Cuts a list into as many parts as there are threads, 0 for as many as the machine has, does a job for each on a thread of its own, and
/// gives the answers in the parts' order. There is one part at least, and none but an only one is empty.
///
/// For what has no form for many lines, as balls:
///
/// ```
/// use kressedach::{cross_balls, in_parts, Ball, Crossed, Refusal};
/// let lines: Vec<[Ball; 1]> = (0..100).map(|k| [Ball { offsets: [k, 0], radius: 50, centre: 0 }]).collect();
/// let parts = in_parts(2, &lines, |lines| lines.iter().map(|balls| cross_balls(balls)).collect::<Result<Vec<Crossed>, Refusal>>());
/// let crossed = parts.into_iter().collect::<Result<Vec<_>, _>>()?.concat();
/// assert_eq!((crossed.len(), &crossed[30].positions[..]), (100, &[-40, 40][..]));
/// # Ok::<(), kressedach::Refusal>(())
/// ```
pub fn in_parts<'a, T: Sync, R: Send>(threads: usize, list: &'a [T], job: impl Fn(&'a [T]) -> R + Sync) -> Vec<R> {
    let parts = so_many(threads, list.len());
    let part = |k: usize| &list[k * list.len() / parts..(k + 1) * list.len() / parts];
    each(&(0..parts).map(part).collect::<Vec<_>>(), |part| job(part))
}

/// How many names the sheets have; nothing where they are refused, or one thread does all.
fn names_of(threads: usize, sheets: Sheets) -> Option<usize> {
    if threads == 1 {
        None
    } else {
        read(sheets).ok().map(|read| read.names)
    }
}

/// A part of the lines of a call.
struct Part<'a> {
    /// The number that its first line has in the whole.
    first: u32,
    /// How many lines it has.
    count: usize,
    /// Its lists, where lines have the numbers of the whole.
    lists: Lines<'a>,
}

impl Part<'_> {
    /// Line numbers of the whole as the part has them. One that is none of the part's has no row in it, since these numbers go round.
    fn lowered<'b>(&self, lines: &'b [u32]) -> Cow<'b, [u32]> {
        match self.first {
            0 => Cow::Borrowed(lines),
            first => lines.iter().map(|line| line.wrapping_sub(first)).collect(),
        }
    }

    /// Does a job with its lists as the library takes them.
    fn with<R>(&self, job: impl FnOnce(Lines) -> R) -> R {
        job(Lines { lines: &self.lowered(self.lists.lines), ..self.lists })
    }
}

/// Cuts lines, for sheets of so many names, into two parts or more with about as many crossings and lines each. Nothing where there is
/// nothing to cut, or where lists go together so badly that they are refused anyway.
fn cut(threads: usize, names: usize, all: Lines<'_>) -> Option<Vec<Part<'_>>> {
    let (rows, crossings) = (all.rows.len() / names, all.lines.len());
    let fit = all.rows.len() % names == 0 && all.positions.len() == crossings && all.shapes.len() == crossings;
    // more rows are refused, and the parts would not be
    if !fit || u32::try_from(rows.saturating_sub(1)).is_err() {
        return None;
    }
    let before = |row: usize| all.lines.partition_point(|line| (*line as usize) < row);
    let parts = so_many(threads, rows);
    let mut cuts = Vec::from([(0, 0)]);
    for k in 1..=parts {
        let (last_row, last_crossing) = cuts[cuts.len() - 1];
        let row = if k == parts { rows } else { first_with(last_row, rows, |row| row + before(row) >= (rows + crossings) * k / parts) };
        // lines that fall are refused wherever they are cut
        let crossing = if row == rows { crossings } else { before(row).max(last_crossing) };
        if row > last_row {
            cuts.push((row, crossing));
        }
    }
    let part = |two: &[(usize, usize)]| {
        let ((row, crossing), (past_row, past)) = (two[0], two[1]);
        let rows = &all.rows[row * names..past_row * names];
        let (lines, positions, shapes) = (&all.lines[crossing..past], &all.positions[crossing..past], &all.shapes[crossing..past]);
        Part { first: row as u32, count: past_row - row, lists: Lines { rows, lines, positions, shapes } }
    };
    (cuts.len() > 2).then(|| cuts.windows(2).map(part).collect())
}

/// The first number from one on for which something holds that goes on to hold, or the last.
fn first_with(from: usize, last: usize, holds: impl Fn(usize) -> bool) -> usize {
    let (mut low, mut high) = (from, last);
    while low < high {
        let middle = low + (high - low) / 2;
        (low, high) = if holds(middle) { (low, middle) } else { (middle + 1, high) };
    }
    low
}

/// [`classify_into`] on so many threads, 0 for as many as the machine has: the same walls, and the same refusals.
///
/// Lists are cut between two lines. Memory is taken for the walls of each part, and for their line numbers.
///
/// ```
/// use kressedach::{classify_into_on, Lines, WallLists};
/// let sheet = b"\x01\0\x02\0\x01\x02\0\x01A\x03\0\x02\0\0";
/// let two = Lines { rows: &[0, 1], lines: &[0, 0, 1], positions: &[-10, 25, 7], shapes: &[0, 0, 0] };
/// let (mut lines, mut starts, mut ends) = ([9; 3], [9; 3], [9; 3]);
/// let (start_shapes, end_shapes) = (&mut [9; 3], &mut [9; 3]);
/// let mut walls = WallLists { lines: &mut lines, starts: &mut starts, ends: &mut ends, start_shapes, end_shapes };
/// assert_eq!(classify_into_on(2, sheet, two, &mut walls), Ok(2));
/// assert_eq!((lines, starts, ends), ([0, 1, 9], [-10, -2147483648, 9], [25, 7, 9]));
/// ```
///
/// # Errors
///
/// As [`classify_into`].
pub fn classify_into_on<'a>(threads: usize, sheets: impl Into<Sheets<'a>>, lines: Lines, walls: &mut WallLists) -> Result<usize, Refusal> {
    let sheets = sheets.into();
    match classified_in_parts(threads, sheets, lines, walls) {
        Some(count) => Ok(count),
        None => classify_into(sheets, lines, walls),
    }
}

/// The walls of parts, joined; nothing where they are for one call to give or to refuse, and then nothing is written.
fn classified_in_parts(threads: usize, sheets: Sheets, lines: Lines, walls: &mut WallLists) -> Option<usize> {
    let names = names_of(threads, sheets)?;
    let parts = cut(threads, names, lines)?;
    let WallLists { lines: to_lines, starts, ends, start_shapes, end_shapes } = walls;
    let rooms = [to_lines.len(), starts.len(), ends.len(), start_shapes.len(), end_shapes.len()];
    if rooms.iter().any(|room| *room < lines.room(names)) {
        return None;
    }
    let given = each(&parts, |part| {
        let mut room = Room::of(part.lists.room(names));
        part.with(|lines| classify_into(sheets, lines, &mut room.lists())).map(|count| (room, count))
    });
    let given: Vec<(Room, usize)> = given.into_iter().collect::<Result<_, Refusal>>().ok()?;
    let mut at = 0;
    for (part, (room, count)) in parts.iter().zip(&given) {
        let (from, to) = (..*count, at..at + count);
        to_lines[to.clone()].iter_mut().zip(&room.lines).for_each(|(to, line)| *to = part.first + line);
        starts[to.clone()].copy_from_slice(&room.starts[from]);
        ends[to.clone()].copy_from_slice(&room.ends[from]);
        start_shapes[to.clone()].copy_from_slice(&room.start_shapes[from]);
        end_shapes[to].copy_from_slice(&room.end_shapes[from]);
        at += count;
    }
    Some(at)
}

/// [`classify_from`](crate::classify_from) on so many threads, 0 for as many as the machine has: the same walls, and the same refusals.
///
/// ```
/// use kressedach::{classify_from, classify_on, Crossing, Start};
/// let sheet = b"\x01\0\x02\0\x01\x02\0\x01A\x03\0\x02\0\0";
/// let crossings: Vec<Crossing> = (0..1000).map(|k| Crossing { line: k / 4, position: k as i32, shape: 0 }).collect();
/// let starts = [Start { line: 77, shape: 0 }];
/// assert_eq!(classify_on(2, sheet, &starts, &crossings)?, classify_from(sheet, &starts, &crossings)?);
/// # Ok::<(), kressedach::Refusal>(())
/// ```
///
/// # Errors
///
/// As [`classify_from`](crate::classify_from).
pub fn classify_on<'a>(
    threads: usize,
    sheets: impl Into<Sheets<'a>>,
    starts: &[Start],
    crossings: &[Crossing],
) -> Result<Vec<Wall>, Refusal> {
    classify::classified(sheets.into(), starts, crossings, |sheets, lines, walls| classify_into_on(threads, sheets, lines, walls))
}

/// [`judge_lists`] on so many threads, 0 for as many as the machine has: the same opinion, and the same refusals.
///
/// Their list is cut where the lines are. Of the parts the first that is not right decides.
///
/// ```
/// use kressedach::{judge_lists_on, Lines, Opinion, TheirLists};
/// let sheet = b"\x01\0\x02\0\x01\x02\0\x01A\x03\0\x02\0\0";
/// let lines = Lines { rows: &[0, 1], lines: &[0, 0, 1], positions: &[-10, 25, 7], shapes: &[0, 0, 0] };
/// let theirs = TheirLists { lines: &[0, 1], starts: &[-10, -2147483648], ends: &[25, 9] };
/// assert_eq!(judge_lists_on(2, sheet, lines, theirs)?, Opinion::WrongAt(1));
/// # Ok::<(), kressedach::Refusal>(())
/// ```
///
/// # Errors
///
/// As [`judge_lists`].
pub fn judge_lists_on<'a>(threads: usize, sheets: impl Into<Sheets<'a>>, lines: Lines, theirs: TheirLists) -> Result<Opinion, Refusal> {
    let sheets = sheets.into();
    match judged_in_parts(threads, sheets, lines, theirs) {
        Some(opinion) => Ok(opinion),
        None => judge_lists(sheets, lines, theirs),
    }
}

/// The opinion on parts, joined; nothing where it is for one call to give or to refuse.
fn judged_in_parts(threads: usize, sheets: Sheets, lines: Lines, theirs: TheirLists) -> Option<Opinion> {
    let length = theirs.lines.len();
    if theirs.starts.len() != length || theirs.ends.len() != length {
        return None;
    }
    let parts = cut(threads, names_of(threads, sheets)?, lines)?;
    let mut from = 0;
    let mut with_theirs = Vec::with_capacity(parts.len());
    for (k, part) in parts.iter().enumerate() {
        let rest = &theirs.lines[from..];
        let others = |line: &u32| line.wrapping_sub(part.first) as usize >= part.count;
        let past = if k + 1 == parts.len() { length } else { from + rest.iter().position(others).unwrap_or(rest.len()) };
        with_theirs.push((part, from..past));
        from = past;
    }
    let given = each(&with_theirs, |(part, range)| {
        let (starts, ends) = (&theirs.starts[range.clone()], &theirs.ends[range.clone()]);
        let theirs = TheirLists { lines: &part.lowered(&theirs.lines[range.clone()]), starts, ends };
        part.with(|lines| judge_lists(sheets, lines, theirs))
    });
    let given: Vec<Opinion> = given.into_iter().collect::<Result<_, Refusal>>().ok()?;
    let wrong = given.iter().zip(&with_theirs).find_map(|(opinion, (_, range))| match opinion {
        Opinion::Right => None,
        Opinion::WrongAt(at) => Some(range.start + at),
        Opinion::Lacking => Some(range.end),
    });
    Some(Opinion::of(wrong.is_none(), wrong.unwrap_or(length), length))
}

/// [`judge`](crate::judge) on so many threads, 0 for as many as the machine has: the same opinion, and the same refusals.
///
/// ```
/// use kressedach::{judge_on, Crossing, Entry, Opinion};
/// let sheet = b"\x01\0\x02\0\x01\x02\0\x01A\x03\0\x02\0\0";
/// let crossings: Vec<Crossing> = (0..1000).map(|k| Crossing { line: k / 2, position: k as i32, shape: 0 }).collect();
/// let theirs: Vec<Entry> = (0..500).map(|line| Entry { line, start: 2 * line as i32, end: 2 * line as i32 + 1 }).collect();
/// assert_eq!(judge_on(2, sheet, &[], &crossings, &theirs)?, Opinion::Right);
/// assert_eq!(judge_on(2, sheet, &[], &crossings, &theirs[..400])?, Opinion::Lacking);
/// # Ok::<(), kressedach::Refusal>(())
/// ```
///
/// # Errors
///
/// As [`judge`](crate::judge).
pub fn judge_on<'a>(
    threads: usize,
    sheets: impl Into<Sheets<'a>>,
    starts: &[Start],
    crossings: &[Crossing],
    theirs: &[Entry],
) -> Result<Opinion, Refusal> {
    judging::judged(sheets.into(), starts, crossings, theirs, |sheets, lines, theirs| judge_lists_on(threads, sheets, lines, theirs))
}

/// [`cross_many_into`] on so many threads, 0 for as many as the machine has: the same crossings, and the same refusals.
///
/// Memory is taken for the crossings of each part, with room for two a shape and line of a block: no part counts its crossings before it
/// writes, which one call does where the lists have less room.
///
/// ```
/// use kressedach::{cross_into_on, ManyCounts, ManyLists, ShapeLists};
/// let lines = [0.0, 1.0, 1.0, 1.0, 0.0, 0.0, 1.0, 5.0, 1.0, 1.0, 0.0, 0.0];
/// let mut lists = ManyLists { rows: &mut [9; 2], lines: &mut [9; 2], positions: &mut [9; 2], shapes: &mut [9; 2] };
/// let below = ShapeLists { kinds: &[0], numbers: &[5.0, 0.0, 0.0, 0.0, 0.0, 0.0] };
/// assert_eq!(cross_into_on(2, &lines, below, &mut lists)?, ManyCounts { lines: 2, crossings: 2 });
/// assert_eq!((&*lists.rows, &*lists.lines, &*lists.positions), (&[1, 1][..], &[0, 1][..], &[5000, 4000][..]));
/// # Ok::<(), kressedach::LineRefusal>(())
/// ```
///
/// # Errors
///
/// As [`cross_many_into`].
pub fn cross_into_on(threads: usize, lines: &[f64], shapes: ShapeLists, lists: &mut ManyLists) -> Result<ManyCounts, LineRefusal> {
    match crossed_in_parts(threads, lines, shapes).filter(|(counts, _)| has_room(lists, *counts, shapes.kinds.len())) {
        Some((counts, parts)) => {
            parts.iter().fold((0, 0), |(row, crossing), (first, part)| {
                let (past_row, past) = (row + part.rows.len(), crossing + part.lines.len());
                lists.rows[row..past_row].copy_from_slice(&part.rows);
                lists.lines[crossing..past].iter_mut().zip(&part.lines).for_each(|(to, line)| *to = first + line);
                lists.positions[crossing..past].copy_from_slice(&part.positions);
                lists.shapes[crossing..past].copy_from_slice(&part.shapes);
                (past_row, past)
            });
            Ok(counts)
        }
        None => cross_many_into(lines, shapes, lists),
    }
}

fn has_room(lists: &ManyLists, counts: ManyCounts, shapes: usize) -> bool {
    let rooms = [lists.lines.len(), lists.positions.len(), lists.shapes.len()];
    lists.rows.len() >= counts.lines * shapes && rooms.iter().all(|room| *room >= counts.crossings)
}

/// What parts of the lines have of the shapes, each with the number of its first line, and how much that is; nothing where one is refused,
/// or where it is for one call to give or to refuse.
fn crossed_in_parts(threads: usize, lines: &[f64], shapes: ShapeLists) -> Option<(ManyCounts, Vec<(u32, ManyCrossed)>)> {
    let count = lines.len().div_ceil(6);
    let parts = so_many(threads, count);
    // more lines are refused, and the parts would not be
    if parts < 2 || u32::try_from(count - 1).is_err() {
        return None;
    }
    let first = |k: usize| k * count / parts;
    let cuts: Vec<(usize, &[f64])> = (0..parts).map(|k| (first(k), &lines[6 * first(k)..(6 * first(k + 1)).min(lines.len())])).collect();
    let given = each(&cuts, |(first, lines)| cross_many::given(lines, shapes).map(|crossed| (*first as u32, crossed)));
    let given: Vec<(u32, ManyCrossed)> = given.into_iter().collect::<Result<_, LineRefusal>>().ok()?;
    let crossings = given.iter().map(|(_, part)| part.lines.len()).sum();
    Some((ManyCounts { lines: count, crossings }, given))
}

/// [`cross_many`](crate::cross_many()) on so many threads, 0 for as many as the machine has: the same crossings, and the same refusals.
///
/// ```
/// use kressedach::{cross_many, cross_on, Axis, Probe, Shape};
/// let below = Shape::HalfSpace { axis: Axis::X, face: 5.0 };
/// let probes: Vec<Probe> = (0..100).map(|k| Probe { origin: [k as f64, 0.0, 0.0], direction: [1.0, 0.0, 0.0] }).collect();
/// assert_eq!(cross_on(2, &probes, &[below])?, cross_many(&probes, &[below])?);
/// # Ok::<(), kressedach::LineRefusal>(())
/// ```
///
/// # Errors
///
/// As [`cross_many`](crate::cross_many()).
pub fn cross_on(threads: usize, probes: &[Probe], shapes: &[Shape]) -> Result<ManyCrossed, LineRefusal> {
    let (kinds, numbers): (Vec<u8>, Vec<[f64; 6]>) = shapes.iter().map(Shape::parts).unzip();
    let lines: Vec<[f64; 6]> = probes.iter().map(Probe::numbers).collect();
    let (lines, shapes) = (lines.as_flattened(), ShapeLists { kinds: &kinds, numbers: numbers.as_flattened() });
    let Some((_, parts)) = crossed_in_parts(threads, lines, shapes) else { return cross_many::given(lines, shapes) };
    let mut all = ManyCrossed { rows: Vec::new(), lines: Vec::new(), positions: Vec::new(), shapes: Vec::new() };
    for (first, part) in parts {
        all.rows.extend(part.rows);
        all.lines.extend(part.lines.iter().map(|line| first + line));
        all.positions.extend(part.positions);
        all.shapes.extend(part.shapes);
    }
    Ok(all)
}
