//! Many lines through one drawing: beside the job for one line, line by line, and beside plain Rust; and from the drawing to walls.

use crate::{best, plain};
use kressedach::{LineLists, ManyLists, Probe, WallLists};
use peer::crossings::Shapes;
use peer::make::{self, Dice, Form};
use peer::many::CrossedLines;
use peer::rasters::{self, Raster};
use std::hint::black_box;
use std::rc::Rc;

/// A drawing, its lines, and a sheet with as many names as there are shapes.
struct Work {
    raster: Raster,
    sheet: Vec<u8>,
    due: CrossedLines,
    /// How many crossings there is room for.
    room: usize,
}

/// What is timed for one drawing.
pub struct Row {
    lines: &'static str,
    shapes: &'static str,
    count: usize,
    /// How many lines a call has.
    items: usize,
    crossings: usize,
    /// The library; the job for one line, line by line; plain Rust of both ways; classifying what was given.
    calls: [Box<dyn FnMut()>; 5],
    /// Compares the answers.
    pub check: Box<dyn Fn()>,
}

const SIZES: [usize; 4] = [4, 16, 64, 256];

/// All rows, with so many lines on each side of their grid.
pub fn all(side: usize) -> Vec<Row> {
    let on_grid = |aslant: bool| if aslant { "aslant" } else { "along" };
    let mut rows = Vec::new();
    for (aslant, count) in [false, true].into_iter().flat_map(|aslant| SIZES.map(|count| (aslant, count))) {
        rows.push(row(on_grid(aslant), "boxes", rasters::plate(count, 0, side, aslant), Room::Most));
    }
    for (aslant, (shapes, half_every)) in
        [false, true].into_iter().flat_map(|aslant| [("half-spaces", 1), ("both", 2)].map(|s| (aslant, s)))
    {
        rows.push(row(on_grid(aslant), shapes, rasters::plate(4, half_every, side, aslant), Room::Most));
    }
    for (count, (shapes, half_every)) in [(4, ("boxes", 0)), (4, ("half-spaces", 1)), (4, ("both", 2)), (256, ("boxes", 0))] {
        rows.push(row("scattered", shapes, rasters::scattered(count, half_every, side), Room::Most));
    }
    for aslant in [false, true] {
        rows.push(row(
            if aslant { "aslant, counted" } else { "along, counted" },
            "boxes",
            rasters::plate(256, 0, side, aslant),
            Room::Exact,
        ));
    }
    rows
}

/// Room for two crossings a shape and line, or for those that there are, so that they are counted before any is written.
enum Room {
    Most,
    Exact,
}

/// The lists of a call.
struct Lists {
    rows: Vec<u8>,
    lines: Vec<u32>,
    positions: Vec<i32>,
    shapes: Vec<u16>,
}

impl Lists {
    fn of(work: &Work) -> Lists {
        let room = work.room;
        Lists { rows: vec![0; work.due.rows.len()], lines: vec![0; room], positions: vec![0; room], shapes: vec![0; room] }
    }

    fn lent(&mut self) -> ManyLists<'_> {
        ManyLists { rows: &mut self.rows, lines: &mut self.lines, positions: &mut self.positions, shapes: &mut self.shapes }
    }
}

fn shapes(raster: &Raster) -> kressedach::ShapeLists<'_> {
    kressedach::ShapeLists { kinds: &raster.kinds, numbers: &raster.numbers }
}

/// A way to cross many lines; gives the number of crossings.
type Way = fn(&Raster, &mut ManyLists) -> usize;

const LIBRARY: Way = |r, lists| kressedach::cross_many_into(&r.lines, shapes(r), lists).unwrap().crossings;
const PLAIN: Way = |r, lists| plain::cross_many(&r.lines, &r.kinds, &r.numbers, lists).unwrap()[1];
const ONE_BY_ONE: Way =
    |r, lists| line_by_line(r, lists, |probe, lists| kressedach::cross_into(probe, shapes(r), lists).unwrap().crossings);
const PLAIN_ONE_BY_ONE: Way =
    |r, lists| line_by_line(r, lists, |probe, lists| plain::cross(&probe, &r.kinds, &r.numbers, lists).unwrap()[1]);

fn line_by_line(r: &Raster, lists: &mut ManyLists, one: impl Fn(Probe, &mut LineLists) -> usize) -> usize {
    let (mut at, shapes) = (0, r.kinds.len());
    for (line, six) in r.lines.chunks(6).enumerate() {
        let probe = Probe { origin: [six[0], six[1], six[2]], direction: [six[3], six[4], six[5]] };
        let starts = &mut lists.rows[line * shapes..(line + 1) * shapes];
        let crossings = one(probe, &mut LineLists { starts, positions: &mut lists.positions[at..], shapes: &mut lists.shapes[at..] });
        lists.lines[at..at + crossings].fill(line as u32);
        at += crossings;
    }
    at
}

fn work(raster: Raster, room: Room) -> Work {
    let shapes = Shapes { kinds: &raster.kinds, numbers: &raster.numbers };
    let due = peer::many::cross_many(&raster.lines, shapes, [usize::MAX; 4]).unwrap();
    let names: Vec<String> = (0..raster.kinds.len()).map(|shape| format!("rib{shape:03}")).collect();
    let mut codes = make::codes(&mut Dice::of(19, names.len() as u64), names.len(), names.len(), Form::LeftChain);
    for (shape, code) in codes.iter_mut().filter(|code| **code < 0xFFF0).enumerate() {
        *code = shape as u16;
    }
    let room = match room {
        Room::Most => 2 * due.rows.len(),
        Room::Exact => due.crossings.len(),
    };
    Work { sheet: make::sheet(&names, &codes), raster, due, room }
}

fn row(lines: &'static str, shapes: &'static str, raster: Raster, room: Room) -> Row {
    let work = Rc::new(work(raster, room));
    let timed = |way: Way| -> Box<dyn FnMut()> {
        let (work, mut lists) = (work.clone(), Lists::of(&work));
        Box::new(move || _ = black_box(way(black_box(&work.raster), &mut lists.lent())))
    };
    let calls = [timed(LIBRARY), timed(ONE_BY_ONE), timed(PLAIN), timed(PLAIN_ONE_BY_ONE), classifying(work.clone())];
    let (count, items, crossings) = (work.raster.kinds.len(), work.due.lines, work.due.crossings.len());
    Row { lines, shapes, count, items, crossings, calls, check: Box::new(move || check(&work)) }
}

/// Classifies what the library gives.
fn classifying(work: Rc<Work>) -> Box<dyn FnMut()> {
    let (mut lists, n) = (Lists::of(&work), work.due.crossings.len());
    LIBRARY(&work.raster, &mut lists.lent());
    let room = n / 2 + work.due.lines;
    let (mut lines, mut starts, mut ends) = (vec![0; room], vec![0; room], vec![0; room]);
    let (mut start_shapes, mut end_shapes) = (vec![0; room], vec![0; room]);
    Box::new(move || {
        let mut walls = WallLists {
            lines: &mut lines,
            starts: &mut starts,
            ends: &mut ends,
            start_shapes: &mut start_shapes,
            end_shapes: &mut end_shapes,
        };
        let Lists { rows, lines, positions, shapes } = black_box(&lists);
        let crossed = kressedach::Lines { rows, lines: &lines[..n], positions: &positions[..n], shapes: &shapes[..n] };
        let given = kressedach::classify_into(&work.sheet, crossed, &mut walls);
        _ = black_box(given.unwrap());
    })
}

fn check(work: &Work) {
    for way in [LIBRARY, ONE_BY_ONE, PLAIN, PLAIN_ONE_BY_ONE] {
        let mut lists = Lists::of(work);
        assert_eq!(way(&work.raster, &mut lists.lent()), work.due.crossings.len());
        assert!(lists.rows == work.due.rows);
        let got = lists.lines.iter().zip(&lists.positions).zip(&lists.shapes).map(|((line, position), shape)| (*line, *position, *shape));
        assert!(got.take(work.due.crossings.len()).eq(work.due.crossings.iter().copied()));
    }
}

/// Nanoseconds a line.
struct Times {
    library: f64,
    one_by_one: f64,
    plain: f64,
    plain_one_by_one: f64,
    classify: f64,
}

/// Prints both tables, and what is asked of them.
pub fn print(rows: Vec<Row>) {
    println!("\nMany lines and one drawing, nanoseconds a line.");
    println!(
        "Lines go through a grid of points, all along an axis or all aslant; or they are scattered, and none keeps a number of the last."
    );
    println!(
        "The lists have room for two crossings a shape and line. Where it says `counted` they have room for those that there are, so that"
    );
    println!("all are counted before the first is written.\n");
    println!("- `many`: `kressedach_cross_many`.");
    println!("- `one by one`: `kressedach_cross` for each line.");
    println!(
        "- `plain`: safe Rust of the method for many lines, which judges all of them before it writes too: faces in columns by axis, what"
    );
    println!("  two axes say together, and of which shapes they leave something over, kept while a line's numbers on both stay the same, and the");
    println!("  third axis asked of those.");
    println!("- `plain, one by one`: safe Rust of the method for one line, for each.\n");
    println!(
        "| lines | shapes | number | crossings a line | many | one by one | plain | plain, one by one | one by one / many | many / plain |"
    );
    println!("|---|---|--:|--:|--:|--:|--:|--:|--:|--:|");
    let timed: Vec<(Row, Times)> = rows.into_iter().map(timed).collect();
    asked(&timed);
    walls(&timed);
}

fn timed(mut row: Row) -> (Row, Times) {
    let [many, one_by_one, plain, plain_one_by_one, classify] = &mut row.calls;
    let times = best(&mut [many, one_by_one, plain, plain_one_by_one, classify]);
    let times: Vec<f64> = times.into_iter().map(|time| time / row.items as f64).collect();
    let times = Times { library: times[0], one_by_one: times[1], plain: times[2], plain_one_by_one: times[3], classify: times[4] };
    println!(
        "| {} | {} | {} | {:.2} | {:.1} | {:.1} | {:.1} | {:.1} | {:.2} | {:.2} |",
        row.lines,
        row.shapes,
        row.count,
        row.crossings as f64 / row.items as f64,
        times.library,
        times.one_by_one,
        times.plain,
        times.plain_one_by_one,
        times.one_by_one / times.library,
        times.library / times.plain
    );
    (row, times)
}

fn asked(timed: &[(Row, Times)]) {
    let faster = |times: &Times| times.one_by_one / times.library;
    let beside = |times: &Times| times.library / times.plain;
    for (lines, least) in [("along", 12), ("aslant", 9)] {
        let at = timed.iter().find(|(row, _)| row.lines == lines && row.count == 256);
        let (times, plain) = at.map_or((0.0, 0.0), |(_, times)| (faster(times), beside(times)));
        println!("\n256 boxes, lines {lines}: {times:.1} times as fast as one by one, where {least} is asked,");
        println!("and {plain:.2} times the plain one, where 1.3 is asked.");
    }
    let few = timed.iter().filter(|(row, _)| row.count == 4).map(|(_, times)| faster(times)).fold(f64::INFINITY, f64::min);
    println!("\n4 shapes of any kind: at least {few:.2} times as fast as one by one, where 1 is asked.");
    let most = timed.iter().map(|(_, times)| beside(times)).fold(0.0, f64::max);
    println!("\nIn all rows at most {most:.2} times the plain one.");
}

/// From the drawing to walls, of boxes on a grid.
fn walls(timed: &[(Row, Times)]) {
    println!("\nFrom a drawing to its walls: `kressedach_cross_many`, then `kressedach_classify` on what it gives.");
    println!("The lines and boxes are those above, and the formula is a chain.\n");
    println!("| lines | boxes | lines a second | cross_many, ns a line | classify, ns a line | cross_many | classify |");
    println!("|---|--:|--:|--:|--:|--:|--:|");
    for (row, times) in timed.iter().filter(|(row, _)| row.shapes == "boxes" && ["along", "aslant"].contains(&row.lines)) {
        let all = times.library + times.classify;
        let share = |part: f64| 100.0 * part / all;
        println!(
            "| {} | {} | {:.0} | {:.1} | {:.1} | {:.0} % | {:.0} % |",
            row.lines,
            row.count,
            1e9 / all,
            times.library,
            times.classify,
            share(times.library),
            share(times.classify)
        );
    }
}
