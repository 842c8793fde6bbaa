//! Millions of crossings: no row takes memory of its own, and what is not the library's takes at most twice as long as a plain pass.
//!
//! A time is no test: `cargo test --offline --release --bin wallcheck -- --ignored --nocapture` measures it.

use crate::lists::{crossings, Shapes};
use crate::wall_table::walls_of;
use kressedach::{classify_from, classify_into, Lines, WallLists};
use peer::make::sheet;
use std::alloc::{GlobalAlloc, Layout, System};
use std::cell::Cell;
use std::hint::black_box;
use std::time::{Duration, Instant};

/// Counts how often memory is asked for, on each thread.
struct Counting;

thread_local! {
    static ASKED: Cell<usize> = const { Cell::new(0) };
}

fn count() {
    ASKED.set(ASKED.get() + 1);
}

// SAFETY: the system's allocator does the work.
unsafe impl GlobalAlloc for Counting {
    unsafe fn alloc(&self, layout: Layout) -> *mut u8 {
        count();
        System.alloc(layout)
    }

    unsafe fn dealloc(&self, pointer: *mut u8, layout: Layout) {
        System.dealloc(pointer, layout)
    }

    unsafe fn alloc_zeroed(&self, layout: Layout) -> *mut u8 {
        count();
        System.alloc_zeroed(layout)
    }

    unsafe fn realloc(&self, pointer: *mut u8, layout: Layout, size: usize) -> *mut u8 {
        count();
        System.realloc(pointer, layout, size)
    }
}

#[global_allocator]
static ALLOCATOR: Counting = Counting;

const NAMES: [&str; 5] = ["Body", "Flange", "Lug", "Port", "PORT"];

/// Body or Flange or Lug, less Port, less PORT.
fn pump() -> Vec<u8> {
    sheet(&NAMES, &[0, 1, 0xFFF0, 2, 0xFFF0, 3, 0xFFF2, 4, 0xFFF2])
}

/// Ten crossings a line, of which three walls come.
fn many(lines: usize) -> String {
    let mut text = String::from("line,position,name\n");
    for line in 0..lines {
        let shapes = [0, 1, 1, 3, 3, 0, 2, 2, 4, 4];
        shapes.iter().enumerate().for_each(|(k, shape)| text += &format!("{line},{},{}\n", k * 81_003 + line % 7, NAMES[*shape]));
    }
    text
}

#[test]
fn no_row_takes_memory_of_its_own() {
    let (few, lots) = (many(1000), many(20_000));
    let shapes = Shapes::of(&NAMES);
    let asked = |text: &str| {
        let before = ASKED.get();
        let list = crossings(text, &shapes).unwrap();
        let walls = classify_from(&pump(), &[], &list.entries).unwrap();
        let text = walls_of(&walls, &NAMES);
        assert!(walls.len() >= list.entries.len() / 5 && text.len() > 10 * walls.len());
        ASKED.get() - before
    };
    // lists that grow are asked for again when they double: that is all
    let (few, lots) = (asked(&few), asked(&lots));
    assert!(few < 150 && lots < few + 30, "{few} for 10,000 crossings, {lots} for 200,000");
}

/// What a plain pass is: lines, fields, and Rust's own number parsing.
fn plain(text: &str) -> i64 {
    let mut sum = 0;
    for line in text.lines().skip(1) {
        let mut fields = line.split(',');
        let mut field = || fields.next().unwrap_or_default();
        let (line, position): (u32, i32) = (field().parse().unwrap(), field().parse().unwrap());
        sum += i64::from(line) + i64::from(position) + field().len() as i64;
    }
    sum
}

fn timed<T>(job: impl FnOnce() -> T) -> (Duration, T) {
    let began = Instant::now();
    let done = black_box(job());
    (began.elapsed(), done)
}

const LINES: usize = 500_000;

#[test]
#[ignore = "measures a time"]
fn at_most_twice_a_plain_pass() {
    let (text, pump) = (many(LINES), pump());
    let shapes = Shapes::of(&NAMES);
    let list = crossings(&text, &shapes).unwrap().entries;
    let columns: (Vec<u32>, Vec<i32>, Vec<u16>) = (
        list.iter().map(|crossing| crossing.line).collect(),
        list.iter().map(|crossing| crossing.position).collect(),
        list.iter().map(|crossing| crossing.shape).collect(),
    );
    let (rows, room) = (vec![0; LINES * NAMES.len()], list.len() / 2 + LINES);
    let mut best = [Duration::MAX; 3];
    for _ in 0..9 {
        let whole = timed(|| {
            let list = crossings(&text, &shapes).unwrap();
            walls_of(&classify_from(&pump, &[], &list.entries).unwrap(), &NAMES)
        });
        let library = timed(|| {
            let (mut lines, mut starts, mut ends) = (vec![0; room], vec![0; room], vec![0; room]);
            let (mut start_shapes, mut end_shapes) = (vec![0; room], vec![0; room]);
            let mut walls = WallLists {
                lines: &mut lines,
                starts: &mut starts,
                ends: &mut ends,
                start_shapes: &mut start_shapes,
                end_shapes: &mut end_shapes,
            };
            classify_into(&pump, Lines { rows: &rows, lines: &columns.0, positions: &columns.1, shapes: &columns.2 }, &mut walls)
        });
        let turn = [whole.0, library.0, timed(|| plain(&text)).0];
        best = [0, 1, 2].map(|k: usize| best[k].min(turn[k]));
    }
    let [whole, library, plain] = best;
    println!("whole {whole:?}, library {library:?}, a plain pass {plain:?}");
    assert!(whole - library <= 2 * plain, "whole {whole:?}, library {library:?}, a plain pass {plain:?}");
}
