//! same_calls FOLDER: calls jobs on the lists that are files of a folder, as often as it is asked to, and says how long each call took.
//! `bindings/python/benchmarks/beside_rust.py` asks it, and makes the same calls from Python, turn about.
//!
//! A line of standard input is a job's name; for each, a line of standard output has the nanoseconds of one call and the number of its
//! answers. Answer lists are made before, have been written to, and are lent again at each call.

#[allow(dead_code)]
#[path = "../src/ffi.rs"]
mod ffi;

use std::io::BufRead;
use std::time::Instant;

/// A number as a file has it, lowest byte first.
trait Entry: Sized + Copy + Default {
    fn of(bytes: &[u8]) -> Self;
}

macro_rules! entries {
    ($($number:ty)*) => {
        $(impl Entry for $number {
            fn of(bytes: &[u8]) -> $number {
                <$number>::from_le_bytes(bytes.try_into().unwrap())
            }
        })*
    };
}

entries!(u8 u16 u32 i32 f64);

/// The folder of lists.
struct Folder(String);

impl Folder {
    fn list<E: Entry>(&self, name: &str) -> Vec<E> {
        let bytes = std::fs::read(format!("{}/{name}", self.0)).unwrap_or_else(|e| panic!("{name}: {e}"));
        bytes.chunks_exact(std::mem::size_of::<E>()).map(E::of).collect()
    }

    /// A list to be written, as long as the file `rooms` says.
    fn room<E: Entry>(&self, name: &str) -> Vec<E> {
        let rooms = ROOMS.iter().zip(self.list::<u32>("rooms"));
        let (_, room) = rooms.into_iter().find(|(room, _)| **room == name).unwrap();
        vec![E::default(); room as usize]
    }
}

/// The lengths that the file `rooms` has, in their order.
const ROOMS: [&str; 5] = ["walls", "rows", "crossings", "toggles", "labels"];

/// Calls a function of the library: `(list)` stands for a list that is read, `[list]` for one that is written.
macro_rules! called {
    ($job:ident $sheet:expr; $(($read:expr))* ; $([$written:expr])*) => {
        // SAFETY: slices are pointers to that many entries; those that are written are borrowed by nobody else.
        unsafe {
            ffi::reported(|report| {
                ffi::$job(report, false, std::ptr::NonNull::dangling().as_ptr(), 0, $sheet.as_ptr(), $sheet.len(),
                    $($read.as_ptr(), $read.len(),)* $($written.as_mut_ptr(), $written.len(),)*)
            })
        }
    };
}

type Call = Box<dyn FnMut() -> usize>;

fn classify(from: &Folder) -> Call {
    let (sheet, rows, lines): (Vec<u8>, Vec<u8>, Vec<u32>) = (from.list("sheet"), from.list("rows"), from.list("lines"));
    let (positions, shapes): (Vec<i32>, Vec<u16>) = (from.list("positions"), from.list("shapes"));
    let (mut wall_lines, mut starts, mut ends): (Vec<u32>, Vec<i32>, Vec<i32>) =
        (from.room("walls"), from.room("walls"), from.room("walls"));
    let (mut start_shapes, mut end_shapes): (Vec<u16>, Vec<u16>) = (from.room("walls"), from.room("walls"));
    Box::new(move || {
        let r = called!(kressedach_classify sheet; (rows) (lines) (positions) (shapes);
            [wall_lines] [starts] [ends] [start_shapes] [end_shapes]);
        r.walls
    })
}

fn judge(from: &Folder) -> Call {
    let (sheet, rows, lines): (Vec<u8>, Vec<u8>, Vec<u32>) = (from.list("sheet"), from.list("rows"), from.list("lines"));
    let (positions, shapes): (Vec<i32>, Vec<u16>) = (from.list("positions"), from.list("shapes"));
    let (their_lines, their_starts, their_ends): (Vec<u32>, Vec<i32>, Vec<i32>) =
        (from.list("their_lines"), from.list("their_starts"), from.list("their_ends"));
    Box::new(move || {
        let r = called!(kressedach_judge sheet; (rows) (lines) (positions) (shapes) (their_lines) (their_starts) (their_ends););
        r.index
    })
}

fn run(from: &Folder) -> Call {
    let (sheet, toggles): (Vec<u8>, Vec<u16>) = (from.list("sheet"), from.list("toggles"));
    let (mut roots, mut counts, mut labels): (Vec<u8>, Vec<u32>, Vec<u8>) =
        (from.room("toggles"), from.room("toggles"), from.room("labels"));
    Box::new(move || called!(kressedach_run sheet; (toggles); [roots] [counts] [labels]).nodes)
}

fn cross_many(from: &Folder) -> Call {
    let (kinds, numbers, probes): (Vec<u8>, Vec<f64>, Vec<f64>) = (from.list("kinds"), from.list("numbers"), from.list("probes"));
    let (mut rows, mut lines): (Vec<u8>, Vec<u32>) = (from.room("rows"), from.room("crossings"));
    let (mut positions, mut shapes): (Vec<i32>, Vec<u16>) = (from.room("crossings"), from.room("crossings"));
    Box::new(move || {
        // SAFETY: slices are pointers to that many entries; those that are written are borrowed by nobody else.
        let r = unsafe {
            ffi::reported(|report| {
                ffi::kressedach_cross_many(
                    report,
                    kinds.as_ptr(),
                    kinds.len(),
                    numbers.as_ptr(),
                    numbers.len(),
                    probes.as_ptr(),
                    probes.len(),
                    rows.as_mut_ptr(),
                    rows.len(),
                    lines.as_mut_ptr(),
                    lines.len(),
                    positions.as_mut_ptr(),
                    positions.len(),
                    shapes.as_mut_ptr(),
                    shapes.len(),
                )
            })
        };
        r.crossings
    })
}

fn main() {
    let Some(folder) = std::env::args().nth(1) else { return eprintln!("usage: same_calls FOLDER, for {}", kressedach::PROCESSOR) };
    let from = Folder(folder);
    let mut calls = [("classify", classify(&from)), ("judge", judge(&from)), ("run", run(&from)), ("cross_many", cross_many(&from))];
    for line in std::io::stdin().lock().lines().map_while(Result::ok) {
        let Some((_, call)) = calls.iter_mut().find(|(name, _)| *name == line) else { return eprintln!("no job {line}") };
        let began = Instant::now();
        let answers = call();
        println!("{} {answers}", began.elapsed().as_nanos());
    }
}
