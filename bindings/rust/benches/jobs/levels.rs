//! The library compiled for each processor level that the machine has, beside the plain one, in one run: each is loaded as a shared library.

use crate::rows::{self, Drawing, Lines, Room};
use kressedach::PROCESSOR;
use std::ffi::{c_char, c_int, c_void, CString};
use std::hint::black_box;
use std::mem::MaybeUninit;
use std::path::{Path, PathBuf};
use std::process::Command;
use std::rc::Rc;

#[allow(dead_code)]
#[path = "../../src/ffi.rs"]
mod ffi;

const ROOT: &str = concat!(env!("CARGO_MANIFEST_DIR"), "/../..");

type Classify = unsafe extern "C" fn(
    *mut ffi::ClassifyReport,
    bool,
    *const u8,
    usize,
    *const u8,
    usize,
    *const u8,
    usize,
    *const u32,
    usize,
    *const i32,
    usize,
    *const u16,
    usize,
    *mut u32,
    usize,
    *mut i32,
    usize,
    *mut i32,
    usize,
    *mut u16,
    usize,
    *mut u16,
    usize,
);
type Judge = unsafe extern "C" fn(
    *mut ffi::JudgeReport,
    bool,
    *const u8,
    usize,
    *const u8,
    usize,
    *const u8,
    usize,
    *const u32,
    usize,
    *const i32,
    usize,
    *const u16,
    usize,
    *const u32,
    usize,
    *const i32,
    usize,
    *const i32,
    usize,
);
type Cross = unsafe extern "C" fn(
    *mut ffi::CrossReport,
    f64,
    f64,
    f64,
    f64,
    f64,
    f64,
    *const u8,
    usize,
    *const f64,
    usize,
    *mut u8,
    usize,
    *mut i32,
    usize,
    *mut u16,
    usize,
);

/// The library for one processor.
#[derive(Clone, Copy)]
struct Level {
    classify: Classify,
    judge: Judge,
    cross: Cross,
}

extern "C" {
    fn dlopen(file: *const c_char, flags: c_int) -> *mut c_void;
    fn dlsym(library: *mut c_void, name: *const c_char) -> *mut c_void;
}

impl Level {
    fn of(library: &Path) -> Level {
        let name = |text: &str| CString::new(text).unwrap();
        // SAFETY: the file is the library, which has no code that runs when it is loaded; 2 has all its names bound at once.
        let library = unsafe { dlopen(name(library.to_str().unwrap()).as_ptr(), 2) };
        assert!(!library.is_null(), "the library for another processor level cannot be loaded");
        let find = |function: &str| {
            // SAFETY: the library is loaded, and stays so.
            let found = unsafe { dlsym(library, name(function).as_ptr()) };
            assert!(!found.is_null(), "{function} is not in it");
            found
        };
        // Held to the declarations of the boundary, which tests compare with the library's source.
        let _: (Classify, Judge, Cross) = (ffi::kressedach_classify, ffi::kressedach_judge, ffi::kressedach_cross);
        // SAFETY: these are the functions of those declarations.
        unsafe {
            Level {
                classify: std::mem::transmute::<*mut c_void, Classify>(find("kressedach_classify")),
                judge: std::mem::transmute::<*mut c_void, Judge>(find("kressedach_judge")),
                cross: std::mem::transmute::<*mut c_void, Cross>(find("kressedach_cross")),
            }
        }
    }

    fn classify(&self, l: &Lines, room: &mut Room) -> usize {
        let (sheet, rows, lines, positions, shapes) = (&l.sheet, &l.rows, &l.lines, &l.positions, &l.shapes);
        let mut report = MaybeUninit::uninit();
        // SAFETY: slices are pointers to that many entries, and the report is written.
        let report = unsafe {
            (self.classify)(
                report.as_mut_ptr(),
                false,
                std::ptr::null(),
                0,
                sheet.as_ptr(),
                sheet.len(),
                rows.as_ptr(),
                rows.len(),
                lines.as_ptr(),
                lines.len(),
                positions.as_ptr(),
                positions.len(),
                shapes.as_ptr(),
                shapes.len(),
                room.lines.as_mut_ptr(),
                room.lines.len(),
                room.starts.as_mut_ptr(),
                room.starts.len(),
                room.ends.as_mut_ptr(),
                room.ends.len(),
                room.start_shapes.as_mut_ptr(),
                room.start_shapes.len(),
                room.end_shapes.as_mut_ptr(),
                room.end_shapes.len(),
            );
            report.assume_init()
        };
        assert_eq!(report.number, 0);
        report.walls
    }

    fn judge(&self, l: &Lines, walls: &Room, count: usize) -> bool {
        let (sheet, rows, lines, positions, shapes) = (&l.sheet, &l.rows, &l.lines, &l.positions, &l.shapes);
        let mut report = MaybeUninit::uninit();
        // SAFETY: slices are pointers to that many entries, the walls have as many as `count`, and the report is written.
        let report = unsafe {
            (self.judge)(
                report.as_mut_ptr(),
                false,
                std::ptr::null(),
                0,
                sheet.as_ptr(),
                sheet.len(),
                rows.as_ptr(),
                rows.len(),
                lines.as_ptr(),
                lines.len(),
                positions.as_ptr(),
                positions.len(),
                shapes.as_ptr(),
                shapes.len(),
                walls.lines.as_ptr(),
                count,
                walls.starts.as_ptr(),
                count,
                walls.ends.as_ptr(),
                count,
            );
            report.assume_init()
        };
        assert_eq!(report.number, 0);
        report.right
    }

    fn cross(&self, d: &Drawing, starts: &mut [u8], positions: &mut [i32], shapes: &mut [u16]) -> usize {
        let ([ox, oy, oz], [dx, dy, dz]) = (d.probe.origin, d.probe.direction);
        let mut report = MaybeUninit::uninit();
        // SAFETY: slices are pointers to that many entries, and the report is written.
        let report = unsafe {
            (self.cross)(
                report.as_mut_ptr(),
                ox,
                oy,
                oz,
                dx,
                dy,
                dz,
                d.kinds.as_ptr(),
                d.kinds.len(),
                d.numbers.as_ptr(),
                d.numbers.len(),
                starts.as_mut_ptr(),
                starts.len(),
                positions.as_mut_ptr(),
                positions.len(),
                shapes.as_mut_ptr(),
                shapes.len(),
            );
            report.assume_init()
        };
        assert_eq!(report.number, 0);
        report.crossings
    }
}

/// The processor levels of this machine above the plain one.
fn levels() -> Vec<&'static str> {
    let runs = |level: &&str| {
        let asked = Command::new("sh").arg(format!("{ROOT}/bindings/processor")).env("KRESSEDACH_PROCESSOR", level).output();
        asked.is_ok_and(|said| said.status.success())
    };
    ["x86-64-v3", "x86-64-v4"].into_iter().filter(runs).collect()
}

/// The shared library of a processor level, made of its archive.
fn shared(level: &str) -> PathBuf {
    let run = |command: &mut Command| assert!(command.output().is_ok_and(|said| said.status.success()), "{command:?}");
    run(Command::new("sh").arg(format!("{ROOT}/bindings/archive")).arg(level));
    let folder = if level == "x86-64" { "staticlib".to_string() } else { format!("archive/{level}") };
    let library = Path::new(env!("CARGO_TARGET_TMPDIR")).join(format!("{level}.so"));
    let archive = format!("{ROOT}/target/{folder}/libkressedach.a");
    run(Command::new("cc").args(["-shared", "-Wl,--whole-archive", &archive, "-Wl,--no-whole-archive", "-o"]).arg(&library));
    library
}

type Call = Box<dyn FnMut()>;

/// One call of each of these libraries.
fn calls(libraries: &[Level], call: impl Fn(Level) -> Call) -> Vec<Call> {
    libraries.iter().map(|library| call(*library)).collect()
}

/// Prints how long classify, judge and cross take for each processor level, in times of the plain one's.
pub fn print(best: fn(&mut [&mut dyn FnMut()]) -> Vec<f64>) {
    let levels = levels();
    if PROCESSOR != "x86-64" || levels.is_empty() {
        return;
    }
    let libraries: Vec<Level> = ["x86-64"].iter().chain(&levels).map(|level| Level::of(&shared(level))).collect();
    println!("\nThe library compiled for each processor level that this machine has, in times of what it takes compiled for x86-64.\n");
    println!("| job | formula | leaves | lists | {} |", levels.join(" | "));
    println!("|---|---|--:|---|{}", "--:|".repeat(levels.len()));
    let line = |what: String, mut calls: Vec<Call>| {
        let mut functions: Vec<&mut dyn FnMut()> = calls.iter_mut().map(|call| call.as_mut() as &mut dyn FnMut()).collect();
        let times = best(&mut functions);
        let ratios: Vec<String> = times[1..].iter().map(|time| format!("{:.2}", time / times[0])).collect();
        println!("| {what} | {} |", ratios.join(" | "));
    };
    for (formula, leaves) in [("chain", 4), ("chain", 256), ("balanced", 64), ("balanced", 256), ("balanced", 1024)] {
        let lines = Rc::new(rows::lines(formula, leaves, 10, 20_000));
        let room = Room::of(lines.lines.len());
        let mut walls = room.clone();
        let count = libraries[0].classify(&lines, &mut walls);
        let walls = Rc::new(walls);
        line(
            format!("classify | {formula} | {leaves} | 10 a line"),
            calls(&libraries, |library| {
                let (lines, mut room) = (lines.clone(), room.clone());
                assert_eq!(library.classify(&lines, &mut room), count);
                Box::new(move || _ = black_box(library.classify(black_box(&lines), &mut room)))
            }),
        );
        line(
            format!("judge | {formula} | {leaves} | 10 a line"),
            calls(&libraries, |library| {
                let (lines, walls) = (lines.clone(), walls.clone());
                assert!(library.judge(&lines, &walls, count));
                Box::new(move || _ = black_box(library.judge(black_box(&lines), &walls, count)))
            }),
        );
    }
    for (shapes, count) in [("half-spaces", 256), ("boxes along", 256), ("boxes aslant", 4), ("boxes aslant", 256)] {
        let drawing = Rc::new(Drawing::of(shapes, count));
        line(
            format!("cross | {shapes} | {count} | one line"),
            calls(&libraries, |library| {
                let (drawing, mut lists) = (drawing.clone(), (vec![0; count], vec![0; 2 * count], vec![0; 2 * count]));
                Box::new(move || _ = black_box(library.cross(black_box(&drawing), &mut lists.0, &mut lists.1, &mut lists.2)))
            }),
        );
    }
}
