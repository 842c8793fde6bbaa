//! A program without Rust's standard library and without memory that is asked for: it finds the wall of a line, and ends with 0 if it is the
//! one that is due.

#![no_std]
#![no_main]

use kressedach::{classify_into, Lines, WallLists};

#[panic_handler]
fn panic(_: &core::panic::PanicInfo) -> ! {
    loop {}
}

// Rust's core, as it is shipped, names it; where a panic ends the program, nothing calls it
#[no_mangle]
pub extern "C" fn rust_eh_personality() {}

// of C's library, which begins the program
#[link(name = "c")]
extern "C" {}

#[no_mangle]
pub extern "C" fn main() -> i32 {
    let sheet = b"\x01\0\x02\0\x01\x02\0\x01A\x03\0\x02\0\0";
    let line = Lines { rows: &[0], lines: &[0, 0], positions: &[-10, 25], shapes: &[0, 0] };
    let (mut lines, mut starts, mut ends) = ([9; 2], [9; 2], [9; 2]);
    let (start_shapes, end_shapes) = (&mut [9; 2], &mut [9; 2]);
    let mut walls = WallLists { lines: &mut lines, starts: &mut starts, ends: &mut ends, start_shapes, end_shapes };
    let given = classify_into(sheet, line, &mut walls);
    i32::from(!(given == Ok(1) && lines == [0, 9] && starts == [-10, 9] && ends == [25, 9]))
}
