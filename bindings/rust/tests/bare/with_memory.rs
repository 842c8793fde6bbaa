//! A program without Rust's standard library that asks C's for memory: it finds the walls of lines in lists of its own, and ends with 0 if they
//! are those that are due.

#![no_std]
#![no_main]

extern crate alloc;

use alloc::string::ToString;
use alloc::vec::Vec;
use core::alloc::{GlobalAlloc, Layout};
use kressedach::{classify, cross_many, encode, Crossing, Edition, Formula, Probe, Shape, Wall};

#[panic_handler]
fn panic(_: &core::panic::PanicInfo) -> ! {
    loop {}
}

// Rust's core, as it is shipped, names it; where a panic ends the program, nothing calls it
#[no_mangle]
pub extern "C" fn rust_eh_personality() {}

#[link(name = "c")]
extern "C" {
    fn aligned_alloc(alignment: usize, size: usize) -> *mut u8;
    fn free(at: *mut u8);
}

struct OfC;

// SAFETY: C's own memory, of at least the size, aligned as asked; it is not moved.
unsafe impl GlobalAlloc for OfC {
    unsafe fn alloc(&self, layout: Layout) -> *mut u8 {
        let alignment = layout.align().max(16);
        unsafe { aligned_alloc(alignment, layout.size().next_multiple_of(alignment)) }
    }

    unsafe fn dealloc(&self, at: *mut u8, _: Layout) {
        unsafe { free(at) }
    }
}

#[global_allocator]
static MEMORY: OfC = OfC;

fn is_as_due() -> Option<bool> {
    let sheet = encode(&["Block", "Bore"], &Formula::shape(0).difference(Formula::shape(1)), Edition::One).ok()?;
    let block = Shape::Box { lows: [0.0; 3], highs: [100.0, 40.0, 40.0] };
    let bore = Shape::Box { lows: [40.0, 10.0, -1.0], highs: [60.0, 30.0, 41.0] };
    let crossed = cross_many(&[Probe { origin: [0.0, 20.0, 20.0], direction: [1.0, 0.0, 0.0] }], &[block, bore]).ok()?;
    let entries = crossed.lines.iter().zip(&crossed.positions).zip(&crossed.shapes);
    let mut crossings: Vec<Crossing> =
        entries.map(|((line, position), shape)| Crossing { line: *line, position: *position, shape: *shape }).collect();
    let wall = |start, end, start_shape, end_shape| Wall { line: 0, start, end, start_shape, end_shape };
    let walls = classify(&sheet, &crossings).ok()?;
    crossings.reverse();
    let refused = classify(&sheet, &crossings).err()?.to_string();
    Some(walls == [wall(0, 40000, 0, 1), wall(60000, 100000, 1, 0)] && refused.starts_with("refused 11 at entry 1: "))
}

#[no_mangle]
pub extern "C" fn main() -> i32 {
    i32::from(is_as_due() != Some(true))
}
