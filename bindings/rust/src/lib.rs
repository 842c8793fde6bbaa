#![doc = include_str!("../README.md")]
#![no_std]
#![deny(missing_docs)]

#[cfg(feature = "alloc")]
extern crate alloc;
#[cfg(feature = "std")]
extern crate std;

mod balls;
mod both;
mod call;
mod classify;
mod cross;
mod cross_many;
mod dwarf;
mod edits;
#[cfg(feature = "alloc")]
mod encode;
mod ffi;
#[cfg(feature = "alloc")]
mod formula;
mod judging;
mod kind;
mod lines;
mod moving;
mod names;
#[cfg(feature = "alloc")]
mod numbering;
mod operation;
mod read;
mod refusal;
mod run;
mod sheets;
#[cfg(feature = "std")]
mod threads;

pub use balls::{cross_balls_into, Ball};
pub use both::{run_both_into, Both, MixedLists};
pub use classify::{classify_into, WallLists};
pub use cross::{cross_into, Axis, Counts, LineLists, Probe, Shape, ShapeLists, BOX};
pub use cross_many::{cross_many_into, LineRefusal, ManyCounts, ManyLists};
pub use dwarf::{build_into, Node, NodeLists, Size, MOST_NODES, NONE};
pub use edits::{run_edited_into, Edit, EditLists, EditedLists};
pub use judging::{judge_lists, Entry, Opinion, TheirLists};
pub use kind::{Kind, Side};
pub use lines::{Crossing, Lines, Start, Wall, OPEN_END, OPEN_SHAPE, OPEN_START};
pub use moving::move_into;
pub use names::{name, names_into, NameLists, MOST_NAMES};
pub use operation::Operation;
pub use read::{read, Read};
pub use refusal::{Reason, Refusal, Which};
pub use run::{run_into, RunLists};
pub use sheets::Sheets;

#[cfg(feature = "alloc")]
pub use self::{
    balls::cross_balls,
    both::run_both,
    classify::{classify, classify_from},
    cross::{cross, Crossed},
    cross_many::{cross_many, ManyCrossed},
    dwarf::{build, Dwarf},
    edits::{run_edited, Edited},
    encode::{encode, encode_beside, encode_fittings, formula, read_fittings, Edition},
    formula::Formula,
    judging::judge,
    moving::move_sheet,
    names::names,
    run::{run, Ran},
};
#[cfg(feature = "std")]
pub use threads::{classify_into_on, classify_on, cross_into_on, cross_on, in_parts, judge_lists_on, judge_on};

/// The processor that the linked library was compiled for: `x86-64`, `x86-64-v3`, `x86-64-v4` or `aarch64`.
///
/// ```
/// assert!(kressedach::PROCESSOR.starts_with("x86-64") || kressedach::PROCESSOR == "aarch64");
/// ```
pub const PROCESSOR: &str = env!("KRESSEDACH_COMPILED_FOR");
