//! The exported functions of `crates/kressedach`, declared again. The compiler checks this against nothing; `tests/declared.rs` compares it
//! with `crates/kressedach/src/lib.rt`. Each writes its report where its first argument says, on every processor.
//!
//! # Safety
//!
//! A list is a pointer and its number of entries. The entries are there, initialised and aligned, for the whole call. Nothing else
//! writes them meanwhile; a list that is written (`*mut`) overlaps no other list of the call, and nothing else reads it. A list with no
//! entries may be any pointer. These are what references to slices keep.

/// What reading answers.
#[repr(C)]
pub struct ReadReport {
    pub number: u8,
    pub sheet: u8,
    pub place: usize,
    pub names: usize,
    pub leaves: usize,
    pub first: usize,
    pub past: usize,
}

/// What asking for a name answers.
#[repr(C)]
pub struct NameReport {
    pub number: u8,
    pub sheet: u8,
    pub place: usize,
    pub first: usize,
    pub past: usize,
}

/// What asking for all names answers.
#[repr(C)]
pub struct NamesReport {
    pub number: u8,
    pub sheet: u8,
    pub place: usize,
    pub names: usize,
}

/// What the move answers.
#[repr(C)]
pub struct MoveReport {
    pub number: u8,
    pub sheet: u8,
    pub place: usize,
    pub length: usize,
}

/// What building answers.
#[repr(C)]
pub struct BuildReport {
    pub number: u8,
    pub sheet: u8,
    pub place: usize,
    pub leaves: usize,
    pub nodes: usize,
    pub rounds: usize,
    pub height: usize,
}

/// What running answers.
#[repr(C)]
pub struct RunReport {
    pub number: u8,
    pub sheet: u8,
    pub place: usize,
    pub nodes: usize,
}

/// What running for two foundries answers.
#[repr(C)]
pub struct BothReport {
    pub first: RunReport,
    pub second: RunReport,
}

/// What classifying answers.
#[repr(C)]
pub struct ClassifyReport {
    pub number: u8,
    pub sheet: u8,
    pub place: usize,
    pub walls: usize,
}

/// What judging another ray caster's list answers.
#[repr(C)]
pub struct JudgeReport {
    pub number: u8,
    pub sheet: u8,
    pub right: bool,
    pub place: usize,
    pub index: usize,
}

/// What a crossing maker answers.
#[repr(C)]
pub struct CrossReport {
    pub number: u8,
    pub place: usize,
    pub shapes: usize,
    pub crossings: usize,
}

/// What crossing many lines answers.
#[repr(C)]
pub struct CrossManyReport {
    pub number: u8,
    pub place: usize,
    pub line: usize,
    pub lines: usize,
    pub crossings: usize,
}

extern "C" {
    pub fn kressedach_read(
        report: *mut ReadReport,
        fitted: bool,
        fittings: *const u8,
        fittings_length: usize,
        sheet: *const u8,
        sheet_length: usize,
    );

    pub fn kressedach_name(
        report: *mut NameReport,
        fitted: bool,
        fittings: *const u8,
        fittings_length: usize,
        sheet: *const u8,
        sheet_length: usize,
        shape: usize,
    );

    pub fn kressedach_names(
        report: *mut NamesReport,
        fitted: bool,
        fittings: *const u8,
        fittings_length: usize,
        sheet: *const u8,
        sheet_length: usize,
        sheets: *mut u8,
        sheets_length: usize,
        firsts: *mut usize,
        firsts_length: usize,
        pasts: *mut usize,
        pasts_length: usize,
    );

    pub fn kressedach_move(
        report: *mut MoveReport,
        fitted: bool,
        fittings: *const u8,
        fittings_length: usize,
        sheet: *const u8,
        sheet_length: usize,
        moved: *mut u8,
        moved_length: usize,
    );

    pub fn kressedach_build(
        report: *mut BuildReport,
        fitted: bool,
        fittings: *const u8,
        fittings_length: usize,
        sheet: *const u8,
        sheet_length: usize,
        kinds: *mut u16,
        kinds_length: usize,
        firsts: *mut u16,
        firsts_length: usize,
        seconds: *mut u16,
        seconds_length: usize,
    );

    pub fn kressedach_run(
        report: *mut RunReport,
        fitted: bool,
        fittings: *const u8,
        fittings_length: usize,
        sheet: *const u8,
        sheet_length: usize,
        toggles: *const u16,
        toggles_length: usize,
        roots: *mut u8,
        roots_length: usize,
        counts: *mut u32,
        counts_length: usize,
        labels: *mut u8,
        labels_length: usize,
    );

    pub fn kressedach_run_both(
        report: *mut BothReport,
        fitted: bool,
        fittings: *const u8,
        fittings_length: usize,
        sheet: *const u8,
        sheet_length: usize,
        order: *const u8,
        order_length: usize,
        first: *const u16,
        first_length: usize,
        second: *const u16,
        second_length: usize,
        first_roots: *mut u8,
        first_roots_length: usize,
        first_counts: *mut u32,
        first_counts_length: usize,
        first_labels: *mut u8,
        first_labels_length: usize,
        second_roots: *mut u8,
        second_roots_length: usize,
        second_counts: *mut u32,
        second_counts_length: usize,
        second_labels: *mut u8,
        second_labels_length: usize,
    );

    pub fn kressedach_run_edited(
        report: *mut RunReport,
        fitted: bool,
        fittings: *const u8,
        fittings_length: usize,
        sheet: *const u8,
        sheet_length: usize,
        toggles: *const u16,
        toggles_length: usize,
        moments: *const u64,
        moments_length: usize,
        positions: *const u16,
        positions_length: usize,
        codes: *const u16,
        codes_length: usize,
        roots: *mut u8,
        roots_length: usize,
        counts: *mut u32,
        counts_length: usize,
        labels: *mut u8,
        labels_length: usize,
        edit_counts: *mut u32,
        edit_counts_length: usize,
    );

    pub fn kressedach_classify(
        report: *mut ClassifyReport,
        fitted: bool,
        fittings: *const u8,
        fittings_length: usize,
        sheet: *const u8,
        sheet_length: usize,
        rows: *const u8,
        rows_length: usize,
        lines: *const u32,
        lines_length: usize,
        positions: *const i32,
        positions_length: usize,
        shapes: *const u16,
        shapes_length: usize,
        wall_lines: *mut u32,
        wall_lines_length: usize,
        starts: *mut i32,
        starts_length: usize,
        ends: *mut i32,
        ends_length: usize,
        start_shapes: *mut u16,
        start_shapes_length: usize,
        end_shapes: *mut u16,
        end_shapes_length: usize,
    );

    pub fn kressedach_judge(
        report: *mut JudgeReport,
        fitted: bool,
        fittings: *const u8,
        fittings_length: usize,
        sheet: *const u8,
        sheet_length: usize,
        rows: *const u8,
        rows_length: usize,
        lines: *const u32,
        lines_length: usize,
        positions: *const i32,
        positions_length: usize,
        shapes: *const u16,
        shapes_length: usize,
        their_lines: *const u32,
        their_lines_length: usize,
        their_starts: *const i32,
        their_starts_length: usize,
        their_ends: *const i32,
        their_ends_length: usize,
    );

    pub fn kressedach_cross(
        report: *mut CrossReport,
        ox: f64,
        oy: f64,
        oz: f64,
        dx: f64,
        dy: f64,
        dz: f64,
        kinds: *const u8,
        kinds_length: usize,
        numbers: *const f64,
        numbers_length: usize,
        starts: *mut u8,
        starts_length: usize,
        positions: *mut i32,
        positions_length: usize,
        shapes: *mut u16,
        shapes_length: usize,
    );

    pub fn kressedach_cross_many(
        report: *mut CrossManyReport,
        kinds: *const u8,
        kinds_length: usize,
        numbers: *const f64,
        numbers_length: usize,
        lines: *const f64,
        lines_length: usize,
        rows: *mut u8,
        rows_length: usize,
        line_numbers: *mut u32,
        line_numbers_length: usize,
        positions: *mut i32,
        positions_length: usize,
        shapes: *mut u16,
        shapes_length: usize,
    );

    pub fn kressedach_cross_balls(
        report: *mut CrossReport,
        numbers: *const i32,
        numbers_length: usize,
        starts: *mut u8,
        starts_length: usize,
        positions: *mut i32,
        positions_length: usize,
        shapes: *mut u16,
        shapes_length: usize,
    );
}

/// The report of a call, which is told where to write it.
///
/// # Safety
///
/// `call` has the whole report written.
pub unsafe fn reported<R>(call: impl FnOnce(*mut R)) -> R {
    let mut report = core::mem::MaybeUninit::uninit();
    call(report.as_mut_ptr());
    unsafe { report.assume_init() }
}
