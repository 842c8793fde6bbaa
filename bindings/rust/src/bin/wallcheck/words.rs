//! What stands at the place of a refusal, for the person who has to mend it; and what a node is.

use crate::faults::Faults;
use crate::kinds;
use crate::lists::List;
use crate::shown;
use kressedach::{Crossing, Kind, Node, Operation, Reason, Refusal, Sheets, Side, Start, Which, OPEN_END, OPEN_START};

pub const OPERATIONS: [&str; 4] = ["union", "intersection", "difference", "exclusive union"];

/// What a node of the contracted tree is.
pub fn of_node(node: &Node, names: &[&str]) -> String {
    match node.kind {
        Kind::Leaf => format!("leaf {}", names[usize::from(node.first)]),
        Kind::E(operation) => format!("E {}", OPERATIONS[operation as usize]),
        Kind::R(operation, Side::Left) => format!("R {} left raked", OPERATIONS[operation as usize]),
        Kind::R(operation, Side::Right) => format!("R {} right raked", OPERATIONS[operation as usize]),
        Kind::S => "S".into(),
        Kind::C => "C".into(),
    }
}

/// About a refusal of a sheet.
pub fn of_sheet(sheets: Sheets, refusal: Refusal) -> Option<String> {
    let place = refusal.place;
    let sheet = match refusal.sheet? {
        Which::Fittings => sheets.fittings?,
        Which::Customers => sheets.customers,
    };
    match refusal.reason {
        Reason::EndsTooSoon if refusal.sheet == Some(Which::Customers) && kressedach::read_fittings(sheet).is_ok() => {
            Some("it is a fittings sheet, names without a formula: --fittings takes it".into())
        }
        Reason::TagOutOfPlace if refusal.sheet == Some(Which::Fittings) && matches!(sheet[place], 3 | 4) => {
            Some("it has a formula: it is a customer's sheet, and --fittings takes names alone".into())
        }
        Reason::TagOutOfPlace => Some(of_tag(sheet, place)),
        Reason::NameWrong | Reason::NameTaken | Reason::FittingsName => Some(match (two(sheet, place + 1)?, name(sheet, place)) {
            (1..=32, Some(name)) => format!("the name there is {name}"),
            (length, _) => format!("the name there has {length} bytes; 1 to 32 are allowed"),
        }),
        Reason::TooLarge if matches!(sheet.get(place), Some(3 | 4)) => {
            Some(format!("the formula there has {} bytes", two(sheet, place + 1)?))
        }
        Reason::FormulaWrong => of_formula(sheets, place),
        _ => None,
    }
}

/// About a tag that is out of place. A file that begins with letters is text, and no sheet.
fn of_tag(sheet: &[u8], place: usize) -> String {
    let tag = sheet[place];
    match (tag, place, kinds::other(sheet)) {
        (_, 0, Some(other)) => format!("the file {other}"),
        (b' '..=b'~', 0, None) => format!("the tag there is {tag}; is it a text? 'wallcheck make' makes a sheet of one"),
        _ => format!("the tag there is {tag}"),
    }
}

/// About refusal 7: all before the formula is good, so its tag is found by going from name to name.
fn of_formula(sheets: Sheets, place: usize) -> Option<String> {
    let sheet = sheets.customers;
    let (tag, own) = after_names(sheet)?;
    let names = own + sheets.fittings.map_or(Some(0), |fittings| after_names(fittings).map(|(_, names)| names))?;
    let (length, postfix) = (two(sheet, tag + 1)?, sheet.get(tag) == Some(&3));
    if place != tag {
        let code = two(sheet, place)?;
        let about = of_code(code, names, postfix, waiting(sheet.get(tag + 3..place)?));
        return Some(if code < 256 && usize::from(code) >= names { about + of_fittings(sheets) } else { about });
    }
    Some(match (length, postfix) {
        (0, _) => "it has no code; each has two bytes".into(),
        (length, _) if length % 2 == 1 => format!("it has {length} bytes, and each code has two"),
        (_, true) => format!("its end leaves {} operands, and not one: an operation is missing", waiting(sheet.get(tag + 3..)?)),
        (_, false) => "it ends before its operations have two operands each (in edition 2 they stand after it)".into(),
    })
}

/// About a code that is refused. In postfix order so many operands wait before it.
fn of_code(code: u16, names: usize, postfix: bool, waiting: usize) -> String {
    match Operation::of_code(code) {
        None if code >= 256 => format!("there is no such code as 0x{code:04X}"),
        None if usize::from(code) >= names => format!("the code there is shape {code}, and the last is {}", names - 1),
        Some(operation) if postfix => {
            let operation = OPERATIONS[operation as usize];
            format!("the code there is {operation}, with fewer than two operands before it: {waiting} (formulas are postfix)")
        }
        _ => "the formula is complete before the code there".into(),
    }
}

/// A shape past the last one may be a fitting's, or come after fittings.
fn of_fittings(sheets: Sheets) -> &'static str {
    match sheets.fittings {
        None => "; is '--fittings FILE' missing?",
        Some(_) => "; are these the fittings that it was made beside?",
    }
}

/// How many operands wait after codes in postfix order.
fn waiting(codes: &[u8]) -> usize {
    let codes = codes.chunks_exact(2).map(|two| u16::from_be_bytes([two[0], two[1]]));
    codes.fold(0, |waiting: usize, code| if Operation::of_code(code).is_some() { waiting.saturating_sub(1) } else { waiting + 1 })
}

/// The offset after a good header and good names, and how many names.
fn after_names(sheet: &[u8]) -> Option<(usize, usize)> {
    let (mut tag, mut names) = (5, 0);
    while sheet.get(tag) == Some(&2) {
        tag += 3 + usize::from(two(sheet, tag + 1)?);
        names += 1;
    }
    Some((tag, names))
}

/// About a refusal of toggles: all whose shape there is none of.
pub fn of_toggles(names: &[&str], list: &List<u16>, refusal: Refusal) -> Option<String> {
    let shapes = list.entries.iter().copied().enumerate().filter(|_| refusal.reason == Reason::NoSuchShape);
    unknown_shapes(names, list, shapes).told()
}

/// About an order that does not mix lists of these lengths.
pub fn of_order(order: &[u8], lengths: [usize; 2]) -> String {
    if let Some(turn) = order.iter().position(|foundry| *foundry > 1) {
        return format!("turn {turn} is foundry {}'s, and there are 0 and 1", order[turn]);
    }
    let turns = |foundry: u8| order.iter().filter(|turn| **turn == foundry).count();
    format!("{} turns for {} toggles of foundry 0, {} turns for {} of foundry 1", turns(0), lengths[0], turns(1), lengths[1])
}

/// About a refusal of start rows: they are made of this list, so what is wrong is a shape in it.
pub fn of_starts(names: &[&str], list: &List<Start>) -> Option<String> {
    unknown_shapes(names, list, list.entries.iter().map(|start| start.shape).enumerate()).told()
}

/// About a refusal of crossings: all that are at fault, of which it names the first.
pub fn of_crossings(names: &[&str], list: &List<Crossing>, refusal: Refusal) -> Option<String> {
    let at_fault = (0..list.entries.len()).skip(refusal.place).filter_map(|at| of_crossing(names, list, at));
    at_fault.filter(|_| matches!(refusal.reason, Reason::NoSuchShape | Reason::Falls | Reason::Astray)).collect::<Faults>().told()
}

/// Why a crossing is none. Every line has a start row, so 15 is for a position.
fn of_crossing(names: &[&str], list: &List<Crossing>, at: usize) -> Option<String> {
    let here = list.entries[at];
    let before = at.checked_sub(1).map(|before| list.entries[before]);
    let about = match here {
        Crossing { shape, .. } if usize::from(shape) >= names.len() => return Some(unknown_shape(names, list, at, shape)),
        Crossing { position, .. } if [OPEN_START, OPEN_END].contains(&position) => {
            let open = if position == OPEN_START { "start" } else { "end" };
            format!("position {position} is the mark of a wall's open {open}; no crossing stands there")
        }
        _ => match before.filter(|before| (here.line, here.position) < (before.line, before.position))? {
            before if here.line < before.line => format!("line {} comes after line {}", here.line, before.line),
            before => format!("position {} comes after {} on line {}", here.position, before.position, here.line),
        },
    };
    Some(format!("row {}: {about}", list.row(at)))
}

/// All entries whose shape there is none of.
fn unknown_shapes<T>(names: &[&str], list: &List<T>, shapes: impl Iterator<Item = (usize, u16)>) -> Faults {
    let strange = shapes.filter(|(_, shape)| usize::from(*shape) >= names.len());
    strange.map(|(at, shape)| unknown_shape(names, list, at, shape)).collect()
}

fn unknown_shape<T>(names: &[&str], list: &List<T>, at: usize, shape: u16) -> String {
    let row = list.row(at);
    match list.stranger(at) {
        Some(name) => format!("row {row}: the sheet has no name {}; {}", shown::quoted(name), letter_by_letter(names, name)),
        None => format!("row {row}: shape {shape}, and the last one is {}", names.len() - 1),
    }
}

/// About a name that is not there: all that differ from it only in case.
pub fn letter_by_letter(names: &[&str], name: &str) -> String {
    let like: Vec<&str> = names.iter().copied().filter(|other| other.eq_ignore_ascii_case(name)).collect();
    let there = match &like[..] {
        [] => String::new(),
        [one] => format!("there is {one}; "),
        [most @ .., last] => format!("there are {} and {last}; ", most.join(", ")),
    };
    there + "names are compared letter by letter"
}

/// The name whose tag is at an offset, in quotation marks; bytes that no name may have are shown escaped.
fn name(sheet: &[u8], tag: usize) -> Option<String> {
    let letters = sheet.get(tag + 3..)?.get(..two(sheet, tag + 1)?.into())?;
    let shown = |letter: &u8| match letter {
        0x21..=0x7E => char::from(*letter).to_string(),
        _ => format!("\\x{letter:02X}"),
    };
    Some(format!("\"{}\"", letters.iter().map(shown).collect::<String>()))
}

fn two(sheet: &[u8], at: usize) -> Option<u16> {
    Some(u16::from_be_bytes([*sheet.get(at)?, *sheet.get(at + 1)?]))
}
