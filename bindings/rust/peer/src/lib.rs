//! Documents 01 and 02 in plain Rust, written from the documents: what the proved library is compared with.
//!
//! Nothing here is proved or tuned, and nothing is shared with the library: the formula is a tree of boxes, the contraction works on
//! nodes that point to each other, and a line is evaluated position by position. Each module follows one section of the document.
//! [`make`] makes sheets and lists, good and damaged, from a seed, [`drawings`] probe lines, shapes and balls, [`rasters`] many lines for
//! one drawing, [`designs`] edits, [`theirs`] the wall lists of others, and [`calls`] what a call is made of.
//!
//! Each job takes the lengths of the answer lists (`rooms`), in the order in which the document names them, and gives what the first
//! entries of those lists become.

pub mod balls;
pub mod calls;
pub mod crossings;
pub mod designs;
pub mod drawings;
pub mod dwarf;
pub mod edits;
pub mod formula;
pub mod judging;
pub mod lines;
pub mod make;
pub mod many;
pub mod rasters;
pub mod sheet;
pub mod theirs;
pub mod toggles;

use dwarf::Dwarf;
use edits::{Edited, Edits};
use judging::{Opinion, TheirLists};
use lines::{Crossings, Wall};
use sheet::{Sheet, Sheets};
use toggles::Ran;

/// A refusal: its number, the sheet that its place is in (0 none, 1 the fittings sheet, 2 the customer's), and its place.
#[derive(Debug, Clone, Copy, PartialEq, Eq)]
pub struct Refused {
    pub number: u8,
    pub sheet: u8,
    pub place: usize,
}

/// Refuses, with a number and a place.
pub fn refuse<T>(number: u8, place: usize) -> Result<T, Refused> {
    Err(Refused { number, sheet: 0, place })
}

/// The job of reading.
pub fn read(sheets: Sheets) -> Result<Sheet, Refused> {
    sheet::read(sheets)
}

/// The job of building: kinds, firsts, seconds are its answer lists.
pub fn build(sheets: Sheets, rooms: [usize; 3]) -> Result<Dwarf, Refused> {
    let (_, dwarf) = contracted(sheets)?;
    enough(rooms, [dwarf.records.len(); 3])?;
    Ok(dwarf)
}

/// The job of running toggles: roots, counts, labels are its answer lists.
pub fn run(sheets: Sheets, toggles: &[u16], rooms: [usize; 3]) -> Result<Ran, Refused> {
    let (sheet, dwarf) = contracted(sheets)?;
    judged_toggles(&sheet, &dwarf, toggles, rooms)?;
    let mut run = toggles::Run::new(&dwarf);
    toggles.iter().for_each(|shape| run.toggle(*shape));
    Ok(run.answers())
}

/// "One call brings two toggle lists on the same tree and an order that mixes them": for each foundry what it gets, and its own refusal.
pub fn run_both(sheets: Sheets, order: &[u8], lists: [&[u16]; 2], rooms: [[usize; 3]; 2]) -> [Result<Ran, Refused>; 2] {
    let (sheet, dwarf) = match contracted(sheets) {
        Ok(both) => both,
        Err(refused) => return [Err(refused), Err(refused)],
    };
    let turns = |foundry: usize| order.iter().filter(|turn| usize::from(**turn) == foundry).count();
    if order.iter().any(|turn| *turn > 1) || (0..2).any(|foundry| turns(foundry) != lists[foundry].len()) {
        return [refuse(13, 0), refuse(13, 0)];
    }
    let mut runs = [0, 1].map(|foundry| judged_toggles(&sheet, &dwarf, lists[foundry], rooms[foundry]).map(|()| toggles::Run::new(&dwarf)));
    let mut done = [0, 0];
    for turn in order {
        let foundry = usize::from(*turn);
        let shape = lists[foundry][done[foundry]];
        done[foundry] += 1;
        if let Ok(run) = &mut runs[foundry] {
            run.toggle(shape);
        }
    }
    runs.map(|run| run.map(toggles::Run::answers))
}

/// Running toggles with edits: roots, counts, labels, edit counts are its answer lists. "Edit lists of unequal length are 13; 20 after 10;
/// the edits' count list stands last in the order of 9."
pub fn run_edited(sheets: Sheets, toggles: &[u16], edits: Edits, rooms: [usize; 4]) -> Result<Edited, Refused> {
    let (sheet, dwarf) = contracted(sheets)?;
    if !edits.same_length() {
        return refuse(13, 0);
    }
    all_named(&sheet, toggles)?;
    if let Some(index) = edits.first_wrong(&sheet.formula, toggles.len()) {
        return refuse(20, index);
    }
    enough(rooms, [toggles.len(), toggles.len(), dwarf.records.len(), edits.moments.len()])?;
    Ok(edits::run(sheet.formula, toggles, edits))
}

/// The job of classifying lines: line, start, end, start shape, end shape are its answer lists.
pub fn classify(sheets: Sheets, crossings: Crossings, rooms: [usize; 5]) -> Result<Vec<Wall>, Refused> {
    let (sheet, _) = contracted(sheets)?;
    let judged = lines::judge(sheet.names.len(), crossings)?;
    // "room is half the crossings, rounded down, plus the number of rows"
    enough(rooms, [judged.len() / 2 + crossings.rows.len() / sheet.names.len(); 5])?;
    Ok(lines::walls(&sheet.formula, sheet.names.len(), crossings.rows, &judged))
}

/// Judging another ray caster's list. "Refusals: as for lines", "their three lists of unequal length is 13"; no list is answered, so there
/// is no 9.
pub fn judge(sheets: Sheets, crossings: Crossings, theirs: TheirLists) -> Result<Opinion, Refused> {
    let (sheet, _) = contracted(sheets)?;
    if !theirs.same_length() {
        return refuse(13, 0);
    }
    let judged = lines::judge(sheet.names.len(), crossings)?;
    let walls = lines::walls(&sheet.formula, sheet.names.len(), crossings.rows, &judged);
    Ok(judging::opinion(&walls, &theirs.entries()))
}

/// Asking for a shape's name: its bytes; "past the joined names is 10, place 0".
pub fn name(sheets: Sheets, shape: usize) -> Result<Vec<u8>, Refused> {
    sheet::read(sheets)?.names.get(shape).cloned().map_or_else(|| refuse(10, 0), Ok)
}

/// Asking for all names: for each the sheet that holds it, its first offset there and the one past its end. After the header, names
/// follow each other, each with three bytes before it; the fittings sheet ends after its own.
pub fn names(sheets: Sheets, rooms: [usize; 3]) -> Result<Vec<(u8, usize, usize)>, Refused> {
    let names = sheet::read(sheets)?.names;
    enough(rooms, [names.len(); 3])?;
    let fittings = sheets.fittings.map_or(5, <[u8]>::len);
    let (mut sheet, mut at) = (1, 5);
    let mut places = Vec::new();
    for name in names {
        if sheet == 1 && at == fittings {
            (sheet, at) = (2, 5);
        }
        places.push((sheet, at + 3, at + 3 + name.len()));
        at += 3 + name.len();
    }
    Ok(places)
}

/// The move of the customer's sheet to the edition that it has not. "19, a move to edition 2 of a sheet with 0xFFF3, place the first
/// such code, after 1 to 7." "An answer list shorter than the sheet is 9, last, place the sheet's length."
pub fn move_sheet(sheets: Sheets, room: usize) -> Result<Vec<u8>, Refused> {
    let sheet = sheet::read(sheets)?;
    if sheet.edition == 1 {
        if let Some(k) = sheet.formula.codes().iter().position(|code| *code == 0xFFF3) {
            return refuse(19, sheet.first + 2 * k);
        }
    }
    enough([room], [sheets.own.len()])?;
    Ok(sheet::moved(&sheet, sheets.own))
}

/// The sheets' formula and its dwarf tree, unless that is too high.
fn contracted(sheets: Sheets) -> Result<(Sheet, Dwarf), Refused> {
    let sheet = sheet::read(sheets)?;
    let dwarf = dwarf::contract(&sheet.formula);
    if dwarf.height() > 57 {
        return refuse(8, 0);
    }
    Ok((sheet, dwarf))
}

/// Every toggle is a shape of the sheet, and there is room for what a run answers.
fn judged_toggles(sheet: &Sheet, dwarf: &Dwarf, toggles: &[u16], rooms: [usize; 3]) -> Result<(), Refused> {
    all_named(sheet, toggles)?;
    enough(rooms, [toggles.len(), toggles.len(), dwarf.records.len()])
}

/// Every toggle is a shape of the sheet.
fn all_named(sheet: &Sheet, toggles: &[u16]) -> Result<(), Refused> {
    match toggles.iter().position(|shape| usize::from(*shape) >= sheet.names.len()) {
        Some(index) => refuse(10, index),
        None => Ok(()),
    }
}

/// The answer lists are long enough, judged in their order.
fn enough<const LISTS: usize>(rooms: [usize; LISTS], needed: [usize; LISTS]) -> Result<(), Refused> {
    match rooms.iter().zip(needed).find(|(room, need)| **room < *need) {
        Some((_, need)) => refuse(9, need),
        None => Ok(()),
    }
}

/// Prints a line that the test harness does not hold back.
pub fn say(text: impl std::fmt::Display) {
    use std::io::Write;
    let mut stderr = std::io::stderr().lock();
    let _ = writeln!(stderr, "{text}");
}

/// A number from the environment.
pub fn from_env(name: &str, otherwise: u64) -> u64 {
    std::env::var(name).map_or(otherwise, |value| value.parse().unwrap_or_else(|_| panic!("{name} is no number: {value}")))
}
