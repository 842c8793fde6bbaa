//! From a drawing to its walls in one command, in which no fittings sheet, shape, start or length is forgotten without a word.

pub mod blocks;
pub mod directions;
mod drawn;
mod faces;
mod given;
mod pieces;
mod progress;
mod run;
pub mod solids;

use crate::answer::{Answer, Waiting};
use crate::asked::Asked;
use crate::drawing::Drawing;
use crate::page::unused;
use crate::stop::{say, Stop};
use crate::threads;
use crate::wall_table::Wanted;
use blocks::Blocks;
use directions::Lengths;
use given::Given;
use run::{Judged, Run};
use solids::Solids;

pub fn check(asked: &Asked) -> Result<Answer, Stop> {
    let (wanted, threads) = (Wanted::of(asked)?, threads::asked(asked)?);
    let (shapes, lines) = (asked.file(1), asked.file(2));
    let given = Given::of(asked)?;
    let files = given.files();
    let names = files.names()?;
    let (_, formula) = kressedach::formula(files.sheets()).map_err(|refusal| files.refused(refusal))?;
    let drawing = Drawing::of(&shapes.text()?).map_err(|wrong| shapes.wrong(wrong))?;
    let numbers = drawn::numbers(&drawing, &names, &formula).map_err(|wrong| shapes.wrong(wrong))?;
    for remark in drawn::remarks(&drawing, &numbers, &names, &formula) {
        say(&format!("wallcheck: {}: {remark}\n", shapes.shown()));
    }
    let solids = Solids::of(&drawing, numbers.iter().map(|number| usize::from(*number)), names.len());
    let never = unused(&formula, names.len());
    let used = solids.plain().into_iter().filter(|(name, _)| !never.contains(&usize::from(*name))).collect();
    let judged = Judged { files: &files, names: &names, solids, used, threads };
    let lengths = Lengths::of(asked.has("--normalise"));
    let mut run = Run::of(&judged, wanted, lengths, (shapes, lines), Waiting::begin(asked.output()));
    Blocks::of(lines)?.give(names.len(), threads, &mut run)?;
    let (waiting, status, said) = run.end()?;
    Ok(Answer::waited(waiting).but(status, said))
}
