//! Toggles on the contracted tree, of one list or of two foundries.

use crate::answer::Answer;
use crate::asked::Asked;
use crate::csv;
use crate::files::Files;
use crate::lists::{self, List, Shapes};
use crate::stop::{Refused, Stop};
use crate::words;
use kressedach::{MixedLists, Ran, Reason, Refusal};
use std::fmt::Write as _;

pub fn run(asked: &Asked) -> Result<Answer, Stop> {
    let (files, toggles) = (Files::asked(asked)?, asked.file(1));
    let text = toggles.text()?;
    let names = files.names()?;
    let list = lists::toggles(&text, &Shapes::of(&names)).map_err(|wrong| toggles.wrong(wrong))?;
    let ran = kressedach::run(files.sheets(), &list.entries)
        .map_err(|refusal| files.refused_or(toggles, refusal, words::of_toggles(&names, &list, refusal)))?;
    Ok(Answer::text(if asked.has("--labels") { labels_of(&ran) } else { roots_of(&ran, &list.entries, &names) }))
}

pub fn labels_of(ran: &Ran) -> String {
    let mut text = String::from("node,label\n");
    for (node, label) in ran.labels.iter().enumerate() {
        let _ = writeln!(text, "{node},{label}");
    }
    text
}

fn roots_of(ran: &Ran, toggles: &[u16], names: &[&str]) -> String {
    let mut text = String::from("toggle,shape,name,root,count\n");
    for (toggle, shape) in toggles.iter().enumerate() {
        let name = csv::quoted(names.get(usize::from(*shape)).copied().unwrap_or_default());
        let _ = writeln!(text, "{toggle},{shape},{name},{},{}", u8::from(ran.roots[toggle]), ran.counts[toggle]);
    }
    text
}

/// The toggles of two foundries on one tree, turn by turn.
pub fn both(asked: &Asked) -> Result<Answer, Stop> {
    let files = Files::asked(asked)?;
    let [toggles @ .., order] = [1, 2, 3].map(|place| asked.file(place));
    let names = files.names()?;
    let texts = [toggles[0].text()?, toggles[1].text()?];
    let list = |foundry: usize| lists::toggles(&texts[foundry], &Shapes::of(&names)).map_err(|wrong| toggles[foundry].wrong(wrong));
    let lists = [list(0)?, list(1)?];
    let turns = lists::order(&order.text()?).map_err(|wrong| order.wrong(wrong))?;
    let ran = kressedach::run_both(files.sheets(), MixedLists { order: &turns, first: &lists[0].entries, second: &lists[1].entries })
        .into_array();
    if let [Err(refusal @ Refusal { reason: Reason::LengthsDiffer, .. }), _] = ran {
        return Err(order.refused(refusal, Some(words::of_order(&turns, [0, 1].map(|k: usize| lists[k].entries.len())))));
    }
    let text = turn_by_turn(&ran, &turns, &lists, &names);
    let mut refused = String::new();
    for (foundry, ran) in ran.iter().enumerate() {
        if let Err(refusal) = ran {
            let (file, about) = (toggles[foundry].shown(), words::of_toggles(&names, &lists[foundry], *refusal));
            refused += &Refused { file, refusal: *refusal, why: None, about }.words(&format!("foundry {foundry}: "));
        }
    }
    match refused.is_empty() {
        true => Ok(Answer::text(text)),
        false => Ok(Answer::text(text).but(1, refused)),
    }
}

/// The rows of those that are not refused.
fn turn_by_turn(ran: &[Result<Ran, Refusal>; 2], turns: &[u8], lists: &[List<u16>; 2], names: &[&str]) -> String {
    let mut text = String::from("turn,foundry,toggle,shape,name,root,count\n");
    let mut done = [0, 0];
    for (turn, foundry) in turns.iter().map(|foundry| usize::from(*foundry)).enumerate() {
        let toggle = done[foundry];
        done[foundry] += 1;
        if let Ok(ran) = &ran[foundry] {
            let shape = lists[foundry].entries[toggle];
            let name = csv::quoted(names.get(usize::from(shape)).copied().unwrap_or_default());
            let _ = writeln!(text, "{turn},{foundry},{toggle},{shape},{name},{},{}", u8::from(ran.roots[toggle]), ran.counts[toggle]);
        }
    }
    text
}
