//! Edits from CSV, and a run with them.

use crate::answer::Answer;
use crate::asked::Asked;
use crate::csv;
use crate::faults::Faults;
use crate::files::Files;
use crate::lists::{self, List, Shapes};
use crate::page;
use crate::shown;
use crate::stop::Stop;
use crate::toggle_jobs::{self, labels_of};
use crate::words::{self, OPERATIONS};
use kressedach::{Edit, Edited, Operation, Reason, Refusal};
use std::fmt::Write as _;
use std::str::FromStr;

/// The code that stands for an operation that there is none of: it is a leaf's, so the library refuses it in its turn.
const NO_OPERATION: u16 = 0;

/// A run, with edits where they are asked for.
pub fn run(asked: &Asked) -> Result<Answer, Stop> {
    let Some(edits) = asked.source("--edits") else { return toggle_jobs::run(asked) };
    let (files, toggles) = (Files::asked(asked)?, asked.file(1));
    let texts = [toggles.text()?, edits.text()?];
    let names = files.names()?;
    let list = lists::toggles(&texts[0], &Shapes::of(&names)).map_err(|wrong| toggles.wrong(wrong))?;
    let changes = changes(&texts[1], true).map_err(|wrong| edits.wrong(wrong))?;
    let edited = kressedach::run_edited(files.sheets(), &list.entries, &changes.entries).map_err(|refusal| match refusal.reason {
        Reason::EditWrong => edits.refused(refusal, of_edit(&files, &names, &changes, refusal, list.entries.len())),
        _ => files.refused_or(toggles, refusal, words::of_toggles(&names, &list, refusal)),
    })?;
    let labels = asked.has("--labels");
    Ok(Answer::text(if labels { labels_of(&edited.ran) } else { told(&names, &list.entries, &changes.entries, &edited) }))
}

/// Toggles and edits in the order in which they act.
fn told(names: &[&str], toggles: &[u16], edits: &[Edit], edited: &Edited) -> String {
    let mut text = String::from("toggle,shape,name,edit,position,operation,root,count\n");
    let mut waiting = edits.iter().enumerate().peekable();
    for done in 0..=toggles.len() {
        if let Some(toggle) = done.checked_sub(1) {
            let name = csv::quoted(names[usize::from(toggles[toggle])]);
            let (root, count) = (u8::from(edited.ran.roots[toggle]), edited.ran.counts[toggle]);
            let _ = writeln!(text, "{toggle},{},{name},,,,{root},{count}", toggles[toggle]);
        }
        while let Some((k, edit)) = waiting.next_if(|(_, edit)| edit.after == done as u64) {
            let operation = OPERATIONS[usize::from(edit.code & 3)];
            let _ = writeln!(text, ",,,{k},{},{operation},,{}", edit.position, edited.edit_counts[k]);
        }
    }
    text
}

/// Edits: the columns position, one of operation and code, and where they have a moment, after.
pub fn changes(text: &str, timed: bool) -> Result<List<'_, Edit>, Faults> {
    let due = match timed {
        true => "after,position,operation or after,position,code",
        false => "position,operation or position,code",
    };
    let (heading, rows) = csv::headed(text, due)?;
    let place = |name: &str| heading.place(name);
    let (by_word, code_at) = (place("operation").is_some(), place("operation").or(place("code")));
    let after = place("after");
    if !timed && after.is_some() {
        return Err((heading.wrong(due) + ": these edits are made at once, and after no toggles").into());
    }
    let (Some(position), Some(code_at)) = (place("position"), code_at) else { return Err(heading.wrong(due).into()) };
    if heading.fields.len() != 2 + usize::from(timed) || after.is_some() != timed {
        return Err(heading.wrong(due).into());
    }
    let mut list = List::none(text);
    rows.each(&heading, |_, fields| {
        let word = fields[code_at].as_ref();
        let code = if by_word { called(word) } else { code(word)? };
        let after = after.map_or(Ok(0), |after| whole(&fields[after], "after", "18446744073709551615"))?;
        let position = whole(&fields[position], "position", "65535")?;
        if by_word && code == NO_OPERATION {
            list.estrange(word);
        }
        list.entries.push(Edit { after, position, code });
        Ok(())
    })?;
    Ok(list)
}

/// The code of an operation that is called so.
fn called(word: &str) -> u16 {
    let operation = Operation::ALL.into_iter().find(|operation| [OPERATIONS[*operation as usize], page::word(*operation)].contains(&word));
    operation.map_or(NO_OPERATION, Operation::code)
}

/// A code as it is written in hexadecimal, 0xFFF0, or as a number.
fn code(text: &str) -> Result<u16, String> {
    let digits = text.strip_prefix("0x").map(|digits| u16::from_str_radix(digits, 16));
    digits.unwrap_or_else(|| text.parse()).map_err(|_| format!("code {} is none from 0 to 0xFFFF", shown::quoted(text)))
}

fn whole<T: FromStr>(text: &str, column: &str, most: &str) -> Result<T, String> {
    text.parse().map_err(|_| format!("{column} {} is no whole number from 0 to {most}", shown::quoted(text)))
}

/// About refusal 20: why an edit is none.
pub fn of_edit(files: &Files, names: &[&str], list: &List<Edit>, refusal: Refusal, toggles: usize) -> Option<String> {
    let edit = list.entries[refusal.place];
    let (_, formula) = kressedach::formula(files.sheets()).ok()?;
    let codes = formula.codes();
    let about = match codes.get(usize::from(edit.position)) {
        None => format!("position {}, and the last one is {}", edit.position, codes.len() - 1),
        Some(leaf) if Operation::of_code(*leaf).is_none() => {
            format!("at position {} stands {}, which is no operation", edit.position, names[usize::from(*leaf)])
        }
        _ if Operation::of_code(edit.code).is_none() => match list.stranger(refusal.place) {
            Some(word) => format!("there is no operation {}; they are {}", shown::quoted(word), OPERATIONS.join(", ")),
            None => format!("code 0x{:04X} is no operation; they are 0xFFF0 to 0xFFF3", edit.code),
        },
        _ if edit.after > toggles as u64 => format!("after {} toggles, and there are {toggles}", edit.after),
        _ => format!("after {} comes after {}", edit.after, list.entries[refusal.place - 1].after),
    };
    Some(format!("row {}: {about}", list.row(refusal.place)))
}
