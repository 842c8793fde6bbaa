//! Lines: the walls of crossings.

use crate::answer::Answer;
use crate::asked::Asked;
use crate::edited;
use crate::files::{Files, Source};
use crate::lists::{self, List, Shapes};
use crate::page::unused;
use crate::stop::{say, Stop};
use crate::threads;
use crate::wall_table::{WallTable, Wanted};
use crate::words;
use kressedach::{Crossing, Reason, Refusal, Start};

/// So many warnings of a kind are said one by one.
const MOST_SAID: usize = 10;

/// Where lines start, and their crossings: the files and what they list. Lines that all start in air need no file of starts.
pub struct Lines<'a> {
    starts: (Option<Source<'a>>, List<'a, Start>),
    crossings: (Source<'a>, List<'a, Crossing>),
}

impl<'a> Lines<'a> {
    /// Of files and their texts.
    pub fn of(names: &[&str], starts: Option<(Source<'a>, &'a str)>, crossings: (Source<'a>, &'a str)) -> Result<Lines<'a>, Stop> {
        let shapes = Shapes::of(names);
        let starting = match starts {
            Some((starts, text)) => lists::starts(text, &shapes).map_err(|wrong| starts.wrong(wrong))?,
            None => List::none(""),
        };
        let list = lists::crossings(crossings.1, &shapes).map_err(|wrong| crossings.0.wrong(wrong))?;
        Ok(Lines { starts: (starts.map(|(starts, _)| starts), starting), crossings: (crossings.0, list) })
    }

    pub fn starts(&self) -> &[Start] {
        &self.starts.1.entries
    }

    pub fn crossings(&self) -> &[Crossing] {
        &self.crossings.1.entries
    }

    /// How many lines there are.
    fn count(&self) -> u64 {
        let mut numbers: Vec<u32> = self.crossings().iter().map(|crossing| crossing.line).collect();
        numbers.dedup();
        numbers.extend(self.starts().iter().map(|start| start.line));
        numbers.sort_unstable();
        numbers.dedup();
        numbers.len() as u64
    }

    /// Says which shapes are crossed that the formula never uses: a bore that is forgotten there is solid metal.
    pub fn say_unused(&self, files: &Files, names: &[&str]) {
        let Ok((_, formula)) = kressedach::formula(files.sheets()) else { return };
        let unused = unused(&formula, names.len());
        let mut firsts: Vec<Option<usize>> = vec![None; names.len()];
        if !unused.is_empty() {
            for (at, crossing) in self.crossings().iter().enumerate() {
                firsts[usize::from(crossing.shape)].get_or_insert(at);
            }
        }
        let crossed: Vec<(usize, usize)> = unused.into_iter().filter_map(|shape| Some((shape, firsts[shape]?))).collect();
        let file = self.crossings.0.shown();
        for (shape, at) in crossed.iter().take(MOST_SAID) {
            let (row, name) = (self.crossings.1.row(*at), names[*shape]);
            say(&format!("wallcheck: {file}: row {row}: {name} is crossed, and the formula never uses it\n"));
        }
        if crossed.len() > MOST_SAID {
            say(&format!("wallcheck: {file}: {} more shapes are crossed that the formula never uses\n", crossed.len() - MOST_SAID));
        }
    }

    /// A refusal of the sheets, the starts or the crossings.
    pub fn refused(&self, files: &Files, names: &[&str], refusal: Refusal) -> Stop {
        match (refusal.reason, &self.starts) {
            (Reason::RowsWrong, (Some(starts), starting)) => starts.refused(refusal, words::of_starts(names, starting)),
            _ => files.refused_or(self.crossings.0, refusal, words::of_crossings(names, &self.crossings.1, refusal)),
        }
    }
}

pub fn walls(asked: &Asked) -> Result<Answer, Stop> {
    let (wanted, starts, crossings) = (Wanted::of(asked)?, asked.source("--starts"), asked.file(1));
    let threads = threads::asked(asked)?;
    let files = Files::asked(asked)?;
    let files = match asked.source("--edits") {
        Some(edits) => edited::files(files, edits)?,
        None => files,
    };
    let text = crossings.text()?;
    let names = files.names()?;
    let starts_text = starts.map_or(Ok(String::new()), Source::text)?;
    let lines = Lines::of(&names, starts.map(|starts| (starts, &starts_text[..])), (crossings, &text))?;
    let walls = kressedach::classify_on(threads, files.sheets(), lines.starts(), lines.crossings())
        .map_err(|refusal| lines.refused(&files, &names, refusal))?;
    lines.say_unused(&files, &names);
    let (mut table, mut text) = (WallTable::of(wanted, &names), wanted.heading().into_bytes());
    walls.iter().for_each(|wall| table.put(&mut text, wall, None));
    let said = if wanted.summary { table.summary(lines.count(), "") } else { String::new() };
    Ok(Answer::text(text).but(table.status(), said))
}
