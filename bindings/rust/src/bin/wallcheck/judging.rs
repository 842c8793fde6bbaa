//! Another ray caster's wall list from CSV, the opinion on it, and what was expected where it goes wrong.

use crate::answer::Answer;
use crate::asked::Asked;
use crate::csv::{self, Heading};
use crate::faults::Faults;
use crate::files::{Files, Source};
use crate::line_jobs::Lines;
use crate::lists::{self, List};
use crate::stop::Stop;
use crate::threads;
use kressedach::{Entry, Opinion, Wall};

const COLUMNS: [&str; 3] = ["line", "start", "end"];

pub fn judge(asked: &Asked) -> Result<Answer, Stop> {
    let threads = threads::asked(asked)?;
    let (files, starts) = (Files::asked(asked)?, asked.source("--starts"));
    let [crossings, theirs] = [1, 2].map(|place| asked.file(place));
    let texts = [crossings.text()?, theirs.text()?];
    let names = files.names()?;
    let starts_text = starts.map_or(Ok(String::new()), Source::text)?;
    let lines = Lines::of(&names, starts.map(|starts| (starts, &starts_text[..])), (crossings, &texts[0]))?;
    let list = entries(&texts[1]).map_err(|wrong| theirs.wrong(wrong))?;
    let refused = |refusal| lines.refused(&files, &names, refusal);
    let opinion = kressedach::judge_on(threads, files.sheets(), lines.starts(), lines.crossings(), &list.entries).map_err(refused)?;
    lines.say_unused(&files, &names);
    let at = match opinion {
        Opinion::Right => return Ok(Answer::text("right\n")),
        Opinion::WrongAt(at) => at,
        Opinion::Lacking => list.entries.len(),
    };
    let walls = kressedach::classify_on(threads, files.sheets(), lines.starts(), lines.crossings()).map_err(refused)?;
    // that a list is not right is an answer
    Ok(Answer::text(told(&list, at, expected(&walls, &list.entries[..at]), theirs)).but(3, String::new()))
}

/// Their list: line, start and end, and whatever else stands beside them.
fn entries(text: &str) -> Result<List<'_, Entry>, Faults> {
    let (heading, rows) = csv::headed(text, &COLUMNS.join(","))?;
    let [line, start, end] = places(&heading)?;
    let mut list = List::none(text);
    rows.each(&heading, |_, fields| {
        let position = |at: usize, column| lists::number(&fields[at], column);
        let line = lists::number(&fields[line], "line")?;
        list.entries.push(Entry { line, start: position(start, "start")?, end: position(end, "end")? });
        Ok(())
    })?;
    Ok(list)
}

/// Where the columns stand, each of them once.
fn places(heading: &Heading) -> Result<[usize; 3], String> {
    let once = |column: &str| heading.place(column).filter(|_| heading.fields.iter().filter(|field| *field == column).count() == 1);
    match COLUMNS.map(once) {
        [Some(line), Some(start), Some(end)] => Ok([line, start, end]),
        _ => Err(heading.wrong(&format!("{}, each once among any others", COLUMNS.join(",")))),
    }
}

/// What a right list goes on with after these entries: where an entry begins, and where it ends at most. One that begins within a wall goes
/// on with it where the entry before it ends.
struct Expected {
    entry: Entry,
    within: bool,
}

fn expected(walls: &[Wall], before: &[Entry]) -> Option<Expected> {
    let past = |wall: &&Wall| before.last().map_or(true, |last| (wall.line, wall.end) > (last.line, last.end));
    let wall = walls.iter().find(past)?;
    let begun = before.last().filter(|last| last.line == wall.line && last.end > wall.start);
    let entry = Entry { line: wall.line, start: begun.map_or(wall.start, |last| last.end), end: wall.end };
    Some(Expected { entry, within: begun.is_some() })
}

fn told(list: &List<Entry>, at: usize, expected: Option<Expected>, theirs: Source) -> String {
    let file = theirs.shown();
    let first = match list.entries.get(at) {
        Some(entry) => format!("wrong at row {} of {file}: line {} from {} to {}", list.row(at), entry.line, entry.start, entry.end),
        None => format!("{file} ends too soon"),
    };
    let Some(Expected { entry: Entry { line, start, end }, within }) = expected else {
        return format!("{first}\n  expected there: the end of the list\n");
    };
    let early = match at.checked_sub(1).filter(|_| within) {
        Some(before) => format!("  row {} ends a wall at {start} that goes on to {end}\n", list.row(before)),
        None => String::new(),
    };
    format!("{first}\n  expected there: line {line} from {start}, to {end} at most\n{early}")
}
