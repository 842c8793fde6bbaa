//! Sheets as pages, from which the same bytes are made again.

use super::tokens::{nearly, word};
use super::unused;
use kressedach::{Edition, Formula, Operation};
use std::borrow::Cow;

/// Where a line is broken.
const WIDTH: usize = 78;

/// A fittings sheet with these names.
pub fn fittings_page(names: &[&str]) -> String {
    let names: String = names.iter().map(|name| written(name).into_owned() + "\n").collect();
    format!("# a fittings sheet: names, and no formula\n{names}")
}

/// A sheet that is shown.
pub struct Shown<'a> {
    pub edition: Edition,
    /// The names of all shapes, those of so many fittings first.
    pub names: &'a [&'a str],
    pub fittings: usize,
    /// The file of the fittings, where a page can name it.
    pub beside: Option<&'a str>,
    pub formula: &'a Formula,
    /// Whether each operation's position is shown.
    pub positions: bool,
}

/// A sheet's page.
pub fn sheet_page(sheet: &Shown) -> String {
    let written: Vec<Cow<str>> = sheet.names.iter().map(|name| written(name)).collect();
    let never: Vec<&str> = unused(sheet.formula, sheet.names.len()).into_iter().map(|shape| written[shape].as_ref()).collect();
    let (fitted, own) = written.split_at(sheet.fittings);
    let mut page = String::new();
    if !fitted.is_empty() {
        let beside: Vec<&str> = fitted.iter().map(|name| name.as_ref()).collect();
        page += &remark("beside a fittings sheet with the names", &beside);
    }
    page += &format!("edition {}\n", sheet.edition as u8);
    if let Some(file) = sheet.beside {
        page += &format!("fittings {}\n", file_written(file));
    }
    own.iter().for_each(|name| page.extend([name, "\n"]));
    page += "\nformula\n";
    let leaves = in_line(sheet.formula, &written);
    page += &if sheet.positions { one_a_line(&leaves) } else { broken("  ", &words(&leaves)) };
    if !never.is_empty() {
        page += &("\n".to_string() + &remark("the formula never uses", &never));
    }
    page
}

/// A file's name as a page has it.
fn file_written(file: &str) -> Cow<'_, str> {
    match file.contains([' ', '\t']) {
        true => format!("\"{}\"", file.replace('"', "\"\"")).into(),
        false => written(file),
    }
}

/// A name as a page has it.
fn written(name: &str) -> Cow<'_, str> {
    let hidden = nearly(name).is_some() || name.starts_with('#') || name.contains(['"', '(', ')']);
    match hidden {
        true => format!("\"{}\"", name.replace('"', "\"\"")).into(),
        false => name.into(),
    }
}

/// A part of a formula: its first and last leaf, and its operation.
struct Part {
    first: usize,
    last: usize,
    operation: Option<Operation>,
}

/// A leaf with its brackets, and the operation that stands after it: its word, and its position in postfix order.
struct Leaf<'a> {
    opened: usize,
    name: &'a str,
    closed: usize,
    after: Option<(&'static str, usize)>,
}

impl Leaf<'_> {
    fn written(&self) -> String {
        format!("{}{}{}", "(".repeat(self.opened), self.name, ")".repeat(self.closed))
    }
}

/// The leaves from left to right. A chain of one operation needs no brackets.
fn in_line<'a>(formula: &Formula, names: &'a [Cow<str>]) -> Vec<Leaf<'a>> {
    let mut leaves: Vec<Leaf> = Vec::new();
    let mut parts: Vec<Part> = Vec::new();
    for (position, code) in formula.codes().iter().enumerate() {
        let Some(operation) = Operation::of_code(*code) else {
            parts.push(Part { first: leaves.len(), last: leaves.len(), operation: None });
            leaves.push(Leaf { opened: 0, name: &names[usize::from(*code)], closed: 0, after: None });
            continue;
        };
        let (Some(right), Some(left)) = (parts.pop(), parts.pop()) else { break };
        leaves[left.last].after = Some((word(operation), position));
        let bracketed = [(&left, left.operation.is_some_and(|other| other != operation)), (&right, right.operation.is_some())];
        for (part, _) in bracketed.into_iter().filter(|(_, bracketed)| *bracketed) {
            leaves[part.first].opened += 1;
            leaves[part.last].closed += 1;
        }
        parts.push(Part { first: left.first, last: right.last, operation: Some(operation) });
    }
    leaves
}

/// The leaves and the operations between them.
fn words(leaves: &[Leaf]) -> Vec<String> {
    leaves.iter().flat_map(|leaf| [Some(leaf.written()), leaf.after.map(|(word, _)| word.to_string())]).flatten().collect()
}

/// A leaf a line, and behind its operation the position.
fn one_a_line(leaves: &[Leaf]) -> String {
    let line = |leaf: &Leaf| leaf.after.map_or(leaf.written(), |(word, _)| leaf.written() + " " + word);
    let wide = leaves.iter().map(|leaf| line(leaf).len()).filter(|wide| *wide <= WIDTH).max().unwrap_or_default();
    let whole = |leaf: &Leaf| match leaf.after {
        Some((_, position)) => format!("  {:wide$}  # position {position}\n", line(leaf)),
        None => format!("  {}\n", line(leaf)),
    };
    leaves.iter().map(whole).collect()
}

fn remark(what: &str, names: &[&str]) -> String {
    let words: Vec<String> = what.split(' ').chain(names.iter().copied()).map(String::from).collect();
    broken("# ", &words)
}

/// Words in lines that begin so.
fn broken(begin: &str, words: &[String]) -> String {
    let (mut text, mut column) = (String::new(), 0);
    for word in words {
        let fits = column > 0 && column + 1 + word.len() <= WIDTH;
        text.push_str(if fits { " " } else { ["\n", ""][usize::from(text.is_empty())] });
        if !fits {
            text.push_str(begin);
            column = begin.len();
        }
        text.push_str(word);
        column += word.len() + usize::from(fits);
    }
    text + "\n"
}
