//! What a page says, or where it says nothing.

use super::formula::{self, Names};
use super::tokens::{tokens, Kind, Token, Word};
use super::{faults, At, Page, Wrong};
use crate::faults::Faults;
use crate::shown;
use kressedach::{Edition, MOST_NAMES};
use std::collections::HashMap;

/// Reads a page; its formula may use the names of a fittings sheet too.
pub fn read(text: &str, fittings: &[&str]) -> Result<Page, Faults> {
    let (tokens, end, mut wrongs) = tokens(text);
    let mut rest = &tokens[..];
    let edition = or_past_the_line(&mut rest, edition, &mut wrongs);
    or_past_the_line(&mut rest, beside, &mut wrongs);
    let (names, taken) = names(&mut rest, end, fittings, &mut wrongs);
    let read = match rest {
        [_, codes @ ..] if !names.is_empty() => formula::of(codes, end, &Names { taken: &taken }, &mut wrongs),
        _ => None,
    };
    if rest.is_empty() && edition == Some(Edition::Two) && wrongs.is_empty() {
        wrongs.push(end.wrong("the word formula is due: a page without one makes a fittings sheet, and that has edition 1"));
    }
    let (formula, exclusive) = read.map_or((None, None), |(formula, exclusive)| (Some(formula), exclusive));
    faults(wrongs).or(Page { edition, names, formula, exclusive })
}

/// What a line before the names says; if it is wrong, what follows is read all the same.
fn or_past_the_line<T>(tokens: &mut &[Token], line: fn(&mut &[Token]) -> Result<Option<T>, Wrong>, wrongs: &mut Vec<Wrong>) -> Option<T> {
    line(tokens).unwrap_or_else(|wrong| {
        wrongs.push(wrong);
        *tokens = past_the_line(tokens);
        None
    })
}

/// The tokens after the line of the first.
fn past_the_line<'a, 't>(tokens: &'t [Token<'a>]) -> &'t [Token<'a>] {
    let first = tokens.first().map(|token| token.at.line);
    let past = tokens.iter().position(|token| Some(token.at.line) != first).unwrap_or(tokens.len());
    &tokens[past..]
}

/// The fittings that a page names, as far as it can be read: what is wrong with it is said by [`read`].
pub fn names_fittings(text: &str) -> Option<String> {
    let (tokens, _, _) = tokens(text);
    let mut rest = &tokens[..];
    edition(&mut rest).ok()?;
    beside(&mut rest).ok()?
}

/// `edition 1` or `edition 2`, on a line before all others.
fn edition(tokens: &mut &[Token]) -> Result<Option<Edition>, Wrong> {
    let [Token { kind: Kind::Word(Word::Edition), at, .. }, rest @ ..] = *tokens else { return Ok(None) };
    let due = "1 or 2 is due after the word edition";
    let Some((Token { kind: Kind::Name(number), at: here, .. }, rest)) = rest.split_first() else { return Err(at.wrong(due)) };
    let edition = match number.as_ref() {
        _ if here.line != at.line => return Err(at.wrong(due)),
        "1" => Edition::One,
        "2" => Edition::Two,
        other => return Err(here.wrong(format!("{due}, and {} stands here", shown::quoted(other)))),
    };
    alone_on_its_line(*here, rest, "the edition")?;
    *tokens = rest;
    Ok(Some(edition))
}

/// `fittings FILE`, a line of two words before the names. A line with the word alone names a shape.
fn beside(tokens: &mut &[Token]) -> Result<Option<String>, Wrong> {
    let [Token { kind: Kind::Name(word), at, quoted: false }, file, rest @ ..] = *tokens else { return Ok(None) };
    if word != "fittings" || file.at.line != at.line {
        return Ok(None);
    }
    let quoted = "; a name with a space or a bracket stands in quotation marks";
    let Kind::Name(name) = &file.kind else {
        return Err(file.at.wrong(format!("a file's name is due after the word fittings, and {} stands here{quoted}", file.shown())));
    };
    if name.is_empty() {
        return Err(file.at.wrong("a file's name is due after the word fittings"));
    }
    alone_on_its_line(file.at, rest, "the file of the fittings")?;
    *tokens = rest;
    Ok(Some(name.to_string()))
}

/// The names, one a line, up to the word `formula` or the end; and the number of each, the fittings' first.
type Named<'a> = (Vec<(String, At)>, HashMap<&'a str, (u8, Option<At>)>);

fn names<'a>(tokens: &mut &'a [Token<'a>], end: At, fittings: &[&'a str], wrongs: &mut Vec<Wrong>) -> Named<'a> {
    let mut taken: HashMap<&str, (u8, Option<At>)> = fittings.iter().copied().zip((0..=255).map(|shape| (shape, None))).collect();
    let mut names = Vec::new();
    let nothing = wrongs.is_empty() && tokens.first().map_or(true, |token| token.kind == Kind::Word(Word::Formula));
    while let [token, rest @ ..] = *tokens {
        match &token.kind {
            Kind::Word(Word::Formula) => break,
            Kind::Name(name) => match named(name, token.at, rest, &taken) {
                Ok(()) => {
                    taken.insert(name, (taken.len() as u8, Some(token.at)));
                    names.push((name.to_string(), token.at));
                }
                Err(wrong) => {
                    // what the formula says of it is read all the same
                    taken.entry(name).or_insert((0, Some(token.at)));
                    wrongs.push(wrong);
                }
            },
            Kind::Wrong => {}
            _ => {
                let hint = if matches!(token.kind, Kind::Word(_)) { "; a name that is a word stands in quotation marks" } else { "" };
                let due = "a shape's name or the word formula is due";
                wrongs.push(token.at.wrong(format!("{due}, and {} stands here{hint}", token.shown())));
            }
        }
        *tokens = past_the_line(tokens);
    }
    match tokens.first() {
        Some(formula) if nothing => wrongs.push(formula.at.wrong("a shape's name is due before the formula")),
        None if nothing => wrongs.push(end.wrong("a shape's name is due, and the page ends")),
        _ => {}
    }
    (names, taken)
}

/// A name that may stand there, alone on its line.
fn named(name: &str, at: At, rest: &[Token], taken: &HashMap<&str, (u8, Option<At>)>) -> Result<(), Wrong> {
    judged(name, at)?;
    let nearly_fittings = name.trim_end_matches(':').eq_ignore_ascii_case("fittings");
    alone_on_its_line(at, rest, if nearly_fittings { "a name like fittings" } else { "a name" })?;
    match taken.get(name) {
        Some((_, Some(before))) => Err(at.wrong(format!("{name} is taken already, on line {}", before.line))),
        Some((_, None)) => Err(at.wrong(format!("{name} is taken already, in the fittings sheet"))),
        None if taken.len() == MOST_NAMES => Err(at.wrong(format!("a name more than {MOST_NAMES}, which is the most"))),
        None => Ok(()),
    }
}

/// Nothing else stands on the line of a token that has this place.
fn alone_on_its_line(at: At, rest: &[Token], what: &str) -> Result<(), Wrong> {
    match rest.first() {
        Some(next) if next.at.line == at.line => {
            let hint = match (&next.kind, what) {
                (Kind::Name(_), "a name") => "; names have no spaces",
                (_, "a name like fittings") => "; the line fittings FILE has small letters, no colon, and stands before the names",
                (_, "the file of the fittings") => "; a name with a space or a bracket stands in quotation marks",
                _ => "",
            };
            Err(next.at.wrong(format!("the end of the line is due after {what}, and {} stands here{hint}", next.shown())))
        }
        _ => Ok(()),
    }
}

/// A name has 1 to 32 letters of 0x21 to 0x7E.
fn judged(name: &str, at: At) -> Result<(), Wrong> {
    let length = name.chars().count();
    match name.chars().find(|letter| !('!'..='~').contains(letter)) {
        Some(letter) => {
            let shown = shown::quoted(&letter.to_string());
            Err(at.wrong(format!("{} has {shown}; names have letters, digits and signs from ! to ~ alone", shown::quoted(name))))
        }
        None if length == 0 => Err(at.wrong("a name has one letter at least")),
        None if length > 32 => Err(at.wrong(format!("{} has {length} letters; 32 are the most", shown::quoted(name)))),
        None => Ok(()),
    }
}
