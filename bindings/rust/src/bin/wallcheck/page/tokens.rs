//! A page cut into names, words and brackets.

use super::{At, Wrong};
use crate::shown;
use kressedach::Operation;
use std::borrow::Cow;

/// A word that is no name, unless it stands in quotation marks.
#[derive(Debug, Clone, Copy, PartialEq, Eq)]
pub enum Word {
    Edition,
    Formula,
    Operation(Operation),
}

/// The words of a page.
pub const WORDS: [(&str, Word); 6] = [
    ("edition", Word::Edition),
    ("formula", Word::Formula),
    ("union", Word::Operation(Operation::Union)),
    ("intersection", Word::Operation(Operation::Intersection)),
    ("difference", Word::Operation(Operation::Difference)),
    ("exclusive", Word::Operation(Operation::Exclusive)),
];

/// The word that letters are, but for their case or a colon after them. Such a name stands in quotation marks: who writes `Formula:` means
/// the word, and would name a shape.
pub fn nearly(letters: &str) -> Option<&'static str> {
    WORDS.iter().map(|(word, _)| *word).find(|word| letters.trim_end_matches(':').eq_ignore_ascii_case(word))
}

/// The word for an operation.
pub fn word(operation: Operation) -> &'static str {
    WORDS.iter().find(|(_, word)| *word == Word::Operation(operation)).map_or("", |(letters, _)| letters)
}

#[derive(Debug, PartialEq, Eq)]
pub enum Kind<'a> {
    Open,
    Close,
    Word(Word),
    Name(Cow<'a, str>),
    /// What is wrong, and said to be; it may stand where a name does.
    Wrong,
}

#[derive(Debug, PartialEq, Eq)]
pub struct Token<'a> {
    pub kind: Kind<'a>,
    pub at: At,
    /// Whether it stands in quotation marks.
    pub quoted: bool,
}

impl Token<'_> {
    /// What it is, for a message.
    pub fn shown(&self) -> String {
        match &self.kind {
            Kind::Open => "(".into(),
            Kind::Close => ")".into(),
            Kind::Word(word) => format!("the word {}", WORDS.iter().find(|(_, other)| other == word).map_or("", |(letters, _)| letters)),
            Kind::Name(name) => shown::quoted(name),
            Kind::Wrong => "something else".into(),
        }
    }
}

/// The tokens of a page, where it ends, and what is wrong with tokens.
pub fn tokens(text: &str) -> (Vec<Token<'_>>, At, Vec<Wrong>) {
    let (mut tokens, mut end, mut wrongs) = (Vec::new(), At { line: 1, column: 1 }, Vec::new());
    for (number, line) in text.strip_prefix('\u{FEFF}').unwrap_or(text).lines().enumerate() {
        let (mut rest, mut at) = (line, At { line: number + 1, column: 1 });
        loop {
            let blank = rest.len() - rest.trim_start_matches([' ', '\t', '\r']).len();
            (rest, at.column) = (&rest[blank..], at.column + blank);
            if rest.is_empty() || rest.starts_with('#') {
                break;
            }
            let (kind, length, wrong) = first(rest, at);
            tokens.push(Token { kind, at, quoted: rest.starts_with('"') });
            wrongs.extend(wrong);
            at.column += rest[..length].chars().count();
            rest = &rest[length..];
            end = at;
        }
    }
    (tokens, end, wrongs)
}

/// A token, how many bytes it has, and what is wrong with it.
type First<'a> = (Kind<'a>, usize, Option<Wrong>);

/// The first token of a text that does not begin with a blank.
fn first(text: &str, at: At) -> First<'_> {
    match text.as_bytes()[0] {
        b'(' => (Kind::Open, 1, None),
        b')' => (Kind::Close, 1, None),
        b'"' => quoted(text, at),
        _ => bare(text, at),
    }
}

/// A word, or a name that is not in quotation marks.
fn bare(text: &str, at: At) -> First<'_> {
    let length = text.find([' ', '\t', '\r', '(', ')']).unwrap_or(text.len());
    let letters = &text[..length];
    if letters.contains('"') {
        let wrong = format!("{}: put the name in quotation marks, and double those inside", shown::quoted(letters));
        return (Kind::Wrong, length, Some(at.wrong(wrong)));
    }
    let of = |wanted: &str| WORDS.iter().find(|(word, _)| *word == wanted).map(|(_, word)| *word);
    match (of(letters), nearly(letters)) {
        (Some(word), _) => (Kind::Word(word), length, None),
        (None, None) => (Kind::Name(letters.into()), length, None),
        (None, Some(word)) => {
            let letters = shown::quoted(letters);
            let wrong =
                format!("{letters} is nearly the word {word}, which has small letters and no colon; a name stands in quotation marks");
            (of(word).map_or(Kind::Wrong, Kind::Word), length, Some(at.wrong(wrong)))
        }
    }
}

/// A name in quotation marks; one inside is doubled.
fn quoted(text: &str, at: At) -> First<'_> {
    let mut end = 1;
    loop {
        let Some(next) = text[end..].find('"') else {
            return (Kind::Wrong, text.len(), Some(at.wrong("a quotation mark that is not closed on its line")));
        };
        end += next;
        if !text[end + 1..].starts_with('"') {
            break;
        }
        end += 2;
    }
    let name = Kind::Name(text[1..end].replace("\"\"", "\"").into());
    if !text[end + 1..].is_empty() && !text[end + 1..].starts_with([' ', '\t', '\r', '(', ')']) {
        let column = at.column + text[..=end].chars().count();
        return (name, end + 1, Some(At { column, ..at }.wrong("a space is due after the quotation mark")));
    }
    (name, end + 1, None)
}
