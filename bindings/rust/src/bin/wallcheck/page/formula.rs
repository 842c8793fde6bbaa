//! The formula of a page: brackets, words and names, with no recursion, so that brackets may be as deep as they are.

use super::tokens::{word, Kind, Token, Word};
use super::{At, Wrong};
use crate::shown;
use crate::words::letter_by_letter;
use kressedach::{Formula, Operation};
use std::collections::HashMap;

/// No formula has more leaves: it would be longer than 4094 bytes.
const MOST_LEAVES: usize = 1024;

/// The numbers of the shapes' names.
pub struct Names<'a> {
    pub taken: &'a HashMap<&'a str, (u8, Option<At>)>,
}

impl Names<'_> {
    /// The leaf of this number, from 1. After a name that is none the formula is read all the same.
    fn leaf(&self, token: &Token, number: usize, wrongs: &mut Vec<Wrong>) -> Result<Formula, Wrong> {
        if number > MOST_LEAVES {
            return Err(token.at.wrong(format!("a leaf more than {MOST_LEAVES}, which is the most")));
        }
        Ok(self.shape(token).unwrap_or_else(|wrong| {
            wrongs.push(wrong);
            Formula::shape(0)
        }))
    }

    /// The shape of a name; what is wrong already stands for any.
    fn shape(&self, token: &Token) -> Result<Formula, Wrong> {
        let Kind::Name(name) = &token.kind else { return Ok(Formula::shape(0)) };
        match self.taken.get(name.as_ref()) {
            Some((shape, _)) => Ok(Formula::shape(*shape)),
            None => {
                let mut names: Vec<&str> = self.taken.keys().copied().collect();
                names.sort_by_key(|name| self.taken[name].0);
                Err(token.at.wrong(format!("there is no shape {}; {}", shown::quoted(name), letter_by_letter(&names, name))))
            }
        }
    }
}

/// What stands between two brackets, as far as it is read: a chain of one operation, from the left.
#[derive(Default)]
struct Chain {
    /// Where its bracket opens; the outermost has none.
    open: Option<At>,
    value: Option<Formula>,
    operation: Option<Operation>,
}

impl Chain {
    fn operand(&mut self, right: Formula) {
        self.value = Some(match (self.value.take(), self.operation) {
            (Some(left), Some(operation)) => left.with(operation, right),
            _ => right,
        });
    }

    fn operation(&mut self, operation: Operation, at: At) -> Result<(), Wrong> {
        match self.operation.replace(operation) {
            Some(before) if before != operation => {
                let (before, here) = (word(before), word(operation));
                Err(at.wrong(format!("{here} after {before}: brackets are due, to say which of the two comes first")))
            }
            _ => Ok(()),
        }
    }
}

/// The formula of all these tokens, and where its first exclusive union stands. After a name that is none, or operations that are mixed,
/// the rest is read all the same.
pub fn of(tokens: &[Token], end: At, names: &Names, wrongs: &mut Vec<Wrong>) -> Option<(Formula, Option<At>)> {
    read(tokens, end, names, wrongs).map_err(|wrong| wrongs.push(wrong)).ok()
}

fn read(tokens: &[Token], end: At, names: &Names, wrongs: &mut Vec<Wrong>) -> Result<(Formula, Option<At>), Wrong> {
    let (mut chains, mut here) = (Vec::new(), Chain::default());
    let (mut leaves, mut exclusive, mut whole) = (0, None, false);
    let mut rest = tokens.iter().peekable();
    while let Some(token) = rest.next() {
        let at = token.at;
        match (&token.kind, whole) {
            (Kind::Name(_) | Kind::Wrong, false) => {
                leaves += 1;
                here.operand(names.leaf(token, leaves, wrongs)?);
                whole = true;
            }
            (Kind::Open, false) => chains.push(std::mem::replace(&mut here, Chain { open: Some(at), ..Chain::default() })),
            (Kind::Close, true) => {
                let outer = chains.pop().ok_or_else(|| at.wrong("a ) that closes nothing"))?;
                let inner = std::mem::replace(&mut here, outer).value;
                inner.into_iter().for_each(|inner| here.operand(inner));
            }
            (Kind::Word(Word::Operation(operation)), true) => {
                wrongs.extend(here.operation(*operation, at).err());
                if *operation == Operation::Exclusive {
                    exclusive = exclusive.or(Some(at));
                    // `exclusive union` says the same
                    rest.next_if(|next| next.kind == Kind::Word(Word::Operation(Operation::Union)));
                }
                whole = false;
            }
            _ => return Err(at.wrong(format!("{}, and {} stands here{}", due(whole, here.open), token.shown(), hint(token, whole)))),
        }
    }
    match (here.open, here.value) {
        (None, Some(formula)) if whole => Ok((formula, exclusive)),
        (Some(open), _) if whole => Err(open.wrong("a ( that is not closed")),
        (open, _) => Err(end.wrong(format!("{}, and the page ends", due(whole, open)))),
    }
}

fn due(whole: bool, open: Option<At>) -> &'static str {
    match (whole, open) {
        (false, _) => "a shape's name or ( is due",
        (true, None) => "union, intersection, difference, exclusive or the end is due",
        (true, Some(_)) => "union, intersection, difference, exclusive or ) is due",
    }
}

/// A word where a name is due.
fn hint(token: &Token, whole: bool) -> &'static str {
    match &token.kind {
        Kind::Word(_) if !whole => "; a name that is a word stands in quotation marks",
        _ => "",
    }
}
