//! What a command line asks for, by the table: a command, its words and its options, which may stand anywhere.

use crate::files::Source;
use crate::shown;
use crate::stop::{no_such, Stop};
use crate::table::{is_file, named, Command, Opt, OPTIONS};

/// A command line that its command takes.
pub struct Asked<'a> {
    pub command: &'static Command,
    words: Vec<&'a [u8]>,
    options: Vec<(&'static Opt, Option<&'a [u8]>)>,
}

impl<'a> Asked<'a> {
    /// Of the words after `wallcheck`, in which a command stands.
    pub fn of(command: &'static Command, args: &[&'a [u8]]) -> Result<Asked<'a>, Stop> {
        let mut asked = Asked { command, words: vec![], options: vec![] };
        let mut rest = args.iter().copied();
        while let Some(word) = rest.next() {
            match word {
                b"--" => asked.words.extend(rest.by_ref()),
                _ if is_option(word) => asked.option(word, &mut rest)?,
                _ => asked.words.push(word),
            }
        }
        asked.words.remove(0);
        if !command.takes_so_many(asked.words.len()) {
            return Err(command.usage());
        }
        asked.one_stdin()?;
        Ok(asked)
    }

    /// Takes an option, and of the rest the value, where it has one that does not stand behind `=`.
    fn option(&mut self, word: &'a [u8], rest: &mut impl Iterator<Item = &'a [u8]>) -> Result<(), Stop> {
        let (name, given) = cut(word);
        let option = known(self.command, name)?;
        let shown = option.name();
        let value = match (option.value, given) {
            (None, Some(_)) => return Err(Stop::Usage(format!("'{shown}' takes no value"))),
            (None, None) => None,
            (Some(_), Some(value)) => Some(value),
            (Some(what), None) => match rest.next() {
                Some(next) if next != b"--" && !OPTIONS.iter().any(|option| option.is(next)) => Some(next),
                _ => return Err(Stop::Usage(format!("'{shown}' takes a value: {shown} {what}"))),
            },
        };
        if self.options.iter().any(|(other, _)| other.name() == shown) {
            return Err(Stop::Usage(format!("'{shown}' stands twice")));
        }
        self.options.push((option, value));
        Ok(())
    }

    /// Only one of a command's files can be standard input.
    fn one_stdin(&self) -> Result<(), Stop> {
        let files = self.command.takes.iter().zip(&self.words).filter(|(what, _)| is_file(what)).map(|(_, word)| *word);
        let read = self.options.iter().filter(|(option, _)| option.name() != "-o" && option.value.is_some_and(is_file));
        match files.chain(read.filter_map(|(_, value)| *value)).filter(|file| Source(file).is_stdin()).count() {
            0 | 1 => Ok(()),
            _ => Err(Stop::Usage("only one of the files can be standard input".into())),
        }
    }

    pub fn words(&self) -> &[&'a [u8]] {
        &self.words
    }

    /// The file that stands at a place of the command's words.
    pub fn file(&self, place: usize) -> Source<'a> {
        Source(self.words[place])
    }

    pub fn has(&self, option: &str) -> bool {
        self.options.iter().any(|(other, _)| other.name() == option)
    }

    pub fn value(&self, option: &str) -> Option<&'a [u8]> {
        self.options.iter().find(|(other, _)| other.name() == option).and_then(|(_, value)| *value)
    }

    /// The file of an option.
    pub fn source(&self, option: &str) -> Option<Source<'a>> {
        self.value(option).map(Source)
    }

    /// The file of `-o`; `-` is standard output.
    pub fn output(&self) -> Option<&'a [u8]> {
        self.value("-o").filter(|file| *file != b"-")
    }
}

/// Whether a word is an option and no file: `-` is standard input, and a minus before a digit is a number's.
fn is_option(word: &[u8]) -> bool {
    !matches!(word, [] | [b'-'] | [b'-', b'0'..=b'9' | b'.', ..]) && word[0] == b'-'
}

/// The name of an option, and the value behind its `=`.
fn cut(word: &[u8]) -> (&[u8], Option<&[u8]>) {
    match word.iter().position(|letter| *letter == b'=').filter(|_| word.starts_with(b"--")) {
        Some(at) => (&word[..at], Some(&word[at + 1..])),
        None => (word, None),
    }
}

/// Where the command stands: the first word that is neither an option nor the value of one.
pub fn command_at(args: &[&[u8]]) -> Option<usize> {
    let mut at = 0;
    while let Some(word) = args.get(at) {
        match *word {
            b"--" => return (at + 1 < args.len()).then_some(at + 1),
            word if !is_option(word) => return Some(at),
            word => {
                let of_name = || OPTIONS.iter().filter(|option| option.is(word));
                let valued = of_name().any(|option| option.value.is_some());
                let flag = of_name().any(|option| option.value.is_none());
                let a_command_is_next = args.get(at + 1).is_some_and(|next| named(next).is_some());
                at += 1 + usize::from(valued && !(flag && a_command_is_next));
            }
        }
    }
    None
}

/// Whether a word that is no file and no value behind `--` asks for this.
pub fn has_word(args: &[&[u8]], words: &[&[u8]]) -> bool {
    args.iter().take_while(|word| **word != b"--").any(|word| words.contains(word))
}

/// A command line without a command: what is wrong is an option that there is none of, or the command that is missing.
pub fn no_command(args: &[&[u8]]) -> Stop {
    let stranger = args.iter().map(|word| cut(word).0).find(|name| is_option(name) && !OPTIONS.iter().any(|option| option.is(name)));
    match stranger.filter(|name| *name != b"--") {
        Some(name) => no_option(name, OPTIONS.iter()),
        None => Stop::Usage("a command is missing".into()),
    }
}

/// The option of a command that has this name.
fn known(command: &Command, name: &[u8]) -> Result<&'static Opt, Stop> {
    if let Some(option) = command.options().find(|option| option.is(name)) {
        return Ok(option);
    }
    let others: Vec<String> =
        OPTIONS.iter().filter(|option| option.is(name)).flat_map(|option| option.commands).map(|name| format!("'{name}'")).collect();
    match &others[..] {
        [] => Err(no_option(name, command.options())),
        [one] => Err(Stop::Usage(format!("'{}' takes no {}; {one} does", command.name, shown::path(name)))),
        [most @ .., last] => {
            let most = most.join(", ");
            Err(Stop::Usage(format!("'{}' takes no {}; {most} and {last} do", command.name, shown::path(name))))
        }
    }
}

/// That there is no such option, with the nearest of these.
fn no_option(name: &[u8], known: impl Iterator<Item = &'static Opt>) -> Stop {
    let nearest = known.flat_map(|option| option.names).min_by_key(|other| distance(name, other.as_bytes()));
    match (nearest, no_such("option", name)) {
        (Some(nearest), Stop::Usage(words)) => Stop::Usage(format!("{words}; the nearest is {nearest}")),
        (_, stop) => stop,
    }
}

/// How many letters have to be put in, left out or changed to make one of the other.
fn distance(one: &[u8], other: &[u8]) -> usize {
    let one = &one[..one.len().min(64)];
    let mut row: Vec<usize> = (0..=other.len()).collect();
    for (k, letter) in one.iter().enumerate() {
        let mut before = k;
        row[0] = k + 1;
        for (j, with) in other.iter().enumerate() {
            let changed = before + usize::from(letter != with);
            before = row[j + 1];
            row[j + 1] = changed.min(before + 1).min(row[j] + 1);
        }
    }
    row[other.len()]
}

#[cfg(test)]
mod tests {
    use super::*;

    #[test]
    fn distances() {
        for (one, other, due) in [("", "abc", 3), ("abc", "", 3), ("kitten", "sitting", 3), ("--strats", "--starts", 2), ("-o", "-o", 0)] {
            assert_eq!(distance(one.as_bytes(), other.as_bytes()), due, "{one} {other}");
        }
    }
}
