//! The commands and their options. The command line is read by this table, and help, man page and completions are made from it.

use crate::answer::Answer;
use crate::asked::Asked;
use crate::stop::Stop;
use crate::{check, completions, crossing, edits, help, judging, line_jobs, page_jobs, raster, sheet_jobs, toggle_jobs};

/// A command.
pub struct Command {
    pub name: &'static str,
    /// What stands after it, by the words that the help has; in brackets, what may be left out.
    pub takes: &'static [&'static str],
    /// What it gives, in a line.
    pub about: &'static str,
    pub job: fn(&Asked) -> Result<Answer, Stop>,
}

/// An option of some commands. One that has a value in some and none in others stands here twice.
pub struct Opt {
    /// The first is the one that is spoken of.
    pub names: &'static [&'static str],
    /// The word for its value, if it takes one.
    pub value: Option<&'static str>,
    pub about: &'static str,
    pub commands: &'static [&'static str],
}

impl Opt {
    pub fn name(&self) -> &'static str {
        self.names[0]
    }

    pub fn is(&self, word: &[u8]) -> bool {
        self.names.iter().any(|name| name.as_bytes() == word)
    }
}

const fn command(
    name: &'static str,
    takes: &'static [&'static str],
    about: &'static str,
    job: fn(&Asked) -> Result<Answer, Stop>,
) -> Command {
    Command { name, takes, about, job }
}

pub static COMMANDS: &[Command] = &[
    command(
        "check",
        &["PAGE", "SHAPES", "LINES"],
        "the walls of a drawing on lines, from the page, the shapes and the lines at once",
        check::check,
    ),
    command("raster", &["AXIS", "BOX", "PITCH"], "lines through a box, as LINES for check and cross", raster::raster),
    command("make", &["TEXT"], "a sheet from a page of text: the shapes' names, and the formula", page_jobs::make),
    command("show", &["SHEET"], "a sheet as such a page", page_jobs::show),
    command(
        "walls",
        &["SHEET", "CROSSINGS"],
        "the walls: line, start, end, and the names of the shapes at start and end",
        line_jobs::walls,
    ),
    command(
        "judge",
        &["SHEET", "CROSSINGS", "THEIRS"],
        "whether another ray caster's wall list is right; if not, where, and what was expected",
        judging::judge,
    ),
    command("cross", &["SHAPES", "LINES"], "the crossings of a drawing's shapes with lines, as CROSSINGS for walls", crossing::cross),
    command("read", &["SHEET"], "how many names and leaves, and where the formula stands", sheet_jobs::read),
    command("list", &["SHEET"], "the nodes of the contracted tree", sheet_jobs::list),
    command("run", &["SHEET", "TOGGLES"], "a point goes into and out of shapes, one after the other: is it in the solid?", edits::run),
    command("both", &["SHEET", "TOGGLES", "TOGGLES", "ORDER"], "the same for two foundries on one tree", toggle_jobs::both),
    command("move", &["SHEET"], "the same sheet in the other edition", sheet_jobs::moved),
    command("help", &["[COMMAND]"], "all about a command, and the files that it takes", help::help),
    command("completions", &["SHELL"], "what a shell needs to complete these words", completions::completions),
];

const SHEETS: &[&str] = &["check", "make", "show", "walls", "judge", "read", "list", "run", "both", "move"];
const ALL: &[&str] =
    &["check", "raster", "make", "show", "walls", "judge", "cross", "read", "list", "run", "both", "move", "help", "completions"];

const fn option(name: &'static [&'static str], value: Option<&'static str>, commands: &'static [&'static str], about: &'static str) -> Opt {
    Opt { names: name, value, about, commands }
}

pub static OPTIONS: &[Opt] = &[
    option(&["--fittings"], Some("FILE"), SHEETS, "a fittings sheet, whose names come first"),
    option(&["--alone"], None, &["check"], "a sheet in place of PAGE stands beside no fittings"),
    option(&["--normalise"], None, &["check"], "divide directions that are not of length 1 by it"),
    option(&["--thickness"], None, &["check", "walls"], "a column more: each wall's thickness in micrometres"),
    option(&["--thinner-than"], Some("MM"), &["check", "walls"], "only walls that are thinner; exit status 3 if there is one"),
    option(&["--summary"], None, &["check", "walls"], "what was found, in a few lines on standard error"),
    option(&["--mm"], None, &["check"], "positions and thickness in millimetres"),
    option(&["--points"], None, &["check"], "six columns more: x, y, z of both ends"),
    option(&["--starts"], Some("STARTS"), &["walls", "judge"], "the shapes in which lines start"),
    option(&["--starts"], None, &["cross"], "not the crossings, but the shapes in which lines start"),
    option(&["--edits"], Some("EDITS"), &["walls", "run", "make"], "operations of the formula that become others"),
    option(&["--edition"], Some("EDITION"), &["make"], "the sheet's edition, 1 or 2, whatever the page says"),
    option(&["--positions"], None, &["show"], "behind each operation its position, for EDITS"),
    option(&["--names"], None, &["read"], "not the numbers, but the shapes' names"),
    option(&["--size"], None, &["list"], "not the nodes, but how many leaves, nodes and rounds, and the height"),
    option(&["--labels"], None, &["run"], "not the roots, but the label of each node after the last toggle"),
    option(
        &["--threads"],
        Some("N"),
        &["check", "walls", "judge", "cross"],
        "share the lines out to N threads in place of 1, 0 for as many as the machine has; the answer is the same",
    ),
    option(&["--man"], None, &["help"], "the whole help as a manual page"),
    option(&["-o"], Some("FILE"), ALL, "write the answer to FILE, whole or not at all"),
    option(&["--help", "-h"], None, ALL, "this help"),
    option(&["--version", "-V"], None, &[], "the version"),
];

/// Words of the table that are no files, and what may stand for them, if that can be told.
pub static NO_FILES: &[(&str, &[&str])] = &[
    ("AXIS", &["x", "y", "z"]),
    ("BOX", &[]),
    ("PITCH", &[]),
    ("MM", &[]),
    ("N", &[]),
    ("EDITION", &["1", "2"]),
    ("[COMMAND]", ALL),
    ("SHELL", completions::SHELLS),
];

pub fn is_file(word: &str) -> bool {
    NO_FILES.iter().all(|(other, _)| *other != word)
}

/// The command of this name.
pub fn named(word: &[u8]) -> Option<&'static Command> {
    COMMANDS.iter().find(|command| command.name.as_bytes() == word)
}

impl Command {
    /// The options that it takes.
    pub fn options(&self) -> impl Iterator<Item = &'static Opt> + '_ {
        OPTIONS.iter().filter(|option| option.commands.contains(&self.name))
    }

    /// That it is given more or fewer words than it takes.
    pub fn usage(&self) -> Stop {
        let (files, words) = if self.takes.iter().all(|word| is_file(word)) { ("file", "files") } else { ("word", "words") };
        let number = ["no", "one", "two", "three", "four"][self.takes.len()];
        let what = if self.takes.len() == 1 { files } else { words };
        Stop::Usage(format!("'{}' takes {number} {what}: {}", self.name, self.takes.join(" ")))
    }

    pub fn takes_so_many(&self, words: usize) -> bool {
        let least = self.takes.iter().filter(|word| !word.starts_with('[')).count();
        (least..=self.takes.len()).contains(&words)
    }
}

#[cfg(test)]
mod tests {
    use super::*;

    #[test]
    fn every_option_has_its_commands_and_every_command_its_options() {
        assert!(COMMANDS.iter().map(|command| command.name).eq(ALL.iter().copied()));
        for option in OPTIONS {
            assert!(option.commands.iter().all(|name| named(name.as_bytes()).is_some()), "{}", option.name());
        }
        for command in COMMANDS {
            let names: Vec<&str> = command.options().flat_map(|option| option.names.iter().copied()).collect();
            assert!((1..names.len()).all(|k| !names[..k].contains(&names[k])), "{}: an option twice", command.name);
        }
    }
}
