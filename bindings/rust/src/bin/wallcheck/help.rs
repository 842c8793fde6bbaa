//! The help: a page of all commands, and one for each. What a command and its options are called stands in the table alone.

use crate::answer::Answer;
use crate::asked::Asked;
use crate::man;
use crate::stop::{no_such, Stop};
use crate::table::{self, Command, Opt, COMMANDS, OPTIONS};

pub const HEADING: &str = "where is there metal?";
pub const HEAD: &str = include_str!("help/overview-head.txt");
pub const TAIL: &str = include_str!("help/overview-tail.txt");
pub const EXIT_STATUS: &str = include_str!("help/exit-status.txt");

/// How wide the made lines are at most.
const WIDTH: usize = 79;

/// Parts that several commands have, with those that have them.
pub const PARTS: &[(&str, &[&str])] = &[
    (include_str!("help/part-drawing.txt"), &["check", "cross"]),
    (include_str!("help/part-crossings.txt"), &["walls", "judge"]),
    (include_str!("help/part-lists.txt"), &["check", "walls", "judge", "run", "both", "cross"]),
    (include_str!("help/part-fittings.txt"), &["walls", "judge", "read", "list", "run", "both", "move"]),
];

/// What is said of a command alone.
pub fn about(command: &str) -> &'static str {
    match command {
        "check" => include_str!("help/check.txt"),
        "raster" => include_str!("help/raster.txt"),
        "make" => include_str!("help/make.txt"),
        "show" => include_str!("help/show.txt"),
        "walls" => include_str!("help/walls.txt"),
        "judge" => include_str!("help/judge.txt"),
        "cross" => include_str!("help/cross.txt"),
        "read" => include_str!("help/read.txt"),
        "list" => include_str!("help/list.txt"),
        "run" => include_str!("help/run.txt"),
        "both" => include_str!("help/both.txt"),
        "move" => include_str!("help/move.txt"),
        "help" => include_str!("help/help.txt"),
        "completions" => include_str!("help/completions.txt"),
        _ => "",
    }
}

pub fn help(asked: &Asked) -> Result<Answer, Stop> {
    match asked.words() {
        [] if asked.has("--man") => Ok(Answer::text(man::page())),
        [] => Ok(Answer::text(of(None))),
        [_, ..] if asked.has("--man") => Err(Stop::Usage("'--man' is the help of all commands, and takes none".into())),
        [word, ..] => table::named(word).map(|command| Answer::text(of(Some(command)))).ok_or_else(|| no_such("command", word)),
    }
}

/// The help of a command, or of all.
pub fn of(command: Option<&Command>) -> String {
    let Some(command) = command else { return overview() };
    let options: String = command.options().map(|option| columns(&written(option), option.about, 25)).collect();
    let parts = PARTS.iter().filter(|(_, commands)| commands.contains(&command.name)).map(|(part, _)| *part);
    let first = [&usage(command)[..], about(command.name), &format!("Options:\n\n{options}")].join("\n");
    [first].into_iter().chain(parts.map(String::from)).collect::<Vec<_>>().join("\n")
}

/// A command with its words.
pub fn usage(command: &Command) -> String {
    format!("wallcheck {} [OPTION]... {}\n", command.name, command.takes.join(" "))
}

/// An option with its value's word.
pub fn written(option: &Opt) -> String {
    option.names.join(", ") + &option.value.map_or(String::new(), |value| format!(" {value}"))
}

fn overview() -> String {
    let commands: String = COMMANDS
        .iter()
        .map(|command| columns(&format!("wallcheck {} {}", command.name, command.takes.join(" ")), command.about, 37))
        .collect();
    let alone: Vec<&str> = OPTIONS.iter().filter(|option| option.commands.is_empty()).map(Opt::name).collect();
    let others = columns(&format!("wallcheck --help | {}", alone.join(" | ")), "", 37);
    [&format!("wallcheck: {HEADING}\n"), HEAD, &(commands + &others), TAIL, EXIT_STATUS].join("\n")
}

/// A word, and from a column on, beside it or below it, what is said of it.
fn columns(word: &str, about: &str, column: usize) -> String {
    let mut lines = vec![format!("  {word}")];
    if lines[0].len() >= column {
        lines.push(String::new());
    }
    for word in about.split_whitespace() {
        if lines.last().is_some_and(|line| line.len() + 1 + word.len() > WIDTH) {
            lines.push(String::new());
        }
        if let Some(line) = lines.last_mut() {
            let blank = column.saturating_sub(line.len());
            *line += &format!("{}{word}", " ".repeat(blank.max(1)));
        }
    }
    lines.join("\n") + "\n"
}
