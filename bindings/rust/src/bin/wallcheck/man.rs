//! The help as a manual page, made from the table and the pages of the help.

use crate::help::{about, usage, written, EXIT_STATUS, HEAD, HEADING, PARTS, TAIL};
use crate::table::COMMANDS;
use std::fmt::Write as _;

pub fn page() -> String {
    let mut page = format!(".TH WALLCHECK 1 \"\" \"{}\"\n.SH NAME\nwallcheck \\- {}\n", escaped(crate::version().trim()), escaped(HEADING));
    page += ".SH SYNOPSIS\n.nf\n";
    COMMANDS.iter().for_each(|command| page += &escaped(&usage(command)));
    page += ".fi\n.SH DESCRIPTION\n";
    page += &(paragraphs(HEAD) + &paragraphs(TAIL));
    page += ".SH COMMANDS\n";
    for command in COMMANDS {
        let _ = write!(page, ".SS {}{}", escaped(&usage(command)), paragraphs(about(command.name)));
        for option in command.options() {
            let _ = write!(page, ".TP\n.B {}\n{}\n", escaped(&written(option)), escaped(option.about));
        }
    }
    page += ".SH FILES\n";
    PARTS.iter().for_each(|(part, _)| page += &paragraphs(part));
    page += ".SH EXIT STATUS\n.nf\n";
    page + &escaped(EXIT_STATUS) + ".fi\n"
}

/// Text as it is filled; lines that begin with spaces stand as they are.
fn paragraphs(text: &str) -> String {
    let mut page = String::new();
    for paragraph in text.split("\n\n") {
        let as_it_is = paragraph.starts_with(' ');
        let lines = escaped(paragraph.trim_end());
        let _ = if as_it_is { write!(page, ".PP\n.nf\n{lines}\n.fi\n") } else { write!(page, ".PP\n{lines}\n") };
    }
    page
}

/// Letters that troff would take for its own.
fn escaped(text: &str) -> String {
    let text = text.replace('\\', "\\e").replace('-', "\\-").replace('~', "\\(ti").replace('^', "\\(ha");
    let lines: Vec<String> =
        text.split('\n').map(|line| if line.starts_with(['.', '\'']) { format!("\\&{line}") } else { line.into() }).collect();
    lines.join("\n")
}
