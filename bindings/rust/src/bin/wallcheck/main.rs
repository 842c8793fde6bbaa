//! The command: sheets, pages of text and CSV lists in, CSV, a sheet or a page out.

#[cfg(test)]
mod alike;
mod answer;
mod asked;
mod beside;
mod check;
mod closed;
mod completions;
mod crossing;
mod csv;
mod drawing;
mod edited;
mod edits;
mod faults;
mod files;
mod help;
mod judging;
mod kinds;
mod line_jobs;
mod lists;
mod man;
mod page;
mod page_jobs;
#[cfg(test)]
mod quick;
mod raster;
mod sheet_jobs;
mod shown;
mod stop;
mod table;
mod threads;
mod toggle_jobs;
mod wall_table;
mod words;

use answer::Answer;
use asked::Asked;
use std::ffi::OsString;
use std::os::unix::ffi::OsStringExt;
use std::process::ExitCode;
use stop::{no_such, Stop};
use table::Command;

fn main() -> ExitCode {
    let args: Vec<Vec<u8>> = std::env::args_os().skip(1).map(OsString::into_vec).collect();
    let args: Vec<&[u8]> = args.iter().map(Vec::as_slice).collect();
    let command = asked::command_at(&args).and_then(|at| table::named(args[at]));
    match given(command, &args) {
        Ok(status) => ExitCode::from(status),
        Err(stop) => stop.report(command.map(|command| command.name)),
    }
}

/// Gives what a command line asks for, and the exit status.
fn given(command: Option<&'static Command>, args: &[&[u8]]) -> Result<u8, Stop> {
    let at = asked::command_at(args);
    match (command, at) {
        (None, Some(at)) => Err(no_such("command", args[at])),
        _ if asked::has_word(args, &[b"--help", b"-h"]) => Answer::text(help::of(command)).give(None),
        _ if asked::has_word(args, &[b"--version", b"-V"]) => Answer::text(version()).give(None),
        (None, None) => Err(asked::no_command(args)),
        (Some(command), _) => {
            let asked = Asked::of(command, args)?;
            (command.job)(&asked)?.give(asked.output())
        }
    }
}

/// What `--version` says.
fn version() -> String {
    format!("wallcheck {}, with the library compiled for {}\n", env!("CARGO_PKG_VERSION"), kressedach::PROCESSOR)
}
