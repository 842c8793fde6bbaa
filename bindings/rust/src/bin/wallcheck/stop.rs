//! Why the command ends without an answer, what it says then, and its exit status.

use crate::faults::Faults;
use crate::shown;
use kressedach::Refusal;
use std::io::{self, Write as _};
use std::process::ExitCode;

/// A refusal: the file that it is about, and what stands at the place.
pub struct Refused {
    pub file: String,
    pub refusal: Refusal,
    /// The reason, where it is known better than the number says.
    pub why: Option<String>,
    pub about: Option<String>,
}

/// Why the command ends without an answer.
pub enum Stop {
    Refused(Refused),
    Usage(String),
    /// A file that cannot be read or is not what its command takes.
    Faults(String, Faults),
    /// A file or standard output that cannot be written.
    File(String, String),
    /// What reads the output has gone: not worth a word.
    Gone,
}

impl Refused {
    pub fn words(&self, whose: &str) -> String {
        let about = self.about.iter().flat_map(|about| about.lines()).map(|line| format!("  {line}\n"));
        let refused = match (&self.why, self.refusal.place_in_words()) {
            (None, _) => self.refusal.to_string(),
            (Some(why), place) => {
                let place = place.map_or(String::new(), |place| format!(" {place}"));
                format!("refused {}{place}: {why}", self.refusal.number())
            }
        };
        format!("wallcheck: {whose}{}: {refused}\n{}", self.file, about.collect::<String>())
    }
}

impl Stop {
    pub fn refused(file: impl Into<String>, refusal: Refusal, about: Option<String>) -> Stop {
        Stop::Refused(Refused { file: file.into(), refusal, why: None, about })
    }

    /// Says why on standard error, and after a command that is known where its help is.
    pub fn report(self, command: Option<&str>) -> ExitCode {
        let help = command.map_or("--help".into(), |command| format!("help {command}"));
        let (status, words) = match self {
            Stop::Refused(refused) => (1, refused.words("")),
            Stop::Usage(what) => (2, format!("wallcheck: {what}\nTry 'wallcheck {help}'.\n")),
            Stop::Faults(name, faults) => (2, faults.lines().map(|fault| format!("wallcheck: {name}: {fault}\n")).collect()),
            Stop::File(name, what) => (2, format!("wallcheck: {name}: {what}\n")),
            Stop::Gone => (2, String::new()),
        };
        say(&words);
        ExitCode::from(status)
    }
}

/// Standard error that cannot be written changes nothing: the status says the same.
pub fn say(words: &str) {
    let _ = io::stderr().write_all(words.as_bytes());
}

/// Writes an answer to standard output, or says why not.
pub fn out(write: impl FnOnce(&mut io::StdoutLock) -> io::Result<()>) -> Result<(), Stop> {
    let cannot = |why: String| Stop::File("standard output".into(), why);
    if crate::closed::stdout_was_closed() {
        return Err(cannot("is closed".into()));
    }
    let mut stdout = io::stdout().lock();
    write(&mut stdout).and_then(|()| stdout.flush()).map_err(|e| match e.kind() {
        io::ErrorKind::BrokenPipe => Stop::Gone,
        _ => cannot(e.to_string()),
    })
}

/// A word of the command line that is none of those that are known.
pub fn no_such(what: &str, word: &[u8]) -> Stop {
    Stop::Usage(format!("there is no {what} '{}'", shown::path(word)))
}
