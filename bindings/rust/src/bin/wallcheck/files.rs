//! The files that a command line names: sheets and lists.

use crate::asked::Asked;
use crate::faults::Faults;
use crate::kinds;
use crate::shown;
use crate::stop::{Refused, Stop};
use crate::words;
use kressedach::{Refusal, Sheets, Which};
use std::ffi::OsStr;
use std::fs::File;
use std::io::{self, Read};
use std::os::unix::ffi::OsStrExt;

/// A file as the command line names it, by any bytes; `-` is standard input.
#[derive(Clone, Copy, PartialEq, Eq)]
pub struct Source<'a>(pub &'a [u8]);

impl Source<'_> {
    pub fn is_stdin(self) -> bool {
        self.0 == b"-"
    }

    /// Its name, as messages show it.
    pub fn shown(self) -> String {
        if self.is_stdin() {
            "standard input".into()
        } else {
            shown::path(self.0)
        }
    }

    pub fn wrong(self, what: impl Into<Faults>) -> Stop {
        Stop::Faults(self.shown(), what.into())
    }

    pub fn refused(self, refusal: Refusal, about: Option<String>) -> Stop {
        Stop::refused(self.shown(), refusal, about)
    }

    /// A refusal whose reason is known better than its number says.
    pub fn refused_for(self, refusal: Refusal, why: String, about: String) -> Stop {
        Stop::Refused(Refused { file: self.shown(), refusal, why: Some(why), about: Some(about) })
    }

    pub fn text(self) -> Result<String, Stop> {
        self.text_of(self.whole()?)
    }

    /// All bytes of a file.
    pub fn whole(self) -> Result<Vec<u8>, Stop> {
        self.bytes(u64::MAX)
    }

    /// Bytes of the file as text.
    pub fn text_of(self, bytes: Vec<u8>) -> Result<String, Stop> {
        if let Some(other) = kinds::no_text(&bytes) {
            return Err(self.wrong(other));
        }
        String::from_utf8(bytes).map_err(|e| {
            let good = &e.as_bytes()[..e.utf8_error().valid_up_to()];
            let row = 1 + good.iter().filter(|byte| **byte == b'\n').count();
            self.wrong(format!("row {row}: is not text in UTF-8"))
        })
    }

    pub fn sheet(self) -> Result<Vec<u8>, Stop> {
        // a sheet has at most 13,062 bytes, and with one more the answer is the same as with all
        self.bytes(13_063)
    }

    /// What reads the file from its beginning.
    pub fn reader(self) -> Result<Box<dyn Read>, Stop> {
        if self.is_stdin() {
            return Ok(Box::new(io::stdin()));
        }
        File::open(OsStr::from_bytes(self.0)).map(|file| Box::new(file) as Box<dyn Read>).map_err(|e| self.wrong(e.to_string()))
    }

    /// The bytes of a file, so many at most.
    fn bytes(self, most: u64) -> Result<Vec<u8>, Stop> {
        let mut bytes = Vec::new();
        let got = match self.is_stdin() {
            true => io::stdin().lock().take(most).read_to_end(&mut bytes),
            false => File::open(OsStr::from_bytes(self.0)).and_then(|mut file| match most {
                // a file by itself tells its length, so that memory is asked for once
                u64::MAX => file.read_to_end(&mut bytes),
                _ => file.take(most).read_to_end(&mut bytes),
            }),
        };
        got.map(|_| bytes).map_err(|e| self.wrong(e.to_string()))
    }
}

/// The sheets of a call: their files, and their bytes.
pub struct Files<'a> {
    sources: (Option<Source<'a>>, Source<'a>),
    fittings: Option<Vec<u8>>,
    customers: Vec<u8>,
}

impl<'a> Files<'a> {
    /// The sheet that stands first after a command, and that of `--fittings`.
    pub fn asked(asked: &Asked<'a>) -> Result<Files<'a>, Stop> {
        Files::of(asked.source("--fittings"), asked.file(0))
    }

    pub fn of(fittings: Option<Source<'a>>, customers: Source<'a>) -> Result<Files<'a>, Stop> {
        let bytes = (fittings.map(Source::sheet).transpose()?, customers.sheet()?);
        Ok(Files { sources: (fittings, customers), fittings: bytes.0, customers: bytes.1 })
    }

    /// Sheets that are there already, each with the file that it comes from.
    pub fn holding(fittings: Option<(Source<'a>, &[u8])>, customers: (Source<'a>, &[u8])) -> Files<'a> {
        let sources = (fittings.map(|(source, _)| source), customers.0);
        Files { sources, fittings: fittings.map(|(_, sheet)| sheet.to_vec()), customers: customers.1.to_vec() }
    }

    /// The same files, with another customer's sheet.
    pub fn with(self, customers: Vec<u8>) -> Files<'a> {
        Files { customers, ..self }
    }

    pub fn sheets(&self) -> Sheets<'_> {
        Sheets { fittings: self.fittings.as_deref(), customers: &self.customers }
    }

    /// The names of the shapes, by their numbers.
    pub fn names(&self) -> Result<Vec<&str>, Stop> {
        kressedach::names(self.sheets()).map_err(|refusal| self.refused(refusal))
    }

    /// A refusal of one of the sheets.
    pub fn refused(&self, refusal: Refusal) -> Stop {
        let source = match (refusal.sheet, self.sources.0) {
            (Some(Which::Fittings), Some(fittings)) => fittings,
            _ => self.sources.1,
        };
        source.refused(refusal, words::of_sheet(self.sheets(), refusal))
    }

    /// A refusal of one of the sheets, or else of a list.
    pub fn refused_or(&self, list: Source, refusal: Refusal, about: Option<String>) -> Stop {
        match refusal.sheet {
            Some(_) => self.refused(refusal),
            None => list.refused(refusal, about),
        }
    }
}
