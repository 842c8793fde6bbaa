//! The fittings of a page: those that it names, or those of the command line; a fittings sheet, or the page of one.

use crate::files::Source;
use crate::page;
use crate::stop::Stop;
use crate::words;
use kressedach::{encode_fittings, read_fittings, Sheets};

/// A fittings sheet: its file, and its bytes.
pub struct Fittings {
    pub path: Vec<u8>,
    pub sheet: Vec<u8>,
}

impl Fittings {
    /// The fittings of a page of text: what its line names goes by the page's own folder.
    pub fn of_page(page: Source, text: &str, asked: Option<Source>) -> Result<Option<Fittings>, Stop> {
        match (page::names_fittings(text), asked) {
            (Some(file), Some(_)) => {
                let file = crate::shown::quoted(&file);
                Err(Stop::Usage(format!("{} names its fittings, {file}: '--fittings' beside that is one too many", page.shown())))
            }
            (Some(file), None) => Fittings::read(&beside(page, &file)).map(Some),
            (None, asked) => asked.map(|asked| Fittings::read(asked.0)).transpose(),
        }
    }

    /// Of a file that is a fittings sheet or the page of one.
    pub fn read(path: &[u8]) -> Result<Fittings, Stop> {
        let source = Source(path);
        let bytes = source.whole()?;
        let sheet = if is_sheet(&bytes) { bytes } else { of_text(source, bytes)? };
        read_fittings(&sheet).map_err(|refusal| source.refused(refusal, words::of_sheet(Sheets::beside(&sheet, b""), refusal)))?;
        Ok(Fittings { path: path.to_vec(), sheet })
    }

    pub fn parts(&self) -> (Source<'_>, &[u8]) {
        (Source(&self.path), &self.sheet)
    }

    pub fn names(&self) -> Vec<&str> {
        read_fittings(&self.sheet).unwrap_or_default()
    }
}

/// A sheet begins with its header's tag, and no page does.
pub fn is_sheet(bytes: &[u8]) -> bool {
    bytes.first() == Some(&1)
}

/// The fittings sheet of a page.
fn of_text(source: Source, bytes: Vec<u8>) -> Result<Vec<u8>, Stop> {
    let text = source.text_of(bytes)?;
    if page::names_fittings(&text).is_some() {
        return Err(source.wrong("is to be a fittings sheet, and those stand beside no others"));
    }
    let page = page::read(&text, &[]).map_err(|wrong| source.wrong(wrong))?;
    if page.formula.is_some() {
        return Err(source.wrong("has a formula, and is to be a fittings sheet: names alone"));
    }
    let names: Vec<&str> = page.names.iter().map(|(name, _)| name.as_str()).collect();
    encode_fittings(&names).map_err(|refusal| source.refused(refusal, None))
}

/// The path of a file that a page names. No page means standard input by a minus.
fn beside(page: Source, file: &str) -> Vec<u8> {
    let folder = match page.0.iter().rposition(|letter| *letter == b'/') {
        Some(last) if !file.starts_with('/') && !page.is_stdin() => &page.0[..=last],
        _ if file == "-" => &b"./"[..],
        _ => b"",
    };
    [folder, file.as_bytes()].concat()
}

#[cfg(test)]
mod tests {
    use super::*;

    #[test]
    fn files_go_by_the_folder_of_their_page() {
        for (page, file, due) in [
            ("pump.txt", "lugs.txt", "lugs.txt"),
            ("a/b/pump.txt", "lugs.txt", "a/b/lugs.txt"),
            ("a/pump.txt", "../lugs.txt", "a/../lugs.txt"),
            ("/pump.txt", "lugs.txt", "/lugs.txt"),
            ("a/pump.txt", "/b/lugs.txt", "/b/lugs.txt"),
            ("-", "lugs.txt", "lugs.txt"),
            ("pump.txt", "-", "./-"),
            ("-", "-", "./-"),
            ("a/pump.txt", "-", "a/-"),
        ] {
            assert_eq!(beside(Source(page.as_bytes()), file), due.as_bytes(), "{page} {file}");
        }
    }
}
