//! A sheet from a page of text, and a page from a sheet.

use crate::answer::Answer;
use crate::asked::Asked;
use crate::beside::Fittings;
use crate::edited;
use crate::files::{Files, Source};
use crate::page::{self, Page, Shown};
use crate::stop::{no_such, say, Stop};
use kressedach::{encode, encode_beside, encode_fittings, move_sheet, Edition, Formula, Operation, Sheets};

/// Makes a sheet. An edition that is asked for beside the page goes before the page's own.
pub fn make(asked: &Asked) -> Result<Answer, Stop> {
    let edition = match asked.value("--edition") {
        None => None,
        Some(b"1") => Some(Edition::One),
        Some(b"2") => Some(Edition::Two),
        Some(other) => return Err(no_such("edition", other)),
    };
    let source = asked.file(0);
    let text = source.text()?;
    let fittings = Fittings::of_page(source, &text, asked.source("--fittings"))?;
    let written = Written::of(source, &text, fittings.as_ref())?;
    let Some(formula) = &written.page.formula else {
        let wrong = |why: &str| source.wrong(format!("has no formula, and makes a fittings sheet, which {why}"));
        return match () {
            () if fittings.is_some() => Err(wrong("stands beside none")),
            () if edition == Some(Edition::Two) => Err(wrong("has edition 1")),
            () if asked.has("--edits") => Err(wrong("has no operations to edit")),
            () => encode_fittings(&written.own()).map(Answer::sheet).map_err(|refusal| source.refused(refusal, None)),
        };
    };
    let formula = match asked.source("--edits") {
        Some(edits) => {
            let sheet = written.sheet(formula, None)?;
            edited::formula(&Files::holding(fittings.as_ref().map(Fittings::parts), (source, &sheet)), edits)?
        }
        None => formula.clone(),
    };
    let sheet = written.sheet(&formula, edition)?;
    written.say_unused(&formula);
    Ok(Answer::sheet(sheet))
}

/// A page of text that was read, and the fittings beside which it stands.
pub struct Written<'a> {
    source: Source<'a>,
    pub page: Page,
    fittings: Option<&'a Fittings>,
}

impl<'a> Written<'a> {
    pub fn of(source: Source<'a>, text: &str, fittings: Option<&'a Fittings>) -> Result<Written<'a>, Stop> {
        let page = page::read(text, &fittings.map_or(vec![], Fittings::names)).map_err(|wrong| source.wrong(wrong))?;
        Ok(Written { source, page, fittings })
    }

    fn own(&self) -> Vec<&str> {
        self.page.names.iter().map(|(name, _)| name.as_str()).collect()
    }

    /// The sheet with the page's names and a formula, in the edition that is asked for or else the page's, read back.
    pub fn sheet(&self, formula: &Formula, asked: Option<Edition>) -> Result<Vec<u8>, Stop> {
        if asked == Some(Edition::Two) && formula.codes().contains(&Operation::Exclusive.code()) {
            return Err(self.exclusive());
        }
        let (own, edition) = (self.own(), asked.or(self.page.edition).unwrap_or(Edition::One));
        let fittings = self.fittings.map(|fittings| &fittings.sheet[..]);
        let made = |edition| {
            let sheet = fittings.map_or_else(|| encode(&own, formula, edition), |beside| encode_beside(beside, &own, formula, edition));
            sheet.map_err(|refusal| self.source.refused(refusal, None))
        };
        let sheet = made(edition)?;
        let sheets = Sheets { fittings, customers: &sheet };
        // operations that stand first are turned by plain Rust: the proved move has to turn them back
        let moved = if edition == Edition::Two { move_sheet(sheets) } else { Ok(sheet.clone()) };
        let all = [self.fittings.map_or(vec![], Fittings::names), own.clone()].concat();
        if kressedach::names(sheets) != Ok(all)
            || kressedach::formula(sheets) != Ok((edition, formula.clone()))
            || moved != Ok(made(Edition::One)?)
        {
            return Err(self.source.wrong("what was made of it is read as something else; nothing is written"));
        }
        Ok(sheet)
    }

    /// That an exclusive union is not taken to edition 2: one of the page's, or of an edit.
    fn exclusive(&self) -> Stop {
        let why = "exclusive is out of use, and not taken to edition 2: (A union B) difference (A intersection B) is the same";
        let wrong = self.page.exclusive.map_or(format!("with its edits: {why}"), |at| at.wrong(why).to_string());
        self.source.wrong(wrong)
    }

    /// The page's own names that the formula never uses. Fittings are rarely all used.
    fn say_unused(&self, formula: &Formula) {
        let fitted = self.fittings.map_or(0, |fittings| fittings.names().len());
        for shape in page::unused(formula, fitted + self.page.names.len()).into_iter().filter(|shape| *shape >= fitted) {
            let (name, at) = &self.page.names[shape - fitted];
            say(&format!("wallcheck: {}: line {}: the formula never uses {name}\n", self.source.shown(), at.line));
        }
    }
}

/// Shows a sheet, or a fittings sheet by itself, as a page.
pub fn show(asked: &Asked) -> Result<Answer, Stop> {
    let files = Files::asked(asked)?;
    let sheets = files.sheets();
    let refusal = match (kressedach::names(sheets), kressedach::formula(sheets)) {
        (Ok(names), Ok((edition, formula))) => {
            let fittings = sheets.fittings.map_or(0, |fittings| kressedach::read_fittings(fittings).map_or(0, |names| names.len()));
            let (beside, positions) = (asked.source("--fittings").and_then(nameable), asked.has("--positions"));
            let shown = Shown { edition, names: &names, fittings, beside, formula: &formula, positions };
            return Ok(Answer::text(page::sheet_page(&shown)));
        }
        (Err(refusal), _) | (_, Err(refusal)) => refusal,
    };
    match (sheets.fittings, kressedach::read_fittings(sheets.customers)) {
        (None, Ok(names)) => Ok(Answer::text(page::fittings_page(&names))),
        _ => Err(files.refused(refusal)),
    }
}

/// A file's name as a page can have it: text on one line, and no standard input.
fn nameable(file: Source<'_>) -> Option<&str> {
    let name = std::str::from_utf8(file.0).ok()?;
    (!file.is_stdin() && !name.contains(char::is_control)).then_some(name)
}
