//! The sheets of a check: a page of text, which names its fittings, or a sheet of which it is said whether it has any.

use crate::asked::Asked;
use crate::beside::{is_sheet, Fittings};
use crate::files::{Files, Source};
use crate::page::names_fittings;
use crate::page_jobs::Written;
use crate::stop::Stop;

/// A customer's sheet, and its fittings.
pub struct Given<'a> {
    page: Source<'a>,
    fittings: Option<Fittings>,
    sheet: Vec<u8>,
}

impl<'a> Given<'a> {
    pub fn of(asked: &Asked<'a>) -> Result<Given<'a>, Stop> {
        let (page, fittings, alone) = (asked.file(0), asked.source("--fittings"), asked.has("--alone"));
        if alone && fittings.is_some() {
            return Err(Stop::Usage("'--alone' says that there are no fittings, and '--fittings' names some".into()));
        }
        let bytes = page.whole()?;
        if is_sheet(&bytes) {
            if !alone && fittings.is_none() {
                let unknown = format!("{} is a sheet, whose bytes do not say whether it was made beside fittings", page.shown());
                return Err(Stop::Usage(format!("{unknown}: '--fittings FILE' names them, '--alone' says that there are none")));
            }
            let fittings = fittings.map(|fittings| Fittings::read(fittings.0)).transpose()?;
            return Ok(Given { page, fittings, sheet: bytes });
        }
        let text = page.text_of(bytes)?;
        if alone && names_fittings(&text).is_some() {
            return Err(Stop::Usage(format!("{} names its fittings, and '--alone' says that there are none", page.shown())));
        }
        let fittings = Fittings::of_page(page, &text, fittings)?;
        let written = Written::of(page, &text, fittings.as_ref())?;
        let formula = written.page.formula.as_ref().ok_or_else(|| page.wrong("has no formula: nothing says where there is metal"))?;
        let sheet = written.sheet(formula, None)?;
        Ok(Given { page, fittings, sheet })
    }

    pub fn files(&self) -> Files<'_> {
        Files::holding(self.fittings.as_ref().map(Fittings::parts), (self.page, &self.sheet))
    }
}
