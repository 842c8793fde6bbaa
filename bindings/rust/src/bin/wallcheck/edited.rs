//! The formula of a sheet after edits that are made at once.

use crate::edits::{changes, of_edit};
use crate::files::{Files, Source};
use crate::stop::Stop;
use kressedach::{encode, encode_beside, run_edited, Formula, Operation};

/// The formula of the sheets as EDITS make it. The library judges the edits: they are those of a run without toggles.
pub fn formula(files: &Files, edits: Source) -> Result<Formula, Stop> {
    let text = edits.text()?;
    let names = files.names()?;
    let list = changes(&text, false).map_err(|wrong| edits.wrong(wrong))?;
    run_edited(files.sheets(), &[], &list.entries)
        .map_err(|refusal| files.refused_or(edits, refusal, of_edit(files, &names, &list, refusal, 0)))?;
    let (_, formula) = kressedach::formula(files.sheets()).map_err(|refusal| files.refused(refusal))?;
    let mut codes = formula.codes().to_vec();
    for edit in &list.entries {
        codes[usize::from(edit.position)] = edit.code;
    }
    Ok(of_codes(&codes))
}

/// The sheets with their formula edited: the customer's sheet in its own edition.
pub fn files<'a>(files: Files<'a>, edits: Source) -> Result<Files<'a>, Stop> {
    let formula = formula(&files, edits)?;
    let names = files.names()?;
    let (edition, _) = kressedach::formula(files.sheets()).map_err(|refusal| files.refused(refusal))?;
    let sheet = match files.sheets().fittings {
        Some(fittings) => {
            let fitted = kressedach::read_fittings(fittings).map_or(0, |names| names.len());
            encode_beside(fittings, &names[fitted..], &formula, edition)
        }
        None => encode(&names, &formula, edition),
    };
    let sheet = sheet.map_err(|refusal| files.refused(refusal))?;
    Ok(files.with(sheet))
}

/// The formula of codes in postfix order that the library has judged.
fn of_codes(codes: &[u16]) -> Formula {
    let mut waiting: Vec<Formula> = Vec::new();
    for code in codes {
        let formula = match Operation::of_code(*code) {
            None => Formula::shape(*code as u8),
            Some(operation) => {
                let right = waiting.pop().unwrap_or(Formula::shape(0));
                waiting.pop().unwrap_or(Formula::shape(0)).with(operation, right)
            }
        };
        waiting.push(formula);
    }
    waiting.pop().unwrap_or(Formula::shape(0))
}

#[cfg(test)]
mod tests {
    use super::*;
    use peer::make::{self, Dice, Form};

    #[test]
    fn the_same_codes_again() {
        for case in 0..400 {
            let mut dice = Dice::of(36, case);
            let (names, leaves, form) = (dice.size(256), dice.size(1024), dice.of_these(&Form::ALL));
            let codes = make::codes(&mut dice, names, leaves, form);
            assert_eq!(of_codes(&codes).codes(), codes, "case {case}");
        }
    }
}
