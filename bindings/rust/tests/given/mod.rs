//! The sheets of a call as the comparisons give them, and whether an answer is the one that is due.

use kressedach::Which;
pub use peer::calls::{mostly_good, Given};
use peer::Refused;
use std::fmt::Debug;

/// As the library takes them.
pub trait Ours {
    fn ours(&self) -> kressedach::Sheets<'_>;
}

impl Ours for Given {
    fn ours(&self) -> kressedach::Sheets<'_> {
        kressedach::Sheets { fittings: self.fittings.as_deref(), customers: &self.own }
    }
}

/// The refusal's number, 0 for none, where an answer is the one that is due.
pub fn same<T: PartialEq + Debug>(got: Result<T, kressedach::Refusal>, due: Result<T, &Refused>) -> Result<u8, String> {
    let which = |sheet: Option<Which>| sheet.map_or(0, |which| if which == Which::Fittings { 1 } else { 2 });
    let got = got.map_err(|refusal| (refusal.number(), which(refusal.sheet), refusal.place));
    let due = due.map_err(|refused| (refused.number, refused.sheet, refused.place));
    if got != due {
        return Err(format!("the answer is {got:?}, due is {due:?}"));
    }
    Ok(due.map_or_else(|(number, _, _)| number, |_| 0))
}
