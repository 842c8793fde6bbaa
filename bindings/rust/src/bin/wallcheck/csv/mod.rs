//! Comma separated values: a heading, then rows. A semicolon or a tab in the heading stands for the comma.

mod rows;
#[cfg(test)]
mod tests;

pub use rows::{row_of_entry, Rows};

use crate::shown;
use std::borrow::Cow;

/// A separator, for a message.
fn spoken(separator: u8) -> &'static str {
    match separator {
        b';' => "a semicolon",
        b'\t' => "a tab",
        _ => "a comma",
    }
}

/// The heading of a text, or that it is empty; and the rows after it.
pub fn headed<'a>(text: &'a str, due: &str) -> Result<(Heading<'a>, Rows<'a>), String> {
    headed_after(0, text, due)
}

/// The same of a part of a file, before which so many other rows stand.
pub fn headed_after<'a>(before: usize, text: &'a str, due: &str) -> Result<(Heading<'a>, Rows<'a>), String> {
    let (mut rows, mut fields) = (Rows::after(before, text), Vec::new());
    match rows.next(&mut fields)? {
        Some(row) => Ok((Heading { row, fields, separator: rows.separator() }, rows)),
        None => Err(format!("is empty; its heading is {due}")),
    }
}

/// The first row of a file.
pub struct Heading<'a> {
    row: usize,
    pub fields: Vec<Cow<'a, str>>,
    pub separator: u8,
}

impl Heading<'_> {
    /// That it is not understood: what it is to be, and what it is.
    pub fn wrong(&self, due: &str) -> String {
        let is = shown::quoted(&self.fields.join(&char::from(self.separator).to_string()));
        format!("row {}: the heading is to be {due}, and it is {is}", self.row)
    }

    /// Where a column stands.
    pub fn place(&self, name: &str) -> Option<usize> {
        self.fields.iter().position(|field| field == name)
    }

    /// That a row has another number of fields.
    pub fn judged(&self, fields: &[Cow<str>]) -> Result<(), String> {
        match fields.len() == self.fields.len() {
            true => Ok(()),
            false => Err(format!("{} fields, and the heading has {}", fields.len(), self.fields.len())),
        }
    }
}

/// A field as it is written.
pub fn quoted(field: &str) -> Cow<'_, str> {
    if field.contains(['"', ',']) {
        return format!("\"{}\"", field.replace('"', "\"\"")).into();
    }
    field.into()
}

/// Puts a number behind a text. Within its caller, so that the text's length does not go through memory from one number to the next.
#[inline]
pub fn put(text: &mut Vec<u8>, number: i64) {
    if number < 0 {
        text.push(b'-');
    }
    let size = number.unsigned_abs();
    if size >= EIGHT {
        return put_long(text, size);
    }
    let digits = eight_digits(size);
    let leading = (digits.trailing_zeros() / 8).min(7);
    // of a size that is known, so that no copy has to ask for it; what is too much is cut off
    text.extend_from_slice(&((digits | ZEROS) >> (8 * leading)).to_le_bytes());
    text.truncate(text.len() - leading as usize);
}

/// The least number of more than eight digits.
const EIGHT: u64 = 100_000_000;

#[cold]
fn put_long(text: &mut Vec<u8>, size: u64) {
    put(text, (size / EIGHT) as i64);
    text.extend_from_slice(&(eight_digits(size % EIGHT) | ZEROS).to_le_bytes());
}

/// Eight zeros as they are written.
const ZEROS: u64 = u64::from_le_bytes(*b"00000000");

/// The digits of a number below 100,000,000, a byte each, the first one lowest: all are worked out at once, by halves.
#[inline]
fn eight_digits(number: u64) -> u64 {
    let fours = number / 10_000 | number % 10_000 << 32;
    let hundreds = fours * 10_486 >> 20 & 0x0000_007F_0000_007F;
    let twos = hundreds | (fours - 100 * hundreds) << 16;
    let tens = twos * 103 >> 10 & 0x000F_000F_000F_000F;
    tens | (twos - 10 * tens) << 8
}
