//! The rows of a text, and the fields of a row.

use super::Heading;
use crate::faults::Faults;
use crate::shown;
use std::borrow::Cow;

/// Goes through the rows of a text that are not empty. A mark at the front that some programs write is skipped.
pub struct Rows<'a> {
    rest: &'a str,
    /// The number of the row before, from 1.
    number: usize,
    separator: u8,
}

impl<'a> Rows<'a> {
    pub fn of(text: &'a str) -> Rows<'a> {
        Rows::after(0, text)
    }

    /// The rows of a part of a file, before which so many others stand.
    pub fn after(number: usize, text: &'a str) -> Rows<'a> {
        let rest = text.strip_prefix('\u{FEFF}').unwrap_or(text);
        Rows { rest, number, separator: separator(rest) }
    }

    pub fn separator(&self) -> u8 {
        self.separator
    }

    /// The next row's number in the file, from 1; its fields take the place of those that were there, so that no row needs memory of its own.
    pub fn next(&mut self, fields: &mut Vec<Cow<'a, str>>) -> Result<Option<usize>, String> {
        while !self.rest.is_empty() {
            fields.clear();
            self.number += 1;
            let (length, quoted) = match self.separator {
                b';' => unquoted::<b';'>(self.rest, fields),
                b'\t' => unquoted::<b'\t'>(self.rest, fields),
                _ => unquoted::<b','>(self.rest, fields),
            };
            if quoted {
                fields.clear();
                let line = self.rest.split('\n').next().unwrap_or_default();
                self.rest = &self.rest[(line.len() + 1).min(self.rest.len())..];
                quoted_too(line, self.separator, fields).map_err(|wrong| format!("row {}: {wrong}", self.number))?;
            } else {
                self.rest = &self.rest[length..];
            }
            // a spreadsheet's empty row has its separators
            if quoted || !fields[0].is_empty() || fields.iter().any(|field| !field.is_empty()) {
                return Ok(Some(self.number));
            }
        }
        Ok(None)
    }

    /// Takes every row that has as many fields as the heading, and gathers what is wrong with the others.
    pub fn each(mut self, heading: &Heading, mut take: impl FnMut(usize, &[Cow<'a, str>]) -> Result<(), String>) -> Result<(), Faults> {
        let (mut fields, mut faults) = (Vec::new(), Faults::default());
        loop {
            let wrong = match self.next(&mut fields) {
                Ok(None) => return faults.or(()),
                Ok(Some(row)) => match heading.judged(&fields).and_then(|()| take(row, &fields)) {
                    Ok(()) => continue,
                    Err(wrong) => format!("row {row}: {wrong}"),
                },
                Err(wrong) => wrong,
            };
            if !faults.add(wrong) {
                return Err(faults);
            }
        }
    }
}

/// Which row of a text has its entry of this index, after the heading. A list does not keep its rows: they are counted where one is wrong.
pub fn row_of_entry(text: &str, index: usize) -> usize {
    let rows = Rows::of(text);
    let empty = |line: &str| line.chars().all(|letter| letter == char::from(rows.separator) || letter.is_whitespace());
    let lines = rows.rest.lines().enumerate().filter(|(_, line)| !empty(line));
    lines.skip(index + 1).map(|(number, _)| number + 1).next().unwrap_or_default()
}

/// What divides the fields: the first of comma, semicolon and tab in the first row that is not empty, outside quotation marks.
fn separator(text: &str) -> u8 {
    let heading = text.lines().find(|line| !line.trim().is_empty()).unwrap_or_default();
    let mut within = false;
    let outside = heading.trim_end().bytes().filter(|letter| {
        within ^= *letter == b'"';
        !within
    });
    outside.into_iter().find(|letter| b",;\t".contains(letter)).unwrap_or(b',')
}

/// The fields of the first line of a text, up to a quotation mark; how many bytes the line has with its end, and whether there is one.
fn unquoted<'a, const SEPARATOR: u8>(text: &'a str, fields: &mut Vec<Cow<'a, str>>) -> (usize, bool) {
    let letters = text.as_bytes();
    let (mut from, mut at) = (0, 0);
    while at < letters.len() {
        let mut marks = marks::<SEPARATOR>(&letters[at..]);
        while marks != 0 {
            let here = at + marks.trailing_zeros() as usize / 8;
            marks &= marks - 1;
            match letters[here] {
                mark if mark == SEPARATOR => {
                    fields.push(trimmed(&text[from..here]).into());
                    from = here + 1;
                }
                b'\n' => {
                    fields.push(trimmed(&text[from..here]).into());
                    return (here + 1, false);
                }
                b'"' => return (here, true),
                _ => {}
            }
        }
        at += 8;
    }
    fields.push(trimmed(&text[from..]).into());
    (letters.len(), false)
}

/// The first eight letters, the high bit of each that is set where it is a separator, a quotation mark or a line's end, and may be where it
/// is another below these or just above.
fn marks<const SEPARATOR: u8>(letters: &[u8]) -> u64 {
    const ONES: u64 = 0x0101_0101_0101_0101;
    let eight = letters.first_chunk().copied().unwrap_or_else(|| {
        let mut last = [0xFF; 8];
        last[..letters.len()].copy_from_slice(letters);
        last
    });
    let eight = u64::from_le_bytes(eight);
    // a comma is above all other marks, and below digits and letters; a semicolon is not
    let most = if SEPARATOR == b';' { b'"' } else { b',' };
    let mut marks = eight.wrapping_sub(ONES * u64::from(most + 1)) & !eight;
    if SEPARATOR == b';' {
        let others = eight ^ (ONES * u64::from(b';'));
        marks |= others.wrapping_sub(ONES) & !others;
    }
    marks & (ONES * 0x80)
}

/// Without blanks on either side; most fields have none.
fn trimmed(field: &str) -> &str {
    match field.as_bytes() {
        [b'!'..=b'~'] | [b'!'..=b'~', .., b'!'..=b'~'] => field,
        _ => field.trim(),
    }
}

fn quoted_too<'a>(line: &'a str, separator: u8, fields: &mut Vec<Cow<'a, str>>) -> Result<(), String> {
    let mut rest = Some(line);
    while let Some(line) = rest {
        let (field, after) = field(line, separator)?;
        fields.push(field);
        rest = after;
    }
    Ok(())
}

/// The first field, and what stands after its separator, if it has one.
fn field(line: &str, separator: u8) -> Result<(Cow<'_, str>, Option<&str>), String> {
    let mark = char::from(separator);
    let line = line.trim_start_matches(|letter: char| letter != mark && letter.is_whitespace());
    let Some(inner) = line.strip_prefix('"') else {
        let (field, after) = line.split_once(mark).map_or((line, None), |(field, after)| (field, Some(after)));
        if field.contains('"') {
            let field = shown::quoted(field.trim());
            return Err(format!("a quotation mark within {field}: put the field in quotation marks, and double the one inside"));
        }
        return Ok((field.trim_end().into(), after));
    };
    let mut end = 0;
    loop {
        end += inner[end..].find('"').ok_or("a quotation mark that is not closed")?;
        if !inner[end + 1..].starts_with('"') {
            break;
        }
        end += 2;
    }
    let after = inner[end + 1..].trim_start_matches(|letter: char| letter != mark && letter.is_whitespace());
    match (after.is_empty(), after.strip_prefix(mark)) {
        (false, None) => Err(format!("{} is due before {}", super::spoken(separator), shown::quoted(after.trim_end()))),
        (_, after) => Ok((inner[..end].replace("\"\"", "\"").into(), after)),
    }
}
