//! The numbers of a drawing, in millimetres.

use crate::shown;
use std::borrow::Cow;

/// Which decimal mark a file has, and the row where it was first met: one file has points or commas, and not both.
#[derive(Default)]
pub struct Decimals(Option<(char, usize)>);

/// The numbers of a row.
pub struct Numbers<'a> {
    pub row: usize,
    /// What divides the row's fields. A decimal comma goes with a semicolon alone.
    pub separator: u8,
    pub decimals: &'a mut Decimals,
}

impl Numbers<'_> {
    pub fn real(&mut self, column: &str, text: &str) -> Result<f64, String> {
        self.real_and_micrometres(column, text).map(|(real, _)| real)
    }

    /// Whole micrometres, or none.
    pub fn micrometres(&mut self, column: &str, text: &str) -> Result<Option<i64>, String> {
        Ok(micrometres(&self.plain(column, text)?))
    }

    /// Both of them.
    pub fn real_and_micrometres(&mut self, column: &str, text: &str) -> Result<(f64, Option<i64>), String> {
        let plain = self.plain(column, text)?;
        if let Some(decimal) = Decimal::of(&plain) {
            return Ok((decimal.real(), decimal.micrometres()));
        }
        let real = plain.parse().map_err(|_| format!("{column} {} is no number", shown::quoted(text)))?;
        Ok((real, micrometres(&plain)))
    }

    /// A number with a decimal point.
    fn plain<'t>(&mut self, column: &str, text: &'t str) -> Result<Cow<'t, str>, String> {
        if self.separator != b';' {
            return Ok(text.into());
        }
        let Some(mark) = text.chars().find(|letter| ",.".contains(*letter)) else { return Ok(text.into()) };
        let (first, row) = *self.decimals.0.get_or_insert((mark, self.row));
        match first == mark {
            true => Ok(text.replace(',', ".").into()),
            false => Err(format!(
                "{column} {} has a {}, and row {row} has a {}: one file has one decimal mark",
                shown::quoted(text),
                called(mark),
                called(first)
            )),
        }
    }
}

fn called(mark: char) -> &'static str {
    if mark == ',' {
        "comma"
    } else {
        "point"
    }
}

/// A number of few digits, as nearly all are: its sign, its digits as one whole number, and how many of them stand behind the point.
struct Decimal {
    negative: bool,
    digits: u64,
    behind: usize,
}

impl Decimal {
    /// The most digits that are surely below 2^53, so that a float holds them as they are.
    const MOST: usize = 15;

    fn of(text: &str) -> Option<Decimal> {
        let (negative, rest) = match text.as_bytes() {
            [b'-', rest @ ..] => (true, rest),
            [b'+', rest @ ..] => (false, rest),
            rest => (false, rest),
        };
        let (mut digits, mut point) = (0, None);
        for (at, letter) in rest.iter().enumerate() {
            match letter {
                b'0'..=b'9' => digits = 10 * digits + u64::from(letter - b'0'),
                b'.' if point.is_none() => point = Some(at),
                _ => return None,
            }
            if at > Decimal::MOST {
                return None;
            }
        }
        let count = rest.len() - usize::from(point.is_some());
        let behind = point.map_or(0, |at| rest.len() - at - 1);
        (1..=Decimal::MOST).contains(&count).then_some(Decimal { negative, digits, behind })
    }

    /// The nearest float: both numbers are exact, and the quotient is rounded once.
    fn real(&self) -> f64 {
        let size = self.digits as f64 / TENS[self.behind] as f64;
        if self.negative {
            -size
        } else {
            size
        }
    }

    fn micrometres(&self) -> Option<i64> {
        let size = match self.behind {
            few @ 0..=3 => self.digits * TENS[3 - few],
            more => {
                let past = TENS[more - 3];
                (self.digits % past == 0).then_some(self.digits / past)?
            }
        };
        Some(if self.negative { -(size as i64) } else { size as i64 })
    }
}

/// The powers of ten.
const TENS: [u64; Decimal::MOST + 1] = {
    let mut tens = [1; Decimal::MOST + 1];
    let mut k = 1;
    while k < tens.len() {
        tens[k] = 10 * tens[k - 1];
        k += 1;
    }
    tens
};

/// Millimetres that are whole micrometres: past the third decimal stand zeros alone.
pub fn micrometres(text: &str) -> Option<i64> {
    let (sign, digits) = match text.strip_prefix('-') {
        Some(digits) => (-1, digits),
        None => (1, text.strip_prefix('+').unwrap_or(text)),
    };
    let (whole, part) = digits.split_once('.').unwrap_or((digits, ""));
    let (part, past) = part.split_at_checked(3).unwrap_or((part, ""));
    if whole.is_empty() && part.is_empty() || ![whole, part, past].iter().all(|digits| digits.bytes().all(|digit| digit.is_ascii_digit())) {
        return None;
    }
    if past.bytes().any(|digit| digit != b'0') {
        return None;
    }
    format!("{whole}{part:0<3}").parse::<i64>().ok().map(|size| sign * size)
}

#[cfg(test)]
mod tests {
    use super::*;

    #[test]
    fn whole_micrometres() {
        let whole = [("0", 0), ("12", 12000), ("-12.5", -12500), ("+0.001", 1), (".25", 250), ("7.", 7000), ("-0.0", 0)];
        for (text, due) in whole.into_iter().chain([("20.0000", 20000), ("-1.50000", -1500), (".0010", 1)]) {
            assert_eq!(micrometres(text), Some(due), "{text}");
        }
        for text in
            ["", ".", "-", "1.0005", "1.00000001", "1e3", "nan", "1.2.3", "1.000.", "--1", "9999999999999999999", "1,5", "0x1", "1.é"]
        {
            assert_eq!(micrometres(text), None, "{text}");
        }
    }

    /// Numbers of few digits are those that Rust and the text itself give; others are for these.
    #[test]
    fn few_digits() {
        let both = |text: &str| Numbers { row: 2, separator: b',', decimals: &mut Decimals::default() }.real_and_micrometres("x", text);
        let parts = ["", "0", "00", "1", "20", "999", "000000000000001", "123456789012345", "1234567890123456", "9007199254740993"];
        for (sign, whole) in ["", "-", "+", "--"].iter().flat_map(|sign| parts.map(|whole| (*sign, whole))) {
            let pointed = parts.map(|part| format!("{sign}{whole}.{part}"));
            let scaled = parts.map(|part| format!("{sign}{whole}{part}e5"));
            for text in pointed.into_iter().chain(scaled).chain([format!("{sign}{whole}")]) {
                let due = text.parse::<f64>().map(|real| (real.to_bits(), micrometres(&text)));
                assert_eq!(both(&text).ok().map(|(real, whole)| (real.to_bits(), whole)), due.ok(), "{text}");
            }
        }
        for k in -100_000..100_000 {
            let text = format!("{:.3}", f64::from(k) / 1000.0);
            assert_eq!(both(&text), Ok((text.parse().unwrap(), micrometres(&text))), "{text}");
        }
        for text in ["inf", "nan", "1e3", ".", "1.2.3", "0x1", "1 "] {
            assert_eq!(both(text).is_ok(), text.parse::<f64>().is_ok(), "{text}");
        }
    }

    #[test]
    fn decimal_commas_go_with_semicolons() {
        let mut decimals = Decimals::default();
        let mut real = |separator: u8, row: usize, text: &str| Numbers { row, separator, decimals: &mut decimals }.real("x", text);
        assert_eq!(real(b',', 2, "1,5"), Err("x \"1,5\" is no number".into()));
        assert_eq!(real(b'\t', 2, "1,5"), Err("x \"1,5\" is no number".into()));
        assert_eq!((real(b';', 3, "7"), real(b';', 3, "-1,5"), real(b';', 4, "0,25")), (Ok(7.0), Ok(-1.5), Ok(0.25)));
        assert_eq!(real(b';', 5, "1.5"), Err("x \"1.5\" has a point, and row 3 has a comma: one file has one decimal mark".into()));
        assert_eq!(real(b';', 5, "1,234.5"), Err("x \"1,234.5\" is no number".into()));
        assert_eq!(Numbers { row: 2, separator: b';', decimals: &mut Decimals::default() }.micrometres("x", "1,5"), Ok(Some(1500)));
    }
}
