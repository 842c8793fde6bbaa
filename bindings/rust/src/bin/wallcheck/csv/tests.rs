//! Rows with each separator, quoted and not, there and back.

use super::*;

fn all(text: &str) -> Result<Vec<(usize, Vec<String>)>, String> {
    let (mut rows, mut fields, mut all) = (Rows::of(text), Vec::new(), Vec::new());
    while let Some(row) = rows.next(&mut fields)? {
        all.push((row, fields.iter().map(|field| field.to_string()).collect()));
    }
    Ok(all)
}

fn row(number: usize, fields: &[&str]) -> (usize, Vec<String>) {
    (number, fields.iter().map(|field| field.to_string()).collect())
}

#[test]
fn plain_and_quoted() {
    assert_eq!(all("a,b\r\n\n 1 , \"x,\"\"y\" \n"), Ok(vec![row(1, &["a", "b"]), row(3, &["1", "x,\"y"])]));
    assert_eq!(all("\u{FEFF}name\n\"\"\"\"\n,\n\"\",\n"), Ok(vec![row(1, &["name"]), row(2, &["\""]), row(4, &["", ""])]));
    assert_eq!(all("\"a\"\r\n\"b\",\"c\"\r\n"), Ok(vec![row(1, &["a"]), row(2, &["b", "c"])]));
    assert_eq!(all(""), Ok(vec![]));
}

/// What divides the heading divides all rows; the other marks are letters like any.
#[test]
fn each_separator() {
    assert_eq!(all("a;b\n1,5;\"x;\"\"y\"\n"), Ok(vec![row(1, &["a", "b"]), row(2, &["1,5", "x;\"y"])]));
    assert_eq!(all("a\tb\n\t1,5;\n \"x\ty\" \t z \n"), Ok(vec![row(1, &["a", "b"]), row(2, &["", "1,5;"]), row(3, &["x\ty", "z"])]));
    assert_eq!(all("a,b;c\n1;2,3\n"), Ok(vec![row(1, &["a", "b;c"]), row(2, &["1;2", "3"])]));
    assert_eq!(all("\"a,b\";c\n1;2\n"), Ok(vec![row(1, &["a,b", "c"]), row(2, &["1", "2"])]));
    assert_eq!(all("name\na;b\n"), Ok(vec![row(1, &["name"]), row(2, &["a;b"])]));
    assert_eq!(all("a;b\r\n\"1\" 2;3"), Err("row 2: a semicolon is due before \"2;3\"".into()));
}

/// Fields of every length around the eight letters that are looked at together, and letters on both sides of the marks.
#[test]
fn every_length() {
    for separator in [",", ";", "\t"] {
        let fields: Vec<String> = (0..20).map(|length| "-:<0é"[..].chars().cycle().take(length).collect()).collect();
        let line = fields.join(separator);
        let text = format!("a{separator}b\n{line}\n{line}");
        let due: Vec<&str> = fields.iter().map(String::as_str).collect();
        assert_eq!(all(&text), Ok(vec![row(1, &["a", "b"]), row(2, &due), row(3, &due)]), "{separator:?}");
    }
}

/// A spreadsheet's empty rows have their separators.
#[test]
fn empty_rows() {
    assert_eq!(all("a;b\n;\n ; \n;;;\n1;\n"), Ok(vec![row(1, &["a", "b"]), row(5, &["1", ""])]));
    assert_eq!(all(",,,\na,b\n,\n\t\n"), Ok(vec![row(2, &["a", "b"])]));
}

#[test]
fn wrong() {
    assert_eq!(all("\"a"), Err("row 1: a quotation mark that is not closed".into()));
    assert_eq!(all("a\n\"a\"b"), Err("row 2: a comma is due before \"b\"".into()));
    assert!(all("5\"").unwrap_err().starts_with("row 1: a quotation mark within \"5\\\"\""));
}

/// Whatever name there is comes back as it was written.
#[test]
fn there_and_back() {
    for name in ["Port", "a,b", "\"", "\"\"", "\"a\"", ",", "''", "a\"b,c"] {
        assert_eq!(all(&quoted(name)), Ok(vec![row(1, &[name])]), "{name}");
    }
}

#[test]
fn numbers() {
    // every number of four digits, and around every power of ten; these are what eight digits at once are made of
    let tens = (0..19).map(|power| 10i64.pow(power)).flat_map(|ten| [ten - 1, ten, ten + 1, -ten, 9 * ten]);
    let fours = (0..10_000).flat_map(|four| [four, 10_000 * four, 12_340_000 + four]);
    let ends = [0, 7, -1, 4294967295, i64::from(i32::MIN), -100, i64::MAX, i64::MIN];
    for number in ends.into_iter().chain(tens).chain(fours) {
        let mut text = b"a".to_vec();
        put(&mut text, number);
        assert_eq!(text, format!("a{number}").into_bytes());
    }
}

#[test]
fn rows_of_entries() {
    let text = "name\n\nA\n  \nB\nC\n";
    assert_eq!([0, 1, 2].map(|index| row_of_entry(text, index)), [3, 5, 6]);
    let text = "line;name\n;\n1;A\n ;; \n1;B\n";
    assert_eq!([0, 1].map(|index| row_of_entry(text, index)), [3, 5]);
}
