//! What `docs/SHEET.md` says is so: its worked sheets are read, its table has every refusal, and the header's numbers stand in it.

mod said;

use kressedach::{move_sheet, names, Reason};
use said::wallcheck;
use std::fs;

fn text(path: &str) -> String {
    fs::read_to_string(format!("{}/../../{path}", env!("CARGO_MANIFEST_DIR"))).unwrap()
}

/// The bytes of a line's left side, which two spaces end.
fn bytes(line: &str) -> Vec<u8> {
    let digits: String = line.split("  ").next().unwrap().split(' ').collect();
    (0..digits.len()).step_by(2).map(|k| u8::from_str_radix(&digits[k..k + 2], 16).unwrap()).collect()
}

#[test]
fn the_worked_sheets() {
    let page = text("docs/SHEET.md");
    let sheets: Vec<Vec<u8>> = page.split("```\n").skip(1).step_by(2).map(|block| block.lines().flat_map(bytes).collect()).collect();
    assert_eq!(sheets.len(), 2);
    assert_eq!(names(&sheets[0]), Ok(vec!["Block", "Bore"]));
    assert_eq!(move_sheet(&sheets[0]).as_ref(), Ok(&sheets[1]));
    assert_eq!(fs::read(format!("{}/../../examples/block.sheet", env!("CARGO_MANIFEST_DIR"))).unwrap(), sheets[0]);
    assert!(wallcheck(&["show", "-"], &sheets[1]).1.ends_with("formula\n  Block difference Bore\n"));
}

#[test]
fn the_table_of_refusals() {
    let page = text("docs/SHEET.md");
    let table = page.split("| no. | given when | place |\n|---|---|---|\n").nth(1).unwrap();
    let rows: Vec<&str> = table.lines().take_while(|line| line.starts_with('|')).collect();
    let numbers: Vec<u8> = rows.iter().map(|row| row.split('|').nth(1).unwrap().trim().parse().unwrap()).collect();
    assert!(numbers.iter().copied().eq(1..=20), "{numbers:?}");
    for (row, reason) in rows.iter().zip(Reason::ALL) {
        assert!(row.contains(&format!(" | {} |", reason.meaning())), "{reason:?}: {}\n{row}", reason.meaning());
    }
}

/// The crate's reasons are the header's names, number by number.
#[test]
fn the_header_names_the_reasons() {
    let header = text("bindings/c/kressedach.h");
    let numbers = header.split("enum kressedach_number {").nth(1).unwrap().split("};").next().unwrap();
    let named = |line: &str| {
        let (name, rest) = line.trim().strip_prefix("KRESSEDACH_")?.split_once(" = ")?;
        Some((name.to_string(), rest.split([',', ' ']).next().unwrap().parse().unwrap()))
    };
    let in_c: Vec<(String, u8)> = numbers.lines().filter_map(named).collect();
    let letter = |(at, letter): (usize, char)| match letter.is_uppercase() && at > 0 {
        true => format!("_{letter}"),
        false => letter.to_uppercase().to_string(),
    };
    let name = |reason: &Reason| format!("{reason:?}").chars().enumerate().map(letter).collect::<String>();
    let ours: Vec<(String, u8)> = Reason::ALL.iter().map(|reason| (name(reason), reason.number())).collect();
    assert_eq!(in_c[0], ("GIVEN".into(), 0));
    assert_eq!(in_c[1..], ours);
}

/// The pages that a caller reads point here, and to no document that is not in the repository.
#[test]
fn callers_find_the_page() {
    for page in [
        "README.md",
        "docs/BINDINGS.md",
        "examples/README.md",
        "examples/NEWCOMERS.md",
        "bindings/rust/README.md",
        "bindings/c/kressedach.h",
    ] {
        assert!(text(page).contains("docs/SHEET.md"), "{page}");
    }
    let folder = fs::read_dir(format!("{}/src", env!("CARGO_MANIFEST_DIR"))).unwrap();
    let sources: Vec<String> = folder
        .map(|file| file.unwrap().file_name().into_string().unwrap())
        .filter(|file| file.ends_with(".rs"))
        .map(|file| format!("bindings/rust/src/{file}"))
        .collect();
    assert!(sources.len() > 20, "{sources:?}");
    let pages =
        ["README.md", "examples/README.md", "examples/NEWCOMERS.md", "bindings/rust/README.md", "bindings/c/kressedach.h", "docs/SHEET.md"];
    for page in pages.map(String::from).iter().chain(&sources) {
        let text = text(page);
        assert!(!["ocument 0", "ocuments 0"].iter().any(|word| text.contains(word)), "{page}");
    }
}
