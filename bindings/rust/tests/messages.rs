//! What the command says of what is wrong: the file, the reason, text that cannot pass for something else.

mod said;

use peer::make::{fittings, sheet, sheet_first};
use said::{answered, file, refused, refused_of, unreadable, wallcheck};
use std::ffi::OsStr;
use std::os::unix::ffi::OsStrExt;

/// Refusal 7 says which of its reasons it is.
#[test]
fn why_a_formula_is_wrong() {
    let names = ["A", "B", "C", "D", "E"];
    let wrong =
        |place: usize, why: &str| refused(&format!("refused 7 at byte {place} of the customer's sheet: the formula is wrong\n  {why}"));
    let read = |codes: &[u16]| wallcheck(&["read", "-"], &sheet(&names, codes));
    assert_eq!(read(&[0, 5]), wrong(30, "the code there is shape 5, and the last is 4; is '--fittings FILE' missing?"));
    assert_eq!(read(&[256]), wrong(28, "there is no such code as 0x0100"));
    assert_eq!(read(&[0xFFF4]), wrong(28, "there is no such code as 0xFFF4"));
    let few = |operands: usize| format!("with fewer than two operands before it: {operands} (formulas are postfix)");
    assert_eq!(read(&[0xFFF0, 0, 1]), wrong(28, &format!("the code there is union, {}", few(0))));
    assert_eq!(read(&[0, 0xFFF3]), wrong(30, &format!("the code there is exclusive union, {}", few(1))));
    assert_eq!(read(&[0, 1, 0xFFF0, 0xFFF2]), wrong(34, &format!("the code there is difference, {}", few(1))));
    assert_eq!(read(&[0, 1, 2, 0xFFF0]), wrong(25, "its end leaves 2 operands, and not one: an operation is missing"));
    assert_eq!(read(&[]), wrong(25, "it has no code; each has two bytes"));
    let mut odd = sheet(&names, &[0]);
    (odd[27], _) = (3, odd.push(0));
    assert_eq!(wallcheck(&["read", "-"], &odd), wrong(25, "it has 3 bytes, and each code has two"));

    let first = |codes: &[u16]| wallcheck(&["read", "-"], &sheet_first(&names, codes));
    assert_eq!(first(&[0xFFF0, 0, 5]), wrong(32, "the code there is shape 5, and the last is 4; is '--fittings FILE' missing?"));
    assert_eq!(first(&[0xFFF0, 0, 1, 2]), wrong(34, "the formula is complete before the code there"));
    assert_eq!(first(&[0, 0xFFF1]), wrong(30, "the formula is complete before the code there"));
    let ends = "it ends before its operations have two operands each (in edition 2 they stand after it)";
    assert_eq!(first(&[0xFFF0, 0]), wrong(25, ends));

    // the fittings' names count
    let lugs = file("messages-lugs.sheet", &fittings(&["Lug", "Boss"]));
    let beside = wallcheck(&["read", "--fittings", &lugs, "-"], &sheet(&["Plate"], &[3]));
    assert_eq!(beside, wrong(16, "the code there is shape 3, and the last is 2; are these the fittings that it was made beside?"));
}

/// The file that is at fault, of all that a command takes.
#[test]
fn which_file() {
    let (good, bad) = (file("which.sheet", &sheet(&["A"], &[0])), file("which-bad.sheet", b"\x01"));
    let (lugs, toggles) = (file("which-lugs.sheet", &fittings(&["Lug"])), file("which.csv", b"shape\n7\n"));
    let soon = |whose: &str| format!("refused 1 at byte 1 of the {whose} sheet: the sheet ends too soon");
    assert_eq!(wallcheck(&["run", &bad, &toggles], b""), refused_of(&bad, &soon("customer's")));
    assert_eq!(wallcheck(&["run", "--fittings", &bad, &good, &toggles], b""), refused_of(&bad, &soon("fittings")));
    assert_eq!(wallcheck(&["run", "--fittings", &lugs, &bad, &toggles], b""), refused_of(&bad, &soon("customer's")));
    let shape = "refused 10 at entry 0: a shape number that no name has\n  row 2: shape 7, and the last one is 1";
    assert_eq!(wallcheck(&["run", "--fittings", &lugs, &good, &toggles], b""), refused_of(&toggles, shape));
}

#[test]
fn echoed_text_is_escaped_and_cut() {
    let path = file("echoed.sheet", &sheet(&["A"], &[0]));
    let said = |list: &str| wallcheck(&["run", &path, "-"], list.as_bytes()).2;
    let heading = "wallcheck: standard input: row 1: the heading is to be name or shape, and it is ";
    assert_eq!(said("line;position;name\n1;2;A\n"), format!("{heading}\"line;position;name\"\n"));
    assert_eq!(said("line\tname\n"), format!("{heading}\"line\\tname\"\n"));
    assert_eq!(said("\u{1b}[2J\n"), format!("{heading}\"\\u{{1b}}[2J\"\n"));
    assert_eq!(said(&"x".repeat(100_000)), format!("{heading}\"{}\"...\n", "x".repeat(60)));
    for list in [
        format!("name\n{}", "x".repeat(70_000)),
        format!("shape\n{}", "9".repeat(70_000)),
        format!("name\n\"A\"{}", "\u{7}".repeat(70_000)),
    ] {
        assert!(said(&list).len() < 700, "{}", said(&list));
        assert!(!said(&list).contains('\u{7}'));
    }
    let (_, _, said) = wallcheck(&["re\nad", "-"], b"");
    assert_eq!(said, "wallcheck: there is no command 're\\nad'\nTry 'wallcheck --help'.\n");
}

#[test]
fn file_names_that_are_no_text() {
    let name = OsStr::from_bytes(b"not-\xFF-text\n.sheet");
    let path = std::path::Path::new(env!("CARGO_TARGET_TMPDIR")).join(name);
    std::fs::write(&path, sheet(&["A"], &[0])).unwrap();
    let [read, dash] = ["read", "-"].map(OsStr::new);
    assert_eq!(wallcheck(&[read, path.as_os_str()], b""), answered("names,leaves,first,past\n1,1,12,14\n"));
    let shown = format!("{}/not-\\xFF-text\\n.sheet", env!("CARGO_TARGET_TMPDIR"));
    let soon = refused_of(&shown, "refused 1 at byte 0 of the customer's sheet: the sheet ends too soon");
    std::fs::write(&path, b"").unwrap();
    assert_eq!(wallcheck(&[read, path.as_os_str()], b""), soon);
    std::fs::remove_file(&path).unwrap();
    assert_eq!(wallcheck(&[read, path.as_os_str()], b""), unreadable(&format!("{shown}: No such file or directory (os error 2)")));
    assert_eq!(wallcheck(&[read, dash], &sheet(&["A"], &[0])).0, Some(0));
}

/// A wrong entry late in a long list, beside a sheet with many names.
#[test]
fn a_late_fault_among_many_names() {
    let names: Vec<String> = (0..256).map(|k| format!("n{k}")).collect();
    let path = file("late.sheet", &sheet(&names, &[0]));
    let mut list = String::from("line,position,name\n");
    (0..400_000).for_each(|k| list += &format!("{k},5,n{}\n", k % 256));
    list += "400000,5,N7\n";
    let said = wallcheck(&["walls", &path, "-"], list.as_bytes());
    assert_eq!(said, refused("refused 10 at entry 400000: a shape number that no name has\n  row 400002: the sheet has no name \"N7\"; there is n7; names are compared letter by letter"));
}
