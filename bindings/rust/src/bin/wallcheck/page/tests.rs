//! Pages there and back, in both editions and beside fittings, and what is wrong with a page.

use super::*;
use kressedach::{encode, encode_beside, encode_fittings, names, read_fittings, Sheets};
use peer::make::{self, Dice, Form};

/// The page of a sheet, and what is made of it again.
fn there_and_back(fittings: Option<&[u8]>, sheet: &[u8]) -> Result<(), String> {
    let sheets = Sheets { fittings, customers: sheet };
    let (edition, formula) = kressedach::formula(sheets).map_err(|refusal| refusal.to_string())?;
    let names = names(sheets).map_err(|refusal| refusal.to_string())?;
    let fitted = fittings.map_or(vec![], |fittings| read_fittings(fittings).unwrap());
    assert_eq!(names[..fitted.len()], fitted[..]);
    let beside = fittings.map(|_| "lugs (2).sheet");
    for positions in [false, true] {
        let text = sheet_page(&Shown { edition, names: &names, fittings: fitted.len(), beside, formula: &formula, positions });
        let page = read(&text, &fitted).map_err(|wrong| format!("{wrong:?}\n{text}"))?;
        let own: Vec<&str> = page.names.iter().map(|(name, _)| name.as_str()).collect();
        let (formula, edition) = (page.formula.ok_or("no formula")?, page.edition.ok_or("no edition")?);
        let back = match fittings {
            Some(fittings) => encode_beside(fittings, &own, &formula, edition),
            None => encode(&own, &formula, edition),
        };
        if back != Ok(sheet.to_vec()) || names_fittings(&text).as_deref() != beside {
            return Err(format!("{back:?}\n{text}"));
        }
    }
    Ok(())
}

/// The same formula in edition 2, exclusive unions too.
fn first(fittings: Option<&[u8]>, own: &[Vec<u8>], sheet: &[u8]) -> Vec<u8> {
    let (_, formula) = kressedach::formula(Sheets { fittings, customers: sheet }).unwrap();
    make::sheet_first(own, &formula.codes_first())
}

#[test]
fn random_sheets_there_and_back() {
    for case in 0..4000 {
        let mut dice = Dice::of(27, case);
        let count = dice.size(256);
        let (longest, leaves, form) = (dice.size(32), dice.size(1024), dice.of_these(&Form::ALL));
        let all = make::names(&mut dice, count, longest);
        let codes = make::codes(&mut dice, count, leaves, form);
        let split = if dice.once_in(2) { 0 } else { dice.below(count) };
        let (fitted, own) = all.split_at(split);
        let beside = (split > 0).then(|| make::fittings(fitted));
        let sheet = make::sheet(own, &codes);
        for sheet in [first(beside.as_deref(), own, &sheet), sheet] {
            there_and_back(beside.as_deref(), &sheet).unwrap_or_else(|wrong| panic!("case {case}: {wrong}"));
        }
        if let Some(beside) = beside {
            let names = read_fittings(&beside).unwrap();
            let page = read(&fittings_page(&names), &[]).unwrap();
            let own: Vec<&str> = page.names.iter().map(|(name, _)| name.as_str()).collect();
            assert_eq!((page.formula, encode_fittings(&own)), (None, Ok(beside)), "case {case}");
        }
    }
}

/// All 256 fittings there can be; every letter a name may have, by itself and among others; every word.
#[test]
fn names_that_have_to_be_quoted() {
    let letters: Vec<String> = ('!'..='~').map(String::from).collect();
    let among: Vec<String> = ('!'..='~').map(|letter| format!("a{letter}b")).collect();
    let words = [
        "edition",
        "formula",
        "union",
        "intersection",
        "difference",
        "exclusive",
        "Union",
        "formula:",
        "#a",
        "a#",
        "(",
        "\"\"",
        "a\"",
        "edition1",
        "fittings",
        "Fittings:",
    ];
    let all: Vec<&str> = letters.iter().chain(&among).map(String::as_str).chain(words.into_iter().filter(|word| *word != "(")).collect();
    let codes: Vec<u16> = (0..all.len() as u16).flat_map(|shape| [Some(shape), (shape > 0).then_some(0xFFF0)]).flatten().collect();
    there_and_back(None, &make::sheet(&all, &codes)).unwrap();
    let page = read(&fittings_page(&all), &[]).unwrap();
    assert!(page.names.iter().map(|(name, _)| name).eq(&all));
    let most: Vec<String> = (0..256).map(|k| format!("n{k}")).collect();
    assert_eq!(read(&most.join("\n"), &[]).unwrap().names.len(), 256);
}

fn codes(formula: &str) -> Vec<u16> {
    let page = format!("A\nB\nC\nD\nformula {formula}");
    read(&page, &[]).unwrap_or_else(|wrong| panic!("{formula}: {wrong:?}")).formula.unwrap().codes().to_vec()
}

#[test]
fn formulas() {
    let (union, intersection, difference, exclusive) = (0xFFF0, 0xFFF1, 0xFFF2, 0xFFF3);
    assert_eq!(codes("A"), [0]);
    assert_eq!(codes("((A))"), [0]);
    assert_eq!(codes("A union B"), [0, 1, union]);
    assert_eq!(codes("A intersection B exclusive C".split_at(16).0), [0, 1, intersection]);
    assert_eq!(codes("A difference B difference C"), [0, 1, difference, 2, difference]);
    assert_eq!(codes("A difference (B difference C)"), [0, 1, 2, difference, difference]);
    assert_eq!(codes("(A union B)exclusive(C intersection D)"), [0, 1, union, 2, 3, intersection, exclusive]);
    assert_eq!(codes("(A\n  union B) # a remark\r\n\tdifference D"), [0, 1, union, 3, difference]);
}

fn wrong(page: &str) -> String {
    read(page, &["Lug"]).map_or_else(|wrong| wrong.told().unwrap_or_default(), |page| format!("{page:?}"))
}

#[test]
fn wrong_names() {
    let long = "N".repeat(33);
    let most: String = (0..256).map(|k| format!("n{k}\n")).collect();
    let due = "a shape's name or the word formula is due";
    for (page, due) in [
        ("", "line 1, column 1: a shape's name is due, and the page ends".to_string()),
        ("# nothing\n\n", "line 1, column 1: a shape's name is due, and the page ends".into()),
        ("formula A", "line 1, column 1: a shape's name is due before the formula".into()),
        ("A\nunion\n", format!("line 2, column 1: {due}, and the word union stands here; a name that is a word stands in quotation marks")),
        ("A\n (\n", format!("line 2, column 2: {due}, and ( stands here")),
        ("A\nBolt hole\nformula A", "line 2, column 6: the end of the line is due after a name, and \"hole\" stands here; names have no spaces".into()),
        ("A\nA\nformula A", "line 2, column 1: A is taken already, on line 1".into()),
        ("Lug\nformula Lug", "line 1, column 1: Lug is taken already, in the fittings sheet".into()),
        (&long, format!("line 1, column 1: \"{long}\" has 33 letters; 32 are the most")),
        ("\"\"\n", "line 1, column 1: a name has one letter at least".into()),
        ("Bö\n", "line 1, column 1: \"Bö\" has \"ö\"; names have letters, digits and signs from ! to ~ alone".into()),
        ("\"a b\"\n", "line 1, column 1: \"a b\" has \" \"; names have letters, digits and signs from ! to ~ alone".into()),
        ("a\u{a0}\n", "line 1, column 1: \"a\\u{a0}\" has \"\\u{a0}\"; names have letters, digits and signs from ! to ~ alone".into()),
        ("  \"a\n", "line 1, column 3: a quotation mark that is not closed on its line".into()),
        ("\"a\"b\n", "line 1, column 4: a space is due after the quotation mark".into()),
        ("5\"\n", "line 1, column 1: \"5\\\"\": put the name in quotation marks, and double those inside".into()),
        (&most, "line 256, column 1: a name more than 256, which is the most".into()),
        ("A\nFormula: A", "line 2, column 1: \"Formula:\" is nearly the word formula, which has small letters and no colon; a name stands in quotation marks".into()),
        ("edition\nA", "line 1, column 1: 1 or 2 is due after the word edition".into()),
        ("edition 3\nA", "line 1, column 9: 1 or 2 is due after the word edition, and \"3\" stands here".into()),
        ("edition 2 A", "line 1, column 11: the end of the line is due after the edition, and \"A\" stands here".into()),
        (
            "edition 2\nA",
            "line 2, column 2: the word formula is due: a page without one makes a fittings sheet, and that has edition 1".into(),
        ),
    ] {
        assert_eq!(wrong(page), due, "{page}");
    }
}

#[test]
fn wrong_formulas() {
    let leaves = "A union ".repeat(1024) + "A";
    let operation = "union, intersection, difference, exclusive or";
    for (formula, due) in [
        ("", "1, and the page ends".replace('1', "line 3, column 8: a shape's name or ( is due")),
        ("A union", "line 3, column 16: a shape's name or ( is due, and the page ends".to_string()),
        ("A B", format!("line 3, column 11: {operation} the end is due, and \"B\" stands here")),
        ("(A B)", format!("line 3, column 12: {operation} ) is due, and \"B\" stands here")),
        (
            "A Union B",
            "line 3, column 11: \"Union\" is nearly the word union, which has small letters and no colon; a name stands in quotation marks"
                .into(),
        ),
        ("A - B", format!("line 3, column 11: {operation} the end is due, and \"-\" stands here")),
        (
            "union A",
            "line 3, column 9: a shape's name or ( is due, and the word union stands here; a name that is a word stands in quotation marks"
                .into(),
        ),
        ("A union )", "line 3, column 17: a shape's name or ( is due, and ) stands here".into()),
        ("A)", "line 3, column 10: a ) that closes nothing".into()),
        ("((A)", "line 3, column 9: a ( that is not closed".into()),
        ("A (B)", format!("line 3, column 11: {operation} the end is due, and ( stands here")),
        (
            "A union B difference A",
            "line 3, column 19: difference after union: brackets are due, to say which of the two comes first".into(),
        ),
        (
            "(A union B) difference A\n union B",
            "line 4, column 2: union after difference: brackets are due, to say which of the two comes first".into(),
        ),
        ("a", "line 3, column 9: there is no shape \"a\"; there is A; names are compared letter by letter".into()),
        ("A union LUG", "line 3, column 17: there is no shape \"LUG\"; there is Lug; names are compared letter by letter".into()),
        ("A union Port", "line 3, column 17: there is no shape \"Port\"; names are compared letter by letter".into()),
        (&leaves, "line 3, column 8201: a leaf more than 1024, which is the most".into()),
    ] {
        assert_eq!(wrong(&format!("A\nB\nformula {formula}")), due, "{formula}");
    }
    // brackets as deep as memory
    assert!(wrong(&format!("A\nformula {}", "(".repeat(1_000_000))).ends_with("a shape's name or ( is due, and the page ends"));
    let deep = format!("A\nformula {}A{}", "(".repeat(1_000_000), ")".repeat(1_000_000));
    assert_eq!(read(&deep, &[]).unwrap().formula.unwrap().codes(), [0]);
}

#[test]
fn what_the_formula_never_uses() {
    let formula = Formula::shape(0).difference(Formula::shape(3));
    assert_eq!(unused(&formula, 5), [1, 2, 4]);
    let names = ["Lug", "Boss", "Plate", "Bore", "Bolt"];
    let shown = Shown { edition: Edition::One, names: &names, fittings: 2, beside: Some("lugs.txt"), formula: &formula, positions: false };
    let page = sheet_page(&shown);
    assert!(page.starts_with(
        "# beside a fittings sheet with the names Lug Boss\nedition 1\nfittings lugs.txt\nPlate\nBore\nBolt\n\nformula\n  Lug difference Bore\n"
    ));
    assert!(page.ends_with("\n# the formula never uses Boss Plate Bolt\n"), "{page}");
    assert!(page.lines().all(|line| line.len() <= 78));
}

/// Behind each operation its position among the codes in postfix order, in a page that makes the same sheet.
#[test]
fn positions() {
    let leaf = Formula::shape;
    let formula = leaf(0).union(leaf(1)).difference(leaf(2).exclusive(leaf(1)));
    let (names, edition) = (["Body", "Lug", "Bore"], Edition::Two);
    let page = sheet_page(&Shown { edition, names: &names, fittings: 0, beside: None, formula: &formula, positions: true });
    let due = "  (Body union      # position 2\n  Lug) difference  # position 6\n  (Bore exclusive  # position 5\n  Lug)\n";
    assert_eq!(page, format!("edition 2\nBody\nLug\nBore\n\nformula\n{due}"));
    assert_eq!(read(&page, &[]).unwrap().formula, Some(formula));
}

#[test]
fn fittings_that_a_page_names() {
    let beside = |page: &str| {
        read(page, &["Lug"]).map(|read| (names_fittings(page), read.names.len())).map_err(|wrong| wrong.told().unwrap_or_default())
    };
    for (page, due) in [
        ("fittings lugs.txt\nA\nformula A", (Some("lugs.txt"), 1)),
        ("# a remark\nedition 2\n\n  fittings \"my \"\"lugs\"\".txt\"  # another\nA\nformula A", (Some("my \"lugs\".txt"), 1)),
        ("fittings\nA\nformula fittings union A", (None, 2)),
        ("fittings lugs\nfittings\nformula fittings", (Some("lugs"), 1)),
        ("edition 1\nA\nfittings\nformula fittings", (None, 2)),
    ] {
        assert_eq!(beside(page), Ok((due.0.map(String::from), due.1)), "{page}");
        assert_eq!(names_fittings(page).as_deref(), due.0, "{page}");
    }
    let end = "the end of the line is due after";
    let quoted = "a name with a space or a bracket stands in quotation marks";
    let nearly = "the line fittings FILE has small letters, no colon, and stands before the names";
    for (page, due) in [
        ("fittings my lugs.txt\nA\n", format!("line 1, column 13: {end} the file of the fittings, and \"lugs.txt\" stands here; {quoted}")),
        ("fittings a(2)\nA\n", format!("line 1, column 11: {end} the file of the fittings, and ( stands here; {quoted}")),
        ("fittings (a)\nA\n", format!("line 1, column 10: a file's name is due after the word fittings, and ( stands here; {quoted}")),
        ("fittings \"\"\nA\n", "line 1, column 10: a file's name is due after the word fittings".into()),
        ("A\nfittings lugs.txt\n", format!("line 2, column 10: {end} a name like fittings, and \"lugs.txt\" stands here; {nearly}")),
        ("Fittings: lugs.txt\nA\n", format!("line 1, column 11: {end} a name like fittings, and \"lugs.txt\" stands here; {nearly}")),
        ("\"fittings\" lugs.txt\nA\n", format!("line 1, column 12: {end} a name like fittings, and \"lugs.txt\" stands here; {nearly}")),
    ] {
        assert_eq!(beside(page), Err(due), "{page}");
        assert_eq!(names_fittings(page), None);
    }
}

#[test]
fn exclusive_unions_have_two_spellings() {
    assert_eq!(codes("A exclusive union B exclusive C"), codes("A exclusive B exclusive union C"));
    assert_eq!(codes("(A exclusive\nunion B) union C"), codes("(A exclusive B) union C"));
    assert!(wrong("A\nB\nformula A exclusive union union B").contains("column 27: a shape's name or ( is due, and the word union"));
    assert!(wrong("A\nB\nformula A exclusive union B union A").contains("column 29: union after exclusive: brackets are due"));
    assert!(wrong("A\nB\nformula A union exclusive B").contains("column 17: a shape's name or ( is due, and the word exclusive"));
}

/// All at once, in the order of their places, and none that only comes of another.
#[test]
fn everything_that_is_wrong() {
    let page = "edition 3\nA\nBolt hole\nA\nUnion\n5\"\nBö\nB\nFormula: (a union C) difference B union Bolt\n  exclusive Bö";
    let due = [
        "line 1, column 9: 1 or 2 is due after the word edition, and \"3\" stands here",
        "line 3, column 6: the end of the line is due after a name, and \"hole\" stands here; names have no spaces",
        "line 4, column 1: A is taken already, on line 2",
        "line 5, column 1: \"Union\" is nearly the word union, which has small letters and no colon; a name stands in quotation marks",
        "line 6, column 1: \"5\\\"\": put the name in quotation marks, and double those inside",
        "line 7, column 1: \"Bö\" has \"ö\"; names have letters, digits and signs from ! to ~ alone",
        "line 9, column 1: \"Formula:\" is nearly the word formula, which has small letters and no colon; a name stands in quotation marks",
        "line 9, column 11: there is no shape \"a\"; there is A; names are compared letter by letter",
        "line 9, column 19: there is no shape \"C\"; names are compared letter by letter",
        "line 9, column 35: union after difference: brackets are due, to say which of the two comes first",
        "and more",
    ];
    assert_eq!(wrong(page).lines().collect::<Vec<_>>(), due);
    // where a formula no longer can be read, what was found before is said with it
    let due =
        ["line 2, column 9: there is no shape \"B\"; names are compared letter by letter", "line 2, column 18: a ) that closes nothing"];
    assert_eq!(wrong("A\nformula B union A) union C").lines().collect::<Vec<_>>(), due);
    assert_eq!(wrong("\"A\nformula A"), "line 1, column 1: a quotation mark that is not closed on its line");
    let spelt = "line 4, column 9: there is no shape \"port\"; there are Port and PORT; names are compared letter by letter";
    assert_eq!(wrong("Port\nA\nPORT\nformula port"), spelt);
}
