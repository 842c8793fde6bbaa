//! `wallcheck make` and `wallcheck show`: sheets from pages of text, and pages from sheets, there and back.

mod said;

use peer::make::{self, fittings, sheet, sheet_first, Dice};
use said::{answered, file, refused, refused_of, unreadable, wallcheck, wallcheck_bytes};

const BLOCK: &str = "edition 1\nBlock\nBore\n\nformula\n  Block difference Bore\n";

fn made(args: &[&str], page: &str) -> Vec<u8> {
    let (status, sheet, said) = wallcheck_bytes(&[&["make"], args, &["-"]].concat(), page.as_bytes());
    assert_eq!((status, said.as_str()), (Some(0), ""), "{page}");
    sheet
}

#[test]
fn a_block_with_a_bore() {
    let block = sheet(&["Block", "Bore"], &[0, 1, 0xFFF2]);
    assert_eq!(made(&[], "# a remark\n\nBlock\nBore  # 20 mm\nformula Block difference Bore"), block);
    assert_eq!(made(&[], "\u{FEFF}Block\r\nBore\r\n\r\nformula\r\n(Block)\r\ndifference Bore\r\n"), block);
    assert_eq!(made(&[], BLOCK), block);
    assert_eq!(wallcheck(&["show", "-"], &block), answered(BLOCK));
    // the page's edition, or another that is asked for
    let second = sheet_first(&["Block", "Bore"], &[0xFFF2, 0, 1]);
    assert_eq!(made(&["--edition", "2"], BLOCK), second);
    assert_eq!(made(&[], &BLOCK.replace("edition 1", "edition 2")), second);
    assert_eq!(made(&["--edition", "1"], &BLOCK.replace("edition 1", "edition 2")), block);
    assert_eq!(wallcheck(&["show", "-"], &second), answered(&BLOCK.replace("edition 1", "edition 2")));
}

/// A hole that is forgotten in the formula is said, and the sheet is made all the same.
#[test]
fn names_that_are_never_used() {
    let page = "Pipe\nBore\n\"(hole)\"\nformula Pipe difference Bore\n";
    let (status, made, said) = wallcheck_bytes(&["make", "-"], page.as_bytes());
    assert_eq!((status, said.as_str()), (Some(0), "wallcheck: standard input: line 3: the formula never uses (hole)\n"));
    assert_eq!(made, sheet(&["Pipe", "Bore", "(hole)"], &[0, 1, 0xFFF2]));
    let shown = wallcheck(&["show", "-"], &made);
    let due = "edition 1\nPipe\nBore\n\"(hole)\"\n\nformula\n  Pipe difference Bore\n\n# the formula never uses \"(hole)\"\n";
    assert_eq!(shown, answered(due));
}

#[test]
fn beside_a_fittings_sheet() {
    let lugs = file("pages-lugs.sheet", &fittings(&["Lug", "Boss"]));
    assert_eq!(made(&[], "Lug\nBoss\n"), fittings(&["Lug", "Boss"]));
    assert_eq!(wallcheck(&["show", &lugs], b""), answered("# a fittings sheet: names, and no formula\nLug\nBoss\n"));
    let own = sheet(&["Plate"], &[2, 0, 0xFFF0]);
    assert_eq!(made(&["--fittings", &lugs], "Plate\nformula Plate union Lug"), own);
    let (beside, rest) = (
        "# beside a fittings sheet with the names Lug Boss\nedition 1\n",
        "Plate\n\nformula\n  Plate union Lug\n\n# the formula never uses Boss\n",
    );
    let page = format!("{beside}fittings {lugs}\n{rest}");
    assert_eq!(wallcheck(&["show", "--fittings", &lugs, "-"], &own), answered(&page));
    assert_eq!(made(&[], &page), own);
    assert_eq!(made(&["--fittings", &lugs], &format!("{beside}{rest}")), own);
    // standard input has no name that a page could have
    let unnamed = wallcheck(&["show", "--fittings", "-", &file("pages-own.sheet", &own)], &fittings(&["Lug", "Boss"]));
    assert_eq!(unnamed, answered(&format!("{beside}{rest}")));
    let twice = wallcheck(&["make", "--fittings", &lugs, "-"], page.as_bytes());
    assert_eq!((twice.0, twice.1.as_str()), (Some(2), ""));
    assert!(
        twice.2.contains("standard input names its fittings, ") && twice.2.contains("'--fittings' beside that is one too many"),
        "{}",
        twice.2
    );
    // the page of the fittings will do
    let text = file("pages-lugs.txt", b"Lug\nBoss\n");
    assert_eq!(made(&["--fittings", &text], "Plate\nformula Plate union Lug"), own);

    let said = |args: &[&str], page: &str| wallcheck(&[&["make"], args, &["-"]].concat(), page.as_bytes());
    let stands = "standard input: has no formula, and makes a fittings sheet, which stands beside none";
    assert_eq!(said(&["--fittings", &lugs], "Plate"), unreadable(stands));
    let edition = "standard input: has no formula, and makes a fittings sheet, which has edition 1";
    assert_eq!(said(&["--edition", "2"], "Plate"), unreadable(edition));
    let taken = "standard input: line 1, column 1: Lug is taken already, in the fittings sheet";
    assert_eq!(said(&["--fittings", &lugs], "Lug\nformula Lug"), unreadable(taken));
    let plate = file("pages-plate.sheet", &own);
    let formula = "refused 2 at byte 13 of the fittings sheet: a tag that is unknown or out of place\n  it has a formula: it is a customer's sheet, and --fittings takes names alone";
    assert_eq!(said(&["--fittings", &plate], "A\nformula A"), refused_of(&plate, formula));
    assert_eq!(wallcheck(&["make", "--fittings", "-", "-"], b"").0, Some(2));
}

#[test]
fn wrong_pages_and_sheets() {
    let said = |page: &[u8]| wallcheck(&["make", "-"], page);
    let due = "there is no shape \"port\"; there are Port and PORT; names are compared letter by letter";
    assert_eq!(said(b"Port\nPORT\nformula port"), unreadable(&format!("standard input: line 3, column 9: {due}")));
    assert_eq!(said(b"Port\n\xFF\n"), unreadable("standard input: row 2: is not text in UTF-8"));
    // exclusive union is out of use: a page that says so has it in edition 2, and nothing is brought there
    let page = "edition 2\nA\nB\nformula A exclusive B";
    let first = sheet_first(&["A", "B"], &[0xFFF3, 0, 1]);
    assert_eq!(made(&[], page), first);
    assert_eq!(made(&[], &wallcheck(&["show", "-"], &first).1), first);
    let (status, out, err) = wallcheck(&["make", "--edition", "2", "-"], page.as_bytes());
    assert_eq!((status, out.as_str()), (Some(2), ""));
    assert!(err.starts_with("wallcheck: standard input: line 4, column 11: exclusive is out of use"), "{err}");

    let show = |sheet: &[u8]| wallcheck(&["show", "-"], sheet);
    assert_eq!(show(b""), refused("refused 1 at byte 0 of the customer's sheet: the sheet ends too soon"));
    let twice = "refused 5 at byte 9 of the customer's sheet: a name that is taken already\n  the name there is \"A\"";
    assert_eq!(show(&fittings(&["A", "A"])), refused(twice));
}

/// Whatever sheet there is comes back as the same bytes; `page/tests.rs` of the command has thousands more.
#[test]
fn sheets_there_and_back() {
    for case in 0..60 {
        let mut dice = Dice::of(2027, case);
        let (own, _) = make::good_sheet(&mut dice);
        assert_eq!(back(&[], &own), own, "case {case}");
        let (beside, own, _) = make::good_pair(&mut dice);
        let path = file("pages-beside.sheet", &beside);
        assert_eq!(back(&["--fittings", &path], &own), own, "case {case}");
        assert_eq!(back(&[], &beside), beside, "case {case}");
    }
}

fn back(args: &[&str], sheet: &[u8]) -> Vec<u8> {
    let (status, page, said) = wallcheck(&[&["show"], args, &["-"]].concat(), sheet);
    assert_eq!((status, said.as_str()), (Some(0), ""));
    // a page that is shown beside fittings names them
    let (status, back, _) = wallcheck_bytes(&["make", "-"], page.as_bytes());
    assert_eq!(status, Some(0), "{page}");
    back
}
