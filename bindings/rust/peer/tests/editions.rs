//! K10 and K11 of document 02, rule by rule, of the plain implementation.

use peer::lines::Crossings;
use peer::make::{fittings, sheet, sheet_first};
use peer::sheet::{Sheet, Sheets};
use peer::Refused;

const UNION: u16 = 0xFFF0;
const INTERSECTION: u16 = 0xFFF1;
const DIFFERENCE: u16 = 0xFFF2;
const EXCLUSIVE: u16 = 0xFFF3;
const ABC: [&str; 3] = ["A", "B", "C"];

fn refused<T>(number: u8, place: usize) -> Result<T, Refused> {
    Err(Refused { number, sheet: if number <= 7 || number == 17 { 2 } else { 0 }, place })
}

fn read(sheet: &[u8]) -> Result<Sheet, Refused> {
    peer::read(Sheets::alone(sheet))
}

fn moved(sheet: &[u8]) -> Result<Vec<u8>, Refused> {
    peer::move_sheet(Sheets::alone(sheet), sheet.len())
}

/// A less B union C, in both editions. The formula's tag is at offset 17, its first code at 20.
fn worked() -> [Vec<u8>; 2] {
    [sheet(&ABC, &[0, 1, 2, UNION, DIFFERENCE]), sheet_first(&ABC, &[DIFFERENCE, 0, UNION, 1, 2])]
}

#[test]
fn header_value_2_and_tag_4() {
    let [last, first] = worked();
    assert_eq!(first[..5], [1, 0, 2, 0, 2]);
    assert_eq!(first[17..], [4, 0, 10, 0xFF, 0xF2, 0, 0, 0xFF, 0xF0, 0, 1, 0, 2]);
    let (last, first) = (read(&last).unwrap(), read(&first).unwrap());
    assert_eq!((last.edition, first.edition), (1, 2));
    assert_eq!(Sheet { edition: 1, ..first }, last);
}

#[test]
fn tag_4_under_edition_1_or_tag_3_under_edition_2_is_2() {
    for (mut sheet, tag) in worked().into_iter().zip([4, 3]) {
        sheet[17] = tag;
        assert_eq!(read(&sheet), refused(2, 17));
    }
    assert_eq!(read(&[1, 0, 2, 0, 2, 4, 0, 2, 0, 0]), refused(2, 5), "a formula before any name");
    for edition in [0, 3] {
        let [_, mut sheet] = worked();
        sheet[4] = edition;
        assert_eq!(read(&sheet), refused(3, 0));
    }
}

#[test]
fn a_code_after_the_formula_is_complete_is_7_at_that_code() {
    assert_eq!(read(&sheet_first(&ABC, &[0, 1])), refused(7, 22));
    assert_eq!(read(&sheet_first(&ABC, &[UNION, 0, 1, UNION])), refused(7, 26));
    assert_eq!(read(&sheet_first(&ABC, &[UNION, 0, 1, 9])), refused(7, 26));
}

#[test]
fn a_formula_that_ends_incomplete_is_7_at_the_tag() {
    assert_eq!(read(&sheet_first(&ABC, &[UNION])), refused(7, 17));
    assert_eq!(read(&sheet_first(&ABC, &[UNION, 0])), refused(7, 17));
    assert_eq!(read(&sheet_first(&ABC, &[UNION, UNION, 0, 1])), refused(7, 17));
    assert_eq!(read(&sheet_first(&ABC, &[EXCLUSIVE; 2047])), refused(7, 17), "2047 operations in a row");
}

#[test]
fn an_unknown_code_is_7_at_that_code() {
    assert_eq!(read(&sheet_first(&ABC, &[UNION, 0, 3])), refused(7, 24));
    assert_eq!(read(&sheet_first(&ABC, &[0xFFF4, 0, 1])), refused(7, 20));
    assert_eq!(read(&sheet_first(&ABC, &[UNION, 0xFFEF])), refused(7, 22));
}

#[test]
fn limits_stay() {
    assert_eq!(read(&sheet_first(&ABC, &[])), refused(7, 17));
    assert_eq!(read(&sheet_first(&ABC, &[0; 2048])), refused(6, 17));
    let [_, mut sheet] = worked();
    sheet[19] = 9;
    assert_eq!(read(&sheet), refused(7, 17), "of odd length");
    let chain = [[UNION].repeat(1023), [2].repeat(1024)].concat();
    assert_eq!(read(&sheet_first(&ABC, &chain)).unwrap().leaves, 1024);
    let [_, sheet] = worked();
    for length in 0..sheet.len() {
        assert_eq!(read(&sheet[..length]), refused(1, length));
    }
    assert_eq!(read(&[&sheet[..], &[4]].concat()), refused(2, 30));
}

#[test]
fn sheets_move_there_and_back() {
    let [last, first] = worked();
    assert_eq!(moved(&last), Ok(first.clone()));
    assert_eq!(moved(&first), Ok(last));
    for codes in [vec![0], vec![0, 1, INTERSECTION, 2, INTERSECTION], vec![2, 1, 0, DIFFERENCE, 1, UNION, DIFFERENCE]] {
        let one = sheet(&ABC, &codes);
        let two = moved(&one).unwrap();
        assert_eq!(moved(&two), Ok(one.clone()));
        assert_eq!(read(&two).map(|sheet| Sheet { edition: 1, ..sheet }), read(&one));
    }
}

#[test]
fn a_move_to_edition_2_of_a_sheet_with_0xfff3_is_19_at_the_first_such_code() {
    assert_eq!(moved(&sheet(&ABC, &[0, 1, EXCLUSIVE, 2, EXCLUSIVE])), refused(19, 24));
    assert_eq!(moved(&sheet(&ABC, &[0, 1, UNION, 2, EXCLUSIVE])), refused(19, 28));
    let many: Vec<String> = (0..250).map(|k| format!("N{k}")).collect();
    assert!(moved(&sheet(&many, &[0, 243, UNION])).is_ok(), "shape 0xF3 is no operation");
    let mut sheet = sheet(&ABC, &[0, 1, EXCLUSIVE, 2, EXCLUSIVE]);
    assert_eq!(peer::move_sheet(Sheets::alone(&sheet), 29), refused(19, 24), "19 before 9");
    sheet[27] = 9;
    assert_eq!(moved(&sheet), refused(7, 26), "7 before 19");
}

#[test]
fn sheets_with_0xfff3_are_read_and_move_back_to_edition_1() {
    let (last, first) = (sheet(&ABC, &[0, 1, 2, EXCLUSIVE, UNION]), sheet_first(&ABC, &[UNION, 0, EXCLUSIVE, 1, 2]));
    assert_eq!(read(&first).map(|sheet| Sheet { edition: 1, ..sheet }), read(&last));
    assert_eq!(moved(&first), Ok(last.clone()));
    assert_eq!(moved(&last), refused(19, 26));
}

#[test]
fn a_fittings_sheet_stays_at_edition_1_beside_either() {
    let own = sheet_first(&["X"], &[UNION, 0, 1]);
    let mut bolts = fittings(&["Lug"]);
    let sheets = Sheets { fittings: Some(&bolts), own: &own };
    assert_eq!(peer::move_sheet(sheets, own.len()), Ok(sheet(&["X"], &[0, 1, UNION])));
    assert_eq!(peer::move_sheet(Sheets::alone(&own), own.len()), refused(7, 16), "shape 1 is no leaf without the fittings sheet");
    bolts[4] = 2;
    assert_eq!(peer::read(Sheets { fittings: Some(&bolts), own: &own }), Err(Refused { number: 3, sheet: 1, place: 0 }));
    bolts[4] = 1;
    for tag in [3, 4] {
        let bolts = [&bolts[..], &[tag, 0, 2, 0, 0]].concat();
        assert_eq!(peer::read(Sheets { fittings: Some(&bolts), own: &own }), Err(Refused { number: 2, sheet: 1, place: 11 }));
    }
}

#[test]
fn an_answer_list_shorter_than_the_sheet_is_9_last() {
    let [last, mut first] = worked();
    for sheet in [&last, &first] {
        assert_eq!(peer::move_sheet(Sheets::alone(sheet), 29), refused(9, 30));
        assert_eq!(peer::move_sheet(Sheets::alone(sheet), 31), peer::move_sheet(Sheets::alone(sheet), 30));
    }
    first[21] = 0xF4;
    assert_eq!(peer::move_sheet(Sheets::alone(&first), 0), refused(7, 20));
}

#[test]
fn listings_toggles_and_walls_are_unchanged() {
    let [last, first] = worked().map(|sheet| {
        let sheets = Sheets::alone(&sheet);
        let crossings = Crossings { rows: &[0; 3], lines: &[0, 0, 0, 0], positions: &[0, 40, 60, 100], shapes: &[0, 1, 1, 0] };
        (
            peer::build(sheets, [6; 3]).map(|dwarf| format!("{dwarf:?}")),
            peer::run(sheets, &[0, 1, 2, 0], [6; 3]),
            peer::classify(sheets, crossings, [3; 5]),
        )
    });
    assert!(last.0.is_ok() && last.1.is_ok() && last.2.is_ok());
    assert_eq!(last, first);
}
