//! All that is wrong with a page or a list, up to ten; and files of another kind than is asked for.

mod said;

use peer::make::{fittings, sheet};
use said::{file, refused, refused_of, unreadable, wallcheck};

fn every(lines: &[&str]) -> said::Said {
    let text: String = lines.iter().map(|line| format!("wallcheck: standard input: {line}\n")).collect();
    (Some(2), String::new(), text)
}

#[test]
fn rows_that_cannot_be_read() {
    let path = file("at-once.sheet", &sheet(&["Port", "PORT"], &[0, 1, 0xFFF2]));
    let walls = |list: &str| wallcheck(&["walls", &path, "-"], list.as_bytes());
    let list = "line,position,name\n-1,0,Port\n1,0\n1,5,Port\n\n1,x,Port\n1,\"0,Port\n";
    let due = [
        "row 2: line \"-1\" is no whole number from 0 to 4294967295",
        "row 3: 2 fields, and the heading has 3",
        "row 6: position \"x\" is no whole number from -2147483648 to 2147483647",
        "row 7: a quotation mark that is not closed",
    ];
    assert_eq!(walls(list), every(&due));
    let many = walls(&format!("line,position,name\n{}", "1,x,Port\n".repeat(11)));
    assert_eq!(many.2.lines().count(), 11);
    assert!(many
        .2
        .ends_with("row 11: position \"x\" is no whole number from -2147483648 to 2147483647\nwallcheck: standard input: and more\n"));
    assert!(!walls(&format!("line,position,name\n{}", "1,x,Port\n".repeat(10))).2.contains("and more"));

    let shapes = "name,low_x,high_x,radius\na,1,2,\nb,,x,\na,,1,\nc,,,1\n";
    let lines = file("at-once-lines.csv", b"line,x,y,z,dx,dy,dz\n1,0,0,0,1,0,0\n");
    let kinds = "a box has three lows and three highs, a half-space one high alone, a ball x, y, z and radius";
    let due = [
        &format!("row 2: {kinds}")[..],
        "row 3: high_x \"x\" is no number",
        "row 4: \"a\" stands at row 2 already",
        &format!("row 5: {kinds}"),
    ];
    assert_eq!(wallcheck(&["cross", "-", &lines], shapes.as_bytes()), every(&due));
    let faces = file("at-once-faces.csv", b"name,high_x\na,1\n");
    let lines = "line,x,y,z,dx,dy,dz\n5,0,0,0,1,0,0\n4,0,0,0,1,0,0\n6,0,0,a,1,0,0\n";
    let due = ["row 3: line 4 comes after line 5", "row 4: z \"a\" is no number"];
    assert_eq!(wallcheck(&["cross", &faces, "-"], lines.as_bytes()), every(&due));
}

#[test]
fn entries_that_are_refused() {
    let path = file("at-once-refused.sheet", &sheet(&["Port", "PORT"], &[0, 1, 0xFFF2]));
    let letters = "there are Port and PORT; names are compared letter by letter";
    let list = "line,position,name\n1,5,Port\n1,5,port\n1,4,Port\n1,2147483647,Port\n0,0,pORT\n";
    let about = [
        format!("row 3: the sheet has no name \"port\"; {letters}"),
        "row 4: position 4 comes after 5 on line 1".into(),
        "row 5: position 2147483647 is the mark of a wall's open end; no crossing stands there".into(),
        format!("row 6: the sheet has no name \"pORT\"; {letters}"),
    ];
    let due = format!("refused 10 at entry 1: a shape number that no name has\n  {}", about.join("\n  "));
    assert_eq!(wallcheck(&["walls", &path, "-"], list.as_bytes()), refused(&due));
    let toggles = format!("name\nPort\n{}", "port\n".repeat(12));
    let said = wallcheck(&["run", &path, "-"], toggles.as_bytes()).2;
    assert_eq!(said.lines().count(), 12);
    assert!(said.ends_with(&format!("  row 12: the sheet has no name \"port\"; {letters}\n  and more\n")), "{said}");
    let starts = file("at-once-starts.csv", b"line,shape\n1,2\n1,0\n1,7\n");
    let said = wallcheck(&["walls", "--starts", &starts, &path, "-"], b"line,position,name\n").2;
    assert!(said.ends_with("\n  row 2: shape 2, and the last one is 1\n  row 4: shape 7, and the last one is 1\n"), "{said}");
}

#[test]
fn pages_with_several_faults() {
    let due = [
        "line 2, column 1: A is taken already, on line 1",
        "line 3, column 9: there is no shape \"a\"; there is A; names are compared letter by letter",
        "line 3, column 17: there is no shape \"B\"; names are compared letter by letter",
    ];
    assert_eq!(wallcheck(&["make", "-"], b"A\nA\nformula a union B"), every(&due));
}

#[test]
fn files_of_another_kind() {
    let good = file("kinds.sheet", &sheet(&["A"], &[0]));
    let lugs = file("kinds-lugs.sheet", &fittings(&["Lug"]));
    let packed = file("kinds.gz", b"\x1F\x8B\x08\0\0\0\0\0");
    let wide = file("kinds-wide.csv", b"\xFF\xFEn\0a\0m\0e\0\n\0");
    let tag = |what: &str| format!("refused 2 at byte 0 of the customer's sheet: a tag that is unknown or out of place\n  the file {what}");
    let gzip = "is compressed by gzip: it has to be unpacked";
    let utf_16 = "is text in UTF-16: it has to be saved as UTF-8";
    assert_eq!(wallcheck(&["read", &packed], b""), refused_of(&packed, &tag(gzip)));
    assert_eq!(wallcheck(&["read", &wide], b""), refused_of(&wide, &tag(utf_16)));
    assert_eq!(wallcheck(&["run", &good, &packed], b""), unreadable(&format!("{packed}: {gzip}")));
    assert_eq!(wallcheck(&["run", &good, &wide], b""), unreadable(&format!("{wide}: {utf_16}")));
    assert_eq!(wallcheck(&["run", &good, &good], b""), unreadable(&format!("{good}: is a sheet, and a text is asked for")));
    assert_eq!(wallcheck(&["make", &wide], b""), unreadable(&format!("{wide}: {utf_16}")));
    let names = "it is a fittings sheet, names without a formula: --fittings takes it";
    let ends = |at: usize| format!("refused 1 at byte {at} of the customer's sheet: the sheet ends too soon\n  {names}");
    assert_eq!(wallcheck(&["read", &lugs], b""), refused_of(&lugs, &ends(11)));
    let crossings = file("kinds.csv", b"line,position,name\n");
    assert_eq!(wallcheck(&["walls", "--fittings", &lugs, &lugs, &crossings], b"").0, Some(1));
}
