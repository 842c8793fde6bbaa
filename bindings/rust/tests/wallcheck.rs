//! The command's answers, words and exit status.

mod said;

use peer::make::{fittings, sheet};
use said::{answered, file, refused, refused_of, unreadable, wallcheck, WALLCHECK};
use std::process::Command;

fn worked() -> Vec<u8> {
    sheet(&["A", "B", "C"], &[0, 1, 2, 0xFFF0, 0xFFF2])
}

#[test]
fn the_worked_sheet() {
    assert_eq!(wallcheck(&["read", "-"], &worked()), answered("names,leaves,first,past\n3,3,20,30\n"));
    assert_eq!(wallcheck(&["read", "--names", "-"], &worked()), answered("shape,name\n0,A\n1,B\n2,C\n"));
    assert_eq!(wallcheck(&["list", "--size", "-"], &worked()), answered("leaves,nodes,rounds,height\n3,6,2,2\n"));
    let nodes =
        "0,0,0,65535,leaf A\n1,0,1,65535,leaf B\n2,0,2,65535,leaf C\n3,1,1,2,E union\n4,7,0,65535,R difference left raked\n5,13,4,3,S\n";
    assert_eq!(wallcheck(&["list", "-"], &worked()), answered(&format!("node,kind,first,second,meaning\n{nodes}")));
    let path = file("worked.sheet", &worked());
    let rows = "0,0,A,1,2\n1,1,B,0,2\n2,2,C,0,1\n3,0,A,0,2\n";
    assert_eq!(wallcheck(&["run", &path, "-"], b"name\nA\nB\nC\nA\n"), answered(&format!("toggle,shape,name,root,count\n{rows}")));
    assert_eq!(wallcheck(&["run", &path, "-"], b"shape\n0\n1\n2\n0\n"), answered(&format!("toggle,shape,name,root,count\n{rows}")));
    let labels = "node,label\n0,0\n1,1\n2,1\n3,1\n4,0\n5,0\n";
    assert_eq!(wallcheck(&["run", "--labels", &path, "-"], b"name\nA\nB\nC\nA\n"), answered(labels));
}

#[test]
fn two_foundries() {
    let path = file("both.sheet", &worked());
    let (first, second) = (file("first.csv", b"name\nA\nB\n"), file("second.csv", b"shape\n1\n"));
    let both = |first: &str, order: &[u8]| wallcheck(&["both", &path, first, &second, "-"], order);
    let heading = "turn,foundry,toggle,shape,name,root,count\n";
    let rows = "0,0,0,0,A,1,2\n1,1,0,1,B,0,2\n2,0,1,1,B,0,2\n";
    assert_eq!(both(&first, b"foundry\n0\n1\n0\n"), answered(&format!("{heading}{rows}")));
    // one foundry's fault is its own
    let stranger = file("stranger.csv", b"name\nA\nb\n");
    let refusal = format!("wallcheck: foundry 0: {stranger}: refused 10 at entry 1: a shape number that no name has");
    let words = format!("{refusal}\n  row 3: the sheet has no name \"b\"; there is B; names are compared letter by letter\n");
    assert_eq!(both(&stranger, b"foundry\n0\n1\n0\n"), (Some(1), format!("{heading}1,1,0,1,B,0,2\n"), words));
    // an order that does not mix the lists goes to both, before 10
    let order = "refused 13: lists that go together differ in length (crossings, another's walls, edits), or an order does not mix the lists of two foundries";
    let turns = "1 turns for 2 toggles of foundry 0, 1 turns for 1 of foundry 1";
    assert_eq!(both(&stranger, b"foundry\n0\n1\n"), refused(&format!("{order}\n  {turns}")));
    assert_eq!(both(&first, b"foundry\n0\n1\n2\n"), refused(&format!("{order}\n  turn 2 is foundry 2's, and there are 0 and 1")));
    assert_eq!(both(&first, b"turn\n0\n"), unreadable("standard input: row 1: the heading is to be foundry, and it is \"turn\""));
    let range = "standard input: row 2: foundry \"256\" is no whole number from 0 to 255";
    assert_eq!(both(&first, b"foundry\n256\n"), unreadable(range));
}

/// Toggles and edits in the order in which they act.
#[test]
fn operations_that_become_others() {
    let path = file("edited.sheet", &worked());
    let toggles = file("edited.csv", b"name\nA\nB\nC\n");
    let run = |edits: &str| wallcheck(&["run", "--edits", "-", &path, &toggles], edits.as_bytes());
    let heading = "toggle,shape,name,edit,position,operation,root,count\n";
    let none = "0,0,A,,,,1,2\n1,1,B,,,,0,2\n2,2,C,,,,0,1\n";
    assert_eq!(run("after,position,operation\n"), answered(&format!("{heading}{none}")));
    // A less (B and C), from the second toggle on; then A or nothing of it
    let rows = "0,0,A,,,,1,2\n,,,0,3,exclusive union,,1\n,,,1,3,intersection,,1\n1,1,B,,,,1,1\n2,2,C,,,,0,2\n,,,2,4,union,,2\n";
    let due = answered(&format!("{heading}{rows}"));
    assert_eq!(run("after,position,operation\n1,3,exclusive union\n1,3,intersection\n3,4,union\n"), due);
    assert_eq!(run("code,after,position\n0xFFF3,1,3\n65521,1,3\n0xfff0,3,4\n"), due);
    let labels = answered("node,label\n0,1\n1,1\n2,1\n3,1\n4,3\n5,1\n");
    let edits = file("edits.csv", b"after,position,operation\n1,3,intersection\n3,4,union\n");
    assert_eq!(wallcheck(&["run", "--labels", "--edits", &edits, &path, &toggles], b""), labels);
    assert_eq!(wallcheck(&["run", "--edits", &edits, "--labels", &path, &toggles], b""), labels);
}

#[test]
fn refused_edits() {
    let last = file("unedited.sheet", &worked());
    let first = file("unedited-first.sheet", &peer::make::sheet_first(&["A", "B", "C"], &[0xFFF2, 0, 0xFFF0, 1, 2]));
    let toggles = file("unedited.csv", b"name\nA\nB\n");
    let words = "an edit of a node that is no operation, to a code that is none, or at a moment that falls or exceeds the toggles";
    for path in [&last, &first] {
        let run = |edits: &str| wallcheck(&["run", "--edits", "-", path, &toggles], edits.as_bytes());
        let wrong = |entry: usize, row: usize, about: &str| refused(&format!("refused 20 at entry {entry}: {words}\n  row {row}: {about}"));
        let of = |rows: &str| run(&format!("after,position,operation\n{rows}"));
        assert_eq!(of("0,1,union\n"), wrong(0, 2, "at position 1 stands B, which is no operation"));
        assert_eq!(of("0,3,union\n\n0,5,union\n"), wrong(1, 4, "position 5, and the last one is 4"));
        let four = "union, intersection, difference, exclusive union";
        assert_eq!(of("0,3,Union\n"), wrong(0, 2, &format!("there is no operation \"Union\"; they are {four}")));
        assert_eq!(run("after,position,code\n0,3,2\n"), wrong(0, 2, "code 0x0002 is no operation; they are 0xFFF0 to 0xFFF3"));
        assert_eq!(of("1,3,union\n0,3,union\n"), wrong(1, 3, "after 0 comes after 1"));
        assert_eq!(of("3,3,union\n"), wrong(0, 2, "after 3 toggles, and there are 2"));
    }
    let run = |edits: &str| wallcheck(&["run", "--edits", "-", &last, &toggles], edits.as_bytes());
    let due = "after,position,operation or after,position,code";
    assert_eq!(run(""), unreadable(&format!("standard input: is empty; its heading is {due}")));
    for heading in ["after,position\n", "after,position,operation,code\n", "after,position,name\n"] {
        let is = format!("and it is \"{}\"", heading.trim_end());
        assert_eq!(run(heading), unreadable(&format!("standard input: row 1: the heading is to be {due}, {is}")));
    }
    let of = |row: &str| run(&format!("after,position,code\n{row}\n"));
    let whole = |what: &str, most: &str| unreadable(&format!("standard input: row 2: {what} is no whole number from 0 to {most}"));
    assert_eq!(of("-1,3,0xFFF0"), whole("after \"-1\"", "18446744073709551615"));
    assert_eq!(of("0,65536,0xFFF0"), whole("position \"65536\"", "65535"));
    assert_eq!(of("0,3,union"), unreadable("standard input: row 2: code \"union\" is none from 0 to 0xFFFF"));
    assert_eq!(of("0,3"), unreadable("standard input: row 2: 2 fields, and the heading has 3"));
    assert_eq!(wallcheck(&["run", "--edits", "-", &last, "-"], b"").0, Some(2));
}

/// Of sheet, toggles and edits it is the file at fault that is named.
#[test]
fn which_file_of_a_run_with_edits() {
    let last = file("misedited.sheet", &worked());
    let toggles = file("misedited.csv", b"name\nA\nB\n");
    let (edits, bad) = (file("misedits.csv", b"after,position,code\n0,3,2\n"), file("misedited-bad.sheet", b"\x01"));
    let stranger = "refused 10 at entry 0: a shape number that no name has\n  row 2: shape 3, and the last one is 2";
    assert_eq!(wallcheck(&["run", "--edits", &edits, &last, "-"], b"shape\n3\n"), refused(stranger));
    let soon = "refused 1 at byte 1 of the customer's sheet: the sheet ends too soon";
    assert_eq!(wallcheck(&["run", "--edits", &edits, &bad, &toggles], b""), refused_of(&bad, soon));
    let (status, out, said) = wallcheck(&["run", "--edits", &edits, &last, &toggles], b"");
    assert!((status, &out[..]) == (Some(1), "") && said.starts_with(&format!("wallcheck: {edits}: refused 20 at entry 0: ")), "{said}");
    assert!(said.ends_with("\n  row 2: code 0x0002 is no operation; they are 0xFFF0 to 0xFFF3\n"), "{said}");
}

#[test]
fn the_shapes_at_a_walls_ends_are_quoted_as_csv_needs() {
    let path = file("quoted.sheet", &sheet(&["a,b", "\"", "C"], &[1, 0, 0xFFF2]));
    let crossings = b"line,position,shape\n1,0,2\n1,0,1\n1,5,0\n1,9,2\n1,9,1\n1,9,0\n";
    let due = "line,start,end,start_shape,end_shape\n1,0,5,\"\"\"\",\"a,b\"\n";
    let unused = "wallcheck: standard input: row 2: C is crossed, and the formula never uses it\n";
    assert_eq!(wallcheck(&["walls", &path, "-"], crossings), (Some(0), due.into(), unused.into()));
}

#[test]
fn columns_in_any_order_by_name_or_number() {
    let path = file("order.sheet", &sheet(&["A", "B"], &[0, 1, 0xFFF2]));
    let walls = answered("line,start,end,start_shape,end_shape\n7,-5,40,A,B\n7,60,100,B,A\n");
    assert_eq!(wallcheck(&["walls", &path, "-"], b"line,position,name\n7,-5,A\n7,40,B\n7,60,B\n7,100,A\n"), walls);
    assert_eq!(wallcheck(&["walls", &path, "-"], b"shape,line,position\r\n0,7,-5\r\n1,7,40\r\n\r\n1,7,60\r\n0,7,100"), walls);
    assert_eq!(wallcheck(&["walls", &path, "-"], b"line,position,name\n"), answered("line,start,end,start_shape,end_shape\n"));
    let crossings = file("order.csv", b"line,position,name\n7,-5,A\n7,40,B\n7,60,B\n7,100,A\n");
    assert_eq!(wallcheck(&["walls", "-", &crossings], &sheet(&["A", "B"], &[0, 1, 0xFFF2])), walls);
}

/// The heading says what the letters below it are.
#[test]
fn names_of_digits_commas_and_quotation_marks() {
    let path = file("digits.sheet", &sheet(&["1", "0", "a,b", "\""], &[0, 1, 0xFFF0]));
    let heading = "toggle,shape,name,root,count\n";
    assert_eq!(wallcheck(&["run", &path, "-"], b"name\n0\n"), answered(&format!("{heading}0,1,0,1,1\n")));
    assert_eq!(wallcheck(&["run", &path, "-"], b"shape\n0\n"), answered(&format!("{heading}0,0,1,1,1\n")));
    let quoted = answered(&format!("{heading}0,2,\"a,b\",0,0\n1,3,\"\"\"\",0,0\n"));
    assert_eq!(wallcheck(&["run", &path, "-"], b"name\n\"a,b\"\n\"\"\"\"\n"), quoted);
    let names = wallcheck(&["read", "--names", &path], b"").1;
    assert_eq!(names, "shape,name\n0,1\n1,0\n2,\"a,b\"\n3,\"\"\"\"\n");
}

#[test]
fn refused_sheets() {
    let twice = sheet(&["Port", "PORT", "Port"], &[0]);
    let taken = "refused 5 at byte 19 of the customer's sheet: a name that is taken already\n  the name there is \"Port\"";
    assert_eq!(wallcheck(&["read", "-"], &twice), refused(taken));
    assert_eq!(wallcheck(&["list", "-"], &twice), refused(taken));
    let spaced = "refused 4 at byte 5 of the customer's sheet: a name has a wrong length, or a byte that is not 0x21 to 0x7E\n  the name there is \"a\\x20b\"";
    assert_eq!(wallcheck(&["read", "-"], &sheet(&["a b"], &[0])), refused(spaced));
    let long = wallcheck(&["read", "-"], &sheet(&["N".repeat(33)], &[0])).2;
    assert!(long.ends_with("the name there has 33 bytes; 1 to 32 are allowed\n"), "{long}");
    let code = "refused 7 at byte 12 of the customer's sheet: the formula is wrong\n  there is no such code as 0xFFF4";
    assert_eq!(wallcheck(&["read", "-"], &sheet(&["A"], &[0xFFF4])), refused(code));
    let end = "refused 7 at byte 9 of the customer's sheet: the formula is wrong\n  its end leaves 2 operands, and not one: an operation is missing";
    assert_eq!(wallcheck(&["list", "-"], &sheet(&["A"], &[0, 0])), refused(end));
    assert_eq!(wallcheck(&["read", "-"], b""), refused("refused 1 at byte 0 of the customer's sheet: the sheet ends too soon"));
    let tag = "refused 2 at byte 0 of the customer's sheet: a tag that is unknown or out of place\n  the tag there is 35; is it a text? 'wallcheck make' makes a sheet of one";
    assert_eq!(wallcheck(&["read", "-"], b"# a text"), refused(tag));
}

/// Every command takes a fittings sheet, and a refusal says which sheet it is about.
#[test]
fn beside_a_fittings_sheet() {
    let lugs = file("lugs.sheet", &fittings(&["Lug"]));
    let own = sheet(&["Plate"], &[1, 0, 0xFFF0]);
    assert_eq!(wallcheck(&["--fittings", &lugs, "read", "-"], &own), answered("names,leaves,first,past\n2,2,16,22\n"));
    assert_eq!(wallcheck(&["read", "--names", "-", "--fittings", &lugs], &own), answered("shape,name\n0,Lug\n1,Plate\n"));
    let size = wallcheck(&["list", "--size", "--fittings", &lugs, "-"], &own);
    assert_eq!(size, answered("leaves,nodes,rounds,height\n2,3,1,1\n"));
    let path = file("plate.sheet", &own);
    let ran = wallcheck(&["run", "--fittings", &lugs, &path, "-"], b"name\nLug\nPlate\nLug\n");
    assert_eq!(ran, answered("toggle,shape,name,root,count\n0,0,Lug,1,1\n1,1,Plate,1,1\n2,0,Lug,1,1\n"));
    let walls = wallcheck(&["walls", "--fittings", &lugs, &path, "-"], b"line,position,name\n1,0,Lug\n1,5,Plate\n1,7,Lug\n1,9,Plate\n");
    assert_eq!(walls, answered("line,start,end,start_shape,end_shape\n1,0,9,Lug,Plate\n"));

    let equal = "refused 17 at byte 5 of the customer's sheet: a customer's name that a fitting has\n  the name there is \"Lug\"";
    assert_eq!(wallcheck(&["read", "--fittings", &lugs, "-"], &sheet(&["Lug"], &[0])), refused(equal));
    let empty = "refused 1 at byte 0 of the fittings sheet: the sheet ends too soon";
    assert_eq!(wallcheck(&["read", "--fittings", "-", &path], b""), refused(empty));
    let formula = "refused 2 at byte 13 of the fittings sheet: a tag that is unknown or out of place\n  it has a formula: it is a customer's sheet, and --fittings takes names alone";
    assert_eq!(wallcheck(&["read", "--fittings", "-", &path], &own), refused(formula));
    assert_eq!(wallcheck(&["read", "--fittings", "-", "-"], b"").0, Some(2));
    assert_eq!(wallcheck(&["read", &path, "--fittings"], b"").0, Some(2));
}

#[test]
fn refused_lists() {
    let path = file("lists.sheet", &sheet(&["Port", "PORT"], &[0, 1, 0xFFF2]));
    let stranger = wallcheck(&["run", &path, "-"], b"name\nPort\nport\n");
    let unknown = "refused 10 at entry 1: a shape number that no name has";
    let letters = "the sheet has no name \"port\"; there are Port and PORT; names are compared letter by letter";
    assert_eq!(stranger, refused(&format!("{unknown}\n  row 3: {letters}")));
    let number = wallcheck(&["walls", &path, "-"], b"line,position,shape\n1,5,0\n\n1,5,2\n");
    assert_eq!(number, refused(&format!("{unknown}\n  row 4: shape 2, and the last one is 1")));
    let walls = |rows: &str| wallcheck(&["walls", &path, "-"], format!("line,position,name\n{rows}").as_bytes());
    let falls = "refused 11 at entry 1: a line number falls, or a position falls within its line";
    let about = "row 3: line 1 comes after line 2";
    assert_eq!(walls("2,0,Port\n1,0,Port\n"), refused(&format!("{falls}\n  {about}")));
    let about = "row 3: position 4 comes after 5 on line 2";
    assert_eq!(walls("2,5,Port\n2,4,Port\n"), refused(&format!("{falls}\n  {about}")));
    let astray = "refused 15 at entry 1: a position at an end mark, -2147483648 or 2147483647, or a line with no start row";
    for (position, open) in [("-2147483648", "start"), ("2147483647", "end")] {
        let about = format!("row 3: position {position} is the mark of a wall's open {open}; no crossing stands there");
        assert_eq!(walls(&format!("2,5,Port\n2,{position},Port\n")), refused(&format!("{astray}\n  {about}")));
    }
    // the sheet comes first, whatever the list holds
    let damaged = file("damaged.sheet", &worked()[..29]);
    assert_eq!(
        wallcheck(&["run", &damaged, "-"], b"nonsense"),
        refused_of(&damaged, "refused 1 at byte 29 of the customer's sheet: the sheet ends too soon")
    );
}

/// Lines of any numbers that start in air or in metal; an open end has no name.
#[test]
fn lines_that_start_in_metal() {
    let path = file("starts.sheet", &sheet(&["Body", "Bore"], &[0, 1, 0xFFF2]));
    let crossings = file("starts-crossings.csv", b"line,position,name\n7,5,Body\n4294967295,-5,Body\n");
    let heading = "line,start,end,start_shape,end_shape\n";
    let none = wallcheck(&["walls", &path, &crossings], b"");
    assert_eq!(none, answered(&format!("{heading}7,5,2147483647,Body,\n4294967295,-5,2147483647,Body,\n")));
    let from = |starts: &str| wallcheck(&["walls", "--starts", "-", &path, &crossings], starts.as_bytes());
    assert_eq!(from("line,name\n"), none);
    let due = format!("{heading}0,-2147483648,2147483647,,\n7,-2147483648,5,,Body\n4294967295,-5,2147483647,Body,\n");
    // in any order, and twice is as once
    assert_eq!(from("line,name\n7,Body\n9,Body\n9,Bore\n0,Body\n7,Body\n"), answered(&due));
    assert_eq!(from("shape,line\n0,7\n0,0\n"), answered(&due));
    let rows = "refused 14: the start rows' length is no multiple of the number of names, they are more than 4294967296, or a byte is neither 0 nor 1; of lines to cross: they are more than 4294967296";
    let letters = "row 3: the sheet has no name \"body\"; there is Body; names are compared letter by letter";
    assert_eq!(from("line,name\n7,Body\n7,body\n"), refused(&format!("{rows}\n  {letters}")));
    let number = "row 2: shape 2, and the last one is 1";
    assert_eq!(from("line,shape\n7,2\n"), refused(&format!("{rows}\n  {number}")));
    assert_eq!(
        from("line,position,name\n"),
        unreadable("standard input: row 1: the heading is to be line,name or line,shape, and it is \"line,position,name\"")
    );
    for both in [["walls", "--starts", "-", "-", &crossings], ["walls", "--starts", "-", &path, "-"]] {
        assert_eq!(wallcheck(&both, b"").0, Some(2));
    }
    assert_eq!(wallcheck(&["walls", "--starts", "-", "--fittings", "-", &path, &crossings], b"").0, Some(2));
}

/// Right, or the row of their file with what was expected there and exit status 3.
#[test]
fn another_list_judged() {
    let path = file("judged.sheet", &sheet(&["Body", "Bore"], &[0, 1, 0xFFF2]));
    let crossings = file("judged.csv", b"line,position,name\n7,0,Body\n7,40,Bore\n7,60,Bore\n7,100,Body\n9,5,Body\n");
    let judge = |theirs: &str| wallcheck(&["judge", &path, &crossings, "-"], theirs.as_bytes());
    let wrong = |text: &str| (Some(3), format!("{text}\n"), String::new());
    let right = answered("right\n");
    assert_eq!(judge("line,start,end\n7,0,40\n7,60,100\n9,5,2147483647\n"), right);
    // columns in any order, others beside them, empty rows, a wall in parts that touch
    assert_eq!(judge("end,by,line,start\n25,x,7,0\n\n40,,7,25\n100,,7,60\n2147483647,y,9,5\n"), right);
    assert_eq!(judge(&wallcheck(&["walls", &path, &crossings], b"").1), right);

    let at = |row: usize, entry: &str, due: &str| wrong(&format!("wrong at row {row} of standard input: {entry}\n  expected there: {due}"));
    let first = "line 7 from 0, to 40 at most";
    assert_eq!(judge("line,start,end\n7,0,100\n9,5,2147483647\n"), at(2, "line 7 from 0 to 100", first));
    assert_eq!(judge("line,start,end\n7,1,40\n"), at(2, "line 7 from 1 to 40", first));
    // the row is that of the file, and what is expected goes on from the entry before it
    let early = "line 7 from 25, to 40 at most\n  row 2 ends a wall at 25 that goes on to 40";
    assert_eq!(judge("line,start,end\n7,0,25\n\n7,60,100\n"), at(4, "line 7 from 60 to 100", early));
    assert_eq!(judge("line,start,end\n7,0,40\n7,40,40\n"), at(3, "line 7 from 40 to 40", "line 7 from 60, to 100 at most"));
    assert_eq!(judge("line,start,end\n7,0,40\n8,60,100\n"), at(3, "line 8 from 60 to 100", "line 7 from 60, to 100 at most"));
    let whole = "line,start,end\n7,0,40\n7,60,100\n9,5,2147483647\n";
    assert_eq!(judge(&format!("{whole}9,5,6\n")), at(5, "line 9 from 5 to 6", "the end of the list"));
    let soon = |due: &str| wrong(&format!("standard input ends too soon\n  expected there: {due}"));
    assert_eq!(judge("line,start,end\n"), soon(first));
    assert_eq!(judge("line,start,end\n7,0,40\n7,60,100\n"), soon("line 9 from 5, to 2147483647 at most"));
    let early = "line 9 from 6, to 2147483647 at most\n  row 4 ends a wall at 6 that goes on to 2147483647";
    assert_eq!(judge("line,start,end\n7,0,40\n7,60,100\n9,5,6\n"), soon(early));

    // a line that starts in metal; their line has no crossing
    let starts = file("judged-starts.csv", b"line,name\n3,Body\n");
    let from = |theirs: &[u8]| wallcheck(&["judge", "--starts", &starts, &path, &crossings, "-"], theirs);
    let open = "3,-2147483648,2147483647\n7,0,40\n7,60,100\n9,5,2147483647\n";
    assert_eq!(from(format!("line,start,end\n{open}").as_bytes()), right);
    let due = "line 3 from -2147483648, to 2147483647 at most";
    assert_eq!(from(b"line,start,end\n7,0,40\n"), at(2, "line 7 from 0 to 40", due));
}

#[test]
fn another_list_refused_or_unreadable() {
    let path = file("unjudged.sheet", &sheet(&["Body", "Bore"], &[0, 1, 0xFFF2]));
    let crossings = file("unjudged.csv", b"line,position,name\n7,5,Body\n7,4,Body\n");
    let judge = |theirs: &str| wallcheck(&["judge", &path, &crossings, "-"], theirs.as_bytes());
    let falls = "refused 11 at entry 1: a line number falls, or a position falls within its line";
    assert_eq!(judge("line,start,end\n"), refused_of(&crossings, &format!("{falls}\n  row 3: position 4 comes after 5 on line 7")));
    let starts = file("unjudged-starts.csv", b"line,shape\n7,2\n");
    let (status, out, said) = wallcheck(&["judge", "--starts", &starts, &path, &crossings, "-"], b"line,start,end\n");
    assert!((status, &out[..]) == (Some(1), "") && said.starts_with(&format!("wallcheck: {starts}: refused 14: ")), "{said}");
    assert!(said.ends_with("\n  row 2: shape 2, and the last one is 1\n"), "{said}");
    let bad = file("unjudged-bad.sheet", b"\x01");
    let soon = "refused 1 at byte 1 of the customer's sheet: the sheet ends too soon";
    assert_eq!(wallcheck(&["judge", &bad, &crossings, "-"], b""), refused_of(&bad, soon));
    let heading = "standard input: row 1: the heading is to be line,start,end, each once among any others, and it is";
    assert_eq!(judge("line,start\n"), unreadable(&format!("{heading} \"line,start\"")));
    assert_eq!(judge("line,start,end,end\n"), unreadable(&format!("{heading} \"line,start,end,end\"")));
    assert_eq!(judge("line;start\n"), unreadable(&format!("{heading} \"line;start\"")));
    assert_eq!(judge(""), unreadable("standard input: is empty; its heading is line,start,end"));
    assert_eq!(judge("line,start,end\n7,0\n"), unreadable("standard input: row 2: 2 fields, and the heading has 3"));
    let range = "is no whole number from -2147483648 to 2147483647";
    assert_eq!(judge("line,start,end\n7,0,4.5\n"), unreadable(&format!("standard input: row 2: end \"4.5\" {range}")));
    assert_eq!(wallcheck(&["judge", &path, "-", "-"], b"").0, Some(2));
    assert_eq!(wallcheck(&["judge", "--starts", "-", &path, &crossings, "-"], b"").0, Some(2));
}

#[test]
fn a_sheet_moved_there_and_back() {
    let moved = |sheet: &[u8]| {
        let path = file("moved.sheet", sheet);
        let output = Command::new(WALLCHECK).args(["move", &path]).output().unwrap();
        assert!(output.status.success());
        output.stdout
    };
    let there = moved(&worked());
    assert_eq!((there[4], there[17]), (2, 4));
    assert_eq!(moved(&there), worked());
    let path = file("there.sheet", &there);
    assert_eq!(wallcheck(&["list", &path], b""), wallcheck(&["list", "-"], &worked()));
    let ends = "refused 1 at byte 29 of the customer's sheet: the sheet ends too soon";
    assert_eq!(wallcheck(&["move", "-"], &there[..29]), refused(ends));
    let mut exclusive = worked();
    exclusive[29] = 0xF3;
    let out_of_use = "a move to edition 2 of a sheet with an exclusive union";
    assert_eq!(wallcheck(&["move", "-"], &exclusive), refused(&format!("refused 19 at byte 28 of the customer's sheet: {out_of_use}")));
}

#[test]
fn unreadable_files() {
    let path = file("files.sheet", &worked());
    assert_eq!(wallcheck(&["read", "/no/such/file"], b"").0, Some(2));
    let said = |list: &[u8]| wallcheck(&["walls", &path, "-"], list);
    let heading = "the heading is to be line,position,name or line,position,shape";
    assert_eq!(said(b""), unreadable("standard input: is empty; its heading is line,position,name or line,position,shape"));
    for wrong in ["1,2,3", "line,position,name,shape", "line,line,name", "name,shape,line", "line,position"] {
        assert_eq!(said(wrong.as_bytes()), unreadable(&format!("standard input: row 1: {heading}, and it is \"{wrong}\"")));
    }
    assert_eq!(said(b"line,position,name\n1,2\n"), unreadable("standard input: row 2: 2 fields, and the heading has 3"));
    let range = "is no whole number from -2147483648 to 2147483647";
    assert_eq!(said(b"line,position,name\n1,2.5,A\n"), unreadable(&format!("standard input: row 2: position \"2.5\" {range}")));
    assert_eq!(
        said(b"line,position,name\n1,2147483648,A\n"),
        unreadable(&format!("standard input: row 2: position \"2147483648\" {range}"))
    );
    let line = "standard input: row 2: line \"-1\" is no whole number from 0 to 4294967295";
    assert_eq!(said(b"line,position,name\n-1,0,A\n"), unreadable(line));
    let shape = "standard input: row 2: shape \"A\" is no whole number from 0 to 65535; names stand below the heading 'name'";
    assert_eq!(said(b"line,position,shape\n1,0,A\n"), unreadable(shape));
    assert_eq!(said(b"line,position,name\n1,2,A\n\n1,\xFF,A\n"), unreadable("standard input: row 4: is not text in UTF-8"));
}

/// Half-spaces, boxes and balls of a drawing, by name or by number, on lines.
#[test]
fn crossings_of_a_drawing() {
    let lines = file("lines.csv", b"line,x,y,z,dx,dy,dz\n3,0,0,0,1,0,0\n9,10,0,0,-1,0,0\n");
    let said = |shapes: &str| wallcheck(&["cross", "-", &lines], shapes.as_bytes());
    let all = "name,high_x,high_y,high_z,low_x,low_y,low_z,radius,x,y,z\nball,,,,,,,2,5,0,0\nface,5,,,,,,,,,\n\"a,b\",7,1,1,3,-1,-1,,,,\n";
    let due = "3,3000,ball\n3,3000,\"a,b\"\n3,5000,face\n3,7000,ball\n3,7000,\"a,b\"\n9,3000,ball\n9,3000,\"a,b\"\n9,5000,face\n9,7000,ball\n9,7000,\"a,b\"\n";
    let starts = |shape: &str| {
        let why = "'walls' needs what 'cross --starts' gives, by its --starts; 'check' uses it by itself";
        format!("wallcheck: {lines}: line 3 starts in \"{shape}\": {why}\n")
    };
    assert_eq!(said(all), (Some(0), format!("line,position,name\n{due}"), starts("face")));
    assert_eq!(wallcheck(&["cross", "--starts", "-", &lines], all.as_bytes()), answered("line,name\n3,face\n"));
    let by_number = "shape,high_x,high_y,high_z\n4,2.5,,\n7,,0,\n";
    assert_eq!(said(by_number), (Some(0), "line,position,shape\n3,2500,4\n9,7500,4\n".into(), starts("4")));
    assert_eq!(wallcheck(&["cross", "--starts", "-", &lines], by_number.as_bytes()), answered("line,shape\n3,4\n"));
    assert_eq!(said("name,x\n"), answered("line,position,name\n"));
}

#[test]
fn refused_drawings() {
    let shapes = file("ball.csv", b"name,high_z,x,y,z,radius\nface,1,,,,\nball,,5,0,0,2\nlarge,,5,0,0,1000.001\n");
    let lines = |rows: &str| wallcheck(&["cross", &shapes, "-"], format!("line,x,y,z,dx,dy,dz\n{rows}").as_bytes());
    let radius = "refused 18 at ball 1: radius 1000.001 is none from 0.001 to 1000";
    assert_eq!(lines("1,0,0,0,1,0,0\n"), refused_of(&shapes, &format!("{radius}\n  row 4: \"large\"")));
    let still = "refused 16 for the line: dx, dy and dz are all zero\n  row 2: line 1";
    let faces = file("faces.csv", b"name,high_z\nface,1\nfar,1e300\n");
    assert_eq!(wallcheck(&["cross", &faces, "-"], b"line,x,y,z,dx,dy,dz\n1,0,0,0,0,0,-0.0\n"), refused(still));
    let far = "refused 16 at shape 1: high_z 1e300 lies at position 1e303 on this line, and positions are -2147483647 to 2147483646";
    let about = "row 3: \"far\", on line 1, row 2 of standard input";
    let said = wallcheck(&["cross", &faces, "-"], b"line,x,y,z,dx,dy,dz\n1,0,0,0,0,0,1\n");
    assert_eq!(said, refused_of(&faces, &format!("{far}\n  {about}")));

    let parallel = "row 2: where there are balls, a line has 1 or -1 in one of dx, dy, dz and 0 in the others";
    assert_eq!(lines("1,0,0,0,0.6,0.8,0\n"), unreadable(&format!("standard input: {parallel}")));
    assert_eq!(lines("1,0,0,0,2,0,0\n"), unreadable(&format!("standard input: {parallel}")));
    let whole = "row 2: where there are balls, x, y and z are in whole micrometres, with three decimals at most";
    assert_eq!(lines("1,0,0.0005,0,1,0,0\n"), unreadable(&format!("standard input: {whole}")));
    assert_eq!(lines("1,0,0,0,1,0,0\n1,0,0,0,1,0,0\n"), unreadable("standard input: row 3: line 1 comes after line 1"));
    assert_eq!(lines("1,0,0,zero,1,0,0\n"), unreadable("standard input: row 2: z \"zero\" is no number"));

    let shapes = |text: &str| wallcheck(&["cross", "-", &faces], text.as_bytes());
    let kinds = "a box has three lows and three highs, a half-space one high alone, a ball x, y, z and radius";
    assert_eq!(shapes("name,low_x\na,1\n"), unreadable(&format!("standard input: row 2: {kinds}")));
    assert_eq!(shapes("name,high_x,radius\na,1,1\n"), unreadable(&format!("standard input: row 2: {kinds}")));
    let ball = "standard input: row 2: radius \"0.0001\" of a ball is not in whole micrometres";
    assert_eq!(shapes("name,x,y,z,radius\na,1,1,1,0.0001\n"), unreadable(ball));
    assert_eq!(shapes("name,high_x\na,1\na,2\n"), unreadable("standard input: row 3: \"a\" stands at row 2 already"));
    let heading = "standard input: row 1: the heading is to be name or shape, and of low_x,low_y,low_z,high_x,high_y,high_z,x,y,z,radius those that are needed";
    for wrong in ["high_x\n", "name,shape\n", "name,width\n", "name,x,x\n"] {
        assert_eq!(shapes(wrong), unreadable(&format!("{heading}, and it is \"{}\"", wrong.trim_end())), "{wrong}");
    }
}

#[test]
fn usage() {
    let said = |args: &[&str]| wallcheck(args, b"");
    let usage = |text: &str, help: &str| (Some(2), String::new(), format!("wallcheck: {text}\nTry 'wallcheck {help}'.\n"));
    assert_eq!(said(&[]), usage("a command is missing", "--help"));
    assert_eq!(said(&["raed", "-"]), usage("there is no command 'raed'", "--help"));
    assert_eq!(said(&["read"]), usage("'read' takes one file: SHEET", "help read"));
    assert_eq!(said(&["move", "a", "b"]), usage("'move' takes one file: SHEET", "help move"));
    assert_eq!(said(&["make"]), usage("'make' takes one file: TEXT", "help make"));
    assert_eq!(said(&["make", "--edition", "3", "a"]), usage("there is no edition '3'", "help make"));
    assert_eq!(said(&["show", "a", "b"]), usage("'show' takes one file: SHEET", "help show"));
    assert_eq!(said(&["run", "a"]), usage("'run' takes two files: SHEET TOGGLES", "help run"));
    assert_eq!(said(&["both", "a", "b"]), usage("'both' takes four files: SHEET TOGGLES TOGGLES ORDER", "help both"));
    assert_eq!(said(&["both", "a", "-", "-", "b"]), usage("only one of the files can be standard input", "help both"));
    assert_eq!(said(&["walls", "a", "b", "c"]), usage("'walls' takes two files: SHEET CROSSINGS", "help walls"));
    assert_eq!(said(&["judge", "a", "b"]), usage("'judge' takes three files: SHEET CROSSINGS THEIRS", "help judge"));
    assert_eq!(said(&["judge", "-", "a", "-"]), usage("only one of the files can be standard input", "help judge"));
    assert_eq!(said(&["cross", "a"]), usage("'cross' takes two files: SHAPES LINES", "help cross"));
    assert_eq!(said(&["cross", "-", "-"]), usage("only one of the files can be standard input", "help cross"));
    assert_eq!(said(&["walls", "-", "-"]), usage("only one of the files can be standard input", "help walls"));
    let due = format!("wallcheck {}, with the library compiled for {}\n", env!("CARGO_PKG_VERSION"), kressedach::PROCESSOR);
    assert_eq!(said(&["--version"]).1, due);
}

/// A page of all commands, and one for each, which two ways ask for.
#[test]
fn help() {
    let said = |args: &[&str]| wallcheck(args, b"");
    let (status, overview, _) = said(&["--help"]);
    assert_eq!(status, Some(0));
    assert!(overview.lines().count() <= 60 && overview.lines().all(|line| line.len() <= 80), "{overview}");
    assert_eq!(said(&["help"]), answered(&overview));
    let commands: Vec<&str> = overview.lines().filter_map(|line| line.strip_prefix("  wallcheck ")?.split(' ').next()).collect();
    assert!(commands.len() > 10, "{commands:?}");
    for command in commands.into_iter().filter(|command| !["help", "--help"].contains(command)) {
        let (status, help, _) = said(&["help", command]);
        assert_eq!(status, Some(0), "{command}");
        assert!(help.starts_with(&format!("wallcheck {command} ")) && help != overview, "{command}");
        assert_eq!(said(&[command, "--help"]), answered(&help));
        assert_eq!(said(&[command, "a", "-h"]), answered(&help));
    }
    assert_eq!(said(&["help", "raed"]).0, Some(2));
}
