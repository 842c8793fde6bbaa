//! What spreadsheets write: other separators, decimal commas, empty rows, more decimals than are needed.

mod said;

use peer::make::sheet;
use said::{answered, file, refused, unreadable, wallcheck};

#[test]
fn every_list_with_every_separator() {
    let path = file("separated.sheet", &sheet(&["Body", "Bore"], &[0, 1, 0xFFF2]));
    let crossings = "line,position,name\n7,0,Body\n,,\n7,40,Bore\n7,60,\"Bore\"\n\n7,100,Body\n";
    let walls = answered("line,start,end,start_shape,end_shape\n7,0,40,Body,Bore\n7,60,100,Bore,Body\n");
    let (starts, theirs) = ("line,name\n,\n", "line,start,end\n7,0,40\n,,,,\n7,60,100\n");
    let (toggles, edits, order) = ("shape\n0\n1\n", "after,position,operation\n1,2,union\n", "foundry\n0\n0\n1\n1\n");
    for separator in [",", ";", "\t"] {
        let made = |name: &str, text: &str| file(&format!("separated-{name}.csv"), text.replace(',', separator).as_bytes());
        let (crossings, starts, theirs) = (made("crossings", crossings), made("starts", starts), made("theirs", theirs));
        assert_eq!(wallcheck(&["walls", "--starts", &starts, &path, &crossings], b""), walls, "{separator:?}");
        assert_eq!(wallcheck(&["judge", &path, &crossings, &theirs], b""), answered("right\n"), "{separator:?}");
        let (toggles, edits, order) = (made("toggles", toggles), made("edits", edits), made("order", order));
        assert_eq!(wallcheck(&["run", "--edits", &edits, &path, &toggles], b"").0, Some(0), "{separator:?}");
        assert_eq!(wallcheck(&["both", &path, &toggles, &toggles, &order], b"").0, Some(0), "{separator:?}");
    }
    let fields = "standard input: row 2: 1 fields, and the heading has 3";
    assert_eq!(wallcheck(&["walls", &path, "-"], b"line;position;name\n7,0,Body\n"), unreadable(fields));
    let row = "refused 10 at entry 1: a shape number that no name has\n  row 5: shape 2, and the last one is 1";
    assert_eq!(
        wallcheck(&["run", &path, "-"], b"\xEF\xBB\xBFshape;\n"),
        unreadable("standard input: row 1: the heading is to be name or shape, and it is \"shape;\"")
    );
    assert_eq!(wallcheck(&["walls", &path, "-"], b"line;position;shape\n;;\n7;0;0\n ; ;\n7;1;2\n"), refused(row));
}

/// Commas and points in files that semicolons divide, and whole micrometres however many zeros follow.
#[test]
fn the_numbers_of_a_drawing() {
    let shapes = "name;x;y;z;radius;high_x\nball;5,0000;0;0;2,5000;\nface;;;;;0,0005\n";
    let lines = file("numbers-lines.csv", b"line;x;y;z;dx;dy;dz\n3;-1,5000;0,000;0;1;0;0\n");
    let cross = |shapes: &str, lines: &str| wallcheck(&["cross", "-", lines], shapes.as_bytes());
    let due = (Some(0), "line,position,name\n3,1500,face\n3,4000,ball\n3,9000,ball\n".to_string());
    let said = cross(shapes, &lines);
    assert_eq!((said.0, said.1), due);
    let points = file("numbers-points.csv", b"line\tx\ty\tz\tdx\tdy\tdz\n\t\t\t\t\t\t\n3\t-1.5000\t0\t0.0\t1\t0\t0\n");
    let said = cross(&shapes.replace(',', ".").replace(';', ","), &points);
    assert_eq!((said.0, said.1), due);
    // a point that stands for thousands is not read as a decimal mark
    let mixed = "standard input: row 3: high_x \"1.234\" has a point, and row 2 has a comma: one file has one decimal mark";
    assert_eq!(cross(&shapes.replace("0,0005", "1.234"), &lines), unreadable(mixed));
    assert_eq!(cross("name;high_x\na;1.234,5\n", &lines), unreadable("standard input: row 2: high_x \"1.234,5\" is no number"));
    assert_eq!(cross("name\thigh_x\na\t1,5\n", &lines), unreadable("standard input: row 2: high_x \"1,5\" is no number"));
    let part = "standard input: row 2: radius \"2,5001\" of a ball is not in whole micrometres";
    assert_eq!(cross(&shapes.replace("2,5000", "2,5001"), &lines), unreadable(part));
}
