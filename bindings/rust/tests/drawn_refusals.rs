//! Refusals 16 and 18 of a drawing: one number, one row, one reason.

mod said;

use said::{file, refused_of, wallcheck, Said};
use std::sync::atomic::{AtomicUsize, Ordering};

const BOX: &str = "name,low_x,low_y,low_z,high_x,high_y,high_z,x,y,z,radius\n";

/// What is said of shapes and a line, and the files of both.
fn crossed(shapes: &str, line: &str) -> (Said, String, String) {
    static FILES: AtomicUsize = AtomicUsize::new(0);
    let number = FILES.fetch_add(1, Ordering::Relaxed);
    let shapes = file(&format!("drawn-{number}-shapes.csv"), format!("{BOX}{shapes}").as_bytes());
    let lines = file(&format!("drawn-{number}-lines.csv"), format!("line,x,y,z,dx,dy,dz\n{line}\n").as_bytes());
    (wallcheck(&["cross", &shapes, &lines], b""), shapes, lines)
}

#[test]
fn a_shape_that_is_wrong_on_every_line() {
    for (row, why) in [
        ("a,0,0,0,1,-1,1,,,,", "low_y 0 is not below high_y -1"),
        ("a,5,0,0,5,1,1,,,,", "low_x 5 is not below high_x 5"),
        ("a,0,0,0,1,1,inf,,,,", "high_z inf is not finite"),
        ("a,,,,NaN,,,,,,", "high_x NaN is not finite"),
    ] {
        let (said, shapes, _) = crossed(&format!("first,,,,,1,,,,,\n{row}\n"), "1,0,0.5,0,1,0,0");
        assert_eq!(said, refused_of(&shapes, &format!("refused 16 at shape 1: {why}\n  row 3: \"a\"")), "{row}");
    }
    let (said, shapes, _) = crossed("a,,,,,,,0,0,0,0\n", "1,0,0,0,1,0,0");
    assert_eq!(said, refused_of(&shapes, "refused 18 at ball 0: radius 0 is none from 0.001 to 1000\n  row 2: \"a\""));
}

#[test]
fn a_shape_that_is_wrong_on_this_line() {
    let positions = "positions are -2147483647 to 2147483646";
    for (row, line, why) in [
        (
            "a,,,,,,3000000,,,,",
            "4,0,0,0,0,0,1",
            format!("16 at shape 0: high_z 3000000 lies at position 3000000000 on this line, and {positions}"),
        ),
        (
            "a,0,0,0,1,1,1,,,,",
            "4,9,0,0,0.0000001,0,1",
            format!("16 at shape 0: low_x 0 lies at position -90000000000 on this line, and {positions}"),
        ),
        ("a,,,,,,,0,0,0,1", "4,0,1000.001,0,1,0,0", "18 at ball 0: y 0 is 1000.001 mm off this line, and 1000 mm are the most".into()),
        ("a,,,,,,,0,0,-5,1", "4,0,0,9999,0,1,0", "18 at ball 0: z -5 is 10004 mm off this line, and 1000 mm are the most".into()),
        (
            "a,,,,,,,2000000,0,0,1",
            "4,0,0,0,-1,0,0",
            "18 at ball 0: x 2000000 lies at position -2000000000 on this line, and a ball's centre -1000000000 to 1000000000".into(),
        ),
    ] {
        let (said, shapes, lines) = crossed(&format!("{row}\n"), line);
        assert_eq!(said, refused_of(&shapes, &format!("refused {why}\n  row 2: \"a\", on line 4, row 2 of {lines}")), "{row}");
    }
}

#[test]
fn a_line_that_is_wrong() {
    for (line, why) in [
        ("4,0,0,0,0,-0.0,0", "dx, dy and dz are all zero"),
        ("4,0,inf,0,1,0,0", "y inf is not finite"),
        ("4,0,0,0,1,0,NaN", "dz NaN is not finite"),
    ] {
        let (said, _, lines) = crossed("a,,,,,,3,,,,\n", line);
        assert_eq!(said, refused_of(&lines, &format!("refused 16 for the line: {why}\n  row 2: line 4")), "{line}");
    }
}

/// Of too many shapes the shapes' file is at fault, and the row of the first that is too many.
#[test]
fn too_many_shapes() {
    let faces: String = (0..257).map(|k| format!("f{k},,,,1,,,,,,\n")).collect();
    let (said, shapes, _) = crossed(&faces, "1,0,0,0,1,0,0");
    assert_eq!(said, refused_of(&shapes, "refused 16: more than 256 half-spaces and boxes\n  row 258: \"f256\" is the 257th"));
    let balls: String = (0..258).map(|k| format!("b{k},,,,,,,0,0,0,1\n")).collect();
    let (said, shapes, _) = crossed(&format!("face,,,,1,,,,,,\n{balls}"), "1,0,0,0,1,0,0");
    assert_eq!(said, refused_of(&shapes, "refused 18: more than 256 balls\n  row 259: \"b256\" is the 257th"));
}
