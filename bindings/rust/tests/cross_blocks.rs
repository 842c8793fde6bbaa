//! `wallcheck cross` in blocks: what the library gives line by line, whatever the size of a block; and of two faults the same one.

mod said;

use kressedach::{cross, cross_balls, Axis, Ball, Probe, Shape};
use said::{file, WALLCHECK};
use std::fmt::Write;
use std::process::{Command, Output};

const HEADING: &str = "line,x,y,z,dx,dy,dz\n";
const PIECES: [usize; 3] = [40, 700, 1 << 18];

fn run(args: &[&str], piece: usize) -> Output {
    Command::new(WALLCHECK).args(args).env("WALLCHECK_PIECE", piece.to_string()).output().unwrap()
}

/// A ball between two boxes, and half-spaces at both ends.
const SHAPES: &str = "name,low_x,low_y,low_z,high_x,high_y,high_z,x,y,z,radius\n\
                      below,,,,,,12,,,,\nblock,0,0,0,100,60,30,,,,\nball,,,,,,,50,30,15,20\nbore,40,20,-1,60,40,31,,,,\nleft,,,,75,,,,,,\n";
const NAMES: [&str; 5] = ["below", "block", "ball", "bore", "left"];

/// The crossings of a line, and the shapes in which it starts, as the library gives them for it alone.
fn alone(number: usize, origin: [i32; 3]) -> [String; 2] {
    let probe = Probe { origin: origin.map(f64::from), direction: [1.0, 0.0, 0.0] };
    let block = Shape::Box { lows: [0.0, 0.0, 0.0], highs: [100.0, 60.0, 30.0] };
    let bore = Shape::Box { lows: [40.0, 20.0, -1.0], highs: [60.0, 40.0, 31.0] };
    let plain = [Shape::HalfSpace { axis: Axis::Z, face: 12.0 }, block, bore, Shape::HalfSpace { axis: Axis::X, face: 75.0 }];
    let crossed = cross(probe, &plain).unwrap();
    let ball = Ball { offsets: [origin[1] - 30, origin[2] - 15].map(|mm| mm * 1000), radius: 20_000, centre: (50 - origin[0]) * 1000 };
    let places = [0, 1, 3, 4];
    let plain = crossed.positions.iter().zip(&crossed.shapes).map(|(position, shape)| (*position, places[usize::from(*shape)]));
    let mut all: Vec<(i32, usize)> =
        plain.chain(cross_balls(&[ball]).unwrap().positions.into_iter().map(|position| (position, 2))).collect();
    all.sort();
    let inside = crossed.inside(0).map(|start| format!("{number},{}\n", NAMES[places[usize::from(start.shape)]])).collect();
    [all.iter().map(|(position, shape)| format!("{number},{position},{}\n", NAMES[*shape])).collect(), inside]
}

/// Lines enough for many blocks, and for an answer that does not wait in memory alone.
#[test]
fn line_by_line() {
    let (mut lines, mut due) = (HEADING.to_string(), ["line,position,name\n", "line,name\n"].map(String::from));
    for number in 0..40_000 {
        let origin = [-(number as i32 % 7), number as i32 % 70 - 5, number as i32 / 70 % 40 - 5];
        writeln!(lines, "{number},{},{},{},1,0,0", origin[0], origin[1], origin[2]).unwrap();
        due.iter_mut().zip(alone(number, origin)).for_each(|(due, line)| *due += &line);
    }
    assert!(due.iter().all(|due| due.len() > 600_000) && due[0].len() > 1 << 20);
    let (shapes, lines) = (file("blocks-shapes", SHAPES.as_bytes()), file("blocks-lines", lines.as_bytes()));
    let answer = file("blocks-answer", b"what was there");
    for piece in PIECES {
        let [crossings, starts] = [&["cross", &shapes, &lines][..], &["cross", "--starts", &shapes, &lines]].map(|args| run(args, piece));
        assert!(crossings.stdout == due[0].as_bytes() && starts.stdout == due[1].as_bytes(), "{piece} bytes a piece");
        let said = run(&["cross", &shapes, &lines, "-o", &answer], piece);
        assert!(said.stdout.is_empty() && std::fs::read(&answer).unwrap() == due[0].as_bytes());
    }
}

/// That nothing is printed, the status is this and these words are said of SHAPES or of LINES, whatever the size of a piece.
fn stopped(shapes: &str, rows: &[&str], status: i32, words: &str) {
    let lines = format!("{HEADING}{}\n", rows.join("\n"));
    let (shapes, lines) = (file("blocks-stopped-shapes", shapes.as_bytes()), file("blocks-stopped-lines", lines.as_bytes()));
    for piece in PIECES {
        let said = run(&["cross", &shapes, &lines], piece);
        let words_said = String::from_utf8(said.stderr).unwrap().replace(&shapes, "SHAPES").replace(&lines, "LINES");
        assert_eq!((said.status.code(), said.stdout.len()), (Some(status), 0), "{words_said}");
        assert!(words_said.starts_with(&format!("wallcheck: {words}")), "{words_said}");
    }
}

/// A wrong row is said before a refusal, wherever it stands; of refusals the first line's.
#[test]
fn the_first_of_two_faults() {
    let shapes = "name,high_x,x,y,z,radius\nface,3000000,,,,\nball,,0,0,0,5\n";
    let (good, far, slanted) = ("1,1000000,0,0,1,0,0", "2,0,0,0,1,0,0", "3,1000000,0,0,0,0.6,0.8");
    let (off, wrong) = ("4,1000000,0,2000,1,0,0", "5,zero,0,0,1,0,0");
    let (refused, parallel) = ("SHAPES: refused 16 at shape 0: high_x 3000000 lies", "LINES: row 3: where there are balls, a line has 1");
    stopped(shapes, &[good, far, slanted], 1, refused);
    stopped(shapes, &[good, slanted, &far.replacen('2', "7", 1)], 2, parallel);
    stopped(shapes, &[good, far, off], 1, refused);
    stopped(shapes, &[good, off, &far.replacen('2', "7", 1)], 1, "SHAPES: refused 18 at ball 0: z 0 is 2000 mm off");
    for early in [far, slanted, off] {
        stopped(shapes, &[good, early, wrong], 2, "LINES: row 4: x \"zero\" is no number");
    }
    // of one line that has both it is said that it fits no ball
    stopped(shapes, &[good, "2,0,0,0,0.6,0.8,0"], 2, parallel);
    stopped("name,high_x\nface,3000000\n", &["1,0,0,0,0,0,1", "2,0,0,0,1,0,0", "3,0,0,0,0,0,0"], 1, "SHAPES: refused 16 at shape 0");
    stopped("name,high_x\nface,3000000\n", &["1,0,0,0,0,0,1", "3,0,0,0,0,0,0", "4,0,0,0,1,0,0"], 1, "LINES: refused 16 for the line");
}
