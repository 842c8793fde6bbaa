//! `wallcheck check` beside `cross`, `cross --starts` and `walls`, on drawings from a seed; LINES in blocks; answers whole or not at all.

mod said;

use peer::make::{self, Dice, Form};
use said::{file, WALLCHECK};
use std::process::{Command, Output};

/// A drawing: names and formula as a page, shapes, lines.
struct Drawing {
    page: String,
    shapes: String,
    lines: String,
}

const OPERATIONS: [&str; 4] = ["union", "intersection", "difference", "exclusive"];

/// Codes in postfix order as a page has them.
fn formula(codes: &[u16]) -> String {
    let mut waiting: Vec<String> = Vec::new();
    for code in codes {
        let part = match code.checked_sub(0xFFF0) {
            None => format!("n{code}"),
            Some(operation) => {
                let right = waiting.pop().unwrap();
                format!("({} {} {right})", waiting.pop().unwrap(), OPERATIONS[usize::from(operation)])
            }
        };
        waiting.push(part);
    }
    waiting.pop().unwrap()
}

/// Half a micrometre, or a millimetre, or in between: so that faces meet, and positions lie halfway.
fn length(dice: &mut Dice) -> f64 {
    let whole = dice.below(61) as f64 - 30.0;
    whole * dice.of_these(&[1.0, 1.0, 0.5, 0.001])
}

fn shape(dice: &mut Dice, balls: bool) -> String {
    if balls && dice.once_in(3) {
        return format!(
            ",,,,,,{},{},{},{}",
            dice.below(41) as f64 - 20.0,
            dice.below(9) as f64 - 4.0,
            dice.below(9) as f64 - 4.0,
            1 + dice.below(20)
        );
    }
    if dice.once_in(4) {
        let mut highs = [String::new(), String::new(), String::new()];
        highs[dice.below(3)] = length(dice).to_string();
        return format!(",,,{},,,,", highs.join(","));
    }
    let lows = [0; 3].map(|_| length(dice));
    let highs = lows.map(|low| low + 0.001 * (1 + dice.below(40_000)) as f64);
    let text = |limits: [f64; 3]| limits.map(|limit| limit.to_string()).join(",");
    format!("{},{},,,,", text(lows), text(highs))
}

fn line(dice: &mut Dice, balls: bool) -> String {
    let mut direction = ["0"; 3];
    if balls || dice.once_in(2) {
        direction[dice.below(3)] = dice.of_these(&["1", "-1"]);
    } else {
        direction = dice.of_these(&[["0.6", "0.8", "0"], ["0", "-0.6", "0.8"], ["-0.48", "0.64", "0.6"], ["0.6", "0.48", "-0.64"]]);
    }
    let origin = [0; 3].map(|_| if balls { (dice.below(61) as f64 - 30.0).to_string() } else { length(dice).to_string() });
    format!("{},{}", origin.join(","), direction.join(","))
}

impl Drawing {
    fn of(dice: &mut Dice) -> Drawing {
        let names = dice.size(40);
        let (leaves, form, balls) = (dice.size(60), dice.of_these(&Form::ALL), dice.once_in(3));
        let codes = make::codes(dice, names, leaves, form);
        let named: String = (0..names).map(|k| format!("n{k}\n")).collect();
        // in any order, and names that the formula never uses without a shape now and then
        let mut order: Vec<usize> = (0..names).filter(|k| codes.contains(&(*k as u16)) || !dice.once_in(2)).collect();
        (1..order.len()).for_each(|k| order.swap(k, dice.below(k + 1)));
        let shapes: String = order.iter().map(|k| format!("n{k},{}\n", shape(dice, balls))).collect();
        let (mut number, mut lines) = (0, String::new());
        for _ in 0..dice.below(120) {
            number += 1 + if dice.once_in(3) { dice.below(1000) } else { 0 };
            lines += &format!("{number},{}\n{}", line(dice, balls), if dice.once_in(9) { "\n" } else { "" });
        }
        Drawing {
            page: format!("{named}formula {}\n", formula(&codes)),
            shapes: format!("name,low_x,low_y,low_z,high_x,high_y,high_z,x,y,z,radius\n{shapes}"),
            lines: format!("line,x,y,z,dx,dy,dz\n{lines}"),
        }
    }
}

fn run(args: &[&str], piece: usize) -> Output {
    Command::new(WALLCHECK).args(args).env("WALLCHECK_PIECE", piece.to_string()).output().unwrap()
}

fn text(bytes: &[u8]) -> String {
    String::from_utf8_lossy(bytes).into_owned()
}

#[test]
fn the_walls_of_cross_and_walls() {
    let mut walls = 0;
    for case in 0..120 {
        let mut dice = Dice::of(3636, case);
        let drawing = Drawing::of(&mut dice);
        let [page, shapes, lines] = [("page", &drawing.page), ("shapes", &drawing.shapes), ("lines", &drawing.lines)]
            .map(|(what, text)| file(&format!("agree-{what}"), text.as_bytes()));
        let make = run(&["make", &page], 0);
        let sheet = file("agree-sheet", &make.stdout);
        let crossings = file("agree-crossings", &run(&["cross", &shapes, &lines], 0).stdout);
        let starts = file("agree-starts", &run(&["cross", "--starts", &shapes, &lines], 0).stdout);
        let due = run(&["walls", "--starts", &starts, &sheet, &crossings], 0);
        assert_eq!(due.status.code(), Some(0), "case {case}: {}", text(&due.stderr));
        for piece in [1, 1 + dice.below(300), 1 << 18] {
            let got = run(&["check", &page, &shapes, &lines], piece);
            assert_eq!(got.status.code(), Some(0), "case {case}: {}", text(&got.stderr));
            assert!(
                got.stdout == due.stdout,
                "case {case}, {piece} bytes a piece\n{}\n{}\n{}",
                drawing.page,
                drawing.shapes,
                drawing.lines
            );
        }
        walls += text(&due.stdout).lines().count() - 1;
    }
    assert!(walls > 1000, "{walls} walls are too few to compare");
}

/// Rows are counted through all pieces, and what is wrong in several of them is said at once.
#[test]
fn rows_of_lines_in_pieces() {
    let page = file("pieces-page", b"A\nformula A\n");
    let shapes = file("pieces-shapes", b"name,high_x\nA,5\n");
    let lines =
        "\u{FEFF}\n\n line ;x;y;z;dx;dy;dz\n\n1;0;0;0;1;0;0\n\n;;;;;;\n2;0,5;0;0;2;0;0\n3;zero;0;0;1;0;0\n3;0;0;0;1;0;0\n9;0;0.5;0;1;0;0\n";
    let faults = [
        "row 8: the direction has length 2, and not 1: positions would not be micrometres; --normalise divides by it",
        "row 9: x \"zero\" is no number",
        "row 10: line 3 comes after line 3",
        "row 11: y \"0.5\" has a point, and row 8 has a comma: one file has one decimal mark",
    ];
    for piece in [1, 20, 45, 1 << 18] {
        let path = file("pieces-lines", lines.as_bytes());
        let said = run(&["check", &page, &shapes, &path], piece);
        assert_eq!((said.status.code(), text(&said.stdout)), (Some(2), String::new()));
        let due = faults.map(|fault| format!("wallcheck: {path}: {fault}\n")).concat();
        assert_eq!(text(&said.stderr), due, "{piece} bytes a piece");
        let good = file(
            "pieces-lines",
            lines.replace(";2;0;0\n", ";1;0;0\n").replace("3;zero;0;0;1;0;0\n3;", "3;").replace("0.5", "0,5").as_bytes(),
        );
        let said = run(&["check", &page, &shapes, &good], piece);
        assert_eq!(text(&said.stdout).lines().skip(1).count(), 4, "{}", text(&said.stderr));
    }
    for (wrong, due) in [
        (&b"line,x\n1,2\n"[..], "row 1: the heading is to be line,x,y,z,dx,dy,dz, and it is \"line,x\""),
        (b"", "is empty; its heading is line,x,y,z,dx,dy,dz"),
        (b"\n\n,,\n", "is empty; its heading is line,x,y,z,dx,dy,dz"),
        (b"line,x,y,z,dx,dy,dz\n1,0,0,0,1,0,0\n2,0,0,\xFF,1,0,0\n", "row 3: is not text in UTF-8"),
    ] {
        for piece in [1, 40, 1 << 18] {
            let path = file("pieces-wrong", wrong);
            let said = run(&["check", &page, &shapes, &path], piece);
            assert_eq!((said.status.code(), text(&said.stdout)), (Some(2), String::new()));
            assert_eq!(text(&said.stderr), format!("wallcheck: {path}: {due}\n"), "{piece}");
        }
    }
    let endless = file("pieces-endless", &[b'x'; 3 << 20]);
    assert!(text(&run(&["check", &page, &shapes, &endless], 1 << 18).stderr).contains("row 1: longer than 1048576 bytes"));
}

/// A refusal of the last of many lines prints no wall, and leaves the file of `-o` as it was.
#[test]
fn a_refusal_prints_no_wall() {
    let (page, shapes) = (file("whole-page", b"A\nformula A\n"), file("whole-shapes", b"name,high_x\nA,5\n"));
    let mut lines = String::from("line,x,y,z,dx,dy,dz\n");
    (0..30_000).for_each(|k| lines += &format!("{k},0,{k},0,1,0,0\n"));
    let good = file("whole-lines", lines.as_bytes());
    let answer = file("whole-answer", b"what was there");
    let refused = file("whole-refused", format!("{lines}30000,1e300,0,0,1,0,0\n").as_bytes());
    for piece in [700, 1 << 18] {
        let said = run(&["check", &page, &shapes, &refused], piece);
        assert_eq!((said.status.code(), text(&said.stdout)), (Some(1), String::new()));
        assert!(text(&said.stderr).contains("refused 16 at shape 0"), "{}", text(&said.stderr));
        let said = run(&["check", "-o", &answer, &page, &shapes, &refused], piece);
        assert_eq!((said.status.code(), text(&said.stdout)), (Some(1), String::new()));
        assert_eq!(std::fs::read(&answer).unwrap(), b"what was there");
    }
    let said = run(&["check", "-o", &answer, &page, &shapes, &good], 700);
    assert_eq!((said.status.code(), said.stdout.len(), said.stderr.len()), (Some(0), 0, 0));
    let due = run(&["check", &page, &shapes, &good], 1 << 18).stdout;
    assert!(std::fs::read(&answer).unwrap() == due && text(&due).lines().count() == 30_001);
}
