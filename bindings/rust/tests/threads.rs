//! `--threads N`: the same bytes, the same words and the same status for any N, and what is said of an N that is none.

mod said;

use said::{file, unreadable, wallcheck, Said};

const THREADS: [&str; 6] = ["0", "1", "2", "3", "8", "1024"];

/// What is said without the option, which is also said with any number.
fn alike(args: &[&str]) -> Said {
    let due = wallcheck(args, b"");
    for threads in THREADS {
        assert_eq!(wallcheck(&[args, &["--threads", threads]].concat(), b""), due, "{threads} threads, {args:?}");
    }
    due
}

fn example(name: &str) -> String {
    format!("{}/../../examples/{name}", env!("CARGO_MANIFEST_DIR"))
}

#[test]
fn the_examples() {
    let [block, crossings, theirs, shapes, lines, page] =
        ["block.sheet", "block-crossings.csv", "block-theirs.csv", "block-shapes.csv", "block-lines.csv", "block.txt"].map(example);
    assert_eq!(alike(&["walls", &block, &crossings]).0, Some(0));
    assert!(alike(&["judge", &block, &crossings, &theirs]).0.is_some());
    assert_eq!(alike(&["cross", &shapes, &lines]).0, Some(0));
    assert_eq!(alike(&["cross", "--starts", &shapes, &lines]).0, Some(0));
    assert_eq!(alike(&["check", "--summary", "--points", &page, &shapes, &lines]).0, Some(0));
    let [valve, astray, starts] = ["valve.sheet", "valve-astray.csv", "valve-starts.csv"].map(example);
    assert_eq!(alike(&["walls", "--starts", &starts, &valve, &astray]).0, Some(1));
}

/// A plate with ribs and a vent, and lines of which every seventh starts below a face.
fn drawing() -> [String; 3] {
    let ribs: String = (0..20).map(|k| format!("rib{k},{},0,0,{},40,30,,,,\n", 5 * k, 5 * k + 2)).collect();
    let shapes = format!("name,low_x,low_y,low_z,high_x,high_y,high_z,x,y,z,radius\n{ribs}below,,,,,,4,,,,\nvent,,,,,,,50,20,15,10\n");
    let names: String = (0..20).map(|k| format!("rib{k}\n")).collect();
    let formula: String = (1..20).map(|k| format!(" union rib{k}")).collect();
    let page = format!("{names}below\nvent\nformula ((rib0{formula}) union below) difference vent\n");
    let line = |k: usize| format!("{},-5,{},{},1,0,0\n", 3 * k, k % 41, if k % 7 == 0 { 2 } else { 10 });
    let lines = format!("line,x,y,z,dx,dy,dz\n{}", (0..500).map(line).collect::<String>());
    [("page", page), ("shapes", shapes), ("lines", lines)].map(|(name, text)| file(&format!("threads-{name}"), text.as_bytes()))
}

#[test]
fn a_drawing() {
    let [page, shapes, lines] = drawing();
    let checked = alike(&["check", &page, &shapes, &lines]);
    assert!(checked.0 == Some(0) && checked.1.lines().count() > 5000, "{checked:?}");
    assert_eq!(alike(&["check", "--summary", "--thinner-than", "2.5", &page, &shapes, &lines]).0, Some(3));
    let crossings = file("threads-crossings", alike(&["cross", &shapes, &lines]).1.as_bytes());
    let starts = file("threads-starts", alike(&["cross", "--starts", &shapes, &lines]).1.as_bytes());
    let sheet = file("threads-sheet", &said::wallcheck_bytes(&["make", &page], b"").1);
    let walls = alike(&["walls", "--summary", "--starts", &starts, &sheet, &crossings]);
    assert_eq!((walls.0, &walls.1), (Some(0), &checked.1));
    let right = file("threads-right", walls.1.as_bytes());
    assert_eq!(alike(&["judge", "--starts", &starts, &sheet, &crossings, &right]).1, "right\n");
    for wrong in [1, 2000, walls.1.lines().count() - 1] {
        let rows: Vec<&str> = walls.1.lines().enumerate().filter(|(row, _)| *row != wrong).map(|(_, text)| text).collect();
        let lacks = file("threads-wrong", (rows.join("\n") + "\n").as_bytes());
        assert_eq!(alike(&["judge", "--starts", &starts, &sheet, &crossings, &lacks]).0, Some(3));
    }
}

/// Of two lines at fault the first is named, whichever thread has it; and crossings are refused where one call refuses them.
#[test]
fn refusals() {
    let [page, shapes, lines] = drawing();
    let text = std::fs::read_to_string(lines).unwrap();
    for (first, second) in [(0, 499), (123, 124), (250, 499), (400, 401)] {
        let damaged = |line: usize| text.contains(&format!("\n{},-5,", 3 * line)).then(|| 3 * line).unwrap();
        let with = |text: &str, line: usize| text.replace(&format!("\n{line},-5,"), &format!("\n{line},1e300,"));
        let both = with(&with(&text, damaged(first)), damaged(second));
        let lines = file("threads-refused", both.as_bytes());
        for args in [&["check", &page, &shapes, &lines][..], &["cross", &shapes, &lines]] {
            let (status, out, err) = alike(args);
            assert!(status != Some(0) && out.is_empty() && err.contains(&format!("row {}", first + 2)), "{err}");
        }
    }
    let sheet = file("threads-one", &peer::make::sheet(&["A"], &[0]));
    let rows: String = (0..400).map(|k| format!("{},{},A\n", k / 4, k % 4)).collect();
    let astray = file("threads-astray", format!("line,position,name\n{rows}99,-7,A\n98,0,A\n").as_bytes());
    let (status, _, err) = alike(&["walls", &sheet, &astray]);
    assert!(status == Some(1) && err.contains("refused 11 at entry 400"), "{err}");
}

#[test]
fn numbers_that_are_none() {
    for value in ["two", "", "-1", "1.5", "1025", "99999999999999999999"] {
        let due = format!("'--threads' takes a whole number up to 1024, 0 for as many as the machine has, and not '{value}'");
        for (command, files) in [("check", 3), ("walls", 2), ("judge", 3), ("cross", 2)] {
            let args = [&[command, "--threads", value][..], &vec!["none"; files]].concat();
            assert_eq!(wallcheck(&args, b""), unreadable(&format!("{due}\nTry 'wallcheck help {command}'.")));
        }
    }
    let read = wallcheck(&["read", "--threads", "2", "none"], b"").2;
    assert!(read.starts_with("wallcheck: 'read' takes no --threads; 'check', 'walls', 'judge' and 'cross' do\n"), "{read}");
}
