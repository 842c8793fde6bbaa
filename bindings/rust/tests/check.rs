//! `wallcheck check`: from a drawing to its walls, and the four ways to a wrong wall list that it closes.

mod said;

use peer::make::{fittings, sheet};
use said::{answered, file, wallcheck, wallcheck_bytes, Said};

const HEADING: &str = "line,start,end,start_shape,end_shape\n";
const BLOCK: &str = "Block\nBore\nformula Block difference Bore\n";
const SHAPES: &str = "name,low_x,low_y,low_z,high_x,high_y,high_z\nBlock,0,0,0,100,40,40\nBore,40,10,-1,60,30,41\n";
const LINES: &str = "line,x,y,z,dx,dy,dz\n1,0,20,20,1,0,0\n2,0,5,20,1,0,0\n3,-3,-4,20,0.6,0.8,0\n";
const WALLS: &str = "1,0,40000,Block,Bore\n1,60000,100000,Bore,Block\n2,0,100000,Block,Block\n3,5000,55000,Block,Block\n";

/// A page, shapes and lines as files of a test.
struct Drawn {
    page: String,
    shapes: String,
    lines: String,
}

impl Drawn {
    fn of(test: &str, page: &str, shapes: &str, lines: &str) -> Drawn {
        let put = |what: &str, text: &str| file(&format!("check-{test}-{what}"), text.as_bytes());
        Drawn { page: put("page.txt", page), shapes: put("shapes.csv", shapes), lines: put("lines.csv", lines) }
    }

    fn check(&self, options: &[&str]) -> Said {
        wallcheck(&[&["check", &self.page, &self.shapes, &self.lines], options].concat(), b"")
    }
}

/// That no wall is printed, the status is this, and all of these words are said.
fn stopped(said: Said, status: i32, words: &[&str]) {
    assert_eq!((said.0, said.1.as_str()), (Some(status), ""), "{}", said.2);
    words.iter().for_each(|word| assert!(said.2.contains(word), "{word}: {}", said.2));
}

#[test]
fn from_a_drawing_to_its_walls() {
    let block = Drawn::of("block", BLOCK, SHAPES, LINES);
    assert_eq!(block.check(&[]), answered(&format!("{HEADING}{WALLS}")));
    let none = Drawn::of("none", BLOCK, SHAPES, "line,x,y,z,dx,dy,dz\n");
    assert_eq!(none.check(&[]), answered(HEADING));
    let lines = wallcheck(&["check", &block.page, &block.shapes, "-"], LINES.as_bytes());
    assert_eq!(lines, answered(&format!("{HEADING}{WALLS}")));
    let page = wallcheck(&["check", "-", &block.shapes, &block.lines], BLOCK.as_bytes());
    assert_eq!(page, answered(&format!("{HEADING}{WALLS}")));
    // semicolons, decimal commas, and a sheet of edition 2 in the page's place
    let commas = LINES.replace(',', ";").replace('.', ",");
    let second = wallcheck_bytes(&["make", "--edition", "2", &block.page], b"").1;
    let second = file("check-block-second.sheet", &second);
    let said = wallcheck(&["check", "--alone", &second, &block.shapes, "-"], commas.as_bytes());
    assert_eq!(said, answered(&format!("{HEADING}{WALLS}")));
}

/// The first way: fittings that are forgotten, or others than those that a sheet was made beside.
#[test]
fn no_forgotten_fittings() {
    let lugs = file("check-lugs.txt", b"Lug\nBoss\n");
    let page = "fittings check-lugs.txt\nBlock\nBore\nformula (Block union Lug) difference Bore\n";
    let shapes = SHAPES.to_string() + "Lug,100,0,0,120,40,40\n";
    let beside = Drawn::of("beside", page, &shapes, "line,x,y,z,dx,dy,dz\n1,0,20,20,1,0,0\n");
    let walls = format!("{HEADING}1,0,40000,Block,Bore\n1,60000,120000,Bore,Lug\n");
    let without = format!("wallcheck: {}: outside everywhere, without a shape: Boss\n", beside.shapes);
    assert_eq!(beside.check(&[]), (Some(0), walls.clone(), without.clone()));
    stopped(beside.check(&["--fittings", &lugs]), 2, &["names its fittings, \"check-lugs.txt\": '--fittings' beside that"]);
    stopped(beside.check(&["--alone"]), 2, &["names its fittings, and '--alone' says that there are none"]);
    // a sheet does not say whether it has any
    let made = file("check-beside.sheet", &wallcheck_bytes(&["make", &beside.page], b"").1);
    let asked = |options: &[&str]| wallcheck(&[&["check", &made, &beside.shapes, &beside.lines], options].concat(), b"");
    stopped(asked(&[]), 2, &["is a sheet, whose bytes do not say whether it was made beside fittings", "--alone"]);
    assert_eq!(asked(&["--fittings", &lugs]), (Some(0), walls.clone(), without));
    stopped(asked(&["--fittings", &lugs, "--alone"]), 2, &["'--alone' says that there are no fittings"]);
    stopped(asked(&["--alone"]), 1, &["refused 7 at byte 23", "shape 2, and the last is 1; is '--fittings FILE' missing?"]);
    // other fittings: the page goes by names, and a sheet's shapes are no longer those of SHAPES
    file("check-lugs.txt", b"Boss\nPad\nLug\n");
    let other = format!("wallcheck: {}: outside everywhere, without a shape: Boss Pad\n", beside.shapes);
    assert_eq!(beside.check(&[]), (Some(0), walls, other));
    stopped(asked(&["--fittings", &lugs]), 2, &["Boss is not there, and the formula uses it"]);
    // the commands that stay ask too
    let crossings = file("check-beside.csv", b"line,position,shape\n1,0,0\n");
    let (status, _, said) = wallcheck(&["walls", &made, &crossings], b"");
    assert!(status == Some(1) && said.ends_with("and the last is 1; is '--fittings FILE' missing?\n"), "{said}");
    let few = file("check-few.sheet", &fittings(&["Lug"]));
    let (status, _, said) = wallcheck(&["read", "--fittings", &few, &made], b"");
    assert!(status == Some(1) && said.ends_with("and the last is 2; are these the fittings that it was made beside?\n"), "{said}");
}

/// The second way: a direction of another length than 1.
#[test]
fn no_other_length_than_1() {
    let slanted = "line,x,y,z,dx,dy,dz\n3,-3,-4,20,3,4,0\n4,0,20,20,0.9999985,0,0\n5,0,20,20,1.0000009,0,0\n6,0,20,20,0,0,2\n";
    let block = Drawn::of("long", BLOCK, SHAPES, slanted);
    let (row, why) = ("the direction has length", "and not 1: positions would not be micrometres; --normalise divides by it");
    let due: String = [(2, "5"), (3, "0.9999985"), (5, "2")]
        .map(|(at, length)| format!("wallcheck: {}: row {at}: {row} {length}, {why}\n", block.lines))
        .concat();
    assert_eq!(block.check(&[]), (Some(2), String::new(), due));
    let walls =
        "3,5000,55000,Block,Block\n4,0,40000,Block,Bore\n4,60000,100000,Bore,Block\n5,0,40000,Block,Bore\n5,60000,100000,Bore,Block\n";
    let said = format!("wallcheck: {}: row 2: {row} 5; 4 directions are divided by their length\n", block.lines);
    assert_eq!(block.check(&["--normalise"]), (Some(0), format!("{HEADING}{walls}"), said));
    // zero and what is not finite are the library's to refuse
    for wrong in ["0,0,-0.0", "nan,0,0", "0,inf,0"] {
        let still = Drawn::of("still", BLOCK, SHAPES, &format!("line,x,y,z,dx,dy,dz\n1,0,20,20,1,0,0\n7,0,0,0,{wrong}\n"));
        for options in [&[][..], &["--normalise"]] {
            stopped(still.check(options), 1, &["refused 16 for the line", "row 3: line 7"]);
        }
    }
    let (_, crossed, said) = wallcheck(&["cross", &block.shapes, &block.lines], b"");
    assert!(crossed.starts_with("line,position,name\n3,1000,Block\n"), "{crossed}");
    let due = format!("wallcheck: {}: row 2: {row} 5, and not 1 (and 2 rows more): positions are not micrometres\n", block.lines);
    assert_eq!(said, due);
}

/// The third way: half-spaces without their start rows.
#[test]
fn no_forgotten_starts() {
    let shapes = "name,low_x,low_y,low_z,high_x,high_y,high_z\nBlock,0,0,0,100,40,40\nBelow,,,,,,25\n";
    let lines = "line,x,y,z,dx,dy,dz\n0,50,5,0,0,0,1\n1,50,5,50,0,0,-1\n2,0,5,20,1,0,0\n";
    let cut = Drawn::of("cut", "Block\nBelow\nformula Block intersection Below\n", shapes, lines);
    let walls = format!("{HEADING}0,0,25000,Block,Below\n1,25000,50000,Below,Block\n2,0,100000,Block,Block\n");
    assert_eq!(cut.check(&[]), answered(&walls));
    let (status, crossed, said) = wallcheck(&["cross", &cut.shapes, &cut.lines], b"");
    let why = "'walls' needs what 'cross --starts' gives, by its --starts; 'check' uses it by itself";
    let due = format!("wallcheck: {}: line 0 starts in \"Below\", and 2 lines in all start in shapes: {why}\n", cut.lines);
    assert_eq!((status, said), (Some(0), due));
    let starts = wallcheck(&["cross", "--starts", &cut.shapes, &cut.lines], b"");
    assert_eq!(starts, answered("line,name\n0,Below\n2,Below\n"));
    let made = file("check-cut.sheet", &sheet(&["Block", "Below"], &[0, 1, 0xFFF1]));
    let starts = file("check-cut-starts.csv", starts.1.as_bytes());
    assert_eq!(wallcheck(&["walls", "--starts", &starts, &made, "-"], crossed.as_bytes()), answered(&walls));
    let one = Drawn::of("cut-one", "Block\nBelow\nformula Block\n", shapes, "line,x,y,z,dx,dy,dz\n9,50,5,0,0,0,1\n");
    let said = wallcheck(&["cross", &one.shapes, &one.lines], b"").2;
    assert_eq!(said, format!("wallcheck: {}: line 9 starts in \"Below\": {why}\n", one.lines));
}

/// The fourth way: a shape that the drawing lacks; and one that the formula lacks.
#[test]
fn no_missing_shape() {
    let alone = "name,low_x,low_y,low_z,high_x,high_y,high_z\nBlock,0,0,0,100,40,40\n";
    let bore = Drawn::of("bore", BLOCK, alone, LINES);
    let due = format!("wallcheck: {}: Bore is not there, and the formula uses it\n", bore.shapes);
    assert_eq!(bore.check(&[]), (Some(2), String::new(), due));
    let strange = Drawn::of("strange", BLOCK, &SHAPES.replace("Bore,", "bore,"), LINES);
    let like = "row 3: the page has no name \"bore\"; there is Bore; names are compared letter by letter";
    stopped(strange.check(&[]), 2, &[like, "Bore is not there, and the formula uses it"]);
    let forgotten =
        Drawn::of("forgotten", "Block\nBore\nHole\nSpare\nformula Block difference Bore\n", &format!("{SHAPES}Hole,1,1,1,2,2,2\n"), LINES);
    let (status, walls, said) = forgotten.check(&[]);
    assert_eq!((status, walls), (Some(0), format!("{HEADING}{WALLS}")));
    let due = ["row 4: the formula never uses Hole", "outside everywhere, without a shape: Spare"];
    assert_eq!(said, due.map(|due| format!("wallcheck: {}: {due}\n", forgotten.shapes)).concat());
    // the commands that stay warn of a shape that is crossed for nothing
    let made = file("check-forgotten.sheet", &sheet(&["Block", "Bore", "Hole"], &[0, 1, 0xFFF2]));
    let crossings = "line,position,name\n1,0,Block\n1,5,Hole\n1,7,Hole\n1,9,Block\n";
    let due = "wallcheck: standard input: row 3: Hole is crossed, and the formula never uses it\n";
    assert_eq!(wallcheck(&["walls", &made, "-"], crossings.as_bytes()), (Some(0), format!("{HEADING}1,0,9,Block,Block\n"), due.into()));
    let theirs = file("check-forgotten-theirs.csv", b"line,start,end\n1,0,9\n");
    assert_eq!(wallcheck(&["judge", &made, "-", &theirs], crossings.as_bytes()), (Some(0), "right\n".into(), due.into()));
    let numbers = Drawn::of("numbers", BLOCK, &SHAPES.replace("name,", "shape,").replace("Block,", "0,").replace("Bore,", "1,"), LINES);
    stopped(numbers.check(&[]), 2, &["'check' goes by names: the heading is to have name, and it has shape"]);
}

/// Pages and sheets that say nothing of metal, or are none.
#[test]
fn wrong_pages() {
    let said = |page: &[u8], options: &[&str]| {
        let (page, rest) = (file("check-wrong", page), Drawn::of("wrong", BLOCK, SHAPES, LINES));
        wallcheck(&[&["check", &page, &rest.shapes, &rest.lines], options].concat(), b"")
    };
    stopped(said(b"Block\nBore\n", &[]), 2, &["has no formula: nothing says where there is metal"]);
    stopped(said(b"", &[]), 2, &["line 1, column 1: a shape's name is due, and the page ends"]);
    stopped(said(b"fittings no-such.txt\nBlock\nformula Block\n", &[]), 2, &["no-such.txt: No such file"]);
    stopped(
        said(b"fittings check-wrong\nBlock\nformula Block\n", &[]),
        2,
        &["is to be a fittings sheet, and those stand beside no others"],
    );
    file("check-whole.txt", BLOCK.as_bytes());
    stopped(said(b"fittings check-whole.txt\nA\nformula A\n", &[]), 2, &["check-whole.txt: has a formula, and is to be a fittings sheet"]);
    file("check-whole.sheet", &sheet(&["A"], &[0]));
    stopped(said(b"fittings check-whole.sheet\nB\nformula B\n", &[]), 1, &["check-whole.sheet: refused 2 at byte 9 of the fittings sheet"]);
    stopped(said(&fittings(&["Block"]), &["--alone"]), 1, &["refused 1 at byte 13 of the customer's sheet"]);
}

/// Balls keep the rule of `cross`; a normalised direction along an axis is exactly 1.
#[test]
fn balls() {
    let shapes = "name,x,y,z,radius\nBlock,0,0,0,20\nBore,0,0,0,5\n";
    let ball = Drawn::of("ball", BLOCK, shapes, "line,x,y,z,dx,dy,dz\n1,-30,3,4,3,0,0\n2,-30,0,0,0.9999999,0,0\n");
    let walls = "1,10636,49364,Block,Block\n2,10000,25000,Block,Bore\n2,35000,50000,Bore,Block\n";
    let (status, out, _) = ball.check(&["--normalise"]);
    assert_eq!((status, out), (Some(0), format!("{HEADING}{walls}")));
    let parallel = "row 2: where there are balls, a line has 1 or -1 in one of dx, dy, dz and 0 in the others";
    let slanted = Drawn::of("ball-slanted", BLOCK, shapes, "line,x,y,z,dx,dy,dz\n1,-30,3,4,0.6,0.8,0\n");
    stopped(slanted.check(&[]), 2, &[parallel]);
}
