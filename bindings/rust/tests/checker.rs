//! What a wall checker looks for: thickness, thin walls, a summary, rasters; and operations that become others at once.

mod said;

use peer::make::{sheet, sheet_first};
use said::{answered, file, unreadable, wallcheck, wallcheck_bytes};

const PAGE: &[u8] = b"Block\nBore\nformula Block difference Bore\n";
const SHAPES: &[u8] = b"name,low_x,low_y,low_z,high_x,high_y,high_z\nBlock,0,0,0,100,40,40\nBore,40,10,-1,60,30,41\n";

fn check(options: &[&str], lines: &str) -> said::Said {
    let (page, shapes) = (file("checker-page", PAGE), file("checker-shapes", SHAPES));
    wallcheck(&[&["check"], options, &[&page, &shapes, "-"]].concat(), format!("line,x,y,z,dx,dy,dz\n{lines}").as_bytes())
}

#[test]
fn thickness_units_and_points() {
    let lines = "1,-10,20,20,1,0,0\n3,-3,-4,20,0.6,0.8,0\n";
    let due = "line,start,end,start_shape,end_shape,thickness\n1,10000,50000,Block,Bore,40000\n1,70000,110000,Bore,Block,40000\n3,5000,55000,Block,Block,50000\n";
    assert_eq!(check(&["--thickness"], lines), answered(due));
    let due = "line,start_mm,end_mm,start_shape,end_shape,thickness_mm\n1,10.000,50.000,Block,Bore,40.000\n1,70.000,110.000,Bore,Block,40.000\n3,5.000,55.000,Block,Block,50.000\n";
    assert_eq!(check(&["--thickness", "--mm"], lines), answered(due));
    let due = "line,start,end,start_shape,end_shape,start_x,start_y,start_z,end_x,end_y,end_z\n1,10000,50000,Block,Bore,0.000,20.000,20.000,40.000,20.000,20.000\n1,70000,110000,Bore,Block,60.000,20.000,20.000,100.000,20.000,20.000\n3,5000,55000,Block,Block,0.000,0.000,20.000,30.000,40.000,20.000\n";
    assert_eq!(check(&["--points"], lines), answered(due));
}

#[test]
fn open_walls() {
    let (page, shapes) = (file("open-page", b"Below\nformula Below\n"), file("open-shapes", b"name,high_x\nBelow,5\n"));
    let lines = "line,x,y,z,dx,dy,dz\n1,0,0,0,1,0,0\n2,0,0,0,-1,0,0\n3,5,0,0,0,1,0\n4,6,0,0,0,1,0\n5,4,0,0,0,1,0\n";
    let said = |options: &[&str]| wallcheck(&[&["check"], options, &[&page, &shapes, "-"]].concat(), lines.as_bytes());
    let due = "line,start_mm,end_mm,start_shape,end_shape,thickness_mm,start_x,start_y,start_z,end_x,end_y,end_z\n1,,5.000,,Below,,,,,5.000,0.000,0.000\n2,-5.000,,Below,,,5.000,0.000,0.000,,,\n5,,,,,,,,,,,\n";
    assert_eq!(said(&["--mm", "--points", "--thickness"]), answered(due));
    let heading = "line,start,end,start_shape,end_shape\n";
    let summary = "lines: 5\nwalls: 3\nthinnest wall: none\nwalls thinner than 1000.000 mm: 0\nopen walls: 3\nlines that met no metal: 2\nlines that lie in a face: 1 (the first is line 3, in high_x of Below)\n";
    assert_eq!(said(&["--thinner-than", "1000", "--summary"]), (Some(0), heading.into(), summary.into()));
}

#[test]
fn thin_walls_and_the_summary() {
    let lines = "1,-10,20,20,1,0,0\n2,-10,5,20,1,0,0\n3,-10,10,20,1,0,0\n4,-10,50,20,1,0,0\n5,-10,35,20,0,0,1\n";
    let thin = "line,start,end,start_shape,end_shape\n1,10000,50000,Block,Bore\n1,70000,110000,Bore,Block\n";
    let summary = "lines: 5\nwalls: 4\nthinnest wall: 40.000 mm on line 1, from 10.000 to 50.000 mm, Block to Bore\n";
    let rest = "open walls: 0\nlines that met no metal: 2\nlines that lie in a face: 1 (the first is line 3, in low_y of Bore)\n";
    let due = format!("{summary}walls thinner than 40.001 mm: 2\n{rest}");
    assert_eq!(check(&["--thinner-than=40.001", "--summary"], lines), (Some(3), thin.into(), due));
    let none = "line,start,end,start_shape,end_shape\n";
    assert_eq!(check(&["--thinner-than", "40"], lines), answered(none));
    for wrong in ["0", "-3", "2,5", "thick", "1.0005"] {
        let due = format!("wallcheck: '--thinner-than' takes millimetres above 0 with three decimals at most, as 2.5, and not '{wrong}'\n");
        let (status, out, said) = check(&["--thinner-than", wrong], lines);
        assert_eq!((status, out, said), (Some(2), String::new(), format!("{due}Try 'wallcheck help check'.\n")), "{wrong}");
    }
    // the same of crossings
    let (made, starts) = (file("thin.sheet", &sheet(&["A", "B"], &[0, 1, 0xFFF2])), file("thin-starts.csv", b"line,name\n9,A\n"));
    let crossings = b"line,position,name\n1,0,A\n1,3000,B\n1,5000,B\n1,9000,A\n2,0,A\n2,7000,A\n";
    let walls = |options: &[&str]| wallcheck(&[&["walls"], options, &[&made, "-"]].concat(), crossings);
    let due = "line,start,end,start_shape,end_shape,thickness\n1,0,3000,A,B,3000\n1,5000,9000,B,A,4000\n2,0,7000,A,A,7000\n9,-2147483648,2147483647,,,\n";
    assert_eq!(walls(&["--thickness", "--starts", &starts]), answered(due));
    let summary = "lines: 3\nwalls: 4\nthinnest wall: 3.000 mm on line 1, from 0.000 to 3.000 mm, A to B\nwalls thinner than 4.000 mm: 1\nopen walls: 1\nlines that met no metal: 0\n";
    let thin = "line,start,end,start_shape,end_shape\n1,0,3000,A,B\n";
    assert_eq!(walls(&["--summary", "--starts", &starts, "--thinner-than", "4"]), (Some(3), thin.into(), summary.into()));
}

/// What a raster writes is what `check` and `cross` read.
#[test]
fn rasters() {
    let lines = wallcheck(&["raster", "x", "-10,0,0,110,40,40", "20"], b"");
    let due =
        "0,-10.000,10.000,10.000,1,0,0\n1,-10.000,30.000,10.000,1,0,0\n2,-10.000,10.000,30.000,1,0,0\n3,-10.000,30.000,30.000,1,0,0\n";
    assert_eq!(lines, answered(&format!("line,x,y,z,dx,dy,dz\n{due}")));
    let (status, walls, said) = check(&["--summary"], due);
    assert_eq!((status, walls.lines().count()), (Some(0), 5), "{said}");
    assert!(said.contains("lines that lie in a face: 4 (the first is line 0, in low_y of Bore)"), "{said}");
    let box_ = "BOX is low_x,low_y,low_z,high_x,high_y,high_z in millimetres, with three decimals at most; it is \"0,0,0,1,1\"";
    let usage = |what: &str| (Some(2), String::new(), format!("wallcheck: {what}\nTry 'wallcheck help raster'.\n"));
    assert_eq!(wallcheck(&["raster", "x", "0,0,0,1,1", "1"], b""), usage(box_));
    assert_eq!(wallcheck(&["raster", "u", "0,0,0,1,1,1", "1"], b""), usage("AXIS is x, y or z, and not \"u\""));
    assert_eq!(wallcheck(&["raster", "x", "0,0,0,1,1,0", "1"], b""), usage("BOX has low_z 0.000, which is not below high_z 0.000"));
    let narrow = "BOX is 1.000 mm wide in y, and the first line would stand at 1.500 mm";
    assert_eq!(wallcheck(&["raster", "x", "0,0,0,1,1,9", "3"], b""), usage(narrow));
}

/// Operations become others before any line goes through, or in the sheet that is made.
#[test]
fn edits_at_once() {
    let codes = [0, 1, 0xFFF0, 2, 0xFFF2];
    let last = sheet(&["A", "B", "C"], &codes);
    let first = sheet_first(&["A", "B", "C"], &[0xFFF2, 0xFFF0, 0, 1, 2]);
    let crossings = file("edited-crossings.csv", b"line,position,name\n1,0,A\n1,10,B\n1,20,C\n1,30,A\n1,40,C\n1,50,B\n");
    let edits = file("edited-edits.csv", b"position,operation\n2,intersection\n4,exclusive\n");
    let due = answered("line,start,end,start_shape,end_shape\n1,10,20,B,C\n1,30,40,A,C\n");
    for made in [&last, &first] {
        let path = file("edited.sheet", made);
        assert_eq!(wallcheck(&["walls", "--edits", &edits, &path, &crossings], b""), due);
        let (_, page, _) = wallcheck(&["show", "--positions", &path], b"");
        assert!(page.ends_with("formula\n  (A union       # position 2\n  B) difference  # position 4\n  C\n"), "{page}");
        assert_eq!(wallcheck_bytes(&["make", "-"], page.as_bytes()).1, *made);
        let (status, edited, said) = wallcheck_bytes(&["make", "--edits", &edits, "-"], page.as_bytes());
        assert_eq!((status, said.as_str()), (Some(0), ""));
        assert_eq!(wallcheck(&["walls", "-", &crossings], &edited), due);
        assert_eq!(edited[4], made[4], "the edition stays");
    }
    let path = file("edited.sheet", &last);
    let walls = |edits: &str| wallcheck(&["walls", "--edits", "-", &path, &crossings], edits.as_bytes());
    let due = "the heading is to be position,operation or position,code, and it is \"after,position,operation\"";
    assert_eq!(
        walls("after,position,operation\n0,2,union\n"),
        unreadable(&format!("standard input: row 1: {due}: these edits are made at once, and after no toggles"))
    );
    let (status, out, said) = walls("position,operation\n3,union\n");
    assert_eq!((status, out.as_str()), (Some(1), ""));
    assert!(said.ends_with("\n  row 2: at position 3 stands C, which is no operation\n"), "{said}");
    // exclusive unions have two spellings, in edits as in pages
    for word in ["exclusive", "exclusive union"] {
        let toggles = file("edited-toggles.csv", b"name\nA\n");
        let edits = file("edited-word.csv", format!("after,position,operation\n1,2,{word}\n").as_bytes());
        let (status, _, said) = wallcheck(&["run", "--edits", &edits, &path, &toggles], b"");
        assert_eq!((status, said.as_str()), (Some(0), ""));
        let page = format!("A\nB\nformula A {word} B\n");
        assert_eq!(wallcheck_bytes(&["make", "-"], page.as_bytes()).1, sheet(&["A", "B"], &[0, 1, 0xFFF3]));
    }
    let (status, _, said) =
        wallcheck_bytes(&["make", "--edition", "2", "--edits", &edits, "-"], b"A\nB\nC\nformula (A union B) difference C\n");
    assert_eq!(status, Some(2));
    assert!(said.contains("with its edits: exclusive is out of use, and not taken to edition 2"), "{said}");
    let (status, _, said) = wallcheck_bytes(&["make", "--edits", &edits, "-"], b"A\n");
    assert!(status == Some(2) && said.contains("has no formula, and makes a fittings sheet, which has no operations to edit"), "{said}");
}
