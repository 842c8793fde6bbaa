//! Options: anywhere, with `=` or without, ended by `--`; and what is said of those that are none.

mod said;

use peer::make::{fittings, sheet};
use said::{answered, file, unreadable, wallcheck, Said};

fn usage(text: &str, help: &str) -> Said {
    unreadable(&format!("{text}\nTry 'wallcheck {help}'."))
}

#[test]
fn options_anywhere() {
    let lugs = file("anywhere-lugs.sheet", &fittings(&["Lug"]));
    let plate = file("anywhere-plate.sheet", &sheet(&["Plate"], &[1, 0, 0xFFF0]));
    let due = answered("shape,name\n0,Lug\n1,Plate\n");
    let joined = format!("--fittings={lugs}");
    for args in [
        &["read", "--names", "--fittings", &lugs, &plate][..],
        &["read", &plate, "--fittings", &lugs, "--names"],
        &["--fittings", &lugs, "--names", "read", &plate],
        &["--names", &joined, "read", &plate],
        &["read", &plate, &joined, "--names"],
        &["read", "--names", &joined, "--", &plate],
        &["--names", &joined, "--", "read", &plate],
    ] {
        assert_eq!(wallcheck(args, b""), due, "{args:?}");
    }
    // an option that has a value after one command and none after another
    let (shapes, lines) =
        (file("anywhere.csv", b"name,high_x\nface,5\n"), file("anywhere-lines.csv", b"line,x,y,z,dx,dy,dz\n1,0,0,0,1,0,0\n"));
    let starts = answered("line,name\n1,face\n");
    assert_eq!(wallcheck(&["--starts", "cross", &shapes, &lines], b""), starts);
    assert_eq!(wallcheck(&["cross", &shapes, "--starts", &lines], b""), starts);
    let face = file("anywhere-face.sheet", &sheet(&["face"], &[0]));
    let walls = answered("line,start,end,start_shape,end_shape\n1,-2147483648,5000,,face\n");
    let starts = file("anywhere-starts.csv", starts.1.as_bytes());
    for args in [&["--starts", &starts, "walls", &face, "-"][..], &["walls", &face, "-", "--starts", &starts]] {
        assert_eq!(wallcheck(args, b"line,position,name\n1,5000,face\n"), walls, "{args:?}");
    }
}

/// After `--` stand files alone, whatever they begin with; a minus and a digit begin a number.
#[test]
fn words_that_are_no_options() {
    let missing = |file: &str| unreadable(&format!("{file}: No such file or directory (os error 2)"));
    assert_eq!(wallcheck(&["read", "--", "--names"], b""), missing("--names"));
    assert_eq!(wallcheck(&["read", "-3"], b""), missing("-3"));
    assert_eq!(wallcheck(&["read", "--names", "-"], &sheet(&["A"], &[0])), answered("shape,name\n0,A\n"));
    assert_eq!(wallcheck(&["read", "--fittings=", "-"], b""), missing(""));
}

#[test]
fn options_that_are_none() {
    let said = |args: &[&str]| wallcheck(args, b"");
    assert_eq!(said(&["walls", "--strats", "a", "b", "c"]), usage("there is no option '--strats'; the nearest is --starts", "help walls"));
    assert_eq!(said(&["read", "--name=x", "a"]), usage("there is no option '--name'; the nearest is --names", "help read"));
    assert_eq!(said(&["read", "-n", "a"]), usage("there is no option '-n'; the nearest is -o", "help read"));
    assert_eq!(said(&["--verison"]), usage("there is no option '--verison'; the nearest is --version", "--help"));
    assert_eq!(said(&["--starts"]), usage("a command is missing", "--help"));
    assert_eq!(said(&["read", "--size", "a"]), usage("'read' takes no --size; 'list' does", "help read"));
    let fittings = said(&["cross", "a", "b", "--fittings", "c"]).2;
    assert!(fittings.starts_with("wallcheck: 'cross' takes no --fittings; 'check', 'make', "), "{fittings}");
    assert_eq!(said(&["read", "a", "--fittings"]), usage("'--fittings' takes a value: --fittings FILE", "help read"));
    assert_eq!(said(&["read", "--fittings", "--names", "a"]), usage("'--fittings' takes a value: --fittings FILE", "help read"));
    assert_eq!(said(&["read", "--names=yes", "a"]), usage("'--names' takes no value", "help read"));
    assert_eq!(said(&["read", "--names", "a", "--names"]), usage("'--names' stands twice", "help read"));
    assert_eq!(said(&["raster", "x"]), usage("'raster' takes three words: AXIS BOX PITCH", "help raster"));
    assert_eq!(said(&["completions", "tcsh"]), usage("there is no shell 'tcsh'", "help completions"));
    assert_eq!(said(&["help", "--man", "read"]), usage("'--man' is the help of all commands, and takes none", "help help"));
}

#[test]
fn help_and_version_before_all_else() {
    let walls = wallcheck(&["help", "walls"], b"");
    for args in [&["walls", "--help"][..], &["--help", "walls"], &["walls", "--nonsense", "-h"], &["walls", "a", "b", "c", "d", "--help"]] {
        assert_eq!(wallcheck(args, b""), walls, "{args:?}");
    }
    let version = format!("wallcheck {}, with the library compiled for {}\n", env!("CARGO_PKG_VERSION"), kressedach::PROCESSOR);
    let version = answered(&version);
    assert_eq!((wallcheck(&["--version"], b""), wallcheck(&["-V"], b"")), (version.clone(), version));
    assert_eq!(wallcheck(&["--help", "raed"], b""), usage("there is no command 'raed'", "--help"));
}
