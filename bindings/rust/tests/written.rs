//! `-o FILE`: written whole or not at all; and no bytes of a sheet on a terminal.

mod said;

use peer::make::sheet;
use said::{answered, file, wallcheck, WALLCHECK};
use std::fs::{self, File};
use std::os::fd::{FromRawFd, OwnedFd};
use std::os::unix::fs::{symlink, PermissionsExt};
use std::path::{Path, PathBuf};
use std::process::{Command, Stdio};

/// A new and empty folder.
fn folder(name: &str) -> PathBuf {
    let folder = Path::new(env!("CARGO_TARGET_TMPDIR")).join(name);
    let _ = fs::remove_dir_all(&folder);
    fs::create_dir_all(&folder).unwrap();
    folder
}

fn names(folder: &Path) -> Vec<String> {
    let mut names: Vec<String> = fs::read_dir(folder).unwrap().map(|entry| entry.unwrap().file_name().into_string().unwrap()).collect();
    names.sort();
    names
}

#[test]
fn the_answer_in_a_file() {
    let folder = folder("written");
    let (good, to) = (file("written.sheet", &sheet(&["A"], &[0])), folder.join("out"));
    let path = to.to_str().unwrap();
    for (args, due) in [
        (&["read", "--names", &good, "-o", path][..], "shape,name\n0,A\n"),
        (&["-o", path, "show", &good], "edition 1\nA\n\nformula\n  A\n"),
    ] {
        assert_eq!(wallcheck(args, b""), answered(""));
        assert_eq!(fs::read_to_string(&to).unwrap(), due);
    }
    assert_eq!(wallcheck(&["move", &good, "-o", path], b""), answered(""));
    assert_eq!(fs::read(&to).unwrap()[4], 2);
    // over the file that is read, and back
    assert_eq!(wallcheck(&["move", path, "-o", path], b""), answered(""));
    assert_eq!(fs::read(&to).unwrap(), sheet(&["A"], &[0]));
    // that a list is not right is an answer
    let crossings = file("written.csv", b"line,position,name\n1,0,A\n1,9,A\n");
    assert_eq!(
        wallcheck(&["judge", &good, &crossings, "-", "-o", path], b"line,start,end\n1,0,8\n"),
        (Some(3), String::new(), String::new())
    );
    assert!(fs::read_to_string(&to).unwrap().starts_with("standard input ends too soon\n"));
    assert_eq!(names(&folder), ["out"]);
    assert_eq!(wallcheck(&["read", "--names", &good, "-o", "-"], b""), answered("shape,name\n0,A\n"));
}

#[test]
fn nothing_where_there_is_no_answer() {
    let folder = folder("written-not");
    let (good, bad) = (file("written-good.sheet", &sheet(&["A"], &[0])), file("written-bad.sheet", b"\x01"));
    let path = folder.join("out").to_str().unwrap().to_string();
    assert_eq!(wallcheck(&["read", &bad, "-o", &path], b"").0, Some(1));
    assert_eq!(wallcheck(&["make", "-", "-o", &path], b"A\nformula B").0, Some(2));
    assert_eq!(names(&folder), [""; 0]);
    // what was there stays
    fs::write(&path, "before").unwrap();
    assert_eq!(wallcheck(&["move", &bad, "-o", &path], b"").0, Some(1));
    // of two foundries one is refused: half an answer is none
    let (one, other, order) =
        (file("written-1.csv", b"shape\n0\n"), file("written-2.csv", b"shape\n1\n"), file("written-3.csv", b"foundry\n0\n1\n"));
    let (status, out, err) = wallcheck(&["both", &good, &one, &other, &order, "-o", &path], b"");
    assert!((status, out.as_str()) == (Some(1), "") && err.contains("foundry 1: "), "{err}");
    assert_eq!((names(&folder), fs::read_to_string(&path).unwrap().as_str()), (vec!["out".to_string()], "before"));

    let (status, _, err) = wallcheck(&["read", &good, "-o", folder.to_str().unwrap()], b"");
    assert_eq!((status, err), (Some(2), format!("wallcheck: {}: is a folder\n", folder.display())));
    let nowhere = folder.join("no/such/out");
    let (status, _, err) = wallcheck(&["read", &good, "-o", nowhere.to_str().unwrap()], b"");
    assert_eq!((status, err), (Some(2), format!("wallcheck: {}: No such file or directory (os error 2)\n", nowhere.display())));
    assert_eq!(wallcheck(&["read", &good, "-o", "/dev/full"], b"").0, Some(2));
    assert_eq!(wallcheck(&["read", &good, "-o", "/dev/null"], b""), answered(""));
    assert!(!fs::metadata("/dev/null").unwrap().is_file());
}

/// A file keeps its rights, and a link what it leads to.
#[test]
fn in_place_of_a_file_that_is_there() {
    let folder = folder("written-over");
    let (good, to, link) = (file("written-over.sheet", &sheet(&["A"], &[0])), folder.join("to"), folder.join("link"));
    fs::write(&to, "before").unwrap();
    fs::set_permissions(&to, fs::Permissions::from_mode(0o640)).unwrap();
    symlink("to", &link).unwrap();
    assert_eq!(wallcheck(&["read", "--names", &good, "-o", link.to_str().unwrap()], b""), answered(""));
    assert_eq!(fs::read_to_string(&to).unwrap(), "shape,name\n0,A\n");
    assert_eq!(fs::metadata(&to).unwrap().permissions().mode() & 0o777, 0o640);
    assert!(fs::symlink_metadata(&link).unwrap().is_symlink());
    assert_eq!(names(&folder), ["link", "to"]);
}

extern "C" {
    fn posix_openpt(flags: i32) -> i32;
    fn grantpt(terminal: i32) -> i32;
    fn unlockpt(terminal: i32) -> i32;
    fn ptsname_r(terminal: i32, name: *mut u8, length: usize) -> i32;
}

/// A terminal, and what reads it.
fn terminal() -> (OwnedFd, File) {
    let mut name = [0u8; 64];
    // SAFETY: a new terminal's number goes to the calls that are made for it, and its name to a list that is long enough.
    let reader = unsafe {
        let terminal = posix_openpt(2);
        assert!(terminal >= 0 && grantpt(terminal) == 0 && unlockpt(terminal) == 0);
        assert_eq!(ptsname_r(terminal, name.as_mut_ptr(), name.len()), 0);
        OwnedFd::from_raw_fd(terminal)
    };
    let path = std::str::from_utf8(&name).unwrap().trim_end_matches('\0');
    (reader, fs::OpenOptions::new().read(true).write(true).open(path).unwrap())
}

#[test]
fn no_sheet_to_a_terminal() {
    let (good, page) = (file("terminal.sheet", &sheet(&["A"], &[0])), file("terminal.txt", b"A\nformula A\n"));
    for (args, due) in [
        (
            &["make", &page][..],
            "wallcheck: the answer is a sheet, whose bytes no terminal shows: -o FILE writes it to a file\nTry 'wallcheck help make'.\n",
        ),
        (
            &["move", &good],
            "wallcheck: the answer is a sheet, whose bytes no terminal shows: -o FILE writes it to a file\nTry 'wallcheck help move'.\n",
        ),
        (&["read", &good], ""),
    ] {
        let (_reader, screen) = terminal();
        let output = Command::new(WALLCHECK).args(args).stdout(Stdio::from(screen)).stderr(Stdio::piped()).output().unwrap();
        let status = if due.is_empty() { 0 } else { 2 };
        assert_eq!((output.status.code(), String::from_utf8_lossy(&output.stderr).as_ref()), (Some(status), due), "{args:?}");
    }
}
