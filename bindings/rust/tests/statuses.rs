//! Exit statuses where standard output or standard error cannot be written.

mod said;

use peer::make::sheet;
use said::{file, WALLCHECK};
use std::io::Write;
use std::process::{Command, Stdio};

/// The status of a command whose standard files are turned as a shell says, and its standard error where that can be read.
fn shell(turned: &str, args: &[&str]) -> (Option<i32>, String) {
    let output = Command::new("sh").args(["-c", &format!("exec \"$@\" {turned}"), "sh", WALLCHECK]).args(args).output().unwrap();
    (output.status.code(), String::from_utf8_lossy(&output.stderr).into_owned())
}

#[test]
fn standard_output_that_cannot_be_written() {
    let good = file("statuses.sheet", &sheet(&["A"], &[0]));
    for args in [&["read", &good][..], &["move", &good], &["show", &good], &["--help"], &["help", "walls"], &["--version"]] {
        assert_eq!(shell(">&-", args), (Some(2), "wallcheck: standard output: is closed\n".into()), "{args:?}");
        let (status, said) = shell(">/dev/full", args);
        assert_eq!(status, Some(2), "{args:?}");
        assert!(said.starts_with("wallcheck: standard output: No space left on device"), "{said}");
        assert_eq!(shell(">/dev/null", args), (Some(0), String::new()), "{args:?}");
        assert_eq!(shell("1<>/dev/null", args), (Some(0), String::new()), "{args:?}");
    }
}

#[test]
fn standard_error_that_cannot_be_written() {
    let (good, bad) = (file("statuses-good.sheet", &sheet(&["A"], &[0])), file("statuses-bad.sheet", b"\x01"));
    for turned in ["2>/dev/full", "2>&-"] {
        assert_eq!(shell(turned, &["read", &good]).0, Some(0), "{turned}");
        assert_eq!(shell(turned, &["read", &bad]).0, Some(1), "{turned}");
        assert_eq!(shell(turned, &["read", "/no/such/file"]).0, Some(2), "{turned}");
        assert_eq!(shell(turned, &["raed"]).0, Some(2), "{turned}");
        assert_eq!(shell(&format!("{turned} >&-"), &["read", &good]).0, Some(2), "{turned}");
    }
    let unused = file("statuses.txt", b"A\nB\nformula A\n");
    assert_eq!(shell("2>/dev/full", &["make", &unused]).0, Some(0));
    // of two foundries one is refused, whether or not the other's rows can be written
    let toggles = ["shape\n0\n", "shape\n1\n"]
        .map(|list| file(&format!("statuses-{}.csv", list.len() + list.ends_with("1\n") as usize), list.as_bytes()));
    let order = file("statuses-order.csv", b"foundry\n0\n1\n");
    assert_eq!(shell(">/dev/full 2>/dev/full", &["both", &good, &toggles[0], &toggles[1], &order]).0, Some(1));
}

/// That a list is not right is an answer: who cannot get it gets status 2, as with any other.
#[test]
fn an_opinion_that_cannot_be_written() {
    let good = file("statuses-judged.sheet", &sheet(&["A"], &[0]));
    let crossings = file("statuses-judged.csv", b"line,position,name\n1,0,A\n1,9,A\n");
    let theirs = ["1,0,9", "1,0,8"].map(|entry| file(&format!("statuses-{entry}.csv"), format!("line,start,end\n{entry}\n").as_bytes()));
    for (theirs, status) in theirs.iter().zip([0, 3]) {
        let judge = ["judge", &good, &crossings, theirs];
        assert_eq!(shell(">/dev/null", &judge), (Some(status), String::new()));
        for turned in ["2>/dev/full", "2>&-"] {
            assert_eq!(shell(turned, &judge).0, Some(status), "{turned}");
            assert_eq!(shell(&format!("{turned} >&-"), &judge).0, Some(2), "{turned}");
        }
        assert_eq!(shell(">&-", &judge), (Some(2), "wallcheck: standard output: is closed\n".into()));
        let (status, said) = shell(">/dev/full", &judge);
        assert_eq!(status, Some(2));
        assert!(said.starts_with("wallcheck: standard output: No space left on device"), "{said}");
    }
}

/// A reader that has enough is no reason for words, and its going is no answer.
#[test]
fn a_reader_that_goes() {
    let mut command = Command::new(WALLCHECK);
    let mut child = command.args(["read", "-"]).stdin(Stdio::piped()).stdout(Stdio::piped()).stderr(Stdio::piped()).spawn().unwrap();
    // the answer comes after the sheet, and by then nobody reads it
    drop(child.stdout.take());
    child.stdin.take().unwrap().write_all(&sheet(&["A"], &[0])).unwrap();
    let output = child.wait_with_output().unwrap();
    assert_eq!((output.status.code(), output.stderr), (Some(2), vec![]));
}
