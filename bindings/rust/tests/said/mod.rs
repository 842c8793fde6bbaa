//! What the command says: its exit status, standard output and standard error.
#![allow(dead_code)]

use std::ffi::OsStr;
use std::io::Write;
use std::path::PathBuf;
use std::process::{Command, Stdio};
use std::sync::atomic::{AtomicUsize, Ordering};

/// Exit status, standard output, standard error.
pub type Said = (Option<i32>, String, String);

pub const WALLCHECK: &str = env!("CARGO_BIN_EXE_wallcheck");

pub fn wallcheck<S: AsRef<OsStr>>(args: &[S], stdin: &[u8]) -> Said {
    let (status, out, err) = wallcheck_bytes(args, stdin);
    (status, String::from_utf8_lossy(&out).into_owned(), err)
}

/// The same, of a command whose answer is a sheet.
pub fn wallcheck_bytes<S: AsRef<OsStr>>(args: &[S], stdin: &[u8]) -> (Option<i32>, Vec<u8>, String) {
    let mut child = Command::new(WALLCHECK).args(args).stdin(Stdio::piped()).stdout(Stdio::piped()).stderr(Stdio::piped()).spawn().unwrap();
    // a command that reads nothing may have ended: that is no failure
    let _ = child.stdin.take().unwrap().write_all(stdin);
    let output = child.wait_with_output().unwrap();
    (output.status.code(), output.stdout, String::from_utf8_lossy(&output.stderr).into_owned())
}

pub fn answered(text: &str) -> Said {
    (Some(0), text.into(), String::new())
}

/// A refusal that is about standard input.
pub fn refused(text: &str) -> Said {
    refused_of("standard input", text)
}

pub fn refused_of(file: &str, text: &str) -> Said {
    (Some(1), String::new(), format!("wallcheck: {file}: {text}\n"))
}

pub fn unreadable(text: &str) -> Said {
    (Some(2), String::new(), format!("wallcheck: {text}\n"))
}

/// A file with these bytes, and its path. It is there whole at once: another test may read one of this name meanwhile.
pub fn file(name: &str, bytes: &[u8]) -> String {
    static FILES: AtomicUsize = AtomicUsize::new(0);
    let folder = PathBuf::from(env!("CARGO_TARGET_TMPDIR"));
    let (path, beside) = (folder.join(name), folder.join(format!("new-{}", FILES.fetch_add(1, Ordering::Relaxed))));
    std::fs::write(&beside, bytes).unwrap();
    std::fs::rename(&beside, &path).unwrap();
    path.to_str().unwrap().into()
}
