//! What bash completes, with what the command gives it; `src/bin/wallcheck/alike.rs` compares the completions of all shells with the table.

mod said;

use said::{file, wallcheck};
use std::process::Command;

/// What stands for the last of these words.
fn completed(words: &[&str]) -> Vec<String> {
    let script = file("completions.bash", wallcheck(&["completions", "bash"], b"").1.as_bytes());
    let ask = "source \"$0\" && COMP_WORDS=(wallcheck \"$@\") COMP_CWORD=$# && _wallcheck && printf '%s\\n' \"${COMPREPLY[@]}\"";
    let folder = concat!(env!("CARGO_MANIFEST_DIR"), "/../../examples");
    let output = Command::new("bash").args(["-c", ask, &script]).args(words).current_dir(folder).output().unwrap();
    assert_eq!(String::from_utf8_lossy(&output.stderr), "", "{words:?}");
    String::from_utf8(output.stdout).unwrap().lines().filter(|line| !line.is_empty()).map(String::from).collect()
}

#[test]
fn commands_options_values_and_files() {
    assert_eq!(completed(&["wa"]), ["walls"]);
    assert_eq!(completed(&["--v"]), ["--version"]);
    assert_eq!(completed(&["walls", "--st"]), ["--starts"]);
    assert_eq!(completed(&["--fittings", "f", "read", "--n"]), ["--names"]);
    assert_eq!(completed(&["read", "--st"]), [""; 0]);
    assert_eq!(completed(&["make", "--edition", ""]), ["1", "2"]);
    assert_eq!(completed(&["raster", ""]), ["x", "y", "z"]);
    assert_eq!(completed(&["completions", "z"]), ["zsh"]);
    assert_eq!(completed(&["help", "ju"]), ["judge"]);
    assert_eq!(completed(&["walls", "block.s"]), ["block.sheet"]);
    assert_eq!(completed(&["completions", "-o", "block.s"]), ["block.sheet"]);
}
