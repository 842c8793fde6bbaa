//! What the pages of `examples/` say is so: the sheets are made of the texts beside them, and the commands print what stands under them.

mod said;

use said::WALLCHECK;
use std::io::Write;
use std::path::Path;
use std::process::{Command, Stdio};

const EXAMPLES: &str = concat!(env!("CARGO_MANIFEST_DIR"), "/../../examples");

/// The blocks of a page whose heading begins with a word: the rest of the heading, and the lines.
fn blocks(page: &str, word: &str) -> Vec<(String, Vec<String>)> {
    let page = std::fs::read_to_string(Path::new(EXAMPLES).join(page)).unwrap();
    let mut blocks = Vec::new();
    let mut lines = page.lines();
    while let Some(line) = lines.next() {
        let Some(heading) = line.strip_prefix("```") else { continue };
        let inside = lines.by_ref().take_while(|line| *line != "```").map(String::from).collect();
        if let Some(rest) = heading.strip_prefix(word) {
            blocks.push((rest.trim().to_string(), inside));
        }
    }
    blocks
}

/// What a command gives on standard output that is given this on standard input, and what it says on standard error.
fn said_to(given: &[u8], command: &str) -> (Vec<u8>, Vec<u8>) {
    let mut words = command.split(' ');
    assert_eq!(words.next(), Some("wallcheck"));
    let mut child = Command::new(WALLCHECK)
        .args(words)
        .current_dir(EXAMPLES)
        .stdin(Stdio::piped())
        .stdout(Stdio::piped())
        .stderr(Stdio::piped())
        .spawn()
        .unwrap();
    // a command that reads nothing may have ended: that is no failure
    let _ = child.stdin.take().unwrap().write_all(given);
    let output = child.wait_with_output().unwrap();
    (output.stdout, output.stderr)
}

/// All that a row of commands prints: what each says, and what the last one gives.
fn printed(commands: &str) -> String {
    let (mut given, mut said) = (vec![], vec![]);
    for command in commands.split(" | ") {
        let (out, err) = said_to(&given, command);
        (given, _) = (out, said.extend(err));
    }
    // a command that is refused or in error gives nothing, so that the order does not show
    String::from_utf8_lossy(&[said, given].concat()).into_owned()
}

/// The file names of the sheets, and the words that name the fittings sheet of each: its text names the page of one. Those with none first.
fn sheets() -> Vec<(String, String)> {
    let files = std::fs::read_dir(EXAMPLES).unwrap().map(|entry| entry.unwrap().file_name().into_string().unwrap());
    let beside = |sheet: String| {
        let text = sheet.replace(".sheet", ".txt");
        let page = std::fs::read_to_string(Path::new(EXAMPLES).join(&text)).unwrap_or_else(|e| panic!("{text}: {e}"));
        let fittings = page.lines().find_map(|line| line.strip_prefix("fittings "));
        let fittings = fittings.map(|text| format!("--fittings {} ", text.replace(".txt", ".sheet")));
        (fittings.unwrap_or_default(), sheet)
    };
    let mut sheets: Vec<(String, String)> = files.filter(|name| name.ends_with(".sheet")).map(beside).collect();
    sheets.sort();
    sheets
}

/// Every sheet has a text beside it, and is what is made of it; and shown, it makes the same again.
#[test]
fn the_sheets_are_made_of_the_texts() {
    let sheets = sheets();
    assert_eq!(sheets.len(), 7);
    for (beside, sheet) in sheets {
        let text = sheet.replace(".sheet", ".txt");
        let (made, said) = said_to(b"", &format!("wallcheck make {text}"));
        assert_eq!(String::from_utf8_lossy(&said), "", "{text}");
        let path = Path::new(EXAMPLES).join(&sheet);
        if std::env::var_os("KRESSEDACH_WRITE_EXAMPLES").is_some() {
            std::fs::write(&path, &made).unwrap();
        }
        assert!(std::fs::read(&path).unwrap() == made, "{sheet} is not what is made of {text}");
        let (page, _) = said_to(b"", &format!("wallcheck show {beside}{sheet}"));
        assert_eq!(said_to(&page, "wallcheck make -").0, made, "{sheet}");
    }
}

#[test]
fn the_commands_print_as_written() {
    for (page, due) in [("README.md", 35), ("NEWCOMERS.md", 10)] {
        let mut commands = 0;
        for (_, lines) in blocks(page, "console") {
            for said in format!("\n{}", lines.join("\n")).split("\n$ ").skip(1) {
                let (command, due) = said.split_once('\n').unwrap_or((said, ""));
                assert_eq!(printed(command).trim_end(), due.trim_end(), "{page}: {command}");
                commands += 1;
            }
        }
        assert_eq!(commands, due, "{page}");
    }
}

/// What a page says that a file has is what the file has, or what the command prints.
#[test]
fn the_files_are_as_written() {
    let texts = blocks("NEWCOMERS.md", "text");
    assert_eq!(texts.len(), 3);
    for (name, lines) in texts {
        assert_eq!(std::fs::read_to_string(Path::new(EXAMPLES).join(&name)).unwrap().trim_end(), lines.join("\n"), "{name}");
    }
    let starts = std::fs::read(Path::new(EXAMPLES).join("cut-starts.csv")).unwrap();
    assert_eq!(said_to(b"", "wallcheck cross --starts cut-shapes.csv cut-lines.csv").0, starts);
    let crossings = std::fs::read(Path::new(EXAMPLES).join("cut-crossings.csv")).unwrap();
    assert_eq!(said_to(b"", "wallcheck cross cut-shapes.csv cut-lines.csv").0, crossings);
}
