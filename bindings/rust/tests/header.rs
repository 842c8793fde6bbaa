//! What the C header has beside its declarations: the version, what the refusals mean, and the warnings of the compilers that a caller
//! gets. Each is asked of a C compiler, by programs that are compiled here.

use kressedach::Reason;
use std::collections::BTreeSet;
use std::fs;
use std::path::{Path, PathBuf};
use std::process::{Command, Output};

const HERE: &str = env!("CARGO_MANIFEST_DIR");

extern "C" {
    fn kressedach_version() -> u32;
}

/// The C compilers of the machine: `cc`, or what `CC` names, and gcc and clang where there are such.
fn compilers() -> Vec<String> {
    let there = |name: &str| Command::new(name).arg("--version").output().is_ok_and(|output| output.status.success());
    let cc = std::env::var("CC").unwrap_or("cc".into());
    [cc].into_iter().chain(["gcc", "clang"].map(String::from).into_iter().filter(|name| there(name))).collect()
}

fn text(path: &str) -> String {
    fs::read_to_string(format!("{HERE}/../../{path}")).unwrap_or_else(|e| panic!("{path}: {e}"))
}

/// As what a program is compiled.
const C: [&str; 1] = ["-std=c99"];
const CPP: [&str; 3] = ["-std=c++11", "-x", "c++"];

/// Compiles a program against the header, with warnings; or only looks at it, where there is nowhere to put what is made.
fn compiled(compiler: &str, as_what: &[&str], name: &str, program: &str, made: Option<&Path>) -> Output {
    let folder = Path::new(env!("CARGO_TARGET_TMPDIR")).join("header");
    fs::create_dir_all(&folder).unwrap();
    let source = folder.join(format!("{name}.c"));
    fs::write(&source, format!("#include <kressedach.h>\n{program}")).unwrap();
    let mut command = Command::new(compiler);
    command.args(as_what).args(["-O2", "-Wall", "-Wextra", "-Wpedantic", "-I"]).arg(format!("{HERE}/../c")).arg(&source);
    match made {
        Some(made) => command.arg("-o").arg(made),
        None => command.args(["-c", "-o", "/dev/null"]),
    };
    command.output().unwrap_or_else(|e| panic!("{compiler}: {e}"))
}

/// What a program prints that includes the header and calls nothing of the library.
fn printed(name: &str, program: &str) -> String {
    let made = PathBuf::from(env!("CARGO_TARGET_TMPDIR")).join(name);
    let output = compiled(&compilers()[0], &C, name, program, Some(&made));
    let said = String::from_utf8_lossy(&output.stderr).into_owned();
    assert!(output.status.success() && said.is_empty(), "{said}");
    String::from_utf8(Command::new(made).output().unwrap().stdout).unwrap()
}

#[test]
fn one_version() {
    let program = "#include <stdio.h>\nint main(void) { return printf(\"%s %d\\n\", KRESSEDACH_VERSION_TEXT, KRESSEDACH_VERSION) < 0; }\n";
    let [major, minor, patch] = [env!("CARGO_PKG_VERSION_MAJOR"), env!("CARGO_PKG_VERSION_MINOR"), env!("CARGO_PKG_VERSION_PATCH")]
        .map(|part| part.parse::<u32>().unwrap());
    let (version, counted) = (env!("CARGO_PKG_VERSION"), major * 1_000_000 + minor * 1_000 + patch);
    assert_eq!(printed("version", program), format!("{version} {counted}\n"));
    // SAFETY: it takes nothing and reads nothing.
    assert_eq!(unsafe { kressedach_version() }, counted);
    let said = Command::new(env!("CARGO_BIN_EXE_wallcheck")).arg("--version").output().unwrap();
    assert!(String::from_utf8(said.stdout).unwrap().starts_with(&format!("wallcheck {version}, ")));
    // the pages, and Python's package
    assert!(text("docs/BINDINGS.md").contains(&format!("`libkressedach.so.{major}.{minor}`")));
    assert!(text("bindings/shared").contains(&format!("FOLDER/libkressedach.so.{version} ")));
    for (file, begins) in [("bindings/python/pyproject.toml", "version = "), ("bindings/python/kressedach/__init__.py", "__version__ = ")] {
        let said = text(file).lines().filter_map(|line| line.strip_prefix(begins)).map(String::from).collect::<Vec<_>>();
        assert_eq!(said, [format!("\"{version}\"")], "{file}");
    }
}

/// What a number means is said in the same words in C, in Rust and on the page.
#[test]
fn one_meaning() {
    let program = "#include <stdio.h>\nint main(void) { for (int k = 0; k < 256; k++) puts(kressedach_meaning((uint8_t)k)); return 0; }\n";
    let said = printed("meaning", program);
    let said: Vec<&str> = said.lines().collect();
    assert_eq!((said.len(), said[0]), (256, "given"));
    let page = text("docs/SHEET.md");
    let table = page.split("| no. | given when | place |\n|---|---|---|\n").nth(1).unwrap();
    let cells = |row: &str| row.split(" | ").map(|cell| cell.trim_matches(['|', ' ']).to_string()).collect::<Vec<_>>();
    let rows: Vec<Vec<String>> = table.lines().take_while(|line| line.starts_with('|')).map(cells).collect();
    assert_eq!(rows.len(), Reason::ALL.len());
    for (row, reason) in rows.iter().zip(Reason::ALL) {
        let number = reason.number();
        assert_eq!(row[..2], [number.to_string(), reason.meaning().to_string()], "{reason:?}");
        assert_eq!(said[usize::from(number)], reason.meaning(), "{reason:?}");
    }
    assert!(said[1 + rows.len()..].iter().all(|meaning| *meaning == "unknown"));
}

/// The parameters of each function of the header but the version's, as C declares them: the report first.
fn functions() -> Vec<(String, Vec<String>)> {
    let header = text("bindings/c/kressedach.h");
    let declared = header.split("\nvoid kressedach_").skip(1).map(|rest| rest.split_once(')').unwrap().0.split_once('(').unwrap());
    let words = |part: &str| part.split_whitespace().collect::<Vec<_>>().join(" ");
    declared.map(|(name, parameters)| (name.to_string(), parameters.split(',').map(words).collect())).collect()
}

/// A call of each function with lists of two entries each; and how it is called with an argument, or two, exchanged for others.
struct Calls {
    /// The report and the lists, one for each of them.
    declared: String,
    good: Vec<String>,
    /// What is wrong, and the call.
    bad: Vec<(String, String)>,
}

fn calls() -> Calls {
    let mut calls = Calls { declared: String::new(), good: vec![], bad: vec![] };
    for (function, parameters) in functions() {
        let mut arguments = vec![format!("&{function}_report")];
        let report = parameters[0].strip_suffix(" *report").unwrap();
        calls.declared += &format!("static {report} {function}_report;\n");
        for parameter in &parameters[1..] {
            let name = parameter.rsplit([' ', '*']).next().unwrap();
            arguments.push(match parameter.split_once(" *") {
                Some((entry, _)) => {
                    let entry = entry.trim_start_matches("const ");
                    calls.declared += &format!("static {entry} {function}_{name}[2];\n");
                    format!("{function}_{name}")
                }
                None if name.ends_with("_length") => "2".into(),
                None if parameter.starts_with("bool") => "true".into(),
                None => "1".into(),
            });
        }
        let call = |arguments: &[String]| format!("kressedach_{function}({});", arguments.join(", "));
        let with = |at: usize, what: &str| {
            let mut arguments = arguments.clone();
            arguments[at] = what.into();
            call(&arguments)
        };
        calls.good.push(call(&arguments));
        calls.bad.push((format!("{function}: no report"), with(0, "NULL")));
        for (at, parameter) in parameters.iter().enumerate().skip(1).filter(|(_, parameter)| parameter.contains('*')) {
            calls.good.push(with(at + 1, "1"));
            calls.bad.push((format!("{function}: NULL for {parameter}"), with(at, "NULL")));
            calls.bad.push((format!("{function}: short {parameter}"), with(at + 1, "3")));
        }
    }
    calls
}

/// Every list and every report of every function: one that is NULL and one that is shorter than said are warned of by gcc and by clang, as C
/// and as C++; what is good is not.
#[test]
fn what_is_warned_of() {
    let Calls { declared, good, bad } = calls();
    assert_eq!((functions().len(), bad.len()), (13, 13 + 2 * 80), "13 reports and 80 lists");
    let program = |calls: &str| format!("void called(void);\n{declared}void called(void) {{\n{calls}}}\n");
    let good = program(&good.iter().map(|call| format!("    {call}\n")).collect::<String>());
    let first = 1 + program("").lines().count();
    let bad_program = program(&bad.iter().map(|(_, call)| format!("    {call}\n")).collect::<String>());
    for (compiler, as_what) in compilers().iter().flat_map(|compiler| [&C[..], &CPP].map(|as_what| (compiler, as_what))) {
        let output = compiled(compiler, as_what, "good", &good, None);
        assert!(output.status.success() && output.stderr.is_empty(), "{compiler}: {}", String::from_utf8_lossy(&output.stderr));
        let output = compiled(compiler, as_what, "bad", &bad_program, None);
        let said = String::from_utf8_lossy(&output.stderr);
        assert!(output.status.success(), "{compiler}: {said}");
        let reasons = ["[-Wnonnull]", "[-Wstringop-over", "[-Wuser-defined-warnings]"];
        let warned = said.lines().filter(|line| line.contains(": warning: ") && reasons.iter().any(|why| line.contains(why)));
        let lines: BTreeSet<usize> = warned.filter_map(|line| line.split("bad.c:").nth(1)?.split(':').next()?.parse().ok()).collect();
        let unseen: Vec<&String> = (first..).zip(&bad).filter(|(line, _)| !lines.contains(line)).map(|(_, (what, _))| what).collect();
        assert!(unseen.is_empty(), "{compiler} {as_what:?} says nothing of {unseen:#?}\n{said}");
        assert_eq!(lines.len(), bad.len());
    }
}

/// A list that is NULL has no entries, and one that is written need not be initialised.
const LENT: &str = "
static const uint8_t sheet[] = {1, 0, 2};
void good(const uint8_t *lent, size_t length, uint16_t *kinds);
void good(const uint8_t *lent, size_t length, uint16_t *kinds) {
    uint16_t firsts[4], seconds[4];
    struct kressedach_build_report r;
    kressedach_build(&r, false, NULL, 0, sheet, sizeof sheet, kinds, length, firsts, 4, seconds, 4);
    kressedach_build(&r, true, sheet + 1, 2, lent, length, NULL, 0, NULL, 0, NULL, 0);
}
";

#[test]
fn what_is_not_warned_of() {
    let editions = [&["-std=c99"][..], &["-std=c17"], &["-std=gnu17"], &["-x", "c++", "-std=c++11"], &["-x", "c++", "-std=c++20"]];
    for (compiler, as_what) in compilers().iter().flat_map(|compiler| editions.map(|as_what| (compiler, as_what))) {
        let output = compiled(compiler, as_what, "lent", LENT, None);
        assert!(output.status.success() && output.stderr.is_empty(), "{compiler}: {}", String::from_utf8_lossy(&output.stderr));
    }
}
