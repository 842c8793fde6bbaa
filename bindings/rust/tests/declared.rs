//! The two declarations of the boundary, `ffi.rs` and `kressedach.h`, are those that `crates/kressedach/src/lib.rt` asks for: what a
//! function of the library returns, it writes where a first argument more says; the version alone is returned, and only C asks for it. The
//! header tells gcc and clang of each list whether it is read or written, and where its length stands.

use std::fs;

fn text(path: &str) -> String {
    fs::read_to_string(format!("{}/{path}", env!("CARGO_MANIFEST_DIR"))).unwrap_or_else(|e| panic!("{path}: {e}"))
}

/// Without comments, attributes and preprocessor lines, and with one space where any space was.
fn bare(source: &str) -> String {
    let mut s = source.replace("\\\n", "");
    while let Some(at) = s.find("/*") {
        let end = at + s[at..].find("*/").unwrap() + 2;
        s.replace_range(at..end, " ");
    }
    let lines = s.lines().map(|line| line.split("//").next().unwrap()).filter(|line| !line.trim_start().starts_with('#'));
    let words = lines.flat_map(str::split_whitespace).collect::<Vec<_>>().join(" ");
    words.replace(", }", " }").replace(", )", ")").replace(",)", ")").replace("( ", "(").replace(" )", ")")
}

/// `ReadReport` is `kressedach_read_report` in C.
fn c_name(name: &str) -> String {
    let snake = |letter: char| if letter.is_uppercase() { format!("_{}", letter.to_lowercase()) } else { letter.to_string() };
    format!("kressedach{}", name.chars().map(snake).collect::<String>())
}

fn c_type(t: &str) -> String {
    match t {
        "u8" | "u16" | "u32" | "u64" => format!("uint{}_t", &t[1..]),
        "i32" => "int32_t".into(),
        "f64" => "double".into(),
        "usize" => "size_t".into(),
        "bool" => "bool".into(),
        _ => format!("struct {}", c_name(t)),
    }
}

/// A parameter of Rattle, as C and as Rust declare it. A slice is a pointer and its number of entries.
fn parameter(p: &str) -> (String, String) {
    let (name, t) = p.trim().split_once(": ").unwrap();
    let list = |entry: &str, c: &str, rust: &str| {
        let entry = entry.trim_end_matches(']');
        (format!("{c}{} *{name}, size_t {name}_length", c_type(entry)), format!("{name}: *{rust} {entry}, {name}_length: usize"))
    };
    if let Some(entry) = t.strip_prefix("&mut [") {
        list(entry, "", "mut")
    } else if let Some(entry) = t.strip_prefix("&[") {
        list(entry, "const ", "const")
    } else {
        (format!("{} {name}", c_type(t)), format!("{name}: {t}"))
    }
}

/// What the header says of the report and of each list, by their places among C's parameters.
fn attributes(parameters: &[&str]) -> String {
    let (mut said, mut at) = ("KRESSEDACH_REPORTED".to_string(), 2);
    for p in parameters {
        let (name, t) = p.trim().split_once(": ").unwrap();
        if t.starts_with('&') {
            let mode = if t.starts_with("&mut") { "WRITTEN" } else { "READ" };
            said += &format!(" KRESSEDACH_{mode}({at}, {}, {name})", at + 1);
        }
        at += if t.starts_with('&') { 2 } else { 1 };
    }
    said
}

#[test]
fn the_declarations_agree() {
    let library = bare(&text("../../crates/kressedach/src/lib.rt"));
    let (header, ffi) = (bare(&text("../c/kressedach.h")), bare(&text("src/ffi.rs")));
    let declared = |c: String, rust: String| {
        assert!(header.contains(&c), "{c}\nis not in the header:\n{header}");
        assert!(ffi.contains(&rust), "{rust}\nis not in ffi.rs:\n{ffi}");
    };
    let structs: Vec<&str> = library.split("pub struct ").skip(1).collect();
    for s in &structs {
        let (name, rest) = s.split_once(" { ").unwrap();
        let fields = rest.split_once(" }").unwrap().0;
        let c_field = |field: &str| {
            let (name, t) = field.trim_start_matches("pub ").split_once(": ").unwrap();
            format!("{} {name}; ", c_type(t))
        };
        let c: String = fields.split(", ").map(c_field).collect();
        declared(format!("struct {} {{ {c}}};", c_name(name)), format!("pub struct {name} {{ {fields} }}"));
    }
    let functions: Vec<&str> = library.split("pub extern \"C\" fn ").skip(1).collect();
    let (version, functions): (Vec<&str>, Vec<&str>) = functions.into_iter().partition(|f| f.starts_with("kressedach_version() -> u32 "));
    assert!(version.len() == 1 && header.contains("uint32_t kressedach_version(void);"));
    for f in &functions {
        let (name, rest) = f.split_once('(').unwrap();
        let (parameters, rest) = rest.split_once(") -> ").unwrap();
        let result = rest.split_whitespace().next().unwrap();
        let parameters: Vec<&str> = parameters.split(", ").collect();
        let (c, rust): (Vec<_>, Vec<_>) = parameters.iter().map(|p| parameter(p)).unzip();
        let (c, rust, attributes) = (c.join(", "), rust.join(", "), attributes(&parameters));
        let c = format!("void {name}({} *report, {c}) {attributes};", c_type(result));
        declared(c, format!("pub fn {name}(report: *mut {result}, {rust});"));
    }
    for (what, most) in [("NODES", kressedach::MOST_NODES), ("NAMES", kressedach::MOST_NAMES)] {
        assert!(text("../c/kressedach.h").contains(&format!("#define KRESSEDACH_MOST_{what} {most}\n")));
    }
    // nothing is declared that is not exported
    let count = |s: &str, of: &str| s.matches(of).count();
    assert_eq!((structs.len(), functions.len()), (11, 13), "structs and functions of the library");
    assert_eq!((count(&header, "_report {"), count(&header, "void kressedach_")), (11, 13), "of the header");
    assert_eq!((count(&ffi, "pub struct "), count(&ffi, "pub fn ")), (11, 13), "of ffi.rs");
}
