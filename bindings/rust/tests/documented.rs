//! Every public item of the crate has an example, which the documentation's tests run; and no job with lent lists takes two of one type side
//! by side, which could be exchanged unseen.

use std::fs;

/// The files of the crate, but for what is declared again for the linker alone.
fn files() -> impl Iterator<Item = String> {
    let files = fs::read_dir(concat!(env!("CARGO_MANIFEST_DIR"), "/src")).unwrap().map(|file| file.unwrap().path());
    let files = files.filter(|file| file.extension().is_some_and(|end| end == "rs") && !file.ends_with("ffi.rs"));
    files.map(|file| fs::read_to_string(file).unwrap())
}

/// What stands in a file of the crate: each public item, and whether its documentation has an example. One that is not compiled and run, as
/// a word behind its opening says, is none.
fn items(text: &str) -> Vec<(String, bool)> {
    let (mut items, mut example, mut is_open) = (Vec::new(), false, false);
    for line in text.lines().map(str::trim_start) {
        match line.strip_prefix("///") {
            Some(said) if said.trim_start().starts_with("```") => {
                example |= !is_open && said.trim() == "```";
                is_open = !is_open;
            }
            Some(_) => {}
            None if line.starts_with("#[") => {}
            None => {
                if is_item(line) {
                    items.push((line.into(), example));
                }
                (example, is_open) = (false, false);
            }
        }
    }
    items
}

/// Is it a public item's first line? A field has a colon behind its name, and what is used again is documented where it stands.
fn is_item(line: &str) -> bool {
    let word = line.strip_prefix("pub ").and_then(|rest| rest.split_whitespace().next());
    word.is_some_and(|word| word != "use" && !word.ends_with(':'))
}

#[test]
fn every_item_has_an_example() {
    let all: Vec<(String, bool)> = files().flat_map(|text| items(&text)).collect();
    let without: Vec<&String> = all.iter().filter(|(_, example)| !example).map(|(item, _)| item).collect();
    assert_eq!(without, [""; 0]);
    assert!(all.len() > 100, "{} items are too few", all.len());
}

#[test]
fn an_item_without_an_example_is_found() {
    let text = "/// One.\n///\n/// ```\n/// ```\n#[inline]\npub fn one() {}\n/// Two.\npub struct Two {\n    /// A field.\n    pub field: u8,\n}\n";
    assert_eq!(items(text), [("pub fn one() {}".into(), true), ("pub struct Two {".into(), false)]);
    for word in ["ignore", "no_run", "text", "compile_fail"] {
        let text = format!("/// Three.\n///\n/// ```{word}\n/// ```\npub const unsafe fn three() {{}}\n");
        assert_eq!(items(&text), [("pub const unsafe fn three() {}".into(), false)]);
    }
}

/// The name of each public function, and the types of what it takes; the sheets of a call may be bytes.
fn functions(text: &str) -> Vec<(String, Vec<String>)> {
    let one = |rest: &str| {
        let (name, rest) = rest.split_once('(').unwrap();
        let takes = rest.split_once(") ->").unwrap().0.split(", ").flat_map(|part| part.split(",\n"));
        let types = takes.filter_map(|part| Some(part.split_once(": ")?.1.trim().replace("impl Into<Sheets<'a>>", "&[u8]")));
        (name.split('<').next().unwrap().to_string(), types.collect())
    };
    text.split("\npub fn ").skip(1).map(one).collect()
}

#[test]
fn no_two_lists_can_be_exchanged() {
    let lent = files().flat_map(|text| functions(&text)).filter(|(name, _)| name.contains("_into") || name.contains("_lists"));
    let lent: Vec<(String, Vec<String>)> = lent.collect();
    assert_eq!(lent.len(), 14, "{lent:?}");
    for (name, types) in lent {
        let mut lists: Vec<&String> = types.iter().filter(|what| what.starts_with("&[") || what.starts_with("&mut [")).collect();
        let count = lists.len();
        lists.sort();
        lists.dedup();
        assert_eq!(lists.len(), count, "{name}: {types:?}");
    }
}
