//! The listing program, run as it was proved and compiled: the two heights, and how much of its input it needs.
//!
//! Document 000 claims that the dwarf tree is never taller than the formula's tree. It can be: from nine leaves on. The heights of both
//! are compared over every form of formula with up to ten leaves, and some larger ones. The contraction does not depend on which
//! operation stands where, so every operation is a union here, and every leaf the one shape.
//!
//! The program is the one that `.ci/bindings` leaves in `target/bin`, run by `.ci/listing`, or the file that `KRESSEDACH_LISTING` names.

use peer::formula::{Formula, Op};
use peer::sheet::Sheets;
use peer::{make, say};
use std::io::Write;
use std::path::PathBuf;
use std::process::{Command, Stdio};

/// What the listing program prints of these bytes.
fn listing(bytes: &[u8]) -> String {
    let program = match std::env::var_os("KRESSEDACH_LISTING") {
        Some(file) => PathBuf::from(file),
        None => PathBuf::from(env!("CARGO_MANIFEST_DIR")).join("../../.ci/listing"),
    };
    let mut child = Command::new(&program)
        .stdin(Stdio::piped())
        .stdout(Stdio::piped())
        .spawn()
        .unwrap_or_else(|e| panic!("{}: {e}: '.ci/bindings' makes it", program.display()));
    // the program may have ended before it is given all: that is no failure
    let _ = child.stdin.take().unwrap().write_all(bytes);
    String::from_utf8(child.wait_with_output().unwrap().stdout).unwrap()
}

/// Leaves, dwarf nodes, rounds and height, as the library gives them.
fn size(sheet: &[u8]) -> [usize; 4] {
    let size = kressedach::build(sheet).unwrap().size;
    [size.leaves, size.nodes, size.rounds, size.height]
}

/// The same four numbers, as the listing program prints them. It has to print a record for each node, and the library's numbers.
fn listed(sheet: &[u8]) -> [usize; 4] {
    let text = listing(sheet);
    let mut lines = text.lines();
    let numbers: Vec<usize> = lines.next().unwrap().split(' ').map(|n| n.parse().unwrap()).collect();
    let numbers: [usize; 4] = numbers.try_into().unwrap();
    assert_eq!(lines.count(), numbers[1]);
    assert_eq!(numbers, size(sheet));
    numbers
}

/// A formula by its form: a dot is a leaf, and parentheses hold an operation's two operands.
fn formula(form: &str, leaf: &Formula) -> Formula {
    fn part(rest: &mut std::str::Chars, leaf: &Formula) -> Formula {
        match rest.next() {
            Some('(') => {
                let (left, right) = (part(rest, leaf), part(rest, leaf));
                assert_eq!(rest.next(), Some(')'));
                Formula::node(Op::Union, left, right)
            }
            _ => leaf.clone(),
        }
    }
    part(&mut form.chars(), leaf)
}

fn form(formula: &Formula) -> String {
    match formula {
        Formula::Shape(_) => ".".into(),
        Formula::Node(_, left, right) => format!("({}{})", form(left), form(right)),
    }
}

/// Every form of formula with so many leaves.
fn all(leaves: usize) -> Vec<Formula> {
    if leaves == 1 {
        return vec![Formula::Shape(0)];
    }
    let mut out = Vec::new();
    for first in 1..leaves {
        for left in all(first) {
            out.extend(all(leaves - first).into_iter().map(|right| Formula::node(Op::Union, left.clone(), right)));
        }
    }
    out
}

fn sheet_of(formula: &Formula) -> Vec<u8> {
    make::sheet(&["A"], &formula.codes())
}

/// The formula's height and its dwarf tree's, by the listing program.
fn heights(formula: &Formula) -> (usize, usize) {
    (formula.height(), listed(&sheet_of(formula))[3])
}

/// The same by the library, which is quicker.
fn heights_unlisted(formula: &Formula) -> (usize, usize) {
    (formula.height(), size(&sheet_of(formula))[3])
}

/// The smallest formula with a taller dwarf tree.
const NINE: &str = "((.(.(..)))(.((..)(..))))";

#[test]
fn every_form_up_to_ten_leaves() {
    let mut taller = Vec::new();
    let mut first = None;
    for leaves in 1..=10 {
        let of = if leaves < 10 { heights } else { heights_unlisted };
        let forms = all(leaves);
        let these: Vec<(&Formula, (usize, usize))> = forms.iter().map(|f| (f, of(f))).filter(|(_, (own, dwarf))| dwarf > own).collect();
        if !these.is_empty() {
            say(format!("of {} formulas with {leaves} leaves, {} have a dwarf tree taller than their own", forms.len(), these.len()));
        }
        first = first.or(these.first().map(|(f, heights)| (form(f), *heights)));
        taller.push(these.len());
    }
    let (smallest, (height, dwarf)) = first.unwrap();
    say(format!("the smallest: {smallest} has height {height}, and its dwarf tree has {dwarf}"));
    assert_eq!(taller, [0, 0, 0, 0, 0, 0, 0, 0, 48, 144]);
    assert_eq!((smallest.as_str(), height, dwarf), (NINE, 4, 5));
}

/// Put in its own leaves' places, the smallest one grows at each step.
#[test]
fn taller_by_more() {
    let nine = formula(NINE, &Formula::Shape(0));
    let nested = formula(NINE, &nine);
    assert_eq!(heights(&nested), (8, 10));
    assert_eq!(heights(&formula(NINE, &nested)), (12, 15));
    let two_more = "((.(((.(..))(..))(.((..).))))((..)((((..).)(..))(.((..)(..))))))";
    assert_eq!(heights(&formula(two_more, &Formula::Shape(0))), (6, 8));
}

/// Chains are what the contraction is for, and balanced formulas have nothing to gain.
#[test]
fn of_the_largest_formulas() {
    let dice = &mut make::Dice::of(3, 0);
    let mut of = |form| {
        let sheet = make::sheet(&["A"], &make::codes(dice, 1, 1024, form));
        (peer::read(Sheets::alone(&sheet)).unwrap().formula.height(), listed(&sheet)[3])
    };
    assert_eq!(of(make::Form::LeftChain), (1023, 11));
    assert_eq!(of(make::Form::RightChain), (1023, 11));
    assert_eq!(of(make::Form::ZigZag), (1023, 11));
    assert_eq!(of(make::Form::Balanced), (10, 10));
}

/// A sheet of 13,062 bytes, the most that there are: 256 names of 32 bytes and 1024 leaves.
fn largest() -> Vec<u8> {
    let names: Vec<String> = (0..256).map(|k| format!("{k:0>32}")).collect();
    let sheet = make::sheet(&names, &make::codes(&mut make::Dice::of(3, 1), 256, 1024, make::Form::Any));
    assert_eq!(sheet.len(), 13062);
    sheet
}

/// 13,063 bytes are enough, and none of them is too many: what follows them changes no answer, and the last of them does.
#[test]
fn how_many_bytes_it_needs() {
    let mut bytes = largest();
    assert_eq!(listed(&bytes)[0], 1024);
    for further in [1, 2, 20_000] {
        bytes.resize(13062 + further, 0);
        assert_eq!(listing(&bytes), "refused 2 13062\n");
    }
    let dice = &mut make::Dice::of(3, 2);
    for _ in 0..200 {
        let mut bytes = make::any_sheet(dice);
        let tail = dice.below(20_000);
        bytes.extend((0..tail).map(|_| dice.below(256) as u8));
        match peer::build(Sheets::alone(&bytes), [3072; 3]) {
            Ok(dwarf) => assert_eq!(listed(&bytes)[1], dwarf.records.len()),
            Err(no) => assert_eq!(listing(&bytes), format!("refused {} {}\n", no.number, no.place)),
        }
    }
}
