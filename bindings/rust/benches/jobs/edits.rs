//! An edit's time beside that of a toggle of one leaf and of a new build, on the same sheet.

use kressedach::{EditLists, EditedLists, NodeLists, RunLists, MOST_NODES};
use peer::designs::Design;
use peer::make::{self, Dice, Form};
use peer::sheet::Sheets;
use std::hint::black_box;
use std::rc::Rc;

/// A sheet, and what is done with it.
struct Work {
    sheet: Vec<u8>,
    /// Toggles that leave about half of the shapes inside.
    first: usize,
    /// Those, and as many more toggles as there are edits.
    toggles: Vec<u16>,
    /// Edits after the first toggles.
    design: Design,
}

/// What is timed for one formula.
pub struct Row {
    pub formula: &'static str,
    pub leaves: usize,
    /// How many toggles and how many edits there are more than in the first of these calls.
    pub more: usize,
    /// A run of some toggles; with more toggles; with edits; a build.
    pub calls: [Box<dyn FnMut()>; 4],
    /// Compares the answers.
    pub check: Box<dyn Fn()>,
}

pub fn all(more: usize) -> Vec<Row> {
    let formulas = ["chain", "balanced", "split"];
    formulas.into_iter().flat_map(|formula| [64, 256, 1024].map(|leaves| row(formula, leaves, more))).collect()
}

/// Every shape but the last stands at one leaf.
fn codes(formula: &str, leaves: usize, names: usize) -> Vec<u16> {
    let dice = &mut Dice::of(16, leaves as u64);
    let form = match formula {
        "chain" => Form::LeftChain,
        "split" => Form::Any,
        _ => Form::Balanced,
    };
    let mut codes = make::codes(dice, names, leaves, form);
    let every = leaves / names;
    for (leaf, code) in codes.iter_mut().filter(|code| **code < 0xFFF0).enumerate() {
        *code = if leaf % every == 0 { (leaf / every) as u16 } else { names as u16 - 1 };
    }
    codes
}

fn work(formula: &str, leaves: usize, more: usize) -> Work {
    let dice = &mut Dice::of(17, leaves as u64);
    let shapes = leaves.min(256);
    let mut codes = codes(formula, leaves, shapes);
    let names: Vec<String> = (0..shapes).map(|shape| format!("rib{shape:03}")).collect();
    let sheet = make::sheet(&names, &codes);
    let operations: Vec<usize> = (0..codes.len()).filter(|at| codes[*at] >= 0xFFF0).collect();
    let mut design = Design::default();
    for _ in 0..more {
        // another operation than the one that stands there
        let at = operations[dice.below(operations.len())];
        codes[at] = 0xFFF0 + (codes[at] - 0xFFF0 + 1 + dice.below(3) as u16) % 4;
        design.put(shapes as u64, at as u16, codes[at]);
    }
    Work { sheet, first: shapes, toggles: (0..shapes + more).map(|_| dice.below(shapes - 1) as u16).collect(), design }
}

/// A run of so many toggles and edits; gives roots, counts, labels, edit counts.
fn run(work: &Work, toggles: usize, edits: usize, to: &mut Lists) -> usize {
    let design = &work.design;
    let edits = EditLists { moments: &design.moments[..edits], positions: &design.positions[..edits], codes: &design.codes[..edits] };
    let run = RunLists { roots: &mut to.0, counts: &mut to.1, labels: &mut to.2 };
    let mut lists = EditedLists { run, edit_counts: &mut to.3 };
    kressedach::run_edited_into(&work.sheet, &work.toggles[..toggles], edits, &mut lists).unwrap()
}

type Lists = (Vec<u8>, Vec<u32>, Vec<u8>, Vec<u32>);

fn room(work: &Work) -> Lists {
    (vec![0; work.toggles.len()], vec![0; work.toggles.len()], vec![0; MOST_NODES], vec![0; work.design.moments.len()])
}

fn row(formula: &'static str, leaves: usize, more: usize) -> Row {
    let work = Rc::new(work(formula, leaves, more));
    let timed = |toggles: usize, edits: usize| -> Box<dyn FnMut()> {
        let (work, mut to) = (work.clone(), room(&work));
        Box::new(move || _ = black_box(run(black_box(&work), toggles, edits, &mut to)))
    };
    let (first, all) = (work.first, work.toggles.len());
    let (built, [mut kinds, mut firsts, mut seconds]) = (work.clone(), [[0; MOST_NODES]; 3]);
    let build = move || {
        let mut lists = NodeLists { kinds: &mut kinds, firsts: &mut firsts, seconds: &mut seconds };
        _ = black_box(kressedach::build_into(black_box(&built.sheet), &mut lists));
    };
    Row { formula, leaves, more, calls: [timed(first, 0), timed(all, 0), timed(first, more), Box::new(build)], check: check(work) }
}

/// The answers of the first edits, each of which the peer builds anew for.
fn check(work: Rc<Work>) -> Box<dyn Fn()> {
    Box::new(move || {
        let (edits, design) = (work.design.moments.len().min(100), &work.design);
        let lists =
            peer::edits::Edits { moments: &design.moments[..edits], positions: &design.positions[..edits], codes: &design.codes[..edits] };
        let toggles = &work.toggles[..work.first + edits];
        let due = peer::run_edited(Sheets::alone(&work.sheet), toggles, lists, [usize::MAX; 4]).unwrap();
        let mut to = room(&work);
        assert_eq!(run(&work, toggles.len(), edits, &mut to), due.ran.labels.len());
        assert!(to.0[..toggles.len()] == due.ran.roots && to.1[..toggles.len()] == due.ran.counts);
        assert!(to.2[..due.ran.labels.len()] == due.ran.labels && to.3[..edits] == due.edit_counts);
    })
}
