//! What is timed: each row is one job on one sheet with its lists.

use crate::plain;
use crate::scale::Costs;
use kressedach::{LineLists, NodeLists, Opinion, Probe, RunLists, ShapeLists, TheirLists, WallLists, BOX};
use peer::lines::{Crossing, Crossings};
use peer::make::{self, Dice, Form};
use peer::sheet::Sheets;
use std::hint::black_box;

pub struct Row {
    pub job: &'static str,
    pub formula: &'static str,
    pub leaves: usize,
    /// What a call has of each thing that costs.
    pub costs: Costs,
    pub lists: String,
    /// How many items a call works on.
    pub items: usize,
    pub library: Box<dyn FnMut()>,
    pub plain: Box<dyn FnMut()>,
    pub walk: Option<Box<dyn FnMut()>>,
    pub copy: Box<dyn FnMut()>,
    /// One plain pass over the start rows.
    pub pass: Option<Box<dyn FnMut()>>,
    /// The library's opinion on the walls of the same lines, which is a right list.
    pub judge: Option<Box<dyn FnMut()>>,
    /// Compares the answers.
    pub check: Box<dyn Fn()>,
}

const SIZES: [usize; 4] = [4, 64, 256, 1024];
const NODES: usize = kressedach::MOST_NODES;

/// A sheet of so many leaves. Each shape stands at one leaf while there are names; in `ninety`, the first stands at ninety more or less.
fn sheet(formula: &str, leaves: usize) -> (Vec<u8>, usize) {
    let dice = &mut Dice::of(11, leaves as u64);
    let form = match formula {
        "chain" => Form::LeftChain,
        "split" => Form::Any,
        _ => Form::Balanced,
    };
    let count = leaves.min(256);
    let mut codes = make::codes(dice, count, leaves, form);
    let (mut leaf, every) = (0, leaves as f64 / 90.0);
    for code in codes.iter_mut().filter(|code| **code < 0xFFF0) {
        *code = match formula {
            "ninety" if (leaf as f64 % every) < 1.0 => 0,
            "ninety" => 1 + (leaf % (count - 1)) as u16,
            _ => (leaf % count) as u16,
        };
        leaf += 1;
    }
    let names: Vec<String> = (0..count).map(|shape| format!("rib{shape:03}")).collect();
    (make::sheet(&names, &codes), count)
}

/// All rows. Toggle lists have a tenth of `crossings`.
pub fn all(crossings: usize) -> Vec<Row> {
    let mut rows: Vec<Row> = SIZES.into_iter().map(|leaves| read("chain", leaves)).collect();
    rows.push(read_pair("chain", 128, 256));
    rows.extend(SIZES.into_iter().map(|leaves| moved("chain", leaves)));
    for formula in ["chain", "balanced"] {
        rows.extend(SIZES.into_iter().map(|leaves| build(formula, leaves)));
    }
    for formula in ["chain", "balanced", "ninety"] {
        let sizes = &SIZES[if formula == "ninety" { 2 } else { 0 }..];
        rows.extend(sizes.iter().map(|leaves| run(formula, *leaves, crossings / 10)));
    }
    for formula in ["chain", "balanced", "split", "ninety"] {
        let sizes = &SIZES[if formula == "ninety" { 2 } else { 0 }..];
        for (leaves, a_line) in sizes.iter().flat_map(|leaves| [2, 10, 200].map(|a_line| (*leaves, a_line))) {
            rows.push(classify(formula, leaves, a_line, Starts::Air, crossings));
        }
    }
    let started = [Starts::Three { every: 10 }, Starts::Three { every: 1 }, Starts::Random];
    for (formula, leaves) in ["chain", "balanced"].into_iter().flat_map(|formula| SIZES.map(|leaves| (formula, leaves))) {
        rows.extend(started.map(|starts| classify(formula, leaves, 10, starts, crossings)));
    }
    for a_line in [2, 200] {
        rows.extend(started.map(|starts| classify("balanced", 256, a_line, starts, crossings)));
    }
    rows.extend([("chain", 4), ("chain", 64), ("balanced", 64)].map(|(formula, leaves)| short_call(formula, leaves, 10, 400)));
    rows.push(walls_only(64, crossings));
    rows.push(together(64, crossings));
    for shapes in ["half-spaces", "boxes along", "boxes aslant", "balls"] {
        rows.extend([4, 64, 256].into_iter().map(|count| cross(shapes, count)));
    }
    rows
}

/// Reading: a name is compared with those before it.
fn read_costs(leaves: usize) -> Costs {
    let names = leaves.min(256) as f64;
    vec![("call", 1.0), ("name", names), ("two names", names * (names - 1.0) / 2.0), ("leaf", leaves as f64)]
}

/// Building: reading, and the nodes that are made.
fn build_costs(leaves: usize, nodes: usize) -> Costs {
    let mut costs = read_costs(leaves);
    costs.push(("node", nodes as f64));
    costs
}

/// At how many leaves of a sheet's formula a shape stands.
fn leaves_of(sheet: &[u8], shape: u16) -> usize {
    let formula = kressedach::read(sheet).unwrap().formula;
    sheet[formula].chunks(2).filter(|code| **code == shape.to_be_bytes()).count()
}

/// How many operations of a sheet's formula have two leaves: each begins a row of its own, which the operations above it go on with.
fn on_two_leaves(sheet: &[u8]) -> usize {
    let formula = kressedach::read(sheet).unwrap().formula;
    let is_leaf: Vec<bool> = sheet[formula].chunks(2).map(|code| code[0] < 0xFF).collect();
    is_leaf.windows(3).filter(|three| **three == [true, true, false]).count()
}

/// How many crossings are worked on together with a line that starts in a shape: 512 are at a time.
fn beside_starts(lines: &Lines, names: usize) -> usize {
    let starts = |line: u32| lines.rows[line as usize * names..][..names].contains(&1);
    lines.lines.chunks(512).filter(|some| some.iter().any(|line| starts(*line))).map(<[u32]>::len).sum()
}

/// How often a line goes on past 64 crossings: then the states of all shapes are carried on.
fn carried(lines: &[u32]) -> usize {
    lines.chunk_by(|before, here| before == here).map(|line| (line.len() - 1) / 64).sum()
}

/// Lines: reading; every byte of the start rows, every crossing, the formula at every crossing and at every start in a shape, every wall.
/// Where a line starts in a shape, the call's crossings go another way, and the shapes of its row are put in.
fn line_costs(lines: &Lines, leaves: usize, walls: usize) -> Costs {
    let (names, crossings) = (leaves.min(256), lines.lines.len());
    let started = lines.rows.chunks(names).filter(|row| row.contains(&1)).count();
    let inside = lines.rows.iter().filter(|byte| **byte == 1).count();
    let place = |k: usize| (lines.lines[k], lines.positions[k]);
    let shared = (1..crossings).filter(|k| place(*k) == place(k - 1)).count();
    let mut costs = read_costs(leaves);
    costs.extend([
        ("call with lines", 1.0),
        ("line and name", lines.rows.len() as f64),
        ("crossing", crossings as f64),
        ("crossing where the one before it is", shared as f64),
        ("crossing or start in a shape, and leaf", ((crossings + started) * leaves) as f64),
        ("crossing or start in a shape, and operation on two leaves", ((crossings + started) * on_two_leaves(&lines.sheet)) as f64),
        ("64 crossings of a line that has more, and name", (carried(&lines.lines) * names) as f64),
        ("wall", walls as f64),
        ("crossing, of 512 among which a line starts in a shape", beside_starts(lines, names) as f64),
        ("line that starts in a shape", started as f64),
        ("line that starts in a shape, and name", (started * names) as f64),
        ("shape that a line starts in", inside as f64),
    ]);
    costs
}

fn cost_of(shapes: &str) -> &'static str {
    match shapes {
        "half-spaces" => "half-space",
        "boxes along" => "box along",
        "boxes aslant" => "box aslant",
        _ => "ball",
    }
}

/// One line in air that crosses nothing, on the smallest sheet and on the largest: what a call costs before it has lines to work on.
pub fn one_line_calls() -> [Box<dyn FnMut()>; 2] {
    let dice = &mut Dice::of(16, 0);
    let small = make::sheet(&["A"], &[0]);
    let large = make::sheet(&make::names(dice, 256, 32), &make::codes(dice, 256, 1024, Form::Any));
    [(small, 1), (large, 256)].map(|(sheet, names)| -> Box<dyn FnMut()> {
        let (lines, mut room) = (Lines::of(sheet, vec![0; names], &[]), Room::of(1));
        Box::new(move || _ = black_box(LIBRARY(black_box(&lines), &mut room.lent())))
    })
}

/// Copies a list, each time it is called.
fn copying<T: Copy + 'static>(from: Vec<T>) -> impl FnMut() {
    let mut to = from.clone();
    move || black_box(&mut to[..]).copy_from_slice(black_box(&from))
}

fn read(formula: &'static str, leaves: usize) -> Row {
    let (sheet, _) = sheet(formula, leaves);
    let (a, b, c) = (sheet.clone(), sheet.clone(), sheet.clone());
    Row {
        job: "read",
        formula,
        leaves,
        costs: read_costs(leaves),
        lists: format!("{} bytes", sheet.len()),
        items: leaves,
        library: Box::new(move || _ = black_box(kressedach::read(black_box(&a)))),
        plain: Box::new(move || _ = black_box(plain::read(black_box(&b)))),
        walk: None,
        copy: Box::new(copying(c)),
        pass: None,
        judge: None,
        check: Box::new(move || {
            let read = kressedach::read(&sheet).unwrap();
            assert_eq!(plain::read(&sheet), Ok((read.names, read.leaves, read.formula.start, read.formula.end)));
            let due = peer::read(Sheets::alone(&sheet)).unwrap();
            assert_eq!((read.names, read.leaves, read.formula), (due.names.len(), due.leaves, due.first..due.past));
        }),
    }
}

/// The sheet of so many leaves, its first names taken out into a fittings sheet.
fn pair(formula: &str, fitted: usize, leaves: usize) -> (Vec<u8>, Vec<u8>) {
    let (sheet, count) = sheet(formula, leaves);
    let names: Vec<String> = (0..count).map(|shape| format!("rib{shape:03}")).collect();
    let codes = &sheet[make::fittings(&names).len()..];
    (make::fittings(&names[..fitted]), [&make::fittings(&names[fitted..]), codes].concat())
}

fn read_pair(formula: &'static str, fitted: usize, leaves: usize) -> Row {
    let (fittings, own) = pair(formula, fitted, leaves);
    let (a, b, c) = ((fittings.clone(), own.clone()), (fittings.clone(), own.clone()), [&fittings[..], &own].concat());
    Row {
        job: "read",
        formula,
        leaves,
        costs: read_costs(leaves),
        lists: format!("{} and {} bytes", fittings.len(), own.len()),
        items: leaves,
        library: Box::new(move || _ = black_box(kressedach::read(black_box(kressedach::Sheets::beside(&a.0, &a.1))))),
        plain: Box::new(move || _ = black_box(plain::read_pair(black_box(&b.0), black_box(&b.1)))),
        walk: None,
        copy: Box::new(copying(c)),
        pass: None,
        judge: None,
        check: Box::new(move || {
            let read = kressedach::read(kressedach::Sheets::beside(&fittings, &own)).unwrap();
            assert_eq!(plain::read_pair(&fittings, &own), Ok((read.names, read.leaves, read.formula.start, read.formula.end)));
            let due = peer::read(Sheets { fittings: Some(&fittings), own: &own }).unwrap();
            assert_eq!((read.names, read.leaves, read.formula), (due.names.len(), due.leaves, due.first..due.past));
        }),
    }
}

/// Reading 128 and 128 names of a pair, and the same 256 of one sheet.
pub fn pair_and_one() -> [Box<dyn FnMut()>; 2] {
    let ((fittings, own), (one, _)) = (pair("chain", 128, 256), sheet("chain", 256));
    [
        Box::new(move || _ = black_box(kressedach::read(black_box(kressedach::Sheets::beside(&fittings, &own))))),
        Box::new(move || _ = black_box(kressedach::read(black_box(&one)))),
    ]
}

/// The sheet with unions for exclusive unions.
fn movable(formula: &str, leaves: usize) -> Vec<u8> {
    let (mut sheet, _) = sheet(formula, leaves);
    let first = sheet.len() - 2 * (2 * leaves - 1);
    for code in sheet[first..].chunks_exact_mut(2).filter(|code| **code == [0xFF, 0xF3]) {
        code[1] = 0xF0;
    }
    sheet
}

/// The move to edition 2.
fn moved(formula: &'static str, leaves: usize) -> Row {
    let sheet = movable(formula, leaves);
    let (a, b) = (sheet.clone(), sheet.clone());
    let [mut moved, mut plain_moved] = [vec![0; sheet.len()], vec![0; sheet.len()]];
    let (mut copy_sheet, mut copy_moved) = (copying(sheet.clone()), copying(sheet.clone()));
    Row {
        job: "move",
        formula,
        leaves,
        costs: read_costs(leaves),
        lists: format!("{} bytes", sheet.len()),
        items: leaves,
        library: Box::new(move || _ = black_box(kressedach::move_into(black_box(&a), &mut moved))),
        plain: Box::new(move || _ = black_box(plain::move_sheet(black_box(&b), &mut plain_moved))),
        walk: None,
        copy: Box::new(move || {
            copy_sheet();
            copy_moved();
        }),
        pass: None,
        judge: None,
        check: Box::new(move || {
            let due = peer::move_sheet(Sheets::alone(&sheet), sheet.len()).unwrap();
            let [mut moved, mut plain_moved] = [vec![0; sheet.len()], vec![0; sheet.len()]];
            assert_eq!(kressedach::move_into(&sheet, &mut moved), Ok(sheet.len()));
            assert_eq!(plain::move_sheet(&sheet, &mut plain_moved), Ok(sheet.len()));
            assert!(moved == due && plain_moved == due);
        }),
    }
}

/// A move and the reading of the same sheet.
pub struct MoveAndRead {
    pub sheet: String,
    pub moving: Box<dyn FnMut()>,
    pub reading: Box<dyn FnMut()>,
}

/// Of a sheet of edition 1, and of the same in edition 2.
fn move_and_read(names: &str, formula: &str, one: Vec<u8>) -> [MoveAndRead; 2] {
    let two = kressedach::move_sheet(&one).unwrap();
    [(1, one), (2, two)].map(|(edition, sheet)| {
        let (read, mut moved) = (sheet.clone(), vec![0; sheet.len()]);
        MoveAndRead {
            sheet: format!("{names} | {formula} | {edition} | {} bytes", sheet.len()),
            moving: Box::new(move || _ = black_box(kressedach::move_into(black_box(&sheet), &mut moved))),
            reading: Box::new(move || _ = black_box(kressedach::read(black_box(&read)))),
        }
    })
}

/// Sheets of 1024 leaves: under one name, which is read soonest, under 256, and the largest, with names of 32 bytes.
pub fn moves_and_reads() -> Vec<MoveAndRead> {
    let dice = &mut Dice::of(12, 0);
    let forms = [
        ("chain to the left", Form::LeftChain),
        ("chain to the right", Form::RightChain),
        ("balanced", Form::Balanced),
        ("any", Form::Any),
    ];
    let mut all = Vec::new();
    for (names, count, longest) in [("one", 1, 1), ("256", 256, 2), ("256 of 32 bytes", 256, 32)] {
        for (formula, form) in forms {
            let codes = make::without_exclusive(make::codes(dice, count, 1024, form));
            all.extend(move_and_read(names, formula, make::sheet(&make::names(dice, count, longest), &codes)));
        }
    }
    all
}

fn build(formula: &'static str, leaves: usize) -> Row {
    let (sheet, _) = sheet(formula, leaves);
    let (a, b) = (sheet.clone(), sheet.clone());
    let due = peer::build(Sheets::alone(&sheet), [NODES; 3]).unwrap();
    let nodes = due.records.len();
    let [mut kinds, mut firsts, mut seconds] = [[0; NODES]; 3];
    let [mut plain_kinds, mut plain_firsts, mut plain_seconds] = [[0; NODES]; 3];
    let (mut copy_sheet, mut copy_lists) = (copying(sheet.clone()), copying(vec![0u16; 3 * nodes]));
    Row {
        job: "build",
        formula,
        leaves,
        costs: build_costs(leaves, nodes),
        lists: format!("{nodes} nodes"),
        items: leaves,
        library: Box::new(move || {
            let mut lists = NodeLists { kinds: &mut kinds, firsts: &mut firsts, seconds: &mut seconds };
            _ = black_box(kressedach::build_into(black_box(&a), &mut lists));
        }),
        plain: Box::new(move || {
            _ = black_box(plain::build(black_box(&b), &mut plain_kinds, &mut plain_firsts, &mut plain_seconds));
        }),
        walk: None,
        copy: Box::new(move || {
            copy_sheet();
            copy_lists();
        }),
        pass: None,
        judge: None,
        check: Box::new(move || {
            let size = [due.leaves, nodes, due.rounds, due.height()];
            let lists = |list: fn(&peer::dwarf::Record) -> u16| due.records.iter().map(list).collect::<Vec<u16>>();
            let lists = [lists(|record| record.kind), lists(|record| record.first), lists(|record| record.second)];
            let [mut kinds, mut firsts, mut seconds] = [[0; NODES]; 3];
            let mut built = NodeLists { kinds: &mut kinds, firsts: &mut firsts, seconds: &mut seconds };
            let built = kressedach::build_into(&sheet, &mut built).unwrap();
            assert_eq!([built.leaves, built.nodes, built.rounds, built.height], size);
            assert!([&kinds[..nodes], &firsts[..nodes], &seconds[..nodes]] == lists);
            let [mut kinds, mut firsts, mut seconds] = [[0; NODES]; 3];
            assert_eq!(plain::build(&sheet, &mut kinds, &mut firsts, &mut seconds), Ok(size));
            assert!([&kinds[..nodes], &firsts[..nodes], &seconds[..nodes]] == lists);
        }),
    }
}

fn run(formula: &'static str, leaves: usize, count: usize) -> Row {
    let (sheet, names) = sheet(formula, leaves);
    let dice = &mut Dice::of(12, leaves as u64);
    let toggles: Vec<u16> = (0..count)
        .map(|k| match formula {
            "ninety" if k % 2 == 0 => 0,
            _ => dice.below(names) as u16,
        })
        .collect();
    let nodes = peer::build(Sheets::alone(&sheet), [NODES; 3]).unwrap().records.len();
    let reworked: u32 = peer::run(Sheets::alone(&sheet), &toggles, [usize::MAX; 3]).unwrap().counts.iter().sum();
    let several = toggles.iter().filter(|shape| leaves_of(&sheet, **shape) > 1).count();
    let mut costs = build_costs(leaves, nodes);
    costs.extend([
        ("toggle", count as f64),
        ("toggle of a shape at several leaves", several as f64),
        ("label reworked", f64::from(reworked)),
    ]);
    let (a, b) = ((sheet.clone(), toggles.clone()), (sheet.clone(), toggles.clone()));
    let lists = || (vec![0u8; count], vec![0u32; count], vec![0u8; NODES]);
    let ((mut roots, mut counts, mut labels), mut plain_lists) = (lists(), lists());
    let (mut copy_sheet, mut copy_toggles) = (copying(sheet.clone()), copying(toggles.clone()));
    let (mut copy_bytes, mut copy_counts) = (copying(vec![0u8; count + nodes]), copying(vec![0u32; count]));
    Row {
        job: "run",
        formula,
        leaves,
        costs,
        lists: format!("{count} toggles"),
        items: count,
        library: Box::new(move || {
            let mut lists = RunLists { roots: &mut roots, counts: &mut counts, labels: &mut labels };
            _ = black_box(kressedach::run_into(black_box(&a.0), black_box(&a.1), &mut lists))
        }),
        plain: Box::new(move || {
            let (roots, counts, labels) = &mut plain_lists;
            _ = black_box(plain::run(black_box(&b.0), black_box(&b.1), roots, counts, labels));
        }),
        walk: None,
        copy: Box::new(move || {
            copy_sheet();
            copy_toggles();
            copy_bytes();
            copy_counts();
        }),
        pass: None,
        judge: None,
        check: Box::new(move || {
            let due = peer::run(Sheets::alone(&sheet), &toggles, [usize::MAX; 3]).unwrap();
            let (mut roots, mut counts, mut labels) = (vec![0; toggles.len()], vec![0; toggles.len()], vec![0; NODES]);
            let mut lists = RunLists { roots: &mut roots, counts: &mut counts, labels: &mut labels };
            assert_eq!(kressedach::run_into(&sheet, &toggles, &mut lists), Ok(due.labels.len()));
            assert!(roots == due.roots && counts == due.counts && labels[..due.labels.len()] == due.labels);
            assert_eq!(plain::run(&sheet, &toggles, &mut roots, &mut counts, &mut labels), Ok(due.labels.len()));
            assert!(roots == due.roots && counts == due.counts && labels[..due.labels.len()] == due.labels);
        }),
    }
}

/// Crossings, so many a line, of random shapes at random places.
fn crossings(names: usize, a_line: usize, count: usize) -> Vec<Crossing> {
    let dice = &mut Dice::of(13, a_line as u64);
    let mut all = Vec::new();
    for line in 0..(count / a_line) as u32 {
        let mut here = Vec::new();
        for _ in 0..a_line / 2 {
            let shape = dice.below(names) as u16;
            here.extend([(); 2].map(|()| Crossing { line, position: dice.below(100_000) as i32, shape }));
        }
        here.sort_by_key(|crossing| crossing.position);
        all.extend(here);
    }
    all
}

/// How the lines of a call start.
#[derive(Clone, Copy)]
enum Starts {
    Air,
    /// Every so manieth line starts inside three shapes.
    Three {
        every: usize,
    },
    /// Every byte by the dice.
    Random,
}

impl Starts {
    fn rows(self, names: usize, lines: usize) -> Vec<u8> {
        let dice = &mut Dice::of(15, names as u64);
        let mut rows = vec![0; names * lines];
        for (line, row) in rows.chunks_mut(names).enumerate() {
            match self {
                Starts::Air => {}
                Starts::Three { every } if line % every == 0 => (0..3).for_each(|_| row[dice.below(names)] = 1),
                Starts::Three { .. } => {}
                Starts::Random => row.iter_mut().for_each(|byte| *byte = dice.below(2) as u8),
            }
        }
        rows
    }

    fn named(self) -> &'static str {
        match self {
            Starts::Air => "",
            Starts::Three { every: 1 } => ", all start in 3 shapes",
            Starts::Three { .. } => ", a tenth start in 3 shapes",
            Starts::Random => ", start rows by the dice",
        }
    }
}

pub struct Lines {
    pub sheet: Vec<u8>,
    pub rows: Vec<u8>,
    pub lines: Vec<u32>,
    pub positions: Vec<i32>,
    pub shapes: Vec<u16>,
}

/// The lists that walls are written to.
#[derive(Clone)]
pub struct Room {
    pub lines: Vec<u32>,
    pub starts: Vec<i32>,
    pub ends: Vec<i32>,
    pub start_shapes: Vec<u16>,
    pub end_shapes: Vec<u16>,
}

impl Room {
    pub fn of(walls: usize) -> Room {
        Room {
            lines: vec![0; walls],
            starts: vec![0; walls],
            ends: vec![0; walls],
            start_shapes: vec![0; walls],
            end_shapes: vec![0; walls],
        }
    }

    pub fn lent(&mut self) -> WallLists<'_> {
        let Room { lines, starts, ends, start_shapes, end_shapes } = self;
        WallLists { lines, starts, ends, start_shapes, end_shapes }
    }
}

/// A way to classify, with the lists it writes.
type Way = fn(&Lines, &mut WallLists) -> usize;

const LIBRARY: Way = |l, walls| kressedach::classify_into(&l.sheet, l.ours(), walls).unwrap();
const WORDS: Way = |l, walls| plain::by_words(&l.sheet, l.plain(), walls).unwrap();
const WALK: Way = |l, walls| plain::by_walk(&l.sheet, l.plain(), walls).unwrap();

impl Lines {
    fn of(sheet: Vec<u8>, rows: Vec<u8>, all: &[Crossing]) -> Lines {
        Lines {
            sheet,
            rows,
            lines: all.iter().map(|c| c.line).collect(),
            positions: all.iter().map(|c| c.position).collect(),
            shapes: all.iter().map(|c| c.shape).collect(),
        }
    }

    pub fn ours(&self) -> kressedach::Lines<'_> {
        kressedach::Lines { rows: &self.rows, lines: &self.lines, positions: &self.positions, shapes: &self.shapes }
    }

    fn plain(&self) -> plain::Lines<'_> {
        plain::Lines { rows: &self.rows, lines: &self.lines, positions: &self.positions, shapes: &self.shapes }
    }
}

/// The opinion on so many walls, as another ray caster's list.
fn judged(lines: &Lines, walls: &Room, count: usize) -> Opinion {
    let theirs = TheirLists { lines: &walls.lines[..count], starts: &walls.starts[..count], ends: &walls.ends[..count] };
    kressedach::judge_lists(&lines.sheet, lines.ours(), theirs).unwrap()
}

fn judging(lines: std::rc::Rc<Lines>, room: usize) -> Box<dyn FnMut()> {
    let mut walls = Room::of(room);
    let count = WORDS(&lines, &mut walls.lent());
    Box::new(move || _ = black_box(judged(black_box(&lines), &walls, count)))
}

/// Random crossings, so many a line.
fn classify(formula: &'static str, leaves: usize, a_line: usize, starts: Starts, count: usize) -> Row {
    let (sheet, names) = sheet(formula, leaves);
    let named = format!("{a_line} a line{}", starts.named());
    lines_row(formula, leaves, sheet, starts.rows(names, count / a_line), crossings(names, a_line, count), named)
}

/// Lines in air, with random crossings, so many a line.
pub fn lines(formula: &str, leaves: usize, a_line: usize, count: usize) -> Lines {
    let (sheet, names) = sheet(formula, leaves);
    Lines::of(sheet, Starts::Air.rows(names, count / a_line), &crossings(names, a_line, count))
}

/// The same, a call that brings few crossings.
fn short_call(formula: &'static str, leaves: usize, a_line: usize, count: usize) -> Row {
    let (sheet, names) = sheet(formula, leaves);
    let named = format!("{a_line} a line, {count} in all");
    lines_row(formula, leaves, sheet, Starts::Air.rows(names, count / a_line), crossings(names, a_line, count), named)
}

/// Every two crossings make a wall: on each line the first shape alone is crossed, of a union of all.
fn walls_only(leaves: usize, count: usize) -> Row {
    let names: Vec<String> = (0..leaves).map(|shape| format!("rib{shape:03}")).collect();
    let codes: Vec<u16> = (0..leaves as u16).flat_map(|leaf| if leaf == 0 { vec![0] } else { vec![leaf, 0xFFF0] }).collect();
    let all = (0..count).map(|k| Crossing { line: (k / 10) as u32, position: 10 * (k % 10) as i32, shape: 0 }).collect();
    let rows = Starts::Air.rows(leaves, count.div_ceil(10));
    lines_row("union", leaves, make::sheet(&names, &codes), rows, all, "a wall for every two".into())
}

/// Two positions a line, at which all its crossings lie: every shape at both.
fn together(leaves: usize, count: usize) -> Row {
    let names: Vec<String> = (0..leaves).map(|shape| format!("rib{shape:03}")).collect();
    let codes: Vec<u16> = (0..leaves as u16).flat_map(|leaf| if leaf == 0 { vec![0] } else { vec![leaf, 0xFFF0] }).collect();
    let count = count / (2 * leaves) * 2 * leaves;
    let one =
        |k: usize| Crossing { line: (k / (2 * leaves)) as u32, position: (k / leaves % 2) as i32, shape: (leaves - 1 - k % leaves) as u16 };
    let rows = Starts::Air.rows(leaves, count / (2 * leaves));
    lines_row("union", leaves, make::sheet(&names, &codes), rows, (0..count).map(one).collect(), format!("{leaves} at one position"))
}

fn lines_row(formula: &'static str, leaves: usize, sheet: Vec<u8>, rows: Vec<u8>, all: Vec<Crossing>, named: String) -> Row {
    let count = all.len();
    let room = count / 2 + rows.len() / leaves.min(256);
    let lines = std::rc::Rc::new(Lines::of(sheet.clone(), rows.clone(), &all));
    let timed = |way: Way| -> Box<dyn FnMut()> {
        let (lines, mut room) = (lines.clone(), Room::of(room));
        Box::new(move || _ = black_box(way(black_box(&lines), &mut room.lent())))
    };
    let walls = WORDS(&lines, &mut Room::of(room).lent());
    // The rows that the library reads: all pages of a list of zeros that was never written are one and the same page of memory.
    let passed = lines.clone();
    let (mut copy_sheet, mut copy_rows, mut copy_shapes) = (copying(sheet), copying(rows), copying(lines.shapes.clone()));
    let (mut copy_words, mut copy_walls) = (copying(vec![0u32; 2 * count]), copying(vec![0u32; 4 * walls]));
    Row {
        job: "classify",
        formula,
        leaves,
        costs: line_costs(&lines, leaves, walls),
        lists: named,
        items: count,
        library: timed(LIBRARY),
        plain: timed(WORDS),
        walk: Some(timed(WALK)),
        copy: Box::new(move || {
            copy_sheet();
            copy_rows();
            copy_shapes();
            copy_words();
            copy_walls();
        }),
        pass: Some(Box::new(move || _ = black_box(plain::over(black_box(&passed.rows))))),
        judge: Some(judging(lines.clone(), room)),
        check: Box::new(move || {
            let crossings = Crossings { rows: &lines.rows, lines: &lines.lines, positions: &lines.positions, shapes: &lines.shapes };
            let due = peer::classify(Sheets::alone(&lines.sheet), crossings, [room; 5]).unwrap();
            let mut walls = Room::of(room);
            WORDS(&lines, &mut walls.lent());
            assert_eq!(judged(&lines, &walls, due.len()), Opinion::Right);
            for way in [LIBRARY, WORDS, WALK] {
                let mut room = Room::of(room);
                assert_eq!(way(&lines, &mut room.lent()), due.len());
                for (k, wall) in due.iter().enumerate() {
                    assert_eq!((room.lines[k], room.starts[k], room.ends[k]), (wall.line, wall.start, wall.end));
                    assert_eq!((room.start_shapes[k], room.end_shapes[k]), (wall.start_shape, wall.end_shape));
                }
            }
        }),
    }
}

/// A line and the shapes that it crosses: half-spaces or boxes by their kinds and numbers, or balls.
pub struct Drawing {
    pub probe: Probe,
    pub kinds: Vec<u8>,
    pub numbers: Vec<f64>,
    balls: Vec<i32>,
}

impl Drawing {
    /// So many shapes near the line, of which most are crossed.
    pub fn of(shapes: &str, count: usize) -> Drawing {
        let dice = &mut Dice::of(14, count as u64);
        let mut drawing = Drawing {
            probe: Probe {
                origin: [-10.0, 0.25, 0.5],
                direction: if shapes == "boxes along" { [1.0, 0.0, 0.0] } else { [0.8, 0.48, 0.36] },
            },
            kinds: vec![],
            numbers: vec![],
            balls: vec![],
        };
        let mut length = |most: usize| dice.below(1000 * most) as f64 / 1000.0;
        for k in 0..count {
            match shapes {
                "balls" => {
                    let [u, v, radius, centre] =
                        [length(300), length(300), length(1000) + 1.0, length(1_000_000)].map(|x| (1000.0 * x) as i32);
                    drawing.balls.extend([u, v, radius.min(1_000_000), centre]);
                }
                "half-spaces" => {
                    drawing.kinds.push((k % 3) as u8);
                    drawing.numbers.extend([length(100), 0.0, 0.0, 0.0, 0.0, 0.0]);
                }
                _ => {
                    let at = length(60);
                    let (low, high) = ([at, 0.6 * at - 8.0, 0.45 * at - 6.0], [at + 12.0, 0.6 * at + 16.0, 0.45 * at + 15.0]);
                    let low = if shapes == "boxes along" { [at, -length(40) - 1.0, -length(40) - 1.0] } else { low };
                    drawing.kinds.push(BOX);
                    drawing.numbers.extend(low.iter().chain(&high));
                }
            }
        }
        drawing
    }
}

/// A way to cross, with the lists it writes.
type CrossWay = fn(&Drawing, &mut LineLists) -> [usize; 2];

const PROVED: CrossWay = |d, lists| {
    let counts = match d.balls.is_empty() {
        true => kressedach::cross_into(d.probe, ShapeLists { kinds: &d.kinds, numbers: &d.numbers }, lists),
        false => kressedach::cross_balls_into(&d.balls, lists),
    };
    counts.map(|counts| [counts.shapes, counts.crossings]).unwrap()
};
const BY_BITS: CrossWay = |d, lists| {
    match d.balls.is_empty() {
        true => plain::cross(&d.probe, &d.kinds, &d.numbers, lists),
        false => plain::cross_balls(&d.balls, lists),
    }
    .unwrap()
};

/// One line with so many shapes.
fn cross(shapes: &'static str, count: usize) -> Row {
    let drawing = std::rc::Rc::new(Drawing::of(shapes, count));
    let room = move || (vec![0u8; count], vec![0i32; 2 * count], vec![0u16; 2 * count]);
    let timed = |way: CrossWay| -> Box<dyn FnMut()> {
        let (drawing, (mut starts, mut positions, mut numbers)) = (drawing.clone(), room());
        Box::new(move || {
            let mut lists = LineLists { starts: &mut starts, positions: &mut positions, shapes: &mut numbers };
            _ = black_box(way(black_box(&drawing), &mut lists));
        })
    };
    let due = match shapes {
        "balls" => peer::balls::cross(&drawing.balls, [2 * count; 3]),
        _ => {
            let probe = peer::crossings::Probe { origin: drawing.probe.origin, direction: drawing.probe.direction };
            let shapes = peer::crossings::Shapes { kinds: &drawing.kinds, numbers: &drawing.numbers };
            peer::crossings::cross(probe, shapes, [2 * count; 3])
        }
    };
    let due = due.unwrap();
    let (mut copy_bytes, mut copy_numbers) = (copying(vec![0u8; 2 * count]), copying(vec![0f64; 6 * count]));
    let (mut copy_balls, mut copy_keys) = (copying(vec![0i32; drawing.balls.len()]), copying(vec![0u16; 3 * due.crossings.len()]));
    let is_ball = shapes == "balls";
    Row {
        job: "cross",
        formula: shapes,
        leaves: count,
        costs: vec![("call", 1.0), (cost_of(shapes), count as f64), ("crossing", due.crossings.len() as f64)],
        lists: format!("{} crossings", due.crossings.len()),
        items: count,
        library: timed(PROVED),
        plain: timed(BY_BITS),
        walk: None,
        copy: Box::new(move || {
            copy_bytes();
            copy_keys();
            if is_ball {
                copy_balls();
            } else {
                copy_numbers();
            }
        }),
        pass: None,
        judge: None,
        check: Box::new(move || {
            for way in [PROVED, BY_BITS] {
                let (mut starts, mut positions, mut numbers) = room();
                let mut lists = LineLists { starts: &mut starts, positions: &mut positions, shapes: &mut numbers };
                assert_eq!(way(&drawing, &mut lists), [count, due.crossings.len()]);
                assert_eq!(starts, due.starts);
                let got: Vec<(i32, u16)> = positions.into_iter().zip(numbers).take(due.crossings.len()).collect();
                assert_eq!(got, due.crossings);
            }
        }),
    }
}
