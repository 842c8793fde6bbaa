//! peer_cases SEED CASES: writes so many cases of every job to standard output, each a call and what is due, for bindings that are not
//! Rust's.
//!
//! A case is the job's name, what it is given, what it is lent and its report. Every list begins with how many bytes an entry has and how
//! many entries there are; numbers are of eight bytes, lowest first. What is given are the lists that the job reads, in the header's order,
//! with a list of one byte for `fitted` and one list for the numbers that are no list. What is lent has its room beside the entries that
//! are given. A report is the numbers of its struct, in order.

use peer::calls::{self, rooms, Given};
use peer::crossings::{Crossed, Probe, Shapes};
use peer::make::{self, Dice};
use peer::rasters::{self, Raster};
use peer::toggles::Ran;
use peer::{designs, drawings, theirs, Refused};
use std::io::{self, BufWriter, Write};

/// An entry of a list, as bytes.
trait Entry: Copy {
    fn bytes(self) -> Vec<u8>;
}

macro_rules! entries {
    ($($number:ty)*) => { $(impl Entry for $number { fn bytes(self) -> Vec<u8> { self.to_le_bytes().to_vec() } })* };
}

entries!(u8 u16 i32 u32 u64 usize f64);

/// A case that is being written.
struct Case {
    name: &'static str,
    given: Vec<Vec<u8>>,
    lent: Vec<Vec<u8>>,
    report: Vec<usize>,
}

fn listed<E: Entry>(entries: &[E]) -> Vec<u8> {
    let size = std::mem::size_of::<E>();
    let numbers = [size, entries.len()].into_iter().flat_map(Entry::bytes);
    numbers.chain(entries.iter().flat_map(|entry| entry.bytes())).collect()
}

impl Case {
    fn new(name: &'static str) -> Case {
        Case { name, given: Vec::new(), lent: Vec::new(), report: Vec::new() }
    }

    fn of(name: &'static str, sheet: &Given) -> Case {
        let fitted = [u8::from(sheet.fittings.is_some())];
        Case::new(name).given(&fitted).given(sheet.fittings.as_deref().unwrap_or_default()).given(&sheet.own)
    }

    fn given<E: Entry>(mut self, entries: &[E]) -> Case {
        self.given.push(listed(entries));
        self
    }

    fn lent<E: Entry>(mut self, room: usize, entries: impl IntoIterator<Item = E>) -> Case {
        let entries: Vec<E> = entries.into_iter().collect();
        self.lent.push([room.bytes(), listed(&entries)].concat());
        self
    }

    /// The report of sheets: a refusal, or the job's numbers.
    fn report<T>(self, due: &Result<T, Refused>, numbers: usize, values: impl FnOnce(&T) -> Vec<usize>) -> Case {
        match due {
            Ok(answer) => self.says(&[0, 0, 0]).says(&values(answer)),
            Err(refused) => self.says(&[refused.number.into(), refused.sheet.into(), refused.place]).says(&vec![0; numbers]),
        }
    }

    fn says(mut self, numbers: &[usize]) -> Case {
        self.report.extend(numbers);
        self
    }

    fn write(&self, to: &mut impl Write) -> io::Result<()> {
        to.write_all(&listed(self.name.as_bytes()))?;
        for lists in [&self.given, &self.lent] {
            to.write_all(&lists.len().bytes())?;
            lists.iter().try_for_each(|list| to.write_all(list))?;
        }
        to.write_all(&listed(&self.report))
    }
}

/// How many dwarf nodes the sheets have; of refused ones, anything.
fn nodes(sheet: &Given) -> usize {
    peer::build(sheet.theirs(), [usize::MAX; 3]).map_or(5, |dwarf| dwarf.records.len())
}

fn read(dice: &mut Dice) -> Case {
    let sheet = calls::any_given(dice);
    let due = peer::read(sheet.theirs());
    Case::of("read", &sheet).report(&due, 4, |s| vec![s.names.len(), s.leaves, s.first, s.past])
}

/// Of a name that is there the report's `sheet` is the one that holds it.
fn name(dice: &mut Dice) -> Case {
    let (sheet, names) = calls::mostly_good(dice);
    let shape = dice.of_these(&[0, names / 2, names - 1, names, 65535, usize::MAX]);
    let case = Case::of("name", &sheet).given(&[shape]);
    match (peer::name(sheet.theirs(), shape), peer::names(sheet.theirs(), [usize::MAX; 3])) {
        (Ok(_), Ok(places)) => case.says(&[0, places[shape].0.into(), 0, places[shape].1, places[shape].2]),
        (due, _) => case.report(&due, 2, |_| vec![]),
    }
}

fn names(dice: &mut Dice) -> Case {
    let (sheet, names) = calls::mostly_good(dice);
    let [a, b, c] = rooms(dice, [names; 3]);
    let due = peer::names(sheet.theirs(), [a, b, c]);
    let case = Case::of("names", &sheet).report(&due, 1, |places| vec![places.len()]);
    let places = due.unwrap_or_default();
    case.lent(a, places.iter().map(|p| p.0)).lent(b, places.iter().map(|p| p.1)).lent(c, places.iter().map(|p| p.2))
}

fn move_sheet(dice: &mut Dice) -> Case {
    let (sheet, _) = calls::mostly_good(dice);
    let [room] = rooms(dice, [sheet.own.len()]);
    let due = peer::move_sheet(sheet.theirs(), room);
    Case::of("move", &sheet).report(&due, 1, |moved| vec![moved.len()]).lent(room, due.unwrap_or_default())
}

fn build(dice: &mut Dice) -> Case {
    let (sheet, _) = calls::mostly_good(dice);
    let [a, b, c] = rooms(dice, [nodes(&sheet); 3]);
    let due = peer::build(sheet.theirs(), [a, b, c]);
    let case = Case::of("build", &sheet).report(&due, 4, |tree| vec![tree.leaves, tree.records.len(), tree.rounds, tree.height()]);
    let records = || due.iter().flat_map(|tree| &tree.records);
    case.lent(a, records().map(|r| r.kind)).lent(b, records().map(|r| r.first)).lent(c, records().map(|r| r.second))
}

/// One foundry's lists and report.
fn ran(case: Case, [a, b, c]: [usize; 3], due: &Result<Ran, Refused>) -> Case {
    let lists = || due.iter();
    case.report(due, 1, |ran| vec![ran.labels.len()])
        .lent(a, lists().flat_map(|ran| ran.roots.iter().copied()))
        .lent(b, lists().flat_map(|ran| ran.counts.iter().copied()))
        .lent(c, lists().flat_map(|ran| ran.labels.iter().copied()))
}

fn run(dice: &mut Dice) -> Case {
    let (sheet, names) = calls::mostly_good(dice);
    let toggles = calls::any_toggles(dice, names, 600);
    let rooms = rooms(dice, [toggles.len(), toggles.len(), nodes(&sheet)]);
    ran(Case::of("run", &sheet).given(&toggles), rooms, &peer::run(sheet.theirs(), &toggles, rooms))
}

fn run_both(dice: &mut Dice) -> Case {
    let (sheet, names) = calls::mostly_good(dice);
    let [first, second] = [(); 2].map(|()| calls::any_toggles(dice, names, 300));
    let order = calls::any_order(dice, [first.len(), second.len()]);
    let nodes = nodes(&sheet);
    let rooms = [&first, &second].map(|list| rooms(dice, [list.len(), list.len(), nodes]));
    let [to_first, to_second] = peer::run_both(sheet.theirs(), &order, [&first, &second], rooms);
    let case = Case::of("run_both", &sheet).given(&order).given(&first).given(&second);
    ran(ran(case, rooms[0], &to_first), rooms[1], &to_second)
}

fn run_edited(dice: &mut Dice) -> Case {
    let (sheet, names) = calls::mostly_good(dice);
    let toggles = calls::any_toggles(dice, names, 100);
    let codes = peer::read(sheet.theirs()).map_or(vec![0, 0, 0xFFF0], |sheet| sheet.formula.codes());
    let edits = designs::any(dice, &codes, toggles.len());
    let [a, b, c, d] = rooms(dice, [toggles.len(), toggles.len(), nodes(&sheet), edits.moments.len()]);
    let due = peer::run_edited(sheet.theirs(), &toggles, edits.lists(), [a, b, c, d]);
    let case = Case::of("run_edited", &sheet).given(&toggles).given(&edits.moments).given(&edits.positions).given(&edits.codes);
    let edit_counts = due.as_ref().map_or(vec![], |due| due.edit_counts.clone());
    ran(case, [a, b, c], &due.map(|due| due.ran)).lent(d, edit_counts)
}

fn lines_of(case: Case, lines: &make::Lines) -> Case {
    case.given(&lines.rows).given(&lines.lines).given(&lines.positions).given(&lines.shapes)
}

fn classify(dice: &mut Dice) -> Case {
    let (sheet, names) = calls::mostly_good(dice);
    let lines = make::any_lines(dice, names);
    let [a, b, c, d, e] = rooms(dice, [lines.lines.len() / 2 + lines.rows.len() / names; 5]);
    let due = peer::classify(sheet.theirs(), lines.lists(), [a, b, c, d, e]);
    let case = lines_of(Case::of("classify", &sheet), &lines).report(&due, 1, |walls| vec![walls.len()]);
    let walls = due.unwrap_or_default();
    case.lent(a, walls.iter().map(|wall| wall.line))
        .lent(b, walls.iter().map(|wall| wall.start))
        .lent(c, walls.iter().map(|wall| wall.end))
        .lent(d, walls.iter().map(|wall| wall.start_shape))
        .lent(e, walls.iter().map(|wall| wall.end_shape))
}

/// `right` stands between `sheet` and `place`.
fn judge(dice: &mut Dice) -> Case {
    let (sheet, names) = calls::mostly_good(dice);
    let lines = make::any_lines(dice, names);
    let walls = peer::classify(sheet.theirs(), lines.lists(), [usize::MAX; 5]).unwrap_or_default();
    let theirs = theirs::any(dice, &walls);
    let case = lines_of(Case::of("judge", &sheet), &lines).given(&theirs.lines).given(&theirs.starts).given(&theirs.ends);
    match peer::judge(sheet.theirs(), lines.lists(), theirs.lists()) {
        Ok(due) => case.says(&[0, 0, due.right.into(), 0, due.index]),
        Err(refused) => case.says(&[refused.number.into(), refused.sheet.into(), 0, refused.place, 0]),
    }
}

/// A crossing maker's report has no `sheet`.
fn crossed(case: Case, [a, b, c]: [usize; 3], due: Result<Crossed, Refused>) -> Case {
    let case = match &due {
        Ok(crossed) => case.says(&[0, 0, crossed.starts.len(), crossed.crossings.len()]),
        Err(refused) => case.says(&[refused.number.into(), refused.place, 0, 0]),
    };
    let crossings = || due.iter().flat_map(|crossed| crossed.crossings.iter());
    case.lent(a, due.iter().flat_map(|crossed| crossed.starts.iter().copied()))
        .lent(b, crossings().map(|crossing| crossing.0))
        .lent(c, crossings().map(|crossing| crossing.1))
}

fn needed(due: &Result<Crossed, Refused>) -> [usize; 3] {
    due.as_ref().map_or([3, 5, 5], |all| [all.starts.len(), all.crossings.len(), all.crossings.len()])
}

fn cross(dice: &mut Dice) -> Case {
    let probe = drawings::probe(dice);
    let (kinds, numbers) = drawings::shapes(dice, &probe);
    let due = |rooms| peer::crossings::cross(probe, Shapes { kinds: &kinds, numbers: &numbers }, rooms);
    let rooms = rooms(dice, needed(&due([usize::MAX; 3])));
    let Probe { origin, direction } = probe;
    crossed(Case::new("cross").given(&[origin, direction].concat()).given(&kinds).given(&numbers), rooms, due(rooms))
}

fn cross_balls(dice: &mut Dice) -> Case {
    let numbers = drawings::balls(dice);
    let rooms = rooms(dice, needed(&peer::balls::cross(&numbers, [usize::MAX; 3])));
    crossed(Case::new("cross_balls").given(&numbers), rooms, peer::balls::cross(&numbers, rooms))
}

fn cross_many(dice: &mut Dice) -> Case {
    let Raster { lines, kinds, numbers } = rasters::raster(dice);
    let due = |rooms| peer::many::cross_many(&lines, Shapes { kinds: &kinds, numbers: &numbers }, rooms);
    let many = |all: &peer::many::CrossedLines| [all.rows.len(), all.crossings.len(), all.crossings.len(), all.crossings.len()];
    let [a, b, c, d] = rooms(dice, due([usize::MAX; 4]).as_ref().map_or([3, 5, 5, 5], many));
    let due = due([a, b, c, d]);
    let case = Case::new("cross_many").given(&kinds).given(&numbers).given(&lines);
    let case = match &due {
        Ok(all) => case.says(&[0, 0, 0, all.lines, all.crossings.len()]),
        Err(one) => case.says(&[one.refused.number.into(), one.refused.place, one.line, 0, 0]),
    };
    let crossings = || due.iter().flat_map(|all| all.crossings.iter());
    case.lent(a, due.iter().flat_map(|all| all.rows.iter().copied()))
        .lent(b, crossings().map(|crossing| crossing.0))
        .lent(c, crossings().map(|crossing| crossing.1))
        .lent(d, crossings().map(|crossing| crossing.2))
}

const JOBS: [fn(&mut Dice) -> Case; 13] =
    [read, name, names, move_sheet, build, run, run_both, run_edited, classify, judge, cross, cross_many, cross_balls];

fn main() -> io::Result<()> {
    let words: Vec<String> = std::env::args().skip(1).collect();
    let numbers: Vec<u64> = words.iter().filter_map(|word| word.parse().ok()).collect();
    let [seed, cases] = numbers[..] else { return Err(io::Error::other("usage: peer_cases SEED CASES")) };
    let mut to = BufWriter::new(io::stdout().lock());
    for number in 0..cases * JOBS.len() as u64 {
        let job = JOBS[number as usize % JOBS.len()];
        job(&mut Dice::of(seed ^ 0x29, number)).write(&mut to)?;
    }
    to.flush()
}
