//! The proved library's time beside plain Rust of the same method and beside a plain copy of the lists, in one run.
//!
//! `cargo bench --offline -q` prints the page `docs/BENCHMARKS.md`, with `-- many` the tables of many lines alone, and with `-- threads` the
//! one of many processors. Without `--bench`, as `cargo test` runs this, nothing is timed, and the answers of each row are compared with
//! those of `peer`.

mod edits;
mod levels;
mod many;
mod plain;
mod rows;
mod scale;
mod threads;

use rows::Row;
use std::process::Command;
use std::time::Instant;

fn main() {
    let asked = |word: &str| std::env::args().any(|arg| arg == word);
    let timed = asked("--bench");
    if timed && asked("threads") {
        return threads::print(threads::all(1_000_000));
    }
    let many = many::all(if timed { 100 } else { 10 });
    for row in &many {
        (row.check)();
    }
    if timed && asked("many") {
        return many::print(many);
    }
    if timed && asked("moves") {
        return moved(rows::moves_and_reads());
    }
    let rows = rows::all(if timed { 20_000 } else { 2_000 });
    for row in &rows {
        (row.check)();
    }
    let edits = edits::all(if timed { 20_000 } else { 100 });
    for row in &edits {
        (row.check)();
    }
    scale::check();
    let threads = threads::all(if timed { 1_000_000 } else { 4_000 });
    for row in &threads {
        (row.check)();
    }
    if !timed {
        return println!("benchmark: the answers of {} rows agree", rows.len() + edits.len() + many.len() + threads.len());
    }
    heading();
    let said: Vec<Said> = rows.into_iter().map(|mut row| line(&mut row)).collect();
    verdict(&said, "above 1.5 times the plain one", |row| row.plain > 1.5);
    verdict(&said, "at 256 leaves or more less than 5 times faster than walking", |row| row.walk.is_some_and(|walk| walk < 5.0));
    verdict(&said, "above 1.2 times classify where a right list is judged", |row| row.judge.is_some_and(|judge| judge > 1.2));
    let [mut pair, mut one] = rows::pair_and_one();
    let times = best(&mut [&mut pair, &mut one]);
    println!("\nReading 128 names beside 128 fittings takes {:.2} of the time of 256 in one sheet.\n", times[0] / times[1]);
    moved(rows::moves_and_reads());
    for leaves in [256, 1024] {
        let walks = said.iter().filter(|row| row.leaves == leaves).filter_map(|row| row.walk);
        let (least, most) = walks.fold((f64::INFINITY, 0.0), |(least, most): (f64, f64), walk| (least.min(walk), most.max(walk)));
        println!("At {leaves} leaves classify is {least:.1} to {most:.1} times faster than walking.");
    }
    edited(edits);
    many::print(many);
    let [mut small, mut large] = rows::one_line_calls();
    let times = best(&mut [&mut small, &mut large]);
    println!("\nA call of classify with one line that crosses nothing takes {:.0} nanoseconds on the smallest sheet, of one name, and {:.0} on the largest.", times[0], times[1]);
    threads::print(threads);
    levels::print(best);
    scale::print(&said.into_iter().map(|row| row.timed).collect::<Vec<_>>());
}

/// Times an edit beside a toggle of one leaf and a new build: edits and toggles as the difference of two runs.
fn moved(rows: Vec<rows::MoveAndRead>) {
    println!("\nNanoseconds a call, of sheets of 1024 leaves.\n");
    println!("| names | formula | edition | sheet | read | move | move / read |");
    println!("|---|---|--:|--:|--:|--:|--:|");
    let mut most = 0.0_f64;
    for rows::MoveAndRead { sheet, mut moving, mut reading } in rows {
        let times = best(&mut [&mut moving, &mut reading]);
        println!("| {sheet} | {:.0} | {:.0} | {:.2} |", times[1], times[0], times[0] / times[1]);
        most = most.max(times[0] / times[1]);
    }
    println!("\nMoving takes at most {most:.2} times as long as reading, where 3 is asked.\n");
}

fn edited(rows: Vec<edits::Row>) {
    println!("\nNanoseconds an edit, a toggle of a shape with one leaf, and a new build, on one sheet.");
    println!("An edit's and a toggle's time is what a run with 20,000 more of them takes longer.\n");
    println!("| formula | leaves | edit | toggle | build | edit / toggle | build / edit |");
    println!("|---|--:|--:|--:|--:|--:|--:|");
    let (mut most, mut least) = (0.0_f64, f64::INFINITY);
    for edits::Row { formula, leaves, more, calls: [mut run, mut toggles, mut edits, mut build], .. } in rows {
        let times = best(&mut [&mut run, &mut toggles, &mut edits, &mut build]);
        let [toggle, edit] = [times[1], times[2]].map(|time| (time - times[0]).max(0.0) / more as f64);
        let (beside_toggle, beside_build) = (edit / toggle, times[3] / edit);
        println!("| {formula} | {leaves} | {edit:.2} | {toggle:.2} | {:.0} | {beside_toggle:.2} | {beside_build:.0} |", times[3]);
        if leaves == 1024 {
            (most, least) = (most.max(beside_toggle), least.min(beside_build));
        }
    }
    println!("\nAt 1024 leaves an edit takes at most {most:.2} times as long as a toggle of one leaf, where 2 is asked.");
    println!("A new build takes at least {least:.0} times as long as an edit, where 20 is asked.");
}

/// What a row says of the library's time.
struct Said {
    what: String,
    leaves: usize,
    /// The library's time, in times of the plain one's.
    plain: f64,
    /// The walk's time, in times of the library's; where the formula has 256 leaves or more.
    walk: Option<f64>,
    /// The time of judging the walls of the same lines, in times of the library's.
    judge: Option<f64>,
    /// The row for the formula.
    timed: scale::Timed,
}

fn verdict(said: &[Said], what: &str, is_so: fn(&Said) -> bool) {
    let rows: Vec<&str> = said.iter().filter(|row| is_so(row)).map(|row| row.what.as_str()).collect();
    match rows.len() {
        0 => println!("\nNo row is {what}."),
        count => println!("\n{count} rows are {what}: {}.", rows.join("; ")),
    }
}

fn heading() {
    let date = Command::new("date").args(["-u", "+%F"]).output().map(|said| String::from_utf8_lossy(&said.stdout).trim().to_string());
    let cpu = std::fs::read_to_string("/proc/cpuinfo").unwrap_or_default();
    let model =
        cpu.lines().find_map(|line| line.strip_prefix("model name")).unwrap_or("no model named").trim_start_matches([' ', '\t', ':']);
    let cores = std::thread::available_parallelism().map_or(1, usize::from);
    println!("# Benchmarks\n");
    println!(
        "`cargo bench --offline -q` in `bindings/rust` prints this page. Measured on {}, {} ({model}), {cores} cores, with the library compiled for {}.\n",
        date.unwrap_or_default(),
        std::env::consts::ARCH,
        kressedach::PROCESSOR
    );
    println!(
        "Nanoseconds an item, the best of many turns: an item is a leaf for read, move and build, a toggle for run, a crossing for classify, a shape for cross."
    );
    println!("Each time is of a whole call: run and classify include reading the sheet, and run and `walk` contracting its formula.");
    println!("For cross, one line a call, the shapes stand in the column of the formula, and their number in that of the leaves.\n");
    println!("- `library`: the proved library, called through the Rust crate.");
    println!("- `plain`: safe Rust of the same method.");
    println!("- `walk`: plain Rust that flips leaves and walks up the contracted tree at each crossing.");
    println!("- `pass`: one plain pass over the start rows, a byte a name and line: what a call in air has to look at, and nothing more.");
    println!("- `judge`: the proved library's opinion on a right list, on the same lines: their walls.");
    println!("- `copy`: a plain copy of the call's lists, those read and those written.\n");
    println!("For classify, lines start in air where nothing else is said.");
    println!("All lists are made before and lent again at each turn; none is cleared.\n");
    println!(
        "| job | formula | leaves | lists | library | plain | walk | pass | judge | copy | library / plain | walk / library | judge / library | library / copy |"
    );
    println!("|---|---|--:|---|--:|--:|--:|--:|--:|--:|--:|--:|--:|--:|");
}

/// Times and prints a row.
fn line(row: &mut Row) -> Said {
    let mut functions: Vec<&mut dyn FnMut()> = vec![&mut row.library, &mut row.plain, &mut row.copy];
    functions.extend(row.walk.as_mut().map(|walk| walk as &mut dyn FnMut()));
    functions.extend(row.pass.as_mut().map(|pass| pass as &mut dyn FnMut()));
    functions.extend(row.judge.as_mut().map(|judge| judge as &mut dyn FnMut()));
    let mut times = best(&mut functions).into_iter().map(|time| time / row.items as f64);
    let mut next = || times.next().unwrap_or_default();
    let (library, plain, copy) = (next(), next(), next());
    let (walk, pass) = (row.walk.as_ref().map(|_| next()), row.pass.as_ref().map(|_| next()));
    let judge = row.judge.as_ref().map(|_| next());
    let shown = |time: Option<f64>| time.map_or(String::new(), |time| format!("{time:.2}"));
    let faster = walk.map_or(String::new(), |time| format!("{:.1}", time / library));
    let judging = shown(judge.map(|time| time / library));
    let what = format!("{} | {} | {} | {}", row.job, row.formula, row.leaves, row.lists);
    println!(
        "| {what} | {library:.2} | {plain:.2} | {} | {} | {} | {copy:.2} | {:.2} | {faster} | {judging} | {:.0} |",
        shown(walk),
        shown(pass),
        shown(judge),
        library / plain,
        library / copy
    );
    let what = what.replace(" |", ",");
    let timed = scale::Timed { what: what.clone(), job: row.job, costs: std::mem::take(&mut row.costs), time: library * row.items as f64 };
    Said {
        what,
        leaves: row.leaves,
        plain: library / plain,
        walk: walk.filter(|_| row.leaves >= 256).map(|time| time / library),
        judge: judge.map(|time| time / library),
        timed,
    }
}

/// The best time of a call in nanoseconds, for each function. They take turns, so that a slow moment of the machine hits all.
fn best(functions: &mut [&mut dyn FnMut()]) -> Vec<f64> {
    const TURNS: usize = 25;
    const TURN: f64 = 2e6;
    let calls: Vec<usize> = functions.iter_mut().map(|f| (TURN / time(1 + (TURN / time(1, f)) as usize / 20, f)).ceil() as usize).collect();
    let mut least = vec![f64::INFINITY; functions.len()];
    for _ in 0..TURNS {
        for (k, f) in functions.iter_mut().enumerate() {
            least[k] = least[k].min(time(calls[k], f));
        }
    }
    least
}

/// The time of a call in nanoseconds, over so many of them.
fn time(calls: usize, f: &mut dyn FnMut()) -> f64 {
    let began = Instant::now();
    for _ in 0..calls {
        f();
    }
    (began.elapsed().as_nanos() as f64 / calls as f64).max(1.0)
}
