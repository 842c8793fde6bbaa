//! What a call costs, as a sum: so many nanoseconds for each leaf, name, line, crossing. The constants are worked out from the times of the
//! rows, and the page says how far each row is from the sum; `docs/SCALE.md` says what the parts are.

/// What a call has of each thing that costs: the thing, and how many.
pub type Costs = Vec<(&'static str, f64)>;

/// One timed row: its name, its job, what it has, and the nanoseconds that a call took.
pub struct Timed {
    pub what: String,
    pub job: &'static str,
    pub costs: Costs,
    pub time: f64,
}

/// The job whose constants a job has beside its own: a call of it does that work too.
fn within(job: &str) -> Option<&'static str> {
    match job {
        "run" => Some("build"),
        "classify" => Some("read"),
        _ => None,
    }
}

/// The part of a row's time that the sum lacks or has too much, squared and added up, is least at these constants; none is below 0.
/// Those that are known stay. Of one of the others after another the best is taken while the rest stays.
fn fitted(things: &[&'static str], known: &[Option<f64>], rows: &[&Timed]) -> Vec<f64> {
    let share = |row: &Timed, thing: &str| row.costs.iter().find(|cost| cost.0 == thing).map_or(0.0, |cost| cost.1 / row.time);
    let shares: Vec<Vec<f64>> = rows.iter().map(|row| things.iter().map(|thing| share(row, thing)).collect()).collect();
    let mut constants: Vec<f64> = known.iter().map(|constant| constant.unwrap_or(0.0)).collect();
    for _ in 0..50_000 {
        for k in (0..things.len()).filter(|k| known[*k].is_none()) {
            let (mut over, mut under) = (0.0, 0.0);
            for row in &shares {
                let others: f64 = (0..things.len()).filter(|j| *j != k).map(|j| constants[j] * row[j]).sum();
                over += row[k] * (1.0 - others);
                under += row[k] * row[k];
            }
            constants[k] = if under > 0.0 { (over / under).max(0.0) } else { 0.0 };
        }
    }
    constants
}

fn sum(things: &[&'static str], constants: &[f64], row: &Timed) -> f64 {
    row.costs.iter().map(|(thing, count)| count * constants[things.iter().position(|name| name == thing).unwrap()]).sum()
}

/// Prints the constants of each job, and how far each row is from its sum.
pub fn print(rows: &[Timed]) {
    let mut jobs: Vec<&str> = rows.iter().map(|row| row.job).collect();
    jobs.dedup();
    println!("\n## The formula\n");
    println!("What a call takes is a sum, of which `docs/SCALE.md` says what its parts are. The constants are those with which the sums miss the");
    println!("rows' times by least, each miss in parts of its row's time; none is below 0. Those of read are in classify too, those of build in run.\n");
    println!("| job | for each | nanoseconds |");
    println!("|---|---|--:|");
    let mut fits: Vec<(Vec<&Timed>, Vec<&'static str>, Vec<f64>)> = Vec::new();
    for job in &jobs {
        let rows: Vec<&Timed> = rows.iter().filter(|row| row.job == *job).collect();
        let mut things: Vec<&'static str> = Vec::new();
        for cost in rows.iter().flat_map(|row| &row.costs) {
            if !things.contains(&cost.0) {
                things.push(cost.0);
            }
        }
        let before = within(job).and_then(|other| jobs.iter().position(|job| *job == other)).map(|k| &fits[k]);
        let known = |thing: &&str| before.and_then(|(_, things, constants)| Some(constants[things.iter().position(|name| name == thing)?]));
        let known: Vec<Option<f64>> = things.iter().map(known).collect();
        let constants = fitted(&things, &known, &rows);
        for (k, thing) in things.iter().enumerate().filter(|(k, _)| known[*k].is_none()) {
            println!("| {job} | {thing} | {:.4} |", constants[k]);
        }
        fits.push((rows, things, constants));
    }
    println!("\nHow far each row is from its sum: `sum / time` is above 1 where the formula says too much.\n");
    println!("| row | time of a call, microseconds | sum | sum / time |");
    println!("|---|--:|--:|--:|");
    for (rows, things, constants) in &fits {
        for row in rows {
            let sum = sum(things, constants, row);
            println!("| {} | {:.2} | {:.2} | {:.2} |", row.what, row.time / 1e3, sum / 1e3, sum / row.time);
        }
    }
    for ((rows, things, constants), job) in fits.iter().zip(&jobs) {
        let parts: Vec<f64> = rows.iter().map(|row| sum(things, constants, row) / row.time).collect();
        let (least, most) = parts.iter().fold((f64::INFINITY, 0.0_f64), |(least, most), part| (least.min(*part), most.max(*part)));
        println!("\nOf {} rows of {job} the sums are {least:.2} to {most:.2} of the time.", rows.len());
    }
}

/// The formula finds the constants of times that were made by them.
pub fn check() {
    let things = ["a call", "a crossing", "a crossing and a leaf"];
    let due = [700.0, 3.5, 0.02];
    let made: Vec<Timed> = [(4.0, 400.0), (64.0, 400.0), (64.0, 20_000.0), (1024.0, 20_000.0), (256.0, 2_000.0), (4.0, 100_000.0)]
        .into_iter()
        .map(|(leaves, crossings)| {
            let costs: Costs = things.into_iter().zip([1.0, crossings, crossings * leaves]).collect();
            let time = costs.iter().zip(due).map(|(cost, constant)| cost.1 * constant).sum();
            Timed { what: String::new(), job: "made", costs, time }
        })
        .collect();
    for known in [None, Some(due[0])] {
        let found = fitted(&things, &[known, None, None], &made.iter().collect::<Vec<_>>());
        assert!(found.iter().zip(due).all(|(found, due)| (found / due - 1.0).abs() < 1e-3), "{found:?}");
    }
}
