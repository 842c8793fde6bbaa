//! What `docs/SCALE.md` says of memory is so: the bytes of a line and its crossings, and how many lines a gigabyte holds. What it says of time
//! is what `docs/BENCHMARKS.md` has: the parts of the sums, and how far they are from the times.

use std::fs;

fn text(page: &str) -> String {
    fs::read_to_string(format!("{}/../../docs/{page}", env!("CARGO_MANIFEST_DIR"))).unwrap()
}

/// The rows of the table below a heading, each by its cells.
fn table(page: &str, heading: &str) -> Vec<Vec<String>> {
    let rows = page.split(heading).nth(1).unwrap().lines().skip(2).map_while(|row| row.strip_prefix("| ")?.strip_suffix(" |"));
    rows.map(|row| row.split(" | ").map(String::from).collect()).collect()
}

#[test]
fn the_parts_of_the_sums() {
    let (scale, benchmarks) = (text("SCALE.md"), text("BENCHMARKS.md"));
    let parts = table(&benchmarks, "| job | for each | nanoseconds |");
    assert!(parts.len() > 20, "{parts:?}");
    let jobs = scale.split("| job | the sum has a constant for each |").nth(1).unwrap().split("\n\n").next().unwrap();
    for part in &parts {
        assert!(jobs.contains(&part[1]), "{part:?}");
    }
}

/// Of each job the least and the most part of the time that a sum is, from its rows.
#[test]
fn how_far_the_sums_are() {
    let (scale, benchmarks) = (text("SCALE.md"), text("BENCHMARKS.md"));
    let rows = table(&benchmarks, "| row | time of a call, microseconds | sum | sum / time |");
    let range = |jobs: &[&str]| {
        let of_jobs = rows.iter().filter(|row| jobs.iter().any(|job| row[0].starts_with(&format!("{job}, "))));
        let parts: Vec<f64> = of_jobs.map(|row| row[3].parse().unwrap()).collect();
        let (least, most) = (parts.iter().copied().fold(f64::INFINITY, f64::min), parts.iter().copied().fold(0.0, f64::max));
        format!("{least:.2} to {most:.2}")
    };
    let said = format!(
        "the sums of read, move and build are {} of the times, those of run {}, of classify {}, and of cross {}.",
        range(&["read", "move", "build"]),
        range(&["run"]),
        range(&["classify"]),
        range(&["cross"])
    );
    assert!(scale.contains(&said), "{said}");
    let beside: Vec<f64> = table(&benchmarks, "| job | formula | leaves | lists | library |")
        .iter()
        .filter(|row| row[0] == "classify")
        .map(|row| row[12].parse().unwrap())
        .collect();
    let (least, most) = (beside.iter().copied().fold(f64::INFINITY, f64::min), beside.iter().copied().fold(0.0, f64::max));
    let said = format!("(a right list takes {least:.2} to {most:.2} times what its lines take to classify)");
    assert!(scale.contains(&said), "{said}");
}

#[test]
fn bytes_a_line() {
    let page = text("SCALE.md");
    let rows = table(&page, "| names | crossings a line | bytes a line |");
    let rows: Vec<Vec<usize>> = rows.iter().map(|row| row.iter().map(|number| number.parse().unwrap()).collect()).collect();
    assert_eq!(rows.len(), 4);
    let crossing = size_of::<u32>() + size_of::<i32>() + size_of::<u16>();
    let wall = size_of::<u32>() + 2 * size_of::<i32>() + 2 * size_of::<u16>();
    for row in rows {
        let (names, crossings) = (row[0], row[1]);
        let bytes = names + crossings * crossing + (crossings / 2 + 1) * wall;
        assert_eq!(row[2..], [bytes, (1 << 30) / bytes]);
    }
}
