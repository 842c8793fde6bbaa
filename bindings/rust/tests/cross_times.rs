//! A million lines through 256 boxes: the time of `wallcheck cross` beside reading LINES, the job and writing, each alone.
//!
//! A time is no test: `cargo test --offline --release --test cross_times -- --ignored --nocapture` measures it. `KRESSEDACH_LINES` and
//! `KRESSEDACH_BOXES` ask for another number of lines on a side of their grid and of boxes.

mod said;

use kressedach::{cross_many_into, ManyLists, ShapeLists};
use peer::rasters::{self, Raster};
use peer::{from_env, say};
use said::{file, WALLCHECK};
use std::fmt::Write as _;
use std::fs::{self, File};
use std::hint::black_box;
use std::io::{BufWriter, Write as _};
use std::process::{Command, Stdio};
use std::time::{Duration, Instant};

/// So many lines are crossed in a call.
const BLOCK: usize = 512;

/// SHAPES and LINES, as files.
fn written(raster: &Raster) -> [String; 2] {
    let (mut shapes, mut lines) = ("name,low_x,low_y,low_z,high_x,high_y,high_z\n".to_string(), "line,x,y,z,dx,dy,dz\n".to_string());
    for (k, six) in raster.numbers.chunks(6).enumerate() {
        let [a, b, c, d, e, f] = six else { panic!("a box has six numbers") };
        writeln!(shapes, "rib{k:03},{a},{b},{c},{d},{e},{f}").unwrap();
    }
    for (k, six) in raster.lines.chunks(6).enumerate() {
        let [a, b, c, d, e, f] = six else { panic!("a line has six numbers") };
        writeln!(lines, "{k},{a:.3},{b:.3},{c:.3},{d},{e},{f}").unwrap();
    }
    [file("times-shapes.csv", shapes.as_bytes()), file("times-lines.csv", lines.as_bytes())]
}

/// LINES as a plain program reads it: lines, fields, and Rust's own number parsing.
fn read(path: &str) -> Vec<f64> {
    let (text, mut lines, mut last) = (fs::read_to_string(path).unwrap(), Vec::new(), None);
    for row in text.lines().skip(1) {
        let mut fields = row.split(',');
        let number: u32 = fields.next().unwrap().parse().unwrap();
        assert!(last.replace(number) < Some(number));
        lines.extend(fields.map(|field| field.parse::<f64>().unwrap()));
    }
    lines
}

/// Crosses all lines, a block at a time, and hands each block's crossings on.
fn crossed(raster: &Raster, mut take: impl FnMut(usize, &[u32], &[i32], &[u16])) {
    let rows = BLOCK * raster.kinds.len();
    let mut lists = (vec![0; rows], vec![0; 2 * rows], vec![0; 2 * rows], vec![0; 2 * rows]);
    for (k, block) in raster.lines.chunks(6 * BLOCK).enumerate() {
        let mut lent = ManyLists { rows: &mut lists.0, lines: &mut lists.1, positions: &mut lists.2, shapes: &mut lists.3 };
        let n = cross_many_into(block, ShapeLists { kinds: &raster.kinds, numbers: &raster.numbers }, &mut lent).unwrap().crossings;
        take(k * BLOCK, &lists.1[..n], &lists.2[..n], &lists.3[..n]);
    }
}

/// CROSSINGS as a plain program writes it.
fn write(path: &str, crossings: &[(u32, i32, u16)], names: &[String]) {
    let mut to = BufWriter::new(File::create(path).unwrap());
    writeln!(to, "line,position,name").unwrap();
    for (line, position, shape) in crossings {
        writeln!(to, "{line},{position},{}", names[usize::from(*shape)]).unwrap();
    }
    to.flush().unwrap();
}

fn wallcheck(shapes: &str, lines: &str, to: &str) {
    let to = Stdio::from(File::create(to).unwrap());
    let status = Command::new(WALLCHECK).args(["cross", shapes, lines]).stdout(to).stderr(Stdio::null()).status().unwrap();
    assert!(status.success());
}

fn timed(job: impl FnOnce()) -> Duration {
    let began = Instant::now();
    job();
    began.elapsed()
}

/// Gives the command's time, in times of its parts'.
fn measured(side: usize, boxes: usize, aslant: bool) -> f64 {
    let mut raster = rasters::plate(boxes, 0, side, aslant);
    let [shapes, lines] = written(&raster);
    raster.lines = read(&lines);
    let names: Vec<String> = (0..raster.kinds.len()).map(|k| format!("rib{k:03}")).collect();
    let mut crossings = Vec::new();
    crossed(&raster, |first, lines, positions, shapes| {
        let entries = lines.iter().zip(positions).zip(shapes);
        crossings.extend(entries.map(|((line, position), shape)| (first as u32 + line, *position, *shape)));
    });
    let [ours, plain] = ["ours", "plain"].map(|what| file(&format!("times-{what}.csv"), b""));
    let mut best = [Duration::MAX; 4];
    for _ in 0..5 {
        let turn = [
            timed(|| wallcheck(&shapes, &lines, &ours)),
            timed(|| drop(black_box(read(&lines)))),
            timed(|| crossed(&raster, |_, lines, _, _| _ = black_box(lines))),
            timed(|| write(&plain, &crossings, &names)),
        ];
        best = [0, 1, 2, 3].map(|k: usize| best[k].min(turn[k]));
    }
    assert!(fs::read(&ours).unwrap() == fs::read(&plain).unwrap(), "the crossings are others");
    let [whole, reading, job, writing] = best;
    let ratio = whole.as_secs_f64() / (reading + job + writing).as_secs_f64();
    let way = if aslant { "aslant" } else { "along" };
    let count = side * side;
    say(format!("{count} lines {way}, {boxes} boxes: cross {whole:?}, reading {reading:?}, job {job:?}, writing {writing:?}: {ratio:.2}"));
    ratio
}

#[test]
#[ignore = "measures a time"]
fn at_most_half_more_than_its_parts() {
    let (side, boxes) = (from_env("KRESSEDACH_LINES", 1000) as usize, from_env("KRESSEDACH_BOXES", 256) as usize);
    for aslant in [false, true] {
        let ratio = measured(side, boxes, aslant);
        assert!(ratio <= 1.5, "{ratio:.2} times its parts");
    }
}
