"""Times of calls from Python beside the same calls from Rust, turn about, the best of many turns: on a million crossings.

    target/python/bin/python bindings/python/benchmarks/beside_rust.py [TURNS]

`same_calls`, an example of the Rust crate, gets the same lists as files, and is asked for one call at a time. Both lend lists that were
made and written to before. A ratio above 1.05 ends it with status 1.
"""

import subprocess
import sys
import tempfile
import time
from pathlib import Path

import numpy as np

import kressedach
from kressedach import lent

ROOT = Path(__file__).resolve().parents[3]
LINES, NAMES = 50_000, 10
AT_MOST = 1.05


def plate():
    """A plate with holes in a row, and lines along it: two crossings of every shape on every line, a million in all."""
    names = ["Plate", *(f"Hole{k}" for k in range(1, NAMES))]
    plate, *holes = kressedach.shapes(*names)
    formula = plate
    for hole in holes:
        formula = formula - hole
    sheet = kressedach.Sheet.of(formula)
    boxes = {name: kressedach.Box((20 * k - 15, -1, -1), (20 * k - 5, 41, 9)) for k, name in enumerate(names)}
    boxes["Plate"] = kressedach.Box((0, 0, 0), (200, 40, 8))
    lines = np.zeros((LINES, 6))
    lines[:, 1], lines[:, 2], lines[:, 3] = np.linspace(0.01, 39.99, LINES), 4, 1
    return sheet, kressedach.Drawing(sheet, boxes), lines


class Calls:
    """Each job on lent lists; `files` are those that Rust is given."""

    def __init__(self):
        sheet, drawing, probes = plate()
        crossed = kressedach.cross(drawing, probes)
        rows, *crossings = crossed.lists(len(sheet.names)).values()
        walls = kressedach.walls(sheet, crossed)
        theirs = [np.ascontiguousarray(walls[field]) for field in ("line", "start", "end")]
        toggles = (np.arange(1_000_000) % len(sheet.names)).astype(np.uint16)
        rooms = {"walls": len(crossings[0]) // 2 + LINES, "rows": rows.size, "crossings": len(crossings[0]), "toggles": len(toggles)}
        rooms["labels"] = kressedach.MOST_NODES
        kinds, numbers = drawing.lists()
        flat = probes.reshape(-1)
        self.files = {
            "sheet": np.frombuffer(sheet.data, np.uint8),
            **dict(zip(("rows", "lines", "positions", "shapes"), (rows, *crossings))),
            **dict(zip(("their_lines", "their_starts", "their_ends"), theirs)),
            "toggles": toggles,
            "kinds": kinds,
            "numbers": numbers,
            "probes": flat,
            "rooms": np.array(list(rooms.values()), np.uint32),
        }
        of_walls = [np.ones(rooms["walls"], dtype) for dtype in ("uint32", "int32", "int32", "uint16", "uint16")]
        of_run = [np.ones(rooms[room], dtype) for room, dtype in (("toggles", "uint8"), ("toggles", "uint32"), ("labels", "uint8"))]
        of_lines = [np.ones(rooms["rows"], "uint8"), *(np.ones(rooms["crossings"], dtype) for dtype in ("uint32", "int32", "uint16"))]
        self.jobs = {
            "classify": lambda: lent.classify(sheet, rows, *crossings, *of_walls),
            "judge": lambda: lent.judge(sheet, rows, *crossings, *theirs).index,
            "run": lambda: lent.run(sheet, toggles, *of_run),
            "cross_many": lambda: lent.cross_many(kinds, numbers, flat, *of_lines).crossings,
        }
        self.walls = lambda: kressedach.walls(sheet, crossed)
        self.items = {"classify": rooms["crossings"], "judge": rooms["crossings"], "run": len(toggles), "cross_many": rooms["crossings"]}


def timed(call):
    began = time.perf_counter_ns()
    answers = call()
    return time.perf_counter_ns() - began, answers


def asked(rust, job):
    rust.stdin.write(f"{job}\n")
    rust.stdin.flush()
    took, answers = rust.stdout.readline().split()
    return int(took), int(answers)


def main(turns):
    calls = Calls()
    command = ["cargo", "run", "--offline", "--quiet", "--release", "--manifest-path", str(ROOT / "bindings/rust/Cargo.toml")]
    with tempfile.TemporaryDirectory() as folder:
        for name, array in calls.files.items():
            array.tofile(Path(folder) / name)
        command += ["--example", "same_calls", "--", folder]
        with subprocess.Popen(command, stdin=subprocess.PIPE, stdout=subprocess.PIPE, text=True) as rust:
            ratios = [beside(calls, rust, job, turns) for job in calls.jobs]
            rust.stdin.close()
    best = min(timed(calls.walls)[0] for _ in range(turns))
    print(f"| `walls`, one structured array | {best / calls.items['classify']:.2f} | | |")
    return int(max(ratios) > AT_MOST)


def beside(calls, rust, job, turns):
    """Prints a row: nanoseconds an item from Python, from Rust, and their ratio."""
    both = []
    for _ in range(turns):
        (ours, given), (theirs, due) = timed(calls.jobs[job]), asked(rust, job)
        assert given == due, (job, given, due)
        both.append((ours, theirs))
    ours, theirs = (min(column) for column in zip(*both))
    if job == "classify":
        print("| call, on a million items | Python, ns an item | Rust, ns an item | Python / Rust |\n|---|--:|--:|--:|")
    print(f"| `{job}` | {ours / calls.items[job]:.2f} | {theirs / calls.items[job]:.2f} | {ours / theirs:.3f} |")
    return ours / theirs


if __name__ == "__main__":
    sys.exit(main(int(sys.argv[1]) if len(sys.argv) > 1 else 40))
