"""How many lines one worker does and how many two do, and what the network carries a line.

    target/python/bin/python bindings/python/benchmarks/workers.py [LINES [TURNS]]

A worker is a process with one thread. Lines go through a plate with nine holes, twenty crossings each, in partitions of 50,000. First they
are made where they are crossed, and the thinnest wall alone comes back; then they are sent from here, and every wall comes back. The best of
some turns counts: more are wanted where the machine has other work. What the network carries is what the loopback device counted.
"""

import sys
import time

import dask
import numpy as np
from beside_rust import plate
from dask import array as da
from dask import delayed
from distributed import Client, LocalCluster

import kressedach.dask

PARTITION = 50_000


def made(first, past):
    """Lines first to past of a family, wherever they are made."""
    lines = np.zeros((past - first, 6))
    lines[:, 1], lines[:, 2], lines[:, 3] = 0.01 + np.arange(first, past) % 39_980 / 1000, 4, 1
    return lines


def family(count):
    """The lines, each partition made on the worker that takes it."""
    firsts = range(0, count, PARTITION)
    blocks = [da.from_delayed(delayed(made)(first, first + PARTITION), (PARTITION, 6), np.float64) for first in firsts]
    return da.concatenate(blocks)


def carried():
    """Bytes that the loopback device has received."""
    with open("/proc/net/dev") as devices:
        return next(int(line.split(":")[1].split()[0]) for line in devices if line.strip().startswith("lo:"))


def measured(work, turns):
    """The least seconds of some turns, and the bytes that one of them carried."""
    times = []
    for _ in range(turns):
        began, before = time.perf_counter(), carried()
        work().compute()
        times.append((time.perf_counter() - began, carried() - before))
    return min(times)


def main(count, turns=3):
    sheet, drawing, _ = plate()
    here = [made(first, first + PARTITION) for first in range(0, count, PARTITION)]

    def walls(lines):
        return kressedach.dask.drawn_walls(sheet, drawing, lines)

    works = {
        "made there, the thinnest wall back": lambda: walls(family(count))["thickness"].min(),
        "sent from here, all walls back": lambda: walls(da.concatenate([da.from_array(block, chunks=-1) for block in here])),
    }
    print(f"{count} lines, {20 * count} crossings, partitions of {PARTITION} lines\n")
    print("| lines | workers | million lines a second | million crossings a second | bytes a line on the network |\n|---|--:|--:|--:|--:|")
    for workers in (1, 2):
        with LocalCluster(n_workers=workers, threads_per_worker=1, processes=True, dashboard_address=None) as cluster, Client(cluster):
            for name, work in works.items():
                seconds, bytes_carried = measured(work, turns)
                lines = count / seconds / 1e6
                print(f"| {name} | {workers} | {lines:.3f} | {20 * lines:.1f} | {bytes_carried / count:.1f} |", flush=True)


if __name__ == "__main__":
    with dask.config.set({"logging.distributed": "error"}):
        main(*map(int, sys.argv[1:] or [2_000_000]))
