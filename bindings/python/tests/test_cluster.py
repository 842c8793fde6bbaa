"""A cluster of two worker processes on this machine: the same bytes as one call, bounded memory, a worker lost, refusals."""

import os
import signal
import threading
import time

import dask
import numpy as np
import pytest
from dask import array as da
from dask import bag as db
from dask import delayed
from distributed import Client, Event, LocalCluster
from distributed.diagnostics.plugin import SchedulerPlugin

import kressedach
import kressedach.dask
from kressedach import Crossed, Refused

#: Ten million crossings: so many lines with twenty crossings each.
LINES, A_LINE = 500_000, 20
PARTITION = 25_000

FORMULA = kressedach.Formula("Block") - (kressedach.Formula("Bore") | kressedach.Formula("Port"))


@pytest.fixture(scope="module")
def sheet():
    return kressedach.Sheet.of(FORMULA)


@pytest.fixture(scope="module")
def client():
    """Two processes, each with one thread."""
    with dask.config.set({"distributed.worker.memory.target": False, "distributed.worker.memory.spill": False}):
        with LocalCluster(n_workers=2, threads_per_worker=1, processes=True, dashboard_address=None) as cluster:
            with Client(cluster) as client:
                yield client
                workers = client.run(os.getpid).values()
    until(lambda: not any(os.path.exists(f"/proc/{worker}") for worker in workers))


def crossed(first, past):
    """The crossings of lines first to past of a family, the same whoever makes them, numbered in the whole."""
    lines = np.arange(first, past, dtype=np.uint32)
    steps = np.arange(A_LINE, dtype=np.int32)
    positions = (steps * 1000 + (lines[:, None] % 997).astype(np.int32) * (steps % 3)).astype(np.int32)
    shapes = ((lines[:, None] * 7 + np.minimum(steps, A_LINE - 1 - steps)) % 3).astype(np.uint16)
    rows = np.zeros((past - first, 3), np.uint8)
    rows[lines % 11 == 0, 0] = 1
    return Crossed(rows, np.repeat(lines, A_LINE), np.sort(positions, axis=1).reshape(-1), shapes.reshape(-1))


@pytest.fixture(scope="module")
def whole(sheet):
    """What one call gives."""
    return kressedach.walls(sheet, crossed(0, LINES))


def delayed_lists(make=crossed):
    """The same lists, each partition made on the worker that takes it."""
    firsts = range(0, LINES, PARTITION)
    blocks = [delayed(make)(first, first + PARTITION) for first in firsts]

    def joined(name, *shape):
        parts = [delayed(getattr)(block, name) for block in blocks]
        length = PARTITION if name == "rows" else PARTITION * A_LINE
        return da.concatenate([da.from_delayed(part, (length, *shape), kressedach.dask.DTYPES[name]) for part in parts])

    return Crossed(joined("rows", 3), joined("lines"), joined("positions"), joined("shapes"))


def test_ten_million_crossings_give_the_bytes_of_one_call(client, sheet, whole):
    walls = kressedach.dask.walls(sheet, delayed_lists())
    assert len(whole) > 1_000_000
    assert walls.compute().tobytes() == whole.tobytes()
    opinion = kressedach.dask.judge(sheet, delayed_lists(), walls).compute()
    assert opinion == kressedach.Opinion(True, len(whole))


def test_lines_and_lists_that_are_sent_from_here(client, sheet):
    """What arrives at a worker may stand anywhere in memory: drawings, lines, crossed lines."""
    corners = {"Block": ((0, 0, 0), (9, 9, 9)), "Bore": ((1, 1, -1), (4, 8, 10)), "Port": ((3, 2, 2), (8, 3, 3))}
    drawing = kressedach.Drawing(sheet, {name: kressedach.Box(*both) for name, both in corners.items()})
    lines = np.zeros((5_000, 6))
    lines[:, 1], lines[:, 2], lines[:, 3] = np.linspace(-1, 10, 5_000), 2.5, 1
    due = kressedach.walls(sheet, kressedach.cross(drawing, lines))
    parts = kressedach.dask.cross(drawing, da.from_array(lines, chunks=(777, 6)))
    assert kressedach.dask.walls(sheet, parts).compute().tobytes() == due.tobytes()
    bag = db.from_sequence(np.array_split(lines, 7), npartitions=4)
    made_there = kressedach.dask.cross(drawing, bag)
    for crossed_bag in (made_there, db.from_sequence(made_there.compute(), npartitions=3)):
        assert np.concatenate(kressedach.dask.walls(sheet, crossed_bag).compute()).tobytes() == due.tobytes()


def peak():
    """The most memory that this process has had since it was asked to forget, in bytes."""
    with open("/proc/self/status") as status:
        return next(int(line.split()[1]) * 1024 for line in status if line.startswith("VmHWM"))


def forget():
    """Resets what peak() gives, after handing back what is free."""
    import ctypes
    import gc

    gc.collect()
    ctypes.CDLL(None).malloc_trim(0)
    with open("/proc/self/clear_refs", "w") as refs:
        refs.write("5")
    return peak()


def test_memory_is_bounded_by_the_partition(client, sheet, whole):
    """Of ten million crossings no worker holds more than some partitions at a time."""

    def thinnest():
        return kressedach.dask.walls(sheet, delayed_lists())["thickness"].min()

    thinnest().compute()
    before = client.run(forget)
    assert thinnest().compute() == whole["thickness"].min()
    after = client.run(peak)
    one = crossed(0, PARTITION)
    partition = sum(list.nbytes for list in one) + kressedach.walls(sheet, one).nbytes
    everything = partition * (LINES // PARTITION)
    grown = [after[worker] - before[worker] for worker in before]
    assert max(grown) < 6 * partition < everything / 3, (grown, partition)


def held_back(first, past):
    """Of the second half no partition is made before a worker is lost, however slow the machine is."""
    if first >= LINES // 2:
        Event("lost").wait()
    return crossed(first, past)


def until(so, seconds=60):
    """Waits for it, and fails where it does not come."""
    deadline = time.time() + seconds
    while not so():
        assert time.time() < deadline
        time.sleep(0.05)


def test_a_worker_killed_in_the_middle(client, sheet, whole):
    workers = client.run(os.getpid)
    running = client.compute(kressedach.dask.walls(sheet, delayed_lists(held_back)))
    until(lambda: all(client.has_what().values()))
    os.kill(next(iter(workers.values())), signal.SIGKILL)
    Event("lost").set()
    assert running.result(timeout=120).tobytes() == whole.tobytes()
    client.wait_for_workers(2, timeout=60)
    assert set(client.run(os.getpid).values()) != set(workers.values())


def damaged(first, past):
    lists = crossed(first, past)
    if first == 7 * PARTITION:
        lists.shapes[12_345] = 3
    return lists


def test_a_refused_partition_has_its_place_and_line_in_the_whole(client, sheet):
    lists = crossed(0, LINES)
    place = 7 * PARTITION * A_LINE + 12_345
    lists.shapes[place] = 3
    with pytest.raises(Refused) as due:
        kressedach.walls(sheet, lists)
    parts = delayed_lists(damaged)
    with pytest.raises(Refused) as got:
        kressedach.dask.walls(sheet, parts).compute()
    for refused in (got.value, kressedach.dask.refused(sheet, parts).compute()):
        assert (refused.number, refused.sheet, refused.place) == (due.value.number, due.value.sheet, due.value.place) == (10, 0, place)
        assert (refused.line, refused.partition) == (lists.lines[place], 7)


class Graphs(SchedulerPlugin):
    """How many graphs have reached the scheduler. Tasks come and go with those who hold them; a graph that came stays counted."""

    name = "graphs"

    def __init__(self):
        self.count = 0

    def update_graph(self, scheduler, **said):
        self.count += 1


def test_a_refused_sheet_is_refused_before_anything_is_sent(client):
    def graphs():
        return client.run_on_scheduler(lambda dask_scheduler: dask_scheduler.plugins["graphs"].count)

    client.register_scheduler_plugin(Graphs())
    with pytest.raises(Refused) as refused:
        kressedach.dask.walls(kressedach.Sheet(b"\1\0\2\0\1\2\0\1A\3\0\2\0\1"), delayed_lists()).compute()
    assert (refused.value.number, refused.value.place) == (7, 12)
    assert graphs() == 0
    delayed(crossed)(0, 1).compute()
    assert graphs() == 1


def test_other_threads_of_a_worker_run(client, sheet):
    """Two threads of one process classify at once: a call does not hold the interpreter."""
    lists, found = crossed(0, 50_000), []
    threads = [threading.Thread(target=lambda: found.append(kressedach.walls(sheet, lists))) for _ in range(2)]
    for thread in threads:
        thread.start()
    for thread in threads:
        thread.join()
    assert found[0].tobytes() == found[1].tobytes()
