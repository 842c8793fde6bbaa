"""Every job agrees with the plain implementation of bindings/rust/peer, on cases from a seed, through the arrays that a caller lends.

Reports are compared field by field, and every answer list from end to end, with entries before and after it that were not lent.
"""

from collections import Counter
from concurrent.futures import ThreadPoolExecutor
from functools import partial

import numpy as np
import pytest
from cases import Guarded, cases, typed

import kressedach
from kressedach import Beside, Refused, lent
from kressedach._library import JOBS

#: Entries on each side of a lent list; odd, so that lists begin at odd offsets too.
BESIDE = 7

#: The refusals that each job can give, 0 for none. 8 is proved never to come.
OF_SHEETS = {0, 1, 2, 3, 4, 5, 6, 7, 17}
CAN = {
    "read": OF_SHEETS,
    "name": OF_SHEETS | {10},
    "names": OF_SHEETS | {9},
    "move": OF_SHEETS | {9, 19},
    "build": OF_SHEETS | {9},
    "run": OF_SHEETS | {9, 10},
    "run_both": OF_SHEETS | {9, 10, 13},
    "run_edited": OF_SHEETS | {9, 10, 13, 20},
    "classify": OF_SHEETS | {9, 10, 11, 13, 14, 15},
    "judge": OF_SHEETS | {10, 11, 13, 14, 15},
    "cross": {0, 9, 16},
    "cross_many": {0, 9, 16},
    "cross_balls": {0, 9, 18},
}


class Noisy:
    """An answer list as it is lent, full of noise, between entries that are not lent."""

    def __init__(self, room, dtype, put=lambda array: array):
        noise = np.arange(room + 2 * BESIDE, dtype=np.uint64) * np.uint64(0x9E3779B97F4A7C15) >> np.uint64(17)
        self.all = noise.astype(dtype)
        self.due = self.all.copy()
        self.room = room
        self.list = put(self.all[BESIDE : BESIDE + room])

    def check(self, name, entries):
        self.due[BESIDE : BESIDE + len(entries)] = entries
        self.all[BESIDE : BESIDE + self.room] = self.list
        differ = np.flatnonzero(self.all != self.due)
        assert differ.size == 0, f"{name}[{differ[0] - BESIDE}] is {self.all[differ[0]]}, due is {self.due[differ[0]]}"


def of_sheets(fitted, fittings, sheet):
    return Beside(fittings.tobytes(), sheet.tobytes()) if fitted[0, 0] else sheet.tobytes()


def arguments(case, put=lambda array: array):
    """What stands before the lists that are written."""
    job, given = JOBS[case.job], list(case.given)
    first = [of_sheets(*(given.pop(0) for _ in range(3)))] if job.of_sheets else []
    if case.job == "name":
        first.append(int(typed(given.pop(0), "uint64")[0]))
    if case.job == "cross":
        first.append(typed(given.pop(0), "float64"))
    return first + [put(typed(entries, dtype)) for entries, dtype in zip(given, job.reads.values())]


def told(call, report):
    """A call's report as numbers in the order of its struct, of what it gave or raised."""
    names = [field[0] for field in report._fields_]
    try:
        answer = call()
    except Refused as refused:
        of = {"number": refused.number, "sheet": int(refused.sheet), "place": refused.place, "line": refused.line or 0}
        return [of.get(name, 0) for name in names]
    if isinstance(answer, int):
        return [0] * (len(names) - 1) + [answer]
    return [int(getattr(answer, name, 0)) for name in names]


def told_both(call):
    try:
        answers = call()
    except Refused as refused:
        return 2 * [refused.number, int(refused.sheet), refused.place, 0]
    refusal = [(one.number, int(one.sheet), one.place, 0) if isinstance(one, Refused) else (0, 0, 0, one) for one in answers]
    return [number for one in refusal for number in one]


def compare(case, put=lambda array: array):
    job, lists = JOBS[case.job], [Noisy(list.room, dtype, put) for list, dtype in zip(case.lent, JOBS[case.job].writes.values())]
    given = arguments(case, put)
    before = [array.copy() for array in given if isinstance(array, np.ndarray)]
    call = partial(getattr(lent, case.job), *given, *(noisy.list for noisy in lists))
    got = told_both(call) if case.job == "run_both" else told(call, job.report)
    assert got == case.report
    for noisy, list, (name, dtype) in zip(lists, case.lent, job.writes.items()):
        noisy.check(name, typed(list.due, dtype))
    for array, kept in zip((array for array in given if isinstance(array, np.ndarray)), before):
        assert array.tobytes() == kept.tobytes()


def test_cases_from_a_seed_agree(peer_cases):
    seen, count = {job: Counter() for job in JOBS}, 0
    for case in cases(peer_cases):
        try:
            compare(case)
        except AssertionError as difference:
            raise AssertionError(f"case {count}: {difference}\n{case}") from None
        numbers = case.report[:5:4] if case.job == "run_both" else case.report[:1]
        seen[case.job].update(numbers)
        count += 1
    assert count >= 10_000
    # the cases are worth something: whatever a job can answer comes up, and nothing else; every refusal of sheets at some job
    for job, numbers in CAN.items():
        assert numbers - OF_SHEETS <= set(seen[job]) <= numbers, (job, seen[job])
    assert OF_SHEETS <= set(sum(seen.values(), Counter()))


def some_of_each_job(path, count):
    """The first so many cases of each job."""
    left = Counter({job: count for job in JOBS})
    for case in cases(path):
        if left[case.job]:
            left[case.job] -= 1
            yield case


@pytest.mark.parametrize("at_the_end", [True, False])
def test_every_list_stands_between_pages_that_nobody_may_touch(peer_cases, at_the_end):
    """Every entry that there is, and not one more, of every list that is read or written, by every job."""
    for case in some_of_each_job(peer_cases, 200):
        compare(case, Guarded(at_the_end))


def test_many_threads_call_at_once(peer_cases):
    """Every job, in eight threads, each with cases and lists of its own."""
    some = list(some_of_each_job(peer_cases, 200))
    with ThreadPoolExecutor(8) as threads:
        for done in [threads.submit(lambda first: [compare(case) for case in some[first::8]], first) for first in range(8)]:
            done.result()


def lists_of_one_length(*lists):
    return len({len(list) for list in lists}) == 1


def test_the_walls_of_crossed_lines_are_those_of_the_lent_job(peer_cases):
    """The structured array has what the job writes, and a thickness; what is refused is refused alike."""
    seen = Counter()
    for case in cases(peer_cases):
        if case.job != "classify":
            continue
        sheet, rows, lines, positions, shapes = arguments(case)
        try:
            read = kressedach.Sheet(sheet.sheet, sheet.fittings) if isinstance(sheet, Beside) else kressedach.Sheet(sheet)
        except Refused as refused:
            assert case.report[:3] == [refused.number, refused.sheet, refused.place]
            continue
        if not lists_of_one_length(lines, positions, shapes) or len(rows) % len(read.names):
            continue
        crossed = kressedach.Crossed(rows.reshape(-1, len(read.names)), lines, positions, shapes)
        try:
            walls = kressedach.walls(read, crossed)
        except Refused as refused:
            assert case.report[:3] == [refused.number, refused.sheet, refused.place]
            seen["refused"] += 1
            continue
        if case.report[0] == 9:
            continue
        for field, list, dtype in zip(walls.dtype.names, case.lent, JOBS["classify"].writes.values()):
            assert walls[field].tolist() == typed(list.due, dtype).tolist()
        open_walls = (walls["start"] == -(2**31)) | (walls["end"] == 2**31 - 1)
        apart = np.where(open_walls, kressedach.OPEN_THICKNESS, walls["end"].astype(np.int64) - walls["start"])
        assert walls["thickness"].tolist() == apart.tolist()
        assert kressedach.judge(read, crossed, walls) == kressedach.Opinion(True, len(walls))
        seen["given"] += 1
    assert seen["given"] > 500 and seen["refused"] > 100


def test_no_job_is_left_out():
    assert set(CAN) == set(JOBS)
