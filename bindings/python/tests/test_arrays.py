"""No array that is not fit reaches the library: it is refused in words that name the argument, and none is copied unseen."""

import numpy as np
import pytest

import kressedach
from kressedach import Crossed, Drawing, lent
from kressedach._library import JOBS, library

SHEET = b"\x01\0\x02\0\x01\x02\0\x05Block\x02\0\x04Bore\x03\0\x06\0\0\0\x01\xFF\xF2"

#: Lists that every job takes: of four entries, but for the six numbers of a shape or line.
LONG = 12


def fit(job):
    """Arrays that a job takes, by name."""
    declared = JOBS[job]
    return {name: np.zeros(LONG, dtype) for name, dtype in (*declared.reads.items(), *declared.writes.items())}


def call(job, lists, **more):
    declared = JOBS[job]
    first = [SHEET] if declared.of_sheets else []
    first += [(0, 0, 0, 1, 0, 0)] if job == "cross" else [0] * len(declared.numbers)
    return getattr(lent, job)(*first, *lists.values(), **more)


def reversed_entries(array):
    return array[::-1]


def every_second(array):
    return np.zeros(2 * LONG, array.dtype)[::2]


def a_column(array):
    return np.zeros((LONG, 2), array.dtype)[:, 0]


def repeated(array):
    return np.broadcast_to(np.zeros(1, array.dtype), LONG)


def misaligned(array):
    if array.itemsize == 1:
        return None
    return np.zeros(LONG * array.itemsize + 1, np.uint8)[1:].view(array.dtype)


def other_byte_order(array):
    return None if array.itemsize == 1 else array.astype(array.dtype.newbyteorder(">"))


def a_table(array):
    return array.reshape(2, -1)


def one_number(array):
    return array.reshape(-1)[:1].reshape(())


def another_type(array):
    return array.astype(np.int16 if array.dtype != np.int16 else np.int32)


def a_list(array):
    return array.tolist()


def bytes_alone(array):
    return array.tobytes()


def nothing(array):
    return None.__class__


def masked(array):
    return np.ma.masked_array(array)


def structured(array):
    return np.zeros(LONG, [("a", array.dtype), ("b", array.dtype)])["a"]


def of_objects(array):
    return array.astype(object)


def of_text(array):
    return array.astype(str)


def of_truths(array):
    return array.astype(bool)


def other_numbers(array):
    return np.full(LONG, np.nan, np.float32)


def of_another_class(array):
    """What says that it is an array, and is none."""

    class Pretends:
        __class__ = np.ndarray

        def __array__(self, *_):
            return array

    return Pretends()


WRONG = [
    (reversed_entries, ValueError, "one after the other"),
    (every_second, ValueError, "one after the other"),
    (a_column, ValueError, "one after the other"),
    (repeated, ValueError, "one after the other|read-only"),
    (structured, ValueError, "one after the other"),
    (misaligned, ValueError, "aligned"),
    (other_byte_order, ValueError, "bytes in the other order"),
    (a_table, ValueError, "1 dimension is needed, and this one has 2"),
    (one_number, ValueError, "1 dimension is needed, and this one has 0"),
    (another_type, TypeError, "is needed, and this one is of int"),
    (a_list, TypeError, "is needed, and this is a list"),
    (bytes_alone, TypeError, "is needed, and this is a bytes"),
    (nothing, TypeError, "is needed, and this is a type"),
    (masked, TypeError, "is needed, and this is a MaskedArray"),
    (of_objects, TypeError, "is needed, and this one is of object"),
    (of_text, TypeError, "is needed, and this one is of <U"),
    (of_truths, TypeError, "is needed, and this one is of bool"),
    (other_numbers, TypeError, "is needed, and this one is of float32"),
    (of_another_class, TypeError, "is needed, and this is a Pretends"),
]


@pytest.fixture
def uncalled(monkeypatch):
    """The library, of which no job may be called."""

    def called(*_):
        raise AssertionError("the library was called")

    for job in JOBS:
        monkeypatch.setitem(library(), job, called)


LISTS = [(job, name) for job, declared in JOBS.items() for name in (*declared.reads, *declared.writes)]


@pytest.mark.parametrize("job, name", LISTS)
def test_wrong_arrays(uncalled, job, name):
    for wrong, error, words in WRONG:
        lists = fit(job)
        lists[name] = wrong(lists[name])
        if lists[name] is None:
            continue
        with pytest.raises(error, match=f"^{name}: .*({words})"):
            call(job, lists)


@pytest.mark.parametrize("job, name", [(job, name) for job, declared in JOBS.items() for name in declared.writes])
def test_answers_are_not_written_to_read_only_arrays(uncalled, job, name):
    lists = fit(job)
    lists[name].flags.writeable = False
    with pytest.raises(ValueError, match=f"^{name}: the array is written to, and this one is read-only"):
        call(job, lists)


@pytest.mark.parametrize("job, name", [(job, name) for job, declared in JOBS.items() for name in declared.writes])
def test_answers_overlap_no_other_list(uncalled, job, name):
    """Not as a whole, nor in one byte, before or after."""
    for other in (*JOBS[job].reads, *JOBS[job].writes):
        if other == name:
            continue
        size = (fit(job)[name].nbytes + fit(job)[other].nbytes) * 2
        # the second begins at the first's begin, at the last multiple of 8 within it, and the other way round
        for first, second in ((name, other), (other, name)):
            lists = fit(job)
            within = (lists[first].nbytes - 1) // 8 * 8
            for at in (0, within):
                memory = np.zeros(size, np.uint64).view(np.uint8)
                lists[first] = memory[: lists[first].nbytes].view(lists[first].dtype)
                lists[second] = memory[at : at + lists[second].nbytes].view(lists[second].dtype)
                with pytest.raises(ValueError, match="overlap, and one of them is written to") as refused:
                    call(job, lists)
                assert {name, other} == set(str(refused.value).split(":")[0].split(" and "))


def test_lists_that_touch_or_are_only_read_may_share_memory():
    memory = np.zeros(24, np.uint16)
    toggles, roots = memory[:2], memory[2:].view(np.uint8)[:2]
    assert lent.run(SHEET, toggles, roots, np.zeros(2, np.uint32), np.zeros(9, np.uint8)) == 3
    lines = np.zeros(2, np.uint32)
    both = lines.view(np.int32)
    assert lent.judge(SHEET, np.zeros(2, np.uint8), lines, both, np.zeros(2, np.uint16), lines, both, both) == kressedach.Opinion(False, 0)


def test_a_slice_of_a_larger_array_is_taken_as_it_is():
    toggles = np.array([9, 0, 1, 9], np.uint16)[1:3]
    roots, counts, labels = (np.full(n, 7, dtype) for n, dtype in ((4, np.uint8), (4, np.uint32), (5, np.uint8)))
    assert lent.run(SHEET, toggles, roots[1:3], counts[1:3], labels[1:4]) == 3
    assert roots.tolist() == [7, 1, 0, 7] and counts.tolist() == [7, 1, 1, 7] and labels.tolist() == [7, 1, 1, 0, 7]


def test_read_only_arrays_are_read():
    toggles = np.array([0, 1], np.uint16)
    toggles.flags.writeable = False
    assert kressedach.run(kressedach.Sheet(SHEET), toggles).roots.tolist() == [True, False]


def test_empty_arrays():
    empty = {job: {name: array[:0] for name, array in fit(job).items()} for job in JOBS}
    assert call("classify", empty["classify"]) == 0
    assert call("judge", empty["judge"]) == kressedach.Opinion(True, 0)
    assert call("cross_many", empty["cross_many"]) == (0, 0)
    assert call("cross_balls", empty["cross_balls"]) == (0, 0)
    for job in ("names", "move", "build", "run", "run_edited"):
        with pytest.raises(kressedach.Refused, match="^refused 9 for want of "):
            call(job, empty[job])


def test_a_number_of_a_shape():
    assert lent.name(SHEET, 1) == (2, 16, 20)
    for wrong in (-1, 2**64):
        with pytest.raises(ValueError, match="^shape: a number from 0 to 18446744073709551615 is needed"):
            lent.name(SHEET, wrong)
    for wrong in (1.0, float("nan"), None, "1"):
        with pytest.raises(TypeError, match="^shape: a whole number is needed, and this is a "):
            lent.name(SHEET, wrong)


def test_a_line_has_six_numbers():
    with pytest.raises(ValueError, match="^probe: 6 numbers are needed, and this has 5"):
        lent.cross([0.0] * 5, *fit("cross").values())
    for wrong in (None, 1.0, "100100", [None] * 6, ["1"] * 6, np.zeros((6, 2)), [1j] * 6):
        with pytest.raises(TypeError, match="^probe: (a number is|6 numbers are) needed, and this is a "):
            lent.cross(wrong, *fit("cross").values())
    with pytest.raises(ValueError, match="^probe: the number is more than a double holds"):
        lent.cross([10**400] * 6, *fit("cross").values())
    for not_finite in (float("nan"), float("inf")):
        with pytest.raises(kressedach.Refused, match="^refused 16 for the line: "):
            lent.cross([0, 0, 0, 1, 0, not_finite], *fit("cross").values())


def test_sheets_are_bytes():
    for wrong in ("text", None, 3, np.zeros(3, np.uint8), lent.Beside(SHEET, "text"), bytearray(SHEET)):
        with pytest.raises(TypeError, match="^sheet: a Sheet, or bytes, is needed"):
            lent.read(wrong)
    with pytest.raises(TypeError, match="^fittings: a fittings sheet, in bytes, is needed"):
        lent.read(lent.Beside("text", SHEET))


def test_bytes_that_lie_about_their_length():
    """A class made of bytes may say any length: those that are there count."""

    class Longer(bytes):
        def __len__(self):
            return 1 << 40

    class Shorter(bytes):
        def __len__(self):
            return 0

    fittings = kressedach.fittings_of("Lug")
    for lying in (Longer, Shorter):
        assert lent.read(lying(SHEET)) == lent.read(SHEET)
        assert lent.read(lent.Beside(lying(fittings), lying(SHEET))) == lent.read(lent.Beside(fittings, SHEET))
        assert kressedach.Sheet(lying(SHEET)) == kressedach.Sheet(SHEET)


def test_lengths_of_more_than_32_bits():
    """Memory that nobody has touched: a length that lost its high bits would be too short."""
    moved = np.empty(2**32 + 5, np.uint8)
    assert lent.move(SHEET, moved) == len(SHEET)
    one = kressedach.Sheet.of(kressedach.Formula("A"))
    crossings = [np.zeros(0, dtype) for dtype in ("uint32", "int32", "uint16")]
    walls = [np.zeros(0, dtype) for dtype in JOBS["classify"].writes.values()]
    with pytest.raises(kressedach.Refused) as refused:
        lent.classify(one, np.zeros(2**32 + 1, np.uint8), *crossings, *walls)
    assert (refused.value.number, refused.value.place) == (14, 0)


def test_arrays_with_no_entries_have_no_address(monkeypatch):
    """numpy calls them aligned, wherever they are."""
    given = []
    monkeypatch.setitem(library(), "judge", lambda report, *arguments: given.extend(arguments))
    odd = np.zeros(9, np.uint8)[1:1]
    call("judge", {name: odd.view(dtype) for name, dtype in JOBS["judge"].reads.items()})
    assert given[5:] == [0, 0] * len(JOBS["judge"].reads)


@pytest.mark.parametrize("job", JOBS)
def test_no_array_is_resized_during_a_call(monkeypatch, job):
    """Each is held from the look at it to the end of the call."""
    lists, seen = fit(job), []

    def called(*_):
        for array in lists.values():
            with pytest.raises(ValueError, match="resize"):
                array.resize(10 * LONG)
            seen.append(array)

    monkeypatch.setitem(library(), job, called)
    call(job, lists)
    assert len(seen) == len(lists)


def test_arrays_of_other_classes_are_taken_where_they_are_arrays(tmp_path, block):
    """A file that is mapped, and a class of somebody's own that says another length."""

    class Lying(np.ndarray):
        size = 1 << 40

        def __len__(self):
            return 1 << 40

    mapped = np.memmap(tmp_path / "toggles", np.uint16, "w+", shape=2)
    mapped[:] = [0, 1]
    read_only = np.memmap(tmp_path / "toggles", np.uint16, "r", shape=2)
    for toggles in (mapped, read_only, np.array([0, 1], np.uint16).view(Lying)):
        lists = [np.zeros(n, dtype).view(Lying) for n, dtype in ((2, np.uint8), (2, np.uint32), (3, np.uint8))]
        assert lent.run(block, toggles, *lists) == 3 and np.asarray(lists[0]).tolist() == [1, 0]
    with pytest.raises(ValueError, match="^moved: the array is written to, and this one is read-only"):
        lent.move(block, np.memmap(tmp_path / "toggles", np.uint8, "r"))


def test_copies_mend_the_layout_and_keep_every_value(block):
    toggles = np.array([0, 9, 1, 9], np.uint16)[::2]
    due = kressedach.run(block, np.array([0, 1], np.uint16))
    for given in (toggles, toggles.astype(">u2"), [0, 1], np.array([0, 1]), np.array([0, 1], np.uint8)):
        ran = kressedach.run(block, given, copy=True)
        assert [list.tolist() for list in ran] == [list.tolist() for list in due]
    with pytest.raises(ValueError, match="^toggles: entry 1 is 65537, which is no uint16"):
        kressedach.run(block, [0, 65537], copy=True)
    with pytest.raises(ValueError, match="^toggles: entry 0 is -1, which is no uint16"):
        kressedach.run(block, [-1], copy=True)
    for wrong, dtype in (([0.0], "float64"), ([float("nan")], "float64"), ([10**30], "object"), (["A", 1], "<U"), (None, "object")):
        with pytest.raises(TypeError, match=f"^toggles: an array of uint16 is needed, and this one is of {dtype}"):
            kressedach.run(block, wrong, copy=True)
    with pytest.raises(ValueError, match="^toggles: setting an array element with a sequence"):
        kressedach.run(block, [[0], [0, 1]], copy=True)
    with pytest.raises(TypeError, match="^toggles: a numpy array of uint16 is needed, and this is a MaskedArray"):
        kressedach.run(block, np.ma.masked_array([0, 1]), copy=True)
    balls = np.array([[0, 0, 5, 2**64 - 1]], np.uint64)
    with pytest.raises(ValueError, match="^balls: entry 0, 3 is 18446744073709551615, which is no int32"):
        kressedach.cross_balls(balls, copy=True)
    drawing = Drawing.of_lists(np.zeros(1, np.uint8), np.zeros((1, 6)))
    assert kressedach.cross(drawing, [[-5, 0, 0, 1, 0, 0]], copy=True).positions.tolist() == [5000]
    for wrong in (2**53 + 1, 2**63 - 1):
        with pytest.raises(ValueError, match=f"^lines: entry 0, 0 is {wrong}, which is no float64"):
            kressedach.cross(drawing, [[wrong, 0, 0, 1, 0, 0]], copy=True)


def test_copies_do_not_see_what_comes_later(block, monkeypatch):
    """An array is looked at once: what changes after that is not the call's."""
    toggles, real = np.array([0, 1], np.uint16), library()["run"]

    def changed_meanwhile(*arguments):
        toggles[:] = 9
        real(*arguments)

    monkeypatch.setitem(library(), "run", changed_meanwhile)
    assert kressedach.run(block, toggles, copy=True).roots.tolist() == [True, False]


def test_what_is_no_sheet_no_drawing_and_no_crossed_lines(block):
    crossed = Crossed.in_air(block, [0, 0], [0, 5], [0, 0])
    drawing, lines = Drawing.of_lists(np.zeros(1, np.uint8), np.zeros((1, 6))), np.zeros((1, 6))
    for wrong in (None, block.data, 7, "Block"):
        calls = {
            "sheet": [
                lambda: kressedach.walls(wrong, crossed),
                lambda: kressedach.judge(wrong, crossed, {}),
                lambda: kressedach.run(wrong, ["Block"]),
                lambda: Drawing(wrong, {}),
                lambda: Crossed.in_air(wrong, *crossed[1:]),
            ],
            "crossed": [lambda: kressedach.walls(block, wrong), lambda: kressedach.judge(block, wrong, {})],
            "drawing": [lambda: kressedach.cross(wrong, lines), lambda: kressedach.cross_line(wrong, lines[0])],
            "line": [lambda: kressedach.cross_line(drawing, wrong)],
            "lines": [lambda: kressedach.cross(drawing, wrong)],
            "toggles": [lambda: kressedach.run(block, wrong)],
        }
        for name, all_of in calls.items():
            for one in all_of:
                with pytest.raises(TypeError, match=f"^{name}: .* needed, and this is a"):
                    one()
    for wrong in (None, [1], np.zeros(3), np.zeros(3, [("line", "u4")]), {"line": np.zeros(0, "u4")}, "line"):
        with pytest.raises(TypeError, match="^theirs: a structured array, or an array for each of line, start and end is needed"):
            kressedach.judge(block, Crossed(*(np.zeros(n, t) for n, t in (((0, 2), "u1"), (0, "u4"), (0, "i4"), (0, "u2")))), wrong)


def test_tables_have_the_width_that_is_due(block):
    lines, positions, shapes = np.zeros(2, np.uint32), np.array([0, 5], np.int32), np.zeros(2, np.uint16)
    rows = np.zeros((1, 2), np.uint8)
    assert len(kressedach.walls(block, Crossed(rows, lines, positions, shapes))) == 1
    with pytest.raises(ValueError, match="^rows: a row of the array has 3 entries, and 2 are needed"):
        kressedach.walls(block, Crossed(np.zeros((1, 3), np.uint8), lines, positions, shapes))
    with pytest.raises(ValueError, match="^rows: the array's entries do not stand"):
        kressedach.walls(block, Crossed(np.zeros((2, 2), np.uint8).T, lines, positions, shapes))
    with pytest.raises(ValueError, match="^rows: the array's entries do not stand"):
        kressedach.walls(block, Crossed(np.asfortranarray(np.zeros((3, 2), np.uint8)), lines, positions, shapes))
    with pytest.raises(ValueError, match="^shapes: 1 entries, and lines has 2"):
        kressedach.walls(block, Crossed(rows, lines, positions, shapes[:1]))
    drawing = Drawing.of_lists(np.full(1, 255, np.uint8), np.zeros((2, 6)))
    with pytest.raises(ValueError, match="^numbers: 2 rows, and kinds has 1 entries"):
        kressedach.cross(drawing, np.zeros((1, 6)))
    with pytest.raises(ValueError, match="^lines: a row of the array has 5 entries, and 6 are needed"):
        kressedach.cross(Drawing.of_lists(np.zeros(0, np.uint8), np.zeros((0, 6))), np.zeros((1, 5)))


def test_other_threads_run_during_a_call(block):
    """A call of some tenths of a second, and a thread that counts meanwhile."""
    import threading
    import time

    toggles = np.zeros(20_000_000, np.uint16)
    lists = np.empty(len(toggles), np.uint8), np.empty(len(toggles), np.uint32), np.empty(9, np.uint8)
    done, counted = threading.Event(), []

    def count():
        while not done.is_set():
            counted.append(time.perf_counter())
            time.sleep(0.001)

    other = threading.Thread(target=count)
    other.start()
    began = time.perf_counter()
    lent.run(block, toggles, *lists)
    ended = time.perf_counter()
    done.set()
    other.join()
    assert sum(began < moment < ended for moment in counted) >= 3
