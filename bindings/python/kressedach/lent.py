"""The jobs as ``bindings/c/kressedach.h`` has them: every list is a flat array that the caller lends, also those that are written.

No array is copied, but where ``copy=True`` asks for it: then those that are read are copied first, and what another thread does to them
meanwhile does not matter. A refusal writes nothing, and entries past the last one given stay as they were. During a call other threads
run; that none of them changes an array of the call is the caller's to keep.

The names of the arguments, their order and what each list needs are the header's. Sheets are the bytes of a customer's sheet, a
:class:`Beside`, or a :class:`kressedach.Sheet`.
"""

from __future__ import annotations

import ctypes
from dataclasses import dataclass
from functools import lru_cache
from typing import Any, NamedTuple, Optional, Sequence, Tuple, Union

from . import _arrays, _caller, _given
from ._arrays import Array
from ._library import JOBS, library
from .refused import TOO_MANY, Refused


class Beside(NamedTuple):
    """A fittings sheet, and the customer's beside it."""

    fittings: bytes
    sheet: bytes


#: The sheets of a call; anything with an attribute ``sheets`` stands for that.
Sheets = Union[bytes, Beside, Any]


class Read(NamedTuple):
    """What the sheets hold: names of both, leaves, and where the formula's codes stand in the customer's sheet."""

    names: int
    leaves: int
    first: int
    past: int


class NamePlace(NamedTuple):
    """Where a name stands: in which sheet (1 the fittings sheet, 2 the customer's), from where and up to where."""

    sheet: int
    first: int
    past: int


class Size(NamedTuple):
    """How large a contracted tree is."""

    leaves: int
    nodes: int
    rounds: int
    height: int


@dataclass(frozen=True)
class Opinion:
    """Whether another's wall list is right; else the index of the first entry after which no right list could begin that way.

    Where it is right or only lacks entries, the index is the list's length.
    """

    right: bool
    index: int


class Counts(NamedTuple):
    """How many entries were given: in the start row, and in each list of crossings."""

    shapes: int
    crossings: int


class ManyCounts(NamedTuple):
    """How many start rows were given, and how many entries in each list of crossings."""

    lines: int
    crossings: int


def read(sheet: Sheets) -> Read:
    """Reads the sheets. Refusals: 1 to 7 and 17.

    >>> read(b"\\x01\\0\\x02\\0\\x01\\x02\\0\\x01A\\x03\\0\\x02\\0\\0")
    Read(names=1, leaves=1, first=12, past=14)
    """
    r = _answered("read", sheet)
    return Read(r.names, r.leaves, r.first, r.past)


def name(sheet: Sheets, shape: int) -> NamePlace:
    """Asks where the name of a shape stands. Refusals: 1 to 7 and 17, then 10 at place 0.

    >>> name(b"\\x01\\0\\x02\\0\\x01\\x02\\0\\x01A\\x03\\0\\x02\\0\\0", 0)
    NamePlace(sheet=2, first=8, past=9)
    """
    r = _answered("name", sheet, numbers=(_given.index("shape", shape, _MOST + 1),))
    return NamePlace(r.sheet, r.first, r.past)


def names(sheet: Sheets, sheets: Array, firsts: Array, pasts: Array) -> int:
    """Asks where every name stands; gives their number. Refusals: 1 to 7 and 17, then 9. Each list needs an entry a name.

    >>> import numpy
    >>> from kressedach import Formula, Sheet
    >>> sheet = Sheet.of(Formula("Block") - Formula("Bore"))
    >>> lists = [numpy.zeros(2, dtype) for dtype in ("uint8", "uintp", "uintp")]
    >>> names(sheet, *lists), [list.tolist() for list in lists]
    (2, [[2, 2], [8, 16], [13, 20]])
    """
    return int(_answered("names", sheet, writes=(sheets, firsts, pasts)).names)


def move(sheet: Sheets, moved: Array) -> int:
    """Gives the customer's sheet in the edition that it has not; gives its length. Refusals: 1 to 7 and 17, 19, then 9.

    >>> import numpy
    >>> from kressedach import Formula, Sheet
    >>> sheet = Sheet.of(Formula("Block") - Formula("Bore"))
    >>> moved = numpy.zeros(len(sheet.data), "uint8")
    >>> move(sheet, moved), moved.tobytes().hex(" ", -4)
    (29, '01000200 02020005 426c6f63 6b020004 426f7265 040006ff f2000000 01')
    """
    return int(_answered("move", sheet, writes=(moved,)).length)


def build(sheet: Sheets, kinds: Array, firsts: Array, seconds: Array) -> Size:
    """Builds the contracted tree. Refusals: 1 to 7 and 17, 8, then 9. Each list needs an entry a node, of which there are 3069 at most.

    >>> import numpy
    >>> from kressedach import Formula, Sheet
    >>> sheet = Sheet.of(Formula("Block") - Formula("Bore"))
    >>> lists = [numpy.zeros(3, "uint16") for _ in range(3)]
    >>> build(sheet, *lists), [list.tolist() for list in lists]
    (Size(leaves=2, nodes=3, rounds=1, height=1), [[0, 0, 3], [0, 1, 0], [65535, 65535, 1]])
    """
    r = _answered("build", sheet, writes=(kinds, firsts, seconds))
    return Size(r.leaves, r.nodes, r.rounds, r.height)


def run(sheet: Sheets, toggles: Array, roots: Array, counts: Array, labels: Array, *, copy: bool = False) -> int:
    """Runs toggles; gives the number of labels. Refusals: 1 to 7 and 17, 8, 10, then 9.

    Roots and counts need an entry a toggle, labels one a node.

    >>> import numpy
    >>> from kressedach import Formula, Sheet
    >>> sheet = Sheet.of(Formula("Block") - Formula("Bore"))
    >>> lists = numpy.zeros(2, "uint8"), numpy.zeros(2, "uint32"), numpy.zeros(3, "uint8")
    >>> run(sheet, numpy.array([0, 1], "uint16"), *lists), [list.tolist() for list in lists]
    (3, [[1, 0], [1, 1], [1, 1, 0]])
    """
    return int(_answered("run", sheet, reads=(toggles,), writes=(roots, counts, labels), copy=copy).nodes)


def run_both(
    sheet: Sheets,
    order: Array,
    first: Array,
    second: Array,
    first_roots: Array,
    first_counts: Array,
    first_labels: Array,
    second_roots: Array,
    second_counts: Array,
    second_labels: Array,
    *,
    copy: bool = False,
) -> Tuple[Union[int, Refused], Union[int, Refused]]:
    """Runs the toggles of two foundries on one tree; gives each the number of its labels.

    What is refused to both is raised: 1 to 7 and 17, 8, 13. What is refused to one foundry alone, 10 and 9, stands in its place, and the
    other's answer is whole.

    >>> import numpy
    >>> from kressedach import Formula, Sheet
    >>> sheet = Sheet.of(Formula("Block") - Formula("Bore"))
    >>> to_first, to_second = ([numpy.zeros(*of) for of in ((1, "uint8"), (1, "uint32"), (3, "uint8"))] for _ in range(2))
    >>> order, first, second = numpy.array([1, 0], "uint8"), numpy.array([0], "uint16"), numpy.array([7], "uint16")
    >>> run_both(sheet, order, first, second, *to_first, *to_second)
    (3, Refused(10, 0, 0, None, None))
    >>> to_first[0].tolist(), to_second[0].tolist()
    ([1], [0])
    """
    writes = (first_roots, first_counts, first_labels, second_roots, second_counts, second_labels)
    r = _called("run_both", sheet, (), (order, first, second), writes, copy)
    told = tuple(_refusal(one) or int(one.nodes) for one in (r.first, r.second))
    if isinstance(told[0], Refused) and told[0].number not in (9, 10):
        raise told[0]
    return told[0], told[1]


def run_edited(
    sheet: Sheets,
    toggles: Array,
    moments: Array,
    positions: Array,
    codes: Array,
    roots: Array,
    counts: Array,
    labels: Array,
    edit_counts: Array,
    *,
    copy: bool = False,
) -> int:
    """Runs toggles while operations of the formula become others; gives the number of labels.

    Refusals: 1 to 7 and 17, 8, 13, 10, 20, then 9. Roots and counts need an entry a toggle, labels one a node, edit_counts one an edit.

    >>> import numpy
    >>> from kressedach import Formula, Sheet
    >>> sheet = Sheet.of(Formula("Block") - Formula("Bore"))
    >>> reads = [numpy.array(list, dtype) for list, dtype in
    ...     (([1, 0], "uint16"), ([1], "uint64"), ([2], "uint16"), ([0xFFF0], "uint16"))]
    >>> roots, counts, labels, edit_counts = (numpy.zeros(3, dtype) for dtype in ("uint8", "uint32", "uint8", "uint32"))
    >>> run_edited(sheet, *reads, roots, counts, labels, edit_counts), roots[:2].tolist(), edit_counts[:1].tolist()
    (3, [0, 1], [1])
    """
    reads, writes = (toggles, moments, positions, codes), (roots, counts, labels, edit_counts)
    return int(_answered("run_edited", sheet, reads=reads, writes=writes, copy=copy).nodes)


def classify(
    sheet: Sheets,
    rows: Array,
    lines: Array,
    positions: Array,
    shapes: Array,
    wall_lines: Array,
    starts: Array,
    ends: Array,
    start_shapes: Array,
    end_shapes: Array,
    *,
    copy: bool = False,
) -> int:
    """Finds the walls of lines; gives their number. Refusals: 1 to 7 and 17, 8, 13, 14, then 10, 15 and 11 crossing by crossing, then 9.

    Each list that is written needs half as many entries as there are crossings, rounded down, and one more for each row.

    >>> import numpy
    >>> from kressedach import Formula, Sheet
    >>> sheet = Sheet.of(Formula("Block") - Formula("Bore"))
    >>> crossings = [numpy.array(list, dtype) for list, dtype in
    ...     (([0, 0, 0, 0], "uint32"), ([0, 40, 60, 100], "int32"), ([0, 1, 1, 0], "uint16"))]
    >>> walls = [numpy.zeros(3, dtype) for dtype in ("uint32", "int32", "int32", "uint16", "uint16")]
    >>> classify(sheet, numpy.zeros(2, "uint8"), *crossings, *walls), [list[:2].tolist() for list in walls]
    (2, [[0, 0], [0, 60], [40, 100], [0, 1], [1, 0]])
    """
    reads, writes = (rows, lines, positions, shapes), (wall_lines, starts, ends, start_shapes, end_shapes)
    return int(_answered("classify", sheet, reads=reads, writes=writes, copy=copy).walls)


def judge(
    sheet: Sheets,
    rows: Array,
    lines: Array,
    positions: Array,
    shapes: Array,
    their_lines: Array,
    their_starts: Array,
    their_ends: Array,
    *,
    copy: bool = False,
) -> Opinion:
    """Judges another ray caster's wall list. Refusals: 1 to 7 and 17, 8, 13, 14, then 10, 15 and 11 crossing by crossing.

    >>> import numpy
    >>> from kressedach import Formula, Sheet
    >>> sheet = Sheet.of(Formula("Block") - Formula("Bore"))
    >>> crossings = [numpy.array(list, dtype) for list, dtype in
    ...     (([0, 0, 0, 0], "uint32"), ([0, 40, 60, 100], "int32"), ([0, 1, 1, 0], "uint16"))]
    >>> theirs = [numpy.array(list, dtype) for list, dtype in (([0, 0], "uint32"), ([0, 60], "int32"), ([40, 101], "int32"))]
    >>> judge(sheet, numpy.zeros(2, "uint8"), *crossings, *theirs)
    Opinion(right=False, index=1)
    """
    reads = (rows, lines, positions, shapes, their_lines, their_starts, their_ends)
    r = _answered("judge", sheet, reads=reads, copy=copy)
    return Opinion(r.right, r.index)


def cross(
    probe: Sequence[float], kinds: Array, numbers: Array, starts: Array, positions: Array, shapes: Array, *, copy: bool = False
) -> Counts:
    """Crosses half-spaces and boxes with one line: its origin and its direction, six numbers. Refusals: 16, then 9.

    >>> import numpy
    >>> kinds, numbers = numpy.array([255], "uint8"), numpy.array([0.0, 0, 0, 100, 40, 40])
    >>> starts, positions, shapes = (numpy.zeros(2, dtype) for dtype in ("uint8", "int32", "uint16"))
    >>> cross((-10, 20, 20, 1, 0, 0), kinds, numbers, starts, positions, shapes), positions.tolist()
    (Counts(shapes=1, crossings=2), [10000, 110000])
    """
    six = _given.numbers("probe", probe, 6)
    _caller.keeps_doubles()
    r = _answered("cross", None, six, (kinds, numbers), (starts, positions, shapes), copy)
    return Counts(r.shapes, r.crossings)


def cross_many(
    kinds: Array, numbers: Array, lines: Array, rows: Array, line_numbers: Array, positions: Array, shapes: Array, *, copy: bool = False
) -> ManyCounts:
    """Crosses half-spaces and boxes with many lines. Refusals: 16, 14, 16 line by line, then 9; of a line it is told which.

    >>> import numpy
    >>> kinds, numbers = numpy.array([255], "uint8"), numpy.array([0.0, 0, 0, 100, 40, 40])
    >>> lines = numpy.array([-10.0, 20, 20, 1, 0, 0, -10, 50, 20, 1, 0, 0])
    >>> lists = [numpy.zeros(2, dtype) for dtype in ("uint8", "uint32", "int32", "uint16")]
    >>> cross_many(kinds, numbers, lines, *lists), lists[2].tolist()
    (ManyCounts(lines=2, crossings=2), [10000, 110000])
    """
    _caller.keeps_doubles()
    r = _answered("cross_many", None, (), (kinds, numbers, lines), (rows, line_numbers, positions, shapes), copy)
    return ManyCounts(r.lines, r.crossings)


def cross_balls(numbers: Array, starts: Array, positions: Array, shapes: Array, *, copy: bool = False) -> Counts:
    """Crosses balls with one line that is parallel to an axis, in whole micrometres. Refusals: 18, then 9.

    >>> import numpy
    >>> starts, positions, shapes = (numpy.zeros(2, dtype) for dtype in ("uint8", "int32", "uint16"))
    >>> cross_balls(numpy.array([300, -400, 1300, 50000], "int32"), starts, positions, shapes), positions.tolist()
    (Counts(shapes=1, crossings=2), [48800, 51200])
    """
    r = _answered("cross_balls", None, (), (numbers,), (starts, positions, shapes), copy)
    return Counts(r.shapes, r.crossings)


_MOST = ctypes.c_size_t(-1).value


def _answered(
    job: str,
    sheet: Sheets,
    numbers: Tuple[Any, ...] = (),
    reads: Tuple[Any, ...] = (),
    writes: Tuple[Any, ...] = (),
    copy: bool = False,
) -> Any:
    """The report of a call that was not refused."""
    report = _called(job, sheet, numbers, reads, writes, copy)
    refused = _refusal(report)
    if refused:
        raise refused
    return report


def _called(job: str, sheet: Sheets, numbers: Tuple[Any, ...], reads: Tuple[Any, ...], writes: Tuple[Any, ...], copy: bool) -> Any:
    """Calls a job with lists that are fit to be lent, and gives its report."""
    declared, function = JOBS[job], library()[job]
    _caller.has_stack()
    sheets, report = _of_sheets(sheet) if declared.of_sheets else (), declared.report()
    # the arrays come last: between the look at them and the call nothing else runs
    held, lists = _arrays.lend(_kinds(job), (*reads, *writes), copy)
    function(report, *sheets, *numbers, *lists)
    del held
    return report


@lru_cache(maxsize=None)
def _kinds(job: str) -> Tuple[_arrays.Kind, ...]:
    """The lists of a job, those that are read before those that are written."""
    reads, writes = JOBS[job].reads, JOBS[job].writes
    return tuple(_arrays.Kind(name, _arrays.of(dtype), name in writes) for name, dtype in (*reads.items(), *writes.items()))


def _of_sheets(sheet: Sheets) -> Tuple[Any, ...]:
    given = getattr(sheet, "sheets", sheet)
    fittings, customers = given if isinstance(given, Beside) else (None, given)
    _given.instance("sheet", customers, bytes, "a Sheet, or bytes,")
    beside = b"" if fittings is None else fittings
    _given.instance("fittings", beside, bytes, "a fittings sheet, in bytes,")
    # how many bytes are there, whatever a class made of bytes says of its length
    return fittings is not None, beside, bytes.__len__(beside), customers, bytes.__len__(customers)


def _refusal(report: Any) -> Optional[Refused]:
    if report.number == 0:
        return None
    of_line = hasattr(report, "line") and report.number == 16 and report.place != TOO_MANY
    return Refused(report.number, getattr(report, "sheet", 0), report.place, report.line if of_line else None)
