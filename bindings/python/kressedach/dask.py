"""Lines in partitions, for many processors and many machines: walls, judgements and crossings of as many lines as there are.

Dask's scheduler sends the partitions out; every partition is one call of a job, and the answers are joined by a theorem ("Lines cut into
parts" in ``docs/PROMISES.md``): lists that are cut between lines are accepted exactly if every part is, and give, part after part, the
walls of the whole. A worker that is lost costs its partitions' time and nothing else. A sheet is read before anything is sent.

There are two forms, and an answer has that of the question:

- *Delayed arrays.* Lines are a dask array of six columns. Crossed lines are a :class:`kressedach.Crossed` of four dask arrays, whose k-th
  blocks belong together; lines are numbered in the whole. Walls are a dask array of :data:`kressedach.WALL`.
- *Bags.* Each element is a partition, as the functions of :mod:`kressedach` take and give it: an array of lines, or a ``Crossed`` whose
  lines are numbered from 0. Walls are numbered in the whole.

A refused partition raises :class:`kressedach.Refused` with its number, and with place and line in the whole. Where several are refused,
that of one of them is raised; :func:`refused` and :func:`judge` give the one that a single call over everything gives.

>>> import dask.array, kressedach, kressedach.dask, numpy
>>> block, bore = kressedach.shapes("Block", "Bore")
>>> sheet = kressedach.Sheet.of(block - bore)
>>> boxes = {"Block": kressedach.Box((0, 0, 0), (100, 40, 40)), "Bore": kressedach.Box((40, 10, -1), (60, 30, 41))}
>>> drawing = kressedach.Drawing(sheet, boxes)
>>> lines = numpy.array([[-10.0, y, 20, 1, 0, 0] for y in range(1, 40)])
>>> walls = kressedach.dask.drawn_walls(sheet, drawing, dask.array.from_array(lines, chunks=(10, 6)))
>>> walls["thickness"].min().compute(), len(walls.compute())
(40000, 58)
"""

from __future__ import annotations

from itertools import accumulate
from operator import add
from typing import Any, Callable, Dict, Iterable, List, NamedTuple, Optional, Sequence, Tuple, Union

import numpy as np
from dask import array as da
from dask import bag as db
from dask import delayed

from . import _arrays, _given, drawings, lent
from . import lines as lines_
from .drawings import Drawing
from .lines import OPEN_END, OPEN_START, WALL, Crossed, Walls
from .refused import Refused
from .sheets import Sheet

#: A :class:`kressedach.Crossed` of four dask arrays, or a bag of ``Crossed``.
Lists = Any

#: Line numbers have 32 bits.
MOST_LINES = 2**32

DTYPES = {"rows": np.uint8, "lines": np.uint32, "positions": np.int32, "shapes": np.uint16}


class _Sizes(NamedTuple):
    """How much a partition has, or all those before one."""

    partitions: int = 0
    lines: int = 0
    crossings: int = 0

    def and_(self, more: _Sizes) -> _Sizes:
        return _Sizes(*(a + b for a, b in zip(self, more)))


class _Span(NamedTuple):
    """The lines of a partition: the number of the first, how many lines and crossings are said to be there, where that is known, and what
    all line numbers are below."""

    first: int = 0
    lines: Optional[int] = None
    crossings: Optional[int] = None
    past: int = MOST_LINES

    def holds(self, name: str, said: Optional[int], array: Any) -> None:
        """A block is as long as its array says: the numbers of later lines rest on it."""
        if said is not None and len(array) != said:
            raise ValueError(f"{name}: the block from line {self.first} on has {len(array)} entries, and its array says {said}")


class _Part(NamedTuple):
    """What a partition gave: an answer or its own refusal, and how much it had."""

    answer: Any
    sizes: _Sizes


def cut(crossed: Crossed, lines: int) -> Lists:
    """Lists that are here, cut into partitions of so many lines.

    They may be in any order and wrong in any way: a refusal of the parts is that of the whole.

    >>> import kressedach.dask, numpy
    >>> rows, numbers = numpy.zeros((5, 1), "uint8"), numpy.array([0, 0, 3, 3, 4, 4], "uint32")
    >>> parts = cut(kressedach.Crossed(rows, numbers, numpy.zeros(6, "int32"), numpy.zeros(6, "uint16")), 2)
    >>> parts.rows.chunks, parts.lines.chunks
    (((2, 2, 1), (1,)), ((2, 2, 2),))
    """
    _given.instance("crossed", crossed, Crossed, "a Crossed")
    rows, *lists = map(np.asarray, crossed)
    if rows.ndim != 2:
        raise ValueError(f"rows: an array of 2 dimensions is needed, and this one has {rows.ndim}")
    sizes = _partition_sizes(len(rows), _given.index("lines", lines, 2**63))
    _arrays.same_length(**dict(zip(("lines", "positions", "shapes"), lists)))
    blocks = _cut_sizes(lists[0], sizes)
    return Crossed(da.from_array(rows, (sizes, rows.shape[1])), *(da.from_array(column, (blocks,)) for column in lists))


def cut_walls(theirs: Walls, crossed: Lists) -> da.Array:
    """Another's walls that are here, a structured array, cut between the same lines as crossed lines are.

    >>> import dask.array, kressedach, kressedach.dask, numpy
    >>> sheet = kressedach.Sheet.of(kressedach.Formula("Plate"))
    >>> drawing = kressedach.Drawing(sheet, {"Plate": kressedach.Box((0, 0, 0), (100, 40, 8))})
    >>> lines = dask.array.from_array(numpy.array([[-10.0, y, 4, 1, 0, 0] for y in range(50)]), chunks=(20, 6))
    >>> crossed = kressedach.dask.cross(drawing, lines)
    >>> theirs = kressedach.dask.walls(sheet, crossed).compute()
    >>> kressedach.dask.cut_walls(theirs, crossed).chunks
    ((19, 20, 0),)
    """
    _given.instance("theirs", theirs, np.ndarray, "a structured array")
    _given.instance("crossed", crossed, Crossed, "a Crossed of dask arrays")
    lines_.their_lists(theirs[:0])
    return da.from_array(theirs, (_cut_sizes(theirs["line"], crossed.rows.chunks[0]),))


def cross(drawing: Drawing, lines: Union[da.Array, db.Bag]) -> Lists:
    """Where lines cross a drawing. ``lines`` is a dask array of six numbers a line, cut between lines, or a bag of such arrays.

    >>> import dask.array, kressedach, kressedach.dask, numpy
    >>> sheet = kressedach.Sheet.of(kressedach.Formula("Plate"))
    >>> drawing = kressedach.Drawing(sheet, {"Plate": kressedach.Box((0, 0, 0), (100, 40, 8))})
    >>> lines = dask.array.from_array(numpy.array([[-10.0, y, 4, 1, 0, 0] for y in range(50)]), chunks=(20, 6))
    >>> crossed = kressedach.dask.cross(drawing, lines)
    >>> crossed.rows.chunks, crossed.lines.compute()[-4:]
    (((20, 20, 10), (1,)), array([38, 38, 39, 39], dtype=uint32))
    """
    drawn = _sent_drawing(drawing)
    if isinstance(lines, db.Bag):
        return _joined_bag(lines, _crossed_block, [drawn, _Span()], _kept)
    shapes = len(drawing.kinds)
    answers = _each_block(_crossed_block, [drawn], lines)

    def joined(name: str, *shape: int) -> da.Array:
        blocks = [delayed(getattr)(answer, name) for answer in answers]
        heights = lines.chunks[0] if name == "rows" else [np.nan] * len(blocks)
        return da.concatenate([da.from_delayed(b, (h, *shape), DTYPES[name]) for b, h in zip(blocks, heights)])

    return Crossed(joined("rows", shapes), joined("lines"), joined("positions"), joined("shapes"))


def walls(sheet: Sheet, crossed: Lists) -> Union[da.Array, db.Bag]:
    """The walls of crossed lines: a dask array of :data:`kressedach.WALL`, or a bag of such arrays; lines are numbered in the whole.

    >>> import dask.array, kressedach, kressedach.dask, numpy
    >>> sheet = kressedach.Sheet.of(kressedach.Formula("Plate"))
    >>> drawing = kressedach.Drawing(sheet, {"Plate": kressedach.Box((0, 0, 0), (100, 40, 8))})
    >>> lines = dask.array.from_array(numpy.array([[-10.0, y, 4, 1, 0, 0] for y in range(50)]), chunks=(20, 6))
    >>> found = kressedach.dask.walls(sheet, kressedach.dask.cross(drawing, lines))
    >>> found["line"].max().compute(), found["thickness"].min().compute()
    (39, 100000)
    """
    if isinstance(crossed, db.Bag):
        return _joined_bag(crossed, _walls_element, [_sent_sheet(sheet)], _on_later_lines)
    parts = _each_part(_walls_block, sheet, crossed)
    answers = [delayed(_raised)(part, before, _kept) for part, before in zip(parts, _before(crossed, parts))]
    return da.concatenate([da.from_delayed(answer, (np.nan,), WALL) for answer in answers])


def drawn_walls(sheet: Sheet, drawing: Drawing, lines: Union[da.Array, db.Bag]) -> Union[da.Array, db.Bag]:
    """The walls that lines find in a drawing: what :func:`walls` gives for what :func:`cross` gives.

    A partition is crossed and classified in one task, so that no crossing travels or waits.

    >>> import dask.array, kressedach, kressedach.dask, numpy
    >>> sheet = kressedach.Sheet.of(kressedach.Formula("Plate"))
    >>> drawing = kressedach.Drawing(sheet, {"Plate": kressedach.Box((0, 0, 0), (100, 40, 8))})
    >>> lines = dask.array.from_array(numpy.array([[-10.0, y, 4, 1, 0, 0] for y in range(50)]), chunks=(20, 6))
    >>> drawn_walls(sheet, drawing, lines)["end"].max().compute()
    110000
    """
    read, drawn = _sent_sheet(sheet), _sent_drawing(drawing)
    if len(drawing.kinds) != len(sheet.names):
        raise ValueError(f"drawing: {len(drawing.kinds)} shapes, and the sheet has {len(sheet.names)}")
    if isinstance(lines, db.Bag):
        return _joined_bag(lines, _drawn_block, [read, drawn, _Span()], _on_later_lines)
    answers = _each_block(_drawn_block, [read, drawn], lines)
    return da.concatenate([da.from_delayed(answer, (np.nan,), WALL) for answer in answers])


def refused(sheet: Sheet, crossed: Lists) -> Any:
    """The refusal that one call over everything gives, or None: delayed, with place and line in the whole.

    >>> import dask.array, kressedach, kressedach.dask, numpy
    >>> sheet = kressedach.Sheet.of(kressedach.Formula("Plate"))
    >>> drawing = kressedach.Drawing(sheet, {"Plate": kressedach.Box((0, 0, 0), (100, 40, 8))})
    >>> lines = dask.array.from_array(numpy.array([[-10.0, y, 4, 1, 0, 0] for y in range(50)]), chunks=(20, 6))
    >>> here = kressedach.cross(drawing, lines.compute())
    >>> here.shapes[61] = 1
    >>> print(refused(sheet, cut(here, 20)).compute())
    refused 10 at entry 61 on line 31 in partition 1: a shape number that no name has
    """
    return delayed(_first_refusal)(_all_parts(sheet, crossed, None))


def judge(sheet: Sheet, crossed: Lists, theirs: Union[da.Array, db.Bag]) -> Any:
    """The opinion on another's walls, delayed: of partitions the first that is not right decides.

    ``theirs`` is a dask array with ``line``, ``start`` and ``end``, its blocks cut between the same lines as the crossed ones, or a bag
    with such an array for each element. Their lines are numbered in the whole, as :func:`walls` gives them.

    >>> import dask.array, kressedach, kressedach.dask, numpy
    >>> sheet = kressedach.Sheet.of(kressedach.Formula("Plate"))
    >>> drawing = kressedach.Drawing(sheet, {"Plate": kressedach.Box((0, 0, 0), (100, 40, 8))})
    >>> lines = dask.array.from_array(numpy.array([[-10.0, y, 4, 1, 0, 0] for y in range(50)]), chunks=(20, 6))
    >>> crossed = kressedach.dask.cross(drawing, lines)
    >>> judge(sheet, crossed, kressedach.dask.walls(sheet, crossed)).compute()
    Opinion(right=True, index=39)
    """
    return delayed(_decided)(_all_parts(sheet, crossed, theirs))


# ---- what is sent


def _sent(value: Any) -> Any:
    """A value that goes to a worker once, and not with every task."""
    return delayed(value, pure=True, traverse=False)


def _sent_sheet(sheet: Sheet) -> Any:
    _given.instance("sheet", sheet, Sheet, "a Sheet")
    return _sent(sheet)


def _sent_drawing(drawing: Drawing) -> Any:
    # no line is crossed here: more than 256 shapes are refused before anything is sent
    drawings.cross(drawing, np.empty((0, 6)))
    return _sent(drawing)


def _partition_sizes(count: int, lines: int) -> Tuple[int, ...]:
    if lines < 1:
        raise ValueError(f"lines: a partition has one line at least, and this is {lines}")
    return tuple(min(lines, count - first) for first in range(0, count, lines)) or (0,)


def _firsts(sizes: Sequence[int]) -> List[int]:
    """The number of each partition's first line."""
    if sum(sizes) > MOST_LINES:
        raise Refused(14, 0, 0)
    return [0, *accumulate(sizes)][:-1]


def _cut_sizes(numbers: Any, sizes: Sequence[int]) -> Tuple[int, ...]:
    """How many entries each partition has: a cut stands before the first on its line or a later one."""
    highest = np.maximum.accumulate(numbers)
    cuts = [int(np.searchsorted(highest, first)) for first in _firsts(sizes)[1:]]
    return tuple(past - first for first, past in zip([0, *cuts], [*cuts, len(numbers)]))


def _is_delayed(name: str, array: Any, dtype: Any, width: Optional[int] = None) -> None:
    if not isinstance(array, da.Array):
        raise TypeError(f"{name}: a dask array or a bag is needed, and this is a {type(array).__name__}")
    if array.dtype != dtype:
        raise TypeError(f"{name}: an array of {np.dtype(dtype)} is needed, and this one is of {array.dtype}")
    if array.ndim != (1 if width is None else 2):
        raise ValueError(f"{name}: an array of {1 if width is None else 2} dimensions is needed, and this one has {array.ndim}")
    if width is not None and (array.shape[1] != width or len(array.chunks[1]) != 1):
        raise ValueError(f"{name}: {width} columns in one block are needed, and this array has {array.chunks[1]}")
    if width is not None and any(np.isnan(array.chunks[0])):
        raise ValueError(f"{name}: the lines of each block are needed: compute_chunk_sizes() finds them")


def _checked(sheet: Sheet, crossed: Any) -> None:
    """The arrays of crossed lines are fit to be cut into calls."""
    _given.instance("sheet", sheet, Sheet, "a Sheet")
    _given.instance("crossed", crossed, Crossed, "a Crossed of dask arrays, or a bag,")
    _is_delayed("rows", crossed.rows, np.uint8, len(sheet.names))
    for name in ("lines", "positions", "shapes"):
        _is_delayed(name, getattr(crossed, name), DTYPES[name])
        _has_as_many_blocks(name, getattr(crossed, name), crossed.rows)


def _has_as_many_blocks(name: str, array: da.Array, rows: da.Array) -> None:
    if array.numblocks[0] != rows.numblocks[0]:
        raise ValueError(f"{name}: {array.numblocks[0]} blocks, and rows has {rows.numblocks[0]}")


def _each_block(work: Callable[..., _Part], asked: List[Any], lines: da.Array) -> List[Any]:
    """The answer of the work on each block of lines, delayed."""
    _is_delayed("lines", lines, np.float64, 6)
    answers, sizes = [], lines.chunks[0]
    for k, (first, size, block) in enumerate(zip(_firsts(sizes), sizes, lines.to_delayed().reshape(-1))):
        answers.append(delayed(_raised)(delayed(work)(*asked, _Span(first, size), block), _Sizes(k, first), _kept))
    return answers


def _each_part(work: Callable[..., Any], sheet: Sheet, crossed: Lists, theirs: Optional[da.Array] = None) -> List[Any]:
    """The work on each partition of crossed lines, delayed."""
    _checked(sheet, crossed)
    read, sizes = _sent_sheet(sheet), crossed.rows.chunks[0]
    firsts = _firsts(sizes)
    crossings = [None if np.isnan(size) else size for size in crossed.lines.chunks[0]]
    spans = [_Span(*span) for span in zip(firsts, sizes, crossings, [*firsts[1:], MOST_LINES])]
    blocks = [array.to_delayed().reshape(-1) for array in (*crossed, *([] if theirs is None else [theirs]))]
    return [delayed(work)(read, span, *lists) for span, *lists in zip(spans, *blocks)]


def _before(crossed: Lists, parts: List[Any]) -> List[Any]:
    """How much stands before each partition: known where the blocks' sizes are, else delayed, one after the other."""
    firsts, sizes = _firsts(crossed.rows.chunks[0]), crossed.lines.chunks[0]
    if not any(np.isnan(sizes)):
        return [_Sizes(k, first, done) for k, (first, done) in enumerate(zip(firsts, [0, *accumulate(sizes)]))]
    return list(accumulate((delayed(_sizes_of)(part) for part in parts[:-1]), delayed(_Sizes.and_), initial=_Sizes()))


def _all_parts(sheet: Sheet, crossed: Any, theirs: Any) -> Any:
    """What every partition gives for judging another's walls, or none; delayed, in their order."""
    if isinstance(crossed, db.Bag):
        return _all_of_bags(sheet, crossed, theirs)
    _checked(sheet, crossed)
    if theirs is not None:
        _given.instance("theirs", theirs, da.Array, "a dask array, as crossed is of them,")
        lines_.their_lists(np.empty(0, theirs.dtype))
        _has_as_many_blocks("theirs", theirs, crossed.rows)
    return [[part] for part in _each_part(_judged_block, sheet, crossed, theirs)]


def _all_of_bags(sheet: Sheet, crossed: db.Bag, theirs: Optional[db.Bag]) -> List[Any]:
    read, partitions = _sent_sheet(sheet), [delayed(list)(partition) for partition in crossed.to_delayed()]
    if theirs is None:
        return [delayed(_judged_list)(read, _Span(), partition, None) for partition in partitions]
    _given.instance("theirs", theirs, db.Bag, "a bag, as crossed is one,")
    if theirs.npartitions != crossed.npartitions:
        raise ValueError(f"theirs: {theirs.npartitions} partitions, and crossed has {crossed.npartitions}")
    pasts = list(accumulate((delayed(_lines_of)(partition) for partition in partitions), delayed(add)))
    spans = [delayed(_Span)(first, past=past) for first, past in zip([0, *pasts], [*pasts[:-1], MOST_LINES])]
    return [delayed(_judged_list)(read, *asked) for asked in zip(spans, partitions, theirs.to_delayed())]


def _joined_bag(bag: db.Bag, work: Callable[..., _Part], asked: List[Any], join: Callable[..., Any]) -> db.Bag:
    """A bag of what the work on each element gives, joined to what stands before it."""
    parts = [delayed(_on_each)(work, asked, partition) for partition in bag.to_delayed()]
    before = accumulate((delayed(_sizes_of_list)(part) for part in parts[:-1]), delayed(_Sizes.and_), initial=_Sizes())
    return db.from_delayed([delayed(_raised_list)(part, done, join) for part, done in zip(parts, before)])


# ---- what a worker does


def _fit(array: Any) -> Any:
    """An array as the jobs take it. What came over the network may stand anywhere in memory."""
    return np.require(array, requirements=("C", "A"))


def _on_each(work: Callable[..., _Part], asked: List[Any], elements: Iterable[Any]) -> List[_Part]:
    return [work(*asked, element) for element in elements]


def _crossed_block(drawing: Drawing, span: _Span, lines: Any) -> _Part:
    span.holds("lines", span.lines, lines)
    sizes = _Sizes(1, len(lines), 0)
    try:
        crossed = drawings.cross(drawing, _fit(lines))
    except Refused as refused:
        return _Part(refused, sizes)
    _raise(crossed.lines, span.first)
    return _Part(crossed, sizes._replace(crossings=len(crossed.lines)))


def _drawn_block(sheet: Sheet, drawing: Drawing, span: _Span, lines: Any) -> _Part:
    span.holds("lines", span.lines, lines)
    part = _crossed_block(drawing, _Span(), lines)
    if isinstance(part.answer, Refused):
        return part
    found = _attempt(lambda: lines_.walls(sheet, part.answer), 0, part.answer)
    return _numbered(found, span.first)


def _walls_block(sheet: Sheet, span: _Span, *lists: Any) -> _Part:
    crossed = _lowered(span, Crossed(*lists))
    found = _attempt(lambda: lines_.walls(sheet, crossed), span.first, crossed)
    return _numbered(found, span.first)


def _walls_element(sheet: Sheet, crossed: Crossed) -> _Part:
    lists = Crossed(*map(_fit, crossed))
    return _attempt(lambda: lines_.walls(sheet, lists), 0, lists)


def _judged_block(sheet: Sheet, span: _Span, rows: Any, lines: Any, positions: Any, shapes: Any, theirs: Any = None) -> Any:
    crossed = _lowered(span, Crossed(rows, lines, positions, shapes))
    their_lists = _their_lists(span, theirs)
    part = _attempt(lambda: lines_.judge(sheet, crossed, their_lists), span.first, crossed)
    return part, len(their_lists["line"])


def _judged_list(sheet: Sheet, span: _Span, elements: List[Crossed], theirs: Optional[Iterable[Any]]) -> List[Any]:
    """The elements of a bag's partition, each numbered from 0, and another's walls of each, numbered in the whole."""
    entries = [None] * len(elements) if theirs is None else list(theirs)
    if len(entries) != len(elements):
        raise ValueError(f"theirs: a partition has {len(entries)} elements, and that of crossed has {len(elements)}")
    firsts = list(accumulate((len(element.rows) for element in elements[:-1]), initial=span.first))
    spans = [_Span(first, past=past) for first, past in zip(firsts, [*firsts[1:], span.past])]
    return [_judged_element(sheet, *asked) for asked in zip(spans, elements, entries)]


def _judged_element(sheet: Sheet, span: _Span, crossed: Crossed, theirs: Any) -> Any:
    lists, their_lists = Crossed(*map(_fit, crossed)), _their_lists(span, theirs)
    part = _attempt(lambda: lines_.judge(sheet, lists, their_lists), 0, lists)
    return part, len(their_lists["line"])


def _their_lists(span: _Span, theirs: Any) -> Dict[str, Any]:
    numbers, starts, ends = lines_.their_lists(np.zeros(0, WALL) if theirs is None else theirs, copy=True)
    return {"line": _lowered_numbers("theirs", span, numbers), "start": starts, "end": ends}


def _lowered(span: _Span, crossed: Crossed) -> Crossed:
    rows, lines, positions, shapes = map(_fit, crossed)
    span.holds("rows", span.lines, rows)
    span.holds("lines", span.crossings, lines)
    return Crossed(rows, _lowered_numbers("lines", span, _arrays.read("lines", lines, "uint32")), positions, shapes)


def _lowered_numbers(name: str, span: _Span, numbers: Any) -> Any:
    """A partition's line numbers, lowered by those before it as 32-bit numbers wrap: one below the first has no row in the partition."""
    if len(numbers) and not (numbers[0] >= span.first and numbers.max() < span.past):
        raise ValueError(f"{name}: the block for lines {span.first} to {span.past - 1} has others: blocks are cut between lines")
    return np.subtract(numbers, np.uint32(span.first % MOST_LINES))


def _raise(numbers: Any, first: int) -> None:
    if first:
        np.add(numbers, np.uint32(first % MOST_LINES), out=numbers)


def _numbered(part: _Part, first: int) -> _Part:
    """Walls that were just found, and that no other task has: their lines are numbered in the whole."""
    if not isinstance(part.answer, Refused):
        _raise(part.answer["line"], first)
    return part


def _attempt(job: Callable[[], Any], first: int, crossed: Crossed) -> _Part:
    """A job's answer; else its refusal, with the line that it is of and with the number that the whole gives.

    Where a line number falls below the partition's first, the part shows 15, for it has no such row, and the whole 11.
    """
    sizes = _Sizes(1, len(crossed.rows), len(crossed.lines))
    try:
        return _Part(job(), sizes)
    except Refused as refused:
        number, place, line = refused.number, refused.place, None
        if number in (10, 11, 15):
            line = int(crossed.lines[place])
            fell = line + first >= MOST_LINES and crossed.positions[place] not in (OPEN_START, OPEN_END)
            number, line = 11 if number == 15 and fell else number, (line + first) % MOST_LINES - first
        elif number == 14:
            line = int(np.argmax(np.any(crossed.rows > 1, axis=1)))
        return _Part(Refused(number, refused.sheet, place, line), sizes)


# ---- how answers are joined


def _lines_of(elements: List[Crossed]) -> int:
    return sum(len(element.rows) for element in elements)


def _sizes_of(part: _Part) -> _Sizes:
    return part.sizes


def _sizes_of_list(parts: Iterable[_Part]) -> _Sizes:
    total = _Sizes()
    for part in parts:
        total = total.and_(part.sizes)
    return total


def _kept(answer: Any, before: _Sizes) -> Any:
    return answer


def _on_later_lines(walls: Any, before: _Sizes) -> Any:
    """A partition's walls in the whole: the lines before it are added to their line numbers, in a copy, since other tasks may have them."""
    later = walls.copy()
    _raise(later["line"], before.lines)
    return later


def _in_whole(refused: Refused, before: _Sizes) -> Refused:
    """A partition's refusal in the whole: a place among crossings is further on by those before it, and so is a line."""
    among_crossings = refused.number in (10, 11, 15)
    line = None if refused.line is None else refused.line + before.lines
    place = refused.place + (before.crossings if among_crossings else 0)
    return Refused(refused.number, refused.sheet, place, line, before.partitions)


def _raised(part: _Part, before: _Sizes, join: Callable[..., Any]) -> Any:
    if isinstance(part.answer, Refused):
        raise _in_whole(part.answer, before)
    if before.lines + part.sizes.lines > MOST_LINES:
        raise Refused(14, 0, 0, None, before.partitions)
    return join(part.answer, before)


def _raised_list(parts: Iterable[_Part], before: _Sizes, join: Callable[..., Any]) -> List[Any]:
    answers = []
    for part in parts:
        answers.append(_raised(part, before, join))
        before = before.and_(part.sizes)
    return answers


def _first_refusal(partitions: Iterable[Iterable[Any]]) -> Optional[Refused]:
    """As one call asks: 13, then 14, wherever they are, then the first crossing at fault."""
    before, refusals = _Sizes(), []
    for part, _ in (part for partition in partitions for part in partition):
        if isinstance(part.answer, Refused):
            refusals.append(_in_whole(part.answer, before))
        before = before.and_(part.sizes)
    if before.lines > MOST_LINES:
        refusals.append(Refused(14, 0, 0))
    order = {13: 0, 14: 1}
    return min(refusals, key=lambda one: order.get(one.number, 2)) if refusals else None


def _decided(partitions: Sequence[Iterable[Any]]) -> lent.Opinion:
    """The opinion on the whole: the first partition's that is not right, its index further on by the entries before it."""
    refusal = _first_refusal(partitions)
    if refusal:
        raise refusal
    done = 0
    for part, entries in (part for partition in partitions for part in partition):
        if not part.answer.right:
            return lent.Opinion(False, done + part.answer.index)
        done += entries
    return lent.Opinion(True, done)
