"""Drawings, and where lines cross them: worked out to the bit, for every caller alike."""

from __future__ import annotations

from typing import Any, Dict, Mapping, NamedTuple, Sequence, Tuple, Union

import numpy as np
from numpy.typing import NDArray

from . import _arrays, _given, lent
from .lines import Crossed
from .refused import Refused
from .sheets import Sheet

#: A box in a list of kinds; 0, 1 and 2 are half-spaces on that axis.
BOX = 255

#: Crossings for which room is made at once: 160 megabytes that are asked for, and not touched before something is written there.
MOST_ROOM = 2**24

Three = Tuple[float, float, float]


class Box(NamedTuple):
    """Solid between three lows and three highs, in millimetres."""

    lows: Three
    highs: Three


class HalfSpace(NamedTuple):
    """Solid below a face that lies across an axis (0, 1 or 2), in millimetres."""

    axis: int
    face: float


class Row(NamedTuple):
    """What one line has of some shapes: its start row, where it is crossed in micrometres, and by which shape."""

    starts: NDArray[np.uint8]
    positions: NDArray[np.int32]
    shapes: NDArray[np.uint16]


class Drawing:
    """Where the shapes of a sheet lie: a box or a half-space for each name.

    >>> from kressedach import Sheet, shapes
    >>> block, bore = shapes("Block", "Bore")
    >>> drawing = Drawing(Sheet.of(block - bore), {"Bore": Box((40, 10, -1), (60, 30, 41)), "Block": Box((0, 0, 0), (100, 40, 40))})
    >>> drawing.kinds, drawing.numbers[1]
    (array([255, 255], dtype=uint8), array([40., 10., -1., 60., 30., 41.]))
    """

    def __init__(self, sheet: Sheet, shapes: Mapping[str, Union[Box, HalfSpace]]) -> None:
        _given.instance("sheet", sheet, Sheet, "a Sheet")
        _given.instance("shapes", shapes, Mapping, "a Box or a HalfSpace for each name, in a dict,")
        for name in shapes:
            if name not in sheet.names:
                raise ValueError(f"shapes: {name} is no shape of the sheet")
        self.kinds = np.zeros(len(sheet.names), np.uint8)
        self.numbers = np.zeros((len(sheet.names), 6), np.float64)
        for number, name in enumerate(sheet.names):
            if name not in shapes:
                raise ValueError(f"shapes: {name} is missing")
            self.kinds[number], self.numbers[number] = _parts(name, shapes[name])

    @classmethod
    def of_lists(cls, kinds: NDArray[np.uint8], numbers: NDArray[np.float64]) -> Drawing:
        """A drawing of kinds and numbers, a byte and six numbers a shape, as they are."""
        drawing = object.__new__(cls)
        drawing.kinds, drawing.numbers = kinds, numbers
        return drawing

    def lists(self, *, copy: bool = False) -> Tuple[Any, Any]:
        """Kinds and numbers, flat, as the jobs take them."""
        kinds = _arrays.read("kinds", self.kinds, "uint8", copy=copy)
        numbers = _arrays.read("numbers", self.numbers, "float64", copy=copy, width=6)
        if len(numbers) != 6 * len(kinds):
            raise ValueError(f"numbers: {len(numbers) // 6} rows, and kinds has {len(kinds)} entries")
        return kinds, numbers

    def __reduce__(self) -> Tuple[Any, ...]:
        return _restored, self.__dask_tokenize__()

    def __dask_tokenize__(self) -> Tuple[bytes, bytes]:
        # as bytes, so that the arrays are aligned wherever they arrive; those that are not fit would be others there
        kinds, numbers = self.lists()
        return kinds.tobytes(), numbers.tobytes()


def _restored(kinds: bytes, numbers: bytes) -> Drawing:
    return Drawing.of_lists(np.array(memoryview(kinds), np.uint8), np.frombuffer(numbers, np.float64).reshape(-1, 6).copy())


def _parts(name: str, shape: Union[Box, HalfSpace]) -> Tuple[int, Sequence[float]]:
    of = f"shapes[{name!r}]"
    _given.instance(of, shape, (Box, HalfSpace), "a Box or a HalfSpace")
    if isinstance(shape, Box):
        return BOX, (*_given.numbers(f"{of}.lows", shape.lows, 3), *_given.numbers(f"{of}.highs", shape.highs, 3))
    return _given.index(f"{of}.axis", shape.axis, 3), (_given.number(f"{of}.face", shape.face), 0, 0, 0, 0, 0)


def cross(drawing: Drawing, lines: NDArray[np.float64], *, copy: bool = False) -> Crossed:
    """Where many lines cross a drawing: what :func:`kressedach.walls` takes.

    ``lines`` (float64) has six numbers a line, origin and direction, in millimetres. Refusals: 16, 14; ``line`` says of which line.

    >>> import numpy
    >>> from kressedach import Sheet, shapes
    >>> block, bore = shapes("Block", "Bore")
    >>> drawing = Drawing(Sheet.of(block - bore), {"Block": Box((0, 0, 0), (100, 40, 40)), "Bore": Box((40, 10, -1), (60, 30, 41))})
    >>> crossed = cross(drawing, numpy.array([[-10.0, 5, 20, 1, 0, 0], [-10, 20, 20, 1, 0, 0]]))
    >>> crossed.lines, crossed.shapes
    (array([0, 0, 1, 1, 1, 1], dtype=uint32), array([0, 0, 0, 1, 1, 0], dtype=uint16))
    >>> crossed.positions
    array([ 10000, 110000,  10000,  50000,  70000, 110000], dtype=int32)
    """
    kinds, numbers = _lists_of(drawing, copy)
    flat = _arrays.read("lines", lines, "float64", copy=copy, width=6)
    rows = np.empty((len(flat) // 6, len(kinds)), np.uint8)
    always = 2 * rows.size

    def given(room: int) -> Crossed:
        lists = _arrays.rooms(room, np.uint32, np.int32, np.uint16)
        counts = lent.cross_many(kinds, numbers, flat, rows.reshape(-1), *lists)
        return Crossed(rows, *(_kept(column, counts.crossings) for column in lists))

    # room that is always enough saves a pass that counts, and costs nothing where it is not written to; there may be too much of it
    try:
        return given(always if always <= MOST_ROOM else min(always, 8 * len(rows) + 4096))
    except Refused as refused:
        if refused.number != 9:
            raise
        return given(refused.place)


def cross_line(drawing: Drawing, line: Sequence[float], *, copy: bool = False) -> Row:
    """Where one line, six numbers, crosses a drawing. Refusal: 16.

    >>> from kressedach import Sheet, shapes
    >>> below, = shapes("Below")
    >>> cross_line(Drawing(Sheet.of(below), {"Below": HalfSpace(0, 25.0)}), (-10, 0, 0, 1, 0, 0))
    Row(starts=array([1], dtype=uint8), positions=array([35000], dtype=int32), shapes=array([0], dtype=uint16))
    """
    kinds, numbers = _lists_of(drawing, copy)
    lists = _row(len(kinds))
    counts = lent.cross(_given.numbers("line", line, 6), kinds, numbers, *lists.values())
    return _cut(lists, counts.crossings)


def cross_balls(balls: NDArray[np.int32], *, copy: bool = False) -> Row:
    """Where one line that is parallel to an axis crosses balls, in whole micrometres. Refusal: 18.

    ``balls`` (int32) has four numbers a ball: both offsets of the line from the centre, the radius, the centre along the line.

    >>> import numpy
    >>> cross_balls(numpy.array([[300, -400, 1300, 50000]], "int32")).positions
    array([48800, 51200], dtype=int32)
    """
    flat = _arrays.read("balls", balls, "int32", copy=copy, width=4)
    lists = _row(len(flat) // 4)
    counts = lent.cross_balls(flat, *lists.values())
    return _cut(lists, counts.crossings)


def _kept(column: Any, entries: int) -> Any:
    """The entries given: where they stand, or by themselves where much room behind them would be kept too."""
    given = column[:entries]
    return given if 4 * entries >= len(column) else given.copy()


def _lists_of(drawing: Drawing, copy: bool) -> Tuple[Any, Any]:
    _given.instance("drawing", drawing, Drawing, "a Drawing")
    return drawing.lists(copy=copy)


def _row(shapes: int) -> Dict[str, Any]:
    """Room for a line's answer: two crossings a shape at most."""
    return {
        "starts": np.empty(shapes, np.uint8),
        "positions": np.empty(2 * shapes, np.int32),
        "shapes": np.empty(2 * shapes, np.uint16),
    }


def _cut(lists: Mapping[str, Any], crossings: int) -> Row:
    return Row(lists["starts"], lists["positions"][:crossings], lists["shapes"][:crossings])
