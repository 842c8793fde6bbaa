"""Lines through a solid: their crossings, their walls, and another's walls judged."""

from __future__ import annotations

from typing import Any, Mapping, NamedTuple, Union

import numpy as np
from numpy.typing import NDArray

from . import _arrays, _given, lent
from .lent import Opinion
from .sheets import Sheet

#: The end marks of a line: an open wall starts at the one or ends at the other.
OPEN_START, OPEN_END = -(2**31), 2**31 - 1

#: The thickness of an open wall, which has none: more than that of any other.
OPEN_THICKNESS = 2**63 - 1

#: What the library writes of a wall.
_WRITTEN = {"line": np.uint32, "start": np.int32, "end": np.int32, "start_shape": np.uint16, "end_shape": np.uint16}

#: A wall: its line, where it starts and ends in micrometres, the shapes there, and how thick it is.
WALL = np.dtype([*_WRITTEN.items(), ("thickness", np.int64)])

Walls = NDArray[np.void]


class Crossed(NamedTuple):
    """Start rows and crossings of lines.

    ``rows`` (uint8) has a row a line, from line 0 on, and in it a byte a shape: 1 where the line starts inside it. A crossing stands at one
    index of ``lines`` (uint32), ``positions`` (int32, micrometres) and ``shapes`` (uint16): lines never fall, nor positions within a line.
    """

    rows: NDArray[np.uint8]
    lines: NDArray[np.uint32]
    positions: NDArray[np.int32]
    shapes: NDArray[np.uint16]

    @classmethod
    def in_air(cls, sheet: Sheet, lines: NDArray[np.uint32], positions: NDArray[np.int32], shapes: NDArray[np.uint16]) -> Crossed:
        """Crossings of lines that all start outside of every shape, line 0 to the highest that there is.

        >>> import numpy
        >>> from kressedach import Sheet, shapes
        >>> block, bore = shapes("Block", "Bore")
        >>> sheet = Sheet.of(block - bore)
        >>> lines, positions = numpy.zeros(4, "uint32"), numpy.array([0, 40, 60, 100], "int32")
        >>> Crossed.in_air(sheet, lines, positions, sheet.numbers(["Block", "Bore", "Bore", "Block"])).rows
        array([[0, 0]], dtype=uint8)
        """
        _given.instance("sheet", sheet, Sheet, "a Sheet")
        numbers = _arrays.read("lines", lines, "uint32", copy=not isinstance(lines, np.ndarray))
        count = int(numbers.max()) + 1 if numbers.size else 0
        return cls(np.zeros((count, len(sheet.names)), np.uint8), lines, positions, shapes)

    def lists(self, names: int, *, copy: bool = False) -> dict[str, Any]:
        """The four lists, flat, as the jobs take them, for sheets with so many names."""
        crossings = {
            "lines": _arrays.read("lines", self.lines, "uint32", copy=copy),
            "positions": _arrays.read("positions", self.positions, "int32", copy=copy),
            "shapes": _arrays.read("shapes", self.shapes, "uint16", copy=copy),
        }
        _arrays.same_length(**crossings)
        return {"rows": _arrays.read("rows", self.rows, "uint8", copy=copy, width=names), **crossings}


def walls(sheet: Sheet, crossed: Crossed, *, copy: bool = False) -> Walls:
    """The walls of lines: for each the longest stretches of positive length inside, in rising order.

    Refusals: 8, 14, then 10, 15 and 11 crossing by crossing. ``thickness`` is end less start; of an open wall, whose start or end no
    crossing gives, it is OPEN_THICKNESS.

    >>> import numpy
    >>> from kressedach import Crossed, Sheet, shapes
    >>> block, bore = shapes("Block", "Bore")
    >>> sheet = Sheet.of(block - bore)
    >>> lines, positions = numpy.zeros(4, "uint32"), numpy.array([0, 40, 60, 100], "int32")
    >>> found = walls(sheet, Crossed.in_air(sheet, lines, positions, sheet.numbers(["Block", "Bore", "Bore", "Block"])))
    >>> found["start"], found["end"], found["thickness"]
    (array([ 0, 60], dtype=int32), array([ 40, 100], dtype=int32), array([40, 40]))
    >>> sheet.named(found["start_shape"]), sheet.named(found["end_shape"])
    (array(['Block', 'Bore'], dtype='<U5'), array(['Bore', 'Block'], dtype='<U5'))
    """
    lists = lists_of(sheet, crossed, copy=copy)
    room = len(lists["lines"]) // 2 + len(lists["rows"]) // len(sheet.names)
    columns = _arrays.rooms(room, *_WRITTEN.values())
    count = lent.classify(sheet, *lists.values(), *columns)
    return walls_of(*(column[:count] for column in columns))


def walls_of(
    lines: NDArray[np.uint32],
    starts: NDArray[np.int32],
    ends: NDArray[np.int32],
    start_shapes: NDArray[np.uint16],
    end_shapes: NDArray[np.uint16],
) -> Walls:
    """One structured array of the lists that :func:`kressedach.lent.classify` writes.

    >>> import numpy
    >>> walls_of(*(numpy.array([number]) for number in (0, -2147483648, 7, 65535, 0)))["thickness"] == OPEN_THICKNESS
    array([ True])
    """
    found = np.empty(len(lines), WALL)
    for field, column in zip(_WRITTEN, (lines, starts, ends, start_shapes, end_shapes)):
        found[field] = column
    thickness = found["thickness"]
    np.subtract(ends, starts, out=thickness, dtype=np.int64)
    without = starts == OPEN_START
    without |= ends == OPEN_END
    if without.any():
        thickness[without] = OPEN_THICKNESS
    return found


def is_open(found: Walls) -> NDArray[np.bool_]:
    """Which walls are open: metal goes on past the ends of what is known of the line, so that they have no thickness.

    >>> import numpy
    >>> from kressedach import Crossed, Sheet, shapes
    >>> below, = shapes("Below")
    >>> sheet = Sheet.of(below)
    >>> row, at = numpy.ones((1, 1), "uint8"), numpy.array([25], "int32")
    >>> is_open(walls(sheet, Crossed(row, numpy.zeros(1, "uint32"), at, numpy.zeros(1, "uint16"))))
    array([ True])
    """
    either: NDArray[np.bool_] = (found["start"] == OPEN_START) | (found["end"] == OPEN_END)
    return either


def judge(sheet: Sheet, crossed: Crossed, theirs: Union[Walls, Mapping[str, Any]], *, copy: bool = False) -> Opinion:
    """Judges another ray caster's wall list, which has ``line``, ``start`` and ``end``: a structured array, or an array for each.

    It is right exactly if lines never fall, each start is below its end, no entry begins before the one before it on that line has ended,
    and joining entries that touch gives the walls. The fields of a structured array are copied, since the library takes lists. Refusals:
    8, 14, then 10, 15 and 11 crossing by crossing.

    >>> import numpy
    >>> from kressedach import Crossed, Sheet, shapes
    >>> block, bore = shapes("Block", "Bore")
    >>> sheet = Sheet.of(block - bore)
    >>> crossed = Crossed.in_air(sheet, *(numpy.array(list, dtype) for list, dtype in
    ...     (([0, 0, 0, 0], "uint32"), ([0, 40, 60, 100], "int32"), ([0, 1, 1, 0], "uint16"))))
    >>> judge(sheet, crossed, walls(sheet, crossed))
    Opinion(right=True, index=2)
    >>> nearest_and_farthest = {"line": numpy.uint32([0]), "start": numpy.int32([0]), "end": numpy.int32([100])}
    >>> judge(sheet, crossed, nearest_and_farthest)
    Opinion(right=False, index=0)
    """
    return lent.judge(sheet, *lists_of(sheet, crossed, copy=copy).values(), *their_lists(theirs, copy=copy))


def lists_of(sheet: Sheet, crossed: Crossed, *, copy: bool = False) -> dict[str, Any]:
    """The lists of crossed lines, flat, as the jobs take them with this sheet."""
    _given.instance("sheet", sheet, Sheet, "a Sheet")
    _given.instance("crossed", crossed, Crossed, "a Crossed")
    return crossed.lists(len(sheet.names), copy=copy)


def their_lists(theirs: Union[Walls, Mapping[str, Any]], *, copy: bool = False) -> tuple[Any, ...]:
    """Line, start and end of another's walls, flat. The fields of a structured array do not stand one after the other: they are copied."""
    structured = isinstance(theirs, np.ndarray)
    fields = theirs.dtype.names if isinstance(theirs, np.ndarray) else getattr(theirs, "keys", tuple)()
    lists = {}
    for field in ("line", "start", "end"):
        if field not in (fields or ()):
            raise TypeError(f"theirs: a structured array, or an array for each of line, start and end is needed, and there is no {field}")
        name = f"theirs[{field!r}]"
        lists[name] = _arrays.read(name, theirs[field], _WRITTEN[field].__name__, copy=copy or structured)
    _arrays.same_length(**lists)
    return tuple(lists.values())
