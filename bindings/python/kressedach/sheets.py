"""Sheets: read by the proved reader, from bytes and files, or made of a formula."""

from __future__ import annotations

import os
import struct
from functools import cached_property
from pathlib import Path
from typing import Any, Iterable, Optional, Sequence, Tuple, Union

import numpy as np
from numpy.typing import NDArray

from . import _given, lent
from .formula import Formula, Operation
from .refused import Refused, Which

#: The shape at an open end of a wall.
OPEN_SHAPE = 65535


class Sheet:
    """A customer's sheet, alone or beside a fittings sheet, that the proved reader has accepted.

    It keeps its own bytes. Jobs take it as their first argument.

    >>> from kressedach import shapes
    >>> block, bore = shapes("Block", "Bore")
    >>> sheet = Sheet.of(block - bore)
    >>> sheet
    Sheet((Block - Bore))
    >>> sheet.data.hex(" ", -4)
    '01000200 01020005 426c6f63 6b020004 426f7265 03000600 000001ff f2'
    >>> Sheet(sheet.data) == sheet
    True
    """

    def __init__(self, data: Union[bytes, bytearray, memoryview], fittings: Optional[Union[bytes, bytearray, memoryview]] = None) -> None:
        self.data = _bytes("data", data)
        self.fittings = None if fittings is None else _bytes("fittings", fittings)
        self._read = lent.read(self.sheets)

    @classmethod
    def from_file(cls, path: Union[str, os.PathLike[str]], fittings: Optional[Union[str, os.PathLike[str]]] = None) -> Sheet:
        """The sheet that a file holds, beside the fittings sheet that another one holds, where there is one."""
        return cls(Path(path).read_bytes(), None if fittings is None else Path(fittings).read_bytes())

    @classmethod
    def of(
        cls,
        formula: Formula,
        names: Optional[Iterable[str]] = None,
        *,
        fittings: Optional[Union[bytes, bytearray, memoryview]] = None,
        edition: int = 1,
    ) -> Sheet:
        """The sheet that has this formula, read back by the proved reader.

        The names are those that are given, in that order; else those of the formula, in the order in which they stand in it, but for
        those of the fittings.

        >>> from kressedach import shapes
        >>> plate, lug = shapes("Plate", "Lug")
        >>> Sheet.of(plate | lug, fittings=fittings_of("Lug")).names
        ('Lug', 'Plate')
        """
        _given.instance("formula", formula, Formula, "a Formula")
        beside = None if fittings is None else _bytes("fittings", fittings)
        first = () if beside is None else fittings_names(beside)
        own = tuple(name for name in formula.names if name not in first) if names is None else _names("names", names)
        made = cls(_encoded(own, formula.codes((*first, *own))), beside)
        if edition == 1:
            return made
        if edition == 2:
            return made.moved()
        raise ValueError(f"edition: 1 or 2 is needed, and this is {edition!r}")

    @property
    def sheets(self) -> lent.Sheets:
        """As the jobs take it."""
        return self.data if self.fittings is None else lent.Beside(self.fittings, self.data)

    @property
    def leaves(self) -> int:
        """How many leaves the formula has."""
        return self._read.leaves

    @property
    def edition(self) -> int:
        """1, where an operation stands after its operands, or 2, where it stands before them."""
        return self.data[4]

    @cached_property
    def names(self) -> Tuple[str, ...]:
        """The name of every shape, those of the fittings first; a shape's number is its index."""
        places = [np.zeros(self._read.names, dtype) for dtype in (np.uint8, np.uintp, np.uintp)]
        lent.names(self.sheets, *places)
        return tuple(self._part(*place) for place in zip(*(column.tolist() for column in places)))

    def _part(self, sheet: int, first: int, past: int) -> str:
        holds = self.fittings if sheet == Which.FITTINGS else self.data
        return (holds or b"")[first:past].decode("ascii")

    @cached_property
    def _numbers(self) -> dict[str, int]:
        return {name: number for number, name in enumerate(self.names)}

    def number(self, name: str) -> int:
        """A shape's number. Names that differ in case are two.

        >>> Sheet.of(Formula("Port") | Formula("PORT")).number("PORT")
        1
        """
        try:
            return self._numbers[name]
        except KeyError:
            raise KeyError(f"{name}: the sheet has no shape of this name") from None

    def numbers(self, names: Iterable[str]) -> NDArray[np.uint16]:
        """The numbers of shapes, as the jobs take them.

        >>> Sheet.of(Formula("Block") - Formula("Bore")).numbers(["Bore", "Block", "Bore"])
        array([1, 0, 1], dtype=uint16)
        """
        return np.array([self.number(name) for name in names], np.uint16)

    def named(self, numbers: Any) -> NDArray[np.str_]:
        """The names of shapes by their numbers; of the shape at an open end it is empty.

        >>> Sheet.of(Formula("Block") - Formula("Bore")).named([1, 65535, 0])
        array(['Bore', '', 'Block'], dtype='<U5')
        """
        given = np.asarray(numbers)
        if given.dtype.kind not in "iu" and (given.size or isinstance(numbers, np.ndarray)):
            raise TypeError(f"numbers: whole numbers are needed, and these are of {given.dtype}")
        open_ends = given == OPEN_SHAPE
        none = ~open_ends & ((given < 0) | (given >= len(self.names)))
        if none.any():
            raise IndexError(f"numbers: no name has the number {given[none][0]}")
        named: NDArray[np.str_] = np.array((*self.names, ""))[np.where(open_ends, len(self.names), given).astype(np.intp)]
        return named

    @property
    def formula(self) -> Formula:
        """Its formula.

        >>> Sheet.of(Formula("A") - (Formula("B") ^ Formula("A"))).formula
        (A - (B ^ A))
        """
        codes = struct.unpack(f">{2 * self.leaves - 1}H", self.data[self._read.first : self._read.past])
        if self.edition == 2:
            codes = _operation_last(codes)
        return Formula.of_postfix(self.names[code] if code < 256 else Operation(code) for code in codes)

    def moved(self) -> Sheet:
        """The sheet in the edition that it has not. A sheet of edition 1 with an exclusive union does not move: 19.

        >>> sheet = Sheet.of(Formula("A") - Formula("B"))
        >>> sheet.moved().edition, sheet.moved().moved() == sheet
        (2, True)
        """
        moved = np.zeros(len(self.data), np.uint8)
        lent.move(self.sheets, moved)
        return Sheet(moved.tobytes(), self.fittings)

    def __eq__(self, other: object) -> bool:
        return isinstance(other, Sheet) and (self.data, self.fittings) == (other.data, other.fittings)

    def __hash__(self) -> int:
        return hash((self.data, self.fittings))

    def __repr__(self) -> str:
        return f"Sheet({self.formula!r})"

    def __reduce__(self) -> Tuple[Any, ...]:
        return Sheet, (self.data, self.fittings)

    def __dask_tokenize__(self) -> Tuple[bytes, Optional[bytes]]:
        return self.data, self.fittings


def fittings_of(*names: str) -> bytes:
    """The fittings sheet that has these names, read back by the proved reader.

    >>> fittings_of("Lug").hex(" ", -4)
    '01000200 01020003 4c7567'
    """
    fittings = _named(_names("names", names))
    fittings_names(fittings)
    return fittings


def fittings_names(fittings: Union[bytes, bytearray, memoryview]) -> Tuple[str, ...]:
    """The names of a fittings sheet, or a refusal.

    >>> fittings_names(fittings_of("Lug", "Boss"))
    ('Lug', 'Boss')
    """
    beside = _bytes("fittings", fittings)
    try:
        lent.read(lent.Beside(beside, b""))
    except Refused as refused:
        # the fittings sheet is judged first: a refusal of the empty sheet beside it says that it is good
        if refused.sheet is Which.FITTINGS:
            raise
    names, tag = [], 5
    while tag < len(beside):
        past = tag + 3 + int.from_bytes(beside[tag + 1 : tag + 3], "big")
        names.append(beside[tag + 3 : past].decode("ascii"))
        tag = past
    return tuple(names)


def _bytes(name: str, given: Any) -> bytes:
    _given.instance(name, given, (bytes, bytearray, memoryview), "a sheet, in bytes,")
    return bytes(given)


def _names(name: str, given: Iterable[str]) -> Tuple[str, ...]:
    names = _given.each(name, given, "names")
    for each in names:
        _given.instance(name, each, str, "a str for each")
    return names


def _field(tag: int, content: bytes) -> bytes:
    # a length that two bytes do not hold is written as the greatest that they do: too long for any field, and refused
    return struct.pack(">BH", tag, min(len(content), 0xFFFF)) + content


def _named(names: Sequence[str]) -> bytes:
    # what is no ASCII becomes bytes that no name may have, and is refused
    return _field(1, b"\0\1") + b"".join(_field(2, name.encode("utf-8", "surrogatepass")) for name in names)


def _encoded(names: Sequence[str], codes: Sequence[int]) -> bytes:
    # numbers past 256 are of names that are too many, which is refused before the formula is looked at
    return _named(names) + _field(3, b"".join(struct.pack(">H", min(code, 0xFFFF)) for code in codes))


def _operation_last(codes: Sequence[int]) -> Tuple[int, ...]:
    """Codes with the operation first, in postfix order. Read from the end, both operands of an operation are complete before it."""
    waiting: list[Tuple[int, ...]] = []
    for code in reversed(codes):
        waiting.append((code,) if code < 256 else (*waiting.pop(), *waiting.pop(), code))
    return waiting[0]
