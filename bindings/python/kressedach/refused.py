"""Why a job gave no answer."""

from __future__ import annotations

import enum
from typing import Any, Optional

#: What each number means: the column "given when" of the table in docs/SHEET.md.
MEANINGS = {
    1: "the sheet ends too soon",
    2: "a tag that is unknown or out of place",
    3: "the header's length or edition is wrong",
    4: "a name has a wrong length, or a byte that is not 0x21 to 0x7E",
    5: "a name that is taken already",
    6: "more than 256 names, or a formula longer than 4094 bytes",
    7: "the formula is wrong",
    8: "the contracted tree is higher than 57: proved never to come",
    9: "an answer list is too short",
    10: "a shape number that no name has",
    11: "a line number falls, or a position falls within its line",
    12: "given no more: a shape crossed an odd number of times on a line",
    13: "lists that go together differ in length (crossings, another's walls, edits), "
    "or an order does not mix the lists of two foundries",
    14: "the start rows' length is no multiple of the number of names, they are more than 4294967296, "
    "or a byte is neither 0 nor 1; of lines to cross: they are more than 4294967296",
    15: "a position at an end mark, -2147483648 or 2147483647, or a line with no start row",
    16: "half-spaces and boxes: more than 256, the line (a number that is not finite, or a direction all zero), "
    "or a shape (an axis above 2, a number that is not finite, a low not below its high, "
    "a position that is not finite or outside -2147483647 to 2147483646)",
    17: "a customer's name that a fitting has",
    18: "balls: more than 256, or an offset, a radius or a centre out of its range",
    19: "a move to edition 2 of a sheet with an exclusive union",
    20: "an edit of a node that is no operation, to a code that is none, "
    "or at a moment that falls or exceeds the toggles",
}

#: The place of 16 where the line is at fault.
THE_LINE = 65535

#: The place of 16 and 18 where there are more than 256 shapes or balls.
TOO_MANY = 256


class Which(enum.IntEnum):
    """The sheet that a refusal's place is in."""

    NONE = 0
    FITTINGS = 1
    CUSTOMERS = 2


class Refused(Exception):
    """A job's refusal: its number, the sheet that its place is in, and its place.

    It is raised exactly when the library refuses a call, and then no list was written. ``docs/SHEET.md`` has the table of numbers and
    places, and the order in which each job asks.

    >>> import kressedach
    >>> try:
    ...     kressedach.Sheet(b"\\x01\\x00\\x02\\x00\\x07")
    ... except kressedach.Refused as refused:
    ...     print(refused)
    ...     refused.number, refused.sheet.name, refused.place
    refused 3 at byte 0 of the customer's sheet: the header's length or edition is wrong
    (3, 'CUSTOMERS', 0)

    ``line`` is the line that a refusal of many lines is of, where it is of one. ``partition`` is the partition that was refused, where
    lines were cut into partitions; place and line are then those of the whole.
    """

    def __init__(
        self, number: int, sheet: int, place: int, line: Optional[int] = None, partition: Optional[int] = None
    ) -> None:
        super().__init__(number, sheet, place, line, partition)
        self.number = number
        self.sheet = Which(sheet)
        self.place = place
        self.line = line
        self.partition = partition

    @property
    def meaning(self) -> str:
        """What the number means, in the words of ``docs/SHEET.md``."""
        return MEANINGS.get(self.number, "unknown")

    @property
    def place_in_words(self) -> str:
        """The place in words; nothing where the number has no place."""
        if self.sheet is Which.FITTINGS:
            return f"at byte {self.place} of the fittings sheet"
        if self.sheet is Which.CUSTOMERS or self.number == 19:
            return f"at byte {self.place} of the customer's sheet"
        if self.number == 9:
            return f"for want of {self.place} entries"
        if self.number in (10, 11, 15, 20):
            return f"at entry {self.place}"
        if self.number == 16 and self.place == THE_LINE:
            return "for the line"
        if self.number in (16, 18) and self.place != TOO_MANY:
            return f"at {'shape' if self.number == 16 else 'ball'} {self.place}"
        return ""

    def __str__(self) -> str:
        on_line = "" if self.line is None else f"on line {self.line}"
        in_partition = "" if self.partition is None else f"in partition {self.partition}"
        words = (f"refused {self.number}", self.place_in_words, on_line, in_partition)
        return f"{' '.join(word for word in words if word)}: {self.meaning}"

    def __eq__(self, other: Any) -> bool:
        return isinstance(other, Refused) and self.args == other.args

    def __hash__(self) -> int:
        return hash(self.args)
