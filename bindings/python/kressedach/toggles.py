"""The contracted tree of a sheet, and toggles that run on it."""

from __future__ import annotations

from typing import Any, List, NamedTuple, Tuple, Union

import numpy as np
from numpy.typing import NDArray

from . import _arrays, _given, lent
from .lent import Size
from .refused import Refused
from .sheets import Sheet

#: No contracted tree has more nodes.
MOST_NODES = 3069

#: What stands in a node's record where there is no number.
NONE = 65535

#: A node's record: its kind (0 a leaf, 1 to 4 E, 5 to 12 R, 13 S, 14 C, as docs/SHEET.md has them), and two numbers.
NODE = np.dtype([("kind", np.uint16), ("first", np.uint16), ("second", np.uint16)])

#: Toggles: an array of shape numbers (uint16), or the shapes' names.
Toggles = Union[NDArray[np.uint16], List[str], Tuple[str, ...]]


class Tree(NamedTuple):
    """A contracted tree: its size, and a record for each node, the root last."""

    size: Size
    nodes: NDArray[np.void]


class Ran(NamedTuple):
    """What a run answers: for each toggle whether the solid is inside after it and how many labels were reworked; the labels at the end."""

    roots: NDArray[np.bool_]
    counts: NDArray[np.uint32]
    labels: NDArray[np.uint8]


class Edited(NamedTuple):
    """What a run with edits answers: that of the run, and how many labels each edit reworked."""

    ran: Ran
    edit_counts: NDArray[np.uint32]


def build(sheet: Sheet) -> Tree:
    """Builds the contracted ("dwarf") tree of a sheet. Refusal: 8, which is proved never to come.

    >>> from kressedach import Sheet, shapes
    >>> a, b, c = shapes("A", "B", "C")
    >>> tree = build(Sheet.of(a - (b | c)))
    >>> tree.size
    Size(leaves=3, nodes=6, rounds=2, height=2)
    >>> tree.nodes[3:].tolist()
    [(1, 1, 2), (7, 0, 65535), (13, 4, 3)]
    """
    lists = np.empty((3, MOST_NODES), np.uint16)
    size = lent.build(sheet, *lists)
    nodes = np.empty(size.nodes, NODE)
    for field, numbers in zip(("kind", "first", "second"), lists):
        nodes[field] = numbers[: size.nodes]
    return Tree(size, nodes)


def run(sheet: Sheet, toggles: Toggles, *, copy: bool = False) -> Ran:
    """Runs toggles: every shape is outside at first, and each toggle takes one shape to its other side. Refusals: 8, 10.

    >>> from kressedach import Sheet, shapes
    >>> a, b, c = shapes("A", "B", "C")
    >>> ran = run(Sheet.of(a - (b | c)), ["A", "B", "C", "A"])
    >>> ran.roots.tolist(), ran.counts.tolist(), ran.labels.tolist()
    ([True, False, False, False], [2, 2, 1, 2], [0, 1, 1, 1, 0, 0])
    """
    numbers = _numbers("toggles", sheet, toggles, copy)
    lists = _Lists(len(numbers))
    return lists.ran(lent.run(sheet, numbers, *lists.all))


def run_both(
    sheet: Sheet, order: NDArray[np.uint8], first: Toggles, second: Toggles, *, copy: bool = False
) -> Tuple[Union[Ran, Refused], Union[Ran, Refused]]:
    """Runs the toggles of two foundries on one tree: each gets what :func:`run` gives for its list alone.

    The order mixes the lists: a byte a turn, 0 for the first foundry and 1 for the second. What is refused to both is raised, 8 and 13;
    what is refused to one alone, 10, stands in its place, and the other's answer is whole.

    >>> import numpy
    >>> from kressedach import Sheet, shapes
    >>> a, b = shapes("A", "B")
    >>> first, second = run_both(Sheet.of(a - b), numpy.array([0, 1, 0], "uint8"), ["A", "B"], numpy.array([7], "uint16"))
    >>> first.roots.tolist(), str(second)
    ([True, False], 'refused 10 at entry 0: a shape number that no name has')
    """
    turns = _arrays.read("order", order, "uint8", copy=copy)
    firsts, seconds = _numbers("first", sheet, first, copy), _numbers("second", sheet, second, copy)
    to_first, to_second = _Lists(len(firsts)), _Lists(len(seconds))
    told = lent.run_both(sheet, turns, firsts, seconds, *to_first.all, *to_second.all)
    return to_first.told(told[0]), to_second.told(told[1])


def run_edited(
    sheet: Sheet,
    toggles: Toggles,
    moments: NDArray[np.uint64],
    positions: NDArray[np.uint16],
    codes: NDArray[np.uint16],
    *,
    copy: bool = False,
) -> Edited:
    """Runs toggles while operations of the formula become others: after how many toggles, which by its postfix position, and its new code.

    Refusals: 8, 10, 20.

    >>> import numpy
    >>> from kressedach import Operation, Sheet, shapes
    >>> a, b = shapes("A", "B")
    >>> edited = run_edited(Sheet.of(a - b), ["B", "A"], [1], [2], [Operation.UNION], copy=True)
    >>> edited.ran.roots.tolist(), edited.edit_counts.tolist()
    ([False, True], [1])
    """
    numbers = _numbers("toggles", sheet, toggles, copy)
    moments = _arrays.read("moments", moments, "uint64", copy=copy)
    positions = _arrays.read("positions", positions, "uint16", copy=copy)
    codes = _arrays.read("codes", codes, "uint16", copy=copy)
    _arrays.same_length(moments=moments, positions=positions, codes=codes)
    lists, edit_counts = _Lists(len(numbers)), np.empty(len(moments), np.uint32)
    roots, counts, labels = lists.all
    nodes = lent.run_edited(sheet, numbers, moments, positions, codes, roots, counts, labels, edit_counts)
    return Edited(lists.ran(nodes), edit_counts)


class _Lists:
    """The answer lists of a run."""

    def __init__(self, toggles: int) -> None:
        self.all = np.empty(toggles, np.uint8), np.empty(toggles, np.uint32), np.empty(MOST_NODES, np.uint8)

    def ran(self, nodes: int) -> Ran:
        roots, counts, labels = self.all
        return Ran(roots.view(np.bool_), counts, labels[:nodes])

    def told(self, nodes: Union[int, Refused]) -> Union[Ran, Refused]:
        return nodes if isinstance(nodes, Refused) else self.ran(nodes)


def _numbers(name: str, sheet: Sheet, toggles: Any, copy: bool) -> NDArray[np.uint16]:
    """Shape numbers, of an array or of names."""
    _given.instance("sheet", sheet, Sheet, "a Sheet")
    if isinstance(toggles, np.ndarray) or (copy and not _are_names(toggles)):
        return _arrays.read(name, toggles, "uint16", copy=copy)
    if not _are_names(toggles):
        raise TypeError(f"{name}: a numpy array of uint16 or a list of names is needed, and this is a {type(toggles).__name__}")
    return sheet.numbers(toggles)


def _are_names(toggles: Any) -> bool:
    return isinstance(toggles, (list, tuple)) and all(isinstance(name, str) for name in toggles)
