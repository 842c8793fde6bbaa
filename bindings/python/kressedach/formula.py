"""Formulas of named shapes, made with Python's own operators."""

from __future__ import annotations

import enum
from typing import Any, Iterable, Sequence, Tuple, Union

from . import _given


class Operation(enum.IntEnum):
    """An operation of a formula, by its code in a sheet."""

    UNION = 0xFFF0
    INTERSECTION = 0xFFF1
    DIFFERENCE = 0xFFF2
    EXCLUSIVE = 0xFFF3


_SIGNS = {Operation.UNION: "|", Operation.INTERSECTION: "&", Operation.DIFFERENCE: "-", Operation.EXCLUSIVE: "^"}


class Formula:
    """A named shape, or an operation on two formulas.

    ``a | b`` is inside a, b or both, ``a & b`` inside both, ``a - b`` inside a and not b, ``a ^ b`` inside one of them and not both. A
    subtraction does not read either way round, and names that differ in case are two.

    >>> block, bore, port = shapes("Block", "Bore", "port")
    >>> (block - bore) | port
    ((Block - Bore) | port)
    >>> ((block - bore) | port).names
    ('Block', 'Bore', 'port')
    """

    __slots__ = ("_postfix",)

    def __init__(self, name: str) -> None:
        _given.instance("name", name, str, "a str")
        self._postfix: Tuple[Union[str, Operation], ...] = (name,)

    @classmethod
    def of_postfix(cls, postfix: Iterable[Union[str, Operation]]) -> Formula:
        """The formula of names and operations, each operation after its two operands.

        >>> Formula.of_postfix(["A", "B", Operation.DIFFERENCE])
        (A - B)
        """
        formula = object.__new__(cls)
        formula._postfix = _given.each("postfix", postfix, "names and operations")
        formula._is_whole()
        return formula

    @property
    def postfix(self) -> Tuple[Union[str, Operation], ...]:
        """Names and operations, each operation after its two operands."""
        return self._postfix

    @property
    def names(self) -> Tuple[str, ...]:
        """The names of its shapes, each once, in the order in which they stand in it."""
        return tuple(dict.fromkeys(part for part in self._postfix if isinstance(part, str)))

    def codes(self, names: Sequence[str]) -> list[int]:
        """Its codes in postfix order, where the k-th of these names is shape k."""
        numbers = {name: number for number, name in reversed(list(enumerate(names)))}
        unknown = [name for name in self.names if name not in numbers]
        if unknown:
            raise ValueError(f"names: there is no {unknown[0]}, which the formula has")
        return [part.value if isinstance(part, Operation) else numbers[part] for part in self._postfix]

    def _is_whole(self) -> None:
        """A ValueError where names and operations are no formula, a TypeError where they are something else."""
        waiting = 0
        for part in self._postfix:
            _given.instance("postfix", part, (str, Operation), "a name or an Operation")
            if isinstance(part, Operation) and waiting < 2:
                raise ValueError(f"postfix: {part.name} has fewer than two operands before it")
            waiting += -1 if isinstance(part, Operation) else 1
        if waiting != 1:
            raise ValueError(f"postfix: {waiting} operands are left, and one is needed")

    def _with(self, other: object, operation: Operation) -> Formula:
        if not isinstance(other, Formula):
            return NotImplemented
        formula = object.__new__(Formula)
        formula._postfix = (*self._postfix, *other._postfix, operation)
        return formula

    def __or__(self, other: object) -> Formula:
        return self._with(other, Operation.UNION)

    def __and__(self, other: object) -> Formula:
        return self._with(other, Operation.INTERSECTION)

    def __sub__(self, other: object) -> Formula:
        return self._with(other, Operation.DIFFERENCE)

    def __xor__(self, other: object) -> Formula:
        return self._with(other, Operation.EXCLUSIVE)

    def __eq__(self, other: object) -> bool:
        return isinstance(other, Formula) and self._postfix == other._postfix

    def __hash__(self) -> int:
        return hash(self._postfix)

    def __repr__(self) -> str:
        # flat, so that no depth of a formula is a depth of the stack
        waiting: list[str] = []
        for part in self._postfix:
            if isinstance(part, Operation):
                right, left = waiting.pop(), waiting.pop()
                waiting.append(f"({left} {_SIGNS[part]} {right})")
            else:
                waiting.append(part)
        return waiting[0]

    def __reduce__(self) -> Tuple[Any, ...]:
        return Formula.of_postfix, (self._postfix,)


def shapes(*names: str) -> Tuple[Formula, ...]:
    """A formula for each name, to put together with ``|``, ``&``, ``-`` and ``^``.

    >>> block, bore = shapes("Block", "Bore")
    >>> block - bore
    (Block - Bore)
    """
    return tuple(Formula(name) for name in names)
