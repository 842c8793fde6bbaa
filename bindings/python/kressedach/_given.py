"""What is given and no array: taken as it is, or refused in words that name the argument."""

from __future__ import annotations

import operator
from numbers import Real
from typing import Any, Iterable, Tuple


def a(name: str) -> str:
    """The name of a type, with its article."""
    return f"{'an' if name[:1] in 'aeiouAEIOU' else 'a'} {name}"


def instance(name: str, given: Any, kind: Any, words: str) -> None:
    """Something of a kind, which is told in words."""
    if not isinstance(given, kind):
        raise TypeError(f"{name}: {words} is needed, and this is {a(type(given).__name__)}")


def number(name: str, given: Any) -> float:
    """A number, as a double holds it."""
    instance(name, given, Real, "a number")
    try:
        return float(given)
    except OverflowError:
        raise ValueError(f"{name}: the number is more than a double holds") from None


def numbers(name: str, given: Any, count: int) -> Tuple[float, ...]:
    """So many numbers, as doubles hold them."""
    entries = each(name, given, f"{count} numbers")
    if len(entries) != count:
        raise ValueError(f"{name}: {count} numbers are needed, and this has {len(entries)}")
    return tuple(number(name, entry) for entry in entries)


def each(name: str, given: Iterable[Any], words: str) -> Tuple[Any, ...]:
    """The entries of what has entries; text has none."""
    if isinstance(given, (str, bytes)):
        raise TypeError(f"{name}: {words} are needed, and this is {a(type(given).__name__)}")
    try:
        return tuple(given)
    except TypeError:
        raise TypeError(f"{name}: {words} are needed, and this is {a(type(given).__name__)}") from None


def index(name: str, given: Any, past: int) -> int:
    """A whole number from 0 on, below another."""
    try:
        whole = operator.index(given)
    except TypeError:
        raise TypeError(f"{name}: a whole number is needed, and this is {a(type(given).__name__)}") from None
    if not 0 <= whole < past:
        raise ValueError(f"{name}: a number from 0 to {past - 1} is needed, and this is {whole}")
    return whole
