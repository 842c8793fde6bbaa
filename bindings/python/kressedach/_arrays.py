"""Arrays as they are lent to the library: taken as they are, or refused in words that name the argument."""

from __future__ import annotations

from functools import lru_cache
from typing import Any, Iterable, List, NamedTuple, Optional, Tuple

import numpy as np
from numpy.typing import NDArray

from ._given import a

Array = NDArray[Any]


class Kind(NamedTuple):
    """A list of a job: its name, its type, and whether it is written."""

    name: str
    dtype: Any
    written: bool


def lend(kinds: Iterable[Kind], given: Iterable[Any], copy: bool) -> Tuple[List[Array], List[int]]:
    """Arrays that are fit to be lent in one call, to be held until it is over; and of each its address and its number of entries."""
    held: List[Array] = []
    arguments: List[int] = []
    taken: List[Tuple[int, int, bool, str]] = []
    for (name, dtype, is_written), one in zip(kinds, given):
        array = written(name, one, dtype) if is_written else read(name, one, dtype, copy=copy)
        first = address(array)
        held.append(array)
        arguments += (first, array.size)
        if first:
            taken.append((first, first + array.nbytes, is_written, name))
    _are_apart(taken)
    return held, arguments


def read(name: str, given: Any, dtype: Any, *, copy: bool = False, width: Optional[int] = None) -> Array:
    """A list that is read, flat. With a width it is a table, and has that many columns."""
    array = _copied(name, given, of(dtype)) if copy else _as_it_is(name, given, of(dtype))
    return _flat(name, array, width)


def written(name: str, given: Any, dtype: Any) -> Array:
    """A list that is written."""
    array = _as_it_is(name, given, of(dtype))
    if not array.flags.writeable:
        raise ValueError(f"{name}: the array is written to, and this one is read-only")
    return _flat(name, array, None)


def rooms(entries: int, *dtypes: Any) -> List[Array]:
    """Lists to be written, of so many entries, the wider types first. They stand in one piece of memory, since the system gives a large
    piece in large pages, and most of the time that a list costs is that of its pages."""
    sizes = [of(dtype).itemsize * entries for dtype in dtypes]
    memory, at, lists = np.empty(sum(sizes), np.uint8), 0, []
    for size, dtype in zip(sizes, dtypes):
        lists.append(memory[at : at + size].view(dtype))
        at += size
    return lists


def address(array: Array) -> int:
    """Where its first entry is; 0 where it has none, since numpy calls an array with no entries aligned wherever it is."""
    return int(array.__array_interface__["data"][0]) if array.size else 0


def _are_apart(taken: List[Tuple[int, int, bool, str]]) -> None:
    """No array that is written shares memory with another one of the call: where each begins and ends, whether it is written, its name."""
    taken.sort()
    reach, owner, owned = 0, "", False
    for first, past, is_written, name in taken:
        if first < reach and (is_written or owned):
            raise ValueError(f"{owner} and {name}: the arrays overlap, and one of them is written to")
        if past > reach:
            reach, owner, owned = past, name, is_written


def same_length(**arrays: Array) -> None:
    """Lists that go together have one length."""
    (first, length), *others = ((name, len(array)) for name, array in arrays.items())
    for name, entries in others:
        if entries != length:
            raise ValueError(f"{name}: {entries} entries, and {first} has {length}")


@lru_cache(maxsize=None)
def of(name: Any) -> Any:
    """The type of this name."""
    return np.dtype(name)


def _array(name: str, given: Any, dtype: Any) -> Array:
    kind = type(given)
    if not issubclass(kind, np.ndarray) or issubclass(kind, np.ma.MaskedArray):
        raise TypeError(f"{name}: a numpy array of {dtype} is needed, and this is {a(kind.__name__)}")
    return np.asarray(given)


def _as_it_is(name: str, given: Any, dtype: Any) -> Array:
    array = given if type(given) is np.ndarray else _array(name, given, dtype)
    if array.dtype is not dtype and array.dtype != dtype:
        if array.dtype.newbyteorder("=") == dtype:
            raise ValueError(f"{name}: the array has its bytes in the other order")
        raise TypeError(f"{name}: an array of {dtype} is needed, and this one is of {array.dtype}")
    flags = array.flags
    if not flags.c_contiguous:
        raise ValueError(f"{name}: the array's entries do not stand one after the other in memory")
    if not flags.aligned:
        raise ValueError(f"{name}: the array is not aligned for its entries")
    return array


def _copied(name: str, given: Any, dtype: Any) -> Array:
    """A copy, whatever the layout, where the type holds each entry as it is. What is copied is looked at once: it may change meanwhile."""
    if isinstance(given, np.ma.MaskedArray):
        raise TypeError(f"{name}: a numpy array of {dtype} is needed, and this is {a(type(given).__name__)}")
    try:
        copy = np.array(given, order="C", copy=True)
    except ValueError as wrong:
        raise ValueError(f"{name}: {wrong}") from None
    if copy.size == 0 and not isinstance(given, np.ndarray):
        return copy.astype(dtype)
    return copy if copy.dtype == dtype else _converted(name, copy, dtype)


def _converted(name: str, array: Array, dtype: Any) -> Array:
    """The same entries in another type, which has to hold them."""
    whole = array.dtype.kind in "iu" and dtype.kind in "iu"
    if not whole and not np.can_cast(array.dtype, dtype, "safe"):
        raise TypeError(f"{name}: an array of {dtype} is needed, and this one is of {array.dtype}")
    converted = array.astype(dtype)
    with np.errstate(invalid="ignore"):
        # numpy compares whole numbers with doubles as doubles: 2**53 + 1 would be 2**53
        kept = converted == array if whole else converted.astype(array.dtype) == array
    if array.dtype.kind in "iu" and not kept.all():
        index = np.argwhere(~kept)[0]
        raise ValueError(f"{name}: entry {', '.join(map(str, index))} is {array[tuple(index)]}, which is no {dtype}")
    return converted


def _flat(name: str, array: Array, width: Optional[int]) -> Array:
    if width is None and array.ndim == 1:
        return array
    dimensions = 1 if width is None else 2
    if array.ndim != dimensions:
        raise ValueError(f"{name}: an array of {dimensions} dimension{'s'[: dimensions - 1]} is needed, and this one has {array.ndim}")
    if width is not None and array.shape[1] != width:
        raise ValueError(f"{name}: a row of the array has {array.shape[1]} entries, and {width} are needed")
    return array.reshape(-1)
