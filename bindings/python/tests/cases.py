"""Cases as bindings/rust/peer/src/bin/peer_cases.rs writes them."""

import ctypes
import mmap
import struct
from typing import NamedTuple

import numpy as np


class Lent(NamedTuple):
    """An answer list: its room, and the entries that are due."""

    room: int
    due: np.ndarray


class Case(NamedTuple):
    """A call, and what is due."""

    job: str
    given: list
    lent: list
    report: list


class _File:
    def __init__(self, path):
        self.bytes, self.at = memoryview(path.read_bytes()), 0

    def number(self):
        (number,) = struct.unpack_from("<Q", self.bytes, self.at)
        self.at += 8
        return number

    def list(self):
        """The bytes of a list, each entry of so many; the caller knows their type."""
        size, length = self.number(), self.number()
        self.at += size * length
        return np.frombuffer(self.bytes, np.uint8, size * length, self.at - size * length).reshape(length, size)

    def lent(self):
        return Lent(self.number(), self.list())

    def case(self):
        job = self.list().tobytes().decode()
        given = [self.list() for _ in range(self.number())]
        lent = [self.lent() for _ in range(self.number())]
        return Case(job, given, lent, self.list().view(np.uint64).reshape(-1).tolist())


def cases(path):
    """All cases of a file."""
    file = _File(path)
    while file.at < len(file.bytes):
        yield file.case()


def typed(entries, dtype):
    """A list's bytes as entries of a type: an array of its own, aligned."""
    assert entries.shape[1] == np.dtype(dtype).itemsize
    return entries.copy().view(dtype).reshape(-1)


class Guarded:
    """Arrays that end where memory ends, or begin where it begins: pages that nobody may touch stand on both sides."""

    _protect = ctypes.CDLL(None).mprotect

    def __init__(self, at_the_end):
        self.at_the_end = at_the_end

    def __call__(self, array):
        """A copy of an array, there."""
        inside = max(1, -(-array.nbytes // mmap.PAGESIZE)) * mmap.PAGESIZE
        memory = np.frombuffer(mmap.mmap(-1, inside + 2 * mmap.PAGESIZE), np.uint8)
        for page in (0, mmap.PAGESIZE + inside):
            assert self._protect(ctypes.c_void_p(memory.ctypes.data + page), ctypes.c_size_t(mmap.PAGESIZE), 0) == 0
        first = mmap.PAGESIZE + (inside - array.nbytes if self.at_the_end else 0)
        there = memory[first : first + array.nbytes].view(array.dtype)
        there[:] = array
        return there
