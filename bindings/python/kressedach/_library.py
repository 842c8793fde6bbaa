"""The shared library: where it is, and its functions as ``bindings/c/kressedach.h`` declares them.

Nothing checks these declarations when the library is loaded; ``tests/test_declared.py`` compares them with the header.
"""

from __future__ import annotations

import ctypes
import ctypes.util
import os
from ctypes import Structure, c_bool, c_double, c_size_t, c_uint8, c_void_p
from functools import lru_cache
from pathlib import Path
from typing import Any, Dict, NamedTuple, Type

NAME = "libkressedach.so"

#: The version of the header that is declared here. A library of another one is not called: its reports may be larger.
VERSION = (0, 1, 0)

_NUMBER, _SHEET, _PLACE = ("number", c_uint8), ("sheet", c_uint8), ("place", c_size_t)


def _values(*names: str) -> list[tuple[str, Any]]:
    return [(name, c_size_t) for name in names]


class ReadReport(Structure):
    _fields_ = [_NUMBER, _SHEET, _PLACE, *_values("names", "leaves", "first", "past")]


class NameReport(Structure):
    _fields_ = [_NUMBER, _SHEET, _PLACE, *_values("first", "past")]


class NamesReport(Structure):
    _fields_ = [_NUMBER, _SHEET, _PLACE, *_values("names")]


class MoveReport(Structure):
    _fields_ = [_NUMBER, _SHEET, _PLACE, *_values("length")]


class BuildReport(Structure):
    _fields_ = [_NUMBER, _SHEET, _PLACE, *_values("leaves", "nodes", "rounds", "height")]


class RunReport(Structure):
    _fields_ = [_NUMBER, _SHEET, _PLACE, *_values("nodes")]


class BothReport(Structure):
    _fields_ = [("first", RunReport), ("second", RunReport)]


class ClassifyReport(Structure):
    _fields_ = [_NUMBER, _SHEET, _PLACE, *_values("walls")]


class JudgeReport(Structure):
    _fields_ = [_NUMBER, _SHEET, ("right", c_bool), _PLACE, *_values("index")]


class CrossReport(Structure):
    _fields_ = [_NUMBER, _PLACE, *_values("shapes", "crossings")]


class CrossManyReport(Structure):
    _fields_ = [_NUMBER, _PLACE, *_values("line", "lines", "crossings")]


class Job(NamedTuple):
    """A function of the header: after its report come the sheets, numbers, lists that it reads, lists that it writes."""

    report: Type[Structure]
    reads: Dict[str, str] = {}
    writes: Dict[str, str] = {}
    numbers: Dict[str, Any] = {}
    of_sheets: bool = True

    @property
    def argtypes(self) -> list[Any]:
        a_list = [c_void_p, c_size_t]
        sheets = [c_bool, *a_list, *a_list] if self.of_sheets else []
        lists = a_list * (len(self.reads) + len(self.writes))
        return [ctypes.POINTER(self.report), *sheets, *self.numbers.values(), *lists]


_CROSSINGS = {"rows": "uint8", "lines": "uint32", "positions": "int32", "shapes": "uint16"}
_RAN = {"roots": "uint8", "counts": "uint32", "labels": "uint8"}
_CROSSED = {"starts": "uint8", "positions": "int32", "shapes": "uint16"}
_SHAPES = {"kinds": "uint8", "numbers": "float64"}

#: Every job, by the name that stands after ``kressedach_`` in the header.
JOBS: Dict[str, Job] = {
    "read": Job(ReadReport),
    "name": Job(NameReport, numbers={"shape": c_size_t}),
    "names": Job(NamesReport, writes={"sheets": "uint8", "firsts": "uintp", "pasts": "uintp"}),
    "move": Job(MoveReport, writes={"moved": "uint8"}),
    "build": Job(BuildReport, writes={"kinds": "uint16", "firsts": "uint16", "seconds": "uint16"}),
    "run": Job(RunReport, {"toggles": "uint16"}, _RAN),
    "run_both": Job(
        BothReport,
        {"order": "uint8", "first": "uint16", "second": "uint16"},
        {f"{foundry}_{name}": dtype for foundry in ("first", "second") for name, dtype in _RAN.items()},
    ),
    "run_edited": Job(
        RunReport,
        {"toggles": "uint16", "moments": "uint64", "positions": "uint16", "codes": "uint16"},
        {**_RAN, "edit_counts": "uint32"},
    ),
    "classify": Job(
        ClassifyReport,
        _CROSSINGS,
        {"wall_lines": "uint32", "starts": "int32", "ends": "int32", "start_shapes": "uint16", "end_shapes": "uint16"},
    ),
    "judge": Job(JudgeReport, {**_CROSSINGS, "their_lines": "uint32", "their_starts": "int32", "their_ends": "int32"}),
    "cross": Job(
        CrossReport,
        _SHAPES,
        _CROSSED,
        {name: c_double for name in ("ox", "oy", "oz", "dx", "dy", "dz")},
        of_sheets=False,
    ),
    "cross_many": Job(
        CrossManyReport,
        {**_SHAPES, "lines": "float64"},
        {"rows": "uint8", "line_numbers": "uint32", "positions": "int32", "shapes": "uint16"},
        of_sheets=False,
    ),
    "cross_balls": Job(CrossReport, {"numbers": "int32"}, _CROSSED, of_sheets=False),
}


def _place() -> str:
    """Where the library is: the file that the environment names, else the package's own, else the system's."""
    named = os.environ.get("KRESSEDACH_LIBRARY")
    if named:
        return os.path.abspath(named)
    inside = Path(__file__).with_name(NAME)
    return str(inside) if inside.exists() else ctypes.util.find_library("kressedach") or NAME


def _is_of_this_version(loaded: Any) -> None:
    if not hasattr(loaded, "kressedach_version"):
        raise ImportError(f"kressedach: {loaded._name} does not say its version: it is not the library, or too old")
    loaded.kressedach_version.argtypes, loaded.kressedach_version.restype = [], ctypes.c_uint32
    number = loaded.kressedach_version()
    version = (number // 1000000, number // 1000 % 1000, number % 1000)
    if version[:2] != VERSION[:2]:
        said, due = (".".join(map(str, of)) for of in (version, VERSION))
        raise ImportError(f"kressedach: {loaded._name} is of version {said}, and this package is for {due}")


@lru_cache(maxsize=None)
def library() -> Dict[str, Any]:
    """The library's functions by their names. A call of one lets other threads run."""
    try:
        loaded = ctypes.CDLL(_place())
    except OSError as wrong:
        raise ImportError(
            f"kressedach: no shared library: {wrong}. KRESSEDACH_LIBRARY may name the file {NAME}; "
            "bindings/python/wheel makes a package with it inside"
        ) from wrong
    _is_of_this_version(loaded)
    functions = {}
    for name, job in JOBS.items():
        function = getattr(loaded, f"kressedach_{name}", None)
        if function is None:
            raise ImportError(f"kressedach: {loaded._name} has no kressedach_{name}: it is not the whole library")
        function.argtypes, function.restype = job.argtypes, None
        functions[name] = function
    return functions
