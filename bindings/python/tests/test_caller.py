"""What nobody else checks of a caller: rounding, subnormal numbers, the stack of a thread."""

import ctypes
import ctypes.util
import os
import platform
import re
import subprocess
import sys
import threading

import numpy as np
import pytest

import kressedach
from kressedach import _caller

#: FE_DOWNWARD and its kind, as <fenv.h> has them.
ROUNDING = {"aarch64": (0x400000, 0x800000, 0xC00000), "x86_64": (0x400, 0x800, 0xC00)}


def crossing():
    drawing = kressedach.Drawing.of_lists(np.zeros(1, np.uint8), np.zeros((1, 6)))
    return kressedach.cross(drawing, np.array([[0.0, 0, 0, 1, 0, 0]]))


def test_another_rounding_is_refused():
    libm = ctypes.CDLL(ctypes.util.find_library("m"))
    for mode in ROUNDING[platform.machine()]:
        assert libm.fesetround(mode) == 0
        try:
            with pytest.raises(FloatingPointError, match="does not round to nearest"):
                crossing()
        finally:
            libm.fesetround(0)
    crossing()


#: Sets bits of the processor's word for doubles, and gives what it was.
FLUSHES = """
#if defined __x86_64__
unsigned long set(unsigned long word) { unsigned was = __builtin_ia32_stmxcsr(); __builtin_ia32_ldmxcsr((unsigned)word); return was; }
#elif defined __aarch64__
unsigned long set(unsigned long word) { unsigned long was; __asm__ volatile("mrs %0, fpcr" : "=r"(was)); __asm__ volatile("msr fpcr, %0" :: "r"(word)); return was; }
#endif
"""
#: What takes subnormal numbers for zero: results, operands, both. Arm has one bit for both.
FLUSHING = {"aarch64": (1 << 24,), "x86_64": (1 << 15, 1 << 6, 1 << 15 | 1 << 6)}


def test_subnormal_numbers_taken_for_zero_are_refused(tmp_path):
    """As a library does that was linked with -ffast-math."""
    source, made = tmp_path / "set.c", tmp_path / "set.so"
    source.write_text(FLUSHES)
    subprocess.run([os.environ.get("CC", "cc"), "-shared", "-fPIC", str(source), "-o", str(made)], check=True)
    set_word = ctypes.CDLL(str(made)).set
    set_word.argtypes, set_word.restype = [ctypes.c_ulong], ctypes.c_ulong
    was = set_word({"aarch64": 0, "x86_64": 0x1F80}[platform.machine()])
    try:
        for bits in FLUSHING[platform.machine()]:
            set_word(was | bits)
            try:
                with pytest.raises(FloatingPointError, match="subnormal numbers"):
                    crossing()
            finally:
                set_word(was)
    finally:
        set_word(was)
    crossing()


def in_a_thread(size, call):
    told = []

    def told_of():
        try:
            told.append(call())
        except RuntimeError as refused:
            told.append(str(refused))

    before = threading.stack_size(size)
    try:
        thread = threading.Thread(target=told_of)
        thread.start()
    finally:
        threading.stack_size(before)
    thread.join()
    return told[0]


def test_a_thread_with_a_small_stack_is_refused(block):
    def read():
        return kressedach.lent.read(block).names

    said = "this thread has a stack of 262144 bytes, and the library needs 1048576: see threading.stack_size"
    assert in_a_thread(256 * 1024, read) == said
    assert in_a_thread(2 * 1024 * 1024, read) == 2
    assert in_a_thread(_caller.ENOUGH_STACK, read) == 2


def deeper(call):
    """Calls from deeper and deeper, through what takes C's stack at each step, until it is refused; gives what was said."""

    class Step:
        def __eq__(self, _):
            call()
            return Step() in (Step(),)

    try:
        Step() in (Step(),)
    except RuntimeError as refused:
        return str(refused)


def test_a_call_from_too_deep_down_is_refused(block):
    """What is left of the stack counts, and not what it was."""
    limit = sys.getrecursionlimit()
    sys.setrecursionlimit(100_000)
    try:
        said = in_a_thread(_caller.ENOUGH_STACK, lambda: deeper(lambda: kressedach.lent.read(block)))
    finally:
        sys.setrecursionlimit(limit)
    left = int(re.match(r"this thread has (\d+) bytes of its stack left, and the library needs 327680: ", said)[1])
    assert 327680 - 65536 < left < 327680


def test_the_stack_pointer_is_where_it_is_looked_for():
    """Within the stack, of the first thread and of another."""
    for left, size in (both() for both in (stack_left, lambda: in_a_thread(2 * 1024 * 1024, stack_left))):
        assert size - 262144 < left < size


def stack_left():
    thread = _caller._Thread()
    return thread.left(), thread.stack.size


def test_the_deepest_sheet_on_the_smallest_stack():
    """2047 operations of edition 2, which are read by descent: refused, and nothing is overrun."""
    deepest = b"\1\0\2\0\2\2\0\1A\4" + (4094).to_bytes(2, "big") + b"\xFF\xF0" * 2047

    def number():
        return pytest.raises(kressedach.Refused, kressedach.Sheet, deepest).value.number

    assert in_a_thread(_caller.ENOUGH_STACK, number) == 7
