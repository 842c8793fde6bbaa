"""What a caller has to keep of the thread and its processor, asked before a call."""

from __future__ import annotations

import ctypes
import platform
import threading
from typing import NamedTuple

#: Bytes of stack that a thread has to have, for the library and for what Python has on it: four times the 256 kilobytes of the header.
ENOUGH_STACK = 1 << 20

#: Bytes that have to be left of it at a call: the header's, and some for the way there.
ENOUGH_LEFT = (256 + 64) << 10

#: Where getcontext of glibc writes the address that the stack has come to.
_POINTER_AT = {"x86_64": 160, "aarch64": 432}.get(platform.machine())

_TINY, _HALF, _MORE_THAN_HALF = 5e-324, 2.0**-53, 2.0**-53 + 2.0**-60
_asked = threading.local()


def keeps_doubles() -> None:
    """The processor rounds to nearest, halves to even, and keeps subnormal numbers; else nothing is crossed to the bit.

    A library of another package that was linked with ``-ffast-math``, or ``fesetround``, may have changed it for this thread.
    """
    if _TINY * 1.0 == 0.0 or _TINY + _TINY == _TINY:
        raise FloatingPointError("this thread's processor takes subnormal numbers for zero: set it back before crossing lines")
    to_even = 1.0 + _HALF == 1.0 and -1.0 - _HALF == -1.0
    if not to_even or 1.0 + _MORE_THAN_HALF == 1.0 or -1.0 - _MORE_THAN_HALF == -1.0:
        raise FloatingPointError("this thread's processor does not round to nearest: set it back before crossing lines")


class _Stack(NamedTuple):
    """The lowest address of a thread's stack, which grows downwards, and its size."""

    lowest: int
    size: int


def _stack() -> _Stack:
    """That of this thread, by glibc; one that is just enough where it does not say."""
    libc = ctypes.CDLL(None)
    attributes = (ctypes.c_char * 256)()
    libc.pthread_self.restype = ctypes.c_void_p
    this = ctypes.c_void_p(libc.pthread_self())
    if libc.pthread_getattr_np(this, attributes) != 0:
        return _Stack(0, ENOUGH_STACK)
    lowest, size = ctypes.c_void_p(), ctypes.c_size_t()
    libc.pthread_attr_getstack(attributes, ctypes.byref(lowest), ctypes.byref(size))
    libc.pthread_attr_destroy(attributes)
    return _Stack(lowest.value or 0, size.value)


class _Thread:
    """What is known of a thread's stack."""

    def __init__(self) -> None:
        self.stack = _stack()
        self._context = (ctypes.c_uint64 * 1024)()
        self._ask = getattr(ctypes.CDLL(None), "getcontext", None)

    def left(self) -> int:
        """How many bytes of the stack are left; all of it where that is not known, as on a stack that somebody else has made."""
        if _POINTER_AT is None or self._ask is None or self._ask(self._context) != 0:
            return self.stack.size
        left = self._context[_POINTER_AT // 8] - self.stack.lowest
        return left if 0 <= left <= self.stack.size else self.stack.size


def has_stack() -> None:
    """The library's working memory is on the stack: a thread with a small one is refused, and a call from too deep down."""
    thread = getattr(_asked, "thread", None)
    if thread is None:
        thread = _Thread()
        size = thread.stack.size
        if size < ENOUGH_STACK:
            raise RuntimeError(
                f"this thread has a stack of {size} bytes, and the library needs {ENOUGH_STACK}: see threading.stack_size"
            )
        _asked.thread = thread
    left = thread.left()
    if left < ENOUGH_LEFT:
        raise RuntimeError(f"this thread has {left} bytes of its stack left, and the library needs {ENOUGH_LEFT}: call it from less deep")
