"""The shared library, by include/dispatch_bench.h. What is lent to a call is a buffer of ctypes that lives as long as the call; numbers are tested
before they are handed over, since ctypes cuts off what a C number does not hold."""

from __future__ import annotations

import ctypes
import functools
import operator
import os
import pathlib

# The number of the interface that this package is written for.
VERSION = 2

_NAME = f"libdispatch_bench.so.{VERSION}"
_BYTES = ctypes.POINTER(ctypes.c_uint8)
_U32, _U64, _I64 = ctypes.c_uint32, ctypes.c_uint64, ctypes.c_int64
_SIZE, _DOUBLE = ctypes.c_size_t, ctypes.c_double
_TO_U32, _TO_U64, _TO_DOUBLE = (ctypes.POINTER(kind) for kind in (_U32, _U64, _DOUBLE))

_SHEET = [ctypes.c_char_p, _SIZE]
_WRITTEN = [_BYTES, _SIZE, _TO_U32, _SIZE]

_ARGUMENTS = {
    "version": [],
    "read": _SHEET + [_TO_U64],
    "choose": [_SIZE, _SIZE, _TO_U64, _SIZE, _TO_U32, _SIZE, _TO_U64],
    "pass": _SHEET + [_TO_U32, _SIZE, _TO_U64, _SIZE, _BYTES, _SIZE] + 6 * [_TO_U64],
    "pending": _SHEET + [_TO_U32, _SIZE, _TO_U64, _TO_U64],
    "why": _SHEET + [_U32, _U32, _TO_DOUBLE, _SIZE, _TO_U32, _TO_U64],
    "weights": _SHEET + [_U32, _TO_DOUBLE, _SIZE, _TO_U64],
    "grade": _SHEET + [_TO_U32, _SIZE] + 2 * [ctypes.POINTER(_I64), _SIZE] + [_TO_U64, _SIZE, _TO_U32, _TO_U64],
    "travel_time": 5 * [_DOUBLE] + [_TO_DOUBLE],
    "start": _WRITTEN + [_U32],
    "put_policy": _WRITTEN + [_U32, ctypes.c_uint16, _DOUBLE, _U32] + 6 * [_DOUBLE],
    "put_stop": _WRITTEN + [_U32, _DOUBLE, _DOUBLE],
    "put_line": _WRITTEN + [_U32, _U64],
    "put_car": _WRITTEN + 10 * [_U32] + 5 * [_DOUBLE] + 2 * [_U32, _DOUBLE] + [_U32, _U32, _U64, _U64],
    "put_aboard": _WRITTEN + [_U32, _U32],
    "put_waiting": _WRITTEN + [_U32, _U32, _U32, _DOUBLE, _U64],
    "put_demand": _WRITTEN + [_U32, ctypes.c_uint16, _U32],
    "put_closed": _WRITTEN + [_U32],
    "finish": _WRITTEN + [_TO_U64],
    "put_weight": [_BYTES, _SIZE, ctypes.POINTER(ctypes.c_uint16), ctypes.c_uint8, _U32, ctypes.c_uint16, _DOUBLE],
    "put_field": [_BYTES, _SIZE, _U32, _U32, _U64],
}


class LibraryNotFound(Exception):
    """The shared library is not there, or is not of this interface."""


def _places() -> list[str]:
    """Where the library may be: the file that is named, or the one that `make` built here, or the installed one."""
    named = os.environ.get("DISPATCH_BENCH_SO")
    if named:
        return [named]
    built = pathlib.Path(__file__).resolve().parents[2] / "target" / "install" / _NAME
    return ([str(built)] if built.is_file() else []) + [_NAME]


@functools.lru_cache(maxsize=None)
def _library() -> ctypes.CDLL:
    place = _places()[0]
    try:
        found = ctypes.CDLL(place)
        found.dispatch_bench_version.argtypes, found.dispatch_bench_version.restype = [], _U32
        number = found.dispatch_bench_version()
    except (OSError, AttributeError) as error:
        raise LibraryNotFound(
            f"{place} is not the dispatch bench's library, or is not there: run `make install` in its repository, "
            "or name the file in DISPATCH_BENCH_SO"
        ) from error
    if number != VERSION:
        raise LibraryNotFound(f"the interface of {place} is {number}, and this package is written for {VERSION}")
    return found


@functools.lru_cache(maxsize=None)
def _function(name: str):
    function = getattr(_library(), f"dispatch_bench_{name}")
    function.argtypes, function.restype = _ARGUMENTS[name], _U32
    return function


def call(name: str, *arguments) -> int:
    """The number that a function of the library answers."""
    return _function(name)(*arguments)


def whole(name: str, value, bits: int) -> int:
    """A whole number of so many bits."""
    number = operator.index(value)
    if not 0 <= number < 1 << bits:
        raise ValueError(f"{name} is {number:,}, which is not 0 to {(1 << bits) - 1:,}")
    return number


def signed(name: str, value) -> int:
    """A whole number of 64 bits with a sign."""
    number = operator.index(value)
    if not -(1 << 63) <= number < 1 << 63:
        raise ValueError(f"{name} is {number:,}, which is beyond 64 bits")
    return number


def lend(kind, values=(), places: int = 0):
    """A buffer of so many places, or of the values, with its length behind it."""
    values = list(values)
    count = max(len(values), places)
    return (kind * count)(*values), count


def bytes_of(sheet) -> tuple[bytes, int]:
    """The bytes of a sheet or a store and their length."""
    held = bytes(memoryview(sheet))
    return held, len(held)
