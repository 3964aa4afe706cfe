"""Sheets and stores by the proved writer."""

from __future__ import annotations

import ctypes
import dataclasses
import functools
from typing import Iterable, Optional

from .calls import read
from .library import bytes_of, call, lend, whole
from .records import Aboard, Car, Closed, Demand, Direction, Etd, Line, Mode, Policy, Rsr, Scan, Stop, Waiting
from .refusal import NotWritten

_STATE = 9
_SHEET_BYTES = 27_283
_NO_LIMIT = 65_535
_STRATEGIES = [Etd, Rsr, Scan]


def _id(name: str, value: Optional[int]) -> int:
    """An optional id, 0 where there is none."""
    return 0 if value is None else whole(name, value, 32)


@functools.singledispatch
def _put(record):
    """The name of a record's function and its arguments."""
    raise TypeError(f"{type(record).__name__} is no record of a sheet")


@_put.register
def _(x: Policy):
    if type(x.strategy) not in _STRATEGIES:
        raise TypeError(f"the strategy is {x.strategy!r}, which is no Etd, Rsr or Scan")
    weights = [float(weight) for weight in dataclasses.astuple(x.strategy)]
    limit = _NO_LIMIT if x.limit is None else whole("limit", x.limit, 16)
    strategy = _STRATEGIES.index(type(x.strategy))
    traffic = whole("traffic", x.traffic, 32)
    return "put_policy", [strategy, limit, float(x.tick_rate), traffic] + weights + [0.0] * (6 - len(weights))


@_put.register
def _(x: Stop):
    return "put_stop", [whole("id", x.id, 32), float(x.position), float(x.across)]


@_put.register
def _(x: Line):
    return "put_line", [whole("id", x.id, 32), whole("serves", x.serves, 64)]


def _threshold(value: Optional[float]) -> list:
    return [0, 0.0] if value is None else [1, float(value)]


@_put.register
def _(x: Car):
    ids = [whole(name, getattr(x, name), 32) for name in ("id", "line", "phase", "stop")] + [_id("target", x.target)]
    flags = [bool(x.idle_listed), bool(x.going_up), bool(x.going_down), int(Direction(x.sweep)), int(Mode(x.mode))]
    doubles = [float(value) for value in (x.position, x.across, x.max_speed, x.capacity, x.load)]
    ticks = [whole("transition_ticks", x.transition_ticks, 32), whole("open_ticks", x.open_ticks, 32)]
    masks = [whole("restricted", x.restricted, 64), whole("car_calls", x.car_calls, 64)]
    return "put_car", ids + flags + doubles + _threshold(x.up_threshold) + _threshold(x.down_threshold) + ticks + masks


@_put.register
def _(x: Aboard):
    return "put_aboard", [whole("car", x.car, 32), _id("destination", x.destination)]


@_put.register
def _(x: Waiting):
    ids = [whole("stop", x.stop, 32), _id("required_line", x.required_line), _id("destination", x.destination)]
    return "put_waiting", ids + [float(x.weight), whole("wait_ticks", x.wait_ticks, 64)]


@_put.register
def _(x: Demand):
    return "put_demand", [whole("stop", x.stop, 32), whole("riding_count", x.riding_count, 16), bool(x.riderless_call)]


@_put.register
def _(x: Closed):
    return "put_closed", [whole("stop", x.stop, 32)]


class SheetWriter:
    """Writes a sheet record by record. What is finished is read as exactly the records that were put."""

    def __init__(self, edition: int = 1):
        if edition not in (1, 2):
            raise ValueError(f"the edition is {edition}, which is not 1 or 2")
        self._bytes, self._length = lend(ctypes.c_uint8, places=_SHEET_BYTES)
        self._state, _ = lend(ctypes.c_uint32, places=_STATE)
        self._call("start", [edition])

    def _call(self, name: str, arguments: list) -> None:
        number = call(name, self._bytes, self._length, self._state, _STATE, *arguments)
        if number != 0:
            raise NotWritten(number)

    def put(self, *records) -> "SheetWriter":
        """Puts records behind the last one."""
        for record in records:
            name, arguments = _put(record)
            self._call(name, arguments)
        return self

    def finish(self) -> bytes:
        """The sheet with the records that were put until now; more may be put after it."""
        length = ctypes.c_uint64()
        self._call("finish", [ctypes.byref(length)])
        return bytes(self._bytes[: length.value])


def put_field(sheet: bytearray, at: int, width: int, value: int) -> None:
    """Puts one field, whatever it is to hold, into the bytes of a sheet or a store: the width bits from bit at are then those of value, and every
    other bit is kept. NotWritten, and nothing is, where the width is above 64 or the value needs more bits, or the field passes the last byte."""
    held, length = (ctypes.c_uint8 * len(sheet)).from_buffer(sheet), len(sheet)
    number = call("put_field", held, length, whole("at", at, 32), whole("width", width, 32), whole("value", value, 64))
    if number != 0:
        raise NotWritten(number)


def with_limit(sheet, limit: Optional[int]) -> bytes:
    """An accepted sheet with another candidate limit, None for none: 16 bits from bit 48 on of every sheet."""
    read(sheet)
    held = bytearray(bytes_of(sheet)[0])
    put_field(held, 48, 16, _NO_LIMIT if limit is None else whole("limit", limit, 16))
    return bytes(held)


@dataclasses.dataclass(frozen=True)
class StoreEntry:
    """A record of a store of weights: a weight slot, 0 to 5, the day from which it holds, the issue and the weight."""

    setting: int
    start: int
    issue: int
    value: float


def write_store(entries: Iterable[StoreEntry]) -> bytes:
    """The bytes of a store with these records, 256 at most."""
    entries = list(entries)
    store, length = lend(ctypes.c_uint8, places=15 * len(entries))
    count = ctypes.c_uint16()
    for x in entries:
        fields = [whole("setting", x.setting, 8), whole("start", x.start, 32), whole("issue", x.issue, 16), float(x.value)]
        number = call("put_weight", store, length, ctypes.byref(count), *fields)
        if number != 0:
            raise NotWritten(number)
    return bytes(store)
