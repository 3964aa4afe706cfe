"""What the library answers, as values of Python."""

from __future__ import annotations

import ctypes
import dataclasses
from typing import Iterator, Optional, Sequence

from . import sentences
from .library import bytes_of, call, lend, signed, whole
from .records import Direction, Mode
from .refusal import Refusal, StoreRefusal

# The cell of a pair without a rank and of a spare column; the largest cell of a pair with one.
SENTINEL = 281_474_976_710_656
CEILING = SENTINEL - 1

_DECISIONS, _CELLS, _SWEEPS, _STOPS, _TERMS, _WEIGHTS, _CARS = 32, 2_048, 32, 64, 8, 6, 32


@dataclasses.dataclass(frozen=True)
class Sweep:
    direction: Direction
    mode: Mode


@dataclasses.dataclass(frozen=True)
class Pass:
    """A pass with its cars and columns by their ids."""

    # the idle cars, in record order
    cars: tuple[int, ...]
    # the pending stops, which are the first columns
    stops: tuple[int, ...]
    # the sum of the chosen cells
    total: int
    # how many pairs were ranked
    ranked: int
    # how many cells were held down to CEILING
    held: int
    # the stop of each idle car by its id, None for one that stays idle
    decisions: dict[int, Optional[int]]
    # the cells row by row, spare columns included
    rows: tuple[tuple[int, ...], ...]
    # the sweep of each car record by its id
    sweeps: dict[int, Sweep]

    def cell(self, car: int, stop: int) -> Optional[int]:
        """The cell of an idle car and a pending stop, None where they have no rank."""
        cell = self.rows[self.cars.index(car)][self.stops.index(stop)]
        return None if cell == SENTINEL else cell


@dataclasses.dataclass(frozen=True)
class Why:
    """Why a pair costs what it does: a reason and its sentence, or 0 and the eight terms, the last of which is the cost."""

    reason: int
    says: str
    terms: Optional[tuple[float, ...]]

    @property
    def cost(self) -> Optional[float]:
        return None if self.terms is None else self.terms[-1]


@dataclasses.dataclass(frozen=True)
class Graded:
    """Whether a site's prices show that its choice is least, and the cells row by row."""

    least: bool
    rows: tuple[tuple[int, ...], ...]


def version() -> int:
    """The number of the library's interface."""
    return call("version")


def read(sheet) -> None:
    """Whether a sheet is accepted: a Refusal is raised where it is not."""
    held, length = bytes_of(sheet)
    offset = ctypes.c_uint64()
    number = call("read", held, length, ctypes.byref(offset))
    if number != 0:
        raise Refusal(number, offset.value)


def pending(sheet) -> tuple[int, ...]:
    """The ids of the pending stops, in the order of a pass's columns."""
    held, length = bytes_of(sheet)
    stops, places = lend(ctypes.c_uint32, places=_STOPS)
    count, offset = ctypes.c_uint64(), ctypes.c_uint64()
    number = call("pending", held, length, stops, places, ctypes.byref(count), ctypes.byref(offset))
    if number != 0:
        raise Refusal(number, offset.value)
    return tuple(stops[: count.value])


def _cars(sheet: bytes) -> Iterator[tuple[int, bool]]:
    """The id of each car record of an accepted sheet, and whether it is idle-listed. This is decoded here, not by the library."""

    def field(at: int, length: int) -> int:
        end = at + length
        held = int.from_bytes(sheet[at // 8 : (end + 7) // 8], "big")
        return held >> (-end % 8) & ((1 << length) - 1)

    at = 24
    for _ in range(field(8, 16)):
        front = field(at, 22)
        kind, length = front >> 16, front & 0xFFFF
        # kinds never fall, so no car stands behind a higher one
        if kind > 4:
            return
        if kind == 4:
            yield field(at + 22, 32), field(at + 154, 1) == 1
        at += 22 + length


def _rows(matrix, cars: int, columns: int) -> tuple[tuple[int, ...], ...]:
    return tuple(tuple(matrix[row * columns : (row + 1) * columns]) for row in range(cars))


def pass_(sheet) -> Pass:
    """A pass over a sheet."""
    held, length = bytes_of(sheet)
    decisions, decision_count = lend(ctypes.c_uint32, places=_DECISIONS)
    matrix, cell_count = lend(ctypes.c_uint64, places=_CELLS)
    sweeps, sweep_count = lend(ctypes.c_uint8, places=_SWEEPS)
    numbers = [ctypes.c_uint64() for _ in range(6)]
    lent = (decisions, decision_count, matrix, cell_count, sweeps, sweep_count)
    number = call("pass", held, length, *lent, *map(ctypes.byref, numbers))
    cars, stops, total, ranked, held_down, offset = (each.value for each in numbers)
    if number != 0:
        raise Refusal(number, offset)
    records = list(_cars(held))
    idle = tuple(id for id, listed in records if listed)
    return Pass(
        cars=idle,
        stops=pending(held),
        total=total,
        ranked=ranked,
        held=held_down,
        decisions={car: stop or None for car, stop in zip(idle, decisions)},
        rows=_rows(matrix, cars, max(cars, stops)),
        sweeps={car: Sweep(Direction(code >> 1), Mode(code & 1)) for (car, _), code in zip(records, sweeps)},
    )


def why(sheet, car: int, stop: int) -> Why:
    """Why the car with one id costs what it does for the stop with another, or has no rank."""
    held, length = bytes_of(sheet)
    terms, places = lend(ctypes.c_double, places=_TERMS)
    reason, offset = ctypes.c_uint32(), ctypes.c_uint64()
    ids = whole("car", car, 32), whole("stop", stop, 32)
    number = call("why", held, length, *ids, terms, places, ctypes.byref(reason), ctypes.byref(offset))
    if number != 0:
        raise Refusal(number, offset.value)
    ranked = reason.value == 0
    return Why(reason.value, sentences.REASONS.get(reason.value, ""), tuple(terms) if ranked else None)


def weights(store, day: int) -> tuple[float, ...]:
    """The six weights of a store that hold on a day, by slot."""
    held, length = bytes_of(store)
    found, places = lend(ctypes.c_double, places=_WEIGHTS)
    offset = ctypes.c_uint64()
    number = call("weights", held, length, whole("day", day, 32), found, places, ctypes.byref(offset))
    if number != 0:
        raise StoreRefusal(number, offset.value)
    return tuple(found)


def grade(sheet, columns: Sequence[int], car_prices: Sequence[int], column_prices: Sequence[int]) -> Graded:
    """Grades a site's choice, a column for each idle car in record order, by the site's prices for cars and columns."""
    held, length = bytes_of(sheet)
    chosen = lend(ctypes.c_uint32, (whole("a column", column, 32) for column in columns))
    of_cars = lend(ctypes.c_int64, (signed("a price", price) for price in car_prices))
    of_columns = lend(ctypes.c_int64, (signed("a price", price) for price in column_prices))
    matrix = lend(ctypes.c_uint64, places=_CELLS)
    least, offset = ctypes.c_uint32(), ctypes.c_uint64()
    number = call("grade", held, length, *chosen, *of_cars, *of_columns, *matrix, ctypes.byref(least), ctypes.byref(offset))
    if number != 0:
        raise Refusal(number, offset.value)
    return Graded(least.value == 1, _rows(matrix[0], chosen[1], of_columns[1]))


def travel_time(distance: float, speed: float, top_speed: float, acceleration: float, deceleration: float) -> float:
    """The seconds of a run with ramps that ends at rest; Refusal 21 where an input is outside of its domain."""
    time = ctypes.c_double()
    inputs = [float(value) for value in (distance, speed, top_speed, acceleration, deceleration)]
    number = call("travel_time", *inputs, ctypes.byref(time))
    if number != 0:
        raise Refusal(number)
    return time.value


def choose(rows: Sequence[Sequence[int]]) -> tuple[tuple[int, ...], int]:
    """The column of each row with the least total, and that total: ValueError for a matrix that the matcher does not take."""
    cars, columns = len(rows), len(rows[0]) if rows else 0
    cells = lend(ctypes.c_uint64, (whole("a cell", cell, 64) for row in rows for cell in row))
    chosen, places = lend(ctypes.c_uint32, places=_CARS)
    total = ctypes.c_uint64()
    even = all(len(row) == columns for row in rows)
    if not even or call("choose", cars, columns, *cells, chosen, places, ctypes.byref(total)) != 1:
        raise ValueError("a matrix has up to 32 rows and 64 columns, no more rows than columns, rows of one length, and cells up to SENTINEL")
    return tuple(chosen[:cars]), total.value
