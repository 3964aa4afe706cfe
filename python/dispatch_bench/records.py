"""The records of a sheet with their fields by name. What is optional is None; a value that a reader refuses can be written, and read says so."""

from __future__ import annotations

import dataclasses
import enum
from typing import Iterable, Optional, Union


class Traffic(enum.IntEnum):
    IDLE = 0
    UP_PEAK = 1
    INTER_FLOOR = 2
    DOWN_PEAK = 3


class Phase(enum.IntEnum):
    IDLE = 0
    MOVING = 1
    REPOSITIONING = 2
    DOOR_OPENING = 3
    LOADING = 4
    DOOR_CLOSING = 5
    STOPPED = 6


class Direction(enum.IntEnum):
    UP = 0
    DOWN = 1


class Mode(enum.IntEnum):
    STRICT = 0
    LENIENT = 1


@dataclasses.dataclass(frozen=True)
class Etd:
    wait: float = 0.0
    delay: float = 0.0
    door: float = 0.0
    wait_squared: float = 0.0
    age: float = 0.0


@dataclasses.dataclass(frozen=True)
class Rsr:
    eta: float = 0.0
    wrong_direction: float = 0.0
    coincident_call: float = 0.0
    load: float = 0.0
    age: float = 0.0
    peak_multiplier: float = 0.0


@dataclasses.dataclass(frozen=True)
class Scan:
    """Has no weights."""


@dataclasses.dataclass(frozen=True)
class Policy:
    strategy: Union[Etd, Rsr, Scan]
    tick_rate: float
    limit: Optional[int] = None
    traffic: Traffic = Traffic.IDLE


@dataclasses.dataclass(frozen=True)
class Stop:
    id: int
    position: float
    # in edition 2 alone
    across: float = 0.0


@dataclasses.dataclass(frozen=True)
class Line:
    id: int
    # a mask of stops
    serves: int


@dataclasses.dataclass(frozen=True)
class Car:
    id: int
    line: int
    position: float
    max_speed: float
    capacity: float
    load: float = 0.0
    phase: Phase = Phase.IDLE
    # the id of the stop where a moving or repositioning car is bound
    stop: int = 0
    target: Optional[int] = None
    idle_listed: bool = False
    going_up: bool = False
    going_down: bool = False
    sweep: Direction = Direction.UP
    mode: Mode = Mode.STRICT
    # in edition 2 alone
    across: float = 0.0
    up_threshold: Optional[float] = None
    down_threshold: Optional[float] = None
    transition_ticks: int = 0
    open_ticks: int = 0
    # masks of stops
    restricted: int = 0
    car_calls: int = 0


@dataclasses.dataclass(frozen=True)
class Aboard:
    car: int
    destination: Optional[int] = None


@dataclasses.dataclass(frozen=True)
class Waiting:
    stop: int
    weight: float
    wait_ticks: int
    required_line: Optional[int] = None
    destination: Optional[int] = None


@dataclasses.dataclass(frozen=True)
class Demand:
    stop: int
    riding_count: int = 0
    riderless_call: bool = False


@dataclasses.dataclass(frozen=True)
class Closed:
    stop: int


def mask(places: Iterable[int]) -> int:
    """The mask of stops by their places among the stop records, from 0 to 63."""
    found = 0
    for place in places:
        if not 0 <= place <= 63:
            raise ValueError(f"place {place} is not 0 to 63")
        found |= 1 << (63 - place)
    return found
