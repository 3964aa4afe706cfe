"""The dispatch bench for Python: one group pass of lift dispatch over a binary sheet, by the proved library.

The package calls the shared library libdispatch_bench.so.2 (`make install`, or `make` in the repository) and needs Python's standard library alone.
What is refused is raised as a Refusal with its number, place and sentence.
"""

from .calls import (
    CEILING,
    SENTINEL,
    Graded,
    Pass,
    Sweep,
    Why,
    choose,
    grade,
    pass_,
    pending,
    read,
    travel_time,
    version,
    weights,
    why,
)
from .library import VERSION, LibraryNotFound
from .records import (
    Aboard,
    Car,
    Closed,
    Demand,
    Direction,
    Etd,
    Line,
    Mode,
    Phase,
    Policy,
    Rsr,
    Scan,
    Stop,
    Traffic,
    Waiting,
    mask,
)
from .refusal import NotWritten, Refusal, StoreRefusal
from .writer import SheetWriter, StoreEntry, put_field, with_limit, write_store

__all__ = [
    "CEILING", "SENTINEL", "VERSION", "Aboard", "Car", "Closed", "Demand", "Direction", "Etd", "Graded", "LibraryNotFound", "Line", "Mode",
    "NotWritten", "Pass", "Phase", "Policy", "Refusal", "Rsr", "Scan", "SheetWriter", "Stop", "StoreEntry", "StoreRefusal", "Sweep", "Traffic",
    "Waiting", "Why", "choose", "grade", "mask", "pass_", "pending", "put_field", "read", "travel_time", "version", "weights", "why", "with_limit",
    "write_store",
]
