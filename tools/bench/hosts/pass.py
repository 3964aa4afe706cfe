"""Passes each sheet of a folder many times, and prints the size, the host and microseconds a pass: pass.py FOLDER."""

import sys
import time
from pathlib import Path

import dispatch_bench

for size, passes in (("small", 1000), ("typical", 400), ("full", 20)):
    sheet = (Path(sys.argv[1]) / size).read_bytes()
    began = time.perf_counter()
    for _ in range(passes):
        dispatch_bench.pass_(sheet)
    print(f"{size} Python {(time.perf_counter() - began) * 1e6 / passes:.2f}")
