"""The package over the shared library: what is answered and refused, the writer byte for byte, and the example's stored lines and plot."""

import os
import pathlib
import struct
import subprocess
import sys
import tempfile
import threading
import unittest

ROOT = pathlib.Path(__file__).resolve().parents[2]
sys.path.insert(0, str(ROOT / "python"))

import dispatch_bench as bench  # noqa: E402

EXAMPLE = (ROOT / "crates/passprint/stdin").read_bytes()
POLICY = bench.Policy(bench.Scan(), tick_rate=60)


def example(edition: int = 1, minus_zero: float = 0.0) -> bench.SheetWriter:
    """Document 01's example, record by record."""
    car = {"line": 1, "max_speed": 2, "capacity": 100, "idle_listed": True, "going_up": True, "going_down": True}
    return bench.SheetWriter(edition).put(
        POLICY,
        bench.Stop(1, 0),
        bench.Stop(2, 10),
        bench.Stop(3, 20, across=minus_zero),
        bench.Line(1, bench.mask(range(3))),
        bench.Car(7, position=0, **car),
        bench.Car(8, position=20, across=minus_zero, **car),
        bench.Demand(2, riderless_call=True),
        bench.Demand(3, riderless_call=True),
    )


class Answers(unittest.TestCase):
    def test_the_example(self):
        found = bench.pass_(EXAMPLE)
        self.assertEqual((found.cars, found.stops), ((7, 8), (2, 3)))
        self.assertEqual((found.total, found.ranked, found.held), (10_000_000, 4, 0))
        self.assertEqual(found.decisions, {7: 2, 8: 3})
        self.assertEqual(found.rows, ((10_000_000, 20_000_000), (10_000_000, 0)))
        self.assertEqual(found.cell(7, 3), 20_000_000)
        self.assertEqual(found.sweeps[8], bench.Sweep(bench.Direction.DOWN, bench.Mode.LENIENT))
        self.assertEqual(bench.pending(EXAMPLE), (2, 3))
        self.assertEqual(bench.version(), 2)

    def test_every_stored_sheet_has_its_number(self):
        accepted = 0
        for path in sorted((ROOT / "fuzz/corpus_pass").iterdir()):
            sheet, number = path.read_bytes(), int(path.name[8:10]) if path.name.startswith("refusal_") else 0
            if number == 0:
                bench.read(sheet)
                found = bench.pass_(sheet)
                self.assertEqual(len(found.rows), len(found.cars), path.name)
                self.assertEqual(len(found.decisions), len(found.cars), path.name)
                accepted += 1
                continue
            for function in (bench.read, bench.pass_, bench.pending):
                with self.assertRaises(bench.Refusal, msg=path.name) as refused:
                    function(sheet)
                self.assertEqual(refused.exception.number, number, path.name)
        self.assertGreater(accepted, 40)

    def test_the_lines_of_stored_passes(self):
        for name in ("load_weight", "ceiling", "sideways", "closed_landing"):
            found = bench.pass_((ROOT / "fuzz/corpus_pass" / name).read_bytes())
            lines = [f"cars {len(found.cars)} stops {len(found.stops)} total {found.total} held {found.held}"]
            lines += [f"car {car} " + (f"stop {stop}" if stop else "idle") for car, stop in found.decisions.items()]
            for car in found.cars:
                sweep = found.sweeps[car]
                lines.append(f"sweep {car} {sweep.direction.name.lower()} {sweep.mode.name.lower()}")
            stored = (ROOT / f"tools/sheet/examples/{name}.pass").read_text()
            self.assertEqual("\n".join(lines) + "\n", stored)

    def test_a_refusal_says_what_it_is(self):
        with self.assertRaises(bench.Refusal) as refused:
            bench.read(b"\x03\x00\x00")
        self.assertEqual(str(refused.exception), "refused 3 at 0: The edition in the first 8 bits is not 1 or 2.")
        self.assertTrue(refused.exception.remedy.startswith("Have the sheet written as edition 1 or 2"))

    def test_why(self):
        found = bench.why(EXAMPLE, 7, 2)
        self.assertEqual((found.reason, found.cost, len(found.terms)), (0, 10.0, 8))
        missing = bench.why(EXAMPLE, 9, 2)
        self.assertEqual((missing.reason, missing.says, missing.terms), (1, "The sheet has no car with this id.", None))
        with self.assertRaises(bench.Refusal):
            bench.why(b"", 1, 1)

    def test_grades(self):
        prices = ([10_000_000, 5_000_000], [0, -5_000_000])
        self.assertTrue(bench.grade(EXAMPLE, [0, 1], *prices).least)
        other = bench.grade(EXAMPLE, [1, 0], *prices)
        self.assertEqual((other.least, other.rows), (False, bench.pass_(EXAMPLE).rows))
        for number, sent in ((19, ([1, 1], *prices)), (19, ([], *prices)), (20, ([0, 1], [1], [1, 1])), (20, ([0, 1], [1, 1 << 60], [1, 1]))):
            with self.assertRaises(bench.Refusal) as refused:
                bench.grade(EXAMPLE, *sent)
            self.assertEqual(refused.exception.number, number)

    def test_travel_times(self):
        self.assertAlmostEqual(bench.travel_time(12, 0, 2.5, 1, 1.2), 7.091666666666667, places=12)
        with self.assertRaises(bench.Refusal) as refused:
            bench.travel_time(float("nan"), 0, 2.5, 1, 1.2)
        self.assertEqual(refused.exception.number, 21)

    def test_choices(self):
        self.assertEqual(bench.choose([[1, 2], [1, 9]]), ((1, 0), 3))
        self.assertEqual(bench.choose([]), ((), 0))
        for rows in ([[1], [2]], [[1, 2], [3]], [[bench.SENTINEL + 1]]):
            with self.assertRaises(ValueError):
                bench.choose(rows)

    def test_threads(self):
        found = []
        threads = [threading.Thread(target=lambda: found.append(bench.pass_(EXAMPLE))) for _ in range(8)]
        for thread in threads:
            thread.start()
        for thread in threads:
            thread.join()
        self.assertEqual(found, [bench.pass_(EXAMPLE)] * 8)


def fields(sheet: bytes, at: int, *widths: int) -> list:
    """The fields of so many bits one after the other."""
    bits = int.from_bytes(sheet, "big")
    found = []
    for width in widths:
        found.append(bits >> (8 * len(sheet) - at - width) & ((1 << width) - 1))
        at += width
    return found


def double(value: float) -> int:
    return int.from_bytes(struct.pack(">d", value), "big")


class Written(unittest.TestCase):
    def test_the_example_byte_for_byte(self):
        self.assertEqual(example().finish(), EXAMPLE)
        self.assertEqual(example(2, -0.0).finish(), (ROOT / "fuzz/corpus_pass/edition_2").read_bytes())

    def test_every_kind(self):
        writer = bench.SheetWriter(2)
        weights = bench.Rsr(eta=1, wrong_direction=2, coincident_call=3, load=4, age=5, peak_multiplier=6)
        writer.put(bench.Policy(weights, 50, limit=3, traffic=bench.Traffic.DOWN_PEAK))
        writer.put(bench.Stop(1, 0, 1.5), bench.Stop(2, -4), bench.Line(1, bench.mask([0, 1])))
        ticks = {"transition_ticks": 11, "open_ticks": 12}
        lists = {"restricted": bench.mask([1]), "car_calls": bench.mask([0])}
        way = {"going_down": True, "sweep": bench.Direction.DOWN, "mode": bench.Mode.LENIENT, "across": 2.5}
        writer.put(bench.Car(7, 1, 3.25, 2, 100, 10, bench.Phase.MOVING, stop=2, target=1, up_threshold=0.5, **ticks, **lists, **way))
        writer.put(bench.Aboard(7, 2), bench.Waiting(2, 75.5, 1 << 53, required_line=1), bench.Demand(2, 65_535), bench.Closed(1))
        sheet = writer.finish()
        bench.read(sheet)
        self.assertEqual(int.from_bytes(sheet[1:3], "big"), 9)
        self.assertEqual(len(sheet), (24 + 490 + 2 * 182 + 118 + 801 + 87 + 248 + 71 + 54 + 7) // 8)
        # by the tables of docs/manual/format.md
        self.assertEqual(fields(sheet, 46, 2, 16, 64, 2, *6 * [64]), [1, 3, double(50), 3] + [double(k) for k in range(1, 7)])
        self.assertEqual(fields(sheet, 536, 32, 64, 64), [1, 0, double(1.5)])
        car = 514 + 2 * 182 + 118
        self.assertEqual(fields(sheet, car, 6, 16, 32, 32, 3, 32, 1, 32), [4, 779, 7, 1, 1, 2, 1, 1])
        self.assertEqual(fields(sheet, car + 154, 1, 1, 1, 1, 1), [0, 0, 1, 1, 1])
        self.assertEqual(fields(sheet, car + 159, *5 * [64]), [double(value) for value in (3.25, 2.5, 2, 100, 10)])
        self.assertEqual(fields(sheet, car + 479, 1, 64, 1, 64, 32, 32), [1, double(0.5), 0, 0, 11, 12])
        self.assertEqual(fields(sheet, car + 673, 64, 64), [1 << 62, 1 << 63])
        rider = car + 801
        self.assertEqual(fields(sheet, rider + 22, 32, 1, 32), [7, 1, 2])
        self.assertEqual(fields(sheet, rider + 87 + 22, 32, 1, 32, 1, 32, 64, 64), [2, 1, 1, 0, 0, double(75.5), 1 << 53])
        self.assertEqual(fields(sheet, rider + 87 + 248 + 22, 32, 16, 1), [2, 65_535, 0])
        self.assertEqual(fields(sheet, rider + 87 + 248 + 71 + 22, 32), [1])

    def test_what_is_not_written(self):
        writer = bench.SheetWriter()
        with self.assertRaises(bench.NotWritten) as refused:
            writer.put(bench.Stop(1, 0))
        self.assertEqual(refused.exception.number, 6)
        writer.put(POLICY)
        before = writer.finish()
        for number, record in ((7, POLICY), (8, bench.Car(1, 1, 0, 1, 1, phase=7))):
            with self.assertRaises(bench.NotWritten) as refused:
                writer.put(record)
            self.assertEqual(refused.exception.number, number)
        self.assertIn("the phase not 0 to 6", str(refused.exception))
        self.assertEqual(writer.finish(), before)

    def test_numbers_are_not_cut_off(self):
        writer = bench.SheetWriter().put(POLICY)
        before = writer.finish()
        for record in (bench.Stop(1 << 32, 0), bench.Stop(-1, 0), bench.Demand(1, 1 << 16), bench.Waiting(1, 1, 1 << 64), bench.Line(1, -1)):
            with self.assertRaises(ValueError):
                writer.put(record)
        for record in (bench.Stop(1.5, 0), bench.Stop(1, "high"), "a stop", bench.Policy("ETD", 60)):
            with self.assertRaises((TypeError, ValueError)):
                writer.put(record)
        self.assertEqual(writer.finish(), before)
        with self.assertRaises(ValueError):
            bench.SheetWriter(3)
        with self.assertRaises(TypeError):
            bench.read(5)

    def test_another_limit(self):
        self.assertEqual(bench.with_limit(EXAMPLE, None), EXAMPLE)
        self.assertEqual(bench.pass_(bench.with_limit(EXAMPLE, 1)).ranked, 2)
        with self.assertRaises(bench.Refusal) as refused:
            bench.read(bench.with_limit(EXAMPLE, 0))
        self.assertEqual(refused.exception.number, 12)

    def test_fields(self):
        for width in range(65):
            for at in (0, 1, 7, 8, 13, 80 - width):
                held = bytearray(b"\xa5" * 10)
                value = 0x9E3779B97F4A7C15 >> (64 - width)
                bench.put_field(held, at, width, value)
                below = 80 - at - width
                mask = ((1 << width) - 1) << below
                wanted = int.from_bytes(b"\xa5" * 10, "big") & ~mask | value << below
                self.assertEqual(held, wanted.to_bytes(10, "big"), f"{width} bits at {at}")
        for number, at, width, value in ((8, 0, 65, 0), (8, 0, 3, 8), (8, 80, 3, 8), (2, 80, 3, 7), (2, (1 << 32) - 1, 64, 0)):
            with self.assertRaises(bench.NotWritten) as refused:
                bench.put_field(held, at, width, value)
            self.assertEqual(refused.exception.number, number)
            self.assertEqual(held, wanted.to_bytes(10, "big"))
        for at, width, value in ((1 << 32, 1, 0), (0, 1 << 32, 0), (0, 64, 1 << 64), (-1, 1, 0)):
            with self.assertRaises(ValueError):
                bench.put_field(held, at, width, value)
        with self.assertRaises(TypeError):
            bench.put_field(bytes(held), 0, 1, 0)
        with self.assertRaises(bench.NotWritten):
            bench.put_field(bytearray(), 0, 1, 0)

    def test_stores(self):
        entries = [bench.StoreEntry(slot, 100, 0, slot + 0.5) for slot in range(6)] + [bench.StoreEntry(2, 100, 1, 7)]
        store = bench.write_store(entries)
        self.assertEqual(bench.weights(store, 100), (0.5, 1.5, 7.0, 3.5, 4.5, 5.5))
        with self.assertRaises(bench.StoreRefusal) as refused:
            bench.weights(store, 99)
        self.assertEqual(str(refused.exception), "refused 18 at slot 0: A slot has no record that starts on the day or before it.")
        with self.assertRaises(bench.StoreRefusal) as refused:
            bench.weights(store[:-1], 100)
        self.assertEqual(str(refused.exception), "refused 2 at 720, record 7: The last record is cut short: a record has 15 bytes.")
        with self.assertRaises(bench.NotWritten) as refused:
            bench.write_store(entries[:1] * 257)
        self.assertEqual(refused.exception.number, 7)


class Programs(unittest.TestCase):
    def run_python(self, *words, **environment):
        words = [sys.executable, *map(str, words)]
        return subprocess.run(words, capture_output=True, text=True, env={**os.environ, **environment}, cwd=self.room.name)

    def setUp(self):
        self.room = tempfile.TemporaryDirectory()
        self.addCleanup(self.room.cleanup)

    def test_the_sweep(self):
        folder = ROOT / "python/examples"
        done = self.run_python(folder / "sweep.py")
        self.assertEqual((done.returncode, done.stdout, done.stderr), (0, (folder / "sweep.txt").read_text(), ""))
        drawn = (pathlib.Path(self.room.name) / "sweep.svg").read_text(encoding="utf-8")
        self.assertEqual(drawn, (folder / "sweep.svg").read_text(encoding="utf-8"))

    def test_the_sweep_of_no_sheet(self):
        done = self.run_python(ROOT / "python/examples/sweep.py", "plot.svg", ROOT / "README.md")
        self.assertEqual((done.returncode, done.stdout), (1, ""))
        self.assertTrue(done.stderr.startswith("refused 3 at 0: "), done.stderr)
        done = self.run_python(ROOT / "python/examples/sweep.py", "plot.svg", "missing")
        self.assertEqual((done.returncode, done.stderr), (1, "missing: No such file or directory\n"))

    def test_no_library(self):
        code = "import sys; sys.path.insert(0, sys.argv[1]); import dispatch_bench; dispatch_bench.version()"
        done = self.run_python("-c", code, ROOT / "python", DISPATCH_BENCH_SO="/no/such/library")
        self.assertIn("/no/such/library is not the dispatch bench's library, or is not there: run `make install`", done.stderr)


if __name__ == "__main__":
    unittest.main()
