"""Sweeps the candidate limit of a sheet, prints what each limit gives, and draws it: sweep.py [PLOT.svg [SHEET]]

Without a sheet it writes one of its own: an office of twelve floors with four cars. The cells below (# %%) open as a notebook in most editors.
"""

# %% The package, from the repository or installed.
import pathlib
import sys
from html import escape

sys.path.insert(0, str(pathlib.Path(__file__).resolve().parents[1]))
import dispatch_bench as bench  # noqa: E402

FLOORS, HEIGHT, TICKS = 12, 4.0, 60
# The ticks that a rider has waited, by floor.
WAITS = {1: 1800, 2: 60, 4: 120, 5: 120, 6: 2400, 7: 0, 9: 300, 10: 3000, 11: 2400}


# %% A sheet of our own, record by record: calls all over the house, some of the longest waits not next to a car.
def office() -> bytes:
    writer = bench.SheetWriter()
    writer.put(bench.Policy(bench.Etd(wait=3, delay=1, door=0.5, age=0.004), tick_rate=TICKS, traffic=bench.Traffic.INTER_FLOOR))
    writer.put(*(bench.Stop(id=floor, position=HEIGHT * (floor - 1)) for floor in range(1, FLOORS + 1)))
    writer.put(bench.Line(id=1, serves=bench.mask(range(FLOORS))))
    for id, floor in enumerate((2, 5, 8, 11), start=1):
        place = HEIGHT * (floor - 1)
        doors = {"transition_ticks": 120, "open_ticks": 240}
        writer.put(bench.Car(id, 1, place, max_speed=2.5, capacity=800, idle_listed=True, going_up=True, going_down=True, **doors))
    for floor, ticks in WAITS.items():
        writer.put(bench.Waiting(stop=floor, weight=75, wait_ticks=ticks, destination=13 - floor))
    return writer.finish()


# %% A pass for each limit from 1 up to the pending stops.
def sweep(sheet: bytes) -> list:
    limits = range(1, max(1, len(bench.pending(sheet))) + 1)
    return [(limit, bench.pass_(bench.with_limit(sheet, limit))) for limit in limits]


def sent(found: bench.Pass) -> int:
    return sum(stop is not None for stop in found.decisions.values())


def cost(found: bench.Pass) -> float:
    """What the cars that are sent cost: the total less the sentinel of each that stays."""
    return (found.total - (len(found.cars) - sent(found)) * bench.SENTINEL) / 1_000_000


def table(passes: list) -> str:
    lines = ["limit  pairs ranked  cars sent        cost  cells held"]
    for limit, found in passes:
        lines.append(f"{limit:5}  {found.ranked:12}  {sent(found):9}  {cost(found):10.3f}  {found.held:10}")
    return "\n".join(lines) + "\n"


# %% A plot of the cost against the limit, as SVG by hand.
WIDE, HIGH, LEFT, RIGHT, TOP, BOTTOM = 640, 360, 70, 20, 50, 55


def ticks(most: float) -> list:
    """Round numbers from 0 up to the first that is not below the largest."""
    step = 1.0
    while most / step > 6:
        step *= 2.5 if str(step)[0] == "2" else 2
    return [step * k for k in range(int(-(-most // step)) + 1)]


def plot(passes: list) -> str:
    marks = ticks(max(cost(found) for _, found in passes) or 1.0)
    across = (WIDE - LEFT - RIGHT) / max(1, len(passes) - 1)

    def x(limit: int) -> float:
        return LEFT + (limit - 1) * across

    def y(value: float) -> float:
        return HIGH - BOTTOM - value / marks[-1] * (HIGH - TOP - BOTTOM)

    title = "Cost of the cars that are sent, by candidate limit"
    parts = [
        f'<svg xmlns="http://www.w3.org/2000/svg" viewBox="0 0 {WIDE} {HIGH}" font-family="sans-serif" font-size="13" role="img">',
        f"<title>{escape(title)}</title>",
        f'<rect width="{WIDE}" height="{HIGH}" fill="#ffffff"/>',
        f'<text x="{LEFT}" y="26" font-size="16" fill="#111111">{escape(title)}</text>',
    ]
    for value in marks:
        parts.append(f'<path d="M{LEFT} {y(value):.1f}H{WIDE - RIGHT}" stroke="#d8d8d8"/>')
        parts.append(f'<text x="{LEFT - 8}" y="{y(value) + 4.5:.1f}" text-anchor="end" fill="#444444">{value:g}</text>')
    every = -(-len(passes) // 16)
    for limit, _ in passes[::every]:
        parts.append(f'<text x="{x(limit):.1f}" y="{HIGH - BOTTOM + 20}" text-anchor="middle" fill="#444444">{limit}</text>')
    parts.append(f'<text x="{(LEFT + WIDE - RIGHT) / 2:g}" y="{HIGH - 12}" text-anchor="middle" fill="#111111">candidate limit</text>')
    points = [(x(limit), y(cost(found)), limit, found) for limit, found in passes]
    path = " ".join(f"{a:.1f},{b:.1f}" for a, b, _, _ in points)
    parts.append(f'<polyline points="{path}" fill="none" stroke="#14736f" stroke-width="2"/>')
    for a, b, limit, found in points:
        label = f"limit {limit}: cost {cost(found):.3f}, {sent(found)} of {len(found.cars)} cars sent, {found.ranked} pairs ranked, {found.held} held"
        parts.append(f'<circle cx="{a:.1f}" cy="{b:.1f}" r="4" fill="#14736f"><title>{escape(label)}</title></circle>')
    return "\n".join(parts + ["</svg>"]) + "\n"


# %% All of it.
def main(words: list) -> int:
    plotted = pathlib.Path(words[0] if words else "sweep.svg")
    try:
        sheet = pathlib.Path(words[1]).read_bytes() if len(words) > 1 else office()
        passes = sweep(sheet)
        plotted.write_text(plot(passes), encoding="utf-8")
    except bench.Refusal as refusal:
        print(f"{refusal}\n{refusal.remedy}", file=sys.stderr)
        return 1
    except OSError as error:
        print(f"{error.filename}: {error.strerror}", file=sys.stderr)
        return 1
    print(table(passes), end="")
    print(f"the plot is in {plotted}")
    return 0


if __name__ == "__main__":
    sys.exit(main(sys.argv[1:]))
