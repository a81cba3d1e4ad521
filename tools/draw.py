#!/usr/bin/env python3
"""Draws the pictures of docs/PROBLEMS.md as SVG, and prints the numbers beside the known answers.

    python3 tools/draw.py wave FILE DECK PICTURE             the wave's sum of q times the sine of x over time
    python3 tools/draw.py shock FILE DECK PICTURE --tick T   density and velocity along x beside the exact isothermal solution

DECK is of `deck.py wave` or `deck.py shock`, FILE its stream. Needs Python alone.
"""
import argparse
import math
import sys

sys.dont_write_bytecode = True  # no folder is left beside the tools
import snap  # noqa: E402

WIDE, HIGH, EDGE = 640, 260, 50


def panel(top, title, x_range, y_range, drawn):
    """One diagram: its frame, the ends of its axes, and what is drawn, each item as a kind, a colour and its points."""

    def at(x, y):
        across = EDGE + (WIDE - 2 * EDGE) * (x - x_range[0]) / (x_range[1] - x_range[0])
        return f"{across:.1f}", f"{top + HIGH - 30 - (HIGH - 60) * (y - y_range[0]) / (y_range[1] - y_range[0]):.1f}"

    lines = [f'<text x="{EDGE}" y="{top + 20}">{title}</text>']
    lines += [
        f'<rect x="{EDGE}" y="{top + 30}" width="{WIDE - 2 * EDGE}" height="{HIGH - 60}" fill="none" stroke="#888"/>',
        f'<text x="4" y="{top + 38}">{y_range[1]:g}</text><text x="4" y="{top + HIGH - 30}">{y_range[0]:g}</text>',
        f'<text x="{EDGE}" y="{top + HIGH - 14}">{x_range[0]:g}</text>',
        f'<text x="{WIDE - EDGE - 20}" y="{top + HIGH - 14}">{x_range[1]:g}</text>',
    ]
    for kind, colour, points in drawn:
        spots = [at(*it) for it in points]
        if kind == "line":
            path = " ".join(",".join(it) for it in spots)
            lines.append(f'<polyline points="{path}" fill="none" stroke="{colour}" stroke-width="1.5"/>')
        else:
            lines += [f'<circle cx="{x}" cy="{y}" r="2.2" fill="{colour}"/>' for x, y in spots]
    return lines


def picture(panels):
    head = f'<svg xmlns="http://www.w3.org/2000/svg" width="{WIDE}" height="{HIGH * len(panels)}" font-family="sans-serif" font-size="12">'
    lines = [head, f'<rect width="{WIDE}" height="{HIGH * len(panels)}" fill="white"/>']
    for place, it in enumerate(panels):
        lines += panel(place * HIGH, *it)
    return "\n".join([*lines, "</svg>", ""])


def speed_of(units):
    return math.sqrt(units.sound * 2.0 ** (23 - units.shift)) * units.length / units.tick


def wave(file, units, given):
    swing, side = [], units.length * snap.SIDE
    for it in snap.snapshots(file):
        sines = (q * math.sin(2 * math.pi * x / snap.SIDE) for q, x in zip(it.qx, it.x))
        swing.append((it.tick * units.tick * speed_of(units) / side, float(sum(sines))))
    swing = [(time, it / swing[0][1]) for time, it in swing]
    zeros = [a + (b - a) * p / (p - q) for (a, p), (b, q) in zip(swing, swing[1:]) if (p > 0) != (q > 0)]
    if len(zeros) > 1:
        print(f"period over the known one {2 * (zeros[-1] - zeros[0]) / (len(zeros) - 1):.4f}")
    end = swing[-1][0]
    known = [(end * k / 200, math.cos(2 * math.pi * end * k / 200)) for k in range(201)]
    title = "sum of q times sine of x over its first value, by time in known periods; line: the known cosine"
    return [(title, (0, end), (-1.1, 1.1), [("line", "#c33", known), ("dots", "#236", swing)])]


def between(left, right):
    """Density and velocity (in sound speeds) between the rarefaction and the shock of an isothermal gas at rest before."""
    low, high = right, left
    for _ in range(100):
        rho = (low + high) / 2
        low, high = (rho, high) if math.log(left / rho) > (rho - right) / math.sqrt(rho * right) else (low, rho)
    return rho, math.log(left / rho)


def exact(x, time, left, right):
    """Density and velocity at the distance x from the border, on the right of it less dense; all in sound speeds."""
    rho, velocity = between(left, right)
    if x < -time:
        return left, 0.0
    if x < (velocity - 1) * time:
        return left * math.exp(-(x / time + 1)), x / time + 1
    return (rho, velocity) if x < math.sqrt(rho / right) * time else (right, 0.0)


def shock(file, units, given):
    it = next((it for it in snap.snapshots(file) if it.tick == given.tick), None)
    if it is None:
        raise snap.Refused(f"no snapshot at tick {given.tick}")
    side = units.length * snap.SIDE
    time, _, masses, _, xs, _, _, velocities, _, _, rhos, _ = snap.physical(it, units)
    time, mean = time * speed_of(units) / side, sum(masses) / side**3
    rhos, velocities = [rho / mean for rho in rhos], [v / speed_of(units) for v in velocities]
    thin = 2 / (1 + given.ratio)
    slabs = 80
    columns = [[] for _ in range(slabs)]
    for x, rho, velocity in zip(xs, rhos, velocities):
        columns[min(int(x / side * slabs), slabs - 1)].append((x / side, rho, velocity))
    # The box is periodic: each half of it is one half of the problem, and the half about 0 is its mirror.
    answer = lambda x: (lambda rho, v, turn: (rho, v * turn))(*exact(mirrored(x), time, given.ratio * thin, thin), turn(x))
    means = [tuple(sum(part) / len(it) for part in zip(*it)) for it in columns if it]
    for name, field in (("density", 1), ("velocity", 2)):
        off = [row[field] - answer(row[0])[field - 1] for row in means]
        print(f"{name} off the exact one: mean of a slab {sum(map(abs, off)) / len(off):.4f}, greatest {max(map(abs, off)):.4f}")
    rho, velocity = between(given.ratio * thin, thin)
    print(f"time {time:.4f}; between the fronts exactly {rho:.4f} and {velocity:.4f}, the shock at {0.5 + math.sqrt(rho / thin) * time:.4f}")
    inside = [row for column in columns for row in column if 0.5 + velocity * time < row[0] < 0.5 + math.sqrt(rho / thin) * time]
    if inside:
        for name, field in (("density", 1), ("velocity", 2)):
            values = [row[field] for row in inside]
            middle = sum(values) / len(values)
            spread = math.sqrt(sum((it - middle) ** 2 for it in values) / len(values))
            print(f"{name} behind the shock: mean {middle:.4f}, spread {spread:.4f}, {len(values)} particles")
    line = [(k / 800, *answer(k / 800)) for k in range(801)]
    panels = []
    for name, field, reach in (("density", 1, (0.5, 1.5)), ("velocity in sound speeds", 2, (-0.6, 0.6))):
        dots = [(row[0], row[field]) for row in means]
        title = f"{name} along x at tick {it.tick}, means of {slabs} slabs; line: the exact solution"
        panels.append((title, (0, 1), reach, [("line", "#c33", [(row[0], row[field]) for row in line]), ("dots", "#236", dots)]))
    return panels


def mirrored(x):
    return x - 0.5 if 0.25 <= x < 0.75 else (-x if x < 0.25 else 1 - x)


def turn(x):
    return 1 if 0.25 <= x < 0.75 else -1


def words():
    options = argparse.ArgumentParser(prog="draw.py", description="Draws the pictures of docs/PROBLEMS.md.")
    jobs = options.add_subparsers(required=True, metavar="JOB")
    for job in (wave, shock):
        parser = jobs.add_parser(job.__name__)
        parser.set_defaults(job=job)
        parser.add_argument("file", metavar="FILE")
        parser.add_argument("deck", metavar="DECK")
        parser.add_argument("picture", metavar="PICTURE")
        if job is shock:
            parser.add_argument("--tick", type=int, required=True)
            parser.add_argument("--ratio", type=float, default=2.0, help="of the densities, as of the deck")
    return options.parse_args()


def main():
    given = words()
    try:
        with open(0 if given.file == "-" else given.file, "rb") as file:
            text = picture(given.job(file, snap.deck_units(given.deck), given))
        with open(given.picture, "w", encoding="utf-8") as out:
            out.write(text)
    except (snap.Refused, OSError) as error:
        print(f"draw.py: {error}", file=sys.stderr)
        return 1
    return 0


if __name__ == "__main__":
    sys.exit(main())
