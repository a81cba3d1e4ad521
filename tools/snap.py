#!/usr/bin/env python3
"""Looks at a stream of snapshots, as docs/FORMATS.md lays it out.

    python3 tools/snap.py info FILE                       prints a line a snapshot
    python3 tools/snap.py csv FILE [--tick T] [--units DECK]
                                                          prints each row of each snapshot, or of the one at T, below a header;
                                                          with --units in the units that deck.py wrote at the head of the deck
    python3 tools/snap.py energy FILE DECK                prints kinetic, potential and whole energy of each snapshot
    python3 tools/snap.py vtk FILE FOLDER                 writes a VTK file of points a snapshot, for ParaView
    python3 tools/snap.py plot FILE PICTURE [--tick T]    draws a snapshot, the last one or the one at T

FILE is a path, or - for standard input. The stream is read snapshot by snapshot, and each is answered before the next one
is read; so what stood before a fault may have been printed or written. A fault is one line on standard error with the
reader's word and the place, as `snap.py: short at 100`, and the status 1.
"""
import argparse
import math
import os
import re
import struct
import sys
from collections import Counter, namedtuple
from itertools import chain
from pathlib import Path

SNAPSHOT, END = b"SPHSNAP1", b"SPHSNEND"
HEAD, ROW = 16, struct.Struct("<6I QqQqQq QI")  # a component of the momentum is its two halves, the low one first
LAST_TICK, MOST_ROWS, SIDE, BEYOND = 1 << 16, 1 << 15, 1 << 20, 1 << 96

# The fields of a row: the offset, and the least and the greatest number. That of `number` is taken less its place.
FIELDS = [
    (0, 0, 0),
    (4, 1, 1 << 16),
    (8, 1 << 10, 1 << 17),
    *((at, 0, SIDE - 1) for at in (12, 16, 20)),
    *((at, 1 - BEYOND, BEYOND - 1) for at in (24, 40, 56)),
    (72, 20, (1 << 61) - 1),
    (80, 0, 10),
]

# A snapshot: its tick and, for each field of its rows, the column of the numbers.
Snapshot = namedtuple("Snapshot", "tick number mass h x y z qx qy qz rho bin")

# What one length unit, mass unit and tick of a deck stand for, and its sound and shift.
Units = namedtuple("Units", "length mass tick sound shift")


class Refused(Exception):
    """What can't be done, as the line that says so."""


def fault(kind, at):
    return Refused(f"{kind} at {at}")


def snapshots(file):
    """Each snapshot of a stream, from left to right, up to the first place that fails."""
    at, least = 0, 0
    while (mark := taken(file, at, 8)) != END or not least:
        if mark != SNAPSHOT:
            raise fault("magic", at)
        tick = number(file, at + 8, least, LAST_TICK)
        count = number(file, at + 12, 1, MOST_ROWS)
        yield Snapshot(tick, *rows(file, at + HEAD, count))
        at, least = at + HEAD + ROW.size * count, tick + 1
    if file.read(1):
        raise fault("trailing", at + 8)


def taken(file, at, size):
    data = file.read(size)
    if len(data) < size:
        raise fault("short", at)
    return data


def number(file, at, least, greatest):
    found = int.from_bytes(taken(file, at, 4), "little")
    if not least <= found <= greatest:
        raise fault("range", at)
    return found


def rows(file, at, count):
    """The columns of so many rows, the first of which begins at `at`."""
    data = file.read(ROW.size * count)
    missing = ROW.size * count - len(data)
    # Zeros stand for what is missing. Where they are out of range, it is at the field that is short, or behind it.
    columns = columns_of(data + bytes(missing))
    numbers = [found - place for place, found in enumerate(columns[0], 1)]
    faults = [("short", at + cut(len(data)))] if missing else []
    faults += [("range", at + place) for place in out_of_range([numbers, *columns[1:]])]
    if faults:
        raise fault(*min(faults, key=lambda it: it[1]))  # of two at one place the first one, which is the short one
    return columns


def columns_of(data):
    *first, low_x, high_x, low_y, high_y, low_z, high_z, rho, bins = zip(*ROW.iter_unpack(data))
    momentum = [
        tuple(high << 64 | low for low, high in zip(*halves))
        for halves in ((low_x, high_x), (low_y, high_y), (low_z, high_z))
    ]
    return [*first, *momentum, rho, bins]


def cut(size):
    """Where the field begins that isn't whole in the first `size` bytes of rows."""
    inside = size % ROW.size
    return size - inside + max(at for at, _, _ in FIELDS if at <= inside)


def out_of_range(columns):
    """Where in its column each field first has a number that is out of its range, for those that have one."""
    for (at, least, greatest), column in zip(FIELDS, columns):
        if min(column) < least or max(column) > greatest:
            yield at + ROW.size * next(row for row, it in enumerate(column) if not least <= it <= greatest)


def info(file, given):
    for it in snapshots(file):
        bins = " ".join(f"bin_{step} {count}" for step, count in sorted(Counter(it.bin).items()))
        density = f"rho_min {min(it.rho)} rho_max {max(it.rho)}"
        momentum = f"qx {sum(it.qx)} qy {sum(it.qy)} qz {sum(it.qz)}"
        print(f"tick {it.tick} particles {len(it.rho)} {density} {momentum} {bins}", flush=True)


def csv(file, given):
    units = given.units and deck_units(given.units)
    print("time,number,mass,h,x,y,z,vx,vy,vz,density,bin" if units else ",".join(Snapshot._fields))
    found = False
    for it in snapshots(file):
        if given.tick in (None, it.tick):
            found = True
            tick, *columns = physical(it, units) if units else it
            line = ",".join([f"{tick}", *["%s"] * len(columns)])
            print("\n".join(line % row for row in zip(*columns)), flush=True)
    if not found:
        raise Refused(f"no snapshot at tick {given.tick}")


def deck_units(path):
    """What stands at the head of a deck: its units, its own ones where it has no line of them, its sound and its shift."""
    with open(path, encoding="utf-8") as file:
        head = re.split(r"(?m)^\s*(?:\[\[particle\]\]|particle\s*=)", file.read())[0]
    line = re.search(r"(?m)^# units: side (\S+) mass (\S+) tick (\S+)$", head)
    keys = [re.search(rf"(?m)^\s*{key}\s*=\s*(\d+)\s*(?:#.*)?$", head) for key in ("sound", "shift")]
    if not all(keys):
        raise Refused(f"{path} has no line of sound or of shift above its particles")
    try:
        side, mass, tick = map(float, line.groups()) if line else (float(SIDE), 1.0, 1.0)
    except ValueError:
        raise Refused(f"{path} has a line of units that has no numbers") from None
    return Units(side / SIDE, mass, tick, *(int(it[1]) for it in keys))


def physical(it, units):
    """A snapshot in the units of its deck, with velocities in place of momenta."""
    length, mass, tick, _, shift = units
    lengths = [[value * length for value in column] for column in (it.h, it.x, it.y, it.z)]
    velocities = [
        [q / (m << shift) * length / tick for q, m in zip(column, it.mass)] for column in (it.qx, it.qy, it.qz)
    ]
    density = mass / length**3 / 2**54
    masses, densities = [m * mass for m in it.mass], [rho * density for rho in it.rho]
    return [it.tick * tick, it.number, masses, *lengths, *velocities, densities, it.bin]


def energy(file, given):
    """The kinetic energy, and the potential c^2 m ln(rho) of an isothermal gas, 0 in the first snapshot."""
    units = deck_units(given.deck)
    speed2 = units.sound * 2.0 ** (23 - units.shift) * (units.length / units.tick) ** 2
    first = whole = None
    for it in snapshots(file):
        time, _, masses, _, _, _, _, vx, vy, vz, densities, _ = physical(it, units)
        kinetic = sum(m * (a * a + b * b + c * c) for m, a, b, c in zip(masses, vx, vy, vz)) / 2
        potential = speed2 * sum(m * math.log(rho) for m, rho in zip(masses, densities))
        first = potential if first is None else first
        potential -= first
        whole = kinetic + potential if whole is None else whole
        change = kinetic + potential - whole
        print(f"time {time:.6g} kinetic {kinetic:.6e} potential {potential:.6e} change {change:.3e}", flush=True)


def vtk(file, given):
    folder = Path(given.folder)
    folder.mkdir(parents=True, exist_ok=True)
    for place, it in enumerate(snapshots(file)):
        (folder / f"snap_{place:04}.vtk").write_bytes(vtk_file(it))


def vtk_file(it):
    """A snapshot as a legacy VTK file: a binary one, of big-endian numbers, which has half the size of a text and is read and
    written faster. A place is below 2^20, and exact as a float; a momentum is rounded to a double; all else is whole."""
    count = len(it.rho)
    parts = [
        f"# vtk DataFile Version 3.0\nswiftq: snapshot at tick {it.tick}\nBINARY\nDATASET POLYDATA\n",
        "FIELD FieldData 1\ntick 1 1 int\n",
        packed("i", [it.tick]),
        f"POINTS {count} float\n",
        packed("f", chain(*zip(it.x, it.y, it.z))),
        f"VERTICES {count} {2 * count}\n",
        packed("i", chain(*((1, point) for point in range(count)))),
        f"POINT_DATA {count}\nSCALARS density vtktypeint64\nLOOKUP_TABLE default\n",
        packed("q", it.rho),
        "VECTORS momentum double\n",
        packed("d", chain(*zip(it.qx, it.qy, it.qz))),
        "FIELD FieldData 3\n",
    ]
    for name, column in [("smoothing_length", it.h), ("mass", it.mass), ("bin", it.bin)]:
        parts += [f"{name} 1 {count} int\n", packed("i", column)]
    return b"".join(part.encode() if isinstance(part, str) else part for part in parts)


def packed(kind, numbers):
    numbers = [*numbers]
    return struct.pack(f">{len(numbers)}{kind}", *numbers) + b"\n"


def plot(file, given):
    chosen = None
    for it in snapshots(file):
        if given.tick in (None, it.tick):
            chosen = it
    if not chosen:
        raise Refused(f"no snapshot at tick {given.tick}")
    draw(chosen, given.picture)


def draw(it, picture):
    try:
        from matplotlib.figure import Figure
    except ImportError:
        raise Refused("plot needs matplotlib: install the package python3-matplotlib") from None
    figure = Figure(figsize=(13, 6), layout="constrained")
    box, histogram = figure.subplots(1, 2, gridspec_kw={"width_ratios": [3, 2]})
    upwards = sorted(range(len(it.z)), key=it.z.__getitem__)  # the particle that is nearest to the eye comes last
    x, y, rho = ([float(column[row]) for row in upwards] for column in (it.x, it.y, it.rho))
    shown = box.scatter(x, y, c=rho, s=max(1, min(60, 40000 / len(rho))), linewidths=0, clip_on=False)
    box.set(title=f"tick {it.tick}, particles {len(rho)}, seen along z", xlabel="x", ylabel="y", aspect="equal")
    quarters = range(0, SIDE + 1, SIDE // 4)
    box.set(xlim=(0, SIDE), ylim=(0, SIDE), xticks=quarters, yticks=quarters)
    box.ticklabel_format(style="plain")
    figure.colorbar(shown, ax=box, label="density")
    histogram.hist(rho, bins=50)
    histogram.set(xlabel="density", ylabel="particles")
    try:
        figure.savefig(picture, dpi=100)
    except ValueError as error:  # a kind of picture that it doesn't know
        raise Refused(" ".join(str(error).split())) from None


def words():
    options = argparse.ArgumentParser(
        prog="snap.py",
        description="Looks at a stream of snapshots. FILE is a path, or - for standard input.",
        epilog="The stream is read snapshot by snapshot, so what stood before a fault may have been printed or written. A "
        "fault is one line on standard error with its place, as `snap.py: short at 100`, and the status 1.",
    )
    jobs = options.add_subparsers(required=True, metavar="JOB")
    for job, says in [
        (info, "a line a snapshot: tick, particles, least and greatest density, total momentum, particles in each bin"),
        (csv, "each row of each snapshot as a line, below a header: of whole numbers, or with --units in a deck's units"),
        (energy, "kinetic and isothermal potential energy of each snapshot, and how far their sum is from the first"),
        (vtk, "a legacy VTK file of points a snapshot, FOLDER/snap_0000.vtk and so on, for ParaView"),
        (plot, "the particles seen along z, coloured by density, and a histogram of densities, by matplotlib"),
    ]:
        parser = jobs.add_parser(job.__name__, help=says, description=says, epilog=options.epilog)
        parser.set_defaults(job=job)
        parser.add_argument("file", metavar="FILE", help="a path, or - for standard input")
        if job is csv:
            parser.add_argument("--tick", type=int, metavar="T", help="the snapshot at this tick alone")
            parser.add_argument("--units", metavar="DECK", help="a deck that deck.py made; velocities in place of momenta")
        if job is energy:
            parser.add_argument("deck", metavar="DECK", help="whose stream FILE is")
        if job is vtk:
            parser.add_argument("folder", metavar="FOLDER", help="made where it isn't there; files of these names are replaced")
        if job is plot:
            parser.add_argument("picture", metavar="PICTURE", help="its ending says of which kind: .png, .pdf, .svg")
            parser.add_argument("--tick", type=int, metavar="T", help="the snapshot at this tick, else the last one")
    return options.parse_args()


def main():
    given = words()
    try:
        if sys.stdout is None:
            raise Refused("standard output is closed")
        with open(0 if given.file == "-" else given.file, "rb") as file:
            given.job(file, given)
    except Refused as refused:
        print(f"snap.py: {refused}", file=sys.stderr)
        return 1
    except OSError as error:
        # What is left to be printed would fail once more at the end.
        os.dup2(os.open(os.devnull, os.O_WRONLY), 1)
        if not isinstance(error, BrokenPipeError):
            print(f"snap.py: {error}", file=sys.stderr)
        return 1
    return 0


if __name__ == "__main__":
    sys.exit(main())
