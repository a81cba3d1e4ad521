#!/usr/bin/env python3
"""Makes decks: from a table of particles, and of three known problems.

    python3 tools/deck.py from-csv FILE --side L --sound-speed C --out my.toml
    python3 tools/deck.py wave 16 --out wave.toml        a standing sound wave along x
    python3 tools/deck.py shock 32 --out shock.toml      two densities side by side
    python3 tools/deck.py blast 24 --out blast.toml      a dense ball that expands

The deck goes to standard output, or whole to the file of --out. What it stands for and what rounding cost is said on standard
error. What doesn't fit a deck is refused by one line, with the status 1, and nothing is written. docs/UNITS.md has the units.
"""
import argparse
import csv
import math
import os
import random
import sys
from collections import namedtuple

BOX, MOST, LEAST_H, GREATEST_H, GREATEST = 1 << 20, 1 << 15, 1 << 10, 1 << 17, 1 << 16
MOMENTUM, SUMS, ACCURACY = (1 << 63) - 1, 1 << 96, (1 << 32) - 1

# A particle in the person's units. Its motion is a velocity or a momentum. A row says where it was read.
Particle = namedtuple("Particle", "row mass h place motion")
# A particle of a deck.
Whole = namedtuple("Whole", "mass h place momentum")
# What one length unit, mass unit and tick are in the person's units, and whether motions are momenta.
Units = namedtuple("Units", "length mass tick momenta")


class Refused(Exception):
    """What can't be made, as the line that says so."""


def say(line):
    print(f"deck.py: {line}", file=sys.stderr)


# Reading a table


def read_table(file):
    """The particles of a table with a header, and whether their motions are momenta."""
    lines = csv.reader(file)
    names = [it.strip() for it in next(lines, [])]
    momenta = columns_of_motion(names)
    motion = ["px", "py", "pz"] if momenta else ["vx", "vy", "vz"]
    wanted = ["mass", "h", "x", "y", "z", *motion]
    for name in wanted:
        if names.count(name) != 1:
            raise Refused(f"{'missing' if name not in names else 'double'} column {name}")
    at = [names.index(name) for name in wanted]
    found = []
    for row, fields in enumerate(lines, 1):
        if fields:
            if len(fields) != len(names):
                raise Refused(f"row {row}: {len(fields)} fields rather than {len(names)}")
            mass, h, x, y, z, *moving = (number(row, name, fields[place]) for name, place in zip(wanted, at))
            found.append(Particle(row, mass, h, (x, y, z), tuple(moving)))
    return found, momenta


def columns_of_motion(names):
    momenta, velocities = ({f"{kind}{axis}" for axis in "xyz"} & set(names) for kind in "pv")
    if momenta and velocities:
        raise Refused("both momenta (px, py, pz) and velocities (vx, vy, vz)")
    return bool(momenta)


def number(row, name, text):
    try:
        found = float(text)
    except ValueError:
        raise Refused(f"row {row}: {name} is no number: {text.strip()}") from None
    if not math.isfinite(found):
        raise Refused(f"row {row}: {name} is not finite: {text.strip()}")
    return found


# Known problems: the side of the box, the sound speed and the mean density are 1


def tile(seed):
    """A glass-like tile: 8 x 8 x 8 points of a unit cube, pushed apart until they are evenly spread."""
    pick, count, reach = random.Random(seed), 8, 2 / 8
    sites = [(a, b, c) for a in range(count) for b in range(count) for c in range(count)]
    points = [[(it + 0.5 + pick.uniform(-0.4, 0.4)) / count for it in site] for site in sites]
    for turn in range(40):
        pushes = pushed(points, reach)
        for point, push in zip(points, pushes):
            for axis in range(3):
                point[axis] = (point[axis] + 0.02 / count * push[axis]) % 1.0
    return points


def pushed(points, reach):
    """For each point the sum of the pushes from those within reach: (1 - r / reach)^2 away from each."""
    pushes = [[0.0, 0.0, 0.0] for _ in points]
    for i, (x, y, z) in enumerate(points):
        for j in range(i):
            dx, dy, dz = (it - round(it) for it in (x - points[j][0], y - points[j][1], z - points[j][2]))
            r2 = dx * dx + dy * dy + dz * dz
            if 0 < r2 < reach * reach:
                r = math.sqrt(r2)
                size = (1 - r / reach) ** 2 / r
                for axis, it in enumerate((dx, dy, dz)):
                    pushes[i][axis] += size * it
                    pushes[j][axis] -= size * it
    return pushes


def filled(low, high, across, given):
    """Places of the slab from low to high on x, with so many particles across y and z, about as far apart on x."""
    step = 8 if given.places == "glass" else 1
    across = max(1, round(across / step)) * step
    along = max(1, round((high - low) * across / step)) * step
    cell = tile(given.seed) if step == 8 else [(0.5, 0.5, 0.5)]
    return [
        (low + (high - low) * (a + x) * step / along, (b + y) * step / across, (c + z) * step / across)
        for a in range(along // step)
        for b in range(across // step)
        for c in range(across // step)
        for x, y, z in cell
    ]


def length_for(neighbours, density):
    """The smoothing length with so many neighbours (itself counted) at so many particles a volume."""
    return (neighbours / (4 * math.pi / 3) / density) ** (1 / 3)


def region(places, mass, volume, given):
    """Particles at rest of this mass in all, evenly spread in a volume."""
    if not places:
        raise Refused("a side with no particles: take a greater one")
    h = length_for(given.neighbours, len(places) / volume)
    return [Particle(None, mass / len(places), h, place, (0.0, 0.0, 0.0)) for place in places]


def wave(given):
    at_rest = region(filled(0, 1, given.count, given), 1, 1, given)
    say(f"a standing wave of {given.amplitude:g} times the sound speed; its period is the box over the sound speed")
    return [it._replace(motion=(given.amplitude * math.sin(2 * math.pi * it.place[0]), 0.0, 0.0)) for it in at_rest]


def shock(given):
    thin = 2 / (1 + given.ratio)
    dense = region(filled(0, 0.5, given.count, given), given.ratio * thin / 2, 0.5, given)
    say(f"densities {given.ratio * thin:.6g} for x below half of the box and {thin:.6g} above")
    return dense + region(filled(0.5, 1, given.count / given.ratio ** (1 / 3), given), thin / 2, 0.5, given)


def blast(given):
    ball = 4 * math.pi / 3 * given.radius**3
    thin = 1 / (1 + (given.ratio - 1) * ball)

    def inside(place):
        return math.dist(place, (0.5, 0.5, 0.5)) < given.radius

    around = [it for it in filled(0, 1, given.count, given) if not inside(it)]
    within = [it for it in filled(0, 1, given.count * given.ratio ** (1 / 3), given) if inside(it)]
    say(f"a ball of the density {given.ratio * thin:.6g} and the radius {given.radius:g} in {thin:.6g}")
    return region(within, given.ratio * thin * ball, ball, given) + region(around, thin * (1 - ball), 1 - ball, given)


# To whole numbers


def units_of(particles, momenta, given):
    """The units of the options; else the greatest mass is that of a deck, and the tick follows from the Courant number."""
    if not particles:
        raise Refused("no particles")
    if len(particles) > MOST:
        raise Refused(f"too many particles: {len(particles)}, and at most {MOST} fit")
    for it in particles:
        if it.mass <= 0 or it.h <= 0:
            raise Refused(f"{named(it)}{'mass' if it.mass <= 0 else 'h'} is not above 0")
    mass = given.mass or max(it.mass for it in particles) / GREATEST
    tick = given.tick or given.courant * min(it.h for it in particles) / given.sound_speed / 2**given.bins
    return Units(given.side / BOX, mass, tick, momenta)


def named(particle):
    return "" if particle.row is None else f"row {particle.row}: "


def in_range(particle, name, value, low, high):
    if not low <= value <= high:
        raise Refused(f"{named(particle)}{name} is {value:.6g} units, and {low} to {high} fit")
    return round(value)


def scaled(particle, units):
    """A particle with its mass, length and place in whole units, and its momentum yet without `shift`."""
    mass = in_range(particle, "mass", particle.mass / units.mass, 1, GREATEST)
    h = in_range(particle, "h", particle.h / units.length, LEAST_H, GREATEST_H)
    place = tuple(round(it / units.length % BOX) % BOX for it in particle.place)
    each = 1 / units.mass if units.momenta else mass
    return Whole(mass, h, place, tuple(it * each * units.tick / units.length for it in particle.motion))


def bound_of(wholes, sound, greatest, given):
    """P0 of docs/MODEL.md: what the momenta of the run may reach."""
    masses, lengths = ([getattr(it, name) for it in wholes] for name in ("mass", "h"))
    least_density = (min(masses) * 166886 << 38) // max(lengths) ** 3
    ghost = (sound << 30) // least_density
    factor = (max(masses) ** 2 * ghost * 166886 * 12288 << 20) // min(lengths) ** 5
    return greatest + 2 * len(wholes) * factor * max(lengths) * (2 * given.ticks + 2**given.bins)


def sound_of(speed, wholes, given):
    """The greatest `shift`, and its `sound`, for a sound speed in length units a tick, with which the deck is accepted."""
    greatest = max(abs(it) for whole in wholes for it in whole.momentum)
    reason = f"the sound speed is {speed:.6g} length units a tick, which no sound and shift stand for"
    for shift in range(60, -1, -1):
        sound = round(speed**2 * 2.0 ** (shift - 23))
        if 1 <= sound <= GREATEST:
            bound = bound_of(wholes, sound, round(greatest * 2**shift), given)
            if round(greatest * 2**shift) > MOMENTUM:
                reason = f"a momentum is {greatest * 2**shift:.6g} units, and at most {MOMENTUM} fit"
            elif bound >= SUMS:
                reason = f"sums may reach {bound}, and less than {SUMS} is needed"
            elif given.move * 2**shift > ACCURACY:
                reason = f"accuracy is {given.move * 2**shift:.6g}, and at most {ACCURACY} fits"
            else:
                return sound, shift, bound
    raise Refused(reason)


def deck_text(particles, momenta, given):
    units = units_of(particles, momenta, given)
    wholes = [scaled(it, units) for it in particles]
    speed = given.sound_speed * units.tick / units.length
    sound, shift, bound = sound_of(speed, wholes, given)
    wholes = [it._replace(momentum=tuple(round(p * 2**shift) for p in it.momentum)) for it in wholes]
    tell(particles, wholes, units, sound, shift, bound, given)
    keys = {
        "ticks": given.ticks, "every": given.every, "bin_min": 0, "bin_max": given.bins, "sound": sound, "shift": shift,
        "accuracy": int(given.move * 2**shift), "leaf": 16, "pairs": 4096, "slack": 1024,
    }  # fmt: skip
    lines = [f"# units: side {given.side!r} mass {units.mass!r} tick {units.tick!r}"]
    lines += [f"{key} = {value}" for key, value in keys.items()]
    return "\n".join([*lines, "particle = [", *map(line_of, wholes), "]", ""])


def line_of(it):
    names = ["mass", "h", "x", "y", "z", "px", "py", "pz"]
    values = [it.mass, it.h, *it.place, *it.momentum]
    return "    { " + ", ".join(f"{name} = {value}" for name, value in zip(names, values)) + " },"


def tell(particles, wholes, units, sound, shift, bound, given):
    """What the deck stands for, and what rounding cost."""
    length, mass, tick, _ = units
    got = math.sqrt(sound * 2.0 ** (23 - shift)) * length / tick
    masses = max(abs(whole.mass * mass / it.mass - 1) for it, whole in zip(particles, wholes))
    lengths = max(abs(whole.h * length / it.h - 1) for it, whole in zip(particles, wholes))
    wrapped = sum(any(not 0 <= axis < given.side for axis in it.place) for it in particles)
    say(f"particles {len(wholes)}, wrapped {wrapped}; one length unit {length:.6g}, mass unit {mass:.6g}, tick {tick:.6g}")
    say(f"sound {sound} shift {shift}: a sound speed of {got:.8g} for {given.sound_speed:.8g}")
    say(f"rounded: masses by at most {masses:.2g} of each, lengths by {lengths:.2g}, places by {length / 2:.2g}")
    least = min(it.h for it in wholes)
    courant = got * tick / length * 2**given.bins / least
    say(f"Courant number {courant:.3g}; box over sound speed {given.side / got / tick:.6g} ticks; bound {bound}")


def check_times(given):
    for name, value, low, high in [
        ("ticks", given.ticks, 0, 1 << 16), ("every", given.every, 1, 1 << 16), ("bins", given.bins, 0, 10),
    ]:  # fmt: skip
        if not low <= value <= high:
            raise Refused(f"{name} is {value}, and {low} to {high} fit")
    if given.every % 2**given.bins or given.ticks % given.every:
        raise Refused(f"ticks {given.ticks} must be a multiple of every {given.every}, and that of {2**given.bins}")
    for name in ("side", "sound_speed", "courant", "move", "mass", "tick", "ratio", "radius", "neighbours"):
        value = getattr(given, name, None)
        if value is not None and not (math.isfinite(value) and value > 0):
            raise Refused(f"{name} is {value:g}, and must be above 0")
    if getattr(given, "count", 1) < 1 or getattr(given, "count", 1) > 64:
        raise Refused(f"the side of {given.count} particles is not 1 to 64")
    if given.job is blast and given.radius >= 0.5:
        raise Refused("the radius must be below half of the box")


def words():
    options = argparse.ArgumentParser(prog="deck.py", description="Makes decks; docs/UNITS.md has their units.")
    jobs = options.add_subparsers(required=True, metavar="JOB")
    for name, job, ticks, says in [
        ("from-csv", None, 64, "of a table with the columns mass, h, x, y, z and px, py, pz or vx, vy, vz"),
        ("wave", wave, 160, "a standing sound wave along x"),
        ("shock", shock, 16, "two densities side by side"),
        ("blast", blast, 32, "a dense ball that expands"),
    ]:
        parser = jobs.add_parser(name, help=says, description=says)
        parser.set_defaults(job=job, side=1.0, sound_speed=1.0, mass=None, tick=None)
        parser.add_argument("--ticks", type=int, default=ticks)
        parser.add_argument("--every", type=int, default=1)
        parser.add_argument("--bins", type=int, default=0, help="the greatest time bin")
        parser.add_argument("--courant", type=float, default=0.2, help="sound speed times the longest step over the least h")
        parser.add_argument("--move", type=float, default=0.01, help="part of h that an acceleration may move in a step")
        parser.add_argument("--out", metavar="FILE", help="written whole, or not at all")
        if job:
            parser.add_argument("count", metavar="SIDE", type=int, help="particles to the side, where the gas is dense")
            parser.add_argument("--places", choices=["lattice", "glass"], default="lattice")
            parser.add_argument("--seed", type=int, default=1, help="of a glass")
            parser.add_argument("--neighbours", type=float, default=33.5)
        else:
            parser.add_argument("file", metavar="FILE", help="a path, or - for standard input")
            parser.add_argument("--side", type=float, required=True, help="of the box")
            parser.add_argument("--sound-speed", type=float, required=True)
            parser.add_argument("--mass", type=float, help="of one unit; else the greatest mass is 65536 units")
            parser.add_argument("--tick", type=float, help="its time; else by the Courant number")
        if job is wave:
            parser.add_argument("--amplitude", type=float, default=0.02, help="of the velocity, in sound speeds")
        if job in (shock, blast):
            parser.add_argument("--ratio", type=float, default=2.0 if job is shock else 4.0, help="of the densities")
        if job is blast:
            parser.add_argument("--radius", type=float, default=0.2, help="of the ball, in sides of the box")
    return options.parse_args()


def made(given):
    check_times(given)
    if given.job:
        return deck_text(given.job(given), False, given)
    with open(0 if given.file == "-" else given.file, newline="", encoding="utf-8") as file:
        return deck_text(*read_table(file), given)


def write(text, path):
    if path is None:
        sys.stdout.write(text)
        sys.stdout.flush()
        return
    with open(f"{path}.new", "w", encoding="utf-8") as file:
        file.write(text)
    os.replace(f"{path}.new", path)


def main():
    given = words()
    try:
        write(made(given), given.out)
    except (Refused, OSError, UnicodeDecodeError, csv.Error) as error:
        print(f"deck.py: {error}", file=sys.stderr)
        return 1
    return 0


if __name__ == "__main__":
    sys.exit(main())
