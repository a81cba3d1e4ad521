#!/usr/bin/env python3
"""The textbook's sums in double precision, held against the program's.

    python3 tools/float_sums.py sums FILE DECK [--tick T] [--round PART]
                                                         densities of each snapshot of DECK's stream FILE, or of the ones from
                                                         T on, and the forces that its momenta tell of
    python3 tools/float_sums.py wave DECK [--ticks N] [--round PART]
                                                         runs a deck of `deck.py wave` by a leapfrog in double precision
    python3 tools/float_sums.py lattice H ..             the period of a long wave on a cubic lattice over the known one, for a
                                                         smoothing length of H spacings, by the sums alone

PART is what is rounded down as by the program: root, or all, where no difference may be left.

A force stands in no stream. Where a step of a particle leads from one snapshot to the next, its momentum changes by the step
times the sum of its forces at the two, which is compared. FILE is a path, or - for standard input. Needs Python alone.
"""
import argparse
import math
import re
import sys
from itertools import product

sys.dont_write_bytecode = True  # no folder is left beside the tools
import snap  # noqa: E402

CONSTANT = 8 / math.pi
HALF, SIDE = snap.SIDE // 2, snap.SIDE


def kernel(s):
    return 1 - 6 * s * s + 6 * s**3 if s <= 0.5 else 2 * (1 - s) ** 3


def slope(s):
    """The kernel's derivative over the distance, its sign turned."""
    return 12 - 18 * s if s <= 0.5 else 6 * (1 - s) ** 2 / s


def part_of(r2, h, rounded):
    """The distance as a part of h; where asked, in 1024ths rounded down."""
    return math.isqrt((int(r2) << 20) // (h * h)) / 1024 if rounded else math.sqrt(r2) / h


def density_part(mass, r2, h, rounded):
    if rounded == "all":
        s = math.isqrt((int(r2) << 20) // (h * h))
        height = 2**30 - 6 * 1024 * s * s + 6 * s**3 if s <= 512 else 2 * (1024 - s) ** 3
        return mass * 166886 * height * 256 // h**3
    return mass * CONSTANT * kernel(part_of(r2, h, rounded)) / h**3 * 2.0**54


def force_part(both, sound, rho, r2, h, rounded):
    """One of the two parts of a pair's factor, for the product of its masses."""
    if rounded == "all":
        s = math.isqrt((int(r2) << 20) // (h * h))
        steep = 12288 - 18 * s if s <= 512 else 6 * (1024 - s) ** 2 // s
        return both * ((sound << 30) // rho) * 166886 * steep * 2**20 // h**5
    return both * sound * 2.0**76 / rho * CONSTANT * slope(part_of(r2, h, rounded)) / h**5


def pairs_of(places, lengths):
    """Each pair in reach once: i, j, the minimal image of i less j, and its square."""
    across = max(1, min(SIDE // max(lengths), 64))
    cells = {}
    for i, place in enumerate(places):
        cells.setdefault(tuple(int(it * across // SIDE) % across for it in place), []).append(i)
    for cell, members in cells.items():
        near = {tuple((a + b) % across for a, b in zip(cell, way)) for way in product((-1, 0, 1), repeat=3)}
        others = [j for it in near for j in cells.get(it, ())]
        for i in members:
            x, y, z = places[i]
            for j in others:
                if i < j:
                    a, b, c = places[j]
                    dx, dy, dz = (x - a + HALF) % SIDE - HALF, (y - b + HALF) % SIDE - HALF, (z - c + HALF) % SIDE - HALF
                    r2 = dx * dx + dy * dy + dz * dz
                    if r2 < max(lengths[i], lengths[j]) ** 2:
                        yield i, j, dx, dy, dz, r2


def sums_of(masses, lengths, places, sound, rounded=None):
    """The densities and the forces at these places, in the program's units."""
    pairs = [*pairs_of(places, lengths)]
    rho = [density_part(m, 0, h, rounded) for m, h in zip(masses, lengths)]
    for i, j, _, _, _, r2 in pairs:
        for at, of in ((i, j), (j, i)):
            if r2 < lengths[at] ** 2:
                rho[at] += density_part(masses[of], r2, lengths[at], rounded)
    forces = [[0, 0, 0] for _ in places]
    for i, j, *way, r2 in pairs:
        both = masses[i] * masses[j]
        factor = sum(force_part(both, sound, rho[k], r2, lengths[k], rounded) for k in (i, j) if r2 < lengths[k] ** 2)
        for axis, it in enumerate(way):
            forces[i][axis] += factor * it
            forces[j][axis] -= factor * it
    return rho, forces


# Against a stream


def sums(given):
    units = snap.deck_units(given.deck)
    speed2, before = units.sound * 2.0 ** (23 - units.shift), None
    with open(0 if given.file == "-" else given.file, "rb") as file:
        for it in snap.snapshots(file):
            if it.tick < given.tick:
                continue
            rho, forces = sums_of(it.mass, it.h, [*zip(it.x, it.y, it.z)], units.sound, given.round)
            off = [(mine - own) / own for mine, own in zip(it.rho, rho)]
            print(f"tick {it.tick} densities differ by at most {worst(off):.3g}, mean {mean(off):.3g}", end="")
            potential = sum(m * math.log(own) for m, own in zip(it.mass, rho)) / sum(it.mass)
            theirs = sum(m * math.log(own) for m, own in zip(it.mass, it.rho)) / sum(it.mass)
            moving = sum(
                sum(q[k] ** 2 for q in (it.qx, it.qy, it.qz)) / m for k, m in enumerate(it.mass)
            ) / 2 / 4.0**units.shift / sum(it.mass) / speed2
            print(f"; energy a mass and squared sound speed {moving + potential:.7f}, the program's {moving + theirs:.7f}")
            if before:
                compare(before, it, before_forces, forces)
            before, before_forces = it, forces


def compare(first, last, before, after):
    """The changes of the momenta from one snapshot to the next against the forces at both."""
    step, off, sizes = last.tick - first.tick, [], []
    for k, old in enumerate(first.bin):
        if 2**old == step:
            for axis, (early, late) in enumerate(zip((first.qx, first.qy, first.qz), (last.qx, last.qy, last.qz))):
                wanted = step * (before[k][axis] + after[k][axis])
                off.append(late[k] - early[k] - wanted)
                sizes.append(wanted)
    if off:
        size = root_mean_square(sizes) or 1  # on a lattice at rest there is no force
        line = f"greatest {worst(off) / size:.3g}, root mean square {root_mean_square(off) / size:.3g}"
        print(f"  forces at {first.tick} and {last.tick}, {len(off)} numbers: difference in mean sizes of a force: {line}")


def worst(values):
    return max(map(abs, values))


def mean(values):
    return sum(values) / len(values)


def root_mean_square(values):
    return math.sqrt(sum(it * it for it in values) / len(values))


# A wave


def wave(given):
    """The zeros of the sum of q times the sine of x, of a leapfrog with one step a tick."""
    units = snap.deck_units(given.deck)
    with open(given.deck, encoding="utf-8") as file:
        text = file.read()
    names = ["mass", "h", "x", "y", "z", "px", "py", "pz"]
    row = r"\{ " + ", ".join(rf"{name} = (-?\d+)" for name in names) + r" \}"
    found = re.findall(row, text)
    if not found:
        raise snap.Refused(f"{given.deck} has no particles as deck.py writes them")
    masses, lengths, x, y, z, *momenta = zip(*(map(int, it) for it in found))
    places, momenta = [*zip(x, y, z)], [*map(list, zip(*momenta))]
    ahead, zeros, last = [it[:] for it in momenta], [], None
    for tick in range(given.ticks + 1):
        _, forces = sums_of(masses, lengths, places, units.sound, given.round)
        if tick:
            momenta = [[p + f for p, f in zip(*it)] for it in zip(ahead, forces)]
        now = sum(q[0] * math.sin(2 * math.pi * place[0] / SIDE) for q, place in zip(momenta, places))
        if last is not None and (last > 0) != (now > 0):
            zeros.append(tick - 1 + last / (last - now))
            print(f"zero at {zeros[-1]:.3f}", flush=True)
        last = now
        ahead = [[q + f for q, f in zip(*it)] for it in zip(momenta, forces)]
        down = math.floor if given.round == "all" else float
        places = [
            tuple((a + down(p / m / 2**units.shift)) % SIDE for a, p in zip(place, it))
            for place, it, m in zip(places, ahead, masses)
        ]
    period = SIDE / math.sqrt(units.sound * 2.0 ** (23 - units.shift))
    if len(zeros) > 1:
        found = 2 * (zeros[-1] - zeros[0]) / (len(zeros) - 1)
        print(f"known period {period:.3f}, found {found:.3f}, ratio {found / period:.4f}")


def lattice(given):
    """The energy c^2 ln(rho) of a particle turns by `stiff` as the lattice is stretched along x; the gas itself has c^2."""
    for h in given.lengths:
        near = [*product(range(-math.ceil(h) - 1, math.ceil(h) + 2), repeat=3)]

        def energy(stretch):
            parts = (math.sqrt((a * stretch) ** 2 + b * b + c * c) / h for a, b, c in near)
            return math.log(sum(kernel(s) for s in parts if s < 1))

        stiff = (energy(1.001) - 2 * energy(1) + energy(0.999)) / 1e-6
        print(f"h {h:g} stiffness {stiff:.4f} period over the known one {stiff**-0.5:.4f}")


def words():
    options = argparse.ArgumentParser(prog="float_sums.py", description="The textbook's sums in double precision.")
    jobs = options.add_subparsers(required=True, metavar="JOB")
    parser = jobs.add_parser("lattice")
    parser.set_defaults(job=lattice)
    parser.add_argument("lengths", metavar="H", nargs="+", type=float, help="in spacings, above 1")
    for job in (sums, wave):
        parser = jobs.add_parser(job.__name__)
        parser.set_defaults(job=job)
        if job is sums:
            parser.add_argument("file", metavar="FILE", help="a stream: a path, or - for standard input")
        parser.add_argument("deck", metavar="DECK", help="a deck that deck.py made")
        if job is sums:
            parser.add_argument("--tick", type=int, default=0, metavar="T", help="the first snapshot")
        else:
            parser.add_argument("--ticks", type=int, default=48, metavar="N")
        parser.add_argument("--round", choices=["root", "all"], help="what is rounded down as by the program")
    return options.parse_args()


def main():
    given = words()
    try:
        given.job(given)
    except (snap.Refused, OSError) as error:
        print(f"float_sums.py: {error}", file=sys.stderr)
        return 1
    return 0


if __name__ == "__main__":
    sys.exit(main())
