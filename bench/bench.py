#!/usr/bin/env python3
"""How fast a run is, as ratios in one go on this machine.

    bench/bench.py [--program PATH] [--decks SIDE:SEED[:TICKS],..] [--workers N,..] [--repeats N]

Makes each deck by `generate`, with other `ticks` and `every` where TICKS are given, runs it by `plain`, by `run` with
each number of workers, and by the two programs of this folder, which are not verified: `yardstick.rs` (a grid of cells,
divisions) and `goal.rs` (reciprocals and flat arrays). All write the same bytes; where they differ the bench says so and
ends with status 1. A time is the least of the repeats of a whole process, from the deck on standard input to the stream
on standard output; a program that takes more than ten seconds runs once. Beside the seconds on the clock stand the
processor's, which say more where other programs run on the machine, and then how many times as long as `plain`,
`yardstick` and `goal` on one thread each took on the clock.
The programs of this folder are built by `rustc -O -C target-cpu=native` into a folder that is removed afterwards.
"""
import argparse
import hashlib
import os
import resource
import shutil
import subprocess
import sys
import tempfile
import time

HERE = os.path.dirname(os.path.abspath(__file__))
PROGRAM = os.path.join(HERE, "..", "crates", "swiftq", "out", "swiftq")
BASES = ("plain", "yardstick", "goal")


def build(name, folder):
    """Builds a program of this folder, and gives its path."""
    path = os.path.join(folder, name)
    source = os.path.join(HERE, name + ".rs")
    flags = ["-O", "--edition", "2021", "-C", "target-cpu=native", "-A", "warnings"]
    subprocess.run(["rustc", *flags, "-o", path, source], check=True)
    return path


def deck_of(program, spec):
    """The text of a deck, and its name for the head line."""
    side, seed, *ticks = spec.split(":")
    text = subprocess.run([program, "generate", side, seed], stdout=subprocess.PIPE, check=True).stdout
    count = int(side) ** 3
    name = f"lattice of side {side}, seed {seed}: {count} particle{'s' if count > 1 else ''}"
    if ticks:
        old = b"ticks = 4\nevery = 4\n"
        if old not in text:
            sys.exit("the generated deck has other ticks than this bench expects")
        text = text.replace(old, f"ticks = {ticks[0]}\nevery = {ticks[0]}\n".encode(), 1)
        name += f", to tick {ticks[0]}"
    return text, name


def processor_seconds():
    """What the processes that have ended took of the processors."""
    used = resource.getrusage(resource.RUSAGE_CHILDREN)
    return used.ru_utime + used.ru_stime


def timed(command, deck, repeats):
    """The least times of a whole process over so many runs, on the clock and of the processors, and a digest of what it
    wrote."""
    clock, used, digests = [], [], set()
    while len(clock) < repeats and sum(clock) < 10:
        begun, before = time.perf_counter(), processor_seconds()
        run = subprocess.run(command, input=deck, stdout=subprocess.PIPE, stderr=subprocess.DEVNULL)
        clock.append(time.perf_counter() - begun)
        used.append(processor_seconds() - before)
        if run.returncode != 0:
            sys.exit(f"{' '.join(command)} ended with status {run.returncode}")
        digests.add(hashlib.sha256(run.stdout).hexdigest())
    if len(digests) != 1:
        sys.exit(f"{' '.join(command)} wrote other bytes at each run")
    return (min(clock), min(used)), digests.pop()


def row(name, count, unit):
    """A row's name: of a program on so many workers or threads."""
    return f"{name}, {count} {unit}{'s' if count > 1 else ''}"


def commands(program, others, workers):
    """What is run, by the names of the table's rows."""
    rows = {"plain": [program, "plain"]}
    for count in workers:
        rows[row("run", count, "worker")] = [program, "run", "--workers", str(count)]
    for name, path in others.items():
        for count in sorted({1, *workers}):
            rows[row(name, count, "thread")] = [path, str(count)]
    return rows


def measure(rows, deck, repeats):
    """Each row's times; ends with status 1 where two rows wrote different bytes."""
    times, digests = {}, {}
    for name, command in rows.items():
        times[name], digests[name] = timed(command, deck, repeats)
    if len(set(digests.values())) != 1:
        for name, digest in digests.items():
            print(f"{digest[:16]}  {name}", file=sys.stderr)
        sys.exit("the programs wrote different bytes")
    return times


def show(name, times):
    """Prints the table of a deck."""
    bases = [times[base if base == "plain" else row(base, 1, "thread")][0] for base in BASES]
    print(f"{name}:\n")
    print(f"| {'program':22} | seconds | processor | to plain | to yardstick | to goal |")
    print(f"|{'-' * 24}|--------:|----------:|---------:|-------------:|--------:|")
    for program, (clock, used) in times.items():
        plain, yardstick, goal = (clock / base for base in bases)
        print(f"| {program:22} | {clock:7.3f} | {used:9.3f} | {plain:8.2f} | {yardstick:12.2f} | {goal:7.2f} |")
    print(flush=True)


def main():
    words = argparse.ArgumentParser(description=__doc__, formatter_class=argparse.RawDescriptionHelpFormatter)
    words.add_argument("--program", default=PROGRAM)
    words.add_argument("--decks", default="1:7:65536,8:7,16:7,32:6")
    words.add_argument("--workers", default="1")
    words.add_argument("--repeats", type=int, default=3)
    words = words.parse_args()
    words.program = os.path.abspath(words.program)
    if not os.access(words.program, os.X_OK):
        sys.exit(f"no program at {words.program}: ./swiftq or .ci/run builds it")
    if shutil.which("rustc") is None:
        sys.exit("rustc is not on the path: it builds the programs of bench/")
    workers = [int(count) for count in words.workers.split(",")]
    with tempfile.TemporaryDirectory() as folder:
        others = {name: build(name, folder) for name in ("yardstick", "goal")}
        for spec in words.decks.split(","):
            text, name = deck_of(words.program, spec)
            show(name, measure(commands(words.program, others, workers), text, words.repeats))


if __name__ == "__main__":
    main()
