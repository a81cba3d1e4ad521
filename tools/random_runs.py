#!/usr/bin/env python3
"""Random runs: tools/random_runs.py [--program PATH] [--runs N] [--seed N] [--side MOST]

Each run is of a generated lattice of side 2 to MOST with random bins, leaves, pairs and slack, by 1 to 64 workers, on one,
two or all of the machine's processors in turn; what `run` writes has to be what `plain` writes. A run that takes more than
300 seconds counts as one that doesn't end. A step takes one worker, and one more for each 32 tasks, up to the number that is
asked for: the line at the end says how many a first step took in half of the runs. Prints each run that differs; then the
status is 1.
"""
import argparse
import os
import random
import re
import subprocess
import sys
import time

ROOT = os.path.join(os.path.dirname(os.path.abspath(__file__)), "..")
LONGEST = 300
TASKS_A_WORKER = 32


def deck_of(program, side, seed, changes):
    """A generated deck with other values of some keys at its top."""
    text = subprocess.run([program, "generate", str(side), str(seed)], stdout=subprocess.PIPE, check=True).stdout.decode()
    for key, value in changes.items():
        text, count = re.subn(rf"(?m)^{key} = \d+$", f"{key} = {value}", text, count=1)
        if count != 1:
            sys.exit(f"the generated deck has no key {key} on a line of its own")
    return text.encode()


def random_changes(pick):
    """Values of the keys that say how a run is cut up: in time and in space."""
    low = pick.randint(0, 3)
    high = pick.randint(low, 4)
    every = 1 << pick.randint(high, 4)
    return {
        "ticks": every * pick.randint(1, 16 // every),
        "every": every,
        "bin_min": low,
        "bin_max": high,
        "leaf": pick.choice([1, 1, 2, 2, 4, 4, 8, 16, 256]),
        "pairs": pick.choice([1, 16, 256, 4096, 65536, 1 << 30]),
        "slack": pick.choice([0, 0, 1, 1024, 65535]),
    }


def ran(words, deck, processors):
    """The bytes that a run writes on so many processors, its status, and how long it takes."""
    begun = time.perf_counter()
    on = sorted(os.sched_getaffinity(0))[:processors]
    command = ["taskset", "-c", ",".join(map(str, on)), *words]
    try:
        done = subprocess.run(command, input=deck, stdout=subprocess.PIPE, stderr=subprocess.PIPE, timeout=LONGEST)
    except subprocess.TimeoutExpired:
        return None, None, LONGEST
    return done.stdout, done.returncode, time.perf_counter() - begun


def workers_of(program, deck, workers):
    """How many workers the first step takes, of so many."""
    text = subprocess.run([program, "tree"], input=deck, stdout=subprocess.PIPE, check=True).stdout.decode()
    tasks = sum(int(count) for count in re.findall(r"(?:density|ghost|force|kick) (\d+)", text))
    return min(workers, 1 + tasks // TASKS_A_WORKER)


def main():
    words = argparse.ArgumentParser(description=__doc__.splitlines()[0])
    words.add_argument("--program", default=os.path.join(ROOT, "crates/swiftq/out/swiftq"))
    words.add_argument("--runs", type=int, default=510)
    words.add_argument("--seed", type=int, default=1)
    words.add_argument("--side", type=int, default=14)
    given = words.parse_args()
    if given.side < 2 or not os.access(given.program, os.X_OK):
        words.error("MOST is 2 at least, and PROGRAM is the built program")
    pick = random.Random(given.seed)
    every = len(os.sched_getaffinity(0))
    counts = [1, min(2, every), every]
    wrong, seconds, longest, taken = 0, 0.0, 0.0, []
    for number in range(given.runs):
        side, seed = max(pick.randint(2, given.side), pick.randint(2, given.side)), pick.randrange(1 << 32)
        changes, workers = random_changes(pick), pick.randint(1, 64)
        processors = counts[number % 3]
        deck = deck_of(given.program, side, seed, changes)
        taken.append(workers_of(given.program, deck, workers))
        want, status, _ = ran([given.program, "plain"], deck, every)
        got, got_status, took = ran([given.program, "run", "--workers", str(workers)], deck, processors)
        seconds, longest = seconds + took, max(longest, took)
        if status != 0 or got_status != 0 or got != want:
            wrong += 1
            print(f"side {side} seed {seed} {changes} workers {workers} processors {processors}: status {got_status}, of plain {status}", flush=True)
    print(f"{given.runs} runs, in turn on {counts[0]}, {counts[1]} and {counts[2]} processors: {wrong} other than plain; {seconds:.0f} s in all, the longest {longest:.1f} s; half of the first steps took {sorted(taken)[len(taken) // 2]} workers or more, the most {max(taken)}")
    sys.exit(wrong > 0)


main()
