#!/usr/bin/env python3
"""Nanoseconds to take a cell of the lock table and give it back, beside the same atomic steps bare.

    build.sh && measure.py

Each program is run at 0 and at TIMES rounds, in turn, REPEATS times, on one processor. Of each the least time counts, and
a round takes the difference of the two, divided by TIMES. Other work on the machine makes the times longer: stop it first.
"""
import os
import subprocess
import sys
import time

HERE = os.path.join(os.path.dirname(os.path.abspath(__file__)), "out")
TIMES = 20_000_000
REPEATS = 5
LEVELS = [0, 3, 10]
# The bare steps first: the others are compared with them.
PROGRAMS = {"bare": "atomics", "token": "atomics_token", "inlined": "lock_table", "called": "lock_table_called"}


def seconds(program, level, times):
    """How long a run takes: by the clock, and of the processor."""
    used = os.times().children_user
    start = time.perf_counter()
    ran = subprocess.run([os.path.join(HERE, program), str(level), str(times)], capture_output=True, text=True)
    passed = time.perf_counter() - start
    if ran.returncode != 0 or ran.stdout != f"got {times}\n":
        sys.exit(f"{program} {level} {times}: status {ran.returncode}, {ran.stdout!r} {ran.stderr!r}")
    return passed, os.times().children_user - used


def least(each):
    """The least by the clock."""
    return min(one for one, _ in each)


def main():
    os.sched_setaffinity(0, {max(os.sched_getaffinity(0))})
    taken = {}
    for _repeat in range(REPEATS):
        for level in LEVELS:
            for name, program in PROGRAMS.items():
                for times in [0, TIMES]:
                    taken.setdefault((name, level, times), []).append(seconds(program, level, times))
    print(f"ns a round, of {TIMES} rounds; the least of {REPEATS}; load at the end {os.getloadavg()[0]:.1f}")
    print("| level | atomic steps | " + " | ".join(PROGRAMS) + " | " + " | ".join(f"{it} / bare" for it in list(PROGRAMS)[1:]) + " |")
    print("|---" * (1 + 2 * len(PROGRAMS)) + "|")
    for level in LEVELS:
        rounds = [(least(taken[it, level, TIMES]) - least(taken[it, level, 0])) / TIMES * 1e9 for it in PROGRAMS]
        cells = [f"{it:.1f}" for it in rounds] + [f"{it / rounds[0]:.2f}" for it in rounds[1:]]
        print(f"| {level} | {2 + 2 * level} | " + " | ".join(cells) + " |")
    for (name, level, times), each in taken.items():
        print(f"{name:8} level {level:2} times {times:8}: " + " ".join(f"{one:.3f}/{used:.2f}" for one, used in sorted(each)))


main()
