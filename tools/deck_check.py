#!/usr/bin/env python3
"""Checks tools/deck.py: python3 tools/deck_check.py PROGRAM. Each maker's small deck is accepted, and each fault of a table
gets its line; and tools/float_sums.py finds the program's sums. Each difference is printed, and then the status is 1."""
import re
import subprocess
import sys
import tempfile
from pathlib import Path

TOOL = [sys.executable, Path(__file__).resolve().parent / "deck.py"]
SUMS_TOOL = [sys.executable, Path(__file__).resolve().parent / "float_sums.py"]
TABLE = ["from-csv", "-", "--side", "1", "--sound-speed", "1"]
HEAD = "mass,h,x,y,z,vx,vy,vz\n"
SUMS = re.compile(rf"deck\.py: sums may reach \d+, and less than {2**96} is needed\n")

FAULTS = [
    ("", "missing column mass"),
    ("mass,h,x,y,z,vx,vy\n", "missing column vz"),
    ("mass,mass,h,x,y,z,vx,vy,vz\n", "double column mass"),
    ("mass,h,x,y,z,vx,px\n", "both momenta (px, py, pz) and velocities (vx, vy, vz)"),
    (HEAD, "no particles"),
    (HEAD + "1,.1,0,0,0,0,0\n", "row 1: 7 fields rather than 8"),
    (HEAD + "1,.1,0,0,0,0,0,0\n1,.1,a,0,0,0,0,0\n", "row 2: x is no number: a"),
    (HEAD + "1,.1,nan,0,0,0,0,0\n", "row 1: x is not finite: nan"),
    (HEAD + "0,.1,0,0,0,0,0,0\n", "row 1: mass is not above 0"),
    (HEAD + "1,.1,0,0,0,0,0,0\n.000001,.1,0,0,0,0,0,0\n", "row 2: mass is 0.065536 units, and 1 to 65536 fit"),
    (HEAD + "1,.5,0,0,0,0,0,0\n", "row 1: h is 524288 units, and 1024 to 131072 fit"),
    (HEAD + "1,.1,0,0,0,1e30,0,0\n", None),
    (HEAD + 32769 * "1,.1,0,0,0,0,0,0\n", "too many particles: 32769, and at most 32768 fit"),
]

failed = []


def make(words, table=""):
    return subprocess.run([*TOOL, *words], input=table, capture_output=True, text=True)


def check_sums(program):
    """Sums rounded as the program's are the program's, and those in double precision aren't far."""
    with tempfile.TemporaryDirectory() as folder:
        deck, stream = Path(folder) / "wave.toml", Path(folder) / "wave.snap"
        make(["wave", "8", "--neighbours", "4", "--places", "glass", "--ticks", "2", "--out", deck])
        with open(deck, "rb") as file, open(stream, "wb") as out:
            subprocess.run([program, "run"], stdin=file, stdout=out)
        for words, most in [(["--round", "all"], 0.0), ([], 0.01)]:
            done = subprocess.run([*SUMS_TOOL, "sums", stream, deck, *words], capture_output=True, text=True)
            densities = [float(it) for it in re.findall(r"differ by at most (\S+),", done.stdout)]
            forces = [float(it) for it in re.findall(r"root mean square (\S+)", done.stdout)]
            if len(densities) != 3 or len(forces) != 2 or max(densities) > most or max(forces) > 10 * most:
                failed.append(f"float_sums.py {words}: {done.stdout}{done.stderr}")


def main():
    program = sys.argv[1]
    for table, line in FAULTS:
        done = make(TABLE, table)
        right = done.stderr == f"deck.py: {line}\n" if line else done.stderr.startswith("deck.py: a momentum is ")
        if not right or done.stdout or done.returncode != 1:
            failed.append(f"wanted {line}, but got {done.stderr}")
    good = HEAD + "1,.1,1.25,-0.25,0,1,0,0\n"
    for words, table, count in [
        (TABLE, good, 1),
        (["wave", "8", "--neighbours", "4"], "", 512),
        (["shock", "20"], "", None),
        (["blast", "16"], "", None),
    ]:
        deck = make(words, table).stdout
        line = subprocess.run([program, "check"], input=deck, capture_output=True, text=True).stdout
        if not line.startswith("accepted: particles " + (f"{count} " if count else "")):
            failed.append(f"the deck of {words}: {line}")
    heavy = HEAD + "65536,.001,0,0,0,0,0,0\n1,.1,0,0,0,0,0,0\n"
    done = make([*TABLE, "--mass", "1", "--tick", "0.01", "--ticks", "65536"], heavy)
    if not SUMS.fullmatch(done.stderr) or done.stdout or done.returncode != 1:
        failed.append(f"wanted the sums refused, but got {done.stderr}")
    check_sums(program)
    if "x = 262144, y = 786432, z = 0," not in make(TABLE, good).stdout:
        failed.append("places are not wrapped")
    print("\n".join(failed), file=sys.stderr, end="\n" if failed else "")
    return 1 if failed else 0


if __name__ == "__main__":
    sys.exit(main())
