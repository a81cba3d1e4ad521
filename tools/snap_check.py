#!/usr/bin/env python3
"""Checks tools/snap.py: python3 tools/snap_check.py PROGRAM, where PROGRAM is the built swiftq.

- What `info` prints of each example's stream is examples/NAME.info, whose numbers were worked out from the model.
- A stream of one particle that is cut or changed gets the fault and the place that a reader of streams gives it, and so do
  other streams; where two places fail, the first one is named. Numbers at the ends of their ranges are read.
- `csv`, `energy` and `vtk` give worked texts and files; what `plot` refuses, it refuses by its line.
- Where a file can't be opened, or the output is full, there is one line, and where the output is closed none.

The tool is run on the standard library alone, so without matplotlib. Each difference is printed, and then the status is 1.
"""
import struct
import subprocess
import sys
import tempfile
from pathlib import Path

ROOT = Path(__file__).resolve().parent.parent
EXAMPLES, ONE_PARTICLE = ROOT / "examples", ROOT / "crates/swiftq/stdout"
END = b"SPHSNEND"

# Where the marks and fields of a snapshot of one particle begin, and the end mark behind it.
PLACES = [0, 8, 12, 16, 20, 24, 28, 32, 36, 40, 56, 72, 88, 96, 100]

# One byte of the stream of one particle: where it stands, what stands there instead, and the fault.
CHANGED = [
    (0, 0x52, "magic at 0"),
    (10, 2, "range at 8"),
    (12, 0, "range at 12"),
    (12, 2, "range at 100"),
    (13, 0xFF, "range at 12"),
    (16, 2, "range at 16"),
    (20, 0, "range at 20"),
    (26, 3, "range at 24"),
    (30, 0x10, "range at 28"),
    (34, 0x10, "range at 32"),
    (38, 0x10, "range at 36"),
    (52, 1, "range at 40"),
    (71, 0x80, "range at 56"),
    (84, 1, "range at 72"),
    (88, 19, "range at 88"),
    (95, 0x20, "range at 88"),
    (96, 11, "range at 96"),
    (107, 0, "magic at 100"),
]

# Python without the packages that are installed here.
TOOL = [sys.executable, "-I", "-S", ROOT / "tools/snap.py"]

failed = []


def expect(what, got, wanted):
    if got != wanted:
        failed.append(what)
        print(f"{what}: wanted\n{wanted}\nbut got\n{got}", file=sys.stderr)


def snap(*words, stream=b""):
    """What the tool answers: its status, and what it printed on standard output and on standard error."""
    done = subprocess.run([*TOOL, *words], input=stream, capture_output=True)
    return done.returncode, done.stdout.decode(), done.stderr.decode()


def row(number=1, mass=1, h=131072, x=0, q=(0, 0, 0), rho=20, time_bin=0):
    momentum = b"".join(it.to_bytes(16, "little", signed=True) for it in q)
    return struct.pack("<6I", number, mass, h, x, 0, 0) + momentum + struct.pack("<QI", rho, time_bin)


def snapshot(tick, *rows, count=None):
    return b"SPHSNAP1" + struct.pack("<2I", tick, len(rows) if count is None else count) + b"".join(rows)


def check_examples(program):
    decks, texts = ({it.stem for it in EXAMPLES.glob(kind)} for kind in ("*.toml", "*.info"))
    expect("the examples that have an info", texts, decks)
    for name in sorted(decks & texts):
        with open(EXAMPLES / f"{name}.toml", "rb") as deck, tempfile.NamedTemporaryFile() as stream:
            ran = subprocess.run([program, "run"], stdin=deck, stdout=stream)
            expect(f"the run of {name}", ran.returncode, 0)
            wanted = (EXAMPLES / f"{name}.info").read_text(encoding="utf-8")
            expect(f"info of {name}", snap("info", stream.name), (0, wanted, ""))


def check_cuts():
    whole = ONE_PARTICLE.read_bytes()
    line = (EXAMPLES / "one_particle.info").read_text(encoding="utf-8")
    expect("the stream of one particle", whole, snapshot(0, row()) + END)
    expect("info of the whole stream", snap("info", "-", stream=whole), (0, line, ""))
    for size in range(len(whole)):
        wanted = 1, line if size >= 100 else "", f"snap.py: short at {max(at for at in PLACES if at <= size)}\n"
        expect(f"info of the first {size} bytes", snap("info", "-", stream=whole[:size]), wanted)


def check_changes():
    whole = ONE_PARTICLE.read_bytes()
    streams = [(whole[:at] + bytes([other]) + whole[at + 1 :], fault) for at, other, fault in CHANGED]
    one, least, greatest = row(), -(2**96) + 1, 2**96 - 1
    streams += [
        (END, "magic at 0"),
        (whole + b"\0", "trailing at 108"),
        (whole + whole, "trailing at 108"),
        (snapshot(0, one) + snapshot(0, one) + END, "range at 108"),
        (snapshot(2, one) + snapshot(1, one) + END, "range at 108"),
        (snapshot(65536, one) + snapshot(0, one) + END, "range at 108"),
        (snapshot(65537, one) + END, "range at 8"),
        (snapshot(0, count=32769), "range at 12"),
        (snapshot(0, count=32768), "short at 16"),
        (snapshot(0, one, one) + END, "range at 100"),
        (snapshot(0, one, count=2), "short at 100"),
        (snapshot(0, row(time_bin=11), row(number=2, mass=0)), "range at 96"),
        (snapshot(0, row(mass=0))[:50], "range at 20"),
        (snapshot(0, row(mass=65537)) + END, "range at 20"),
        (snapshot(0, row(h=1023)) + END, "range at 24"),
        (snapshot(0, row(h=131073)) + END, "range at 24"),
        (snapshot(0, row(rho=2**61)) + END, "range at 88"),
        (snapshot(0, row(q=(0, 0, greatest + 1))) + END, "range at 72"),
        (snapshot(0, row(q=(0, least - 1, 0))) + END, "range at 56"),
    ]
    for stream, fault in streams:
        status, _, line = snap("info", "-", stream=stream)
        expect(f"info of {stream.hex()}", (status, line), (1, f"snap.py: {fault}\n"))


def check_limits():
    """Each number at both its ends, and momenta whose sums have 97 bits."""
    low = row(h=1024, q=(2**96 - 1, 1 - 2**96, 1))
    high = row(2, 65536, 131072, 1048575, (2**96 - 1, 1 - 2**96, 2), 2**61 - 1, 10)
    line = (
        "tick 65536 particles 2 rho_min 20 rho_max 2305843009213693951 qx 158456325028528675187087900670"
        " qy -158456325028528675187087900670 qz 3 bin_0 1 bin_10 1\n"
    )
    expect("info of the limits", snap("info", "-", stream=snapshot(65536, low, high) + END), (0, line, ""))


# The pair that is thrown apart, at both its ticks.
APART = (
    snapshot(0, *(row(1 + k, 1024, 1024, 1000 + 512 * k, rho=54685204480) for k in (0, 1)))
    + snapshot(1, row(1, 1024, 1024, 385, (-659298496512, 0, 0), 43748163584), row(2, 1024, 1024, 2126, (659298496512, 0, 0), 43748163584))
    + END
)
APART_CSV = """tick,number,mass,h,x,y,z,qx,qy,qz,rho,bin
0,1,1024,1024,1000,0,0,0,0,0,54685204480,0
0,2,1024,1024,1512,0,0,0,0,0,54685204480,0
1,1,1024,1024,385,0,0,-659298496512,0,0,43748163584,0
1,2,1024,1024,2126,0,0,659298496512,0,0,43748163584,0
"""
APART_VTK = b"\n".join([
    b"# vtk DataFile Version 3.0\nswiftq: snapshot at tick 1\nBINARY\nDATASET POLYDATA\nFIELD FieldData 1\ntick 1 1 int",
    struct.pack(">i", 1),
    b"POINTS 2 float",
    struct.pack(">6f", 385, 0, 0, 2126, 0, 0),
    b"VERTICES 2 4",
    struct.pack(">4i", 1, 0, 1, 1),
    b"POINT_DATA 2\nSCALARS density vtktypeint64\nLOOKUP_TABLE default",
    struct.pack(">2q", 43748163584, 43748163584),
    b"VECTORS momentum double",
    struct.pack(">6d", -659298496512, 0, 0, 659298496512, 0, 0),
    b"FIELD FieldData 3\nsmoothing_length 1 2 int",
    struct.pack(">2i", 1024, 1024),
    b"mass 1 2 int",
    struct.pack(">2i", 1024, 1024),
    b"bin 1 2 int",
    struct.pack(">2i", 0, 0),
    b"",
])


# Units of short numbers: a length unit 1, a mass unit 2, half a second a tick, and a squared sound speed of 64.
UNITS = "# units: side 1048576 mass 2 tick 0.5\nsound = 1\nshift = 19\nparticle = []\n"
MOVING = snapshot(0, row(mass=2, q=(3 << 20, 0, 0), rho=1 << 54)) + snapshot(2, row(mass=2, q=(3 << 20, 0, 0), rho=1 << 55)) + END
MOVING_CSV = """time,number,mass,h,x,y,z,vx,vy,vz,density,bin
1.0,1,4.0,131072.0,0.0,0.0,0.0,6.0,0.0,0.0,4.0,0
"""
MOVING_ENERGY = """time 0 kinetic 7.200000e+01 potential 0.000000e+00 change 0.000e+00
time 1 kinetic 7.200000e+01 potential 1.774457e+02 change 1.774e+02
"""  # 4 * 6^2 / 2, and 64 * 4 * ln 2


def check_units(folder):
    deck = folder / "units.toml"
    deck.write_text(UNITS, encoding="utf-8")
    expect("csv in units", snap("csv", "-", "--tick", "2", "--units", deck, stream=MOVING), (0, MOVING_CSV, ""))
    expect("energy", snap("energy", "-", deck, stream=MOVING), (0, MOVING_ENERGY, ""))
    deck.write_text("sound = 1\n", encoding="utf-8")
    line = f"snap.py: {deck} has no line of sound or of shift above its particles\n"
    expect("energy without a shift", snap("energy", "-", deck, stream=MOVING), (1, "", line))


def check_files(folder):
    expect("csv of the pair apart", snap("csv", "-", stream=APART), (0, APART_CSV, ""))
    expect("vtk of the pair apart", snap("vtk", "-", folder / "a/b", stream=APART), (0, "", ""))
    expect("the VTK files", sorted(it.name for it in (folder / "a/b").iterdir()), ["snap_0000.vtk", "snap_0001.vtk"])
    expect("the second VTK file", (folder / "a/b/snap_0001.vtk").read_bytes(), APART_VTK)


def check_refusals(folder):
    picture = folder / "picture.png"
    for words, line in [
        (["plot", "-", picture], "snap.py: plot needs matplotlib: install the package python3-matplotlib\n"),
        (["plot", "-", picture, "--tick", "5"], "snap.py: no snapshot at tick 5\n"),
        (["info", folder / "none"], f"snap.py: [Errno 2] No such file or directory: '{folder / 'none'}'\n"),
    ]:
        expect(f"the answer to {words}", snap(*words, stream=APART), (1, "", line))


def check_output_that_fails(folder):
    long = folder / "long.snap"
    long.write_bytes(snapshot(0, *(row(number) for number in range(1, 32769))) + END)
    with subprocess.Popen([*TOOL, "csv", long], stdout=subprocess.PIPE, stderr=subprocess.PIPE) as ran:
        ran.stdout.readline()
        ran.stdout.close()
        expect("what csv says where its output is closed", (ran.stderr.read(), ran.wait()), (b"", 1))
    with open("/dev/full", "w") as full:
        ran = subprocess.run([*TOOL, "info", ONE_PARTICLE], stdout=full, stderr=subprocess.PIPE)
    line = b"snap.py: [Errno 28] No space left on device\n"
    expect("what info says on a full device", (ran.stderr, ran.returncode), (line, 1))


def main():
    if len(sys.argv) != 2:
        print("usage: snap_check.py PROGRAM", file=sys.stderr)
        return 2
    check_examples(sys.argv[1])
    check_cuts()
    check_changes()
    check_limits()
    with tempfile.TemporaryDirectory() as folder:
        check_files(Path(folder))
        check_units(Path(folder))
        check_refusals(Path(folder))
        check_output_that_fails(Path(folder))
    return 1 if failed else 0


if __name__ == "__main__":
    sys.exit(main())
