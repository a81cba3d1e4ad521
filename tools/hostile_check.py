#!/usr/bin/env python3
"""Checks what the program does where a device, a file or the machine fails: python3 tools/hostile_check.py PROGRAM.

One line a subject: what was tried and how often. docs/FORMATS.md says what is wanted of each. The bytes that are wanted are
those of `plain`, and of each job where nothing fails. tools/hostile/preload.c makes single calls fail; where no C compiler is,
what needs it is left out and said so. Each difference is printed on standard error, and then the status is 1.

With --memory each of the first 2,000 allocations of a run and then each 101st is refused alone, by two and by eight workers;
without it each fifth is.
"""
import os
import random
import resource
import shutil
import signal
import subprocess
import sys
import tempfile
from concurrent.futures import ThreadPoolExecutor
from errno import EAGAIN, EINTR, EIO, EISDIR, ENOSPC, EPIPE
from pathlib import Path

ROOT = Path(__file__).resolve().parent.parent
ONE, TWO = (ROOT / "examples" / f"{name}.toml" for name in ("one_particle", "two_bins"))
READ, WRITE, MEMORY = ((k, f"swiftq: {text}\n".encode()) for k, text in [(4, "read fault"), (5, "write fault"), (6, "no memory")])
DONE = 0, b""
NOTHING, BYTE = 0, -1  # what a call does rather than to fail: it returns 0, or takes one byte
READS = [EINTR, EAGAIN, EIO, EISDIR]
WRITES = [EINTR, EAGAIN, EIO, ENOSPC, EPIPE, NOTHING]

failed = []
pool = ThreadPoolExecutor(os.cpu_count())


class Hostile:
    """The program, and what is kept of its runs where nothing fails."""

    def __init__(self, program, library, folder):
        self.program, self.library, self.folder = os.path.abspath(program), library, folder
        self.long, self.large, self.largest, self.lattice = (folder / f"{name}.toml" for name in ("long", "large", "largest", "lattice"))
        self.long.write_bytes(TWO.read_bytes().replace(b"\nticks = 8\n", b"\nticks = 65536\n"))
        for path, side, ticks in [(self.large, "6", 16), (self.largest, "8", 400), (self.lattice, "12", 8)]:
            text = self.run(["generate", side, "8"])[1]
            path.write_bytes(text.replace(b"ticks = 4\n", b"ticks = %d\n" % ticks))

    def run(self, words, deck=os.devnull, **options):
        """The status, and what was written on standard output and on standard error."""
        with open(deck, "rb") as stdin:
            ends = {"stdin": stdin, "stdout": subprocess.PIPE, "stderr": subprocess.PIPE, **options}
            done = subprocess.run([self.program, *words], **ends)
        return done.returncode, done.stdout, done.stderr

    def fault(self, words, deck, **faults):
        """As `run`, with the library loaded; and how many calls it made fail."""
        told, tell = os.pipe()
        environment = {f"HOSTILE_{name.upper()}": str(number) for name, number in faults.items()}
        environment |= {"LD_PRELOAD": self.library, "HOSTILE_TOLD": str(tell)}
        try:
            done = self.run(words, deck, env=os.environ | environment, pass_fds=[tell])
        finally:
            os.close(tell)
            with os.fdopen(told, "rb") as it:
                count = len(it.read())
        return *done, count


def expect(what, right, got):
    if not right:
        failed.append(what)
        print(f"{what}: got {got[0]}, {len(got[1])} bytes, {got[2]!r}", file=sys.stderr)


def snapshot_ends(stream):
    """Where a snapshot of this stream ends or the end mark does."""
    ends, at = [0], 0
    while stream[at : at + 8] == b"SPHSNAP1":
        at += 16 + 84 * int.from_bytes(stream[at + 12 : at + 16], "little")
        ends.append(at)
    return [*ends, len(stream)]


def each_call(hostile, words, deck, right, **faults):
    """Makes call k fail for each k until there is none; `right` has k and what the run gave. The number of failed calls."""
    k = 1
    while True:
        *got, count = hostile.fault(words, deck, at=k, **faults)
        if count == 0:
            return k - 1
        expect(f"{' '.join(words)} < {deck.name}, {faults}, call {k}", right(k, *got), got)
        k += 1


def together(jobs):
    """The sum of what the jobs count, which are done at once."""
    return sum(it.result() for it in [pool.submit(*job) for job in jobs])


def check_reads(hostile):
    def one(words, deck, most, error):
        faults = {"fd": 0, "errno": error, **({"most": 1} if most else {})}
        wanted = hostile.run(words, deck) if error == BYTE else (READ[0], b"", READ[1])
        count = each_call(hostile, words, deck, lambda _, *got: got == wanted, **faults)
        expect(f"reads of {words}, {faults}", count > (deck.stat().st_size if most else 1), (count, b"", b""))
        return count

    jobs = [["run"], ["plain"], ["check"], ["tree"], ["run", "--workers", "4"]]
    count = together((one, words, hostile.large, 0, error) for words in jobs for error in READS)
    count += together((one, words, ONE, 1, READS[k % len(READS)]) for k, words in enumerate(jobs))
    short = together((one, words, hostile.large, 0, BYTE) for words in jobs)
    return f"reads: {count} that fail (EINTR, EAGAIN, EIO, EISDIR), {short} of one byte among whole ones"


JOBS = [(["run"], TWO), (["run", "--workers", "4"], TWO), (["plain"], TWO), (["check"], TWO), (["tree"], TWO),
        (["generate", "2", "7"], ONE), (["sample", "4", "7", "--workers", "2"], ONE)]  # fmt: skip


def check_writes(hostile):
    def one(words, deck, most, error):
        whole = hostile.run(words, deck)[1]
        ends = snapshot_ends(whole)

        def right(k, status, out, line):
            if error == BYTE:
                return (status, out, line) == (0, whole, b"")
            piece = ends[k - 1 :][:1] == [len(out)] if words[0] in ("run", "plain") else True
            return (status, line) == WRITE and whole.startswith(out) and (len(out) == k - 1 if most else piece)

        faults = {"fd": 1, "errno": error, **({"most": 1} if most else {})}
        count = each_call(hostile, words, deck, right, **faults)
        expect(f"writes of {words}, {faults}", count == len(whole) if most else count > 0, (count, b"", b""))
        return count

    jobs = [*JOBS, (["run", "--workers", "4"], hostile.large)]
    count = together((one, *job, 0, error) for job in jobs for error in WRITES)
    count += together((one, ["run"], ONE, 1, error) for error in WRITES)
    count += together((one, *job, 1, WRITES[k % len(WRITES)]) for k, job in enumerate(JOBS[1:5]))
    short = together((one, *job, 0, BYTE) for job in jobs)
    return f"writes: {count} that fail (EINTR, EAGAIN, EIO, ENOSPC, EPIPE, 0 bytes taken), {short} of one byte among whole ones"


def check_error_lines(hostile):
    """The line is cut where its write fails, and the status is that of a write fault, whatever it was."""
    refused = ROOT / "examples/refused/unknown_key.toml"
    cases = [(["nothing"], ONE), (["run", "--workers", "65"], ONE), (["sample", "33", "1"], ONE), (["run"], refused), (["tree"], refused)]

    def one(words, deck, most, error):
        line = hostile.run(words, deck)[2]

        def right(k, status, out, told):
            return (status, out, told) == (WRITE[0], b"", line[: k - 1])

        faults = {"fd": 2, "errno": error, **({"most": 1} if most else {})}
        count = each_call(hostile, words, deck, right, **faults)
        expect(f"lines of {words}, {faults}", count == len(line) if most else count == 1, (count, b"", b""))
        return count

    count = together((one, *case, 0, error) for case in cases for error in WRITES)
    count += together((one, *case, 1, WRITES[k]) for k, case in enumerate(cases))
    return f"lines on standard error: {count} writes that fail"


def check_room(hostile):
    """A disk that is full after so many bytes, and a file that may have no more of them."""
    whole = hostile.run(["plain"], TWO)[1]

    def full(room):
        *got, _ = hostile.fault(["run", "--workers", "4"], TWO, fd=1, room=room)
        expect(f"room for {room} bytes", got == [WRITE[0], whole[:room], WRITE[1]], got)
        return 1

    def limited(most, status, line, restore):
        with tempfile.TemporaryFile(dir=hostile.folder) as file:
            got = hostile.run(["run"], TWO, stdout=file, restore_signals=restore, preexec_fn=lambda: limit(resource.RLIMIT_FSIZE, most))
            file.seek(0)
            got = got[0], file.read(), got[2]
        expect(f"a file of {most} bytes, {restore}", got == (status, whole[:most], line), got)
        return 1

    count = 0
    for most in range(len(whole)):
        count += limited(most, -signal.SIGXFSZ, b"", True)  # the signal ends it
        count += limited(most, *WRITE, False)  # Python leaves the signal ignored
    limited(len(whole), *DONE, True)
    filled = together((full, room) for room in range(len(whole))) if hostile.library else 0
    return f"room: {filled} full disks, {count} limits of file size, half of them with SIGXFSZ ignored"


def limit(what, most):
    resource.setrlimit(what, (most, most))
    resource.setrlimit(resource.RLIMIT_CORE, (0, 0))


def check_devices(hostile):
    """Real devices that fail: full, without a reader, that would block, and closed ones."""
    count = 0
    for words, deck in JOBS:
        with open("/dev/full", "wb") as full:
            got = hostile.run(words, deck, stdout=full)
        expect(f"{words} to /dev/full", (got[0], got[2]) == WRITE, (got[0], b"", got[2]))
        reader, writer = os.pipe()
        os.close(reader)
        got = hostile.run(words, deck, stdout=writer)
        os.close(writer)
        expect(f"{words} to no reader", (got[0], got[2]) == WRITE, (got[0], b"", got[2]))
        got = hostile.run(words, deck, preexec_fn=lambda: os.close(1))
        expect(f"{words} with a closed output", got == (WRITE[0], b"", WRITE[1]), got)
        count += 3
    for words in (["run"], ["plain"], ["check"], ["tree"]):
        got = hostile.run(words, preexec_fn=lambda: os.close(0))
        expect(f"{words} with a closed input", got == (READ[0], b"", READ[1]), got)
        reader, writer = os.pipe()
        os.set_blocking(reader, False)
        got = hostile.run(words, stdin=reader)
        expect(f"{words} from an empty pipe that doesn't block", got == (READ[0], b"", READ[1]), got)
        os.close(reader)
        os.close(writer)
        folder = os.open(hostile.folder, os.O_RDONLY)
        got = hostile.run(words, stdin=folder)
        os.close(folder)
        expect(f"{words} from a folder", got == (READ[0], b"", READ[1]), got)
        count += 3
    for name, ends in [("/dev/full", {}), ("closed", {"preexec_fn": lambda: os.close(2)})]:
        with open("/dev/full", "wb") as full:
            got = hostile.run(["nothing"], **({"stderr": full} | ends))
        expect(f"a line to standard error that is {name}", got[0] == WRITE[0] and got[1] == b"", (*got[:2], b""))
        count += 1
    whole = hostile.run(["plain"], hostile.long)[1]
    ends = set(snapshot_ends(whole))
    for workers in "14":
        reader, writer = os.pipe()
        os.set_blocking(writer, False)
        got = hostile.run(["run", "--workers", workers], hostile.long, stdout=writer)
        os.close(writer)
        with os.fdopen(reader, "rb") as it:
            out = it.read()
        right = (got[0], got[2]) == WRITE and whole.startswith(out) and len(out) in ends
        expect("a pipe that is full and doesn't block", right, (got[0], out, got[2]))
        count += 1
    return f"devices: {count} that are full, closed, without a reader, or would block"


def check_leaving(hostile):
    """A reader that leaves in the middle, and SIGINT and SIGTERM there."""
    random.seed(1)
    left = ended = cut = 0
    for deck in (hostile.long, hostile.largest):
        whole = hostile.run(["plain"], deck)[1]
        ends = set(snapshot_ends(whole))
        for turn in range(12):
            for how in (None, signal.SIGINT, signal.SIGTERM):
                words = ["run", "--workers", "14"[turn % 2]]
                most = random.randrange(len(whole) // 2)
                name = f"{' '.join(words)} < {deck.name}, {how} after {most} bytes"
                got = leave(hostile, words, deck, most, how)
                if how is None:
                    expect(name, (got[0], got[2]) == WRITE and whole.startswith(got[1]), got)
                    left += 1
                else:
                    expect(name, (got[0], got[2]) == (-how, b"") and whole.startswith(got[1]), got)
                    ended += 1
                    cut += len(got[1]) not in ends
    expect("writes that the kernel cut", cut < ended // 2, (cut, b"", b""))
    return f"ends: {left} readers that leave, {ended} runs ended by SIGINT or SIGTERM, with {cut} snapshots that the kernel cut"


def leave(hostile, words, deck, most, how):
    """What a run wrote of which `most` bytes are read, and then its reader leaves, or it gets a signal and the rest is read."""
    with open(deck, "rb") as stdin:
        ran = subprocess.Popen([hostile.program, *words], stdin=stdin, stdout=subprocess.PIPE, stderr=subprocess.PIPE)
    with ran:
        out = ran.stdout.read(most)
        if how is None:
            ran.stdout.close()
        else:
            ran.send_signal(how)
            out += ran.stdout.read()
        line = ran.stderr.read()
        return ran.wait(), out, line


def check_threads(hostile):
    """Fewer threads are started than wanted: the bytes are right."""
    whole = hostile.run(["plain"], hostile.large)[1]

    def one(workers, k):
        *got, count = hostile.fault(["run", "--workers", str(workers)], hostile.large, thread=k)
        expect(f"{workers} workers, thread {k}", got == [0, whole, b""], got)
        return count

    count = 0
    for workers in (2, 4, 8):
        k = 1
        while one(workers, k):
            k += 1
        expect("threads", k > 4, (k, b"", b""))
        count += k - 1
    alone = [workers for workers in (2, 3, 4, 8, 64) if one(workers, -1)]
    return f"threads: {count} that can't be started, and {len(alone)} runs in which none can"


def is_done_or_no_memory(whole, ends, got):
    if got[0] == 0:
        return got == (0, whole, b"")
    return (got[0], got[2]) in [MEMORY, (6, b"")] and whole.startswith(got[1]) and len(got[1]) in ends


def check_limits(hostile):
    """Limits of memory from 4 MB up: a lattice needs more, a small deck doesn't."""
    count = {0: 0, 6: 0}
    for deck, step in ((TWO, 1 << 20), (hostile.lattice, 1 << 17)):
        whole = hostile.run(["run"], deck)[1]
        ends = snapshot_ends(whole)
        for workers, turns in (("1", 40), ("4", 30)):
            for most in range(4 << 20, (4 << 20) + turns * step, step):
                got = hostile.run(["run", "--workers", workers], deck, preexec_fn=lambda: limit(resource.RLIMIT_AS, most))
                expect(f"{workers} workers in {most} bytes", is_done_or_no_memory(whole, ends, got), got)
                count[got[0]] = count.get(got[0], 0) + 1
    expect("runs of both kinds", min(count.values()) > 10, (count, b"", b""))
    return f"limits of memory: {count[0]} runs that are done and {count[6]} that have no memory"


def check_allocations(hostile, all_of_them):
    whole = hostile.run(["plain"], TWO)[1]
    ends = snapshot_ends(whole)

    def one(workers, k):
        *got, count = hostile.fault(["run", "--workers", str(workers)], TWO, memory=k)
        expect(f"{workers} workers, allocation {k}", is_done_or_no_memory(whole, ends, tuple(got)), got)
        return count

    def some(workers):
        count = k = 1
        while one(workers, k):
            count += 1
            k += (1 if k < 2000 else 101) if all_of_them else 5
        return count - 1

    return f"allocations: {together((some, workers) for workers in (2, 8))} refused, each alone"


def compiled(folder):
    """The library that makes calls fail, or nothing where there is no C compiler."""
    compiler = next(filter(None, map(shutil.which, ("cc", "gcc", "clang"))), None)
    if compiler is None:
        print("hostile: no C compiler, so no single call is made to fail")
        return None
    library = folder / "preload.so"
    subprocess.run([compiler, "-O1", "-shared", "-fPIC", "-o", library, ROOT / "tools/hostile/preload.c", "-ldl"], check=True)
    return str(library)


def main():
    words = sys.argv[1:]
    all_of_them = words[1:] == ["--memory"]
    if len(words) != 1 and not all_of_them:
        print("usage: hostile_check.py PROGRAM [--memory]", file=sys.stderr)
        return 2
    with tempfile.TemporaryDirectory() as folder:
        hostile = Hostile(words[0], compiled(Path(folder)), Path(folder))
        checks = [check_devices, check_room, check_leaving, check_limits]
        if hostile.library:
            checks += [check_reads, check_writes, check_error_lines, check_threads, lambda it: check_allocations(it, all_of_them)]
        for check in checks:
            print(f"hostile: {check(hostile)}", flush=True)
    return 1 if failed else 0


if __name__ == "__main__":
    sys.exit(main())
