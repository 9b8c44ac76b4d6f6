#!/usr/bin/env python3
"""Times `pagedd` beside a plain program and SQLite: python3 beside.py PAGEDD [--runs N] [--only JOB ..] [--gib N]

The plain program is plain.c, which this script compiles. It does what a C programmer would do with a plain file, and
checks no byte. SQLite is that of Python, where Python has it; the script calls it, and no pipe stands between them.
Each job is played once untimed, and then so many runs of each side by turns. Both sides find their files in the
system's memory. Printed are medians, their ratios, and for `pagedd` and the plain program the most memory and the
page faults.

  sync    appends of 100 B, each with a sync, one after the other by a pipe; SQLite: a commit of a row each, with a
          write-ahead log and synchronous=FULL
  batch   100,000 appends of 100 B by batches of 100, each a request of version 2 with its sync, one after the other by
          a pipe; SQLite: a transaction of 100 rows each; for the plain side the script itself writes each 10,000 B and
          calls fdatasync, since plain.c does that for each 100 B alone. Below the table stands what a record takes so
          and what one takes alone, with a sync of its own in version 1: of these 1,000 are timed in each run
  bulk    1,024 appends of 64 KiB and one sync, from a file of requests; the plain program copies a file of the same
          bytes by 64 KiB; SQLite: a row each, in one transaction
  small   the same with 600,000 appends of 100 B
  open    opening a file: `pagedd` reads and checks it; the plain program reads it into memory
  read    reading all content back by 64 KiB to a pipe, once the file is open

The files are made in a new folder below --folder, and removed. That should be on the disk of interest: in a file
system in memory a sync costs nothing.
"""
import argparse
import contextlib
import itertools
import os
import signal
import statistics
import struct
import subprocess
import sys
import tempfile
import time
from collections import namedtuple

import usage
from served import VERSION, BlobRequest, batch, frame

try:
    import sqlite3
except ImportError:
    sqlite3 = None

HERE = os.path.dirname(os.path.abspath(__file__))
KIB, MIB, GIB = 1 << 10, 1 << 20, 1 << 30
PIECE, RECORD = 64 * KIB, 100
SYNCS = 1000
# How many records a batch has.
GROUP = 100
# How a client begins that wants version 2 and no other.
OFFER = b"\x02\x01\x02"
# How long the greeting is, a byte and a frame of 4 and 9 bytes, and the answers to an append, to a sync and to a batch.
GREETING, APPENDED, SYNCED, BATCHED = 14, 13, 5, 5 + 8 * GROUP

# What a run took: the seconds of each operation that was timed, the most memory in bytes, and the page faults.
Run = namedtuple("Run", "times memory faults")


def receive(stream, count, framed=False):
    """So many bytes, which aren't kept. Where they are frames, the first of them has to have the status 0."""
    if framed:
        head = stream.read(5)
        if head[4:] != b"\x00":
            raise SystemExit("beside: a request was refused" if head else "beside: a program ended early")
        count -= len(head)
    while count > 0:
        piece = stream.read1(min(count, MIB))
        if not piece:
            raise SystemExit("beside: a program ended early")
        count -= len(piece)


def meet(stream, first):
    """Takes what a program writes before its first answer, by what it was sent first: nothing, or a version."""
    if first:
        receive(stream, GREETING)
    if first == OFFER:
        head = stream.read(5)
        if head[4:] != b"\x00":
            raise SystemExit("beside: this program has no version 2: name the other jobs by --only")
        receive(stream, struct.unpack("<I", head[:4])[0] - 1)


class Room:
    """A folder of files, and the programs that work in it."""

    def __init__(self, folder, pagedd, size):
        self.folder, self.pagedd, self.size = folder, pagedd, size
        self.plain, self.report = self.path("plain"), self.path("report")
        self.compile()

    def path(self, name):
        return os.path.join(self.folder, name)

    def compile(self):
        compiler = os.environ.get("CC", "cc")
        try:
            subprocess.run([compiler, "-O2", "-o", self.plain, os.path.join(HERE, "plain.c")], check=True)
        except FileNotFoundError:
            stop(f"there is no C compiler {compiler}: install one, or name one by CC")
        except subprocess.CalledProcessError:
            stop(f"{compiler} compiles no plain.c")

    def fresh(self, name):
        """The path of a file that isn't there."""
        with contextlib.suppress(FileNotFoundError):
            os.remove(self.path(name))
        return self.path(name)

    def fill(self, name, pieces):
        """A file of these pieces, which is on the disk."""
        with open(self.path(name), "wb") as file:
            for piece in pieces:
                file.write(piece)
            file.flush()
            os.fsync(file.fileno())

    @contextlib.contextmanager
    def started(self, *command, **streams):
        """A program under `plain run`."""
        with subprocess.Popen([self.plain, "run", self.report, *command], **streams) as process:
            yield process
        if process.returncode != 0:
            raise SystemExit(f"beside: {' '.join(command)} ended with status {process.returncode}")

    def run(self, times=None):
        """What the program took that ran last: these times, or that from its start to its end."""
        with open(self.report, encoding="ascii") as file:
            took, memory, faults = file.read().split()
        return Run(times or [float(took)], int(memory) * KIB, int(faults))

    def from_file(self, given, answered, *command):
        """Runs a program on a file of the folder, and answers what it took. It has to write so many bytes."""
        with open(self.path(given), "rb") as requests, open(self.path("answers"), "wb") as answers:
            with self.started(*command, stdin=requests, stdout=answers):
                pass
        if answered is not None and os.path.getsize(self.path("answers")) != answered:
            raise SystemExit(f"beside: {command[0]} didn't answer each request")
        return self.run()

    def by_pipe(self, request, answer, first, *command):
        """Sends a request and waits for its answer, one after the other; answers what each took. Before them goes what
        a program wants first."""
        took = []
        with self.started(*command, stdin=subprocess.PIPE, stdout=subprocess.PIPE) as process:
            process.stdin.write(first)
            process.stdin.flush()
            meet(process.stdout, first)
            for _ in range(SYNCS):
                begun = time.perf_counter()
                process.stdin.write(request)
                process.stdin.flush()
                receive(process.stdout, answer, framed=first != b"")
                took.append(time.perf_counter() - begun)
            process.stdin.close()
        return self.run(took)

    def to_pipe(self, given, greeting, answered, *command):
        """Takes so many bytes from a program, and answers how long that took after its first ones."""
        with open(self.path(given), "rb") as requests:
            with self.started(*command, stdin=requests, stdout=subprocess.PIPE) as process:
                receive(process.stdout, greeting)
                begun = time.perf_counter()
                receive(process.stdout, answered - greeting)
                took = time.perf_counter() - begun
        return self.run([took])


def stop(why):
    print(f"beside: {why}", file=sys.stderr)
    sys.exit(2)


class Job:
    """Something that each side does; an operation of it has so many bytes, of which there are `count`."""

    def __init__(self, room, count, length):
        self.room, self.count, self.length = room, count, length
        self.prepare()

    def prepare(self):
        """Makes the files that each run finds."""

    def tables(self):
        """A new database with a table."""
        for name in ("rows", "rows-wal", "rows-shm"):
            self.room.fresh(name)
        base = sqlite3.connect(self.room.path("rows"), isolation_level=None)
        base.execute("PRAGMA journal_mode=WAL")
        base.execute("PRAGMA synchronous=FULL")
        base.execute("CREATE TABLE log (id INTEGER PRIMARY KEY, data BLOB)")
        return contextlib.closing(base)

    def sides(self):
        return {"pagedd": self.pagedd, "plain": self.plain} | ({"SQLite": self.sqlite} if sqlite3 else {})

    def said(self, seconds):
        """A time as the table has it."""
        return f"{seconds * 1e3:,.1f} ms, {self.count * self.length / seconds / 1e6:,.0f} MB/s"

    def more(self, _):
        """Lines below the table."""
        return []


class Sync(Job):
    does = "append 100 B and sync, by a pipe"

    def pagedd(self):
        request = frame(BlobRequest.APPEND, data=bytes(self.length)) + frame(BlobRequest.SYNC)
        blob = self.room.fresh("blob")
        return self.room.by_pipe(request, APPENDED + SYNCED, VERSION, self.room.pagedd, "serve", blob)

    def plain(self):
        return self.room.by_pipe(bytes(self.length), 1, b"", self.room.plain, "each", self.room.fresh("file"))

    def sqlite(self):
        took, data = [], bytes(self.length)
        with self.tables() as base:
            for _ in range(self.count):
                begun = time.perf_counter()
                base.execute("INSERT INTO log (data) VALUES (?)", (data,))
                took.append(time.perf_counter() - begun)
        return Run(took, None, None)

    def said(self, seconds):
        return f"{seconds * 1e6:,.0f} us, {1 / seconds:,.0f} a second"

    def more(self, found):
        """What the slowest operations took."""
        for side, runs in found.items():
            cuts = statistics.quantiles(times(runs), n=1000)
            yield f"{side}: half within {cuts[499] * 1e6:,.0f} us, 99 % within {cuts[989] * 1e6:,.0f} us, 99.9 % " \
                  f"within {cuts[998] * 1e6:,.0f} us"


class Batch(Sync):
    does = "append a batch of {group:,} times {length:,} B and sync, by a pipe"

    def pagedd(self):
        request = frame(BlobRequest.APPEND_RECORDS_SYNC, data=batch([bytes(self.length)] * GROUP))
        blob = self.room.fresh("blob")
        return self.room.by_pipe(request, BATCHED, OFFER, self.room.pagedd, "serve", blob)

    def plain(self):
        took, data = [], bytes(GROUP * self.length)
        with open(self.room.fresh("file"), "wb", buffering=0) as file:
            for _ in range(self.count):
                begun = time.perf_counter()
                file.write(data)
                os.fdatasync(file.fileno())
                took.append(time.perf_counter() - begun)
        return Run(took, None, None)

    def sqlite(self):
        took, rows = [], [(bytes(self.length),)] * GROUP
        with self.tables() as base:
            for _ in range(self.count):
                begun = time.perf_counter()
                base.execute("BEGIN")
                base.executemany("INSERT INTO log (data) VALUES (?)", rows)
                base.execute("COMMIT")
                took.append(time.perf_counter() - begun)
        return Run(took, None, None)

    def sides(self):
        # (it has no column: `more` tells it)
        return super().sides() | {"alone": super().pagedd}

    def said(self, seconds):
        return f"{seconds * 1e6:,.0f} us, {GROUP / seconds:,.0f} records a second"

    def more(self, found):
        """What a record takes in a batch, and alone."""
        each, alone = statistics.median(times(found["pagedd"])) / GROUP, statistics.median(times(found["alone"]))
        yield f"pagedd: a record of a batch takes {each * 1e6:,.1f} us, and one alone {alone * 1e6:,.1f} us, " \
              f"{alone / each:,.0f} times as long"
        count = self.count * GROUP
        yield f"so {count:,} records take {count * each:,.2f} s by batches, and {count * alone:,.2f} s one by one"


class Bulk(Job):
    does = "{count:,} appends of {length:,} B and one sync, from a file"

    def pieces(self):
        piece = os.urandom(self.length)
        return (piece for _ in range(self.count))

    def prepare(self):
        self.room.fill("content", self.pieces())
        appends = (frame(BlobRequest.APPEND, data=piece) for piece in self.pieces())
        self.room.fill("requests", itertools.chain([VERSION], appends, [frame(BlobRequest.SYNC)]))

    def pagedd(self):
        answered = GREETING + self.count * APPENDED + SYNCED
        return self.room.from_file("requests", answered, self.room.pagedd, "serve", self.room.fresh("blob"))

    def plain(self):
        return self.room.from_file("content", 0, self.room.plain, "write", self.room.fresh("file"))

    def sqlite(self):
        data = os.urandom(self.length)
        with self.tables() as base:
            begun = time.perf_counter()
            base.execute("BEGIN")
            base.executemany("INSERT INTO log (data) VALUES (?)", ((data,) for _ in range(self.count)))
            base.execute("COMMIT")
            return Run([time.perf_counter() - begun], None, None)


class Stored(Job):
    """A job on a blob and a plain file of the same length, which are there."""

    def prepare(self):
        piece = os.urandom(self.length)
        self.room.fill("file", (piece for _ in range(self.count)))
        self.room.fill("close", [VERSION + frame(BlobRequest.CLOSE)])
        self.room.from_file("file", None, self.room.pagedd, "append", self.room.fresh("blob"))

    def sides(self):
        return {"pagedd": self.pagedd, "plain": self.plain}


class Open(Stored):
    does = "opening {mib:,} MiB"

    def pagedd(self):
        return self.room.from_file("close", GREETING, self.room.pagedd, "serve", self.room.path("blob"))

    def plain(self):
        return self.room.from_file("close", None, self.room.plain, "load", self.room.path("file"))

    def said(self, seconds):
        return f"{seconds * 1e3:,.1f} ms, {seconds * 1e3 * GIB / (self.count * self.length):,.0f} ms a GiB"


class Read(Stored):
    does = "reading {mib:,} MiB back by 64 KiB, to a pipe"

    def prepare(self):
        super().prepare()
        reads = (frame(BlobRequest.READ, number * self.length, self.length) for number in range(self.count))
        self.room.fill("reads", itertools.chain([VERSION], reads, [frame(BlobRequest.CLOSE)]))

    def pagedd(self):
        answered = GREETING + self.count * (5 + self.length)
        return self.room.to_pipe("reads", GREETING, answered, self.room.pagedd, "serve", self.room.path("blob"))

    def plain(self):
        answered = self.count * self.length
        return self.room.to_pipe("close", 1, answered, self.room.plain, "cat", self.room.path("file"))


# The jobs by name, each with how many operations it has, and of how many bytes.
JOBS = {
    "sync": lambda room: Sync(room, SYNCS, RECORD),
    "batch": lambda room: Batch(room, SYNCS, RECORD),
    "bulk": lambda room: Bulk(room, 1024, PIECE),
    "small": lambda room: Bulk(room, 600_000, RECORD),
    "open": lambda room: Open(room, room.size // PIECE, PIECE),
    "read": lambda room: Read(room, room.size // PIECE, PIECE),
}


def play(job, name, runs):
    """The runs of each side, by turns."""
    sides = job.sides()
    found = {side: [] for side in sides}
    for run in range(runs + 1):
        print(f"beside: {name}, " + (f"run {run} of {runs}" if run else "a run untimed"), file=sys.stderr)
        # The one that goes first takes turns too.
        for side in list(sides)[::1 if run % 2 else -1]:
            taken = sides[side]()
            if run:
                found[side].append(taken)
    return found


def times(runs):
    """All times of a side."""
    return [took for run in runs for took in run.times]


def row(job, found):
    """A line of the table."""
    middle = {side: statistics.median(times(runs)) for side, runs in found.items()}
    cells = [job.does.format(count=job.count, length=job.length, group=GROUP, mib=job.count * job.length // MIB)]
    cells += [job.said(middle[side]) if side in middle else "" for side in ("pagedd", "plain", "SQLite")]
    cells += [f"{middle['pagedd'] / middle[side]:.2f}" if side in middle else "" for side in ("plain", "SQLite")]
    # (nothing is counted of a side that is no program)
    counted = [found[side] for side in ("pagedd", "plain") if found[side][0].memory is not None]
    for what, unit in (("memory", MIB), ("faults", 1)):
        values = [statistics.median(getattr(run, what) for run in runs) / unit for runs in counted]
        cells.append(", ".join(f"{value:,.0f}" for value in values))
    return "| " + " | ".join(cells) + " |"


def machine(folder):
    """What it ran on: the processor, the system, and the file system of the folder."""
    with open("/proc/cpuinfo", encoding="ascii", errors="replace") as file:
        model = next((line.split(":")[1].strip() for line in file if line.startswith("model name")), "a processor")
    with open("/proc/mounts", encoding="utf-8") as file:
        mounts = [line.split()[:3] for line in file]
    _, where, kind = max((it for it in mounts if (folder + "/").startswith(it[1].rstrip("/") + "/")),
                         key=lambda it: len(it[1]))
    version = f", SQLite {sqlite3.sqlite_version}" if sqlite3 else ""
    return f"{os.cpu_count()} x {model}, Linux {os.uname().release}, {kind} at {where}{version}"


def words():
    parser = usage.parser(__doc__)
    parser.add_argument("PAGEDD", type=usage.program)
    parser.add_argument("--runs", type=usage.count, default=5, help="timed runs of each side (5)")
    parser.add_argument("--only", nargs="+", choices=JOBS, default=list(JOBS), metavar="JOB", help="only these jobs")
    parser.add_argument("--gib", type=float, default=0.25, help="the content that is opened and read (0.25)")
    parser.add_argument("--folder", default=".", help="below which folder files are made (this one)")
    given = parser.parse_args()
    if given.runs == 0 or given.gib * 1024 < 1:
        parser.error("there is nothing to time")
    if not os.path.isdir(given.folder):
        parser.error(f"{given.folder} is no folder")
    return given


def main():
    given = words()
    for number in (signal.SIGINT, signal.SIGTERM):
        signal.signal(number, lambda number, _: sys.exit(128 + number))
    with tempfile.TemporaryDirectory(dir=given.folder, prefix="beside-") as folder:
        folder = os.path.abspath(folder)
        room = Room(folder, given.PAGEDD, int(given.gib * 1024) * MIB)
        print(f"{machine(folder)}; medians of runs by turns, {given.runs} of each side\n")
        heads = ["Job", "`pagedd`", "plain", "SQLite", "`pagedd` / plain", "`pagedd` / SQLite",
                 "MiB of memory: `pagedd`, plain", "page faults: `pagedd`, plain"]
        print(f"| {' | '.join(heads)} |\n|{'---|' * len(heads)}", flush=True)
        more = []
        for name in dict.fromkeys(given.only):
            job = JOBS[name](room)
            found = play(job, name, given.runs)
            print(row(job, found), flush=True)
            more += job.more(found)
        print("".join(f"\n{line}" for line in more), end="\n" if more else "")


if __name__ == "__main__":
    main()
