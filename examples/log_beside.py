#!/usr/bin/env python3
"""Times `pagedd serve-log` beside a plain file: python3 log_beside.py PAGEDD [--mib N] [--turns N] [--only JOB ..]

A log of records of 1,000 bytes, which has --mib MiB with their frames, in segments of --segment MiB. The plain side
has the same records in one file, one after the other, and checks no byte: plain.c, which this script compiles, or the
calls of Python itself. Each job is played --turns times on each side, by turns. Printed are medians, the least time in
brackets, the ratio of the medians, how long a processor worked for `pagedd` meanwhile, where the system tells it (so much
of the time is no wait for the disk, the pipe, or other tasks), the most memory of each program, and how many tasks the
system had to do beside (the load of the last minute, as `uptime` tells it): a figure that was taken under load is too
slow, and the processor's time less so.

  append  all records by batches of 1,000, each a request, and one sync_size at the end; a batch is sent while the one
          before is taken. The plain program gets the records by a pipe too, writes them by 64 KiB, and ends with an
          fdatasync
  sync    64 such batches, each with a sync, one after the other; for the plain side the script itself writes each
          1,000,000 B and calls fdatasync
  open    from the start of the program until its greeting has come: the open segment is as full as it gets. The
          plain program reads the file of that segment into memory, and ends
  scan    `pagedd cat FOLDER` to /dev/null, and the plain program as `plain cat FILE`
  many    all records by next_many, each request for 1 MiB and sent once the place of it has come; the plain program
          as `plain cat FILE` to a pipe
  recent  10,000 reads by place in the open segment, at random, 500 of them at once; for the plain side pread
  one     the same in one closed segment, once the first read of it is answered
  sorted  10,000 reads over all segments, sorted by place: each closed segment is opened once
  first   reads by place of closed segments, each of another one than that before, one after the other: each opens a
          file and its list, and compares the pages that it touches. The plain side: pread at the same places

The last three are left out where no segment is closed. --digest is that of `pagedd`. The files are made in a new folder
below --folder, and removed. That should be on the disk of interest. There is to be room for twice --mib.
"""
import argparse
import os
import random
import resource
import shutil
import signal
import statistics
import struct
import subprocess
import sys
import tempfile
import time
from collections import namedtuple

import usage
from beside import GREETING, MIB, OFFER, Room, machine, meet, receive
from served import BlobInsufficientLength, LogRequest, batch, frame

RECORD, FRAME = 1000, 1007
# How many bytes of an answer a scan asks for.
SCAN = 1 << 20
# The records of a batch, how many batches with a sync are timed, and how many reads; how many of these are at once, and
# how many of those that open a segment.
GROUP, SYNCS, READS, WINDOW, FIRSTS = 1000, 64, 10_000, 500, 20
# How long the answer to a read is.
FOUND = 4 + 1 + 8 + 1 + RECORD

# What a turn took: its seconds, the most memory, in bytes, and the seconds of the processor; none where the script itself
# did it, and no last one where the system tells none.
Took = namedtuple("Took", "seconds memory work")


class Watch:
    """The time of a program that runs under `plain run`, from now on: by the clock, and of the processor."""

    def __init__(self, process, from_start=False):
        self.process = process
        self.worked = 0 if from_start else self.work()
        self.begun = time.perf_counter()

    def work(self):
        try:
            with open(f"/proc/{self.process.pid}/task/{self.process.pid}/children", encoding="ascii") as children:
                child = children.read().split()[0]
            with open(f"/proc/{child}/schedstat", encoding="ascii") as told:
                return int(told.read().split()[0]) / 1e9
        except (OSError, IndexError):
            return None

    def stop(self):
        """Both times."""
        seconds, work = time.perf_counter() - self.begun, self.work()
        return seconds, None if None in (work, self.worked) else work - self.worked


class Log:
    """A log and a plain file of the same records, in a room."""

    def __init__(self, room, mib, segment, digest):
        self.room, self.segment, self.digest = room, segment * MIB, f"--digest={digest}"
        self.folder, self.file = room.path("log"), room.path("file")
        self.count = mib * MIB // FRAME
        # So many records are in each closed segment.
        self.each = -(-self.segment // FRAME)
        self.closed = (self.count - 1) // self.each
        self.records = [os.urandom(RECORD) for _ in range(GROUP)]
        self.rng = random.Random(1)

    def place(self, number):
        """Where a record stands."""
        return number // self.each, number % self.each * FRAME

    def batches(self):
        """The records of each batch."""
        for start in range(0, self.count, GROUP):
            yield self.records[:min(GROUP, self.count - start)]

    def serve(self, *options):
        """The log, served."""
        words = [self.room.pagedd, "serve-log", f"--segment-size={self.segment}", self.digest, *options, self.folder]
        return self.room.started(*words, stdin=subprocess.PIPE, stdout=subprocess.PIPE)

    def took(self, times):
        """What the program took that ran last, in these times."""
        return Took(times[0], self.room.run().memory, times[1])

    def append_all(self):
        """Appends all records, and answers the seconds until they are durable."""
        shutil.rmtree(self.folder, ignore_errors=True)
        request = frame(LogRequest.APPEND_RECORDS, data=batch(self.records))
        with self.serve() as log:
            begin(log)
            watch, waits = Watch(log), 0
            for records in self.batches():
                whole = len(records) == GROUP
                log.stdin.write(request if whole else frame(LogRequest.APPEND_RECORDS, data=batch(records)))
                log.stdin.flush()
                receive(log.stdout, waits, framed=waits > 0)
                waits = 5 + 16 * len(records)
            log.stdin.write(frame(LogRequest.SYNC_SIZE))
            log.stdin.flush()
            receive(log.stdout, waits, framed=True)
            if log.stdout.read(13) != struct.pack("<IBQ", 9, 0, self.count):
                raise SystemExit("log_beside: not all records were appended")
            took = watch.stop()
            log.stdin.close()
        return took

    def write_all(self):
        """Writes all records to the plain file."""
        self.room.fresh("file")
        content = b"".join(self.records)
        begun = time.perf_counter()
        with self.room.started(self.room.plain, "write", self.file, stdin=subprocess.PIPE) as plain:
            for records in self.batches():
                plain.stdin.write(content[:len(records) * RECORD])
            plain.stdin.close()
        return time.perf_counter() - begun, None

    def make(self):
        """Makes both, where they aren't there yet."""
        if not os.path.exists(self.folder):
            self.append_all()
        if not os.path.exists(self.file):
            self.write_all()


def begin(log):
    """Agrees on version 2."""
    log.stdin.write(OFFER)
    log.stdin.flush()
    meet(log.stdout, OFFER)


class Job:
    """Something that each side does, so many times, each of so many bytes."""

    does, count, length = "", 1, RECORD

    def __init__(self, log):
        self.log = log
        self.prepare()

    def prepare(self):
        """Makes the log and the file."""
        self.log.make()

    def said(self, seconds):
        """A time as the table has it."""
        return f"{seconds * 1e3:,.0f} ms, {self.count * self.length / seconds / 1e6:,.0f} MB/s"


class Append(Job):
    does = "{count:,} records by batches of 1,000, and one sync"

    def prepare(self):
        self.count = self.log.count

    def pagedd(self):
        return self.log.took(self.log.append_all())

    def plain(self):
        return self.log.took(self.log.write_all())


class Sync(Job):
    does = "batches of 1,000 records with a sync each"

    def prepare(self):
        self.count, self.length = SYNCS, GROUP * RECORD

    def pagedd(self):
        log = self.log
        shutil.rmtree(log.folder, ignore_errors=True)
        request = frame(LogRequest.APPEND_RECORDS_SYNC, data=batch(log.records))
        with log.serve() as served:
            begin(served)
            watch = Watch(served)
            for _ in range(SYNCS):
                served.stdin.write(request)
                served.stdin.flush()
                receive(served.stdout, 5 + 16 * GROUP, framed=True)
            took = watch.stop()
            served.stdin.close()
        shutil.rmtree(log.folder)
        return log.took(took)

    def plain(self):
        data = b"".join(self.log.records)
        with open(self.log.room.fresh("file"), "wb", buffering=0) as file:
            begun = time.perf_counter()
            for _ in range(SYNCS):
                file.write(data)
                os.fdatasync(file.fileno())
            took = time.perf_counter() - begun
        self.log.room.fresh("file")
        return Took(took, None, None)

    def said(self, seconds):
        return f"{seconds / SYNCS * 1e3:,.2f} ms each, {SYNCS * GROUP / seconds:,.0f} records a second"


class Open(Job):
    does = "opening, with {closed:,} closed segments"

    def prepare(self):
        super().prepare()
        self.last = os.path.join(self.log.folder, f"{self.log.closed:020}.segment")
        self.length = os.path.getsize(self.last)

    def pagedd(self):
        begun = time.perf_counter()
        with self.log.serve() as served:
            watch = Watch(served, from_start=True)
            receive(served.stdout, GREETING)
            took = time.perf_counter() - begun, watch.stop()[1]
            served.stdin.close()
        return self.log.took(took)

    def plain(self):
        run = self.log.room.from_file("close", None, self.log.room.plain, "load", self.last)
        return Took(run.times[0], run.memory, None)


class Scan(Job):
    does = "reading all records, to /dev/null"

    def prepare(self):
        super().prepare()
        self.count = self.log.count

    def to_nothing(self, *command):
        before = resource.getrusage(resource.RUSAGE_CHILDREN)
        with self.log.room.started(*command, stdout=subprocess.DEVNULL):
            pass
        after, run = resource.getrusage(resource.RUSAGE_CHILDREN), self.log.room.run()
        work = after.ru_utime - before.ru_utime + after.ru_stime - before.ru_stime
        return Took(run.times[0], run.memory, work)

    def pagedd(self):
        return self.to_nothing(self.log.room.pagedd, "cat", self.log.digest, self.log.folder)

    def plain(self):
        return self.to_nothing(self.log.room.plain, "cat", self.log.file)


class Many(Job):
    does = "reading all records by the protocol, 1 MiB at once"

    def prepare(self):
        super().prepare()
        self.count = self.log.count

    def pagedd(self):
        with self.log.serve() as served:
            begin(served)
            watch, found = Watch(served), 0
            served.stdin.write(frame(LogRequest.NEXT_MANY, 0, 0, SCAN))
            served.stdin.flush()
            while True:
                length, status = struct.unpack("<IB", served.stdout.read(5))
                if status != 0:
                    break
                segment, offset, count = struct.unpack("<3Q", served.stdout.read(24))
                served.stdin.write(frame(LogRequest.NEXT_MANY, segment, offset, SCAN))
                served.stdin.flush()
                receive(served.stdout, length - 25)
                found += count
            took = watch.stop()
            if (status, found) != (BlobInsufficientLength.status, self.count):
                raise SystemExit(f"log_beside: {found} records came, and then status {status}")
            receive(served.stdout, length - 1)
            served.stdin.close()
        return self.log.took(took)

    def plain(self):
        begun = time.perf_counter()
        with self.log.room.started(self.log.room.plain, "cat", self.log.file, stdout=subprocess.PIPE) as plain:
            receive(plain.stdout, self.count * RECORD)
            took = time.perf_counter() - begun, None
        return self.log.took(took)


class Reads(Job):
    """Reads by place of some records; `before` is read first, untimed."""

    window, before = WINDOW, None

    def prepare(self):
        super().prepare()
        self.numbers = self.chosen()
        self.count = len(self.numbers)

    def pagedd(self):
        log, numbers = self.log, self.numbers
        requests = [frame(LogRequest.READ, *log.place(number)) for number in numbers]
        with log.serve() as served:
            begin(served)
            if self.before is not None:
                self.ask(served, [frame(LogRequest.READ, *log.place(self.before))])
            watch = Watch(served)
            for start in range(0, len(requests), self.window):
                self.ask(served, requests[start:start + self.window])
            took = watch.stop()
            served.stdin.close()
        return log.took(took)

    def ask(self, served, requests):
        served.stdin.write(b"".join(requests))
        served.stdin.flush()
        for _ in requests:
            receive(served.stdout, FOUND, framed=True)

    def plain(self):
        with open(self.log.file, "rb", buffering=0) as file:
            begun = time.perf_counter()
            for number in self.numbers:
                if len(os.pread(file.fileno(), RECORD, number * RECORD)) != RECORD:
                    raise SystemExit("log_beside: the plain file is too short")
            took = time.perf_counter() - begun
        return Took(took, None, None)

    def said(self, seconds):
        each = seconds / self.count
        return f"{each * 1e6:,.1f} us each" if each < 1e-3 else f"{each * 1e3:,.1f} ms each"


class Recent(Reads):
    does = "{count:,} random reads in the open segment"

    def chosen(self):
        first = self.log.closed * self.log.each
        return [self.log.rng.randrange(first, self.log.count) for _ in range(READS)]


class One(Reads):
    does = "{count:,} random reads in one closed segment, after the first one"
    before = 0

    def chosen(self):
        return [self.log.rng.randrange(self.log.each) for _ in range(READS)]


class Sorted(Reads):
    does = "{count:,} reads over all segments, sorted by place"

    def chosen(self):
        return sorted(self.log.rng.randrange(self.log.count) for _ in range(READS))


class First(Reads):
    does = "{count:,} reads, each of another closed segment"
    window = 1

    def chosen(self):
        # (no segment comes twice one after the other; where there is one alone, it is read once)
        segments = [turn % self.log.closed for turn in range(FIRSTS)] if self.log.closed > 1 else [0]
        return [segment * self.log.each + self.log.rng.randrange(self.log.each) for segment in segments]


JOBS = {"sync": Sync, "append": Append, "open": Open, "scan": Scan, "many": Many, "recent": Recent, "one": One,
        "sorted": Sorted, "first": First}
CLOSED = ("one", "sorted", "first")


def play(job, name, turns):
    """What each side took, by turns, and the loads meanwhile."""
    found, loads = {"pagedd": [], "plain": []}, []
    for turn in range(turns):
        print(f"log_beside: {name}, turn {turn + 1} of {turns}", file=sys.stderr)
        for side in list(found)[::1 if turn % 2 else -1]:
            found[side].append(getattr(job, side)())
            loads.append(os.getloadavg()[0])
    return found, loads


def row(job, found, loads):
    """A line of the table."""
    cells, middles = [job.does.format(count=job.count, closed=job.log.closed)], []
    for took in found.values():
        middles.append(statistics.median(one.seconds for one in took))
        least = min(one.seconds for one in took)
        cells.append(job.said(middles[-1]) + (f" ({job.said(least)})" if len(took) > 1 else ""))
    cells.append(f"{middles[0] / middles[1]:,.2f}")
    works = [took.work for took in found["pagedd"] if took.work is not None]
    cells.append(job.said(statistics.median(works)) if works else "")
    memory = [max(one.memory for one in took) / MIB for took in found.values() if took[0].memory is not None]
    cells.append(", ".join(f"{most:,.0f}" for most in memory))
    cells.append(f"{min(loads):.1f} to {max(loads):.1f}")
    return "| " + " | ".join(cells) + " |"


def words():
    parser = usage.parser(__doc__)
    parser.add_argument("PAGEDD", type=usage.program)
    parser.add_argument("--mib", type=usage.count, default=64, help="the records of the log and their frames (64)")
    parser.add_argument("--segment", type=usage.count, default=64, help="from how many MiB on a segment is closed (64)")
    parser.add_argument("--digest", choices=("sha512-256", "poly61"), default="sha512-256",
                        help="the digest of the pages of closed segments (sha512-256)")
    parser.add_argument("--turns", type=usage.count, default=5, help="how many times each job is played (5)")
    parser.add_argument("--only", nargs="+", choices=JOBS, default=list(JOBS), metavar="JOB", help="only these jobs")
    parser.add_argument("--folder", default=".", help="below which folder files are made (this one)")
    given = parser.parse_args()
    if 0 in (given.mib, given.segment, given.turns):
        parser.error("there is nothing to time")
    if not os.path.isdir(given.folder):
        parser.error(f"{given.folder} is no folder")
    return given


def main():
    given = words()
    for number in (signal.SIGINT, signal.SIGTERM):
        signal.signal(number, lambda number, _: sys.exit(128 + number))
    with tempfile.TemporaryDirectory(dir=given.folder, prefix="log-beside-") as folder:
        folder = os.path.abspath(folder)
        room = Room(folder, given.PAGEDD, 0)
        room.fill("close", [OFFER + frame(LogRequest.CLOSE)])
        log = Log(room, given.mib, given.segment, given.digest)
        print(f"{machine(folder)}\n{given.mib:,} MiB of records of {RECORD:,} B, with their frames, in segments of"
              f" {given.segment:,} MiB, with {given.digest}; medians of {given.turns} turns, and the least in brackets\n")
        heads = ["Job", "`pagedd`", "plain", "`pagedd` / plain", "processor", "MiB of memory: `pagedd`, plain", "load"]
        print(f"| {' | '.join(heads)} |\n|{'---|' * len(heads)}", flush=True)
        for name in [name for name in JOBS if name in given.only and (log.closed or name not in CLOSED)]:
            job = JOBS[name](log)
            print(row(job, *play(job, name, given.turns)), flush=True)


if __name__ == "__main__":
    main()
