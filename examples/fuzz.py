#!/usr/bin/env python3
"""Plays random cases with `conformance`, and makes one that fails short.

    cd crates/conformance && rt run < stdin > /dev/null      (proves and builds it, as out/conformance)
    python3 examples/fuzz.py [--only KIND] SEED COUNT [PROGRAM ..]

A case holds what any correct layer must answer that the case itself shows. There are three kinds:

  session   three cases in five: where an append begins and how long the content is; slices of what was
            appended; a replay that gives the content in order; numbers of snapshots and replays that go
            up; that a sync leaves nothing to sync; and after a device call that fails, two that fail, or
            a torn write, and a crash, that the content begins with what was synced and is the beginning
            of what was appended. What depends on the buffer or the cache isn't told.
  image     one in five: an image of a blob, with pages cut, joined, repeated, swapped and changed; its
            text is what reader.py finds by docs/FORMAT.md.
  requests  one in five: the bytes of clients of versions 1 and 2, up to three sessions over one blob, and
            what docs/PROTOCOL.md says of the answers: records and ranges that fit and that don't;
            snapshots and replays that are let go of, once or twice; what is refused, and what is told
            then; a flaw that ends a session; and when answers are out, where all requests wait at once.
            What that page leaves open isn't asked. So a session is told only where all was synced before;
            ranges that can be read only where they are buffered, or in pages that were read before, of a
            blob that the cache can hold; and a look only where it is sure what is written. Four things
            are told that the page doesn't say: that started syncs are named from 0 on over the life of a
            blob; in which order the known versions are; how much an opening may give up here, which
            stands where `pagedd` tells how much it gave up; and the line by which a session ends.

The same SEED and COUNT make the same cases. The exit status is 1 where one fails: it is written with
as few lines as still fail, and with what the program says of it.
"""
import argparse
import os
import random
import shutil
import struct
import subprocess
import sys
import time
from collections import Counter

import reader
import usage
from served import batch

HERE = os.path.dirname(os.path.abspath(__file__))
PROGRAM = os.path.join(HERE, "..", "crates", "conformance", "out", "conformance")
SUMS = {"add": reader.SUMS["add"], "const": reader.SUMS["const"], "crc": reader.SUMS["crc32c"]}
BATCH = 500


def digits(some):
    return bytes(some).hex() or "-"


# A case of a session is a setting and steps, each a name and numbers. Its text is told by going
# through them: a step that says nothing where it stands is left out, so that any of them may go.
class Told:
    """The lines of a case so far, and what they show of its content."""

    def __init__(self):
        self.lines, self.content, self.floor = ["recover => recovered 0"], b"", b""
        self.next, self.begun, self.open, self.started = 0, False, True, None
        self.snapshots, self.replays, self.cut = [], [], None

    def some(self, count):
        """The next bytes to append: they go up, so that each shows its place."""
        new = bytes((self.next + index) % 251 + 1 for index in range(count))
        self.next += count
        return new

    def add(self, name, *numbers):
        step = getattr(self, name)(*numbers)
        if step:
            self.lines += step if isinstance(step, list) else [step]

    def append(self, count, owned=0):
        if not self.open or self.cut is not None:
            return None
        new, at = self.some(count), len(self.content)
        self.content += new
        return f"{'owned' if owned % 2 else 'append'} {digits(new)} => at {at}"

    def sync(self, scans=0):
        if not self.open:
            return None
        self.floor, self.started = self.content, None
        size = len(self.content)
        return ["sync => ok", "needs => no"] + [f"scan 0 {scans} 7 => size {min(scans, size)}"] * (scans > 0)

    def start(self, waits=1):
        if not self.open:
            return None
        self.started = self.content
        return ["start-sync"] + self.wait() if waits % 2 else ["start-sync"]

    def wait(self):
        if not self.open or self.started is None:
            return []
        self.floor, self.started = self.started, None
        return ["wait => ok"]

    def read(self, place, count):
        if not self.open or not self.content:
            return None
        place %= len(self.content)
        found = self.content[place:place + count]
        exact = f"read {place} {len(found)} => bytes {digits(found)}"
        return [exact, f"upto {place} {count or 1} => bytes {digits(self.content[place:place + (count or 1)])}"]

    def past(self, count):
        size = len(self.content)
        return self.open and f"read {size} {count + 1} => fault E6 BlobInsufficientLength"

    def ranges(self, place, count):
        if not self.open or not self.content:
            return None
        place %= len(self.content)
        count = min(count, len(self.content) - place)
        rest = len(self.content) - place - count
        return [f"{word} {place}:{count} {place + count}:{rest}" for word in ("ranges", "cached-ranges")]

    def size(self):
        return self.open and f"size => size {len(self.content)}"

    def begin(self):
        self.begun = self.begun or self.open
        return self.open and "begin => ok"

    def truncate(self, size):
        if not self.open or self.begun or self.cut is not None:
            return None
        # (after a call that fails the content may be the old one or the cut one)
        self.cut = self.content
        self.content = self.content[:size % (len(self.content) + 1)]
        self.floor, self.started = self.content, None
        self.replays = [None] * len(self.replays)
        return f"truncate {len(self.content)} => size {len(self.content)}"

    def snapshot(self):
        if not self.open or not self.begun:
            return None
        self.snapshots.append(self.content)
        return f"snapshot => snapshot {len(self.snapshots) - 1}"

    def snap(self, which, place, count):
        if not self.snapshots:
            return None
        which %= len(self.snapshots)
        content = self.snapshots[which]
        place %= len(content) + 1
        found = content[place:place + count]
        return f"snap {which} {place} {len(found)} => bytes {digits(found)}"

    def replay(self, buffer):
        if not self.open:
            return None
        self.replays.append([self.content, 0])
        return f"replay {buffer + 1} => replay {len(self.replays) - 1}"

    def take(self, which, count):
        which %= len(self.replays) or 1
        if not self.replays:
            return None
        if self.replays[which] is None:
            return f"ensure {which} 1 => no-such"
        content, place = self.replays[which]
        count = min(count, len(content) - place)
        self.replays[which][1] = place + count
        ensured = [f"ensure {which} {count} => yes", f"take {which} {count} => bytes {digits(content[place:place + count])}"]
        return ensured + [f"ensure {which} {len(content) - place - count + 1} => no"] * (count % 3 == 0)

    def seek(self, which, place):
        which %= len(self.replays) or 1
        if not self.replays or self.replays[which] is None:
            return None
        self.replays[which][1] = place % (len(self.replays[which][0]) + 1)
        return f"seek {which} {self.replays[which][1]} => ok"

    def seal(self):
        if not self.open or not self.begun:
            return None
        self.open = False
        self.snapshots.append(self.content)
        return "seal"

    def again(self, buffer):
        """What is durable comes back, under another id, with the buffer of a recovery."""
        if not self.open or self.floor != self.content:
            return None
        self.begun, self.snapshots, self.replays, self.started = False, [], [], None
        size = len(self.content)
        return [f"recover {buffer + 1} => recovered {size}"]

    def settle(self):
        """What was cut before the tried lines is gone."""
        self.cut = None


STEPS = {"append": (40, 2), "sync": (60,), "start": (2,), "wait": (), "read": (999, 30), "past": (9,), "ranges": (999, 20),
         "size": (), "begin": (), "truncate": (999,), "snapshot": (), "snap": (9, 999, 20), "replay": (99,),
         "take": (9, 20), "seek": (9, 999), "seal": (), "again": (64,)}
OFTEN = ["append"] * 6 + ["sync"] * 3 + ["read", "take"] + [name for name in STEPS if name != "seal"]
WAYS = {"each": ["none all at-once"], "twice": ["none", "all", "at-once"], "torn": ["first:{}", "one:{}", "every:5"]}


def steps(numbers, least, most, names=OFTEN):
    names = [numbers.choice(names) for _ in range(numbers.randint(least, most))]
    return [(name, *(numbers.randrange(bound) for bound in STEPS[name])) for name in names]


def session(numbers):
    """A setting, the steps before those that are tried, and those."""
    setting = [numbers.choice([1, 2, 3, 4, 4, 5, 7, 16]), numbers.choice([0, 1, 8, 20, 64]), numbers.choice([1, 2, 5]),
               numbers.choice(list(SUMS)), numbers.choice(["forward", "backward"])]
    # (a recovery would begin again after a call that fails, and what is appended then follows less)
    before, tried = steps(numbers, 1, 9), steps(numbers, 1, 4, [name for name in OFTEN if name != "again"])
    if numbers.random() < 0.1:
        tried.append(("seal",))
    plan = numbers.choice(["each", "each", "twice", "torn"])
    ways = numbers.choice(WAYS[plan]).format(setting[0] + 12)
    return setting, before, tried, plan, (numbers.randint(1, 4), ways)


def text_of_session(name, case):
    setting, before, tried, plan, call = case
    told = Told()
    for step in before:
        told.add(*step)
        told.settle()
    floor, lines = told.floor, len(told.lines)
    for step in tried:
        told.add(*step)
        if len(told.floor) < len(floor):
            floor = told.floor
    whole = told.content if told.cut is None else told.cut
    # (a sum of few values may verify over a torn page by chance)
    sure = plan != "torn" or setting[3] == "crc"
    first = str(call[0]) if plan == "torn" else plan
    text = [f"case {name}", "start " + " ".join(map(str, setting)), *told.lines[:lines]]
    text += [f"try {first} {call[1]}", *told.lines[lines:], "then"]
    text += [f"holds {digits(floor)}" + f" {digits(whole)}" * sure]
    if plan != "twice":
        text += ["append 00", "sync => ok", "needs => no", f"holds {digits(floor)}"]
    return "\n".join(text) + "\n"


def sound(numbers, size, checksum, count):
    """Pages of which each slot may verify, over any of its lengths."""
    pages = []
    for _ in range(count):
        payload = bytes(numbers.randrange(256) for _ in range(size))
        if numbers.random() < 0.3:
            payload = payload[:numbers.randrange(size)].ljust(size, b"\0")
        slots = b""
        for full in (0.6, 0.2):
            length = size if numbers.random() < full else numbers.randint(0, size)
            slots += struct.pack(">HI", length, checksum(payload[:length])) if length else bytes(6)
        pages.append(payload + slots)
    return pages


def image(numbers):
    """A setting, and pages that are cut, joined, repeated, swapped or changed."""
    size, name = numbers.randint(1, 7), numbers.choice(list(SUMS))
    pages = sound(numbers, size, SUMS[name], numbers.randint(0, 5))
    for _ in range(numbers.randrange(4)):
        pages = [page for page in pages if page]
        if pages:
            one, other = numbers.randrange(len(pages)), numbers.randrange(len(pages))
            kind = numbers.randrange(4)
            if kind == 0:
                pages[one], pages[other] = pages[other], pages[one]
            elif kind == 1:
                pages.insert(one, pages[other])
            elif kind == 2:
                page = bytearray(pages[one])
                page[numbers.randrange(len(page))] ^= 1 << numbers.randrange(8)
                pages[one] = bytes(page)
            else:
                pages[one] = pages[one][:numbers.randrange(len(pages[one]))]
    # (now and then they are read with another page size)
    size = numbers.randint(1, 7) if numbers.random() < 0.1 else size
    setting = [size, numbers.choice([1, 8, 64]), numbers.choice([1, 3]), name, "forward"]
    return setting, pages, numbers.choice([1, 17, 33, 1000])


def text_of_image(name, case):
    setting, pages, buffer = case
    blob = b"".join(pages)
    _, text = reader.read(blob, setting[0], SUMS[setting[3]])
    found = digits(text)
    return "\n".join([
        f"case {name}", "start " + " ".join(map(str, setting)), f"blob {digits(blob)}", f"try each none all at-once",
        f"recover {buffer} => recovered {len(text)}", f"read 0 {len(text)} => bytes {found}", "then",
        f"holds {found} {found}", f"append 7a => at {len(text)}", "sync => ok",
        f"read 0 {len(text) + 1} => bytes {digits(text + b'z')}", "crash -", f"recover => recovered {len(text) + 1}"]) + "\n"


# The kinds of requests, those of version 2 from 17 on; how long their fields are where those are numbers; and which
# append records.
(APPEND, SYNC, START, WAIT, SIZE, READ, UP_TO, BEGIN, TRUNCATE, SNAPSHOT, SNAP, REPLAY, ENSURE, TAKE, SEEK, CLOSE,
 RECORDS, RECORDS_SYNC, RECORDS_START, RANGES, SYNC_SIZE, LOOK, DROP_SNAPSHOT, DROP_REPLAY, FLUSH, OPEN) = range(1, 27)
FIELDS = {SNAP: 24} | dict.fromkeys((READ, UP_TO, ENSURE, TAKE, SEEK), 16) \
    | dict.fromkeys((WAIT, TRUNCATE, REPLAY, DROP_SNAPSHOT, DROP_REPLAY), 8) \
    | dict.fromkeys((SYNC, START, SIZE, BEGIN, SNAPSHOT, CLOSE, SYNC_SIZE, LOOK, FLUSH, OPEN), 0)
BATCHES = (RECORDS, RECORDS_SYNC, RECORDS_START)
# The bytes of a page, of the pages in the cache, and those that surely stay in the buffer, whatever part of a page
# stands before them; and the most bytes of a payload, and the greatest number.
PAGE, CACHED, BUFFERED = 4084, 64 * 4084, 65_536 - 4084
# What a server of these cases may give up when it opens a blob.
ALLOWED = 4096
MOST, GREATEST = (1 << 32) - 2, (1 << 64) - 1
GREETING = 14
# The statuses of refusals, and of what is no request, with what the program says of it.
PAST_END, OVERFLOW = 6, 7
ENDED, UNORDERED, MISSING, RECOVERING, READING, UNREAD, NO_VERSION = range(18, 25)
CUT, EMPTY, NO_KIND, BAD_LENGTH, TOO_LONG, NO_BUFFER = range(32, 38)
FLAWS = {CUT: "the input ends inside it", EMPTY: "it is empty", NO_KIND: "there is no kind {}",
         BAD_LENGTH: "its length is not that of its kind", TOO_LONG: "it reads more than an answer holds",
         NO_BUFFER: "its buffer has no byte"}


def u64(*some):
    """Numbers as requests and answers have them."""
    return struct.pack(f"<{len(some)}Q", *some)


def frame(first, rest=b""):
    """A request of a kind, or an answer of a status."""
    return struct.pack("<IB", 1 + len(rest), first) + rest


def parted(data):
    """A frame in digits, its parts apart."""
    return "_".join(part.hex() for part in (data[:4], data[4:5], data[5:]) if part)


# A case of requests is a list of sessions over one blob. Each has a way to serve it, how many bytes come at once (0 for
# a request at a time), how the client begins, its requests, each a name and numbers as above, and how the input ends.
class Asked:
    """The sessions of a case so far, and what they show of the blob."""

    def __init__(self):
        self.lines, self.content, self.sure = [], b"", True
        # How many bytes were made for appends, and how many syncs were started.
        self.next, self.names = 0, 0

    def session(self, way, width, first, asked, ending):
        """Tells a session, if what it finds is sure."""
        if not self.sure:
            return
        size = len(self.content)
        self.reading, self.begun = way == "serve-reading", False
        # What is durable; how much is written, where that is sure; the started syncs by their names, each with the
        # content then; and what a start answers, where that is sure: nothing stands for a new name.
        self.floor, self.written, self.started, self.starts = self.content, size, {}, None
        self.snapshots, self.replays = [], []
        # How many bytes were there when the blob was opened, and since: pages of these that were read are in the cache
        # while all pages fit in it.
        self.recovered, self.bytes, self.cached = size, size, set()
        self.version, self.given, self.told, self.count, self.stopped = None, [], [], 0, None
        self.flushed = [GREETING]
        self.answer(0, u64(size))
        getattr(self, "first_" + first[0])(*first[1:])
        if self.version:
            for name, *some in asked:
                if self.version == 2 or name not in SECOND:
                    getattr(self, name)(*some)
            getattr(self, "end_" + ending[0])(*ending[1:])
        self.tell(way, width)
        self.sure = self.floor == self.content

    def tell(self, way, width):
        """The lines of a session."""
        data = b"".join(self.given)
        # (bytes that come one by one take long; and all requests wait at once only where they come at once)
        most = {"serve-interrupted": 2000, "serve-pieces": 0 if self.stopped else 4000}
        way = way if len(data) <= most.get(way, len(data)) else "serve"
        ends = self.stopped or "ok"
        if way == "serve-pieces":
            width = len(data) or 1
            ends += ", out after " + " ".join(map(str, dict.fromkeys(self.flushed + [self.length()])))
        self.lines.append(f"{way} => {ends}")
        if width:
            width = max(width, len(data) // 300)
            self.lines += ["> " + data[at:at + width].hex() for at in range(0, len(data), width)]
        else:
            self.lines += ["> " + parted(piece) for piece in self.given if piece]
        self.lines += ["< 01"] + ["< " + parted(answer) for answer in self.told]

    def length(self):
        """How many bytes were answered."""
        return 1 + sum(map(len, self.told))

    def answer(self, status, payload=b""):
        self.told.append(frame(status, payload))

    def ask(self, kind, fields=b"", *payload):
        """A request that is answered with this payload."""
        self.count += 1
        self.given.append(frame(kind, fields))
        self.answer(0, b"".join(payload))

    def refuse(self, status, kind, fields=b""):
        """A request that is refused: no step was taken, the system told no error, and something else may be asked."""
        self.count += 1
        self.given.append(frame(kind, fields))
        self.answer(status, bytes(17) if self.version == 2 else b"")

    def stop(self, status, data, word=""):
        """Bytes that are no request: the client of version 2 is told so, and to open anew."""
        self.given.append(data)
        if self.version != 1:
            self.answer(status, b"\x02" + bytes(16))
        self.end(f"pagedd: request {self.count + 1}: {FLAWS[status].format(word)}", status == CUT)

    def end(self, why, cut=False):
        """What follows isn't read, if anything may follow."""
        self.stopped = why
        self.given += [] if cut else [frame(SIZE)]

    # How a client begins.
    def first_one(self):
        self.given, self.version = [b"\x01"], 1

    def first_offer(self, *versions):
        self.given = [bytes([2, len(versions), *versions])]
        self.version = max((version for version in versions if version in (1, 2)), default=None)
        if self.version == 2:
            numbers = u64(len(self.content), PAGE, MOST, MOST, 268_435_455, 536_870_910, 0, ALLOWED)
            self.answer(0, bytes([2, self.reading]) + numbers + u64(6) + b"crc32c" + u64(0))
        elif self.version == 1:
            self.answer(0, b"\x01")
        else:
            self.answer(NO_VERSION, b"\x01\x02")
            self.end("pagedd: the client offers no version that is known: 1 and 2 are")

    def first_cut(self, keep, *versions):
        """The input ends inside the offer, which counts as request 0."""
        self.count = -1
        self.stop(CUT, bytes([2, len(versions), *versions])[:1 + keep % (1 + len(versions))])

    def first_other(self, byte):
        byte = 3 if byte in (1, 2) else byte
        self.given = [bytes([byte])]
        self.end(f"pagedd: the input begins with {byte}: version 1 begins with 1, an offer with 2")

    def first_nothing(self):
        """The input has no byte."""

    # How the input ends.
    def end_close(self):
        self.given.append(frame(CLOSE))
        self.end(None)

    def end_nothing(self):
        """Behind a request."""

    def end_cut(self, kind, keep):
        """Inside what would be a request."""
        kind = self.kind(kind)
        fields = b"bytes" if kind == APPEND else batch([b"some", b"", b"bytes"]) if kind in BATCHES else bytes(16)
        data = frame(kind, b"\x01" * FIELDS[kind] if kind in FIELDS else fields)
        self.stop(CUT, data[:1 + keep % (len(data) - 1)])

    def end_empty(self):
        self.stop(EMPTY, bytes(4))

    def end_kind(self, kind, length):
        kind = 0 if 1 <= kind <= self.kinds() else kind
        self.stop(NO_KIND, frame(kind, bytes(length)), kind)

    def end_length(self, kind, length, rest):
        """Its fields needn't come."""
        kind = self.kind(kind)
        kind = kind if kind in FIELDS else SIZE
        length %= MOST
        self.stop(BAD_LENGTH, struct.pack("<IB", 1 + length + (length >= FIELDS[kind]), kind) + bytes(rest))

    def end_long(self, which, more):
        kind = (READ, UP_TO, SNAP, TAKE)[which % 4]
        self.stop(TOO_LONG, frame(kind, bytes(FIELDS[kind] - 8) + u64(min(MOST + 1 + more, GREATEST))))

    def end_buffer(self):
        self.stop(NO_BUFFER, frame(REPLAY, u64(0)))

    def kinds(self):
        return 26 if self.version == 2 else 16

    def kind(self, number):
        return 1 + number % self.kinds()

    # What changes the blob.
    def change(self, kind, fields, *do):
        """A request that is refused where the file is served for reading alone; else each of these is done, and answers
        a part of the payload or nothing."""
        if self.reading:
            self.refuse(READING, kind, fields)
        else:
            self.ask(kind, fields, *[part() or b"" for part in do])

    def some(self, count):
        """The next bytes to append: they go up, so that each shows its place."""
        new = bytes((self.next + index) % 251 + 1 for index in range(count))
        self.next += count
        return new

    def put(self, parts):
        """Appends, and answers where each part begins."""
        places = [len(self.content) + sum(map(len, parts[:index])) for index in range(len(parts))]
        if any(parts):
            self.content, self.starts = self.content + b"".join(parts), b""
        self.bytes = max(self.bytes, len(self.content))
        if self.written is not None and len(self.content) - self.written > BUFFERED:
            self.written = None
        return u64(*places)

    def keep(self):
        """All is durable."""
        self.floor, self.written, self.starts = self.content, len(self.content), b"\0"

    def begin_sync(self):
        """All is written. Until there is more, or a sync, another start answers the same."""
        self.written = len(self.content)
        if self.starts == b"":
            self.started[self.names], self.starts = self.content, b"\x01" + u64(self.names)
            self.names += 1
        return self.starts

    def told_size(self):
        return u64(len(self.content))

    def append(self, count):
        new = self.some(count)
        self.change(APPEND, new, lambda: self.put([new]))

    def records(self, which, *lengths):
        parts, kind = [self.some(length) for length in lengths], BATCHES[which % 3]
        if kind == RECORDS_START and self.starts is None and not any(parts):
            kind = RECORDS
        after = {RECORDS: [], RECORDS_SYNC: [self.keep], RECORDS_START: [self.begin_sync]}[kind]
        self.change(kind, batch(parts), lambda: self.put(parts), *after)

    def bad_records(self, which, how, *lengths):
        """Fields that tell no records."""
        data, count, how = self.some(sum(lengths)), len(lengths), how % 7
        if how == 0:    # the number is cut off
            fields = struct.pack("<I", count)[:which % 4]
        elif how == 1:  # a length is missing
            fields = struct.pack(f"<{1 + count}I", count + 1, *lengths)
        elif how == 2:  # almost all are
            fields = struct.pack(f"<{1 + count}I", (1 << 32) - 1, *lengths) + data
        elif how == 3:  # bytes are missing
            fields = batch([data + b"!"])[:-1 - which]
        elif how == 4:  # there is a byte more
            fields = struct.pack(f"<{1 + count}I", count, *lengths) + data + b"!"
        elif how == 5:  # there is one less
            fields = struct.pack(f"<{2 + count}I", count + 1, *lengths, 1) + data
        else:           # they would add up in 32 bits
            fields = struct.pack(f"<{3 + count}I", count + 2, 1 << 31, 1 << 31, *lengths) + data
        self.refuse(READING if self.reading else UNREAD, BATCHES[which % 3], fields)

    def sync(self):
        self.change(SYNC, b"", self.keep)

    def sync_size(self):
        self.change(SYNC_SIZE, b"", self.keep, self.told_size)

    def start(self):
        if self.reading or self.starts is not None:
            self.change(START, b"", self.begin_sync)

    def wait(self, which):
        """For a sync that was started in this session, again perhaps, or for none."""
        which, name = self.one_of(list(self.started), which)
        if name is None:
            self.refuse(MISSING, WAIT, u64(self.names + which))
            return
        self.ask(WAIT, u64(name))
        self.floor = max(self.floor, self.started[name], key=len)

    def begin(self):
        self.change(BEGIN, b"")
        self.begun = not self.reading

    def truncate(self, size):
        size %= len(self.content) + 3
        if self.reading or self.begun:
            self.refuse(READING if self.reading else ENDED, TRUNCATE, u64(size))
            return
        self.content = self.content[:size]
        self.keep()
        self.started = {name: content[:size] for name, content in self.started.items()}
        self.replays = [None] * len(self.replays)
        # (what the cache holds of pages before it may count too)
        self.recovered, self.bytes, self.cached = min(self.recovered, size), 2 * self.bytes, set()
        self.ask(TRUNCATE, u64(size), self.told_size())

    # What is read.
    def size(self):
        self.ask(SIZE, b"", self.told_size())

    def read_alone(self, place, count):
        """Which pages are in the cache then."""
        if self.bytes <= CACHED and count:
            pages = range(place // PAGE, (place + count - 1) // PAGE + 1)
            self.cached.update(page for page in pages if (page + 1) * PAGE <= self.recovered)

    def read(self, place, count):
        place %= len(self.content) + 1
        found = self.content[place:place + count]
        self.ask(READ, u64(place, len(found)), found)
        self.read_alone(place, len(found))

    def past(self, place, more):
        place %= len(self.content) + 1
        self.refuse(PAST_END, READ, u64(place, min(len(self.content) - place + 1 + more, MOST)))

    def far(self, which, back, count):
        """From about the greatest number on."""
        kind, place = (READ, UP_TO, RANGES)[which % (2 if self.version == 1 else 3)], GREATEST - back
        # (at most so many bytes may be fewer)
        passes = count >= back and kind != UP_TO
        self.refuse(OVERFLOW if passes else PAST_END, kind, u64(place, count + 1))

    def up_to(self, place, count):
        place, count = place % (len(self.content) + 3), min(count, MOST)
        found = self.content[place:place + count]
        if count and not found:
            self.refuse(PAST_END, UP_TO, u64(place, count))
        else:
            self.ask(UP_TO, u64(place, count), found)
            self.read_alone(place, len(found))

    def at_hand(self):
        """From where to where a read needs no file, in order: pages that the cache holds, and what is buffered."""
        spans = [(page * PAGE, (page + 1) * PAGE) for page in sorted(self.cached)]
        if self.written is not None:
            spans.append((self.written, len(self.content)))
        joined = []
        for start, end in spans:
            if joined and start <= joined[-1][1]:
                start = joined.pop()[0]
            joined.append((start, end))
        return joined

    def ranges(self, *some):
        """Ranges of what needs no file, each by how far it is from the one before, and its length."""
        found, at = [], 0
        for gap, length in zip(some[::2], some[1::2]):
            at += gap % (1 + len(self.content) // 4)
            for start, end in self.at_hand():
                if at <= end:
                    at = max(at, start)
                    found.append((at, min(length, end - at)))
                    at += found[-1][1]
                    break
        fields = b"".join(u64(*one) for one in found)
        self.ask(RANGES, fields, u64(len(found)), *[self.content[at:at + length] for at, length in found])

    def overlap(self, place, length, back, other):
        """The second range begins before the first one's end. One may pass the end too."""
        place %= len(self.content) + 1
        end = place + length
        if end > 0:
            self.refuse(UNORDERED, RANGES, u64(place, length, end - 1 - back % end, other))

    def beyond(self, place, count, more):
        """The last range passes the end."""
        place %= len(self.content) + 1
        count = min(count, len(self.content) - place)
        rest = len(self.content) - place - count
        self.refuse(PAST_END, RANGES, u64(place, count, place + count, rest + 1 + more))

    def odd(self, count, more):
        """Fields that tell no ranges."""
        self.refuse(UNREAD, RANGES, bytes(16 * count + 1 + more % 15))

    def long(self, more, part):
        """No answer can hold the ranges, or one could just do so if they were there."""
        total = min(MOST - 8 + more, GREATEST)
        part %= total
        self.refuse(UNREAD if more else PAST_END, RANGES, u64(0, part, part, total - part))

    def longest(self, part):
        """Together the ranges are longer than any number."""
        self.refuse(UNREAD, RANGES, u64(0, GREATEST, GREATEST, 1 + part))

    # Snapshots and replays.
    def may_write(self):
        """What isn't written may be from here on."""
        if self.written != len(self.content):
            self.written = None

    def snapshot(self):
        if not self.begun:
            self.refuse(RECOVERING, SNAPSHOT)
            return
        self.may_write()
        self.ask(SNAPSHOT, b"", u64(len(self.snapshots)))
        self.snapshots.append(self.content)

    def one_of(self, some, which):
        """A number of these, and what it is of; or one that wasn't given, and nothing."""
        if not some or which == 8:
            return len(some) + which, None
        return which % len(some), some[which % len(some)]

    def snap(self, which, place, count):
        which, content = self.one_of(self.snapshots, which)
        if content is None:
            self.refuse(MISSING, SNAP, u64(which, place, count))
            return
        place %= len(content) + 1
        if count > len(content) - place:
            self.refuse(PAST_END, SNAP, u64(which, place, count))
        else:
            self.ask(SNAP, u64(which, place, count), content[place:place + count])

    def replay(self, buffer):
        self.may_write()
        self.ask(REPLAY, u64(buffer + 1), u64(len(self.replays)))
        # The content, the place where it stands, if that is sure, and how many bytes are at hand at least.
        self.replays.append([self.content, 0, 0])

    def ensure(self, which, count):
        which, replay = self.one_of(self.replays, which)
        if replay is None:
            self.refuse(MISSING, ENSURE, u64(which, count))
        elif replay[1] is not None:
            content, place, hand = replay
            rest = len(content) - place
            replay[2] = max(hand, min(count, rest))
            self.ask(ENSURE, u64(which, count), bytes([count <= rest]))

    def take(self, which, count):
        which, replay = self.one_of(self.replays, which)
        count = min(count, MOST)
        if replay is None:
            self.refuse(MISSING, TAKE, u64(which, count))
        elif replay[1] is not None:
            content, place, hand = replay
            # (more than that may be at hand, unless it is the rest)
            count = count if place + hand == len(content) else min(count, hand)
            taken = content[place:place + count]
            replay[1:] = place + len(taken), hand - len(taken)
            self.ask(TAKE, u64(which, count), taken)

    def seek(self, which, place):
        which, replay = self.one_of(self.replays, which)
        if replay is None:
            self.refuse(MISSING, SEEK, u64(which, place))
            return
        place %= len(replay[0]) + 3
        if place > len(replay[0]):
            # (where it stands then isn't sure)
            replay[1:] = None, 0
            self.refuse(PAST_END, SEEK, u64(which, place))
        else:
            replay[1:] = place, 0
            self.ask(SEEK, u64(which, place))

    def drop(self, kind, some, which):
        which, found = self.one_of(some, which)
        if found is None:
            self.refuse(MISSING, kind, u64(which))
        else:
            some[which] = None
            self.ask(kind, u64(which))

    def drop_snapshot(self, which):
        self.drop(DROP_SNAPSHOT, self.snapshots, which)

    def drop_replay(self, which):
        self.drop(DROP_REPLAY, self.replays, which)

    def open(self):
        self.ask(OPEN, b"", *[u64(sum(it is not None for it in some)) for some in (self.snapshots, self.replays)])

    # What is told of the file, and when.
    def look(self):
        if self.written is not None:
            self.ask(LOOK, b"", u64(self.written))

    def flush(self):
        self.ask(FLUSH)
        self.flushed.append(self.length())


# The numbers of each request and each end: 9 is one below 9, l a length, p a place, b a byte, n any number, and * some
# lengths. Then those that version 2 alone has, and what should come before some.
REQUESTS = {"append": "l", "records": "9*", "bad_records": "99*", "sync": "", "sync_size": "", "start": "", "wait": "9",
            "begin": "", "truncate": "p", "size": "", "read": "pl", "past": "pn", "far": "99l", "up_to": "pn",
            "ranges": "*", "overlap": "plpl", "beyond": "pll", "odd": "99", "long": "nn", "longest": "n",
            "snapshot": "", "snap": "9pl", "replay": "l", "ensure": "9n", "take": "9n", "seek": "9p",
            "drop_snapshot": "9", "drop_replay": "9", "open": "", "look": "", "flush": ""}
ENDS = {"nothing": "", "close": "", "cut": "nn", "empty": "", "kind": "b9", "length": "nn9", "long": "9n",
        "buffer": ""}
SECOND = {"records", "bad_records", "sync_size", "ranges", "overlap", "beyond", "odd", "long", "longest",
          "drop_snapshot", "drop_replay", "open", "look", "flush"}
BEFORE = {"snapshot": ["begin"], "start": ["append"], "wait": ["append", "start"], "take": ["replay", "ensure"]} \
    | dict.fromkeys(("snap", "drop_snapshot"), ["begin", "snapshot"]) \
    | dict.fromkeys(("ensure", "seek", "drop_replay"), ["replay"])


def drawn(numbers, form, bound):
    """Numbers of a form, with lengths below a bound."""
    def one(what):
        if what == "n" and numbers.random() < 0.2:
            return numbers.choice([1 << 31, 1 << 32, 1 << 63, GREATEST]) - numbers.randrange(1, 10)
        bounds = {"9": [9], "b": [32, 256], "p": [1 << 20]}.get(what, [1, 2, bound, bound, bound])
        return numbers.randrange(numbers.choice(bounds))
    many = numbers.choice([0, 1, 2, 2, 3, 3, 4, 7]) if form.endswith("*") else 0
    # (now and then an answer is longer than what is written at once)
    many = numbers.choice([500, 2000]) if many and bound < 10 and numbers.random() < 0.05 else many
    return [one(what) for what in form.rstrip("*") + "l" * many]


def one_of_requests(numbers, bound, first, last):
    """A session: how it is served, its requests, and how it ends; it may be the first or the last one of a blob."""
    way = numbers.choice(["serve"] * 5 + ["serve-interrupted", "serve-pieces", "serve-reading"])
    width = numbers.choice([0, 0, 0, 1, 2, 7, 4096, 8192, 100_000])
    begin = numbers.choice(["one", "one", "offer", "other", "cut", "nothing"] if numbers.random() < 0.2 else ["two"])
    versions = [numbers.choice([0, 1, 2, 3, 9, 255]) for _ in range(numbers.choice([0, 1, 1, 1, 2, 2, 2, 5, 5, 200]))]
    begins = {"two": ("offer", *numbers.sample([2, *versions], 1 + len(versions))), "offer": ("offer", *versions),
              "cut": ("cut", numbers.randrange(300), *versions), "other": ("other", numbers.randrange(256))}
    # A session asks a few things often, and so gets far into these.
    often = numbers.sample(list(REQUESTS), numbers.randint(2, 9)) + ["records"]
    often += [] if first or numbers.random() < 0.5 else ["read", "up_to", "ranges", "ranges"]
    kinds = numbers.sample(range(3), numbers.randint(1, 3))
    names = []
    for _ in range(numbers.randint(0, 20)):
        name = numbers.choice(often)
        names += [it for it in BEFORE.get(name, []) if it not in names and numbers.random() < 0.8] + [name]
    # (another session is told only where all is durable)
    names += [] if last or numbers.random() < 0.2 else [numbers.choice(["sync", "sync_size"])]
    asked = [(name, *drawn(numbers, REQUESTS[name], bound)) for name in names]
    asked = [(name, numbers.choice(kinds), *some[1:]) if name == "records" else (name, *some) for name, *some in asked]
    end = numbers.choice(["nothing"] * 9 + ["close"] * 5 + list(ENDS)[2:])
    return way, width, begins.get(begin, (begin,)), asked, (end, *drawn(numbers, ENDS[end], 40))


def requests(numbers):
    """Sessions over one blob."""
    bound, count = numbers.choice([3, 10, 40, 300, 300, 1000, 3000, 3000, 3000, 20_000]), numbers.choice([1, 1, 2, 3])
    return [one_of_requests(numbers, bound, number == 0, number + 1 == count) for number in range(count)]


def text_of_requests(name, case):
    asked = Asked()
    for one in case:
        asked.session(*one)
    return "\n".join([f"case {name}", "start requests", *asked.lines]) + "\n"


def less(part):
    """Steps with one less, or with a smaller number."""
    for index in range(len(part)):
        yield part[:index] + part[index + 1:]
        for place in range(1, len(part[index])):
            step = list(part[index])
            if step[place] > 1:
                step[place] //= 2
                yield part[:index] + [tuple(step)] + part[index + 1:]


# The same cases with something less.
def shorter_session(case):
    setting, before, tried, plan, call = case
    for it in less(before):
        yield setting, it, tried, plan, call
    for it in less(tried):
        yield setting, before, it, plan, call
    for index, simple in enumerate([4, 8, 1, "add", "forward"]):
        if setting[index] != simple:
            yield setting[:index] + [simple] + setting[index + 1:], before, tried, plan, call
    if plan == "twice":
        yield setting, before, tried, "each", call


def shorter_image(case):
    setting, pages, buffer = case
    for index in range(len(pages)):
        yield setting, pages[:index] + pages[index + 1:], buffer


def shorter_requests(case):
    for index, one in enumerate(case):
        yield case[:index] + case[index + 1:]
        for it in shorter_session_of_requests(one):
            yield case[:index] + [it] + case[index + 1:]


def shorter_session_of_requests(one):
    way, width, first, asked, ending = one
    for place, step in enumerate(asked):
        # (of records and ranges half, or one less)
        needed = len(REQUESTS[step[0]].rstrip("*")) + 1
        for most in ((needed + len(step)) // 2, len(step) - 1) if len(step) > needed else ():
            yield way, width, first, asked[:place] + [step[:most]] + asked[place + 1:], ending
    for it in less(asked):
        yield way, width, first, it, ending
    for it in (("serve", *one[1:]), (way, 0, *one[2:]), (way, width, ("offer", 2), *one[3:]), (*one[:4], ("nothing",))):
        if it != one:
            yield it


# How many cases in five are of a kind, what makes one, its text, and what makes it shorter.
KINDS = {"session": (3, session, text_of_session, shorter_session), "image": (1, image, text_of_image, shorter_image),
         "requests": (1, requests, text_of_requests, shorter_requests)}


def text_of(name, case):
    return KINDS[case[0]][2](name, case[1])


def shorter(case):
    return ((case[0], it) for it in KINDS[case[0]][3](case[1]))


def play(program, text):
    """What the program writes; where it ends otherwise than it should, that too."""
    ran = subprocess.run(program, input=text.encode(), stdout=subprocess.PIPE, stderr=subprocess.DEVNULL)
    said = ran.stdout.decode()
    return said if ran.returncode in (0, 1) else said + f"FAILED: exit status {ran.returncode}\n"


def fails(program, case):
    return "FAILED" in play(program, text_of("it", case))


def shrink(program, case):
    going = True
    while going:
        going = False
        for it in shorter(case):
            if fails(program, it):
                case, going = it, True
                break
    return case


def main(seed, count, program, only):
    numbers, began, runs, made = random.Random(seed), time.time(), 0, Counter()
    shares = [share if only in (None, kind) else 0 for kind, (share, *_) in KINDS.items()]
    for first in range(0, count, BATCH):
        kinds = numbers.choices(list(KINDS), shares, k=min(BATCH, count - first))
        made.update(kinds)
        cases = [(kind, KINDS[kind][1](numbers)) for kind in kinds]
        said = play(program, "\n".join(text_of(str(first + index), case) for index, case in enumerate(cases)))
        if "FAILED" in said:
            for case in cases:
                if fails(program, case):
                    case = shrink(program, case)
                    print(text_of("it", case) + "\n" + play(program, text_of("it", case)))
                    return 1
            print(f"the cases from {first} on fail together, and none alone")
            return 1
        runs += int(said.splitlines()[-1].split()[2])
    each = ", ".join(f"{made[kind]} of kind {kind}" for kind in KINDS if made[kind])
    print(f"{count} cases of seed {seed} ({each}), {runs} runs, {time.time() - began:.0f} s: none fails")
    return 0


def words():
    """The seed, the number of cases, the program with its words, and the kind of cases, if all are of one."""
    parser = usage.parser(__doc__)
    parser.add_argument("--only", choices=KINDS, metavar="KIND", help="only cases of this kind")
    parser.add_argument("SEED", type=int)
    parser.add_argument("COUNT", type=usage.count)
    parser.add_argument("PROGRAM", nargs=argparse.REMAINDER, help="conformance, and its words")
    given = parser.parse_args()
    program = given.PROGRAM or [PROGRAM]
    if not shutil.which(program[0]):
        parser.error(f"{program[0]} is no program")
    return given.SEED, given.COUNT, program, given.only


if __name__ == "__main__":
    sys.exit(main(*words()))
