"""Tears the writes of `pagedd serve-log`: python3 log_tear.py PAGEDD [IMAGES [SEED]]

A client appends, commits and drops over small segments, and strace tells each call of the program that
changes a file or the folder, with its bytes, and each answer between them. So the state of each file is
known after each call, also within a rotation, a drop and an opening, and which states a sync made durable.
At the end of each session what the calls tell is held against the folder itself. strace is to be installed.

A crash may leave, of each file, the durable state with any part of what was written since: each byte
from a state of its own, each sector of 512 bytes, a front of the newest state, or one state whole. Of the
names that were made or removed since the folder's last sync it may leave any, or the first ones. A new
folder may be gone until the one above it is synced. Such images are made at every call of the run.

The program is started on each image. It is never refused. Its records must begin with all that were
committed, and be the beginning of what was appended, each at its place, from the first segment on that
wasn't dropped; of segments that were being dropped all records are there, or none. The file of a closed
segment stays as it is, and so does its list, which may be torn. What the opening cuts of the manifest and
of the open segment, also of a record that isn't whole, is in a new file beside it, unless the last such
file has just these bytes, and one line for each says so; no other byte is. On every third image the log
goes on: it appends, drops, and is opened again. On every tenth one the opening is itself torn, at each of
its calls. Every second image is salvaged too: all that was committed comes out, in order, and nothing that
wasn't appended.

A run has several sessions of one log. Between two of them the program ends, or is killed after any of its
calls, or an image of a crash takes the place of the folder. So openings are torn that follow a crash, and
writes that no sync covered before the program was killed. There are runs with several sizes of pages and
of segments: records within a page and over many, and entries of the manifest over two pages and more.

It shows that an opening stands such images. It doesn't show that a disk leaves no others: none is made
where synced bytes or names are gone, or where bytes stand that were never written. What wasn't synced is
always less than --cut-limit, beyond which a log may be refused. No call of the system fails here. An image
that doesn't pass is kept, with all calls before it.
"""
import os
import re
import shutil
import struct
import subprocess
import sys
import tempfile
from collections import Counter, namedtuple

import reader
import survey
import usage
from journal import records
from log_served import Session, image, put, segment
from served import Error, NoSegment, OpenRefused, Refusal
from tear import torn

# How a log is kept: the size of a page, how much is held back, from how many bytes on a segment is closed; and how many
# bytes a long record may have.
Shape = namedtuple("Shape", "page buffer segment long")
SHAPES = (Shape(4084, 65536, 300, 3000), Shape(100, 300, 700, 900), Shape(4084, 5000, 20000, 15000),
          Shape(33, 64, 150, 400), Shape(4084, 65536, 100000, 65000))
SESSIONS, REQUESTS = 10, 45

# How a file is torn.
WAYS = ("byte", "sector", "front", "whole")

# The calls that change files, and those that tell which file a number means.
TRACED = ("open,openat,creat,close,write,writev,pwrite64,pwritev,pwritev2,truncate,ftruncate,fallocate,fsync,fdatasync,"
          "unlink,unlinkat,rename,renameat,renameat2,link,linkat,symlink,symlinkat,mkdir,mkdirat,rmdir,dup,dup2,dup3,"
          "copy_file_range,sendfile,splice")
STRACE = ["strace", "-f", "--seccomp-bpf", "-y", "-xx", "-s", str(1 << 28), "-e", "signal=none",
          "-e", f"trace={TRACED}"]

# What was asked of a log when a call was made: all records that were sent, each with its place where it was answered;
# how many of them there were, and how many of these are committed; the segment before which all are dropped, and the
# one before which they may be.
Due = namedtuple("Due", "records sent committed dropped tried")

# What is known after a call: a line about it; whether the folder is there, and is so for good; its names, each with the
# number of a file, and those that are durable; the names that changed since, in order; the states of each file since
# its last sync, the oldest durable; and what was asked.
Moment = namedtuple("Moment", "call there durable names kept changed states due")


class Wrong(Exception):
    """Something isn't as it is to be."""


# How a program shows that it doesn't do what it is to.
FAILURES = (Wrong, Error, struct.error)


def unhex(text):
    return bytes.fromhex(text.replace("\\x", ""))


def traced(path):
    """Each call that strace told and that didn't fail: its name, the number of a file where it begins with one, its
    words, the strings among them, and its result."""
    with open(path, encoding="ascii") as file:
        for line in file:
            call = re.match(r"(?:\d+ +)?(\w+)\((.*)\) += (-?\d+)", line)
            if call is None:
                if re.match(r"(?:\d+ +)?(\+\+\+ |exit)", line):
                    continue
                raise Wrong(f"strace tells what isn't understood: {line[:200]}")
            name, words, result = call.groups()
            if int(result) < 0:
                continue
            texts = re.findall(r'"((?:\\x[0-9a-f]{2})*)"(\.\.\.)?', words)
            if any(cut for _, cut in texts):
                raise Wrong("strace tells a part of the bytes alone")
            number = re.match(r"\d+(?=[<,]|$)", words)
            yield name, int(number[0]) if number else None, words, [unhex(text) for text, _ in texts], int(result)


class Disk:
    """A folder, as the calls tell it, and what of it is durable."""

    def __init__(self, folder):
        self.folder = folder
        self.there = self.durable = False
        # The files by their names, as they are and as they are for good; the names that changed since; the states of
        # each file; and what the program has open.
        self.names, self.kept, self.changed, self.states, self.open = {}, {}, [], {}, {}

    def hold(self, files):
        """The folder has these files for good; None where there is no folder."""
        self.there = self.durable = files is not None
        self.states = {number: [data] for number, data in enumerate((files or {}).values())}
        self.names = {name: number for number, name in enumerate(files or {})}
        self.kept, self.changed, self.open = dict(self.names), [], {}

    def back(self, moment):
        """It is as it was at a moment, and nothing is open."""
        self.there, self.durable = moment.there, moment.durable
        self.names, self.kept, self.changed = dict(moment.names), dict(moment.kept), list(moment.changed)
        self.states, self.open = {number: list(states) for number, states in moment.states.items()}, {}

    def moment(self, call, due):
        used = {*self.names.values(), *self.kept.values(), *(number for _, number in self.changed)} - {None}
        return Moment(call, self.there, self.durable, dict(self.names), dict(self.kept), tuple(self.changed),
                      {number: tuple(self.states[number]) for number in used}, due)

    def meant(self, path):
        """What a path means: a file's name, the folder itself, or the one above it."""
        path = path.decode(errors="replace").rstrip("/")
        if path == self.folder:
            return "the folder"
        if path == os.path.dirname(self.folder):
            return "the folder above"
        return os.path.basename(path) if os.path.dirname(path) == self.folder else None

    def take(self, name, number, words, texts, result):
        """Takes a call. Answers a line about it if it changed anything, or made it durable."""
        if name == "close":
            self.open.pop(number, None)
            return None
        if name in ("open", "openat"):
            return self.take_open(words, self.meant(texts[-1]), result)
        what = self.open.get(number)
        told = f"{name} {what}"
        if name == "fsync" and what == "the folder":
            self.kept, self.changed = dict(self.names), []
        elif name == "fsync" and what == "the folder above":
            self.durable = self.there
        elif name == "mkdir" and self.meant(texts[0]) == "the folder":
            self.there, told = True, "mkdir"
        elif name == "unlink" and self.meant(texts[0]) in self.names:
            told = f"unlink {self.meant(texts[0])}"
            self.changed.append((self.meant(texts[0]), None))
            del self.names[self.meant(texts[0])]
        elif what in self.names and name in ("fsync", "fdatasync", "pwrite64", "ftruncate"):
            file = self.names[what]
            state = self.states[file][-1]
            last = int(words.rsplit(", ", 1)[1]) if name in ("pwrite64", "ftruncate") else None
            if name == "pwrite64":
                data = texts[-1][:result]
                state += bytes(max(0, last - len(state)))
                self.states[file].append(state[:last] + data + state[last + len(data):])
                told += f" at {last}: {data.hex()}"
            elif name == "ftruncate":
                self.states[file].append(state[:last] + bytes(max(0, last - len(state))))
                told += f" to {last}"
            else:
                self.states[file] = [state]
        elif what or any(self.meant(text) for text in texts):
            raise Wrong(f"a call that isn't known: {name}({words[:200]})")
        else:
            return None
        return told

    def take_open(self, words, what, result):
        self.open[result] = what
        if what is None or what.startswith("the folder"):
            return None
        if "O_TRUNC" in words:
            raise Wrong(f"{what} is opened and emptied")
        if what in self.names:
            return None
        file = max(self.states, default=0) + 1
        self.states[file], self.names[what] = [b""], file
        self.changed.append((what, file))
        return f"open and make {what}"


def newest(moment):
    """The files as the program saw them; None where there was no folder."""
    return {name: moment.states[file][-1] for name, file in moment.names.items()} if moment.there else None


def crashed(moment, rng):
    """What a crash may leave: the files; None where there is no folder. And how each file was torn that may differ."""
    if not moment.durable and rng.random() < 0.5:
        return None, Counter()
    names = dict(moment.kept)
    front = rng.randrange(len(moment.changed) + 1) if rng.random() < 0.5 else None
    for at, (name, file) in enumerate(moment.changed):
        if at < front if front is not None else rng.random() < 0.5:
            names.pop(name, None)
            if file is not None:
                names[name] = file
    files, ways = {}, Counter()
    for name, file in names.items():
        states = moment.states[file]
        how = rng.choice(WAYS)
        files[name] = rng.choice(states) if how == "whole" else torn(states, how, rng)
        ways[how] += len(states) > 1
    return files, ways


def is_settled(moment):
    """Whether a crash leaves nothing but what is there."""
    return moment.durable and not moment.changed and all(len(states) == 1 for states in moment.states.values())


def place_in(folder, files):
    """Puts files in the place of a folder."""
    shutil.rmtree(folder, ignore_errors=True)
    if files is None:
        return
    os.mkdir(folder)
    for name, data in files.items():
        put(os.path.join(folder, name), data)


class Answers:
    """Counts the answers among the bytes that the program writes."""

    def __init__(self):
        self.rest, self.count = b"", 0

    def take(self, data):
        # The greeting has a byte before its frame.
        self.rest += data if self.count or self.rest else data[1:]
        while len(self.rest) >= 4 and len(self.rest) >= 4 + struct.unpack_from("<I", self.rest)[0]:
            self.rest = self.rest[4 + struct.unpack_from("<I", self.rest)[0]:]
            self.count += 1


class Traced(Session):
    """A log whose program runs under strace. It counts its answers."""

    def __init__(self, program, folder, trace, options):
        self.count, self.trace = 0, trace
        super().__init__(program, folder, *options)

    def start_process(self, command):
        return super().start_process([*STRACE, "-o", self.trace, *command])

    def _frame(self, *given):
        # (a refusal is an answer too, and so are the greeting and the hello)
        found = super()._frame(*given)
        self.count += 1
        return found


class Asked:
    """What was asked of a log so far."""

    def __init__(self, found, dropped):
        self.records, self.committed, self.dropped, self.tried = list(found), len(found), dropped, dropped

    def due(self):
        return Due(self.records, len(self.records), self.committed, self.dropped, self.tried)

    def send(self, count, shape, rng):
        """New records of some lengths."""
        made = [rng.randbytes(rng.randrange(shape.long if rng.random() < 0.1 else 120)) for _ in range(count)]
        self.records += [(None, data) for data in made]
        return made

    def answered(self, places):
        """The places of the last records were answered. A rotation commits all before it."""
        start = len(self.records) - len(places)
        for at, place in enumerate(places, start):
            self.records[at] = (place, self.records[at][1])
        newest_at = next(at for at, (place, _) in enumerate(self.records) if place[0] == places[-1][0])
        self.committed = max(self.committed, newest_at)


def play(log, asked, dues, requests, shape, rng):
    """Plays so many requests. Of each, what is asked while it isn't answered is in `dues`, by the answers before it."""

    def ask(call, *given, **more):
        dues[log.count] = asked.due()
        return call(*given, **more)

    for _ in range(requests):
        what = rng.random()
        if what < 0.2:
            ask(rng.choice((log.sync, log.sync_size)))
            asked.committed = len(asked.records)
        elif what < 0.4:
            made = asked.send(rng.randrange(1, 9), shape, rng)
            sync = rng.random() < 0.5
            asked.answered(ask(log.append_many, made, sync=sync))
            if sync:
                asked.committed = len(asked.records)
        elif what < 0.47 and asked.records:
            asked.tried = rng.randint(asked.dropped, asked.records[-1][0][0])
            ask(log.drop_before, asked.tried)
            asked.dropped = asked.tried
        else:
            made = asked.send(1, shape, rng)
            asked.answered([ask(log.append, made[0])])
    dues[log.count] = asked.due()


def compare(due, log):
    """Holds the records of a log against what was asked of it. Answers them, and the segment before which all are
    dropped."""
    found = list(log.records())
    if log.recovered != len(found):
        raise Wrong(f"the greeting tells {log.recovered} records, and there are {len(found)}")
    dropped = due.dropped
    if due.tried > due.dropped:
        try:
            log.read_frame((due.dropped, 0))
        except NoSegment:
            dropped = due.tried
        except Refusal:
            pass
    wanted = [(at, data) for at, data in due.records[:due.sent] if at is None or at[0] >= dropped]
    gone = due.sent - len(wanted)
    for number, ((at, data), (place, other)) in enumerate(zip(wanted, found), gone):
        if data != other or at not in (None, place):
            raise Wrong(f"record {number} at {place} has {other.hex()}, and should be {data.hex()}, at {at}")
    if gone + len(found) < due.committed or len(found) > len(wanted):
        raise Wrong(f"{len(found)} records from {gone} on; {due.committed} were committed, and {due.sent} sent")
    return found, dropped


COPY = "manifest.copy"


def listed(manifest, size):
    """The segment before which all are dropped, and the open one, by the bytes of a manifest."""
    first = last = 0
    for entry in records(reader.read(manifest, size, reader.crc32c)[1])[0]:
        if entry[0] == 0:
            first = int.from_bytes(entry[1:9], "big")
        else:
            last += 1
    return first, last


def check_told(shape, before, after, said):
    """Whether an opening changed no file but the manifest and the open segment, and set aside what it cut of them."""
    _, last = listed(before.get("manifest", b""), shape.page)
    parts = ["manifest", os.path.basename(segment("", last))]
    wanted, lines = [], 0
    for name in parts:
        held = before.get(name, b"")
        found = survey.survey(held, shape.page)
        count = survey.set_aside(found, shape.page)
        text = reader.read(held, shape.page, reader.crc32c)[1]
        whole = records(text)[1]
        if whole < len(text):
            # A record that isn't whole goes too. The copy begins with its page.
            count = max(count, len(held) - whole // shape.page * (shape.page + 12))
        lines += whole < len(text) or survey.verdict(found, shape.page) != "whole"
        if count:
            wanted.append((name, before[name][-count:]))
    new = [(name.split(".cut-")[0], data) for name, data in after.items() if ".cut-" in name and name not in before]
    for name, data in wanted:
        # What an opening that ended early set aside isn't set aside again.
        if (name, data) not in new and data in [before[it] for it in before if it.startswith(name + ".cut-")]:
            new.append((name, data))
    if sorted(new) != sorted(wanted):
        raise Wrong(f"set aside are {[(name, len(data)) for name, data in new]} bytes, and should be "
                    f"{[(name, len(data)) for name, data in wanted]}")
    if said.count("\n") != lines:
        raise Wrong(f"{lines} lines should tell what goes, and not: {said}")
    for name, data in before.items():
        if name not in [*parts, COPY] and after.get(name) != data:
            raise Wrong(f"the opening changed {name}")
    return len(wanted)


def check_copy(shape, files):
    """Whether the copy of the manifest is that of a log that was just opened: it has the manifest's bytes, the number
    of the open segment, and how many bytes of frames that one has."""
    manifest, copy = files["manifest"], files.get(COPY, b"")
    _, last = listed(manifest, shape.page)
    text = reader.read(files[os.path.basename(segment("", last))], shape.page, reader.crc32c)[1]
    rest = last.to_bytes(8, "big") + records(text)[1].to_bytes(8, "big") + manifest
    if copy != reader.crc32c(rest).to_bytes(4, "big") + rest:
        raise Wrong(f"{COPY} isn't the copy of the manifest: it knows {copy[4:20].hex()}, and should {rest[:16].hex()}")


def opened(program, folder, shape, *words):
    """A log that is never refused."""
    try:
        return Session(program, folder, *options(shape), *words)
    except OpenRefused as refused:
        raise Wrong(f"it is refused: {refused}") from None


def options(shape):
    return f"--page-size={shape.page}", f"--buffer={shape.buffer}", f"--segment-size={shape.segment}"


def hold(program, folder, shape, files, due):
    """Opens the log of an image, and holds it against what was asked. Answers what it found, how many copies the
    opening made, and the segment before which all are dropped."""
    place_in(folder, files)
    log = opened(program, folder, shape)
    found, dropped = compare(due, log)
    status, said = log.end()
    if status != 0:
        raise Wrong(f"it ends with status {status}: {said}")
    check_copy(shape, image(folder))
    return found, check_told(shape, files or {}, image(folder), said), dropped


def numbers_of(names):
    """The numbers of the segments among some names."""
    return {int(name[:20]) for name in names if name.endswith(".segment")}


def go_on(program, folder, shape, found, dropped, rng):
    """Appends to a log that was opened after a crash, drops, and opens it again. No file of a dropped segment stays."""
    log = opened(program, folder, shape)
    asked = Asked(found, dropped)
    made = asked.send(4, shape, rng)
    asked.answered(log.append_many(made, sync=True))
    asked.committed = len(asked.records)
    asked.dropped = asked.tried = rng.randint(dropped, asked.records[-1][0][0])
    log.drop_before(asked.dropped)
    if log.end() != (0, ""):
        raise Wrong("it doesn't end well after it went on")
    log = opened(program, folder, shape)
    compare(asked.due(), log)
    if log.hello.cut or log.hello.given_up or log.end() != (0, ""):
        raise Wrong("it isn't whole after it went on")
    whole = subprocess.run([program, "check", *options(shape)[:1], folder], capture_output=True, check=False)
    if whole.returncode != 0:
        raise Wrong(f"check says: {whole.stdout.decode()}")
    left = {number for number in numbers_of(os.listdir(folder)) if number < asked.dropped}
    if left:
        raise Wrong(f"a drop before {asked.dropped} leaves the files of {sorted(left)}")


def salvage(program, folder, shape, files, due):
    """Salvages an image, and holds what comes out against what was asked: all that was committed, in order."""
    if not files:
        return
    place_in(folder, files)
    out, size = folder + "-out", options(shape)[0]
    shutil.rmtree(out, ignore_errors=True)
    ended = subprocess.run([program, "salvage", size, folder, out], capture_output=True, check=False)
    if not numbers_of(os.listdir(folder)):
        return
    if ended.returncode not in (0, 3) or image(folder) != files:
        raise Wrong(f"salvage ends with {ended.returncode}: {ended.stderr.decode()}")
    log = Session(program, out, size, "--read-only")
    found = [data for _, data in log.records()]
    log.end()
    wanted = [data for place, data in due.records[:due.committed] if place[0] >= due.tried]
    rest = iter(found)
    if not all(data in rest for data in wanted):
        raise Wrong(f"salvage has {len(found)} records, and not all {len(wanted)} that were committed, in order")
    sent = {data for _, data in due.records}
    if any(data not in sent for data in found):
        raise Wrong("salvage has a record that wasn't appended")


def keep(moments, at, files, error):
    """Keeps an image that doesn't pass, and the calls before it; says so, and ends the script."""
    why = f"{type(error).__name__}: {error}"
    kept = tempfile.mkdtemp(prefix="log-tear-")
    place_in(os.path.join(kept, "image"), files)
    due = moments[at].due
    with open(os.path.join(kept, "calls"), "w", encoding="ascii") as file:
        file.writelines(f"{moment.call}\n" for moment in moments[:at + 1])
    with open(os.path.join(kept, "records"), "w", encoding="ascii") as file:
        file.write(f"{due.sent} sent, {due.committed} committed; dropped before {due.dropped}, or {due.tried}\n")
        file.writelines(f"{place} {data.hex()}\n" for place, data in due.records[:due.sent])
    sys.exit(f"NOT SO after call {at} ({moments[at].call[:80]}): {why}\nthe image and the calls are in {kept}")


class Run:
    """Several sessions of a log, and each moment of them."""

    def __init__(self, program, room, shape, rng):
        self.program, self.shape, self.rng = program, shape, rng
        self.folder, self.trace = os.path.join(room, "log"), os.path.join(room, "trace")
        # (what the folder had before this session)
        self.disk, self.moments, self.files = Disk(self.folder), [], None
        due = Due([], 0, 0, 0, 0)
        for _ in range(SESSIONS):
            due = self.between(self.session(due, self.rng.randrange(REQUESTS)))
        self.settled = [at for at, moment in enumerate(self.moments) if is_settled(moment)]
        self.loose = [at for at, moment in enumerate(self.moments) if not is_settled(moment)]

    def session(self, due, requests):
        """Plays a session of a log of which this was asked before, and answers its moments."""
        self.moments.append(self.disk.moment("a session begins", due))
        try:
            return self.played(due, requests)
        except FAILURES as error:
            keep(self.moments, len(self.moments) - 1, self.files, error)

    def played(self, due, requests):
        """Plays a session under strace."""
        log = Traced(self.program, self.folder, self.trace, options(self.shape))
        found, dropped = compare(due, log)
        asked = Asked(found, dropped)
        dues = {0: due, 1: asked.due()}
        play(log, asked, dues, requests, self.shape, self.rng)
        status, said = log.end()
        if status != 0:
            raise Wrong(f"a session ends badly: {said}")
        begun, answers = len(self.moments) - 1, Answers()
        for name, number, words, texts, result in traced(self.trace):
            if name == "write" and number == 1:
                answers.take(texts[-1][:result])
                told = f"answer {answers.count}"
            elif name == "write" and number == 2:
                told = None
            else:
                told = self.disk.take(name, number, words, texts, result)
            if told:
                last = max(at for at in dues if at <= answers.count)
                self.moments.append(self.disk.moment(told, dues[last]))
        if newest(self.moments[-1]) != image(self.folder):
            raise Wrong("the calls that strace told don't give the files that are there")
        return self.moments[begun:]

    def between(self, moments):
        """What becomes of the log before the next session; answers what was asked until then."""
        end = self.rng.choice(("end", "kill", "crash", "crash"))
        moment = moments[-1] if end == "end" else self.rng.choice(moments)
        if end == "crash":
            files, _ = crashed(moment, self.rng)
            self.disk.hold(files)
        else:
            files = newest(moment)
            self.disk.back(moment)
        self.files = files
        place_in(self.folder, files)
        return moment.due

    def opening(self, files, due):
        """Opens the log of an image, and answers which of the moments may be torn."""
        self.disk.hold(files)
        self.files = files
        place_in(self.folder, files)
        begun = len(self.moments)
        self.session(due, 0)
        return [at for at in range(begun, len(self.moments)) if not is_settled(self.moments[at])]


class Trials:
    """Images that were tried, and what was found."""

    def __init__(self, program, room, rng):
        self.program, self.rng = program, rng
        self.folder = os.path.join(room, "image")
        self.ways, self.images, self.most, self.copies = Counter(), 0, 0, 0

    def run(self, run, count):
        """Tries so many images of a run, and those of some openings."""
        for one in range(count):
            # Where a crash leaves nothing but what is there, one image in eight is made.
            at = self.rng.choice(run.settled if one % 8 == 0 else run.loose)
            files = self.image(run, at, one % 3 == 0)
            if one % 10 == 5:
                for within in run.opening(files, run.moments[at].due):
                    self.image(run, within, False)

    def image(self, run, at, goes_on):
        """Tries an image at a moment of a run, and answers it."""
        moment = run.moments[at]
        files, ways = crashed(moment, self.rng)
        try:
            found, copies, dropped = hold(self.program, self.folder, run.shape, files, moment.due)
            if goes_on:
                go_on(self.program, self.folder, run.shape, found, dropped, self.rng)
            if self.images % 2 == 0:
                salvage(self.program, self.folder, run.shape, files, moment.due)
            self.most = max(self.most, listed(files.get("manifest", b""), run.shape.page)[1] + 1 if files else 0)
        except FAILURES as error:
            keep(run.moments, at, files, error)
        self.ways += ways
        self.images += 1
        self.copies += copies
        return files


def main():
    program, count, rng = usage.trials(__doc__, "IMAGES", 400)
    if shutil.which("strace") is None:
        sys.exit("log_tear: there is no strace: install it")
    calls = 0
    with tempfile.TemporaryDirectory() as room:
        trials = Trials(program, room, rng)
        for number, shape in enumerate(SHAPES):
            run = Run(program, room, shape, rng)
            calls += len(run.moments)
            trials.run(run, (count + number) // len(SHAPES))
            shutil.rmtree(run.folder, ignore_errors=True)
    each = ", ".join(f"{trials.ways[how]} by {how}" for how in WAYS)
    print(f"{trials.images} images at {calls} calls, of up to {trials.most} segments; files torn: {each}: nothing"
          f" committed was lost, and {trials.copies} files are beside that have what was cut")


if __name__ == "__main__":
    main()
