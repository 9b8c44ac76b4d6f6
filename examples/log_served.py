"""Plays sessions of `pagedd serve-log`: python3 log_served.py PAGEDD

Each kind of request in both versions, frames that are none, what is refused and how, logs that are served
for reading alone, two programs at one log, and folders that were changed by hand. The first thing that
isn't as `docs/PROTOCOL.md` says ends it. It has no cases of a killed program: `log_kill.py` has them.
"""
import errno
import hashlib
import json
import os
import re
import resource
import shutil
import signal
import struct
import subprocess
import tempfile

import reader
import usage
from served import (BlobInsufficientLength, Closed, Damaged, LogRequest, NoFrame, NoSegment, ReadOnly, Refusal, ServedLog,
                    SystemFailed, Unlisted, Unmarked, Where, WriterGone, WrongFields, batch)
from statuses import contents, put

SMALL = "--segment-size=300"
MOST = 65535
PAGE = os.path.join(os.path.dirname(os.path.abspath(__file__)), "..", "docs", "PROTOCOL.md")
OFFER = b"\x02\x02\x01\x02"
GREATEST = 2 ** 64 - 1

# The requests, and the statuses of some refusals.
APPEND, SYNC, SIZE, READ, NEXT, CLOSE, APPEND_RECORDS, APPEND_RECORDS_SYNC, SYNC_SIZE, FLUSH, DROP_BEFORE, WHERE, \
    NEXT_MANY, NTH, PASS_DAMAGE = LogRequest
AT_END, CLOSED, READ_ONLY, NO_RECORDS = (it.status for it in (BlobInsufficientLength, WriterGone, ReadOnly, WrongFields))
NO_SEGMENT, DAMAGED, SYSTEM = NoSegment.status, Damaged.status, SystemFailed.status
UNLISTED, NO_FRAME, UNMARKED = Unlisted.status, NoFrame.status, Unmarked.status


class Session(ServedLog):
    """A log that is served in a version; what it says on standard error is kept."""

    def __init__(self, program, folder, *options, version=2, limit=None):
        self.limit = limit
        super().__init__(program, folder, *options, version=None if version == 2 else version)

    def start_process(self, command):
        if self.limit is None:
            return super().start_process(command)
        return subprocess.Popen(command, stdin=subprocess.PIPE, stdout=subprocess.PIPE, stderr=subprocess.PIPE,
                                preexec_fn=self.limit)

    def end(self):
        """Closes it, and answers its exit status and what it said."""
        self.close()
        return self.exit_status, self.said

    def refusal(self, kind, *numbers, data=b""):
        """The refusal of a request: its status, and in version 2 what to do next, and how much was taken."""
        try:
            self.request(kind, *numbers, data=data)
        except Refusal as refused:
            return refused
        raise SystemExit(f"NOT SO: the request of kind {kind} is refused")

    def status(self, kind, *numbers, data=b""):
        return self.refusal(kind, *numbers, data=data).status


def expect(holds, what):
    """Ends the script where it doesn't hold, and else says it."""
    if not holds:
        raise SystemExit(f"NOT SO: {what}")
    print(what)


def play(program, *words, given=b"", **options):
    """The exit status of a command, its output, and what it said on standard error."""
    ended = subprocess.run([program, *words], input=given, capture_output=True, timeout=120, check=False, **options)
    return ended.returncode, ended.stdout, ended.stderr.decode(errors="replace")


def listed(folder, number):
    """The path of a segment's list."""
    return segment(folder, number).replace(".segment", ".digests")


def segment(folder, number):
    return os.path.join(folder, f"{number:020}.segment")


def image(folder):
    """Each file of a folder with its bytes."""
    return {name: contents(os.path.join(folder, name)) for name in sorted(os.listdir(folder))}


def some(number):
    """A record of about a hundred bytes."""
    return f"record {number} ".encode() * 8


def a_log(program, folder, count=20):
    """A log of so many records, which fill several segments, and their places."""
    log = Session(program, folder, SMALL)
    places = log.append_many([some(number) for number in range(count)], sync=True)
    log.end()
    return places


def version_one(program, folder):
    log = Session(program, folder, SMALL, version=1)
    expect(log.recovered == 0, "a new log has no record, says the greeting")
    places = [log.append(some(number)) for number in range(20)]
    expect(places == sorted(set(places)) and places[0] == (0, 0) and places[-1][0] > 2,
           "appends answer places that go on, over several segments")
    expect(log.request(SYNC) == b"" and log.size() == 20, "a sync answers nothing, and size counts the records")
    expect(all(log.read_frame(place)[0] == some(number) for number, place in enumerate(places)),
           "each record is read at its place")
    ends = [log.read_frame(place)[1] for place in places]
    expect(all(end == after or after == (end[0] + 1, 0) for end, after in zip(ends, places[1:])),
           "a read tells where the next frame begins, or where the segment ends")
    expect(log.status(READ, *ends[-1]) == AT_END, "a read at the end of the log is refused with 6")
    expect(list(log.records()) == [(place, some(number)) for number, place in enumerate(places)],
           "next goes over all records, from the place 0, 0 on")
    expect(log.status(NEXT, *ends[-1]) == AT_END, "next at the end of the log is refused with 6")
    expect(log.status(APPEND, data=bytes(MOST + 1)) == NO_RECORDS and log.size() == 20,
           "a record of 65,536 bytes is refused with 23, and not appended")
    place = log.append(bytes(MOST))
    expect(log.read_frame(place)[0] == bytes(MOST) and log.read_frame(log.append(b""))[0] == b"",
           "a record of 65,535 bytes is appended, and so is one of none")
    log.drop_before(2)
    expect(not os.path.exists(segment(folder, 0)) and log.status(READ, 0, 0) == NO_SEGMENT
           and log.status(NEXT, 1, 0) == NO_SEGMENT,
           "of a dropped segment the file is gone, and reads are refused with 38")
    expect(next(log.records())[0] == (2, 0), "next from 0, 0 on begins at the first segment that is left")
    expect(log.status(DROP_BEFORE, 10 ** 6) == NO_SEGMENT,
           "a drop before a segment that isn't there yet is refused with 38")
    expect(log.end() == (0, ""), "a close ends it with status 0")
    log = Session(program, folder, SMALL, version=1)
    expect(log.recovered == sum(at[0] >= 2 for at in places) + 1,
           "what was committed comes back, by a sync or a rotation; a close commits nothing")
    expect(log.end() == (0, ""), "and it ends well")


def version_two(program, folder):
    log = Session(program, folder, SMALL)
    expect(log.recovered == 0 and log.hello[:4] == (2, False, 0, 4084) and log.hello[4:8]
           == (4294967294, 4294967294, MOST, 268435455) and log.hello[8:12] == (0, 0, "crc32c", ""),
           "the hello has the fields of a log")
    records = [some(number) for number in range(12)] + [b""]
    places = list(struct.iter_unpack("<QQ", log.request(APPEND_RECORDS, data=batch(records))))
    expect([log.read_frame(place)[0] for place in places] == records, "append_records answers the place of each record")
    more = list(struct.iter_unpack("<QQ", log.request(APPEND_RECORDS_SYNC, data=batch([b"one", b"two"]))))
    expect([log.read_frame(place)[0] for place in more] == [b"one", b"two"], "so does append_records_sync")
    expect(log.request(APPEND_RECORDS, data=batch([])) == b"", "there may be no record")
    expect(struct.unpack("<Q", log.request(SYNC_SIZE)) == (15,), "sync_size tells the number of records")
    expect(log.request(FLUSH) == b"" and log.request(SYNC) == b"" and log.size() == 15,
           "flush, sync and size are as they were")
    wrong = {"no count": b"\1\0\0", "a length that is missing": struct.pack("<II", 2, 0),
             "too few bytes": batch([b"abc"])[:-1], "too many bytes": batch([b"abc"]) + b"d",
             "a record that is too long": batch([b"first", bytes(MOST + 1)])}
    for what, fields in wrong.items():
        for kind in (APPEND_RECORDS, APPEND_RECORDS_SYNC):
            refused = log.refusal(kind, data=fields)
            expect((refused.status, refused.next, refused.taken, refused.errno, refused.words)
                   == (NO_RECORDS, 0, 0, 0, "") and log.size() == 15,
                   f"{what} is refused with 23, and nothing is appended")
    refused = log.refusal(APPEND, data=bytes(MOST + 1))
    expect((refused.status, refused.next) == (NO_RECORDS, 0), "a refusal tells the client to ask for something else")
    expect(log.refusal(READ, 999, 0).status == NO_SEGMENT and log.refusal(READ, 0, 10 ** 9).status == AT_END,
           "so do those of places that aren't there")
    log.drop_before(1)
    expect(log.status(READ, 0, 0) == NO_SEGMENT and next(log.records())[0] == (1, 0), "a drop is as in version 1")
    expect(tuple(log.hello.kinds) == (1, 2, 5, 6, 7, 16, 17, 18, 21, 25, 27, 28, 29, 30, 31), "the hello lists the kinds of requests")
    expect(log.end() == (0, ""), "a close ends it with status 0")


def wheres(program, folder):
    """What where answers, and the command of that name."""
    log = Session(program, folder, SMALL)
    expect(log.where() == Where(0, 0, (0, 0), 0, {}), "where says that a new log begins and ends at 0, 0")
    places = log.append_many([some(number) for number in range(18)], sync=True)
    last, ends = places[-1][0], [log.read_frame(place)[1] for place in places]
    closed = {number: Closed(sum(place[0] == number for place in places),
                             max(end for at, end in ends if at == number), False) for number in range(last)}
    inside = sum(place[0] == last for place in places)
    whole = Where(0, last, ends[-1], inside, closed)
    expect(log.where() == whole, "where says where a log begins and ends, and what each closed segment has")
    expect(log.status(READ, *log.where().end) == AT_END and log.append(b"more") == whole.end,
           "the next append puts its record at the end")
    inside, end = inside + 1, (last, whole.end[1] + 7 + 4)
    for start, stop in ((1, 3), (0, 1), (last - 1, last), (last - 1, GREATEST), (0, last), (1, last + 7)):
        wanted = {number: it for number, it in closed.items() if start <= number < stop}
        expect(log.where(start, stop) == Where(0, last, end, inside, wanted), f"of segments {start} to {stop} it says only these")
    for start, stop in ((0, 0), (2, 2), (3, 1), (last, GREATEST), (GREATEST, GREATEST), (GREATEST, 0)):
        expect(log.where(start, stop) == Where(0, last, end, inside, {}),
               f"there is no closed segment from {start} to before {stop}")
    log.drop_before(2)
    for number in (0, 1):
        del closed[number]
    expect(log.where() == Where(2, last, end, inside, closed) == log.where(0, last), "dropped segments aren't among them")
    log.request(SYNC)
    expect(log.end() == (0, ""), "and it ends well")
    told = json.loads(play(program, "where", "--json", folder)[1])
    expect((told["first"], told["last"], told["open"], told["records"])
           == (2, last, {"segment": last, "records": inside, "end": end[1]},
               inside + sum(it.records for it in closed.values()))
           and told["closed"] == [{"segment": number, "records": it.records, "content_bytes": it.bytes}
                                  for number, it in closed.items()], "so says pagedd where --json")
    lines = play(program, "where", folder)[1].decode().splitlines()
    expect(lines[0] == f"{folder} has a log: segments 2 to {last}" and len(lines) == last - 2 + 3
           and lines[-2] == f"segment {last}: open, {inside} records; it ends at offset {end[1]}"
           and lines[1] == f"segment 2: {closed[2].records} records, {closed[2].bytes} content bytes",
           "and pagedd where, in lines")
    some_of = json.loads(play(program, "where", "--json", "--from", "3", "--to", "4", folder)[1])
    expect([it["segment"] for it in some_of["closed"]] == [3], "with --from and --to these alone")
    expect(json.loads(play(program, "where", "--json", "--from", "9", "--to", "3", folder)[1])["closed"] == [],
           "and none where there is none")


def scans(program, folder):
    """Many records by one request."""
    log = Session(program, folder, SMALL)
    expect(log.status(NEXT_MANY, 0, 0, 100) == AT_END, "a log without records has none")
    records = [some(number) for number in range(20)] + [b""] * 3 + [bytes(MOST)]
    places = log.append_many(records, sync=True)
    pairs, end = list(zip(places, records)), log.where().end
    hello, log.hello = log.hello, log.hello._replace(kinds=b"")
    one_by_one, log.hello = list(log.records()), hello
    expect(list(log.records()) == pairs == one_by_one, "many at once are those that come one by one")
    size = [20 + len(data) for data in records]
    for most, count in ((0, 1), (1, 1), (size[0], 1), (size[0] + size[1] - 1, 1), (size[0] + size[1], 2),
                        (sum(size[:9]), 9), (sum(size[:23]), 23), (sum(size) - 1, 23), (sum(size), 24), (GREATEST, 24)):
        found, behind = log.next_many((0, 0), most)
        wanted = end if count == 24 else places[count]
        # (behind the last record of a segment that is its end, and not yet the next one's start)
        same = behind == wanted or wanted == (behind[0] + 1, 0)
        if found != pairs[:count] or not same or log.next_many(behind, 0)[0] != pairs[count:count + 1]:
            raise SystemExit(f"NOT SO: {most} bytes hold {count} records: {len(found)}, {behind}")
        print(f"{most} bytes of an answer hold {count} records, with 20 bytes for each, and one at least")
    expect(all(log.next_many(place, 30)[0] == pairs[number:number + 1] for number, place in enumerate(places[:20])),
           "it begins at any place")
    expect(log.status(NEXT_MANY, *end, GREATEST) == AT_END, "at the end of the log it is refused with 6")
    expect([log.status(NEXT_MANY, number, 0, 100) for number in (end[0] + 1, GREATEST)] == [NO_SEGMENT] * 2
           and log.status(NEXT_MANY, end[0], GREATEST, 100) == AT_END,
           "from a segment that isn't there it is refused with 38, and behind the end with 6")
    log.drop_before(1)
    expect(log.status(NEXT_MANY, 0, 7, 100) == NO_SEGMENT and log.next_many((0, 0))[0][0][0] == (1, 0),
           "from a dropped segment it is refused with 38, and from 0, 0 on it begins at the first that is left")
    many = [bytes(MOST)] * 300
    log.append_many(many, sync=True)
    found, behind = log.next_many(end, GREATEST)
    expect(sum(20 + len(data) for _, data in found) <= 1 << 24 < sum(20 + len(data) for _, data in found) + 20 + MOST,
           "however many bytes are asked for, the records of an answer have 16 MiB at most")
    rest = log.next_many(behind, GREATEST)[0]
    expect([data for _, data in found + rest] == many, "and the next request goes on behind them")
    log.end()
    put(segment(folder, 3), flipped(contents(segment(folder, 3)), 10))
    log = Session(program, folder, SMALL)
    before = [pair for pair in pairs if 1 <= pair[0][0] < 3]
    found, behind = log.next_many((0, 0), GREATEST)
    expect(found == before and log.status(NEXT_MANY, *behind, GREATEST) == DAMAGED,
           "records before a damaged page come, and the next request is refused with 39")
    expect(log.next_many((4, 0), 0)[0] == [pair for pair in pairs if pair[0][0] == 4][:1], "later segments are read")
    log.end()


def reads_once(program, folder):
    """An opening reads each file once, as the system counts bytes."""
    if not os.path.exists("/proc/self/io"):
        print("how much an opening reads isn't told by this system")
        return
    log = Session(program, folder, "--segment-size=3000000")
    log.append_many([bytes(MOST)] * 100, sync=True)
    log.end()
    length = os.path.getsize(segment(folder, log_end(program, folder)))
    for options in ([], ["--read-only"]):
        for _ in range(2):
            log = Session(program, folder, *options)
            with open(f"/proc/{log.process_id}/io", encoding="ascii") as told:
                count = int(told.readline().split()[1])
            expect(length <= count < 1.1 * length + (1 << 16) and log.end() == (0, ""),
                   f"an opening of {length} bytes reads {count}")


def log_end(program, folder):
    """The number of a log's open segment."""
    return json.loads(play(program, "where", "--json", folder)[1])["last"]


def wrong_frames(program, folder):
    shutil.rmtree(folder, ignore_errors=True)
    kinds = {1: (1, 2, 5, 6, 7, 16, 27), 2: (1, 2, 5, 6, 7, 16, 17, 18, 21, 25, 27, 28, 29, 30, 31)}
    for version, begun in ((1, b"\x01"), (2, OFFER)):
        hello = len(play(program, "serve-log", folder, given=begun)[1])
        for kind in range(256):
            if kind in kinds[version]:
                continue
            status, out, said = play(program, "serve-log", folder, given=begun + struct.pack("<IB", 1, kind))
            told = b"" if version == 1 else struct.pack("<IBBQQ", 18, 34, 2, 0, 0)
            if (status, out[hello:], said) != (2, told, f"pagedd: request 1: there is no kind {kind}\n"):
                raise SystemExit(f"NOT SO: kind {kind} of version {version} is refused: {status} {out} {said}")
        print(f"each kind of version {version} that there isn't ends it with status 2")
        frames = {33: b"\0\0\0\0", 35: struct.pack("<IBB", 2, SYNC, 0), 32: struct.pack("<IB", 17, READ) + b"\0"}
        frames = list(frames.items()) + [(35, struct.pack("<IBQ", 9, NEXT, 0)), (35, struct.pack("<IBB", 2, CLOSE, 0)),
                                         (32, b"\5\0"), (32, b"\5\0\0\0"), (32, struct.pack("<IB", 4, APPEND) + b"ab"),
                                         (32, struct.pack("<IB", 100000, APPEND) + b"ab"),
                                         (32, struct.pack("<IBQ", 9, DROP_BEFORE, 0)[:-1]),
                                         (35, struct.pack("<IB", 1, DROP_BEFORE))]
        for told, frame in frames:
            good = struct.pack("<IB", 1, SIZE)
            status, out, said = play(program, "serve-log", folder, given=begun + good + frame)
            answer = b"" if version == 1 else struct.pack("<IBBQQ", 18, told, 2, 0, 0)
            if status != 2 or out[hello + 13:] != answer or not said.startswith("pagedd: request 2: "):
                raise SystemExit(f"NOT SO: {frame} is no request of version {version}: {status} {out} {said}")
        if version == 2:
            lengths = [struct.pack("<IBQ", 9, WHERE, 0), struct.pack("<IBQQ", 17, NEXT_MANY, 0, 0)]
            for frame in lengths:
                status, out, _ = play(program, "serve-log", folder, given=begun + frame)
                expect((status, out[hello:]) == (2, struct.pack("<IBBQQ", 18, 35, 2, 0, 0)),
                       f"a request of kind {frame[4]} has all its fields")
        print(f"frames that are none end version {version} with status 2, after what came before was answered")
    greeting = b"\x01" + struct.pack("<IBQ", 9, 0, 0)
    expect(play(program, "serve-log", folder, given=b"\x03")[:2] == (2, greeting),
           "another first byte ends it with status 2")
    expect(play(program, "serve-log", folder, given=b"\x02\x02\x07\x08")[:2]
           == (2, greeting + b"\3\0\0\0\x18\1\2"), "an offer of versions that aren't known is answered 24")
    status, out, _ = play(program, "serve-log", folder, given=b"\x02\x05\x01")
    expect((status, out[len(greeting):]) == (2, struct.pack("<IBBQQ", 18, 32, 2, 0, 0)), "a cut offer is answered 32")
    expect(play(program, "serve-log", folder, given=b"\x02\x01\x01")[:2] == (0, greeting + b"\2\0\0\0\0\1"),
           "an offer of version 1 alone is answered with it")
    expect(play(program, "serve-log", folder)[:2] == (0, greeting), "no input ends it with status 0")


def in_order(program, folder):
    log = Session(program, folder, SMALL)
    log.send(struct.pack("<IB", 1, SIZE) + b"\1\0")
    expect(struct.unpack("<Q", log.answer()) == (log.recovered,),
           "an answer is out before the rest of the next request has come")
    log.send(b"\0\0\x05" + struct.pack("<IB", 1, SIZE) * 5000)
    expect(all(log.answer() for _ in range(5001)), "many requests are answered in order")
    second = play(program, "serve-log", folder)
    expect(second[0] == 1 and second[1] == b"", f"a second program ends with status 1: {second[2].strip()}")
    log.end()


def alone(program, folder):
    shutil.rmtree(folder, ignore_errors=True)
    status, out, said = play(program, "serve-log", "--read-only", folder)
    expect(status == 1 and out == b"" and not os.path.exists(folder), f"--read-only makes no folder: {said.strip()}")
    os.mkdir(folder)
    status, out, said = play(program, "serve-log", "--read-only", folder)
    expect(status == 1 and out == b"" and not os.listdir(folder), f"nor a log: {said.strip()}")
    expect_told(program, folder, 1, said)
    places = a_log(program, folder)
    before = image(folder)
    for version in (1, 2):
        log = Session(program, folder, "--read-only", version=version)
        changes = [(APPEND, b"a"), (APPEND, bytes(MOST + 1)), (SYNC, b""), (DROP_BEFORE, bytes(8))]
        if version == 2:
            changes += [(APPEND_RECORDS, b"no"), (APPEND_RECORDS_SYNC, batch([b"a"])), (SYNC_SIZE, b"")]
        expect(all(log.status(kind, data=fields) == READ_ONLY for kind, fields in changes),
               f"for reading alone each change of version {version} is refused with 22")
        expect([data for _, data in log.records()] == [some(number) for number in range(20)]
               and log.read_frame(places[3])[0] == some(3) and log.size() == 20, "and all records are read")
        expect(log.end() == (0, ""), "and it ends well")
    expect(image(folder) == before, "and no file changed")
    status, out, _ = play(program, "serve-log", "--read-only", folder, given=OFFER)
    expect(status == 0 and out[14 + 4:14 + 7] == b"\0\2\1", "the hello says so")


def flipped(data, at):
    return data[:at] + bytes([data[at] ^ 1]) + data[at + 1:]


def expect_told(program, folder, status, said):
    """Check tells why the log can't be opened, in the words that a refused serve-log said on standard error; there too
    where the status is 1."""
    line = said if status == 1 else ""
    why = said.split("\n")[0].removeprefix(f"pagedd: {folder}: ").split("; nothing was changed")[0]
    ended, out, also = play(program, "check", folder)
    if (ended, also) != (status, line) or out.decode().split("\n")[0] != f"{folder}: the log can't be opened: {why}":
        raise SystemExit(f"NOT SO: check tells that it can't be opened, since {why}: {ended} {out} {also}")
    ended, out, also = play(program, "check", "--json", folder)
    told = json.loads(out)
    if (ended, also, told["error"]) != (status, line, why) or set(told) != {"file", "page_size", "checksum", "error"}:
        raise SystemExit(f"NOT SO: check --json tells that it can't be opened, since {why}: {ended} {out} {also}")
    print("and check says so in its own output")


def unread(program, folder, back, places):
    """What stands behind the content in a closed segment's file isn't read. Of its list nothing is needed: a list that
    isn't what it was is told by check and map, and reads go on."""
    back()
    whole, held = contents(segment(folder, 1)), contents(listed(folder, 1))
    last = places[-1][0]
    cases = {"a segment is cut behind its content": (segment(folder, 1), whole[:-1], "whole"),
             "a segment is grown": (segment(folder, 1), whole + b"\0", "whole"),
             "a list is missing": (listed(folder, 1), None, "missing"), "a list is emptied": (listed(folder, 1), b"", "wrong"),
             "a list is cut": (listed(folder, 1), held[:63], "wrong"),
             "the marks behind a list are missing": (listed(folder, 1), held[:64], "unmarked"),
             "the marks behind a list are cut": (listed(folder, 1), held[:-1], "unmarked"),
             "one bit of the marks is changed": (listed(folder, 1), flipped(held, 66), "unmarked"),
             "one bit of the marks' top is changed": (listed(folder, 1), flipped(held, len(held) - 1), "unmarked"),
             "a list is grown": (listed(folder, 1), held + b"\0", "whole"),
             "one bit of a list is changed": (listed(folder, 1), flipped(held, 3), "wrong"),
             "one bit of a list's top is changed": (listed(folder, 1), flipped(held, 61), "wrong"),
             "a list is that of another segment": (listed(folder, 1), contents(listed(folder, 0)), "wrong")}
    for what, (path, data, state) in cases.items():
        back()
        os.remove(path)
        if data is not None:
            put(path, data)
        before = image(folder)
        log = Session(program, folder, "--read-only")
        found = [log.read_frame(place)[0] for place in places]
        status, out, _ = play(program, "check", folder)
        told = json.loads(play(program, "check", "--json", folder)[1])["closed"][1]
        mapped = play(program, "map", folder)[1].decode().split()[-1]
        if (found != [some(number) for number in range(len(places))] or log.end() != (0, "") or status != 0
                or (told["state"], told["list"], told["wrong_pages"]) != ("whole", state, [])
                or (f"segment 1: its list is {state}" in out.decode()) != (state in ("missing", "wrong"))
                or ("segment 1: its marks are wrong" in out.decode()) != (state == "unmarked")
                or mapped != "#" + ("#" if state == "whole" else "~") + "#" * (last - 2) + "+" or image(folder) != before):
            raise SystemExit(f"NOT SO: where {what}, all is read: {status} {out} {told} {mapped}")
        print(f"where {what}, all is read, and check and map tell it")


def marks_at(count, size):
    """Where in its list's file the marks of a segment of so many pages begin: behind the list and the top."""
    return 32 * (count + -(-32 * count // size))


def scan(log, place=(0, 0)):
    """All records that are read, and what is passed where a page is damaged."""
    found, passed = [], []
    while True:
        try:
            got = log.next(place)
            if got is None:
                return found, passed
            found.append(got[0])
            place = got[2]
        except Refusal as refusal:
            if refusal.status != DAMAGED:
                raise
            passed.append(log.pass_damage(place))
            place = passed[-1].place


def marks(program, folder):
    """A place in the midst of a frame, the nth record of a segment, and what goes on behind damage, by the marks."""
    shutil.rmtree(folder, ignore_errors=True)
    small = ("--page-size=100", "--segment-size=2000")
    log = Session(program, folder, *small)
    places = log.append_many([some(number) for number in range(60)], sync=True)
    last = places[-1][0]
    by_segment = {number: [place for place in places if place[0] == number] for number in range(last + 1)}
    expect(all([log.nth(number, at) for at in range(len(held) + 2)] == held + [None, None]
               for number, held in by_segment.items()), "nth answers where each record of a segment stands, also of the open one")
    refused = [log.refusal(NTH, last, GREATEST), log.refusal(NTH, last + 1, 0)]
    expect([(it.status, it.next) for it in refused] == [(AT_END, 0), (NO_SEGMENT, 0)], "or that there is none")
    begins = {offset for number, offset in places if number == 0}
    ends = by_segment[0][-1][1] + len(some(len(begins) - 1)) + 7
    told = {kind: {log.refusal(kind, 0, offset).status for offset in range(ends) if offset not in begins}
            for kind in (READ, NEXT)}
    expect(told == {READ: {NO_FRAME}, NEXT: {NO_FRAME}} and log.refusal(READ, 0, 1).next == 0,
           "each place in the midst of a frame of a closed segment is refused with 44")
    expect(log.pass_damage(places[-1]) == (places[-1], 0, 0) and log.status(PASS_DAMAGE, last + 1, 0) == NO_SEGMENT,
           "in the open segment nothing is passed")
    log.end()
    path, whole, held = segment(folder, 0), contents(segment(folder, 0)), contents(listed(folder, 0))
    count = -(-ends // 100)
    for bad in ({5}, {0}, {3, 4}, {count - 1}, set(range(count))):
        data = bytearray(whole)
        for page in bad:
            data[page * 112 + 2] ^= 4
        put(path, data)
        touched = [place for place, after in zip(by_segment[0], by_segment[0][1:] + [(0, ends)])
                   if bad & set(range(place[1] // 100, (after[1] - 1) // 100 + 1))]
        log = Session(program, folder, *small)
        found, passed = scan(log)
        lost = sum(it.records or 0 for it in passed)
        by_many = []
        if [place for place, _ in log.records(passed=lambda place, behind: by_many.append(behind))] != found or by_many[-1:] \
                != passed[-1:]:
            raise SystemExit(f"NOT SO: so does a scan of many records: {by_many}")
        if found != [place for place in places if place not in touched] or log.end() != (0, ""):
            raise SystemExit(f"NOT SO: behind the damaged pages {sorted(bad)} it goes on: {found} {passed}")
        expect(lost == len(touched) or count - 1 in bad, f"by pass_damage all records are read but those in pages {sorted(bad)}, "
               f"which are {len(touched)}, and {lost} are told")
        status, out, said = play(program, "cat", "--page-size=100", folder)
        kept = [some(number) for number, place in enumerate(places) if place not in touched]
        expect(status == 3 and out == b"".join(it + b"\n" for it in kept) and "left out" in said, "cat writes the same")
        out = folder + "-out"
        shutil.rmtree(out, ignore_errors=True)
        status, told, said = play(program, "salvage", "--json", "--page-size=100", folder, out)
        losses = json.loads(told)["losses"]
        missing = 60 - json.loads(told)["records"]
        expect(status == 3 and sum(it["lost"] for it in losses) == missing and all(it["segment"] == 0 for it in losses)
               and ("are lost" in said) == bool(losses), f"salvage takes all but {missing}, and tells how many are lost where")
    put(path, whole)
    at = marks_at(count, 100)
    for what, data in (("changed", flipped(held, at)), ("cut", held[:at + 3]), ("of another segment", held[:at] + bytes(
            len(held) - at)), ("without their top", held[:at + 8 * count])):
        put(listed(folder, 0), data)
        status, out, _ = play(program, "check", "--page-size=100", folder)
        told = json.loads(play(program, "check", "--json", "--page-size=100", folder)[1])["closed"][0]
        expect((status, told["state"], told["list"]) == (0, "whole", "unmarked") and b"segment 0: its marks are wrong" in out
               and play(program, "map", "--page-size=100", folder)[1].split()[-1][:2] == b"~#",
               f"check and map tell marks that are {what}")
        log = Session(program, folder, *small)
        expect(list(log.records()) == [(place, some(number)) for number, place in enumerate(places)]
               and [log.nth(0, at) for at in range(len(by_segment[0]) + 1)] == by_segment[0] + [None]
               and log.refusal(PASS_DAMAGE, 0, 0).next == 0 and log.end() == (0, ""),
               "reads and nth go on without them, and a pass_damage is refused")
        put(path, flipped(whole, 300))
        told = json.loads(play(program, "check", "--json", "--page-size=100", folder)[1])["closed"][0]
        expect((told["state"], told["list"]) == ("damaged", "unmarked"), "check tells it of a damaged segment too")
        put(path, whole)
        out = folder + "-copy"
        shutil.rmtree(out, ignore_errors=True)
        expect(play(program, "copy", "--page-size=100", folder, out)[0] == 0 and contents(listed(out, 0)) == held,
               "a copy has them as they were")
    put(listed(folder, 0), held)
    printed = [play(program, "nth", "--page-size=100", folder, str(number), str(at)) for number, at in
               ((0, 3), (last, 1), (0, len(by_segment[0])), (last + 1, 0))]
    expect(printed == [(0, f"segment {number}: record {at} stands at offset {by_segment[number][at][1]}\n".encode(), "")
                       for number, at in ((0, 3), (last, 1))]
           + [(1, b"", f"pagedd: {folder}: segment 0 has no record {len(by_segment[0])}\n"),
              (1, b"", f"pagedd: {folder}: there is no segment {last + 1}\n")], "pagedd nth prints where a record stands")
    put(path, flipped(whole, 3))
    ended = play(program, "nth", "--page-size=100", folder, "0", "1")
    expect(ended[:2] == (3, b"") and "segment 0 doesn't hold" in ended[2], "or that what it reads for that is damaged")
    put(path, whole)
    log = Session(program, folder, *small, version=1)
    expect(log.status(READ, 0, 1) == NO_FRAME and log.end() == (0, ""), "version 1 has the same status")


def unmarked(program, folder):
    """A log whose segments have no marks, as versions 0.11 and 0.12 closed them."""
    shutil.rmtree(folder, ignore_errors=True)
    places = a_log(program, folder)
    last = places[-1][0]
    manifest, text = entry(struct.pack(">BQH", 0, 0, 4084)), reader.read(contents(os.path.join(folder, "manifest")), 4084,
                                                                         reader.crc32c)[1]
    for number in range(last):
        at = 18 + 89 * number + 2
        manifest += entry(b"\2" + text[at + 1:at + 50])
        held = contents(listed(folder, number))
        put(listed(folder, number), held[:64])
    page = manifest.ljust(4084, b"\0") + struct.pack(">HIHI", len(manifest), reader.crc32c(manifest), 0, 0)
    put(os.path.join(folder, "manifest"), page)
    os.remove(os.path.join(folder, "manifest.copy"))
    before = image(folder)
    told = json.loads(play(program, "check", "--json", folder)[1])["closed"]
    expect({(it["state"], it["list"]) for it in told} == {("whole", "whole")} and play(program, "map", folder)[1].split()[-1]
           == b"#" * last + b"+", "segments without marks are whole")
    log = Session(program, folder, "--read-only")
    expect(list(log.records()) == [(place, some(number)) for number, place in enumerate(places)]
           and {log.status(kind, 0, 0) for kind in (NTH, PASS_DAMAGE)} == {UNMARKED} and log.read_frame((0, 1))[0] is None
           and log.end() == (0, "") and image(folder) == before,
           "they are read, also in the midst of a frame; nth and pass_damage are refused with 45")
    status, out, said = play(program, "nth", folder, "0", "0")
    expect((status, out) == (1, b"") and "segment 0 has no marks" in said, f"nor does pagedd nth find one: {said.strip()}")
    log = Session(program, folder, SMALL)
    more = log.append_many([some(number) for number in range(20, 40)], sync=True)
    expect([data for _, data in log.records()] == [some(number) for number in range(40)]
           and log.nth(last, 0) == (last, 0) and log.status(READ, last, 1) == NO_FRAME and log.end() == (0, ""),
           "it is appended to, and segments that are closed from then on have marks")
    out = folder + "-out"
    shutil.rmtree(out, ignore_errors=True)
    status, now, copied = play(program, "copy", folder, out)[0], image(folder), image(out)
    expect((status, play(program, "check", out)[0]) == (0, 0) and all(
        copied[name] == now[name] for name in now if name[:20].isdigit() and int(name[:20]) < more[-1][0]), "it is copied as it is")
    put(segment(folder, 1), flipped(contents(segment(folder, 1)), 4))
    status, out, said = play(program, "cat", folder)
    expect((status, out) == (3, b"".join(some(number) + b"\n" for number, place in enumerate(places + more) if place[0] != 1))
           and "its other records are left out" in said, "at a damaged page cat leaves out what follows in that segment")
    log = Session(program, folder, SMALL)
    log.drop_before(last + 1)
    expect(log.end() == (0, "") and not {name for name in image(folder) if name[:20].isdigit() and int(name[:20]) <= last},
           "segments of both kinds are dropped")


def pages(program, folder):
    """Check names the pages of a damaged segment, as far as its list tells them; reads of others go on."""
    shutil.rmtree(folder, ignore_errors=True)
    small = ("--page-size=100", "--segment-size=2000")
    log = Session(program, folder, *small)
    places = log.append_many([some(number) for number in range(60)], sync=True)
    log.end()
    path, whole, held = segment(folder, 0), contents(segment(folder, 0)), contents(listed(folder, 0))
    size = json.loads(play(program, "check", "--json", "--page-size=100", folder)[1])["closed"][0]["content_bytes"]
    count = -(-size // 100)
    # The digests of pages 0 to 2 and a part of that of page 3 are in the list's first page.
    for bad, at, rows, unknown in (({3}, None, [[3, 3]], 0), ({0, 1, 2, 7, count - 1}, None, [[0, 2], [7, 7], [count - 1] * 2], 0),
                                   ({5}, 5, [[5, 5]], 4), ({5}, marks_at(count, 100) - 1, [], count)):
        data = bytearray(whole)
        for page in bad:
            data[page * 112 + 2] ^= 4
        put(path, data)
        put(listed(folder, 0), held if at is None else flipped(held, at))
        status, out, _ = play(program, "check", "--page-size=100", folder)
        told = json.loads(play(program, "check", "--json", "--page-size=100", folder)[1])["closed"][0]
        if (status, told["state"], told["wrong_pages"], told["unknown_pages"]) != (3, "damaged", rows, unknown):
            raise SystemExit(f"NOT SO: check names the wrong pages {sorted(bad)}: {status} {told}")
        words = ", ".join(f"{first} to {last}" if first < last else str(first) for first, last in rows)
        expect(not rows or f"segment 0: wrong pages: {words}\n" in out.decode(),
               f"check names the wrong pages {sorted(bad)} of a segment, with {unknown} of which it knows nothing")
    put(listed(folder, 0), held)
    log = Session(program, folder, *small)
    for number, (at, offset) in enumerate(places):
        touches = range(offset // 100, (offset + len(some(number)) + 6) // 100 + 1)
        if at == 0 and 5 in touches:
            if log.status(READ, at, offset) != DAMAGED:
                raise SystemExit(f"NOT SO: record {number} is in a damaged page")
        elif log.read_frame((at, offset))[0] != some(number):
            raise SystemExit(f"NOT SO: record {number} is in no damaged page")
    expect(log.end() == (0, ""), "the records in that page are refused with 39, and all others are read")
    out = folder + "-out"
    status = play(program, "salvage", "--page-size=100", folder, out)[0]
    found = play(program, "cat", "--page-size=100", out)[1].split(b"\n")[:-1]
    expect(status == 3 and len(found) >= 58 and set(found) <= {some(number) for number in range(60)},
           "and salvage takes all but the one that was changed")


def digests(program, folder):
    """A log is opened with the digest that its segments were closed with, and is told which one that is."""
    other = ("--digest=poly61",)
    for made, wrong, name in (((), other, "sha512-256"), (other, (), "poly61")):
        shutil.rmtree(folder, ignore_errors=True)
        log = Session(program, folder, SMALL, *made)
        places = log.append_many([some(number) for number in range(20)], sync=True)
        log.end()
        before, out = image(folder), folder + "-out"
        for words in (["serve-log"], ["serve-log", "--read-only"], ["check"], ["cat"], ["map"], ["salvage"], ["copy"],
                      ["rebuild"]):
            shutil.rmtree(out, ignore_errors=True)
            ended = play(program, *words, *wrong, folder, *([out] if words[0] in ("salvage", "copy") else []))
            if ended[0] != 3 or f"take --digest {name}" not in ended[1].decode() + ended[2] or image(folder) != before:
                raise SystemExit(f"NOT SO: pagedd {words[0]} tells which digest to take: {ended}")
        print(f"each command tells that it needs --digest {name}, with status 3, and nothing changes")
        expect([play(program, words, *made, folder)[0] for words in ("check", "map", "cat", "rebuild")] == [0, 0, 0, 0],
               "with that all is whole")
        os.remove(os.path.join(folder, "manifest"))
        os.remove(os.path.join(folder, "manifest.copy"))
        os.remove(listed(folder, 2))
        status, told, _ = play(program, "rebuild", *made, folder)
        now, text = image(folder), [reader.read(it["manifest"], 4084, reader.crc32c)[1] for it in (before, image(folder))]
        expect(status == 0 and text[0] == text[1] and now.keys() == before.keys() - {"manifest.copy"}
               and all(now[name] == before[name] for name in now if name != "manifest"),
               f"rebuild makes the same manifest and list: {told.decode().strip()}")
        for words in ("copy", "salvage"):
            shutil.rmtree(out, ignore_errors=True)
            status = play(program, words, *made, folder, out)[0]
            log = Session(program, out, SMALL, *made)
            found = list(log.records())
            expect(status == 0 and [data for _, data in found] == [some(number) for number in range(20)]
                   and (words != "copy" or [place for place, _ in found] == places) and log.end() == (0, ""),
                   f"and {words} makes a log with the same records")
            expect(words != "copy" or {name: data for name, data in image(out).items() if name.endswith(".digests")}
                   == {name: data for name, data in before.items() if name.endswith(".digests")}, "with its lists")
    status, out, said = play(program, "check", "--digest=md5", folder)
    expect((status, out) == (1, b"") and "poly61" in said and "sha512-256" in said, "another name is refused, with the two")


def older_log(program, folder):
    """A log whose segments were closed by their whole files, as versions before 0.11 did it."""
    shutil.rmtree(folder, ignore_errors=True)
    places = a_log(program, folder)
    last = places[-1][0]
    manifest = entry(struct.pack(">BQH", 0, 0, 4084))
    for number in range(last):
        held = contents(segment(folder, number))
        count = sum(place[0] == number for place in places)
        manifest += entry(struct.pack(">BQQ", 1, count, len(held)) + hashlib.sha256(held).digest())
        os.remove(listed(folder, number))
    page = manifest.ljust(4084, b"\0") + struct.pack(">HIHI", len(manifest), reader.crc32c(manifest), 0, 0)
    put(os.path.join(folder, "manifest"), page)
    os.remove(os.path.join(folder, "manifest.copy"))
    before = image(folder)
    for options in ((), ("--digest=poly61",)):
        log = Session(program, folder, "--read-only", *options)
        expect(list(log.records()) == [(place, some(number)) for number, place in enumerate(places)]
               and log.end() == (0, "") and [play(program, words, *options, folder)[0] for words in ("check", "map", "cat")]
               == [0, 0, 0] and image(folder) == before, "a log of the form before is read, and is whole")
    told = json.loads(play(program, "check", "--json", folder)[1])["closed"]
    lengths = [len(before[os.path.basename(segment("", number))]) for number in range(last)]
    expect([(it["bytes"], it["state"]) for it in told] == [(length, "whole") for length in lengths],
           "check tells the bytes of its files")
    log = Session(program, folder, "--read-only")
    expect([(it.bytes, it.of_file) for it in log.where().closed.values()] == [(length, True) for length in lengths]
           and log.end() == (0, "") and [it["bytes"] for it in json.loads(play(program, "where", "--json", folder)[1])["closed"]]
           == lengths, "so does where, which says that they are those of files")
    log = Session(program, folder, SMALL)
    more = log.append_many([some(number) for number in range(20, 40)], sync=True)
    expect([data for _, data in log.records()] == [some(number) for number in range(40)] and log.end() == (0, ""),
           "it is appended to")
    there = {int(name[:20]) for name in image(folder) if name.endswith(".digests")}
    told = json.loads(play(program, "check", "--json", folder)[1])["closed"]
    expect(there == set(range(last, more[-1][0])) == {it["segment"] for it in told if "list" in it},
           "segments that are closed from then on have lists")
    out = folder + "-out"
    shutil.rmtree(out, ignore_errors=True)
    status, now, copied = play(program, "copy", folder, out)[0], image(folder), image(out)
    expect((status, play(program, "check", out)[0]) == (0, 0) and copied.keys() == now.keys()
           and all(copied[name] == now[name] for name in now if name[:20].isdigit() and int(name[:20]) < more[-1][0]),
           "it is copied, with these")
    put(segment(folder, 1), flipped(contents(segment(folder, 1)), 4090))
    status = play(program, "check", folder)[0]
    log = Session(program, folder, SMALL)
    expect((status, log.status(READ, 1, 0)) == (3, DAMAGED), "of its older segments each byte of the file counts")
    for first in (2, last + 1):
        log.drop_before(first)
    expect([place for place, _ in log.records()] == [place for place in places + more if place[0] > last]
           and log.end() == (0, "") and not {name for name in image(folder)
                                             if name[:20].isdigit() and int(name[:20]) <= last},
           "segments of both kinds are dropped, with their lists")


def entry(record):
    """A frame of the manifest."""
    return struct.pack(">H", len(record)) + record + struct.pack(">IB", reader.crc32c(record), 1)


def tampering(program, folder):
    shutil.rmtree(folder, ignore_errors=True)
    places = a_log(program, folder)
    last = places[-1][0]
    inside = [some(number) for number, place in enumerate(places) if place[0] != 1]
    good = image(folder)

    def back():
        shutil.rmtree(folder)
        os.mkdir(folder)
        for name, data in good.items():
            put(os.path.join(folder, name), data)

    whole = contents(segment(folder, 1))
    cases = {"one bit changed": flipped(whole, 100), "cut": whole[:100], "emptied": b"",
             "exchanged for another one": contents(segment(folder, 0)), "missing": None}
    for what, data in cases.items():
        back()
        os.remove(segment(folder, 1))
        if data is not None:
            put(segment(folder, 1), data)
        expected = DAMAGED if data is not None else SYSTEM
        for options in ([], ["--read-only"]):
            log = Session(program, folder, SMALL, *options)
            refused = [log.refusal(READ, 1, 0), log.refusal(NEXT, 1, 0)]
            first, second = [(it.status, it.next, it.errno) for it in refused]
            wanted = (DAMAGED, 0, 0) if data is not None else (SYSTEM, 1, 2)
            others = [log.read_frame(place)[0] for place in places if place[0] != 1]
            if (first, second) != (wanted, wanted) or others != inside or log.end() != (0, ""):
                raise SystemExit(f"NOT SO: a segment that is {what} is refused with {expected}: {first} {second}")
        state = "damaged" if data is not None else "missing"
        status, out, _ = play(program, "check", folder)
        told = json.loads(play(program, "check", "--json", folder)[1])
        states = {it["segment"]: it["state"] for it in told["closed"]}
        mapped = play(program, "map", folder)[1].decode().split()[-1]
        written = play(program, "cat", folder)
        if (status != 3 or f"segment 1: {sum(p[0] == 1 for p in places)} records" not in out.decode()
                or state not in out.decode() or states != {n: state if n == 1 else "whole" for n in range(last)}
                or mapped != "#" + ("!" if data is not None else "?") + "#" * (last - 2) + "+"
                or (written[0], written[1]) != (3, b"".join(it + b"\n" for it in inside))
                or not written[2].startswith(f"pagedd: {folder}: segment 1: ")):
            raise SystemExit(f"NOT SO: check, map and cat tell that it is {what}: {out} {told} {mapped} {written}")
        print(f"a closed segment that is {what}: its reads are refused with {expected}, check, map and cat tell it, "
              "and the others are read")
    unread(program, folder, back, places)
    back()
    expect(play(program, "check", folder)[0] == 0 and play(program, "cat", folder)[0] == 0
           and play(program, "map", "--long", folder)[0] == 0, "a whole log is told as such")
    refused = {
        "without its manifest": lambda: os.remove(os.path.join(folder, "manifest")),
        "whose manifest is empty": lambda: put(os.path.join(folder, "manifest"), b""),
        "whose manifest is damaged": lambda: put(os.path.join(folder, "manifest"), flipped(good["manifest"], 4)),
        "without its open segment": lambda: os.remove(segment(folder, last)),
        "with a segment after the open one": lambda: put(segment(folder, last + 3), b"bytes"),
    }
    for what, change in refused.items():
        back()
        change()
        before = image(folder)
        for options in ([], ["--read-only"]):
            status, out, said = play(program, "serve-log", *options, folder)
            if (status, out) != (3, b"") or image(folder) != before or not said.startswith(f"pagedd: {folder}: "):
                raise SystemExit(f"NOT SO: a log {what} is refused: {status} {out} {said}")
        looked = [play(program, command, folder)[0] for command in ("check", "map", "cat")]
        expect(looked == [3, 3, 3], f"a log {what} is refused with status 3, and nothing changes: {said.strip()}")
        expect_told(program, folder, 3, said)
    back()
    for options in (["--page-size=1012"], ["--checksum=add"]):
        status, out, said = play(program, "serve-log", *options, folder)
        expect((status, out) == (3, b"") and image(folder) == good and "--page-size 4084 --checksum crc32c" in said,
               f"with {options[0]} it is refused, and told how it was written")


def older_manifest(program, folder):
    shutil.rmtree(folder, ignore_errors=True)
    a_log(program, folder, 5)
    old = contents(os.path.join(folder, "manifest"))
    log = Session(program, folder, SMALL)
    log.append_many([some(number) for number in range(30)], sync=True)
    log.end()
    put(os.path.join(folder, "manifest"), old)
    status, out, said = play(program, "serve-log", folder)
    expect((status, out) == (3, b""), f"a manifest that is an older copy is refused with status 3: {said.strip()}")


def short_open(program, folder):
    """An open segment that has less than it had at the last opening is refused, except where a cut is asked for."""
    shutil.rmtree(folder, ignore_errors=True)
    log = Session(program, folder)
    log.append_many([bytes(3000)] * 4, sync=True)
    log.end()
    Session(program, folder).end()
    path, good = segment(folder, 0), image(folder)
    data = good[os.path.basename(path)]
    for what, left in (("lost its last page", data[:-4096]), ("has a bit flipped", flipped(data, 5000))):
        put(path, left)
        before = image(folder)
        status, out, said = play(program, "serve-log", folder)
        expect((status, out) == (3, b"") and image(folder) == before and "segment 0 has fewer bytes" in said,
               f"an open segment that {what} is refused with status 3: {said.strip()}")
        looked = [play(program, command, folder) for command in ("check", "map", "cat")]
        expect([it[0] for it in looked] == [3, 3, 3] and all("has fewer bytes" in it[2] for it in looked),
               "check, map and cat say so, with status 3")
        status, out, said = play(program, "serve-log", "--read-only", folder)
        expect(status == 0 and "has fewer bytes" in said and image(folder) == before, "served for reading alone it is told")
        status, out, said = play(program, "serve-log", "--cut", folder)
        expect(status == 0 and "has fewer bytes" in said, "with --cut the log goes on, and a line says that there is less")
        expect(play(program, "check", folder)[0] == 0, "then it is whole")
        for name in image(folder):
            os.remove(os.path.join(folder, name))
        for name, held in good.items():
            put(os.path.join(folder, name), held)
    shutil.copytree(folder, folder + "-old")
    log = Session(program, folder, "--segment-size=1")
    log.append_many([b"a", b"b"], sync=True)
    log.end()
    kept = image(folder)["manifest.copy"]
    shutil.rmtree(folder)
    shutil.move(folder + "-old", folder)
    put(os.path.join(folder, "manifest.copy"), kept)
    status, out, said = play(program, "serve-log", folder)
    expect((status, out) == (3, b"") and "older than its copy" in said,
           f"a log whose manifest's copy knows a later segment is refused: {said.strip()}")
    copy = os.path.join(folder, "manifest.copy")
    os.remove(copy)
    os.mkdir(copy)
    expect(play(program, "serve-log", folder)[:2] == (1, b""), "nor is one opened whose manifest's copy can't be read")
    os.rmdir(copy)
    expect(play(program, "serve-log", folder)[0] == 0, "without that copy it is opened")


def torn(program, folder):
    """What an opening cuts of the open segment is said, and set aside first."""
    shutil.rmtree(folder, ignore_errors=True)
    log = Session(program, folder)
    log.append_many([bytes(3000), bytes(3000)], sync=True)
    log.end()
    path = segment(folder, 0)
    whole = contents(path)
    put(path, whole[:5000] + bytes([whole[5000] ^ 1]) + whole[5001:])
    before = contents(path)
    status, out, _ = play(program, "check", folder)
    expect(status == 3 and b"not whole" in out, "check tells an open segment that is damaged")
    # The second record begins in page 0, so from there on all goes.
    goes = len(before) - (3000 + 7)
    log = Session(program, folder, "--read-only")
    expect((log.recovered, log.hello.cut) == (1, goes) and contents(path) == before and log.hello.copy == "",
           "for reading alone it is served as a recovery would leave it, and the hello says how much is hidden")
    expect("aren't served" in log.end()[1], "and so does standard error")
    log = Session(program, folder)
    expect((log.recovered, log.hello.cut, log.hello.given_up) == (1, goes, goes) and contents(log.hello.copy) == before,
           "an opening cuts it, and sets aside first what it cuts, from the page on in which a record begins")
    expect(log.read_frame((0, 0))[0] == bytes(3000) and log.hello.copy in log.end()[1], "what was before it is read")
    # The file ends with a whole page, in which a record began: no page tells that something is missing.
    put(path, whole[:4096])
    status, out, _ = play(program, "check", folder)
    expect(status == 3 and b"not whole" in out, "check tells a record whose last page is lost")
    log = Session(program, folder)
    expect((log.recovered, log.hello.cut) == (1, 4096 - (3000 + 7)) and contents(log.hello.copy) == whole[:4096]
           and log.end()[0] == 0, "an opening cuts what is left of it, after a copy was made")


def begun(program, folder):
    """What a crash may leave of a segment that follows a closed one: nothing in it was committed yet."""
    left = {"zeros": bytes(4096), "a part of a page": some(1), "a torn page": some(1).ljust(4096, b"\1")}
    for what, data in left.items():
        shutil.rmtree(folder, ignore_errors=True)
        places = a_log(program, folder)
        last = places[-1][0]
        inside = sum(place[0] < last for place in places)
        put(segment(folder, last), data)
        log = Session(program, folder, SMALL)
        copy = b"" if not any(data) else data
        hello = log.hello
        expect((log.recovered, hello.cut, contents(hello.copy) if hello.copy else b"") == (inside, len(data), copy),
               f"an open segment with {what} alone is cut" + (", after a copy was made" if copy else ""))
        expect(log.append(b"more") == (last, 0) and log.end()[0] == 0, "and the log goes on")
    shutil.rmtree(folder, ignore_errors=True)
    os.mkdir(folder)
    put(os.path.join(folder, "manifest"), bytes(4096))
    log = Session(program, folder, SMALL)
    expect(log.recovered == 0 and log.append(b"first") == (0, 0) and log.end()[0] == 0,
           "and so does a log that was just begun")
    shutil.rmtree(folder, ignore_errors=True)
    log = Session(program, folder)
    log.append_many([bytes(MOST)] * 20, sync=True)
    log.end()
    whole = contents(segment(folder, 0))
    put(segment(folder, 0), whole[:5000] + b"\1" + whole[5001:])
    before = image(folder)
    status, out, said = play(program, "serve-log", folder)
    expect((status, out) == (3, b"") and image(folder) == before,
           f"an open segment of which more than 1 MiB would go is refused with status 3: {said.strip()}")
    log = Session(program, folder, "--cut")
    cut = before[os.path.basename(segment(folder, 0))]
    expect(log.recovered == 0 and contents(log.hello.copy) == cut and log.end()[0] == 0,
           "--cut goes on, after a copy was made")


def closed_by_a_failure(program, folder):
    shutil.rmtree(folder, ignore_errors=True)
    log = Session(program, folder, SMALL)
    places = log.append_many([some(number) for number in range(5)], sync=True)
    last = places[-1][0]
    put(segment(folder, last + 1), b"bytes of somebody else")
    refused = log.refusal(APPEND_RECORDS_SYNC, data=batch([some(number) for number in range(9)]))
    expect((refused.status, refused.next) == (UNLISTED, 2) and 0 < refused.taken < 9,
           "a rotation to a file that has bytes is refused with 41, and how many records were appended is told")
    asked = [log.refusal(kind, data=fields) for kind, fields in (
        (APPEND, b"a"), (SYNC, b""), (SIZE, b""), (SYNC_SIZE, b""), (APPEND_RECORDS, batch([b"a"])))]
    expect(all((it.status, it.next) == (CLOSED, 2) for it in asked), "the log is closed then: 17")
    expect(log.read_frame(places[0])[0] == some(0) and log.refusal(READ, last, 0).status == CLOSED,
           "records of closed segments are read all the same")
    status, said = log.end()
    expect(status == 1 and said.count("\n") == 1, f"it ends with status 1: {said.strip()}")
    expect(play(program, "serve-log", folder)[0] == 3, "and isn't opened before that file is gone")
    os.remove(segment(folder, last + 1))
    log = Session(program, folder, SMALL)
    expect([data for _, data in log.records()][:5] == [some(number) for number in range(5)], "then it comes back")
    log.end()


def full(program, folder):
    """A disk that is full, as a limit on the size of files has it."""
    shutil.rmtree(folder, ignore_errors=True)

    def limit():
        resource.setrlimit(resource.RLIMIT_FSIZE, (8192, 8192))
        signal.signal(signal.SIGXFSZ, signal.SIG_IGN)

    log = Session(program, folder, limit=limit)
    log.append_many([b"kept"], sync=True)
    refused = log.refusal(APPEND_RECORDS_SYNC, data=batch([bytes(20000)]))
    expect(refused.status in (2, 3) and refused.next == 2 and refused.errno == errno.EFBIG
           and refused.words.startswith(os.strerror(errno.EFBIG)),
           f"a write that fails is refused with 2 or 3, and the system's number and words for it: {refused}")
    expect(log.status(APPEND, data=b"a") == CLOSED, "and closes the log")
    status, said = log.end()
    expect(status == 1, f"it ends with status 1: {said.strip()}")
    log = Session(program, folder)
    expect([data for _, data in log.records()][0] == b"kept", "what was committed comes back")
    log.end()


def commands(program, folder):
    shutil.rmtree(folder, ignore_errors=True)
    a_log(program, folder)
    file = put(folder + "-file", b"")
    before = image(folder)
    manifest, out = os.path.join(folder, "manifest"), folder + "-out"
    for words in (["serve-log", file], ["append", folder], ["salvage", manifest, out], ["salvage", folder, folder],
                  ["salvage", folder, out, "CUT"], ["salvage", "--json", file, out], ["rebuild", file],
                  ["copy", file, out], ["copy", folder, os.path.join(folder, "in")], ["copy", folder, file],
                  ["serve", folder], [folder], ["cat", "--from", "3", folder], ["cat", "--len", "3", folder],
                  ["map", "--from", "99", folder], ["where", file], ["where", folder + "-not"], ["nth", file, "0", "0"],
                  ["nth", folder + "-not", "0", "0"]):
        status, out, said = play(program, *words)
        expect((status, out, said.count("\n")) == (1, b"", 1), f"pagedd {words[0]} is refused: {said.strip()}")
    status, out, said = play(program, "serve-log", "--segment-size=0", folder)
    expect((status, out) == (1, b"") and "--segment-size" in said, f"a segment has a byte at least: {said.strip()}")
    for size in ("1", "18446744073709551615"):
        log = Session(program, folder, f"--segment-size={size}", "--read-only")
        expect(log.recovered == 20 and log.end() == (0, ""), f"and it may have {size}")
    expect(play(program, "map", "--from", "2", "--to", "4", folder)[1].split()[-2:] == [b"2", b"##"],
           "map draws the segments from one to before another")
    expect(image(folder) == before, "and nothing changed")


def documented(program, folder):
    """The page's bytes of a log, behind those of a blob: of each two blocks the first is written, the second read."""
    with open(PAGE, encoding="utf-8") as page:
        text = page.read().split("## Examples")[1]
    blocks = [bytes.fromhex("".join(block.split())) for block in re.findall(r"(?:^ {4}[0-9a-f ]+\n)+", text, re.M)][4:]
    for number, (given, wanted) in enumerate(zip(blocks[::2], blocks[1::2])):
        ended = play(program, "serve-log", f"{folder}-{number}", given=given)
        expect(ended == (0, wanted, ""), f"the page's example of version {number + 1} is so")
    expect(len(blocks) == 4, "and the page has two")


def main():
    made = usage.parser(__doc__)
    made.add_argument("PAGEDD", type=usage.program)
    program = made.parse_args().PAGEDD
    with tempfile.TemporaryDirectory() as room:
        parts = (version_one, version_two, wheres, scans, reads_once, wrong_frames, in_order, alone, tampering, pages, marks, digests,
                 unmarked, older_log, older_manifest, short_open, torn, begun, closed_by_a_failure, full, commands, documented)
        for number, part in enumerate(parts):
            part(program, os.path.join(room, f"log-{number}"))
    print("all is so")


if __name__ == "__main__":
    main()
