"""Each request and answer of both pages against recordings that are written by hand, and what is no answer."""
import os
import re
import signal
import unittest
import unittest.mock
import warnings

from room import RECORDED, Recorded, blocks, page

from pagedd_client import (START, AnotherProcess, Batch, Blob, BlobInsufficientLength, BlobRequest, CannotOpen, Closed,
                           CountOpen, Damaged, Error, Frame, Locked, Log, LogRequest, Next, NoKnownVersion, NoRecord,
                           NoSuchNumber, NotInVersion, NotWhole, OpenRefused, OutOfMemory, Passed, ProgramLost,
                           ProgramWarning, RangesRead, ReadFailed, Refusal, SessionBroken, SessionClosed, StartedRecords,
                           SyncFailed, TooLarge, UnknownStatus, Where, WriteFailed, WriterGone, WrongAnswer, WrongFields)
from pagedd_client import errors
from pagedd_client import frames as bytes_sent


def n(number):
    """A number of 64 bits, its lowest byte first."""
    return "".join(f"{number >> 8 * at & 255:02x}" for at in range(8))


OFFER, ONE, CLOSE = "02020102", "01", "0100000010"
LIMIT = "feffffff00000000"
FIELDS = n(0) + n(4084) + LIMIT + LIMIT
BLOB_HELLO = "59000000 00 02 00" + FIELDS + n(268435455) + n(536870910) + n(0) + n(0) + n(6) + "637263333263" + n(0)
LOG_HELLO = ("70000000 00 02 00" + FIELDS + n(65535) + n(268435455) + n(0) + n(0) + n(6) + "637263333263" + n(0)
             + n(15) + "01020506071011121519" + "1b1c1d1e1f")
# The hello of a log's program before 0.12, which lists no kinds.
OLD_LOG_HELLO = "59000000 00 02 00" + FIELDS + n(65535) + n(268435455) + n(0) + n(0) + n(6) + "637263333263" + n(0)
DONE = "01000000 00"


def greeting(size=0):
    return f"> 01 09000000 00 {n(size)}"


def exchanges(pairs):
    """The lines of requests and their answers."""
    return [line for request, answer in pairs for line in ("< " + request, "> " + answer)]


class Case(Recorded):
    """A session in which these requests are made and answered."""

    def blob(self, *pairs, version=2, hello=BLOB_HELLO, size=0, end=CLOSE):
        begin = [f"< {OFFER}", f"> {hello}"] if version == 2 else [f"< {ONE}"]
        self.record(greeting(size), *begin, *exchanges(pairs), *([f"< {end}"] if end else []))
        return Blob("recording", program=RECORDED, version=None if version == 2 else 1)

    def log(self, *pairs, version=2, hello=LOG_HELLO, size=0, end=CLOSE):
        begin = [f"< {OFFER}", f"> {hello}"] if version == 2 else [f"< {ONE}"]
        self.record(greeting(size), *begin, *exchanges(pairs), *([f"< {end}"] if end else []))
        return Log("recording", program=RECORDED, version=None if version == 2 else 1)

    def opened(self, *lines, **options):
        self.record(*lines)
        return Blob("recording", program=RECORDED, **options)


class Blobs(Case):
    """The requests of a blob."""

    def test_append(self):
        with self.blob(("06000000 01 68656c6c6f", "09000000 00" + n(7)), ("01000000 02", DONE)) as blob:
            self.assertEqual(blob.append(b"hello"), 7)

    def test_append_nothing(self):
        with self.blob(("01000000 01", "09000000 00" + n(7)), ("01000000 02", DONE)) as blob:
            self.assertEqual(blob.append(bytearray()), 7)

    def test_sync(self):
        with self.blob(("01000000 02", DONE)) as blob:
            blob.sync()

    def test_start_sync_by_name(self):
        with self.blob(("01000000 03", "0a000000 00 01" + n(4)), ("09000000 04" + n(4), DONE)) as blob:
            self.assertEqual(blob.start_sync(), 4)
            blob.wait_sync(4)

    def test_start_sync_where_all_is_durable(self):
        with self.blob(("01000000 03", "02000000 00 00")) as blob:
            self.assertIsNone(blob.start_sync())

    def test_size(self):
        with self.blob(("01000000 05", "09000000 00" + n(2 ** 40 + 3))) as blob:
            self.assertEqual(blob.size(), 1099511627779)

    def test_read(self):
        with self.blob(("11000000 06" + n(3) + n(2), "03000000 00 6162"), ("11000000 06" + n(9) + n(0), DONE)) as blob:
            self.assertEqual(blob.read(3, 2), b"ab")
            self.assertEqual(blob.read(9, 0), b"")

    def test_read_up_to(self):
        with self.blob(("11000000 07" + n(3) + n(9), "03000000 00 6162")) as blob:
            self.assertEqual(blob.read_up_to(3, 9), b"ab")

    def test_begin_and_truncate(self):
        with self.blob(("09000000 09" + n(5), "09000000 00" + n(5)), ("01000000 08", DONE)) as blob:
            self.assertEqual(blob.truncate(5), 5)
            blob.begin()

    def test_snapshot(self):
        with self.blob(("01000000 0a", "09000000 00" + n(2)),
                       ("19000000 0b" + n(2) + n(1) + n(3), "04000000 00 616263"),
                       ("09000000 17" + n(2), DONE)) as blob:
            with blob.snapshot() as snapshot:
                self.assertEqual((snapshot.number, snapshot.read(1, 3)), (2, b"abc"))

    def test_replay(self):
        with self.blob(("09000000 0c" + n(4096), "09000000 00" + n(1)), ("11000000 0d" + n(1) + n(2), "02000000 00 01"),
                       ("11000000 0e" + n(1) + n(2), "03000000 00 6162"), ("11000000 0f" + n(1) + n(0), DONE),
                       ("11000000 0d" + n(1) + n(9), "02000000 00 00"), ("11000000 0e" + n(1) + n(9), DONE),
                       ("09000000 18" + n(1), DONE)) as blob:
            with blob.replay(4096) as replay:
                self.assertIs(replay.ensure(2), True)
                self.assertEqual(replay.take(2), b"ab")
                replay.seek(0)
                self.assertEqual(replay.read(9), b"")

    def test_look_flush_and_sync_size(self):
        with self.blob(("01000000 16", "09000000 00" + n(8)), ("01000000 19", DONE),
                       ("01000000 15", "09000000 00" + n(9))) as blob:
            self.assertEqual(blob.look(), 8)
            blob.flush()
            self.assertEqual(blob.sync_size(), 9)

    def test_pieces(self):
        end = "12000000 06 00" + n(0) + n(0)
        with self.blob(("11000000 07" + n(1) + n(2), "03000000 00 6162"),
                       ("11000000 07" + n(3) + n(2), "02000000 00 63"), ("11000000 07" + n(4) + n(2), end)) as blob:
            self.assertEqual(list(blob.pieces(1, 2)), [b"ab", b"c"])

    def test_worked_bytes_of_the_page(self):
        """A request of each kind of version 2, by the table of PROTOCOL.md, after a begin, a snapshot and a replay."""
        table = page("PROTOCOL.md").split("### Worked bytes")[1].split("###")[0]
        rows = re.findall(r"^\| [^|]*\| `([0-9a-f .]+)` \| `([0-9a-f .]+)` \|", table, re.M)
        self.assertEqual(len(rows), 11)
        pairs = [tuple(bytes_of(cell) for cell in row) for row in rows]
        with self.blob(("01000000 08", DONE), ("01000000 0a", "09000000 00" + n(0)),
                       ("09000000 0c" + n(65536), "09000000 00" + n(0)), *pairs) as blob:
            blob.begin()
            snapshot, replay = blob.snapshot(), blob.replay()
            self.assertEqual(blob.append_many([b"ab", b"c"]), [6, 8])
            self.assertEqual(blob.append_many([b"d"], sync=True), [9])
            self.assertEqual(blob.append_many_start([b"e"]), StartedRecords([10], 0))
            self.assertEqual(blob.read_ranges([(1, 2)]), RangesRead(1, [b"bc"]))
            self.assertEqual(blob.sync_size(), 11)
            self.assertEqual(blob.look(), 11)
            snapshot.drop()
            replay.drop()
            blob.flush()
            self.assertEqual(blob.count_open(), CountOpen(0, 0))
            with self.assertRaises(NoSuchNumber) as raised:
                replay.drop()
            refusal = raised.exception
            self.assertEqual((refusal.status, refusal.next, refusal.taken, refusal.errno, refusal.words),
                             (20, Next.SOMETHING_ELSE, 0, 0, ""))

    def test_full_disk_of_the_page(self):
        """The last row of that table: the disk is full."""
        words = b"No space left on device (os error 28)"
        answer = f"{18 + len(words):02x}000000 02 02" + n(1) + n(28) + words.hex()
        with self.blob(("0a000000 12 01000000 01000000 66", answer), ("01000000 05", "12000000 11 02" + n(0) + n(0)),
                       end=CLOSE) as blob:
            with self.assertRaises(WriteFailed) as raised:
                blob.append_many([b"f"], sync=True)
            with self.assertRaises(WriterGone):
                blob.size()
        refusal = raised.exception
        self.assertEqual((refusal.status, refusal.errno, refusal.taken, refusal.next, refusal.words, refusal.request),
                         (2, 28, 1, Next.OPEN_ANEW, words.decode(), "append_records_sync"))
        for word in ("append_records_sync", "status 2", "errno 28", "No space left", "taken: 1", "open anew"):
            self.assertIn(word, str(refusal))

    def test_examples_of_the_page(self):
        one, one_answers, two, two_answers = blocks(page("PROTOCOL.md"))[:4]
        self.record("> " + one_answers[:28], "< " + one, "> " + one_answers[28:])
        # (all of it comes before the answers are read, which the recording allows)
        self.record("> " + one_answers[:28], "< " + one[:2], "< " + one[2:22], "> " + one_answers[28:54],
                    "< " + one[22:32], "> " + one_answers[54:64], "< " + one[32:74], "> " + one_answers[64:], "< " + one[74:])
        with Blob("recording", program=RECORDED, version=1) as blob:
            self.assertEqual((blob.version, blob.hello, blob.recovered), (1, None, 0))
            self.assertEqual(blob.append(b"hello"), 0)
            blob.sync()
            self.assertEqual(blob.read(0, 5), b"hello")
        cut = [28, 28 + 2 * (4 + 0x59), 28 + 2 * (4 + 0x59) + 2 * (4 + 0x19), 28 + 2 * (8 + 0x59 + 0x19) + 2 * (4 + 0x0e)]
        given = [8, 8 + 2 * (4 + 0x16), 8 + 2 * (8 + 0x16 + 0x21), 8 + 2 * (12 + 0x16 + 0x21 + 0x09)]
        self.record("> " + two_answers[:cut[0]], "< " + two[:given[0]], "> " + two_answers[cut[0]:cut[1]],
                    "< " + two[given[0]:given[1]], "> " + two_answers[cut[1]:cut[2]], "< " + two[given[1]:given[2]],
                    "> " + two_answers[cut[2]:cut[3]], "< " + two[given[2]:given[3]], "> " + two_answers[cut[3]:],
                    "< " + two[given[3]:])
        with Blob("recording", program=RECORDED) as blob:
            self.assertEqual(blob.version, 2)
            self.assertEqual(tuple(blob.hello), (2, False, 0, 4084, 4294967294, 4294967294, 268435455, 536870910, 0, 0,
                                                 "crc32c", "", None))
            self.assertEqual(blob.append_many([b"ab", b"", b"cde"], sync=True), [0, 2, 2])
            self.assertEqual(blob.read_ranges([(0, 2), (2, 3)]), RangesRead(2, [b"ab", b"cde"]))
            with self.assertRaises(NoSuchNumber):
                blob.request(BlobRequest.DROP_SNAPSHOT, 0)

    def test_version_1_has_each_record_as_a_request(self):
        pairs = [("03000000 01 6162", "09000000 00" + n(0)), ("02000000 01 63", "09000000 00" + n(2)),
                 ("01000000 02", DONE), ("11000000 06" + n(0) + n(2), "03000000 00 6162"),
                 ("11000000 06" + n(2) + n(1), "02000000 00 63"), ("01000000 02", DONE),
                 ("01000000 05", "09000000 00" + n(3))]
        with self.blob(*pairs, version=1) as blob:
            self.assertEqual(blob.append_many([b"ab", b"c"], sync=True), [0, 2])
            self.assertEqual(blob.read_many([(0, 2), (2, 1)]), [b"ab", b"c"])
            self.assertEqual(blob.sync_size(), 3)

    def test_version_1_lacks_requests(self):
        with self.blob(version=1) as blob:
            for call in (blob.look, blob.flush, blob.count_open, lambda: blob.read_ranges([]),
                         lambda: blob.append_many_start([])):
                with self.assertRaises(NotInVersion):
                    call()

    def test_a_refusal_of_version_1_has_its_status_alone(self):
        with self.blob(("03000000 01 6162", "09000000 00" + n(0)), ("02000000 01 63", "01000000 02"), version=1,
                       end=CLOSE) as blob:
            with self.assertRaises(WriteFailed) as raised:
                blob.append_many([b"ab", b"c", b"d"])
            blob.close()
        self.assertEqual((raised.exception.taken, raised.exception.next), (1, Next.OPEN_ANEW))

    def test_a_program_that_knows_version_1_alone_is_offered_both(self):
        self.record(greeting(3), f"< {OFFER}", "> 02000000 00 01", "< 01000000 05", "> 09000000 00" + n(3), f"< {CLOSE}")
        with Blob("recording", program=RECORDED) as blob:
            self.assertEqual((blob.version, blob.recovered, blob.size()), (1, 3, 3))

    def test_a_program_before_the_offer_is_started_again(self):
        """It takes the offer for a wrong version, and ends with status 2."""
        first = self.path("first")
        with open(first, "w", encoding="utf-8") as file:
            file.write(f"{greeting(3)}\n< 02\nexit 2\n")
        self.record(greeting(3), f"< {ONE}", "< 01000000 05", "> 09000000 00" + n(3), f"< {CLOSE}")
        script = self.path("older")
        with open(script, "w", encoding="utf-8") as file:
            file.write(f'#!/bin/sh\nif [ -e {first} ]; then {RECORDED} {first}; status=$?; rm {first}; exit $status; fi\n'
                       f'exec {RECORDED} "$@"\n')
        os.chmod(script, 0o755)
        with Blob("recording", program=script) as blob:
            self.assertEqual((blob.version, blob.size()), (1, 3))

    def test_no_known_version(self):
        with self.assertRaises(NoKnownVersion) as raised:
            self.opened(greeting(), "< 020102", "> 03000000 18 01 03", "exit 2", version=2)
        self.assertEqual((raised.exception.status, raised.exception.known), (24, b"\1\3"))

    def test_numbers_and_sizes_that_no_request_holds(self):
        with self.blob() as blob:
            for call in (lambda: blob.read(-1, 2), lambda: blob.read(2 ** 64, 2), lambda: blob.read(0, -2),
                         lambda: blob.truncate(-1), lambda: blob.read_many([(0, -1)])):
                with self.assertRaises((ValueError, TooLarge)):
                    call()
            for call in (lambda: blob.read(0, 4294967295), lambda: blob.read_up_to(0, 4294967295),
                         lambda: blob.read_many([(0, 4294967287)])):
                with self.assertRaises(TooLarge):
                    call()
            for call in (lambda: blob.append("text"), lambda: blob.append_many(["text"])):
                with self.assertRaises(TypeError):
                    call()
            for call in (blob.append, lambda data: blob.append_many([data])):
                with self.assertRaises(TypeError):
                    call(memoryview(b"abcd").cast("H"))
            with self.assertRaises(ValueError):
                blob.replay(0)

    def test_limits_of_the_hello(self):
        hello = BLOB_HELLO.replace(n(536870910), n(2))
        with self.blob(hello=hello) as blob:
            with self.assertRaises(TooLarge):
                blob.append_many([b"a", b"b", b"c"])

    def test_a_longer_hello_is_read(self):
        with self.blob(hello=BLOB_HELLO.replace("59000000", "5c000000") + "070707") as blob:
            self.assertEqual(blob.hello.checksum, "crc32c")

    def test_a_hello_with_a_cut(self):
        name = "content.cut-1".encode().hex()
        hello = ("66000000 00 02 01" + n(5) + n(500) + LIMIT + LIMIT + n(9) + n(8) + n(7) + n(6) + n(6) + "637263333263"
                 + n(13) + name)
        with self.blob(hello=hello) as blob:
            self.assertEqual(tuple(blob.hello), (2, True, 5, 500, 4294967294, 4294967294, 9, 8, 7, 6, "crc32c",
                                                 "content.cut-1", None))
            self.assertEqual(blob.recovered, 5)


def bytes_of(cell):
    """The bytes of a cell of the page: a number of 64 bits is written as its lowest byte and dots."""
    return re.sub(r"([0-9a-f]{2}) \.\.", lambda found: found[1] + "00" * 7, cell).replace(" ", "")


class Logs(Case):
    """The requests of a log."""

    def test_append_and_sync(self):
        with self.log(("06000000 01 68656c6c6f", "11000000 00" + n(3) + n(12)), ("01000000 02", DONE),
                      ("01000000 02", DONE), ("01000000 15", "09000000 00" + n(9)),
                      ("01000000 05", "09000000 00" + n(9))) as log:
            self.assertEqual(log.append(b"hello"), (3, 12))
            log.sync()
            log.commit()
            self.assertEqual((log.sync_size(), log.size()), (9, 9))

    def test_append_many(self):
        with self.log(("10000000 11 02000000 02000000 01000000 616263", "21000000 00" + n(0) + n(5) + n(1) + n(0)),
                      ("09000000 12 01000000 00000000", "11000000 00" + n(1) + n(8)),
                      ("05000000 11 00000000", DONE), ("01000000 02", DONE)) as log:
            self.assertEqual(log.append_many([b"ab", b"c"]), [(0, 5), (1, 0)])
            self.assertEqual(log.append_many([b""], sync=True), [(1, 8)])
            self.assertEqual(log.append_many(iter([])), [])

    def test_read(self):
        with self.log(("11000000 06" + n(1) + n(2), "0f000000 00" + n(14) + "01 68656c6c6f"),
                      ("11000000 06" + n(1) + n(14), "0a000000 00" + n(21) + "01"),
                      ("11000000 06" + n(1) + n(21), "0a000000 00" + n(30) + "00"),
                      ("11000000 06" + n(1) + n(21), "0a000000 00" + n(30) + "00")) as log:
            self.assertEqual(log.read((1, 2)), b"hello")
            self.assertEqual(log.read_frame((1, 14)), Frame(b"", (1, 21)))
            self.assertEqual(log.read_frame((1, 21)), Frame(None, (1, 30)))
            with self.assertRaises(NoRecord):
                log.read((1, 21))

    def test_read_many(self):
        asked = [("11000000 06" + n(0) + n(at), "0b000000 00" + n(at + 8) + f"01 {at:02x}") for at in range(3)]
        self.record(greeting(), f"< {OFFER}", f"> {LOG_HELLO}", "< " + "".join(request for request, _ in asked),
                    "> " + "".join(answer for _, answer in asked), f"< {CLOSE}")
        with Log("recording", program=RECORDED) as log:
            self.assertEqual(log.read_many((0, at) for at in range(3)), [b"\0", b"\1", b"\2"])

    def test_read_many_with_a_refusal(self):
        """The answers behind a refusal are read too, so that the next request gets its own."""
        record = "0b000000 00" + n(8) + "01 61"
        self.record(greeting(), f"< {OFFER}", f"> {LOG_HELLO}", "< " + "".join("1100000006" + n(0) + n(at) for at in range(3)),
                    "> " + record + "12000000 27 00" + n(0) + n(0) + record, "< 01000000 05", "> 09000000 00" + n(4),
                    f"< {CLOSE}")
        with Log("recording", program=RECORDED) as log:
            with self.assertRaises(Damaged) as raised:
                log.read_many([(0, 0), (0, 1), (0, 2)])
            self.assertEqual((raised.exception.taken, raised.exception.request), (1, "read 0, 1"))
            self.assertEqual(log.size(), 4)

    def test_next(self):
        with self.log(("11000000 07" + n(0) + n(0), "23000000 00" + n(2) + n(0) + n(2) + n(9) + "6162"),
                      ("11000000 07" + n(2) + n(9), "12000000 06 00" + n(0) + n(0))) as log:
            self.assertEqual(log.next(), ((2, 0), b"ab", (2, 9)))
            self.assertIsNone(log.next((2, 9)))

    def test_next_many(self):
        answer = ("43000000 00" + n(0) + n(16) + n(2) + n(0) + n(0) + "02000000" + n(0) + n(9) + "00000000" + "6162")
        end = "12000000 06 00" + n(0) + n(0)
        with self.log(("19000000 1d" + n(0) + n(0) + n(48), answer), ("19000000 1d" + n(0) + n(0) + n(48), answer),
                      ("19000000 1d" + n(0) + n(16) + n(48), end)) as log:
            self.assertEqual(log.next_many(START, 48), Batch([((0, 0), b"ab"), ((0, 9), b"")], (0, 16)))
            self.assertEqual(list(log.records(most=48)), [((0, 0), b"ab"), ((0, 9), b"")])

    def test_an_older_program_answers_one_by_one(self):
        pairs = [("11000000 07" + n(0) + n(0), "23000000 00" + n(0) + n(0) + n(0) + n(9) + "6162"),
                 ("11000000 07" + n(0) + n(9), "12000000 06 00" + n(0) + n(0))]
        with self.log(*pairs, hello=OLD_LOG_HELLO) as log:
            self.assertIsNone(log.hello.kinds)
            self.assertEqual(list(log), [((0, 0), b"ab")])
            for call in (log.where, lambda: log.nth(0, 0), lambda: log.pass_damage((0, 0))):
                with self.assertRaises(NotInVersion):
                    call()
        pairs[1] = (pairs[1][0], "01000000 06")
        with self.log(*pairs, version=1) as log:
            self.assertEqual(list(log), [((0, 0), b"ab")])
            for call in (log.where, log.flush):
                with self.assertRaises(NotInVersion):
                    call()

    def test_nth_and_pass_damage(self):
        with self.log(("11000000 1e" + n(3) + n(1), "11000000 00" + n(3) + n(9)),
                      ("11000000 1e" + n(3) + n(2), "12000000 06 00" + n(0) + n(0)),
                      ("11000000 1f" + n(3) + n(9), "21000000 00" + n(4) + n(0) + n(70) + n(10)),
                      ("11000000 1f" + n(3) + n(9), "21000000 00" + n(4) + n(0) + n(70) + "ffffffffffffffff")) as log:
            self.assertEqual(log.nth(3, 1), (3, 9))
            self.assertIsNone(log.nth(3, 2))
            self.assertEqual(log.pass_damage((3, 9)), Passed((4, 0), 70, 10))
            self.assertEqual(log.pass_damage((3, 9)), Passed((4, 0), 70, None))

    def test_iteration_goes_on_behind_damage(self):
        damaged = "12000000 27 00" + n(0) + n(0)
        record = "30000000 00" + n(4) + n(10) + n(1) + n(4) + n(0) + "03000000" + "616263"
        most = n(1048576)
        with self.log(("19000000 1d" + n(0) + n(0) + most, damaged),
                      ("11000000 1f" + n(0) + n(0), "21000000 00" + n(4) + n(0) + n(70) + n(10)),
                      ("19000000 1d" + n(4) + n(0) + most, record),
                      ("19000000 1d" + n(4) + n(10) + most, "12000000 06 00" + n(0) + n(0)),
                      ("19000000 1d" + n(0) + n(0) + most, damaged)) as log:
            passed = []
            self.assertEqual(list(log.records(passed=lambda place, it: passed.append((place, it)))), [((4, 0), b"abc")])
            self.assertEqual(passed, [((0, 0), Passed((4, 0), 70, 10))])
            with self.assertRaises(Damaged):
                list(log)

    def test_where(self):
        closed = n(5) + n(100) + "00" + n(6) + n(200) + "01"
        with self.log(("11000000 1c" + n(0) + "ffffffffffffffff", "53000000 00" + n(1) + n(3) + n(26) + n(2) + n(1) + n(2)
                       + closed)) as log:
            self.assertEqual(log.where(), Where(1, 3, (3, 26), 2, {1: Closed(5, 100, False), 2: Closed(6, 200, True)}))

    def test_where_asks_again(self):
        head = n(1) + n(4) + n(26) + n(2)
        with self.log(("11000000 1c" + n(0) + n(9), "42000000 00" + head + n(1) + n(1) + n(5) + n(100) + "00"),
                      ("11000000 1c" + n(2) + n(9), "53000000 00" + head + n(2) + n(2) + n(6) + n(200) + "00" + n(7)
                       + n(300) + "00")) as log:
            self.assertEqual(list(log.where(0, 9).closed), [1, 2, 3])

    def test_keep_last(self):
        """Of segments of 100, 200 and 300 bytes and an open one of 26, the sum passes 400 with the one of 200."""
        where = ("11000000 1c" + n(0) + "ffffffffffffffff", "64000000 00" + n(1) + n(4) + n(26) + n(2) + n(1) + n(3)
                 + n(1) + n(100) + "00" + n(1) + n(200) + "00" + n(1) + n(300) + "00")
        with self.log(where, ("09000000 1b" + n(2), DONE), where) as log:
            self.assertEqual(log.keep_last(400), 2)
            self.assertEqual(log.keep_last(10 ** 6), 1)

    def test_drop_before_and_flush(self):
        with self.log(("09000000 1b" + n(7), DONE), ("01000000 19", DONE)) as log:
            log.drop_before(7)
            log.flush()

    def test_examples_of_the_page(self):
        one, one_answers, two, two_answers = blocks(page("PROTOCOL.md"))[4:]
        self.play(one_answers, one, 2, 28, version=1)
        with Log("recording", program=RECORDED, version=1) as log:
            self.assertEqual(log.append(b"hello"), (0, 0))
            log.sync()
            self.assertEqual(log.read_frame((0, 0)), Frame(b"hello", (0, 12)))
            self.assertEqual(log.next((0, 0)), ((0, 0), b"hello", (0, 12)))
            self.assertIsNone(log.next((0, 12)))
        self.play(two_answers, two, 8, 28, version=2)
        with Log("recording", program=RECORDED) as log:
            self.assertEqual(tuple(log.hello), (2, False, 0, 4084, 4294967294, 4294967294, 65535, 268435455, 0, 0, "crc32c",
                                                "", bytes.fromhex("01020506071011121519" "1b1c1d1e1f")))
            self.assertEqual(log.append_many([b"ab", b"", b"cde"], sync=True), [(0, 0), (0, 9), (0, 16)])
            self.assertEqual(log.next((0, 0)), ((0, 0), b"ab", (0, 9)))
            self.assertEqual(log.next_many((0, 0), 48), Batch([((0, 0), b"ab"), ((0, 9), b"")], (0, 16)))
            self.assertEqual(log.where(), Where(0, 0, (0, 26), 3, {}))
            with self.assertRaises(errors.NoSegment) as raised:
                log.drop_before(5)
            self.assertEqual((raised.exception.status, raised.exception.next, raised.exception.taken), (38, 0, 0))

    def play(self, answers, given, begins, greets, version):
        """Records the bytes of a page: what begins the session, and then each frame with its answer."""
        lines = ["> " + answers[:greets], "< " + given[:begins]]
        given, answers = frames(given[begins:]), frames(answers[greets:])
        if version == 2:
            lines.append("> " + answers.pop(0))
        for request in given:
            lines += ["< " + request] + (["> " + answers.pop(0)] if answers else [])
        self.record(*lines)


def frames(text):
    """The frames of some bytes."""
    data, found = bytes.fromhex(text), []
    while data:
        length = 4 + int.from_bytes(data[:4], "little")
        found.append(data[:length].hex())
        data = data[length:]
    return found


class Refusals(Case):
    """Each status has a class of its own."""

    # By the tables of both pages.
    NAMES = {1: "ReadFailed", 2: "WriteFailed", 3: "ResizeFailed", 4: "SyncFailed", 5: "InvalidChecksum",
             6: "BlobInsufficientLength", 7: "OffsetOverflow", 8: "OutOfMemory", 9: "IdsExhausted", 16: "FileNeeded",
             17: "WriterGone", 18: "RecoveryEnded", 19: "RangesOutOfOrder", 20: "NoSuchNumber", 21: "InRecovery",
             22: "ReadOnly", 23: "WrongFields", 24: "NoKnownVersion", 32: "RequestCut", 33: "EmptyRequest",
             34: "UnknownRequest", 35: "WrongLength", 36: "AnswerTooLong", 37: "ReplayWithoutBuffer", 38: "NoSegment",
             39: "Damaged", 40: "SystemFailed", 41: "Unlisted", 42: "NumbersExhausted", 43: "WrongManifest", 44: "NoFrame",
             45: "Unmarked"}

    def test_the_pages_have_these_statuses(self):
        section = page("PROTOCOL.md").split("\n## Statuses")[1].split("\n## ")[0]
        rows = {int(it) for it in re.findall(r"^\| (\d+) \|", section, re.M)}
        self.assertEqual(rows - {0}, set(self.NAMES))

    def test_each_status_of_version_2(self):
        for status, name in self.NAMES.items():
            kind = getattr(errors, name)
            self.assertTrue(issubclass(kind, Refusal) and kind.__mro__[1] is Refusal)
            ends = 32 <= status <= 37
            answer = f"17000000 {status:02x} 02" + n(3) + n(5) + "776f726473"
            with self.blob(("01000000 02", answer), end=None if ends else CLOSE) as blob:
                with self.assertRaises(kind) as raised:
                    blob.sync()
                refusal = raised.exception
                self.assertEqual((refusal.status, refusal.next, refusal.taken, refusal.errno, refusal.words),
                                 (status, Next.OPEN_ANEW, 3, 5, "words"))
                self.assertEqual(refusal.what_next, "open anew: the writer is gone. Close this, open it again, and read "
                                                    "what was recovered")
                self.assertTrue(refusal.cause and f"status {status}" in str(refusal))
                if ends:
                    with self.assertRaises(SessionClosed):
                        blob.sync()

    def test_each_status_of_version_1(self):
        usual = {0: (6, 18, 19, 20, 21, 22, 23, 38, 39, 44, 45), 2: (2, 3, 5, 9, 17, 41, 42, 43), 3: (4,)}
        for status, name in self.NAMES.items():
            if status in (24, *range(32, 38)):
                continue
            with self.blob(("01000000 02", f"01000000 {status:02x}"), version=1) as blob:
                with self.assertRaises(getattr(errors, name)) as raised:
                    blob.sync()
                following = next((following for following, those in usual.items() if status in those), None)
                self.assertEqual((raised.exception.status, raised.exception.next), (status, following))
                if status != 16:
                    self.assertTrue(raised.exception.what_next)

    def test_a_status_that_is_not_known(self):
        with self.blob(("01000000 02", "12000000 c8 01" + n(0) + n(0))) as blob:
            with self.assertRaises(UnknownStatus) as raised:
                blob.sync()
            self.assertEqual((raised.exception.status, raised.exception.next), (200, Next.AGAIN))

    def test_a_refused_log_goes_on_being_read(self):
        """A failed append closes a log, and says how many records were appended; closed segments are still read."""
        with self.log(("10000000 11 02000000 02000000 01000000 616263", "12000000 02 02" + n(1) + n(28)),
                      ("11000000 06" + n(0) + n(0), "0b000000 00" + n(8) + "01 61")) as log:
            with self.assertRaises(WriteFailed) as raised:
                log.append_many([b"ab", b"c"])
            self.assertEqual(raised.exception.taken, 1)
            self.assertEqual(log.read((0, 0)), b"a")

    def test_a_close_after_a_failure_is_quiet(self):
        self.record(greeting(), f"< {OFFER}", f"> {LOG_HELLO}", "< 02000000 01 61", "> 12000000 04 03" + n(0) + n(5),
                    f"< {CLOSE}", "! pagedd: recording: the log was closed", "exit 1")
        log = Log("recording", program=RECORDED)
        with self.assertRaises(SyncFailed) as raised:
            log.append(b"a")
        self.assertIs(raised.exception.next, Next.REPLACE)
        self.assertIn("pagedd rewrite", str(raised.exception))
        log.close()
        self.assertEqual((log.exit_status, log.said), (1, "pagedd: recording: the log was closed\n"))
        log.close()

    def test_a_close_that_fails_alone_is_an_exception(self):
        blob = self.opened(greeting(), f"< {OFFER}", f"> {BLOB_HELLO}", f"< {CLOSE}", "! pagedd: lost", "exit 1")
        with self.assertRaises(ProgramLost) as raised:
            blob.close()
        self.assertEqual((raised.exception.exit_status, raised.exception.words), (1, "pagedd: lost"))

    def test_all_are_errors(self):
        for name in errors.__dict__:
            kind = getattr(errors, name)
            if isinstance(kind, type) and issubclass(kind, Exception) and kind is not ProgramWarning:
                self.assertTrue(issubclass(kind, Error), name)


class Openings(Case):
    """What comes before a session."""

    def test_exit_statuses(self):
        for status, words, kind in ((1, "pagedd: no such folder", CannotOpen), (3, "pagedd: it is no blob", NotWhole),
                                    (1, "pagedd: log: another process has it open: end that one first", Locked),
                                    (7, "", OpenRefused), (0, "", OpenRefused)):
            with self.assertRaises(kind) as raised:
                self.opened(f"! {words}", f"exit {status}")
            self.assertIs(type(raised.exception), kind)
            self.assertEqual((raised.exception.exit_status, raised.exception.words), (status, words))
            self.assertIn(words, str(raised.exception))

    def test_a_killed_program(self):
        with self.assertRaises(OpenRefused) as raised:
            self.opened("signal 9")
        self.assertEqual(raised.exception.exit_status, -9)
        self.assertIn("SIGKILL", str(raised.exception))

    def test_a_refused_recovery(self):
        with self.assertRaises(OutOfMemory) as raised:
            self.opened("> 01 01000000 08", "! pagedd: no memory", "exit 1")
        self.assertEqual((raised.exception.status, raised.exception.words, raised.exception.exit_status), (8, "pagedd: no memory", 1))

    def test_what_is_said_at_the_start_is_a_warning(self):
        with self.assertWarns(ProgramWarning) as warned:
            blob = self.opened("! pagedd: 30 bytes were cut", greeting(), f"< {OFFER}", f"> {BLOB_HELLO}", f"< {CLOSE}")
        self.assertEqual(str(warned.warning), "pagedd: 30 bytes were cut")
        self.assertEqual(os.path.basename(warned.filename), "test_frames.py")
        blob.close()

    def test_what_is_said_at_a_good_end_is_a_warning(self):
        blob = self.opened(greeting(), f"< {OFFER}", f"> {BLOB_HELLO}", f"< {CLOSE}", "! pagedd: manifest.copy: no room")
        with self.assertWarns(ProgramWarning) as warned:
            blob.close()
        self.assertEqual((str(warned.warning), blob.exit_status), ("pagedd: manifest.copy: no room", 0))

    def test_that_warning_as_an_exception_leaves_no_program(self):
        with warnings.catch_warnings():
            warnings.simplefilter("error", ProgramWarning)
            with self.assertRaises(ProgramWarning):
                self.opened("! pagedd: 30 bytes were cut", greeting(), f"< {OFFER}", f"> {BLOB_HELLO}")
        with self.assertRaises(ChildProcessError):
            os.waitpid(-1, os.WNOHANG)

    def test_garbage_in_place_of_a_greeting(self):
        for line in ("> 02", "> 68656c6c6f", "> 01 00000000", "> 01 09000000 07" + n(0), "> 01 0a000000 00" + n(0) + "00",
                     "> 01 ffffffff", "> 01 02000000 0800"):
            with self.assertRaises(WrongAnswer):
                self.opened(line)

    def test_garbage_in_place_of_a_hello(self):
        for line in ("> 02000000 00 02", "> 00000000", "> 03000000 07 0000", "> ffffff7f 00",
                     "> " + BLOB_HELLO.replace("00 02 00", "00 03 00", 1),
                     "> " + BLOB_HELLO.replace(n(6) + "637263333263", "ff" * 8 + "637263333263")):
            with self.assertRaises(WrongAnswer):
                self.opened(greeting(), f"< {OFFER}", line)

    def test_a_hello_that_is_cut(self):
        for cut in (2, 8, 12, 60):
            with self.assertRaises(ProgramLost) as raised:
                self.opened(greeting(), f"< {OFFER}", "> " + BLOB_HELLO.replace(" ", "")[:cut], "exit 1")
            self.assertTrue(raised.exception.partial)


class WrongAnswers(Case):
    """What is no answer ends the session at once."""

    def test_garbage(self):
        sync = lambda it: it.sync()
        append = lambda it: it.append(b"a")
        replay = lambda it: it.replay().ensure(1)
        begun = ("09000000 0c" + n(65536), "09000000 00" + n(0))
        cases = [
            (sync, "01000000 02", "00000000"), (sync, "01000000 02", "ffffffff"), (sync, "01000000 02", "02000000 0000"),
            (sync, "01000000 02", "01000000 02"), (sync, "01000000 02", "11000000 02" + n(0) + n(0)),
            (sync, "01000000 02", "12000000 02 04" + n(0) + n(0)), (sync, "01000000 02", "12000000 00 00" + n(0) + n(0)),
            (sync, "01000000 02", "12010000 02 00" + n(0) + n(0)), (sync, "01000000 02", "48545450"),
            (append, "02000000 01 61", "01000000 00"), (append, "02000000 01 61", "0a000000 00" + n(0) + "00"),
            (lambda it: it.start_sync(), "01000000 03", "02000000 00 01"),
            (lambda it: it.start_sync(), "01000000 03", "0a000000 00 02" + n(0)),
            (lambda it: it.start_sync(), "01000000 03", "03000000 00 0001"),
            (lambda it: it.read(0, 3), "11000000 06" + n(0) + n(3), "03000000 00 6162"),
            (lambda it: it.read(0, 3), "11000000 06" + n(0) + n(3), "05000000 00 61626364"),
            (lambda it: it.read_up_to(0, 3), "11000000 07" + n(0) + n(3), "05000000 00 61626364"),
            (lambda it: it.append_many([b"a"]), "0a000000 11 01000000 01000000 61", "01000000 00"),
            (lambda it: it.read_many([(0, 1)]), "11000000 14" + n(0) + n(1), "09000000 00" + n(0)),
        ]
        for number, (call, request, answer) in enumerate(cases):
            with self.subTest(number):
                blob = self.blob((request, answer), end=None)
                with self.assertRaises(WrongAnswer):
                    call(blob)
                with self.assertRaises(SessionClosed) as raised:
                    blob.sync()
                self.assertIsInstance(raised.exception.__cause__, WrongAnswer)
                blob.close()
        blob = self.blob(begun, ("11000000 0d" + n(0) + n(1), "02000000 00 02"), end=None)
        with self.assertRaises(WrongAnswer):
            replay(blob)

    def test_garbage_of_a_log(self):
        most = n(1048576)
        cases = [
            (lambda it: it.read((0, 0)), "11000000 06" + n(0) + n(0), "0a000000 00" + n(7) + "02"),
            (lambda it: it.read((0, 0)), "11000000 06" + n(0) + n(0), "0b000000 00" + n(7) + "0061"),
            (lambda it: it.next(), "11000000 07" + n(0) + n(0), "19000000 00" + n(0) * 3),
            (lambda it: it.next_many(), "19000000 1d" + n(0) + n(0) + most, "19000000 00" + n(0) + n(0) + n(1)),
            (lambda it: it.next_many(), "19000000 1d" + n(0) + n(0) + most, "19000000 00" + n(0) + n(0) + n(0)),
            (lambda it: it.next_many(), "19000000 1d" + n(0) + n(0) + most, "19000000 00" + n(0) + n(0) + "ff" * 8),
            (lambda it: it.next_many(), "19000000 1d" + n(0) + n(0) + most,
             "2f000000 00" + n(0) + n(9) + n(1) + n(0) + n(0) + "03000000 6162"),
            (lambda it: it.where(), "11000000 1c" + n(0) + "ff" * 8, "31000000 00" + n(0) * 5 + n(1)),
        ]
        for number, (call, request, answer) in enumerate(cases):
            with self.subTest(number):
                log = self.log((request, answer), end=None)
                with self.assertRaises(WrongAnswer):
                    call(log)
                log.close()

    def test_an_answer_that_is_cut(self):
        for answer in ("", "09", "09000000", "09000000 00", "09000000 00 00000000", "12000000 02", "12000000 02 02 00"):
            self.record(greeting(), f"< {OFFER}", f"> {BLOB_HELLO}", "< 02000000 01 61", f"> {answer}", "! pagedd: why",
                        "signal 15")
            blob = Blob("recording", program=RECORDED)
            with self.assertRaises(ProgramLost) as raised:
                blob.append(b"a")
            lost = raised.exception
            self.assertEqual((lost.exit_status, lost.words, lost.partial), (-15, "pagedd: why", answer != ""))
            self.assertIn("SIGTERM", str(lost))
            with self.assertRaises(SessionClosed) as again:
                blob.append(b"a")
            self.assertIs(again.exception.__cause__, lost)
            blob.close()

    def test_a_program_that_ends_before_a_large_request_has_gone(self):
        """Its answer is read though the pipe to it is closed."""
        self.record(greeting(), f"< {OFFER}", f"> {BLOB_HELLO}", "< 01001000", "> 12000000 20 02" + n(0) + n(0), "exit 2")
        blob = Blob("recording", program=RECORDED)
        with self.assertRaises(errors.RequestCut):
            blob.append(bytes(1 << 20))
        blob.close()
        self.record(greeting(), f"< {OFFER}", f"> {BLOB_HELLO}", "< 01001000", "! pagedd: gone", "exit 1")
        blob = Blob("recording", program=RECORDED)
        with self.assertRaises(ProgramLost) as raised:
            blob.append(bytes(1 << 20))
        self.assertEqual((raised.exception.exit_status, raised.exception.words), (1, "pagedd: gone"))


class Pieces(Case):
    """Answers in pieces, and several at once: a pipe keeps no bounds."""

    def test_an_answer_byte_by_byte(self):
        self.record(greeting(), f"< {OFFER}", f"> {BLOB_HELLO}", "< 11000000 06" + n(0) + n(2),
                    *[line for byte in ("03", "00", "00", "00", "00", "61", "62") for line in ("> " + byte, "wait 0.01")],
                    "< 01000000 05", "> 0900", "wait 0.01", "> 0000 00" + n(7), f"< {CLOSE}")
        with Blob("recording", program=RECORDED) as blob:
            self.assertEqual((blob.read(0, 2), blob.size()), (b"ab", 7))

    def test_a_long_answer(self):
        size = 300_000
        with self.blob(("11000000 06" + n(0) + n(size), f"{(size + 1).to_bytes(4, 'little').hex()} 00" + "61" * size),
                       ("01000000 05", "09000000 00" + n(7))) as blob:
            self.assertEqual((blob.read(0, size), blob.size()), (b"a" * size, 7))

    def test_long_answers_at_once(self):
        """Each begins in one piece and ends in another."""
        places = [(0, number) for number in range(5)]
        answers = [f"09000100 00 {n(number)}01" + f"{number:02x}" * 65_535 for number in range(5)]
        with self.log(("".join("11000000 06" + n(0) + n(number) for number in range(5)), "".join(answers)),
                      ("01000000 05", "09000000 00" + n(5))) as log:
            self.assertEqual(log.read_many(places), [bytes([number]) * 65_535 for number in range(5)])
            self.assertEqual(log.size(), 5)

    def test_records_where_the_highest_byte_is_first(self):
        records = [b"ab", b"", b"c" * 300]
        here = bytes_sent.records_frame(17, records)
        with unittest.mock.patch.object(bytes_sent, "_AS_HERE", False):
            self.assertEqual(bytes_sent.records_frame(17, records), here)

    def test_signals_while_a_request_is_written(self):
        """It goes on behind what has gone."""
        size = 1 << 20
        self.record(greeting(), f"< {OFFER}", f"> {BLOB_HELLO}", "wait 0.3", f"< {(size + 1).to_bytes(4, 'little').hex()} 01",
                    "< " + "61" * size, "> 09000000 00" + n(5), f"< {CLOSE}")
        before = signal.signal(signal.SIGALRM, lambda *_: None)
        blob = Blob("recording", program=RECORDED)
        signal.setitimer(signal.ITIMER_REAL, 0.02, 0.02)
        try:
            self.assertEqual(blob.append(b"a" * size), 5)
        finally:
            signal.setitimer(signal.ITIMER_REAL, 0)
            signal.signal(signal.SIGALRM, before)
        blob.close()


class Sessions(Case):
    """What a session does besides its requests."""

    def test_the_end_of_a_block_syncs_what_was_appended(self):
        with self.blob(("02000000 01 61", "09000000 00" + n(0)), ("01000000 02", DONE)) as blob:
            blob.append(b"a")

    def test_it_syncs_nothing_that_is_durable(self):
        with self.blob(("02000000 01 61", "09000000 00" + n(0)), ("01000000 02", DONE)) as blob:
            blob.append(b"a")
            blob.sync()

    def test_an_exception_leaves_it_without_a_sync(self):
        with self.assertRaises(KeyError):
            with self.blob(("02000000 01 61", "09000000 00" + n(0))) as blob:
                blob.append(b"a")
                raise KeyError
        self.assertEqual(blob.exit_status, 0)

    def test_a_sync_at_the_end_that_fails_is_an_exception(self):
        with self.assertRaises(SyncFailed):
            with self.blob(("02000000 01 61", "09000000 00" + n(0)), ("01000000 02", "12000000 04 03" + n(0) + n(5))) as blob:
                blob.append(b"a")
        self.assertTrue(blob.closed)

    def test_a_close_syncs_nothing(self):
        blob = self.blob(("02000000 01 61", "09000000 00" + n(0)))
        blob.append(b"a")
        blob.close()
        blob.close()
        with self.assertRaises(SessionClosed):
            blob.append(b"a")

    def test_an_interrupted_call(self):
        self.record(greeting(), f"< {OFFER}", f"> {BLOB_HELLO}", "< 01000000 02", "wait 1", "> " + DONE, "wait 60")
        blob = Blob("recording", program=RECORDED)

        def interrupt(*_):
            raise InterruptedError

        before = signal.signal(signal.SIGALRM, interrupt)
        signal.setitimer(signal.ITIMER_REAL, 0.2)
        try:
            with self.assertRaises(InterruptedError):
                blob.sync()
        finally:
            signal.signal(signal.SIGALRM, before)
        with self.assertRaises(SessionBroken):
            blob.size()
        blob._process.terminate()
        blob.close()
        self.assertEqual(blob.exit_status, -15)

    def test_a_fork(self):
        with self.blob(("01000000 02", DONE)) as blob:
            child = os.fork()
            if child == 0:
                try:
                    blob.sync()
                except AnotherProcess:
                    blob.close()
                    os._exit(7)
                os._exit(1)
            self.assertEqual(os.waitpid(child, 0)[1] >> 8, 7)
            blob.sync()

    def test_a_key_reaches_this_process_alone(self):
        with self.blob() as blob:
            self.assertNotEqual(os.getpgid(blob.process_id), os.getpgid(0))

    def test_what_is_no_data_and_no_place_is_not_sent(self):
        with self.log(("02000000 01 61", "11000000 00" + n(0) + n(0)), ("01000000 02", DONE)) as log:
            for data in ("text", "", 3, None, [1], memoryview(b"abcd").cast("H")):
                with self.assertRaisesRegex(TypeError, "data is bytes"):
                    log.append(data)
                with self.assertRaisesRegex(TypeError, "data is bytes"):
                    log.append_many([b"a", data])
            with self.assertRaisesRegex(TypeError, "and not int"):
                log.append_many(b"text")
            for place in ((0,), (0, 0, 0), 0, "000"):
                for call in (log.read, log.read_frame, log.next, log.next_many, log.pass_damage, log.records,
                             lambda it: log.read_many([it])):
                    with self.assertRaises((TypeError, ValueError)):
                        list(call(place))
            self.assertEqual(log.append(b"a"), (0, 0))

    def test_snapshots_and_replays_of_version_1_stay(self):
        with self.blob(("01000000 0a", "09000000 00" + n(0)), version=1) as blob:
            with blob.snapshot() as snapshot:
                with self.assertRaises(NotInVersion):
                    snapshot.drop()

    def test_errors_that_are_none_of_the_program(self):
        self.assertTrue(issubclass(ReadFailed, Refusal) and issubclass(WrongFields, Refusal))
        self.assertEqual(BlobInsufficientLength.status, 6)
        self.assertEqual(LogRequest.PASS_DAMAGE, 31)


if __name__ == "__main__":
    unittest.main()
