"""The client against the built program: each request, and what a careful user tries."""
import errno
import io
import logging
import logging.config
import os
import resource
import shutil
import signal
import subprocess
import sys
import threading
import time
import unittest
import warnings

from room import SOURCES, Served, contents, put

from pagedd_client import (START, Blob, BlobInsufficientLength, CannotOpen, CountOpen, Damaged, Error, InRecovery,
                           Locked, Log, LogHandler, Next, NoFrame, NoRecord, NoSegment, NoSuchNumber, NotWhole,
                           ProgramLost, ProgramNotStarted, ProgramWarning, RangesOutOfOrder, ReadOnly, RecoveryEnded,
                           ResizeFailed, SyncFailed, WriteFailed, WriterGone, WrongFields)

PAYLOAD, PAGE = 4084, 4096


class Blobs(Served):
    """A blob, in both versions of the protocol."""

    def test_each_request(self):
        for version in (1, 2):
            with self.subTest(version):
                path = f"content{version}"
                with Blob(path, version=version) as blob:
                    self.assertEqual((blob.version, blob.recovered), (version, 0))
                    self.assertEqual(blob.append(b"hello"), 0)
                    self.assertEqual(blob.append_many([b"ab", b"", b"cde"]), [5, 7, 7])
                    self.assertEqual(blob.append_many([b"f", b"g"], sync=True), [10, 11])
                    self.assertEqual((blob.size(), blob.sync_size()), (12, 12))
                    self.assertEqual(blob.read(5, 7), b"abcdefg")
                    self.assertEqual(blob.read_up_to(10, 100), b"fg")
                    self.assertEqual(blob.read_many([(0, 5), (5, 2), (11, 1)]), [b"hello", b"ab", b"g"])
                    self.assertEqual(list(blob.pieces(3, 4)), [b"loab", b"cdef", b"g"])
                    with self.assertRaises(InRecovery):
                        blob.snapshot()
                    self.assertEqual(blob.truncate(10), 10)
                    blob.begin()
                    with self.assertRaises(RecoveryEnded):
                        blob.truncate(0)
                    with blob.snapshot() as snapshot, blob.replay(4096) as replay:
                        self.assertEqual(blob.append(b"later"), 10)
                        self.assertEqual(snapshot.read(0, 10), b"helloabcde")
                        with self.assertRaises(BlobInsufficientLength):
                            snapshot.read(0, 11)
                        self.assertEqual((replay.read(6), replay.ensure(5), replay.take(9)), (b"helloa", False, b"bcde"))
                        replay.seek(8)
                        self.assertEqual(list(replay.pieces(1)), [b"d", b"e"])
                    started = blob.start_sync()
                    if started is not None:
                        blob.wait_sync(started)
                    with self.assertRaises(NoSuchNumber):
                        blob.wait_sync(99)
                with Blob(path, version=version, create=False) as blob:
                    self.assertEqual((blob.recovered, blob.read(0, 15)), (15, b"helloabcdelater"))

    def test_requests_of_version_2(self):
        with Blob("content") as blob:
            offsets, started = blob.append_many_start([b"ab", b"c"])
            if started is not None:
                blob.wait_sync(started)
            self.assertEqual((offsets, blob.look()), ([0, 2], 3))
            self.assertEqual(blob.read_ranges([(0, 2), (2, 1)]).data, [b"ab", b"c"])
            with self.assertRaises(RangesOutOfOrder):
                blob.read_ranges([(2, 1), (0, 2)])
            blob.begin()
            snapshot, replay = blob.snapshot(), blob.replay()
            self.assertEqual(blob.count_open(), CountOpen(1, 1))
            for kept in (snapshot, replay):
                kept.drop()
                with self.assertRaises(NoSuchNumber):
                    kept.drop()
            self.assertEqual(blob.count_open(), CountOpen(0, 0))
            blob.flush()
            self.assertEqual(blob.request(5).hex(), "0300000000000000")

    def test_the_end_of_the_content(self):
        with Blob("content") as blob:
            blob.append(b"hello")
            for call in (lambda: blob.read(0, 6), lambda: blob.read(6, 0), lambda: blob.read_up_to(5, 1),
                         lambda: blob.read_many([(4, 2)])):
                with self.assertRaises(BlobInsufficientLength) as raised:
                    call()
                self.assertIs(raised.exception.next, Next.SOMETHING_ELSE)
            self.assertEqual((blob.read(5, 0), blob.read_up_to(5, 0), list(blob.pieces(5))), (b"", b"", []))

    def test_large_ones(self):
        data = bytes(range(251)) * 40_000
        with Blob("content") as blob:
            self.assertEqual(blob.append_many([data[:5_000_000], data[5_000_000:]], sync=True), [0, 5_000_000])
            self.assertEqual(blob.read(0, len(data)), data)
            self.assertEqual(b"".join(blob.pieces(0, 1 << 20)), data)
            self.assertEqual(b"".join(blob.replay().pieces(100_000)), data)

    def test_options(self):
        with Blob("content", page_size=1012, checksum="add", buffer=5000, cache=10) as blob:
            self.assertEqual((blob.hello.page_size, blob.hello.checksum), (1012, "add"))
            blob.append(bytes(3000))
        with self.assertRaises(NotWhole) as raised:
            Blob("content")
        self.assertIn("--page-size 1012", raised.exception.words.replace("=", " "))
        for options in ({"page_size": 0}, {"checksum": "md5"}, {"options": ["--no-such-option"]}):
            with self.assertRaises(CannotOpen) as raised:
                Blob("content", **options)
            self.assertEqual(raised.exception.exit_status, 1)
            self.assertTrue(raised.exception.words)

    def test_names(self):
        names = ["Größe 数据 🦀", "-log", "--version", "check", "two words", 'a "quote"', "n" * 255]
        for name in names:
            with self.subTest(name):
                with Blob(name) as blob:
                    blob.append(name.encode())
                with Blob(name, create=False) as blob:
                    self.assertEqual(blob.read(0, blob.recovered).decode(), name)
        self.assertEqual(sorted(os.listdir()), sorted(names))
        with self.assertRaises(CannotOpen):
            Blob(os.fsdecode(b"no-utf-8-\xff"))
        with self.assertRaises(CannotOpen):
            Blob("n" * 256)
        with self.assertRaises(ValueError):
            Blob("a\0b")

    def test_what_cannot_be_opened(self):
        os.mkdir("folder")
        os.mkfifo("fifo")
        for path, options in (("folder", {}), ("fifo", {}), ("missing/content", {}), ("missing", {"create": False}),
                              ("missing", {"read_only": True}), ("", {})):
            with self.subTest(path):
                with self.assertRaises(CannotOpen) as raised:
                    Blob(path, **options)
                self.assertEqual(raised.exception.exit_status, 1)
                self.assertIn("pagedd: ", raised.exception.words)
        self.assertEqual(sorted(os.listdir()), ["fifo", "folder"])

    def test_a_locked_file(self):
        with Blob("content") as blob:
            for options in ({}, {"read_only": True}, {"version": 1}):
                with self.assertRaises(Locked) as raised:
                    Blob("content", **options)
                self.assertIn("end that process", str(raised.exception))
            blob.append(b"hello")
        with Blob("content") as blob:
            self.assertEqual(blob.recovered, 5)

    def test_a_file_for_reading_alone(self):
        with Blob("content") as blob:
            blob.append(b"hello")
        before = contents("content")
        for version in (1, 2):
            with Blob("content", read_only=True, version=version) as blob:
                self.assertEqual((blob.read(0, 5), blob.size()), (b"hello", 5))
                for call in (lambda: blob.append(b"a"), blob.sync, blob.start_sync, blob.begin, lambda: blob.truncate(0),
                             lambda: blob.append_many([b"a"]), blob.sync_size):
                    with self.assertRaises(ReadOnly):
                        call()
                if version == 2:
                    self.assertIs(blob.hello.read_only, True)
        self.assertEqual(contents("content"), before)

    def test_a_file_without_permission(self):
        with Blob("content") as blob:
            blob.append(b"hello")
        os.chmod("content", 0o444)
        os.chmod(self.folder, 0o555)

        class OfNobody(Blob):
            """Its program belongs to a user who may write nothing here."""

            def start_process(self, command):
                user = {"user": 65534} if os.geteuid() == 0 and sys.version_info >= (3, 9) else {}
                return subprocess.Popen(command, stdin=subprocess.PIPE, stdout=subprocess.PIPE, stderr=subprocess.PIPE, **user)

        try:
            with self.assertRaises(CannotOpen) as raised:
                OfNobody("content")
            self.assertIn("Permission denied", raised.exception.words)
            with self.assertRaises(CannotOpen):
                OfNobody("another")
            with OfNobody("content", read_only=True) as blob:
                self.assertEqual(blob.read(0, 5), b"hello")
        except ProgramNotStarted:
            self.skipTest("the program is in a folder that another user can't read")
        finally:
            os.chmod(self.folder, 0o755)

    def test_a_wrong_file(self):
        put("notes.txt", b"Dear diary, this is no blob.\n" * 400)
        before = contents("notes.txt")
        for options in ({}, {"read_only": True}):
            with self.assertRaises(NotWhole) as raised:
                Blob("notes.txt", **options)
            self.assertEqual(raised.exception.exit_status, 3)
            self.assertIn("pagedd check", raised.exception.what_next)
        self.assertEqual((contents("notes.txt"), os.listdir()), (before, ["notes.txt"]))
        with self.assertWarns(ProgramWarning):
            blob = Blob("notes.txt", cut=True)
        with blob:
            self.assertEqual((blob.recovered, blob.hello.cut, blob.hello.given_up), (0, len(before), len(before)))
            self.assertEqual(contents(blob.hello.copy), before)

    def test_a_rotten_and_a_torn_file(self):
        for what, damage in (("a bit flipped", lambda it: it[:PAGE + 10] + bytes([it[PAGE + 10] ^ 1]) + it[PAGE + 11:]),
                             ("cut off inside its last page", lambda it: it[:-100])):
            with self.subTest(what):
                with Blob("content") as blob:
                    blob.append(bytes(PAYLOAD + 1000))
                whole = contents("content")
                put("content", damage(whole))
                gone = len(damage(whole)) - PAGE
                with self.assertWarns(ProgramWarning) as warned:
                    blob = Blob("content")
                with blob:
                    self.assertEqual((blob.recovered, blob.hello.given_up), (PAYLOAD, gone))
                    self.assertEqual(contents(blob.hello.copy), damage(whole)[PAGE:])
                    self.assertIn(blob.hello.copy, str(warned.warning))
                    self.assertEqual(blob.said.strip(), str(warned.warning))
                os.remove("content")
                os.remove("content.cut-1")
        with Blob("content") as blob:
            blob.append(bytes(300 * PAYLOAD))
        whole = contents("content")
        put("content", whole[:100] + b"\xff" + whole[101:])
        with self.assertRaises(NotWhole):
            Blob("content")

    def test_a_full_disk(self):
        class Limited(Blob):
            """Its program may write so many bytes to a file."""

            def start_process(self, command):
                return subprocess.Popen(command, stdin=subprocess.PIPE, stdout=subprocess.PIPE, stderr=subprocess.PIPE,
                                        preexec_fn=limited)

        with Limited("content") as blob:
            blob.append_many([b"kept"], sync=True)
            with self.assertRaises((WriteFailed, ResizeFailed)) as raised:
                blob.append_many([bytes(20_000)] * 2, sync=True)
            refusal = raised.exception
            self.assertEqual((refusal.errno, refusal.next, refusal.taken), (errno.EFBIG, Next.OPEN_ANEW, 1))
            self.assertIn(os.strerror(errno.EFBIG), refusal.words)
            with self.assertRaises(WriterGone):
                blob.size()
            blob.close()
        self.assertEqual(blob.exit_status, 1)
        self.assertIn("File too large", blob.said)
        with warnings.catch_warnings():
            warnings.simplefilter("ignore", ProgramWarning)
            with Blob("content") as blob:
                self.assertEqual(blob.read(0, 4), b"kept")
                blob.truncate(4)
                self.assertEqual(blob.append_many([bytes(20_000)] * 2, sync=True), [4, 20_004])

    def test_a_limit_that_ends_the_program(self):
        """As `ulimit -f` does in a shell: the system sends a signal."""
        script = self.path("limited")
        put(script, f'#!/bin/sh\nulimit -f 16\nexec {self.program} "$@"\n'.encode())
        os.chmod(script, 0o755)
        with self.assertRaises(ProgramLost) as raised:
            with Blob("content", program=script) as blob:
                blob.append_many([b"kept"], sync=True)
                blob.append_many([bytes(100_000)], sync=True)
        self.assertEqual(raised.exception.exit_status, -signal.SIGXFSZ)
        self.assertIn("SIGXFSZ", str(raised.exception))
        with warnings.catch_warnings():
            warnings.simplefilter("ignore", ProgramWarning)
            with Blob("content") as blob:
                self.assertEqual(blob.read(0, 4), b"kept")

    def test_a_killed_program(self):
        blob = Blob("content")
        blob.append_many([b"kept"], sync=True)
        blob.kill()
        for call in (lambda: blob.append(b"more"), blob.sync, lambda: blob.read(0, 1)):
            with self.assertRaises(Error):
                call()
        blob.close()
        self.assertEqual(blob.exit_status, -signal.SIGKILL)
        with Blob("content") as blob:
            self.assertEqual(blob.read(0, blob.recovered), b"kept")

    def test_a_failed_sync(self):
        if shutil.which("strace") is None:
            self.skipTest("there is no strace")

        class Failing(Blob):
            """The sixth sync of its program fails, and all later ones: the first ones open the file."""

            def start_process(self, command):
                return super().start_process(["strace", "-f", "-o", "trace", "-e", "trace=fsync,fdatasync", "-e",
                                              "inject=fsync,fdatasync:error=EIO:when=6+", *command])

        try:
            with self.assertRaises(SyncFailed) as raised:
                with Failing("content") as blob:
                    for _ in range(9):
                        blob.append_many([b"record"], sync=True)
        except CannotOpen as refused:
            self.skipTest(f"strace can't follow a program here: {refused.words}")
        self.assertEqual((raised.exception.errno, raised.exception.next, raised.exception.taken), (errno.EIO, Next.REPLACE, 1))
        self.assertIn("pagedd rewrite", str(raised.exception))
        self.assertEqual(self.pagedd("rewrite", "content")[0], 0)
        with Blob("content") as blob:
            self.assertEqual(blob.recovered % 6, 0)


def limited():
    """A limit on the size of files, which is an error of the system as a full disk is."""
    signal.signal(signal.SIGXFSZ, signal.SIG_IGN)
    resource.setrlimit(resource.RLIMIT_FSIZE, (8 * PAGE, 8 * PAGE))


def record(number):
    """A record of about a hundred bytes."""
    return f"record {number} ".encode() * 8


def segment(number):
    return os.path.join("log", f"{number:020}.segment")


class Logs(Served):
    """A log, in both versions of the protocol."""

    def test_each_request(self):
        records = [record(number) for number in range(20)] + [b""]
        for version in (1, 2):
            with self.subTest(version):
                folder = f"log{version}"
                with Log(folder, version=version, segment_size=300) as log:
                    self.assertEqual((log.version, log.recovered, log.append(records[0])), (version, 0, (0, 0)))
                    places = [(0, 0)] + log.append_many(records[1:9]) + log.append_many(records[9:], sync=True)
                    self.assertEqual(places, sorted(set(places)))
                    self.assertEqual((log.size(), log.sync_size()), (21, 21))
                    self.assertEqual([log.read(place) for place in places], records)
                    self.assertEqual(log.read_many(places), records)
                    self.assertEqual(log.read_frame((0, 0)).behind, (0, 7 + len(records[0])))
                    pairs = list(zip(places, records))
                    self.assertEqual(list(log), pairs)
                    for at, (place, _) in enumerate(pairs):
                        self.assertEqual(list(log.records(place)), pairs[at:])
                        self.assertEqual(log.next(place)[:2], pairs[at])
                    end = log.next(places[-1])[2]
                    self.assertEqual((log.next(end), list(log.records(end))), (None, []))
                    log.drop_before(2)
                    left = [pair for pair in pairs if pair[0][0] >= 2]
                    self.assertEqual(list(log), left)
                    for call in (lambda: log.read((0, 0)), lambda: log.next((1, 0)), lambda: log.drop_before(10 ** 6)):
                        with self.assertRaises(NoSegment):
                            call()
                with Log(folder, version=version, read_only=True) as log:
                    self.assertEqual((log.recovered, list(log)), (len(left), left))
                    for call in (lambda: log.append(b"a"), log.sync, log.sync_size, lambda: log.drop_before(3),
                                 lambda: log.append_many([b"a"])):
                        with self.assertRaises(ReadOnly):
                            call()

    def test_requests_of_version_2(self):
        with Log("log", segment_size=300) as log:
            places = log.append_many(map(record, range(20)), sync=True)
            last = places[-1][0]
            where = log.where()
            self.assertEqual((where.first, where.last), (0, last))
            self.assertEqual(where.end, log.read_frame(places[-1]).behind)
            self.assertEqual(sum(it.records for it in where.closed.values()) + where.records, 20)
            for number, it in where.closed.items():
                inside = [place for place in places if place[0] == number]
                self.assertEqual(it.records, len(inside))
                self.assertEqual([log.nth(number, at) for at in range(len(inside) + 1)], inside + [None])
            self.assertEqual(list(log.where(1, 3).closed), [1, 2])
            records, behind = log.next_many(START, 0)
            self.assertEqual((records, behind), ([((0, 0), record(0))], log.read_frame((0, 0)).behind))
            self.assertEqual(log.pass_damage(places[-1]), (places[-1], 0, 0))
            with self.assertRaises(NoFrame):
                log.read((0, 1))
            self.assertEqual(sum(len(batch.records) for batch in log.batches(most=200)), 20)
            total = sum(it.bytes for it in where.closed.values()) + where.end[1]
            self.assertEqual(log.keep_last(total), 0)
            self.assertEqual(log.keep_last(0), last)
            self.assertEqual({place[0] for place, _ in log}, {last})
            log.flush()

    def test_records_of_each_length(self):
        with Log("log") as log:
            records = [b"", bytes(65_535), b"\xff", b"", bytes([7]) * 65_535]
            self.assertEqual(log.read_many(log.append_many(records)), records)
            for call in (lambda: log.append(bytes(65_536)), lambda: log.append_many([b"a", bytes(65_536)])):
                with self.assertRaises(WrongFields) as raised:
                    call()
                self.assertEqual((raised.exception.taken, raised.exception.next), (0, Next.SOMETHING_ELSE))
            self.assertEqual(log.size(), 5)
            self.assertEqual([data for _, data in log], records)
        with Log("log") as log:
            self.assertEqual([data for _, data in log], records)

    def test_many(self):
        """Many requests on the way, and answers that a pipe doesn't hold."""
        with Log("log", segment_size=1 << 20) as log:
            places = log.append_many([bytes([number % 251]) * 60_000 for number in range(300)])
            found = log.read_many(places * 3)
            self.assertEqual(len(found), 900)
            self.assertTrue(all(data == bytes([at % 300 % 251]) * 60_000 for at, data in enumerate(found)))
            self.assertEqual(sum(1 for _ in log.records(most=1 << 40)), 300)

    def test_a_consumer_goes_on(self):
        """It keeps the place behind what it has seen, over sessions, while the log grows."""
        seen, place = [], START
        for turn in range(5):
            with Log("log", segment_size=300) as log:
                log.append_many(record(turn * 10 + at) for at in range(10))
                for records, place in log.batches(place, 500):
                    seen += [data for _, data in records]
        self.assertEqual(seen, [record(number) for number in range(50)])

    def test_names(self):
        for name in ("Größe 数据 🦀", "-log", "a folder"):
            with Log(name) as log:
                log.append(name.encode())
            with Log(name) as log:
                self.assertEqual([data.decode() for _, data in log], [name])

    def test_what_cannot_be_opened(self):
        put("file", b"")
        os.mkdir("empty")
        for folder, options in (("file", {}), ("missing/log", {}), ("empty", {"read_only": True}),
                                ("missing", {"read_only": True}), ("empty", {"segment_size": 0}), ("empty", {"digest": "md5"})):
            with self.subTest(folder):
                with self.assertRaises(CannotOpen) as raised:
                    Log(folder, **options)
                self.assertTrue(raised.exception.words)
        self.assertEqual((sorted(os.listdir()), os.listdir("empty")), (["empty", "file"], []))
        with Log("log"):
            for options in ({}, {"read_only": True}):
                with self.assertRaises(Locked):
                    Log("log", **options)

    def a_log(self):
        with Log("log", segment_size=2000, page_size=100) as log:
            return log.append_many(map(record, range(60)), sync=True)

    def test_a_log_that_is_not_whole(self):
        self.a_log()
        for options in ({"page_size": 1012}, {"page_size": 100, "checksum": "add"}, {"page_size": 100, "digest": "poly61"}):
            with self.assertRaises(NotWhole):
                Log("log", **options)
        os.remove(os.path.join("log", "manifest"))
        with self.assertRaises(NotWhole) as raised:
            Log("log", page_size=100)
        self.assertIn("manifest", raised.exception.words)

    def test_a_damaged_segment(self):
        places = self.a_log()
        data = bytearray(contents(segment(0)))
        data[5 * 112 + 2] ^= 4
        put(segment(0), data)
        touched = [place for place, after in zip(places, places[1:]) if place[0] == 0 and place[1] // 100 <= 5
                   and (after[1] - 1 if after[0] == 0 else 10 ** 9) // 100 >= 5]
        with Log("log", page_size=100) as log:
            with self.assertRaises(Damaged) as raised:
                log.read(touched[0])
            self.assertIs(raised.exception.next, Next.SOMETHING_ELSE)
            with self.assertRaises(Damaged):
                list(log)
            passed = []
            found = [place for place, _ in log.records(passed=lambda place, it: passed.append(it))]
            self.assertEqual(found, [place for place in places if place not in touched])
            self.assertEqual(sum(it.records for it in passed), len(touched))

    def test_a_frame_that_is_no_record(self):
        """In the open segment nothing says where frames begin."""
        with Log("log") as log:
            log.append(bytes(100))
            self.assertIsNone(log.read_frame((0, 10)).data)
            with self.assertRaises(NoRecord):
                log.read((0, 10))

    def test_a_cut_log(self):
        with Log("log") as log:
            log.append_many([bytes(3000), bytes(3000)], sync=True)
        whole = contents(segment(0))
        put(segment(0), whole[:5000] + b"\xff" + whole[5001:])
        with self.assertWarns(ProgramWarning):
            log = Log("log")
        with log:
            self.assertEqual((log.recovered, log.read((0, 0))), (1, bytes(3000)))
            self.assertTrue(log.hello.given_up > 0 and contents(log.hello.copy) == whole[:5000] + b"\xff" + whole[5001:])

    def test_a_full_disk(self):
        class Limited(Log):
            """Its program may write so many bytes to a file."""

            def start_process(self, command):
                return subprocess.Popen(command, stdin=subprocess.PIPE, stdout=subprocess.PIPE, stderr=subprocess.PIPE,
                                        preexec_fn=limited)

        before = [b"kept %d" % number for number in range(10)]
        with Limited("log") as log:
            log.append_many(before, sync=True)
            with self.assertRaises((WriteFailed, ResizeFailed)) as raised:
                log.append_many([bytes(20_000)] * 4, sync=True)
            self.assertEqual((raised.exception.errno, raised.exception.next), (errno.EFBIG, Next.OPEN_ANEW))
            self.assertLessEqual(raised.exception.taken, 4)
            with self.assertRaises(WriterGone):
                log.append(b"a")
            log.close()
        with warnings.catch_warnings():
            warnings.simplefilter("ignore", ProgramWarning)
            with Log("log") as log:
                # (the first of the batch may be there)
                count = log.recovered
                self.assertTrue(10 <= count <= 14)
                log.append_many([bytes(20_000)] * (14 - count), sync=True)
                self.assertEqual([data for _, data in log], before + [bytes(20_000)] * 4)

    def test_a_program_killed_in_the_midst_of_an_answer(self):
        log = Log("log")
        log.append_many([bytes(60_000)] * 100, sync=True)
        timer = threading.Timer(0.05, log.kill)
        timer.start()
        with self.assertRaises(ProgramLost) as raised:
            while True:
                list(log.records(most=1 << 24))
        timer.join()
        self.assertEqual(raised.exception.exit_status, -signal.SIGKILL)

    def test_a_client_that_dies(self):
        """Its program ends by itself, and lets the folder go."""
        for how in ("os._exit(0)", "os.kill(os.getpid(), 9)", "raise SystemExit"):
            code = (f"import os, sys; sys.path.insert(0, {SOURCES!r}); from pagedd_client import Log; log = Log('log'); "
                    f"log.append_many([b'first', b'second'], sync=True); log.append(b'third'); {how}")
            subprocess.run([sys.executable, "-c", code], check=False, stderr=subprocess.DEVNULL)
            log = self.opened_soon("log")
            with log:
                self.assertEqual([data for _, data in log][:2], [b"first", b"second"])
            shutil.rmtree("log")

    def opened_soon(self, folder):
        """The log, once another program has let it go."""
        deadline = time.time() + 30
        while True:
            try:
                return Log(folder)
            except Locked:
                if time.time() > deadline:
                    raise
                time.sleep(0.05)

    def test_threads_take_turns(self):
        with Log("log") as log:
            def work(number):
                for at in range(50):
                    log.append_many([b"%d %d" % (number, at)] * 2, sync=at % 10 == 0)

            threads = [threading.Thread(target=work, args=(number,)) for number in range(4)]
            for thread in threads:
                thread.start()
            for thread in threads:
                thread.join()
            found = [data for _, data in log]
        self.assertEqual(sorted(found), sorted(b"%d %d" % (number, at) for number in range(4) for at in range(50)
                                               for _ in range(2)))
        self.assertEqual([data for data in found if data.startswith(b"2 ")],
                         [b"2 %d" % at for at in range(50) for _ in range(2)])


class Handlers(Served):
    """The handler of `logging`."""

    def setUp(self):
        super().setUp()
        self.logger = logging.Logger("tested")

    def texts(self, folder="log"):
        with Log(folder) as log:
            return [data.decode() for _, data in log]

    def test_records_go_to_the_log(self):
        handler = LogHandler("log", logging.INFO)
        handler.setFormatter(logging.Formatter("%(levelname)s %(message)s"))
        self.logger.addHandler(handler)
        self.logger.debug("not this")
        self.logger.info("first %d", 1)
        self.logger.error("größer 🦀")
        try:
            raise KeyError("x")
        except KeyError:
            self.logger.exception("second")
        handler.close()
        handler.close()
        found = self.texts()
        self.assertEqual(found[:2], ["INFO first 1", "ERROR größer 🦀"])
        self.assertTrue(found[2].startswith("ERROR second\nTraceback") and found[2].endswith("KeyError: 'x'"))

    def test_an_error_is_durable_at_once(self):
        handler = LogHandler("log")
        self.logger.addHandler(handler)
        self.logger.info("first")
        self.logger.error("second")
        handler.log.kill()
        self.assertEqual(self.texts(), ["first", "second"])
        with self.assertRaises(ProgramLost):
            handler.close()

    def test_long_texts_are_cut(self):
        handler = LogHandler("log")
        self.logger.addHandler(handler)
        self.logger.info("x" * 65_535)
        self.logger.info("ä" * 40_000)
        handler.close()
        first, second = self.texts()
        self.assertEqual(first, "x" * 65_535)
        kept = second.rstrip("] byteslafo.ut1234567890r[e ")
        self.assertTrue(set(kept) == {"ä"} and len(second.encode()) <= 65_535)
        self.assertTrue(second.endswith(f"[.. {80_000 - 2 * len(kept)} bytes are left out]"))

    def test_old_segments_go(self):
        handler = LogHandler("log", keep_bytes=2000, segment_size=500)
        self.logger.addHandler(handler)
        for number in range(500):
            self.logger.info("record %d", number)
        where = handler.log.where()
        self.assertTrue(where.first > 0 and sum(it.bytes for it in where.closed.values()) < 3500)
        handler.close()
        self.assertEqual(self.texts()[-1], "record 499")

    def test_a_lost_program_goes_to_handle_error(self):
        handler = LogHandler("log")
        self.logger.addHandler(handler)
        handler.log.kill()
        said, before = io.StringIO(), sys.stderr
        sys.stderr = said
        try:
            self.logger.info("first")
            self.logger.info("second")
        finally:
            sys.stderr = before
        self.assertIn("ProgramLost", said.getvalue())
        self.assertIn("SessionClosed", said.getvalue())
        handler.close()

    def test_it_is_configured_by_a_dictionary(self):
        logging.config.dictConfig({
            "version": 1, "disable_existing_loggers": False,
            "handlers": {"log": {"class": "pagedd_client.LogHandler", "folder": "log", "segment_size": 1000}},
            "loggers": {"configured": {"handlers": ["log"], "level": "INFO"}}})
        logger = logging.getLogger("configured")
        logger.info("first")
        (handler,) = logger.handlers
        logger.removeHandler(handler)
        handler.close()
        self.assertEqual(self.texts(), ["first"])

    def test_a_fork_leaves_it_alone(self):
        code = (f"import logging, os, sys; sys.path.insert(0, {SOURCES!r}); from pagedd_client import LogHandler\n"
                "logging.basicConfig(level=logging.INFO, format='%(message)s', handlers=[LogHandler('log')])\n"
                "logging.info('before')\n"
                "child = os.fork()\n"
                "if child == 0: sys.exit(0)\n"
                "os.waitpid(child, 0)\n"
                "logging.info('after')\n")
        ended = subprocess.run([sys.executable, "-c", code], capture_output=True, check=False)
        self.assertEqual((ended.returncode, ended.stderr), (0, b""))
        self.assertEqual(self.texts(), ["before", "after"])


if __name__ == "__main__":
    unittest.main()
