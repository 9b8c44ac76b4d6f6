"""Kills the program in the midst of appends of a log, and goes on: nothing durable is lost, and nothing is there twice."""
import random
import shutil
import struct
import threading
import unittest
import warnings

from room import GIVEN, Served

from pagedd_client import Error, Log, ProgramWarning, ProgramLost, SessionClosed


def record(number):
    """A record: its number, and some bytes; one in a hundred is long."""
    length = 60_000 if number % 100 == 99 else number * 7919 % 300
    return struct.pack("<Q", number) + bytes([number % 251]) * length


class Kills(Served):
    """A client that appends the numbered records of a log, each once, though its program is killed."""

    def test_kills(self):
        """Of what was appended since the last sync the first records are there, in order and whole. So a client that
        counts the records goes on with the next one: by the page nothing comes twice."""
        rng = random.Random(GIVEN["kills"])
        written, durable, first, most = 0, 0, 0, 0
        for kill in range(GIVEN["kills"]):
            log = self.opened(kill)
            # All up to the last answered sync is there, and no more than was sent.
            there = first + log.recovered
            self.assertTrue(durable <= there <= written, f"kill {kill}: {durable} are durable, {written} sent, {there} there")
            most = max(most, there - durable)
            written = durable = there
            if kill % 10 == 9:
                self.held(log, first, there)
            if kill % 50 == 49:
                # Old records are dropped: those of the segments before the open one.
                log.drop_before(log.where().last)
                first = there - log.size()
            timer = threading.Timer(rng.random() * rng.choice((0.002, 0.02, 0.05)), log._process.kill)
            timer.start()
            written, durable = self.append(log, written, durable, rng)
            timer.join()
            log.close()
            self.assertEqual(log.exit_status, -9)
            if kill % 200 == 199:
                self.held(self.opened(kill), first, None, durable, written)
                shutil.rmtree("log")
                written = durable = first = 0
        print(f"{GIVEN['kills']} kills; at most {most} records more were there than were durable")

    def opened(self, kill):
        """The log after a kill: it is never refused."""
        with warnings.catch_warnings():
            warnings.simplefilter("ignore", ProgramWarning)
            try:
                return Log("log", segment_size=100_000, digest="poly61")
            except Error as error:
                self.fail(f"kill {kill}: {error}")

    def append(self, log, written, durable, rng):
        """Appends until the program is gone; answers how many records were sent, and how many are durable."""
        try:
            while True:
                count, sync = rng.randrange(1, 60), rng.random() < 0.3
                records = [record(written + at) for at in range(count)]
                written += count
                if count == 1:
                    log.append(records[0])
                else:
                    log.append_many(records, sync=sync)
                    durable = written if sync else durable
                if rng.random() < 0.1:
                    log.sync()
                    durable = written
        except ProgramLost as lost:
            self.assertEqual(lost.exit_status, -9)
        except SessionClosed:
            self.fail("a lost program is an exception at once")
        return written, durable

    def held(self, log, first, end, durable=0, written=0):
        """Whether the log has the records from one to before another, each once and in order."""
        at = first
        for _, data in log:
            self.assertEqual(data, record(at))
            at += 1
        if end is None:
            self.assertTrue(durable <= at <= written)
            log.close()
        else:
            self.assertEqual(at, end)


if __name__ == "__main__":
    unittest.main()
