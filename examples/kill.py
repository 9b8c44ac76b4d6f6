"""Kills `pagedd` while it works: python3 kill.py PAGEDD [KILLS [SEED]]

A client appends numbered records and syncs now and then; what an answered sync covers is noted. The
program is killed by SIGKILL at a random moment and started again. What it recovers must begin with
all that was synced, and be the beginning of what was appended, record by record. Once a record was
synced it is never refused; before, there may be nothing to keep, and then it is cut by `--cut`.

It shows what the program keeps when it is killed. It doesn't show what a disk keeps when its power
fails: what the system was given is still there. `tear.py` is for that.
"""
import os
import struct
import tempfile
import threading

import usage
from served import ProgramLost, opened


def record(number):
    """A record: its number, its length and its bytes."""
    length = number * 7919 % 3000
    return struct.pack("<QI", number, length) + bytes((number + at) % 251 for at in range(length))


def whole_records(content):
    """How many records the content begins with, and how many bytes they have."""
    number, offset = 0, 0
    while content[offset:offset + len(record(number))] == record(number):
        offset += len(record(number))
        number += 1
    return number, offset


def work(blob, number, sent, synced, rng):
    """Appends and syncs until the program is gone; answers what was sent and what was synced."""
    try:
        while True:
            data = record(number)
            sent += data
            blob.append(data)
            number += 1
            if rng.random() < 0.3:
                blob.sync()
                synced = len(sent)
    except ProgramLost:
        return sent, synced


def main():
    program, kills, rng = usage.trials(__doc__, "KILLS", 50)
    sent, synced, most = b"", 0, 0
    with tempfile.TemporaryDirectory() as folder:
        path = os.path.join(folder, "log")
        for kill in range(kills + 1):
            blob = opened(program, path, synced)
            content = blob.read(0, blob.recovered)
            if content[:synced] != sent[:synced]:
                raise SystemExit(f"kill {kill}: synced bytes are gone: {len(content)} of {synced}")
            if content != sent[:len(content)]:
                raise SystemExit(f"kill {kill}: bytes that weren't appended")
            most = max(most, len(content) - synced)
            number, end = whole_records(content)
            # A record may have been torn off within; what is left of it is cut.
            blob.truncate(end)
            blob.begin()
            timer = threading.Timer(rng.random() * 0.05, blob.process.kill)
            timer.start()
            sent, synced = work(blob, number, content[:end], end, rng)
            timer.join()
            if end > 4_000_000:
                os.remove(path)
                sent, synced = b"", 0
    print(f"{kills} kills: each synced record was there, and at most {most} bytes more")


if __name__ == "__main__":
    main()
