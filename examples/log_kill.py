"""Kills `pagedd serve-log` while it works: python3 log_kill.py PAGEDD [KILLS [SEED]]

A client appends numbered records over small segments, commits now and then, and drops old segments now
and then. What an answered commit covers is noted. The program is killed by SIGKILL at a random moment and
started again. The records that it has then must be numbered without a gap or a repeat, begin at the
oldest segment that wasn't dropped, and have all that was committed. It is never refused.

After each kill, and before the next start, a bit flips in a file of a copy of the folder, which is then salvaged:
at most one of the committed records may be missing, and none may be strange; and the folder itself is copied, by
`pagedd copy`, to a copy that is brought up to date: that has all committed ones, and `check` finds it whole.

It shows what the program keeps when it is killed. It doesn't show what a disk keeps when its power
fails: what the system was given is still there.
"""
import os
import shutil
import struct
import tempfile
import threading

import usage
from log_served import Session, play
from served import OpenRefused, ProgramLost
from statuses import contents, put

SMALL = "--segment-size=300"


def record(number):
    """A record: its number, and some bytes."""
    return struct.pack("<Q", number) + bytes((number + at) % 251 for at in range(number * 7919 % 120))


def number_of(data):
    return struct.unpack_from("<Q", data)[0]


class Kept:
    """What was asked of a log so far."""

    def __init__(self):
        # The next record's number; that up to which all are committed; and the place of each that was answered.
        self.next, self.committed, self.places = 0, 0, {}
        # The number of the segment before which an answered drop dropped all; and one that may have been dropped too.
        self.dropped = self.tried = 0


def work(log, kept, rng):
    """Appends, commits and drops until the program is gone."""
    try:
        while True:
            what = rng.random()
            if what < 0.25:
                log.sync()
                kept.committed = kept.next
            elif what < 0.35:
                count = rng.randrange(1, 9)
                first, kept.next = kept.next, kept.next + count
                places = log.append_many([record(first + at) for at in range(count)], sync=True)
                kept.places.update(enumerate(places, first))
                kept.committed = kept.next
            elif what < 0.37 and kept.committed:
                oldest, newest = kept.dropped, max(place[0] for place in kept.places.values())
                kept.tried = rng.randrange(oldest, newest + 1)
                log.drop_before(kept.tried)
                kept.dropped = kept.tried
            else:
                kept.next += 1
                kept.places[kept.next - 1] = log.append(record(kept.next - 1))
    except ProgramLost:
        return


def compare(kill, log, kept):
    """Holds the records of a log against what was asked of it before; answers how many more there are than were
    committed."""
    found = list(log)
    numbers = [number_of(data) for _, data in found]
    if any(data != record(number) for number, (_, data) in zip(numbers, found)):
        raise SystemExit(f"kill {kill}: a record has other bytes than were appended")
    if numbers != list(range(numbers[0], numbers[0] + len(numbers)) if numbers else []):
        raise SystemExit(f"kill {kill}: records are missing within, or repeated: {numbers}")
    if log.recovered != len(numbers):
        raise SystemExit(f"kill {kill}: the greeting tells {log.recovered} records, and there are {len(numbers)}")
    end = numbers[-1] + 1 if numbers else 0
    wanted = [number for number in range(kept.committed) if kept.places[number][0] >= kept.tried]
    if wanted and (not numbers or numbers[0] > wanted[0] or end < kept.committed):
        there = f"{numbers[0]} to {end}" if numbers else "none"
        raise SystemExit(f"kill {kill}: {wanted[0]} to {kept.committed} were committed; there are {there}")
    if end > kept.next:
        raise SystemExit(f"kill {kill}: records that weren't appended")
    for place, data in found:
        asked = kept.places.get(number_of(data))
        if asked not in (None, place):
            raise SystemExit(f"kill {kill}: record {number_of(data)} stands at {place}, and was answered {asked}")
        if place[0] < kept.dropped:
            raise SystemExit(f"kill {kill}: a record of segment {place[0]}, which was dropped")
    more = max(0, end - kept.committed)
    # What is there now is what goes on; what was open of the last drop is settled.
    kept.places = {number_of(data): place for place, data in found} | {
        number: place for number, place in kept.places.items() if numbers and number < numbers[0]}
    if numbers and kept.tried > kept.dropped and found[0][0][0] >= kept.tried:
        kept.dropped = kept.tried
    kept.tried = kept.dropped
    kept.next = max(end, 0)
    log.sync()
    kept.committed = kept.next
    return more


def damaged(kill, program, folder, room, kept, rng):
    """Flips a bit in a copy of the folder, and salvages that: answers how many committed records are missing."""
    bad, out = os.path.join(room, "bad"), os.path.join(room, "out")
    for there in (bad, out):
        shutil.rmtree(there, ignore_errors=True)
    shutil.copytree(folder, bad)
    path = os.path.join(bad, rng.choice(sorted(os.listdir(bad))))
    image = bytearray(contents(path))
    if image:
        image[rng.randrange(len(image))] ^= 1 << rng.randrange(8)
        put(path, image)
    status, _, said = play(program, "salvage", bad, out)
    if status not in (0, 3):
        raise SystemExit(f"kill {kill}: salvage ends with {status}: {said}")
    log = Session(program, out)
    found = [data for _, data in log]
    log.end()
    if any(data != record(number_of(data)) for data in found):
        raise SystemExit(f"kill {kill}: a record was salvaged that wasn't appended")
    numbers = {number_of(data) for data in found}
    wanted = {it for it in range(kept.committed) if kept.places[it][0] >= kept.tried}
    if len(wanted - numbers) > 1 or wanted - numbers and status == 0:
        raise SystemExit(f"kill {kill}: after one flipped bit {wanted - numbers} are missing, with {status}: {said}")
    return len(wanted - numbers)


def copied(kill, program, folder, room, kept):
    """Brings a copy of the log up to date, and sees that it has all that was committed."""
    out = os.path.join(room, "copy")
    status, _, said = play(program, "copy", folder, out)
    if status == 1 and "has another log" in said:
        # What wasn't committed when the copy was made is gone from the log, and its next segment has other records.
        shutil.rmtree(out)
        status, _, said = play(program, "copy", folder, out)
    if status != 0 or play(program, "check", out)[0] != 0:
        raise SystemExit(f"kill {kill}: copy ends with {status}: {said}")
    log = Session(program, out, "--read-only")
    numbers = {number_of(data) for _, data in log}
    log.end()
    wanted = {it for it in range(kept.committed) if kept.places[it][0] >= kept.tried}
    if wanted - numbers:
        raise SystemExit(f"kill {kill}: the copy hasn't {wanted - numbers}")


def main():
    program, kills, rng = usage.trials(__doc__, "KILLS", 50)
    kept, most, segments, missing = Kept(), 0, 0, 0
    with tempfile.TemporaryDirectory() as room:
        folder = os.path.join(room, "log")
        for kill in range(kills + 1):
            try:
                log = Session(program, folder, SMALL)
            except OpenRefused as refused:
                raise SystemExit(f"kill {kill}: it is refused: {refused}") from None
            most = max(most, compare(kill, log, kept))
            timer = threading.Timer(rng.random() * 0.2, log.process.kill)
            timer.start()
            work(log, kept, rng)
            timer.join()
            if kept.places:
                missing += damaged(kill, program, folder, room, kept, rng)
                copied(kill, program, folder, room, kept)
            segments = max(segments, max((place[0] for place in kept.places.values()), default=0))
    print(f"{kills} kills over {segments} segments: each committed record was there, and at most {most} more; of "
          f"{kills + 1} folders with a flipped bit all was salvaged but {missing} committed records")


if __name__ == "__main__":
    main()
