"""Tears the writes of `pagedd`: python3 tear.py PAGEDD [IMAGES [SEED]]

A client appends and syncs, and after each answer the file is read: so each state that the program's
calls left is known, and which of them a sync made durable. A crash may leave the durable state with
any part of what was written since. Such images are made at every call of the run: each byte from a
state of its own, each sector of 512 bytes, or a front of the newest state. The program is started on
each image: what it recovers must begin with all that was synced, and be the beginning of what was
appended. An image of which a byte was synced is never refused. What may have been synced of any, and
goes, is in a file beside it, and no other byte is; a line on standard error says so.

It shows that recovery stands such images. It doesn't show that a disk leaves no others.
"""
import os
import tempfile

import survey
import usage
from served import Served, opened

SECTOR = 512


def run(program, path, rng, calls):
    """Plays a run; of each call what a crash in it may leave: the states since the last sync, the
    oldest durable, how many bytes were synced before, and all that was appended."""
    blob = Served(program, path)
    states, sent, synced, crashes = [b""], b"", 0, []
    for _ in range(calls):
        kind = rng.random()
        if kind < 0.4:
            blob.sync()
        else:
            # Now and then more than is held back, which is written with no sync.
            data = rng.randbytes(rng.randrange(90_000) if kind < 0.5 else rng.randrange(3000))
            blob.append(data)
            sent += data
        with open(path, "rb") as file:
            states.append(file.read())
        crashes.append((list(states), synced, sent))
        if kind < 0.4:
            states, synced = [states[-1]], len(sent)
    blob.kill()
    return crashes


def piece(state, start, end):
    """A range of a state, filled up with zeros."""
    return state[start:end] + bytes(max(0, end - max(start, len(state))))


def torn(states, how, rng):
    """What a crash may leave of these states, the oldest of which is durable."""
    lengths = [len(state) for state in states]
    length = rng.choice(lengths + [rng.randint(min(lengths), max(lengths))])
    if how == "front":
        cut = rng.randrange(length + 1)
        return piece(states[-1], 0, min(cut, length)) + piece(states[0], cut, length)
    image = bytearray()
    for start in range(0, length, SECTOR):
        pieces = [piece(state, start, min(start + SECTOR, length)) for state in states]
        if how == "sector" or all(one == pieces[0] for one in pieces):
            image += rng.choice(pieces)
        else:
            image += bytes(rng.choice(column) for column in zip(*pieces))
    return bytes(image)


def check_told(path, image, said):
    """Whether bytes of an image were set aside: just those that may have been synced are in a file beside it, which is
    removed. What goes, or is copied, is told in one line."""
    found = survey.survey(image)
    count, beside = survey.set_aside(found), path + ".cut-1"
    kept = b""
    if os.path.exists(beside):
        with open(beside, "rb") as file:
            kept = file.read()
        os.remove(beside)
    if kept != image[len(image) - count:]:
        raise SystemExit(f"{path}: {len(kept)} bytes are beside it, and should be the last {count}")
    lines = 0 if survey.verdict(found) == "whole" else 1
    if said.count("\n") != lines:
        raise SystemExit(f"{path}: {lines} lines should tell what goes, and not: {said}")
    return count > 0


def main():
    program, images, rng = usage.trials(__doc__, "IMAGES", 400)
    tried, beside = {"byte": 0, "sector": 0, "front": 0}, 0
    with tempfile.TemporaryDirectory() as folder:
        crashes = run(program, os.path.join(folder, "log"), rng, 60)
        for number in range(images):
            states, synced, sent = crashes[number % len(crashes)]
            how = rng.choice(list(tried))
            path = os.path.join(folder, f"image-{number}")
            image = torn(states, how, rng)
            with open(path, "wb") as file:
                file.write(image)
            blob = opened(program, path, synced)
            content = blob.read(0, blob.recovered)
            blob.kill()
            beside += check_told(path, image, blob.said)
            os.remove(path)
            if content[:synced] != sent[:synced] or content != sent[:len(content)]:
                raise SystemExit(f"image {number}, by {how}: {len(content)} bytes, {synced} synced")
            tried[how] += 1
    each = ", ".join(f"{count} by {how}" for how, count in tried.items())
    print(f"{images} images at {len(crashes)} calls, {each}: nothing synced was lost, and what may have"
          f" been synced of {beside} is beside them")


if __name__ == "__main__":
    main()
