"""A journal over `pagedd`: python3 journal.py PAGEDD FILE [RECORD ..]

Recovers the records of FILE, appends those of the command line, syncs, and prints all. A record is
framed as the crate `journal` does it, with CRC-32C: its length (2 bytes), its bytes, their checksum
(4 bytes), both numbers with the highest byte first, and a byte 1. So the last whole record shows by
itself, which a blob alone wouldn't. (A log of records, as `pagedd serve-log` keeps it, does that too.)

FILE is made where it is missing.
"""
import struct
import sys

from reader import crc32c
from served import Blob, Error

USAGE = "usage: python3 journal.py PAGEDD FILE [RECORD ..]"


def records(content):
    """The records, and the number of bytes of the whole frames."""
    found, offset = [], 0
    while offset + 2 <= len(content):
        length = struct.unpack_from(">H", content, offset)[0]
        if offset + length + 7 > len(content):
            break
        data = content[offset + 2:offset + 2 + length]
        checksum, mark = struct.unpack_from(">IB", content, offset + 2 + length)
        if mark == 1 and checksum == crc32c(data):
            found.append(data)
        offset += length + 7
    return found, offset


def framed(data):
    """A record as the file has it."""
    if len(data) > 65535:
        raise SystemExit("journal: a record has at most 65,535 bytes")
    return struct.pack(">H", len(data)) + data + struct.pack(">IB", crc32c(data), 1)


def main():
    if len(sys.argv) < 3:
        print(USAGE, file=sys.stderr)
        sys.exit(2)
    new = [word.encode() for word in sys.argv[3:]]
    try:
        with Blob(sys.argv[2], program=sys.argv[1]) as blob:
            print(blob.said, end="", file=sys.stderr)
            found, end = records(blob.read(0, blob.recovered))
            if end < blob.recovered:
                blob.truncate(end)
            blob.append_many(map(framed, new), sync=True)
    except Error as error:
        # (of records whose append was refused a part may be there: look before they are appended again)
        raise SystemExit(f"journal: {error}") from error
    for data in found + new:
        print(data.decode(errors="replace"))


if __name__ == "__main__":
    main()
