"""The rule by which `pagedd` cuts, sets aside or refuses a file (docs/DECISIONS.md), for the other scripts."""
import struct
from collections import namedtuple

import reader
import usage

LIMIT = 1 << 20

# What a survey of a file reports: how many pages a recovery keeps, the bytes of content in them, and the bytes after
# them; how many of the whole pages after them have a value, and whether these are zeros; whether the last page is torn.
Survey = namedtuple("Survey", "pages len cut beyond blank torn")


def is_torn(page, size, checksum):
    """Whether the slot beside the one that gives a page's value says something and fails."""
    _, number = reader.value(page, size, checksum)
    if number == 0:
        return False
    length, crc = list(struct.iter_unpack(">HI", page[size:]))[2 - number]
    if (length, crc) == (0, 0):
        return False
    return not (1 <= length <= size and checksum(page[:length]) == crc)


def survey(image, size=4084, checksum=reader.crc32c):
    """The survey of a file with these bytes."""
    values, text = reader.read(image, size, checksum)
    kept = -(-len(text) // size)
    last = image[(kept - 1) * (size + 12):kept * (size + 12)]
    return Survey(
        pages=kept,
        len=len(text),
        cut=len(image) - kept * (size + 12),
        beyond=sum(1 for found, _ in values[kept:] if found),
        blank=not any(image[kept * (size + 12):len(values) * (size + 12)]),
        torn=len(text) % size > 0 and is_torn(last, size, checksum))


def set_aside(found, size=4084):
    """How many bytes at the end of a file may have been synced, and are copied before a recovery."""
    if found.torn:
        return found.cut + size + 12
    return 0 if found.blank and found.cut % (size + 12) == 0 else found.cut


def verdict(found, size=4084, limit=LIMIT):
    """What `pagedd serve` does with a file."""
    if found.cut == 0 and not found.torn:
        return "whole"
    if found.cut > 0 and found.pages == 0 or found.beyond > 0 and found.cut > limit:
        return "refuse"
    return "keep" if set_aside(found, size) > 0 else "cut"


if __name__ == "__main__":
    usage.module("tear.py and faults.py")
