"""Reads a blob by docs/FORMAT.md: python3 reader.py P SUM [FILE]

P is the page size, and SUM the checksum function: add, const or crc32c. FILE holds the bytes of a
blob. Without it each line `blob ..` of standard input is read, as `pagedctl` prints its dumps.
"""
import argparse
import struct
import sys


def of_byte(state):
    for _ in range(8):
        state = state >> 1 ^ (0x82F63B78 if state & 1 else 0)
    return state


TABLE = [of_byte(byte) for byte in range(256)]


def crc32c(data):
    state = 0xFFFFFFFF
    for byte in data:
        state = TABLE[(state ^ byte) & 255] ^ state >> 8
    return state ^ 0xFFFFFFFF


SUMS = {"add": lambda data: sum(data) % 2**32, "const": lambda data: 0, "crc32c": crc32c}


def value(page, size, checksum):
    """A page's value, and the number of the slot that tells it: b"" and 0 where there is none."""
    found, slot = b"", 0
    for number, (length, crc) in enumerate(struct.iter_unpack(">HI", page[size:]), 1):
        if len(found) < length <= size and checksum(page[:length]) == crc:
            found, slot = page[:length], number
    return found, slot


def read(blob, size, checksum):
    """The values of all pages, each with its slot, and the text."""
    starts = range(0, len(blob) - size - 11, size + 12)
    values = [value(blob[at:at + size + 12], size, checksum) for at in starts]
    text = b""
    for found, _ in values:
        text += found
        if len(found) < size:
            break
    return values, text


def show(blob, size, checksum):
    values, text = read(blob, size, checksum)
    for page, (found, slot) in enumerate(values):
        told = ("no value", "{} bytes, first slot: {}", "{} bytes, second slot: {}")[slot]
        print(f"page {page}: " + told.format(len(found), found.hex()))
    if len(blob) % (size + 12):
        print(f"after the last page: {len(blob) % (size + 12)} bytes")
    print(f"text: {len(text)} bytes: {text.hex() or '-'}")


def words():
    """What the command line names."""
    parser = argparse.ArgumentParser(description=__doc__, formatter_class=argparse.RawDescriptionHelpFormatter)
    parser.add_argument("P", type=int, help="the page size, from 1 to 65535")
    parser.add_argument("SUM", choices=SUMS, help="the checksum function: add, const or crc32c")
    parser.add_argument("FILE", nargs="?", type=argparse.FileType("rb"), help="a blob")
    given = parser.parse_args()
    if not 1 <= given.P <= 65535:
        parser.error("a page has from 1 to 65535 bytes")
    return given.P, SUMS[given.SUM], given.FILE


def main():
    size, checksum, file = words()
    if file:
        with file:
            show(file.read(), size, checksum)
        return
    for line in sys.stdin:
        if line.startswith("blob "):
            show(bytes.fromhex(line[5:].replace("-", "")), size, checksum)


if __name__ == "__main__":
    main()
