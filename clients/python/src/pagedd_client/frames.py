"""The bytes of both protocols, as docs/PROTOCOL.md has them: requests, records, the hello."""
from __future__ import annotations

import array
import enum
import struct
import sys
from typing import Iterable, List, NamedTuple, Sequence, Tuple, Union

from .errors import TooLarge

#: Bytes that a call takes.
Bytes = Union[bytes, bytearray, memoryview]

#: The greatest number of 64 bits.
GREATEST = 2 ** 64 - 1

#: The most bytes of the fields of a request, and of a payload.
MOST_BYTES = 4_294_967_294

#: The most bytes of a record of a log.
MOST_RECORD = 65_535

#: How many bytes a refusal of version 2 has besides its words, and how many these may have.
REFUSAL, MOST_WORDS = 17, 255

#: The most bytes of a hello. A later program may add to it; one that is longer than this is none.
MOST_HELLO = 1 << 20

# A frame's length and its kind, and with so many numbers.
_HEAD = struct.Struct("<IB")
_FRAMES = tuple(struct.Struct(f"<IB{count}Q") for count in range(4))
_HELLO = struct.Struct("<BB8Q")
_LENGTH = struct.Struct("<Q")

# Whether this machine has a number of 32 bits as the protocol has it.
_AS_HERE = sys.byteorder == "little" and array.array("I").itemsize == 4


def _no_bytes(parts: Iterable[object]) -> TypeError:
    """What is raised for data that isn't of single bytes. The length of a view counts its items, which may have several."""
    other = [type(it).__name__ for it in parts if not isinstance(it, (bytes, bytearray, memoryview))]
    return TypeError("data is bytes, a bytearray, or a view of single bytes" + (f", and not {other[0]}" if other else ""))


class BlobRequest(enum.IntEnum):
    """The kinds of requests of a blob."""

    APPEND = 1
    SYNC = 2
    START_SYNC = 3
    WAIT_SYNC = 4
    SIZE = 5
    READ = 6
    READ_UP_TO = 7
    BEGIN = 8
    TRUNCATE = 9
    SNAPSHOT = 10
    SNAP = 11
    REPLAY = 12
    ENSURE = 13
    TAKE = 14
    SEEK = 15
    CLOSE = 16
    APPEND_RECORDS = 17
    APPEND_RECORDS_SYNC = 18
    APPEND_RECORDS_START = 19
    READ_RANGES = 20
    SYNC_SIZE = 21
    LOOK = 22
    DROP_SNAPSHOT = 23
    DROP_REPLAY = 24
    FLUSH = 25
    COUNT_OPEN = 26


class LogRequest(enum.IntEnum):
    """The kinds of requests of a log."""

    APPEND = 1
    SYNC = 2
    SIZE = 5
    READ = 6
    NEXT = 7
    CLOSE = 16
    APPEND_RECORDS = 17
    APPEND_RECORDS_SYNC = 18
    SYNC_SIZE = 21
    FLUSH = 25
    DROP_BEFORE = 27
    WHERE = 28
    NEXT_MANY = 29
    NTH = 30
    PASS_DAMAGE = 31


class Hello(NamedTuple):
    """What the program states at the start of version 2."""

    version: int
    read_only: bool
    #: The number of bytes of a blob, or of records of a log, as it was opened.
    size: int
    #: The content bytes of a page.
    page_size: int
    most_payload: int
    most_fields: int
    #: For a blob the most ranges of a request, for a log the most bytes of a record.
    most_ranges: int
    most_records: int
    #: How many bytes the opening cut, or for reading alone hides; and how many it gave up. 0 if all was in order.
    cut: int
    given_up: int
    checksum: str
    #: The copy that was made of what was given up; empty if none was.
    copy: str
    #: The kinds of requests that a log's program takes; None if it doesn't list them.
    kinds: Union[bytes, None]


def frame(kind: int, *numbers: int, data: Bytes = b"") -> bytes:
    """A request.

    >>> frame(BlobRequest.SYNC).hex()
    '0100000002'
    >>> frame(BlobRequest.APPEND, data=b"hello").hex()
    '060000000168656c6c6f'
    """
    fields = data_frame(kind, data)[5:]
    if numbers:
        fields = numbers_frame(kind, numbers)[5:] + fields
    return data_frame(kind, fields)


def numbers_frame(kind: int, numbers: Tuple[int, ...]) -> bytes:
    """A request whose fields are numbers.

    >>> numbers_frame(BlobRequest.WAIT_SYNC, (1,)).hex()
    '09000000040100000000000000'
    """
    count = len(numbers)
    packed = _FRAMES[count] if count < 4 else struct.Struct(f"<IB{count}Q")
    try:
        return packed.pack(1 + 8 * count, kind, *numbers)
    except struct.error:
        wrong = [it for it in numbers if not isinstance(it, int) or not 0 <= it <= GREATEST]
        raise ValueError("each number is from 0 to 2**64 - 1" + (f", and not {wrong[0]!r}" if wrong else "")) from None


def data_frame(kind: int, data: Bytes) -> bytes:
    """A request whose fields are bytes.

    >>> data_frame(BlobRequest.APPEND, b"hello").hex()
    '060000000168656c6c6f'
    """
    try:
        made = _HEAD.pack(1 + len(data), kind) + data
    except struct.error:
        raise TooLarge() from None
    except TypeError:
        raise _no_bytes([data]) from None
    if len(made) != 5 + len(data):
        raise _no_bytes([])
    return made


def records_frame(kind: int, records: Iterable[Bytes]) -> bytes:
    """A request with records: how many, the length of each, and their bytes.

    >>> records_frame(BlobRequest.APPEND_RECORDS, [b"ab", b"c"]).hex()
    '1000000011020000000200000001000000616263'
    """
    return counted_frame(kind, records)[0]


def counted_frame(kind: int, records: Iterable[Bytes]) -> Tuple[bytes, int]:
    """A request with records, and how many there are.

    >>> counted_frame(BlobRequest.APPEND_RECORDS, iter([b"ab", b"c"]))[1]
    2
    """
    parts: List[Bytes] = [b"", *records]
    count = len(parts) - 1
    try:
        numbers = list(map(len, parts))
        fields = 4 + 4 * count + sum(numbers)
        if fields > MOST_BYTES:
            raise TooLarge(f"the fields of a request have {MOST_BYTES:,} bytes at most")
        numbers[0] = count
        head = _HEAD.pack(1 + fields, kind)
        parts[0] = head + (array.array("I", numbers) if _AS_HERE else struct.pack(f"<{count + 1}I", *numbers))
        made = b"".join(parts)
    except TypeError:
        raise _no_bytes(parts) from None
    if len(made) != 5 + fields:
        raise _no_bytes([])
    return made, count


def ranges_frame(kind: int, ranges: Sequence[Tuple[int, int]]) -> bytes:
    """A request with ranges: the offset and the length of each.

    >>> ranges_frame(BlobRequest.READ_RANGES, [(1, 2)]).hex()
    '110000001401000000000000000200000000000000'
    """
    return numbers_frame(kind, tuple([number for one in ranges for number in one]))


def take_hello(payload: bytes) -> Hello:
    """Reads a hello. A later program may add to it at its end.

    >>> take_hello(b"\\2")
    Traceback (most recent call last):
    ...
    ValueError: the hello ends inside its fields
    """
    try:
        version, alone, size, page, payloads, fields, ranges, records, cut, given = _HELLO.unpack_from(payload)
        at = _HELLO.size
        words: List[bytes] = []
        for _ in range(2):
            (length,) = _LENGTH.unpack_from(payload, at)
            at += 8
            if at + length > len(payload):
                raise ValueError("the hello ends inside its fields")
            words.append(payload[at:at + length])
            at += length
    except struct.error:
        raise ValueError("the hello ends inside its fields") from None
    kinds = None
    if len(payload) >= at + 8:
        (length,) = _LENGTH.unpack_from(payload, at)
        if at + 8 + length <= len(payload):
            kinds = payload[at + 8:at + 8 + length]
    return Hello(version, alone == 1, size, page, payloads, fields, ranges, records, cut, given,
                 words[0].decode(errors="replace"), words[1].decode(errors="surrogateescape"), kinds)
