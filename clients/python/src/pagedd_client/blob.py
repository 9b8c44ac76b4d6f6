"""A blob: bytes that are appended to a file, and found again after a crash if they were synced."""
from __future__ import annotations

import struct
from types import TracebackType
from typing import Iterable, Iterator, List, NamedTuple, Optional, Sequence, Tuple, Type

from .errors import BlobInsufficientLength, Error, NotInVersion, Refusal, TooLarge
from .frames import MOST_BYTES, BlobRequest, Bytes, data_frame, ranges_frame
from .program import Path, find_program, option_words, path_word
from .session import Session

_NUMBER = struct.Struct("<Q")
_NUMBERS = struct.Struct("<QQ")

# (a number of the module is found sooner than a member)
_APPEND, _READ, _READ_UP_TO = int(BlobRequest.APPEND), int(BlobRequest.READ), int(BlobRequest.READ_UP_TO)
_SIZE, _SYNC = int(BlobRequest.SIZE), int(BlobRequest.SYNC)
_APPEND_RECORDS, _APPEND_RECORDS_SYNC = int(BlobRequest.APPEND_RECORDS), int(BlobRequest.APPEND_RECORDS_SYNC)

#: How many bytes an iteration reads at once, if it isn't said otherwise.
PIECE = 65_536


class StartedRecords(NamedTuple):
    """What `append_many_start` answers: the offset of each record, and the name of the sync; None if all is durable."""

    offsets: List[int]
    started: Optional[int]


class RangesRead(NamedTuple):
    """What `read_ranges` answers: how many ranges were served from the buffer and the cache, and the bytes of each."""

    cached: int
    data: List[bytes]


class CountOpen(NamedTuple):
    """How many snapshots and replays the program keeps."""

    snapshots: int
    replays: int


class Blob(Session):
    """A blob in a file, served by a `pagedd` of its own. The file is made if it is missing.

    `path` is the file. `program` is where `pagedd` is (see `find_program`), and `version` the version of the protocol:
    None for the highest that both know. The options are those of `pagedd serve`: `page_size`, `checksum` ("crc32c" or
    "add"), `buffer`, `cache`, `cut`, `cut_limit` and `read_only`; None leaves the program's own. `create=False` refuses
    a file that isn't there. `options` are more words for the command line.

    What the opening cut is said in a warning of the class `ProgramWarning`, and stands in `hello`.

    >>> with Blob("content") as blob:
    ...     offset = blob.append(b"hello")
    ...     blob.sync()
    ...     blob.read(offset, 5)
    b'hello'
    >>> with Blob("content", read_only=True) as blob:
    ...     blob.recovered, blob.read(0, 5)
    (5, b'hello')
    """

    _appending = frozenset((BlobRequest.APPEND, BlobRequest.START_SYNC, BlobRequest.APPEND_RECORDS,
                            BlobRequest.APPEND_RECORDS_START))

    def __init__(self, path: Path, *, program: Optional[Path] = None, version: Optional[int] = None,
                 read_only: bool = False, create: bool = True, page_size: Optional[int] = None,
                 checksum: Optional[str] = None, buffer: Optional[int] = None, cache: Optional[int] = None,
                 cut: bool = False, cut_limit: Optional[int] = None, options: Sequence[str] = ()) -> None:
        words = option_words(page_size=page_size, checksum=checksum, buffer=buffer, cache=cache, cut=cut,
                             cut_limit=cut_limit, read_only=read_only)
        serve = ["serve"] if create else []
        super().__init__([find_program(program), *serve, *words, *options, path_word(path, always=not create)], version)

    def _kind_name(self, kind: int) -> str:
        try:
            return BlobRequest(kind).name.lower()
        except ValueError:
            return super()._kind_name(kind)

    def append(self, data: Bytes) -> int:
        """Puts bytes at the end, and answers the offset of the first one. They can be read at once, and are durable
        after a sync.

        >>> with Blob("content") as blob:
        ...     blob.append(b"ab"), blob.append(b"cde")
        (0, 2)
        """
        offset: int = _NUMBER.unpack(self._ask((_APPEND, ()), data_frame(_APPEND, data), 8, 8))[0]
        self._unsynced = True
        return offset

    def append_many(self, records: Iterable[Bytes], *, sync: bool = False) -> List[int]:
        """Puts records at the end, one after another, by one request, and answers the offset of each. With `sync` all
        of them are durable then. Batches of some KiB to some MiB are best.

        The blob keeps the bytes alone: keep the offsets, or frame the records. A batch is no transaction: after an
        exception the file may hold none of it, all, or a part from its beginning. Version 1 has no such request: there
        each record is a request, and `taken` of a refusal says how many were answered before it.

        >>> with Blob("content") as blob:
        ...     blob.append_many([b"ab", b"", b"cde"], sync=True)
        [0, 2, 2]
        """
        if self.version == 1:
            return self._append_each(list(records), sync)
        payload = self._request_records(_APPEND_RECORDS_SYNC if sync else _APPEND_RECORDS, records, 8)
        self._unsynced = not sync
        return [*struct.unpack(f"<{len(payload) // 8}Q", payload)]

    def _append_each(self, records: Sequence[Bytes], sync: bool) -> List[int]:
        offsets: List[int] = []
        try:
            for data in records:
                offsets.append(self.append(data))
            if sync:
                self.sync()
        except Refusal as refusal:
            refusal.taken = len(offsets)
            raise
        return offsets

    def append_many_start(self, records: Iterable[Bytes]) -> StartedRecords:
        """Puts records at the end as `append_many` does, and starts a sync: they are durable once `wait_sync` of its
        name has answered. Only in version 2.

        >>> with Blob("content") as blob:
        ...     offsets, started = blob.append_many_start([b"ab", b"c"])
        ...     if started is not None:
        ...         blob.wait_sync(started)
        ...     offsets
        [0, 2]
        """
        parts = list(records)
        payload = self._request_records(BlobRequest.APPEND_RECORDS_START, parts, 8, 1, 9)
        self._unsynced = True
        offsets = list(struct.unpack_from(f"<{len(parts)}Q", payload))
        return StartedRecords(offsets, self._started(payload[8 * len(parts):]))

    def _started(self, payload: bytes) -> Optional[int]:
        """The name of a started sync; None if a sync has made all durable."""
        if payload == b"\x00":
            self._unsynced = False
            return None
        if len(payload) != 9 or payload[0] != 1:
            self._wrong(f"a started sync is a byte 0, or a byte 1 and a name, and not {payload.hex()}")
        (name,) = _NUMBER.unpack_from(payload, 1)
        return int(name)

    def sync(self) -> None:
        """Makes all durable that was appended.

        >>> with Blob("content") as blob:
        ...     offset = blob.append(b"hello")
        ...     blob.sync()
        """
        self._request(_SYNC)
        self._unsynced = False

    def start_sync(self) -> Optional[int]:
        """Writes all that was appended, and starts to make it durable. Answers the name of this sync for `wait_sync`;
        None if all is durable already.

        >>> with Blob("content") as blob:
        ...     offset = blob.append(b"hello")
        ...     started = blob.start_sync()
        ...     blob.wait_sync(started)
        """
        return self._started(self._request(BlobRequest.START_SYNC, (), 1, 9))

    def wait_sync(self, started: int) -> None:
        """Waits for a started sync: what was appended before its start is durable then.

        >>> with Blob("content") as blob:
        ...     blob.wait_sync(7)
        Traceback (most recent call last):
        ...
        pagedd_client.errors.NoSuchNumber: wait_sync 7 was refused with status 20: there is no started sync of this \
name, or no snapshot or replay of this number; next: ask for something else: the request can't be met as it stands
        """
        self._request(BlobRequest.WAIT_SYNC, (started,))

    def size(self) -> int:
        """How many bytes the content has, including those that aren't durable.

        >>> with Blob("content") as blob:
        ...     offset = blob.append(b"hello")
        ...     blob.size()
        5
        """
        size: int = _NUMBER.unpack(self._request(_SIZE, (), 8, 8))[0]
        return size

    def sync_size(self) -> int:
        """Syncs, and answers the size: so many bytes are durable then. Version 1 does it by two requests.

        >>> with Blob("content") as blob:
        ...     offset = blob.append(b"hello")
        ...     blob.sync_size()
        5
        """
        if self.version == 1:
            self.sync()
            return self.size()
        (size,) = _NUMBER.unpack(self._request(BlobRequest.SYNC_SIZE, (), 8, 8))
        self._unsynced = False
        return int(size)

    def read(self, offset: int, length: int) -> bytes:
        """Exactly `length` bytes from `offset` on. All of them must be within the content.

        >>> with Blob("content") as blob:
        ...     offset = blob.append(b"hello")
        ...     blob.read(1, 3)
        b'ell'
        """
        return self._request(_READ, (offset, length), length, length)

    def read_up_to(self, offset: int, length: int) -> bytes:
        """At most `length` bytes from `offset` on, as many as there are. None at the end of the content is an
        exception, `BlobInsufficientLength`.

        >>> with Blob("content") as blob:
        ...     offset = blob.append(b"hello")
        ...     blob.read_up_to(3, 100)
        b'lo'
        """
        return self._request(_READ_UP_TO, (offset, length), 0, length)

    def read_many(self, ranges: Iterable[Tuple[int, int]]) -> List[bytes]:
        """The bytes of several ranges, each an offset and a length. Each begins at or after the end of the one before.
        It is one request; in version 1 it is one for each range.

        >>> with Blob("content") as blob:
        ...     offset = blob.append(b"hello")
        ...     blob.read_many([(0, 1), (3, 2)])
        [b'h', b'lo']
        """
        asked = list(ranges)
        if self.version == 2:
            return self.read_ranges(asked).data
        if any(length < 0 or length > MOST_BYTES for _, length in asked):
            raise TooLarge()
        return [self.read(offset, length) for offset, length in asked]

    def read_ranges(self, ranges: Iterable[Tuple[int, int]]) -> RangesRead:
        """As `read_many`, and how many ranges needed no read of the file. Only in version 2.

        >>> with Blob("content") as blob:
        ...     offset = blob.append(b"hello")
        ...     blob.read_ranges([(0, 1), (3, 2)])
        RangesRead(cached=2, data=[b'h', b'lo'])
        """
        self._need(BlobRequest.READ_RANGES)
        asked, hello = list(ranges), self.hello
        total = 8 + sum(length for _, length in asked)
        if hello is not None and (len(asked) > hello.most_ranges or total > hello.most_payload):
            raise TooLarge(f"a request holds {hello.most_ranges:,} ranges, and an answer {hello.most_payload:,} bytes")
        sent = ranges_frame(BlobRequest.READ_RANGES, asked)
        payload = self._ask((BlobRequest.READ_RANGES, ()), sent, total, total)
        found: List[bytes] = []
        at = 8
        for _, length in asked:
            found.append(payload[at:at + length])
            at += length
        return RangesRead(_NUMBER.unpack_from(payload)[0], found)

    def pieces(self, offset: int = 0, length: int = PIECE) -> Iterator[bytes]:
        """The content from an offset on, by pieces of so many bytes, up to its end as it is when that is reached.

        >>> with Blob("content") as blob:
        ...     start = blob.append(b"hello")
        ...     list(blob.pieces(1, 2))
        [b'el', b'lo']
        """
        if length < 1:
            raise ValueError("a piece has a byte at least")
        while True:
            try:
                piece = self.read_up_to(offset, length)
            except BlobInsufficientLength:
                return
            yield piece
            offset += len(piece)

    def begin(self) -> None:
        """Ends the recovery: from then on snapshots can be made, and a truncate is refused. Who only appends and reads
        needs no begin.

        >>> with Blob("content") as blob:
        ...     blob.begin()
        """
        self._request(BlobRequest.BEGIN)

    def truncate(self, size: int) -> int:
        """Cuts the content to its first `size` bytes, makes what is left durable, and answers how many there are. The
        recovery must not have ended.

        >>> with Blob("content") as blob:
        ...     offset = blob.append(b"hello")
        ...     blob.truncate(2), blob.read(0, 2)
        (2, b'he')
        """
        (left,) = _NUMBER.unpack(self._request(BlobRequest.TRUNCATE, (size,), 8, 8))
        self._unsynced = False
        return int(left)

    def snapshot(self) -> Snapshot:
        """Keeps the content as it stands, to be read while more is appended. `begin` comes first.

        >>> with Blob("content") as blob:
        ...     offset = blob.append(b"hello")
        ...     blob.begin()
        ...     with blob.snapshot() as snapshot:
        ...         more = blob.append(b" world")
        ...         snapshot.read(0, 5)
        b'hello'
        """
        (number,) = _NUMBER.unpack(self._request(BlobRequest.SNAPSHOT, (), 8, 8))
        return Snapshot(self, number)

    def replay(self, buffer_size: int = PIECE) -> Replay:
        """Goes over the content as it stands from its first byte on, and reads ahead within so many bytes. What is
        appended later isn't in it.

        >>> with Blob("content") as blob:
        ...     offset = blob.append(b"hello")
        ...     with blob.replay() as replay:
        ...         replay.read(4), replay.read(4), replay.read(4)
        (b'hell', b'o', b'')
        """
        if buffer_size < 1:
            raise ValueError("the buffer has a byte at least")
        (number,) = _NUMBER.unpack(self._request(BlobRequest.REPLAY, (buffer_size,), 8, 8))
        return Replay(self, number)

    def look(self) -> int:
        """How many bytes of the content a recovery would keep of what is written now, synced or not. It goes over the
        whole file. Only in version 2.

        >>> with Blob("content") as blob:
        ...     offset = blob.append(b"hello")
        ...     blob.sync()
        ...     blob.look()
        5
        """
        self._need(BlobRequest.LOOK)
        (size,) = _NUMBER.unpack(self._request(BlobRequest.LOOK, (), 8, 8))
        return int(size)

    def flush(self) -> None:
        """Has the program send all answers. It makes nothing durable: `sync` does. Only in version 2.

        >>> with Blob("content") as blob:
        ...     blob.flush()
        """
        self._need(BlobRequest.FLUSH)
        self._request(BlobRequest.FLUSH)

    def count_open(self) -> CountOpen:
        """How many snapshots and replays the program keeps. Only in version 2.

        >>> with Blob("content") as blob:
        ...     replay = blob.replay()
        ...     blob.count_open()
        CountOpen(snapshots=0, replays=1)
        """
        self._need(BlobRequest.COUNT_OPEN)
        return CountOpen(*_NUMBERS.unpack(self._request(BlobRequest.COUNT_OPEN, (), 16, 16)))


class _Kept:
    """Something that the program keeps by a number, until it is dropped or the program ends."""

    _drops: BlobRequest

    def __init__(self, blob: Blob, number: int) -> None:
        self._blob = blob
        #: The number by which the program knows it.
        self.number = number

    def drop(self) -> None:
        """Lets it go, with its memory. Only in version 2.

        >>> with Blob("content") as blob:
        ...     replay = blob.replay()
        ...     replay.drop()
        ...     blob.count_open()
        CountOpen(snapshots=0, replays=0)
        """
        self._blob._need(self._drops)
        self._blob._request(self._drops, (self.number,))

    def _leave(self, kind: Optional[Type[BaseException]]) -> None:
        try:
            self.drop()
        except NotInVersion:
            # In version 1 it is kept until the program ends.
            pass
        except Error:
            if kind is None:
                raise


class Snapshot(_Kept):
    """The content of a blob as it stood. As a context manager it is dropped at the end of the block.

    >>> with Blob("content") as blob:
    ...     blob.begin()
    ...     snapshot = blob.snapshot()
    ...     snapshot.number
    0
    """

    _drops = BlobRequest.DROP_SNAPSHOT

    def read(self, offset: int, length: int) -> bytes:
        """Exactly `length` bytes from `offset` on, of the content as it stood.

        >>> with Blob("content") as blob:
        ...     start = blob.append(b"hello")
        ...     blob.begin()
        ...     blob.snapshot().read(1, 2)
        b'el'
        """
        return self._blob._request(BlobRequest.SNAP, (self.number, offset, length), length, length)

    def __enter__(self) -> Snapshot:
        return self

    def __exit__(self, kind: Optional[Type[BaseException]], error: Optional[BaseException],
                 trace: Optional[TracebackType]) -> None:
        self._leave(kind)


class Replay(_Kept):
    """A way over the content of a blob. As a context manager it is dropped at the end of the block.

    >>> with Blob("content") as blob:
    ...     start = blob.append(b"hello")
    ...     with blob.replay() as replay:
    ...         list(replay.pieces(3))
    [b'hel', b'lo']
    """

    _drops = BlobRequest.DROP_REPLAY

    def ensure(self, count: int) -> bool:
        """Has so many bytes at hand, and answers whether there are as many; if not, those that are left are at hand.

        >>> with Blob("content") as blob:
        ...     start = blob.append(b"hello")
        ...     replay = blob.replay()
        ...     replay.ensure(5), replay.ensure(6)
        (True, False)
        """
        answer = self._blob._request(BlobRequest.ENSURE, (self.number, count), 1, 1)[0]
        if answer > 1:
            self._blob._wrong(f"an ensure is answered with a byte 0 or 1, and not {answer}")
        return answer == 1

    def take(self, count: int) -> bytes:
        """The next bytes that are at hand, at most so many. It doesn't read on: `ensure` comes first, or use `read`.

        >>> with Blob("content") as blob:
        ...     start = blob.append(b"hello")
        ...     replay = blob.replay()
        ...     replay.ensure(3), replay.take(3)
        (True, b'hel')
        """
        return self._blob._request(BlobRequest.TAKE, (self.number, count), 0, count)

    def read(self, count: int) -> bytes:
        """The next `count` bytes; fewer at the end, and none behind it.

        >>> with Blob("content") as blob:
        ...     start = blob.append(b"hello")
        ...     replay = blob.replay()
        ...     replay.read(3), replay.read(3), replay.read(3)
        (b'hel', b'lo', b'')
        """
        self.ensure(count)
        return self.take(count)

    def seek(self, offset: int) -> None:
        """Goes on from an offset.

        >>> with Blob("content") as blob:
        ...     start = blob.append(b"hello")
        ...     replay = blob.replay()
        ...     replay.seek(3)
        ...     replay.read(5)
        b'lo'
        """
        self._blob._request(BlobRequest.SEEK, (self.number, offset))

    def pieces(self, count: int = PIECE) -> Iterator[bytes]:
        """What is left, by pieces of so many bytes.

        >>> with Blob("content") as blob:
        ...     start = blob.append(b"hello")
        ...     list(blob.replay().pieces(2))
        [b'he', b'll', b'o']
        """
        if count < 1:
            raise ValueError("a piece has a byte at least")
        while True:
            piece = self.read(count)
            if not piece:
                return
            yield piece

    def __enter__(self) -> Replay:
        return self

    def __exit__(self, kind: Optional[Type[BaseException]], error: Optional[BaseException],
                 trace: Optional[TracebackType]) -> None:
        self._leave(kind)
