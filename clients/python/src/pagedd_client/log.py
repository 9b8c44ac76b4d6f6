"""A log of records in a folder: each has a place, and is found again after a crash if it was synced."""
from __future__ import annotations

import struct
from typing import Callable, Dict, Iterable, Iterator, List, NamedTuple, Optional, Sequence, Tuple, cast

from .errors import BlobInsufficientLength, Damaged, NoRecord, NotInVersion, Refusal
from .frames import GREATEST, MOST_BYTES, MOST_RECORD, Bytes, LogRequest, data_frame
from .program import Path, find_program, option_words, path_word
from .session import Session

# (a number of the module is found sooner than a member)
_APPEND, _READ, _NEXT = int(LogRequest.APPEND), int(LogRequest.READ), int(LogRequest.NEXT)
_SIZE, _SYNC = int(LogRequest.SIZE), int(LogRequest.SYNC)
_APPEND_RECORDS, _APPEND_RECORDS_SYNC = int(LogRequest.APPEND_RECORDS), int(LogRequest.APPEND_RECORDS_SYNC)

#: Where a record stands: a segment, and an offset in it. Later records have greater places.
Place = Tuple[int, int]

#: From here an iteration begins at the first record that the log has.
START: Place = (0, 0)

# The most bytes of an answer to a read.
_MOST_FOUND = 9 + MOST_RECORD

#: How many bytes an iteration reads at once, if it isn't said otherwise; and the most that the program answers.
PIECE, MOST_PIECE = 1 << 20, 1 << 24

_NUMBER = struct.Struct("<Q")
_PLACE = struct.Struct("<QQ")
_FOUND = struct.Struct("<QB")
_THREE = struct.Struct("<3Q")
_FOUR = struct.Struct("<4Q")
_SIX = struct.Struct("<6Q")
_LISTED = struct.Struct("<QQI")
_CLOSED = struct.Struct("<QQB")


class Frame(NamedTuple):
    """What stands at a place: a record, or None if the frame's checksum doesn't fit; and the place behind it."""

    data: Optional[bytes]
    behind: Place


class Batch(NamedTuple):
    """Some records, each with its place, and the place behind the last: where to go on."""

    records: List[Tuple[Place, bytes]]
    behind: Place


class Passed(NamedTuple):
    """What is passed of a damaged segment: where to go on, how many bytes, and how many records; None if that isn't
    known."""

    place: Place
    bytes: int
    records: Optional[int]


class Closed(NamedTuple):
    """What a closed segment has: records, and bytes, which are those of its content, or of its file if `of_file`."""

    records: int
    bytes: int
    of_file: bool


class Where(NamedTuple):
    """Where a log begins and ends: its first segment, the open one, the place of the end, how many records the open
    segment has, and what each closed segment has that was asked for, by its number."""

    first: int
    last: int
    end: Place
    records: int
    closed: Dict[int, Closed]


class Log(Session):
    """A log in a folder, served by a `pagedd` of its own. The folder is made if it is missing.

    A record has at most 65,535 bytes. `program` is where `pagedd` is (see `find_program`), and `version` the version of
    the protocol: None for the highest that both know. The options are those of `pagedd serve-log`: `segment_size`,
    `digest` ("sha512-256" or "poly61"), `page_size`, `checksum` ("crc32c" or "add"), `buffer`, `cache`, `cut`,
    `cut_limit` and `read_only`; None leaves the program's own. `options` are more words for the command line.

    What the opening cut is said in a warning of the class `ProgramWarning`, and stands in `hello`. `recovered` is how
    many records there were.

    >>> with Log("my-log") as log:
    ...     log.append_many([b"first", b"second"], sync=True)
    [(0, 0), (0, 12)]
    >>> with Log("my-log") as log:
    ...     for place, data in log:
    ...         print(place, data)
    (0, 0) b'first'
    (0, 12) b'second'
    """

    _appending = frozenset((LogRequest.APPEND, LogRequest.APPEND_RECORDS))

    def __init__(self, folder: Path, *, program: Optional[Path] = None, version: Optional[int] = None,
                 read_only: bool = False, segment_size: Optional[int] = None, digest: Optional[str] = None,
                 page_size: Optional[int] = None, checksum: Optional[str] = None, buffer: Optional[int] = None,
                 cache: Optional[int] = None, cut: bool = False, cut_limit: Optional[int] = None,
                 options: Sequence[str] = ()) -> None:
        words = option_words(segment_size=segment_size, digest=digest, page_size=page_size, checksum=checksum,
                             buffer=buffer, cache=cache, cut=cut, cut_limit=cut_limit, read_only=read_only)
        super().__init__([find_program(program), "serve-log", *words, *options, path_word(folder)], version)

    def _kind_name(self, kind: int) -> str:
        try:
            return LogRequest(kind).name.lower()
        except ValueError:
            return super()._kind_name(kind)

    def takes(self, kind: int) -> bool:
        """Whether the program takes a kind of request of version 2 that older ones don't: `where` and `next_many` came
        with 0.12, and `nth` and `pass_damage` with 0.13. A request that it doesn't take would end it.

        >>> with Log("my-log") as log:
        ...     log.takes(LogRequest.NEXT_MANY)
        True
        """
        return self.hello is not None and self.hello.kinds is not None and kind in self.hello.kinds

    def _need_listed(self, kind: int) -> None:
        self._need(kind)
        if not self.takes(kind):
            raise NotInVersion(f"this pagedd doesn't take {self._kind_name(kind)}")

    # Appends.

    def append(self, data: Bytes) -> Place:
        """Appends a record, and answers its place. It can be read at once, and is durable after a sync.

        >>> with Log("my-log") as log:
        ...     log.append(b"first"), log.append(b"second")
        ((0, 0), (0, 12))
        """
        segment, offset = _PLACE.unpack(self._ask((_APPEND, ()), data_frame(_APPEND, data), 16, 16))
        self._unsynced = True
        return segment, offset

    def append_many(self, records: Iterable[Bytes], *, sync: bool = False) -> List[Place]:
        """Appends records, one after another, by one request, and answers the place of each. With `sync` all of them
        are durable then. Batches of some KiB to some MiB are best.

        A batch is no transaction. If it is refused, `taken` says how many of its records were appended; after a crash
        the first records of it are there, in order and whole: none, some or all. So count them, and go on with the next
        one. In version 1 each record is a request.

        >>> with Log("my-log") as log:
        ...     log.append_many([b"ab", b"", b"cde"], sync=True)
        [(0, 0), (0, 9), (0, 16)]
        """
        if self.version == 1:
            return self._append_each(list(records), sync)
        payload = self._request_records(_APPEND_RECORDS_SYNC if sync else _APPEND_RECORDS, records, 16)
        self._unsynced = not sync
        return cast("List[Place]", list(_PLACE.iter_unpack(payload)))

    def _append_each(self, records: Sequence[Bytes], sync: bool) -> List[Place]:
        places: List[Place] = []
        try:
            for data in records:
                places.append(self.append(data))
            if sync:
                self.sync()
        except Refusal as refusal:
            refusal.taken = len(places)
            raise
        return places

    def sync(self) -> None:
        """Commits all records: whatever crashes from then on, they come back.

        >>> with Log("my-log") as log:
        ...     place = log.append(b"first")
        ...     log.sync()
        """
        self._request(_SYNC)
        self._unsynced = False

    def commit(self) -> None:
        """The same as `sync`, by the word that the pages have for it.

        >>> with Log("my-log") as log:
        ...     place = log.append(b"first")
        ...     log.commit()
        """
        self.sync()

    def size(self) -> int:
        """How many records the log has that weren't dropped, including those that aren't durable.

        >>> with Log("my-log") as log:
        ...     place = log.append(b"first")
        ...     log.size()
        1
        """
        count: int = _NUMBER.unpack(self._request(_SIZE, (), 8, 8))[0]
        return count

    def sync_size(self) -> int:
        """Commits all records, and answers how many there are. Version 1 does it by two requests.

        >>> with Log("my-log") as log:
        ...     place = log.append(b"first")
        ...     log.sync_size()
        1
        """
        if self.version == 1:
            self.sync()
            return self.size()
        (count,) = _NUMBER.unpack(self._request(LogRequest.SYNC_SIZE, (), 8, 8))
        self._unsynced = False
        return int(count)

    # Reads.

    def read(self, place: Place) -> bytes:
        """The record at a place.

        If the bytes there are a frame whose checksum doesn't fit, the exception is `NoRecord`.

        >>> with Log("my-log") as log:
        ...     place = log.append(b"first")
        ...     log.read(place)
        b'first'
        """
        segment, offset = place
        return self._record_at(place, self._request(_READ, (segment, offset), 9, _MOST_FOUND))

    def read_frame(self, place: Place) -> Frame:
        """What stands at a place, and the place behind it.

        >>> with Log("my-log") as log:
        ...     log.read_frame(log.append(b"first"))
        Frame(data=b'first', behind=(0, 12))
        """
        segment, offset = place
        return self._frame_at(place, self._request(_READ, (segment, offset), 9, _MOST_FOUND))

    def _record_at(self, place: Place, payload: bytes) -> bytes:
        if payload[8] != 1:
            # (first, whether it is an answer to a read)
            self._frame_at(place, payload)
            raise NoRecord(f"no record stands at {place}")
        return payload[9:]

    def _frame_at(self, place: Place, payload: bytes) -> Frame:
        end, is_record = _FOUND.unpack_from(payload)
        if is_record > 1 or not is_record and len(payload) > 9:
            self._wrong(f"the answer to a read of {place} says {is_record}, with {len(payload) - 9} bytes")
        return Frame(payload[9:] if is_record else None, (place[0], end))

    def read_many(self, places: Iterable[Place]) -> List[bytes]:
        """The records at some places. Many requests are on the way at once; `taken` of a refusal says how many records
        were read before the one that it is about.

        >>> with Log("my-log") as log:
        ...     log.read_many(log.append_many([b"first", b"second"]))
        [b'first', b'second']
        """
        asked = [(segment, offset) for segment, offset in places]
        answers = self._request_each(LogRequest.READ, asked, 9, _MOST_FOUND)
        return list(map(self._record_at, asked, answers))

    def next(self, place: Place = START) -> Optional[Tuple[Place, bytes, Place]]:
        """The first record at a place or after it: where it stands, its bytes, and the place behind it; None at the end
        of the log.

        >>> with Log("my-log") as log:
        ...     place = log.append(b"first")
        ...     log.next(), log.next((0, 12))
        (((0, 0), b'first', (0, 12)), None)
        """
        segment, offset = place
        try:
            payload = self._request(_NEXT, (segment, offset), 32, 32 + MOST_RECORD)
        except BlobInsufficientLength:
            return None
        segment, offset, behind_segment, behind = _FOUR.unpack_from(payload)
        return (segment, offset), payload[32:], (behind_segment, behind)

    def next_many(self, place: Place = START, most: int = PIECE) -> Batch:
        """The next records at a place or after it, as many as fit so many bytes with 20 more for each, and at least
        one. No record at the end of the log; there may be some later. A program before 0.12, and version 1, answer one
        at once.

        >>> with Log("my-log") as log:
        ...     places = log.append_many([b"first", b"second"])
        ...     log.next_many()
        Batch(records=[((0, 0), b'first'), ((0, 12), b'second')], behind=(0, 25))
        """
        if not self.takes(LogRequest.NEXT_MANY):
            found = self.next(place)
            return Batch([(found[0], found[1])], found[2]) if found else Batch([], place)
        segment, offset = place
        # (an answer holds no more than fit 16 MiB, and one record at least)
        bound = 24 + max(min(most, MOST_PIECE), 20 + MOST_RECORD)
        try:
            payload = self._request(LogRequest.NEXT_MANY, (segment, offset, most), 24, bound)
        except BlobInsufficientLength:
            return Batch([], place)
        segment, offset, count = _THREE.unpack_from(payload)
        at = 24 + 20 * count
        if at > len(payload):
            self._wrong(f"the answer to next_many says {count} records, and ends before their places")
        records: List[Tuple[Place, bytes]] = [((of, start), payload[at:(at := at + length)])
                                              for of, start, length in _LISTED.iter_unpack(payload[24:at])]
        if at != len(payload) or not count:
            self._wrong(f"the answer to next_many says {count} records of {at} bytes, and has {len(payload)}")
        return Batch(records, (segment, offset))

    def batches(self, place: Place = START, most: int = PIECE,
                passed: Optional[Callable[[Place, Passed], None]] = None) -> Iterator[Batch]:
        """The records from a place on, by batches of so many bytes, up to the end of the log as it is when that is
        reached. `behind` of the last batch is where to go on another time.

        If a page of a closed segment is damaged the exception is `Damaged`. With `passed` the iteration goes on behind
        that page instead, and calls it with the place and with what is passed.

        >>> with Log("my-log") as log:
        ...     places = log.append_many([b"first", b"second"])
        ...     for records, behind in log.batches():
        ...         print(len(records), behind)
        2 (0, 25)
        """
        while True:
            try:
                batch = self.next_many(place, most)
            except Damaged:
                if passed is None or not self.takes(LogRequest.PASS_DAMAGE):
                    raise
                damage = self.pass_damage(place)
                passed(place, damage)
                place = damage.place
                continue
            if not batch.records:
                return
            yield batch
            place = batch.behind

    def records(self, place: Place = START, most: int = PIECE,
                passed: Optional[Callable[[Place, Passed], None]] = None) -> Iterator[Tuple[Place, bytes]]:
        """Each record from a place on, with its place, read by batches as `batches` does.

        >>> with Log("my-log") as log:
        ...     places = log.append_many([b"first", b"second"])
        ...     list(log.records(places[1]))
        [((0, 12), b'second')]
        """
        for batch in self.batches(place, most, passed):
            yield from batch.records

    def __iter__(self) -> Iterator[Tuple[Place, bytes]]:
        """Each record from the first on, with its place.

        >>> with Log("my-log") as log:
        ...     place = log.append(b"first")
        ...     list(log)
        [((0, 0), b'first')]
        """
        return self.records()

    def nth(self, segment: int, number: int) -> Optional[Place]:
        """Where a record of a segment stands, by its number there, from 0 on; None if the segment has no such record.
        A program before 0.13 doesn't have it.

        >>> with Log("my-log") as log:
        ...     places = log.append_many([b"first", b"second"])
        ...     log.nth(0, 1), log.nth(0, 2)
        ((0, 12), None)
        """
        self._need_listed(LogRequest.NTH)
        try:
            found, offset = _PLACE.unpack(self._request(LogRequest.NTH, (segment, number), 16, 16))
        except BlobInsufficientLength:
            return None
        return found, offset

    def pass_damage(self, place: Place) -> Passed:
        """Where to go on behind the page that a place is in, for whoever was refused with `Damaged` there; and how much
        is passed. It doesn't look whether the page is damaged. A program before 0.13 doesn't have it.

        >>> with Log("my-log") as log:
        ...     log.pass_damage(log.append(b"first"))
        Passed(place=(0, 0), bytes=0, records=0)
        """
        self._need_listed(LogRequest.PASS_DAMAGE)
        segment, offset = place
        payload = self._request(LogRequest.PASS_DAMAGE, (segment, offset), 32, 32)
        segment, offset, length, count = _FOUR.unpack(payload)
        return Passed((segment, offset), length, None if count == GREATEST else count)

    # Segments.

    def where(self, start: int = 0, end: int = GREATEST) -> Where:
        """Where the log begins and ends, and what its closed segments have, from the number `start` to before the
        number `end`. No closed segment is read. A program before 0.12 doesn't have it.

        >>> with Log("my-log") as log:
        ...     place = log.append(b"first")
        ...     log.where()
        Where(first=0, last=0, end=(0, 12), records=1, closed={})
        """
        self._need_listed(LogRequest.WHERE)
        closed: Dict[int, Closed] = {}
        while True:
            payload = self._request(LogRequest.WHERE, (start, end), 48, MOST_BYTES)
            first, last, offset, records, number, count = _SIX.unpack_from(payload)
            if len(payload) != 48 + 17 * count:
                self._wrong(f"the answer to where says {count} segments, and has {len(payload)} bytes")
            for of, length, of_file in _CLOSED.iter_unpack(payload[48:]):
                closed[number] = Closed(of, length, of_file == 1)
                number += 1
            start = number
            if not count or start >= min(last, end):
                return Where(first, last, (last, offset), records, closed)

    def drop_before(self, segment: int) -> None:
        """Drops all segments before this one, with their records and their files. The open segment is never dropped. A
        drop is durable once it is answered, and can't be taken back. It commits nothing else.

        >>> with Log("my-log", segment_size=10) as log:
        ...     places = log.append_many([b"first", b"second", b"third"], sync=True)
        ...     log.drop_before(places[1][0])
        ...     [data for _, data in log]
        [b'second', b'third']
        """
        self._request(LogRequest.DROP_BEFORE, (segment,))

    def keep_last(self, bytes: int) -> int:
        """Drops old segments, so that what is left has about so many bytes: the segment with which the sum, from the
        end on, passes that is the first one that stays. Answers its number.

        >>> with Log("my-log", segment_size=10) as log:
        ...     places = log.append_many([b"first", b"second", b"third"], sync=True)
        ...     log.keep_last(13)
        1
        """
        where = self.where()
        first, total = where.last, where.end[1]
        while total <= bytes and first - 1 in where.closed:
            first -= 1
            total += where.closed[first].bytes
        if first > where.first:
            self.drop_before(first)
        return first

    def flush(self) -> None:
        """Has the program send all answers. It makes nothing durable: `sync` does. Only in version 2.

        >>> with Log("my-log") as log:
        ...     log.flush()
        """
        self._need(LogRequest.FLUSH)
        self._request(LogRequest.FLUSH)
