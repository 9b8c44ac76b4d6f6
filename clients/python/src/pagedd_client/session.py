"""A session with `pagedd`: the process, its pipes, and one exchange after the other."""
from __future__ import annotations

import io
import os
import struct
import subprocess
import threading
import warnings
from types import TracebackType
from typing import IO, Dict, FrozenSet, Iterable, List, NoReturn, Optional, Sequence, Tuple, Type, TypeVar, Union, cast

from . import frames
from .errors import (AnotherProcess, CannotOpen, Error, Locked, Next, NoKnownVersion, NotInVersion, NotWhole, OpenRefused,
                     ProgramLost, ProgramNotStarted, ProgramWarning, Refusal, SessionBroken, SessionClosed, TooLarge,
                     WrongAnswer, exit_words, system_words)
from .frames import MOST_BYTES, MOST_HELLO, MOST_WORDS, REFUSAL, Bytes, Hello

_LENGTH = struct.Struct("<I")
_HEAD = struct.Struct("<IB")
_NUMBER = struct.Struct("<Q")
_REFUSAL = struct.Struct("<BQQ")
_CLOSE = frames.frame(frames.BlobRequest.CLOSE)

# The words by which the program says that another process has the file.
_LOCKED = "another process has it open"

# How many bytes of requests are on the way at once. A pipe holds 4,096 bytes at least, so that they are all written
# although the program reads none while it waits to write an answer.
_WINDOW = 4096

# How long the payload of a refusal may be, in each version.
_REFUSALS = {1: (0, 0), 2: (REFUSAL, REFUSAL + MOST_WORDS)}

# How many bytes of answers are read at once: as many as a pipe mostly holds.
_PIECE = 1 << 16

# No answers that have come and aren't taken.
_NOTHING = (b"", 0)

# How long a program whose pipes are closed may take to end, before it is killed, if something went wrong.
_PATIENCE = 5.0

# A request: its name, or its kind and its numbers, of which a name is made where one is needed.
_Asked = Union[str, Tuple[int, Tuple[int, ...]]]

_Self = TypeVar("_Self", bound="Session")


class Session:
    """A program that was started, and a version of the protocol that both know. `Blob` and `Log` are sessions.

    One call is one exchange: a request, and its answer. Calls from several threads take turns. After a fork only the
    process that opened the session uses it.

    As a context manager it syncs what was appended, and closes. If an exception leaves the block it closes without a
    sync. `close` alone never syncs.
    """

    # The kinds of requests whose bytes wait for a sync.
    _appending: FrozenSet[int] = frozenset()

    #: The version of the protocol that is spoken: 1 or 2.
    version: int
    #: How many bytes of content, or for a log how many records, there were when it was opened.
    recovered: int
    #: What the program stated at the start; None in version 1.
    hello: Optional[Hello]

    def __init__(self, command: Sequence[str], version: Optional[int] = None) -> None:
        if version not in (None, 1, 2):
            raise ValueError("the version is 1 or 2, or None for the highest that both know")
        self._command = list(command)
        self._lock = threading.Lock()
        self._owner = os.getpid()
        self._process: Optional[subprocess.Popen[bytes]] = None
        self._exit_status: Optional[int] = None
        # What the program said on standard error, and how much of it as it opened the file.
        self._heard, self._opening = bytearray(), 0
        # Whether a request is on the way, and whether something waits for a sync.
        self._busy = self._unsynced = False
        # What came of answers, and how much of it was taken.
        self._came, self._at = _NOTHING
        # Why the session is over, and the first refusal after which the program ends with status 1.
        self._over: Optional[Error] = None
        self._failed: Optional[Error] = None
        try:
            self._agree(version)
            self._opening = len(self._listen())
            if self._opening:
                warnings.warn(self.said.strip(), ProgramWarning, stacklevel=3)
        except BaseException:
            self._abandon()
            raise

    def start_process(self, command: Sequence[str]) -> subprocess.Popen[bytes]:
        """Starts the program. A subclass may start it otherwise, as with a limit, with all three streams as pipes.

        It gets a process group of its own, so that a Ctrl-C in a terminal reaches this process alone. If this process
        dies, the program's input ends, and so does the program.

        >>> class Nice(Log):
        ...     def start_process(self, command):
        ...         return super().start_process(["nice", *command])
        >>> with Nice("my-log") as log:
        ...     log.size()
        0
        """
        return subprocess.Popen(command, stdin=subprocess.PIPE, stdout=subprocess.PIPE, stderr=subprocess.PIPE,
                                bufsize=0, start_new_session=True)

    # The start.

    def _agree(self, version: Optional[int]) -> None:
        """Starts the program, and agrees on a version with it."""
        self._start()
        self.hello = None
        self.version = 1
        if version == 1:
            self._write(b"\x01")
            return
        self._write(b"\x02\x01\x02" if version == 2 else b"\x02\x02\x01\x02")
        # A refusal of an offer has the form of version 2, except one of no known version.
        self.version = 2
        try:
            payload = self._hello()
        except ProgramLost as lost:
            # A program of version 1 alone takes an offer for a wrong version: it ends with 2, and answers nothing.
            if lost.exit_status != 2 or lost.partial or version == 2:
                raise
            self._start()
            self.version = 1
            self._write(b"\x01")
            return
        if payload == b"\x01" and version is None:
            self.version = 1
            return
        try:
            self.hello = frames.take_hello(payload)
            if self.hello.version != 2:
                raise ValueError(f"the hello is of version {self.hello.version}, which wasn't offered")
        except ValueError as error:
            self._wrong(str(error))
        self.recovered = self.hello.size

    def _hello(self) -> bytes:
        """The payload of the answer to an offer."""
        status, payload = self._frame("the offer", 1, MOST_HELLO, (1, REFUSAL + MOST_WORDS))
        if status == 0:
            return payload
        if status == NoKnownVersion.status:
            refusal = Refusal.of(status, "the offer")
            cast(NoKnownVersion, refusal).known = payload
        else:
            refusal = self._refusal("the offer", status, payload)
        self._over = refusal
        raise refusal

    def _start(self) -> None:
        """Starts the program, and takes its greeting, for which it waits for nothing."""
        self._end()
        self._heard.clear()
        self._exit_status = self._over = None
        try:
            self._process = self.start_process(self._command)
        except OSError as error:
            raise ProgramNotStarted(f"{self._command[0]} can't be started", errno=error.errno or 0,
                                    words=system_words(error)) from error
        # What the program says is read without waiting, at the start and at its end: it writes few lines, so that the
        # pipe holds them, and no thread is needed that reads them.
        os.set_blocking(self._stream(self._process.stderr).fileno(), False)
        # (the pipes are used by their numbers, so that no buffer of a stream stands between)
        self._input, self._output = (self._stream(it).fileno() for it in (self._process.stdin, self._process.stdout))
        self._came, self._at = _NOTHING
        first = self._take_bytes(1)
        if not first:
            self._refused_opening()
        if first != b"\x01":
            self._wrong(f"the program greets with a byte {first[0]}, and pagedd with 1")
        self.version = 1
        status, payload = self._frame("the opening", 8, 8)
        if status:
            self._over = Refusal.of(status, "the opening")
            self._end()
            self._over.words, self._over.exit_status = self.said.strip(), self._exit_status
            raise self._over
        (self.recovered,) = _NUMBER.unpack(payload)

    @staticmethod
    def _stream(stream: Optional[IO[bytes]]) -> IO[bytes]:
        assert stream is not None
        return stream

    def _refused_opening(self) -> NoReturn:
        status = self._end()
        words = self.said.strip()
        kinds: Dict[int, Type[OpenRefused]] = {1: Locked if _LOCKED in words else CannotOpen, 3: NotWhole}
        kind = kinds.get(status, OpenRefused)
        cause = kind.cause if status in (1, 3) else f"{kind.cause}, with {exit_words(status)}"
        raise kind(cause, words=words, exit_status=status)

    # Bytes.

    def _write(self, data: bytes) -> None:
        try:
            done = os.write(self._input, data)
            while done < len(data):
                # (a signal came while the pipe was full)
                done += os.write(self._input, memoryview(data)[done:])
        except BrokenPipeError:
            # The program is gone, or takes no more: its answer, or the end of its output, shows why.
            pass

    def _take_bytes(self, count: int) -> bytes:
        """The next bytes of answers: so many, or fewer at the end of the program's output."""
        at, end = self._at, self._at + count
        if end <= len(self._came):
            self._at = end
            return self._came[at:end]
        # (what it answers is what it holds: a long payload stands in memory once)
        taken = io.BytesIO()
        missing = count - taken.write(memoryview(self._came)[at:])
        self._came, self._at = _NOTHING
        while missing:
            came = os.read(self._output, _PIECE)
            if not came:
                break
            if len(came) > missing:
                self._came, self._at = came, missing
                came = came[:missing]
            missing -= taken.write(came)
        return taken.getvalue()

    def _frame(self, asked: _Asked, least: int, most: int,
               refusals: Optional[Tuple[int, int]] = None) -> Tuple[int, bytes]:
        """The status of an answer, and its payload: of a length within these bounds, or that of a refusal. Where bytes
        begin with another length, they are no answer, and no more of them is waited for."""
        head = self._take_bytes(4)
        if len(head) < 4:
            self._lost(bool(head))
        length = _LENGTH.unpack(head)[0] - 1
        if refusals is None:
            refusals = _REFUSALS[self.version]
        done, refused = least <= length <= most, refusals[0] <= length <= refusals[1]
        if not done and not refused:
            self._wrong(f"the answer to {self._label(asked)} begins with {head.hex()}, which is no length of one")
        begun = self._take_bytes(1)
        if not begun:
            self._lost(True)
        status = begun[0]
        if not (refused if status else done):
            self._wrong(f"the answer to {self._label(asked)} has status {status} and {length} bytes, which don't fit")
        payload = self._take_bytes(length)
        if len(payload) < length:
            self._lost(True)
        return status, payload

    def _refusal(self, asked: _Asked, status: int, payload: bytes) -> Refusal:
        """The refusal that an answer is."""
        request = self._label(asked)
        if self.version == 1:
            return Refusal.of(status, request)
        if len(payload) < REFUSAL:
            self._wrong(f"the refusal of {request} has {len(payload)} bytes, and {REFUSAL} at least are to be there")
        advice, taken, number = _REFUSAL.unpack_from(payload)
        try:
            following = Next(advice)
        except ValueError:
            self._wrong(f"the refusal of {request} says {advice} of what to do next, and there are 0 to 3")
        return Refusal.of(status, request, following, taken, number, payload[REFUSAL:].decode(errors="replace"))

    def _take(self, asked: _Asked, least: int, most: int) -> Tuple[Optional[Refusal], bytes]:
        """An answer: its payload, or the refusal that it is."""
        came, at = self._came, self._at
        if at == len(came):
            came, at = os.read(self._output, _PIECE), 0
        # An answer that has come as a whole and isn't refused, as nearly all are.
        if len(came) >= at + 5:
            length, status = _HEAD.unpack_from(came, at)
            end = at + 4 + length
            if status == 0 and least < length <= most + 1 and end <= len(came):
                if at or end < len(came):
                    self._came, self._at = came, end
                return None, came[at + 5:end]
        self._came, self._at = came, at
        status, payload = self._frame(asked, least, most)
        if status == 0:
            return None, payload
        refusal = self._refusal(asked, status, payload)
        if refusal.next in (Next.OPEN_ANEW, Next.REPLACE):
            # (the program may still answer reads)
            self._failed = refusal
        if 32 <= status <= 37:
            self._over = refusal
        return refusal, b""

    # Exchanges.

    def _ready(self) -> None:
        """Raises if no request can be made."""
        if self._over is not None:
            raise SessionClosed(f"the session is over: {self._over.cause}") from self._over
        if self._process is None:
            raise SessionClosed()
        if self._busy:
            raise SessionBroken()

    def _ask(self, asked: _Asked, sent: bytes, least: int, most: int) -> bytes:
        """Sends a request, and answers the payload of its answer, of a length within these bounds."""
        # (this is asked before the lock is, which another thread may have held at a fork)
        if os.getpid() != self._owner:
            raise AnotherProcess()
        with self._lock:
            if self._busy or self._over is not None or self._process is None:
                self._ready()
            self._busy = True
            self._write(sent)
            refusal, payload = self._take(asked, least, most)
            self._busy = False
        if refusal is not None:
            raise refusal
        return payload

    def _request(self, kind: int, numbers: Tuple[int, ...] = (), least: int = 0, most: int = 0) -> bytes:
        """A request whose fields are numbers."""
        if most > MOST_BYTES:
            raise TooLarge()
        return self._ask((kind, numbers), frames.numbers_frame(kind, numbers), least, most)

    def _request_records(self, kind: int, records: Iterable[Bytes], each: int, least: int = 0, most: int = 0) -> bytes:
        """A request that has records. Its answer has so many bytes for each, and then some more."""
        hello = self.hello
        if hello is None:
            raise NotInVersion(f"{self._kind_name(kind)} isn't in version 1 of the protocol")
        sent, count = frames.counted_frame(kind, records)
        size = each * count
        if count > hello.most_records or size + most > hello.most_payload:
            raise TooLarge(f"a request holds {hello.most_records:,} records, and these are {count:,}")
        if len(sent) - 5 > hello.most_fields:
            raise TooLarge(f"the fields of a request have {hello.most_fields:,} bytes at most")
        return self._ask((kind, ()), sent, size + least, size + most)

    def _request_each(self, kind: int, numbers: Iterable[Tuple[int, ...]], least: int, most: int) -> List[bytes]:
        """Requests of one kind, of which several are on the way. If some are refused, the first refusal is raised once
        all answers to those that were sent have come; later ones aren't sent. Its `taken` counts those before it."""
        if os.getpid() != self._owner:
            raise AnotherProcess()
        asked, at = list(numbers), 0
        found: List[bytes] = []
        while at < len(asked):
            each = 5 + 8 * len(asked[at])
            part = asked[at:at + max(1, _WINDOW // each)]
            sent = b"".join([frames.numbers_frame(kind, one) for one in part])
            with self._lock:
                self._ready()
                self._busy = True
                self._write(sent)
                # All answers are read, even behind a refusal: else a later call took one of them for its own.
                answers = [self._take((kind, one), least, most) for one in part]
                self._busy = False
            for refusal, payload in answers:
                if refusal is not None:
                    refusal.taken = len(found)
                    raise refusal
                found.append(payload)
            at += len(part)
        return found

    def _kind_name(self, kind: int) -> str:
        """A kind of request as the page names it."""
        return f"request {kind}"

    def _label(self, asked: _Asked) -> str:
        """A request in words."""
        if isinstance(asked, str):
            return asked
        kind, numbers = asked
        return self._kind_name(kind) + (f" {', '.join(map(str, numbers))}" if numbers else "")

    def _need(self, kind: int) -> None:
        """Raises if the session's version lacks a kind of request."""
        if self.version == 1:
            raise NotInVersion(f"{self._kind_name(kind)} isn't in version 1 of the protocol")

    def request(self, kind: int, *numbers: int, data: Bytes = b"") -> bytes:
        """Any request by its kind, with its fields as the page has them, and the payload of its answer.

        >>> with Blob("content") as blob:
        ...     blob.request(BlobRequest.APPEND, data=b"hello")
        b'\\x00\\x00\\x00\\x00\\x00\\x00\\x00\\x00'
        """
        payload = self._ask((kind, numbers), frames.frame(kind, *numbers, data=data), 0, MOST_BYTES)
        self._unsynced |= kind in self._appending
        return payload

    # The end.

    @property
    def said(self) -> str:
        """What the program wrote to standard error up to now.

        >>> with Blob("content") as blob:
        ...     blob.said
        ''
        """
        return self._listen().decode(errors="replace")

    @property
    def process_id(self) -> Optional[int]:
        """The number of the program's process; None once it has ended.

        >>> with Blob("content") as blob:
        ...     blob.process_id > 0
        True
        """
        return None if self._process is None else self._process.pid

    @property
    def closed(self) -> bool:
        """Whether the program has ended, as far as this session knows.

        >>> with Blob("content") as blob:
        ...     blob.closed
        False
        >>> blob.closed
        True
        """
        return self._process is None

    @property
    def exit_status(self) -> Optional[int]:
        """The program's exit status, once it has ended; a negative number is a signal.

        >>> with Blob("content") as blob:
        ...     pass
        >>> blob.exit_status
        0
        """
        return self._exit_status

    def _listen(self) -> bytearray:
        process = self._process
        if process is not None and process.stderr is not None and not process.stderr.closed:
            try:
                while True:
                    data = os.read(process.stderr.fileno(), 1 << 16)
                    if not data:
                        break
                    self._heard += data
            except BlockingIOError:
                pass
        return self._heard

    def _lost(self, partial: bool) -> NoReturn:
        """The program's output has ended: says how the program did."""
        status = self._end()
        words = self._heard[self._opening:].decode(errors="replace").strip()
        lost = ProgramLost(f"the program ended: {exit_words(status)}", words=words, exit_status=status)
        lost.partial, self._over = partial, lost
        raise lost

    def _wrong(self, why: str) -> NoReturn:
        wrong = WrongAnswer(why)
        self._over = wrong
        wrong.exit_status = self._end()
        wrong.words = self.said.strip()
        raise wrong

    def _end(self) -> int:
        """Ends the program, and answers its exit status: its pipes are closed, and if that isn't enough it is killed."""
        process = self._process
        if process is None:
            return self._exit_status or 0
        self._stream(process.stdin).close()
        self._stream(process.stdout).close()
        try:
            status = process.wait(_PATIENCE)
        except subprocess.TimeoutExpired:
            process.kill()
            status = process.wait()
        self._finish(process, status)
        return status

    def _finish(self, process: subprocess.Popen[bytes], status: int) -> None:
        self._listen()
        self._stream(process.stderr).close()
        self._exit_status, self._process = status, None

    def _abandon(self) -> None:
        """Lets the program go, whatever state it is in."""
        if self._process is not None:
            self._end()

    def close(self) -> None:
        """Ends the program. It syncs nothing: what was appended since the last sync may be gone.

        If the program ended otherwise than with status 0, and no exception said so before, `ProgramLost` is raised.
        A second close does nothing.

        >>> blob = Blob("content")
        >>> offset = blob.append(b"hello")
        >>> blob.sync()
        >>> blob.close()
        """
        if os.getpid() != self._owner:
            self._let_go()
            return
        with self._lock:
            process = self._process
            if process is None:
                return
            if self._busy or self._over is not None:
                self._end()
                return
            self._busy = True
            self._write(_CLOSE)
            self._stream(process.stdin).close()
            status = process.wait()
            self._stream(process.stdout).close()
            self._finish(process, status)
        words = self._heard[self._opening:].decode(errors="replace").strip()
        if status == 0 and words:
            warnings.warn(words, ProgramWarning, stacklevel=2)
        if status != 0 and self._failed is None:
            raise ProgramLost(f"the program ended: {exit_words(status)}", words=words, exit_status=status)

    def _let_go(self) -> None:
        """In a fork: closes this process's copies of the pipes. The program isn't its child."""
        process, self._process = self._process, None
        if process is not None:
            process.returncode = 0
            nothing = os.open(os.devnull, os.O_RDWR)
            for stream in map(self._stream, (process.stdin, process.stdout, process.stderr)):
                # (what is left in a buffer isn't to be written a second time)
                os.dup2(nothing, stream.fileno(), inheritable=False)
                stream.close()
            os.close(nothing)

    def kill(self) -> None:
        """Kills the program, as a crash would, and waits until it is gone: for tests. The next call raises
        `ProgramLost`.

        >>> blob = Blob("content")
        >>> blob.kill()
        >>> blob.size()
        Traceback (most recent call last):
        ...
        pagedd_client.errors.ProgramLost: the program ended: killed by signal 9, SIGKILL; next: open it again, and read \
what was recovered: all that was synced is there
        """
        if self._process is not None and os.getpid() == self._owner:
            self._process.kill()
            self._process.wait()

    def sync(self) -> None:
        """Makes all durable that was appended.

        >>> with Log("my-log") as log:
        ...     place = log.append(b"first")
        ...     log.sync()
        """
        raise NotImplementedError

    def __enter__(self: _Self) -> _Self:
        return self

    def __exit__(self, kind: Optional[Type[BaseException]], error: Optional[BaseException],
                 trace: Optional[TracebackType]) -> None:
        if kind is not None:
            try:
                self.close()
            except Error:
                # (the exception that leaves the block says more)
                pass
            return
        try:
            if self._unsynced and self._process is not None:
                self.sync()
        finally:
            self.close()
