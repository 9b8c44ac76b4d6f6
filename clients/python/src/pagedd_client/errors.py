"""The exceptions of this package. All are of the class `Error`.

Each has the same fields, so that one handler can use them all:

    status       the status of a refusal, else None
    cause        what is wrong, in words
    errno        the system's number for the error, or 0
    words        the system's or the program's own words for it
    taken        how much of the refused request was done: for a blob the steps, for a log the records that were appended
    next         what the caller may do next, as a `Next`, or None
    what_next    the same in words
    exit_status  how the program ended, else None; a negative number is a signal
"""
from __future__ import annotations

import enum
import os
import signal
from typing import ClassVar, Dict, Optional, Type


class Next(enum.IntEnum):
    """What a caller may do after a refusal.

    >>> Next(2).words
    'open anew: the writer is gone. Close this, open it again, and read what was recovered'
    """

    SOMETHING_ELSE = 0
    AGAIN = 1
    OPEN_ANEW = 2
    REPLACE = 3

    @property
    def words(self) -> str:
        """The same in words."""
        return _NEXT_WORDS[self.value]


_NEXT_WORDS = (
    "ask for something else: the request can't be met as it stands",
    "ask again: the same request may be met another time",
    "open anew: the writer is gone. Close this, open it again, and read what was recovered",
    "replace the file: close this, run `pagedd rewrite` on the file or folder, then open it again",
)


class Error(Exception):
    """The base of all exceptions here.

    >>> issubclass(WriteFailed, Refusal) and issubclass(Refusal, Error)
    True
    """

    #: What is wrong, in words. A class has the words of its kind, and an instance may have more exact ones.
    cause: str = "something failed"
    #: What to do if the program doesn't say.
    advice: ClassVar[str] = ""
    status: Optional[int] = None
    exit_status: Optional[int] = None

    def __init__(self, cause: Optional[str] = None, *, errno: int = 0, words: str = "", taken: int = 0,
                 next: Optional[Next] = None, exit_status: Optional[int] = None) -> None:
        if cause is not None:
            self.cause = cause
        self.errno, self.words, self.taken, self.next, self.exit_status = errno, words, taken, next, exit_status
        super().__init__(self.cause)

    @property
    def what_next(self) -> str:
        """What to do next, in words.

        >>> Locked().what_next
        'end that process first'
        """
        return self.next.words if self.next is not None else self.advice

    def __str__(self) -> str:
        parts = [self.cause]
        if self.words:
            parts.append(self.words)
        if self.what_next:
            parts.append(f"next: {self.what_next}")
        return "; ".join(parts)


# Errors before a session.

class ProgramNotFound(Error):
    """There is no `pagedd` where it was looked for."""

    cause = "pagedd isn't found"
    advice = "name it by the argument `program`, by the variable PAGEDD, or put it on the path"


class ProgramNotStarted(Error):
    """The system can't start the program."""

    cause = "pagedd can't be started"
    advice = "mend what the system says, or name another program"


class OpenRefused(Error):
    """The program ended before it greeted: the file or folder isn't opened, and nothing was changed."""

    cause = "the program ended before its greeting"
    advice = "do what the program's words say"


class CannotOpen(OpenRefused):
    """Exit status 1 before a greeting: the system, memory or an option stood in the way."""

    cause = "it can't be opened"


class Locked(CannotOpen):
    """Another process serves the file or folder."""

    cause = "another process has it open"
    advice = "end that process first"


class NotWhole(OpenRefused):
    """Exit status 3: the file or log isn't whole, or is another kind of file. Nothing was changed."""

    cause = "it isn't whole, or no blob or log of this page size and checksum"
    advice = ("look at it with `pagedd check`; take its page size and checksum, bring it back from a copy, or use "
              "`pagedd salvage`; with cut=True it is cut to what is whole")


# Errors of a session that are no refusals.

class ProgramLost(Error):
    """The program ended in the midst of a session. What wasn't synced may be gone."""

    cause = "the program ended"
    advice = "open it again, and read what was recovered: all that was synced is there"

    #: Whether a part of an answer had come.
    partial = False


class WrongAnswer(Error):
    """What came is no answer of `pagedd`. The program is ended."""

    cause = "what came is no answer of pagedd"
    advice = "see that the program is pagedd, and that nothing else uses its output; then open it again"


class SessionClosed(Error):
    """The session was closed, or its program is gone."""

    cause = "the session is closed"
    advice = "open it again"


class SessionBroken(Error):
    """A call was interrupted before its answer had come, so that later answers would be taken for others."""

    cause = "an earlier call was interrupted before its answer had come"
    advice = "close this, open it again, and read what was recovered"


class AnotherProcess(Error):
    """This process is a fork of the one that opened it."""

    cause = "another process opened it, of which this one is a fork"
    advice = "open and use it in one process alone"


class NotInVersion(Error):
    """The request isn't in the version of the protocol that this session speaks, or this program doesn't take it."""

    cause = "this program doesn't know the request"
    advice = "use a newer pagedd, or another call"


class TooLarge(Error):
    """A request or an answer would have more bytes, records or ranges than the protocol holds. Nothing was sent."""

    cause = "a request can't hold so much"
    advice = "ask for less at once"


class NoRecord(Error):
    """No record stands at this place: the bytes that stand there aren't a frame whose checksum fits."""

    cause = "no record stands at this place"
    advice = "take a place that an append, a read or an iteration answered; `next` goes on behind it"


class ProgramWarning(UserWarning):
    """What the program wrote to standard error though it went on: as it opened a file or a log, what was cut and where a
    copy is; or as it ended well."""


# Refusals: the program answered a request with a status.

class Refusal(Error):
    """The program refused a request. Each status has a class of its own below this one."""

    cause = "the request was refused"
    #: What the pages name for this status, if that doesn't depend on more. A refusal of version 1 has only its status.
    usual_next: ClassVar[Optional[Next]] = None

    #: The request, as the page names it, and its numbers.
    request: str = ""

    @staticmethod
    def of(status: int, request: str = "", next: Optional[Next] = None, taken: int = 0, errno: int = 0,
           words: str = "") -> Refusal:
        """The refusal with this status.

        >>> refusal = Refusal.of(2, "append", Next.OPEN_ANEW, errno=28, words="No space left on device")
        >>> type(refusal).__name__, refusal.errno, refusal.next.name
        ('WriteFailed', 28, 'OPEN_ANEW')
        """
        kind = REFUSALS.get(status, UnknownStatus)
        made = kind(errno=errno, words=words, taken=taken, next=kind.usual_next if next is None else next)
        made.status, made.request = status, request
        return made

    def __str__(self) -> str:
        number = f", errno {self.errno}" if self.errno else ""
        said = f"{self.request or 'a request'} was refused with status {self.status}{number}: {super().__str__()}"
        return said + (f"; taken: {self.taken}" if self.taken else "")


class UnknownStatus(Refusal):
    """A status that this package doesn't know."""

    cause = "the status isn't known to this package"
    advice = "use a newer package"


class ReadFailed(Refusal):
    """Status 1."""

    status = 1
    cause = "a read of the file failed"
    advice = "ask again; if the writer is gone, open it again"


class WriteFailed(Refusal):
    """Status 2. The writer is gone, or the log is closed. What was synced is in the file."""

    status = 2
    cause = "a write of the file failed"
    usual_next = Next.OPEN_ANEW


class ResizeFailed(Refusal):
    """Status 3."""

    status = 3
    cause = "a change of the file's size failed"
    usual_next = Next.OPEN_ANEW


class SyncFailed(Refusal):
    """Status 4. Nobody knows how much of the last appends is durable."""

    status = 4
    cause = "a sync of the file failed"
    usual_next = Next.REPLACE


class InvalidChecksum(Refusal):
    """Status 5."""

    status = 5
    cause = "a page that must be full isn't: its checksum doesn't fit"
    usual_next = Next.OPEN_ANEW


class BlobInsufficientLength(Refusal):
    """Status 6. For a log also: the place is the end of a segment or behind it."""

    status = 6
    cause = "an offset, a range or a place passes the end"
    usual_next = Next.SOMETHING_ELSE


class OffsetOverflow(Refusal):
    """Status 7."""

    status = 7
    cause = "an offset or a length passes the greatest number"
    advice = "ask for something else; if the writer is gone, open it again"


class OutOfMemory(Refusal):
    """Status 8."""

    status = 8
    cause = "memory was refused"
    advice = "ask for the size: if that is answered the writer is there, and the request may be made again"


class IdsExhausted(Refusal):
    """Status 9."""

    status = 9
    cause = "the cache has no id left"
    usual_next = Next.OPEN_ANEW


class FileNeeded(Refusal):
    """Status 16. No request is answered so."""

    status = 16
    cause = "it can't be done without the file"


class WriterGone(Refusal):
    """Status 17. An earlier failure took the writer, or closed the log."""

    status = 17
    cause = "the writer is gone, or a failure closed the log"
    usual_next = Next.OPEN_ANEW


class RecoveryEnded(Refusal):
    """Status 18."""

    status = 18
    cause = "the recovery has ended, and a truncate needs it"
    usual_next = Next.SOMETHING_ELSE


class RangesOutOfOrder(Refusal):
    """Status 19."""

    status = 19
    cause = "ranges overlap or aren't in order"
    usual_next = Next.SOMETHING_ELSE


class NoSuchNumber(Refusal):
    """Status 20."""

    status = 20
    cause = "there is no started sync of this name, or no snapshot or replay of this number"
    usual_next = Next.SOMETHING_ELSE


class InRecovery(Refusal):
    """Status 21."""

    status = 21
    cause = "the recovery hasn't ended, and a snapshot needs that: call begin first"
    usual_next = Next.SOMETHING_ELSE


class ReadOnly(Refusal):
    """Status 22."""

    status = 22
    cause = "it is served for reading alone, and this would change it"
    usual_next = Next.SOMETHING_ELSE


class WrongFields(Refusal):
    """Status 23. Nothing of the request was taken."""

    status = 23
    cause = ("the fields aren't those of records or ranges, a record of a log is longer than 65,535 bytes, or the answer "
             "would be too long")
    usual_next = Next.SOMETHING_ELSE


class NoKnownVersion(Refusal):
    """Status 24. The program ends."""

    status = 24
    cause = "the program knows no version that was offered"
    advice = "offer another version"

    #: The versions that the program knows.
    known: bytes = b""


class RequestCut(Refusal):
    """Status 32. The program ends."""

    status = 32
    cause = "the input ends inside the request, or inside the offer"
    usual_next = Next.OPEN_ANEW


class EmptyRequest(Refusal):
    """Status 33. The program ends."""

    status = 33
    cause = "the length of the request is 0"
    usual_next = Next.OPEN_ANEW


class UnknownRequest(Refusal):
    """Status 34. The program ends."""

    status = 34
    cause = "there is no such kind of request"
    usual_next = Next.OPEN_ANEW


class WrongLength(Refusal):
    """Status 35. The program ends."""

    status = 35
    cause = "the length of the request is wrong for its kind"
    usual_next = Next.OPEN_ANEW


class AnswerTooLong(Refusal):
    """Status 36. The program ends."""

    status = 36
    cause = "the request asks for more bytes than an answer can hold"
    usual_next = Next.OPEN_ANEW


class ReplayWithoutBuffer(Refusal):
    """Status 37. The program ends."""

    status = 37
    cause = "the request is a replay with a buffer of size 0"
    usual_next = Next.OPEN_ANEW


class NoSegment(Refusal):
    """Status 38."""

    status = 38
    cause = "there is no such segment: it was dropped, or isn't there yet"
    usual_next = Next.SOMETHING_ELSE


class Damaged(Refusal):
    """Status 39. `Log.pass_damage` answers where to go on."""

    status = 39
    cause = "a closed segment doesn't hold what it held when it was closed, in a page that the record touches"
    usual_next = Next.SOMETHING_ELSE


class SystemFailed(Refusal):
    """Status 40."""

    status = 40
    cause = "the system refused a file or the folder, or the file of a closed segment is missing"
    advice = "mend what the system says, and ask again; after an append or a sync open it again"


class Unlisted(Refusal):
    """Status 41. The log is closed."""

    status = 41
    cause = "the file of the next segment is there already and has bytes: move it away"
    usual_next = Next.OPEN_ANEW


class NumbersExhausted(Refusal):
    """Status 42. The log is closed."""

    status = 42
    cause = "no number is left for a segment"
    usual_next = Next.OPEN_ANEW


class WrongManifest(Refusal):
    """Status 43."""

    status = 43
    cause = "the manifest doesn't fit"
    usual_next = Next.OPEN_ANEW


class NoFrame(Refusal):
    """Status 44. Take a place that an append, a `next` or an `nth` answered."""

    status = 44
    cause = "no frame begins at this offset of a closed segment"
    usual_next = Next.SOMETHING_ELSE


class Unmarked(Refusal):
    """Status 45."""

    status = 45
    cause = "the segment has no marks, since a version before 0.13 closed it"
    usual_next = Next.SOMETHING_ELSE


#: The class of each status.
REFUSALS: Dict[int, Type[Refusal]] = {
    kind.status: kind for kind in (
        ReadFailed, WriteFailed, ResizeFailed, SyncFailed, InvalidChecksum, BlobInsufficientLength, OffsetOverflow,
        OutOfMemory, IdsExhausted, FileNeeded, WriterGone, RecoveryEnded, RangesOutOfOrder, NoSuchNumber, InRecovery,
        ReadOnly, WrongFields, NoKnownVersion, RequestCut, EmptyRequest, UnknownRequest, WrongLength, AnswerTooLong,
        ReplayWithoutBuffer, NoSegment, Damaged, SystemFailed, Unlisted, NumbersExhausted, WrongManifest, NoFrame,
        Unmarked)
    if kind.status is not None}


def exit_words(status: int) -> str:
    """An exit status in words.

    >>> exit_words(3), exit_words(-9)
    ('exit status 3', 'killed by signal 9, SIGKILL')
    """
    if status >= 0:
        return f"exit status {status}"
    try:
        name = f", {signal.Signals(-status).name}"
    except ValueError:
        name = ""
    return f"killed by signal {-status}{name}"


def system_words(error: OSError) -> str:
    """The system's words for an error."""
    return error.strerror or os.strerror(error.errno or 0)
