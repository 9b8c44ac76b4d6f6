"""A client of `pagedd`: blobs, and logs of records, that find after a crash all that was synced.

>>> with Log("my-log") as log:
...     places = log.append_many([b"first", b"second"], sync=True)
...     log.read(places[1])
b'second'

`Log` is a log of records in a folder, `Blob` one file of bytes, and `LogHandler` puts records of the standard library's
`logging` into a log. Each starts a `pagedd` of its own, which `find_program` finds, and speaks with it as
docs/PROTOCOL.md of the repository says. All exceptions are of the class `Error`.
"""
from .blob import Blob, CountOpen, RangesRead, Replay, Snapshot, StartedRecords
from .errors import (AnotherProcess, AnswerTooLong, BlobInsufficientLength, CannotOpen, Damaged, EmptyRequest, Error,
                     FileNeeded, IdsExhausted, InRecovery, InvalidChecksum, Locked, Next, NoFrame, NoKnownVersion,
                     NoRecord, NoSegment, NoSuchNumber, NotInVersion, NotWhole, NumbersExhausted, OffsetOverflow,
                     OpenRefused, OutOfMemory, ProgramLost, ProgramNotFound, ProgramNotStarted, ProgramWarning,
                     RangesOutOfOrder, ReadFailed, ReadOnly, RecoveryEnded, Refusal, ReplayWithoutBuffer, RequestCut,
                     ResizeFailed, SessionBroken, SessionClosed, SyncFailed, SystemFailed, TooLarge, UnknownRequest,
                     UnknownStatus, Unlisted, Unmarked, WriteFailed, WriterGone, WrongAnswer, WrongFields,
                     WrongLength, WrongManifest)
from .frames import BlobRequest, Hello, LogRequest
from .handler import LogHandler
from .log import START, Batch, Closed, Frame, Log, Passed, Place, Where
from .program import find_program

__all__ = [
    "AnotherProcess", "AnswerTooLong", "Batch", "Blob", "BlobInsufficientLength", "BlobRequest", "CannotOpen",
    "Closed", "CountOpen", "Damaged", "EmptyRequest", "Error", "FileNeeded", "Frame", "Hello", "IdsExhausted",
    "InRecovery", "InvalidChecksum", "Locked", "Log", "LogHandler", "LogRequest", "Next", "NoFrame", "NoKnownVersion",
    "NoRecord", "NoSegment", "NoSuchNumber", "NotInVersion", "NotWhole", "NumbersExhausted", "OffsetOverflow",
    "OpenRefused", "OutOfMemory", "Passed", "Place", "ProgramLost", "ProgramNotFound", "ProgramNotStarted",
    "ProgramWarning", "RangesOutOfOrder", "RangesRead", "ReadFailed", "ReadOnly", "RecoveryEnded", "Refusal", "Replay",
    "ReplayWithoutBuffer", "RequestCut", "ResizeFailed", "START", "SessionBroken", "SessionClosed", "Snapshot",
    "StartedRecords", "SyncFailed", "SystemFailed", "TooLarge", "UnknownRequest", "UnknownStatus", "Unlisted",
    "Unmarked", "Where", "WriteFailed", "WriterGone", "WrongAnswer", "WrongFields", "WrongLength", "WrongManifest",
    "find_program",
]
