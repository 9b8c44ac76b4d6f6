"""Blobs and logs that `pagedd` serves, for the other scripts: by the package of clients/python, which needn't be
installed."""
import os
import sys
import warnings

import usage

sys.path.insert(0, os.path.join(os.path.dirname(os.path.abspath(__file__)), "..", "clients", "python", "src"))

from pagedd_client import (Blob, BlobInsufficientLength, BlobRequest, Closed, Damaged, Error, Locked, Log, LogRequest,
                           Next, NoFrame, NoSegment, OpenRefused, ProgramLost, ProgramWarning, ReadOnly, Refusal,
                           SystemFailed, Unlisted, Unmarked, Where, WriterGone, WrongAnswer, WrongFields)
from pagedd_client.frames import frame, records_frame

# What a client of version 1 begins with.
VERSION = b"\x01"

# What an opening says is looked at by the scripts, where it matters.
warnings.simplefilter("ignore", ProgramWarning)


def batch(records):
    """The fields of a request with these records: their number, their lengths, their bytes."""
    return records_frame(BlobRequest.APPEND_RECORDS, records)[5:]


class Frames:
    """What a script that plays single bytes asks of a session."""

    @property
    def process(self):
        """The program's process, while it runs."""
        return self._process

    def kill(self):
        """Kills the program, and waits until it is gone."""
        super().kill()
        self._end()

    def send(self, data):
        """Writes bytes to the program, whatever they are."""
        self._write(data)

    def answer(self):
        """The payload of the next answer."""
        refusal, payload = self._take("a request", 0, 4_294_967_294)
        if refusal is not None:
            raise refusal
        return payload


class Served(Frames, Blob):
    """A blob that is served with these options."""

    def __init__(self, program, path, *options, **more):
        super().__init__(path, program=program, options=options, **more)


class ServedLog(Frames, Log):
    """A log that is served with these options."""

    def __init__(self, program, folder, *options, **more):
        super().__init__(folder, program=program, options=options, **more)


def opened(program, path, synced):
    """The blob of a file after a crash. Where a byte was synced it is never refused; where none was
    there may be nothing to keep, and then it is cut by `--cut`."""
    try:
        return Served(program, path)
    except OpenRefused as refused:
        if refused.exit_status != 3 or synced:
            raise SystemExit(f"{synced} bytes were synced, and it is refused: {refused}") from refused
        return Served(program, path, "--cut")


if __name__ == "__main__":
    usage.module("the scripts that start pagedd")
