"""A handler for the standard library's `logging`, whose records go to a log of `pagedd`."""
from __future__ import annotations

import logging
import os
from typing import Any, Optional

from .errors import Error
from .frames import MOST_RECORD
from .log import Log
from .program import Path

# How many bytes are kept free for the mark of a text that is cut.
_MARK = 40


def shortened(data: bytes, most: int = MOST_RECORD) -> bytes:
    """A text in UTF-8 that fits a record: one that is longer ends at a whole character, with a mark that says how many
    bytes are left out.

    >>> shortened(b"short")
    b'short'
    >>> shortened(b"x" * 100, 60)
    b'xxxxxxxxxxxxxxxxxxxx [.. 80 bytes are left out]'
    """
    if len(data) <= most:
        return data
    kept = data[:most - _MARK].decode(errors="ignore").encode()
    return kept + f" [.. {len(data) - len(kept)} bytes are left out]".encode()


class LogHandler(logging.Handler):
    """Puts each record of `logging`, as it is formatted, into a log in a folder.

    A record of `sync_level` or above is durable before the call that logs it returns; others are once a later one is,
    or at `flush` or `close`. With `keep_bytes` old segments are dropped as new ones begin, so that about so many bytes
    stay. The other arguments are those of `Log`. `log` is the log itself.

    A text of more than 65,535 bytes is cut, with a mark that says so. If the log fails, the failure goes where those of
    `logging` go: to `handleError`.

    >>> import logging
    >>> handler = LogHandler("my-log")
    >>> logger = logging.getLogger("an example")
    >>> logger.addHandler(handler)
    >>> logger.error("the disk is full")
    >>> logger.removeHandler(handler)
    >>> handler.close()
    >>> with Log("my-log") as log:
    ...     [data for _, data in log]
    [b'the disk is full']
    """

    def __init__(self, folder: Path, level: int = logging.NOTSET, *, sync_level: int = logging.ERROR,
                 keep_bytes: Optional[int] = None, **options: Any) -> None:
        super().__init__(level)
        self.sync_level, self.keep_bytes = sync_level, keep_bytes
        self.log = Log(folder, **options)
        self._owner = os.getpid()
        self._segment: Optional[int] = None

    def emit(self, record: logging.LogRecord) -> None:
        """Appends a record; `logging` calls it."""
        try:
            data = shortened(self.format(record).encode("utf-8", "backslashreplace"))
            (place,) = self.log.append_many([data], sync=record.levelno >= self.sync_level)
            if self.keep_bytes is not None and place[0] != self._segment:
                self._segment = place[0]
                self.log.keep_last(self.keep_bytes)
        except Exception:
            self.handleError(record)

    def flush(self) -> None:
        """Makes all durable that was logged.

        >>> handler = LogHandler("my-log")
        >>> handler.flush()
        >>> handler.close()
        """
        # (`logging` flushes all handlers as it ends, also in a fork, and once more after a close)
        if not self.log.closed and os.getpid() == self._owner:
            self.log.sync()

    def close(self) -> None:
        """Makes all durable that was logged, and ends the program.

        >>> handler = LogHandler("my-log")
        >>> handler.close()
        >>> handler.log.closed
        True
        """
        self.acquire()
        try:
            try:
                self.flush()
            finally:
                try:
                    self.log.close()
                except Error:
                    # (of a log that failed, each record since went to `handleError`)
                    pass
        finally:
            self.release()
            super().close()
