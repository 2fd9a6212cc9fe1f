"""The Unix socket of `join`: lines of JSON from and to each who has connected."""
from __future__ import annotations

import asyncio
import errno
import os
import socket
import stat
from typing import Callable, Optional

from ..program.mistakes import Mistake
from .member import AHEAD, Member
from .requests import LONGEST
from .roles import TEACH

# Who does not read is cut off so many seconds after the last word to him; after his last answer he has longer.
CUT_SECONDS, FINISH_SECONDS = 2.0, 60.0
# So many connections wait to be accepted.
BACKLOG = 100


class SocketMember(asyncio.Protocol, Member):
    """One at the socket, who has the rights of the user that made it. `come` and `gone` are called when it does so."""

    def __init__(self, come: Callable[[Member], None], gone: Callable[[Member], None],
                 wake: Callable[[], None]) -> None:
        Member.__init__(self, TEACH, wake)
        self.come, self.gone = come, gone
        self.part = bytearray()
        self.is_made = self.is_paused = self.is_reading_paused = False
        self.transport: Optional[asyncio.Transport] = None

    # What comes

    def connection_made(self, transport: asyncio.BaseTransport) -> None:
        assert isinstance(transport, asyncio.Transport)
        try:
            self.transport = transport
            self.come(self)
            self.is_made = True
        except Exception:  # pylint: disable=broad-except
            transport.abort()
            raise

    def data_received(self, data: bytes) -> None:
        try:
            if self.is_gone:
                return
            if not self.is_made:
                # The event loop closes it for that.
                raise ConnectionError("a connection was not made, for a fault of the server")
            self._received(data)
            self.wake()
        except Exception:  # pylint: disable=broad-except
            # What of it was read is not known: nothing of it may be done twice.
            self.let_go("a request could not be read, for a fault of the server")
            raise

    def _received(self, data: bytes) -> None:
        first, *rest = data.split(b"\n")
        self.part += first
        if rest:
            self.lines.extend([bytes(self.part), *rest[:-1]])
            self.part = bytearray(rest[-1])
        if len(self.part) > LONGEST or any(len(line) > LONGEST for line in self.lines):
            self.let_go("a request has at most %d bytes, and this one had more" % LONGEST)
        elif len(self.lines) > AHEAD and self.transport and not self.is_reading_paused:
            self.is_reading_paused = True
            self.transport.pause_reading()

    def eof_received(self) -> bool:
        self.has_ended = True
        self.lines.extend([bytes(self.part)] if self.part else [])
        self.part = bytearray()
        self.wake()
        return True

    def taken(self) -> None:
        if self.is_reading_paused and len(self.lines) <= AHEAD // 2 and self.transport and not self.has_ended:
            self.is_reading_paused = False
            self.transport.resume_reading()

    def connection_lost(self, _: Optional[Exception]) -> None:
        self.gone(self)

    @property
    def is_lost(self) -> bool:
        return self.transport is not None and self.transport.get_protocol() is None

    # What goes

    @property
    def is_full(self) -> bool:
        return self.is_paused or bool(self.outgoing)

    def flush(self) -> None:
        while self.outgoing and not self.is_paused and self.transport:
            self.transport.write(self.next_message())

    def pause_writing(self) -> None:
        self.is_paused = True

    def resume_writing(self) -> None:
        self.is_paused = False
        self.flush()
        self.wake()

    def end(self, last: bytes) -> None:
        if self.transport:
            self.transport.write(last)
            self._close_within(CUT_SECONDS)

    def finish(self) -> None:
        self._close_within(FINISH_SECONDS)

    def _close_within(self, seconds: float) -> None:
        if self.transport:
            self.transport.close()
            asyncio.get_running_loop().call_later(seconds, self.transport.abort)


def listening(path: str) -> socket.socket:
    """A socket at this path, for this user alone. Mistake where something else is there, or another server."""
    made = socket.socket(socket.AF_UNIX)
    mask = os.umask(0o177)
    try:
        _bind(made, path)
        made.listen(BACKLOG)
    except (OSError, ValueError) as error:
        made.close()
        raise Mistake("no socket can be made there: %s" % (getattr(error, "strerror", None) or error), path) from None
    finally:
        os.umask(mask)
    return made


def _bind(made: socket.socket, path: str) -> None:
    try:
        made.bind(path)
    except OSError as error:
        if error.errno != errno.EADDRINUSE or not _is_left(path):
            raise
        os.unlink(path)
        made.bind(path)


def _is_left(path: str) -> bool:
    """Whether a server that has ended left this socket behind."""
    if not stat.S_ISSOCK(os.stat(path).st_mode):
        return False
    with socket.socket(socket.AF_UNIX) as tried:
        return tried.connect_ex(path) == errno.ECONNREFUSED
