"""The server of pages: it accepts connections on the loopback, and gives them to tornado, within bounds."""
from __future__ import annotations

import asyncio
import errno
import logging
import socket
import time
from typing import Any, Optional, Tuple

from tornado.httpserver import HTTPServer
from tornado.iostream import IOStream, StreamClosedError
from tornado.web import Application

from ..program.mistakes import Mistake
from ..session.faults import Faults
from .connections import Connections
from .handler import Handler
from .lab import Lab

ADDRESS = "127.0.0.1"
# A body and a head have at most so many bytes; a body comes, and a connection without a request stays, so long.
LONGEST, LONGEST_HEAD, BODY_SECONDS, IDLE_SECONDS = 1 << 16, 1 << 14, 10.0, 60.0
# So many connections are accepted before the loop does other work, and so many wait for that.
AT_ONCE, BACKLOG = 16, 128
# Where descriptors are used up, nothing is accepted for so many seconds.
PAUSE = 0.5
USED_UP = (errno.EMFILE, errno.ENFILE, errno.ENOBUFS, errno.ENOMEM)
PASSING = (errno.EAGAIN, errno.EWOULDBLOCK, errno.ECONNABORTED, errno.EINTR, errno.EPROTO, errno.EPERM)


class Told(logging.Handler):
    """Tells the faults that tornado caught, and nothing else of what it logs: addresses have secrets in them."""

    def __init__(self, faults: Faults) -> None:
        super().__init__(logging.ERROR)
        self.faults = faults

    def emit(self, record: logging.LogRecord) -> None:
        fault = record.exc_info[1] if record.exc_info else None
        if fault is not None and not isinstance(fault, StreamClosedError):
            self.faults.tell("a connection of a page", fault)

    def handleError(self, record: logging.LogRecord) -> None:
        """There is no other place to tell it."""


class Tornado(HTTPServer):
    """Tornado's server, which counts connections."""
    connections: Connections

    def handle_stream(self, stream: IOStream, address: Tuple[Any, ...]) -> None:
        self.connections.come(stream)
        super().handle_stream(stream, address)

    def on_close(self, server_conn: Any) -> None:
        self.connections.gone(server_conn.stream)
        super().on_close(server_conn)


class Server:
    """Serves the pages of a lab on the loopback. The port is bound at once, and served from `start` on."""

    def __init__(self, port: int) -> None:
        self.socket = socket.socket(socket.AF_INET)
        try:
            self.socket.setsockopt(socket.SOL_SOCKET, socket.SO_REUSEADDR, 1)
            self.socket.bind((ADDRESS, port))
            self.socket.listen(BACKLOG)
            self.socket.setblocking(False)
        except OSError as error:
            self.socket.close()
            raise Mistake("port %d of %s cannot be had: %s" % (port, ADDRESS, error.strerror or error)) from None
        self.port: int = self.socket.getsockname()[1]
        self.connections = Connections()
        # One that was accepted, and not given to tornado yet.
        self.accepted: Optional[socket.socket] = None
        # Nothing is accepted before this time.
        self.paused_until = 0.0

    def start(self, lab: Lab) -> None:
        """Begins to serve, in the loop that runs. A fault of the socket ends the hub."""
        self.lab, self.loop = lab, asyncio.get_running_loop()
        for name in ("tornado.access", "tornado.application", "tornado.general"):
            logging.getLogger(name).addHandler(Told(lab.hub.faults))
            logging.getLogger(name).propagate = False
        given = {"lab": lab, "connections": self.connections, "here": "%s:%d" % (ADDRESS, self.port)}
        application = Application([(r".*", Handler, given)], log_function=lambda _: None)
        self.tornado = Tornado(application, max_header_size=LONGEST_HEAD, max_body_size=LONGEST,
                               max_buffer_size=4 * LONGEST, idle_connection_timeout=IDLE_SECONDS,
                               body_timeout=BODY_SECONDS)
        self.tornado.connections = self.connections
        self._listen()
        lab.hub.beaten.append(self._sweep)

    def _listen(self) -> None:
        if self.socket.fileno() >= 0:
            self.loop.add_reader(self.socket, self._accept)

    def _accept(self) -> None:
        """Accepts some of those who wait."""
        for _ in range(AT_ONCE):
            self._close_accepted()
            try:
                self.accepted, address = self.socket.accept()
            except OSError as error:
                if error.errno in USED_UP:
                    self._pause(error)
                elif error.errno not in PASSING:
                    self.loop.remove_reader(self.socket)
                    self.lab.hub.end(Mistake("the socket of the pages failed: %s" % (error.strerror or error)))
                return
            try:
                self.accepted.setblocking(False)
                self.tornado.handle_stream(IOStream(self.accepted, max_buffer_size=4 * LONGEST), address)
                self.accepted = None
            except Exception as fault:  # pylint: disable=broad-except
                self.lab.hub.faults.tell("a connection", fault)
        self._close_accepted()

    def _close_accepted(self) -> None:
        """Closes a connection that a fault kept from tornado."""
        accepted, self.accepted = self.accepted, None
        if accepted is not None:
            accepted.close()

    def _pause(self, error: OSError) -> None:
        """Descriptors are used up: somebody who does nothing has to go, and nobody is accepted for a moment."""
        self.lab.hub.faults.tell("accepting a connection", error)
        self.paused_until = time.monotonic() + PAUSE
        self.loop.remove_reader(self.socket)
        self.loop.call_later(PAUSE, self._listen)
        self.connections.close_oldest()

    def _sweep(self) -> None:
        """Is done every second, also after faults."""
        now = time.monotonic()
        if self.socket.fileno() >= 0:
            self._close_accepted()
            if now >= self.paused_until:
                self._listen()
            self.connections.sweep(now)

    def address(self, role: str) -> str:
        """Where a browser finds the pages of a role."""
        return "http://%s:%d/%s/" % (ADDRESS, self.port, self.lab.keys[role])

    def close(self) -> None:
        """Takes no more connections."""
        if hasattr(self, "loop") and not self.loop.is_closed():
            self.loop.remove_reader(self.socket)
        self.socket.close()
