"""One request of a browser: who asks, what for, and the answer.

A request is answered where its Host is this server, its Origin, where it has one, too, and its address begins with the
secret of a role. Paths are those that are listed here: no file is found by one. All that a script or a person brings
goes out as JSON or as plain text."""
from __future__ import annotations

import asyncio
import contextlib
import json
import os
import pkgutil
import re
import time
from typing import Any, Awaitable, Callable, Dict, Iterator, Optional, Tuple

from tornado.iostream import StreamClosedError
from tornado.web import HTTPError, RequestHandler, stream_request_body

from ..jobs import Asker, Busy
from ..program.language import number
from ..program.language_table import FORMS
from ..program.mistakes import Mistake
from ..session.faults import described
from ..session.log import HEADER
from ..session.requests import is_text
from ..session.roles import LOOK, RANKS
from .connections import WRITE_SECONDS, Connection, Connections
from .lab import Lab
from .page import PageMember

FILES = {"": ("lab.html", "text/html"), "lab.css": ("lab.css", "text/css"), "lab.js": ("lab.js", "text/javascript"),
         **{name: (name, "text/javascript") for name in ("drawn.js", "moving.js", "changes.js", "language.js")}}
POLICY = ("default-src 'none'; script-src 'self'; style-src 'self'; connect-src 'self'; base-uri 'none'; "
          "form-action 'none'; frame-ancestors 'none'")
HEADERS = {"Content-Security-Policy": POLICY, "X-Content-Type-Options": "nosniff", "Referrer-Policy": "no-referrer",
           "Cross-Origin-Resource-Policy": "same-origin", "Cross-Origin-Opener-Policy": "same-origin",
           "Cache-Control": "no-store", "Server": "lab"}
# A page hears something at least so often; a request that would have to wait longer than this is refused.
BREATH, LONGEST_WAIT = 15.0, 5.0
# An address has so many values, of so many characters each.
MOST_VALUES, LONGEST_VALUE = 20, 128
LONGEST_BODY, PIECE = 1 << 16, 1 << 16
# So many whole records or scripts are sent at once to those of a role.
WHOLE = 4
Query = Dict[str, str]
# The name of a line of a head, and what its value has none of.
NAME, BREAKS = re.compile(r"[!#$%&'*+.^_`|~0-9A-Za-z-]+"), re.compile("[\0\r\n]")


class Denied(Exception):
    """The request is answered with this status and text."""

    def __init__(self, status: int, text: str) -> None:
        super().__init__(text)
        self.status, self.text = status, text

    def __reduce__(self) -> Tuple[Any, ...]:
        """How pickle and copy make it again."""
        return Denied, (self.status, self.text)


@stream_request_body
class Handler(RequestHandler):
    """One request."""
    SUPPORTED_METHODS = ("GET", "POST")  # type: ignore[assignment]

    def initialize(self, lab: Lab, connections: Connections, here: str) -> None:
        self.lab, self.connections, self.here = lab, connections, here
        self.body = bytearray()
        self.connection: Optional[Connection] = None
        self.opened: Optional[PageMember] = None

    def set_default_headers(self) -> None:
        for name, value in HEADERS.items():
            self.set_header(name, value)

    def data_received(self, chunk: bytes) -> None:
        if len(self.body) + len(chunk) <= LONGEST_BODY:
            self.body += chunk

    def prepare(self) -> None:
        """Who asks is looked at before anything of a body is read."""
        self.connections.begun[self._stream] = asyncio.current_task()
        try:
            self._check_head()
            self.role, self.path_in = self._role()
            self.connection = self.connections.prove(self._stream, self.role)
            if self.connection is None:
                raise Denied(503, "too many connections of those who %s: try again soon" % self.role)
            self.query = self._query()
            if self.request.method == "POST":
                self._check_body()
        except Denied as denied:
            self._deny(denied)

    @property
    def _stream(self) -> Any:
        return self.request.connection.stream  # type: ignore[union-attr]

    def _check_head(self) -> None:
        """Denied where another reader might find other lines in this head, or the connection is about to close."""
        if self._stream in self.connections.ending:
            self._stream.close()
            raise Denied(400, "nothing is served behind a request that was refused")
        if any(not NAME.fullmatch(name) or BREAKS.search(value) for name, value in self.request.headers.get_all()):
            raise Denied(400, "a line of the head is expected to be NAME: VALUE, without control characters")

    def _role(self) -> Tuple[str, str]:
        """The role whose secret the address has, and the path behind it."""
        hosts, origins = (self.request.headers.get_list(name) for name in ("Host", "Origin"))
        if hosts != [self.here] or any(each != "http://" + self.here for each in origins):
            raise Denied(403, "another host or origin")
        _, key, path = (self.request.path + "//").split("/", 2)
        role = self.lab.role(key)
        if role is None:
            raise Denied(403, "the address has to be the one that `lab` printed")
        return role, path.rstrip("/")

    def _query(self) -> Query:
        """The values of the address, each a short text."""
        given = self.request.query_arguments
        if sum(map(len, given.values())) > MOST_VALUES:
            raise Denied(400, "the address has at most %d values" % MOST_VALUES)
        try:
            found = {name: values[-1].decode("utf-8") for name, values in given.items()}
        except UnicodeError:
            raise Denied(400, "the address has bytes that are not UTF-8") from None
        if not all(is_text(value, LONGEST_VALUE) for value in found.values()):
            raise Denied(400, "a value of the address is a text of at most %d characters without control characters"
                         % LONGEST_VALUE)
        return found

    def _check_body(self) -> None:
        length = number(self.request.headers.get("Content-Length") or "", 0, LONGEST_BODY)
        if length is None or self.request.headers.get("Transfer-Encoding"):
            raise Denied(413, "a body of at most %d bytes is expected, with its length" % LONGEST_BODY)
        if self.role == LOOK:
            raise Denied(403, "who looks changes nothing")
        if self.path_in != "do" or self.request.headers.get("Content-Type") != "application/json":
            raise Denied(404, "requests are JSON, and go to `do`")

    # Methods

    async def get(self) -> None:
        """Something to be looked at."""
        await self._answered(self._get)

    async def post(self) -> None:
        """A request of a page."""
        await self._answered(self._post)

    async def _answered(self, answer: Callable[[], Awaitable[None]]) -> None:
        """Answers a request in its turn, and says what is wrong with it."""
        try:
            await self._turn()
            self.lab.hub.mend()
            await answer()
        except Denied as denied:
            self._deny(denied)
        except Busy as busy:
            self._json({"error": str(busy)}, 503)
        except Mistake as mistake:
            self.lab.hub.faults.tell_cause("a request of a page", mistake)
            self._json({"error": str(mistake)}, 400)
        except (StreamClosedError, asyncio.TimeoutError):
            # Who asked has gone, or does not read.
            self._stream.close()
            return
        except HTTPError:
            raise
        except Exception as fault:  # pylint: disable=broad-except
            self.lab.hub.faults.tell("a request of a page", fault)
            self._json({"error": "an error came up in the server (%s)" % described(fault)}, 500)
        await self._sent()

    async def _turn(self) -> None:
        """Waits for the turn of this connection, and of those who look for theirs. Denied where that takes too long."""
        assert self.connection is not None and self.connection.allowance is not None
        now = time.monotonic()
        seconds = self.connection.allowance.take(now)
        if self.role == LOOK:
            seconds = max(seconds, self.connections.lookers.take(now))
        if seconds > 0:
            await asyncio.sleep(min(seconds, LONGEST_WAIT))
        if seconds > LONGEST_WAIT:
            raise Denied(429, "too many requests: try again in %d seconds" % (seconds + 1))

    # What is sent

    def _send(self, kind: str, content: bytes, status: int = 200) -> None:
        if self._headers_written:
            self._stream.close()
            return
        self.set_status(status)
        self.set_header("Content-Type", kind + "; charset=utf-8")
        if status >= 400:
            self.set_header("Connection", "close")
        self.write(content)

    def _json(self, value: object, status: int = 200) -> None:
        self._send("application/json", json.dumps(value, separators=(",", ":")).encode("ascii"), status)

    def _deny(self, denied: Denied) -> None:
        self._send("text/plain", denied.text.encode("utf-8") + b"\n", denied.status)
        if not self._finished:
            self.finish()

    async def _sent(self) -> None:
        """Has the answer sent; who does not read it is cut off."""
        if self._finished:
            return
        try:
            await asyncio.wait_for(asyncio.ensure_future(self.finish()), WRITE_SECONDS)
        except (StreamClosedError, asyncio.TimeoutError):
            self._stream.close()

    async def _pieces(self, sent: Awaitable[None]) -> None:
        await asyncio.wait_for(asyncio.ensure_future(sent), WRITE_SECONDS)

    # What is asked

    async def _get(self) -> None:
        asked: Dict[str, Callable[[], Awaitable[None]]] = {
            "picture": self._picture, "table": self._table, "steps": self._steps, "forms": self._forms,
            "script": self._script, "record": self._record, "events": self._events}
        if self.path_in in FILES:
            name, kind = FILES[self.path_in]
            self._send(kind, pkgutil.get_data("bgptools.web", "static/" + name) or b"")
        elif self.path_in in asked:
            await asked[self.path_in]()
        else:
            raise Denied(404, "there is nothing of this name")

    async def _post(self) -> None:
        page = self.lab.page(self.query.get("page", ""), self.role)
        if not self.lab.ask(page, bytes(self.body)):
            raise Denied(429, "too many requests at once: wait for the answers")
        self._json({})

    def _asker(self) -> Asker:
        """Who asks: a page, or else a connection."""
        page = self.lab.pages.get(self.query.get("page", ""))
        assert self.connection is not None
        person = "page " + page.key if page and page.role == self.role else "connection %d" % self.connection.number
        return Asker(person, RANKS[self.role])

    def _step(self, name: str) -> int:
        """The step that is asked for; the last one where none is."""
        most = len(self.lab.lines())
        found = number(self.query[name], 0, most) if name in self.query else most
        if found is None:
            raise Mistake("`%s`: a step is a number from 0 to %d" % (name, most))
        return found

    async def _picture(self) -> None:
        query = self.query
        way = (query["from"], query["to"]) if query.get("from") and query.get("to") else None
        told = await self.lab.hub.pool.picture(self._asker(), self._step("step"), query.get("prefix"), way)
        self._send("application/json", told)

    async def _table(self) -> None:
        step, query = self._step("step"), self.query
        router, prefix = query.get("router", ""), query.get("prefix", "")
        self._send("application/json", await self.lab.hub.pool.table(self._asker(), step, router, prefix))

    async def _steps(self) -> None:
        self._json(self.lab.steps(self._step("from") if "from" in self.query else 0))

    async def _forms(self) -> None:
        self._json([[form.spelling, form.meaning, form.group] for form in FORMS])

    # What is long

    async def _script(self) -> None:
        """The script so far, line by line."""
        lines = self.lab.lines()
        count = len(lines)
        with self._whole("network.bgp"):
            for start in range(0, count, 1000):
                part = "".join(line + "\n" for line in lines[start:min(start + 1000, count)])
                self.write(part.encode("latin-1"))
                await self._pieces(self.flush())

    async def _record(self) -> None:
        """The log so far, with an end, as `bgpsim replay` reads it."""
        log = self.lab.shared.log
        left, end = log.size, b"end %d\n" % log.count
        with self._whole("network.log"), open(log.path, "rb", buffering=0) as file:
            if not left:
                self.write((HEADER + "\n").encode())
            while left:
                piece = os.read(file.fileno(), min(left, PIECE))
                if not piece:
                    raise Mistake("the log is shorter than what was written")
                left -= len(piece)
                self.write(piece)
                await self._pieces(self.flush())
            self.write(end)

    @contextlib.contextmanager
    def _whole(self, name: str) -> Iterator[None]:
        """While something whole is sent as a file of this name. Of a role some are served at once."""
        sending = self.connections.sending
        if sending[self.role] >= WHOLE:
            raise Busy("%d others are loading files: try again soon" % WHOLE)
        sending[self.role] += 1
        try:
            self.set_header("Content-Type", "text/plain; charset=utf-8")
            self.set_header("Content-Disposition", 'attachment; filename="%s"' % name)
            yield
        finally:
            sending[self.role] -= 1

    async def _events(self) -> None:
        """What happens, until the page or the lab goes."""
        page = self.opened = self.lab.open(self.role, self.query.get("as", ""), self.query.get("token"),
                                            self._stream.closed)
        page.cut = self._stream.close
        self.set_header("Content-Type", "text/event-stream; charset=utf-8")
        self.set_header("Connection", "close")
        while True:
            message = await page.next(BREATH)
            if message == b"":
                return
            self.write(b": here\n\n" if message is None else b"data: " + message.rstrip(b"\n") + b"\n\n")
            await self._pieces(self.flush())

    # The end

    def on_connection_close(self) -> None:
        # What waits for the rest of a body waits no more.
        super().on_connection_close()
        self._ended()

    def on_finish(self) -> None:
        self._ended()
        if self.get_status() >= 400:
            self._close()

    def _close(self) -> None:
        """Closes the connection once the answer has gone. What else came over it is not served."""
        stream = self._stream
        self.connections.ending.add(stream)
        with contextlib.suppress(StreamClosedError):
            stream.write(b"").add_done_callback(lambda _: stream.close())

    def _ended(self) -> None:
        """The request is over: its page goes, and its connection is idle."""
        self.connections.begun.pop(self._stream, None)
        connection, self.connection = self.connection, None
        if connection is not None:
            self.connections.answered(connection)
        page, self.opened = self.opened, None
        if page is not None:
            page.is_gone, page.cut = True, lambda: None
            page.end(b"")
            self.lab.close(page)

    def compute_etag(self) -> None:
        """No answer is kept by a browser, so none has a tag."""

    # What goes wrong in tornado

    def write_error(self, status_code: int, **_: Any) -> None:
        self.set_header("Content-Type", "text/plain; charset=utf-8")
        self.set_header("Connection", "close")
        self.finish("%d: %s\n" % (status_code, self._reason))

    def log_exception(self, typ: Any, value: Any, tb: Any) -> None:
        if isinstance(value, BaseException) and not isinstance(value, (HTTPError, StreamClosedError)):
            self.lab.hub.faults.tell("a request of a page", value)
