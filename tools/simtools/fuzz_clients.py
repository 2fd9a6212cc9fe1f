"""A `share` or `lab` that is fuzzed, and its clients: at the socket, and pages over HTTP.

A client notes what it sent and checks all that it hears: each answer is one JSON object with the `id` of its request,
and with `error` or what docs/reference/share.md has for the word. Fault says what is otherwise."""
from __future__ import annotations

import contextlib
import http.client
import json
import os
import pathlib
import select
import signal
import socket
import subprocess
import sys
import time
from typing import Any, Dict, List, Optional, Tuple

from . import programs
from .commands import Missing
from .fuzz_requests import ANSWERS, EVENTS, Request
from .running import PATIENCE

NETWORK = "".join("router %d.0.0.1 %d\n" % (number, number) for number in (1, 2, 3, 4)) + \
    "link 1.0.0.1 2.0.0.1 1\nlink 2.0.0.1 3.0.0.1 1\nlink 1.0.0.1 3.0.0.1 5\n" \
    "join 1.0.0.1 2.0.0.1\njoin 2.0.0.1 3.0.0.1\njoin 1.0.0.1 3.0.0.1\n"
STATUSES = (200, 400, 403, 404, 405, 413, 429, 503)


class Fault(Exception):
    """What a server did that it must not."""


class Server:
    """A share or a lab in a folder of its own, whose standard error is a file."""

    def __init__(self, tool: str, folder: pathlib.Path) -> None:
        self.tool, self.folder = tool, folder
        self.socket, self.log, self.error = str(folder / "socket"), folder / "log", folder / "stderr"
        script = folder / "network.bgp"
        script.write_text(NETWORK)
        words = [sys.executable, "-B", str(programs.TOP / "toolbox" / tool), str(script), "--at", self.socket, "--log",
                 str(self.log),
                 "--workers", "2"] + (["--present"] if tool == "lab" else [])
        with open(self.error, "wb") as error:
            self.process = subprocess.Popen(words, stdout=subprocess.PIPE, stderr=error, cwd=str(folder),
                                            start_new_session=True,
                                            env=dict(os.environ, PROGRAM=programs.bgpsim()))
        self.keys: Dict[str, str] = {}
        self.host = ""
        self._begun()
        self.program = self._program()

    def _begun(self) -> None:
        assert self.process.stdout
        line = b""
        while not line.startswith(b"`join"):
            line = self.process.stdout.readline()
            if not line:
                told = self.error.read_text("utf-8", "replace")
                if "needs the Python library" in told:
                    raise Missing(told.strip())
                raise Fault("%s did not begin: %s" % (self.tool, told[-500:]))
            name, _, url = line.decode().strip().partition(": ")
            if url.startswith("http://"):
                self.host, self.keys[name] = url.split("/")[2], url.split("/")[3]

    def _program(self) -> Optional[int]:
        """The number of the program that has the shared network."""
        for tasks in pathlib.Path("/proc/%d/task" % self.process.pid).glob("*/children"):
            for child in tasks.read_text().split():
                with contextlib.suppress(OSError):
                    if pathlib.Path("/proc/%s/cmdline" % child).read_bytes().endswith(b"\0script\0"):
                        return int(child)
        return None

    def connected(self) -> socket.socket:
        """A connection to the pages."""
        host, port = self.host.split(":")
        return socket.create_connection((host, int(port)), timeout=PATIENCE)

    def check(self) -> None:
        """Fault where it has ended, tells of a fault, or runs another program."""
        told = self.error.read_text("utf-8", "replace")
        if self.process.poll() is not None:
            raise Fault("the server ended with status %d: %s" % (self.process.returncode, told[-500:]))
        if "Traceback" in told or "fault in" in told:
            raise Fault("standard error: " + told[-1000:])
        if self._program() != self.program:
            raise Fault("the shared program was restarted")

    def get(self, path: str, key: str, body: Optional[bytes] = None) -> Tuple[int, bytes]:
        """The status and the body of an answer, to a POST where there is a body."""
        with contextlib.closing(http.client.HTTPConnection(self.host, timeout=PATIENCE)) as line:
            line.request("GET" if body is None else "POST", "/%s/%s" % (key, path), body,
                         {"Content-Type": "application/json"})
            answer = line.getresponse()
            if answer.status not in STATUSES:
                raise Fault("%s is answered %d" % (path[:80], answer.status))
            return answer.status, answer.read()

    def end(self) -> str:
        """Ends it by Ctrl-C: what it prints. Fault where it ends otherwise than it should."""
        self.process.send_signal(signal.SIGINT)
        out = self.process.communicate(timeout=PATIENCE)[0].decode()
        if self.process.returncode or "replay: ok " not in out:
            raise Fault("it ended with status %d: %s" % (self.process.returncode, out[-500:]))
        return out

    def close(self) -> None:
        if self.process.poll() is None:
            self.process.kill()
        self.process.wait()
        if self.process.stdout:
            self.process.stdout.close()


# In place of the status of a request that was cut off.
CUT_OFF = 0


class Peer:
    """What a client sent and heard. `calls` are those that were answered, in order, with their replies."""

    def __init__(self) -> None:
        self.asked: Dict[int, Request] = {}
        self.calls: List[Tuple[str, List[str]]] = []
        self.owed = 0
        # How many requests were cut off, of which nobody knows whether they were taken.
        self.cut_off = 0
        self.number = 1000
        self.seat: Optional[int] = None
        self.name, self.token = "", ""
        self.events: List[Dict[str, Any]] = []
        self.answers: Dict[int, Dict[str, Any]] = {}

    def numbered(self, request: Request) -> bytes:
        """The line of a request, which gets a number."""
        self.number += 1
        self.asked[self.number] = request
        return json.dumps({"id": self.number, **request}).encode()

    def hear(self, line: bytes) -> None:
        """Checks a message."""
        try:
            message = json.loads(line.decode("ascii"))
        except (ValueError, RecursionError):
            raise Fault("what was told is no JSON in ASCII: %r" % line[:300]) from None
        if not isinstance(message, dict):
            raise Fault("what was told is no object: %r" % line[:300])
        if "event" in message:
            if message["event"] not in EVENTS or "id" in message:
                raise Fault("there is no such event: %r" % line[:300])
            self.events = self.events[-50:] + [message]
            return
        self.owed -= 1
        self._answered(message, line)

    def _answered(self, message: Dict[str, Any], line: bytes) -> None:
        if "id" not in message:
            raise Fault("an answer has no `id`: %r" % line[:300])
        number = message["id"]
        if isinstance(number, (list, dict, bool)) or isinstance(number, str) and len(number) > 64:
            raise Fault("an answer has an odd `id`: %r" % line[:300])
        if "error" in message:
            if not isinstance(message["error"], str) or not message["error"] or "an error came up" in message["error"]:
                raise Fault("an error of a fault, or none: %r" % line[:300])
        request = self.asked.pop(number, None) if isinstance(number, int) else None
        if request is None:
            self._odd(message)
            return
        self.answers[number] = message
        if "error" not in message:
            self._fits(request, message, line)

    def _odd(self, message: Dict[str, Any]) -> None:
        """The answer to a mutated request."""
        if "seat" in message and "token" in message:
            self.seat, self.name, self.token = message["seat"], message["name"], message["token"]
        if "error" not in message and not any(set(fields) <= set(message) for fields in ANSWERS.values()):
            raise Fault("the answer is one to nothing: %r" % message)

    def _fits(self, request: Request, message: Dict[str, Any], line: bytes) -> None:
        word = request["do"]
        missing = [name for name in ANSWERS[word] if name not in message]
        if missing:
            raise Fault("the answer to `%s` has no `%s`: %r" % (word, missing[0], line[:300]))
        if word == "enter":
            self.seat, self.name, self.token = message["seat"], message["name"], message["token"]
        if word == "call":
            self.calls.append((request["line"], message["reply"]))
        if word == "check" and not message["verdict"].startswith("ok "):
            raise Fault("the log is checked: %s" % message["verdict"])


class Client(Peer):
    """A connection that is read line by line. `send` is of subclasses."""

    def __init__(self, line: socket.socket) -> None:
        super().__init__()
        self.line, self.part, self.is_open = line, b"", True

    def send(self, content: bytes) -> None:
        """Sends lines, the last one with its end."""
        raise NotImplementedError

    def take(self, line: bytes) -> None:
        """A line that was heard."""
        self.hear(line)

    def read(self, seconds: float = 0.0) -> bool:
        """Hears what was reported; whether there was something."""
        if not self.is_open or not select.select([self.line], [], [], seconds)[0]:
            return False
        try:
            content = self.line.recv(1 << 20)
        except OSError:
            content = b""
        self.is_open = bool(content)
        *lines, self.part = (self.part + content).split(b"\n")
        for line in lines:
            self.take(line)
        return bool(content)

    def ask(self, request: Request) -> Dict[str, Any]:
        """The answer to a request. Fault where none comes."""
        self.send(self.numbered(request))
        number, last = self.number, time.monotonic() + PATIENCE
        while number not in self.answers:
            if not self.is_open or time.monotonic() > last:
                raise Fault("`%s` is not answered" % request["do"])
            self.read(0.1)
        return self.answers.pop(number)

    def settle(self) -> None:
        """Hears all answers that are due."""
        last = time.monotonic() + PATIENCE
        while self.owed > 0 and self.is_open:
            if time.monotonic() > last:
                raise Fault("%d requests are not answered, the first of them %r" % (self.owed,
                                                                                    next(iter(self.asked.values()),
                                                                                         None)))
            self.read(0.1)
        while self.read(0.01):
            pass
        if self.owed < -self.cut_off:
            raise Fault("there are %d answers more than requests" % -self.owed)

    def close(self) -> None:
        self.is_open = False
        self.line.close()


class AtSocket(Client):
    """One at the Unix socket."""

    def __init__(self, server: Server) -> None:
        line = socket.socket(socket.AF_UNIX)
        line.settimeout(PATIENCE)
        line.connect(server.socket)
        super().__init__(line)

    def send(self, content: bytes) -> None:
        self.owed += content.count(b"\n") + 1
        self.raw(content + b"\n")

    def raw(self, content: bytes) -> None:
        """Sends bytes as they are, hearing what is reported meanwhile."""
        self.line.setblocking(False)
        left, last = content, time.monotonic() + PATIENCE
        while left and self.is_open:
            if time.monotonic() > last:
                raise Fault("what is sent is not read")
            try:
                left = left[self.line.send(left):]
            except BlockingIOError:
                self.read(0.05)
            except OSError:
                self.is_open = False
        self.line.setblocking(True)
        self.line.settimeout(PATIENCE)


class Page(Client):
    """A page of a role: what happens and answers come by a stream, requests go by POST."""

    def __init__(self, server: Server, role: str, name: str = "", token: str = "") -> None:
        self.server, self.key = server, server.keys[role]
        line = server.connected()
        given = "as=%s%s" % (name, token and "&token=" + token)
        line.sendall(("GET /%s/events?%s HTTP/1.1\r\nHost: %s\r\n\r\n" % (self.key, given, server.host)).encode())
        super().__init__(line)
        self.is_heard = False
        # `enter` and `watch` are asked by the server itself.
        self.owed = 0 if role == "to look" else 2
        last = time.monotonic() + PATIENCE
        while not any(event["event"] == "page" for event in self.events) and self.is_open and time.monotonic() < last:
            self.read(0.1)
        self.page = next((str(event["page"]) for event in self.events if event["event"] == "page"), "")

    def take(self, line: bytes) -> None:
        if line.startswith(b"data: "):
            self.hear(line[len(b"data: "):])

    def send(self, content: bytes) -> None:
        status = self._status(content)
        self.owed += status == 200
        self.cut_off += status == CUT_OFF
        if status not in (200, 429) and len(content) <= 1 << 16 and self.is_open and self.page:
            raise Fault("a request of a page has the status %d" % status)

    def _status(self, content: bytes) -> int:
        """The status of a request. The server may close before all of a long one is sent, or its status is read."""
        try:
            return self.server.get("do?page=" + self.page, self.key, content)[0]
        except (BrokenPipeError, ConnectionResetError):
            if len(content) <= 1 << 16:
                raise
            return CUT_OFF

    def ask(self, request: Request) -> Dict[str, Any]:
        if not self.page:
            raise Fault("there is no page")
        return super().ask(request)
