"""Clients of a server in which faults come up: people at the socket, pages, and requests by HTTP."""
from __future__ import annotations

import contextlib
import functools
import http.client
import json
import os
import pathlib
import resource
import select
import shutil
import signal
import socket
import subprocess
import sys
import tempfile
import time
from typing import Any, Dict, List, NamedTuple, Optional, Sequence, Tuple

from .programs import TOP
from .running import PATIENCE

CHILD = str(pathlib.Path(__file__).resolve().parent / "faulty_server.py")
Message = Dict[str, Any]


class Wrong(Exception):
    """What the server did and should not have done."""


class Outcome(NamedTuple):
    """What became of a request: its answer, or the word with which the connection ended."""
    answer: Optional[Message]
    ended: str = ""

    @property
    def error(self) -> Optional[str]:
        """The text of the error; nothing where it was answered as ever."""
        return self.ended or "the connection ended" if self.answer is None else self.answer.get("error")


class Client:
    """One who sends requests, and reads messages. Events are in `events`. A subclass is a transport."""

    def __init__(self) -> None:
        self.events: List[Message] = []
        # Answers that nobody waited for, by the number of the request.
        self.late: Dict[Any, Message] = {}
        self.number = 0
        self.seat = -1
        self.token = ""
        self.is_closed = False
        self.unread = b""

    def read(self, seconds: float) -> Optional[bytes]:
        """What comes within some seconds; nothing at the end, Wrong where nothing comes."""
        raise NotImplementedError

    def post(self, content: bytes) -> Optional[Outcome]:
        """Sends a request; what became of it where that is known at once."""
        raise NotImplementedError

    def hear(self, seconds: float = PATIENCE) -> Optional[Message]:
        """The next message; nothing at the end."""
        last = time.monotonic() + seconds
        while b"\n" not in self.unread:
            more = self.read(last - time.monotonic())
            if not more:
                return None
            self.unread += more
        line, _, self.unread = self.unread.partition(b"\n")
        found: Message = json.loads(line)
        return found

    def send(self, do: str, **more: Any) -> Tuple[int, Optional[Outcome]]:
        """Sends a request: its number, and what is known of it."""
        self.number += 1
        content = json.dumps({"id": self.number, "do": do, **more}).encode("ascii")
        return self.number, self.post(content)

    def outcome(self, number: int, seconds: float = PATIENCE) -> Outcome:
        """What becomes of the request of a number. Wrong where nothing does."""
        while True:
            message = self.hear(seconds)
            if message is None:
                words = [each.get("text", "") for each in self.events if each["event"] == "told"]
                self.is_closed = True
                return Outcome(None, words[-1] if words else "")
            if "event" in message:
                self.events.append(message)
            elif message.get("id") == number or message.get("id") is None:
                return Outcome(message)

    def request(self, do: str, **more: Any) -> Outcome:
        """Sends a request: what becomes of it."""
        number, known = self.send(do, **more)
        return known or self.outcome(number)

    def ask(self, do: str, **more: Any) -> Message:
        """The answer to a request. Wrong where there is none, or an error."""
        found = self.request(do, **more)
        if found.answer is None or "error" in found.answer:
            raise Wrong("`%s` is answered by %s" % (do, found.answer or "the end: " + found.ended))
        return found.answer

    def enter(self, name: str, token: Optional[str] = None) -> None:
        """Takes a seat."""
        told = self.ask("enter", **{"as": name}, **({"token": token} if token else {}))
        self.seat, self.token = told["seat"], told["token"]

    def drain(self) -> None:
        """Reads what has come, and sees whether the connection has ended."""
        with contextlib.suppress(Wrong):
            while not self.is_closed:
                message = self.hear(0)
                self.is_closed = message is None
                self.events += [message] if message and "event" in message else []
                if message and "event" not in message:
                    self.late[message.get("id")] = message

    def heard(self) -> List[Message]:
        """The events since this was asked the last time."""
        found, self.events = self.events, []
        return found

    def close(self) -> None:
        """Goes."""
        raise NotImplementedError


class SocketClient(Client):
    """One at the socket."""

    def __init__(self, path: str) -> None:
        super().__init__()
        self.line = socket.socket(socket.AF_UNIX)
        self.line.settimeout(PATIENCE)
        self.line.connect(path)

    def read(self, seconds: float) -> Optional[bytes]:
        return read_some(self.line, seconds)

    def post(self, content: bytes) -> Optional[Outcome]:
        with contextlib.suppress(OSError):
            self.line.sendall(content + b"\n")
        return None

    def close(self) -> None:
        self.line.close()


class PageClient(Client):
    """A page: requests by POST, and events that the server sends."""

    def __init__(self, port: int, key: str, name: str, token: str = "") -> None:
        super().__init__()
        self.port, self.key = port, key
        self.line = socket.create_connection(("127.0.0.1", port), PATIENCE)
        query = "as=%s" % name + ("&token=" + token if token else "")
        self.line.sendall(("GET /%s/events?%s HTTP/1.1\r\nHost: 127.0.0.1:%d\r\n\r\n" % (key, query, port)).encode())
        self.raw = b""
        self.is_begun = self.is_over = False
        page = self.hear()
        if page is None or page.get("event") != "page":
            raise Wrong("a page begins with %s" % page)
        self.page = page["page"]
        entered = self.outcome(0)
        if entered.answer is None or "error" in entered.answer:
            raise Wrong("a page does not enter: %s" % (entered,))
        self.seat, self.token = entered.answer["seat"], entered.answer["token"]
        self.outcome(0)

    def read(self, seconds: float) -> Optional[bytes]:
        """Lines of messages, taken from events in chunks."""
        more = b"" if self.is_over else read_some(self.line, seconds)
        if not more:
            return None
        self.raw += more
        if not self.is_begun:
            if b"\r\n\r\n" not in self.raw:
                return self.read(seconds)
            self.is_begun = True
            # An error is no stream of events.
            self.is_over = b" 200 " not in self.raw.partition(b"\r\n")[0]
            self.raw = self.raw.partition(b"\r\n\r\n")[2]
        *lines, self.raw = self.raw.split(b"\n")
        if b"0\r" in lines:
            # The last chunk: the answer ends.
            self.is_over = True
        found = b"".join(line[len(b"data: "):] + b"\n" for line in lines if line.startswith(b"data: "))
        return found or (None if self.is_over else self.read(seconds))

    def post(self, content: bytes) -> Optional[Outcome]:
        found = fetched(self.port, self.key, "do?page=" + self.page, content)
        if found.status == 200:
            return None
        return Outcome({"id": None, "error": "by HTTP %d: %s" % (found.status, found.body.decode("utf-8", "replace"))})

    def close(self) -> None:
        self.line.close()


def read_some(line: socket.socket, seconds: float) -> bytes:
    """What comes within some seconds; empty at the end. Wrong where nothing comes."""
    if not select.select([line], [], [], max(seconds, 0))[0]:
        raise Wrong("nothing comes within %d seconds" % PATIENCE)
    try:
        return line.recv(1 << 16)
    except ConnectionError:
        return b""


class Fetched(NamedTuple):
    """An answer by HTTP; status 0 where the connection ended without a whole one."""
    status: int
    body: bytes


def fetched(port: int, key: str, path: str, body: Optional[bytes] = None) -> Fetched:
    """What a request by HTTP is answered."""
    line = http.client.HTTPConnection("127.0.0.1", port, timeout=PATIENCE)
    with contextlib.closing(line):
        try:
            headers = {} if body is None else {"Content-Type": "application/json"}
            line.request("GET" if body is None else "POST", "/%s/%s" % (key, path), body, headers)
            answer = line.getresponse()
            return Fetched(answer.status, answer.read())
        except socket.timeout:
            raise Wrong("`%s` is not answered within %d seconds" % (path, PATIENCE)) from None
        except (OSError, http.client.HTTPException):
            return Fetched(0, b"")


class Entry(NamedTuple):
    """A call that stands in the log."""
    seat: int
    line: str
    reply: List[str]


def entries_in(text: str) -> List[Entry]:
    """The calls that stand in a part of a log."""
    found: List[Entry] = []
    for line in text.split("\n"):
        if line.startswith("@"):
            seat, _, command = line[1:].partition(" ")
            found.append(Entry(int(seat), command, []))
        elif line.startswith("= "):
            found[-1].reply.append(line[2:])
    return found


@functools.lru_cache(maxsize=None)
def _compiled() -> "tempfile.TemporaryDirectory[str]":
    """A folder for what Python compiles, so that servers begin soon. It goes when this process ends."""
    return tempfile.TemporaryDirectory(prefix="faults-compiled-")


class Server:
    """A server that runs, with a log in a folder of its own; or in that of one which has ended, whose log it takes up.

    The log of a `lab` that is not told where to keep it is beside the socket."""

    def __init__(self, tool: str, script: str, words: Sequence[str] = (), before: Optional[Server] = None,
                 is_kept: bool = True) -> None:
        self.folder: str = before.folder if before else tempfile.mkdtemp(prefix="faults-")
        self.socket = os.path.join(self.folder, "s")
        self.log = os.path.join(self.folder, "log")
        pathlib.Path(self.folder, "script").write_text(script)
        self.errors_path = os.path.join(self.folder, "errors")
        given, self.commands = os.pipe()
        self.told, told = os.pipe()
        for each in (given, told):
            os.set_inheritable(each, True)
        called = [sys.executable, CHILD, str(given), str(told), tool, *words,
                  *(["--at", self.socket, "--log", self.log] if is_kept else []),
                  *([] if before else [os.path.join(self.folder, "script")])]
        with open(self.errors_path, "wb") as errors:
            self.process = subprocess.Popen(called, stdout=subprocess.PIPE, stderr=errors, pass_fds=(given, told),
                                            cwd=str(TOP), start_new_session=True,
                                            env={**os.environ, "PYTHONPYCACHEPREFIX": _compiled().name})
        os.close(given)
        os.close(told)
        self.port, self.key = 0, ""
        assert self.process.stdout
        line = self.process.stdout.readline().decode()
        while not line.startswith("`join"):
            if not line:
                raise Wrong("the server does not start: " + self.errors())
            if line.startswith("lab: "):
                port, self.key, _ = line.strip().partition("127.0.0.1:")[2].split("/")
                self.port = int(port)
            line = self.process.stdout.readline().decode()
        if not is_kept:
            self.socket = line.split(" ")[1]
            self.log = self.socket + ".log"

    def command(self, do: str, **more: Any) -> Message:
        """Has the child do something: what it tells. Wrong where it has ended."""
        os.write(self.commands, json.dumps({"do": do, **more}).encode("ascii") + b"\n")
        os.kill(self.process.pid, signal.SIGUSR1)
        line = b""
        while not line.endswith(b"\n"):
            if not select.select([self.told], [], [], PATIENCE)[0]:
                raise Wrong("the server's loop stands still")
            more_of_it = os.read(self.told, 1 << 16)
            if not more_of_it:
                raise Wrong("the server ended: " + self.errors()[-500:])
            line += more_of_it
        found: Message = json.loads(line)
        return found

    def rest(self) -> Message:
        """Waits until the loop has nothing to do: what was counted until then."""
        before: Message = {"count": -1}
        last = time.monotonic() + PATIENCE
        while time.monotonic() < last:
            found = self.command("count")
            if found["idle"] and found["count"] == before["count"]:
                return found
            before = found
            time.sleep(0.001)
        raise Wrong("the server's loop does not come to rest")

    def errors(self) -> str:
        """What stands on standard error."""
        return pathlib.Path(self.errors_path).read_text("utf-8", "replace")

    def entries(self, start: int = 0) -> List[Entry]:
        """The calls that stand in the log from a byte on."""
        with open(self.log, "rb") as file:
            file.seek(start)
            return entries_in(file.read().decode("latin-1"))

    def size(self) -> int:
        """How many bytes the log has."""
        return os.path.getsize(self.log)

    def child(self, word: str = "converge") -> int:
        """The number of the process of the program, or of a worker; 0 where there is none."""
        path = "/proc/%d/task/%d/children" % (self.process.pid, self.process.pid)
        for each in pathlib.Path(path).read_text().split():
            with contextlib.suppress(OSError):
                if word.encode() + b"\0" in pathlib.Path("/proc/%s/cmdline" % each).read_bytes():
                    return int(each)
        return 0

    def limit(self, which: int, value: int) -> Tuple[int, int]:
        """Sets a soft limit of the server: the one before."""
        before = resource.prlimit(self.process.pid, which)
        resource.prlimit(self.process.pid, which, (value, before[1]))
        return before

    def end(self, number: int = signal.SIGINT) -> Tuple[int, str]:
        """Ends it by a signal: the status, and what it told last."""
        if self.process.poll() is None:
            os.kill(self.process.pid, number)
        return self.ended()

    def ended(self) -> Tuple[int, str]:
        """Waits for its end: the status, and what it told on standard output. Wrong where it does not end."""
        try:
            told, _ = self.process.communicate(timeout=PATIENCE)
        except subprocess.TimeoutExpired:
            raise Wrong("it does not end within %d seconds" % PATIENCE) from None
        return self.process.returncode, told.decode("utf-8", "replace")

    def close(self) -> None:
        """Ends it in any case, and takes its folder away."""
        if self.process.poll() is None:
            self.process.kill()
            self.process.wait()
        if self.process.stdout:
            self.process.stdout.close()
        for each in (self.commands, self.told):
            os.close(each)
        shutil.rmtree(self.folder, ignore_errors=True)
