"""Measures how soon `lab` answers those who work, while others who only look ask for pictures without a pause.

    tools/load-lab [SCRIPT] [--pages N] [--looking N] [--seconds N] [--rest SECONDS]

Each page that works makes a call, waits for its answer, asks for the picture of the last step, and rests. Each
connection that looks asks for the picture of one step after another. SCRIPT is a lesson where none is named. It prints
the median, the ninth of ten and the longest time of an answer, in milliseconds. It needs tornado, as the lab does.
"""
from __future__ import annotations

import asyncio
import json
import random
import re
import statistics
import subprocess
import sys
import tempfile
import time
from dataclasses import dataclass, field
from typing import Any, Dict, List, Sequence, Tuple

from . import commands
from .programs import TOP

LESSON = TOP / "toolbox" / "lessons" / "disagree.lesson"
Reader, Writer = asyncio.StreamReader, asyncio.StreamWriter


@dataclass
class Times:
    """How long each answer took, in seconds, by what was asked, and what was refused."""
    took: Dict[str, List[float]] = field(default_factory=dict)
    refused: Dict[str, int] = field(default_factory=dict)

    def add(self, what: str, began: float) -> None:
        """An answer that came just now."""
        self.took.setdefault(what, []).append(time.monotonic() - began)

    def refuse(self, what: str) -> None:
        """An answer that was none."""
        self.refused[what] = self.refused.get(what, 0) + 1


class Client:
    """One connection to a lab: requests one after another, by the address of a role."""

    def __init__(self, url: str) -> None:
        found = re.fullmatch(r"http://127\.0\.0\.1:(\d+)(/[\w-]+/)", url)
        assert found, url
        self.port, self.path = int(found.group(1)), found.group(2)

    async def open(self) -> None:
        """Connects."""
        self.reader, self.writer = await asyncio.open_connection("127.0.0.1", self.port, limit=1 << 24)

    async def ask(self, method: str, path: str, body: bytes = b"") -> Tuple[int, bytes]:
        """The status and the body of an answer."""
        self._send(method, path, body)
        status, length = await self._head()
        return status, await self.reader.readexactly(length)

    def _send(self, method: str, path: str, body: bytes) -> None:
        kind = "Content-Type: application/json\r\nContent-Length: %d\r\n" % len(body) if method == "POST" else ""
        self.writer.write(("%s %s%s HTTP/1.1\r\nHost: 127.0.0.1:%d\r\n%s\r\n" % (
            method, self.path, path, self.port, kind)).encode() + body)

    async def _head(self) -> Tuple[int, int]:
        head = (await self.reader.readuntil(b"\r\n\r\n")).decode("latin-1")
        length = re.search(r"(?i)\r\ncontent-length: (\d+)", head)
        return int(head.split(" ")[1]), int(length.group(1)) if length else 0

    async def events(self, path: str) -> None:
        """Begins to hear what happens."""
        self._send("GET", path, b"")
        await self._head()

    async def until(self, name: str, value: Any = None) -> Dict[str, Any]:
        """The next message that has something of this name, and of this value where one is given."""
        while True:
            line = await self.reader.readline()
            if not line:
                raise EOFError("the lab has gone")
            if line.startswith(b"data: "):
                told: Dict[str, Any] = json.loads(line[6:])
                if name in told and value in (None, told[name]):
                    return told


async def work(url: str, name: str, line: str, until: float, rest: float, times: Times) -> None:
    """A page that works: calls and pictures."""
    hears, asks = Client(url), Client(url)
    await hears.open()
    await asks.open()
    await hears.events("events?as=" + name)
    page = (await hears.until("page"))["page"]
    await hears.until("seat")
    count = 0
    while time.monotonic() < until:
        count += 1
        began = time.monotonic()
        await asks.ask("POST", "do?page=" + page, json.dumps({"id": count, "do": "call", "line": line}).encode())
        await hears.until("id", count)
        times.add("a call", began)
        began = time.monotonic()
        status, _ = await asks.ask("GET", "picture?page=" + page)
        times.add("a picture", began)
        if status != 200:
            times.refuse("a picture: status %d" % status)
        await asyncio.sleep(rest * random.uniform(0.5, 1.5))


async def look(url: str, steps: int, until: float, times: Times) -> None:
    """A connection that asks for pictures without a pause."""
    while time.monotonic() < until:
        try:
            asks = Client(url)
            await asks.open()
            while time.monotonic() < until:
                began = time.monotonic()
                status, _ = await asks.ask("GET", "picture?step=%d&prefix=10.%d.0.0/16" % (
                    random.randint(0, steps), random.randint(0, 255)))
                times.add("a picture of those who look", began)
                if status != 200:
                    times.refuse("a picture of those who look: status %d" % status)
        except (OSError, EOFError):
            await asyncio.sleep(0.05)


async def measure(urls: Dict[str, str], line: str, given: Any) -> Times:
    """All at once, for so many seconds."""
    first = Client(urls["to work"])
    await first.open()
    status, body = await first.ask("GET", "steps")
    assert status == 200
    steps = len(json.loads(body)["steps"])
    until, times = time.monotonic() + given.seconds, Times()
    await asyncio.gather(
        *(work(urls["to work"], "p%d" % number, line, until, given.rest, times) for number in range(given.pages)),
        *(look(urls["to look"], steps, until, times) for _ in range(given.looking)))
    return times


def urls_of(lab: "subprocess.Popen[str]") -> Dict[str, str]:
    """The addresses that a lab prints when it serves."""
    found: Dict[str, str] = {}
    assert lab.stdout
    for line in lab.stdout:
        if line.startswith("`join"):
            return found
        name, _, url = line.strip().partition(": ")
        found[name] = url
    raise commands.Missing("the lab did not begin: run it by hand")


def told(times: Times) -> List[str]:
    """The times in words."""
    lines = []
    for what, took in sorted(times.took.items()):
        ordered = sorted(took)
        lines.append("%s: %d, median %.0f ms, nine of ten %.0f, at most %.0f" % (
            what, len(took), 1000 * statistics.median(took), 1000 * ordered[len(took) * 9 // 10], 1000 * ordered[-1]))
    return lines + ["refused %s, %d times" % each for each in sorted(times.refused.items())]


def main(words: Sequence[str]) -> int:
    """The command."""
    asked = commands.parser(__doc__)
    asked.add_argument("script", nargs="?", default=str(LESSON), metavar="SCRIPT")
    asked.add_argument("--pages", type=commands.number, default=25, metavar="N")
    asked.add_argument("--looking", type=commands.number, default=30, metavar="N")
    asked.add_argument("--seconds", type=commands.number, default=15, metavar="N")
    asked.add_argument("--rest", type=float, default=0.5, metavar="SECONDS")
    asked.add_argument("--line", default="quiet", metavar="LINE")
    given = asked.parse_args(words)
    with tempfile.TemporaryDirectory() as folder:
        lab = subprocess.Popen([sys.executable, "-B", str(TOP / "toolbox" / "lab"), given.script, "--present", "--at",
                                folder + "/socket"], stdout=subprocess.PIPE, text=True)
        try:
            for line in told(asyncio.run(measure(urls_of(lab), given.line, given))):
                print(line)
        finally:
            lab.kill()
            lab.wait()
    return 0
