"""A worker process as the server holds it."""
from __future__ import annotations

import asyncio
import contextlib
import os
import pathlib
import secrets
import shutil
import signal
import subprocess
import sys
import tempfile
from typing import BinaryIO, Dict, List, Optional, Sequence, Tuple, cast

from ..program import location
from ..program.mistakes import Mistake
from . import frames
from .frames import HEAD, LINES, PART, START, Garbage
from .limits import Limits

WORKER = str(pathlib.Path(__file__).resolve().parent / "worker.py")
# What of the environment a worker is given, beside PROGRAM, the server's own program by its absolute path.
KEPT = ("PATH", "LANG", "LC_ALL", "LC_CTYPE")
# By this variable a process is found wherever it has gone.
TOKEN = "BGPSIM_JOB"
# Where 200 routers stand takes a tenth of this, in bytes.
LARGEST_PLACES = 1 << 20
# How often it is looked whether a process has ended, and how long the last ones are waited for, in seconds.
SOON, PATIENCE = 0.002, 5.0


def new_token() -> str:
    """A value of TOKEN that no other pool has."""
    return secrets.token_hex(16) + "-"


def environment(token: str) -> Dict[str, str]:
    """The environment of a worker."""
    kept = {name: os.environ[name] for name in KEPT if name in os.environ}
    program = location.program()
    kept["PROGRAM"] = os.path.abspath(program if os.sep in program else shutil.which(program) or program)
    return {**kept, TOKEN: token}


class Ended(Exception):
    """The worker has ended, or cannot be used any more: why, in words."""


class Process:
    """A worker that was started. `lines` and `marks` are how many it was given. It is ended by `end` alone."""

    def __init__(self, limits: Limits, token: str, niceness: int, files: Sequence[int]) -> None:
        self.limits, self.niceness = limits, niceness
        self.token = token + new_token()
        self.lines = self.marks = 0
        self.last_error = ""
        self.errors = cast(BinaryIO, tempfile.TemporaryFile())
        try:
            self.process = self._started(files)
        except BaseException:
            self.errors.close()
            raise
        self.reader = asyncio.StreamReader()
        self.transports: List[asyncio.BaseTransport] = []
        self.writer: Optional[asyncio.StreamWriter] = None

    def _started(self, files: Sequence[int]) -> "subprocess.Popen[bytes]":
        """The process. It stands in a folder of its own that is gone when this returns: nothing can be put there."""
        folder = tempfile.mkdtemp(prefix="bgpsim-worker-")
        try:
            return subprocess.Popen([sys.executable, "-I", "-B", WORKER], stdin=subprocess.PIPE, stdout=subprocess.PIPE,
                                    stderr=self.errors, cwd=folder, env=environment(self.token), pass_fds=files,
                                    start_new_session=True, bufsize=0)
        finally:
            os.rmdir(folder)

    @classmethod
    async def start(cls, limits: Limits, token: str, niceness: int = 0, files: Sequence[int] = ()) -> "Process":
        """A worker that was given its limits. By the token, which no other pool has, `end_strays` finds it and all that
        it starts. Mistake where none can be started."""
        try:
            made = cls(limits, token, niceness, files)
        except OSError as error:
            raise Mistake("a worker process cannot be started: %s" % (error.strerror or error)) from None
        try:
            await made._connect()
        except BaseException:
            await made.end()
            raise
        return made

    async def _connect(self) -> None:
        loop, given, told = asyncio.get_running_loop(), self.process.stdin, self.process.stdout
        read, _ = await loop.connect_read_pipe(lambda: asyncio.StreamReaderProtocol(self.reader), told)
        self.transports.append(read)
        write, protocol = await loop.connect_write_pipe(
            lambda: asyncio.StreamReaderProtocol(asyncio.StreamReader()), given)
        self.transports.append(write)
        self.writer = asyncio.StreamWriter(write, protocol, None, loop)
        settings = {**self.limits.of_worker(), "niceness": self.niceness}
        await self.send(START, frames.json_out(settings))

    @property
    def has_ended(self) -> bool:
        """Whether it was seen to have ended."""
        return self.reader.at_eof() or self.reader.exception() is not None

    async def send(self, kind: int, content: bytes) -> None:
        """Gives it a frame. Where it has ended, `receive` tells that."""
        assert self.writer is not None
        with contextlib.suppress(ConnectionError):
            if self.writer.is_closing():
                return
            self.writer.write(frames.head_of(kind, content))
            self.writer.write(content)
            await self.writer.drain()

    async def send_lines(self, lines: Sequence[str], start: int, end: int) -> None:
        """Gives it these lines of a script, part by part."""
        for first in range(start, end, PART):
            await self.send(LINES, frames.lines_out(lines[first:min(first + PART, end)]))

    async def receive(self) -> Tuple[int, bytes]:
        """Its next frame. Ended where there is none."""
        try:
            largest = max(self.limits.answer, LARGEST_PLACES)
            kind, size = frames.read_head(await self.reader.readexactly(HEAD.size), largest)
            return kind, await self.reader.readexactly(size)
        except asyncio.IncompleteReadError:
            raise Ended(await self._why()) from None
        except (Garbage, OSError) as fault:
            raise Ended(str(fault)) from None

    async def _why(self) -> str:
        """Why it has ended, in words."""
        await self.end()
        status = self.process.returncode or 0
        if status == -signal.SIGXCPU:
            return "it took more than %d seconds of processor time" % self.limits.processor_time
        if status < 0:
            return "it ended by signal %d, %s" % (-status, signal.strsignal(-status))
        told = self.last_error
        return "it ended with status %d%s" % (status, told and ": " + told)

    async def end(self, is_orderly: bool = False) -> None:
        """Kills it with all that it started, and waits until all have ended. Where it answered as it should, nothing
        is looked for beyond its process group."""
        if self.process.returncode is None:
            # Until it is waited for, no other process gets its number.
            _kill_group(self.process.pid)
        for transport in self.transports:
            transport.close()
        for pipe in (self.process.stdin, self.process.stdout):
            if pipe is not None:
                pipe.close()
        while self.process.poll() is None:
            await asyncio.sleep(SOON)
        if not is_orderly:
            await end_strays(self.token)
        if not self.errors.closed:
            self.last_error = _last_line(self.errors, self.limits.errors)
            self.errors.close()


def _kill_group(group: int) -> None:
    with contextlib.suppress(ProcessLookupError, PermissionError):
        os.killpg(group, signal.SIGKILL)


async def end_strays(token: str) -> None:
    """Kills the processes that were started with a value of TOKEN that begins so, and waits until they have ended."""
    loop = asyncio.get_running_loop()
    last = loop.time() + PATIENCE
    found = _strays(token)
    while found and loop.time() < last:
        for process in found:
            with contextlib.suppress(ProcessLookupError, PermissionError):
                os.kill(process, signal.SIGKILL)
        await asyncio.sleep(SOON)
        found = _strays(token)


def _strays(token: str) -> List[int]:
    wanted = ("%s=%s" % (TOKEN, token)).encode()
    names = [name for name in os.listdir("/proc") if name.isdigit()] if os.path.isdir("/proc") else []
    return [int(name) for name in names if any(each.startswith(wanted) for each in _environment(name))]


def _environment(process: str) -> List[bytes]:
    with contextlib.suppress(OSError):
        with open("/proc/%s/environ" % process, "rb") as file:
            return file.read().split(b"\0")
    return []


def _last_line(file: BinaryIO, most: int) -> str:
    """The last line of a file, of at most so many bytes."""
    size = file.seek(0, os.SEEK_END)
    file.seek(max(0, size - most))
    lines = file.read(most).decode("utf-8", "backslashreplace").strip().split("\n")
    return lines[-1]
