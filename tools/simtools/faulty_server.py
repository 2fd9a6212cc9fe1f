"""A server of the toolbox in which faults come up where they are asked for: the child process of fault_servers.

    python3 faulty_server.py COMMANDS REPLIES TOOL WORD..

runs a tool of toolbox/, as `share`. COMMANDS and REPLIES are descriptors of pipes. At the signal SIGUSR1 the main
thread reads a command, a line of JSON, does it, and writes a line of JSON:

    {"do": "arm", "at": N, "times": T}       from the N-th line of the request path on that is executed, T lines raise
                                             MemoryError
    {"do": "count"}, {"do": "disarm"}        `count`, the lines so far; `fired`, the places that raised; `idle`, whether
                                             the event loop waits
    {"do": "fail", "what": CALL, "error": E, "times": T, "path": END, "part": B}
                                             the next T calls of a function fail, of files whose path ends so; a write
                                             writes B bytes before. CALLS lists the functions
    {"do": "clock", "seconds": S}            the clock of the day jumps

Nothing in the product knows of this: functions are wrapped before the tool begins."""
from __future__ import annotations

import builtins
import contextlib
import errno
import json
import linecache
import os
import pathlib
import re
import signal
import subprocess
import sys
import time
from types import FrameType
from typing import Any, BinaryIO, Callable, Dict, List, Optional, Tuple, cast

TOP = pathlib.Path(__file__).resolve().parent.parent.parent
PACKAGE = str(TOP / "toolbox" / "bgptools") + os.sep
# The request path: these packages but for some modules, and these modules of others.
FOLDERS = ("session", "web", "jobs")
OTHERS = ("session/client", "session/journal", "session/lifecycle", "session/replay", "web/lesson")
MODULES = ("convergence/delivery", "convergence/run", "convergence/transcript", "network/configuration",
           "program/language", "program/line_count", "program/names", "program/process", "program/replies")
# A shortage is over after so many seconds.
SHORTAGE = 0.5
# What begins so needs no memory: the line only leads on.
PLAIN = re.compile(r"\s*(try:|except\b|finally:|else:|pass\b|continue\b|break\b|return$|raise$)")
CALLS = ("write", "truncate", "sync", "spawn", "decode", "encode", "open", "read", "accept")
Tracer = Callable[[FrameType, str, Any], Any]


def is_traced(path: str) -> bool:
    """Whether a file is of the request path."""
    if not path.startswith(PACKAGE):
        return False
    name = path[len(PACKAGE):-len(".py")]
    return name.rpartition(os.sep)[0] in FOLDERS and name not in OTHERS or name in MODULES


class Lines:
    """Counts the lines of the request path that are executed, and raises MemoryError at some of them."""

    def __init__(self) -> None:
        self.at = self.times = self.count = 0
        self.over = 0.0
        self.fired: List[str] = []
        self.paths: Dict[str, bool] = {}
        self.plain: Dict[Tuple[str, int], bool] = {}

    def arm(self, at: int, times: int) -> None:
        """From this line on so many raise."""
        self.at, self.times, self.count, self.fired = at, times, 0, []
        if times > 1:
            sys.setprofile(self.profiled)
        sys.settrace(self.called)

    def disarm(self) -> None:
        """No line raises any more, and none is counted."""
        self.times = 0
        sys.setprofile(None)
        sys.settrace(None)

    def called(self, frame: FrameType, _: str, __: Any) -> Optional[Tracer]:
        """The trace function of a frame that begins or goes on."""
        path = frame.f_code.co_filename
        found = self.paths.get(path)
        if found is None:
            found = self.paths[path] = is_traced(path)
        return self.line if found else None

    def line(self, frame: FrameType, event: str, _: Any) -> Optional[Tracer]:
        """The trace function of the lines of a frame."""
        if event == "line" and not self.is_plain(frame.f_code.co_filename, frame.f_lineno):
            self.count += 1
            if self.count >= self.at and self.is_short():
                code = frame.f_code
                place = "%s:%d" % (code.co_filename[len(PACKAGE):], frame.f_lineno)
                self.fired.append("%s in %s" % (place, code.co_name))
                raise MemoryError
        return self.line

    def is_short(self) -> bool:
        """Whether memory is wanting still."""
        if not self.fired:
            self.over = time.monotonic() + SHORTAGE
        return len(self.fired) < self.times and time.monotonic() <= self.over

    def is_plain(self, path: str, number: int) -> bool:
        """Whether a line needs no memory."""
        found = self.plain.get((path, number))
        if found is None:
            found = self.plain[path, number] = bool(PLAIN.match(linecache.getline(path, number)))
        return found

    def profiled(self, frame: FrameType, _: str, __: Any) -> None:
        """Sets the trace function again: Python unsets one that raised."""
        if sys.gettrace() is None and self.is_short():
            sys.settrace(self.called)
            found: Optional[FrameType] = frame
            while found is not None:
                if is_traced(found.f_code.co_filename):
                    found.f_trace = self.line
                found = found.f_back

    def told(self, frame: Optional[FrameType]) -> Dict[str, Any]:
        """What is answered to `count`."""
        name = "" if frame is None else os.path.basename(frame.f_code.co_filename)
        return {"count": self.count, "fired": self.fired, "idle": name == "selectors.py"}


class Calls:
    """Functions that fail so often as was asked for."""

    def __init__(self) -> None:
        self.asked: Dict[str, Dict[str, Any]] = {}
        self.failed = 0
        self.offset = 0.0

    def fail(self, command: Dict[str, Any]) -> None:
        """Has the next calls of a function fail; of all, where it is asked for no times."""
        self.failed = 0
        self.asked[command["what"]] = {"times": 1, "path": "", "part": 0, **command}

    def due(self, what: str, path: str = "") -> Optional[BaseException]:
        """The error that a call fails with; nothing where it does not fail."""
        asked = self.asked.get(what)
        if asked is None or not asked["times"] or not path.endswith(asked["path"]):
            return None
        asked["times"] -= 1
        self.failed += 1
        name = asked["error"]
        if name in errno.errorcode.values():
            number = getattr(errno, name)
            return OSError(number, os.strerror(number))
        if name == "UnicodeDecodeError":
            return UnicodeDecodeError("utf-8", b"\xff", 0, 1, "invalid start byte")
        made: BaseException = getattr(builtins, name)("injected")
        return made

    def part(self, what: str) -> int:
        """How many bytes a write writes before it fails."""
        found: int = self.asked[what]["part"]
        return found


class FailingFile:
    """A file whose next writes fail."""

    def __init__(self, file: Any, path: str, calls: Calls) -> None:
        self.file, self.path, self.calls = file, path, calls

    def fileno(self) -> int:
        """The descriptor."""
        return int(self.file.fileno())

    def write(self, content: bytes) -> int:
        """Writes, or fails."""
        fault = self.calls.due("write", self.path)
        if fault is not None:
            part = self.calls.part("write")
            if part:
                self.file.write(content[:part])
            raise fault
        return int(self.file.write(content))


def wrap(calls: Calls) -> None:
    """Wraps the functions of CALLS, before any module of the package has a name for one."""
    now = time.time
    time.time = lambda: now() + calls.offset

    def wrapped(module: Any, name: str, what: str, path_of: Callable[[Any], str] = lambda _: "") -> None:
        kept = getattr(module, name)

        def call(*given: Any, **more: Any) -> Any:
            fault = calls.due(what, path_of(given))
            if fault is not None:
                raise fault
            return kept(*given, **more)
        setattr(module, name, call)
    wrapped(os, "ftruncate", "truncate")
    wrapped(os, "fsync", "sync")
    wrapped(os, "read", "read")
    wrapped(os, "open", "open", lambda given: os.fsdecode(given[0]))
    wrapped(json, "loads", "decode")
    wrapped(json, "dumps", "encode")


def wrap_package(calls: Calls) -> None:
    """Wraps what the package has under names of its own."""
    from bgptools.session import log, notes
    kept = log.write_all

    def write_all(file: Any, content: bytes, size: int, path: str) -> None:
        kept(cast(BinaryIO, FailingFile(file, path, calls)), content, size, path)
    setattr(log, "write_all", write_all)
    setattr(notes, "write_all", write_all)
    begin = subprocess.Popen.__init__

    def started(self: Any, words: Any, *given: Any, **more: Any) -> None:
        fault = calls.due("spawn", str(words[-1]))
        if fault is not None:
            raise fault
        begin(self, words, *given, **more)
    setattr(subprocess.Popen, "__init__", started)
    with contextlib.suppress(ImportError):
        from bgptools.web import handler

        def opened(path: str, *given: Any, **more: Any) -> Any:
            fault = calls.due("open", path)
            if fault is not None:
                raise fault
            return open(path, *given, **more)
        setattr(handler, "open", opened)


class Commands:
    """Reads commands at a signal, and does them."""

    def __init__(self, given: int, told: int) -> None:
        self.given, self.told = given, told
        self.lines, self.calls = Lines(), Calls()
        self.read = os.read

    def signalled(self, _: int, frame: Optional[FrameType]) -> None:
        """The handler of the signal."""
        line = b""
        while not line.endswith(b"\n"):
            line += self.read(self.given, 1)
        os.write(self.told, (str(self._done(line, frame)) + "\n").encode("ascii"))

    def _done(self, line: bytes, frame: Optional[FrameType]) -> str:
        command = json.JSONDecoder().decode(line.decode("ascii"))
        word = command.pop("do")
        if word == "arm":
            self.lines.arm(command["at"], command["times"])
        elif word == "disarm":
            self.lines.disarm()
        elif word == "fail":
            self.calls.fail(command)
        elif word == "clock":
            self.calls.offset += command["seconds"]
        told = {**self.lines.told(frame), "failed": self.calls.failed}
        return json.JSONEncoder().encode(told)


def main(words: List[str]) -> int:
    """Runs a tool as its launcher does."""
    sys.path.insert(0, str(TOP / "toolbox"))
    from bgptools.cli import interpreter
    from bgptools.cli.tools import run
    from bgptools.jobs import confinement
    from bgptools.program import mistakes
    interpreter.restart(words[2], [os.path.abspath(__file__), *words[:3]], words[3:])
    # It ends with who started it.
    call = confinement.prctl()
    if call is not None:
        call(confinement.PR_SET_PDEATHSIG, signal.SIGKILL)
    commands = Commands(int(words[0]), int(words[1]))
    wrap(commands.calls)
    wrap_package(commands.calls)
    signal.signal(signal.SIGUSR1, commands.signalled)
    sys.argv = words[2:]
    return mistakes.ended(lambda given: run(words[2], words[2], given))


if __name__ == "__main__":
    sys.exit(main(sys.argv[1:]))
