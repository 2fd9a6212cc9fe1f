"""Streams that fail: what `bgpsim script`, `replay` and `team` print, how they end, and what they wrote before.

    tools/failing-streams       a part of the gate; it needs cc, for simtools/streams.c

Each byte of a small script, of its log and of a team's files cannot be read, in turn; each write, and each byte of
what is written, fails. Read a byte at a time and written so, all is as ever. A user who types a line only once the
reply to the last one stands there is answered. Then a full device, help and version there too; a pipe that nobody
reads; and Ctrl-C. A fault is reported as docs/reference/program.md says, with status 3 or 4; what was written is the
replies to the lines before it, whole lines where writes are whole. The script is also given to each machine, by
machine_scripts, where that is built; with MACHINES=1 it has to be. The last line is `N passed, M failed`. PROGRAM= is
another program than crates/bgpsim/out/bgpsim, and no machines.
"""
from __future__ import annotations

import contextlib
import os
import pathlib
import signal
import subprocess
import tempfile
import threading
from typing import Dict, Iterator, List, NamedTuple, Sequence, Tuple

from . import commands, logs, programs, team_logs
from .commands import Missing
from .fuzz_scripts import by_model
from .programs import TOP
from .running import PATIENCE, Ran, run, side_by_side

SOURCE = pathlib.Path(__file__).resolve().with_name("streams.c")
SCRIPT = TOP / "cases" / "rows" / "first-path.bgp"
TEAM = [TOP / "examples" / "team" / name for name in ("border.engineer", "interior.engineer")]
TEXTS = ("--help", "-h", "--version", "-V", "help", "help script", "help replay", "help team", "script --help",
         "replay --help", "team --help")
WRITE_FAULT = b"write fault\n"
# What was tried, and what is wrong: nothing, or a run.
Tried = Tuple[str, object]


class Reader(NamedTuple):
    """A program that reads a script or a log, by the name that is printed of it."""
    name: str
    command: List[str]
    wants_script: bool = True


def serving() -> Reader:
    return Reader("script", [programs.bgpsim(), "script"])


def replaying() -> Reader:
    return Reader("replay", [programs.bgpsim(), "replay"], wants_script=False)


def on_machines() -> Iterator[Reader]:
    """A script's readers beside the program."""
    for machine in programs.machines():
        yield Reader("script on %s" % machine, [programs.machine_scripts(), machine])


class Streams:
    """The library that makes streams fail."""

    def __init__(self, library: str):
        self.library = library

    def environment(self, **settings: int) -> Dict[str, str]:
        """`read` and `write` are the numbers of what fails, a write and all later ones, but with `once`; `short` is how
        many bytes each moves."""
        names = {"read": "FAIL_READ", "write": "FAIL_WRITE", "short": "SHORT", "once": "ONCE"}
        return {**os.environ, "LD_PRELOAD": self.library, **{names[name]: str(n) for name, n in settings.items()}}

    def run(self, command: Sequence[str], given: bytes = b"", **settings: int) -> Ran:
        return run(command, given, env=self.environment(**settings))

    def run_team(self, files: Sequence[str], **settings: int) -> Ran:
        return self.run([programs.bgpsim(), "team", "--workers", "2", *files], **settings)


@contextlib.contextmanager
def failing() -> Iterator[Streams]:
    """Missing where there is no cc."""
    with tempfile.TemporaryDirectory() as folder:
        library = os.path.join(folder, "streams.so")
        try:
            subprocess.run(["cc", "-O1", "-shared", "-fPIC", "-o", library, str(SOURCE)], check=True)
        except FileNotFoundError:
            raise Missing("there is no cc, which %s needs: a C compiler has it" % SOURCE.name) from None
        yield Streams(library)


def told(name: str, ran: Ran, is_well: bool) -> Tried:
    return name, None if is_well else ran


# Reading

def read_faults(streams: Streams, reader: Reader, text: bytes, whole: bytes) -> Iterator[Tried]:
    """A script or a log: as ever a byte at a time; and each byte, and then the end, cannot be read."""
    as_ever = Ran(whole, b"", 0)
    slow = streams.run(reader.command, text, short=1)
    yield told("%s, read and written a byte at a time" % reader.name, *well(slow, as_ever))
    behind = streams.run(reader.command, text, short=1, read=len(text) + 2)
    yield told("%s, no read fails" % reader.name, *well(behind, as_ever))

    def one(number: int) -> Tried:
        before = text[:number - 1]
        answered = by_model(before[:before.rfind(b"\n") + 1]).out if reader.wants_script else b""
        wanted = Ran(answered, b"read fault at line %d\n" % (before.count(b"\n") + 1), 3)
        ran = streams.run(reader.command, text, read=number, short=1)
        return told("%s, byte %d cannot be read" % (reader.name, number), *well(ran, wanted))

    yield from side_by_side(one, range(1, len(text) + 2))


def well(ran: Ran, wanted: Ran) -> Tuple[Ran, bool]:
    return ran, ran == wanted


def unreadable_files(streams: Streams, files: List[str]) -> Iterator[Tried]:
    """Files of a team, of which a byte cannot be read: it is reported before any thread starts."""
    sizes = [len(pathlib.Path(file).read_bytes()) for file in files]

    def one(number: int) -> Tried:
        name = files[0] if number <= sizes[0] + 1 else files[1]
        ran = streams.run_team(files, read=number, short=1)
        return told("team, read %d fails" % number, *well(ran, Ran(b"", b"cannot read %s\n" % os.fsencode(name), 3)))

    # Behind the last byte of a file one read more finds its end.
    yield from side_by_side(one, range(1, sum(sizes) + 3))


# Writing

def write_faults(streams: Streams, reader: Reader, text: bytes, whole: bytes) -> Iterator[Tried]:
    """Each byte cannot be written, in turn, nor any later one; then it can, when it is tried once more."""
    def one(number: int) -> Tried:
        ran = streams.run(reader.command, text, write=number, short=1)
        wanted = Ran(whole[:number - 1], WRITE_FAULT, 4)
        return told("%s, byte %d cannot be written" % (reader.name, number), *well(ran, wanted))

    def again(number: int) -> Tried:
        ran = streams.run(reader.command, text, write=number, short=1, once=1)
        is_prefix = whole.startswith(ran.out) and ran.out[-1:] in (b"", b"\n") and len(ran.out) >= number - 1
        is_so = is_prefix and (ran.err, ran.status) == (WRITE_FAULT, 4)
        return told("%s, byte %d cannot be written at first" % (reader.name, number), ran, is_so)

    yield from side_by_side(one, range(1, len(whole) + 1))
    yield from side_by_side(again, range(1, len(whole) + 1))


def whole_writes(streams: Streams, reader: Reader, text: bytes, whole: bytes) -> Iterator[Tried]:
    """A script that is read line by line, so that each reply is written by itself: what was written before one that
    cannot be is whole lines, the replies of lines before it."""
    for number in range(1, 100):
        ran = streams.run(reader.command, text, write=number)
        if ran.status == 0:
            yield told("%s, %d writes" % (reader.name, number - 1), ran, ran == Ran(whole, b"", 0) and number > 1)
            return
        is_whole = whole.startswith(ran.out) and ran.out[-1:] in (b"", b"\n")
        is_so = is_whole and (ran.err, ran.status) == (WRITE_FAULT, 4)
        yield told("%s, write %d fails" % (reader.name, number), ran, is_so)


def team_writes(streams: Streams, files: List[str]) -> Iterator[Tried]:
    """A team whose log cannot be written: of the first byte, of some bytes on the way, of the last ones."""
    def one(number: int) -> Tried:
        ran = streams.run_team(files, write=number, short=1)
        is_part = len(ran.out) == number - 1 and "bgpsim log 2\n".startswith(ran.out[:13].decode("latin-1"))
        is_so = is_part and (ran.err, ran.status) == (WRITE_FAULT, 4)
        return told("team, byte %d cannot be written" % number, ran, is_so)

    # The deliveries and their replies take the same bytes in whatever order they come.
    size = len(streams.run_team(files).out)
    yield from side_by_side(one, [*range(1, 40), *range(40, size - 40, 17), *range(size - 40, size + 1)])


# A terminal

def typed(reader: Reader, script: bytes) -> Tried:
    """Each line is typed once the reply to the last one stands there."""
    given, answered = b"", b""
    ran = subprocess.Popen(reader.command, stdin=subprocess.PIPE, stdout=subprocess.PIPE)
    impatient = threading.Timer(PATIENCE, ran.kill)
    impatient.start()
    with contextlib.suppress(BrokenPipeError), ran:
        assert ran.stdin and ran.stdout
        for line in script.splitlines(keepends=True):
            given += line
            ran.stdin.write(line)
            ran.stdin.flush()
            answered += ran.stdout.read(len(by_model(given).out) - len(answered))
        ran.stdin.close()
        answered += ran.stdout.read()
    status = ran.wait()
    impatient.cancel()
    return told("%s, typed line by line" % reader.name, *well(Ran(answered, b"", status), by_model(script)))


# Other ends

def full_device(script: bytes, log: bytes, files: List[str]) -> Iterator[Tried]:
    """Whatever is written there ends with status 4."""
    for words, given in [(text.split(), b"") for text in TEXTS] + [
            (["script"], script), (["replay"], log), (["team", "--workers", "1", *files], b"")]:
        with open("/dev/full", "wb") as full:
            ran = run([programs.bgpsim(), *words], given, stdout=full)
        yield told("%s on a full device" % " ".join(words[:2]), ran, (ran.err, ran.status) == (WRITE_FAULT, 4))
    with open("/dev/full", "wb") as full:
        ran = run([programs.bgpsim(), "script"], b"quiet\n" + b"x" * 65_537, stderr=full)
        yield told("a read fault that cannot be told", *well(ran, Ran(b"yes\n", b"", 3)))
        ran = run([programs.bgpsim(), "script"], b"quiet\n", stderr=full, stdout=full)
        yield told("a write fault that cannot be told", ran, ran.status == 4)


def closed_pipe(script: bytes, log: bytes, files: List[str]) -> Iterator[Tried]:
    """A pipe that nobody reads any more, and no output at all."""
    for words, given in ((["script"], script), (["replay"], log), (["team", "--workers", "1", *files], b""),
                         (["--help"], b"")):
        reader, writer = os.pipe()
        os.close(reader)
        ran = run([programs.bgpsim(), *words], given, stdout=writer)
        os.close(writer)
        yield told("%s into a closed pipe" % words[0], ran, (ran.err, ran.status) == (WRITE_FAULT, 4))


def interrupted(script: bytes) -> Iterator[Tried]:
    """Ctrl-C between lines: all replies so far are there, in whole lines."""
    for count in range(0, script.count(b"\n") + 1):
        given = b"".join(script.splitlines(keepends=True)[:count]) + b"quie"
        wanted = by_model(given[:-4]).out
        with subprocess.Popen([programs.bgpsim(), "script"], stdin=subprocess.PIPE, stdout=subprocess.PIPE) as ran:
            assert ran.stdin and ran.stdout
            ran.stdin.write(given)
            ran.stdin.flush()
            out = ran.stdout.read(len(wanted))
            ran.send_signal(signal.SIGINT)
            out += ran.stdout.read()
        ended = Ran(out, b"", ran.returncode)
        yield told("script, Ctrl-C behind line %d" % count, *well(ended, Ran(wanted, b"", -signal.SIGINT)))


def interrupted_team(folder: str) -> Iterator[Tried]:
    """Ctrl-C while a team works: no log."""
    lines = ["router 1.0.0.1 1", "router 2.0.0.1 2", "link 1.0.0.1 2.0.0.1 1"] + 200_000 * ["metric 1.0.0.1 2.0.0.1 1"]
    files = team_logs.written(folder, ["".join(line + "\n" for line in lines)])
    with subprocess.Popen([programs.bgpsim(), "team", "--workers", "2", *files], stdout=subprocess.PIPE) as ran:
        with contextlib.suppress(subprocess.TimeoutExpired):
            ran.wait(timeout=0.1)
        ran.send_signal(signal.SIGINT)
        out = ran.communicate()[0]
    yield told("team, Ctrl-C", *well(Ran(out, b"", ran.returncode), Ran(b"", b"", -signal.SIGINT)))


def tries(streams: Streams, folder: str) -> Iterator[Tried]:
    script, log = SCRIPT.read_bytes(), logs.log_of(SCRIPT.read_text(), 3).encode()
    files = team_logs.written(folder, [path.read_text() for path in TEAM])
    answered, found = by_model(script).out, (logs.verdict(log.decode()) + "\n").encode()
    for reader in [serving(), *on_machines()]:
        yield from read_faults(streams, reader, script, answered)
        yield from whole_writes(streams, reader, script, answered)
        yield typed(reader, script)
    yield from read_faults(streams, replaying(), log, found)
    yield from unreadable_files(streams, files)
    yield from write_faults(streams, serving(), script, answered)
    yield from write_faults(streams, replaying(), log, found)
    yield from team_writes(streams, files)
    yield from full_device(script, log, files)
    yield from closed_pipe(script, log, files)
    yield from interrupted(script)
    yield from interrupted_team(folder)


def try_streams() -> int:
    programs.bgpsim()
    # What a shell runs in the background ignores Ctrl-C, and so would the programs that are started here.
    signal.signal(signal.SIGINT, signal.default_int_handler)
    passed = failed = 0
    with failing() as streams, tempfile.TemporaryDirectory() as folder:
        for name, wrong in tries(streams, folder):
            passed += wrong is None
            failed += wrong is not None
            print("FAILED %s: %s\n" % (name, wrong) if wrong else "", end="", flush=True)
    return commands.counted(passed, failed)


def main(words: Sequence[str]) -> int:
    """The command."""
    commands.parser(__doc__).parse_args(words)
    return commands.as_part(try_streams)
