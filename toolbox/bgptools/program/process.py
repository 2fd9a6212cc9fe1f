"""The program, run line by line: a line is given to `bgpsim converge`, and the lines of its reply are read."""
from __future__ import annotations

import io
import os
import signal
import subprocess
import threading
from typing import Any, Callable, Dict, Iterable, List, Tuple

from . import location
from .echo import DELIVERED, Echo
from .language import REPORTS, ended, escaped, is_silent, words_of
from .mistakes import Mistake

LONGEST_READ = 65536
# Fewer bytes than any pipe holds: so much is written before its replies are read.
AT_ONCE = 8192
# So much of a long reply is read at once, and its last line is no longer than this.
PIECE, LAST_LINE = 1 << 20, 256
# The first words of what tools ask for, and scripts do not: it is no command.
REQUESTS = ("converge", "waiting", "snapshot", "restore")
# So many seconds a program that answers nothing more has to end.
PATIENCE = 10


class ProgramEnded(Mistake):
    """The program ended, or cannot be run again: it answers nothing more."""


class Program:
    """A run of `bgpsim converge`; PROGRAM= names another built program.

    It has a session of its own, so that Ctrl-C is for the tool alone: `beginning` are the words of `subprocess.Popen`
    for that, and a worker process (jobs/) has others. `before` is called before lines are given, where
    no reply is due; it may raise. `heard` is told each line with its reply. `is_torn` says that lines were given whose
    replies were not all read: what stopped that, as Ctrl-C may, leaves a program that can only be closed."""

    beginning: Dict[str, Any] = {"start_new_session": True}

    def __init__(self) -> None:
        self.before: Callable[[], None] = lambda: None
        self.heard: Callable[[str, List[str]], None] = lambda line, reply: None
        self.is_torn = False
        self.path = location.program()
        # Until the child has its session, Ctrl-C would be for it, too.
        mask = signal.pthread_sigmask(signal.SIG_BLOCK, {signal.SIGINT})
        try:
            self.process: "subprocess.Popen[bytes]" = subprocess.Popen(
                [self.path, "converge"], stdin=subprocess.PIPE, stdout=subprocess.PIPE, bufsize=-1, **self.beginning)
        except OSError as error:
            raise Mistake("the program cannot be run: %s" % error.strerror, self.path) from None
        finally:
            signal.pthread_sigmask(signal.SIG_SETMASK, mask)
        assert self.process.stdin and isinstance(self.process.stdout, io.BufferedReader)
        self.given, self.told = self.process.stdin, self.process.stdout

    def say(self, line: str) -> List[str]:
        """The lines of the reply to one line; none for a blank line or a comment.

        Raises Mistake for what is not one line, or is too long."""
        return self.say_all([line])[0]

    def say_all(self, lines: Iterable[str]) -> List[List[str]]:
        """The reply to each line, in order. Lines go out in parts that the pipe holds, so that neither side waits for
        the other."""
        replies: List[List[str]] = []
        part: List[str] = []
        size = 0
        for line in map(_command, list(lines)):
            if part and size + len(line) >= AT_ONCE:
                replies += self._exchange(part)
                part, size = [], 0
            part.append(line)
            size += len(line) + 1
        return replies + self._exchange(part)

    def pour(self, lines: Iterable[str]) -> List[str]:
        """The reply to each line that has one, where it is one line: to edits, feeds and deliveries.

        Lines are written while replies are read, so that the program never waits: the fastest way to play many."""
        spoken = [line for line in map(_command, lines) if not is_silent(line)]
        content = "".join(map(ended, spoken)).encode("latin-1")
        self.before()
        self.is_torn = True
        writer = threading.Thread(target=self._write, args=(content,), daemon=True)
        # What the pipe holds needs nobody who writes beside.
        (writer.start if len(content) > AT_ONCE else writer.run)()
        replies = [self._line() for _ in spoken]
        if writer.is_alive():
            writer.join()
        self.is_torn = False
        return replies

    def request(self, line: str) -> List[str]:
        """The lines of the reply to a line that may be a request of tools, too, which no script has."""
        return self._exchange([one_line(line)])[0]

    def waiting(self) -> List[Tuple[str, str]]:
        """The directions in which messages wait, by sender, then receiver."""
        return [(words[0], words[1]) for words in map(words_of, self.request("waiting")[:-1])]

    def converge(self, order: str, most: int, told: Callable[[int], None] = lambda count: None) -> Echo:
        """Delivers in an order of the program's, as `fair` or `random 7`, until no message waits or so many were delivered.

        `told` is called with the number of deliveries so far. The reply is read in bulk, and `heard` is not called."""
        self.before()
        self.is_torn = True
        self._write_all(ended("converge %s %d echo" % (order, max(0, most))).encode("latin-1"))
        parts, end, count = [], b"", 0  # type: List[bytes], bytes, int
        while not end.endswith(b"\n") or end[:-1].rpartition(b"\n")[2].startswith(DELIVERED):
            part = self.told.read1(PIECE)
            if not part:
                raise self._gone()
            parts.append(part)
            end = (end + part)[-LAST_LINE:]
            count += part.count(b"\n")
            told(count // 2)
        self.is_torn = False
        return Echo.of(b"".join(parts).decode("latin-1"))

    def snapshot(self) -> int:
        """Keeps the network beside, and says how many are kept then. Mistake where there is no memory for it."""
        reply = self.request("snapshot")[0]
        if not reply.startswith("snapshot "):
            raise Mistake("snapshot: %s: memory was refused" % reply)
        return int(reply.split(" ")[1])

    def restore(self, number: int) -> None:
        """Takes back the network that was kept as this number, which is forgotten with all after it."""
        reply = self.request("restore %d" % number)[0]
        if reply != "ok":
            raise Mistake("restore %d: %s" % (number, reply))

    def close(self) -> None:
        """Ends the input and waits for the program."""
        if self.is_torn and self.process.poll() is None:
            if self.beginning.get("start_new_session"):
                os.killpg(self.process.pid, signal.SIGKILL)
            else:
                self.process.kill()
        self._end_input()
        self.told.close()
        self.process.wait()

    def __enter__(self) -> "Program":
        return self

    def __exit__(self, *_: object) -> None:
        self.close()

    def _exchange(self, lines: List[str]) -> List[List[str]]:
        self.before()
        content = "".join(map(ended, lines)).encode("latin-1")
        self.is_torn = True
        self._write_all(content)
        replies = list(map(self._reply, lines))
        self.is_torn = False
        return replies

    def _write_all(self, content: bytes) -> None:
        """Writes all, which the pipe holds."""
        try:
            self.given.write(content)
            self.given.flush()
        except (OSError, ValueError):
            # A pipe whose reader has gone, or one that was closed when the program had ended.
            raise self._gone() from None

    def _write(self, content: bytes) -> None:
        """Writes all. Where the program has gone its replies tell that."""
        try:
            self.given.write(content)
            self.given.flush()
        except (OSError, ValueError):
            pass

    def _reply(self, line: str) -> List[str]:
        reply = [] if is_silent(line) else [self._line()]
        words = words_of(line)
        if reply and words and (words[0] in REPORTS or words == ["waiting"]) and not reply[0].startswith("refused "):
            while not reply[-1].startswith("end "):
                reply.append(self._line())
        elif words[:1] == ["converge"]:
            while reply[-1].encode("latin-1").startswith(DELIVERED):
                reply.append(self._line())
        self.heard(line, reply)
        return reply

    def _line(self) -> str:
        line = self.told.readline()
        if not line.endswith(b"\n"):
            raise self._gone()
        return line[:-1].decode("latin-1")

    def _gone(self) -> ProgramEnded:
        self._end_input()
        try:
            status = self.process.wait(PATIENCE)
        except subprocess.TimeoutExpired:
            # It has closed its end, and goes on.
            os.killpg(self.process.pid, signal.SIGKILL)
            status = self.process.wait()
        how = "with status %d" % status if status >= 0 else "by signal %d, %s" % (-status, signal.strsignal(-status))
        return ProgramEnded("the program ended before it had answered, " + how, self.path)

    def _end_input(self) -> None:
        try:
            self.given.close()
        except OSError:
            pass


def _command(line: str) -> str:
    """The line for the program. A request of tools is made one that the program refuses, as any that is no command."""
    return one_line(line) if words_of(line)[:1] not in ([word] for word in REQUESTS) else REQUESTS[0] + " -"


def one_line(line: str) -> str:
    """The line, if it is one and the program reads it. Mistake where it is not, or has characters that are no bytes."""
    if "\n" in line:
        raise Mistake("one line is expected, and this has a line end inside: `%s`" % escaped(line[:80]))
    if len(line) > LONGEST_READ:
        raise Mistake("a line of %d bytes; the program reads at most %d" % (len(line), LONGEST_READ))
    if max(line, default="") > "\xff":
        raise Mistake("a line is given by its bytes, and this has characters that are none: `%s`" % escaped(line[:80]))
    return line
