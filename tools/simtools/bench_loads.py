"""Runs the program on a load, and prints what it took.

    bench/loads table|reflector|ring|net|tagged N        tools/loads says what each load is

It needs the proved program (./bgpsim --prove); PROGRAM= is another one.
The processor time and the memory are those of the program
alone; they are taken by /usr/bin/time. After that the script is given once more, line by line, and the time until
each reply stands is taken; that is the time of a clock.
"""
from __future__ import annotations

import subprocess
import tempfile
import time
from typing import IO, Any, Dict, Iterator, List, Sequence, Tuple

from . import commands, loads, programs
from .language import REPORTS

TIME = "/usr/bin/time"


def whole(program: str, lines: List[str]) -> Tuple[bytes, float, int]:
    """Replies to the script, processor seconds, and the most memory in kilobytes. Missing without /usr/bin/time."""
    script = "".join(line + "\n" for line in lines).encode()
    with tempfile.NamedTemporaryFile("r") as used, tempfile.TemporaryFile() as given:
        given.write(script)
        given.seek(0)
        words = [TIME, "-o", used.name, "-f", "%U %S %M", program, "script"]
        try:
            replies = subprocess.run(words, stdin=given, stdout=subprocess.PIPE, check=True).stdout
        except FileNotFoundError:
            raise commands.Missing("there is no %s: Debian's package time has it" % TIME) from None
        user, system, peak = used.read().split()
    return replies, float(user) + float(system), int(peak)


def read_reply(line: str, output: IO[str]) -> None:
    """Reads the reply to a line."""
    reply = output.readline()
    if line.split()[0] in REPORTS and not reply.startswith("refused"):
        while not reply.startswith("end "):
            reply = output.readline()


def line_by_line(program: str, lines: List[str]) -> Iterator[Tuple[float, str]]:
    """Each line with the seconds until its reply stands."""
    pipes: Dict[str, Any] = {"stdin": subprocess.PIPE, "stdout": subprocess.PIPE, "text": True, "bufsize": 1}
    with subprocess.Popen([program, "script"], **pipes) as ran:
        assert ran.stdin and ran.stdout
        for line in lines:
            start = time.perf_counter()
            ran.stdin.write(line + "\n")
            read_reply(line, ran.stdout)
            yield time.perf_counter() - start, line
        ran.stdin.close()


def measure(program: str, kind: str, count: int) -> None:
    """Prints what a load took."""
    lines = loads.lines(kind, count)
    replies, seconds, peak = whole(program, lines)
    # /usr/bin/time counts hundredths: less than one counts as one.
    seconds = max(seconds, 0.01)
    taken = replies.count(b"took ")
    print("%s %d: %d lines, %d deliveries, %d refused" % (kind, count, len(lines), taken, replies.count(b"refused ")))
    print("%.2f CPU seconds: %.0f lines and %.0f deliveries a second; at most %.1f MB" % (
        seconds, len(lines) / seconds, taken / seconds, peak / 1024))
    times = list(line_by_line(program, lines))
    mean, (most, slowest) = sum(passed for passed, _ in times) / len(times), max(times)
    print("a line: %.2f ms on average, at most %.2f ms (%s)" % (1000 * mean, 1000 * most, slowest))


def main(words: Sequence[str]) -> int:
    """The command."""
    asked = commands.parser(__doc__)
    asked.add_argument("kind", choices=sorted(loads.LOADS))
    asked.add_argument("count", type=commands.number, metavar="N")
    given = asked.parse_args(words)
    measure(programs.current_bgpsim(), given.kind, given.count)
    return 0
