"""Logs by the model: writes them, tells what one is found to be, and compares `bgpsim replay` with that.

    tools/logs write [--seats N]                the log of the script on standard input, its calls spread over N
                                                seats (1): of version 2, as teams write it
    tools/logs check                            what the log on standard input, of version 1 or 2, is found to be
    tools/logs agree [--scripts N] [--seed S]   N random scripts (100), of the seeds from S (1) on: their logs of
                                                version 2, the same under the header of version 1, their logs of
                                                version 1, and these a dozen times with one byte changed, added or
                                                left out or the rest cut off, are replayed by the program
    tools/logs refuse                           the log on standard input is replayed with each of its allocations
                                                refused in turn: each run has to end with `memory` and status 5, or as
                                                ever; it needs cc

A line of a script that spells no command is no call, and is left out; so is, of a log of version 1, a command of a
form that it has not: one that speaks of communities, or `med`. `agree` ends with `N logs, K differ`, and
with exit 1 where one differs; `refuse` with how many runs ended how, and with exit 1 where one ended otherwise.
PROGRAM= is another program than crates/bgpsim/out/bgpsim.
"""
from __future__ import annotations

import collections
import random
import re
import sys
from typing import Any, Iterator, List, Optional, Sequence, Tuple

import model

from . import commands, programs, random_scripts
from .language import LONGEST_COMMAND
from .allocation_faults import allocations, injector
from .running import Ran, run, side_by_side

# The headers of the versions, in order; teams write the newest.
HEADERS = ("bgpsim log 1", "bgpsim log 2")
NEWEST = len(HEADERS)
MOST_BYTES = 1_048_576
MOST_LINES = 16_000_000
CHANGES = 12
CALL = re.compile(r"@(0|[1-9][0-9]{0,2}) ([!-~]+(?: [!-~]+)*)")


def is_of_version_2(command: str, values: List[Any]) -> bool:
    """Whether logs of version 1 have no command of this form, with these values: it speaks of communities, or is
    `med`."""
    if command == "med":
        return True
    if command == "feed":
        route = values[3]
        return bool(route and route[3])
    if command == "rule":
        (match, _), action = values[3]
        return match == "comm" or "add" in (action or {})
    return False


def is_command(line: str, version: int = NEWEST) -> bool:
    """Whether the line, its words one space apart, spells a command that logs of the version know."""
    if len(line) > LONGEST_COMMAND or line.startswith("#"):
        return False
    words = line.split(" ")
    try:
        values = model.parse(words)
    except model.Bad:
        return False
    return version > 1 or not is_of_version_2(words[0], values)


def calls_of(script: str, version: int = NEWEST) -> Iterator[str]:
    """The commands of the script that logs of the version know, their words one space apart."""
    for line in script.split("\n"):
        words = [word for word in line.rstrip("\r").split(" ") if word]
        if words and len(line) <= LONGEST_COMMAND and is_command(" ".join(words), version):
            yield " ".join(words)


def log_of(script: str, seats: int = 1, version: int = NEWEST) -> str:
    """The log of the script's commands."""
    net, lines, calls = model.Net(), [HEADERS[version - 1]], 0
    for command in calls_of(script, version):
        lines.append("@%d %s" % (calls * 7 % seats, command))
        lines += ["= " + reply for reply in model.answer(net, command)]
        calls += 1
    return "\n".join(lines + ["end %d" % calls]) + "\n"


class Reading:
    """A log that is read line by line: its version, which replies are due, and how many calls there were."""

    def __init__(self) -> None:
        self.net = model.Net()
        self.due: List[str] = []
        self.calls = self.version = 0
        self.state = "begins"

    def fault(self, line: str) -> str:
        """What is wrong with the next line: nothing, or `bad` or `differs`."""
        if self.state == "begins":
            return "" if self.is_header(line) else "bad"
        if self.due:
            return "" if line == "= " + self.due.pop(0) else "differs"
        if self.state == "within" and line == "end %d" % self.calls:
            self.state = "ended"
            return ""
        return "" if self.state == "within" and self.is_call(line) else "bad"

    def is_header(self, line: str) -> bool:
        """Takes the version of a line, where it is the header of one."""
        self.state = "within"
        self.version = HEADERS.index(line) + 1 if line in HEADERS else 0
        return self.version > 0

    def is_call(self, line: str) -> bool:
        """Makes the call of a line, where it is one."""
        call = CALL.fullmatch(line)
        if not call or int(call[1]) >= 256 or not is_command(call[2], self.version):
            return False
        self.calls += 1
        self.due = model.answer(self.net, call[2])
        return True


def verdict(log: str, before: Optional[Reading] = None) -> str:
    """What the log is found to be. With `before`, a reading that has read nothing, that is what reads it."""
    reading = before or Reading()
    *lines, rest = log.split("\n")
    for number, line in enumerate(lines, 1):
        if number > MOST_LINES:
            return "read fault at line %d" % number
        fault = "bad" if len(line) > MOST_BYTES else reading.fault(line)
        if fault:
            return "%s line %d" % ("bad" if fault == "bad" else "differs at", number)
    if rest and len(lines) >= MOST_LINES:
        return "read fault at line %d" % (len(lines) + 1)
    if rest or reading.state != "ended":
        return "bad line %d" % (len(lines) + 1)
    return "ok %d" % reading.calls


def replayed(log: str) -> str:
    """What the program finds it to be."""
    ran = run([programs.bgpsim(), "replay"], log.encode("latin-1"))
    said = ran.out.decode("latin-1").rstrip("\n")
    is_so = ran.status == (0 if said.startswith("ok ") else 1) and not ran.err
    return said if is_so else "status %d: %s" % (ran.status, said)


def under(log: str, version: int) -> str:
    """The log under the header of a version."""
    return "\n".join([HEADERS[version - 1]] + log.split("\n")[1:])


def changed(log: str, draw: random.Random) -> str:
    """The log with a byte changed, added or left out, or without its end; now and then near its header."""
    near = draw.choice((len(log), len(log), len(log), 2 * len(HEADERS[0])))
    at, byte = draw.randrange(min(near, len(log))), draw.choice("\n =@#0129 \x00\xff.abc")
    return draw.choice((log[:at] + byte + log[at + 1:], log[:at] + byte + log[at:], log[:at] + log[at + 1:], log[:at]))


def compare(seed: int) -> Tuple[int, List[str]]:
    """How many logs the seed has, and what is reported of each that the program finds to be something else."""
    draw = random.Random(seed)
    script, seats = random_scripts.script(seed), draw.choice((1, 3, 256))
    logs = [log_of(script, seats), under(log_of(script, seats), 1), log_of(script, seats, 1)]
    logs += [changed(draw.choice(logs[:3]), draw) for _ in range(CHANGES)]
    found = [(replayed(one), verdict(one)) for one in logs]
    return len(logs), ["seed %d: %s, and by the model %s" % (seed, got, want) for got, want in found if got != want]


def agree(seeds: range) -> int:
    programs.bgpsim()
    count = differ = 0
    for logs, told in side_by_side(compare, seeds):
        count += logs
        differ += len(told)
        print("".join(one + "\n" for one in told), end="", flush=True)
    print("%d logs, %d differ" % (count, differ))
    return 1 if differ else 0


def refuse(log: bytes) -> int:
    """Replays the log with each allocation refused in turn."""
    program = programs.bgpsim()
    with injector() as inject:
        def replay(number: int) -> Ran:
            return run([program, "replay"], log, env=inject(number), timeout=None)

        ever = replay(0)
        came = collections.Counter(side_by_side(replay, range(1, allocations(ever) + 1)))
    wanted = {ever._replace(err=b""): "as ever", Ran(b"", b"memory\n", 5): "memory"}
    told = ", ".join("%s: %d" % (wanted.get(ran, (ran.status, ran.out, ran.err)), count) for ran, count in came.items())
    print("%d allocations refused in turn: %s" % (sum(came.values()), told))
    return 0 if came.keys() <= wanted.keys() else 1


def main(words: Sequence[str]) -> int:
    """The command."""
    asked = commands.parser(__doc__)
    asked.add_argument("what", choices=("write", "check", "agree", "refuse"))
    asked.add_argument("--seats", type=int, default=1, metavar="N")
    asked.add_argument("--scripts", type=commands.number, default=100, metavar="N")
    asked.add_argument("--seed", type=int, default=1, metavar="S")
    given = asked.parse_args(words)
    if given.what == "agree":
        return agree(range(given.seed, given.seed + given.scripts))
    text = sys.stdin.buffer.read()
    if given.what == "refuse":
        return refuse(text)
    if given.what == "check":
        print(verdict(text.decode("latin-1")))
    else:
        sys.stdout.buffer.write(log_of(text.decode("latin-1"), given.seats).encode("latin-1"))
    return 0
