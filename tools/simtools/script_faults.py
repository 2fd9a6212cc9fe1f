"""Allocation failure injection on a script: each of its lines in turn, by copies of the program that plays it. In each
copy another allocation of that line fails. tools/fail-allocations has many scripts."""
from __future__ import annotations

import collections
import pathlib
import random
from typing import Callable, Counter, Iterable, List, NamedTuple, Optional, Sequence, Tuple

from . import line_faults, run_cases
from .line_faults import Copy, block, tried
from .running import run

WANT = b"refused 20 memory\n"
QUESTIONS = ("routes", "best", "why", "in", "out", "queue", "quiet", "cost", "trace")
# What is asked of a room beside all questions, and how a copy of it ends: with its log and its count.
BOOK, CLOSE = b"book\n", b"close\n"
# The calls that deliver one message each; of several that are made together the first may be put in when memory is
# refused to the next.
DELIVERY, TOGETHER, MOST_TOGETHER = b"job\nwork\ncommit\n", b"turns\n", 4
# The answers of a room that no memory is needed for, beside a fault of syntax.
WITHOUT_MEMORY = (b"refused 1 ", b"none\n", b"stale: edits ", b"edits ", b"decided ")
# Of a script of more lines only the edits among the last so many are tried, and asked what it asks itself.
LONG, LAST = 500, 60
# Of a program that ended too early.
NO_COPY = Copy(b"", b"", 0, False, 0)
Words = Tuple[str, ...]
# The subcommands that play scripts; of both the lines that take no memory.
SCRIPT, CONVERGE = "script", "converge"
FREE = ("quiet", "waiting", "restore")
# What is wrong, in lines, and how the runs ended in which an allocation was refused.
Came = Tuple[List[str], Counter[str]]


class Case(NamedTuple):
    """A script, what it has to be answered, and the subcommand that plays it."""
    name: str
    lines: List[bytes]
    replies: bytes
    subcommand: str = SCRIPT

    def is_long(self) -> bool:
        return len(self.lines) > LONG

    def tries(self) -> List[int]:
        """The numbers of the lines that are tried."""
        if not self.is_long():
            return list(range(len(self.lines)))
        last = range(len(self.lines) - LAST, len(self.lines))
        return [i for i in last if word(self.lines[i]) not in QUESTIONS]


class Expected(NamedTuple):
    """Of a line: how many allocations it makes; what a copy may write where one fails, and has to where none does."""
    line: bytes
    made: int
    refused: List[bytes]
    ever: bytes


def word(line: bytes) -> str:
    return (line.decode("latin-1").split() or [""])[0]


def questions(lines: Iterable[bytes]) -> bytes:
    """All that can be asked of the network that the lines make."""
    words = [line.decode("latin-1").split() for line in lines]
    nodes = list(dict.fromkeys(one[1] for one in words if one[:1] in (["router"], ["virtual"]) and len(one) == 3))
    joins = [one[1:] for one in words if one[:1] == ["join"] and len(one) == 3]
    ends = {pair for one, other in joins for pair in ((one, other), (other, one))}
    known = list(dict.fromkeys(w for one in words for w in one if "/" in w))
    asked = [question for node in nodes for question in asked_of(node, nodes, known)]
    asked += ["%s %s %s" % (kind, *pair) for pair in sorted(ends) for kind in ("in", "out", "queue")]
    return "".join(line + "\n" for line in asked + ["quiet"]).encode("latin-1")


def asked_of(node: str, nodes: Sequence[str], known: Sequence[str]) -> List[str]:
    """What can be asked of a router."""
    asked = ["routes " + node] + ["cost %s %s" % (node, other) for other in nodes]
    for prefix in known:
        asked += ["best %s %s" % (node, prefix), "why %s %s" % (node, prefix),
                  "trace %s %s" % (node, prefix.split("/")[0])]
    return asked


def own_questions(lines: Iterable[bytes]) -> bytes:
    return b"".join(dict.fromkeys(line for line in lines if word(line) in QUESTIONS))


# A script

class ScriptFaults:
    """A script on a program, with what each of its lines has to come to."""
    # What else is asked after each line, and how a copy ends.
    more, end = b"", b""

    def __init__(self, library: str, words: Words, case: Case, enough: Optional[int]):
        self.library, self.words, self.case, self.enough = library, words, case, enough
        self.asked = (own_questions(case.lines) if case.is_long() else questions(case.lines)) + self.more
        self.counts: Counter[str] = collections.Counter()

    def run(self, blocks: Callable[[int], bytes]) -> line_faults.Tried:
        """Runs the script, with these blocks before each line that is tried."""
        numbers = set(self.case.tries())
        return tried(self.library, self.words, b"".join(
            (blocks(i) if i in numbers else b"") + line for i, line in enumerate(self.case.lines)))

    def twice(self, n: int, line: bytes) -> bytes:
        """A copy that is given the line two times, each time with all questions, allocation n of the first refused."""
        return block(n, 2 * (line + self.asked) + self.end)

    def once(self, line: bytes) -> List[bytes]:
        """What copies are given that show what is left where a line was refused, and then was not."""
        return [self.asked + line + self.asked + self.end]

    def expected(self) -> Tuple[List[Expected], List[str]]:
        """What each line that is tried has to come to, by copies in which nothing is refused; and what is wrong with
        those, in lines."""
        lines = [self.case.lines[i] for i in self.case.tries()]
        ran = self.run(lambda i: self.twice(0, self.case.lines[i]) + b"".join(
            block(0, given) for given in self.once(self.case.lines[i])))
        wrong = ["with nothing refused: status %d, %r" % (ran.status, ran.err)] if ran.status or ran.err else []
        if ran.own() != self.case.replies:
            wrong.append("with nothing refused it does not answer what its case wants")
        copies = iter(ran.copies)
        found = [(line, [next(copies, NO_COPY) for _ in range(1 + len(self.once(line)))]) for line in lines]
        wrong += ["%r is answered `refused 20 memory`, and no allocation failed" % line
                  for line, (twice, *_) in found if WANT in twice.out]
        return [Expected(line, twice.made, self.left(line, twice.out, [copy.out for copy in once]), twice.out)
                for line, (twice, *once) in found], wrong

    def left(self, line: bytes, ever: bytes, once: List[bytes]) -> List[bytes]:
        """What a copy may write where the line was refused."""
        return [WANT + out for out in once]

    def numbers(self, count: int) -> List[int]:
        """Which allocations are refused of so many, and the first that is not there."""
        every = list(range(1, count + 2))
        if self.enough is None or len(every) <= self.enough:
            return every
        part = self.enough // 4
        return sorted({*every[:part], *every[-part:], *random.Random(count).sample(every, 2 * part)})

    def faults(self) -> Came:
        """What is wrong where each allocation fails in turn."""
        expected, wrong = self.expected()
        if wrong:
            return wrong, self.counts
        blocks = {i: [(n, one) for n in self.numbers(one.made)] for i, one in zip(self.case.tries(), expected)}
        ran = self.run(lambda i: b"".join(self.twice(n, one.line) for n, one in blocks[i]))
        tries = [pair for i in self.case.tries() for pair in blocks[i]]
        for (n, one), copy in zip(tries, ran.copies):
            wrong += self.judged(n, one, copy)
        if len(tries) != len(ran.copies) or ran.own() != self.case.replies:
            wrong.append("after copies of it that memory was refused to, it does not answer what its case wants")
        return wrong, self.counts

    def judged(self, n: int, one: Expected, copy: Copy) -> List[str]:
        """What is wrong with a run in which allocation n of the line was refused, in lines."""
        if copy.status == 0 and copy.out == one.ever:
            self.counts["as ever"] += copy.is_refused
            return []
        if copy.status == 0 and copy.is_refused and self.may_want(one) and copy.out in one.refused:
            self.counts["refused 20, and done when asked again"] += 1
            return []
        return ["allocation %d of %r refused: status %d, %r" % (n, one.line, copy.status, copy.out[:300])]

    def may_want(self, one: Expected) -> bool:
        """Whether the line may be answered 20: its case has it done, and it is not `quiet`; or it is the feed of a
        route, which takes memory before anything but its syntax is tested."""
        if one.ever.startswith(b"refused "):
            return one.line.split()[0::3][:2] == [b"feed", b"update"] and not one.ever.startswith(b"refused 1 ")
        return word(one.line) not in FREE


class ConvergeFaults(ScriptFaults):
    """A script for `bgpsim converge`. Deliveries before one that memory is refused to stand."""
    more = b"waiting\n"

    def delivered(self, line: bytes) -> int:
        """How many messages the line delivers at most, of all places where it stands; 0 where it delivers none."""
        lines = self.case.lines
        replies = [run(self.words, b"".join(lines[:i + 1])).out.splitlines()[-1]
                   for i, other in enumerate(lines) if other == line and word(line) == CONVERGE]
        return max([0, *(int(reply.split(b" (")[0].split()[-1]) for reply in replies if b" after " in reply)])

    def once(self, line: bytes) -> List[bytes]:
        first = super().once(line)[0]
        return [(fewer(line, n) if n else b"") + first for n in range(max(self.delivered(line), 1))]

    def left(self, line: bytes, ever: bytes, once: List[bytes]) -> List[bytes]:
        """So many messages were delivered, and perhaps written."""
        lines = [2 * n if line.split()[-1:] == [b"echo"] else 0 for n in range(len(once))]
        cut = [out.split(b"\n", count + (n > 0)) for n, (count, out) in enumerate(zip(lines, once))]
        return [b"".join(one + b"\n" for one in told[:count]) + WANT + told[-1] for count, told in zip(lines, cut)]


def fewer(line: bytes, n: int) -> bytes:
    """The line that asks for deliveries, but for so many."""
    words = line.split()
    echo = [b"echo"] if words[-1] == b"echo" else []
    order = words[1:3] if words[1:2] == [b"random"] else [one for one in words[1:2] if one in (b"fair", b"router")]
    return b" ".join([words[0], *order, b"%d" % n, *echo]) + b"\n"


class RoomFaults(ScriptFaults):
    """A script, or other calls, in a room, whose history keeps each call."""
    more, end = BOOK, CLOSE

    def once(self, line: bytes) -> List[bytes]:
        first = super().once(line)[0]
        return [n * DELIVERY + first for n in range(MOST_TOGETHER if line == TOGETHER else 1)]

    def left(self, line: bytes, ever: bytes, once: List[bytes]) -> List[bytes]:
        """Where calls are made together, so many of the first were, but not all; and where memory ran out for a
        job behind the first, so few were taken, and all of these were committed."""
        if line != TOGETHER:
            return super().left(line, ever, once)
        cut = [out.split(b"\n", 3 * n) for n, out in enumerate(once)]
        few = [lines[-1] for lines in cut if b"none" not in lines[:-1]]
        few = [out for out in few if out != ever.split(b"\n", 1)[1]]
        return [WANT + out for out in few] + [b"ok\n" + out for out in few[1:]]

    def may_want(self, one: Expected) -> bool:
        """All that a room keeps takes memory, be it refused."""
        return not one.ever.startswith(WITHOUT_MEMORY)


def calls_in(path: pathlib.Path) -> Case:
    """A list of calls. The replies to each stand under it, behind `> `; without any it is `ok`. A comment has none."""
    lines: List[bytes] = []
    replies: List[List[bytes]] = []
    for line in path.read_bytes().splitlines(keepends=True):
        if line.startswith(b"> "):
            replies[-1].append(line[2:])
        else:
            lines.append(line)
            replies.append([])
    wanted = [b"".join(told) or (b"" if line.startswith(b"#") else b"ok\n") for line, told in zip(lines, replies)]
    return Case(run_cases.name(path), lines, b"".join(wanted))
