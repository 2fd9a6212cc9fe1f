"""Allocation failure injection on one script or folder: each run of bgpsim has another allocation fail.

    tools/fail-script-allocations SCRIPT [LINES [STEP]]    after ./bgpsim has built the program; it needs cc
    tools/fail-script-allocations FOLDER                   each script of the folder, on the program and on the three
                                                           machines; those for converge on the program alone

LINES tries only the allocations that the last so many lines make, for a long script; STEP tries every so many of them.
PROGRAM= is another program than crates/bgpsim/out/bgpsim.

A run ends with status 5 and `memory` before it answers a line. Or it answers one line `refused 20 memory`, and every
other line as if that line were not there; of `converge` the deliveries before the failure stand. Or it is the same as
without a failure. Where a line is refused so, the run is made again with that line given twice: the second time it and
every line after it have the usual replies. A script is one for `bgpsim converge` where a file .args beside it says so,
as of a case; it has no `echo`.
Exit 1 at the first run that does not. Of a folder the last line is `N passed, M failed`, a script on a machine
being one.
"""
from __future__ import annotations

import collections
import os
import pathlib
from typing import Counter, Dict, List, Optional, Sequence, Tuple

from . import commands, programs, run_cases
from .allocation_faults import Injector, allocations, injector
from .running import Ran, run, side_by_side
from .script_faults import CONVERGE, SCRIPT, WANT, fewer, word

AGAIN = "refused 20, and done when asked again"
Words = Tuple[str, str]


class Script:
    """A script on a program, and what each of its lines leads to."""

    def __init__(self, words: Words, inject: Injector, text: bytes, last: int):
        self.words, self.inject, self.text = words, inject, text
        self.lines = text.splitlines(keepends=True)
        self.whole = self.run(text).out
        self.first = len(self.lines) - (last or len(self.lines))
        self.befores: Dict[int, bytes] = {
            i: self.run(self.begin(i)).out for i in range(self.first, len(self.lines))}

    def run(self, text: bytes, env: Optional[Dict[str, str]] = None) -> Ran:
        return run(self.words, text, env=env, timeout=None)

    def begin(self, count: int) -> bytes:
        """The first so many lines."""
        return b"".join(self.lines[:count])

    def allocations(self, text: bytes) -> int:
        """How many allocations the program makes for this text."""
        return allocations(self.run(text, self.inject(0)))

    def refused_line(self, replies: bytes) -> Optional[int]:
        """The line that was answered by the refusal, if one was."""
        at = replies.find(WANT)
        return next((i for i in reversed(list(self.befores)) if len(self.befores[i]) == at), None)

    def done(self, i: int) -> List[bytes]:
        """What may stand of line i where it is refused: nothing, or deliveries before the one that found no memory, as
        a line that asks for so many."""
        words = self.run(self.begin(i + 1)).out[len(self.befores[i]):].split()
        is_counted = word(self.lines[i]) == CONVERGE and b"after" in words
        count = int(words[words.index(b"after") + 1]) if is_counted else 0
        return [b""] + [fewer(self.lines[i], n) for n in range(1, count)]

    def refused(self, i: int, done: bytes, rest: bytes) -> bytes:
        """The replies where line i is refused, so much of it is done, and these lines follow."""
        out = self.run(self.begin(i) + done + rest).out[len(self.befores[i]):]
        return self.befores[i] + WANT + (out.split(b"\n", 1)[1] if done else out)

    def is_refused_well(self, ran: Ran, environment: Dict[str, str]) -> bool:
        """Whether a line was refused as if it were not there, but for deliveries before the failure, and is done when
        it is asked again."""
        i = self.refused_line(ran.out)
        if ran.status or i is None:
            return False
        line, rest = self.lines[i], b"".join(self.lines[i + 1:])
        again = self.run(self.begin(i) + line + line + rest, environment).out
        return any(ran.out == self.refused(i, done, rest) and again == self.refused(i, done, line + rest)
                   for done in self.done(i))

    def outcome(self, n: int) -> Optional[str]:
        """What came of the script where its allocation n fails, if it may be so."""
        environment = self.inject(n)
        ran = self.run(self.text, environment)
        if ran == Ran(b"", b"memory\n", 5):
            return "status 5"
        if ran.status == 0 and ran.out == self.whole:
            return "as ever"
        if self.is_refused_well(ran, environment):
            return AGAIN
        print("allocation %d refused: status %d, %r, %r" % (n, ran.status, ran.out, ran.err))
        return None


def tried(words: Words, inject: Injector, text: bytes, last: int = 0, step: int = 1) -> bool:
    """Whether all went well where each allocation fails in turn; it prints what came of them."""
    script = Script(words, inject, text, last)
    before = script.allocations(script.begin(script.first)) if last else 0
    numbers = range(before + 1, script.allocations(text) + 1, step)
    counts: Counter[str] = collections.Counter()
    for came in side_by_side(script.outcome, numbers):
        if came is None:
            return False
        counts[came] += 1
    told = ", ".join("%s: %d" % one for one in sorted(counts.items()))
    print("%d allocations refused in turn: %s" % (len(numbers), told))
    return AGAIN in counts


def subcommand(file: pathlib.Path) -> str:
    """The subcommand that plays the script."""
    return CONVERGE if run_cases.words_of(file.with_suffix("")) == [CONVERGE.encode()] else SCRIPT


def try_folder(folder: pathlib.Path) -> int:
    """The same of each script of the folder, on the program and on each machine. Missing where one is not there."""
    by_program = programs.bgpsim()
    machines: List[Words] = [(programs.machine_scripts(), machine) for machine in programs.MACHINES]
    came: List[bool] = []
    with injector() as inject:
        for file in sorted(folder.glob("*.bgp")):
            kind = subcommand(file)
            for words in [(by_program, kind), *(machines if kind == SCRIPT else ())]:
                print("%s, %s %s: " % (file.name, os.path.basename(words[0]), words[1]), end="", flush=True)
                came.append(tried(words, inject, file.read_bytes()))
    return commands.counted(came.count(True), came.count(False))


def main(words: Sequence[str]) -> int:
    """The command."""
    asked = commands.parser(__doc__)
    asked.add_argument("path", type=pathlib.Path, metavar="SCRIPT")
    asked.add_argument("lines", type=commands.number, nargs="?", default=0, metavar="LINES")
    asked.add_argument("step", type=commands.number, nargs="?", default=1, metavar="STEP")
    given = asked.parse_args(words)
    if given.step < 1:
        asked.error("STEP is 1 at least")
    if given.path.is_dir():
        return commands.as_part(lambda: try_folder(given.path))
    if not given.path.is_file():
        raise commands.Missing("there is no script %s" % given.path)
    with injector() as inject:
        by = programs.bgpsim(), subcommand(given.path)
        is_well = tried(by, inject, given.path.read_bytes(), given.lines, given.step)
    return 0 if is_well else 1
