"""Allocation failure injection: each allocation fails in turn, of each line of a script, of its log and of a team, and
of each call of a `Room`.

    tools/fail-allocations                   the worked scripts of cases/, their logs, some allocations of their teams
                                             and of edits that threads decide, and tools/calls: a part of the gate
    tools/fail-allocations --all             all allocations of these
    tools/fail-allocations [--all] PATH..    those of cases, or folders of them, and of lists of calls (NAME.calls)
    tools/fail-allocations --on PROGRAM ..   those on bgpsim, or on machine_scripts, alone

Of each line, on the program and on the three machines, the first allocation fails, then the second, until a run meets
none. The reply to the line is the one of its case, or `refused 20 memory`, and this only where an allocation failed.
After a refusal every question has the same reply as before the line, and the line, given again, has the reply of its
case. A line that its case refuses for another reason stays refused for that one, but for the feed of a route. A case of
`bgpsim converge` is tried on that alone; of a line `converge` the deliveries before the failure stand.

`bgpsim replay` of the script's log, with a failure in each of its lines, ends with `memory` or as it does without. So
does a team of one engineer and two workers, whose log has no call that was refused. A `Room` (`machine_scripts room`)
takes each line of a script by `Room::step`, and those of tools/calls by its other functions and by `Desk::open`. Its
history, its seats, the jobs that are out, its log and the count of decisions stay as they were, too.

It needs cc. The last line is `N passed, M failed`. PROGRAM= is another program than crates/bgpsim/out/bgpsim, which is
then tried alone.
"""
from __future__ import annotations

import collections
import pathlib
import tempfile
from functools import partial
from typing import Callable, Counter, Iterable, Iterator, List, NamedTuple, Optional, Sequence, Tuple

from . import commands, line_faults, logs, programs, run_cases, team_logs
from .line_faults import Copy, block, tried
from .programs import TOP
from .allocation_faults import Injector, allocations, injector
from .running import Ran, run, side_by_side
from .script_faults import CONVERGE, SCRIPT, Came, Case, ConvergeFaults, RoomFaults, ScriptFaults, Words, calls_in

WORKED = ("rows", "selection", "reflection", "refusals/refusals.bgp", "memory")
THREADS = "threads"
CALLS, OF_CALLS = TOP / "tools" / "calls", ".calls"
# So many allocations of an edit of a long script are enough for the gate.
ENOUGH = 40
# Each so many allocations of a team are enough.
TEAMS_STEP = 7
MOST_TOLD = 5
MEMORY = 5 << 8
# The programs in which allocations fail, by the names of their crates.
ON_PROGRAM, ON_MACHINES = "bgpsim", "machine_scripts"
Try = Callable[[], Came]


class Asked(NamedTuple):
    """What the command was asked for: all allocations or some, on which programs."""
    are_all: bool
    programs: Sequence[str]


# A log

class Replay:
    """`bgpsim replay` of a log, whose lines are given one by one."""

    def __init__(self, library: str, log: str):
        self.library, self.words = library, (programs.bgpsim(), "replay")
        self.lines = log.encode("latin-1").splitlines(keepends=True)
        self.rests = [b"".join(self.lines[i:]) for i in range(len(self.lines))]
        self.well = (logs.verdict(log) + "\n").encode()

    def run(self, numbers: Sequence[Sequence[int]]) -> line_faults.Tried:
        """Runs it; before each line copies go on with it, the allocations of these numbers refused at that line."""
        each = zip(self.lines, self.rests, numbers)
        return tried(self.library, self.words, b"".join(
            b"".join(block(n, rest) for n in some) + line for line, rest, some in each))

    def faults(self) -> Came:
        """What is wrong where each allocation fails in turn."""
        counts: Counter[str] = collections.Counter()
        first = self.run([[0]] * len(self.lines))
        if first.err or any(out != self.well for out in [first.own()] + [copy.out for copy in first.copies]):
            return ["with nothing refused its log is not found to be %r: %r" % (self.well, first.own())], counts
        numbers = [range(1, copy.made + 2) for copy in first.copies]
        tries = [(line, n) for line, some in zip(self.lines, numbers) for n in some]
        ran = self.run(numbers)
        wrong = ["allocation %d of %r refused: status %d, %r" % (n, line, copy.status, copy.out)
                 for (line, n), copy in zip(tries, ran.copies) if not self.is_well(copy)]
        wants = sum(copy.status == MEMORY for copy in ran.copies)
        counts.update({"memory": wants, "as ever": sum(copy.is_refused for copy in ran.copies) - wants})
        if len(tries) != len(ran.copies) or ran.own() != self.well or ran.err != wants * b"memory\n":
            wrong.append("after copies that memory was refused to: %r, %r" % (ran.own(), ran.err[:300]))
        return wrong, counts

    def is_well(self, copy: Copy) -> bool:
        return (copy.status, copy.out) in ([(0, self.well)] + [(MEMORY, b"")] * copy.is_refused)


# A team

def team_faults(inject: Injector, case: Case, step: int, first: int) -> Came:
    """What is wrong where an allocation is refused, each so many, of a team whose one engineer has the script."""
    text = b"".join(case.lines).decode("latin-1")
    with tempfile.TemporaryDirectory() as folder:
        files = team_logs.written(folder, [text])
        ever = team_logs.team(files, 2, env=inject(0))
        ends = {n: team_logs.team(files, 2, env=inject(n))
                for n in range(first % step + 1, allocations(ever) + 1, step)}
        found = [(0, team_logs.wrong([text], 2, team_logs.team(files, 2)))]
    found += [(n, wrong_end(text, ran)) for n, ran in ends.items()]
    counts = collections.Counter(how_it_ended(ran) for ran in ends.values())
    return ["allocation %d refused: %s" % (n, wrong) for n, wrong in found if wrong], counts


def how_it_ended(ran: Ran) -> str:
    if ran.status == 5:
        return "memory"
    return "refused 20, and no call" if b"refused 20" in ran.err else "as ever"


def wrong_end(text: str, ran: Ran) -> Optional[str]:
    """What is wrong with the end of a team that memory was refused to, if anything is."""
    if ran.status == 5 and ran.out == b"":
        told = team_logs.told_by(team_logs.lines_of(ran.err))
        is_so = told.other == "memory" and ran.err.endswith(b"memory\n")
        return None if is_so else "it told %r" % ran.err
    return team_logs.wrong([text], 2, ran, may_want=True)


# Before the first line

def beginning_faults(inject: Injector, words: Words) -> Came:
    """What is wrong where an allocation is refused that a program makes before it reads anything."""
    count = allocations(run(words, env=inject(0)))
    ended = {n: run(words, env=inject(n)) for n in range(1, count + 1)}
    well = {Ran(b"", b"", 0): "as ever", Ran(b"", b"memory\n", 5): "memory"}
    counts = collections.Counter(well[ran] for ran in ended.values() if ran in well)
    return ["allocation %d refused: %s" % (n, ran) for n, ran in ended.items() if ran not in well], counts


# All of them

def cases_at(paths: Iterable[pathlib.Path]) -> Iterator[Case]:
    """The scripts among the cases at the paths."""
    for path in sorted({case for path in paths for case in run_cases.cases_in(path)[0]}):
        wanted, words = run_cases.wanted(path), [word.decode("latin-1") for word in run_cases.words_of(path)]
        if words in ([SCRIPT], [CONVERGE]) and wanted.status == 0:
            lines = run_cases.given(path).splitlines(keepends=True)
            yield Case(run_cases.name(path), lines, wanted.out, words[0])


def tries(cases: Sequence[Case], calls: Sequence[Case], asked: Asked, library: str,
          inject: Injector) -> Iterator[Tuple[str, Try]]:
    """What is tried, by names."""
    on: List[Words] = [(programs.bgpsim(), SCRIPT)] if ON_PROGRAM in asked.programs else []
    converge: List[Words] = [(programs.bgpsim(), CONVERGE)] if ON_PROGRAM in asked.programs else []
    room: List[Words] = []
    if ON_MACHINES in asked.programs:
        on += [(programs.machine_scripts(), machine) for machine in programs.MACHINES]
        room = [(programs.machine_scripts(), programs.ROOM)]
    for words in on + converge + room:
        yield "%s, before a line" % words[1], partial(beginning_faults, inject, words)
    scripts = [case for case in cases if case.subcommand == SCRIPT]
    for case, words in ((case, words) for case in scripts for words in on):
        enough = None if asked.are_all or not case.is_long() else ENOUGH
        yield "%s, %s" % (case.name, words[1]), ScriptFaults(library, words, case, enough).faults
    for case, words in ((case, words) for case in cases if case.subcommand == CONVERGE for words in converge):
        yield "%s, %s" % (case.name, words[1]), ConvergeFaults(library, words, case, None).faults
    short = [case for case in scripts if not case.is_long()]
    for case, words in ((case, words) for case in [*calls, *short] for words in room):
        yield "%s, %s" % (case.name, words[1]), RoomFaults(library, words, case, None).faults
    for number, case in enumerate(short if ON_PROGRAM in asked.programs else ()):
        log = logs.log_of(b"".join(case.lines).decode("latin-1"), 3)
        yield "%s, replay" % case.name, Replay(library, log).faults
        yield "%s, team" % case.name, partial(team_faults, inject, case, 1 if asked.are_all else TEAMS_STEP, number)


def called(named: Tuple[str, Try]) -> Came:
    return named[1]()


def refuse(paths: Sequence[pathlib.Path], asked: Asked) -> int:
    calls = sorted(file for path in paths for file in ([path] if path.is_file() else path.glob("*" + OF_CALLS))
                   if file.suffix == OF_CALLS)
    cases, failed = list(cases_at(path for path in paths if path not in calls and path != CALLS)), 0
    # What takes longest comes first, and nothing waits for it alone.
    cases.sort(key=lambda case: -len(case.lines))
    counts: Counter[str] = collections.Counter()
    refusals: Counter[str] = collections.Counter()
    with line_faults.library() as library, injector() as inject:
        named = list(tries(cases, list(map(calls_in, calls)), asked, library, inject))
        for (name, _), (wrong, ended) in zip(named, side_by_side(called, named)):
            failed += bool(wrong)
            counts.update(ended)
            refusals[name.split(", ")[-1]] += sum(ended.values())
            print("".join("FAILED %s: %s\n" % (name, line) for line in wrong[:MOST_TOLD]), end="", flush=True)
    idle = [where for where, count in refusals.items() if not count]
    why = "no allocation failed: %s" % line_faults.SOURCE.name
    print("".join("FAILED %s: %s\n" % (where, why) for where in idle), end="")
    print("allocations refused: " + ", ".join("%s: %d" % one for one in sorted(counts.items())))
    return commands.counted(len(named) - failed, failed + len(idle))


def main(words: Sequence[str]) -> int:
    """The command."""
    parser = commands.parser(__doc__)
    parser.add_argument("--all", action="store_true")
    parser.add_argument("--on", choices=(ON_PROGRAM, ON_MACHINES), metavar="PROGRAM")
    parser.add_argument("paths", nargs="*", type=pathlib.Path, metavar="PATH")
    given = parser.parse_args(words)
    if programs.is_chosen() and given.on == ON_MACHINES:
        parser.error("PROGRAM= is tried alone: --on machine_scripts has nothing to try")
    every = (ON_PROGRAM,) if programs.is_chosen() else (ON_PROGRAM, ON_MACHINES)
    asked = Asked(given.all, (given.on,) if given.on else every)
    default = [CALLS] + [TOP / "cases" / name for name in WORKED + (THREADS,)]
    return commands.as_part(lambda: refuse([path.resolve() for path in given.paths] or default, asked))
