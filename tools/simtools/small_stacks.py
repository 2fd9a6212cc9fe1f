"""Runs bgpsim where the stack, or all memory, is small: it has to do its work, or to end with `memory`.

    tools/small-stacks [--stack KB]    a part of the gate: with so many KB of stack (128) `script`, `replay` and `team`
                                       do all that they do with more: long lines, long logs, edits that threads decide,
                                       64 workers. And with less and less memory for all a team of 64 workers is as ever
                                       or ends with `memory` and status 5
    tools/small-stacks --least         prints the least stack, in KB, in which each of the first runs

It prints what ends otherwise, as by a fault of memory. The last line is `N passed, M failed`. PROGRAM= is another
program than crates/bgpsim/out/bgpsim.
"""
from __future__ import annotations

import pathlib
import resource
import tempfile
from typing import Callable, Iterator, List, NamedTuple, Optional, Sequence

from . import commands, logs, programs, run_cases, team_logs
from .programs import TOP
from .running import Ran, run, side_by_side

KB = 1_024
STACK = 128
# How much memory for all, in KB, a run is given, in turn.
SIZES = range(20_000, 48_000, 1_000)
# As much stack as is tried for the least; no run needs more.
MOST = 16_384
CASES = ("examples/tour", "cases/lines/65536-bytes-line-feed", "cases/lines/65536-bytes-no-end",
         "cases/logs/a-whole-tour", "cases/logs/reply-of-1048576-bytes", "cases/logs/reply-of-1048577-bytes",
         "cases/threads/rules-over-2100-cells", "cases/threads/trees-of-840-routers", "cases/command-line/help-of-team",
         "cases/command-line/team-of-65-files")
NETWORK = ("router 1.0.0.1 1", "router 2.0.0.2 2", "router 3.0.0.1 3", "link 1.0.0.1 2.0.0.2 5",
           "link 1.0.0.1 3.0.0.1 5", "join 1.0.0.1 2.0.0.2", "join 1.0.0.1 3.0.0.1", "origin 1.0.0.1 10.0.0.0/8")
METRICS = 1_000
Limit = Callable[[], None]


class Work(NamedTuple):
    """Something that the program does under a limit, and what is wrong with how that ended."""
    name: str
    run: Callable[[Limit], Ran]
    wrong: Callable[[Ran], Optional[str]]


def limited(kind: int, size: int) -> Limit:
    """For a child: at most so many bytes of it."""
    return lambda: resource.setrlimit(kind, (size, size))


def stack(size: int) -> Limit:
    return limited(resource.RLIMIT_STACK, size * KB)


def shown(ran: Ran) -> str:
    return "status %d, %r, %r" % (ran.status, ran.out[:100], ran.err[:200])


# What is done

def of_case(name: str) -> Work:
    """A case has to be as it is wanted."""
    path = TOP / name
    words, given, wanted = run_cases.words_of(path), run_cases.given(path), run_cases.wanted(path)

    def ended(limit: Limit) -> Ran:
        return run([b"bgpsim", *words], given, executable=programs.bgpsim(), cwd=path.parent, preexec_fn=limit)

    def wrong(ran: Ran) -> Optional[str]:
        is_so = ran.out == wanted.out and ran.status == wanted.status and wanted.err in (None, ran.err)
        return None if is_so else shown(ran)

    return Work(name, ended, wrong)


def of_team(name: str, folder: pathlib.Path, texts: List[str], workers: int) -> Work:
    """A team's log has to be right."""
    folder.mkdir()
    files = team_logs.written(str(folder), texts)
    return Work(name, lambda limit: team_logs.team(files, workers, preexec_fn=limit),
                lambda ran: team_logs.wrong(texts, workers, ran) and shown(ran))


def metrics() -> List[str]:
    """Four engineers of one network, each of whom gives a link many metrics."""
    network = "".join(line + "\n" for line in NETWORK)
    return [network + "".join("metric 1.0.0.1 2.0.0.2 %d\n" % (1 + n * 7 % 9_973) for n in range(METRICS))] * 4


def all_work(folder: str) -> Iterator[Work]:
    """What has to be done in a small stack."""
    yield from map(of_case, CASES)
    examples = [(TOP / "examples" / "team" / ("%s.engineer" % name)).read_text() for name in ("interior", "border")]
    for workers in (1, 2, 64):
        yield of_team("a team of %d workers" % workers, pathlib.Path(folder, "team%d" % workers), examples, workers)
    text = "".join("router 1.0.%d.%d %d\nquiet\n" % (n >> 8, n & 255, n + 1) for n in range(2_000))
    yield of_team("a team with a long log", pathlib.Path(folder, "long"), [text, "quiet\n"], 4)
    longest = "#" + 65_534 * "x" + "\n" + "quiet".ljust(4_096) + "\n"
    yield of_team("a team with long lines", pathlib.Path(folder, "lines"), [longest] * 64, 64)


# All memory

def wrong_end(ran: Ran) -> Optional[str]:
    """What is wrong with the end of a run that had little memory, if anything is: it may be as ever, or want some."""
    told = [line for line in team_logs.lines_of(ran.err) if not team_logs.TOLD.fullmatch(line)]
    if ran.status == 5 and told == ["memory"] and not ran.out:
        return None
    if ran.status == 0 and not told and logs.replayed(ran.out.decode("latin-1")).startswith("ok "):
        return None
    return shown(ran)


def little_memory(folder: str) -> Iterator[Work]:
    """Less and less memory for all: a team of four engineers and 64 workers."""
    files = team_logs.written(folder, metrics())

    def within(size: int) -> Work:
        # Whatever stack the others have, this has as much as is usual.
        limit = limited(resource.RLIMIT_AS, size * KB)
        return Work("a team of 64 workers in %d KB of memory" % size,
                    lambda _: team_logs.team(files, 64, preexec_fn=limit), wrong_end)

    yield from map(within, SIZES)


# All of it

def tried(works: Sequence[Work], limit: Limit) -> Iterator[Optional[str]]:
    def one(work: Work) -> Optional[str]:
        return work.wrong(work.run(limit))

    return side_by_side(one, works)


def try_all(size: int) -> int:
    programs.bgpsim()
    failed = 0
    with tempfile.TemporaryDirectory() as folder:
        works = list(all_work(folder)) + list(little_memory(folder))
        for work, wrong in zip(works, tried(works, stack(size))):
            failed += wrong is not None
            print("FAILED %s: %s\n" % (work.name, wrong) if wrong else "", end="", flush=True)
    return commands.counted(len(works) - failed, failed)


def least(work: Work) -> int:
    """The least stack, in KB and a power of 2 or half one more, in which the work is done."""
    sizes = sorted(part << n for n in range(3, 14) for part in (2, 3))
    good = MOST
    for size in reversed([size for size in sizes if size < MOST]):
        if work.wrong(work.run(stack(size))) is not None:
            break
        good = size
    return good


def tell_least() -> int:
    programs.bgpsim()
    with tempfile.TemporaryDirectory() as folder:
        works = list(all_work(folder))
        for work, size in zip(works, side_by_side(least, works)):
            print("%s: %d KB" % (work.name, size), flush=True)
    return 0


def main(words: Sequence[str]) -> int:
    """The command."""
    asked = commands.parser(__doc__)
    asked.add_argument("--stack", type=commands.number, default=STACK, metavar="KB")
    asked.add_argument("--least", action="store_true")
    given = asked.parse_args(words)
    return tell_least() if given.least else commands.as_part(lambda: try_all(given.stack))
