"""Teams: compares the logs of `bgpsim team` with the test oracle, and tries what a case cannot show.

    tools/teams agree [--scripts N] [--seed S]   N random scripts (100), of the seeds from S (1) on, each dealt out to
                                                 some engineers, with some workers: the log has to be one that the model
                                                 and `bgpsim replay` find to agree; each engineer's calls in it have to
                                                 be the commands of the file, in order; the workers' are deliveries; and
                                                 each line that spells no command has to be reported,
                                                 in order
    tools/teams stress [--teams N] [--seed S]    N stress tests (20), of the seeds from S (1) on: one engineer gives a
                                                 link 200 metrics, one stops and starts a session, one adds and clears
                                                 rules, and mostly one feeds routes of virtual peers, with lines
                                                 between that are refused or spell nothing, against 1, 2, 8 or 64
                                                 workers. Beside what `agree` asks, no message is left where workers
                                                 had turns for it, and the calls of the log, given to `bgpsim script`,
                                                 come to the model's end
    tools/teams faults                           a full device, threads that cannot be started, each allocation failing
                                                 in turn, and long logs, whose text several threads make; it needs cc

`agree` ends with `N teams, K differ`, and with exit 1 where one differs; `stress` and `faults`, parts of the gate, end
with `N passed, M failed`. PROGRAM= is another program than crates/bgpsim/out/bgpsim.
"""
from __future__ import annotations

import collections
import os
import pathlib
import random
import resource
import tempfile
from typing import Any, Dict, Iterator, List, Optional, Sequence, Tuple

from . import commands, logs, programs, random_scripts, stress
from .programs import TOP
from .allocation_faults import Injector, allocations, injector
from .running import Ran, side_by_side
from .team_logs import TOLD, lines_of, team, written, wrong

MISTAKES = ("", "# nothing", "router", "routes 1.0.0.300", "quiet now", "  quiet ", "quiet\r",
            "feed 7.0.0.1 9.0.0.1 update 10.0.0.0/8 7 igp - comm=6,5")
# A user of whom no other process is.
NOBODY = 61_234
# What was tried, whether it went well, and what is reported where it did not.
Tried = Tuple[str, bool, Any]


# Random teams

def dealt(script: str, engineers: int, draw: random.Random) -> List[str]:
    """The lines of the script, dealt out to so many engineers, some at a time; now and then one that spells nothing."""
    texts: List[List[str]] = [[] for _ in range(engineers)]
    who = 0
    for line in script.split("\n"):
        if draw.random() < 0.3:
            who = draw.randrange(engineers)
        texts[who].append(line)
        if draw.random() < 0.05:
            texts[who].append(draw.choice(MISTAKES))
    return ["\n".join(lines) + draw.choice(("", "\n")) for lines in texts]


def of_seed(seed: int) -> Optional[str]:
    """What is wrong with the team of the seed, if anything is."""
    draw = random.Random(seed)
    texts = dealt(random_scripts.script(seed), draw.choice((1, 2, 3, 4)), draw)
    workers = draw.choice((1, 2, 3, 8))
    with tempfile.TemporaryDirectory() as folder:
        return wrong(texts, workers, team(written(folder, texts), workers, draw.choice((None, None, 5))))


def agree(seeds: range) -> int:
    programs.bgpsim()
    differ = 0
    for seed, found in zip(seeds, side_by_side(of_seed, seeds)):
        if found:
            differ += 1
            print("seed %d: %s" % (seed, found), flush=True)
    print("%d teams, %d differ" % (len(seeds), differ))
    return 1 if differ else 0


# What a case cannot show

def is_well(ran: Ran) -> bool:
    """Whether a team that wanted memory ended as it may: with the log of what was done, or with `memory`. Lines that
    made no call are reported."""
    told = [line for line in lines_of(ran.err) if not TOLD.fullmatch(line)]
    if ran.status == 5:
        return ran.out == b"" and told == ["memory"]
    return ran.status == 0 and not told and logs.verdict(ran.out.decode("latin-1")).startswith("ok ")


def statuses(ends: List[Ran]) -> Dict[int, int]:
    return dict(collections.Counter(ran.status for ran in ends))


def full_device(files: List[str]) -> Iterator[Tried]:
    with open("/dev/full", "wb") as full:
        ran = team(files, 1, stdout=full)
    yield "a full device", ran.status == 4 and ran.err == b"write fault\n", ran


def with_few_threads(files: List[str], most: int) -> Ran:
    """A team of a user who may have so many threads."""
    def limit() -> None:
        resource.setrlimit(resource.RLIMIT_NPROC, (most, most))
        os.setgid(NOBODY)
        os.setuid(NOBODY)

    return team(files, 2, preexec_fn=limit)


def few_threads(files: List[str]) -> Iterator[Tried]:
    if os.geteuid() != 0:
        print("only the superuser may try threads that cannot be started")
        return
    with tempfile.TemporaryDirectory() as folder:
        os.chmod(folder, 0o755)
        copies = written(folder, [pathlib.Path(file).read_text() for file in files])
        ends = [with_few_threads(copies, most) for most in range(1, 8)]
    yield from (("at most %d threads" % most, is_well(ran), ran) for most, ran in enumerate(ends, 1))
    yield "threads that cannot be started, and that can", statuses(ends).keys() == {0, 5}, statuses(ends)


def refused(files: List[str], inject: Injector) -> Iterator[Tried]:
    """Each allocation of a small team."""
    def one(number: int) -> Ran:
        return team(files, 2, env=inject(number))

    ends = list(side_by_side(one, range(1, allocations(one(0)) + 1)))
    yield from (("allocation %d refused" % n, False, ran) for n, ran in enumerate(ends, 1) if not is_well(ran))
    yield "%d allocations refused in turn" % len(ends), statuses(ends).keys() == {0, 5}, statuses(ends)


def long_logs(folder: str, inject: Injector) -> Iterator[Tried]:
    """Whether several threads write the log that one writes, and so where one of the last allocations is refused: those
    are for its text."""
    text = "".join("router 1.0.%d.%d %d\nquiet\n" % (n >> 8, n & 255, n + 1) for n in range(9_000))
    files = written(folder, [text])
    alone = team(files, 1)
    yield "a long log by one thread", wrong([text], 1, alone) is None, alone.err
    for workers in (2, 3, 4, 8):
        ran = team(files, workers)
        yield "a long log by %d threads" % workers, ran == alone, ran.err

    def one(number: int) -> Ran:
        return team(files, 4, env=inject(number))

    last = allocations(one(0))
    ends = list(side_by_side(one, range(last - 60, last + 1)))
    yield "the last allocations of a long log refused in turn", all(ran == alone for ran in ends), statuses(ends)


def faults() -> Iterator[Tried]:
    """What a case cannot show: whether each went well, by name."""
    files = [str(TOP / "examples" / "team" / name) for name in ("interior.engineer", "border.engineer")]
    yield from full_device(files)
    yield from few_threads(files)
    with injector() as inject, tempfile.TemporaryDirectory() as folder:
        yield from long_logs(folder, inject)
        yield from refused(files, inject)


def try_faults() -> int:
    programs.bgpsim()
    passed = failed = 0
    for name, is_as_wanted, ran in faults():
        passed += is_as_wanted
        failed += not is_as_wanted
        if not is_as_wanted:
            print("FAILED %s: %s" % (name, ran))
    return commands.counted(passed, failed)


def main(words: Sequence[str]) -> int:
    """The command."""
    asked = commands.parser(__doc__)
    asked.add_argument("what", choices=("agree", "faults", "stress"))
    asked.add_argument("--scripts", type=commands.number, default=100, metavar="N")
    asked.add_argument("--teams", type=commands.number, default=20, metavar="N")
    asked.add_argument("--seed", type=int, default=1, metavar="S")
    given = asked.parse_args(words)
    if given.what == "stress":
        return commands.as_part(lambda: stress.part(range(given.seed, given.seed + given.teams)))
    if given.what == "agree":
        return agree(range(given.seed, given.seed + given.scripts))
    return commands.as_part(try_faults)
