"""Measures what grows with what: the steps and the memory that small scripts make the program take.

    tools/growth        each row of the table in bench/README.md ("What one more costs"): how many instructions of a
                        processor one more of it takes, counted by valgrind's callgrind, and how many bytes of memory

For each row two scripts are run, the second with more of it than the first, and nothing else; the difference is shared
out. PROGRAM= is another program than crates/bgpsim/out/bgpsim.
"""
from __future__ import annotations

import pathlib
import re
import shutil
import subprocess
import threading
from typing import Callable, Iterator, List, NamedTuple, Optional, Sequence, Tuple

from . import commands, programs
from .commands import Missing
from .networks import prefix, virtual_peer
from .running import run, side_by_side

COLLECTED = re.compile(rb"Collected : ([0-9]+)")
# A question that no script asks, and its reply.
LAST, ANSWERED = "cost 250.0.0.1 250.0.0.1", b"refused 2 no-router\n"
HUB, FEEDER = "9.0.0.1", "7.0.0.1"
PEERS, ROUTES = 20, 20
Lines = List[str]


class Row(NamedTuple):
    """One thing of which there can be more: its name in the table; a script with so many of it, as lines; how many
    there are by that; and two numbers for counting steps, and two for measuring memory, where it takes some."""
    name: str
    script: Callable[[int], Lines]
    units: Callable[[int], int]
    steps: Tuple[int, int]
    memory: Optional[Tuple[int, int]]


def star(peers: int) -> Lines:
    """A router with a virtual peer that feeds it, and so many that hear from it."""
    lines = ["router %s 9" % HUB, *virtual_peer(HUB, FEEDER, 7, 1)]
    for n in range(peers):
        lines += virtual_peer(HUB, "8.0.%d.1" % n, 1_000 + n, 1)
    return lines


def heard(count: int) -> Lines:
    """So many routes that the router hears."""
    return [line for n in range(count)
            for line in ("feed %s %s update %s 7 igp -" % (FEEDER, HUB, prefix(n)), "deliver %s %s" % (FEEDER, HUB))]


def turned(count: int, rule: str) -> Lines:
    """A policy that gets a rule and loses it, so many times."""
    return count * ["rule %s %s in any %s" % (HUB, FEEDER, rule), "clear %s %s in" % (HUB, FEEDER)]


def ring(routers: int) -> Lines:
    """Routers of one AS in a ring."""
    names = ["5.0.%d.%d" % divmod(n, 256) for n in range(1, routers + 1)]
    lines = ["router %s 5" % name for name in names]
    ends = list(zip(names, names[1:] + names[:1]))
    return lines + ["link %s %s 10" % pair for pair in ends] + ["join %s %s" % pair for pair in ends]


def metrics(count: int) -> Lines:
    return [line for _ in range(count) for line in ("metric 5.0.0.1 5.0.0.2 5", "metric 5.0.0.1 5.0.0.2 10")]


def long_paths(count: int) -> Lines:
    """Routes with paths of 255 AS numbers, no two of which are alike."""
    path = "7," + ",".join(str(4_000_000_000 + n) for n in range(253))
    return ["feed %s %s update %s %s,%d igp -" % (FEEDER, HUB, prefix(0), path, n + 1) for n in range(count)]


def queued(count: int) -> Lines:
    """Messages of one queue, and questions for it."""
    return star(0) + 100 * ["feed %s %s update %s 7 igp -" % (FEEDER, HUB, prefix(0))] + count * [
        "queue %s %s" % (FEEDER, HUB)]


def routers(count: int) -> Lines:
    """Routers of as many ASes."""
    return ["router 6.0.%d.%d %d" % (n >> 8, n & 255, n + 1) for n in range(count)]


def links(count: int) -> Lines:
    """Links between 100 routers."""
    ends = [(a, a + step) for step in range(1, 60) for a in range(100 - step)]
    return routers(100) + ["link 6.0.0.%d 6.0.0.%d 1" % pair for pair in ends[:count]]


ROWS: Sequence[Row] = (
    Row("a message that is put into a queue", lambda n: star(PEERS) + heard(ROUTES) + turned(n, "deny"),
        lambda n: 2 * n * ROUTES * PEERS, (10, 20), (300, 1_300)),
    Row("a recomputed RIB entry with one route",
        lambda n: star(1) + heard(200) + turned(n, "permit pref=5"), lambda n: 2 * n * 200, (5, 15), None),
    Row("a feed, its delivery, and the update to one peer", lambda n: star(1) + heard(n), lambda n: n,
        (100, 300), (5_000, 25_000)),
    Row("a message that a question lists", queued, lambda n: 100 * n, (10, 30), None),
    Row("a cost that a metric moves, at one router towards another", lambda n: ring(40) + metrics(n),
        lambda n: 2 * n * 40 * 20, (5, 15), None),
    Row("a router", routers, lambda n: n, (300, 600), None),
    Row("a link", links, lambda n: n, (200, 600), None),
    Row("a path of 255 AS numbers that no other route has", lambda n: star(0) + long_paths(n), lambda n: n, (50, 150),
        (500, 2_500)),
)


def steps(lines: Lines) -> int:
    """How many instructions the program takes for a script. Missing where there is no valgrind."""
    if not shutil.which("valgrind"):
        raise Missing("there is no valgrind: `apt-get install valgrind` installs it")
    words = ["valgrind", "--tool=callgrind", "--callgrind-out-file=/dev/null", programs.bgpsim(), "script"]
    ran = run(words, "".join(line + "\n" for line in lines).encode())
    found = COLLECTED.search(ran.err)
    if ran.status or not found:
        raise Missing("valgrind does not run the program: status %d, %r" % (ran.status, ran.err[-300:]))
    return int(found[1])


def memory(lines: Lines) -> int:
    """How many bytes of memory the program holds at most while it serves a script."""
    with subprocess.Popen([programs.bgpsim(), "script"], stdin=subprocess.PIPE, stdout=subprocess.PIPE) as child:
        assert child.stdin and child.stdout
        text = "".join(line + "\n" for line in [*lines, LAST]).encode()
        threading.Thread(target=lambda given: (given.write(text), given.flush()), args=(child.stdin,)).start()
        while child.stdout.readline() != ANSWERED:
            pass
        found = re.search("VmHWM:\\s*([0-9]+) kB", pathlib.Path("/proc/%d/status" % child.pid).read_text())
        assert found
        return int(found[1]) * 1_024


def shared(row: Row, numbers: Tuple[int, int], measured: Callable[[Lines], int]) -> float:
    """What one more takes."""
    few, many = numbers
    taken = measured(row.script(many)) - measured(row.script(few))
    return taken / (row.units(many) - row.units(few))


def of_row(row: Row) -> Tuple[str, float, Optional[float]]:
    """The row's name, its steps, and its bytes where it takes memory."""
    return row.name, shared(row, row.steps, steps), row.memory and shared(row, row.memory, memory)


def measured() -> Iterator[Tuple[str, float, Optional[float]]]:
    return side_by_side(of_row, ROWS)


def main(words: Sequence[str]) -> int:
    """The command."""
    commands.parser(__doc__).parse_args(words)
    for name, count, size in measured():
        print("| %s | %.0f | %s |" % (name, count, "-" if size is None else "%.0f" % size))
    return 0
