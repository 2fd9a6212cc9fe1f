"""Runs teams of four engineers with 1, 2 and 4 workers, and prints what each took beside one script that does the
same by itself.

    bench/teams KIND N [KIND N ..]

reflect N     a reflector with N clients, each with 20 prefixes of its own; a quarter of the clients is each engineer's
policies N    eight routers with 100 virtual peers each, whose policies have 100 rules each way, and let nothing out; N
              routes are fed to each router
mesh N        N routers of one AS with 4N links, made by one engineer, and a session of two of them
mesh-heard N  the same, and 20,000 routes are fed to one of the two, who passes them on to the other

PROGRAM= is another program than crates/bgpsim/out/bgpsim. Each is run three times; the least processor time, and
the least time of a clock, are printed, and how many calls the log of the last team holds. That log is replayed, and
has to agree; and its own calls are run as a script, since the order in which a team comes to make them can be much
more work than that of its files one after another.
"""
from __future__ import annotations

import os
import tempfile
from typing import Callable, Dict, List, Sequence, Tuple

from . import commands, networks, programs
from .measuring import Took, took
from .networks import prefix, virtual_peer

ENGINEERS = 4
WORKERS = (1, 2, 4)
# The engineers' lines, and those of a script that does the same, with the deliveries that empty all queues.
Load = Tuple[List[List[str]], List[str]]


def reflect(clients: int) -> Load:
    names = [networks.router(n) for n in range(1, clients + 1)]
    # one of them makes the reflector, whoever comes first
    files = [["router 5.9.0.1 5"] for _ in range(ENGINEERS)]
    for k, name in enumerate(names):
        files[k % ENGINEERS] += ["router %s 5" % name, "link 5.9.0.1 %s 1" % name, "join 5.9.0.1 %s" % name,
                                 "client 5.9.0.1 %s on" % name]
    for k, name in enumerate(names):
        files[k % ENGINEERS] += ["origin %s %s" % (name, prefix(20 * k + n)) for n in range(20)]
    up = ["deliver %s 5.9.0.1" % name for name in names for _ in range(20)]
    down = ["deliver 5.9.0.1 %s" % name for name in names for _ in range(20 * (clients - 1))]
    return files, sum(files, []) + up + down


def long_policies(router: str, asn: int, peers: List[str]) -> List[str]:
    """A router with virtual peers, and policies of 100 rules each way."""
    lines = ["router %s %d" % (router, asn)]
    for number, peer in enumerate(peers, 1):
        lines += virtual_peer(router, peer, number, 1)
        lines += ["rule %s %s %s is 99.0.%d.0/24 deny" % (router, peer, way, n)
                  for way in ("in", "out") for n in range(99)]
        lines += ["rule %s %s in any permit pref=150" % (router, peer), "rule %s %s out any deny" % (router, peer)]
    return lines


def policies(routes: int) -> Load:
    files: List[List[str]] = [[] for _ in range(ENGINEERS)]
    script: List[str] = []
    for r in range(8):
        router, peers = "9.0.0.%d" % (r + 1), ["1.%d.0.%d" % (r, n) for n in range(1, 101)]
        made = long_policies(router, 900 + r, peers)
        told = [("feed %s %s update %s %d igp -" % (peers[n % 100], router, prefix(n), 1 + n % 100),
                 "deliver %s %s" % (peers[n % 100], router)) for n in range(routes)]
        files[r % ENGINEERS] += made + [feed for feed, _ in told]
        script += made + [line for both in told for line in both]
    return files, script


def mesh(routers: int, routes: int = 0) -> Load:
    """A large IGP, and a session of two of its routers."""
    one, other = networks.router(0), networks.router(1)
    made = [*networks.mesh(routers), "join %s %s" % (one, other), *virtual_peer(one, "7.0.0.1", 7, 1)]
    feeds = ["feed 7.0.0.1 %s update %s 7 igp -" % (one, prefix(n)) for n in range(routes)]
    told = [line for feed in feeds for line in (feed, "deliver 7.0.0.1 %s" % one, "deliver %s %s" % (one, other))]
    return [made + feeds] + [[] for _ in range(ENGINEERS - 1)], made + told


def mesh_heard(routers: int) -> Load:
    return mesh(routers, 20000)


LOADS: Dict[str, Callable[[int], Load]] = {
    "reflect": reflect, "policies": policies, "mesh": mesh, "mesh-heard": mesh_heard}


def least(words: List[str], lines: Sequence[str] = ()) -> Took:
    """The last of three runs, with the least times of them."""
    runs = [took(words, lines) for _ in range(3)]
    return runs[-1]._replace(processor=min(ran.processor for ran in runs), clock=min(ran.clock for ran in runs))


def written(folder: str, files: List[List[str]]) -> List[str]:
    """The names of files with these lines."""
    names = [os.path.join(folder, "%d.engineer" % number) for number in range(len(files))]
    for name, lines in zip(names, files):
        with open(name, "w") as file:
            file.writelines(line + "\n" for line in lines)
    return names


def measure_team(program: str, names: List[str], workers: int, alone: Took) -> None:
    """Prints what a team took, beside the script that does the same."""
    team = least([program, "team", "--workers", str(workers), "--turns", "1000000", *names])
    lines = team.out.decode().splitlines()
    found = took([program, "replay"], lines).out.decode().strip()
    ordered = least([program, "script"], [line.split(" ", 1)[1] for line in lines if line.startswith("@")])
    print("    %d workers: %.2f s of a processor (%.2f), %.2f s by the clock; replay: %s; "
          "the calls of this log as a script: %.2f s (%.2f)" % (
              workers, team.processor, team.processor / alone.processor, team.clock, found,
              ordered.processor, team.processor / ordered.processor))


def measure(program: str, kind: str, count: int) -> None:
    """Prints what the teams of a load took."""
    files, script = LOADS[kind](count)
    alone = least([program, "script"], script)
    print("%s %d: script %.2f s of a processor, %.2f s by the clock" % (kind, count, alone.processor, alone.clock))
    with tempfile.TemporaryDirectory() as folder:
        names = written(folder, files)
        for workers in WORKERS:
            measure_team(program, names, workers, alone)


def main(words: Sequence[str]) -> int:
    """The command."""
    asked = commands.parser(__doc__)
    asked.add_argument("loads", nargs="+", metavar="KIND N")
    pairs = commands.pairs(asked, asked.parse_args(words).loads, LOADS)
    program = programs.bgpsim()
    for kind, count in pairs:
        measure(program, kind, count)
    return 0
