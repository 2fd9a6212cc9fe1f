"""Stress tests: engineers who change one network at once, against few workers or many."""
from __future__ import annotations

import random
import tempfile
from typing import Iterator, List, NamedTuple, Optional

import model

from . import commands, converging_networks, logs, programs, team_logs
from .running import run, side_by_side

WORKERS = (1, 2, 8, 64)
METRICS, STOPS, RULES, FEEDS = 200, 25, 25, 25
# Each worker's turns are a part of so many, at least some hundreds: not every network converges.
TURNS, FEWEST = 6_000, 300
# Lines that spell no command.
MISTAKES = ("router", "routes 1.0.0.300", "quiet now", "\tquiet", "metric 1.0.0.1 2.0.0.1 0", "link", "deliver 1.0.0.1",
            "feed 20.0.0.1 1.0.0.1 update 10.0.0.0/8 20 igp - comm=6,5", "QUIET", "quiet\r\r", "\xff")


class StressTest(NamedTuple):
    """What the engineers call, and with how many workers."""
    texts: List[str]
    workers: int

    def turns(self) -> int:
        return max(FEWEST, TURNS // self.workers)


def refused_lines(made: converging_networks.Script) -> List[str]:
    """Commands that the machine refuses, whenever they come once the network stands."""
    one, other = made.externals[0]
    peer, router, asn = made.peers[0]
    return ["router %s 1" % one, "link %s %s 1" % (one, one), "link %s %s 1" % (one, other),
            "join %s %s" % (one, other), "client %s %s on" % (one, other), "metric %s 250.0.0.1 7" % one,
            "noorigin %s 250.0.0.0/8" % one,
            "routes " + peer, "feed %s %s update 10.1.0.0/16 %d igp -" % (peer, router, asn + 1),
            "feed %s %s update 10.1.0.0/16 %s igp -" % (peer, router, ",".join(256 * [str(asn)])),
            "rule %s %s in any permit prepend=1" % (router, peer), "origin %s 10.1.0.0/16" % peer,
            "med %s always" % peer, "deliver %s 250.0.0.1" % one]


def metrics(made: converging_networks.Script) -> Iterator[str]:
    """One link gets one metric after the other."""
    link = made.some(sorted(tuple(sorted(ends)) for ends in made.net.links))
    return ("metric %s %s %d" % (*map(model.show, link), n) for n in range(1, METRICS + 1))


def stops(made: converging_networks.Script) -> Iterator[str]:
    """One session is stopped and started."""
    session = made.some(sorted(tuple(sorted(ends)) for ends in made.net.sessions))
    return ("%s %s %s" % (word, *map(model.show, session)) for _ in range(STOPS) for word in ("stop", "start"))


def rules(made: converging_networks.Script) -> Iterator[str]:
    """One router's rules towards a neighbour are added and cleared."""
    router, peer = made.some(made.externals)
    return (made.some([made.policy(router, peer), "clear %s %s %s" % (router, peer, made.some(["in", "out"]))])
            for _ in range(2 * RULES))


def feeds(made: converging_networks.Script) -> Iterator[str]:
    """Virtual peers advertise routes, and withdraw some."""
    for _ in range(FEEDS):
        peer, router, asn = made.some(made.peers)
        kept = len(made.lines)
        made.feed(peer, router, asn)
        yield from made.lines[kept:]
        yield "feed %s %s withdraw %s" % (peer, router, made.some(converging_networks.PREFIXES))


def test_of(seed: int) -> StressTest:
    """The stress test of a seed. Each engineer calls all that makes the network first, so that what follows finds it;
    the first of these calls make it, and the others are refused where it stands already. Then comes an engineer's own
    work, with lines between that are refused or spell nothing."""
    made = converging_networks.Script(seed)
    made.prefers = False
    made.build()
    network = [line for line in made.lines if line.split()[0] not in ("feed", "rule", "origin")]
    told = [line for line in made.lines if line not in network]
    works = [metrics(made), stops(made), rules(made), feeds(made)]
    wrong = refused_lines(made) + list(MISTAKES)
    texts = []
    for number, work in enumerate(works[:made.random.choice([3, 4, 4])]):
        lines = network + (told if number == 0 else []) + [
            one for line in work for one in ([line] if made.chance(0.9) else [line, made.some(wrong)])]
        texts.append("".join(line + "\n" for line in lines))
    return StressTest(texts, WORKERS[seed % len(WORKERS)])


# What came of one

def questions(net: model.Net) -> List[str]:
    """All that is asked of the network at its end."""
    show, nodes = model.show, sorted(net.nodes)
    routers = [node for node in nodes if not net.nodes[node][1]]
    ways = sorted(way for one, other in map(sorted, net.sessions) for way in ((one, other), (other, one)))
    asked = ["routes " + show(router) for router in routers]
    asked += ["why %s %s" % (show(router), prefix) for router in routers for prefix in converging_networks.PREFIXES]
    asked += ["%s %s %s" % (kind, show(one), show(other)) for one, other in ways for kind in ("in", "out", "queue")]
    return asked + ["quiet"]


def other_end(log: str, net: model.Net) -> Optional[str]:
    """What differs between the end of the log as `bgpsim script` makes it of the calls and as the model does."""
    calls = [call[2] for call in filter(None, map(team_logs.CALL.fullmatch, log.split("\n")))]
    asked = questions(net)
    script = "".join(line + "\n" for line in calls + asked).encode("latin-1")
    answered = run([programs.bgpsim(), "script"], script).out.decode("latin-1").split("\n")[:-1]
    wanted = [reply for question in asked for reply in model.answer(net, question)]
    is_so = answered[-len(wanted):] == wanted
    return None if is_so else "what can be asked at its end is answered otherwise by the model"


def lost(test: StressTest, log: str, net: model.Net) -> Optional[str]:
    """Whether messages are left, though each worker had turns for them."""
    left = sum(map(len, net.queues.values()))
    made = [len(calls) for seat, calls in team_logs.calls_by_seat(log).items() if seat >= len(test.texts)]
    return "%d messages are left" % left if left and max(made, default=0) < test.turns() // 2 else None


def of_seed(seed: int) -> Optional[str]:
    """What is wrong with the stress test of the seed, if anything is."""
    test, reading = test_of(seed), logs.Reading()
    with tempfile.TemporaryDirectory() as folder:
        files = team_logs.written(folder, test.texts)
        ran = team_logs.team(files, test.workers, test.turns())
    log = ran.out.decode("latin-1")
    return (team_logs.wrong(test.texts, test.workers, ran, reading=reading) or lost(test, log, reading.net)
            or other_end(log, reading.net))


def part(seeds: range) -> int:
    """Runs the stress tests of the seeds. Missing where the program is not there."""
    programs.bgpsim()
    failed = 0
    for seed, found in zip(seeds, side_by_side(of_seed, seeds)):
        if found:
            failed += 1
            print("FAILED stress test of seed %d: %s" % (seed, found), flush=True)
    return commands.counted(len(seeds) - failed, failed)
