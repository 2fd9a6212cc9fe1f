"""The scripts whose cost tools/resources compares with recorded figures: each is the same in each run."""
from __future__ import annotations

from typing import Callable, Dict, Iterator, List, NamedTuple, Tuple

from . import edit_loads, growth, loads, logs
from .networks import prefix, virtual_peer
from .programs import TOP

HUB = growth.HUB
NO_ADVERTISE = 4_294_967_042
# The file in which a team finds the script of its engineer.
ENGINEER = "anna.engineer"
Lines = List[str]


class Work(NamedTuple):
    """What the program is given: its words, the text, and whether threads share the work. The text is the standard
    input, or the file of the team's engineer."""
    words: Tuple[str, ...]
    text: Callable[[], str]
    is_shared: bool = False


def joined(lines: Lines) -> str:
    return "".join(line + "\n" for line in lines)


def script(lines: Callable[[], Lines], is_shared: bool = False) -> Work:
    return Work(("script",), lambda: joined(lines()), is_shared)


def of_file(name: str) -> Work:
    """A script of this repository, by its path from the top."""
    return Work(("script",), (TOP / name).read_text)


def peer(number: int) -> str:
    """The address of a virtual peer of the hub."""
    return "8.0.%d.1" % number


def fan_out() -> Lines:
    """Routes that a router passes on to 120 peers, which take them; then a policy turns twice."""
    passed = ["deliver %s %s" % (HUB, peer(number)) for number in range(120)] * 30
    return growth.star(120) + growth.heard(30) + passed + growth.turned(2, "deny")


def crowd() -> Lines:
    """Four prefixes that each of 100 peers advertises, better and worse ones in turn; then all are withdrawn."""
    lines = ["router %s 9" % HUB]
    for number in range(100):
        lines += virtual_peer(HUB, peer(number), 1_000 + number, 1)
        lines.append("rule %s %s out any deny" % (HUB, peer(number)))
    for number in (n * 37 % 100 for n in range(100)):
        path = ",".join(str(1_000 + number) for _ in range(1 + number % 7))
        lines += told(number, ["update %s %s igp - " % (prefix(n), path) for n in range(4)])
    for number in range(100):
        lines += told(number, ["withdraw " + prefix(n) for n in range(4)])
    return lines


def told(number: int, messages: Lines) -> Lines:
    """Messages of a peer, and their deliveries."""
    ends = "%s %s" % (peer(number), HUB)
    return ["feed %s %s" % (ends, message.rstrip()) for message in messages] + ["deliver " + ends] * len(messages)


def bursts() -> Lines:
    """80 messages wait at once in the queue of each of 60 peers in turn, and are delivered before the next peer's."""
    lines = growth.star(60)
    for number in range(60):
        path = "update %%s %d igp - comm=%d" % (1_000 + number, NO_ADVERTISE)
        lines += told(number, [path % prefix(n) for n in range(80)])
    return lines


def communities() -> Lines:
    """Rules that ask for communities and add some, over routes that carry eight."""
    return loads.lines("tagged", 150)


def questions() -> Lines:
    """Each question, asked often, of the router of `loads table`."""
    asked = ["routes 9.0.0.1", "quiet", "queue 1.0.0.1 9.0.0.1", "in 1.0.0.1 9.0.0.1", "out 9.0.0.1 1.0.0.1",
             "why 9.0.0.1 " + prefix(3), "trace 9.0.0.1 20.0.3.1", "cost 9.0.0.1 1.0.0.1"]
    return loads.lines("table", 40) + asked * 40


def trees() -> Lines:
    """A ring of 840 routers, in which a change of a metric moves so many trees that threads make them."""
    return list(edit_loads.ring(840)) + ["metric 5.0.0.0 5.0.0.1 1", "cost 5.0.0.0 5.0.1.0"]


def engineer() -> Lines:
    """The lines of `loads net` without deliveries, which a team's worker makes."""
    return [line for line in loads.lines("net", 60) if not line.startswith("deliver")]


def prefixes() -> Lines:
    """3,000 prefixes in one table: more than a map keeps in one chunk."""
    return edit_loads.lines("origins", 3_000)


def paths() -> Lines:
    """Routes of one peer, no two with the same path: so many sets of attributes are looked up and kept."""
    return growth.star(0) + [line for n in range(400) for line in (
        "feed %s %s update %s 7,%d igp -" % (growth.FEEDER, HUB, prefix(n), 1 + n),
        "deliver %s %s" % (growth.FEEDER, HUB))]


def edits_over_queues() -> Lines:
    """400 edits elsewhere, while a message waits in each of 250 directions and one session is down."""
    lines = growth.star(250) + growth.heard(1) + ["stop %s %s" % (HUB, peer(0))]
    lines += ["router 1.0.0.1 1", "router 1.0.0.2 1", "link 1.0.0.1 1.0.0.2 1"]
    return lines + 200 * ["fail 1.0.0.1 1.0.0.2", "mend 1.0.0.1 1.0.0.2"]


def mistakes() -> Iterator[str]:
    """Lines that spell no command, long ones, comments, and calls that are refused."""
    for number in range(300):
        yield "# " + "x" * (number * 13 % 4_000)
        yield "router 1.0.0.%d" % number
        yield "link 1.0.0.1 2.0.0.1 %d" % number
        yield "quiet" + " " * number


WORKS: Dict[str, Work] = {
    "tour": of_file("examples/tour.bgp"),
    "three-ases": of_file("cases/whole/three-ases.bgp"),
    "refusals": of_file("cases/refusals/refusals.bgp"),
    "med-oscillation": of_file("examples/lessons/med-oscillation.bgp"),
    "mistakes": script(lambda: list(mistakes())),
    "questions": script(questions),
    "table": script(lambda: loads.lines("table", 400)),
    "reflector": script(lambda: loads.lines("reflector", 10)),
    "ring": script(lambda: loads.lines("ring", 30)),
    "net": script(lambda: loads.lines("net", 30)),
    "communities": script(communities),
    "paths": script(paths),
    "mesh": script(lambda: edit_loads.lines("mesh", 256)),
    "origins": script(prefixes),
    "heard": script(lambda: edit_loads.lines("heard", 1_500)),
    "calm": script(lambda: edit_loads.lines("calm", 60)),
    "moved": script(lambda: edit_loads.lines("moved", 60)),
    "edits-over-queues": script(edits_over_queues),
    "rules": script(lambda: edit_loads.lines("rules", 120)),
    "rules-in-threads": script(lambda: edit_loads.lines("rules", 2_060)[:4_140], True),
    "trees-in-threads": script(trees, True),
    "fan-out": script(fan_out),
    "crowd": script(crowd),
    "bursts": script(bursts),
    "replay": Work(("replay",), lambda: logs.log_of(joined(loads.lines("net", 10)), 3)),
    "team": Work(("team", "--workers", "1", ENGINEER), lambda: joined(engineer()), True),
    "team-of-eight": Work(("team", "--workers", "8", ENGINEER), lambda: joined(growth.star(2)), True),
}
