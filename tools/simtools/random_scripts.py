"""Writes a random script of commands, most of them accepted, some refused or malformed, and every question at its
end.

    tools/random-scripts [--converge] SEED [LINES]        the same seed and number of lines (150) give the same script

With --converge it is a script for `bgpsim converge`, with the lines that only this answers. tools/agree compares the
program with tools/model.py over many scripts.
"""
from __future__ import annotations

import random
import sys
from collections import Counter
from typing import Callable, Collection, Dict, Iterable, List, Sequence, Set, Tuple, TypeVar

from . import commands
from .language import MOST_COMMUNITIES, WELL_KNOWN

PREFIXES = ["0.0.0.0/0", "10.0.0.0/8", "10.0.0.0/16", "10.1.0.0/16", "192.0.2.0/24", "192.0.2.1/32"]
TARGETS = ["10.0.0.1", "10.1.2.3", "10.200.0.1", "192.0.2.1", "192.0.2.7", "8.8.8.8"]
WORDS = ["router", "link", "join", "rule", "feed", "deliver", "quiet", "on", "in", "any", "permit", "deny", "pref=5",
         "-", "0", "7", "4294967296", "1.0.0.1", "1.0.0.256", "10.0.0.1/8", "10.0.0.0/33", "{3,2}", "prepend=17",
         "igp", "#", "x", "comm", "comm=", "comm=5", "comm=6,5", "add=", "add=5", "add=4294967296", "med", "as",
         "always"]
# Communities that mean nothing by themselves; the first few are chosen often, and so met again by rules.
COMMUNITIES = ["1", "2", "3", "65001", "4259840100", "0", "4294967040", "4294967044", "4294967295"]
One = TypeVar("One")
Ends = Tuple[str, ...]


class Script:
    """The lines so far, and what is known of the network that they make."""
    # What malformed lines are made of.
    words = WORDS

    def __init__(self, seed: int):
        self.random = random.Random(seed)
        self.lines: List[str] = []
        self.nodes: Dict[str, Tuple[int, bool]] = {}      # address: (AS, is virtual)
        self.links: Set[Ends] = set()
        self.sessions: Set[Ends] = set()
        self.origins: Set[Tuple[str, str]] = set()
        self.prefixes = self.random.sample(PREFIXES, self.random.choice([1, 1, 2, 3]))
        self.asns = self.random.sample(range(1, 7), self.random.randint(1, 3))
        self.count = self.random.randint(4, 9)      # of routers and peers, to begin with
        self.turns_med = self.chance(0.5)      # whether ties are made that MED breaks
        self.fed: Counter[Ends] = Counter()      # about how many messages of a virtual peer wait

    # choices

    def some(self, among: Collection[One]) -> One:
        return self.random.choice(sorted(among))

    def chance(self, share: float) -> bool:
        return self.random.random() < share

    def address(self) -> str:
        return "%d.0.0.%d" % (self.random.randint(1, 3), self.random.randint(1, 4))

    def node(self) -> str:
        return self.address() if not self.nodes or self.chance(0.03) else self.some(self.nodes)

    def router(self) -> str:
        routers = [a for a, (_, virtual) in self.nodes.items() if not virtual]
        return self.node() if not routers or self.chance(0.03) else self.some(routers)

    def prefix(self) -> str:
        return self.some(self.prefixes)

    def pair(self, known: Collection[Ends]) -> List[str]:
        if not known or self.chance(0.05):
            return [self.node(), self.node()]
        return self.random.sample(self.some(known), 2)

    def is_internal(self, one: str, other: str) -> bool:
        return one in self.nodes and other in self.nodes and self.nodes[one][0] == self.nodes[other][0]

    def is_apt(self, one: str, other: str) -> bool:
        """Whether the two can be linked."""
        virtual = [a in self.nodes and self.nodes[a][1] for a in (one, other)]
        return one != other and not all(virtual) and not (any(virtual) and self.is_internal(one, other))

    def new_pair(self, known: Collection[Ends]) -> List[str]:
        """Two that are not among the known ones, and can be linked, as far as a few tries find such."""
        for _ in range(20):
            ends = [self.router(), self.node()]
            if self.is_apt(*ends) and tuple(sorted(ends)) not in known:
                break
        self.random.shuffle(ends)
        return ends

    # values

    def number(self, low: int, high: int) -> str:
        near = self.random.randint(low, min(high, low + 20))
        return str(self.random.choice([low, high, near, self.random.randint(low, high)]))

    def metric(self) -> str:
        return str(self.random.randint(1, 4)) if self.chance(0.9) else self.number(1, 65535)

    def med(self) -> str:
        return self.random.choice(["-", "0", "1", "2", "3"]) if self.chance(0.9) else self.number(0, 2 ** 32 - 1)

    def path(self, first: str) -> str:
        more = self.random.choice([0, 0, 0, 0, 0, 1, 2])
        segments = [",".join([first] + [self.number(1, 9) for _ in range(more)])]
        if self.chance(0.15):
            members = sorted(self.random.sample(range(1, 12), self.random.randint(1, 3)))
            segments.append("{%s}" % ",".join(map(str, members)))
        if self.chance(0.1):
            segments.append(self.number(1, 9))
        if self.chance(0.03):
            long = ",".join([first] * self.random.randint(250, 260))
            segments = self.some([["-"], ["{1,2}"], segments[1:] or ["-"], [long]])
        return "_".join(segments)

    def community(self) -> str:
        if self.chance(0.25):
            return self.some(WELL_KNOWN)
        return self.some(COMMUNITIES[:3] if self.chance(0.8) else COMMUNITIES)

    def communities(self) -> str:
        """The last word of a feed, where it has one; now and then one that spells nothing, or many numbers."""
        if self.chance(0.4):
            return ""
        chosen = {self.community() for _ in range(self.random.choice([1, 1, 1, 2, 2, 3, 5]))}
        numbers = sorted(chosen, key=int)
        if self.chance(0.06):
            many = [str(n) for n in range(MOST_COMMUNITIES + self.random.randint(-1, 2))]
            numbers = self.some([numbers[::-1], numbers + numbers[-1:], many, many, [], ["4294967296"], ["07"]])
        return " comm=" + ",".join(numbers)

    def match(self) -> str:
        kind = self.some(["any", "is", "under", "path", "first", "comm", "comm"])
        if kind in ("is", "under"):
            return kind + " " + self.some(PREFIXES)
        if kind == "comm":
            return kind + " " + self.community()
        return kind if kind == "any" else kind + " " + self.number(1, 9)

    def action(self, internal: bool, way: str) -> str:
        if self.chance(0.3):
            return "deny"
        words = ["permit"]
        wild = self.chance(0.1)
        if (wild or not internal and way == "in") and self.chance(0.6):
            words.append("pref=" + self.some(["90", "100", "110"]))
        if (wild or not internal) and self.chance(0.5):
            words.append("med=" + self.number(0, 3))
        if (wild or not internal and way == "out") and self.chance(0.5):
            words.append("prepend=" + self.number(1, 16))
        if (wild or not internal) and self.chance(0.5):
            words.append("add=" + self.community())
        return " ".join(words)

    # commands

    def add_node(self) -> str:
        address, virtual = self.address(), len(self.nodes) > 1 and self.chance(0.45)
        for _ in range(10):
            if address not in self.nodes or self.chance(0.02):
                break
            address = self.address()
        asn = self.random.randint(6, 8) if virtual else self.random.choice(self.asns[:1] * 4 + self.asns)
        self.nodes.setdefault(address, (asn, virtual))
        return "%s %s %d" % ("virtual" if virtual else "router", address, asn)

    def add_link(self) -> str:
        one, other = self.new_pair(self.links)
        if self.is_apt(one, other):
            self.links.add(tuple(sorted((one, other))))
        return "link %s %s %s" % (one, other, self.metric())

    def add_session(self) -> str:
        one, other = self.new_pair(self.sessions)
        if not self.is_internal(one, other) and self.links - self.sessions and self.chance(0.95):
            one, other = self.some(self.links - self.sessions)
        ends = tuple(sorted((one, other)))
        if self.is_apt(one, other) and (self.is_internal(one, other) or ends in self.links):
            self.sessions.add(ends)
        return "join %s %s" % (one, other)

    def change_link(self) -> str:
        one, other = self.pair(self.links)
        metric = "metric %s %s %s" % (one, other, self.metric())
        return self.some(["fail %s %s" % (one, other), "mend %s %s" % (one, other), metric])

    def change_session(self) -> str:
        return "%s %s %s" % ((self.some(["stop", "start", "start"]),) + tuple(self.pair(self.sessions)))

    def mark(self) -> str:
        internal = {s for s in self.sessions if self.is_internal(*s)}
        one, other = self.pair(internal)
        return "%s %s %s %s" % (self.some(["client", "client", "self"]), one, other, self.some(["on", "on", "off"]))

    def set_cluster(self) -> str:
        return "cluster %s %s" % (self.router(), self.address())

    def set_med(self) -> str:
        return "med %s %s" % (self.router(), self.some(["always", "always", "as"]))

    def add_rule(self) -> str:
        external = {ends for ends in self.sessions if not self.is_internal(*ends)}
        one, other = self.pair(external if self.chance(0.7) else self.sessions)
        if self.nodes.get(one, (5, False))[1] and self.chance(0.8):
            one, other = other, one
        way = self.some(["in", "out"])
        return "rule %s %s %s %s %s" % (one, other, way, self.match(), self.action(self.is_internal(one, other), way))

    def clear_rules(self) -> str:
        one, other = self.pair(self.sessions)
        return "clear %s %s %s" % (one, other, self.some(["in", "out"]))

    def change_origin(self) -> str:
        if self.origins and self.chance(0.3):
            return "noorigin %s %s" % self.some(self.origins)
        router, prefix = self.router(), self.prefix()
        self.origins.add((router, prefix))
        return "origin %s %s" % (router, prefix)

    def feed(self) -> str:
        external = {s for s in self.sessions if any(a in self.nodes and self.nodes[a][1] for a in s)}
        one, other = self.pair(external)
        if one not in self.nodes or not self.nodes[one][1]:
            one, other = other, one
        first = str(self.nodes.get(one, (5, True))[0]) if self.chance(0.97) else self.number(1, 9)
        if self.chance(0.2):
            return "feed %s %s withdraw %s" % (one, other, self.prefix())
        route = (self.prefix(), self.path(first), self.some(["igp", "igp", "igp", "egp", "inc"]), self.med())
        return "feed %s %s update %s %s %s %s" % (one, other, *route) + self.communities()

    def deliver(self) -> str:
        return "deliver %s %s" % tuple(self.pair(self.sessions))

    def question(self) -> str:
        kind = self.some(["routes", "best", "why", "in", "out", "queue", "quiet", "cost", "trace"])
        if kind == "quiet":
            return kind
        if kind == "routes":
            return "routes " + self.router()
        if kind in ("best", "why"):
            return "%s %s %s" % (kind, self.router(), self.prefix())
        if kind in ("in", "out", "queue"):
            return "%s %s %s" % ((kind,) + tuple(self.pair(self.sessions)))
        return "%s %s %s" % (kind, self.router(), self.node() if kind == "cost" else self.some(TARGETS))

    def malformed(self) -> str:
        words = (self.some(self.lines) if self.lines else "quiet").split() or ["quiet"]
        at = self.random.randrange(len(words))
        how = self.random.randrange(6)
        if how == 0:
            del words[at]
        elif how == 1:
            words.insert(at, self.some(self.words))
        elif how == 2:
            words[at] = self.some(self.words)
        elif how == 3:
            words[at] = words[at] + self.some(["\t", "0", ".", "/", "\x7f", "é", "x", ","])
        elif how == 4:
            words[at] = words[at][:-1]
        else:
            words[at] = "0" + words[at]
        return " ".join(words)

    # scripts

    def add(self, line: str) -> None:
        words = line.split(" ")
        if words[0] in ("feed", "deliver"):
            ways = tuple(words[1:3])
            self.fed[ways] = max(self.fed[ways] + (1 if words[0] == "feed" else -1), 0)
        if self.chance(0.02):
            line = "  " + line.replace(" ", "   ") + " "
        if self.chance(0.02):
            line += "\r"
        self.lines.append(line)

    def add_all(self, lines: Iterable[str]) -> None:
        for line in lines:
            self.add(line)

    def burst(self) -> None:
        """Deliveries in every direction, some times."""
        ways = sorted(self.sessions) + [(b, a) for a, b in sorted(self.sessions)]
        ways = ways * self.random.randint(1, 3)
        self.random.shuffle(ways)
        for one, other in ways:
            if one in self.nodes and other in self.nodes:
                self.add("deliver %s %s" % (one, other))

    def feeding(self) -> List[Ends]:
        """The sessions of virtual peers, each with the peer first; often those alone of a router that has the most."""
        there = [ends for ends in sorted(self.sessions) if set(ends) <= self.nodes.keys()]
        found = [ends for one, other in there for ends in ((one, other), (other, one)) if self.nodes[ends[0]][1]]
        count = Counter(router for _, router in found)
        most = self.some([one for one in count if count[one] == max(count.values())]) if found else ""
        return [ends for ends in found if ends[1] == most] if self.chance(0.6) else found

    def tie(self, prefix: str, feeding: List[Ends]) -> None:
        """Some of these peers tell routes to the prefix that MED alone parts, as a rule may set it; the others take
        theirs back. All that they advertised is delivered."""
        telling = max(self.random.randint(0, len(feeding)) for _ in range(2))
        for number, ways in enumerate(self.random.sample(feeding, len(feeding))):
            if self.chance(0.8):
                self.add("clear %s %s in" % ways[::-1])
            if self.chance(0.2):
                self.add("rule %s %s in any permit med=%s" % (*ways[::-1], self.number(0, 3)))
            told = "update %s %d igp %s" % (prefix, self.nodes[ways[0]][0], self.some("-0123"))
            self.add("feed %s %s %s" % (*ways, told if number < telling else "withdraw " + prefix))
        self.add_all("deliver %s %s" % ways for ways in feeding for _ in range(self.fed[ways]))
        if len({router for _, router in feeding}) > 1:
            self.burst()

    def turn_med(self) -> None:
        """MED decides, and then is compared otherwise at a router, and once more, with questions after each."""
        foreign = [prefix for prefix in self.prefixes if all(prefix != own for _, own in self.origins)]
        prefix, feeding = self.some(foreign or self.prefixes), self.feeding()
        self.tie(prefix, feeding)
        router = self.some(feeding)[1] if feeding and self.chance(0.8) else self.router()
        for setting in self.random.sample(["as", "always"], 2):
            self.add_all(["med %s %s" % (router, setting), "why %s %s" % (router, prefix)])
            self.add(self.question())

    def build(self) -> None:
        """Anything, a part of it linked and joined."""
        self.add_all(self.add_node() for _ in range(self.count))
        self.add_all(self.add_link() for _ in range(self.random.randint(self.count - 1, 2 * self.count)))
        self.add_all(self.add_session() for _ in range(self.random.randint(self.count - 1, 2 * self.count)))

    def build_one_as(self) -> None:
        """Routers of one AS in a row, some of them reflectors, and peers of few other ASes at any of them."""
        places = ["%d.0.0.%d" % (a, b) for a in (1, 2, 3) for b in (1, 2, 3, 4)]
        self.random.shuffle(places)
        asn, routers, peers = self.asns[0], places[:self.random.randint(2, 5)], places[5:5 + self.random.randint(2, 4)]
        for address in routers + peers:
            self.nodes[address] = (self.random.randint(6, 7) if address in peers else asn, address in peers)
            self.add("%s %s %d" % ("virtual" if address in peers else "router", address, self.nodes[address][0]))
        row = list(zip(routers, routers[1:])) + [(self.random.choice(routers), peer) for peer in peers]
        inside = [(a, b) for i, a in enumerate(routers) for b in routers[i + 1:] if self.chance(0.8)]
        self.links |= {tuple(sorted(ends)) for ends in row}
        self.add_all("link %s %s %s" % (*ends, self.metric()) for ends in row)
        self.sessions |= {tuple(sorted(ends)) for ends in inside + row[len(routers) - 1:]}
        self.add_all("join %s %s" % ends for ends in inside + row[len(routers) - 1:])
        self.add_all("client %s %s on" % tuple(self.random.sample(ends, 2)) for ends in inside if self.chance(0.5))

    def kinds(self) -> List[Callable[[], str]]:
        """What makes a line; of those that stand there several times more are made."""
        kinds = [self.deliver] * 5 + [self.feed] * 9 + [self.question] * 5 + [self.change_link] * 4
        kinds += [self.change_origin] * 3 + [self.mark] * 4 + [self.add_rule] * 5 + [self.change_session] * 2
        kinds += [self.malformed] * 2 + [self.set_med] * 2 + [self.clear_rules, self.set_cluster]
        return kinds + [self.add_node, self.add_link, self.add_session]

    def go_on(self, count: int) -> None:
        kinds = self.kinds()
        while len(self.lines) < count:
            if self.sessions and self.chance(0.07):
                self.burst()
            elif self.sessions and self.turns_med and self.chance(0.06):
                self.turn_med()
            else:
                self.add(self.random.choice(kinds)())
            if self.chance(0.01):
                self.add(self.some(["", "# a comment", "   ", "# é", "x" * 5000]))

    def ask_everything(self) -> None:
        for router in sorted(a for a, (_, virtual) in self.nodes.items() if not virtual):
            self.add("routes " + router)
            self.add_all("why %s %s" % (router, prefix) for prefix in self.prefixes)
            self.add("trace %s %s" % (router, self.some(TARGETS)))
            self.add("cost %s %s" % (router, self.some(self.nodes)))
        ways = [ends for one, other in sorted(self.sessions) for ends in ((one, other), (other, one))]
        self.add_all("%s %s %s" % (kind, *ends) for ends in ways for kind in ("in", "out", "queue"))
        self.add("quiet")


def completed(made: Script, is_one_as: bool, count: int) -> List[str]:
    """The lines of a script that has none yet: so many, and then the questions."""
    build = made.build_one_as if is_one_as else made.build
    build()
    made.go_on(count)
    made.ask_everything()
    return made.lines


def script(seed: int, count: int = 150) -> str:
    """The script of a seed: so many lines, and then the questions."""
    return "".join(line + "\n" for line in completed(Script(seed), seed % 2 == 1, count))


def main(words: Sequence[str]) -> int:
    """The command."""
    asked = commands.parser(__doc__)
    asked.add_argument("--converge", action="store_true")
    asked.add_argument("seed", type=int, metavar="SEED")
    asked.add_argument("lines", type=commands.number, nargs="?", default=150, metavar="LINES")
    given = asked.parse_args(words)
    from . import converge_scripts      # it reads this module
    make = converge_scripts.script if given.converge else script
    sys.stdout.buffer.write(make(given.seed, given.lines).encode("latin-1"))
    return 0
