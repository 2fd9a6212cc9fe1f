"""Random scripts for `bgpsim converge`: those of random_scripts.py, with the lines that only this answers.

Many networks never converge. So a line asks for few deliveries, or the test oracle converges by few at that line:
`bounded` leaves out all others, since the oracle is slow."""
from __future__ import annotations

import copy
import itertools
import re
from typing import Any, Callable, List, Optional, Tuple

import model

from . import random_scripts

# The most deliveries of one line, and the length of the longest line that asks for anything.
MOST, LONGEST = 60, 4096
# Seeds and numbers at the end of their range.
EDGES = ["0", "1", "4294967295"]
WORDS = random_scripts.WORDS + ["converge", "fair", "random", "echo", "waiting", "snapshot", "restore", "1"]
ODD = ["snapshot 1", "Snapshot", "restore", "restore 01", "restore -1", "restore 4294967296", "restore 1 1",
       "waiting 1", "converge random", "converge random echo", "converge random 4294967296", "converge random 07 5",
       "converge fair router 5", "converge 5 fair", "converge 4294967296", "converge echo 5", "converge 5 echo echo",
       "converge random 5 fair 5", "converge\tfair", "restore\t1", "waiting\t"]
ASKED = re.compile(r" *converge(?: +(fair|router|random +[0-9]+))?(?: +([0-9]+))?(?: +echo)? *")


class ConvergeScript(random_scripts.Script):
    """Such a script, and what it knew of the network at each snapshot that is kept."""
    words = WORDS

    def __init__(self, seed: int):
        super().__init__(seed)
        self.kept: List[Any] = []

    def kinds(self) -> List[Callable[[], str]]:
        more = [self.converge] * 7 + [self.snapshot] * 3 + [self.restore] * 4 + [self.waiting] * 2 + [self.odd] * 3
        return super().kinds() + more

    def edge_or(self, low: int, high: int) -> str:
        return self.some(EDGES) if self.chance(0.1) else str(self.random.randint(low, high))

    def converge(self) -> str:
        """Mostly behind changes by which messages wait, and often for fewer than these lead to."""
        self.add_all(self.some_change() for _ in range(self.random.choice([0, 2, 5, 9])))
        order = self.some(["", " fair", " router", " random", " random", " random"])
        if order == " random":
            order += " " + self.edge_or(0, 99)
        most = "" if self.chance(0.35) else " " + self.edge_or(1, self.some([3, 12, MOST]))
        return "converge" + order + most + self.some(["", " echo"])

    def some_change(self) -> str:
        return self.random.choice([self.change_origin, self.feed, self.feed, self.change_link, self.change_session])()

    def snapshot(self) -> str:
        known = self.nodes, self.links, self.sessions, self.origins, self.fed
        self.kept.append(copy.deepcopy(known))
        return "snapshot"

    def restore(self) -> str:
        """One that is kept, or now and then another number."""
        if self.chance(0.05):
            return "restore " + self.some([*EDGES[::2], "9"])
        if not self.kept and self.chance(0.8):
            return self.snapshot()
        number = self.random.randint(1, len(self.kept) + (1 if self.chance(0.15) or not self.kept else 0))
        if number <= len(self.kept):
            self.nodes, self.links, self.sessions, self.origins, self.fed = self.kept[number - 1]
            del self.kept[number - 1:]
        return "restore %d" % number

    def waiting(self) -> str:
        return "waiting"

    def odd(self) -> str:
        return self.some(ODD)


# Lines that end soon

def asked(line: str) -> Optional[Tuple[Any, int]]:
    """The order and the most deliveries that a line asks for; None if it asks for none, or spells no number."""
    found = ASKED.fullmatch(line)
    if found is None or len(line) > LONGEST:
        return None
    order, most = found.groups()
    try:
        seed = re.fullmatch("random +(.*)", order or "")
        by = model.at_random(model.number(seed[1])) if seed else model.ORDERS[order or "fair"]
        return by, 1000000 if most is None else model.number(most)
    except model.Bad:
        return None


def ends_soon(net: Any, line: str) -> bool:
    """Whether the oracle answers the line by few deliveries."""
    wanted = asked(line)
    if wanted is None or wanted[1] <= MOST:
        return True
    trial = model.Net()
    trial.__dict__.update(copy.deepcopy({**net.__dict__, "kept": []}))
    for a, b in itertools.islice(wanted[0](trial), MOST):
        model.answer(trial, "deliver %s %s" % (model.show(a), model.show(b)))
    return not model.waiting(trial)


def bounded(text: bytes) -> bytes:
    """A script without the lines that ask for more deliveries than the oracle makes soon."""
    net, kept = model.Net(), []
    for line in re.findall("[^\n]*\n|[^\n]+", text.decode("latin-1")):
        read = re.sub(r"\r?\n\Z", "", line)
        if ends_soon(net, read):
            model.answer_converge(net, read)
            kept.append(line)
    return "".join(kept).encode("latin-1")


def script(seed: int, count: int = 150) -> str:
    """The script of a seed: about so many lines, and then the questions."""
    lines = random_scripts.completed(ConvergeScript(seed), seed % 2 == 1, count)
    return bounded("".join(line + "\n" for line in lines).encode("latin-1")).decode("latin-1")
