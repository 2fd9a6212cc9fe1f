"""Orders in which the program delivers the messages that wait, by name: fair, router by router, random."""
from __future__ import annotations

import argparse
import functools
from typing import Iterable, List, Optional

from ..network.configuration import Direction
from ..program.language import by_address, number
from ..program.mistakes import Mistake

NAMES = ("fair", "router", "random")
# Addresses are compared again and again.
_place = functools.lru_cache(maxsize=65536)(by_address)


def in_order(ways: Iterable[Direction]) -> List[Direction]:
    """Directions by the addresses of sender and receiver."""
    return sorted(ways, key=lambda way: (_place(way[0]), _place(way[1])))


class Order:
    """Rounds, in each of which every direction with a message gives one when its turn comes, by sender, then receiver.

    `name` is the program's word for an order."""
    name, words, is_random = "fair", "in the fair order", False

    @property
    def asked(self) -> str:
        """The program's words for it, behind `converge`."""
        return self.name


class RouterByRouter(Order):
    """A router takes all that waits for it, by sender; then the next one does."""
    name, words = "router", "router by router"


class RandomOrder(Order):
    """Each direction in which a message waits is as likely as any other to give the next one: by the program's own
    generator of this seed, the same for the same seed. It begins anew where deliveries begin."""
    name, is_random = "random", True

    def __init__(self, seed: int) -> None:
        self.seed, self.words = seed, "in the random order %d" % seed

    @property
    def asked(self) -> str:
        return "random %d" % self.seed


def add_order(parser: argparse.ArgumentParser, has_word: bool = True) -> None:
    """The words of the command line that say in which order messages are delivered; `--router` by itself, where that
    word (`has_word`) says nothing else."""
    parser.add_argument("--order", choices=NAMES, help="fair: each queue that has a message gives one a round (without any of these words); "
                        "router: one router takes all that waits for it, then the next; random: any queue that has a message, as likely as any other")
    parser.set_defaults(by_router=False)
    if has_word:
        parser.add_argument("--router", dest="by_router", action="store_true", help="the same as --order router")
    parser.add_argument("--seed", metavar="N", help="the random order of this seed; the same seed gives the same (1)")


def named(name: str, seed: Optional[int] = None) -> Order:
    """The order of a name; the random one of this seed, or of 1."""
    return RandomOrder(1 if seed is None else seed) if name == "random" else RouterByRouter() if name == "router" else Order()


def order_of(chosen: argparse.Namespace) -> Order:
    """The order that was asked for."""
    seed = None if chosen.seed is None else number(chosen.seed)
    if chosen.seed is not None and seed is None:
        raise Mistake("--seed %s: a number is expected, 0 to 4294967295" % chosen.seed)
    names = {name for name, is_asked in ((chosen.order, chosen.order), ("router", chosen.by_router), ("random", chosen.seed is not None)) if is_asked}
    if len(names) > 1:
        raise Mistake("one order is expected, and not %s" % " and ".join(sorted(names)))
    return named(names.pop() if names else "fair", seed)
