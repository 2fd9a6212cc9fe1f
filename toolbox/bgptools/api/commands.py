"""The commands of the language as calls of Python: each of docs/reference/language.md once."""
from __future__ import annotations

import operator
from ipaddress import IPv4Address, IPv4Network
from typing import Iterable, List, Optional, SupportsIndex, Union

from ..network.refusals import refused
from ..program import replies
from ..program.mistakes import Mistake
from ..program.replies import Trace
from . import values
from .held_run import HeldRun
from .tables import Table
from .values import Cost, Delivery, Message, Reason, Route

Word = Union[str, SupportsIndex]
Address = Union[str, IPv4Address]
Prefix = Union[str, IPv4Network]
AnyWord = Union[Word, Address, Prefix]
Path = Union[str, int, Iterable[int]]
# The calls that have other names than their commands: names that Python has for itself.
OTHERWISE = {"self": "next_hop_self", "in": "received", "out": "advertised"}


class Commands(HeldRun):
    """The commands. Where one wants an address, a name stands for it too; whether a word is right the program says.
    Addresses and prefixes may be objects of `ipaddress`.

    What is refused raises Refusal, and changes nothing."""

    # What makes a network

    def router(self, address: Address, asn: Word) -> None:
        """A new router at the address, in the AS."""
        self._ask("router", address, asn)

    def virtual(self, address: Address, asn: Word) -> None:
        """A new virtual peer: a neighbour that is fed by hand."""
        self._ask("virtual", address, asn)

    def link(self, one: Address, other: Address, metric: Word) -> None:
        """A new link of this cost, up."""
        self._ask("link", self._at(one), self._at(other), metric)

    def join(self, one: Address, other: Address) -> None:
        """A new session, enabled."""
        self._ask("join", self._at(one), self._at(other))

    def client(self, router: Address, peer: Address, on: Union[bool, str] = True) -> None:
        """The peer is a client of the router, which reflects; or no more."""
        self._ask("client", self._at(router), self._at(peer), _switch(on))

    def next_hop_self(self, router: Address, peer: Address, on: Union[bool, str] = True) -> None:
        """The router puts itself as next hop towards the peer; or no more. In the language it is `self`."""
        self._ask("self", self._at(router), self._at(peer), _switch(on))

    def cluster(self, router: Address, cluster: Address) -> None:
        """The CLUSTER_ID of the router, an address."""
        self._ask("cluster", self._at(router), self._at(cluster))

    def med(self, router: Address, compared: str) -> None:
        """The router compares MED within one neighbouring `as`, or `always`."""
        self._ask("med", self._at(router), compared)

    def rule(self, router: Address, peer: Address, way: str, match: str, action: str, *, pref: Optional[Word] = None,
             med: Optional[Word] = None, prepend: Optional[Word] = None, add: Optional[Word] = None) -> None:
        """A rule at the end of the router's policy `in` from the peer, or `out` to it.

        The match is of one word or two, `any` or `under 10.0.0.0/8`; the action is `deny`, or `permit` with settings.
        """
        settings = (("pref", pref), ("med", med), ("prepend", prepend), ("add", add))
        said = ["%s=%s" % (name, _word(value)) for name, value in settings if value is not None]
        self._ask("rule", self._at(router), self._at(peer), way, *match.split(" "), *action.split(" "), *said)

    def origin(self, router: Address, prefix: Prefix) -> None:
        """The router originates the prefix."""
        self._ask("origin", self._at(router), prefix)

    # What changes it

    def metric(self, one: Address, other: Address, metric: Word) -> None:
        """Another cost of a link."""
        self._ask("metric", self._at(one), self._at(other), metric)

    def fail(self, one: Address, other: Address) -> None:
        """A link goes down."""
        self._ask("fail", self._at(one), self._at(other))

    def mend(self, one: Address, other: Address) -> None:
        """A link comes up."""
        self._ask("mend", self._at(one), self._at(other))

    def stop(self, one: Address, other: Address) -> None:
        """A session is disabled."""
        self._ask("stop", self._at(one), self._at(other))

    def start(self, one: Address, other: Address) -> None:
        """A session is enabled."""
        self._ask("start", self._at(one), self._at(other))

    def clear(self, router: Address, peer: Address, way: str) -> None:
        """The router's policy `in` from the peer, or `out` to it, is emptied."""
        self._ask("clear", self._at(router), self._at(peer), way)

    def noorigin(self, router: Address, prefix: Prefix) -> None:
        """The router stops originating the prefix."""
        self._ask("noorigin", self._at(router), prefix)

    # What tells and delivers

    def feed(self, virtual: Address, router: Address, kind: str, prefix: Prefix, path: Optional[Path] = None,
             origin: str = "igp", med: Optional[Word] = None, comm: Iterable[int] = ()) -> None:
        """The virtual peer tells the router an `update` with a path, or takes the route back: `withdraw`.

        A path is that of the language, as `7,21`, or its AS numbers; communities are numbers in any order."""
        words: List[AnyWord] = ["feed", self._at(virtual), self._at(router), kind, prefix]
        numbers = sorted(set(map(str, comm)), key=lambda text: (len(text), text))
        if path is not None:
            words += [_path(path), origin, "-" if med is None else med]
        elif med is not None:
            words.append(med)
        self._ask(*words, *(["comm=" + ",".join(numbers)] if numbers else []))

    def deliver(self, sender: Address, receiver: Address) -> Delivery:
        """The receiver takes the message at the head of the queue from the sender."""
        way = self._at(sender), self._at(receiver)
        return values.delivery_of(*way, self._ask("deliver", *way)[0])

    # What asks

    def routes(self, router: Address) -> Table[Route]:
        """The router's Loc-RIB: its chosen routes in order of prefix."""
        router = self._at(router)
        return values.routes_of(router, self._ask("routes", router))

    def best(self, router: Address, prefix: Prefix) -> Optional[Route]:
        """The route that the router chose for the prefix; None where it has none."""
        router = self._at(router)
        told = replies.best(self._ask("best", router, prefix))
        return None if told is None else values.route_of(router, str(told.source), told)

    def why(self, router: Address, prefix: Prefix) -> Table[Reason]:
        """All its routes to the prefix, and why each was chosen or dropped: its own first, then by peer address."""
        router = self._at(router)
        reply = self._ask("why", router, prefix)
        return values.reasons_of(router, str(prefix), reply, router in self.run.network.med_always)

    def received(self, router: Address, peer: Address) -> Table[Route]:
        """What the router holds as received from the peer, before its import policy. In the language it is `in`."""
        router, peer = self._at(router), self._at(peer)
        return values.routes_of(router, self._ask("in", router, peer), peer)

    def advertised(self, router: Address, peer: Address) -> Table[Route]:
        """What the router advertises to the peer, as routes of the peer. In the language it is `out`."""
        router, peer = self._at(router), self._at(peer)
        return values.routes_of(peer, self._ask("out", router, peer), router)

    def queue(self, sender: Address, receiver: Address) -> Table[Message]:
        """The messages on their way from one to the other, the head first."""
        way = self._at(sender), self._at(receiver)
        return Table((values.message_of(*way, told) for told in self._ask("queue", *way)[:-1]), Message)

    def quiet(self) -> bool:
        """Whether all queues are empty."""
        return self._ask("quiet") == ["yes"]

    def cost(self, router: Address, to: Address) -> Optional[Cost]:
        """The interior cost from the router to another, and the first hop; None where there is no way."""
        way = self._at(router), self._at(to)
        return values.cost_of(*way, self._ask("cost", *way)[0])

    def trace(self, router: Address, address: Address) -> Trace:
        """The routers that a packet from the router to the address passes; `end` is `reached`, `noroute` or `loop`."""
        return replies.trace(self._ask("trace", self._at(router), self._at(address)))

    # How a command is given

    def _at(self, word: Address) -> str:
        """The address that a word names; a word that is none, and names none, as it is."""
        return self.run.network.names.address_of(_word(word))

    def _ask(self, *words: AnyWord) -> List[str]:
        """The reply to a command of these words. Raises Refusal where it is refused."""
        line = " ".join(map(_word, words))
        reply = self.run.say(line)
        if replies.refusal(reply):
            raise refused(line, reply, self.run.network)
        return reply


def _word(word: AnyWord) -> str:
    """A word of a command. Mistake for what is not one. A number may be any whole one, as those of a data frame."""
    text = str(word) if isinstance(word, (str, IPv4Address, IPv4Network)) else _number(word)
    if not text or set(text) & set(" \n"):
        raise Mistake("one word of a command is expected, and not %r" % (word,))
    return text


def _number(word: SupportsIndex) -> str:
    """A whole number as a word; empty for what is none."""
    try:
        return "" if isinstance(word, bool) else str(operator.index(word))
    except TypeError:
        return ""


def _switch(on: Union[bool, str]) -> str:
    return ("on" if on else "off") if isinstance(on, bool) else on


def _path(path: Path) -> str:
    """A path as the language has it."""
    if isinstance(path, str) or not isinstance(path, Iterable):
        return str(path)
    return ",".join(map(str, path)) or "-"
