"""Which lines of configurations say a part of a network: those that the importers keep with what they read."""
from __future__ import annotations

from typing import Any, Callable, Dict, Iterator, List, NamedTuple, Tuple, cast

from ..importers.bird.configuration import BirdConfig, Session
from ..importers.bird.filters import Node, nodes_in
from ..importers.common.configuration import Config, Interface, Line, Neighbour
from ..importers.common.network import Network
from ..importers.common.regions import shown
from ..importers.common.translation import Translation
from .parts import Part


class Source(NamedTuple):
    """A line of a file; `head` is the line that begins its block, where that says more than the line itself."""
    file: str
    number: int
    text: str
    head: str = ""

    def __str__(self) -> str:
        return "%s:%d: %s" % (self.file, self.number, self.said)

    @property
    def said(self) -> str:
        """The line, behind the one that begins its block."""
        return "%s: %s" % (self.head, self.text) if self.head else self.text


class Sources:
    """The lines of the files of a translation, by parts of its network."""

    def __init__(self, translation: Translation) -> None:
        self.translation, self.network = translation, translation.network

    def of(self, part: Part) -> List[Source]:
        """The lines that say a part, the line that names it first; none where no file says it."""
        return list(dict.fromkeys(each for each in _OF[part[0]](self, part) if each.file))

    # Each kind of part

    def _router(self, part: Part) -> Iterator[Source]:
        config = self.network.routers.get(part[1])
        if config is not None:
            yield _source(config.line)
            yield _source(config.hostname_line)

    def _virtual(self, part: Part) -> Iterator[Source]:
        for (_, other), each in self.network.peers.items():
            if other == part[1]:
                yield from _of_neighbour(each)

    def _link(self, part: Part) -> Iterator[Source]:
        link = self.network.links.get(frozenset(part[1:3]))
        if link is None:
            return
        for interface in filter(None, (link.here, link.there)):
            yield from _of_interface(interface)
        for address in filter(None, (link.own, link.opposite)):
            yield _source(address.line)
        if link.difference is not None:
            yield _source(link.difference.here)
            yield _source(link.difference.there)

    def _session(self, part: Part) -> Iterator[Source]:
        for key in ((part[1], part[2]), (part[2], part[1])):
            if key in self.network.peers:
                yield from _of_neighbour(self.network.peers[key])

    def _cluster(self, part: Part) -> Iterator[Source]:
        config = self.network.routers.get(part[1])
        if config is not None:
            yield _source(config.cluster_line)

    def _med(self, part: Part) -> Iterator[Source]:
        config = self.network.routers.get(part[1])
        if config is not None and "bgp always-compare-med" in config.flags:
            yield _source(config.flags["bgp always-compare-med"][1])

    def _mark(self, part: Part) -> Iterator[Source]:
        each = self.network.peers.get((part[1], part[2]))
        if each is not None:
            yield _source(each.at("route-reflector-client" if part[0] == "client" else "next-hop-self"))

    def _policy(self, part: Part) -> Iterator[Source]:
        each, way = self.network.peers.get((part[1], part[2])), part[3]
        if each is None:
            return
        config = self.network.routers[part[1]]
        yield from (_of_bird if isinstance(each, Session) else _of_frr)(config, each, way)

    def _origin(self, part: Part) -> Iterator[Source]:
        for own in self.translation.owns.get(part[1], ()):
            if shown(own.where) == part[2]:
                yield _source(own.line)
                yield from (_source(static.line) for static in self.network.routers[part[1]].statics
                            if static.where == own.where)

    def _nothing(self, part: Part) -> Iterator[Source]:
        return iter(())


_OF: Dict[str, Callable[[Sources, Part], Iterator[Source]]] = {
    "router": Sources._router, "virtual": Sources._virtual, "link": Sources._link, "session": Sources._session,
    "cluster": Sources._cluster, "med": Sources._med, "client": Sources._mark, "self": Sources._mark,
    "policy": Sources._policy, "origin": Sources._origin, "feed": Sources._nothing}


def _source(line: Line, head: str = "") -> Source:
    return Source(line.file, line.number, line.text, head if head != line.text else "")


def _of_interface(interface: Interface) -> Iterator[Source]:
    yield _source(interface.line)
    yield from (_source(line, interface.line.text) for _, line in interface.said.values())
    if interface.interior is not None:
        yield _source(interface.interior, interface.line.text)


def _of_neighbour(each: Neighbour) -> Iterator[Source]:
    """All that is said of a neighbour, but for its policies."""
    yield _source(each.line)
    yield from (_source(line) for _, line in [*each.flags.values(), *each.words.values()])


def _of_frr(config: Config, each: Neighbour, way: str) -> Iterator[Source]:
    """The filters of a neighbour, with the entries of their maps and lists."""
    found = [(wanted, line) for (_, at), (wanted, line) in each.filters.items() if at == way]
    yield from (_source(line) for _, line in found)
    for wanted, _ in found:
        yield from _of_map(config, wanted)
        yield from _of_lists(config, wanted)
    if not found:
        yield _source(each.line)


def _of_map(config: Config, name: str) -> Iterator[Source]:
    for entry in config.maps.get(name, {}).values():
        yield _source(entry.line)
        for said, line in [*entry.matches.values(), *entry.settings.values()]:
            yield _source(line, entry.line.text)
            for word in said.split(" "):
                yield from _of_lists(config, word)


def _of_lists(config: Config, name: str) -> Iterator[Source]:
    for lists in (config.prefix_lists, config.access_lists, config.path_lists, config.community_lists):
        yield from (_source(item.line) for item in lists.get(name, {}).values())


def _of_bird(config: Config, each: Neighbour, way: str) -> Iterator[Source]:
    """The policy of a channel, with its filter and the functions and constants that are named in it."""
    bird, policy = cast(BirdConfig, config), cast(Session, each).policies.get(way)
    if policy is None:
        yield _source(each.line)
        return
    yield _source(policy.line)
    seen, waiting = {policy.name}, [bird.filters.get(policy.name, policy.statements)]
    while waiting:
        for node in sorted(nodes_in(waiting.pop()), key=lambda node: node.line.number):
            yield _source(node.line)
            for name in [each for each in _names(node.of) if each not in seen]:
                seen.add(name)
                waiting += [bird.functions[name].body] if name in bird.functions else []
                waiting += [(bird.constants[name],)] if name in bird.constants else []


def _names(parts: Tuple[Any, ...]) -> Iterator[str]:
    """The words in the parts of a node, but those of the nodes in it."""
    for part in parts:
        if isinstance(part, str):
            yield part
        elif isinstance(part, tuple) and not isinstance(part, Node):
            yield from _names(part)
