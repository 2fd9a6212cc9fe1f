"""What a page shows of a shared network after any of its steps: its picture, and a router's routes to a prefix. Each is
asked of a run beside the shared one, so that to look changes nothing."""
from __future__ import annotations

import functools
import json
import re
import threading
from collections import OrderedDict
from typing import Any, Dict, List, Optional, Tuple
from xml.etree import ElementTree

from ..change.explanation import explain, verdict
from ..network.configuration import Direction, Network, ends
from ..program import communities
from ..program.language import address, by_address, is_silent, prefix, words_of
from ..program.mistakes import Mistake
from ..program.replies import best, routes
from .incremental_layout import IncrementalLayout
from .observation import Delivered, View, look
from .renderer import BESIDE_WORDS, HEAD_SIZE, TEXT_SIZE, Drawing
from .scene import LINK, Scene, Spot, Wire, readable
from .shapes import width_of
from .snapshots import Snapshots

# A picture has at most so many routers and peers, a box so many lines, and so many bytes of pictures are kept.
MOST, ROWS, KEPT = 200, 5, 64 << 20
WIDTH, BETWEEN = 170.0, 230.0
MEANT = re.compile(r"^comms [0-9,]+ \((.*)\)")
# After these commands there is more to be seen, which needs a place.
MAKING = frozenset(("router", "virtual", "link", "join"))
BADGE = re.compile(r"[0-9]+ waiting from ([0-9.]+) to ([0-9.]+)")


class Ground:
    """What all pictures of a script have in common, which may grow: where everything stands."""

    def __init__(self) -> None:
        self.lines: List[str] = []
        self.network = Network()
        self.staying = IncrementalLayout(BETWEEN, BESIDE_WORDS)
        self.drawing: Optional[Drawing] = None

    def take(self, lines: List[str]) -> bool:
        """Takes the lines that came; whether things may stand elsewhere since. Mistake where there are too many."""
        count = min(len(lines), len(self.lines))
        if lines[:count] != self.lines[:count]:
            self.network, self.lines, self.drawing = Network(), [], None
        came, self.lines = lines[len(self.lines):], max(lines, self.lines, key=len)
        has_more = False
        for line in came:
            if not self.network.names.take(line):
                self.network.take(words_of(line))
            has_more = has_more or is_silent(line) or words_of(line)[0] in MAKING
        if len(self.network.nodes) > MOST:
            self.drawing = None
            raise Mistake("%d routers and peers: a picture has at most %d" % (len(self.network.nodes), MOST))
        if has_more or self.drawing is None:
            self.drawing = self._drawn()
            return True
        return False

    def _drawn(self) -> Drawing:
        scene = _whole(self.network)
        sizes = {a: (max(WIDTH, width_of(spot.name, HEAD_SIZE, True) + 14),
                     HEAD_SIZE + 2 + ROWS * (TEXT_SIZE + 2) + 8) for a, spot in scene.spots.items()}
        return Drawing([scene], BESIDE_WORDS, self.staying.layout(scene, sizes))


class Viewer:
    """Looks at networks after their steps. Any thread may ask; one is served at a time."""

    def __init__(self) -> None:
        self.lock = threading.Lock()
        self.parked = Snapshots()
        self.pictures: "OrderedDict[Tuple[Any, ...], str]" = OrderedDict()
        self.size = 0
        self.ground = Ground()

    def close(self) -> None:
        """Ends its runs."""
        with self.lock:
            self.parked.close()

    def picture(self, lines: List[str], step: int, to: Optional[str], way: Optional[Direction]) -> str:
        """The picture after a step of these lines, with the routes to a prefix and the way of a packet, as JSON.
        Mistake where they are none, or the network is too large."""
        if to is not None and prefix(to) is None:
            raise Mistake("`%s` is not a prefix" % to)
        if way is not None and address(way[1]) is None:
            raise Mistake("`%s` is not an address" % way[1])
        with self.lock:
            if self.ground.take(lines):
                self.pictures.clear()
                self.size = 0
            key = (step, to, way)
            if key not in self.pictures:
                self.pictures[key] = self._picture(lines, step, to, way)
                self.size += len(self.pictures[key])
            self.pictures.move_to_end(key)
            while self.size > KEPT and len(self.pictures) > 1:
                self.size -= len(self.pictures.popitem(last=False)[1])
            return self.pictures[key]

    def _picture(self, lines: List[str], step: int, to: Optional[str], way: Optional[Direction]) -> str:
        stand, drawing = self.parked.at(lines, step), self.ground.drawing
        assert drawing is not None
        network, reply = stand.run.network, self.parked.replies.get(step, "")
        way = way if way and network.is_router(way[0]) else None
        scene = look(stand.run, View(to), way, _delivered(lines[:step], reply, to), stand.known_of(to))
        titles, scene.titles = scene.titles, []
        for spot in scene.spots.values():
            _fit(spot)
        told = {"step": step, "width": drawing.width, "height": drawing.height, "titles": titles, "reply": reply,
                "prefixes": sorted(network.prefixes),
                "routers": [[a, readable(network.names.shown(a))] for a in scene.spots],
                "waiting": [list(each) for wire in scene.wires for each in wire.waiting]}
        return '%s,"parts":[%s]}' % (_json(told)[:-1], ",".join(_parts(drawing, scene)))

    def table(self, lines: List[str], step: int, router: str, to: str) -> Dict[str, Any]:
        """A router's routes to a prefix after a step: each with its reason, and what it tells its peers."""
        if prefix(to) is None:
            raise Mistake("`%s` is not a prefix" % to)
        with self.lock:
            run = self.parked.at(lines, step).run
            if not run.network.is_router(router):
                raise Mistake("%s is no router after step %d" % (router, step))
            names, found = run.network.names, explain(run, router, to)
            chosen = best(run.ask(["best %s %s" % (router, to)])[0])
            received = [["its own" if each.source == "self" else readable(names.shown(each.source)),
                         _told(each.attributes), readable(verdict(each, found, router, run.network)),
                         each.reason == "best"] for each in found]
            peers = sorted(run.network.peers.get(router, ()), key=by_address)
            replies = map(routes, run.ask("out %s %s" % (router, peer) for peer in peers))
            sent = [[readable(names.shown(peer)), _told(reply[to].attributes) if to in reply else "nothing"]
                    for peer, reply in zip(peers, replies)]
        return {"router": readable(names.shown(router)), "prefix": to, "in": received, "out": sent,
                "loc": _told(chosen.attributes) if chosen else "no route"}


def _delivered(lines: List[str], reply: str, shown: Optional[str]) -> Delivered:
    """What the last of these lines delivered, by its reply. Of the prefix that is shown it is in few words."""
    if not reply.startswith("took "):
        return {}
    _, sender, receiver = words_of(lines[-1])
    _, to, kind = reply.split(" ")
    return {(sender, receiver): [kind if to == shown else "%s %s" % (kind, to)]}


def _whole(network: Network) -> Scene:
    """All that a network has, for its places."""
    groups: Dict[int, List[str]] = {}
    for a in sorted(network.nodes, key=by_address):
        groups.setdefault(network.nodes[a].asn, []).append(a)
    spots = {a: Spot(readable(network.names.of.get(a, a))) for a in sorted(network.nodes, key=by_address)}
    links = [(ends(key), str(link.metric)) for key, link in network.links.items()]
    wires = [Wire(one, other, True, LINK, label) for (one, other), label in links]
    return Scene([], groups, spots, wires + [Wire(one, other, False, LINK) for one, other in network.sessions()])


def _fit(spot: Spot) -> None:
    """Leaves out of a box what it has no room for."""
    room = ROWS - bool(spot.below)
    if len(spot.details) > room:
        spot.details = spot.details[:room - 1] + [".."]
    spot.details = list(map(_narrow, spot.details))


def _narrow(line: str) -> str:
    """A line that a box has room for: of communities that are too broad their meaning alone, of others the begin."""
    room = WIDTH + 2
    if width_of(line, TEXT_SIZE) > room:
        line = MEANT.sub(r"\1", line)
    while width_of(line, TEXT_SIZE) > room:
        line = line[:-3] + ".."
    return line


def _told(attributes: Any) -> str:
    """Attributes for a table."""
    return readable(communities.in_text(str(attributes))) if attributes else ""


def _parts(drawing: Drawing, scene: Scene) -> List[str]:
    """The parts of a picture as JSON, each with what it is about: a router, a link, a session, or a queue."""
    parts = drawing.parts(scene)
    about: List[Tuple[str, ...]] = [("as", str(asn)) for asn in scene.groups]
    about += [("link" if wire.is_link else "session", wire.one, wire.other) for wire in scene.wires]
    about += [("peer" if spot.is_virtual else "router", a) for a, spot in scene.spots.items()]
    about += [("queue", *badge.groups()) if badge else ()
              for badge in (BADGE.fullmatch(part.name) for part in parts[len(about):])]
    return [_drawn(each, part.svg()) for each, part in zip(about, parts)]


# Texts, and no lists: those would be looked through again and again by Python's own collector.
@functools.lru_cache(maxsize=65536)
def _drawn(about: Tuple[str, ...], svg: str) -> str:
    """A part of a picture as a page draws it, with what it is about."""
    return _json([about, _element(ElementTree.fromstring("<g>%s</g>" % svg))])


def _json(value: object) -> str:
    return json.dumps(value, separators=(",", ":"))


def _element(node: ElementTree.Element) -> List[Any]:
    """An element of a picture: its name, attributes, text, and what is in it."""
    return [node.tag, node.attrib, node.text or "", [_element(each) for each in node]]
