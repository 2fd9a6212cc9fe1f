"""A scene as Graphviz DOT, for Graphviz itself to place: each router, link and session by its name."""
from __future__ import annotations

from typing import Dict, List

from ..network.configuration import Direction
from .scene import BORDER, DELIVERED, DOWN, EXIT, FILLS, LEGEND, VIRTUAL, WAY, Scene, Spot, Wire, legend_of, told


def quoted(text: str) -> str:
    """Text as a string of DOT."""
    return '"%s"' % text.replace("\\", "\\\\").replace('"', '\\"')


def attributes(**given: str) -> str:
    """The attributes of a node or an edge. Line ends in them stay, and so do those that set a line to the left."""
    return "[%s]" % ", ".join("%s=%s" % (name, quoted(value).replace("\n", "\\n").replace("\r", "\\l"))
                              for name, value in given.items())


def dot_of(scene: Scene) -> str:
    """The scene as DOT."""
    lines = ["graph network {", "  graph " + attributes(
        layout="dot", overlap="false", splines="true", fontname="Helvetica", fontsize="13", nodesep="0.7", ranksep="1.0",
        newrank="true",
        label="\n".join(scene.titles), labelloc="t", forcelabels="true", compound="true"),
        "  node " + attributes(fontname="Helvetica", fontsize="11", shape="ellipse", style="filled", fillcolor="white",
                               margin="0.08,0.05"),
        "  edge " + attributes(fontname="Helvetica", fontsize="10")]
    for number, asn in enumerate(sorted(scene.groups)):
        lines += _cluster(scene, asn, FILLS[number % len(FILLS)])
    if not scene.groups:
        lines += ["  %s %s" % (quoted(a), _node(spot)) for a, spot in scene.spots.items()]
    linked = {(wire.one, wire.other) for wire in scene.wires if wire.is_link}
    for wire in scene.wires:
        lines += _link(wire) if wire.is_link else [_session(wire, (wire.one, wire.other) in linked)]
    return "\n".join(lines + _legend(scene) + ["}", ""])


def _cluster(scene: Scene, asn: int, fill: str) -> List[str]:
    ground = attributes(label="AS %d" % asn, style="rounded,filled", fillcolor=fill, color=BORDER)
    return (["  subgraph cluster_as%d {" % asn, "    graph " + ground]
            + ["    %s %s" % (quoted(a), _node(scene.spots[a])) for a in scene.groups[asn]] + ["  }"])


def _node(spot: Spot) -> str:
    given = {}
    if spot.is_virtual:
        given = {"shape": "box", "fillcolor": VIRTUAL, "style": "filled,dashed"}
    elif spot.is_exit:
        given = {"fillcolor": EXIT, "penwidth": "2"}
    if spot.is_on_way:
        given.update(color=WAY, penwidth="2.5")
    return attributes(label="\n".join(spot.lines), **given)


def _link(wire: Wire) -> List[str]:
    """A link; where packets take it there is an arrow, and one that is followed stands before all others."""
    given = {"label": " %s " % wire.label, "color": wire.color if wire.is_up else DOWN, "penwidth": "1.6"}
    if not wire.is_up:
        given.update(style="dashed", fontcolor="#909090")
    shown = [way for way, color in wire.arrows.items() if len(set(wire.arrows.values())) == 1 or color == WAY]
    if shown:
        given.update(color=wire.arrows[shown[0]], penwidth="2.6", dir=_dir(wire, shown))
    rest = {way: color for way, color in wire.arrows.items() if way not in shown}
    return [_edge(wire.one, wire.other, given)] + [
        _edge(*way, {"dir": "forward", "color": color, "penwidth": "2", "constraint": "false"})
        for way, color in rest.items()]


def _session(wire: Wire, is_beside: bool) -> str:
    given = {"color": wire.color if wire.is_up else DOWN, "style": "dotted", "penwidth": "1.4",
             "constraint": "false" if is_beside else "true"}
    ways = list(wire.arrows)
    if wire.label:
        given["label"] = " %s " % wire.label
    if wire.delivered:
        ways = list(wire.delivered)
        given.update(color=DELIVERED, style="solid", penwidth="3", fontcolor=DELIVERED,
                     label=" %s " % "\n".join(map(told, wire.delivered.values())))
    if ways:
        given["dir"] = _dir(wire, ways)
    for end, way in (("taillabel", (wire.one, wire.other)), ("headlabel", (wire.other, wire.one))):
        given.update({end: "(%d)" % wire.waiting[way]} if way in wire.waiting else {})
    return _edge(wire.one, wire.other, given)


def _dir(wire: Wire, ways: List[Direction]) -> str:
    return "both" if len(ways) == 2 else "forward" if ways[0] == (wire.one, wire.other) else "back"


def _edge(one: str, other: str, given: Dict[str, str]) -> str:
    return "  %s -- %s %s" % (quoted(one), quoted(other), attributes(**given))


def _legend(scene: Scene) -> List[str]:
    """What the lines mean, as a text beside the picture."""
    looks = {"link": "line", "links": "line", "sessions": "dotted red", "failed": "dashed grey",
             "internal": "dotted blue", "external": "dotted red", "down": "dotted grey", "client": "arrow on a session",
             "virtual": "dashed box", "forwards": "green", "exit": "filled green", "way": "pink", "waiting": "(2)",
             "delivered": "thick purple"}
    lines = ["%s: %s\r" % (looks[name], LEGEND[name]) for name in legend_of([scene])]
    return ["  legend " + attributes(shape="plaintext", style="solid", fontsize="10",
                                     label="".join(lines))] if lines else []
