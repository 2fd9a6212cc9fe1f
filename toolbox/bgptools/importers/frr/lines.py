"""The lines of FRR configurations: each with its file and number, in the block in which FRR reads it."""
from __future__ import annotations

import re
from dataclasses import dataclass, field, replace
from typing import Dict, Iterator, List, Tuple

from ...program.line_count import MOST_LINES
from ...program.mistakes import Mistake
from ..common.configuration import Line
from ..common.sources import lines_in


@dataclass
class Block:
    """The lines under one head. `kind` is top, interface, bgp, family (another than IPv4 unicast), map, ospf, isis or
    other; the top has no heads,
    and a block that is begun again has several."""
    kind: str
    heads: List[Line] = field(default_factory=list)
    lines: List[Line] = field(default_factory=list)

    @property
    def said(self) -> str:
        return self.heads[0].text if self.heads else ""


# FRR takes a command by its first letters; this is the one that is written so.
ABBREVIATED = re.compile("^inte?r?f?a?c? ")
# What begins a block, and which kind of block it is.
HEADS = tuple((re.compile(pattern + "$"), kind) for pattern, kind in (
    (r"interface \S+", "interface"), (r"router bgp( [0-9.]+)?", "bgp"), (r"route-map \S+ (permit|deny) [0-9]+", "map"),
    (r"router ospf( [0-9]+)?", "ospf"), (r"router isis \S+", "isis"),
    (r"(interface|router|vrf|segment-routing|line|key chain|bfd|rpki|pbr-map|nexthop-group|mpls "
     r"ldp|l2vpn|vnc|vrf-policy)( .*)?", "other")))
# What stands outside all blocks, wherever it is read.
TOP = re.compile(
    r"(no )?(hostname|domainname|log|service|password|enable|frr|banner|agentx|username|debug|dump|zebra|fpm|"
    r"access-list|router-id|ipv6 access-list|"
    r"ip (prefix-list|as-path|access-list|(large-|ext)?community-list|forwarding|ssh|multicast|import-table|nht|"
    r"protocol|route|router-id)|"
    r"ipv6 (prefix-list|forwarding|nht|protocol|route)|bgp (as-path|(large-|ext)?community-list|community alias)|"
    r"interface|router|vrf|route-map|line vty|key chain|pbr-map|nexthop-group|mpls ldp|mpls "
    r"label|l2vpn|bfd$|rpki$)( |$)")
OF_VRF = re.compile(r"(no )?ip(v6)? (route|nht|protocol|router-id)|(no )?vni|(no )?router-id")
# Lines of a block whose words stand outside of one, too.
OF_BLOCK = re.compile(r"(no )?router-id |(no )?interface \S+ area ")
# What takes a whole block back.
UNDOING = ("no route-map ", "no router ", "no interface ")
ENDS = ("exit", "quit", "end", "exit-vrf", "exit-address-family", "exit-vnc", "exit-vrf-policy", "exit-ldp-if",
        "exit-route-map", "exit-link-params", "configure terminal")
FAMILIES = ("address-family ipv4 unicast", "address-family ipv4", "address-family ipv4 uni")


class Reader:
    """Puts lines into blocks, as FRR does: a line that a block does not know is looked for outside of it."""

    def __init__(self) -> None:
        self.blocks = [Block("top")]
        self.known: Dict[Tuple[str, str], Block] = {}
        self.here = self.around = self.blocks[0]
        self.is_in_family = False

    def take(self, line: Line) -> None:
        """One line; comments and ends of blocks are read and not kept."""
        if line.text in ENDS:
            self._enter(self.around if self.is_in_family and line.text != "end" else self.blocks[0])
        elif self.around.kind == "bgp" and line.words[0] == "address-family":
            self.here = self.around if line.text in FAMILIES else self._new(Block("family", [line]))
            self.is_in_family = True
        elif self.here.said.startswith("vrf ") and OF_VRF.match(line.text):
            self.here.lines.append(line)
        elif self.here.kind != "top" and OF_BLOCK.match(line.text):
            self.here.lines.append(line)
        elif TOP.match(line.text) or self.here.kind == "top":
            self._outside(line)
        else:
            self.here.lines.append(line)

    def _enter(self, block: Block) -> None:
        self.here = self.around = block
        self.is_in_family = False

    def _outside(self, line: Line) -> None:
        kind = next((kind for pattern, kind in HEADS if pattern.match(line.text)), "")
        self._enter(self._new(Block(kind, [line])) if kind else self.blocks[0])
        if not kind:
            self.here.lines.append(line)

    def _new(self, block: Block) -> Block:
        """The block, or the one of before that has the same head."""
        known = self.known.setdefault((block.kind, block.said), block)
        if known is block:
            self.blocks.append(block)
        else:
            known.heads += block.heads
        return known


def blocks_of(path: str) -> List[Block]:
    """The blocks of a file, the top one first, without what a later `no` takes back."""
    reader = Reader()
    for number, text in lines_in(path):
        if number > MOST_LINES:
            raise Mistake("more than {:,} lines are read".format(MOST_LINES), path, number)
        line = Line(path, number, ABBREVIATED.sub("interface ", " ".join(text.split())))
        if line.text and line.text[0] not in "!#":
            reader.take(line)
    return without_undone(reader.blocks)


def without_undone(blocks: List[Block]) -> List[Block]:
    """The blocks without lines, and heads, that a later `no` of the same words takes back. The `no` itself stays."""
    undoing = {line.text[3:]: line.number for line in blocks[0].lines if line.text.startswith(UNDOING)}
    blocks[0].lines = [replace(line, undoes=True) if line.text.startswith(UNDOING) else line
                       for line in blocks[0].lines]
    longest = max(map(len, undoing), default=0)
    kept = []
    for block in blocks:
        since = max([undoing[start] for start in _starts(block.said, longest) if start in undoing], default=0)
        heads = [head for head in block.heads if head.number > since]
        if heads or not block.heads:
            kept.append(Block(block.kind, heads, _kept([line for line in block.lines if line.number > since])))
    return kept


def _kept(lines: List[Line]) -> List[Line]:
    undoing: Dict[str, int] = {}
    found: List[Line] = []
    longest = max((len(line.text) for line in lines if line.text.startswith("no ")), default=0)
    for line in reversed(lines):
        by = next((undoing[start] for start in _starts(line.text, longest) if start in undoing), None)
        if by is None:
            found.append(line)
        else:
            found[by] = replace(found[by], undoes=True)
        if line.text.startswith("no "):
            undoing.setdefault(line.text[3:], len(found) - 1)
    return found[::-1]


def _starts(text: str, longest: int) -> Iterator[str]:
    """The first words of a text, one, two and so on, as far as they are not longer than that."""
    at = text.find(" ")
    while -1 < at <= longest:
        yield text[:at]
        at = text.find(" ", at + 1)
    if at == -1 and text:
        yield text
