"""A graph as a file has it: nodes and edges with their attributes, and the line of each."""
from __future__ import annotations

from collections import Counter
from dataclasses import dataclass, field
from typing import Dict, List, Set, Tuple

from ...network.graph_search import hops, neighbours
from ...program.language import escaped
from ...program.mistakes import Mistake
from ..common.omissions import LeftOut, Place


# So many are read; a network has fewer.
MOST = {"nodes": 65536, "edges": 262144}


@dataclass
class Node:
    """A node. `key` is its id in the file; attributes are text, whatever their kind."""
    key: str
    line: int
    attributes: Dict[str, str] = field(default_factory=dict)


@dataclass
class Edge:
    """An edge between two nodes by their ids; `is_directed`: it leads one way."""
    source: str
    target: str
    line: int
    is_directed: bool = False
    attributes: Dict[str, str] = field(default_factory=dict)


class Graph:
    """All of them in the order of the file, and what was left out of it."""

    def __init__(self, file: str, left: LeftOut) -> None:
        self.file, self.left = file, left
        self.nodes: Dict[str, Node] = {}
        self.edges: List[Edge] = []
        # How many attributes of the graph itself it has.
        self.count_of_own = 0

    def place(self, line: int) -> Place:
        """A line of the file."""
        return Place(self.file, line)

    def mistake(self, text: str, line: int) -> Mistake:
        """What is wrong at a line."""
        return Mistake(escaped(text), self.file, line)

    def add_node(self, node: Node) -> None:
        """Raises Mistake where there is such a node."""
        known = self.nodes.get(node.key)
        if known is not None:
            raise self.mistake("node %s stands in line %d already" % (node.key[:60], known.line), node.line)
        self.nodes[node.key] = node
        self._check_count(len(self.nodes), "nodes", node.line)

    def add_edge(self, edge: Edge) -> None:
        """Raises Mistake where there are too many."""
        self.edges.append(edge)
        self._check_count(len(self.edges), "edges", edge.line)

    def _check_count(self, count: int, what: str, line: int) -> None:
        if count > MOST[what]:
            raise self.mistake("more than {:,} {} are read".format(MOST[what], what), line)

    def check(self) -> None:
        """Raises Mistake where it has no node, or an edge an end that is none."""
        if not self.nodes:
            raise Mistake("it has no node", self.file)
        for edge in self.edges:
            for end in (edge.source, edge.target):
                if end not in self.nodes:
                    raise self.mistake("there is no node %s, to which an edge leads" % end[:60], edge.line)

    def attributes_of_edges(self) -> "Counter[str]":
        """How many edges have each attribute."""
        return Counter(name for edge in self.edges for name in edge.attributes)

    def parts(self, links: Dict[Tuple[str, str], int]) -> List[List[str]]:
        """The nodes that links join, each part in the order of the file, the largest first."""
        near = neighbours(links)
        found: List[List[str]] = []
        seen: Set[str] = set()
        for key in self.nodes:
            if key not in seen:
                part = hops(near, key)
                seen.update(part)
                found.append([each for each in self.nodes if each in part])
        return sorted(found, key=len, reverse=True)
