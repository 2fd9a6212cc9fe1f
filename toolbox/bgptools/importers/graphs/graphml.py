"""Graphs in GraphML."""
# Not by networkx: `test_graph_libraries` says what that does not do.
from __future__ import annotations

import re
from typing import Dict, List, NamedTuple, Optional, Tuple
from xml.parsers import expat

from ...program.mistakes import Mistake
from ..common.omissions import LeftOut
from .graph import Edge, Graph, Node

SPACE = "http://graphml.graphdrawing.org/xmlns"
# What stands beside nodes and edges and says nothing of routes.
MOST_DEPTH = 100
# What a key may have, what it may be about, and of which kind it may be.
KEY = ("id", "for", "attr.name", "attr.type")
FOR = ("all", "graphml", "graph", "node", "edge", "hyperedge", "port", "endpoint")
TYPES = ("string", "boolean", "int", "long", "float", "double")
DESCRIPTIONS = ("desc", "locator", "port")


class Key(NamedTuple):
    """A declared attribute: its name, of what it is one (node, edge, graph, all), and its value where none stands."""
    name: str
    of: str
    default: Optional[str]


class Reader:
    """Takes the elements of a file one after another."""

    def __init__(self, file: str, left: LeftOut) -> None:
        self.graph = Graph(file, left)
        self.parser = expat.ParserCreate(namespace_separator=" ")
        self.parser.buffer_text = True
        self.parser.StartElementHandler = self._start
        self.parser.EndElementHandler = self._end
        self.parser.CharacterDataHandler = self._text
        self.parser.EntityDeclHandler = self._entity
        self.keys: Dict[str, Key] = {}
        # The elements that are open, by their names, and the node or edge whose values are read.
        self.open: List[str] = []
        self.here: List[Dict[str, str]] = []
        self.key = ""
        self.said: List[str] = []
        self.is_directed = False
        self.graphs = 0
        # How deep what is left out begins; 0 where nothing is.
        self.left_from = 0

    @property
    def line(self) -> int:
        """The line at which the parser is."""
        return self.parser.CurrentLineNumber

    def read(self, content: bytes) -> Graph:
        """The graph; raises Mistake where the file is none."""
        try:
            self.parser.Parse(content, True)
        except expat.ExpatError as error:
            raise self.graph.mistake("it is no XML: %s" % expat.errors.messages.get(error.code, "it cannot be read"),
                                     error.lineno) from None
        except (LookupError, ValueError, UnicodeError) as error:
            raise self.graph.mistake("it is no XML that can be read: %s" % error, self.line) from None
        if not self.graphs:
            raise Mistake("it has no graph: `graphml` with a `graph` in it is expected", self.graph.file)
        self._defaults()
        self.graph.check()
        return self.graph

    def _entity(self, name: str, *_: object) -> None:
        raise self.graph.mistake("it declares an entity `%s`, and none are read" % name[:40], self.line)

    def _start(self, name: str, given: Dict[str, str]) -> None:
        space, _, plain = name.rpartition(" ")
        known = plain if space in ("", SPACE) or space.startswith("http://graphml") else "?" + plain
        if not self.open and known != "graphml":
            raise self.graph.mistake("`graphml` is expected first, and not `%s`" % plain[:60], self.line)
        self.open.append(known)
        if len(self.open) > MOST_DEPTH:
            raise self.graph.mistake("elements are nested more than %d deep" % MOST_DEPTH, self.line)
        if not self.left_from:
            self._take(known, given, self.open[-2] if len(self.open) > 1 else "")

    def _take(self, name: str, given: Dict[str, str], around: str) -> None:
        """An element inside another one; what is not known is left out, and told."""
        if name == "key" and around == "graphml":
            self.key = self._wanted(name, given, "id")
            self.keys[self.key] = Key(given.get("attr.name", self.key), given.get("for", "all"), None)
            self._check_key(given)
        elif name == "graph" and around == "graphml" and not self.graphs:
            self.graphs, self.is_directed = 1, given.get("edgedefault") == "directed"
            self._check_word("edgedefault", given, ("directed", "undirected"))
        elif name == "node" and around == "graph":
            node = Node(self._wanted(name, given, "id"), self.line)
            self.graph.add_node(node)
            self.here.append(node.attributes)
        elif name == "edge" and around == "graph":
            is_directed = {"true": True, "false": False}.get(given.get("directed", ""), self.is_directed)
            self._check_word("directed", given, ("true", "false"))
            source, target = (self._wanted(name, given, each) for each in ("source", "target"))
            edge = Edge(source, target, self.line, is_directed)
            self.graph.add_edge(edge)
            self.here.append(edge.attributes)
        elif name == "data" or name == "default" and around == "key":
            self.key = self._wanted(name, given, "key") if name == "data" else self.key
            if name == "data" and self.key not in self.keys:
                raise self.graph.mistake("`data` of the key `%s`, which no `key` declares" % self.key[:60], self.line)
            self.said = []
        elif name != "graphml" or around:
            self._leave_out(name, around)

    def _check_word(self, name: str, given: Dict[str, str], known: Tuple[str, ...]) -> None:
        """Tells a word that is none of those that are expected."""
        if given.get(name, known[0]) not in known:
            self.graph.left.tell(self.graph.place(self.line), "`%s=\"%s\"`: %s is expected; it is as if it were not "
                                 "there" % (name, given[name][:60], " or ".join(known)))

    def _check_key(self, given: Dict[str, str]) -> None:
        """Tells what of a key is not known: what it is about, its kind, and words of no other program."""
        odd = [name for name in given if name not in KEY and not re.match("(yfiles|java|gephi)[.]|.* ", name)]
        odd += [name for name, known in (("for", FOR), ("attr.type", TYPES)) if given.get(name, known[0]) not in known]
        for name in odd:
            self.graph.left.note(self.graph.place(self.line), "`%s=\"%s\"` of a key is not known" % (
                name[:60], given[name][:60]))

    def _leave_out(self, name: str, around: str) -> None:
        """An element that is not read, with all in it."""
        self.left_from = len(self.open)
        at, left = self.graph.place(self.line), self.graph.left
        if name == "graph":
            left.tell(at, "a graph inside of a node, or a second one, of which nothing is read")
        elif name == "hyperedge":
            left.tell(at, "a hyperedge joins more than two nodes, and a link two; it is left out. Make it edges, or a "
                          "node")
        elif name in DESCRIPTIONS:
            left.count("descriptions and ports", at)
        else:
            left.note(at, "the element `%s` in `%s` is not read" % (name.lstrip("?")[:60], around[:60]))

    def _wanted(self, name: str, given: Dict[str, str], wanted: str) -> str:
        if wanted not in given:
            raise self.graph.mistake("`%s` of the %s is missing" % (wanted, name), self.line)
        return given[wanted]

    def _text(self, text: str) -> None:
        if not self.left_from and self.open[-1:] in (["data"], ["default"]):
            self.said.append(text)

    def _end(self, _: str) -> None:
        name, is_left_out = self.open.pop(), bool(self.left_from)
        if is_left_out:
            self.left_from = 0 if len(self.open) < self.left_from else self.left_from
        elif name == "data":
            name = self.keys[self.key].name
            if self.here and name in self.here[-1]:
                self.graph.left.note(self.graph.place(self.line), (
                    "`%s` stands here once more, and the last one counts" % name[:60]))
            if self.here:
                self.here[-1][name] = "".join(self.said).strip()
            else:
                self.graph.count_of_own += 1
        elif name == "default":
            self.keys[self.key] = self.keys[self.key]._replace(default="".join(self.said).strip())
        elif name in ("node", "edge"):
            self.here.pop()

    def _defaults(self) -> None:
        """Gives nodes and edges the values that stand for all."""
        for of, found in (("node", [node.attributes for node in self.graph.nodes.values()]),
                          ("edge", [edge.attributes for edge in self.graph.edges])):
            given = {key.name: key.default for key in self.keys.values()
                     if key.default is not None and key.of in (of, "all")}
            for attributes in found:
                attributes.update({name: value for name, value in given.items() if name not in attributes})


def read(content: bytes, file: str, left: LeftOut) -> Graph:
    """The graph of a file's bytes; raises Mistake where it is none."""
    return Reader(file, left).read(content)
