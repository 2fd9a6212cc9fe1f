"""Graphs in GML: keys with numbers, strings or lists behind them."""
# networkx reads the same, but keeps no line of what it reads: `test_graph_libraries` says what else it does not do.
from __future__ import annotations

import html
import re
from dataclasses import dataclass, field
from typing import Dict, Iterator, List, Tuple

from ...program.language import escaped
from ...program.mistakes import Mistake
from ..common.omissions import LeftOut
from .graph import Edge, Graph, Node

TOKEN = re.compile(r'\s*(?:(?P<mark>[\[\]])|(?P<key>[A-Za-z_][A-Za-z0-9_.-]*)|(?P<text>"[^"]*")|'
                   r'(?P<number>[+-]?(?:[0-9]+\.?[0-9]*|\.[0-9]+)(?:[Ee][+-]?[0-9]+)?)(?![^\s\[\]]))')
# More digits than the number of any character has.
LONG = re.compile("&#(x[0-9a-fA-F]{10,}|[0-9]{10,})", re.IGNORECASE)
MOST_WORDS, MOST_DEPTH = 3000000, 100
SPECIAL = ("NAN", "INF", "nan", "inf")


@dataclass
class Block:
    """A list: its key, its line, its values, and the lists in it."""
    key: str
    line: int
    values: Dict[str, str] = field(default_factory=dict)
    blocks: List["Block"] = field(default_factory=list)
    # The keys that stand there once more, each with its line.
    again: Dict[str, int] = field(default_factory=dict)


def _text_of(content: bytes) -> Tuple[str, List[int]]:
    """The file without comments, and where each of its lines begins. A byte that is no UTF-8 is as `\\xff`."""
    parts, starts, at = [], [], 0
    for line in content.decode("utf-8-sig", "backslashreplace").split("\n"):
        starts.append(at)
        parts.append("" if line.lstrip().startswith("#") else line)
        at += len(parts[-1]) + 1
    return "\n".join(parts), starts


class Tokens:
    """The words of a file, each with its line."""

    def __init__(self, content: bytes, file: str) -> None:
        self.file = file
        self.text, self.starts = _text_of(content)

    def __iter__(self) -> Iterator[Tuple[str, str, int]]:
        """Kind, text and line of each word; raises Mistake at what is none."""
        at, number, end = 0, 0, len(self.text.rstrip())
        while at < end:
            found = TOKEN.match(self.text, at)
            begin = found.start(found.lastgroup or 0) if found else end - len(self.text[at:end].lstrip())
            while number < len(self.starts) and self.starts[number] <= begin:
                number += 1
            if found is None:
                raise Mistake("a key, a number, a text in quotes or a bracket is expected, and not `%s`" % (
                    escaped(self.text[begin:begin + 40].split("\n")[0])), self.file, number)
            at = found.end()
            yield found.lastgroup or "", found.group(found.lastgroup or 0), number


def _plain(text: str) -> str:
    """A text with the characters that `&amp;` and `&#38;` stand for; a number that is none stays as it is."""
    return html.unescape(LONG.sub(lambda found: "&amp;" + found.group()[1:], text))


def blocks_of(content: bytes, file: str) -> Block:
    """The lists of a file, in one around all; raises Mistake."""
    tokens = Tokens(content, file)
    stack, key, line = [Block("", 1)], "", 0
    for count, (kind, text, line) in enumerate(tokens):
        if count > MOST_WORDS or len(stack) > MOST_DEPTH:
            raise Mistake("more than {:,} words are read".format(MOST_WORDS) if count > MOST_WORDS else
                          "lists are nested more than %d deep" % MOST_DEPTH, tokens.file, line)
        if not key and kind == "key":
            key = text
        elif not key and text == "]" and len(stack) > 1:
            stack.pop()
        elif key and text == "[":
            stack[-1].blocks.append(Block(key, line))
            stack.append(stack[-1].blocks[-1])
            key = ""
        elif key and (kind in ("text", "number") or text in SPECIAL):
            stack[-1].again.update({key: line} if key in stack[-1].values else {})
            stack[-1].values[key] = _plain(text[1:-1]) if kind == "text" else text
            key = ""
        else:
            raise Mistake("%s is expected, and not `%s`" % ("a value of `%s`" % key[:40] if key else "a key or `]`",
                                                           escaped(text[:40])), tokens.file, line)
    if key or len(stack) > 1:
        raise Mistake("the end of `%s` is missing" % (key or stack[-1].key)[:40], tokens.file,
                      line if key else stack[-1].line)
    return stack[0]


def read(content: bytes, file: str, left: LeftOut) -> Graph:
    """The graph of a file's bytes; raises Mistake where it is none."""
    whole = blocks_of(content, file)
    graph = Graph(file, left)
    graphs = [block for block in whole.blocks if block.key == "graph"]
    if not graphs:
        raise Mistake("it has no graph: `graph [ node [ id 0 ] .. ]` of GML, or GraphML, is expected", graph.file)
    for block in graphs[1:]:
        left.tell(graph.place(block.line), "a second graph, of which nothing is read")
    graph.count_of_own = len(graphs[0].values)
    directed = graphs[0].values.get("directed", "0")
    if directed not in ("0", "1"):
        left.tell(graph.place(graphs[0].line), "`directed %s`: 0 or 1 is expected; edges lead one way here" %
                  directed[:60])
    is_directed = directed != "0"
    for block in graphs[0].blocks:
        _take(graph, block, is_directed)
    graph.check()
    return graph


def _take(graph: Graph, block: Block, is_directed: bool) -> None:
    """A node or an edge; what is none is told."""
    for inner in block.blocks if block.key in ("node", "edge") else [block]:
        graph.left.note(graph.place(inner.line), "`%s [ .. ]` is not read" % inner.key[:60])
    for name, line in block.again.items():
        graph.left.note(graph.place(line), "`%s` stands here once more, and the last one counts" % name[:60])
    if block.key == "node":
        graph.add_node(Node(_wanted(graph, block, "id"), block.line,
                            {name: value for name, value in block.values.items() if name != "id"}))
    elif block.key == "edge":
        ends = [_wanted(graph, block, name) for name in ("source", "target")]
        others = {name: value for name, value in block.values.items() if name not in ("source", "target")}
        graph.add_edge(Edge(ends[0], ends[1], block.line, is_directed, others))


def _wanted(graph: Graph, block: Block, name: str) -> str:
    if name not in block.values:
        raise graph.mistake("`%s` of the %s is missing" % (name, block.key), block.line)
    return block.values[name]
