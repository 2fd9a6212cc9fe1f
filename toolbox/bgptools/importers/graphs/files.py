"""A file with a graph: GraphML or GML."""
from __future__ import annotations

from ..common.omissions import LeftOut
from ..common.sources import MOST_UNPACKED, content_of, named
from . import gml, graphml
from .graph import Graph


def graph_of(path: str, left: LeftOut, most: int = MOST_UNPACKED) -> Graph:
    """The graph of a file, which is GraphML where it begins as XML does, else GML, of a packed one so many bytes at
    most; raises Mistake."""
    name, content = named(path), content_of(path, most)
    begin = content[:200].replace(b"\0", b"").lstrip(b"\xef\xbb\xbf\xfe\xff \t\r\n")
    return graphml.read(content, name, left) if begin.startswith(b"<") else gml.read(content, name, left)
