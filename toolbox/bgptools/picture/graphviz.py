"""What Graphviz does for pictures: `neato` places the nodes of a graph, and makes PNG and PDF of what is drawn.

It is called by pygraphviz, and for places through networkx. Only the functions here import the two."""
from __future__ import annotations

import contextlib
import warnings
from typing import Dict, Iterator, List, Mapping, Optional, Tuple

from ..program import libraries
from ..program.mistakes import Mistake

# A place by its distances to the right and down, in points.
Place = Tuple[float, float]
POINTS = 72
# Where neato begins: at a first guess of its own, or where all but those begin that have a place, by a fixed seed. So the
# same graph has the same places. And how little the places may still be made better where it ends.
FIRST, AGAIN, ENOUGH = "self", "1", "0.001"


def placed(names: List[str], lengths: Mapping[Tuple[str, str], float],
           before: Optional[Mapping[str, Place]] = None) -> Dict[str, Place]:
    """The place of each name. Each two are about as far apart as the way between them is long.

    `lengths` has the length of each pair, in points. Names that had a place before stay near it. Raises Mistake if a
    library is missing, or Graphviz."""
    libraries.need("pictures")
    import networkx
    if not names:
        return {}
    known = {name: place for name, place in (before or {}).items() if name in names}
    numbers = {name: number for number, name in enumerate(names)}
    graph = networkx.Graph(graph={"start": AGAIN if known else FIRST, "epsilon": ENOUGH},
                           node={"shape": "point", "width": "0.01"})
    for name, number in numbers.items():
        graph.add_node(number, **({"pos": "%.3f,%.3f" % (known[name][0], -known[name][1])} if name in known else {}))
    graph.add_edges_from((numbers[one], numbers[other], {"len": "%.3f" % (length / POINTS)})
                         for (one, other), length in lengths.items())
    with _told():
        found = networkx.nx_agraph.pygraphviz_layout(graph, prog="neato", args="-s%d" % POINTS)
    return _moved_to(known, {name: (found[number][0], -found[number][1]) for name, number in numbers.items()})


def _moved_to(known: Mapping[str, Place], places: Dict[str, Place]) -> Dict[str, Place]:
    """Places moved as a whole, so that those that are known have the same middle as before."""
    count = max(len(known), 1)
    right = sum(x - places[name][0] for name, (x, _) in known.items()) / count
    down = sum(y - places[name][1] for name, (_, y) in known.items()) / count
    return {name: (x + right, y + down) for name, (x, y) in places.items()}


def parts(names: List[str], pairs: List[Tuple[str, str]]) -> List[List[str]]:
    """The connected parts of a graph; names and parts are in the order of `names`. Raises Mistake as `placed`."""
    libraries.need("pictures")
    import networkx
    graph = networkx.Graph()
    graph.add_nodes_from(names)
    graph.add_edges_from(pairs)
    return [[name for name in names if name in part] for part in networkx.connected_components(graph)]


def rendered(dot: str, kind: str, resolution: int) -> bytes:
    """DOT of which each node has its place, as `png` or `pdf`, at so many dots an inch. Raises Mistake as `placed`."""
    libraries.need("pictures")
    import pygraphviz
    with _told():
        made: bytes = pygraphviz.AGraph(string=dot).draw(format=kind, prog="neato", args="-n2 -Gdpi=%d" % resolution)
    return made


@contextlib.contextmanager
def _told() -> Iterator[None]:
    """Tells what Graphviz cannot do as a Mistake. Its warnings, of fonts as a rule, are not told."""
    try:
        with warnings.catch_warnings():
            warnings.simplefilter("ignore")
            yield
    except (OSError, ValueError) as error:
        raise Mistake("Graphviz makes no picture: %s (apt-get install graphviz); without -o the DOT itself is written"
                      % str(error).strip()) from None
