"""Places by Graphviz: near ones are near, the same graph has the same places; and what pygraphviz reads in our DOT."""
import math
import os
import unittest
from unittest import mock

import pytest
from hypothesis import given, strategies

from bgptools.picture import graphviz
from bgptools.picture.dot import dot_of
from bgptools.picture.graphviz import placed
from bgptools.picture.incremental_layout import IncrementalLayout
from bgptools.picture.layout import Box, arranged, surrounding
from bgptools.picture.scene import LINK, Scene, Spot, Wire
from bgptools.program.mistakes import Mistake
from common import NO_PICTURES, Case, needs_pictures
from strategies import few, printable

pygraphviz = pytest.importorskip("pygraphviz", reason=NO_PICTURES)
networkx = pytest.importorskip("networkx", reason=NO_PICTURES)
RING = [("a", "b"), ("b", "c"), ("c", "d"), ("d", "a")]


def apart(pairs, length=100.0):
    """Pairs that are so far apart, in points."""
    return dict.fromkeys(pairs, length)


@needs_pictures
class Placing(unittest.TestCase):
    def test_a_square_is_a_square(self):
        """In a ring of four a neighbour is nearer than who is across; the same ring has the same places."""
        places = placed(list("abcd"), apart(RING))
        self.assertEqual(places, placed(list("abcd"), apart(RING)))
        sides = [math.dist(places[one], places[other]) for one, other in RING]
        across = [math.dist(places[one], places[other]) for one, other in ("ac", "bd")]
        self.assertLess(max(sides) - min(sides), 5)
        self.assertAlmostEqual(across[0] / sides[0], math.sqrt(2), 1)
        self.assertAlmostEqual(sides[0] / 100, 1, 0)

    def test_a_chain_of_three_is_a_line_of_these_lengths(self):
        """Stress has its least, 0, where all are on a line, 100 and 250 points apart."""
        places = placed(list("abc"), {("a", "b"): 100.0, ("b", "c"): 250.0})
        for one, other, wanted in (("a", "b", 100), ("b", "c", 250), ("a", "c", 350)):
            self.assertLess(abs(math.dist(places[one], places[other]) - wanted), 5)

    def test_few_nodes(self):
        self.assertEqual(placed([], {}), {})
        self.assertEqual(list(placed(["a"], {})), ["a"])
        self.assertEqual(placed(["a"], {}), placed(["a"], {}, {}))

    def test_who_had_a_place_is_near_it_when_one_comes(self):
        places = placed(list("abcd"), apart(RING))
        grown = placed(list("abcde"), apart(RING + [("a", "e")]), places)
        self.assertLess(max(math.dist(places[one], grown[one]) for one in "abcd"), 60)

    def test_parts_are_in_the_order_of_names(self):
        self.assertEqual(graphviz.parts(list("edcba"), [("a", "d"), ("c", "b")]), [["e"], ["d", "a"], ["c", "b"]])
        self.assertEqual(graphviz.parts([], []), [])

    def test_without_neato_it_is_told_in_a_line(self):
        with mock.patch.dict(os.environ, {"PATH": "/nonexistent"}):
            for call in (lambda: placed(["a"], {}), lambda: graphviz.rendered("graph { a }", "png", 72)):
                with self.assertRaisesRegex(Mistake, r"\AGraphviz makes no picture: [^\n]* \(apt-get install graphviz\)"):
                    call()


# Names that DOT writes with a mark before some characters.
names = strategies.text(printable, max_size=8)


@needs_pictures
class Dot(Case):
    @few
    @given(names, names, strategies.integers(1, 65535), strategies.booleans())
    def test_pygraphviz_reads_what_the_scene_has(self, one, other, metric, is_up):
        """DOT is written by ours, since it needs Python alone. A `\\n` of DOT stands for the end of a line."""
        spots = {"1.0.0.1": Spot(one, "1.0.0.1"), "2.0.0.1": Spot(other)}
        wire = Wire("1.0.0.1", "2.0.0.1", True, LINK, str(metric), is_up)
        read = pygraphviz.AGraph(string=dot_of(Scene(["a title"], {1: ["1.0.0.1"], 2: ["2.0.0.1"]}, spots, [wire])))
        self.assertEqual(set(read.nodes()), {"1.0.0.1", "2.0.0.1", "legend"})
        shown = {a: read.get_node(a).attr["label"].replace("\\n", "\n").replace("\\\\", "\\") for a in spots}
        self.assertEqual(shown, {"1.0.0.1": "\n".join([one, "1.0.0.1"]), "2.0.0.1": other})
        edge, = read.edges()
        self.assertEqual((edge, edge.attr["label"], edge.attr["style"] or ""),
                         (("1.0.0.1", "2.0.0.1"), " %d " % metric, "" if is_up else "dashed"))
        self.assertEqual(sorted(group.name for group in read.subgraphs()), ["cluster_as1", "cluster_as2"])


def two_ases(more=()):
    """Two ASes of three routers in a chain each, a link between them, and more routers of the first AS, each with whom
    it is linked to."""
    groups = {1: ["a1", "a2", "a3", *(name for name, _ in more)], 2: ["b1", "b2", "b3"]}
    links = [("a1", "a2"), ("a2", "a3"), ("b1", "b2"), ("b2", "b3"), ("a1", "b1"), *more]
    return Scene([], groups, {a: Spot(a) for inside in groups.values() for a in inside},
                 [Wire(one, other, True, LINK) for one, other in links])


SIZE = (90.0, 50.0)


@needs_pictures
class Otherwise(Case):
    """What Graphviz does otherwise, so that `layout` and `incremental_layout` keep ASes apart."""

    def test_neato_knows_no_ases(self):
        """In a ring that goes from one AS to the other and back, the box of each lies over that of the other."""
        names = ["a1", "b1", "a2", "b2", "a3", "b3"]
        ring = list(zip(names, names[1:] + names[:1]))
        scene = Scene([], {1: names[::2], 2: names[1::2]}, {a: Spot(a) for a in names},
                      [Wire(one, other, True, LINK) for one, other in ring])
        places = placed(names, apart(ring, 300.0))
        bare = [surrounding([Box(*places[a], *SIZE) for a in inside]) for inside in scene.groups.values()]
        self.assertTrue(bare[0].meets(bare[1]))
        one, other = arranged(scene, dict.fromkeys(names, SIZE), 1.5).groups.values()
        self.assertFalse(one.meets(other))

    def test_fdp_moves_routers_that_are_pinned(self):
        """fdp keeps ASes apart. But where a router comes, the ASes move about one another; here all stay."""
        before = self.by_fdp(two_ases(), {})
        after = self.by_fdp(two_ases([("x", "a2")]), before)
        moved = {a: (after[a][0] - before[a][0], after[a][1] - before[a][1]) for a in before}
        self.assertGreater(math.dist(moved["a1"], moved["b1"]), 20)
        layout, found = IncrementalLayout(200.0, 1.5), []
        for scene in (two_ases(), two_ases([("x", "a2")])):
            spots = layout.layout(scene, dict.fromkeys(scene.spots, SIZE)).spots
            found.append({a: (spots[a].x, spots[a].y) for a in before})
        self.assertEqual(*found)

    @staticmethod
    def by_fdp(scene, pinned):
        """The places of routers by fdp, those that are pinned at these."""
        graph = pygraphviz.AGraph(overlap="vpsc", start="1", sep="+17")
        for a in scene.spots:
            pin = {"pos": "%f,%f!" % pinned[a]} if a in pinned else {}
            graph.add_node(a, shape="box", fixedsize="true", width=SIZE[0] / 72, height=SIZE[1] / 72, **pin)
        graph.add_edges_from((wire.one, wire.other) for wire in scene.wires)
        for asn, inside in scene.groups.items():
            graph.add_subgraph(inside, name="cluster_%d" % asn)
        graph.layout("fdp", args="-s72")
        return {a: tuple(map(float, graph.get_node(a).attr["pos"].rstrip("!").split(","))) for a in scene.spots}
