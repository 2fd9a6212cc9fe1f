"""Our readers of GML and GraphML beside those of networkx: where both read a file they read the same, and what networkx
does not do. So `from-graph` has readers of its own."""
import re
import warnings

import pytest
from hypothesis import given, strategies

from bgptools.importers.common.omissions import LeftOut
from bgptools.importers.graphs import gml, graphml
from common import DATA, TOOLBOX, Case, inside
from strategies import few

networkx = pytest.importorskip("networkx", reason="networkx is not installed (tools/setup)")

GRAPHS = DATA / "graph"
HEAD = '<graphml xmlns="http://graphml.graphdrawing.org/xmlns">\n'
NUMBERED = "graph [\nnode [ id 0 ]\nnode [ id 1 ]\n%s\n]\n"


def value(text):
    """A value as both readers mean it: a number, or a text without spaces around it."""
    try:
        return repr(float(text))
    except ValueError:
        return str(text).strip()


def plain(nodes, edges, is_directed):
    """A graph in one form: nodes by their ids, and edges in some order, by sorted ends if they lead both ways."""
    def of(attributes):
        # A list inside of a node, as `graphics [ .. ]`, is left out by ours, and told.
        return {name: value(each) for name, each in attributes.items() if not isinstance(each, dict)}
    return {key: of(attributes) for key, attributes in nodes}, sorted((
        ((ends if is_directed else tuple(sorted(ends))), of(attributes)) for ends, attributes in edges), key=repr)


def ours(graph):
    """A graph as we read it."""
    return plain(((node.key, node.attributes) for node in graph.nodes.values()),
                 (((edge.source, edge.target), edge.attributes) for edge in graph.edges),
                 any(edge.is_directed for edge in graph.edges))


def theirs(graph):
    """A graph of networkx, which keeps the values that stand for all nodes or edges beside the graph."""
    nodes, edges = (graph.graph.get(of + "_default", {}) for of in ("node", "edge"))
    return plain(((str(node), {**nodes, **found}) for node, found in graph.nodes(data=True)),
                 (((str(one), str(other)), {**edges, **found}) for one, other, found in graph.edges(data=True)),
                 graph.is_directed())


names = strategies.from_regex(r"x[A-Za-z0-9_]{0,7}", fullmatch=True)
# Text without spaces at its ends, of characters that both may write.
texts = strategies.text(strategies.characters(whitelist_categories=("L", "N", "P", "S")), min_size=1, max_size=8)
attributes_of_any = strategies.dictionaries(names, strategies.integers(0, 10 ** 6).map(str) | texts, max_size=3)


@strategies.composite
def graphs(draw):
    """A graph of networkx, with several edges between two nodes, directed or not, and attributes."""
    made = draw(strategies.sampled_from((networkx.MultiGraph, networkx.MultiDiGraph)))()
    nodes = draw(strategies.dictionaries(strategies.integers(0, 99), attributes_of_any, min_size=1, max_size=6))
    made.add_nodes_from(nodes.items())
    ends = strategies.sampled_from(sorted(nodes))
    for one, other, of_edge in draw(strategies.lists(strategies.tuples(ends, ends, attributes_of_any), max_size=6)):
        made.add_edge(one, other, **of_edge)
    return made


class Same(Case):
    def test_files_of_the_repository(self):
        """networkx refuses a hyperedge, and an exponent without a point: these are taken out of the files."""
        for path in (GRAPHS / "abilene.gml", GRAPHS / "weights.gml", TOOLBOX / "lessons" / "ring.gml"):
            text = re.sub(r"([0-9])e([0-9])", r"\1.0E\2", path.read_text())
            with self.subTest(path=path.name):
                read = networkx.parse_gml(text if "multigraph" in text else text.replace("graph [", "graph [\nmultigraph 1"),
                                          label="id")
                self.assertEqual(ours(gml.read(text.encode(), "g", LeftOut())), theirs(read))
        text = re.sub("<hyperedge.*?</hyperedge>", "", (GRAPHS / "europe.graphml").read_text(), flags=re.DOTALL)
        with warnings.catch_warnings():
            warnings.simplefilter("ignore")
            read = networkx.parse_graphml(text, force_multigraph=True)
        self.assertEqual(ours(graphml.read(text.encode(), "g", LeftOut())), theirs(read))

    @few
    @given(graphs())
    def test_what_networkx_writes_as_gml_is_read_as_it_was_meant(self, made):
        """networkx numbers nodes, whose names are labels then, and the edges of two nodes (`key`)."""
        text = "\n".join(networkx.generate_gml(made))
        found = gml.read(text.encode(), "g.gml", LeftOut())
        label = {node.key: node.attributes.pop("label") for node in found.nodes.values()}
        self.assertEqual([edge.attributes.pop("key") for edge in found.edges], [str(key) for *_, key in made.edges])
        self.assertEqual(plain(((label[node.key], node.attributes) for node in found.nodes.values()),
                               (((label[edge.source], label[edge.target]), edge.attributes) for edge in found.edges),
                               made.is_directed()), theirs(made))

    @few
    @given(graphs())
    def test_what_networkx_writes_as_graphml_both_read_alike(self, made):
        text = "\n".join(networkx.generate_graphml(made, named_key_ids=True))
        self.assertEqual(ours(graphml.read(text.encode(), "g.graphml", LeftOut())), theirs(made))
        self.assertEqual(theirs(networkx.parse_graphml(text, force_multigraph=True)), theirs(made))


class Otherwise(Case):
    """What networkx does otherwise. If one of these fails, networkx has learnt it: see docs/explanation/decisions.md."""

    def told(self, text, name="g.gml"):
        """What from-graph tells of a file, and its exit status."""
        made = inside("from-graph", self.file(name, text))
        return made.stderr.replace(str(self.folder) + "/", ""), made.returncode

    def test_networkx_names_no_line(self):
        for text, said, place in (
                (NUMBERED % "edge [ source 0 target 7 ]", "edge #0 has undefined target 7", "g.gml:4: "),
                (NUMBERED % "node [ id 1 ]", "node id 1 is duplicated", "g.gml:4: "),
                ("graph [\nnode [ label 1 ] ]", "node #0 has no 'id' attribute", "g.gml:2: ")):
            with self.subTest(said=said):
                with self.assertRaises(networkx.NetworkXError) as fault:
                    networkx.parse_gml(text, label="id")
                self.assertEqual(str(fault.exception), said)
                told, status = self.told(text)
                self.assertTrue(told.startswith(place), told)
                self.assertEqual(status, 2)

    def test_networkx_refuses_files_that_can_be_read(self):
        """Links of costs as programs name them, and several links of two nodes."""
        for more, said, status in (("edge [ source 0 target 1 igp-weight 3 ]", "cannot tokenize", 1),
                                   ("edge [ source 0 target 1 ]\nedge [ source 1 target 0 ]", "is duplicated", 1),
                                   ("edge [ source 0 target 1 w 1e3 ]", "expected an int", 0)):
            with self.subTest(said=said):
                with self.assertRaisesRegex(networkx.NetworkXError, said):
                    networkx.parse_gml(NUMBERED % more, label="id")
                self.assertEqual(self.told(NUMBERED % more)[1], status)
        text = HEAD + '<graph edgedefault="undirected"><node id="1"/>\n%s</graph></graphml>'
        for more, said in (("<hyperedge/>", "support hyperedges"),
                           ('<node id="2"/><edge source="1" target="2" directed="true"/>', "directed=true edge found")):
            with self.subTest(said=said):
                with self.assertRaisesRegex(networkx.NetworkXError, said):
                    networkx.parse_graphml(text % more)
                told, status = self.told(text % more, "g.graphml")
                self.assertIn("g.graphml:3: not taken over: ", told)
                self.assertEqual(status, 1)

    def test_networkx_leaves_out_and_makes_up_without_a_word(self):
        whole = HEAD + '<graph edgedefault="undirected"><node id="1"/>\n%s</graph>%s</graphml>'
        for text, nodes, place in (
                (whole % ('<node id="2"><graph><node id="3"/></graph></node>', ""), ["1", "2"], "g.graphml:3: not taken"),
                (whole % ("", "\n<graph><node id='2'/></graph>"), ["1"], "g.graphml:4: not taken over: "),
                (whole % ("<odd><node id='2'/></odd>", ""), ["1"], "g.graphml:3: note: the element `odd`"),
                (whole % ("<node id='1'/>", ""), ["1"], "g.graphml:3: node 1 stands in line 2 already"),
                (whole % ("<edge source='1' target='9'/>", ""), ["1", "9"], "g.graphml:3: there is no node 9")):
            with self.subTest(place=place), warnings.catch_warnings():
                warnings.simplefilter("error")
                self.assertEqual(list(networkx.parse_graphml(text)), nodes)
                self.assertIn(place, self.told(text, "g.graphml")[0])


