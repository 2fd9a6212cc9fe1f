"""Searches in graphs: networkx finds the same in any graph. Tools that print text search with Python alone."""
import unittest

import pytest
from hypothesis import given, strategies

from bgptools.network.graph_search import hops, least_costs, neighbours

networkx = pytest.importorskip("networkx", reason="networkx is not installed (tools/setup)")

nodes = strategies.integers(0, 11).map(str)
# Links by their ends, one for each two, with costs.
links = strategies.dictionaries(strategies.tuples(nodes, nodes).map(sorted).map(tuple), strategies.integers(1, 65535))


class Searches(unittest.TestCase):
    @given(links, nodes)
    def test_hops(self, found, start):
        graph = networkx.Graph(list(found))
        graph.add_node(start)
        self.assertEqual(hops(neighbours(found), start), dict(networkx.single_source_shortest_path_length(graph, start)))

    @given(links, nodes)
    def test_least_costs(self, found, start):
        graph = networkx.Graph()
        graph.add_node(start)
        graph.add_weighted_edges_from((*ends, cost) for ends, cost in found.items())
        self.assertEqual(least_costs(found, start), dict(networkx.single_source_dijkstra_path_length(graph, start)))

    def test_a_detour_that_costs_less(self):
        """The direct link costs 9, the two others 5 together."""
        found = {("a", "b"): 9, ("a", "c"): 2, ("c", "b"): 3, ("x", "y"): 1}
        self.assertEqual(least_costs(found, "a"), {"a": 0, "b": 5, "c": 2})
        self.assertEqual(hops(neighbours(found), "a"), {"a": 0, "b": 1, "c": 1})
