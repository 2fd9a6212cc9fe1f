"""All stable states, against independent searches: the definition of stable paths problems, and every choice of
sources in small networks with reflectors and MED, decided by the reference model tools/model.py."""
import functools
import itertools
import unittest

import model
from common import program
from hypothesis import given, settings, strategies

from bgptools.change.explanation import explain
from bgptools.convergence import all_states
from bgptools.convergence.run import Run
from bgptools.network.selection import Candidate, chosen
from bgptools.program.replies import best
from bgptools.program.script import lines_of

PREFIX = "203.0.113.0/24"
NODES = (1, 2, 3, 4)


def found(lines):
    """What the finder says of a script with one prefix, and its lines."""
    script = lines_of("".join(line + "\n" for line in lines).encode(), "a script")
    return script, all_states.find(script).prefixes[0]


@strategies.composite
def stable_paths_problems(draw):
    """Permitted paths of each node to 0, those it likes best first (Griffin, Shepherd and Wilfong, 2002)."""
    edges = draw(strategies.sets(strategies.sampled_from(
        [(0, node) for node in NODES] + list(itertools.combinations(NODES, 2))), min_size=3))
    paths = {}
    for node in NODES:
        others = [each for each in NODES if each != node]
        simple = [(node, *way, 0) for count in range(len(others) + 1) for way in itertools.permutations(others, count)]
        there = [path for path in simple if all(tuple(sorted(edge)) in edges for edge in zip(path, path[1:]))]
        chosen = draw(strategies.lists(strategies.sampled_from(there), unique=True, max_size=4)) if there else []
        paths[node] = chosen
    return edges, paths


def address(node):
    return "%d.0.0.1" % (node or 9)


def script_of(edges, paths):
    """The problem as a script: a router an AS. A route carries a community for each permitted path that it took, so
    that an import rule knows the path, and sets a preference by its rank."""
    numbers = {path: at for at, path in enumerate(((node, *path[1:]) for node in NODES for path in paths[node]), 1)}
    numbers[0,] = 0
    lines = ["router %s %d" % (address(node), node or 9) for node in (0, *NODES)]
    for one, other in sorted(edges):
        lines += ["link %s %s 1" % (address(one), address(other)), "join %s %s" % (address(one), address(other))]
        for here, there in ((one, other), (other, one)):
            if here == 0:
                lines.append("rule %s %s out any permit add=0" % (address(here), address(there)))
            for rank, path in enumerate(paths.get(here, ())):
                if path[1] == there and path[1:] in numbers:
                    lines.append("rule %s %s in comm %d permit pref=%d add=%d" % (
                        address(here), address(there), numbers[path[1:]], 1000 - rank, numbers[path]))
            lines.append("rule %s %s in any deny" % (address(here), address(there)))
    return lines + ["origin %s %s" % (address(0), PREFIX)]


def solutions(edges, paths):
    """All assignments in which each node has the best of its permitted paths that its neighbours' ones make."""
    stable = []
    for chosen in itertools.product(*([()] + paths[node] for node in NODES)):
        now = {0: (0,), **dict(zip(NODES, chosen))}
        if all(now[node] == next((path for path in paths[node] if now[path[1]] == path[1:]), ()) for node in NODES):
            stable.append(now)
    return stable


def path_of(node, route):
    """The path of a node, by the AS path of its route."""
    if route is None:
        return ()
    return (node, *(int(number) % 9 for number in route.attributes.path.split(",")))


def ends_of(script, result, number):
    """What the program says at the end of the script that reaches a state: whether no message waits, and the routes."""
    lines = all_states.script_of(script, all_states.AllStates([result]), number)
    routers = list(result.states[0].chosen)
    lines += ["quiet"] + ["best %s %s" % (each, PREFIX) for each in routers]
    replies = program("".join(line + "\n" for line in lines))
    return replies[-len(routers) - 1], dict(zip(routers, replies[-len(routers):]))


class StablePathsProblems(unittest.TestCase):
    @given(stable_paths_problems())
    def test_all_solutions_are_found_and_reached(self, problem):
        edges, paths = problem
        script, result = found(script_of(edges, paths))
        wanted = solutions(edges, paths)
        told = [{0: (0,), **{node: path_of(node, result.route(state, address(node))) for node in NODES}}
                for state in result.states]
        self.assertCountEqual(told, wanted)
        for number, state in enumerate(result.states, 1):
            if state.deliveries is not None:
                quiet, best = ends_of(script, result, number)
                self.assertEqual(quiet, "yes")
                for node in NODES:
                    paths_said = best[address(node)].split("path=")[1:]
                    said = paths_said[0].split(" ")[0] if paths_said else None
                    path = wanted[wanted.index(told[number - 1])][node]
                    self.assertEqual(said, ",".join(str(each or 9) for each in path[1:]) or None)


@strategies.composite
def reflecting_networks(draw):
    """An AS of up to four routers with some sessions, clients and costs; fed by up to three peers of two ASes, and with
    a router of another AS beside it, which sends routes back."""
    count = draw(strategies.integers(2, 4))
    routers = ["1.0.0.%d" % number for number in range(1, count + 1)]
    lines = ["router %s 1" % router for router in routers] + ["router 2.0.0.1 2"]
    for one, other in itertools.combinations(routers, 2):
        lines.append("link %s %s %d" % (one, other, draw(strategies.integers(1, 9))))
        if draw(strategies.integers(0, 3)):
            lines.append("join %s %s" % (one, other))
            lines += draw(strategies.sampled_from(([], [], ["client %s %s on" % (one, other)],
                                                   ["client %s %s on" % (other, one)])))
    lines += ["med %s always" % router for router in routers if not draw(strategies.integers(0, 5))]
    for router in draw(strategies.sets(strategies.sampled_from(routers), max_size=2)):
        lines += ["link %s 2.0.0.1 1" % router, "join %s 2.0.0.1" % router]
        if draw(strategies.booleans()):
            lines.append("rule %s 2.0.0.1 in any permit pref=%d" % (router, draw(strategies.sampled_from((50, 150)))))
    feeds = []
    for number, asn in enumerate((6, 6, 7), 1):
        virtual, router = "%d.0.0.%d" % (asn, number), draw(strategies.sampled_from(routers + ["2.0.0.1"]))
        way = (virtual, router)
        lines += ["virtual %s %d" % (virtual, asn), "link %s %s %d" % (*way, draw(strategies.integers(1, 3)))]
        lines.append("join %s %s" % way)
        if number == 1 or draw(strategies.booleans()):
            feeds.append("feed %s %s update %s %d,9 igp %d" % (*way, PREFIX, asn, draw(strategies.integers(0, 2))))
    if draw(strategies.booleans()):
        feeds.append("origin %s %s" % (draw(strategies.sampled_from(routers)), PREFIX))
    return lines, feeds


class Sources:
    """All choices of a source by each router, of a network of the reference model."""

    def __init__(self, lines):
        self.net = model.Net()
        for line in lines:
            assert model.answer(self.net, line) == ["ok"], line
        # The configuration stays as it is from here on.
        self.net.peers, self.net.up = functools.lru_cache(None)(self.net.peers), functools.lru_cache(None)(self.net.up)
        self.prefix = model.prefix(PREFIX)
        self.routers = sorted(node for node, (_, is_virtual) in self.net.nodes.items() if not is_virtual)
        self.fed = {(way[1], self.prefix, way[0]): messages[-1][1] for way, messages in self.net.queues.items()
                    if messages and self.net.nodes[way[0]][1]}

    def stable(self):
        """Each stable state, as the reply to `best` at each router."""
        options = [[None, *self.sources(router)] for router in self.routers]
        told = (self.state(dict(zip(self.routers, sources))) for sources in itertools.product(*options))
        return [state for state in told if state is not None]

    def sources(self, router):
        """From whom a router may have a route at all."""
        peers = [peer for peer in self.net.peers(router) if self.net.up(router, peer)
                 and (peer in self.routers or (router, self.prefix, peer) in self.fed)]
        return (["self"] if (router, self.prefix) in self.net.origins else []) + peers

    def state(self, sources):
        """What routers choose by these sources, if each source is that which the router chooses; else nothing."""
        self.net.received = dict(self.fed)
        chosen = dict.fromkeys(self.routers)
        for _ in range(len(self.routers) + 1):
            before = dict(self.net.received)
            for router in self.routers:
                chosen[router] = next((candidate for source, _, candidate in self.net.routes(router, self.prefix)
                                       if candidate and source == sources[router]), None)
                for peer in self.net.peers(router):
                    is_up = self.net.up(router, peer)
                    told = self.net.told(router, peer, self.prefix, chosen[router]) if is_up else None
                    self.net.received.pop((peer, self.prefix, router), None)
                    if told is not None:
                        self.net.received[peer, self.prefix, router] = told
            if self.net.received == before:
                break
        best = {router: self.net.best(router, self.prefix) for router in self.routers}
        if any((best[router] or {"source": None})["source"] != sources[router] or best[router] != chosen[router]
               for router in self.routers):
            return None
        return {model.show(router): model.held(self.prefix, each) if each else "none" for router, each in best.items()}


def shown(state):
    """A state of the finder, as the program replies it."""
    return {router: "%s from %s %s" % (PREFIX, each.source, each.attributes) if each else "none"
            for router, each in state.chosen.items()}


class Reflection(unittest.TestCase):
    @given(reflecting_networks())
    def test_the_same_states_as_by_all_sources(self, network):
        lines, feeds = network
        script, result = found(lines + feeds)
        wanted = Sources(lines + feeds).stable()
        self.assertEqual(result.cut_off, "")
        self.assertCountEqual(map(shown, result.states), wanted)
        for number, state in enumerate(result.states, 1):
            if state.deliveries is not None:
                self.assertEqual(ends_of(script, result, number), ("yes", shown(state)))

    @settings(max_examples=settings().max_examples // 16)
    @given(reflecting_networks())
    def test_the_program_chooses_the_same(self, network):
        """Of all routes that a router may choose, as `explain` finds them."""
        lines, feeds = network
        with Run(most=200) as run:
            for line in lines + feeds:
                run.say(line)
            run.converge()
            for router in run.network.routers():
                routes = [Candidate(each.source, each.attributes, each.is_external, each.cost, each.ident, each.peer)
                          for each in explain(run, router, PREFIX) if not each.is_excluded]
                found = chosen(routes, router in run.network.med_always)
                said = best(run.ask(["best %s %s" % (router, PREFIX)])[0])
                self.assertEqual(found and (found.source, found.attributes), said and (said.source, said.attributes))
