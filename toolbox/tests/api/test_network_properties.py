"""What holds of every network of the interface for Python: its script makes it again, and where no policy stands in the
way, each order of delivery ends in the same routes."""
import unittest

from hypothesis import given, strategies

from bgptools import Network
from common import marked
from simtools import random_scripts
from strategies import few, numbers, plain_networks

# Random scripts: most of their commands are accepted, and those that are not are marked so.
scripts = strategies.integers(0, 10 ** 6).map(
    lambda seed: marked(random_scripts.script(seed, 40).encode())[0].decode())


def asked(net):
    """What a network is, but for its script."""
    queues = [net.queue(*way) for each in net.sessions() for way in ((each.one, each.other), (each.other, each.one))]
    policies = {way: list(rules) for way, rules in net.run.network.rules.items() if rules}
    return net.nodes(), net.links(), net.sessions(), net.table(), queues, policies


class Scripts(unittest.TestCase):
    @few
    @given(scripts)
    def test_a_script_makes_its_network_again(self, script):
        with Network.from_lines(script) as net, Network.from_lines(net.script()) as again:
            self.assertEqual(again.script(), net.script())
            self.assertEqual(asked(again), asked(net))
            self.assertGreater(len(net.nodes()), 1)
            with net.copy() as copy:
                self.assertEqual((copy.script(), asked(copy)), (net.script(), asked(net)))

    @few
    @given(scripts, strategies.data())
    def test_each_step_is_the_beginning_of_the_script(self, script, data):
        with Network.from_lines(script) as net:
            step = data.draw(strategies.integers(0, net.step))
            lines = net.script().splitlines(keepends=True)
            with net.at(step) as before, Network.from_lines("".join(lines[:step])) as played:
                self.assertEqual(before.script(), "".join(lines[:step]))
                self.assertEqual(asked(before), asked(played))


class Orders(unittest.TestCase):
    @given(plain_networks(), numbers)
    def test_each_order_ends_in_the_same_routes(self, network, seed):
        lines, failures = network
        ends = []
        for words in ({}, {"order": "router"}, {"seed": seed}):
            with Network.from_lines(lines) as net:
                net.converge(**words)
                before = net.table()
                net.play(failures)
                net.converge(**words)
                self.assertTrue(net.quiet())
                ends.append((before, net.table()))
        self.assertEqual(ends, [ends[0]] * 3)

    @given(plain_networks(), numbers)
    def test_failures_that_are_mended_leave_nothing(self, network, seed):
        lines, failures = network
        with Network.from_lines(lines) as net:
            net.converge()
            before = net.table()
            net.play(failures)
            net.converge(seed=seed)
            net.play([line.replace("fail", "mend") for line in failures])
            net.converge(seed=seed)
            self.assertEqual(net.table(), before)
