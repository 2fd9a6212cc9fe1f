"""Checkpoints: what is done inside one leaves no trace, whatever it was and however it ended."""
import resource
from unittest import mock

from bgptools import Mistake, Network, NotConverged, Refusal
from bgptools.program import line_count
from bgptools.program.process import ProgramEnded
from common import DATA, EXAMPLES, TOOLBOX, Case

DISAGREE = TOOLBOX / "lessons" / "disagree.bgp"


def seen(net):
    """All that can be asked of a network: its script, its configuration, its tables, its queues."""
    waiting = net.run.program.waiting()
    queues = [net.queue(*way) for way in waiting]
    received = [net.received(one, other) for one, other in both_ways(net) if net.run.network.is_router(one)]
    return (net.script(), list(net.nodes()), list(net.links()), list(net.sessions()), list(net.table()), waiting, queues,
            received, net.quiet())


def both_ways(net):
    return [way for each in net.sessions() for way in ((each.one, each.other), (each.other, each.one))]


class Checkpoints(Case):
    def loaded(self, path):
        net = Network.load(path)
        self.addCleanup(net.close)
        return net

    def change(self, net):
        """Edits of several kinds, and deliveries."""
        one = net.sessions()[0]
        net.stop(one.one, one.other)
        net.router("250.0.0.1", 250)
        net.origin("250.0.0.1", "250.0.0.0/8")
        net.name("250.0.0.1", "new")
        try:
            net.converge(seed=3, most=40)
        except NotConverged:
            pass

    def test_all_is_as_it_was(self):
        for path in EXAMPLES + [DATA / "ring.bgp", DISAGREE]:
            with self.subTest(path=path):
                net = self.loaded(path)
                before = seen(net)
                with net.checkpoint():
                    self.change(net)
                    self.assertNotEqual(net.script(), before[0])
                self.assertEqual(seen(net), before)
                # It goes on as a copy does that has seen nothing of this.
                with net.copy() as other:
                    for each in (net, other):
                        self.change(each)
                    self.assertEqual(seen(net), seen(other))

    def test_one_in_another(self):
        net = self.loaded(DATA / "ring.bgp")
        first = seen(net)
        with net.checkpoint():
            net.converge()
            second = seen(net)
            for _ in range(2):
                with net.checkpoint():
                    self.change(net)
                self.assertEqual(seen(net), second)
            self.change(net)
        self.assertEqual(seen(net), first)
        self.assertEqual(net.run.program.snapshots, [])

    def test_faults_inside(self):
        net = self.loaded(DISAGREE)
        before = seen(net)
        with self.assertRaises(Refusal), net.checkpoint():
            net.router("250.0.0.1", 250)
            net.router("250.0.0.1", 250)
        self.assertEqual(seen(net), before)
        with self.assertRaises(NotConverged), net.checkpoint():
            net.converge()
        self.assertEqual(seen(net), before)

    def test_another_order_inside(self):
        """The program that converged takes the place of the first one, with its snapshots."""
        net = self.loaded(DISAGREE)
        before, program = seen(net), net.run.program
        with net.checkpoint(), net.checkpoint():
            net.converge(tries_others=True)
            self.assertIsNot(net.run.program, program)
        self.assertEqual(seen(net), before)

    def test_the_lines_are_used_up_inside(self):
        """A program that is started anew has the snapshots."""
        net = self.loaded(DATA / "ring.bgp")
        net.converge()
        before, count = seen(net), net.run.program.count
        with mock.patch.object(line_count, "MOST_LINES", count + 300):
            process = net.run.program.process
            with net.checkpoint():
                net.router("250.0.0.1", 250)
                with net.checkpoint():
                    net.router("251.0.0.1", 251)
                    for _ in range(310):
                        net.quiet()
                self.assertIsNot(net.run.program.process, process)
                self.assertEqual(net.nodes()[-1].address, "250.0.0.1")
            self.assertEqual(seen(net), before)

    def test_more_lines_inside_than_a_run_has(self):
        net = self.loaded(DATA / "ring.bgp")
        before, link = seen(net), net.links()[0]
        with mock.patch.object(line_count, "MOST_LINES", net.run.program.count + 200):
            with self.assertRaises(ProgramEnded), net.checkpoint():
                for metric in range(1, 300):
                    net.metric(link.one, link.other, metric)
            self.assertEqual(seen(net), before)

    def test_what_is_closed_or_torn(self):
        net = self.loaded(DATA / "ring.bgp")
        before = seen(net)
        with net.checkpoint():
            net.router("250.0.0.1", 250)
            net.run.program.is_torn = True
        self.assertEqual(seen(net), before)
        with net.checkpoint():
            net.router("250.0.0.1", 250)
            net.close()
        with self.assertRaisesRegex(Mistake, "closed"):
            net.quiet()

    def test_a_hundred_leave_the_memory_as_it_was(self):
        """The program's, after the first ten."""
        net = self.loaded(DATA / "ring.bgp")
        net.converge()
        sizes, before = [], seen(net)
        for _ in range(100):
            with net.checkpoint():
                self.change(net)
            with open("/proc/%d/statm" % net.run.program.process.pid) as told:
                sizes.append(int(told.read().split()[1]) * resource.getpagesize())
        self.assertEqual(seen(net), before)
        self.assertLess(sizes[-1] - sizes[9], 1 << 20)

    def test_lines_of_tools_are_no_commands(self):
        net = self.loaded(DATA / "ring.bgp")
        for line in ("snapshot", " restore 1", "restore", "snapshot 1"):
            with self.subTest(line=line), self.assertRaises(Refusal):
                net.play([line])
