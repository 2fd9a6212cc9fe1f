"""The objects of the interface as Python handles objects: pickled, copied, and given where others are expected."""
import concurrent.futures
import copy
import importlib.util
import inspect
import ipaddress
import multiprocessing
import pickle
import pkgutil
import unittest
from ipaddress import IPv4Address, IPv4Network, IPv6Address

import bgptools
from bgptools import Mistake, Network, Refusal, NotConverged
from bgptools.convergence.delivery import Convergence
from bgptools.convergence.orders import named
from bgptools.program.process import ProgramEnded
from bgptools.program.streams import Unwritable
from bgptools.session.log import Unkept
from bgptools.session.recovery import Recovered
from bgptools.session.requests import Malformed
from common import TOOLBOX, Case

LESSONS = TOOLBOX / "lessons"
TWO = """router 1.0.0.1 1
router 2.0.0.1 2
link 1.0.0.1 2.0.0.1 10
join 1.0.0.1 2.0.0.1
origin 1.0.0.1 10.0.0.0/8
"""
# So long a pool that hangs is waited for, in seconds.
PATIENCE = 100


def refused(_):
    with Network.from_lines(TWO) as net:
        net.fail("1.0.0.1", "9.0.0.1")


def refused_in_a_script(path):
    Network.load(path)


def not_converged(_):
    with Network.load(LESSONS / "disagree.bgp") as net:
        net.converge()


def mistaken(_):
    raise Mistake("a text", "a file", 7)


def ended(_):
    with Network() as net:
        net.run.program.process.kill()
        net.quiet()


def network(_):
    return Network()


def fault_of(call, given):
    """What a call raises here."""
    try:
        call(given)
    except Mistake as fault:
        return fault
    raise AssertionError("%s raised nothing" % call.__name__)


# What an exception is made of, by the names of the parameters.
GIVEN = {"text": "a text", "file": "a file", "line": 7, "number": 5, "status": 404, "command": "fail 1.0.0.1 2.0.0.1",
         "reply": "refused 2 no-router", "explanation": "there is no router", "error": OSError(5, "a text"),
         "done": Convergence(named("fair", None), [("1.0.0.1", "2.0.0.1")], ["took 10.0.0.0/8 update"], False,
                          {"10.0.0.0/8": ["1.0.0.1"]}, 8),
         "found": Recovered(3, 5, 1, 2, []), "counted": "steps", "most": 20000}


def exceptions():
    """All exceptions of the package, by the modules that they stand in."""
    for found in pkgutil.walk_packages(bgptools.__path__, "bgptools."):
        if found.name != "bgptools.__main__":
            module = importlib.import_module(found.name)
            yield from (each for _, each in inspect.getmembers(module, inspect.isclass)
                        if issubclass(each, BaseException) and each.__module__ == found.name)


def made_of(kind):
    """An exception of this kind: with each parameter that it has, or with a text."""
    if kind.__init__ in (Exception.__init__, BaseException.__init__):
        return kind("a text")
    return kind(**{name: GIVEN[name] for name in inspect.signature(kind).parameters})


class Faults(Case):
    def test_each_exception_of_the_package_is_pickled_and_copied(self):
        kinds = list(exceptions())
        self.assertLessEqual({Mistake, Refusal, NotConverged, ProgramEnded, Malformed, Unkept, Unwritable}, set(kinds))
        public = [getattr(bgptools, name) for name in bgptools.__all__ if inspect.isclass(getattr(bgptools, name))]
        self.assertEqual({kind for kind in public if issubclass(kind, BaseException)}, {Mistake, Refusal, NotConverged})
        for kind in kinds:
            with self.subTest(kind=kind):
                fault = made_of(kind)
                for found in (pickle.loads(pickle.dumps(fault)), copy.copy(fault), copy.deepcopy(fault)):
                    self.assertEqual((type(found), str(found), list(map(repr, found.args))),
                                     (kind, str(fault), list(map(repr, fault.args))))
                    self.assertEqual(repr(sorted(vars(found).items())), repr(sorted(vars(fault).items())))

    def assert_alike(self, found, wanted):
        self.assertEqual((type(found), str(found), found.args), (type(wanted), str(wanted), wanted.args))
        self.assertEqual(vars(found), vars(wanted))

    def test_a_pool_of_processes_brings_each_fault(self):
        path = self.file("a.bgp", TWO + "# name 1.0.0.1 west\nfail 1.0.0.1 9.0.0.1\n")
        calls = {refused: Refusal, refused_in_a_script: Refusal, not_converged: NotConverged, mistaken: Mistake,
                 ended: ProgramEnded}
        context = multiprocessing.get_context("fork")
        with context.Pool(2) as pool, concurrent.futures.ProcessPoolExecutor(2, context) as executor:
            for call, kind in calls.items():
                wanted = fault_of(call, path)
                self.assertIs(type(wanted), kind)
                for found in (lambda: pool.apply_async(call, (path,)).get(PATIENCE),
                              lambda: executor.submit(call, path).result(PATIENCE)):
                    with self.subTest(call=call.__name__), self.assertRaises(kind) as came:
                        found()
                    self.assert_alike(came.exception, wanted)
            with self.assertRaisesRegex(multiprocessing.pool.MaybeEncodingError, "`Network.from_lines` makes"):
                pool.apply_async(network, (0,)).get(PATIENCE)
            with self.assertRaisesRegex(Mistake, "`Network.from_lines` makes"):
                executor.submit(network, 0).result(PATIENCE)

    def test_pickle_and_copy_make_each_fault_again(self):
        faults = [fault_of(call, 0) for call in (refused, not_converged, mistaken)]
        faults += [Malformed("a request", "an id"), Unkept("a log", "a file")]
        for fault in faults:
            for protocol in range(pickle.HIGHEST_PROTOCOL + 1):
                self.assert_alike(pickle.loads(pickle.dumps(fault, protocol)), fault)
            self.assert_alike(copy.copy(fault), fault)
            self.assert_alike(copy.deepcopy(fault), fault)


class Copies(Case):
    def test_copy_makes_a_second_run(self):
        with Network.from_lines(TWO) as net, copy.copy(net) as other:
            self.assertIsNot(net.run, other.run)
            self.assertEqual((other.script(), len(other.converge().deliveries)), (TWO, 1))
            self.assertEqual((net.script(), net.quiet()), (TWO, False))
            other.close()
            self.assertEqual(net.best("1.0.0.1", "10.0.0.0/8").source, "self")

    def test_deepcopy_and_pickle_say_what_to_do(self):
        with Network.from_lines(TWO) as net:
            for call, told in ((copy.deepcopy, "deepcopy makes no other: `net.copy()` does"),
                               (pickle.dumps, "keep `net.script()`, from which `Network.from_lines` makes")):
                for given in (net, [net], {"net": net}):
                    with self.assertRaises(Mistake) as fault:
                        call(given)
                    self.assertIn(told, str(fault.exception))
            self.assertEqual(net.script(), TWO)

    def test_answers_are_pickled_and_copied(self):
        with Network.from_lines(TWO) as net:
            effect = net.what_if("fail 1.0.0.1 2.0.0.1", trace=[("2.0.0.1", "10.0.0.1")])
            for found in (net.converge(), net.table(), net.nodes(), net.explain("2.0.0.1", "10.0.0.0/8"), effect):
                self.assertEqual(pickle.loads(pickle.dumps(found)), found)
                self.assertEqual(copy.deepcopy(found), found)


class Given(Case):
    def test_addresses_and_prefixes_of_ipaddress(self):
        one, two, seven, nine = map(ipaddress.ip_address, ("1.0.0.1", "2.0.0.1", "7.0.0.1", "9.0.0.1"))
        ten, eleven = IPv4Network("10.0.0.0/8"), IPv4Network("11.0.0.0/8")
        text = {each: str(each) for each in (one, two, seven, nine, ten, eleven)}

        def told(at):
            """What a network answers whose addresses and prefixes are given as `at` has them."""
            with Network() as net:
                for router, asn in ((one, 1), (two, 2)):
                    net.router(at(router), asn)
                net.virtual(at(seven), 7)
                for other, cost in ((two, 10), (seven, 3)):
                    net.link(at(one), at(other), cost)
                    net.join(at(one), at(other))
                net.name(at(one), "west")
                net.cluster(at(one), at(nine))
                net.origin(at(one), at(ten))
                net.feed(at(seven), at(one), "update", at(eleven), (asn for asn in (7, 21)), comm=iter([9, 2]))
                waits = net.queue(at(seven), at(one)), net.deliver(at(seven), at(one))
                effect = net.what_if(iter(["fail west 2.0.0.1"]), iter([(at(two), at(IPv4Address("10.0.0.9")))]))
                net.converge()
                return [waits, effect, net.routes(at(two)), net.best(at(two), at(ten)), net.why(at(two), at(eleven)),
                        net.received(at(two), at(one)), net.advertised(at(one), at(two)), net.table(at(ten)),
                        net.trace(at(two), at(IPv4Address("11.0.0.1"))), net.cost(at(one), at(one)),
                        net.explain(at(two), at(ten)), net.script(),
                        net.picture("dot", at(ten), (at(two), at(IPv4Address("10.0.0.9"))), of=at(one), only=iter([1]))]
        found, wanted = told(lambda each: each), told(lambda each: text.get(each, str(each)))
        self.assertEqual(found, wanted)
        self.assertEqual(len(wanted[2]), 2)

    def test_what_is_no_address_of_version_4_is_a_mistake(self):
        with Network.from_lines(TWO) as net:
            for given in (IPv6Address("::1"), ipaddress.ip_network("::/0")):
                with self.assertRaisesRegex(Mistake, "^one word of a command is expected, and not IPv6"):
                    net.routes(given)
            with self.assertRaises(Refusal) as fault:
                net.routes(ipaddress.ip_interface("1.0.0.1/8"))
            self.assertEqual(fault.exception.name, "syntax")
            with self.assertRaisesRegex(Mistake, "^a prefix is expected, as 10.0.0.0/8, and not '1.0.0.1'$"):
                net.table(IPv4Address("1.0.0.1"))

    def test_what_is_no_text_is_no_line(self):
        with Network.from_lines(TWO) as net:
            for given, shown in ((b"quiet", "b'quiet'"), ([b"quiet"], "b'quiet'"), (["quiet", 5], "5"), (None, "None")):
                for call in (net.play, net.what_if, Network.from_lines):
                    with self.assertRaises(Mistake) as fault:
                        call(given)
                    self.assertEqual(str(fault.exception),
                                     "a text is expected, or its lines, each a text, and not " + shown)

    def test_what_is_no_pair_is_no_packet(self):
        with Network.from_lines(TWO) as net:
            told = "^a packet goes from a router to an address, as "
            self.assertRaisesRegex(Mistake, told, net.what_if, [], trace=[None])
            for given in ("1.0.0.1", ("1.0.0.1",), ["1.0.0.1", "2.0.0.1", "3.0.0.1"]):
                self.assertRaisesRegex(Mistake, told, net.what_if, [], trace=[given])
                self.assertRaisesRegex(Mistake, told, net.picture, "dot", trace=given)
            self.assertEqual(len(net.what_if([], trace=[["2.0.0.1", "10.0.0.1"]]).asked), 1)

    @unittest.skipUnless(importlib.util.find_spec("pandas"), "pandas is not installed: apt-get install python3-pandas")
    def test_numbers_and_lists_of_numpy(self):
        import numpy
        of = numpy.int64
        with Network() as net:
            net.virtual("7.0.0.1", of(7))
            net.router("1.0.0.1", of(1))
            net.link("1.0.0.1", "7.0.0.1", numpy.uint16(10))
            net.join("1.0.0.1", "7.0.0.1")
            net.feed("7.0.0.1", "1.0.0.1", "update", "10.0.0.0/8", numpy.array([7, 21]), med=of(5), comm=numpy.array([9, 2]))
            net.feed("7.0.0.1", "1.0.0.1", "update", "11.0.0.0/8", of(7))
            net.rule("1.0.0.1", "7.0.0.1", "in", "any", "permit", pref=of(50))
            self.assertEqual(net.script().splitlines()[4:], [
                "feed 7.0.0.1 1.0.0.1 update 10.0.0.0/8 7,21 igp 5 comm=2,9", "feed 7.0.0.1 1.0.0.1 update 11.0.0.0/8 7 igp -",
                "rule 1.0.0.1 7.0.0.1 in any permit pref=50"])
            with net.at(of(4)) as before, net.copy() as other:
                self.assertEqual(before.step, 4)
                self.assertEqual(net.converge(seed=of(3), most=of(99)), other.converge(seed=3, most=99))
            with self.assertRaisesRegex(Mistake, "^one word of a command is expected, and not array"):
                net.router("2.0.0.1", numpy.array([1, 2]))

    def test_lines_of_an_open_file_and_of_a_generator(self):
        path = self.file("a.bgp", TWO + "fail 1.0.0.1 9.0.0.1\n")
        with open(path) as lines, self.assertRaises(Refusal) as fault:
            Network.from_lines(lines)
        self.assertEqual((fault.exception.line, fault.exception.number), (6, 2))
        with Network.from_lines(line for line in TWO.splitlines()) as net:
            self.assertEqual(net.script(), TWO)
