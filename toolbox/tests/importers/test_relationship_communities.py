"""from-as-rel --communities: policies by marks advertise what policies by neighbours do, and each route has the marks
of its way."""
import random
import re
from unittest import mock

from common import TOP, Case, inside, program, tool
from test_relationships import relationships

from bgptools.convergence.run import Run
from bgptools.program import line_count
from bgptools.program.script import lines_of

CUSTOMER, PEER, PROVIDER = 1, 2, 3
TRANS = 23456


def renumbered(text, seed):
    """The relationships of a file, by the pair of their ASes, with other AS numbers for some: above 65535, 65535
    itself, and 23456, by which the marks of the greater ones begin."""
    draw = random.Random(seed)
    pairs = {tuple(map(int, line.split("|")[:2])): int(line.split("|")[2]) for line in text.split("\n")[1:-1]}
    asns = sorted({asn for pair in pairs for asn in pair})
    others = draw.sample(range(65536, 2 ** 32), len(asns) // 3) + [65535, TRANS]
    new = {**{asn: asn for asn in asns}, **dict(zip(draw.sample(asns, len(others)), others))}
    return {(new[one], new[other]): kind for (one, other), kind in pairs.items()}


def kind_of(kinds, asn, neighbour):
    """What a neighbour is to an AS."""
    if kinds.get((asn, neighbour)) == -1:
        return CUSTOMER
    return PROVIDER if kinds.get((neighbour, asn)) == -1 else PEER


def mark(asns, asn, kind):
    """The community by which an AS marks routes of this kind, as docs/reference/tools.md has it."""
    large = sorted(each for each in asns if each > 65535)
    return asn * 65536 + kind if asn <= 65535 else TRANS * 65536 + 10 * (large.index(asn) + 1) + kind


def without_communities(line):
    return re.sub(" comms=.*", "", line)


class BothScripts(Case):
    """One file as two scripts: the deliveries that converge the one are given to the other, word for word."""

    def setUp(self):
        super().setUp()
        self.kinds, self.plain, self.marking, self.routers = {}, [], [], {}

    def make(self, seed, count=18):
        """The two scripts, without comments, and each AS's router."""
        self.kinds = renumbered(relationships(count, seed), seed)
        ties = "".join("%d|%d|%d\n" % (*pair, kind) for pair, kind in self.kinds.items())
        words = ("from-as-rel", self.file("rel%d" % seed, ties), "--origins", "all")
        self.plain, self.marking = (
            [line for line in made.stdout.split("\n")[:-1] if not line.startswith("#")]
            for made in (tool(*words, status=0), tool(*words, "--communities", status=0)))
        words = [line.split(" ") for line in self.plain if line.startswith("router ")]
        self.routers = {int(asn): router for _, router, asn in words}

    def converged(self, *changes):
        """What the first script and the changes want after its own lines until it is quiet: deliveries and changes."""
        with Run() as run:
            run.play(lines_of("\n".join(self.plain).encode(), "the script"))
            self.assertTrue(run.converge().is_converged)
            for change in changes:
                self.assertEqual(run.say(change), ["ok"])
                self.assertTrue(run.converge().is_converged)
            return run.lines[len(self.plain):]

    def assert_same(self, later):
        """Both scripts answer all that comes later alike, communities aside. The routes of each AS are given back,
        without and with marks."""
        asked = later + ["quiet"] + ["routes " + router for router in self.routers.values()]
        plain, marking = (program("\n".join(script + asked)) for script in (self.plain, self.marking))
        self.assertEqual(set(plain[:len(self.plain)]) | set(marking[:len(self.marking)]), {"ok"})
        plain, marking = plain[len(self.plain):], marking[len(self.marking):]
        self.assertEqual([without_communities(line) for line in marking], plain)
        self.assertEqual(marking[len(later)], "yes")
        return [self.tables(replies[len(later) + 1:]) for replies in (plain, marking)]

    def tables(self, replies):
        rest = iter(replies)
        return {asn: list(iter(lambda: next(rest), "end %d" % len(self.routers))) for asn in self.routers}

    def assert_marks(self, tables):
        """Each route has a mark of each AS that took it, for what that AS took it from."""
        for asn, lines in tables.items():
            for line in lines:
                path = re.search(" path=([0-9,]*)", line).group(1)
                ases = [asn] + [int(each) for each in path.split(",") if each]
                marks = sorted(mark(self.routers, one, kind_of(self.kinds, one, other))
                               for one, other in zip(ases, ases[1:]))
                found = re.search(" comms=([0-9,]*)$", line)
                self.assertEqual([int(each) for each in found.group(1).split(",")] if found else [], marks, line)

    def test_both_scripts_end_with_the_same_routes(self):
        for seed in range(6):
            with self.subTest(seed=seed):
                self.make(seed)
                _, marked = self.assert_same(self.converged())
                self.assertEqual({len(lines) for lines in marked.values()}, {18})
                self.assert_marks(marked)

    def leakers(self):
        """The ASes that have two providers, each with the lines that clear its policies towards both."""
        for asn in sorted(self.routers):
            providers = sorted(one for (one, other), kind in self.kinds.items() if kind == -1 and other == asn)
            if len(providers) > 1:
                yield ["clear %s %s out" % (self.routers[asn], self.routers[to]) for to in providers]

    def test_a_leak_goes_as_far_in_both(self):
        """What leaks carries marks of other ASes, those for routes of peers and providers among them. Nobody but the AS
        that gave them looks at them."""
        moved = 0
        for seed in range(4):
            self.make(seed)
            quiet, _ = self.assert_same(self.converged())
            for clears in list(self.leakers())[:3]:
                with self.subTest(seed=seed, clears=clears):
                    leaked, marked = self.assert_same(self.converged(*clears))
                    self.assert_marks(marked)
                    moved += leaked != quiet
        self.assertGreater(moved, 8)

    def test_another_origin_is_believed_by_the_same(self):
        self.make(9)
        routers = list(self.routers.values())
        prefix = next(line.split(" ")[2] for line in self.plain if line.startswith("origin "))
        quiet, _ = self.assert_same(self.converged())
        hijacked, marked = self.assert_same(self.converged("origin %s %s" % (routers[-1], prefix)))
        self.assertNotEqual(hijacked, quiet)
        self.assert_marks(marked)


class Marks(Case):
    def rules(self, text, *words):
        """The rules of the script with marks."""
        made = tool("from-as-rel", self.file("rel", text), "--communities", *words, status=0).stdout
        return [line for line in made.split("\n") if line.startswith("rule ")]

    def test_the_rules_of_an_as(self):
        """AS 4 has the providers 1 and 2, the peer 5 and the customer 6. 4:1 is 4 * 65536 + 1."""
        rules = self.rules("1|4|-1\n2|4|-1\n4|5|0\n4|6|-1\n1|2|0\n")
        here = sorted(line for line in rules if line.startswith("rule 10.0.4.1 "))
        into = {1: "pref=80 add=262147", 2: "pref=80 add=262147", 5: "pref=90 add=262146", 6: "add=262145"}
        self.assertEqual(here, sorted(
            ["rule 10.0.4.1 10.0.%d.1 in any permit %s" % each for each in into.items()]
            + ["rule 10.0.4.1 10.0.%d.1 out comm %d deny" % (to, number)
               for to in (1, 2, 5) for number in (262146, 262147)]))

    def test_marks_of_large_numbers(self):
        """23456 * 65536 is 1537212416; 65535:1 is 4294901761. AS 23456 itself, if a file has it, has other marks."""
        rules = self.rules("70000|23456|-1\n4200000000|70000|0\n65535|23456|-1\n")
        self.assertEqual([line for line in rules if " in " in line], [
            "rule 10.91.160.1 10.255.255.1 in any permit pref=80 add=1537212419",
            "rule 10.91.160.1 11.0.0.1 in any permit pref=80 add=1537212419",
            "rule 10.255.255.1 10.91.160.1 in any permit add=4294901761",
            "rule 11.0.0.1 10.91.160.1 in any permit add=1537212427",
            "rule 11.0.0.1 11.0.1.1 in any permit pref=90 add=1537212428",
            "rule 11.0.1.1 11.0.0.1 in any permit pref=90 add=1537212438"])

    def test_no_two_ases_have_a_mark_in_common(self):
        """As many ASes as a network has, all but three of them with large numbers."""
        asns = [TRANS - 1, TRANS, TRANS + 1] + list(range(65536, 65536 + 4093))
        pairs = enumerate(zip(asns, asns[1:]))
        ties = "".join("%d|%d|%d\n" % (one, other, at % 2 - 1) for at, (one, other) in pairs)
        owners = {}
        for line in self.rules(ties):
            owners.setdefault(re.search("(?:add=|comm )([0-9]+)", line).group(1), set()).add(line.split(" ")[1])
        self.assertEqual({len(routers) for routers in owners.values()}, {1})
        self.assertEqual(len({router for routers in owners.values() for router in routers}), 4096)

    def test_256_sessions_have_two_rules_each(self):
        rules = self.rules("".join("1|%d|0\n" % asn for asn in range(2, 258)), "--origins", "2")
        out = [line for line in rules if line.startswith("rule 10.0.1.1 ") and " out " in line]
        self.assertEqual(len(out), 512)
        self.assertEqual({sum(" %s out " % line.split(" ")[2] in each for each in out) for line in out}, {2})

    def test_more_lines_than_one_script_holds(self):
        path = self.file("rel", "1|2|0\n1|3|0\n2|3|-1\n3|70000|-1\n")
        words = (path, "--origins", "all", "--communities")
        lines = tool("from-as-rel", *words, status=0).stdout.count("\n")
        for most, status in ((lines, 0), (lines - 1, 2)):
            with mock.patch.object(line_count, "MOST_LINES", most):
                self.assertEqual(inside("from-as-rel", *words).returncode, status)

    def test_the_lines_of_the_document(self):
        text = (TOP / "docs" / "howto" / "import-graphs.md").read_text()
        shown = re.search("^# AS 3: .*\n(?:rule .*\n)+", text, re.M).group(0)
        made = tool("from-as-rel", "toolbox/lessons/relationships.txt", "--communities", status=0).stdout
        self.assertIn("\n" + shown + "# AS 4: ", made)
