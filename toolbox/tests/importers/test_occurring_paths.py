"""Expressions about paths as rules that are exact for the paths that can occur: compared with Python's own expressions on
all paths of drawn graphs of ASes, each AS as often as it may stand there."""
import itertools
import random
import re
import unittest

from bgptools.importers.common.expressions import Unreadable
from bgptools.importers.common.path_expressions import Expression
from bgptools.importers.common.paths import occurring_region
from bgptools.importers.common.policy import Unsayable
from bgptools.importers.common.regions import Place, World
from frr import Told, at, border, inner, router

# FRR reads `_` as a border of an AS number.
EXPRESSIONS = ("_3$", "^(2|3)$", "^2_[0-9]+$", "^2 3$", "_(3|4)$", "^$", "^2_.*_4$", "^[23]", "_2_3_", "^2(_2)*$", "^[0-9]+$",
               "^([0-9]+_){1,2}[0-9]+$", "4$", "^[^4]*$", "3 ?4?", "^(2_)+4?$", "_[2-3]$|^4")


def finds(expression, path):
    """Whether Python finds the expression in the text of a path."""
    return re.search(expression.replace("_", "(^|[,{}() ]|$)"), " ".join(map(str, path))) is not None


class Occurring(unittest.TestCase):
    def drawn(self, chance):
        """Five ASes, the neighbours of each and what each originates; the place is AS 1's session with AS 2."""
        pairs = [pair for pair in itertools.combinations(range(1, 6), 2) if chance.random() < 0.5] + [(1, 2)]
        around = {each: {a + b - each for a, b in pairs if each in (a, b)} for each in range(1, 6)}
        prefixes = [(192 << 24 | each << 8, 24) for each in range(6)]
        return World(around, origins={each: set(chance.sample(prefixes, chance.randrange(3))) for each in range(1, 6)},
                     prepending=set(chance.sample(range(1, 6), chance.choice((0, 0, 1)))))

    def routes(self, world, way):
        """All paths to their prefixes, without the ASes at which they end as loops."""
        first = [()] if way == "out" else []
        for many in range(1, 6):
            first += [each for each in itertools.permutations({"in": (2, 3, 4, 5), "out": (3, 4, 5)}[way], many)]
        for path in first:
            ends = ((1,) if way == "out" else ()) + path
            if (way == "out" or path[0] == 2) and all(b in world.neighbours[a] for a, b in zip(ends, ends[1:])):
                for prefix in world.origins[ends[-1]]:
                    yield path, prefix

    def says(self, rules, path, prefix):
        for match, is_in in rules:
            if match.kind == "any" or match.kind == "path" and match.of in path or match.kind == "first" and path[:1] == (
                    match.of,) or match.kind == "is" and match.of == prefix:
                return is_in
        raise AssertionError("no rule is left")

    def test_rules_are_exact(self):
        chance, count = random.Random(9), [0, 0]
        for _ in range(100):
            world, way = self.drawn(chance), chance.choice(("in", "out"))
            for expression in chance.sample(EXPRESSIONS, 5):
                try:
                    rules = occurring_region(expression, world, Place(1, 2, way))
                except Unsayable:
                    count[0] += 1
                    continue
                count[1] += 1
                for path, prefix in self.routes(world, way):
                    for again in (1, 2, 3):
                        text = [asn for asn in path for _ in range(again if asn in world.prepending else 1)]
                        self.assertEqual(self.says(rules, path, prefix), finds(expression, text), (expression, text, rules))
        self.assertGreater(count[0], 5)
        self.assertGreater(count[1], 200)

    def test_what_is_not_known(self):
        for world in (World({1: {2}, 2: {1}}, fed={2}, origins={2: {(0, 8)}}), World({1: {2}, 2: {1}}),
                      World({1: {2}, 2: {1}}, origins={})):
            with self.assertRaises(Unsayable):
                occurring_region("_2$", world, Place(1, 2, "in"))

    def test_no_expressions(self):
        for text in ("(", ")", "[", "a**{", "*", r"(2)\1", "[[:digit:]]", "2{3", "(" * 200 + ")" * 200, "2{900}", "\\"):
            with self.assertRaises(Unreadable):
                Expression(text)

    def test_long_texts_are_quick(self):
        """What makes other readers try many ways."""
        self.assertFalse(Expression("^(1*)*(1*)*(1*)*$").finds_path([11111] * 300 + [2], ()))


class Frr(Told):
    def test_origins(self):
        """Routes that AS 65003 originates, behind AS 65002, which also does."""
        third = router(65003, "10.0.0.8", "eth0 10.7.0.2/30", bgp=[
            "neighbor 10.7.0.1 remote-as 65002", "no bgp network import-check", "network 192.0.2.0/24"])
        second = router(65002, "10.0.0.9", "eth0 10.9.0.2/30", "eth1 10.7.0.1/30", bgp=[
            "neighbor 10.9.0.1 remote-as 65001", "neighbor 10.7.0.2 remote-as 65003", "no bgp network import-check",
            "network 198.51.100.0/24"])
        for said, rules in (("_65003$", ["path 65003 permit", "any deny"]), ("_65002$", ["path 65003 deny", "any permit"]),
                            ("^65002_[0-9]+$", ["path 65003 permit", "any deny"])):
            line = "bgp as-path access-list P permit " + said
            text = border("neighbor 10.0.0.2 next-hop-self", "neighbor 10.9.0.2 filter-list P in", more=[line])
            made = self.convert({"a.conf": text, "b.conf": inner(), "c.conf": second, "d.conf": third}, status=0)
            self.assertEqual(self.rules(made, "10.0.0.1 10.0.0.9 in"), rules)
            self.assertIn("a.conf:%d: note: %s: its rules are exact for the 2 prefixes" % (at(text, line), line),
                          made.stderr)
