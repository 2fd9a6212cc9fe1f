"""What several rules say exactly: matches of two kinds at once, lengths of prefixes, and maps that go on and call others;
each compared on all routes of a small universe with what is asked, worked out here from FRR's documents."""
import functools
import itertools
import random
import unittest
from ipaddress import ip_network

from bgptools.importers.common.decision_lists import decided, decision_list
from bgptools.importers.common.policy import ANY, Match, Unsayable, is_, under
from common import program
from frr import OUTSIDE, Told, at, border, inner

PEER = "neighbor 10.9.0.2 "


def prefix_of(text):
    """A prefix as two numbers."""
    found = ip_network(text)
    return int(found.network_address), found.prefixlen


@functools.lru_cache(maxsize=None)
def holds(outer, other):
    """Whether a prefix is another one or in it."""
    return ip_network(other).subnet_of(ip_network(outer))


class DecisionLists(unittest.TestCase):
    """Rules that are drawn, put together, against each by itself."""
    PREFIXES = ("0.0.0.0/0", "10.0.0.0/7", "10.0.0.0/8", "10.0.0.0/9", "10.128.0.0/9", "10.0.0.0/10", "10.64.0.0/10",
                "10.0.0.0/32", "11.0.0.0/8", "192.0.2.0/24")
    PATHS = ((), (1,), (2,), (1, 2), (2, 1), (3,), (3, 1), (1, 3), (3, 2, 1))
    ROUTES = list(itertools.product(PREFIXES, PATHS, ((), (0,), (1,), (0, 1))))

    def drawn_match(self, chance):
        kind = chance.choice(("is", "under", "path", "first", "comm"))
        if kind in ("is", "under"):
            return {"is": is_, "under": under}[kind](prefix_of(chance.choice(self.PREFIXES)))
        return Match(kind, chance.choice((0, 1) if kind == "comm" else (1, 2)))

    def drawn(self, chance, values, most, last):
        return [(self.drawn_match(chance), chance.choice(values)) for _ in range(chance.randrange(most + 1))] + [
            (ANY, last)]

    def value(self, rules, route):
        """What rules say of a route."""
        prefix, path, numbers = route
        for match, value in rules:
            about = str(ip_network(match.of)) if isinstance(match.of, tuple) else ""
            if match.kind == "any" or match.kind == "is" and prefix == about or match.kind == "under" and holds(
                    about, prefix) or match.kind == "path" and match.of in path or match.kind == "first" and path[:1] == (
                    match.of,) or match.kind == "comm" and match.of in numbers:
                return value
        raise AssertionError("no rule is left")

    def test_rules_are_exact(self):
        chance, count = random.Random(5), [0, 0, 0]
        for _ in range(160):
            conditions = [self.drawn(chance, (True, False), 2, False) for _ in range(chance.randrange(1, 3))]
            inside, outside = self.drawn(chance, "ab", 1, "a"), self.drawn(chance, "abc", 2, chance.choice("bc"))
            known = chance.sample(self.PREFIXES, 5) if chance.random() < 0.5 else None
            is_closed = known is not None
            try:
                rules = decided(conditions, inside, outside)[0] if known is None else decision_list(
                    conditions, inside, outside, [prefix_of(each) for each in known])
            except Unsayable:
                count[2] += 1
                continue
            count[is_closed] += 1
            for route in self.ROUTES:
                if not is_closed or route[0] in known:
                    wanted = inside if all(self.value(each, route) for each in conditions) else outside
                    self.assertEqual(self.value(rules, route), self.value(wanted, route),
                                     (conditions, inside, outside, rules, route))
        self.assertGreater(min(count), 2, count)


class Drawn(Told):
    """Maps of FRR that are drawn, with prefix lists of ranges of lengths, communities, and entries that go on or call
    another map."""
    COMMUNITIES = ("65000:1", "65000:2")
    LISTS = ("permit 10.0.0.0/8 ge 9 le 10", "permit 10.0.0.0/8", "permit 10.0.0.0/9 le 32", "deny 10.128.0.0/9 le 10",
             "permit 10.0.0.0/8 le 32", "deny 10.0.0.0/9")
    PREFIXES = ("10.0.0.0/8", "10.0.0.0/9", "10.128.0.0/9", "10.128.0.0/10", "10.64.0.0/10", "10.0.0.0/11",
                "10.0.0.0/32", "8.0.0.0/6", "0.0.0.0/0", "11.0.0.0/8", "192.0.2.0/24")

    def drawn_map(self, chance, called):
        """Entries: number, whether it permits, prefix list and community or none, MED or none, map that it calls, and
        where it goes on: nothing, 0 for the next entry, or a number."""
        return [(10 * at, chance.random() < 0.8, chance.choice((None, "A", "B")), chance.choice((None, *self.COMMUNITIES)),
                 chance.choice((None, 5, 6)), chance.choice((None,) * 3 + called),
                 chance.choice((None, None, 0, 10 * at + 15))) for at in range(1, chance.randrange(2, 5))]

    def lines(self, lists, maps):
        """The configuration of these."""
        found = ["ip prefix-list %s %s" % (name, each) for name in lists for each in lists[name]]
        found += ["bgp community-list standard C%s permit %s" % (each[-1], each) for each in self.COMMUNITIES]
        for name, entries in maps.items():
            for number, is_permit, about, community, med, called, target in entries:
                found.append("route-map %s %s %d" % (name, "permit" if is_permit else "deny", number))
                found += [" match ip address prefix-list " + about] if about else []
                found += [" match community C" + community[-1]] if community else []
                found += [" set metric %d" % med] if med is not None else []
                found += [" call " + called] if called else []
                if target is not None and is_permit:
                    found.append((" on-match goto %d", " continue %d")[number // 10 % 2] % target if target
                                 else " on-match next")
        return found

    def permits(self, entries, prefix):
        """Whether a prefix list permits a prefix."""
        for entry in entries:
            action, about, *bounds = entry.split(" ")
            given, length = dict(zip(bounds[::2], map(int, bounds[1::2]))), ip_network(about).prefixlen
            lengths = range(given.get("ge", length), given.get("le", 32 if "ge" in given else length) + 1)
            if holds(about, prefix) and ip_network(prefix).prefixlen in lengths:
                return action == "permit"
        return False

    def mapped(self, lists, maps, name, route, state):
        """Whether a map permits a route; it sets what it says in the state. An entry that permits and goes on leaves the
        route permitted where none is behind it; what a called map denies is denied."""
        entries, at_entry, is_permitted = maps[name], 0, False
        while at_entry < len(entries):
            _, is_permit, about, community, med, called, target = entries[at_entry]
            at_entry += 1
            if about and not self.permits(lists[about], route[0]) or community and community not in route[1]:
                is_permitted = False
                continue
            if not is_permit:
                return False
            is_permitted = True
            if med is not None:
                state["med"] = med
            if called and called in maps and not self.mapped(lists, maps, called, route, state):
                return False
            if target is None:
                return True
            while at_entry < len(entries) and entries[at_entry][0] < target:
                at_entry += 1
        return is_permitted

    def ruled(self, rules, route):
        """What rules make of a route: nothing, or its MED."""
        for rule in rules:
            kind, *words = rule.split(" ")
            if kind == "any" or kind == "is" and route[0] == words[0] or kind == "under" and holds(
                    words[0], route[0]) or kind == "comm" and int(words[0]) in [65000 * 65536 + int(each[-1])
                                                                               for each in route[1]]:
                return None if "deny" in words else next((int(each[4:]) for each in words if each[:4] == "med="), 0)
        return 0

    def test_maps_are_exact(self):
        routes = [(prefix, numbers) for prefix in self.PREFIXES for many in range(3)
                  for numbers in itertools.combinations(self.COMMUNITIES, many)]
        chance, count = random.Random(3), {0: 0, 1: 0}
        for _ in range(60):
            lists = {name: chance.sample(self.LISTS, chance.randrange(1, 3)) for name in "AB"}
            maps = {"N": self.drawn_map(chance, ("GONE",)), "M": self.drawn_map(chance, ("N", "GONE"))}
            text = border("neighbor 10.0.0.2 next-hop-self", PEER + "route-map M in", more=self.lines(lists, maps))
            made = self.convert({"a.conf": text, "b.conf": inner()})
            count[made.returncode] += 1
            rules = self.rules(made, "10.0.0.1 10.9.0.2 in")
            for route in routes if made.returncode == 0 else ():
                state = {"med": 0}
                is_permitted = self.mapped(lists, maps, "M", route, state)
                self.assertEqual(self.ruled(rules, route), state["med"] if is_permitted else None, (text, rules, route))
        self.assertGreater(count[0], 30, count)


class Lengths(Told):
    """Prefixes by their lengths, where the files show all that can occur."""
    OWN = ("192.0.2.0/24", "198.51.100.128/25", "203.0.113.0/24", "10.77.0.0/16", "203.0.113.64/26")
    LIST = "ip prefix-list L permit 0.0.0.0/0 le 24"

    def files(self, *lines, own=OWN, more=()):
        outside = OUTSIDE + " no bgp network import-check\n" + "".join(" network %s\n" % each for each in own)
        text = border("neighbor 10.0.0.2 next-hop-self", PEER + "prefix-list L in", *more, more=lines)
        return {"a.conf": text, "b.conf": inner(), "c.conf": outside}

    def permitted(self, made, ends="10.0.0.1 10.0.0.9 in"):
        rules = Drawn.ruled
        return [each for each in self.OWN if rules(Drawn(), self.rules(made, ends), (each, ())) is not None]

    def test_known_prefixes(self):
        for line, wanted in ((self.LIST, [0, 2, 3]), ("ip prefix-list L permit 0.0.0.0/0 ge 25", [1, 4]),
                             ("ip prefix-list L permit 0.0.0.0/0 ge 17 le 25", [0, 1, 2]),
                             ("ip prefix-list L permit 203.0.0.0/8 le 24", [2])):
            made = self.convert(self.files(line), status=0)
            self.assertEqual(self.permitted(made), [self.OWN[each] for each in wanted], line)
            self.assertIn("exact for the 5 prefixes", made.stderr)

    def test_the_program_agrees(self):
        """What the program lets in of the files' own prefixes."""
        made = self.convert(self.files(self.LIST), status=0)
        script = self.file("made.bgp", made.stdout)
        said = program(script.read_text() + "".join("deliver 10.0.0.9 10.0.0.1\n" * 5) + "routes 10.0.0.1\n")
        self.assertEqual([line.split(" ")[0] for line in said if " from 10.0.0.9 " in line],
                         ["10.77.0.0/16", "192.0.2.0/24", "203.0.113.0/24"])

    def test_where_a_peer_is_fed(self):
        files = self.files(self.LIST, own=())
        del files["c.conf"]
        for unsaid, rules in (("skip", ["any deny"]), ("deny", ["any deny"]), ("permit", ["any permit"])):
            made = self.convert(files, "--unsaid", unsaid, status=1)
            line = self.LIST if unsaid == "skip" else PEER + "prefix-list L in"
            self.assert_told(made, "a.conf", at(files["a.conf"], line), "lengths 0 to 24")
            self.assertEqual(self.rules(made, "10.0.0.1 10.9.0.2 in"), rules)
        self.assertIn("`--unsaid permit`", self.convert(files).stderr)

    def test_customers_and_communities(self):
        """Preferences by a customer's prefixes and a community (RFC 1998)."""
        lines = ["ip prefix-list L permit any", *("ip prefix-list CUSTOMER permit " + each for each in self.OWN[:3]),
                 "bgp community-list standard LOW permit 65002:70", "route-map M permit 10",
                 " match ip address prefix-list CUSTOMER", " match community LOW", " set local-preference 70",
                 "route-map M permit 20", " match ip address prefix-list CUSTOMER"]
        made = self.convert(self.files(*lines, more=[PEER + "route-map M in"]), status=0)
        rules = self.rules(made, "10.0.0.1 10.0.0.9 in")
        self.assertEqual(rules[-2:], ["comm %d permit pref=70" % (65002 * 65536 + 70), "any permit"])
        self.assertEqual(self.permitted(made), list(self.OWN[:3]))

    def test_too_many_rules(self):
        lines = [*("ip prefix-list MANY permit 10.%d.%d.0/24" % (each, each) for each in range(40)),
                 "bgp community-list standard LOW permit 65002:70", "ip prefix-list L permit any", "route-map M permit 10",
                 " match ip address prefix-list MANY", " match community LOW", " set metric 70", "route-map M permit 20"]
        files = self.files(*lines, own=(), more=[PEER + "route-map M in"])
        made = self.convert(files, status=1)
        self.assert_told(made, "a.conf", at(files["a.conf"], "route-map M permit 10"), "in at most 256 rules")
        self.assertEqual(self.rules(made, "10.0.0.1 10.0.0.9 in"), ["any permit"])


class Unsaid(Told):
    """What becomes of an entry that cannot be said."""
    MAP = ["route-map M permit 10", " set metric 4", " on-match next", "route-map M permit 20", " match tag 5",
           "route-map M permit 30", " set metric 6"]

    def test_an_entry(self):
        for word, rules, said in (("skip", ["any permit med=6"], "left out"), ("deny", ["any deny"], "`--unsaid deny` denies"),
                                  ("permit", ["any permit med=4"], "`--unsaid permit` permits")):
            text = border("neighbor 10.0.0.2 next-hop-self", PEER + "route-map M in", more=self.MAP)
            made = self.convert({"a.conf": text, "b.conf": inner(), "c.conf": OUTSIDE}, "--unsaid", word, status=1)
            self.assertEqual(self.rules(made, "10.0.0.1 10.0.0.9 in"), rules)
            self.assert_told(made, "a.conf", at(text, "route-map M permit 20"), said)


class Goes(Told):
    """Maps that go on: what is no entry, and what is set together."""

    def test_what_frr_does_not_take(self):
        for line in ("on-match goto 10", "continue 5", "on-match goto 70000", "continue"):
            self.assertEqual(self.in_rules("route-map M permit 10", " set metric 5", " " + line), ["any permit med=5"])
            self.assertIn("does not take the line", self.policy("route-map M permit 10", " " + line).stderr)

    def test_what_is_set_together(self):
        """Communities that are added are seen behind; two of them, and an AS that is looked for behind prepending, are
        no rule."""
        first = ["bgp community-list standard L permit 65000:1", "bgp as-path access-list P permit _7_",
                 "route-map M permit 10", " set community 65000:1 additive", " on-match next", "route-map M permit 20"]
        self.assertEqual(self.in_rules(*first, " match community L", " set metric 5"),
                         ["any permit med=5 add=%d" % (65000 * 65536 + 1)])
        made = self.policy(*first, " set community 65000:2 additive", " set metric 5", status=1)
        self.assert_told(made, "a.conf", at(self.text, "route-map M permit 20"), "two communities")
        made = self.policy(first[1], "route-map M permit 10", " set as-path prepend 65001", " continue 20",
                           "route-map M permit 20", " match as-path P", filters=["route-map M out"], status=1)
        self.assert_told(made, "a.conf", at(self.text, "route-map M permit 20"), "put something")

    def test_prepending_adds_up(self):
        made = self.policy("route-map M permit 10", " set as-path prepend 65001 65001", " on-match next",
                           "route-map M permit 20", " set as-path prepend 65001", filters=["route-map M out"])
        self.assertEqual(self.rules(made, "10.0.0.1 10.0.0.9 out"), ["any permit prepend=3"])

    def test_maps_that_call_themselves(self):
        made = self.policy("route-map M permit 10", " call M", status=1)
        self.assert_told(made, "a.conf", at(self.text, "route-map M permit 10"), "more than 10 deep")
