"""from-frr: community lists as rules about one community, what maps set, and what is told of the rest."""
import itertools
import random
import re
from ipaddress import ip_network

from frr import OUTSIDE, Told, at, border, inner, router

# By RFC 1997, RFC 7999 and RFC 8326.
WELL_KNOWN = {"no-export": 0xFFFFFF01, "no-advertise": 0xFFFFFF02, "local-AS": 0xFFFFFF03, "blackhole": 0xFFFF029A,
              "graceful-shutdown": 0xFFFF0000}
PEER = "neighbor 10.9.0.2 "
MAP = ["route-map M permit 10", " match community L", " set metric 5"]


def number(text):
    """A community as a number."""
    if text in WELL_KNOWN:
        return WELL_KNOWN[text]
    high, low = text.split(":")
    return int(high) * 65536 + int(low)


def comm(text, rest):
    """A rule about a community."""
    return "comm %d %s" % (number(text), rest)


def row(carried):
    """The communities of a route as FRR writes them for an expression: in order, well-known ones by name."""
    names = {value: name for name, value in WELL_KNOWN.items()}
    return " ".join(names.get(each) or "%d:%d" % divmod(each, 65536) for each in sorted(carried))


def listed(kind, entries, carried):
    """What a list says of a route: the first entry that is about it. A standard one is about routes that carry all of
    its communities, an expanded one about those in whose row its expression is found."""
    for entry in entries:
        action, said = entry.split(" ", 1)
        if kind == "standard":
            is_about = said == "internet" or {number(word) for word in said.split(" ")} <= carried
        else:
            is_about = re.search(said.replace("_", "(?:^|[,{}() ]|$)"), row(carried))
        if is_about:
            return action == "permit"
    return False


def decided(rules, carried):
    """What rules about communities say of a route: the first that matches decides."""
    for rule in rules:
        kind, *rest = rule.split(" ")
        if kind == "any" or kind == "comm" and int(rest[0]) in carried:
            return rest[-1] == "permit"
    return True


class Lists(Told):
    def of(self, *entries, status=0, more=MAP):
        """The rules of a map that matches the list L of these entries."""
        return self.in_rules(*("bgp community-list " + entry for entry in entries), *more, status=status)

    def test_one_community(self):
        for entry in ("standard L permit 65000:1", "standard L seq 7 permit 4259840001",
                      "expanded L permit _65000:1_"):
            self.assertEqual(self.of(entry), [comm("65000:1", "permit med=5"), "any deny"])
        self.assertEqual(self.in_rules("ip community-list standard L permit 65000:1", *MAP),
                         [comm("65000:1", "permit med=5"), "any deny"])
        for name, entry in (("1", "permit 65000:1"), ("99", "permit 65000:1"), ("100", "permit _65000:1_"),
                            ("500", "permit _65000:1_")):
            self.assertEqual(self.of("%s %s" % (name, entry), more=[each.replace(" L", " " + name) for each in MAP]),
                             [comm("65000:1", "permit med=5"), "any deny"])

    def test_one_of_several(self):
        """By their numbers, and not as they stand."""
        self.assertEqual(self.of("standard L seq 20 permit 65000:3", "standard L seq 10 permit 65000:1",
                                 "standard L permit no-export"),
                         [comm("65000:1", "permit med=5"), comm("65000:3", "permit med=5"),
                          comm("no-export", "permit med=5"), "any deny"])
        self.assertEqual(self.of("expanded L permit _65000:(1|2)_"),
                         [comm("65000:1", "permit med=5"), comm("65000:2", "permit med=5"), "any deny"])
        self.assertEqual(self.of("standard L permit 65000:1", "standard L permit 65000:2",
                                 more=["route-map M deny 10", " match community L", "route-map M permit 20"]),
                         [comm("65000:1", "deny"), comm("65000:2", "deny"), "any permit"])

    def test_all_of_an_entry(self):
        made = self.policy("bgp community-list standard L permit 65000:1 65000:2",
                           "bgp community-list standard L permit 65000:3", *MAP, status=1)
        self.assert_told(made, "a.conf", at(self.text, "bgp community-list standard L permit 65000:1 65000:2"),
                         "several communities at once", "go on to what follows")
        self.assertEqual(self.rules(made, "10.0.0.1 10.0.0.9 in"), [comm("65000:3", "permit med=5"), "any deny"])
        self.assertEqual(self.of("standard L permit 65000:1 65000:1"), [comm("65000:1", "permit med=5"), "any deny"])

    def test_deny_entries(self):
        """What they deny is not matched: it goes on to the next entry of the map."""
        lists = ["standard L deny 65000:1", "standard L permit 65000:2"]
        self.assertEqual(self.of(*lists), [comm("65000:1", "deny"), comm("65000:2", "permit med=5"), "any deny"])
        self.assertEqual(self.of(*lists, more=[*MAP, "route-map M permit 20", " set metric 7"]),
                         [comm("65000:1", "permit med=7"), comm("65000:2", "permit med=5"), "any permit med=7"])
        self.assertEqual(self.of("standard L permit 65000:2", "standard L deny 65000:1", more=MAP),
                         [comm("65000:2", "permit med=5"), "any deny"])

    def test_deny_entries_before_another_match(self):
        """What has 65000:1 and is about the next entry, too, is in no rule."""
        lists = ["bgp community-list standard L deny 65000:1", "bgp community-list standard L permit 65000:2"]
        other = ["bgp community-list standard N permit 65000:3", "route-map M permit 20", " match community N"]
        made = self.policy(*lists, *MAP, *other, status=1)
        self.assert_told(made, "a.conf", at(self.text, "route-map M permit 10"), "65000:1 and comm 65000:3 at once",
                         "routes that it permits go on to the next entry")
        self.assertEqual(self.rules(made, "10.0.0.1 10.0.0.9 in"), [comm("65000:3", "permit"), "any deny"])

    def test_with_another_kind_of_match(self):
        """The number of a community may be that of an AS, and is not one."""
        lists = ["bgp community-list standard L permit 0:7", "bgp as-path access-list P permit _7_",
                 "ip prefix-list Q permit 10.0.0.0/8"]
        made = self.policy(*lists, *MAP, " match as-path P", "route-map M permit 20", status=1)
        self.assert_told(made, "a.conf", at(self.text, "route-map M permit 10"), "at once")
        self.assertEqual(self.rules(made, "10.0.0.1 10.0.0.9 in"), ["any permit"])
        self.assertEqual(self.in_rules(*lists, *MAP, "route-map M permit 20", " match as-path P"),
                         ["comm 7 permit med=5", "path 7 permit", "any deny"])

    def test_internet_is_any_route(self):
        self.assertEqual(self.of("standard L permit internet"), ["any permit med=5"])
        self.assertEqual(self.of("standard L deny 65000:1", "standard L permit internet", "standard L deny 65000:2"),
                         [comm("65000:1", "deny"), "any permit med=5"])
        self.assertEqual(self.of("standard L permit 65000:1", "standard L deny internet",
                                 "standard L permit 65000:2"), [comm("65000:1", "permit med=5"), "any deny"])

    def test_nothing_goes_past_internet(self):
        """What stands behind it in the list is about no route, whatever the map's next entry is about."""
        more = ["bgp community-list standard N permit 65000:3", "route-map M permit 20", " match community N"]
        self.assertEqual(self.of("standard L permit internet", "standard L deny 65000:2", "standard L permit 65000:4",
                                 more=[*MAP, *more]), ["any permit med=5"])

    def test_lists_are_exact(self):
        """For every set of some communities the rules permit just what FRR's documents say of the list."""
        some = [number(text) for text in ("65000:1", "65000:10", "5000:1", "65000:2", "65000:65000", "100:0",
                                          "no-export", "blackhole")]
        every = [set(each) for many in range(len(some) + 1) for each in itertools.combinations(some, many)]
        for kind, entries in (
                ("standard", ["deny 65000:2", "permit 65000:1", "permit no-export"]),
                ("standard", ["permit 65000:2", "deny 65000:1", "deny no-export", "permit internet"]),
                ("expanded", ["permit _65000:1_"]), ("expanded", ["permit 65000:65000"]),
                ("expanded", ["permit _100:0"]), ("expanded", ["permit 65000:1_"]),
                ("expanded", ["deny _(65000:1|5000:1)_", "permit .*"]),
                ("expanded", ["permit ^.*_65000:10_.*$", "deny no-export", "permit _65000:[12]_|_100:0_"]),
                ("expanded", ["permit _65000:2_|_no-export_", "deny _(100:0)_", "permit ^.*$"])):
            with self.subTest(entries=entries):
                sayable = [each for each in entries if "[" not in each]
                rules = self.in_rules(*("bgp community-list %s L %s" % (kind, entry) for entry in entries),
                                      "route-map M permit 10", " match community L",
                                      status=int(sayable != entries)) or ["any permit"]
                self.assertEqual([each for each in every if decided(rules, each)],
                                 [each for each in every if listed(kind, sayable, each)])

    def test_expressions_that_want_something_else(self):
        """Beside or behind what they want other things matter: 65000:10, the first, the last, all there is, a name
        that FRR writes in place of a number."""
        for said in ("65000:1", "^65000:1$", "^65000:1_", "_65000:1$", "_65000:1", "_5000:1_65000:1_", "_65000:.*_",
                     "^$", "5000:65000", "_65000_", "_65535:666_", "accept-own", "_65000:01_", ".+", "_65000:1|2_",
                     "_(65000:1)?_"):
            with self.subTest(said=said):
                made = self.policy("bgp community-list expanded L permit " + said, *MAP, "route-map M permit 20",
                                   status=1)
                self.assert_told(made, "a.conf", at(self.text, "bgp community-list expanded L permit " + said),
                                 "`_N:M_`", "go on to what follows")
                self.assertEqual(self.rules(made, "10.0.0.1 10.0.0.9 in"), ["any permit"])

    def test_exact_match(self):
        lists = ["bgp community-list standard L permit 65000:1", *MAP[:1], " match community L exact-match", *MAP[2:]]
        made = self.policy(*lists, "route-map M permit 20", status=1)
        self.assert_told(made, "a.conf", at(self.text, "route-map M permit 10"), "exact-match",
                         "go on to the next entry")
        self.assertEqual(self.rules(made, "10.0.0.1 10.0.0.9 in"), ["any permit"])
        lists[0] = "bgp community-list expanded L permit _65000:1_"
        self.assertEqual(self.in_rules(*lists), [comm("65000:1", "permit med=5"), "any deny"])

    def test_any_of_the_entries(self):
        more = [MAP[0], " match community L any", MAP[2]]
        for entries in (["standard L permit 65000:1 65000:2"], ["standard L permit 65000:1",
                        "standard L permit 65000:2 65000:1"], ["expanded L permit ^65000:(1|2)$"]):
            self.assertEqual(self.of(*entries, more=more), [comm("65000:1", "permit med=5"),
                             comm("65000:2", "permit med=5"), "any deny"])
        for entry in ("standard L deny 65000:1", "standard L permit internet", "expanded L permit .*"):
            made = self.policy("bgp community-list " + entry, *more, status=1)
            self.assert_told(made, "a.conf", at(self.text, "route-map M permit 10"), "(any)")

    def test_a_list_that_is_not_there(self):
        made = self.policy(*MAP, "route-map M permit 20")
        self.assertEqual(self.rules(made, "10.0.0.1 10.0.0.9 in"), ["any permit"])
        self.assertIn("a.conf:%d: note: match community L: there is no such list" % at(self.text, "match community L"),
                      made.stderr)

    def test_entries_that_frr_does_not_take(self):
        """Of another kind than those before, no communities, or no kind at all."""
        made = self.policy("bgp community-list standard L permit 65000:1", "bgp community-list expanded L permit .*",
                           *MAP)
        self.assertEqual(self.rules(made, "10.0.0.1 10.0.0.9 in"), [comm("65000:1", "permit med=5"), "any deny"])
        self.assertIn("a.conf:%d: note: " % at(self.text, "bgp community-list expanded L permit .*"), made.stderr)
        for entry in ("standard L permit 65536:1", "standard L permit gshut", "501 permit 65000:1",
                      "0 permit 65000:1", "L permit 65000:1", "1 permit _65000:1_"):
            made = self.policy("bgp community-list " + entry, *MAP, status=1)
            self.assert_told(made, "a.conf", at(self.text, "bgp community-list " + entry), "is left out")

    def test_an_entry_that_is_there_twice(self):
        """FRR keeps the first: 65000:1 65000:2 is denied by the entry between."""
        self.assertEqual(self.of("standard L seq 20 permit 65000:1", "standard L seq 10 deny 65000:2",
                                 "standard L seq 5 permit 65000:1"),
                         [comm("65000:2", "deny"), comm("65000:1", "permit med=5"), "any deny"])

    def test_a_no_takes_an_entry_back(self):
        entry = "bgp community-list standard L permit 65000:%d"
        self.assertEqual(self.in_rules(entry % 1, entry % 2, "no " + entry % 2, *MAP),
                         [comm("65000:1", "permit med=5"), "any deny"])
        made = self.policy(entry % 1, "no bgp community-list standard L", *MAP)
        self.assertIn("there is no such list", made.stderr)

    def test_own_routes_carry_none(self):
        """`network` and its map: what it permits there is originated."""
        for entry, how, is_there in (
                ("standard L permit 65000:1", "", False), ("standard L permit internet", "", True),
                ("standard L permit internet", " any", False), ("standard L permit internet", " exact-match", True),
                ("expanded L permit .*", "", True), ("expanded L permit .*", " any", False),
                ("expanded L permit ^$", "", True), ("expanded L permit _65000:1_", "", False),
                ("standard L deny 65000:1", "", False)):
            made = self.convert({"a.conf": border("network 10.0.1.0/30 route-map OWN", more=[
                "bgp community-list " + entry, "route-map OWN permit 10", " match community L" + how])})
            self.assertEqual("origin 10.0.0.1 10.0.1.0/30\n" in made.stdout, is_there, (entry, how))

    def test_communities_that_frr_heeds(self):
        for name, words in (("graceful-shutdown", "preference 0"), ("blackhole", "no-advertise"),
                            ("accept-own", "its own")):
            made = self.policy("bgp community-list standard L permit " + name, *MAP, status=1)
            self.assert_told(made, "a.conf", at(self.text, "bgp community-list standard L permit " + name), words)
            self.assertTrue(self.rules(made, "10.0.0.1 10.0.0.9 in")[0].startswith("comm 42949"))
        made = self.policy("bgp community-list expanded L permit _blackhole_", *MAP, status=1)
        self.assert_told(made, "a.conf", at(self.text, "bgp community-list expanded L permit _blackhole_"), "no-adv")

    def test_other_kinds_are_told(self):
        lines = ["bgp large-community-list standard G permit 65000:1:1",
                 "bgp extcommunity-list standard E permit rt 1:1"]
        sets = [" set large-community 65000:1:1", " set extcommunity rt 65000:1", " set large-comm-list G delete"]
        made = self.policy(*lines, "route-map M permit 10", *sets, status=1)
        for line in [*lines, *(each.strip() for each in sets)]:
            self.assert_told(made, "a.conf", at(self.text, line), "no large and no extended communities")
        self.assertEqual(self.rules(made, "10.0.0.1 10.0.0.9 in"), ["any permit"])
        for match in ("large-community G", "extcommunity E", "alias A", "community L M"):
            made = self.policy("route-map M permit 10", " match " + match, status=1)
            self.assert_told(made, "a.conf", at(self.text, "match " + match), match)
            self.assert_told(made, "a.conf", at(self.text, "route-map M permit 10"), "left out")


class Settings(Told):
    def fed(self, *lines, bgp=(), status=0):
        """A border whose neighbour in AS 65002 has no file: routes may come from it with any communities."""
        self.text = border("neighbor 10.0.0.2 next-hop-self", *bgp, more=lines)
        return self.convert({"a.conf": self.text, "b.conf": inner()}, status=status)

    def test_one_more(self):
        for way in ("in", "out"):
            made = self.fed("route-map M permit 10", " set community 65000:1 additive", " set metric 5",
                            bgp=[PEER + "route-map M " + way])
            self.assertEqual(self.rules(made, "10.0.0.1 10.9.0.2 " + way), ["any permit med=5 add=4259840001"])
        for name in ("no-export", "no-advertise", "local-AS"):
            made = self.fed("route-map M permit 10", " set community %s additive" % name, bgp=[PEER + "route-map M in"])
            self.assertEqual(self.rules(made, "10.0.0.1 10.9.0.2 in"), ["any permit add=%d" % WELL_KNOWN[name]])

    def test_after_a_match(self):
        lists = ["bgp community-list standard L permit 65000:%d" % each for each in (1, 2)]
        made = self.fed(*lists, *MAP, " set community 65000:3 additive", " set local-preference 50",
                        " set as-path prepend 65001", bgp=[PEER + "route-map M out"])
        self.assertEqual(self.rules(made, "10.0.0.1 10.9.0.2 out"), [
            comm("65000:%d" % each, "permit med=5 prepend=1 add=%d" % number("65000:3")) for each in (1, 2)] +
            ["any deny"])

    def test_what_no_rule_says(self):
        for said, words in (("community 65000:1 65000:2 additive", ["adds one community", "these are 2"]),
                            ("community 65000:1", ["came with", "Write `add=4259840001`"]),
                            ("community 65000:1 no-export", ["came with"]), ("community none", ["takes communities"]),
                            ("comm-list L delete", ["takes communities"])):
            made = self.fed("bgp community-list standard L permit 65000:1", "route-map M permit 10", " set " + said,
                            " set metric 5", bgp=[PEER + "route-map M in"], status=1)
            self.assert_told(made, "a.conf", at(self.text, "set " + said), *words)
            self.assertEqual(self.rules(made, "10.0.0.1 10.9.0.2 in"), ["any permit med=5"])

    def test_what_frr_does_not_take(self):
        for said in ("additive", "65000:70000", "gshut", "65536:1 additive", "none additive"):
            made = self.fed("route-map M permit 10", " set community " + said, bgp=[PEER + "route-map M in"], status=1)
            self.assert_told(made, "a.conf", at(self.text, "set community " + said), "does not know")
            self.assertEqual(self.rules(made, "10.0.0.1 10.9.0.2 in"), ["any permit"])

    def test_what_frr_heeds(self):
        made = self.fed("route-map M permit 10", " set community graceful-shutdown additive",
                        bgp=[PEER + "route-map M out"], status=1)
        self.assert_told(made, "a.conf", at(self.text, "set community graceful-shutdown additive"),
                         "`rule ROUTER PEER in comm 4294901760 permit pref=0`")
        self.assertEqual(self.rules(made, "10.0.0.1 10.9.0.2 out"), ["any permit add=4294901760"])

    def test_inside_the_as(self):
        for said in ("65000:1 additive", "no-export"):
            made = self.fed("route-map M permit 10", " set community " + said,
                            bgp=["neighbor 10.0.0.2 route-map M out"], status=1)
            self.assert_told(made, "a.conf", at(self.text, "set community " + said), "internal session")
            self.assertEqual(self.rules(made, "10.0.0.1 10.0.0.2 out"), ["any permit"])

    def test_own_routes(self):
        made = self.fed("route-map OWN permit 10", " set community 65000:1", bgp=["network 10.0.1.0/30 route-map OWN"],
                        status=1)
        self.assert_told(made, "a.conf", at(self.text, "set community 65000:1"), "10.0.1.0/30", "way out")
        self.assertIn("origin 10.0.0.1 10.0.1.0/30\n", made.stdout)
        made = self.fed("route-map OWN permit 10", " set community none", bgp=["network 10.0.1.0/30 route-map OWN"])
        self.assert_quiet(made)


class Maps(Told):
    """Maps that are drawn: what is not told is exact."""
    SOME = ("65000:1", "65000:2", "65000:3", "no-export")
    PREFIXES = ("10.1.0.0/16", "11.0.0.0/8")

    def drawn_list(self, chance):
        """The entries of a list: most have one community."""
        return ["%s %s" % (chance.choice(("permit", "permit", "deny")), chance.choice(
            (*self.SOME, *self.SOME, "internet", "65000:1 65000:2"))) for _ in range(chance.randrange(1, 4))]

    def drawn_map(self, chance):
        """The entries of a map: whether it permits, its list or none, its prefix or none, its MED, what it adds."""
        return [(chance.random() < 0.7, chance.choice((None, "A", "A", "B", "B")), chance.choice((None,) * 5 + (
            self.PREFIXES[0],)), chance.randrange(3), chance.choice((None, None, "65000:3", "65000:9")))
            for _ in range(chance.randrange(1, 4))]

    def lines(self, lists, entries):
        """The configuration of these."""
        found = ["bgp community-list standard %s %s" % (name, each) for name in lists for each in lists[name]]
        found.append("ip prefix-list P permit " + self.PREFIXES[0])
        for place, (is_permit, name, prefix, med, more) in enumerate(entries):
            found.append("route-map M %s %d" % ("permit" if is_permit else "deny", place + 1))
            found += [" match community " + name] if name else []
            found += [" match ip address prefix-list P"] if prefix else []
            found += [" set metric %d" % med]
            found += [" set community %s additive" % more] if more else []
        return found

    def mapped(self, lists, entries, prefix, carried):
        """What a map makes of a route, by FRR's documents: the first entry of which all matches are met decides, and
        a route that meets none is denied."""
        for is_permit, name, wanted, med, more in entries:
            if wanted in (None, prefix) and (name is None or listed("standard", lists[name], carried)):
                return (med, carried | {number(more)} if more else carried) if is_permit else None
        return None

    def ruled(self, rules, prefix, carried):
        """What rules make of it."""
        for rule in rules:
            words = rule.split(" ")
            is_met = {"any": lambda: True, "comm": lambda: int(words[1]) in carried, "is": lambda: words[1] == prefix,
                      "under": lambda: ip_network(prefix).subnet_of(ip_network(words[1]))}
            if is_met[words[0]]():
                said = dict(word.split("=") for word in words if "=" in word)
                added = {int(said["add"])} if "add" in said else set()
                return None if "deny" in words else (int(said.get("med", 0)), carried | added)
        return 0, carried

    def test_what_is_not_told_is_exact(self):
        every = [(prefix, set(map(number, each))) for prefix in self.PREFIXES for many in range(5)
                 for each in itertools.combinations(self.SOME, many)]
        chance, count = random.Random(7), {0: 0, 1: 0}
        for _ in range(120):
            lists, entries = {name: self.drawn_list(chance) for name in "AB"}, self.drawn_map(chance)
            text = border("neighbor 10.0.0.2 next-hop-self", PEER + "route-map M in", more=self.lines(lists, entries))
            made = self.convert({"a.conf": text, "b.conf": inner()})
            count[made.returncode] += 1
            rules = self.rules(made, "10.0.0.1 10.9.0.2 in")
            for prefix, carried in every if made.returncode == 0 else ():
                self.assertEqual(self.ruled(rules, prefix, carried), self.mapped(lists, entries, prefix, carried),
                                 (lists, entries, rules))
        self.assertGreater(min(count.values()), 30)


class Bare(Told):
    """`set community` without `additive` is said where no route comes with communities."""
    SETS = ["route-map M permit 10", " set community 65000:1"]
    RULES = ["any permit add=4259840001"]

    def chain(self, one=(), two=(), three=(), fourth=False):
        """AS 65001 beside AS 65002, and AS 65003 behind this; each with more lines. `fourth`: a neighbour of the last
        one has no file."""
        last = ["neighbor 10.7.0.2 remote-as 65004"] if fourth else []
        return {"a.conf": router(65001, "10.0.0.1", "eth0 10.9.0.1/30", bgp=["neighbor 10.9.0.2 remote-as 65002"],
                                 more=one),
                "b.conf": router(65002, "10.0.0.2", "eth0 10.9.0.2/30", "eth1 10.8.0.1/30", more=two, bgp=[
                    "neighbor 10.9.0.1 remote-as 65001", "neighbor 10.8.0.2 remote-as 65003"]),
                "c.conf": router(65003, "10.0.0.3", "eth0 10.8.0.2/30", "eth1 10.7.0.1/30", more=three,
                                 bgp=["neighbor 10.8.0.1 remote-as 65002", *last])}

    def used(self, neighbour, way):
        """The map that sets a community, used for a neighbour."""
        return [*self.SETS, "router bgp", " neighbor %s route-map M %s" % (neighbour, way)]

    def test_nothing_is_fed(self):
        for way in ("in", "out"):
            made = self.convert(self.chain(one=self.used("10.9.0.2", way)))
            self.assert_quiet(made)
            self.assertEqual(self.rules(made, "10.0.0.1 10.0.0.2 " + way), self.RULES)

    def test_something_is_fed(self):
        """Its routes come in, and none of them goes out where they came in."""
        for way in ("in", "out"):
            files = self.chain(one=self.used("10.9.0.2", way), fourth=True)
            made = self.convert(files)
            if way == "in":
                self.assert_told(made, "a.conf", at(files["a.conf"], "set community 65000:1"), "came with")
                self.assertEqual(self.rules(made, "10.0.0.1 10.0.0.2 in"), ["any permit"])
            else:
                self.assert_quiet(made)
                self.assertEqual(self.rules(made, "10.0.0.1 10.0.0.2 out"), self.RULES)

    def test_others_set_some(self):
        """On the way to the map; what the map's own AS set before is a loop when it comes back."""
        for where, neighbour, way in (("two", "10.9.0.1", "out"), ("two", "10.8.0.2", "in"),
                                      ("three", "10.8.0.1", "out")):
            files = self.chain(one=self.used("10.9.0.2", "in"), **{where: self.used(neighbour, way)})
            self.assert_told(self.convert(files), "a.conf", at(files["a.conf"], "set community 65000:1"), "came with")
        files = self.chain(one=[*self.used("10.9.0.2", "in"), " neighbor 10.9.0.2 route-map M out"])
        made = self.convert(files)
        self.assertEqual(self.rules(made, "10.0.0.1 10.0.0.2 in"), self.RULES)
        self.assert_told(made, "a.conf", at(files["a.conf"], "set community 65000:1"), "came with")
        self.assertEqual(self.rules(made, "10.0.0.1 10.0.0.2 out"), ["any permit"])

    def test_own_routes_alone(self):
        """A list of empty paths: what others told has one."""
        more = ["bgp as-path access-list OWN permit ^$", "route-map M permit 10", " match as-path OWN",
                " set community 65000:1"]
        for path, is_said in (("^$", True), (".*", False)):
            more[0] = "bgp as-path access-list OWN permit " + path
            text = border("neighbor 10.0.0.2 next-hop-self", PEER + "route-map M out", more=more)
            made = self.convert({"a.conf": text, "b.conf": inner()}, status=int(not is_said))
            self.assertEqual(self.rules(made, "10.0.0.1 10.9.0.2 out"), [
                "first 65002 deny", "any permit add=4259840001"] if is_said else ["any permit"])
        more[0] = "bgp as-path access-list OWN permit ^$"
        text = border("neighbor 10.0.0.2 next-hop-self", PEER + "route-map M out", "network 10.0.1.0/30 route-map N",
                      more=[*more, "route-map N permit 10", " set community 65000:2"])
        made = self.convert({"a.conf": text, "b.conf": inner()}, status=1)
        self.assert_told(made, "a.conf", at(text, "set community 65000:1"), "came with")

    def test_own_routes_that_are_marked_inside(self):
        """FRR's other router sets a community on its way to the border."""
        marked = inner("neighbor 10.0.0.1 route-map N out", more=["route-map N permit 10", " set community 65000:2"])
        for more in (["bgp as-path access-list OWN permit ^$", self.SETS[0], " match as-path OWN", self.SETS[1]],
                     self.SETS):
            text = border("neighbor 10.0.0.2 next-hop-self", PEER + "route-map M out", more=more)
            for other, is_said in ((inner(), True), (marked, False)):
                made = self.convert({"a.conf": text, "b.conf": other, "c.conf": OUTSIDE})
                self.assertEqual(self.rules(made, "10.0.0.1 10.0.0.9 out")[-1],
                                 "any permit add=4259840001" if is_said else "any permit")
                self.assertEqual("a.conf" in made.stderr and "came with" in made.stderr, not is_said)

    def test_nothing_to_take_away(self):
        for said in ("community none", "comm-list L delete"):
            made = self.convert(self.chain(one=["bgp community-list standard L permit 65000:1", self.SETS[0],
                " set " + said, "router bgp", " neighbor 10.9.0.2 route-map M in"]))
            self.assert_quiet(made)
            self.assertEqual(self.rules(made, "10.0.0.1 10.0.0.2 in"), ["any permit"])


class Sending(Told):
    OFF = "no neighbor 10.9.0.2 send-community"

    def test_communities_go_along(self):
        for line in (PEER + "send-community", PEER + "send-community both", "no neighbor 10.9.0.2 send-community large",
                     PEER + "send-community extended"):
            text = border("neighbor 10.0.0.2 next-hop-self", line)
            self.assert_quiet(self.convert({"a.conf": text, "b.conf": inner()}))
        text = border("neighbor 10.0.0.2 next-hop-self", self.OFF, PEER + "send-community all")
        self.assert_quiet(self.convert({"a.conf": text, "b.conf": inner()}))

    def test_communities_that_stay_behind(self):
        for line in (self.OFF, self.OFF + " standard", self.OFF + " all", self.OFF + " both"):
            text = border("neighbor 10.0.0.2 next-hop-self", line)
            self.assert_told(self.convert({"a.conf": text, "b.conf": inner()}, status=1), "a.conf", at(text, line),
                             "without their communities")
            # No router has any.
            self.assert_quiet(self.convert({"a.conf": text, "b.conf": inner(), "c.conf": OUTSIDE}))

    def test_a_group(self):
        text = border("neighbor 10.0.0.2 next-hop-self", "neighbor G peer-group", "no neighbor G send-community",
                      PEER + "peer-group G")
        self.assert_told(self.convert({"a.conf": text, "b.conf": inner()}, status=1), "a.conf",
                         at(text, "no neighbor G send-community"), "without their communities")

    def test_what_is_set_stays_behind(self):
        """And what comes in is not concerned."""
        text = border("neighbor 10.0.0.2 next-hop-self", self.OFF, PEER + "route-map M out", PEER + "route-map M in",
                      more=["route-map M permit 10", " set community 65000:1 additive"])
        made = self.convert({"a.conf": text, "b.conf": inner()}, status=1)
        self.assertEqual(self.rules(made, "10.0.0.1 10.9.0.2 out"), ["any permit"])
        self.assertEqual(self.rules(made, "10.0.0.1 10.9.0.2 in"), ["any permit add=4259840001"])
