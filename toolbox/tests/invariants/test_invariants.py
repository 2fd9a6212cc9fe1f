"""Invariants of a file: each is kept or broken as a network of two routers and two neighbours says by hand."""
import json

from common import Case, inside

NETWORK = "toolbox/lessons/customers.bgp"
FED, OWN, NOBODYS = "203.0.113.0/24", "192.0.2.0/24", "10.0.0.0/8"
KEPT = ("west reaches 192.0.2.0/24", "5.0.0.2 reaches %s" % FED, "%s reaches %s" % (OWN, FED), "%s reaches %s" % (FED, OWN),
        "west avoids AS8 for %s" % FED, "west avoids east for %s" % FED, "east prefers AS8 over AS7 for %s" % FED,
        "no route of AS 8 to AS 7", "isolation of %s from AS8" % OWN, "isolation of %s from AS 8" % NOBODYS,
        "customer AS7", "customer AS7 of AS5", "provider AS5 of AS7", "peer AS8   # who pays nobody", "# a comment", "")
BROKEN = {
    "west reaches %s" % NOBODYS: ("invariant", "5.0.0.1", "west (5.0.0.1): no route there"),
    "%s reaches %s" % (NOBODYS, FED): ("invariant", None, "no router originates %s, and no virtual peer feeds it" % NOBODYS),
    "%s reaches %s" % (OWN, NOBODYS): ("invariant", "5.0.0.2", "east (5.0.0.2): no route there"),
    "east avoids AS7 for %s" % FED: ("invariant", "5.0.0.2", "east (5.0.0.2) > west (5.0.0.1) > customer (7.0.0.1): reached"),
    "east avoids west for %s" % FED: ("invariant", "5.0.0.2", "east (5.0.0.2) > west (5.0.0.1) > customer (7.0.0.1): reached"),
    "no route of AS7 to AS8": ("leak", "5.0.0.2", "east (5.0.0.2) advertises 198.51.100.0/24, 203.0.113.0/24 to peer (8.0.0.1)"),
    "isolation of %s from AS8" % FED: ("invariant", "5.0.0.2", "east (5.0.0.2) advertises 203.0.113.0/24 to peer (8.0.0.1)")}
EACH = "write `customer AS` or `customer AS of AS`"
MISTAKES = {
    "west reaches 10.0.0.1": "`10.0.0.1` in `west reaches 10.0.0.1`: a prefix, as 10.0.0.0/8 is expected",
    "west2 reaches %s" % FED: "`west2` in `west2 reaches %s`: a router, by its name or address or a prefix, as 10.0.0.0/8 is expected" % FED,
    "customer reaches %s" % FED: "`customer` in `customer reaches %s`: a router, by its name or address or a prefix, as 10.0.0.0/8 is "
                                 "expected" % FED,
    "west avoids AS0 for %s" % FED: "`AS0` in `west avoids AS0 for %s`: an AS, as AS7 or a router, by its name or address is expected" % FED,
    "customer 7": "`7` in `customer 7`: an AS, as AS7 is expected",
    "customer AS7 of": "`customer AS7 of` is no invariant: " + EACH,
    "west prefers AS7 for %s" % FED: "`west prefers AS7 for %s` is no invariant: write `ROUTER prefers AS over AS for PREFIX`" % FED,
    "customer AS7\npeer AS7": "`peer AS7`: AS7 is a customer by an earlier line; leave one of both out",
    "customer AS7 of AS5\npeer AS5 of AS7": "`peer AS5 of AS7`: AS5 is a provider of AS7 by an earlier line; leave one of both out"}


class InvariantsOfAFile(Case):
    def found(self, text, network=NETWORK, status=1):
        """What breaks invariants, as kind, router and text."""
        ran = inside("check", network, "--json", "--orders", "0", "--invariants", self.file("rules", text))
        self.assertEqual((ran.returncode, ran.stderr), (status, ""))
        return [(each["kind"], each["router"], each["text"]) for each in json.loads(ran.stdout)["findings"] if not each["note"]]

    def test_those_that_are_kept(self):
        self.assertEqual(self.found("\n".join(KEPT), status=0), [])

    def test_each_that_is_broken(self):
        for text, (kind, router, why) in BROKEN.items():
            with self.subTest(text):
                self.assertEqual(self.found("# a head\n\n" + text), [(kind, router, "`%s`: %s" % (text, why))])

    def test_leaks_come_first(self):
        found = self.found("\n".join(BROKEN))
        self.assertEqual([each[0] for each in found], ["leak"] + ["invariant"] * (len(BROKEN) - 1))

    def test_a_preference(self):
        """Of two routers of AS 5, one hears the prefix from AS 7, the other from AS 8 by a better path."""
        fed = ["feed %s.0.0.1 5.0.0.%d update 10.0.0.0/8 %s igp -" % each for each in (("7", 1, "7,7"), ("8", 2, "8"))]
        lines = (self.TOP_LINES + fed)
        path = self.file("two.bgp", "\n".join(lines) + "\n")
        for better, is_kept in (("AS7 over AS8", False), ("AS8 over AS7", True), ("AS9 over AS8", True)):
            text = "5.0.0.1 prefers %s for 10.0.0.0/8" % better
            why = "`%s`: it chose the route from 5.0.0.2, though 5.0.0.1 has one from 7.0.0.1" % text
            self.assertEqual(self.found(text, path, 0 if is_kept else 1), [] if is_kept else [("invariant", "5.0.0.1", why)])

    TOP_LINES = ["router 5.0.0.1 5", "router 5.0.0.2 5", "link 5.0.0.1 5.0.0.2 1", "join 5.0.0.1 5.0.0.2", "virtual 7.0.0.1 7",
                 "virtual 8.0.0.1 8", "link 5.0.0.1 7.0.0.1 1", "link 5.0.0.2 8.0.0.1 1", "join 5.0.0.1 7.0.0.1", "join 5.0.0.2 8.0.0.1"]

    def test_roles_decide_what_a_leak_is(self):
        """RFC 9234, 5: what a provider or a peer told goes to customers alone."""
        path = self.file("two.bgp", "\n".join(self.TOP_LINES + ["feed 7.0.0.1 5.0.0.1 update 10.0.0.0/8 7 igp -"]) + "\n")
        for one in ("customer", "provider", "peer"):
            for other in ("customer", "provider", "peer"):
                leaks = self.found("%s AS7\n%s AS8 of AS5" % (one, other), path, 0 if "customer" in (one, other) else 1)
                is_leak = one != "customer" and other != "customer"
                self.assertEqual([each[:2] for each in leaks], [("leak", "5.0.0.2")] if is_leak else [], (one, other))

    def test_a_path_that_holds_the_receiver_is_no_leak(self):
        path = self.file("two.bgp", "\n".join(self.TOP_LINES + ["feed 7.0.0.1 5.0.0.1 update 10.0.0.0/8 7,8 igp -"]) + "\n")
        self.assertEqual(self.found("peer AS7\npeer AS8\nno route of AS7 to AS8", path, 0), [])

    def test_transit_is_a_note_where_no_role_is_known(self):
        for text, count in (("", 1), ("customer AS7", 0), ("peer AS7", 1), ("customer AS8", 0)):
            ran = inside("check", NETWORK, "--json", "--ignore", "single-session", "--strict", "--invariants", self.file("rules", text))
            self.assertEqual([each["kind"] for each in json.loads(ran.stdout)["findings"]], ["transit"] * count)
            self.assertEqual(ran.returncode, count)

    def test_each_mistake_is_told_with_its_line(self):
        for text, why in MISTAKES.items():
            with self.subTest(text):
                path = self.file("rules", "# a head\n" + text + "\n")
                ran = inside("check", NETWORK, "--invariants", path)
                self.assertEqual((ran.returncode, ran.stdout, ran.stderr), (2, "", "%s:%d: %s\n" % (path, 2 + text.count("\n"), why)))
        ran = inside("check", NETWORK, "--invariants", self.file("rules", "hello\n"))
        self.assertEqual(ran.stderr.count("`, ") + ran.stderr.count("` or `"), 10)
