"""What `check` finds in networks with planted faults: each stands in its first ten lines, and all that it counts is
what a walk from router to router counts, which asks the program for routes and first hops alone."""
import ipaddress
import json

from common import Case, inside, tool
from simtools.networks import prefix, router

from bgptools.convergence.run import Run
from bgptools.program.replies import routes
from bgptools.program.script import lines_of

SIZES = (40, 195)
CUSTOMER, PROVIDER, PEER = "9.0.0.1", "9.0.0.2", "9.0.0.3"
NEIGHBOURS = {CUSTOMER: (101, 2, (0, 1)), PROVIDER: (102, 3, (2, 3, 4)), PEER: (103, 4, (5, 6))}
FED = {peer: [prefix(number) for number in numbers] for peer, (_, _, numbers) in NEIGHBOURS.items()}
ROLES = "customer AS101 of AS5\nprovider AS102 of AS5   # who sells to us\npeer AS103 of AS5\n"
OWN = "198.51.100.0/24"
# Two borders of AS 6 in a chain, whose inner routers hear of the far border alone: their packets go round.
CHAIN = ["6.0.0.1", "6.0.0.2", "6.0.0.3", "6.0.0.4"]
FAR, NEAR = "6.0.0.6", "6.0.0.5"
ROUND = "203.0.113.0/24"


def network(count):
    """An AS of so many routers with two reflectors, and a customer, a provider and a peer, without a fault."""
    lines = ["router %s 5" % router(number) for number in range(count)]
    lines += ["link %s %s %d" % (router(number), router((number + step) % count), 1 + number * step % 97)
              for step in (1, 5, 12) for number in range(count)]
    lines += ["join %s %s" % (router(0), router(1))]
    for number in range(2, count):
        for top in (0, 1):
            lines += ["join %s %s" % (router(top), router(number)), "client %s %s on" % (router(top), router(number))]
    lines += ["# name %s r%d" % (router(number), number) for number in range(count)]
    for peer, (asn, at, _) in NEIGHBOURS.items():
        lines += ["virtual %s %d" % (peer, asn), "link %s %s 1" % (router(at), peer), "join %s %s" % (router(at), peer)]
        if peer != CUSTOMER:
            lines += ["rule %s %s out path 101 permit" % (router(at), peer), "rule %s %s out is %s permit" % (router(at), peer, OWN),
                      "rule %s %s out any deny" % (router(at), peer)]
    lines += ["origin %s %s" % (router(5), OWN)]
    return lines + ["feed %s %s update %s %d igp -" % (peer, router(at), prefix(number), asn)
                    for peer, (asn, at, numbers) in NEIGHBOURS.items() for number in numbers]


def loop(size):
    """The same with AS 6, in which packets go round."""
    lines = network(size - 6) + ["router %s 6" % each for each in [*CHAIN, NEAR, FAR]]
    links = [*zip(CHAIN, CHAIN[1:]), (CHAIN[0], NEAR), (CHAIN[3], FAR)]
    lines += ["link %s %s 1" % both for both in links]
    for top, border, inner in ((NEAR, CHAIN[0], CHAIN[2]), (FAR, CHAIN[3], CHAIN[1])):
        lines += ["join %s %s" % (top, each) for each in (border, inner)]
        lines += ["client %s %s on" % (top, each) for each in (border, inner)]
    lines += ["join %s %s" % (NEAR, FAR)]
    for at, peer in ((CHAIN[0], "9.0.1.1"), (CHAIN[3], "9.0.1.2")):
        lines += ["virtual %s 201" % peer, "link %s %s 1" % (at, peer), "join %s %s" % (at, peer),
                  "feed %s %s update %s 201 igp -" % (peer, at, ROUND)]
    return lines


def walk(run, tables, start, to):
    """How a packet from a router to an address ends, and where, by the routes of all routers and first hops."""
    here, passed = start, []
    while True:
        known = tables[here]
        inside_of = [each for each in known if ipaddress.ip_address(to) in ipaddress.ip_network(each)]
        passed.append(here)
        if not inside_of:
            return "noroute", here, len(passed)
        route = known[max(inside_of, key=lambda each: int(each.split("/")[1]))]
        if route.source == "self":
            return "reached", here, len(passed)
        here = run.ask(["cost %s %s" % (here, route.attributes.next)])[0][0].split(" ")[-1]
        if not run.network.is_router(here):
            return "reached", here, len(passed)
        if here in passed:
            return "loop", here, len(passed)


def parts(lines):
    """The parts of AS 5 over the links that have not failed, by union and find; and the sessions between parts."""
    above = {}

    def top(each):
        while above.setdefault(each, each) != each:
            each = above[each]
        return each
    words = [line.split() for line in lines]
    failed = {frozenset(each[1:3]) for each in words if each[0] == "fail"}
    for each in words:
        if each[0] == "router":
            top(each[1])
        if each[0] == "link" and frozenset(each[1:3]) not in failed and "9" != each[2][0]:
            above[top(each[1])] = top(each[2])
    sizes = {}
    for each in list(above):
        sizes[top(each)] = sizes.get(top(each), 0) + 1
    return sorted(sizes.values()), sum(each[0] == "join" and each[2][0] != "9" and top(each[1]) != top(each[2]) for each in words)


class Planted(Case):
    def checked(self, lines, *words, status=1):
        """The findings, by kind, and the first ten lines of the text; a run of the converged network, too."""
        path = self.file("net.bgp", "\n".join(lines) + "\n")
        first = inside("check", path, *words)
        self.assertEqual((first.returncode, first.stderr), (status, ""), first.stdout)
        found = {}
        for each in json.loads(inside("check", path, "--json", "--all", *words).stdout)["findings"]:
            found.setdefault(each["kind"], []).append(each)
        run = Run()
        self.addCleanup(run.close)
        run.play(lines_of(path.read_bytes(), "a script"))
        run.converge()
        return found, first.stdout.split("\n")[:10], run

    def ends(self, run, prefixes):
        """The packets of all routers to these prefixes, by how they end: with prefix, place and how many they pass."""
        told, routers = {}, run.network.routers()
        tables = dict(zip(routers, map(routes, run.ask("routes " + each for each in routers))))
        for to in prefixes:
            at = str(ipaddress.ip_network(to)[1])
            for start in routers:
                end, place, passed = walk(run, tables, start, at)
                told.setdefault(end, []).append((start, to, place, passed))
        return told

    def test_without_a_fault_nothing_is_found(self):
        for size in SIZES:
            found, _, _ = self.checked(network(size), "--invariants", self.file("roles", ROLES), status=0)
            self.assertEqual(set(found), {"single-session"})

    def test_a_leak(self):
        for size in SIZES:
            at, fault = router(3), "rule %s %s out path 103 permit" % (router(3), PROVIDER)
            lines = network(size)
            lines.insert(lines.index("rule %s %s out any deny" % (router(3), PROVIDER)), fault)
            found, first, run = self.checked(lines, "--invariants", self.file("roles", ROLES))
            self.assertEqual(set(found), {"single-session", "leak"})
            told = routes(run.ask(["out %s %s" % (at, PROVIDER)])[0])
            leaked = sorted(to for to, route in told.items() if route.attributes.path == "5,103")
            self.assertEqual([(each["router"], sorted(each["prefixes"])) for each in found["leak"]], [(at, leaked)])
            self.assertEqual(leaked, FED[PEER])
            self.assertIn("  leak: r3 (%s) tells %s, a provider, %s, learned from AS 103, a peer; packets go r3 (%s) > " % (
                at, PROVIDER, ", ".join(FED[PEER]), at), "\n".join(first))

    def test_a_loop(self):
        for size in SIZES:
            found, first, run = self.checked(loop(size))
            ended = self.ends(run, [ROUND])
            inner = {(start, to) for start, to, _, _ in ended["loop"]}
            self.assertEqual(inner, {(each, ROUND) for each in CHAIN[1:3]})
            self.assertEqual([(each["prefixes"], each["count"]) for each in found["loop"]], [([ROUND], len(inner))])
            self.assertEqual([hop["router"] for hop in found["loop"][0]["way"]["hops"]], CHAIN[1:3])
            self.assertTrue(first[1].startswith("  forwarding loop: %s at %s: %s > %s > %s: a loop; packets of 2 routers; look at `explain " % (
                ROUND, CHAIN[1], CHAIN[1], CHAIN[2], CHAIN[1])), first)

    def test_a_black_hole(self):
        for size in SIZES:
            lines, to = network(size), FED[CUSTOMER][0]
            with Run() as run:
                run.play(lines_of("\n".join(lines).encode(), "a script"))
                run.converge()
                passed = [run.ask(["cost %s %s" % (router(at), router(2))])[0][0].split(" ")[-1] for at in range(5, size)]
            hole = max((each for each in passed if each not in map(router, range(5))), key=passed.count)
            lines += ["rule %s %s in is %s deny" % (hole, router(top), to) for top in (0, 1)]
            found, first, run = self.checked(lines)
            ended = self.ends(run, [to])["noroute"]
            sent = [each for each in ended if each[3] > 1]
            self.assertTrue(sent)
            self.assertEqual({place for _, _, place, _ in ended}, {hole})
            self.assertEqual([(each["router"], each["prefixes"], each["count"]) for each in found["black-hole"]], [(hole, [to], len(sent))])
            self.assertEqual([(each["router"], each["prefixes"]) for each in found["lacking"]], [(hole, [to])])
            shown = run.network.names.shown(hole)
            self.assertTrue(first[1].startswith("  black hole: %s at %s: " % (to, shown)) and "> %s: no route there; packets of %d router" % (
                shown, len(sent)) in first[1], first)
            self.assertIn("  missing route: no route to %s at %s, though %d routers have one: from " % (to, shown, size - 1), "\n".join(first))

    def test_a_partition(self):
        for size in SIZES:
            half = {router(number) for number in range(size // 2)}
            links = [line.split()[1:3] for line in network(size) if line.startswith("link")]
            lines = network(size) + ["fail %s %s" % (one, other) for one, other in links
                                     if (one in half) != (other in half) and other[0] != "9"]
            found, first, run = self.checked(lines)
            sizes, down = parts(lines)
            self.assertEqual(sizes, [size // 2, size - size // 2])
            self.assertEqual([each["count"] for each in found["partition"]], [down])
            self.assertNotIn("session", found)
            told = " and ".join(["%d routers" % number for number in reversed(sizes)])
            self.assertTrue(first[1].startswith("  partition: AS 5 is in 2 parts with no way between them: "), first)
            for number in sizes:
                self.assertIn("%d routers (r" % number, first[1], told)
            self.assertIn("; %d sessions are down by it; look at links that have failed between r" % down, first[1])
            cells = {(start, to) for start, to, _, passed in self.ends(run, [OWN, FED[PEER][0]]).get("noroute", ()) if passed == 1}
            lost = {each["router"] for each in found["lacking"]}
            self.assertEqual(len(cells), 2 * (size - size // 2))
            self.assertTrue(lost <= {start for start, _ in cells})


class OtherTools(Case):
    """Leaks and standing loops, as what-if and sweep tell them."""
    LEAK = "clear %s %s out\n" % (router(3), PROVIDER)
    MOVE = "rule %s %s in any permit pref=150\nstop %s %s\nstart %s %s\n%s\n" % (
        (router(2), CUSTOMER) * 3 + ("\n".join(line for line in network(40) if line.startswith("feed " + CUSTOMER)),))

    def told(self, name, *words):
        ran = inside(name, *words)
        self.assertEqual(ran.stderr, "")
        return ran.stdout.split("\n")

    def test_a_leak_is_told_before_what_moves_inside(self):
        base = self.file("net.bgp", "\n".join(network(40)) + "\n")
        lines = self.told("what-if", base, self.file("both", self.LEAK + "noorigin %s %s\n" % (router(5), OWN)))
        title = "Told to external neighbours, and not before"
        places = [lines.index(each) for each in (title, "Router r0 (5.0.0.0)", "Told to external neighbours")]
        self.assertEqual(places, sorted(places))
        gained = [line.split() for line in lines[places[0]:places[1]] if line.startswith("    gained")]
        self.assertEqual([word.rstrip(",") for words in gained for word in words[1:]], FED[PEER])

    def test_a_leak_ranks_before_routes_that_move(self):
        base = self.file("net.bgp", "\n".join(network(40)) + "\n")
        self.file("changes/a-move", self.MOVE)
        self.file("changes/b-leak", self.LEAK)
        rows = [line.split()[:2] for line in self.told("sweep", base, "--changes", self.folder / "changes") if line.startswith("  file")]
        self.assertEqual(rows, [["file", "b-leak"], ["file", "a-move"]])

    def test_a_loop_of_the_base_is_told(self):
        base, change = self.file("net.bgp", "\n".join(loop(40)) + "\n"), self.file("changes/one", "origin 6.0.0.6 10.0.0.0/8\n")
        wanted = "Loops before the change and after it: 2 packets, as from 6.0.0.2 to 203.0.113.1; `check` of the base explains them"
        self.assertIn(wanted, self.told("what-if", base, change))
        self.assertIn(wanted, json.loads(inside("what-if", base, change, "--json").stdout)["notes"])
        self.assertIn("2 packets go round in loops of the base itself, which `check %s` explains" % base,
                      self.told("sweep", base, "--changes", self.folder / "changes"))

    def test_invariants_that_a_change_breaks_are_told_first(self):
        base, change = self.file("net.bgp", "\n".join(network(40)) + "\n"), self.file("leak", self.LEAK)
        already = "r7 reaches 10.0.0.0/8"
        rules = self.file("rules", "%s\n%sr7 reaches %s\n" % (already, ROLES, OWN))
        lines = self.told("what-if", base, change, "--invariants", rules)
        self.assertEqual(lines[0], "Broken invariants")
        self.assertTrue(lines[1].startswith("  r3 (%s) tells %s, a provider, %s, learned from AS 103" % (
            router(3), PROVIDER, ", ".join(FED[PEER]))), lines[1])
        self.assertEqual(lines[2], "  `%s`: r7 (%s): no route there" % (already, router(7)))
        self.assertEqual(lines[3], "Told to external neighbours, and not before")
        told = json.loads(inside("what-if", base, change, "--json", "--invariants", rules).stdout)["notes"]
        self.assertEqual(told, [each[2:] for each in lines[1:3]])
