"""The cone of origins and observers: its ASes choose what they choose in the whole graph, and so do those that are
decided afterwards. What they choose is computed here without the cone, decided again and again, in three passes, or by
the program on the whole graph."""
import collections
import gzip
import hashlib
import random
from unittest import mock

from common import Case, inside, tool
from relations import fixpoint, internet, kinds_of, relations

from bgptools.cli import from_as_rel
from bgptools.convergence.run import Run
from bgptools.importers.relationships import cone_script
from bgptools.importers.relationships.caida import Marking, Relations, Writer, routers_of
from bgptools.importers.relationships.cone import ancestors, cone, induced, without_idle_peerings
from bgptools.importers.relationships.stub_decision import decisions, downwards
from bgptools.program.mistakes import Mistake
from bgptools.program.script import read


def graph_of(kinds):
    known = Relations()
    for (one, other), kind in kinds.items():
        known.add((one, other, kind))
    return known


def drawn(seed):
    """A graph of 20 to 400 ASes without a loop of providers, whose numbers say nothing of who sells to whom."""
    lots = random.Random(seed)
    count = 20 + int(380 * lots.random() ** 3)
    asns = lots.sample(range(1, 70000), count)
    kinds = {}
    for at in range(1, count):
        for to in {int(at * lots.random() ** lots.choice((1, 2))) for _ in range(lots.choice((0, 1, 1, 2, 3)))}:
            kinds[asns[to], asns[at]] = -1
    for _ in range(lots.randrange(count)):
        one, other = lots.sample(asns, 2)
        if (other, one) not in kinds:
            kinds.setdefault((one, other), 0)
    return kinds


def asns_in(kinds):
    return sorted({asn for pair in kinds for asn in pair})


def with_none(asns, chosen):
    """What each of the ASes chose, with None for no route."""
    return {asn: chosen.get(asn) for asn in asns}


class Theorem(Case):
    """On 200 graphs, one prefix from up to three origins."""

    def some(self, first, count=100):
        """Graphs, with what all of their ASes choose, and lots."""
        for seed in range(first, first + count):
            kinds, lots = drawn(seed), random.Random(-seed)
            asns = asns_in(kinds)
            origins = lots.sample(asns, lots.choice((1, 2, 2, 3)))
            yield kinds, asns, origins, fixpoint(kinds, origins), lots

    def chosen_in(self, part, origins):
        """What the ASes of a part choose in it."""
        self.assertEqual(part.asns(), sorted(part.customers))
        return with_none(part.customers, fixpoint({tie[:2]: tie[2] for tie in part.ties}, origins))

    def test_some_observers(self):
        """What is left out chooses, too; and it is left out of many graphs."""
        counts = collections.Counter()
        for kinds, asns, origins, whole, lots in self.some(0):
            part = cone(graph_of(kinds), origins, lots.sample(asns, lots.choice((1, 2, 5))))
            self.assertEqual(self.chosen_in(part, origins), with_none(part.customers, whole))
            counts["kept"] += len(part.customers)
            counts["all"] += len(asns)
            counts.update(self.rank(kinds, asn, whole[asn]) for asn in part.customers if whole.get(asn))
        self.assertLess(counts["kept"] * 3, counts["all"])
        self.assertGreater(min(counts[kind] for kind in "customer peer provider".split()), 30)

    def rank(self, kinds, asn, path):
        """Whose route an AS chose."""
        return {-1: "customer", 0: "peer", None: "provider"}[kinds.get((asn, path[0]), 0 if (path[0], asn) in kinds and
                                                                      not kinds[path[0], asn] else None)]

    def test_all_observers_and_who_is_decided_afterwards(self):
        for kinds, asns, origins, whole, _ in self.some(100):
            known = graph_of(kinds)
            for observers in (None, origins):
                part = cone(known, origins, observers)
                self.assertEqual(decisions(known, self.chosen_in(part, origins)), with_none(asns, whole))
            sellers = {one for (one, _), kind in kinds.items() if kind}
            self.assertEqual(set(cone(known, origins).customers), sellers | set(origins))

    def test_all_observers_of_a_graph_that_is_too_large(self):
        """A network of few ASes, down to those above the origins: more are decided afterwards."""
        between = 0
        for kinds, asns, origins, whole, lots in self.some(400, 60):
            known = graph_of(kinds)
            least = len(ancestors(known, origins))
            most = lots.randrange(least, len(cone(known, origins).customers) + 1)
            graph, interest = cone_script.Graph(known, "rel", ""), cone_script.Interest(origins)
            with mock.patch.object(cone_script, "MOST_ROUTERS", most):
                part = cone_script.cone_of(graph, interest)
            with mock.patch.object(cone_script, "MOST_ROUTERS", least - 1):
                self.assertRaisesRegex(Mistake, "name fewer origins", cone_script.cone_of, graph, interest)
            self.assertTrue(least <= len(part.customers) <= most)
            self.assertEqual(decisions(known, self.chosen_in(part, origins)), with_none(asns, whole))
            between += least < len(part.customers) < len(cone(known, origins).customers)
        self.assertGreater(between, 10)

    def test_peerings_that_nothing_crosses(self):
        """None has more than three neighbours here, where only such peerings make them more."""
        count = 0
        for kinds, asns, origins, whole, _ in self.some(200):
            known = graph_of(kinds)
            above = ancestors(known, origins)
            part = without_idle_peerings(known, above, 3)
            self.assertEqual(self.chosen_in(part, origins), with_none(asns, whole))
            lost = [pair for pair, kind in kinds.items() if (*pair, kind) not in part.ties]
            self.assertEqual(lost, [(one, other) for (one, other), kind in kinds.items() if not kind and not
                                    above & {one, other} and max(known.degree(one), known.degree(other)) > 3])
            count += len(lost)
        self.assertGreater(count, 1000)


def in_three_passes(ties, origins):
    """What each AS chooses of one prefix, as (kind, length, neighbour): up from the origins, across, then down.

    Kind 0 is a route of its own or of a customer, 1 of a peer, 2 of a provider."""
    above, beside, below = (collections.defaultdict(list) for _ in range(3))
    for one, other, kind in ties:
        (beside if kind == 0 else above)[other].append(one)
        (beside if kind == 0 else below)[one].append(other)
    found, level = {asn: (0, 0, 0) for asn in origins}, list(origins)
    while level:
        best = {}
        for asn in level:
            for provider in above[asn]:
                if provider not in found:
                    best[provider] = min(best.get(provider, (0, found[asn][1] + 1, asn)), (0, found[asn][1] + 1, asn))
        found.update(best)
        level = list(best)
    across = {}
    for asn, (_, length, _) in found.items():
        for peer in beside[asn]:
            if peer not in found:
                across[peer] = min(across.get(peer, (1, length + 1, asn)), (1, length + 1, asn))
    found.update(across)
    by_length = collections.defaultdict(list)
    for asn, (_, length, _) in found.items():
        by_length[length].append(asn)
    length = 0
    while by_length:
        best = {}
        for asn in by_length.pop(length, []):
            for customer in below[asn]:
                if customer not in found:
                    best[customer] = min(best.get(customer, (2, length + 1, asn)), (2, length + 1, asn))
        found.update(best)
        if best:
            by_length[length + 1] += best
        length += 1
    return found


def paths_of(found):
    """Its paths."""
    paths = {}
    for asn in sorted(found, key=lambda asn: found[asn][1]):
        to = found[asn][2]
        paths[asn] = (to,) + paths[to] if to else ()
    return paths


class Internet(Case):
    def test_forty_thousand_ases(self):
        """Two origins of one prefix, one of which has no provider in common with the other's neighbourhood."""
        ties = [(*pair, kind) for pair, kind in kinds_of(internet(40000)).items()]
        known = Relations()
        for tie in ties:
            known.add(tie)
        origins = [39999, 20000]
        whole = paths_of(in_three_passes(ties, origins))
        self.assertEqual(len(whole), 40000)
        caught = sum(path[-1:] == (20000,) for path in whole.values())
        self.assertTrue(8000 < caught < 32000, caught)
        sizes = []
        for observers in (None, origins, [7, 30000]):
            part = cone(known, origins, observers)
            chosen = paths_of(in_three_passes(part.ties, origins))
            self.assertEqual(chosen, {asn: whole[asn] for asn in part.customers})
            if observers != origins:
                self.assertEqual(decisions(known, chosen), whole)
            sizes.append(len(part.customers))
        sellers = {one for one, _, kind in ties if kind}
        self.assertEqual(sizes[0], len(sellers | set(origins)))
        self.assertLess(max(sizes[1:]), 100)


class OnTheProgram(Case):
    """What from-as-rel writes, converged."""

    ties = 0

    def tables(self, path):
        """What each AS of a script chooses for each prefix, without communities. Where addresses decide is counted."""
        with Run() as run:
            run.play(read(str(path)))
            self.assertTrue(run.converge().is_converged)
            routers = run.network.routers()
            replies = run.ask("routes " + router for router in routers)
            asns = [run.network.nodes[router].asn for router in routers]
            asked = ["why %s %s" % (router, prefix) for router in routers for prefix in run.network.prefixes]
            self.ties += sum(line.endswith(" ident") for reply in run.ask(asked) for line in reply)
        return {asn: [line.split(" comms=")[0] for line in reply[:-1]] for asn, reply in zip(asns, replies)}

    def made(self, text, *words):
        path = self.folder / "made.bgp"
        ran = inside("from-as-rel", self.file("rel", text), *words, "-o", path)
        self.assertEqual((ran.returncode, ran.stdout), (0, ""), ran.stderr)
        return path, ran.stderr

    def paths(self, lines, prefix):
        """The path to a prefix in lines of `routes`, or None."""
        line = next((line for line in lines if line.startswith(prefix + " ")), None)
        shown = line and line.split(" path=")[1].split(" ")[0]
        return None if line is None else () if shown == "-" else tuple(map(int, shown.split(",")))

    def test_routes_are_those_of_the_whole_graph(self):
        """Also for a second origin of a prefix, with ties; ASes above 65535 among them."""
        left_out = 0
        for seed in range(6):
            kinds = drawn(1000 + seed)
            known, text = graph_of(kinds), "".join("%d|%d|%d\n" % (*pair, kind) for pair, kind in kinds.items())
            origins = random.Random(seed).sample(known.asns(), 2)
            named = ",".join(map(str, origins))
            words = ["--communities"] if seed % 2 else []
            whole, _ = self.made(text, "--origins", named, *words)
            second = "origin %s %s\n" % (routers_of(known.asns())[origins[1]], self.prefix(whole.read_text(), 0))
            whole.write_text(whole.read_text() + second)
            expected = self.tables(whole)
            for observers in ("all", named):
                part, _ = self.made(text, "--about", named, "--observers", observers, *words)
                prefixes = [self.prefix(part.read_text(), at) for at in range(2)]
                part.write_text(part.read_text() + second)
                found = self.tables(part)
                self.assertEqual(found, {asn: expected[asn] for asn in found})
                left_out += len(expected) - len(found)
                for prefix in prefixes:
                    chosen = {asn: self.paths(lines, prefix) for asn, lines in found.items()}
                    self.assertEqual(decisions(known, chosen),
                                     {asn: self.paths(lines, prefix) for asn, lines in expected.items()})
        self.assertGreater(left_out, 200)
        self.assertGreater(self.ties, 100)

    def prefix(self, script, at):
        return [line.split(" ")[2] for line in script.split("\n") if line.startswith("origin ")][at]

    def changes(self, writer, lots):
        """Commands that prepend, filter, keep routes inside an AS by NO_EXPORT, and fail links, at ASes of a part."""
        for one, other, kind in sorted(writer.known.ties):
            ends = [writer.routers[one], writer.routers[other]]
            here, there = ends if lots.random() < 0.5 else ends[::-1]
            what = lots.choice(("fail", "prepend", "filter", "keep", "", "", "", ""))
            if what == "fail":
                yield "fail %s %s" % (here, there)
            elif what == "filter":
                yield "clear %s %s in" % (here, there)
                yield "rule %s %s in path %d deny" % (here, there, lots.choice(writer.known.asns()))
                yield "rule %s %s in any permit pref=%d" % (
                    here, there, 90 if not kind else 100 if here == ends[0] else 80)
            elif what:
                yield "rule %s %s out any permit %s" % (
                    here, there, "prepend=2" if what == "prepend" else "add=4294967041")

    def test_policies_that_keep_it_exact(self):
        """The same changes to the whole graph and to the cone: ASes of the cone choose the same routes."""
        changed = 0
        for seed in range(6):
            known, lots = graph_of(drawn(2000 + seed)), random.Random(seed)
            origins, observers = lots.sample(known.asns(), 2), lots.sample(known.asns(), 8)
            part, whole = (Writer(each, origins, known) for each in (cone(known, origins, observers), known))
            changes = list(self.changes(part, lots))
            scripts = whole.lines(), whole.lines() + changes, part.lines() + changes
            before, expected, found = (
                self.tables(self.file("a.bgp", "".join(line + "\n" for line in lines))) for lines in scripts)
            self.assertEqual(found, {asn: expected[asn] for asn in part.known.asns()})
            changed += sum(before[asn] != expected[asn] for asn in found)
        self.assertGreater(changed, 50)

    def test_check_compares_with_the_whole_graph_or_a_larger_part(self):
        text = "\n".join(relations(300)) + "\n"
        _, said = self.made(text, "--about", "299,150", "--observers", "298", "--check", "1")
        self.assertRegex(said, r"rel: checked with the whole graph: 0 of (\d\d) ASes choose other routes, and 0 of "
                               r"2\d\d that are decided afterwards\n$")
        with mock.patch.object(cone_script, "MOST_ROUTERS", 200), mock.patch.object(cone_script, "MORE", 32):
            _, said = self.made(text, "--about", "299,150", "--observers", "298", "--check", "1", "--communities")
        self.assertRegex(said, r"rel: checked with a part of \d\d ASes: 0 of \d\d ASes choose other routes, and 0 of "
                               r"\d\d that are decided afterwards\n$")

    def test_check_finds_what_is_wrong(self):
        """A cone that lacks a provider of the observer: AS 4 chose 2, and has 3 left. So has 6, which buys from 4."""
        path = self.file("rel", "1|2|-1\n1|3|-1\n2|4|-1\n3|4|-1\n1|5|-1\n4|6|-1\n")
        with mock.patch.object(from_as_rel, "cone_of", lambda graph, _: induced(graph.known, {1, 3, 4, 5})):
            ran = inside("from-as-rel", path, "--about", "5", "--observers", "4", "--check", "3")
        route = "100.0.4.0/24 from 10.0.%d.1 path=%d,1,5 origin=igp next=10.0.%d.1 med=- pref=80 oid=- clusters=-"
        self.assertEqual((ran.returncode, ran.stdout), (3, ""))
        self.assertEqual(ran.stderr, (
            "{0}: AS 4 chooses {1}; in the larger part {2}\n{0}: AS 6 chooses 100.0.4.0/24 path=4,3,1,5; in the larger "
            "part 100.0.4.0/24 path=4,2,1,5\n{0}: checked with the whole graph: 1 of 4 ASes choose other routes, and 1 "
            "of 2 that are decided afterwards\n").format(path, route % (3, 3, 3), route % (2, 2, 2)))

    def test_no_larger_part_fits(self):
        path = self.file("rel", "1|2|-1\n1|3|-1\n1|4|-1\n")
        with mock.patch.object(cone_script, "MOST_ROUTERS", 2):
            ran = inside("from-as-rel", path, "--about", "2", "--observers", "2", "--check", "3")
        self.assertEqual((ran.returncode, ran.stderr), (
            2, "%s: --check: no larger cone fits into a network; name fewer observers\n" % path))

    def test_a_leak(self):
        """AS 4 buys from 1 and 2, which are peers; the origin 3 buys from 1, 5 and 6 buy from 2. AS 6 is a peer of 4.

        2 gets the leak from its customer 4 and prefers it to the peer's route: so does 5 below it. The exact cone has
        4, though it is above neither the origin nor the observer. AS 6, decided afterwards, prefers its peer 4."""
        text = "1|2|0\n1|3|-1\n1|4|-1\n2|4|-1\n2|5|-1\n2|6|-1\n6|4|0\n"
        known = graph_of(kinds_of(text.split("\n")[:-1]))
        for words in ([], ["--communities"]):
            made, said = self.made(text, "--about", "3", "--observers", "5", "--leak", "4", "--check", "1", *words)
            self.assertIn("0 of 5 ASes choose other routes, and 0 of 1 that are", said)
            found = {asn: self.paths(lines, "100.0.2.0/24") for asn, lines in self.tables(made).items()}
            self.assertEqual(found, {1: (3,), 2: (4, 1, 3), 3: (), 4: (1, 3), 5: (2, 4, 1, 3)})
            self.assertEqual(decisions(known, found, [4])[6], (4, 1, 3))
            made, _ = self.made(text, "--about", "3", "--observers", "5", *words)
            found = {asn: self.paths(lines, "100.0.2.0/24") for asn, lines in self.tables(made).items()}
            self.assertEqual(found, {1: (3,), 2: (1, 3), 3: (), 5: (2, 1, 3)})


class Script(Case):
    TEXT = "1|2|-1\n1|3|-1\n1|70000|0\n70000|4|-1\n3|5|-1\n70000|80000|-1\n"

    def test_the_head(self):
        path = self.folder / "a.gz"
        path.write_bytes(gzip.compress(self.TEXT.encode()))
        made = tool("from-as-rel", path, "--about", "80000,4", "--observers", "2", "--leak", "2", status=0)
        self.assertEqual(made.stderr, "")
        self.assertEqual(made.stdout.split("\n")[1:8], [
            "# graph: a.gz, SHA-256 " + hashlib.sha256(path.read_bytes()).hexdigest(),
            "# origins: AS 4, 80000", "# leaks: AS 2", "# observers: AS 2",
            "# 5 ASes and 4 relationships stand for 7 and 6: what is above an origin or an observer",
            "# Exact for prefixes of these origins: a route comes from a customer or a peer only if an origin is",
            "#   below it, else from a provider; and these are all here. See docs/explanation/cone.md"])

    def test_an_as_has_its_router_prefix_and_marks_in_each_part(self):
        path = self.file("rel", self.TEXT)
        whole = set(tool("from-as-rel", path, "--origins", "all", "--communities", status=0).stdout.split("\n"))
        self.assertIn("router 11.0.1.1 80000", whole)
        for words in (["--about", "80000"], ["--about", "80000,5", "--observers", "4"], ["--core", "3"]):
            made = inside("from-as-rel", path, "--communities", *words).stdout
            commands = {line for line in made.split("\n") if not line.startswith("#")}
            self.assertIn("router 11.0.%d.1 %d" % ((1, 80000) if "--about" in words else (0, 70000)), commands)
            self.assertLess(commands, whole)

    def test_marks_of_more_large_numbers_than_one_block_has(self):
        """The 6,554th is the first of 23457:. As many ASes as make 23458:1, were they numbered on and on."""
        asns = list(range(23450, 23470)) + list(range(65536, 65536 + 14000))
        known = graph_of({pair: -1 for pair in zip(asns, asns[1:])})
        owners = collections.defaultdict(set)
        for line in Marking(known, []).lines():
            words = line.split(" ")
            if " add=" in line or " comm " in line:
                owners[int(line.split("add=" if "add=" in line else "comm ")[1].split(" ")[0])].add(words[1])
        self.assertEqual({len(routers) for routers in owners.values()}, {1})
        self.assertEqual(owners[(23457 << 16) + 13], {routers_of(asns)[65536 + 6553]})

    def test_addresses_ascend_with_the_numbers(self):
        """So the lower number decides where the lower address does, as `decisions` takes it."""
        asns = [1, 255, 256, 65535, 65536, 70000, 4200000000]
        numbers = [tuple(map(int, router.split("."))) for _, router in sorted(routers_of(asns).items())]
        self.assertEqual(numbers, sorted(set(numbers)))

    def test_a_part_that_does_not_fit_into_a_network(self):
        many = "".join("1|%d|-1\n%d|%d|-1\n" % (asn, asn, asn + 5000) for asn in range(2, 5000))
        star = "".join("1|%d|-1\n" % asn for asn in range(2, 300))
        for text, words, said in (
                (many, ["--about", "2", "--observers", ",".join(map(str, range(2, 5000)))],
                 "the cone has 4999 ASes, and a network has at most 4096; name fewer observers\n"),
                (star, ["--about", ",".join(map(str, range(2, 260)))],
                 "the cone has 258 neighbours of AS 1, and a router has at most 256 sessions; name fewer origins\n")):
            ran = inside("from-as-rel", self.file("rel", text), *words)
            self.assertEqual((ran.returncode, ran.stdout), (2, ""))
            self.assertIn(said, ran.stderr)
        self.assertEqual(inside("from-as-rel", self.file("rel", many), "--about", "2").stdout.count("\nrouter "), 2)

    def test_mistakes(self):
        path = self.file("rel", "1|2|-1\n2|3|-1\n3|1|-1\n4|5|-1\n1|5|0\n")
        for words, said in (
                (["--about", "3"], "%s: AS 2 > 3 > 1 > 2, each a provider of the next one, are a loop, so that no cone "
                                   "is exact: write who of two is the provider the other way, or 0 for peers" % path),
                (["--about", "5,9"], "%s: --about 5,9: AS 9 is not among those of the network" % path),
                (["--about", "5", "--observers", "x"],
                 "%s: --observers x: AS x is not among those of the network" % path),
                (["--leak", "7"], "%s: --leak 7: AS 7 is not among those of the network" % path),
                (["--about", "5", "--core", "3"], "--about names the origins, and takes the place of --core and "
                                                  "--origins: write it without them"),
                (["--about", ""], "%s: --about : AS  is not among those of the network" % path),
                (["--about", "5", "--observers", "4", "--check", "0"],
                 "%s: --check: AS 1 is in a loop of providers, or below one, and cannot be decided by itself" % path),
                (["--observers", "5"], "--observers and --check go with --about: write --about ORIGINS, too"),
                (["--about", "5", "--check", "x"], "--check x: a number is expected, 0 to 4294967295")):
            ran = inside("from-as-rel", path, *words)
            self.assertEqual((ran.returncode, ran.stdout, ran.stderr), (2, "", said + "\n"))
        self.assertEqual(inside("from-as-rel", path, "--about", "5", "--observers", "4").returncode, 0)

    def test_calls_of_the_library(self):
        known = graph_of({(1, 2): -1, (2, 3): -1, (1, 4): 0})
        self.assertEqual(downwards(known), [1, 4, 2, 3])
        self.assertEqual(cone(known, [1], [1]).asns(), [1])
        with self.assertRaisesRegex(Mistake, "AS 9 is not among those of the network"):
            cone(known, [1], [9])
