"""What from-as-rel leaves out without --about: it is told, and ends with 1 where it can change a route."""
import random

from common import Case, inside, program
from relations import fixpoint
from test_cone import asns_in, drawn, graph_of

from bgptools.importers.relationships.cuts import core, cut

# AS 1 sells to 2 to 399; 2 and 3 are peers.
STAR = "".join("1|%d|-1\n" % asn for asn in range(2, 400)) + "2|3|0\n"
SAID = ("%s: not taken over: 142 relationships, since an AS has at most 256 sessions; routes can differ from those of "
        "the whole graph, and --about ORIGINS writes a part in which they do not\n"
        "%s: not taken over: all providers of 142 ASes: AS %s\n")


class Cuts(Case):
    def made(self, text, *words):
        path = self.file("rel", text)
        ran = inside("from-as-rel", path, *words)
        return ran.returncode, ran.stdout, ran.stderr.replace(str(path), "rel")

    def test_ases_without_room_for_their_sessions(self):
        """257 of 399 relationships stay, of them that between 2 and 3; each AS stays."""
        status, script, said = self.made(STAR)
        orphans = list(range(258, 400))
        self.assertEqual((status, said), (1, SAID % ("rel", "rel", ", ".join(map(str, orphans[:10])) +
                                                     " and 132 more (--all names them)")))
        self.assertEqual((script.count("\njoin "), script.count("\nrouter ")), (257, 399))
        self.assertEqual(set(program(script)), {"ok"})
        self.assertEqual(self.made(STAR, "--all"), (1, script, SAID % ("rel", "rel", ", ".join(map(str, orphans)))))
        said = SAID % ("rel", "rel", ", ".join(map(str, orphans)))
        self.assertEqual(self.made(STAR, "--strict", "--all"), (
            2, "", said + "nothing is written, since --strict treats each reported line as an error\n"))

    def test_a_core_that_lacks_providers(self):
        """1 and 2 sell to 3, 4 buys from both of 3 and 5: 1, 3, 4 are kept of 1 to 6 with the core of three."""
        text = "1|3|-1\n2|3|-1\n3|4|-1\n5|4|-1\n1|6|-1\n1|4|0\n"
        status, script, said = self.made(text, "--core", "3", "--origins", "4")
        self.assertEqual(sorted(line for line in script.split("\n") if line.startswith("router ")),
                         ["router 10.0.%d.1 %d" % (asn, asn) for asn in (1, 3, 4)])
        self.assertEqual((status, said), (1, (
            "rel: not taken over: 3 ASes and 3 relationships; routes can differ from those of the whole graph, and "
            "--about ORIGINS writes a part in which they do not\nrel: not taken over: some providers of 2 ASes\n")))
        self.assertEqual(self.made(text, "--core", "3", "--origins", "4", "--strict")[:2], (2, ""))

    def test_a_core_without_room_for_its_sessions(self):
        """Of 300 ASes 256 keep AS 1; 99 are left out, with one relationship each."""
        status, _, said = self.made(STAR, "--core", "300")
        self.assertEqual((status, said.split(";")[0]), (1, "rel: not taken over: 99 ASes and 142 relationships, 43 of "
                                                           "them since an AS has at most 256 sessions"))

    def test_peerings_without_room(self):
        """Of 299 peerings of AS 1 it keeps 256. No AS loses a provider."""
        status, _, said = self.made("".join("1|%d|0\n" % asn for asn in range(2, 301)))
        self.assertEqual((status, said), (1, (
            "rel: not taken over: 43 relationships, since an AS has at most 256 sessions; routes can differ from those "
            "of the whole graph, and --about ORIGINS writes a part in which they do not\n")))

    def test_a_core_that_decides_no_route(self):
        """All that is left out are customers, which originate nothing here."""
        for words in ([], ["--strict"]):
            status, script, said = self.made(STAR, "--core", "3", *words)
            self.assertEqual((status, script.count("\nrouter ")), (0, 3))
            self.assertEqual(said, "rel: note: 396 ASes and 396 relationships are left out, which decide no route of "
                                   "the others\n")
        self.assertEqual(self.made("1|2|-1\n1|3|-1\n", "--core", "3")[2], "")

    def test_more_ases_than_a_network_has(self):
        status, script, said = self.made("".join("1|%d|-1\n" % asn for asn in range(2, 5000)))
        self.assertEqual((status, script, said), (2, "", (
            "rel: it has 4999 ASes, and a network has at most 4096: --about ORIGINS keeps those that decide the routes "
            "of some, --core 4096 those with the most relationships\n")))

    def test_more_relationships_than_a_network_has_links(self):
        """200 ASes that are peers of one another have 19,900. A route crosses 199 of them."""
        mesh = "".join("%d|%d|0\n" % (one, other) for other in range(2, 201) for one in range(1, other))
        self.assertEqual(self.made(mesh), (2, "", (
            "rel: 19900 relationships of 200 ASes, and a network has at most 16384 links: --about ORIGINS keeps those "
            "that decide the routes of some, --core N those of the N ASes with the most\n")))
        observers = ",".join(map(str, range(1, 201)))
        for words in ([], ["--observers", observers]):
            status, script, said = self.made(mesh, "--about", "7", *words)
            self.assertEqual((status, said), (0, ""))
            self.assertEqual(script.count("\nlink "), 199 if words else 0)
        self.assertEqual(self.made(mesh, "--core", "100")[0], 0)

    def test_routes_are_those_of_the_whole_graph_unless_it_is_told(self):
        """On 100 graphs, whichever AS of the core originates."""
        same = other = 0
        for seed in range(300, 400):
            kinds, lots = drawn(seed), random.Random(-seed)
            known = graph_of(kinds)
            part = core(known, lots.randrange(2, len(asns_in(kinds)) + 1))
            origin = lots.choice(part.asns())
            whole = fixpoint(kinds, [origin])
            found = fixpoint({tie[:2]: tie[2] for tie in part.ties}, [origin])
            differs = found != {asn: path for asn, path in whole.items() if asn in part.customers}
            self.assertLessEqual(differs, cut(known, part).changes_routes)
            same += not cut(known, part).changes_routes
            other += differs
        self.assertGreater(min(same, other), 5)
