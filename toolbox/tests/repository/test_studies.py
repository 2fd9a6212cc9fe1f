"""The studies of toolbox/lessons/python: each prints what its file says, and that is what was worked out otherwise."""
import os
import re
import sys

from bgptools import Network
from bgptools.importers.relationships.caida import relations
from common import TOP, TOOLBOX, Case, alone, tool

STUDIES = TOP / "toolbox" / "lessons" / "python"
sys.path.append(str(STUDIES))
import stable_states  # noqa: E402

OWNER = 64


def paths(known, origins):
    """The path by which each AS reaches a prefix of these ASes, where routes of customers are liked best, then those
    of peers, then those of providers; then short ones, then those of the lower neighbour; and a route goes on to
    customers, or comes from one. Each AS looks at what its neighbours have, again and again, until nothing changes."""
    found = {asn: (asn,) for asn in origins}
    while True:
        now = {}
        for asn in known.asns():
            ways = [(rank, found[other]) for rank, others in enumerate((known.customers, known.peers, known.providers))
                    for other in others[asn] if other in found and told(known, found[other], asn)]
            best = min(ways, key=lambda way: (way[0], len(way[1]), way[1][0]), default=None)
            if asn in origins or best:
                now[asn] = (asn,) if asn in origins else (asn,) + best[1]
        if now == found:
            return found
        found = now


def told(known, path, to):
    """Whether the first AS of a path tells it to a neighbour, which takes it."""
    return to not in path and (to in known.customers[path[0]] or len(path) == 1 or path[1] in known.customers[path[0]])


class Studies(Case):
    def printed(self, name):
        """What a study prints, which its file has."""
        called = [sys.executable, "-B", STUDIES / (name + ".py")]
        ran = alone(called, self.folder, PYTHONPATH=TOOLBOX, PROGRAM=os.environ["PROGRAM"])
        self.assertEqual((ran.returncode, ran.stderr), (0, b""))
        self.assert_as_file(ran.stdout.decode(), STUDIES / (name + ".out"))
        return ran.stdout.decode()

    def test_whom_each_hijack_catches(self):
        known = relations(str(STUDIES / "relationships.txt"))
        found = {asn: sum(path[-1] == asn for path in paths(known, (OWNER, asn)).values()) - 1 for asn in range(1, 51)}
        worst = sorted(found, key=lambda asn: (-found[asn], asn))
        wanted = ["AS %d catches %d of 62" % (asn, found[asn]) for asn in worst]
        self.assertEqual(self.printed("hijacks").splitlines(), wanted)
        self.assertGreater(len(set(found.values())), 20)

    def test_the_stable_states(self):
        """DISAGREE's two, by hand: one of the two ASes has the way that it likes, over the other. The tool says how
        often. In RFC 3345's network none is stable; with MED over all neighbours both reflectors have MED 0 of AS 6,
        and 1.0.0.2 keeps its own."""
        both = ("1.0.0.1 by 2,3; 2.0.0.1 by 3; 3.0.0.1 by -", "1.0.0.1 by 3; 2.0.0.1 by 1,3; 3.0.0.1 by -")
        lines = self.printed("stable_states").splitlines()
        at = lines.index("RFC 3345: 0 stable, in 20 random orders")
        self.assertEqual(lines[0], "DISAGREE: 2 stable, in 20 random orders")
        counts = {line.split(": ")[1]: int(line.split(": ")[0].split(" ")[-1]) for line in lines[1:at]}
        self.assertEqual(set(counts), {*both, "it does not converge"})
        told = tool("converge", TOOLBOX / "lessons" / "disagree.bgp", "--at-end", "--states", "20", status=1).stdout
        states = re.findall(r"in (\d+) of 20, as with --seed \d+\n.* path (2,3|3), ", told)
        self.assertEqual({both[path == "3"]: int(count) for count, path in states},
                         {state: counts[state] for state in both})
        self.assertEqual(lines[at + 1:], [
            "  in 20: it does not converge",
            "RFC 3345, where both reflectors compare MED over all neighbours: 1 stable, in 20 random orders",
            "  in 20: 1.0.0.1 by 6,100; 1.0.0.2 by 10,100; 1.0.0.3 by 6,100; 1.0.0.4 by 6,100; 1.0.0.5 by 6,100"])

    def test_the_network_of_rfc_3345_is_that_of_the_lesson(self):
        lesson = (TOP / "examples" / "lessons" / "med-oscillation.bgp").read_text().split("# A cure")[0]
        edits = [line for line in lesson.splitlines() if line and line.split()[0] not in ("#", "deliver", "why")]
        with stable_states.rfc_3345() as net:
            self.assertEqual(sorted(net.script().splitlines()), sorted(edits))

    def test_what_each_lost_link_does(self):
        """By hand. Of the ring all packets leave by 5.0.0.3; 5.0.0.1 goes by 5.0.0.2, at cost 2. So without the link
        of these two it alone goes otherwise, without the next one both do, and nobody needs that of 5.0.0.1 and
        5.0.0.4. In the three ASes a link has a route at each end, but for AS 2, which originates nothing: at one."""
        row = "  %s: black holes %d, routes lost %d, moved %d, packets another way %d, messages %d"
        ring = (("5.0.0.3 - 7.0.0.1", 4, 4, 0, 4, 3), ("5.0.0.2 - 5.0.0.3", 0, 0, 0, 2, 0),
                ("5.0.0.1 - 5.0.0.2", 0, 0, 0, 1, 0), ("5.0.0.3 - 5.0.0.4", 0, 0, 0, 1, 0),
                ("5.0.0.1 - 5.0.0.4", 0, 0, 0, 0, 0))
        ases = (("1.0.0.1 - 3.0.0.1", 0, 0, 2, 2, 2), ("1.0.0.1 - 2.0.0.1", 0, 0, 1, 1, 1),
                ("2.0.0.1 - 3.0.0.1", 0, 0, 1, 1, 1))
        self.assertEqual(self.printed("lost_links").splitlines(), [
            "drained-link.bgp", *(row % each for each in ring), "three-ases.bgp", *(row % each for each in ases)])

    def test_the_document_names_each_study(self):
        text = (TOP / "docs" / "howto" / "use-python.md").read_text()
        for path in STUDIES.glob("*.py"):
            self.assertIn("PYTHONPATH=toolbox python3 toolbox/lessons/python/%s" % path.name, text)
