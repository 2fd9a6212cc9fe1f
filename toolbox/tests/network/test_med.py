"""MED compared over all neighbours: the command, what is kept of it, and what the tools tell where MED decided."""
import unittest

from bgptools.cli.prompt.completion import Completion
from bgptools.cli.prompt.local import OWN
from bgptools.network.configuration import Network
from bgptools.network.refusals import sentence
from bgptools.program.language import fault, words_of
from common import TOP, Case, inside, program, tool

LESSON = TOP / "examples" / "lessons" / "med-oscillation.bgp"
# AS 9 hears a prefix from AS 1 and AS 2, which are alike but for MED and identifier.
LINES = """router 9.0.0.1 9
router 9.0.0.2 9
virtual 1.0.0.1 1
virtual 2.0.0.1 2
link 9.0.0.1 9.0.0.2 1
link 9.0.0.1 1.0.0.1 1
link 9.0.0.1 2.0.0.1 1
join 9.0.0.1 9.0.0.2
join 9.0.0.1 1.0.0.1
join 9.0.0.1 2.0.0.1
feed 1.0.0.1 9.0.0.1 update 10.0.0.0/8 1 igp 7
feed 2.0.0.1 9.0.0.1 update 10.0.0.0/8 2 igp -
""".split("\n")


def network(*more):
    """These lines, and more that were accepted after them."""
    made = Network()
    for line in [*LINES[:-1], *more]:
        made.take(words_of(line))
    return made


class Lines(unittest.TestCase):
    def test_what_is_kept(self):
        self.assertEqual(network().med_always, set())
        self.assertEqual(network("med 9.0.0.1 always", "med 9.0.0.1 always", "med 9.0.0.2 as").med_always, {"9.0.0.1"})
        self.assertEqual(network("med 9.0.0.1 always", "med 9.0.0.1 as").med_always, set())

    def test_its_router_alone_may_send(self):
        for setting in ("as", "always"):
            self.assertEqual(network().may_send(["med", "9.0.0.1", setting]), {"9.0.0.1"})

    def test_lines_that_are_none(self):
        self.assertEqual([fault("med 9.0.0.1 " + setting) for setting in ("as", "always")], [None, None])
        for line, text in (("med", "a word is missing: the command is `med A as|always`"),
                           ("med 9.0.0.1", "a word is missing"), ("med 9.0.0.1 as x", "a word too many"),
                           ("med 9.0.0.1 as # text", "a comment needs a line of its own"),
                           ("med 9.0.0.1 on", "`on` where `as or always` is expected"),
                           ("med 9.0.0.1 Always", "`Always` where"), ("med as 9.0.0.1", "`as` is not an address"),
                           ("nomed 9.0.0.1", "no command `nomed`")):
            with self.subTest(line=line):
                self.assertIn(text, str(fault(line)))

    def test_refusals(self):
        self.assertEqual(sentence("med 3.3.3.3 as", 2, network()), "there is no router or virtual peer 3.3.3.3")
        self.assertEqual(sentence("med 1.0.0.1 always", 5, network()),
                         "1.0.0.1 is a virtual peer, and `med` is about a router")

    def test_completion(self):
        completion = Completion(OWN, network, lambda: [])
        self.assertIn("med", completion.candidates("", "m"))
        self.assertCountEqual(completion.candidates("med ", ""), ["9.0.0.1", "9.0.0.2", "1.0.0.1", "2.0.0.1"])
        self.assertEqual(completion.candidates("med 9.0.0.1 ", ""), ["as", "always"])
        self.assertEqual(completion.candidates("med 9.0.0.1 as ", ""), [])


class Told(Case):
    def script(self, *more):
        return self.file("net.bgp", "\n".join([*LINES[:-1], *more]) + "\n")

    def explained(self, *more):
        """How the two routes are told, in few words."""
        told = tool("explain", "--converge", self.script(*more), "9.0.0.1", "10.0.0.0/8", status=0).stdout
        return [line.split(None, 2)[2] for line in told.split("\n") if line.startswith("  from")]

    def test_explain(self):
        within = "lost by identifier: 2.0.0.1 against 1.0.0.1 of 1.0.0.1"
        over = "lost by MED: 7 against 0 (missing) of 2.0.0.1, compared over all neighbours"
        self.assertEqual(self.explained(), ["chosen", within])
        self.assertEqual(self.explained("med 9.0.0.1 always"), [over, "chosen"])
        self.assertEqual(self.explained("med 9.0.0.2 always"), ["chosen", within])
        self.assertEqual(self.explained("med 9.0.0.1 always", "med 9.0.0.1 as"), ["chosen", within])

    def test_the_best_of_all_is_named(self):
        """Under `as` the one of the same neighbour that has the lowest MED, under `always` the one that has it of all."""
        more = ["virtual 1.0.0.2 1", "link 9.0.0.1 1.0.0.2 1", "join 9.0.0.1 1.0.0.2",
                "feed 1.0.0.2 9.0.0.1 update 10.0.0.0/8 1 igp 3"]
        over = "lost by MED: %d against 0 (missing) of 2.0.0.1, compared over all neighbours"
        self.assertEqual(self.explained(*more)[0],
                         "lost by MED: 7 against 3 of 1.0.0.2, compared among routes of AS 1")
        self.assertEqual(self.explained(*more, "med 9.0.0.1 always"), [over % 7, over % 3, "chosen"])

    def test_what_if(self):
        change = self.file("net.change", "med 9.0.0.1 always\n")
        told = tool("what-if", self.script(), change, status=1).stdout
        self.assertIn("            the old one: med: another has a lower MED, compared over all neighbours\n", told)
        sent = "            9.0.0.1 to 1.0.0.1: update 10.0.0.0/8 path 9,2\n"
        self.assertIn("  line 1, med 9.0.0.1 always\n" + sent, told)
        none = self.file("none.change", "med 9.0.0.2 always\n")
        self.assertIn("Nothing changed.", tool("what-if", self.script(), none, status=0).stdout)

    def test_draw(self):
        for setting, text in (("as", "from 1.0.0.1\\npath 1\\nby identifier 1.0.0.1"),
                              ("always", "from 2.0.0.1\\npath 2\\nby MED 0 (missing) over all neighbours")):
            told = inside("draw", self.script("med 9.0.0.1 " + setting), "--converge", "--prefix", "10.0.0.0/8").stdout
            self.assertIn('"9.0.0.1" [label="9.0.0.1\\n%s"' % text, told)


class Converged(Case):
    # A reflector and two clients: one with a route of AS 7, which is nearer, one with a route of AS 6, of lower MED.
    REFLECTED = """router 5.0.0.1 5
router 5.0.0.2 5
router 5.0.0.3 5
virtual 6.0.0.1 6
virtual 7.0.0.1 7
link 5.0.0.1 5.0.0.2 1
link 5.0.0.1 5.0.0.3 2
link 5.0.0.2 7.0.0.1 1
link 5.0.0.3 6.0.0.1 1
join 5.0.0.1 5.0.0.2
join 5.0.0.1 5.0.0.3
join 5.0.0.2 7.0.0.1
join 5.0.0.3 6.0.0.1
client 5.0.0.1 5.0.0.2 on
client 5.0.0.1 5.0.0.3 on
feed 7.0.0.1 5.0.0.2 update 10.0.0.0/8 7,70 igp 20
feed 6.0.0.1 5.0.0.3 update 10.0.0.0/8 6,70 igp 10
"""

    def test_routers_that_compare_alike_and_otherwise(self):
        """By hand: where 5.0.0.2 alone compares over all neighbours, it takes the other route if the reflector tells it,
        and then the reflector has no other; else the reflector takes the nearer one, and tells it nothing."""
        for where, states in (([], 1), (["5.0.0.2"], 2), (["5.0.0.1", "5.0.0.2", "5.0.0.3"], 1)):
            script = self.file("net.bgp", self.REFLECTED + "".join("med %s always\n" % router for router in where))
            told = tool("converge", "--at-end", "--states", "16", script).stdout
            self.assertTrue(told.startswith("%d stable state%s in 16 " % (states, "s" if states > 1 else "")), told)

    def test_two_lines_end_the_oscillation(self):
        """And so does the setting of either reflector alone, since the route of MED 0 wins there."""
        text, after = LESSON.read_text(), "client 1.0.0.4 1.0.0.5 on\n"
        self.assertEqual(text.count(after), 1)
        for more in ("med 1.0.0.1 always\nmed 1.0.0.4 always\n", "med 1.0.0.1 always\n", "med 1.0.0.4 always\n"):
            for words in ((), ("--router",), ("--seed", "3")):
                made = tool("converge", "-", *words, given=text.replace(after, after + more).encode(), status=0).stdout
                self.assertEqual(program(made + "quiet\n")[-1], "yes")
        elsewhere = after + "med 1.0.0.1 as\nmed 1.0.0.3 always\n"
        tool("converge", "-", given=text.replace(after, elsewhere).encode(), status=1)
