"""converge --stable: networks of the literature with known states, the scripts that reach them, and its bounds."""
import json

from common import TOOLBOX, TOP, Case, inside, program, tool

LESSONS = TOOLBOX / "lessons"
DISAGREE = LESSONS / "disagree.bgp"
PREFIX = "203.0.113.0/24"
# What each AS has in each state, by hand: paths by AS.
KNOWN = {
    "shortest": [{1: "9", 2: "9", 3: "9", 4: "2,9"}],
    "good-gadget": [{1: "3,9", 2: "9", 3: "9", 4: "3,9"}],
    "bad-gadget": [],
    "disagree": [{1: "2,3", 2: "3"}, {1: "3", 2: "1,3"}],
    "wedgie": [{2: "1", 3: "2,1", 4: "1"}, {2: "3,4,1", 3: "4,1", 4: "1"}]}


def paths_of(script, ases):
    """The path that the first router of each AS has at the end of a script that leaves no message waiting."""
    questions = "".join("best %d.0.0.1 %s\n" % (asn, PREFIX) for asn in ases)
    replies = program(script + "quiet\n" + questions)[-len(ases) - 1:]
    assert replies[0] == "yes", replies
    return {asn: reply.split("path=")[1].split(" ")[0] for asn, reply in zip(ases, replies[1:])}


def pairs(count):
    """So many pairs of ASes that prefer each other, all customers of AS 999, which originates the prefix: each pair has
    two states of its own."""
    lines = ["router 9.9.9.9 999"]
    for number in range(count):
        one, other = "1.%d.0.1" % number, "2.%d.0.1" % number
        lines += ["router %s %d" % (one, 1000 + number), "router %s %d" % (other, 2000 + number)]
        for here, there in ((one, other), (one, "9.9.9.9"), (other, "9.9.9.9")):
            lines += ["link %s %s 1" % (here, there), "join %s %s" % (here, there)]
        lines += ["rule %s %s in any permit pref=200" % way for way in ((one, other), (other, one))]
        lines += ["rule 9.9.9.9 %s in any deny" % each for each in (one, other)]
    return "\n".join([*lines, "origin 9.9.9.9 " + PREFIX, ""])


class Known(Case):
    def test_networks_of_the_literature(self):
        for name, states in KNOWN.items():
            with self.subTest(name=name):
                path = LESSONS / (name + ".bgp")
                told = inside("converge", path, "--stable", "--json")
                self.assertEqual(told.returncode, 0 if states else 1)
                found, = json.loads(told.stdout)["prefixes"]
                scripts = [inside("converge", path, "--stable", "--state", each["number"]).stdout
                           for each in found["states"]]
                self.assertCountEqual([paths_of(script, list(states[0])) for script in scripts], states)

    def test_the_network_of_rfc_3345_has_none(self):
        """Up to its cure; then one, by the deliveries that the lesson has itself."""
        lesson = (TOP / "examples" / "lessons" / "med-oscillation.bgp").read_text()
        told = tool("converge", "-", "--stable", given=lesson.split("# step A cure")[0].encode(), status=1)
        self.assertEqual(told.stdout, PREFIX + ": no stable state: it converges in no order of messages\n")
        self.assertEqual(told.stderr, "-: 21 deliveries of its own were left out\n")
        made = tool("converge", "-", "--stable", "--state", "1", given=lesson.encode(), status=0).stdout
        questions = "".join("best 1.0.0.%d %s\n" % (number, PREFIX) for number in range(1, 6))
        self.assertEqual(program(made + questions)[-5:], program(lesson + questions)[-5:])

    def test_each_prefix_apart(self):
        """The second one has another originator, and no rule tells of it; a feed counts by its last message."""
        more = ("virtual 7.0.0.1 7\nlink 7.0.0.1 1.0.0.1 1\njoin 7.0.0.1 1.0.0.1\norigin 1.0.0.1 10.0.0.0/8\n"
                "feed 7.0.0.1 1.0.0.1 update 11.0.0.0/8 7 igp -\nfeed 7.0.0.1 1.0.0.1 withdraw 11.0.0.0/8\n")
        path = self.file("both.bgp", DISAGREE.read_text() + more)
        told = tool("converge", path, "--stable", status=0).stdout.splitlines()
        self.assertEqual([line.split(" by ")[0] for line in told if not line.startswith(" ")], [
            "10.0.0.0/8: 1 stable state", "State 1: reached", "11.0.0.0/8: 1 stable state", "State 1: reached",
            "203.0.113.0/24: 2 stable states", "State 1: reached", "State 2: reached"])
        self.assertIn("--prefix P is expected, to say of which prefix: 10.0.0.0/8, 11.0.0.0/8, 203.0.113.0/24",
                      tool("converge", path, "--stable", "--state", "1", status=2).stderr)
        made = tool("converge", path, "--stable", "--prefix", "10.0.0.0/8", "--state", "1", status=0).stdout
        self.assertNotIn("203.0.113.0/24", made)
        self.assertEqual(program(made + "quiet\n")[-1], "yes")


    def test_a_state_that_no_order_reaches(self):
        """AS 1 has a route of its own, and likes that of AS 2 better; AS 2 likes that of AS 1 better than its feed. To
        end with the feed, AS 2 has to tell of it before it takes the route of AS 1, which waits. When it takes that, it
        takes its own back, so that AS 1 tells of its own again, and so on: each update brings the next."""
        given = ("router 1.0.0.1 1\nrouter 2.0.0.1 2\nvirtual 6.0.0.1 6\nlink 1.0.0.1 2.0.0.1 1\nlink 2.0.0.1 6.0.0.1 1\n"
                 "join 1.0.0.1 2.0.0.1\njoin 2.0.0.1 6.0.0.1\nrule 1.0.0.1 2.0.0.1 in any permit pref=150\n"
                 "feed 6.0.0.1 2.0.0.1 update 203.0.113.0/24 6,9 igp -\norigin 1.0.0.1 203.0.113.0/24\n").encode()
        told = tool("converge", "-", "--stable", given=given, status=1).stdout.splitlines()
        self.assertEqual([line for line in told if not line.startswith(" ")], [
            PREFIX + ": 2 stable states", "State 1: not reached by the orders that were tried", told[4]])
        self.assertIn("at 1.0.0.1: from 2.0.0.1, next 2.0.0.1, path 2,6,9, med -, pref 150", told[2])
        self.assertTrue(told[4].startswith("State 2: reached by "))
        self.assertIn("--state 1: no deliveries were found", tool("converge", "-", "--stable", "--state", "1", given=given, status=2).stderr)


class Bounds(Case):
    def test_states_of_parts_multiply(self):
        path = self.file("pairs.bgp", pairs(3))
        told = tool("converge", path, "--stable", status=0).stdout
        self.assertTrue(told.startswith(PREFIX + ": 8 stable states\n"))
        made = [tool("converge", path, "--stable", "--state", number, status=0).stdout for number in (1, 8)]
        questions = "".join("routes %d.%d.0.1\n" % (side, number) for side in (1, 2) for number in range(3))
        ends = [program(each + "quiet\n" + questions) for each in made]
        self.assertEqual([end[-13] for end in ends], ["yes", "yes"])
        self.assertNotEqual(*ends)

    def test_a_search_that_is_too_large_says_so(self):
        path = self.file("pairs.bgp", pairs(3))
        for bound, said in ((5, "at least 0 stable states; the search was cut off at 5 candidate routes"),
                            (14, "at least 7 stable states; the search was cut off at 14 steps")):
            with self.subTest(bound=bound):
                told = tool("converge", path, "--stable", "--bound", bound, status=1).stdout.splitlines()[0]
                self.assertEqual(told, "%s: %s, and --bound N allows more" % (PREFIX, said))

    def test_options_that_do_not_go_together(self):
        for words, said in ((["--state", "1"], "--state is for --stable"),
                            (["--stable", "--states", "3"], "--states goes not with --stable"),
                            (["--stable", "--router"], "--router goes not with --stable"),
                            (["--stable", "--bound", "0"], "--bound 0: a number of at least 1"),
                            (["--stable", "--state", "3"], "--state 3: a number of 1 to 2 is expected"),
                            (["--stable", "--json", "--state", "1"], "--json goes not with --state"),
                            (["--stable", "--prefix", "10.0.0.0/8"], "--prefix 10.0.0.0/8: the script originates")):
            with self.subTest(words=words):
                self.assertIn(said, tool("converge", DISAGREE, *words, status=2).stderr)
