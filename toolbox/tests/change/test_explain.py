"""explain: each reason with the values that decide, each script's own routes, and what a peer is told or why not."""
import os
import sys
from unittest import mock

from common import SCRIPTS, TOOLBOX, TOP, Case, inside, marked, program, tool

from bgptools.change.advertised_routes import Teller
from bgptools.convergence.run import Run
from bgptools.network.configuration import Network
from bgptools.program.script import lines_of
from simtools import random_scripts

# Three routers of AS 5, a virtual peer of AS 7 at the second, which tells it routes, and one of AS 8 at the first.
AS_FIVE = """# name 5.0.0.1 rr
router 5.0.0.1 5
router 5.0.0.2 5
router 5.0.0.3 5
virtual 7.0.0.1 7
virtual 8.0.0.1 8
link 5.0.0.1 5.0.0.2 1
link 5.0.0.1 5.0.0.3 1
link 5.0.0.2 7.0.0.1 1
link 5.0.0.1 8.0.0.1 1
join 5.0.0.1 5.0.0.2
join 5.0.0.1 5.0.0.3
join 5.0.0.2 7.0.0.1
join 5.0.0.1 8.0.0.1
"""
FEED = "feed 7.0.0.1 5.0.0.2 update 10.0.0.0/8 7,21 egp 4%s\n"
OUT = "rule 5.0.0.1 8.0.0.1 out %s\n"
# Says of what is advertised what it should not.
LIAR = """#!%s
import os, sys
sys.dont_write_bytecode = True
sys.path.insert(0, %r)
os.environ["PROGRAM"] = %r
from bgptools.program.process import Program
inner = Program()
for line in sys.stdin.buffer:
    line = line.decode("latin-1")[:-1]
    reply = inner.request(line)
    if line.startswith("out "):
        reply = %s
    print("".join(each + "\\n" for each in reply), end="", flush=True)
"""


def configured(path):
    """What a script configures."""
    network, content = Network(), path.read_bytes()
    replies = iter(program(content))
    for line in lines_of(content, str(path)):
        if line.is_command:
            reply = next(replies)
            if reply == "ok":
                network.take(line.words)
            elif line.words[0] in ("routes", "why", "in", "out", "queue", "trace"):
                while not reply.startswith(("end ", "refused ")):
                    reply = next(replies)
    return network


class Explain(Case):
    def test_each_script(self):
        for given in SCRIPTS:
            path = self.folder / given.name
            path.write_bytes(marked(given.read_bytes())[0])
            network = configured(path)
            for router in network.routers()[:2]:
                for prefix in sorted(network.prefixes)[:2]:
                    with self.subTest(path=path, router=router, prefix=prefix):
                        told = inside("explain", path, router, prefix)
                        self.assertEqual(told.returncode, 0)
                        self.assert_as_why(told.stdout, program(path.read_bytes() + ("\nwhy %s %s\n" % (router, prefix)).encode()))

    def assert_as_why(self, told, replies):
        """The routes are those of `why`, with the same one chosen."""
        count = int(replies[-1].split(" ")[1])
        wanted = [reply.split(" ") for reply in replies[len(replies) - 1 - count:-1]]
        lines = [line for line in told.split("\n")[1:] if line.startswith("  ") and not line.startswith("   ")]
        self.assertEqual(len(lines), count)
        for line, (source, reason) in zip(lines, wanted):
            self.assertTrue(line.startswith("  its own " if source == "self" else "  from %s " % source), line)
            self.assertEqual(line.endswith(" chosen"), reason == "best")
            if reason in ("loop", "originator", "cluster", "denied", "unresolved"):
                self.assertIn("excluded (%s)" % reason, line)

    def test_reasons(self):
        tour, change = "examples/tour.bgp", "lost by "
        for words, text in ((("10.3.0.0/16",), change + "preference: 100 against 150 of 8.0.0.1"), (("10.4.0.0/16",), change + "path length: 2 against 1 of 7.0.0.1"),
                            (("10.5.0.0/16",), change + "origin: egp against igp of 7.0.0.1"), (("10.6.0.0/16",), change + "MED: 10 against 5 of 7.0.0.1, compared among routes of AS 7\n"),
                            (("10.8.0.0/16",), change + "identifier: 8.0.0.1 against 7.0.0.1 of 7.0.0.1"),
                            (("10.7.0.0/16",), change + "external: it came from inside the AS, that of 7.0.0.1 from another")):
            with self.subTest(prefix=words[0]):
                self.assertIn(text, tool("explain", tour, "5.0.0.1", *words, status=0).stdout)
        self.assertIn("cost to the next hop: 21 against 11 of 5.0.0.1", tool("explain", "examples/hot-potato.bgp", "5.0.0.2", "203.0.113.0/24", status=0).stdout)
        self.assertIn("peer address: 5.0.0.2 against 5.0.0.1 of 5.0.0.1", tool("explain", "examples/two-reflectors.bgp", "5.0.0.4", "203.0.113.0/24", status=0).stdout)
        self.assertIn("excluded (denied)", tool("explain", "examples/hijack.bgp", "2.0.0.1", "198.51.100.128/25", status=0).stdout)

    def test_med_between_three(self):
        script = self.file("med.bgp", "".join((line + "\n") for line in """router 9.0.0.1 9
virtual 1.0.0.1 1
virtual 1.0.0.2 1
virtual 2.0.0.1 2
link 9.0.0.1 1.0.0.1 5
link 9.0.0.1 1.0.0.2 30
link 9.0.0.1 2.0.0.1 20
join 9.0.0.1 1.0.0.1
join 9.0.0.1 1.0.0.2
join 9.0.0.1 2.0.0.1
feed 1.0.0.1 9.0.0.1 update 198.51.100.0/24 1 igp 10
feed 1.0.0.2 9.0.0.1 update 198.51.100.0/24 1 igp 5
feed 2.0.0.1 9.0.0.1 update 198.51.100.0/24 2 igp 0""".split("\n")))
        told = tool("explain", "--converge", script, "9.0.0.1", "198.51.100.0/24", status=0).stdout
        self.assertIn("from 1.0.0.1         lost by MED: 10 against 5 of 1.0.0.2, compared among routes of AS 1\n", told)
        self.assertIn("from 1.0.0.2         lost by cost to the next hop: 30 against 20 of 2.0.0.1", told)

    def test_names_are_shown_and_taken(self):
        names = "# name 5.0.0.1 west\n# name 7.0.0.1 left\n# name 7.0.0.2 right\n"
        script = self.file("named.bgp", names + (TOP / "examples/tour.bgp").read_text())
        told = tool("explain", script, "west", "10.6.0.0/16", status=0).stdout
        self.assertEqual(told, tool("explain", script, "5.0.0.1", "10.6.0.0/16", status=0).stdout)
        self.assertTrue(told.startswith("10.6.0.0/16 at west (5.0.0.1): 2 routes\n  from left (7.0.0.1)  chosen\n"), told)
        self.assertIn("\n  from right (7.0.0.2) lost by MED: 10 against 5 of left (7.0.0.1), compared among routes of AS 7\n", told)
        self.assertIn("there is no router left in the script; it has 3.0.0.1, 3.0.0.2", tool("explain", script, "left", "10.6.0.0/16", status=2).stderr)

    def test_a_refused_line_is_a_mistake(self):
        told = tool("explain", "-", "1.0.0.1", "10.0.0.0/8", given=b"router 1.0.0.1 1\norigin 2.0.0.1 10.0.0.0/8\n", status=2)
        self.assertEqual((told.stdout, told.stderr), ("", "standard input:2: refused 2 no-router: there is no router or virtual peer 2.0.0.1\n"))

    def test_messages_that_wait_are_told(self):
        """Without --converge: how many messages wait, those of a virtual peer among them, and what to add."""
        script = AS_FIVE + FEED % ""
        for more, said in (("", "1 message waits"), (FEED.replace("10.0.0.0", "11.0.0.0") % "", "2 messages wait")):
            path = self.file("waits.bgp", script + more)
            told = tool("explain", path, "rr", "10.0.0.0/8", status=0)
            self.assertEqual((told.stdout, told.stderr), (
                "10.0.0.0/8 at rr (5.0.0.1): no route\n",
                "%s: %s; add `--converge`, and the network converges first\n" % (path, said)))
        self.assertEqual(tool("explain", "--converge", path, "rr", "10.0.0.0/8", status=0).stderr, "")
        is_empty = script + "deliver 7.0.0.1 5.0.0.2\ndeliver 5.0.0.2 5.0.0.1\ndeliver 5.0.0.1 8.0.0.1\n"
        path = self.file("waits.bgp", is_empty)
        self.assertEqual(tool("explain", path, "rr", "10.0.0.0/8", status=0).stderr, "")

    def test_another_order_is_told(self):
        script = TOP / "toolbox/lessons/disagree.bgp"
        told = tool("explain", "--converge", script, "left", "203.0.113.0/24", status=0)
        self.assertRegex(told.stderr, "in the fair order .*; it converges in the random order 3; .* in [12] stable states?\n")
        self.assertEqual(tool("explain", "--converge", "--seed", 3, script, "left", "203.0.113.0/24", status=0).stderr, "")

    def test_mistakes(self):
        self.assertIn("there is no router 9.9.9.9 in the script; it has 1.0.0.1, 2.0.0.1", tool("explain", "examples/hijack.bgp", "9.9.9.9", "10.0.0.0/8", status=2).stderr)
        self.assertIn("`10.0.0.1/8` is not a prefix", tool("explain", "examples/hijack.bgp", "1.0.0.1", "10.0.0.1/8", status=2).stderr)


class To(Case):
    def told(self, *lines, router="rr", peer="8.0.0.1", prefix="10.0.0.0/8", words=("--converge",), status=0):
        """What is told of a network of AS 5 with these lines, but its first line."""
        script = self.file("five.bgp", AS_FIVE + "".join(lines))
        told = tool("explain", *words, script, router, prefix, "--to", peer, status=status).stdout
        self.assertTrue(told.startswith("%s at " % prefix))
        return told.split("\n", 1)

    def test_what_is_changed_towards_another_as(self):
        rules = ("first 9 deny", "comm 5 permit med=30 prepend=2 add=65536")
        first, rest = self.told(*map(OUT.__mod__, rules), FEED % " comm=5")
        self.assertEqual(first, "10.0.0.0/8 at rr (5.0.0.1): advertised to 8.0.0.1")
        self.assertEqual(rest, """  chosen: from 5.0.0.2
      path=7,21 origin=egp next=7.0.0.1 med=4 pref=100 oid=- clusters=- comms=5 (0:5)
  advertised:
      path=5,5,5,7,21 origin=egp next=5.0.0.1 med=30 pref=- oid=- clusters=- comms=5,65536 (0:5 1:0)
  let out by export rule 2, `rule 5.0.0.1 8.0.0.1 out comm 5 permit med=30 prepend=2 add=65536` (0:5 1:0)
  path: 7,21 became 5,5,5,7,21: AS 5 in front, 3 times, by export rule 2
  next hop: 7.0.0.1 became 5.0.0.1: the router itself, towards another AS
  MED: 4 became 30: by export rule 2
  preference: 100 became -: it is not told to another AS
  communities: 65536 (1:0) added by export rule 2
""")

    def test_what_is_dropped_and_what_no_rule_changes(self):
        _, rest = self.told(FEED % "")
        self.assertIn("\n  path: 7,21 became 5,7,21: AS 5 in front\n", rest)
        self.assertIn("\n  MED: 4 became -: it is not told to another AS\n", rest)
        for word in ("let out", "communities", "comms"):
            self.assertNotIn(word, rest)

    def test_inside_the_as(self):
        first, rest = self.told(FEED % " comm=5", router="5.0.0.2", peer="rr")
        self.assertEqual(first, "10.0.0.0/8 at 5.0.0.2: advertised to rr (5.0.0.1)")
        self.assertTrue(rest.endswith("clusters=- comms=5 (0:5)\n  nothing is changed in it\n"), rest)
        _, rest = self.told("self 5.0.0.2 5.0.0.1 on\n", FEED % " comm=5", router="5.0.0.2", peer="rr")
        told = "next hop: 7.0.0.1 became 5.0.0.2: the router itself, by `self 5.0.0.2 5.0.0.1 on`"
        self.assertTrue(rest.endswith("\n  %s\n" % told), rest)

    def test_a_reflected_route(self):
        lines = ("client 5.0.0.1 5.0.0.3 on\n", FEED % "")
        _, rest = self.told("cluster 5.0.0.1 1.1.1.1\n", *lines, peer="5.0.0.3")
        self.assertIn("oid=5.0.0.2 clusters=1.1.1.1\n", rest)
        self.assertTrue(rest.endswith("\n  ORIGINATOR_ID: - became 5.0.0.2: from whom it came, since it is reflected\n"
                                      "  CLUSTER_LIST: - became 1.1.1.1: the reflector's CLUSTER_ID in front\n"), rest)
        first, rest = self.told(FEED % "", peer="5.0.0.3")
        self.assertEqual(first, "10.0.0.0/8 at rr (5.0.0.1): not advertised to 5.0.0.3")
        told = "it came from 5.0.0.2 inside the AS, and neither that nor this peer is a client of rr (5.0.0.1)"
        self.assertTrue(rest.endswith("\n  %s\n" % told), rest)

    def test_what_it_carries(self):
        """NO_EXPORT and NO_EXPORT_SUBCONFED keep it in the AS, NO_ADVERTISE at the router; a rule adds later."""
        outside = "such a route is told to no other AS (8.0.0.1 is in AS 8)"
        for number, name in ((4294967041, "NO_EXPORT"), (4294967043, "NO_EXPORT_SUBCONFED")):
            first, rest = self.told(FEED % (" comm=5,%d" % number))
            self.assertEqual(first, "10.0.0.0/8 at rr (5.0.0.1): not advertised to 8.0.0.1")
            self.assertTrue(rest.endswith("\n  it carries %d (%s): %s\n" % (number, name, outside)), rest)
            first, _ = self.told(FEED % (" comm=5,%d" % number), router="5.0.0.2", peer="5.0.0.1")
            self.assertIn(": advertised to ", first)
        for peer in ("5.0.0.1", "7.0.0.1"):
            first, rest = self.told(FEED % " comm=4294967042", router="5.0.0.2", peer=peer)
            self.assertIn(": not advertised to ", first)
            self.assertIn("\n  it carries 4294967042 (NO_ADVERTISE): such a route is told to no peer\n", rest)
        first, rest = self.told(OUT % "any permit add=4294967041", FEED % "")
        self.assertIn(": advertised to ", first)
        self.assertIn("\n  communities: 4294967041 (NO_EXPORT) added by export rule 1\n", rest)

    def test_a_rule_that_denies(self):
        _, rest = self.told(OUT % "is 11.0.0.0/8 deny", OUT % "comm 4259840001 deny", FEED % " comm=4259840001")
        told = "it is denied by export rule 2, `rule 5.0.0.1 8.0.0.1 out comm 4259840001 deny` (65000:1)"
        self.assertTrue(rest.endswith("\n  %s\n" % told), rest)

    def test_each_reason_that_holds_is_told(self):
        lines = ("stop 5.0.0.1 8.0.0.1\n", OUT % "any deny")
        stopped = "  the session of rr (5.0.0.1) and 8.0.0.1 is stopped"
        _, rest = self.told(*lines, FEED % " comm=4294967041,4294967042,4294967043")
        self.assertEqual([line.split(":")[0] for line in rest.split("\n")[:-1]], [stopped, "  it has no route"])
        _, rest = self.told(*lines, FEED % " comm=4294967041,4294967043")
        self.assertEqual([line.split(":")[0] for line in rest.split("\n")[2:-1]], [
            stopped, "  it carries 4294967041 (NO_EXPORT)", "  it carries 4294967043 (NO_EXPORT_SUBCONFED)",
            "  it is denied by export rule 1, `rule 5.0.0.1 8.0.0.1 out any deny`"])

    def test_the_peer_that_told_it(self):
        first, rest = self.told(FEED % "", router="5.0.0.2", peer="7.0.0.1")
        self.assertEqual(first, "10.0.0.0/8 at 5.0.0.2: not advertised to 7.0.0.1")
        self.assertTrue(rest.endswith("\n  it was learned from this peer\n"), rest)

    def test_sessions_that_are_down(self):
        for line, peer, text in (("stop 5.0.0.1 8.0.0.1\n", "8.0.0.1", "of rr (5.0.0.1) and 8.0.0.1 is stopped"),
                                 ("fail 5.0.0.1 8.0.0.1\n", "8.0.0.1", "the link between them has failed, or is none"),
                                 ("fail 5.0.0.1 5.0.0.3\n", "5.0.0.3", "no way from one to the other inside the AS")):
            _, rest = self.told("origin 5.0.0.1 10.0.0.0/8\n", line, peer=peer)
            self.assertTrue(rest.startswith("  chosen: its own\n"), rest)
            self.assertTrue(rest.endswith(text + "\n"), rest)

    def test_no_route_is_chosen(self):
        none = "  it has no route: it originates none, and has received none over a session that is up\n"
        self.assertEqual(self.told()[1], none)
        lines = ("rule 5.0.0.2 7.0.0.1 in any permit med=5\n", FEED % " comm=4294967041")
        _, rest = self.told("rule 5.0.0.2 7.0.0.1 in comm 4294967041 deny\n", *lines, router="5.0.0.2", peer="5.0.0.1")
        rule = "import rule 1, `rule 5.0.0.2 7.0.0.1 in comm 4294967041 deny` (NO_EXPORT)"
        self.assertEqual(rest, "  it chose no route, since it may choose none of those that it has\n"
                               "    from 7.0.0.1: denied: by %s\n" % rule)
        _, rest = self.told("feed 7.0.0.1 5.0.0.2 update 10.0.0.0/8 7,5 igp -\n", router="5.0.0.2", peer="5.0.0.1")
        self.assertIn("\n    from 7.0.0.1: loop: its path holds the AS of the router\n", rest)

    def test_what_still_waits(self):
        _, rest = self.told(FEED % "", words=(), router="5.0.0.2", peer="5.0.0.1")
        self.assertTrue(rest.endswith("  messages still wait, and may change that\n"), rest)

    def test_mistakes(self):
        script = self.file("five.bgp", AS_FIVE)
        told = tool("explain", script, "5.0.0.2", "10.0.0.0/8", "--to", "8.0.0.1", status=2)
        said = "--to 8.0.0.1: 5.0.0.2 has no session with it; it has sessions with rr (5.0.0.1), 7.0.0.1\n"
        self.assertEqual((told.stdout, told.stderr), ("", said))

    def test_a_program_that_says_otherwise_has_a_status_of_its_own(self):
        script = self.file("five.bgp", AS_FIVE + FEED % "")
        otherwise = "\n  THE PROGRAM SAYS SO, BUT FROM THE SCRIPT THIS IS WORKED OUT: "
        otherwise += "path=5,7,21 origin=egp next=5.0.0.1 med=- pref=- oid=- clusters=-\n"
        changed = "[each.replace('med=-', 'med=7') for each in reply]"
        for reply, begin in ((changed, "advertised"), ("['end 0']", "not advertised")):
            program_of = self.file("liar", LIAR % (sys.executable, str(TOOLBOX), os.environ["PROGRAM"], reply))
            program_of.chmod(0o755)
            with mock.patch.dict(os.environ, {"PROGRAM": str(program_of)}):
                told = tool("explain", "--converge", script, "rr", "10.0.0.0/8", "--to", "8.0.0.1", status=3).stdout
            self.assertTrue(told.startswith("10.0.0.0/8 at rr (5.0.0.1): %s to 8.0.0.1\n" % begin), told)
            self.assertTrue(told.endswith(otherwise), told)
            self.assertEqual("med=7" in told, begin == "advertised")

    def test_each_script_is_worked_out(self):
        """What a few routers of each script tell their peers is what the program says, and so in random scripts."""
        given = [(path.name, path.read_bytes()) for path in SCRIPTS]
        given += [("seed %d" % seed, random_scripts.script(seed, 300).encode("latin-1")) for seed in range(1, 9)]
        counts = {True: 0, False: 0}
        for name, content in given:
            with self.subTest(script=name), Run() as run:
                run.play(lines_of(marked(content)[0], name))
                for one, other in run.network.directions(set(run.network.routers()[:3])):
                    teller = Teller(run, one, other)
                    for prefix in sorted(run.network.prefixes)[:3]:
                        found = teller.advert(prefix)
                        self.assertEqual(found.doubts, [], "%s to %s, %s" % (one, other, prefix))
                        counts[found.said is not None] += 1
        self.assertGreater(min(counts.values()), 100)
