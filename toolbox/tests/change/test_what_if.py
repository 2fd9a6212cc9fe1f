"""what-if: the lessons with their output as files, and what it answers to each script."""
import json
import re

from common import SCRIPTS, TOOLBOX, Case, inside, marked, tool

LESSONS = sorted((TOOLBOX / "lessons").glob("*.change"))


def words_of(lesson):
    """The words of the command in a lesson's first line."""
    return lesson.read_text().split("\n")[0].split(" ")[2:]


class Lessons(Case):
    def test_each_lesson_is_told_as_its_file_says(self):
        for lesson in LESSONS:
            with self.subTest(lesson=lesson.name):
                self.assert_as_file(tool("what-if", *words_of(lesson), status=1).stdout, lesson.with_suffix(".what-if"))

    def test_each_lesson_as_json(self):
        for lesson in LESSONS:
            with self.subTest(lesson=lesson.name):
                told = json.loads(tool("what-if", *words_of(lesson), "--json", status=1).stdout)
                text = lesson.with_suffix(".what-if").read_text()
                self.assertTrue(told["changed"])
                self.assertEqual(told["converged"], "DOES NOT CONVERGE" not in text)
                self.assertEqual(bool(told["in_between"]), "In between" in text)
                routers = {each["router"] for each in told["routes"]}
                self.assertEqual(len(routers), text.count("\nRouter ") + text.startswith("Router "))

    def test_the_careful_way_leaks_nothing(self):
        careless, careful = (json.loads(tool("what-if", "examples/lessons/leaking-policy.bgp", TOOLBOX / "lessons" / name, "--json").stdout)
                             for name in ("empty-policy.change", "stopped-session.change"))
        self.assertEqual([each["kind"] for each in careless["in_between"] if each["message"]["prefix"] == "198.51.100.0/24"], ["leaked"])
        self.assertEqual(careful["in_between"], [])
        self.assertEqual(careful["told"], careless["told"])


class Changes(Case):
    def test_nothing_changes(self):
        for path in SCRIPTS:
            with self.subTest(path=path):
                told = inside("what-if", path, self.file("empty", "# nothing\n"))
                if marked(path.read_bytes())[1]:
                    self.assertEqual(told.returncode, 2)
                    self.assertRegex(told.stderr, r":\d+: refused \d+ [a-z-]+: ")
                else:
                    self.assertEqual((told.returncode, told.stdout), (0, "Nothing changed.\nMessages until it was quiet: 0 (0 updates, 0 withdrawals)\n"))

    def test_a_repaired_failure_is_told(self):
        told = tool("what-if", "examples/lessons/valley-free.bgp", "-", given=b"fail 1.0.0.1 2.0.0.1\nmend 1.0.0.1 2.0.0.1\n", status=0).stdout
        self.assertIn("Nothing changed.", told)

    def test_sessions_and_black_holes(self):
        told = json.loads(tool("what-if", "examples/hijack.bgp", "-", "--json", "--trace", "2.0.0.1", "198.51.100.1", given=b"fail 1.0.0.1 2.0.0.1\n", status=1).stdout)
        self.assertEqual(told["sessions_down"], [["1.0.0.1", "2.0.0.1"]])
        self.assertEqual({(way["router"], way["after"]["end"]) for way in told["black_holes"]}, {("2.0.0.1", "noroute"), ("3.0.0.1", "noroute")})
        self.assertEqual(told["asked"][0]["after"], {"hops": [], "end": "noroute", "place": "2.0.0.1"})
        self.assertEqual([each["kind"] for each in told["routes"] if each["router"] == "2.0.0.1"], ["lost"])

    def test_a_loop_is_told(self):
        base = self.file("base.bgp", """router 5.0.0.1 5
router 5.0.0.2 5
router 5.0.0.3 5
router 5.0.0.4 5
virtual 7.0.0.1 7
virtual 7.0.0.4 7
link 5.0.0.1 5.0.0.2 1
link 5.0.0.2 5.0.0.3 1
link 5.0.0.3 5.0.0.4 1
link 5.0.0.1 7.0.0.1 1
link 5.0.0.4 7.0.0.4 1
join 5.0.0.1 7.0.0.1
join 5.0.0.4 7.0.0.4
join 5.0.0.3 5.0.0.1
join 5.0.0.2 5.0.0.1
feed 7.0.0.1 5.0.0.1 update 198.51.100.0/24 7 igp -
feed 7.0.0.4 5.0.0.4 update 198.51.100.0/24 7 igp -
""")
        change = self.file("change.bgp", "stop 5.0.0.2 5.0.0.1\njoin 5.0.0.2 5.0.0.4\n")
        told = tool("what-if", base, change, status=1).stdout
        self.assertIn("New loops\n  5.0.0.2 to 198.51.100.1\n            was 5.0.0.2 > 5.0.0.1 > 7.0.0.1: reached\n"
                      "            now 5.0.0.2 > 5.0.0.3 > 5.0.0.2: a loop\n", told)
        self.assertIn("Router 5.0.0.2\n  moved   198.51.100.0/24\n", told)
        self.assertIn("Sessions that went down\n  5.0.0.1 and 5.0.0.2\nSessions that came up\n  5.0.0.2 and 5.0.0.4\n", told)

    def test_each_reason_is_that_of_why(self):
        """1 and 2 originate a prefix both, and 1 has a virtual peer that tells another one."""
        base = self.file("base.bgp", """router 1.0.0.1 1
router 2.0.0.1 2
virtual 7.0.0.1 7
link 1.0.0.1 2.0.0.1 1
link 1.0.0.1 7.0.0.1 1
join 1.0.0.1 2.0.0.1
join 1.0.0.1 7.0.0.1
origin 1.0.0.1 10.0.0.0/8
origin 2.0.0.1 10.0.0.0/8
origin 2.0.0.1 20.0.0.0/8
feed 7.0.0.1 1.0.0.1 update 30.0.0.0/8 7 igp -
""")
        for change, prefix, reason in (
                ("rule 1.0.0.1 2.0.0.1 in any permit pref=200", "10.0.0.0/8", "pref: another has a higher preference"),
                ("noorigin 1.0.0.1 10.0.0.0/8", "10.0.0.0/8", "it is no longer originated here"),
                ("rule 1.0.0.1 2.0.0.1 in any deny", "20.0.0.0/8", "denied: the import policy denies it"),
                ("rule 2.0.0.1 1.0.0.1 out any permit prepend=2\nrule 2.0.0.1 1.0.0.1 out any deny", "20.0.0.0/8", "it comes from the same, with other attributes"),
                ("noorigin 2.0.0.1 20.0.0.0/8", "20.0.0.0/8", "2.0.0.1 does not tell it any more"),
                ("fail 1.0.0.1 2.0.0.1", "20.0.0.0/8", "the session with 2.0.0.1 is down"),
                ("origin 1.0.0.1 20.0.0.0/8", "20.0.0.0/8", "length: another has a shorter path"),
                ("feed 7.0.0.1 1.0.0.1 withdraw 30.0.0.0/8", "30.0.0.0/8", "7.0.0.1 does not tell it any more"),
                ("stop 1.0.0.1 7.0.0.1\nstart 1.0.0.1 7.0.0.1", "30.0.0.0/8", "the session with 7.0.0.1 was down for a while, and it was not fed again")):
            with self.subTest(change=change):
                told = json.loads(tool("what-if", base, "-", "--json", given=change.encode(), status=1).stdout)
                found = {each["prefix"]: each for each in told["routes"] if each["router"] == "1.0.0.1"}
                self.assertEqual(found[prefix]["reason"], reason)

    def test_a_long_answer_begins_with_a_summary_and_groups_equal_changes(self):
        words = (TOOLBOX / "lessons/many-prefixes.bgp", TOOLBOX / "lessons/lost-upstream.change")
        told = tool("what-if", *words, status=1).stdout
        self.assertTrue(told.startswith("""In short
  2 routers with other routes, to 30 prefixes: 0 moved, 60 lost, 0 gained
  1 external neighbour told otherwise, of 1 prefix
  1 session down, 0 up
  0 new loops, 60 new black holes; 60 packets go another way
Router west (5.0.0.1)
  lost    100.64.0.0/24, 100.64.1.0/24, """), told)
        self.assertIn("""100.64.11.0/24 and 18 more
            was from upstream (7.0.0.1), next 7.0.0.1, path 7,64500, med -, pref 100
            the old one: the session with upstream (7.0.0.1) is down
Router east (5.0.0.2)
""", told)
        for begin, count in (("  lost    100", 2), ("  west (5.0.0.1) to 100", 1), ("            west (5.0.0.1) to east (5.0.0.2): withdraw 100", 1)):
            self.assertEqual(told.count("\n" + begin), count)
        whole = tool("what-if", *words, "--all", status=1).stdout
        for router, at in (("west (5.0.0.1)", 1), ("east (5.0.0.2)", 2)):
            part = whole.split("Router ")[at]
            self.assertTrue(part.startswith(router + "\n"))
            self.assertEqual(re.findall(r"^  lost    (\S+)$", part, re.M), ["100.64.%d.0/24" % n for n in range(30)])
        self.assertEqual(re.findall(r"^  east \(5.0.0.2\) to (\S+)$", whole, re.M), ["100.64.%d.1" % n for n in range(30)])
        self.assertEqual(whole.count(": withdraw "), 30)
        self.assertNotRegex(whole, r"and \d+ more")

    def test_a_change_at_many_routers_is_told_of_the_first_ones(self):
        """A line of 30 ASes, and the first one originates a prefix."""
        lines = ["router 1.0.0.%d %d" % (n, n) for n in range(1, 31)]
        lines += ["%s 1.0.0.%d 1.0.0.%d%s" % (word, n, n + 1, more) for word, more in (("link", " 1"), ("join", "")) for n in range(1, 30)]
        base = self.file("line.bgp", "\n".join(lines) + "\n")
        told = tool("what-if", base, "-", given=b"origin 1.0.0.1 10.0.0.0/8\n", status=1).stdout
        self.assertTrue(told.startswith("In short\n  30 routers with other routes, to 1 prefix: 0 moved, 0 lost, 30 gained\n"), told)
        self.assertEqual(re.findall(r"^Router (\S+)$", told, re.M), ["1.0.0.%d" % n for n in range(1, 13)])
        self.assertIn("path 11,10,9,8,7,6,5,4,3,2,1, med -, pref 100\nand 18 more routers (--all shows them)\n", told)
        whole = tool("what-if", base, "-", "--all", given=b"origin 1.0.0.1 10.0.0.0/8\n", status=1).stdout
        self.assertEqual(re.findall(r"^Router (\S+)$", whole, re.M), ["1.0.0.%d" % n for n in range(1, 31)])

    def test_a_short_answer_tells_each_change_by_itself(self):
        lines = (TOOLBOX / "lessons/many-prefixes.bgp").read_text().split("\n")
        for fed, is_long in ((12, False), (13, True)):
            base = self.file("few.bgp", "\n".join(line for line in lines if "origin" not in line and not re.search(r"100\.64\.(%s)\.0" % "|".join(map(str, range(fed, 30))), line)) + "\n")
            told = tool("what-if", base, TOOLBOX / "lessons/lost-upstream.change", status=1).stdout
            self.assertEqual((told.startswith("In short\n"), told.count("\n  lost    ")), (is_long, 2 if is_long else 2 * fed))

    def test_names_are_shown_and_taken(self):
        told = tool("what-if", TOOLBOX / "lessons/many-prefixes.bgp", "-", "--trace", "east", "100.64.0.1", "--trace", "5.0.0.1", "east", given=b"fail 5.0.0.1 5.0.0.2\n", status=1).stdout
        self.assertIn("Sessions that went down\n  west (5.0.0.1) and east (5.0.0.2)\n", told)
        self.assertIn("""Forwarding that was asked for
  east (5.0.0.2) to 100.64.0.1
            was east (5.0.0.2) > west (5.0.0.1) > upstream (7.0.0.1): reached
            now east (5.0.0.2): no route there
  west (5.0.0.1) to 5.0.0.2
            as before west (5.0.0.1): no route there
""", told)
        self.assertIn("  west (5.0.0.1) to upstream (7.0.0.1)\n    lost    192.0.2.0/24\n", told)

    def test_another_order_is_told(self):
        told = tool("what-if", TOOLBOX / "lessons/disagree.bgp", "-", given=b"origin 3.0.0.1 20.0.0.0/8\n", status=1).stdout
        for begin in ("The base: ", "With the change: "):
            self.assertRegex(told, "(?m)^%sin the fair order the same state comes back every [0-9]+ deliveries; .*; it converges in the random order 3; of 9 .* in [12] stable states?[.]$" % begin)
        self.assertNotIn("in the fair order", tool("what-if", TOOLBOX / "lessons/disagree.bgp", "-", "--seed", 3, given=b"origin 3.0.0.1 20.0.0.0/8\n", status=1).stdout)

    def test_a_community_that_keeps_a_route_from_a_router(self):
        """By NO_ADVERTISE the first router's two routes go no further; by NO_EXPORT to the second, and not to 8."""
        base = TOOLBOX / "lessons/customers.bgp"
        lost = ("            the old one: west (5.0.0.1) does not tell it any more: it chose a route that carries "
                "4294967042 (NO_ADVERTISE)\n")
        for number, now, chosen, count in (
                (4294967042, "4294967042 (NO_ADVERTISE)\n                NO_ADVERTISE: told to no peer\n", 2, 2),
                (4294967041, "4294967041 (NO_EXPORT)\n                NO_EXPORT: told to no other AS\n", 4, 0)):
            change = ("rule 5.0.0.1 7.0.0.1 in any permit add=%d\n" % number).encode()
            told = tool("what-if", base, "-", given=b"clear 5.0.0.1 7.0.0.1 in\n" + change, status=1).stdout
            self.assertEqual((told.count(", comms " + now), told.count(lost)), (chosen, count))

    def test_communities_as_json_and_on_the_way(self):
        """8 is told a route anew, as its community alone changes."""
        change = (b"clear 5.0.0.2 8.0.0.1 out\nrule 5.0.0.2 8.0.0.1 out is 203.0.113.0/24 permit add=65536\n"
                  b"rule 5.0.0.2 8.0.0.1 out any deny\n")
        words = ("what-if", TOOLBOX / "lessons/customers.bgp", "-")
        told = json.loads(tool(*words, "--json", given=change, status=1).stdout)["told"]
        found = [(each["prefix"], each["before"]["communities"], (each["after"] or {}).get("communities")) for each in told]
        self.assertEqual(found, [("198.51.100.0/24", [327681], None), ("203.0.113.0/24", [327681], [65536, 327681])])
        sent = "east (5.0.0.2) to peer (8.0.0.1): update 203.0.113.0/24 path 5,7 comms 65536,327681 (1:0 5:1)\n"
        self.assertIn(sent, tool(*words, given=change, status=1).stdout)
        whole = json.loads(tool(*words, "--json", given=b"origin 5.0.0.1 10.0.0.0/8\n", status=1).stdout)
        own = next(each for each in whole["routes"] if each["router"] == "5.0.0.1")
        self.assertEqual(own["after"]["communities"], [])

    def test_each_converges_between_the_commands(self):
        change = b"clear 5.0.0.1 8.0.0.1 out\nrule 5.0.0.1 8.0.0.1 out any deny\n"
        whole, each = (json.loads(tool("what-if", "examples/lessons/leaking-policy.bgp", "-", "--json", *words, given=change, status=1).stdout)
                       for words in ((), ("--each",)))
        self.assertEqual(whole["told"], each["told"])

    def test_mistakes(self):
        for words, given, text in ((["examples/hijack.bgp", "-"], b"quiet\nfail 1.0.0.1 3.0.0.1\n", "standard input:2: refused 7 no-link: there is no link between 1.0.0.1 and 3.0.0.1"),
                                   (["cases/whole/three-ases.bgp", "-"], b"", "three-ases.bgp:74: refused 16 session-down: the session of 5.0.0.3 and 5.0.0.2 is stopped"),
                                   (["-", "toolbox/lessons/hijack.change"], b"router 1.0.0.1 1\n# expect refused 4\nrouter 1.0.0.1 1\n", "standard input:3: refused 3"),
                                   (["none.bgp", "-"], b"", "none.bgp: it cannot be read"),
                                   (["examples/hijack.bgp", "-", "--trace", "9.9.9.9", "1.2.3.4"], b"", "there is no router 9.9.9.9"),
                                   (["examples/hijack.bgp", "-", "--trace", "1.0.0.1", "x"], b"", "an address is expected")):
            with self.subTest(text=text):
                self.assertIn(text, tool("what-if", *words, given=given, status=2).stderr)
