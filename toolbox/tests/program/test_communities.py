"""Communities: how they are read and shown, what is wrong with a line, and what a router may tell by them."""
import unittest

from bgptools.cli.prompt.completion import Completion
from bgptools.cli.prompt.local import OWN
from bgptools.network.advertisement import may_permit, permits, tells
from bgptools.network.configuration import Network
from bgptools.network.refusals import sentence
from bgptools.program import communities
from bgptools.program.language import fault, in_front, words_of
from bgptools.program.replies import attributes, route, route_text

NO_EXPORT, NO_ADVERTISE, NO_EXPORT_SUBCONFED = 4294967041, 4294967042, 4294967043
ATTR = "path=%s origin=igp next=7.0.0.1 med=- pref=100 oid=- clusters=-%s"
FEED = "feed 7.0.0.1 5.0.0.1 update 10.0.0.0/8 7 igp -"
RULE = "rule 5.0.0.1 7.0.0.1 in "
# Two routers of AS 5, an external peer of each, and a client.
LINES = """router 5.0.0.1 5
router 5.0.0.2 5
router 5.0.0.3 5
virtual 7.0.0.1 7
virtual 8.0.0.1 8
link 5.0.0.1 7.0.0.1 1
link 5.0.0.1 8.0.0.1 1
join 5.0.0.1 5.0.0.2
join 5.0.0.1 5.0.0.3
join 5.0.0.1 7.0.0.1
join 5.0.0.1 8.0.0.1"""


def network(*more):
    """These routers, and lines that were accepted after them."""
    made = Network()
    for line in [*LINES.split("\n"), *more]:
        made.take(words_of(line))
    return made


class Shown(unittest.TestCase):
    def test_each_is_shown_by_its_halves_or_its_name(self):
        """RFC 1997: the AS is the first two octets; the three well-known ones are FFFFFF01 to FFFFFF03."""
        three = "4294967041,4294967042,4294967043 (NO_EXPORT NO_ADVERTISE NO_EXPORT_SUBCONFED)"
        for numbers, text in (((), "-"), ((5,), "5 (0:5)"), ((65536, 4259840001), "65536,4259840001 (1:0 65000:1)"),
                              ((0xFFFFFF01, 0xFFFFFF02, 0xFFFFFF03), three),
                              ((0xFFFFFF04,), "4294967044 (65535:65284)")):
            self.assertEqual(communities.told(numbers), text)

    def test_in_the_text_of_a_reply(self):
        self.assertEqual(communities.in_text("10.0.0.0/8 " + ATTR % ("7", " comms=5,4294967041")),
                         "10.0.0.0/8 " + ATTR % ("7", " comms=5,4294967041 (0:5 NO_EXPORT)"))
        for text in ("10.0.0.0/8 " + ATTR % ("7", ""), "took 10.0.0.0/8 update", "refused 1 syntax"):
            self.assertEqual(communities.in_text(text), text)

    def test_what_is_meant(self):
        for text, number in (("65000:1", 4259840001), ("7", 7), ("NO_EXPORT", NO_EXPORT),
                             ("no-advertise", NO_ADVERTISE), ("65536:1", None), ("4294967296", None),
                             ("05", None), ("", None), ("deny", None)):
            self.assertEqual(communities.meant(text), number, text)

    def test_who_is_not_told(self):
        for number, inside, word in ((NO_EXPORT, [], "told to no other AS"),
                                     (NO_EXPORT_SUBCONFED, [], "told to no other AS"),
                                     (NO_ADVERTISE, [NO_ADVERTISE], "told to no peer")):
            self.assertEqual(communities.withholding([5, number], True), [number])
            self.assertEqual(communities.withholding([5, number], False), inside)
            self.assertTrue(communities.reach([5, number]).endswith(": " + word))
        self.assertEqual(communities.withholding([5, 0xFFFFFF04, 0xFFFF0000], True), [])
        self.assertEqual(communities.reach([5, 0xFFFFFF04]), "")


class Replies(unittest.TestCase):
    def test_attributes(self):
        for end, numbers in (("", []), (" comms=5", [5]), (" comms=5,4294967041", [5, NO_EXPORT])):
            text = ATTR % ("7", end)
            self.assertEqual((attributes(text).communities, str(attributes(text))), (numbers, text))
        self.assertNotEqual(attributes(ATTR % ("7", " comms=5")), attributes(ATTR % ("7", " comms=5,6")))

    def test_in_few_words(self):
        found = route("10.0.0.0/8 from 7.0.0.1 " + ATTR % ("7", " comms=5"))
        words = "from 7.0.0.1, next 7.0.0.1, path 7, med -, pref 100, comms 5 (0:5)"
        self.assertEqual(route_text(found, Network().names), words)


class Faults(unittest.TestCase):
    def test_lines_that_are_commands(self):
        for line in (FEED, FEED + " comm=0", FEED + " comm=5,6,4294967295", RULE + "comm 0 deny",
                     RULE + "comm 4294967295 permit", RULE + "any permit add=0",
                     RULE + "any permit pref=1 med=1 prepend=1 add=4294967295"):
            self.assertIsNone(fault(line), line)

    def test_feeds_that_are_none(self):
        few = "a number is missing"
        for end, text in ((" comm=", few), (" comm=5,", few), (" comm=,5", few), (" comm=5,5", "5 after 5"),
                          (" comm=6,5", "5 after 6"), (" comm=4294967296", "`4294967296` is not a community"),
                          (" comm=05", "`05` is not a community"), (" comm=65000:1", "65000:1 is 4259840001"),
                          (" comm=no-export", "no-export is 4294967041"),
                          (" 5", "`5` where the command ends, or `comm=C,..`"),
                          (" comms=5", "`comms=5` where the command ends"), (" comm=5 comm=6", "a word too many")):
            with self.subTest(end=end):
                self.assertIn(text, str(fault(FEED + end)))
        self.assertIn("`comm=5` is not a MED", str(fault(FEED[:-2] + " comm=5")))
        self.assertIn("a word too many", str(fault("feed 7.0.0.1 5.0.0.1 withdraw 10.0.0.0/8 comm=5")))

    def test_rules_that_are_none(self):
        for end, text in (("comm deny", "`deny` is not a community"), ("comm 65000:1 deny", "65000:1 is 4259840001"),
                          ("comm 4294967296 deny", "`4294967296` is not"),
                          ("any permit add=1 add=2", "each at most once"),
                          ("any permit add=", "`add=`: a number of 0 to 4294967295"),
                          ("any deny add=1", "no settings"),
                          ("any permit add=65000:1", "as add=4259840001"),
                          ("any permit add=1 prepend=1", "in this order"),
                          ("comms 5 deny", "first N or comm C")):
            with self.subTest(end=end):
                self.assertIn(text, str(fault(RULE + end)))


class Sentences(unittest.TestCase):
    def test_a_rule_that_adds_inside_the_as(self):
        for way in ("in", "out"):
            told = sentence("rule 5.0.0.1 5.0.0.2 %s any permit add=5" % way, 13, network())
            self.assertEqual(told, "add=5 on the session of 5.0.0.1 and 5.0.0.2, which is internal: "
                                   "there a rule has no settings")

    def test_the_setting_that_is_wrong_is_named_and_not_the_one_that_adds(self):
        for way, wrong in (("in", "prepend=1"), ("out", "pref=1")):
            told = sentence("rule 5.0.0.1 7.0.0.1 %s any permit %s add=5" % (way, wrong), 13, network())
            self.assertTrue(told.startswith(wrong + " on the way %s, " % way), told)

    def test_too_many(self):
        many = ",".join(map(str, range(33)))
        told = sentence(FEED + " comm=" + many, 19, network())
        self.assertEqual(told, "the route has 33 communities, and at most 32 are taken")
        long = FEED.replace(" 7 ", " %s " % ",".join(["7"] * 256))
        for end in ("", " comm=5", " comm=" + many):
            told = sentence(long + end, 19, network())
            self.assertEqual(told, "the path has 256 AS numbers, and at most 255 are taken")


class Completed(unittest.TestCase):
    def test_words_of_feeds_and_rules(self):
        made = network(FEED + " comm=5,7", RULE + "comm 9 permit add=11", RULE + "any permit pref=12")
        self.assertEqual(made.communities, {5, 7, 9, 11})
        known = [5, 7, 9, 11, NO_EXPORT, NO_ADVERTISE, NO_EXPORT_SUBCONFED]
        completion = Completion(OWN, lambda: made, lambda: [])
        for begun, text, wanted in ((FEED, "", ["comm="]), (FEED, "comm=", ["comm=%d" % each for each in known]),
                                    (FEED, "comm=3,7,", ["comm=3,7,%d" % each for each in known[2:]]),
                                    (FEED + " comm=5", "", []), (RULE + "comm", "", list(map(str, known))),
                                    (RULE, "", ["any", "is", "under", "path", "first", "comm"]),
                                    (RULE + "any permit", "", ["pref=", "med=", "prepend=", "add="]),
                                    ("explain 5.0.0.1 10.0.0.0/8", "", ["--to"]),
                                    ("explain 5.0.0.1 10.0.0.0/8 --to 7.0.0.1", "", [])):
            with self.subTest(begun=begun, text=text):
                self.assertEqual(completion.candidates(begun + " ", text), wanted)
        self.assertIn("add=%d" % NO_EXPORT, completion.candidates(RULE + "any permit ", "add="))
        peers = completion.candidates("explain 5.0.0.1 10.0.0.0/8 --to ", "")
        self.assertCountEqual(peers, ["5.0.0.2", "5.0.0.3", "7.0.0.1", "8.0.0.1"])


class Told(unittest.TestCase):
    """What a router tells by its choice, as the rules of advertising have it."""

    def who(self, made, comms, source="7.0.0.1"):
        """The peers that 5.0.0.1 tells a route of this source."""
        reply = "10.0.0.0/8 from %s %s" % (source, ATTR % ("-" if source == "self" else "7", comms))
        return [peer for peer in ("5.0.0.2", "5.0.0.3", "7.0.0.1", "8.0.0.1") if tells(made, "5.0.0.1", peer, reply)]

    def test_the_well_known_ones(self):
        inside, others = ["5.0.0.2", "5.0.0.3"], ["5.0.0.2", "5.0.0.3", "8.0.0.1"]
        for comms, wanted in (("", others), (" comms=5", others), (" comms=4294967044", others),
                              (" comms=4294967042", []), (" comms=5,4294967041", inside),
                              (" comms=4294967043", inside), (" comms=4294967041,4294967042", [])):
            self.assertEqual(self.who(network(), comms), wanted, comms)

    def test_a_reflected_route(self):
        made = network("client 5.0.0.1 5.0.0.3 on")
        for comms, wanted in (("", ["5.0.0.3", "7.0.0.1", "8.0.0.1"]), (" comms=4294967041", ["5.0.0.3"]),
                              (" comms=4294967042", [])):
            self.assertEqual(self.who(made, comms, "5.0.0.2"), wanted, comms)

    def test_rules_look_at_what_the_chosen_route_carries(self):
        made = network("rule 5.0.0.1 8.0.0.1 out comm 5 deny", "rule 5.0.0.1 5.0.0.2 out comm 5 permit",
                       "rule 5.0.0.1 5.0.0.2 out any deny")
        self.assertEqual(self.who(made, " comms=5"), ["5.0.0.2", "5.0.0.3"])
        self.assertEqual(self.who(made, " comms=4,6"), ["5.0.0.3", "8.0.0.1"])
        self.assertEqual(self.who(made, "", "self"), ["5.0.0.3", "7.0.0.1", "8.0.0.1"])

    def test_what_a_rule_adds_keeps_nothing_back(self):
        made = network("rule 5.0.0.1 8.0.0.1 out any permit add=%d" % NO_EXPORT)
        self.assertIn("8.0.0.1", self.who(made, ""))

    def test_the_first_rule_that_matches_decides(self):
        rules = ["comm 5 deny", "comm 6 permit", "any deny"]
        for carried, wanted in (([5, 6], False), ([6], True), ([], False)):
            self.assertEqual(permits(rules, "10.0.0.0/8", "7", carried), wanted)

    def test_a_policy_may_permit_what_may_carry_a_community(self):
        late = ["first 7 deny", "comm 5 permit", "any deny"]
        for rules, wanted in ((["comm 5 permit", "any deny"], True), (["comm 5 deny", "any deny"], False),
                              (late, False), (["comm 5 deny"], True),
                              (["is 10.0.0.0/8 deny", "comm 5 permit"], False)):
            self.assertEqual(may_permit(rules, "10.0.0.0/8", {7}, False), wanted, rules)
        self.assertTrue(may_permit(late, "10.0.0.0/8", {7}, True))


class InFront(unittest.TestCase):
    def test_an_as_in_front_of_a_path(self):
        """RFC 4271, 5.1.2: into the first sequence; a sequence of its own where that is full, a set, or not there."""
        for times, path, wanted in ((1, "-", "9"), (3, "7,21", "9,9,9,7,21"), (2, "{1,2}_5", "9,9_{1,2}_5")):
            self.assertEqual(in_front(9, times, path), wanted)
        full = ",".join(["7"] * 254)
        self.assertEqual(in_front(9, 2, full), "9_9," + full)
