"""The tool hijack: its pairs, who filters, its forms, runs that were stopped, and mistakes."""
import collections
import csv
import io
import json
import os
import re
import signal
import subprocess
import sys
import time
from unittest import mock

from bgptools.hijack import statistics
from bgptools.hijack.deployment import Deployment, deployment_of
from bgptools.hijack.pairs import drawn_pairs
from bgptools.hijack.script import Filtering
from bgptools.hijack.study import Laboratory, Study
from bgptools.importers.relationships.caida import relations
from bgptools.program.process import Program
from common import PATIENCE, TOOLBOX, TOP, Case, inside

# AS 1 sells to 2 and 3, these to 4, and 4 to 5; 2 and 3 peer.
LINES = "1|2|-1\n1|3|-1\n2|4|-1\n3|4|-1\n4|5|-1\n2|3|0\n"
MANY = TOOLBOX / "lessons" / "python" / "relationships.txt"


class Hijacks(Case):
    def hijack(self, *words, kind="same"):
        return inside("hijack", self.file("relations", LINES), "--kind", kind, *words)


class Pairs(Hijacks):
    def pairs(self, text):
        told = self.hijack("--pairs", self.file("pairs", text), "--json", "--jobs", 1)
        self.assertLess(told.returncode, 2, told.stderr)
        rows = sorted(json.loads(told.stdout)["pairs"], key=lambda row: row["number"])
        return [(row["victim"], row["attacker"]) for row in rows]

    def test_each_form_of_a_file(self):
        for text in ("1 2\n3 1\n", "# some\n\n1,2\n 3 , 1\r\n", "victim,attacker\n1,2\n3,1", "Victim Attacker\n1\t2\n3  1\n"):
            self.assertEqual(self.pairs(text), [(1, 2), (3, 1)], text)

    def test_drawn_pairs_are_different_and_the_same_for_a_seed(self):
        known = relations(str(MANY))
        found = drawn_pairs(known, 900, 3, "same")
        self.assertEqual((len(set(found)), any(one == other for one, other in found)), (900, False))
        self.assertEqual(found[:50], drawn_pairs(known, 50, 3, "same"))
        self.assertNotEqual(found[:50], drawn_pairs(known, 50, 4, "same"))
        # Each of 64 ASes is a victim some 14 times.
        counts = collections.Counter(victim for victim, _ in found)
        self.assertEqual((len(counts), max(counts.values()) < 30), (64, True))
        whole = drawn_pairs(known, 64 * 63, 1, "same")
        self.assertEqual(set(whole), {(one, other) for one in range(1, 65) for other in range(1, 65) if one != other})

    def test_who_leaks_has_something_to_leak(self):
        known = relations(str(self.file("relations", LINES)))
        self.assertEqual(set(drawn_pairs(known, 12, 1, "leak")),
                         {(victim, attacker) for attacker in (2, 3, 4) for victim in range(1, 6)} - {(2, 2), (3, 3), (4, 4)})


class Deployments(Hijacks):
    def named(self, words):
        return deployment_of(relations(str(self.file("relations", LINES))), "--rov", words).asns

    def test_each_form(self):
        # The degrees of 1 to 5 are 2, 3, 3, 3, 1.
        for words, asns in (("", ()), ("3", (3,)), ("3,1,3", (1, 3)), ("top:1", (2,)), ("top:4", (1, 2, 3, 4)),
                            ("top:99", (1, 2, 3, 4, 5)), ("share:0:7", ()), ("share:1:7", (1, 2, 3, 4, 5))):
            self.assertEqual(self.named(words), set(asns), words)

    def test_a_larger_share_has_the_ases_of_a_smaller_one(self):
        shares = [self.named("share:%s:3" % share) for share in ("0", "0.2", "0.5", "0.7", "1.0")]
        self.assertEqual([len(each) for each in shares], [0, 1, 3, 4, 5])
        for smaller, larger in zip(shares, shares[1:]):
            self.assertLess(smaller, larger)

    def test_the_rules_by_hand(self):
        """AS 3 validates origins and has a peerlock: towards its customer 4 it looks for AS 1, and towards all for AS 5."""
        known = relations(str(self.file("relations", LINES)))
        writer = Filtering(known, Deployment("3", frozenset((3,))), Deployment("3", frozenset((3,))))
        rules = [line.split(" ", 2)[2] for line in writer.lines_of(known, 5) if line.startswith("rule 10.0.3.1 ") and " in " in line]
        common = ["%s in under 203.0.113.0/25 deny", "%s in under 203.0.113.128/25 deny", "%s in path 5 permit {0}",
                  "%s in is 203.0.113.0/24 deny", "%s in any permit {0}"]
        wanted = []
        for peer, settings in (("10.0.1.1", "pref=80 add=196611"), ("10.0.2.1", "pref=90 add=196610"), ("10.0.4.1", "add=196609")):
            wanted += ["10.0.4.1 in path 1 deny"] if peer == "10.0.4.1" else []
            wanted += [each.format(settings) % peer for each in common]
        self.assertEqual(rules, wanted)


class AsTheProgramForwards(Hijacks):
    def test_packets_end_where_traces_do(self):
        """The program is asked for traces to the attacked address. A packet that comes to the victim has arrived, even
        where that holds the attacker's longer prefix. AS 5 has no customers, and is played as one of the pair."""
        known, real, found = relations(str(self.file("relations", LINES))), Program.close, collections.Counter()
        for kind in ("same", "longer", "forged"):
            for pair in (each for each in drawn_pairs(known, 20, 1, kind) if 5 in each):
                ends = collections.Counter()

                def close(program, ends=ends, pair=pair):
                    owners = ["10.0.%d.1" % asn for asn in pair]
                    for asn in {1, 2, 3, 4} - set(pair):
                        reply = program.say("trace 10.0.%d.1 203.0.113.1" % asn)
                        passed = [line.split(" ")[0] for line in reply[:-2]] + [reply[-2].split(" ")[1]]
                        ends[next((each for each in passed if each in owners), "nowhere")] += 1
                    real(program)
                study = Study("", "", known, kind, [pair], rov=Deployment("2", frozenset((2,))), is_all=True)
                with mock.patch.object(Program, "close", close):
                    data = Laboratory(study).outcome(0).data
                told = [ends["10.0.%d.1" % asn] for asn in (pair.attacker, pair.victim)] + [ends["nowhere"]]
                self.assertEqual([data.captured, data.kept, data.disconnected], told, (kind, pair))
                found.update(captured=data.captured, kept=data.kept)
        self.assertGreater(min(found["captured"], found["kept"]), 10)


class Statistics(Case):
    def test_the_interval_is_that_of_the_normal_distribution(self):
        """Of 400 shares it is 1.96 standard errors wide to each side, by the central limit theorem; within a tenth."""
        shares = [(at * 37 % 400) / 399 for at in range(400)]
        found = statistics.mean_of(shares)
        mean = sum(shares) / 400
        error = (sum((share - mean) ** 2 for share in shares) / 400) ** 0.5 / 20
        self.assertAlmostEqual(found.mean, mean)
        for end, wanted in ((found.low, mean - 1.96 * error), (found.high, mean + 1.96 * error)):
            self.assertLess(abs(end - wanted), 0.2 * error)
        self.assertEqual(statistics.mean_of(shares), found)
        self.assertEqual(statistics.mean_of([0.25]), (0.25, 0.25, 0.25))

    def test_a_distribution_by_hand(self):
        self.assertEqual(statistics.distribution([0.5, 0.0, 0.5, 1.0]), [(0.0, 0.25), (0.5, 0.75), (1.0, 1.0)])


class Forms(Hijacks):
    def test_all_forms_tell_the_same(self):
        words = ("--count", 30, "--rov", "top:9", "--jobs", 2)
        told = inside("hijack", MANY, "--kind", "longer", *words, "--csv", self.folder / "csv", "--page", self.folder / "page", "--json")
        found = json.loads(told.stdout)
        text = inside("hijack", MANY, "--kind", "longer", *words).stdout
        rows = list(csv.DictReader(io.StringIO((self.folder / "csv").read_text())))
        self.assertEqual([(row["victim"], row["captured"], row["kept_by_routes"]) for row in rows],
                         [tuple(map(str, (row["victim"], row["data"]["captured"], row["control"]["kept"]))) for row in found["pairs"]])
        captured = [row["data"]["captured"] for row in found["pairs"]]
        self.assertEqual(captured, sorted(captured, reverse=True))
        self.assertAlmostEqual(found["captured"]["data"]["mean"], sum(captured) / 30 / 62)
        self.assertIn("\n  captured      %.1f %% (" % (100 * sum(captured) / 30 / 62), text)
        self.assertIn("\n--rov top:9: 9 ASes\n", text)
        self.assertEqual(len(re.findall(r"^ +\d+ +\d+ ", text, re.M)), 20)
        self.assertTrue(text.endswith("and 10 more: --csv FILE has all\n"))
        page = (self.folder / "page").read_text()
        self.assertIsNone(re.search(r"https?:|src=|@import|url\(|%%", page))
        cells = [re.findall(r"<td>(.*?)</td>", line) for line in page.split("\n") if line.startswith("<tr><td>")]
        self.assertEqual([int(each[3]) for each in cells], captured)
        # The curve ends at all pairs, on top: each share that occurs is a step.
        points = re.findall(r'<polyline points="(.*?)"', page)[0].split(" ")
        self.assertEqual(len(points), 2 * len(set(captured)) + 2)
        self.assertEqual(points[-1], "612.0,16.0")

    def test_a_name_that_is_no_page(self):
        path = self.file("<b>&", LINES)
        inside("hijack", path, "--kind", "same", "--count", 2, "--page", self.folder / "page")
        page = (self.folder / "page").read_text()
        self.assertNotIn("<b>", page)
        self.assertIn("&lt;b&gt;&amp;", page)

    def test_the_exit_status(self):
        pairs = self.file("pairs", "5 1\n1 5\n")
        self.assertEqual(self.hijack("--pairs", pairs).returncode, 1)
        self.assertEqual(self.hijack("--pairs", pairs, "--rov", "2,3,4").returncode, 0)


class Runs(Case):
    WORDS = (MANY, "--kind", "longer", "--count", 40)

    def rows(self, *words):
        """The CSV of a study."""
        told = inside("hijack", *self.WORDS, "--csv", self.folder / "csv", *words)
        self.assertLess(told.returncode, 2, told.stderr)
        return (self.folder / "csv").read_text()

    def test_a_run_that_was_killed_goes_on(self):
        path = self.folder / "results"
        called = [sys.executable, "-B", TOOLBOX / "hijack", *self.WORDS, "--jobs", 2, "--results", path]
        with subprocess.Popen(list(map(str, called)), cwd=str(TOP), stdout=subprocess.DEVNULL, stderr=subprocess.DEVNULL) as ran:
            end = time.monotonic() + PATIENCE
            while not (path.exists() and path.read_bytes().count(b"\n") > 3) and time.monotonic() < end:
                time.sleep(0.01)
            ran.kill()
        before = path.read_bytes()
        self.assertGreater(before.count(b"\n"), 3)
        whole = self.rows()
        self.assertEqual(self.rows("--results", path, "--resume"), whole)
        after = path.read_bytes()
        self.assertTrue(after.startswith(before[:before.rfind(b"\n") + 1]))
        head, *lines = map(json.loads, after.splitlines())
        self.assertEqual(sorted(line["pair"] for line in lines), list(range(40)))
        self.assertEqual({name: head[name] for name in ("kind", "pairs", "seed", "rov")}, {"kind": "longer", "pairs": 40, "seed": 1, "rov": ""})
        self.assertEqual(set(head["program"]), {"version", "commit", "is_proved", "kit", "digest"})
        # What is known is not played again: it stands in the table as in the file.
        path.write_bytes(after.replace(b'"played": 6,', b'"played": 60,'))
        self.assertIn(",6\n", whole)
        self.assertEqual(self.rows("--results", path, "--resume"), whole.replace(",6\n", ",60\n"))

    def test_another_study_does_not_go_on(self):
        path = self.folder / "results"
        self.rows("--results", path)
        content = path.read_bytes()
        for words in (("--seed", 2), ("--rov", "top:1"), ("--peerlock", "top:1"), ("--played", "all")):
            told = inside("hijack", *self.WORDS, *words, "--results", path, "--resume")
            self.assertEqual((told.returncode, path.read_bytes()), (2, content))
            self.assertIn("results:1: it has the results of another hijack: of another graph, other pairs or other words", told.stderr)
        self.assertIn("it is there already: --resume goes on with it", inside("hijack", *self.WORDS, "--results", path).stderr)

    def test_a_worker_that_is_killed_is_replaced(self):
        whole, real, mark = self.rows("--jobs", 1), Laboratory.outcome, self.folder / "died"

        def outcome(laboratory, number):
            if number == 7 and not mark.exists():
                mark.touch()
                os.kill(os.getpid(), signal.SIGKILL)
            return real(laboratory, number)
        with mock.patch.object(Laboratory, "outcome", outcome):
            self.assertEqual(self.rows("--jobs", 2), whole)
        self.assertTrue(mark.exists())

    def test_a_pair_of_which_all_workers_die(self):
        """It ends the study, which keeps what is known."""
        path, real = self.folder / "results", Laboratory.outcome

        def outcome(laboratory, number):
            return os.kill(os.getpid(), signal.SIGKILL) if number == 7 else real(laboratory, number)
        with mock.patch.object(Laboratory, "outcome", outcome):
            told = inside("hijack", *self.WORDS, "--results", path, "--jobs", 1)
        self.assertEqual((told.returncode, told.stderr), (2, "a process that worked has died 3 times, by signal 9, Killed\n"))
        self.assertEqual([json.loads(line)["pair"] for line in path.read_bytes().splitlines()[1:]], list(range(7)))


class Mistakes(Hijacks):
    def test_mistakes_of_the_call(self):
        two = self.file("two", "1 2\n")
        for words, said in (
                ((), "which pairs? Name one of --pairs and --count"), (("--count", 1, "--pairs", two), "which pairs?"),
                (("--pairs", two, "--seed", 1), "--seed is for --count"), (("--count", 0), "--count 0: a number of at least 1"),
                (("--count", 1, "--seed", -1), "--seed -1: 0 to 18446744073709551615"), (("--count", 1, "--jobs", 0), "--jobs 0:"),
                (("--count", 21), "--count 21: the graph has 20 pairs for same"),
                (("--count", 1, "--resume"), "--resume wants --results FILE"),
                (("--count", 1, "--rov", "9"), "--rov 9: AS 9 is not in the graph"),
                (("--count", 1, "--rov", "top:0"), "--rov top:0: AS,.., top:N or share:P:SEED is expected"),
                (("--count", 1, "--peerlock", "share:1.5:1"), "--peerlock share:1.5:1: AS,.., top:N"),
                (("--count", 1, "--peerlock", "share:0.5"), "--peerlock share:0.5: AS,.., top:N")):
            told = self.hijack(*words)
            self.assertEqual((told.returncode, told.stdout, told.stderr.count("\n")), (2, "", 1), words)
            self.assertIn(said, told.stderr)

    def test_mistakes_of_a_file_of_pairs(self):
        for text, at, said in (
                ("1 2\n3\n", 2, "VICTIM ATTACKER or VICTIM,ATTACKER is expected, an AS number each, and not `3`"),
                ("1 2 3\n", 1, "and not `1 2 3`"), ("AS1 2\n", 1, "and not `AS1 2`"), ("1 01\n", 1, "and not `1 01`"),
                ("1 2\nvictim,attacker\n", 2, "and not `victim,attacker`"),
                ("# x\n\n1 9\n", 3, "AS 9 is not in the graph"), ("2 2\n", 1, "AS 2 is both victim and attacker"),
                ("1 2\n2 1\n1,2\n", 3, "the pair 1 2 is that of line 1")):
            told = self.hijack("--pairs", self.file("pairs", text))
            self.assertEqual((told.returncode, told.stdout), (2, ""), text)
            self.assertIn("pairs:%d: " % at, told.stderr)
            self.assertIn(said, told.stderr)
        self.assertIn("pairs: it has no pair: ", self.hijack("--pairs", self.file("pairs", "# none\n")).stderr)
        told = self.hijack("--pairs", self.file("pairs", "1 4\n1 5\n"), kind="leak")
        self.assertIn("pairs:2: AS 5 has nothing to leak: a provider, and another provider or a peer are expected", told.stderr)

    def test_graphs_that_are_not_played(self):
        loop = self.file("loop", "1|2|-1\n2|3|-1\n3|1|-1\n")
        told = inside("hijack", loop, "--kind", "same", "--count", 1)
        self.assertEqual(told.returncode, 2)
        self.assertIn("loop: AS 2 > 3 > 1 > 2, each a provider of the next one, are a loop", told.stderr)
        # A victim with 257 providers has more sessions than a router may have.
        wide = self.file("wide", "".join("%d|1|-1\n" % asn for asn in range(2, 259)))
        said = "pair 1 2: AS 1 has 257 neighbours among the 258 ASes that are to be played, and a router has at most 256 sessions\n"
        told = inside("hijack", wide, "--kind", "same", "--pairs", self.file("pairs", "1 2\n"), "--jobs", 1)
        self.assertEqual((told.returncode, told.stdout, told.stderr), (2, "", "no pair was played: " + said))
        # The others are played, and counted alone.
        words = ("--kind", "same", "--pairs", self.file("pairs", "1 2\n3 2\n"), "--results", self.folder / "results")
        for _ in range(2):
            told = inside("hijack", wide, *words, "--json", "--resume")
            self.assertEqual((told.returncode, told.stderr), (2, said))
            found = json.loads(told.stdout)
            self.assertEqual([(row["victim"], row["mistake"]) for row in found["failed"]], [(1, said[len("pair 1 2: "):-1])])
            # AS 1 alone hears both, and takes that of the lower number.
            self.assertEqual([row["data"] for row in found["pairs"]], [{"captured": 1, "kept": 0, "disconnected": 255}])
        self.assertIn("\nNOT PLAYED: 1 pair\n", inside("hijack", wide, *words, "--resume").stdout)
        tops = self.file("tops", "".join("%d|1|-1\n" % asn for asn in range(2, 204)))
        told = inside("hijack", tops, "--kind", "leak", "--count", 1, "--peerlock", "1", "--jobs", 1)
        self.assertIn("--peerlock 1: 202 ASes have customers and no provider, and the rules look for at most 200", told.stderr)
