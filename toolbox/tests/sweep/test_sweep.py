"""sweep: what it tells of each change is what what-if tells of it alone; families, results, and parts by prefixes."""
import argparse
import copy
import csv
import io
import itertools
import json
import os
import random
import re
import signal
import subprocess
import sys
import time

from bgptools.change.rollback import commands_back
from bgptools.convergence.run import Run
from bgptools.program.script import lines_of, read
from bgptools.sweep import families
from bgptools.sweep.player import Job, Player, converged_job
from common import DATA, PATIENCE, TOOLBOX, TOP, Case, inside, tool
from relations import relations

LESSONS = TOOLBOX / "lessons"
MANY, THREE, DISAGREE = (LESSONS / name for name in ("many-prefixes.bgp", "three-ases.bgp", "disagree.bgp"))
BASES = [MANY, LESSONS / "customers.bgp", LESSONS / "drained-link.bgp", DISAGREE, DATA / "ring.bgp",
         *(TOP / "examples" / name for name in ("hijack.bgp", "two-reflectors.bgp", "lessons/marked-routes.bgp",
                                                "lessons/leaking-policy.bgp"))]
# Two ASes, a virtual peer at each end; AS 5 reflects, and has two ways to the one that feeds it.
BASE = """router 5.0.0.1 5
# name 5.0.0.1 <b>left</b>
router 5.0.0.2 5
router 5.0.0.3 5
router 6.0.0.1 6
virtual 7.0.0.1 7
virtual 8.0.0.1 8
link 5.0.0.1 5.0.0.2 10
link 5.0.0.2 5.0.0.3 10
link 5.0.0.1 5.0.0.3 30
link 5.0.0.3 6.0.0.1 1
link 5.0.0.1 7.0.0.1 1
link 6.0.0.1 8.0.0.1 1
join 5.0.0.1 5.0.0.2
join 5.0.0.2 5.0.0.3
client 5.0.0.2 5.0.0.1 on
join 5.0.0.3 6.0.0.1
join 5.0.0.1 7.0.0.1
join 6.0.0.1 8.0.0.1
rule 5.0.0.1 7.0.0.1 in is 30.0.0.0/8 permit pref=200 add=327681
rule 5.0.0.3 6.0.0.1 out comm 327681 permit prepend=2
origin 5.0.0.2 50.0.0.0/8
origin 6.0.0.1 60.0.0.0/8
feed 7.0.0.1 5.0.0.1 update 30.0.0.0/8 7,9 igp 5
feed 7.0.0.1 5.0.0.1 update 30.1.0.0/16 7 igp - comm=5
feed 8.0.0.1 6.0.0.1 update 30.0.0.0/8 8,9 igp -
"""
# Each with 1 where commands do not take it back: after the first one the program is started anew, and then restored.
CHANGES = {
    "fail 5.0.0.1 7.0.0.1": 0, "fail 5.0.0.3 6.0.0.1": 0, "stop 5.0.0.1 7.0.0.1": 0, "stop 5.0.0.1 5.0.0.2": 0,
    "fail 5.0.0.1 5.0.0.2\nfail 5.0.0.1 5.0.0.3": 0, "metric 5.0.0.1 5.0.0.3 1": 0, "med 5.0.0.3 always": 0,
    "stop 5.0.0.1 7.0.0.1\nstart 5.0.0.1 7.0.0.1": 0, "fail 6.0.0.1 8.0.0.1\nmend 6.0.0.1 8.0.0.1": 0,
    "client 5.0.0.2 5.0.0.1 off": 0, "self 5.0.0.1 5.0.0.2 on": 0, "cluster 5.0.0.2 9.9.9.9": 0,
    "clear 5.0.0.3 6.0.0.1 out": 0, "rule 5.0.0.3 6.0.0.1 out any deny": 0, "rule 5.0.0.1 5.0.0.2 out any deny": 0,
    "clear 5.0.0.1 7.0.0.1 in\nrule 5.0.0.1 7.0.0.1 in any deny": 0, "noorigin 6.0.0.1 60.0.0.0/8": 0,
    "origin 6.0.0.1 50.0.0.0/8": 0, "origin 6.0.0.1 50.1.0.0/16": 0, "origin 6.0.0.1 0.0.0.0/0": 0,
    "feed 7.0.0.1 5.0.0.1 withdraw 30.0.0.0/8": 0, "feed 7.0.0.1 5.0.0.1 update 31.0.0.0/8 7 igp -": 0,
    "feed 7.0.0.1 5.0.0.1 update 30.0.0.0/8 7,8,9 igp -\ndeliver 7.0.0.1 5.0.0.1": 0,
    "# expect refused 14\norigin 6.0.0.1 60.0.0.0/8": 0,
    "# expect refused\norigin 9.9.9.9 61.0.0.0/8\norigin 6.0.0.1 62.0.0.0/8": 0,
    "# nothing": 0, "# name 6.0.0.1 right\nmetric 5.0.0.1 5.0.0.2 50": 0, "routes 5.0.0.1\nstop 5.0.0.3 6.0.0.1": 0,
    "router 6.0.0.2 6\nlink 6.0.0.1 6.0.0.2 1\njoin 6.0.0.1 6.0.0.2": 1,
    "link 5.0.0.1 8.0.0.1 5\njoin 5.0.0.1 8.0.0.1": 1, "stop 5.0.0.1 5.0.0.2\nfail 5.0.0.2 5.0.0.3": 0}


def words_of(**others):
    """The words of a sweep that Job wants."""
    common = {"order": None, "by_router": False, "seed": None, "most": None, "base": "base"}
    return argparse.Namespace(**{**common, **others})


def numbers(told):
    """The numbers of what-if --json."""
    kinds = [change["kind"] for change in told["routes"]]
    neighbours = {(change["router"], (change["before"] or change["after"])["source"]) for change in told["told"]}
    return {**{kind: kinds.count(kind) for kind in ("moved", "lost", "gained")}, "told": len(neighbours),
            "black_holes": len(told["black_holes"]), "loops": len(told["loops"]), "packets": len(told["forwarding"]),
            "messages": len(told["deliveries"]), "down": len(told["sessions_down"]), "is_converged": told["converged"]}


class AsWhatIf(Case):
    """A change on the network that others were tried on before is told as what-if alone tells it."""

    def assert_as_what_if(self, player, base, at):
        trial, found = player.job.trials[at], player.play(at)
        change = self.file("change", "".join(line.text + "\n" for line in trial.lines))
        with self.subTest(base=base, change=trial.title, lines=change.read_text()):
            self.assertEqual(found.text, inside("what-if", base, change).stdout)
            told = json.loads(inside("what-if", base, change, "--json").stdout)
            own = {**vars(found), "told": len(found.told)}
            self.assertEqual({key: own[key] for key in numbers(told)}, numbers(told))
            kinds = {}
            for change in told["routes"]:
                kinds.setdefault(change["router"], []).append(change["kind"])
            rows = {router: [each.count(kind) for kind in ("moved", "lost", "gained")] for router, each in kinds.items()}
            self.assertEqual({router: cell[:3] for router, cell in found.routes.items() if any(cell[:3])}, rows)
            return found

    def player(self, base, made, **others):
        player = Player(converged_job(Job(read(str(base)), [], words_of(**others), True)))
        self.addCleanup(lambda: player.close())
        player.job.trials = made(player.quiet.network)
        return player

    def test_families(self):
        for base in BASES:
            lots = random.Random(str(base))

            def some(network):
                single = [trial for family in families.FAILURES.values() for trial in family(network)]
                made = single + families.pairs(single, 6, 1) + families.hijacks(network, sorted(network.prefixes)[0])
                return lots.sample(made, min(9, len(made)))
            player = self.player(base, some)
            for at in range(len(player.job.trials)):
                self.assert_as_what_if(player, base, at)

    def test_any_commands(self):
        base = self.file("base", BASE)
        changes = [families.Trial(families.FILE, text, tuple(lines_of(text.encode(), str(self.folder / "change"))))
                   for text in CHANGES]
        player = self.player(base, lambda network: changes)
        first = next(text for text, count in CHANGES.items() if count)
        for at, text in enumerate(CHANGES):
            before = player.renewed
            self.assert_as_what_if(player, base, at)
            self.assertEqual(player.renewed - before, int(text == first), text)

    def test_what_does_not_converge_is_played_anew(self):
        base, ends = THREE, (("1.0.0.1 2.0.0.1", 2), ("2.0.0.1 3.0.0.1", 3), ("3.0.0.1 1.0.0.1", 1))
        wheel = "\n".join("rule %s in path %d permit pref=200" % each for each in ends)
        lines = tuple(lines_of((wheel + "\nnoorigin 1.0.0.1 198.51.100.0/24\n").encode(), "change"))
        made = [families.Trial(families.FILE, "wheel", lines)]
        player = self.player(base, lambda network: made + families.links(network))
        for at in (0, 1, 0, 2):
            self.assert_as_what_if(player, base, at)

    def test_no_order_converges(self):
        """Each of three ASes likes the way through the next one best, if that goes straight on to the fourth."""
        ases, ring = (1, 2, 3, 4), ((1, 2, 3), (2, 3, 1), (3, 1, 2))
        text = "".join("router %d.0.0.1 %d\n" % (asn, asn) for asn in ases) + "origin 4.0.0.1 40.0.0.0/8\n"
        text += "".join("link %d.0.0.1 %d.0.0.1 1\njoin %d.0.0.1 %d.0.0.1\n" % (*both, *both)
                        for both in itertools.combinations(ases, 2))
        wheel = "".join("rule {0}.0.0.1 {1}.0.0.1 in path {2} deny\nrule {0}.0.0.1 {1}.0.0.1 in any permit pref=200\n"
                        .format(*each) for each in ring)
        made = [families.Trial(families.FILE, "wheel", tuple(lines_of(wheel.encode(), "change")))]
        base = self.file("base", text)
        player = self.player(base, lambda network: made + families.links(network))
        found = [self.assert_as_what_if(player, base, at).is_converged for at in (0, 1, 0, 2)]
        self.assertEqual((found, player.renewed), ([False, True, False, True], 1))

    def test_the_program_ends_in_the_middle(self):
        """The next change is tried on the network without the one before it, which was under way."""
        base = self.file("base", BASE)
        player = self.player(base, families.links)
        wanted = [player.play(at).as_json() for at in range(len(player.job.trials))]
        for has_snapshot in (False, True):
            self.assertEqual(player.kept is not None, has_snapshot)
            for at, each in enumerate(wanted):
                if at % 2:
                    player.run.program.process.kill()
                self.assertEqual(player.play(at).as_json(), each)
        self.assertEqual(player.renewed, 2 * (len(wanted) // 2))

    def test_random_orders_from_one_begin(self):
        """Each as in a player of its own: after one that does not converge, and where the program ended, too."""
        trials = families.orders(8)
        player = self.player(DISAGREE, lambda network: trials)
        alone = [self.player(DISAGREE, lambda network: trials).play(at).as_json() for at in range(len(trials))]
        self.assertGreater(len({json.dumps(each) for each in alone}), 1)
        for at in [*range(len(trials)), 0]:
            self.assertEqual(player.play(at).as_json(), alone[at])
        player.begin.run.program.process.kill()
        self.assertEqual([player.play(at).as_json() for at in range(len(trials))], alone)
        self.assertEqual(player.renewed, 1)

    def test_it_is_seen_where_a_change_is_not_taken_back(self):
        """Of two stable states the network is in the other one, when a link has failed and come up."""
        for order in (None, "router"):
            player = self.player(DISAGREE, families.links, order=order)
            for at in range(len(player.job.trials)):
                player.play(at)
                state = player.run.state()
                with player._fresh() as fresh:
                    self.assertEqual(state, fresh.state())

    def test_all_that_is_configured_is_taken_back(self):
        with self.player(self.file("base", BASE), families.links).run as run:
            before = Player(converged_job(Job(read(str(self.folder / "base")), [], words_of()))).quiet.network
            for change in (change for change, count in CHANGES.items() if not count):
                for line in change.split("\n"):
                    run.say(line)
                for line in commands_back(run.network, before):
                    self.assertEqual(run.say(line)[0], "ok", line)
                self.assertEqual(commands_back(run.network, before), [], change)


class Copies(Case):
    def test_a_copy_is_the_same_and_no_command_to_it_reaches_the_first(self):
        def told(network):
            return {name: value.of if name == "names" else value for name, value in vars(network).items()}
        lines = ["rule 5.0.0.3 6.0.0.1 out any deny"] + [line for text in CHANGES for line in text.split("\n")]
        lines.append("rule 6.0.0.1 8.0.0.1 in any permit add=77")
        with Run() as run:
            run.play(lines_of(BASE.encode(), "base"))
            before, made = copy.deepcopy(told(run.network)), run.network.copy()
            self.assertEqual(told(made), before)
            for line in lines:
                run.say(line)
            self.assertEqual([name for name, value in told(run.network).items() if value == before[name]], [])
            self.assertEqual(told(made), before)


class Families(Case):
    def titles(self, *words):
        told = json.loads(inside("sweep", *words, "--json", "--jobs", 1).stdout)
        return [row["change"] for row in sorted(told["changes"], key=lambda row: row["number"])]

    def test_links_routers_sessions(self):
        base = self.file("base", "router 1.0.0.1 1\nrouter 1.0.0.2 1\nvirtual 2.0.0.1 2\nlink 1.0.0.2 1.0.0.1 1\n"
                         "link 2.0.0.1 1.0.0.1 1\njoin 1.0.0.1 2.0.0.1\njoin 1.0.0.1 1.0.0.2\nfail 1.0.0.1 2.0.0.1\n"
                         "stop 1.0.0.1 1.0.0.2\n# name 1.0.0.2 b\n")
        self.assertEqual(self.titles(base, "--fail-links", "--fail-sessions", "--fail-routers"), [
            "link 1.0.0.1 and b (1.0.0.2)", "router 1.0.0.1", "router b (1.0.0.2)", "session 1.0.0.1 and 2.0.0.1"])
        told = json.loads(inside("sweep", base, "--fail-routers", "--json").stdout)["changes"]
        self.assertEqual({row["change"]: row["commands"] for row in told}, {
            "router 1.0.0.1": ["fail 1.0.0.1 1.0.0.2", "stop 1.0.0.1 2.0.0.1"],
            "router b (1.0.0.2)": ["fail 1.0.0.1 1.0.0.2"]})

    def test_pairs(self):
        made = [families.Trial(families.LINK, str(number)) for number in range(30)]
        whole = [trial.title for trial in families.pairs(made, None, 1)]
        self.assertEqual(whole, ["%d + %d" % both for both in itertools.combinations(range(30), 2)])
        self.assertEqual([trial.title for trial in families.pairs(made, 435, 7)], whole)
        some = [[trial.title for trial in families.pairs(made, 20, seed)] for seed in (1, 2, 1)]
        self.assertEqual((some[0], len(set(some[0])), set(some[0]) <= set(whole)), (some[2], 20, True))
        self.assertNotEqual(some[0], some[1])
        self.assertEqual(self.titles(THREE, "--pairs"), [
            "link 1.0.0.1 and 2.0.0.1 + link 1.0.0.1 and 3.0.0.1",
            "link 1.0.0.1 and 2.0.0.1 + link 2.0.0.1 and 3.0.0.1",
            "link 1.0.0.1 and 3.0.0.1 + link 2.0.0.1 and 3.0.0.1"])

    def test_hijacks(self):
        """AS 1 has it; AS 3 alone is caught by AS 2 where it is as near, and by nobody where AS 1 is nearer."""
        told = json.loads(inside("sweep", THREE, "--hijack", "198.51.100.0/24", "--json").stdout)["changes"]
        self.assertEqual({row["change"]: (row["commands"], sorted(row["routers"])) for row in told}, {
            "hijack of 198.51.100.0/24 by AS 2 at 2.0.0.1": (["origin 2.0.0.1 198.51.100.0/24"], ["2.0.0.1"]),
            "hijack of 198.51.100.0/24 by AS 3 at 3.0.0.1": (["origin 3.0.0.1 198.51.100.0/24"], ["3.0.0.1"])})

    def test_files(self):
        self.file("changes/b.change", "stop 1.0.0.1 2.0.0.1\nstop 9.9.9.9 1.0.0.1\n")
        self.file("changes/a.change", "fail 1.0.0.1 3.0.0.1\n")
        self.file("changes/.hidden", "no command\n")
        told = inside("sweep", THREE, "--changes", self.folder / "changes", "--csv")
        rows = [row["change"] for row in csv.DictReader(io.StringIO(told.stdout))]
        self.assertEqual((told.returncode, rows), (2, ["file b.change", "file a.change"]))
        self.assertRegex(told.stderr, r"^file b.change: .*/changes/b.change:2: refused 2 no-router: ")
        one = inside("sweep", THREE, "--fail-links", "--csv").stdout
        self.assertIn(re.search(r"link 1.0.0.1 and 3.0.0.1,link,(.*)", one).group(1), told.stdout)

    def test_orders_as_converge_tells_their_states(self):
        told = inside("sweep", DISAGREE, "--orders", 10, "--jobs", 2)
        states = inside("converge", DISAGREE, "--states", 10, "--at-end").stdout
        for number, many, seed in re.findall(r"State (\d+): in (\d+) of 10, as with --seed (\d+)", states):
            self.assertIn("state %s: in %s of 10, as with order %s\n" % (number, many, seed), told.stdout)
        endless = int(re.search(r"(\d+) of 10 did not converge", states).group(1))
        self.assertEqual((told.returncode, told.stdout.count("DOES NOT CONVERGE")), (1, endless))
        self.assertIn("2 stable states in 10 random orders\n", told.stdout)

    def test_mistakes_of_the_call(self):
        for words, said in (
                ((), "which changes?"), (("--sample", 2, "--fail-links"), "--sample is for --pairs"),
                (("--pairs", "--seed", 2), "--seed is for --sample"),
                (("--orders", 0), "--orders 0: a number of at least 1"),
                (("--pairs", "--resume"), "--resume wants --results"),
                (("--hijack", "10.0.0.1/8"), "--hijack 10.0.0.1/8: a prefix"),
                (("--changes", self.folder / "no"), "no: it cannot be read: No such file"),
                (("--changes", self.folder), "it is empty"),
                (("--pairs", "--program", "x"), "--program is for --scheduler"),
                (("--fail-links", "--by-prefix", 0), "--by-prefix 0: a number of at least 1")):
            told = inside("sweep", THREE, *words)
            self.assertEqual((told.returncode, told.stdout), (2, ""), words)
            self.assertIn(said, told.stderr)


class Figures(Case):
    def test_single_points_of_failure(self):
        """A line of three, and a fourth that is linked to both ends of its middle link: by hand."""
        text = "".join("router %d.0.0.1 %d\norigin %d.0.0.1 %d.0.0.0/8\n" % (n, n, n, n) for n in (1, 2, 3, 4))
        base = self.file("base", text + "".join("link %d.0.0.1 %d.0.0.1 1\njoin %d.0.0.1 %d.0.0.1\n" % (a, b, a, b)
                                                for a, b in ((1, 2), (2, 3), (2, 4), (3, 4))))
        told = inside("sweep", base, "--fail-links", "--fail-routers", "--json")
        rows = json.loads(told.stdout)["changes"]
        self.assertEqual([(row["change"], row["lost"]) for row in rows if row["single_point"]], [
            # 1 and the three others lose one another: 3 prefixes at 1, and 1 at each other. Of router 2: all at 2 (3),
            # 2's own at the three others, and 1 is parted from 3 and 4.
            ("router 2.0.0.1", 10), ("link 1.0.0.1 and 2.0.0.1", 6)])
        self.assertEqual([row["single_point"] for row in rows], [True, True] + [False] * 6)
        # The others take from others what is their own alone: all of theirs, and theirs at three.
        self.assertEqual({row["lost"] for row in rows if row["kind"] == "router" and not row["single_point"]}, {6})
        self.assertEqual(told.returncode, 1)

    def test_whom_a_hijack_captures(self):
        """A row of ASes 1 to 6, of which AS 5 has two routers. AS 1 has the prefix. AS 5 hears AS 6 at one router, and
        tells the other one; AS 4 follows it, AS 3 is as near to both, and stays with AS 2, the lower address. Of the
        half of the prefix all follow the hijacker. So AS 5 is counted once, and what moved is counted by routers."""
        row = [("1.0.0.1", 1), ("2.0.0.1", 2), ("3.0.0.1", 3), ("4.0.0.1", 4), ("5.0.0.1", 5), ("5.0.0.2", 5), ("6.0.0.1", 6)]
        text = "".join("router %s %d\n" % each for each in row)
        text += "".join("link %s %s 1\njoin %s %s\n" % (one, other, one, other) for (one, _), (other, _) in zip(row, row[1:]))
        base = self.file("base", text + "origin 1.0.0.1 10.0.0.0/8\norigin 1.0.0.1 20.0.0.0/8\n")
        for words in ((), ("--by-prefix", 1)):
            told = json.loads(inside("sweep", base, "--hijack", "10.0.0.0/8", "--hijack", "10.0.0.0/9", "--fail-links", "--json", *words).stdout)
            rows = {row["change"]: (row["captured"], row["moved"], row["gained"]) for row in told["changes"]}
            self.assertEqual(rows["hijack of 10.0.0.0/8 by AS 6 at 6.0.0.1"], (2, 4, 0))
            self.assertEqual(rows["hijack of 10.0.0.0/9 by AS 6 at 6.0.0.1"], (5, 0, 7))
            self.assertEqual({row["captured"] for row in told["changes"] if row["kind"] == "link"}, {0})

    def test_forms(self):
        told = {form: inside("sweep", MANY, "--fail-links", "--fail-sessions", *form).stdout
                for form in ((), ("--csv",), ("--json",))}
        self.assertIn("4 changes of %s: 4 single points of failure, 4 that lose something, " % MANY, told[()])
        rows = list(csv.DictReader(io.StringIO(told["--csv",])))
        for row, other in zip(rows, json.loads(told["--json",])["changes"]):
            self.assertEqual((row["change"], int(row["lost"]), int(row["told"])),
                             (other["change"], other["lost"], len(other["neighbours"])))
            self.assertEqual(other["lost"], sum(cell["lost"] for cell in other["routers"].values()))
            self.assertRegex(told[()], r"\n  %s +%s " % (re.escape(row["change"]), row["lost"]))
        # As the lesson of the lost upstream has it: 30 prefixes at two routers, and one that the upstream is not told.
        self.assertEqual([(row["change"], row["lost"], row["told"]) for row in rows][1::2][0], (
            "session west (5.0.0.1) and upstream (7.0.0.1)", "60", "1"))

    def test_the_page(self):
        base = self.file("base", BASE)
        changes = self.file("changes/<i>&.change", "fail 5.0.0.3 6.0.0.1\n").parent
        page = inside("sweep", base, "--fail-links", "--changes", changes, "--html").stdout
        self.assertNotIn("<b>left", page)
        self.assertNotIn("<i>", page)
        self.assertIsNone(re.search(r"https?:|src=|@import|url\(", page))
        cells = re.findall(r'<td class="[lm][123]"><a href="#(c\d+)" title="([^"]*)">(\d+)</a></td>', page)
        told = dict(re.findall(r'class="change" id="(c\d+)"><h2>.*?</h2><pre>.*?</pre><pre>(.*?)</pre>', page, re.S))
        self.assertEqual(({place for place, _, _ in cells} <= set(told), len(told)), (True, 7))
        change = self.file("change", "fail 5.0.0.3 6.0.0.1\n")
        plain = inside("what-if", base, change).stdout.replace("&", "&amp;").replace("<", "&lt;").replace(">", "&gt;")
        self.assertEqual(list(told.values()).count(plain), 2)
        moved = re.findall(r"Router .*?([0-9.]+)\)?\n(.*?)(?=^\S|\Z)", plain, re.S | re.M)
        place = next(place for place, text in told.items() if text == plain)
        self.assertEqual({re.search(r"[\d.]{7,}", title).group() for at, title, _ in cells if at == place},
                         {router for router, _ in moved})


class Results(Case):
    def sweep(self, *words):
        return inside("sweep", MANY, "--fail-links", "--fail-routers", "--fail-sessions", "--csv", *words)

    def test_processes_tell_the_same(self):
        one = self.sweep("--jobs", 1)
        for count in (3, 9):
            self.assertEqual(self.sweep("--jobs", count).stdout, one.stdout)

    def test_a_sweep_that_was_stopped_goes_on(self):
        path, whole = self.folder / "results", self.sweep().stdout
        self.assertEqual(self.sweep("--results", path).stdout, whole)
        lines = path.read_bytes().splitlines(True)
        self.assertEqual(sorted(json.loads(line)["change"] for line in lines[1:]), list(range(6)))
        self.assertIn("it is there already: --resume goes on with it", self.sweep("--results", path).stderr)
        for kept, torn in ((1, b""), (3, b""), (4, lines[4][:-9]), (0, lines[0][:7]), (7, b"")):
            path.write_bytes(b"".join(lines[:kept]) + torn)
            told = self.sweep("--results", path, "--resume")
            self.assertEqual((told.stdout, bool(torn)), (whole, "was not whole" in told.stderr))
            after = path.read_bytes().splitlines(True)
            self.assertEqual((after[:kept], sorted(map(len, after))), (lines[:kept], sorted(map(len, lines))))
        # What is known is not played again: it stands in the table as in the file.
        path.write_bytes(b"".join(lines).replace(b'"lost": 60', b'"lost": 59'))
        self.assertEqual(self.sweep("--results", path, "--resume").stdout, whole.replace(",60,60,", ",59,60,"))

    def test_ctrl_c_leaves_whole_results(self):
        ties = self.file("relations", "\n".join(relations(16, 3)) + "\n")
        base = self.file("base", inside("from-as-rel", ties, "--origins", "all").stdout)
        words, path = (base, "--pairs", "--sample", 80, "--csv"), self.folder / "results"
        called = [sys.executable, "-B", TOOLBOX / "sweep", *words, "--jobs", 2, "--results", path]
        pipes = {"stdout": subprocess.PIPE, "stderr": subprocess.PIPE}
        with subprocess.Popen(list(map(str, called)), cwd=str(TOP), start_new_session=True, **pipes) as ran:
            end = time.monotonic() + PATIENCE
            while not (path.exists() and path.read_bytes().count(b"\n") > 3) and time.monotonic() < end:
                time.sleep(0.05)
            os.killpg(ran.pid, signal.SIGINT)
            self.assertEqual((*ran.communicate(timeout=PATIENCE), ran.returncode), (b"", b"stopped\n", 130))
        # Workers have its group; programs have their own, and end with their workers.
        self.assertRaises(ProcessLookupError, os.killpg, ran.pid, 0)
        self.assertEqual(path.read_bytes()[-1:], b"\n")
        self.assertEqual(inside("sweep", *words, "--results", path, "--resume").stdout, inside("sweep", *words).stdout)

    def test_other_files_are_none_of_it(self):
        path = self.folder / "results"
        self.sweep("--results", path)
        head = path.read_bytes()
        told = inside("sweep", MANY, "--fail-links", "--results", path, "--resume")
        self.assertEqual((told.returncode, path.read_bytes()), (2, head))
        self.assertIn("results:1: it has the results of another sweep", told.stderr)
        for content, said in ((b"a\n", ":1: no line of a sweep's results"), (b"a", "no file of a sweep"),
                              (head + b"{}\n", ":8: no line")):
            path.write_bytes(content)
            self.assertIn(said, self.sweep("--results", path, "--resume").stderr)
            self.assertEqual(path.read_bytes(), content)

    def test_a_base_with_a_mistake(self):
        for words in ((), ("--by-prefix", 1)):
            base = self.file("base", "router 1.0.0.1 1\norigin 2.0.0.1 10.0.0.0/8\n")
            told = tool("sweep", base, "--fail-routers", *words, status=2)
            self.assertRegex(told.stderr, r"^/.*/base:2: refused 2 no-router: ")
