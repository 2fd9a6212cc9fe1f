"""converge: scripts that end quiet, other orders, and networks that do not converge."""
import re
from unittest import mock

from common import DATA, EXAMPLES, SCRIPTS, TOP, Case, inside, marked, program, tool

from bgptools.convergence.delivery import Deliverer
from bgptools.convergence.delivery_script import converged
from bgptools.convergence.orders import Order, RandomOrder, RouterByRouter
from bgptools.convergence.run import Run
from bgptools.program.script import lines_of, read
from simtools import random_scripts

OSCILLATION = TOP / "examples" / "lessons" / "med-oscillation.bgp"
DISAGREE = TOP / "toolbox" / "lessons" / "disagree.bgp"


class Converge(Case):
    def assert_ends_quiet(self, content, *words):
        """The script, with its refused lines marked, is written so that all queues are empty at its end."""
        path = self.folder / "marked.bgp"
        path.write_bytes(marked(content)[0])
        told = inside("converge", path, *words)
        if told.returncode:
            self.assertEqual((told.returncode, told.stdout), (1, ""))
            self.assertIn("keeps changing", told.stderr)
        else:
            self.assertEqual(program(told.stdout + "quiet\n")[-1], "yes")

    def test_each_script_ends_quiet(self):
        for path in SCRIPTS:
            for words in ((), ("--at-end", "--seed", "7")):
                with self.subTest(path=path, words=words):
                    self.assert_ends_quiet(path.read_bytes(), *words)

    def test_random_scripts_end_quiet(self):
        for seed in range(1, 9):
            with self.subTest(seed=seed):
                self.assert_ends_quiet(random_scripts.script(seed, 300).encode("latin-1"), *(["--router"] if seed % 2 else []))

    def test_a_refused_line_is_a_mistake_and_nothing_is_written(self):
        for path in (path for path in SCRIPTS if marked(path.read_bytes())[1]):
            with self.subTest(path=path):
                told = inside("converge", "--at-end", path)
                self.assertEqual((told.returncode, told.stdout), (2, ""))
                self.assertRegex(told.stderr, r":\d+: refused \d+ [a-z-]+: ")
        out = self.file("out.bgp", "kept\n")
        told = tool("converge", "-", "-o", out, given=b"router 1.0.0.1 1\n# expect refused 4\nrouter 1.0.0.1 1\n", status=2)
        self.assertIn("standard input:3: refused 3 router-exists: 1.0.0.1 is there already", told.stderr)
        self.assertEqual(out.read_text(), "kept\n")

    def test_comments_names_and_marks_are_kept(self):
        given = b"# a router\n# name 1.0.0.1 west\nrouter 1.0.0.1 1\n\n# expect refused 3\nrouter 1.0.0.1 1\nrouter 1.0.0 1 # expect refused\n"
        made = tool("converge", "-", given=given, status=0).stdout
        self.assertEqual(made, given.decode().replace("router 1.0.0 1 # expect refused\n", "# expect refused\nrouter 1.0.0 1\n"))
        self.assertEqual(tool("converge", "-", given=made.encode(), status=0).stdout, made)

    def test_nothing_but_deliveries_is_added(self):
        for words in ((), ("--at-end",)):
            made = tool("converge", "examples/failed-link.bgp", *words, status=0).stdout.split("\n")
            given = (TOP / "examples/failed-link.bgp").read_text().split("\n")
            self.assertEqual([line for line in made if not line.startswith("deliver")], [line for line in given if not line.startswith("deliver")])

    def test_at_end_has_all_deliveries_at_the_end(self):
        made = tool("converge", "--at-end", "-", given=b"router 1.0.0.1 1\nrouter 2.0.0.1 2\nlink 1.0.0.1 2.0.0.1 1\njoin 1.0.0.1 2.0.0.1\n"
                    b"origin 1.0.0.1 10.0.0.0/8\norigin 2.0.0.1 20.0.0.0/8\nquiet\n", status=0).stdout
        self.assertTrue(made.endswith("quiet\ndeliver 1.0.0.1 2.0.0.1\ndeliver 2.0.0.1 1.0.0.1\n"))

    def test_seeds_give_other_orders_with_the_same_result(self):
        made = {seed: tool("converge", "--at-end", "--seed", seed, DATA / "ring.bgp", status=0).stdout for seed in (1, 2, 1)}
        self.assertEqual(made[1], tool("converge", "--at-end", "--seed", 1, DATA / "ring.bgp", status=0).stdout)
        self.assertNotEqual(made[1], made[2])
        ends = {tuple(program(text + "".join("routes 1.0.0.%d\n" % n for n in range(1, 7)))[-30:]) for text in made.values()}
        self.assertEqual(len(ends), 1)

    def test_a_delivery_of_the_script_itself_that_finds_nothing_is_left_out(self):
        told = tool("converge", "examples/hot-potato.bgp", status=0)
        self.assertIn("4 deliveries of its own found nothing left", told.stderr)
        self.assertFalse([line for line in program(told.stdout) if line.startswith("refused")])

    def test_an_oscillation_is_told_as_such(self):
        told = tool("converge", OSCILLATION, status=1)
        self.assertEqual(told.stdout, "")
        self.assertRegex(told.stderr, r"in the fair order the same state comes back every \d+ deliveries; 203\.0\.113\.0/24 keeps changing at 1\.0\.0\.1, 1\.0\.0\.4;")
        self.assertIn("of 9 other orders (router by router, 8 random) none converges", told.stderr)
        self.assertIn("0 stable states in 2 random orders\n2 of 2 did not converge", tool("converge", OSCILLATION, "--states", "2", status=1).stdout)

    def test_two_that_prefer_each_other_have_two_stable_states(self):
        told = tool("converge", DISAGREE, status=0)
        self.assertRegex(told.stderr, r"disagree\.bgp:16: in the fair order the same state comes back every \d+ deliveries; 203\.0\.113\.0/24 keeps changing at "
                         r"left \(1\.0\.0\.1\), right \(2\.0\.0\.1\); it converges in the random order 3; of 9 other orders .* converge, in \d stable states?\n")
        self.assertEqual(program(told.stdout + "quiet\n")[-1], "yes")
        wanted = [{"1.0.0.1": "2,3", "2.0.0.1": "3"}, {"1.0.0.1": "3", "2.0.0.1": "1,3"}]
        self.assertIn(self.paths(told.stdout), wanted)
        found = tool("converge", DISAGREE, "--states", "12", status=1).stdout
        self.assertTrue(found.startswith("2 stable states in 12 random orders\nState 1: in "))
        seeds = re.findall(r"^State \d: in \d+ of 12, as with --seed (\d+)$", found, re.M)
        ends = [self.paths(tool("converge", DISAGREE, "--seed", seed, status=0).stdout) for seed in seeds]
        self.assertCountEqual(ends, wanted)
        counts = re.findall(r"^State \d: in (\d+) of 12|^(\d+) of 12 did not converge", found, re.M)
        self.assertEqual(sum(int(one or other) for one, other in counts), 12)

    def paths(self, script):
        """The paths of the two that disagree."""
        routers = ("1.0.0.1", "2.0.0.1")
        replies = program(script + "".join("best %s 203.0.113.0/24\n" % router for router in routers))[-2:]
        return {router: re.search("path=([0-9,]+)", reply).group(1) for router, reply in zip(routers, replies)}

    def test_a_network_with_one_stable_state(self):
        self.assertEqual(tool("converge", DATA / "ring.bgp", "--states", "3", status=0).stdout, "1 stable state in 3 random orders\n")

    def test_what_communities_keep_back_is_not_waited_for(self):
        """Of five routes, two carry nothing well-known at 1: it tells 2 both, and by a rule 3 the first alone."""
        one, two, three, fed = "1.0.0.1", "2.0.0.1", "3.0.0.1", "7.0.0.1"
        given = ["router 1.0.0.1 1", "router 2.0.0.1 2", "router 3.0.0.1 3", "virtual 7.0.0.1 7"]
        given += ["link 1.0.0.1 %s 1" % other for other in (two, three, fed)] + [
            "join 1.0.0.1 %s" % other for other in (two, three, fed)]
        given += ["rule 1.0.0.1 3.0.0.1 out comm 6 deny", "rule 1.0.0.1 7.0.0.1 in comm 9 permit add=4294967041"]
        feeds = [("10.0.0.0/8", "5"), ("11.0.0.0/8", "6"), ("12.0.0.0/8", "5,4294967041"), ("14.0.0.0/8", "9"),
                 ("13.0.0.0/8", "4294967042")]
        given += ["feed 7.0.0.1 1.0.0.1 update %s 7 igp - comm=%s" % each for each in feeds]
        for words in ((), ("--router",), ("--seed", "3")):
            made = tool("converge", "--at-end", "-", *words, given="\n".join(given).encode(), status=0).stdout
            ways = [tuple(line.split(" ")[1:]) for line in made.split("\n") if line.startswith("deliver")]
            self.assertCountEqual(ways, [(fed, one)] * 5 + [(one, two)] * 2 + [(one, three)])
            self.assertEqual(program(made + "quiet\n")[-1], "yes")

    def test_router_by_router(self):
        """Worked out by hand: 2 takes all that waits for it, of 1 and then of 3; then 1 does, and 3. In a round each
        direction gives a message when its turn comes, so that 2 tells 3 of the first one in the same round."""
        given = ("router 1.0.0.1 1\nrouter 2.0.0.1 2\nrouter 3.0.0.1 3\nlink 1.0.0.1 2.0.0.1 1\nlink 2.0.0.1 3.0.0.1 1\njoin 1.0.0.1 2.0.0.1\njoin 2.0.0.1 3.0.0.1\n"
                 "origin 1.0.0.1 10.0.0.0/8\norigin 1.0.0.1 11.0.0.0/8\norigin 3.0.0.1 30.0.0.0/8\n")
        one, two, three = "1.0.0.1", "2.0.0.1", "3.0.0.1"
        ways = {"router": [(one, two), (one, two), (three, two), (two, one), (two, three), (two, three)],
                "fair": [(one, two), (two, three), (three, two), (one, two), (two, one), (two, three)]}
        for name, wanted in ways.items():
            made = tool("converge", "--at-end", "--order", name, "-", given=given.encode(), status=0).stdout
            self.assertEqual([tuple(line.split(" ")[1:]) for line in made.split("\n") if line.startswith("deliver ")], wanted)
        self.assertEqual(tool("converge", "--at-end", "--router", "-", given=given.encode(), status=0).stdout,
                         tool("converge", "--at-end", "--order", "router", "-", given=given.encode(), status=0).stdout)

    def test_words_that_name_no_order(self):
        for words, said in ((["--router", "--seed", "2"], "one order is expected, and not random and router"), (["--seed", "x"], "--seed x: a number"),
                            (["--states", "0"], "--states 0: a number of at least 1"), (["--states", "2", "--router"], "no order, since all are random")):
            with self.subTest(words=words):
                self.assertIn(said, tool("converge", DISAGREE, *words, status=2).stderr)

    def test_most_is_too_few(self):
        told = tool("converge", DATA / "ring.bgp", "--at-end", "--most", "5", status=1)
        self.assertIn("not quiet after 5 deliveries", told.stderr)

    def test_nothing_is_half_written(self):
        out = self.file("out.bgp", "kept\n")
        tool("converge", OSCILLATION, "--most", "100", "-o", out, status=1)
        self.assertEqual(out.read_text(), "kept\n")
        tool("converge", "examples/hijack.bgp", "-o", out, status=0)
        self.assertEqual(program(out.read_text() + "quiet\n")[-1], "yes")
        self.assertEqual([path.name for path in self.folder.iterdir()], ["out.bgp"])
        self.assertIn("it cannot be written", tool("converge", "examples/hijack.bgp", "-o", self.folder / "none" / "out", status=2).stderr)

    def test_no_queue_is_overlooked(self):
        """What waits is always known: where nothing is delivered, or no more is, the program says that no message waits."""
        def converge(deliverer, called=Deliverer.converge):
            done = called(deliverer)
            self.assertEqual(deliverer.program.say("quiet"), ["yes" if done.is_converged else "no"])
            return done
        made = [random_scripts.script(seed, 300).encode("latin-1") for seed in range(11, 15)]
        for at, content in enumerate(made + [path.read_bytes() for path in EXAMPLES]):
            lines = lines_of(marked(content)[0], "a script")
            for is_at_end, order in ((False, Order()), (True, Order()), (True, RouterByRouter()), (True, RandomOrder(3)))[:4 if at < len(made) else 1]:
                with self.subTest(at=at, order=order.words), mock.patch.object(Deliverer, "converge", converge), Run(order) as run:
                    converged(run, lines, is_at_end)
                    self.assertIn("deliver", "".join(run.lines))

    def lines_of_converge(self, given):
        """How many lines are given to the program beside those of the script where it is converged after each command; and the deliveries."""
        script = read(str(self.file("asked.bgp", given)))
        with Run() as run:
            written, endless = converged(run, script, False)
            self.assertIsNone(endless)
            return run.program.count_of_all - len(script), sum(line.startswith("deliver ") for line in written.lines)

    def test_no_blind_rounds(self):
        """A prefix of a client takes 99 deliveries, for which the program is given one line. Other edits are followed by none."""
        routers = 100
        lines = ["router 1.0.%d.1 1" % n for n in range(routers)] + ["link 1.0.%d.1 1.0.%d.1 1" % (n, n + 1) for n in range(routers - 1)]
        lines += ["join 1.0.0.1 1.0.%d.1" % n for n in range(1, routers)] + ["client 1.0.0.1 1.0.%d.1 on" % n for n in range(1, routers)]
        lines += ["origin 1.0.%d.1 10.%d.0.0/16" % (n, n) for n in range(1, 20)]
        self.assertEqual(self.lines_of_converge("\n".join(lines) + "\n"), (19, 19 * 99))
