"""Orders of deliveries: what the program delivers in each is what a test oracle delivers, one message after another."""
import os
import sys
from unittest import mock

from common import DATA, EXAMPLES, TOOLBOX, Case, marked

from bgptools.convergence.orders import Order, RandomOrder, RouterByRouter
from bgptools.convergence.recurrence import Replay, matches, repetition
from bgptools.convergence.run import Run
from bgptools.program import process
from bgptools.program.language import by_address
from bgptools.program.mistakes import Mistake
from bgptools.program.pcg import STREAM, Pcg32
from bgptools.program.process import Program, ProgramEnded
from bgptools.program.script import lines_of
from simtools import random_scripts

MOST = 150
SCRIPTS = EXAMPLES + sorted((TOOLBOX / "lessons").glob("*.bgp")) + [DATA / "ring.bgp"]
BAD_GADGET = """router 1.0.0.1 1
router 2.0.0.1 2
router 3.0.0.1 3
router 4.0.0.1 4
link 1.0.0.1 2.0.0.1 1
link 2.0.0.1 3.0.0.1 1
link 3.0.0.1 1.0.0.1 1
link 1.0.0.1 4.0.0.1 1
link 2.0.0.1 4.0.0.1 1
link 3.0.0.1 4.0.0.1 1
join 1.0.0.1 2.0.0.1
join 2.0.0.1 3.0.0.1
join 3.0.0.1 1.0.0.1
join 1.0.0.1 4.0.0.1
join 2.0.0.1 4.0.0.1
join 3.0.0.1 4.0.0.1
rule 1.0.0.1 2.0.0.1 in path 3 deny
rule 1.0.0.1 2.0.0.1 in any permit pref=200
rule 2.0.0.1 3.0.0.1 in path 1 deny
rule 2.0.0.1 3.0.0.1 in any permit pref=200
rule 3.0.0.1 1.0.0.1 in path 2 deny
rule 3.0.0.1 1.0.0.1 in any permit pref=200
rule 1.0.0.1 3.0.0.1 in any deny
rule 2.0.0.1 1.0.0.1 in any deny
rule 3.0.0.1 2.0.0.1 in any deny
origin 4.0.0.1 203.0.113.0/24
"""


class Oracle:
    """Delivers by commands alone, and asks each queue after each of them."""

    def __init__(self, program, network):
        self.program, self.network = program, network
        ways = [way for one, other in network.sessions() for way in ((one, other), (other, one))]
        self.ways = sorted(ways, key=self.place)
        self.past = None

    @staticmethod
    def place(way):
        return by_address(way[0]), by_address(way[1])

    def waiting(self):
        replies = self.program.say_all("queue %s %s" % way for way in self.ways)
        return [way for way, reply in zip(self.ways, replies) if len(reply) > 1]

    def in_rounds(self, waiting):
        """The first past the last one, or the first of all."""
        later = [way for way in waiting if self.past is None or self.place(way) > self.place(self.past)]
        self.past = (later or waiting)[0]
        return self.past

    def fair(self, waiting):
        return self.in_rounds(waiting)

    def router(self, waiting):
        """The direction with which the turn began, then the others to its router, by sender."""
        if self.past in waiting:
            return self.past
        if self.past and self.network.is_router(self.past[1]):
            for way in waiting:
                if way[1] == self.past[1]:
                    return way
        return self.in_rounds(waiting)

    def random(self, waiting):
        """A lot among those that were seen waiting, the newest last; one in which none waits is replaced by the last."""
        now = set(waiting)
        if self.past is None:
            self.seen = list(waiting)
        elif self.network.is_router(self.past[1]):
            self.seen += [way for way in waiting if way[0] == self.past[1] and way not in self.seen]
        at = self.generator.below(len(self.seen))
        while self.seen[at] not in now:
            self.seen[at] = self.seen[-1]
            self.seen.pop()
            at = self.generator.below(len(self.seen))
        self.past = self.seen[at]
        return self.past

    def deliveries(self, order, most):
        """The commands and their replies, and whether no message waits."""
        made, waiting = [], self.waiting()
        self.generator = Pcg32(getattr(order, "seed", 0), STREAM)
        while waiting and len(made) < most:
            command = "deliver %s %s" % getattr(self, order.name)(waiting)
            made.append((command, self.program.say(command)[0]))
            waiting = self.waiting()
        return made, not waiting


class Orders(Case):
    def assert_same(self, lines, order):
        """The program, the oracle and a run deliver the same."""
        with Run(order, MOST) as run, Program() as other, Program() as third:
            replies = [run.say(line.text) for line in lines]
            kept = [line.text for line, reply in zip(lines, replies) if reply]
            other.say_all(kept)
            third.say_all(kept)
            wanted, is_converged = Oracle(other, run.network).deliveries(order, MOST)
            echo = third.converge(order.asked, MOST)
            self.assertEqual(list(zip(echo.commands, echo.replies)), wanted)
            kinds = [reply.split(" ")[2] for _, reply in wanted]
            self.assertEqual(echo.ending, "%sconverged after %d (%d updates, %d withdrawals)" % (
                "" if is_converged else "not ", len(wanted), kinds.count("update"), kinds.count("withdraw")))
            done = run.converge()
            made = [("deliver %s %s" % way, took) for way, took in zip(done.deliveries, done.taken)]
            self.assertEqual(made, wanted[:len(made)])
            self.assertEqual(done.is_converged, is_converged)
            self.assertEqual(len(made) == len(wanted) or bool(done.period), True)
        return len(wanted)

    def test_lessons(self):
        for path in SCRIPTS:
            for order in (Order(), RouterByRouter(), RandomOrder(7)):
                with self.subTest(path=path, order=order.words):
                    self.assert_same(lines_of(marked(path.read_bytes())[0], str(path)), order)

    def test_generated_networks(self):
        count = 0
        for seed in range(21, 27):
            content = marked(random_scripts.script(seed, 250).encode("latin-1"))[0]
            for order in (Order(), RouterByRouter(), RandomOrder(7)):
                with self.subTest(seed=seed, order=order.words):
                    lines = [line for line in lines_of(content, "a script") if line.words[:1] != ["deliver"]]
                    count += self.assert_same(lines, order)
        self.assertGreater(count, 300)

    def test_the_orders_differ(self):
        """So that one is not taken for the other."""
        lines = lines_of((DATA / "ring.bgp").read_bytes(), "ring.bgp")
        made = []
        for order in (Order(), RouterByRouter(), RandomOrder(1)):
            with Run(order) as run:
                run.play(lines)
                made.append(run.converge().deliveries)
        self.assertEqual(len({tuple(each) for each in made}), 3)


# A program that makes one of several deliveries, and has no memory for the next one; or that ends in the midst of a reply.
FAILS = """#!%s
import sys
for line in sys.stdin:
    word = line.split()[0]
    told = {"converge": %r, "queue": "end 0\\n", "quiet": "no\\n"}.get(word, "ok\\n")
    sys.stdout.write(told)
    sys.stdout.flush()
    if not told.endswith("\\n"):
        break
"""
TWO = "router 1.0.0.1 1\nrouter 2.0.0.1 2\nlink 1.0.0.1 2.0.0.1 1\njoin 1.0.0.1 2.0.0.1\norigin 1.0.0.1 10.0.0.0/8\n"


class Failures(Case):
    def run_of(self, told):
        """A run of a program that tells this of deliveries."""
        program = self.file("fails", FAILS % (sys.executable, told))
        program.chmod(0o755)
        with mock.patch.dict(os.environ, PROGRAM=str(program)):
            run = Run()
        self.addCleanup(run.close)
        run.play(lines_of(TWO.encode(), "two.bgp"))
        return run

    def test_memory_is_refused(self):
        """What was delivered before is kept."""
        run = self.run_of("deliver 1.0.0.1 2.0.0.1\ntook 10.0.0.0/8 update\nrefused 20 memory\n")
        with self.assertRaisesRegex(Mistake, "^converge: refused 20 memory: memory was refused after 1 deliveries$"):
            run.converge()
        self.assertEqual(run.lines, TWO.split("\n")[:-1] + ["deliver 1.0.0.1 2.0.0.1"])

    def test_the_program_ends_in_the_midst(self):
        run = self.run_of("deliver 1.0.0.1 2.0.0.1\ntook 10.0")
        with self.assertRaisesRegex(ProgramEnded, "the program ended before it had answered, with status 0"):
            run.converge()
        self.assertEqual(run.lines, TWO.split("\n")[:-1])

    def test_a_reply_in_pieces(self):
        """A piece may end behind any byte, also behind a line that is not the last one."""
        lines = ["deliver 1.0.0.1 2.0.0.1", "took 10.0.0.0/8 update"] * 3 + ["converged after 3 (3 updates, 0 withdrawals)", ""]
        text = "\n".join(lines)
        for size in (1, 7, len(lines[0]) + 1, len(text)):
            with self.subTest(size=size):
                run = self.run_of(text)
                with mock.patch.object(process, "PIECE", size):
                    echo = run.program.converge("fair", 10)
                self.assertEqual((echo.commands, echo.replies, echo.ending), (lines[0:6:2], lines[1:6:2], lines[6]))


class Requests(Case):
    def test_what_tools_ask_for_is_no_command(self):
        """A script, or a participant, that has such a line is told that it is none, and nothing is delivered."""
        with Run() as run:
            run.play(lines_of(TWO.encode(), "two.bgp"))
            for line in ("converge", " converge  fair 5 echo ", "waiting", "waiting x", "converge fair 0"):
                with self.subTest(line=line):
                    self.assertEqual(run.say(line), ["refused 1 syntax"])
                    self.assertEqual(run.program.pour([line]), ["refused 1 syntax"])
            self.assertEqual(run.ask(["quiet"]), [["no"]])
            self.assertEqual(run.program.waiting(), [("1.0.0.1", "2.0.0.1")])


class Recurrences(Case):
    def test_steps_that_repeat(self):
        self.assertEqual(matches("abab"), [0, 0, 2, 0])
        for steps, wanted in (("", (0, 0)), ("abcd", (0, 4)), ("xyababababab", (2, 4)), ("xaaaa", (1, 2)),
                              ("abcabcabcabd", (0, 12)), ("uvwxyzabcabc", (3, 9)), ("tuvwxyzabcabc", (3, 10)),
                              ("rstuvwxyzabcabc", (0, 15))):
            with self.subTest(steps=steps):
                self.assertEqual(repetition(steps), wanted)

    def test_bad_gadget(self):
        """Worked out by hand from the echo of the program: after 48 deliveries all is as it was after 30."""
        with Run() as run:
            run.play(lines_of(BAD_GADGET.encode(), "gadget.bgp"))
            begin = len(run.lines)
            done = run.converge()
            self.assertEqual((done.is_converged, done.period), (False, 18))
            self.assertEqual(done.restless, {"203.0.113.0/24": ["1.0.0.1", "2.0.0.1", "3.0.0.1"]})
            self.assertLess(len(done.deliveries), 60)
            self.assertEqual(run.lines[begin:], ["deliver %s %s" % way for way in done.deliveries])
            now = state(run)
            with Run() as other:
                other.repeat(run.lines[:-18])
                self.assertEqual(state(other), now)
                other.repeat(run.lines[-18:])
                self.assertEqual(state(other), now)

    def test_the_state_takes_several_repetitions(self):
        """Deliveries may repeat themselves before the state does, and then that is the period, or none is seen."""
        for states, period in (("abca", 54), ("abbc", 18), ("abcdefgh" * 8, 144), (map(str, range(1000)), 0)):
            with self.subTest(period=period), Run(most=1000) as run:
                run.play(lines_of(BAD_GADGET.encode(), "gadget.bgp"))
                with mock.patch.object(Replay, "state", side_effect=states):
                    done = run.converge()
                self.assertEqual((done.is_converged, done.period), (False, period))
                self.assertEqual(done.restless, {"203.0.113.0/24": ["1.0.0.1", "2.0.0.1", "3.0.0.1"]})

    def test_what_is_a_state(self):
        """What was received, and what waits where."""
        begin = ["router 1.0.0.1 1", "router 2.0.0.1 2", "virtual 7.0.0.1 7"]
        begin += [word % other for other in ("2.0.0.1", "7.0.0.1") for word in ("link 1.0.0.1 %s 1", "join 1.0.0.1 %s")]
        feed, delivery = "feed 7.0.0.1 1.0.0.1 update 10.0.0.0/8 %s igp -", "deliver 7.0.0.1 1.0.0.1"
        found = []
        for more in ([feed % "7"], [feed % "7,8"], [feed % "7", delivery], [feed % "7,8", delivery],
                     [feed % "7", delivery, "deliver 1.0.0.1 2.0.0.1"], [feed % "7,8", delivery, "deliver 1.0.0.1 2.0.0.1"], []):
            with Run() as run:
                run.play(lines_of("\n".join(begin + more).encode(), "states.bgp"))
                found.append(Replay(run.program, run.network, [], []).state({delivery}))
        self.assertEqual(len(set(found)), 7)

    def test_a_limit_that_is_too_low_to_see_it(self):
        """Who chose another route twice or more in the second half is told."""
        with Run(most=40) as run:
            run.play(lines_of(BAD_GADGET.encode(), "gadget.bgp"))
            done = run.converge()
        self.assertEqual((done.is_converged, done.period, len(done.deliveries)), (False, 0, 40))
        self.assertEqual(done.restless, {"203.0.113.0/24": ["1.0.0.1", "2.0.0.1", "3.0.0.1"]})

    def test_the_network_stands_where_the_deliveries_stopped(self):
        """It goes on from there, and what was delivered stands in the script."""
        with Run(most=5) as run:
            run.play(lines_of((DATA / "ring.bgp").read_bytes(), "ring.bgp"))
            begin = len(run.lines)
            self.assertEqual((run.converge().is_converged, len(run.lines) - begin), (False, 5))
            run.follow(Order(), None, False)
            self.assertEqual(run.converge().is_converged, True)
            self.assertEqual(run.ask(["quiet"]), [["yes"]])
            with Run() as other:
                other.repeat(run.lines)
                self.assertEqual(state(other), state(run))


def state(run):
    """All that was received and that waits."""
    ways = [way for one, other in run.network.sessions() for way in ((one, other), (other, one))]
    return run.ask(["in %s %s" % (b, a) for a, b in ways if run.network.is_router(b)] + ["queue %s %s" % way for way in ways])
