"""What share and its log are without a socket: seats, calls, undo, workers, limits, and a log that is taken up."""
import contextlib
import io
import os
import re
import resource
import signal
import sys
import unittest.mock

from bgptools.program import line_count, location
from bgptools.program.mistakes import Mistake
from bgptools.program.script import lines_of
from bgptools.session import ledger, log, replay
from bgptools.session.log import Unkept
from bgptools.session.persistent_run import Lost
from bgptools.session.shared_network import Shared
from bgptools.session.workers import Workers
from common import TOOLBOX, TOP, program
from held import PEER, TWO, Held

TAKES = ("deliver 7.0.0.1 1.0.0.1",)
THREE = TOP / "toolbox" / "lessons" / "three-ases.bgp"
# A log of replies of one line each that ends behind a whole entry.
WHOLE = re.compile(rb"(bgpsim log 2\n(@[0-9]+ [^\n]*\n= [^\n]*\n)*(end [0-9]+\n)?)?")
# Runs the program, and dies where a line has the word of a file, which goes then; while it is `memory`, deliveries want
# some.
DIES = """#!%s
import os, pathlib, sys
sys.dont_write_bytecode = True
sys.path.insert(0, %r)
os.environ["PROGRAM"] = %r
from bgptools.program.process import Program
inner, here = Program(), pathlib.Path(%r)
for line in sys.stdin.buffer:
    line = line.decode("latin-1")[:-1]
    if here.exists() and here.read_text() == "memory" and line.startswith("deliver "):
        print("refused 20 memory", flush=True)
        continue
    if here.exists() and here.read_text() in line:
        here.unlink()
        os._exit(7)
    print("".join(each + "\\n" for each in inner.request(line)), end="", flush=True)
"""


class Logs(Held):
    def test_each_call_is_an_entry_with_its_seat(self):
        """But no line that spells no command, no comment and no question of a tool; spaces are one."""
        shared, anna = self.shared(*TWO)
        ben = self.enter(shared, "ben")
        lines = [(ben, "origin  1.0.0.1   10.0.0.0/8 "), (anna, "rooter 1.0.0.1 1"), (anna, "# a comment"), (ben, ""),
                 (ben, "metric 1.0.0.1 3.0.0.1 5"), (anna, "queue 1.0.0.1 2.0.0.1"), (anna, "deliver 1.0.0.1 2.0.0.1")]
        replies = [answer.reply for answer in shared.calling.calls(lines)]
        self.assertEqual(shared.program.ask(["quiet"]), [["yes"]])
        message = "update 10.0.0.0/8 path=1 origin=igp next=1.0.0.1 med=- pref=- oid=- clusters=-"
        self.assertEqual(replies, [["ok"], ["refused 1 syntax"], [], [], ["refused 2 no-router"], [message, "end 1"],
                                   ["took 10.0.0.0/8 update"]])
        self.assertEqual(self.ended(shared), "ok 8")
        wanted = ["bgpsim log 2", *(part for line in TWO for part in ("@1 " + line, "= ok")),
                  "@2 origin 1.0.0.1 10.0.0.0/8", "= ok", "@2 metric 1.0.0.1 3.0.0.1 5", "= refused 2 no-router",
                  "@1 queue 1.0.0.1 2.0.0.1", "= " + message, "= end 1",
                  "@1 deliver 1.0.0.1 2.0.0.1", "= took 10.0.0.0/8 update", "end 8"]
        self.assertEqual(self.log.read_text().split("\n"), wanted + [""])

    def test_refusals_are_explained_by_the_network_before_them(self):
        shared, anna = self.shared()
        lines = ("router 1.0.0.1 1", "router 1.0.0.1 2", "link 1.0.0.1 2.0.0.1 1", "router 2.0.0.1 2",
                 "join 1.0.0.1 2.0.0.1")
        self.assertEqual([answer.told for answer in shared.calling.calls((anna, line) for line in lines)], [
            [], ["-- 1.0.0.1 is there already: a router of AS 1"], ["-- there is no router or virtual peer 2.0.0.1"],
            [], ["-- 1.0.0.1 is in AS 1 and 2.0.0.1 in AS 2: an external session needs a link between them, "
                 "`link 1.0.0.1 2.0.0.1 M`"]])

    def test_what_is_kept_from_a_peer_is_told_with_out(self):
        """Though a later line of the same calls takes the route away."""
        shared, anna = self.shared(*PEER, "virtual 8.0.0.1 8", "link 1.0.0.1 8.0.0.1 1", "join 1.0.0.1 8.0.0.1",
                                   "feed 7.0.0.1 1.0.0.1 update 10.0.0.0/8 7 igp - comm=4294967041")
        lines = ("deliver 7.0.0.1 1.0.0.1", "out 1.0.0.1 8.0.0.1", "stop 1.0.0.1 7.0.0.1")
        told = shared.calling.calls((anna, line) for line in lines)[1].told
        self.assertEqual(told, ["-- not told to 8.0.0.1, since it carries 4294967041 (NO_EXPORT): 10.0.0.0/8"])

    def test_lines_that_are_not_given_to_the_program(self):
        shared, anna = self.shared()
        for line in ("quiet\nquiet", "quiet \u20ac", "x" * 70000):
            with self.subTest(line=line[:10]):
                answers = shared.calling.calls([(anna, "quiet"), (anna, line), (anna, "quiet")])
                self.assertEqual([answer.reply for answer in answers], [["yes"], [], ["yes"]])
                self.assertTrue(answers[1].error)
        self.assertEqual(self.said(shared, anna, " " * 5000), ["refused 1 syntax"])
        self.assertRaises(Mistake, shared.program.ask, ["deliver 1.0.0.1 2.0.0.1"])

    def test_a_log_is_written_before_the_answer(self):
        """The file has the entry when the answer is there, by no other way than the file itself."""
        shared, anna = self.shared()
        shared.calling.calls([(anna, "router 1.0.0.1 1")])
        self.assertEqual(self.log.read_text(), "bgpsim log 2\n@1 router 1.0.0.1 1\n= ok\n")

    def test_a_disk_that_is_full(self):
        """What could not be written is taken out again, and nothing is answered."""
        shared, anna = self.shared(*TWO)
        before = self.log.read_text()
        soft, hard = resource.getrlimit(resource.RLIMIT_FSIZE)
        old = signal.signal(signal.SIGXFSZ, signal.SIG_IGN)
        resource.setrlimit(resource.RLIMIT_FSIZE, (len(before) + 5, hard))
        try:
            self.assertRaises(Unkept, shared.calling.calls, [(anna, "origin 1.0.0.1 10.0.0.0/8")])
        finally:
            resource.setrlimit(resource.RLIMIT_FSIZE, (soft, hard))
            signal.signal(signal.SIGXFSZ, old)
        self.assertEqual(self.log.read_text(), before)
        shared.close()
        self.assertEqual(self.ended(self.shared()[0]), "ok 4")


class TakenUp(Held):
    def whole(self, content):
        """How many whole entries the begin of a log has, by another way than the reader's: each reply is one line."""
        return len(re.findall(rb"@[0-9]+ [^\n]*\n= [^\n]*\n", content))

    def test_a_log_that_ends_anywhere_is_taken_up_from_its_whole_entries(self):
        shared, anna = self.shared(*TWO)
        lines = ("origin 1.0.0.1 10.0.0.0/8", "quiet", "cost 1.0.0.1 2.0.0.1", "mend 1.0.0.1 9.0.0.1")
        shared.calling.calls((anna, line) for line in lines)
        self.ended(shared)
        content = self.log.read_bytes()
        ends = [place.end() for place in re.finditer(rb"\n", content)]
        for size in sorted({0, *ends, *(end - 1 for end in ends), *(end + 3 for end in ends[:-1]), 5}):
            with self.subTest(size=size):
                self.log.write_bytes(content[:size])
                count, told = self.whole(content[:size]), []
                again = Shared(str(self.log), tell=told.append)
                self.addCleanup(again.close)
                self.assertEqual(again.ledger.entries, count)
                self.assertEqual(not told, bool(WHOLE.fullmatch(content[:size])), told)
                self.assertEqual(self.said(again, self.enter(again, "anna"), "quiet"), ["no" if count > 4 else "yes"])
                self.assertEqual(self.ended(again), "ok %d" % (count + 1))

    def test_a_report_that_is_cut(self):
        shared, anna = self.shared(*TWO, "origin 1.0.0.1 10.0.0.0/8")
        self.said(shared, anna, "queue 1.0.0.1 2.0.0.1")
        shared.close()
        self.log.write_text(self.log.read_text()[:-len("= end 1\n")])
        told = []
        again, anna = self.shared(tell=told.append)
        self.assertEqual(again.ledger.entries, 5)
        cut = "the last entry was cut off, and is left out: `@1 queue 1.0.0.1 2.0.0.1`"
        self.assertEqual(told, ["%s:12: %s" % (self.log, cut)])
        self.said(again, anna, "quiet")
        self.assertEqual(self.ended(again), "ok 6")

    def test_what_is_no_log_stays_as_it_is(self):
        for content, line, text in (
                (b"hello", 1, "`bgpsim log 2` is expected"),
                (b"bgpsim log 1\nend 0\n", 1, "`bgpsim log 2` is expected"),
                (b"bgpsim log 2\nrouter 1.0.0.1 1\n= ok\n", 2, "a call is expected, or the end of 0 calls"),
                (b"bgpsim log 2\n@256 quiet\n= yes\n", 2, "a call is expected"),
                (b"bgpsim log 2\n@0 quiet\nyes\n", 3, "a line of the reply is expected"),
                (b"bgpsim log 2\n@0 quiet\n= yes\nend 2\n", 4, "or the end of 1 calls"),
                (b"bgpsim log 2\nend 0\n\n", 3, "there is more behind the end"),
                (b"bgpsim log 2\n@0 quiet\n= no\n", 2, "the program answers `yes`, and the log has `no`")):
            with self.subTest(content=content):
                self.log.write_bytes(content)
                with self.assertRaises(Mistake) as found:
                    Shared(str(self.log))
                self.assertTrue(str(found.exception).startswith("%s:%d: " % (self.log, line)), found.exception)
                self.assertIn(text, str(found.exception))
                self.assertEqual(self.log.read_bytes(), content)

    def test_seats_names_times_and_undo_are_there_again(self):
        shared, anna = self.shared(*TWO, workers=2, clock=lambda: 1000.0)
        ben = self.enter(shared, "ben")
        shared.calling.calls([(ben, "metric 1.0.0.1 2.0.0.1 7"), (ben, "# name 1.0.0.1 K\xc3\xb6ln"),
                              (anna, "metric 1.0.0.1 2.0.0.1 8")])
        shared.undo(anna)
        before = shared.blame("2.0.0.1")
        shared.close()
        again = Shared(str(self.log), workers=2, clock=lambda: 2000.0)
        self.addCleanup(again.close)
        self.assertEqual(tuple(self.enter(again, name) for name in ("ben", "anna", "carl")), (ben, anna, ben + 1))
        self.assertEqual(again.run.network.names.of, {"1.0.0.1": "Köln"})
        self.assertEqual([(each["who"], each["at"], each["line"]) for each in again.blame("2.0.0.1")],
                         [(each["who"], each["at"], each["line"]) for each in before])
        # What anna took back is no edit of hers any more, and that of ben is the last.
        self.assertEqual(again.undo(ben), "undone: metric 1.0.0.1 2.0.0.1 7, by `metric 1.0.0.1 2.0.0.1 1`")
        self.assertRaisesRegex(Mistake, "no command takes away a session", again.undo, anna)
        self.assertEqual(self.ended(again), "ok 8")

    def test_without_its_notes_a_log_has_numbers_for_names(self):
        shared, _ = self.shared(*TWO, workers=1)
        shared.close()
        (self.folder / "net.log.seats").unlink()
        again, anna = self.shared(workers=1)
        self.assertEqual(anna, 3)
        self.assertEqual([each["who"] for each in again.blame("1.0.0.1")], ["seat 2"] * 3)
        self.assertEqual([each["at"] for each in again.blame("1.0.0.1")], [None] * 3)

    def test_notes_that_are_cut_or_none(self):
        shared, anna = self.shared(*TWO)
        shared.close()
        notes = self.folder / "net.log.seats"
        notes.write_text(notes.read_text() + '{"entry": 4, "at"')
        again, seat = self.shared()
        self.assertEqual(seat, anna)
        again.close()
        notes.write_text(notes.read_text() + "no note\n")
        with self.assertRaises(Mistake) as found:
            Shared(str(self.log))
        expected = "net.log.seats:%d: a note of a log is expected" % notes.read_text().count("\n")
        self.assertIn(expected, str(found.exception))

    def test_notes_of_what_was_cut_off_go(self):
        """Another edit will have the number of that entry."""
        shared, anna = self.shared(*TWO, "metric 1.0.0.1 2.0.0.1 7")
        shared.undo(anna)
        shared.close()
        notes = self.folder / "net.log.seats"
        self.assertIn('"entry": 6, "at"', notes.read_text())
        self.log.write_text(self.log.read_text()[:-1])
        self.shared()[0].close()
        self.assertIn('"entry": 5, "at"', notes.read_text())
        self.assertNotIn('"entry": 6', notes.read_text())

    def test_two_cannot_have_one_log(self):
        self.shared()
        self.assertRaisesRegex(Mistake, "the log of a `share` that still runs", Shared, str(self.log))
        self.assertRaisesRegex(Mistake, "it is there already", Shared, str(self.log), is_new=True)

    def test_the_log_of_a_team(self):
        self.log.write_bytes((TOP / "examples" / "team" / "two-networks-once.log").read_bytes())
        shared, anna = self.shared()
        self.assertEqual(self.said(shared, anna, "best 5.0.0.3 10.0.0.0/8")[0][:26], "10.0.0.0/8 from 5.0.0.1 pa")
        self.assertEqual(self.ended(shared), "ok 20")


class Seated(Held):
    def test_a_name_has_one_seat(self):
        shared, anna = self.shared(workers=2)
        self.assertEqual((anna, self.enter(shared, "ben"), self.enter(shared, "anna")), (3, 4, 3))
        for name in ("two words", "the script", "worker 1", "x" * 33, "a\x1b[2J", "a\u202e"):
            with self.subTest(name=name):
                self.assertRaisesRegex(Mistake, "a name is 1 to 32 characters without a space", shared.enter, name)

    def test_a_log_has_256_seats(self):
        shared, _ = self.shared()
        for number in range(254):
            self.enter(shared, "p%d" % number)
        self.assertRaisesRegex(Mistake, "no seat is left for one", shared.enter, "one")
        self.assertEqual((self.enter(shared, "p253"), self.enter(shared, "anna")), (255, 1))
        self.said(shared, 255, "quiet")
        self.assertEqual(self.ended(shared), "ok 1")


class Undone(Held):
    def undone(self, lines, *more):
        """What undo tells a person who gives the last of these lines, and what the program then says to more."""
        shared, anna = self.shared(*lines[:-1])
        ben = self.enter(shared, "ben")
        self.assertEqual(self.said(shared, ben, lines[-1]), ["ok"])
        try:
            told = shared.undo(ben)
        except Mistake as mistake:
            told = str(mistake)
        replies = [self.said(shared, anna, line) for line in more]
        self.assertRegex(self.ended(shared), "^ok ")
        self.log.unlink()
        (self.folder / "net.log.seats").unlink()
        return told, replies

    def test_edits_with_an_exact_way_back(self):
        """What the program says then is what it says where the edit was never made."""
        inside = ("router 1.0.0.1 1", "router 1.0.0.2 1", "link 1.0.0.1 1.0.0.2 5", "join 1.0.0.1 1.0.0.2")
        fed = (*PEER, "feed 7.0.0.1 1.0.0.1 update 10.0.0.0/8 7 igp -")
        rule = "rule 1.0.0.1 7.0.0.1 in any permit pref=5"
        for lines, back, question in (
                ((*inside, "metric 1.0.0.1 1.0.0.2 9"), "metric 1.0.0.1 1.0.0.2 5", "cost 1.0.0.1 1.0.0.2"),
                ((*inside, "fail 1.0.0.2 1.0.0.1"), "mend 1.0.0.2 1.0.0.1", "cost 1.0.0.1 1.0.0.2"),
                ((*inside, "fail 1.0.0.1 1.0.0.2", "mend 1.0.0.1 1.0.0.2"), "fail 1.0.0.1 1.0.0.2",
                 "cost 1.0.0.1 1.0.0.2"),
                ((*inside, "client 1.0.0.1 1.0.0.2 on"), "client 1.0.0.1 1.0.0.2 off", "quiet"),
                ((*inside, "self 1.0.0.1 1.0.0.2 on", "self 1.0.0.1 1.0.0.2 off"), "self 1.0.0.1 1.0.0.2 on", "quiet"),
                ((*inside, "cluster 1.0.0.1 9.9.9.9"), "cluster 1.0.0.1 1.0.0.1", "quiet"),
                ((*inside, "med 1.0.0.1 always"), "med 1.0.0.1 as", "quiet"),
                ((*inside, "origin 1.0.0.1 10.0.0.0/8"), "noorigin 1.0.0.1 10.0.0.0/8", "best 1.0.0.1 10.0.0.0/8"),
                ((*PEER, "stop 1.0.0.1 7.0.0.1", "start 1.0.0.1 7.0.0.1"), "stop 1.0.0.1 7.0.0.1",
                 "queue 7.0.0.1 1.0.0.1"),
                # What was fed was gone before.
                ((*fed, "stop 1.0.0.1 7.0.0.1", "start 1.0.0.1 7.0.0.1", "stop 7.0.0.1 1.0.0.1"),
                 "start 7.0.0.1 1.0.0.1", "quiet"),
                ((*PEER, rule), "clear 1.0.0.1 7.0.0.1 in", "quiet"),
                ((*fed, "feed 7.0.0.1 1.0.0.1 withdraw 10.0.0.0/8"), fed[-1], None),
                (fed, "feed 7.0.0.1 1.0.0.1 withdraw 10.0.0.0/8", None),
                ((*fed, "feed 7.0.0.1 1.0.0.1 update 10.0.0.0/8 7,9 egp 5"), fed[-1], None)):
            with self.subTest(line=lines[-1]):
                more, count = ["best 1.0.0.1 10.0.0.0/8"], len(lines) - 5
                if question is None:
                    # All that was fed is taken: with what undo fed, and with what stands before.
                    self.assertEqual(self.undone(lines, *TAKES * (count + 2), *more)[1][-1],
                                     program("\n".join([*lines[:-1], *TAKES * count, *more]) + "\n")[-1:])
                told, replies = self.undone(lines, question or "quiet")
                self.assertEqual(told, "undone: %s, by `%s`" % (lines[-1], back))
                if question:
                    self.assertEqual(replies[0], program("\n".join([*lines[:-1], question]) + "\n")[len(lines) - 1:])

    def test_edits_with_none(self):
        rule = "rule 1.0.0.1 7.0.0.1 in any permit pref=5"
        fed = (*PEER, "feed 7.0.0.1 1.0.0.1 update 10.0.0.0/8 7 igp -")
        gone = "what the virtual peer told is gone with the session: "
        for lines, why in (
                (PEER[:1], "no command takes away a router"), (PEER[:2], "no command takes away a virtual peer"),
                (PEER[:3], "no command takes away a link; `fail 1.0.0.1 7.0.0.1` takes it down"),
                (PEER, "no command takes away a session; `stop 1.0.0.1 7.0.0.1` disables it"),
                ((*PEER, rule, rule), "no command takes away one rule, and without the 1 before it"),
                ((*PEER, rule, "clear 1.0.0.1 7.0.0.1 in"), "the 1 rules of the policy would come back one by one"),
                ((*fed, "stop 1.0.0.1 7.0.0.1"), gone + "`start 1.0.0.1 7.0.0.1`"),
                ((*fed, "fail 7.0.0.1 1.0.0.1"), gone + "`mend 7.0.0.1 1.0.0.1`")):
            with self.subTest(line=lines[-1]):
                told, _ = self.undone(lines)
                self.assertTrue(told.startswith("`%s` cannot be undone exactly: %s" % (lines[-1], why)), told)

    def test_an_edit_that_changed_nothing(self):
        for line in ("mend 1.0.0.1 7.0.0.1", "start 1.0.0.1 7.0.0.1", "clear 1.0.0.1 7.0.0.1 in", "med 1.0.0.1 as",
                     "metric 1.0.0.1 7.0.0.1 1", "feed 7.0.0.1 1.0.0.1 withdraw 10.0.0.0/8", "cluster 1.0.0.1 1.0.0.1"):
            with self.subTest(line=line):
                self.assertEqual(self.undone((*PEER, line))[0], "undone: %s, which changed nothing" % line)

    def test_not_where_another_edit_of_the_same_came_since(self):
        shared, anna = self.shared(*PEER)
        ben = self.enter(shared, "ben")
        for line, other in (("metric 1.0.0.1 7.0.0.1 5", "metric 7.0.0.1 1.0.0.1 6"),
                            ("rule 1.0.0.1 7.0.0.1 in any deny", "rule 1.0.0.1 7.0.0.1 in any permit"),
                            ("fail 1.0.0.1 7.0.0.1", "mend 1.0.0.1 7.0.0.1"),
                            ("start 1.0.0.1 7.0.0.1", "feed 7.0.0.1 1.0.0.1 update 10.0.0.0/8 7 igp -")):
            with self.subTest(line=line):
                if line.startswith("start"):
                    self.said(shared, anna, "stop 1.0.0.1 7.0.0.1")
                replies = [self.said(shared, ben, line), self.said(shared, anna, other)]
                self.assertEqual(replies, [["ok"], ["ok"]])
                why = "`%s` cannot be undone exactly: `%s` of anna came since" % (line, other)
                self.assertRaisesRegex(Mistake, why, shared.undo, ben)
        # But an edit of something else is nothing to it.
        self.said(shared, ben, "origin 1.0.0.1 20.0.0.0/8")
        self.said(shared, anna, "origin 1.0.0.1 30.0.0.0/8")
        self.assertEqual(shared.undo(ben), "undone: origin 1.0.0.1 20.0.0.0/8, by `noorigin 1.0.0.1 20.0.0.0/8`")

    def test_one_after_another(self):
        shared, anna = self.shared(*TWO)
        ben = self.enter(shared, "ben")
        for metric in (5, 6, 7):
            self.said(shared, ben, "metric 1.0.0.1 2.0.0.1 %d" % metric)
        self.said(shared, anna, "origin 1.0.0.1 10.0.0.0/8")
        self.assertEqual([shared.undo(ben).split("`")[1] for _ in range(3)],
                         ["metric 1.0.0.1 2.0.0.1 %d" % metric for metric in (6, 5, 1)])
        self.assertRaisesRegex(Mistake, "there is nothing of yours to undo", shared.undo, ben)
        self.assertEqual(self.said(shared, anna, "cost 1.0.0.1 2.0.0.1"), ["1 via 2.0.0.1"])
        self.assertEqual(shared.undo(anna)[:7], "undone:")


class Blamed(Held):
    def test_who_edited_what_about_a_router_and_when(self):
        times = iter(range(100, 1000))
        shared, _ = self.shared(*TWO, clock=lambda: next(times))
        ben = self.enter(shared, "ben")
        lines = ("metric 2.0.0.1 1.0.0.1 5", "origin 2.0.0.1 20.0.0.0/8", "routes 2.0.0.1", "fail 1.0.0.1 9.0.0.1",
                 "cluster 2.0.0.1 1.0.0.1")
        shared.calling.calls((ben, line) for line in lines)
        found = shared.blame("1.0.0.1")
        self.assertEqual([(each["who"], each["line"]) for each in found], [
            ("anna", TWO[0]), ("anna", TWO[2]), ("anna", TWO[3]), ("ben", "metric 2.0.0.1 1.0.0.1 5")])
        self.assertEqual([each["step"] for each in found], [1, 3, 4, 5])
        self.assertTrue(all(100 <= each["at"] < 1000 for each in found))
        self.assertEqual((shared.blame("1.0.0.1", 1), shared.blame("1.0.0.1", 9)), (found[-1:], found))
        self.assertRaisesRegex(Mistake, "there is no router or virtual peer 9.0.0.1", shared.blame, "9.0.0.1")


class Working(Held):
    def test_each_queue_gives_one_in_turn_and_each_router_has_its_worker(self):
        """1.0.0.1 has three messages for 2.0.0.1, and 2.0.0.2 three for 1.0.0.1: none waits for the other's last."""
        lines = (*TWO, "router 2.0.0.2 3", "link 1.0.0.1 2.0.0.2 1", "join 1.0.0.1 2.0.0.2",
                 "rule 1.0.0.1 2.0.0.1 out path 3 deny", "rule 1.0.0.1 2.0.0.2 out any deny")
        shared, _ = self.shared(*lines, *("origin %s %d.0.0.0/8" % (router, number) for number in (20, 30, 40)
                                          for router in ("1.0.0.1", "2.0.0.2")), workers=2)
        self.converged(shared)
        self.assertTrue(shared.program.is_quiet())
        self.assertEqual(self.ended(shared), "ok 21")
        taken = re.findall(r"@([0-9]+) deliver (\S+) (\S+)\n", self.log.read_text())
        # The order of queues is that of their addresses; worker 1 has the even receivers, and worker 2 the odd ones.
        self.assertEqual(taken, [("2", "1.0.0.1", "2.0.0.1"), ("2", "2.0.0.2", "1.0.0.1")] * 3)

    def test_nothing_but_deliveries_that_took_is_theirs(self):
        shared, _ = self.shared(workers=3)
        shared.play(lines_of(THREE.read_bytes(), "three"))
        self.converged(shared)
        self.assertRegex(self.ended(shared), "^ok ")
        theirs = re.findall(r"@([123]) (\S+) [^\n]*\n= (\S+)", self.log.read_text())
        self.assertTrue(theirs)
        self.assertEqual({(word, reply) for _, word, reply in theirs}, {("deliver", "took")})

    def test_pause_step_and_go(self):
        shared, anna = self.shared(*TWO, "origin 1.0.0.1 10.0.0.0/8", "origin 1.0.0.1 20.0.0.0/8",
                                   "origin 2.0.0.1 30.0.0.0/8", workers=1)
        shared.deliveries.pause(anna)
        self.assertIsNone(shared.deliveries.due(0.0))
        self.assertEqual((shared.deliveries.work(0.0), shared.program.is_quiet()), (0, False))
        self.assertEqual([each.line for each in shared.deliveries.steps(anna, 2)],
                         ["deliver 1.0.0.1 2.0.0.1", "deliver 2.0.0.1 1.0.0.1"])
        self.assertEqual((shared.program.waiting(), shared.program.is_quiet()), ([("1.0.0.1", "2.0.0.1")], False))
        shared.deliveries.go(anna)
        self.converged(shared)
        by_hand = shared.deliveries
        self.assertEqual((shared.program.is_quiet(), by_hand.steps(anna, 1), by_hand.next(anna)), (True, [], None))
        self.assertEqual([event["text"] for event in shared.happening.taken() if event["event"] == "workers"], [
            "anna pauses the workers", "anna lets the workers deliver 2, and pauses them", "anna lets the workers go",
            "anna lets the workers deliver 0, and pauses them"])

    def test_by_hand_where_there_are_no_workers(self):
        shared, anna = self.shared(*TWO, "origin 1.0.0.1 10.0.0.0/8")
        self.assertIsNone(shared.deliveries.due(0.0))
        for word in (shared.deliveries.pause, shared.deliveries.go, lambda seat: shared.deliveries.steps(seat, 1),
                     lambda seat: shared.deliveries.pace(seat, 5)):
            self.assertRaisesRegex(Mistake, "there are no workers", word, anna)
        entry = shared.deliveries.next(anna)
        self.assertEqual((entry.seat, entry.line, entry.reply),
                         (anna, "deliver 1.0.0.1 2.0.0.1", ["took 10.0.0.0/8 update"]))
        self.assertIsNone(shared.deliveries.next(anna))

    def test_a_pace(self):
        """Ten a second: one each tenth of a second, and after a pause not all that were missed at once."""
        workers = Workers([1])
        self.assertEqual((workers.room(5.0, 32), workers.due(5.0)), (32, 0))
        workers.pace = 10.0
        taken = []
        for now in (100.0, 100.05, 100.1, 100.15, 100.2, 107.0, 107.05, 107.1):
            room = workers.room(now, 32)
            workers.spent(room)
            taken.append(room)
        self.assertEqual(taken, [1, 0, 1, 0, 1, 1, 0, 1])
        self.assertAlmostEqual(workers.due(107.14), 0.06)

    def test_workers_pause_where_it_never_is_quiet(self):
        lines = (TOP / "examples" / "lessons" / "med-oscillation.bgp").read_text().split("\n")
        end = next(number for number, line in enumerate(lines) if line.startswith("rule"))
        shared, _ = self.shared(workers=2, most=300)
        endless = "\n".join(line for line in lines[:end] if not line.startswith("deliver"))
        shared.play(lines_of(endless.encode(), "endless"))
        self.converged(shared)
        self.assertFalse(shared.workers.is_going)
        told = [event["text"] for event in shared.happening.taken() if event["event"] == "workers"]
        self.assertRegex(told[-1], "the workers pause: after 3[0-9][0-9] deliveries without an edit it is not quiet")
        self.assertRegex(self.ended(shared), "^ok ")


class Limits(Held):
    def test_a_run_that_has_read_its_lines_is_followed_by_another(self):
        with unittest.mock.patch.object(line_count, "MOST_LINES", 40):
            shared, anna = self.shared(*TWO)
            for _ in range(10):
                answers = shared.calling.calls([(anna, "cost 1.0.0.1 2.0.0.1")] * 17)
                self.assertEqual([answer.reply for answer in answers], [["1 via 2.0.0.1"]] * 17)
            self.assertGreater(shared.run.program.count_of_all, 170 + 4)
        self.assertEqual(self.ended(shared), "ok 174")

    def test_a_network_that_holds_no_more(self):
        """Of 100 lines of a run 99 can be changes; then questions alone are answered, and workers deliver nothing."""
        with unittest.mock.patch.object(line_count, "MOST_LINES", 100), contextlib.redirect_stderr(io.StringIO()) as told:
            shared, anna = self.shared(*TWO, workers=1)
            shared.deliveries.pause(anna)
            answers = [shared.calling.calls([(anna, "metric 1.0.0.1 2.0.0.1 %d" % number)])[0]
                       for number in range(1, 98)]
            self.assertEqual([answer.error[:19] for answer in answers], [""] * 95 + ["99 lines have been "] * 2)
            for word in (shared.deliveries.go, shared.deliveries.next):
                self.assertRaisesRegex(Mistake, "99 lines have been made", word, anna)
            self.assertIsNone(shared.deliveries.due(0.0))
            replies = [self.said(shared, anna, "cost 1.0.0.1 2.0.0.1") for _ in range(4)]
            self.assertEqual(replies, [["95 via 2.0.0.1"]] * 4)
        self.assertIn("of the 100 lines are used", told.getvalue())
        self.assertEqual(self.ended(shared), "ok 103")

    def test_near_its_end_a_log_has_changes_alone(self):
        lines = ("quiet", "metric 1.0.0.1 2.0.0.1 %d", "mend 1.0.0.1 9.0.0.1")
        with unittest.mock.patch.object(log, "MOST_LINES", 100), \
                unittest.mock.patch.object(ledger, "RESERVE", 60):
            shared, anna = self.shared(*TWO)
            for number in range(1, 20):
                shared.calling.calls((anna, line % number if "%" in line else line) for line in lines)
        text = self.log.read_text()
        # Nine lines, and then six for each number until 39 are there; two for each from then on.
        self.assertEqual([text.count(word) for word in (" quiet\n", " mend ", " metric ")], [5, 5, 19])
        told = [event["text"] for event in shared.happening.taken() if event["event"] == "told"]
        self.assertEqual(told, ["the log has 39 lines: from here on changes alone stand in it"])
        self.assertEqual(self.ended(shared), "ok 33")

    def test_a_program_that_ends_is_run_anew(self):
        """What was given with the line that ended it is not done, and is told so; all that was answered is there."""
        path, here = self.file("dies", ""), self.file("here", "metric")
        path.write_text(DIES % (sys.executable, str(TOOLBOX), location.program(), str(here)))
        path.chmod(0o755)
        with unittest.mock.patch.dict(os.environ, {"PROGRAM": str(path)}):
            shared, anna = self.shared(*TWO, "origin 1.0.0.1 10.0.0.0/8", workers=1)
            answers = shared.calling.calls([(anna, "origin 1.0.0.1 20.0.0.0/8"), (anna, "metric 1.0.0.1 2.0.0.1 9")])
            self.assertEqual([answer.reply for answer in answers], [[], []])
            for answer in answers:
                self.assertRegex(answer.error, "dies: the program ended before it had answered, with status 7; it is")
            lines = ("best 1.0.0.1 20.0.0.0/8", "metric 1.0.0.1 2.0.0.1 9", "cost 1.0.0.1 2.0.0.1")
            answers = shared.calling.calls((anna, line) for line in lines)
            self.assertEqual([answer.reply for answer in answers], [["none"], ["ok"], ["9 via 2.0.0.1"]])
            shared.happening.taken()
            # So it is where workers lose it: at a delivery, and at the question that comes behind it.
            for word in ("deliver", "quiet"):
                here.write_text(word)
                self.converged(shared)
                told = [event["text"] for event in shared.happening.taken() if event["event"] == "workers"]
                self.assertRegex(told[-1], "^the workers pause: .*dies: the program ended before it had answered, ")
                shared.deliveries.go(anna)
            self.converged(shared)
            self.assertEqual(self.said(shared, anna, "best 2.0.0.1 10.0.0.0/8")[0][:24], "10.0.0.0/8 from 1.0.0.1 ")
            self.assertEqual(self.said(shared, anna, "origin 1.0.0.1 30.0.0.0/8"), ["ok"])
            # Where memory is refused the message stays, and nothing is in the log.
            here.write_text("memory")
            self.converged(shared)
            why = "deliver 1.0.0.1 2.0.0.1: refused 20 memory: memory was refused"
            told = [event["text"] for event in shared.happening.taken() if event["event"] == "workers"]
            self.assertEqual(told[-1], "the workers pause: " + why)
            self.assertRaisesRegex(Mistake, why, shared.deliveries.next, anna)
            self.assertEqual(shared.program.waiting(), [("1.0.0.1", "2.0.0.1")])
            here.write_text("quiet")
            path.chmod(0)
            # Where it cannot be run at all, it is tried again at the next request, but not at once.
            why = "with status 7; and it cannot be run anew: .*Permission denied; the next request tries again"
            self.assertRegex(shared.calling.calls([(anna, "quiet")])[0].error, why)
            path.chmod(0o755)
            self.assertRaisesRegex(Lost, why, shared.program.is_quiet)
            shared.program.clock = lambda: shared.program.again_at
            self.assertEqual(self.said(shared, anna, "best 1.0.0.1 30.0.0.0/8")[0][:24], "30.0.0.0/8 from self pat")
        self.assertEqual(self.ended(shared), "ok 12")
