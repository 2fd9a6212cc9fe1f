"""People on a shared network: tokens, names, proposals; and a program that is killed again and again."""
import contextlib
import hashlib
import os
import signal
import stat
import unittest.mock

from bgptools.program import location
from bgptools.program.mistakes import Mistake
from bgptools.session import persistent_run
from bgptools.session.persistent_run import Lost
from bgptools.session.proposals import Stale
from bgptools.session.shared_network import Shared
from held import TWO, Held


class Tokens(Held):
    def test_a_name_is_entered_with_its_token_alone(self):
        shared, _ = self.shared(*TWO)
        ben = shared.enter("ben")
        self.assertRegex(ben.token, "^[A-Za-z0-9_-]{24}$")
        why = "the name ben is taken: enter with its token, or by another name|a token is"
        for wrong in (None, "", ben.token[:-1], ben.token + "a", self.tokens["anna"], "\ud800", "x" * 10000,
                      "K\u00f6ln"):
            with self.subTest(wrong=str(wrong)[:30].encode("ascii", "backslashreplace")):
                self.assertRaisesRegex(Mistake, why, shared.enter, "ben", wrong)
        again = shared.enter("ben", ben.token)
        self.assertEqual((again.seat, again.token, again.name), (ben.seat, ben.token, "ben"))
        self.assertEqual(shared.here[ben.seat], 2)

    def test_tokens_hold_over_a_start_and_stand_nowhere(self):
        shared, anna = self.shared(*TWO)
        token = self.tokens["anna"]
        shared.close()
        for _ in range(2):
            again = Shared(str(self.log))
            self.assertRaisesRegex(Mistake, "the name anna is taken", again.enter, "anna")
            self.assertEqual(again.enter("anna", token).seat, anna)
            again.close()
        kept = b"".join(each.read_bytes() for each in self.folder.iterdir())
        self.assertNotIn(token.encode(), kept)
        self.assertEqual(kept.count(hashlib.sha256(token.encode()).hexdigest().encode()), 1)

    def test_a_name_that_is_freed_gets_another_token(self):
        shared, anna = self.shared(*TWO)
        old = self.tokens["anna"]
        shared.free("anna")
        self.assertRaisesRegex(Mistake, "nobody has entered by the name anna", shared.free, "anna")
        new = shared.enter("anna", old)
        self.assertEqual(new.seat, anna)
        self.assertNotEqual(new.token, old)
        self.assertRaisesRegex(Mistake, "the name anna is taken", shared.enter, "anna", old)
        shared.close()
        again = Shared(str(self.log))
        self.addCleanup(again.close)
        self.assertRaisesRegex(Mistake, "the name anna is taken", again.enter, "anna", old)
        again.free("anna")
        again.close()
        third = Shared(str(self.log))
        self.addCleanup(third.close)
        self.assertEqual(third.enter("anna").seat, anna)

    def test_nobody_frees_or_enters_by_what_is_no_persons(self):
        shared, _ = self.shared(*TWO, workers=1)
        for name in ("the script", "worker 1", "seat 3", "the\u2800script", "worker\u31641", "worker\u00a01"):
            with self.subTest(name=name.encode("ascii", "backslashreplace")):
                self.assertRaisesRegex(Mistake, "a name is 1 to 32 characters without a space", shared.enter, name)
                self.assertRaisesRegex(Mistake, "nobody has entered by the name", shared.free, name)

    def test_who_gives_no_name_gets_one(self):
        shared, _ = self.shared(*TWO)
        made = [shared.enter(name) for name in (None, "", None)]
        self.assertEqual([each.name for each in made], ["page", "page2", "page3"])
        self.assertEqual(len({each.seat for each in made}), 3)
        # By the token alone the same person comes again.
        self.assertEqual(shared.enter(None, made[1].token), made[1])
        shared.free("page2")
        # It is free when its person has gone.
        self.assertEqual(shared.enter(None).name, "page4")
        for _ in range(2):
            shared.leave(made[1].seat)
        self.assertEqual(shared.enter(None).name, "page2")

    def test_a_name_is_not_changed_where_no_seat_is_left(self):
        shared, _ = self.shared()
        for number in range(254):
            shared.enter("p%d" % number)
        notes = (self.folder / "net.log.seats").read_bytes()
        self.assertRaisesRegex(Mistake, "no seat is left for one: a log has 256", shared.enter, "one")
        self.assertEqual((self.folder / "net.log.seats").read_bytes(), notes)
        self.assertNotIn("one", shared.ledger.seats.numbers)


class Proposed(Held):
    def proposed(self, shared, seat):
        """A proposal that was shown."""
        made = shared.proposals.propose(seat, "a change", ["metric 1.0.0.1 2.0.0.1 5"])
        shared.proposals.shown(made, len(shared.ledger.history.edits), "what it does")
        return made

    def test_it_is_not_accepted_by_who_made_it_under_whatever_name(self):
        """Who comes by another name with the token of the first is the same person."""
        shared, anna = self.shared(*TWO)
        other = shared.enter("other", self.tokens["anna"])
        third = shared.enter("third", other.token)
        ben = self.enter(shared, "ben")
        for maker, own in ((anna, (other.seat, third.seat, anna)), (third.seat, (anna, other.seat))):
            made = self.proposed(shared, maker)
            accept = shared.proposals.accept
            for seat in own:
                self.assertRaisesRegex(Mistake, "is your own: another one accepts it", accept, seat, made.number)
            self.assertIn("1 command made", shared.proposals.accept(ben, made.number))

    def test_who_gets_a_freed_name_is_another_person_from_then_on(self):
        shared, anna = self.shared(*TWO)
        other = shared.enter("other", self.tokens["anna"]).seat
        before = self.proposed(shared, anna)
        shared.free("other")
        after = self.proposed(shared, anna)
        self.assertEqual(shared.enter("other").seat, other)
        self.assertRaisesRegex(Mistake, "is your own", shared.proposals.accept, other, before.number)
        self.assertIn("1 command made", shared.proposals.accept(other, after.number))

    def test_what_was_seen_is_what_is_made(self):
        """Shown anew in between, it is not what the other one saw."""
        shared, anna = self.shared(*TWO)
        ben = self.enter(shared, "ben")
        made = self.proposed(shared, anna)
        seen, accept = shared.happening.taken()[-1], shared.proposals.accept
        self.assertEqual((seen["event"], seen["edits"]), ("proposal", 4))
        self.said(shared, ben, "metric 1.0.0.1 2.0.0.1 3")
        self.assertRaisesRegex(Stale, "the network was edited since", accept, ben, made.number, seen["edits"])
        shared.proposals.shown(made, len(shared.ledger.history.edits), "it does something else")
        self.assertRaisesRegex(Stale, "shown anew since you saw it", accept, ben, made.number, seen["edits"])
        self.assertEqual(self.said(shared, ben, "cost 1.0.0.1 2.0.0.1"), ["3 via 2.0.0.1"])
        seen = shared.happening.taken()[-1]
        self.assertIn("1 command made", accept(ben, made.number, seen["edits"]))

    def test_its_lines_are_those_that_were_proposed(self):
        shared, anna = self.shared(*TWO)
        ben, given = self.enter(shared, "ben"), ["metric 1.0.0.1 2.0.0.1 5"]
        made = shared.proposals.propose(anna, "a change", given)
        given.append("metric 1.0.0.1 2.0.0.1 6")
        shared.proposals.shown(made, 4, "what it does")
        shared.proposals.accept(ben, made.number)
        self.assertEqual(self.said(shared, ben, "cost 1.0.0.1 2.0.0.1"), ["5 via 2.0.0.1"])


class Killed(Held):
    def setUp(self):
        """The program can be killed, and hindered from being run."""
        super().setUp()
        self.path = self.file("program", "#!/bin/sh\nexec %s \"$@\"\n" % location.program())
        self.path.chmod(0o755)
        patched = unittest.mock.patch.dict(os.environ, {"PROGRAM": str(self.path)})
        patched.start()
        self.addCleanup(patched.stop)

    def kill(self, shared):
        """Kills the program, and waits until it has ended."""
        os.kill(shared.run.program.process.pid, signal.SIGKILL)
        shared.run.program.process.wait()

    def test_a_program_that_is_killed_twice_in_a_row(self):
        """The share stays, and says why nothing is answered, until the program can be run again."""
        shared, anna = self.shared(*TWO, "origin 1.0.0.1 10.0.0.0/8", workers=1)
        before = list(shared.run.lines)
        times = [0.0]
        shared.program.clock = lambda: times[0]
        # It is killed when it is run anew.
        self.path.write_text("#!/bin/sh\nkill -9 $$\n")
        self.kill(shared)
        why = "by signal 9, Killed; and it cannot be run anew: .* by signal 9, Killed; the next request tries again"
        for work in (shared.program.is_quiet, shared.program.waiting, lambda: shared.deliveries.next(anna), shared.who,
                     lambda: shared.program.ask(["quiet"])):
            with self.subTest(work=work):
                self.assertRaisesRegex(Lost, why, work)
        self.assertRegex(shared.calling.calls([(anna, "quiet")])[0].error, why)
        self.assertRegex(self.paused(shared), why)
        self.assertEqual(shared.run.lines, before)
        # What needs no program is done.
        self.enter(shared, "ben")
        self.assertEqual(len(shared.blame("1.0.0.1")), 4)
        self.path.write_text("#!/bin/sh\nexec %s \"$@\"\n" % self.real())
        self.assertRaises(Lost, shared.program.is_quiet)
        times[0] += persistent_run.LONGEST_PAUSE
        self.assertEqual(self.said(shared, anna, "best 1.0.0.1 10.0.0.0/8")[0][:24], "10.0.0.0/8 from self pat")
        self.assertEqual(shared.run.lines, before)
        self.assertEqual(self.ended(shared), "ok 6")

    def real(self):
        """The program itself."""
        return self.path_of_real

    def shared(self, *lines, **more):
        self.path_of_real = self.path.read_text().split("exec ")[1].split(" ")[0]
        return super().shared(*lines, **more)

    def paused(self, shared):
        """What is told when workers find that there is no program."""
        shared.deliveries.go(1)
        shared.happening.taken()
        shared.deliveries.work(0.0)
        return [event["text"] for event in shared.happening.taken() if event["event"] == "workers"][-1]

    def test_tries_are_apart(self):
        """Each pause is twice as long as the one before, up to the longest, and no try is made within one."""
        shared, _ = self.shared(*TWO)
        times, tries = [0.0], []
        shared.program.clock = lambda: times[0]
        self.kill(shared)

        def tried(_):
            tries.append(times[0])
            raise Mistake("it is not there")
        with unittest.mock.patch("bgptools.session.persistent_run._given", tried), \
                unittest.mock.patch.multiple(persistent_run, SHORTEST_PAUSE=1.0, LONGEST_PAUSE=8.0):
            for second in range(34):
                times[0] = second
                with self.assertRaises(Lost):
                    shared.program.is_quiet()
        self.assertEqual(tries, [0, 1, 3, 7, 15, 23, 31])
        times[0] += 8
        self.assertTrue(shared.program.is_quiet())

    def test_a_program_for_which_there_is_no_memory(self):
        """Where it cannot be run for another reason than its own, it is tried again as well."""
        shared, _ = self.shared(*TWO)
        self.kill(shared)
        with unittest.mock.patch("bgptools.session.persistent_run._given", side_effect=MemoryError):
            self.assertRaisesRegex(Lost, "and it cannot be run anew: MemoryError; the next", shared.program.is_quiet)
        shared.program.clock = lambda: shared.program.again_at
        self.assertTrue(shared.program.is_quiet())

    def test_a_reply_that_was_not_read(self):
        """What comes next is asked of another program: it would have the reply of the line before."""
        shared, anna = self.shared(*TWO)
        with unittest.mock.patch.object(shared.run.program, "_line", side_effect=KeyboardInterrupt):
            with contextlib.suppress(KeyboardInterrupt):
                shared.program.ask(["cost 1.0.0.1 2.0.0.1"])
        self.assertEqual(shared.program.ask(["quiet"]), [["yes"]])
        self.assertEqual(self.said(shared, anna, "cost 1.0.0.1 2.0.0.1"), ["1 via 2.0.0.1"])
        self.assertEqual(stat.S_IMODE(os.stat(str(self.log)).st_mode), 0o600)
