"""A shared network in which an error comes up that nobody expects: it is again as its log has it, and answers go on."""
import errno
import inspect
import os
import pathlib
import shutil
import sys
import unittest.mock

import pytest

import bgptools
from bgptools.program.mistakes import Mistake
from bgptools.session import shared_network as shared_module
from bgptools.session.log import Unkept, text_of
from bgptools.session.persistent_run import Lost
from bgptools.session.recovery import Interrupted
from bgptools.session.shared_network import Shared
from held import TWO, Held

PACKAGE = str(pathlib.Path(bgptools.__file__).parent) + os.sep
# The modules in whose lines errors come up; with ALL_LINES=1 in all of these, else in some.
MODULES = frozenset(name + ".py" for name in (
    "session/shared_network", "program/process", "program/line_count", "session/persistent_run",
    "session/commands", "session/deliveries", "session/ledger", "session/meter", "session/notes",
    "session/log", "session/seats", "session/restore", "session/proposals", "session/history",
    "session/events", "session/workers", "session/private_file"))
SOME = 1 if os.environ.get("ALL_LINES") else 8
BASE = (*TWO, "virtual 7.0.0.1 7", "link 1.0.0.1 7.0.0.1 1", "join 1.0.0.1 7.0.0.1", "origin 1.0.0.1 10.0.0.0/8",
        "feed 7.0.0.1 1.0.0.1 update 30.0.0.0/8 7 igp - comm=4294967041")


class Fault:
    """Raises MemoryError in the midst of work: at the nth time that a line of the package is come to, once."""

    def __init__(self, place=None, times=1):
        self.place, self.times = place, times
        self.seen, self.is_raised = [], False

    def during(self, work):
        """Does the work."""
        sys.settrace(self._call)
        try:
            work()
        finally:
            sys.settrace(None)

    def _call(self, frame, _, __):
        return self._line if frame.f_code.co_filename.startswith(PACKAGE) else None

    def _line(self, frame, event, _):
        if event == "line":
            place = frame.f_code.co_filename[len(PACKAGE):], frame.f_lineno
            self.seen.append(place)
            if place == self.place and self.seen.count(place) == self.times:
                self.is_raised = True
                sys.settrace(None)
                raise MemoryError
        return self._line


class Works:
    """What people do, again and again: each is prepared, and then done with a number that makes it another one."""

    def __init__(self, test):
        self.test, self.number = test, 0

    def edit(self, shared):
        """An edit."""
        yield
        shared.calling.calls([(1, "metric 1.0.0.1 2.0.0.1 %d" % self.number)])

    def several(self, shared):
        """Lines of two people at once."""
        yield
        shared.calling.calls([(1, "fail 1.0.0.1 2.0.0.1"), (2, "out 1.0.0.1 2.0.0.1"), (1, "mend 1.0.0.1 9.0.0.1"),
                              (2, "mend 1.0.0.1 2.0.0.1"), (1, "nonsense")])

    def name(self, shared):
        """A router is named."""
        yield
        shared.calling.calls([(2, "# name 1.0.0.1 r%d" % self.number)])

    def undo(self, shared):
        """An edit is taken back."""
        shared.calling.calls([(1, "med 1.0.0.1 always"), (1, "metric 1.0.0.1 2.0.0.1 %d" % (self.number + 30000))])
        yield
        shared.undo(1)

    def undo_nothing(self, shared):
        """An edit that changed nothing is taken back."""
        shared.calling.calls([(2, "start 1.0.0.1 2.0.0.1")])
        yield
        shared.undo(2)

    def propose(self, shared):
        """A change is proposed and shown, and taken away."""
        yield
        proposals = shared.proposals
        made = proposals.propose(1, "a change", ["origin 2.0.0.1 20.0.0.0/8"])
        proposals.shown(made, len(shared.ledger.history.edits), "what it does")
        proposals.decline(2, made.number)

    def accept(self, shared):
        """A proposal is accepted."""
        proposals = shared.proposals
        for number in list(proposals.open):
            proposals.decline(2, number)
        made = proposals.propose(1, "a change", ["med 1.0.0.1 always", "med 1.0.0.1 as"])
        proposals.shown(made, len(shared.ledger.history.edits), "what it does")
        yield
        proposals.accept(2, made.number, made.edits)

    def enter(self, shared):
        """Somebody comes for the first time, and goes."""
        if "new" in shared.ledger.seats.numbers and shared.ledger.seats.numbers["new"] in shared.ledger.seats.digests:
            shared.free("new")
        yield
        seat = shared.enter("new").seat
        shared.leave(seat)

    def deliver(self, shared):
        """A message is delivered by hand."""
        self._send(shared)
        yield
        shared.deliveries.next(1)

    def work(self, shared):
        """Workers deliver."""
        self._send(shared)
        shared.deliveries.go(1)
        yield
        shared.deliveries.work(0.0)

    def steps(self, shared):
        """Workers deliver some, are paused and let go."""
        self._send(shared)
        yield
        shared.deliveries.steps(2, 3)
        shared.deliveries.pace(1, 5)
        shared.deliveries.go(1)
        shared.deliveries.pause(1)

    def _send(self, shared):
        shared.calling.calls([(1, "noorigin 1.0.0.1 10.0.0.0/8"), (1, "origin 1.0.0.1 10.0.0.0/8")])


def all_of(shared):
    """All that can be asked of a shared network and stands in its log."""
    who = shared.who()
    people = [(each["seat"], each["name"], each["calls"]) for each in who["people"]]
    nodes, ledger = shared.run.network.nodes, shared.ledger
    history = ledger.history
    routers = [shared.program.ask(["routes " + router])[0] for router in shared.run.network.routers()]
    undone = {seat: [(edit.entry, edit.line, edit.back, edit.why, edit.at, edit.by) for edit in edits]
              for seat, edits in history.own.items() if edits}
    since = {seat: getattr(history.since(edits[-1]), "entry", None) for seat, edits in history.own.items() if edits}
    return {"people": people, "workers": (who["workers"]["count"], who["workers"]["calls"]), "quiet": who["quiet"],
            "step": (who["step"], ledger.step), "calls": (who["calls"], ledger.entries, shared.log.count),
            "lines": list(shared.run.lines), "blame": {router: shared.blame(router) for router in nodes},
            "log": pathlib.Path(shared.log.path).read_bytes(), "size": (shared.log.size, shared.log.lines),
            "waiting": shared.program.waiting(), "routes": routers, "undone": undone, "since": since,
            "names": dict(shared.run.network.names.of), "tokens": dict(ledger.seats.digests), "fed": history.fed}


class Interrupts(Held):
    def begun(self):
        """A network of two people and two workers."""
        made, _ = self.shared(*BASE, clock=lambda: 1000.0, workers=2)
        self.enter(made, "ben")
        made.deliveries.pause(3)
        return made

    def afresh(self, shared):
        """All that can be asked of what is opened on a copy of its log."""
        copy = str(self.folder / "copy.log")
        for end in ("", ".seats"):
            shutil.copy(str(self.log) + end, copy + end)
        opened = Shared(copy, workers=2)
        try:
            return all_of(opened)
        finally:
            opened.close()

    def check(self, shared, before, told):
        """It is as one that is opened afresh. What was told are the steps behind those before, each once."""
        self.assertEqual(all_of(shared), self.afresh(shared))
        changes = [each["step"] for event in told if event["event"] == "changes" for each in event["changes"]]
        self.assertEqual(changes, list(range(before + 1, shared.ledger.step + 1)))

    @pytest.mark.long
    def test_an_error_at_any_line_of_any_work(self):
        """Errors that come at the first and the last time that a line is come to leave what the log has."""
        names = [name for name in vars(Works) if not name.startswith("_")]
        self.assertEqual(len(names), 11)
        for first, name in enumerate(names):
            with self.subTest(work=name):
                self.tried(name, first % SOME)
            self.log.unlink()
            (self.folder / "net.log.seats").unlink()

    def tried(self, name, first):
        """Does a work without an error, and then with an error at each place."""
        shared, works, clean = self.begun(), Works(self), Fault()
        self.done(shared, works, name, clean)
        places = [(place, times) for place in dict.fromkeys(clean.seen) if place[0] in MODULES
                  for times in sorted({1, clean.seen.count(place)})][first::SOME]
        raised = 0
        for place, times in places:
            with self.subTest(place=place, times=times):
                fault = Fault(place, times)
                self.done(shared, works, name, fault)
                raised += fault.is_raised
        self.assertGreater(raised, 0.6 * len(places))
        self.assertRegex(self.ended(shared), "^ok ")

    def done(self, shared, works, name, fault):
        """Does a work with a fault, and checks what is left."""
        works.number += 1
        work = getattr(works, name)(shared)
        next(work)
        shared.happening.taken()
        count, step, here = shared.log.count, shared.ledger.step, shared.here.copy()

        def within():
            with shared.guarded():
                next(work, None)
        found = None
        try:
            fault.during(within)
        except Interrupted as interrupted:
            found = interrupted
            self.assertTrue(str(found).startswith("an error came up (MemoryError): "), found)
        except MemoryError:
            # So it is where the request had not begun.
            self.assertIn(fault.place[0], ["session/%s.py" % name for name in (
                "shared_network", "recovery", "events", "deliveries", "ledger")])
            self.assertEqual((shared.log.count, shared.ledger.step), (count, step))
        if found is not None:
            self.assertEqual((found.first, found.last), (count + 1, shared.log.count))
            self.assertTrue(self.log.read_bytes().endswith(text_of(found.entries)))
            self.assertEqual(len(found.entries), shared.log.count - count)
            self.assertEqual("was not done" in str(found), (shared.log.count, shared.ledger.step) == (count, step))
            self.assertEqual(shared.here, here)
        self.check(shared, step, shared.happening.taken())


class Recoveries(Held):
    def test_what_stands_in_no_log_is_kept(self):
        """Who is here, what is proposed, and what the workers do."""
        shared, anna = self.shared(*TWO, "origin 1.0.0.1 10.0.0.0/8", workers=2)
        ben = self.enter(shared, "ben")
        made = shared.proposals.propose(ben, "a change", ["metric 1.0.0.1 2.0.0.1 5"])
        shared.proposals.shown(made, 5, "what it does")
        shared.deliveries.pace(anna, 7.5)
        shared.deliveries.pause(anna)
        before = shared.who()
        written = shared.ledger.written(anna)
        old = shared.run.program.process.pid
        found = shared.recover("a reason")
        self.assertEqual((found.calls_before, found.calls, found.entries), (5, 5, []))
        self.assertEqual(shared.who(), before)
        self.assertGreater(written, 0)
        self.assertEqual(shared.ledger.written(anna), written)
        self.assertNotEqual(shared.run.program.process.pid, old)
        told = [event["text"] for event in shared.happening.taken() if event["event"] == "told"]
        self.assertEqual(told, ["an error came up (a reason); it is run anew with what stands in the log"])
        self.assertIn("1 command made", shared.proposals.accept(anna, made.number, 5))
        self.assertEqual(self.ended(shared), "ok 6")

    def test_a_proposal_of_which_a_part_was_made_goes(self):
        shared, anna = self.shared(*TWO)
        ben = self.enter(shared, "ben")
        lines = ["metric 1.0.0.1 2.0.0.1 %d" % number for number in (5, 6, 7)]
        made = shared.proposals.propose(ben, "a change", lines)
        shared.proposals.shown(made, 4, "what it does")
        shared.happening.taken()
        real = shared.calling.call

        def call(seat, line, *more):
            if line == lines[2]:
                raise RecursionError("too deep")
            return real(seat, line, *more)
        with self.assertRaises(Interrupted) as found, shared.guarded():
            with unittest.mock.patch.object(shared.calling, "call", call):
                shared.proposals.accept(anna, made.number)
        why = "an error came up (RecursionError: too deep): what the calls 5 to 6 say was done and stands in the " \
              "log, and nothing else of the request"
        self.assertEqual(str(found.exception), why)
        self.assertEqual([each.line for each in found.exception.entries], lines[:2])
        self.assertEqual(shared.proposals.open, {})
        told = shared.happening.taken()
        self.assertEqual([event["text"] for event in told if event.get("closes") == made.number],
                         ["proposal 1 goes: an error came up when it was made, and calls 5 to 6 were done"])
        changes = [each for event in told if event["event"] == "changes" for each in event["changes"]]
        self.assertEqual([(each["step"], each["who"], each["line"]) for each in changes],
                         [(5, "ben", lines[0]), (6, "ben", lines[1])])

    def test_workers_in_whose_work_an_error_comes_up_pause(self):
        shared, anna = self.shared(*TWO, "origin 1.0.0.1 10.0.0.0/8", workers=1)
        shared.happening.taken()
        with self.assertRaisesRegex(Interrupted, "the request was not done"), shared.guarded():
            with unittest.mock.patch.object(shared.ledger, "keep", side_effect=MemoryError):
                shared.deliveries.work(0.0)
        self.assertFalse(shared.workers.is_going)
        told = [event["text"] for event in shared.happening.taken() if event["event"] == "workers"]
        self.assertEqual(told, ["the workers pause: an error came up (MemoryError)"])
        shared.deliveries.go(anna)
        self.converged(shared)
        self.assertEqual(self.ended(shared), "ok 6")

    def test_who_was_given_no_token_can_enter(self):
        """The error comes up when the token is noted, and nobody has it."""
        shared, _ = self.shared(*TWO)
        with unittest.mock.patch.object(shared.happening, "tell", side_effect=MemoryError):
            self.assertRaisesRegex(Interrupted, "an error came up", shared.enter, "ben")
        self.assertEqual(sum((+shared.here).values()), 1)
        self.assertEqual(shared.enter("ben").name, "ben")

    def test_calls_that_nest_too_deep(self):
        """Where Python ends them, at whatever depth that is, the log has what is there, and the next call is made."""
        shared, anna = self.shared(*TWO)
        limit, depth, endings = sys.getrecursionlimit(), len(inspect.stack(0)), []
        for more in range(6, 40):
            count = shared.log.count
            try:
                with shared.guarded():
                    try:
                        sys.setrecursionlimit(depth + more)
                        shared.calling.calls([(anna, "metric 1.0.0.1 2.0.0.1 %d" % more)])
                    finally:
                        sys.setrecursionlimit(limit)
                endings.append("made")
            except Interrupted as found:
                self.assertRegex(str(found), "RecursionError")
                self.assertEqual((found.first, found.last), (count + 1, shared.log.count))
                endings.append("interrupted")
            self.assertEqual((shared.ledger.entries, shared.ledger.step), (shared.log.count, len(shared.run.lines)))
        self.assertEqual(set(endings), {"made", "interrupted"})
        self.assertRegex(self.ended(shared), "^ok ")

    def test_it_is_tried_again(self):
        shared, anna = self.shared(*TWO)
        real, tries = shared_module.take_up, []

        def take_up(*given, **more):
            tries.append(1)
            if len(tries) < 3:
                raise MemoryError
            return real(*given, **more)
        with unittest.mock.patch.object(shared_module, "take_up", take_up):
            self.assertEqual(shared.recover("a reason").calls, 4)
        self.assertEqual(len(tries), 3)
        self.assertEqual(self.said(shared, anna, "cost 1.0.0.1 2.0.0.1"), ["1 via 2.0.0.1"])

    def test_where_it_cannot_be_done_the_reason_is_told(self):
        shared, _ = self.shared(*TWO)
        before = self.log.read_bytes()
        wanted = "\\(ValueError: odd\\), and the network cannot be made anew from its log: .*Input/output error"
        with self.assertRaisesRegex(Unkept, wanted), shared.guarded():
            shared.log.content = unittest.mock.Mock(side_effect=OSError(errno.EIO, os.strerror(errno.EIO)))
            raise ValueError("odd")
        shared.close()
        self.assertEqual(self.log.read_bytes(), before)
        again, _ = self.shared()
        self.assertEqual(again.ledger.entries, 4)
        again.close()

    def test_a_recovery_without_memory_is_made_later(self):
        """The request is answered by a mistake, and the next one finds the network as its log has it."""
        shared, anna = self.shared(*TWO)
        before, content = self.log.read_bytes(), shared.log.content
        with self.assertRaisesRegex(Mistake, "\\(ValueError: odd\\), and the server is out of memory") as caught:
            with shared.guarded():
                shared.log.content = unittest.mock.Mock(side_effect=MemoryError())
                raise ValueError("odd")
        self.assertNotIsInstance(caught.exception, Unkept)
        self.assertRaisesRegex(Mistake, "out of memory", shared.mend)
        shared.log.content = content
        shared.mend()
        self.assertIsNone(shared.unfinished)
        self.assertEqual((self.log.read_bytes(), shared.ledger.entries), (before, 4))
        self.assertEqual(self.said(shared, anna, "cost 1.0.0.1 2.0.0.1"), ["1 via 2.0.0.1"])

    def test_an_entry_that_was_written_in_part_goes(self):
        """What stands behind the last whole entry is cut off, and the next one stands there."""
        shared, anna = self.shared(*TWO)
        before = self.log.read_bytes()
        real = shared.log.file

        class Part:
            """Writes a part, and then memory is wanting."""

            def write(self, content):
                real.write(content[:-3])
                raise MemoryError
        with self.assertRaisesRegex(Interrupted, "the request was not done"), shared.guarded():
            shared.log.file = Part()
            try:
                shared.calling.calls([(anna, "metric 1.0.0.1 2.0.0.1 5")])
            finally:
                shared.log.file = real
        self.assertEqual(self.log.read_bytes(), before)
        self.said(shared, anna, "metric 1.0.0.1 2.0.0.1 6")
        self.assertEqual(self.ended(shared), "ok 5")

    def test_without_a_program_it_is_recovered_too(self):
        """The next request that needs one says why there is none, and one after that has it."""
        shared, anna = self.shared(*TWO)
        with unittest.mock.patch.dict(os.environ, {"PROGRAM": str(self.folder / "none")}):
            with self.assertRaises(Interrupted), shared.guarded():
                raise MemoryError
            why = "an error came up \\(MemoryError\\); and it cannot be run anew: .*No such file or directory"
            self.assertRaisesRegex(Lost, why, shared.program.is_quiet)
            self.assertEqual(len(shared.blame("1.0.0.1")), 3)
        shared.program.clock = lambda: shared.program.again_at
        self.assertEqual(self.said(shared, anna, "cost 1.0.0.1 2.0.0.1"), ["1 via 2.0.0.1"])
        self.assertEqual(self.ended(shared), "ok 5")

    def test_a_mistake_recovers_nothing(self):
        shared, _ = self.shared(*TWO)
        old = shared.run.program.process.pid
        with self.assertRaisesRegex(Mistake, "nobody has entered"), shared.guarded():
            shared.free("nobody")
        self.assertEqual(shared.run.program.process.pid, old)

    def test_an_error_in_the_midst_of_recovery(self):
        """At some lines of it: it is tried again, and ends as it would have."""
        shared, anna = self.shared(*BASE, workers=1)
        for line in ("# name 1.0.0.1 one", "metric 1.0.0.1 2.0.0.1 5", "# name 2.0.0.1 two"):
            self.said(shared, anna, line)
        shared.deliveries.pause(anna)
        before = all_of(shared)
        clean = Fault()
        clean.during(lambda: shared.recover("a reason"))
        places = [place for place in dict.fromkeys(clean.seen) if place[0] in MODULES]
        for place in places[::SOME]:
            with self.subTest(place=place):
                fault = Fault(place, clean.seen.count(place))
                try:
                    fault.during(lambda: shared.recover("a reason"))
                except MemoryError:
                    # So it is where no try was begun.
                    self.assertEqual(place[0], "session/shared_network.py")
                self.assertTrue(fault.is_raised)
                # Where it came up when the program was run anew, that is tried again after a pause.
                shared.program.clock = lambda: shared.program.again_at
                self.assertEqual(all_of(shared), before)
        self.assertGreater(len(places), 100)
        self.assertRegex(self.ended(shared), "^ok ")
