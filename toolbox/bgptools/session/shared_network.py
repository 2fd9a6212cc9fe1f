"""One network that several work on at once: its run, its log with a seat for each, and the workers that deliver.

There are no sockets and no threads here: `serving` is a server of terminals around it, and a page's server can hold it
as well."""
from __future__ import annotations

import contextlib
import gc
import secrets
import time
import traceback
from collections import Counter
from dataclasses import dataclass
from typing import Any, Callable, Dict, Iterator, List, Optional

from ..convergence.run import Run
from ..network.configuration import Network
from ..program import provenance
from ..program.language import escaped
from ..program.mistakes import Mistake
from ..program.replies import refusal
from ..program.script import Line
from .commands import Commands
from .deliveries import Deliveries
from .events import NOTHING_TOLD, Events
from .history import History
from .ledger import MOST_LOG, Clock, Ledger
from .log import Log, Unkept
from .notes import Notes
from .persistent_run import PersistentRun, described
from .proposals import Proposals
from .recovery import Broken, Interrupted, Kept, Recovered
from .restore import parts, take_up
from .seats import SCRIPT, WORKER, check_name, digest_of
from .workers import Workers

# After an error recovery is tried so often, after so many seconds each.
PAUSES = (0.0, 0.05, 0.2)


@dataclass(frozen=True)
class Entered:
    """Who has come: the seat, the token with which alone the name is entered again, and the name, for who gave none."""
    seat: int
    token: str
    name: str


class Shared:
    """One network, its log, seats, workers and proposals. Whatever is answered stands in the log.

    What it does is in its parts: `program` is what questions are asked, `calling` what makes calls, `deliveries` what
    workers and people deliver, `proposals` what is proposed, `ledger` what was done, `happening` what is to be told.
    A request that may change something is made within `guarded`. The parts are others after an error, so nobody else
    holds them.

    Mistake where the log cannot be opened, is none, or is not what the program answers. `tell` gets a word on what was
    cut off, and where others may read the log. Times in the log's notes are those of `clock`; those that are given to
    deliveries are of another, which goes on evenly. The log and its notes have at most about `most_log` bytes."""

    def __init__(self, path: str, workers: int = 0, is_new: bool = False, most: Optional[int] = None,
                 tell: Callable[[str], None] = lambda _: None, clock: Clock = time.time,
                 most_log: int = MOST_LOG) -> None:
        self.happening = Events(NOTHING_TOLD)
        self.program = PersistentRun(most, self.happening)
        try:
            log = Log(path, is_new, tell)
        except BaseException:
            self.program.close()
            raise
        self.ledger = Ledger(log, Notes(path), self.program.network, self.happening, most_log, clock)
        self.calling = Commands(self.program, self.ledger)
        self.here: "Counter[int]" = Counter()
        # What is kept while a request is made: where it stays, an error came up that was not recovered from.
        self.unfinished: Optional[Kept] = None
        # The seat that somebody enters for the first time just now, whose token he has not yet.
        self.entering: Optional[int] = None
        try:
            notes = self.ledger.notes.read(tell)
            take_up(self.calling, notes, tell)
            self.ledger.note_program(provenance.of(self.program.run.program.path), notes)
            names = [SCRIPT] + [WORKER % (number + 1) for number in range(workers)]
            seats = list(map(self.ledger.seat, names))
        except OSError as error:
            self.close()
            raise Mistake("it cannot be read: %s" % error.strerror, path) from None
        except BaseException:
            self.close()
            raise
        self.happening.known = 0
        self.proposals = Proposals(self.calling, self.happening)
        self.deliveries = Deliveries(self.calling, Workers(seats[1:]), self.happening)

    @property
    def run(self) -> Run:
        """The run of the network."""
        return self.program.run

    @property
    def log(self) -> Log:
        """The log."""
        return self.ledger.log

    @property
    def workers(self) -> Workers:
        """The workers."""
        return self.deliveries.workers

    # People

    def enter(self, name: Optional[str], token: Optional[str] = None) -> Entered:
        """Who comes has the seat of the name: the same for the same name, and a name that is free where none is given.
        The first one who enters by a name gets its token; from then on the name is entered with that alone.

        Mistake where the name cannot be one or needs its token, or no seat is left."""
        with self.guarded():
            return self._enter(name, token)

    def _enter(self, given: Optional[str], token: Optional[str]) -> Entered:
        seats = self.ledger.seats
        known = seats.with_token(token)
        name = given or next((seats.names[seat] for seat in known), "") or seats.nameless(set(+self.here))
        check_name(name)
        seat = seats.of(name)
        if seat not in seats.digests:
            token = secrets.token_urlsafe(18)
            self.entering = seat
            self.ledger.seat(name, digest_of(token))
        elif seat not in known or token is None:
            raise Mistake("the name %s is taken: enter with its token, or by another name" % name)
        self.proposals.people.join([seat, *known])
        self.here[seat] += 1
        self.happening.tell("people", "%s has come, seat %d" % (name, seat))
        return Entered(seat, token, name)

    def free(self, name: str) -> None:
        """Forgets the token of a name: the next one who enters by it gets a new one. Mistake where it has none."""
        seats = self.ledger.seats
        seat = seats.numbers.get(name)
        if seat not in seats.digests or seat is None:
            raise Mistake("nobody has entered by the name %s" % escaped(str(name)[:80]))
        self.ledger.free(seat)
        self.proposals.people.part(seat)
        self.happening.tell("people", "the name %s is free" % name)

    def leave(self, seat: int, why: str = "") -> None:
        """Somebody goes. Where that is interrupted, he is still here."""
        self.happening.tell("people", "%s has gone%s" % (self.ledger.seats.name_of(seat), why and ": " + why))
        self.here[seat] -= 1

    def who(self) -> Dict[str, Any]:
        """Who is there or was, what the workers do, and whether anything waits."""
        ledger = self.ledger
        people = [{"seat": seat, "name": name, "here": self.here[seat], "calls": ledger.made[seat]}
                  for seat, name in sorted(ledger.seats.names.items()) if seat not in self.workers.seats]
        proposals = [{"number": each.number, "who": ledger.seats.name_of(each.seat), "name": each.name}
                     for each in self.proposals.open.values()]
        return {"people": people, "workers": self.deliveries.now(), "proposals": proposals,
                "quiet": self.program.is_quiet(), "step": ledger.step, "calls": ledger.entries}

    # What was done, and taking it back

    def undo(self, seat: int) -> str:
        """Takes back somebody's last edit, by an edit: what is told. Mistake where no edit does so exactly."""
        history = self.ledger.history
        own = history.own.get(seat, [])
        if not own:
            raise Mistake("there is nothing of yours to undo")
        edit, line = own[-1], own[-1].back
        other = history.since(edit)
        if line is None:
            raise Mistake("`%s` cannot be undone exactly: %s" % (edit.line, edit.why))
        if other:
            whose = self.ledger.seats.name_of(other.seat)
            raise Mistake("`%s` cannot be undone exactly: `%s` of %s came since" % (edit.line, other.line, whose))
        if not line:
            self.ledger.note_back(seat)
            return "undone: %s, which changed nothing" % edit.line
        answer = self.calling.call(seat, line, undoes=True)
        if answer.error or refusal(answer.reply):
            raise Mistake("%s: %s" % (line, answer.error or answer.reply[0]))
        return "undone: %s, by `%s`" % (edit.line, line)

    def blame(self, router: str, most: Optional[int] = None) -> List[Dict[str, Any]]:
        """Who edited what about a router or virtual peer, and when: of more than `most` edits the last ones.
        Mistake where it is not there."""
        if router not in self.program.network.nodes:
            raise Mistake("there is no router or virtual peer %s" % escaped(str(router)[:80]))
        return self.ledger.blame(router, most)

    # Errors that nobody expects

    @contextlib.contextmanager
    def guarded(self) -> Iterator[None]:
        """While a request may change something. After an error that is no Mistake the network is recovered from its
        log, and Interrupted raised: a Mistake that says what of the request stands there.

        Raises Unkept where it cannot be recovered. An error may come up in the midst of all that, too: then `mend`
        recovers before the next request."""
        try:
            kept, before = self._kept(), self.unfinished
            self.entering = None
            self.unfinished = kept
        except Exception as error:  # pylint: disable=broad-except
            calls, steps = self.log.count, self.ledger.step
            raise Interrupted(error, Recovered(calls, calls, steps, steps, [])) from error
        try:
            yield
            self.unfinished = before if self.unfinished is kept else self.unfinished
        except Mistake:
            # Another one stands there where a part of the request was not recovered from.
            self.unfinished = before if self.unfinished is kept else self.unfinished
            raise
        except Exception as error:  # pylint: disable=broad-except
            # What its calls held may be the memory that is wanting.
            traceback.clear_frames(error.__traceback__)
            raise Interrupted(error, self.recover(described(error), kept)) from error

    def mend(self) -> None:
        """Recovers from an error, where that could not be done when it came up. Only while no request is made. Mistake
        where it cannot be done now, either; Unkept where it never can."""
        if self.unfinished is not None:
            self.recover("an error of the server", self.unfinished)

    def recover(self, reason: str, kept: Optional[Kept] = None) -> Recovered:
        """Makes all anew from what stands in the log and its notes, as after a start, whatever state it is in. Who is
        here, proposals, and what the workers do are as they were when it was `kept`; now where that is not given.

        `reason` is told to all. How many calls the log had, and has. Raises Unkept where it cannot be done. Where it is
        only out of memory, a Mistake is raised, and `mend` tries again."""
        broken = self._broken(None if kept is None else self.entering)
        kept = kept or self._kept()
        self.unfinished = kept
        fault: BaseException = Unkept("no try was made")
        for pause in PAUSES:
            time.sleep(pause)
            try:
                gc.collect()
                found = self._recover("an error came up (%s)" % reason, kept, broken)
                self.unfinished = None
                return found
            except Exception as error:  # pylint: disable=broad-except
                fault = error
        if isinstance(fault, MemoryError):
            raise Mistake("an error came up (%s), and the server is out of memory to make the network anew from its log: "
                          "look at it in a moment, and ask again" % reason) from fault
        told = "an error came up (%s), and the network cannot be made anew from its log: %s"
        raise Unkept(told % (reason, described(fault)))

    def _kept(self) -> Kept:
        """What stands in no log."""
        workers, proposals = self.workers, self.proposals
        return Kept(self.log.count, self.ledger.step, self.here.copy(), proposals.open.copy(), proposals.count,
                    self.happening.mark(), workers.is_going, workers.pace, workers.paid, self.ledger.since_edit)

    def _broken(self, entering: Optional[int]) -> Broken:
        """What was being done, and what outlasts it."""
        return Broken(entering, self.proposals.making, self.deliveries.is_working, self.ledger.is_noting,
                      self.ledger.meters, self.proposals.people, self.proposals.count)

    def _recover(self, reason: str, kept: Kept, broken: Broken) -> Recovered:
        """One try, which may come after another one that failed anywhere."""
        old, most = self.ledger, self.program.most
        # What it holds may be what is wanting.
        self.program.drop(reason)
        old.history = History(Network())
        happening = Events(kept.step)
        program = PersistentRun(most, happening, reason)
        ledger = Ledger(old.log, old.notes, program.network, happening, old.most_log, old.clock, old.even)
        ledger.meters, ledger.is_noting = broken.meters, broken.is_noting
        calling = Commands(program, ledger)
        entries = take_up(calling, old.notes.read(), lambda _: None, is_checked=False, known=kept.calls)
        ledger.since_edit = min(ledger.since_edit, kept.since_edit)
        if broken.entering in ledger.seats.digests and broken.entering is not None:
            ledger.free(broken.entering)
        proposals = self._proposals_again(calling, kept, broken)
        workers = Workers(self.workers.seats)
        workers.is_going, workers.pace, workers.paid = kept.is_going, kept.pace, kept.paid
        deliveries = Deliveries(calling, workers, happening)
        if broken.is_working and workers.is_going:
            deliveries.pause_for(reason)
        self.happening.back(kept.mark)
        self.happening.events += happening.events
        program.happening = ledger.happening = proposals.happening = deliveries.happening = self.happening
        self.program, self.ledger, self.calling = program, ledger, calling
        self.proposals, self.deliveries, self.here = proposals, deliveries, kept.here.copy()
        # Where it cannot be run now, the next request tries again.
        with contextlib.suppress(Exception):
            program.revive()
        return Recovered(kept.calls, ledger.entries, kept.step, ledger.step, entries)

    def _proposals_again(self, calling: Commands, kept: Kept, broken: Broken) -> Proposals:
        """The proposals that still are what they were; one of which a part was made goes, which is told."""
        made = Proposals(calling, calling.ledger.happening, broken.people)
        made.count = max(broken.count, kept.count)
        for number, each in kept.proposals.items():
            if number == broken.making and calling.ledger.entries > kept.calls:
                told = "proposal %d goes: an error came up when it was made, and calls %d to %d were done"
                made.closed(each, told % (number, kept.calls + 1, calling.ledger.entries))
            elif each.edits <= len(calling.ledger.history.edits):
                made.open[number] = each
            else:
                made.closed(each, "proposal %d goes: the log has lost what it was shown for" % number)
        return made

    # The beginning and the end

    def play(self, lines: List[Line]) -> None:
        """Plays a script, by its own seat. Mistake where a line is refused that is not marked so."""
        seat = self.ledger.seats.numbers[SCRIPT]
        for part in parts(lines):
            for line, answer in zip(part, self.calling.calls((seat, each.text) for each in part)):
                fault = answer.fault(line.expected)
                if fault:
                    raise Mistake(fault, line.file, line.number)
        self.happening.taken()

    def end(self) -> None:
        """Ends the log, and all else."""
        try:
            self.log.end()
        finally:
            self.close()

    def close(self) -> None:
        """Lets the log be as it is, as a crash would: it can be taken up."""
        self.ledger.close()
        self.program.close()
