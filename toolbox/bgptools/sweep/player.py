"""Plays changes on one quiet network, one after another: each is made, compared, and taken back.

The program is a machine that keeps what is configured, what was received and what waits, and nothing else. So where all
three are again as they were, it answers as it did in front of the change. What cannot be taken back, or is found to be
otherwise afterwards, is played anew at first: the program is started again, and given the script with its deliveries.
From then on a snapshot is kept, and restored. Taking back is less work where a change moves little, as most do."""
from __future__ import annotations

import argparse
from dataclasses import dataclass, field
from typing import List, Optional, Set

from ..change.baseline import After, Baseline, Touched, digest
from ..change.comparison import compare
from ..change.effect import Outcome
from ..change.report import text_of
from ..change.rollback import commands_back
from ..change.transients import Watch
from ..change.what_if import converged_base
from ..convergence.delivery import Deliverer, Convergence
from ..convergence.orders import Order, RandomOrder, order_of
from ..convergence.run import Run, Snapshot
from ..network.configuration import Direction
from ..network.prefix_parts import PLACES
from ..program.line_count import is_accepted
from ..program.mistakes import Mistake
from ..program.names import Names
from ..program.process import ProgramEnded
from ..program.process_pool import ATTEMPTS
from ..program.replies import refusal, routes
from ..program.script import Line
from .effect_counts import Figures, captured_by, figures_of, is_single_point
from .families import ORDER, Trial

DOWN, UP = {"fail", "stop"}, {"mend", "start"}


@dataclass
class Job:
    """A network and the changes to be tried on it. `script` is the base as it was read; `lines` is what the program
    accepted of it, with the deliveries of `converged` that empty all queues. `chosen` has the words for orders."""
    script: List[Line]
    trials: List[Trial]
    chosen: argparse.Namespace
    has_texts: bool = False
    lines: List[str] = field(default_factory=list)
    converged: Optional[Convergence] = None


class Attempt:
    """A change that is tried on a quiet network."""

    def __init__(self, run: Run, quiet: Baseline, trial: Trial, has_watch: bool) -> None:
        self.run, self.quiet, self.trial = run, quiet, trial
        self.touched = Touched()
        self.watch = Watch(run) if has_watch else None
        self.delivered: Set[Direction] = set()
        self.done = Convergence(run.order)

    def make(self) -> None:
        """Makes the change, and delivers."""
        for line in self.trial.lines:
            reply = self.watch.say(line) if self.watch else self.run.say(line.text)
            self.run.check(line, reply)
            self._note(line.words, reply)
        self.done = self.run.converge()
        self._took(self.done)

    def _note(self, words: List[str], reply: List[str]) -> None:
        if is_accepted(reply):
            self.touched.edit(self.run.network, words)
            self.delivered |= {(words[1], words[2])} if words[0] == "deliver" else set()

    def _took(self, done: Convergence) -> None:
        self.touched.deliver(done.deliveries)
        self.delivered.update(done.deliveries)

    def figures(self, converged: Convergence) -> Figures:
        """What the change does."""
        after = After(self.run, self.quiet, self.touched)
        difference = compare(self.quiet, after, [], after.packets, has_reasons=bool(self.watch))
        found = figures_of(difference, self.run.network, len(self.done.taken), self.done.is_converged)
        found.captured = captured_by(self.trial, self.run.network, difference)
        fed = {to for _, to in self.quiet.feeds}
        found.is_single = is_single_point(self.trial, self.quiet.network, fed, difference)
        if self.watch:
            found.text = text_of(Outcome(difference, self.watch, converged, [self.done]), False)
        return found

    def take_back(self) -> bool:
        """Takes the change back; whether all is as it was."""
        back = commands_back(self.run.network, self.quiet.network)
        if back is None or not self.done.is_converged or self.done.first:
            return False
        moved = {way for way, is_up in self.run.sessions_up().items() if is_up != self.quiet.is_up[way]}
        for line in back:
            self._say(line)
        for line in self._feeds():
            self._say(line)
        done = self.run.deliverer.converge()
        self._took(done)
        return done.is_converged and commands_back(self.run.network, self.quiet.network) == [] and self._holds(moved)

    def _say(self, line: str) -> None:
        self._note(line.split(" "), self.run.say(line))

    def _feeds(self) -> List[str]:
        """The commands by which virtual peers tell what they told."""
        ways = [way for way in self.quiet.told if way[1] in self.touched.routers]
        lines = []
        for way, reply in zip(ways, self.run.ask("in %s %s" % (way[1], way[0]) for way in ways)):
            now, before = (routes(each) for each in (reply, self.quiet.told[way]))
            lines += [self.quiet.feeds[way, to] for to in before if now.get(to) != before[to]]
            lines += ["feed %s %s withdraw %s" % (*way, to) for to in now if to not in before]
        return lines

    def _holds(self, moved: Set[Direction]) -> bool:
        """Whether each end of a session holds what it held, where that may be otherwise: where a message came, or the
        session was down. One that comes and goes in a change is seen at neither of its ends: then all are looked at."""
        names = {line.words[0] for line in self.trial.lines if line.is_command}
        ways = self.delivered | moved | {(b, a) for a, b in moved}
        if names & DOWN and names & UP:
            ways |= {way for way in self.quiet.held if way[1] in self.touched.routers}
        asked = sorted(ways)
        replies = self.run.ask("in %s %s" % (b, a) for a, b in asked)
        return all(self.quiet.held.get(way) == digest(reply) for way, reply in zip(asked, replies))


def snapshot_of(run: Run) -> Optional[Snapshot]:
    """A snapshot; nothing where there is no memory for one, or the program has ended."""
    try:
        return run.snapshot()
    except Mistake:
        return None


class Begin:
    """The base as its script leaves it, before it converges: for one order after another."""

    def __init__(self, job: Job) -> None:
        self.job = job
        self.run: Optional[Run] = None
        self.kept: Optional[Snapshot] = None

    def again(self, order: Order) -> Run:
        """The run, to which only the script was given, for this order."""
        if self.run and self.kept:
            self.run.restore(self.kept)
        else:
            self.close()
            self.run = Run()
            self.run.play(self.job.script)
        self.kept = snapshot_of(self.run)
        self.run.follow(order, self.job.chosen.most, False)
        return self.run

    def close(self) -> None:
        if self.run:
            self.run.close()
        self.run = self.kept = None


class Player:
    """Tries the changes of a job. A quiet network that is known already is shared."""

    def __init__(self, job: Job, quiet: Optional[Baseline] = None) -> None:
        self.job = job
        self.run = self._fresh()
        self.quiet = quiet or Baseline(self.run)
        self.begin = Begin(job)
        # The quiet network, once a change was not taken back.
        self.kept: Optional[Snapshot] = None
        # How often the program was started anew.
        self.renewed = 0

    def _fresh(self) -> Run:
        run = Run(order_of(self.job.chosen), self.job.chosen.most, tries_others=True)
        run.repeat(self.job.lines)
        return run

    def play(self, number: int) -> Figures:
        """What the change of this number does, counted from 0. Where the program ends under it, it is tried again."""
        for _ in range(ATTEMPTS):
            try:
                return self._played(self.job.trials[number])
            except ProgramEnded as fault:
                ended = fault
                self._renew()
        return Figures(mistake="%s, %d times" % (ended, ATTEMPTS), is_lost=True)

    def _played(self, trial: Trial) -> Figures:
        if trial.kind == ORDER:
            return self._ordered(trial)
        self._prepare(trial)
        attempt = Attempt(self.run, self.quiet, trial, self.job.has_texts)
        is_back = False
        try:
            attempt.make()
            self._follow(self.quiet.addresses(self.run.network.prefixes))
            found = attempt.figures(self.job.converged or attempt.done)
            is_back = attempt.take_back()
        except ProgramEnded:
            raise
        except Mistake as mistake:
            found = Figures(mistake=str(mistake))
        if not is_back:
            self._restore()
        return found

    def _prepare(self, trial: Trial) -> None:
        """Makes the run one to which nothing but the script was given, and follows packets to new addresses."""
        run, quiet = self.run, self.quiet
        run.lines = list(quiet.lines)
        run.network.prefixes, run.network.communities = set(quiet.network.prefixes), set(quiet.network.communities)
        run.network.names.of = dict(quiet.network.names.of)
        run.order, run.has_tried_all = order_of(self.job.chosen), False
        run.deliverer = Deliverer(run.program, run.network, run.order, run.most)
        run.deliverer.waiting.knows_all = False
        quiet.follow(run, quiet.addresses(quiet.network.prefixes | _named(trial)))

    def _follow(self, addresses: List[str]) -> None:
        """Packets to these addresses were followed in the quiet network; or are, where a change came to other ones."""
        if any(to not in self.quiet.passing for to in addresses):
            with self._fresh() as run:
                self.quiet.follow(run, addresses)

    def _restore(self) -> None:
        """The quiet network again, in the place of one with a change that was not taken back."""
        if self.kept is None:
            self._renew()
        else:
            self.run.restore(self.kept)
            self.kept = snapshot_of(self.run)

    def _renew(self) -> None:
        self.renewed += 1
        self.close()
        self.run = self._fresh()
        self.kept = snapshot_of(self.run)

    def _ordered(self, trial: Trial) -> Figures:
        """The base, converged in a random order, beside the quiet one."""
        run = self.begin.again(RandomOrder(trial.seed))
        watch, done = Watch(run), run.converge()
        difference = compare(self.quiet, run, [], has_reasons=self.job.has_texts)
        found = figures_of(difference, run.network, len(done.taken), done.is_converged)
        found.state = run.state() if done.is_converged else ""
        if self.job.has_texts:
            found.text = text_of(Outcome(difference, watch, self.job.converged or done, [done]), False)
        return found

    def close(self) -> None:
        self.run.close()
        self.begin.close()


def _named(trial: Trial) -> Set[str]:
    """The prefixes that a change originates or feeds."""
    words = [line.words for line in trial.lines if line.is_command]
    return {each[PLACES[each[0]]] for each in words if each[0] in PLACES and len(each) > PLACES[each[0]]}


def converged_job(job: Job) -> Job:
    """The job with its base converged. Mistake where that has a mistake, or converges in no order that is tried."""
    run, done = converged_base(job.script, job.chosen)
    with run:
        job.lines, job.converged = list(run.lines), done
    return job
