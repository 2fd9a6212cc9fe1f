"""The answers to the requests of those who are joined. docs/reference/share.md has the words, `requests` the forms.

A word is answered at once, or by a coroutine where that takes long or waits for something: what-ifs and checks
run in the processes of `bgptools.jobs`, never here."""
from __future__ import annotations

import contextlib
import os
import time
from typing import Any, Awaitable, Callable, Dict, Iterator, Optional, Union

from ..jobs import Asker, Pool
from ..program.mistakes import Mistake
from .member import Member
from .messages import bytes_of, shown
from .proposal import Proposal
from .requests import Request
from .roles import RANKS, WORDS
from .shared_network import Shared

# So many lines of a script are told at once, and so many proposals of one person may be open.
LINES, PROPOSALS = 4096, 4
VERSION = 2
# These write to the log.
WRITING = frozenset(("call", "next", "step", "undo", "accept"))
Answer = Dict[str, Any]
Word = Callable[[Member, int, Request], Union[Answer, Awaitable[Answer]]]


class RequestAnswers:
    """Answers requests on a shared network. `quiet` comes to an answer once all queues are empty."""

    def __init__(self, shared: Shared, pool: Pool, quiet: Callable[[], Awaitable[Answer]]) -> None:
        self.shared, self.pool, self.quiet = shared, pool, quiet
        self.words: Dict[str, Word] = {
            "call": self._call, "ask": self._ask, "script": self._script, "waiting": self._ways, "next": self._next,
            "watch": self._watch, "who": self._who, "blame": self._blame, "undo": self._undo, "pause": self._pause,
            "go": self._go, "pace": self._pace, "step": self._step, "wait": self._wait, "propose": self._propose,
            "proposals": self._proposals, "accept": self._accept, "decline": self._decline, "check": self._check,
            "free": self._free}

    def answer(self, member: Member, request: Request) -> Union[Answer, Awaitable[Answer]]:
        """The answer to a request. Mistake where it is not done."""
        word = request["do"]
        if word not in WORDS[member.role]:
            raise Mistake("`%s` is not for those who %s" % (word, member.role))
        if word == "enter":
            return self._enter(member, request)
        if member.seat is None:
            raise Mistake("`enter` comes first, with a name")
        if word not in self.words:
            raise Mistake("there is no request `%s` here" % word)
        if word in WRITING:
            self._check_quota(member)
        return self.words[word](member, member.seat, request)

    @property
    def step(self) -> int:
        """The last step."""
        return self.shared.ledger.step

    def _check_quota(self, member: Member) -> None:
        """Mistake where one wrote as much of the log within a minute as he may."""
        most = member.quota.log_bytes
        if member.seat is not None and self.shared.ledger.written(member.seat, time.monotonic()) >= most:
            raise Mistake("your calls wrote %d bytes of log within a minute, which is the most: wait, or ask by `ask`"
                          % most)

    # The network

    def _call(self, _: Member, seat: int, request: Request) -> Answer:
        answer = self.shared.calling.calls([(seat, bytes_of(request["line"]))])[0]
        if answer.error:
            return {"error": answer.error}
        return {"reply": answer.reply, "told": answer.told, "step": answer.step}

    def _ask(self, _: Member, __: int, request: Request) -> Answer:
        return {"reply": self.shared.program.ask([bytes_of(request["line"])])[0], "step": self.step}

    def _script(self, _: Member, __: int, request: Request) -> Answer:
        start = request["from"]
        return {"lines": list(map(shown, self.shared.run.lines[start:start + LINES])), "step": self.step}

    def _ways(self, _: Member, __: int, ___: Request) -> Answer:
        return {"ways": self.shared.program.waiting()}

    def _blame(self, _: Member, __: int, request: Request) -> Answer:
        return {"edits": self.shared.blame(request["router"])}

    def _undo(self, _: Member, seat: int, __: Request) -> Answer:
        return {"text": self.shared.undo(seat), "step": self.step}

    async def _check(self, member: Member, _: int, __: Request) -> Answer:
        log = self.shared.log
        size, calls = log.size, log.count
        with _opened(log.path) as file:
            verdict = await self.pool.check(asker_of(member), file, size, b"end %d\n" % calls)
        return {"verdict": verdict, "calls": calls}

    # People

    def _enter(self, member: Member, request: Request) -> Answer:
        if member.seat is not None:
            raise Mistake("you have a seat already")
        entered = self.shared.enter(request["as"], request.get("token"))
        member.seat = entered.seat
        return {"seat": entered.seat, "name": entered.name, "token": entered.token,
                "step": self.step, "version": VERSION, "workers": self.shared.deliveries.now(), "role": member.role}

    def _watch(self, member: Member, _: int, request: Request) -> Answer:
        member.watches = request["what"]
        return {"what": member.watches, "step": self.step}

    def _who(self, _: Member, __: int, ___: Request) -> Answer:
        return self.shared.who()

    def _free(self, _: Member, __: int, request: Request) -> Answer:
        self.shared.free(request["name"])
        return {"text": "%s can be entered by whoever comes next" % request["name"]}

    # Deliveries

    def _next(self, _: Member, seat: int, __: Request) -> Answer:
        entry = self.shared.deliveries.next(seat)
        if entry is None:
            return {"quiet": True, "step": self.step}
        return {"line": entry.line, "reply": entry.reply, "step": self.step}

    def _step(self, _: Member, seat: int, request: Request) -> Answer:
        entries = self.shared.deliveries.steps(seat, request["count"])
        return {"deliveries": [{"line": each.line, "reply": each.reply} for each in entries], "step": self.step}

    def _pause(self, _: Member, seat: int, __: Request) -> Answer:
        self.shared.deliveries.pause(seat)
        return self.shared.deliveries.now()

    def _go(self, _: Member, seat: int, __: Request) -> Answer:
        self.shared.deliveries.go(seat)
        return self.shared.deliveries.now()

    def _pace(self, _: Member, seat: int, request: Request) -> Answer:
        self.shared.deliveries.pace(seat, request["a_second"])
        return self.shared.deliveries.now()

    def _wait(self, _: Member, __: int, ___: Request) -> Awaitable[Answer]:
        return self.quiet()

    # Proposals

    async def _propose(self, member: Member, seat: int, request: Request) -> Answer:
        if sum(each.seat == seat for each in self.shared.proposals.open.values()) >= PROPOSALS:
            raise Mistake("%d proposals of yours are open: take one back by `decline`" % PROPOSALS)
        self.shared.mend()
        with self.shared.guarded():
            made = self.shared.proposals.propose(seat, request["name"], list(map(bytes_of, request["lines"])))
        try:
            await self._show(member, made)
        finally:
            if not made.text:
                self.shared.proposals.open.pop(made.number, None)
        return {"number": made.number, "text": made.text}

    async def _show(self, member: Member, made: Proposal) -> None:
        """Finds out what a proposal does to the network as it is, and shows that to all."""
        lines, edits = list(self.shared.run.lines), len(self.shared.ledger.history.edits)
        text = await self.pool.what_if(asker_of(member), lines, made.given)
        self.shared.mend()
        with self.shared.guarded():
            still = self.shared.proposals.open.get(made.number)
            if still is not None:
                self.shared.proposals.shown(still, edits, text)
                made.text, made.edits = text, edits

    def _proposals(self, _: Member, __: int, ___: Request) -> Answer:
        return {"proposals": list(map(self.shared.proposals.told, self.shared.proposals.open.values()))}

    def _accept(self, member: Member, seat: int, request: Request) -> Union[Answer, Awaitable[Answer]]:
        number, found = self._numbered(request), self.shared.proposals
        if found.is_stale(number):
            return self._show_anew(member, found.open[number])
        return {"text": found.accept(seat, number, request.get("edits")), "step": self.step}

    async def _show_anew(self, member: Member, made: Proposal) -> Answer:
        """Shows a proposal again, since the network was edited. However many press *Accept*, it is shown once."""
        if made.is_showing:
            raise Mistake("the network was edited since proposal %d was shown: it is being shown again" % made.number)
        made.is_showing = True
        cause: Optional[BaseException] = None
        try:
            await self._show(member, made)
        except Mistake as mistake:
            cause = mistake.__cause__
            self.shared.proposals.failed(made, mistake)
        finally:
            made.is_showing = False
        raise Mistake("the network was edited since proposal %d was shown: it is shown again" % made.number) from cause

    def _decline(self, _: Member, seat: int, request: Request) -> Answer:
        return {"text": self.shared.proposals.decline(seat, self._numbered(request))}

    def _numbered(self, request: Request) -> int:
        """The proposal that a request is about: the only one, where it has no number."""
        number = request.get("number")
        return self.shared.proposals.only() if number is None else int(number)


def asker_of(member: Member) -> Asker:
    """Who asks a worker process for something: a name of the server's own making, and a rank."""
    return Asker("seat %d" % member.seat if member.seat is not None else "member %d" % id(member), RANKS[member.role])


@contextlib.contextmanager
def _opened(path: str) -> Iterator[int]:
    """A file descriptor that reads a log."""
    try:
        file = os.open(path, os.O_RDONLY)
    except OSError as error:
        raise Mistake("the log cannot be read: %s" % error.strerror) from None
    try:
        yield file
    finally:
        os.close(file)


