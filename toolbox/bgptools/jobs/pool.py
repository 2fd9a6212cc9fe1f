"""The pool: what a server asks, and the workers that answer."""
from __future__ import annotations

import contextlib
import os
import tempfile
from typing import Any, Callable, List, Optional, Sequence, Tuple

from ..program import language
from ..program.mistakes import Mistake
from .cache import Cache
from .lane import LongLane, ViewLane
from .limits import Limits
from .process import end_strays, new_token
from .request import LOOK, TEACH, WORK, Asker, Request
from .script import Script

# No address and no prefix is longer. What is longer is not even looked up, since lookups are kept.
LONGEST = len("255.255.255.255/32")


class Pool:
    """Answers by worker processes, which are started when they are needed.

    All coroutines belong to one loop. Its thread has to last as long as the pool: workers end with the thread that
    started them, whatever ends that.

    `lines` tells the live list of the shared script: latin-1 strings, one a line and without its end. It only grows at
    its end, or is replaced by an equal one.

    Each coroutine raises Mistake with a plain sentence where it cannot be done, and Busy, at once, where too many
    requests wait. One that is cancelled frees its place; a what-if or a check then ends, too."""

    def __init__(self, lines: Callable[[], Sequence[str]], limits: Limits = Limits()) -> None:
        self.lines, self.limits = lines, limits
        with contextlib.suppress(OSError):
            # It is found while there is a descriptor for that.
            tempfile.gettempdir()
        self.script, self.cache = Script(lines), Cache(limits.cache)
        self.version, self.token = self.script.version, new_token()
        self.work = ViewLane(limits, self.token, 0, self.script, self.cache, self._views)
        self.look = ViewLane(limits, self.token, limits.niceness, self.script, self.cache, self._views)
        self.long = LongLane(limits, self.token, limits.long_workers)

    def _views(self) -> List[ViewLane]:
        return [self.work, self.look]

    async def picture(self, asker: Asker, step: int, prefix: Optional[str], way: Optional[Tuple[str, str]]) -> bytes:
        """The picture after a step, as JSON in ASCII: with the routes to a prefix, and the way of a packet from a
        router's address to an address. A newer picture of the same person takes the place of one that still waits,
        which then ends with the Mistake `another picture was asked for`."""
        lane = self._lane(asker)
        self._check_step(step)
        if prefix is not None:
            _check_prefix(prefix)
        if way is not None:
            way = (_address(way[0]), _address(way[1]))
        await self.script.count_lines()
        if self.version != self.script.version:
            # Things stand elsewhere, so that no picture that is kept is asked for again.
            self.cache.clear()
            self.version = self.script.version
        shown = (step, prefix, way)
        kept = self.cache.get((self.version, shown))
        if kept is not None:
            return kept
        request = Request(asker, {"do": "picture", "step": step, "prefix": prefix, "way": way})
        request.shown, request.version = shown, self.version
        return await lane.ask(request)

    async def table(self, asker: Asker, step: int, router: str, prefix: str) -> bytes:
        """A router's routes to a prefix after a step, as JSON in ASCII."""
        lane = self._lane(asker)
        self._check_step(step)
        _check_prefix(prefix)
        job = {"do": "table", "step": step, "router": _address(router), "prefix": prefix}
        return await lane.ask(Request(asker, job))

    async def what_if(self, asker: Asker, base: Sequence[str], change: Sequence[str]) -> str:
        """What a change does to the network of the base, as `what-if` tells it. Messages name `proposed.change`.
        Mistake for rank 2."""
        _check_works(asker)
        given = list(change)
        if any(max(line, default="") > "\xff" for line in given):
            raise Mistake("proposed.change: a line is given by its bytes, and one has characters that are none")
        request = Request(asker, {"do": "what_if", "change": given}, sum(map(len, given)) + 8 * len(base))
        request.base = list(base)
        return (await self.long.ask(request)).decode("utf-8")

    async def check(self, asker: Asker, log: int, size: int, end: bytes) -> str:
        """What `bgpsim replay` says of the first `size` bytes of a log, with this end behind them. `log` is a file
        descriptor that the caller opened for reading. It is copied before the first wait, and its place in the file
        stays. Mistake for rank 2."""
        _check_works(asker)
        try:
            file = os.dup(log)
        except OSError as error:
            raise Mistake("the log cannot be read: %s" % error.strerror) from None
        request = Request(asker, {"do": "check", "log": file, "size": size, "end": end.decode("latin-1")}, len(end))
        request.file = file
        return (await self.long.ask(request)).decode("utf-8")

    def pump(self) -> None:
        """Begins what may begin, where a fault kept it from that."""
        for lane in (self.work, self.look, self.long):
            lane.pump()

    async def close(self) -> None:
        """Ends all workers with every process that they started, and waits for that. Requests that wait end with a
        Mistake, and so do later ones."""
        for lane in (self.work, self.look, self.long):
            lane.is_closed = True
        for lane in (self.work, self.look, self.long):
            await lane.close()
        await end_strays(self.token)
        self.cache.clear()

    def _lane(self, asker: Asker) -> ViewLane:
        _check_rank(asker)
        return self.look if asker.rank == LOOK else self.work

    def _check_step(self, step: Any) -> None:
        last = len(self.lines())
        if not isinstance(step, int) or isinstance(step, bool) or not 0 <= step <= last:
            raise Mistake("a step is a number of 0 to %d" % last)


def _check_rank(asker: Asker) -> None:
    if asker.rank not in (TEACH, WORK, LOOK):
        raise Mistake("a rank is 0, 1 or 2")


def _check_works(asker: Asker) -> None:
    _check_rank(asker)
    if asker.rank == LOOK:
        raise Mistake("who looks may ask for pictures and tables alone")


def _check_prefix(text: Any) -> None:
    if not isinstance(text, str) or len(text) > LONGEST or language.prefix(text) is None:
        raise Mistake("`%s` is not a prefix, as 10.0.0.0/8" % _begin(text))


def _address(text: Any) -> str:
    """The address. Mistake where it is none."""
    if not isinstance(text, str) or len(text) > LONGEST or language.address(text) is None:
        raise Mistake("`%s` is not an address, as 10.0.0.1" % _begin(text))
    return text


def _begin(text: Any) -> str:
    """The begin of what was given, as it can be shown."""
    return language.escaped(str(text)[:80])
