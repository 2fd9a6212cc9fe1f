"""Faults that come up in the servers `share` and `lab`, each injected in turn into each kind of request.

    tools/fault-servers [WORD ..]            into all, or into these (--list has the words). Of a request some of the
                                             lines that the server executes for it raise MemoryError, each in a try of
                                             its own, and 50 lines in a row. Then faults of other kinds: files that
                                             cannot be written, programs that end or do not start, text that cannot be
                                             read, used-up descriptors, people who do not read, a clock that jumps
    tools/fault-servers --all [WORD ..]      each line raises; with --stride K in its place each K-th line
    tools/fault-servers --only WORD-WAY --at N [--times T]
                                             the N-th line alone, and those behind it

Each time, who made the request gets an error or the right answer, or the connection ends. The others get theirs. The
log has what was answered, in order, and nothing that was answered by `not done`. The reason stands on standard error.
The server goes on, unless its log or its socket failed. In the end `bgpsim replay` says that the log is one.

The last line is `N passed, M failed`. Each failure names the request, the line and its place in the code, and how to
try it again. A part of the gate. PROGRAM= is another program than crates/bgpsim/out/bgpsim. VERBOSE=1 tells each word.
"""
from __future__ import annotations

import os
import time
from typing import Any, Dict, Iterator, List, NamedTuple, Optional, Sequence, Tuple

from . import commands, programs
from .fault_clients import Entry, Outcome, Wrong
from .fault_scenarios import SCENARIOS
from .fault_words import SOCKET, WORDS, Scene, Word

# A shortage that goes on lets so many lines fail; it is tried at so many lines fewer.
SUSTAINED, RARER = 50, 20
NEVER = 1 << 40
TELLING = "session/faults.py"
# Where so many kinds of faults were reported, others are counted.
KINDS, FEW_KINDS = 100, 60


class Try(NamedTuple):
    """A request with a fault: which one, by which way, from which line on, and how many lines fail."""
    word: str
    way: str
    at: int
    times: int = 1

    @property
    def again(self) -> str:
        """How it is tried again."""
        more = " --times %d" % self.times if self.times > 1 else ""
        return "tools/fault-servers --only %s-%s --at %d%s" % (self.word, self.way, self.at, more)


class Found(NamedTuple):
    """What was seen: how many lines the request took, where lines failed, and what is wrong."""
    lines: int
    fired: List[str]
    wrong: str = ""


def made(scene: Scene, word: Word, fields: Dict[str, Any]) -> Outcome:
    """Makes a request: what becomes of it."""
    if word.run is not None:
        return word.run(scene, fields)
    number, known = scene.actor.send(word.do, **fields)
    if known is None:
        return scene.actor.outcome(number)
    # An error by HTTP: the request may have been taken before, and then it is answered all the same.
    scene.server.rest()
    scene.actor.drain()
    return Outcome(scene.actor.late.pop(number)) if number in scene.actor.late else known


def judged(scene: Scene, word: Word, outcome: Outcome, entries: List[Entry], calls: Optional[List[Any]]) -> str:
    """What is wrong with what became of a request, and with what stands in the log for it."""
    made_calls = [(each.seat, each.line) for each in entries]
    error = outcome.error
    if calls is None:
        calls = made_calls if all(each.line.startswith("deliver ") for each in entries) else []
    if made_calls != calls[:len(made_calls)]:
        return "the log has %s, and %s was asked for" % (made_calls, calls)
    if error is None:
        if made_calls != calls:
            return "it was answered, and the log has %s of %s" % (made_calls, calls)
        if outcome.answer and "reply" in outcome.answer and "told" in outcome.answer and not entries and calls:
            return "it was answered, and is not in the log"
        return word.wrong(scene, outcome.answer or {}, entries)
    if entries and "not done" in error:
        return "the log has %s, and the error says that it was not done: %s" % (made_calls, error)
    return ""


def others(scene: Scene, step: int, is_long: bool) -> str:
    """What is wrong with what another one is answered and told."""
    found = scene.other.request("who")
    events = scene.other.heard()
    if found.answer is None:
        if not found.ended and not is_long:
            return "the connection of another one ends without a word"
        scene.renew_other()
        found = scene.other.request("who")
        events.append({"event": "missed"})
    if found.error is not None or found.answer is None:
        return "another one is answered by %s" % (found,)
    count = len(scene.server.entries())
    if found.answer["calls"] != count:
        return "the log has %d calls, and another one is told that it has %d" % (count, found.answer["calls"])
    told = [each["step"] for event in events if event["event"] == "changes" for each in event["changes"]]
    wanted = list(range(step + 1, found.answer["step"] + 1))
    if told != wanted and not any(event["event"] == "missed" for event in events):
        return "another one is told of the steps %s, and made were %s" % (told, wanted)
    return ""


def same(scene: Scene, word: Word, fields: Dict[str, Any], outcome: Outcome) -> str:
    """What is wrong where a request that changes nothing is answered otherwise when it is made again."""
    if outcome.error is not None:
        return ""
    again = made(scene, word, fields)
    if again.answer is None:
        # The connection ended behind the answer.
        scene.renew_actor()
        again = made(scene, word, fields)
    before, after = ({name: value for name, value in (each or {}).items() if name not in ("id", "at")}
                     for each in (outcome.answer, again.answer))
    return "" if before == after else "it is answered by %s, and then by %s" % (str(before)[:300], str(after)[:300])


def untold(scene: Scene, fired: Sequence[str]) -> str:
    """What is wrong where a fault is not told on standard error."""
    told = scene.server.errors()
    place = fired[0].split(" in ")[0] if fired else ""
    # What fails while a fault is reported is not reported.
    if place.startswith(TELLING):
        return ""
    return "" if place in told or told.count("fault in ") >= KINDS else "it is not told on standard error"


def tried(scene: Scene, one: Try) -> Found:
    """Makes a request while lines fail: what was seen."""
    word = WORDS[one.word]
    found = Found(0, [])
    try:
        word.prepare(scene)
        fields = word.fields(scene)
        calls = None if word.calls is None else word.calls(scene, fields)
        step, start = scene.other.ask("who")["step"], scene.server.size()
        scene.server.rest()
        scene.other.heard()
        scene.server.command("arm", at=one.at, times=one.times)
        try:
            outcome = made(scene, word, fields)
        finally:
            told = scene.server.rest() if one.times == 1 else scene.server.command("count")
            found = Found(told["count"], told["fired"])
            scene.server.command("disarm")
        scene.server.rest()
        entries = scene.server.entries(start)
        wrong = judged(scene, word, outcome, entries, calls) or others(scene, step, one.times > 1)
        wrong = wrong or word.left(scene, outcome)
        scene.renew_actor()
        wrong = wrong or (same(scene, word, fields, outcome) if word.is_same else "")
        scene.renew_actor()
        scene.renew_other()
        return found._replace(wrong=wrong or (untold(scene, found.fired) if one.times == 1 else ""))
    except Wrong as fault:
        return found._replace(wrong=str(fault))


def ended_well(scene: Scene) -> str:
    """What is wrong with the end of a server."""
    try:
        status, told = scene.server.end()
    except Wrong as wrong:
        return str(wrong)
    if status != 0 or "replay: ok %d\n" % len(scene.server.entries()) not in told:
        return "it ends with status %d, and tells: %s%s" % (status, told, scene.server.errors()[-500:])
    return ""


class Run:
    """Tries requests on a server that goes on from try to try, while few kinds of faults came up; one that failed is
    replaced."""

    def __init__(self) -> None:
        self.passed = self.failed = 0
        self.scene: Optional[Scene] = None
        self.kind = ("", "")

    def tell(self, what: str, wrong: str, again: str) -> None:
        """Counts a try, and tells it where it failed."""
        self.passed += not wrong
        self.failed += bool(wrong)
        if wrong:
            print("FAILED %s: %s\n  again: %s\n" % (what, wrong, again), flush=True)

    def attempt(self, one: Try) -> Found:
        """Makes a try, on a new server where the last one failed."""
        if self.scene is None:
            word = WORDS[one.word]
            try:
                self.scene = Scene(one.way, word.tool or ("share" if one.way == SOCKET else "lab"))
            except Wrong as wrong:
                raise commands.Missing(str(wrong)) from None
        found = tried(self.scene, one)
        places = found.fired[0] if found.fired else "no line"
        what = "%s by %s, line %d of %d (%s)" % (one.word, one.way, one.at, found.lines, places)
        if found.fired or found.wrong:
            self.tell(what, found.wrong, one.again)
        if found.wrong:
            self.scene.server.close()
            self.scene = None
        return found

    def end(self, what: str, again: str) -> None:
        """Ends the server."""
        if self.scene is not None:
            self.tell(what + ", in the end", ended_well(self.scene), again)
            self.scene.server.close()
            self.scene = None

    def word(self, name: str, way: str, offset: int, stride: int) -> None:
        """Tries a request at each so many lines, or at some where it is 0. Fewer shortages are tried: they take long."""
        began = time.monotonic()
        kind = (way, WORDS[name].tool)
        if kind != self.kind:
            self.end("before %s by %s" % (name, way), "tools/fault-servers")
        self.kind = kind
        if self.scene is not None:
            self.scene.begin_again()
        first = self.attempt(Try(name, way, NEVER))
        apart = stride or max(1, first.lines // WORDS[name].tries)
        fired = 0
        for at in range(1 + offset % apart, first.lines + 1, apart):
            fired += bool(self.attempt(Try(name, way, at)).fired)
        apart = RARER * stride or max(1, first.lines // 2)
        for at in range(1 + offset % min(apart, 7), first.lines + 1, apart):
            self.attempt(Try(name, way, at, SUSTAINED))
        if self.scene is not None and self.scene.server.errors().count("fault in ") >= FEW_KINDS:
            self.end("%s by %s" % (name, way), "tools/fault-servers %s" % name)
        if os.environ.get("VERBOSE"):
            print("%s by %s: %d lines, %d tries, %.1f s" % (name, way, first.lines, fired, time.monotonic() - began),
                  flush=True)


def cases(names: Sequence[str]) -> Iterator[Tuple[str, str]]:
    """The requests with their ways."""
    for name in names:
        for way in WORDS[name].ways:
            yield name, way


def try_scenario(name: str) -> str:
    """What is wrong with what became of a fault of another kind."""
    try:
        SCENARIOS[name]()
    except Wrong as wrong:
        return str(wrong)
    return ""


def try_all(names: Sequence[str], stride: int) -> int:
    """Tries all requests and faults of these names."""
    os.environ["PROGRAM"] = programs.bgpsim()
    run = Run()
    found = sorted(cases([name for name in names if name in WORDS]), key=lambda case: case[1])
    for offset, (name, way) in enumerate(found):
        run.word(name, way, offset, stride)
    run.end("the last one", "tools/fault-servers")
    for name in [name for name in names if name in SCENARIOS]:
        run.tell(name, try_scenario(name), "tools/fault-servers " + name)
    return commands.counted(run.passed, run.failed)


def try_one(one: Try) -> int:
    """Makes one try."""
    os.environ["PROGRAM"] = programs.bgpsim()
    run = Run()
    found = run.attempt(one)
    print("%d lines; failed: %s" % (found.lines, ", ".join(found.fired) or "none"))
    if run.scene is not None:
        print(run.scene.server.errors(), end="")
    run.end("%s by %s" % (one.word, one.way), one.again)
    return commands.counted(run.passed, run.failed)


def main(words: Sequence[str]) -> int:
    """The command."""
    asked = commands.parser(__doc__)
    asked.add_argument("words", nargs="*", metavar="WORD")
    asked.add_argument("--all", action="store_const", const=1, default=0, dest="stride")
    asked.add_argument("--stride", type=commands.number, metavar="K")
    asked.add_argument("--list", action="store_true")
    asked.add_argument("--only", metavar="WORD-WAY")
    asked.add_argument("--at", type=commands.number, default=1, metavar="N")
    asked.add_argument("--times", type=commands.number, default=1, metavar="T")
    given = asked.parse_args(words)
    known = {"%s-%s" % case: case for case in cases(list(WORDS))}
    unknown = [word for word in given.words if word not in WORDS and word not in SCENARIOS] + \
        [word for word in [given.only] if word is not None and word not in known]
    if unknown:
        asked.error("`%s` is no request: --list has them" % unknown[0])
    if given.list:
        print("\n".join([*known, *SCENARIOS]))
        return 0
    if given.only:
        return commands.as_part(lambda: try_one(Try(*known[given.only], given.at, given.times)))
    return commands.as_part(lambda: try_all(given.words or [*WORDS, *SCENARIOS], given.stride))
