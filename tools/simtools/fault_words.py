"""The requests that faults are injected into: how each is prepared and made, and what it does when all goes well."""
from __future__ import annotations

import contextlib
import time
import urllib.parse
from typing import Any, Callable, Dict, List, NamedTuple, Optional, Sequence, Tuple

from .fault_clients import Client, Entry, Fetched, Outcome, PageClient, Server, SocketClient, Wrong, fetched

SCRIPT = """router 1.0.0.1 1
router 2.0.0.1 2
router 3.0.0.1 3
link 1.0.0.1 2.0.0.1 1
link 2.0.0.1 3.0.0.1 1
join 1.0.0.1 2.0.0.1
join 2.0.0.1 3.0.0.1
origin 2.0.0.1 10.1.0.0/16
"""
# The routers' seats: the script has 0, and two workers share the routers.
WORKERS = (1, 2)
# What a fault left behind is gone after so many seconds: of a server, after one or two.
HEALED = 60.0
SOCKET, PAGE, GET = "socket", "page", "get"
Call = Tuple[int, str]
Fields = Dict[str, Any]


class Scene:
    """A server with two people: whose request the fault hits, and another one, who watches all that happens."""

    def __init__(self, way: str, tool: str, is_kept: bool = True) -> None:
        self.way = way
        self.server = Server(tool, SCRIPT, ("--workers", "2"), is_kept=is_kept)
        try:
            self.number = 0
            self.is_origin = False
            self.other: Client = SocketClient(self.server.socket)
            self.other.enter("other")
            self.other.ask("watch", what="all")
            self.other.ask("go")
            self.other.ask("wait")
            self.other.ask("pause")
            self.actor = self.client("actor", "")
        except BaseException:
            self.server.close()
            raise

    def client(self, name: str, token: str) -> Client:
        """One who joins it by the way of the request."""
        if self.way == PAGE:
            return PageClient(self.server.port, self.server.key, name, token)
        made = SocketClient(self.server.socket)
        made.enter(name, token)
        return made

    def next(self) -> int:
        """A number that was not used before."""
        self.number += 1
        return self.number

    def renew_actor(self) -> None:
        """The actor connects again, where his connection ended."""
        self.actor.drain()
        if self.actor.is_closed:
            self.actor.close()
            self.actor = self.client("actor", self.actor.token)

    def renew_other(self) -> None:
        """The other one connects again, where his connection ended."""
        self.other.drain()
        if self.other.is_closed:
            self.other.close()
            token = self.other.token
            self.other = SocketClient(self.server.socket)
            self.other.enter("other", token)
            self.other.ask("watch", what="all")

    def begin_again(self) -> None:
        """All is as it was before the first request: workers pause, nothing waits, and no proposal is open."""
        self.renew_actor()
        self.renew_other()
        self.other.ask("pause")
        self.quiet()
        self.declined()

    def toggle(self) -> str:
        """An edit that puts messages into queues."""
        self.is_origin = not self.is_origin
        return "%s 1.0.0.1 10.9.0.0/16" % ("origin" if self.is_origin else "noorigin")

    def edit(self, client: Client, line: str) -> None:
        """An edit that has to succeed."""
        told = client.ask("call", line=line)
        if told["reply"] != ["ok"]:
            raise Wrong("`%s` is answered by %s" % (line, told))

    def metric(self) -> str:
        """An edit that no other has made."""
        return "metric 1.0.0.1 2.0.0.1 %d" % (self.next() % 60000 + 2)

    def quiet(self) -> None:
        """Messages are delivered, and the workers pause."""
        while "quiet" not in self.other.ask("next"):
            pass

    def proposals(self) -> List[Fields]:
        """Those that are open."""
        found: List[Fields] = self.other.ask("proposals")["proposals"]
        return found

    def declined(self) -> None:
        """No proposal is open."""
        for each in self.proposals():
            self.other.ask("decline", number=each["number"])

    def proposal(self, maker: Client) -> Fields:
        """One that is open, was shown and is not stale."""
        self.declined()
        maker.ask("propose", name="change", lines=[self.metric()])
        found = self.proposals()
        if len(found) != 1:
            raise Wrong("one proposal was made, and open are %s" % found)
        return found[0]


def nothing(_: Scene) -> None:
    """Nothing has to be prepared."""


class Word(NamedTuple):
    """A request. `calls` are those that it makes; None for deliveries, which the answer lists. `is_same` says that it
    changes nothing, so that it is answered the same when it is made again. `wrong` says what is wrong with an answer
    that is no error, and `left` what is wrong with what is left behind, whatever it was answered."""
    do: str
    fields: Callable[[Scene], Fields] = lambda _: {}
    prepare: Callable[[Scene], None] = nothing
    calls: Optional[Callable[[Scene, Fields], List[Call]]] = lambda _, __: []
    is_same: bool = False
    wrong: Callable[[Scene, Fields, List[Entry]], str] = lambda _, __, ___: ""
    left: Callable[[Scene, Outcome], str] = lambda _, __: ""
    run: Optional[Callable[[Scene, Fields], Outcome]] = None
    ways: Sequence[str] = (SOCKET, PAGE)
    # So many tries of the gate: what has worker processes start takes longer.
    tries: int = 10
    tool: str = ""


# What is to be prepared, and what is wrong

def waiting(scene: Scene) -> None:
    """A message waits."""
    scene.quiet()
    line = scene.toggle()
    reply = scene.other.ask("call", line=line)["reply"]
    if reply != ["ok"]:
        scene.edit(scene.other, scene.toggle())


def edited(scene: Scene) -> None:
    """The last edit is the actor's."""
    scene.edit(scene.actor, scene.metric())


def proposed(scene: Scene) -> None:
    """The other one has proposed something."""
    found = scene.proposals()
    edits = [each for each in found if each["who"] == "other"]
    if len(found) != 1 or not edits:
        scene.proposal(scene.other)


def fresh(scene: Scene) -> None:
    """As `proposed`, and the network is as it was."""
    scene.proposal(scene.other)


def stale(scene: Scene) -> None:
    """As `proposed`, and the network was edited since."""
    proposed(scene)
    scene.edit(scene.other, scene.metric())


def free_name(scene: Scene) -> None:
    """The name `guest` can be entered."""
    with contextlib.suppress(Wrong):
        scene.other.ask("free", name="guest")


def taken_name(scene: Scene) -> None:
    """The name `guest` has a token."""
    free_name(scene)
    guest = SocketClient(scene.server.socket)
    guest.enter("guest")
    guest.close()


def replied(_: Scene, answer: Fields, entries: List[Entry]) -> str:
    """The reply is that of the log."""
    return "" if entries and answer["reply"] == entries[0].reply else "the log has another reply"


def delivered(_: Scene, answer: Fields, entries: List[Entry]) -> str:
    """The deliveries that are reported are those of the log."""
    told = answer["deliveries"] if "deliveries" in answer else [answer] if "line" in answer else []
    found = [(each["line"], each["reply"]) for each in told]
    return "" if found == [(each.line, each.reply) for each in entries] else "the log has other deliveries"


def has_verdict(_: Scene, answer: Fields, __: List[Entry]) -> str:
    """`replay` says that the log is one."""
    return "" if answer["verdict"] == "ok %d" % answer["calls"] else "another verdict is expected"


def counts(scene: Scene, answer: Fields, _: List[Entry]) -> str:
    """The calls that are reported are those of the log."""
    return "" if answer["calls"] == len(scene.server.entries()) else "the log has another number of calls"


def undone(scene: Scene, fields: Fields) -> List[Call]:
    """The call that takes back the last edit: the metric that was set before."""
    lines = [each.line for each in scene.server.entries() if each.line.startswith("metric 1.0.0.1 2.0.0.1 ")]
    return [(scene.actor.seat, lines[-2] if len(lines) > 1 else "metric 1.0.0.1 2.0.0.1 1")]


def accepted(scene: Scene, _: Fields) -> List[Call]:
    """The calls of the proposal that is open."""
    return [(scene.other.seat, line) for line in scene.proposals()[0]["lines"]]


def is_declined(scene: Scene, outcome: Outcome) -> str:
    """A proposal is gone where that was answered, and there where it was not done."""
    is_open = bool(scene.proposals())
    if outcome.error is None and is_open:
        return "the proposal is open still"
    return "the proposal is gone" if "not done" in (outcome.error or "") and not is_open else ""


def is_proposed(scene: Scene, outcome: Outcome) -> str:
    """A proposal is open where that was answered, and was shown."""
    found = scene.proposals()
    if outcome.error is None and len(found) != 1:
        return "the proposal is not open"
    last = time.monotonic() + HEALED
    hidden = [each for each in found if not each["text"]]
    while hidden and time.monotonic() < last:
        time.sleep(0.1)
        hidden = [each for each in scene.proposals() if not each["text"]]
    scene.declined()
    return "a proposal is open that was not shown" if hidden or len(found) > 1 else ""


def can_enter(scene: Scene, outcome: Outcome) -> str:
    """Who was not let in enters by the same name; who was, by his token."""
    answer = outcome.answer or {}
    if outcome.error is None and "token" not in answer:
        return "no token is told"
    if outcome.answer is None or "could not be made" in str(answer.get("error")):
        # The answer was lost, and the token with it: who teaches frees the name.
        free_name(scene)
    again = SocketClient(scene.server.socket)
    with contextlib.closing(again):
        found = again.request("enter", **{"as": "guest"}, **({"token": answer["token"]} if "token" in answer else {}))
        return "" if found.error is None else "the name is not entered again: %s" % found.error


def is_named(scene: Scene, outcome: Outcome) -> str:
    """A router has the name where that was answered, and has not where it was not done."""
    lines = scene.other.ask("script", **{"from": 0})["lines"]
    is_there = "# name 1.0.0.1 edge%d" % scene.number in lines
    if outcome.error is None and not is_there:
        return "the name is not there"
    return "the name is there" if is_there and "not done" in (outcome.error or "") else ""


# Requests that are no words

def entering(scene: Scene, fields: Fields) -> Outcome:
    """A new connection that enters."""
    made = SocketClient(scene.server.socket)
    with contextlib.closing(made):
        found = made.request("enter", **fields)
        return found


def connecting(scene: Scene, _: Fields) -> Outcome:
    """A connection that asks nothing and goes."""
    SocketClient(scene.server.socket).close()
    return Outcome({})


def leaving(scene: Scene, _: Fields) -> Outcome:
    """Who has a seat goes."""
    scene.actor.close()
    scene.actor.is_closed = True
    return Outcome({})


def page_opening(scene: Scene, fields: Fields) -> Outcome:
    """A page that opens, as one without a name, and goes."""
    try:
        made = PageClient(scene.server.port, scene.server.key, fields["as"])
    except Wrong as wrong:
        return Outcome({"error": str(wrong)})
    made.close()
    return Outcome({})


def going(scene: Scene, _: Fields) -> Outcome:
    """Lets the workers go, until all is quiet."""
    found = scene.actor.request("go")
    if found.error is None:
        scene.other.request("wait")
    return found


def has_gone(scene: Scene, outcome: Outcome) -> str:
    """He is not there any more."""
    last = time.monotonic() + HEALED
    while time.monotonic() < last:
        if {each["name"]: each["here"] for each in scene.other.ask("who")["people"]}["actor"] == 0:
            return ""
        time.sleep(0.05)
    return "who has gone is told to be here"


def got(scene: Scene, path: str) -> Outcome:
    """What a GET is answered."""
    found: Fetched = fetched(scene.server.port, scene.server.key, path)
    if found.status == 0:
        return Outcome(None, "the connection ended")
    text = found.body.decode("latin-1")
    return Outcome({"body": text} if found.status == 200 else {"error": "HTTP %d: %s" % (found.status, text)})


def get(path: str, tries: int = 8, prepare: Callable[[Scene], None] = nothing) -> Word:
    """A request by GET, which is answered the same when it is made again."""
    return Word("get", run=lambda scene, _: got(scene, path), is_same=True, ways=(GET,), tries=tries, prepare=prepare)


def other_edits(scene: Scene) -> None:
    """An edit, so that no picture is kept."""
    scene.edit(scene.other, scene.metric())


def _call(line: Callable[[Scene], str]) -> Callable[[Scene], Fields]:
    return lambda scene: {"line": line(scene)}


def _made(scene: Scene, fields: Fields) -> List[Call]:
    return [(scene.actor.seat, fields["line"])]


TABLE = "table?" + urllib.parse.urlencode({"router": "1.0.0.1", "prefix": "10.1.0.0/16"})
WORDS: Dict[str, Word] = {
    "call": Word("call", _call(Scene.metric), calls=_made, wrong=replied, tries=24),
    "question": Word("call", _call(lambda _: "best 3.0.0.1 10.1.0.0/16"), calls=_made, wrong=replied),
    "refused": Word("call", _call(lambda _: "router 1.0.0.1 1"), calls=_made, wrong=replied),
    "name": Word("call", _call(lambda scene: "# name 1.0.0.1 edge%d" % scene.next()), left=is_named),
    "ask": Word("ask", _call(lambda _: "routes 3.0.0.1"), is_same=True),
    "script": Word("script", lambda _: {"from": 0}, is_same=True),
    "waiting": Word("waiting", prepare=waiting, is_same=True),
    "next": Word("next", prepare=waiting, calls=None, wrong=delivered, tries=20),
    "watch": Word("watch", lambda _: {"what": "all"}, is_same=True, tries=6),
    "who": Word("who", wrong=counts),
    "blame": Word("blame", lambda _: {"router": "1.0.0.1"}, is_same=True),
    "undo": Word("undo", prepare=edited, calls=undone, tries=20),
    "pause": Word("pause", tries=6),
    "go": Word("go", prepare=Scene.quiet, tries=6),
    "pace": Word("pace", lambda _: {"a_second": None}, tries=6),
    "step": Word("step", lambda _: {"count": 40}, prepare=waiting, calls=None, wrong=delivered, tries=20),
    "wait": Word("wait", prepare=Scene.quiet, tries=8),
    "propose": Word("propose", lambda scene: {"name": "change", "lines": [scene.metric()]}, prepare=Scene.declined,
                    left=is_proposed, tries=8),
    "proposals": Word("proposals", prepare=proposed, is_same=True, tries=6),
    "accept": Word("accept", prepare=fresh, calls=accepted, tries=8),
    "accept-stale": Word("accept", prepare=stale, tries=6),
    "decline": Word("decline", prepare=proposed, left=is_declined, tries=6),
    "check": Word("check", wrong=has_verdict, tries=6),
    "free": Word("free", lambda _: {"name": "guest"}, prepare=taken_name),
    "show": Word("show", lambda _: {"step": 3}, tries=4, tool="lab"),
    "deliver": Word("go", prepare=waiting, calls=None, run=going, tries=24, ways=(SOCKET,)),
    "enter": Word("enter", lambda _: {"as": "guest"}, prepare=free_name, run=entering, left=can_enter, tries=20,
                  ways=(SOCKET,)),
    "connect": Word("connect", run=connecting, ways=(SOCKET,)),
    "disconnect": Word("disconnect", run=leaving, left=has_gone),
    "open": Word("open", lambda _: {"as": ""}, run=page_opening, ways=(GET,), tries=20),
    "picture": get("picture?prefix=10.1.0.0/16", prepare=other_edits),
    "picture-again": get("picture?prefix=10.1.0.0/16"),
    "table": get(TABLE), "steps": get("steps"), "page-script": get("script"), "record": get("record"),
    "forms": get("forms", 4), "file": get("lab.css", 4), "start": get("", 4)}
