"""The prompt of `join`: that of `play`, on a network that several share."""
from __future__ import annotations

import sys
import threading
import time
from typing import Any, Callable, Dict, Iterable, List, Optional

from ...convergence.run import Run
from ...convergence.transcript import tell
from ...network.configuration import Direction, Network
from ...program import communities
from ...program.grammar import Form
from ...program.language import escaped, readable, words_of
from ...program.language_table import FORMS
from ...program.mistakes import Mistake
from ...program.names import Names
from ...program.replies import refusal
from ...program.script import Line, read
from ...session.client import Client, Message
from ...session.messages import bytes_of, shown
from ...session.proposal import LONGEST_NAME
from .local import OWN, PAD, Prompt, expect, path_of

TOGETHER = "work together"
CHANGED = ("undo", "converge", "next")
WORDS = tuple(form for form in OWN if form.words[0] not in CHANGED) + tuple(
    Form(spelling, meaning, TOGETHER) for spelling, meaning in (
        ("next", "deliver the next waiting message by hand"),
        ("converge", "deliver by hand until all queues are empty"),
        ("undo", "take back your last edit, where one edit does so exactly"),
        ("watch edits|all|off", "show what others change, as they do; with `all` deliveries, too"),
        ("who", "who is there, what the workers do, and whether anything waits"),
        ("blame R", "who edited what about a router, and when"),
        ("pause", "the workers deliver nothing"),
        ("step [COUNT]", "the workers deliver one message, or so many, and pause"),
        ("go", "the workers deliver again"),
        ("pace COUNT", "the workers deliver so many messages a second at most; `pace max`, as many as they can"),
        ("wait quiet", "wait until all queues are empty"),
        ("propose FILE", "show all what the commands of the file would do"),
        ("accept [COUNT]", "make the proposal of another one, which has this number where there are several"),
        ("decline [COUNT]", "take a proposal away"),
        ("check", "give the log so far to `bgpsim replay`"),
        ("free NAME", "let whoever comes next have a name, where its owner has lost it")))
WATCHED = {"edits": "what others edit is shown", "all": "what others edit is shown, and what is delivered",
           "off": "nothing is shown"}
# A converge by hand ends after so many deliveries.
MOST = 10000


class Mirror(Run):
    """What is configured and named in the shared network, by its lines. It has no program: the share answers."""

    def __init__(self, network: Network) -> None:  # pylint: disable=super-init-not-called
        self.network = network
        self.taken: List[str] = []

    @property
    def lines(self) -> List[str]:
        return self.taken

    @lines.setter
    def lines(self, accepted: List[str]) -> None:
        self.taken = accepted

    def take(self, lines: Iterable[str]) -> None:
        """More lines of the shared script."""
        for line in map(bytes_of, lines):
            self.taken.append(line)
            if not self.network.names.take(line):
                self.network.take(words_of(line))

    def close(self) -> None:
        """There is nothing to be closed."""


class Shown:
    """Where events go: to the terminal at once while a line is typed, else before the next prompt."""

    def __init__(self) -> None:
        self.lock = threading.Lock()
        self.kept: List[str] = []
        self.is_typing = False
        # Lets a function print above the line that is typed, if lines are edited.
        self.above: Optional[Callable[[Callable[[], None]], None]] = None

    def tell(self, lines: List[str]) -> None:
        """Shows lines, now or soon. Any thread may call it."""
        with self.lock:
            self.kept += lines
            is_now = self.is_typing and bool(lines)
        if is_now and self.above:
            self.above(self.show)
        elif is_now:
            self.show()

    def show(self) -> None:
        """Shows what is kept."""
        with self.lock:
            self._show()

    def _show(self) -> None:
        text = "".join(escaped(line) + "\n" for line in self.kept)
        self.kept = []
        sys.stdout.flush()
        sys.stdout.buffer.write(text.encode(sys.stdout.encoding, "backslashreplace"))
        sys.stdout.buffer.flush()

    def begin(self) -> None:
        """A line is about to be typed."""
        with self.lock:
            self._show()
            self.is_typing = True

    def end(self) -> None:
        """It was typed."""
        with self.lock:
            self.is_typing = False


class SharedPrompt(Prompt):
    """A prompt whose lines are calls in a shared network."""

    def __init__(self, path: str, name: str) -> None:
        self.shown = Shown()
        self.answer: Message = {}
        self.watches = "off"
        self.seat: Optional[int] = None
        # Of each proposal that was shown, for how many edits it was.
        self.seen: Dict[int, int] = {}
        self.mirror = Mirror(Network())
        self.distant = Client(path, name, self._hear)
        self.seat = self.distant.seat
        super().__init__(MOST)
        self.forms = FORMS + WORDS
        self.lines = self.mirror.taken
        self.own.update({
            "watch": self.watch, "who": self.who, "blame": self.blame, "pause": self.pause, "step": self.step,
            "go": self.go, "pace": self.pace, "wait": self.wait, "propose": self.propose, "accept": self.accept,
            "decline": self.decline, "check": self.check, "free": self.free})
        self.sync()

    def _played(self, lines: List[str]) -> Run:
        return self.mirror

    def mend(self) -> None:
        """Nothing is left that a command was stopped in: the share has the network."""
        self.changes = []

    def ask(self, do: str, **more: Any) -> Message:
        """A request. Ctrl-C waits for its answer, and a second one does not."""
        with self.keyboard.held():
            return self.distant.ask(do, **more)

    def sync(self) -> None:
        """Takes over what was changed since the last time."""
        while True:
            told = self.ask("script", **{"from": len(self.lines)})
            self.mirror.take(told["lines"])
            if len(self.lines) >= told["step"]:
                return

    def fresh(self) -> Network:
        """The network as it is configured now."""
        self.sync()
        return self.mirror.network

    # What is typed

    def take(self, line: str) -> None:
        """One line that was typed. Mistake where the share has gone."""
        self.keyboard.begin()
        self.sync()
        super().take(line)
        if self.distant.is_torn:
            self.sync()
            self.ask("watch", what=self.watches)

    def command(self, line: str) -> None:
        """A line for the shared network."""
        self._say(self._with_addresses(line))
        tell(PAD, self.answer["reply"] + self.answer["told"], self.mirror.network.names)
        if refusal(self.answer["reply"]):
            self._suggest(line)

    def _say(self, line: str) -> List[str]:
        self.answer = self.ask("call", line=shown(line))
        reply: List[str] = self.answer["reply"]
        return reply

    def _why(self, line: str, reply: List[str]) -> str:
        text: str = self.answer["told"][0]
        return text[len("-- "):]

    def _on_a_copy(self, tool: Any, words: List[Optional[str]]) -> None:
        self.sync()
        super()._on_a_copy(tool, words)

    def waiting(self) -> List[Direction]:
        """Where messages wait, in order; of many the first."""
        return [(one, other) for one, other in self.ask("waiting")["ways"]]

    def _tell(self, lines: Iterable[str]) -> None:
        tell(PAD, list(lines), self.fresh().names)

    # Deliveries

    def next(self, _: List[str]) -> None:
        """Delivers one message by hand."""
        self._next()

    def _next(self) -> bool:
        told = self.ask("next")
        is_quiet = bool(told.get("quiet"))
        self._tell(["quiet: no message waits"] if is_quiet else ["%s: %s" % (told["line"], told["reply"][0])])
        return not is_quiet

    def converge(self, _: List[str]) -> None:
        """Delivers by hand until all queues are empty."""
        count = 0
        while self._next():
            count += 1
            if count == self.most:
                raise Mistake("it is not quiet after %d deliveries" % count)

    def pause(self, _: List[str]) -> None:
        """The workers pause."""
        self.ask("pause")

    def go(self, _: List[str]) -> None:
        """The workers go on."""
        self.ask("go")

    def step(self, words: List[str]) -> None:
        """The workers deliver some messages, and pause."""
        expect(words, 1, 2, "step [COUNT]")
        told = self.ask("step", count=_count(words[1]) if words[1:] else 1)
        found = ["%s: %s" % (each["line"], each["reply"][0]) for each in told["deliveries"]]
        self._tell(found or ["quiet: no message waits"])

    def pace(self, words: List[str]) -> None:
        """How fast the workers deliver."""
        expect(words, 2, 2, "pace COUNT")
        self.ask("pace", a_second=None if words[1] == "max" else _rate(words[1]))

    def wait(self, words: List[str]) -> None:
        """Waits until all queues are empty."""
        if words[1:] != ["quiet"]:
            raise Mistake("`wait quiet` is expected")
        # Here Ctrl-C does not wait.
        self.distant.ask("wait")
        self._tell(["quiet"])

    # The others

    def watch(self, words: List[str]) -> None:
        """Whether what others change is shown."""
        expect(words, 1, 2, "watch edits|all|off")
        self.watches = self.ask("watch", what=words[1] if words[1:] else "edits")["what"]
        self._tell([WATCHED[self.watches]])

    def who(self, _: List[str]) -> None:
        """Who is there."""
        told = self.ask("who")
        for each in told["people"]:
            name = each["name"] + (" (you)" if each["name"] == self.distant.name else "")
            places = "here at %d places" % each["here"] if each["here"] > 1 else "here" if each["here"] else "not here"
            calls = "%d call%s" % (each["calls"], _s(each["calls"]))
            print(PAD + escaped("%s: seat %d, %s, %s" % (name, each["seat"], places, calls)))
        count = told["workers"]["calls"]
        print("%s%s; %d deliver%s; %s" % (PAD, told["workers"]["text"], count, "y" if count == 1 else "ies",
                                          "quiet" if told["quiet"] else "messages wait"))
        for each in told["proposals"]:
            print(PAD + escaped("proposal %d of %s, %s" % (each["number"], each["who"], each["name"])))

    def blame(self, words: List[str]) -> None:
        """Who edited what about a router."""
        expect(words, 2, 2, "blame R")
        router = self._address(words[1])
        edits = self.ask("blame", router=router)["edits"]
        for each in edits:
            at = "-" if each["at"] is None else time.strftime("%Y-%m-%d %H:%M:%S", time.localtime(each["at"]))
            by = "" if each["by"] is None else " (accepted by %s)" % each["by"]
            self._tell(["%s  %s: %s%s" % (at, each["who"], each["line"], by)])

    def undo(self, _: List[str]) -> None:
        """Takes back the own last edit."""
        self._tell([self.ask("undo")["text"]])

    def propose(self, words: List[str]) -> None:
        """Shows all what a change would do."""
        expect(words, 2, 2, "propose FILE")
        given = [line.text + _marked(line) for line in read(path_of(words[1]))]
        self.ask("propose", name=readable(words[1])[-LONGEST_NAME:], lines=list(map(shown, given)))

    def accept(self, words: List[str]) -> None:
        """Makes the proposal of another one."""
        expect(words, 1, 2, "accept [COUNT]")
        number = _count(words[1]) if words[1:] else None
        # What is accepted is what was seen.
        seen = self.seen.get(number) if number is not None else None
        self.ask("accept", number=number, edits=seen)

    def decline(self, words: List[str]) -> None:
        """Takes a proposal away."""
        expect(words, 1, 2, "decline [COUNT]")
        self.ask("decline", number=_count(words[1]) if words[1:] else None)

    def check(self, _: List[str]) -> None:
        """Gives the log to `replay`."""
        told = self.ask("check")
        calls = "%d call%s" % (told["calls"], _s(told["calls"]))
        self._tell(["the log has %s, and `replay` says: %s" % (calls, told["verdict"])])

    def free(self, words: List[str]) -> None:
        """Lets whoever comes next have a name."""
        expect(words, 2, 2, "free NAME")
        self._tell([self.ask("free", name=readable(words[1]))["text"]])

    # What happens

    def _hear(self, event: Message) -> None:
        """Shows an event, by another thread."""
        names = self.mirror.network.names
        if event["event"] == "proposal":
            self.seen[event["number"]] = event["edits"]
        for each in event.get("changes", []):
            names.take(bytes_of(each["line"]))
        self.shown.tell([PAD + line for line in _TOLD.get(event["event"], _text)(event, self.seat, names)])


def _s(count: int) -> str:
    return "" if count == 1 else "s"


def _marked(line: Line) -> str:
    """The mark of a command that is meant to be refused, which is no part of its text."""
    if line.expected is None:
        return ""
    return " # expect refused" + (" %d" % line.expected if line.expected else "")


def _count(word: str) -> int:
    if not word.isdigit():
        raise Mistake("`%s`: a number is expected" % readable(word))
    return int(word)


def _rate(word: str) -> float:
    try:
        return float(word)
    except ValueError:
        raise Mistake("`%s`: a number is expected, or `max`" % readable(word)) from None


def _changes(event: Message, own: Optional[int], names: Names) -> List[str]:
    """What others changed."""
    found = []
    for each in event["changes"]:
        is_delivery, is_name = each["line"].startswith("deliver "), each["line"].startswith("#")
        named = communities.in_text(names.in_text(each["line"]))
        line = " ".join(words_of(each["line"].lstrip(" #"))) if is_name else named
        if each["seat"] != own:
            found.append("* %s: %s%s" % (each["who"], line, ": " + each["reply"] if is_delivery else ""))
    return found


def _proposal(event: Message, _: Optional[int], __: Names) -> List[str]:
    """A proposal, with what it would do."""
    head = "* proposal %d of %s, %s: `accept %d` makes it, `decline %d` takes it away" % (
        event["number"], event["who"], event["name"], event["number"], event["number"])
    return [head] + ["  " + line for line in event["text"].rstrip("\n").split("\n")]


def _text(event: Message, _: Optional[int], names: Names) -> List[str]:
    """What is told in words."""
    return ["* " + names.in_text(event.get("text", event["event"]))]


# Any other event is told by its text.
_TOLD: Dict[str, Callable[[Message, Optional[int], Names], List[str]]] = {"changes": _changes, "proposal": _proposal}
