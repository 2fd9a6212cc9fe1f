"""Who edited what, and when; and what takes an edit back, where one command does so exactly."""
from __future__ import annotations

from dataclasses import dataclass, field
from typing import Callable, Dict, List, Optional, Tuple

from ..network.configuration import Network, Pair, pair
from ..program.language import words_of
from ..program.language_table import FORMS

# What an edit is about: the name of a setting, and whose it is.
Thing = Tuple[str, ...]
Cell = Tuple[str, str, str]
OF_ONE = frozenset(form.name for form in FORMS if form.scope and "B" not in form.words)


@dataclass
class Edit:
    """An edit or a feed that was accepted: its step and entry, whose it was, and when (seconds since 1970, where it is
    known). `by` is who accepted it, of a proposal. `back` takes it back; it is empty where it changed nothing, and
    where there is none `why` says why. `before` has the last edit of each same thing before it."""
    step: int
    entry: int
    seat: int
    line: str
    at: Optional[float] = None
    by: Optional[int] = None
    back: Optional[str] = None
    why: str = ""
    before: Dict[Thing, "Optional[Edit]"] = field(default_factory=dict)


def about(words: List[str]) -> List[str]:
    """The routers and virtual peers that an edit is about."""
    return words[1:2] if words[0] in OF_ONE else words[1:3]


def things(words: List[str]) -> List[Thing]:
    """What an edit sets, so that another edit of the same takes its place. What is fed is gone with its session."""
    name, (one, other) = words[0], words[1:3]
    both = tuple(sorted((one, other)))
    if name in ("fail", "mend"):
        return [("up", *both)]
    if name in ("stop", "start"):
        return [("enabled", *both)]
    if name == "feed":
        return [("fed", one, other, words[4]), ("up", *both), ("enabled", *both)]
    if name in ("rule", "clear"):
        return [("policy", one, other, words[3])]
    if name in ("origin", "noorigin"):
        return [("origin", one, other)]
    if name == "metric":
        return [("metric", *both)]
    return [(name, one, other)] if name in ("client", "self") else [(name, one)]


class History:
    """The edits, and of each seat those that it can take back, the last one at the end."""

    def __init__(self, network: Network) -> None:
        self.network = network
        self.edits: List[Edit] = []
        self.own: Dict[int, List[Edit]] = {}
        self.by_router: Dict[str, List[Edit]] = {}
        self.last: Dict[Thing, Optional[Edit]] = {}
        # What virtual peers have told since their sessions came up.
        self.fed: Dict[Pair, Dict[Cell, str]] = {}

    def note(self, edit: Edit, is_undoing: bool) -> None:
        """Notes an accepted edit, before the network has it."""
        words = words_of(edit.line)
        self.edits.append(edit)
        for router in dict.fromkeys(about(words)):
            self.by_router.setdefault(router, []).append(edit)
        if is_undoing:
            self.take_back(edit.seat)
        else:
            edit.back, edit.why = self._back(words)
            edit.before = {thing: self.last.get(thing) for thing in things(words)}
            self.last.update(dict.fromkeys(edit.before, edit))
            self.own.setdefault(edit.seat, []).append(edit)
        self._feeds(words, edit.line)

    def take_back(self, seat: int) -> None:
        """The last edit of the seat counts no more."""
        stack = self.own.get(seat)
        if stack:
            self.last.update(stack.pop().before)

    def since(self, edit: Edit) -> Optional[Edit]:
        """An edit that came since about the same, by which it cannot be taken back."""
        found = [last for last in map(self.last.get, edit.before) if last is not None and last is not edit]
        return found[0] if found else None

    def of(self, router: str) -> List[Edit]:
        """The edits that are about a router, in order."""
        return self.by_router.get(router, [])

    def _feeds(self, words: List[str], line: str) -> None:
        if words[0] in ("stop", "fail"):
            self.fed.pop(pair(words[1], words[2]), None)
        elif words[0] == "feed":
            cells = self.fed.setdefault(pair(words[1], words[2]), {})
            cells.pop((words[1], words[2], words[4]), None)
            if words[3] == "update":
                cells[words[1], words[2], words[4]] = line

    def _back(self, words: List[str]) -> Tuple[Optional[str], str]:
        """The command that takes an edit back; or none, and why."""
        name = words[0]
        if name in _OPPOSITES:
            return self._opposite(words)
        if name in _SETTINGS:
            old = _SETTINGS[name](self.network, words)
            return "" if old == words[-1] else " ".join([*words[:-1], old]), ""
        if name == "feed":
            return self._unfed(words)
        if name in ("rule", "clear"):
            return self._policy(words)
        return None, _FOR_GOOD[name].format(*words)

    def _opposite(self, words: List[str]) -> Tuple[Optional[str], str]:
        one, other = words[1:3]
        link, is_enabled = self.network.links.get(pair(one, other)), self.network.enabled.get(pair(one, other))
        if words[0] in ("fail", "mend") and link is not None and link.is_up != (words[0] == "fail"):
            return "", ""
        if words[0] in ("stop", "start") and is_enabled != (words[0] == "stop"):
            return "", ""
        if words[0] in ("fail", "stop") and self.fed.get(pair(one, other)):
            return None, "what the virtual peer told is gone with the session: `%s %s %s`, and then feed it again" % (
                _OPPOSITES[words[0]], one, other)
        return " ".join([_OPPOSITES[words[0]], one, other]), ""

    def _unfed(self, words: List[str]) -> Tuple[Optional[str], str]:
        old = self.fed.get(pair(words[1], words[2]), {}).get((words[1], words[2], words[4]))
        if old is None and words[3] == "withdraw":
            return "", ""
        return old or "feed %s %s withdraw %s" % (words[1], words[2], words[4]), ""

    def _policy(self, words: List[str]) -> Tuple[Optional[str], str]:
        count = len(self.network.rules.get((words[1], words[2], words[3]), []))
        if words[0] == "clear":
            between = "the %d rules of the policy would come back one by one, and routes pass in between" % count
            return (None, between) if count else ("", "")
        if not count:
            return "clear %s %s %s" % (words[1], words[2], words[3]), ""
        return None, "no command takes away one rule, and without the %d before it routes would pass in between" % count


_OPPOSITES = {form.name: form.opposite for form in FORMS if form.opposite}
_SETTINGS: Dict[str, Callable[[Network, List[str]], str]] = {
    "metric": lambda network, words: str(network.links[pair(words[1], words[2])].metric),
    "client": lambda network, words: "on" if (words[1], words[2]) in network.clients else "off",
    "self": lambda network, words: "on" if (words[1], words[2]) in network.selves else "off",
    "cluster": lambda network, words: network.clusters.get(words[1], words[1]),
    "med": lambda network, words: "always" if words[1] in network.med_always else "as"}
_FOR_GOOD = {
    "router": "no command takes away a router", "virtual": "no command takes away a virtual peer",
    "link": "no command takes away a link; `fail {1} {2}` takes it down",
    "join": "no command takes away a session; `stop {1} {2}` disables it"}
