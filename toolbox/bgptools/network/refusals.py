"""Refusals, each explained in a sentence that names the setting, session or router that it is about."""
from __future__ import annotations

from typing import Callable, Dict, List, Optional

from ..program.language import MOST, NUMBERS, SETTING_NAMES, as_path, fault, words_of
from ..program.language_table import FORMS, LIMITS, NODES
from ..program.mistakes import Mistake
from .configuration import Network, pair


class Refusal(Mistake):
    """A command that the program refused: the command, the number and name of docs/reference/language.md, and a sentence that explains it."""

    def __init__(self, command: str, reply: str, explanation: str, file: Optional[str] = None, line: Optional[int] = None):
        super().__init__("%s: %s" % (reply, explanation), file, line)
        _, number, self.name = reply.split(" ")
        self.command, self.number, self.explanation = command, int(number), explanation


def refused(line: str, reply: List[str], network: Network) -> Refusal:
    """The refusal of a line, explained with the names of routers, where the network is as it was configured then."""
    return Refusal(line, reply[0], network.names.in_text(sentence(line, int(reply[0].split(" ")[1]), network)))


def sentence(line: str, number: int, network: Network) -> str:
    """Why a line was refused by this number, where the network is as it was configured then."""
    words = words_of(line)
    if number == NUMBERS["syntax"]:
        return fault(line) or "the line spells no command"
    return _SENTENCES[number](words, network)


def _no_router(words: List[str], network: Network) -> str:
    form = next(form for form in FORMS if form.name == words[0])
    named = [word for word, want in zip(words, form.words) if want in NODES]
    missing = [word for word in named if word not in network.nodes]
    return "there is no router or virtual peer %s" % " and no ".join(dict.fromkeys(missing))


def _router_exists(words: List[str], network: Network) -> str:
    node = network.nodes[words[1]]
    return "%s is there already: a %s of AS %d" % (words[1], "virtual peer" if node.is_virtual else "router", node.asn)


def _bad_end(words: List[str], network: Network) -> str:
    one = words[1]
    if words[0] in ("link", "join"):
        return "%s and %s are both virtual peers; one end has to be a router" % (one, words[2])
    if words[0] == "feed" and network.is_router(one):
        return "%s is a router; only a virtual peer is fed" % one
    if words[0] == "feed":
        return "%s is a virtual peer; a feed goes to a router" % words[2]
    return "%s is a virtual peer, and `%s` is about a router" % (one, words[0])


def _virtual_inside(words: List[str], network: Network) -> str:
    virtual = words[2] if network.is_router(words[1]) else words[1]
    return "the virtual peer %s is in AS %d like the other end; a virtual peer belongs to another AS" % (virtual, network.nodes[virtual].asn)


def _not_linked(words: List[str], network: Network) -> str:
    one, other = words[1:3]
    return "%s is in AS %d and %s in AS %d: an external session needs a link between them, `link %s %s M`" % (
        one, network.nodes[one].asn, other, network.nodes[other].asn, one, other)


def _no_session(words: List[str], network: Network) -> str:
    one, other = words[1:3]
    return "there is no session of %s and %s; `join %s %s` makes one" % (one, other, one, other)


def _internal_only(words: List[str], network: Network) -> str:
    one, other = words[1:3]
    return "the session of %s and %s is external (AS %d and AS %d); `%s` is for internal ones" % (
        one, other, network.nodes[one].asn, network.nodes[other].asn, words[0])


def _rule_not_allowed(words: List[str], network: Network) -> str:
    one, other, way = words[1:4]
    settings = [word for word in words if word.split("=")[0] in SETTING_NAMES and "=" in word]
    if not network.is_external(one, other):
        return "%s on the session of %s and %s, which is internal: there a rule has no settings" % (" ".join(settings), one, other)
    wrong = next((word for word in settings if word.startswith("prepend" if way == "in" else "pref=")), settings[0])
    why = "the own AS is put in front on the way out only" if way == "in" else "a preference is set on the way in only, since other ASes are not told it"
    return "%s on the way %s, on the session of %s and %s: %s" % (wrong, way, one, other, why)


def session_down(words: List[str], network: Network) -> str:
    """Why the session of the two that stand behind a command is down, where it is."""
    one, other = words[1:3]
    key = pair(one, other)
    if not network.enabled[key]:
        return "the session of %s and %s is stopped" % (one, other)
    if network.is_external(one, other):
        return "the session of %s and %s is down: the link between them has failed, or is none" % (one, other)
    return "the session of %s and %s is down: there is no way from one to the other inside the AS" % (one, other)


def _first_as(words: List[str], network: Network) -> str:
    return "the path %s does not begin with AS %d, the AS of %s" % (words[5], network.nodes[words[1]].asn, words[1])


def _limit(words: List[str], network: Network) -> str:
    if words[0] == "feed":
        count = sum(len(numbers) for _, numbers in as_path(words[5]) or [])
        if count > MOST["fed_numbers"]:
            return "the path has %d AS numbers, and at most %d are taken" % (count, MOST["fed_numbers"])
        return "the route has %d communities, and at most %d are taken" % (words[8].count(",") + 1, MOST["fed_communities"])
    known = next(limit for limit in LIMITS if words[0] in limit.commands)
    return "no more than {:,} {} are taken".format(known.most, known.of)


_SENTENCES: Dict[int, Callable[[List[str], Network], str]] = {
    2: _no_router,
    3: _router_exists,
    4: lambda words, _: "both ends are %s" % words[1],
    5: _bad_end,
    6: _virtual_inside,
    7: lambda words, _: "there is no link between %s and %s" % (words[1], words[2]),
    8: lambda words, network: "%s and %s have a link already, of cost %d" % (words[1], words[2], network.links[pair(words[1], words[2])].metric),
    9: _not_linked,
    10: _no_session,
    11: lambda words, _: "%s and %s have a session already" % (words[1], words[2]),
    12: _internal_only,
    13: _rule_not_allowed,
    14: lambda words, _: "%s originates %s already" % (words[1], words[2]),
    15: lambda words, _: "%s does not originate %s" % (words[1], words[2]),
    16: session_down,
    17: lambda words, _: "no message waits from %s to %s" % (words[1], words[2]),
    18: _first_as,
    19: _limit,
    20: lambda *_: "memory was refused; nothing was done, and the command can be given again",
}
