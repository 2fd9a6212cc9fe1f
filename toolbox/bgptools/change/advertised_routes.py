"""What a router advertises to a peer, or why nothing: worked out from the script, and compared with the program."""
from __future__ import annotations

from dataclasses import dataclass, field
from typing import Dict, List, Optional, Tuple

from ..convergence.run import Run
from ..network.advertisement import deciding, is_open, permits
from ..network.configuration import Network
from ..network.refusals import session_down
from ..program import communities
from ..program.language import in_front
from ..program.mistakes import Mistake
from ..program.names import Names
from ..program.reasons import named
from ..program.replies import Attributes, Route, best, reasons, refusal, routes

FIELDS = (("path", "path"), ("origin", "origin"), ("next", "next hop"), ("med", "MED"), ("pref", "preference"),
          ("oid", "ORIGINATOR_ID"), ("clusters", "CLUSTER_LIST"), ("comms", "communities"))
UNTOLD = "it is not told to another AS"


@dataclass
class Made:
    """What is advertised of a chosen route, and for each attribute why it may differ."""
    attributes: Attributes
    whys: Dict[str, str]


@dataclass
class Advert:
    """The route that was chosen, and what the program says is advertised of it; why nothing is, or what is made of it,
    by which rule; and where the two do not agree."""
    chosen: Optional[Route]
    said: Optional[Attributes]
    whys: List[str] = field(default_factory=list)
    made: Optional[Made] = None
    rule: str = ""
    doubts: List[str] = field(default_factory=list)
    is_waiting: bool = False


class Teller:
    """A router, and a peer to which it may advertise."""

    def __init__(self, run: Run, router: str, peer: str) -> None:
        self.run, self.network, self.router, self.peer = run, run.network, router, peer
        self.names = run.network.names

    def advert(self, to: str) -> Advert:
        """What the router advertises to the peer for a prefix."""
        way = (self.router, self.peer)
        said = routes(self._ask("out %s %s" % way)).get(to)
        found = Advert(best(self._ask("best %s %s" % (self.router, to))), said.attributes if said else None)
        if not self.run.sessions_up([way])[way]:
            found.whys.append(self.names.in_text(session_down(["out", *way], self.network)))
        if found.chosen is None:
            found.whys += self._without_choice(to, found)
        else:
            found.whys += self._by_sessions(found.chosen)
            self._by_policy(found.chosen, found)
        found.is_waiting = self._ask("quiet") == ["no"]
        worked_out = found.made.attributes if found.made else None
        if worked_out != found.said:
            found.doubts.append(str(worked_out) if worked_out else "not advertised: " + "; ".join(found.whys))
        return found

    def _ask(self, question: str) -> List[str]:
        reply = self.run.ask([question])[0]
        if refusal(reply):
            raise Mistake("`%s` was answered %s" % (question, reply[0]))
        return reply

    def _without_choice(self, to: str, found: Advert) -> List[str]:
        """Why no route was chosen."""
        told = reasons(self._ask("why %s %s" % (self.router, to)))
        if not told:
            return ["it has no route: it originates none, and has received none over a session that is up"]
        lines = ["it chose no route, since it may choose none of those that it has"]
        for source, reason in told:
            lines.append("  from %s: %s" % (self.names.shown(source), self._exclusion(to, source, reason, found)))
        return lines

    def _exclusion(self, to: str, source: str, reason: str, found: Advert) -> str:
        """Why a route that was received may not be chosen; of one that is denied, by which rule."""
        if reason != "denied":
            return named(reason)
        received = routes(self._ask("in %s %s" % (self.router, source)))
        rules = self.network.rules.get((self.router, source, "in"), [])
        if to in received and not _is_let(rules, received[to]):
            return "denied: by " + self._rule(rules, source, "in", received[to])
        found.doubts.append("no import rule denies the route of %s" % self.names.shown(source))
        return named(reason)

    def _by_sessions(self, chosen: Route) -> List[str]:
        """Why the route is not advertised, by where it came from, what it carries and who the peer is."""
        network, router, peer, source = self.network, self.router, self.peer, str(chosen.source)
        shown, is_external = self.names.shown, network.is_external(router, peer)
        found = ["it was learned from this peer"] if source == peer else []
        for number in communities.withholding(chosen.attributes.communities, is_external):
            whom = "to no other AS (%s is in AS %d)" % (shown(peer), network.nodes[peer].asn)
            whom = "to no peer" if number == communities.NO_ADVERTISE else whom
            found.append("it carries %s: such a route is told %s" % (communities.told([number]), whom))
        is_through = source in ("self", peer) or is_open(network, router, source) or is_open(network, router, peer)
        if not is_through:
            found.append("it came from %s inside the AS, and neither that nor this peer is a client of %s"
                         % (shown(source), shown(router)))
        return found

    def _by_policy(self, chosen: Route, found: Advert) -> None:
        """What the export policy does: it denies the route, or makes something of what nothing else keeps back."""
        rules = self.network.rules.get((self.router, self.peer, "out"), [])
        rule = self._rule(rules, self.peer, "out", chosen) if _deciding(rules, chosen) is not None else ""
        if not _is_let(rules, chosen):
            found.whys.append("it is denied by " + rule)
        elif not found.whys:
            found.made, found.rule = made_of(self.network, self.router, self.peer, chosen), rule

    def _rule(self, rules: List[str], other: str, way: str, route: Route) -> str:
        at = _deciding(rules, route)
        assert at is not None
        return rule_text(self.router, other, way, at, rules[at])


def _deciding(rules: List[str], route: Route) -> Optional[int]:
    return deciding(rules, route.prefix, route.attributes.path, route.attributes.communities)


def _is_let(rules: List[str], route: Route) -> bool:
    return permits(rules, route.prefix, route.attributes.path, route.attributes.communities)


def rule_text(router: str, other: str, way: str, at: int, rule: str) -> str:
    """A rule of a policy by its number and its command, and what the communities in it are."""
    words = rule.split(" ")
    numbers = [int(words[1])] if words[0] == "comm" else []
    numbers += [int(word[len("add="):]) for word in words if word.startswith("add=")]
    shown = " (%s)" % communities.shown_all(numbers) if numbers else ""
    kind = "export" if way == "out" else "import"
    return "%s rule %d, `rule %s %s %s %s`%s" % (kind, at + 1, router, other, way, rule, shown)


def made_of(network: Network, router: str, peer: str, chosen: Route) -> Made:
    """What a router makes of the route that it chose, for a peer to which it advertises it."""
    if network.is_external(router, peer):
        return _outside(network, router, peer, chosen)
    if chosen.source == "self" or network.is_external(router, str(chosen.source)):
        return _inside(network, router, peer, chosen.attributes)
    return _reflected(network, router, str(chosen.source), chosen.attributes)


def _outside(network: Network, router: str, peer: str, chosen: Route) -> Made:
    rules, old, asn = network.rules.get((router, peer, "out"), []), chosen.attributes, network.nodes[router].asn
    at = _deciding(rules, chosen)
    words = [] if at is None else [word.split("=") for word in rules[at].split(" ") if "=" in word]
    settings = {name: value for name, value in words}
    by = "" if at is None else "by export rule %d" % (at + 1)
    times = 1 + int(settings.get("prepend", "0"))
    numbers = set(old.communities).union([int(settings["add"])] if "add" in settings else [])
    made = Attributes(in_front(asn, times, old.path), old.origin, router, settings.get("med", "-"), "-", "-", "-",
                      ",".join(map(str, sorted(numbers))) or "-")
    front = "AS %d in front%s" % (asn, ", %d times, %s" % (times, by) if times > 1 else "")
    whys = {"path": front, "next": "the router itself, towards another AS", "med": by if "med" in settings else UNTOLD,
            "pref": UNTOLD, "oid": UNTOLD, "clusters": UNTOLD, "comms": by}
    return Made(made, whys)


def _inside(network: Network, router: str, peer: str, old: Attributes) -> Made:
    """Of the router's own route, or one of another AS."""
    hop = router if (router, peer) in network.selves else old.next
    made = Attributes(old.path, old.origin, hop, old.med, old.pref, "-", "-", old.comms)
    return Made(made, {"next": "the router itself, by `self %s %s on`" % (router, peer)})


def _reflected(network: Network, router: str, source: str, old: Attributes) -> Made:
    own = network.clusters.get(router, router)
    clusters = own if old.clusters == "-" else "%s,%s" % (own, old.clusters)
    oid = source if old.oid == "-" else old.oid
    made = Attributes(old.path, old.origin, old.next, old.med, old.pref, oid, clusters, old.comms)
    whys = {"oid": "from whom it came, since it is reflected", "clusters": "the reflector's CLUSTER_ID in front"}
    return Made(made, whys)


def changes(old: Attributes, made: Made) -> List[Tuple[str, str]]:
    """Each attribute that is advertised otherwise than it was chosen: its name, and what became of it."""
    new, found = made.attributes, []
    for name, shown in FIELDS:
        before, after = (str(getattr(each, name)) for each in (old, new))
        if name == "comms" and before != after:
            added = [number for number in new.communities if number not in old.communities]
            found.append((shown, "%s added %s" % (communities.told(added), made.whys[name])))
        elif before != after:
            found.append((shown, "%s became %s: %s" % (before, after, made.whys[name])))
    return found


def text_of(router: str, peer: str, to: str, found: Advert, names: Names) -> str:
    """What was found for a reader. It begins with what the program says; where that was not worked out, it says so."""
    word = "advertised" if found.said else "not advertised"
    lines = ["%s at %s: %s to %s" % (to, names.shown(router), word, names.shown(peer))]
    if found.chosen:
        source = "its own" if found.chosen.source == "self" else "from " + names.shown(str(found.chosen.source))
        lines += ["  chosen: " + source, "      " + communities.in_text(str(found.chosen.attributes))]
    if found.said:
        lines += ["  advertised:", "      " + communities.in_text(str(found.said))]
    if found.doubts:
        otherwise = "  THE PROGRAM SAYS SO, BUT FROM THE SCRIPT THIS IS WORKED OUT: "
        lines += [otherwise + communities.in_text(each) for each in found.doubts]
    else:
        changed = changes(found.chosen.attributes, found.made) if found.made and found.chosen else []
        lines += ["  " + why for why in found.whys] + (["  let out by " + found.rule] if found.rule else [])
        lines += ["  %s: %s" % each for each in changed] or ["  nothing is changed in it"] * bool(found.made)
    lines += ["  messages still wait, and may change that"] if found.is_waiting else []
    return "\n".join(lines) + "\n"
