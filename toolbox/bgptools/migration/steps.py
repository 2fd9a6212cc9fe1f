"""The commands that lead from one network to another, in an order that makes before it breaks.

New routers, links and sessions come first, but new sessions are stopped at once. Then come settings and policies, while
a new session carries nothing. Then these sessions start, and what is new is originated and fed. What goes comes last:
policies of sessions that stay, feeds and origins, sessions, links. No command takes a router, a link or a session out:
its session is stopped, and its link fails."""
from __future__ import annotations

from typing import Dict, Iterator, List, NamedTuple

from ..network.configuration import Network, Pair, ends, pair
from ..program.language import by_address, by_prefix
from ..program.mistakes import Mistake
from .parts import Feeds


class Step(NamedTuple):
    """Commands that are given one behind the other, before the messages that come of them are delivered."""
    title: str
    commands: List[str]


class Ends(NamedTuple):
    """The two networks, with what virtual peers tell."""
    old: Network
    new: Network
    fed: Feeds
    feeds: Feeds

    def is_new(self, both: Pair) -> bool:
        """Whether a session is up by its commands in the new network alone."""
        return self.new.enabled.get(both, False) and not self.old.enabled.get(both, False)

    def stays(self, one: str, other: str) -> bool:
        """Whether a session is there in both, and not stopped in the new one."""
        both = pair(one, other)
        return both in self.old.enabled and self.new.enabled.get(both, False)


def steps(old: Network, new: Network, fed: Feeds, feeds: Feeds) -> List[Step]:
    """The steps, without empty ones; raises Mistake where no commands lead from one to the other."""
    for where, node in new.nodes.items():
        known = old.nodes.get(where)
        if known is not None and known != node:
            raise Mistake("--steps: %s is %s in OLD and %s in NEW, and no command changes that; leave --steps out" % (
                new.names.shown(where), *map(_shown, ((known.is_virtual, known.asn), (node.is_virtual, node.asn)))))
    made = Ends(old, new, fed, feeds)
    found = [Step("new routers and virtual peers", list(_nodes(made))),
             Step("new links, and sessions that are stopped for now", [*_new_links(made), *_new_sessions(made)]),
             *(Step("settings", each) for each in _settings(made)),
             *_policies(made, False),
             *(Step("costs of links", [each]) for each in _metrics(made)),
             *(Step("a session starts", each) for each in _starts(made)),
             *(Step("a new origin", [each]) for each in _origins(made, True)),
             *(Step("what a neighbour sends", [each]) for each in _feeds(made, True)),
             *_policies(made, True),
             *(Step("what a neighbour withdraws", [each]) for each in _feeds(made, False)),
             *(Step("an origin goes", [each]) for each in _origins(made, False)),
             *(Step("a session stops", [each]) for each in _stops(made)),
             *(Step("a link fails", [each]) for each in _fails(made))]
    return [step for step in found if step.commands]


def _shown(node: "tuple[bool, int]") -> str:
    return "a %s of AS %d" % ("virtual peer" if node[0] else "router", node[1])


def _on(word: str, network: Network, both: Pair, number: str = "") -> str:
    """A command about a link or session, a virtual peer last."""
    one, other = ends(both) if network.is_router(ends(both)[0]) else ends(both)[::-1]
    return " ".join([word, one, other] + ([number] if number else []))


def _sorted(pairs: "set[Pair]") -> List[Pair]:
    return sorted(pairs, key=lambda both: list(map(by_address, ends(both))))


def _nodes(made: Ends) -> Iterator[str]:
    for kind, found in (("router", made.new.routers()), ("virtual", made.new.virtuals())):
        for where in (each for each in found if each not in made.old.nodes):
            yield "%s %s %d" % (kind, where, made.new.nodes[where].asn)


def _new_links(made: Ends) -> Iterator[str]:
    for both in _sorted({*made.new.links} - {*made.old.links}):
        yield _on("link", made.new, both, str(made.new.links[both].metric))
        if not made.new.links[both].is_up:
            yield _on("fail", made.new, both)


def _new_sessions(made: Ends) -> Iterator[str]:
    for both in _sorted({*made.new.enabled} - {*made.old.enabled}):
        yield _on("join", made.new, both)
        yield _on("stop", made.new, both)


def _settings(made: Ends) -> Iterator[List[str]]:
    """The settings of each router, and of its ends of sessions that are not taken out."""
    for router in made.new.routers():
        lines = []
        cluster = made.new.clusters.get(router, router)
        if cluster != made.old.clusters.get(router, router):
            lines.append("cluster %s %s" % (router, cluster))
        if (router in made.new.med_always) != (router in made.old.med_always):
            lines.append("med %s %s" % (router, "always" if router in made.new.med_always else "as"))
        for word, old, new in (("client", made.old.clients, made.new.clients),
                               ("self", made.old.selves, made.new.selves)):
            lines += ["%s %s %s %s" % (word, *way, "on" if way in new else "off")
                      for way in sorted(old ^ new) if way[0] == router and pair(*way) in made.new.enabled]
        yield lines


def _policies(made: Ends, goes: bool) -> Iterator[Step]:
    """The policies of each end of a session: those that are new or other ones, or those that go.

    One that goes on as it was gets its new rules, any other is written anew."""
    keys = {*made.old.rules, *made.new.rules}
    for key in sorted(keys, key=lambda key: (by_address(key[0]), by_address(key[1]), key[2])):
        old, new = made.old.rules.get(key, []), made.new.rules.get(key, [])
        if old == new or goes == bool(new) or pair(key[0], key[1]) not in made.new.enabled:
            continue
        lines = [] if new[:len(old)] == old else ["clear %s %s %s" % key]
        rules = new if lines else new[len(old):]
        lines += ["rule %s %s %s %s" % (*key, rule) for rule in rules]
        yield Step("a policy goes" if goes else "a policy", lines)


def _metrics(made: Ends) -> Iterator[str]:
    for both in _sorted({*made.new.links} & {*made.old.links}):
        old, new = made.old.links[both], made.new.links[both]
        if old.metric != new.metric:
            yield _on("metric", made.new, both, str(new.metric))
        if new.is_up and not old.is_up:
            yield _on("mend", made.new, both)


def _starts(made: Ends) -> Iterator[List[str]]:
    """Each session that starts, with what a virtual peer sends over it."""
    for both in _sorted({each for each in made.new.enabled if made.is_new(each)}):
        yield [_on("start", made.new, both)] + [
            _feed(key, said) for key, said in made.feeds.items() if pair(key[0], key[1]) == both]


def _origins(made: Ends, comes: bool) -> Iterator[str]:
    word, first, second = ("origin", made.new, made.old) if comes else ("noorigin", made.old, made.new)
    for router in first.routers():
        for where in sorted(first.origins.get(router, set()) - second.origins.get(router, set()), key=by_prefix):
            yield "%s %s %s" % (word, router, where)


def _feed(key: "tuple[str, str, str]", said: str) -> str:
    return "feed %s %s update %s %s" % (*key, said)


def _feeds(made: Ends, comes: bool) -> Iterator[str]:
    """What is fed over sessions that stay."""
    first, second = (made.feeds, made.fed) if comes else (made.fed, made.feeds)
    for key, said in first.items():
        if made.stays(key[0], key[1]) and not made.is_new(pair(key[0], key[1])):
            if comes and second.get(key) != said:
                yield _feed(key, said)
            elif not comes and key not in second:
                yield "feed %s %s withdraw %s" % key


def _stops(made: Ends) -> Iterator[str]:
    for both in _sorted({each for each, is_on in made.old.enabled.items() if is_on}):
        if not made.new.enabled.get(both, False):
            yield _on("stop", made.old, both)


def _fails(made: Ends) -> Iterator[str]:
    for both in _sorted({each for each, link in made.old.links.items() if link.is_up}):
        if both not in made.new.links or not made.new.links[both].is_up:
            yield _on("fail", made.old, both)


def counted(found: List[Step]) -> Dict[str, int]:
    """How many steps of each title there are."""
    titles = [step.title for step in found]
    return {title: titles.count(title) for title in dict.fromkeys(titles)}
