"""What a change does, told to a reader: a long answer begins with how much it is, and equal changes of many prefixes are told as one."""
from __future__ import annotations

import textwrap
from typing import Dict, Hashable, Iterable, List, Tuple, TypeVar

from ..convergence.run import converged_otherwise, not_converged
from ..network.configuration import Direction, Network
from ..program import communities
from ..program.names import Names
from ..program.replies import route_text, trace_text
from .comparison import Change, Difference, Way, is_gained_outside
from .effect import Outcome
from .transients import Sent, advice, message_text

SHOWN, LONG = 12, 24
Item = TypeVar("Item")


def count(number: int, one: str, many: str = "") -> str:
    """So many of something."""
    return "%d %s" % (number, one if number == 1 else many or one + "s")


def changes_of(difference: Difference) -> List[Change]:
    """All routes that differ, at routers and of what external neighbours are told."""
    lists = [*difference.routers.values(), *difference.told.values()]
    return [change for changes in lists for change in changes]


def is_long(difference: Difference) -> bool:
    """Whether there is more to tell than a page holds."""
    return len(changes_of(difference)) > LONG


def _prefixes(changes: List[Change]) -> str:
    return count(len({change.prefix for change in changes}), "prefix", "prefixes")


def _kinds(changes: List[Change]) -> str:
    told = [(kind, sum(change.kind == kind for change in changes)) for kind in ("moved", "lost", "gained")]
    return ", ".join("%d %s" % (number, kind) for kind, number in told)


def summary(difference: Difference) -> List[str]:
    """How much differs."""
    chosen = [change for changes in difference.routers.values() for change in changes]
    told = [change for changes in difference.told.values() for change in changes]
    lines = ["%s with other routes, to %s: %s" % (count(len(difference.routers), "router"), _prefixes(chosen), _kinds(chosen))]
    if told:
        lines.append("%s told otherwise, of %s" % (count(len(difference.told), "external neighbour"), _prefixes(told)))
    if difference.down or difference.up:
        lines.append("%s down, %d up" % (count(len(difference.down), "session"), len(difference.up)))
    if difference.ways:
        counts = count(len(difference.loops), "new loop"), count(len(difference.black_holes), "new black hole")
        lines.append("%s, %s; %s another way" % (*counts, count(len(difference.ways), "packet goes", "packets go")))
    return ["In short"] + ["  " + line for line in lines]


# What is told as one

def listed(begin: str, items: List[str], end: str = "") -> List[str]:
    """The first of some items in a line or more."""
    more = " and\xa0%d\xa0more" % (len(items) - SHOWN) if len(items) > SHOWN else ""
    indent = " " * (len(begin) - len(begin.lstrip(" ")) + 8)
    lines = textwrap.wrap(begin + ", ".join(items[:SHOWN]) + more + end, 116, subsequent_indent=indent, break_on_hyphens=False, break_long_words=False)
    return [line.replace("\xa0", " ") for line in lines]


def _grouped(each: "Iterable[Tuple[Hashable, Item, str]]", is_whole: bool) -> "List[Tuple[Item, List[str]]]":
    """Items, each with its prefix or address, that are the same but for that; each by itself where all are to be told."""
    found: "Dict[Hashable, Tuple[Item, List[str]]]" = {}
    for number, (same, item, name) in enumerate(each):
        found.setdefault(number if is_whole else same, (item, []))[1].append(name)
    return list(found.values())


def first_of(parts: List[List[str]], counts: List[int], is_all: bool, begin: str = "  and %d more") -> List[str]:
    """The lines of all parts, or of the first ones of many, with how many there are behind these."""
    lines = [line for part in (parts if is_all else parts[:SHOWN]) for line in part]
    left = 0 if is_all else sum(counts[SHOWN:])
    return lines + ([begin % left + " (--all shows them)"] if left else [])


# Routes

def _change(change: Change, prefixes: List[str], names: Names, moved: str) -> List[str]:
    lines = listed("  %-7s " % (moved if change.kind == "moved" else change.kind), prefixes)
    if change.before:
        lines.append("            was %s" % route_text(change.before, names))
    if change.after:
        lines.append("            now %s" % route_text(change.after, names))
        # A virtual peer, which is told without a source, tells nothing on.
        reach = communities.reach(change.after.attributes.communities) if change.after.source else ""
        lines += ["                " + reach] if reach else []
    return lines + (["            the old one: " + change.reason] if change.reason else [])


def _changes(changes: List[Change], names: Names, is_whole: bool, moved: str = "moved") -> List[str]:
    """Changes of one router."""
    same = [(*(route and (route.source, route.attributes) for route in (each.before, each.after)), each.reason) for each in changes]
    groups = _grouped(((key, each, each.prefix) for key, each in zip(same, changes)), is_whole)
    return first_of([_change(change, prefixes, names, moved) for change, prefixes in groups], [len(prefixes) for _, prefixes in groups], is_whole)


def _routers(difference: Difference, network: Network, is_whole: bool) -> List[str]:
    """What changed at routers; first at those that gained a route which is not from inside their AS, as of a leak."""
    names = network.names
    in_order = sorted(difference.routers.items(), key=lambda item: not any(
        is_gained_outside(network, item[0], change) for change in item[1]))
    parts = [["Router " + names.shown(router) + (" (new)" if router in difference.came else "")] + _changes(changes, names, is_whole)
             for router, changes in in_order]
    return first_of(parts, [1] * len(parts), is_whole, "and %d more routers")


def _told(title: str, told: Dict[Direction, List[Change]], names: Names, is_whole: bool) -> List[str]:
    parts = [["  %s to %s" % (names.shown(router), names.shown(peer))] + ["  " + line for line in _changes(changes, names, is_whole, "changed")]
             for (router, peer), changes in told.items()]
    return ([title] if parts else []) + first_of(parts, [1] * len(parts), is_whole)


def _told_parts(difference: Difference) -> Tuple[Dict[Direction, List[Change]], Dict[Direction, List[Change]]]:
    """What external neighbours are told that they were not told before, as of a leak; and what else is otherwise."""
    parts = []
    for is_gained in (True, False):
        chosen = {way: [each for each in changes if (each.kind == "gained") == is_gained]
                  for way, changes in difference.told.items()}
        parts.append({way: changes for way, changes in chosen.items() if changes})
    return parts[0], parts[1]


# All else

def _way(way: Way, addresses: List[str], names: Names) -> List[str]:
    lines = listed("  %s to " % names.shown(way.router), addresses)
    if way.before == way.after:
        return lines + ["            as before %s" % trace_text(way.after, names)]
    return lines + ["            was %s" % trace_text(way.before, names), "            now %s" % trace_text(way.after, names)]


def _ways(title: str, ways: List[Way], names: Names, is_all: bool, is_whole: bool) -> List[str]:
    same = [(way.router, trace_text(way.before, names), trace_text(way.after, names)) for way in ways]
    groups = _grouped(((key, way, way.address) for key, way in zip(same, ways)), is_whole)
    parts = [_way(way, addresses, names) for way, addresses in groups]
    return ([title] if ways else []) + first_of(parts, [len(addresses) for _, addresses in groups], is_all)


def standing_text(difference: Difference) -> List[str]:
    """That packets go round in the base already, in a line; nothing where none does."""
    packets = [(way.router, way.address) for way in difference.standing]
    return ["Loops before the change and after it: %s, as from %s to %s; `check` of the base explains them" % (
        count(len(packets), "packet"), *packets[0])] if packets else []


def _sessions(difference: Difference, names: Names, is_whole: bool) -> List[str]:
    lines = []
    for title, sessions in (("Sessions that went down", difference.down), ("Sessions that came up", difference.up)):
        parts = [["  %s and %s" % (names.shown(one), names.shown(other))] for one, other in sessions]
        lines += ([title] if parts else []) + first_of(parts, [1] * len(parts), is_whole)
    return lines


def _sent(sent: Sent, names: Names, is_all: bool, is_whole: bool) -> List[str]:
    """What a line of the change sent at once."""
    told = [(way, message_text(message).split(" ", 2)) for way, messages in sent.messages.items() for message in messages]
    groups = _grouped((((way, words[0], " ".join(words[2:])), (way, words), words[1]) for way, words in told), is_whole)
    parts = [listed("            %s to %s: %s " % (*map(names.shown, way), words[0]), prefixes, "".join(" " + word for word in words[2:]))
             for (way, words), prefixes in groups]
    counts = [len(prefixes) for _, prefixes in groups]
    return ["  line %d, %s" % (sent.line.number, " ".join(sent.line.words))] + first_of(parts, counts, is_all, " " * 12 + "and %d more")


def _between(outcome: Outcome, names: Names, is_all: bool, is_whole: bool) -> List[str]:
    """What each line of the change sent at once, and what passed."""
    lines = [line for sent in outcome.watch.sent if sent.count for line in _sent(sent, names, is_all, is_whole)]
    lines = ["Sent at once by the lines of the change"] + lines if lines else []
    if outcome.passing:
        parts = [["  %s: %s to %s, from line %d until line %d: %s" % (
            each.kind, names.shown(each.sender), names.shown(each.receiver), each.line.number, each.until.number, message_text(each.message))]
            for each in outcome.passing]
        lines += ["In between, for a while only"] + first_of(parts, [1] * len(parts), is_all)
        lines += ["  to avoid it: " + text for text in advice(outcome.passing, outcome.network)]
    return lines


def _messages(outcome: Outcome) -> str:
    kinds = [took.split(" ")[2] for took in outcome.taken]
    counts = count(kinds.count("update"), "update"), count(kinds.count("withdraw"), "withdrawal")
    return "Messages until it was quiet: %d (%s, %s)" % (len(kinds), *counts)


def _orders(outcome: Outcome, names: Names) -> List[str]:
    """Where another order of deliveries was needed than the one that was asked for."""
    lines = ["The base: %s." % converged_otherwise(outcome.base, names)] if outcome.base.first else []
    return lines + ["With the change: %s." % converged_otherwise(done, names) for done in outcome.done if done.first]


def difference_lines(difference: Difference, network: Network, is_all: bool) -> List[str]:
    """What differs from what came before, in this network. Where it is long, a summary comes first, equal changes are told as one, and of much of a kind the
    first; not where all is asked for."""
    names, is_whole = network.names, is_all or not is_long(difference)
    lines = summary(difference) if is_long(difference) else []
    lines += ["Router %s (gone)" % names.shown(router) for router in difference.gone]
    gained, told = _told_parts(difference)
    lines += _told("Told to external neighbours, and not before", gained, names, is_whole)
    lines += _routers(difference, network, is_whole) + _sessions(difference, names, is_whole)
    lines += _told("Told to external neighbours", told, names, is_whole)
    lines += _ways("Forwarding that was asked for", difference.asked, names, True, True)
    special = {(way.router, way.address) for way in difference.loops + difference.black_holes + difference.asked}
    for title, ways in (("New loops", difference.loops), ("New black holes", difference.black_holes),
                        ("Forwarding that changed", [way for way in difference.ways if (way.router, way.address) not in special])):
        lines += _ways(title, ways, names, is_all, is_whole)
    return lines + standing_text(difference)


def broken_lines(outcome: Outcome) -> List[str]:
    """The invariants that do not hold."""
    return ["Broken invariants", *("  " + each for each in outcome.broken)] if outcome.broken else []


def convergence_lines(outcome: Outcome, is_all: bool) -> List[str]:
    """Where another order of deliveries was needed, and what does not converge."""
    names, lines = outcome.network.names, _orders(outcome, outcome.network.names)
    if outcome.not_converged:
        lines += ["IT DOES NOT CONVERGE: %s." % not_converged(outcome.not_converged, names, is_all), "What is told above is how it stood when the deliveries stopped."]
    return lines


def text_of(outcome: Outcome, is_all: bool) -> str:
    """The outcome for a reader."""
    difference, names = outcome.difference, outcome.network.names
    lines = broken_lines(outcome) + difference_lines(difference, outcome.network, is_all)
    lines += _between(outcome, names, is_all, is_all or not is_long(difference))
    lines += [] if outcome.is_changed else ["Nothing changed."]
    lines += convergence_lines(outcome, is_all)
    lines += [] if outcome.not_converged else [_messages(outcome)]
    return "\n".join(lines) + "\n"
