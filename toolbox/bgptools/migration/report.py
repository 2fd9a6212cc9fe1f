"""Two configurations compared, told to a reader."""
from __future__ import annotations

import sys
from typing import Dict, List, Tuple

from ..change.report import SHOWN, broken_lines, convergence_lines, count, difference_lines, listed
from ..program.names import Names
from .comparison import Comparison
from .difference import PartChange
from .parts import Part
from .sources import Source
from .transients import Played, Temporary

_TITLES = {
    "router": "router %s", "virtual": "virtual peer %s", "link": "link of %s and %s",
    "session": "session of %s and %s",
    "cluster": "cluster of %s", "med": "comparison of MED at %s", "client": "%s has the client %s",
    "self": "%s sends %s itself as next hop", "policy": "policy of %s for %s, %s", "origin": "%s originates %s",
    "feed": "%s sends to %s: %s"}
_SAID = {"lost": "has no route to", "leaked": "is sent", "unreached": "does not reach"}


def title(part: Part, names: Names) -> str:
    """A part as a reader sees it."""
    return _TITLES[part[0]] % tuple(names.shown(each) for each in part[1:])


def print_left_out(found: Comparison, lists_all: bool) -> None:
    """What importers left out, on standard error: first that of one side only; that of both once."""
    told = found.left_out
    for head, side, part in (("OLD only: ", found.before, told.old), ("NEW only: ", found.after, told.new),
                             ("OLD and NEW: ", found.after, told.both)):
        for text in side.texts(part, lists_all):
            print(head + text, file=sys.stderr)
    counts = [("OLD", sum(found.before.counts.values())), ("NEW", sum(found.after.counts.values()))]
    if counts[0][1] == counts[1][1]:
        counts = [("OLD and NEW", counts[0][1])]
    for head, number in counts:
        if number:
            print("%s: %d lines that decide no route were left out" % (head, number), file=sys.stderr)


def text_of(found: Comparison, is_all: bool) -> str:
    """The comparison for a reader. Of a long list the first ones are shown, but where all is asked for."""
    outcome, names = found.outcome, found.outcome.network.names
    lines = broken_lines(outcome) + _configuration(found, names, is_all)
    lines += difference_lines(outcome.difference, outcome.network, is_all)
    lines += [] if outcome.is_changed else ["No route, session or packet changes."]
    lines += convergence_lines(outcome, is_all) + notes(found)
    lines += _played(found.played, names, is_all) if found.played is not None else []
    return "\n".join(lines) + "\n"


def notes(found: Comparison) -> List[str]:
    """What bounds the comparison."""
    names, lines = found.outcome.network.names, []
    for line, side in found.unfed:
        lines.append("%s:%d: not fed in %s, which has no session of %s" % (
            line.file, line.number, side.path, " and ".join(line.words[1:3])))
    if found.silent:
        lines += listed("These neighbours send nothing, which --feeds FILE changes: ",
                        list(map(names.shown, found.silent)))
    if found.left_out.decides:
        lines.append("Lines were left out that may decide a route: the network may do otherwise.")
    return lines


# The configuration

def _configuration(found: Comparison, names: Names, is_all: bool) -> List[str]:
    kinds = [each.kind for each in found.parts]
    if not kinds:
        return ["Configuration: no part differs"]
    told = ", ".join("%d %s" % (kinds.count(kind), kind) for kind in ("changed", "added", "removed"))
    lines = ["Configuration: %s (%s)" % (count(len(kinds), "part differs", "parts differ"), told)]
    shown = found.parts if is_all else found.parts[:2 * SHOWN]
    for each in shown:
        lines += _part(each, names, is_all)
    left = len(found.parts) - len(shown)
    return lines + (["  and %d more (--all shows them)" % left] if left else [])


def _part(change: PartChange, names: Names, is_all: bool) -> List[str]:
    lines = ["  %s: %s" % (title(change.part, names), change.kind)]
    for side, commands, sources in (("OLD", change.old, change.old_sources), ("NEW", change.new, change.new_sources)):
        lines += _cut(["    %s  %s" % (side, each) for each in commands], is_all)
        lines += _cut(["         %s" % _source(each, change.is_indirect) for each in sources], is_all)
    return lines


def _source(source: Source, is_indirect: bool) -> str:
    return str(source) + (" (the same in both; another line makes the difference)" if is_indirect else "")


def _cut(lines: List[str], is_all: bool) -> List[str]:
    left = 0 if is_all else max(len(lines) - SHOWN, 0)
    return lines[:len(lines) - left] + (["         and %d more (--all shows them)" % left] if left else [])


# The steps

def _played(played: Played, names: Names, is_all: bool) -> List[str]:
    lines = ["Steps from OLD to NEW: %d; what is new comes first, and what goes comes last" % len(played.steps)]
    for number, step in enumerate(played.steps, 1):
        lines.append("  step %d, %s" % (number, step.title))
        lines += _cut(["         " + command for command in step.commands], is_all)
    lines += _between(played, names, is_all)
    if played.not_converged:
        return lines + ["STEP %d DOES NOT CONVERGE; those behind it were not played." % played.not_converged]
    if played.differs:
        return lines + listed("THE STEPS END OTHERWISE THAN NEW, with other routes at: ",
                              list(map(names.shown, played.differs)))
    return lines + ["The steps end with the routes of NEW."]


def _between(played: Played, names: Names, is_all: bool) -> List[str]:
    """What is so for a while: behind a step, and between two commands of one."""
    groups: Dict[Tuple[str, str, str, int, int], List[str]] = {}
    for each in played.temporary:
        groups.setdefault((each.kind, each.router, each.peer, each.since, each.until), []).append(each.about)
    parts = [listed("  %s " % _head(Temporary(kind, router, peer, "", since, until), names), about)
             for (kind, router, peer, since, until), about in groups.items()]
    parts += [["  %s within step %d: %s sends %s %s for a while" % (
        each.kind, each.line.number, names.shown(each.sender), names.shown(each.receiver), each.prefix)]
        for each in played.within]
    shown = parts if is_all else parts[:2 * SHOWN]
    lines = ["In between, for a while only"] + [line for part in shown for line in part] if parts else [
        "Nothing is lost or leaked in between."]
    left = len(parts) - len(shown)
    return lines + (["  and %d more (--all shows them)" % left] if left else [])


def _head(each: Temporary, names: Names) -> str:
    who = names.shown(each.peer or each.router)
    by = " by %s" % names.shown(each.router) if each.peer else ""
    return "%s from step %d until step %d: %s %s%s" % (each.kind, each.since, each.until, who, _SAID[each.kind], by)
