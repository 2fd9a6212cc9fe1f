"""When the chosen route of a router to a prefix changes while a script is played: from whom it then is, and why.

The network converges after each command. A comment `# time 2026-12-01T12:00:00Z` gives the time of what stands
behind it."""
from __future__ import annotations

import csv
import io
from dataclasses import dataclass, field
from typing import List, Optional

from ..convergence.delivery import Convergence
from ..convergence.run import Run, is_delivery
from ..network.prefix_parts import prefix_of
from ..program import times
from ..program.language import neighbour
from ..program.line_count import check_length, is_accepted
from ..program.replies import Route, best
from ..program.script import Line
from .comparison import reason_now

COLUMNS = ("time", "line", "router", "prefix", "source", "next_as", "path", "origin", "med", "communities", "reason")


@dataclass(frozen=True)
class Choice:
    """What a router chose from a command on: a route or none; the time in microseconds since 1970, where it has one."""
    time: Optional[int]
    line: Line
    route: Optional[Route]
    reason: str

    @property
    def next_as(self) -> Optional[int]:
        """The neighbouring AS that the route comes from; nothing for an own one, or where there is none."""
        return neighbour(self.route.attributes.path) if self.route else None

    @property
    def where(self) -> str:
        """When it was, or by which line."""
        return "line %d" % self.line.number if self.time is None else times.told(self.time)


@dataclass
class Timeline:
    """All choices of a router, the first and the last time of the script, and the deliveries that did not end."""
    router: str
    prefix: str
    choices: List[Choice] = field(default_factory=list)
    begin: Optional[int] = None
    end: Optional[int] = None
    endless: Optional[Convergence] = None


def part_for(lines: List[Line], to: str) -> List[Line]:
    """The lines that bear on a prefix: no feed, origin or delivery of another. Deliveries of the script are none of
    them, since all queues are emptied after each command."""
    return [line for line in lines if prefix_of(line) in ("", to) and not is_delivery(line.text)]


def timeline(run: Run, lines: List[Line], router: str, to: str) -> Timeline:
    """Plays a script, and tells what the router chose after each command; it ends where the network does not
    converge."""
    found, now, chosen = Timeline(router, to), None, None  # type: Timeline, Optional[int], Optional[Route]
    check_length(len(lines), lines[0].file if lines else None)
    for line in lines:
        time = times.marked(line.text)
        if time is not None:
            now = found.end = time
            found.begin = time if found.begin is None else found.begin
        reply = run.say(line.text)
        run.check(line, reply)
        if not is_accepted(reply):
            continue
        done = run.converge()
        if not done.is_converged:
            found.endless = done
            return found
        reply = run.ask(["best %s %s" % (router, to)])[0] if run.network.is_router(router) else ["none"]
        after = best(reply)
        if after != chosen:
            found.choices.append(Choice(now, line, after, _reason(run, router, to, chosen)))
            chosen = after
    return found


def _reason(run: Run, router: str, to: str, before: Optional[Route]) -> str:
    """Why the route that was chosen before is not any more."""
    if before is None:
        return "there was no route before"
    source = str(before.source)
    told = reason_now(run.ask(["why %s %s" % (router, to)])[0], source, router in run.network.med_always)
    if told:
        return told
    way = router, source
    is_up = run.sessions_up([way]).get(way, True)
    shown = run.network.names.shown(source)
    return "%s does not tell it any more" % shown if is_up else "the session with %s is down" % shown


def text_of(found: Timeline, run: Run) -> str:
    """All choices for a reader, a line each."""
    names = run.network.names
    count = len(found.choices)
    lines = ["%s at %s: %s" % (found.prefix, names.shown(found.router),
                               "no route" if not count else "1 choice" if count == 1 else "%d choices" % count)]
    rows = [(each.where, "no route" if each.route is None else "its own" if each.route.source == "self" else
             "from " + names.shown(str(each.route.source)),
             "path " + each.route.attributes.path if each.route else "", each.reason) for each in found.choices]
    widths = [max((len(row[at]) for row in rows), default=0) for at in range(3)]
    lines += ["  %s  %s" % ("  ".join(part.ljust(width) for part, width in zip(row, widths)), row[3]) for row in rows]
    lines += ["  %s  the end" % times.told(found.end)] if found.end is not None else []
    return "\n".join(lines) + "\n"


def csv_of(found: Timeline) -> str:
    """The same as CSV, with a heading. What is absent is empty."""
    made = io.StringIO()
    writer = csv.writer(made, lineterminator="\n")
    writer.writerow(COLUMNS)
    for each in found.choices:
        route = each.route
        told = route.attributes if route else None
        writer.writerow(["" if each.time is None else times.told(each.time), each.line.number, found.router,
                         found.prefix, route.source if route else "", each.next_as or "", told.path if told else "",
                         told.origin if told else "", told.med if told and told.med != "-" else "",
                         " ".join(map(str, told.communities)) if told else "", each.reason])
    return made.getvalue()
