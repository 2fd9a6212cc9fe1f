"""What `play`, its prompt and a page of steps show: replies with names and communities, and deliveries."""
from __future__ import annotations

from typing import Dict, List

from ..program import communities, display
from ..program.names import Names
from ..program.replies import refusal, routes
from .delivery import Convergence
from .run import Run, told_of

# So many of the deliveries that do not end are shown, and so many prefixes.
LAST, FIRST = 20, 12


def tell(pad: str, lines: List[str], names: Names) -> None:
    """Prints lines behind some space, with names and communities."""
    for line in lines:
        display.show(pad + communities.in_text(names.in_text(line)) + "\n")


def kept_back(run: Run, words: List[str], reply: List[str]) -> List[str]:
    """After the reply to `out`: which chosen routes are not in it for a community that they carry."""
    if words[:1] != ["out"] or refusal(reply) or not run.network.communities:
        return []
    way, is_external = (words[1], words[2]), run.network.is_external(words[1], words[2])
    if not run.sessions_up([way])[way]:
        return []
    found: Dict[str, List[str]] = {}
    for prefix, route in routes(run.ask(["routes " + words[1]])[0]).items():
        keeping = communities.withholding(route.attributes.communities, is_external)
        if keeping and route.source != words[2]:
            found.setdefault(communities.told(keeping), []).append(prefix)
    begin = "-- not told to %s, since it carries " % words[2]
    return ["%s%s: %s" % (begin, told, _listed(prefixes)) for told, prefixes in found.items()]


def _listed(items: List[str]) -> str:
    """The first of some, and how many more there are."""
    return ", ".join(items[:FIRST]) + (" and %d more" % (len(items) - FIRST) if len(items) > FIRST else "")


def tell_convergence(pad: str, done: Convergence, names: Names) -> None:
    """Prints the deliveries, or the last ones where they do not end."""
    lines = ["deliver %s %s: %s" % (way + (took,)) for way, took in zip(done.deliveries, done.taken)]
    left_out = 0 if done.is_converged else max(0, len(lines) - LAST)
    tell(pad, ["%d deliveries, and then" % left_out] if left_out else [], names)
    tell(pad, lines[left_out:] + ["-- " + text for text in [told_of(done)] if text], names)
