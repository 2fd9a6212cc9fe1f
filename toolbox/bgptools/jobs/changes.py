"""A what-if of a proposed change, in a worker of its own."""
from __future__ import annotations

from typing import List

from ..change.comparison import compare
from ..change.effect import Outcome
from ..change.report import text_of
from ..change.what_if import changed, parser, converged_base
from ..program.language import escaped
from ..program.script import content_of, lines_of

# The names by which messages call the two scripts. No file has them.
BASE, CHANGE = "network.bgp", "proposed.change"
UNCHANGED = "Nothing changes.\n"


def what_if(base: List[str], change: List[str]) -> bytes:
    """What a change does to the network of the base, as `what-if network.bgp proposed.change` prints it, in UTF-8.
    Mistake where it cannot be made."""
    chosen = parser().parse_args([BASE, CHANGE])
    before, converged = converged_base(lines_of(content_of(base), BASE), chosen)
    with before:
        after, watch, done = changed(before, lines_of(content_of(change), CHANGE), chosen)
        with after:
            found = text_of(Outcome(compare(before, after, []), watch, converged, done), chosen.all)
    return escaped(found or UNCHANGED, "\n\t").encode("utf-8", "backslashreplace")
