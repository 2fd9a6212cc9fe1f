"""The reasons of `why`, each as a reader is told it. One that the table of the language does not know is told as it
stands."""
from __future__ import annotations

from .language_table import BEST, CHOSEN, EXCLUSIONS, FILTERS

# The filters in their order, and those by name.
FILTER_NAMES = tuple(each.name for each in FILTERS)
FILTER = {each.name: each for each in FILTERS}
_MEANINGS = {BEST: CHOSEN, **{each.name: each.meaning for each in EXCLUSIONS},
             **{each.name: each.meaning for each in FILTERS}}


def reason_text(reason: str, is_med_always: bool = False) -> str:
    """What a reason means at a router that compares MED over all neighbours, or does not."""
    always = FILTER[reason].always if is_med_always and reason in FILTER else ""
    return always or _MEANINGS.get(reason, "")


def named(reason: str, is_med_always: bool = False) -> str:
    """A reason with what it means; by itself where that is not known."""
    return ": ".join(filter(None, (reason, reason_text(reason, is_med_always))))
