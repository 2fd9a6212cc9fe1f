"""What stands in one of two networks only, part by part, with the lines of the files that made it."""
from __future__ import annotations

import difflib
import os
from typing import Dict, List, NamedTuple, Set, Tuple

from ..importers.common.configuration import Told
from .parts import KINDS, Part
from .side import Side
from .sources import Source

Parts = Dict[Part, List[str]]


class PartChange(NamedTuple):
    """A part that differs: its commands in OLD only and in NEW only, and the lines of the files that say so. Where the
    lines that say a part are the same in both, they are those of the part as a whole (`is_indirect`): what made the
    change stands elsewhere."""
    part: Part
    old: List[str]
    new: List[str]
    old_sources: List[Source]
    new_sources: List[Source]
    is_indirect: bool

    @property
    def kind(self) -> str:
        """`removed`, `added`, or `changed`."""
        return "changed" if self.old and self.new else "added" if self.new else "removed"


def differences(old: Parts, new: Parts, before: Side, after: Side) -> List[PartChange]:
    """The parts that differ, in the order of their kinds, and in that of the sides."""
    keys = [*dict.fromkeys([*old, *new])]
    keys.sort(key=lambda part: KINDS.index(part[0]))
    return [_change(part, old.get(part, []), new.get(part, []), before, after)
            for part in keys if old.get(part) != new.get(part)]


def _change(part: Part, old: List[str], new: List[str], before: Side, after: Side) -> PartChange:
    gone, come = _in_one_only(old, new)
    old_sources = before.sources_of(part) if old or not new else []
    new_sources = after.sources_of(part) if new or not old else []
    # A policy that is in one side only has lines in the other one, too, by which the session has none there.
    if part[0] == "policy":
        old_sources, new_sources = before.sources_of(part), after.sources_of(part)
    here, there = _not_in(old_sources, new_sources), _not_in(new_sources, old_sources)
    is_indirect = not here and not there and bool(old_sources or new_sources)
    if is_indirect:
        here, there = old_sources[:1], new_sources[:1]
    return PartChange(part, gone, come, here, there, is_indirect)


def _in_one_only(old: List[str], new: List[str]) -> Tuple[List[str], List[str]]:
    """The commands of each side that are not in the other one at the same place of the order."""
    gone, come = [], []
    for word, first, last, begin, end in difflib.SequenceMatcher(None, old, new, False).get_opcodes():
        if word != "equal":
            gone += old[first:last]
            come += new[begin:end]
    return gone, come


def _not_in(sources: List[Source], others: List[Source]) -> List[Source]:
    """The lines whose text, with the line that begins their block, is not among the others."""
    known: Set[str] = {each.said for each in others}
    return [each for each in sources if each.said not in known]


class LeftOut(NamedTuple):
    """What the importers told: of OLD only, of NEW only, and of both, as NEW has it."""
    old: List[Told]
    new: List[Told]
    both: List[Told]

    @property
    def decides(self) -> bool:
        """Whether some of it may decide a route."""
        return any(each.decides for each in [*self.old, *self.new, *self.both])


def left_out(before: Side, after: Side) -> LeftOut:
    """What the importers told of the two sides; the same text of
    the same file is one, whichever line has it."""
    old, new = ({_key(side, each) for each in side.told} for side in (before, after))
    return LeftOut([each for each in before.told if _key(before, each) not in new],
                   [each for each in after.told if _key(after, each) not in old],
                   [each for each in after.told if _key(after, each) in old])


def _key(side: Side, each: Told) -> Tuple[str, str]:
    """What is the same of the two sides: the file, seen from the folder, and the text."""
    return os.path.relpath(each.file, side.path), each.text
