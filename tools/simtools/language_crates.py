"""What the crates' own definitions say of the command language, to be compared with the table."""
from __future__ import annotations

import pathlib
import re
from typing import Dict, Iterator, List, NamedTuple, Optional, Tuple

from . import definitions
from .definitions import Definitions, split, texts

# How a definition writes a value, and which kinds of the table that is.
KINDS = {"addr_text": "address", "prefix_text": "prefix", "decimal": "number", "path_text": "path",
         "origin_text": "origin", "maybe_number_text": "med"}
NUMBERS = ("as_number", "metric", "community")
# Definitions of several words of a command, which the table names by one.
LONGER = {"match_words": "MATCH", "action_words": "ACT", "communities_words": "[comm]"}
EDITS, MACHINE = "net_conf/specs/Edits.antt", "reference_machine/specs/Machine.antt"
WORDS, VERBS = "command_text/specs/Words.antt", "command_text/specs/Verbs.antt"
REFUSALS, REPLIES = "net_conf/specs/Refusals.antt", "reply_text/specs/Replies.antt"
WORDING, SELECTION = "sim_event/specs/Wording.antt", "route_select/specs/Selection.antt"
DECISION = "reference_machine/specs/Decision.antt"


class Spelled(NamedTuple):
    """A command as a definition spells it: its words and kinds, whose variant it is, and the file of its tests."""
    shape: Tuple[str, ...]
    variant: str
    tested: str


class Crates:
    """The definitions of the crates in a folder."""

    def __init__(self, folder: pathlib.Path) -> None:
        self.folder = folder

    def file(self, name: str) -> Definitions:
        return definitions.of_file(self.folder / name)

    # Commands

    def commands(self) -> List[Spelled]:
        """The commands as `words_of` spells them."""
        words, found = self.file(WORDS), []
        for name, tested in (("edit_words", EDITS), ("ask_words", MACHINE)):
            for each in words.of(name):
                variant = words.variant(each.names[0])
                found += [Spelled(shape, variant, tested) for shape in self._shapes(each.right)]
        for each in words.of("words_of"):
            if each.right.startswith("codes"):
                found += [Spelled(shape, self._variant(shape), MACHINE) for shape in self._shapes(each.right)]
        return found

    def _variant(self, shape: Tuple[str, ...]) -> str:
        """The variant of a feed, or the delivery."""
        return next((word.capitalize() for word in shape if word in ("update", "withdraw")), "Deliver")

    def _shapes(self, right: str) -> List[Tuple[str, ...]]:
        """The lists of words that an equation writes: more than one where a part of it has several cases."""
        found: List[Tuple[str, ...]] = [()]
        for part in split(right, "∷", "++"):
            found = [begun + more for begun in found for more in self._parts(part)]
        return found

    def _parts(self, part: str) -> List[Tuple[str, ...]]:
        name = part.split(" ")[0]
        if part == "[]":
            return [()]
        if part.startswith("codes "):
            return [(texts(part)[0],)]
        if name in KINDS or name in LONGER:
            return [(KINDS.get(name) or LONGER[name],)]
        cases = self.file(WORDS).of(name)
        if all(re.fullmatch(r'codes "[^"]*"', each.right) for each in cases):
            return [("|".join(sorted(texts(each.right)[0] for each in cases)),)]
        return [shape for each in cases for shape in self._shapes(each.right)]

    def verbs(self) -> List[str]:
        """The first words of the commands that take no memory to read."""
        known = self.file(VERBS).equations
        return sorted({text for each in known.values() for equation in each for text in texts(equation.right)})

    # Tests and refusals

    def tests(self, spelled: Spelled) -> List[str]:
        """The names of the refusals by which a command is refused, in their order."""
        if spelled.tested == EDITS:
            return self._holding(EDITS, "tests_of", spelled.variant) + [self._name("Memory")]
        if spelled.variant in ("Update", "Withdraw"):
            return self._holding(MACHINE, "feed_refusal", spelled.variant) + [self._name("Memory")]
        if spelled.variant == "Deliver":
            return self._holding(MACHINE, "delivery_refusal", "") + self._of_head() + [self._name("Memory")]
        asked = self._holding(MACHINE, "ask_refusal", spelled.variant)
        is_quiet = self.file(MACHINE).for_variant("asks_quiet", spelled.variant) == "true"
        return asked + ([] if is_quiet else [self._name("Memory")])

    def _holding(self, file: str, name: str, variant: str) -> List[str]:
        """The refusals of a list of tests that may hold for a variant."""
        known = self.file(file)
        return [self._name(known.variant(refusal)) for condition, refusal in definitions.tests(known.right(name))
                if any(self._may_hold(known, part, variant) for part in split(condition, "||"))]

    def _may_hold(self, known: Definitions, condition: str, variant: str) -> bool:
        said = known.for_variant(condition.split(" ")[0], variant) if variant else None
        return said != "false"

    def _of_head(self) -> List[str]:
        """By what a delivery is refused once its queue is looked at."""
        told = [re.match(r"refused (\w+)", each.right) for each in self.file(MACHINE).of("head_step")]
        return list(dict.fromkeys(self._name(each.group(1)) for each in told if each))

    def _name(self, variant: str) -> str:
        said = self.file(REFUSALS).for_variant("name_of", variant)
        return texts(said)[0] if said else variant

    def refusals(self) -> List[str]:
        """The refusals, each as `NUMBER NAME`, in their order."""
        numbers = self.file(REFUSALS).of("number_of")
        return ["%s %s" % (each.right, self._name(each.patterns)) for each in numbers]

    # Reasons

    def _reason(self, variant: str) -> str:
        """A reason's word, by its variant."""
        known = self.file(REPLIES)
        word = {known.variant(each.patterns): texts(each.right)[0] for each in known.of("reason_text")}
        return word.get(variant, variant)

    def reasons(self) -> List[str]:
        """The words of all reasons."""
        return [texts(each.right)[0] for each in self.file(REPLIES).of("reason_text")]

    def exclusions(self) -> List[str]:
        """Why a route may not be chosen, in the order of the tests."""
        return [self._reason(each) for each in re.findall(r"then Some (\w+)", self.file(DECISION).right("exclusion"))]

    def filters(self) -> List[str]:
        """The filters by the reasons that they give, in their order."""
        known = self.file(SELECTION)
        names = [each for each in split(known.right("filters"), "∷") if each != "[]"]
        given = [known.for_variant("reason_of", name) or name for name in names]
        return [self._reason(each.split(".")[-1]) for each in given]

    # Words of rules and replies

    def matches(self) -> List[str]:
        """What a rule can match: the word and the kind behind it."""
        shapes = [self._shapes(each.right)[0] for each in self.file(WORDS).of("match_words")]
        return [" ".join(shape) for shape in shapes]

    def settings(self) -> List[str]:
        """What a rule can set, in its order."""
        return [text.rstrip("=") for text in texts(self.file(WORDS).right("settings_words"))]

    def origins(self) -> List[str]:
        return [texts(each.right)[0] for each in self.file(WORDING).of("origin_text")]

    def attributes(self) -> List[str]:
        """The attributes as a reply has them, in their order."""
        known = self.file(REPLIES)
        found = texts(known.right("attr_text")) + texts(known.of("communities_text")[-1].right)
        return [text.strip().rstrip("=") for text in found]

    def reply_words(self) -> List[str]:
        """The words of replies beside reasons, names of refusals and attributes."""
        known = self.file(REPLIES).equations
        taken = [each for name, each in known.items() if name not in ("reason_text", "attr_text", "communities_text")]
        return sorted({word for each in taken for equation in each for text in texts(equation.right)
                       for word in text.split()})

    # Numbers

    def number(self, definition: str) -> Optional[int]:
        """The number that a definition is, named by its crate, its file and itself."""
        right = self._named(definition).strip()
        return int(right) if right.isdigit() else None

    def range(self, definition: str) -> Tuple[Optional[int], Optional[int]]:
        """The least and the most number of a range, as `(1 ≤ n) × (n ≤ 16)` has it."""
        low, high = None, None
        for one, sign, other in re.findall(r"\(([^()]+?) ([<≤]) ([^()]+?)\)", self._named(definition)):
            if one[0].isdigit():
                low = _value(one) + (sign == "<")
            else:
                high = _value(other) - (sign == "<")
        return low, high

    def _named(self, definition: str) -> str:
        crate, file, name = definition.split(" ")
        return self.file("%s/specs/%s.antt" % (crate, file)).right(name)


def _value(text: str) -> int:
    """A number, or a power of two."""
    base, _, power = text.partition(" ^ ")
    return int(pow(int(base), int(power or 1)))


def shape_of(spelling: str, words: Dict[str, Dict[str, str]]) -> Tuple[str, ...]:
    """A spelling of the table in the words of the definitions."""
    return tuple(_shape(spelling, words))


def _shape(spelling: str, words: Dict[str, Dict[str, str]]) -> Iterator[str]:
    for word in spelling.split(" "):
        kind = words[word]["kind"] if word in words else ""
        if kind:
            yield "number" if kind in NUMBERS else kind
        elif word.startswith("["):
            yield "[%s]" % word[1:].split("=")[0]
        else:
            yield "|".join(sorted(word.split("|")))
