"""What the next word at the prompt can be: commands, addresses, names, prefixes, files, and queues in which something waits."""
from __future__ import annotations

import os
from typing import Callable, Iterable, List, Sequence

from ...network.configuration import Direction, Network
from ...program.grammar import Form
from ...program.language import ADDRESSES, COMMUNITIES, NAMES, SETTING_NAMES, words_of
from ...program.language_table import FORMS, MATCHES, ORIGINS, WELL_KNOWN


_RULE = next(form for form in FORMS if form.name == "rule")


class Completion:
    """The candidates at a prompt with this network and these full queues; `own` are the words that it has beside the commands."""

    def __init__(self, own: Sequence[Form], network: Callable[[], Network], waiting: Callable[[], List[Direction]]) -> None:
        self.own, self.network, self.waiting = own, network, waiting

    def candidates(self, begun: str, text: str = "") -> List[str]:
        """What the next word can be after the words of the line that stand before it, where this text of it is there."""
        words = words_of(begun)
        if words in ([], ["?"]):
            return list(NAMES) + [form.words[0] for form in self.own]
        if words[0] == "deliver":
            return self._queues(words, text)
        if words[0] == "rule":
            return self._rule_words(words, text)
        if words[0] in ("draw", "what-if") and len(words) > 1 or words[0] == "explain" and len(words) > 2:
            return self._options(words, text)
        found: List[str] = []
        for form in (form for form in (*FORMS, *self.own) if form.words[0] == words[0] and len(form.words) > len(words)):
            if all(want in (word, want.upper()) or "|" in want for word, want in zip(words, form.words)):
                found += self._of_kind(form.words[len(words)], text)
        return found

    def meaning(self, begun: str, word: str) -> str:
        """What a command means in a line; empty for a word behind it."""
        found = (form.meaning for form in (*self.own, *FORMS) if form.words[0] == word)
        return "" if words_of(begun) else next(found, "")

    def _named(self, addresses: Iterable[str], text: str) -> List[str]:
        """Addresses as they can be typed: by name where there is one, and as they are, too, where something is typed already."""
        names = self.network().names.of
        return [names.get(each, each) for each in addresses] + (list(addresses) if text else [])

    def _queues(self, words: List[str], text: str) -> List[str]:
        """The senders, or the receivers of one, between which something waits."""
        if len(words) > 2:
            return []
        sender = self.network().names.address_of(words[1]) if len(words) > 1 else None
        return self._named([other if sender else one for one, other in self.waiting() if sender in (None, one)], text)

    def _of_kind(self, kind: str, text: str) -> List[str]:
        if kind in ADDRESSES:
            return self._named(self.network().nodes, text)
        if kind == "P":
            return sorted(self.network().prefixes)
        if kind == "FILE":
            return files(text)
        if kind == "ORIGIN":
            return list(ORIGINS)
        if kind == COMMUNITIES:
            return self._communities(text)
        return [] if kind.isupper() else kind.split("|")

    def _known(self) -> List[int]:
        """The communities that can be meant: those of the network, and the well-known ones."""
        return sorted(self.network().communities | set(WELL_KNOWN))

    def _communities(self, text: str) -> List[str]:
        """The last word of a feed: its begin, or behind that each community that may come next."""
        if not text.startswith("comm="):
            return ["comm="]
        before, comma, _ = text[len("comm="):].rpartition(",")
        last = before.split(",")[-1]
        more = [each for each in self._known() if not last.isdigit() or each > int(last)]
        return ["comm=%s%s%d" % (before, comma, each) for each in more]

    def _options(self, words: List[str], text: str) -> List[str]:
        if words[-1] == "--prefix":
            return sorted(self.network().prefixes)
        if "--trace" in words[-2:]:
            return self._named(self.network().nodes, text)
        if words[-1] == "--to":
            return self._named(self.network().peers.get(self.network().names.address_of(words[1]), ()), text)
        if words[0] == "explain":
            return ["--to"] if len(words) == 3 else []
        return ["--prefix", "--trace"] if words[0] == "draw" else ["--trace", "--each", "--all"]

    def _of_match(self, kind: str, text: str) -> List[str]:
        """What can stand behind a match: an AS, a community or another value of the network."""
        if kind == "N":
            return sorted({str(node.asn) for node in self.network().nodes.values()})
        return list(map(str, self._known())) if kind == "C" else self._of_kind(kind, text)

    def _rule_words(self, words: List[str], text: str) -> List[str]:
        if len(words) < 3:
            return self._named(self.network().nodes, text)
        if len(words) < 5:
            return _RULE.words[3].split("|") if len(words) == 3 else [match.word for match in MATCHES]
        kind = next((match.argument for match in MATCHES if match.word == words[-1]), "")
        if kind:
            return self._of_match(kind, text)
        if "permit" in words:
            added = ["add=%d" % each for each in self._known()] if text.startswith("add=") else []
            return [name + "=" for name in SETTING_NAMES] + added
        return [] if "deny" in words else ["deny", "permit"]


def files(text: str) -> List[str]:
    """The files whose names begin so; a folder ends with a slash."""
    place, begun = os.path.split(text)
    try:
        with os.scandir(os.path.expanduser(place) or ".") as entries:
            found = [(each.name, "/" if each.is_dir() else "") for each in entries if each.name.startswith(begun)]
    except OSError:
        return []
    return sorted(os.path.join(place, name) + end for name, end in found)
