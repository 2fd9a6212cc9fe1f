"""Pictures that were asked for lately."""
from __future__ import annotations

from collections import OrderedDict
from typing import Optional, Tuple

from .request import Shown

# The version of the script, and what is shown.
Key = Tuple[Tuple[int, int], Shown]
# What Python takes for an entry, with its key of three numbers and at most three addresses.
BESIDE = 1024


class Cache:
    """Answers by what they show, at most so many bytes with their keys; those that were not asked for go first."""

    def __init__(self, most: int) -> None:
        self.most, self.size = most, 0
        self.answers: "OrderedDict[Key, bytes]" = OrderedDict()

    def get(self, key: Key) -> Optional[bytes]:
        """The answer; nothing where it is not kept."""
        found = self.answers.get(key)
        if found is not None:
            self.answers.move_to_end(key)
        return found

    def put(self, key: Key, answer: bytes) -> None:
        """Keeps an answer, if it is not larger than all that may be kept."""
        self.size -= self._taken(self.answers.pop(key, None))
        self.answers[key] = answer
        self.size += self._taken(answer)
        while self.size > self.most:
            self.size -= self._taken(self.answers.popitem(last=False)[1])

    def clear(self) -> None:
        """Keeps none any more."""
        self.answers.clear()
        self.size = 0

    @staticmethod
    def _taken(answer: Optional[bytes]) -> int:
        return 0 if answer is None else len(answer) + BESIDE
