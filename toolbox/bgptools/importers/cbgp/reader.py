"""How the lines of C-BGP scripts are read: in which context each stands, and its words."""
from __future__ import annotations

from typing import Callable, List

from ...program.language import address, number, show_prefix
from .filters import prefix_of
from .lines import Line
from .network import Network, Node
from .omission_table import COUNTED, TOLD

# A context: takes the words of a line, and says whether it knows them. With no word it is entered.
Context = Callable[[List[str]], bool]
MOST_NUMBER = 2 ** 32 - 1


class Reading:
    """Takes lines one after another, in the contexts that are open. `run` is called for each `sim run`, with its
    line."""

    def __init__(self, network: Network, run: Callable[[Line], None]) -> None:
        self.network, self.run = network, run
        self.line = Line("", 0, ())
        self.stack: List[Context] = [self._top]

    def take(self, line: Line) -> None:
        """One line; raises Mistake where C-BGP would stop at it."""
        self.line = line
        if line.words == ("exit",) or line.words == ("quit",):
            if len(self.stack) > 1:
                self.stack.pop()
            else:
                self.network.note(line, "%s: nothing is open that it ends" % line.text)
            return
        before = list(self.stack)
        for depth in range(len(before), 0, -1):
            if before[depth - 1](list(line.words)):
                if depth < len(before):
                    self.stack = before[:depth] + self.stack[len(before):]
                    self.network.note(line, "%s: it is none of what is open, which it is taken to end" % line.text)
                return
        self.network.tell(line, "%s: it is not known to from-cbgp" % line.text)

    # Words

    def _wanted(self, words: List[str], count: int, form: str) -> List[str]:
        """So many words; raises Mistake with the form that is expected."""
        if len(words) != count:
            raise self.line.mistake("`%s` is expected" % form)
        return words

    def _address(self, word: str) -> str:
        if address(word) is None:
            raise self.line.mistake("`%s` is no address, four numbers of 0 to 255 as in 1.0.0.1" % word[:60])
        return word

    def _asn(self, word: str) -> int:
        found = number(word, 1)
        if found is None:
            raise self.line.mistake("`%s` is no AS number, 1 to 4294967295" % word[:60])
        return found

    def _number(self, word: str, what: str, most: int = MOST_NUMBER) -> int:
        found = number(word, 0, most)
        if found is None:
            raise self.line.mistake("`%s` is no %s, a number up to %d" % (word[:60], what, most))
        return found

    def _prefix(self, word: str) -> str:
        """A prefix in its full form."""
        found = prefix_of(word)
        if found is None:
            raise self.line.mistake("`%s` is no prefix, as 10.0.0.0/8" % word[:60])
        return show_prefix(found)

    def _node(self, word: str) -> Node:
        if self._address(word) not in self.network.nodes:
            raise self.line.mistake("there is no node %s: `net add node %s` is expected before" % (word, word))
        return self.network.nodes[word]

    def _known(self, context: str, words: List[str]) -> bool:
        """Counts or tells a line that begins with a word of the tables."""
        if words[0] in COUNTED.get(context, {}):
            self.network.left.count(COUNTED[context][words[0]], self.line.place)
        elif words[0] in TOLD.get(context, {}):
            self.network.tell(self.line, "%s: %s" % (self.line.text, TOLD[context][words[0]]))
        else:
            return False
        return True

    def _enter(self, context: Context) -> bool:
        self.stack.append(context)
        return True

    def _top(self, words: List[str]) -> bool:
        """The context around all others."""
        raise NotImplementedError
