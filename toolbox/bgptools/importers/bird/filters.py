"""Filters and functions of BIRD as trees of statements and expressions."""
from __future__ import annotations

from typing import Any, Callable, Dict, Iterator, List, NamedTuple, Optional, Tuple, TypeVar

from ...program.language import address
from ..common.configuration import Line
from .lexer import Word, number_of

MOST_DEPTH = 50
# So many parts one expression has at most that stand behind each other, as `a && b && c`.
MOST_PARTS = 500
Read = TypeVar("Read")
COMPARING = ("=", "!=", "~", "!~", "<", ">", "<=", ">=")
TYPES = ("int", "bool", "ip", "prefix", "pair", "quad", "ec", "lc", "string", "bgpmask", "bgppath", "clist", "eclist",
         "lclist", "rd", "enum", "bytestring", "route")


class Wrong(Exception):
    """What stands there is not of BIRD's language as from-bird knows it: at a line, after a word."""

    def __init__(self, text: str, line: Optional[Line]) -> None:
        super().__init__(text)
        self.text, self.line = text, line

    def __reduce__(self) -> Tuple[Any, ...]:
        """How pickle and copy make it again."""
        return Wrong, (self.text, self.line)


class Node(NamedTuple):
    """A statement or an expression: what it is, what it consists of, and its line."""
    what: str
    of: Tuple[Any, ...]
    line: Line


class Function(NamedTuple):
    """A function: the names of its parameters, and its statements."""
    parameters: Tuple[str, ...]
    body: Tuple[Node, ...]


class Net(NamedTuple):
    """A prefix as it is written, which may have bits behind its length."""
    value: int
    length: int


class Pattern(NamedTuple):
    """A prefix of a set, with the lengths that it is about."""
    where: Net
    least: int
    most: int


class Span(NamedTuple):
    """A number of a set, or of a half of a community: from the first to the last; `*` is all."""
    low: Any
    high: Any


class Parser:
    """Reads a block's words; raises Wrong."""

    def __init__(self, words: List[Word], line: Line) -> None:
        self.words, self.at, self.line, self.depth = words, 0, line, 0

    # Words

    @property
    def word(self) -> Word:
        """The next word, an empty one at the end."""
        if self.at < len(self.words):
            return self.words[self.at]
        return Word("end", "", self.words[-1].line if self.words else self.line)

    def is_next(self, *texts: str) -> bool:
        """Whether the next word is one of these, and no string."""
        return self.word.kind in ("mark", "name") and self.word.text in texts

    def take(self) -> Word:
        """The next word, which is behind then."""
        found = self.word
        self.at += 1
        return found

    def takes(self, *texts: str) -> bool:
        """Takes the next word where it is one of these."""
        found = self.is_next(*texts)
        self.at += found
        return found

    def expect(self, text: str) -> None:
        """Takes a word that has to be there."""
        if not self.takes(text):
            found = "`%s`" % self.word.text if self.word.text else "the end"
            raise Wrong("`%s` is expected, and not %s" % (text, found), self.word.line)

    def _nested(self, read: Callable[[], Read]) -> Read:
        """What is read one level deeper."""
        self.depth += 1
        if self.depth > MOST_DEPTH:
            raise Wrong("what stands there is nested more than %d deep" % MOST_DEPTH, self.word.line)
        found = read()
        self.depth -= 1
        return found

    # Statements

    def statements(self) -> Tuple[Node, ...]:
        """All statements up to the end of the block."""
        found: List[Node] = []
        while self.word.kind != "end" and not self.is_next("}"):
            if not self.takes(";"):
                found.append(self._statement())
        return tuple(found)

    def _block(self) -> Tuple[Node, ...]:
        """A block in braces, or one statement."""
        if not self.takes("{"):
            return () if self.takes(";") else (self._nested(self._statement),)
        found = self._nested(self.statements)
        self.expect("}")
        return found

    def _statement(self) -> Node:
        line = self.word.line
        known: Dict[str, Callable[[Line], Node]] = {"if": self._if, "accept": self._end, "reject": self._end,
                                                    "return": self._return}
        if self.word.kind == "name" and self.word.text in known:
            return known[self.word.text](line)
        if self.is_next("{"):
            return Node("block", (self._block(),), line)
        if self.word.kind == "name" and self.word.text in TYPES:
            return self._variable(line)
        if self.is_next("case", "for"):
            return self._other(line)
        if self.word.kind == "name" and not self.is_next("print", "printn", "unset"):
            found = self._assignment(line)
            if found is not None:
                return found
        return self._other(line)

    def _if(self, line: Line) -> Node:
        self.take()
        condition = self.expression()
        self.expect("then")
        inside = self._block()
        outside = self._block() if self.takes("else") else ()
        return Node("if", (condition, inside, outside), line)

    def _end(self, line: Line) -> Node:
        """`accept;` or `reject;`, which may print something."""
        what = self.take().text
        while not self.takes(";"):
            self.expression()
            if not self.is_next(";"):
                self.expect(",")
        return Node(what, (), line)

    def _return(self, line: Line) -> Node:
        self.take()
        found = self.expression()
        self.expect(";")
        return Node("return", (found,), line)

    def _variable(self, line: Line) -> Node:
        """`TYPE NAME;` or `TYPE NAME = X;`."""
        while self.word.kind == "name" and self.word.text in (*TYPES, "set"):
            self.take()
        name = self.take()
        if name.kind != "name":
            raise Wrong("the name of a variable is expected, and not `%s`" % name.text, name.line)
        value = self.expression() if self.takes("=") else None
        self.expect(";")
        return Node("declare", (name.text, value), line)

    def _assignment(self, line: Line) -> Optional[Node]:
        """`NAME = X;`, `NAME.METHOD(X..);` or `NAME(X..);`; nothing for another statement."""
        before, name = self.at, self.take().text
        if self.takes("="):
            found = Node("set", (name, self.expression()), line)
        elif self.takes("."):
            method = self.take().text
            found = Node("do", (name, method, self._given() if self.is_next("(") else ()), line)
        elif self.is_next("("):
            found = Node("call", (name, self._given()), line)
        else:
            self.at = before
            return None
        self.expect(";")
        return found

    def _given(self) -> Tuple[Node, ...]:
        """What is given to a function."""
        found: List[Node] = []
        self.expect("(")
        while not self.takes(")"):
            found.append(self.expression())
            if not self.is_next(")"):
                self.expect(",")
        return tuple(found)

    def _other(self, line: Line) -> Node:
        """A statement that is not read further: up to its `;`, or its block."""
        said = self.word.text
        self._rest()
        return Node("print" if said in ("print", "printn") else "other", (said,), line)

    def _rest(self) -> None:
        """Takes the words up to a `;`, or up to the end of a block."""
        depth = 0
        while self.word.kind != "end":
            text = self.take().text
            depth += (text in ("{", "(")) - (text in ("}", ")"))
            if depth <= 0 and text in (";", "}"):
                return

    # Expressions, the loosest first

    def expression(self) -> Node:
        """An expression; `&&` and `||` bind alike, from the left."""
        return self._nested(self._expression)

    def _expression(self) -> Node:
        found = self._comparison()
        for word in self._signs("&&", "||"):
            found = Node("and" if word.text == "&&" else "or", (found, self._comparison()), word.line)
        return found

    def _comparison(self) -> Node:
        found = self._sum()
        if self.is_next(*COMPARING):
            word = self.take()
            found = Node("compare", (word.text, found, self._sum()), word.line)
        return found

    def _sum(self) -> Node:
        found = self._unary()
        for word in self._signs("+", "-", "*", "/"):
            found = Node("reckon", (word.text, found, self._unary()), word.line)
        return found

    def _unary(self) -> Node:
        if self.is_next("!"):
            line = self.take_line()
            return Node("not", (self._nested(self._unary),), line)
        found = self._primary()
        for _ in self._signs("."):
            name = self.take()
            found = Node("of", (found, name.text, self._given() if self.is_next("(") else ()), name.line)
        return found

    def _signs(self, *signs: str) -> Iterator[Word]:
        """The next word while it is one of these, which is taken; raises Wrong where they are too many."""
        for _ in range(MOST_PARTS):
            if not self.is_next(*signs):
                return
            yield self.take()
        raise Wrong("an expression has more than %d parts" % MOST_PARTS, self.word.line)

    def take_line(self) -> Line:
        """The line of the next word, which is taken."""
        return self.take().line

    def _primary(self) -> Node:
        word = self.take()
        if word.kind == "number":
            return Node("value", (number_of(word.text),), word.line)
        if word.kind == "string":
            return Node("value", (word.text,), word.line)
        if word.kind == "address":
            return self._prefix(word)
        if word.kind == "name":
            is_called = self.is_next("(")
            return Node("called" if is_called else "name", (word.text, self._given() if is_called else ()), word.line)
        if word.text in ("(", "[", "[="):
            read = {"(": self._parts, "[": self._set, "[=": self._mask}[word.text]
            return self._nested(lambda: read(word.line))
        if word.text in ("+", "-"):
            return self._empty(word)
        raise Wrong("`%s` begins no value" % word.text if word.text else "a value is expected", word.line)

    def _prefix(self, word: Word) -> Node:
        value = address(word.text)
        if value is None:
            raise Wrong("`%s` is no address" % word.text, word.line)
        if not self.takes("/"):
            return Node("value", (word.text,), word.line)
        return Node("value", (Net(value, self._number(32)),), word.line)

    def _number(self, most: int) -> int:
        word = self.take()
        found = number_of(word.text) if word.kind == "number" else None
        if found is None or found > most:
            raise Wrong("`%s` where a number of 0 to %d is expected" % (word.text, most), word.line)
        return found

    def _empty(self, word: Word) -> Node:
        """`+empty+`, `-empty-` or `--empty--`."""
        while self.is_next("+", "-", "empty"):
            self.take()
        return Node("empty", (), word.line)

    def _parts(self, line: Line) -> Node:
        """What is in parentheses: an expression, or the parts of a community."""
        found = [self._half()]
        while self.takes(","):
            found.append(self._half())
        self.expect(")")
        return found[0] if len(found) == 1 else Node("parts", tuple(found), line)

    def _half(self) -> Node:
        """A part of a community: an expression, `*`, or from one number to another."""
        if self.is_next("*"):
            return Node("value", (Span("*", "*"),), self.take_line())
        found = self.expression()
        if self.takes(".."):
            return Node("span", (found, self._sum()), found.line)
        return found

    def _set(self, line: Line) -> Node:
        found: List[Node] = []
        while not self.takes("]"):
            found.append(self._element())
            if not self.is_next("]"):
                self.expect(",")
        return Node("elements", tuple(found), line)

    def _element(self) -> Node:
        """An element of a set: a prefix with its lengths, or a part as of a community."""
        if self.word.kind != "address":
            return self._half()
        word = self.word
        found = self._prefix(self.take())
        where = found.of[0]
        if not isinstance(where, Net):
            return found
        least = most = where.length
        if self.takes("+"):
            most = 32
        elif self.takes("-"):
            least = 0
        elif self.takes("{"):
            least = self._number(32)
            self.expect(",")
            most = self._number(32)
            self.expect("}")
        return Node("value", (Pattern(where, least, most),), word.line)

    def _mask(self, line: Line) -> Node:
        """A mask of paths."""
        found: List[Node] = []
        while not self.takes("=]"):
            if self.is_next("*", "?"):
                word = self.take()
                found.append(Node("value", (word.text,), word.line))
            else:
                found.append(self._primary())
        return Node("mask", tuple(found), line)


def nodes_in(found: Tuple[Any, ...]) -> Iterator[Node]:
    """All nodes of statements, those in others too."""
    waiting = list(found)
    while waiting:
        each = waiting.pop()
        if isinstance(each, Node):
            yield each
            waiting += each.of
        elif isinstance(each, tuple):
            waiting += each


def statements_of(words: List[Word], line: Line) -> Tuple[Node, ...]:
    """The statements of a block; raises Wrong."""
    parser = Parser(words, line)
    found = parser.statements()
    if parser.word.kind != "end":
        raise Wrong("`%s` is not expected" % parser.word.text, parser.word.line)
    return found


def expression_of(words: List[Word], line: Line) -> Node:
    """The expression that all the words are; raises Wrong."""
    parser = Parser(words, line)
    found = parser.expression()
    if parser.word.kind != "end":
        raise Wrong("`%s` is not expected" % parser.word.text, parser.word.line)
    return found
