"""BIRD configurations as words and items: comments are left out, files that are included stand in their place."""
from __future__ import annotations

import glob
import itertools
import os
import re
from typing import Iterator, List, NamedTuple, Optional, Set, Tuple, Union

from ...program.mistakes import Mistake
from ..common.configuration import Line, no_address, short
from ..common.sources import text_of

# BIRD includes files in files up to this depth.
MOST_DEPTH = 8
# So many words and inclusions one router's configuration has at most.
MOST_WORDS, MOST_FILES = 3000000, 10000
# What makes a name of a file a pattern, and how many parts of its path may have that.
PATTERN, MOST_PATTERNS = re.compile(r"[*?\[]"), 2
OPENING, CLOSING = ("(", "[", "[="), (")", "]", "=]")
_WORD = re.compile(r"""
    (?P<space>[ \t\r\f\v\n]+ | \#[^\n]* | /\*.*?\*/)
    | (?P<string>"[^"\n]*")
    | (?P<quoted>'[A-Za-z0-9_.:-]+')
    | (?P<six>(?:[0-9a-fA-F]{1,4}:){2}[0-9a-fA-F:.]* | (?:[0-9a-fA-F]{1,4})?::[0-9a-fA-F:.]*)
    | (?P<address>[0-9]+(?:\.[0-9]+){2,3}(?!\.[0-9]))
    | (?P<number>0x[0-9a-fA-F]+ | [0-9]+)
    | (?P<name>[A-Za-z_][A-Za-z0-9_]*)
    | (?P<mark>\[=|=\]|\.\.|&&|\|\||!=|!~|<=|>=|->|[^\w\s"'])
    """, re.VERBOSE | re.DOTALL)


class Word(NamedTuple):
    """A word of a configuration: its kind, itself (a string without its quotes), and its line."""
    kind: str
    text: str
    line: Line


class Item(NamedTuple):
    """What ends with `;`, or with a block in braces: the words before it, and those in it."""
    head: List[Word]
    body: Optional[List[Word]]

    @property
    def line(self) -> Line:
        """The line on which it begins."""
        return self.head[0].line if self.head else (self.body or [])[0].line

    @property
    def texts(self) -> List[str]:
        """The words before the block, as text."""
        return [word.text for word in self.head]

    @property
    def said(self) -> str:
        """The words before the block with one space between each two."""
        return " ".join(self.texts)


class Inclusion(NamedTuple):
    """An `include`: the file, the line and the names of the files that it puts there."""
    line: Line
    files: List[str]


class Reader:
    """Reads a file and those that it includes; `included` are the files that were, by their real names."""

    def __init__(self, included: Set[str]) -> None:
        self.included = included
        self.count_of_words = self.count_of_files = 0

    def words(self, path: str, depth: int = 0, by: Optional[Line] = None) -> List[Word]:
        """All words in their order; raises Mistake where a file cannot be read, or they are too many. `by` is the line
        that includes the file."""
        found: List[Word] = []
        for each in self._parts(path, by):
            if isinstance(each, Word):
                found.append(each)
                continue
            for other in each.files:
                self.count_of_files += 1
                if depth == MOST_DEPTH or self.count_of_files > MOST_FILES:
                    raise mistake("files include each other more than %d deep" % MOST_DEPTH if depth == MOST_DEPTH else
                                  "more than %d files are included" % MOST_FILES, each.line)
                self.included.add(os.path.realpath(other))
                found += self.words(other, depth + 1, each.line)
        return found

    def _parts(self, path: str, by: Optional[Line]) -> Iterator[Union[Word, Inclusion]]:
        """The words of a file, and its `include`s."""
        last, waiting = ";", self._counted(_words(_content(path, by), path))
        for word in waiting:
            if (word.kind, word.text) == ("name", "include") and last in (";", "{", "}"):
                named, end = next(waiting, None), next(waiting, None)
                if named is None or named.kind != "string" or end is None or end.text != ";":
                    raise mistake("`include \"FILE\";` is expected", word.line)
                yield Inclusion(word.line, _named(path, named))
                last = ";"
            else:
                yield word
                last = word.text

    def _counted(self, words: Iterator[Word]) -> Iterator[Word]:
        for word in words:
            self.count_of_words += 1
            if self.count_of_words > MOST_WORDS:
                raise mistake("more than {:,} words are read".format(MOST_WORDS), word.line)
            yield word


def mistake(text: str, line: Line) -> Mistake:
    """What is wrong at a line."""
    return Mistake(text, line.file, line.number)


def words_in(path: str, included: Set[str]) -> List[Word]:
    """The words of a file and of those that it includes, which are noted; raises Mistake where one cannot be read."""
    return Reader(included).words(path)


def _named(path: str, named: Word) -> List[str]:
    """The files that an `include` names, by a name or a pattern; raises Mistake where they cannot be found."""
    where = os.path.join(os.path.dirname(path), named.text)
    if "\0" in named.text:
        raise mistake("include \"%s\": a NUL is in no name of a file" % short(named.text), named.line)
    if not PATTERN.search(named.text):
        return [where]
    if sum(bool(PATTERN.search(part)) for part in named.text.split("/")) > MOST_PATTERNS:
        raise mistake("include \"%s\": %d parts of a path at most are patterns" % (short(named.text), MOST_PATTERNS),
                      named.line)
    found = sorted(itertools.islice(glob.iglob(where), MOST_FILES + 1))
    return [each for each in found if not os.path.isdir(each)]


def _content(path: str, by: Optional[Line]) -> str:
    try:
        return text_of(path, by is not None)
    except Mistake as wrong:
        if by is None:
            raise
        raise mistake("include: %s" % wrong, by) from None


def _words(content: str, path: str) -> Iterator[Word]:
    """The words of a text; raises Mistake where a string or a comment does not end, or a number is too large."""
    lines = [Line(path, number, line.strip()) for number, line in enumerate(content.split("\n"), 1)]
    number, at = 1, 0
    while at < len(content):
        found = _WORD.match(content, at)
        if found is None or found.group() == "/" and content.startswith("/*", at):
            begun = {"/": "a comment that does not end", '"': "a string that does not end"}
            raise Mistake(begun.get(content[at], "`%s` begins no word of BIRD's" % content[at]), path, number)
        kind, text = found.lastgroup or "", found.group()
        if kind == "number" and number_of(text) is None:
            raise Mistake("`%s`: a number of 0 to 4294967295 is expected" % short(text), path, number)
        if kind == "address" and no_address(text):
            raise Mistake(no_address(text), path, number)
        if kind != "space":
            yield Word("name" if kind == "quoted" else kind, text[1:-1] if kind in ("string", "quoted") else text,
                       lines[number - 1])
        number += text.count("\n")
        at = found.end()


def number_of(text: str) -> Optional[int]:
    """The number of 32 bits that a word of BIRD's spells, with digits or as `0x1f`; nothing where it spells none."""
    if re.fullmatch("0x[0-9a-fA-F]{1,40}|[0-9]{1,40}", text) is None:
        return None
    value = int(text, 16 if text.startswith("0x") else 10)
    return value if value < 2 ** 32 else None


def items_of(words: List[Word]) -> List[Item]:
    """The items that these words are; raises Mistake where a brace has no other one."""
    found: List[Item] = []
    at = 0
    while at < len(words):
        item, at = _item(words, at)
        found += [item] if item.head or item.body else []
    return found


def _item(words: List[Word], at: int) -> Tuple[Item, int]:
    """The item that begins there, and where the next one does."""
    head: List[Word] = []
    depth = 0
    while at < len(words):
        text = words[at].text if words[at].kind == "mark" else ""
        depth += (text in OPENING) - (text in CLOSING)
        if text == ";" and depth <= 0:
            return Item(head, None), at + 1
        if text in ("{", "}") and depth <= 0:
            end = _closing(words, at)
            has_mark = end + 1 < len(words) and words[end + 1].text == ";"
            return Item(head, words[at + 1:end]), end + 1 + has_mark
        head.append(words[at])
        at += 1
    raise mistake("`;` is expected behind `%s`" % short(head[-1].text), head[-1].line)


def _closing(words: List[Word], begin: int) -> int:
    """Where the brace is that closes the one there."""
    depth = 0
    for at in range(begin, len(words)):
        text = words[at].text if words[at].kind == "mark" else ""
        depth += (text == "{") - (text == "}")
        if depth <= 0:
            break
    if depth or words[begin].text == "}":
        raise mistake("a brace `%s` without its other one" % words[begin].text, words[begin].line)
    return at
