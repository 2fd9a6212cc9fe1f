"""The documents of the repository as blocks of text, with their headings and links."""
from __future__ import annotations

import pathlib
import re
from typing import Dict, Iterable, Iterator, List, NamedTuple, Set

from .programs import TOP

# The folders and files whose documents follow the rules of tools/prose, from the top of the repository: all.
STRICT = ("*.md", "docs", "tools/*.md", "cases/*.md", "bench/*.md", "language/*.md")
# The documents whose links have to lead somewhere. Test data has files of the same ending, which are none.
ALL = ("*.md", "docs", "tools", "cases", "bench", "examples", "language")
LINK = re.compile(r"!?\[((?:[^\[\]]|\[[^\]]*\])*)\]\(([^()\s]+)\)")
CODE = re.compile(r"(`+)(?:(?!\1).)+?\1", re.S)
FENCE = re.compile(r" {0,3}(`{3,}|~{3,})")
ITEM = re.compile(r"^\s*(?:[-*+]|\d+[.)])\s+")


class Block(NamedTuple):
    """Lines that belong together, the number of the first, and their kind: `text`, an `item` of a list, a `heading`,
    a row of a `table`, a `comment` or `code`."""
    kind: str
    number: int
    lines: List[str]

    def words(self) -> str:
        """The block without marks: code and links stand as one word, or by their text."""
        text = LINK.sub(r"\1", " ".join([ITEM.sub("", self.lines[0]), *map(str.strip, self.lines[1:])]))
        return re.sub(r"[*_]{1,2}(?=\S)|(?<=\S)[*_]{1,2}", "", CODE.sub("CODE", text))


def documents(named: Iterable[str]) -> List[pathlib.Path]:
    """The documents of these folders, files and patterns, in the order of their paths."""
    found: Set[pathlib.Path] = set()
    for name in named:
        for path in sorted(TOP.glob(name)):
            found.update([path] if path.is_file() else path.rglob("*.md"))
    return sorted(found)


def kind_of(line: str, last: str, was_empty: bool) -> str:
    """The kind of a line outside fences, by the kind of the block above it."""
    if line.startswith("#"):
        return "heading"
    if line.startswith("<!--") and line.endswith("-->"):
        return "comment"
    if line.lstrip().startswith("|"):
        return "table"
    if line.startswith("    ") and (last in ("", "code", "heading") or was_empty and last != "item"):
        return "code"
    if ITEM.match(line):
        return "item"
    return last if last in ("text", "item") and not was_empty else "item" if line[:1] == " " else "text"


def blocks(text: str) -> List[Block]:
    """The blocks of a document, in order."""
    found: List[Block] = []
    fence, was_empty = "", True
    for number, line in enumerate(text.split("\n"), 1):
        mark = FENCE.match(line)
        if fence or mark:
            fence = ("" if mark and mark[1] == fence else fence) if fence else (mark[1] if mark else "")
            found.append(Block("code", number, [line]))
        elif line.strip():
            add_line(found, number, line, was_empty)
        was_empty = not line.strip()
    return found


def add_line(found: List[Block], number: int, line: str, was_empty: bool) -> None:
    """Adds a line to the last block, or begins another."""
    kind = kind_of(line, found[-1].kind if found else "", was_empty)
    goes_on = found and found[-1].kind == kind and not was_empty and kind in ("text", "item") and not ITEM.match(line)
    if goes_on:
        found[-1].lines.append(line)
    else:
        found.append(Block(kind, number, [line]))


def anchors(text: str) -> Set[str]:
    """The anchors that a forge and the web pages give alike to the headings of a document."""
    seen: Dict[str, int] = {}
    both: Set[str] = set()
    for block in blocks(text):
        if block.kind == "heading":
            head = LINK.sub(r"\1", block.lines[0].lstrip("#").strip()).replace("`", "")
            forge = re.sub(r"[^\w -]", "", head.lower()).replace(" ", "-")
            pages = re.sub(r"[-\s]+", "-", re.sub(r"[^\w\s-]", "", head).strip().lower())
            if forge == pages and not seen.get(forge):
                both.add(forge)
            seen[forge] = seen.get(forge, 0) + 1
    return both


class Link(NamedTuple):
    """A link: the number of its line, and what it leads to."""
    number: int
    target: str


def links(text: str) -> Iterator[Link]:
    """The links of a document, outside code."""
    for block in blocks(text):
        if block.kind != "code":
            plain = CODE.sub(lambda code: re.sub(".", "c", code[0]), "\n".join(block.lines))
            for found in LINK.finditer(plain):
                yield Link(block.number + plain.count("\n", 0, found.start(2)), found[2])


def dead_links(path: pathlib.Path) -> Iterator[str]:
    """The links of a document that lead nowhere, each with its line."""
    for number, target in links(path.read_text()):
        if re.match(r"[a-z]+:", target):
            continue
        name, _, anchor = target.partition("#")
        there = path.parent / name if name else path
        if not there.exists():
            yield "%d: the link to `%s` leads nowhere: name a file that is there" % (number, target)
        elif anchor and there.suffix == ".md" and anchor not in anchors(there.read_text()):
            yield "%d: the link to `%s` leads to no heading: name one of that file" % (number, target)
