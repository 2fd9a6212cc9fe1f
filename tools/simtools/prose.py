"""The rules of our documents: how long lines, sentences and paragraphs are, which words stand in them, and links.

    tools/prose                the documents that STRICT of simtools/documents.py names
    tools/prose FILE..         these documents
    tools/prose --words        how many words each has outside of blocks of code, and all together

It prints each finding as `FILE:LINE: what is wrong: what to write`. A line has at most 100 columns, but for tables,
code, and a line that is one link. A sentence has at most 25 words: it ends at `.`, `?`, `!`, `:` or `;`. A cell of a
table is no longer than a sentence. A paragraph, and an item of a list, has at most five lines. Code counts as one
word; the rules for words do not look into it. The last line is `N passed, M failed`, one for each document.
"""
from __future__ import annotations

import pathlib
import re
from typing import Iterator, List, NamedTuple, Sequence

from . import commands, documents
from .documents import Block
from .programs import TOP

MOST_COLUMNS, MOST_WORDS, MOST_LINES = 100, 25, 5


class Word(NamedTuple):
    """Words that do not stand in documents, and what stands in their place."""
    pattern: "re.Pattern[str]"
    instead: str


def forbidden(*rows: Sequence[str]) -> List[Word]:
    """The rows, each a pattern and what to write, as whole words."""
    return [Word(re.compile(r"(?<![\w-])(?:%s)(?![\w-])" % pattern, re.I), instead) for pattern, instead in rows]


# What the command language, the replies, the log and the public functions spell is code in documents, and stands in
# back quotes: no rule looks there.
FORBIDDEN = forbidden(
    (r"settl(?:e[sd]?|ing)|quiet", "converge, converged"),
    (r"wants? of memory|memory (?:is|was|that is) want(?:ed|ing)|wants? (?:no |more )?memory", "out of memory"),
    (r"growths", "allocation failure injection"),
    (r"planted|wrong bod(?:y|ies)", "mutant"),
    (r"(?:has|have|had) to (?:be believed|believe)", "trusted base"),
    (r"storms?", "stress test"),
    (r"hostile|forged|mistyped", "fuzzing, malformed input"),
    (r"second machines?", "reference model, test oracle"),
    (r"(?<!notebook )(?<!table )cells?", "RIB entry"),
    (r"standings?|how (?:\w+ ){1,3}stands?", "eligible, excluded; eligibility"),
    (r"(?<!web )sites?", "router configuration"),
    (r"interiors?", "IGP, IGP metric, IGP cost"),
    (r"walk(?:s|ed|ing)?", "shortest path"),
    (r"(?<!path )(?<!working )(?<!source )trees?", "shortest-path tree, SPT"),
    (r"told|taken back", "advertised, withdrawn; reported"),
    (r"ke(?:pt|eps?) back", "suppressed"),
    (r"(?:decid\w+|cho(?:ose\w*|sen)|ma(?:kes?|de)) (?:\w+ ){0,3}(?:anew|afresh)", "recomputed"),
    (r"spare places?|places to spare|rooms?", "reserved capacity"),
    (r"admit(?:s|ted|ting)?", "interned"),
    (r"(?:an?|the|each) joined|books?", "session, request, journal"),
    (r"by lots?|lots", "random order"),
    (r"(?<!in )fronts?", "prefix of"),
    (r"taking up|lasting|parked", "dump, snapshot, restore"),
    (r"what brings in", "importer, exporter"),
    (r"who works", "worker, thread pool"),
    (r"what (?:it|(?:an?|the|each|one|this) \w+) takes(?! over| up| back| in)", "cost, running time"),
    (r"(?:an?|each|every|one|the|no|that) looks?", "lookup"),
    (r"since then|(?:was|were) tried|used to be", "nothing: history stands in git"),
)


def sentences(block: Block) -> Iterator[str]:
    """The sentences of a block; of a table the cells."""
    text = block.words()
    yield from text.strip(" |").split("|") if block.kind == "table" else re.split(r"(?<=[.:?;!])[)\"]*\s", text)


def too_long(block: Block) -> Iterator[str]:
    for at, line in enumerate(block.lines):
        is_link = re.fullmatch(r"\s*(?:[-*] )?%s[.,:;]?" % documents.LINK.pattern, line)
        if block.kind in ("text", "item", "heading") and len(line) > MOST_COLUMNS and not is_link:
            yield "%d: %d columns: break the line at %d" % (block.number + at, len(line), MOST_COLUMNS)
    if block.kind in ("text", "item") and len(block.lines) > MOST_LINES:
        yield "%d: a paragraph of %d lines: make it two, or a list" % (block.number, len(block.lines))
    if block.kind in ("text", "item", "table"):
        for one in sentences(block):
            count = sum(bool(re.search(r"\w", word)) for word in one.split())
            if count > MOST_WORDS:
                start = " ".join(one.split()[:5])
                yield "%d: %d words, `%s ..`: make it two sentences" % (block.number, count, start)


def of_dialect(block: Block) -> Iterator[str]:
    text = block.words()
    if block.kind == "heading" and (TOP / "toolbox" / text.lstrip("# ")).is_file():
        return  # the name of a tool
    for word in FORBIDDEN:
        for found in word.pattern.finditer(text):
            around = text[max(found.start() - 20, 0):found.end() + 20].strip()
            yield "%d: `%s` in `%s`: write %s" % (block.number, found[0], around, word.instead)


def findings(path: pathlib.Path) -> List[str]:
    """What is wrong in a document, each with its line."""
    found: List[str] = []
    for block in documents.blocks(path.read_text()):
        if block.kind not in ("code", "comment"):
            found += [*too_long(block), *of_dialect(block)]
    return found + list(documents.dead_links(path))


def word_count(path: pathlib.Path) -> int:
    """How many words a document has, outside of blocks of code; what has no letter or digit is no word."""
    blocks = [block for block in documents.blocks(path.read_text()) if block.kind not in ("code", "comment")]
    return sum(bool(re.search(r"\w", word)) for block in blocks for line in block.lines for word in line.split())


def tell_words(paths: Sequence[pathlib.Path]) -> int:
    """Prints how many words each document has."""
    counts = [word_count(path) for path in paths]
    for path, count in zip(paths, counts):
        print("%6d %s" % (count, path.relative_to(TOP)))
    print("%6d in all" % sum(counts))
    return 0


def part(paths: Sequence[pathlib.Path]) -> int:
    """Prints the findings of these documents; the exit status."""
    failed = 0
    for path in paths:
        found = findings(path)
        failed += bool(found)
        for line in found:
            print("%s:%s" % (path.relative_to(TOP) if path.is_relative_to(TOP) else path, line))
    return commands.counted(len(paths) - failed, failed)


def main(words: Sequence[str]) -> int:
    """The command."""
    asked = commands.parser(__doc__)
    asked.add_argument("files", metavar="FILE", nargs="*", type=pathlib.Path)
    asked.add_argument("--words", action="store_true")
    chosen = asked.parse_args(words)
    paths = [path.resolve() for path in chosen.files] or documents.documents(documents.STRICT)
    missing = [str(path) for path in paths if not path.is_file()]
    if missing:
        raise commands.Missing("%s: there is no such document: name a file" % missing[0])
    return tell_words(paths) if chosen.words else commands.as_part(lambda: part(paths))
