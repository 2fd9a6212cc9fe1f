"""Checks that a stream's failure is one that std's call answered. What a stream did is known to contracts by the traits
`Source` and `Sink` of `watched` alone, and all code above them is proved from these: it cannot make a failure up. What
their one implementation says, of std's readers and writers, no contract can say: std's calls may always fail.

    tools/stream-faults [TOP]

So this reads the sources. Only the types of IMPLEMENTATIONS have these traits. Each of their calls makes the one call
of std's that it is named after, with what it was given, and notes and answers a failure where that did, word for word
as BODIES has it. And `failed` is written nowhere else in their files. It prints what differs, FILE:LINE: what. The last
line is `N passed, M failed`: a call that is so passes.
"""
from __future__ import annotations

import pathlib
from typing import Dict, Iterator, List, Sequence, Set, Tuple

from . import commands
from . import rattle_source as reading
from .programs import TOP
from .rattle_source import Function, Source

# The types that may have the traits, and where.
IMPLEMENTATIONS = {
    ("Source", "Reader"): "crates/watched/src/source.rt",
    ("Sink", "Writer"): "crates/watched/src/sink.rt",
}
# The body of each of their calls.
BODIES: Dict[Tuple[str, str], str] = {
    ("Reader", "read"): """match self.reader.read(buffer) {
        Ok(count) => Ok(count),
        Err(error) => { self.failed = true; Err(error) }
    }""",
    ("Writer", "write"): """match self.writer.write(bytes) {
        Ok(n) if n > 0 || bytes.is_empty() => Ok(n),
        Ok(_) | Err(_) => { self.failed = true; Err(WriterFailed) }
    }""",
    ("Writer", "flush"): """match self.writer.flush() {
        Ok(()) => Ok(()),
        Err(_) => { self.failed = true; Err(WriterFailed) }
    }""",
    ("Reader", "new"): "Reader { reader, failed: false, }",
    ("Writer", "new"): "Writer { writer, failed: false, }",
    ("Writer", "into_inner"): "self.writer",
}


def words(text: str) -> List[str]:
    """The words and signs of a text, without a comma that ends a list."""
    found = [token.text for token in reading.tokens(text)]
    return [word for word, after in zip(found, found[1:] + [""]) if word != "," or after not in ("}", ")", "]")]


def body_of(source: Source, function: Function) -> List[str]:
    """The words of a function's body."""
    body = function.body
    return words(source.text[body.start + 1:body.end - 1]) if body else []


def of_function(source: Source, function: Function) -> Iterator[str]:
    """What is amiss in a function of a file in which one of the types stands."""
    wanted = BODIES.get((function.owner, function.name))
    if wanted is None:
        if function.body is not None:
            yield "%s:%d: no call but those of %s may stand beside `failed`" % (
                source.file, function.line, " and ".join(sorted({owner for owner, _ in BODIES})))
    elif body_of(source, function) != words(wanted):
        yield "%s:%d: the body of %s::%s is not the one that tools/stream-faults knows" % (
            source.file, function.line, function.owner, function.name)


def others(sources: Sequence[Source]) -> Iterator[str]:
    """Each type that has one of the traits and may not."""
    for source in sources:
        told: Set[Tuple[str, str]] = set()
        for function in source.functions:
            pair = (function.trait, function.owner)
            is_trait = function.trait in {trait for trait, _ in IMPLEMENTATIONS} and function.owner
            if is_trait and IMPLEMENTATIONS.get(pair) != source.file and pair not in told:
                told.add(pair)
                yield "%s:%d: %s may not have the trait %s" % (source.file, function.line, function.owner, function.trait)


def checked(top: pathlib.Path) -> Tuple[int, List[str]]:
    """How many calls are as they have to be, and what is amiss."""
    sources = [reading.read(path, top) for path in sorted(top.glob("crates/*/src/**/*.rt"))]
    told = list(others(sources))
    found: Set[Tuple[str, str]] = set()
    for source in sources:
        if source.file in IMPLEMENTATIONS.values():
            for function in source.functions:
                found.add((function.owner, function.name))
                told += of_function(source, function)
    missing = sorted(set(BODIES) - found)
    told += ["%s::%s is missing" % pair for pair in missing]
    return len(BODIES) - min(len(BODIES), len(told)), told


def main(given: List[str]) -> int:
    asked = commands.parser(__doc__)
    asked.add_argument("top", metavar="TOP", nargs="?", default=str(TOP), help="the folder with crates/")
    try:
        passed, told = checked(pathlib.Path(asked.parse_args(given).top))
    except reading.Unreadable as error:
        passed, told = 0, [str(error)]
    for line in told:
        print(line)
    return commands.counted(passed, len(told))
