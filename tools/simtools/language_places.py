"""Where the command language stands beside its table: what each of these files has, and what it has to have."""
from __future__ import annotations

import ast
import functools
import pathlib
import re
from typing import Any, Dict, Iterator, List, NamedTuple, Optional, Sequence

from . import language_crates as crates
from .language_crates import Crates, shape_of
from .language_table import Table

CALLS = "toolbox/bgptools/api/commands.py"
CONFIGURATION = "toolbox/bgptools/network/configuration.py"
SENTENCES = "toolbox/bgptools/network/refusals.py"
READ = "toolbox/bgptools/program/replies.py"
SELECTION = "toolbox/bgptools/network/selection.py"
MODEL, RANDOM = "tools/model.py", "tools/simtools/random_scripts.py"
# What no script can show: memory is refused by nobody's wish.
UNSHOWN = ("memory",)
# Its reading takes memory, and its first word stands among the words that follow it.
READ_BY_ITSELF = ("feed",)


class Place(NamedTuple):
    """What a file has of a part of the language, and what it has to have: in this order, where that counts; where it
    may have more, only what it lacks is reported."""
    file: str
    what: str
    has: Sequence[str]
    wants: Sequence[str]
    has_order: bool = False
    may_have_more: bool = False

    def faults(self) -> Iterator[str]:
        """What it lacks, and what it has too many of."""
        lacks = [each for each in self.wants if each not in self.has]
        more = [] if self.may_have_more else [each for each in self.has if each not in self.wants]
        for each in lacks:
            yield "%s: lacks the %s `%s`" % (self.file, self.what, each)
        for each in more:
            yield "%s: has the %s `%s`, which the table lacks" % (self.file, self.what, each)
        if self.has_order and not lacks and not more and list(self.has) != list(self.wants):
            yield "%s: has the %ss in the order %s, and the table %s" % (
                self.file, self.what, " ".join(self.has), " ".join(self.wants))


# What the crates have

def in_crates(table: Table, known: Crates) -> Iterator[Place]:
    """The definitions of the crates."""
    yield from _commands(table, known)
    listed = ["%d %s" % (row["number"], row["name"]) for row in table.rows("refusals")]
    for file, what, has, wants in (
            (crates.REFUSALS, "refusal", known.refusals(), listed),
            (crates.REPLIES, "attribute", known.attributes(), table.names("attributes")),
            (crates.DECISION, "exclusion", known.exclusions(), table.names("exclusions")),
            (crates.SELECTION, "filter", known.filters(), table.names("filters")),
            (crates.WORDING, "origin", known.origins(), table.names("origins")),
            (crates.WORDS, "setting", known.settings(), table.names("settings"))):
        yield Place("crates/" + file, what, has, wants, has_order=True)
    matches = [" ".join(shape_of(_match(row), table.parts["words"])) for row in table.rows("matches")]
    yield Place("crates/" + crates.WORDS, "match", known.matches(), matches)
    yield Place("crates/" + crates.REPLIES, "reason", known.reasons(), table.reasons)
    yield Place("crates/" + crates.REPLIES, "word of replies", known.reply_words(), _reply_words(table))
    yield from _numbers(table, known)


def _match(row: Dict[str, Any]) -> str:
    return " ".join(filter(None, (row["word"], row.get("argument"))))


def _commands(table: Table, known: Crates) -> Iterator[Place]:
    """How the crates spell the commands, and by what they refuse them."""
    words = table.parts["words"]
    by_shape = {shape_of(command.spelling, words): command for command in table.commands}
    spelled = {each.shape: each for each in known.commands()}
    shown = [by_shape[shape].spelling if shape in by_shape else " ".join(shape) for shape in spelled]
    yield Place("crates/" + crates.WORDS, "command", shown, [command.spelling for command in table.commands])
    yield Place("crates/" + crates.VERBS, "command", [*known.verbs(), *READ_BY_ITSELF], table.first_words)
    for shape, command in by_shape.items():
        what = "test of `%s`," % command.spelling
        tested = spelled[shape].tested if shape in spelled else crates.EDITS if command.scope else crates.MACHINE
        has = known.tests(spelled[shape]) if shape in spelled else []
        yield Place("crates/" + tested, what, has, command.refusals, has_order=True)


def _reply_words(table: Table) -> List[str]:
    """The words of replies that stand for themselves, and those that are written in the place of others."""
    found = {"self", "end"}
    for row in table.rows("replies"):
        for form in [*row.get("one_of", ()), *row.get("each", "").split("|"), *row.get("last", ())]:
            found |= {word for word in form.split(" ") if word.islower()}
    return sorted(found)


def _numbers(table: Table, known: Crates) -> Iterator[Place]:
    """Limits, ranges and communities."""
    for part, key in (("limits", "most"), ("communities", "number")):
        for row in table.rows(part):
            has = [str(known.number(row["definition"]))]
            yield Place(_defined(row), "number of `%s`," % row["name"], has, [str(row[key])])
    kinds = [dict(row, name=name) for name, row in table.parts["kinds"].items()]
    for row in (row for row in [*kinds, *table.rows("settings")] if "definition" in row):
        has = ["%s to %s" % known.range(row["definition"])]
        yield Place(_defined(row), "range of `%s`," % row["name"], has, ["%s to %s" % (row["low"], row["high"])])


def _defined(row: Dict[str, Any]) -> str:
    crate, file, _ = row["definition"].split(" ")
    return "crates/%s/specs/%s.antt" % (crate, file)


# What was written by hand beside them

def by_hand(table: Table, top: pathlib.Path) -> Iterator[Place]:
    """What people write for each command, refusal and reason: calls of Python, sentences, a model, scripts, cases."""
    names, refusals = table.first_words, table.names("refusals")
    told = [command.name for command in table.commands if command.scope or command.name == "feed"]
    yield Place(CALLS, "call", _methods(top / CALLS, "Commands"), [command.python for command in table.commands])
    yield Place(CONFIGURATION, "command", _keys(top / CONFIGURATION, "_TAKES"), list(dict.fromkeys(told)))
    explained = [str(row["number"]) for row in table.rows("refusals") if row["name"] != "syntax"]
    yield Place(SENTENCES, "refusal", _keys(top / SENTENCES, "_SENTENCES"), explained)
    yield Place(SELECTION, "filter", _keys(top / SELECTION, "_VALUES"), table.names("filters"))
    yield Place(READ, "attribute", _fields(top / READ, "Attributes"), table.names("attributes"), has_order=True)
    written = _texts(top / MODEL)
    for what, wants in (("command", names), ("refusal", refusals), ("reason", table.reasons)):
        yield Place(MODEL, what, written, wants, may_have_more=True)
    yield Place(RANDOM, "command", _texts(top / RANDOM), names, may_have_more=True)
    yield from _scripts(table, top)


def _scripts(table: Table, top: pathlib.Path) -> Iterator[Place]:
    """What the cases and the tour show."""
    shown = [name for name in table.names("refusals") if name not in UNSHOWN]
    for folder, asked, answered in (("cases", "*.bgp", "*.out"), ("examples", "tour.bgp", "tour.out")):
        commands = _words(top / folder, asked, r"^ *([a-z]+)")
        yield Place("%s/%s" % (folder, asked), "command", commands, table.first_words, may_have_more=True)
        refused = _words(top / folder, answered, r"^refused [0-9]+ ([a-z-]+)$")
        yield Place("%s/%s" % (folder, answered), "refusal", refused, shown, may_have_more=True)
        reasons = _words(top / folder, answered, r"^(?:self|[0-9.]+) ([a-z]+)$")
        yield Place("%s/%s" % (folder, answered), "reason", reasons, table.reasons, may_have_more=True)


@functools.lru_cache(maxsize=None)
def _words(folder: pathlib.Path, pattern: str, wanted: str) -> List[str]:
    """The words of this form in the files of a folder."""
    form = re.compile(wanted, re.M)
    return sorted({word for path in folder.rglob(pattern) for word in form.findall(path.read_text("latin-1"))})


# Python files

@functools.lru_cache(maxsize=None)
def _tree(path: pathlib.Path) -> ast.Module:
    """A file of Python; an empty one where it is not there."""
    return ast.parse(path.read_text(encoding="utf-8") if path.is_file() else "")


def _methods(path: pathlib.Path, name: str) -> List[str]:
    """The public calls of a class."""
    functions = [node for node in _body(path, name) if isinstance(node, ast.FunctionDef)]
    return [node.name for node in functions if not node.name.startswith("_")]


def _fields(path: pathlib.Path, name: str) -> List[str]:
    """The fields of a data class."""
    return [getattr(node.target, "id", "") for node in _body(path, name) if isinstance(node, ast.AnnAssign)]


def _body(path: pathlib.Path, name: str) -> List[ast.stmt]:
    """What stands in a class; nothing where there is none of this name."""
    found = [node for node in ast.walk(_tree(path)) if isinstance(node, ast.ClassDef) and node.name == name]
    return found[0].body if found else []


def _keys(path: pathlib.Path, name: str) -> List[str]:
    """The keys of a dictionary that a file assigns."""
    for node in ast.walk(_tree(path)):
        is_named = isinstance(node, ast.AnnAssign) and getattr(node.target, "id", "") == name
        if is_named and isinstance(node, ast.AnnAssign) and isinstance(node.value, ast.Dict):
            return [str(_constant(key)) for key in node.value.keys]
    return []


def _constant(node: Optional[ast.expr]) -> object:
    return node.value if isinstance(node, ast.Constant) else None


def _texts(path: pathlib.Path) -> List[str]:
    """The first word of each text in a file, and each text of one word."""
    texts = [node.value for node in ast.walk(_tree(path)) if isinstance(node, ast.Constant)]
    return sorted({text.split()[0] for text in texts if isinstance(text, str) and text.split()})
