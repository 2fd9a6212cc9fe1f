"""The files that are made of the table of the command language: a module of Python, one of the lab's page, a schema,
and the tables of the reference pages."""
from __future__ import annotations

import json
import pathlib
import re
from typing import Any, Callable, Dict, Iterator, List, Sequence, Tuple

from .language_table import Table

MODULE = "toolbox/bgptools/program/language_table.py"
PAGE = "toolbox/bgptools/web/static/language.js"
SCHEMA = "docs/reference/schemas/language.json"
REFERENCE = "docs/reference"
WIDTH, PYTHON_WIDTH = 100, 119
BEGIN, END = "<!-- made by tools/language: %s -->", "<!-- end -->"
MADE = re.compile(r"<!-- made by tools/language: (\w+) -->\n(.*?)<!-- end -->", re.S)
HEAD = '''"""The command language as data. Made by tools/language of language/language.toml: a change belongs there.

`grammar` has the types. Nothing here is written by hand."""
from typing import Dict, FrozenSet, Tuple

from .grammar import Attribute, Exclusion, Filter, Form, Kind, Limit, Match, RefusalKind, ReplyForm, Setting

'''


# The module of Python

def module(table: Table) -> str:
    """The table as a module of Python."""
    parts: List[str] = [HEAD.rstrip("\n")]
    parts += ["\n".join(_constant(name, kind, rows)) for name, kind, rows in _tuples(table)]
    parts += ["\n".join(_dictionaries(table)), "\n".join(_others(table))]
    return "\n\n".join(parts) + "\n"


def _tuples(table: Table) -> Iterator[Tuple[str, str, List[Dict[str, Any]]]]:
    """Each constant that is a tuple of rows: its name, the type of the rows, and the fields of each row."""
    groups, numbers = table.parts["groups"], {row["name"]: row["number"] for row in table.rows("refusals")}
    yield "FORMS", "Form", [{**command._asdict(), "group": groups[command.group],
                             "refusals": [numbers[each] for each in command.refusals]} for command in table.commands]
    yield "KINDS", "Kind", [{"name": name, "expected": table.text(name, "expected"),
                             **{key: row[key] for key in ("low", "high") if key in row}}
                            for name, row in table.parts["kinds"].items()]
    for part, kind in (("matches", "Match"), ("settings", "Setting"), ("refusals", "RefusalKind"),
                       ("replies", "ReplyForm"), ("attributes", "Attribute"), ("limits", "Limit"),
                       ("exclusions", "Exclusion"), ("filters", "Filter")):
        yield part.upper(), kind, table.rows(part)


# Fields that the module does not have: where the definition of a number stands, and what a page says beside it.
ABSENT = ("definition", "where")
# The fields of a row that stand first, without their names.
FIRST = ("spelling", "number", "name", "word", "expected", "meaning", "group")


def _constant(name: str, kind: str, rows: List[Dict[str, Any]]) -> Iterator[str]:
    yield "%s: Tuple[%s, ...] = (" % (name, kind)
    for row in rows:
        said = [_literal(row[key]) for key in FIRST if key in row]
        said += ["%s=%s" % (key, _literal(value)) for key, value in row.items()
                 if key not in FIRST and key not in ABSENT and value not in ("", [])]
        yield from _filled("    %s(" % kind, said, "),")
    yield ")"


def _dictionaries(table: Table) -> Iterator[str]:
    """Which kind each word stands for, and the names of origins and communities."""
    words = table.parts["words"]
    for name, kind, pairs in (
            ("WORDS", "str, str", [(word, row["kind"]) for word, row in words.items()]),
            ("ORIGIN_NAMES", "str, str", [(row["word"], row["meaning"]) for row in table.rows("origins")]),
            ("WELL_KNOWN", "int, str", [(row["number"], row["name"]) for row in table.rows("communities")])):
        listed = ["%s: %s" % (_literal(key), _literal(value)) for key, value in pairs]
        yield "%s: Dict[%s] = {" % (name, kind)
        yield from _filled("    ", listed, "}")


def _others(table: Table) -> Iterator[str]:
    """Words of spellings that name a router or peer; origins; the reason of the best route."""
    nodes = [word for word, row in table.parts["words"].items() if "node" in row]
    yield from _filled("NODES: FrozenSet[str] = frozenset((", list(map(_literal, nodes)), "))")
    yield "ORIGINS: Tuple[str, ...] = tuple(ORIGIN_NAMES)"
    yield "GROUPS: Tuple[str, ...] = %s" % _literal(list(table.parts["groups"].values()))
    yield "BEST: str = %s" % _literal(table.parts["best"]["name"])
    yield "CHOSEN: str = %s" % _literal(table.parts["best"]["meaning"])


def _literal(value: Any) -> str:
    """A value as Python writes it, texts with double quotes."""
    if isinstance(value, (list, tuple)):
        inner = ", ".join(map(_literal, value))
        return "(%s,)" % inner if len(value) == 1 else "(%s)" % inner
    return json.dumps(value, ensure_ascii=False) if isinstance(value, str) else repr(value)


def _filled(begun: str, parts: Sequence[str], end: str) -> Iterator[str]:
    """Parts with commas between, in lines of the width; those after the first stand under the first part."""
    line, indent = begun, " " * len(begun)
    for at, part in enumerate(parts):
        more = part + (end if at == len(parts) - 1 else ",")
        room = line + ("" if line in (begun, indent) else " ") + more
        if len(room) > PYTHON_WIDTH and line.strip():
            yield line
            room = indent + more
        line = room
    yield line if parts else begun + end


# The module of the page, and the schema

def page(table: Table) -> str:
    """What the lab's page knows of commands."""
    known = table.parts["page"]
    forms = ",\n".join("  %s: %s" % (name, json.dumps(names)) for name, names in known["forms"].items())
    lines = ["// Made by tools/language of language/language.toml: a change belongs there.",
             "// The commands that are offered at what is clicked.", "export const FORMS = {", forms + ",", "};"]
    for name, said, key in (
            ("ONE_END", "These are one end's, and offered for both.", "one_end"),
            ("UNSEEN", "What these ask about is not to be seen in the picture.", "unseen"),
            ("PLACING", "After these all that was made before may stand elsewhere.", "placing")):
        lines += ["// " + said, "export const %s = new Set(%s);" % (name, json.dumps(known[key]))]
    return "\n".join(lines) + "\n"


def schema(table: Table) -> str:
    """The words of the language for JSON Schema."""
    words = {"command": table.first_words, "refusal": table.names("refusals"), "reason": table.reasons,
             "origin": table.names("origins")}
    return json.dumps({
        "$schema": "http://json-schema.org/draft-07/schema#", "$id": "language.json",
        "title": "Words of the command language. Made by tools/language of language/language.toml.",
        "definitions": {name: {"enum": each} for name, each in words.items()}}, indent=2) + "\n"


# The tables of the pages

def tables(table: Table) -> Dict[str, List[str]]:
    """Each table of the reference pages by its name: its lines."""
    return {name: _lines(heads, list(rows(table))) for name, (heads, rows) in _TABLES.items()}


def _lines(heads: Sequence[str], rows: List[Sequence[str]]) -> List[str]:
    return ["| %s |" % " | ".join(cells) for cells in [heads]] + ["|" + "---|" * len(heads)] + [
        "| %s |" % " | ".join(cells) for cells in rows]


def _code(text: str) -> str:
    return "`%s`" % text.replace("|", "\\|")


def _values(table: Table) -> Iterator[Sequence[str]]:
    """The words by their kinds, and by what they name."""
    seen: Dict[Tuple[str, str], List[str]] = {}
    for word, row in table.parts["words"].items():
        seen.setdefault((row["kind"], row.get("node", "")), []).append(word)
    for (kind, node), words in seen.items():
        name = table.parts["words"][words[0]]["name"]
        said = "%s of %s" % (name, node) if node else "any address" if kind == "address" else name
        shown = ", ".join(map(_code, words))
        first = next(each for each in seen if each[0] == kind)
        yield shown, said, table.text(kind, "form") if (kind, node) == first else "the same"


def _command_rows(table: Table) -> Iterator[Sequence[str]]:
    """Each command. The page says beside its table which ones are refused for memory."""
    numbers = {row["name"]: str(row["number"]) for row in table.rows("refusals") if row["name"] != "memory"}
    for command in table.commands:
        tests = [numbers[each] for each in command.refusals if each in numbers]
        yield _code(command.spelling), command.meaning, " ".join(tests) or "none"


def _match_rows(table: Table) -> Iterator[Sequence[str]]:
    for row in table.rows("matches"):
        yield _code(" ".join(filter(None, (row["word"], row.get("argument"))))), row["meaning"]


def _setting_rows(table: Table) -> Iterator[Sequence[str]]:
    for row in table.rows("settings"):
        yield _code(row["name"] + "=K"), "%d to %d" % (row["low"], row["high"]), row["meaning"], row["where"]


def _reply_rows(table: Table) -> Iterator[Sequence[str]]:
    """Each reply by the commands that are answered so."""
    for row in table.rows("replies"):
        names = [command.name for command in table.commands if command.reply == row["name"]]
        whose = ", ".join(_code(name) for name in dict.fromkeys(names)) or "what is refused"
        yield "an edit or a feed" if row["name"] == "done" else whose, _reply(row)


def _reply(row: Dict[str, Any]) -> str:
    if "one_of" in row:
        return " or ".join(map(_code, row["one_of"]))
    each = " or ".join(map(_code, row["each"].split("|")))
    last = list(map(_code, row.get("last", ())))
    ends = " or ".join(filter(None, (", ".join(last[:-1]), *last[-1:])))
    return "%s for each %s; %s`end N`" % (each, row["of"], ends + "; " if ends else "")


def _reason_rows(part: str) -> Callable[[Table], Iterator[Sequence[str]]]:
    def rows(table: Table) -> Iterator[Sequence[str]]:
        for row in table.rows(part):
            yield _code(row["name"]), row["test"], row["rfc"]
    return rows


def _other_rows(part: str, *keys: str) -> Callable[[Table], Iterator[Sequence[str]]]:
    """The rows of a part, the first of these keys as code."""
    def rows(table: Table) -> Iterator[Sequence[str]]:
        for row in table.rows(part):
            yield [_code(str(row[keys[0]]))] + ["{:,}".format(row[key]) if isinstance(row[key], int) else row[key]
                                                for key in keys[1:]]
    return rows


def _refusal_rows(table: Table) -> Iterator[Sequence[str]]:
    for row in table.rows("refusals"):
        yield _code("%d %s" % (row["number"], row["name"])), row["meaning"], row["instead"]


def _limit_rows(table: Table) -> Iterator[Sequence[str]]:
    """Those that refusal 19 is about."""
    for row in table.rows("limits"):
        if row["commands"]:
            yield row["of"], "{:,}".format(row["most"])


_TABLES: Dict[str, Tuple[Sequence[str], Callable[[Table], Iterator[Sequence[str]]]]] = {
    "values": (("Word", "What it is", "Form"), _values),
    "commands": (("Command", "What it does", "Refused by"), _command_rows),
    "matches": (("MATCH", "Routes"), _match_rows),
    "settings": (("Setting", "Range", "What it sets", "Where"), _setting_rows),
    "replies": (("Command", "Reply"), _reply_rows),
    "attributes": (("Attribute", "What it is"), _other_rows("attributes", "name", "meaning")),
    "communities": (("Community", "Name", "A router that chose a route with it advertises it"),
                    _other_rows("communities", "number", "name", "meaning")),
    "refusals": (("Number and name", "When", "Write instead"), _refusal_rows),
    "limits": (("What", "At most"), _limit_rows),
    "exclusions": (("Reason", "The route is excluded because", "By"), _reason_rows("exclusions")),
    "filters": (("Reason", "Another route has", "By"), _reason_rows("filters"))}


def made(table: Table, top: pathlib.Path) -> Dict[str, str]:
    """Each file that is made of the table, or has tables that are, as it has to be."""
    found = {MODULE: module(table), PAGE: page(table), SCHEMA: schema(table)}
    known = tables(table)

    def filled(match: "re.Match[str]") -> str:
        name = match.group(1)
        lines = known.get(name, ["there is no table `%s`" % name])
        return "\n".join([BEGIN % name, "", *lines, "", END])
    for path in sorted((top / REFERENCE).glob("*.md")):
        text = path.read_text(encoding="utf-8")
        if MADE.search(text):
            found[path.relative_to(top).as_posix()] = MADE.sub(filled, text)
    return found


def faults(table: Table, top: pathlib.Path) -> Dict[str, List[str]]:
    """What is wrong with each file that is made: that it is another one, or lacks a table."""
    wanted = made(table, top)
    found = {name: _differences(name, top / name, text) for name, text in wanted.items()}
    shown = {name for text in wanted.values() for name in re.findall(BEGIN % r"(\w+)", text)}
    page_name = REFERENCE + "/language.md"
    found.setdefault(page_name, [])
    found[page_name] += ["%s: no page of %s has the table `%s`: %s" % (page_name, REFERENCE, name, BEGIN % name)
                         for name in _TABLES if name not in shown]
    found[page_name] += ["%s: a row of `%s` is wider than %d columns: %s" % (page_name, name, WIDTH, line)
                         for name, lines in tables(table).items() for line in lines if len(line) > WIDTH]
    return found


def _differences(name: str, path: pathlib.Path, wanted: str) -> List[str]:
    """How a file differs from what it has to be: each line that it lacks, or has too many."""
    if not path.is_file():
        return ["%s: is not there; tools/language --write makes it" % name]
    there = path.read_text(encoding="utf-8")
    has, wants = ([line.rstrip(",") for line in text.split("\n")] for text in (there, wanted))
    lacks = [line for line in wants if line not in has]
    more = [line for line in has if line not in wants]
    if there != wanted and not lacks and not more:
        return ["%s: has its lines in another order; tools/language --write makes it" % name]
    return ["%s: lacks `%s`" % (name, line.strip()) for line in lacks] + [
        "%s: has `%s`, which the table lacks" % (name, line.strip()) for line in more]
