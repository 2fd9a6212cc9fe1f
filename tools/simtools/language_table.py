"""The table of the command language, language/language.toml, as values; what is wrong with it is reported at once."""
from __future__ import annotations

import importlib
import pathlib
from typing import Any, Callable, Dict, List, NamedTuple, Sequence, Set, Tuple

from .commands import Missing
from .programs import TOP

FILE = TOP / "language" / "language.toml"
# The words of a spelling that stand for more than one word of a command.
LONGER = ("MATCH", "ACT")
NAMED = ("commands", "replies", "refusals", "exclusions", "filters", "matches", "settings", "origins", "attributes",
         "limits", "communities")
COMMAND = {"spelling", "group", "meaning", "refusals", "reply", "scope", "opposite", "call"}
SCOPES = ("nobody", "ases", "ends", "router")


class Command(NamedTuple):
    """A command: how it is spelled, what it does, by which tests it is refused, what it is answered."""
    spelling: str
    group: str
    meaning: str
    refusals: Tuple[str, ...]
    reply: str
    scope: str = ""
    opposite: str = ""
    call: str = ""

    @property
    def name(self) -> str:
        return self.spelling.split(" ")[0]

    @property
    def python(self) -> str:
        """The name of the call that gives it."""
        return self.call or self.name


class Table(NamedTuple):
    """The table: each part as it stands in the file, and the commands."""
    parts: Dict[str, Any]
    commands: List[Command]

    def rows(self, part: str) -> List[Dict[str, Any]]:
        """The rows of a part."""
        rows: List[Dict[str, Any]] = self.parts[part]
        return rows

    def names(self, part: str) -> List[str]:
        """The names of a part's rows, in their order."""
        return [row.get("name") or row["word"] for row in self.rows(part)]

    @property
    def first_words(self) -> List[str]:
        """The names of the commands, each once."""
        return list(dict.fromkeys(command.name for command in self.commands))

    @property
    def reasons(self) -> List[str]:
        """All reasons: exclusions, filters, and that of the best route."""
        return self.names("exclusions") + self.names("filters") + [self.parts["best"]["name"]]

    def text(self, kind: str, which: str) -> str:
        """What a kind's `form` or `expected` says, with its range."""
        row = self.parts["kinds"][kind]
        words = self.names("origins")
        said = row[which].replace("{origins}", ", ".join(words[:-1]) + " or " + words[-1])
        for end in ("low", "high"):
            said = said.replace("{%s}" % end, str(row.get(end)))
        return str(said)


def read(path: pathlib.Path = FILE) -> Table:
    """The table in a file. Missing where it has a mistake, or this Python cannot read it."""
    try:
        parts = _reader()(path.read_text(encoding="utf-8"))
    except (OSError, ValueError) as fault:
        raise Missing("%s: %s" % (path, fault)) from None
    wrong = list(_faults(parts))
    if wrong:
        raise Missing("\n".join("%s: %s" % (path, each) for each in wrong))
    return Table(parts, [_command(row) for row in parts["commands"]])


def _command(row: Dict[str, Any]) -> Command:
    return Command(**{key: tuple(value) if isinstance(value, list) else value for key, value in row.items()})


def _reader() -> Callable[[str], Dict[str, Any]]:
    """What reads TOML: Python itself from 3.11 on."""
    for name in ("tomllib", "tomli"):
        try:
            loads: Callable[[str], Dict[str, Any]] = importlib.import_module(name).loads
            return loads
        except ImportError:
            continue
    raise Missing("Python 3.11 or later is wanted, or python3-tomli: they read TOML")


def _faults(parts: Dict[str, Any]) -> Sequence[str]:
    """What is wrong with a table: a row without a name, a name that stands twice or nowhere."""
    absent = [part for part in (*NAMED, "groups", "kinds", "words", "page", "best") if part not in parts]
    if absent:
        return ["there is no part `%s`" % each for each in absent]
    return [*_row_faults(parts), *(each for row in parts["commands"] for each in _command_faults(row, parts)),
            *_page_faults(parts)]


def _row_faults(parts: Dict[str, Any]) -> List[str]:
    found = []
    for part in NAMED:
        key = {"commands": "spelling", "matches": "word", "origins": "word"}.get(part, "name")
        names = [row.get(key) for row in parts[part]]
        found += ["a row of `%s` has no %s" % (part, key)] * (None in names)
        found += ["`%s` stands twice in `%s`" % (name, part) for name in sorted({*map(str, names)})
                  if names.count(name) > 1]
    numbers = [row.get("number") for row in parts["refusals"]]
    return found + ["the refusals are not numbered from 1 on"] * (numbers != list(range(1, len(numbers) + 1)))


def _command_faults(row: Dict[str, Any], parts: Dict[str, Any]) -> List[str]:
    """What is wrong with a command's row."""
    shown = "command `%s`: " % row.get("spelling")
    wanted = ("spelling", "group", "meaning", "refusals", "reply")
    wrong = ["there is no `%s`" % key for key in wanted if key not in row]
    if wrong:
        return [shown + each for each in wrong]
    known = {name: [each["name"] for each in parts[name]] for name in ("refusals", "replies")}
    wrong += ["`%s` is no field" % key for key in row if key not in COMMAND]
    wrong += ["there is no group `%s`" % row["group"]] * (row["group"] not in parts["groups"])
    wrong += ["there is no reply `%s`" % row["reply"]] * (row["reply"] not in known["replies"])
    wrong += ["there is no refusal `%s`" % each for each in row["refusals"] if each not in known["refusals"]]
    wrong += ["there is no scope `%s`" % each for each in [row.get("scope", SCOPES[0])] if each not in SCOPES]
    order = [known["refusals"].index(each) for each in row["refusals"] if each in known["refusals"]]
    wrong += ["its refusals are not in the order of their numbers"] * (order != sorted(order))
    wrong += ["there is no word `%s`" % word for word in row["spelling"].split(" ")
              if word.isupper() and word not in parts["words"] and word not in LONGER]
    return [shown + each for each in wrong]


def _page_faults(parts: Dict[str, Any]) -> List[str]:
    names: Set[str] = {str(row.get("spelling")).split(" ")[0] for row in parts["commands"]}
    page = parts["page"]
    lists = {**page.get("forms", {}), **{key: page[key] for key in page if key != "forms"}}
    lists["limits"] = [name for row in parts["limits"] for name in row.get("commands", ())]
    lists["commands"] = [row["opposite"] for row in parts["commands"] if "opposite" in row]
    return ["`%s` of `%s` is no command" % (name, key) for key, said in lists.items() for name in said
            if name not in names]
