"""Compares the table of the command language with all that knows the language, and makes what is made of it.

    tools/language                  names each file that lacks a command, a refusal or a reason, or has one too many
    tools/language --write          makes the files that are made of the table
    tools/language --table FILE     does so by another table

The table is language/language.toml. Compared with it are the definitions of the crates, the calls of Python, the
sentences of refusals, the model, the random scripts, the cases and the tour. Made of it are a module of Python, what
the lab's page offers, the words of the schemas, and the tables of docs/reference. The last line is `N passed, M
failed`, one for each file; exit 1 where one failed. language/README.md says how to add a command.
"""
from __future__ import annotations

import pathlib
from typing import Dict, List, Optional

from . import commands, language_files, language_places, language_table
from .language_crates import Crates
from .language_table import Table
from .programs import TOP


def faults(table: Table, top: pathlib.Path) -> Dict[str, List[str]]:
    """What is wrong with each file that knows the language."""
    found: Dict[str, List[str]] = {}
    places = [*language_places.in_crates(table, Crates(top / "crates")), *language_places.by_hand(table, top)]
    for place in places:
        is_there = "*" in place.file or (top / place.file).exists()
        found.setdefault(place.file, []).extend(place.faults() if is_there else ["%s: is not there" % place.file])
    found = {name: list(dict.fromkeys(wrong)) for name, wrong in found.items()}
    for name, wrong in language_files.faults(table, top).items():
        found.setdefault(name, []).extend(wrong)
    return found


def check(table: Table, top: pathlib.Path) -> int:
    """Tells what is wrong; the exit status."""
    found = faults(table, top)
    for line in (line for lines in found.values() for line in lines):
        print(line)
    failed = sum(bool(lines) for lines in found.values())
    return commands.counted(len(found) - failed, failed)


def write(table: Table, top: pathlib.Path) -> int:
    """Makes the files that are made of the table, and tells which it changed."""
    for name, text in language_files.made(table, top).items():
        path = top / name
        if not path.is_file() or path.read_text(encoding="utf-8") != text:
            path.parent.mkdir(parents=True, exist_ok=True)
            path.write_text(text, encoding="utf-8")
            print("made " + name)
    return 0


def main(words: Optional[List[str]] = None) -> int:
    """The tool."""
    made = commands.parser(__doc__)
    made.add_argument("--check", action="store_true", help="compare, which is done anyway where nothing is written")
    made.add_argument("--write", action="store_true", help="make the files that are made of the table")
    made.add_argument("--table", type=pathlib.Path, default=language_table.FILE, metavar="FILE", help="another table")
    made.add_argument("--top", type=pathlib.Path, default=TOP, metavar="FOLDER", help="another clone")
    chosen = made.parse_args(words)
    table = language_table.read(chosen.table)
    return write(table, chosen.top) if chosen.write else check(table, chosen.top)
