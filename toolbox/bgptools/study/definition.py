"""A study as its file `study.json` has it: a name, a title, authors, and commands; files follow from the commands."""
from __future__ import annotations

import json
import os
import re
import stat
from dataclasses import dataclass
from typing import Any, Dict, List, Set, Tuple

from ..program.mistakes import Mistake
from . import paths
from .commands import Command, ParserOf, command_of

FILE = "study.json"
NAME = re.compile("[a-z0-9](?:[a-z0-9-]{0,62}[a-z0-9])?")
TEXT = re.compile("[^\x00-\x1f\x7f-\x9f]{1,500}")
FIELDS = ("name", "title", "authors", "commands")
MOST_COMMANDS, MOST_FILES, MOST_BYTES = 100, 10000, 1 << 20


@dataclass(frozen=True)
class Study:
    """A study. `commands` are run in this order; `content` is its file as it is."""
    name: str
    title: str
    authors: Tuple[str, ...]
    commands: Tuple[Command, ...]
    content: bytes

    @property
    def outputs(self) -> List[str]:
        """The files that the commands write, in their order."""
        return [path for command in self.commands for path in command.writes]


def study_of(content: bytes, file: str, parser_of: ParserOf) -> Study:
    """The study of a file's bytes. Mistake with the file for what is none."""
    try:
        given = json.loads(content.decode("utf-8"))
    except (ValueError, RecursionError) as error:
        raise Mistake("no JSON in UTF-8: %s" % error, file) from None
    if not isinstance(given, dict) or not set(given) <= set(FIELDS):
        raise Mistake("an object with the fields %s is expected" % ", ".join("`%s`" % name for name in FIELDS), file)
    name, title, authors = given.get("name"), given.get("title", given.get("name")), given.get("authors", [])
    if not isinstance(name, str) or not NAME.fullmatch(name):
        raise Mistake("`name`: small letters, digits and hyphens are expected, at most 64, as \"lost-links\"", file)
    if not isinstance(authors, list) or not all(isinstance(each, str) and TEXT.fullmatch(each) for each in [title, *authors]):
        raise Mistake("`title` and `authors`: a line of text and a list of such lines are expected", file)
    return Study(name, str(title), tuple(authors), _commands(given.get("commands"), file, parser_of), content)


def _commands(given: Any, file: str, parser_of: ParserOf) -> Tuple[Command, ...]:
    if not isinstance(given, list) or not 1 <= len(given) <= MOST_COMMANDS:
        raise Mistake("`commands`: a list of 1 to %d commands is expected" % MOST_COMMANDS, file)
    found = tuple(command_of(each, "%s: command %d" % (file, at), parser_of) for at, each in enumerate(given, 1))
    read: Set[str] = {FILE}
    written: Set[str] = set()
    for at, command in enumerate(found, 1):
        read |= set(command.reads) - written
        for path in command.writes:
            if path in read | written or any(path.startswith(folder + "/") for each in found for folder in each.folders):
                raise Mistake("command %d: `-o %s` would write over a file of the study: choose another name" % (at, path),
                              file)
        written |= set(command.writes)
    return found


def inputs_of(study: Study, folder: str) -> Dict[str, bytes]:
    """The files that the commands read and none wrote, and the study's own, as a folder has them.

    Mistake for one that is missing, or is a link or a device."""
    found, written = {FILE: study.content}, set()  # type: Dict[str, bytes], Set[str]
    for command in study.commands:
        names = set(command.reads) - written
        for each in command.folders:
            names |= {each + "/" + name for name in _listed(folder, each)}
        for path in sorted(names - set(found)):
            paths.check(path, study.name)
            found[path] = _content(folder, path)
        written |= set(command.writes)
    if len(found) > MOST_FILES:
        raise Mistake("it has %d files, and a study has at most %d" % (len(found), MOST_FILES), folder)
    return found


def _listed(folder: str, path: str) -> List[str]:
    """The files of a folder of the study that a tool reads: hidden ones are none."""
    _check_way(folder, path, is_folder=True)
    return [name for name in os.listdir(os.path.join(folder, path)) if not name.startswith(".")]


def _content(folder: str, path: str) -> bytes:
    _check_way(folder, path, is_folder=False)
    whole = os.path.join(folder, path)
    try:
        with open(whole, "rb") as file:
            return file.read()
    except OSError as error:
        raise Mistake("it cannot be read: %s" % error.strerror, whole) from None


def _check_way(folder: str, path: str, is_folder: bool) -> None:
    """Mistake where a part of a path is missing, or no plain folder or file."""
    names = path.split("/")
    for count in range(1, len(names) + 1):
        whole = os.path.join(folder, *names[:count])
        try:
            mode = os.lstat(whole).st_mode
        except OSError as error:
            raise Mistake("it cannot be read: %s" % error.strerror, whole) from None
        if not (stat.S_ISDIR(mode) if is_folder or count < len(names) else stat.S_ISREG(mode)):
            raise Mistake("a plain %s is expected, and no link: put the %s itself there" % (
                ("folder", "folder") if is_folder or count < len(names) else ("file", "file")), whole)
