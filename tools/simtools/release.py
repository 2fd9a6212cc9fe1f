"""Gives the program, its tools and its packages a new version, in all files that name it.

    tools/release VERSION        as 0.3.0; it has to be later than the version that there is

It changes the program's own word for it and the cases that expect that, the Python package, the Debian changelog,
CITATION.cff, and CHANGELOG.md, whose changes that are not released get the version as their heading. It prints the
files, and commits nothing. The program has to be proved and built again then.
"""
from __future__ import annotations

import datetime
import email.utils
import functools
import re
from dataclasses import dataclass
from typing import Callable, List, Sequence, Tuple

from . import commands
from .programs import TOP

NUMBERS = re.compile(r"(0|[1-9][0-9]*)\.(0|[1-9][0-9]*)\.(0|[1-9][0-9]*)")
UNRELEASED = "## Unreleased\n"
DEBIAN = "bgpsim (%s) unstable; urgency=medium\n\n  * CHANGELOG.md says what changed.\n\n -- %s  %s\n\n"
MAINTAINER = "Hukroel maintainers <maintainers@users.noreply.hukroel.example>"
# The place that decides: the program says it.
SOURCE = "crates/command_line/src/lib.rt"


@dataclass(frozen=True)
class Place:
    """A file that names the version, by the text around it: what stands before, and behind."""
    path: str
    before: str
    behind: str

    def changed(self, text: str, old: str, new: str) -> str:
        """The text with the new version. Missing where the old one does not stand there once."""
        if text.count(self.before + old + self.behind) != 1:
            raise commands.Missing("%s does not name version %s once, as `%s%s`" % (self.path, old, self.before, old))
        return text.replace(self.before + old + self.behind, self.before + new + self.behind)


PLACES = (Place(SOURCE, '.version("', '")'), Place("cases/command-line/version.out", "bgpsim ", "\n"),
          Place("cases/command-line/short-version.out", "bgpsim ", "\n"),
          Place("toolbox/bgptools/__init__.py", '__version__ = "', '"'), Place("CITATION.cff", "\nversion: ", "\n"))


def version() -> str:
    """The version that the program says."""
    found = re.search(r'\.version\("([^"]*)"\)', (TOP / SOURCE).read_text())
    if not found:
        raise commands.Missing("%s has no version" % SOURCE)
    return found.group(1)


def numbers_of(text: str) -> Tuple[int, ...]:
    """The numbers of a version, as (0, 3, 0)."""
    found = NUMBERS.fullmatch(text)
    if not found:
        raise commands.Missing("`%s` is no version: write three numbers, as 0.3.0" % text)
    return tuple(map(int, found.groups()))


def in_debian(text: str, new: str) -> str:
    """The Debian changelog with the version as its first entry."""
    return DEBIAN % (new, MAINTAINER, email.utils.format_datetime(datetime.datetime.now(datetime.timezone.utc))) + text


def in_changes(text: str, new: str) -> str:
    """CHANGELOG.md, where what is not released becomes this version."""
    if UNRELEASED not in text:
        raise commands.Missing("CHANGELOG.md has no heading `%s`: write there what changed" % UNRELEASED.strip())
    return text.replace(UNRELEASED, "%s\nNothing yet.\n\n## %s\n" % (UNRELEASED, new), 1)


def release(new: str) -> List[str]:
    """Changes all files, or none: their paths."""
    old = version()
    if numbers_of(new) <= numbers_of(old):
        raise commands.Missing("%s is not later than %s, the version that there is" % (new, old))
    changes: List[Tuple[str, Callable[[str], str]]] = [
        (place.path, functools.partial(place.changed, old=old, new=new)) for place in PLACES]
    changes += [("debian/changelog", lambda text: in_debian(text, new)),
                ("CHANGELOG.md", lambda text: in_changes(text, new))]
    made = [(path, change((TOP / path).read_text(encoding="utf-8"))) for path, change in changes]
    for path, text in made:
        (TOP / path).write_text(text, encoding="utf-8")
    return [path for path, _ in made]


def main(words: Sequence[str]) -> int:
    """The command."""
    asked = commands.parser(__doc__)
    asked.add_argument("version", metavar="VERSION")
    for path in release(asked.parse_args(words).version):
        print(path)
    return 0
