"""The documents as web pages, with search, in light and dark.

    tools/site                 builds them into site/ at the top of the repository
    tools/site -o FOLDER       builds them into another folder

It needs mkdocs and mkdocs-material, which `tools/setup` installs. mkdocs.yml says how the pages look. Documents keep
their places beside one another, so their links lead to one another; files that they link to come along. A link to a
folder without a README.md becomes plain text. mkdocs is strict: a link to a page that is not there fails.
Exit status: 0; 1 if mkdocs finds something wrong, which it prints; 2 if something is missing.
"""
from __future__ import annotations

import json
import os
import pathlib
import posixpath
import re
import shutil
import subprocess
import tempfile
from typing import Dict, List, Optional, Sequence, Set

from . import commands, documents
from .programs import TOP

# The kinds of documents, as a reader looks for them, each with its folders and files.
KINDS = (
    ("Home", ("README.md", "docs/README.md")),
    ("Tutorial", ("docs/tutorial",)),
    ("How-to", ("docs/howto",)),
    ("Reference", ("docs/reference",)),
    ("Explanation", ("docs/explanation",)),
    ("Contributing", ("CONTRIBUTING.md", "docs/contributing", "tools/README.md", "cases/README.md",
                      "language/README.md")),
    ("More", ("bench/README.md", "CHANGELOG.md", "docs")),
)
# What stands in the list of pages in place of a document's own title.
TITLES = {"docs/README.md": "All documents"}
Kind = Dict[str, List[Dict[str, str]]]


def pages_of(places: Sequence[str], had: Set[str]) -> List[str]:
    """The documents at these places that no other kind has, a README first."""
    found: List[str] = []
    for place in places:
        paths = [TOP / place] if place.endswith(".md") else sorted((TOP / place).glob("*.md"))
        names = [path.relative_to(TOP).as_posix() for path in paths if path.is_file()]
        found += sorted((name for name in names if name not in had), key=lambda name: (not is_first(name), name))
        had.update(found)
    return found


def is_first(name: str) -> bool:
    """Whether the document stands for its folder."""
    return posixpath.basename(name) == "README.md"


def title_of(page: str) -> str:
    """What a document is called in the list of pages: by its first heading."""
    heads = [block.lines[0] for block in documents.blocks((TOP / page).read_text()) if block.kind == "heading"]
    return TITLES.get(page, heads[0].lstrip("# ").replace("`", "") if heads else page)


def navigation() -> List[Kind]:
    """The list of pages, by kind; a kind without pages is left out."""
    had: Set[str] = set()
    kinds = [(kind, pages_of(places, had)) for kind, places in KINDS]
    return [{kind: [{title_of(page): page} for page in pages]} for kind, pages in kinds if pages]


def names_in(kinds: Sequence[Kind]) -> List[str]:
    """The documents of a list of pages."""
    return [name for kind in kinds for pages in kind.values() for page in pages for name in page.values()]


def target_of(page: str, target: str) -> Optional[str]:
    """What a link of a page leads to on the web pages; None if that does not come along."""
    name, mark, anchor = target.partition("#")
    if re.match(r"[a-z]+:", target) or not name:
        return target
    there = TOP / posixpath.normpath(posixpath.join(posixpath.dirname(page), name))
    if there.is_dir():
        return posixpath.join(name, "README.md") + mark + anchor if (there / "README.md").is_file() else None
    return target if "." in there.name or not there.exists() else None


def staged(page: str) -> str:
    """The text of a document as mkdocs reads it: links as above; lists inside lists are indented by four; the name of a
    block's language stands alone."""
    def link(found: "re.Match[str]") -> str:
        target = target_of(page, found[2])
        return found[1] if target is None else found[0].replace("](%s)" % found[2], "](%s)" % target)

    lines = (TOP / page).read_text().split("\n")
    for block in documents.blocks("\n".join(lines)):
        places = slice(block.number - 1, block.number - 1 + len(block.lines))
        if block.kind == "code":
            lines[places] = [re.sub(r"^(\s*(?:```+|~~~+)[\w-]+) .*", r"\1", line) for line in block.lines]
        else:
            text = documents.LINK.sub(link, "\n".join(block.lines))
            lines[places] = re.sub(r"(?m)^ {2,3}(?=[-*+] |\d+[.)] )", "    ", text).split("\n")
    return "\n".join(lines)


def files_of(page: str) -> Set[str]:
    """The files beside the documents that a document links to."""
    found = set()
    for link in documents.links((TOP / page).read_text()):
        name = link.target.partition("#")[0]
        there = posixpath.normpath(posixpath.join(posixpath.dirname(page), name))
        if target_of(page, link.target) and (TOP / there).is_file() and not there.endswith(".md"):
            found.add(there)
    return found


def stage(folder: pathlib.Path, kinds: Sequence[Kind]) -> None:
    """Puts the documents, the files that they link to, and the settings into a folder."""
    for page in names_in(kinds):
        path = folder / "pages" / page
        path.parent.mkdir(parents=True, exist_ok=True)
        path.write_text(staged(page))
        for name in files_of(page):
            beside = folder / "pages" / name
            beside.parent.mkdir(parents=True, exist_ok=True)
            shutil.copyfile(str(TOP / name), str(beside))
    settings = (TOP / "mkdocs.yml").read_text()
    (folder / "mkdocs.yml").write_text("%sdocs_dir: pages\nnav: %s\n" % (settings, json.dumps(kinds)))


def build(into: pathlib.Path, seconds: Optional[int] = None) -> List[str]:
    """Builds the pages into a folder, dated by this Unix time if there is one; what mkdocs finds wrong, if it fails."""
    if shutil.which("mkdocs") is None:
        raise commands.Missing("mkdocs is not there: `tools/setup` installs it")
    surroundings = dict(os.environ)
    if seconds is not None:
        surroundings["SOURCE_DATE_EPOCH"] = str(seconds)
    with tempfile.TemporaryDirectory() as name:
        stage(pathlib.Path(name), navigation())
        ran = subprocess.run(["mkdocs", "build", "--strict", "--site-dir", str(into.resolve())], cwd=name,
                             env=surroundings, stdin=subprocess.DEVNULL, stdout=subprocess.PIPE,
                             stderr=subprocess.STDOUT)
    text = re.sub(r"\x1b\[[\d;]*m", "", ran.stdout.decode("utf-8", "replace"))
    lines = text.splitlines() if ran.returncode else []
    return [line for line in lines if re.match("WARNING|ERROR|Abort", line)] or lines


def main(words: Sequence[str]) -> int:
    """The command."""
    asked = commands.parser(__doc__)
    asked.add_argument("-o", metavar="FOLDER", dest="into", type=pathlib.Path, default=TOP / "site")
    into = asked.parse_args(words).into
    wrong = build(into)
    print("\n".join(wrong or ["%s: %d pages" % (into, len(names_in(navigation())))]))
    return int(bool(wrong))
