"""The files of a study's archive: the study itself, what its commands made, a manifest and a README."""
from __future__ import annotations

import hashlib
import json
import platform
import re
from typing import Any, Dict, List

from .. import __version__
from ..program import documents, location, provenance
from ..program.mistakes import Mistake
from .definition import FILE, Study
from .execution import Result

MANIFEST, README, FOLDER = "manifest.json", "README.md", "study/"
# What made an archive: the program's provenance, this package and Python.
MADE_BY = ("version", "commit", "is_proved", "kit", "digest", "bgptools", "python")
TEXT = re.compile("[ -~]{0,200}")

MadeBy = Dict[str, Any]


def made_here() -> MadeBy:
    """What makes an archive here."""
    return {**provenance.of(location.program()).as_json(), "bgptools": __version__, "python": platform.python_version()}


def made_by_of(content: bytes, file: str) -> MadeBy:
    """What made an archive, by its manifest. Mistake for what is no manifest."""
    try:
        found = json.loads(content.decode("utf-8"))["made_by"]
        if sorted(found) == sorted(MADE_BY) and all(
                value is None or isinstance(value, bool) or isinstance(value, str) and TEXT.fullmatch(value)
                for value in found.values()):
            return {name: found[name] for name in MADE_BY}
    except (ValueError, KeyError, TypeError, RecursionError):
        pass
    raise Mistake("%s: no manifest of `bundle`" % MANIFEST, file)


def files_of(study: Study, inputs: Dict[str, bytes], result: Result, made_by: MadeBy) -> Dict[str, bytes]:
    """All files of an archive, by their paths."""
    files = {**{FOLDER + path: content for path, content in inputs.items()}, **result.files}
    manifest = {"version": documents.VERSION, "tool": "bundle", "name": study.name, "title": study.title,
                "authors": list(study.authors), "made_by": made_by, "commands": _commands(study, result),
                "files": {path: hashlib.sha256(files[path]).hexdigest() for path in sorted(files)}}
    files[MANIFEST] = documents.text_of(manifest).encode("utf-8")
    files[README] = _readme(study, inputs, made_by).encode("utf-8")
    return files


def _commands(study: Study, result: Result) -> List[Dict[str, Any]]:
    """The commands of a manifest, with their orders, seeds and exit statuses."""
    found = []
    for command, status in zip(study.commands, result.statuses):
        order = command.order()
        found.append({"tool": command.tool, "words": list(command.words), "order": order.words if order else None,
                      "seed": getattr(command.chosen, "seed", None), "status": status})
    return found


README_TEXT = """# %(title)s
%(authors)s
This archive holds a study made with bgpsim, a simulator of BGP networks, and its results.

## Check it

With bgpsim installed, this runs all commands again and compares each file:

    bgpsim-bundle --check %(name)s.tar.gz

## Run it by hand

In the folder `study`:

%(commands)s

## What is here

| File | What it holds |
|---|---|
%(inputs)s
| `outputs/` | files that commands wrote by `-o` |
| `results/` | standard output (`.out`) and messages (`.err`) of each command, by its number |
| `logs/` | each network, command by command with each reply (`.log`), and what `bgpsim replay` says of it (`.replay`) |
| `manifest.json` | commands with orders, seeds and exit statuses, versions, and the SHA-256 of each file |

## What made it

| | |
|---|---|
| bgpsim | %(version)s, commit %(commit)s |
| its digest | %(digest)s |
| proved | %(proved)s |
| tools | bgptools %(bgptools)s, Python %(python)s |
"""


def _readme(study: Study, inputs: Dict[str, bytes], made_by: MadeBy) -> str:
    """What a reader who has this archive alone has to know."""
    return README_TEXT % {
        **made_by, "name": study.name, "title": study.title,
        "authors": "".join("\n%s\n" % name for name in study.authors),
        "commands": "\n".join("    " + command.line for command in study.commands),
        "inputs": "\n".join("| `%s` | %s |" % (FOLDER + path, "the definition of the study" if path == FILE else "an input")
                            for path in sorted(inputs)),
        "proved": {True: "yes", False: "no", None: "unknown"}.get(made_by["is_proved"], "unknown")}
