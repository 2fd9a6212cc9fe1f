"""Writes a study, its results and what made them as one archive, or runs such an archive again and compares."""
from __future__ import annotations

import argparse
import os
import sys
from typing import Dict, List, Optional, Tuple

from ..importers.common.sources import size
from ..program import display, output
from ..program.mistakes import CHANGED, Mistake
from ..study import archive
from ..study.comparison import differences
from ..study.contents import FOLDER, MANIFEST, MadeBy, files_of, made_by_of, made_here
from ..study.definition import FILE, MOST_BYTES, Study, inputs_of, study_of
from ..study.execution import Result, result_of

# Exit statuses with which a command of a study may end.
STATUSES = (0, 1, 3)
# So many differences are told.
SHOWN = 20


def parser() -> argparse.ArgumentParser:
    """The words of the command line."""
    made = argparse.ArgumentParser(prog="bundle", description=(
        "Runs the commands of STUDY, a folder with a file study.json, and writes one archive: scripts, commands, orders "
        "and seeds, results, logs that are replayed, versions and digests, and a README. The same study makes the same "
        "bytes."),
        epilog="Commands of a study are tools and their words alone, and their files are inside of its folder. Exit "
               "status: 0; 1 where --check finds a difference; 2 a mistake, as a command that ends with 2.")
    made.add_argument("study", metavar="STUDY", help="a folder with study.json, or that file; with --check an archive")
    made.add_argument("--check", action="store_true", help=(
        "run the study of an archive again, in a fresh folder, and tell each file that differs"))
    made.add_argument("-o", dest="out", metavar="FILE", help="the archive (NAME.tar.gz, by the name of the study)")
    made.add_argument("--most-unpacked", type=size, default=archive.MOST_BYTES, metavar="SIZE", help=(
        "the most bytes that an archive may unpack to, as 500M or 2G (500M)"))
    return made


def _parser_of(tool: str) -> argparse.ArgumentParser:
    """The parser of a tool. (`tools` has this module in its list.)"""
    from .tools import module_of
    found: argparse.ArgumentParser = module_of(tool).parser()
    return found


def _read(path: str) -> Tuple[Study, str]:
    """The study of a folder or file, and its folder."""
    file = os.path.join(path, FILE) if os.path.isdir(path) else path
    try:
        with open(file, "rb") as read:
            content = read.read(MOST_BYTES + 1)
    except (OSError, ValueError) as error:
        raise Mistake("it cannot be read: %s" % (getattr(error, "strerror", None) or error), file) from None
    if len(content) > MOST_BYTES or os.path.basename(file) != FILE:
        raise Mistake("a file %s of at most %d bytes is expected, or its folder" % (FILE, MOST_BYTES), file)
    return study_of(content, file, _parser_of), os.path.dirname(file) or "."


def _check_statuses(study: Study, result: Result) -> None:
    """Mistake where a command of a new study ends with one."""
    for number, (command, status) in enumerate(zip(study.commands, result.statuses), 1):
        if status not in STATUSES:
            told = result.files.get("results/%d-%s.err" % (number, command.tool), b"").decode("utf-8", "replace")
            raise Mistake("command %d, `%s`, ends with status %d: %s" % (
                number, command.line, status, told.strip().split("\n")[0] or "it tells nothing"))


def _write(chosen: argparse.Namespace) -> int:
    """Makes an archive."""
    study, folder = _read(chosen.study)
    inputs = inputs_of(study, folder)
    result = result_of(study, inputs)
    _check_statuses(study, result)
    files = files_of(study, inputs, result, made_here())
    path = study.name + ".tar.gz" if chosen.out is None else chosen.out
    output.write_bytes(archive.packed(study.name, files), path)
    print("%s: %d files, of %d commands" % (path, len(files), len(study.commands)), file=sys.stderr)
    return 0


def _opened(path: str, most: int) -> Tuple[Study, Dict[str, bytes], MadeBy]:
    """The study of an archive, its files, and what made it."""
    top, files = archive.unpacked(path, most)
    for name in (FOLDER + FILE, MANIFEST):
        if name not in files:
            raise Mistake("no archive of `bundle`: it has no %s" % name, path)
    study = study_of(files[FOLDER + FILE], "%s: %s" % (path, FOLDER + FILE), _parser_of)
    if top != study.name:
        raise Mistake("no archive of `bundle`: its folder is `%s`, and its study `%s`" % (top, study.name), path)
    return study, files, made_by_of(files[MANIFEST], path)


def _check(chosen: argparse.Namespace) -> int:
    """Runs an archive again, and tells what differs."""
    study, files, made_by = _opened(chosen.study, chosen.most_unpacked)
    here = made_here()
    if here != made_by:
        print("%s: made by %s, and checked by %s" % (chosen.study, *map(_version, (made_by, here))), file=sys.stderr)
    inputs = {path[len(FOLDER):]: content for path, content in files.items() if path.startswith(FOLDER)}
    made = files_of(study, inputs, result_of(study, inputs), made_by)
    found = differences(files, made)
    lines = found[:SHOWN] + (["and %d more" % (len(found) - SHOWN)] if len(found) > SHOWN else [])
    display.show("".join(line + "\n" for line in lines) + "%s: %s\n" % (study.name, (
        "%d of %d files differ" % (len(found), len(set(files) | set(made))) if found else
        "the same: %d files, of %d commands" % (len(files), len(study.commands)))))
    return CHANGED if found else 0


def _version(made_by: MadeBy) -> str:
    return "bgpsim %(version)s of %(digest)s (bgptools %(bgptools)s, Python %(python)s)" % made_by


def main(words: Optional[List[str]] = None) -> int:
    """The tool."""
    chosen = parser().parse_args(words)
    if chosen.check and chosen.out is not None:
        raise Mistake("-o is for an archive that is made, and --check reads one")
    return _check(chosen) if chosen.check else _write(chosen)
