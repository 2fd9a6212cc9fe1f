"""Tries mutants of code, which the prover has to refuse: those that tools/mutants.list chooses, and others in
random order. A part of the gate.

    tools/mutants                     tries the chosen ones and forty in random order
    tools/mutants --since [COMMIT]    takes those first whose functions were changed since that commit; without one
                                      since the base that `tools/trusted-base --since` takes
    tools/mutants --list              prints both, and tries none
    tools/mutants --anew              tries also those whose verdict is kept
    tools/mutants --until FILE        waits for libraries that are not proved yet, until the file is there
    tools/mutants --jobs N            tries those of N crates side by side, and not by every second processor
    tools/mutants --table FILE        writes what the chosen ones came to, as CSV: bench/mutants.csv

tools/mutants.list has the mutant of each fault that a proof must refuse, and of each of the program's own promises. The
others are those of all crates/*/mutants in a random order, that of the SHA-256 of the commit and the path: the first of
each crate, then the first of all, forty together. Without git the digest of the sources stands for the commit. So
nobody chooses them, and each commit has others.

A mutant is tried as `tools/try-mutants` tries it, by a check of its function alone, together with others. The libraries
below are those that `rt ci` or `tools/build` proved on this machine. Where some are missing, it says so at once, and
proves nothing.
Verdicts are kept on this machine too, by the checksum of all that the check reads. What such a check does not decide
is reported: it takes a check of the whole crate, by `tools/try-mutants EDIT`.

The line before the last counts, each apart: refused by a goal; by a goal, beside a proof of the function, written by
hand, that does not fit the mutant either; at a limit of the search, which says nothing; by such a proof alone, which
shows nothing. The very last is `N passed, M failed`. Only the first two pass. A mutant of the random order that comes
to something else neither passes nor fails, but where it is PROVED or does not apply: that fails, if tools/mutants.list
does not name it as known to be open, with the reason. A chosen one fails where no goal refuses it.
"""
from __future__ import annotations

import argparse
import concurrent.futures
import csv
import hashlib
import os
import pathlib
import tempfile
import time
from dataclasses import dataclass, field
from typing import Collection, Dict, Iterable, Iterator, List, NamedTuple, Optional, Sequence, Set, Tuple

from . import build_record, commands, kept_libraries, trusted_base, try_mutants
from . import rattle_source as reading
from .programs import TOP
from .verdicts import Verdict, Verdicts, folder

LIST = TOP / "tools" / "mutants.list"
IN_RANDOM_ORDER = 40
# The name of a line whose edit is known to be open.
OPEN = "open"
# A mutant that a check of its function alone does not decide.
UNDECIDED = "not decided"
PASSED = (try_mutants.BY_GOAL, try_mutants.ELSEWHERE, try_mutants.BESIDE)
FAILED = (try_mutants.PROVED, try_mutants.BAD)
KEPT = (*PASSED, try_mutants.AT_LIMIT, try_mutants.BY_PROOF)
# What the line before the last counts, each of which words.
COUNTED = (
    ("refused by a goal", (try_mutants.BY_GOAL, try_mutants.ELSEWHERE)),
    ("by a goal beside a hand proof that fits no more", (try_mutants.BESIDE,)),
    ("at a limit, which says nothing", (try_mutants.AT_LIMIT,)),
    ("by a hand proof alone, which shows nothing", (try_mutants.BY_PROOF,)))
HEAD = ("name", "crate", "mutant", "what it does", "outcome", "by", "processor seconds")
# After so many seconds it is looked once more which libraries are kept.
A_WHILE = 20


class Chosen(NamedTuple):
    """A line of tools/mutants.list: the name of the fault or the promise, the edit that spells it, and what that
    does, or the reason why it is known to be open."""
    name: str
    edit: pathlib.Path
    said: str


def chosen_mutants(text: str, top: pathlib.Path) -> List[Chosen]:
    """The lines of the list. Raises commands.Missing for one that is none, or whose edit is not there."""
    found = []
    for number, line in enumerate(text.splitlines(), 1):
        named, _, said = line.partition("#")
        words = named.split()
        if not words:
            continue
        path = top / "crates" / (words[-1] + ".edit")
        if len(words) != 2 or not words[0].endswith(":") or not path.is_file() or not said.strip():
            raise commands.Missing(
                "tools/mutants.list:%d: `%s` is not `NAME: CRATE/FOLDER/EDIT # WHAT IT DOES` of an edit below crates/: "
                "write one, as `trace-takes-any-match: plain_simulator/mutants/trace-takes-any-match # the trace ..`"
                % (number, line.strip()))
        found.append(Chosen(words[0][:-1], path, said.strip()))
    return found


def crate_of(edit: pathlib.Path) -> str:
    """The crate of an edit's file."""
    return edit.parent.parent.name


def in_random_order(edits: Iterable[pathlib.Path], seed: str, top: pathlib.Path, most: int = IN_RANDOM_ORDER,
                    owed: Collection[pathlib.Path] = ()) -> List[pathlib.Path]:
    """So many of the edits, one of each crate at least: those that are owed first, then by the SHA-256 of the seed and
    the path."""
    def order(edit: pathlib.Path) -> Tuple[bool, str]:
        path = edit.relative_to(top).as_posix()
        return edit not in owed, hashlib.sha256(("%s %s" % (seed, path)).encode()).hexdigest()

    in_order = sorted(edits, key=order)
    first: Dict[str, pathlib.Path] = {}
    for edit in in_order:
        first.setdefault(crate_of(edit), edit)
    others = [edit for edit in in_order if edit not in first.values()]
    return [*first.values(), *others[:max(0, most - len(first))]]


def git(*words: str) -> Optional[str]:
    """What git answers here; None where it answers nothing."""
    return trusted_base.git(TOP, *words)


def seed_of() -> str:
    """The commit; without git the digest of the sources."""
    commit = (git("rev-parse", "--verify", "HEAD") or "").strip()
    return commit or build_record.Tree(TOP).digest(build_record.KINDS["proved"].parts)


def functions_of(text: str, file: str) -> Dict[Tuple[str, str, str], str]:
    """The text of each function of a source; nothing where it cannot be read."""
    read = reading.Reading(file, "", text)
    try:
        read.items(reading.nested(text, file))
    except reading.Unreadable:
        return {}
    lines = text.splitlines(True)
    starts = [0]
    for line in lines:
        starts.append(starts[-1] + len(line))
    return {(one.owner, one.trait, one.name): text[starts[one.line - 1]:one.body.end]
            for one in read.source.functions if one.body}


def changed_functions(file: str, old: str, new: str) -> Set[str]:
    """The names of the functions of a source that are new, or whose text differs."""
    before, now = functions_of(old, file), functions_of(new, file)
    return {key[2] for key, text in now.items() if before.get(key) != text}


def owed_mutants(edits: Iterable[pathlib.Path], since: str) -> List[pathlib.Path]:
    """The edits of functions that were changed since the commit. Raises commands.Missing where git does not know it."""
    told = git("diff", "--name-only", since, "--", "crates")
    if told is None:
        raise commands.Missing(trusted_base.UNKNOWN % since)
    files = {file for file in told.splitlines() if "/src/" in file and (TOP / file).is_file()}
    changed = {file: changed_functions(file, git("show", "%s:%s" % (since, file)) or "", (TOP / file).read_text())
               for file in files}
    found = []
    for edit in edits:
        crate = edit.parent.parent
        texts, _ = try_mutants.texts_of(edit, crate)
        for path, text in texts.items():
            names = changed.get(path.relative_to(TOP).as_posix())
            if names and names & try_mutants.functions_at(path, path.read_text(), text):
                found.append(edit)
    return found


@dataclass
class Trial:
    """A run of the tool: what each crate stands on, what is kept, a folder of its own, and the verdicts."""
    below: Dict[str, Set[str]]
    verdicts: Verdicts
    room: pathlib.Path
    jobs: int = 1
    found: Dict[pathlib.Path, Verdict] = field(default_factory=dict)

    def take_kept(self, edits: Iterable[pathlib.Path]) -> None:
        """Takes the verdicts that are kept of these edits."""
        for edit in edits:
            verdict = self.verdicts.kept(crate_of(edit), edit)
            if verdict:
                self.found[edit] = verdict
                try_mutants.tell(crate_of(edit), edit.stem, "%s, as is kept" % verdict.word, None, verdict.why)

    def left(self, edits: Iterable[pathlib.Path]) -> Dict[str, List[pathlib.Path]]:
        """The edits that have no verdict yet, by their crates in the order of crates.txt."""
        without = [edit for edit in edits if edit not in self.found]
        by_crate = {crate: [edit for edit in without if crate_of(edit) == crate] for crate in self.below}
        return {crate: own for crate, own in by_crate.items() if own}

    def try_crate(self, crate: str, edits: List[pathlib.Path]) -> None:
        """Tries these edits of a crate, and keeps what is known of them for certain."""
        for one in try_mutants.tries(crate, self.below[crate], edits, undecided, self.room):
            self.found[one.edit] = Verdict(one.word, one.why, one.seconds)
            if one.word in KEPT:
                self.verdicts.keep(crate, one.edit, self.found[one.edit])

    def try_all(self, edits: Sequence[pathlib.Path], until: Optional[pathlib.Path]) -> None:
        """Tries these edits, those first whose libraries are there. Raises commands.Missing where others are left, and
        nothing is to be waited for."""
        left = self.left(edits)
        needed = set().union(*(self.below[crate] for crate in left))
        libraries = kept_libraries.repository(
            TOP, self.room, [crate for crate in self.below if crate in needed | set(left)],
            lambda: until is None or until.exists())
        if libraries is None:
            raise commands.Missing(kept_libraries.NOT_KEPT % "this kit's `rt` is not known here")
        with concurrent.futures.ThreadPoolExecutor(self.jobs) as pool:
            tried: List[concurrent.futures.Future[None]] = []
            while left:
                is_last = until is None or until.exists()
                lacking = needed & set(libraries.take())
                ready = [crate for crate in left if not self.below[crate] & lacking]
                if is_last and len(ready) < len(left):
                    raise commands.Missing(kept_libraries.NOT_KEPT % " ".join(sorted(lacking)))
                tried += [pool.submit(self.try_crate, crate, left.pop(crate)) for crate in ready]
                if left and not ready:
                    time.sleep(A_WHILE)
            for one in tried:
                one.result()


def undecided(edit: pathlib.Path, copied: try_mutants.Copied) -> try_mutants.Outcome:
    """What is said of an edit that a check of its function alone does not decide."""
    _, why = try_mutants.texts_of(edit, copied.folder)
    said = "a check of its function alone does not decide it: tools/try-mutants %s tries it"
    return (try_mutants.BAD, why) if why else (UNDECIDED, said % edit.relative_to(TOP).as_posix())


def counted(found: Dict[pathlib.Path, Verdict], chosen: Collection[pathlib.Path],
            are_open: Collection[pathlib.Path]) -> int:
    """Prints what failed, and how many came to what. The exit status."""
    passed = [edit for edit, verdict in found.items() if verdict.word in PASSED]
    failed = [edit for edit, verdict in found.items() if edit not in passed and edit not in are_open
              and (edit in chosen or verdict.word in FAILED)]
    for edit in failed:
        print("FAILED %s: %s: %s" % (edit.relative_to(TOP).as_posix(), found[edit].word, found[edit].why))
    came = [verdict.word for verdict in found.values()]
    other = len(came) - sum(came.count(word) for _, words in COUNTED for word in words)
    print(", ".join("%d %s" % (sum(map(came.count, words)), said) for said, words in COUNTED)
          + (", %d otherwise" % other if other else ""))
    return commands.counted(len(passed), len(failed))


def table(chosen: Sequence[Chosen], found: Dict[pathlib.Path, Verdict]) -> Iterator[Sequence[str]]:
    """The rows of bench/mutants.csv."""
    yield HEAD
    for name, edit, said in chosen:
        verdict = found.get(edit)
        if verdict:
            yield (name, crate_of(edit), edit.stem, said, verdict.word, verdict.why or "", "%.0f" % verdict.seconds)


def main(words: Sequence[str]) -> int:
    """The command."""
    asked = commands.parser(__doc__)
    asked.add_argument("--since", metavar="COMMIT", nargs="?", const="")
    asked.add_argument("--list", action="store_true", dest="is_list")
    asked.add_argument("--anew", action="store_true")
    asked.add_argument("--until", type=pathlib.Path, metavar="FILE")
    asked.add_argument("--table", type=pathlib.Path, metavar="FILE")
    asked.add_argument("--jobs", type=commands.number, metavar="N", default=max(1, len(os.sched_getaffinity(0)) // 2))
    asked.add_argument("--random", type=commands.number, default=IN_RANDOM_ORDER, metavar="N",
                       help="take N in random order, and not forty")
    asked.add_argument("crates", nargs="*", metavar="CRATE", help="of these crates alone")
    return commands.as_part(lambda: try_all(asked.parse_args(words)))


def try_all(given: argparse.Namespace) -> int:
    """Tries the chosen mutants and those of the random order, or lists them."""
    below, seed = try_mutants.below(), seed_of()
    every = sorted(edit for crate in below for edit in (TOP / "crates" / crate / "mutants").glob("*.edit"))
    listed = chosen_mutants(LIST.read_text(), TOP)
    are_open = {one.edit for one in listed if one.name == OPEN}
    chosen = [one for one in listed if one.edit.parent.name == "mutants" and one.name != OPEN]
    since = trusted_base.base(TOP) if given.since == "" else given.since
    owed = owed_mutants(every, since) if since else []
    edits = [one.edit for one in chosen]
    others = [edit for edit in every if edit not in edits]
    at_random = in_random_order(others, seed, TOP, given.random, owed) if given.random else []
    asked = [edit for edit in edits + at_random if not given.crates or crate_of(edit) in given.crates]
    print("%d chosen mutants, and %d of %d in the random order of %s%s" % (
        len(edits), len(at_random), len(every), seed, ", %d of them owed since %s" % (
            len(set(owed) & set(at_random)), since) if since else ""), flush=True)
    if given.is_list:
        print("".join("%s: %s\n" % (one.name, one.edit.relative_to(TOP).as_posix()) for one in listed), end="")
        print("".join("random: %s\n" % edit.relative_to(TOP).as_posix() for edit in at_random), end="")
        return 0
    with tempfile.TemporaryDirectory(prefix="mutants-") as room:
        trial = Trial(below, Verdicts(TOP, build_record.kit(), below, folder()), pathlib.Path(room), given.jobs)
        if not given.anew:
            trial.take_kept(asked)
        trial.try_all(asked, given.until)
    if given.table:
        with given.table.open("w", newline="") as file:
            csv.writer(file, lineterminator="\n").writerows(table(chosen, trial.found))
    return counted(trial.found, edits, are_open)
