"""Tries the mutants of crates: rt check has to refuse each edit crates/CRATE/mutants/*.edit, by a goal that has no
proof. The gate tries some of them (`tools/mutants`).

    tools/try-mutants [--jobs N] [CRATE | EDIT ..]        without a word: all crates that have mutants/

An EDIT is such a file. It is a line `file: src/lib.rt` and pairs of lines
`old: TEXT` and `new: TEXT`. Each crate is copied with the crates below it, whose libraries have to be built, and with
what earlier checks kept in out/, so the files here stay as they are; N copies are tried side by side, as many as there
are processors where nothing is said. Edits of functions that do not call one another are tried in one check, up to 40
at once. It checks those functions alone, and takes all others by what they state, without their proofs: a contract is
all that others see of a function, so none hides or helps another. What such a check does not decide, and what stands in
no function, is tried alone, by a check of the whole crate, which is proved as it is before. Of each edit it prints how
it was refused:

    by a goal             a goal of the function that the edit stands in has no proof; it is named
    by a goal, beside ..  so too, but a proof of that function, written by hand, does not fit the edited text either:
                          the goal may want no more than its proof, under another name
    elsewhere             the edit stands in no function, or only others have such a goal: one is named
    at a limit            the search gave up at each such goal, and says nothing of it
    BY A PROOF FILE       only a proof that was written by hand does not fit: evidence of nothing
    PROVED                its functions are proved as they are edited: no clause refuses it
    BAD                   it does not apply or does not compile, and shows nothing

The last lines count each; the very last is `N refused, M proved`. Exit 1 where one is proved, is refused by a proof
file alone, or is BAD.
"""
from __future__ import annotations

import os
import pathlib
import re
import shutil
import subprocess
import sys
import tempfile
import threading
import time
from dataclasses import dataclass, field
from typing import Callable, Collection, Dict, Iterator, List, NamedTuple, Optional, Sequence, Set, Tuple

from . import commands, left_out
from . import rattle_source as reading
from .programs import TOP
from .running import side_by_side

PARTS = ("src", "specs", "proofs", "c")
# The most edits that are tried in one copy of a crate, and in one check.
EDITS_A_COPY, EDITS_A_CHECK = 160, 40
# `rt`, which reads the files of each library once there, over the libraries that the gate kept.
BUILD = pathlib.Path(__file__).resolve().parent.parent / "build"
RT: Sequence[str] = (sys.executable, "-B", str(BUILD), "--rt", "kept", "--")
# Where checks keep their work, in a crate's folder.
KEPT = "out/incremental"
# What is reported of a text that cannot be read; an edit that only makes a statement false reads well.
UNREAD = re.compile(r"is not in scope|has no field|is no name|operand is missing|expected the end|cannot continue")
# How an edit is refused.
BY_GOAL, BESIDE, ELSEWHERE = "refused by a goal", "refused by a goal, beside a proof file", "refused elsewhere"
AT_LIMIT, BY_PROOF = "refused at a limit", "refused BY A PROOF FILE alone"
PROVED, BAD = "PROVED", "BAD"
# What a check prints of a goal that has no proof, then of its function; and of a proof that does not fit.
GOAL = re.compile(r"note: \S+:\d+:\d+: .* \(`(\S+)`\)(.*)")
FUNCTION = re.compile(r"fn (\S+): (not proved|no proof)?")
# What it prints of a function whose proof it takes, if there are holes elsewhere: none here, or these.
ADMITTED = re.compile(r"fn (\S+): (?:no holes|depends on a hole in (.*))")
PROOF = re.compile(r"(?:\./)?(proofs/\S+)\.antt:\d+:\d+: error")
Texts = Dict[pathlib.Path, str]
printing = threading.Lock()
# What the checks of a thread took: `seconds`.
checks = threading.local()


def below() -> Dict[str, Set[str]]:
    """Of each crate, the crates of the repository that it stands on."""
    lines = [line.partition("#")[0].split(":") for line in (TOP / "crates.txt").read_text().splitlines()]
    named = {words[0].split()[0]: words[1].split() for words in lines if len(words) == 2}
    found: Dict[str, Set[str]] = {}

    def closure(crate: str) -> Set[str]:
        if crate not in found:
            found[crate] = {other for name in named[crate] if name in named for other in {name} | closure(name)}
        return found[crate]

    return {crate: closure(crate) for crate in named}


def link(source: str, target: str) -> None:
    try:
        os.link(source, target)
    except OSError:
        shutil.copy2(source, target)


def link_what_was_checked(source: str, target: str) -> None:
    """Links what a check replaces, and never writes into; copies the rest."""
    if source.endswith(".oantt"):
        link(source, target)
    else:
        shutil.copy2(source, target)


def copy(crate: str, others: Set[str], room: pathlib.Path, top: Optional[pathlib.Path] = None) -> None:
    """A repository of the crate and those below it, with what was kept of them at the top: of those below, their
    libraries alone."""
    top = top or TOP
    shutil.copy(top / "HANDLES", room)
    lines = (top / "crates.txt").read_text().splitlines()
    kept = [line for line in lines if set(line.partition(":")[0].split()[:1]) & (others | {crate})]
    (room / "crates.txt").write_text("\n".join(kept) + "\n")
    how = {KEPT: link_what_was_checked, "out/rlib": link}
    for name, part in [(name, part) for name in others | {crate}
                       for part in [*PARTS, KEPT if name == crate else "out/rlib"]]:
        source = top / "crates" / name / part
        if source.is_dir():
            shutil.copytree(source, room / "crates" / name / part, copy_function=how.get(part, shutil.copy2))


def texts_of(edit: pathlib.Path, folder: pathlib.Path, edited: Optional[Texts] = None) -> Tuple[Texts, Optional[str]]:
    """The texts of the files that the edit changes, by their paths, over what others made of them; or why it does not
    apply."""
    path: Optional[pathlib.Path] = None
    old: Optional[str] = None
    texts: Texts = {}
    edited = edited or {}
    for line in edit.read_text().splitlines():
        word, _, rest = line.partition(":")
        rest = rest[1:] if rest.startswith(" ") else rest
        if word == "file":
            path = folder / rest.strip()
        elif word == "old":
            old = rest
        elif word == "new":
            if path is None or not old or not path.is_file():
                return {}, "a 'new:' line with no file or no 'old:' line before it"
            text = texts.get(path) or edited.get(path) or path.read_text()
            if text.count(old) != 1:
                return {}, "an 'old:' text stands in %s %d times" % (path.relative_to(folder), text.count(old))
            texts[path], old = text.replace(old, rest), None
    return texts, None if texts else "no 'old:' and 'new:' pair"


def check(folder: pathlib.Path, functions: Collection[str] = ()) -> Tuple[int, List[str]]:
    """The status of a check of the crate, or of these functions past the holes of others, and the lines of what it
    told. Missing where there is no rt."""
    if shutil.which("rt") is None:
        raise commands.Missing("there is no rt on the path: the Rattle kit has it")
    words = [word for function in sorted(functions) for word in ("--only", function)]
    holes = ["--allow-holes"] if functions else []
    ran = subprocess.Popen([*RT, "check", "--jobs", "1", *holes, *words], cwd=folder, stdin=subprocess.DEVNULL,
                           stdout=subprocess.PIPE, stderr=subprocess.STDOUT, text=True, errors="replace")
    with ran:
        assert ran.stdout
        lines = ran.stdout.read().splitlines()
        _, status, used = os.wait4(ran.pid, 0)
        ran.returncode = os.WEXITSTATUS(status) if os.WIFEXITED(status) else -os.WTERMSIG(status)
    checks.seconds = processor_time() + used.ru_utime + used.ru_stime
    return ran.returncode, lines


def processor_time() -> float:
    """The processor seconds of all checks of this thread."""
    return float(getattr(checks, "seconds", 0.0))


def is_unread(line: str, changed: Collection[str]) -> bool:
    """Whether the line says that a text of src/, specs/ or an edited file cannot be read."""
    found = re.match(r"(?:\./)?(\S+?):\d+:\d+: error: (?:(`[^`]*`): )?(.*)", line)
    if not found or found[1] not in changed and not found[1].startswith(("src/", "specs/")):
        return False
    return not found[2] or bool(UNREAD.search(re.sub(r"`[^`]*`", "", found[3])))


def changed_between(path: pathlib.Path, old: str, new: str) -> Optional[Tuple[reading.Source, int, int]]:
    """What a source was, and where the first and the last byte that differs stands; None where it cannot be read."""
    first = len(os.path.commonprefix((old, new)))
    last = len(old) - len(os.path.commonprefix((old[first:][::-1], new[first:][::-1])))
    try:
        read = reading.Reading(path.name, "", old)
        read.items(reading.nested(old, path.name))
    except reading.Unreadable:
        return None
    return read.source, first, last


def constants_at(path: pathlib.Path, old: str, new: str) -> Set[str]:
    """The names of the constants whose value alone was changed."""
    found = changed_between(path, old, new)
    if found is None:
        return set()
    source, first, last = found
    return {name for name, nodes in source.constants.items()
            if nodes and nodes[0].start <= first and last <= nodes[-1].end}


def functions_at(path: pathlib.Path, old: str, new: str) -> Set[str]:
    """The names of the functions in which a source was changed, by the first and the last byte that differs."""
    found_now = changed_between(path, old, new)
    if found_now is None:
        return set()
    source, first, last = found_now
    lines = [0] + [found.end() for found in re.finditer("\n", old)]
    return {function.name for function in source.functions if function.body for at in (first, last)
            if lines[function.line - 1] <= at <= function.body.end}


def open_goals(told: List[str]) -> Iterator[Tuple[str, str, bool]]:
    """Each goal without a proof: its function, its name, and whether the search gave up at a limit."""
    goals: List[Tuple[str, bool]] = []
    for line in told:
        goal, function = GOAL.match(line), FUNCTION.match(line)
        if goal:
            goals.append((goal[1], "gave up" in goal[2]))
        elif function:
            yield from ((function[1], name, is_at_limit) for name, is_at_limit in goals)
            goals = []


def is_of(function: str, own: Collection[str]) -> bool:
    """Whether the function, as a check names it, is one of these or a closure of one."""
    return any(re.search(r"(?:^|::)%s$|::fn::%s::" % (name, name), function) for name in own)


def is_by(line: str, own: Collection[str]) -> bool:
    """Whether a proof that does not fit is one of these functions."""
    found = PROOF.match(line)
    return found is not None and bool(set(found[1].split("/")) & set(own))


def refusal(told: List[str], own: Collection[str]) -> Tuple[str, str]:
    """How a check refused an edit of these functions, and by what."""
    goals = list(open_goals(told))
    found = [(function, name) for function, name, is_at_limit in goals if not is_at_limit]
    here = [goal for goal in found if is_of(goal[0], own)]
    proofs = [line for line in told if PROOF.match(line)]
    function, name = (here + found + [goal[:2] for goal in goals] + [("", "")])[0]
    why = "`%s` of %s" % (name, function)
    if here:
        return BESIDE if any(is_by(line, own) for line in proofs) else BY_GOAL, why
    if found:
        return ELSEWHERE, why
    return (AT_LIMIT, why) if goals else (BY_PROOF, (proofs + ["no goal is open"])[0])


def admitted(told: List[str]) -> Set[str]:
    """The functions whose own proofs a check takes, some of them past holes in the proofs of others."""
    states = [found for found in map(ADMITTED.match, told) if found]
    return {found[1] for found in states if ".proofs.%s.Proof." % ".".join(found[1].split("::")[1:]) not in
            (found[2] or "")}


def settled(told: List[str], own: Collection[str], asked: Collection[str] = ()) -> Optional[Tuple[str, str]]:
    """How a check in which other functions are edited too refused an edit of these functions, where what it told of
    them says so; or that it took the proofs of all these, which are named as a check names them."""
    goals = [goal for goal in open_goals(told) if is_of(goal[0], own)]
    if goals:
        of_limits = (AT_LIMIT, "`%s` of %s" % (goals[0][1], goals[0][0]))
        return of_limits if all(is_at_limit for _, _, is_at_limit in goals) else refusal(told, own)
    states = [(found[1], found[2]) for found in map(FUNCTION.match, told) if found and is_of(found[1], own)]
    proofs = [line for line in told if PROOF.match(line) and is_by(line, own)]
    if proofs and any(state for _, state in states):
        return BY_PROOF, proofs[0]
    is_proved = asked and not proofs and set(asked) <= admitted(told)
    return (PROVED, "its functions are proved as they are edited") if is_proved else None


def not_read(told: List[str], changed: Collection[str]) -> Optional[str]:
    """The line that says that a check of edited files did not reach the prover, if it did not."""
    unread = [line for line in told if is_unread(line, changed)]
    judged = any(line.startswith(("logic=not-proved", "only=")) for line in told)
    return unread[0] if unread else None if judged else (told or ["?"])[0]


def verdict(status: int, told: List[str], changed: Collection[str], own: Collection[str]) -> Tuple[str, str]:
    if status == 0:
        return PROVED, "the crate is still proved with this edit"
    why = not_read(told, changed)
    return (BAD, "it did not reach the prover: %s" % why) if why else refusal(told, own)


def tell(crate: str, what: str, word: str, start: Optional[float], why: Optional[str]) -> None:
    """Prints what something came to, with the time since the start where there is one."""
    with printing:
        reason = ": " + why[:140] if why else ""
        took = "" if start is None else " (%.0f s)" % (time.monotonic() - start)
        print("%s/%s: %s%s%s" % (crate, what, word, took, reason), flush=True)


@dataclass
class Copied:
    """A copy of a crate, its functions, and whether the crate as it is was found to be proved."""
    folder: pathlib.Path
    bodies: List[left_out.Body] = field(default_factory=list)
    proved: Optional[bool] = None

    def functions(self, file: str, own: Collection[str]) -> List[left_out.Body]:
        """The functions of a file with these names."""
        module = left_out.module(pathlib.PurePath(file).relative_to("src")) if file.startswith("src/") else None
        return [body for body in self.bodies if body.module == module and body.name in own]

    def users(self, constants: Collection[str]) -> List[left_out.Body]:
        """The functions whose bodies name one of these constants."""
        return [body for body in self.bodies if body.words & set(constants)]

    def check(self, functions: Collection[str]) -> Tuple[int, List[str]]:
        """A check of these functions without the proofs of the others, or of the whole crate."""
        proofs, kept = self.folder / "proofs", self.folder / "out" / "proofs"
        if not kept.is_dir():
            proofs.mkdir(exist_ok=True)
            shutil.copytree(proofs, kept)
        shutil.rmtree(proofs, ignore_errors=True)
        shutil.copytree(kept, proofs)
        if functions:
            left_out.leave_out(self.folder, functions)
        return check(self.folder, functions)

    def is_proved(self) -> bool:
        """Whether the crate as it is is proved, which is reported once."""
        if self.proved is None:
            start = time.monotonic()
            status, told = self.check(())
            self.proved = status == 0
            word, why = ("proved", None) if self.proved else ("NOT PROVED", (told or ["?"])[-1])
            tell(self.folder.name, "as it is", word, start, why)
        return self.proved


@dataclass
class Applied:
    """Edits that stand in the files at once: the texts, and of each edit its files, the names of its functions, these
    as a check names them, where each can be checked alone, and what they call."""
    texts: Texts = field(default_factory=dict)
    edits: List[pathlib.Path] = field(default_factory=list)
    files: List[Set[str]] = field(default_factory=list)
    own: List[Set[str]] = field(default_factory=list)
    functions: List[Set[str]] = field(default_factory=list)
    calls: List[Set[str]] = field(default_factory=list)

    def add(self, edit: pathlib.Path, copied: Copied) -> Optional[str]:
        """Puts the edit to the others. Why it does not apply, if it does not."""
        texts, why = texts_of(edit, copied.folder, self.texts)
        if why:
            return why
        found: List[left_out.Body] = []
        own: List[Set[str]] = []
        for path, text in texts.items():
            was, file = self.texts.get(path) or path.read_text(), str(path.relative_to(copied.folder))
            bodies = copied.functions(file, functions_at(path, was, text))
            bodies = bodies or copied.users(constants_at(path, was, text))
            found += bodies
            own.append({body.name for body in bodies})
        self.edits.append(edit)
        self.files.append({str(path.relative_to(copied.folder)) for path in texts})
        self.own.append(set().union(*own))
        names = {body.place.printed(copied.folder.name) for body in found if body.place}
        can_be_alone = all(own) and all(body.place and not body.is_recursive for body in found)
        self.functions.append(names if can_be_alone else set())
        self.calls.append(set().union(*(body.calls for body in found)))
        self.texts.update(texts)
        return None

    def fits(self, other: Applied) -> bool:
        """Whether another edit's functions, and none of these, can be checked at once: they are others, and call none
        of one another."""
        own, calls = other.own[0], other.calls[0]
        return len(self.edits) < EDITS_A_CHECK and all(self.functions) and not any(
            own & mine or own & called or mine & calls for mine, called in zip(self.own, self.calls))

    def check(self, copied: Copied, functions: Collection[str]) -> Tuple[int, List[str]]:
        """A check with these edits; then the files are as before."""
        were = {path: path.read_text() for path in self.texts}
        try:
            for path, text in self.texts.items():
                path.write_text(text)
            return copied.check(functions)
        finally:
            for path, text in were.items():
                path.write_text(text)


Outcome = Tuple[str, Optional[str]]


def attempt(edit: pathlib.Path, copied: Copied) -> Outcome:
    """Tries the edit alone, by a check of the whole crate."""
    applied = Applied()
    why = applied.add(edit, copied)
    if why or not copied.is_proved():
        return BAD, why or "the crate is not proved as it is"
    return verdict(*applied.check(copied, ()), applied.files[0], applied.own[0])


def rounds_of(edits: List[pathlib.Path], copied: Copied) -> List[List[pathlib.Path]]:
    """The edits in rounds, in each of which no two hide one another."""
    rounds: List[Applied] = []
    for edit in edits:
        alone = Applied()
        if alone.add(edit, copied) is None and alone.functions[0]:
            if any(it.add(edit, copied) is None for it in rounds if it.fits(alone)):
                continue
        alone.edits, alone.functions = [edit], alone.functions or [set()]
        rounds.append(alone)
    return [it.edits for it in rounds]


def at_once(edits: List[pathlib.Path], copied: Copied) -> Dict[pathlib.Path, Outcome]:
    """What a check with these edits of functions decides of each. Where one cannot be read, each is tried in a check
    of its own."""
    applied = Applied()
    for edit in edits:
        applied.add(edit, copied)
    if not applied.functions or not all(applied.functions):
        return {}
    status, told = applied.check(copied, set().union(*applied.functions))
    if status and not_read(told, set().union(*applied.files)):
        return {edit: word for one in edits for edit, word in at_once([one], copied).items()} if len(edits) > 1 else {}
    found = [(edit, settled(told, *of)) for edit, *of in zip(applied.edits, applied.own, applied.functions)]
    return {edit: outcome for edit, outcome in found if outcome}


class Tried(NamedTuple):
    """An edit, what it came to and why, and its share of the processor seconds of the check that it was tried in."""
    edit: pathlib.Path
    word: str
    why: Optional[str]
    seconds: float


def tries(crate: str, others: Set[str], edits: List[pathlib.Path],
          alone: Callable[[pathlib.Path, Copied], Outcome] = attempt,
          top: Optional[pathlib.Path] = None) -> Iterator[Tried]:
    """Each of these edits of the crate with what it came to. What a check of its function does not decide is tried by
    `alone`. The crates below are taken as they stand at the top."""
    with tempfile.TemporaryDirectory(prefix="try-mutants-") as room:
        copied = Copied(pathlib.Path(room) / "crates" / crate)
        copy(crate, others, pathlib.Path(room), top)
        copied.bodies = left_out.bodies(copied.folder)
        for at_a_time in rounds_of(edits, copied):
            start, used = time.monotonic(), processor_time()
            found = at_once(at_a_time, copied)
            share = (processor_time() - used) / len(at_a_time)
            for edit in at_a_time:
                word, why = found.get(edit) or alone(edit, copied)
                tell(crate, edit.stem, word, start, why)
                yield Tried(edit, word, why, share)


def try_edits(crate: str, others: Set[str], edits: List[pathlib.Path]) -> List[str]:
    """The words that these edits of the crate came to."""
    return [one.word for one in tries(crate, others, edits)]


def parts_of(edits: Dict[str, List[pathlib.Path]]) -> List[Tuple[str, List[pathlib.Path]]]:
    """The edits of the crates in parts for a copy each; those with the most edits first."""
    parts = [(crate, edits[crate][at:at + EDITS_A_COPY]) for crate in edits
             for at in range(0, len(edits[crate]), EDITS_A_COPY)]
    return sorted(parts, key=lambda part: -len(part[1]))


def asked_edits(words: Sequence[str], crates: Collection[str]) -> Dict[str, List[pathlib.Path]]:
    """The edits that are asked for, by their crates. Raises ValueError for a word that is neither a crate nor the file
    of an edit in one."""
    found: Dict[str, List[pathlib.Path]] = {}
    for word in words or list(crates):
        path = pathlib.Path(word).resolve()
        if word in crates:
            found.setdefault(word, []).extend(sorted((TOP / "crates" / word / "mutants").glob("*.edit")))
        elif word.endswith(".edit") and path.is_file() and path.parent.parent.name in crates:
            found.setdefault(path.parent.parent.name, []).append(path)
        else:
            raise ValueError("crates.txt has no %s, and it is no edit of a crate" % word)
    return found


def counted(came: Sequence[str]) -> int:
    """Prints how many came to each word. The exit status."""
    words = (BY_GOAL, BESIDE, ELSEWHERE, AT_LIMIT, BY_PROOF)
    for word in words:
        if came.count(word):
            print("%d %s" % (came.count(word), word))
    if came.count(BAD):
        print("%d that show nothing" % came.count(BAD))
    print("%d refused, %d proved" % (sum(map(came.count, words)), came.count(PROVED)))
    return 1 if {BAD, PROVED, BY_PROOF} & set(came) else 0


def main(words: Sequence[str]) -> int:
    """The command."""
    asked = commands.parser(__doc__)
    asked.add_argument("--jobs", type=commands.number, default=0, metavar="N")
    asked.add_argument("crates", nargs="*", metavar="CRATE | EDIT")
    chosen, stands_on = asked.parse_args(words), below()
    try:
        parts = parts_of(asked_edits(chosen.crates, stands_on))
    except ValueError as wrong:
        asked.error(str(wrong))
    tried = side_by_side(lambda part: try_edits(part[0], stands_on[part[0]], part[1]), parts, jobs=chosen.jobs)
    came = [word for some in tried for word in some]
    return counted(came)
