"""Runs the built programs on the cases of cases/ and examples/, and looks up the examples of docs/reference/language.md.

    tools/run-cases [PATH..]        PATH is a folder of cases, or one case by any of its files; without one: all

A case is some files of one name. cases/README.md says which there are, and how a case is added. A case of `bgpsim
script` is also run on each machine, by machine_scripts, where that is built, and each run counts; with MACHINES=1
it has to be built. Of docs/reference/language.md, each line that begins with > and the line of reply under it have to stand
among the commands and replies of examples/tour.
It prints what differs for each run that fails. The last line is `N passed, M failed`; exit 1 where one failed.
PROGRAM= is another program, which is then run alone.
"""
from __future__ import annotations

import difflib
import os
import pathlib
import subprocess
import sys
from typing import Iterable, Iterator, List, NamedTuple, Optional, Sequence, Set, Tuple

from . import commands, programs
from .language import REPORTS
from .programs import TOP
from .running import PATIENCE, Ran, run, side_by_side

LANGUAGE = TOP / "docs" / "reference" / "language.md"
BEGINS = (".bgp", ".log", ".team", ".make", ".args")
# The scripts of a team belong to no case of their own.
OF_TEAMS = ".engineer"
MORE = (".out", ".err", ".status")
Failure = Tuple[str, List[str]]


class Wanted(NamedTuple):
    """What a case must write and end with. Of standard error nothing is wanted where it is None."""
    out: bytes
    err: Optional[bytes]
    status: int


class Run(NamedTuple):
    """A case by the program, or on a machine; on one processor, or on all."""
    case: pathlib.Path
    machine: Optional[str]
    is_alone: bool

    def __str__(self) -> str:
        where = " on %s" % self.machine if self.machine else ""
        return name(self.case) + where + (" on one processor" if self.is_alone else "")


def name(path: pathlib.Path) -> str:
    return os.path.relpath(path, TOP)


# The files of a case

def beside(case: pathlib.Path, ending: str) -> pathlib.Path:
    return case.with_name(case.name + ending)


def read(case: pathlib.Path, ending: str) -> Optional[bytes]:
    """The bytes of a file of the case, if there is one."""
    file = beside(case, ending)
    return file.read_bytes() if file.is_file() else None


def made(case: pathlib.Path, *words: str) -> bytes:
    """What the case's generator prints; nothing where it has none."""
    generator = beside(case, ".make")
    if not generator.is_file():
        return b""
    return subprocess.run([sys.executable, str(generator), *words], stdout=subprocess.PIPE, check=True).stdout


def words_of(case: pathlib.Path) -> List[bytes]:
    """The words of the case's command line."""
    words, team = read(case, ".args"), read(case, ".team")
    if team is not None:
        return [b"team", *team.split(b"\n")[:-1]]
    if words is not None:
        return words.split(b"\n")[:-1]
    return [b"script"] if read(case, ".log") is None else [b"replay"]


def given(case: pathlib.Path) -> bytes:
    """The standard input of the case."""
    found = [text for text in (read(case, ".bgp"), read(case, ".log")) if text is not None]
    return found[0] if found else made(case)


def wanted(case: pathlib.Path) -> Wanted:
    """What it must write and end with. A status other than 0 and no file for standard error want nothing of that."""
    out, err, status = (read(case, ending) for ending in MORE)
    number = int(status or 0)
    return Wanted(made(case, "replies") if out is None else out, b"" if err is None and number == 0 else err, number)


def cases_in(path: pathlib.Path) -> Tuple[Set[pathlib.Path], Set[pathlib.Path]]:
    """The cases at the path, and the files there that belong to none."""
    if path.is_dir():
        # (Notebooks are run by the tests of the toolbox.)
        files = [file for file in path.rglob("*") if file.suffix not in (".md", ".ipynb", OF_TEAMS)]
    else:
        files = [file for file in path.parent.glob("*") if path in (file, file.with_suffix(""))]
    files = [file for file in files if file.is_file()]
    cases = {file.with_suffix("") for file in files if file.suffix in BEGINS + MORE}
    begun = {case for case in cases if any(beside(case, ending).is_file() for ending in BEGINS)}
    stray = {file for file in files if file.suffix not in BEGINS + MORE or file.with_suffix("") not in begun}
    return begun, stray or ({path} if not begun else set())


# Running one

def shown(text: bytes) -> List[str]:
    return [line.decode("ascii", "backslashreplace")[:160] for line in text.splitlines()]


def difference(what: str, want: bytes, got: bytes) -> List[str]:
    """The first lines that differ."""
    before, after = map(shown, (want, got))
    lines = list(difflib.unified_diff(before, after, lineterm="", n=1))[2:]
    more = ["  .. %d more lines" % (len(lines) - 10)] if len(lines) > 10 else []
    first = lines[:10] or ["(its ends of lines)"]
    return ["%s, wanted - and written +:" % what] + ["  " + line for line in first] + more


def runs_of(case: pathlib.Path, machines: Sequence[str]) -> List[Run]:
    """The runs of the case: by the program, and on the machines where it is a script whose words no file says; of
    threads, on one processor too."""
    is_for_all = words_of(case) == [b"script"] and read(case, ".args") is None
    by: List[Optional[str]] = [None, *(machines if is_for_all else ())]
    alone = (False, True) if case.parent.name == "threads" else (False,)
    return [Run(case, machine, is_alone) for is_alone in alone for machine in by]


def called(one: Run) -> Ran:
    """Runs it."""
    if one.machine is None:
        program, words = programs.bgpsim(), [b"bgpsim", *words_of(one.case)]
    else:
        program, words = programs.machine_scripts(), [b"machine_scripts", one.machine.encode()]
    if one.is_alone:
        words = [b"taskset", b"-c", str(min(os.sched_getaffinity(0))).encode(), os.fsencode(program), *words[1:]]
        program = "taskset"
    ran = run(words, given(one.case), executable=program, cwd=one.case.parent)
    if read(one.case, ".team") is None or ran.status:
        return ran
    # the log is another one each time: what it is found to be is wanted
    found = run(["bgpsim", "replay"], ran.out, executable=programs.bgpsim())
    return found._replace(err=ran.err + found.err)


def faults(one: Run) -> List[str]:
    """What is wrong with it, in lines."""
    try:
        want, ran = wanted(one.case), called(one)
    except subprocess.TimeoutExpired:
        return ["not ended after %d seconds" % PATIENCE]
    except (OSError, ValueError, subprocess.CalledProcessError) as error:
        return [str(error)]
    wrong = ["status %d, and not %d" % (ran.status, want.status)] if ran.status != want.status else []
    if ran.out != want.out:
        wrong += difference("standard output", want.out, ran.out)
    if want.err is not None and ran.err != want.err:
        wrong += difference("standard error", want.err, ran.err)
    return wrong


# The examples of the language

def conversation(script: str, replies: str) -> Iterator[Tuple[str, List[str]]]:
    """Each command with the lines of its reply."""
    rest = iter(replies.splitlines())
    for command in script.splitlines():
        if not command or command.startswith("#"):
            continue
        reply = [next(rest)]
        while command.split()[0] in REPORTS and not reply[-1].startswith(("end ", "refused ")):
            reply.append(next(rest))
        yield command, reply


def language_examples() -> Iterator[Tuple[str, bool]]:
    """Each example of docs/reference/language.md, and whether it is in the tour."""
    tour = TOP / "examples" / "tour"
    said = list(conversation(tour.with_suffix(".bgp").read_text(), tour.with_suffix(".out").read_text()))
    lines = LANGUAGE.read_text().splitlines()
    for line, reply in zip(lines, lines[1:]):
        if line.startswith("> "):
            is_there = any(line[2:] == command and reply in told for command, told in said)
            yield "%s / %s" % (line[2:], reply), is_there


# All of them

def results(paths: Iterable[pathlib.Path], machines: Sequence[str]) -> Iterator[Failure]:
    """Each run, example and stray file with what is wrong with it: nothing, where it passed."""
    found = [cases_in(path) for path in paths if path != LANGUAGE]
    yield from ((name(file), ["no file of a case"]) for _, stray in found for file in sorted(stray))
    for text, is_there in language_examples() if LANGUAGE in paths else ():
        yield "docs/reference/language.md", [] if is_there else ["not in the tour: " + text]
    runs = [one for case in sorted(set().union(*(cases for cases, _ in found))) for one in runs_of(case, machines)]
    yield from zip(map(str, runs), side_by_side(faults, runs))


def run_cases(paths: List[pathlib.Path]) -> int:
    """Runs the cases at the paths. Missing where a program is not there that has to be."""
    programs.bgpsim()
    came = list(results(paths, programs.machines()))
    failed = [(what, wrong) for what, wrong in came if wrong]
    for what, wrong in failed:
        print("FAILED %s\n    %s" % (what, "\n    ".join(wrong)))
    return commands.counted(len(came) - len(failed), len(failed))


def main(words: Sequence[str]) -> int:
    """The command."""
    asked = commands.parser(__doc__)
    asked.add_argument("paths", nargs="*", metavar="PATH")
    paths = [pathlib.Path(word).resolve() for word in asked.parse_args(words).paths]
    return commands.as_part(lambda: run_cases(paths or [TOP / "cases", TOP / "examples", LANGUAGE]))
