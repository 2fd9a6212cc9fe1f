"""Compares what some twenty scripts take with recorded figures: a program that takes more fails, whatever it answers.

    tools/resources [NAME..]            each script of tools/simtools/resource_scripts.py, or those of these names:
                                        instructions (valgrind's callgrind), allocations, bytes allocated, the peak of
                                        memory, calls of read, write and open, and threads started
    tools/resources --record [NAME..]   writes what they take into bench/resources.csv: after a change that is meant to
                                        take more, or that takes less

Hash keys and the number of processors are fixed, so a script takes the same in each run, to the last instruction. Only
where threads share the work it varies, by less than a thousandth. A script fails that takes over 2 percent more than
is recorded; over 10 percent more, where threads share the work. Calls of open and threads have to be as many as
recorded. A script that takes over 2 percent less is named, and passes.
The last line is `N passed, M failed`; exit 1 where one failed. It needs valgrind and cc.

The figures are those of the proved program. PROGRAM= is another program than crates/bgpsim/out/bgpsim, and
--figures FILE another file of figures, for a program that is built otherwise. --jobs N runs N scripts side by side.
"""
from __future__ import annotations

import contextlib
import csv
import os
import pathlib
import re
import shutil
import subprocess
import tempfile
from typing import Callable, Dict, Iterable, Iterator, List, Mapping, NamedTuple, Sequence, Union

from . import commands, programs
from .commands import Missing
from .programs import TOP
from .resource_scripts import ENGINEER, WORKS, Work
from .running import run, side_by_side

SOURCE = pathlib.Path(__file__).resolve().with_name("resources.c")
FIGURES = TOP / "bench" / "resources.csv"
COLLECTED = re.compile(rb"Collected : ([0-9]+)")
COLUMNS = ("instructions", "allocations", "bytes", "peak", "reads", "writes", "opens", "threads")
# By how many percent a run may take more than is recorded; and where threads share the work.
MORE, MORE_SHARED = 2, 10
# What has to be as it is recorded: fewer threads are workers that were asked for and are not there.
EXACT = ("opens", "threads")
# After so many seconds a run is taken not to end.
SECONDS = 900
# The script that is run under other hash keys too.
KEYED = "paths"
Figures = Dict[str, int]
Measure = Callable[[str, int], Union[Figures, str]]


class Verdict(NamedTuple):
    """What is wrong with a script's figures, and what is better than recorded."""
    worse: List[str]
    better: List[str]


# Measuring

@contextlib.contextmanager
def measuring() -> Iterator[Measure]:
    """Makes what measures the script of a name under hash keys of a number: its figures by column, or, in a sentence,
    how it ended otherwise. Missing where there is no valgrind, no cc, or no program."""
    program = programs.bgpsim()
    if not shutil.which("valgrind"):
        raise Missing("there is no valgrind: `apt-get install valgrind` installs it")
    with tempfile.TemporaryDirectory() as folder:
        library = os.path.join(folder, "resources.so")
        try:
            subprocess.run(["cc", "-O1", "-shared", "-fPIC", "-o", library, str(SOURCE), "-ldl"], check=True)
        except FileNotFoundError:
            raise Missing("there is no cc, which %s needs: a C compiler has it" % SOURCE.name) from None
        yield lambda name, keys: measured(program, library, WORKS[name], keys)


def measured(program: str, library: str, work: Work, keys: int) -> Union[Figures, str]:
    """What the work takes. The environment is the same each time, since a program begins by reading it."""
    with tempfile.TemporaryDirectory() as folder:
        given = pathlib.Path(folder, ENGINEER)
        counts = pathlib.Path(folder, "counts")
        given.write_text(work.text())
        environment = {"PATH": os.defpath, "LD_PRELOAD": library, "RESOURCES": str(counts), "KEYS": str(keys)}
        words = ["valgrind", "--tool=callgrind", "--callgrind-out-file=/dev/null", program, *work.words]
        with given.open("rb") as text:
            ran = run(words, stdin=text, input=None, stdout=subprocess.DEVNULL, cwd=folder, env=environment,
                      timeout=SECONDS)
        steps = COLLECTED.search(ran.err)
        if ran.status or not steps or not counts.is_file():
            return "status %d: %s" % (ran.status, ran.err[-300:].decode("ascii", "backslashreplace"))
        told = (line.split() for line in counts.read_text().splitlines())
        return {"instructions": int(steps[1]), **{column: int(count) for column, count in told}}


# Comparing

def judged(taken: Mapping[str, int], recorded: Mapping[str, int], percent: int) -> Verdict:
    """What of the figures is more than recorded by over so many percent, and what is less by as much."""
    worse, better = [], []
    for column in COLUMNS:
        now, before = taken[column], recorded[column]
        if column in EXACT:
            worse += ["%s: %d, and %d are recorded; they have to be equal" % (column, now, before)] * (now != before)
        elif now * 100 > before * (100 + percent):
            worse.append("%s: %d, and %d are recorded%s; at most %d percent more is allowed" % (
                column, now, before, by_percent(now, before), percent))
        elif now * 100 < before * (100 - percent):
            better.append("%s: %d, and %d are recorded%s" % (column, now, before, by_percent(now, before)))
    return Verdict(worse, better)


def by_percent(now: int, before: int) -> str:
    return " (%+.1f percent)" % (100.0 * (now - before) / before) if before else ""


def read(path: pathlib.Path) -> Dict[str, Figures]:
    """The recorded figures of each script. Missing where the file is not there, or holds something else."""
    try:
        with path.open(newline="") as file:
            return {row["script"]: {column: int(row[column]) for column in COLUMNS} for row in csv.DictReader(file)}
    except OSError as error:
        raise Missing("%s cannot be read (%s): tools/resources --record writes it" % (path, error.strerror)) from None
    except (KeyError, TypeError, ValueError):
        raise Missing("%s is no table of figures: tools/resources --record writes one" % path) from None


def write(path: pathlib.Path, figures: Mapping[str, Figures]) -> None:
    """Writes the figures, in the order of the scripts; those of scripts that are no more are left out."""
    with path.open("w", newline="") as file:
        rows = csv.writer(file, lineterminator="\n")
        rows.writerow(["script", *COLUMNS])
        rows.writerows([name, *(figures[name][column] for column in COLUMNS)] for name in WORKS if name in figures)


# The command

def taken_by(measure: Measure, names: Sequence[str], jobs: int) -> Dict[str, Union[Figures, str]]:
    return dict(zip(names, side_by_side(lambda name: measure(name, 1), names, jobs=jobs)))


def record(names: Sequence[str], path: pathlib.Path, jobs: int) -> int:
    """Writes what the scripts take; the figures of the others stay as they are."""
    with measuring() as measure:
        taken = taken_by(measure, names, jobs)
    figures = read(path) if path.is_file() else {}
    faults = {name: found for name, found in taken.items() if isinstance(found, str)}
    for name, fault in faults.items():
        print("FAILED %s: %s" % (name, fault))
    figures.update({name: found for name, found in taken.items() if not isinstance(found, str)})
    write(path, figures)
    print("%d recorded in %s" % (len(taken) - len(faults), os.path.relpath(path)))
    return 1 if faults else 0


def faults_of(name: str, taken: Union[Figures, str], recorded: Mapping[str, Figures]) -> Iterable[str]:
    """What is wrong with what a script takes; what is better is reported here."""
    if isinstance(taken, str):
        return [taken]
    if name not in recorded:
        return ["no figures are recorded"]
    verdict = judged(taken, recorded[name], MORE_SHARED if WORKS[name].is_shared else MORE)
    for line in verdict.better:
        print("%s takes less: %s. Record it anew: tools/resources --record %s" % (name, line, name))
    return verdict.worse


def keys_decide(measure: Measure, name: str, taken: Union[Figures, str]) -> bool:
    """Whether hashes depend on the keys that the system draws: under others the script takes other steps."""
    other = measure(name, 2)
    return isinstance(taken, str) or isinstance(other, str) or taken["instructions"] != other["instructions"]


def compare(names: Sequence[str], path: pathlib.Path, jobs: int) -> int:
    """Compares what the scripts take with the figures."""
    recorded = read(path)
    failed = 0
    with measuring() as measure:
        taken = taken_by(measure, names, jobs)
        is_keyed = KEYED not in names or keys_decide(measure, KEYED, taken[KEYED])
    for name in names:
        faults = list(faults_of(name, taken[name], recorded))
        failed += bool(faults)
        for fault in faults:
            print("FAILED %s: %s" % (name, fault))
    if failed:
        print("If a script is meant to take more, record it anew: tools/resources --record NAME")
    if not is_keyed:
        print("FAILED keys: %s takes the same steps under other hash keys, so hashes do not depend on them" % KEYED)
    checks = len(names) + (KEYED in names)
    return commands.counted(checks - failed - (not is_keyed), failed + (not is_keyed))


def main(words: Sequence[str]) -> int:
    """The command."""
    asked = commands.parser(__doc__)
    asked.add_argument("names", nargs="*", metavar="NAME")
    asked.add_argument("--record", action="store_true")
    asked.add_argument("--figures", type=pathlib.Path, default=FIGURES, metavar="FILE")
    asked.add_argument("--jobs", type=commands.number, default=0, metavar="N")
    given = asked.parse_args(words)
    unknown = [name for name in given.names if name not in WORKS]
    if unknown:
        asked.error("there is no script `%s`: the scripts are %s" % (unknown[0], ", ".join(WORKS)))
    names = [name for name in WORKS if not given.names or name in given.names]
    if given.record:
        return record(names, given.figures.resolve(), given.jobs)
    return commands.as_part(lambda: compare(names, given.figures.resolve(), given.jobs))
