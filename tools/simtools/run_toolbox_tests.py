"""Runs the tests of toolbox/ on the built program, by pytest.

    tools/run-toolbox-tests                 all tests, as many side by side as there are processors
    tools/run-toolbox-tests WORD..          the tests whose name has one of the words
    tools/run-toolbox-tests --file NAME     those of a file (toolbox/tests/*/test_NAME.py)
    tools/run-toolbox-tests --long ..       these with fifty times as many generated examples, other ones each time
    tools/run-toolbox-tests .. -- OPTION..  options of pytest: --durations=40, -x

The tests run under .venv/bin/python, if tools/setup has made it. A test that lacks something (dot, chromium, a Python
library) is skipped. The line before the last one is `K skipped: NAMES` if tests were skipped. The last line is
`N passed, M failed`. Exit status 1 if a test failed. With SKIPPED=fail a skipped test has failed. VERBOSE=1 shows each
test with its time. PROGRAM= is another built program. CHROMIUM= is a browser that has another name.
"""
from __future__ import annotations

import argparse
import importlib
import os
import pathlib
import sys
from typing import Any, Dict, List, Sequence

from . import commands, programs
from .programs import TOP

TESTS = TOP / "toolbox" / "tests"
PYTHON = TOP / ".venv" / "bin" / "python"
# The exit statuses of pytest that say no more than its reports do: all passed, some failed, none was found.
TOLD = (0, 1, 5)
# How a test ended, in the order in which one hides the next: a test with a failed part has failed.
ENDS = ("failed", "skipped", "passed")


class Counts:
    """A plugin of pytest: how each test ended, by its name. Parts of a test, and its set-up, count as that test."""

    def __init__(self) -> None:
        self.ends: Dict[str, str] = {}

    def pytest_runtest_logreport(self, report: Any) -> None:
        """A test, or a part of it, has ended."""
        if report.when == "call" or report.outcome != "passed":
            self.note(report.nodeid, report.outcome)

    def pytest_collectreport(self, report: Any) -> None:
        """A file was read; one that cannot be is a test that failed, or that was skipped."""
        if report.outcome != "passed":
            self.note(report.nodeid, report.outcome)

    def note(self, name: str, end: str) -> None:
        """Keeps the end of a test, unless a worse one is known."""
        self.ends[name] = min(end, self.ends.get(name, end), key=ENDS.index)

    def names(self, end: str) -> List[str]:
        """The tests that ended so."""
        return sorted(name for name, each in self.ends.items() if each == end)


def counted(counts: Counts, status: int) -> int:
    """Prints the skipped tests and the last line; the exit status. With SKIPPED=fail a skipped test has failed."""
    passed, failed, skipped = (counts.names(end) for end in ("passed", "failed", "skipped"))
    broken = 0 if status in TOLD and bool(failed) == (status == 1) else 1
    if broken:
        print("FAILED pytest ended with status %d, and did not count its tests so" % status)
    if skipped:
        print("%d skipped: %s" % (len(skipped), ", ".join(skipped)))
    if os.environ.get("SKIPPED") == "fail":
        return commands.counted(len(passed), len(failed) + len(skipped) + broken)
    return commands.counted(len(passed), len(failed) + broken, len(skipped))


def file_of(name: str) -> pathlib.Path:
    """The file with tests of this name, in whichever folder of toolbox/tests it is. Missing where there is none."""
    for path in TESTS.glob("*/test_%s.py" % name):
        return path
    raise commands.Missing("there is no test_%s.py in a folder of toolbox/tests" % name)


def call(given: argparse.Namespace, others: Sequence[str]) -> List[str]:
    """The words for pytest: what to run, how, and what to show."""
    words = ["--hypothesis-profile", "long"] if given.long else []
    words += ["-vv", "-rfEsP", "--durations=0"] if os.environ.get("VERBOSE") else ["-q", "--no-header"]
    words += ["-p", "no:cacheprovider", "--continue-on-collection-errors"]
    if given.words:
        words += ["-k", " or ".join(given.words)]
    if given.file is None and not given.words:
        words += ["-n", str(len(os.sched_getaffinity(0))), "--dist", "loadgroup"]
    return [*words, *others, str(TESTS if given.file is None else file_of(given.file))]


def chosen(given: argparse.Namespace, others: Sequence[str]) -> int:
    """Runs what was asked for."""
    os.environ["PROGRAM"] = programs.bgpsim()
    words = call(given, others)
    try:
        pytest = importlib.import_module("pytest")
    except ImportError:
        raise commands.Missing("there is no pytest: tools/setup installs it") from None
    counts = Counts()
    status = int(pytest.main(words, plugins=[counts]))
    sys.stdout.flush()
    return counted(counts, status)


def restart(words: Sequence[str]) -> None:
    """Replaces this process by one under .venv/bin/python. Does nothing if this is it, or if there is none."""
    if pathlib.Path(sys.prefix) != PYTHON.parent.parent and os.access(str(PYTHON), os.X_OK):
        os.execv(str(PYTHON), [str(PYTHON), "-B", str(TOP / "tools" / "run-toolbox-tests"), *words])


def main(words: Sequence[str]) -> int:
    """The command."""
    sys.dont_write_bytecode = True
    asked = commands.parser(__doc__)
    asked.add_argument("--file", metavar="NAME")
    asked.add_argument("--long", action="store_true")
    asked.add_argument("words", nargs="*", metavar="WORD")
    own = list(words[:words.index("--")] if "--" in words else words)
    given, others = asked.parse_args(own), words[len(own) + 1:]
    restart(words)
    return commands.as_part(lambda: chosen(given, others))
