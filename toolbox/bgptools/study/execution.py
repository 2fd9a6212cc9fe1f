"""Runs the commands of a study in a folder of their own, and takes what they write; logs of their networks, replayed."""
from __future__ import annotations

import os
import subprocess
import sys
import tempfile
from typing import Dict, List, NamedTuple, Optional, Set, Tuple

from ..convergence.orders import Order
from ..convergence.run import Run
from ..program import location
from ..program.language import is_silent, words_of
from ..program.mistakes import Mistake
from ..program.process import Program
from ..program.progress import Clock
from ..program.script import read
from ..session.log import HEADER, Entry, text_of
from ..session.replay import verdict
from .commands import Command
from .definition import Study

# A tool in a Python that finds no module in the study's folder.
RUNS = """import sys
sys.path.insert(0, sys.argv.pop(1))
from bgptools.cli.tools import run
from bgptools.program.mistakes import ended
sys.exit(ended(lambda words: run(words[0], words[0], words[1:])))"""
# What a tool gets of the surroundings.
KEPT = ("PATH", "HOME", "TMPDIR")


# Scripts that were played one after another, and in which order messages were delivered.
Played = Tuple[Tuple[str, ...], str]


class Result(NamedTuple):
    """What a run of a study makes: the status of each command, and files, by their paths in the archive."""
    statuses: List[int]
    files: Dict[str, bytes]


def result_of(study: Study, inputs: Dict[str, bytes]) -> Result:
    """Runs a study on its inputs. Mistake where a file that is to be written is missing afterwards."""
    statuses, files = [], {}  # type: List[int], Dict[str, bytes]
    logged: Set[Played] = set()
    clock = Clock(len(study.commands), 0)
    with tempfile.TemporaryDirectory(prefix="bgpsim-study-") as folder:
        try:
            _fill(folder, inputs)
            for number, command in enumerate(study.commands, 1):
                name = "%d-%s" % (number, command.tool)
                statuses.append(_run(command, folder, name, files))
                files.update(_logs(command, folder, name, logged))
                clock.tell()
        finally:
            clock.end()
    return Result(statuses, files)


def _fill(folder: str, inputs: Dict[str, bytes]) -> None:
    """Writes the inputs. (Their paths are plain.)"""
    for path, content in inputs.items():
        _make_folder(folder, path)
        with open(os.path.join(folder, path), "xb") as file:
            file.write(content)


def _make_folder(folder: str, path: str) -> None:
    """The folder of a file. Mistake where a file has its place, or the disk is full."""
    try:
        os.makedirs(os.path.dirname(os.path.join(folder, path)), exist_ok=True)
    except OSError as error:
        raise Mistake("`%s` has no place: %s" % (path, error.strerror)) from None


def _run(command: Command, folder: str, name: str, files: Dict[str, bytes]) -> int:
    """Runs a command, and takes its outputs; its exit status."""
    for path in command.writes:
        _make_folder(folder, path)
    surroundings = {each: os.environ[each] for each in KEPT if each in os.environ}
    surroundings.update(PROGRAM=os.path.abspath(location.program()), LC_ALL="C.UTF-8", NO_COLOR="1")
    called = [sys.executable, "-I", "-B", "-c", RUNS, str(location.HERE.parent), command.tool, *command.words]
    ran = subprocess.run(called, cwd=folder, env=surroundings, stdin=subprocess.DEVNULL, stdout=subprocess.PIPE,
                         stderr=subprocess.PIPE)
    for ending, content in (("out", ran.stdout), ("err", ran.stderr)):
        if content:
            files["results/%s.%s" % (name, ending)] = content
    for path in command.writes:
        whole = os.path.join(folder, path)
        if os.path.isfile(whole):
            with open(whole, "rb") as file:
                files["outputs/" + path] = file.read()
    return ran.returncode


def _logs(command: Command, folder: str, name: str, logged: Set[Played]) -> Dict[str, bytes]:
    """The log of the network that a command converges, and what `replay` says of it; nothing where it is there."""
    order = command.order()
    if not command.plays or order is None or (tuple(command.plays), order.words) in logged:
        return {}
    logged.add((tuple(command.plays), order.words))
    try:
        lines = _lines([os.path.join(folder, path) for path in command.plays], order, getattr(command.chosen, "most", None))
    except Mistake:
        # The command has told it.
        return {}
    with Program() as program:
        entries = [Entry(0, line, reply) for line, reply in zip(lines, program.say_all(lines))]
    content, end = (HEADER + "\n").encode() + text_of(entries), b"end %d\n" % len(entries)
    with tempfile.NamedTemporaryFile(prefix="bgpsim-log-") as file:
        file.write(content)
        file.flush()
        said = verdict(file.name, len(content), end)
    return {"logs/%s.log" % name: content + end, "logs/%s.replay" % name: (said + "\n").encode("latin-1")}


def _lines(scripts: List[str], order: Order, most: Optional[int]) -> List[str]:
    """The commands of scripts that are accepted, with the deliveries of an order after which no message waits."""
    with Run(order, most, tries_others=True) as run:
        for path in scripts:
            run.play(read(path))
            run.converge()
        return [" ".join(words_of(line)) for line in run.lines if not is_silent(line)]
