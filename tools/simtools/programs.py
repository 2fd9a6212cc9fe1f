"""Where the programs are that the commands run: the one place that knows."""
from __future__ import annotations

import os
import pathlib
import subprocess
import sys
from typing import Sequence

from .commands import Missing

TOP = pathlib.Path(__file__).resolve().parent.parent.parent
# The words that run the second machine, which stands alone: nothing here is a part of it.
MODEL = (sys.executable, str(TOP / "tools" / "model.py"))
# The machines that machine_scripts serves a script by.
MACHINES = ("plain", "sorted", "trie")
# And what has it take lines as calls of a room.
ROOM = "room"
MACHINE_SCRIPTS = TOP / "crates" / "machine_scripts" / "out" / "machine_scripts"


def is_chosen() -> bool:
    """Whether PROGRAM= names a program, which is then run in place of this repository's."""
    return bool(os.environ.get("PROGRAM"))


def bgpsim() -> str:
    """The path of the program: PROGRAM=, else what was built of crates/bgpsim. Missing where it is not there."""
    if is_chosen():
        return _found(os.environ["PROGRAM"], "PROGRAM= names it")
    remedy = "./bgpsim --prove builds it; PROGRAM=$(./bgpsim --which) takes the quick one"
    return _found(str(TOP / "crates" / "bgpsim" / "out" / "bgpsim"), remedy)


def current_bgpsim() -> str:
    """The same; a PROGRAM= is taken as it is. Missing where the program is there and was built of other files."""
    path = bgpsim()
    if not is_chosen():
        words = [sys.executable, "-B", str(TOP / "tools" / "build"), "--is-current", "proved"]
        if subprocess.run(words, stdin=subprocess.DEVNULL).returncode:
            raise Missing("%s was built of other files than are here: ./bgpsim --prove builds it" % path)
    return path


def machine_scripts() -> str:
    """The path of the program that gives a script to the machines. Missing where it is not there."""
    return _found(str(MACHINE_SCRIPTS), "rt run in its crate builds it")


def has_machine_scripts() -> bool:
    """Whether that program was built."""
    return _is_program(str(MACHINE_SCRIPTS))


def machines() -> Sequence[str]:
    """The machines that scripts are given to beside the program: none for a PROGRAM=, or where machine_scripts was not
    built; with MACHINES=1 it is Missing then."""
    if is_chosen() or not (os.environ.get("MACHINES") or has_machine_scripts()):
        return ()
    machine_scripts()
    return MACHINES


def _is_program(path: str) -> bool:
    return os.path.isfile(path) and os.access(path, os.X_OK)


def _found(path: str, remedy: str) -> str:
    whole = os.path.abspath(path)
    if not _is_program(whole):
        raise Missing("there is no program %s: %s" % (whole, remedy))
    return whole
