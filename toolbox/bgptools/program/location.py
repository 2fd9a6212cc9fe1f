"""Where the program is: the one place that knows."""
from __future__ import annotations

import os
import pathlib
import shutil
import subprocess
import threading
from typing import Dict, Optional

from .mistakes import Mistake
from .provenance import INSTALLED

# The folder of the package.
HERE = pathlib.Path(__file__).resolve().parent.parent
# The programs that launchers of repositories named, by launcher.
_chosen: Dict[str, str] = {}
_lock = threading.Lock()


def program() -> str:
    """The program's path: PROGRAM=, else the one that `./bgpsim` of the repository in which this package lies would
    run, else the one that was installed with this package, else `bgpsim` on the PATH.

    Where PROGRAM= or the PATH leads to the `./bgpsim` of a repository, it is the program which that would run. In a
    repository without a current program the quick one is built, once, with its progress on standard error. Mistake where
    there is no program, or none can be built."""
    launcher = _of_repository()
    named = os.environ.get("PROGRAM")
    if named and not (launcher and _is_same(named, launcher)):
        return _resolved(named)
    found = _of_launcher(launcher) if launcher else _installed() or shutil.which("bgpsim")
    if found is None:
        raise Mistake("there is no program `bgpsim` on the PATH: install its package, or name a program by PROGRAM=")
    return _resolved(found)


def _of_repository() -> Optional[str]:
    """`./bgpsim`, where this is toolbox/bgptools of a repository."""
    top = HERE.parent.parent
    return str(top / "bgpsim") if HERE.parent.name == "toolbox" and (top / "crates.txt").is_file() else None


def _resolved(path: str) -> str:
    """The program that the `./bgpsim` of a repository at this path would run; of another program the path itself."""
    real = pathlib.Path(os.path.realpath(path))
    is_launcher = os.sep in path and real.name == "bgpsim" and (real.parent / "crates.txt").is_file()
    return _of_launcher(str(real)) if is_launcher else path


def _is_same(one: str, other: str) -> bool:
    """Whether both paths lead to one file."""
    try:
        return os.path.samefile(one, other)
    except OSError:
        return False


def _of_launcher(launcher: str) -> str:
    """The program that a launcher would run. It is asked once in a process: a tool has one program throughout."""
    with _lock:
        if launcher not in _chosen:
            _chosen[launcher] = _asked(launcher)
        return _chosen[launcher]


def _asked(launcher: str) -> str:
    """Asks a launcher, which builds the program where it must, and tells that on standard error."""
    surroundings = {name: value for name, value in os.environ.items() if name != "PROGRAM"}
    try:
        ran = subprocess.run([launcher, "--which"], stdin=subprocess.DEVNULL, stdout=subprocess.PIPE, env=surroundings)
    except OSError as fault:
        raise Mistake("it cannot be run: %s" % fault.strerror, launcher) from None
    told = os.fsdecode(ran.stdout.rstrip(b"\n"))
    if ran.returncode or not told:
        raise Mistake(told or "no program was built, as told above", launcher)
    return told


def _installed() -> Optional[str]:
    """PREFIX/lib/bgpsim/bgpsim, where this is PREFIX/share/bgpsim/bgptools, as the package has it."""
    path = HERE.parent.parent.parent / INSTALLED
    return str(path) if HERE.parent.name == "bgpsim" and os.access(str(path), os.X_OK) else None
