"""Under which Python a tool runs: one that has the libraries that the call needs.

A launcher calls `restart` before the tool. If the running Python lacks a library, `restart` runs the tool under the
repository's `.venv`, which tools/setup makes. Without a `.venv` it takes the system's Python, if that has the packages.
What is missing everywhere the tool tells itself (`program/libraries.py`)."""
from __future__ import annotations

import os
import pathlib
import subprocess
import sys
from typing import List, Mapping, Optional, Sequence, Tuple

from ..program import libraries

# The Python that finds the packages of Debian, and how long it may take to look, in seconds.
SYSTEMS, PATIENCE = "/usr/bin/python3", 60
# How it looks: by these same functions.
ASKS = """
import sys
sys.path.insert(0, sys.argv[1])
from bgptools.program import libraries
sys.exit(any(map(libraries.fault, sys.argv[2:])))
"""
# The extra that each tool needs.
TOOLS: Mapping[str, str] = {"lab": "lab", "play": "prompt", "join": "prompt", "draw": "pictures", "sweep": "cluster"}
# Tools that need it for a prompt alone: to read and to print they need Python alone.
AT_TERMINAL = ("play", "join")
# Tools that need it with these options alone.
OPTIONS: Mapping[str, Tuple[str, ...]] = {"draw": ("-o", "--steps"), "sweep": ("--scheduler",)}


def restart(tool: str, called: List[str], words: List[str]) -> None:
    """Replaces this process by `PYTHON CALLED WORDS` if a library of the tool is missing here, and the call needs it.

    PYTHON is that of the repository's `.venv`, or without one the system's. Does nothing if no library is missing, if
    these tools lie in no repository, or if this is that Python."""
    names = libraries.EXTRAS[TOOLS[tool]] if tool in TOOLS and _is_needed(tool, words) else ()
    if libraries.repository() and any(map(libraries.fault, names)):
        python = _environment() or _systems(names)
        if python:
            sys.stdout.flush()
            os.execv(python, [python, *(["-B"] if sys.dont_write_bytecode else []), *called, *words])


def _is_needed(tool: str, words: Sequence[str]) -> bool:
    """Whether a call of the tool uses the libraries of its extra."""
    if tool in AT_TERMINAL:
        return os.isatty(0) and os.isatty(1)
    return tool not in OPTIONS or any(_is_option(word, option) for word in words for option in OPTIONS[tool])


def _is_option(word: str, option: str) -> bool:
    """Whether a word is an option, as argparse takes it: with its value behind it, or not spelled to its end."""
    if option.startswith("--"):
        return len(word) > 2 and option.startswith(word.partition("=")[0])
    return word.startswith(option)


def _environment() -> Optional[str]:
    """The Python of the repository's `.venv`, if there is one and it is not the running one."""
    top = libraries.repository()
    if top is None or pathlib.Path(sys.prefix) == top / ".venv":
        return None
    python = top / ".venv" / "bin" / "python"
    return str(python) if os.access(str(python), os.X_OK) else None


def _systems(names: Sequence[str]) -> Optional[str]:
    """The system's Python, if these libraries will do there; None under the `.venv`."""
    top = libraries.repository()
    if top is None or pathlib.Path(sys.prefix) == top / ".venv":
        return None
    try:
        ran = subprocess.run([SYSTEMS, "-B", "-c", ASKS, str(libraries.HERE.parent), *names], stdin=subprocess.DEVNULL,
                             stdout=subprocess.DEVNULL, stderr=subprocess.DEVNULL, timeout=PATIENCE)
    except (OSError, subprocess.TimeoutExpired):
        return None
    return SYSTEMS if ran.returncode == 0 else None
