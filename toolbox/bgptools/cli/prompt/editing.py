"""With whose keys a line is edited at the prompt: those of emacs or of vi.

BGPSIM_EDITING_MODE says it, else `set editing-mode` of the file of readline, which shells and Python obey, too:
$INPUTRC, ~/.inputrc or /etc/inputrc."""
from __future__ import annotations

import os
from typing import Iterable, List, Optional

from ...program.mistakes import Mistake

VARIABLE, MODES = "BGPSIM_EDITING_MODE", ("emacs", "vi")
# The name of this program in `$if`, and how deep files may include others.
PROGRAM, DEPTH = "bgpsim", 8


def is_vi() -> bool:
    """Whether the keys are those of vi. Raises Mistake if the variable has another word."""
    said = os.environ.get(VARIABLE)
    if said and said not in MODES:
        raise Mistake("%s=%s: one of %s is expected" % (VARIABLE, said, ", ".join(MODES)))
    return (said or mode_of(_file(), MODES[0])) == MODES[1]


def _file() -> str:
    """The file that readline reads."""
    own = os.path.expanduser("~/.inputrc")
    return os.environ.get("INPUTRC") or (own if os.path.exists(own) else "/etc/inputrc")


def mode_of(path: str, mode: str, depth: int = DEPTH) -> str:
    """The mode that a file leaves, which begins with this one. A file that cannot be read changes nothing."""
    try:
        with open(os.path.expanduser(path), encoding="utf-8", errors="replace") as lines:
            return _read(list(lines), mode, depth)
    except (OSError, ValueError):
        return mode


def _read(lines: Iterable[str], mode: str, depth: int) -> str:
    # Of each `$if` that is open, whether what follows counts.
    holds: List[bool] = []
    for words in (line.split() for line in lines):
        word = words[0].lower() if words else ""
        if word == "$if":
            holds.append(_holds(" ".join(words[1:]), mode))
        elif word == "$else" and holds:
            holds[-1] = not holds[-1]
        elif word == "$endif" and holds:
            holds.pop()
        elif word == "$include" and all(holds) and words[1:] and depth:
            mode = mode_of(words[1], mode, depth - 1)
        elif word == "set" and all(holds):
            mode = _set(words[1:]) or mode
    return mode


def _set(words: List[str]) -> Optional[str]:
    """The mode that `set` names; None if it sets something else."""
    name, value = (each.lower() for each in [*words, "", ""][:2])
    return next((mode for mode in MODES if name == "editing-mode" and value.startswith(mode)), None)


def _holds(test: str, mode: str) -> bool:
    """Whether the test of `$if` holds: `mode=vi`, `term=xterm` or a program's name. Others do not."""
    name, mark, value = test.partition("=")
    if not mark:
        return test.lower() == PROGRAM
    term = os.environ.get("TERM", "")
    return {"mode": value.lower() == mode, "term": value in (term, term.split("-")[0])}.get(name.lower(), False)
