"""The prompt of `play` on a network that several share: who changes what, workers, proposals, and a proved log."""
from __future__ import annotations

import argparse
import getpass
import io
import sys
from typing import Callable, List, Optional

from ..program.language import words_of
from ..program.mistakes import Mistake
from .prompt.completion import Completion
from .prompt.local import Reader, need_terminal, read_lines
from .prompt.shared import WORDS, SharedPrompt


def parser() -> argparse.ArgumentParser:
    """The words of the command line."""
    made = argparse.ArgumentParser(prog="join", description=(
        "Joins the network that a `share` holds: a prompt, or the lines of standard input where that is no terminal. "
        "`?` lists what can be typed there."),
        epilog="Exit status: 0 at the end of input; 2 a mistake, or the share has gone.")
    made.add_argument("socket", metavar="SOCKET", help="the socket of the share, as its --at has it")
    made.add_argument("--as", dest="name", metavar="NAME", help=(
        "the name under which others see you; the same name has the same seat again (the user's name)"))
    return made


def _name(given: Optional[str]) -> str:
    """The name that was given, or the user's."""
    if given is not None:
        return given
    try:
        return getpass.getuser()
    except (KeyError, OSError):
        raise Mistake("the user has no name: give one by --as NAME") from None


def _given(shown: str) -> Optional[str]:
    """A line of standard input, which is shown behind the prompt; nothing at the end."""
    line = sys.stdin.buffer.readline()
    if not line:
        return None
    text = (line[:-1] if line.endswith(b"\n") else line).decode("latin-1")
    if words_of(text)[:1] in (["quit"], ["exit"]):
        return None
    print(shown + text.encode("latin-1").decode("utf-8", "backslashreplace"))
    return text


def main(words: Optional[List[str]] = None) -> int:
    """The tool."""
    chosen = parser().parse_args(words)
    name = _name(chosen.name)
    shown, is_terminal = name + "> ", sys.stdin.isatty()
    if isinstance(sys.stdin, io.TextIOWrapper):
        sys.stdin.reconfigure(errors="surrogateescape")
    if is_terminal:
        need_terminal()
    typed = SharedPrompt(chosen.socket, name)
    if typed.distant.untold:
        print("the token of %s cannot be kept, so the name cannot be entered again: %s" % (name, typed.distant.untold),
              file=sys.stderr)
    if is_terminal:
        print("joined at seat %d: `?` lists the commands, `quit` ends." % typed.distant.seat)
        _read_typed(typed, Reader(shown, Completion(WORDS, typed.fresh, typed.waiting)))
    else:
        read_lines(typed, lambda: _shown_between(typed, lambda: _given(shown)))
    typed.distant.close()
    return 0


def _read_typed(typed: SharedPrompt, reader: Reader) -> None:
    """Takes lines as they are typed at a terminal, with events above them."""
    typed.suggests = sys.stdout.isatty()
    typed.shown.above = reader.terminal.above if reader.terminal else None
    read_lines(typed, lambda: _shown_between(typed, reader.line))
    reader.close()


def _shown_between(typed: SharedPrompt, next_line: Callable[[], Optional[str]]) -> Optional[str]:
    """A line; what happens before it is typed, or while it is, is shown."""
    typed.shown.begin()
    try:
        return next_line()
    finally:
        typed.shown.end()
