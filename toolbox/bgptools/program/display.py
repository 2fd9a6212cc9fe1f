"""What a tool adds for a reader at a terminal, by the library rich: colours, and a bar for long work.

If rich is missing, with NO_COLOR, or if the stream is no terminal, a tool writes plain text. What `show` colours has
the characters of that text, and what sets colours."""
from __future__ import annotations

import functools
import os
import sys
from typing import IO, TYPE_CHECKING, Any, Optional, cast

from . import output
from .language import escaped

if TYPE_CHECKING:
    from rich.console import Console
    from rich.progress import Progress
    from rich.text import Text

# The styles of parts of a line, each with what has it. The colours are those that every terminal with colours has.
STYLES = (
    ("bold", r"(?m)^[A-Z][A-Za-z -]*$|^Router .*$|^State [0-9]+(?=:)"),
    ("red", r"(?m)^New (?:loops|black holes)$|^ +refused [0-9]+ [a-z-]+|\b(?:IT )?DOES NOT [A-Z]+|^  lost\b"
            r"|(?<= )excluded \([a-z-]+\)"),
    ("green", r"(?m)^  gained\b|(?<= )chosen$"),
    ("yellow", r"(?m)^ {2,4}(?:moved|changed)\b|(?<= )lost by [A-Za-z_ ]+(?=:)"),
    ("dim", r"(?m)^ +-- .*$"))
# Terminals of which nothing is known but that they show characters.
DUMB = ("", "dumb", "unknown")


class Raw:
    """A terminal under a stream that escapes what would steer it: here that passes."""

    def __init__(self, over: Any) -> None:
        self.over, self.encoding = over, over.encoding

    def write(self, text: str) -> int:
        """Writes the text as it is, behind what was written before."""
        self.over.flush()
        self.over.buffer.write(text.encode(self.encoding, "backslashreplace"))
        return len(text)

    def flush(self) -> None:
        """Sends what was written on its way."""
        self.over.buffer.flush()

    def isatty(self) -> bool:
        """Whether it is a terminal."""
        return bool(self.over.isatty())

    def fileno(self) -> int:
        """The number of the file, which knows its width."""
        return int(self.over.fileno())


def console(stream: IO[str]) -> "Optional[Console]":
    """The console of a stream; None where plain text is to be written."""
    return None if os.environ.get("NO_COLOR") else _console(stream)


def bar() -> "Optional[Progress]":
    """A bar on standard error, with how many tasks are done and how long the others take; None where there is to be none."""
    made = _console(sys.stderr)
    if made is None:
        return None
    from rich.progress import BarColumn, MofNCompleteColumn, Progress, TextColumn, TimeRemainingColumn
    # No thread draws it: processes that work are forked meanwhile.
    return Progress(BarColumn(24), MofNCompleteColumn(), TimeRemainingColumn(), TextColumn("left"), console=made,
                    auto_refresh=False, transient=True, redirect_stdout=False, redirect_stderr=False)


def show(text: str) -> None:
    """Writes text to standard output, at a terminal in colours."""
    made = console(sys.stdout)
    if made is None:
        sys.stdout.write(text)
    else:
        made.file.write(coloured(escaped(text, "\n\t"), made))
        made.file.flush()


def write(text: str, path: Optional[str]) -> None:
    """Writes text to the file, or to standard output: at a terminal in colours, else byte by byte."""
    if path in output.STANDARD and console(sys.stdout):
        show(text)
    else:
        output.write(text, path)


def coloured(text: str, made: "Console") -> str:
    """The text with what sets its colours."""
    from rich.color import ColorSystem
    told = []
    for part in _styled(text).render(made):
        told.append(part.style.render(part.text, color_system=ColorSystem.STANDARD) if part.style else part.text)
    return "".join(told)


def _styled(text: str) -> "Text":
    from rich.text import Text
    made = Text(text, end="")
    for style, pattern in STYLES:
        made.highlight_regex(pattern, style)
    return made


@functools.lru_cache(maxsize=2)
def _console(stream: IO[str]) -> "Optional[Console]":
    if not stream.isatty() or os.environ.get("TERM", "") in DUMB:
        return None
    try:
        from rich.console import Console
    except ImportError:
        return None
    return Console(file=cast(IO[str], Raw(stream)), no_color=bool(os.environ.get("NO_COLOR")), highlight=False, markup=False,
                   emoji=False)
