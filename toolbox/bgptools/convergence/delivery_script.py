"""A script with the deliveries that empty all queues, made of one without."""
from __future__ import annotations

import sys
from typing import Iterable, List, Optional, Tuple

from ..program.line_count import check_length
from ..program.replies import refusal
from ..program.script import MARK, Line
from .delivery import Convergence
from .run import Run, is_delivery, converged_otherwise

EMPTY = 17


class DeliveryScript:
    """The script that is made, and what was left out of the one that was given."""

    def __init__(self, lines: Iterable[str] = ()) -> None:
        self.lines: List[str] = list(lines)
        self.left_out = 0

    def take(self, line: Line) -> None:
        """Writes a line; a mark that stood behind a command, where the program has no comment, in a line before it."""
        if line.is_command and line.expected is not None and not self._is_marked():
            self.lines.append("# expect refused" + (" %d" % line.expected if line.expected else ""))
        self.lines.append(line.text)

    def _is_marked(self) -> bool:
        said = next((text for text in reversed(self.lines) if text.strip(" ")), "")
        return bool(MARK.fullmatch(said))


def _is_left_out(line: Line, reply: List[str]) -> bool:
    return is_delivery(line.text) and refusal(reply) == EMPTY and line.expected is None


def converged(run: Run, lines: List[Line], is_at_end: bool,
              before: Iterable[str] = ()) -> Tuple[DeliveryScript, Optional[Convergence]]:
    """The lines with deliveries behind each command or at the end; and the deliveries that did not end, if there are such.
    `before` is what was written of the lines before these, which the run was given."""
    written = DeliveryScript(before)
    check_length(len(lines), lines[0].file if lines else None)
    for left, line in zip(range(len(lines), 0, -1), lines):
        reply = run.say(line.text)
        if not is_at_end and _is_left_out(line, reply):
            written.left_out += 1
            continue
        run.check(line, reply)
        written.take(line)
        if line is lines[-1] or line.is_command and not is_at_end:
            done = run.converge()
            written.lines += ["deliver %s %s" % way for way in done.deliveries]
            if not done.is_converged:
                return written, done
            _tell_order(run, done, line)
        check_length(len(written.lines) + left - 1, line.file, "with the deliveries up to line %d" % line.number)
    return written, None


def _tell_order(run: Run, done: Convergence, line: Line) -> None:
    """Tells where another order than the one that was asked for was needed."""
    if done.first:
        print("%s:%d: %s" % (line.file, line.number, converged_otherwise(done, run.network.names)), file=sys.stderr)
