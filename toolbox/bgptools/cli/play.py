"""Plays a script: each command with its line number and its replies, and each refusal in a sentence. Without a script, a prompt."""
from __future__ import annotations

import argparse
import sys
from typing import List, Optional

from ..convergence.delivery import Convergence
from ..convergence.run import Run
from ..convergence.transcript import kept_back, tell, tell_convergence
from ..network.refusals import sentence
from ..program import display
from ..program.language import readable
from ..program.line_count import check_length
from ..program.mistakes import CHANGED, Mistake
from ..program.replies import refusal
from ..program.script import Line, read
from .prompt.local import prompt

PAD = " " * 8


class Counts:
    """How many commands there were, and how they were answered."""

    def __init__(self) -> None:
        self.commands = self.refused = self.expected = self.missing = 0

    def __str__(self) -> str:
        told = "%d commands, %d refused" % (self.commands, self.refused)
        if self.refused:
            told += " (%s)" % ("as expected" if self.expected == self.refused else "%d of them expected" % self.expected)
        return told + (", %d not refused where it was expected" % self.missing if self.missing else "")

    def take(self, line: Line, reply: List[str]) -> None:
        """Counts a command, and how it was answered."""
        number = refusal(reply)
        self.commands += line.is_command
        self.refused += number > 0
        self.expected += number > 0 and line.expected in (0, number)
        self.missing += not number and line.expected is not None and line.is_command

    @property
    def is_as_expected(self) -> bool:
        return self.refused == self.expected and not self.missing


def show(line: Line, reply: List[str], run: Run) -> None:
    """Prints a line of the script with its replies."""
    if not line.is_command:
        display.show((PAD[:6] + readable(line.text).strip(" ")).rstrip(" ") + "\n")
        return
    display.show("%4d  %s\n" % (line.number, readable(line.text)))
    tell(PAD, reply + kept_back(run, line.words, reply), run.network.names)


def explain(line: Line, reply: List[str], run: Run) -> None:
    """Tells why a command was refused, or that it was to be."""
    number = refusal(reply)
    if number:
        is_expected = line.expected in (0, number)
        tell(PAD, ["-- %s%s" % (sentence(line.text, number, run.network), " (expected)" if is_expected else "")], run.network.names)
    elif line.expected is not None and line.is_command:
        display.show(PAD + "-- it was expected to be refused\n")


def tell_as_json(line: Line, reply: List[str], run: Run, done: Optional[Convergence]) -> None:
    """Prints the reply to a command as a line of JSON. What makes it is imported here: a script as text needs none."""
    from ..api import documents
    if line.is_command:
        sys.stdout.write(documents.line_of(documents.reply(line, reply, run.network, done)))


def play(lines: List[Line], does_converge: bool, most: Optional[int], is_json: bool = False) -> int:
    """Plays the lines; 1 where one was refused that was not expected to be, or the network does not converge."""
    counts, is_converged = Counts(), True
    check_length(len(lines), lines[0].file if lines else None)
    with Run(most=most, tries_others=True) as run:
        for line in lines:
            reply = run.say(line.text)
            counts.take(line, reply)
            if not is_json:
                show(line, reply, run)
                explain(line, reply, run)
            done = run.converge() if does_converge and is_converged else None
            is_converged = is_converged and (done is None or done.is_converged)
            if is_json:
                tell_as_json(line, reply, run, done)
            elif done:
                tell_convergence(PAD, done, run.network.names)
    if not is_json:
        print(counts)
    return 0 if counts.is_as_expected and is_converged else CHANGED


def parser() -> argparse.ArgumentParser:
    """The words of the command line."""
    made = argparse.ArgumentParser(prog="play", description=(
        "Plays a script: each command with its line number, its replies under it, and each refusal explained. "
        "Without SCRIPT, at a terminal, a prompt: `?` lists what can be typed there."),
        epilog="A command that is meant to be refused has the comment `# expect refused` (or `# expect refused 13`) in the line before "
               "it, or behind it. Exit status: 0; 1 where a command was refused that is not marked so, or one that is marked was not, or the "
               "network does not converge; 2 a mistake. Of every tool: 4 where standard output cannot be written, 141 where its reader has "
               "gone, 130 where it was stopped by Ctrl-C.")
    made.add_argument("script", nargs="?", metavar="SCRIPT", help="the script; - is standard input")
    made.add_argument("--converge", action="store_true", help="after each command, deliver until all queues are empty")
    made.add_argument("--most", type=int, metavar="N", help=(
        "a converge stops after so many deliveries (ten thousand and more, by the size of the network)"))
    made.add_argument("--json", action="store_true", help="print each reply as a line of JSON, and nothing else")
    made.add_argument("--restore", nargs="?", const="", metavar="FILE", help=(
        "a prompt that takes up the work of one that ended early, as by a crash: of the newest, or the one in this file"))
    return made


def main(words: Optional[List[str]] = None) -> int:
    """The tool."""
    chosen = parser().parse_args(words)
    if chosen.restore is not None and (chosen.script is not None or not sys.stdin.isatty()):
        raise Mistake("--restore is for a prompt: at a terminal, and without SCRIPT")
    if chosen.json and chosen.script is None and sys.stdin.isatty():
        raise Mistake("--json is for a script; `play --json -` reads one here")
    if chosen.script is None and sys.stdin.isatty():
        return prompt(chosen.most, chosen.restore)
    return play(read(chosen.script or "-"), chosen.converge, chosen.most, chosen.json)
