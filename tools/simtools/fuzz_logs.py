"""Fuzzing of logs: compares what `bgpsim replay` finds in malformed ones with what the test oracle does.

    tools/fuzz-logs [--logs N] [--seed S]    N logs (300): of each random script, of the seeds from S (1) on, the log
                                             of version 2 and of version 1, or one under the header of the other, a
                                             dozen times with a byte, a line or a block of lines changed, put in,
                                             left out, swapped or moved; in half of them the number behind `end` is
                                             made right

The last line is `N passed, M failed`, a log being one; a part of the gate. PROGRAM= is another program than
crates/bgpsim/out/bgpsim.
"""
from __future__ import annotations

import random
import re
from typing import Callable, List, Sequence

from . import commands, logs, programs, random_scripts
from .running import side_by_side

LOGS_OF_A_SEED = 12
# Lines of a script before its questions, so many that most kinds of replies stand in the log.
LINES = 30
BYTES = "\n\r =@#-.,/0129 \x00\t\x7f\xffabc"
LINES_MORE = ("", " ", "=", "= ", "= ok", "= end 0", "= end 1", "= yes", "= no", "= refused 1 syntax",
              "= refused 20 memory", "@0 quiet", "@00 quiet", "@256 quiet", "@0  quiet", "@0 # x", "@1 quiet\r",
              "@0 router 1.0.0.1 1", "@0 med 1.0.0.1 always", "@0 deliver 1.0.0.1 2.0.0.1", "end", "end 0",
              "end 01", "#", "bgpsim log 1", "bgpsim log 2", "@0 " + 4_089 * " " + "quiet", "@0 quiet" + 4_090 * " ",
              "@0 routes 1.0.0.1 " + 4_096 * "1", "= " + 70_000 * "x")
Lines = List[str]
Change = Callable[[random.Random, Lines], Lines]


def a_byte(draw: random.Random, lines: Lines) -> Lines:
    """A byte is changed, put in, left out, or swapped with the next one."""
    text = "\n".join(lines)
    at, byte = draw.randrange(len(text)), draw.choice(BYTES)
    first, rest = text[:at], text[at + 1:]
    return draw.choice((first + byte + rest, first + byte + text[at:], first + rest,
                        first + rest[:1] + text[at] + rest[1:])).split("\n")


def a_line(draw: random.Random, lines: Lines) -> Lines:
    """A line is changed to another one, put in, left out, or swapped with one that stands anywhere."""
    at, other = draw.randrange(len(lines)), draw.randrange(len(lines))
    more = draw.choice((draw.choice(LINES_MORE), lines[other]))
    swapped = list(lines)
    swapped[at], swapped[other] = swapped[other], swapped[at]
    return draw.choice((lines[:at] + [more] + lines[at + 1:], lines[:at] + [more] + lines[at:],
                        lines[:at] + lines[at + 1:], swapped))


def a_block(draw: random.Random, lines: Lines) -> Lines:
    """Some lines are left out, told twice, turned round, moved, or swapped with those behind them; mostly whole
    calls."""
    are_whole = draw.random() < 0.8
    places = [n for n, line in enumerate(lines) if not (are_whole and line.startswith("= "))] or [0]
    first, last, end = sorted(draw.choice(places) for _ in range(3))
    some, more, rest = lines[first:last], lines[last:end], lines[end:]
    return lines[:first] + draw.choice((more, some + some + more, some[::-1] + more, more + some)) + rest


def a_value(draw: random.Random, lines: Lines) -> Lines:
    """A word of a line is changed to one that stands elsewhere in the log, or a number in it to its neighbour."""
    at = draw.randrange(len(lines))
    words = lines[at].split(" ")
    other = draw.choice(draw.choice(lines).split(" "))
    place = draw.randrange(len(words))
    near = re.sub("[0-9]+", lambda found: str(int(found[0][:9]) + draw.choice((-1, 1))), words[place], count=1)
    words[place] = draw.choice((other, near))
    return lines[:at] + [" ".join(words)] + lines[at + 1:]


def an_end(draw: random.Random, lines: Lines) -> Lines:
    """What follows a place is left out: a line feed, a line or more."""
    text = "\n".join(lines)
    return text[:draw.choice((len(text) - 1, draw.randrange(len(text))))].split("\n")


CHANGES: Sequence[Change] = (a_byte, a_byte, a_line, a_line, a_block, a_block, a_value, a_value, an_end)


def counted(lines: Lines) -> Lines:
    """The lines with the number of calls behind `end`, where the last line but one says so."""
    if len(lines) > 1 and lines[-2].startswith("end "):
        return lines[:-2] + ["end %d" % sum(line.startswith("@") for line in lines)] + lines[-1:]
    return lines


def fuzzed(draw: random.Random, log: str) -> str:
    """The log with a change, now and then with two."""
    lines = log.split("\n")
    for _ in range(draw.choice((1, 1, 1, 2))):
        lines = draw.choice(CHANGES)(draw, lines) or [""]
    return "\n".join(counted(lines) if draw.random() < 0.5 else lines)


def fuzzed_of(seed: int) -> List[str]:
    """The logs of a seed."""
    draw = random.Random(seed)
    script, seats = random_scripts.script(seed, LINES), draw.choice((1, 3, 256))
    newest = logs.log_of(script, seats)
    made = (newest, logs.log_of(script, seats, 1), logs.under(newest, 1))
    return [fuzzed(draw, draw.choice(made)) for _ in range(LOGS_OF_A_SEED)]


def compare(seed: int) -> List[str]:
    """Of each log of the seed, what is wrong with what it is found to be: nothing, or a line."""
    found = [(logs.replayed(one), logs.verdict(one)) for one in fuzzed_of(seed)]
    return ["" if got == want else "seed %d, log %d: %s, and by the model %s" % (seed, n, got, want)
            for n, (got, want) in enumerate(found)]


def try_logs(count: int, first: int) -> int:
    programs.bgpsim()
    failed = 0
    seeds = range(first, first + -(-count // LOGS_OF_A_SEED))
    for wrong in filter(None, (line for told in side_by_side(compare, seeds) for line in told)):
        failed += 1
        print("FAILED " + wrong, flush=True)
    return commands.counted(len(seeds) * LOGS_OF_A_SEED - failed, failed)


def main(words: Sequence[str]) -> int:
    """The command."""
    asked = commands.parser(__doc__)
    asked.add_argument("--logs", type=commands.number, default=300, metavar="N")
    asked.add_argument("--seed", type=int, default=1, metavar="S")
    given = asked.parse_args(words)
    return commands.as_part(lambda: try_logs(given.logs, given.seed))
