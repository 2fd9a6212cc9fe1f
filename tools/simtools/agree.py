"""Compares the machines with one another and with the model, on random scripts.

    tools/agree [--igp | --converge] [--scripts N] [--seed S]    N scripts (100), of the seeds from S (1) on

Each script of tools/random-scripts, or with --igp of tools/random-igp, is given to tools/model.py and
to machine_scripts, which has to be built, on each of its machines; what each writes and ends with has to be what
the model does. With --converge each is one of `tools/random-scripts --converge`, for `bgpsim converge` alone.
For each script that differs, it prints the first line that is answered otherwise, with both answers.
The last line is `N scripts, M lines, K differ`; exit 1 where one differs. PROGRAM= is another program, which is
then compared alone.
"""
from __future__ import annotations

import functools
import subprocess
from typing import Any, List, Sequence, Tuple

from . import commands, converge_scripts, programs, random_igp, random_scripts
from .programs import MODEL
from .running import PATIENCE, Ran, run, side_by_side

Words = Tuple[str, ...]
# The subcommand with lines of its own, of bgpsim as of the model.
CONVERGE = "converge"


def compared(generator: Any) -> List[Words]:
    """What is compared with the model: the words of each. Missing where it is not there."""
    if generator is converge_scripts:
        return [(programs.bgpsim(), CONVERGE)]
    if programs.is_chosen():
        return [(programs.bgpsim(), "script")]
    return [(programs.machine_scripts(), machine) for machine in programs.MACHINES]


def model_for(words: Words) -> Words:
    """The words of the model that plays the scripts which these play."""
    return MODEL + (words[-1:] if words[-1] == CONVERGE else ())


def played(words: Words, lines: List[bytes]) -> Ran:
    return run(words, b"".join(lines))


def first_difference(words: Words, lines: List[bytes]) -> int:
    """The number of the first line that the program answers otherwise than the model."""
    by_model = model_for(words)
    alike, differs = 0, len(lines)
    while differs - alike > 1:
        middle = (alike + differs) // 2
        if played(words, lines[:middle]) == played(by_model, lines[:middle]):
            alike = middle
        else:
            differs = middle
    return differs


def answer(who: str, words: Words, lines: List[bytes], earlier: int) -> List[str]:
    """What is reported of the answer to the last line."""
    ran = played(words, lines)
    said = ["    %s: %s" % (who, ascii(ran.out[earlier:].decode("latin-1"))[:600])]
    if ran.status or ran.err:
        said.append("        status %d, %s" % (ran.status, ascii(ran.err.decode("latin-1"))[:160]))
    return said


def account(name: str, words: Words, lines: List[bytes]) -> str:
    """What is reported of a script that differs."""
    number, by_model = first_difference(words, lines), model_for(words)
    earlier = len(played(by_model, lines[:number - 1]).out)
    line = lines[number - 1].decode("latin-1").rstrip("\n")[:160]
    said = ["%s, line %d: %s" % (name, number, line)]
    said += answer("model", by_model, lines[:number], earlier) + answer(words[-1], words, lines[:number], earlier)
    return "\n".join(said)


def compare(against: List[Words], generator: Any, seed: int) -> Tuple[int, List[str]]:
    """How many lines the seed's script has, and what is reported of it."""
    lines = [line + b"\n" for line in generator.script(seed).encode("latin-1").split(b"\n")[:-1]]
    want, told = played(model_for(against[0]), lines), []
    for words in against:
        try:
            if played(words, lines) != want:
                told.append(account("seed %d, %s" % (seed, words[-1]), words, lines))
        except subprocess.TimeoutExpired:
            told.append("seed %d, %s: not ended after %d seconds" % (seed, words[-1], PATIENCE))
    return len(lines), told


def agree(generator: Any, seeds: range) -> int:
    lines = differ = 0
    for count, told in side_by_side(functools.partial(compare, compared(generator), generator), seeds):
        lines += count
        differ += bool(told)
        print("".join(one + "\n" for one in told), end="", flush=True)
    print("%d scripts, %d lines, %d differ" % (len(seeds), lines, differ))
    return 1 if differ or not seeds else 0


def main(words: Sequence[str]) -> int:
    """The command."""
    asked = commands.parser(__doc__)
    kind = asked.add_mutually_exclusive_group()
    kind.set_defaults(generator=random_scripts)
    kind.add_argument("--igp", action="store_const", const=random_igp, dest="generator")
    kind.add_argument("--converge", action="store_const", const=converge_scripts, dest="generator")
    asked.add_argument("--scripts", type=commands.number, default=100, metavar="N")
    asked.add_argument("--seed", type=int, default=1, metavar="S")
    given = asked.parse_args(words)
    return agree(given.generator, range(given.seed, given.seed + given.scripts))
