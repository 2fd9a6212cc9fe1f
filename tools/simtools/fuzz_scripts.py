"""Fuzzing of scripts: compares the replies to malformed scripts with those of the test oracle, line by line.

    tools/fuzz-scripts [--scripts N] [--seed S]    of each of N seeds (30), from S (1) on: a random script, each of
                                                   its commands followed by a copy that one byte is changed in, put
                                                   into or left out of; a network that then gets a command of each
                                                   form cut at each place; and lines of random bytes and words, with
                                                   NULs, carriage returns and UTF-8. The same of scripts for
                                                   `bgpsim converge`, which answers four lines more. Then lines of
                                                   4,096, 4,097, 65,536 and 65,537 bytes that begin or end about
                                                   each place where a buffer may

The last line is `N passed, M failed`, a script being one; a part of the gate. Of a script that differs it prints
the first line that is answered otherwise. PROGRAM= is another program than crates/bgpsim/out/bgpsim.
"""
from __future__ import annotations

import itertools
import random
from typing import Any, Callable, Dict, Iterator, List, NamedTuple, Optional, Sequence, Tuple

import model

from . import agree, commands, converge_scripts, programs, random_scripts
from .agree import CONVERGE
from .programs import TOP
from .running import Ran, run, side_by_side

# A line is put about each multiple of a buffer's size.
EDGES = (4_096, 8_192, 16_384, 32_768, 65_536, 131_072)
NEAR = (-2, -1, 0, 1, 2)
LENGTHS = (4_096, 4_097, 65_536, 65_537)
LONG = 4_000
NETWORK = b"router 1.0.0.1 1\norigin 1.0.0.1 10.0.0.0/8\n"
ASKED = b"quiet\nroutes 1.0.0.1\nrouter 1.0.0.1 1\n"
SPARE = [bytes([n]) for n in range(256) if n != 10]
ODD = [b"\0", b"\r", b"\t", b"\x0b", b"\x7f", b"\x80", b"\xa0", b"\xff", b"\r\r", b"#", b"-", b"/", b".", b",", b"{",
       b"}", b"_", b"=", b"0", b"  ", *(letter.encode() for letter in ("é", "\u2028", "\ufeff"))]


class Script(NamedTuple):
    """A script that is compared, by the name that is printed of it, and the subcommand that plays it."""
    name: str
    text: bytes
    subcommand: str = "script"


# Scripts of a seed

def with_a_byte_changed(draw: random.Random, line: bytes) -> bytes:
    """The line with a byte changed, put in or left out, or swapped with the next one."""
    at = draw.randrange(len(line)) if line else 0
    first, rest, byte = line[:at], line[at + 1:], draw.choice(ODD + SPARE)
    return draw.choice((first + byte + rest, first + byte + line[at:], first + rest,
                        first + rest[:1] + line[at:at + 1] + rest[1:]))


def changed(seed: int, generator: Any = random_scripts) -> bytes:
    """A random script; behind each command stands a copy with a byte changed."""
    draw = random.Random(seed)
    lines = generator.script(seed, 80).encode("latin-1").split(b"\n")[:-1]
    return b"".join(line + b"\n" + with_a_byte_changed(draw, line) + b"\n" for line in lines)


def cut(seed: int, generator: Any = random_scripts) -> bytes:
    """A random script, and then a command of each form cut at each place."""
    lines = generator.script(seed, 80).split("\n")[:-1]
    tour = (TOP / "examples" / "tour.bgp").read_text().split("\n")
    forms: Dict[Tuple[str, int], str] = {}
    for line in lines + tour:
        words = line.split()
        if words and len(line) < 200:
            forms.setdefault((words[0], len(words)), line)
    pieces = [line[:at] for line in forms.values() for at in range(len(line) + 1)]
    return "".join(line + "\n" for line in lines + pieces + ["quiet"] + lines[-40:]).encode("latin-1")


def random_line(draw: random.Random, known: Sequence[str] = random_scripts.WORDS) -> bytes:
    """Bytes, or these words with something between them."""
    if draw.random() < 0.4:
        return b"".join(draw.choices(draw.choice((SPARE, ODD)), k=draw.choice((0, 1, 2, 5, 20, 100, 5_000))))
    words = [word.encode("latin-1") for word in draw.choices(known, k=draw.choice((1, 2, 3, 4, 6, 9)))]
    return b"".join(word + draw.choice([b" "] * 8 + ODD) for word in words)


def bytes_at_random(seed: int, generator: Any = random_scripts) -> bytes:
    """A random script with random lines between its own; now and then the last one has no end."""
    draw = random.Random(seed)
    lines = generator.script(seed, 40).encode("latin-1").split(b"\n")[:-1]
    known = generator.WORDS
    text = b"".join(b"".join(random_line(draw, known) + b"\n" for _ in range(draw.choice((0, 1, 1, 3)))) + line + b"\n"
                    for line in lines)
    return text + draw.choice((b"", b"quiet", b"quiet\r", b"\r", b" ", random_line(draw, known)))


KINDS: Sequence[Tuple[str, Callable[..., bytes]]] = (("changed", changed), ("cut", cut), ("random", bytes_at_random))


def scripts_of(seed: int) -> Iterator[Script]:
    """The scripts of a seed: of each kind, and of each kind for `bgpsim converge`."""
    for name, kind in KINDS:
        yield Script("%s, seed %d" % (name, seed), kind(seed))
        text = converge_scripts.bounded(kind(seed, converge_scripts))
        yield Script("%s, %s, seed %d" % (CONVERGE, name, seed), text, CONVERGE)


# Long lines

def filled(size: int) -> Optional[bytes]:
    """So many bytes of lines, a small network and comments; None where they are too few for it."""
    left = size - len(NETWORK)
    if left < 0 or left == 1:
        return None
    sizes = [LONG] * (left // LONG) + [left % LONG]
    if sizes[-1] == 1:
        sizes[-1:] = [] if left == 1 else [1]
        sizes[0], sizes[-1] = sizes[0] - 1, 2
    return NETWORK + b"".join(b"#".ljust(one - 1, b"x") + b"\n" for one in sizes if one)


def long_lines(length: int) -> Iterator[bytes]:
    """Lines of so many bytes, without their ends: a command, a comment, and what is neither."""
    yield b"quiet".ljust(length)
    yield b"#".ljust(length, b"x")
    yield b"routes 1.0.0.".ljust(length, b"1")


def long_scripts() -> Iterator[Script]:
    """Scripts with a long line that begins or ends about an edge; some lines end with a carriage return, too."""
    for edge, near, length, is_begin in itertools.product(EDGES, NEAR, LENGTHS, (True, False)):
        first = filled(edge + near - (0 if is_begin else length + 1))
        ends = (b"\n", b"\r\n") if near in (-1, 0) else (b"\n",)
        for line, end in itertools.product(long_lines(length), ends) if first else ():
            name = "%d bytes, %s at %d" % (length, "begun" if is_begin else "ended", edge + near)
            yield Script(name, (first or b"") + line + end + ASKED)


# Comparing

def by_model(text: bytes, subcommand: str = "script") -> Ran:
    """What the model answers."""
    replies: List[str] = []
    try:
        for reply in model.play(text, model.answer_converge if subcommand == CONVERGE else model.answer):
            replies.append(reply + "\n")
    except model.ReadFault as fault:
        return Ran("".join(replies).encode("latin-1"), b"read fault at line %d\n" % fault.args[0], 3)
    return Ran("".join(replies).encode("latin-1"), b"", 0)


def compare(script: Script) -> Tuple[int, Optional[str]]:
    """How many lines a script has, and what is reported of it where it is answered otherwise."""
    words = (programs.bgpsim(), script.subcommand)
    count = script.text.count(b"\n")
    if run(words, script.text) == by_model(script.text, script.subcommand):
        return count, None
    *ended, last = script.text.split(b"\n")
    return count, agree.account(script.name, words, [line + b"\n" for line in ended] + ([last] if last else []))


def scripts(seeds: range) -> Iterator[Script]:
    yield from itertools.chain.from_iterable(map(scripts_of, seeds))
    yield from long_scripts()


def try_scripts(seeds: range) -> int:
    programs.bgpsim()
    passed = failed = lines = 0
    for count, told in side_by_side(compare, scripts(seeds)):
        lines += count
        passed += told is None
        failed += told is not None
        print("FAILED %s\n" % told if told else "", end="", flush=True)
    print("%d lines" % lines)
    return commands.counted(passed, failed)


def main(words: Sequence[str]) -> int:
    """The command."""
    asked = commands.parser(__doc__)
    asked.add_argument("--scripts", type=commands.number, default=30, metavar="N")
    asked.add_argument("--seed", type=int, default=1, metavar="S")
    given = asked.parse_args(words)
    return commands.as_part(lambda: try_scripts(range(given.seed, given.seed + given.scripts)))
