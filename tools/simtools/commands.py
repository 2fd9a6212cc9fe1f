"""How a command reads its words and how it ends."""
from __future__ import annotations

import argparse
import os
import sys
from typing import Callable, Collection, List, Optional, Sequence, Tuple

WRONG, STOPPED, CLOSED = 2, 130, 141


class Missing(Exception):
    """What a command needs and is not there, in a sentence that says how one gets it."""


def parser(text: Optional[str]) -> argparse.ArgumentParser:
    """A parser whose --help is the text of the command's module, as it stands."""
    return argparse.ArgumentParser(description=text, formatter_class=argparse.RawDescriptionHelpFormatter)


def number(text: str) -> int:
    """For a parser: a number that counts something, 0 or more."""
    if not (text.isascii() and text.isdigit()):
        raise argparse.ArgumentTypeError("a number is expected, and not `%s`" % text)
    return int(text)


def pairs(asked: argparse.ArgumentParser, words: Sequence[str], kinds: Collection[str]) -> List[Tuple[str, int]]:
    """The loads that the words name, each by its kind and its number; the parser's error where they do not."""
    found = list(zip(words[::2], words[1::2]))
    if len(words) % 2 or any(kind not in kinds for kind, _ in found):
        asked.error("each load is one of %s, and its N" % ", ".join(sorted(kinds)))
    try:
        return [(kind, number(count)) for kind, count in found]
    except argparse.ArgumentTypeError as error:
        asked.error(str(error))


def counted(passed: int, failed: int, skipped: int = 0) -> int:
    """Prints the last line of a part of the gate. The exit status: 1 where one failed, or there was none."""
    print("%d passed, %d failed" % (passed, failed))
    return 1 if failed or not passed + skipped else 0


def as_part(body: Callable[[], int]) -> int:
    """The exit status of a part of the gate: what it needs and is not there is printed, and counts as failed."""
    try:
        return body()
    except Missing as missing:
        print(missing)
        return counted(0, 1)


def ended(body: Callable[[List[str]], int]) -> int:
    """The exit status of a command: of its body, or 2 where something is missing, as standard error says."""
    try:
        status = body(sys.argv[1:])
        sys.stdout.flush()
        return status
    except Missing as missing:
        print(missing, file=sys.stderr)
        return WRONG
    except KeyboardInterrupt:
        print("stopped", file=sys.stderr)
        return STOPPED
    except BrokenPipeError:
        os.dup2(os.open(os.devnull, os.O_WRONLY), 1)
        return CLOSED
