"""`python3 -m bgptools TOOL ..` runs a tool; without a tool it lists them."""
from __future__ import annotations

import sys
from typing import List

from .cli import interpreter
from .cli.tools import TOOLS, run, sentence_of
from .program.mistakes import ended

CALLED = "python3 -m bgptools"


def listed() -> str:
    """The tools, each with what it does."""
    width = max(map(len, TOOLS))
    lines = ["usage: %s TOOL [WORD ..]" % CALLED, "", "The tools, each of which has --help:", ""]
    return "\n".join(lines + ["  %-*s  %s" % (width, name, sentence_of(name)) for name in TOOLS])


def main(words: List[str]) -> int:
    """Runs the tool that the first word names on the others, or lists the tools."""
    if not words or words[0] in ("-h", "--help"):
        print(listed())
        return 0
    interpreter.restart(words[0], ["-m", "bgptools", words[0]], words[1:])
    return run(words[0], "%s %s" % (CALLED, words[0]), words[1:])


if __name__ == "__main__":
    sys.exit(ended(main))
