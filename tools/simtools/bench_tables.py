"""Prints inserts and longest matches for each processor second of both tables, at so many keys.

    bench/tables [KEYS [MATCHES]]        100,000 keys and 1,000,000 matches, where nothing else is said

It proves and builds the program table_bench first, some minutes the first time; where no source has changed since,
it only runs it: once to fill the table, and once to fill it and to ask it.
"""
from __future__ import annotations

import subprocess
from typing import Sequence

from . import commands
from .measuring import took
from .programs import TOP

CRATE = TOP / "crates" / "table_bench"


def build() -> None:
    """Builds the program. Missing where that fails."""
    try:
        ran = subprocess.run(["rt", "run", "--", "trie", "1", "1"], cwd=str(CRATE), stdin=subprocess.DEVNULL,
                             stdout=subprocess.DEVNULL)
    except FileNotFoundError:
        raise commands.Missing("there is no rt on the path: the Rattle kit has it") from None
    if ran.returncode:
        raise commands.Missing("rt run in crates/table_bench ended with status %d" % ran.returncode)


def seconds(*words: str) -> float:
    """The processor seconds that a run takes, in thousandths."""
    return round(took([str(CRATE / "out" / "table_bench"), *words]).processor, 3)


def a_second(count: int, used: float) -> str:
    return "%.0f" % (count / used) if used > 0 else "too fast to tell"


def main(words: Sequence[str]) -> int:
    """The command."""
    asked = commands.parser(__doc__)
    asked.add_argument("keys", type=commands.number, nargs="?", default=100_000, metavar="KEYS")
    asked.add_argument("matches", type=commands.number, nargs="?", default=1_000_000, metavar="MATCHES")
    given = asked.parse_args(words)
    build()
    print("table, random keys: inserts a second; longest matches a second")
    for table in ("sorted", "trie"):
        filled = seconds(table, str(given.keys), "0")
        rest = seconds(table, str(given.keys), str(given.matches)) - filled
        print("%s, %d: %s; %s" % (table, given.keys, a_second(given.keys, filled), a_second(given.matches, rest)))
    return 0
