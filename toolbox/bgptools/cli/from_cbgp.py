"""C-BGP scripts as a script."""
from __future__ import annotations

import argparse
from typing import List, Optional

from ..importers.cbgp.translation import Translation
from ..importers.common.sources import add_words, named


def parser() -> argparse.ArgumentParser:
    """The words of the command line."""
    made = argparse.ArgumentParser(prog="from-cbgp", description=(
        "Writes scripts of C-BGP as one script: nodes and links, weights, BGP routers with their peers, filters and "
        "networks, and what virtual peers tell. Several are read as one after another; what they include is read in "
        "its place. docs/reference/cbgp.md says what is taken over."),
        epilog="What is not taken over is reported on standard error, as `FILE:LINE: not taken over: ..` with what comes "
        "of it; the last line counts those that decide no route, as `print` and `show`. "
               "Exit status: 0 nothing was left out that may decide a route; 1 the script is written, and something "
               "was; 2 a mistake, and nothing is written.")
    made.add_argument("files", metavar="SCRIPT", nargs="+",
                      help="the scripts; - is standard input; a name that ends with .gz or .bz2 is unpacked")
    add_words(made)
    made.add_argument("-o", dest="out", metavar="FILE", help="write to this file, and not to standard output")
    made.add_argument("--strict", action="store_true", help="treat each reported line as an error")
    return made


def main(words: Optional[List[str]] = None) -> int:
    """The tool."""
    chosen = parser().parse_args(words)
    made = Translation(chosen.files, chosen.most_unpacked)
    return made.left.write(made.lines, named(chosen.files[0]), chosen.out, chosen.strict)
