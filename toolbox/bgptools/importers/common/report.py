"""What a translation tells on standard error: what changes the network's answer first, then what may, then notes; the
same of many lines once; routers by their names."""
from __future__ import annotations

import argparse
import re
import sys
from collections import Counter
from typing import Dict, List, Sequence, Tuple

from ...program.mistakes import CHANGED, WRONG
from .configuration import Told
from .network import Network

# What is told of more lines of a file than these, but for addresses, is told of the first one.
MOST_ALIKE = 8
# A list in a text stands between these, which no text of a file has: what cannot be shown is escaped there.
_BEGIN, _PART, _END = "\x02", "\x1f", "\x03"
_LIST = re.compile("%s([0-9]+):([^%s]*)%s" % (_BEGIN, _END, _END))
_QUADS = re.compile(r"[0-9]+(?:\.[0-9]+){3}(?:/[0-9]+)?")
_ADDRESS = re.compile(r"(?<![\d.])(?<!-id )(?<!identifier )[0-9]+(?:\.[0-9]+){3}(?![\d/]|\.\d)")


def listed(names: Sequence[str], shown: int = 1) -> str:
    """Names in a text that is told: so many of them are shown, and all with `--all`."""
    return "%s%d:%s%s" % (_BEGIN, shown, _PART.join(names), _END)


def add_unsaid(parser: argparse.ArgumentParser) -> None:
    """The option that says what becomes of an entry of a policy that no rule says."""
    parser.add_argument("--unsaid", choices=("deny", "permit", "skip"), default="skip", help="what an entry or condition "
                        "of a policy that no rule says does with all that comes to it; skip, the default, leaves it "
                        "out")


def report(network: Network, told: List[Told], is_strict: bool, lists_all: bool = False) -> int:
    """Tells what is not taken over, and counts what decides no route; the exit status. `lists_all`: nothing is
    shortened."""
    told = all_told(network, told)
    for text in texts(network, told, lists_all):
        print(text, file=sys.stderr)
    counts: "Counter[str]" = sum((config.counts for config in network.read), Counter())
    if counts:
        ordered = sorted(counts.items(), key=lambda each: (-each[1], each[0].lower()))
        print("%d lines that decide no route were left out: %s" % (
            sum(counts.values()), ", ".join("%s %d" % each for each in ordered)), file=sys.stderr)
    if is_strict and any(each.decides for each in told):
        print("nothing is written, since --strict treats each reported line as an error", file=sys.stderr)
        return WRONG
    return CHANGED if any(each.decides for each in told) else 0


def all_told(network: Network, told: List[Told]) -> List[Told]:
    """What is told of the files as a whole, and of the lines of each router."""
    return told + [each for config in network.read for each in sorted(config.told)]


def texts(network: Network, told: List[Told], lists_all: bool) -> List[str]:
    """What is told, each with its file and line: first what is sure to decide a route, notes last."""
    return _texts(sorted(told, key=_rank), _names(network), lists_all)


def whole(text: str) -> str:
    """A text that is told, with whole lists and with addresses as they are."""
    return _shown(text, {}, True)


def _rank(each: Told) -> int:
    return (0 if each.is_certain else 1) if each.decides else 2


def _names(network: Network) -> Dict[str, str]:
    """The routers that have a name alone."""
    return {address: network.called(address) for address in network.routers}


def _texts(told: List[Told], names: Dict[str, str], lists_all: bool) -> List[str]:
    """What is told, in its order."""
    alike: Dict[Tuple[str, bool, str], List[Told]] = {}
    for each in told:
        alike.setdefault(_kind(each), []).append(each)
    found = []
    for each in told:
        same = alike[_kind(each)]
        is_short = len(same) > MOST_ALIKE and not lists_all
        if not is_short or same[0] is each:
            more = " (so it is at %d other lines of this file; `--all` lists them)" % (len(same) - 1)
            at = "%s:%d" % (each.file, each.line) if each.line else each.file
            found.append("%s: %s: %s%s" % (at, "not taken over" if each.decides else "note",
                                           _shown(each.text, names, lists_all), more if is_short else ""))
    return found


def _kind(each: Told) -> Tuple[str, bool, str]:
    """What is the same of things that are told once: all but the lines that they quote, addresses and prefixes."""
    return each.file, each.decides, _QUADS.sub("*", each.text.partition(": ")[2] or each.text)


def _shown(text: str, names: Dict[str, str], lists_all: bool) -> str:
    """A text with its lists, and with names in the place of addresses: not in the line that it quotes, and not in what
    is to be written."""
    head, colon, rest = text.partition(": ")
    rest = _LIST.sub(lambda found: _list(found.group(2).split(_PART), int(found.group(1)), lists_all), rest)
    parts = rest.split("`")
    parts[::2] = [_ADDRESS.sub(lambda found: names.get(found.group(), found.group()), part) for part in parts[::2]]
    return head + colon + "`".join(parts)


def _list(names: List[str], shown: int, lists_all: bool) -> str:
    if lists_all or len(names) <= shown:
        return ", ".join(names)
    return "%s and %d more (`--all` lists them)" % (", ".join(names[:shown]), len(names) - shown)
