"""A table as `bgpdump -m` prints it, as the feeds of one router's peers."""
from __future__ import annotations

import argparse
from functools import partial
from typing import List, Optional

from ..importers.common.sources import add_words, lines_in
from ..importers.tables import feeds
from ..importers.tables.bgpdump import FORM, feed_of, is_six
from ..importers.tables.selection import selection_of
from ..program.language import prefix


def parser() -> argparse.ArgumentParser:
    """The words of the command line."""
    made = argparse.ArgumentParser(prog="from-rib", description=(
        "Writes a table, as `bgpdump -m` prints it, as a script: one router, and a virtual peer that is fed what each peer of the table told."),
        epilog="Routes of IPv6 are counted and left out; so are large and extended communities. "
               "Exit status: 0; 1 the script is written, and a route of IPv4 was left out; 2 a mistake, and nothing is "
               "written.")
    made.add_argument("file", metavar="FILE", help="the table; - is standard input; a name that ends with .gz or .bz2 is unpacked")
    feeds.add_words(made)
    add_words(made)
    return made


def _take(reading: feeds.Reading, feed: feeds.Feed, place: str) -> None:
    """Takes a route of a peer with an address of IPv4; tells of any other that it is left out."""
    if is_six(feed.peer):
        reading.omissions.leave_out(place, feeds.SIX_PEER)
    else:
        reading.take(feed, place)


def main(words: Optional[List[str]] = None) -> int:
    """The tool."""
    chosen = parser().parse_args(words)
    reading, selection = feeds.reading_for(chosen), selection_of(chosen)
    for at, text in lines_in(chosen.file, chosen.most_unpacked):
        feed = feed_of(text, chosen.file, at, chosen.communities) if text.strip() else None
        if feed is None:
            reading.omissions.note_six(bool(text.strip()))
            continue
        where = prefix(feed.prefix) or (0, 0)
        if selection.has_peer(feed.peer, feed.asn) and selection.has_prefix(where):
            selection.offer(where, partial(_take, reading, feed, "%s:%d" % (chosen.file, at)))
    selection.finish()
    return feeds.finish(reading, selection, chosen, chosen.file, FORM)
