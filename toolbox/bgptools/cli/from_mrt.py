"""Tables and updates of MRT (RFC 6396) as the feeds of one router's peers."""
from __future__ import annotations

import argparse
from typing import List, Optional

from ..importers.common.sources import add_words, unpacked
from ..importers.tables import feeds, mrt
from ..importers.tables.mrt_feeds import FORM
from ..importers.tables.mrt_updates import Span, Updates
from ..importers.tables.selection import Selection, selection_of
from ..program import times
from ..program.mistakes import Mistake
from ..program.output import Progress

# So many records are read until it is told how far it is.
OFTEN = 1024


def parser() -> argparse.ArgumentParser:
    """The words of the command line."""
    made = argparse.ArgumentParser(prog="from-mrt", description=(
        "Writes table dumps and updates of MRT (TABLE_DUMP_V2 and BGP4MP, RFC 6396), as route collectors keep them, as "
        "a script: one router, and a virtual peer for each peer, that is fed what it told. Updates are replayed in the "
        "order of the files, with their times as comments, as `# time 2026-12-01T12:00:00Z`."),
        epilog="What is not taken over is told with the number of its record, and the byte of the unpacked file at "
               "which that begins. Routes of IPv6 are counted and left out; so are large and extended communities. "
               "Exit status: 0; 1 the script is written, and a route of IPv4 was left out; 2 a mistake, as a file that "
               "ends within a record, and nothing is written.")
    made.add_argument("files", metavar="FILE", nargs="+", help="the dumps, in the order of their times; - is standard "
                      "input; gzip and bzip2 are known by their first bytes")
    made.add_argument("--table", metavar="RIB", help="a table dump that is loaded first; updates before its time are "
                      "left out")
    made.add_argument("--from", dest="begin", type=times.argument, metavar="TIME", help="replay from this time on "
                      "(ISO 8601, UTC); what peers told before is loaded first")
    made.add_argument("--until", dest="end", type=times.argument, metavar="TIME", help="replay what was before this "
                      "time")
    feeds.add_words(made)
    add_words(made)
    return made


def _read(dump: Updates, most: int) -> None:
    """Reads a file."""
    progress = Progress()
    with unpacked(dump.path, most) as file:
        for record in mrt.records_in(file, dump.path):
            dump.take(record)
            if record.number % OFTEN == 0:
                progress.tell("%s: %d records .." % (dump.path, record.number))
    progress.done()


def _replay(chosen: argparse.Namespace, reading: feeds.Reading, selection: Selection) -> None:
    """Reads the table and all files."""
    span = Span(chosen.begin, chosen.end)
    reading.is_begun = chosen.begin is None
    for path in ([chosen.table] if chosen.table else []) + chosen.files:
        dump = Updates(path, reading, selection, chosen.communities, span, path == chosen.table)
        _read(dump, chosen.most_unpacked)
        if dump.has_times and span.table is None:
            raise Mistake("--table: it has no table: a record PEER_INDEX_TABLE of TABLE_DUMP_V2 is expected", path)
    selection.finish()
    dump.end()


def main(words: Optional[List[str]] = None) -> int:
    """The tool."""
    chosen = parser().parse_args(words)
    if chosen.begin is not None and chosen.end is not None and chosen.begin >= chosen.end:
        raise Mistake("--from %s --until %s: a later time is expected behind --until" % (
            times.told(chosen.begin), times.told(chosen.end)))
    reading, selection = feeds.reading_for(chosen), selection_of(chosen)
    _replay(chosen, reading, selection)
    return feeds.finish(reading, selection, chosen, chosen.files[0], FORM)
