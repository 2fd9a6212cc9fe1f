"""Routes that peers told, as a script: one router, and a virtual peer that is fed for each peer."""
from __future__ import annotations

import argparse
import re
import sys
from dataclasses import dataclass
from typing import Dict, List, Optional, Set

from ...program import communities, line_count, output, times
from ...program.language import MOST, address, number
from ...program.mistakes import WRONG, Mistake
from . import selection
from .omissions import Omissions

MOST_COMMUNITIES, MOST_NUMBERS, MOST_PEERS = MOST["fed_communities"], MOST["fed_numbers"], MOST["sessions"]
# A route with one of these is advertised to no other AS.
SUPPRESSING = {communities.NO_EXPORT, communities.NO_ADVERTISE, communities.NO_EXPORT_SUBCONFED}
SIX_PEER = "its peer has an address of IPv6, and peers here have one of IPv4"
FEWER = "`--sample N`, `--under PREFIX` and `--peers A,B` take fewer"


@dataclass
class Feed:
    """A route of the table: who told it, and what of it is fed. `not_modelled` are communities of other kinds."""
    peer: str
    asn: int
    prefix: str
    path: str
    origin: str
    med: str
    communities: List[int]
    not_modelled: List[str]

    def line(self, router: str) -> str:
        """The command that feeds it to the router."""
        line = "feed %s %s update %s %s %s %s" % (self.peer, router, self.prefix, self.path, self.origin, self.med)
        return line + " comm=" + ",".join(map(str, self.communities)) if self.communities else line


class Reading:
    """The script that is made, and what is left out of it. Until `begin` what peers told is kept, and not written."""

    def __init__(self, router: str, asn: int) -> None:
        self.router, self.asn = router, asn
        self.omissions = Omissions()
        # No more lines are kept than one script can hold. `count` counts feeds on, and `others` comments and edits.
        self.body: List[str] = []
        self.count = self.others = 0
        self.peers: Dict[str, int] = {}
        # What each peer tells, by prefix, and whose session is down.
        self.held: Dict[str, Dict[str, str]] = {}
        self.kept = 0
        self.down: Set[str] = set()
        self.is_begun = True
        self.time: Optional[int] = None
        # Prefixes that are fed, and those that some peers may not be sent; how often sessions changed, and whose.
        self.prefixes: Set[str] = set()
        self.suppressed: Set[str] = set()
        self.stops = self.starts = 0
        self.stopped: Set[str] = set()

    @property
    def is_full(self) -> bool:
        """Whether there are more lines than one script can hold."""
        return self.count + self.others + (0 if self.is_begun else self.kept) > line_count.MOST_LINES

    def refusal(self, feed: Feed) -> str:
        """Why a feed cannot be taken; nothing where it can."""
        numbers = re.findall("[0-9]+", feed.path)
        for is_wrong, said in (
                (feed.path.split("_")[0].split(",")[0] != str(feed.asn),
                 "the path does not begin with AS %d, the peer's" % feed.asn),
                (len(numbers) > MOST_NUMBERS, "the path has more than %d AS numbers" % MOST_NUMBERS),
                (len(feed.communities) > MOST_COMMUNITIES, "it has %d communities, and a route is fed with %d at most; "
                 "--no-communities takes it without" % (len(feed.communities), MOST_COMMUNITIES))):
            if is_wrong:
                return said
        return self.peer_refusal(feed.peer, feed.asn)

    def peer_refusal(self, who: str, asn: int) -> str:
        """Why there can be no such peer; nothing where there can, or is."""
        before = self.peers.get(who, asn)
        for is_wrong, said in (
                (asn == 0, "its peer is of the AS 0"),
                (asn == self.asn, "the peer is in AS %d, that of the router" % self.asn),
                (who == self.router, "the peer has the router's address"),
                (before != asn, "the peer was in AS %d before" % before),
                (who not in self.peers and len(self.peers) == MOST_PEERS,
                 "there are %d peers already; --peers takes some" % MOST_PEERS)):
            if is_wrong:
                return said
        return ""

    def take(self, feed: Feed, place: object) -> bool:
        """Takes a route of a table, which stands at this place of the file, or tells why not; whether it is taken."""
        why = self.refusal(feed)
        if why:
            self.omissions.leave_out(place, why)
        elif feed.prefix in self.held.get(feed.peer, ()):
            self.omissions.add("routes that are left out so", place, "not taken over: the peer tells several routes to "
                               "this prefix (ADD-PATH), and here it tells one: the first one of the file")
            self.omissions.count += 1
        else:
            self._feed(feed, place)
            return True
        return False

    def update(self, feed: Feed, place: object) -> bool:
        """Takes a route in the place of what the peer told before, or tells why not; whether it is taken. If it is not,
        what the peer told before is withdrawn."""
        why = self.refusal(feed)
        if why:
            self.omissions.leave_out(place, why)
            self.withdraw_held(feed.peer, feed.prefix)
            return False
        self._feed(feed, place)
        return True

    def _feed(self, feed: Feed, place: object) -> None:
        self.peers[feed.peer] = feed.asn
        line = feed.line(self.router)
        if not self.is_full:
            held = self.held.setdefault(feed.peer, {})
            self.kept += feed.prefix not in held
            held[feed.prefix] = line
            self.prefixes.add(feed.prefix)
            if not SUPPRESSING.isdisjoint(feed.communities):
                self.suppressed.add(feed.prefix)
        if self.is_begun:
            self._write_feed(line)
        if feed.not_modelled:
            self.omissions.add("routes that have any", place, "`%s` was left out: large and extended communities are "
                               "not modelled" % feed.not_modelled[0])

    def withdraw(self, who: str, prefix: str) -> None:
        """A peer withdraws its route to a prefix."""
        self.kept -= self.held.get(who, {}).pop(prefix, "") != ""
        if self.is_begun:
            self._write_feed("feed %s %s withdraw %s" % (who, self.router, prefix))

    def withdraw_held(self, who: str, prefix: str) -> None:
        """The same, if there is one."""
        if prefix in self.held.get(who, ()):
            self.withdraw(who, prefix)

    def stop(self, who: str) -> None:
        """A peer's session goes down, if it is up, and its routes are lost."""
        if who not in self.down:
            self.down.add(who)
            self.kept -= len(self.held.pop(who, ()))
            self._session("stop", who)

    def start(self, who: str) -> None:
        """A peer's session comes up, if it is down."""
        if who in self.down:
            self.down.discard(who)
            self._session("start", who)

    def _session(self, word: str, who: str) -> None:
        if self.is_begun:
            self._write("%s %s %s" % (word, self.router, who))
            self.stops += word == "stop"
            self.starts += word == "start"
            self.stopped.add(who)

    def at(self, time: int) -> None:
        """What comes next is of this time, in microseconds since 1970."""
        if self.is_begun and time != self.time:
            self._write(times.mark(time))
        self.time = time

    def begin(self, time: Optional[int]) -> None:
        """From here on all is written, first what each peer tells now."""
        self.is_begun, self.time = True, None
        if time is not None:
            self.at(time)
        for who in self.down:
            self._session("stop", who)
        for routes in self.held.values():
            for line in routes.values():
                self._write_feed(line)

    def _write_feed(self, line: str) -> None:
        self.count += 1
        if not self.is_full:
            self.body.append(line)

    def _write(self, line: str) -> None:
        self.others += 1
        if not self.is_full:
            self.body.append(line)

    def lines(self) -> List[str]:
        """The script."""
        lines = ["router %s %d" % (self.router, self.asn)]
        for peer, asn in self.peers.items():
            lines += ["virtual %s %d" % (peer, asn), "link %s %s 1" % (self.router, peer),
                      "join %s %s" % (self.router, peer)]
        return lines + self.body

    # How long it is

    @property
    def length(self) -> int:
        """How many lines the script has."""
        return 1 + 3 * len(self.peers) + self.count + self.others

    @property
    def least(self) -> int:
        """How many deliveries make it converge at least, command by command: one for each feed, and for each prefix
        what the router advertises of its first route, to all peers but that one."""
        always = len(self.peers) - len(self.stopped)
        return self.count + max(0, always - 1) * len(self.prefixes - self.suppressed)

    @property
    def most(self) -> int:
        """How many deliveries at most: if each feed changed the choice, all peers would be sent something each time,
        but for the first one's."""
        peers, prefixes = len(self.peers), len(self.prefixes)
        return self.count * (1 + peers) - prefixes + prefixes * (self.stops * peers + self.starts)


def add_words(made: argparse.ArgumentParser) -> None:
    """The words of the command line by which a table is written."""
    selection.add_words(made)
    made.add_argument("--router", default="10.255.255.1", metavar="A", help="the router's address (10.255.255.1)")
    made.add_argument("--as", dest="asn", default="64512", metavar="N", help="the router's AS (64512)")
    made.add_argument("--no-communities", dest="communities", action="store_false", help="leave out all communities")
    made.add_argument("--by-prefix", action="store_true", help="the script is for `converge --by-prefix`: its size "
                      "counts no deliveries")
    made.add_argument("--strict", action="store_true", help="take each route of IPv4 that is left out for a mistake")
    made.add_argument("-o", dest="out", metavar="FILE", help="write to this file, and not to standard output")


def reading_for(chosen: argparse.Namespace) -> Reading:
    """A reading for the router that was asked for; raises Mistake where there can be no such router."""
    asn = number(chosen.asn, 1)
    if address(chosen.router) is None or asn is None:
        raise Mistake("--router %s --as %s: an address and an AS number are expected" % (chosen.router, chosen.asn))
    return Reading(chosen.router, asn)


def finish(reading: Reading, chosen_routes: selection.Selection, chosen: argparse.Namespace, path: str,
           form: str) -> int:
    """Writes the script but where `--strict` forbids it, after what was left out is told: the exit status.

    Raises Mistake where it has no route, or where one run of the program cannot read it with its deliveries."""
    reading.omissions.tell(path)
    if chosen_routes.is_any:
        print("%s: %d routes and withdrawals are taken, and %d are not asked for" % (
            path, reading.count, chosen_routes.count), file=sys.stderr)
    if chosen.strict and reading.omissions.count:
        print("nothing is written, since --strict takes each route that is left out for a mistake", file=sys.stderr)
        return WRONG
    if not reading.count:
        raise Mistake("it has no route that can be taken: " + form, path)
    _check(reading, chosen.by_prefix, path)
    output.write("".join(line + "\n" for line in reading.lines()), chosen.out)
    return 1 if reading.omissions.count else 0


def _check(reading: Reading, is_by_prefix: bool, path: str) -> None:
    """Raises Mistake where the script cannot be converged in one run, and tells where it may be too long."""
    told = "{:,} of them are routes; {}".format(reading.count, FEWER)
    line_count.check_length(reading.length, path, told)
    if is_by_prefix:
        return
    line_count.check_length(reading.length, path, FEWER + ", and `--by-prefix` writes it for `converge --by-prefix`",
                            reading.least)
    if reading.length + reading.most > line_count.MOST_LINES:
        print("{}: a script of {:,} lines, with {:,} to {:,} deliveries, and one run of the program reads {:,}; if it "
              "cannot be converged, {}".format(path, reading.length, reading.least, reading.most,
                                               line_count.MOST_LINES, FEWER), file=sys.stderr)
