"""Why a router chose a route: against which each other one lost, by which value; what it tells a peer, or why not."""
from __future__ import annotations

import argparse
import sys
from typing import List, Optional, Tuple

from ..change import advertised_routes
from ..change.explanation import explain, text_of
from ..convergence.delivery import Convergence
from ..convergence.orders import add_order, order_of
from ..convergence.run import Run, told_of
from ..program import display
from ..program.language import by_address, prefix
from ..program.mistakes import CHANGED, DISAGREES, Mistake
from ..program.script import read


def parser() -> argparse.ArgumentParser:
    """The words of the command line."""
    made = argparse.ArgumentParser(prog="explain", description=(
        "Plays SCRIPT and tells all routes of ROUTER to PREFIX: which was chosen, and against which route and by "
        "which value each other one lost. With --to, what it advertises to a peer, or why nothing."),
        epilog="Attributes are those after the import policy; of a route that is excluded, as received. Exit status: "
               "0; 1 where the network does not converge; 2 a mistake; 3 where the program advertises other than what "
               "--to works out from the script.")
    made.add_argument("script", metavar="SCRIPT", help="the script; - is standard input")
    made.add_argument("router", metavar="ROUTER", help="a router's address, or its name")
    made.add_argument("prefix", metavar="PREFIX", help="a prefix, as 10.0.0.0/8")
    made.add_argument("--to", metavar="X", help="tell what ROUTER advertises to its peer X, an address or a name, and "
                                                "what is changed on the way; or why nothing")
    made.add_argument("--converge", action="store_true", help="empty all queues after the script")
    made.add_argument("--json", action="store_true", help="tell it as JSON")
    add_order(made)
    return made


def _check(run: Run, router: str, to: str) -> Tuple[str, str]:
    found = run.network.names.address_of(router)
    if not run.network.is_router(found):
        known = ", ".join(map(run.network.names.shown, run.network.routers()[:8]))
        raise Mistake("there is no router %s in the script; it has %s" % (router, known or "none"))
    if prefix(to) is None:
        raise Mistake("`%s` is not a prefix with no bit set behind its length, as 10.0.0.0/8" % to)
    return found, to


def _peer(run: Run, router: str, word: str) -> str:
    """The peer that --to names."""
    found, names = run.network.names.address_of(word), run.network.names
    peers = sorted(run.network.peers.get(router, ()), key=by_address)
    if found not in peers:
        known = ", ".join(map(names.shown, peers[:8]))
        shown = names.shown(router)
        raise Mistake("--to %s: %s has no session with it; it has sessions with %s" % (word, shown, known or "none"))
    return found


def _routes(run: Run, router: str, to: str, done: Optional[Convergence], is_json: bool) -> str:
    """All routes of the router to the prefix."""
    found = explain(run, router, to)
    if is_json:
        from ..api import documents
        return documents.text_of(documents.explanations(router, to, found, run.network, done))
    return text_of(router, to, found, run.network)


def _advert(run: Run, router: str, to: str, peer: str, done: Optional[Convergence], is_json: bool) -> Tuple[str, int]:
    """What the router advertises to a peer, and the exit status."""
    found = advertised_routes.Teller(run, router, peer).advert(to)
    told = advertised_routes.text_of(router, peer, to, found, run.network.names)
    if is_json:
        from ..api import documents
        told = documents.text_of(documents.advertisement(router, peer, to, found, run.network, done))
    return told, DISAGREES if found.doubts else 0


def _waiting(run: Run) -> str:
    """How many messages no router has taken, and what to add; nothing where none waits."""
    if run.ask(["quiet"])[0] == ["yes"]:
        return ""
    ways = [way for one, other in run.network.sessions() for way in ((one, other), (other, one))]
    count = sum(max(0, len(reply) - 1) for reply in run.ask("queue %s %s" % way for way in ways))
    return "%s; add `--converge`, and the network converges first" % (
        "1 message waits" if count == 1 else "%d messages wait" % count)


def main(words: Optional[List[str]] = None) -> int:
    """The tool."""
    chosen = parser().parse_args(words)
    with Run(order_of(chosen), tries_others=True) as run:
        run.play(read(chosen.script))
        router, to = _check(run, chosen.router, chosen.prefix)
        peer = None if chosen.to is None else _peer(run, router, chosen.to)
        done = run.converge() if chosen.converge else None
        names, status, waiting = run.network.names, 0, "" if done else _waiting(run)
        if peer is None:
            text = _routes(run, router, to, done, chosen.json)
        else:
            text, status = _advert(run, router, to, peer, done, chosen.json)
        if chosen.json:
            sys.stdout.write(text)
        else:
            display.show(text)
    if waiting:
        print("%s: %s" % (chosen.script, waiting), file=sys.stderr)
    if done and told_of(done):
        print("%s: %s" % (chosen.script, told_of(done, names)), file=sys.stderr)
    return status or (CHANGED if done and not done.is_converged else 0)
