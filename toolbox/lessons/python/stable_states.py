"""The stable states of two networks that do not converge in the fair order: two ASes that prefer each other (DISAGREE),
and the route reflectors of RFC 3345, where MED is compared within one neighbouring AS.

Each is converged in 20 random orders, each on a copy; states are told with how often they came."""
import pathlib
from collections import Counter
from typing import Tuple

from bgptools import Network, NotConverged

LESSONS = pathlib.Path(__file__).resolve().parents[1]
ORDERS = 20
# In a state, each router with the path of its route to the prefix.
State = Tuple[Tuple[str, str], ...]


def rfc_3345() -> Network:
    """Two clusters of AS 1. AS 10 tells a prefix at the first, AS 6 at both, with the lower MED at the second."""
    net = Network()
    for number in range(1, 6):
        net.router("1.0.0.%d" % number, 1)
    for peer, asn in (("10.0.0.1", 10), ("6.0.0.1", 6), ("6.0.0.2", 6)):
        net.virtual(peer, asn)
    for one, other, metric in ((1, 4, 1), (1, 2, 5), (1, 3, 4), (4, 5, 12)):
        net.link("1.0.0.%d" % one, "1.0.0.%d" % other, metric)
    borders = (("1.0.0.2", "10.0.0.1", "10,100", 10), ("1.0.0.3", "6.0.0.1", "6,100", 1),
               ("1.0.0.5", "6.0.0.2", "6,100", 0))
    for router, peer, _, _ in borders:
        net.link(router, peer, 1)
    for reflector, client in (("1.0.0.1", "1.0.0.2"), ("1.0.0.1", "1.0.0.3"), ("1.0.0.4", "1.0.0.5")):
        net.join(reflector, client)
        net.client(reflector, client)
    net.join("1.0.0.1", "1.0.0.4")
    for router, peer, path, med in borders:
        net.join(router, peer)
        net.feed(peer, router, "update", "203.0.113.0/24", path, "igp", med)
    return net


def states(net: Network) -> "Counter[State]":
    """In which states random orders end, and how often; none of them is where one does not converge."""
    found: "Counter[State]" = Counter()
    for seed in range(1, ORDERS + 1):
        with net.copy() as trial:
            try:
                trial.converge(seed=seed)
            except NotConverged:
                found[()] += 1
            else:
                found[tuple((route.router, route.path) for route in trial.table())] += 1
    return found


def tell(title: str, net: Network) -> None:
    """Prints the states, those that came most often first."""
    found = states(net)
    print("%s: %d stable, in %d random orders" % (title, len(found) - (() in found), ORDERS))
    for state, count in sorted(found.items(), key=lambda each: (-each[1], each[0])):
        told = "; ".join("%s by %s" % each for each in state) or "it does not converge"
        print("  in %d: %s" % (count, told))


def main() -> None:
    with Network.load(LESSONS / "disagree.bgp") as net:
        tell("DISAGREE", net)
    with rfc_3345() as net:
        tell("RFC 3345", net)
        for reflector in ("1.0.0.1", "1.0.0.4"):
            net.med(reflector, "always")
        tell("RFC 3345, where both reflectors compare MED over all neighbours", net)


if __name__ == "__main__":
    main()
