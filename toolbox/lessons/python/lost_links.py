"""What losing each link does, one after the other: the worst first, and with it the single points of failure."""
import pathlib
from typing import Tuple

from bgptools import Effect, Link, Network

LESSONS = pathlib.Path(__file__).resolve().parents[1]


def rank(each: Tuple[Link, Effect]) -> Tuple[int, int, int]:
    """The key that puts the worst first."""
    effect = each[1]
    return -len(effect.black_holes), -len(effect.lost), -len(effect.forwarding)


def tell(net: Network, title: str) -> None:
    """Prints what each link's loss does to the network, which is quiet."""
    print(title)
    found = [(link, net.what_if(["fail %s %s" % (link.one, link.other)])) for link in net.links()]
    for link, effect in sorted(found, key=rank):
        print("  %s - %s: black holes %d, routes lost %d, moved %d, packets another way %d, messages %d" % (
            link.one, link.other, len(effect.black_holes), len(effect.lost), len(effect.moved), len(effect.forwarding),
            len(effect.deliveries)))


def main() -> None:
    for name in ("drained-link.bgp", "three-ases.bgp"):
        with Network.load(LESSONS / name) as net:
            net.converge()
            tell(net, name)


if __name__ == "__main__":
    main()
