"""A hijack from each of 50 ASes: whom does it catch, where policies are valley-free?

AS 64 originates a prefix. Each of the ASes 1 to 50 in turn originates it, too, on a copy of the converged network; caught
is who then has a route that ends there. It is told with the hijackers that catch the most on top."""
import pathlib
import subprocess
import sys
from typing import List, Tuple

from bgptools import Network

OWNER, PREFIX = 64, "100.0.63.0/24"


def script() -> List[str]:
    """The network of the relationships beside this file, in which the owner originates its prefix."""
    path = str(pathlib.Path(__file__).with_name("relationships.txt"))
    made = subprocess.run([sys.executable, "-m", "bgptools", "from-as-rel", path, "--communities", "--origins", str(OWNER)],
                          check=True, stdout=subprocess.PIPE)
    return made.stdout.decode().splitlines()


def caught(net: Network, hijacker: int) -> List[int]:
    """The ASes that believe the hijacker."""
    asns = {node.address: node.asn for node in net.nodes()}
    routers = {asn: router for router, asn in asns.items()}
    with net.copy() as trial:
        trial.origin(routers[hijacker], PREFIX)
        trial.converge()
        return [asns[route.router] for route in trial.table(PREFIX) if route.ases[-1:] == (hijacker,)]


def main() -> None:
    with Network.from_lines(script()) as net:
        net.converge()
        found: List[Tuple[int, int]] = [(len(caught(net, asn)), asn) for asn in range(1, 51)]
        others = len(net.nodes()) - 2
    for count, asn in sorted(found, key=lambda each: (-each[0], each[1])):
        print("AS %d catches %d of %d" % (asn, count, others))


if __name__ == "__main__":
    main()
