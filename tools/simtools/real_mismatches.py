"""Asks real routers, FRR's and BIRD's, whether two ends that say something else come up.

    tools/real-mismatches FILE...       as root, with FRR's daemons or BIRD (Debian's packages) and iproute2

A FILE is toolbox/tests/data/mismatches/frr.txt or bird.txt; toolbox/tests/data/mismatches/README.md says what a row
is. Each router is a network namespace with its own daemons, and the two of a row have one link. A row is up if each
end has in its kernel what the other one tells by BGP, OSPF or IS-IS.
Exit status: 0; 1 where an answer is another one than the row's; 2 a mistake.
"""
from __future__ import annotations

import os
import pathlib
import shutil
import subprocess
import time
from typing import Callable, List, Sequence

from . import commands
from .mismatches import Row, bird, frr, rows_of

# So many rows are tried at once, and so long each has to come up: OSPF waits 40 seconds for another router.
AT_ONCE, PATIENCE = 24, 75
Start = Callable[[Row, int], None]
WORK = pathlib.Path("/tmp/real-mismatches")
SOCKETS = pathlib.Path("/var/run/frr")
DAEMONS = {"ebgp": ("zebra", "staticd", "bgpd"), "ibgp": ("zebra", "staticd", "bgpd"), "ospf": ("zebra", "ospfd"),
           "isis": ("zebra", "isisd")}
HASTY = {"frr": "timers connect 1", "bird": " connect delay time 1; connect retry time 2; error wait time 1, 2;"}


def run(*words: str, may_fail: bool = False) -> str:
    """What a command prints."""
    ran = subprocess.run(words, check=not may_fail, stdout=subprocess.PIPE, stderr=subprocess.DEVNULL, text=True)
    return ran.stdout


def space(row: Row, end: int) -> str:
    """The namespace of an end."""
    return "mm%d-%d-%d" % (os.getpid(), row.number, end)


def build(row: Row) -> None:
    """The two ends and their link."""
    for end in (1, 2):
        run("ip", "netns", "add", space(row, end))
        run("ip", "-n", space(row, end), "link", "set", "lo", "up")
    run("ip", "link", "add", "eth0", "netns", space(row, 1), "type", "veth", "peer", "name", "eth0", "netns",
        space(row, 2))
    for end in (1, 2):
        for device, where in (("lo", "10.0.0.%d/32" % end), ("eth0", "10.1.0.%d/30" % end)):
            run("ip", "-n", space(row, end), "addr", "add", where, "dev", device)
        run("ip", "-n", space(row, end), "link", "set", "eth0", "up")


def start_frr(row: Row, end: int) -> None:
    """The daemons of FRR; what they do not take is printed."""
    here = space(row, end)
    for folder in (WORK / here, SOCKETS / here):
        folder.mkdir(parents=True, exist_ok=True)
    (WORK / here / "frr.conf").write_text(frr(row, end, HASTY["frr"]))
    run("chown", "-R", "frr:frr", str(WORK / here), str(SOCKETS / here))
    for daemon in DAEMONS[row.kind]:
        run("ip", "netns", "exec", here, "/usr/lib/frr/" + daemon, "-N", here, "-d", "-u", "frr", "-g", "frr", "-i",
            str(WORK / here / (daemon + ".pid")), "-f", "/dev/null")
    time.sleep(0.3)
    told = run("vtysh", "--vty_socket", str(SOCKETS / here), "-f", str(WORK / here / "frr.conf"), may_fail=True)
    for line in told.split("\n"):
        if line.startswith(("line ", "%")) and not (row.kind in ("ospf", "isis") and "bgp" in line):
            print("    row %d, r%d: %s" % (row.number, end, line))


def start_bird(row: Row, end: int) -> None:
    """BIRD; what it does not take is printed."""
    here = WORK / space(row, end)
    here.mkdir(parents=True, exist_ok=True)
    (here / "bird.conf").write_text(bird(row, end, HASTY["bird"]))
    ran = subprocess.run(["ip", "netns", "exec", space(row, end), shutil.which("bird") or "/usr/sbin/bird", "-c",
                          str(here / "bird.conf"), "-s", str(here / "ctl"), "-P", str(here / "bird.pid")],
                         stdout=subprocess.PIPE, stderr=subprocess.STDOUT, text=True)
    if ran.returncode:
        print("    row %d, r%d: %s" % (row.number, end, ran.stdout.strip()))


def is_up(row: Row) -> bool:
    """Whether both ends have the other one's route."""
    told = "198.51.100.%d" if row.kind in ("ebgp", "ibgp", "bare") else "10.0.0.%d"
    found = [run("ip", "-n", space(row, end), "route", "show", told % (3 - end), may_fail=True) for end in (1, 2)]
    # BIRD gives the kernel also a route of which it does not resolve the next hop, as `unreachable`.
    return all(each and not each.startswith("unreachable") for each in found)


def clean(rows: List[Row]) -> None:
    """Ends what was begun for these rows, by the numbers that it wrote."""
    here = [space(row, end) for row in rows for end in (1, 2)]
    for name in here:
        for file in (WORK / name).glob("*.pid"):
            subprocess.run(["kill", file.read_text().strip()], stderr=subprocess.DEVNULL)
    time.sleep(1)
    known = {line.split()[0] for line in run("ip", "netns", "list").split("\n") if line}
    for name in here:
        if name in known:
            run("ip", "netns", "del", name)
        for place in (WORK / name, SOCKETS / name):
            shutil.rmtree(place, ignore_errors=True)


def answers(rows: List[Row], start: Start) -> List[bool]:
    """Which rows come up."""
    clean(rows)
    try:
        for row in rows:
            build(row)
        for row in rows:
            for end in (1, 2):
                start(row, end)
        deadline = time.time() + PATIENCE
        while time.time() < deadline and not all(map(is_up, rows)):
            time.sleep(3)
        return list(map(is_up, rows))
    finally:
        if not os.environ.get("KEEP"):
            clean(rows)


def compare(path: pathlib.Path) -> int:
    """Says what differs in a file; how many rows do."""
    start, rows, wrong = start_bird if path.stem == "bird" else start_frr, rows_of(path), 0
    wanted = os.environ.get("ROWS")
    rows = [row for row in rows if wanted is None or str(row.number) in wanted.split(",")]
    for at in range(0, len(rows), AT_ONCE):
        some = rows[at:at + AT_ONCE]
        for row, found in zip(some, answers(some, start)):
            wrong += found != row.is_up
            if found != row.is_up:
                print("%s:%d: the real ones are %s" % (path, row.number, "up" if found else "down"), flush=True)
    print("%s: %d rows, %d differ" % (path, len(rows), wrong), flush=True)
    return wrong


def main(words: Sequence[str]) -> int:
    """The command."""
    asked = commands.parser(__doc__)
    asked.add_argument("files", nargs="+", metavar="FILE", type=pathlib.Path)
    return 1 if sum(map(compare, asked.parse_args(words).files)) else 0
