"""Two routers whose lines for one another are the same or not, with the answer of real ones: FRR's and BIRD's.

A file has a row a line, `ANSWER | KIND | LINES OF r1 | LINES OF r2`, lines with ` / ` between them. PEER is the
address of the other end. KIND is `ebgp`, `ibgp`, `bare` (inside an AS, without BIRD's
`protocol direct`), `ospf` or `isis`; its lines stand under the neighbour or interface,
those that begin with `router` in the block around it, BIRD's with `area` or `channel` in that one, and those with
`protocol` at the top."""
from __future__ import annotations

import pathlib
from typing import Dict, List, NamedTuple

SEPARATOR = " / "
NAMES = ("r1", "r2")


class Row(NamedTuple):
    """A row: its line, whether the real ones come up, the kind, and the lines of both."""
    number: int
    is_up: bool
    kind: str
    ends: "tuple[List[str], List[str]]"


def rows_of(path: pathlib.Path) -> List[Row]:
    """The rows of a file."""
    found = []
    for number, text in enumerate(path.read_text().split("\n"), 1):
        if text.strip() and not text.startswith("#"):
            answer, kind, one, other = (part.strip() for part in text.split("|"))
            found.append(Row(number, answer == "up", kind, (_lines(one), _lines(other))))
    return found


def _lines(text: str) -> List[str]:
    return [line for line in text.split(SEPARATOR) if line]


def asn_of(kind: str, end: int) -> int:
    """The AS of an end."""
    return 65000 + end if kind == "ebgp" else 65001


def _parted(lines: List[str], words: "tuple[str, ...]", end: int) -> Dict[str, List[str]]:
    """The lines by the word that says where they stand; others by the empty one."""
    found: Dict[str, List[str]] = {word: [] for word in ("", *words)}
    for line in lines:
        word, _, rest = line.partition(" ")
        said = (rest if word in words else line).replace("PEER", "10.1.0.%d" % (3 - end))
        found[word if word in words else ""].append(said)
    return found


def frr(row: Row, end: int, hasty: str = "") -> str:
    """The configuration of an end, 1 or 2, for FRR. `hasty` are lines for a neighbour that make it quick."""
    given, other = _parted(row.ends[end - 1], ("router",), end), 3 - end
    is_bgp = row.kind in ("ebgp", "ibgp")
    peer = "10.1.0.%d" % other if is_bgp else "10.0.0.%d" % other
    inside = [" ip router isis X"] if row.kind == "isis" else []
    under = [" " + line for line in given[""]]
    lines = ["hostname r%d" % end, "interface lo", " ip address 10.0.0.%d/32" % end, *inside, "interface eth0",
             " ip address 10.1.0.%d/30" % end, *inside, *([] if is_bgp else under)]
    within = [" " + line for line in given["router"]]
    if row.kind == "ospf":
        has_area = any(line.startswith(" network ") for line in within)
        lines += ["router ospf", " network 10.0.0.%d/32 area 0" % end,
                  *([] if has_area else [" network 10.1.0.0/30 area 0"]), *within]
    if row.kind == "isis":
        has_net = any(line.startswith(" net ") for line in within)
        lines += ["router isis X", *([] if has_net else [" net 49.0001.0000.0000.000%d.00" % end]), *within]
    remote = [] if any(" remote-as " in line for line in under) else [
        " neighbor %s remote-as %d" % (peer, asn_of(row.kind, other))]
    lines += ["ip route 198.51.100.%d/32 blackhole" % end, "router bgp %d" % asn_of(row.kind, end),
              " bgp router-id 10.0.0.%d" % end, " no bgp ebgp-requires-policy", " bgp bestpath compare-routerid",
              " bgp deterministic-med", *remote, *([] if is_bgp else [" neighbor %s update-source lo" % peer])]
    lines += [" neighbor %s %s" % (peer, hasty)] if hasty else []
    lines += [*(under + within if is_bgp else []), " network 198.51.100.%d/32" % end]
    return "\n".join(lines) + "\n"


def bird(row: Row, end: int, hasty: str = "") -> str:
    """The configuration of an end, 1 or 2, for BIRD. `hasty` are lines of a session that make it quick."""
    given, other = _parted(row.ends[end - 1], ("router", "area", "channel", "protocol"), end), 3 - end
    said = {word: [" %s;" % line for line in lines] for word, lines in given.items()}
    is_bgp = row.kind in ("ebgp", "ibgp", "bare")
    base = "10.1.0" if is_bgp else "10.0.0"
    lines = ["router id 10.0.0.%d;" % end, "protocol device { }", "protocol kernel { ipv4 { export all; }; }",
             "protocol static own { ipv4; route 198.51.100.%d/32 blackhole; }" % end,
             *(["protocol direct { ipv4; }"] if row.kind in ("ebgp", "ibgp") else []),
             *("protocol " + line for line in given["protocol"])]
    if row.kind == "ospf":
        area = next((line for line in given["area"] if line.isdigit()), "0")
        of_area = [" %s;" % line for line in given["area"] if not line.isdigit()]
        lines += ["protocol ospf v2 { ipv4;", *said["router"], "area %s {" % area, *of_area,
                  'interface "eth0" 10.1.0.0/30 {', *said[""], "};", 'interface "lo" { stub; };', "}; }"]
    lines += ["protocol bgp peer {", " local %s.%d as %d;" % (base, end, asn_of(row.kind, end)),
              " neighbor %s.%d as %d;" % (base, other, asn_of(row.kind, other)), *([hasty] if hasty else []),
              *(said[""] if is_bgp else []), " ipv4 { import all; export where source = RTS_STATIC;",
              *said["channel"], " };", "}"]
    return "\n".join(lines) + "\n"


def addresses(end: int) -> str:
    """What `ip -o addr` prints at an end, 1 or 2."""
    return "1: lo    inet 10.0.0.%d/32 scope global lo\n2: eth0    inet 10.1.0.%d/30 scope global eth0\n" % (end, end)
