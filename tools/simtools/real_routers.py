"""Compares the program's routes with those of real routers, FRR's, on the network that a script ends with.

    tools/real-routers SCRIPT...        as root, with FRR's daemons (Debian's package frr) and iproute2

It needs the proved program (./bgpsim --prove); PROGRAM= is another one.
The script is played, then everything is delivered, and the
program is asked for each router's `routes`, and `why` for each prefix. The network as it is then is built of
network namespaces: a router is FRR's zebra and bgpd, a link a pair of devices, IGP costs are the metrics of
kernel routes, and tools/speaker stands for each virtual peer. Once its tables stay as they are, each chosen route
is compared with all its attributes, and so is from whom each router has a route that it may choose.

Two things are set so that both mean the same. FRR's routers prefer their own prefixes by a weight, which is set to
0 here; and they announce them with a MED of 0, where ours have none, so a MED of 0 and none are printed alike here:
the decision takes them as equal. FRR gives a meaning to some communities that have none here (0:0, and others of
65535:N): a script that uses them is another network there.
"""
from __future__ import annotations

import glob
import json
import os
import pathlib
import shutil
import subprocess
import sys
import time
from typing import Any, Collection, Dict, List, Optional, Sequence, Tuple

import model

from . import commands, programs
from .language import EXCLUSIONS, WELL_KNOWN
from .programs import TOP

WORK = "/tmp/real-routers"
SOCKETS = "/var/run/frr"
# The well-known communities (RFC 1997) as FRR's routers name them.
NAMED = dict(zip(("noExport", "noAdvertise", "localAs"), map(int, WELL_KNOWN)))
SILENT = {"stdout": subprocess.DEVNULL, "stderr": subprocess.DEVNULL}
show = model.show
Net = model.Net
# Addresses and prefixes as the model has them.
Prefix = Tuple[int, int]
Tables = Dict[int, List[str]]


def run(*lines: str) -> None:
    for line in lines:
        subprocess.run(line.split(), check=True, **SILENT)


def routers(net: Net) -> List[int]:
    return [a for a in sorted(net.nodes) if not net.nodes[a][1]]


def virtual(net: Net) -> List[int]:
    return [a for a in sorted(net.nodes) if net.nodes[a][1]]


def space(a: int) -> str:
    """The network namespace of a router or peer."""
    return "bgp-" + show(a).replace(".", "-")


# what the program says

def converge(net: Net) -> Optional[List[str]]:
    """The deliveries until all queues are empty; None where there are too many of them."""
    lines: List[str] = []
    while any(net.queues.values()) and len(lines) < 5000:
        lines.append("deliver %s %s" % tuple(map(show, min(ends for ends, messages in net.queues.items() if messages))))
        model.answer(net, lines[-1])
    return None if any(net.queues.values()) else lines


def replies(lines: List[str]) -> List[str]:
    script = "".join(line + "\n" for line in lines)
    ran = subprocess.run([programs.bgpsim(), "script"], input=script, stdout=subprocess.PIPE, text=True, check=True)
    return ran.stdout.splitlines()


def answers(lines: List[str], questions: List[str]) -> List[List[str]]:
    """The lines of each answer to a question that follows these lines."""
    found: List[List[str]] = []
    rest = replies(lines + questions)[len(replies(lines)):]
    for _ in questions:
        end = next(n for n, line in enumerate(rest) if line.startswith("end "))
        found.append(rest[:end])
        rest = rest[end + 1:]
    return found


def candidate(p: Prefix, source: str) -> str:
    return "%s may be taken from %s" % (model.show_prefix(p), source)


def ours(net: Net, lines: List[str], prefixes: List[Prefix]) -> Tables:
    """The chosen routes of each router as the program prints them, and its candidates."""
    asked = [(r, p) for r in routers(net) for p in prefixes]
    questions = ["why %s %s" % (show(r), model.show_prefix(p)) for r, p in asked]
    found = dict(zip(routers(net), answers(lines, ["routes " + show(r) for r in routers(net)])))
    for (r, p), reasons in zip(asked, answers(lines, questions)):
        found[r] += [candidate(p, source) for source, reason in map(str.split, reasons) if reason not in EXCLUSIONS]
    return found


# the configuration of a real router

def halves(community: int) -> str:
    """A community as FRR's configurations have it."""
    return "%d:%d" % (community >> 16, community & 0xffff)


def match(name: str, kind: str, value: Any) -> Tuple[List[str], List[str]]:
    """The list that a rule's condition stands in, and the line of the route map that names it; none for any route."""
    if kind in ("is", "under"):
        longer = " le 32" if kind == "under" and value[1] < 32 else ""
        permitted = "ip prefix-list %s permit %s%s" % (name, model.show_prefix(value), longer)
        return [permitted], [" match ip address prefix-list " + name]
    if kind in ("path", "first"):
        permitted = "bgp as-path access-list %s permit %s%d_" % (name, "_" if kind == "path" else "^", value)
        return [permitted], [" match as-path " + name]
    if kind == "comm":
        return ["bgp community-list standard %s permit %s" % (name, halves(value))], [" match community " + name]
    return [], []


def settings(asn: int, act: Dict[str, int]) -> List[str]:
    """The lines of the route map for what a rule sets."""
    words = (("pref", "local-preference"), ("med", "metric"))
    lines = [" set %s %d" % (word, act[key]) for key, word in words if act.get(key) is not None]
    lines += [" set as-path prepend" + " %d" % asn * act["prepend"]] if act.get("prepend") else []
    return lines + ([" set community %s additive" % halves(act["add"])] if "add" in act else [])


def route_map(net: Net, r: int, u: int, way: str) -> Tuple[str, List[str]]:
    """The policy as a route map; what no rule matches is permitted."""
    label = "%s-%s" % (way, show(u))
    lines: List[str] = []
    lists: List[str] = []
    for number, ((kind, value), act) in enumerate(net.rules.get((r, u, way), []), 1):
        listed, matched = match("%s-%d" % (label, number), kind, value)
        lists += listed
        lines.append("route-map %s %s %d" % (label, "deny" if act is None else "permit", number))
        lines += matched + settings(net.nodes[r][0], act or {})
    return label, lists + lines + ["route-map %s permit 65535" % label]


def neighbour(net: Net, r: int, u: int) -> List[str]:
    """The lines of a neighbour that belong to no family of addresses."""
    words = ["remote-as %d" % net.nodes[u][0], "update-source " + show(r), "timers connect 1",
             "advertisement-interval 0"]
    words += ["disable-connected-check", "ebgp-multihop 5"] if net.external(r, u) else []
    words += ["passive"] if net.nodes[u][1] else []
    return [" neighbor %s %s" % (show(u), word) for word in words]


def family(net: Net, r: int, u: int, maps: Collection[Tuple[str, str]]) -> List[str]:
    """The lines of a neighbour for IPv4; the maps are the labels of its policies, each with its way."""
    words = ["activate"]
    words += ["route-reflector-client"] if (r, u) in net.clients else []
    words += ["next-hop-self"] if (r, u) in net.own else []
    return [" neighbor %s %s" % (show(u), word) for word in words + ["route-map %s %s" % one for one in maps]]


def configuration(net: Net, r: int) -> str:
    """The text of a router's file."""
    before, peers, inside = ["route-map ORIGIN permit 1", " set weight 0"], [], []
    for u in (u for u in net.peers(r) if net.up(r, u)):
        maps = {way: route_map(net, r, u, way) for way in ("in", "out")}
        before += [line for _, lines in maps.values() for line in lines]
        peers += neighbour(net, r, u)
        inside += family(net, r, u, [(label, way) for way, (label, _) in maps.items()])
    inside += [" network %s route-map ORIGIN" % model.show_prefix(p) for o, p in sorted(net.origins) if o == r]
    own = ["router bgp %d" % net.nodes[r][0], " bgp router-id " + show(r), " no bgp ebgp-requires-policy",
           " bgp bestpath compare-routerid", " bgp deterministic-med", " no bgp network import-check"]
    if net.reflector(r):
        own.append(" bgp cluster-id " + show(net.cluster_id(r)))
    if r in net.med_always:
        own.append(" bgp always-compare-med")
    lines = ["frr defaults traditional"] + before + own + peers + [" address-family ipv4 unicast"] + inside
    return "\n".join(lines + [""])


# the real network

def build_links(net: Net) -> Dict[Tuple[int, int], str]:
    """The devices; the address of each link's other end."""
    hops = {}
    for number, ends in enumerate(sorted((k for k, (_, up) in net.links.items() if up), key=sorted)):
        a, b = sorted(ends)
        run("ip link add l%da netns %s type veth peer name l%db netns %s" % (number, space(a), number, space(b)))
        for here, there, side, host in ((a, b, "a", 1), (b, a, "b", 2)):
            net_bytes, device = "172.16.%d." % number, "l%d%s" % (number, side)
            run("ip -n %s addr add %s%d/30 dev %s" % (space(here), net_bytes, host, device),
                "ip -n %s link set %s up" % (space(here), device))
            hops[here, there] = net_bytes + str(3 - host)
    return hops


def build_space(a: int) -> None:
    """The network namespace of a router or peer, with its own address."""
    switches = "net.ipv4.ip_forward=1 net.ipv4.conf.all.rp_filter=0 net.ipv4.conf.default.rp_filter=0"
    run("ip netns add " + space(a), "ip -n %s link set lo up" % space(a),
        "ip -n %s addr add %s/32 dev lo" % (space(a), show(a)),
        "ip netns exec %s sysctl -qw %s" % (space(a), switches))


def build_routes(net: Net, r: int, hops: Dict[Tuple[int, int], str]) -> None:
    """The routes of the kernel: of a router by the IGP costs, of a peer to what is linked to it."""
    ways = {there: (1, there) for here, there in hops if here == r} if net.nodes[r][1] else net.costs(r)
    for x, (cost, hop) in sorted((x, way) for x, way in ways.items() if x != r):
        run("ip -n %s route add %s/32 via %s metric %d src %s" % (space(r), show(x), hops[r, hop], cost, show(r)))


def start_daemon(net: Net, r: int, daemon: str) -> None:
    """Starts a daemon of a router, and writes its file."""
    place = "%s/%s" % (WORK, space(r))
    os.makedirs(place, exist_ok=True)
    os.makedirs("%s/%s" % (SOCKETS, space(r)), exist_ok=True)
    pathlib.Path(place, "frr.conf").write_text(configuration(net, r))
    run("chown -R frr:frr %s %s/%s" % (place, SOCKETS, space(r)))
    words = "/usr/lib/frr/%s -N %s -d -i %s/%s.pid -u frr -g frr" % (daemon, space(r), place, daemon)
    words += " -f %s/frr.conf" % place if daemon == "bgpd" else ""
    run("ip netns exec %s %s" % (space(r), words))


def build(net: Net) -> None:
    for a in net.nodes:
        build_space(a)
    hops = build_links(net)
    for r in net.nodes:
        build_routes(net, r, hops)
    for daemon, r in ((daemon, r) for daemon in ("zebra", "bgpd") for r in routers(net)):
        start_daemon(net, r, daemon)


def fed(net: Net, v: int, r: int) -> List[Dict[str, Any]]:
    """What a virtual peer has advertised to a router, as tools/speaker takes it."""
    return [dict(prefix=model.show_prefix(p), path=a["path"], origin=a["origin"], med=a["med"], comms=a["comms"])
            for (to, p, u), a in sorted(net.received.items()) if (to, u) == (r, v)]


def start_speakers(net: Net) -> List[subprocess.Popen[bytes]]:
    started = []
    for v in virtual(net):
        sessions = {show(r): fed(net, v, r) for r in net.peers(v) if net.up(v, r)}
        said = json.dumps(dict(address=show(v), asn=net.nodes[v][0], sessions=sessions))
        words = ["ip", "netns", "exec", space(v), sys.executable, str(TOP / "tools" / "speaker"), said]
        started.append(subprocess.Popen(words))
    return started


def ask(r: int, question: str) -> Any:
    """A router's answer; nothing where it has none yet."""
    words = ["vtysh", "--vty_socket", "%s/%s" % (SOCKETS, space(r)), "-c", question + " json"]
    asked = subprocess.run(words, stdout=subprocess.PIPE, stderr=subprocess.DEVNULL, text=True)
    try:
        return json.loads(asked.stdout)
    except ValueError:
        return {}


def are_up(net: Net) -> bool:
    for r in routers(net):
        wanted = sum(net.up(r, u) for u in net.peers(r))
        peers = ask(r, "show bgp ipv4 unicast summary").get("peers", {}).values()
        if sum(p["state"] == "Established" and not p["outq"] for p in peers) < wanted:
            return False
    return True


def source(route: Dict[str, Any]) -> str:
    peer = route["peer"]["peerId"]
    return "self" if peer == "0.0.0.0" else peer


def show_segment(segment: Dict[str, Any]) -> str:
    is_set = segment["type"] == "as-set"
    return ("{%s}" if is_set else "%s") % ",".join(map(str, sorted(segment["list"]) if is_set else segment["list"]))


def community(word: str) -> int:
    """The number of a community that a real router tells. ValueError where it has a name that is not known here."""
    if word in NAMED:
        return NAMED[word]
    high, low = map(int, word.split(":"))
    return high << 16 | low


def show_communities(route: Dict[str, Any]) -> str:
    told = sorted(map(community, route.get("community", {}).get("list", [])))
    return " comms=" + ",".join(map(str, told)) if told else ""


def show_route(r: int, p: Prefix, route: Dict[str, Any]) -> str:
    """The route as the program would print it."""
    path = "_".join(map(show_segment, route["aspath"].get("segments", [])))
    hop = show(r) if source(route) == "self" else route["nexthops"][0]["ip"]
    return "%s from %s path=%s origin=%s next=%s med=%s pref=%s oid=%s clusters=%s" % (
        model.show_prefix(p), source(route), path or "-", {"IGP": "igp", "EGP": "egp"}.get(route["origin"], "inc"), hop,
        route.get("metric", "-"), route.get("locPrf", 100), route.get("originatorId", "-"),
        ",".join(route.get("clusterList", {}).get("list", [])) or "-") + show_communities(route)


def table(r: int, prefixes: List[Prefix]) -> List[str]:
    """The chosen routes of a real router, and its candidates."""
    found = []
    for p in prefixes:
        paths = ask(r, "show bgp ipv4 unicast " + model.show_prefix(p)).get("paths", [])
        for route in paths:
            found += [candidate(p, source(route))] if route.get("valid") else []
            found += [show_route(r, p, route)] if route.get("bestpath", {}).get("overall") else []
    return found


def theirs(net: Net, prefixes: List[Prefix]) -> Tables:
    """The same of all of them."""
    return {r: table(r, prefixes) for r in routers(net)}


def converged(net: Net, prefixes: List[Prefix]) -> Tables:
    """The tables once all sessions are up and they stay as they are."""
    deadline = time.time() + 90
    while not are_up(net):
        if time.time() > deadline:
            raise TimeoutError("the sessions do not come up")
        time.sleep(1)
    before, now = None, theirs(net, prefixes)
    while before != now:
        if time.time() > deadline:
            raise TimeoutError("the tables do not converge")
        time.sleep(2)
        before, now = now, theirs(net, prefixes)
    return now


def clean(started: List[subprocess.Popen[bytes]]) -> None:
    for speaker in started:
        speaker.kill()
        speaker.wait()
    for file in glob.glob(WORK + "/*/*.pid"):
        subprocess.run(["kill", pathlib.Path(file).read_text().strip()], stderr=subprocess.DEVNULL)
    time.sleep(0.5)
    for name in subprocess.run(["ip", "netns", "list"], stdout=subprocess.PIPE, text=True).stdout.split():
        if name.startswith("bgp-"):
            run("ip netns del " + name)
    for place in [WORK] + glob.glob(SOCKETS + "/bgp-*"):
        shutil.rmtree(place, ignore_errors=True)


def compare(script: str) -> int:
    """Says what differs; how many lines do."""
    net = Net()
    lines = pathlib.Path(script).read_text().split("\n")
    for line in lines:
        model.answer(net, line)
    deliveries = converge(net)
    if deliveries is None:
        print("%s: does not converge" % script)
        return 0
    prefixes = sorted({p for _, p in net.origins} | {p for _, p, _ in net.received})
    mine, started = ours(net, lines + deliveries, prefixes), []
    clean([])
    try:
        build(net)
        started = start_speakers(net)
        real = converged(net, prefixes)
    finally:
        clean(started)
    wrong = sum(differences(show(r), mine[r], real[r]) for r in routers(net))
    counts = (script, len(mine), sum(map(len, mine.values())), wrong)
    print("%s: %d routers, %d routes and candidates, %d differ" % counts, flush=True)
    return wrong


def differences(router: str, mine: List[str], real: List[str]) -> int:
    """Prints the lines that only one of both has; how many they are."""
    one, other = ({line.replace(" med=0 ", " med=- ") for line in side} for side in (mine, real))
    for line in sorted(one ^ other):
        print("%s at %s: %s" % ("ours" if line in one else "FRR's", router, line))
    return len(one ^ other)


def main(words: Sequence[str]) -> int:
    """The command."""
    asked = commands.parser(__doc__)
    asked.add_argument("scripts", nargs="+", metavar="SCRIPT")
    scripts = asked.parse_args(words).scripts
    programs.current_bgpsim()
    return 1 if sum(map(compare, scripts)) else 0
