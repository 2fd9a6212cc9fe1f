"""Taking changes back: the commands by which what is configured is again as it was."""
from __future__ import annotations

from typing import Dict, Iterable, List, Optional, Set, Tuple

from ..network.configuration import Direction, Network, ends

Rules = Dict[Tuple[str, str, str], List[str]]


def commands_back(now: Network, before: Network) -> Optional[List[str]]:
    """The commands that make what is configured now what it was before; none where it is so already, and nothing where
    no commands do: routers, links and sessions stay. Messages, and what was received, are not its business."""
    lasting = [(net.nodes, net.links.keys(), net.enabled.keys()) for net in (now, before)]
    if lasting[0] != lasting[1]:
        return None
    return _links(now, before) + _sessions(now, before) + _settings(now, before) + _rules(now.rules, before.rules) + \
        _origins(now.origins, before.origins)


def _links(now: Network, before: Network) -> List[str]:
    lines = []
    for both in (both for both in now.links if now.links[both] != before.links[both]):
        one, other = ends(both)
        lines.append("metric %s %s %d" % (one, other, before.links[both].metric))
        lines.append("%s %s %s" % ("mend" if before.links[both].is_up else "fail", one, other))
    return lines


def _sessions(now: Network, before: Network) -> List[str]:
    moved = [both for both in now.enabled if now.enabled[both] != before.enabled[both]]
    return ["%s %s %s" % ("start" if before.enabled[both] else "stop", *ends(both)) for both in moved]


def _settings(now: Network, before: Network) -> List[str]:
    lines = _switches("client", now.clients, before.clients) + _switches("self", now.selves, before.selves)
    lines += ["med %s %s" % (router, "always" if router in before.med_always else "as")
              for router in sorted(now.med_always ^ before.med_always)]
    routers = sorted(now.clusters.keys() | before.clusters.keys())
    # Without a CLUSTER_ID of its own a router has its address as that.
    return lines + ["cluster %s %s" % (router, before.clusters.get(router, router)) for router in routers
                    if now.clusters.get(router, router) != before.clusters.get(router, router)]


def _switches(name: str, now: Set[Direction], before: Set[Direction]) -> List[str]:
    return ["%s %s %s %s" % (name, *way, "on" if way in before else "off") for way in sorted(now ^ before)]


def _rules(now: Rules, before: Rules) -> List[str]:
    places: Iterable[Tuple[str, str, str]] = () if now == before else sorted(now.keys() | before.keys())
    moved = [place for place in places if now.get(place, []) != before.get(place, [])]
    return [line for place in moved for line in ["clear %s %s %s" % place] + [
        "rule %s %s %s %s" % (*place, rule) for rule in before.get(place, [])]]


def _origins(now: Dict[str, Set[str]], before: Dict[str, Set[str]]) -> List[str]:
    moved = [(router, to) for router in sorted(now.keys() | before.keys())
             for to in sorted(now.get(router, set()) ^ before.get(router, set()))]
    return ["%s %s %s" % ("origin" if to in before.get(router, ()) else "noorigin", router, to) for router, to in moved]
