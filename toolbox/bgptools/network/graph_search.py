"""Searches in a graph: whom one reaches, over how few edges, and at which cost.

Tools that print text answer by these with Python alone. Pictures leave such questions to networkx, with which
`test_graph_search_properties` compares each of these."""
from __future__ import annotations

import heapq
from collections import deque
from typing import Deque, Dict, Iterable, List, Mapping, Tuple

# To whom each one leads.
Near = Mapping[str, Iterable[str]]
Pair = Tuple[str, str]


def neighbours(pairs: Iterable[Pair]) -> Dict[str, List[str]]:
    """To whom each one is paired."""
    near: Dict[str, List[str]] = {}
    for one, other in pairs:
        near.setdefault(one, []).append(other)
        near.setdefault(other, []).append(one)
    return near


def hops(near: Near, start: str) -> Dict[str, int]:
    """Over how few edges `start` reaches each one: itself over none. Those that it does not reach are not there."""
    found = {start: 0}
    waiting: Deque[str] = deque([start])
    while waiting:
        here = waiting.popleft()
        for other in near.get(here, ()):
            if other not in found:
                found[other] = found[here] + 1
                waiting.append(other)
    return found


def least_costs(links: Mapping[Pair, int], start: str) -> Dict[str, int]:
    """The least cost from `start` to each one that it reaches, over links that lead both ways, by Dijkstra's search."""
    near: Dict[str, List[Tuple[str, int]]] = {}
    for (one, other), cost in links.items():
        near.setdefault(one, []).append((other, cost))
        near.setdefault(other, []).append((one, cost))
    found: Dict[str, int] = {}
    waiting = [(0, start)]
    while waiting:
        so_far, here = heapq.heappop(waiting)
        if here not in found:
            found[here] = so_far
            for other, cost in near.get(here, ()):
                heapq.heappush(waiting, (so_far + cost, other))
    return found
