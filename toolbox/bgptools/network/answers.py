"""What answers questions about a network: a run of the program, or something that knows what one answered."""
from __future__ import annotations

from typing import Dict, Iterable, List, Optional

from .configuration import Direction, Network, pair


class Answers:
    """A network as it is configured, the lines that made it, and the replies to questions about it."""
    network: Network

    @property
    def lines(self) -> List[str]:
        """What was accepted, deliveries too, with the comments that name routers."""
        raise NotImplementedError

    def ask(self, questions: Iterable[str]) -> List[List[str]]:
        """The replies to questions, which change nothing."""
        raise NotImplementedError

    def sessions_up(self, sessions: Optional[List[Direction]] = None) -> Dict[Direction, bool]:
        """Which sessions, of all or of these, are up: an external one by its link, an internal one where each end has
        a cost to the other."""
        found, asked = {}, []
        for one, other in self.network.sessions() if sessions is None else sessions:
            key = pair(one, other)
            link = self.network.links.get(key)
            found[one, other] = self.network.enabled[key] and (
                not self.network.is_external(one, other) or link is not None and link.is_up)
            if found[one, other] and not self.network.is_external(one, other):
                asked.append((one, other))
        there, back = (self.ask("cost %s %s" % way for way in ways) for ways in (asked, [(b, a) for a, b in asked]))
        found.update((way, ["none"] not in replies) for way, *replies in zip(asked, there, back))
        return found
