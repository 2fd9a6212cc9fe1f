"""Who is whose customer, provider or peer (RFC 9234, 4), as lines of an invariants file say."""
from __future__ import annotations

from typing import Dict, Optional, Tuple

CUSTOMER, PROVIDER, PEER = "customer", "provider", "peer"
OPPOSITE = {CUSTOMER: PROVIDER, PROVIDER: CUSTOMER, PEER: PEER}


class Roles:
    """What each AS is to another one: of this one by name, or of all its neighbours that have no role of that kind."""

    def __init__(self) -> None:
        self.of_pairs: Dict[Tuple[int, int], str] = {}
        self.of_all: Dict[int, str] = {}

    def add(self, role: str, asn: int, of: Optional[int]) -> Optional[str]:
        """An AS has this role to another one, or to all; the role that it has already, where that is another one."""
        if of is None:
            return self._other(self.of_all.setdefault(asn, role), role)
        before = self.of_pairs.setdefault((of, asn), role)
        self.of_pairs.setdefault((asn, of), OPPOSITE[role])
        return self._other(before, role)

    @staticmethod
    def _other(before: str, role: str) -> Optional[str]:
        return before if before != role else None

    def role(self, of: int, asn: int) -> Optional[str]:
        """What the second AS is to the first; nothing where that is not said."""
        if (of, asn) in self.of_pairs:
            return self.of_pairs[of, asn]
        own, other = self.of_all.get(of), self.of_all.get(asn)
        if own and other:
            return None
        return other or (OPPOSITE[own] if own else None)

    @property
    def is_any(self) -> bool:
        """Whether any role is said."""
        return bool(self.of_pairs or self.of_all)
