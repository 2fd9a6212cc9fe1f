"""The pages of one shared network: their secrets, who shows what to whom, and what they may ask."""
from __future__ import annotations

import hmac
import secrets
from typing import Any, Callable, Dict, List, Optional

from ..program import location, provenance
from ..program.mistakes import Mistake
from ..session.events import Event
from ..session.hub import Hub
from ..session.member import AHEAD, Member
from ..session.messages import encoded, shown
from ..session.requests import Request
from ..session.roles import LOOK, QUOTAS, TEACH, WORK
from ..session.shared_network import Shared
from .lesson import Note
from .page import FULL, PageMember

# So many steps are told in one answer.
STEPS = 5000


class Lab:
    """The pages of one hub. Each role has a secret of its own. The notes are what the script says before its first
    step, and at each of its steps."""

    def __init__(self, hub: Hub, notes: List[Note], has_looking: bool) -> None:
        self.hub = hub
        self.first, self.notes = notes[0], notes[1:]
        roles = [TEACH, WORK, LOOK] if has_looking else [TEACH, WORK]
        self.keys = {role: secrets.token_urlsafe(24) for role in roles}
        self.program = provenance.of(location.program()).as_json()
        self.pages: Dict[str, PageMember] = {}
        self.shown: Dict[str, Any] = {"event": "shown", "step": None}
        hub.answering.words["show"] = self._show
        hub.hearers.append(self._heard)

    @property
    def shared(self) -> Shared:
        """The network that they share."""
        return self.hub.shared

    def role(self, key: str) -> Optional[str]:
        """The role whose secret this is; nothing where it is none."""
        given = key.encode("utf-8", "surrogateescape")
        found = [role for role, own in self.keys.items() if hmac.compare_digest(own.encode(), given)]
        return found[0] if found else None

    # Pages

    def open(self, role: str, name: str, token: Optional[str], is_closed: Callable[[], bool]) -> PageMember:
        """A page that comes, by a connection of which `is_closed` tells whether it has ended. Mistake where as many are
        open as may be."""
        for lost in [page for page in self.pages.values() if page.is_lost]:
            # A fault kept it from being closed.
            self.close(lost)
        count = sum(page.role == role for page in self.pages.values())
        if count >= QUOTAS[role].pages:
            raise Mistake("%d pages of those who %s are open, which is the most: close one" % (count, role))
        page = PageMember(secrets.token_urlsafe(12), role, self.hub.wake, is_closed)
        self.pages[page.key] = page
        page.send(encoded({"event": "page", "page": page.key, "role": role, "first": self.first,
                           "program": self.program}), True)
        page.send(encoded(self.shown), True)
        if role == LOOK:
            proposals = self.shared.proposals
            for made in proposals.open.values():
                page.send(encoded({"event": "proposal", **proposals.told(made)}), True)
        else:
            entry = {"id": 0, "do": "enter", "as": name, **({} if token is None else {"token": token})}
            page.lines.extend([encoded(entry), encoded({"id": 0, "do": "watch", "what": "all"})])
            # It hears all that happens from the moment on at which it has a seat.
            page.watches = "all"
            self.hub.come(page)
        self.hub.wake()
        return page

    def close(self, page: PageMember) -> None:
        """A page has gone."""
        self.hub.gone(page)
        self.pages.pop(page.key, None)

    def page(self, key: str, role: str) -> PageMember:
        """The page of a key. Mistake where there is none with this role."""
        page = self.pages.get(key)
        if page is None or page.is_gone or page.role != role:
            raise Mistake("there is no such page: load it anew")
        return page

    def ask(self, page: PageMember, body: bytes) -> bool:
        """Has a request of a page served; whether it was taken."""
        if len(page.lines) >= AHEAD:
            return False
        # Where the first of these fails nothing is done.
        self.hub.wake()
        page.lines.append(body.replace(b"\n", b" "))
        return True

    # What is shown to those who look

    def _show(self, _: Member, __: int, request: Request) -> Dict[str, Any]:
        """Who teaches shows a step, and what of it."""
        self.shown = {"event": "shown", **{name: request.get(name) for name in ("step", "prefix", "way", "router")}}
        self._tell_lookers(self.shown)
        return {"shown": True}

    def _heard(self, event: Event) -> None:
        """Who looks sees what is proposed, and what becomes of it."""
        if event["event"] in ("proposal", "missed") or event.get("closes") is not None:
            self._tell_lookers(event)

    def _tell_lookers(self, event: Event) -> None:
        message = encoded(event)
        for page in list(self.pages.values()):
            if page.role == LOOK and page.size <= FULL:
                page.send(message)

    # What is asked by GET

    def lines(self) -> List[str]:
        """The live list of the lines of the shared script."""
        return self.shared.run.lines

    def steps(self, start: int) -> Dict[str, Any]:
        """The steps from one on, of many the first, each with its line and what the lesson says there."""
        lines = self.lines()
        part = lines[start:start + STEPS]
        notes = self.notes[start:start + STEPS]
        steps = [{"line": shown(line).encode("utf-8", "replace").decode("utf-8"), **note}
                 for line, note in zip(part, notes + [{}] * (len(part) - len(notes)))]
        return {"from": start, "steps": steps, "step": len(lines)}
