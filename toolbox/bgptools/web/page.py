"""One open page: a member whose requests come by POST, and to whom messages go as server-sent events."""
from __future__ import annotations

import asyncio
from typing import Callable, Optional

from ..session.member import Member

# Of a page that holds more bytes than this no further request is served.
FULL = 1 << 18
# A page that does not read is cut off so many seconds after the last word to it.
CUT_SECONDS = 2.0


class PageMember(Member):
    """One page. `key` is a secret between this page and the server, by which its requests name it. `is_closed` tells
    whether the connection by which it hears what happens has ended, and `cut` ends that, whatever waits to be sent."""

    def __init__(self, key: str, role: str, wake: Callable[[], None], is_closed: Callable[[], bool]) -> None:
        super().__init__(role, wake)
        self.key = key
        self.has_more = asyncio.Event()
        self.last: Optional[bytes] = None
        self.is_closed = is_closed
        self.cut: Callable[[], None] = lambda: None

    @property
    def is_full(self) -> bool:
        return self.size > FULL

    def flush(self) -> None:
        self.has_more.set()

    @property
    def is_lost(self) -> bool:
        return self.is_closed()

    def end(self, last: bytes) -> None:
        self.last = last
        self.has_more.set()
        asyncio.get_running_loop().call_later(CUT_SECONDS, self.cut)

    async def next(self, seconds: float) -> Optional[bytes]:
        """The next message; nothing where none comes within some seconds, and an empty one at the end."""
        while not self.outgoing:
            if self.last is not None:
                last, self.last = self.last, b""
                return last
            self.has_more.clear()
            try:
                await asyncio.wait_for(self.has_more.wait(), seconds)
            except asyncio.TimeoutError:
                return None
        was_full = self.is_full
        message = self.next_message()
        if was_full and not self.is_full:
            self.wake()
        return message
