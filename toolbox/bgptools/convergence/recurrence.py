"""Why deliveries do not end: after how many the same state comes back, and which routers keep choosing other routes.

The program delivered in one of its orders, and did not converge within the limit. Its deliveries are made once more,
with questions in between. Where their last part repeats itself, the states at its repetitions are compared: what
was received by the sessions that deliver there, and all that waits. No other session receives anything there."""
from __future__ import annotations

import hashlib
from collections import Counter
from dataclasses import dataclass, field
from typing import Dict, List, Sequence, Set, Tuple

from ..network.configuration import Network
from ..program import line_count
from ..program.language import by_address, by_prefix
from ..program.line_count import CountedProgram
from ..program.mistakes import Mistake
from .queues import Cell

# So many states are compared at most.
STATES = 64


@dataclass
class Recurrence:
    """After so many deliveries the state is that of so many before, or 0 where that is not seen. `restless` are the
    prefixes, each with its routers, that chose other routes since then, or twice or more in the second half."""
    count: int
    period: int = 0
    restless: Dict[str, List[str]] = field(default_factory=dict)


def matches(steps: Sequence[object]) -> List[int]:
    """For each number, how many steps at the end are those that stand so many before (the Z algorithm)."""
    number: Dict[object, int] = {}
    back = [number.setdefault(step, len(number)) for step in reversed(steps)]
    found, left, right, count = [0] * len(back), 0, 0, len(back)
    for at in range(1, count):
        length = min(right - at, found[at - left]) if at < right else 0
        while at + length < count and back[length] == back[at + length]:
            length += 1
        found[at] = length
        if at + length > right:
            left, right = at, at + length
    return found


def repetition(steps: Sequence[object]) -> Tuple[int, int]:
    """The shortest part whose repetition the second half of the steps is, and where its second one begins; 0 and the
    number of steps where there is none."""
    for length, same in enumerate(matches(steps)):
        if length and same >= length and same + length >= len(steps) // 2:
            return length, len(steps) - same
    return 0, len(steps)


class Replay:
    """Makes deliveries once more in a program that stands where they began."""

    def __init__(self, program: CountedProgram, network: Network, commands: List[str], replies: List[str]) -> None:
        self.program, self.network, self.commands, self.replies = program, network, commands, replies
        self.at = 0
        self.chosen: Dict[Cell, str] = {}
        # Which router chose another route for which prefix, after so many deliveries.
        self.changed: List[Tuple[int, Cell]] = []

    def go(self, end: int) -> None:
        """Makes the deliveries up to this number."""
        self._made(end, self.program.pour(self.commands[self.at:end]))

    def watch(self, end: int) -> None:
        """The same, and notes who chooses another route."""
        cells = [self.cell(at) for at in range(self.at, end)]
        new = [cell for cell in dict.fromkeys(cells) if cell not in self.chosen and self.network.is_router(cell[0])]
        self.chosen.update(zip(new, self.program.pour("best %s %s" % cell for cell in new)))
        lines: List[str] = []
        for command, cell in zip(self.commands[self.at:end], cells):
            lines += [command, "best %s %s" % cell] if cell in self.chosen else [command]
        told = iter(self.program.pour(lines))
        replies = []
        for at, cell in enumerate(cells, self.at + 1):
            replies.append(next(told))
            now = next(told) if cell in self.chosen else None
            if now is not None and now != self.chosen[cell]:
                self.chosen[cell] = now
                self.changed.append((at, cell))
        self._made(end, replies)

    def _made(self, end: int, replies: List[str]) -> None:
        if replies != self.replies[self.at:end]:
            raise Mistake("the same deliveries were answered otherwise when they were made again")
        self.program.keep_deliveries(self.commands[self.at:end], replies)
        self.at = end

    def cell(self, at: int) -> Cell:
        """The receiver and the prefix of a delivery."""
        return self.commands[at].split(" ")[2], self.replies[at].split(" ")[1]

    def state(self, receiving: Set[str]) -> str:
        """What these deliveries' directions received, and what waits, as a digest."""
        ways = [command.split(" ")[1:] for command in sorted(receiving)]
        waiting = self.program.waiting()
        questions = ["in %s %s" % (b, a) for a, b in ways if self.network.is_router(b)]
        replies = self.program.say_all(questions + ["queue %s %s" % (a, b) for a, b in waiting])
        lines = [" ".join(way) for way in waiting] + [line for reply in replies for line in reply]
        return hashlib.sha256("\n".join(lines).encode("latin-1")).hexdigest()


def examine(program: CountedProgram, network: Network, commands: List[str], replies: List[str]) -> Recurrence:
    """Why these deliveries did not end, which were made from where the program stands. It stands then where they come
    back, or where they stopped."""
    count, replay = len(commands), Replay(program, network, commands, replies)
    length, begin = repetition(list(zip(commands, replies)))
    # Each delivery that is watched takes a line more.
    room = max(0, (line_count.MOST_LINES - program.count - count) // 2 - 1)
    begin = max(min(begin, count // 2) if not length else begin, count - room)
    replay.go(begin)
    if length:
        period = _period(replay, length)
        if period:
            cells = Counter(cell for at, cell in replay.changed if at > replay.at - period)
            return Recurrence(replay.at, period, _listed(cells, 1))
    replay.watch(count)
    return Recurrence(count, 0, _listed(Counter(cell for at, cell in replay.changed if at > count // 2), 2))


def _period(replay: Replay, length: int) -> int:
    """After how many deliveries, a multiple of this number, the state is one that was before; 0 where that is not seen."""
    begin, receiving = replay.at, set(replay.commands[replay.at:replay.at + length])
    seen: Dict[str, int] = {}
    asked = 0
    while len(seen) < STATES and asked <= 1000 + 2 * len(replay.commands):
        state = replay.state(receiving)
        asked += len(receiving)
        if state in seen:
            return replay.at - seen[state]
        seen[state] = replay.at
        if replay.at + length > len(replay.commands):
            break
        replay.watch(begin + len(seen) * length)
    return 0


def _listed(cells: "Counter[Cell]", least: int) -> Dict[str, List[str]]:
    """Prefixes, each with its routers, that are in these so often."""
    found: Dict[str, List[str]] = {}
    for router, prefix in sorted((cell for cell in cells if cells[cell] >= least),
                                 key=lambda cell: (by_prefix(cell[1]), by_address(cell[0]))):
        found.setdefault(prefix, []).append(router)
    return found
