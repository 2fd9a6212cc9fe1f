"""The changes that are proposed to all who work on a network, until another one accepts or declines them."""
from __future__ import annotations

from typing import Any, Dict, FrozenSet, Iterable, List, Optional

from ..program.language import escaped
from ..program.mistakes import Mistake
from .commands import Commands, check_line
from .events import Events
from .proposal import LONGEST_NAME, MOST, Proposal


class Stale(Mistake):
    """What a proposal does may not be what was shown and seen of it."""


class People:
    """The seats of one person: those that were entered with one token. Each seat is its own person's at first."""

    def __init__(self) -> None:
        self.groups: Dict[int, FrozenSet[int]] = {}

    def of(self, seat: int) -> FrozenSet[int]:
        """The seats of the person who has a seat."""
        return self.groups.get(seat, frozenset((seat,)))

    def join(self, seats: Iterable[int]) -> None:
        """These seats are one person's."""
        together = frozenset(each for seat in seats for each in self.of(seat))
        self.groups.update(dict.fromkeys(together, together) if len(together) > 1 else {})

    def part(self, seat: int) -> None:
        """Whoever comes to the seat is another person."""
        rest = self.groups.pop(seat, frozenset()) - {seat}
        self.groups.update(dict.fromkeys(rest, rest))


class Proposals:
    """Those that are open, by number."""

    def __init__(self, calling: Commands, happening: Events, people: Optional[People] = None) -> None:
        self.calling, self.happening = calling, happening
        self.seats, self.history = calling.ledger.seats, calling.ledger.history
        self.people = people or People()
        self.open: Dict[int, Proposal] = {}
        self.count = 0
        # The number of the one that is made just now.
        self.making = 0

    def propose(self, seat: int, name: str, given: List[str]) -> Proposal:
        """A change that somebody proposes. It is shown to all by `shown`, once it is known what it does. Mistake where
        it is no change."""
        if len(self.open) >= MOST:
            raise Mistake("%d proposals are open: `accept` or `decline` one" % MOST)
        name = escaped(name[:LONGEST_NAME])[:LONGEST_NAME]
        for number, line in enumerate(given, 1):
            try:
                check_line(line)
            except Mistake as mistake:
                raise Mistake(mistake.text, name, number) from None
        made = Proposal(self.count + 1, seat, name, list(given), len(self.history.edits),
                        owners=self.people.of(seat))
        if not any(line.is_command for line in made.lines):
            raise Mistake("it has no command", name)
        self.count += 1
        self.open[made.number] = made
        return made

    def shown(self, made: Proposal, edits: int, text: str) -> None:
        """Shows a proposal: what it does to the network that had so many edits."""
        self.happening.events.append({"event": "proposal", **self.told(made), "text": text, "edits": edits})
        made.edits, made.text = edits, text

    def told(self, made: Proposal) -> Dict[str, Any]:
        """A proposal as it is shown."""
        return {"number": made.number, "who": self.seats.name_of(made.seat), "name": made.name, "lines": made.given,
                "text": made.text, "edits": made.edits}

    def only(self) -> int:
        """The number of the only proposal that is open. Mistake where there is none, or are several."""
        if len(self.open) != 1:
            numbers = ", ".join(map(str, self.open))
            several = "proposals %s are open: give the number of one" % numbers
            raise Mistake(several if numbers else "no proposal is open")
        return min(self.open)

    def failed(self, made: Proposal, mistake: Optional[Mistake]) -> None:
        """What a proposal does is not known any more: it goes."""
        if mistake and self.open.pop(made.number, None):
            self.closed(made, "proposal %d of %s goes: %s" % (made.number, self.seats.name_of(made.seat), mistake))

    def is_stale(self, number: int) -> bool:
        """Whether the network was edited since a proposal was shown, so that it may do something else."""
        return self._shown(number).edits != len(self.history.edits)

    def _shown(self, number: int) -> Proposal:
        if number not in self.open or not self.open[number].text:
            raise Mistake("there is no proposal %d that was shown" % number)
        return self.open[number]

    def accept(self, seat: int, number: int, edits: Optional[int] = None) -> str:
        """Makes a proposal of another person, as calls of who proposed it: what is told. A line that is refused, and
        not marked so, ends it. `edits` says which showing was seen: how many edits the network had then, as it was told
        with the proposal. Where none is given, that is the last one.

        Mistake where it is one's own; Stale where the network was edited since it was shown, or it was shown anew since
        it was seen."""
        made = self._shown(number)
        if made.seat == seat or seat in made.owners or seat in self.people.of(made.seat):
            raise Mistake("proposal %d is your own: another one accepts it" % number)
        if self.is_stale(number):
            raise Stale("the network was edited since proposal %d was shown" % number)
        if edits not in (None, made.edits):
            raise Stale("proposal %d was shown anew since you saw it: look at it again" % number)
        self.making = number
        del self.open[number]
        whose = "proposal %d of %s, %s" % (number, self.seats.name_of(made.seat), made.name)
        told = "%s accepts %s: %s" % (self.seats.name_of(seat), whose, self._make(made, seat))
        self.making = 0
        return self.closed(made, told)

    def _make(self, made: Proposal, by: int) -> str:
        count = 0
        for line in made.lines:
            fault = self.calling.call(made.seat, line.text, by).fault(line.expected)
            if fault:
                return "line %d: %s; of its commands %d were made" % (line.number, fault, count)
            count += line.is_command
        return "%d command%s made" % (count, "" if count == 1 else "s")

    def decline(self, seat: int, number: int) -> str:
        """Takes a proposal away."""
        made = self.open.get(number)
        if made is None:
            raise Mistake("there is no proposal %d" % number)
        del self.open[number]
        names = self.seats.name_of(seat), self.seats.name_of(made.seat)
        return self.closed(made, "%s declines proposal %d of %s, %s" % (names[0], number, names[1], made.name))

    def closed(self, made: Proposal, text: str) -> str:
        """Tells all that a proposal is not open any more."""
        self.happening.tell("told", text, {"closes": made.number})
        return text
