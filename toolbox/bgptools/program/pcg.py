"""The random numbers of the program's order `random`: PCG XSH RR 64/32, as the C code of PCG has it.

M. E. O'Neill, "PCG: A Family of Simple Fast Space-Efficient Statistically Good Algorithms for Random Number
Generation", Harvey Mudd College, HMC-CS-2014-0905, 2014; https://www.pcg-random.org. Numbers below a bound are made as
the Rust crate `rand` makes them from `random_range`, by Canon's method."""
from __future__ import annotations

MULTIPLIER = 6364136223846793005
WORD, STATE = (1 << 32) - 1, (1 << 64) - 1
# The stream of the order `random`: that of PCG's own example program.
STREAM = 54


class Pcg32:
    """A generator of words of 32 bits, begun with a state and a stream, each of 64 bits."""

    def __init__(self, state: int, stream: int) -> None:
        self.increment = (stream << 1 | 1) & STATE
        self.state = 0
        self._step()
        self.state = self.state + state & STATE
        self._step()

    def _step(self) -> None:
        self.state = self.state * MULTIPLIER + self.increment & STATE

    def next_u32(self) -> int:
        """The next word, 0 to 4294967295."""
        state = self.state
        self._step()
        word, turns = (state >> 18 ^ state) >> 27 & WORD, state >> 59
        return (word >> turns | word << (32 - turns)) & WORD

    def below(self, count: int) -> int:
        """A number of 0 to `count` - 1, for a count of 1 to 4294967295.

        A word is read as a fraction, and multiplied by the count. Where further digits of the fraction could carry,
        one more word decides."""
        number, rest = divmod(self.next_u32() * count, 1 << 32)
        if rest > (1 << 32) - count and rest + (self.next_u32() * count >> 32) > WORD:
            return number + 1
        return number
