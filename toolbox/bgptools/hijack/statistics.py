"""Shares of the ASes over many pairs: their mean, its interval by bootstrap, and their distribution."""
from __future__ import annotations

from typing import List, NamedTuple, Sequence, Tuple

from ..program.pcg import Pcg32

RESAMPLES = 1000
# The stream of the generator that resamples.
STREAM = 3


class Share(NamedTuple):
    """A mean of shares, each 0 to 1, and the ends of its interval; of one share alone these are that share."""
    mean: float
    low: float
    high: float


def mean_of(shares: Sequence[float]) -> Share:
    """The mean of some shares, at least one, and its interval of 95 percent by the bootstrap percentile (B. Efron,
    "Bootstrap Methods: Another Look at the Jackknife", Annals of Statistics 7(1), 1979).

    As many shares as there are are drawn from them with replacement, 1,000 times. The interval goes from the 25th of
    these means to the 975th. The generator begins anew for each, so the same shares have the same interval."""
    draw, count = Pcg32(len(shares), STREAM), len(shares)
    means = sorted(sum(shares[draw.below(count)] for _ in range(count)) / count for _ in range(RESAMPLES))
    return Share(sum(shares) / count, means[RESAMPLES // 40 - 1], means[RESAMPLES - RESAMPLES // 40 - 1])


def distribution(shares: Sequence[float]) -> List[Tuple[float, float]]:
    """The steps of the cumulative distribution: each share that occurs, and what part of all is at most that."""
    ordered = sorted(shares)
    return [(share, at / len(ordered)) for at, share in enumerate(ordered, 1)
            if at == len(ordered) or ordered[at] != share]
