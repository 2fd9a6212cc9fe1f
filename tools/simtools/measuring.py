"""What a run of the program takes."""
from __future__ import annotations

import os
import statistics
import subprocess
import sys
import tempfile
import time
from typing import Any, Iterable, List, NamedTuple, Sequence


class Took(NamedTuple):
    """What a run wrote, the processor seconds it took, its own and the system's for it, and the seconds of a clock."""
    out: bytes
    processor: float
    clock: float


def took(words: Sequence[str], lines: Iterable[str] = (), **more: Any) -> Took:
    """Runs a program on these lines; more are options of subprocess.Popen. A status other than 0 ends the command, and
    is reported."""
    with tempfile.TemporaryFile() as script, tempfile.TemporaryFile() as out:
        script.write("".join(line + "\n" for line in lines).encode())
        script.seek(0)
        start = time.perf_counter()
        child = subprocess.Popen(words, stdin=script, stdout=out, **more)
        _, status, used = os.wait4(child.pid, 0)
        passed = time.perf_counter() - start
        # It was waited for here, and so must not be waited for again.
        child.returncode = -os.WTERMSIG(status) if os.WIFSIGNALED(status) else os.WEXITSTATUS(status)
        if child.returncode:
            sys.exit("%s ended with status %d" % (" ".join(words), child.returncode))
        out.seek(0)
        return Took(out.read(), used.ru_utime + used.ru_stime, passed)


def spread(times: List[float]) -> str:
    """The median of the times, the least in brackets."""
    return "%.3g (%.3g)" % (statistics.median(times), min(times))


def by_pairs(some: Sequence[float], others: Sequence[float]) -> float:
    """The median of what each of the one is of its fellow."""
    return statistics.median(one / other for one, other in zip(some, others))
