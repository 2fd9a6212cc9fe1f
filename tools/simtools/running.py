"""Running a program, and many runs side by side."""
from __future__ import annotations

import concurrent.futures
import os
import subprocess
from typing import Any, Callable, Iterable, Iterator, NamedTuple, Sequence, TypeVar, Union

# After so many seconds what has to come is taken not to come, and a run not to end. Nothing takes nearly as long, also on
# a slow machine that has much else to do. Who works at a test may want to hear of it sooner.
PATIENCE = float(os.environ.get("PATIENCE") or 600)
Word = Union[str, bytes]
Result = TypeVar("Result")


class Ran(NamedTuple):
    """What a run wrote on both streams, and its exit status."""
    out: bytes
    err: bytes
    status: int


def run(words: Sequence[Word], given: bytes = b"", **more: Any) -> Ran:
    """Runs a program on this standard input; more are options of subprocess.run.

    Raises subprocess.TimeoutExpired for one that has not ended after `timeout` seconds: PATIENCE where nothing else is
    said; with None there is no such limit.
    """
    options = {"input": given, "stdout": subprocess.PIPE, "stderr": subprocess.PIPE, "timeout": PATIENCE, **more}
    ran = subprocess.run(words, **options)
    return Ran(ran.stdout or b"", ran.stderr or b"", ran.returncode)


def side_by_side(work: Callable[..., Result], *each: Iterable[Any], jobs: int = 0) -> Iterator[Result]:
    """What the work comes to for each, in order, so many at once, or as many as there are processors. What is not begun
    when the caller stops reading is left out."""
    with concurrent.futures.ThreadPoolExecutor(jobs or len(os.sched_getaffinity(0))) as pool:
        yield from pool.map(work, *each)
