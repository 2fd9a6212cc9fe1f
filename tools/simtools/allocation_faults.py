"""Allocation failure injection: runs in which one allocation fails, by allocation_faults.c; it needs cc."""
from __future__ import annotations

import contextlib
import os
import pathlib
import subprocess
import tempfile
from typing import Callable, Dict, Iterator

from .commands import Missing
from .running import Ran

SOURCE = pathlib.Path(__file__).resolve().with_name("allocation_faults.c")
Injector = Callable[[int], Dict[str, str]]


@contextlib.contextmanager
def injector() -> Iterator[Injector]:
    """Makes the environment of a run in which the allocation of a number fails; with 0 none does, and they are
    counted. Missing where there is no cc."""
    with tempfile.TemporaryDirectory() as folder:
        library = os.path.join(folder, "allocation_faults.so")
        try:
            subprocess.run(["cc", "-shared", "-fPIC", "-o", library, str(SOURCE), "-ldl"], check=True)
        except FileNotFoundError:
            raise Missing("there is no cc, which %s needs: a C compiler has it" % SOURCE.name) from None
        yield lambda number: {**os.environ, "LD_PRELOAD": library, "FAILED_ALLOCATION": str(number)}


def allocations(ran: Ran) -> int:
    """How many allocations a run made in which number 0 failed, that is, none. Missing where it printed no number, as
    a program that is linked statically does not."""
    told = ran.err.split()
    if not told or not told[-1].isdigit():
        raise Missing("the program prints no number of allocations: allocation_faults.c is not loaded into it")
    return int(told[-1])
