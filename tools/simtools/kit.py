"""The Rattle kit, as builds need it: the Python library of its command `rt`, and how a build tells how far it is."""
from __future__ import annotations

import importlib
import os
import shutil
import sys
import time
from typing import Any, Dict, List

COMMAND = "rt"


class Failed(Exception):
    """A build that failed, with what the kit printed of it."""


class Teller:
    """Says on standard error how far a build is: on a terminal over the line before."""

    def __init__(self) -> None:
        self.began = time.monotonic()
        self.is_terminal = sys.stderr.isatty()

    def tell(self, text: str) -> None:
        """Shows a line, with the minutes since the build began."""
        minutes = int((time.monotonic() - self.began) / 60)
        line = "bgpsim: %s%s" % ("%d min: " % minutes if minutes else "", text)
        width = shutil.get_terminal_size().columns - 1
        sys.stderr.write("\r\033[K" + line[:width] if self.is_terminal else line + "\n")
        sys.stderr.flush()

    def end(self) -> None:
        """Ends the line of a terminal."""
        if self.is_terminal:
            sys.stderr.write("\n")


def kit_library() -> Any:
    """The Python library of the kit's `rt`, changed so that it reads each library's files once.

    None where the kit's library has other functions than are known here. Failed where `rt` is not on the PATH."""
    command = shutil.which(COMMAND)
    if command is None:
        raise Failed("`rt`, the command of the Rattle kit, is not on the PATH: add the kit's folder `bin` to the PATH")
    sys.path.insert(0, os.path.dirname(os.path.realpath(command)))
    try:
        rtlib = importlib.import_module("rtlib")
        for name in ("Crate", "root_above", "lock", "main", "every", "stop_on_links", "subprocess", "KIT", "KEPT"):
            getattr(rtlib, name)
        for name in ("stamp", "below", "build_rlib", "is_built", "count", "call", "has_kept"):
            getattr(rtlib.Crate, name)
    except (ImportError, AttributeError):
        return None
    read_once(rtlib.Crate)
    return rtlib


def read_once(crate_class: Any) -> None:
    """Finds the libraries below a crate, and the sum of its files, once for each crate and not for every way to it."""
    below, stamp = crate_class.below, crate_class.stamp
    known_below: Dict[str, List[Any]] = {}
    known_stamp: Dict[str, str] = {}

    def below_once(self: Any) -> List[Any]:
        if self.folder not in known_below:
            known_below[self.folder] = below(self)
        return list(known_below[self.folder])

    def stamp_once(self: Any) -> str:
        if self.folder not in known_stamp:
            known_stamp[self.folder] = stamp(self)
        return known_stamp[self.folder]

    crate_class.below, crate_class.stamp = below_once, stamp_once
