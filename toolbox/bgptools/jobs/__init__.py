"""Worker processes for what takes long: pictures, tables, what-ifs, and checks of the log.

A server that holds a log and sockets makes one `Pool` and awaits its answers; it computes nothing itself. Workers are
other processes (worker.py), each with its own limits, and none of them is told a name that a participant chose.

`pool` has the queues and the workers, `executor` is what a worker does; `views`, `changes` and `checks` are the jobs.
A new job belongs here. `session` and `web` call this."""
from __future__ import annotations

import importlib
from typing import TYPE_CHECKING

if TYPE_CHECKING:
    from .limits import Limits
    from .pool import Pool
    from .request import Asker, Busy

__all__ = ["Asker", "Busy", "Limits", "Pool"]
_MODULES = {"Asker": "request", "Busy": "request", "Limits": "limits", "Pool": "pool"}

if not TYPE_CHECKING:
    def __getattr__(name: str) -> object:
        """A name of the interface. A worker is of this package, too, and begins without the modules of the server."""
        if name in _MODULES:
            return getattr(importlib.import_module("." + _MODULES[name], __name__), name)
        raise AttributeError("module %r has no attribute %r" % (__name__, name))
