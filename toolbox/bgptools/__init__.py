"""What the tools of toolbox/ share, and the tools themselves: each writes lines for `bgpsim script` and reads its
replies. `from bgptools import Network` is the interface for programs of one's own (docs/reference/python.md)."""
from __future__ import annotations

import importlib
from typing import TYPE_CHECKING

if TYPE_CHECKING:
    from .api.effect import Effect, InBetween, RouteChange, Sent, WayChange
    from .api.network import Network, NotConverged
    from .api.tables import Table, read_sweep
    from .api.values import Cost, Delivery, Explanation, Link, Message, Node, Reason, Route, Session, Converged
    from .network.refusals import Refusal
    from .program.mistakes import Mistake
    from .program.replies import Trace

__version__ = "0.2.0"
__all__ = ["Cost", "Delivery", "Effect", "Explanation", "InBetween", "Link", "Message", "Mistake", "Network", "Node",
           "Reason", "Refusal", "Route", "RouteChange", "Sent", "Session", "Converged", "Table", "Trace", "NotConverged", "WayChange",
           "read_sweep"]

# Where the names of the interface are.
MODULES = ("api.network", "api.values", "api.effect", "api.tables", "network.refusals", "program.replies")

if not TYPE_CHECKING:
    def __getattr__(name: str) -> object:
        """A name of the interface. Its modules are loaded when it is asked for, so that a tool begins without them."""
        for module in MODULES if name in __all__ else ():
            found = getattr(importlib.import_module("." + module, __name__), name, None)
            if found is not None:
                return found
        raise AttributeError("module %r has no attribute %r" % (__name__, name))
