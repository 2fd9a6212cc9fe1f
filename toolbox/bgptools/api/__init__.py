"""The interface for programs of one's own: `from bgptools import Network` (docs/reference/python.md).

`network` has the network as an object; each command of the language is a call of `commands`. `values` and `effect`
are the data classes of its answers; `tables` has lists of them, for notebooks and pandas. `copies` and `held_run` are the runs
behind it.

What such a program may call belongs here, and is named in `__all__` of the package `bgptools`."""
