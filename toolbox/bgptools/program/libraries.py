"""The Python libraries that some tools need, and what a user types to get one that is missing.

`need("lab")` stands where the libraries of an extra of pyproject.toml come into use: at the start of a tool's `main`,
or where a picture is placed. Text needs none of them. `cli/interpreter.py` finds a Python that has them."""
from __future__ import annotations

import pathlib
import re
import sys
from typing import Mapping, NamedTuple, Optional, Tuple

from .mistakes import Mistake

# The folder of the package.
HERE = pathlib.Path(__file__).resolve().parent.parent


class Library(NamedTuple):
    """A library: the least version that will do, and the Debian package that has it."""
    least: Tuple[int, ...]
    package: str


LIBRARIES: Mapping[str, Library] = {
    "tornado": Library((6, 1), "python3-tornado"),
    "prompt_toolkit": Library((3, 0, 28), "python3-prompt-toolkit"),
    "networkx": Library((2, 4), "python3-networkx"),
    "pygraphviz": Library((1, 7), "python3-pygraphviz"),
    "distributed": Library((2022, 1), "python3-distributed"),
    "pandas": Library((1, 3), "python3-pandas"),
    "rich": Library((12,), "python3-rich")}
PICTURES = ("networkx", "pygraphviz")
# The extras of pyproject.toml, as `bgptools[lab]`, and the libraries of each. (`lab` shows pictures.)
EXTRAS: Mapping[str, Tuple[str, ...]] = {
    "lab": ("tornado", *PICTURES), "prompt": ("prompt_toolkit",), "pictures": PICTURES, "cluster": ("distributed",),
    "tables": ("pandas",), "display": ("rich",)}


def need(extra: str) -> None:
    """Raises Mistake if a library of the extra is missing or too old.

    The message says in one line what to type to install it."""
    for name in EXTRAS[extra]:
        found = fault(name)
        if found:
            raise Mistake("%s, and %s has %s: type %s" % (_wanted(name), sys.executable, found, _remedy(name, extra)))


def fault(name: str) -> Optional[str]:
    """What is there instead of the library; None if it will do."""
    # These modules take some time to load, and most tools need no library.
    from importlib import metadata, util
    if util.find_spec(name) is None:
        return "none"
    try:
        version = metadata.version(name)
    except metadata.PackageNotFoundError:
        return None
    return None if _numbers(version) >= LIBRARIES[name].least else "version %s" % version


def _numbers(version: str) -> Tuple[int, ...]:
    """The numbers at the start of a version: (6, 2) of 6.2b1."""
    found = re.match(r"\d+(?:\.\d+)*", version)
    return tuple(map(int, found.group(0).split("."))) if found else ()


def _wanted(name: str) -> str:
    return "this tool needs the Python library %s %s or later" % (name, ".".join(map(str, LIBRARIES[name].least)))


def _remedy(name: str, extra: str) -> str:
    """What the user types: it depends on how these tools came here."""
    top = repository()
    if top:
        return "`%s`" % (top / "tools" / "setup")
    if HERE.parent.name == "bgpsim":
        return "`apt-get install %s`" % LIBRARIES[name].package
    return "`pip install 'bgptools[%s]'`" % extra


def repository() -> Optional[pathlib.Path]:
    """The top of the repository, if this is its toolbox/bgptools."""
    top = HERE.parent.parent
    return top if HERE.parent.name == "toolbox" and (top / "tools" / "setup").is_file() else None
