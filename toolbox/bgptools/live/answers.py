"""A folder of saved answers, a file for each router."""
from __future__ import annotations

import pathlib
from typing import Dict, List

from ..importers.common.sources import text_of
from ..program.language import address
from ..program.mistakes import Mistake
from . import bird, frr
from .routes import LiveRoute


def answers_in(folder: str) -> Dict[str, List[LiveRoute]]:
    """The chosen routes of each router, by the name of its file without an ending; raises Mistake where the folder has
    no file, or a file is no answer."""
    place = pathlib.Path(folder)
    if not place.is_dir():
        raise Mistake("a folder of answers is expected, one file a router", folder)
    found: Dict[str, List[LiveRoute]] = {}
    for path in sorted(each for each in place.iterdir() if not each.name.startswith(".") and not each.is_dir()):
        name = path.name if address(path.name) is not None else path.stem
        if name in found:
            raise Mistake("there is a second file of the router %s; keep one" % name, str(path))
        text = text_of(str(path), is_named=True)
        found[name] = (frr if text.lstrip().startswith("{") else bird).routes_of(text, str(path))
    if not found:
        raise Mistake("it has no file; one answer a router is expected, of `show ip bgp json` or `show route all`",
                      folder)
    return found
