"""Real inputs of the importers, as they lie in this repository: what tools/fuzz-importers changes."""
from __future__ import annotations

import pathlib
import re
from typing import Dict, Iterator, List, NamedTuple, Optional, Sequence

from .programs import TOP

DATA, LESSONS = TOP / "toolbox" / "tests" / "data", TOP / "toolbox" / "lessons"
# What is a comment in each kind of file: an expression, or None where a file has bytes and no words.
COMMENTS: Dict[str, Optional[str]] = {
    "from-frr": r"^\s*[!#].*", "from-bird": r"#.*|/\*.*", "from-cbgp": r"#.*", "from-as-rel": r"^#.*", "from-rib": "",
    "from-graph": r"^\s*#.*|<!--.*", "from-mrt": None}


class Input(NamedTuple):
    """A call of an importer: its files by their names in a folder, the words of the call (`.` is the folder, another
    file's name that file), and what is changed: the files that are a router's, a script's, a table's."""
    importer: str
    name: str
    files: Dict[str, bytes]
    words: Sequence[str]


def _folder(importer: str, folder: pathlib.Path) -> Input:
    """A folder of configurations."""
    paths = sorted(path for path in folder.rglob("*") if path.is_file() and not path.is_symlink())
    files = {str(path.relative_to(folder)): path.read_bytes() for path in paths}
    return Input(importer, str(folder.relative_to(TOP)), files, ["."])


def _file(importer: str, path: pathlib.Path, *words: str) -> Input:
    """A file, and what it includes beside it."""
    names = re.findall(r'^include "?([^"\s]+)', path.read_text(), re.M) if importer == "from-cbgp" else []
    beside = {name: (path.parent / name).read_bytes() for name in names}
    name = " ".join([str(path.relative_to(TOP)), *words])
    return Input(importer, name, {path.name: path.read_bytes(), **beside}, [path.name, *words])


def _spelled(path: pathlib.Path) -> Input:
    """A table dump that a file spells in hexadecimal digits."""
    lines = path.read_text().split("\n")
    content = bytes.fromhex("".join(line.partition("#")[0] for line in lines))
    return Input("from-mrt", str(path.relative_to(TOP)), {"rib.mrt": content}, ["rib.mrt"])


def _all() -> Iterator[Input]:
    folders = sorted((DATA / "frr-cases").glob("*/net"))
    yield from (_folder("from-frr", folder) for folder in [DATA / "frr", LESSONS / "frr", *folders])
    yield from (_folder("from-bird", folder) for folder in [LESSONS / "bird", *sorted((DATA / "bird").iterdir())]
                if folder.is_dir())
    yield from (_file("from-cbgp", path) for path in sorted((DATA / "cbgp").glob("*.cli")) if path.name != "peers.cli")
    yield _file("from-cbgp", LESSONS / "two-ases.cli")
    graphs = DATA / "graph"
    yield _file("from-graph", graphs / "abilene.gml", "--speed")
    yield _file("from-graph", graphs / "europe.graphml", "--speed", "--reflectors", "2")
    yield _file("from-graph", graphs / "weights.gml", "--cost", "weight")
    yield _file("from-graph", LESSONS / "ring.gml")
    for words in ((), ("--communities", "--origins", "all"), ("--about", "3,4", "--observers", "1")):
        yield _file("from-as-rel", LESSONS / "relationships.txt", *words)
    for path in (LESSONS / "rib.txt", DATA / "mrt" / "collector.txt", DATA / "mrt" / "two-peers.txt"):
        yield _file("from-rib", path)
    yield _file("from-mrt", LESSONS / "rib.mrt")
    yield from map(_spelled, sorted((DATA / "mrt").glob("*.hex")))


def inputs() -> Dict[str, List[Input]]:
    """All of them, by importer."""
    found: Dict[str, List[Input]] = {}
    for each in _all():
        found.setdefault(each.importer, []).append(each)
    return found
