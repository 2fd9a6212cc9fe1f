"""Leaves the proofs of functions out of a copied crate: each gets one that is a hole, in the place of what proves it. A
check with --allow-holes takes such a function by its statement, as it takes what stands in another crate, so that the
functions that are left are judged without a proof of the others."""
from __future__ import annotations

import pathlib
import re
from typing import Collection, Dict, Iterator, List, NamedTuple, Optional, Set, Tuple

from . import rattle_source as reading

HOLE = "use Rattle.%s.Statement.{statement}\n\npub %s_spec : {M : Type 1} → statement M\n%s_spec = ?\n"
TEST_MODULE = re.compile(r"#\[cfg\(test\)\]\s*mod (\w+)")
TEST = re.compile(r"#\[test\]\s*(?:#\[[^\n]*\]\s*)*fn (\w+)")
BY_TACTICS = ("Invariants.antt", "Answers.antt")


class Place(NamedTuple):
    """Where the proof of a function stands, below proofs/: its modules and its type, or its type and a trait of that;
    and its name."""
    above: Tuple[str, ...]
    name: str

    def printed(self, crate: str) -> str:
        """The function as a check names it."""
        return "::".join([crate, *self.above, self.name])


class Body(NamedTuple):
    """A function with a body: the module that it stands in; its place, where that is known; its name; the names that
    its body calls; whether it calls itself, so that its proof is one of a cycle of calls; and all names in its body."""
    module: Tuple[str, ...]
    place: Optional[Place]
    name: str
    calls: Set[str]
    is_recursive: bool
    words: Set[str]


def module(path: pathlib.PurePath) -> Tuple[str, ...]:
    """The module that a file of src/ is."""
    return tuple(part for part in path.with_suffix("").parts if part not in ("lib", "main"))


def read(folder: pathlib.Path) -> Iterator[Tuple[Tuple[str, ...], reading.Source]]:
    """The sources of a crate but its tests, each with its module. Those that cannot be read are passed over."""
    texts = {module(path.relative_to(folder / "src")): path.read_text() for path in (folder / "src").rglob("*.rt")}
    tests = {(*at, name) for at, text in texts.items() for name in TEST_MODULE.findall(text)}
    for at, text in sorted(texts.items()):
        read_now = reading.Reading("::".join(at), folder.name, text)
        try:
            read_now.items(reading.nested(text, read_now.source.file))
        except reading.Unreadable:
            continue
        if not any(at[:len(test)] == test for test in tests):
            yield at, read_now.source


def type_homes(sources: Collection[Tuple[Tuple[str, ...], reading.Source]]) -> Dict[str, List[Tuple[str, ...]]]:
    """Of each type of the crate, the modules that declare one of that name."""
    found: Dict[str, List[Tuple[str, ...]]] = {}
    for at, source in sources:
        for name in re.findall(r"\b(?:struct|enum) (\w+)", source.text):
            found.setdefault(name, []).append(at)
    return found


def place_of(function: reading.Function, at: Tuple[str, ...], source: reading.Source,
             homes: Dict[str, List[Tuple[str, ...]]]) -> Optional[Place]:
    """The place of a function's proof, where it is known: not of a trait's default, of a method of a trait that gets
    types, or of one of a type that another crate declares."""
    if not function.owner:
        return Place(at, function.name)
    of_types = r"\b%s<[^{]*([A-Z]\w|\()[^{]*> for %s" % (function.trait, function.owner)
    found = homes.get(function.owner, [])
    if len(found) != 1 or function.trait and (found[0] != at or re.search(of_types, source.text)):
        return None
    return Place((*found[0], function.owner + function.trait), function.name)


def bodies(folder: pathlib.Path) -> List[Body]:
    """The functions of a crate that have a body."""
    sources = list(read(folder))
    homes, found = type_homes(sources), []
    for at, source in sources:
        tests = set(TEST.findall(source.text))
        for function in source.functions:
            if function.body and function.name not in tests | {"main"}:
                text = source.text[function.body.start:function.body.end]
                calls = set(re.findall(r"\b(\w+)\s*(?:::<[^()]*>)?\(", text))
                itself = (r"(?:self\.|Self::)%s\(" if function.owner else r"(?<!\.)\b%s\(") % function.name
                found.append(Body(at, place_of(function, at, source, homes), function.name, calls,
                                  bool(re.search(itself, text)), set(re.findall(r"\b[A-Za-z_]\w*", text))))
    return found


def leave_out(folder: pathlib.Path, kept: Collection[str]) -> None:
    """Leaves out the proofs of all functions of the crate in this folder but those that a check names so."""
    proofs = folder / "proofs"
    in_cycles = {path.name[1:] for path in proofs.rglob("+*") if path.is_dir()}
    for body in bodies(folder):
        place = body.place
        if place is None or body.is_recursive or body.name in in_cycles or place.printed(folder.name) in kept:
            continue
        at = proofs.joinpath(*place.above, place.name)
        at.mkdir(parents=True, exist_ok=True)
        for file in BY_TACTICS:
            if (at / file).is_file():
                (at / file).unlink()
        path = ".".join([folder.name, "proofs", *place.above, place.name])
        (at / "Proof.antt").write_text(HOLE % (path, place.name, place.name))
