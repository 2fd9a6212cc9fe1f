"""What a failed call means: whether the declared error of what is called is a memory refusal, and nothing else."""
from __future__ import annotations

import collections
from typing import Any, Dict, Iterable, List, NamedTuple, Optional, Set, Tuple

from . import rattle_source as reading
from .rattle_source import Function, Group, Nodes, Source, find, head, is_group, is_name, text_at

# Errors of the kit that mean that memory ran out, and nothing else; a thread that is refused counts as that.
ONLY_MEMORY = {"AllocError", "AllocFailed", "SpawnError"}
# Calls of the kit that leave the error of what they are called on.
SAME_ERROR = {"map", "as_ref", "as_mut", "copied", "cloned"}
# Calls of the kit that fail only if memory runs out. Of others it is not known here.
FOR_MEMORY = {"new", "with_capacity", "from_array", "from_slice", "collect", "insert", "insert_full", "push",
              "push_shown", "push_str", "push_back", "extend", "extend_from_slice", "append", "reserve",
              "reserve_exact", "spawn", "spawn_with"}
Scope = Dict[str, Optional[Tuple[Nodes, Any]]]


class Place(NamedTuple):
    """Where an expression stands: its file, and the function around it."""
    source: Source
    function: Function


class Calls:
    """The functions of the workspace, by their names, and those whose error hands back what they were given."""

    def __init__(self, sources: Iterable[Source]) -> None:
        self.sources = {source.file: source for source in sources}
        self.crates = {source.crate for source in self.sources.values()}
        self.named: Dict[str, List[Function]] = collections.defaultdict(list)
        self.memory_types = set(ONLY_MEMORY)
        self.variants = {name for source in self.sources.values() for kept in source.enums.values() for name in kept
                         if "Memory" in name} | {"OutOfMemory"}
        self.handing_back: Set[Tuple[str, str]] = set()
        self.tellers: Set[Tuple[str, str]] = set()
        for source in self.sources.values():
            for function in source.functions:
                self.named[function.name].append(function)

    def crate(self, function: Function) -> str:
        return self.sources[function.file].crate

    def names_memory(self, nodes: Nodes) -> bool:
        """Whether a pattern or a value names a memory refusal, in each of its alternatives."""
        parts = reading.split(nodes, "|")
        if len(parts) > 1:
            return all(map(self.names_memory, parts))
        return any(self.names_memory(node.inner) if isinstance(node, Group) else
                   node.text in self.memory_types | self.variants for node in nodes)

    def means_memory(self, function: Function) -> bool:
        """Whether the error of the function means that memory ran out, and nothing else."""
        error = reading.error_of(function.gives)
        handed = (function.file, function.name) in self.handing_back
        return error is not None and (handed or head(error) in self.memory_types)

    def why_not(self, nodes: Nodes, scope: Scope, place: Place) -> Optional[str]:
        """Why a failure of the expression need not be a memory refusal; None where it is that alone."""
        while nodes and text_at(nodes, 0) in ("&", "*", "mut"):
            nodes = nodes[1:]
        if len(nodes) == 1 and is_group(nodes[0], "("):
            return self.of_each(reading.split(reading.inside(nodes, 0), ","), scope, place)
        word = text_at(nodes, 0)
        if word in ("match", "if", "{"):
            return self.of_each(list(ends(nodes)), scope, place)
        if len(nodes) == 1 and is_name(nodes[0]):
            bound = scope.get(word)
            if bound is None:
                return "`%s` is no call, and no call just before gives it" % word
            return self.why_not(bound[0], bound[1], place)
        if len(nodes) == 2 and word in ("Ok", "Err") and is_group(nodes[1], "("):
            made = word == "Ok" or self.names_memory(nodes[1:])
            return None if made else "`%s` may say something else" % reading.shown(place.source.text, nodes)
        return self.of_call(nodes, scope, place)

    def of_each(self, parts: List[Nodes], scope: Scope, place: Place) -> Optional[str]:
        told = [self.why_not(part, scope, place) for part in parts]
        return next((why for why in told if why), None)

    def of_call(self, nodes: Nodes, scope: Scope, place: Place) -> Optional[str]:
        shown = reading.shown(place.source.text, nodes)
        if not nodes or not is_group(nodes[-1], "(") or chain_start(nodes, len(nodes)) != 0:
            return "`%s` is no call" % shown
        at = name_of_call(nodes)
        name, sign = text_at(nodes, at), text_at(nodes, at - 1)
        if not is_name(nodes[at]):
            return "what `%s` calls has no name" % shown
        if sign == "." and name in SAME_ERROR:
            return self.why_not(nodes[:at - 1], scope, place)
        if sign not in (".", "::") and name in scope:
            return "`%s` calls a variable, whose error cannot be said" % shown
        return self.of_found(name, self.found(nodes, at, scope, place), shown)

    def of_found(self, name: str, found: Optional[List[Function]], shown: str) -> Optional[str]:
        """Of the functions that the call may be of; None is the kit's."""
        if not found:
            return None if name in FOR_MEMORY else "it is not known that `%s` of the kit fails for memory alone" % name
        others = [function for function in found if not self.means_memory(function)]
        if not others:
            return None
        error = reading.error_of(others[0].gives)
        shown_error = reading.shown(self.sources[others[0].file].text, error) if error is not None else "no Result"
        told = "%s:%d: `%s` gives %s" % (others[0].file, others[0].line, name, shown_error)
        return told if len(others) == len(found) else "it cannot be said which `%s` this is: %s" % (name, told)

    def found(self, nodes: Nodes, at: int, scope: Scope, place: Place) -> Optional[List[Function]]:
        """The functions of the workspace that the call may be of; None where it is of the kit."""
        name, sign = text_at(nodes, at), text_at(nodes, at - 1)
        every = [function for function in self.named[name] if reading.error_of(function.gives) is not None]
        if sign == ".":
            return self.methods(every, nodes, at, scope, place)
        if sign == "::":
            return self.of_path(every, nodes, at, place)
        return self.free(every, name, place)

    def methods(self, every: List[Function], nodes: Nodes, at: int, scope: Scope,
                place: Place) -> Optional[List[Function]]:
        receiver = nodes[:at - 1]
        count = len(reading.split(reading.inside(nodes, len(nodes) - 1), ","))
        found = [one for one in every if one.has_self and len(one.parameters) == count]
        kind = self.type_of(receiver, scope, place)
        own = [one for one in found if kind and kind in (one.owner, one.trait)]
        if own:
            return own
        return None if kind and kind not in self.declared() else found

    def of_path(self, every: List[Function], nodes: Nodes, at: int, place: Place) -> Optional[List[Function]]:
        before = at - 2
        if text_at(nodes, before) == ">":
            before = angle_start(nodes, before) - 1
            before -= text_at(nodes, before) == "::"
        of = text_at(nodes, before)
        of = place.function.owner if of == "Self" else of
        if of[:1].isupper():
            return [one for one in every if of in (one.owner, one.trait)] or None
        path = place.source.imports.get(of, [of])
        return [one for one in every if not one.owner and self.is_in(one, path + [one.name], place)] or None

    def free(self, every: List[Function], name: str, place: Place) -> Optional[List[Function]]:
        own = [one for one in every if not one.owner and one.file == place.source.file]
        if own:
            return own
        path = place.source.imports.get(name)
        if path is None:
            return None
        return [one for one in self.named[path[-1]] if not one.owner and self.is_in(one, path, place)] or None

    def is_in(self, function: Function, path: List[str], place: Place) -> bool:
        """Whether the path can name the function: it begins at its crate."""
        first = place.source.crate if path[0] in ("crate", "self", "super") else path[0]
        return self.crate(function) == first or len(path) == 2 and function.file.endswith("/%s.rt" % path[0]) \
            and self.crate(function) == place.source.crate

    def declared(self) -> Dict[str, Dict[str, Nodes]]:
        return {name: kept for source in self.sources.values() for name, kept in source.structs.items()}

    def type_of(self, nodes: Nodes, scope: Scope, place: Place) -> str:
        """The name of the type of an expression, where it can be said simply; else nothing."""
        while nodes and text_at(nodes, 0) in ("&", "*", "mut"):
            nodes = nodes[1:]
        if not nodes:
            return ""
        last = nodes[-1].text
        if len(nodes) == 1 and is_name(nodes[0]):
            return self.type_of_name(last, scope, place)
        if is_name(nodes[-1]) and text_at(nodes, len(nodes) - 2) == ".":
            owner = self.type_of(nodes[:-2], scope, place)
            return head(self.declared().get(owner, {}).get(last, []))
        at = name_of_call(nodes) if is_group(nodes[-1], "(") else 0
        if at > 1 and text_at(nodes, at - 1) == "::" and text_at(nodes, at) in ("new", "with_capacity", "of"):
            return text_at(nodes, at - 2)
        return ""

    def type_of_name(self, name: str, scope: Scope, place: Place) -> str:
        if name == "self":
            return place.function.owner
        if name not in scope:
            return head(place.function.parameters.get(name, []))
        bound = scope[name]
        return self.type_of(bound[0], bound[1], place) if bound else ""


def ends(nodes: Nodes) -> Iterable[Nodes]:
    """What a `match`, an `if` or a block comes to: the last expression of each of its arms."""
    if is_group(nodes[0], "{"):
        inner = reading.inside(nodes, 0)
        starts = [0] + [at + 1 for at, node in enumerate(inner) if node.text == ";"]
        yield inner[starts[-1]:]
    elif nodes[0].text == "match":
        at = find(nodes, ["{"])
        for _, _, body in arms(reading.inside(nodes, at)):
            yield from ends(body) if body and is_group(body[0], "{") else [body]
    else:
        for node in nodes:
            if is_group(node, "{"):
                yield from ends([node])


def arms(inner: Nodes) -> Iterable[Tuple[Nodes, Nodes, Nodes]]:
    """Each arm of a match: its pattern, its guard, its body."""
    at = 0
    while at < len(inner):
        while text_at(inner, at) in ("#", "|"):
            at += 2 if text_at(inner, at) == "#" else 1
        arrow = find(inner, ["=>"], at)
        if arrow == len(inner):
            return
        cut = find(inner[:arrow], ["if"], at)
        is_block = arrow + 1 < len(inner) and is_group(inner[arrow + 1], "{")
        end = arrow + 2 if is_block else past_expression(inner, arrow + 1)
        yield inner[at:cut], inner[cut + 1:arrow], inner[arrow + 1:end]
        at = end + (text_at(inner, end) == ",")


def past_expression(nodes: Nodes, at: int) -> int:
    """Where the `,` after an expression stands, or the end."""
    rest = reading.split(nodes[at:], ",")
    return at + len(rest[0]) if rest else at


def name_of_call(nodes: Nodes) -> int:
    """Where the name of what is called stands, before the arguments that end the nodes."""
    at = len(nodes) - 2
    if text_at(nodes, at) == ">":
        at = angle_start(nodes, at) - 2
    return max(at, 0)


def angle_start(nodes: Nodes, at: int) -> int:
    """Where the `<` stands that the `>` at this place closes."""
    depth = 0
    for here in range(at, -1, -1):
        depth += (nodes[here].text == ">") - (nodes[here].text == "<")
        if not depth:
            return here
    return 0


def chain_start(nodes: Nodes, end: int) -> int:
    """Where the chain of names, calls and fields begins that stands before this place."""
    at = end
    while at > 0:
        node = nodes[at - 1]
        if node.text == ">" and text_at(nodes, angle_start(nodes, at - 1) - 1) == "::":
            at = angle_start(nodes, at - 1)
        elif is_group(node, "(") or is_group(node, "[") or node.text in (".", "::", "?"):
            at -= 1
        elif isinstance(node, reading.Token) and node.kind in ("name", "number", "text") and node.text not in (
                "return", "in", "match", "if", "else", "break", "move", "let", "mut", "as", "while"):
            if at < end and text_at(nodes, at) not in (".", "::", "?", "(", "["):
                break
            at -= 1
        else:
            break
    return at
