"""Reads Rattle source: its tokens, how they nest, and the functions, types, constants and imports of a file. Contracts,
comments and attributes are passed over."""
from __future__ import annotations

import pathlib
import re
from typing import Dict, Iterator, List, NamedTuple, Optional, Sequence, Tuple, Union

TOKEN = re.compile(r"""(?P<space>\s+|//[^\n]*)
    |(?P<text>b?r(?P<hashes>\#*)"(?:.|\n)*?"(?P=hashes)|b?"(?:\\(?:.|\n)|[^"\\])*")
    |(?P<char>b?'(?:\\(?:x[0-9a-fA-F]{2}|u\{[^}]*\}|.)|[^'\\\n])')
    |(?P<lifetime>'[^\W\d]\w*)
    |(?P<number>\d(?:[\w]|\.(?=\d))*)
    |(?P<name>[^\W\d]\w*)
    |(?P<sign>=>|->|::|==|!=|<=|>=|&&|\|\||\.\.=|\.\.|\S)""", re.VERBOSE)
CLOSING = {"(": ")", "[": "]", "{": "}"}


class Unreadable(Exception):
    """A file that cannot be read as Rattle: where, and why."""


class Token(NamedTuple):
    kind: str
    text: str
    line: int
    start: int
    end: int


class Group(NamedTuple):
    """What stands in brackets; the text is the opening one."""
    text: str
    inner: List["Node"]
    line: int
    start: int
    end: int


Node = Union[Token, Group]
Nodes = Sequence[Node]


class Function(NamedTuple):
    """A declared function. The owner is the type or trait that it belongs to, and the trait the one that it is of; the
    clauses are those of its contract, each in its braces."""
    name: str
    file: str
    line: int
    owner: str
    trait: str
    parameters: Dict[str, Nodes]
    has_self: bool
    gives: Nodes
    clauses: Nodes
    body: Optional[Group]
    of: str
    is_public: bool


class Source(NamedTuple):
    """A file. Of an enum its variants, of a struct the types of its fields, of a constant its nodes."""
    file: str
    crate: str
    text: str
    functions: List[Function]
    enums: Dict[str, List[str]]
    structs: Dict[str, Dict[str, Nodes]]
    constants: Dict[str, Nodes]
    imports: Dict[str, List[str]]


def block_end(text: str, at: int) -> int:
    """Where a comment in /* .. */ ends, others inside it counted."""
    depth = 0
    for found in re.finditer(r"/\*|\*/", text[at:]):
        depth += 1 if found.group() == "/*" else -1
        if not depth:
            return at + found.end()
    return len(text)


def tokens(text: str) -> Iterator[Token]:
    at, line = 0, 1
    while at < len(text):
        end = block_end(text, at) if text.startswith("/*", at) else 0
        found = None if end else TOKEN.match(text, at)
        if found:
            end = found.end()
            if found.lastgroup != "space":
                kind = found.lastgroup if found.lastgroup != "hashes" else "text"
                yield Token(kind or "text", found.group(), line, at, end)
        line += text.count("\n", at, end)
        at = end


def nested(text: str, file: str) -> List[Node]:
    """The tokens of a text, in the groups that its brackets make. Raises Unreadable."""
    open_now: List[Tuple[Optional[Token], List[Node]]] = [(None, [])]
    for token in tokens(text):
        if token.kind == "sign" and token.text in CLOSING:
            open_now.append((token, []))
        elif token.kind == "sign" and token.text in CLOSING.values():
            first, inner = open_now.pop()
            if first is None or CLOSING[first.text] != token.text:
                raise Unreadable("%s:%d: `%s` closes nothing" % (file, token.line, token.text))
            open_now[-1][1].append(Group(first.text, inner, first.line, first.start, token.end))
        else:
            open_now[-1][1].append(token)
    last = open_now[-1][0]
    if last is not None:
        raise Unreadable("%s:%d: `%s` is not closed" % (file, last.line, last.text))
    return open_now[0][1]


def is_group(node: Node, opening: str) -> bool:
    return isinstance(node, Group) and node.text == opening


def is_name(node: Node) -> bool:
    return isinstance(node, Token) and node.kind == "name"


def text_at(nodes: Nodes, at: int) -> str:
    """The text of a token; empty past the ends, and for a group its opening bracket."""
    return nodes[at].text if 0 <= at < len(nodes) else ""


def inside(nodes: Nodes, at: int) -> Nodes:
    """What stands in the brackets at this place; nothing where there are none."""
    node = nodes[at] if 0 <= at < len(nodes) else None
    return node.inner if isinstance(node, Group) else []


def find(nodes: Nodes, texts: Sequence[str], start: int = 0) -> int:
    """Where the first of these stands at this level, or the end."""
    return next((at for at in range(start, len(nodes)) if nodes[at].text in texts), len(nodes))


def angle_end(nodes: Nodes, at: int) -> int:
    """Past the `>` that closes the `<` at this place."""
    depth = 0
    for here in range(at, len(nodes)):
        depth += (nodes[here].text == "<") - (nodes[here].text == ">")
        if not depth:
            return here + 1
    return len(nodes)


def split(nodes: Nodes, sign: str) -> List[Nodes]:
    """The parts between these signs at this level; those in angles and a closure's parameters belong to one part."""
    parts: List[Nodes] = []
    begun, at = 0, 0
    while at < len(nodes):
        if nodes[at].text == "<" and opens_arguments(nodes, at):
            at = angle_end(nodes, at)
            continue
        if sign == "," and nodes[at].text == "|" and (at == begun or text_at(nodes, at - 1) == "move"):
            at = find(nodes, ["|"], at + 1)
        elif nodes[at].text == sign:
            parts.append(nodes[begun:at])
            begun = at + 1
        at += 1
    return parts + [nodes[begun:]] if begun < len(nodes) else parts


def opens_arguments(nodes: Nodes, at: int) -> bool:
    """Whether the `<` at this place opens the arguments of a type, and compares nothing."""
    before = text_at(nodes, at - 1)
    return before in ("", "::") or before[0].isupper()


def head(nodes: Nodes) -> str:
    """The last name of a type's path, without references and arguments: `Vec` of `&mut std::vec::Vec<T>`."""
    found = ""
    for at, node in enumerate(nodes):
        if node.text == "<" or is_group(node, "("):
            break
        if is_name(node) and node.text not in ("mut", "dyn", "impl"):
            found = node.text
    return found


def arguments(nodes: Nodes) -> List[Nodes]:
    """The arguments of a type: `T` and `E` of `Result<T, E>`."""
    at = find(nodes, ["<"])
    return [part for part in split(nodes[at + 1:angle_end(nodes, at) - 1], ",") if part] if at < len(nodes) else []


def error_of(nodes: Nodes) -> Optional[Nodes]:
    """The error of a type Result<_, E>; the whole type where it is a Result of another name; None where it is none."""
    if head(nodes) != "Result":
        return None
    given = arguments(nodes)
    return given[1] if len(given) == 2 else nodes


class Reading:
    """The items of one file, as they are read."""

    def __init__(self, file: str, crate: str, text: str) -> None:
        self.source = Source(file, crate, text, [], {}, {}, {}, {})

    def items(self, nodes: Nodes, owner: str = "", trait: str = "", of: str = "") -> None:
        at = 0
        while at < len(nodes):
            word = text_at(nodes, at)
            if word in ("use", "ghost", "type"):
                end = find(nodes, [";"], at)
                if word == "use":
                    self.uses(nodes[at + 1:end], [])
                at = end
            elif word == "fn" and at + 1 < len(nodes) and is_name(nodes[at + 1]):
                at = self.function(nodes, at, owner, trait, of)
                continue
            elif word in ("impl", "trait", "mod", "enum", "struct", "const", "static"):
                at = self.item(nodes, at, word)
                continue
            at += 1

    def item(self, nodes: Nodes, at: int, word: str) -> int:
        """Past the item that begins here."""
        if word in ("const", "static"):
            if text_at(nodes, at + 1) == "fn":
                return at + 1
            end = find(nodes, [";"], at)
            self.source.constants[text_at(nodes, at + 1)] = nodes[find(nodes, ["="], at) + 1:end]
            return end + 1
        end = find(nodes, ["{", ";"], at)
        header = nodes[at + 1:end]
        if text_at(nodes, end) == "{":
            inner = inside(nodes, end)
            if word == "enum":
                self.source.enums[text_at(header, 0)] = list(variants(inner))
            elif word == "struct":
                self.source.structs[text_at(header, 0)] = fields(inner)
            else:
                self.items(inner, *owner_of(word, header))
        return end + 1

    def uses(self, nodes: Nodes, path: List[str]) -> None:
        """The names that an import brings, each with its path."""
        for part in split(nodes, ","):
            names = [node.text for node in part if is_name(node)]
            if part and is_group(part[-1], "{"):
                self.uses(inside(part, len(part) - 1), path + names)
            elif "as" in names:
                self.source.imports[names[-1]] = path + names[:-2]
            elif names:
                self.source.imports[path[-1] if names[-1] == "self" else names[-1]] = path + names

    def function(self, nodes: Nodes, at: int, owner: str, trait: str, of: str) -> int:
        """Past the function whose `fn` stands here."""
        name, line, is_public = text_at(nodes, at + 1), nodes[at].line, text_at(nodes, at - 1) == "pub"
        at += 2
        if text_at(nodes, at) == "<":
            at = angle_end(nodes, at)
        given = inside(nodes, at)
        end = past_header(nodes, at + 1)
        arrow = find(nodes[:end], ["->"], at)
        cut = find(nodes[:end], ["requires", "ensures", "where"], arrow if arrow < end else at)
        gives = nodes[arrow + 1:cut]
        body = nodes[end] if end < len(nodes) and isinstance(nodes[end], Group) else None
        has_self = any(node.text == "self" for node in given[:4])
        clauses = [node for node in nodes[cut:end] if is_group(node, "{")]
        self.source.functions.append(Function(name, self.source.file, line, owner, trait, fields(given), has_self,
                                              gives, clauses, body, of, is_public))
        return end + 1


def past_header(nodes: Nodes, at: int) -> int:
    """Where a function's body stands, or the `;` in its place: past its type and its clauses."""
    while at < len(nodes):
        if nodes[at].text in ("requires", "ensures"):
            at = find(nodes, ["{"], at) + 1
        elif nodes[at].text in ("{", ";"):
            return at
        else:
            at += 1
    return at


def owner_of(word: str, header: Nodes) -> Tuple[str, str, str]:
    """The owner of the functions of an impl, trait or module, the trait of the impl, and what this one is From."""
    if word == "mod":
        return "", "", ""
    start = angle_end(header, 0) if text_at(header, 0) == "<" else 0
    rest = header[start:find(header, ["where"])]
    cut = find(rest, ["for"])
    if word == "trait":
        return head(rest[:find(rest, [":"])]), "", ""
    if cut == len(rest):
        return head(rest), "", ""
    given = arguments(rest[:cut])
    return head(rest[cut + 1:]), head(rest[:cut]), head(given[0]) if given and head(rest[:cut]) == "From" else ""


def variants(inner: Nodes) -> Iterator[str]:
    for part in split(inner, ","):
        at = 0
        while text_at(part, at) == "#":
            at += 2
        if at < len(part) and is_name(part[at]):
            yield part[at].text


def fields(inner: Nodes) -> Dict[str, Nodes]:
    """Names with their types, of a struct or of a function's parameters."""
    found = {}
    for part in split(inner, ","):
        cut = find(part, [":"])
        names = [node for node in part[:cut] if is_name(node)]
        if names and cut < len(part):
            found[names[-1].text] = part[cut + 1:]
    return found


def read(path: pathlib.Path, top: pathlib.Path) -> Source:
    """A file of crates/CRATE/src. Raises Unreadable."""
    file = path.relative_to(top).as_posix()
    text = path.read_text()
    reading = Reading(file, file.split("/")[1], text)
    reading.items(nested(text, file))
    return reading.source


def shown(source: str, nodes: Nodes) -> str:
    """The nodes as they are written, on one line."""
    return " ".join(source[nodes[0].start:nodes[-1].end].split()) if nodes else ""
