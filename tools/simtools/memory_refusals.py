"""Checks that a memory refusal, as `refused 20 memory`, is passed on and never made up. No contract can say that memory
really ran out, so a body that invents a limit and reports it as out of memory is proved as well as the right one. This
check refuses it.

    tools/memory-refusals [CRATE..]      without a crate: all of them

A memory refusal is `AllocError`, each variant of an enum with `Memory` in its name (`Refusal::Memory`), and
what tools/memory-refusals.list adds. It is made only where a call has really failed:

    Err(_) =>  Err(refused) =>        of a match on a call           let Ok(..) = CALL else { .. }
    if let Err(_) = CALL { .. }       if CALL.is_err() { .. }        CALL.map_err(|_| ..)
    impl From<AllocError> for ..      or where the arm's own pattern or guard names it: Err(Refusal::Memory) =>

A variable that was bound to a call stands for it. The call has to be one whose declared error means that memory ran out
and nothing else; of the kit's calls a few are known to be such (FOR_MEMORY in failing_calls.py). Everything else is a
finding, FILE:LINE: what. The places that are right and have no such shape stand in tools/memory-refusals.list, with
what they ask and the constants in that; one that is no longer so is a finding. It does not see who asks for more memory
than he needs, nor a limit that has a refusal of its own. The last line is `N passed, M failed`: a function that makes a
memory refusal passes, a finding fails.
"""
from __future__ import annotations

import pathlib
from typing import Dict, Iterator, List, NamedTuple, Optional, Sequence, Set, Tuple

from . import commands
from . import rattle_source as reading
from .failing_calls import Calls, Place, Scope, arms, chain_start, past_expression
from .programs import TOP
from .rattle_source import Function, Group, Nodes, Source, find, inside, is_group, is_name, text_at

LIST = TOP / "tools" / "memory-refusals.list"
OPENS_AN_EXPRESSION = {"", ",", "=", "=>", "move", "return", "{", ";", "else", "&&", "||", "!"}
LATE = {"ok_or", "ok_or_else", "unwrap_or", "unwrap_or_else", "or", "or_else", "map_or", "map_or_else"}
PASSED_OVER = {"use", "ghost", "type"}


class Frame(NamedTuple):
    """What an expression stands in: an arm, a block, a closure. Shown as it is written."""
    kind: str
    told: str
    pattern: Nodes
    guard: Nodes
    asked: Nodes
    scope: Scope


class Listed(NamedTuple):
    """A stanza of the list: what kind it is, and its lines by their words, with the number of the first."""
    line: int
    words: Dict[str, str]
    constants: List[str]


class Finding(NamedTuple):
    file: str
    line: int
    function: str
    where: str
    why: str

    def __str__(self) -> str:
        shown = " where `%s`" % self.where if self.where else ""
        return "%s:%d: %s makes up a memory refusal%s: %s" % (self.file, self.line, self.function, shown, self.why)


def is_made(calls: Calls, nodes: Nodes, at: int, source: Source) -> bool:
    """Whether the word at this place is a memory refusal."""
    word, after = text_at(nodes, at), text_at(nodes, at + 1)
    called = source.imports.get(word, [word])[-1]
    if called == "AllocError":
        return after != "::" or text_at(nodes, at + 2) != "from"
    if called in calls.memory_types:
        return after in ("{", "(", "::")
    if called in calls.variants:
        return text_at(nodes, at - 1) != "."
    return (source.crate, word) in calls.tellers and after == "("


class Body:
    """One function's body, and what it makes."""

    def __init__(self, calls: Calls, place: Place) -> None:
        self.calls, self.place = calls, place
        self.hands_back = (place.function.file, place.function.name) in calls.handing_back
        self.findings: List[Finding] = []
        self.made = 0

    def shown(self, nodes: Nodes) -> str:
        return reading.shown(self.place.source.text, nodes)

    def walk(self, nodes: Nodes, frames: List[Frame], scope: Scope) -> None:
        """Each expression of a block. What follows a loop is shown by it, since the loop says when it is come to."""
        at = 0
        while at < len(nodes):
            begun, at = at, self.step(nodes, at, frames, scope)
            if nodes[begun].text in ("for", "while"):
                told = "after " + self.shown(nodes[begun:at - 1])
                frames = frames + [Frame("after a loop", told, [], [], [], scope)]

    def step(self, nodes: Nodes, at: int, frames: List[Frame], scope: Scope) -> int:
        """Past what begins here."""
        node = nodes[at]
        if isinstance(node, Group):
            self.walk(node.inner, frames, dict(scope))
            return at + 1
        if node.kind == "name":
            return self.word(nodes, at, frames, scope)
        if node.text == "#":
            return find(nodes, ["["], at) + 1
        if node.text == "::" and text_at(nodes, at + 1) == "<":
            return reading.angle_end(nodes, at + 1)
        if node.text in ("|", "||") and text_at(nodes, at - 1) in OPENS_AN_EXPRESSION:
            return self.closure(nodes, at, frames, scope)
        if node.text == "." and text_at(nodes, at + 1) in LATE | {"map_err"} and text_at(nodes, at + 2) == "(":
            return self.late(nodes, at, frames, scope)
        return at + 1

    def word(self, nodes: Nodes, at: int, frames: List[Frame], scope: Scope) -> int:
        word = nodes[at].text
        if word == "match":
            return self.match(nodes, at, frames, scope)
        if word in ("if", "while"):
            return self.when(nodes, at, frames, scope)
        if word == "let":
            return self.let(nodes, at, frames, scope)
        if word == "for":
            return self.loop(nodes, at, frames, scope)
        if word == "else" and text_at(nodes, at + 1) == "{":
            return self.block(nodes, at + 1, frames + [Frame("else", "else", [], [], [], scope)], scope)
        if word in PASSED_OVER:
            return find(nodes, [";"], at)
        if text_at(nodes, at + 1) == "!" and text_at(nodes, at + 2) in ("(", "[", "{"):
            return self.macro(nodes, at, frames, scope)
        self.judge(nodes, at, frames)
        return at + 1

    def block(self, nodes: Nodes, at: int, frames: List[Frame], scope: Scope) -> int:
        self.walk(inside(nodes, at), frames, dict(scope))
        return at + 1

    def match(self, nodes: Nodes, at: int, frames: List[Frame], scope: Scope) -> int:
        end = find(nodes, ["{"], at)
        asked = nodes[at + 1:end]
        self.walk(asked, frames, scope)
        for pattern, guard, body in arms(inside(nodes, end)):
            shown = self.shown(pattern) + (" if " + self.shown(guard) if guard else "")
            told = "match %s { %s =>" % (self.shown(asked), shown)
            known = {**scope, **bound_by(pattern)}
            self.walk(guard, frames, known)
            self.walk(body, frames + [Frame("arm", told, pattern, guard, asked, scope)], dict(known))
        return end + 1

    def when(self, nodes: Nodes, at: int, frames: List[Frame], scope: Scope) -> int:
        """An `if` or a `while`, with `let` or without."""
        is_let = text_at(nodes, at + 1) == "let"
        sign = find(nodes, ["="], at) if is_let else at
        end = find(nodes, ["{"], sign)
        pattern, asked = nodes[at + 2:sign] if is_let else [], nodes[sign + 1:end]
        self.walk(asked, frames, scope)
        frame = Frame("arm" if is_let else "if", self.shown(nodes[at:end]), pattern, [], asked, scope)
        return self.block(nodes, end, frames + [frame], {**scope, **bound_by(pattern)})

    def loop(self, nodes: Nodes, at: int, frames: List[Frame], scope: Scope) -> int:
        middle = find(nodes, ["in"], at)
        end = find(nodes, ["{"], middle)
        self.walk(nodes[middle + 1:end], frames, scope)
        frame = Frame("loop", self.shown(nodes[at:end]), [], [], [], scope)
        return self.block(nodes, end, frames + [frame], {**scope, **bound_by(nodes[at + 1:middle])})

    def let(self, nodes: Nodes, at: int, frames: List[Frame], scope: Scope) -> int:
        sign = find(nodes, ["=", ";"], at)
        pattern = nodes[at + 1:find(nodes[:sign], [":"], at)]
        end = sign
        while end < len(nodes) and nodes[end].text != ";" and not (
                nodes[end].text == "else" and not is_group(nodes[end - 1], "{")):
            end += 1
        asked = nodes[sign + 1:end]
        self.walk(asked, frames, scope)
        if text_at(nodes, end) == "else":
            told = "let %s = %s else" % (self.shown(pattern), self.shown(asked))
            frame = Frame("let else", told, pattern, [], asked, dict(scope))
            end = self.block(nodes, end + 1, frames + [frame], scope)
        names = [node.text for node in pattern if is_name(node) and node.text != "mut"]
        is_plain = len(pattern) == len(names) == 1
        scope.update({names[0]: (asked, dict(scope))} if is_plain and asked else bound_by(pattern))
        return end

    def closure(self, nodes: Nodes, at: int, frames: List[Frame], scope: Scope) -> int:
        end = at + 1 if nodes[at].text == "||" else find(nodes, ["|"], at + 1) + 1
        known = {**scope, **bound_by(nodes[at + 1:end - 1] if end > at + 1 else [])}
        if text_at(nodes, end) in ("->", "requires", "ensures"):
            return self.block(nodes, reading.past_header(nodes, end), frames, known)
        last = past_expression(nodes, end)
        self.walk(nodes[end:last], frames, known)
        return last

    def late(self, nodes: Nodes, at: int, frames: List[Frame], scope: Scope) -> int:
        """A call that has a value for a failure: `.map_err(..)`, `.ok_or(..)`."""
        asked = nodes[chain_start(nodes, at):at]
        kind = "map_err" if text_at(nodes, at + 1) == "map_err" else "late"
        frame = Frame(kind, "%s.%s(..)" % (self.shown(asked), text_at(nodes, at + 1)), [], [], asked, dict(scope))
        return self.block(nodes, at + 2, frames + [frame], scope)

    def macro(self, nodes: Nodes, at: int, frames: List[Frame], scope: Scope) -> int:
        inner = inside(nodes, at + 2)
        if nodes[at].text == "matches":
            inner = reading.split(inner, ",")[0] if inner else []
        if not nodes[at].text.startswith("assert"):
            self.walk(inner, frames, dict(scope))
        return at + 3

    def judge(self, nodes: Nodes, at: int, frames: List[Frame]) -> None:
        """The word at this place, where it makes a memory refusal."""
        handed = self.hands_back and nodes[at].text == "Err" and text_at(nodes, at + 1) == "("
        if not handed and not is_made(self.calls, nodes, at, self.place.source):
            return
        start = chain_start(nodes, at + 1)
        if {text_at(nodes, start - 1), text_at(nodes, at + 1)} & {"==", "!="}:
            return
        self.made += 1
        function = self.place.function
        if not frames and function.name == "from" and function.of in self.calls.memory_types:
            return
        whys = [self.why_not(frame) for frame in frames]
        if None not in whys:
            where = " / ".join(frame.told for frame in frames)
            why = next((why for why in reversed(whys) if why), "no call has failed")
            self.findings.append(Finding(function.file, nodes[at].line, function.name, where, why))

    def why_not(self, frame: Frame) -> Optional[str]:
        """Why what stands there need not be memory that was refused; None where a call has failed for that."""
        if frame.kind == "arm":
            parts = reading.split(frame.pattern, "|")
            told = [self.of_pattern(part, frame) for part in parts if part]
            return next((why for why in told if why), None)
        if frame.kind == "let else":
            return self.of_pairs(frame.pattern, "Ok", frame.asked, frame.scope)
        if frame.kind == "map_err":
            return self.calls.why_not(frame.asked, frame.scope, self.place)
        if frame.kind == "if" and [node.text for node in frame.asked[-3:]] == [".", "is_err", "("]:
            return self.calls.why_not(frame.asked[:-3], frame.scope, self.place)
        what = {"if": "a condition", "late": "this"}.get(frame.kind, "`%s`" % frame.kind)
        return "%s takes no failed call apart" % what

    def of_pattern(self, pattern: Nodes, frame: Frame) -> Optional[str]:
        if self.calls.names_memory(pattern) or self.is_compared(frame.guard):
            return None
        if text_at(pattern, 0) != "Err" or not is_open(pattern):
            return "`%s` is no failed call" % self.shown(pattern)
        return self.calls.why_not(frame.asked, frame.scope, self.place)

    def is_compared(self, guard: Nodes) -> bool:
        """Whether the guard asks that something is a memory refusal."""
        words = {node.text for node in guard}
        return "==" in words and not words & {"||", "!", "!="} and self.calls.names_memory(guard)

    def of_pairs(self, pattern: Nodes, word: str, asked: Nodes, scope: Scope) -> Optional[str]:
        """Of a `let .. else`, each part of a tuple by itself."""
        if len(pattern) == len(asked) == 1 and is_group(pattern[0], "(") and is_group(asked[0], "("):
            pairs = zip(reading.split(inside(pattern, 0), ","), reading.split(inside(asked, 0), ","))
            told = [self.of_pairs(one, word, other, scope) for one, other in pairs]
            return next((why for why in told if why), None)
        if text_at(pattern, 0) != word:
            return "`%s` fails otherwise too" % self.shown(pattern)
        inner = inside(pattern, 1)
        if not is_irrefutable(inner):
            return "`%s` fails otherwise too" % self.shown(pattern)
        return self.calls.why_not(asked, scope, self.place)


def is_open(pattern: Nodes) -> bool:
    """Whether an Err(..) of a pattern takes every error: a `_`, `..` or a name."""
    inner = inside(pattern, 1) if len(pattern) == 2 else []
    words = [node.text for node in inner if node.text not in ("mut", "ref")]
    return len(words) == 1 and (words[0] in ("_", "..") or is_name(inner[-1]) and not words[0][0].isupper())


def is_irrefutable(pattern: Nodes) -> bool:
    """Whether a pattern takes every value: names, tuples and structs of names."""
    return not any(node.text in ("Some", "None", "Ok", "Err", "[") or isinstance(node, reading.Token)
                   and (node.kind in ("number", "text", "char") or node.text in ("true", "false"))
                   or isinstance(node, Group) and not is_irrefutable(node.inner) for node in pattern)


def bound_by(pattern: Nodes) -> Scope:
    """The names that a pattern binds; no call is known to give them."""
    found: Scope = {}
    for node in pattern:
        if isinstance(node, Group):
            found.update(bound_by(node.inner))
        elif is_name(node) and not node.text[0].isupper():
            found[node.text] = None
    return found


def listed(text: str) -> Iterator[Listed]:
    """The stanzas of the list: lines `word: text`, with an empty line between two stanzas."""
    words: Dict[str, str] = {}
    constants: List[str] = []
    first = 0
    for number, line in enumerate(text.split("\n") + [""], 1):
        word, _, rest = line.partition(":")
        if not line.strip() and words:
            yield Listed(first, words, constants)
            words, constants = {}, []
        elif line.strip() and not line.startswith("#"):
            first = first if words else number
            if word == "with":
                constants.append(rest.strip())
            else:
                words[word] = rest.strip()


class Check:
    """The whole workspace against the list."""

    def __init__(self, sources: Sequence[Source], text: str, name: str) -> None:
        self.sources, self.name = sources, name
        self.calls = Calls(sources)
        self.stanzas = list(listed(text))
        self.stale: List[str] = []
        self.made = 0
        for stanza in self.stanzas:
            self.take(stanza)

    def tell(self, stanza: Listed, what: str) -> None:
        self.stale.append("%s:%d: %s" % (self.name, stanza.line, what))

    def take(self, stanza: Listed) -> None:
        """Takes up what a stanza adds: an error type, a function that hands back, one that tells."""
        words = stanza.words
        source = self.calls.sources.get(words.get("file", ""))
        if source is None or not words.get("why"):
            self.tell(stanza, "a stanza has `file:` of a source, and `why:`")
        elif "error" in words:
            if words["error"] not in source.structs:
                self.tell(stanza, "%s has no struct %s" % (source.file, words["error"]))
            self.calls.memory_types.add(words["error"])
        elif not set(words.get("in", words.get("hands back", "")).split()) & {one.name for one in source.functions}:
            self.tell(stanza, "%s has no such function" % source.file)
        elif "hands back" in words:
            self.hand_back(stanza, source)
        elif "where" not in words:
            self.calls.tellers.add((source.crate, words["in"]))

    def hand_back(self, stanza: Listed, source: Source) -> None:
        for name in stanza.words["hands back"].split():
            own = [function for function in source.functions if function.name == name]
            if not own or any(reading.error_of(function.gives) is None for function in own):
                self.tell(stanza, "%s has no function %s with an error" % (source.file, name))
            self.calls.handing_back.add((source.file, name))

    def findings(self, crates: Sequence[str]) -> List[Finding]:
        found: List[Finding] = []
        for source in self.sources:
            if not crates or source.crate in crates:
                for function in source.functions:
                    found += self.of_function(source, function)
                found += self.of_constants(source)
        return found

    def of_function(self, source: Source, function: Function) -> List[Finding]:
        if function.body is None:
            return []
        body = Body(self.calls, Place(source, function))
        body.walk(function.body.inner, [], {})
        self.made += bool(body.made)
        return body.findings

    def of_constants(self, source: Source) -> List[Finding]:
        return [Finding(source.file, nodes[0].line, name, "", "a constant is no failed call")
                for name, nodes in source.constants.items() if nodes and self.calls.names_memory(nodes)]

    def left(self, found: List[Finding], is_whole: bool) -> List[str]:
        """The findings that the list does not have, and what it has and is no longer so."""
        used: Set[int] = set()
        told = []
        for finding in found:
            key = (finding.file, finding.function, finding.where)
            own = [stanza for stanza in self.stanzas if "in" in stanza.words
                   and (stanza.words.get("file"), stanza.words["in"], stanza.words.get("where", "")) == key]
            used |= {stanza.line for stanza in own}
            told += [] if own else [str(finding)]
        for stanza in self.stanzas if is_whole else []:
            if "in" in stanza.words and stanza.line not in used:
                self.tell(stanza, "%s makes nothing there" % stanza.words["in"])
            self.constants(stanza)
        return told + self.stale

    def constants(self, stanza: Listed) -> None:
        """Each constant of the condition has to be what the list says."""
        given = dict(line.split(" = ", 1) for line in stanza.constants if " = " in line)
        source = self.calls.sources.get(stanza.words.get("file", ""))
        wanted = [stanza.words.get("where", "")]
        while source and wanted:
            for name in sorted(names_in(wanted.pop())):
                declared = self.declared(name, source)
                if declared is None or given.pop(name, None) == declared:
                    wanted += [declared] if declared else []
                else:
                    self.tell(stanza, "`with: %s = %s` is wanted" % (name, declared))
        for name in given:
            self.tell(stanza, "no constant %s is asked there" % name)

    def declared(self, name: str, source: Source) -> Optional[str]:
        """What a constant of the source, or one that it imports, is declared to be."""
        places = [source] + [other for other in self.sources if name in source.imports and name in other.constants]
        found = [reading.shown(one.text, one.constants[name]) for one in places if name in one.constants]
        return found[0] if found else None


def names_in(text: str) -> Set[str]:
    return {token.text for token in reading.tokens(text) if token.kind == "name" and token.text.isupper()}


def sources_of(top: pathlib.Path) -> List[Source]:
    return [reading.read(path, top) for path in sorted(top.glob("crates/*/src/**/*.rt"))]


def checked(top: pathlib.Path, text: str, name: str, crates: Sequence[str]) -> Tuple[int, List[str]]:
    """How many functions make it, and what is amiss."""
    try:
        check = Check(sources_of(top), text, name)
    except reading.Unreadable as amiss:
        return 0, [str(amiss)]
    found = check.findings(crates)
    told = check.left(found, not crates)
    return check.made, told


def main(words: Sequence[str]) -> int:
    """The command."""
    asked = commands.parser(__doc__)
    asked.add_argument("crates", nargs="*", metavar="CRATE")
    crates = asked.parse_args(words).crates
    unknown = [crate for crate in crates if not (TOP / "crates" / crate / "src").is_dir()]
    if unknown:
        asked.error("there is no crate %s" % " ".join(unknown))
    made, told = checked(TOP, LIST.read_text(), LIST.relative_to(TOP).as_posix(), crates)
    for line in told:
        print(line)
    return commands.counted(max(made - len(told), 0), len(told))
