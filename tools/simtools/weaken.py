"""Weakens the definitions of the trusted base, one place at a time, and prints what notices. By hand, for hours.

    tools/weaken [--list] [--only WORD] [--table FILE] [CRATE..]        without a crate: all crates

The definitions are those that `tools/trusted-base` finds. In each of them each conjunct (`×`, `&&`), each alternative
(`⊎`, `||`) and each test (`if .. then .. else ..`, in whose place first one branch stands, then the other) is dropped
in turn, on a copy. Then a few functions of the crate are checked, laws among them, whose clauses reach the definition:
those first that are proved from it, and not from what other functions state of it. All others are taken by what they
state. Places of several definitions share a check, where the
functions of each have nothing to do with the others. Something should notice:

    by a goal        a goal of a function has no proof any more; it is named
    at a limit       the search gave up at each such goal, which says nothing
    BY A PROOF FILE  only a proof or a lemma that was written by hand does not fit, which says nothing
    NOTHING          these functions are proved as before, or there are none; the crates above are named that have such
                     functions: one of them, a mutant or a case has to notice
    unread           the text without that place is none

The libraries below come from what `rt ci` kept on this machine. --list prints the places and checks none; --only takes
those whose file, definition and text hold the word; --table writes a row for each place, and leaves out the places
that have one. The last line is `N noticed, M not`.
"""
from __future__ import annotations

import argparse
import csv
import pathlib
import re
import tempfile
from dataclasses import dataclass, field
from typing import Collection, Dict, Iterator, List, NamedTuple, Optional, Sequence, Set, Tuple

from . import commands, kept_libraries, left_out, trusted_base, try_mutants
from . import rattle_source as reading
from .programs import TOP

OPENING, CLOSING = "([{", ")]}"
# The operators, the loosest first, and what no operand goes past.
OPERATORS = ("⊎", "×", "||", "&&")
LOOSE = re.compile(r"→|↔|;|,|\bthen\b|\belse\b|\bif\b|λ[^.]*\.\s|(?<=\s)=(?=\s)")
BINDER = re.compile(r"\s*[({][\w' ]+ : ")
UNREAD, NOTHING, BY_GOAL, AT_LIMIT, BY_PROOF = "unread", "NOTHING", "by a goal", "at a limit", "BY A PROOF FILE"
# The most places that are dropped at once, and the most functions that are asked of each.
PLACES_A_CHECK, FUNCTIONS_A_PLACE = 12, 4
HEAD = ("crate", "file", "definition", "line", "without", "outcome", "by", "reached by crates above",
        "processor seconds")


class Span(NamedTuple):
    """A part of a text, from a place to before another."""
    start: int
    end: int


class Place(NamedTuple):
    """What can be dropped: of which definition, at which line, what is said of it, and the parts of the text that
    go."""
    definition: str
    line: int
    said: str
    spans: Sequence[Span]


def blanked(text: str) -> str:
    """The text with its comments as spaces."""
    return re.sub(r"(?m)(^|(?<=\s))--.*$", lambda found: " " * len(found[0]), text)


def matching(text: str, at: int) -> int:
    """Where the bracket that opens here is closed; the end of the text where it is not."""
    depth = 0
    for here in range(at, len(text)):
        depth += (text[here] in OPENING) - (text[here] in CLOSING)
        if not depth:
            return here
    return len(text)


def levels(text: str, span: Span) -> Iterator[Span]:
    """The span, and what stands in each pair of brackets in it."""
    yield span
    at = span.start
    while at < span.end:
        if text[at] in OPENING:
            end = min(matching(text, at), span.end)
            yield from levels(text, Span(at + 1, end))
            at = end
        at += 1


def flat(text: str, span: Span) -> str:
    """The text of a span, with what stands in brackets as dots."""
    found, depth = [], 0
    for mark in text[span.start:span.end]:
        depth -= mark in CLOSING
        found.append(mark if depth <= 0 or mark == "\n" else ".")
        depth += mark in OPENING
    return "".join(found)


def segments(text: str, span: Span) -> Iterator[Tuple[Span, str]]:
    """The parts of a level between arrows, separators and the words of a test, each with what ends it."""
    shown, begun = flat(text, span), 0
    for found in LOOSE.finditer(shown):
        yield Span(span.start + begun, span.start + found.start()), found[0]
        begun = found.end()
    yield Span(span.start + begun, span.end), ""


def operands(text: str, span: Span, ends_by: str) -> Iterator[Tuple[str, List[Span]]]:
    """The operands of the loosest operator of a segment, with it; and those of the operators in each of them."""
    shown = flat(text, span)
    for operator in OPERATORS:
        signs = [found.start() for found in re.finditer(r"(?<=\s)%s(?=\s)" % re.escape(operator), shown)]
        if signs:
            starts = [0] + [at + len(operator) for at in signs]
            parts = [Span(span.start + start, span.start + end) for start, end in zip(starts, signs + [len(shown)])]
            if not (ends_by == "→" and BINDER.match(text[parts[-1].start:parts[-1].end])):
                yield operator, parts
            for part in parts:
                yield from operands(text, part, "")
            return


def without(parts: List[Span], at: int) -> Span:
    """What goes where an operand and the sign beside it are dropped."""
    return Span(parts[at].start, parts[at + 1].start) if at == 0 else Span(parts[at - 1].end, parts[at].end)


def tests(text: str, span: Span) -> Iterator[Tuple[str, List[Span]]]:
    """Each test of a level: what is said of it, and what goes, so that one of its branches stands alone."""
    shown = flat(text, span)
    for found in re.finditer(r"\bif\b", shown):
        then, depth = -1, 0
        for word in re.finditer(r"\bif\b|\bthen\b|\belse\b", shown[found.start():]):
            at = found.start() + word.start()
            depth += (word[0] == "if") - (word[0] == "else")
            if word[0] == "then" and depth == 1:
                then = at
            if word[0] == "else" and depth == 0 and then >= 0:
                test = " ".join(text[span.start + found.end():span.start + then].split())
                whole = Span(span.start + found.start(), span.end)
                yield ("the test `%s`, by its second branch" % test,
                       [Span(whole.start, span.start + at + len("else"))])
                yield ("the test `%s`, by its first branch" % test,
                       [Span(whole.start, span.start + then + len("then")), Span(span.start + at, whole.end)])
                break


def cut(text: str, spans: Sequence[Span]) -> str:
    """The text without these spans."""
    for span in sorted(spans, reverse=True):
        text = text[:span.start] + " " + text[span.end:]
    return text


def equations(text: str, names: Set[str]) -> Iterator[Tuple[str, Span]]:
    """The right sides of the equations of these definitions, each with the name."""
    plain = blanked(text)
    starts = [found.start() for found in re.finditer(r"(?m)^[^\s)}]", plain)] + [len(plain)]
    for start, end in zip(starts, starts[1:]):
        head = re.match(r"(\S+)", plain[start:end])
        equals = re.search(r"(?<=\s)=(?=\s)", flat(plain, Span(start, end)))
        if head and head[1] in names and equals:
            yield head[1], Span(start + equals.end(), start + len(plain[start:end].rstrip()))


def places(text: str, names: Set[str]) -> Iterator[Place]:
    """All that can be dropped from these definitions of a file."""
    plain = blanked(text)
    for name, side in equations(text, names):
        for level in levels(plain, side):
            found: List[Tuple[str, List[Span]]] = []
            for segment, ends_by in segments(plain, level):
                for operator, parts in operands(plain, segment, ends_by):
                    for at, part in enumerate(parts):
                        said = " ".join(plain[part.start:part.end].split())
                        found.append(("`%s` of `%s`" % (said, operator), [without(parts, at)]))
            found += tests(plain, level)
            for said, spans in found:
                yield Place(name, text.count("\n", 0, spans[0].start) + 1, said, spans)


class Function(NamedTuple):
    """A function of a crate as a check names it; the definitions that its clauses reach; those that the clauses of what
    it calls reach, so that it may hand on what they state; those that may have a part in its proof: these, the types
    that it names, and its proof files; and how many bytes it has."""
    name: str
    cited: Set[trusted_base.Name]
    handed_on: Set[trusted_base.Name]
    touched: Set[trusted_base.Name]
    size: int


class Reach:
    """Which functions' clauses reach a definition, crate by crate."""

    def __init__(self, workspace: trusted_base.Workspace) -> None:
        self.workspace = workspace
        self.from_name: Dict[trusted_base.Name, Set[trusted_base.Name]] = {}
        self.of_crate: Dict[str, List[Function]] = {}

    def names_from(self, name: trusted_base.Name) -> Set[trusted_base.Name]:
        """What a name's definition leads to."""
        if name not in self.from_name:
            known: Dict[trusted_base.Name, str] = {}
            try:
                self.workspace.reached(name, "", known)
            except commands.Missing:
                # What this reader finds no definition of stands outside the trusted base.
                known.clear()
            self.from_name[name] = set(known)
        return self.from_name[name]

    def named(self, text: str, imports: Dict[str, trusted_base.Name]) -> Set[trusted_base.Name]:
        """What the words of a text reach by these imports."""
        words = set(trusted_base.WORD.findall(text)) & set(imports)
        return set().union(*(self.names_from(imports[word]) for word in words))

    def functions(self, crate: str) -> List[Function]:
        """The functions of a crate that can be checked alone."""
        if crate not in self.of_crate:
            self.of_crate[crate] = list(Sources(self, TOP / "crates" / crate).functions())
        return self.of_crate[crate]

    def crates(self, name: trusted_base.Name, below: Dict[str, Set[str]]) -> List[str]:
        """The crates above that of the definition, some function of which reaches it."""
        return [crate for crate in below if name[0] in below[crate]
                and any(name in function.cited for function in self.functions(crate))]


class Sources:
    """The sources of a crate: each with its module and its imports; and what the clauses of all functions of a name
    reach, and the declarations beside a type of a name."""

    def __init__(self, reach: Reach, folder: pathlib.Path) -> None:
        self.reach, self.folder = reach, folder
        self.read = [(at, source, trusted_base.imports_of(source.text)) for at, source in left_out.read(folder)]
        self.clauses: Dict[str, Set[trusted_base.Name]] = {}
        self.types: Dict[str, Set[trusted_base.Name]] = {}
        for _, source, imports in self.read:
            self.add(source, imports)

    def add(self, source: reading.Source, imports: Dict[str, trusted_base.Name]) -> None:
        """Adds what a source has of both."""
        beside = self.reach.named(outside(source), imports)
        for name in re.findall(r"\b(?:struct|enum|trait|Model for) (\w+)", source.text):
            self.types.setdefault(name, set()).update(beside)
        for one in source.functions:
            self.clauses.setdefault(one.name, set()).update(self.reach.named(said_of(source, one), imports))

    def functions(self) -> Iterator[Function]:
        """The functions that can be checked alone."""
        bodies = {(body.module, body.name): body for body in left_out.bodies(self.folder) if not body.is_recursive}
        for at, source, imports in self.read:
            found = ((one, bodies.get((at, one.name))) for one in source.functions)
            yield from (self.function(source, imports, one, body, body.place) for one, body in found
                        if body and body.place)

    def function(self, source: reading.Source, imports: Dict[str, trusted_base.Name], one: reading.Function,
                 body: left_out.Body, place: left_out.Place) -> Function:
        """A function with what it reaches."""
        said = said_of(source, one)
        types = (reading.shown(source.text, nodes) for nodes in (*one.parameters.values(), one.gives))
        words = body.words.union(*(re.findall(r"\w+", text) for text in types))
        proofs = self.folder.joinpath("proofs", *place.above, place.name).rglob("*.antt")
        called = set().union(*(self.clauses[call] for call in body.calls & set(self.clauses)))
        touched = [called]
        touched += [self.types[word] for word in words & set(self.types)]
        texts = [path.read_text() for path in proofs]
        touched += [self.reach.named(text, trusted_base.imports_of(text)) for text in texts]
        cited = self.reach.named(said, imports)
        size = one.body.end - one.body.start if one.body else 0
        return Function(place.printed(self.folder.name), cited, called, cited.union(*touched), size)


def said_of(source: reading.Source, one: reading.Function) -> str:
    """The clauses of a function."""
    return " ".join(source.text[clause.start:clause.end] for clause in one.clauses)


def outside(source: reading.Source) -> str:
    """The text of a source without its functions."""
    lines, text = [0] + [found.end() for found in re.finditer("\n", source.text)], source.text
    for one in sorted(source.functions, key=lambda one: -one.line):
        text = text[:lines[one.line - 1]] + text[one.body.end if one.body else lines[one.line - 1]:]
    return text


def are_direct(functions: List[Function], name: trusted_base.Name) -> bool:
    """Whether one of the functions is proved from the definition itself, and not from what it calls."""
    return any(name not in one.handed_on for one in functions)


@dataclass
class Batch:
    """Places of several definitions that are dropped at once: the definitions, and of each the functions that reach it
    and have nothing to do with the others."""
    places: List[Tuple[str, Place]] = field(default_factory=list)
    names: List[trusted_base.Name] = field(default_factory=list)
    own: List[List[Function]] = field(default_factory=list)

    def with_one(self, file: str, place: Place, name: trusted_base.Name, functions: List[Function]) -> Optional[Batch]:
        """The batch with one place more, if of each some function is left that tells of it alone, and one that is proved
        from the definition itself where there is such a one."""
        if name in self.names or len(self.names) == PLACES_A_CHECK:
            return None
        names, every = [*self.names, name], [*self.own, functions]
        own = [[one for one in some if len(one.touched & set(names)) == 1] for some in every]
        if all(left and are_direct(left, one) >= are_direct(some, one) for left, some, one in zip(own, every, names)):
            return Batch([*self.places, (file, place)], names, own)
        return None

    def alone(self, at: int) -> Batch:
        """One of the places."""
        return Batch([self.places[at]], [self.names[at]], [self.own[at]])

    def asked(self, at: int) -> Set[str]:
        """The functions that are asked of a place: a few, those first that call none whose clauses reach it, which are
        proved from the definition itself, and of these the shortest."""
        name = self.names[at]
        some = sorted(self.own[at], key=lambda one: (name in one.handed_on, one.size, one.name))[:FUNCTIONS_A_PLACE]
        return {one.name for one in some}


def batches(crate: str, found: List[Tuple[str, Place]], functions: List[Function]) -> Iterator[Batch]:
    """The places of a crate that some function of it reaches, in batches."""
    made: List[Batch] = []
    for file, place in found:
        name = (crate, file, place.definition)
        own = [one for one in functions if name in one.cited]
        for at, batch in enumerate(made):
            larger = batch.with_one(file, place, name, own)
            if larger:
                made[at] = larger
                break
        else:
            if own:
                made.append(Batch([(file, place)], [name], [own]))
    yield from made


def judged(told: List[str], asked: Set[str]) -> Tuple[str, str]:
    """What a check of weakened definitions says of one of them, by the functions that are asked of it."""
    goals = [goal for goal in try_mutants.open_goals(told) if goal[0] in asked or is_closure(goal[0], asked)]
    open_now = [(function, name) for function, name, is_at_limit in goals if not is_at_limit]
    if open_now:
        return BY_GOAL, "`%s` of %s" % (open_now[0][1], open_now[0][0])
    if goals:
        return AT_LIMIT, "`%s` of %s" % (goals[0][1], goals[0][0])
    if asked <= try_mutants.admitted(told):
        return NOTHING, "proved as before: " + " ".join(sorted(asked))
    proofs = [line for line in told if "error" in line and ".antt" in line] or told[-1:]
    return BY_PROOF, proofs[0]


def is_closure(function: str, asked: Set[str]) -> bool:
    """Whether a check names a closure of one of these functions."""
    crate, _, rest = function.partition("::fn::")
    return any(rest.startswith("::".join(name.split("::")[1:]) + "::") and name.startswith(crate) for name in asked)


def tried(batch: Batch, copied: try_mutants.Copied) -> List[Tuple[str, str]]:
    """What notices each place of a batch that is dropped."""
    files = {"specs/%s.antt" % file for file, _ in batch.places}
    were = {file: (copied.folder / file).read_text() for file in files}
    asked = [batch.asked(at) for at in range(len(batch.places))]
    try:
        for file, was in were.items():
            spans = [span for one, place in batch.places if "specs/%s.antt" % one == file for span in place.spans]
            (copied.folder / file).write_text(cut(blanked(was), spans))
        status, told = copied.check(set().union(*asked))
    finally:
        for file, was in were.items():
            (copied.folder / file).write_text(was)
    unread = try_mutants.not_read(told, files) if status else None
    found = [(UNREAD, unread) if unread else judged(told, some) for some in asked]
    if len(found) == 1:
        return found
    # A file that does not fit may hide what another place comes to.
    return [outcome if outcome[0] not in (UNREAD, BY_PROOF) else tried(batch.alone(at), copied)[0]
            for at, outcome in enumerate(found)]


@dataclass
class Run:
    """A run of the tool: what is left of the places, and the rows of the table that it writes."""
    reach: Reach
    below: Dict[str, Set[str]]
    table: Optional[pathlib.Path]
    rows: List[List[str]] = field(default_factory=list)

    def read_table(self) -> None:
        """Takes the rows that stand in the table."""
        if self.table and self.table.is_file():
            with self.table.open(newline="") as file:
                self.rows = list(csv.reader(file))[1:]

    def is_done(self, crate: str, file: str, place: Place) -> bool:
        """Whether a row tells of this place."""
        return any(row[:3] + row[4:5] == [crate, file, place.definition, place.said] for row in self.rows)

    def add(self, crate: str, file: str, place: Place, word: str, why: str, seconds: float) -> None:
        """Tells what a place came to, and writes the table."""
        above = " ".join(self.reach.crates((crate, file, place.definition), self.below)) if word != BY_GOAL else ""
        row = [crate, file, place.definition, str(place.line), place.said, word, why[:200], above, "%.0f" % seconds]
        self.rows.append(row)
        print("%s: %s: %s" % (named(crate, file, place), word, why[:200]), flush=True)
        if self.table:
            with self.table.open("w", newline="") as table:
                csv.writer(table, lineterminator="\n").writerows([HEAD, *self.rows])

    def weaken(self, crate: str, found: List[Tuple[str, Place]], room: pathlib.Path) -> None:
        """Tries these places of a crate."""
        functions = self.reach.functions(crate)
        for file, place in found:
            if not any((crate, file, place.definition) in one.cited for one in functions):
                self.add(crate, file, place, NOTHING, "no function of the crate reaches it", 0)
        left = [(file, place) for file, place in found if not self.is_done(crate, file, place)]
        with tempfile.TemporaryDirectory(prefix="weaken-") as own:
            copied = try_mutants.Copied(pathlib.Path(own) / "crates" / crate)
            try_mutants.copy(crate, self.below[crate], pathlib.Path(own), room)
            copied.bodies = left_out.bodies(copied.folder)
            for batch in batches(crate, left, functions):
                used = try_mutants.processor_time()
                outcomes = tried(batch, copied)
                share = (try_mutants.processor_time() - used) / len(outcomes)
                for (file, place), (word, why) in zip(batch.places, outcomes):
                    self.add(crate, file, place, word, why, share)


def places_of(crate: str, known: Collection[trusted_base.Name]) -> Iterator[Tuple[str, Place]]:
    """All that can be dropped from the definitions of a crate, each with its file."""
    for file in sorted({name[1] for name in known if name[0] == crate}):
        text = (TOP / "crates" / crate / "specs" / (file + ".antt")).read_text()
        names = {name[2] for name in known if name[:2] == (crate, file)}
        yield from ((file, place) for place in places(text, names))


def named(crate: str, file: str, place: Place) -> str:
    """What is said of a place."""
    return "%s/specs/%s.antt:%d: %s without %s" % (crate, file, place.line, place.definition, place.said)


def weaken(given: argparse.Namespace, crates: Sequence[str]) -> int:
    """Tries or lists each place of the crates' definitions. The exit status."""
    workspace = trusted_base.Workspace(TOP)
    _, known = trusted_base.parts_of(workspace)
    run = Run(Reach(workspace), try_mutants.below(), given.table)
    run.read_table()
    for crate in crates:
        found = [(file, place) for file, place in places_of(crate, known)
                 if given.only in named(crate, file, place) and not run.is_done(crate, file, place)]
        if given.is_list:
            for file, place in found:
                print(named(crate, file, place))
        elif found:
            with tempfile.TemporaryDirectory(prefix="weaken-") as room:
                kept_libraries.needed(TOP, pathlib.Path(room), crate, run.below[crate])
                run.weaken(crate, found, pathlib.Path(room))
    noticed, unread = (sum(row[5] == word for row in run.rows) for word in (BY_GOAL, UNREAD))
    if not given.is_list:
        print("%d noticed, %d not" % (noticed, len(run.rows) - noticed - unread))
    return 1 if noticed + unread < len(run.rows) else 0


def main(words: Sequence[str]) -> int:
    """The command."""
    asked = commands.parser(__doc__)
    asked.add_argument("--list", action="store_true", dest="is_list")
    asked.add_argument("--only", default="", metavar="WORD")
    asked.add_argument("--table", type=pathlib.Path, metavar="FILE")
    asked.add_argument("crates", nargs="*", metavar="CRATE")
    given, known = asked.parse_args(words), list(try_mutants.below())
    unknown = [crate for crate in given.crates if crate not in known]
    if unknown:
        asked.error("crates.txt has no `%s`: name crates of it" % unknown[0])
    return weaken(given, given.crates or known)
