"""Gives malformed configurations, graphs, tables and dumps to the importers of the toolbox.

    tools/fuzz-importers [--cases N] [--seed S]    N cases (6000), each by its own seed, from S (1) on: a real input of
                                                   an importer in which a word is garbled, lines or bytes are changed,
                                                   something is opened too often, or the file ends too early

An importer ends with status 0, 1 or 2, and neither with a traceback nor too late. Status 2 names the file. The program
refuses no line of a script that an importer writes. A garbled word is reported, by itself or by its file and line; or
it changes the script; or tools/fuzz-importers.list says why it decides nothing. Anything else is a silent misreading.

The last line is `N passed, M failed`, a case being one; a part of the gate. PROGRAM= is another program than
crates/bgpsim/out/bgpsim.
"""
from __future__ import annotations

import contextlib
import hashlib
import importlib
import io
import os
import pathlib
import random
import re
import resource
import signal
import sys
import tempfile
import traceback
from typing import Any, Dict, Iterator, List, NamedTuple, Optional, Sequence, Set, Tuple, Type

from . import commands, mutations, programs
from .importer_inputs import COMMENTS, Input, inputs
from .mutations import Change
from .programs import TOP
from .running import PATIENCE, run

LIST = TOP / "tools" / "fuzz-importers.list"
# So many seconds a case has, of a processor and by the clock; and so many bytes of memory all cases.
SECONDS, BY_THE_CLOCK, MEMORY = 30, PATIENCE, 4 << 30
# How often each importer is chosen.
OFTEN = {"from-frr": 8, "from-bird": 7, "from-cbgp": 4, "from-graph": 3, "from-as-rel": 2, "from-rib": 2, "from-mrt": 2}
# Importers that unpack what a name says is packed.
UNPACKING = ("from-cbgp", "from-graph", "from-as-rel", "from-rib", "from-mrt")


class Late(BaseException):
    """A case has taken too long."""


class Ended(NamedTuple):
    """How an importer ended: its status, what it wrote, what it reported, and the traceback where it has one."""
    status: int
    script: str
    told: str
    fault: str = ""


class Exemption(NamedTuple):
    """Words that decide nothing: of an importer, those of lines that an expression is about; what they have become and
    the name of the input fit others; and why."""
    importer: str
    about: "re.Pattern[str]"
    word: "re.Pattern[str]"
    input: "re.Pattern[str]"
    why: str


class Case(NamedTuple):
    """What a seed draws."""
    input: Input
    file: str
    kind: str
    change: Change


# Running an importer in this process

def _stop(number: int, _: object) -> None:
    raise Late()


@contextlib.contextmanager
def _bounded() -> Iterator[None]:
    """Raises Late where the body takes too long."""
    kept = [signal.signal(number, _stop) for number in (signal.SIGVTALRM, signal.SIGALRM)]
    signal.setitimer(signal.ITIMER_VIRTUAL, SECONDS)
    signal.setitimer(signal.ITIMER_REAL, BY_THE_CLOCK)
    try:
        yield
    finally:
        for timer in (signal.ITIMER_VIRTUAL, signal.ITIMER_REAL):
            signal.setitimer(timer, 0)
        for number, handler in zip((signal.SIGVTALRM, signal.SIGALRM), kept):
            signal.signal(number, handler)


def _module(importer: str) -> Tuple[Any, Type[Exception]]:
    """The importer's module, and the class of what a user has to mend."""
    if str(TOP / "toolbox") not in sys.path:
        sys.path.append(str(TOP / "toolbox"))
    mistakes = importlib.import_module("bgptools.program.mistakes")
    mistake: Type[Exception] = mistakes.Mistake
    return importlib.import_module("bgptools.cli." + importer.replace("-", "_")), mistake


def ended(importer: str, words: Sequence[str]) -> Ended:
    """How an importer ends, called in this process as its tool calls it."""
    module, mistake = _module(importer)
    content, told = io.BytesIO(), io.StringIO()
    script = io.TextIOWrapper(content, "utf-8", "surrogateescape")
    limit, fault = sys.getrecursionlimit(), ""
    try:
        with contextlib.redirect_stdout(script), contextlib.redirect_stderr(told), _bounded():
            status = module.main(list(words))
    except mistake as wrong:
        print(wrong, file=told)
        status = 2
    except SystemExit as end:
        status = int(end.code or 0)
    except Late:
        status, fault = 2, "it has not ended after %d seconds of a processor" % SECONDS
    except Exception:
        status, fault = 2, traceback.format_exc(-4)
    sys.setrecursionlimit(limit)
    script.flush()
    return Ended(status, content.getvalue().decode("utf-8", "surrogateescape"), told.getvalue(), fault)


# What is wrong with how it ended

def exemptions(path: pathlib.Path = LIST) -> List[Exemption]:
    """The list of words that decide nothing: stanzas of `importer:`, some `about:`, perhaps `word:` and `input:`, and
    `why:`."""
    found: List[Exemption] = []
    for stanza in path.read_text().split("\n\n"):
        rows = [line.split(": ", 1) for line in stanza.split("\n") if line.strip() and not line.startswith("#")]
        given = {name: text for name, text in rows if name != "about"}
        found += [Exemption(given["importer"], re.compile(text), re.compile(given.get("word", ".*"), re.DOTALL),
                            re.compile(given.get("input", ".*"), re.DOTALL), given["why"])
                  for name, text in rows if name == "about"]
    return found


class Fuzzer:
    """Tries cases. `folder` is where their files lie, one case after another."""

    def __init__(self, folder: str) -> None:
        self.folder = folder
        self.inputs = inputs()
        self.exemptions = exemptions()
        self.base: Dict[str, Ended] = {}
        self.known: Set[bytes] = set()

    def case_of(self, seed: int) -> Case:
        """The case of a seed."""
        draw = random.Random(seed)
        importer = draw.choice([each for each, often in OFTEN.items() for _ in range(often)])
        chosen = draw.choice(self.inputs[importer])
        file = draw.choice(sorted(chosen.files))
        content = chosen.files[file]
        if importer in UNPACKING and draw.random() < 0.04:
            files = {name: text for name, text in chosen.files.items() if name != file}
            words = [file + ".gz" if word == file else word for word in chosen.words]
            packed = chosen._replace(files={**files, file + ".gz": content}, words=words)
            return Case(packed, file + ".gz", "packed", mutations.packed(draw, content))
        return Case(chosen, file, *mutations.change(draw, content, COMMENTS[importer]))

    def run(self, given: Input, files: Dict[str, bytes]) -> Ended:
        """How the importer ends with these files."""
        for name in os.listdir(self.folder):
            _remove(pathlib.Path(self.folder, name))
        for name, content in files.items():
            path = pathlib.Path(self.folder, name)
            path.parent.mkdir(parents=True, exist_ok=True)
            path.write_bytes(content)
        words = [os.path.join(self.folder, word) if word == "." or word in files else word for word in given.words]
        return ended(given.importer, words)

    def wrong(self, case: Case) -> str:
        """What is wrong with what an importer makes of a case; empty where nothing is."""
        files = {**case.input.files, case.file: case.change.content}
        found = self.run(case.input, files)
        if found.fault:
            return found.fault
        if found.status not in (0, 1, 2):
            return "the exit status is %d" % found.status
        if found.status == 2:
            return self.wrong_mistake(found)
        return self.refused(found.script) or self.misread(case, found)

    def wrong_mistake(self, found: Ended) -> str:
        """A mistake names a file, and nothing is written."""
        last = found.told.rstrip("\n").split("\n")[-1]
        if found.script:
            return "the exit status is 2, and a script is written"
        return "" if last.startswith(self.folder) else "the exit status is 2, and no file is named: %s" % last

    def refused(self, script: str) -> str:
        """The first line that the program refuses."""
        key = hashlib.sha256(script.encode("utf-8", "surrogateescape")).digest()
        if key in self.known:
            return ""
        ran = run((programs.bgpsim(), "script"), script.encode("utf-8", "surrogateescape"))
        replies = ran.out.decode("latin-1").split("\n")[:-1]
        commands_of = [line for line in script.split("\n")[:-1] if line.strip() and not line.startswith("#")]
        for line, reply in zip(commands_of, replies):
            if reply != "ok":
                return "the program replies `%s` to `%s`" % (reply, line[:200])
        if ran.status or len(replies) != len(commands_of):
            return "the program ends with status %d after %d of %d lines: %s" % (
                ran.status, len(replies), len(commands_of), ran.err.decode("latin-1"))
        self.known.add(key)
        return ""

    def misread(self, case: Case, found: Ended) -> str:
        """A garbled word that nothing comes of."""
        change = case.change
        if not change.word:
            return ""
        before = self.base.get(case.input.name)
        if before is None:
            before = self.base[case.input.name] = self.run(case.input, case.input.files)
        if found.script != before.script or self.is_told(case, before, found) or self.why(case) is not None:
            return ""
        return "nothing comes of `%s` in line %d: %s" % (change.word, change.line, change.about)

    def is_told(self, case: Case, before: Ended, found: Ended) -> bool:
        """Whether a garbled word is reported: by its file and line, or its whole file; by itself; or by what it was,
        which is missed now."""
        change, file = case.change, os.path.join(self.folder, case.file)
        places = ("%s:%d: " % (file, change.line), "%s: not taken over: " % file)
        told, known = _plain(found.told), _plain(before.told)
        new = [line for line in told if line not in known]
        words = [re.compile(r"(?<![\w.])%s(?![\w.])" % re.escape(word)) for word in (change.word, change.was)
                 if len(word) > 1]
        return any(line.startswith(places) for line in told) or any(word.search(line) for word in words for line in new)

    def why(self, case: Case) -> Optional[str]:
        """Why a garbled word decides nothing, as the list has it."""
        return next((each.why for each in self.exemptions if each.importer == case.input.importer
                     and each.about.fullmatch(case.change.about) and each.word.fullmatch(case.change.word)
                     and each.input.fullmatch(case.input.name)), None)


def _plain(told: str) -> List[str]:
    """The lines that were reported, without ways back in the names of files."""
    return re.sub(r"/[^/\n]+/\.\.(?=/)|/\.(?=/)", "", told).split("\n")


def _remove(path: pathlib.Path) -> None:
    """Takes a file or a folder away, with all in it."""
    if path.is_dir():
        for inner in path.iterdir():
            _remove(inner)
        path.rmdir()
    else:
        path.unlink()


# All cases

def try_cases(seeds: range) -> int:
    """Tries the cases of some seeds, and counts them; the exit status."""
    programs.bgpsim()
    passed = failed = 0
    with tempfile.TemporaryDirectory() as place:
        folder = os.path.join(place, "net")
        os.mkdir(folder)
        fuzzer = Fuzzer(folder)
        for seed in seeds:
            case = fuzzer.case_of(seed)
            wrong = fuzzer.wrong(case)
            passed += not wrong
            failed += bool(wrong)
            if wrong:
                print("FAILED seed %d, %s, %s of %s in %s:" % (seed, case.input.importer, case.kind, case.file,
                                                               case.input.name))
                print("    " + wrong.rstrip().replace("\n", "\n    "))
                print("    again: tools/fuzz-importers --cases 1 --seed %d" % seed, flush=True)
    return commands.counted(passed, failed)


def main(words: Sequence[str]) -> int:
    """The command."""
    asked = commands.parser(__doc__)
    asked.add_argument("--cases", type=commands.number, default=6000, metavar="N")
    asked.add_argument("--seed", type=commands.number, default=1, metavar="S")
    given = asked.parse_args(words)
    resource.setrlimit(resource.RLIMIT_AS, (MEMORY, MEMORY))
    return commands.as_part(lambda: try_cases(range(given.seed, given.seed + given.cases)))
