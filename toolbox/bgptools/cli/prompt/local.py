"""The prompt of `play`: commands as they are typed, with a history, completion, and words of its own as `converge` and `save`."""
from __future__ import annotations

import difflib
import io
import os
import pathlib
import sys
import tempfile
from typing import TYPE_CHECKING, Callable, Dict, List, Optional, Tuple

from ...convergence.run import Run
from ...convergence.transcript import kept_back, tell, tell_convergence
from ...network.configuration import Direction
from ...network.refusals import sentence
from ...program import libraries, output, script
from ...program.grammar import Form
from ...program.language import (
    NAMES, QUESTIONS, SETTING_NAMES, address, by_address, escaped, is_silent, readable, words_of)
from ...program.language_table import FORMS, MATCHES
from ...program.mistakes import Mistake
from ...program.names import MARK
from ...program.replies import refusal
from ...program.script import MARK as EXPECTED, Line, read
from ...session import journal
from .. import draw, explain, what_if
from .completion import Completion
from .keyboard import Keyboard

if TYPE_CHECKING:
    from .terminal import Terminal

PAD = "    "
OWN = tuple(Form(spelling, meaning, "work at this prompt") for spelling, meaning in (
    ("? [COMMAND]", "this list; or one command, as in `? rule`"),
    ("next", "deliver the next waiting message: each queue gives one a round"),
    ("converge", "deliver until all queues are empty"),
    ("undo", "play all again but the last edit or feed and what came after it"),
    ("name A N", "A has the name N: it is shown, and taken where a command wants an address"),
    ("load FILE", "play a script into this network"),
    ("explain R P [--to X]", "by which value each other route lost; or what R tells X, or why nothing"),
    ("draw FILE [--prefix P] [--trace R D]", "a picture of the network"),
    ("what-if FILE [--trace R D]", "what the commands of the file would do; they are tried on a copy"),
    ("save FILE", "write the script so far"),
    ("quit", "end (so does the end of input)")))


class Prompt:
    """What was typed and accepted so far, and the run that it made. `lines` is always what the program has accepted."""

    def __init__(self, most: Optional[int] = None) -> None:
        self.most = most
        self.forms: Tuple[Form, ...] = FORMS + OWN
        self.lines: List[str] = []
        self.round: List[Direction] = []
        self.changes: List[Tuple[str, List[str]]] = []
        self.keyboard = Keyboard()
        # Whether it says which command was meant by one that it does not know.
        self.suggests = False
        self.journal: Optional[journal.Journal] = None
        self.own: Dict[str, Callable[[List[str]], None]] = {
            "?": self.help, "help": self.help, "next": self.next, "converge": self.converge, "undo": self.undo, "name": self.name,
            "load": self.load, "explain": self.explain, "draw": self.draw, "what-if": self.what_if, "save": self.save}
        self.run = self._played([])

    # What is accepted

    def _played(self, lines: List[str]) -> Run:
        """A new run with these lines but the questions."""
        run = Run(most=self.most)
        try:
            for line in _changes(lines):
                run.say(line)
        except BaseException:
            run.close()
            raise
        run.program.heard, run.program.before = self._heard, self.keyboard.check
        return run

    def _heard(self, line: str, reply: List[str]) -> None:
        """Keeps a change as soon as its reply is read, whoever gave it."""
        if _is_change(reply):
            self.changes.append((line, reply))
            self._keep(line)

    def _keep(self, line: str) -> None:
        self.lines.append(line)
        if self.journal:
            self.journal.add(line)

    def _say(self, line: str) -> List[str]:
        with self.keyboard.held():
            reply = self.run.say(line)
            # What was meant to be refused is not kept, and neither is the mark that says so of the next command.
            if not refusal(reply) and not _is_change(reply) and not EXPECTED.fullmatch(line):
                self._keep(line)
        return reply

    def _replace(self, run: Run, lines: List[str]) -> None:
        """Takes another run in the place of this one. It is not stopped midway."""
        self.keyboard.end()
        self.run.close()
        self.run, self.lines, self.round = run, lines, []
        if self.journal:
            self.journal.replace(self.lines)

    def mend(self) -> None:
        """Makes right what a command left that was stopped, or whose program has ended."""
        if self.run.program.is_torn:
            print(PAD + "-- the network is made anew from what was accepted")
            self.keyboard.end()
            self._replace(self._played(self.lines), self.lines)
        elif self.changes:
            self.run.lines = [line for line in _changes(self.lines) if not is_silent(line) or MARK.fullmatch(line)]
            for line, reply in self.changes:
                self.run.deliverer.after(words_of(line), reply)
        self.changes = []

    # What is typed

    def take(self, line: str) -> None:
        """One line that was typed, as the bytes of a script. Ctrl-C ends it, and keeps what it has done."""
        self.mend()
        self.keyboard.begin()
        before = len(self.lines)
        try:
            words = words_of(line)
            if words and words[0] in self.own:
                self.own[words[0]](words)
            else:
                self.command(line)
            self.changes = []
        except Mistake as mistake:
            print(PAD + "-- %s" % mistake)
        except KeyboardInterrupt:
            done = len(self.lines) - before
            print("\n%s-- stopped%s" % (PAD, "; done until then, and kept: %d" % done if done > 0 else ""))
        self.mend()

    def command(self, line: str) -> None:
        """A line for the program."""
        line = self._with_addresses(line)
        reply = self._say(line)
        with self.keyboard.held():
            more = kept_back(self.run, words_of(line), reply)
        tell(PAD, reply + more, self.run.network.names)
        if refusal(reply):
            tell(PAD, ["-- " + self._why(line, reply)], self.run.network.names)
            self._suggest(line)

    def _suggest(self, line: str) -> None:
        """Which command was meant, if the line has a word in its place that is like one."""
        word = words_of(line)[:1]
        if self.suggests and word and word[0] not in NAMES:
            near = difflib.get_close_matches(word[0].lower(), [*NAMES, *self.own], 1)
            tell(PAD, ["-- did you mean `%s`?" % each for each in near], self.run.network.names)

    def _why(self, line: str, reply: List[str]) -> str:
        """Why a line was refused."""
        return sentence(line, refusal(reply), self.run.network)

    def _with_addresses(self, line: str) -> str:
        """The line with an address in the place of each name."""
        return self.run.network.names.in_line(line)

    def _address(self, word: str) -> str:
        found = self.run.network.names.address_of(readable(word))
        return found if address(found) is not None else word

    # Words of the prompt

    def help(self, words: List[str]) -> None:
        """The commands, in groups; or one of them."""
        forms = [form for form in self.forms if words[1:2] in ([], [form.words[0]])]
        group = ""
        for form in forms:
            if form.group != group and not words[1:]:
                group = form.group
                print("To %s:" % group)
            print("  %-46s %s" % (form.spelling, form.meaning))
        if words[1:2] in ([], ["rule"]):
            matches, settings = ", ".join(map(str, MATCHES)), " ".join("[%s=K]" % name for name in SETTING_NAMES)
            print("  MATCH is one of %s; ACT is deny, or permit %s" % (matches, settings))
        if words[1:2] in ([], ["rule"], ["feed"]):
            print("  C, and K of add=K, is a community as one number: 65000:1 is 65000 x 65536 + 1, 4259840001")
        elif not forms:
            print(PAD + "-- there is no command `%s`" % readable(words[1]))

    def waiting(self) -> List[Direction]:
        """Where messages wait, in order."""
        ways = sorted(self.run.deliverer.suspects, key=lambda way: (by_address(way[0]), by_address(way[1])))
        with self.keyboard.held():
            replies = self.run.ask("queue %s %s" % way for way in ways)
        return [way for way, reply in zip(ways, replies) if len(reply) > 1]

    def next(self, _: List[str]) -> None:
        """Delivers one message. A round has each queue in which something waits at its beginning."""
        self.round = self.round or self.waiting()
        while self.round:
            way = self.round.pop(0)
            reply = self._say("deliver %s %s" % way)
            if refusal(reply) not in (16, 17):
                tell(PAD, ["deliver %s %s: %s" % (way + (reply[0],))], self.run.network.names)
                return
            self.round = self.round or self.waiting()
        print(PAD + "quiet: no message waits")

    def converge(self, _: List[str]) -> None:
        """Delivers until all queues are empty."""
        with self.keyboard.held():
            done = self.run.converge()
        tell_convergence(PAD, done, self.run.network.names)
        if done.is_converged:
            print(PAD + "quiet after %d deliver%s" % (len(done.deliveries), "y" if len(done.deliveries) == 1 else "ies"))

    def undo(self, _: List[str]) -> None:
        """Plays all again but the last edit or feed and what came after it."""
        others = QUESTIONS | {"deliver"}
        edits = [at for at, line in enumerate(self.lines) if not is_silent(line) and words_of(line)[0] not in others]
        if not edits:
            raise Mistake("there is nothing to undo")
        undone, lines = self.lines[edits[-1]], self.lines[:edits[-1]]
        self._replace(self._played(lines), lines)
        print(PAD + "undone: " + self.run.network.names.in_text(undone))

    def name(self, words: List[str]) -> None:
        """Gives a name, by the comment of a script that does."""
        expect(words, 3, 3, "name A N")
        self._say(self.run.network.naming(words[1], words[2]))

    def load(self, words: List[str]) -> None:
        """Plays a script; a line that is refused, and not marked so, is told."""
        expect(words, 2, 2, "load FILE")
        lines = read(path_of(words[1]))
        refused = self.play(lines)
        commands = sum(line.is_command for line in lines)
        print(PAD + "%d command%s of %s, %d refused" % (commands, "" if commands == 1 else "s", readable(words[1]), refused))

    def play(self, lines: List[Line]) -> int:
        """Plays lines of a script, and tells what is refused; how many were."""
        refused = 0
        for line in lines:
            reply = self._say(line.text)
            refused += refusal(reply) > 0
            if refusal(reply) and line.expected is None:
                why = "%s: %s" % (reply[0], self._why(line.text, reply))
                tell(PAD, [str(Mistake(why, escaped(line.file), line.number))], self.run.network.names)
        return refused

    def explain(self, words: List[str]) -> None:
        """Tells all routes of a router to a prefix, and why each was chosen or not; or what it tells a peer."""
        expect(words, 3, 5, "explain R P [--to X]")
        self._on_a_copy(explain.main, [None, self._address(words[1]), words[2], *self._options(words[3:])])

    def draw(self, words: List[str]) -> None:
        """Draws the network."""
        expect(words, 2, 9, "draw FILE [--prefix P] [--trace R D]")
        self._on_a_copy(draw.main, [None, "-o", path_of(words[1]), *self._options(words[2:])])
        print(PAD + "drawn in " + readable(words[1]))

    def what_if(self, words: List[str]) -> None:
        """Tells what a change would do."""
        expect(words, 2, 99, "what-if FILE [--trace R D]")
        self._on_a_copy(what_if.main, [None, path_of(words[1]), *self._options(words[2:])])

    def _options(self, words: List[str]) -> List[str]:
        """Options of a tool, with an address in the place of a name."""
        wanted = ("--trace", "--to")
        return [self._address(word) if before in wanted else word for before, word in zip([""] + words, words)]

    def _on_a_copy(self, tool: Callable[[List[str]], int], words: List[Optional[str]]) -> None:
        """Runs a tool on the network as it stands: in the place of None it gets the script so far, and plays that for itself."""
        with tempfile.TemporaryDirectory() as place:
            path = os.path.join(place, "typed.bgp")
            output.write_bytes(script.content_of(_changes(self.lines)), path)
            try:
                tool([path if word is None else word for word in words])
            except SystemExit:
                raise Mistake("nothing was done") from None
            except Mistake as mistake:
                raise Mistake(mistake.text, None if mistake.file == path else mistake.file, mistake.line) from None

    def save(self, words: List[str]) -> None:
        """Writes the script so far."""
        expect(words, 2, 2, "save FILE")
        output.write_bytes(script.content_of(self.lines), path_of(words[1]))
        print(PAD + "%d lines in %s" % (len(self.lines), readable(words[1])))

    def restore(self, path: pathlib.Path) -> None:
        """Takes up the work of a prompt that has ended early. Raises Mistake where it cannot be read."""
        kept = journal.Journal(_told)
        lines = kept.take_up(path) if path.parent == journal.folder() else read(str(path))
        refused = self.play(lines)
        self.journal = kept
        self.journal.replace(self.lines)
        print("%d lines of %s%s" % (len(lines), escaped(str(path)), ", %d of them refused" % refused if refused else ""))


def _changes(lines: List[str]) -> List[str]:
    """Lines but the questions."""
    return [line for line in lines if is_silent(line) or words_of(line)[0] not in QUESTIONS]


def _is_change(reply: List[str]) -> bool:
    """Whether a command was accepted that changes something."""
    return bool(reply) and (reply[0] == "ok" or reply[0].startswith("took "))


def expect(words: List[str], least: int, most: int, spelling: str) -> None:
    if not least <= len(words) <= most:
        raise Mistake("`%s` is expected" % spelling)


def path_of(word: str) -> str:
    """The file that a typed word names."""
    return os.path.expanduser(word.encode("latin-1").decode("utf-8", "surrogateescape"))


def _told(text: str) -> None:
    print(PAD + "-- " + escaped(text))


# The prompt itself

def _found(given: str) -> pathlib.Path:
    """The journal that is to be taken up: the one that is named, or the newest."""
    if given:
        return pathlib.Path(given).absolute()
    left = journal.left_behind()
    if not left:
        raise Mistake("there is no work of a prompt that ended early", str(journal.folder()))
    return left[0]


def _tell_left() -> None:
    left = journal.left_behind()
    if left:
        print("%s that ended early left work behind: `play --restore` takes up the newest, %s." % (
            "A prompt" if len(left) == 1 else "%d prompts" % len(left), escaped(str(left[0]))))


class Reader:
    """Lines as they are typed. `terminal` edits them, if what is shown goes to a terminal, too."""

    def __init__(self, shown: str, completion: Completion) -> None:
        self.shown = shown
        self.terminal: Optional[Terminal] = None
        if sys.stdout.isatty():
            from .terminal import Terminal as Editor
            self.terminal = Editor(shown, completion)

    def line(self) -> Optional[str]:
        """A line as the bytes of a script; None at the end."""
        line = self.terminal.line() if self.terminal else self._plain()
        if line is None or words_of(line)[:1] in (["quit"], ["exit"]):
            return None
        return line.encode("utf-8", "surrogateescape").decode("latin-1")

    def _plain(self) -> Optional[str]:
        try:
            return input(self.shown)
        except EOFError:
            print()
            return None
        except KeyboardInterrupt:
            print()
            raise

    def close(self) -> None:
        """No more lines are read."""
        if self.terminal:
            self.terminal.close()


def need_terminal() -> None:
    """Raises Mistake if the library is missing that edits lines at a terminal."""
    if sys.stdout.isatty():
        libraries.need("prompt")


def read_lines(typed: Prompt, next_line: Callable[[], Optional[str]]) -> None:
    """Takes lines as they are typed, until the end of input."""
    while True:
        try:
            typed.keyboard.watch()
            typed.keyboard.begin()
            try:
                line = next_line()
            finally:
                # Who edits lines has taken Ctrl-C over meanwhile.
                typed.keyboard.watch()
            if line is None:
                break
            typed.take(line)
        except KeyboardInterrupt:
            typed.mend()
    typed.keyboard.end()
    typed.run.close()


def prompt(most: Optional[int] = None, restored: Optional[str] = None) -> int:
    """Reads lines at a terminal until the end of input. `restored` is the journal to take up; empty for the newest."""
    if isinstance(sys.stdin, io.TextIOWrapper):
        sys.stdin.reconfigure(errors="surrogateescape")
    need_terminal()
    typed = Prompt(most)
    typed.suggests = sys.stdout.isatty()
    print("bgpsim: `?` lists the commands, `quit` ends.")
    if restored is None:
        typed.journal = journal.Journal(_told)
        _tell_left()
    else:
        typed.restore(_found(restored))
    reader = Reader("bgpsim> ", Completion(OWN, lambda: typed.run.network, typed.waiting))
    read_lines(typed, reader.line)
    reader.close()
    # Where the terminal is gone, that was no end as it should be.
    if typed.journal and os.isatty(0):
        typed.journal.remove()
    return 0
