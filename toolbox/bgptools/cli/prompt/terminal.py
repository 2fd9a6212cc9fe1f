"""The line that is typed at a terminal, by prompt_toolkit: keys, history, completion and suggestions.

`local` imports this module where a prompt begins: all else works without the library."""
from __future__ import annotations

import asyncio
import contextlib
import os
import pathlib
from typing import Callable, Iterable, Iterator, List, Optional

from prompt_toolkit import PromptSession
from prompt_toolkit.application import get_app, get_app_or_none, run_in_terminal
from prompt_toolkit.auto_suggest import AutoSuggestFromHistory
from prompt_toolkit.buffer import Buffer
from prompt_toolkit.completion import CompleteEvent, Completer, get_common_complete_suffix
from prompt_toolkit.completion import Completion as Candidate
from prompt_toolkit.cursor_shapes import ModalCursorShapeConfig
from prompt_toolkit.document import Document
from prompt_toolkit.filters import Condition
from prompt_toolkit.history import FileHistory, History, InMemoryHistory
from prompt_toolkit.key_binding import KeyBindings, KeyPressEvent
from prompt_toolkit.utils import is_dumb_terminal

from ...program.language import escaped
from ...program.mistakes import Mistake
from ...session import journal
from .completion import Completion
from .editing import is_vi

# What a key types into an empty line, and enters.
KEYS = {"f1": "?", "f7": "undo", "f8": "next", "f9": "converge"}
# Of a longer file of the history, in bytes, the newer half is kept.
LONGEST = 1 << 20


class Lines(FileHistory):
    """The lines of earlier prompts and of this one, in a file of the user. If the file cannot be read or written, the
    lines of this prompt alone."""

    def load_history_strings(self) -> Iterable[str]:
        """The lines in the file, the newest first."""
        try:
            _shorten(pathlib.Path(self.filename))
            return list(super().load_history_strings())
        except OSError:
            return []

    def store_string(self, string: str) -> None:
        """Adds a line to the file. A line with bytes that are no text is left out."""
        with contextlib.suppress(OSError, UnicodeEncodeError):
            string.encode("utf-8")
            os.makedirs(os.path.dirname(self.filename), mode=0o700, exist_ok=True)
            os.close(os.open(self.filename, os.O_CREAT | os.O_WRONLY | os.O_CLOEXEC, 0o600))
            super().store_string(string)


def _shorten(path: pathlib.Path) -> None:
    """Drops the older half of a file that is too long."""
    if path.exists() and path.stat().st_size > LONGEST:
        newer = path.read_bytes()[-LONGEST // 2:]
        part = path.with_name(".part-history-%d" % os.getpid())
        part.touch(mode=0o600)
        part.write_bytes(newer[newer.find(b"\n\n") + 1:])
        os.replace(str(part), str(path))


def _history() -> History:
    place = journal.folder()
    return Lines(str(place / "history")) if place.is_absolute() else InMemoryHistory()


class Candidates(Completer):
    """What the next word can be, each with what it means."""

    def __init__(self, completion: Completion) -> None:
        self.completion = completion

    def get_completions(self, document: Document, complete_event: CompleteEvent) -> Iterator[Candidate]:
        """The candidates that begin with what is typed of the word."""
        before = document.text_before_cursor
        text = before.rpartition(" ")[2]
        begun = before[:len(before) - len(text)]
        try:
            found = self.completion.candidates(begun, text)
        except Mistake:
            return
        for word in sorted({word for word in found if word.startswith(text)}):
            yield Candidate(word + ("" if word[-1] in "=/" else " "), -len(text), word,
                            self.completion.meaning(begun, word))


class Terminal:
    """Reads lines at a terminal, and shows other lines above the one that is typed."""

    def __init__(self, shown: str, completion: Completion) -> None:
        self.shown = shown
        self.is_dumb = is_dumb_terminal()
        # Its loop stays from line to line, so that another thread can always give it something to do.
        self.loop = asyncio.new_event_loop()
        self.pasted: List[str] = []
        self.before = ""
        has_vi = is_vi()
        self.session: PromptSession[str] = PromptSession(
            shown, completer=Candidates(completion), complete_while_typing=False, history=_history(),
            auto_suggest=None if self.is_dumb else AutoSuggestFromHistory(), key_bindings=self._keys(),
            enable_suspend=True, vi_mode=has_vi,
            cursor=ModalCursorShapeConfig() if has_vi and not self.is_dumb else None)
        if self.is_dumb:
            self.session.default_buffer.on_text_changed += self._echo

    def line(self) -> Optional[str]:
        """The next line; None at the end of input. Raises KeyboardInterrupt for Ctrl-C."""
        if self.pasted:
            line = self.pasted.pop(0)
            print(escaped(self.shown + line))
            return line
        try:
            text = self._edited()
        except EOFError:
            return None
        if "\n" not in text:
            return text
        # Lines that were pasted together are taken one by one, each shown with its replies.
        self.pasted = [line for line in text.split("\n") if line]
        return self.line() if self.pasted else ""

    def _edited(self) -> str:
        self.before = ""
        task = self.loop.create_task(self.session.prompt_async())
        try:
            # From before the prompt is shown: else the terminal takes Ctrl-D for itself that comes early.
            with self.session.input.raw_mode():
                return self.loop.run_until_complete(task)
        except KeyboardInterrupt:
            # One that came as a signal, before the library took the keys over, leaves the task as it is.
            if not task.done():
                task.cancel()
                with contextlib.suppress(asyncio.CancelledError):
                    self.loop.run_until_complete(task)
            raise

    def above(self, show: Callable[[], None]) -> None:
        """Lets `show` print above the line that is typed, soon. Any thread may call it."""
        with contextlib.suppress(RuntimeError):
            self.loop.call_soon_threadsafe(self._above, show)

    def close(self) -> None:
        """No more lines are read."""
        self.loop.close()

    def _above(self, show: Callable[[], None]) -> None:
        app = get_app_or_none()
        if app is None or not app.is_running:
            show()
        elif self.is_dumb:
            print(flush=True)
            show()
            self.session.output.write(self.shown + self.session.default_buffer.text)
            self.session.output.flush()
        else:
            run_in_terminal(show)

    def _echo(self, buffer: Buffer) -> None:
        """Shows on a dumb terminal how the line changed, but for the last character: the library writes that one."""
        before, now = self.before, buffer.document.text_before_cursor
        self.before = now
        if now.startswith(before):
            told = now[len(before):-1]
        elif before.startswith(now):
            told = "\b \b" * (len(before) - len(now)) + "\b" * bool(now)
        else:
            told = "\r" + self.shown + now[:-1]
        self.session.output.write_raw(told)
        self.session.output.flush()

    def _keys(self) -> KeyBindings:
        bound = KeyBindings()
        for key, word in KEYS.items():
            bound.add(key, filter=Condition(lambda: not get_app().current_buffer.text))(_entering(word))
        bound.add("tab")(self._complete)
        return bound

    def _complete(self, event: KeyPressEvent) -> None:
        """Completes the word at once as far as that is clear; else lists the candidates."""
        buffer = event.current_buffer
        if buffer.complete_state:
            buffer.complete_next()
            return
        found = list(buffer.completer.get_completions(buffer.document, CompleteEvent(completion_requested=True)))
        common = get_common_complete_suffix(buffer.document, found)
        if common:
            buffer.insert_text(common)
        elif found and self.is_dumb:
            self._above(lambda: print(escaped("  ".join(each.text.rstrip() for each in found)), flush=True))
        elif found:
            buffer.start_completion()


def _entering(word: str) -> Callable[[KeyPressEvent], None]:
    """What a key does that types a word and enters it."""
    def enter(event: KeyPressEvent) -> None:
        event.current_buffer.insert_text(word)
        event.current_buffer.validate_and_handle()
    return enter
