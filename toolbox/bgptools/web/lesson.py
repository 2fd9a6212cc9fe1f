"""What a script says beside its steps, for a class: headings, texts, and its questions, which show what they are about."""
from __future__ import annotations

from typing import Any, Dict, List, Optional

from ..picture.steps import HEADING
from ..program.language import PREFIX_PLACES, QUESTIONS, readable, words_of
from ..program.names import MARK as NAME
from ..program.script import MARK, Line

Note = Dict[str, Any]


def notes_of(lines: List[Line], steps: List[str]) -> List[Note]:
    """What is shown before the first of these steps, and at each of them; they are the lines that were accepted.

    A note has the `heading` that its step stands under, what the script `says` before it, and `asks`: the questions,
    and the lines that are refused, that come after it, each with what is said before it; an empty line is the end. In
    a script with headings `view` is what is shown there."""
    notes = _Notes(steps)
    for line in lines:
        notes.take(line)
    return notes.ended()


class _Notes:
    """The notes of a script, line by line."""

    def __init__(self, steps: List[str]) -> None:
        self.steps = steps
        self.notes: List[Note] = [_note("", "")]
        self.says: List[str] = []
        self.heading = ""
        self.is_lesson = self.has_begun = False

    def take(self, line: Line) -> None:
        """The next line of the script."""
        at = len(self.notes) - 1
        if at < len(self.steps) and _is_step(line, self.steps[at]):
            self.notes.append(_note(self.heading, self._said()))
            self.has_begun = True
        elif line.is_command:
            self.notes[-1]["asks"].append({"says": self._said(), "line": readable(line.text.strip(" "))})
            self.has_begun = True
        elif not MARK.fullmatch(line.text):
            self._comment(line.text)

    def _comment(self, text: str) -> None:
        found = HEADING.fullmatch(text)
        if found:
            if not self.has_begun and not self.heading:
                self.notes[0]["says"] = self._said()
            self.heading, self.is_lesson = readable(found.group(1)), True
        elif text.strip(" "):
            self.says.append(readable(text.strip(" ").lstrip("#").strip(" ")))

    def _said(self) -> str:
        """What was said since it was asked: a text's lines are one paragraph, and a comment without a word ends it."""
        paragraphs: List[List[str]] = [[]]
        for text in self.says:
            paragraphs += [[]] if not text else []
            paragraphs[-1] += [text] if text else []
        self.says = []
        return "\n".join(" ".join(paragraph) for paragraph in paragraphs if paragraph)

    def ended(self) -> List[Note]:
        """All notes, when the script has ended."""
        said = self._said()
        if said:
            self.notes[-1]["asks"].append({"says": said, "line": ""})
        view: Dict[str, Any] = {"prefix": "", "way": None, "router": None}
        for note, step in zip(self.notes if self.is_lesson else [], [""] + self.steps):
            view = _after(dict(view, router=None), step)
            for each in note["asks"]:
                view = _after(view, each["line"])
            note["view"] = view
        return self.notes


def _note(heading: str, says: str) -> Note:
    return {"heading": heading, "says": says, "asks": []}


def _is_step(line: Line, step: str) -> bool:
    """Whether a line is this step."""
    return line.is_command and line.words == words_of(step) or bool(NAME.fullmatch(line.text)) and line.text == step


def _after(view: Dict[str, Any], line: str) -> Dict[str, Any]:
    """What is shown after a line: the prefix that it is about, the router that it asks, or the packet."""
    words = words_of(line)
    told = _prefix_of(words)
    if told is not None:
        view = dict(view, prefix=told)
    if words[:1] == ["trace"] and len(words) == 3:
        return dict(view, way=words[1:])
    is_of_router = words[:1] != ["queue"] and words[:1] != ["cost"] and len(words) > 1 and words[0] in QUESTIONS
    return dict(view, router=words[1]) if is_of_router else view


def _prefix_of(words: List[str]) -> Optional[str]:
    """The prefix that a line tells, originates or asks for."""
    place = PREFIX_PLACES.get(words[0] if words else "")
    return words[place] if place is not None and len(words) > place else None
