"""The command language, as docs/reference/language.md has it: its commands and values, and what is wrong with a line
that spells no command. Its tables are those of `language_table`."""
from __future__ import annotations

import functools
import re
from typing import List, Optional, Tuple

from . import communities
from .grammar import Form, Kind
from .language_table import FORMS, GROUPS, KINDS, LIMITS, MATCHES, ORIGINS, REFUSALS, REPLIES, SETTINGS, WORDS

# What a terminal obeys or hides: control characters, marks of the writing direction and others without a shape, halves
# of characters.
UNSEEN = re.compile("[\x00-\x1f\x7f-\x9f\xad\u061c\u180e\u200b-\u200f\u2028-\u202e\u2060-\u206f\ufeff\ufff9-\ufffb"
                    "\ud800-\udfff]")
MAKES, CHANGES, TELLS, ASKS = GROUPS
NAMES = tuple(sorted({form.name for form in FORMS}))
QUESTIONS = frozenset(form.name for form in FORMS if form.group == ASKS)
# Questions whose reply has as many lines as it needs, and ends with `end N`.
REPORTS = frozenset(form.name for form in FORMS for reply in REPLIES if reply.each and form.reply == reply.name)
# Where a command names the prefix that it is about.
PREFIX_PLACES = {form.name: place for form in FORMS for place in [form.place("P")] if place is not None}
# The numbers of refusals, by their names.
NUMBERS = {refusal.name: refusal.number for refusal in REFUSALS}
# How much the program takes.
MOST = {limit.name: limit.most for limit in LIMITS}
LONGEST = MOST["line"]


def words_of(line: str) -> List[str]:
    """The words of a line; spaces alone part them."""
    return [word for word in line.split(" ") if word]


def is_silent(line: str) -> bool:
    """Whether the line has no reply: it is blank or a comment."""
    words = words_of(line)
    return len(line) <= LONGEST and (not words or words[0].startswith("#"))


def ended(line: str) -> str:
    """The line with its end. One carriage return before a line feed belongs to the end, so a line that ends with one
    gets another."""
    return line + ("\r\n" if line.endswith("\r") else "\n")


# What is shown

def escaped(text: str, kept: str = "") -> str:
    """Text as it can be shown: what a terminal would obey or hide stands as `\\x1b` or `\\u202e`. What is kept stays as
    it is."""
    return UNSEEN.sub(lambda found: found.group() if found.group() in kept else _escape(found.group()), text)


def _escape(one: str) -> str:
    # A byte of a file's name that is no UTF-8 is such a half.
    return "\\x%02x" % (ord(one) - 0xdc00) if "\udc80" <= one <= "\udcff" else one.encode("unicode_escape").decode("ascii")


def readable(line: str) -> str:
    """A script's line, whose characters are the bytes of the file, as text that can be shown."""
    return escaped(line.encode("latin-1").decode("utf-8", "backslashreplace"))


# The values

def number(text: str, low: int = 0, high: int = 2 ** 32 - 1) -> Optional[int]:
    """The number that the text spells, in its range and without leading zeros."""
    if not re.fullmatch(r"0|[1-9][0-9]{0,9}", text):
        return None
    return int(text) if low <= int(text) <= high else None


@functools.lru_cache(maxsize=65536)
def address(text: str) -> Optional[int]:
    """The address that the text spells, as a number."""
    parts = [number(part, 0, 255) for part in text.split(".")]
    if len(parts) != 4 or None in parts:
        return None
    return sum((part or 0) << shift for part, shift in zip(parts, (24, 16, 8, 0)))


def show_address(value: int) -> str:
    """An address as text."""
    return ".".join(str(value >> shift & 255) for shift in (24, 16, 8, 0))


@functools.lru_cache(maxsize=65536)
def prefix(text: str) -> Optional[Tuple[int, int]]:
    """The prefix that the text spells: its address and its length."""
    first, slash, last = text.partition("/")
    at, length = address(first), number(last, 0, 32)
    if not slash or at is None or length is None or at % 2 ** (32 - length):
        return None
    return at, length


def show_prefix(value: Tuple[int, int]) -> str:
    """A prefix as text."""
    return "%s/%d" % (show_address(value[0]), value[1])


def by_address(text: str) -> int:
    """The key that puts addresses in order."""
    return address(text) or 0


def by_prefix(text: str) -> Tuple[int, int]:
    """The key that puts prefixes in order."""
    return prefix(text) or (0, 0)


def contains(outer: Tuple[int, int], inner: Tuple[int, int]) -> bool:
    """Whether a prefix is the other or has it as a part."""
    return outer[1] <= inner[1] and (outer[0] ^ inner[0]) >> (32 - outer[1]) == 0


def as_path(text: str) -> Optional[List[Tuple[bool, List[int]]]]:
    """The segments of a path: whether each is a set, and its AS numbers."""
    segments = []
    for part in [] if text == "-" else text.split("_"):
        is_set = part.startswith("{") and part.endswith("}")
        numbers = [number(word, 1) for word in (part[1:-1] if is_set else part).split(",")]
        found = [each for each in numbers if each is not None]
        if len(found) < len(numbers) or is_set and found != sorted(set(found)):
            return None
        segments.append((is_set, found))
    return segments


def path_length(text: str) -> int:
    """The length by which paths are compared: a set counts 1."""
    return sum(1 if is_set else len(numbers) for is_set, numbers in as_path(text) or [])


def neighbour(text: str) -> Optional[int]:
    """The neighbouring AS: the first of a path that begins with a sequence."""
    segments = as_path(text)
    return segments[0][1][0] if segments and not segments[0][0] else None


def in_front(asn: int, times: int, text: str) -> str:
    """The path with an AS put in front so often: into its first sequence, where that has room."""
    segments = as_path(text) or []
    for _ in range(times):
        has_room = bool(segments) and not segments[0][0] and len(segments[0][1]) < 255
        segments = [(False, [asn] + segments[0][1])] + segments[1:] if has_room else [(False, [asn])] + segments
    return "_".join(("{%s}" if is_set else "%s") % ",".join(map(str, numbers)) for is_set, numbers in segments) or "-"


# What is wrong with a line

KIND_OF = {word: kind for word, name in WORDS.items() for kind in KINDS if kind.name == name}
# The words of a form that are addresses.
ADDRESSES = tuple(word for word, name in WORDS.items() if name == "address")
COMMUNITIES = next(word for form in FORMS for word in form.words if word.startswith("[comm="))
_LISTED = COMMUNITIES.strip("[]")
_RULE = next(form for form in FORMS if form.name == "rule")
_EITHER = " or ".join((", ".join(map(str, MATCHES[:-1])), str(MATCHES[-1])))
# What a rule can set, in its order.
SETTING_NAMES = tuple(setting.name for setting in SETTINGS)
_SETTINGS = ", ".join("%s=K" % name for name in SETTING_NAMES)


def fits(kind: Kind, text: str) -> bool:
    """Whether a text is a value of this kind."""
    if kind.name == "address":
        return address(text) is not None
    if kind.name == "prefix":
        return prefix(text) is not None
    if kind.name == "path":
        return as_path(text) is not None
    if kind.name == "origin":
        return text in ORIGINS
    return kind.name == "med" and text == "-" or number(text, kind.low, kind.high) is not None


def fault(line: str) -> Optional[str]:
    """What is wrong with a line that spells no command, or nothing where one is spelled."""
    if len(line) > LONGEST:
        return "the line has %d bytes, and at most %d are read" % (len(line), LONGEST)
    odd = next((each for each in line if not " " <= each <= "~"), None)
    if odd is not None:
        is_tab, other = odd == "\t", "the line holds a byte that no command has, %s" % ascii(odd)
        return "a tab is no space: words are parted by spaces" if is_tab else other
    words = words_of(line)
    if not words:
        return None
    forms = [form for form in FORMS if form.name == words[0]]
    if not forms:
        return "there is no command `%s`" % words[0]
    form = next((form for form in forms if len(words) > 3 and words[3:4] == form.words[3:4]), forms[0])
    return rule_fault(words) if words[0] == "rule" else _form_fault(words, form)


def _form_fault(words: List[str], form: Form) -> Optional[str]:
    wanted = form.words
    for word, want in zip(words[1:], wanted[1:]):
        text = _word_fault(word, want)
        if text:
            return text
    if not form.least <= len(words) <= len(wanted):
        is_comment = len(words) > len(wanted) and words[len(wanted)].startswith("#")
        wrong = ("a word is missing" if len(words) < form.least else "a comment needs a line of its own" if is_comment
                 else "there is a word too many")
        return "%s: the command is `%s`" % (wrong, form.spelling)
    return None


def _word_fault(word: str, want: str) -> Optional[str]:
    if want == COMMUNITIES:
        return _communities_fault(word)
    kind = KIND_OF.get(want)
    if kind:
        return None if fits(kind, word) else "`%s` is not %s%s" % (word, kind.expected, _meant(kind, word))
    return None if word in want.split("|") else "`%s` where `%s` is expected" % (word, " or ".join(want.split("|")))


def _meant(kind: Kind, word: str) -> str:
    """Which community is meant, where one is written otherwise."""
    found = communities.meant(word) if kind.name == "community" else None
    return "" if found is None else ": %s is %d" % (word, found)


def _communities_fault(word: str) -> Optional[str]:
    if not word.startswith("comm="):
        return "`%s` where the command ends, or `%s` is expected" % (word, _LISTED)
    last = -1
    for each in word[len("comm="):].split(","):
        text = _word_fault(each, "C") if each else "`%s`: a number is missing" % word
        if text:
            return text
        if int(each) <= last:
            return "`%s`: %s after %d, where communities ascend and each stands once" % (word, each, last)
        last = int(each)
    return None


def rule_fault(words: List[str]) -> Optional[str]:
    """What is wrong with a rule."""
    for word, want in zip(words[1:], _RULE.words[1:4]):
        text = _word_fault(word, want)
        if text:
            return text
    if len(words) < 6:
        as_this = "`rule 5.0.0.1 7.0.0.1 in any permit pref=150`"
        return "a word is missing: the command is `%s`, as %s" % (_RULE.spelling, as_this)
    match, rest = next((match for match in MATCHES if match.word == words[4]), None), words[5:]
    if match is None:
        return "`%s` is no match: %s" % (words[4], _EITHER)
    if match.argument:
        text = _word_fault(rest[0], match.argument)
        if text:
            return text
        rest = rest[1:]
    return _action_fault(rest)


def _action_fault(words: List[str]) -> Optional[str]:
    if not words or words[0] not in ("deny", "permit"):
        return "`deny` or `permit` is expected after the match"
    rest = words[1:]
    for setting in SETTINGS if words[0] == "permit" else ():
        if rest and rest[0].startswith(setting.name + "="):
            given = rest[0][len(setting.name) + 1:]
            if number(given, setting.low, setting.high) is None:
                found = communities.meant(given) if setting.name == "add" else None
                meant = "" if found is None else ", as add=%d" % found
                return "`%s`: a number of %d to %d is expected%s" % (rest[0], setting.low, setting.high, meant)
            rest = rest[1:]
    if rest and words[0] == "deny":
        return "`%s` after `deny`, which has no settings" % rest[0]
    known = "the settings are %s, in this order, each at most once" % _SETTINGS
    return "`%s`: %s" % (rest[0], known) if rest else None
