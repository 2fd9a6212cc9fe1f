"""Malformed input: files that are changed by a word, by lines or by bytes, each change chosen at random."""
from __future__ import annotations

import gzip
import random
import re
from typing import Callable, Dict, List, NamedTuple, Optional, Sequence, Tuple

# What a change puts in: bytes that text has not, or that a language gives a meaning.
ODD = [b"\0", b"\r", b"\t", b"\x0b", b"\x1b[2J", b"\x7f", b"\x80", b"\xff", b"\xed\xa0\x80", b"\xef\xbb\xbf",
       *(letter.encode() for letter in ("é", "\u2028", "\u202e", "\U0001f600")), b"!", b"#", b'"', b"'", b"\\", b"|",
       b"/*", b"*/", b"{", b"}", b"[", b"]", b"[=", b"=]", b"(", b")", b"<", b">", b"&", b"&#1;", b";", b":", b"..",
       b"-", b"-1", b"0", b"4294967296", b"99999999999", b"0x", b"1.2.3.4.5", b"10.0.0.0/33", b"no ", b"include "]
NUMBERS = ["0", "1", "00", "-1", "255", "256", "65535", "65536", "70000", "4294967295", "4294967296", "1e9", "0x10",
           "12x", "1.5", "9" * 11]
ADDRESSES = ["0.0.0.0", "255.255.255.255", "256.0.0.1", "1.2.3", "1.2.3.4.5", "1.2.3.400", "01.2.3.4", "10.0.0.65535",
             "1..2.3", "::1"]
OPENING = [b"(", b"[", b"{", b"[= ", b"!", b"if true then ", b"a [ ", b"<graph>", b"<node id='x'>", b"1 + ", b"{ {",
           b"true && ", b"((a", b".", b"include \"r1.conf\"; "]
WORD = re.compile(r"[^\s|,;{}()\[\]\"'<>=/&]+")


class Change(NamedTuple):
    """A file that was changed: its bytes; of a garbled word its line, what it is now and was, and the line with `@` in
    its place."""
    content: bytes
    line: int = 0
    word: str = ""
    was: str = ""
    about: str = ""


class Place(NamedTuple):
    """Where a word stands: the number of its line, and from where to where in it."""
    line: int
    start: int
    end: int


# Words

def words_of(lines: Sequence[str], comment: str) -> List[Place]:
    """The words of a text but those of comments, of which an expression says what they are."""
    found = []
    for number, line in enumerate(lines, 1):
        hidden = [each.span() for each in re.finditer(comment, line)] if comment else []
        found += [Place(number, each.start(), each.end()) for each in WORD.finditer(line)
                  if not any(start <= each.start() < end for start, end in hidden)]
    return found


def garbled(draw: random.Random, word: str) -> str:
    """Another word in the place of this one: a letter more or less, two swapped, another number or address."""
    at = draw.randrange(len(word))
    letter = draw.choice("abcxyz0129._-")
    forms = [word[:at] + letter + word[at:], word[:at] + word[at + 1:], word[:at] + letter + word[at + 1:],
             word[:at] + word[at + 1:at + 2] + word[at] + word[at + 2:], word + "zqx", "zqx"]
    if re.fullmatch("[0-9]+", word):
        forms = NUMBERS + [str(int(word[:20]) + 1), word + "0"]
    elif re.fullmatch(r"[0-9]+(\.[0-9]+){3}", word):
        parts = word.split(".")
        parts[draw.randrange(4)] = draw.choice(("0", "255", "256", "7", "x", "01"))
        forms = ADDRESSES + [".".join(parts)] * 8
    forms = [each for each in forms if each and each != word and not each.isspace()]
    return draw.choice(forms or ["zqx"])


def a_word(draw: random.Random, content: bytes, comment: str) -> Optional[Change]:
    """One word is garbled; nothing where there is none."""
    lines = content.decode("latin-1").split("\n")
    places = words_of(lines, comment)
    if not places:
        return None
    place = draw.choice(places)
    line = lines[place.line - 1]
    word = garbled(draw, line[place.start:place.end])
    lines[place.line - 1] = line[:place.start] + word + line[place.end:]
    about = " ".join((line[:place.start] + "@" + line[place.end:]).split())
    return Change("\n".join(lines).encode("latin-1"), place.line, word, line[place.start:place.end], about)


# Lines

def some_lines(draw: random.Random, content: bytes) -> Change:
    """A line or some are left out, doubled, swapped or moved; or a word is, in its line."""
    lines = content.split(b"\n")
    at, other = draw.randrange(len(lines)), draw.randrange(len(lines))
    first, last = min(at, other), min(max(at, other), min(at, other) + 5)
    swapped = list(lines)
    swapped[at], swapped[other] = swapped[other], swapped[at]
    words = lines[at].split(b" ")
    draw.shuffle(words)
    return Change(b"\n".join(draw.choice((
        lines[:at] + lines[at + 1:], lines[:at + 1] + lines[at:], swapped, lines[:first] + lines[last:],
        lines[:first] + lines[first:last][::-1] + lines[last:], lines[:last] + lines[first:],
        lines[:at] + [b" ".join(words)] + lines[at + 1:], lines[:at] + [b" ".join(words[1:])] + lines[at + 1:],
        lines[:at] + [b"no " + lines[at].strip()] + lines[at:], lines[:at] + [lines[other]] + lines[at:]))))


# Bytes

def some_bytes(draw: random.Random, content: bytes) -> Change:
    """Some bytes are changed, put in or left out."""
    for _ in range(draw.choice((1, 1, 2, 5, 20))):
        at = draw.randrange(len(content) + 1)
        byte = draw.choice(ODD + [bytes([draw.randrange(256)])] * 20)
        content = draw.choice((content[:at] + byte + content[at:], content[:at] + content[at + 1:],
                               content[:at] + byte + content[at + 1:]))
    return Change(content)


def cut(draw: random.Random, content: bytes) -> Change:
    """The file ends too early, or lacks its beginning."""
    at = draw.randrange(len(content) + 1)
    return Change(draw.choice((content[:at], content[:at], content[at:])))


def deep(draw: random.Random, content: bytes) -> Change:
    """Something is opened many times, in the place of a word or between two."""
    what, count = draw.choice(OPENING), draw.choice((3, 40, 60, 300, 5000, 20000))
    at = draw.choice([each.start() for each in re.finditer(rb"\S+", content)] or [0])
    return Change(content[:at] + what * count + content[at:])


def long(draw: random.Random, content: bytes) -> Change:
    """A word is very long, or a line is."""
    start, end = draw.choice([found.span() for found in re.finditer(rb"[^\s|]+", content)] or [(0, 0)])
    word = draw.choice((b"x", b"9", b"1.", b"7 ", b"a_", b"0:", b"(", b"1,")) * draw.choice((100, 5000, 70000))
    if draw.random() < 0.02:
        word = word[:1] * ((1 << 20) + 1)
    return Change(content[:start] + draw.choice((word, content[start:end] + word)) + content[end:])


def packed(draw: random.Random, content: bytes) -> Change:
    """What gzip makes of it, cut or with bytes changed."""
    whole = gzip.compress(content, mtime=0)
    return draw.choice((cut, some_bytes))(draw, whole)


def mixed(draw: random.Random, content: bytes) -> Change:
    """Several of these."""
    for _ in range(draw.randrange(2, 6)):
        content = draw.choice((some_lines, some_bytes, some_lines, cut))(draw, content).content
    return Change(content)


# How often each is chosen, beside a garbled word.
KINDS: Dict[str, Tuple[int, Callable[[random.Random, bytes], Change]]] = {
    "lines": (5, some_lines), "bytes": (4, some_bytes), "cut": (1, cut), "deep": (1, deep), "long": (1, long),
    "mixed": (3, mixed)}
WORDS = 10


def change(draw: random.Random, content: bytes, comment: Optional[str]) -> Tuple[str, Change]:
    """A change of a file and what kind it is; no word is garbled where a file has none, as `comment` is None says."""
    kinds = [kind for kind, (often, _) in KINDS.items() for _ in range(often)]
    kind = draw.choice(kinds + ["word"] * (WORDS if comment is not None else 0))
    found = a_word(draw, content, comment or "") if kind == "word" else None
    if found is not None:
        return kind, found
    kind = draw.choice(kinds) if kind == "word" else kind
    return kind, KINDS[kind][1](draw, content)
