"""Requests of the protocol of `share` and `lab` (docs/reference/share.md): valid ones at random, and ones that are mutated."""
from __future__ import annotations

import json
import random
from typing import Any, Callable, Dict, List, Tuple

Request = Dict[str, Any]
Fields = Callable[[random.Random], Request]
NAMES = ["p%d" % number for number in range(12)]


def nested(depth: int) -> Any:
    value: Any = "x"
    for _ in range(depth):
        value = [value]
    return value


ODD: List[Any] = [
    None, True, False, 0, -1, 1, 255, 256, 1 << 31, 1 << 32, 1 << 63, 1 << 64, 10 ** 300, 0.5, -0.0, 1e308, "", " ",
    "x", "x" * 65,
    "x" * 4097, "x" * 70000, "\n", "a\nb", "\0", "\r\n", "\t", "\x1b[2J", "\x7f", "\u0085", "\u2028", "\u202e",
    "\ufeff", "\ud800",
    "\udce9", "\udfff\ud800", "\U0001f600", "e\u0301", "__proto__", "../x", "-", "--help", "the script", "worker 1",
    "null", "1",
    "1.0.0.1", "10.0.0.0/8", [], [[]], {}, {"a": {}}, {"": None}, ["x"] * 100, [None], ["a\nb"], nested(7), nested(9),
    nested(300)]
WORDLIKE = ["", "ENTER", "call ", " call", "c\u0430ll", "call\0", "__init__", "x" * 5000, "\ud800", None, 5, ["call"],
            {"do": "call"}]
NUMBERS = ["NaN", "Infinity", "-Infinity", "1e999", "-1e999", "1" * 5000, "0x10", "01", "1.", ".5", "-", "1e", "+1",
           "\u0661"]


def address(draw: random.Random) -> str:
    return draw.choice(("1.0.0.1", "2.0.0.1", "3.0.0.1", "4.0.0.1"))


def command(draw: random.Random) -> str:
    """A command whose text many requests may have."""
    one, two, number = address(draw), address(draw), draw.randint(1, 9)
    to = "10.%d.0.0/16" % draw.randint(0, 9)
    return draw.choice((
        "router %s %d" % (one, number), "link %s %s %d" % (one, two, number), "join %s %s" % (one, two),
        "origin %s %s" % (one, to),
        "noorigin %s %s" % (one, to), "metric %s %s %d" % (one, two, number), "fail %s %s" % (one, two),
        "mend %s %s" % (one, two),
        "stop %s %s" % (one, two), "start %s %s" % (one, two), "deliver %s %s" % (one, two), "med %s always" % one,
        "# name %s n%d" % (one, number), "# a comment", question(draw), question(draw),
        draw.choice(("", " ", "x", "help"))))


def question(draw: random.Random) -> str:
    one, two = address(draw), address(draw)
    return draw.choice(("quiet", "routes %s" % one, "cost %s %s" % (one, two), "queue %s %s" % (one, two),
                        "trace %s 10.1.0.1" % one,
                        "why %s 10.1.0.0/16" % one, "best %s 10.1.0.0/16" % one))


def way(draw: random.Random) -> Any:
    return draw.choice((None, [address(draw), "10.1.0.1"]))


def change(draw: random.Random) -> List[str]:
    """The lines of a proposal."""
    if draw.random() < 0.5:
        return ["metric 1.0.0.1 2.0.0.1 %d" % draw.randint(1, 9)]
    return [command(draw) for _ in range(draw.randint(0, 3))]


def numbered(draw: random.Random, more: Request) -> Request:
    """The fields of a request about a proposal."""
    number = draw.choice((None, *range(1, 10)))
    return {} if number is None and draw.random() < 0.5 else {"number": number, **more}


# The words with fields that fit, and how often each is asked. What starts a process is asked seldom.
VALID: Dict[str, Tuple[int, Fields]] = {
    "enter": (6, lambda draw: {"as": draw.choice(NAMES)}),
    "call": (40, lambda draw: {"line": command(draw)}),
    "ask": (15, lambda draw: {"line": question(draw)}),
    "script": (6, lambda draw: {"from": draw.randint(0, 50)}),
    "waiting": (4, lambda _: {}), "next": (6, lambda _: {}), "who": (5, lambda _: {}), "undo": (6, lambda _: {}),
    "watch": (5, lambda draw: {"what": draw.choice(("all", "edits", "off"))}),
    "blame": (4, lambda draw: {"router": address(draw)}),
    "pause": (3, lambda _: {}), "go": (4, lambda _: {}), "wait": (2, lambda _: {}),
    "pace": (2, lambda draw: {"a_second": draw.choice((None, 1000, 50.5, 1000000))}),
    "step": (5, lambda draw: {"count": draw.randint(0, 40)}),
    "propose": (3, lambda draw: {"name": draw.choice(("x", "json.py", "-")), "lines": change(draw)}),
    "proposals": (3, lambda _: {}),
    "accept": (4, lambda draw: numbered(draw, {"edits": draw.randint(0, 99)})),
    "decline": (3, lambda draw: numbered(draw, {})),
    "check": (1, lambda _: {}), "free": (1, lambda draw: {"name": draw.choice(NAMES)}),
    "show": (3, lambda draw: {"step": draw.choice((None, 0, 5)), "prefix": draw.choice((None, "10.1.0.0/16")),
                              "way": way(draw)})}
# What an answer has that is no error.
ANSWERS: Dict[str, List[str]] = {
    "enter": ["seat", "name", "step", "workers", "version"], "call": ["reply", "told", "step"], "ask": ["reply"],
    "script": ["lines", "step"], "waiting": ["ways"], "next": ["step"], "watch": ["what"],
    "who": ["people", "workers", "proposals", "quiet", "step", "calls"], "blame": ["edits"], "undo": ["text"],
    "pause": ["count", "is_going", "pace", "calls", "text"], "go": ["count", "is_going", "pace", "calls", "text"],
    "pace": ["count", "is_going", "pace", "calls", "text"], "step": ["deliveries"], "wait": ["quiet"],
    "propose": ["number", "text"],
    "proposals": ["proposals"], "accept": ["text"], "decline": ["text"], "check": ["verdict", "calls"],
    "free": ["text"],
    "show": ["shown"]}
EVENTS = ("changes", "people", "workers", "told", "proposal", "missed", "page", "shown")


def valid(draw: random.Random) -> Request:
    """A request that fits, without its `id`."""
    word = draw.choices(list(VALID), [often for often, _ in VALID.values()])[0]
    return {"do": word, **VALID[word][1](draw)}


def mutated(draw: random.Random) -> bytes:
    """A request of which some values, fields or bytes are others; one line, without its end."""
    request: Request = {"id": draw.choice([7, "seven", None, 0.5, *draw.choices(ODD, k=3)]), **valid(draw)}
    for _ in range(draw.choice((0, 1, 1, 1, 2, 3))):
        request = draw.choice((_other_value, _other_value, _wrapped, _without, _with_more, _other_word))(draw, request)
    ways = (_plain, _plain, _plain, _doubled, _odd_number, _flipped, _cut, _spaced, _recoded)
    return draw.choice(ways)(draw, request).replace(b"\n", b" ")


# Values and fields

def _other_value(draw: random.Random, request: Request) -> Request:
    return {**request, draw.choice([name for name in request if name != "do"] or ["id"]): draw.choice(ODD)}


def _wrapped(draw: random.Random, request: Request) -> Request:
    name = draw.choice(list(request))
    value = request[name]
    return {**request, name: draw.choice(([value], {name: value}, str(value), [value] * 50, {"": [value]}))}


def _without(draw: random.Random, request: Request) -> Request:
    gone = draw.choice(list(request))
    return {name: value for name, value in request.items() if name != gone} or {"id": 1}


def _with_more(draw: random.Random, request: Request) -> Request:
    return {**request, draw.choice(("x", "line", "as", "token", "number", "", "a\nb", "\ud800",
                                    "x" * 500)): draw.choice(ODD)}


def _other_word(draw: random.Random, request: Request) -> Request:
    return {**request, "do": draw.choice(WORDLIKE + list(VALID))}


# Bytes

def _plain(draw: random.Random, request: Request) -> bytes:
    text = json.dumps(request, ensure_ascii=draw.random() < 0.7)
    return text.encode("utf-8", draw.choice(("surrogatepass", "replace")))


def _doubled(draw: random.Random, request: Request) -> bytes:
    """One with keys that are there twice."""
    other = {**request, draw.choice(list(request)): draw.choice(ODD)}
    return _plain(draw, request)[:-1] + b", " + _plain(draw, other)[1:]


def _odd_number(draw: random.Random, request: Request) -> bytes:
    marked = {**request, draw.choice(list(request)): "@@"}
    return _plain(draw, marked).replace(b'"@@"', draw.choice(NUMBERS).encode())


def _flipped(draw: random.Random, request: Request) -> bytes:
    content = bytearray(_plain(draw, request))
    for _ in range(draw.choice((1, 1, 2, 5))):
        content[draw.randrange(len(content))] = draw.randrange(256)
    return bytes(content)


def _cut(draw: random.Random, request: Request) -> bytes:
    content = _plain(draw, request)
    return content[:draw.randrange(len(content) + 1)]


def _spaced(draw: random.Random, request: Request) -> bytes:
    space = draw.choice((b" ", b"\t", b"\r", b"\0", b"\xef\xbb\xbf", b"\xc2\xa0", b"{}", b"[]"))
    content = _plain(draw, request)
    return draw.choice((space + content, content + space, content.replace(b" ", space)))


def _recoded(draw: random.Random, request: Request) -> bytes:
    text = json.dumps(request)
    return draw.choice((text.encode("utf-16"), text.encode("utf-32-le"), text[::-1].encode(),
                        repr(request).encode("utf-8", "replace"),
                        json.dumps([request]).encode(), b"[" * draw.choice((10, 1000, 100000)),
                        b'{"id":' * 2000)).replace(b"\n", b" ")


def garbage(draw: random.Random) -> bytes:
    """Bytes at random; line ends may be among them."""
    some, most = draw.choice(((bytes(range(256)), 10000), (b'{}[]",:\\ \n', 500), (b"\n", 100), (b"\xff\xfe\0", 10000)))
    return bytes(draw.choices(some, k=draw.randrange(most)))


# HTTP

PATHS = ["", "picture", "table", "steps", "forms", "script", "record", "events", "do", "lab.js", "nothing", "../record",
         "picture/", "%2e"]
QUERY = ["step", "prefix", "from", "to", "router", "page", "as", "token", "x"]


def query(draw: random.Random) -> str:
    """A path with values, some of them odd, percent-encoded or not."""
    values = ["0", "5", "-1", "x", "99999999999", "1.0.0.1", "10.1.0.0/16", "%00", "%0a", "%ff", "%ed%a0%80", "%",
              "a" * 200, "", "+", "%2f"]
    given = ["%s=%s" % (draw.choice(QUERY), draw.choice(values)) for _ in range(draw.choice((0, 1, 2, 3, 3, 30)))]
    return draw.choice([path for path in PATHS if path != "events"]) + ("?" + "&".join(given) if given else "")


def head(draw: random.Random, host: str, key: str, body: bytes) -> bytes:
    """A request of HTTP, as a rule with something wrong in it."""
    lines = ["%s /%s/%s %s" % (draw.choice(("GET", "GET", "POST", "HEAD", "PUT", "get", "")), key, query(draw),
                               draw.choice(("HTTP/1.1", "HTTP/1.1", "HTTP/1.0", "HTTP/9.9", "")))]
    lines += ["Host: " + draw.choice((host, host, host, "evil.example", ""))]
    lines += draw.choices(("Content-Type: application/json", "Content-Length: %d" % len(body), "Content-Length: 5",
                           "Content-Length: -1",
                           "Transfer-Encoding: chunked", "Expect: 100-continue", "Connection: Upgrade",
                           "Upgrade: websocket",
                           "Origin: http://" + host, "Origin: null", "X: " + "x" * 20000, "X\0: y", ": z", "nothing",
                           " folded"), k=draw.randrange(5))
    content = bytearray(draw.choice(("\r\n", "\r\n", "\n", "\r")).join(lines + ["", ""]).encode("latin-1") + body)
    for _ in range(draw.choice((0, 0, 0, 1, 3))):
        content[draw.randrange(len(content))] = draw.randrange(256)
    return bytes(content[:draw.choice((len(content), len(content), draw.randrange(len(content))))])
