"""The reply to any command as the data classes of `values`, for those who play scripts and read JSON."""
from __future__ import annotations

from typing import Any, Callable, Dict, List, Optional

from ..network.configuration import Network
from ..network.refusals import sentence
from ..program import replies
from ..program.language import words_of
from ..program.language_table import FORMS, REFUSALS
from .values import cost_of, delivery_of, message_of, reasons_of, route_of, routes_of

Reply = Dict[str, Any]


def reply_of(line: str, reply: List[str], network: Network) -> Reply:
    """What was replied to a command: its kind, by the table of the language, and its values."""
    words, number = words_of(line), replies.refusal(reply)
    if number:
        return _refusal(line, number, network)
    kind = next(form.reply for form in FORMS if form.name == words[0])
    return {"kind": kind, **_READERS[kind](words, reply, network)}


def _refusal(line: str, number: int, network: Network) -> Reply:
    known = next(each for each in REFUSALS if each.number == number)
    explanation = network.names.in_text(sentence(line, number, network))
    return {"kind": "refusal", "number": number, "name": known.name, "explanation": explanation,
            "instead": known.instead}


def _choice(words: List[str], reply: List[str], _: Network) -> Reply:
    told = replies.best(reply)
    return {"route": None if told is None else route_of(words[1], str(told.source), told)}


def _reasons(words: List[str], reply: List[str], network: Network) -> Reply:
    return {"reasons": reasons_of(words[1], words[2], reply, words[1] in network.med_always)}


def _rib(words: List[str], reply: List[str], _: Network) -> Reply:
    """Of `in` the router has the routes, of `out` its peer is told them."""
    router, source = (words[1], words[2]) if words[0] == "in" else (words[2], words[1])
    return {"routes": routes_of(router, reply, source)}


def _queue(words: List[str], reply: List[str], _: Network) -> Reply:
    return {"messages": [message_of(words[1], words[2], told) for told in reply[:-1]]}


_READERS: Dict[str, Callable[[List[str], List[str], Network], Reply]] = {
    "done": lambda *_: {},
    "delivery": lambda words, reply, _: {"delivery": delivery_of(words[1], words[2], reply[0])},
    "routes": lambda words, reply, _: {"routes": routes_of(words[1], reply)},
    "choice": _choice,
    "reasons": _reasons,
    "rib": _rib,
    "queue": _queue,
    "quiet": lambda _, reply, __: {"quiet": reply == ["yes"]},
    "cost": lambda words, reply, _: {"cost": cost_of(words[1], words[2], reply[0])},
    "trace": lambda _, reply, __: {"trace": replies.trace(reply)}}
