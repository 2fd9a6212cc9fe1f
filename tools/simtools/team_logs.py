"""A run of a team, and whether its log is the team's."""
from __future__ import annotations

import collections
import os
import pathlib
import re
from typing import Any, Dict, List, NamedTuple, Optional

from . import logs, programs
from .language import LONGEST_COMMAND
from .running import Ran, run

TOLD = re.compile(r"file ([0-9]+) line ([0-9]+): refused (1 syntax|20 memory)")
CALL = re.compile(r"@([0-9]+) (.*)")
Numbers = Dict[int, List[int]]


class Spelled(NamedTuple):
    """What a script spells: its commands, by the numbers of their lines, and the lines that spell none."""
    calls: Dict[int, str]
    mistakes: List[int]


class Told(NamedTuple):
    """What a team reported: by files, the lines that spell no command and those that memory ran out for; and the first
    that says something else, if one does."""
    mistakes: Numbers
    wants: Numbers
    other: Optional[str]


def team(files: List[str], workers: int, turns: Optional[int] = None, **more: Any) -> Ran:
    """What a team ends with."""
    words = ["bgpsim", "team", "--workers", str(workers)] + (["--turns", str(turns)] if turns else []) + files
    return run(words, executable=programs.bgpsim(), **more)


def lines_of(stream: bytes) -> List[str]:
    return stream.decode("latin-1").splitlines()


def written(folder: str, texts: List[str]) -> List[str]:
    """The names of files with these texts."""
    names = [os.path.join(folder, "%d.engineer" % number) for number in range(1, len(texts) + 1)]
    for name, text in zip(names, texts):
        pathlib.Path(name).write_bytes(text.encode("latin-1"))
    return names


def spelled(text: str) -> Spelled:
    """What the script spells."""
    found = Spelled({}, [])
    lines = text.split("\n")
    for number, line in enumerate(lines[:-1] if lines[-1] == "" else lines, 1):
        whole = line[:-1] if line.endswith("\r") and number < len(lines) else line
        words = [word for word in whole.split(" ") if word]
        if len(whole) > LONGEST_COMMAND:
            found.mistakes.append(number)
        elif words and not words[0].startswith("#"):
            if logs.is_command(" ".join(words)):
                found.calls[number] = " ".join(words)
            else:
                found.mistakes.append(number)
    return found


def calls_by_seat(log: str) -> Dict[int, List[str]]:
    """The calls of the log, by their seats."""
    calls: Dict[int, List[str]] = collections.defaultdict(list)
    for call in filter(None, map(CALL.fullmatch, log.split("\n"))):
        calls[int(call[1])].append(call[2])
    return calls


def told_by(lines: List[str]) -> Told:
    """What the lines of standard error say."""
    mistakes: Numbers = collections.defaultdict(list)
    wants: Numbers = collections.defaultdict(list)
    for line in lines:
        one = TOLD.fullmatch(line)
        if not one:
            return Told(mistakes, wants, line)
        (mistakes if one[3] == "1 syntax" else wants)[int(one[1])].append(int(one[2]))
    return Told(mistakes, wants, None)


def wrong_calls(texts: List[str], log: str, told: Told) -> Optional[str]:
    """What is wrong with the calls of the engineers, and with what they were answered, if anything is."""
    calls = calls_by_seat(log)
    for number, text in enumerate(texts):
        found, wants = spelled(text), told.wants[number + 1]
        if calls[number] != [call for line, call in found.calls.items() if line not in wants]:
            return "the calls of seat %d are not the commands of its file" % number
        if told.mistakes[number + 1] != found.mistakes:
            return "of file %d it told the lines %s, and not %s" % (
                number + 1, told.mistakes[number + 1], found.mistakes)
    return None


def strange_seats(log: str, engineers: int, workers: int) -> List[int]:
    """The seats that no team of so many has, and those of workers with other calls than deliveries."""
    return [seat for seat, calls in calls_by_seat(log).items() if seat >= engineers + workers
            or seat >= engineers and not all(call.startswith("deliver ") for call in calls)]


def wrong(texts: List[str], workers: int, ran: Ran, may_want: bool = False,
          reading: Optional[logs.Reading] = None) -> Optional[str]:
    """What is wrong with the team's log and with what it reported, if anything is; where memory may have run out for
    some lines, these are no calls. `reading` reads the log, where it is given."""
    log = ran.out.decode("latin-1")
    if ran.status != 0:
        return "status %d: %s" % (ran.status, ran.err.decode("latin-1"))
    if not log.startswith(logs.HEADERS[-1] + "\n"):
        return "its header: %r" % log.split("\n", 1)[0]
    by_model, by_program = logs.verdict(log, reading), logs.replayed(log)
    if not by_model.startswith("ok ") or by_model != by_program:
        return "its log: %s, and by the model %s" % (by_program, by_model)
    told = told_by(lines_of(ran.err))
    if told.other is not None:
        return "it told %r" % told.other
    if told.wants and not may_want:
        return "it reported out of memory, for lines %s" % dict(told.wants)
    strange = strange_seats(log, len(texts), workers)
    return wrong_calls(texts, log, told) or (
        "seats %s made other calls than deliveries" % strange if strange else None)
