"""What a worker of a Dask cluster does: it keeps parts of a network, each converged once, and tries changes on them.

It plays nothing for a sweep of another Python, package or program, so a worker that joins late is checked, too."""
from __future__ import annotations

import os
import pickle
import platform
import subprocess
import threading
from dataclasses import dataclass
from typing import Any, Dict, List, NamedTuple, Optional, Set, Tuple

from .. import __version__
from ..program import location, provenance
from ..program.mistakes import Mistake
from .player import Player, converged_job

# Versions of Python, this package and the program, and the digest of the program.
Version = Tuple[str, str, str, str]
# What each of them is called.
COMPARED = ("Python", "bgptools", "the program", "the program's sources")
# How long a program may take to say its version, in seconds.
PATIENCE = 60


@dataclass(frozen=True)
class Call:
    """A change that a worker is to try: of which sweep, part and number. `job` is the part's, pickled, where the worker
    may have none. The worker keeps at most `most` parts."""
    sweep: str
    part: int
    number: int
    version: Version
    program: Optional[str]
    most: int
    job: Optional[bytes] = None


class Reply(NamedTuple):
    """What a worker replies: the figures; else its own version, where that is another one; else nothing, where the part
    is not there."""
    figures: Optional[Dict[str, Any]] = None
    version: Optional[Version] = None


def version_of(program: Optional[str]) -> Version:
    """The versions here. In the place of the program's stands what is wrong with it."""
    digest = provenance.UNKNOWN
    try:
        path = program or location.program()
        digest = provenance.of(path).digest
        ran = subprocess.run([path, "--version"], stdin=subprocess.DEVNULL, stdout=subprocess.PIPE, timeout=PATIENCE)
        told = ran.stdout.decode("latin-1").split("\n")[0]
        told = told if ran.returncode == 0 else "%s ends with status %d" % (path, ran.returncode)
    except Mistake as mistake:
        told = str(mistake)
    except (OSError, subprocess.TimeoutExpired) as error:
        told = str(error)
    return ".".join(platform.python_version_tuple()[:2]), __version__, told, digest


def difference(found: Version, wanted: Version) -> str:
    """In what a version differs from the one that is wanted; nothing where it is the same."""
    return next(("another version of %s: `%s`, and here it is `%s`" % (name, one, other)
                 for name, one, other in zip(COMPARED, found, wanted) if one != other), "")


class Parts:
    """The parts of networks that a worker keeps, each by what plays it. One that plays is nobody else's."""

    def __init__(self) -> None:
        self.lock = threading.Lock()
        # Those that do not play, the one that played last at the end.
        self.free: List[Tuple[Tuple[str, int], Player]] = []
        self.busy = 0
        self.ended: Set[str] = set()
        self.versions: Dict[Optional[str], Version] = {}

    def version(self, program: Optional[str]) -> Version:
        """The version of this worker, which is looked for once."""
        if program not in self.versions:
            self.versions[program] = version_of(program)
        return self.versions[program]

    def taken(self, call: Call) -> Optional[Player]:
        """What plays the part of a call: one that is kept, or made of its job; nothing where there is neither.

        Mistake where the part has one, or does not converge."""
        with self.lock:
            at = next((at for at, (key, _) in enumerate(self.free) if key == (call.sweep, call.part)), None)
            self.busy += at is not None or call.job is not None
            if at is not None:
                return self.free.pop(at)[1]
            count = max(0, len(self.free) + self.busy - call.most)
            old, self.free = self.free[:count], self.free[count:]
        for _, player in old:
            player.close()
        if call.job is None:
            return None
        try:
            return Player(converged_job(pickle.loads(call.job)))
        except BaseException:
            self._less()
            raise

    def put(self, call: Call, player: Player) -> None:
        """It has played, and is kept while its sweep goes on."""
        self._less()
        with self.lock:
            if call.sweep not in self.ended:
                self.free.append(((call.sweep, call.part), player))
                return
        player.close()

    def end(self, sweep: str) -> None:
        """Ends what is kept for a sweep."""
        with self.lock:
            self.ended.add(sweep)
            ended = [player for (name, _), player in self.free if name == sweep]
            self.free = [each for each in self.free if each[0][0] != sweep]
        for player in ended:
            player.close()

    def _less(self) -> None:
        with self.lock:
            self.busy -= 1


_parts = Parts()


def play_there(call: Call) -> Reply:
    """Tries a change. The part is kept for the next one."""
    if call.program:
        os.environ["PROGRAM"] = call.program
    found = _parts.version(call.program)
    if found != call.version:
        return Reply(version=found)
    player = _parts.taken(call)
    if player is None:
        return Reply()
    try:
        return Reply(figures=player.play(call.number).as_json())
    finally:
        _parts.put(call, player)


def end_there(sweep: str) -> None:
    """Ends the programs that a worker keeps for a sweep."""
    _parts.end(sweep)
