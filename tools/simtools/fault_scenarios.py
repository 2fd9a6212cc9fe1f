"""Faults of files, programs, text, descriptors, people and the clock, each with what has to become of it."""
from __future__ import annotations

import contextlib
import os
import pathlib
import resource
import signal
import threading
import time
from typing import Callable, Dict, List, Tuple

from .fault_clients import Client, Entry, Outcome, Server, SocketClient, Wrong, entries_in, fetched
from .fault_words import HEALED, PAGE, SCRIPT, SOCKET, Scene

# How a write may fail, and how many bytes are written before.
WRITES: Tuple[Tuple[str, str, int], ...] = (("ENOSPC", "No space left on device", 0), ("EIO", "Input/output error", 5),
                                            ("EDQUOT", "Disk quota exceeded", 20))
BURST, LONG_LINES = 10, 9000


def check(holds: bool, text: str) -> None:
    """Raises Wrong where something does not hold."""
    if not holds:
        raise Wrong(text)


def errs(outcome: Outcome) -> str:
    """The error of a request that has to have one."""
    check(outcome.error is not None, "it is answered, and not by an error: %s" % (outcome,))
    return outcome.error or ""


def fresh_call(scene: Scene, client: Client) -> None:
    """A call is made as ever."""
    start = scene.server.size()
    line = scene.metric()
    scene.edit(client, line)
    check(scene.server.entries(start) == [Entry(client.seat, line, ["ok"])], "`%s` is not in the log" % line)


def failed(scene: Scene) -> int:
    """How many calls have failed as they were asked to."""
    return int(scene.server.command("count")["failed"])


# Files

def ends_unwritten(scene: Scene, reason: str, entries: List[Entry]) -> None:
    """A server whose log cannot be written ends with its reason, and its log is taken up with what was answered."""
    status, _ = scene.server.ended()
    lines = scene.server.errors().rstrip("\n").split("\n")
    check(status == 2, "it ends with status %d, and not 2" % status)
    check(reason in lines[-1] and scene.server.log in lines[-1], "its last words are `%s`" % lines[-1])
    again = Server("share", SCRIPT, (), scene.server)
    try:
        check(again.entries() == entries, "the log has not what was answered")
        status, told = again.end()
        check(status == 0 and "replay: ok %d\n" % len(entries) in told, "it is taken up: %d, %s" % (status, told))
    finally:
        again.process.kill()
        again.process.wait()


def unwritten(what: str, path: str, error: str, text: str, part: int) -> None:
    """A write that fails, of the log or of what stands beside it; the second time nothing of it can be taken back."""
    for is_left in (False, True):
        with scened(SOCKET, "share") as scene:
            if what == "go":
                scene.edit(scene.actor, scene.toggle())
            entries = scene.server.entries()
            scene.server.command("fail", what="write", error=error, path=path, part=part)
            if is_left:
                scene.server.command("fail", what="truncate", error="EIO")
            if what == "call":
                outcome = scene.actor.request("call", line=scene.metric())
            elif what == "name":
                outcome = scene.actor.request("call", line="# name 1.0.0.1 edge")
            elif what == "enter":
                outcome = SocketClient(scene.server.socket).request("enter", **{"as": "guest"})
            else:
                outcome = scene.actor.request("go")
                outcome = scene.actor.request("wait") if outcome.error is None else outcome
            check(outcome.answer is None, "what is not in the log is answered: %s" % (outcome,))
            ends_unwritten(scene, text, entries)


def full_disk() -> None:
    """The system takes some bytes of an entry, and no more."""
    with scened(SOCKET, "share") as scene:
        entries = scene.server.entries()
        scene.server.limit(resource.RLIMIT_FSIZE, scene.server.size() + 10)
        outcome = scene.actor.request("call", line=scene.metric())
        check(outcome.answer is None, "what is not in the log is answered: %s" % (outcome,))
        scene.server.limit(resource.RLIMIT_FSIZE, resource.RLIM_INFINITY)
        ends_unwritten(scene, "File too large", entries)


def kept_record() -> None:
    """A lab that cannot write its record says why it ends, and where the record is."""
    with scened(PAGE, "lab", is_kept=False) as scene:
        scene.server.command("fail", what="write", error="ENOSPC", path=".log")
        check(scene.actor.request("call", line=scene.metric()).answer is None, "it is answered")
        status, _ = scene.server.ended()
        told = scene.server.errors().rstrip("\n").split("\n")
        check(status == 2 and "No space left" in told[-1], "it ends with status %d: %s" % (status, told))
        kept = [line for line in told if line.startswith("the record is kept: ")]
        check(len(kept) == 1 and os.path.exists(kept[0].split(" ")[4]), "the record is not kept: %s" % told)


def unread() -> None:
    """The log cannot be opened or read for a check or a record."""
    with scened(PAGE, "lab") as scene:
        for what, error in (("open", "EMFILE"), ("open", "ENOMEM"), ("open", "EACCES")):
            scene.server.command("fail", what=what, error=error, path="/log", times=1)
            errs(scene.actor.request("check"))
            check(scene.actor.ask("check")["verdict"].startswith("ok "), "a check is not made any more")
        for what, error in (("open", "EMFILE"), ("open", "EIO"), ("read", "EIO"), ("read", "ENOMEM")):
            scene.server.command("fail", what=what, error=error, path="/log" if what == "open" else "", times=1)
            told = fetched(scene.server.port, scene.server.key, "record")
            check(told.status != 200, "a record that could not be read is answered")
            told = fetched(scene.server.port, scene.server.key, "record")
            check(told.status == 200 and told.body.endswith(b"end %d\n" % len(scene.server.entries())), "no record")
        fresh_call(scene, scene.actor)


# Programs

def running(scene: Scene) -> int:
    """The number of the process of the program. Wrong where there is none: a signal to 0 goes to this tool itself."""
    child = scene.server.child()
    check(child > 0, "no program is found")
    return child


def killed(count: int) -> None:
    """The program is killed so often, and each time a request is made."""
    with scened(SOCKET, "share") as scene:
        os.kill(running(scene), signal.SIGKILL)
        for _ in range(count):
            child = scene.server.child()
            if child:
                os.kill(child, signal.SIGKILL)
            start, line = scene.server.size(), scene.metric()
            outcome = scene.actor.request("call", line=line)
            entries = scene.server.entries(start)
            check(bool(entries) == (outcome.error is None), "answer %s, log %s" % (outcome, entries))
        fresh_call(scene, scene.other)


def killed_again() -> None:
    """The program is killed again and again, also while it is run anew."""
    with scened(SOCKET, "share") as scene:
        running(scene)
        stop = threading.Event()

        def kill() -> None:
            while not stop.wait(0.003):
                with contextlib.suppress(OSError, ValueError):
                    child = scene.server.child()
                    if child:
                        os.kill(child, signal.SIGKILL)
        killing = threading.Thread(target=kill)
        killing.start()
        try:
            for _ in range(BURST * 5):
                start, line = scene.server.size(), scene.metric()
                outcome = scene.actor.request("call", line=line)
                made = scene.server.entries(start)
                check(made == ([Entry(scene.actor.seat, line, ["ok"])] if outcome.error is None else []),
                      "answer %s, log %s" % (outcome, made))
        finally:
            stop.set()
            killing.join()
        healed(lambda: fresh_call(scene, scene.other))


def stopped() -> None:
    """The program is stopped for a while: requests wait for it, and are answered."""
    with scened(SOCKET, "share") as scene:
        child = running(scene)
        os.kill(child, signal.SIGSTOP)
        line = scene.metric()
        number, _ = scene.actor.send("call", line=line)
        other, _ = scene.other.send("who")
        time.sleep(0.5)
        os.kill(child, signal.SIGCONT)
        check(scene.actor.outcome(number).error is None, "a call is not made")
        check(scene.other.outcome(other).error is None, "another one is not answered")


def unstarted() -> None:
    """The program ended, and cannot be run anew for a while."""
    with scened(SOCKET, "share") as scene:
        for error in ("EAGAIN", "ENOMEM", "EMFILE"):
            scene.server.command("fail", what="spawn", error=error, path="converge", times=1000)
            os.kill(running(scene), signal.SIGKILL)
            start = scene.server.size()
            for client in (scene.actor, scene.other, scene.actor):
                told = errs(client.request("call", line=scene.metric()))
                check("program" in told, "the reason is not told: %s" % told)
            check(scene.server.size() == start, "what was not done is in the log")
            scene.server.command("fail", what="spawn", error=error, times=0)
            healed(lambda: fresh_call(scene, scene.actor))


def unstarted_workers() -> None:
    """Worker processes cannot be started for a while."""
    with scened(PAGE, "lab") as scene:
        for error in ("EAGAIN", "ENOMEM", "EMFILE"):
            scene.server.command("fail", what="spawn", error=error, path="worker.py", times=3)
            errs(scene.actor.request("check"))
            errs(scene.actor.request("propose", name="x", lines=[scene.metric()]))
            check(scene.proposals() == [], "a proposal is open that was not shown")
            scene.edit(scene.other, scene.metric())
            picture = fetched(scene.server.port, scene.server.key, "picture?prefix=10.1.0.0/16")
            check(picture.status >= 400 or failed(scene) < 3, "no picture can be made, and one is answered")
            scene.server.command("fail", what="spawn", error=error, times=0)
            check(scene.actor.ask("check")["verdict"].startswith("ok "), "a check is not made any more")
            picture = fetched(scene.server.port, scene.server.key, "picture?prefix=10.1.0.0/16")
            check(picture.status == 200, "no picture is made any more: %s" % (picture,))


def hanging_worker() -> None:
    """A worker hangs: the others are answered, and when it ends so is who waited for it."""
    with scened(PAGE, "lab") as scene:
        port, key = scene.server.port, scene.server.key
        check(fetched(port, key, "picture").status == 200, "no picture")
        worker = scene.server.child("worker.py")
        os.kill(worker, signal.SIGSTOP)
        found: List[int] = []
        scene.edit(scene.other, scene.metric())
        asking = threading.Thread(target=lambda: found.append(fetched(port, key, "picture?prefix=10.1.0.0/16").status))
        asking.start()
        for _ in range(BURST):
            fresh_call(scene, scene.actor)
        check(scene.actor.ask("check")["verdict"].startswith("ok "), "a check is not made")
        os.kill(worker, signal.SIGKILL)
        asking.join()
        check(found != [] and found[0] >= 400, "a worker that was killed answers: %s" % found)
        check(fetched(port, key, "picture").status == 200, "no picture is made any more")


# Text

def undecoded() -> None:
    """Requests and answers that cannot be read or written as JSON."""
    with scened(SOCKET, "share") as scene:
        for what, errors in (("decode", ("RecursionError", "UnicodeDecodeError", "ValueError", "MemoryError")),
                             ("encode", ("RecursionError", "ValueError", "MemoryError"))):
            for error in errors:
                scene.server.command("fail", what=what, error=error, times=1)
                found = scene.actor.request("who")
                check(found.error is not None or what == "encode", "it is answered: %s" % (found,))
                scene.server.command("fail", what=what, error=error, times=0)
                scene.renew_actor()
                scene.renew_other()
                fresh_call(scene, scene.other)


# Descriptors, people, the clock

def used_up() -> None:
    """Descriptors are used up: who is there is answered, and who comes later is, when there are some again."""
    with scened(PAGE, "lab") as scene:
        used = set(map(int, os.listdir("/proc/%d/fd" % scene.server.process.pid)))
        before = scene.server.limit(resource.RLIMIT_NOFILE, min(set(range(len(used) + 1)) - used))
        late = SocketClient(scene.server.socket)
        number, _ = late.send("enter", **{"as": "late"})
        fresh_call(scene, scene.other)
        errs(scene.other.request("check"))
        fresh_call(scene, scene.other)
        scene.server.limit(resource.RLIMIT_NOFILE, before[0])
        check(late.outcome(number).error is None, "who came late is not let in")
        scene.renew_actor()
        healed(lambda: fresh_call(scene, scene.actor))
        check(scene.server.errors().count("\n") < 100, "too much is told: %s" % scene.server.errors()[:1000])


def unreading() -> None:
    """One who never reads what happens is let go, and the others are answered."""
    with scened(SOCKET, "share") as scene:
        lines = ["# %s" % ("x" * 95)] * LONG_LINES + [scene.metric()]
        for _ in range(5):
            scene.actor.ask("propose", name="long", lines=lines)
            scene.declined()
            scene.actor.ask("who")
        other = SocketClient(scene.server.socket)
        other.enter("silent")
        for _ in range(7):
            scene.actor.ask("propose", name="long", lines=lines)
            scene.declined()
        healed(lambda: check({each["name"]: each["here"] for each in scene.other.ask("who")["people"]}["silent"] == 0,
                             "one who does not read is kept"))
        fresh_call(scene, scene.actor)


def clock() -> None:
    """The clock of the day jumps, also to before 1970: the log is taken up all the same."""
    with scened(SOCKET, "share") as scene:
        for seconds in (1e9, -2e9, -4e9, 1e13, -2e13):
            scene.server.command("clock", seconds=seconds)
            fresh_call(scene, scene.actor)
        entries = scene.server.entries()
        check(scene.server.end()[0] == 0, "it does not end as ever")
        again = Server("share", SCRIPT, (), scene.server)
        try:
            check(again.entries() == entries, "the log is another one")
            check(again.end()[0] == 0, "it does not end as ever")
        finally:
            again.process.kill()
            again.process.wait()


# All of them

class scened:  # pylint: disable=invalid-name
    """A scene that ends in any case. Wrong where its server told more than some lines of one fault."""

    def __init__(self, way: str, tool: str, is_kept: bool = True) -> None:
        self.scene = Scene(way, tool, is_kept)

    def __enter__(self) -> Scene:
        return self.scene

    def __exit__(self, kind: object, *_: object) -> None:
        told = len(self.scene.server.errors())
        self.scene.server.close()
        if kind is None:
            check(told < 10000, "%d bytes are told on standard error" % told)


def healed(what: Callable[[], None]) -> None:
    """Waits until something holds, for some seconds."""
    last = time.monotonic() + HEALED
    while True:
        try:
            return what()
        except Wrong:
            if time.monotonic() > last:
                raise
            time.sleep(0.1)


def _written(what: str, path: str) -> Callable[[], None]:
    def tried() -> None:
        for error, text, part in WRITES:
            unwritten(what, path, error, text, part)
    return tried


SCENARIOS: Dict[str, Callable[[], None]] = {
    "log-unwritten": _written("call", "log"), "log-unwritten-by-workers": _written("go", "log"),
    "notes-unwritten": _written("call", ".seats"), "name-unwritten": _written("name", ".seats"),
    "token-unwritten": _written("enter", ".seats"), "full-disk": full_disk, "kept-record": kept_record,
    "log-unread": unread, "program-killed": lambda: killed(1), "program-killed-twice": lambda: killed(2),
    "program-killed-often": lambda: killed(BURST), "program-killed-again": killed_again, "program-stopped": stopped,
    "program-unstarted": unstarted, "workers-unstarted": unstarted_workers, "worker-hangs": hanging_worker,
    "undecoded": undecoded, "descriptors-used-up": used_up, "unreading": unreading, "clock": clock}
