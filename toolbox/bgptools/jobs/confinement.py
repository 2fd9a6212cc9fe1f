"""How a worker confines itself and the programs that it starts, and ends with all of them."""
from __future__ import annotations

import ctypes
import os
import resource
import signal
from typing import Any, Callable, Dict, List, Optional

# Of <sys/prctl.h>.
PR_SET_PDEATHSIG, PR_SET_CHILD_SUBREAPER = 1, 36
PAGE = resource.getpagesize()


def prctl() -> Optional[Callable[[int, int], int]]:
    """The system's call of this name; nothing where the system has none."""
    try:
        found: Any = ctypes.CDLL(None).prctl
    except (AttributeError, OSError):
        return None
    return lambda option, value: int(found(option, ctypes.c_ulong(value), ctypes.c_ulong(0), ctypes.c_ulong(0),
                                           ctypes.c_ulong(0)))


def limit(which: int, value: int, process: int = 0) -> None:
    """Sets a soft limit, at most as high as the hard one allows."""
    hard = resource.prlimit(process, which)[1]
    soft = value if hard == resource.RLIM_INFINITY else min(value, hard)
    resource.prlimit(process, which, (soft, hard))


def confine(limits: Dict[str, int]) -> Dict[str, Any]:
    """Sets the limits of this worker, for good; how it starts a program, as words of `subprocess.Popen`.

    The worker leads a process group, which its programs join: a kill of the group ends all, also while they fork. A
    program is killed when its worker ends. Whatever a program leaves behind becomes the worker's, so that it counts."""
    call, own = prctl(), os.getpid()
    if call is not None:
        call(PR_SET_PDEATHSIG, signal.SIGKILL)
        call(PR_SET_CHILD_SUBREAPER, 1)
    limit(resource.RLIMIT_CORE, 0)
    limit(resource.RLIMIT_FSIZE, limits["file_size"])
    limit(resource.RLIMIT_NOFILE, limits["open_files"])
    addresses = resource.getrlimit(resource.RLIMIT_AS)
    limit(resource.RLIMIT_AS, limits["address_space"])

    def begin() -> None:
        if call is not None:
            call(PR_SET_PDEATHSIG, signal.SIGKILL)
        if os.getppid() != own:
            os._exit(1)  # pylint: disable=protected-access
        resource.setrlimit(resource.RLIMIT_AS, addresses)
    return {"preexec_fn": begin}


def allow(limits: Dict[str, int]) -> None:
    """Sets the limits that hold for one request: processor time, and how many processes and threads there may be.

    The system counts these by user, over the whole machine. So what is there is allowed, and so many more."""
    limit(resource.RLIMIT_CPU, _seconds(0) + limits["processor_time"])
    for process in descendants():
        try:
            limit(resource.RLIMIT_CPU, _seconds(process) + limits["processor_time"], process)
        except OSError:
            # It has ended.
            pass
    with open("/proc/loadavg", encoding="ascii") as file:
        there = int(file.read().split()[3].split("/")[1])
    limit(resource.RLIMIT_NPROC, there + limits["threads"])


def _seconds(process: int) -> int:
    """How much processor time a process has used, this one for 0."""
    with open("/proc/%s/stat" % (process or "self"), encoding="latin-1") as file:
        words = file.read().rpartition(")")[2].split()
    return (int(words[11]) + int(words[12])) // os.sysconf("SC_CLK_TCK")


def descendants() -> List[int]:
    """The processes that this one started, and those that these started, and so on."""
    found: List[int] = []
    todo = [os.getpid()]
    while todo:
        process = todo.pop()
        folder = "/proc/%d/task" % process
        try:
            children = [int(child) for thread in os.listdir(folder) for child in _children(folder, thread)]
        except OSError:
            children = []
        found += children
        todo += children
    return found


def _children(folder: str, thread: str) -> List[str]:
    try:
        with open("%s/%s/children" % (folder, thread), encoding="ascii") as file:
            return file.read().split()
    except OSError:
        return []


def resident(processes: List[int]) -> int:
    """The resident memory of these processes and this one, in bytes.

    A program that is about to begin is still a copy of this process, whose memory it shares, and is left out."""
    total, own = 0, _command_line(os.getpid())
    for process in [os.getpid()] + [each for each in processes if _command_line(each) != own]:
        try:
            with open("/proc/%d/statm" % process, encoding="ascii") as file:
                total += int(file.read().split()[1]) * PAGE
        except (OSError, IndexError):
            # It has ended.
            pass
    return total


def _command_line(process: int) -> bytes:
    try:
        with open("/proc/%d/cmdline" % process, "rb") as file:
            return file.read()
    except OSError:
        return b""


def end_all() -> None:
    """Ends this worker and all of its process group, at once."""
    if os.getpgrp() == os.getpid():
        os.killpg(os.getpid(), signal.SIGKILL)
    os._exit(1)  # pylint: disable=protected-access
