"""What attacks on share and lab are made of: a server that runs as a process, and what is seen of it from outside."""
import contextlib
import http.client
import json
import os
import pathlib
import re
import resource
import selectors
import signal
import socket
import subprocess
import sys
import threading
import time

import pytest

from bgptools.program import location
from common import PATIENCE, TOOLBOX, Case
from test_lab import Page
from test_share import Person

TWO = ["router 1.0.0.1 1", "router 2.0.0.1 2", "link 1.0.0.1 2.0.0.1 1", "join 1.0.0.1 2.0.0.1"]
# An answer that takes some milliseconds comes within so many seconds, whatever others do: of a Watch, on which time
# stands still while the processors are needed elsewhere. Who has no secret is let go after UNPROVEN_SECONDS, and who
# does not read after WRITE_SECONDS, which are more.
SOON = 4.0
LIMITS = {"files": resource.RLIMIT_NOFILE, "file_size": resource.RLIMIT_FSIZE}


class Server:
    """A share or a lab that runs as a process, in folders of its own; its standard error is a file.

    `limits` are some of LIMITS and a `mask` for new files. `more` are variables of its environment."""

    def __init__(self, folder, tool, *words, limits=None, **more):
        self.folder, self.socket = folder, str(folder / "socket")
        self.limits = dict(limits or {})
        self.error, self.printed, self.urls = folder / "stderr", [], {}
        for name in ("cwd", "tmp", "home"):
            (folder / name).mkdir(exist_ok=True)
        called = [sys.executable, "-B", str(TOOLBOX / tool), *map(str, words), "--at", self.socket]
        given = dict(os.environ, TMPDIR=str(folder / "tmp"), HOME=str(folder / "home"), **more)
        with open(self.error, "ab") as error:
            self.process = subprocess.Popen(called, stdout=subprocess.PIPE, stderr=error, cwd=str(folder / "cwd"),
                                            env=given, preexec_fn=self._limited, start_new_session=True)
        try:
            self._begun()
        except BaseException:
            self.close()
            raise

    def _limited(self):
        for name, value in self.limits.items():
            if name == "mask":
                os.umask(value)
            else:
                resource.setrlimit(LIMITS[name], (value, value))

    def _begun(self):
        while not any(line.startswith("`join") for line in self.printed):
            line = self.process.stdout.readline().decode()
            if not line:
                raise AssertionError(self.told())
            self.printed.append(line)
            name, _, url = line.strip().partition(": ")
            self.urls.update({name: url} if url.startswith("http") else {})
        self.keys = {name: url.split("/")[3] for name, url in self.urls.items()}
        self.url, self.key = self.urls.get("lab"), self.keys.get("lab")
        self.port = int(self.url.split("/")[2].split(":")[1]) if self.url else None

    # What it is asked

    def get(self, path, method="GET", body=None, key=None, **headers):
        """The status, headers and body of an answer."""
        given = {name.replace("_", "-"): value for name, value in headers.items()}
        with contextlib.closing(http.client.HTTPConnection("127.0.0.1", self.port, timeout=PATIENCE)) as line:
            line.request(method, "/%s/%s" % (self.key if key is None else key, path), body, given)
            answer = line.getresponse()
            return answer.status, dict(answer.getheaders()), answer.read()

    def post(self, page, body, key=None):
        """The status of a request of a page."""
        return self.get("do?page=" + page, "POST", body, key, Content_Type="application/json")[0]

    def connected(self):
        """A connection to the pages."""
        return socket.create_connection(("127.0.0.1", self.port), timeout=PATIENCE)

    # What is seen of it

    def told(self):
        """Its standard error."""
        return self.error.read_text("utf-8", "replace")

    def is_alive(self):
        return self.process.poll() is None

    def children(self):
        """The command lines of all processes that it started, by their numbers."""
        found, todo = {}, [self.process.pid]
        while todo:
            folder = pathlib.Path("/proc/%d/task" % todo.pop())
            with contextlib.suppress(OSError):
                for child in " ".join(each.read_text() for each in folder.glob("*/children")).split():
                    todo.append(int(child))
                    with contextlib.suppress(OSError):
                        found[int(child)] = pathlib.Path("/proc/%s/cmdline" % child).read_bytes().split(b"\0")[:-1]
        return found

    def own_children(self):
        """The numbers of the processes that it started itself."""
        tasks = pathlib.Path("/proc/%d/task" % self.process.pid)
        return {int(child) for each in tasks.glob("*/children") for child in each.read_text().split()}

    def program(self):
        """The number of the program that has the shared network."""
        found = [number for number, words in self.children().items()
                 if number in self.own_children() and words[-1:] == [b"converge"]]
        if len(found) != 1:
            raise AssertionError("there are %d shared programs" % len(found))
        return found[0]

    def workers(self):
        """How many worker processes it has: of the pool, and of `what-if` and `replay` where it runs these itself."""
        own = self.own_children()
        return sum(number in own and words[-1:] != [b"converge"] for number, words in self.children().items())

    def memory(self):
        """Its resident memory in bytes."""
        status = pathlib.Path("/proc/%d/status" % self.process.pid).read_text()
        return int(re.search(r"VmRSS:\s+([0-9]+) kB", status).group(1)) << 10

    # The end

    def end(self, number=signal.SIGINT):
        """Ends it by a signal: the status, and the rest of what it prints."""
        self.process.send_signal(number)
        return self.ended()

    def ended(self):
        """Its status when it has ended by itself, and the rest of what it prints."""
        out = self.process.communicate(timeout=PATIENCE)[0].decode()
        return self.process.returncode, out

    def close(self):
        if self.is_alive():
            self.process.kill()
        self.process.wait(PATIENCE)
        self.process.stdout.close()


@pytest.mark.xdist_group("attacks")
class Attack(Case):
    """A test that attacks a server. Whatever a server tells on standard error is a fault, if no test says otherwise."""

    def served(self, tool, *words, **more):
        """A server that ends with the test."""
        made = Server(self.folder, tool, *words, **more)
        self.addCleanup(made.close)
        return made

    def share(self, *words, **more):
        return self.served("share", *words, **more)

    def lab(self, *words, **more):
        return self.served("lab", "--present", "--log", self.folder / "log", *words, **more)

    def join(self, server, name=None, token=None):
        """A person at the socket."""
        made = Person(server.socket, name, token)
        self.addCleanup(made.close)
        return made

    def page(self, server, name="", role="to work"):
        """A page of a role: that of an address that was printed."""
        made = Page(server, name, server.keys[role])
        self.addCleanup(made.close)
        return made

    def slow(self, before="", seconds=0.5):
        """A program that begins so much later where a worker process runs it, and first runs these lines of shell."""
        late = '[ -z "$BGPSIM_JOB" ] || sleep %s' % seconds
        path = self.file("slow", '#!/bin/sh\n%s\n%s\nexec %s "$@"\n' % (before, late, os.path.abspath(location.program())))
        path.chmod(0o755)
        return str(path)

    def assert_well(self, server, *people):
        """The server lives and answers, and has told of no fault."""
        for person in people:
            self.assertEqual(person.call("cost 1.0.0.1 1.0.0.1"), ["0 via 1.0.0.1"])
        self.assertTrue(server.is_alive())
        self.assertEqual(server.told(), "")


class Until:
    """While something is waited for by a thread of its own. What it brings is in `found`, or its fault is raised."""

    def __init__(self, work):
        self.found, self.fault = None, None
        self.thread = threading.Thread(target=self._run, args=(work,), daemon=True)

    def _run(self, work):
        try:
            self.found = work()
        except Exception as fault:  # pylint: disable=broad-except
            self.fault = fault

    def is_waiting(self, seconds):
        """Whether it is not there yet, after so many seconds more at most."""
        self.thread.join(seconds)
        return self.thread.is_alive()

    def __enter__(self):
        self.thread.start()
        return self

    def __exit__(self, *_):
        self.thread.join(PATIENCE)
        if self.fault is not None:
            raise self.fault


def answers(person, count):
    """The next so many answers, in the order in which they come."""
    found = []
    while len(found) < count:
        told = person.hear()
        if told is None:
            raise AssertionError("the server has gone")
        (person.events if "event" in told else found).append(told)
    return found


def asked(person, request, **more):
    """The error or the answer of a request."""
    told = person.ask(request, **more)
    return told.get("error", told)


def entries(log, seat=None):
    """The calls in a log, each with its reply, of one seat or of all."""
    found = re.findall(r"^@([0-9]+) ([^\n]*)\n((?:= [^\n]*\n)+)", log.read_text("latin-1"), re.M)
    return [(line, reply[2:-1].split("\n= ")) for at, line, reply in found if seat is None or int(at) == seat]


def readable(line, seconds):
    """Whether something can be read of a connection within so many seconds."""
    with selectors.DefaultSelector() as waiting:
        waiting.register(line, selectors.EVENT_READ)
        return bool(waiting.select(seconds))


def statuses(server, content, fits, most=8):
    """The statuses that a server answers to these bytes; a 0 behind them where it closes the connection then. What has
    to come, as one of `fits` has it, is waited for; then nothing else may come for a while."""
    found = []
    with server.connected() as line:
        with contextlib.suppress(OSError):
            line.sendall(content)
        for _ in range(most):
            is_due = found not in fits and any(each[:len(found)] == found for each in fits)
            if not readable(line, PATIENCE if is_due else 0.3):
                return found
            status = one_status(line)
            found.append(status)
            if not status:
                return found
    return found


def one_status(line):
    """The status of the next answer at a connection, which is read to its end; 0 where it is closed."""
    head = b""
    try:
        while b"\r\n\r\n" not in head:
            byte = line.recv(1)
            if not byte:
                return 0 if not head else -1
            head += byte
        if not re.match(rb"HTTP/1\.[01] [0-9]{3} ", head):
            return -1
        length = re.search(rb"\r\nContent-Length: ([0-9]+)\r\n", head)
        left = int(length.group(1)) if length else 0
        while left:
            left -= len(line.recv(left)) or left
    except ConnectionError:
        return 0
    return int(head.split(b" ")[1])


def kept_waiting(number):
    """The seconds in which a process could have run, and none of the processors was free for it."""
    found = 0
    for path in pathlib.Path("/proc/%d/task" % number).glob("*/schedstat"):
        with contextlib.suppress(OSError):
            found += int(path.read_text().split()[1])
    return found / 1e9


class Watch:
    """The seconds since it was made, but for those in which the server, its processes or this one waited for a
    processor."""

    def __init__(self, server):
        self.server = server
        self.before = self._kept_waiting()
        self.began = time.monotonic()

    def _kept_waiting(self):
        numbers = (os.getpid(), self.server.process.pid, *self.server.children())
        return {number: kept_waiting(number) for number in numbers}

    def seconds(self):
        passed = time.monotonic() - self.began
        return passed - sum(seconds - self.before.get(number, 0.0) for number, seconds in self._kept_waiting().items())


def soon(server, path="forms", key=None):
    """The seconds of a Watch that an answer to a page takes; it has to be a whole one."""
    watch = Watch(server)
    status, _, body = server.get(path, key=key)
    if status != 200 or not json.loads(body):
        raise AssertionError("%d %s" % (status, body[:200]))
    return watch.seconds()


def more_files(wanted):
    """How many files of `wanted` this process may have open, where some are needed for other things."""
    soft, hard = resource.getrlimit(resource.RLIMIT_NOFILE)
    if soft < wanted + 500:
        resource.setrlimit(resource.RLIMIT_NOFILE, (min(wanted + 500, hard), hard))
    return min(wanted, resource.getrlimit(resource.RLIMIT_NOFILE)[0] - 500)
