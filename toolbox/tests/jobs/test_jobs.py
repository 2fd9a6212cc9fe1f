"""Worker processes of a server: what they answer, in which order, and what becomes of one that misbehaves."""
import asyncio
import contextlib
import json
import os
import pathlib
import resource
import signal
import stat
import subprocess
import sys
import tempfile
import time
import unittest
from unittest import mock

from bgptools.jobs import Asker, Busy, Limits, Pool, lane, process
from bgptools.jobs.cache import BESIDE, Cache
from bgptools.jobs.frames import HEAD, JOB, MARK
from bgptools.jobs.process import Process
from bgptools.jobs.queue import REPLACED, Queue
from bgptools.jobs.request import Request
from bgptools.picture.step_view import Viewer
from bgptools.program.mistakes import Mistake
from bgptools.session import replay
from common import PATIENCE, TOOLBOX, TOP, Case
from test_step_view import PREFIX, THREE, accepted, ring

TEACHER, WORKER, LOOKER = Asker("t", 0), Asker("w", 1), Asker("l", 2)
NINE = "10.9.0.0/16"
UNCHANGED = "Nothing changed.\nMessages until it was quiet: 0 (0 updates, 0 withdrawals)\n"
LESSONS = TOOLBOX / "lessons"
LOGS = TOP / "cases" / "logs"


def script_of(path):
    """The lines of a file."""
    return path.read_bytes().decode("latin-1").split("\n")[:-1]


def is_gone(number):
    """Whether no process of this number runs."""
    try:
        return pathlib.Path("/proc/%d/stat" % number).read_text().rpartition(")")[2].split()[0] in "ZX"
    except OSError:
        return True


def left_of(numbers):
    """Those of these processes that run, when those that were killed have had a moment to go."""
    last = time.monotonic() + PATIENCE
    while not all(map(is_gone, numbers)) and time.monotonic() < last:
        time.sleep(0.01)
    return [each for each in numbers if not is_gone(each)]


def children(number):
    """The processes that a process started, and that these started."""
    found = []
    for path in pathlib.Path("/proc/%d/task" % number).glob("*/children"):
        for child in map(int, path.read_text().split()):
            found += [child, *children(child)]
    return found


class Pooled(Case, unittest.IsolatedAsyncioTestCase):
    """A test with pools, which are closed, and programs that stand in for bgpsim. Each of these writes its number to
    the file `numbers` when it begins."""

    def setUp(self):
        super().setUp()
        self.numbers = self.folder / "numbers"
        self.numbers.touch()
        self.sent = []

    def pool(self, lines=(), **limits):
        made = Pool(lambda: lines, Limits(**limits))
        self.addAsyncCleanup(made.close)
        return made

    @contextlib.contextmanager
    def limited(self, pool, **limits):
        """Within, what is asked of the pool has other limits."""
        lanes = (pool.work, pool.look, pool.long)
        for each in lanes:
            each.limits = Limits(**limits)
        yield
        for each in lanes:
            each.limits = pool.limits

    def stand_in(self, *body):
        """Has a program in the place of bgpsim: these lines of Python."""
        begin = ["#!%s" % sys.executable, "import os, time",
                 "def note():", "    with open(%r, 'a') as file:" % str(self.numbers),
                 "        file.write('%d\\n' % os.getpid())", "note()"]
        path = self.file("stand-in", "\n".join([*begin, *body, ""]))
        path.chmod(0o755)
        return mock.patch.dict(os.environ, PROGRAM=str(path))

    async def noted(self, count):
        """The numbers of so many processes that were started."""
        await self.until(lambda: self.numbers.read_text().count("\n") >= count)
        return list(map(int, self.numbers.read_text().split()))

    async def mistake(self, work):
        """Why it cannot be done."""
        with self.assertRaises(Mistake) as caught:
            await work
        return str(caught.exception)

    def counted(self):
        """Notes in `sent` each job that a worker is given."""
        send = Process.send

        async def noting(worker, kind, content):
            self.sent += [json.loads(content)] if kind == JOB else []
            await send(worker, kind, content)
        return mock.patch.object(Process, "send", noting)

    async def until(self, is_so):
        last = time.monotonic() + PATIENCE
        while not is_so():
            self.assertLess(time.monotonic(), last)
            await asyncio.sleep(0.01)


class Answers(Pooled):
    async def test_pictures_and_tables_are_those_of_a_viewer(self):
        """Of each step, at both workers; a mistake is the same, too."""
        lines, prefixes, routers = accepted(THREE)
        pool, viewer = self.pool(lines), Viewer()
        self.addCleanup(viewer.close)
        way = (routers[0], PREFIX.split("/")[0])
        for step in range(0, len(lines) + 1, 3):
            wanted = viewer.picture(list(lines), step, prefixes[0], way).encode()
            self.assertEqual(await pool.picture((WORKER, LOOKER)[step % 2], step, prefixes[0], way), wanted)
        for router in routers:
            wanted = viewer.table(list(lines), len(lines), router, prefixes[0])
            found = await pool.table(LOOKER, len(lines), router, prefixes[0])
            self.assertEqual(found, json.dumps(wanted, separators=(",", ":")).encode())
        with self.assertRaises(Mistake) as caught:
            viewer.table(list(lines), 0, routers[0], PREFIX)
        self.assertEqual(await self.mistake(pool.table(TEACHER, 0, routers[0], PREFIX)), str(caught.exception))

    async def test_things_stand_alike_at_all_workers(self):
        """Also at one that begins late, or anew, though places depend on what came together."""
        lines, viewer = ring(20), Viewer()
        pool = self.pool(lines)
        self.addCleanup(viewer.close)
        for at in range(4):
            lines += ["router 10.7.%d.1 %d" % (at, 60 + at % 2), "link 10.7.%d.1 10.0.%d.1 1" % (at, 5 * at),
                      "# name 10.0.%d.1 %s" % (at, "long-name" * 3), "metric 10.0.0.1 10.0.1.1 %d" % (at + 2)]
            wanted = viewer.picture(list(lines), len(lines), NINE, None).encode()
            self.assertEqual(await pool.picture(WORKER, len(lines), NINE, None), wanted)
            lines.append("metric 10.0.1.1 10.0.2.1 %d" % (at + 2))
            self.assertEqual(await pool.picture(TEACHER, len(lines), NINE, None),
                             viewer.picture(list(lines), len(lines), NINE, None).encode())
        os.kill(pool.work.worker.process.pid, signal.SIGKILL)
        await self.until(lambda: pool.work.worker.has_ended)
        with self.counted():
            for step, asker in ((20, LOOKER), (30, WORKER)):
                wanted = viewer.picture(list(lines), step, None, None).encode()
                self.assertEqual(await pool.picture(asker, step, None, None), wanted)
        self.assertEqual([each["marks"] for each in self.sent], [[], []])
        alone = Viewer()
        self.addCleanup(alone.close)
        self.assertNotEqual(alone.picture(list(lines), 30, None, None).encode(), wanted)

    async def test_a_network_that_is_too_large_is_a_mistake_and_no_more(self):
        lines = ["router 10.0.%d.1 1" % at for at in range(201)]
        pool = self.pool(lines)
        self.assertIn("a picture has at most 200", await self.mistake(pool.picture(WORKER, 3, None, None)))
        self.assertIn("a picture has at most 200", await self.mistake(pool.picture(WORKER, 3, None, None)))
        self.assertIn(b'"loc":"no route"', await pool.table(WORKER, 201, "10.0.0.1", NINE))

    async def test_a_script_that_is_another_one_is_told_anew(self):
        lines = ring(6)
        pool = self.pool(lines)
        before = await pool.picture(WORKER, 3, None, None)
        lines[:] = ["router 1.0.0.1 1", "router 1.0.0.2 1", "link 1.0.0.1 1.0.0.2 1"]
        after = json.loads(await pool.picture(WORKER, 3, None, None))
        self.assertEqual([each[0] for each in after["routers"]], ["1.0.0.1", "1.0.0.2"])
        self.assertNotEqual(json.loads(before)["routers"], after["routers"])

    def by_the_tool(self, base, change):
        """What `toolbox/what-if` says of a change, by the names that messages of the pool have."""
        with tempfile.TemporaryDirectory() as folder:
            for name, lines in (("network.bgp", base), ("proposed.change", change)):
                content = "".join(line + "\n" for line in lines).encode("latin-1")
                pathlib.Path(folder, name).write_bytes(content)
            return subprocess.run([sys.executable, "-B", str(TOOLBOX / "what-if"), "network.bgp", "proposed.change"],
                                  cwd=folder, capture_output=True, timeout=PATIENCE)

    async def test_what_ifs_are_those_of_the_tool(self):
        pool = self.pool()
        drained = LESSONS / "drained-link.bgp"
        for base, change in ((script_of(drained), script_of(drained.with_suffix(".change"))),
                             (ring(12), ["fail 10.0.0.1 10.0.1.1", "# json.py", "noorigin 10.0.0.1 " + NINE]),
                             (script_of(THREE), ["router 192.0.2.1 7"])):
            wanted = self.by_the_tool(base, change).stdout.decode()
            self.assertEqual(await pool.what_if(WORKER, base, change), wanted)
            self.assertIn("Messages until it was quiet", wanted)
        base = ring(4)
        self.assertEqual(await pool.what_if(TEACHER, base, ["# \xe4"]), UNCHANGED)
        for change in (["# \xe4", "fail 10.0.0.1 10.0.2.1"], ["metric \x1b 1"], ["x" * 65537]):
            found = await self.mistake(pool.what_if(TEACHER, base, change))
            self.assertEqual(found, self.by_the_tool(base, change).stderr.decode().rstrip("\n"))
            self.assertIn("proposed.change:", found)
        self.assertIn("characters that are none", await self.mistake(pool.what_if(WORKER, base, ["\u20ac"])))

    async def test_checks_say_what_replay_says(self):
        """Of the logs of cases/, whose verdicts are there; of a part of one with another end; and its place stays."""
        pool, count = self.pool(), 0
        for path in [LOGS / name for name in ("a-whole-tour.log", "end-too-early.log", "blank-line.log")]:
            with open(path, "rb") as log:
                log.seek(3)
                found = await pool.check(WORKER, log.fileno(), path.stat().st_size, b"")
                self.assertEqual(os.lseek(log.fileno(), 0, os.SEEK_CUR), 3)
            self.assertEqual(found, path.with_suffix(".out").read_text().strip(), path.name)
            count += 1
        self.assertEqual(count, 3)
        whole = (LOGS / "a-whole-tour.log").read_bytes()
        size = whole.index(b"\n@") + 1
        with open(LOGS / "a-whole-tour.log", "rb") as log:
            self.assertEqual(await pool.check(TEACHER, log.fileno(), size, b"end 0\n"), "ok 0")
            self.assertEqual(replay.verdict(log.name, size, b"end 0\n"), "ok 0")
            told = await self.mistake(pool.check(TEACHER, log.fileno(), len(whole) + 5, b""))
            self.assertIn("the log has %d bytes, and %d are to be checked" % (len(whole), len(whole) + 5), told)
        self.assertIn("the log cannot be read", await self.mistake(pool.check(TEACHER, log_closed(), 5, b"")))


def log_closed():
    """A descriptor that is none any more."""
    read, write = os.pipe()
    os.close(read)
    os.close(write)
    return read


class Arguments(Pooled):
    async def test_what_is_none_is_refused_and_reaches_no_worker(self):
        """Whoever asks, and however long it is."""
        lines = ring(3)
        pool, long = self.pool(lines), "1" * (1 << 16)
        last = len(lines)
        for step in (-1, last + 1, True, "1", 1.0, None):
            self.assertIn("a step is a number of 0 to %d" % last,
                          await self.mistake(pool.picture(WORKER, step, None, None)))
            self.assertIn("a step is", await self.mistake(pool.table(WORKER, step, "10.0.0.1", NINE)))
        for text in (long, "", "10.0.0.0", "10.0.0.1/8", "010.0.0.0/8", "10.0.0.0/8 ", "../json.py", 5, b"10.0.0.0/8"):
            self.assertIn("is not a prefix", await self.mistake(pool.picture(LOOKER, 1, text, None)))
            self.assertIn("is not a prefix", await self.mistake(pool.table(LOOKER, 1, "10.0.0.1", text)))
        for text in (long, "", "10.0.0", "10.0.0.01", "edge", "10.0.0.1\n", None):
            self.assertIn("is not an address", await self.mistake(pool.picture(LOOKER, 1, None, (text, "1.0.0.1"))))
            self.assertIn("is not an address", await self.mistake(pool.picture(LOOKER, 1, None, ("1.0.0.1", text))))
            self.assertIn("is not an address", await self.mistake(pool.table(LOOKER, 1, text, NINE)))
        self.assertLess(len(await self.mistake(pool.table(LOOKER, 1, long, NINE))), 200)
        self.assertIn("a rank is", await self.mistake(pool.picture(Asker("x", 3), 1, None, None)))
        self.assertEqual((pool.work.workers, pool.look.workers, pool.cache.size), (set(), set(), 0))

    async def test_who_looks_changes_and_checks_nothing(self):
        pool = self.pool()
        for work in (pool.what_if(LOOKER, [], []), pool.check(LOOKER, 0, 0, b"")):
            self.assertIn("pictures and tables alone", await self.mistake(work))
        self.assertEqual(pool.long.workers, set())


class Confined(Pooled):
    async def test_a_worker_stands_nowhere_and_knows_little(self):
        """Its command line, its environment, its folder, its session and its limits."""
        with mock.patch.dict(os.environ, SECRET="x", PYTHONPATH="/tmp"), \
                mock.patch.object(tempfile, "tempdir", str(self.folder)):
            pool = self.pool(ring(3))
            await pool.picture(WORKER, 2, None, None)
            self.assertEqual(os.listdir(self.folder), ["numbers"])
        number = pool.work.worker.process.pid
        about = pathlib.Path("/proc/%d" % number)
        words = about.joinpath("cmdline").read_text().split("\0")[:-1]
        self.assertEqual(words, [sys.executable, "-I", "-B", str(TOOLBOX / "bgptools" / "jobs" / "worker.py")])
        for each in [about] + [pathlib.Path("/proc/%d" % child) for child in children(number)]:
            names = {line.split("=")[0] for line in each.joinpath("environ").read_text().split("\0")[:-1]}
            self.assertLessEqual(names, {"PATH", "PROGRAM", "LANG", "LC_ALL", "LC_CTYPE", "BGPSIM_UNPROVED",
                                         "BGPSIM_JOB"})
            self.assertTrue(os.readlink(each / "cwd").endswith(" (deleted)"))
            self.assertEqual(os.listdir(each / "cwd"), [])
            self.assertEqual(os.getpgid(int(each.name)), number)
        self.assertEqual(os.getsid(number), number)
        self.assertTrue(children(number))
        limits = Limits()
        for which, wanted in ((resource.RLIMIT_CORE, 0), (resource.RLIMIT_AS, limits.address_space),
                              (resource.RLIMIT_FSIZE, limits.file_size), (resource.RLIMIT_NOFILE, limits.open_files)):
            self.assertEqual(resource.prlimit(number, which)[0], wanted)
        self.assertLessEqual(resource.prlimit(number, resource.RLIMIT_CPU)[0], limits.processor_time + 20)

    async def test_a_worker_that_serves_who_look_gives_way(self):
        pool = self.pool(ring(3))
        for step, asker in enumerate((WORKER, LOOKER)):
            await pool.picture(asker, step, None, None)
        own = os.getpriority(os.PRIO_PROCESS, 0)
        nice = [os.getpriority(os.PRIO_PROCESS, each.worker.process.pid) - own for each in (pool.work, pool.look)]
        self.assertEqual(nice, [0, min(10, 19 - own)])

    async def test_a_folder_with_modules_of_their_names_is_not_looked_at(self):
        """Neither that in which the server stands, nor one that its environment names."""
        ran = self.folder / "ran"
        for name in ("json", "argparse", "bgptools", "network"):
            self.file("here/%s.py" % name, "open(%r, 'w').close()\nraise SystemExit(9)\n" % str(ran))
        here = self.folder / "here"
        before = os.getcwd()
        self.addCleanup(os.chdir, before)
        subprocess.run([sys.executable, "-c", "import json"], cwd=str(here), check=False)
        self.assertTrue(ran.exists())
        ran.unlink()
        os.chdir(str(here))
        with mock.patch.dict(os.environ, PYTHONPATH=str(here), PYTHONSTARTUP=str(here / "json.py")):
            pool = self.pool(ring(3))
            self.assertIn("Nothing", await pool.what_if(WORKER, ring(3), ["# json.py"]))
            await pool.picture(WORKER, 2, None, None)
        self.assertFalse(ran.exists())


class Misbehaving(Pooled):
    """One request fails, and says why; what is asked next is answered."""

    async def next_is_answered(self, pool):
        self.assertIn(b'"parts"', await pool.picture(WORKER, 3, None, None))
        self.assertIn("Nothing", await pool.what_if(WORKER, ring(3), []))

    async def test_a_program_that_hangs(self):
        pool = self.pool(ring(3))
        with self.stand_in("time.sleep(600)"), self.limited(pool, picture_time=1, long_time=1):
            asked = [pool.picture(WORKER, 3, None, None), pool.what_if(WORKER, ring(3), []),
                     pool.picture(LOOKER, 2, None, None)]
            for told in await asyncio.gather(*map(self.mistake, asked)):
                self.assertIn("the worker process failed, and there is no answer: it took more than 2 seconds", told)
        numbers = await self.noted(0)
        self.assertEqual(left_of(numbers), [])
        await self.next_is_answered(pool)

    async def test_a_worker_that_is_stopped(self):
        pool = self.pool(ring(3))
        await pool.picture(WORKER, 1, None, None)
        stopped = pool.work.worker.process.pid
        os.kill(stopped, signal.SIGSTOP)
        with self.limited(pool, picture_time=1):
            self.assertIn("more than 2 seconds", await self.mistake(pool.picture(WORKER, 2, None, None)))
        self.assertEqual(left_of([stopped]), [])
        await self.next_is_answered(pool)

    async def test_one_that_starts_many_processes(self):
        pool = self.pool(ring(3), processes=8)
        with self.stand_in("for at in range(40):", "    if os.fork() == 0:", "        note()",
                           "        time.sleep(600)", "    time.sleep(0.02)", "time.sleep(600)"):
            self.assertIn("it has more than 8 processes", await self.mistake(pool.picture(WORKER, 3, None, None)))
            self.assertIn("it has more than 8 processes", await self.mistake(pool.what_if(WORKER, ring(3), [])))
            numbers = await self.noted(9)
        self.assertEqual(left_of(numbers), [])
        await self.next_is_answered(pool)

    async def test_one_that_hides_from_its_group(self):
        """It is ended all the same, by what it was started with."""
        pool = self.pool(ring(3))
        with self.stand_in("if os.fork() == 0:", "    os.setsid()", "    if os.fork() == 0:", "        note()",
                           "        time.sleep(600)", "    os._exit(0)", "time.sleep(600)"):
            asked = asyncio.ensure_future(self.mistake(pool.picture(WORKER, 3, None, None)))
            numbers = await self.noted(2)
            pool.work.worker.process.kill()
            self.assertIn("it ended by signal 9", await asked)
        self.assertEqual(left_of(numbers), [])
        await self.next_is_answered(pool)

    async def test_one_that_takes_memory(self):
        pool = self.pool(ring(3), memory=256 << 20)
        with self.stand_in("held = []", "for at in range(100):", "    held.append(b'x' * (20 << 20))",
                           "    time.sleep(0.01)", "time.sleep(600)"):
            for work in (pool.picture(WORKER, 3, None, None), pool.what_if(WORKER, ring(3), [])):
                self.assertIn("it has more than 256 MB of memory", await self.mistake(work))
        await self.next_is_answered(pool)

    async def test_one_that_takes_processor_time(self):
        pool = self.pool(ring(3))
        with self.limited(pool, processor_time=2):
            with self.stand_in("while True: pass"):
                self.assertIn("by signal %d" % signal.SIGXCPU, await self.mistake(pool.what_if(WORKER, ring(3), [])))
            with self.stand_in("time.sleep(600)"):
                asked = asyncio.ensure_future(self.mistake(pool.picture(WORKER, 3, None, None)))
                await self.noted(2)
                pool.work.worker.process.send_signal(signal.SIGXCPU)
                self.assertIn("it took more than 2 seconds of processor time", await asked)
        await self.next_is_answered(pool)

    async def test_a_program_that_ends_or_writes_too_much(self):
        pool = self.pool(ring(3), memory=256 << 20)
        with self.stand_in("raise SystemExit(7)"):
            self.assertIn("status 7", await self.mistake(pool.picture(WORKER, 3, None, None)))
        with self.stand_in("import sys", "while True: os.write(1, b'x' * 65536)"):
            self.assertIn("256 MB", await self.mistake(pool.picture(WORKER, 3, None, None)))
        with self.stand_in("while True:", "    os.write(2, b'x' * 65536)"):
            self.assertIn("the program ended before", await self.mistake(pool.what_if(WORKER, ring(3), [])))
        await self.next_is_answered(pool)

    async def test_a_worker_that_writes_what_is_no_answer(self):
        head = HEAD.pack(MARK, 4, 20 << 20)
        for body, why in (("os.write(1, b'x' * 99)", "it wrote what is no answer"),
                          ("os.write(1, %r)" % head, "its answer has %d bytes" % (20 << 20)),
                          ("raise SystemExit('a fault')", "it ended with status 1: a fault"),
                          ("os.kill(os.getpid(), 9)", "it ended by signal 9"),
                          ("os.close(1)", "it ended by signal 9")):
            path = self.file("worker.py", "import os, time\n%s\ntime.sleep(600)\n" % body)
            pool = self.pool(ring(3))
            with mock.patch.object(process, "WORKER", str(path)):
                for work in (pool.picture(WORKER, 3, None, None), pool.what_if(WORKER, [], [])):
                    self.assertIn(why, await self.mistake(work))
            await self.next_is_answered(pool)

    async def test_an_answer_that_is_too_long(self):
        pool = self.pool(ring(30), answer=2000)
        told = await self.mistake(pool.picture(WORKER, 90, None, None))
        self.assertRegex(told, r"^the answer has [0-9]+ bytes, and at most 2000 are taken$")
        self.assertIn(b"no route", await pool.table(WORKER, 90, "10.0.0.1", NINE))

    async def test_a_worker_that_cannot_be_started(self):
        """Neither where the system has no process, nor where it has no descriptor."""
        pool = self.pool(ring(3))
        with mock.patch.object(sys, "executable", str(self.folder / "nothing")):
            self.assertIn("a worker process cannot be started: No such file",
                          await self.mistake(pool.picture(WORKER, 3, None, None)))
        with self.none_left():
            for work in (pool.picture(WORKER, 3, None, None), pool.what_if(WORKER, [], [])):
                self.assertIn("a worker process cannot be started: Too many open files", await self.mistake(work))
            self.assertIn("Too many open files", await self.mistake(pool.check(WORKER, 0, 1, b"")))
        await self.next_is_answered(pool)
        with self.stand_in():
            os.environ["PROGRAM"] = str(self.folder / "nothing")
            self.assertIn("the program cannot be run", await self.mistake(pool.what_if(WORKER, ring(3), [])))

    @contextlib.contextmanager
    def none_left(self):
        """Within, no file can be opened."""
        before = resource.getrlimit(resource.RLIMIT_NOFILE)
        held = []
        resource.setrlimit(resource.RLIMIT_NOFILE, (min(256, before[0]), before[1]))
        try:
            with contextlib.suppress(OSError):
                while True:
                    held.append(os.dup(0))
            yield
        finally:
            for each in held:
                os.close(each)
            resource.setrlimit(resource.RLIMIT_NOFILE, before)

    async def test_a_worker_that_has_grown_answers_and_is_replaced(self):
        """Where it has more than half of the memory that it may have."""
        pool = self.pool(ring(3))
        await pool.picture(WORKER, 3, None, None)
        number = pool.work.worker.process.pid
        pages = sum(int(pathlib.Path("/proc/%d/statm" % each).read_text().split()[1])
                    for each in [number, *children(number)])
        pool = self.pool(ring(3), memory=pages * resource.getpagesize() * 3 // 2)
        step = json.loads(await pool.picture(WORKER, 3, None, None))["step"]
        self.assertEqual((step, pool.work.worker, pool.work.workers), (3, None, set()))
        # The next one is told where all stands, and is smaller, since it loads no library for that.
        steps = [json.loads(each)["step"] for each in await asyncio.gather(
            *(pool.picture(Asker("p%d" % step, 1), step, None, None) for step in range(4)))]
        self.assertEqual(steps, [0, 1, 2, 3])


class Turns(Pooled):
    async def order(self, *asked, limits=Limits()):
        """The order in which these are taken from a queue: words of person, rank and name."""
        queue, found = Queue(limits), []
        for words in asked:
            person, rank, name = words.split()
            queue.add(Request(Asker(person, int(rank)), {"do": name}))
        request = queue.take(lambda _: True)
        while request:
            found.append(request.job["do"])
            request = queue.take(lambda _: True)
        self.assertEqual((queue.count, queue.size), (0, 0))
        return " ".join(found)

    async def test_persons_take_turns(self):
        found = await self.order("a 1 a1", "a 1 a2", "a 1 a3", "b 1 b1", "b 1 b2", "c 1 c1")
        self.assertEqual(found, "a1 b1 c1 a2 b2 a3")

    async def test_higher_ranks_come_first_and_nobody_starves(self):
        self.assertEqual(await self.order("a 2 a", "b 1 b", "c 0 c"), "c b a")
        many = ["%s 0 t%d" % ("tu"[at % 2], at // 2) for at in range(8)]
        found = await self.order("a 2 A", "b 1 B", *many, limits=Limits(patience=3))
        self.assertEqual(found.split().index("B"), 3)
        self.assertEqual(found.split().index("A"), 4)

    async def test_bounds_of_one_and_of_all(self):
        queue = Queue(Limits(waiting_of_one=2, waiting=5, waiting_bytes=20000))
        queue.add(Request(Asker("a", 1), {}))
        queue.add(Request(Asker("a", 1), {}))
        self.assertRaises(Busy, queue.add, Request(Asker("a", 1), {}))
        self.assertRaises(Busy, queue.add, Request(Asker("b", 1), {}, 20000))
        for person in "bcd":
            queue.add(Request(Asker(person, 1), {}))
        self.assertRaises(Busy, queue.add, Request(Asker("e", 1), {}))
        self.assertEqual(queue.count, 5)
        self.assertTrue(queue.remove(next(iter(queue))))
        queue.add(Request(Asker("e", 1), {}))

    async def test_the_newest_picture_of_one_takes_the_place_of_the_one_that_waits(self):
        """And not of what another one asked for, nor of the one that is made."""
        pool = self.pool(ring(9))
        with self.counted():
            asked = [asyncio.ensure_future(pool.picture(asker, step, None, None)) for asker, step in (
                (WORKER, 1), (WORKER, 2), (WORKER, 3), (TEACHER, 4), (WORKER, 5))]
            found = await asyncio.gather(*asked, return_exceptions=True)
        self.assertEqual([each["step"] for each in self.sent], [1, 4, 5])
        self.assertEqual([str(each) if isinstance(each, Mistake) else json.loads(each)["step"] for each in found],
                         [1, REPLACED, REPLACED, 4, 5])

    async def test_who_teaches_comes_before_who_works(self):
        pool = self.pool(ring(9))
        with self.counted():
            await asyncio.gather(*(pool.picture(Asker("p%d" % step, rank), step, None, None)
                                   for step, rank in ((1, 1), (2, 1), (3, 1), (4, 0))))
        self.assertEqual([each["step"] for each in self.sent], [1, 4, 2, 3])

    async def test_who_looks_holds_up_nobody_who_works(self):
        """Though the worker for those who look stands still, and many wait for it."""
        pool, lines = self.pool(ring(9)), ring(9)
        await pool.picture(LOOKER, 1, None, None)
        number = pool.look.worker.process.pid
        os.kill(number, signal.SIGSTOP)
        looking = [asyncio.ensure_future(pool.picture(Asker("l%d" % at, 2), 2 + at % 20, NINE, None))
                   for at in range(60)]
        await asyncio.sleep(0)
        for step in range(2, len(lines)):
            found = await pool.picture((WORKER, TEACHER)[step % 2], step, None, None)
            self.assertEqual(json.loads(found)["step"], step)
        self.assertFalse(any(each.done() for each in looking))
        os.kill(number, signal.SIGCONT)
        steps = [json.loads(each)["step"] for each in await asyncio.gather(*looking)]
        self.assertEqual(steps, [2 + at % 20 for at in range(60)])

    async def test_equal_pictures_are_made_once(self):
        """25 pages that follow one, and who asks when it is there."""
        pool, lines = self.pool(ring(9)), ring(9)
        with self.counted():
            askers = [TEACHER] + [Asker("l%d" % at, 2) for at in range(20)] + [Asker("w%d" % at, 1) for at in range(5)]
            found = await asyncio.gather(*(pool.picture(each, len(lines), NINE, None) for each in askers))
            self.assertEqual(len(set(found)), 1)
            self.assertEqual(await pool.picture(Asker("late", 2), len(lines), NINE, None), found[0])
            self.assertEqual(len(self.sent), 1)
            await pool.picture(Asker("late", 2), len(lines), None, None)
            self.assertEqual(len(self.sent), 2)

    async def test_who_works_waits_for_no_equal_picture_of_who_looks(self):
        pool, lines = self.pool(ring(9)), ring(9)
        await pool.picture(LOOKER, 1, None, None)
        os.kill(pool.look.worker.process.pid, signal.SIGSTOP)
        looked = [asyncio.ensure_future(pool.picture(Asker(name, 2), step, NINE, None))
                  for name, step in (("l", 5), ("m", len(lines)))]
        await asyncio.sleep(0)
        found = await pool.picture(TEACHER, len(lines), NINE, None)
        self.assertEqual(await looked[1], found)
        self.assertFalse(looked[0].done())
        looked[0].cancel()

    async def test_a_picture_that_is_kept_is_made_anew_where_things_stand_elsewhere(self):
        lines = ring(9)
        pool = self.pool(lines)
        with self.counted():
            first = await pool.picture(WORKER, 5, None, None)
            lines.append("metric 10.0.0.1 10.0.1.1 5")
            self.assertEqual(await pool.picture(WORKER, 5, None, None), first)
            self.assertEqual(len(self.sent), 1)
            lines += ["router 10.7.0.1 7", "link 10.7.0.1 10.0.0.1 1"]
            self.assertNotEqual(await pool.picture(WORKER, 5, None, None), first)
        self.assertEqual((len(self.sent), len(pool.cache.answers)), (2, 1))

    async def test_so_many_bytes_are_kept_with_their_keys(self):
        cache = Cache(10 * (BESIDE + 100))
        for step in range(30):
            cache.put(((0, 1), (step, None, None)), b"x" * 100)
            self.assertLessEqual(cache.size, cache.most)
            cache.get(((0, 1), (0, None, None)))
        self.assertEqual([key[1][0] for key in cache.answers], [*range(21, 30), 0])
        self.assertEqual(len(cache.answers), 10)
        cache.put(((0, 1), (99, None, None)), b"x" * cache.most)
        self.assertEqual((len(cache.answers), cache.size), (0, 0))

    async def test_long_work_has_two_workers_and_one_of_each_person(self):
        pool = self.pool(long_time=60)
        with self.stand_in("time.sleep(600)"):
            asked = [asyncio.ensure_future(pool.what_if(Asker(name, 1), ring(3), [])) for name in "aabbcccccc"]
            await self.noted(2)
            await asyncio.sleep(0)
            self.assertEqual(sorted(each.asker.person for each in pool.long.running), ["a", "b"])
            self.assertEqual(pool.long.queue.count, 6)
            self.assertEqual([type(each.exception()) for each in asked[8:]], [Busy, Busy])
            await asyncio.sleep(0.2)
            self.assertEqual(len(await self.noted(2)), 2)
        for each in asked[:3]:
            each.cancel()
        await asyncio.gather(*asked[:3], return_exceptions=True)
        self.assertEqual(await asyncio.gather(*asked[3:8]), [UNCHANGED] * 5)
        self.assertEqual(left_of(await self.noted(2)), [])


class Ends(Pooled):
    async def test_a_caller_that_goes_frees_its_place(self):
        """Its what-if ends, and its picture waits no more."""
        pool = self.pool(ring(3), long_workers=1)
        with self.stand_in("time.sleep(600)"):
            long = asyncio.ensure_future(pool.what_if(WORKER, ring(3), []))
            number, = await self.noted(1)
            waits = asyncio.ensure_future(pool.what_if(TEACHER, ring(3), []))
            await asyncio.sleep(0)
            self.assertEqual(pool.long.queue.count, 1)
            waits.cancel()
            await asyncio.gather(waits, return_exceptions=True)
            self.assertEqual((pool.long.queue.count, pool.long.queue.size), (0, 0))
        long.cancel()
        await asyncio.gather(long, return_exceptions=True)
        self.assertEqual(await pool.what_if(TEACHER, ring(3), []), UNCHANGED)
        self.assertEqual(left_of([number]), [])

    async def test_close_leaves_no_process_and_no_folder(self):
        """Whatever is worked on, and whatever waits; and nothing is answered any more."""
        # (tests that ran here before may have left some)
        others = set(children(os.getpid()))
        with mock.patch.object(tempfile, "tempdir", str(self.folder)), open(THREE, "rb") as log:
            pool = self.pool(ring(3))
            await pool.picture(WORKER, 3, None, None)
            with self.stand_in("import signal", "signal.signal(signal.SIGTERM, signal.SIG_IGN)", "time.sleep(600)"):
                asked = [asyncio.ensure_future(work) for work in (
                    pool.picture(LOOKER, 3, NINE, None), pool.picture(Asker("m", 2), 2, NINE, None),
                    pool.what_if(WORKER, ring(3), []), pool.what_if(TEACHER, ring(3), []),
                    pool.what_if(Asker("x", 1), ring(3), []), pool.check(Asker("y", 1), log.fileno(), 9, b""))]
                numbers = await self.noted(3)
                every = [each for each in children(os.getpid()) if each not in others and not is_gone(each)]
                self.assertGreaterEqual(len(every), 7)
                await pool.close()
            self.assertEqual(left_of(numbers + every), [])
            for told in await asyncio.gather(*map(self.mistake, asked)):
                self.assertEqual(told, lane.CLOSED)
            self.assertEqual(await self.mistake(pool.picture(WORKER, 1, None, None)), lane.CLOSED)
            self.assertEqual(await self.mistake(pool.what_if(WORKER, [], [])), lane.CLOSED)
            await pool.close()
        self.assertEqual(sorted(os.listdir(self.folder)), ["numbers", "stand-in"])
        self.assertEqual(left_of([each for each in children(os.getpid()) if each not in others]), [])

    async def test_close_ends_what_a_program_left_behind(self):
        """Though the program answered as it should, and what it left is in no group of a worker."""
        pool = self.pool(ring(3))
        with self.stand_in("noted, noting = os.pipe()", "if os.fork() == 0:", "    os.setsid()",
                           "    if os.fork() == 0:", "        note()", "        os.write(noting, b'.')",
                           "        time.sleep(600)", "    os._exit(0)", "os.read(noted, 1)",
                           "os.execv(%r, ['bgpsim', 'converge'])" % os.environ["PROGRAM"]):
            self.assertEqual(await pool.what_if(WORKER, ring(3), []), UNCHANGED)
            numbers = await self.noted(4)
        self.assertEqual([is_gone(each) for each in numbers].count(False), 2)
        await pool.close()
        self.assertEqual(left_of(numbers), [])

    async def test_descriptors_are_given_back(self):
        pool = self.pool(ring(3))
        before = os.listdir("/proc/self/fd")
        with open(LOGS / "a-whole-tour.log", "rb") as log:
            for _ in range(3):
                await pool.what_if(WORKER, ring(3), [])
                await pool.check(WORKER, log.fileno(), os.fstat(log.fileno()).st_size, b"")
                await pool.picture(WORKER, 3, None, None)
                os.kill(pool.work.worker.process.pid, signal.SIGKILL)
                pool.cache.clear()
                await self.until(lambda: pool.work.worker.has_ended)
        await pool.close()
        self.assertEqual(os.listdir("/proc/self/fd"), before)

    async def test_nothing_is_left_where_the_server_is_killed(self):
        """Neither a worker that waits, nor one that works, nor one that is stopped, nor the programs of these."""
        body = """
            import asyncio, os, sys
            sys.path.insert(0, %r)
            from bgptools.jobs import Asker, Pool
            async def main():
                pool = Pool(lambda: ["router 1.0.0.1 1"])
                await pool.picture(Asker("w", 1), 1, None, None)
                os.environ["PROGRAM"] = %r
                every = [asyncio.ensure_future(each) for each in (
                    pool.picture(Asker("l", 2), 1, None, ("1.0.0.1", "1.0.0.1")), pool.what_if(Asker("w", 1), [], []),
                    pool.what_if(Asker("t", 1), [], []))]
                print("ready", flush=True)
                await asyncio.gather(*every)
            asyncio.run(main())"""
        with self.stand_in("time.sleep(600)"):
            stand_in = os.environ["PROGRAM"]
        path = self.file("server.py", "\n".join(line[12:] for line in (body % (str(TOOLBOX), stand_in)).split("\n")))
        server = subprocess.Popen([sys.executable, "-B", str(path)], stdout=subprocess.PIPE)
        self.addCleanup(server.wait)
        self.addCleanup(server.stdout.close)
        self.assertEqual(server.stdout.readline(), b"ready\n")
        await self.noted(3)
        every = children(server.pid)
        self.assertGreaterEqual(len(every), 8)
        workers = [each for each in every if b"worker.py" in pathlib.Path("/proc/%d/cmdline" % each).read_bytes()]
        # (a copy of a worker that is about to become a program looks like one)
        self.assertGreaterEqual(len(workers), 4)
        os.kill(workers[-1], signal.SIGSTOP)
        server.kill()
        await self.until(lambda: all(map(is_gone, every)))
        self.assertEqual(left_of(every), [])


if __name__ == "__main__":
    unittest.main()
