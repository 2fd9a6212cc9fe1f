"""sweep --scheduler: a Dask cluster on the loopback, of which workers and the scheduler are ended in the middle; workers
that join late; and no cluster."""
import json
import os
import pathlib
import re
import signal
import subprocess
import sys
import time
import unittest
from unittest import mock

import pytest

from bgptools.cli.interpreter import SYSTEMS
from bgptools.program import location
from bgptools.sweep.cluster import PACKAGE
from common import PATIENCE, TOOLBOX, TOP, Case, inside, tool
from relations import relations

HAS_DASK = os.access(SYSTEMS, os.X_OK) and subprocess.run(
    [SYSTEMS, "-c", "import " + PACKAGE], stderr=subprocess.DEVNULL).returncode == 0
NO_DASK = "Dask is not installed: apt-get install python3-distributed"
PLAIN = {"PATH": "/usr/bin:/bin", "HOME": "/nonexistent", "DASK_DISTRIBUTED__WORKER__DAEMON": "False"}


def until(found, seconds=PATIENCE):
    """What is found, as soon as there is something."""
    end = time.monotonic() + seconds
    while time.monotonic() < end:
        if found():
            return found()
        time.sleep(0.01)
    raise AssertionError("nothing came in %d seconds" % seconds)


class Cluster(Case):
    def begin(self, *words, **surroundings):
        """A process of Debian's Dask, which is ended after the test by its own id."""
        log = open(self.folder / "log", "ab")
        self.addCleanup(log.close)
        process = subprocess.Popen([SYSTEMS, *map(str, words)], cwd=str(self.folder), env={**PLAIN, **surroundings},
                                   stdin=subprocess.DEVNULL, stdout=log, stderr=log)
        self.addCleanup(process.wait)
        self.addCleanup(process.kill)
        return process

    def scheduler(self):
        """The address of a scheduler, and its process."""
        file = self.folder / "scheduler.json"
        process = self.begin("/usr/bin/dask-scheduler", "--host", "127.0.0.1", "--port", "0", "--no-dashboard",
                             "--scheduler-file", file)
        address = until(lambda: file.exists() and re.search('"address": "(tcp:[^"]*)"', file.read_text())).group(1)
        return address, process

    def worker(self, address, program, name):
        """A worker whose own program is this one."""
        return self.begin("/usr/bin/dask-worker", address, "--nthreads", "1", "--no-nanny", "--no-dashboard",
                          "--local-directory", self.folder / name, PROGRAM=str(program))

    def wait_for(self, count):
        """Waits until so many workers have joined."""
        until(lambda: (self.folder / "log").read_bytes().count(b"Register worker") >= count)

    def base(self, count):
        """A network of so many ASes, each with a prefix."""
        text = "\n".join(relations(count, 2)) + "\n"
        return self.file("base", inside("from-as-rel", self.file("relations", text), "--origins", "all").stdout)

    def started(self, *words):
        """A sweep that runs, with its outputs in files."""
        out, err = (open(self.folder / name, "wb") for name in ("out", "err"))
        with out, err:
            command = [sys.executable, "-B", TOOLBOX / "sweep", *words]
            ran = subprocess.Popen(list(map(str, command)), cwd=str(TOP), stdout=out, stderr=err)
        self.addCleanup(ran.wait)
        self.addCleanup(ran.kill)
        return ran

    @pytest.mark.long
    @unittest.skipUnless(HAS_DASK, NO_DASK)
    def test_a_worker_dies_and_the_table_is_that_of_one_process(self):
        address, _ = self.scheduler()
        workers = [self.worker(address, location.program(), str(number)) for number in range(3)]
        words = (self.base(18), "--fail-links", "--fail-routers", "--pairs", "--sample", 50, "--csv")
        one = inside("sweep", *words, "--jobs", 1)
        self.wait_for(3)
        results = self.folder / "results"
        ran = self.started(*words, "--scheduler", address, "--program", pathlib.Path(location.program()).resolve(),
                           "--results", results)
        # (at once behind the first ones, since the others follow soon)
        until(lambda: results.exists() and results.read_bytes().count(b"\n") > 1 or ran.poll() is not None)
        workers[0].send_signal(signal.SIGKILL)
        came = results.read_bytes().count(b"\n")
        told = (ran.wait(PATIENCE), *((self.folder / name).read_text() for name in ("out", "err")))
        self.assertEqual(told, (one.returncode, one.stdout, ""))
        lines = results.read_bytes().splitlines()
        self.assertLess(came, len(lines), "the worker died too late")
        self.assertEqual(sorted(json.loads(line)["change"] for line in lines[1:]), list(range(len(lines) - 1)))
        # In parts by prefixes; and a program that is none.
        parts = tool("sweep", *words[:2], "--csv", "--scheduler", address, "--program", location.program(),
                     "--by-prefix", 9)
        self.assertEqual(parts.stdout, inside("sweep", *words[:2], "--csv").stdout)
        path = self.file("other", "#!/bin/sh\necho other 1\n")
        path.chmod(0o755)
        other = tool("sweep", *words, "--scheduler", address, "--program", path, status=2)
        self.assertRegex(other.stderr, "tcp:.* another version of the program: `other 1`, and here it is `bgpsim ")

    @pytest.mark.long
    @unittest.skipUnless(HAS_DASK, NO_DASK)
    def test_a_late_worker_of_another_program_gets_no_work_and_the_sweep_goes_on_without_a_scheduler(self):
        address, scheduler = self.scheduler()
        worker = self.worker(address, location.program(), "one")
        words, results = (self.base(18), "--fail-links", "--fail-routers", "--csv"), self.folder / "results"
        one = inside("sweep", *words, "--jobs", 1)
        self.wait_for(1)
        ran = self.started(*words, "--scheduler", address, "--results", results)
        until(lambda: results.exists() and results.read_bytes().count(b"\n") > 1 or ran.poll() is not None)
        # It works no more, so that the late one is given a task.
        worker.send_signal(signal.SIGSTOP)
        self.addCleanup(worker.send_signal, signal.SIGCONT)
        other = self.file("other", "#!/bin/sh\necho bgpsim 7\n")
        other.chmod(0o755)
        self.worker(address, other, "two")
        aside = until(lambda: re.fullmatch(r"(--scheduler \S+: )the worker tcp:\S+ gets no work: it has another version of "
                                           r"the program: `bgpsim 7`, and here it is `.*`\n", (self.folder / "err").read_text()))
        scheduler.send_signal(signal.SIGKILL)
        kept = [json.loads(line) for line in results.read_bytes().splitlines()]
        self.assertEqual(ran.wait(PATIENCE), 2)
        told = (self.folder / "err").read_text()[len(aside.group()):]
        count = one.stdout.count("\n") - 1
        self.assertEqual(told, "%sthe scheduler has gone: %d of %d results are in %s, and `--resume` goes on\n" % (
            aside.group(1), len(kept) - 1, count, results))
        self.assertGreater(count, len(kept) - 1, "the scheduler went too late")
        self.assertEqual(inside("sweep", *words, "--results", results, "--resume").stdout, one.stdout)

    @pytest.mark.long
    @unittest.skipUnless(HAS_DASK, NO_DASK)
    def test_a_change_of_which_three_workers_die_is_lost_and_the_others_are_told(self):
        """The program of all kills whoever runs it, when it is given the command of one change."""
        path = self.file("program", """#!/usr/bin/python3
import os, signal, subprocess, sys
if sys.argv[1:] != ["converge"]:
    os.execv(%r, sys.argv)
with subprocess.Popen([%r, "converge"], stdin=subprocess.PIPE) as ran:
    for line in sys.stdin.buffer:
        if line == b"fail 1.0.0.1 3.0.0.1\\n":
            os.kill(os.getppid(), signal.SIGKILL)
        ran.stdin.write(line)
        ran.stdin.flush()
""" % ((os.path.realpath(location.program()),) * 2))
        path.chmod(0o755)
        address, _ = self.scheduler()
        for name in "1234":
            self.worker(address, path, name)
        words = (TOOLBOX / "lessons/three-ases.bgp", "--fail-links", "--csv")
        whole = inside("sweep", *words).stdout.splitlines()
        self.wait_for(4)
        with mock.patch.dict(os.environ, PROGRAM=str(path)):
            told = tool("sweep", *words, "--scheduler", address, status=2)
        change = "link 1.0.0.1 and 3.0.0.1"
        self.assertRegex(told.stderr, r"^%s: 3 workers could not do it, at last tcp:\S+: it has gone\n$" % change)
        self.assertEqual([line for line in told.stdout.splitlines() if change not in line],
                         [line for line in whole if change not in line])

    @unittest.skipUnless(HAS_DASK, NO_DASK)
    def test_no_scheduler(self):
        told = tool("sweep", TOOLBOX / "lessons/three-ases.bgp", "--fail-links", "--scheduler", "127.0.0.1:1", status=2)
        self.assertIn("--scheduler 127.0.0.1:1: there is no scheduler", told.stderr)
