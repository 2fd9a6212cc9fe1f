"""The program itself: a standard output that is full, a terminal, files that can be read once."""
import collections
import os
import pty
import re
import subprocess
import threading

from common import PATIENCE, TOP, Case

from bgptools.program import location


class Streams(Case):
    def test_help_and_the_version_that_cannot_be_written(self):
        for words in (["--help"], ["-h"], ["--version"], ["-V"], ["help"], ["script", "--help"], ["help", "team"]):
            with self.subTest(words=words), open("/dev/full", "wb") as full:
                ran = subprocess.run([location.program(), *words], stdin=subprocess.DEVNULL, stdout=full,
                                     stderr=subprocess.PIPE, timeout=PATIENCE, check=False)
                self.assertEqual((ran.returncode, ran.stderr), (4, b"write fault\n"))


WAITING = str(TOP / "cases" / "team" / "waiting.engineer")


class Team(Case):
    def team(self, *words, **more):
        return subprocess.run([location.program(), "team", *words], stdin=subprocess.DEVNULL, stdout=subprocess.PIPE,
                              timeout=PATIENCE, check=False, **more)

    def test_progress_is_shown_at_a_terminal_alone(self):
        ends = pty.openpty()
        try:
            ran = self.team("--workers", "1", WAITING, stderr=ends[1])
            os.write(ends[1], b"end")
            told = b""
            while not told.endswith(b"end"):
                told += os.read(ends[0], 4_096)
        finally:
            for end in ends:
                os.close(end)
        self.assertEqual(ran.returncode, 0)
        self.assertRegex(told, rb"\A(\r\x1b\[K[0-9]+ calls, [0-9]+ messages wait)+\r\x1b\[Kend\Z")
        self.assertTrue(ran.stdout.startswith(b"bgpsim log 2\n"))
        ran = self.team("--workers", "1", WAITING, stderr=subprocess.PIPE)
        self.assertEqual((ran.returncode, ran.stderr), (0, b""))

    def test_each_worker_has_its_seat_and_its_turns(self):
        """Twenty messages wait for the worker of each shard: it delivers one a turn."""
        for workers, turns in ((1, 1), (1, 20), (2, 9), (4, 20)):
            with self.subTest(workers=workers, turns=turns):
                ran = self.team("--workers", str(workers), "--turns", str(turns), WAITING, stderr=subprocess.PIPE)
                self.assertEqual((ran.returncode, ran.stderr), (0, b""))
                calls = collections.Counter(re.findall(rb"^@([0-9]+) deliver ", ran.stdout, re.M))
                self.assertEqual(calls, {b"%d" % seat: turns for seat in range(1, workers + 1)})

    def test_a_file_is_opened_once(self):
        """A pipe gives what was written into it once: who opens it again waits for ever, or reads nothing."""
        pipe = self.folder / "pipe.engineer"
        os.mkfifo(pipe)
        writer = threading.Thread(target=pipe.write_bytes, args=(b"router 1.0.0.1 1\nquiet\n",), daemon=True)
        writer.start()
        ran = self.team("--workers", "1", str(pipe), stderr=subprocess.PIPE)
        writer.join(PATIENCE)
        self.assertEqual((ran.returncode, ran.stderr), (0, b""))
        self.assertEqual(re.findall(rb"^@0 (.*)", ran.stdout, re.M), [b"router 1.0.0.1 1", b"quiet"])
