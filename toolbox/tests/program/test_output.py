"""-o: a regular file is there whole or not at all, and what is none is written to, never replaced."""
import os
import pty
import resource
import signal
import socket
import stat
import subprocess
import sys
import time

from common import PATIENCE, TOOLBOX, Case, tool

MADE = ("from-as-rel", "toolbox/lessons/relationships.txt")
# Writes a file, and waits before it is in its place.
SLOW = """import os, sys, time
sys.path.insert(0, %r)
from bgptools.program import mistakes, output
def wait(part, target):
    print("here", flush=True)
    time.sleep(600)
os.replace = wait
sys.exit(mistakes.ended(lambda _: output.write("new", %r)))
"""


class Output(Case):
    def setUp(self):
        super().setUp()
        self.wanted = tool(*MADE, status=0).stdout
        self.out = self.folder / "out"

    def names(self):
        """What is in the folder."""
        return sorted(path.name for path in self.folder.iterdir())

    def test_a_new_file_and_an_old_one(self):
        tool(*MADE, "-o", self.out, status=0)
        self.assertEqual(self.out.read_text(), self.wanted)
        self.out.write_text("old")
        self.out.chmod(0o640)
        tool(*MADE, "-o", self.out, status=0)
        self.assertEqual((self.out.read_text(), stat.S_IMODE(self.out.stat().st_mode)), (self.wanted, 0o640))
        self.assertEqual(self.names(), ["out"])

    def test_a_link_stays(self):
        target = self.file("target", "old")
        for name in ("target", "not-there"):
            with self.subTest(name=name):
                link = self.folder / ("to-" + name)
                link.symlink_to(name)
                tool(*MADE, "-o", link, status=0)
                self.assertEqual(os.readlink(link), name)
                self.assertEqual((self.folder / name).read_text(), self.wanted)
        self.assertFalse(target.is_symlink())

    def test_a_fifo_is_written_to(self):
        os.mkfifo(self.out)
        reader = os.open(self.out, os.O_RDONLY | os.O_NONBLOCK)
        self.addCleanup(os.close, reader)
        tool(*MADE, "-o", self.out, status=0)
        self.assertEqual(os.read(reader, 65536).decode(), self.wanted)
        self.assertTrue(stat.S_ISFIFO(self.out.stat().st_mode))
        self.assertEqual(self.names(), ["out"])

    def test_a_device_is_written_to(self):
        main, side = pty.openpty()
        self.addCleanup(os.close, main)
        self.addCleanup(os.close, side)
        tool(*MADE, "-o", os.ttyname(side), status=0)
        self.assertEqual(os.read(main, 65536).decode().replace("\r\n", "\n"), self.wanted)

    def test_a_full_device_is_told_and_stays(self):
        try:
            os.mknod(self.out, stat.S_IFCHR | 0o666, os.makedev(1, 7))
            with open(self.out, "rb"):
                pass
        except OSError:
            # Where no device may be made or opened, a link leads to the system's.
            if self.out.exists():
                self.out.unlink()
            self.out.symlink_to("/dev/full")
        self.assertIn("out: it cannot be written: No space left on device\n", tool(*MADE, "-o", self.out, status=2).stderr)
        self.assertTrue(stat.S_ISCHR(self.out.stat().st_mode))
        self.assertEqual(self.names(), ["out"])

    def test_a_socket_is_written_to(self):
        with socket.socket(socket.AF_UNIX) as listener:
            listener.bind(str(self.out))
            listener.listen()
            listener.settimeout(PATIENCE)
            tool(*MADE, "-o", self.out, status=0)
            with listener.accept()[0] as line:
                self.assertEqual(line.recv(65536).decode(), self.wanted)
        self.assertTrue(stat.S_ISSOCK(self.out.stat().st_mode))

    def test_a_folder_is_a_mistake(self):
        (self.folder / "inner").mkdir()
        for name in ("inner", "none/", "inner/"):
            with self.subTest(name=name):
                self.assertIn("it cannot be written: it is a folder\n", tool(*MADE, "-o", "%s/%s" % (self.folder, name), status=2).stderr)
        self.assertIn("want the name of a file\n", tool(*MADE, "-o", "", status=2).stderr)
        self.assertEqual(self.names(), ["inner"])
        self.assertEqual(list((self.folder / "inner").iterdir()), [])

    def test_standard_output_by_its_path(self):
        self.assertEqual(tool(*MADE, "-o", "/dev/stdout", status=0).stdout, self.wanted)
        self.out.write_text("old\n")
        with open(self.out, "ab") as file:
            subprocess.run([sys.executable, "-B", TOOLBOX / MADE[0], TOOLBOX / "lessons" / "relationships.txt", "-o", "/dev/stdout"], stdout=file, check=True, timeout=PATIENCE)
        self.assertEqual(self.out.read_text(), "old\n" + self.wanted)

    def test_an_open_pipe_by_its_number(self):
        reads, writes = os.pipe()
        self.addCleanup(os.close, reads)
        words = [TOOLBOX / MADE[0], TOOLBOX / "lessons" / "relationships.txt", "-o", "/dev/fd/%d" % writes]
        subprocess.run([sys.executable, "-B", *words], pass_fds=[writes], check=True, timeout=PATIENCE)
        os.close(writes)
        self.assertEqual(os.read(reads, 65536).decode(), self.wanted)

    def test_what_fails_midway_leaves_the_old_file(self):
        self.out.write_text("old")
        words = [sys.executable, "-B", TOOLBOX / MADE[0], TOOLBOX / "lessons" / "relationships.txt", "-o", self.out]
        ran = subprocess.run(words, preexec_fn=lambda: resource.setrlimit(resource.RLIMIT_FSIZE, (100, 100)), capture_output=True, timeout=PATIENCE)
        self.assertEqual((ran.returncode, ran.stderr), (2, b"%s: it cannot be written: File too large\n" % bytes(self.out)))
        self.assertEqual((self.out.read_text(), self.names()), ("old", ["out"]))

    def test_a_signal_midway_leaves_the_old_file(self):
        for number, status in ((signal.SIGTERM, 143), (signal.SIGHUP, 129), (signal.SIGINT, 130)):
            with self.subTest(number=number):
                self.out.write_text("old")
                words = [sys.executable, "-B", "-c", SLOW % (str(TOOLBOX), str(self.out))]
                with subprocess.Popen(words, stdout=subprocess.PIPE, stderr=subprocess.PIPE) as ran:
                    self.assertEqual(ran.stdout.readline(), b"here\n")
                    time.sleep(0.1)
                    ran.send_signal(number)
                    self.assertEqual(ran.wait(PATIENCE), status)
                self.assertEqual((self.out.read_text(), self.names()), ("old", ["out"]))
