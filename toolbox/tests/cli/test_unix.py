"""The tools among other programs: streams that are full or closed, text that would steer a terminal, and the program that they run."""
import gzip
import os
import pty
import signal
import subprocess
import sys
import time

from common import PATIENCE, TOOLBOX, TOP, Case, tool

from bgptools.cli.tools import TOOLS
from bgptools.convergence.run import Run
from bgptools.program.language import escaped, readable
from bgptools.program.mistakes import Mistake
from bgptools.program.names import Names
from bgptools.program.process import Program

SCRIPT = "examples/hijack.bgp"
CALLS = {
    "play": [SCRIPT], "converge": [SCRIPT], "draw": [SCRIPT], "explain": [SCRIPT, "2.0.0.1", "198.51.100.0/24"],
    "compare-live": ["toolbox/lessons/live-bird/answers", "toolbox/lessons/live-bird/net"],
    "check": ["toolbox/lessons/three-ases.bgp"],
    "timeline": [SCRIPT, "198.51.100.0/24", "--router", "2.0.0.1"],
    "what-if": ["toolbox/lessons/drained-link.bgp", "toolbox/lessons/drained-link.change"], "from-frr": ["toolbox/lessons/frr"],
    "from-as-rel": ["toolbox/lessons/relationships.txt"], "from-rib": ["toolbox/lessons/rib.txt"],
    "from-cbgp": ["toolbox/lessons/two-ases.cli"], "from-graph": ["toolbox/lessons/ring.gml"],
    "from-mrt": ["toolbox/lessons/rib.mrt"], "from-bird": ["toolbox/lessons/bird"]}
FULL = "standard output: it cannot be written: No space left on device\n"
CLOSED = "standard output: it cannot be written: Bad file descriptor\n"


def shell(text, given=b""):
    """What a shell's line does, in which `$0` is Python and the tools are in the folder `toolbox`."""
    ran = subprocess.run(["sh", "-c", text.replace("$0", sys.executable + " -B")], input=given, capture_output=True, cwd=str(TOP), timeout=PATIENCE)
    return ran.returncode, ran.stdout.decode(), ran.stderr.decode()


class Streams(Case):
    def each(self):
        """A call of each tool that writes, and one for help."""
        return ["$0 toolbox/" + " ".join([name, *words]) for name, words in [*CALLS.items(), ("converge", ["--help"])]]

    def test_a_full_standard_output(self):
        tools = sorted(TOOLS)
        self.assertLessEqual(set(CALLS), set(tools))
        for call in self.each() + ["$0 toolbox/%s --help" % name for name in tools]:
            with self.subTest(call=call):
                status, _, told = shell(call + " > /dev/full")
                self.assertEqual((status, told.split("\n")[-2] + "\n", told.count("Traceback")), (4, FULL, 0))

    def test_a_closed_standard_output(self):
        for call in self.each():
            with self.subTest(call=call):
                status, _, told = shell(call + " >&-")
                self.assertEqual((status, told.split("\n")[-2] + "\n", told.count("Traceback")), (4, CLOSED, 0))

    def test_a_reader_that_has_gone(self):
        reads, writes = os.pipe()
        os.close(reads)
        self.addCleanup(os.close, writes)
        for call in self.each():
            with self.subTest(call=call):
                ran = subprocess.run(["sh", "-c", call.replace("$0", sys.executable + " -B")], stdout=writes, stderr=subprocess.PIPE, cwd=str(TOP), timeout=PATIENCE)
                self.assertEqual((ran.returncode, b"cannot be written" in ran.stderr, b"Traceback" in ran.stderr), (141, False, False))

    def test_a_closed_or_full_standard_error(self):
        for closed in ("2>&-", "2>/dev/full"):
            with self.subTest(closed=closed):
                self.assertEqual(shell("$0 toolbox/play none.bgp " + closed), (2, "", ""))
                self.assertEqual(shell("$0 toolbox/play --odd " + closed), (2, "", ""))
                self.assertEqual(shell("$0 toolbox/play %s %s" % (SCRIPT, closed))[:2], shell("$0 toolbox/play " + SCRIPT)[:2])
                self.assertEqual(shell("$0 toolbox/converge - " + closed, b"quiet\n# odd\n")[1], "quiet\n# odd\n")
                self.assertEqual(shell("$0 toolbox/play %s >/dev/full %s" % (SCRIPT, closed))[0], 4)

    def test_a_closed_standard_input(self):
        self.assertEqual(shell("$0 toolbox/converge - <&-"), (2, "", "standard input: it cannot be read: Bad file descriptor\n"))

    def test_nothing_is_written_to_a_standard_output_that_is_closed(self):
        for closed in (">&-", "<&- >&- 2>&-"):
            with self.subTest(closed=closed):
                self.assertEqual(shell("$0 toolbox/converge toolbox/lessons/three-ases.bgp -o %s/out %s" % (self.folder, closed)), (0, "", ""))
                self.assertIn("deliver", (self.folder / "out").read_text())
                (self.folder / "out").unlink()


class Escapes(Case):
    MALFORMED = b"# \xc3\xa9t\xc3\xa9 \x1b]0;title\x07 \x9b2J \xff \xe2\x80\xae\rx\n\x1b[2Jquiet\tx\n"
    # The same, where its refused line is meant to be.
    MARKED = MALFORMED.replace(b"\n", b"\n# expect refused 1\n", 1)

    def assert_tame(self, told):
        """Nothing in the text steers a terminal."""
        self.assertEqual([each for each in told if each != "\n" and not each.isprintable()], [])

    def test_play(self):
        told = tool("play", "-", given=self.MALFORMED, status=1).stdout
        self.assert_tame(told)
        self.assertIn("      # été \\x1b]0;title\\x07 \\x9b2J \\xff \\u202e\\rx\n   2  \\x1b[2Jquiet\\tx\n        refused 1 syntax\n", told)

    def test_refused_lines_and_mistakes(self):
        for name in ("converge", "draw"):
            told = tool(name, "-", given=self.MALFORMED)
            self.assertIn("standard input:2: ", told.stderr)
            self.assert_tame(told.stderr)
            self.assertEqual((told.returncode, told.stdout), (2, ""))
        self.assertEqual(tool("converge", "-", given=self.MARKED).stdout.encode("utf-8", "replace")[:10], self.MALFORMED[:10])
        self.assert_tame(tool("play", "no\x1b[2J.bgp", status=2).stderr)
        self.assertIn("no\\x1b[2J.bgp: it cannot be read", tool("play", "no\x1b[2J.bgp", status=2).stderr)
        self.assert_tame(tool("play", "--\x1b[2J", status=2).stderr)

    def test_a_script_at_a_terminal(self):
        main, side = pty.openpty()
        self.addCleanup(os.close, main)
        path = self.folder / "malformed.bgp"
        path.write_bytes(self.MARKED)
        subprocess.run([sys.executable, "-B", str(TOOLBOX / "converge"), str(path)], stdout=side, stderr=subprocess.DEVNULL, timeout=PATIENCE)
        os.close(side)
        told = os.read(main, 4096).decode().replace("\r\n", "\n")
        self.assertIn("# été \\x1b]0;title\\x07 \\x9b2J", told)
        self.assertNotIn("\x1b", told)

    def test_files_from_elsewhere(self):
        for name in ("from-rib", "from-as-rel", "from-cbgp", "from-graph"):
            told = tool(name, "-", given=b"1|\x1b[2J|\xff\xfe|-1\n", status=2)
            self.assert_tame(told.stderr)

    def test_names(self):
        names = Names()
        names.take("# name 1.0.0.1 a\x1b[2J")
        names.take("# name 2.0.0.1 K\xc3\xb6ln")
        self.assertEqual((names.shown("1.0.0.1"), names.shown("2.0.0.1")), ("a\\x1b[2J (1.0.0.1)", "Köln (2.0.0.1)"))
        self.assertEqual(names.address_of("Köln"), "2.0.0.1")
        self.assertEqual(names.in_text("next=2.0.0.1 2.0.0.0/8 12.0.0.1 2.0.0.1,2.0.0.10 `join 2.0.0.1`"),
                         "next=Köln (2.0.0.1) 2.0.0.0/8 12.0.0.1 Köln (2.0.0.1),2.0.0.10 `join 2.0.0.1`")

    def test_text(self):
        self.assertEqual(escaped("a\tb\n\x7f\x85\udcff\u2066", "\n"), "a\\tb\n\\x7f\\x85\\xff\\u2066")
        self.assertEqual(readable("K\xc3\xb6ln \xff"), "Köln \\xff")

    def test_a_locale_without_the_character(self):
        ran = subprocess.run([sys.executable, "-B", str(TOOLBOX / "play"), "-"], input="# Köln 東\n".encode(), capture_output=True, timeout=PATIENCE,
                             env=dict(os.environ, PYTHONIOENCODING="latin-1:strict"))
        self.assertEqual((ran.returncode, ran.stdout.decode("latin-1").split("\n")[0]), (0, "      # Köln \\u6771"))


class Child(Case):
    def test_one_line_is_one_line(self):
        with Run() as run:
            for line in ("quiet\nquiet", "quiet\n", "router 1.0.0.1 1\r\nquiet", "# name 1.0.0.1 y1\nquiet", "\n", "x" * 70000, "# \u20ac"):
                for give in (run.say, run.program.say, lambda text: run.ask(["quiet", text])):
                    with self.subTest(line=line[:20]):
                        self.assertRaises(Mistake, give, line)
            self.assertEqual(run.say("router 1.0.0.1 1"), ["ok"])
            self.assertEqual(run.ask(["quiet", "# one", "quiet\r", "cost 1.0.0.1 1.0.0.1"]), [["yes"], [], ["refused 1 syntax"], ["0 via 1.0.0.1"]])

    def test_a_session_of_its_own(self):
        with Program() as program:
            self.assertEqual(os.getsid(program.process.pid), program.process.pid)

    def test_a_program_that_ends(self):
        for body, how in (("exit 7", "with status 7"), ("kill -9 $$", "by signal 9, Killed")):
            with self.subTest(body=body):
                path = self.file("program", "#!/bin/sh\nread line\necho ok\n%s\n" % body)
                path.chmod(0o755)
                ran = subprocess.run([sys.executable, "-B", str(TOOLBOX / "play"), SCRIPT], env=dict(os.environ, PROGRAM=str(path)), capture_output=True, cwd=str(TOP), timeout=PATIENCE)
                self.assertEqual((ran.returncode, ran.stderr.decode()), (2, "%s: the program ended before it had answered, %s\n" % (path, how)))

    def test_ctrl_c_ends_a_tool_and_its_program(self):
        here = self.folder / "here"
        path = self.file("program", "#!/bin/sh\necho $$ > %s.part; mv %s.part %s\nsleep 600\n" % (here, here, here))
        path.chmod(0o755)
        words = [sys.executable, "-B", str(TOOLBOX / "play"), SCRIPT]
        with subprocess.Popen(words, env=dict(os.environ, PROGRAM=str(path)), stdout=subprocess.DEVNULL, stderr=subprocess.PIPE, cwd=str(TOP)) as ran:
            last = time.monotonic() + PATIENCE
            while not here.exists() and time.monotonic() < last:
                time.sleep(0.01)
            time.sleep(0.1)
            ran.send_signal(signal.SIGINT)
            self.assertEqual((ran.communicate(timeout=PATIENCE)[1], ran.returncode), (b"stopped\n", 130))
        self.assertRaises(ProcessLookupError, os.kill, int(here.read_text()), 0)


class Packed(Case):
    def test_a_packed_file_that_is_damaged(self):
        whole = gzip.compress(b"".join(b"1|%d|-1\n" % asn for asn in range(2, 3000)))
        for name, content in (("cut.gz", whole[:-20]), ("bad.gz", whole[:10] + b"\xff" * 100), ("none.gz", b"1|2|-1\n"), ("bad.bz2", b"BZh9" + bytes(100))):
            with self.subTest(name=name):
                path = self.folder / name
                path.write_bytes(content)
                self.assertIn(name + ": it cannot be read: ", tool("from-as-rel", path, status=2).stderr)
