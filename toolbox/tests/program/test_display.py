"""What tools add at a terminal: colours beside the characters of the plain text, and a bar of long work."""
import fcntl
import functools
import io
import os
import pty
import re
import struct
import subprocess
import sys
import termios
import threading
import unittest

import rich.console
import rich.table

from common import PATIENCE, TOOLBOX, TOP, Case, tool

# What sets colours, and nothing else that begins with an escape.
COLOURS = re.compile(r"\x1b\[[0-9;]*m")
DRAINED = "toolbox/lessons/drained-link.bgp"
CALLS = (
    ("play", "toolbox/lessons/refused.bgp"), ("play", "examples/tour.bgp"),
    ("explain", "examples/tour.bgp", "5.0.0.1", "10.6.0.0/16"), ("explain", "examples/tour.bgp", "3.0.0.4", "30.0.0.0/8"),
    ("what-if", DRAINED, "toolbox/lessons/drained-link.change"),
    ("what-if", "examples/lessons/valley-free.bgp", "toolbox/lessons/valley.change"),
    ("converge", "--states", "10", "--at-end", "toolbox/lessons/disagree.bgp"),
    ("sweep", DRAINED, "--fail-links", "--jobs", "1"), ("sweep", "toolbox/lessons/disagree.bgp", "--orders", "6"))
# Lines that would steer a terminal, and bytes that are no text.
STEERING = b"# \xc3\xa9t\xc3\xa9 \x1b]0;title\x07 \x9b2J \xff \xe2\x80\xae\rx\n\x1b[2Jquiet\tx\n"
DOCUMENTS = tuple((*call, "--json") for call in CALLS if call[0] != "play")
# Tells three tasks of four done, a second each, the first of which was done earlier.
WORK = """
import sys, threading, time
sys.path.insert(0, %r)
from bgptools.program import streams
from bgptools.program.progress import Clock
streams.prepare()
now = 0.0
time.monotonic = lambda: now
clock = Clock(4, 1)
for _ in range(3):
    now += 1
    clock.tell()
print("threads", threading.active_count())
clock.end()
""" % str(TOOLBOX)

# Counts without an end, as deliveries do. The library's way starts a thread that draws.
COUNT = """
import sys, threading, time
sys.path.insert(0, %r)
from bgptools.program.output import Progress
now = 0.0
time.monotonic = lambda: now
progress = Progress()
for number in range(3):
    now += 1
    progress.tell("%%d deliveries .." %% number)
print("threads", threading.active_count())
progress.done()
""" % str(TOOLBOX)


def at_terminal(words, width=100, flags=(), errors=None, **environment):
    """What a Python with these words shows at a terminal of this width; `errors` is where standard error goes else."""
    main, side = pty.openpty()
    fcntl.ioctl(side, termios.TIOCSWINSZ, struct.pack("HHHH", 24, width, 0, 0))
    some = {"TERM": "xterm", "PATH": os.environ["PATH"], "LC_ALL": "C.UTF-8", **environment}
    if "PROGRAM" in os.environ:
        some["PROGRAM"] = os.environ["PROGRAM"]
    ran = subprocess.Popen([sys.executable, "-B", *flags, *map(str, words)], stdin=subprocess.DEVNULL, stdout=side,
                           stderr=side if errors is None else errors, cwd=str(TOP), env=some)
    os.close(side)
    told = b""
    try:
        while True:
            told += os.read(main, 65536)
    except OSError:
        # All that had the terminal have ended.
        os.close(main)
    ran.wait(PATIENCE)
    return told.decode().replace("\r\n", "\n")


def shown(call, **more):
    """What a tool writes to a terminal that is its standard output."""
    return at_terminal([TOOLBOX / call[0], *call[1:]], errors=subprocess.DEVNULL, **more)


@functools.lru_cache(maxsize=None)
def plain(call):
    """What it writes to a pipe."""
    return tool(*call).stdout


class Colours(Case):
    def test_the_characters_are_those_of_the_plain_text(self):
        for call in CALLS:
            with self.subTest(call=call):
                told = shown(call)
                self.assertEqual(COLOURS.sub("", told), plain(call))
                self.assertNotEqual(told, plain(call))

    def test_plain_text_where_colours_are_not_wanted_or_not_known(self):
        for more in ({"NO_COLOR": "1"}, {"TERM": "dumb"}, {"TERM": ""}, {"flags": ("-S",)}):
            for call in CALLS[::2]:
                with self.subTest(call=call, more=more):
                    self.assertEqual(shown(call, **more), plain(call))
        self.assertIn("\x1b[", shown(CALLS[0], NO_COLOR=""))

    def test_a_document_has_no_colours(self):
        for call in DOCUMENTS:
            with self.subTest(call=call):
                self.assertEqual(shown(call), plain(call))

    def test_a_file_has_no_colours(self):
        path = self.folder / "out"
        for call in (("sweep", DRAINED, "--fail-links", "--jobs", "1"), CALLS[6]):
            self.assertEqual(shown((*call, "-o", path)), "")
            self.assertEqual(path.read_text(), plain(call))

    def test_which_parts_have_which_colour(self):
        refused = shown(CALLS[0])
        self.assertIn("\n\x1b[31m        refused 9 not-linked\x1b[0m\n\x1b[2m        -- 1.0.0.1 is in AS 1", refused)
        explained = shown(CALLS[2])
        self.assertIn("  from 7.0.0.1         \x1b[32mchosen\x1b[0m\n", explained)
        self.assertIn("\x1b[33mlost by MED\x1b[0m: 10 against 5", explained)
        self.assertIn("\n\x1b[1mSingle points of failure\x1b[0m\n", shown(CALLS[7]))

    def test_text_of_a_file_steers_no_terminal(self):
        path = self.folder / "a.bgp"
        path.write_bytes(STEERING)
        told = COLOURS.sub("", shown(("play", path)))
        self.assertEqual([each for each in told if each != "\n" and not each.isprintable()], [])
        self.assertIn("      # été \\x1b]0;title\\x07 \\x9b2J \\xff \\u202e\\rx\n   2  \\x1b[2Jquiet\\tx\n", told)

    def test_the_name_of_a_file_steers_no_terminal(self):
        path = self.file("a\x1b[2Jb.bgp", (TOP / DRAINED).read_text())
        told = shown(("sweep", path, "--fail-links", "--jobs", "1"))
        self.assertIn("/a\\x1b[2Jb.bgp: 1 single point of failure", told)
        self.assertNotIn("\x1b[2J", told)


class Tables(Case):
    """Why the table of a sweep is laid out without the library."""
    CALL = ("sweep", DRAINED, "--fail-links", "--jobs", "1")
    TITLE = "link 5.0.0.3 and 7.0.0.1"

    def test_a_row_is_a_line_in_any_window_and_without_the_library(self):
        wanted = plain(self.CALL)
        self.assertIn("\n  %s     4            4      0" % self.TITLE, wanted)
        for width in (30, 80, 200):
            self.assertEqual(COLOURS.sub("", shown(self.CALL, width=width)), wanted)
        self.assertEqual(shown(self.CALL, width=30, flags=("-S",)), wanted)

    def test_the_library_breaks_rows_by_the_width_of_the_window(self):
        made = []
        for width in (80, 200):
            grid, file = rich.table.Table(box=None), io.StringIO()
            for title in ("change", "lost", "black holes", "loops", "moved", "captured", "gained", "told", "down", "messages"):
                grid.add_column(title, min_width=len(title), overflow="fold")
            grid.add_row(self.TITLE, *"44000013")
            rich.console.Console(file=file, width=width).print(grid)
            made.append(file.getvalue())
        self.assertNotIn(self.TITLE, made[0])
        self.assertIn(self.TITLE, made[1])


class Bars(unittest.TestCase):
    def test_a_bar_with_what_is_done_and_what_time_is_left(self):
        told = at_terminal(["-c", WORK])
        seen = re.findall(r"[0-9]/4 [0-9:-]+ left", COLOURS.sub("", told))
        self.assertEqual(list(dict.fromkeys(seen)), [
            "1/4 -:--:-- left", "2/4 -:--:-- left", "3/4 0:00:01 left", "4/4 0:00:00 left"])
        # There is no thread, which processes that are forked meanwhile would lack; and nothing of the bar stays.
        self.assertIn("threads 1", told)
        self.assertTrue(told.endswith("\x1b[?25h\r\x1b[1A\x1b[2K"), told)

    def test_in_words_without_the_library_or_at_a_dumb_terminal(self):
        for more in ({"flags": ("-S",)}, {"TERM": "dumb"}):
            told = at_terminal(["-c", WORK], **more)
            self.assertEqual(told, "".join("\r\x1b[K%d of 4, about 0:0%d left" % each for each in ((2, 2), (3, 1), (4, 0)))
                             + "threads 1\n\r\x1b[K")

    def test_without_colours(self):
        told = at_terminal(["-c", WORK], NO_COLOR="1")
        self.assertEqual(re.findall(r"\x1b\[(?:3|4)[0-9;]*m", told), [])
        self.assertIn("4/4", told)

    def test_nothing_at_no_terminal(self):
        ran = subprocess.run([sys.executable, "-B", "-c", WORK], stdout=subprocess.PIPE, stderr=subprocess.PIPE,
                             timeout=PATIENCE, check=True)
        self.assertEqual((ran.stdout, ran.stderr), (b"threads 1\n", b""))

    def test_a_count_without_an_end_starts_no_thread(self):
        wanted = "".join("\r\x1b[K%d deliveries .." % number for number in range(3)) + "threads 1\n\r\x1b[K"
        for flags in ((), ("-S",)):
            self.assertEqual(at_terminal(["-c", COUNT], flags=flags), wanted)
        with rich.console.Console(file=io.StringIO(), force_terminal=True).status("0 deliveries .."):
            self.assertEqual(threading.active_count(), 2)
