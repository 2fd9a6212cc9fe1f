"""The prompt of play as prompt_toolkit edits it, by real keys at a pseudo-terminal that can move its cursor."""
import os
import re
import stat
import unittest.mock

from bgptools.cli.prompt import editing
from common import PATIENCE, Case
from test_play import NETWORK, AtPrompt, Typed

# What the library writes when a line is about to be typed: pasted text is to be marked.
BEGUN = "\x1b[?2004h"
STEERS = re.compile(r"\x1b\[[0-9;?]*[A-Za-z]")
UP, RIGHT, F1, F7, F8, F9 = b"\x1b[A", b"\x1b[C", b"\x1bOP", b"\x1b[18~", b"\x1b[19~", b"\x1b[20~"


def seen(text):
    """What is shown, without what steers the terminal."""
    return STEERS.sub("", text)


class Keys(AtPrompt):
    def start(self, *words, **environment):
        """A prompt at a terminal that is not dumb."""
        typed = Typed(self.folder, *words, TERM="xterm", PROMPT_TOOLKIT_NO_CPR="1", **environment)
        self.addCleanup(typed.close)
        self.shown = typed.until("bgpsim>")
        return typed

    def type(self, text, typed=None):
        """Types the text; what is shown until the next line can be typed."""
        return seen((typed or self.typed).type(text, BEGUN))

    def network(self, *more):
        for line in NETWORK + more:
            self.assertIn("    ok\n", self.type(line + "\n"))


class Edited(Keys):
    def test_keys_that_edit(self):
        self.assertIn("    yes\n", self.type(b"quiett\x7f\n"))
        self.assertIn("    yes\n", self.type(b"iet\x01qu\n"))
        self.assertIn("    yes\n", self.type(b"quiet nonsense\x17\x7f\n"))
        self.assertNotIn("stopped", self.type(b"quie\x03"))
        self.assertIn("    yes\n", self.type(b"quiet\n"))

    def test_keys_that_step(self):
        self.network()
        self.assertIn("    deliver 1.0.0.1 2.0.0.1: took 10.0.0.0/8 update\n", self.type(F8))
        self.assertIn("    quiet: no message waits\n", self.type(F8))
        self.assertIn("    ok\n", self.type("noorigin 1.0.0.1 10.0.0.0/8\n"))
        self.assertIn("    quiet after 1 delivery\n", self.type(F9))
        self.assertIn("    undone: noorigin 1.0.0.1 10.0.0.0/8\n", self.type(F7))
        self.assertIn("link A B M", self.type(F1))
        self.assertIn("    yes\n", self.type(b"qui" + F8 + F7 + b"et\n"))

    def test_the_command_that_was_meant(self):
        told = "    -- there is no command `rooter`\n    -- did you mean `router`?\n"
        self.assertIn(told, self.type("rooter 1.0.0.1 1\n"))
        self.assertIn("    -- did you mean `converge`?\n", self.type("convrge\n"))
        self.assertNotIn("did you mean", self.type("zzzzzz\n"))
        self.assertNotIn("did you mean", self.type("router 1.0.0.1\n"))

    def test_the_history_of_an_earlier_prompt(self):
        self.assertIn("    ok\n", self.type("router 1.0.0.1 1\n"))
        self.assertIn("no command has", self.type(b"rout\xff\n"))
        self.typed.end()
        path = self.folder / "state" / "bgpsim" / "history"
        self.assertEqual(stat.S_IMODE(path.stat().st_mode), 0o600)
        self.assertIn("\n+router 1.0.0.1 1\n", path.read_text())
        typed = self.start()
        self.assertIn("    ok\n", self.type(UP + UP + b"\n", typed))
        # Its rest is suggested, and taken.
        typed.type("rou", "ter 1.0.0.1 1")
        self.assertIn("    -- 1.0.0.1 is there already", self.type(RIGHT + b"\n", typed))

    def test_a_history_that_is_too_long_loses_its_older_half(self):
        self.typed.end()
        entries = "".join("\n# 2026-01-01\n+origin 1.0.0.1 10.%d.%d.0/24\n" % (n // 250, n % 250) for n in range(30000))
        path = self.file("state/bgpsim/history", entries)
        typed = self.start()
        self.assertIn("origin 1.0.0.1 10.119.249.0/24", self.type(UP + b"\n", typed))
        self.assertLess(path.stat().st_size, 600000)
        self.assertEqual(path.read_text().split("\n")[1], "# 2026-01-01")

    def test_without_a_place_for_the_history_the_prompt_goes_on(self):
        self.typed.end()
        for path in sorted(self.folder.rglob("*"), reverse=True):
            path.rmdir() if path.is_dir() else path.unlink()
        self.file("state", "no folder")
        typed = self.start()
        self.assertIn("    ok\n", self.type("router 1.0.0.1 1\n", typed))
        self.assertIn("there already", self.type(UP + b"\n", typed))

    def test_pasted_lines_are_played_one_by_one(self):
        pasted = "\x1b[200~router 1.0.0.1 1\nrouter 2.0.0.1 2\n\nlink 1.0.0.1 2.0.0.1 1\n\x1b[201~\n"
        shown = self.type(pasted)
        played = "".join("bgpsim> %s\n    ok\n" % line for line in NETWORK[:3])
        self.assertIn(played, shown)
        self.typed.end()

    def test_candidates_are_shown_with_what_they_mean(self):
        os.write(self.typed.main, b"l\t")
        shown = seen(self.typed.until("script into"))
        self.assertRegex(shown, r"link +a new link of cost M")
        self.assertIn("    ok\n", self.type(b"\x7frouter 1.0.0.1 1\n"))


ESCAPE, BLOCK, BEAM = b"\x1b", "\x1b[2 q", "\x1b[6 q"
# A line that is right by the keys of one mode alone: what is missing is put in at its begin.
BY_VI, BY_EMACS = b"uiet" + ESCAPE + b"0iq\n", b"uiet\x01q\n"


class Vi(Keys):
    """With the keys of vi, as the user's file of readline has it."""

    def start(self, *words, **environment):
        (self.folder / ".inputrc").write_text("set bell-style none\nset editing-mode vi\n")
        return super().start(*words, **{"HOME": str(self.folder), "INPUTRC": "", **environment})

    def test_keys_that_edit(self):
        self.assertIn("    yes\n", self.type(BY_VI))
        self.assertIn("    yes\n", self.type(b"quiet nonsense" + ESCAPE + b"bhD\n"))
        self.assertIn("    yes\n", self.type(b"quiettt" + ESCAPE + b"hd$\n"))

    def test_keys_that_step_and_complete(self):
        self.network()
        self.assertIn("    deliver 1.0.0.1 2.0.0.1: took 10.0.0.0/8 update\n", self.type(ESCAPE + F8))
        self.assertIn("    yes\n", self.type(b"quie\t\n"))

    def test_keys_of_the_history(self):
        self.assertIn("    ok\n", self.type("router 1.0.0.1 1\n"))
        self.assertIn("    yes\n", self.type("quiet\n"))
        self.assertIn("there already", self.type(ESCAPE + b"kk\n"))
        self.assertIn("    yes\n", self.type(ESCAPE + b"/qui\n\n"))

    def test_the_cursor_shows_the_mode(self):
        self.assertIn(BEAM, self.shown)
        os.write(self.typed.main, b"quiet" + ESCAPE)
        self.typed.until(BLOCK)

    def test_the_variable_counts_before_the_file(self):
        self.typed.end()
        typed = self.start(BGPSIM_EDITING_MODE="emacs")
        self.assertNotIn(BEAM, self.shown)
        self.assertIn("    yes\n", self.type(BY_EMACS, typed))
        typed.end()
        typed = self.start(HOME="/", BGPSIM_EDITING_MODE="vi")
        self.assertIn("    yes\n", self.type(BY_VI, typed))

    def test_a_word_that_is_no_mode_is_a_mistake(self):
        self.typed.end()
        typed = Typed(self.folder, BGPSIM_EDITING_MODE="vim")
        self.addCleanup(typed.close)
        typed.until("BGPSIM_EDITING_MODE=vim: one of emacs, vi is expected\n")
        self.assertEqual(typed.process.wait(PATIENCE), 2)


class FileOfReadline(Case):
    def mode(self, text, begun="emacs"):
        with unittest.mock.patch.dict(os.environ, TERM="xterm-256color"):
            return editing.mode_of(str(self.file("inputrc", text)), begun)

    def test_lines_as_the_manual_of_readline_has_them(self):
        self.file("more", "set editing-mode vi\n")
        for text, wanted in (
                ("", "emacs"), ("SET Editing-Mode VI\n", "vi"), ("# set editing-mode vi\n", "emacs"),
                ("set editing-mode vi\nset editing-mode emacs\n", "emacs"), ("set editing-mode\nset\n$if\n", "emacs"),
                ("$if bash\nset editing-mode vi\n$endif\n", "emacs"), ("$if BGPsim\nset editing-mode vi\n$endif\n", "vi"),
                ("$if term=xterm\nset editing-mode vi\n$else\nset editing-mode emacs\n$endif", "vi"),
                ("$if term=rxvt\n$if mode=emacs\nset editing-mode vi\n$else\nset editing-mode vi\n$endif\n$endif", "emacs"),
                ("$if mode=vi\n$else\nset editing-mode vi\n$endif\n", "vi"), ("$endif\n$else\nset editing-mode vi", "vi"),
                ("$if version >= 8.0\nset editing-mode vi\n$endif", "emacs"),
                ("$include %s/more\n" % self.folder, "vi"), ("$include %s/none\n" % self.folder, "emacs"),
                ("set editing-mode vi\n$include %s/inputrc\n" % self.folder, "vi")):
            with self.subTest(text=text):
                self.assertEqual(self.mode(text), wanted)
        self.assertEqual(self.mode("set bell-style none\n", "vi"), "vi")

    def test_a_file_that_cannot_be_read_changes_nothing(self):
        for path in (str(self.folder), str(self.folder / "none"), "\0"):
            self.assertEqual(editing.mode_of(path, "emacs"), "emacs")


class Dumb(AtPrompt):
    """At a terminal that cannot move its cursor."""

    def test_candidates_are_listed(self):
        shown = self.typed.type("l\t")
        self.assertIn("link  load\n", shown)
        self.assertIn("    ok\n", self.typed.type("\x7frouter 1.0.0.1 1\n"))

    def test_what_is_deleted_is_taken_away(self):
        self.assertIn("quiett\b \b\bt", self.typed.type("quiett\x7f\n", "yes\n"))
