"""1,000,000 lines: what one run of the program reads, and what tools do where they come near it."""
import contextlib
import io
import os
import subprocess
from unittest import mock

from common import DATA, PATIENCE, TOOLBOX, Case, inside

from bgptools.convergence.run import Run
from bgptools.program import line_count
from bgptools.program.mistakes import Mistake
from bgptools.program.script import read

RING, LESSONS = DATA / "ring.bgp", TOOLBOX / "lessons"


def most(lines):
    """One run reads so many lines."""
    return mock.patch.object(line_count, "MOST_LINES", lines)


class Counted(Case):
    def test_the_program_reads_so_many_lines_and_no_more(self):
        given = b"#\n" * (line_count.MOST_LINES - 1) + b"quiet\n"
        ran = subprocess.run([os.environ["PROGRAM"], "script"], input=given + b"quiet\n", capture_output=True, timeout=PATIENCE)
        self.assertEqual((ran.returncode, ran.stdout), (3, b"yes\n"))

    def test_questions_use_nothing_up(self):
        with most(40), Run() as run:
            run.play(read(str(RING)))
            lines = list(run.lines)
            self.assertLess(len(lines), 40)
            for _ in range(50):
                self.assertEqual([reply[0] for reply in run.ask(["quiet", "best 1.0.0.1 10.1.0.0/16", "cost 1.0.0.1 1.0.0.1"])],
                                 ["no", "10.1.0.0/16 from self path=- origin=igp next=1.0.0.1 med=- pref=100 oid=- clusters=-", "0 via 1.0.0.1"])
            self.assertEqual(run.lines, lines)
            self.assertEqual(run.program.count_of_all - run.program.count > 100, True)

    def test_converge_writes_the_same_where_its_questions_are_too_many(self):
        for words in ((), ("--at-end",)):
            wanted = inside("converge", RING, *words)
            with most(wanted.stdout.count("\n")):
                told = inside("converge", RING, *words)
            self.assertEqual((told.returncode, told.stdout), (0, wanted.stdout))

    def test_what_if_tells_the_same(self):
        words = ("what-if", LESSONS / "three-ases.bgp", LESSONS / "three-ases-fail.change")
        with most(30):
            told = inside(*words)
        self.assertEqual((told.returncode, told.stdout), (1, inside(*words).stdout))

    def test_too_many_deliveries_are_told_and_nothing_is_written(self):
        script = self.file("ring.bgp", RING.read_text() + "# the end\n" * 20)
        given, out = script.read_text().count("\n"), self.file("out.bgp", "kept\n")
        for words, at in (((), given - 20), (("--at-end",), given)):
            with self.subTest(words=words), most(inside("converge", script, *words).stdout.count("\n") - 1):
                told = inside("converge", script, *words, "-o", out)
                self.assertEqual(told.returncode, 2)
                self.assertIn("with the deliveries up to line %d" % at, told.stderr)
        with most(given + 5):
            told = inside("converge", script, "--at-end", "-o", out)
        self.assertEqual(told.returncode, 2)
        self.assertIn("with its deliveries the script has %d lines and more, and one run of the program reads no more" % (given + 5), told.stderr)
        self.assertEqual(out.read_text(), "kept\n")

    def test_it_is_told_before_the_end(self):
        with most(50), Run() as run, contextlib.redirect_stderr(io.StringIO()) as told:
            for number in range(44):
                run.say("router 1.0.0.%d 1" % number)
            self.assertEqual(told.getvalue(), "")
            for number in range(44, 50):
                run.say("router 1.0.0.%d 1" % number)
        self.assertEqual(told.getvalue(), "45 of the 50 lines are used that one script can hold\n")

    def test_more_than_pipes_hold_is_given_while_it_is_answered(self):
        lines = ["router 1.0.0.1 1"] + ["origin 1.0.0.1 10.0.0.0/8", "# name 1.0.0.1 x", "noorigin 1.0.0.1 10.0.0.0/8"] * 20000
        with line_count.CountedProgram() as program:
            program.give(lines)
            self.assertEqual(program.say_all(["routes 1.0.0.1", "quiet"]), [["end 0"], ["yes"]])
            self.assertEqual((program.accepted, program.count), (lines, 60003))

    def test_what_is_given_again_and_refused_or_not_answered(self):
        with line_count.CountedProgram() as program:
            told = "^`origin 1.0.0.1 10.0.0.0/8` was accepted before, and now it is refused 14 origin-exists$"
            with self.assertRaisesRegex(Mistake, told):
                program.give(["router 1.0.0.1 1", "# name 1.0.0.1 x"] + ["origin 1.0.0.1 10.0.0.0/8"] * 2)
        with line_count.CountedProgram() as program:
            program.process.kill()
            with self.assertRaisesRegex(Mistake, "the program ended before it had answered, by signal 9"):
                program.give(["router 1.0.0.1 1"] * 100000)
            self.assertEqual((program.is_torn, program.accepted), (True, []))

    def test_a_script_that_is_too_long_is_told_at_once(self):
        given = RING.read_text().count("\n")
        for words in (("converge", RING), ("explain", RING, "1.0.0.1", "10.1.0.0/16"), ("draw", RING), ("what-if", RING, RING)):
            with self.subTest(words=words), most(given - 1):
                told = inside(*words)
                self.assertEqual((told.returncode, told.stdout), (2, ""))
                self.assertIn("ring.bgp: a script of %d lines; one run of the program reads %d" % (given, given - 1), told.stderr)
