"""tools/run-toolbox-tests on small files of tests: what it counts, and what ends a run; and which tests conftest.py has
share a worker."""
import contextlib
import io
import os
import pathlib
import shutil
import subprocess
import sys
import unittest.mock

from common import PATIENCE, TOP, Case
from simtools import run_toolbox_tests

# Calls the command on the tests of another folder.
CALL = """import pathlib, sys
sys.path.insert(0, %r)
from simtools import run_toolbox_tests
run_toolbox_tests.TESTS, run_toolbox_tests.PYTHON = pathlib.Path(sys.argv[1]), pathlib.Path("/nowhere")
sys.exit(run_toolbox_tests.main(sys.argv[2:]))
""" % str(TOP / "tools")
PARTS = """import unittest


class Tests(unittest.TestCase):
    def test_parts(self):
        for part in range(3):
            with self.subTest(part=part):
                self.assertEqual(part, 1)

    def test_all(self):
        pass

    @unittest.skip("not here")
    def test_none(self):
        pass
"""
WELL = "def test_%s():\n    pass\n"
ENDS = "import os\n\n\ndef test_it():\n    os._exit(3)\n"
SETS_UP_BADLY = """import unittest


class Tests(unittest.TestCase):
    @classmethod
    def setUpClass(cls):
        raise ValueError("no such thing")

    def test_it(self):
        pass
"""
ONCE = """import os
import pathlib
import unittest


class NAME(unittest.TestCase):
    @classmethod
    def setUpClass(cls):
        pass

    def note(self):
        with pathlib.Path("PATH").open("a") as file:
            file.write("NAME %d\\n" % os.getpid())

    test_1 = test_2 = test_3 = test_4 = test_5 = test_6 = note
"""


class Runs(Case):
    def ran(self, *words, **environment):
        """A run of the tests in the folder: its status, and the lines that it printed."""
        given = {name: value for name, value in os.environ.items()
                 if name not in ("SKIPPED", "VERBOSE") and not name.startswith("PYTEST")}
        given["PYTHONPATH"] = str(TOP / "tools")
        ran = subprocess.run([sys.executable, "-B", "-c", CALL, str(self.folder), *words], capture_output=True,
                             timeout=PATIENCE, cwd=str(self.folder), env={**given, **environment})
        return ran.returncode, ran.stdout.decode().split("\n")[:-1]

    def conftest(self):
        """Has the folder the set-up of all tests."""
        shutil.copy(str(TOP / "toolbox/tests/conftest.py"), str(self.folder))

    def test_a_test_counts_once_however_many_of_its_parts_fail(self):
        self.file("a/test_parts.py", PARTS)
        skipped = "1 skipped: a/test_parts.py::Tests::test_none"
        status, told = self.ran("--file", "parts")
        self.assertEqual((status, told[-2:]), (1, [skipped, "1 passed, 1 failed"]))
        for part in (0, 2):
            self.assertIn("(part=%d)" % part, "\n".join(told))
        self.assertNotIn("(part=1)", "\n".join(told))
        status, told = self.ran("--file", "parts", SKIPPED="fail")
        self.assertEqual((status, told[-2:]), (1, [skipped, "1 passed, 2 failed"]))

    def test_skipped_tests_alone_fail_if_that_is_asked_for(self):
        self.file("a/test_parts.py", PARTS)
        for asked, wanted in (("", (0, "0 passed, 0 failed")), ("fail", (1, "0 passed, 1 failed"))):
            status, told = self.ran("test_none", SKIPPED=asked)
            self.assertEqual((status, told[-1]), wanted)

    def test_all_files_are_counted_together_and_one_that_breaks_off_has_failed(self):
        """A file that cannot be read, a class that is not set up, and a test that ends its process: the others run."""
        self.conftest()
        for name, text in (("one", WELL % "one"), ("two", WELL % "two" + "\n\n" + WELL % "three"), ("ends", ENDS),
                           ("badly", SETS_UP_BADLY)):
            self.file("a/test_%s.py" % name, text)
        self.file("b/test_unread.py", "import no_such_module\n")
        status, told = self.ran()
        self.assertEqual((status, told[-1]), (1, "3 passed, 3 failed"))
        self.assertEqual(told.count("FAILED a/test_ends.py::test_it"), 1)
        self.assertIn("no_such_module", "\n".join(told))

    def test_what_is_run(self):
        self.file("a/test_one.py", WELL % "one")
        self.file("b/test_two.py", WELL % "two" + "\n\n" + WELL % "three")
        for words, count in ((["--file", "two"], 2), (["three"], 1), (["one", "three"], 2),
                             (["--file", "two", "two"], 2), (["--", "--deselect", "a/test_one.py"], 2)):
            status, told = self.ran(*words)
            self.assertEqual((status, told[-1]), (0, "%d passed, 0 failed" % count), words)
        self.assertEqual(self.ran("--file", "three"), (1, ["there is no test_three.py in a folder of toolbox/tests",
                                                           "0 passed, 1 failed"]))
        self.assertEqual(self.ran("gone")[0], 1)
        status, told = self.ran("three", VERBOSE="1")
        self.assertIn("b/test_two.py::test_three PASSED", "\n".join(told))
        self.assertRegex("\n".join(told), "s call +b/test_two.py::test_three")

    def test_mistakes_of_a_call_are_not_hidden(self):
        self.file("a/test_one.py", WELL % "one")
        status, told = self.ran("--", "--no-such-option")
        said = "FAILED pytest ended with status 4, and did not count its tests so"
        self.assertEqual((status, told[-2:]), (1, [said, "0 passed, 1 failed"]))

    def test_the_tests_of_a_class_that_makes_something_once_share_a_worker(self):
        self.conftest()
        pids = self.folder / "pids"
        for name in ("First", "Second", "Third"):
            self.file("a/test_%s.py" % name.lower(), ONCE.replace("NAME", name).replace("PATH", str(pids)))
        status, told = self.ran()
        self.assertEqual((status, told[-1]), (0, "18 passed, 0 failed"))
        found = pids.read_text().split("\n")[:-1]
        self.assertEqual((len(found), len(set(found))), (18, 3))


class Counted(Case):
    def counted(self, status, **ends):
        """What is printed of these ends of tests, and of pytest."""
        counts = run_toolbox_tests.Counts()
        counts.ends.update(ends)
        with contextlib.redirect_stdout(io.StringIO()) as told:
            return run_toolbox_tests.counted(counts, status), told.getvalue().split("\n")[-2]

    def test_how_pytest_ended(self):
        with unittest.mock.patch.dict(os.environ, {"SKIPPED": ""}):
            self.assertEqual(self.counted(0, a="passed"), (0, "1 passed, 0 failed"))
            self.assertEqual(self.counted(1, a="failed", b="passed"), (1, "1 passed, 1 failed"))
            self.assertEqual(self.counted(0, a="skipped"), (0, "0 passed, 0 failed"))
            self.assertEqual(self.counted(5), (1, "0 passed, 0 failed"))
            # Interrupted, an error of its own, and a failure that no test has.
            for status in (2, 3, 1, -11):
                self.assertEqual(self.counted(status, a="passed"), (1, "1 passed, 1 failed"))
            self.assertEqual(self.counted(0, a="failed"), (1, "0 passed, 2 failed"))

    def test_the_tests_start_again_under_the_environment(self):
        python = self.file(".venv/bin/python", "")
        with unittest.mock.patch.object(run_toolbox_tests, "PYTHON", python), \
                unittest.mock.patch.object(os, "execv") as started:
            run_toolbox_tests.restart(["--file", "x"])
            self.assertFalse(started.called)
            python.chmod(0o755)
            with unittest.mock.patch.object(sys, "prefix", str(self.folder / ".venv")):
                run_toolbox_tests.restart(["--file", "x"])
            self.assertFalse(started.called)
            run_toolbox_tests.restart(["--file", "x"])
        called = [str(python), "-B", str(TOP / "tools/run-toolbox-tests"), "--file", "x"]
        started.assert_called_once_with(str(python), called)

    def test_pytest_by_itself_says_that_a_program_is_not_there(self):
        ran = subprocess.run([sys.executable, "-B", "-m", "pytest", "-q", str(pathlib.Path(__file__).parent)],
                             capture_output=True, timeout=PATIENCE, cwd=str(TOP),
                             env={**os.environ, "PROGRAM": "/nowhere/bgpsim"})
        self.assertEqual(ran.returncode, 4)
        self.assertIn("there is no program /nowhere/bgpsim: PROGRAM= names it", ran.stderr.decode())
