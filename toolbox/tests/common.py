"""What the tests share: running a tool or the program, and the scripts that all tools are tried on."""
import contextlib
import functools
import importlib
import io
import os
import pathlib
import shutil
import subprocess
import sys
import tempfile
import unittest

from bgptools.program import libraries, location
from bgptools.program.language import ended
from bgptools.program.mistakes import Mistake
from bgptools.program.process import Program
from bgptools.program.replies import refusal
from bgptools.program.script import lines_of

TOP = pathlib.Path(__file__).resolve().parent.parent.parent
TOOLBOX = TOP / "toolbox"
DATA = TOOLBOX / "tests" / "data"
EXAMPLES = sorted((TOP / "examples").rglob("*.bgp"))
NOBODY = 65534
SCRIPTS = EXAMPLES + sorted((TOP / "cases").rglob("*.bgp"))
# Why no picture is placed here, and the mark of tests that want one.
NO_PICTURES = "neato, networkx or pygraphviz is not installed (tools/setup)"
HAS_PICTURES = bool(shutil.which("neato")) and not any(map(libraries.fault, libraries.EXTRAS["pictures"]))
needs_pictures = unittest.skipUnless(HAS_PICTURES, NO_PICTURES)
# for simtools, which the commands of tools/ are made of
sys.path.append(str(TOP / "tools"))

from simtools.running import PATIENCE  # noqa: E402


def tool(name, *words, given=b"", status=None):
    """A tool's run: its standard output and standard error as text, and its exit status."""
    ran = subprocess.run([sys.executable, "-B", str(TOOLBOX / name), *map(str, words)], input=given, capture_output=True, timeout=PATIENCE, cwd=str(TOP))
    if status is not None and ran.returncode != status:
        raise AssertionError("%s ended with status %d, and not %d:\n%s%s" % (name, ran.returncode, status, ran.stdout.decode("latin-1"), ran.stderr.decode("latin-1")))
    return subprocess.CompletedProcess(ran.args, ran.returncode, ran.stdout.decode("utf-8", "replace"), ran.stderr.decode("utf-8", "replace"))


def inside(name, *words):
    """The same without a process of its own, for many runs."""
    main = importlib.import_module("bgptools.cli." + name.replace("-", "_")).main
    kept, told = (sys.stdout, sys.stderr), (io.TextIOWrapper(io.BytesIO(), "latin-1"), io.StringIO())
    sys.stdout, sys.stderr = told
    try:
        status = main([str(word) for word in words])
    except Mistake as mistake:
        print(mistake, file=sys.stderr)
        status = 2
    finally:
        told[0].flush()
        sys.stdout, sys.stderr = kept
    return subprocess.CompletedProcess(words, status, told[0].buffer.getvalue().decode("latin-1"), told[1].getvalue())


def alone(called, folder, given=b"", **surroundings):
    """A run in a folder, with nothing of this process's surroundings but the variables that are named; outputs are bytes."""
    some = {name: str(value) for name, value in surroundings.items()}
    return subprocess.run(list(map(str, called)), cwd=str(folder), input=given, env=some, capture_output=True, timeout=PATIENCE)


def files_of(folder):
    """The files of a folder, with their bytes, but for what Python keeps of modules that have run."""
    return {path.relative_to(folder).as_posix(): path.read_bytes() for path in folder.rglob("*")
            if path.is_file() and path.parent.name != "__pycache__"}


def program(script):
    """The lines that the program replies to a script."""
    given = script.encode("latin-1") if isinstance(script, str) else script
    ran = subprocess.run([location.program(), "script"], input=given, capture_output=True, timeout=PATIENCE, check=True)
    return ran.stdout.decode("latin-1").split("\n")[:-1]


@functools.lru_cache(maxsize=None)
def marked(content):
    """A script with a mark before each line that is refused; and how many lines of it were refused without one."""
    lines, made, count = lines_of(content, "a script"), [], 0
    with Program() as asked:
        replies = asked.say_all(line.text for line in lines)
    for line, reply in zip(lines, replies):
        count += refusal(reply) > 0 and line.expected is None
        made.append(("# expect refused\n" if refusal(reply) else "") + ended(line.text))
    return "".join(made).encode("latin-1"), count


@contextlib.contextmanager
def refused_something(folder):
    """As a user to whom the system refuses something, which it does not to root: a folder and its files are his."""
    if os.geteuid() != 0:
        yield
        return
    for path in (folder, *folder.iterdir()):
        os.chown(path, NOBODY, NOBODY)
    os.seteuid(NOBODY)
    try:
        yield
    finally:
        os.seteuid(0)


class Case(unittest.TestCase):
    """A test with a folder of its own."""
    maxDiff = None

    def setUp(self):
        folder = tempfile.TemporaryDirectory()
        self.addCleanup(folder.cleanup)
        self.folder = pathlib.Path(folder.name)

    def subTest(self, msg=None, **params):
        """A part of a test, whose parameters are shown as text: pytest-xdist passes on no others."""
        shown = {name: value if isinstance(value, (int, str)) else str(value) for name, value in params.items()}
        return super().subTest(*([] if msg is None else [msg]), **shown)

    def file(self, name, text):
        """A file of this text in the test's folder."""
        path = self.folder / name
        path.parent.mkdir(parents=True, exist_ok=True)
        path.write_text(text)
        return path

    def assert_as_file(self, text, path):
        """The text is the file's; UPDATE=1 writes the file instead."""
        if os.environ.get("UPDATE"):
            path.write_text(text)
        self.assertEqual(path.read_text(), text, "%s: UPDATE=1 writes it anew, if this is right" % path)
