"""What a tool says of a library that is missing (program/libraries.py), and when it starts again under another Python
(cli/interpreter.py)."""
import os
import pty
import re
import shutil
import subprocess
import sys
import unittest.mock

from bgptools.cli import interpreter
from bgptools.program import libraries
from bgptools.program.mistakes import Mistake
from common import DATA, PATIENCE, TOOLBOX, TOP, Case, alone, tool

NEEDS = """
import sys
from bgptools.program import libraries
libraries.EXTRAS = {"lab": ("tornado",)}
try: libraries.need("lab"); print("there")
except libraries.Mistake as fault: print(fault)
"""
# Another Python in the environment: it says how it was called.
PYTHON = "#!/bin/sh\necho \"again $*\"\n"


class Library(Case):
    """Of a copy of the package, run by a Python that sees only the libraries that the test puts beside it."""

    def setUp(self):
        super().setUp()
        self.site = self.folder / "libraries"
        self.site.mkdir()

    def place(self, to):
        """A copy of the package in this folder of the test's, and the folder."""
        shutil.copytree(TOOLBOX / "bgptools", self.folder / to / "bgptools", ignore=shutil.ignore_patterns("__pycache__"))
        return self.folder / to

    def tornado(self, version, folder="libraries", *others):
        """Puts a library tornado of this version, and others of the least that will do, into a folder."""
        least = {name: ".".join(map(str, libraries.LIBRARIES[name].least)) for name in others}
        for name, number in {"tornado": version, **least}.items():
            self.file("%s/%s/__init__.py" % (folder, name), "")
            self.file("%s/%s-%s.dist-info/METADATA" % (folder, name, number), "Name: %s\nVersion: %s\n" % (name, number))

    def told(self, toolbox):
        """What is said where the library is needed. (-S: without the libraries of this machine.)"""
        path = os.pathsep.join([str(toolbox), str(self.site)])
        ran = alone([sys.executable, "-B", "-S", "-c", NEEDS], self.folder, PYTHONPATH=path)
        self.assertEqual(ran.stderr, b"")
        return ran.stdout.decode()

    def test_a_library_that_is_missing(self):
        self.file("tree/tools/setup", "")
        for place, remedy in (("tree/toolbox", "`%s`" % (self.folder / "tree/tools/setup")),
                              ("usr/share/bgpsim", "`apt-get install python3-tornado`"),
                              ("site", "`pip install 'bgptools[lab]'`")):
            said = "this tool needs the Python library tornado 6.1 or later, and %s has none: type %s\n"
            self.assertEqual(self.told(self.place(place)), said % (sys.executable, remedy))

    def test_a_library_that_is_too_old(self):
        self.tornado("6.0.4")
        said = "this tool needs the Python library tornado 6.1 or later, and %s has version 6.0.4: type " % sys.executable
        self.assertTrue(self.told(self.place("site")).startswith(said))

    def test_a_library_that_is_there(self):
        site = self.place("site")
        for version in ("6.1", "6.4.2", "10.0b1"):
            with self.subTest(version=version):
                shutil.rmtree(self.site)
                self.tornado(version)
                self.assertEqual(self.told(site), "there\n")

    def launched(self, name, words=("--help",), flags=("-B",)):
        """A run of a tool of a repository in this test's folder, by a Python without libraries."""
        launcher = self.folder / "tree/toolbox" / name
        shutil.copy(TOOLBOX / "launch", launcher)
        return alone([sys.executable, "-S", *flags, launcher, *words], self.folder, PYTHONPATH=self.site)

    def test_a_tool_starts_again_under_the_environment(self):
        self.file("tree/tools/setup", "")
        self.place("tree/toolbox")
        self.file("tree/.venv/bin/python", PYTHON).chmod(0o755)
        launcher = self.folder / "tree/toolbox/lab"
        told = self.launched("lab", ["a b", "--port", "1"])
        self.assertEqual((told.returncode, told.stdout.decode()), (0, "again -B %s a b --port 1\n" % launcher))
        self.assertEqual(self.launched("lab", ["x"], []).stdout.decode(), "again %s x\n" % launcher)
        called = [sys.executable, "-B", "-S", "-m", "bgptools", "lab", "x"]
        told = alone(called, self.folder, PYTHONPATH=self.folder / "tree/toolbox")
        self.assertEqual((told.stdout, told.stderr), (b"again -B -m bgptools lab x\n", b""))

    def test_a_tool_that_needs_no_library_does_not(self):
        self.file("tree/tools/setup", "")
        self.place("tree/toolbox")
        self.file("tree/.venv/bin/python", PYTHON).chmod(0o755)
        for name in sorted({"play", "converge", "what-if", "draw"} - set(interpreter.TOOLS)):
            self.assertTrue(self.launched(name).stdout.startswith(b"usage: %s " % name.encode()), name)

    def test_a_tool_that_finds_its_library_does_not(self):
        self.file("tree/tools/setup", "")
        self.place("tree/toolbox")
        self.file("tree/.venv/bin/python", PYTHON).chmod(0o755)
        self.tornado("6.2", "libraries", *libraries.PICTURES)
        self.assertTrue(self.launched("lab").stdout.startswith(b"usage: lab "))

    def test_under_the_environment_itself_no_tool_starts_again(self):
        top = self.folder / "tree"
        self.file("tree/tools/setup", "")
        self.file("tree/.venv/bin/python", PYTHON).chmod(0o755)
        with unittest.mock.patch.object(libraries, "HERE", top / "toolbox/bgptools"), \
                unittest.mock.patch.object(sys, "prefix", str(top / ".venv")), \
                unittest.mock.patch.object(libraries, "fault", lambda name: "none"), \
                unittest.mock.patch.object(os, "execv") as started:
            interpreter.restart("lab", ["lab"], [])
            self.assertFalse(started.called)
            self.assertRaises(Mistake, libraries.need, "lab")

    def by_systems_python(self, text):
        """A run of `lab` of a repository without a `.venv`, by a Python without libraries; the system's is this text."""
        self.file("tree/tools/setup", "")
        if not (self.folder / "tree/toolbox").exists():
            self.place("tree/toolbox")
        self.file("systems", text).chmod(0o755)
        module = self.folder / "tree/toolbox/bgptools/cli/interpreter.py"
        source, named = (TOOLBOX / "bgptools/cli/interpreter.py").read_text(), '"/usr/bin/python3"'
        self.assertEqual(source.count(named), 1)
        module.write_text(source.replace(named, repr(str(self.folder / "systems"))))
        return self.launched("lab", [self.file("a b", "")])

    def test_without_an_environment_the_systems_python_runs_it_if_its_library_will_do(self):
        real = "#!/bin/sh\n[ \"$2\" != -c ] || PYTHONPATH=%s exec %s -S \"$@\"\necho \"again $*\"\n"
        system = real % (self.folder / "of-system", sys.executable)
        lab = self.folder / "tree/toolbox/lab"
        for version, is_run in (("6.4", True), ("6.0", False), (None, False)):
            with self.subTest(version=version):
                shutil.rmtree(str(self.folder / "of-system"), ignore_errors=True)
                if version:
                    self.tornado(version, "of-system", *libraries.PICTURES)
                told = self.by_systems_python(system)
                self.assertEqual(told.stdout.decode() == "again -B %s %s/a b\n" % (lab, self.folder), is_run, told)
                if not is_run:
                    said = "this tool needs the Python library tornado 6.1 or later, and "
                    self.assertTrue(told.stderr.decode().startswith(said), told)
        self.assertTrue(self.by_systems_python("#!/none\n").stderr.startswith(b"this tool needs the Python library "))

    def test_each_extra_has_the_libraries_of_its_tools(self):
        text = (TOOLBOX / "pyproject.toml").read_text()
        extras = re.search(r"\[project.optional-dependencies\]\n(.*?)\n\n", text, re.S).group(1)
        least = {name: ".".join(map(str, library.least)) for name, library in libraries.LIBRARIES.items()}
        wanted = {extra: ", ".join('"%s>=%s"' % (name, least[name]) for name in names)
                  for extra, names in libraries.EXTRAS.items()}
        found = dict(re.findall(r"(?m)^(\w+) = \[(.*)\]$", extras))
        # (no tool needs what the tests need)
        self.assertIn("pytest", found.pop("tests"))
        self.assertEqual(found, wanted)
        self.assertEqual({name for names in libraries.EXTRAS.values() for name in names}, set(libraries.LIBRARIES))
        self.assertLessEqual(set(interpreter.TOOLS.values()), set(libraries.EXTRAS))

    def test_options_that_need_a_library_make_a_tool_start_again(self):
        """Text needs none. An option may be spelled as argparse takes it."""
        self.file("tree/tools/setup", "")
        self.place("tree/toolbox")
        self.file("tree/.venv/bin/python", PYTHON).chmod(0o755)
        for name, words in (("draw", ["x", "-o", "y.svg"]), ("draw", ["x", "-oy.svg"]), ("draw", ["x", "--steps"]),
                            ("draw", ["x", "--st"]), ("sweep", ["x", "--scheduler", "tcp://a:1"]),
                            ("sweep", ["x", "--sched=tcp://a:1"])):
            launcher = self.folder / "tree/toolbox" / name
            wanted = "again -B %s\n" % " ".join([str(launcher), *words])
            self.assertEqual(self.launched(name, words).stdout.decode(), wanted)
        for name, words in (("draw", ["none"]), ("sweep", ["none", "--fail-links"])):
            told = self.launched(name, words)
            self.assertIn(b"none: ", told.stderr)
            self.assertNotIn(b"again", told.stdout)

    def test_each_extra_that_is_missing_is_told_in_a_line(self):
        """Status 2, no output, and one line on standard error with what to type."""
        lesson, out = TOOLBOX / "lessons/three-ases.bgp", self.folder / "out.svg"
        for name, words, library in (
                ("draw", [lesson, "-o", out], "networkx 2.4"), ("draw", [lesson, "--steps"], "networkx 2.4"),
                ("sweep", [lesson, "--fail-links", "--scheduler", "tcp://127.0.0.1:1"], "distributed 2022.1"),
                ("lab", [lesson], "tornado 6.1")):
            path = os.pathsep.join([str(self.place(name + str(len(words))))])
            told = alone([sys.executable, "-B", "-S", "-m", "bgptools", name, *words], self.folder, PYTHONPATH=path)
            said = "this tool needs the Python library %s or later, and %s has none: type `pip install 'bgptools[%s]'`\n" % (
                library, sys.executable, interpreter.TOOLS[name])
            self.assertEqual((told.returncode, told.stdout, told.stderr.decode()), (2, b"", said))
            self.assertFalse(out.exists())

    def test_what_reads_files_and_prints_text_needs_python_alone(self):
        """Each answers as with the libraries, by a Python that has none."""
        lesson, change = TOOLBOX / "lessons/three-ases.bgp", self.file("change", "fail 1.0.0.1 2.0.0.1\n")
        for name, *words in (("converge", lesson), ("what-if", lesson, change), ("draw", lesson),
                             ("explain", lesson, "1.0.0.1", "203.0.113.0/24"), ("sweep", lesson, "--fail-links"),
                             ("from-graph", DATA / "graph/abilene.gml"), ("from-mrt", TOOLBOX / "lessons/rib.mrt"),
                             ("from-graph", DATA / "graph/europe.graphml"), ("from-bird", DATA / "bird/ring"),
                             ("from-cbgp", DATA / "cbgp/transit.cli"), ("from-frr", DATA / "frr")):
            with self.subTest(name=name):
                wanted = tool(name, *words)
                told = alone([sys.executable, "-B", "-S", TOOLBOX / name, *words], TOP, **_program())
                self.assertEqual((told.returncode, told.stdout.decode("utf-8", "replace"), told.stderr.decode(
                    "utf-8", "replace")), (wanted.returncode, wanted.stdout, wanted.stderr))
                self.assertTrue(wanted.stdout)

    def test_setup_and_the_package_have_each_library(self):
        setup, control = (TOP / "tools/setup").read_text(), (TOP / "debian/control").read_text()
        for name, library in libraries.LIBRARIES.items():
            self.assertIn("\nlibrary %s %s\n" % (name, library.package), setup)
            self.assertIn("%s (>= %s)" % (library.package, ".".join(map(str, library.least))), control)

    def at_terminal(self, name, *words):
        """What a tool of a repository shows at a terminal, run by a Python without libraries."""
        launcher = self.folder / "tree/toolbox" / name
        shutil.copy(TOOLBOX / "launch", launcher)
        main, side = pty.openpty()
        self.addCleanup(os.close, main)
        subprocess.run([sys.executable, "-S", "-B", str(launcher), *words], stdin=side, stdout=side, stderr=side,
                       env={"TERM": "dumb"}, timeout=PATIENCE)
        os.close(side)
        return os.read(main, 4096).decode().replace("\r", "")

    def test_a_prompt_alone_needs_its_library(self):
        self.file("tree/tools/setup", "")
        toolbox = self.place("tree/toolbox")
        module = toolbox / "bgptools/cli/interpreter.py"
        module.write_text(module.read_text().replace('"/usr/bin/python3"', '"/none"'))
        said = "this tool needs the Python library prompt_toolkit 3.0.28 or later, and %s has none: type `%s`\n" % (
            sys.executable, self.folder / "tree/tools/setup")
        for words in (["play"], ["join", "none", "--as", "a"]):
            self.assertEqual(self.at_terminal(*words), said)
        self.file("tree/.venv/bin/python", PYTHON).chmod(0o755)
        for words in (["play"], ["join", "none"]):
            wanted = "again -B %s\n" % " ".join([str(toolbox / words[0]), *words[1:]])
            self.assertEqual(self.at_terminal(*words), wanted)
            self.assertNotIn(b"again", self.launched(words[0], words[1:]).stdout)


def _program():
    """The variable that names the program of this run, if there is one."""
    return {name: os.environ[name] for name in ("PROGRAM",) if name in os.environ}
