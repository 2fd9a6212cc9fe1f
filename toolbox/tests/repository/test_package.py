"""The toolbox as a Python package: its tools by name, where the program is, and what pip installs."""
import ast
import importlib.util
import os
import pathlib
import re
import shutil
import sys
import tempfile
import unittest
import zipfile

from bgptools import __version__
from bgptools.cli.tools import TOOLS, sentence_of
from bgptools.program import location
from common import TOOLBOX, TOP, Case, alone, files_of

SCRIPT = b"""\
router 1.0.0.1 1
router 2.0.0.1 2
link 1.0.0.1 2.0.0.1 1
join 1.0.0.1 2.0.0.1
origin 1.0.0.1 10.0.0.0/8
"""
ASKS = """
from bgptools.program import location
try: print(location.program())
except location.Mistake as fault: print(fault)
"""
DELIVERY = b"deliver 1.0.0.1 2.0.0.1\n"


class Names(Case):
    def test_the_launchers_are_the_tools(self):
        programs = [path for path in TOOLBOX.iterdir() if path.is_file() and os.access(path, os.X_OK)]
        launchers = [path for path in programs if path.name != "launch"]
        self.assertEqual(sorted(path.name for path in launchers), sorted(TOOLS))
        self.assertEqual({path.read_text() for path in launchers}, {(TOOLBOX / "launch").read_text()})
        self.assertEqual([path for path in programs if path.is_symlink()], [])

    def test_without_a_tool_they_are_listed_with_a_sentence_each(self):
        for words in ([], ["--help"]):
            told = alone([sys.executable, "-B", "-m", "bgptools", *words], TOOLBOX)
            self.assertEqual((told.returncode, told.stderr), (0, b""))
            for name in TOOLS:
                self.assertRegex(told.stdout.decode(), r"(?m)^  %s +[A-Z].{20,}\.$" % name)

    def test_a_tool_by_its_name(self):
        told = alone([sys.executable, "-B", "-m", "bgptools", "converge", "-"], TOOLBOX, SCRIPT, PROGRAM=location.program())
        self.assertEqual((told.returncode, told.stdout, told.stderr), (0, SCRIPT + DELIVERY, b""))

    def test_a_tool_is_called_as_it_was_launched(self):
        (self.folder / "bgpsim-converge").symlink_to(TOOLBOX / "launch")
        for words, name in (([TOOLBOX / "converge"], "converge"), ([self.folder / "bgpsim-converge"], "bgpsim-converge"),
                            (["-m", "bgptools", "converge"], "python3 -m bgptools converge")):
            told = alone([sys.executable, "-B", *words], TOOLBOX)
            self.assertEqual(told.returncode, 2)
            self.assertTrue(told.stderr.decode().startswith("usage: %s [-h]" % name), told.stderr)
            self.assertIn("\n%s: error: " % name, told.stderr.decode())

    def test_a_link_of_another_name(self):
        (self.folder / "quiet").symlink_to(TOOLBOX / "converge")
        (self.folder / "again").symlink_to("quiet")
        told = alone([sys.executable, "-B", self.folder / "again", "-"], self.folder, SCRIPT, PROGRAM=location.program())
        self.assertEqual((told.returncode, told.stdout, told.stderr), (0, SCRIPT + DELIVERY, b""))
        told = alone([sys.executable, "-B", TOOLBOX / "launch"], self.folder)
        self.assertEqual((told.returncode, told.stderr[:28]), (2, b"there is no tool `launch`: t"))

    def test_no_such_tool(self):
        told = alone([sys.executable, "-B", "-m", "bgptools", "sette"], TOOLBOX)
        self.assertEqual((told.returncode, told.stdout), (2, b""))
        self.assertRegex(told.stderr, rb"^there is no tool `sette`: there are play, share, ")

    def test_each_module_says_what_its_tool_does(self):
        self.assertEqual([name for name in TOOLS if not sentence_of(name).endswith(".")], [])


class Where(Case):
    def told(self, path="", **more):
        """What a copy of the package in this test's folder says the program is."""
        told = alone([sys.executable, "-B", "-c", ASKS], self.folder, PYTHONPATH=self.folder / path, **more)
        self.assertEqual(told.stderr, b"")
        return told.stdout.decode().rstrip("\n")

    def copied(self, to):
        """The package's files in a folder of the test's."""
        shutil.copytree(TOOLBOX / "bgptools", self.folder / to / "bgptools", ignore=shutil.ignore_patterns("__pycache__"))

    def program_at(self, path):
        """A program that can be run, at this place."""
        self.file(path, "#!/bin/sh\n").chmod(0o755)
        return str(self.folder / path)

    def test_program_first(self):
        self.copied("tree/toolbox")
        self.file("tree/crates.txt", "")
        self.program_at("tree/bgpsim")
        self.assertEqual(self.told("tree/toolbox", PROGRAM="/some/other"), "/some/other")

    def test_of_the_repository(self):
        """The launcher says which it is; test_launcher.py has the rest of that."""
        self.copied("tree/toolbox")
        self.file("tree/crates.txt", "")
        self.file("tree/bgpsim", "#!/bin/sh\necho \"/built/$1\"\n").chmod(0o755)
        self.program_at("bin/bgpsim")
        self.assertEqual(self.told("tree/toolbox", PATH=self.folder / "bin"), "/built/--which")

    def test_beside_the_installed_package_and_else_on_the_path(self):
        self.copied("usr/share/bgpsim")
        other = self.program_at("elsewhere/bgpsim")
        self.assertEqual(self.told("usr/share/bgpsim", PATH=self.folder / "elsewhere"), other)
        self.program_at("usr/bin/bgpsim")
        self.assertEqual(self.told("usr/share/bgpsim", PATH=self.folder / "elsewhere"), other)
        here = self.program_at("usr/lib/bgpsim/bgpsim")
        self.assertEqual(self.told("usr/share/bgpsim", PATH=self.folder / "elsewhere"), here)

    def test_the_launcher_of_a_repository_stands_for_its_program(self):
        """Also for tools that were installed elsewhere: else a program that is built anew would seem to be the old one."""
        self.copied("site")
        self.file("tree/crates.txt", "")
        self.file("tree/bgpsim", "#!/bin/sh\necho \"/built/$1\"\n").chmod(0o755)
        (self.folder / "bin").mkdir()
        (self.folder / "bin/bgpsim").symlink_to("../tree/bgpsim")
        self.assertEqual(self.told("site", PROGRAM=self.folder / "tree/bgpsim"), "/built/--which")
        self.assertEqual(self.told("site", PROGRAM=self.folder / "bin/bgpsim"), "/built/--which")
        self.assertEqual(self.told("site", PATH=self.folder / "bin"), "/built/--which")

    def test_nowhere(self):
        self.copied("site")
        self.assertRegex(self.told("site", PATH=self.folder), "^there is no program `bgpsim` on the PATH: .* PROGRAM=$")


def copy_of_toolbox(folder):
    """A copy of what pip reads of toolbox/, so that pip leaves nothing in the repository."""
    ignored = shutil.ignore_patterns("__pycache__", "tests", "lessons", "build", "*.egg-info")
    return pathlib.Path(shutil.copytree(TOOLBOX, folder / "toolbox", ignore=ignored))


def pip(folder, *words):
    """A run of pip that asks no network and no cache, at a fixed time. What it builds with has to be installed here."""
    call = [sys.executable, "-m", "pip", words[0], "--no-index", "--no-build-isolation", "--no-cache-dir",
            "--disable-pip-version-check", *words[1:]]
    return alone(call, folder, HOME=folder, PATH=os.environ["PATH"], PYTHONDONTWRITEBYTECODE=1, SOURCE_DATE_EPOCH=1700000000)


def extras():
    """What the extras of pyproject.toml need, as the description of a wheel has it: with `-` for `_` in names."""
    table = (TOOLBOX / "pyproject.toml").read_text().partition("[project.optional-dependencies]\n")[2].partition("\n[")[0]
    found = {"%s (%s) ; extra == '%s'" % (name.replace("_", "-"), least, extra)
             for extra, needed in re.findall(r"(?m)^(\w+) = \[(.*)\]$", table)
             for name, least in re.findall(r'"([\w-]+)(>=[\d.]+)"', needed)}
    assert "tornado (>=6.1) ; extra == 'lab'" in found, table
    return found


@unittest.skipUnless(all(map(importlib.util.find_spec, ("pip", "setuptools", "wheel"))), "no setuptools, wheel or pip")
class Pip(Case):
    """The package as pip builds it of toolbox/ with setuptools."""

    @classmethod
    def setUpClass(cls):
        kept = tempfile.TemporaryDirectory()
        cls.addClassCleanup(kept.cleanup)
        cls.sources = copy_of_toolbox(pathlib.Path(kept.name))
        # A subpackage and a folder of data, as they may come.
        (cls.sources / "bgptools" / "sub" / "data").mkdir(parents=True)
        for name in ("__init__.py", "page.html", "data/style.css", "data/table.toml", "data/list.json"):
            (cls.sources / "bgptools" / "sub" / name).write_text("")
        cls.wheels = pathlib.Path(kept.name) / "wheels"
        cls.told = pip(cls.sources, "wheel", "--no-deps", "--wheel-dir", cls.wheels, cls.sources)
        assert cls.told.returncode == 0, cls.told
        [cls.path] = cls.wheels.iterdir()

    def check(self, site):
        """The package that was put into the folder has its tools, away from the repository."""
        called = [sys.executable, "-B", "-m", "bgptools", "converge", "-"]
        told = alone(called, self.folder, SCRIPT, PYTHONPATH=site, PROGRAM=location.program())
        self.assertEqual((told.returncode, told.stdout, told.stderr), (0, SCRIPT + DELIVERY, b""))
        asks = "import bgptools.cli.converge; print(bgptools.cli.converge.__file__)"
        told = alone([sys.executable, "-B", "-c", asks], self.folder, PYTHONPATH=site)
        self.assertEqual(told.stdout.decode(), "%s\n" % (site / "bgptools" / "cli" / "converge.py"))
        asks = ("import sys; from bgptools import Network; "
                "print(Network.from_lines(sys.stdin.read()).converge().deliveries[0].prefix)")
        called = [sys.executable, "-B", "-c", asks]
        told = alone(called, self.folder, SCRIPT, PYTHONPATH=site, PROGRAM=location.program())
        self.assertEqual((told.stdout, told.stderr), (b"10.0.0.0/8\n", b""))

    def test_the_wheel_has_each_file_of_the_package(self):
        self.assertEqual(self.path.name, "bgptools-%s-py3-none-any.whl" % __version__)
        wheel = zipfile.ZipFile(self.path)
        self.assertIsNone(wheel.testzip())
        about = "bgptools-%s.dist-info/" % __version__
        files = {name: wheel.read(name) for name in wheel.namelist() if not name.startswith(about)}
        wanted = files_of(self.sources / "bgptools")
        self.assertLessEqual({"picture/page.html", "sweep/page.html", "web/static/lab.js", "py.typed", "sub/data/style.css"}, set(wanted))
        self.assertEqual(files, {"bgptools/" + name: content for name, content in wanted.items()})
        self.assertEqual(wheel.read(about + "LICENSE"), (TOP / "LICENSE").read_bytes())
        record = wheel.read(about + "RECORD").decode()
        self.assertEqual(sorted(line.split(",")[0] for line in record.splitlines()), sorted(wheel.namelist()))

    def test_what_the_wheel_says(self):
        wheel = zipfile.ZipFile(self.path)
        said = wheel.read("bgptools-%s.dist-info/METADATA" % __version__).decode()
        for line in ("Name: bgptools", "Version: " + __version__, "Requires-Python: >=3.8", "Provides-Extra: lab",
                     "Provides-Extra: prompt",
                     "Classifier: License :: OSI Approved :: Apache Software License"):
            self.assertIn("\n%s\n" % line, said)
        self.assertEqual(set(re.findall("(?m)^Requires-Dist: (.*)$", said)), extras())
        scripts = wheel.read("bgptools-%s.dist-info/entry_points.txt" % __version__).decode()
        lines = {"bgpsim-%s = bgptools.cli.tools:launched" % name for name in TOOLS}
        self.assertEqual(set(filter(None, scripts.split("\n"))), {"[console_scripts]", *lines})

    def test_it_is_installed_and_runs(self):
        site = self.folder / "site"
        told = pip(self.folder, "install", "--target", site, self.sources)
        self.assertEqual(told.returncode, 0, told.stderr)
        self.check(site)
        commands = sorted(path.name for path in (site / "bin").iterdir())
        self.assertEqual(commands, sorted("bgpsim-" + name for name in TOOLS))
        for name in TOOLS:
            told = alone([site / "bin" / ("bgpsim-" + name), "--help"], self.folder, PYTHONPATH=site)
            self.assertTrue(told.stdout.decode().startswith("usage: bgpsim-%s [-h]" % name), told)
        called = [site / "bin" / "bgpsim-converge", "-"]
        told = alone(called, self.folder, SCRIPT, PYTHONPATH=site, PROGRAM=location.program())
        self.assertEqual((told.returncode, told.stdout), (0, SCRIPT + DELIVERY))

    def test_made_twice_it_is_the_same(self):
        told = pip(self.folder, "wheel", "--no-deps", "--wheel-dir", self.folder, self.sources)
        self.assertEqual(told.returncode, 0, told.stderr)
        self.assertEqual((self.folder / self.path.name).read_bytes(), self.path.read_bytes())

    def test_the_sources_make_the_same_wheel(self):
        asks = "import sys; from setuptools import build_meta; build_meta.build_sdist(sys.argv[1])"
        told = alone([sys.executable, "-B", "-c", asks, self.folder], self.sources)
        self.assertEqual(told.returncode, 0, told.stderr)
        packed = self.folder / ("bgptools-%s.tar.gz" % __version__)
        told = pip(self.folder, "wheel", "--no-deps", "--wheel-dir", self.folder / "again", packed)
        self.assertEqual(told.returncode, 0, told.stderr)
        again = zipfile.ZipFile(self.folder / "again" / self.path.name)
        wheel = zipfile.ZipFile(self.path)
        self.assertEqual({name: again.read(name) for name in again.namelist()},
                         {name: wheel.read(name) for name in wheel.namelist()})


class Package(Case):
    def test_its_version_is_the_programs(self):
        self.assertEqual((TOP / "cases" / "command-line" / "version.out").read_text(), "bgpsim %s\n" % __version__)

    def test_each_function_has_its_types(self):
        for path in (TOOLBOX / "bgptools").rglob("*.py"):
            for made in (node for node in ast.walk(ast.parse(path.read_text())) if isinstance(node, ast.FunctionDef)):
                untyped = {word.arg for word in made.args.args + made.args.kwonlyargs if word.annotation is None}
                self.assertEqual(untyped - {"self", "cls"}, set(), "%s:%d" % (path, made.lineno))
                self.assertTrue(made.returns or made.name == "__init__", "%s:%d" % (path, made.lineno))
