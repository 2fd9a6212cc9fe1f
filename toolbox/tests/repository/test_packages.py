"""The packages of bgptools: each imports from those above it in docs/contributing/toolbox.md alone, and that page names
all of them and no place that is not there."""
import ast
import pathlib
import re
import unittest

from common import TOOLBOX, TOP

PACKAGE = TOOLBOX / "bgptools"
TESTS = TOOLBOX / "tests"
PAGE = (TOP / "docs" / "contributing" / "toolbox.md").read_text()
# What stands above all packages, and imports from any.
TOOLS = "__main__"
# The interface itself: its version may be asked for anywhere, and its names come from packages when they are asked for.
FLAT = "__init__"


def drawn(page):
    """The packages in the order of the page."""
    table = page.partition("## Packages\n")[2].partition("\n## ")[0]
    return re.findall(r"^\| `([a-z.]+)` \|", table, re.M)


def places(page):
    """The paths that the page names."""
    return re.findall(r"`([A-Za-z_.-]+/[^`]*)`", page)


def package_of(path):
    """The package that a module belongs to; `importers` has packages of its own."""
    parts = path.with_suffix("").parts
    depth = 2 if parts[0] == "importers" and len(parts) > 2 else 1
    return ".".join(parts[:depth])


def imports_of(path, text):
    """The modules of bgptools that a module imports, as paths from PACKAGE without an ending; from functions, too."""
    for node in ast.walk(ast.parse(text)):
        if isinstance(node, ast.Import):
            yield from (pathlib.Path(*each.name.split(".")[1:]) for each in node.names
                        if each.name.split(".")[0] == "bgptools")
        elif isinstance(node, ast.ImportFrom) and (node.level or (node.module or "").split(".")[0] == "bgptools"):
            base = path.parents[node.level - 1] if node.level else pathlib.Path()
            words = (node.module or "").split(".") if node.level else node.module.split(".")[1:]
            found = base.joinpath(*filter(None, words))
            yield from (found / each.name for each in node.names)


def target_of(found):
    """The package in which an imported name is: that of a module, or of a name in a module."""
    if (PACKAGE / found).is_dir() or (PACKAGE / found).with_suffix(".py").is_file():
        return package_of(found / "x") if (PACKAGE / found).is_dir() else package_of(found)
    return FLAT if found.parent == pathlib.Path() else target_of(found.parent)


def faults(order, path, text):
    """The imports of a module that are against the order."""
    own = package_of(path)
    if own == TOOLS:
        return []
    allowed = {own, FLAT, "importers"} | set(order[:order.index(own)] if own in order else order if own == FLAT else ())
    return ["%s imports %s" % (path, found) for found in imports_of(path, text) if target_of(found) not in allowed]


class Packages(unittest.TestCase):
    def modules(self):
        return sorted(path.relative_to(PACKAGE) for path in PACKAGE.rglob("*.py"))

    def test_the_page_names_each_package_once(self):
        there = {package_of(path) for path in self.modules() if len(path.parts) > 1} - {"importers"}
        self.assertEqual(sorted(drawn(PAGE)), sorted(there))

    def test_imports_follow_the_order_of_the_page(self):
        order = drawn(PAGE)
        self.assertEqual([fault for path in self.modules()
                          for fault in faults(order, path, (PACKAGE / path).read_text())], [])

    def test_an_import_against_the_order_is_found(self):
        order = drawn(PAGE)
        for name, line, is_well in (
                ("change/report.py", "from ..sweep.table import Table", False),
                ("change/report.py", "def late():\n    from ..sweep import table", False),
                ("change/report.py", "import bgptools.sweep.table", False),
                ("change/report.py", "from bgptools.cli import tools", False),
                ("change/report.py", "from ..program.script import Line", True),
                ("change/report.py", "from . import effect", True),
                ("sweep/cluster.py", "from .. import __version__", True),
                ("importers/bird/rules.py", "from ..common.policy import Rules", True),
                ("importers/common/policy.py", "from ..bird.rules import Evaluation", False)):
            self.assertEqual(faults(order, pathlib.Path(name), line) == [], is_well, (name, line))

    def test_each_place_is_there(self):
        found = places(PAGE)
        self.assertGreater(len(found), 20)
        self.assertEqual([place for place in found if not ((TOP / place).exists() or (PACKAGE / place).exists())], [])

    def test_no_module_stands_beside_the_packages(self):
        self.assertEqual([str(path) for path in self.modules() if len(path.parts) == 1],
                         ["__init__.py", "__main__.py"])

    def test_each_package_has_a_head_of_ten_lines_at_most(self):
        for path in PACKAGE.rglob("__init__.py"):
            head = ast.get_docstring(ast.parse(path.read_text())) or ""
            self.assertTrue(head, path)
            self.assertLessEqual(len(head.split("\n")), 10, path)

    def test_tests_stand_beside_their_subject(self):
        files = sorted(TESTS.rglob("test_*.py"))
        subjects = {package.partition(".")[0] for package in drawn(PAGE)} | {"repository"}
        self.assertLessEqual({path.parent.name for path in files}, subjects)
        self.assertEqual([path for path in files if path.parent.parent != TESTS], [])
        names = [path.name for path in files]
        self.assertEqual(sorted(names), sorted(set(names)))

    def test_no_file_is_too_long(self):
        for path in [*PACKAGE.rglob("*.py"), *TESTS.rglob("*.py")]:
            self.assertLessEqual(len(path.read_text().split("\n")), 801, path)
