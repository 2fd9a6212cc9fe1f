"""The pages for users: each example is run and replies as is shown, and each option and word of the tools is there."""
import doctest
import os
import re
import shutil
import subprocess
import tempfile
import unittest

from bgptools.cli.tools import TOOLS
from bgptools.program import location
from common import PATIENCE, TOP, Case
from pages import KINDS, PAGES, REFERENCE, blocks, examples, pattern
from simtools import language

# What a block that is not run may call: servers that go on until Ctrl-C, what asks for root, a network, a proof or a
# measurement of this machine, and what waits for typing.
NOT_RUN = ("apt-get", "bench/edits", "bench/loads", "cat", "dask-scheduler", "dask-worker", "pip", "prlimit", "sudo",
           "tools/package", "tools/setup", "toolbox/join", "toolbox/lab", "toolbox/play", "toolbox/share",
           "toolbox/sweep", "./bgpsim", "PROGRAM=/path/to/base/crates/bgpsim/out/bgpsim", "PROGRAM=$(./bgpsim")


class Examples(Case):
    """In a folder of its own for each page, so that what a page writes is there for what follows."""

    def ran(self, folder, command):
        surroundings = {**os.environ, "PROGRAM": location.program(), "HOME": folder, "XDG_STATE_HOME": folder,
                        "COLUMNS": "80", "PYTHONDONTWRITEBYTECODE": "1"}
        return subprocess.run(["bash", "-c", "set -o pipefail; " + command], cwd=folder, env=surroundings,
                              stdin=subprocess.DEVNULL, stdout=subprocess.PIPE, stderr=subprocess.STDOUT, timeout=PATIENCE)

    def test_each_command_replies_as_is_shown(self):
        """Exit status 1 says that a tool found something; 2 and more are mistakes."""
        for path in PAGES:
            with tempfile.TemporaryDirectory() as folder:
                for each in TOP.iterdir():
                    os.symlink(str(each), os.path.join(folder, each.name))
                for kind, text in blocks(path):
                    for command, shown in examples(text) if kind == "console" else ():
                        with self.subTest(page=str(path.relative_to(TOP)), command=command):
                            told = self.ran(folder, command)
                            self.assertIn(told.returncode, (0, 1), told.stdout)
                            self.assertRegex(told.stdout.decode(), pattern(shown))

    def test_each_page_of_a_task_and_each_tool_has_an_example(self):
        shown = {path: [each for kind, text in blocks(path) if kind == "console" for each in examples(text)]
                 for path in PAGES}
        for path in PAGES:
            if path.parent.name in ("howto", "tutorial"):
                self.assertTrue(shown[path] or any(kind in ("pycon", "share") for kind, _ in blocks(path)), path)
        called = "\n".join(command for found in shown.values() for command, _ in found)
        # (servers have tests of their own)
        for name in set(TOOLS) - {"share", "join", "lab"}:
            self.assertIn("toolbox/%s " % name, called)

    def test_what_is_not_run_is_little_and_of_few_kinds(self):
        kinds = [(path, kind, text) for path in PAGES for kind, text in blocks(path)]
        self.assertEqual([(str(path), kind) for path, kind, _ in kinds if kind not in KINDS], [])
        of_shell = [text for _, kind, text in kinds if kind == "sh"]
        self.assertLess(len(of_shell), sum(kind == "console" for _, kind, _ in kinds) / 2)
        lines = [line for text in of_shell for line in text.splitlines()]
        self.assertEqual([line for line in lines if line.split(" ")[0] not in NOT_RUN], [])

    def test_no_example_stands_outside_of_a_block(self):
        for path in PAGES:
            text = re.sub(r"(?m)^```.*?^```$", "", path.read_text(), flags=re.S | re.M)
            self.assertNotRegex(text, r"(?m)^(?:    +|> |>>> )?\$ ", str(path))

    def test_examples_in_python(self):
        here = os.getcwd()
        self.addCleanup(os.chdir, here)
        os.chdir(str(TOP))
        found = 0
        for path in PAGES:
            told = doctest.testfile(str(path), module_relative=False) if ">>> " in path.read_text() else None
            self.assertEqual(told.failed if told else 0, 0, str(path))
            found += told.attempted if told else 0
        self.assertGreater(found, 10)


class Comparing(unittest.TestCase):
    def test_what_is_shown_and_what_comes(self):
        for shown, out, fits in (("a\n", "a\n", True), ("a\n", "b\n", False), ("a\n", "a\nb\n", False),
                                 ("..\nb\n", "a\na\nb\n", True), ("a\n..\n", "a\n", True), ("a\n..\n", "b\n", False),
                                 ("a ..\n", "a b c\n", True), ("a ..\nd\n", "a b c\nd\n", True),
                                 ("a.b\n", "axb\n", False), ("a ..\n", "b b c\n", False)):
            self.assertEqual(bool(re.search(pattern(shown), out)), fits, (shown, out))

    def test_commands_of_several_lines(self):
        self.assertEqual(examples("$ cat <<'END' > x\na\n$ b\nEND\n$ cat x\na\n"),
                         [["cat <<'END' > x\na\n$ b\nEND\n", ""], ["cat x\n", "a\n"]])


def sections(page):
    """The text under each heading of a page of the reference."""
    parts = re.split(r"(?m)^## `?(.*?)`?$", (REFERENCE / page).read_text())
    return dict(zip(parts[1::2], parts[2::2]))


def first_cells(text):
    return [row.replace(r"\|", "/") for row in re.findall(r"(?m)^\| ((?:[^|\n]|\\\|)*) \|", text)]


class Options(Case):
    def test_the_options_of_the_program(self):
        text = (REFERENCE / "program.md").read_text()
        for words in (["script"], ["team"], ["replay"], []):
            told = subprocess.run([location.program(), *words, "--help"], capture_output=True, timeout=PATIENCE).stdout
            for option in re.findall(r"(?m)^ +(?:-\w, )?(--[\w-]+)", told.decode()):
                self.assertIn(option, text)
        launcher = (TOP / "bgpsim").read_text()
        for option in re.findall(r"(?m)^#   \./bgpsim (--\w+)", launcher):
            self.assertIn("`./bgpsim %s" % option, text)


class Language(Case):
    """docs/reference/language.md has each command, refusal and reason, and the tour shows each."""

    def test_the_tour_shows_each_command(self):
        commands = {word for cell in first_cells(sections("language.md")["Commands"])
                    for word in re.findall(r"`([a-z]+)", cell)}
        typed = {line.split(" ")[0] for line in (TOP / "examples" / "tour.bgp").read_text().splitlines()
                 if line and not line.startswith("#")}
        self.assertEqual(commands, typed)
        self.assertLessEqual(set(language.REPORTS), typed)

    def test_each_refusal_is_there_and_in_the_tour(self):
        told = (TOP / "examples" / "tour.out").read_text()
        named = re.findall(r"(?m)^\| `(\d+ [\w-]+)`", sections("language.md")["Refusals"])
        self.assertEqual([int(each.split(" ")[0]) for each in named], list(range(1, 21)))
        self.assertEqual([each for each in named if "refused %s\n" % each not in told], ["20 memory"])
        self.assertEqual(set(re.findall(r"(?m)^refused (.*)$", told)) - set(named), set())

    def test_each_reason_is_there_and_in_the_tour(self):
        told = set(re.findall(r"(?m)^(?:[0-9.]+|self) ([a-z]+)$", (TOP / "examples" / "tour.out").read_text()))
        named = set(re.findall(r"(?m)^\| `([a-z]+)` \|", sections("language.md")["Reasons"]))
        self.assertEqual(named | {"best"}, told)


class Lessons(Case):
    def test_each_is_named(self):
        text = "\n".join(path.read_text() for path in PAGES)
        for path in [*(TOP / "examples").rglob("*.bgp"), *(TOP / "toolbox" / "lessons").glob("*.lesson")]:
            self.assertIn(path.stem, text)

    @unittest.skipUnless(shutil.which("dot"), "dot is not installed (apt-get install graphviz)")
    def test_the_picture_is_what_draw_makes(self):
        page = (TOP / "docs" / "howto" / "draw-pictures.md").read_text()
        command = re.search(r"(?ms)^\$ (toolbox/draw [^$]*) -o ring.svg$", page).group(1)
        dot = subprocess.run(["bash", "-c", command], capture_output=True, cwd=str(TOP), timeout=PATIENCE).stdout.decode()
        picture = (TOP / "docs" / "toolbox.svg").read_text()
        found = re.findall(r'"([0-9.]+)" \[label', dot)
        self.assertGreater(len(found), 4)
        for router in found:
            self.assertIn("<title>%s</title>" % router, picture)
