"""What pages show of the commands themselves is generated: options, words of a prompt, calls, what a command does."""
import ast
import inspect
import os
import re
import textwrap
import unittest.mock

from bgptools.api.commands import Commands
from bgptools.api.network import Network
from bgptools.cli.prompt import local, shared
from bgptools.cli.tools import TOOLS, parser_of
from common import TOP, Case
from pages import REFERENCE

# Options that all tools have. The page names them once.
OF_ALL = ("-h", "--version")
WIDTH = 100
MADE = "<!-- %s of %s: UPDATE=1 tools/run-toolbox-tests --file reference -->\n```text\n%s```\n"
NAMES = re.compile(r"(?m)^[* ] ((?:tools|bench)/\S+)")
COMMANDS = re.compile(r"(?ms)^(<!-- commands: .*?^```text\n)(.*?)^```\n")
BLOCK = re.compile(r"(?ms)^<!-- (options|words|calls) of ([\w-]+): .*?^```text\n.*?^```\n")


def row(first, words, column):
    """A row of two columns, of which the first may stand in a line of its own."""
    lines = textwrap.wrap(words, WIDTH - column - 1, break_on_hyphens=False)
    start = "%-*s %s" % (column, first, lines.pop(0)) if len(first) <= column else first
    return "".join(line + "\n" for line in [start, *(" " * (column + 1) + line for line in lines)])


def options(name):
    """What `--help` of a tool tells of its options and exit statuses."""
    parser = parser_of(name, name)
    with unittest.mock.patch.dict(os.environ, COLUMNS="1000", NO_COLOR="1"):
        text = parser.format_help()
    told = []
    for title, flags, words in re.findall(r"(?m)^(?:(\w.*):|  (-.*?)(?:  +|\n +)(\S.*))$", text):
        if title and title not in ("positional arguments", "options", "optional arguments"):
            told.append("\n%s:\n" % title)
        if flags and not flags.startswith(OF_ALL):
            told.append(row(flags, words, 22))
    return "".join([*told, "\n", textwrap.fill(parser.epilog, WIDTH, break_on_hyphens=False), "\n"]).lstrip("\n")


def words(name):
    """The words of a prompt beside the commands, as `?` tells them: of `join` those that `play` lacks or that differ."""
    forms = {"play": local.OWN, "join": [form for form in shared.WORDS if form.group == shared.TOGETHER]}[name]
    return "".join(row(form.spelling, form.meaning, 38) for form in forms)


def calls(name):
    """The public methods and properties of a class, in their order, each with the first sentence of what it says."""
    told = []
    for word, member in vars({"Commands": Commands, "Network": Network}[name]).items():
        call = getattr(member, "__func__", getattr(member, "fget", member))
        if word.startswith("_") or not callable(call):
            continue
        signature = inspect.signature(call)
        bare = [each.replace(annotation=each.empty) for each in signature.parameters.values()][1:]
        head = "" if isinstance(member, property) else str(inspect.Signature(bare))
        head = "Network." * isinstance(member, classmethod) + word + head
        if str(signature.return_annotation) not in ("None", '"Network"', "'Network'", "Network"):
            head += " -> %s" % signature.return_annotation
        told.append(row(head, " ".join(inspect.getdoc(call).split("\n\n")[0].split()), 30))
    return "".join(told)


def text_of(path):
    """What a command says of itself: the docstring of its module, or the comment that it begins with."""
    source = path.read_text()
    module = re.search(r"(?m)^from simtools\.(\w+) import main$", source)
    if module:
        source = (TOP / "tools" / "simtools" / (module[1] + ".py")).read_text()
    if source.startswith(("#!/bin/sh", "#!/bin/bash", "#!/usr/bin/env bash")):
        return " ".join(line.lstrip("# ") for line in source.split("\n\n")[0].split("\n")[1:])
    return ast.get_docstring(ast.parse(source))


def commands(listed):
    """The commands of a block, in its order: a mark for those of the gate, and the first sentence of each."""
    gate = {"tools/" + word for word in re.findall(r"[\w.-]+", (TOP / ".ci" / "run").read_text())}
    told = []
    for name in NAMES.findall(listed):
        first = re.split(r"(?<=[.])\s", " ".join(text_of(TOP / name).split("\n\n")[0].split()))[0]
        told.append(row(("* " if name in gate else "  ") + name, first, 31))
    return "".join(told)


class Generated(Case):
    def test_each_block_is_what_the_toolbox_says(self):
        made = {"options": options, "words": words, "calls": calls}
        for name in ("tools.md", "share.md", "python.md"):
            with self.subTest(page=name):
                page = REFERENCE / name
                self.assertRegex(page.read_text(), BLOCK)
                self.assert_as_file(BLOCK.sub(lambda found: MADE % (*found.groups(), made[found[1]](found[2])),
                                              page.read_text()), page)

    def test_each_command_stands_on_the_page_of_its_folder(self):
        """In one block, with what it says."""
        for folder in ("tools", "bench"):
            page = TOP / folder / "README.md"
            with self.subTest(page=folder):
                text = COMMANDS.sub(lambda found: found[1] + commands(found[2]) + "```\n", page.read_text())
                self.assert_as_file(text, page)
                listed = [name for _, block in COMMANDS.findall(text) for name in NAMES.findall(block)]
                there = ["%s/%s" % (folder, path.name) for path in (TOP / folder).iterdir()
                         if path.is_file() and os.access(path, os.X_OK)]
                self.assertEqual(sorted(listed), sorted(there))

    def test_each_tool_has_a_section_with_its_options(self):
        parts = re.split(r"(?m)^## `(.*?)`$", (REFERENCE / "tools.md").read_text())
        self.assertEqual({name: re.findall(r"<!-- options of ([\w-]+):", text)
                          for name, text in zip(parts[1::2], parts[2::2])}, {name: [name] for name in TOOLS})

    def test_rows_of_two_columns(self):
        self.assertEqual(row("a", "b " * 60, 10), "a          %s\n           %s\n" % ("b " * 44 + "b", "b " * 14 + "b"))
        self.assertEqual(row("long", "b c", 2), "long\n   b c\n")
