"""The documents: lines, sentences, words and links follow the rules of tools/prose; what they show is so."""
import contextlib
import io
import re
import subprocess
import unittest.mock

from common import TOP, Case, program
from simtools import documents, prose

STRICT = documents.documents(documents.STRICT)
# Pages that name files and functions of the repository.
NAMING = [path for path in STRICT if path.parent.name in ("explanation", "contributing")]


class Documents(Case):
    def test_each_follows_the_rules(self):
        self.assertGreater(len(STRICT), 8)
        for path in STRICT:
            with self.subTest(path=path.relative_to(TOP).as_posix()):
                self.assertEqual(prose.findings(path), [])

    def tracked(self, *patterns):
        """The files of the repository, as git knows them."""
        told = subprocess.run(["git", "ls-files", "-z", "--", *patterns], cwd=str(TOP), capture_output=True, check=True)
        return [name for name in told.stdout.decode().split("\0") if name and (TOP / name).exists()]

    def test_each_document_has_to_follow_them(self):
        """But for data of tests, which may have any form."""
        named = {path.relative_to(TOP).as_posix() for path in STRICT}
        self.assertEqual([name for name in self.tracked("*.md") if name not in named and "/tests/data/" not in name], [])

    def test_each_entry_of_the_top_is_explained(self):
        text = (TOP / "CONTRIBUTING.md").read_text()
        table = "".join(re.findall(r"(?m)^\| At the top .*\n(?:\|.*\n)+", text))
        named = {name for row in re.findall(r"(?m)^\| (.*?) \|", table) for name in re.findall(r"`(.*?)`", row)}
        self.assertEqual(named, {name.split("/")[0] for name in self.tracked()})

    def test_each_link_leads_somewhere(self):
        paths = documents.documents(documents.ALL)
        self.assertGreater(sum(len(list(documents.links(path.read_text()))) for path in paths), 100)
        for path in paths:
            with self.subTest(path=path.relative_to(TOP).as_posix()):
                self.assertEqual(list(documents.dead_links(path)), [])

    def test_scripts_reply_as_is_shown(self):
        """A block `bgpsim` has commands, and behind `> ` the replies to each but `ok`."""
        count = 0
        for path in STRICT:
            for block in re.findall(r"(?ms)^```bgpsim\n(.*?)^```", path.read_text()):
                count += 1
                with self.subTest(path=path.name, block=count):
                    lines = block.splitlines()
                    replies = program("".join(line + "\n" for line in lines if not line.startswith("> ")))
                    shown = [line[2:] for line in lines if line.startswith("> ")]
                    self.assertEqual([line for line in replies if line != "ok"], shown)
        self.assertGreater(count, 0)

    def test_what_is_named_is_there(self):
        words = self.words_of_the_repository()
        for path in NAMING:
            with self.subTest(path=path.name):
                text = re.sub(r"(?ms)^```.*?^```", "", path.read_text())
                codes = re.findall(r"`(\w*(?:[_A-Z]|::)[\w:]*)`", text)
                named = {word for code in codes for word in re.findall(r"\w+", code)}
                self.assertEqual(named - words, set())

    def test_each_path_that_is_named_is_there(self):
        """From the top, or in crates/, toolbox/bgptools/, or the crate that its list named last."""
        for path in NAMING:
            crate = TOP
            for code in re.findall(r"`([\w./-]*/[\w./-]*)`", re.sub(r"(?ms)^```.*?^```", "", path.read_text())):
                if (TOP / "crates" / code.split("/")[0]).is_dir():
                    crate = TOP / "crates" / code.split("/")[0]
                places = [TOP, TOP / "crates", TOP / "toolbox/bgptools", crate, *(crate / "src").rglob("*/")]
                with self.subTest(path=path.name, named=code):
                    self.assertTrue(any((place / code).exists() for place in [*places, crate / "src", crate / "specs"])
                                    or re.search(r"\b(?:CRATE|NAME|FILE)\b|^specs/$", code))

    def words_of_the_repository(self):
        """All words of sources, definitions and tools, and the names of files and folders."""
        paths = [path for folder in ("crates", "tools", "toolbox") for path in (TOP / folder).rglob("*")
                 if "out" not in path.parts and "__pycache__" not in path.parts]
        found = {path.stem for path in paths} | {path.name for path in TOP.iterdir()}
        for path in paths:
            if path.suffix in (".rt", ".antt", ".py", ".list"):
                found.update(re.findall(r"\w+", path.read_text()))
        return found | set(re.findall(r"\w+", (TOP / "crates.txt").read_text()))


class Rules(Case):
    def findings(self, text):
        return prose.findings(self.file("page.md", text))

    def test_lines_sentences_and_paragraphs(self):
        long, told_long = "%s\n%s" % ("a " * 20, "a " * 6), "26 words, `a a a a a ..`: make it two sentences"
        for text, told in (
                ("x" * 101 + "\n", "1: 101 columns: break the line at 100"),
                (long + "\n", "1: " + told_long),
                ("- %s\n" % long, "1: " + told_long),
                ("# A\n\n| a | %s |\n" % long.replace("\n", ""), "3: " + told_long),
                ("\n" + "a\n" * 6, "2: a paragraph of 6 lines: make it two, or a list")):
            with self.subTest(told=told):
                self.assertIn(told, self.findings(text))

    def test_what_no_rule_looks_at(self):
        wide = "x" * 101
        for text in ("```\n%s\n```\n" % wide, "    %s\n" % wide, "| %s |\n" % wide,
                     "[a](%s:x)\n" % wide, "<!-- %s -->\n" % wide, "The command `quiet` asks `cells`.\n",
                     "%s:\n%s.\n" % (("a " * 25,) * 2), "- **%s.** %s.\n" % (("a " * 19 + "a",) * 2)):
            with self.subTest(text=text[:30]):
                self.assertEqual(self.findings(text), [])

    def test_words_of_our_own(self):
        for text in ("It settles.", "This is quiet.", "For want of memory.", "a planted bug", "has to be believed",
                     "Storms", "the second machine", "each cell", "the site", "interior cost", "a walk", "the tree",
                     "it was told", "kept back", "decided anew", "spare places", "the room", "it is admitted", "the book",
                     "by lot", "a front of it", "who works", "what it takes", "a look", "since then"):
            with self.subTest(text=text):
                self.assertEqual(len(self.findings(text + "\n")), 1)
        for text in ("in front", "a shortest-path tree", "a table cell", "a web site", "they look at it", "`the room`",
                     "joined by dots", "what an importer takes over", "written anew", "## converge"):
            with self.subTest(text=text):
                self.assertEqual(self.findings(text + "\n"), [])

    def test_links(self):
        self.file("other.md", "# One head\n\n## A `b`: c\n\n# One head\n")
        good = ("[a](other.md) [b](other.md#one-head) [c](other.md#a-b-c) [d](#mine) "
                "[e](https://a.example/b#c)\n\n# Mine\n")
        self.assertEqual(self.findings(good), [])
        told = self.findings("[a](none.md)\n[b](other.md#two)\n[c\nd](#yours)\n`[d](none)`\n\n```\n[e](none)\n```\n")
        self.assertEqual([line.split(":")[0] for line in told], ["1", "2", "4"])

    def test_the_command(self):
        page, told = self.file("page.md", "It settles.\n"), io.StringIO()
        with contextlib.redirect_stdout(told), unittest.mock.patch.object(prose, "TOP", self.folder):
            self.assertEqual(prose.main([str(page)]), 1)
            self.assertEqual(prose.main(["--words", str(page)]), 0)
        self.assertEqual(told.getvalue(), "page.md:1: `settles` in `It settles.`: write converge, converged\n"
                                          "0 passed, 1 failed\n     2 page.md\n     2 in all\n")
