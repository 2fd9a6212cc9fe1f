"""The pages for users: links lead somewhere, lines, sentences and paragraphs are short, and what stands at several
places is the same. test_documents runs their examples."""
import os
import re
import subprocess
import unittest

import pages
from bgptools import __version__
from bgptools.cli.tools import TOOLS
from common import TOP, Case

README = (TOP / "README.md").read_text()
PAGES = (*pages.PAGES, TOP / "CONTRIBUTING.md", TOP / "CHANGELOG.md")
SIZE, COLUMNS, WORDS, LINES = 6144, 100, 25, 5


def prose(path):
    """The text of a page without its blocks of code."""
    return re.sub(r"(?m)^```.*?^```$", "", path.read_text(), flags=re.S | re.M)


def anchors(path):
    """The anchors of a document's headings, as they are made on the forges."""
    heads = re.findall(r"^#+ (.*)$", path.read_text(), re.M)
    return {re.sub(r"[^\w -]", "", head.lower()).replace(" ", "-") for head in heads}


def sentences(text):
    """The sentences of a page: without code, tables, headings and marks of links."""
    text = re.sub(r"(?m)^(?:    |\||#).*$", "", text)
    text = re.sub(r"!?\[([^\]]*)\]\([^)]*\)", r"\1", text)
    text = re.sub(r"`[^`]*`", "code", text)
    return [part for block in re.split(r"\n\n|\n- |\n\d\. ", text) for part in re.split(r"(?<=[.:?;])[*]*\s", block)]


class Readme(Case):
    def test_its_size(self):
        self.assertLessEqual(len(README.encode()), SIZE)

    def test_each_tool_is_named(self):
        for name in TOOLS:
            self.assertRegex(README, r"`(?:toolbox/)?%s`" % name)


class Pages(Case):
    def test_links_lead_somewhere(self):
        dead = []
        for path in PAGES:
            for link in re.findall(r"\]\(([^)]*)\)", prose(path)):
                file, _, anchor = link.partition("#")
                target = path.parent / file if file else path
                is_there = target.exists() and (not anchor or anchor in anchors(target))
                if not link.startswith("http://") and not is_there:
                    dead.append("%s: %s" % (path.relative_to(TOP), link))
        self.assertEqual(dead, [])
        self.assertGreater(len(re.findall(r"\]\(", README)), 15)

    def test_each_page_is_linked_from_the_first_one(self):
        first = TOP / "docs" / "README.md"
        links = re.findall(r"\]\(([^)#]*)", prose(first))
        linked = {(first.parent / link).resolve() for link in links}
        of_users = {path for path in pages.PAGES if path.parent.parent == first.parent}
        self.assertEqual(of_users - linked, set())

    def test_lines_sentences_and_paragraphs_are_short(self):
        for path in PAGES:
            text = prose(path)
            parts = [part.strip() for part in re.split(r"\n\n|\n(?=- |\d\. )", text)]
            with self.subTest(page=str(path.relative_to(TOP))):
                found = [line for line in text.split("\n") if len(line) > COLUMNS and line[:1] not in ("|", "!")]
                found += [each for each in sentences(text) if len(each.split()) > WORDS]
                found += [part for part in parts if part[:1] not in ("|", "#") and part.count("\n") >= LINES]
                self.assertEqual(found, [])

    def test_times_of_builds_stand_at_one_place(self):
        self.assertIn("\n## Builds and the gate\n", (TOP / "bench" / "README.md").read_text())
        for path in PAGES:
            if path.parent.name != "bench":
                self.assertNotRegex(prose(path), r"\d (?:seconds|minutes|hours)", str(path))


class Version(Case):
    def test_it_is_the_same_everywhere(self):
        """The program says it; a release changes all of these."""
        said = {"cases/command-line/version.out": r"\Abgpsim (\S+)\n\Z",
                "crates/command_line/src/lib.rt": r'(?m)^ *\.version\("(.*)"\)$',
                "debian/changelog": r"\Abgpsim \(([^)]*)\)", "CITATION.cff": r"(?m)^version: (\S+)$"}
        found = {name: re.search(pattern, (TOP / name).read_text()) for name, pattern in said.items()}
        self.assertEqual({name: match and match.group(1) for name, match in found.items()}, dict.fromkeys(said, __version__))
        self.assertIn("\n## %s\n" % __version__, (TOP / "CHANGELOG.md").read_text())

    def test_the_licence_is_named_everywhere(self):
        for name, words in (("CITATION.cff", "license: Apache-2.0"), ("debian/copyright", "License: Apache-2.0"),
                            ("README.md", "Apache-2.0"), ("toolbox/pyproject.toml", "Apache Software License")):
            self.assertIn(words, (TOP / name).read_text())

    def test_the_licence_of_the_python_package_is_the_same(self):
        self.assertEqual((TOP / "toolbox" / "LICENSE").read_text(), (TOP / "LICENSE").read_text())

    def test_the_repository_has_no_links(self):
        """The kit's `rt` refuses them."""
        told = subprocess.run(["git", "ls-files", "-s"], cwd=str(TOP), capture_output=True, text=True, check=True).stdout
        self.assertEqual([line for line in told.splitlines() if line.startswith("120000")], [])

    @unittest.skipUnless(os.path.exists("/usr/share/common-licenses/Apache-2.0"), "no licences of Debian")
    def test_the_licence_is_whole(self):
        with open("/usr/share/common-licenses/Apache-2.0", encoding="utf-8") as file:
            self.assertEqual((TOP / "LICENSE").read_text(), file.read())
