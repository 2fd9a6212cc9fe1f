"""tools/site: the documents as web pages. Each link and anchor leads somewhere; there is search, in light and dark."""
import json
import pathlib
import re
import shutil
import tempfile
import unittest
import unittest.mock

from common import TOP, Case
from simtools import commands, documents, site
from web_pages import dead, pages


@unittest.skipUnless(shutil.which("mkdocs"), "mkdocs is not installed")
class Site(Case):
    @classmethod
    def setUpClass(cls):
        super().setUpClass()
        folder = tempfile.TemporaryDirectory()
        cls.addClassCleanup(folder.cleanup)
        cls.into = pathlib.Path(folder.name).resolve()
        cls.wrong = site.build(cls.into)

    def test_it_is_built_and_has_each_document(self):
        self.assertEqual(self.wrong, [])
        there = {path.relative_to(self.into).as_posix() for path in pages(self.into)}
        for path in documents.documents(("*.md", "docs", "tools/*.md", "cases/*.md", "bench/*.md")):
            name = re.sub("README$", "index", path.relative_to(TOP).with_suffix("").as_posix())
            self.assertIn(name + ".html", there)

    def test_each_link_and_each_anchor_leads_somewhere(self):
        found = pages(self.into)
        self.assertGreater(sum(len(page.targets) for page in found.values()), 1000)
        self.assertEqual(list(dead(found)), [])

    def test_search_and_both_schemes(self):
        index = json.loads((self.into / "search/search_index.json").read_text())
        self.assertGreater(len(index["docs"]), 100)
        self.assertTrue(any("docs/explanation/model" in entry["location"] for entry in index["docs"]))
        home = (self.into / "index.html").read_text()
        self.assertLessEqual({"default", "slate"}, set(re.findall(r'data-md-color-scheme="(\w+)"', home)))


class Staged(Case):
    def test_links_lists_and_blocks(self):
        self.file("docs/a.md", "[b](b.md#x) [c](../cases) [d](../crates) [e](../x.csv) [f](https://a.example)\n\n"
                               "1. one\n   - two\n\n```console elsewhere\n$ a\n   - b\n```\n")
        for name in ("docs/b.md", "cases/README.md", "crates/a/lib.rt", "x.csv"):
            self.file(name, "")
        with unittest.mock.patch.object(site, "TOP", self.folder):
            self.assertEqual(site.staged("docs/a.md"), (
                "[b](b.md#x) [c](../cases/README.md) d [e](../x.csv) [f](https://a.example)\n\n"
                "1. one\n    - two\n\n```console\n$ a\n   - b\n```\n"))
            self.assertEqual(site.files_of("docs/a.md"), {"x.csv"})

    def test_each_kind_has_its_pages_once(self):
        for name in ("README.md", "docs/howto/b.md", "docs/howto/README.md", "docs/explanation/a.md", "docs/old.md"):
            self.file(name, "# The `%s`\n\n# B\n" % name)
        with unittest.mock.patch.object(site, "TOP", self.folder):
            kinds = site.navigation()
            self.assertEqual(kinds[2], {"Explanation": [{"The docs/explanation/a.md": "docs/explanation/a.md"}]})
            self.assertEqual([name for kind in kinds for name in kind], ["Home", "How-to", "Explanation", "More"])
            self.assertEqual(site.names_in(kinds), ["README.md", "docs/howto/README.md", "docs/howto/b.md",
                                                    "docs/explanation/a.md", "docs/old.md"])

    def test_without_mkdocs(self):
        with unittest.mock.patch.object(shutil, "which", lambda name: None):
            with self.assertRaisesRegex(commands.Missing, "mkdocs is not there: `tools/setup` installs it"):
                site.build(self.folder)
