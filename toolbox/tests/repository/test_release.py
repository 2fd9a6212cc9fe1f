"""tools/release: all files that name the version get the new one, or none does."""
import re
import shutil
import unittest.mock

from common import TOP, Case

from simtools import commands, release
from test_tools import command

FILES = [place.path for place in release.PLACES] + ["debian/changelog", "CHANGELOG.md"]


class Released(Case):
    def setUp(self):
        super().setUp()
        for path in FILES:
            (self.folder / path).parent.mkdir(parents=True, exist_ok=True)
            shutil.copy(str(TOP / path), str(self.folder / path))
        patch = unittest.mock.patch.object(release, "TOP", self.folder)
        patch.start()
        self.addCleanup(patch.stop)

    def text(self, path):
        return (self.folder / path).read_text()

    def test_each_file_names_the_new_version(self):
        old = release.version()
        self.assertEqual(release.release("9.8.7"), FILES)
        self.assertEqual(release.version(), "9.8.7")
        for name in ("version", "short-version"):
            self.assertEqual(self.text("cases/command-line/%s.out" % name), "bgpsim 9.8.7\n")
        self.assertRegex(self.text("debian/changelog"), r"\Abgpsim \(9\.8\.7\) unstable; [^\n]*\n\n  \* [^\n]*\n\n -- [^\n]*>  \w{3}, [^\n]* \+0000\n")
        self.assertIn("bgpsim (%s)" % old, self.text("debian/changelog"))
        self.assertIn("\nversion: 9.8.7\n", self.text("CITATION.cff"))
        self.assertIn('__version__ = "9.8.7"', self.text("toolbox/bgptools/__init__.py"))
        headings = re.findall(r"(?m)^## (.*)$", self.text("CHANGELOG.md"))
        self.assertEqual(headings[:3], ["Unreleased", "9.8.7", old])

    def test_what_is_no_later_version_changes_nothing(self):
        before = {path: self.text(path) for path in FILES}
        for version in ("0.0.1", release.version(), "1.2", "01.2.3", "1.2.3-rc", "x"):
            with self.assertRaises(commands.Missing):
                release.release(version)
        (self.folder / "CITATION.cff").write_text("version: none\n")
        before["CITATION.cff"] = "version: none\n"
        with self.assertRaisesRegex(commands.Missing, "CITATION.cff does not name version"):
            release.release("9.8.7")
        self.assertEqual({path: self.text(path) for path in FILES}, before)

    def test_the_command(self):
        ran = command("tools/release", "1.2")
        self.assertEqual((ran.returncode, ran.stderr), (2, "`1.2` is no version: write three numbers, as 0.3.0\n"))
