"""Each tool tells its help, and docs/bgpsim.1 has no warning. test_documents has the other documents."""
import shutil
import subprocess
import sys
import unittest

from bgptools.cli.tools import TOOLS
from common import PATIENCE, TOP, Case

PAGE = TOP / "docs" / "bgpsim.1"


class Docs(Case):
    def test_each_tool_has_help(self):
        for name in TOOLS:
            ran = subprocess.run([sys.executable, "-B", str(TOP / "toolbox" / name), "--help"], capture_output=True, timeout=PATIENCE)
            self.assertEqual((ran.returncode, ran.stderr), (0, b""))
            self.assertIn(b"usage: %s " % name.encode(), ran.stdout)

    @unittest.skipUnless(shutil.which("man"), "man is not installed")
    def test_the_manual_page_has_no_warning(self):
        ran = subprocess.run(["man", "--warnings", "-l", str(PAGE)], capture_output=True, timeout=PATIENCE)
        self.assertEqual((ran.returncode, ran.stderr), (0, b""))
