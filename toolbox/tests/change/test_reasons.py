"""Reasons that the table of the language does not know: they are told as they stand."""
import os
import subprocess
import sys
import unittest

from common import PATIENCE, TOOLBOX, TOP, Case

from bgptools.program.language_table import EXCLUSIONS, FILTERS
from bgptools.program.reasons import named, reason_text

# A program that gives another word for a reason of `why`.
OTHER = """#!%s
import os, sys
sys.dont_write_bytecode = True
sys.path.insert(0, %r)
os.environ["PROGRAM"] = %r
from bgptools.program.process import Program
inner = Program()
for line in sys.stdin.buffer:
    line = line.decode("latin-1")[:-1]
    reply = inner.request(line)
    if line.startswith("why "):
        reply = [each + "\\n" if each.split(" ")[-1] != %r else each.split(" ")[0] + " frobbed\\n" for each in reply]
    else:
        reply = [each + "\\n" for each in reply]
    print("".join(reply), end="", flush=True)
"""
WHY = "from bgptools import Network\nwith Network.load(%r) as net:\n    print([each.meaning for each in net.why(%r, %r)])\n"


class Unknown(Case):
    def told(self, reason, *words, status=0):
        """What a tool tells where the program has another word for a reason."""
        program = self.file("other", OTHER % (sys.executable, str(TOOLBOX), os.environ["PROGRAM"], reason))
        program.chmod(0o755)
        ran = subprocess.run([sys.executable, "-B", *map(str, words)], capture_output=True, timeout=PATIENCE, cwd=str(TOP),
                             env={**os.environ, "PROGRAM": str(program), "PYTHONPATH": str(TOOLBOX)})
        self.assertEqual((ran.stderr.decode(), ran.returncode), ("", status))
        return ran.stdout.decode()

    def test_an_exclusion(self):
        script = self.file("script", "router 5.0.0.1 5\nvirtual 7.0.0.1 7\nlink 5.0.0.1 7.0.0.1 1\njoin 5.0.0.1 7.0.0.1\n"
                                     "feed 7.0.0.1 5.0.0.1 update 10.0.0.0/8 7,5 igp -\ndeliver 7.0.0.1 5.0.0.1\n")
        told = self.told("loop", "toolbox/explain", script, "5.0.0.1", "10.0.0.0/8")
        self.assertIn("from 7.0.0.1         excluded (frobbed)\n", told)
        self.assertIn("(as received)", told)
        told = self.told("loop", "toolbox/explain", script, "5.0.0.1", "10.0.0.0/8", "--to", "7.0.0.1")
        self.assertIn("  from 7.0.0.1: frobbed\n", told)
        self.assertEqual(self.told("loop", "-c", WHY % (str(script), "5.0.0.1", "10.0.0.0/8")), "['']\n")

    def test_a_filter(self):
        words = "examples/hot-potato.bgp", "5.0.0.2", "203.0.113.0/24"
        self.assertIn("lost (frobbed)\n", self.told("cost", "toolbox/explain", *words))

    def test_the_old_route_of_a_change(self):
        change = self.file("change", "rule 5.0.0.1 7.0.0.1 in any deny\n")
        told = self.told("denied", "toolbox/what-if", "examples/hot-potato.bgp", change, status=1)
        self.assertIn("frobbed", told)
        self.assertNotIn("denied", told)


class Known(unittest.TestCase):
    def test_each_has_a_meaning(self):
        for each in (*EXCLUSIONS, *FILTERS):
            self.assertEqual(named(each.name), "%s: %s" % (each.name, each.meaning))
        self.assertEqual(named("frobbed"), "frobbed")

    def test_med_over_all_neighbours(self):
        self.assertEqual(reason_text("med", True), "another has a lower MED, compared over all neighbours")
        self.assertEqual(reason_text("pref", True), reason_text("pref"))
