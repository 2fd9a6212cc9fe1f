"""The table of the command language: all that knows the language agrees with it, and what lacks a made-up command,
refusal or reason is named."""
import subprocess
import sys
import tempfile
import unittest

from common import PATIENCE, TOP, Case

from simtools import definitions, language_crates, language_files, language_table
from simtools.commands import Missing

TABLE = (TOP / "language" / "language.toml").read_text()
COMMAND = """
[[commands]]
spelling = "frobnicate A P"
group = "change"
meaning = "a made-up command"
refusals = ["no-router", "memory"]
reply = "done"
scope = "router"
"""
REFUSAL = """
[[refusals]]
number = 21
name = "frob-full"
meaning = "a made-up refusal"
instead = "nothing"
"""
REASON = """
[[%s]]
name = "frobbed"
meaning = "a made-up reason"
test = "it is made up"
value = "frobs"
short = "frobs"
rfc = "RFC 4271, 9"
"""
WORDS, VERBS = ("crates/command_text/specs/%s.antt" % name for name in ("Words", "Verbs"))
EDITS, REFUSALS = ("crates/net_conf/specs/%s.antt" % name for name in ("Edits", "Refusals"))
DECISION, SELECTION = "crates/reference_machine/specs/Decision.antt", "crates/route_select/specs/Selection.antt"
REPLIES = "crates/reply_text/specs/Replies.antt"
MODEL, RANDOM = "tools/model.py", "tools/simtools/random_scripts.py"
PYTHON = "toolbox/bgptools/"
CALLS, EDITED = PYTHON + "api/commands.py", PYTHON + "network/configuration.py"
SENTENCES, VALUES = PYTHON + "network/refusals.py", PYTHON + "network/selection.py"
MODULE, SCHEMA, PAGE = language_files.MODULE, language_files.SCHEMA, "docs/reference/language.md"
ASKED, ANSWERED = {"cases/*.bgp", "examples/tour.bgp"}, {"cases/*.out", "examples/tour.out"}


class Language(Case):
    def compared(self, text):
        """What tools/language tells of a table with this text, without the last line; and its exit status."""
        with tempfile.TemporaryDirectory() as folder:
            path = TOP.joinpath(folder, "language.toml")
            path.write_text(text)
            ran = subprocess.run([sys.executable, "-B", str(TOP / "tools" / "language"), "--table", str(path)],
                                 capture_output=True, timeout=PATIENCE, cwd=str(TOP))
        self.assertEqual(ran.stderr, b"")
        return ran.stdout.decode().splitlines()[:-1], ran.returncode

    def lacking(self, more, word):
        """The files that lack this word, once the table has a row more."""
        lines, status = self.compared(TABLE + more)
        self.assertEqual(status, 1)
        self.assertTrue(all(word in line for line in lines), [line for line in lines if word not in line])
        self.assertFalse([line for line in lines if "has the" in line])
        return {line.split(":")[0] for line in lines}

    def test_all_that_knows_the_language_agrees(self):
        self.assertEqual(self.compared(TABLE), ([], 0))

    def test_a_command_that_is_missing_anywhere(self):
        self.assertEqual(self.lacking(COMMAND, "frobnicate"), {
            WORDS, VERBS, EDITS, CALLS, EDITED, MODEL, RANDOM, MODULE, SCHEMA, PAGE} | ASKED)

    def test_a_refusal_that_is_missing_anywhere(self):
        lines, _ = self.compared(TABLE + REFUSAL)
        self.assertIn("%s: lacks the refusal `21`" % SENTENCES, lines)
        self.assertIn("%s: lacks the refusal `21 frob-full`" % REFUSALS, lines)
        named = {line.split(":")[0] for line in lines}
        self.assertEqual(named, {REFUSALS, SENTENCES, MODEL, MODULE, SCHEMA, PAGE} | ANSWERED)

    def test_a_reason_that_is_missing_anywhere(self):
        everywhere = {REPLIES, MODEL, MODULE, SCHEMA, PAGE} | ANSWERED
        self.assertEqual(self.lacking(REASON % "exclusions", "frobbed"), everywhere | {DECISION})
        self.assertEqual(self.lacking(REASON % "filters", "frobbed"), everywhere | {SELECTION, VALUES})

    def test_what_the_table_lacks_is_named_too(self):
        without = TABLE.replace("[[commands]]\nspelling = \"quiet\"", "[[commands]]\nspelling = \"silent\"")
        without = without.replace('unseen = ["quiet",', 'unseen = ["silent",')
        lines, _ = self.compared(without)
        for file in (WORDS, VERBS):
            self.assertIn("%s: has the command `quiet`, which the table lacks" % file, lines)
        self.assertIn("%s: has the call `quiet`, which the table lacks" % CALLS, lines)

    def test_other_tests_and_numbers_are_named(self):
        for old, new, told in (
                ('["no-router", "no-link", "memory"]', '["no-router", "memory"]',
                 "%s: has the test of `metric A B M`, `no-link`, which the table lacks" % EDITS),
                ("most = 16384", "most = 16383",
                 "crates/net_conf/specs/Limits.antt: lacks the number of `links`, `16383`"),
                ("high = 65535", "high = 65536",
                 "crates/igp_cost/specs/Metric.antt: lacks the range of `metric`, `1 to 65536`"),
                ("number = 4294967042", "number = 4294967039",
                 "crates/path_attr/specs/Communities.antt: lacks the number of `NO_ADVERTISE`, `4294967039`"),
                ('word = "inc"', 'word = "other"', "crates/sim_event/specs/Wording.antt: lacks the origin `other`"),
                ('one_of = ["yes", "no"]', 'one_of = ["aye", "no"]', "%s: lacks the word of replies `aye`" % REPLIES)):
            with self.subTest(told):
                lines, status = self.compared(TABLE.replace(old, new, 1))
                self.assertIn(told, lines)
                self.assertEqual(status, 1)

    def test_mistakes_of_the_table(self):
        for old, new, told in (
                ('group = "ask"', 'group = "asks"', "there is no group `asks`"),
                ('["no-router", "no-link", "memory"]', '["no-link", "no-router", "memory"]', "not in the order of"),
                ('spelling = "metric A B M"', 'spelling = "metric A B Q"', "there is no word `Q`"),
                ('spelling = "metric A B M"', 'spelling = "router A N"', "`router A N` stands twice in `commands`"),
                ("number = 7\n", "number = 8\n", "the refusals are not numbered from 1 on"),
                ('reply = "trace"', 'reply = "traces"', "there is no reply `traces`"),
                ('opposite = "mend"', 'opposite = "unfail"', "`unfail` of `commands` is no command"),
                ("[[limits]]", "[[limit]]", "there is no part `limits`"), ("[groups]", "[groups", "")):
            with self.subTest(new), tempfile.TemporaryDirectory() as folder:
                path = TOP.joinpath(folder, "language.toml")
                path.write_text(TABLE.replace(old, new))
                with self.assertRaises(Missing) as raised:
                    language_table.read(path)
                self.assertIn(told, str(raised.exception))

    def test_a_table_that_was_changed_is_written(self):
        with tempfile.TemporaryDirectory() as folder:
            top, page = TOP.joinpath(folder), TOP.joinpath(folder, PAGE)
            page.parent.mkdir(parents=True)
            page.write_text("# Language\n\n<!-- made by tools/language: filters -->\nold\n<!-- end -->\n\nlast\n")
            table = language_table.read()
            for name, text in language_files.made(table, top).items():
                top.joinpath(name).parent.mkdir(parents=True, exist_ok=True)
                top.joinpath(name).write_text(text)
            written = page.read_text()
            self.assertIn("| `pref` | a higher preference | RFC 4271, 9.1.2 |", written)
            self.assertTrue(written.startswith("# Language\n\n<!--") and written.endswith("<!-- end -->\n\nlast\n"))
            wrong = language_files.faults(table, top)
            self.assertEqual([line for name in (MODULE, SCHEMA) for line in wrong[name]], [])
            absent = [line for line in wrong[PAGE] if "has the table" in line]
            self.assertEqual(len(absent), len(language_files.tables(table)) - 1)


class Definitions(unittest.TestCase):
    def test_equations(self):
        known = definitions.read("use A.B.{Two as Second}\n-- said\nabbrev pub f : X → Y\nf (One a) = g\n"
                                 "    ++ h -- more\nf (Second b) = record {\n  x = 1;\n}\n")
        self.assertEqual(known.for_variant("f", "One"), "g ++ h")
        self.assertEqual(known.for_variant("f", "Two"), "record { x = 1; }")
        self.assertIsNone(known.for_variant("f", "Three"))

    def test_parts_in_brackets_stay_together(self):
        self.assertEqual(definitions.split("a ∷ f (b ∷ c) ++ []", "∷", "++"), ["a", "f (b ∷ c)", "[]"])

    def test_spellings_in_the_words_of_the_definitions(self):
        words = language_table.read().parts["words"]
        self.assertEqual(language_crates.shape_of("feed V R update P MED [comm=C,..]", words),
                         ("feed", "address", "address", "update", "prefix", "med", "[comm]"))
        self.assertEqual(language_crates.shape_of("self A B on|off", words), ("self", "address", "address", "off|on"))
