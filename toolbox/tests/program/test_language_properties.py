"""What holds of every line of the language: values are read as they are written, and the tools find a line malformed
where the program does."""
import unittest

from hypothesis import given, strategies

from bgptools.program import language
from bgptools.program.process import Program
from bgptools.program.replies import refusal
from bgptools.program.script import content_of, lines_of
from strategies import addresses, ases, commands, malformed, many, near, numbers, paths, prefixes, printable

SYNTAX = 1
# Any text of bytes, which a script may have, but the mark of a command that is refused.
texts = strategies.text(strategies.characters(max_codepoint=255, blacklist_characters="\n#"), max_size=40)


class Values(unittest.TestCase):
    @given(numbers, strategies.integers(0, 32))
    def test_addresses_and_prefixes(self, value, length):
        self.assertEqual(language.address(language.show_address(value)), value)
        network = (value >> 32 - length << 32 - length, length)
        self.assertEqual(language.prefix(language.show_prefix(network)), network)
        self.assertEqual(language.prefix("%s/%d" % (language.show_address(value), length)) is not None,
                         network[0] == value)

    @given(prefixes, prefixes)
    def test_a_prefix_contains_another_or_not(self, one, other):
        """By the addresses that they have."""
        (first, length), (second, longer) = language.prefix(one), language.prefix(other)
        has_all = first <= second and second + 2 ** (32 - longer) <= first + 2 ** (32 - length)
        self.assertEqual(language.contains((first, length), (second, longer)), has_all)

    @given(ases, strategies.integers(1, 16), paths)
    def test_an_as_that_is_prepended(self, asn, times, path):
        made = language.in_front(asn, times, path)
        self.assertEqual(language.path_length(made), language.path_length(path) + times)
        self.assertEqual(language.neighbour(made), asn)

    @given(strategies.text(max_size=30))
    def test_what_is_shown_has_nothing_that_a_terminal_obeys(self, text):
        shown = language.escaped(text)
        self.assertIsNone(language.UNSEEN.search(shown))
        self.assertEqual(language.escaped(shown), shown)


class Lines(unittest.TestCase):
    @classmethod
    def setUpClass(cls):
        cls.program = Program()
        cls.addClassCleanup(cls.program.close)

    @many
    @given(commands() | near() | malformed() | strategies.text(printable, max_size=30))
    def test_a_line_is_malformed_where_the_program_says_so(self, line):
        reply = self.program.say(line)
        if language.is_silent(line):
            self.assertEqual(reply, [])
        else:
            self.assertEqual(language.fault(line) is not None, refusal(reply) == SYNTAX, (line, reply))

    @given(commands())
    def test_each_form_is_a_command(self, line):
        self.assertIsNone(language.fault(line))

    @given(strategies.lists(texts | commands() | addresses.map("# name {} x".format), max_size=8))
    def test_lines_of_a_script_are_read_as_they_are_written(self, lines):
        self.assertEqual([line.text for line in lines_of(content_of(lines), "a script")], lines)
