"""tools/walk: the functions that a delivery and an edit pass. tools/run-unproved compares them with the document."""
import contextlib
import io
import pathlib
import unittest.mock

from common import Case, program
from simtools import commands, walk

PAGE = ("# A\n\n<!-- tools/walk deliver -->\n```text\nold\n```\n<!-- end -->\n\n"
        "<!-- tools/walk metric -->\n```text\n```\n<!-- end -->\n")


class Walk(Case):
    def test_a_function_stands_once_under_the_one_that_called_it(self):
        way = walk.way_of([(1, "a"), (2, "b"), (2, "b"), (3, "c"), (1, "d"), (1, "a"), (2, "e")])
        self.assertEqual(list(way.lines(3)), ["a", "  b", "    c", "  e", "d"])
        self.assertEqual(list(way.lines(2, "  ")), ["  a", "    b", "    e", "  d"])

    def test_names_are_short(self):
        for symbol, name in (("sim_core::deliveries::message_to_take::<#1ae1>", "sim_core: message_to_take"),
                             ("net_conf::tables::conf_tables::ConfTables::link", "net_conf: ConfTables::link"),
                             ("seq::push_some", "seq: push_some")):
            self.assertEqual(walk.short(symbol), name)

    def test_the_last_line_of_each_script_is_what_it_says(self):
        """The delivery changes the best route, so messages wait; the metric moves a route."""
        for script, question, before, after in (
                (walk.DELIVER, "best 9.0.0.1 10.0.0.0/8", "from 1.0.0.2", "from 2.0.0.1"),
                (walk.METRIC, "best 5.0.0.2 203.0.113.0/24", "from 5.0.0.1", "from 5.0.0.3")):
            lines = script.splitlines()
            self.assertIn(before, program("\n".join([*lines[:-1], question]) + "\n")[-1])
            self.assertIn(after, program("\n".join([*lines, question]) + "\n")[-1])

    def part(self, page, is_written):
        path, told = self.file("engine.md", page), io.StringIO()
        ways = {walk.DELIVER: walk.way_of([(1, "a: b")]), walk.METRIC: walk.way_of([])}
        with unittest.mock.patch.multiple(walk, PAGE=path, TOP=self.folder, traced=lambda _, script: ways[script]):
            with contextlib.redirect_stdout(told):
                status = walk.part(pathlib.Path("program"), is_written)
        return status, told.getvalue(), path.read_text()

    def test_the_document_is_compared_and_written(self):
        self.assertEqual(self.part(PAGE, False), (
            1, "engine.md: the way of `deliver` is another one: run `tools/walk --write`\n1 passed, 1 failed\n", PAGE))
        self.assertEqual(self.part(PAGE, True), (0, "2 passed, 0 failed\n", PAGE.replace("old", "a: b")))
        self.assertEqual(self.part(PAGE.replace("old", "a: b"), False)[:2], (0, "2 passed, 0 failed\n"))
        with self.assertRaisesRegex(commands.Missing, "engine.md has no part `<!-- tools/walk deliver -->`"):
            self.part("# A\n", False)
