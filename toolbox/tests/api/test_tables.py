"""Answers as tables: in a notebook, and as data frames whose columns have types."""
import copy
import csv
import dataclasses
import doctest
import html.parser
import importlib.util
import json
import pickle
import sys
import unittest
import xml.etree.ElementTree
from unittest import mock

import bgptools
from bgptools import (
    Delivery, Explanation, InBetween, Link, Message, Mistake, Network, Node, Reason, Route, RouteChange, Sent, Session,
    Converged, Table, Trace, WayChange, read_sweep)
from bgptools.api import tables
from bgptools.api.columns import CATEGORIES
from common import TOOLBOX, TOP, Case, alone, tool

TOUR = TOP / "examples" / "tour.bgp"
DRAINED = TOOLBOX / "lessons" / "drained-link.bgp"
SCHEMAS = TOP / "docs" / "reference" / "schemas"
# The names of routers, in a script's bytes, as somebody would spell them who knows that a page shows them.
MARKUP = ("<script>alert(1)</script>", "\"><img/src=x/onerror=alert(1)>", "&lt;b&gt;'")
ROWS = (Delivery, Explanation, InBetween, Link, Message, Node, Reason, Route, RouteChange, Sent, Session, WayChange)


class Tags(html.parser.HTMLParser):
    """What elements a page has, and what text."""

    def __init__(self, page):
        super().__init__()
        self.tags, self.texts = [], []
        self.feed(page)
        self.close()

    def handle_starttag(self, tag, attrs):
        self.tags.append((tag, attrs))

    def handle_data(self, data):
        self.texts.append(data)


def rows_of(page):
    """The rows of the first table of a page, as texts."""
    body = page.partition("<table>")[2].partition("</table>")[0]
    return [[html.unescape(cell.partition("</t")[0]) for cell in row.replace("<th>", "<td>").split("<td>")[1:]]
            for row in body.split("<tr>")[1:]]


class Rows(Case):
    def test_a_table_is_a_list(self):
        rows = [Node("1.0.0.1", 1, False, None), Node("2.0.0.1", 2, True, "west")]
        table = Table(rows)
        self.assertEqual((table, table[1], table[:1], sorted(table, key=lambda row: -row.asn)),
                         (rows, rows[1], rows[:1], rows[::-1]))
        self.assertIsInstance(table[1:], Table)
        self.assertEqual(table[2:].kind, Node)
        self.assertEqual(json.dumps([dataclasses.astuple(row) for row in table]),
                         '[["1.0.0.1", 1, false, null], ["2.0.0.1", 2, true, "west"]]')
        for made in (copy.copy(table), copy.deepcopy(table), pickle.loads(pickle.dumps(table)),
                     pickle.loads(pickle.dumps(Table([], Node)))):
            self.assertIsInstance(made, Table)
            self.assertEqual(made.kind, Node)
        self.assertEqual(pickle.loads(pickle.dumps(table)), rows)

    def test_each_list_of_the_interface_is_one(self):
        with Network.load(TOUR) as net:
            for found, kind in ((net.nodes(), Node), (net.links(), Link), (net.sessions(), Session), (net.table(), Route),
                                (net.table("99.0.0.0/8"), Route), (net.routes("5.0.0.1"), Route),
                                (net.received("5.0.0.1", "7.0.0.1"), Route), (net.advertised("5.0.0.1", "7.0.0.1"), Route),
                                (net.queue("5.0.0.1", "7.0.0.1"), Message), (net.why("5.0.0.1", "10.3.0.0/16"), Reason),
                                (net.explain("5.0.0.1", "10.3.0.0/16"), Explanation)):
                self.assertIsInstance(found, Table)
                self.assertIs(found.kind, kind)

    def test_rows_of_several_kinds_are_no_table(self):
        for rows in ([Node("1.0.0.1", 1, False, None), Link("1.0.0.1", "2.0.0.1", 1, True)], [1, 2], ["a"]):
            for call in (Table(rows).to_pandas, Table(rows)._repr_html_):
                with self.assertRaisesRegex(Mistake, "^the rows of a table are answers of one kind, as Route, and not "):
                    call()

    def test_an_empty_table_of_no_kind_says_what_to_write(self):
        with self.assertRaisesRegex(Mistake, r"`Table\(\[\], Route\)`"):
            Table([]).to_pandas()
        self.assertEqual(rows_of(Table([])._repr_html_()), [[]])


@unittest.skipUnless(importlib.util.find_spec("pandas"), "pandas is not installed: apt-get install python3-pandas")
class Frames(Case):
    def effect(self):
        """The effect of a change that leaks routes for a while: each table of it has rows, but that of asked packets."""
        with Network.load(TOP / "examples" / "lessons" / "valley-free.bgp") as net:
            net.converge()
            return net.what_if((TOOLBOX / "lessons" / "valley.change").read_text())

    def test_a_frame_has_what_the_program_replies(self):
        with Network.load(TOUR) as net:
            frame = net.table().to_pandas()
            wanted = [line for node in net.nodes() if not node.is_virtual
                      for line in net.run.ask(["routes " + node.address])[0][:-1]]
        text = frame.astype(object).where(frame.notna(), "-").replace("", "-").astype(str)
        found = (text["prefix"] + " from " + text["source"] + " path=" + text["path"] + " origin=" + text["origin"]
                 + " next=" + text["next_hop"] + " med=" + text["med"] + " pref=" + text["preference"]
                 + " oid=" + text["originator"] + " clusters=" + text["clusters"]
                 + text["communities"].map(lambda each: "" if each == "-" else " comms=" + each))
        self.assertEqual(list(found), wanted)
        self.assertGreater(len(wanted), 10)

    def test_each_column_of_each_kind_has_a_type(self):
        known = {name for name in bgptools.__all__ if dataclasses.is_dataclass(getattr(bgptools, name))}
        self.assertEqual(known - {kind.__name__ for kind in ROWS}, {"Cost", "Effect", "Converged", "Trace"})
        for kind in (*ROWS, bgptools.Cost, Trace):
            frame = Table([], kind).to_pandas()
            self.assertEqual({str(each) for each in frame.dtypes} - {"string", "Int64", "boolean", "category"}, set())
            self.assertGreater(len(frame.columns), 2)

    def test_types_stay_where_rows_are_there_and_frames_are_joined(self):
        import pandas
        effect = self.effect()
        for name in ("routes", "told", "forwarding", "loops", "sent", "in_between", "deliveries"):
            table = getattr(effect, name)
            frame, empty = table.to_pandas(), table[:0].to_pandas()
            self.assertEqual(list(frame.dtypes), list(empty.dtypes), name)
            self.assertEqual(list(pandas.concat([frame, frame]).dtypes), list(frame.dtypes))
            self.assertEqual(len(frame), len(table))

    def test_what_is_inside_has_columns_of_its_own(self):
        frame = Table([], InBetween).to_pandas()
        self.assertEqual(list(frame.columns)[:6], [
            "kind", "line", "until", "message_sender", "message_receiver", "message_kind"])
        route = Route("1.0.0.1", "10.0.0.0/8", "self", "-", "igp", "1.0.0.1", None, 100, None, ("1.1.1.1", "2.2.2.2"), (5, 9))
        change = RouteChange("1.0.0.1", "10.0.0.0/8", "gained", None, route, "")
        row = Table([change]).to_pandas().iloc[0]
        self.assertEqual((row["after_clusters"], row["after_communities"], row["after_preference"], row["after_source"]),
                         ("1.1.1.1,2.2.2.2", "5,9", 100, "self"))
        self.assertTrue(row[[name for name in row.index if name.startswith("before_")]].isna().all())
        self.assertNotIn("after_prefix", row.index)
        way = WayChange("1.0.0.1", "10.0.0.1", Trace((), "noroute", "1.0.0.1"), Trace((("1.0.0.1", "10.0.0.0/8"),), "loop", "1.0.0.1"))
        self.assertEqual(Table([way]).to_pandas().iloc[0].to_dict(), {
            "router": "1.0.0.1", "address": "10.0.0.1", "before_routers": "1.0.0.1", "before_end": "noroute",
            "before_place": "1.0.0.1", "after_routers": "1.0.0.1,1.0.0.1", "after_end": "loop", "after_place": "1.0.0.1"})

    def test_categories_are_those_of_the_schemas(self):
        def known(name, *path):
            found = json.loads((SCHEMAS / name).read_text())
            for part in path:
                found = found[part]
            return set(found["enum"])
        language, values = json.loads((SCHEMAS / "language.json").read_text())["definitions"], "values.json"
        wanted = {"origin": set(language["origin"]["enum"]), "reason": set(language["reason"]["enum"]),
                  "end": known(values, "definitions", "trace", "properties", "end")}
        kinds = {"Delivery": known(values, "definitions", "kind"), "Message": known(values, "definitions", "kind"),
                 "RouteChange": known("what-if.json", "definitions", "route_change", "properties", "kind"),
                 "InBetween": known("what-if.json", "properties", "in_between", "items", "properties", "kind")}
        for (kind, name), found in CATEGORIES.items():
            self.assertEqual(set(found), kinds[kind] if name == "kind" else wanted[name])

    def test_a_text_that_is_no_known_category_stays(self):
        frame = Table([Reason("1.0.0.1", "10.0.0.0/8", "self", reason, "") for reason in ("best", "new")]).to_pandas()
        self.assertEqual((list(frame["reason"]), str(frame["reason"].dtype)), (["best", "new"], "category"))

    def test_numbers_of_a_frame_are_words_of_commands(self):
        links = Table([Link("1.0.0.1", "2.0.0.1", 10, True)]).to_pandas()
        nodes = Table([Node("1.0.0.1", 1, False, None), Node("2.0.0.1", 2, False, None)]).to_pandas()
        with Network() as net:
            for node in nodes.itertuples():
                net.router(node.address, node.asn)
            net.link(links["one"][0], links["other"][0], links["metric"].to_numpy(dtype="int64")[0])
            self.assertEqual(net.script(), "router 1.0.0.1 1\nrouter 2.0.0.1 2\nlink 1.0.0.1 2.0.0.1 10\n")
            for wrong in (nodes["name"][0], 1.0, True, None, b"1.0.0.1"):
                with self.assertRaisesRegex(Mistake, "^one word of a command is expected, and not "):
                    net.router(wrong, 1)

    def test_examples_of_the_module(self):
        self.assertEqual(doctest.testmod(tables), (0, 2))

    def test_a_sweep(self):
        import pandas
        path, other = self.folder / "a.csv", self.folder / "b.csv"
        tool("sweep", DRAINED, "--fail-links", "--jobs", "1", "--csv", "-o", path, status=1)
        tool("sweep", TOOLBOX / "lessons" / "disagree.bgp", "--orders", "6", "--jobs", "1", "--csv", "-o", other, status=1)
        for each in (path, other):
            frame = read_sweep(each)
            self.assertEqual({str(kind) for kind in frame.dtypes}, {"string", "Int64", "boolean", "category"})
            with open(each, newline="") as lines:
                wanted = list(csv.reader(lines))
            cells = [["" if pandas.isna(cell) else str(int(cell)) if isinstance(cell, bool) else str(cell) for cell in row]
                     for row in frame.astype(object).values.tolist()]
            self.assertEqual([list(frame.columns), *cells], wanted)
        self.assertEqual(list(read_sweep(path)["single_point"]), [True, False, False, False, False])

    def test_a_file_that_is_no_sweep(self):
        for text, told in (("a,b\n1,2\n", "its columns are a, b, and not number, change"), ("", "No columns"),
                           ("number,change\nx,y\n", "no table of `sweep --csv`")):
            path = self.file("wrong.csv", text)
            with self.assertRaises(Mistake) as fault:
                read_sweep(path)
            self.assertTrue(str(fault.exception).startswith("%s: no table of `sweep --csv`: " % path))
            self.assertIn(told, str(fault.exception))
        with self.assertRaisesRegex(Mistake, "none.csv: no table of `sweep --csv`: .*No such file"):
            read_sweep(self.folder / "none.csv")


class Pages(Case):
    """What a notebook shows."""

    def marked(self):
        """A network whose names would do something on a page that does not escape them."""
        net = Network.load(DRAINED)
        self.addCleanup(net.close)
        for node, name in zip(net.nodes(), MARKUP):
            net.name(node.address, name)
        net.converge()
        return net

    def test_a_table_as_a_page(self):
        found = rows_of(Table([Link("1.0.0.1", "2.0.0.1", 10, True), Link("1.0.0.1", "3.0.0.1", 5, False)])._repr_html_())
        self.assertEqual(found, [["one", "other", "metric", "is_up"], ["1.0.0.1", "2.0.0.1", "10", "True"],
                                 ["1.0.0.1", "3.0.0.1", "5", "False"]])

    def test_what_is_absent_is_an_empty_cell_and_of_many_rows_the_first_are_shown(self):
        page = Table([Node("1.0.0.%d" % (n + 1), n + 1, False, None) for n in range(tables.SHOWN + 7)])._repr_html_()
        rows = rows_of(page)
        self.assertEqual((rows[1], len(rows)), (["1.0.0.1", "1", "False", ""], tables.SHOWN + 1))
        self.assertTrue(page.endswith("<p>and 7 more</p>"))

    def test_names_are_escaped(self):
        net = self.marked()
        effect = net.what_if(["fail 5.0.0.3 7.0.0.1"])
        for page in (net.nodes()._repr_html_(), effect._repr_html_(), Converged(MARKUP[0], (), MARKUP[1])._repr_html_(),
                     Table([Delivery(*MARKUP, MARKUP[0])])._repr_html_()):
            read = Tags(page)
            self.assertEqual({tag for tag, _ in read.tags} - {"table", "thead", "tbody", "tr", "th", "td", "p", "h4"}, set())
            self.assertEqual([attrs for _, attrs in read.tags if attrs], [])
            self.assertTrue(any(name in text for text in read.texts for name in MARKUP), page)

    def test_an_effect_has_a_table_for_what_differs(self):
        net = self.marked()
        page = net.what_if(["fail 5.0.0.3 7.0.0.1"])._repr_html_()
        self.assertEqual(page.split("<h4>")[0], "")
        self.assertEqual([part.partition("</h4>")[0] for part in page.split("<h4>")[1:]],
                         ["routes", "forwarding", "black holes", "sent", "deliveries"])
        self.assertIn("<p>The session of 5.0.0.3 and 7.0.0.1 went down.</p>", page)
        self.assertEqual(net.what_if([])._repr_html_(), "<p>Nothing changed.</p>")

    def test_a_picture_of_a_network(self):
        net = self.marked()
        found = xml.etree.ElementTree.fromstring(net._repr_svg_())
        self.assertEqual(net._repr_svg_(), net.picture())
        kinds = {element.tag.rpartition("}")[2] for element in found.iter()}
        self.assertEqual(kinds & {"script", "img", "b", "foreignObject"}, set())
        self.assertIn(MARKUP[0], "".join(found.itertext()))

    def test_no_picture_where_there_is_none(self):
        net = self.marked()
        with mock.patch.dict("os.environ", PATH=str(self.folder)):
            self.assertIsNone(net._repr_svg_())
        with Network() as empty:
            self.assertIsNone(empty._repr_svg_())
        net.close()
        self.assertIsNone(net._repr_svg_())


class WithoutLibrary(unittest.TestCase):
    def test_a_frame_is_a_mistake_and_the_page_is_there(self):
        asks = ("from bgptools import Mistake, Node, Table\ntable = Table([Node('1.0.0.1', 1, False, None)])\n"
                "print('1.0.0.1' in table._repr_html_())\ntry: table.to_pandas()\nexcept Mistake as fault: print(fault)\n")
        ran = alone([sys.executable, "-B", "-S", "-c", asks], TOOLBOX)
        self.assertEqual((ran.stdout.decode(), ran.stderr), (
            "True\ndata frames need the Python library pandas, and there is none: type `pip install 'bgptools[tables]'`, "
            "or `apt-get install python3-pandas`\n", b""))
