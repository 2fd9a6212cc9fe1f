"""draw: DOT of each script, what pictures show and where, and the page of steps."""
import json
import os
import re
import shutil
import stat
import subprocess
import unittest
from unittest import mock

from bgptools.convergence.run import Run
from bgptools.picture.edge_routing import routed
from bgptools.picture.layout import Box, Layout
from bgptools.picture.observation import Known, View, look
from bgptools.picture.steps import Steps as Played
from bgptools.program.replies import refusal
from bgptools.program.script import read
from common import EXAMPLES, PATIENCE, SCRIPTS, TOOLBOX, Case, inside, marked, needs_pictures, tool

RING = TOOLBOX / "lessons" / "drained-link.bgp"
SPOT = re.compile(r'<g><title>([^<]*)</title><rect x="([-0-9.]+)" y="([-0-9.]+)" width="([0-9.]+)" height="([0-9.]+)"'
                  r'[^>]*/>((?:<text[^>]*>[^<]*</text>)+)</g>')
TWO = "router 1.0.0.1 1\nrouter 2.0.0.1 2\nlink 1.0.0.1 2.0.0.1 7\njoin 1.0.0.1 2.0.0.1\n"


def forty(steps=()):
    """Forty routers in five ASes: a ring of eight each, with a reflector, and a ring of ASes. Then these commands."""
    lines = ["# step The routers"]
    for asn in range(1, 6):
        lines += ["router 10.0.%d.%d %d" % (asn, at, 65000 + asn) for at in range(1, 9)]
        lines += ["# name 10.0.%d.%d %s%d" % (asn, at, "vwxyz"[asn - 1], at) for at in range(1, 9)]
    lines.append("# step Links and sessions")
    for asn in range(1, 6):
        lines += ["link 10.0.%d.%d 10.0.%d.%d %d" % (asn, at, asn, at % 8 + 1, 5 + at) for at in range(1, 9)]
        lines += ["join 10.0.%d.1 10.0.%d.%d" % (asn, asn, at) for at in range(2, 9)]
        lines += ["client 10.0.%d.1 10.0.%d.%d on" % (asn, asn, at) for at in range(2, 9)]
    for asn in range(1, 6):
        one, other = "10.0.%d.3" % asn, "10.0.%d.7" % (asn % 5 + 1)
        lines += ["link %s %s 1" % (one, other), "join %s %s" % (one, other), "self %s 10.0.%d.1 on" % (one, asn),
                  "self %s 10.0.%d.1 on" % (other, asn % 5 + 1)]
    return "\n".join(lines + ["# step What happens", "origin 10.0.1.5 198.51.100.0/24", *steps, ""])


def const(page, name):
    """A value of the page's script."""
    return json.loads(re.search(r"^const %s = (.*);$" % name, page, re.M).group(1))


def pictures(page):
    """Each picture of a page as SVG."""
    parts = const(page, "parts")
    return ["\n".join(parts[number] for number in picture) for picture in const(page, "pictures")]


def spots(svg):
    """The box of each router and peer in a picture: left, top, width, height, and the lines in it."""
    return {name: (*map(float, box), re.findall(r">([^<]+)</text>", text)) for name, *box, text in SPOT.findall(svg)}


def curves(svg):
    """Points on each line of a picture."""
    found = []
    for path in re.findall(r'<path d="M([-0-9. ]+) Q([-0-9. ]+) ([-0-9.]+ [-0-9.]+)"', svg):
        (ax, ay), (bx, by), (cx, cy) = (map(float, each.split(" ")) for each in path)
        for step in range(101):
            part, rest = step / 100, 1 - step / 100
            found.append((rest * rest * ax + 2 * rest * part * bx + part * part * cx,
                          rest * rest * ay + 2 * rest * part * by + part * part * cy))
    return found


class Drawn(Case):
    def test_each_script_is_drawn(self):
        dots = []
        for path in SCRIPTS:
            with self.subTest(path=path):
                content, refused = marked(path.read_bytes())
                self.assertEqual(inside("draw", path).returncode, 2 if refused else 0)
                whole = self.folder / "marked.bgp"
                whole.write_bytes(content)
                told = inside("draw", whole)
                self.assertEqual(told.returncode, 0)
                self.assertTrue(told.stdout.startswith("graph network {\n") and told.stdout.endswith("\n}\n"))
                dots.append(told.stdout)
        if shutil.which("dot"):
            ran = subprocess.run(["dot", "-Tsvg"], input="".join(dots).encode(), capture_output=True, timeout=PATIENCE)
            self.assertEqual((ran.returncode, ran.stderr), (0, b""))
            self.assertEqual(ran.stdout.count(b"<svg"), len(dots))

    def test_what_is_shown(self):
        told = inside("draw", "examples/tour.bgp").stdout
        self.assertIn('subgraph cluster_as5 {', told)
        self.assertRegex(told, r'"3\.0\.0\.1" -- "3\.0\.0\.3" \[color="#2b6cb0", .*dir="forward"')
        failed = inside("draw", self.file("failed.bgp", TWO + "fail 1.0.0.1 2.0.0.1\n")).stdout
        self.assertIn('label=" 7, failed "', failed)
        self.assertEqual(failed.count("#b8b8b8"), 2)
        self.assertRegex(failed, r'legend \[.*failed link.*session that is down')

    def test_routes_and_a_trace(self):
        way = ("--trace", "5.0.0.1", "198.51.100.1")
        told = inside("draw", RING, "--converge", "--prefix", "198.51.100.0/24", *way).stdout
        self.assertIn('label="5.0.0.1\\nfrom 5.0.0.3\\npath 7"', told)
        lost = inside("draw", "examples/lessons/leaking-policy.bgp", "--prefix", "203.0.113.0/24").stdout
        self.assertIn('label="8.0.0.1\\ntold path 5,5"', lost)
        arrows = re.findall(r'"([0-9.]+)" -- "([0-9.]+)" \[label="[^"]*", color="(#[0-9a-f]+)", penwidth="2.6", '
                            r'dir="(forward|back)"', told)
        self.assertEqual([each for each in arrows if each[2] == "#d53f8c"], [
            ("5.0.0.1", "5.0.0.2", "#d53f8c", "forward"), ("5.0.0.2", "5.0.0.3", "#d53f8c", "forward"),
            ("5.0.0.3", "7.0.0.1", "#d53f8c", "forward")])
        self.assertEqual([each for each in arrows if each[2] == "#2f855a"], [("5.0.0.3", "5.0.0.4", "#2f855a", "back")])

    def test_the_deciding_value(self):
        """docs/reference/language.md says by what each of these routes of 5.0.0.1 is chosen; the values are those that the
        script feeds and sets."""
        lines = (TOOLBOX.parent / "examples" / "tour.bgp").read_text().split("\n")
        end = next(at for at, line in enumerate(lines) if line.startswith("# The exit's link fails"))
        script = self.file("tour.bgp", "\n".join(lines[:end]))
        for prefix, said in (("10.3.0.0/16", "from 8.0.0.1\\npath 8,80\\nby preference 150"),
                             ("10.4.0.0/16", "from 7.0.0.1\\npath 7\\nby length 1"), ("10.5.0.0/16", "from 7.0.0.1\\npath 7\\nby origin igp"),
                             ("10.6.0.0/16", "from 7.0.0.1\\npath 7\\nby MED 5"), ("10.7.0.0/16", "from 7.0.0.1\\npath 7\\nby external"),
                             ("10.8.0.0/16", "from 7.0.0.1\\npath 7\\nby identifier 7.0.0.1"), ("10.2.0.0/16", "no route")):
            with self.subTest(prefix=prefix):
                told = inside("draw", script, "--prefix", prefix).stdout
                self.assertIn('"5.0.0.1" [label="5.0.0.1\\n%s"' % said, told)

    def test_communities(self):
        """Those of the chosen route, of what a virtual peer is told, and what the well-known ones keep back."""
        lines = (TOOLBOX / "lessons" / "customers.bgp").read_text()
        lines += "feed 7.0.0.1 5.0.0.1 update 203.0.113.0/24 7 igp - comm=1,2,4294967041\n"
        script = self.file("customers.bgp", lines)
        told = inside("draw", script, "--converge", "--prefix", "198.51.100.0/24").stdout
        self.assertIn('"5.0.0.1" [label="west\\n5.0.0.1\\nfrom customer\\npath 7\\ncomms 327681 (5:1)"', told)
        self.assertIn('"8.0.0.1" [label="peer\\n8.0.0.1\\ntold path 5,7\\ncomms 327681 (5:1)"', told)
        told = inside("draw", script, "--converge", "--prefix", "203.0.113.0/24").stdout
        self.assertIn('\\nfrom west\\npath 7\\ncomms 1,2 (0:1 0:2) and 2 more\\nNO_EXPORT: told to no other AS"', told)
        self.assertIn('"8.0.0.1" [label="peer\\n8.0.0.1"', told)

    def test_what_waits_is_counted_at_its_sender(self):
        script = self.file("waiting.bgp", TWO + "origin 2.0.0.1 10.1.0.0/16\norigin 2.0.0.1 10.2.0.0/16\norigin 1.0.0.1 10.3.0.0/16\n")
        told = inside("draw", script).stdout
        self.assertRegex(told, r'"1\.0\.0\.1" -- "2\.0\.0\.1" \[.*taillabel="\(1\)", headlabel="\(2\)"')
        self.assertNotIn("label=\"(", inside("draw", script, "--converge").stdout.replace("legend", ""))

    def test_names(self):
        script = self.file("names.bgp", "# name 1.0.0.1 west\n# name 2.0.0.1 east\n" + TWO + "origin 2.0.0.1 10.1.0.0/16\ndeliver 2.0.0.1 1.0.0.1\n")
        told = tool("draw", script, "--prefix", "10.1.0.0/16", "--trace", "west", "east", status=0).stdout
        self.assertIn('"1.0.0.1" [label="west\\n1.0.0.1\\nfrom east\\npath 2"', told)
        self.assertIn("A packet from west (1.0.0.1) to 2.0.0.1: ", told)
        self.assertNotIn('"2.0.0.1"', tool("draw", script, "--of", "west", "--hops", "0", status=0).stdout)
        self.assertIn("there is no router north", tool("draw", script, "--of", "north", status=2).stderr)

    def test_refused_lines(self):
        for mark, status in (("# no mark\n", 2), ("# expect refused 3\n", 0), ("# expect refused\n", 0), ("# expect refused 4\n", 2)):
            told = inside("draw", self.file("refused.bgp",
                                            "router 1.0.0.1 1\n%srouter 1.0.0.1 1\nrouter 2.0.0.1 2\n" % mark))
            self.assertEqual((told.returncode, '"2.0.0.1"' in told.stdout, ":3: refused 3 " in told.stderr),
                             (status, status == 0, status == 2))

    def test_mistakes(self):
        for words, text in ((["--prefix", "10.0.0.1/8"], "a prefix with no bit set"),
                            (["--trace", "9.9.9.9", "1.2.3.4"], "there is no router 9.9.9.9"),
                            (["-o", "x.gif"], "a file .svg, .png, .pdf or .dot is expected"),
                            (["--steps", "-o", "x.svg"], "a file .html is expected"),
                            (["--only", "5,6"], "there is no AS 6"), (["--only", "x"], "AS numbers joined by commas"),
                            (["--hops", "2"], "--of ROUTER is expected"), (["--from", "3"], "--steps is expected"),
                            (["--steps", "--from", "99"], "the script has 16 lines"),
                            (["--steps", "--trace", "9.9.9.9", "1.2.3.4"], "there is no router 9.9.9.9")):
            with self.subTest(text=text):
                told = inside("draw", RING, *words)
                self.assertEqual((told.returncode, told.stdout), (2, ""))
                self.assertIn(text, told.stderr)


class Parts(Case):
    """What is shown of a large network."""

    def nodes(self, *words):
        told = inside("draw", self.file("forty.bgp", forty()), *words)
        self.assertEqual(told.returncode, 0)
        return re.findall(r'^ +"([^"]*)" \[label', told.stdout, re.M), told

    def test_only_some_ases(self):
        found, told = self.nodes("--only", "65002,65004")
        self.assertEqual({each.split(".")[2] for each in found}, {"2", "4"})
        self.assertEqual(len(found), 16)
        self.assertIn("AS 65002, 65004: 16 of 40 routers and peers", told.stdout)

    def test_near_a_router(self):
        """In the ring of AS 65001, 10.0.1.3 has neighbours 2 and 4 and, outside, 10.0.2.7, which has neighbours 6 and
        8."""
        for hops, wanted in ((("--hops", "1"), "1.2 1.3 1.4 2.7"), ((), "1.2 1.3 1.4 2.7"),
                             (("--hops", "2"), "1.1 1.2 1.3 1.4 1.5 2.6 2.7 2.8")):
            found, told = self.nodes("--of", "v3", *hops)
            self.assertEqual(sorted(found), ["10.0." + each for each in wanted.split(" ")])
        self.assertIn("within 2 links of v3 (10.0.1.3): 8 of 40 routers and peers", told.stdout)

    def test_no_sessions(self):
        _, told = self.nodes("--no-sessions")
        self.assertEqual((told.stdout.count("dotted"), told.stdout.count(" -- ")), (0, 45))

    def large(self):
        """Three ASes of 30, 30 and 1 routers, two links between the first ones, one of which has failed, and two
        sessions."""
        lines = ["router 10.0.%d.%d %d" % (asn, at, asn) for asn, count in ((1, 30), (2, 30), (3, 1))
                 for at in range(1, count + 1)]
        lines += ["link 10.0.1.1 10.0.2.1 1", "link 10.0.1.2 10.0.2.2 1", "link 10.0.2.3 10.0.3.1 1",
                  "join 10.0.1.1 10.0.2.1", "join 10.0.1.2 10.0.2.2"]
        return self.file("large.bgp", "\n".join(lines + ["fail 10.0.1.2 10.0.2.2", "origin 10.0.2.1 10.7.0.0/16"])
                         + "\n")

    def test_past_sixty_routers_ases_are_drawn(self):
        told = inside("draw", self.large(), "--prefix", "10.7.0.0/16")
        self.assertEqual(told.returncode, 0)
        self.assertIn("61 routers and peers, drawn as ASes; --only AS,.. or --of ROUTER --hops N shows a part of them, "
                      "--whole all", told.stderr)
        self.assertIn('"AS 2" [label="AS 2\\n30 routers\\n1 with a route"', told.stdout)
        self.assertRegex(told.stdout, r'"AS 1" -- "AS 2" \[label=" 2 links, 1 down "')
        self.assertRegex(told.stdout, r'"AS 1" -- "AS 2" \[.*dotted.*label=" 2 sessions, 1 down ".*headlabel="\(1\)"')
        self.assertEqual(told.stdout.count(" -- "), 3)

    def test_whole_and_parts_of_it(self):
        for words, count in ((("--whole",), 61), (("--only", "1,3"), 31)):
            told = inside("draw", self.large(), *words)
            self.assertEqual((told.stderr, len(re.findall(r'^ +"10[^"]*" \[label', told.stdout, re.M))), ("", count))


@needs_pictures
class Placed(Case):
    def test_a_picture_of_ases(self):
        lines = ["router 10.0.%d.%d %d" % (asn, at, asn) for asn in (1, 2, 3) for at in range(1, 22)]
        lines += ["link 10.0.%d.1 10.0.%d.2 1" % (asn, asn % 3 + 1) for asn in (1, 2, 3)]
        svg = self.svg(self.file("large.bgp", "\n".join(lines) + "\n"))
        self.assertEqual({name: lines for name, (*_, lines) in spots(svg).items()},
                         {"AS %d" % asn: ["AS %d" % asn, "21 routers"] for asn in (1, 2, 3)})
        self.assertEqual(svg.count("<title>link of AS"), 3)

    def test_formats(self):
        for ending, begin in (("svg", b"<svg"), ("png", b"\x89PNG"), ("pdf", b"%PDF"), ("dot", b"graph")):
            out = self.folder / ("ring." + ending)
            tool("draw", RING, "--converge", "-o", out, status=0)
            self.assertTrue(out.read_bytes().startswith(begin))

    def test_a_large_picture_has_all_formats(self):
        out = self.folder / "forty.png"
        told = inside("draw", self.file("forty.bgp", forty()), "-o", out)
        self.assertEqual((told.returncode, told.stderr), (0, ""))
        width, height = (int.from_bytes(out.read_bytes()[at:at + 4], "big") for at in (16, 20))
        self.assertTrue(width > 1500 and height > 700, (width, height))

    def svg(self, script, *words):
        out = self.folder / "picture.svg"
        inside("draw", script, *words, "-o", out)
        return out.read_text()

    def test_forty_routers_are_readable_on_one_slide(self):
        svg = self.svg(self.file("forty.bgp", forty()), "--converge", "--prefix", "198.51.100.0/24")
        width, height = map(float, re.search(r'viewBox="0 0 ([0-9.]+) ([0-9.]+)"', svg).groups())
        found = list(spots(svg).values())
        self.assertEqual(len(found), 40)
        smallest = min(float(size) for size in re.findall(r'font-size="([0-9.]+)"', svg))
        self.assertGreater(smallest * min(1920 / width, 1080 / height), 12)
        for number, (left, top, broad, high, _) in enumerate(found):
            for x, y, w, h, _ in found[number + 1:]:
                self.assertFalse(left < x + w and x < left + broad and top < y + h and y < top + high)

    def test_no_line_crosses_the_label_of_an_as(self):
        scripts = [self.file("forty.bgp", forty())] + [path for path in EXAMPLES if path.parent.name != "team"]
        for script in scripts:
            with self.subTest(script=script.name):
                svg = self.svg(script)
                width, height = map(float, re.search(r'viewBox="0 0 ([0-9.]+) ([0-9.]+)"', svg).groups())
                labels = re.findall(r'<text x="([-0-9.]+)" y="([-0-9.]+)" font-size="13"[^>]*>(AS [0-9]+)</text>', svg)
                self.assertEqual(len(labels), svg.count("<title>AS "))
                points = curves(svg)
                for x, y, text in labels:
                    half, x, y = 3.4 * len(text), float(x), float(y)
                    self.assertTrue(half < x < width - half and 10 < y < height - 20, text)
                    self.assertFalse([each for each in points if abs(each[0] - x) < half and y - 10 < each[1] < y + 2],
                                     text)

    def test_a_legend(self):
        svg = self.svg(RING)
        for said in ("link and its metric", "session in an AS", "session between ASes", "virtual peer, fed by hand",
                     "messages that wait, at their sender"):
            self.assertIn(">%s</text>" % said, svg)
        self.assertNotIn("reflector", svg)

    def test_an_empty_script(self):
        self.assertTrue(self.svg(self.file("empty.bgp", "")).startswith("<svg"))


class Routed(unittest.TestCase):
    def test_a_session_goes_round_routers_that_it_does_not_end_at(self):
        """Three routers in a row, and a session of the outer ones; the session of the left two is no line with their
        link."""
        boxes = {"a": Box(0, 0, 60, 30), "b": Box(200, 0, 60, 30), "c": Box(400, 0, 60, 30)}
        found = routed(Layout(boxes, {}), [("a", "b", True), ("b", "c", True), ("a", "b", False), ("a", "c", False)])
        points = [found["a", "c", False].at(part / 100) for part in range(101)]
        self.assertEqual([(x, y) for x, y in points if 170 < x < 230 and abs(y) < 15], [])
        self.assertEqual([round(value) for value in (*found["a", "b", True].start, *found["a", "b", True].end)],
                         [31, 0, 169, 0])
        self.assertGreater(abs(found["a", "b", False].at(0.5)[1]), 8)


@needs_pictures
class Steps(Case):
    def page(self, text, *words):
        told = inside("draw", self.file("script.bgp", text), "--steps", *words)
        self.assertEqual((told.returncode, told.stderr), (0, ""))
        return told.stdout

    def test_each_example_has_a_page(self):
        for path in [path for path in EXAMPLES if path.name in ("hijack.bgp", "hot-potato.bgp")]:
            with self.subTest(path=path.name):
                page = inside("draw", path, "--steps").stdout
                wanted = [line for line in path.read_text().split("\n") if line and not line.startswith("#")]
                self.assertEqual([step["command"].split("  ", 1)[1] for step in const(page, "steps")], wanted)
                self.assertEqual({step["picture"] for step in const(page, "steps")},
                                 set(range(len(const(page, "pictures")))))

    def test_every_router_stays_where_it_was(self):
        page = self.page((TOOLBOX.parent / "examples" / "lessons" / "med-oscillation.bgp").read_text(), "--prefix",
                         "203.0.113.0/24")
        places, texts = {}, set()
        for svg in pictures(page):
            for name, (*box, lines) in spots(svg).items():
                places.setdefault(name, set()).add(tuple(box))
                texts.add((name, tuple(lines)))
        self.assertEqual({name: len(boxes) for name, boxes in places.items()}, dict.fromkeys(places, 1))
        self.assertEqual(len(places), 8)
        self.assertIn(("1.0.0.4", ("1.0.0.4", "from 1.0.0.5", "path 6,100", "by MED 0")), texts)

    def test_what_was_delivered_is_drawn_on_its_session(self):
        page = self.page(TWO + "origin 2.0.0.1 10.1.0.0/16\n"
                         "deliver 2.0.0.1 1.0.0.1\nnoorigin 2.0.0.1 10.1.0.0/16\ndeliver 2.0.0.1 1.0.0.1\nquiet\n")
        steps, drawn = const(page, "steps"), pictures(page)
        seen = [drawn[step["picture"]] for step in steps]
        session = re.compile(r"<g><title>session of 1\.0\.0\.1 and 2\.0\.0\.1</title>(.*?)</g>")
        self.assertEqual(["#6b46c1" in session.search(svg).group(1) for svg in seen[3:]],
                         [False, False, True, False, True, False])
        self.assertEqual([re.findall(r">((?:update|withdraw) [^<]*)</text>", svg) for svg in seen[4:]],
                         [[], ["update 10.1.0.0/16"], [], ["withdraw 10.1.0.0/16"], []])
        self.assertEqual(["waiting from 2.0.0.1 to 1.0.0.1" in svg for svg in seen[4:]],
                         [True, False, True, False, False])

    def test_what_fails_is_drawn_so(self):
        page = self.page("router 1.0.0.1 1\nrouter 1.0.0.2 1\nlink 1.0.0.1 1.0.0.2 7\njoin 1.0.0.1 1.0.0.2\n"
                         "origin 1.0.0.2 10.1.0.0/16\ndeliver 1.0.0.2 1.0.0.1\nfail 1.0.0.1 1.0.0.2\nmend 1.0.0.1 1.0.0.2\n"
                         "stop 1.0.0.1 1.0.0.2\nstart 1.0.0.1 1.0.0.2\ndeliver 1.0.0.2 1.0.0.1\n", "--prefix", "10.1.0.0/16")
        drawn = [pictures(page)[step["picture"]] for step in const(page, "steps")]
        self.assertEqual(["session of 1.0.0.1 and 1.0.0.2, down<" in svg for svg in drawn[3:]],
                         [False, False, False, True, False, True, False, False])
        self.assertEqual([re.findall(">(7[^<]*)</text>", svg) for svg in drawn[5:8]], [["7"], ["7, failed"], ["7"]])
        forwards = re.compile(r'<title>link of [^<]*</title><path[^>]*stroke="#2f855a"')
        self.assertEqual([bool(forwards.search(svg)) for svg in drawn[4:]],
                         [False, True, False, False, False, False, True])

    def test_build_up_is_folded(self):
        page = self.page("# step Routers\nrouter 1.0.0.1 1\nrouter 2.0.0.1 2\nlink 1.0.0.1 2.0.0.1 7\n# step A session\n"
                         "# It comes up.\njoin 1.0.0.1 2.0.0.1\nquiet\n# step It fails\nfail 1.0.0.1 2.0.0.1\n", "--from", "4")
        steps = const(page, "steps")
        self.assertEqual([(step["heading"], step["says"], step["command"]) for step in steps], [
            ("", "", "lines 1 to 4: 3 commands"), ("A session", "It comes up.", "7  join 1.0.0.1 2.0.0.1"),
            ("A session", "", "8  quiet"), ("It fails", "", "10  fail 1.0.0.1 2.0.0.1")])
        self.assertEqual(set(spots(pictures(page)[steps[0]["picture"]])), {"1.0.0.1", "2.0.0.1"})

    def test_names_are_shown(self):
        steps = const(self.page("# name 1.0.0.1 west\nrouter 1.0.0.1 1\norigin 1.0.0.1 10.0.0.0/8\n"), "steps")
        self.assertEqual([(step["named"], step["says"]) for step in steps],
                         [("router west 1", ""), ("origin west 10.0.0.0/8", "")])

    def test_what_does_not_converge(self):
        """It is told with its line, the last deliveries are shown, and later lines are not followed by more."""
        script = TOOLBOX.parent / "examples" / "lessons" / "med-oscillation.bgp"
        told = inside("draw", script, "--steps", "--converge")
        self.assertEqual(told.returncode, 1)
        self.assertRegex(told.stderr, r"med-oscillation\.bgp: line [0-9]+: in the fair order the same state comes back every [0-9]+ deliveries; "
                                      r"203\.0\.113\.0/24 keeps changing at [^;]*; of 9 other orders \([^)]*\) none converges\n")
        counts = [sum(line.startswith("deliver ") for line in step["replies"]) for step in const(told.stdout, "steps")]
        endless = next(at for at, step in enumerate(const(told.stdout, "steps")) if "none converges" in step["replies"][-1])
        self.assertEqual((counts[endless], max(counts[endless + 1:])), (20, 0))

    def test_letters_and_odd_bytes(self):
        """A script in UTF-8 is shown as it is written, and a control byte is spelled out; a line that is no command at
        all is a step that is refused."""
        script = self.file("script.bgp", "")
        script.write_bytes("# name 1.0.0.1 Zürich\n# Über die Brücke\nrouter 1.0.0.1 1\n# name 1.0.0.2 <\x01>\n"
                           "router 1.0.0.2 1\n# expect refused 1\n".encode() + b" " * 5000 + b"\n")
        page = inside("draw", script, "--steps").stdout
        self.assertEqual([(step["says"], step["named"]) for step in const(page, "steps")],
                         [("Über die Brücke", "router Zürich 1"), ("", "router <\\x01> 1"), ("", "")])
        self.assertEqual(set(spots(pictures(page)[-1])), {"Zürich (1.0.0.1)", "&lt;\\x01&gt; (1.0.0.2)"})

    def test_a_hundred_steps_of_forty_routers(self):
        """Graphviz is called as often as for one step, once, and the page has less than 2 MB. Calls are counted by a
        neato that is found before the real one."""
        calls = self.folder / "calls"
        for name in ("neato", "dot"):
            text = '#!/bin/sh\necho called >> "%s"\nexec %s "$@"\n' % (calls, shutil.which(name))
            fake = self.file("bin/" + name, text)
            fake.chmod(fake.stat().st_mode | stat.S_IXUSR)
        base = self.file("forty.bgp", forty(["origin 10.0.3.5 203.0.113.0/24", "origin 10.0.2.6 192.0.2.0/24"]))
        script = inside("converge", "--at-end", base).stdout
        start = script.index("# step What")
        steps = [at for at, line in enumerate(script[start:].split("\n")) if line and line[0] != "#"]
        script = "\n".join(script.split("\n")[:script[:start].count("\n") + steps[99] + 1]) + "\n"
        with mock.patch.dict(os.environ, {"PATH": "%s:%s" % (self.folder / "bin", os.environ["PATH"])}):
            page = self.page(script, "--from", str(script[:start].count("\n")), "--prefix", "198.51.100.0/24")
        self.assertEqual(len(const(page, "steps")), 101)
        self.assertEqual({len(spots(svg)) for svg in pictures(page)}, {40})
        self.assertEqual(calls.read_text(), "called\n")
        self.assertLess(len(page), 2000000)


class Looks(Case):
    def test_what_is_not_asked_again_has_not_changed(self):
        """After each line, what is seen by one who remembers is what is seen by one who asks for all."""
        for name, prefix in (("two-reflectors", None), ("tour", "10.7.0.0/16"),
                             ("lessons/leaking-policy", "203.0.113.0/24"),
                             ("lessons/med-at-one-router", "203.0.113.0/24")):
            path = TOOLBOX.parent / "examples" / (name + ".bgp")
            with self.subTest(path=path.name), Run() as run:
                view, known = View(prefix), Known()
                for line in read(str(path)):
                    reply = run.say(line.text)
                    if reply and not refusal(reply):
                        known.after(line.words, run.network)
                        self.assertEqual(look(run, view, None, {}, known), look(run, view, None, {}, Known()), line)

    def test_communities_in_the_replies_of_steps(self):
        script = self.file("script.bgp", TWO + "virtual 7.0.0.1 7\nlink 1.0.0.1 7.0.0.1 1\njoin 1.0.0.1 7.0.0.1\n"
                           "feed 7.0.0.1 1.0.0.1 update 10.0.0.0/8 7 igp - comm=5,4294967041\n"
                           "deliver 7.0.0.1 1.0.0.1\nbest 1.0.0.1 10.0.0.0/8\nout 1.0.0.1 2.0.0.1\n")
        with Run() as run:
            played = Played(run, View(), False)
            played.play(read(str(script)))
        self.assertEqual([step.replies for step in played.steps][-2:], [
            ["10.0.0.0/8 from 7.0.0.1 path=7 origin=igp next=7.0.0.1 med=- pref=100 oid=- clusters=- "
             "comms=5,4294967041 (0:5 NO_EXPORT)"],
            ["end 0", "-- not told to 2.0.0.1, since it carries 4294967041 (NO_EXPORT): 10.0.0.0/8"]])
