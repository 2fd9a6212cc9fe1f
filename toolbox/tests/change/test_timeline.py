"""toolbox/timeline: when a chosen route changes, beside scripts that are cut off at each line; its CSV and pictures."""
import csv
import io
import random
import xml.etree.ElementTree

from bgptools.program import times
from common import TOOLBOX, TOP, Case, inside, program, tool

ROUTER, WHERE = "10.255.255.1", "10.0.0.0/8"
HEAD = "router 10.255.255.1 64512\n" + "".join(
    "virtual 192.0.2.%d %d\nlink 10.255.255.1 192.0.2.%d 1\njoin 10.255.255.1 192.0.2.%d\n" % (at, at + 6, at, at) for at in (1, 2, 3))
STORY = HEAD + """# time 2026-12-01T12:00:00Z
feed 192.0.2.2 10.255.255.1 update 20.0.0.0/8 8 igp -
# time 2026-12-01T12:00:10Z
feed 192.0.2.1 10.255.255.1 update 10.0.0.0/8 7,9 igp -
# time 2026-12-01T12:00:20Z
feed 192.0.2.2 10.255.255.1 update 10.0.0.0/8 8 egp - comm=5
feed 192.0.2.2 10.255.255.1 update 10.0.0.0/8 8 igp - comm=5
# time 2026-12-01T12:00:30Z
stop 10.255.255.1 192.0.2.2
# time 2026-12-01T12:00:35.500000Z
feed 192.0.2.1 10.255.255.1 withdraw 10.0.0.0/8
# time 2026-12-01T12:00:40Z
"""
OSCILLATION = TOP / "examples" / "lessons" / "med-oscillation.bgp"
SVG = "{http://www.w3.org/2000/svg}"


def by_cutting(script, router, where):
    """The chosen route after each line, as the program tells it of the script up to there; those that are others than
    before, with the number of the line."""
    lines, found, before = script.split("\n")[:-1], [], "none"
    for at in range(1, len(lines) + 1):
        if lines[at - 1].startswith("#") or not any(line.startswith("router ") for line in lines[:at]):
            continue
        replies = program("\n".join(lines[:at] + ["deliver %s %s" % way for way in WAYS] * 9 + ["best %s %s" % (router, where)]) + "\n")
        if replies[-1] != before:
            found.append((at, replies[-1]))
        before = replies[-1]
    return found


WAYS = [("192.0.2.%d" % at, ROUTER) for at in (1, 2, 3)]


class Made(Case):
    def told(self, *words, script=STORY, status=0):
        path = self.file("replay.bgp", script)
        made = inside("timeline", path, *words)
        self.assertEqual(made.returncode, status, made.stderr)
        return made


class Told(Made):
    def test_a_story(self):
        self.assertEqual(self.told(WHERE).stdout, """10.0.0.0/8 at 10.255.255.1: 5 choices
  2026-12-01T12:00:10Z         from 192.0.2.1  path 7,9  there was no route before
  2026-12-01T12:00:20Z         from 192.0.2.2  path 8    length: another has a shorter path
  2026-12-01T12:00:20Z         from 192.0.2.2  path 8    it comes from the same, with other attributes
  2026-12-01T12:00:30Z         from 192.0.2.1  path 7,9  the session with 192.0.2.2 is down
  2026-12-01T12:00:35.500000Z  no route                  192.0.2.1 does not tell it any more
  2026-12-01T12:00:40Z  the end
""")
        self.assertEqual(self.told("30.0.0.0/8").stdout, "30.0.0.0/8 at 10.255.255.1: no route\n  2026-12-01T12:00:40Z  the end\n")

    def test_csv(self):
        rows = list(csv.DictReader(io.StringIO(self.told(WHERE, "--csv").stdout)))
        self.assertEqual([(row["time"], row["line"], row["source"], row["next_as"], row["path"], row["communities"]) for row in rows], [
            ("2026-12-01T12:00:10Z", "14", "192.0.2.1", "7", "7,9", ""), ("2026-12-01T12:00:20Z", "16", "192.0.2.2", "8", "8", "5"),
            ("2026-12-01T12:00:20Z", "17", "192.0.2.2", "8", "8", "5"), ("2026-12-01T12:00:30Z", "19", "192.0.2.1", "7", "7,9", ""),
            ("2026-12-01T12:00:35.500000Z", "21", "", "", "", "")])
        self.assertEqual({(row["router"], row["prefix"]) for row in rows}, {(ROUTER, WHERE)})

    def test_beside_scripts_that_are_cut_off(self):
        """Each line of a generated replay changes what the script up to it does, or nothing."""
        drawn = random.Random(4271)
        for _ in range(4):
            lines = []
            for _ in range(12):
                at = drawn.randint(1, 3)
                lines.append(drawn.choice((
                    "feed 192.0.2.%d %s update %s %s igp %d" % (at, ROUTER, drawn.choice((WHERE, WHERE, "20.0.0.0/8")), ",".join(
                        map(str, [at + 6] + [9] * drawn.randint(0, 2))), drawn.randint(0, 1)),
                    "feed 192.0.2.%d %s withdraw %s" % (at, ROUTER, WHERE), "med %s %s" % (ROUTER, drawn.choice(("as", "always"))))))
            script = HEAD + "\n".join(lines) + "\n"
            rows = csv.DictReader(io.StringIO(self.told(WHERE, "--csv", script=script).stdout))
            found = [(int(row["line"]), row["source"], row["path"], row["med"]) for row in rows]
            wanted = [(at, *((text.split(" ")[2], text.split("path=")[1].split(" ")[0], text.split("med=")[1].split(" ")[0])
                             if text != "none" else ("", "", ""))) for at, text in by_cutting(script, ROUTER, WHERE)]
            self.assertEqual(found, wanted)

    def test_several_routers_and_names(self):
        """The route of a router inside, by name; without times lines are told."""
        lesson = TOOLBOX / "lessons" / "customers.bgp"
        made = inside("timeline", lesson, "203.0.113.0/24", "--router", "east")
        self.assertEqual(made.returncode, 0, made.stderr)
        self.assertRegex(made.stdout, r"203.0.113.0/24 at east \(5.0.0.2\): [1-9] choices?\n  line [0-9]+  from ")
        for words, said in (((), "--router A is expected: the script has "), (("--router", "9.9.9.9"), "there is no such router in the script")):
            made = inside("timeline", lesson, "203.0.113.0/24", *words)
            self.assertEqual((made.returncode, made.stdout), (2, ""))
            self.assertIn(said, made.stderr)

    def test_a_script_with_deliveries(self):
        """It tells the same as the script without them."""
        converged = inside("converge", self.file("a.bgp", STORY)).stdout
        self.assertIn("\ndeliver ", converged)
        rows = [list(csv.DictReader(io.StringIO(self.told(WHERE, "--csv", script=each).stdout))) for each in (STORY, converged)]
        self.assertEqual(*([(row["time"], row["path"]) for row in part] for part in rows))

    def test_a_network_that_does_not_converge(self):
        """What is told ends there."""
        lines = OSCILLATION.read_text().split("\n")
        router, to = next((line.split(" ")[2], line.split(" ")[4]) for line in lines if line.startswith("feed "))
        made = inside("timeline", OSCILLATION, to, "--router", router)
        self.assertEqual(made.returncode, 1, made.stderr)
        self.assertIn("med-oscillation.bgp: in the fair order the same state comes back every ", made.stderr)
        self.assertIn("there was no route before", made.stdout)

    def test_mistakes(self):
        for words, said in ((["10.0.0.1/8"], "is not a prefix"), ([WHERE, "--picture", "a.png"], "a name that ends with .svg"),
                            ([WHERE, "--json", "--csv"], "not allowed with")):
            made = tool("timeline", self.file("replay.bgp", STORY), *words, status=2)
            self.assertIn(said, made.stderr)
        refused = self.told(WHERE, script=HEAD + "stop 10.255.255.1 192.0.2.9\n", status=2)
        self.assertIn("replay.bgp:11: ", refused.stderr)


class Picture(Made):
    def bars(self, script=STORY):
        """The bars of a picture: left, width and what each says; and the names of the rows."""
        path = self.folder / "out.svg"
        self.told(WHERE, "--picture", path, script=script)
        root = xml.etree.ElementTree.parse(str(path)).getroot()
        found = [each for each in root.iter(SVG + "rect") if each.find(SVG + "title") is not None]
        return [(float(each.get("x")), float(each.get("width")), each.get("y"), each.find(SVG + "title").text) for each in found], [
            each.text for each in root.iter(SVG + "text")]

    def test_bars(self):
        """40 seconds are 720 pixels long, from 110 on: a second is 18. Both choices of AS 8 are one bar."""
        bars, texts = self.bars()
        day = "2026-12-01T12:00:"
        self.assertEqual([(left, width, said) for left, width, _, said in bars], [
            (110, 180, "no route: %s00Z to %s10Z" % (day, day)), (290, 180, "AS 7: %s10Z to %s20Z" % (day, day)),
            (470, 180, "AS 8: %s20Z to %s30Z" % (day, day)), (650, 99, "AS 7: %s30Z to %s35.500000Z" % (day, day)),
            (749, 81, "no route: %s35.500000Z to %s40Z" % (day, day))])
        self.assertEqual([texts.count(name) for name in ("AS 7", "AS 8", "no route")], [1, 1, 1])
        rows = {said.split(":")[0]: y for _, _, y, said in bars}
        self.assertEqual(len(set(rows.values())), 3)

    def test_without_times(self):
        path = self.folder / "out.svg"
        made = self.told(WHERE, "--picture", path, script="".join(line + "\n" for line in STORY.split("\n") if "# time" not in line), status=2)
        self.assertIn("--picture: the script has no comment `# time ", made.stderr)
        self.assertFalse(path.exists())

    def test_one_time_alone(self):
        bars, _ = self.bars(HEAD + "# time 2026-12-01T12:00:00Z\nfeed 192.0.2.1 10.255.255.1 update 10.0.0.0/8 7 igp -\n")
        self.assertEqual([(left, width) for left, width, _, _ in bars], [(110, 1)])


class Times(Case):
    def test_texts(self):
        for text, value in (("1970-01-01T00:00:00Z", 0), ("2026-12-01T12:00:00Z", 1796126400000000), ("2026-12-01", 1796083200000000),
                            ("2026-12-01T12:00", 1796126400000000), ("2026-12-01T12:00:00.5", 1796126400500000),
                            ("2026-12-01T12:00:00.000001Z", 1796126400000001)):
            self.assertEqual(times.read(text), value)
        for text in ("", "now", "2026-12-01T12", "2026-02-30", "2026-12-01T24:00", "2026-12-01T12:00:00+01:00", "2026-12-01 12:00", "0000-01-01"):
            self.assertIsNone(times.read(text))
        self.assertEqual([times.told(value) for value in (0, 1796126400000001)], ["1970-01-01T00:00:00Z", "2026-12-01T12:00:00.000001Z"])
        self.assertEqual([times.marked(line) for line in ("# time 1970-01-01", " #time 1970-01-01T00:00:01Z ", "# times 1970-01-01", "time 1970-01-01")],
                         [0, 1000000, None, None])
