"""what-if of two networks: folders of FRR and BIRD, and scripts. What it tells is what a change of the one network
does, and its steps end with the routes of the other one."""
import json

from common import TOOLBOX, TOP, Case, inside, tool
from frr import at, router

LESSONS = TOOLBOX / "lessons"
FEEDS = """feed 172.16.0.2 10.0.0.1 update 198.51.100.0/24 64999 igp -
feed 172.17.0.2 10.0.0.2 update 198.51.100.0/24 64998,64997 igp -
"""


def border(own, other, provider, asn, *more, preference=200):
    """A border router of AS 65001 with one provider, whose routes it prefers so."""
    return router(65001, own, "eth0 10.1.0.%s/30" % own[-1], "eth1 %s/30" % (provider[:-1] + "1"), bgp=[
        "neighbor %s remote-as internal" % other, "neighbor %s update-source lo" % other,
        "neighbor %s next-hop-self" % other, "neighbor %s remote-as %d" % (provider, asn),
        "neighbor %s route-map PROVIDER in" % provider],
        more=["route-map PROVIDER permit 10", " set local-preference %d" % preference, *more])


class Networks(Case):
    """Two networks of two borders each, and what is told of them."""

    def folder_of(self, name, west=200, east=100, more=()):
        """A folder with both borders."""
        self.file(name + "/west.conf", border("10.0.0.1", "10.0.0.2", "172.16.0.2", 64999, preference=west))
        self.file(name + "/east.conf", border("10.0.0.2", "10.0.0.1", "172.17.0.2", 64998, *more, preference=east))
        return self.folder / name

    def told(self, *words, status=1):
        """The document of a comparison."""
        ran = inside("what-if", *words, "--json")
        self.assertEqual(ran.returncode, status, ran.stderr)
        return json.loads(ran.stdout)


class Folders(Networks):
    def test_a_changed_policy_is_told_with_its_line_and_what_it_moves(self):
        old, new = self.folder_of("old"), self.folder_of("new", west=50)
        told = self.told(old, new, "--feeds", self.file("feeds", FEEDS))
        self.assertEqual([(each["kind"], each["part"], each["of"]) for each in told["configuration"]],
                         [("changed", "policy", ["10.0.0.1", "172.16.0.2", "in"])])
        line = at((old / "west.conf").read_text(), "set local-preference 200")
        for side, folder, preference in (("old", old, 200), ("new", new, 50)):
            self.assertEqual(told["configuration"][0][side + "_lines"], [
                {"file": str(folder / "west.conf"), "line": line,
                 "text": "route-map PROVIDER permit 10: set local-preference %d" % preference}])
        # RFC 4271, 9.1.1: the highest preference wins, so that the exit moves from west to east.
        self.assertEqual({each["router"]: (each["before"]["source"], each["after"]["source"])
                          for each in told["routes"]}, {
                          "10.0.0.1": ("172.16.0.2", "10.0.0.2"), "10.0.0.2": ("10.0.0.1", "172.17.0.2")})

    def test_the_same_network_twice(self):
        old, new = self.folder_of("old"), self.folder_of("new")
        ran = inside("what-if", old, new)
        self.assertEqual(ran.stdout.split("\n")[:2], [
            "Configuration: no part differs", "No route, session or packet changes."])
        self.assertEqual(self.told(old, new, status=ran.returncode)["configuration"], [])

    def test_what_is_left_out_is_told_of_one_side_first_and_of_both_once(self):
        old = self.folder_of("old", more=["bgp as-path access-list A permit 1_2_3"])
        new = self.folder_of("new", more=[
            "bgp as-path access-list A permit 1_2_3", "router bgp 65001", " bgp no-such-line"])
        ran = inside("what-if", old, new)
        heads = [line.split(": ")[0] for line in ran.stderr.split("\n") if "no-such-line" in line or "1_2_3" in line]
        self.assertEqual(heads, sorted(heads, key=["NEW only", "OLD and NEW"].index))
        self.assertIn("NEW only", heads)
        self.assertEqual(ran.returncode, 1)
        self.assertIn("Lines were left out that may decide a route", ran.stdout)

    def test_a_new_neighbour_is_fed_where_it_is(self):
        old, new = self.folder_of("old"), self.folder_of("new")
        text = (old / "east.conf").read_text()
        (old / "east.conf").write_text("\n".join(line for line in text.split("\n") if "172.17.0" not in line))
        ran = inside("what-if", old, new, "--feeds", self.file("feeds", FEEDS))
        self.assertIn("feeds:2: not fed in %s, which has no session of 172.17.0.2 and 10.0.0.2" % old, ran.stdout)
        self.assertIn("  session of 10.0.0.2 and 172.17.0.2: added\n    NEW  join 10.0.0.2 172.17.0.2\n", ran.stdout)

    def test_folders_of_bird_and_of_both(self):
        data = TOOLBOX / "tests" / "data" / "bird" / "provider"
        self.assertEqual(self.told(data, data, status=inside("what-if", data, data).returncode)["configuration"], [])
        told = self.told(LESSONS / "frr", LESSONS / "bird")
        self.assertIn(("removed", "med", ["10.0.0.1"]), [(each["kind"], each["part"], each["of"])
                                                         for each in told["configuration"]])

    def test_a_line_of_bird(self):
        for name, preference in (("old", 80), ("new", 120)):
            for path in (LESSONS / "bird").glob("*.conf"):
                text = path.read_text().replace("local_pref = 80", "local_pref = %d" % preference)
                self.file("%s/%s" % (name, path.name), text)
        told = self.told(self.folder / "old", self.folder / "new")
        self.assertEqual([each["text"] for each in told["configuration"][0]["old_lines"]], ["bgp_local_pref = 80;"])
        self.assertEqual([each["text"] for each in told["configuration"][0]["new_lines"]], ["bgp_local_pref = 120;"])

    def test_costs_of_links(self):
        old, new = self.folder_of("old"), self.folder_of("new")
        for name in ("west", "east"):
            path = new / (name + ".conf")
            path.write_text(path.read_text().replace("interface eth0\n", "interface eth0\n ip ospf cost 77\n"))
        change = self.told(old, new, status=inside("what-if", old, new).returncode)["configuration"][0]
        self.assertEqual((change["part"], change["old"], change["new"]), (
            "link", ["link 10.0.0.1 10.0.0.2 10"], ["link 10.0.0.1 10.0.0.2 77"]))
        self.assertEqual([each["text"] for each in change["new_lines"]], ["interface eth0: ip ospf cost 77"] * 2)


class Scripts(Networks):
    def test_it_is_what_the_change_does(self):
        """For each lesson: NEW is the script with the change behind it, and its routes differ as those of the change."""
        # What was lost with a session is not sent again by itself, and so NEW from nothing has it.
        for lesson in sorted(LESSONS.glob("*.change")):
            words = lesson.read_text().split("\n")[0].split(" ")[2:]
            base, change = TOP / words[0], TOP / words[1]
            with self.subTest(lesson=lesson.name):
                new = self.file("new.bgp", base.read_text().rstrip("\n") + "\n" + change.read_text())
                once, twice = (json.loads(inside("what-if", base, *more, "--json").stdout)
                               for more in ((change,), ("--new", new)))
                if once["converged"] and twice["converged"]:
                    for field in ("routes", "told", "sessions_down", "sessions_up", "forwarding"):
                        self.assertEqual(_plain(once[field]), _plain(twice[field]), field)

    def test_the_steps_end_with_the_routes_of_new(self):
        for lesson in sorted(LESSONS.glob("*.change")):
            words = lesson.read_text().split("\n")[0].split(" ")[2:]
            base, change = TOP / words[0], TOP / words[1]
            with self.subTest(lesson=lesson.name):
                new = self.file("new.bgp", base.read_text().rstrip("\n") + "\n" + change.read_text())
                for one, other in ((base, new), (new, base)):
                    ran = inside("what-if", one, "--new", other, "--json", "--steps")
                    if ran.returncode != 2:
                        told = json.loads(ran.stdout)
                        self.assertEqual((told["steps"] or {"other_routes_at": []})["other_routes_at"], [])

    def test_a_router_that_goes(self):
        old = self.file("old.bgp", """router 1.0.0.1 1
router 2.0.0.1 2
router 3.0.0.1 3
link 1.0.0.1 2.0.0.1 1
link 2.0.0.1 3.0.0.1 1
join 1.0.0.1 2.0.0.1
join 2.0.0.1 3.0.0.1
origin 3.0.0.1 198.51.100.0/24
""")
        kept = [line for line in old.read_text().split("\n")[:-1] if "3.0.0.1" not in line]
        new = self.file("new.bgp", "".join(line + "\n" for line in kept))
        told = self.told(old, "--new", new, "--steps")
        self.assertEqual([(each["kind"], each["router"]) for each in told["routes"]], [
            ("lost", "1.0.0.1"), ("lost", "2.0.0.1")])
        self.assertEqual(told["sessions_down"], [["2.0.0.1", "3.0.0.1"]])
        self.assertEqual([step["commands"] for step in told["steps"]["steps"]], [
            ["noorigin 3.0.0.1 198.51.100.0/24"], ["stop 2.0.0.1 3.0.0.1"], ["fail 2.0.0.1 3.0.0.1"]])
        self.assertEqual({(each["router"], each["address"]) for each in told["black_holes"]},
                         {("1.0.0.1", "198.51.100.1"), ("2.0.0.1", "198.51.100.1")})
        self.assertIn("Router 3.0.0.1 (gone)\n", inside("what-if", old, "--new", new).stdout)


class Steps(Networks):
    BASE = """router 1.0.0.1 1
virtual 2.0.0.1 2
virtual 3.0.0.1 3
virtual 4.0.0.1 4
link 1.0.0.1 2.0.0.1 1
link 1.0.0.1 3.0.0.1 1
link 1.0.0.1 4.0.0.1 1
join 1.0.0.1 2.0.0.1
join 1.0.0.1 3.0.0.1
join 1.0.0.1 4.0.0.1
%s
feed 2.0.0.1 1.0.0.1 update 198.51.100.0/24 2 igp -
feed 3.0.0.1 1.0.0.1 update 198.51.100.0/24 3 igp -
"""

    def steps(self, old, new):
        """What is told of the steps between two sets of rules."""
        files = [self.file(name, self.BASE % "\n".join(rules)) for name, rules in (("old.bgp", old), ("new.bgp", new))]
        return self.told(files[0], "--new", files[1], "--steps")["steps"]

    def test_a_route_that_is_lost_in_between(self):
        """The first step takes one provider's route away, the second one brings the other's."""
        told = self.steps(["rule 1.0.0.1 3.0.0.1 in any deny"], ["rule 1.0.0.1 2.0.0.1 in any deny"])
        self.assertEqual([step["commands"] for step in told["steps"]], [
            ["rule 1.0.0.1 2.0.0.1 in any deny"], ["clear 1.0.0.1 3.0.0.1 in"]])
        self.assertEqual([(each["kind"], each["router"], each["about"], each["since"], each["until"])
                          for each in told["for_a_while"]], [("lost", "1.0.0.1", "198.51.100.0/24", 1, 2),
                                                        ("unreached", "1.0.0.1", "198.51.100.1", 1, 2)])
        self.assertEqual(told["other_routes_at"], [])

    def test_a_route_that_leaks_in_between(self):
        """4.0.0.1 is to get it in neither network: in the first none has it, in the second its policy denies it."""
        deny = ["rule 1.0.0.1 2.0.0.1 in any deny", "rule 1.0.0.1 3.0.0.1 in any deny"]
        told = self.steps(deny, ["rule 1.0.0.1 4.0.0.1 out any deny", deny[1],
                                 "rule 1.0.0.1 2.0.0.1 in any permit pref=90"])
        self.assertEqual([(each["kind"], each["router"], each["peer"], each["about"], each["since"], each["until"])
                          for each in told["for_a_while"] if each["peer"] == "4.0.0.1"],
                         [("leaked", "1.0.0.1", "4.0.0.1", "198.51.100.0/24", 1, 2)])

    def test_what_leaks_between_two_commands(self):
        told = self.steps(["rule 1.0.0.1 4.0.0.1 out any deny"],
                          ["rule 1.0.0.1 4.0.0.1 out under 198.51.100.0/24 deny"])
        self.assertEqual([(each["kind"], each["step"], each["peer"], each["prefix"])
                          for each in told["within_a_step"]],
                         [("leaked", 1, "4.0.0.1", "198.51.100.0/24")])

    def test_no_command_moves_a_router_to_another_as(self):
        old, new = self.file("old.bgp", "router 1.0.0.1 1\n"), self.file("new.bgp", "router 1.0.0.1 2\n")
        ran = inside("what-if", old, "--new", new, "--steps")
        self.assertEqual((ran.returncode, ran.stdout), (2, ""))
        self.assertIn("--steps: 1.0.0.1 is a router of AS 1 in OLD and a router of AS 2 in NEW", ran.stderr)


class Mistakes(Networks):
    def test_what_is_given_is_told_apart(self):
        folder, script = self.folder_of("a"), self.file("a.bgp", "router 1.0.0.1 1\n")
        for words, said in (
                ((folder, script), "it is a folder, and %s none" % script),
                ((script, folder), "write `--new %s`" % folder),
                ((script,), "a CHANGE is expected"),
                ((script, script, "--new", script), "give a CHANGE, or a NEW network"),
                ((script, script, "--steps"), "--steps is of two networks"),
                ((script, script, "--from", "frr"), "--from is of two networks"),
                ((script, "--new", script, "--each"), "--each is of a CHANGE"),
                ((folder, folder, "--from", "bird"), "a/east.conf"),
                ((folder, folder, "--trace", "9.9.9.9", "1.1.1.1"), "9.9.9.9 is no router of both"),
                ((folder, folder, "--feeds", self.file("f", "feed 9.0.0.1 10.0.0.1 update 1.0.0.0/8 9 igp -\n")),
                 "f:1: neither OLD nor NEW has a session of 9.0.0.1 and 10.0.0.1"),
                ((folder, self.file("mixed/bird.conf", "router id 1.0.0.1;\n").parent, "--from", "frr"), "mixed")):
            with self.subTest(words=words):
                ran = inside("what-if", *words)
                self.assertEqual((ran.returncode, ran.stdout), (2, ""), ran.stderr)
                self.assertIn(said, ran.stderr)

    def test_whose_files_they_are(self):
        for files, said in (({"a.conf": "hello\n"}, "neither FRR nor BIRD"),
                            ({"a.conf": "router bgp 1\n", "bird.conf": "router id 1.0.0.1;\n"}, "FRR and of BIRD")):
            for name, text in files.items():
                self.file("x/" + name, text)
            ran = inside("what-if", self.folder / "x", self.folder / "x")
            self.assertEqual(ran.returncode, 2)
            self.assertIn(said, ran.stderr)

    def test_two_folders_as_a_tool(self):
        told = tool("what-if", "toolbox/lessons/frr", "toolbox/lessons/frr", status=1)
        self.assertIn("Configuration: no part differs", told.stdout)


def _plain(rows):
    """Rows without what depends on how the second network came about: a reason, and the order."""
    return sorted((json.dumps({name: value for name, value in row.items() if name != "reason"}, sort_keys=True)
                   if isinstance(row, dict) else json.dumps(row)) for row in rows)
