"""compare-live: answers of real routers, as they were recorded, agree with the tables; each attribute that is edited in
an answer is found, and nothing else.

The answers of FRR are those of the routers of `frr-cases/always-compare-med`, by tools/real-frr-cases; those of BIRD 2 of
the two routers of `toolbox/lessons/live-bird/net`. Times of updates are taken out of FRR's."""
import json
import shutil

from common import DATA, TOP, Case, inside

LIVE = DATA / "live"
FRR = DATA / "frr-cases" / "always-compare-med"
BIRD = TOP / "toolbox" / "lessons" / "live-bird"


class Answers(Case):
    def compared(self, answers, network, *words, status=1):
        """The document of a comparison."""
        ran = inside("compare-live", answers, network, "--json", *words)
        self.assertEqual(ran.returncode, status, ran.stderr)
        return json.loads(ran.stdout)

    def copy(self, name):
        """Answers that a test may edit."""
        shutil.copytree(LIVE / name, self.folder / "answers")
        return self.folder / "answers"

    def edited(self, path, old, new):
        """An answer with something else in it."""
        text = path.read_text()
        self.assertIn(old, text)
        path.write_text(text.replace(old, new))

    def differences(self, told):
        return [(each["router"], each["prefix"], each["only"],
                 [(one["name"], one["live"], one["simulated"]) for one in each["attributes"]])
                for each in told["differences"]]


class Recorded(Answers):
    def test_real_routers_agree(self):
        # As many routes as the routers of the case choose, by its own table.
        chosen = len((FRR / "expected").read_text().splitlines())
        for answers, network, routes in ((LIVE / "frr", FRR / "net", chosen),
                                         (LIVE / "frr-detail", FRR / "net", chosen),
                                         (BIRD / "answers", BIRD / "net", 4)):
            with self.subTest(answers=answers):
                told = self.compared(answers, network, status=0)
                self.assertEqual((told["agreed"], told["differences"], told["unknown"]), (routes, [], []))
        self.assertEqual(self.compared(LIVE / "frr", FRR / "net", status=0)["not_compared"], {"communities": 4})

    def test_one_answer_is_enough(self):
        answers = self.copy("frr")
        for name in ("r2", "r3", "r4"):
            (answers / name).unlink()
        for old, new in (("r1", "r1.json"), ("r1.json", "10.0.0.1"), ("10.0.0.1", "10.0.0.1.json")):
            (answers / old).rename(answers / new)
            self.assertEqual(self.compared(answers, FRR / "net", status=0)["agreed"], 2)

    def test_the_text(self):
        told = inside("compare-live", BIRD / "answers", BIRD / "net")
        self.assertEqual((told.returncode, told.stdout), (0, "4 routes agree, 0 differ, 0 unknown\n"))


class Edited(Answers):
    def test_frr_attribute_by_attribute(self):
        """The best route of r1 to 198.51.100.0/24 is from r3, at 192.0.2.6, with MED 10."""
        for old, new, difference in (
                ('"metric":10,', '"metric":11,', ("MED", "11", "10")),
                ('"metric":10,', '"metric":10,"locPrf":90,', ("preference", "90", "100")),
                ('"peerId":"192.0.2.6","path":"65003"', '"peerId":"192.0.2.2","path":"65003"',
                 ("peer", "10.0.0.2", "10.0.0.3")),
                ('"path":"65003","origin":"IGP","nexthops":[{"ip":"192.0.2.6"', '"path":"65003","origin":"IGP",'
                 '"nexthops":[{"ip":"192.0.2.2"', ("next hop", "10.0.0.2", "10.0.0.3")),
                ('"path":"65003"', '"path":"65003 65009"', ("path", "65003,65009", "65003"))):
            with self.subTest(new=new):
                answers = self.copy("frr")
                self.edited(answers / "r1", old, new)
                told = self.compared(answers, FRR / "net")
                self.assertEqual(self.differences(told), [("10.0.0.1", "198.51.100.0/24", None, [difference])])
                self.assertEqual(told["agreed"], 7)
            shutil.rmtree(answers)

    def test_frr_communities(self):
        answers = self.copy("frr-detail")
        self.edited(answers / "r1", '"metric":10,', '"metric":10,"community":{"string":"65003:1 no-export"},')
        self.assertEqual(self.differences(self.compared(answers, FRR / "net"))[0][3],
                         [("communities", "65003:1 NO_EXPORT", "-")])

    def test_bird_attribute_by_attribute(self):
        """east prefers what comes from west, with MED 30 and a community."""
        for old, new, difference in (
                ("BGP.med: 30", "BGP.med: 31", ("MED", "31", "30")),
                ("BGP.local_pref: 150", "BGP.local_pref: 100", ("preference", "100", "150")),
                ("BGP.community: (65001,7)", "BGP.community: (65001,7) (65001,8)",
                 ("communities", "65001:7 65001:8", "65001:7")),
                ("BGP.as_path: 65001", "BGP.as_path: 65001 65001", ("path", "65001,65001", "65001"))):
            with self.subTest(new=new):
                answers = self.copy(BIRD / "answers")
                self.edited(answers / "east", old, new)
                told = self.compared(answers, BIRD / "net")
                self.assertEqual(self.differences(told), [("10.0.0.2", "192.0.2.0/24", None, [difference])])
            shutil.rmtree(answers)

    def test_a_route_of_one_of_them(self):
        answers = self.copy(BIRD / "answers")
        self.edited(answers / "east", "192.0.2.0/24", "192.0.2.0/25")
        told = self.compared(answers, BIRD / "net")
        self.assertEqual(self.differences(told), [("10.0.0.2", "192.0.2.0/24", "simulated", [])])
        self.assertEqual([(each["router"], each["prefix"]) for each in told["unknown"]], [("10.0.0.2", "192.0.2.0/25")])
        text = inside("compare-live", answers, BIRD / "net").stdout
        self.assertIn("Router east (10.0.0.2)\n  192.0.2.0/24 only in the simulated router\nUnknown\n  east (10.0.0.2) "
                      "192.0.2.0/25: no router originates it, and no neighbour sends it\n", text)

    def test_a_route_that_the_network_has_elsewhere(self):
        network = self.file("net.bgp", "router 10.0.0.1 65001\n# name 10.0.0.1 west\nrouter 10.0.0.2 65002\n"
                                       "# name 10.0.0.2 east\norigin 10.0.0.1 192.0.2.0/24\n")
        told = self.compared(BIRD / "answers", network)
        self.assertEqual(self.differences(told), [("10.0.0.2", "192.0.2.0/24", "live", [])])
        self.assertEqual([(each["router"], each["prefix"]) for each in told["unknown"]], [
            ("10.0.0.1", "198.51.100.0/24")])

    def test_a_script_does_not_say_whose_addresses_of_interfaces_are(self):
        script = self.folder / "net.bgp"
        inside("from-bird", BIRD / "net", "-o", script)
        told = self.compared(BIRD / "answers", script, status=0)
        self.assertEqual((told["agreed"], told["not_compared"]), (4, {"peer": 2, "next hop": 2}))

    def test_names_of_files_are_read_and_no_more(self):
        answers = self.copy(BIRD / "answers")
        (answers / "east").rename(answers / "--help; $(x)")
        told = self.compared(answers, BIRD / "net")
        self.assertEqual([(each["router"], each["prefix"]) for each in told["unknown"]], [("--help; $(x)", None)])


class Mistakes(Answers):
    def test_what_is_no_answer(self):
        cases = (({}, "it has no file"), ({"east": "hello\n"}, "no answer of BIRD 2"),
                 ({"east": "{}"}, "no answer of FRR"), ({"east": "{" * 100000}, "no answer of FRR"),
                 ({"east": '{"routes": {"1.0.0.0/8": 7}}'}, "no answer of FRR"),
                 ({"east": "Table master4:\n", "east.txt": "Table master4:\n"}, "a second file of the router east"),
                 ({"east": "Table master4:\n", "10.0.0.2.x": "Table master4:\n"}, "is the router of two files"))
        for number, (files, said) in enumerate(cases):
            with self.subTest(said=said):
                place = self.folder / str(number)
                place.mkdir()
                for name, text in files.items():
                    (place / name).write_text(text)
                ran = inside("compare-live", place, BIRD / "net")
                self.assertEqual((ran.returncode, ran.stdout), (2, ""))
                self.assertIn(said, ran.stderr)

    def test_no_folder(self):
        ran = inside("compare-live", BIRD / "net" / "east.conf", BIRD / "net")
        self.assertEqual(ran.returncode, 2)
        self.assertIn("a folder of answers is expected", ran.stderr)
