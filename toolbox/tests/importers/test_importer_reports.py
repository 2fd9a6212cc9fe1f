"""What importers tell on standard error: its order, how the same of many lines is told, and names."""
from common import inside
from frr import Told, at, border, inner, OUTSIDE, router


class Reports(Told):
    def test_what_changes_the_network_stands_first(self):
        """Then what may change it, then notes, each by file and line."""
        one = border("neighbor 10.0.0.2 next-hop-self", "redistribute connected", "network 203.0.113.0/24",
                     more=["ip prefix-list UNUSED permit any"]).replace(" bgp bestpath compare-routerid\n", "")
        made = self.convert({"a.conf": "hostname a\n" + one, "b.conf": "some word\n" + inner(), "c.conf": OUTSIDE})
        told = [line.split(": ")[1] for line in made.stderr.split("\n") if ": note" in line or ": not taken" in line]
        self.assertEqual(told, sorted(told, key=["not taken over", "note"].index))
        texts = made.stderr
        certain, may, note = (texts.index(part) for part in ("some word", "ORIGIN incomplete", "no line names `UNUSED`"))
        self.assertTrue(certain < may < note, texts)

    def many(self, count):
        lines = ["network 198.51.%d.0/24" % number for number in range(count)]
        return {"a.conf": router(65001, "10.0.0.1", "eth0 10.0.1.1/30", bgp=lines)}

    def test_the_same_of_many_lines(self):
        few, many = self.convert(self.many(8), status=1), self.convert(self.many(90), status=1)
        self.assertEqual(few.stderr.count("no connected, static or interior route"), 8)
        self.assertEqual(many.stderr.count("no connected, static or interior route"), 1)
        self.assert_told(many, "a.conf", at(self.many(90)["a.conf"], "network 198.51.0.0/24"),
                         "(so it is at 89 other lines of this file; `--all` lists them)")
        whole = self.convert(self.many(90), "--all", status=1)
        self.assertEqual(whole.stderr.count("no connected, static or interior route"), 90)
        self.assertEqual(whole.stdout, many.stdout)

    def test_lists(self):
        third = router(65001, "10.0.0.3", "eth0 10.0.1.6/30", bgp=["neighbor 10.0.0.1 remote-as internal",
            "neighbor 10.0.0.1 update-source lo"], ospf="10.0.0.0/16")
        files = {"a.conf": border("neighbor 10.0.0.3 remote-as internal", "neighbor 10.0.0.3 update-source lo",
                                  interfaces=["eth2 10.0.1.5/30"]),
                 "b.conf": "hostname second\n" + inner(), "c.conf": OUTSIDE, "d.conf": "hostname third\n" + third}
        self.assertIn("known to second and 1 more (`--all` lists them), which", self.convert(files, status=1).stderr)
        self.assertIn("known to second, third, which", self.convert(files, "--all", status=1).stderr)

    def test_names(self):
        """A router is told by its name, but not in what is to be written, nor where two have one name."""
        files = {"a.conf": border("neighbor 10.0.0.2 next-hop-self", ospf=""), "b.conf": "hostname b\n" + inner(),
                 "c.conf": OUTSIDE}
        self.assertIn("OSPF or IS-IS does not run over the link to b, ", self.convert(files).stderr)
        self.assertIn("Write `fail 10.0.0.1 10.0.0.2`", self.convert(files).stderr)
        files["c.conf"] = "hostname b\n" + OUTSIDE
        self.assertIn("over the link to 10.0.0.2, ", self.convert(files).stderr)


class Addresses(Told):
    SAID = "is no address, four numbers of 0 to 255 as in 10.0.0.1"

    def test_frr(self):
        """FRR goes on without such a line, and so does from-frr."""
        for old, new, wrong in ((" ip address 10.9.0.1/30", " ip address 10.9.0.300/30", "10.9.0.300"),
                                (" ip address 10.9.0.1/30", " ip address 10.9.0/30", "10.9.0"),
                                (" neighbor 10.0.0.2 update-source lo", " neighbor 10.0.0.2 update-source 10.0.0.256",
                                 "10.0.0.256"),
                                (" neighbor 10.9.0.2 remote-as 65002", " neighbor 10.9.0 remote-as 65002", "10.9.0"),
                                (" bgp router-id 10.0.0.1", " bgp router-id 10.0.0", "10.0.0")):
            with self.subTest(new=new):
                text = border("neighbor 10.0.0.2 next-hop-self").replace(old + "\n", new + "\n")
                made = self.convert({"a.conf": text, "b.conf": inner(), "c.conf": OUTSIDE}, status=1)
                self.assert_told(made, "a.conf", at(text, new.strip()), "`%s` %s" % (wrong, self.SAID))

    def test_bird(self):
        """BIRD takes no file with such a word."""
        text = ("router id 10.0.0.1;\nprotocol bgp {\nlocal 10.1.0.1 as 65001; neighbor %s as 65002;\n"
                "ipv4 { import all; };\n}\n")
        for wrong in ("10.1.0.300", "10.1.0"):
            made = inside("from-bird", self.file("%s.conf" % wrong, text % wrong))
            self.assertEqual((made.returncode, made.stdout), (2, ""))
            self.assertEqual(made.stderr, "%s:3: `%s` %s\n" % (self.folder / (wrong + ".conf"), wrong, self.SAID))
