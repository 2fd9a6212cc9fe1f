"""Two routers whose lines for one another differ, against the answers of FRR's and BIRD's own:
data/mismatches/README.md says what a row is."""
import re

from common import DATA, Case, inside
from frr import Told, at, router

from simtools import mismatches

ROWS = DATA / "mismatches"
ENDS = "10.0.0.1 10.0.0.2"
# What a script has for a row that does not come up, behind the line that it is about.
DOWN = {"ebgp": ("join", "stop"), "ibgp": ("join", "stop"), "ospf": ("link", "fail"), "isis": ("link", "fail")}
# Of an end that has no OSPF on the link it is said what to write.
WRITE = "Write `fail %s`" % ENDS


def with_down(script, kind):
    """A script in which the session, or the link, is down."""
    head, word = DOWN[kind]
    return re.sub("(?m)^(%s %s.*)$" % (head, ENDS), r"\1\n%s %s" % (word, ENDS), script)


class Mismatches(Case):
    def convert(self, row, daemon):
        """What the importer of a daemon makes of a row."""
        place = "%s/%d" % (daemon, row.number)
        for end in (1, 2):
            self.file("%s/r%d.conf" % (place, end), {"frr": mismatches.frr, "bird": mismatches.bird}[daemon](row, end))
            if daemon == "bird":
                self.file("%s/r%d.addresses" % (place, end), mismatches.addresses(end))
        made = inside("from-" + daemon, self.folder / place)
        made.stderr = made.stderr.replace(str(self.folder / place) + "/", "")
        return made

    def assert_rows(self, daemon):
        rows = mismatches.rows_of(ROWS / (daemon + ".txt"))
        plain = {row.kind: self.convert(row, daemon) for row in rows if row.is_up and row.ends == ([], [])}
        self.assertEqual({made.returncode for made in plain.values()}, {0})
        for row in [row for row in rows if row.kind != "bare"]:
            with self.subTest(row="%s.txt:%d" % (daemon, row.number)):
                made, script = self.convert(row, daemon), plain[row.kind].stdout
                if not row.is_up and WRITE not in made.stderr:
                    script = with_down(script, row.kind)
                    self.assertNotEqual(script, plain[row.kind].stdout)
                self.assertEqual(made.stdout, script, made.stderr)
                self.assert_told(row, made)

    def assert_told(self, row, made):
        """A row that does not come up is told once, with a line of each end; one that does is not told."""
        notes = [line for line in made.stderr.split("\n") if ": note: " in line]
        is_plain = row.is_up or WRITE in made.stderr or any(" shutdown" in line for end in row.ends for line in end)
        self.assertEqual(len(notes), 0 if is_plain else 1, made.stderr)
        for note in notes:
            first, second = re.findall(r"r[12]\.conf:\d+", note)
            self.assertNotEqual(first[:2], second[:2], note)

    def test_frr(self):
        self.assert_rows("frr")

    def test_bird(self):
        self.assert_rows("bird")

    def test_next_hops_that_bird_does_not_resolve(self):
        """The session is up, and its routes are unreachable at an end that does not resolve them, which is told."""
        rows = [row for row in mismatches.rows_of(ROWS / "bird.txt") if row.kind == "bare"]
        self.assertGreater(len(rows), 5)
        for row in rows:
            with self.subTest(row="bird.txt:%d" % row.number):
                made = self.convert(row, "bird")
                self.assertEqual("BIRD does not resolve the next hop" in made.stderr, not row.is_up)
                self.assertNotIn("\nstop", made.stdout)


def interior(number, *interfaces, bgp=(), more=()):
    """A router of AS 65001 with OSPF everywhere, and these lines of interfaces: `NAME ADDRESS` and what stands below."""
    lines = ["hostname r%d" % number, "interface lo", " ip address 10.0.0.%d/32" % number]
    for (name, where), *below in interfaces:
        lines += ["interface " + name, " ip address " + where, *(" " + line for line in below)]
    lines += ["router ospf", " network 10.0.0.0/8 area 0", "router bgp 65001", " bgp router-id 10.0.0.%d" % number,
              *(" " + line for line in bgp), *more]
    return "\n".join(lines) + "\n"


HELLO = "ip ospf hello-interval 5"


class OtherUses(Told):
    """Links that OSPF does not use, and that something else does."""

    def two(self, here=(), there=(), **more):
        """Two routers with one link, whose hello intervals differ; `here` and `there` are lines of sessions."""
        return {"r1.conf": interior(1, (("eth0", "10.1.0.1/30"), HELLO), bgp=here, **more),
                "r2.conf": interior(2, (("eth0", "10.1.0.2/30"),), bgp=there)}

    def test_nothing_else_uses_it(self):
        files = self.two()
        made = self.convert(files, status=0)
        self.assertEqual(made.stderr, "r1.conf:%d: note: ip ospf hello-interval 5: the link to r2: OSPF finds no neighbour "
                         "over it: the hello interval is 5 here and 10 there (r2.conf:%d); it fails here, too\n" % (
                             at(files["r1.conf"], HELLO), at(files["r2.conf"], "interface eth0")))
        self.assertEqual(made.stdout, "router 10.0.0.1 65001\n# name 10.0.0.1 r1\nrouter 10.0.0.2 65001\n# name 10.0.0.2 "
                         "r2\nlink 10.0.0.1 10.0.0.2 10\nfail 10.0.0.1 10.0.0.2\n")

    def test_a_session_on_its_addresses(self):
        files = self.two(["neighbor 10.1.0.2 remote-as internal"], ["neighbor 10.1.0.1 remote-as internal"])
        made = self.convert(files, status=1)
        self.assertNotIn("fail", made.stdout)
        self.assert_told(made, "r1.conf", at(files["r1.conf"], HELLO), "the link to r2", "(r2.conf:", "stays here")

    def test_a_static_route(self):
        for route in ("ip route 198.51.100.0/24 10.1.0.2", "ip route 198.51.100.0/24 eth0"):
            made = self.convert(self.two(more=[route]), status=1)
            self.assertNotIn("fail", made.stdout, route)
        self.assertIn("fail", self.convert(self.two(more=["ip route 198.51.100.0/24 Null0"]), status=0).stdout)

    def test_another_link_of_the_two(self):
        """The one that OSPF uses stands for both, though it costs more."""
        other = (("eth1", "10.1.0.5/30"), "ip ospf cost 30"), (("eth1", "10.1.0.6/30"), "ip ospf cost 30")
        made = self.convert({"r1.conf": interior(1, (("eth0", "10.1.0.1/30"), HELLO), other[0]),
                             "r2.conf": interior(2, (("eth0", "10.1.0.2/30"),), other[1])}, status=1)
        self.assertIn("\nlink 10.0.0.1 10.0.0.2 30\n", made.stdout)
        self.assertNotIn("fail", made.stdout)
        self.assertIn("another link of the two stands for it here", made.stderr)

    def test_isis_without_a_net(self):
        rows = [row for row in mismatches.rows_of(ROWS / "frr.txt") if row.kind == "isis" and row.ends == ([], [])]
        files = {"r%d.conf" % end: mismatches.frr(rows[0], end) for end in (1, 2)}
        files["r2.conf"] = files["r2.conf"].replace(" net 49.0001.0000.0000.0002.00\n", "")
        self.assert_told(self.convert(files, status=1), "r2.conf", at(files["r2.conf"], "ip router isis X"), "no `net`")

    def test_masks_that_differ(self):
        """They are no link here; where one has not the other's address in its subnet, they are none in FRR, either."""
        files = {"r1.conf": interior(1, (("eth0", "10.1.0.1/30"),)), "r2.conf": interior(2, (("eth0", "10.1.0.2/29"),))}
        made = self.convert(files, status=1)
        self.assertNotIn("link", made.stdout)
        self.assert_told(made, "r1.conf", 5, "the mask is of 30 bits here and of 29 at r2 (r2.conf:5)",
                         "`link 10.0.0.1 10.0.0.2 10`")
        files["r2.conf"] = interior(2, (("eth0", "10.1.0.5/29"),))
        self.assert_quiet(self.convert(files))

    def test_a_subnet_with_a_third_router(self):
        """Of three routers on a subnet the third becomes the designated one."""
        silent = {"r%d.conf" % number: interior(number, (("eth0", "10.1.0.%d/24" % number), "ip ospf priority 0"))
                  for number in (1, 2)}
        self.assertIn("fail 10.0.0.1 10.0.0.2\n", self.convert(silent, status=0).stdout)
        silent["r3.conf"] = interior(3, (("eth0", "10.1.0.3/24"),))
        self.assertNotIn("fail", self.convert(silent).stdout)


class OtherSessions(Told):
    """Rules of sessions that the rows do not have."""

    def convert_ends(self, here=(), there=(), **given):
        """A session of two ASes with these lines below `router bgp`."""
        return self.convert({"a.conf": router(65001, "10.0.0.1", "eth0 10.9.0.1/30", bgp=[
            "neighbor 10.9.0.2 remote-as 65002", *here]), "b.conf": router(65002, "10.0.0.9", "eth0 10.9.0.2/30", bgp=[
                "neighbor 10.9.0.1 remote-as 65001", *there])}, **given)

    def test_what_a_group_says(self):
        group = ["neighbor ALL peer-group", "neighbor ALL timers 3 9", "neighbor 10.9.0.1 peer-group ALL"]
        made = self.convert_ends(["bgp minimum-holdtime 10"], group, status=0)
        self.assertIn("stop 10.0.0.1 10.0.0.9\n", made.stdout)
        self.assertIn("it takes a hold time of 10 seconds and more, and the other end offers 9", made.stderr)
        self.assertNotIn("stop", self.convert_ends(["bgp minimum-holdtime 9"], group, status=0).stdout)

    def test_timers_of_the_datacenter_profile(self):
        """There a hold time is 9 seconds without a line."""
        self.assertIn("stop", self.convert_ends(["bgp minimum-holdtime 10", "frr defaults datacenter"], [
            "frr defaults datacenter"]).stdout)

    def test_bfd_that_a_session_waits_for(self):
        self.assertIn("stop 10.0.0.1 10.0.0.9\n", self.convert_ends(["neighbor 10.9.0.2 bfd strict"], status=0).stdout)
        self.assertNotIn("stop", self.convert_ends(["neighbor 10.9.0.2 bfd strict"], ["neighbor 10.9.0.1 bfd"]).stdout)

    def test_values_that_are_none_are_told(self):
        for line in ("timers bgp 3 2", "neighbor 10.9.0.2 timers 3 70000", "bgp minimum-holdtime 0",
                     "neighbor 10.9.0.2 ttl-security hops 0"):
            made = self.convert_ends([line], status=1)
            self.assertIn("not taken over: %s: from-frr does not know this line" % line, made.stderr)
            self.assertNotIn("stop", made.stdout)

    def test_values_of_interfaces_that_are_none_are_told(self):
        for line in ("ip ospf hello-interval 0", "ip ospf priority 256", "ip ospf network none",
                     "ip ospf message-digest-key 0 md5 a", "isis circuit-type level-3", "isis password a"):
            made = self.convert({"a.conf": interior(1, (("eth0", "10.1.0.1/30"), line))}, status=1)
            self.assert_told(made, "a.conf", 6, "from-frr does not know this line")

    def test_what_bird_requires(self):
        """BIRD 2.0.12 has `require roles` alone; its later manuals say which capability each asks for."""
        one = """router id 10.0.0.1;
protocol bgp x { local 10.1.0.1 as 65001; neighbor 10.1.0.2 as 65002;
%s
ipv4 { import all; export all; }; }
"""
        other = one.replace("10.0.0.1", "10.0.0.2").replace("10.1.0.1 as 65001", "10.1.0.2 as 65002").replace(
            "neighbor 10.1.0.2 as 65002", "neighbor 10.1.0.1 as 65001")
        for here, there, is_up in (("require hostname;", "", False), ("require hostname;", "advertise hostname;", True),
                                   ("require as4;", "", True), ("require as4;", "enable as4 off;", False),
                                   ("require route refresh;", "capabilities off;", False),
                                   ("require graceful restart;", "graceful restart off;", False)):
            with self.subTest(here=here, there=there):
                place = "%d" % len(list(self.folder.iterdir()))
                self.file(place + "/a.conf", one % here)
                self.file(place + "/b.conf", other % there)
                made = inside("from-bird", self.folder / place)
                self.assertEqual(("stop 10.0.0.1 10.0.0.2\n" not in made.stdout, made.returncode), (is_up, 0),
                                 made.stderr)
