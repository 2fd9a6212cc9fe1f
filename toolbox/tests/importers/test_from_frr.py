"""from-frr: six configurations after FRR's documentation, with mistakes among them, and the way back from
tools/real-routers."""
import os
import re

from common import DATA, EXAMPLES, Case, inside, program, tool
from frr import OUTSIDE, Told, at, border, inner, router
from simtools import converging_networks, real_routers

SCRIPTS = [path for path in EXAMPLES if path.name != "tour.bgp"]


# A link of a virtual peer has the peer's address on its subnet, to which FRR counts no cost; tools/real-routers has a
# route with the link's cost instead.
ON_ITS_SUBNET = re.compile(".*FRR counts 0 to a next hop on its own subnets.*\n")


def interfaces(real, net, router):
    """The interfaces of a router as tools/real-routers makes them by `ip`: its own address, and each link that is up,
    with a subnet; and that the interior knows all of them."""
    lines = ["router ospf", " network 0.0.0.0/0 area 0", "interface lo", " ip address %s/32" % real.show(router)]
    for number, ends in enumerate(sorted((ends for ends, (_, is_up) in net.links.items() if is_up), key=sorted)):
        if router in ends:
            other = next(iter(ends - {router}))
            subnet = "%s peer %s/32" % (real.show(router),
                                        real.show(other)) if net.nodes[other][1] else "172.16.%d.%d/30" % (number, 1 +
                                            (router > other))
            lines += ["interface to%d" % other, " ip address " + subnet, " ip ospf cost %d" % net.links[ends][0]]
    return "\n".join(lines) + "\n"


def fed(real, peer, router, prefix, attr):
    """The feed by which a virtual peer tells a router a route."""
    med = "-" if attr["med"] is None else attr["med"]
    words = (real.show(peer), real.show(router), real.model.show_prefix(prefix), real.model.show_path(attr["path"]),
             ("igp", "egp", "inc")[attr["origin"]], med)
    comms = " comm=" + ",".join(map(str, attr["comms"])) if attr["comms"] else ""
    return "feed %s %s update %s %s %s %s" % words + comms


class FromFrr(Case):
    def test_six_configurations(self):
        told = tool("from-frr", "toolbox/tests/data/frr", status=1)
        self.assert_as_file(told.stdout, DATA / "frr-script.bgp")
        self.assert_as_file(told.stderr, DATA / "frr-told.txt")
        self.assertEqual(set(program(told.stdout)), {"ok"})

    def test_the_way_back(self):
        real = real_routers
        for path in SCRIPTS:
            with self.subTest(path=path.name):
                self.assert_way_back(real, path.stem, path.read_text().split("\n"))

    def test_the_way_back_of_random_networks(self):
        real = real_routers
        for seed in (1, 5, 6, 7):
            with self.subTest(seed=seed):
                self.assert_way_back(real, "seed%d" % seed, converging_networks.script(seed).split("\n"))

    def assert_way_back(self, real, name, lines):
        """The network that a script ends with, as FRR's configurations, read back, has the same tables."""
        net, folder = real.model.Net(), self.folder / name
        for line in lines:
            real.model.answer(net, line)
        deliveries = real.converge(net)
        for each in real.routers(net):
            self.file("%s/%s.conf" % (name, real.show(each)), interfaces(real, net, each) + real.configuration(net, each))
        made = tool("from-frr", folder)
        self.assertNotIn("not taken over", ON_ITS_SUBNET.sub("", made.stderr))
        feeds = [fed(real, v, r, p, a) for (r, p, v), a in sorted(net.received.items())
                 if net.nodes[v][1] and not net.nodes[r][1]]
        self.assertEqual(self.tables(real, net, made.stdout.split("\n") + feeds),
                         self.tables(real, net, lines + deliveries))

    def tables(self, real, net, lines):
        """The chosen routes of all routers after these lines, converged."""
        converged = tool("converge", "--at-end", self.file("now.bgp", "\n".join(lines) + "\n"), status=0).stdout
        questions = ["routes %s" % real.show(router) for router in real.routers(net)]
        replies = program(converged + "quiet\n" + "\n".join(questions) + "\n")
        return replies[len(replies) - replies[::-1].index("yes"):]

    def test_mistakes(self):
        for name, text, said in (("a.conf", "hostname x\n", "a.conf: a line `router bgp N` is expected"),
                                 ("a.conf", "router bgp 1\n", "a.conf: `bgp router-id A` is expected")):
            self.file("net/" + name, text)
            self.assertIn(said, tool("from-frr", self.folder / "net", status=2).stderr)
        for name in ("a", "b"):
            self.file("two/%s.conf" % name, "router bgp 1\n bgp router-id 1.1.1.1\n")
        self.assertIn("b.conf: the router-id 1.1.1.1 is that of", tool("from-frr", self.folder / "two",
            status=2).stderr)
        os.mkdir(self.folder / "none")
        self.assertIn("it has no file", tool("from-frr", self.folder / "none", status=2).stderr)
        self.assertIn("a directory of FRR configurations is expected",
                      tool("from-frr", self.folder / "gone", status=2).stderr)


class NextHops(Told):
    def test_a_next_hop_that_the_interior_does_not_know(self):
        text = border()
        made = self.convert({"a.conf": text, "b.conf": inner(), "c.conf": OUTSIDE}, status=1)
        self.assert_told(made, "a.conf", at(text, "neighbor 10.9.0.2 remote-as 65002"), "next-hop-self",
                         "`self 10.0.0.1 10.0.0.2 on`", "`rule 10.0.0.1 10.0.0.2 out first 65002 deny`")

    def test_each_router_that_does_not_know_it(self):
        """A rule for each of them; those behind a reflector get none."""
        text = border("neighbor 10.0.0.3 remote-as internal", "neighbor 10.0.0.3 update-source lo",
                      interfaces=["eth2 10.0.2.1/30"])
        third = router(65001, "10.0.0.3", "eth0 10.0.2.2/30", ospf="10.0.0.0/16", bgp=[
            "neighbor 10.0.0.1 remote-as internal", "neighbor 10.0.0.1 update-source lo"])
        made = self.convert({"a.conf": text, "b.conf": inner(), "c.conf": OUTSIDE, "d.conf": third}, status=1)
        self.assert_told(made, "a.conf", at(text, "neighbor 10.9.0.2 remote-as 65002"), "10.0.0.2 and 1 more (`--all` lists them)",
                         "`rule 10.0.0.1 10.0.0.2 out first 65002 deny`, `rule 10.0.0.1 10.0.0.3 out first 65002 deny`")

    def test_ways_to_make_it_known(self):
        subnet = "10.9.0.0/30"
        for text in (border("neighbor 10.0.0.2 next-hop-self"), border(ospf="10.0.0.0/8"),
                     border("network " + subnet)):
            self.assert_quiet(self.convert({"a.conf": text, "b.conf": inner(), "c.conf": OUTSIDE}))
        passive = border(more=["router ospf", " network 10.9.0.0/30 area 0", " passive-interface eth1"])
        by_interface = border(more=["interface eth1", " ip ospf area 0"])
        by_static = inner(more=["ip route 10.9.0.0/30 10.0.1.1"])
        for one, other in ((passive, inner()), (by_interface, inner()), (border(), by_static)):
            self.assert_quiet(self.convert({"a.conf": one, "b.conf": other, "c.conf": OUTSIDE}))

    def test_an_external_route_has_another_cost(self):
        text = border(more=["router ospf", " redistribute connected"])
        second = router(65003, "10.0.0.8", "eth0 10.8.0.2/30", bgp=["neighbor 10.8.0.1 remote-as 65001"])
        inside = inner("neighbor 10.8.0.2 remote-as 65003", "neighbor 10.0.0.1 next-hop-self",
                       interfaces=["eth1 10.8.0.1/30"])
        made = self.convert({"a.conf": text, "b.conf": inside, "c.conf": OUTSIDE, "d.conf": second}, status=1)
        self.assert_told(made, "a.conf", at(text, "neighbor 10.9.0.2 remote-as 65002"), "external or static route",
                         "cost")

    def test_one_neighbour_at_two_borders(self):
        text, second = border(ospf="10.0.0.0/8"), inner("neighbor 10.8.0.2 remote-as 65002",
                                                        interfaces=["eth1 10.8.0.1/30"],
                                                        more=["router ospf", " network 10.8.0.0/16 area 0"])
        outside = router(65002, "10.0.0.9", "eth0 10.9.0.2/30", "eth1 10.8.0.2/30",
                         bgp=["neighbor 10.9.0.1 remote-as 65001", "neighbor 10.8.0.1 remote-as 65001"])
        made = self.convert({"a.conf": text, "b.conf": second, "c.conf": outside}, status=1)
        self.assert_told(made, "a.conf", at(text, "neighbor 10.9.0.2 remote-as 65002"),
                         "10.0.0.9 has links to several routers of AS 65001", "`self 10.0.0.1 10.0.0.2 on`")
        self.assert_told(made, "b.conf", at(second, "neighbor 10.8.0.2 remote-as 65002"),
                         "`self 10.0.0.2 10.0.0.1 on`")

    def test_reflected_routes_reach_others(self):
        """A border tells its reflector the route as it came, and the reflector's client does not know the next hop,
        either."""
        middle = router(65001, "10.0.0.2", "eth0 10.0.1.2/30", "eth1 10.0.2.1/30", ospf="10.0.0.0/16",
                        more=["ip route 10.9.0.0/30 10.0.1.1"], bgp=[
            "neighbor %s %s" % each for each in (("10.0.0.1", "remote-as internal"), ("10.0.0.1", "update-source lo"),
                                                 ("10.0.0.1", "route-reflector-client"),
                                                 ("10.0.0.3", "remote-as internal"), ("10.0.0.3", "update-source lo"),
                                                 ("10.0.0.3", "route-reflector-client"))])
        client = router(65001, "10.0.0.3", "eth0 10.0.2.2/30", ospf="10.0.0.0/16",
                        bgp=["neighbor 10.0.0.2 remote-as internal", "neighbor 10.0.0.2 update-source lo"])
        made = self.convert({"a.conf": border(), "b.conf": middle, "c.conf": OUTSIDE, "d.conf": client}, status=1)
        self.assert_told(made, "a.conf", at(border(), "neighbor 10.9.0.2 remote-as 65002"), "known to 10.0.0.3,")


class Sessions(Told):
    def ring(self, *bgp):
        """Three routers of one AS in a ring; the first has these lines of BGP."""
        one = router(65001, "10.0.0.1", "eth0 10.0.1.1/30", "eth1 10.0.3.1/30", bgp=bgp)
        two = router(65001, "10.0.0.2", "eth0 10.0.1.2/30", "eth1 10.0.2.1/30",
                     bgp=["neighbor 10.0.1.1 remote-as internal", "neighbor 10.0.0.1 remote-as internal",
                          "neighbor 10.0.0.1 update-source lo"])
        three = router(65001, "10.0.0.3", "eth0 10.0.2.2/30", "eth1 10.0.3.2/30")
        return {"a.conf": one, "b.conf": two, "c.conf": three}

    def test_a_session_goes_with_the_link_of_its_address(self):
        files = self.ring("neighbor 10.0.1.2 remote-as internal")
        files["b.conf"] = files["b.conf"].replace(" neighbor 10.0.0.1 remote-as internal\n neighbor 10.0.0.1 "
                                                  "update-source lo\n", "")
        made = self.convert(files, status=1)
        self.assert_told(made, "a.conf", at(files["a.conf"], "neighbor 10.0.1.2 remote-as internal"),
                         "`stop 10.0.0.1 10.0.0.2` beside `fail 10.0.0.1 10.0.0.2`")

    def test_a_session_of_loopbacks_does_not(self):
        files = self.ring("neighbor 10.0.0.2 remote-as internal", "neighbor 10.0.0.2 update-source lo")
        files["b.conf"] = files["b.conf"].replace(" neighbor 10.0.1.1 remote-as internal\n", "")
        self.assert_quiet(self.convert(files))

    def test_two_links_to_one_neighbour(self):
        one = router(65001, "10.0.0.1", "eth0 10.8.0.1/30 30", "eth1 10.9.0.1/30 20",
                     bgp=["neighbor 10.8.0.2 remote-as 65002", "neighbor 10.9.0.2 remote-as 65002"])
        other = router(65002, "10.0.0.9", "eth0 10.8.0.2/30 30", "eth1 10.9.0.2/30 20",
                       bgp=["neighbor 10.8.0.1 remote-as 65001", "neighbor 10.9.0.1 remote-as 65001"])
        made = self.convert({"a.conf": one, "b.conf": other}, status=1)
        self.assert_told(made, "a.conf", at(one, "interface eth0"), "second link to 10.0.0.9",
                         "`fail 10.0.0.1 10.0.0.9` takes both")
        self.assert_told(made, "a.conf", at(one, "neighbor 10.9.0.2 remote-as 65002"), "a session already")
        self.assertIn("link 10.0.0.1 10.0.0.9 20\n", made.stdout)

    def test_no_session_without_a_way_to_its_address(self):
        one, two = border("neighbor 10.0.0.2 next-hop-self", ospf=""), inner().replace("router ospf\n network "
            "10.0.0.0/16 area 0\n", "")
        made = self.convert({"a.conf": one, "b.conf": two}, status=1)
        self.assert_told(made, "a.conf", at(one, "neighbor 10.0.0.2 remote-as internal"),
                         "no OSPF, IS-IS or static route", "`stop 10.0.0.1 10.0.0.2`")

    def test_no_session_from_another_address(self):
        one, two = [text.replace(" neighbor 10.0.0.%d update-source lo\n" % number, "")
                    for text, number in ((border("neighbor 10.0.0.2 next-hop-self"), 2), (inner(), 1))]
        made = self.convert({"a.conf": one, "b.conf": two}, status=0)
        self.assertIn("a.conf:%d: note: neighbor" % at(one, "neighbor 10.0.0.2 remote-as internal"), made.stderr)
        self.assertIn("(`update-source` is missing), so that the session never comes up (b.conf:%d); it is stopped here, too"
                      % at(two, "neighbor 10.0.0.1 remote-as internal"), made.stderr)
        self.assertIn("\nstop 10.0.0.1 10.0.0.2\n", made.stdout)
        # It is enough that one end opens it from its loopback.
        self.assertNotIn("update-source", self.convert({"a.conf": one, "b.conf": inner()}).stderr)

    def external(self, here=(), there=(), address=("10.9.0.1", "10.9.0.2")):
        """Two routers of two ASes with a session."""
        return {"a.conf": router(65001, "10.0.0.1", "eth0 10.9.0.1/30",
                                 bgp=["neighbor %s remote-as 65002" % address[1],
                                      *("neighbor %s %s" % (address[1], each) for each in here)]),
                "b.conf": router(65002, "10.0.0.9", "eth0 10.9.0.2/30",
                                 bgp=["neighbor %s remote-as 65001" % address[0],
                                      *("neighbor %s %s" % (address[0], each) for each in there)])}

    def test_sessions_that_never_come_up_are_stopped(self):
        loopbacks = ("10.0.0.1", "10.0.0.9")
        for here, there, address, said in (
                (["passive"], ["passive"], None, "both ends wait"), (["password one"], ["password two"], None,
                    "different passwords"),
                (["update-source lo"], ["update-source lo"], loopbacks, "no `ebgp-multihop`"),
                (["local-role provider"], ["local-role provider"], None, "do not go together"),
                (["local-role provider strict-mode"], [], None, "asks for a role")):
            with self.subTest(said=said):
                made = self.convert(self.external(here, there, address or ("10.9.0.1", "10.9.0.2")), status=0)
                self.assertIn("stop 10.0.0.1 10.0.0.9\n", made.stdout)
                self.assertIn("a.conf:%d: note: neighbor" % at(self.external()["a.conf"],
                                                               "neighbor 10.9.0.2 remote-as 65002"), made.stderr)
                self.assertIn(said, made.stderr)
        for here, there in ((["shutdown"], []), ([], ["shutdown message gone for good"])):
            self.assertIn("stop 10.0.0.1 10.0.0.9\n", self.convert(self.external(here, there)).stdout)
        self.assertNotIn("stop", self.convert(self.external(["passive", "password one"], ["password one"])).stdout)

    def test_a_static_route_counts_as_connected(self):
        """So an external session of loopbacks comes up without `ebgp-multihop`."""
        files = self.external(["update-source lo"], ["update-source lo"], ("10.0.0.1", "10.0.0.9"))
        files["a.conf"] += "ip route 10.0.0.9/32 10.9.0.2\n"
        self.assertIn("stop", self.convert(files).stdout)
        files["b.conf"] += "ip route 10.0.0.1/32 10.9.0.1\n"
        self.assertNotIn("stop", self.convert(files, status=0).stdout)

    def test_a_way_by_bgp_alone(self):
        """The route to the address of a session cannot come over it."""
        one, two = [text.replace("network 10.0.0.0/16 area 0", "network 10.0.1.0/24 area 0") for text in (
            border("neighbor 10.0.0.2 next-hop-self", "redistribute connected"), inner("redistribute connected"))]
        made = self.convert({"a.conf": one, "b.conf": two}, status=1)
        self.assert_told(made, "a.conf", at(one, "neighbor 10.0.0.2 remote-as internal"),
                         "no OSPF, IS-IS or static route")

    def test_not_activated(self):
        """Where `no bgp default ipv4-unicast` stands, a neighbour carries routes only where it is activated, be it by
        its group."""
        files = self.external(["activate"])
        files["b.conf"] = files["b.conf"].replace(" bgp deterministic-med\n",
                                                  " bgp deterministic-med\n no bgp default ipv4-unicast\n")
        self.assertIn("stop 10.0.0.1 10.0.0.9\n", self.convert(files, status=0).stdout)
        files["b.conf"] += " neighbor ALL peer-group\n neighbor 10.9.0.1 peer-group ALL\n"
        files["b.conf"] += " address-family ipv4 unicast\n  neighbor ALL activate\n"
        self.assertNotIn("stop", self.convert(files, status=0).stdout)
        files["a.conf"] += " no neighbor 10.9.0.2 activate\n"
        self.assertIn("stop 10.0.0.1 10.0.0.9\n", self.convert(files, status=0).stdout)

    def test_bgp_shutdown(self):
        files = self.external()
        files["a.conf"] += " bgp shutdown\n"
        self.assertIn("stop 10.0.0.1 10.0.0.9\n", self.convert(files, status=0).stdout)

    def test_sessions_over_ipv6(self):
        files = self.external()
        files["a.conf"] += " neighbor 2001:db8::2 remote-as 65002\n"
        self.assert_told(self.convert(files, status=1), "a.conf", at(files["a.conf"],
            "neighbor 2001:db8::2 remote-as 65002"), "IPv4")
        files["a.conf"] += " address-family ipv4 unicast\n  no neighbor 2001:db8::2 activate\n"
        self.assert_quiet(self.convert(files))

    def test_a_neighbour_of_an_interface(self):
        """An unnumbered session: the subnet of the interface, or its subnet of IPv6, has two ends."""
        for address in ("ip address 10.9.0.%d/30", "ipv6 address 2001:db8::%d/64"):
            files = {"%s.conf" % name: "interface eth0\n %s\nrouter bgp %d\n bgp router-id 10.0.0.%d\n no bgp "
                     "ebgp-requires-policy\n neighbor eth0 interface remote-as external\n" % (
                address % number, 65000 + number, number) for name, number in (("a", 1), ("b", 2))}
            made = self.convert(files, status=0)
            self.assertIn("link 10.0.0.1 10.0.0.2 10\njoin 10.0.0.1 10.0.0.2\n", made.stdout)
        del files["b.conf"]
        self.assert_told(self.convert(files, status=1), "a.conf", 6, "no other", "`join`")

    def test_a_subnet_of_three(self):
        files = {"%s.conf" % name: router(65000 + number, "10.0.0.%d" % number, "eth0 10.9.0.%d/24" % number, bgp=[
            "neighbor 10.9.0.%d remote-as external" % other for other in (1, 2, 3) if other != number])
            for name, number in (("a", 1), ("b", 2), ("c", 3))}
        made = self.convert(files, status=1)
        self.assert_told(made, "a.conf", 4, "3 routers share the subnet", "`fail`")
        self.assert_told(made, "a.conf", 4, "next hop")


class Vrfs(Told):
    TEXT = OUTSIDE + """router bgp 65002 vrf RED
 neighbor 10.9.0.1 shutdown
 neighbor 192.0.2.1 remote-as 65009
 address-family ipv4 unicast
  network 198.51.100.0/24
 exit-address-family
exit
interface eth5 vrf RED
 ip address 10.9.0.1/30
vrf RED
 ip route 203.0.113.0/24 Null0
exit-vrf
ip route 203.0.114.0/24 10.9.0.1 vrf RED
"""

    def test_nothing_of_a_vrf_is_the_default_instance(self):
        made = self.convert({"a.conf": border("neighbor 10.0.0.2 next-hop-self"), "b.conf": inner(),
                             "c.conf": self.TEXT}, status=1)
        plain = self.convert({"a.conf": border("neighbor 10.0.0.2 next-hop-self"), "b.conf": inner(),
                              "c.conf": OUTSIDE}, status=0)
        self.assertEqual(made.stdout, plain.stdout)
        for line, words in (("router bgp 65002 vrf RED", "the 4 lines under it"),
                            ("interface eth5 vrf RED", "the line under it"), ("vrf RED", "no VRFs here"),
                            ("ip route 203.0.114.0/24 10.9.0.1 vrf RED", "VRF")):
            self.assert_told(made, "c.conf", at(self.TEXT, line), words)


class Lines(Told):
    def test_lines_that_decide_nothing_are_counted(self):
        text = border("neighbor 10.0.0.2 next-hop-self", "timers bgp 3 9", "neighbor 10.0.0.2 timers 3 9",
                      "neighbor 10.0.0.2 bfd", "neighbor 10.9.0.2 description to the provider",
                      more=["interface eth0", " description uplink", " ipv6 address fe80::1/64", "log syslog",
                            "ipv6 route ::/0 Null0"])
        made = self.convert({"a.conf": text, "b.conf": inner(), "c.conf": OUTSIDE}, status=0)
        self.assertEqual(made.stderr, "6 lines that decide no route were left out: descriptions 2, IPv6 2, bfd 1, logs "
                         "1\n")

    def test_exit_leaves_an_address_family(self):
        """And not all of `router bgp`."""
        text = border("address-family ipv6 unicast", "exit", "neighbor 10.0.0.2 next-hop-self",
                      "address-family ipv4 unicast",
                      "exit", "bgp bestpath med confed", "exit", "neighbor 10.9.0.2 shutdown")
        made = self.convert({"a.conf": text, "b.conf": inner(), "c.conf": OUTSIDE}, status=1)
        self.assertIn("self 10.0.0.1 10.0.0.2 on\n", made.stdout)
        self.assert_told(made, "a.conf", at(text, "bgp bestpath med confed"), "MED")
        self.assert_told(made, "a.conf", at(text, "neighbor 10.9.0.2 shutdown"), "does not know")

    def test_what_cannot_be_shown_is_escaped(self):
        text = border("neighbor 10.0.0.2 next-hop-self", more=["wib\x1b[31mble"])
        made = self.convert({"a.conf": text, "b.conf": inner(), "c.conf": OUTSIDE}, status=1)
        self.assertIn("wib\\x1b[31mble: from-frr does not know", made.stderr)
        self.assertNotIn("\x1b", made.stderr)

    def test_an_unknown_line_is_told(self):
        text = border("neighbor 10.0.0.2 next-hop-self", "neighbor 10.9.0.2 frobnicate",
                      more=["wibble 5", "route-map M permit 10", " set wobble"])
        made = self.convert({"a.conf": text, "b.conf": inner(), "c.conf": OUTSIDE}, status=1)
        for line in ("neighbor 10.9.0.2 frobnicate", "wibble 5", "set wobble"):
            self.assert_told(made, "a.conf", at(text, line), line, "does not know")

    def test_a_no_takes_a_line_back(self):
        text = border("neighbor 10.0.0.2 next-hop-self", "neighbor 10.9.0.2 shutdown", "no neighbor 10.9.0.2 shutdown",
                      "bgp always-compare-med", "no bgp always-compare-med", "network 10.0.1.0/30",
                      "no network 10.0.1.0/30",
                      more=["route-map M deny 10", "no route-map M", "route-map M permit 10",
                            "ip route 10.3.0.0/16 Null0", "no ip route 10.3.0.0/16 Null0"])
        made = self.convert({"a.conf": text, "b.conf": inner(), "c.conf": OUTSIDE})
        self.assert_quiet(made)
        self.assertNotIn("origin", made.stdout)
        self.assertNotIn("stop", made.stdout)
        self.assertNotIn("med ", made.stdout)

    def test_what_a_member_has_otherwise_than_its_group(self):
        group = ["neighbor G peer-group", "neighbor G next-hop-self", "neighbor 10.0.0.2 peer-group G"]
        self.assertIn("self 10.0.0.1 10.0.0.2 on", self.convert({"a.conf": border(*group), "b.conf": inner(),
            "c.conf": OUTSIDE}).stdout)
        self.assertNotIn("self 10.0.0.1 10.0.0.2 on", self.convert({"a.conf": border(*group,
            "no neighbor 10.0.0.2 next-hop-self"), "b.conf": inner(), "c.conf": OUTSIDE}).stdout)

    def test_strict(self):
        text = border("neighbor 10.0.0.2 next-hop-self", "bgp bestpath med confed")
        made = self.convert({"a.conf": text, "b.conf": inner()}, "--strict", status=2)
        self.assertEqual(made.stdout, "")
        self.assert_told(made, "a.conf", at(text, "bgp bestpath med confed"), "bestpath med confed")
        self.assertIn("router 10.0.0.1", self.convert({"a.conf": border("neighbor 10.0.0.2 next-hop-self"),
                                                       "b.conf": inner()}, "--strict", status=0).stdout)


class Layouts(Told):
    def test_names(self):
        files = {"a.conf": "hostname y1\n" + border("neighbor 10.0.0.2 next-hop-self"), "b.conf": "hostname y1\n" +
                 inner(), "c.conf": OUTSIDE}
        made = self.convert(files, status=0)
        self.assertTrue(made.stdout.startswith("router 10.0.0.1 65001\n# name 10.0.0.1 y1\nrouter 10.0.0.2 65001\n# "
                                               "name 10.0.0.2 y1\nrouter 10.0.0.9 65002\nlink"), made.stdout)
        self.assertIn("b.conf:1: note: hostname y1: it is the name of ", made.stderr)

    def test_without_a_router_id(self):
        """The highest address of the loopback, else the highest of an interface that is up."""
        text = "interface eth0\n ip address 10.9.0.1/30\ninterface eth1\n ip address 10.200.0.1/24\n shutdown\n"
        text += "%srouter bgp 65001\n"
        self.assertIn("router 10.9.0.1 65001\n", self.convert({"a.conf": text % ""}).stdout)
        self.assertIn("router 10.0.0.7 65001\n", self.convert({"a.conf": text %
                                                               "interface lo\n ip address 10.0.0.5/32\n ip address "
                                                               "10.0.0.7/32\n"}).stdout)

    def test_a_folder_a_router(self):
        """A router's files as FRR has them: frr.conf, or a file for each daemon."""
        split = border("neighbor 10.0.0.2 next-hop-self").split("router bgp")
        zebra, ospf = split[0].split("router ospf")
        alone = self.convert({"a.conf": border("neighbor 10.0.0.2 next-hop-self"), "b.conf": inner()}, status=0)
        made = self.convert({"one/bgpd.conf": "router bgp" + split[1], "one/zebra.conf": zebra,
                             "one/ospfd.conf": "router ospf" + ospf, "one/daemons": "bgpd=yes\n",
                             "two/frr.conf": inner()}, status=0)
        self.assertEqual(made.stdout, alone.stdout)
        made = self.convert({"two/frr.conf": inner(), "two/bgpd.conf": "router bgp 7\n",
                             "one/frr.conf": border("neighbor 10.0.0.2 next-hop-self"), "three/notes": "x\n"},
                             status=1)
        self.assertEqual(made.stdout, alone.stdout)
        self.assertIn("two/bgpd.conf: not taken over: FRR reads frr.conf", made.stderr)
        self.assertIn("three: not taken over: a folder with no frr.conf", made.stderr)

    def test_the_folder_of_one_router(self):
        whole = border("neighbor 10.0.0.2 next-hop-self", "neighbor 10.0.0.2 shutdown")
        alone = self.convert({"a.conf": whole}, status=1)
        zebra, bgp = whole.split("router bgp")
        files = {"bgpd.conf": "router bgp" + bgp, "zebra.conf": zebra, "vtysh.conf": "", "daemons": "bgpd=yes\n"}
        self.assertEqual(self.convert(files, status=1).stdout, alone.stdout)
        self.assertEqual(self.convert({"frr.conf": whole, "vtysh.conf": "", "daemons": ""}, status=1).stdout,
                         alone.stdout)

    def test_a_file_for_the_script(self):
        files = {"a.conf": border("neighbor 10.0.0.2 next-hop-self"), "b.conf": inner()}
        made = self.convert(files, "-o", self.folder / "made.bgp", status=0)
        self.assertEqual((made.stdout, (self.folder / "made.bgp").read_text()), ("", self.convert(files).stdout))
        files["a.conf"] += " bgp bestpath med confed\n"
        self.convert(files, "--strict", "-o", self.folder / "none.bgp", status=2)
        self.assertFalse((self.folder / "none.bgp").exists())

    def test_more_sessions_than_a_router_has(self):
        text = "interface eth0\n ip address 10.9.0.1/16\n" + router(65001, "10.0.0.1", bgp=[
            "neighbor 10.9.%d.%d remote-as 65002" % (1 + number // 200, 1 + number % 200) for number in range(257)])
        made = self.convert({"a.conf": text}, status=2)
        self.assertIn("a.conf: it has 257 sessions, and a router has at most 256", made.stderr)

    def test_maps_of_another_daemon(self):
        text = border("neighbor 10.0.0.2 next-hop-self", "neighbor 10.9.0.2 route-map M in")
        files = {"one/bgpd.conf": text, "one/zebra.conf": "route-map M permit 10\n", "two/frr.conf": inner(),
                 "three/frr.conf": OUTSIDE}
        self.assertEqual(self.rules(self.convert(files, status=0), "10.0.0.1 10.0.0.9 in"), ["any deny"])

    def test_a_router_without_bgp(self):
        """It keeps its links: the way between two routers with BGP leads over it."""
        one = router(65001, "10.0.0.1", "eth0 10.0.1.1/30 7", bgp=["neighbor 10.0.0.2 remote-as internal",
            "neighbor 10.0.0.2 update-source lo"])
        two = router(65001, "10.0.0.2", "eth0 10.0.2.1/30 8", bgp=["neighbor 10.0.0.1 remote-as internal",
            "neighbor 10.0.0.1 update-source lo"])
        made = self.convert({"a.conf": one, "b.conf": two, "c.conf": router(None, "10.0.0.3", "eth0 10.0.1.2/30 7",
            "eth1 10.0.2.2/30 8")}, status=0)
        self.assertIn("router 10.0.0.3 65001\nlink 10.0.0.1 10.0.0.3 7\nlink 10.0.0.2 10.0.0.3 8\njoin "
                      "10.0.0.1 10.0.0.2\n", made.stdout)
        self.assertEqual(program(made.stdout + "cost 10.0.0.1 10.0.0.2\n")[-1], "15 via 10.0.0.3")
        made = self.convert({"a.conf": one, "b.conf": OUTSIDE, "c.conf": router(None, "10.0.0.3", "eth0 10.0.1.2/30 7",
            "eth1 10.9.0.1/30")}, status=1)
        self.assertIn("c.conf:1: not taken over: a router without `router bgp`: it has links to routers of the ASes "
                      "65001, 65002", made.stderr)

    def test_one_bad_file(self):
        files = {"a.conf": border("neighbor 10.0.0.2 next-hop-self"), "b.conf": inner(),
                 "c.conf": "hostname nothing\n"}
        good = self.convert({name: files[name] for name in ("a.conf", "b.conf")}, status=0)
        made = self.convert(files, status=1)
        self.assertEqual(made.stdout, good.stdout)
        self.assertIn("c.conf: not taken over: neither", made.stderr)
        self.assertEqual(self.convert(files, "--strict", status=2).stdout, "")

    def test_a_symbolic_link_that_leads_nowhere(self):
        self.file("links/a.conf", border("neighbor 10.0.0.2 next-hop-self"))
        self.file("links/b.conf", inner())
        os.symlink(str(self.folder / "gone"), str(self.folder / "links" / "c.conf"))
        made = inside("from-frr", self.folder / "links")
        self.assertEqual(made.returncode, 1)
        self.assertIn("c.conf: not taken over: a symbolic link that leads nowhere", made.stderr)

    def test_one_identifier_for_two(self):
        one, two = OUTSIDE, router(65003, "10.0.0.9", "eth0 10.8.0.2/30")
        made = self.convert({"a.conf": one, "b.conf": two}, status=1)
        self.assertIn("router 10.0.0.9 65002\nrouter 10.8.0.2 65003\n", made.stdout)
        self.assert_told(made, "b.conf", at(two, "router bgp 65003"), "router-id 10.0.0.9", "is `10.8.0.2` here")
