"""from-frr: what routers originate, how policies become rules, and what decides otherwise in FRR."""
from frr import OUTSIDE, Told, at, border, inner, router


class Origins(Told):
    def origins(self, made):
        return [line.split(" ")[2] for line in made.stdout.split("\n") if line.startswith("origin 10.0.0.1 ")]

    def one(self, *bgp, more=(), version=""):
        return version + router(65001, "10.0.0.1", "eth0 10.0.1.1/30", bgp=bgp, more=more)

    def test_a_network_needs_a_route(self):
        text = self.one("network 10.0.1.0/30", "network 198.51.100.0/24", "network 203.0.113.0/24",
                        "network 10.0.7.0/24", more=["ip route 198.51.100.0/24 Null0"])
        other = router(65001, "10.0.0.2", "eth0 10.0.1.2/30", "eth1 10.0.7.1/24")
        made = self.convert({"a.conf": text, "b.conf": other}, status=1)
        self.assertEqual(self.origins(made), ["10.0.1.0/30", "198.51.100.0/24", "10.0.7.0/24"])
        self.assert_told(made, "a.conf", at(text, "network 203.0.113.0/24"), "`origin 10.0.0.1 203.0.113.0/24`")

    def test_without_the_check(self):
        for text in (self.one("no bgp network import-check", "network 203.0.113.0/24"),
                     self.one("network 203.0.113.0/24", version="frr version 7.3\nfrr defaults traditional\n")):
            self.assertEqual(self.origins(self.convert({"a.conf": text}, status=0)), ["203.0.113.0/24"])
        text = self.one("network 203.0.113.0/24", version="frr version 7.3\nfrr defaults datacenter\n")
        self.assertEqual(self.origins(self.convert({"a.conf": text}, status=1)), [])

    def test_forms_of_a_network(self):
        text = self.one("no bgp network import-check", "network 10.1.2.3/8", "network 172.16.0.0 mask 255.240.0.0",
                        "network 192.0.2.0", "network 198.51.100.0/24 backdoor")
        made = self.convert({"a.conf": text}, status=1)
        self.assertEqual(self.origins(made), ["10.0.0.0/8", "172.16.0.0/12", "192.0.2.0/24"])
        self.assert_told(made, "a.conf", at(text, "network 198.51.100.0/24 backdoor"), "interior routing")

    MAPS = ["ip prefix-list SOME permit 198.51.100.0/24", "route-map ONLY permit 10",
            " match ip address prefix-list SOME", "route-map SETS permit 10", " set metric 50", " set weight 0",
            "route-map ODD permit 10", " match tag 5", "route-map ODD deny 20"]

    def test_route_maps_of_origins(self):
        text = self.one("no bgp network import-check", "network 198.51.100.0/24 route-map ONLY",
                        "network 203.0.113.0/24 route-map ONLY", "network 192.0.2.0/24 route-map SETS",
                        "network 192.0.3.0/24 route-map ODD", "network 192.0.4.0/24 route-map GONE", more=self.MAPS)
        made = self.convert({"a.conf": text}, status=1)
        self.assertEqual(self.origins(made), ["198.51.100.0/24", "192.0.2.0/24"])
        self.assert_told(made, "a.conf", at(text, "set metric 50"), "192.0.2.0/24")
        self.assert_told(made, "a.conf", at(text, "network 192.0.3.0/24 route-map ODD"), "cannot be told",
                         "`origin 10.0.0.1 192.0.3.0/24`")
        self.assertIn("a.conf:%d: note: network 203.0.113.0/24" % at(text, "network 203.0.113.0/24 route-map ONLY"),
                      made.stderr)

    def test_what_another_line_originates(self):
        """A map that cannot be judged is not told of a prefix that another line originates."""
        text = self.one("network 10.0.1.0/30", "redistribute connected route-map M", more=[
            "route-map M permit 10", " match interface eth1"])
        made = self.convert({"a.conf": text}, status=1)
        self.assertEqual(made.stdout.count("origin "), 1)
        self.assertNotIn("`origin 10.0.0.1 10.0.1.0/30`", made.stderr)
        self.assert_told(made, "a.conf", at(text, "redistribute connected route-map M"), "`origin 10.0.0.1 10.0.0.1/32`")
        without = self.convert({"a.conf": text.replace(" network 10.0.1.0/30\n", "")}, status=1)
        self.assertIn("`origin 10.0.0.1 10.0.1.0/30`", without.stderr)

    def test_redistributed_routes(self):
        text = self.one("redistribute connected", "redistribute static route-map ONLY", "redistribute kernel",
                        more=["ip route 198.51.100.0/24 10.0.1.2", "ip route 203.0.113.0 255.255.255.0 Null0",
                              *self.MAPS[:3]])
        made = self.convert({"a.conf": text}, status=1)
        self.assertEqual(self.origins(made), ["10.0.0.1/32", "10.0.1.0/30", "198.51.100.0/24"])
        self.assert_told(made, "a.conf", at(text, "redistribute connected"), "incomplete")
        self.assertEqual(made.stderr.count("incomplete"), 1)
        self.assert_told(made, "a.conf", at(text, "redistribute kernel"), "`origin ROUTER PREFIX`")

    def test_a_static_route_over_an_interface_that_is_down(self):
        more = ["ip route 198.51.100.0/24 10.0.1.2", "ip route 198.51.101.0/24 eth0", "ip route 198.51.102.0/24 Null0"]
        text = self.one("network 198.51.100.0/24", "network 198.51.101.0/24", "network 198.51.102.0/24",
                        more=[*more, "interface eth0", " shutdown"])
        self.assertEqual(self.origins(self.convert({"a.conf": text}, status=1)), ["198.51.102.0/24"])
        text = text.replace(" shutdown\n", "")
        self.assertEqual(len(self.origins(self.convert({"a.conf": text}, status=0))), 3)

    def test_gateways_to_which_nothing_leads(self):
        """One over another static route is used; one over the router itself, or over an address that no file knows, is
        not."""
        text = self.one("redistribute static", more=["ip route 198.51.100.0/24 10.0.1.2",
                                                     "ip route 198.51.101.0/24 198.51.100.7",
                                                     "ip route 198.51.102.0/24 10.0.1.1",
                                                     "ip route 198.51.103.0/24 172.31.0.1"])
        made = self.convert({"a.conf": text}, status=1)
        self.assertEqual(self.origins(made), ["198.51.100.0/24", "198.51.101.0/24"])
        self.assert_told(made, "a.conf", at(text, "ip route 198.51.103.0/24 172.31.0.1"),
                         "`origin 10.0.0.1 198.51.103.0/24`")

    def test_a_route_to_its_own_next_hop(self):
        """FRR does not use it: who has the loopback for a neighbour does not use the loopback's route."""
        own = "network 10.0.0.1/32"
        files = {"a.conf": border("neighbor 10.0.0.2 next-hop-self", own), "b.conf": inner(), "c.conf": OUTSIDE}
        made = self.convert(files, status=0)
        self.assertEqual(self.rules(made, "10.0.0.1 10.0.0.2 out"), ["is 10.0.0.1/32 deny", "any permit"])
        self.assertEqual(self.rules(made, "10.0.0.1 10.0.0.9 out"), [])
        files["b.conf"] = inner("neighbor 10.0.0.1 route-reflector-client")
        made = self.convert(files, status=0)
        self.assertEqual(self.rules(made, "10.0.0.1 10.0.0.2 out"), [])

    def test_a_reflected_route_to_its_own_next_hop(self):
        """A reflector uses its client's route, and none of those to which it tells it does."""
        middle = inner("neighbor 10.0.0.1 route-reflector-client", "neighbor 10.0.0.3 remote-as internal",
                       "neighbor 10.0.0.3 update-source lo", interfaces=["eth1 10.0.2.1/30"])
        client = router(65001, "10.0.0.3", "eth0 10.0.2.2/30", bgp=[
            "neighbor 10.0.0.2 remote-as internal", "neighbor 10.0.0.2 update-source lo"])
        made = self.convert({"a.conf": border("neighbor 10.0.0.2 next-hop-self", "network 10.0.0.1/32"),
                             "b.conf": middle,
                             "c.conf": OUTSIDE, "d.conf": client}, status=0)
        self.assertEqual(self.rules(made, "10.0.0.1 10.0.0.2 out"), [])
        self.assertEqual(self.rules(made, "10.0.0.2 10.0.0.3 out"), ["is 10.0.0.1/32 deny", "any permit"])

    def test_subnets_that_are_no_networks(self):
        text = self.one("redistribute connected").replace("10.0.0.1/32\n", "10.0.0.1/32\n ip address 127.0.0.9/8\n", 1)
        self.assertEqual(self.origins(self.convert({"a.conf": text}, status=1)), ["10.0.0.1/32", "10.0.1.0/30"])

    def test_a_gateway_outside(self):
        """A neighbour to which FRR tells a route with the neighbour's own address as next hop drops it."""
        text = self.one("neighbor 10.0.1.2 remote-as 65002", "redistribute static",
                        more=["ip route 198.51.100.0/24 10.0.1.2"])
        self.assert_told(self.convert({"a.conf": text}, status=1), "a.conf", at(text, "redistribute static"),
                         "gateway")
        text = text.replace("10.0.1.2\n", "Null0\n").replace(" redistribute",
                                                             " neighbor 10.0.1.2 next-hop-self\n redistribute")
        self.assertNotIn("gateway", self.convert({"a.conf": text}).stderr)

    def test_redistributed_gateways(self):
        text = self.one("neighbor 10.0.1.2 remote-as internal", "redistribute static",
                        more=["ip route 198.51.100.0/24 10.0.1.2"])
        other = router(65001, "10.0.0.2", "eth0 10.0.1.2/30", bgp=["neighbor 10.0.1.1 remote-as internal"])
        self.assert_told(self.convert({"a.conf": text, "b.conf": other}, status=1), "a.conf",
                         at(text, "redistribute static"), "gateway")

    def test_own_routes_have_a_weight(self):
        policy = ["route-map HIGH permit 10", " set local-preference 150"]
        bgp = ["neighbor 10.0.0.2 next-hop-self", "neighbor 10.9.0.2 route-map HIGH in", "no bgp network import-check"]
        for number, has_network in ((1, True), (2, True), (1, False)):
            own = ["network 198.51.100.0/24"] if has_network else []
            files = {"a.conf": border(*bgp, *(own if number == 1 else []), more=policy),
                     "b.conf": inner("no bgp network import-check", *(own if number == 2 else [])), "c.conf": OUTSIDE}
            made = self.convert(files)
            if has_network:
                name = "a.conf" if number == 1 else "b.conf"
                self.assert_told(made, name, at(files[name], own[0]), "weight", "10.0.0.%d's own route" % number,
                                 "preference 150 at 10.0.0.1", "`rule 10.0.0.1 10.0.0.9 in is 198.51.100.0/24 permit`")
            else:
                self.assert_quiet(made)
        for change in (policy[:1] + [" set local-preference 100"], ["ip prefix-list X permit 192.0.2.0/24", policy[0],
            " match ip address prefix-list X", policy[1]]):
            files["a.conf"] = border(*bgp, "network 198.51.100.0/24", more=change)
            self.assert_quiet(self.convert(files))
        files["a.conf"] = border(*bgp, "network 198.51.100.0/24 route-map NONE", more=policy +
                                 ["route-map NONE permit 10", " set weight 0"])
        self.assert_quiet(self.convert(files))

    def test_default_originate(self):
        text = border("neighbor 10.0.0.2 next-hop-self", "neighbor 10.9.0.2 default-originate")
        made = self.convert({"a.conf": text, "b.conf": inner(), "c.conf": OUTSIDE}, status=1)
        self.assert_told(made, "a.conf", at(text, "neighbor 10.9.0.2 default-originate"), "own table")
        self.assertEqual(self.origins(made), ["0.0.0.0/0"])
        self.assertEqual(self.rules(made, "10.0.0.1 10.0.0.9 out"), ["any permit"])
        self.assertEqual(self.rules(made, "10.0.0.1 10.0.0.2 out"), ["is 0.0.0.0/0 deny", "any permit"])
        text = border("neighbor 10.9.0.2 default-originate route-map WHEN", "neighbor 10.0.0.2 next-hop-self")
        made = self.convert({"a.conf": text, "b.conf": inner(), "c.conf": OUTSIDE}, status=1)
        self.assertEqual(self.origins(made), [])
        self.assert_told(made, "a.conf", at(text, "neighbor 10.9.0.2 default-originate route-map WHEN"), "route-map")


class Policies(Told):
    def test_a_neighbours_lists(self):
        some = ["ip prefix-list SOME permit 10.1.0.0/16 le 32", "ip prefix-list SOME permit 10.2.0.0/16"]
        self.assertEqual(self.in_rules(*some, filters=["prefix-list SOME in"]),
                         ["under 10.1.0.0/16 permit", "is 10.2.0.0/16 permit", "any deny"])
        self.assertEqual(self.in_rules(*some, "route-map M permit 10", " set metric 5",
                                       filters=["prefix-list SOME in", "route-map M in"]),
                         ["under 10.1.0.0/16 permit med=5", "is 10.2.0.0/16 permit med=5", "any deny"])
        self.assertEqual(self.in_rules("access-list A deny 10.1.0.0/16", "access-list A permit any",
                                       filters=["distribute-list A in"]), ["under 10.1.0.0/16 deny", "any permit"])
        self.assertEqual(self.in_rules("bgp as-path access-list P deny _64512_", "bgp as-path access-list P permit .*",
                                       filters=["filter-list P in"]), ["path 64512 deny", "any permit"])

    def test_lists_that_are_not_there_deny(self):
        for kind in ("prefix-list", "distribute-list", "filter-list", "route-map"):
            made = self.policy(filters=[kind + " GONE in"])
            self.assertEqual(self.rules(made, "10.0.0.1 10.0.0.9 in"), ["any deny"])
            self.assertIn("a.conf:%d: note: " % at(self.text, "neighbor 10.9.0.2 %s GONE in" % kind), made.stderr)

    def test_two_matches_at_once(self):
        lists = ["ip prefix-list A permit 10.0.0.0/8 le 32", "access-list B permit 10.1.0.0/16",
                 "bgp as-path access-list P permit _7_"]
        self.assertEqual(self.in_rules(*lists, "route-map M permit 10", " match ip address prefix-list A",
                                       " match ip address B", " set metric 5"),
                                       ["under 10.1.0.0/16 permit med=5", "any deny"])
        found = self.in_rules(*lists, "route-map M permit 10", " match ip address prefix-list A", " match as-path P",
                              "route-map M permit 20", " set metric 7")
        self.assertEqual(found[-2:], ["path 7 permit", "any permit med=7"])
        self.assertEqual({where for where in ("9.0.0.0/8", "11.0.0.0/8", "8.0.0.0/5", "10.0.0.0/7", "0.0.0.0/0")
                          if permitted_as(found[:-2], number_of(where)) == "permit med=7"},
                         {"9.0.0.0/8", "11.0.0.0/8", "8.0.0.0/5", "10.0.0.0/7", "0.0.0.0/0"})
        self.assertIsNone(permitted_as(found[:-2], number_of("10.0.0.0/8")))
        self.assertIsNone(permitted_as(found[:-2], number_of("10.7.0.0/16")))

    def test_lists_that_deny(self):
        lists = ["ip prefix-list A seq 10 permit 10.0.0.0/8 le 32", "ip prefix-list A seq 5 deny 10.1.0.0/16"]
        self.assertEqual(self.in_rules(*lists, "route-map M permit 10", " match ip address prefix-list A",
                                       " set metric 5", "route-map M permit 20"),
                         ["is 10.1.0.0/16 permit", "under 10.0.0.0/8 permit med=5", "any permit"])
        self.assertEqual(self.in_rules(*lists, "route-map M permit 10", " match ip address prefix-list A"),
                         ["is 10.1.0.0/16 deny", "under 10.0.0.0/8 permit", "any deny"])
        self.assertEqual(self.in_rules(lists[0], "ip prefix-list A seq 20 deny any", "route-map M permit 10",
                                       " match ip address prefix-list A"), ["under 10.0.0.0/8 permit", "any deny"])

    def test_as_paths(self):
        for said, rules in (("_7_", ["path 7 deny"]), ("^7_", ["first 7 deny"]), ("^7_.*", ["first 7 deny"]),
                            ("_(7|8)_", ["path 7 deny", "path 8 deny"]), ("^$", []), (".*", None),
                            ("^65002$", ["path 65001 permit", "path 65003 permit", "first 65002 deny"])):
            with self.subTest(said=said):
                third = router(65003, "10.0.0.8", "eth0 10.7.0.2/30", bgp=["neighbor 10.7.0.1 remote-as 65002"])
                second = router(65002, "10.0.0.9", "eth0 10.9.0.2/30", "eth1 10.7.0.1/30",
                                bgp=["neighbor 10.9.0.1 remote-as 65001", "neighbor 10.7.0.2 remote-as 65003"])
                found = self.in_rules("bgp as-path access-list P permit " + said, "route-map M deny 10",
                                      " match as-path P", "route-map M permit 20",
                                      network=[("c.conf", second), ("d.conf", third)])
                self.assertEqual(found, ["any deny"] if rules is None else rules + ["any permit"])
        made = self.policy("bgp as-path access-list P permit _7$", "route-map M deny 10", " match as-path P",
                           "route-map M permit 20", status=1)
        self.assert_told(made, "a.conf", at(self.text, "bgp as-path access-list P permit _7$"),
                         "go on to what follows")

    def test_own_routes_alone_go_out(self):
        """`^$` on the way out: what begins with none of the neighbouring ASes, be they of this router or of another
        one of its AS."""
        third = router(65003, "10.0.0.8", "eth0 10.7.0.2/30", bgp=["neighbor 10.7.0.1 remote-as 65001"])
        inside = inner("neighbor 10.7.0.2 remote-as 65003", "neighbor 10.0.0.1 next-hop-self",
                       interfaces=["eth1 10.7.0.1/30"])
        made = self.policy("bgp as-path access-list OWN permit ^$", filters=["filter-list OWN out"],
                           network=[("b.conf", inside), ("d.conf", third)])
        self.assertEqual(self.rules(made, "10.0.0.1 10.0.0.9 out"), ["first 65002 deny", "first 65003 deny",
            "any permit"])

    def test_own_routes_before_others(self):
        """A route of the own AS has no AS in its path, so that the entries behind `^$` say nothing of it."""
        lists = ["bgp as-path access-list P permit ^$", "bgp as-path access-list P deny _7_",
                 "bgp as-path access-list P permit .*"]
        made = self.policy(*lists, filters=["filter-list P out"])
        self.assertEqual(self.rules(made, "10.0.0.1 10.0.0.9 out"), ["path 7 deny", "any permit"])
        lists[1] = "bgp as-path access-list P deny .*"
        self.assertEqual(self.rules(self.policy(*lists, filters=["filter-list P out"]), "10.0.0.1 10.0.0.9 out"),
                         ["first 65002 deny", "any permit"])

    def test_an_as_alone_is_not_said_of_one_without_a_file(self):
        text = border("neighbor 10.9.0.2 filter-list P in", "neighbor 10.0.0.2 next-hop-self",
                      more=["bgp as-path access-list P permit ^65002$"])
        made = self.convert({"a.conf": text, "b.conf": inner()}, status=1)
        self.assert_told(made, "a.conf", at(text, "bgp as-path access-list P permit ^65002$"), "AS 65002 has no file")

    def test_lists_are_exact(self):
        """For every prefix of /20 to /24 in 10.0.0.0/20 the rules permit just what the list does, which is worked out
        here from what FRR's documentation says of it."""
        every = [(0x0a000000 + (part << (32 - length)), length) for length in range(20, 25)
                 for part in range(2 ** (length - 20))]
        for entries in (["permit 10.0.0.0/20 ge 21 le 23"], ["permit 10.0.0.0/20 ge 22"],
                        ["deny 10.0.4.0/22 le 23", "permit 10.0.0.0/20 le 32"],
                        ["deny 10.0.8.0/21 ge 23 le 24", "permit 10.0.0.0/20 ge 22 le 24", "permit 10.0.8.0/24"],
                        ["permit 10.0.0.0/21", "deny 10.0.0.0/21 le 22", "permit 0.0.0.0/0 le 32"]):
            with self.subTest(entries=entries):
                rules = self.in_rules(*("ip prefix-list L " + entry for entry in entries),
                                      filters=["prefix-list L in"])
                self.assertEqual([where for where in every if permitted(rules, where)],
                                 [where for where in every if listed(entries, where)])

    def test_access_lists(self):
        """With a wildcard only the address counts: 10.0.0.0/7 begins with the same bits as 10.0.0.0/8, and is
        permitted, too."""
        for entry, rules in (("permit 10.0.0.0/8", ["under 10.0.0.0/8 permit"]),
                             ("permit 10.0.0.0/8 exact-match", ["is 10.0.0.0/8 permit"]),
                             ("permit 10.0.0.0 0.255.255.255", ["under 10.0.0.0/8 permit", "is 10.0.0.0/7 permit"]),
                             ("permit host 10.1.2.3", ["is 10.1.2.3/32 permit"]), ("seq 5 permit any", None)):
            self.assertEqual(self.in_rules("access-list L " + entry, "route-map M permit 10", " match ip address L"),
                             ["any permit"] if rules is None else rules + ["any deny"])

    def test_lists_are_made_shorter(self):
        many = ["ip prefix-list MANY permit 10.%d.%d.0/24" % (part // 256, part % 256)
                for part in range(400)] + ["ip prefix-list MANY permit 10.0.0.0/8 le 32"]
        self.assertEqual(self.in_rules(*many, "route-map M permit 10", " match ip address prefix-list MANY"),
                         ["under 10.0.0.0/8 permit", "any deny"])

    def test_too_many_rules(self):
        many = ["ip prefix-list MANY permit 10.%d.%d.0/24" % (part // 256, part % 256) for part in range(256)]
        made = self.policy(*many, "route-map BIG permit 10", " match ip address prefix-list MANY",
                           filters=["route-map BIG in"], status=2)
        self.assertEqual(made.stdout, "")
        self.assertIn("a.conf:%d: route-map BIG takes 257 rules on the way in, and a policy has at most 256" %
                      at(self.text, "neighbor 10.9.0.2 route-map BIG in"), made.stderr)
        self.assertEqual(len(self.in_rules(*many[1:], filters=["prefix-list MANY in"])), 256)

    def test_one_entry_in_two_pieces(self):
        lists = ["ip prefix-list A permit 10.0.0.0/8", "route-map M permit 10", " match ip address prefix-list A"]
        self.assertEqual(self.in_rules(*lists, "route-map M permit 20", "route-map M permit 10", " set metric 5"),
                         ["is 10.0.0.0/8 permit med=5", "any permit"])
        self.assertEqual(self.in_rules(*lists, "ip prefix-list B permit 11.0.0.0/8", "route-map M permit 10",
                                       " match ip address prefix-list B"), ["is 11.0.0.0/8 permit", "any deny"])
        self.assertEqual(self.in_rules(*lists, "route-map M deny 10", "route-map M permit 20"), ["any deny"])

    def test_a_policy_is_asked_for(self):
        """FRR asks external sessions for a policy (RFC 8212) but in the datacenter profile and before version 7.4; any
        list is one."""
        for head, rules in (("", ["any deny"]), ("frr defaults datacenter\n", []), ("frr version 7.3\n", []),
                            ("frr version 8.4.4\nfrr defaults traditional\n", ["any deny"])):
            text = head + border("neighbor 10.0.0.2 next-hop-self").replace(" no bgp ebgp-requires-policy\n", "")
            made = self.convert({"a.conf": text, "b.conf": inner(), "c.conf": OUTSIDE}, status=0)
            self.assertEqual((self.rules(made, "10.0.0.1 10.0.0.9 in"), self.rules(made, "10.0.0.1 10.0.0.2 in")),
                             (rules, []))
        text += "access-list ALL permit any\nrouter bgp 65001\n neighbor 10.9.0.2 distribute-list ALL in\n"
        made = self.convert({"a.conf": text, "b.conf": inner(), "c.conf": OUTSIDE}, status=0)
        self.assertEqual((self.rules(made, "10.0.0.1 10.0.0.9 in"), self.rules(made, "10.0.0.1 10.0.0.9 out")),
                         (["any permit"], ["any deny"]))

    def test_a_missing_policy_is_noted(self):
        """RFC 8212 denies all routes of a session without a policy: a note says so, with the line that allows them."""
        note = ("%s:%d: note: neighbor %s: there is no policy on the way %s for %s; FRR denies all routes there (RFC "
                "8212), and so do the rules here. If FRR is to take them, write `no bgp ebgp-requires-policy` below "
                "`router bgp`\n")
        text = border("neighbor 10.0.0.2 next-hop-self").replace(" no bgp ebgp-requires-policy\n", "")
        line = "neighbor 10.9.0.2 remote-as 65002"
        for more, way in (("", "in and out"), (" neighbor 10.9.0.2 distribute-list ALL in\n", "out"),
                          (" neighbor 10.9.0.2 distribute-list ALL out\n", "in")):
            made = self.convert({"a.conf": text + more + "access-list ALL permit any\n" * bool(more), "b.conf": inner(),
                                 "c.conf": OUTSIDE}, status=0)
            self.assertEqual(made.stderr, note % ("a.conf", at(text, line), line[9:], way, "10.9.0.2"))
        second = " neighbor 10.9.1.2 remote-as 65003\n neighbor 10.9.1.2 disable-connected-check\n"
        made = self.convert({"a.conf": text + second, "b.conf": inner(), "c.conf": OUTSIDE})
        self.assertIn(note % ("a.conf", at(text, line), line[9:], "in and out", "10.9.0.2, 10.9.1.2"), made.stderr)
        for off in (" neighbor 10.9.0.2 shutdown\n", " no bgp ebgp-requires-policy\n"):
            self.assertEqual(self.convert({"a.conf": text + off, "b.conf": inner(), "c.conf": OUTSIDE}).stderr, "")

    def test_what_a_rule_cannot_set(self):
        for said, words in (("set weight 5", "weight"), ("set as-path prepend 65001", "path stays"),
                            ("set ip next-hop 10.9.9.9", "next hop"),
                            ("set local-preference +10", "reckoned"), ("set metric rtt", "reckoned"),
                            ("set local-preference two", "a number from 0 to 4294967295 is expected"),
                            ("set origin egp", "sets preference")):
            with self.subTest(said=said):
                made = self.policy("route-map M permit 10", " " + said, status=1)
                self.assert_told(made, "a.conf", at(self.text, said), words)
        made = self.policy("route-map M permit 10", " set weight 0")
        self.assertIn("what goes to no neighbour 1", made.stderr)

    def test_settings_inside_the_as(self):
        text = border("neighbor 10.0.0.2 next-hop-self", "neighbor 10.0.0.2 route-map M out",
                      more=["route-map M permit 10", " set local-preference 50"])
        made = self.convert({"a.conf": text, "b.conf": inner(), "c.conf": OUTSIDE}, status=1)
        self.assert_told(made, "a.conf", at(text, "set local-preference 50"), "internal session")

    def test_roles(self):
        """What comes from a provider or a peer goes to customers alone (RFC 9234): both ends have their roles."""
        provider = router(65002, "10.0.0.9", "eth0 10.9.0.2/30", bgp=["neighbor 10.9.0.1 remote-as 65001",
            "neighbor 10.9.0.1 local-role provider"])
        second = router(65003, "10.0.0.8", "eth0 10.8.0.2/30", bgp=["neighbor 10.8.0.1 remote-as 65001",
            "neighbor 10.8.0.1 local-role peer"])
        customer = router(65004, "10.0.0.7", "eth0 10.7.0.2/30", bgp=["neighbor 10.7.0.1 remote-as 65001",
            "neighbor 10.7.0.1 local-role customer"])
        text = router(65001, "10.0.0.1", "eth0 10.9.0.1/30", "eth1 10.8.0.1/30", "eth2 10.7.0.1/30", bgp=[
            "neighbor 10.9.0.2 remote-as 65002", "neighbor 10.9.0.2 local-role customer",
            "neighbor 10.8.0.2 remote-as 65003", "neighbor 10.8.0.2 local-role peer",
            "neighbor 10.7.0.2 remote-as 65004", "neighbor 10.7.0.2 local-role provider"])
        files = {"a.conf": text, "b.conf": provider, "c.conf": second, "d.conf": customer}
        made = self.convert(files, status=0)
        for other in ("10.0.0.9", "10.0.0.8"):
            self.assertEqual(self.rules(made, "10.0.0.1 %s out" % other),
                             ["first 65002 deny", "first 65003 deny", "any permit"])
        self.assertEqual(self.rules(made, "10.0.0.1 10.0.0.7 out"), [])
        files["d.conf"] = customer.replace(" neighbor 10.7.0.1 local-role customer\n", "")
        self.assert_told(self.convert(files, status=1), "a.conf", at(text, "neighbor 10.7.0.2 local-role provider"),
                         "local-role", "the other end has no role", "rule 10.0.0.1 10.0.0.7 in path N deny")
        files["d.conf"] = customer
        files["a.conf"] = text.replace(" neighbor 10.7.0.2 local-role provider\n", "")
        self.assert_told(self.convert(files, status=1), "a.conf", at(files["a.conf"],
            "neighbor 10.9.0.2 local-role customer"), "AS 65004")


def permitted(rules, where):
    """What rules about prefixes say of one: the first that matches decides."""
    for rule in rules:
        kind, *rest = rule.split(" ")
        value, length = (0, 0) if kind == "any" else number_of(rest[0])
        is_inside = where[1] >= length and where[0] >> (32 - length) == value >> (32 - length)
        if kind == "any" or kind == "under" and is_inside or kind == "is" and where == (value, length):
            return rest[-1] == "permit"
    return True


def permitted_as(rules, where):
    """What rules about prefixes do with one; nothing where none of them is about it."""
    for rule in rules:
        kind, prefix, *action = rule.split(" ")
        value, length = number_of(prefix)
        is_inside = where[1] >= length and where[0] >> (32 - length) == value >> (32 - length)
        if kind == "under" and is_inside or kind == "is" and where == (value, length):
            return " ".join(action)
    return None


def listed(entries, where):
    """What a prefix list says: a prefix matches an entry whose bits it begins with, and whose lengths it has, its own
    alone where none are given."""
    for entry in entries:
        action, prefix, *bounds = entry.split(" ")
        value, length = number_of(prefix)
        given = dict(zip(bounds[::2], map(int, bounds[1::2])))
        lengths = range(given.get("ge", length), given.get("le", 32 if "ge" in given else length) + 1)
        if where[1] in lengths and where[0] >> (32 - length) == value >> (32 - length):
            return action == "permit"
    return False


def number_of(prefix):
    """A prefix as two numbers."""
    first, length = prefix.split("/")
    parts = [int(part) for part in first.split(".")]
    return parts[0] << 24 | parts[1] << 16 | parts[2] << 8 | parts[3], int(length)


class Choice(Told):
    def two(self, *without):
        """A router with two neighbours in one AS, and one in another; without these lines."""
        text = router(65001, "10.0.0.1", *("eth%d 10.9.%d.1/30" % (number, number) for number in range(3)), bgp=[
            "neighbor 10.9.0.2 remote-as 65002", "neighbor 10.9.1.2 remote-as 65002",
            "neighbor 10.9.2.2 remote-as 65003"])
        for line in without:
            text = text.replace(" %s\n" % line, "")
        return {"a.conf": text}

    def test_the_oldest_route(self):
        self.assert_quiet(self.convert(self.two()))
        files = self.two("bgp bestpath compare-routerid")
        made = self.convert(files, status=1)
        self.assert_told(made, "a.conf", at(files["a.conf"], "router bgp 65001"), "came first", "10.0.0.1")
        self.assertEqual(made.stderr.count("came first"), 1)

    def test_the_order_of_med(self):
        files = self.two("bgp deterministic-med")
        self.assert_told(self.convert(files, status=1), "a.conf", at(files["a.conf"], "router bgp 65001"), "MED",
                         "order")
        files["a.conf"] = "frr defaults datacenter\n" + files["a.conf"]
        self.assert_quiet(self.convert(files))

    def test_a_line_for_the_order_of_med(self):
        """It is told at each router that has it, also in the profile in which the order does not matter by default."""
        files = self.two("bgp deterministic-med")
        text = files["a.conf"] + " no bgp deterministic-med\n"
        other = text.replace("10.0.0.1", "10.0.0.7").replace("10.9.", "10.8.").replace("6500", "6400")
        for first in ("", "frr defaults datacenter\n"):
            made = self.convert({"a.conf": first + text, "b.conf": first + other}, status=1)
            for name, whole in (("a.conf", first + text), ("b.conf", first + other)):
                self.assert_told(made, name, at(whole, "no bgp deterministic-med"), "no bgp deterministic-med", "order")
            self.assertNotIn("router bgp", made.stderr)

    def test_med_over_all_neighbours(self):
        """Then the order of arrival does not matter."""
        files = self.two("bgp deterministic-med")
        self.assertNotIn("med ", self.convert(files).stdout)
        text = files["a.conf"] + " bgp always-compare-med\n"
        for more in ("", " no bgp deterministic-med\n", " bgp deterministic-med\n"):
            made = self.convert({"a.conf": text + more})
            self.assert_quiet(made)
            self.assertEqual(made.stdout.count("\nmed 10.0.0.1 always\n"), 1)
        made = self.convert({"a.conf": text + " no bgp always-compare-med\n"}, status=1)
        self.assertNotIn("med ", made.stdout)
        self.assert_told(made, "a.conf", at(text, "router bgp 65001"), "MED", "order")

    def test_what_is_not_modelled_of_med(self):
        worst, confed = "a missing MED for the highest", "confederation"
        for end, said in (("missing-as-worst", [worst]), ("confed", [confed]),
                          ("confed missing-as-worst", [worst, confed]), ("missing-as-worst confed", [worst, confed])):
            line = "bgp bestpath med " + end
            text = self.two()["a.conf"] + " %s\n" % line
            made = self.convert({"a.conf": text}, status=1)
            self.assert_told(made, "a.conf", at(text, line), line + ":", *said)
            self.assertEqual(made.stderr.count("not taken over"), 1)

    def test_lines_that_decide(self):
        """Each is told at its line, with what comes of it; its `no` is what FRR does without it."""
        lines = ["bgp bestpath med confed", "bgp bestpath med missing-as-worst", "bgp bestpath as-path ignore",
                 "bgp default local-preference 200", "bgp confederation identifier 5", "bgp dampening",
                 "bgp graceful-shutdown",
                 "bgp reject-as-sets", "bgp listen range 10.0.0.0/8 peer-group X",
                 "aggregate-address 10.0.0.0/8 summary-only", "maximum-paths 4", "table-map T",
                 "distance bgp 20 200 200", "import vrf RED"]
        lines += ["neighbor 10.9.0.2 " + said for said in ("weight 5", "allowas-in 2", "as-override",
                                                           "remove-private-AS all", "local-as 7 no-prepend",
                                                           "attribute-unchanged next-hop", "route-server-client",
                                                          "advertise-map A exist-map B", "unsuppress-map U",
                                                          "maximum-prefix 10", "addpath-tx-all-paths", "soo 1:1",
                                                          "port 1179")]
        text = self.two()["a.conf"] + "".join(" %s\n" % line for line in lines)
        made = self.convert({"a.conf": text}, status=1)
        for line in lines:
            self.assert_told(made, "a.conf", at(text, line), line)
        self.assertNotIn("does not know", made.stderr)
        self.assert_quiet(self.convert({"a.conf": text + "".join(" no %s\n" % line for line in lines)}))

    def test_what_is_off_by_a_no(self):
        lines = ["no bgp client-to-client reflection", "no bgp fast-external-failover", "no bgp enforce-first-as"]
        text = self.two()["a.conf"] + "".join(" %s\n" % line for line in lines)
        made = self.convert({"a.conf": text}, status=1)
        for line in lines:
            self.assert_told(made, "a.conf", at(text, line), line)

    def test_links_and_costs(self):
        files = {"a.conf": border("neighbor 10.0.0.2 next-hop-self"),
                 "b.conf": inner(interfaces=["eth1 10.0.2.1/30 20"]), "d.conf": router(65001, "10.0.0.3",
                     "eth0 10.0.2.2/30 20")}
        self.assert_told(self.convert(files, status=1), "a.conf", at(files["a.conf"], "interface eth0"), "speed")
        files = {"a.conf": border("neighbor 10.0.0.2 next-hop-self"), "b.conf": inner().replace("10.0.0.0/16 area",
            "10.0.0.2/32 area")}
        self.assert_told(self.convert(files, status=1), "a.conf", at(files["a.conf"], "interface eth0"),
                         "does not run over the link", "`fail 10.0.0.1 10.0.0.2`")

    def test_two_areas(self):
        files = {"a.conf": border("neighbor 10.0.0.2 next-hop-self"), "b.conf": inner().replace(" area 0", " area 1")}
        self.assert_told(self.convert(files, status=1), "b.conf", at(files["b.conf"], "network 10.0.0.0/16 area 1"),
                         "several areas")

    def test_passive_interfaces(self):
        for said in (["router ospf", " passive-interface eth0"], ["interface eth0", " ip ospf passive"],
                     ["router ospf", " passive-interface default", " no passive-interface eth1"]):
            files = {"a.conf": border("neighbor 10.0.0.2 next-hop-self", more=said), "b.conf": inner()}
            self.assert_told(self.convert(files, status=1), "a.conf", at(files["a.conf"], "interface eth0"),
                             "does not run over the link")

    def test_isis(self):
        """Its metrics are costs, and what it runs over and carries is interior."""
        change = ("router ospf\n network 10.0.0.0/16 area 0\n", "router isis X\n net 49.0001.0000.0000.0001.00\n")
        lines = "interface lo\n ip router isis X\ninterface eth0\n ip router isis X\n isis metric 7\n"
        one, two = (text.replace(*change) + lines for text in (border("neighbor 10.0.0.2 next-hop-self"), inner()))
        made = self.convert({"a.conf": one, "b.conf": two})
        self.assert_quiet(made)
        self.assertIn("link 10.0.0.1 10.0.0.2 7\n", made.stdout)
        made = self.convert({"a.conf": one + " isis passive\n", "b.conf": two}, status=1)
        self.assert_told(made, "a.conf", at(one, "interface eth0"), "does not run over the link")

    def test_costs_of_external_next_hops(self):
        """Both next hops are on the router's own subnets: FRR counts nothing to either, and here the link's cost
        decides."""
        text = router(65001, "10.0.0.1", "eth0 10.9.0.1/30 10", "eth1 10.9.1.1/30 20",
                      bgp=["neighbor 10.9.0.2 remote-as 65002", "neighbor 10.9.1.2 remote-as 65002"])
        made = self.convert({"a.conf": text}, status=1)
        self.assert_told(made, "a.conf", at(text, "neighbor 10.9.0.2 remote-as 65002"),
                         "to 10.9.0.2 it counts 0 and to 10.9.1.2 0; here it is 10 and 20")
        self.assert_quiet(self.convert({"a.conf": text.replace("cost 20", "cost 10")}))

    def test_costs_of_internal_next_hops(self):
        """Sessions of interfaces: FRR counts nothing to both neighbours. Sessions of loopbacks: the costs of the
        ways."""
        origin = "network 10.0.0.%d/32"
        near = [router(65001, "10.0.0.%d" % number, "eth0 10.0.%d.2/30 %d" % (number, 10 * number), bgp=[
            "neighbor 10.0.%d.1 remote-as internal" % number, origin % number]) for number in (2, 3)]
        text = router(65001, "10.0.0.1", "eth0 10.0.2.1/30 20", "eth1 10.0.3.1/30 30",
                      bgp=["neighbor 10.0.2.2 remote-as internal", "neighbor 10.0.3.2 remote-as internal"])
        made = self.convert({"a.conf": text, "b.conf": near[0], "c.conf": near[1]}, status=1)
        self.assert_told(made, "a.conf", at(text, "neighbor 10.0.2.2 remote-as internal"),
                         "to 10.0.0.2 it counts 0 and to 10.0.0.3 0; here it is 20 and 30")
        far = [each.replace("neighbor 10.0.%d.1 remote-as internal" % number,
                            "neighbor 10.0.0.1 remote-as internal\n neighbor 10.0.0.1 update-source lo")
                            for number, each in zip((2, 3), near)]
        text = text.replace("neighbor 10.0.2.2 ", "neighbor 10.0.0.2 ").replace("neighbor 10.0.3.2 ",
            "neighbor 10.0.0.3 ")
        self.assert_quiet(self.convert({"a.conf": text, "b.conf": far[0], "c.conf": far[1]}))

    def test_reflected_next_hops(self):
        """The reflector's clients are its neighbours on interfaces, and neither knows the other's subnet."""
        ends = [router(65001, "10.0.0.%d" % number, "eth0 10.0.%d.2/30" % number, ospf="",
                       bgp=["neighbor 10.0.%d.1 remote-as internal" % number]) for number in (2, 3)]
        text = router(65001, "10.0.0.1", "eth0 10.0.2.1/30", "eth1 10.0.3.1/30", ospf="", bgp=[
            "neighbor 10.0.%d.2 %s" % (number, said) for number in (2, 3)
            for said in ("remote-as internal", "route-reflector-client")])
        made = self.convert({"a.conf": text, "b.conf": ends[0], "c.conf": ends[1]}, status=1)
        self.assert_told(made, "a.conf", at(text, "neighbor 10.0.2.2 remote-as internal"), "known to 10.0.0.3",
                         "Let OSPF carry its subnet", "no rule says what FRR does")

    def test_a_cluster_without_clients(self):
        files = {"a.conf": border("neighbor 10.0.0.2 next-hop-self", "bgp cluster-id 1.1.1.1"), "b.conf": inner()}
        self.assert_told(self.convert(files, status=1), "a.conf", at(files["a.conf"], "bgp cluster-id 1.1.1.1"),
                         "without clients")

    def test_a_virtual_peer_on_a_shared_subnet(self):
        """The router beside it reaches it over its own interface."""
        files = {"a.conf": border("neighbor 10.9.0.9 remote-as 65009",
                                  "neighbor 10.0.0.2 next-hop-self").replace("10.9.0.1/30", "10.9.0.1/24"),
                                  "b.conf": inner(interfaces=["eth1 10.9.0.3/24"])}
        self.assertIn("virtual 10.9.0.9 65009\nlink 10.0.0.1 10.9.0.9 10\nlink 10.0.0.2 10.9.0.9 10\n",
                      self.convert(files).stdout)

    def test_reflected_routes_and_force(self):
        files = {"a.conf": border("neighbor 10.0.0.2 next-hop-self force", "neighbor 10.0.0.2 route-reflector-client"),
                 "b.conf": inner()}
        made = self.convert(files, status=1)
        self.assertIn("self 10.0.0.1 10.0.0.2 on\n", made.stdout)
        self.assert_told(made, "a.conf", at(files["a.conf"], "neighbor 10.0.0.2 next-hop-self force"), "reflects")
