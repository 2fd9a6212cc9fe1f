"""from-cbgp: three scripts after C-BGP's documentation with what becomes of them, worked out by hand; what it tells,
and mistakes."""
from common import DATA, Case, inside, program, tool

SCRIPTS = DATA / "cbgp"
# Two ASes with a link and a session, to which tests add lines; AS 1 has a second router.
BASE = """\
net add domain 1 igp
net add node 1.0.0.1
net add node 1.0.0.2
net add node 2.0.0.1
net node 1.0.0.1 domain 1
net node 1.0.0.2 domain 1
net add link 1.0.0.1 1.0.0.2
net link 1.0.0.1 1.0.0.2 igp-weight --bidir 10
net domain 1 compute
net add link 1.0.0.1 2.0.0.1
net node 1.0.0.1 route add --oif=2.0.0.1 2.0.0.1/32 1
bgp add router 1 1.0.0.1
bgp add router 1 1.0.0.2
bgp domain 1 full-mesh
bgp router 1.0.0.1
  add peer 2 2.0.0.1
  peer 2.0.0.1 virtual
  peer 2.0.0.1 next-hop-self
  peer 2.0.0.1 up
  exit
"""
# What BASE becomes.
MADE = """\
router 1.0.0.1 1
router 1.0.0.2 1
virtual 2.0.0.1 2
link 1.0.0.1 1.0.0.2 10
link 1.0.0.1 2.0.0.1 1
join 1.0.0.1 1.0.0.2
join 1.0.0.1 2.0.0.1
self 1.0.0.1 1.0.0.2 on
"""
RUN = "# sim run: here C-BGP delivers all that waits, and `converge` does\n"
RAISED = "# Preferences are C-BGP's and %d: a route to which nothing gives one has %d there, and 100 here.\n"


class Converted(Case):
    """Single scripts: what is written and what is told."""

    def convert(self, text, *words, status=None):
        """from-cbgp on a script `s.cli`, without a process of its own."""
        made = inside("from-cbgp", self.file("s.cli", text), *words)
        made.stderr = made.stderr.replace(str(self.folder) + "/", "")
        if status is not None:
            self.assertEqual(made.returncode, status, made.stderr)
        return made

    def after(self, *lines, status=0):
        """What these lines behind BASE and a `sim run` write."""
        made = self.convert(BASE + "sim run\n" + "\n".join(lines) + "\nsim run\n", status=status)
        self.told = made.stderr
        self.assertTrue(made.stdout.startswith(MADE + RUN), made.stdout)
        return made.stdout[len(MADE + RUN):-len(RUN)].split("\n")[:-1]

    def rules(self, *lines, way="in", status=0):
        """The rules of a filter at 1.0.0.1 towards 2.0.0.1, each without its beginning."""
        text = "".join("bgp router 1.0.0.1 peer 2.0.0.1 filter %s add-rule %s\n" % (way, line) for line in lines)
        made = self.convert(BASE + "bgp options local-pref 100\n" + text, status=status)
        self.told = made.stderr
        head = "rule 1.0.0.1 2.0.0.1 %s " % way
        return [line[len(head):] for line in made.stdout.split("\n") if line.startswith("rule ")]

    def assert_told(self, line, *said, kind="not taken over"):
        """A line of the script is told, with these words."""
        found = [each for each in self.told.split("\n") if each.startswith("s.cli:%d: %s: " % (line, kind))]
        self.assertTrue(any(all(word in each for word in said) for each in found), (line, said, self.told))


class Scripts(Case):
    def test_three_scripts(self):
        for name, status in (("transit", 0), ("reflectors", 1), ("policies", 1)):
            with self.subTest(name=name):
                made = tool("from-cbgp", "toolbox/tests/data/cbgp/%s.cli" % name, status=status)
                self.assertEqual(made.stdout, (SCRIPTS / (name + ".expected")).read_text())
                self.assertEqual(made.stderr, (SCRIPTS / (name + ".told")).read_text())

    def test_what_they_converge_in(self):
        for name in ("transit", "reflectors", "policies"):
            converged = tool("converge", "toolbox/tests/data/cbgp/%s.expected" % name, status=0).stdout
            wanted = [line.split(" ", 2) for line in (SCRIPTS / (name + ".routes")).read_text().split("\n")[:-1]]
            replies = program(converged + "".join("best %s %s\n" % (router, prefix) for router, prefix, _ in wanted))
            with self.subTest(name=name):
                self.assertNotIn("refused", "".join(replies))
                self.assertEqual(replies[-len(wanted):], [" ".join(each[1:]) for each in wanted])

    def test_several_are_read_as_one(self):
        head, tail = self.file("a.cli", BASE[:BASE.index("bgp add")]), self.file("b.cli", BASE[BASE.index("bgp add"):])
        made = inside("from-cbgp", head, tail)
        self.assertEqual((made.returncode, made.stdout), (0, MADE))
        self.assertIn("b.cli: note: it has no `sim run`", made.stderr)


class Commands(Converted):
    def test_a_network(self):
        self.assertEqual(self.convert(BASE + "sim run\n", status=0).stdout, MADE + RUN)

    def test_changes_behind_a_run(self):
        rescan = ("net domain 1 compute", "bgp domain 1 rescan")
        self.assertEqual(self.after("net link 1.0.0.2 1.0.0.1 igp-weight --bidir 7", *rescan), [
            "metric 1.0.0.1 1.0.0.2 7"])
        self.assertEqual(self.after("net link 1.0.0.1 1.0.0.2 down", *rescan), ["fail 1.0.0.1 1.0.0.2"])
        self.assertEqual(self.after("bgp router 1.0.0.1 add network 10/8"), ["origin 1.0.0.1 10.0.0.0/8"])
        self.assertEqual(self.after("bgp router 1.0.0.1 peer 1.0.0.2 down"), ["stop 1.0.0.1 1.0.0.2"])
        self.assertEqual(self.after("bgp router 1.0.0.2 set cluster-id 258", "bgp options med always-compare"), [
            "med 1.0.0.1 always", "cluster 1.0.0.2 0.0.1.2", "med 1.0.0.2 always"])
        self.assertEqual(self.after("bgp router 1.0.0.1 peer 1.0.0.2 rr-client"), ["client 1.0.0.1 1.0.0.2 on"])

    def test_changes_of_a_filter(self):
        to = "bgp router 1.0.0.1 peer 2.0.0.1 "
        run = ["sim run", to + "filter in"]
        first, last = "rule 1.0.0.1 2.0.0.1 in under 10.0.0.0/8 deny", "rule 1.0.0.1 2.0.0.1 in is 11.0.0.0/8 deny"
        build = [to + "filter in add-rule match \"prefix in 10/8\" action deny"]
        more = "add-rule match \"prefix is 11/8\" action deny"
        self.assertEqual(self.after(*build, *run, more), [first, RUN[:-1], last])
        self.assertEqual(self.after(*build, *run, "remove-rule 0"), [first, RUN[:-1], "clear 1.0.0.1 2.0.0.1 in"])
        self.assertEqual(self.after(*build, *run, more.replace("add-rule", "insert-rule 0")), [
            first, RUN[:-1], "clear 1.0.0.1 2.0.0.1 in", last, first])

    def test_a_session_that_comes_back_is_fed_again(self):
        to, tells = "bgp router 1.0.0.1 peer 2.0.0.1 ", 'recv "BGP4|0|%s|2.0.0.1|2|10/8|2|IGP|2.0.0.1|0|%s|"'
        fed = "feed 2.0.0.1 1.0.0.1 update 10.0.0.0/8 2 igp "
        made = self.after(to + tells % ("A", ""), "sim run", to + "down", "sim run", to + "up", to + tells % ("A", "3"),
                          "sim run", to + tells % ("W", ""))
        self.assertEqual(made, [fed + "-", RUN[:-1], "stop 1.0.0.1 2.0.0.1", RUN[:-1], "start 1.0.0.1 2.0.0.1",
                                fed + "3", RUN[:-1], "feed 2.0.0.1 1.0.0.1 withdraw 10.0.0.0/8"])
        made = self.after(to + tells % ("A", ""), "sim run", to + "down", to + "up", "sim run", to + "reset")
        self.assertEqual(made, [fed + "-", RUN[:-1], "feed 2.0.0.1 1.0.0.1 withdraw 10.0.0.0/8", RUN[:-1]])

    def test_a_link_that_comes_back_is_fed_over_again(self):
        to, link = "bgp router 1.0.0.1 peer 2.0.0.1 ", "net link 1.0.0.1 2.0.0.1 "
        fed = "feed 2.0.0.1 1.0.0.1 update 10.0.0.0/8 2 igp 0"
        made = self.after(to + 'recv "BGP4|0|A|2.0.0.1|2|10/8|2|IGP|2.0.0.1|0|0|"', "sim run", link + "down",
                          "bgp domain 1 rescan", "sim run", link + "up", "bgp domain 1 rescan")
        self.assertEqual(made, [fed, RUN[:-1], "fail 1.0.0.1 2.0.0.1", RUN[:-1], "mend 1.0.0.1 2.0.0.1", fed])

    def test_names(self):
        made = self.convert(BASE + 'net node 1.0.0.1 name "a  b"\nnet node 1.0.0.2 name a_b\n'
                            "net node 2.0.0.1 name 9.9.9.9\n"
                            "sim run\nnet node 2.0.0.1 name c\n", status=0)
        self.assertEqual([line for line in made.stdout.split("\n") if "# name" in line], [
            "# name 1.0.0.1 a_b", "# name 1.0.0.2 a_b", "# name 2.0.0.1 c"])
        self.assertIn("s.cli:13: note: the name a_b is that of 1.0.0.1, too", made.stderr)

    def test_the_cost_of_a_link_between_two_ases(self):
        for line, cost in (("net node 1.0.0.1 route add 2.0.0.1/32 * 2.0.0.1 0", 1),
                           ("net node 1.0.0.1 route add 2/8 2.0.0.1 6\nnet link 1.0.0.1 2.0.0.1 igp-weight 9", 6),
                           ("net link 1.0.0.1 2.0.0.1 igp-weight 9", 9)):
            made = self.convert(BASE.replace("net node 1.0.0.1 route add --oif=2.0.0.1 2.0.0.1/32 1", line))
            self.assertIn("link 1.0.0.1 2.0.0.1 %d\n" % cost, made.stdout)

    def test_one_end_makes_no_session(self):
        text = BASE.replace("bgp domain 1 full-mesh", "bgp router 1.0.0.1 add peer 1 1.0.0.2\n"
                            "bgp router 1.0.0.1 peer 1.0.0.2 up")
        made = self.convert(text + "sim run\n", status=0)
        self.assertNotIn("join 1.0.0.1 1.0.0.2", made.stdout)
        self.assertIn("s.cli:14: note: add peer 1 1.0.0.2: 1.0.0.2 has no such peer", made.stderr.replace(
            "bgp router 1.0.0.1 add", "add"))
        made = self.convert(text + "bgp router 1.0.0.2 add peer 1 1.0.0.1\nsim run\n", status=0)
        self.assertIn("join 1.0.0.1 1.0.0.2\nstop 1.0.0.1 1.0.0.2\n", made.stdout)

    def test_a_node_without_bgp_is_of_the_as_that_is_said_of_it(self):
        made = self.convert(BASE.replace("  peer 2.0.0.1 virtual\n", "") + "sim run\n", status=0)
        self.assertIn("router 2.0.0.1 2\n", made.stdout)
        self.assertNotIn("join 1.0.0.1 2.0.0.1", made.stdout)
        self.assertIn("BGP runs on no such node", made.stderr)

    def test_what_is_passed_over_is_counted(self):
        lines = ["print \"x # y\\n\"", "show version # all", "bgp router 1.0.0.1 show rib *",
                 "net node 1.0.0.1 ping 2.0.0.1",
                 "bgp assert peerings-ok", "sim options log-level everything", "net node 1.0.0.1 coord 1 2"]
        self.assertEqual(self.after(*lines), [])
        self.assertEqual(self.told,
                         "7 lines that decide no route were left out: shows 4, checks 1, logs and options 1, "
                         "places on a map 1\n")

    def test_nodes_without_bgp(self):
        more = "net add node 1.0.0.3\nnet add node 9.0.0.1\nnet add node 9.0.0.2\nnet add link 9.0.0.1 9.0.0.2\n" \
            "net add link 1.0.0.3 1.0.0.2\nnet link 1.0.0.3 1.0.0.2 igp-weight --bidir 4\nnet node 1.0.0.3 domain 1\n"
        made = self.convert(more.join(BASE.split("net domain 1 compute\n", 1)).replace(
            "bgp add router 1 1.0.0.1", "net domain 1 compute\nbgp add router 1 1.0.0.1") + "sim run\n", status=1)
        self.assertIn("router 1.0.0.3 1\n", made.stdout)
        self.assertIn("link 1.0.0.2 1.0.0.3 4\n", made.stdout)
        self.assertNotIn("9.0.0.1", made.stdout)
        self.assertIn("9.0.0.1: BGP does not run there", made.stderr)


class Filters(Converted):
    def test_rules_act_until_one_accepts(self):
        self.assertEqual(self.rules('action "local-pref 50"', 'action "metric 5"'), ["any permit pref=50 med=5"])
        self.assertEqual(self.rules('action "local-pref 50, accept"', 'action "metric 5"'), ["any permit pref=50"])
        self.assertEqual(self.rules('action "local-pref 50"', 'action "local-pref 60"'), ["any permit pref=60"])
        self.assertEqual(self.rules('match "prefix in 10/8" action "metric 1"',
                                    'match "prefix is 10/8" action "metric 2"'), [
            "is 10.0.0.0/8 permit med=2", "under 10.0.0.0/8 permit med=1"])
        self.assertEqual(self.rules('match "community is 1:1" action "metric 1"',
                                    'match "path \\"^3( |$)\\"" action deny'), [
            "first 3 deny", "comm 65537 permit med=1"])

    def test_what_is_added_is_seen_by_later_rules(self):
        self.assertEqual(self.rules('match "prefix is 10/8" action "community add 1:1"',
                                    'match "community is 1:1" action "deny"'), ["is 10.0.0.0/8 deny",
                                                                                "comm 65537 deny"])

    def test_matches(self):
        for said, rules in (
                ("any", ["any deny"]), ("prefix in 0/0", ["any deny"]), ("prefix is 10.1/16", ["is 10.1.0.0/16 deny"]),
                ("prefix ge 10/8 9", ["under 10.0.0.0/9 deny", "under 10.128.0.0/9 deny"]),
                ("prefix le 10/8 8", ["is 10.0.0.0/8 deny"]), ("community is no-export", ["comm 4294967041 deny"]),
                ("prefix is 10/8 | community is 5", ["is 10.0.0.0/8 deny", "comm 5 deny"]),
                ("prefix in 10/8 & prefix in 10.1/16", ["under 10.1.0.0/16 deny"]),
                ("prefix in 10/8 & !prefix is 10/8", ["is 10.0.0.0/8 permit", "under 10.0.0.0/8 deny"]),
                ("!(prefix in 10/8 | prefix in 11/8)", ["under 10.0.0.0/8 permit", "under 11.0.0.0/8 permit",
                                                        "any deny"]),
                ('path \\"(^| )7( |$)\\"', ["path 7 deny"]), ('path \\"^(7|8)( |$)\\"', ["first 7 deny",
                                                                                         "first 8 deny"]),
                ('path \\"\\b7\\b\\"', ["path 7 deny"]), ('path \\".*\\"', ["any deny"])):
            with self.subTest(said=said):
                self.assertEqual(self.rules('match "%s" action deny' % said), rules)

    def test_own_routes(self):
        self.assertEqual(self.rules('match "path ^$" action "as-path prepend 2, metric 1"', way="out"), [
            "first 2 permit", "any permit med=1 prepend=2"])
        self.assertEqual(self.rules('match "prefix in 10/8" action "as-path prepend 2"', 'action "as-path prepend 3"',
                                    way="out"), [
            "under 10.0.0.0/8 permit prepend=5", "any permit prepend=3"])

    def test_what_no_rule_says(self):
        for line, way, said in (
                ('match "path \\"_7_\\"" action deny', "in", "no rule is about the paths of `_7_`"),
                ('match "path 7" action deny', "in", "no rule is about the paths of `7`"),
                ('match "prefix in 10/8 & community is 1:1" action deny', "in",
                 "under 10.0.0.0/8 and comm 1:1 at once"),
                ('match "next-hop is 2.0.0.1" action deny', "in", "no rule is about a next hop"),
                ('action "community strip"', "in", "community strip: no rule does so"),
                ('action "community remove 1:1"', "out", "community remove 1:1: no rule does so"),
                ('action "as-path prepend 1"', "in", "on the way out alone"),
                ('action "as-path prepend 17"', "out", "at most 16 times"),
                ('action "community add 1:1, community add 1:2"', "in", "adds one community"),
                ('action "local-pref 4294967295"', "in", "")):
            with self.subTest(line=line):
                self.rules(line, way=way, status=1 if said else 0)
                if said:
                    self.assert_told(22, said)

    def test_preferences_towards_another_as_go_nowhere(self):
        self.assertEqual(self.rules('action "local-pref 7"', way="out"), [])
        self.assertIn("preferences towards another AS 1", self.told)
        self.after('bgp router 1.0.0.1 peer 2.0.0.1 filter out add-rule action "local-pref 7"', "sim run", "sim run")
        self.assertEqual(self.told, "1 lines that decide no route were left out: preferences towards another AS 1\n")

    def test_preferences_are_raised(self):
        line = 'bgp router 1.0.0.1 peer 2.0.0.1 filter in add-rule action "local-pref %d"\n'
        for options, said, head, pref in (("", 5, RAISED % (100, 0), 105), ("bgp options local-pref 70\n", 5,
                                                                           RAISED % (30, 70), 35),
                                          ("bgp options local-pref 100\n", 5, "", 5)):
            made = self.convert(BASE + options + line % said + "sim run\n", status=0)
            self.assertEqual(made.stdout, head + MADE + "rule 1.0.0.1 2.0.0.1 in any permit pref=%d\n" % pref + RUN)
        made = self.convert(BASE + line % (2 ** 32 - 1), status=1)
        self.assertIn("pref=4294967295\n", made.stdout)

    def test_internal_sessions_set_nothing(self):
        made = self.convert(BASE + 'bgp router 1.0.0.1 peer 1.0.0.2 filter out add-rule action "metric 5"\n', status=1)
        self.assertNotIn("rule", made.stdout)
        self.assertIn("s.cli:21: not taken over: metric 5: a rule of an internal session sets nothing", made.stderr)

    def test_route_maps(self):
        maps = 'bgp route-map A add-rule match "prefix is 10/8" action %s\nbgp route-map B add-rule action "call A"\n'
        to = 'bgp router 1.0.0.1 peer 2.0.0.1 filter in add-rule action "%s B, deny"\n'
        for deed, how, rules in (("accept", "call", ["is 10.0.0.0/8 permit", "any deny"]),
                                 ("accept", "jump", []), ("deny", "jump", ["is 10.0.0.0/8 deny"])):
            made = self.convert(BASE + maps % deed + to % how, status=0)
            self.assertEqual([line[24:] for line in made.stdout.split("\n") if line.startswith("rule ")], rules)
        made = self.convert(BASE + 'bgp route-map A add-rule action "call A"\n' + to.replace("B", "A") % "call",
                            status=2)
        self.assertIn("call each other more than", made.stderr)

    def test_too_many_rules(self):
        line = 'bgp router 1.0.0.1 peer 2.0.0.1 filter in add-rule match "prefix is %d.0.0.0/%d" action deny\n'
        text = "".join(line % (
            at % 250, 8 + at // 250) for at in range(257))
        self.assertIn("takes 257 rules, and a policy has at most 256", self.convert(BASE + text, status=2).stderr)


class Differences(Converted):
    """What C-BGP does otherwise, though each line is taken over."""

    def told_of(self, text, status=1):
        self.told = self.convert(text + "sim run\n", status=status).stderr

    def test_ways_that_are_not_known(self):
        self.told_of(BASE.replace("net node 1.0.0.1 route add --oif=2.0.0.1 2.0.0.1/32 1\n", ""))
        self.assert_told(15, "1.0.0.1 has no route to 2.0.0.1")
        self.told_of(BASE.replace("  peer 2.0.0.1 next-hop-self\n", ""))
        self.assert_told(16, "1.0.0.2 of AS 1 has no route to the next hop 2.0.0.1",
                         "`rule 1.0.0.1 1.0.0.2 out first 2 deny`")
        self.told_of(BASE.replace("net domain 1 compute\n", ""))
        self.assert_told(1, "domain 1 is never computed")
        self.told_of(BASE.replace("net node 1.0.0.2 domain 1\n", ""))
        self.assert_told(6, "in one AS, and not in one domain")

    def test_changes_that_are_not_computed(self):
        self.after("net link 1.0.0.1 1.0.0.2 down", status=1)
        self.assert_told(22, "without `net domain 1 compute` behind it")
        self.after("net link 1.0.0.1 1.0.0.2 down", "net domain 1 compute", status=1)
        self.assert_told(23, "without `bgp domain N rescan` behind it")
        self.after("net link 1.0.0.1 2.0.0.1 down", status=1)
        self.assert_told(22, "without `bgp domain N rescan` behind it")

    def test_weights(self):
        weight = "net link 1.0.0.1 1.0.0.2 igp-weight --bidir 10\n"
        for line, cost, said in (("net link 1.0.0.2 1.0.0.1 igp-weight 10\n", 10, "its other way has none"),
                                 (weight.replace("10\n", "0\n"), 1, "a cost of 1 at least"),
                                 (weight.replace("10\n", "70000\n"), 65535, "at most 65535"),
                                 (weight + "net link 1.0.0.2 1.0.0.1 igp-weight 8\n", 8, "the weights 10 and 8"),
                                 ("\n", 1, "it has no `igp-weight`")):
            made = self.convert(BASE.replace(weight, line) + "sim run\n", status=1)
            self.assertIn("link 1.0.0.1 1.0.0.2 %d\n" % cost, made.stdout)
            self.assertIn(said, made.stderr)
        early = BASE.replace(weight, "").replace("link 1.0.0.1 1.0.0.2\n", "link 1.0.0.1 1.0.0.2 6\n")
        self.assertIn("link 1.0.0.1 1.0.0.2 6\n", self.convert(early, status=0).stdout)

    def test_own_routes_that_do_not_win(self):
        more = ('bgp router 1.0.0.2 add network 10/8\n'
                'bgp router 1.0.0.1 peer 2.0.0.1 recv "BGP4|0|A|2.0.0.1|2|10/8|2|IGP|||"\n')
        self.told_of(BASE + more, status=0)
        self.told_of(BASE + more + 'bgp router 1.0.0.1 peer 2.0.0.1 filter in add-rule action "local-pref 1"\n')
        self.assert_told(21, "10.0.0.0/8 is told by others, too")

    def test_routes_with_and_without_a_med(self):
        second = BASE.replace("bgp add", "net add node 2.0.0.2\nnet add link 1.0.0.2 2.0.0.2\n"
                              "net node 1.0.0.2 route add --oif=2.0.0.2 2.0.0.2/32 1\nbgp add", 1)
        second += ("bgp router 1.0.0.2\nadd peer 2 2.0.0.2\npeer 2.0.0.2 virtual\npeer 2.0.0.2 next-hop-self\n"
                   "peer 2.0.0.2 up\n")
        one, two = ('recv "BGP4|0|A|2.0.0.%d|2|10/8|2|IGP||0|%%s|"\n' % at for at in (1, 2))
        to_one, to_two = "exit\nbgp router 1.0.0.1 peer 2.0.0.1 " + one, "peer 2.0.0.2 " + two
        self.told_of(second + to_two % "5" + to_one % "6", status=0)
        self.told_of(second + to_two % "5" + to_one % "")
        self.assertIn("routes of AS 2 come to AS 1 with a MED and without", self.told)

    def test_next_hop_self_at_some_external_peers(self):
        text = BASE.replace("bgp add", "net add node 3.0.0.1\nnet add link 1.0.0.1 3.0.0.1\n"
                            "net node 1.0.0.1 route add --oif=3.0.0.1 3.0.0.1/32 1\nbgp add", 1)
        text += "bgp router 1.0.0.1\nadd peer 3 3.0.0.1\npeer 3.0.0.1 virtual\npeer 3.0.0.1 up\n"
        made = self.convert(text, status=1)
        self.assertNotIn("self", made.stdout)
        self.assertIn("s.cli:21: not taken over: next-hop-self for what comes from 2.0.0.1, and not for other",
                      made.stderr)

    def test_peers_that_make_no_session(self):
        for line, said in (("add peer 1 5.5.5.5\n  peer 5.5.5.5 virtual", "is a virtual peer of AS 1 in AS 1 itself"),
                           ("add peer 7 5.5.5.5", "BGP runs on no such node"),
                           ("add peer 7 5.5.5.5\n  peer 5.5.5.5 virtual", "here it gets one, of cost 1")):
            made = self.convert(BASE.replace("  exit\n", "  %s\n" % line) + "sim run\n")
            self.assertIn(said, made.stderr)
            self.assertNotIn("refused", "".join(program(made.stdout)))

    def test_fed_routes(self):
        to = "bgp router 1.0.0.1 peer 2.0.0.1 recv \"BGP4|0|A|2.0.0.1|2|10/8|%s\"\n"
        for rest, fed, said in (("2|IGP|9.9.9.9|0|0|", "2 igp 0", "its next hop is 9.9.9.9"),
                                ("3 2|IGP|2.0.0.1|0|0|", None, "its path does not begin with AS 2"),
                                ("2 [9 7]|IGP||||1:2 7:1:1 1:1", "2_{7,9} igp - comm=65537,65538", "7:1:1")):
            made = self.convert(BASE + to % rest, status=1)
            self.assertIn(said, made.stderr)
            self.assertEqual([line[28:] for line in made.stdout.split("\n") if line.startswith("feed ")],
                             [] if fed is None else ["10.0.0.0/8 " + fed])

    def test_strict(self):
        made = self.convert(BASE + "bgp topology load x\n", "--strict", "-o", self.folder / "out", status=2)
        self.assertIn("s.cli:21: not taken over: bgp topology load x: its file is not read", made.stderr)
        self.assertFalse((self.folder / "out").exists())

    def test_a_line_that_is_not_known(self):
        self.told_of(BASE + "net frobnicate 1\n")
        self.assert_told(21, "net frobnicate 1: it is not known to from-cbgp")
        self.told_of(BASE + "bgp router 1.0.0.1\nbgp router 1.0.0.2 add network 10/8\nexit\n", status=0)
        self.assert_told(22, "none of what is open", kind="note")
        self.assert_told(23, "nothing is open", kind="note")


class Mistakes(Converted):
    def test_each_has_its_line(self):
        to = "bgp router 1.0.0.1 peer 2.0.0.1 "
        for line, said in (
                ("net add node 1.0.0", "`1.0.0` is no address"), ("net add node 1.0.0.1",
                                                                  "there is a node 1.0.0.1 already"),
                ("net add link 1.0.0.1 4.0.0.1", "there is no node 4.0.0.1"), ("net add link 1.0.0.1", "is expected"),
                ("net add link 1.0.0.1 1.0.0.1", "the two are one"), ("net add link 1.0.0.2 1.0.0.1", "a link already"),
                ("net link 1.0.0.2 2.0.0.1 up", "have no link"), ("net link 1.0.0.1 1.0.0.2 igp-weight x", "no weight"),
                ("net add domain 1 igp", "a domain 1 already"), ("net domain 2 compute", "there is no domain 2"),
                ("net node 1.0.0.1 route add 10/8", "is expected"), ("net node 1.0.0.1 route add x --oif=1.0.0.2 1",
                                                                     "no prefix"),
                ("bgp add router 0 2.0.0.1", "`0` is no AS number"), ("bgp add router 1 1.0.0.1",
                                                                      "BGP runs there already"),
                ("bgp router 2.0.0.1", "BGP does not run there"), ("bgp router 1.0.0.1 add network 10/33", "no prefix"),
                ("bgp router 1.0.0.1 add peer 2 2.0.0.1", "a peer already"), ("bgp router 1.0.0.1 peer 9.9.9.9 up",
                                                                              "no peer"),
                ("bgp router 1.0.0.1 del network 10/8", "has no such network"), ("bgp options med x", "is expected"),
                (to + 'filter in add-rule match "prefix is"', "a prefix is expected at the end"),
                (to + 'filter in add-rule match "prefix near 10/8"', "`prefix near` is no match"),
                (to + 'filter in add-rule match "any any"', "`any` is not expected"),
                (to + 'filter in add-rule match "(any"', "`)` is expected"),
                (to + 'filter in add-rule match "prefix ge 10/8 7"', "a length of 8 to 32"),
                (to + 'filter in add-rule match "community is 70000:1"', "`70000:1` is no community"),
                (to + 'filter in add-rule action "local-pref x"', "a number is expected behind `local-pref`"),
                (to + 'filter in add-rule action "drop"', "`drop` is no action"), (to + "filter in remove-rule 0",
                                                                                   "is expected"),
                (to + 'filter in add-rule action "call X"', "there is no route map `X`"), (to + 'recv "x"',
                                                                                           "a record BGP4"),
                (to + 'recv "BGP4|0|A|2.0.0.1|2|10/8|2|BGP|||"', "an origin IGP, EGP or INCOMPLETE"),
                (to + 'recv "BGP4|0|A|2.0.0.1|2|10/8|2|IGP||||x"', "`x` is no community"),
                ("bgp router 1.0.0.1 peer 1.0.0.2 " + 'recv "BGP4|0|W|1.0.0.2|1|10/8"', "no virtual peer that is up"),
                ("print \"x", "a quote is not closed"), ("include gone.cli", "there is no such file"),
                ("include s.cli", "it is read already"), ("include", "`include FILE` is expected")):
            with self.subTest(line=line):
                made = self.convert(BASE + line + "\nsim run\n", "-o", self.folder / "out", status=2)
                self.assertRegex(made.stderr, r"(?m)^s\.cli:21: ")
                self.assertIn(said, made.stderr)
                self.assertFalse((self.folder / "out").exists())

    def test_of_the_whole(self):
        self.assertIn("s.cli: it has no router", self.convert("net add node 1.0.0.1\n", status=2).stderr)
        self.assertIn("it cannot be read", inside("from-cbgp", self.folder / "gone.cli").stderr)
        made = self.convert(BASE + "sim run\nbgp add router 2 2.0.0.1\nsim run\n", status=2)
        self.assertIn("s.cli:22: bgp add router 2 2.0.0.1: what 2.0.0.1 is, and its AS, cannot change", made.stderr)

    def test_too_many_sessions(self):
        text = "".join("net add node 3.0.%d.%d\nbgp add router 1 3.0.%d.%d\n" % (at // 200, at % 200, at // 200,
                                                                                 at % 200)
                       for at in range(256))
        made = self.convert(BASE.replace("bgp domain 1 full-mesh", text + "bgp domain 1 full-mesh") + "sim run\n",
                            status=2)
        self.assertIn("the network has 258 sessions at one of them, and one has at most 256", made.stderr)
