"""from-bird: three networks of real-looking configurations, and single settings of them."""
import random
import shutil
import subprocess
import unittest

from common import DATA, PATIENCE, TOP, Case, inside, program, tool

NETWORKS = DATA / "bird"
NAMES = ("provider", "reflector", "ring")
INPUTS = sorted(path for folder in (NETWORKS, TOP / "toolbox" / "lessons" / "bird") for path in folder.rglob("*.conf"))
KERNEL = "protocol kernel { ipv4 { export all; }; }"
OSPF = """protocol ospf v2 { ipv4; area 0 { interface "eth0" 10.1.0.0/30 { cost 7; }; interface "lo" { stub; }; }; }"""
INSIDE = "ipv4 { import all; export none; next hop self; };"
ONE = """router id 10.0.0.1;
%s
""" + KERNEL + OSPF + """
protocol bgp two { local 10.0.0.1 as 65001; neighbor 10.0.0.2 as 65001; """ + INSIDE + """ }
protocol bgp out { local 10.9.0.1 as 65001; neighbor 10.9.0.2 as 65002; %s ipv4 { import %s; export %s; }; }
"""
TWO = """router id 10.0.0.2;
""" + KERNEL + OSPF + """
protocol bgp one { local 10.0.0.2 as 65001; neighbor 10.0.0.1 as 65001; ipv4 { import all; export none; }; }
"""
OUT = """router id 10.0.0.9;
protocol bgp one { local 10.9.0.2 as 65002; neighbor 10.9.0.1 as 65001; ipv4 { import all; export all; }; }
"""
LINE = 5
# The first of two routers of AS 65001, with all that is let in and out.
FIRST = ONE % ("", "", "all", "where source = RTS_BGP")


class Made(Case):
    """What is made of single settings."""

    def convert(self, *texts, status=None, words=()):
        """from-bird on files a.conf, b.conf and so on."""
        self.count = getattr(self, "count", 0) + 1
        place = self.folder / str(self.count)
        for name, text in zip("abcd", texts):
            self.file("%d/%s.conf" % (self.count, name), text)
        made = inside("from-bird", place, *words)
        made.stderr = made.stderr.replace(str(place) + "/", "")
        if status is not None:
            self.assertEqual(made.returncode, status, made.stderr)
        return made

    def network(self, imports="all", exports="where source = RTS_BGP", setting="", top="", status=0, out=OUT):
        """Two routers of AS 65001 of which the first has a session with AS 65002."""
        return self.convert(ONE % (top, setting, imports, exports), TWO, out, status=status)

    def rules(self, made, ends="10.0.0.1 10.0.0.9 in"):
        head = "rule %s " % ends
        return [line[len(head):] for line in made.stdout.split("\n") if line.startswith(head)]

    def imported(self, condition, **given):
        """The rules of a filter that denies what a condition holds for."""
        return self.rules(self.network("filter { if %s then reject; accept; }" % condition, **given))

    def assert_told(self, made, place, *said, kind="not taken over"):
        found = [line for line in made.stderr.split("\n") if line.startswith("%s: %s: " % (place, kind))]
        self.assertTrue(any(all(word in line for word in said) for line in found), "%s %s in\n%s" % (
            place, said, made.stderr))


class Networks(Case):
    def test_what_comes_of_each(self):
        for name in NAMES:
            with self.subTest(network=name):
                made = inside("from-bird", NETWORKS / name)
                self.assert_as_file(made.stdout, NETWORKS / (name + ".bgp"))
                self.assert_as_file(made.stderr.replace(str(NETWORKS) + "/", ""), NETWORKS / (name + ".told"))
                self.assertEqual(made.returncode, 1)

    def test_each_converges(self):
        for name in NAMES:
            converged = tool("converge", "--at-end", NETWORKS / (name + ".bgp"), status=0).stdout
            replies = program(converged + "quiet\n")
            self.assertEqual((replies[-1], [each for each in replies if each.startswith("refused")]), ("yes", []))

    def test_strict(self):
        made = inside("from-bird", "--strict", NETWORKS / "ring", "-o", self.folder / "out")
        self.assertEqual((made.returncode, (self.folder / "out").exists()), (2, False))
        self.assertIn("nothing is written, since --strict", made.stderr)

    @unittest.skipUnless(shutil.which("bird", path="/usr/sbin:/usr/bin:/sbin:/bin"),
                         "bird is not installed: apt-get install bird2")
    def test_bird_takes_the_examples(self):
        for path in INPUTS:
            bird = shutil.which("bird", path="/usr/sbin:/usr/bin:/sbin:/bin")
            ran = subprocess.run([bird, "-p", "-c", str(path)], capture_output=True, timeout=PATIENCE, cwd=str(path.parent))
            self.assertEqual((ran.returncode, ran.stderr), (0, b""), path)

    def test_files_one_by_one(self):
        names = [NETWORKS / "provider" / name for name in ("east.conf", "west.conf")]
        self.assertEqual(inside("from-bird", *names).stdout, (NETWORKS / "provider.bgp").read_text())


class Sessions(Made):
    def test_all_is_taken_over(self):
        made = self.network()
        self.assertEqual(made.stderr, "4 lines that decide no route were left out: settings of other protocols 4\n")
        self.assertEqual(made.stdout, "\n".join([
            "router 10.0.0.1 65001", "# name 10.0.0.1 a", "router 10.0.0.2 65001", "# name 10.0.0.2 b",
            "router 10.0.0.9 65002", "# name 10.0.0.9 c", "link 10.0.0.1 10.0.0.2 7", "link 10.0.0.1 10.0.0.9 10",
            "join 10.0.0.1 10.0.0.2", "join 10.0.0.1 10.0.0.9", "self 10.0.0.1 10.0.0.2 on",
            "rule 10.0.0.1 10.0.0.2 out any deny", "rule 10.0.0.2 10.0.0.1 out any deny", ""]))

    def test_no_policy(self):
        """Between two ASes BIRD wants one (RFC 8212); inside an AS all is taken and nothing told."""
        text = ONE.replace("import %s; export %s;", "") % ("", "")
        made = self.convert(text, TWO.replace("import all; export none;", ""), OUT, status=1)
        for way in ("import", "export"):
            self.assert_told(made, "a.conf:%d" % LINE, "it has no `%s`" % way, "RFC 8212")
        self.assertEqual(self.rules(made) + self.rules(made, "10.0.0.1 10.0.0.9 out"), ["any deny", "any deny"])
        self.assertEqual(self.rules(made, "10.0.0.2 10.0.0.1 in"), [])
        self.assertEqual(self.rules(made, "10.0.0.2 10.0.0.1 out"), ["any deny"])

    def test_sessions_that_never_come_up(self):
        for setting, out in (("disabled;", OUT), ("passive;", OUT.replace("ipv4", "passive on; ipv4")),
                             ("password \"a\";", OUT), ("local role peer;",
                                                        OUT.replace("ipv4", "local role customer; ipv4")),
                             ("local role peer; require roles on;", OUT)):
            with self.subTest(setting=setting):
                made = self.network(setting=setting, out=out)
                self.assertIn("\nstop 10.0.0.1 10.0.0.9\n", made.stdout, made.stderr)
        other = self.convert(ONE % ("", "", "all", "none"), TWO.replace("local 10.0.0.2", "local 10.0.0.3"), OUT,
                             status=0)
        self.assertIn("\nstop 10.0.0.1 10.0.0.2\n", other.stdout)
        self.assert_told(other, "a.conf:4", "the other end has `local 10.0.0.3`", kind="note")
        for setting in ("disabled off;", "passive;"):
            self.assertNotIn("stop", self.network(setting=setting).stdout)
        self.assertNotIn("stop", self.network(setting="local role peer; require roles off;", status=1).stdout)

    def test_a_channel_that_is_not_there(self):
        text = ONE.replace("ipv4 { import %s; export %s; };", "ipv6 { import all; export all; };") % ("", "")
        made = self.convert(text, TWO, OUT, status=0)
        self.assertIn("\nstop 10.0.0.1 10.0.0.9\n", made.stdout)

    def test_sessions_without_local_addresses(self):
        ends = [text.replace("local 10.9.0.%d as" % n, "local as") for n,
                text in ((1, FIRST), (2, OUT))]
        made = self.convert(ends[0], TWO, ends[1], status=0)
        self.assert_told(made, "a.conf:%d" % LINE, "it is taken for the session of", "10.9.0.1", kind="note")
        one_sided = self.convert(ends[0], TWO, OUT, status=0)
        self.assertNotIn("note", one_sided.stderr)
        for each in (made, one_sided):
            self.assertEqual(each.stdout, self.network().stdout)

    def test_neighbours_in_no_common_subnet_are_not_guessed(self):
        """10.9.0.3 and 10.9.0.4 are in two subnets of 30 bits."""
        one = FIRST.replace("local 10.9.0.1 as",
                                                                        "local as").replace("10.9.0.2", "10.9.0.4")
        made = self.convert(one, TWO, OUT.replace("local 10.9.0.2 as", "local as").replace("10.9.0.1", "10.9.0.3"))
        self.assertIn("\nvirtual 10.9.0.4 65002\n", made.stdout)

    def test_settings_of_sessions_that_are_told(self):
        for setting, said in (("allow local as 2;", "loop"), ("rs client;", "next hop"),
                              ("path metric off;", "shorter path"),
                              ("igp metric off;", "costs"), ("prefer older on;", "older"),
                              ("default bgp_med 5;", "MED"),
                              ("interpret communities off;", "no-export"), ("confederation 3;", "confederations"),
                              ("some new word;", "from-bird does not know this line")):
            with self.subTest(setting=setting):
                self.assert_told(self.network(setting=setting, status=1), "a.conf:%d" % LINE, said)

    def test_settings_of_sessions_that_decide_nothing(self):
        made = self.network(setting="hold time 9; description \"x\"; path metric on; prefer older off; bfd on; ttl "
                            "security on; default bgp_med 0; graceful restart on; require roles no;")
        self.assertIn("descriptions 1", made.stderr)
        self.assertIn("what is off by default 1", made.stderr)

    def test_channel_settings_that_are_told(self):
        for setting, said in (("import limit 9 action block", "more come"), ("table other", "`master4`"),
                              ("next hop keep", "next hop"), ("preference 90", "before all else"),
                              ("add paths on", "several routes")):
            with self.subTest(setting=setting):
                made = self.network("all; %s" % setting, status=1)
                self.assert_told(made, "a.conf:%d" % LINE, said)

    def test_med_over_all_neighbours(self):
        every = (ONE % ("", "med metric;", "all", "where source = RTS_BGP")).replace("ipv4 { import all; export none;",
                                                                                     "med metric on; ipv4 { "
                                                                  "import all; export none;")
        self.assertIn("\nmed 10.0.0.1 always\n", self.convert(every, TWO, OUT, status=0).stdout)
        made = self.network(setting="med metric on;", status=1)
        self.assertNotIn("\nmed ", made.stdout)
        self.assert_told(made, "a.conf:%d" % LINE, "1 of 2 sessions")

    def test_a_reflector(self):
        text = FIRST.replace("neighbor 10.0.0.2 as 65001;",
                                                                         "neighbor 10.0.0.2 internal; rr client; rr "
                                                      "cluster id 9.9.9.9;")
        made = self.convert(text, TWO, OUT, status=1)
        self.assertIn("\ncluster 10.0.0.1 9.9.9.9\n", made.stdout)
        self.assertIn("\nclient 10.0.0.1 10.0.0.2 on\nself 10.0.0.1 10.0.0.2 on\n", made.stdout)
        self.assert_told(made, "a.conf:4", "of the routes that it reflects, too")
        self.convert(text.replace("next hop self;", "next hop self ebgp;"), TWO, OUT, status=0)

    def test_a_next_hop_that_the_interior_does_not_know(self):
        text = FIRST.replace("export none; next hop self;",
                                                                         "export where source = RTS_BGP;")
        self.assert_told(self.convert(text, TWO, OUT, status=1), "a.conf:%d" % LINE, "`next hop self`",
                         "`self 10.0.0.1 10.0.0.2 on`")

    def test_no_kernel(self):
        """Without its routes the other end of a session between loopbacks is not reached."""
        made = self.convert((ONE % ("", "", "all", "none")).replace(KERNEL, ""), TWO, OUT, status=0)
        self.assert_told(made, "a.conf:4", "there is no `protocol kernel`", kind="note")

    def test_what_links_no_two_routers(self):
        one, two = (text.replace('"eth0" 10.1.0.0/30', '"eth*"') for text in (FIRST, TWO))
        made = self.convert(one, two, OUT, status=1)
        self.assert_told(made, "a.conf:3", "`a.addresses`", "`link A B M`")
        self.assert_told(made, "a.conf:4", "nothing in the files links a and b")
        for name, last in (("a", 1), ("b", 2)):
            self.file("2/%s.addresses" % name,
                      "1: lo    inet 127.0.0.1/8 scope host lo\n2: eth0    inet 10.1.0.%d/30 brd "
                      "10.1.0.3 scope global eth0\n2: eth0    inet6 fe80::1/64 scope link\n" % last)
        self.assertIn("\nlink 10.0.0.1 10.0.0.2 7\n", self.convert(one, two, OUT, status=0).stdout)
        self.file("3/a.addresses", "eth0 10.1.0.1/30\n")
        made = self.convert(FIRST, TWO, OUT)
        self.assertIn("a.addresses:1: a line as `ip -o addr` prints it is expected", made.stderr)
        self.assertEqual((made.returncode, made.stdout), (2, ""))


class Filters(Made):
    def test_prefixes(self):
        for condition, rules in (
                ("net ~ [ 10.0.0.0/8, 10.1.0.0/16+ ]", ["is 10.0.0.0/8 deny", "under 10.1.0.0/16 deny", "any permit"]),
                ("net ~ 10.0.0.0/8", ["under 10.0.0.0/8 deny", "any permit"]),
                ("net = 10.0.0.0/8", ["is 10.0.0.0/8 deny", "any permit"]),
                ("net ~ [ 10.0.0.0/8{8,9} ]", ["is 10.0.0.0/8 deny", "is 10.0.0.0/9 deny", "is 10.128.0.0/9 deny",
                                               "any permit"]),
                ("net ~ [ 10.0.0.0/8{7,8} ]", ["is 10.0.0.0/7 deny", "is 10.0.0.0/8 deny", "any permit"]),
                ("net ~ [ 192.0.0.0/2- ]", ["is 0.0.0.0/0 deny", "is 128.0.0.0/1 deny", "is 192.0.0.0/2 deny",
                                            "any permit"]),
                ("net !~ [ 10.0.0.0/8+ ]", ["under 10.0.0.0/8 permit", "any deny"]),
                ("net != 10.0.0.0/8", ["is 10.0.0.0/8 permit", "any deny"]),
                ("net ~ [ 0.0.0.0/0+ ]", ["any deny"])):
            with self.subTest(condition=condition):
                self.assertEqual(self.imported(condition), rules)

    def test_paths(self):
        for condition, rules in (
                ("bgp_path ~ [= * 7 * =]", ["path 7 deny", "any permit"]),
                ("bgp_path ~ [= 65002 * =]", ["first 65002 deny", "any permit"]),
                ("7 ~ bgp_path", ["path 7 deny", "any permit"]),
                ("bgp_path ~ [ 7, 8..9 ]", ["path 7 deny", "path 8 deny", "path 9 deny", "any permit"]),
                ("bgp_path.first = 65002", ["first 65002 deny", "any permit"]),
                ("bgp_path.first ~ [ 65002, 7 ]", ["first 65002 deny", "first 7 deny", "any permit"]),
                ("bgp_path ~ [= =]", []), ("bgp_path ~ [= * =]", ["any deny"]),
                ("bgp_path ~ [= 65002 =]", ["path 65001 permit", "first 65002 deny", "any permit"])):
            with self.subTest(condition=condition):
                self.assertEqual(self.imported(condition), rules)

    def test_communities(self):
        for condition, rules in (
                ("(65001, 7) ~ bgp_community", ["comm 4259905543 deny", "any permit"]),
                ("bgp_community ~ [ (65001,7), (1,2..3) ]", ["comm 4259905543 deny", "comm 65538 deny",
                                                             "comm 65539 deny",
                                                             "any permit"])):
            with self.subTest(condition=condition):
                self.assertEqual(self.imported(condition), rules)

    def test_what_is_known_of_a_route(self):
        """On the way in these hold always, or never."""
        for condition in ('proto = "out"', "source = RTS_BGP", "source ~ [ RTS_STATIC, RTS_BGP ]", "from = 10.9.0.2",
                          "dest = RTD_UNICAST", "bgp_local_pref = 100", "bgp_local_pref >= 100", "net.type = NET_IP4",
                          "true", "!false", "1 + 1 = 2", '"abc" ~ "a*"', "5 ~ [ 1..9 ]", "10.0.0.1 ~ 10.0.0.0/8"):
            with self.subTest(condition=condition):
                self.assertEqual(self.imported(condition), ["any deny"])
                self.assertEqual(self.imported("!(%s)" % condition), [])

    def test_and_with_or(self):
        """BIRD reads them from the left, and neither binds closer: true || x && false is false."""
        self.assertEqual(self.imported("true || net = 10.0.0.0/8 && false"), [])
        self.assertEqual(self.imported("true || (net = 10.0.0.0/8 && false)"), ["any deny"])
        self.assertEqual(self.imported("net ~ 10.0.0.0/8 && !(net = 10.1.0.0/16)"),
                         ["is 10.1.0.0/16 permit", "under 10.0.0.0/8 deny", "any permit"])

    def test_what_no_rule_is_about(self):
        for condition, said in (("bgp_path.len > 9", "the length of a path"),
                                ("net.len > 24", "the length of a prefix"),
                                ("bgp_path.last = 7", "the last AS"), ("bgp_med > 5", "`bgp_med`"),
                                ("(1,2,3) ~ bgp_large_community", "large and extended"),
                                ("bgp_path ~ [= 7 8 =]", "other paths"),
                                ("(1,*) ~ bgp_community", "any number at all"),
                                ("net ~ [ 0.0.0.0/0{0,24} ]", "lengths 0 to 24"),
                                ("roa_check(t)", "`roa_check`"), ("bgp_origin = ORIGIN_IGP", "`bgp_origin`"),
                                ("(1,2) ~ bgp_community && bgp_path ~ [= * 7 * =]", "at once"),
                                ("some_name", "`some_name`")):
            with self.subTest(condition=condition):
                made = self.network("filter { if %s then reject; accept; }" % condition, status=1)
                self.assert_told(made, "a.conf:%d" % LINE, said, "as if it did not hold")
                self.assertEqual(self.rules(made), [])

    def test_where_all_origins_are_known(self):
        """AS 65002 originates two prefixes, and no other AS is behind it."""
        out = OUT + "protocol static { ipv4; route 192.0.2.0/24 blackhole; route 198.51.100.128/25 blackhole; }\n"
        for condition, rules in (("net ~ [ 0.0.0.0/0{0,24} ]", ["is 192.0.2.0/24 deny", "any permit"]),
                                 ("net !~ [ 0.0.0.0/0{0,24} ]", ["is 192.0.2.0/24 permit", "any deny"]),
                                 ("bgp_path.last = 65002", ["any deny"]), ("bgp_path.last ~ [ 1..5 ]", []),
                                 ("bgp_path ~ [= ? =]", ["any deny"]), ("bgp_path ~ [= 65002 ? * =]", [])):
            with self.subTest(condition=condition):
                made = self.network("filter { if %s then reject; accept; }" % condition, out=out)
                self.assertEqual(self.rules(made), rules)
                self.assert_told(made, "a.conf:%d" % LINE, "exact for the 2 prefixes", kind="note")

    def test_a_prefix_and_a_community(self):
        found = self.imported("net ~ 10.0.0.0/8 && (65002,70) ~ bgp_community")
        self.assertEqual(found[-2:], ["comm %d deny" % (65002 * 65536 + 70), "any permit"])
        self.assertEqual(sorted(found[:-2]), sorted(
            ["is %s permit" % each for each in ("0.0.0.0/0", "0.0.0.0/1", "0.0.0.0/2", "0.0.0.0/3", "0.0.0.0/4", "8.0.0.0/5",
                                                "8.0.0.0/6", "10.0.0.0/7")] +
            ["under %s permit" % each for each in ("128.0.0.0/1", "64.0.0.0/2", "32.0.0.0/3", "16.0.0.0/4", "0.0.0.0/5",
                                                   "12.0.0.0/6", "8.0.0.0/7", "11.0.0.0/8")]))

    def test_what_cannot_be_said(self):
        for word, rules in (("skip", []), ("deny", ["any deny"]), ("permit", ["any permit pref=90"])):
            given = ("--unsaid", word)
            made = self.convert(ONE % ("", "", "filter { bgp_local_pref = 90; if bgp_path.len > 9 then reject; accept; }",
                                       "all"), TWO, OUT, words=given, status=1)
            self.assertEqual(self.rules(made), rules or ["any permit pref=90"])
            self.assert_told(made, "a.conf:%d" % LINE, "the length of a path", "as if it did not hold" if word == "skip" else
                             "`--unsaid %s`" % word)

    def test_settings(self):
        for body, rules in (
                ("bgp_local_pref = 200; accept;", ["any permit pref=200"]),
                ("bgp_med = 7; accept;", ["any permit med=7"]),
                ("bgp_community.add((65001,7)); accept;", ["any permit add=4259905543"]),
                ("bgp_community = add(bgp_community, (65001,7)); bgp_local_pref = 10 * 9; accept;",
                 ["any permit pref=90 add=4259905543"]),
                ("if net = 10.0.0.0/8 then bgp_local_pref = 90; accept;",
                 ["is 10.0.0.0/8 permit pref=90", "any permit"]),
                ("if net = 10.0.0.0/8 then { bgp_local_pref = 90; } else bgp_med = 3; accept;",
                 ["is 10.0.0.0/8 permit pref=90", "any permit med=3"]),
                ("bgp_local_pref = 90; if bgp_local_pref < 100 then reject; accept;", ["any deny"]),
                ("int x = 5; x = x + 1; bgp_med = x; accept;", ["any permit med=6"]),
                ("bgp_local_pref = 90;", ["any deny"]), ("print \"x\"; { accept; }", [])):
            with self.subTest(body=body):
                self.assertEqual(self.rules(self.network("filter { %s }" % body)), rules)
        self.assertEqual(self.rules(self.network(setting="default bgp_local_pref 70;")), ["any permit pref=70"])

    def test_settings_that_no_rule_has(self):
        for body, said in (("bgp_path.prepend(65001);", "on the way out"), ("bgp_med = bgp_med + 1;", "reckoned"),
                           ("bgp_community.delete([(1,*)]);", "adds one community"),
                           ("bgp_community = -empty-;", "adds one"),
                           ("bgp_next_hop = 10.0.0.5;", "nothing else"),
                           ("bgp_large_community.add((1,2,3));", "nothing else"),
                           ("bgp_community.add((1,2)); bgp_community.add((1,3));", "there is one before"),
                           ("case net.len { 8: reject; else: accept; }", "follows no `case`"),
                           ("unset(bgp_med);", "`unset`"),
                           ("nobody(5);", "`nobody`"), ("preference = 5;", "nothing else")):
            with self.subTest(body=body):
                made = self.network("filter { %s accept; }" % body, status=1)
                self.assert_told(made, "a.conf:%d" % LINE, said)
        inner = FIRST.replace("import all; export none;",
                              "import filter { bgp_local_pref = 7; accept; }; export none;")
        self.assert_told(self.convert(inner, TWO, OUT, status=1), "a.conf:4",
                         "a rule of an internal session sets nothing")

    def test_names(self):
        top = ("define N = 65001; define SET = [ 10.0.0.0/8+ ];\nfunction f(int a; int b) { if bgp_path.first = a then "
               "return false; bgp_local_pref = b; return true; }\n"
               "function g() int x; { x = 5; if net ~ SET then reject; }\n"
               "filter named { g(); if f(7, 90) then accept; reject; }")
        self.assertEqual(self.rules(self.network("filter named", top=top)),
                         ["under 10.0.0.0/8 deny", "first 7 deny", "any permit pref=90"])
        self.assertEqual(self.rules(self.network("where f(7, 90)", top=top)), ["first 7 deny", "any permit pref=90"])
        made = self.network("filter missing", status=1)
        self.assertEqual(self.rules(made), ["any deny"])
        self.assert_told(made, "a.conf:%d" % LINE, "there is no filter missing")

    def test_the_protocol_of_a_route(self):
        """On the way out it stands for the neighbour's AS, where one session alone is with it."""
        other = ("protocol bgp more { local 10.8.0.1 as 65001; neighbor 10.8.0.2 as %d; ipv4 { import all; export "
                 "filter { if proto = \"out\" then accept; reject; }; }; }")
        made = self.network(top=other % 65003)
        self.assertEqual(self.rules(made, "10.0.0.1 10.8.0.2 out"), ["first 65002 permit", "any deny"])
        made = self.network(top=other % 65002, status=1)
        self.assert_told(made, "a.conf:2", "the only one of its AS")
        made = self.network(top=(other % 65003).replace('"out"', '"two"'), status=1)
        self.assert_told(made, "a.conf:2", "the only one of its AS")


class Own(Made):
    STATIC = "protocol static st { ipv4; route 192.0.2.0/24 %s; route 198.51.100.0/24 blackhole; }"

    def test_origins_where_a_policy_lets_them_out(self):
        for exports, out, origins in (
                ("none", ["any deny"], []), ("all", [], ["192.0.2.0/24", "198.51.100.0/24"]),
                ("where source = RTS_STATIC", ["is 192.0.2.0/24 permit", "is 198.51.100.0/24 permit", "any deny"],
                 ["192.0.2.0/24", "198.51.100.0/24"]),
                ("where source = RTS_BGP", [], []),
                ("where net = 192.0.2.0/24", ["is 192.0.2.0/24 permit", "any deny"], ["192.0.2.0/24"]),
                ("where net ~ [ 192.0.2.128/25{24,25} ]", ["is 192.0.2.0/24 permit", "is 192.0.2.128/25 permit",
                                                           "any deny"], ["192.0.2.0/24"]),
                ('where proto = "st" && net ~ [ 192.0.0.0/8+ ]', ["is 192.0.2.0/24 permit", "any deny"],
                 ["192.0.2.0/24"]),
                ("where dest = RTD_BLACKHOLE", ["is 192.0.2.0/24 permit", "is 198.51.100.0/24 permit", "any deny"],
                 ["192.0.2.0/24", "198.51.100.0/24"]),
                ("filter { if source = RTS_STATIC then { bgp_med = 9; bgp_path.prepend(65001); accept; } reject; }",
                 ["is 192.0.2.0/24 permit med=9 prepend=1", "is 198.51.100.0/24 permit med=9 prepend=1", "any deny"],
                 ["192.0.2.0/24", "198.51.100.0/24"])):
            with self.subTest(exports=exports):
                made = self.network(exports=exports, top=self.STATIC % "blackhole", status=None)
                self.assertEqual(self.rules(made, "10.0.0.1 10.0.0.9 out"), out)
                found = [line.split(" ")[2] for line in made.stdout.split("\n") if line.startswith("origin 10.0.0.1 ")]
                self.assertEqual(found, origins)

    def test_forms_of_static_routes(self):
        for way, kind, said in (("reject", None, ""), ("unreachable", None, ""), ("prohibit", None, ""),
                                ("via \"eth0\"", None, ""),
                                ("via 10.1.0.2", None, ""), ("via 10.77.0.1", "note", "no file shows the subnet"),
                                ("via 10.1.0.2 { bgp_med = 5; }", "not taken over", "in braces"),
                                ("multipath via 10.1.0.2", "not taken over", "this form")):
            with self.subTest(way=way):
                made = self.network(exports="where source = RTS_STATIC", top=self.STATIC % way,
                                    status=int(kind == "not taken over"))
                if kind:
                    self.assert_told(made, "a.conf:2", said, kind=kind)
                self.assertEqual("origin 10.0.0.1 192.0.2.0/24" in made.stdout, way[0] != "m")

    def test_own_routes_win(self):
        made = self.network("filter { bgp_local_pref = 150; accept; }", "where source = RTS_STATIC",
                            top=self.STATIC % "blackhole", status=1)
        self.assert_told(made,
                         "a.conf:2", "by its own preference", "`rule 10.0.0.1 10.0.0.9 in is 192.0.2.0/24 permit`")

    def test_routes_of_ospf(self):
        made = self.network(exports="all", status=None)
        self.assertIn("BIRD tells c its routes of OSPF, as 10.0.0.1/32 and", made.stderr)
        self.assertEqual(made.returncode, 1)

    def test_connected_routes(self):
        top = "protocol direct { ipv4; }"
        self.assert_told(self.network(exports="where source = RTS_DEVICE", top=top, status=1), "a.conf:2",
                         "`a.addresses`")
        self.file("2/a.addresses", "2: eth0    inet 10.1.0.1/30 scope global eth0\n")
        made = self.network(exports="where source = RTS_DEVICE", top=top)
        self.assertIn("\norigin 10.0.0.1 10.1.0.0/30\n", made.stdout)

    def test_protocols_that_are_told(self):
        for text, said in (("protocol pipe { table a; peer table b; }", "from one table to another"),
                           ("protocol rip { ipv4; }", "OSPF alone"), ("protocol kernel { learn; ipv4; }",
                                                                      "the kernel has"),
                           ("protocol odd { }", "does not know")):
            self.assert_told(self.network(top=text, status=1), "a.conf:2", said)


class Mistakes(Made):
    def test_files_that_are_none(self):
        for text, said in (("protocol bgp a {", "a.conf:1: a brace `{` without its other one"),
                           ("router id 1.1.1.1", "a.conf:1: `;` is expected behind `1.1.1.1`"),
                           ("router id 1.1.1.1; }", "a.conf:1: a brace `}` without"),
                           ("/* x", "a.conf:1: a comment that does not end"),
                           ("\nlog \"x", "a.conf:2: a string that does not end"),
                           ("include \"gone.conf\";", "gone.conf: it cannot be read"),
                           ("include gone;", "a.conf:1: `include \"FILE\";` is expected"),
                           ("", "a.conf: `router id ADDRESS;` and"),
                           ("router id 1.1.1.1;", "a.conf: `router id ADDRESS;` and a `protocol bgp` or"),
                           ("include \"a.conf\";", "a.conf:1: files include each other more than 8 deep")):
            with self.subTest(said=said):
                made = self.convert(text, status=2)
                self.assertIn(said, made.stderr)
                self.assertEqual(made.stdout, "")
        for path, said in ((self.folder / "none", "there is no such file or folder"),
                           (self.folder, "it has no file NAME.conf")):
            made = inside("from-bird", path)
            self.assertEqual((made.returncode, said in made.stderr), (2, True))

    def test_a_bad_file_among_good_ones(self):
        made = self.convert(FIRST, TWO, "router id", status=1)
        self.assertIn("c.conf:1: not taken over: `;` is expected", made.stderr)
        self.assertIn("virtual 10.9.0.2 65002\n# name 10.9.0.2 out\n", made.stdout)

    def test_filters_that_are_none(self):
        for body, said in (("if then reject;", "`reject` is expected"),
                           ("if net ~ [ 10.0.0.0/33 ] then reject;", "a number of 0 to 32"),
                           ("bgp_med = ;", "begins no value"), ("if true reject;", "`then` is expected")):
            made = self.network("filter { %s accept; }" % body, status=1)
            self.assertEqual(self.rules(made), ["any deny"])
            self.assert_told(made, "a.conf:%d" % LINE, "nothing is let through here")

    def test_too_many_ways(self):
        body = " ".join("if net = 10.%d.0.0/16 then bgp_med = %d;" % (n, n) for n in range(40))
        self.assertIn("more than 20000 ways", self.network("filter { %s accept; }" % body, status=2).stderr)
        deep = "(" * 200 + "true" + ")" * 200
        self.assert_told(self.network("where " + deep, status=1), "a.conf:%d" % LINE, "nested more than 50 deep")
        loop = "function f() { return f(); }"
        self.assertEqual(self.network("where f()", top=loop, status=2).stdout, "")
        long = " ".join("if net = 10.%d.%d.0/24 then reject;" % (n // 200, n % 200) for n in range(1500))
        self.assertEqual(self.network("filter { %s accept; }" % long, status=2).stdout, "")

    def test_no_damage_is_a_traceback(self):
        drawn = random.Random(2)
        texts = [path.read_text() for path in INPUTS]
        for number in range(150):
            made = self.convert(damaged(drawn, drawn.choice(texts)), TWO)
            self.assertIn(made.returncode, (0, 1, 2), (number, made.stderr))
            self.assertEqual(made.stdout == "", made.returncode == 2)


def damaged(drawn, text):
    """A text of which some words are left out, doubled, changed or put elsewhere."""
    words = text.split(" ")
    for _ in range(drawn.randint(1, 5)):
        at = drawn.randrange(len(words))
        words[at:at + drawn.randint(0, 2)] = drawn.choice(([], [drawn.choice(words)], [words[at], words[at]],
                                                           [drawn.choice((
            "{", "}", ";", "[", "]", "(", "\"", "0", "99999999999", "::", "[=", "/*", "then", "if", "\x00", "é"))]))
    text = " ".join(words)
    cut = drawn.randrange(len(text) + 1)
    return text[:cut] if drawn.random() < 0.2 else text
