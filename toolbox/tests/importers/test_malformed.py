"""The importers on malformed input: each mistake has status 2, its file and its line, and no input takes
memory or time without a bound. And tools/fuzz-importers, which looks for more of that."""
import bz2
import gzip
import os
import random
import resource
import subprocess
import sys
import unittest
import unittest.mock
import zlib

from common import PATIENCE, TOOLBOX, TOP, Case, inside, program, refused_something

from bgptools.cli import from_bird
from bgptools.importers.bird import lexer, translation
from bgptools.importers.common import expressions, sources
from bgptools.importers.graphs import graph
from bgptools.program.mistakes import Mistake
from simtools import fuzz_importers, importer_inputs, mutations
from test_tools import called, command

SESSION = """router id 10.0.0.1;
protocol kernel { ipv4 { export all; }; }
protocol bgp out { local 10.9.0.1 as 65001; neighbor 10.9.0.2 as 65002; %s ipv4 { import %s; export none; }; }
"""
FRR = """interface lo
 ip address 10.0.0.1/32
interface eth0
 ip address 10.9.0.1/30
router bgp 65001
 bgp router-id 10.0.0.1
 neighbor 10.9.0.2 remote-as 65002
 address-family ipv4 unicast
%s
 exit-address-family
"""
# So much memory an importer has in its own process where it reads a file that unpacks to far more.
ROOM = 400 << 20


def bounded(name, *words, given=b""):
    """An importer in a process with little memory and time: its exit status, what it wrote and what it told."""
    def limit():
        resource.setrlimit(resource.RLIMIT_AS, (ROOM, ROOM))
        resource.setrlimit(resource.RLIMIT_CPU, (120, 120))
    ran = subprocess.run([sys.executable, "-B", str(TOOLBOX / name), *map(str, words)], input=given,
                         capture_output=True, timeout=PATIENCE, cwd=str(TOP), preexec_fn=limit)
    return ran.returncode, ran.stdout.decode("utf-8", "replace"), ran.stderr.decode("utf-8", "replace")


class Malformed(Case):
    def bird(self, text, **files):
        """from-bird on a.conf of this text."""
        self.file("net/a.conf", text)
        for name, more in files.items():
            self.file("net/%s.inc" % name, more)
        return self.said("from-bird", self.folder / "net")

    def frr(self, text):
        """from-frr on a router of this text."""
        self.file("net/r1.conf", text)
        return self.said("from-frr", self.folder / "net")

    def said(self, name, *words):
        """What an importer comes to, with names of files as they are in the test's folder."""
        made = inside(name, *words)
        made.stderr = made.stderr.replace(str(self.folder) + "/", "").replace("net/", "")
        return made

    def assert_mistake(self, made, said):
        """A mistake of the input, which is told so."""
        self.assertIn(said, made.stderr)
        self.assertEqual((made.returncode, made.stdout), (2, ""))

    def assert_told(self, made, said):
        """Something is left out, which is told so, and the program takes what is written."""
        self.assertIn(said, made.stderr)
        self.assertEqual(made.returncode, 1, made.stderr)
        self.assertEqual(set(program(made.stdout)), {"ok"})


class Files(Malformed):
    """What stands in the place of a file."""

    def test_what_includes_no_file(self):
        """An `include` names a NUL, a folder, a pipe that nobody writes to, a device, or a file that is not there."""
        os.makedirs(self.folder / "in" / "inner")
        os.mkfifo(self.folder / "in" / "pipe")
        for name, said in (("a\0b", "a NUL is in no name of a file"), ("inner", "inner: it cannot be read"),
                           ("pipe", "pipe: it cannot be read: it is no regular file"),
                           ("/dev/zero", "/dev/zero: it cannot be read: it is a device"),
                           ("gone", "gone: it cannot be read: No such file"), ("", "it cannot be read"),
                           ("*/*/*/*", "2 parts of a path at most are patterns")):
            with self.subTest(name=name):
                path = self.file("in/a.conf", "router id 10.0.0.1;\ninclude \"%s\";\n" % name)
                made = self.said("from-bird", path)
                self.assert_mistake(made, said)
                self.assertTrue(made.stderr.startswith("in/a.conf:2: "), made.stderr)
                path = self.file("in/s.cli", "# first\ninclude \"%s\"\n" % name)
                self.assert_mistake(self.said("from-cbgp", path), "s.cli:2: include ")

    def test_a_file_that_may_not_be_read(self):
        self.file("net/b.inc", "").chmod(0)
        os.chmod(self.folder, 0o755)
        with refused_something(self.folder / "net"):
            self.assert_mistake(self.bird("include \"b.inc\";\n"), "a.conf:1: include: ")

    def test_files_that_include_each_other(self):
        self.assert_mistake(self.bird("include \"b.inc\";\n", b="include \"c.inc\";\n", c="include \"b.inc\";\n"),
                            "files include each other more than 8 deep")
        with unittest.mock.patch.object(lexer, "MOST_FILES", 50):
            made = self.bird("include \"b.inc\";\n", b="include \"c.inc\";\n" * 9, c="include \"d.inc\";\n" * 9, d="")
        self.assert_mistake(made, "more than 50 files are included")
        for at in range(60):
            self.file("deep%d.cli" % at, "include \"deep%d.cli\"\n" % (at + 1))
        self.assert_mistake(self.said("from-cbgp", self.folder / "deep0.cli"), "more than 50 deep")
        self.file("round.cli", "include \"round.cli\"\n")
        self.assert_mistake(self.said("from-cbgp", self.folder / "round.cli"), "round.cli:1: include round.cli: it is")
        (self.folder / "net" / "link.conf").symlink_to("link.conf")
        self.assertIn("link.conf", self.bird(SESSION % ("", "all")).stderr)

    def test_devices_and_folders(self):
        for name in ("from-rib", "from-as-rel", "from-graph", "from-cbgp", "from-mrt"):
            for path, said in (("/dev/zero", "/dev/zero: it cannot be read: it is a device"),
                               (self.folder, "it cannot be read: Is a directory"),
                               (self.folder / "a\0b", "it cannot be read: embedded null byte"),
                               (self.folder / "\udcff", "it cannot be read: No such file")):
                with self.subTest(name=name, path=path):
                    made = inside(name, path)
                    self.assertEqual((made.returncode, made.stdout), (2, ""))
                    self.assertIn(said, made.stderr)
            self.assertEqual(inside(name, "/dev/null").returncode, 2)

    def test_what_is_read_may_be_a_pipe(self):
        path = self.folder / "pipe"
        os.mkfifo(path)
        with subprocess.Popen(["sh", "-c", "cat toolbox/lessons/rib.txt > " + str(path)], cwd=str(TOP)):
            made = inside("from-rib", path)
        self.assertEqual(made.stdout, inside("from-rib", TOP / "toolbox/lessons/rib.txt").stdout)


class Unpacked(Malformed):
    """Files that unpack to more than is read."""

    def bomb(self, name, part):
        """A packed file of a thousand parts, each of a million bytes or so. A part is packed once: what is packed of it
        stands a thousand times in one stream of gzip, with no check sum at its end, or in as many of bzip2."""
        path = self.folder / name
        if name.endswith(".bz2"):
            path.write_bytes(bz2.compress(part) * 1000)
        else:
            packer = zlib.compressobj(9, zlib.DEFLATED, -zlib.MAX_WBITS)
            packed = packer.compress(part) + packer.flush(zlib.Z_FULL_FLUSH)
            path.write_bytes(gzip.compress(b"")[:10] + packed * 1000 + packer.flush() + bytes(8))
        return path

    def test_a_bound_on_what_is_unpacked(self):
        """Far more than the memory that the importer has is not unpacked: neither lines without an end nor lines that
        it takes, nor a text that is held whole."""
        route = b"TABLE_DUMP2|0|B|192.0.2.1|7|10.0.0.0/16|7 21|IGP|192.0.2.1|0|0||NAG||\n"
        zeros, routes = bytes(1 << 20), route * (10 ** 6 // len(route))
        for name, ending, part, words, said in (
                ("from-rib", "gz", routes, ["--most-unpacked", "2M"], "it unpacks to more than 2,000,000 bytes; --"),
                ("from-rib", "bz2", routes, ["--most-unpacked", "1500K"], "it unpacks to more than 1,500,000 bytes"),
                ("from-as-rel", "gz", b"# " + b"x" * 10 ** 5 + b"\n", ["--most-unpacked", "1000000"],
                 "it unpacks to more than 1,000,000 bytes"),
                ("from-cbgp", "gz", b"print x\n" * 10 ** 5, ["--most-unpacked", "1M"], "more than 1,000,000 bytes"),
                ("from-mrt", "gz", zeros, ["--most-unpacked", "50M"], "it unpacks to more than 50,000,000 bytes"),
                ("from-mrt", "bz2", zeros, ["--most-unpacked", "9M"], "it unpacks to more than 9,000,000 bytes"),
                ("from-as-rel", "gz", zeros, [], ":1: the line has more than 1,048,576 bytes"),
                ("from-rib", "bz2", zeros, [], ":1: the line has more than 1,048,576 bytes"),
                ("from-cbgp", "gz", zeros, [], ":1: the line has more than 1,048,576 bytes"),
                ("from-graph", "gz", zeros, [], "it has more than 32,000,000 bytes, and a text that is held whole"),
                ("from-graph", "bz2", b" " * (1 << 20), ["--most-unpacked", "9M"], "more than 9,000,000 bytes")):
            with self.subTest(name=name, ending=ending, said=said):
                path = self.bomb("bomb." + ending, part)
                status, wrote, told = bounded(name, path, *words)
                self.assertEqual((status, wrote), (2, ""), told[-500:])
                self.assertTrue(told.startswith(str(path) + ":"), told)
                self.assertIn(said, told)

    def test_a_file_that_fits(self):
        text = (TOP / "toolbox/lessons/rib.txt").read_bytes()
        path = self.folder / "rib.gz"
        path.write_bytes(gzip.compress(text))
        whole = inside("from-rib", TOP / "toolbox/lessons/rib.txt").stdout
        self.assertEqual(inside("from-rib", path, "--most-unpacked", len(text)).stdout, whole)
        self.assert_mistake(self.said("from-rib", path, "--most-unpacked", len(text) - 1), "rib.gz: it unpacks to more")

    def test_sizes(self):
        self.assertEqual([sources.size(text) for text in ("1", "500M", "2G", "20K")],
                         [1, 500000000, 2000000000, 20000])
        for text in ("", "0", "-1", "1T", "2 G", "1.5G", "x", "9" * 20):
            self.assertEqual(command("toolbox/from-rib", "x", "--most-unpacked=" + text).returncode, 2)

    def test_a_long_line(self):
        """A line of 1,048,576 bytes is read, one byte more is not."""
        for count, said in ((0, "is expected, each an AS number"), (1, ":2: the line has more than 1,048,576 bytes")):
            path = self.file("rel", "#\n" + "1|" * 524288 + "1" * count + "\n")
            self.assert_mistake(self.said("from-as-rel", path), said)

    def test_large_texts(self):
        with unittest.mock.patch.object(sources, "MOST_WHOLE", 2000):
            self.assert_mistake(self.bird("#" * 2001), "a.conf: it has more than 2,000 bytes")
            self.assert_mistake(self.said("from-graph", self.file("g.gml", " " * 2001)), "more than 2,000 bytes")
        with unittest.mock.patch.object(lexer, "MOST_WORDS", 100):
            self.assert_mistake(self.bird("log;\n" * 60), "a.conf:51: more than 100 words are read")


class Deep(Malformed):
    """Something is opened many times, or very long."""

    def test_filters_of_bird(self):
        for text in ("(" * 3000 + "true" + ")" * 3000, "bgp_path ~ " + "[= " * 3000 + "=]" * 3000,
                     "[" * 3000 + "]" * 3000, "!" * 3000 + "true", "true" + " && true" * 30000,
                     "1" + " + 1" * 30000 + " = 1", "bgp_path" + ".first" * 30000 + " = 1", "f(" * 3000 + ")" * 3000):
            with self.subTest(text=text[:20]):
                self.assert_told(self.bird(SESSION % ("", "where " + text)), "a.conf:3: not taken over: ")
        for text in ("{" * 3000, "if true then " * 3000, "if true then { " * 3000):
            with self.subTest(text=text[:20]):
                made = self.bird("filter f { %s }\n" % text + SESSION % ("", "filter f"))
                self.assertIn(made.returncode, (1, 2))
                self.assertRegex(made.stderr, "a.conf:[0-9]+: ")

    def test_constants_that_double(self):
        """Each is the one before twice: it would be reckoned for ever, or take all memory."""
        for sign in (" && ", " * ", " + "):
            doubled = "define c0 = %s;\n" % ("true" if "&" in sign else "65537")
            doubled += "".join("define c%d = c%d%sc%d;\n" % (at, at - 1, sign, at - 1) for at in range(1, 60))
            made = self.bird(doubled + SESSION % ("", "where c59" if "&" in sign else "where bgp_med = c59"))
            self.assertIn(made.returncode, (1, 2))
            self.assertRegex(made.stderr, "a.conf:[0-9]+: ")

    def test_numbers_without_end(self):
        digits = "9" * 5000
        self.assert_mistake(self.bird("router id 10.0.0.1;\ndefine x = %s;\n" % digits), "a.conf:2: `999")
        self.assert_mistake(self.bird("define x = 0x%s;\n" % ("f" * 5000)), "a.conf:1: `0xff")
        for line in ("ip prefix-list A seq %s permit 10.0.0.0/8", "ip prefix-list A permit 10.0.0.0/8 le %s",
                     "route-map A permit %s", "frr version %s.4", "bgp community-list %s permit 1:1",
                     "ip prefix-list A permit 10.0.0.0/%s"):
            made = self.frr(line % digits + "\n" + FRR % "")
            self.assert_told(made, "r1.conf:1: not taken over: ")
        self.assertEqual(self.said("from-graph", self.file("g.gml", 'graph [ node [ id 0 label "&#%s;" ] ]' % digits)
                                   ).returncode, 0)

    def test_graphs(self):
        for text, said in (("graph [ " + "a [ " * 200000, "g:1: lists are nested more than 100 deep"),
                           ("<graphml>" + "<a>" * 200000, "g:1: elements are nested more than 100 deep"),
                           ("<!DOCTYPE x [<!ENTITY a \"b\">]><graphml/>", "g:1: it declares an entity"),
                           ("graph [\n" + "".join("node [ id %d ]\n" % at for at in range(51)) + "]",
                            "g:52: more than 50 nodes"),
                           ("graph [ node [ id 0 ]\n" + "edge [ source 0 target 0 ]\n" * 61 + "]",
                            "g:62: more than 60 edges")):
            with unittest.mock.patch.dict(graph.MOST, nodes=50, edges=60):
                self.assert_mistake(self.said("from-graph", self.file("g", text)), said)

    def test_scripts_of_c_bgp(self):
        head = "net add domain 1 igp\nnet add node 1.0.0.1\nbgp add router 1 1.0.0.1\n"
        peer = ("net add node 2.0.0.1\nnet add link 1.0.0.1 2.0.0.1\nbgp router 1.0.0.1 add peer 2 2.0.0.1\n"
                "bgp router 1.0.0.1 peer 2.0.0.1 virtual\nbgp router 1.0.0.1 peer 2.0.0.1 filter in add-rule ")
        deep = head + peer + 'match "%s any"\n' % ("(" * 5000)
        self.assert_mistake(self.said("from-cbgp", self.file("s.cli", deep)), "s.cli:8: ")
        maps = "".join('bgp route-map M%d add-rule action "%s"\n' % (at, ", ".join(["call M%d" % (at + 1)] * 9))
                       for at in range(15)) + 'bgp route-map M15 add-rule action "deny"\n'
        self.assert_mistake(self.said("from-cbgp", self.file("s.cli", head + maps + peer + 'action "call M0"\n')),
                            "a filter calls route maps more than 2000 times")

    def test_many_lines_of_frr(self):
        """Lists, interfaces and lines that take others back: ten thousand of each, within the time of a process."""
        lists = "".join("ip community-list standard C permit 1:%d\nip prefix-list P permit 10.%d.%d.0/24\n" % (
            at, at // 200, at % 200) for at in range(10000))
        ends = "".join("interface e%d\nno log x%d\n" % (at, at) for at in range(10000))
        self.file("net/r1.conf", lists + ends + FRR % "")
        status, wrote, told = bounded("from-frr", self.folder / "net")
        self.assertEqual((status in (0, 1), wrote.split("\n")[0]), (True, "router 10.0.0.1 65001"), told[-300:])

    def test_expressions_without_end(self):
        """Each would try more ways than there are atoms: whether the empty text is found is worked out without."""
        for text, found in (("(||){40}x", False), ("(|a|b)*", True), ("((a*)*)*", True), ("^$", True), ("_1_", False),
                            ("a|", True), ("a{0,3}", True), ("a{1,3}", False), ("[^]a]", False), ("\\.", False),
                            ("(", None), ("*", None), ("a{99999999999}", False), ("(" * 5000, None), ("[", None)):
            self.assertEqual(expressions.finds_nothing(text), found, text)
        self.assertTrue(expressions.is_like("a" * 5000, "*a" * 1000 + "*"))
        self.assertFalse(expressions.is_like("a" * 300, "*a" * 200 + "*b"))

    def test_patterns_are_those_of_a_library(self):
        import fnmatch
        drawn = random.Random(3)
        for _ in range(3000):
            text, pattern = ("".join(drawn.choices(letters, k=drawn.randrange(6))) for letters in ("ab", "ab*?"))
            self.assertEqual(expressions.is_like(text, pattern), fnmatch.fnmatchcase(text, pattern), (text, pattern))


class Checked(Malformed):
    """Addresses, AS numbers, metrics, communities and prefixes that are none are told, and never written."""

    def test_from_frr(self):
        for lines in ("bgp router-id 10.0.0.65535", "bgp cluster-id 256.1.1.1", "neighbor 10.9.0.256 remote-as 65003",
                      "neighbor 10.9.0.2 remote-as 65536x", "neighbor eth0 interface remote-as zqx",
                      "network 203.0.113.0 mask 1.2.3.400", "neighbor 10.9.0.9 bfd",
                      "neighbor 10.9.0.2 ebgp-multihop 0"):
            made = self.frr(FRR % (" " + lines))
            self.assert_told(made, "r1.conf:9: not taken over: " + lines)
        for line in ("router-id 10.0.0.65535", "ip route 10.1.0.0/16 10.1.256.1",
                     "ip route 10.1.0.0 1.2.3.400 blackhole",
                     "frr version zqx", "frr defaults zqx", "ip prefix-list A permit 10.0.0.0/33",
                     "ip prefix-list A permit 10.0.0.0/8 ge 40", "access-list A permit 300.0.0.0/8",
                     "bgp community-list standard A permit 70000:1", "route-map A permit 70000"):
            made = self.frr(line + "\n" + FRR % "")
            self.assert_told(made, "r1.conf:1: not taken over: " + line)
            self.assertIn("router 10.0.0.1 65001\n", made.stdout)

    def test_from_bird(self):
        for setting in ("local as 0;", "local role zqx;", "default bgp_local_pref 4294967295x;", "local 2001:db8::1;"):
            self.assert_told(self.bird(SESSION % (setting, "all")), "a.conf:3: not taken over: ")
        for body in ("bgp_med = true;", "bgp_local_pref = 1 - 2;", "bgp_community.add((1, 70000));"):
            self.assert_told(self.bird(SESSION % ("", "filter { %s accept; }" % body)), "a.conf:3: not taken over: ")
        for condition in ("bgp_path ~ [ 0..5 ]", "(1, 70000) ~ bgp_community", "bgp_path.first = 0"):
            self.assert_told(self.bird(SESSION % ("", "where " + condition)), "a.conf:3: not taken over: ")

    def test_addresses_of_bird_that_are_none(self):
        """BIRD takes no file with such a word."""
        for text, line in ((SESSION % ("neighbor 172.256.1.2 as 7;", "all"), 3), (SESSION % ("local 10.9.0.300;", "all"), 3),
                           (SESSION % ("rr cluster id 1.2.3.256;", "all"), 3),
                           ("protocol static { route 10.0.0.0/8 via 10.0.0.256; }\n" + SESSION % ("", "all"), 1),
                           ("protocol ospf v2 {\n area 0 { stubnet 10.0.0.256/32; }; }\n" + SESSION % ("", "all"), 2)):
            made = self.bird(text)
            self.assertEqual((made.returncode, made.stdout), (2, ""))
            self.assertRegex(made.stderr, r"\Aa\.conf:%d: `[0-9.]+` is no address, " % line)

    def test_words_of_bird_that_are_not_known(self):
        """Each is told with its line, whether it is reached or not, and the session goes on as is said."""
        for body, word in (("if net ~ 10.0.0.0/8 then zqx; accept;", "zqx"), ("zqx; accept;", "zqx"),
                           ("bpg_med = 5; accept;", "bpg_med"), ("accept; zqx;", "zqx"),
                           ("if net.len > 24 then zqx \"x\"; accept;", "zqx"),
                           ("if zqx = 1 then reject; accept;", "zqx")):
            made = self.bird(SESSION % ("", "filter {\n %s\n}" % body))
            self.assert_told(made, "a.conf:4: not taken over: ")
            self.assertIn("`%s`" % word, made.stderr)
        for body in ("accept zqx zqx;", "int; accept;", "reject"):
            self.assertIn("nothing is let through here", self.bird(SESSION % ("", "filter { %s }" % body)).stderr)
        made = self.bird(SESSION % ("", "filter { int x; int y = 5; x = 7; bgp_med = x; accept; }"))
        self.assertEqual((made.returncode, "in any permit med=7" in made.stdout), (0, True), made.stderr)
        old = "filter old int x; prefix set y; { x = 7; bgp_med = x; accept; }\n"
        made = self.bird(old + SESSION % ("", "filter old"))
        self.assertEqual((made.returncode, "in any permit med=7" in made.stdout), (0, True), made.stderr)

    def test_items_of_bird_that_are_not_known(self):
        for text, line in (("protocol bgp a zqx b { }", 1), ("protocol static { rotue 10.0.0.0/8 blackhole; }", 1),
                           ("protocol kernel { ipv4 { exprot all; }; }", 1), ("template zqx a { }", 1),
                           ("protocol ospf v9 { }", 1), ("function f(zqx x) { }", 1), ("filter f zqx { }", 1),
                           ("protocol ospf v2 { area zqx { }; }", 1),
                           ("protocol ospf v2 {\n ipv4 { exprt all; }; area 0 { }; }", 2),
                           ("protocol ospf v2 {\n area 0 { interface zqx \"eth0\" { }; }; }", 2)):
            with self.subTest(text=text):
                self.assert_told(self.bird(text + "\n" + SESSION % ("", "all")), "a.conf:%d: not taken over: " % line)

    def test_what_nothing_names_is_noted(self):
        made = self.bird("filter f { accept; }\n" + SESSION % ("", "all"))
        self.assertIn("a.conf:1: note: filter f { accept; }: nothing uses `f`", made.stderr)
        made = self.frr("ip prefix-list A permit 10.0.0.0/8\nroute-map B permit 10\n" + FRR % "")
        self.assertIn("r1.conf:1: note: ip prefix-list A permit 10.0.0.0/8: no line names `A`", made.stderr)
        self.assertIn("r1.conf:2: note: route-map B permit 10: no line names `B`", made.stderr)
        made = self.frr("ip route 10.0.0.0/8 eth9\n" + FRR % " neighbor 10.9.0.2 update-source lo9")
        self.assertIn("r1.conf:1: note: ip route 10.0.0.0/8 eth9: no interface `eth9` is in the files", made.stderr)
        self.assertIn("r1.conf:10: note: neighbor 10.9.0.2 update-source lo9: no interface `lo9`", made.stderr)

    def test_tables_and_records(self):
        form = "TABLE_DUMP2|0|B|192.0.2.1|7|10.0.0.0/16|7 21|IGP|%s|%s|5||NAG||\n"
        for hop, preference, said in (("192.0.2.256", "0", "the next hop `192.0.2.256` is no address"),
                                      ("x:y", "0", "the next hop `x:y` is no address"),
                                      ("192.0.2.1", "4294967296", "the preference `4294967296` is no number")):
            self.assert_mistake(self.said("from-rib", self.file("rib", form % (hop, preference))), "rib:1: " + said)
        head = ("net add node 1.0.0.1\nnet add node 2.0.0.1\nnet add link 1.0.0.1 2.0.0.1\nbgp add router 1 1.0.0.1\n"
                "bgp router 1.0.0.1\n add peer 2 2.0.0.1\n peer 2.0.0.1 virtual\n peer 2.0.0.1 up\n"
                " peer 2.0.0.1 recv \"BGP4|0|A|%s|%s|10.0.0.0/8|2|IGP|%s|%s||\"\n")
        for words in (("2.0.0.256", "2", "2.0.0.1", "0"), ("2.0.0.1", "x", "2.0.0.1", "0"),
                      ("2.0.0.1", "2", "2.0.0", "0"), ("2.0.0.1", "2", "2.0.0.1", "x")):
            self.assert_mistake(self.said("from-cbgp", self.file("s.cli", head % words)), "s.cli:9: ")
        made = self.said("from-cbgp", self.file("s.cli", head % ("3.0.0.1", "2", "2.0.0.1", "0")))
        self.assertIn("s.cli:9: not taken over: the route of 2.0.0.1 to 10.0.0.0/8: it is told as of 3.0.0.1",
                      made.stderr)

    def test_names_that_no_line_has_room_for(self):
        long = "x" * 5000
        for made in (self.frr("hostname %s\n" % long + FRR % ""), self.bird("hostname \"%s\";\n" % long + SESSION % (
                "", "all")), self.said("from-graph", self.file("g.gml", 'graph [ node [ id 0 label "%s" ] ]' % long))):
            self.assertIn(":1: note: ", made.stderr)
            self.assertEqual(set(program(made.stdout)), {"ok"})


class Fuzzer(Case):
    """tools/fuzz-importers finds importers that are broken on purpose."""

    def fuzzer(self):
        folder = self.folder / "net"
        folder.mkdir()
        return fuzz_importers.Fuzzer(str(folder))

    def case(self, fuzzer, importer, text, name="a.conf", **change):
        """A case of one file, unchanged and changed."""
        given = importer_inputs.Input(importer, text, {name: text.encode()}, ["."] if name == "a.conf" else [name])
        return fuzz_importers.Case(given, name, "word", mutations.Change(**change))

    def word(self, fuzzer, text, was, word, importer="from-bird"):
        """What is wrong where a word is garbled to another one."""
        lines = text.split("\n")
        at = next(number for number, line in enumerate(lines, 1) if was in line)
        case = self.case(fuzzer, importer, text, content=text.replace(was, word).encode(), line=at, word=word, was=was,
                         about=lines[at - 1].replace(was, "@"))
        return fuzzer.wrong(case)

    def test_a_traceback(self):
        fuzzer = self.fuzzer()
        case = self.case(fuzzer, "from-bird", "x", content=b"router id 10.0.0.1;")
        with unittest.mock.patch.object(from_bird, "configs_of", side_effect=KeyError("here")):
            self.assertIn("KeyError: 'here'", fuzzer.wrong(case))

    def test_an_end_that_names_no_file(self):
        fuzzer = self.fuzzer()
        case = self.case(fuzzer, "from-bird", "x", content=b"router id 10.0.0.1;")
        with unittest.mock.patch.object(from_bird, "configs_of", side_effect=Mistake("it is wrong")):
            self.assertEqual(fuzzer.wrong(case), "the exit status is 2, and no file is named: it is wrong")
        with unittest.mock.patch.object(from_bird, "main", return_value=3):
            self.assertEqual(fuzzer.wrong(case), "the exit status is 3")

    def test_an_importer_that_does_not_end(self):
        fuzzer = self.fuzzer()

        def never(_):
            while True:
                pass
        case = self.case(fuzzer, "from-bird", "x", content=b"")
        with unittest.mock.patch.object(from_bird, "main", never), unittest.mock.patch.object(
                fuzz_importers, "SECONDS", 0.2):
            self.assertIn("it has not ended", fuzzer.wrong(case))

    def test_a_line_that_the_program_refuses(self):
        fuzzer = self.fuzzer()
        self.assertEqual(fuzzer.refused("router 10.0.0.1 65001\n# a comment\nrouter 10.0.0.2 65001\n"), "")
        self.assertEqual(fuzzer.refused("router 10.0.0.1 65001\nrouter 10.0.0.65535 65001\n"),
                         "the program replies `refused 1 syntax` to `router 10.0.0.65535 65001`")

    def test_a_word_that_nothing_comes_of(self):
        fuzzer = self.fuzzer()
        text = SESSION % ("", "filter { if net ~ 10.0.0.0/8 then reject; bgp_med = 5; accept; }")
        for was, word in (("reject", "rejct"), ("bgp_med", "bpg_med"), ("65002", "65003"),
                          ("id 10.0.0.1", "id 10.0.0.256")):
            self.assertEqual(self.word(fuzzer, text, was, word), "", (was, word))
        # The same where the importer takes what it does not know for nothing.
        from bgptools.importers.bird import rules
        kept = rules.Evaluation._step
        text = text.replace("bgp_med = 5;", "print \"x\";")

        def step(evaluation, node, state):
            return state if node.what == "other" else kept(evaluation, node, state)
        with unittest.mock.patch.object(rules.Evaluation, "_step", step), unittest.mock.patch(
                "bgptools.importers.bird.checks.tell_unknown"):
            self.assertIn("nothing comes of `pritn`", self.word(fuzzer, text, "print", "pritn"))
        self.assertEqual(self.word(fuzzer, text, "print", "pritn"), "")

    def test_the_list(self):
        found = fuzz_importers.exemptions()
        self.assertEqual({each.importer for each in found} - set(fuzz_importers.OFTEN), set())
        self.assertTrue(all("@" in each.about.pattern and len(each.why) > 10 for each in found))
        fuzzer, text = self.fuzzer(), "log syslog all;\n" + SESSION % ("", "all")
        self.assertEqual(self.word(fuzzer, text, "syslog", "sylsog"), "")
        fuzzer.exemptions = []
        self.assertIn("nothing comes of `sylsog` in line 1: log @ all;", self.word(fuzzer, text, "syslog", "sylsog"))

    def test_the_cases_of_seeds(self):
        """Each importer has inputs that it takes, and has changes of all kinds, the same for the same seed."""
        fuzzer = self.fuzzer()
        for importer, given in fuzzer.inputs.items():
            for each in given:
                found = fuzzer.run(each, each.files)
                self.assertEqual((found.fault, found.status in (0, 1, 2)), ("", True), each.name)
        self.assertEqual(set(fuzzer.inputs), set(fuzz_importers.OFTEN))
        cases = [fuzzer.case_of(seed) for seed in range(300)]
        self.assertEqual({case.kind for case in cases}, {*mutations.KINDS, "word", "packed"})
        self.assertEqual(cases[:20], [fuzzer.case_of(seed) for seed in range(20)])
        self.assertTrue(all(case.change.content != case.input.files[case.file] for case in cases if case.change.word))

    def test_the_command(self):
        status, told = called(lambda _: fuzz_importers.try_cases(range(1, 60)))
        self.assertEqual((status, told), (0, "59 passed, 0 failed\n"))
        broken = fuzz_importers.Ended(2, "", "", "a fault")
        with unittest.mock.patch.object(fuzz_importers, "ended", return_value=broken):
            status, told = called(lambda _: fuzz_importers.try_cases(range(7, 8)))
        self.assertEqual(status, 1)
        self.assertRegex(told, r"^FAILED seed 7, from-[a-z-]+, \w+ of .*:\n    a fault\n"
                               r"    again: tools/fuzz-importers --cases 1 --seed 7\n0 passed, 1 failed\n\Z")


if __name__ == "__main__":
    unittest.main()
