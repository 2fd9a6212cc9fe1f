"""from-graph: three graphs with the scripts that they become, worked out by hand; what it tells, and mistakes."""
import bz2

from common import DATA, Case, inside, program, tool

GRAPHS = DATA / "graph"
# The words of each call, and its exit status.
CALLS = {
    "abilene": (("abilene.gml", "--as", 11537, "--reflectors", 2, "--external", "New York", 559,
                 "--origin", "Seattle", "198.51.100.0/24"), 0),
    "europe": (("europe.graphml", "--speed", "--reflectors", 2, "--origin", "n4", "203.0.113.0/24",
                "--origin", "Malta", "203.0.113.0/24"), 1),
    "weights": (("weights.gml", "--cost", "weight", "--external", "b", 7, "--external", "10.0.0.4", 8,
                 "--origin", "c", "10.1.0.0/16", "--origin", "10.0.0.1", "10.1.0.0/16"), 1)}
HEAD = '<graphml xmlns="http://graphml.graphdrawing.org/xmlns">\n'


def gml(nodes, *edges, more=""):
    """A graph of nodes 0 to n - 1 without names, each in a line, and edges, which begin with their ends."""
    lines = ["graph [", more] + ["node [ id %d ]" % at for at in range(nodes)]
    lines += ["edge [ source %s target %s %s ]" % tuple((each + "  ").split(" ", 2)) for each in edges]
    return "\n".join(lines + ["]"]) + "\n"


class Converted(Case):
    def convert(self, text, *words, status=None, name="g.gml"):
        """from-graph on a file, without a process of its own."""
        made = inside("from-graph", self.file(name, text), *words)
        made.stderr = made.stderr.replace(str(self.folder) + "/", "")
        if status is not None:
            self.assertEqual(made.returncode, status, made.stderr)
        return made

    def lines(self, made, word):
        """The lines of a script that begin with a word."""
        return [line for line in made.stdout.split("\n") if line.startswith(word + " ")]


class Graphs(Case):
    def test_three_graphs(self):
        for name, (words, status) in CALLS.items():
            with self.subTest(name=name):
                made = tool("from-graph", "toolbox/tests/data/graph/" + words[0], *words[1:], status=status)
                self.assertEqual(made.stdout, (GRAPHS / (name + ".expected")).read_text())
                self.assertEqual(made.stderr, (GRAPHS / (name + ".told")).read_text())

    def test_what_they_converge_in(self):
        for name in CALLS:
            converged = tool("converge", "toolbox/tests/data/graph/%s.expected" % name, status=0).stdout
            wanted = [line.split(" ", 2) for line in (GRAPHS / (name + ".routes")).read_text().split("\n")[:-1]]
            replies = program(converged + "".join("best %s %s\n" % (router, prefix) for router, prefix, _ in wanted))
            with self.subTest(name=name):
                self.assertNotIn("refused", "".join(replies))
                self.assertEqual(replies[-len(wanted):], [" ".join(each[1:]) for each in wanted])

    def test_a_packed_file_and_standard_input(self):
        content, wanted = (GRAPHS / "abilene.gml").read_bytes(), (GRAPHS / "abilene.expected").read_text()
        words = CALLS["abilene"][0][1:]
        (self.folder / "g.bz2").write_bytes(bz2.compress(content))
        self.assertEqual(tool("from-graph", self.folder / "g.bz2", *words, status=0).stdout, wanted)
        self.assertEqual(tool("from-graph", "-", *words, given=content, status=0).stdout, wanted)


class Sessions(Converted):
    def test_a_full_mesh(self):
        made = self.convert(gml(3, "0 1", "1 2"), status=0)
        self.assertEqual(self.lines(made, "join"), ["join 10.0.0.1 10.0.0.2", "join 10.0.0.1 10.0.0.3",
                                                    "join 10.0.0.2 10.0.0.3"])
        self.assertEqual(self.lines(made, "client"), [])

    def test_a_client_of_the_two_nearest(self):
        """A chain of five; its ends and its middle are reflectors."""
        chain = gml(5, "0 1", "1 2", "2 3", "3 4")
        made = self.convert(chain, "--reflectors", "0,2,4", status=0)
        self.assertEqual(self.lines(made, "client"), ["client %s 10.0.0.%d on" % each for each in (
            ("10.0.0.1", 2), ("10.0.0.3", 2), ("10.0.0.3", 4), ("10.0.0.5", 4))])
        self.assertEqual(len(self.lines(made, "join")), 3 + 4)

    def test_nearness_is_by_cost(self):
        made = self.convert(gml(4, "0 1 w 9", "0 2 w 1", "2 3 w 1", "3 1 w 1"), "--cost", "w", "--reflectors", "3,2,1",
                            status=0)
        # From node 0 node 2 costs 1, node 3 2 and node 1 3.
        self.assertEqual(self.lines(made, "client"), ["client 10.0.0.4 10.0.0.1 on", "client 10.0.0.3 10.0.0.1 on"])

    def test_257_routers_are_the_most_of_a_mesh(self):
        star = [("0 %d" % at) for at in range(1, 258)]
        self.assertEqual(len(self.lines(self.convert(gml(257, *star[:256]), status=0), "join")), 257 * 128)
        made = self.convert(gml(258, *star), status=2)
        self.assertIn("g.gml: a router would have 257 sessions, and one has at most 256: --reflectors N", made.stderr)
        self.assertIn("257 sessions", self.convert(gml(257, *star[:256]), "--external", 0, 7, status=2).stderr)
        self.assertIn("no reflector has room for 257: each has 256 sessions at most",
                      self.convert(gml(258, *star), "--reflectors", 1, status=2).stderr)
        self.convert(gml(257, *star[:256]), "--reflectors", 1, status=0)
        # The reflectors are nodes 0 and 1, both with each other and 255 clients; the last router is the 256th.
        made = self.convert(gml(258, *star), "--reflectors", 2, status=2)
        self.assertIn("no reflector has room for 257", made.stderr)

    def test_parts(self):
        made = self.convert(gml(6, "0 1", "1 2", "3 4"), "--reflectors", 1, status=0)
        self.assertEqual(self.lines(made, "join"), ["join 10.0.0.2 10.0.0.4", "join 10.0.0.2 10.0.0.1",
                                                    "join 10.0.0.2 10.0.0.3", "join 10.0.0.4 10.0.0.5"])
        self.assertIn("g.gml:6: note: node 3 is a reflector, too", made.stderr)
        self.assertIn("g.gml:6: note: no link joins node 3 and 1 more with the 4 others", made.stderr)
        self.assertIn("g.gml:8: note: no link joins node 5 with the 5 others", made.stderr)

    def test_all_is_accepted(self):
        for words in ((), ("--reflectors", 1), ("--reflectors", 3), ("--external", 0, 7, "--external", 0, 8)):
            made = self.convert(gml(6, "0 1", "1 2", "3 4", "0 0", "1 0"), *words)
            self.assertEqual(set(program(made.stdout)), {"ok"})

    def test_where_nodes_are_many(self):
        """Node 0 is in the middle of all; the two nearest reflectors have no room for the last ones."""
        made = self.convert(gml(300, *("0 %d" % at for at in range(1, 300))), "--reflectors", "1,2,3", status=0)
        self.assertIn("router 10.0.1.44 64512", made.stdout)
        ends = [end for line in self.lines(made, "join") for end in line.split(" ")[1:]]
        self.assertEqual([ends.count("10.0.0.%d" % at) for at in (2, 3, 4)], [256, 256, 2 + 297 - 254])


class Costs(Converted):
    def link(self, edge, *words, status=0):
        """The cost of the link of two nodes."""
        made = self.convert(gml(2, edge), *words, status=status)
        return int(self.lines(made, "link")[0].split(" ")[3])

    def test_of_an_attribute(self):
        for said, cost, status in (("7", 7, 0), ("7.4", 7, 0), ("7.5", 8, 0), ("0.2", 1, 0), ("65535", 65535, 0),
                                   ("65536", 65535, 1), ("0", 1, 1), ("-3", 1, 1), ('"x"', 1, 1), ("NAN", 1, 1),
                                   ("INF", 1, 1),
                                   ('"1_0"', 1, 1)):
            with self.subTest(said=said):
                self.assertEqual(self.link("0 1 w " + said, "--cost", "w", status=status), cost)

    def test_of_speeds(self):
        for said, cost, status in (('LinkSpeed "10" LinkSpeedUnits "G"', 10, 0), ("LinkSpeedRaw 155000000.0", 645, 0),
                                   ('LinkSpeed "400" LinkSpeedUnits "G"', 1, 0), ('LinkSpeed "622" LinkSpeedUnits "M"',
                                                                                  160, 0),
                                   ('LinkSpeed "64" LinkSpeedUnits "K"', 65535, 1),
                                   ('LinkSpeed "<1" LinkSpeedUnits "G"', 1, 1),
                                   ('LinkSpeedUnits "G"', 1, 1)):
            with self.subTest(said=said):
                self.assertEqual(self.link("0 1 " + said, "--speed", status=status), cost)

    def test_what_looks_like_a_cost_is_told(self):
        for name in ("weight", "Metric", "cost"):
            made = self.convert(gml(2, "0 1 %s 5" % name), status=1)
            self.assertIn("g.gml:5: not taken over: `%s` of 1 edges: each link has the cost 1; --cost %s" % (name,
                                                                                                             name),
                          made.stderr)

    def test_several_ases_are_told(self):
        nodes = "graph [\nnode [ id 1 ASN 7 ]\nnode [ id 2 ASN %d ] ]"
        self.convert(nodes % 7, status=0)
        self.assertIn("g.gml:3: not taken over: `ASN` of the nodes has 2 values; here all are in AS 64512",
                      self.convert(nodes % 8, status=1).stderr)

    def test_ways_of_directed_edges(self):
        both = ("0 1 w 5", "1 0 w 5")
        self.assertEqual(self.convert(gml(2, *both, more="directed 1"), "--cost", "w", status=0).stdout.count("link "),
                         1)
        self.assertIn("g.gml:6: not taken over: another edge", self.convert(gml(2, *both), "--cost", "w",
                                                                            status=1).stderr)
        made = self.convert(gml(2, "0 1 w 5", "1 0 w 6", more="directed 1"), "--cost", "w", status=1)
        self.assertIn("g.gml:6: not taken over: the way from 1 to 0 has the cost 6, and the way back (line 5) 5",
                      made.stderr)
        made = self.convert(gml(2, "0 1", more="directed 1"), status=1)
        self.assertIn("g.gml:5: not taken over: edges that lead one way alone: 1", made.stderr)

    def test_ways_of_directed_edges_in_graphml(self):
        text = (HEAD + '<graph edgedefault="%s"><node id="a"/><node id="b"/>\n'
                '<edge source="a" target="b"%s/></graph></graphml>')
        for default, own, status in (("directed", "", 1), ("undirected", "", 0), ("directed", ' directed="false"', 0),
                                     ("undirected", ' directed="true"', 1)):
            made = self.convert(text % (default, own), status=status)
            self.assertEqual("g.gml:3: not taken over: edges that lead one way alone: 1" in made.stderr, status == 1)


class Files(Converted):
    def test_names(self):
        text = ('graph [ node [ id 1 label "a&#10;b  c" ]\nnode [ id 2 label " " ]\n'
                'node [ id 3 label "1.2.3.4" ]\nnode [ id "x y" label "\x1b[2J" ]\n'
                'node [ id 5 label "Ko\u0308ln" ] ]')
        made = self.convert(text, status=0)
        self.assertEqual([line.split(" ")[3] for line in self.lines(made, "#")], [
            "a\\nb_c", "2", "\\x1b[2J", "Ko\u0308ln".encode().decode("latin-1")])
        self.assertIn("g.gml:3: note: the name 1.2.3.4 is an address, and is left out", made.stderr)
        self.assertIn("g.gml:2: note: nodes without a name: 1; their ids stand", made.stderr)

    def test_a_node_by_its_name_id_or_address(self):
        text = 'graph [ node [ id 7 label "New York" ] node [ id 8 label "b" ] node [ id 9 label "b" ] ]'
        for name, router in (("New York", 1), ("New_York", 1), ("7", 1), ("8", 2), ("10.0.0.3", 3)):
            made = self.convert(text, "--origin", name, "10.0.0.0/8", status=0)
            self.assertEqual(self.lines(made, "origin"), ["origin 10.0.0.%d 10.0.0.0/8" % router])
        made = self.convert(text, "--origin", "b", "10.0.0.0/8", status=2)
        self.assertIn("--origin b: there are several; give the address: 10.0.0.2, 10.0.0.3", made.stderr)

    def test_gml_that_is_not_read(self):
        made = self.convert(gml(1, more='stats [ a 1 ] note "x\ny"') + "graph [ ]\n", status=1)
        self.assertIn("g.gml:2: note: `stats [ .. ]` is not read", made.stderr)
        self.assertIn("g.gml:6: not taken over: a second graph", made.stderr)
        made = self.convert("graph [ node [ id 1\nlabel \"a\"\nlabel \"b\" ] ]", status=0)
        self.assertIn("g.gml:3: note: `label` stands here once more", made.stderr)
        self.assertIn(" b\n", made.stdout)

    def test_graphml_that_is_not_read(self):
        text = (HEAD + '<key id="d" for="node" attr.name="label"><default>no</default></key>\n<graph>'
                '<node id="1"><data key="d">a</data>\n<data key="d">b</data>'
                '<graph id="in"><node id="1"/></graph></node>\n'
                '<node id="2"><desc>x</desc></node><odd><node id="3"/></odd></graph>\n<graph/></graphml>')
        made = self.convert(text, status=1, name="g.graphml")
        self.assertEqual(self.lines(made, "#"), ["# name 10.0.0.1 b", "# name 10.0.0.2 no"])
        for line, said in ((4, "note: `label` stands here once more"), (4, "not taken over: a graph inside of a node"),
                           (5, "note: the element `odd` in `graph` is not read"), (6,
                                                                                   "not taken over: a graph inside")):
            self.assertIn("g.graphml:%d: %s" % (line, said), made.stderr)
        self.assertIn("descriptions and ports 1", made.stderr)

    def test_other_encodings(self):
        text = '<?xml version="1.0" encoding="%s"?><graphml><graph><node id="K\xf6ln"/></graph></graphml>'
        for name in ("iso-8859-1", "utf-16", "utf-8"):
            path = self.folder / name
            path.write_bytes((text % name).encode(name))
            made = tool("from-graph", path, status=0)
            self.assertEqual(made.stdout, "router 10.0.0.1 64512\n# name 10.0.0.1 K\xf6ln\n")

    def test_mistakes_have_a_line(self):
        for text, line, said in (
                ("graph [\nnode [ id 1 ]\nnode [ id 1 ] ]", 3, "node 1 stands in line 2 already"),
                ("graph [\nnode [ label 1 ] ]", 2, "`id` of the node is missing"),
                (gml(1, "0 1"), 4, "there is no node 1"), ("graph [\nnode [ id 1 ]\nedge [ target 1 ] ]", 3,
                                                           "`source` of"),
                ("graph [\nnode [ id 1", 2, "the end of `node` is missing"), ("graph [\nnode [ id ] ]", 2,
                                                                              "a value of `id`"),
                ("graph [\n\n5 ]", 3, "a key or `]` is expected"), ("graph [ x\n\"a\nb ]", 2,
                                                                    "a key, a number, a text"),
                ("graph", 1, "the end of `graph` is missing"), ("graph [ node [ id 1 ] ]\n]", 2, "a key or `]`"),
                ("graph [\nnode [ id 1a ] ]", 2, "and not `1a ] ]`")):
            with self.subTest(text=text):
                made = self.convert(text, "-o", self.folder / "out", status=2)
                self.assertRegex(made.stderr, r"\Ag\.gml:%d: .*\n\Z" % line)
                self.assertIn(said, made.stderr)
                self.assertFalse((self.folder / "out").exists())

    def test_mistakes_of_xml_have_a_line(self):
        for text, line, said in (
                (HEAD + "<graph>", 2, "it is no XML: no element found"), (HEAD + "</graph>", 2, "mismatched tag"),
                (HEAD + "<graph>\n<node/></graph></graphml>", 3, "`id` of the node is missing"),
                (HEAD + "<graph>\n<node id='1'/><edge source='1' target='2'/></graph></graphml>", 3,
                 "there is no node 2"),
                (HEAD + "<graph><node id='1'>\n<data key='d'/></node></graph></graphml>", 3, "`data` of the key `d`"),
                ("<svg>\n</svg>", 1, "`graphml` is expected first"), ("<!DOCTYPE x [\n<!ENTITY y 'z'>]><graphml/>", 2,
                                                                      "an entity"),
                ("<?xml version='1.0' encoding='none'?><graphml/>", 1, "it is no XML")):
            with self.subTest(text=text):
                made = self.convert(text, status=2)
                self.assertRegex(made.stderr, r"\Ag\.gml:%d: .*\n\Z" % line)
                self.assertIn(said, made.stderr)

    def test_mistakes_of_the_whole(self):
        for text, words, said in (
                ("", (), "it has no graph"), ("graph [ ]", (), "it has no node"), (HEAD + "</graphml>", (),
                                                                                   "it has no graph"),
                (gml(1), ("--as", "0"), "--as 0: an AS number"), (gml(2, "0 1 a 1"), ("--cost", "b"), "there are a"),
                (gml(2), ("--reflectors", 3), "1 to 2 are expected"), (gml(2), ("--reflectors", "x"),
                                                                       "there is no such node"),
                (gml(2), ("--external", 0, 64512), "another AS"), (gml(2), ("--external", 5, 7),
                                                                   "there is no such node"),
                (gml(2), ("--origin", 0, "10.0.0.1/8"), "a prefix"), (gml(4097), (),
                                                                      "4,097 nodes, and a network has at most")):
            with self.subTest(said=said):
                made = self.convert(text, *words, status=2)
                self.assertIn(said, made.stderr)
                self.assertEqual(made.stdout, "")

    def test_strict(self):
        made = self.convert(gml(2, "0 1", "0 1"), "--strict", "-o", self.folder / "out", status=2)
        self.assertIn("not taken over: another edge", made.stderr)
        self.assertFalse((self.folder / "out").exists())
        self.convert(gml(2, "0 1", "0 0"), "--strict", status=0)
