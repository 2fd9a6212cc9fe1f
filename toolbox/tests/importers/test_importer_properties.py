"""What holds of everything that the importers read: what is written in a form is read as it was meant, whatever spaces
and comments stand between, and what is cut off or garbled is a mistake with its place, and no other error."""
import io
import struct
import unittest

from hypothesis import assume, given, strategies

from bgptools.importers.bird import lexer
from bgptools.importers.cbgp import lines as cbgp
from bgptools.importers.common.omissions import LeftOut
from bgptools.importers.frr import lines as frr
from bgptools.importers.graphs import gml
from bgptools.importers.tables import mrt
from bgptools.program.mistakes import Mistake
from common import Case, inside, program
from strategies import addresses, numbers, printable

names = strategies.from_regex(r"[A-Za-z][A-Za-z0-9_]{0,7}", fullmatch=True)
shown = strategies.text(strategies.characters(blacklist_categories=("Cs", "Cc")), max_size=12)


class Cbgp(unittest.TestCase):
    @given(strategies.lists(shown.filter(lambda word: "\\" not in word)), strategies.sampled_from((" ", "\t", "  ")),
           strategies.sampled_from(("", "#", "# a \"comment")))
    def test_words_in_quotes(self, words, space, comment):
        quoted = ['"%s"' % word.replace('"', '\\"') for word in words]
        self.assertEqual(cbgp.words_of(space.join([*quoted, comment])), words)

    @given(strategies.text(max_size=40))
    def test_any_line_is_words_or_a_mistake(self, line):
        try:
            words = cbgp.words_of(line)
        except ValueError:
            self.assertIn('"', line)
        else:
            self.assertLessEqual(sum(map(len, words)), len(line))


# A word of BIRD's as it is written, its kind and its text.
_words = strategies.one_of(
    names.map(lambda text: (text, "name", text)), addresses.map(lambda text: (text, "address", text)),
    numbers.map(lambda value: (str(value), "number", str(value))),
    numbers.map(lambda value: (hex(value), "number", hex(value))),
    strategies.text(printable.filter(lambda each: each != '"'), max_size=8).map(
        lambda text: ('"%s"' % text, "string", text)),
    strategies.sampled_from((",", "~", "=", "+", "!=", "<=", "..", "&&", "||")).map(lambda text: (text, "mark", text)))
_spaces = strategies.sampled_from((" ", "\n", "\t ", " # a word\n", " /* a\nword */ "))


@strategies.composite
def _items(draw, depth=2):
    """Items of BIRD's as they are written, and what they are: the words before a block, and its items."""
    found = []
    for _ in range(draw(strategies.integers(0, 3))):
        head = draw(strategies.lists(_words, min_size=1, max_size=4))
        assume(head[0][2] != "include")
        found.append((head, draw(_items(depth - 1)) if depth and draw(strategies.booleans()) else None))
    return found


def written(items, space):
    """The text of items."""
    parts = []
    for head, body in items:
        text = space.join(each for each, _, _ in head)
        parts.append(text + space + ("{%s%s%s}" % (space, written(body, space), space) if body is not None else ";"))
    return space.join(parts)


def read(words):
    """Items as the lexer finds them, in the same form."""
    return [([(word.kind, word.text) for word in item.head], None if item.body is None else read(item.body))
            for item in lexer.items_of(words)]


def meant(items):
    """The same of items that were drawn."""
    return [([(kind, text) for _, kind, text in head], None if body is None else meant(body)) for head, body in items]


class Bird(Case):
    @given(_items(), _spaces)
    def test_items_are_read_as_they_are_written(self, items, space):
        words = lexer.words_in(str(self.file("a.conf", written(items, space))), set())
        self.assertEqual(read(words), meant(items))

    @given(strategies.lists(_words, max_size=12), _spaces)
    def test_each_word_has_its_line(self, words, space):
        text = space.join(each for each, _, _ in words)
        assume("include" not in text)
        lines = text.split("\n")
        for word in lexer.words_in(str(self.file("a.conf", text)), set()):
            self.assertEqual(word.line.text, lines[word.line.number - 1].strip())
            self.assertIn(word.text, word.line.text)


_FRR = ("interface eth0", " ip address 10.0.0.1/30", "router bgp 65001", " neighbor 10.0.0.2 remote-as 65002",
        " address-family ipv4 unicast", "  network 10.1.0.0/16", " exit-address-family", "exit", "end",
        "route-map M permit 10", " match ip address prefix-list L", " set metric 5", "no route-map M permit 10",
        "ip prefix-list L permit 10.0.0.0/8", "no ip prefix-list L", " no neighbor 10.0.0.2 remote-as 65002",
        "hostname r1", "vrf red", " ip route 10.0.0.0/8 blackhole", "router ospf", " network 10.0.0.0/8 area 0")


class Frr(Case):
    def blocks(self, lines):
        """The blocks of a configuration: their kinds, heads and lines as texts; and each line with its number."""
        found = frr.blocks_of(str(self.file("a.conf", "".join(line + "\n" for line in lines))))
        numbered = [line for block in found for line in [*block.heads, *block.lines]]
        return [(block.kind, [line.text for line in block.heads], [(line.text, line.undoes) for line in block.lines])
                for block in found], numbered

    @given(strategies.lists(strategies.sampled_from(_FRR), max_size=14),
           strategies.lists(strategies.sampled_from(("", "!", "# a comment", " ! ", "   "))), strategies.randoms())
    def test_blocks_do_not_depend_on_spaces_and_comments(self, lines, comments, random):
        other = [line.replace(" ", "  ") + " " for line in lines]
        for comment in comments:
            other.insert(random.randint(0, len(other)), comment)
        (wanted, _), (found, numbered) = self.blocks(lines), self.blocks(other)
        self.assertEqual(found, wanted)
        for line in numbered:
            self.assertEqual(line.text, " ".join(other[line.number - 1].split()))


# Nodes of GML by their ids, each with attributes; and edges, each with its ends and attributes.
_values = strategies.one_of(
    strategies.integers(-10 ** 9, 10 ** 9).map(str),
    strategies.text(printable.filter(lambda each: each not in '"&'), max_size=8).map('"{}"'.format))
_attributes = strategies.dictionaries(names.map("x".__add__), _values, max_size=3)


@strategies.composite
def _graphs(draw):
    nodes = draw(strategies.dictionaries(strategies.integers(0, 99), _attributes, min_size=1, max_size=6))
    ends = strategies.sampled_from(sorted(nodes))
    return nodes, draw(strategies.lists(strategies.tuples(ends, ends, _attributes), max_size=6))


def gml_of(nodes, edges, space):
    """A graph in GML, each of its nodes and edges in a line."""
    texts = ["node [ id %d %s ]" % (key, _pairs(values)) for key, values in nodes.items()]
    texts += ["edge [ source %d target %d %s ]" % (one, other, _pairs(values)) for one, other, values in edges]
    return "graph [\n%s\n]\n" % "\n".join(text.replace(" ", space) if '"' not in text else text for text in texts)


def _pairs(values):
    return " ".join("%s %s" % pair for pair in values.items())


class Gml(Case):
    @given(_graphs(), strategies.sampled_from((" ", "  ", "\t", " \n# ]\n")))
    def test_a_graph_is_read_as_it_is_written(self, graph, space):
        nodes, edges = graph
        plain = [{name: value.strip('"') for name, value in values.items()} for values in nodes.values()]
        found = gml.read(gml_of(nodes, edges, space).encode(), "g.gml", LeftOut())
        self.assertEqual([(node.key, node.attributes) for node in found.nodes.values()],
                         list(zip(map(str, nodes), plain)))
        self.assertEqual([(edge.source, edge.target, edge.attributes) for edge in found.edges],
                         [(str(one), str(other), {name: value.strip('"') for name, value in values.items()})
                          for one, other, values in edges])

    @given(_graphs(), strategies.data())
    def test_a_graph_that_is_cut_off_is_a_mistake(self, graph, data):
        text = gml_of(*graph, " ").rstrip("\n")
        cut = text[:data.draw(strategies.integers(0, len(text) - 1))]
        with self.assertRaises(Mistake):
            gml.read(cut.encode(), "g.gml", LeftOut())


class Mrt(unittest.TestCase):
    @staticmethod
    def routes(prefix, length, routes):
        """The content of a record of routes, each of a peer, with attributes by type."""
        said = struct.pack(">IB", 7, length) + prefix.to_bytes(4, "big")[:(length + 7) // 8]
        said += struct.pack(">H", len(routes))
        for peer, attributes in routes:
            body = b"".join(struct.pack(">BBH", 0x10, kind, len(value)) + value for kind, value in attributes.items())
            said += struct.pack(">HIH", peer, 0, len(body)) + body
        return said

    @given(numbers, strategies.integers(0, 32), strategies.lists(strategies.tuples(
        strategies.integers(0, 65535), strategies.dictionaries(strategies.integers(0, 255), strategies.binary(
            max_size=300), max_size=4)), max_size=4))
    def test_routes_are_read_as_they_are_written(self, prefix, length, routes):
        prefix = prefix >> 32 - length << 32 - length
        content = self.routes(prefix, length, routes)
        found, entries = mrt.routes_of(content, False)
        self.assertEqual(found, (prefix, length))
        self.assertEqual([(entry.peer, entry.attributes, entry.wrong) for entry in entries],
                         [(peer, attributes, "") for peer, attributes in routes])
        for end in {0, 4, len(content) // 2, len(content) - 1}:
            with self.assertRaises(mrt.Short):
                mrt.routes_of(content[:end], False)

    @given(strategies.lists(strategies.tuples(strategies.booleans(), strategies.booleans(), numbers), max_size=5),
           strategies.binary(max_size=9))
    def test_peers(self, peers, view):
        said, wanted = b"\0\0\0\0" + struct.pack(">H", len(view)) + view + struct.pack(">H", len(peers)), []
        for is_six, is_long, value in peers:
            address, asn = value.to_bytes(16 if is_six else 4, "big"), value if is_long else value % 65536
            said += bytes([is_six + 2 * is_long]) + b"\1\2\3\4" + address + asn.to_bytes(4 if is_long else 2, "big")
            wanted.append(mrt.Peer(address, asn))
        self.assertEqual(mrt.peers_of(said), wanted)
        for wrong in (said[:-1], said + b"\0"):
            self.assertRaises(mrt.Short, mrt.peers_of, wrong)

    @given(strategies.lists(strategies.tuples(strategies.integers(0, 65535), strategies.integers(0, 65535),
                                              strategies.binary(max_size=20)), max_size=4), strategies.data())
    def test_records_and_a_file_that_is_cut_off(self, records, data):
        content = b"".join(struct.pack(">IHHI", 0, kind, subtype, len(body)) + body for kind, subtype, body in records)
        found = [(each.kind, each.subtype, each.content) for each in mrt.records_in(io.BytesIO(content), "rib")]
        self.assertEqual(found, records)
        ends = [sum(12 + len(body) for _, _, body in records[:count]) for count in range(len(records) + 1)]
        cut = data.draw(strategies.integers(0, len(content)))
        if cut in ends:
            self.assertEqual(len(list(mrt.records_in(io.BytesIO(content[:cut]), "rib"))), ends.index(cut))
        else:
            begun = max(end for end in ends if end < cut)
            with self.assertRaisesRegex(Mistake, "byte %d: " % begun):
                list(mrt.records_in(io.BytesIO(content[:cut]), "rib"))


# Words from which configurations are made that no router would take.
_TOKENS = {
    "from-frr": _FRR + ("router", "bgp", "neighbor", "10.0.0.2", "permit", "no", "!", "match", "set", "\x00", "\xff"),
    "from-bird": ("router id 10.0.0.1;", "protocol bgp b {", "}", "{", ";", "filter f", "if", "then", "accept", "1",
                  "local as 65001;", "neighbor 10.0.0.2 as 65002;", "ipv4 { import all; };", "(", ")", "bgp_path", "~",
                  "[=", "=]", "\"x\"", "'", "/*", "#", "template bgp t", "from t", "include \"a.conf\";"),
    "from-cbgp": ("net add node 1.0.0.1", "net add link 1.0.0.1 1.0.0.2", "bgp add router 1 1.0.0.1", "bgp router",
                  "add network 10.0.0.0/8", "add peer 2 1.0.0.2", "filter in", "add-rule", "match", "action", "\"",
                  "\"accept\"", "exit", "sim run", "1.0.0.1", "#", "include \"a\""),
    "from-graph": ("graph", "[", "]", "node", "edge", "id", "1", "source", "target", "label", "\"a\"", "-1", "1e9",
                   "directed", "#", "<graphml>", "<graph>", "</graph>", "&#1;"),
    "from-as-rel": ("1|2|-1", "2|3|0", "|", "1|1|0", "#", "x", "4294967296|1|0", " ", "3|1|-1|bgp"),
    "from-rib": ("TABLE_DUMP2|0|B|192.0.2.1|7|10.0.0.0/16|7 21|IGP|192.0.2.1|0|0||NAG||", "|", "TABLE_DUMP2", "x")}


class Soup(Case):
    @given(strategies.sampled_from(sorted(_TOKENS)), strategies.data())
    def test_any_words_are_a_script_or_a_mistake(self, importer, data):
        """Status 2 names the file and writes nothing; else the program takes each line of the script."""
        words = data.draw(strategies.lists(strategies.tuples(
            strategies.sampled_from(_TOKENS[importer]), strategies.sampled_from((" ", "\n"))), max_size=30))
        path = self.file("net/a.conf", "")
        path.write_bytes("".join(word + space for word, space in words).encode("latin-1"))
        made = inside(importer, path.parent if importer in ("from-frr", "from-bird") else path)
        self.assertIn(made.returncode, (0, 1, 2))
        if made.returncode == 2:
            self.assertEqual(made.stdout, "")
            self.assertIn(str(path.parent), made.stderr)
        else:
            self.assertLessEqual(set(program(made.stdout)), {"ok"})
