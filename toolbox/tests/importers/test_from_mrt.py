"""from-mrt: three tables whose bytes were worked out by hand by RFC 6396, and damaged ones."""
import bz2
import gzip
import random
import shutil
import struct
import subprocess
import unittest
import unittest.mock

from bgptools.program import line_count
from common import DATA, PATIENCE, TOP, Case, inside, program, tool

TABLES = DATA / "mrt"
NAMES = {"two-peers": 0, "collector": 1, "add-path": 1}
LESSON = TOP / "toolbox" / "lessons" / "rib.mrt"


def bytes_of(name):
    """The bytes of a file that spells them; what stands behind # is about them."""
    lines = (TABLES / (name + ".hex")).read_text().split("\n")
    return bytes.fromhex("".join(line.partition("#")[0] for line in lines))


def beginnings(content):
    """Where the records of a file begin."""
    found, at = [], 0
    while at < len(content):
        found.append(at)
        at += 12 + int.from_bytes(content[at + 8:at + 12], "big")
    return found


def record(kind, subtype, content):
    return struct.pack(">IHHI", 0, kind, subtype, len(content)) + content


PEER = record(13, 1, bytes.fromhex("00000000 0000 0001 02 07000001 C0000201 00000007"))
ORIGIN, PATH = bytes.fromhex("40010100"), bytes.fromhex("400206 0201 00000007")


def with_attributes(*attributes):
    """A table of one peer, 192.0.2.1 of AS 7, that tells 10.0.0.0/8 with these."""
    said = b"".join(attributes)
    return PEER + record(13, 2, bytes.fromhex("00000000 080A 0001 0000 00000000") + len(said).to_bytes(2, "big") + said)


class Dumps(Case):
    def dump(self, content, name="rib.mrt"):
        path = self.folder / name
        path.write_bytes(content)
        return path


class Tables(Dumps):
    def test_what_comes_of_each(self):
        for name, status in NAMES.items():
            with self.subTest(table=name):
                path = self.dump(bytes_of(name))
                made = inside("from-mrt", path)
                self.assert_as_file(made.stdout, TABLES / (name + ".bgp"))
                self.assert_as_file(made.stderr.replace(str(path), "FILE"), TABLES / (name + ".told"))
                self.assertEqual(made.returncode, status)
                self.assertEqual(set(program(made.stdout)), {"ok"})

    def test_each_converges(self):
        for name in NAMES:
            converged = tool("converge", "--at-end", TABLES / (name + ".bgp"), status=0).stdout
            replies = program(converged + "quiet\n")
            self.assertEqual((replies[-1], [each for each in replies if each.startswith("refused")]), ("yes", []))

    def test_the_same_table_as_text(self):
        for name in ("two-peers", "collector"):
            made = inside("from-rib", TABLES / (name + ".txt"))
            self.assertEqual((made.returncode, made.stdout), (NAMES[name], (TABLES / (name + ".bgp")).read_text()))
        self.assertEqual(LESSON.read_bytes(), bytes_of("two-peers"))

    @unittest.skipUnless(shutil.which("bgpdump"), "bgpdump is not installed: apt-get install bgpdump")
    def test_what_bgpdump_reads_in_it(self):
        """It prints 0 for a MED that is not there, and that alone is otherwise."""
        for name in ("two-peers", "collector"):
            path = self.dump(bytes_of(name))
            said = subprocess.run(["bgpdump", "-m", "-l", str(path)], capture_output=True, timeout=PATIENCE, check=True)
            made = inside("from-rib", self.file("rib.txt", said.stdout.decode()))
            wanted = (TABLES / (name + ".bgp")).read_text()
            self.assertEqual(made.stdout, wanted.replace(" -\n", " 0\n"))

    def test_options(self):
        path = self.dump(bytes_of("collector"))
        made = inside("from-mrt", "--router", "192.0.2.7", "--as", "64999", "--no-communities", path)
        wanted = (TABLES / "collector.bgp").read_text().replace("10.255.255.1", "192.0.2.7").replace("64512", "64999")
        self.assertEqual(made.stdout, wanted.replace(" comm=4226809857,4294967041", ""))
        self.assertNotIn("64496:1:2", made.stderr)
        self.assertIn("an address and an AS number are expected", inside("from-mrt", "--as", "0", path).stderr)

    def test_strict(self):
        for name, status in (("two-peers", 0), ("collector", 2), ("add-path", 2)):
            path, out = self.dump(bytes_of(name)), self.folder / (name + ".out")
            made = inside("from-mrt", "--strict", path, "-o", out)
            self.assertEqual((made.returncode, made.stdout, out.exists()), (status, "", status == 0))
            self.assertEqual("nothing is written, since --strict" in made.stderr, status == 2)

    def test_packed_ones_are_known_by_their_bytes(self):
        content, wanted = bytes_of("two-peers"), (TABLES / "two-peers.bgp").read_text()
        for packed, name in ((content, "rib.gz"), (gzip.compress(content), "rib.bz2"), (bz2.compress(content), "rib"),
                             (gzip.compress(content[:44]) + gzip.compress(content[44:]), "rib.mrt")):
            self.assertEqual(inside("from-mrt", self.dump(packed, name)).stdout, wanted)
            self.assertEqual(tool("from-mrt", "-", given=packed, status=0).stdout, wanted)

    def test_more_routes_than_one_script_holds(self):
        path = self.dump(bytes_of("two-peers"))
        with unittest.mock.patch.object(line_count, "MOST_LINES", 8):
            made = inside("from-mrt", path, "-o", self.folder / "out")
        self.assertIn("a script of 9 lines; one run of the program reads 8; 2 of them are routes; `--sample N`, ",
                      made.stderr)
        self.assertEqual((made.returncode, (self.folder / "out").exists()), (2, False))


class Damaged(Dumps):
    """What is wrong with a file is told with the place, and nothing is written."""

    def assert_wrong(self, content, said, status=2):
        path, out = self.dump(content), self.folder / "out"
        out.write_text("before")
        made = inside("from-mrt", path, "-o", out)
        self.assertIn(said, made.stderr.replace(str(path), "FILE"))
        self.assertEqual((made.returncode, out.read_text() == "before"), (status, status == 2))

    def test_a_file_that_ends_too_early(self):
        content = bytes_of("collector")
        starts = beginnings(content)
        for length in range(1, len(content)):
            if length not in starts:
                begin = max(at for at in starts if at < length)
                self.assert_wrong(content[:length], "FILE: record %d, byte %d: a record of " % (starts.index(begin) + 1, begin))
        self.assert_wrong(content[:180], "byte 122: a record of 175 bytes begins, and the file ends after 58 of them")
        self.assert_wrong(gzip.compress(content)[:-9], "FILE: it cannot be read: Compressed file ended before")
        self.assert_wrong(bz2.compress(content)[:-9], "FILE: it cannot be read: Compressed file ended before")

    def test_what_is_no_table(self):
        for content, said in ((b"",
                               "FILE: it has no route that can be taken: routes of IPv4 in records of TABLE_DUMP_V2"),
                              (PEER, "it has no route that can be taken"),
                              (record(16, 4, b"x"), "record 1, byte 0: the record is damaged: 1 bytes of 4 are there"),
                              (b"TABLE_DUMP2|1700000000|B|192.0.2.1|7|10.0.0.0/8",
                               "byte 0: a record of 1297101436 bytes begins"),
                              (with_attributes()[len(PEER):],
                               "byte 0: the record is damaged: a route is of the peer 0, and no "
                                                              "PEER_INDEX_TABLE is before it"),
                              (PEER + with_attributes()[len(PEER):].replace(b"\x08\x0a", b"\x28\x0a"),
                               "byte 33: the record is damaged: a prefix of IPv4 has at most 32 bits, and not 40"),
                              (PEER + record(13, 2, bytes(9)), "the record is damaged: it has 2 bytes more"),
                              (record(13, 1, bytes(7)), "byte 0: the record is damaged: 1 bytes of 2 are there"),
                              (PEER.replace(b"\0\1\2",
                                            b"\0\2\2"), "byte 0: the record is damaged: 0 bytes of 1 are there")):
            with self.subTest(said=said):
                self.assert_wrong(content, said)
        self.assertIn("No such file", inside("from-mrt", self.folder / "gone").stderr)
        self.assertIn("Is a directory", inside("from-mrt", self.folder).stderr)

    def test_an_attribute_that_is_there_twice(self):
        """The first one counts (RFC 7606, 3 g)."""
        twice = with_attributes(ORIGIN, PATH, bytes.fromhex("800404 00000005"), bytes.fromhex("800404 00000009"))
        self.assertIn(" update 10.0.0.0/8 7 igp 5\n", inside("from-mrt", self.dump(twice)).stdout)

    def test_a_route_that_cannot_be_taken(self):
        good = with_attributes(ORIGIN, PATH)[len(PEER):]
        for attributes, said in (((PATH,), "it has no ORIGIN"), ((ORIGIN,), "it has no AS_PATH"),
                                 ((bytes.fromhex("40010103"), PATH), "its ORIGIN is none of IGP, EGP, INCOMPLETE"),
                                 ((ORIGIN, bytes.fromhex("400200")), "the path does not begin with AS 7"),
                                 ((ORIGIN, bytes.fromhex("400202 0200")), "its path has an empty segment"),
                                 ((ORIGIN, bytes.fromhex("40020A 0202 00000007 00000000")),
                                  "its path has the AS number 0"),
                                 ((ORIGIN, bytes.fromhex("400204 0201 0007")), "2 bytes of 4 are there"),
                                 ((ORIGIN, PATH, bytes.fromhex("800402 0005")), "its MED is no number of 4 bytes"),
                                 ((ORIGIN, PATH, bytes.fromhex("C00803 000701")), "3 bytes are no numbers of 4 bytes"),
                                 ((ORIGIN, PATH, bytes.fromhex("C02008 0000000700000001")), "of three numbers"),
                                 ((ORIGIN, PATH, bytes.fromhex("C01004 00020007")),
                                  "extended communities are of 8 bytes"),
                                 ((ORIGIN, PATH, b"\x40"), "an attribute is cut off: 1 bytes of 2 are there"),
                                 ((ORIGIN, PATH, b"\xc0\x08\x84" + bytes(range(132))), "it has 33 communities")):
            with self.subTest(said=said):
                told = "FILE: record 2, byte 33: 10.0.0.0/8 from 192.0.2.1: not taken over: "
                self.assert_wrong(with_attributes(*attributes), told)
                self.assert_wrong(with_attributes(*attributes) + good, said, 1)

    def test_no_damage_is_a_traceback(self):
        drawn = random.Random(6396)
        for number in range(300):
            content = bytearray(bytes_of(drawn.choice(list(NAMES))))
            for _ in range(drawn.randint(1, 4)):
                at = drawn.randrange(len(content))
                content[at:at + drawn.choice((0, 1, 1, 1, 2))] = bytes([drawn.choice((0, 1, 2, 255,
                                                                                      drawn.randrange(256)))])
            out = self.folder / "out"
            out.write_text("before")
            made = inside("from-mrt", self.dump(bytes(content)), "-o", out)
            self.assertEqual(out.read_text() == "before", made.returncode == 2, (number, made.stderr))
            self.assertIn(made.returncode, (0, 1, 2))
