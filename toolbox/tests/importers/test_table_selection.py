"""Which routes of a table are taken: --peers, --under, --sample; what a table's script is too long for; the statuses."""
import functools
import unittest.mock

from bgptools.importers.tables import mrt_feeds, selection
from bgptools.program import line_count
from common import Case, inside, program, tool
from mrt_files import attributes, peers, record, routes

ONE, TWO, SIX = (7, "192.0.2.1"), (8, "192.0.2.2"), (9, "2001:db8::9")
LINE = "TABLE_DUMP2|1700000000|B|%s|%d|%s|%s|IGP|%s|0|0||NAG||\n"
MASK = 2 ** 64 - 1


def generator(state, stream):
    """Numbers of PCG-XSH-RR 32, written out from O'Neill's paper, section 6.3.1."""
    step = 2 * stream + 1 & MASK
    state = (state + step) * 6364136223846793005 + step & MASK
    while True:
        word, turn = (state >> 18 ^ state) >> 27 & 0xffffffff, state >> 59
        yield (word >> turn | word << 32 - turn) & 0xffffffff
        state = state * 6364136223846793005 + step & MASK


def rank_of(seed, text):
    """The rank by which a prefix is drawn, as docs/reference/tools.md has it."""
    address, length = text.split("/")
    stream = functools.reduce(lambda value, part: value * 256 + int(part), address.split("."), 0) * 64 + int(length)
    first = generator(seed, stream)
    drawn = generator(next(first) * 2 ** 32 + next(first), stream)
    return next(drawn) * 2 ** 32 + next(drawn)


def fed(made):
    """The prefixes that a script feeds, with the peers, in order."""
    return [(words[4], words[1]) for words in (line.split(" ") for line in made.stdout.split("\n")) if words[0] == "feed"]


class Made(Case):
    PREFIXES = ["10.%d.0.0/16" % at for at in range(40)] + ["10.1.%d.0/24" % at for at in range(9)] + ["0.0.0.0/0"]

    def mrt(self, prefixes, known=(ONE, TWO)):
        """A table in which each peer tells each prefix, the second by a longer path."""
        content = peers(1700000000, known)
        for at, where in enumerate(prefixes):
            content += routes(1700000000, at, where, [
                (place, attributes([asn] + [64500] * place, address if ":" not in address else "192.0.2.9"))
                for place, (asn, address) in enumerate(known)])
        path = self.folder / "rib.mrt"
        path.write_bytes(content)
        return path

    def text(self, prefixes, known=(ONE, TWO)):
        """The same as bgpdump prints it."""
        return self.file("rib.txt", "".join(
            LINE % (address, asn, where, " ".join([str(asn)] + ["64500"] * place), address)
            for where in prefixes for place, (asn, address) in enumerate(known)))

    def both(self, *words, prefixes=None, known=(ONE, TWO)):
        """What from-mrt and from-rib make of the table, which is the same script."""
        made = inside("from-mrt", self.mrt(prefixes or self.PREFIXES, known), *words)
        other = inside("from-rib", self.text(prefixes or self.PREFIXES, known), *words)
        self.assertEqual((made.returncode, made.stdout.replace(" -\n", " 0\n")), (other.returncode, other.stdout), made.stderr + other.stderr)
        self.assertLessEqual(set(program(made.stdout)), {"ok"})
        return made


class Choices(Made):
    def test_peers(self):
        for words, wanted in (("192.0.2.1", [ONE]), ("AS8", [TWO]), ("8,192.0.2.1", [ONE, TWO]), ("as7", [ONE])):
            made = self.both("--peers", words)
            self.assertEqual(fed(made), [(where, address) for where in self.PREFIXES for _, address in wanted])
            self.assertEqual((made.stdout.count("\nvirtual "), made.returncode), (len(wanted), 0))
        self.assertIn("50 routes and withdrawals are taken, and 50 are not asked for", self.both("--peers", "7").stderr)

    def test_peers_that_are_not_there(self):
        for word in ("192.0.2.9", "AS9", "7,9"):
            made = inside("from-rib", self.text(self.PREFIXES), "--peers", word)
            self.assertIn("no peer is that; there are 192.0.2.1 (AS 7), 192.0.2.2 (AS 8)", made.stderr)
            self.assertEqual((made.returncode, made.stdout), (2, ""))
        for words, said in ((["--peers", "x"], "neither an address nor an AS number"), (["--peers", "7,"], "neither"),
                            (["--under", "10.0.0.1/8"], "a prefix with no bit set behind its length"),
                            (["--sample", "0"], "at least 1"), (["--sample", "1", "--seed", "x"], "0 to 4294967295"),
                            (["--seed", "1"], "without --sample N")):
            made = inside("from-mrt", "gone", *words)
            self.assertEqual((made.returncode, said in made.stderr), (2, True), made.stderr)

    def test_under(self):
        inner = [where for where in self.PREFIXES if where.startswith("10.1.")]
        self.assertEqual([where for where, who in fed(self.both("--under", "10.1.0.0/16")) if who == ONE[1]], inner)
        two = [where for where in self.PREFIXES if where.startswith("10.1.") or where == "10.9.0.0/16"]
        made = self.both("--under", "10.1.0.0/16", "--under", "10.9.0.0/16", "--peers", "8")
        self.assertEqual(fed(made), [(where, TWO[1]) for where in two])
        self.assertEqual(len(fed(self.both("--under", "0.0.0.0/0"))), 2 * len(self.PREFIXES))

    def test_a_sample_is_of_the_lowest_ranks(self):
        for count, seed in ((1, 1), (7, 1), (7, 4294967295), (50, 3), (60, 3)):
            lowest = sorted(self.PREFIXES, key=lambda where: rank_of(seed, where))[:count]
            made = self.both("--sample", count, *([] if seed == 1 else ["--seed", seed]))
            self.assertEqual(fed(made), [(where, address) for where in self.PREFIXES if where in lowest
                                         for _, address in (ONE, TWO)])

    def test_a_sample_does_not_depend_on_the_order(self):
        words = ("--sample", 9, "--seed", 5)
        wanted = {where for where, _ in fed(self.both(*words))}
        for other in (self.PREFIXES[::-1], self.PREFIXES[25:] + self.PREFIXES[:25], self.PREFIXES[::2] + self.PREFIXES[1::2]):
            self.assertEqual({where for where, _ in fed(self.both(*words, prefixes=other))}, wanted)
        self.assertEqual({where for where, _ in fed(self.both(*words, "--peers", "8"))}, wanted)

    def test_seeds_draw_otherwise_and_evenly(self):
        """Each of 50 prefixes is drawn with 10 of 50; over 200 seeds it is drawn 40 times, and 5.7 is the deviation."""
        drawn = {}
        for seed in range(200):
            for where in sorted(self.PREFIXES, key=lambda where: rank_of(seed, where))[:10]:
                drawn[where] = drawn.get(where, 0) + 1
        self.assertEqual(len(drawn), 50)
        self.assertGreater(min(drawn.values()), 40 - 4 * 5.7)
        self.assertLess(max(drawn.values()), 40 + 4 * 5.7)

    def test_what_is_left_out_is_not_held(self):
        """A count of what is held while 40 prefixes are read: never more than the 3 that are drawn, with two each."""
        most, offer = [], selection.Sample.offer

        def counted(sample, *words):
            found = offer(sample, *words)
            most.append((len(sample.held), sum(map(len, sample.held.values())), len(sample.ranks)))
            return found
        with unittest.mock.patch.object(selection.Sample, "offer", counted):
            inside("from-mrt", self.mrt(self.PREFIXES), "--sample", 3)
        self.assertEqual((len(most), tuple(map(max, zip(*most)))), (100, (3, 6, 3)))

    def test_what_no_option_asks_for_is_not_read(self):
        """Neither its attributes are, nor is any feed made of it."""
        for words, count in ((("--under", "10.1.0.0/16"), 20), (("--peers", "8"), 50), (("--sample", "4"), 8), ((), 100)):
            with unittest.mock.patch.object(mrt_feeds, "feed_of", wraps=mrt_feeds.feed_of) as made:
                inside("from-mrt", self.mrt(self.PREFIXES), *words)
            self.assertEqual(made.call_count, count)


class Statuses(Made):
    def test_routes_of_ipv6_change_none_of_ipv4(self):
        path = self.file("rib", LINE % ("192.0.2.1", 7, "10.0.0.0/8", "7", "192.0.2.1") + LINE % ("2001:db8::1", 7, "2001:db8::/32", "7", "::1"))
        made = inside("from-rib", path)
        self.assertEqual((made.returncode, made.stderr), (0, "%s: 1 routes of IPv6 were left out\n" % path))

    def test_a_route_of_ipv4_from_a_peer_of_ipv6_may(self):
        made = self.both(prefixes=["10.0.0.0/8"], known=(ONE, SIX))
        self.assertEqual(made.returncode, 1)
        self.assertIn("10.0.0.0/8 from 2001:db8::9: not taken over: its peer has an address of IPv6", made.stderr)
        self.assertEqual(self.both("--peers", "7", prefixes=["10.0.0.0/8"], known=(ONE, SIX)).returncode, 0)
        self.assertEqual(self.both("--strict", prefixes=["10.0.0.0/8"], known=(ONE, SIX)).returncode, 2)

    def test_many_of_a_kind_are_counted(self):
        path = self.file("rib", LINE % ("192.0.2.1", 7, "10.0.0.0/8", "7", "192.0.2.1") + "".join(
            LINE % ("192.0.2.1", 7, where, "8 7", "192.0.2.1") for where in self.PREFIXES))
        made = inside("from-rib", path)
        self.assertEqual((made.returncode, made.stderr.count("the path does not begin with AS 7, the peer's\n")), (1, 10))
        self.assertIn("rib: not taken over: 40 more routes: the path does not begin with AS N, the peer's\n", made.stderr)

    def test_a_second_route_of_a_peer(self):
        path = self.file("rib", 2 * (LINE % ("192.0.2.1", 7, "10.0.0.0/8", "7", "192.0.2.1")))
        made = inside("from-rib", path)
        self.assertEqual((made.returncode, made.stdout.count("\nfeed ")), (1, 1))
        self.assertIn("rib:2: not taken over: the peer tells several routes to this prefix", made.stderr)

    def test_records_that_are_not_read(self):
        """TABLE_DUMP of IPv4 and RIB_GENERIC of IPv4 unicast have routes that may matter; of IPv6 and OSPF none does."""
        path = self.mrt(["10.0.0.0/8"])
        whole = path.read_bytes()
        for more, status in ((record(0, 12, 1, b"x"), 1), (record(0, 12, 2, b"x"), 0), (record(0, 11, 0, b"x"), 0),
                             (record(0, 13, 6, b"\0\0\0\0\0\1\1"), 1), (record(0, 13, 6, b"\0\0\0\0\0\1\x80"), 0),
                             (record(0, 99, 0, b""), 1), (record(0, 13, 3, b""), 0), (record(0, 16, 3, b""), 1)):
            path.write_bytes(whole + more)
            made = inside("from-mrt", path)
            self.assertEqual((made.returncode, made.stdout.count("\nfeed ")), (status, 2), made.stderr)


class Size(Made):
    """How long a script is with its deliveries, beside what `converge` writes of it."""

    def deliveries(self, made):
        """How many lines deliver in the script that has converged, and how many there are."""
        lines = tool("converge", self.file("table.bgp", made.stdout), status=0).stdout.split("\n")[:-1]
        return sum(line.startswith("deliver ") for line in lines), len(lines)

    def bounds(self, made):
        """The bounds that are told, and how long the script is."""
        words = made.stderr.replace(",", "").split(" ")
        at = words.index("deliveries")
        return int(words[at - 3]), int(words[at - 1]), made.stdout.count("\n")

    def test_the_bounds_hold(self):
        """If the first route that is told of each prefix is the best, the least is met."""
        three = (ONE, TWO, (9, "192.0.2.3"))
        for known, is_met in ((three, True), (three[::-1], False)):
            made = inside("from-rib", self.text(self.PREFIXES, known))
            self.assertEqual((made.returncode, made.stderr), (0, ""))
            found, whole = self.deliveries(made)
            with unittest.mock.patch.object(line_count, "MOST_LINES", 450):
                least, most, length = self.bounds(inside("from-rib", self.text(self.PREFIXES, known)))
            self.assertEqual((least, most, length, length + found), (150 + 100, 4 * 150 - 50, 160, whole))
            self.assertTrue(found == least if is_met else least <= found <= most)

    def test_each_better_than_before_meets_the_most(self):
        """Paths get shorter from peer to peer: 4, 3, 2 and 1 AS."""
        known = [(7 + at, "192.0.2.%d" % (1 + at)) for at in range(4)]
        text = "".join(LINE % (address, asn, where, " ".join([str(asn)] + ["64500"] * (4 - at)), address)
                       for where in self.PREFIXES for at, (asn, address) in enumerate(known))
        made = inside("from-rib", self.file("rib.txt", text))
        self.assertEqual(self.deliveries(made)[0], 200 * 5 - 50)

    def test_routes_that_are_not_advertised_are_not_counted(self):
        text = "".join((LINE % (address, asn, where, str(asn), address)).replace("||NAG", "|no-export|NAG")
                       for where in self.PREFIXES for asn, address in (ONE, TWO))
        made = inside("from-rib", self.file("rib.txt", text))
        self.assertEqual(self.deliveries(made)[0], 100)
        with unittest.mock.patch.object(line_count, "MOST_LINES", 7 + 100 + 100):
            self.assertEqual(inside("from-rib", self.folder / "rib.txt").returncode, 0)

    def test_a_script_that_cannot_converge_is_refused(self):
        """Two peers of 50 routes each: 107 lines, a delivery for each feed, and 50 of what the router advertises."""
        for most, words, status, said in (
                (257, (), 0, "with 150 to 250 deliveries, and one run of the program reads 257"),
                (256, (), 2, "a script of 107 lines, and 150 deliveries at least; one run of the program reads 256; "
                             "`--sample N`, `--under PREFIX` and `--peers A,B` take fewer, and `--by-prefix` writes"),
                (256, ("--by-prefix",), 0, ""), (106, ("--by-prefix",), 2, "a script of 107 lines; one run of the program reads 106; 100 of them"),
                (357, (), 0, "")):
            with self.subTest(most=most, words=words), unittest.mock.patch.object(line_count, "MOST_LINES", most):
                made = inside("from-rib", self.text(self.PREFIXES), *words)
                self.assertEqual((made.returncode, made.stdout == ""), (status, status == 2))
                self.assertIn(said, made.stderr)
                self.assertEqual(made.stderr == "", said == "")
