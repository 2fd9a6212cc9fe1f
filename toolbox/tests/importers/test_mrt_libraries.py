"""Our reader of MRT beside mrtparse: where both read a table they read the same, and what mrtparse does not do. So
`from-mrt` has a reader of its own."""
import io
import ipaddress
import signal
import struct
import subprocess
import sys

import pytest
from hypothesis import given, strategies

from bgptools.importers.tables import mrt
from common import TOOLBOX, Case, inside
from strategies import ases, few, numbers
from test_from_mrt import NAMES, ORIGIN, PATH, PEER, beginnings, bytes_of, record, with_attributes

# (To import it makes a process end where a reader of its output has gone: see below.)
_kept = signal.getsignal(signal.SIGPIPE)
mrtparse = pytest.importorskip("mrtparse", reason="mrtparse is not installed (tools/setup)")
signal.signal(signal.SIGPIPE, _kept)


def ours(content):
    """The routes of a file as we read them: who tells which prefix, and its attributes by type."""
    peers, found = [], []
    for each in mrt.records_in(io.BytesIO(content), "rib"):
        if each.subtype == mrt.PEER_INDEX_TABLE:
            peers = mrt.peers_of(each.content)
        elif each.subtype in mrt.RIB_IPV4_UNICAST:
            where, entries = mrt.routes_of(each.content, mrt.RIB_IPV4_UNICAST[each.subtype])
            found += [(peers[entry.peer], where, attributes_of(entry.attributes)) for entry in entries]
    return [(peer.address, peer.asn, where, attributes) for peer, where, attributes in found]


def attributes_of(found):
    """ORIGIN, AS_PATH, MED, communities and large communities of a route that has them."""
    wanted = {1: lambda value: value[0], 2: mrt.segments_of, 4: lambda value: int.from_bytes(value, "big"),
              8: mrt.numbers_of, 32: mrt.numbers_of}
    return {kind: read(found[kind]) for kind, read in wanted.items() if kind in found}


def number_of(address):
    """The number of four bytes, as `10.0.0.1` spells them."""
    return int.from_bytes(bytes(map(int, address.split("."))), "big")


def theirs(content):
    """The same as mrtparse reads them."""
    peers, found = [], []
    for each in mrtparse.Reader(io.BytesIO(content)):
        assert each.mrt.err is None or each.mrt.subtype not in mrt.RIB_IPV4_UNICAST, each.mrt.err_msg
        if each.mrt.subtype == mrt.PEER_INDEX_TABLE:
            peers = each.mrt.peer.entry
        elif each.mrt.subtype in mrt.RIB_IPV4_UNICAST:
            where = number_of(each.mrt.rib.prefix), each.mrt.rib.plen
            found += [(peers[entry.peer_index], where, their_attributes(entry.attr)) for entry in each.mrt.rib.entry]
    return [(address_of(peer.ip), int(peer.asn), where, attributes) for peer, where, attributes in found]


def address_of(text):
    """The bytes of an address of IPv4 or IPv6."""
    return ipaddress.ip_address(text).packed


def their_attributes(found):
    """What `attributes_of` has, of attributes of mrtparse."""
    wanted = {1: lambda each: each.origin,
              2: lambda each: [(part["type"], [int(value) for value in part["val"]]) for part in each.as_path],
              4: lambda each: each.med,
              8: lambda each: [int(one) << 16 | int(two) for one, two in (value.split(":") for value in each.comm)],
              32: lambda each: [int(value) for part in each.large_comm for value in part.split(":")]}
    return {each.type: wanted[each.type](each) for each in found if each.type in wanted}


def attribute(kind, content):
    return struct.pack(">BBH", 0x50, kind, len(content)) + content


@strategies.composite
def tables(draw):
    """A table of MRT: peers, and records of routes that they tell."""
    peers = draw(strategies.lists(strategies.tuples(numbers, ases), min_size=1, max_size=3))
    said = struct.pack(">IHH", 0, 0, len(peers)) + b"".join(struct.pack(">BIII", 2, 7, *peer) for peer in peers)
    parts = [record(13, 1, said)]
    for _ in range(draw(strategies.integers(0, 3))):
        length = draw(strategies.integers(0, 32))
        prefix = draw(numbers) >> 32 - length << 32 - length
        routes = draw(strategies.lists(strategies.tuples(strategies.integers(0, len(peers) - 1), routes_drawn()),
                                       max_size=3))
        said = struct.pack(">IB", 7, length) + prefix.to_bytes(4, "big")[:(length + 7) // 8]
        said += struct.pack(">H", len(routes)) + b"".join(
            struct.pack(">HIH", peer, 0, len(route)) + route for peer, route in routes)
        parts.append(record(13, 2, said))
    return b"".join(parts)


@strategies.composite
def routes_drawn(draw):
    """The attributes of a route, as bytes: some of those that a feed takes."""
    def packed(values):
        return b"".join(value.to_bytes(4, "big") for value in values)
    segments = draw(strategies.lists(strategies.tuples(strategies.sampled_from((1, 2)), strategies.lists(
        ases, min_size=1, max_size=3)), max_size=3))
    path = b"".join(bytes([kind, len(values)]) + packed(values) for kind, values in segments)
    some = {4: draw(numbers).to_bytes(4, "big"), 8: packed(draw(strategies.lists(numbers, max_size=3))),
            32: packed(draw(numbers) for _ in range(3 * draw(strategies.integers(0, 2))))}
    chosen = draw(strategies.sets(strategies.sampled_from(sorted(some))))
    return b"".join([attribute(1, bytes([draw(strategies.integers(0, 2))])), attribute(2, path), *(
        attribute(kind, some[kind]) for kind in sorted(chosen))])


class Same(Case):
    @few
    @given(tables())
    def test_tables_that_are_generated(self, content):
        self.assertEqual(ours(content), theirs(content))

    def test_files_of_the_repository(self):
        for name, content in (*((name, bytes_of(name)) for name in NAMES),
                              ("lesson", (TOOLBOX / "lessons" / "rib.mrt").read_bytes())):
            with self.subTest(name=name):
                found = ours(content)
                self.assertEqual(found, theirs(content))
                self.assertGreater(len(found), 1)


def calls(read, content):
    """How many calls of functions it takes to read a file."""
    count = 0

    def counted(_, event, __):
        nonlocal count
        count += event in ("call", "c_call")
    sys.setprofile(counted)
    try:
        read(content)
    finally:
        sys.setprofile(None)
    return count


class Otherwise(Case):
    """What mrtparse does otherwise. If one of these fails, it has learnt it: see docs/explanation/decisions.md."""

    def told(self, content):
        """What from-mrt tells of a file, and its exit status."""
        path = self.folder / "rib"
        path.write_bytes(content)
        made = inside("from-mrt", path)
        return made.stderr.replace(str(path), "rib"), made.returncode

    def test_mrtparse_says_not_where_a_record_is_damaged(self):
        """Of a file that is cut off it says how many bytes there are of the last record, and not where that begins."""
        content = bytes_of("collector")
        begin = beginnings(content)[2]
        *_, last = [(each.mrt.err, each.mrt.err_msg) for each in mrtparse.Reader(io.BytesIO(content[:begin + 58]))]
        self.assertEqual(last[1], "Invalid MRT data length 46 < 163 byte")
        self.assertIn("rib: record 3, byte %d: a record of 175 bytes begins, and the file ends after 58" % begin,
                      self.told(content[:begin + 58])[0])

    def test_mrtparse_takes_damaged_records_without_a_word(self):
        """Bytes behind the last route; and a MED of eight bytes, of which it takes four for another ORIGIN."""
        good = with_attributes(ORIGIN, PATH)
        for content, said, status in (
                (good[:len(PEER)] + record(13, 2, good[len(PEER) + 12:] + b"xx"), "it has 2 bytes more than are said", 2),
                (with_attributes(ORIGIN, PATH, bytes.fromhex("800408 00000005 40010102")),
                 "its MED is no number of 4 bytes", 2)):
            with self.subTest(said=said):
                self.assertEqual([each.mrt.err for each in mrtparse.Reader(io.BytesIO(content))], [None, None])
                told, code = self.told(content)
                self.assertIn(said, told)
                self.assertEqual(code, status)

    def test_mrtparse_ends_with_an_error_of_another_kind(self):
        """At a prefix of 40 bits."""
        content = PEER + with_attributes(ORIGIN, PATH)[len(PEER):].replace(b"\x08\x0a\0\1", b"\x28\x0a\0\1\1\1\1")
        content = content[:len(PEER)] + record(13, 2, content[len(PEER) + 12:])
        self.assertRaisesRegex(ValueError, "packed IP address", list, mrtparse.Reader(io.BytesIO(content)))
        self.assertIn("rib: record 2, byte 33: the record is damaged: a prefix of IPv4 has at most 32 bits", self.told(content)[0])

    def test_mrtparse_sets_how_the_process_ends(self):
        """`from-mrt FILE | head` ends with 141 and closes what it holds; with mrtparse a signal ends the process."""
        said = "import signal, mrtparse; print(signal.getsignal(signal.SIGPIPE) == signal.SIG_DFL)"
        ran = subprocess.run([sys.executable, "-c", said], stdout=subprocess.PIPE, timeout=60, check=True)
        self.assertEqual(ran.stdout, b"True\n")

    def test_mrtparse_makes_many_times_the_calls(self):
        """A count, and no clock: of a table of 100 prefixes that three peers tell."""
        route = b"".join([attribute(1, b"\0"), attribute(2, struct.pack(">BB6I", 2, 6, *range(7, 13))),
                          attribute(3, bytes(4)), attribute(8, struct.pack(">4I", *range(4)))])
        entries = b"".join(struct.pack(">HIH", peer, 0, len(route)) + route for peer in range(3))
        table = record(13, 1, struct.pack(">IHH", 0, 0, 3) + b"".join(
            struct.pack(">BIII", 2, 7, peer + 1, 7) for peer in range(3)))
        table += b"".join(record(13, 2, struct.pack(">IB3sH", at, 24, bytes([10, at, 0]), 3) + entries)
                          for at in range(100))
        self.assertEqual(ours(table), theirs(table))
        self.assertGreater(calls(theirs, table), 3 * calls(ours, table))
