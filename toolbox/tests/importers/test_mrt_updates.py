"""from-mrt on updates of a collector (BGP4MP): beside bgpdump and mrtparse on files that are generated; sessions, times
and tables by hand; damaged files."""
import datetime
import io
import random
import shutil
import signal
import struct
import subprocess
import unittest

import pytest
from hypothesis import given, strategies

from bgptools.importers.tables import bgp_messages
from common import DATA, PATIENCE, TOOLBOX, Case, inside, program, tool
from mrt_files import (
    attribute, attributes, header, message, path, peers, record, routes, state, update, updates)
from strategies import few
from test_from_mrt import bytes_of

_kept = signal.getsignal(signal.SIGPIPE)
mrtparse = pytest.importorskip("mrtparse", reason="mrtparse is not installed (tools/setup)")
signal.signal(signal.SIGPIPE, _kept)

# 2026-12-01, 12:00 (UTC), as `date -u -d 2026-12-01T12:00:00Z +%s` prints it.
NOON = 1796126400
SEVEN, EIGHT = (7, "192.0.2.1"), (8, "192.0.2.2")
PEERS = (SEVEN, EIGHT, (4200000001, "192.0.2.3"))
PREFIXES = ["10.0.0.0/8", "10.128.0.0/9", "0.0.0.0/0", "192.0.2.128/25", "198.51.100.7/32"]
HEADER = ["router 10.255.255.1 64512"]


def when(seconds):
    """A time after noon, as a comment."""
    return "# time 2026-12-01T12:%02d:%02dZ" % divmod(seconds, 60)


def announces(seconds, peer, *prefixes, more=(), med=None):
    """A record in which a peer announces prefixes, with these AS numbers behind its own."""
    return updates(NOON + seconds, *peer, prefixes, (), attributes([peer[0], *more], peer[1], med))


def withdraws(seconds, peer, *prefixes):
    return updates(NOON + seconds, *peer, (), prefixes)


class Made(Case):
    def made(self, content, *words, name="updates.mrt"):
        """What from-mrt makes of a file; its script is taken by the program."""
        path_of_file = self.folder / name
        path_of_file.write_bytes(content)
        made = inside("from-mrt", path_of_file, *words)
        self.assertLessEqual(set(program(made.stdout)), {"ok"})
        made.stderr = made.stderr.replace(str(self.folder) + "/", "")
        return made

    def body(self, content, *words, status=0):
        """The lines of the script behind routers, peers and sessions."""
        made = self.made(content, *words)
        self.assertEqual(made.returncode, status, made.stderr)
        return [line for line in made.stdout.split("\n")[:-1] if line.split(" ")[0] not in ("router", "virtual", "link", "join")]


@strategies.composite
def streams(draw):
    """Updates and changes of sessions of three peers, in order of their times; a session that is down comes up first."""
    content, now, down = b"", NOON, set()
    for _ in range(draw(strategies.integers(1, 6))):
        now += draw(strategies.integers(0, 2))
        asn, address = draw(strategies.sampled_from(PEERS))
        if draw(strategies.integers(0, 5)) == 0:
            is_up = (asn, address) in down
            content += state(now, asn, address, *((5, 6) if is_up else (6, 1)))
            (down.discard if is_up else down.add)((asn, address))
        elif (asn, address) not in down:
            new = draw(strategies.lists(strategies.sampled_from(PREFIXES), max_size=3, unique=True))
            old = draw(strategies.lists(strategies.sampled_from([each for each in PREFIXES if each not in new]), max_size=2, unique=True))
            width = 4 if asn > 65535 else draw(strategies.sampled_from((2, 4)))
            told = attributes([asn, *draw(strategies.lists(strategies.integers(1, 65535), max_size=3))], address,
                              draw(strategies.none() | strategies.integers(1, 2 ** 32 - 1)),
                              sorted(draw(strategies.sets(strategies.integers(0, 2 ** 32 - 1), max_size=3))), width)
            content += updates(now, asn, address, new, old, told if new else b"", width=width)
    return content


def time_of(text):
    """A time of a file as a comment."""
    return "# time %sZ" % datetime.datetime.fromtimestamp(int(text), datetime.timezone.utc).strftime("%Y-%m-%dT%H:%M:%S")


def without_sessions(lines):
    """The feeds of a script, each with the time before it."""
    found, time = [], ""
    for line in lines:
        time = line if line.startswith("# time ") else time
        if line.startswith("feed "):
            found.append((time, line))
    return found


class Beside(Made):
    """What others read in a file is what is fed, in the same order."""

    def of_bgpdump(self, content):
        """The feeds as bgpdump has them. It prints 0 for a MED that is not there, and names for some communities."""
        file = self.folder / "dumped.mrt"
        file.write_bytes(content)
        ran = subprocess.run(["bgpdump", "-m", str(file)], capture_output=True, timeout=PATIENCE, check=True)
        found = []
        for parts in (line.split("|") for line in ran.stdout.decode().split("\n")[:-1]):
            if parts[2] == "A":
                found.append((time_of(parts[1]), "feed %s 10.255.255.1 update %s %s igp %s" % (
                    parts[3], parts[5], parts[6].replace(" ", ","), parts[10]), len(parts[11].split())))
            elif parts[2] == "W":
                found.append((time_of(parts[1]), "feed %s 10.255.255.1 withdraw %s" % (parts[3], parts[5]), 0))
        return found

    @unittest.skipUnless(shutil.which("bgpdump"), "bgpdump is not installed: apt-get install bgpdump")
    @few
    @given(streams())
    def test_bgpdump(self, content):
        wanted, begun = [], set()
        for time, line, count in self.of_bgpdump(content):
            # A withdrawal of a peer that has announced nothing is of no session that the script has.
            begun |= {line.split(" ")[1]} if " update " in line else set()
            wanted += [(time, line, count)] if line.split(" ")[1] in begun else []
        if begun:
            found = [(time, *line.replace(" igp -", " igp 0").partition(" comm=")[::2])
                     for time, line in without_sessions(self.body(content))]
            self.assertEqual([(time, line, len(comms.split(",")) if comms else 0) for time, line, comms in found], wanted)

    @few
    @given(streams())
    def test_mrtparse(self, content):
        """The same with mrtparse, which has communities, paths and MEDs as they are; and states of sessions."""
        wanted, states, begun = [], [], set()
        for each in mrtparse.Reader(io.BytesIO(content)):
            told = each.mrt.bgp
            if each.mrt.subtype == 5:
                states += [("start" if told.new_state == 6 else "stop", told.peer_ip)] if told.peer_ip in begun else []
                continue
            said = told.msg
            feeds = ["feed %s 10.255.255.1 withdraw %s/%d" % (told.peer_ip, gone.prefix, gone.plen) for gone in said.withdrawn
                     if told.peer_ip in begun]
            by = {each.type: each for each in said.attr}
            for new in said.nlri:
                begun.add(told.peer_ip)
                comms = sorted({(int(one) << 16) + int(two) for one, two in (word.split(":") for word in by[8].comm)} if 8 in by else ())
                feeds.append("feed %s 10.255.255.1 update %s/%d %s igp %s%s" % (
                    told.peer_ip, new.prefix, new.plen, ",".join(by[2].as_path[0]["val"]), by[4].med if 4 in by else "-",
                    " comm=" + ",".join(map(str, comms)) if comms else ""))
            wanted += [(time_of(each.mrt.ts), line) for line in feeds]
        if begun:
            lines = self.body(content)
            self.assertEqual(without_sessions(lines), wanted)
            changes = [tuple(line.split(" ")[::2]) for line in lines if line.split(" ")[0] in ("stop", "start")]
            self.assertEqual(changes, states)

    @few
    @given(streams())
    def test_what_the_router_holds_at_the_end(self, content):
        """By a table that is kept here: what each peer announced last, and neither withdrew nor lost with its session."""
        made = self.made(content)
        if made.returncode == 2:
            return
        held = {}
        for each in mrtparse.Reader(io.BytesIO(content)):
            routes_of_peer = held.setdefault(each.mrt.bgp.peer_ip, {})
            if each.mrt.subtype == 5:
                routes_of_peer.clear()
                continue
            for gone in each.mrt.bgp.msg.withdrawn:
                routes_of_peer.pop("%s/%d" % (gone.prefix, gone.plen), None)
            for new in each.mrt.bgp.msg.nlri:
                found = {each.type: each for each in each.mrt.bgp.msg.attr}
                routes_of_peer["%s/%d" % (new.prefix, new.plen)] = ",".join(found[2].as_path[0]["val"])
        converged = inside("converge", self.file("replay.bgp", made.stdout)).stdout
        for who in (address for _, address in PEERS if "virtual %s " % address in made.stdout):
            replies = program(converged + "in 10.255.255.1 %s\n" % who)
            count = int(replies[-1].split(" ")[1])
            found = {line.split(" ")[0]: line.split("path=")[1].split(" ")[0] for line in replies[-1 - count:-1]}
            self.assertEqual(found, held.get(who, {}))


class ByHand(Made):
    """The updates of toolbox/lessons, whose bytes are spelled in data/mrt/updates.hex."""

    def test_the_lesson(self):
        lesson = TOOLBOX / "lessons" / "updates.mrt"
        self.assertEqual(lesson.read_bytes(), bytes_of("updates"))
        made = inside("from-mrt", lesson, "--table", lesson.with_name("rib.mrt"))
        self.assertEqual((made.returncode, made.stderr), (0, ""))
        self.assert_as_file(made.stdout, DATA / "mrt" / "updates.bgp")
        self.assertEqual(set(program(made.stdout)), {"ok"})


class Sessions(Made):
    def test_down_and_up_again(self):
        content = (announces(0, SEVEN, "10.0.0.0/8") + state(NOON + 5, *SEVEN, 6, 1) + state(NOON + 6, *SEVEN, 1, 3)
                   + state(NOON + 9, *SEVEN, 5, 6) + announces(9, SEVEN, "10.0.0.0/8", more=[9]))
        self.assertEqual(self.body(content), [
            when(0), "feed 192.0.2.1 10.255.255.1 update 10.0.0.0/8 7 igp -", when(5), "stop 10.255.255.1 192.0.2.1",
            when(9), "start 10.255.255.1 192.0.2.1", "feed 192.0.2.1 10.255.255.1 update 10.0.0.0/8 7,9 igp -"])

    def test_up_though_no_record_says_down(self):
        """It was down in between, and what was announced is gone."""
        content = announces(0, SEVEN, "10.0.0.0/8") + state(NOON + 9, *SEVEN, 5, 6) + announces(10, SEVEN, "10.128.0.0/9")
        self.assertEqual(self.body(content)[2:5], [when(9), "stop 10.255.255.1 192.0.2.1", "start 10.255.255.1 192.0.2.1"])
        fresh = state(NOON, *SEVEN, 5, 6) + announces(1, SEVEN, "10.0.0.0/8")
        self.assertEqual(self.body(fresh), [when(1), "feed 192.0.2.1 10.255.255.1 update 10.0.0.0/8 7 igp -"])

    def test_messages_that_end_a_session(self):
        """A NOTIFICATION, and an OPEN, which begins another one (RFC 4271, 6.4 and 8)."""
        for kind in (1, 3):
            content = announces(0, SEVEN, "10.0.0.0/8") + record(NOON + 3, 16, 4, header(*SEVEN) + message(kind, b"xy")) + announces(
                4, SEVEN, "10.0.0.0/8")
            made = self.made(content)
            self.assertEqual((made.stdout.count("stop "), made.stdout.count("start "), made.returncode), (1, 1, 0))
            self.assertIn("that show a session to be up that no record says is up 1", made.stderr)

    def test_a_session_that_is_down_from_the_beginning(self):
        content = state(NOON, *SEVEN, 3, 1) + announces(1, EIGHT, "10.0.0.0/8")
        self.assertEqual(self.body(content), [when(1), "feed 192.0.2.2 10.255.255.1 update 10.0.0.0/8 8 igp -"])

    def test_a_route_that_cannot_be_taken_withdraws_the_one_before(self):
        """RFC 7606, 2: treat-as-withdraw. Of a peer that told nothing before there is nothing to withdraw."""
        bad = updates(NOON + 1, *SEVEN, ["10.0.0.0/8", "10.128.0.0/9"], (), attributes([9, 7], SEVEN[1]))
        found = self.body(announces(0, SEVEN, "10.0.0.0/8") + bad, status=1)
        self.assertEqual(found[2:], [when(1), "feed 192.0.2.1 10.255.255.1 withdraw 10.0.0.0/8"])
        told = self.made(announces(0, SEVEN, "10.0.0.0/8") + bad).stderr
        self.assertIn("updates.mrt: record 2, byte 80: 10.0.0.0/8 from 192.0.2.1: not taken over: the path does not begin "
                      "with AS 7", told)
        lacking = updates(NOON + 1, *SEVEN, ["10.0.0.0/8"], (), attribute(1, b"\0"))
        self.assertEqual(self.body(announces(0, SEVEN, "10.0.0.0/8") + lacking, status=1)[2:],
                         [when(1), "feed 192.0.2.1 10.255.255.1 withdraw 10.0.0.0/8"])

    def test_what_is_left_out(self):
        base = announces(0, SEVEN, "10.0.0.0/8")
        six = updates(NOON, 9, "2001:db8::9", (), (), attribute(14, struct.pack(">HBB", 2, 1, 16) + bytes(17) + b"\x20\x20\1\x0d\xb8"))
        four = updates(NOON, 9, "2001:db8::9", ["10.0.0.0/8"], (), attributes([9], "192.0.2.9"))
        add_path = record(NOON, 16, 9, header(*SEVEN) + message(2, bytes(4)))
        sent = record(NOON, 16, 7, header(*SEVEN) + update(["10.0.0.0/8"], (), attributes([7], SEVEN[1])))
        for more, status, said in ((six, 0, "1 routes of IPv6 were left out"), (four, 1, "its peer has an address of IPv6"),
                                   (add_path, 1, "BGP4MP, which may have routes of IPv4, is not read"),
                                   (sent, 0, "updates that the collector sent 1"), (updates(NOON, *SEVEN), 0, ""),
                                   (record(NOON, 16, 4, header(*SEVEN) + message(4)), 0, "KEEPALIVE 1")):
            made = self.made(base + more)
            self.assertEqual((made.returncode, made.stdout.count("\nfeed ")), (status, 1), made.stderr)
            self.assertIn(said, made.stderr)

    def test_routes_of_ipv4_in_mp_reach_nlri(self):
        """RFC 4760: a next hop of 4 bytes, a byte, and the prefixes; withdrawn ones in MP_UNREACH_NLRI."""
        told = attribute(1, b"\0") + attribute(2, path([7])) + attribute(14, bytes.fromhex("0001 01 04 C0000201 00 080A"))
        content = updates(NOON, *SEVEN, (), (), told) + updates(NOON + 1, *SEVEN, (), (), attribute(15, bytes.fromhex("0001 01 080A")))
        self.assertEqual(self.body(content), [when(0), "feed 192.0.2.1 10.255.255.1 update 10.0.0.0/8 7 igp -", when(1),
                                              "feed 192.0.2.1 10.255.255.1 withdraw 10.0.0.0/8"])


class Paths(Made):
    """AS4_PATH beside an AS_PATH of two bytes (RFC 6793, 4.2.3)."""

    def path(self, *segments, whole=()):
        """The path that is fed of these segments and those of AS4_PATH, each with its type."""
        def packed(parts, width):
            return b"".join(bytes([kind, len(numbers)]) + b"".join(each.to_bytes(width, "big") for each in numbers) for kind, numbers in parts)
        told = attribute(1, b"\0") + attribute(2, packed(segments, 2)) + (attribute(17, packed(whole, 4)) if whole else b"")
        return self.body(updates(NOON, 23456 if segments[0][1][0] == 23456 else 7, SEVEN[1], ["10.0.0.0/8"], (), told, width=2))[1].split(" ")[5]

    def test_as4_path(self):
        sequence, big = 2, 70000
        self.assertEqual(self.path((sequence, [7, 23456, 9]), whole=[(sequence, [big, 9])]), "7,70000,9")
        self.assertEqual(self.path((sequence, [7, 23456]), whole=[(sequence, [1, 2, big])]), "7,23456")
        self.assertEqual(self.path((sequence, [7, 23456]), whole=[(sequence, [7, big])]), "7,70000")
        self.assertEqual(self.path((sequence, [7, 8, 23456])), "7,8,23456")
        self.assertEqual(self.path((sequence, [7, 23456]), (1, [8, 23456]), whole=[(sequence, [big]), (1, [8, big])]), "7,70000_{8,70000}")
        self.assertEqual(self.path((sequence, [7, 7, 23456]), whole=[(3, [5]), (sequence, [big])]), "7,7,70000")

    def test_of_four_bytes_it_is_not_read(self):
        found = {2: path([7, 8]), 17: path([70000])}
        self.assertEqual(bgp_messages.path_of(found, 4), [(2, [7, 8])])


class Times(Made):
    CONTENT = (announces(0, SEVEN, "10.0.0.0/8") + announces(60, EIGHT, "10.0.0.0/8", "10.128.0.0/9") + withdraws(120, SEVEN, "10.0.0.0/8")
               + state(NOON + 180, *EIGHT, 6, 1) + announces(240, SEVEN, "0.0.0.0/0"))
    FEEDS = ["feed 192.0.2.1 10.255.255.1 update 10.0.0.0/8 7 igp -", "feed 192.0.2.2 10.255.255.1 update 10.0.0.0/8 8 igp -",
             "feed 192.0.2.2 10.255.255.1 update 10.128.0.0/9 8 igp -", "feed 192.0.2.1 10.255.255.1 withdraw 10.0.0.0/8",
             "stop 10.255.255.1 192.0.2.2", "feed 192.0.2.1 10.255.255.1 update 0.0.0.0/0 7 igp -"]

    def test_until(self):
        """Before that time; the end of the span is written."""
        self.assertEqual(self.body(self.CONTENT, "--until", "2026-12-01T12:02:00Z"),
                         [when(0), self.FEEDS[0], when(60), *self.FEEDS[1:3], when(120)])
        self.assertEqual(self.body(self.CONTENT, "--until", "2026-12-01T12:02:00.000001"),
                         [when(0), self.FEEDS[0], when(60), *self.FEEDS[1:3], when(120), self.FEEDS[3],
                          "# time 2026-12-01T12:02:00.000001Z"])

    def test_from(self):
        """What peers told before is there at that time, without what was withdrawn, and sessions that are down are."""
        self.assertEqual(self.body(self.CONTENT, "--from", "2026-12-01T12:02:01"),
                         [when(121), *self.FEEDS[1:3], when(180), self.FEEDS[4], when(240), self.FEEDS[5]])
        self.assertEqual(self.body(self.CONTENT, "--from", "2026-12-01T12:03:30", "--until", "2026-12-01T12:20"),
                         [when(210), "stop 10.255.255.1 192.0.2.2", when(240), self.FEEDS[5]])

    def test_from_leaves_the_state_of_the_whole(self):
        whole = self.body(self.CONTENT)
        for at in range(0, 300, 30):
            part = self.made(self.CONTENT, "--from", "2026-12-01T12:%02d:%02d" % divmod(at, 60)).stdout
            tables = []
            for text in (self.made(self.CONTENT).stdout, part):
                converged = inside("converge", self.file("part.bgp", text)).stdout
                tables.append(program(converged + "routes 10.255.255.1\n")[-2:])
            self.assertEqual(tables[0], tables[1])
        self.assertEqual(len(whole), 11)

    def test_a_table_first(self):
        """Its routes are of its time. An update before it is left out: the table has it."""
        table = self.folder / "rib.mrt"
        table.write_bytes(peers(NOON + 30, PEERS[:2]) + routes(NOON + 30, 0, "10.0.0.0/8", [
            (0, attributes([7, 9], SEVEN[1])), (1, attributes([8, 9, 9], EIGHT[1]))]))
        made = self.made(self.CONTENT, "--table", table)
        self.assertEqual(made.stdout.split("\n")[7:14], [
            when(30), "feed 192.0.2.1 10.255.255.1 update 10.0.0.0/8 7,9 igp -",
            "feed 192.0.2.2 10.255.255.1 update 10.0.0.0/8 8,9,9 igp -", when(60), *self.FEEDS[1:3], when(120)])
        self.assertIn("of times before the table, which has them 1", made.stderr)
        self.assertEqual(made.returncode, 0)
        one = self.made(self.CONTENT, "--table", table, "--sample", 1, "--under", "10.0.0.0/8", "--seed", 1)
        kept = {line.split(" ")[4] for line in one.stdout.split("\n") if line.startswith("feed ")}
        self.assertEqual(len(kept), 1)
        self.assertIn("stop 10.255.255.1 192.0.2.2\n", one.stdout)
        said = self.made(self.CONTENT, "--table", self.folder / "updates.mrt")
        self.assertEqual((said.returncode, said.stdout), (2, ""))
        self.assertIn("updates.mrt: --table: it has no table", said.stderr)

    def test_a_sample_of_all_is_the_whole(self):
        """What is held for each prefix comes in the order of the file again, with sessions in between."""
        content = self.CONTENT + withdraws(250, SEVEN, "0.0.0.0/0") + announces(260, EIGHT, "10.0.0.0/8")
        self.assertEqual(self.body(content, "--sample", 9), self.body(content))
        self.assertEqual(self.body(content, "--sample", 9, "--from", "2026-12-01T12:02"), self.body(
            content, "--from", "2026-12-01T12:02"))

    def test_several_files(self):
        parts = [self.folder / name for name in ("one", "two")]
        parts[0].write_bytes(self.CONTENT[:80])
        parts[1].write_bytes(self.CONTENT[80:])
        self.assertEqual(inside("from-mrt", *parts).stdout, self.made(self.CONTENT).stdout)

    def test_times_go_on(self):
        """A file that is out of order: times in the script never go back, and it is told."""
        made = self.made(announces(60, SEVEN, "10.0.0.0/8") + announces(30, EIGHT, "10.0.0.0/8") + announces(61, EIGHT, "10.128.0.0/9"))
        self.assertEqual([line for line in made.stdout.split("\n") if line.startswith("#")], [when(60), when(61)])
        self.assertIn("that are earlier than one before them, and are given its time 1", made.stderr)

    def test_parts_of_a_second(self):
        """BGP4MP_ET has microseconds in front (RFC 6396, 3)."""
        content = record(NOON, 17, 4, struct.pack(">I", 20) + header(*SEVEN) + update(["10.0.0.0/8"], (), attributes([7], SEVEN[1])))
        self.assertEqual(self.body(content)[0], "# time 2026-12-01T12:00:00.000020Z")

    def test_mistakes(self):
        for words, said in ((["--from", "noon"], "`noon` is no time"), (["--until", "2026-13-01"], "ISO 8601 in UTC is expected"),
                            (["--from", "2026-12-02", "--until", "2026-12-01"], "a later time is expected behind --until"),
                            (["--until", "2026-12-01T11:00Z"], "it has no route that can be taken")):
            path_of_file = self.folder / "updates.mrt"
            path_of_file.write_bytes(self.CONTENT)
            made = tool("from-mrt", path_of_file, *words, status=2)
            self.assertIn(said, made.stderr)


class Damaged(Made):
    CONTENT = Times.CONTENT + record(NOON, 17, 4, struct.pack(">I", 20) + header(*SEVEN) + message(4))

    def assert_mistake(self, made, said):
        self.assertIn(said, made.stderr)
        self.assertEqual((made.returncode, made.stdout), (2, ""))

    def test_a_record_that_is_cut_off(self):
        """Each record is shortened, one byte after another: the file and the record are named."""
        good = announces(0, SEVEN, "10.0.0.0/8")
        for whole in (updates(NOON, *SEVEN, ["10.0.0.0/8"], ["10.128.0.0/9"], attributes([7], SEVEN[1])), state(NOON, *SEVEN, 6, 1),
                      record(NOON, 17, 4, struct.pack(">I", 20) + header(*SEVEN) + message(4))):
            for length in range(12, len(whole)):
                cut = whole[:8] + struct.pack(">I", length - 12) + whole[12:length]
                self.assert_mistake(self.made(good + cut), "updates.mrt: record 2, byte 80: the record is damaged: ")

    def test_what_is_wrong_is_said(self):
        long = header(*SEVEN) + b"\xff" * 16 + struct.pack(">HB", 18, 2)
        for content, said in ((record(NOON, 16, 4, long), "a message has at least 19 bytes, and not 18"),
                              (record(NOON, 16, 4, header(*SEVEN)[:10] + b"\0\3" + bytes(8)), "addresses of the family 3"),
                              (record(NOON, 16, 4, header(*SEVEN) + message(2, b"\0\1\x28\0\0")), "at most 32 bits, and not 40"),
                              (record(NOON, 16, 4, header(*SEVEN) + message(4) + b"x"), "it has 1 bytes more"),
                              (record(NOON, 16, 5, header(*SEVEN) + b"\0\6\0\1x"), "it has 1 bytes more")):
            self.assert_mistake(self.made(content), "updates.mrt: record 1, byte 0: the record is damaged: ")
            self.assertIn(said, self.made(content).stderr)

    def test_no_damage_is_a_traceback(self):
        drawn = random.Random(6396)
        for _ in range(200):
            content = bytearray(self.CONTENT)
            for _ in range(drawn.randint(1, 4)):
                at = drawn.randrange(len(content))
                content[at:at + drawn.choice((0, 1, 1, 1, 2))] = bytes([drawn.choice((0, 1, 2, 255, drawn.randrange(256)))])
            path_of_file = self.folder / "updates.mrt"
            path_of_file.write_bytes(content)
            made = inside("from-mrt", path_of_file)
            self.assertIn(made.returncode, (0, 1, 2))
            self.assertTrue(made.returncode != 2 or made.stdout == "" and str(path_of_file) in made.stderr, made.stderr)
