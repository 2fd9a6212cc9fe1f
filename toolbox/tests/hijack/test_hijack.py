"""Who is captured: the tool against routes that spread in three phases, written here."""
import csv
import heapq
import io
import random

from common import Case, inside
from relations import relations

NUMBERS = ("captured", "kept", "disconnected", "captured_by_routes", "kept_by_routes", "disconnected_by_routes")


def graph(lines):
    """The providers, customers and peers of each AS."""
    found = {}
    for line in lines:
        one, other, kind = map(int, line.split("|"))
        for asn in (one, other):
            found.setdefault(asn, (set(), set(), set()))
        if kind:
            found[other][0].add(one)
            found[one][1].add(other)
        else:
            found[one][2].add(other)
            found[other][2].add(one)
    return found


def spread(known, seeds, accepts):
    """The path that each AS chooses: up from the seeds, once across, and down, each time the shorter path and then the
    neighbour of the lower number. `accepts` says whether an AS takes a path."""
    chosen = dict(seeds)

    def rise(which, starts):
        """Over providers (0) or to customers (1): who has a route already keeps it."""
        heap = [(len(chosen[asn]) + 1, asn, to) for asn in starts for to in known[asn][which]]
        heapq.heapify(heap)
        while heap:
            length, sender, asn = heapq.heappop(heap)
            path = (sender,) + chosen[sender]
            if asn not in chosen and asn not in path and accepts(asn, which == 0, path):
                chosen[asn] = path
                for to in known[asn][which]:
                    heapq.heappush(heap, (length + 1, asn, to))
    rise(0, list(seeds))
    upward = dict(chosen)
    for asn in known:
        offers = sorted((len(upward[peer]), peer) for peer in known[asn][2] if peer in upward)
        paths = [(peer,) + upward[peer] for _, peer in offers]
        taken = [path for path in paths if asn not in path and accepts(asn, False, path)]
        if asn not in upward and taken:
            chosen[asn] = taken[0]
    rise(1, list(chosen))
    return chosen


class Model:
    """What a pair comes to, by hand-written rules."""

    def __init__(self, known, rov=(), peerlock=()):
        self.known, self.rov, self.peerlock = known, set(rov), set(peerlock)
        self.tops = {asn for asn, (providers, customers, _) in known.items() if customers and not providers}

    def accepts(self, is_valid):
        """Whether an AS takes a path, by who filters, and by what is valid for those that validate origins."""
        def does(asn, is_of_customer, path):
            if asn in self.peerlock and is_of_customer and self.tops.intersection(path):
                return False
            return asn not in self.rov or is_valid(path)
        return does

    def numbers(self, kind, victim, attacker):
        """The numbers of a row of the table."""
        tables, before = self.tables(kind, victim, attacker)
        own = (victim, attacker)
        counts = [0] * 6
        for asn in self.known.keys() - set(own):
            packets, routes = self.ends(tables, asn, own, kind)
            if kind == "leak":
                earlier = self.ends([before], asn, own, kind)
                packets, routes = ("kept" if now == was == "captured" else now
                                   for now, was in zip((packets, routes), earlier))
            counts[NUMBERS.index(packets)] += 1
            counts[3 + NUMBERS.index(routes)] += 1
        return counts

    def tables(self, kind, victim, attacker):
        """The paths to each prefix, the longest first; and for a leak those without it."""
        own = self.accepts(lambda path: path[-1] == victim)
        if kind == "same":
            return [spread(self.known, {victim: (), attacker: ()}, own)], None
        if kind == "longer":
            return [spread(self.known, {attacker: ()}, self.accepts(lambda path: False)), spread(self.known, {victim: ()}, own)], None
        if kind == "forged":
            return [spread(self.known, {victim: (), attacker: (victim,)}, own)], None
        before = spread(self.known, {victim: ()}, own)
        path = before.get(attacker)
        if path and path[0] not in self.known[attacker][1]:
            return [spread(self.known, {victim: (), attacker: path}, own)], before
        return [before], before

    @staticmethod
    def ends(tables, asn, own, kind):
        """What becomes of the packets of an AS, and where its route leads."""
        victim, attacker = own
        path = next((table[asn] for table in tables if asn in table), None)
        passes = path is not None and (attacker in path if kind in ("forged", "leak") else path[-1] == attacker)
        routes = "disconnected" if path is None else "captured" if passes else "kept"
        here = asn
        while here not in own:
            path = next((table[here] for table in tables if here in table), None)
            if path is None:
                return "disconnected", routes
            here = path[0]
        return ("captured" if here == attacker else "kept"), routes


def tree(count, seed, scale=1):
    """So many ASes below one, most with two providers, and peers; their numbers are multiples of `scale`."""
    draw, lines = random.Random(seed), {}
    for asn in range(2, count + 1):
        for provider in {max(1, int(asn * draw.random() ** 2)) for _ in range(draw.choice((1, 2, 2)))} - {asn}:
            lines[provider, asn] = -1
    for _ in range(count // 3):
        one, other = sorted(draw.sample(range(2, count + 1), 2))
        lines.setdefault((one, other), 0)
    # Two tops that peer, and an island that nobody else reaches.
    lines[1, count + 1] = 0
    lines.update({(count + 1, asn): -1 for asn in range(3, count, 9) if (count + 1, asn) not in lines})
    lines[count + 2, count + 3] = -1
    return ["%d|%d|%d" % (one * scale, other * scale, kind) for (one, other), kind in lines.items()]


class Captured(Case):
    def rows(self, lines, kind, pairs, *words):
        """The numbers of each pair, as the CSV has them."""
        path = self.file("relations", "\n".join(lines) + "\n")
        given = self.file("pairs", "".join("%d %d\n" % pair for pair in pairs))
        told = inside("hijack", path, "--kind", kind, "--pairs", given, "--csv", self.folder / "csv", *words)
        self.assertLess(told.returncode, 2, told.stderr)
        rows = csv.DictReader(io.StringIO((self.folder / "csv").read_text()))
        return {(int(row["victim"]), int(row["attacker"])): [int(row[name]) for name in NUMBERS] for row in rows}

    def pairs(self, known, kind, count, seed):
        """Some pairs, with the tops and the island among them."""
        draw, asns = random.Random(seed), sorted(known)
        attackers = [asn for asn in asns if kind != "leak" or known[asn][0] and len(known[asn][0]) + len(known[asn][2]) > 1]
        found = {(draw.choice(asns), draw.choice(attackers)) for _ in range(count)}
        found |= {(asns[0], attackers[-1]), (asns[-1], attackers[0]), (attackers[0], attackers[1])}
        return sorted(pair for pair in found if pair[0] != pair[1])

    def assert_as_the_model(self, lines, kind, count, rov=(), peerlock=(), words=()):
        known = graph(lines)
        pairs = self.pairs(known, kind, count, len(lines))
        for option, asns in (("--rov", rov), ("--peerlock", peerlock)):
            words = (*words, option, ",".join(map(str, sorted(asns)))) if asns else words
        model = Model(known, rov, peerlock)
        found = self.rows(lines, kind, pairs, *words)
        self.assertEqual(found, {pair: model.numbers(kind, *pair) for pair in pairs}, (kind, rov, peerlock))
        return found

    def deployments(self, lines):
        """Who filters: nobody, the greatest, a third of all, and both kinds at once."""
        known = graph(lines)
        big = sorted(known, key=lambda asn: -sum(map(len, known[asn])))[:6]
        third = sorted(known)[::3]
        return ((), ()), (big, ()), (third, ()), ((), third), (third, big)

    def test_small_graphs(self):
        # Most numbers are above 65535, and have routers of other addresses.
        lines = tree(60, 5, 2500)
        sums = {}
        for kind in ("same", "longer", "forged", "leak"):
            for number, (rov, peerlock) in enumerate(self.deployments(lines)):
                with self.subTest(kind=kind, rov=rov, peerlock=peerlock):
                    rows = self.assert_as_the_model(lines, kind, 10, rov, peerlock)
                    sums[kind, number] = [sum(column) for column in zip(*rows.values())]
        for kind in ("same", "longer", "forged", "leak"):
            self.assertGreater(sums[kind, 0][0], 0, kind)
        # Origin validation stops the first two and is no help against the others; peerlocks stop leaks alone.
        for kind in ("same", "longer"):
            self.assertLess(sums[kind, 1][0], sums[kind, 0][0])
        for kind in ("forged", "leak"):
            self.assertEqual([sums[kind, 1], sums[kind, 2]], [sums[kind, 0]] * 2)
        for kind in ("same", "longer"):
            self.assertEqual(sums[kind, 3], sums[kind, 0])
        self.assertLess(sums["leak", 3][0], sums["leak", 0][0])
        # Packets go where routes do not lead: an AS that refuses the longer prefix hands them to one that has it.
        self.assertGreater(sums["longer", 2][0], sums["longer", 2][3])
        self.assertGreater(sums["same", 2][2], 0)

    def test_a_middle_graph(self):
        lines = relations(600, 4)
        known = graph(lines)
        for kind in ("same", "longer", "forged", "leak"):
            with self.subTest(kind=kind):
                self.assert_as_the_model(lines, kind, 4, sorted(known)[::4])

    def test_the_program_plays_more_to_the_same_result(self):
        lines = tree(60, 8)
        known = graph(lines)
        for kind in ("same", "longer", "forged", "leak"):
            pairs = self.pairs(known, kind, 4, 3)
            words = ("--rov", "share:0.5:1", "--peerlock", "top:9")
            self.assertEqual(self.rows(lines, kind, pairs, *words), self.rows(lines, kind, pairs, *words, "--played", "all"))

    def test_by_hand(self):
        """2 and 3 buy from 1; 4 from 2, 5 from 3, 6 from 2 and 3. The victim is 4, the attacker 5."""
        lines = ["1|2|-1", "1|3|-1", "2|4|-1", "3|5|-1", "2|6|-1", "3|6|-1"]
        for kind, numbers in (
                # 3 is captured by its customer. 1 hears both, as long: 2 is the lower. So is it for 6.
                ("same", [1, 3, 0, 1, 3, 0]),
                ("longer", [4, 0, 0, 4, 0, 0]),
                # The forged path is longer, and 3 has it of its customer.
                ("forged", [1, 3, 0, 1, 3, 0])):
            self.assertEqual(self.rows(lines, kind, [(4, 5)]), {(4, 5): numbers}, kind)
        # 3 refuses the longer prefix, and 1 and 6 never hear it: nobody but 5 has it.
        self.assertEqual(self.rows(lines, "longer", [(4, 5)], "--rov", "3"), {(4, 5): [0, 4, 0, 0, 4, 0]})
        # 1 and 2 hear it no more; what 6 refuses of 3 it does not hear of 2.
        self.assertEqual(self.rows(lines, "longer", [(4, 5)], "--rov", "1,6"), {(4, 5): [1, 3, 0, 1, 3, 0]})
        # 6 leaks 2's route to 3, which prefers it: 3 and 5 pass 6 now.
        self.assertEqual(self.rows(lines, "leak", [(4, 6)]), {(4, 6): [2, 2, 0, 2, 2, 0]})
        # The path of the leak, 6 2 4, holds no AS without a provider: a peerlock lets it pass.
        self.assertEqual(self.rows(lines, "leak", [(4, 6)], "--peerlock", "3"), {(4, 6): [2, 2, 0, 2, 2, 0]})
        # The leak of 6 from 3 of what that has of 1 holds 1. 2 is nearer to 4, and keeps its customer's.
        self.assertEqual(self.rows(lines + ["7|1|-1", "7|8|-1"], "leak", [(8, 6)]), {(8, 6): [2, 4, 0, 2, 4, 0]})
        self.assertEqual(self.rows(lines + ["7|1|-1", "7|8|-1"], "leak", [(8, 6)], "--peerlock", "3"), {(8, 6): [0, 6, 0, 0, 6, 0]})
