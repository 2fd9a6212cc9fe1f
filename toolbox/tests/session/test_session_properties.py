"""What holds of everything that people do in a shared network: edits that are undone leave nothing, logs and journals
that are cut off have what was whole, and requests are read as they are written."""
import io
import json
import os
import unittest
import unittest.mock

from hypothesis import assume, given, strategies

from bgptools import Network
from bgptools.program.mistakes import Mistake
from bgptools.program.replies import refusal
from bgptools.session import journal, log, requests
from common import Case
from held import Held
from strategies import addresses, commands, few

BASE = ("router 1.0.0.1 1", "router 1.0.0.2 1", "link 1.0.0.1 1.0.0.2 5", "join 1.0.0.1 1.0.0.2", "router 2.0.0.1 2",
        "link 1.0.0.1 2.0.0.1 1", "join 1.0.0.1 2.0.0.1", "virtual 7.0.0.1 7", "link 1.0.0.2 7.0.0.1 1",
        "join 1.0.0.2 7.0.0.1", "origin 2.0.0.1 10.0.0.0/8", "feed 7.0.0.1 1.0.0.2 update 10.0.0.0/8 7 igp -")
# Edits, those of one thing together.
EDITS = (
    ("metric 1.0.0.1 1.0.0.2 9", "metric 1.0.0.2 1.0.0.1 5"), ("fail 1.0.0.1 1.0.0.2", "mend 1.0.0.1 1.0.0.2"),
    ("fail 2.0.0.1 1.0.0.1", "mend 1.0.0.1 2.0.0.1", "stop 1.0.0.1 2.0.0.1", "start 1.0.0.1 2.0.0.1"),
    ("origin 1.0.0.1 10.1.0.0/16", "noorigin 1.0.0.1 10.1.0.0/16"),
    ("noorigin 2.0.0.1 10.0.0.0/8", "origin 2.0.0.1 10.0.0.0/8"),
    ("client 1.0.0.1 1.0.0.2 on", "client 1.0.0.1 1.0.0.2 off"),
    ("self 1.0.0.2 1.0.0.1 on", "self 1.0.0.2 1.0.0.1 off"),
    ("cluster 1.0.0.1 9.9.9.9", "cluster 1.0.0.1 8.8.8.8"), ("med 1.0.0.1 always", "med 1.0.0.1 as"),
    ("rule 1.0.0.1 2.0.0.1 in any deny", "clear 1.0.0.1 2.0.0.1 in"),
    ("rule 1.0.0.2 7.0.0.1 in any permit pref=5", "clear 1.0.0.2 7.0.0.1 in"),
    ("feed 7.0.0.1 1.0.0.2 withdraw 10.0.0.0/8", "feed 7.0.0.1 1.0.0.2 update 10.0.0.0/8 7,8 egp -",
     "feed 7.0.0.1 1.0.0.2 update 10.2.0.0/16 7,9 igp 5", "stop 1.0.0.2 7.0.0.1", "start 1.0.0.2 7.0.0.1"))
# Some of one thing or two, so that edits meet.
_edits = strategies.lists(strategies.sampled_from(EDITS), min_size=1, max_size=2).flatmap(
    lambda some: strategies.lists(strategies.sampled_from(sum(some, ())), min_size=1, max_size=6))


def converged(lines):
    """What a network of these lines is once its queues are empty."""
    with Network.from_lines(lines) as net:
        net.converge()
        known = net.run.network
        policies = {way: list(rules) for way, rules in known.rules.items() if rules}
        clusters = {where: known.clusters.get(where, where) for where in known.nodes}
        settings = sorted(known.clients), sorted(known.selves), sorted(known.med_always), clusters, policies
        return net.links(), net.sessions(), net.table(), settings


class Undone(Held):
    @few
    @given(_edits)
    def test_edits_that_are_undone_leave_nothing(self, edits):
        """Each in its turn, the last one first, as far as they can be undone exactly; and the log is one that `replay`
        finds to agree."""
        for path in self.folder.glob("net.log*"):
            path.unlink()
        self.tokens.clear()
        shared, anna = self.shared(*BASE)
        kept = [edit for edit in edits if not refusal(self.said(shared, anna, edit))]
        said = list(BASE) + kept
        while kept:
            try:
                told = shared.undo(anna)
            except Mistake as mistake:
                self.assertIn("cannot be undone exactly", str(mistake))
                break
            self.assertTrue(told.startswith("undone: " + kept.pop()), told)
            said += [told.partition(", by `")[2][:-1]] if ", by `" in told else []
            self.assertEqual(converged(said), converged([*BASE, *kept]))
        self.assertRegex(self.ended(shared), "^ok ")


# Entries of a log: a command of a seat, and a reply that is whole.
_entries = strategies.builds(
    log.Entry, strategies.integers(0, 255), commands().filter(lambda line: line.split(" ")[0] not in log.REPORTS),
    strategies.sampled_from((["ok"], ["refused 2 no-router"], ["none"]))) | strategies.builds(
        log.Entry, strategies.integers(0, 255), addresses.map("routes ".__add__),
        strategies.lists(strategies.just("10.0.0.0/8 from self path=-"), max_size=3).map(lambda each: [*each, "end 1"]))


class Logs(unittest.TestCase):
    @given(strategies.lists(_entries, max_size=5), strategies.data())
    def test_a_log_that_is_cut_off_has_its_whole_entries(self, entries, data):
        head = (log.HEADER + "\n").encode()
        content = head + log.text_of(entries)
        ends = [len(head + log.text_of(entries[:count])) for count in range(len(entries) + 1)]
        cut = data.draw(strategies.integers(0, len(content)) | strategies.sampled_from(ends))
        reading = log.Reading(io.BytesIO(content[:cut]), "a log")
        found = [(each.seat, each.line, each.reply) for each in reading.entries()]
        count = sum(end <= cut for end in ends[1:])
        self.assertEqual(found, [(each.seat, each.line, each.reply) for each in entries[:count]])
        self.assertEqual((reading.whole, bool(reading.cut)), (ends[count], cut > ends[count]) if cut >= ends[0] else
                         (0, cut > 0))


class Journals(Case):
    @given(strategies.lists(commands() | addresses.map("# name {} x".format), min_size=1, max_size=6),
           strategies.data())
    def test_a_journal_that_is_cut_off_has_its_whole_lines(self, lines, data):
        told = []
        with unittest.mock.patch.dict(os.environ, {"XDG_STATE_HOME": str(self.folder)}):
            made = journal.Journal(told.append)
            made.replace(lines[:1])
            for line in lines[1:]:
                made.add(line)
        made.file.close()
        content = made.path.read_bytes()
        cut = data.draw(strategies.integers(0, len(content)))
        made.path.write_bytes(content[:cut])
        again = journal.Journal(told.append)
        found = [line.text for line in again.take_up(made.path)]
        self.assertEqual(found, lines[:content[:cut].count(b"\n")])
        self.assertEqual(len(told), 0 if content[:cut].endswith(b"\n") or not cut else 1)
        again.remove()


def texts(longest):
    """Texts that a request may have."""
    kept = strategies.characters(blacklist_categories=("Cc", "Cs", "Zl", "Zp"))
    return strategies.text(kept, max_size=min(longest, 20))


_counts = strategies.integers(0, requests.NUMBERS)
# What each field of a request may be.
FIELDS = {"as": texts(80), "token": strategies.none() | texts(64), "line": texts(99), "from": _counts,
          "what": strategies.sampled_from(("all", "edits", "off")), "router": texts(64), "name": texts(80),
          "a_second": strategies.none() | strategies.integers() | strategies.floats(allow_nan=False,
                                                                                    allow_infinity=False),
          "count": strategies.integers(0, requests.STEPS), "lines": strategies.lists(texts(99), max_size=4),
          "number": strategies.none() | _counts, "edits": strategies.none() | _counts, "prefix": texts(64),
          "step": strategies.none() | _counts, "way": strategies.none() | strategies.lists(texts(64), min_size=2,
                                                                                           max_size=2)}


@strategies.composite
def _requests(draw):
    word = draw(strategies.sampled_from(sorted(requests.FIELDS)))
    numbers = strategies.integers(1 - (1 << 63), (1 << 63) - 1)
    made = {"id": draw(strategies.none() | numbers | texts(64)), "do": word}
    for name, field in requests.FIELDS[word].items():
        if field.is_needed or draw(strategies.booleans()):
            made[name] = draw(FIELDS[name])
    return made


_json = strategies.recursive(
    strategies.none() | strategies.booleans() | strategies.integers() | strategies.floats() | strategies.text(
        max_size=5), lambda inner: strategies.lists(inner, max_size=3) | strategies.dictionaries(
            strategies.sampled_from(["id", "do", *FIELDS]), inner, max_size=4), max_leaves=8)


class Requests(unittest.TestCase):
    @given(_requests())
    def test_a_request_is_read_as_it_is_written(self, request):
        self.assertEqual(requests.request_in(json.dumps(request).encode()), request)

    @given(_requests(), strategies.sampled_from(["id", "do", "odd", *FIELDS]), _json)
    def test_a_request_with_another_field_is_a_request_or_malformed(self, request, name, value):
        """And so whatever the value is; a field that the word has not is refused."""
        changed = {**request, name: value}
        try:
            found = requests.request_in(json.dumps(changed).encode())
        except requests.Malformed as wrong:
            self.assertTrue(str(wrong))
            assume(name in requests.FIELDS.get(request["do"], {}))
            self.assertFalse(requests.FIELDS[request["do"]][name].fits(value) and requests.depth_of(changed) < 9)
        else:
            self.assertIn(name, {"id", "do", *requests.FIELDS[found["do"]]})
            self.assertEqual(found, changed)

    @given(strategies.binary(max_size=30) | strategies.text(max_size=30).map(str.encode) | _json.map(
        lambda value: json.dumps(value).encode()))
    def test_any_bytes_are_a_request_or_malformed(self, line):
        try:
            found = requests.request_in(line)
        except requests.Malformed as wrong:
            self.assertTrue(str(wrong))
        else:
            self.assertIn(found["do"], requests.FIELDS)
