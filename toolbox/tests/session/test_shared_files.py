"""What a shared network keeps: its log and notes are its owner's alone, checked when they are read, and bounded."""
import errno
import os
import stat
import unittest.mock

from bgptools.program import process
from bgptools.program.mistakes import Mistake
from bgptools.session import meter
from bgptools.session.commands import check_line
from bgptools.session.log import Unkept
from bgptools.session.shared_network import Shared
from common import refused_something, tool
from held import TWO, Held


class Owned(Held):
    """Needs a system with owners and modes."""

    def mode(self, path):
        """The mode of a file, of its nine bits."""
        return stat.S_IMODE(os.stat(str(path)).st_mode)

    def notes(self):
        """The file of notes."""
        return self.folder / "net.log.seats"

    def test_both_files_are_their_owners_whatever_the_mask(self):
        old = os.umask(0)
        try:
            shared, _ = self.shared(*TWO)
            made = os.listdir(str(self.folder))
        finally:
            os.umask(old)
        self.assertEqual((self.mode(self.log), self.mode(self.notes())), (0o600, 0o600))
        self.assertEqual(sorted(made), ["net.log", "net.log.seats"])
        shared.close()

    def test_others_who_may_read_are_told_and_may_no_more(self):
        self.shared(*TWO)[0].close()
        self.log.chmod(0o644)
        self.notes().chmod(0o666)
        told = []
        again, _ = self.shared(tell=told.append)
        self.assertEqual((self.mode(self.log), self.mode(self.notes())), (0o600, 0o600))
        self.assertEqual(told, ["%s: others may read or write it (mode %s): from now on its owner alone may" % each
                                for each in ((self.log, "0644"), (self.notes(), "0666"))])
        again.close()
        told.clear()
        self.shared(tell=told.append)
        self.assertEqual(told, [])

    def test_a_file_of_that_name_in_the_way_of_new_notes(self):
        """A link that somebody put there is not written through."""
        self.shared(*TWO)[0].close()
        mine = self.file("mine", "mine")
        (self.folder / "net.log.seats.part").symlink_to(mine)
        self.shared()
        self.assertEqual(mine.read_text(), "mine")

    def test_what_is_no_regular_file_is_refused_at_once(self):
        os.mkfifo(str(self.folder / "pipe"))
        (self.folder / "nowhere").symlink_to(self.folder / "none")
        for path, why in (("pipe", "it is a pipe: a regular file"), (".", "it cannot be opened: Is a directory"),
                          ("/dev/full", "it is a device: a regular file"), ("/dev/null", "it is a device"),
                          ("nowhere", "it is a link to a file that is not there"),
                          ("no/folder", "it cannot be opened: No such file"), ("a\0b", "it cannot be opened: ")):
            with self.subTest(path=path):
                self.assertRaisesRegex(Mistake, why, Shared, os.path.join(str(self.folder), path))
        self.assertFalse((self.folder / "none").exists())

    def test_notes_that_are_no_regular_file(self):
        os.mkfifo(str(self.notes()))
        self.assertRaisesRegex(Mistake, "net.log.seats: it is a pipe", Shared, str(self.log))
        self.notes().unlink()
        self.notes().mkdir()
        self.assertRaisesRegex(Mistake, "net.log.seats: it is a folder", Shared, str(self.log))

    def test_a_link_to_a_file_of_ones_own_is_followed(self):
        self.shared(*TWO)[0].close()
        link = self.folder / "link"
        link.symlink_to(self.log)
        again = Shared(str(link))
        self.addCleanup(again.close)
        self.assertEqual(again.ledger.entries, 4)

    def test_a_link_to_the_file_of_another_user(self):
        self.shared(*TWO)[0].close()
        link = self.folder / "link"
        link.symlink_to(self.log)
        with unittest.mock.patch("os.geteuid", lambda: os.getuid() + 1):
            self.assertRaisesRegex(Mistake, "link: it is a link to the file of another user", Shared, str(link))

    def test_a_log_that_may_not_be_written(self):
        self.shared(*TWO)[0].close()
        self.log.chmod(0o400)
        with refused_something(self.folder):
            self.assertRaisesRegex(Mistake, "it cannot be opened: Permission denied", Shared, str(self.log))

    def test_a_disk_that_is_full_is_named(self):
        """/dev/full refuses each write, and to be cut as well."""
        for name in ("log", "notes"):
            with self.subTest(name=name):
                shared, anna = self.shared(*TWO)
                kept = getattr(shared.ledger, name)
                before = self.log.read_bytes()
                kept.file.close()
                kept.file = open("/dev/full", "r+b", buffering=0)
                with self.assertRaisesRegex(Unkept, "it cannot be written: " + os.strerror(errno.ENOSPC)):
                    with shared.guarded():
                        shared.calling.calls([(anna, "metric 1.0.0.1 2.0.0.1 5")])
                self.assertEqual(self.log.read_bytes(), before)
                shared.close()
                self.log.unlink()
                self.notes().unlink()


class Told(Held):
    def test_the_tool_ends_with_status_2_at_once(self):
        """And leaves what is there as it is."""
        os.mkfifo(str(self.folder / "pipe"))
        (self.folder / "folder").mkdir()
        for log, why in (("pipe", "it is a pipe"), ("folder", "it cannot be opened: Is a directory"),
                         ("/dev/full", "it is a device")):
            with self.subTest(log=log):
                path = os.path.join(str(self.folder), log)
                ran = tool("share", "--at", self.folder / "socket", "--log", path, status=2)
                self.assertEqual((ran.stdout, ran.stderr.count("\n")), ("", 1))
                self.assertTrue(ran.stderr.startswith("%s: %s" % (path, why)), ran.stderr)
        self.assertEqual(sorted(os.listdir(str(self.folder))), ["folder", "pipe"])

    def test_odd_notes_are_a_mistake_with_file_and_line(self):
        notes = self.file("net.log.seats", "[" * 24000 + "\n")
        notes.chmod(0o600)
        ran = tool("share", "--at", self.folder / "socket", "--log", self.log, status=2)
        self.assertRegex(ran.stderr, "^.*/net.log.seats:1: a note of a log is expected, [^\n]*\n$")


class Notes(Held):
    def refused(self, line):
        """What is said of notes in which this line is the second one."""
        path = self.folder / "net.log.seats"
        path.write_bytes(b'{"seat": 0, "name": "the script"}\n' + line + b"\n")
        with self.assertRaises(Mistake) as found:
            Shared(str(self.log))
        return str(found.exception).replace(str(self.folder) + os.sep, "")

    def test_a_note_that_is_none(self):
        for line in (b"no note", b"[]", b"7", b"\xff\xfe", b"{}", b"", b"[" * 20000, b'{"a":' * 4000,
                     b'{"seat": 1, "entry": 1}', b'{"seat": 1}\x00', "{\"seat\": \u0661}".encode(),
                     b"[" * 24000 + b"]" * 24000):
            with self.subTest(line=line[:20]):
                expected = "^net.log.seats:2: (a note of a log is expected|a line of more than)"
                self.assertRegex(self.refused(line), expected)

    def test_a_value_that_cannot_be(self):
        for line, why in (
                (b'{"seat": 256}', "`seat` has to be a seat, 0 to 255"), (b'{"seat": -1}', "`seat` has to be"),
                (b'{"seat": true}', "`seat` has to be"), (b'{"seat": 1.0}', "`seat` has to be"),
                (b'{"seat": 1, "name": "two words"}', "`name` has to be"),
                (b'{"seat": 1, "name": "\\ud800"}', "`name`"),
                (b'{"seat": 1, "name": "a\\u202e"}', "`name` has to be"),
                (b'{"seat": 1, "name": 5}', "`name` has to be"),
                (b'{"seat": 1, "name": "anna", "token": "aa"}', "`token` has to be 64 hexadecimal digits"),
                (b'{"entry": 0}', "`entry` has to be"), (b'{"entry": 1e400}', "`entry` has to be"),
                (b'{"entry": 1, "at": 1e400}', "`at` has to be a time"), (b'{"entry": 1, "at": NaN}', "`at` has to be"),
                (b'{"entry": 1, "at": -1}', "`at` has to be"), (b'{"entry": 1, "at": 1e13}', "`at` has to be"),
                (b'{"entry": 1, "at": "1"}', "`at` has to be"), (b'{"entry": 1, "by": 256}', "`by` has to be a seat"),
                (b'{"entry": 1, "undoes": 1}', "`undoes` has to be true or false"),
                (b'{"entry": 1, "name": "anna"}', "`name` has no place beside `entry`"),
                (b'{"router": "# name 1.0.0.1 a\\u20ac"}', "`router` has to be a comment that names"),
                (b'{"router": "# name 1.0.0.1 a\\nquiet"}', "`router` has to be"),
                (b'{"router": "# a comment"}', "`router` has to be"), (b'{"router": []}', "`router` has to be"),
                (b'{"back": 1}', "`behind` is missing beside `back`"),
                (b'{"seat": 0, "name": "anna"}', "seat 0 is that of the script, and cannot be that of anna, too"),
                (b'{"seat": 1, "name": "the script"}', "the script has seat 0, and cannot have another one")):
            with self.subTest(line=line):
                found = self.refused(line)
                self.assertRegex(found, "^net.log.seats:(2:)? ")
                self.assertIn(why, found)

    def test_notes_of_an_older_log(self):
        """Those that have no tokens, and do not say where routers were named."""
        shared, anna = self.shared(*TWO)
        shared.close()
        (self.folder / "net.log.seats").write_text(
            '{"seat": 0, "name": "the script"}\n{"seat": 1, "name": "anna"}\n{"entry": 1, "at": 5.5}\n'
            '{"router": "# name 1.0.0.1 west"}\n{"entry": 2, "at": 6, "by": 0, "undoes": true}\n')
        again = Shared(str(self.log))
        self.addCleanup(again.close)
        self.assertEqual((again.enter("anna").seat, again.run.network.names.of), (anna, {"1.0.0.1": "west"}))
        self.assertEqual([each["at"] for each in again.blame("1.0.0.1")], [5.5, None, None])
        self.assertEqual(again.run.lines[-1], "# name 1.0.0.1 west")

    def test_where_a_router_was_named_it_is_named_again(self):
        """Each step has its line after a start, too."""
        shared, anna = self.shared()
        for line in ("# name 1.0.0.1 before", "router 1.0.0.1 1", "router 2.0.0.1 2"):
            self.said(shared, anna, line)
        lines = ("# name 1.0.0.1 one", "link 1.0.0.1 2.0.0.1 1", "quiet", "# name 2.0.0.1 two", "# name 1.0.0.1 first",
                 "join 1.0.0.1 2.0.0.1")
        for line in lines:
            self.said(shared, anna, line)
        before = list(shared.run.lines)
        self.assertEqual(before[3:], [line for line in lines if line != "quiet"])
        for _ in range(2):
            shared.close()
            shared, anna = self.shared()
            self.assertEqual(shared.run.lines, before)
        self.assertEqual(self.ended(shared), "ok 5")


class Texts(Held):
    WRONG = ("quiet\nquiet", "quiet x\nquiet", "quiet \u20ac", "x" * 65537, "quiet\x1b[2J", "quiet\0", "qu\x7fiet",
             "quiet\r",
             "quiet \ud800")

    def test_a_text_that_is_no_line_changes_nothing(self):
        shared, anna = self.shared(*TWO)
        run, log, told = shared.run.program.process.pid, self.log.read_bytes(), shared.happening
        told.taken()
        words = {"ask": lambda line: shared.program.ask(["quiet", line]),
                 "asked": lambda line: shared.program.asked([check_line(line)]),
                 "blame": shared.blame, "enter": shared.enter,
                 "propose": lambda line: shared.proposals.propose(anna, "a change", ["quiet", line]),
                 "token": lambda line: shared.enter("anna", line), "free": shared.free}
        for name, word in words.items():
            for line in self.WRONG:
                with self.subTest(name=name, line=line[:20]):
                    self.assertRaises(Mistake, word, line)
        for line in self.WRONG:
            with self.subTest(line=line[:20]):
                answers = shared.calling.calls([(anna, line), (anna, "# " + line), (anna, "# name 1.0.0.1 " + line)])
                self.assertTrue(all(answer.error for answer in answers))
        self.assertEqual((told.taken(), self.log.read_bytes()), ([], log))
        self.assertEqual(shared.run.program.process.pid, run)
        self.assertEqual(self.said(shared, anna, "quiet"), ["yes"])

    def test_the_name_of_a_proposal_can_be_shown(self):
        shared, anna = self.shared(*TWO)
        made = shared.proposals.propose(anna, "a\x1b[2J\ud800\n" + "b" * 200, ["quiet"])
        self.assertTrue(made.name.isprintable())
        self.assertEqual((made.name[:12], len(made.name)), ("a\\x1b[2J\\ud8", 80))

    def test_a_program_alone_takes_no_line_that_is_none(self):
        """Before anything is written: the next line has its own reply."""
        with process.Program() as made:
            for line in ("quiet\nquiet", "quiet \u20ac", "x" * 65537):
                self.assertRaises(Mistake, made.say_all, ["quiet", line])
            self.assertEqual(made.say("quiet"), ["yes"])


class Bounds(Held):
    def test_a_log_that_has_its_bytes(self):
        """Questions are written up to three quarters, changes to the end; then questions alone are answered."""
        shared, anna = self.shared(*TWO, workers=1, most_log=20000)
        shared.happening.taken()
        for number in range(200):
            answers = shared.calling.calls([(anna, "quiet"), (anna, "metric 1.0.0.1 2.0.0.1 %d" % (number + 1))] * 2)
        self.assertEqual([each.reply for each in answers], [["yes"], [], ["yes"], []])
        why = "nothing can be changed any more"
        self.assertRegex(answers[1].error, "^the log has [0-9,]+ bytes of at most 20,000: %s, " % why)
        size = self.log.stat().st_size + (self.folder / "net.log.seats").stat().st_size
        self.assertEqual(size, shared.ledger.size)
        self.assertTrue(19500 < size <= 20000, size)
        told = [event["text"] for event in shared.happening.taken() if event["event"] == "told"]
        self.assertRegex(told[0], "^the log has [0-9]+ lines: from here on changes alone stand in it$")
        self.assertEqual(len(told), 1)
        hands = shared.deliveries
        for word in (hands.next, hands.go, lambda seat: hands.steps(seat, 1), shared.undo):
            self.assertRaisesRegex(Mistake, why, word, anna)
        self.assertIn("bytes of at most", shared.calling.calls([(anna, "# name 1.0.0.1 west")])[0].error)
        self.assertEqual(shared.run.network.names.of, {})
        self.assertEqual(shared.program.ask(["cost 1.0.0.1 2.0.0.1"])[0][0][-12:], " via 2.0.0.1")
        before = list(shared.run.lines)
        self.assertRegex(self.ended(shared), "^ok ")
        again, _ = self.shared(most_log=20000)
        self.assertEqual(again.run.lines, before)

    def test_questions_are_written_up_to_three_quarters(self):
        shared, anna = self.shared(*TWO, most_log=40000)
        for _ in range(3000):
            self.said(shared, anna, "quiet")
        self.assertTrue(29900 < shared.ledger.size <= 30000, shared.ledger.size)
        self.assertEqual(self.said(shared, anna, "metric 1.0.0.1 2.0.0.1 5"), ["ok"])
        self.assertEqual(self.log.read_text().split("\n")[-3:], ["@1 metric 1.0.0.1 2.0.0.1 5", "= ok", ""])

    def test_lines_at_once_that_are_more_together_than_there_is_room(self):
        shared, anna = self.shared(*TWO, most_log=20000)
        lines = ["metric 1.0.0.1 2.0.0.1 %d" % (number + 1) for number in range(500)]
        errors = [bool(answer.error) for answer in shared.calling.calls((anna, line) for line in lines)]
        self.assertEqual(errors, sorted(errors))
        self.assertTrue(0 < errors.count(False) < 500)
        self.assertLessEqual(shared.ledger.size, 20000)

    def test_workers_pause_where_a_log_has_its_bytes_which_is_told_once(self):
        shared, anna = self.shared(*TWO, "origin 1.0.0.1 10.0.0.0/8", workers=1)
        shared.ledger.most_log = shared.ledger.size
        shared.happening.taken()
        self.converged(shared)
        self.converged(shared)
        told = [event["text"] for event in shared.happening.taken()]
        self.assertEqual(len(told), 1)
        self.assertRegex(told[0], "^the workers pause: the log has .* bytes of at most ")
        self.assertEqual(shared.program.waiting(), [("1.0.0.1", "2.0.0.1")])

    def test_a_name_is_a_line_of_the_network_too(self):
        """Where one run holds no more lines, no router is named any more."""
        with unittest.mock.patch("bgptools.program.line_count.MOST_LINES", 10):
            shared, anna = self.shared(*TWO)
            answers = [shared.calling.calls([(anna, "# name 1.0.0.1 a%d" % number)])[0] for number in range(10)]
        self.assertEqual([answer.error[:6] for answer in answers], [""] * 6 + ["10 lin"] * 4)

    def test_what_was_written_for_a_seat_in_the_last_minute(self):
        shared, anna = self.shared(*TWO)
        ben = self.enter(shared, "ben")
        times = [1000.0]
        shared.ledger.even = lambda: times[0]
        question, edit = b"@2 quiet\n= yes\n", b"@2 metric 1.0.0.1 2.0.0.1 7\n= ok\n"
        for now, line in ((1000.0, "quiet"), (1030.5, "metric 1.0.0.1 2.0.0.1 7"), (1059.9, "nonsense")):
            times[0] = now
            self.said(shared, ben, line)
        written = [shared.ledger.written(ben, now) for now in (1059.9, 1060.0, 1089.9, 1090.0, 5000.0)]
        self.assertEqual(written, [len(question + edit), len(edit), len(edit), 0, 0])
        self.assertEqual(shared.ledger.written(200), 0)

    def test_a_meter_counts_by_the_second(self):
        """Against a list of all that came, with a clock that stands, leaps and is behind."""
        made, all_that_came = meter.Meter(), []
        times = (0, 0.5, 1, 59.9, 60, 60.1, 61, 200, 199, 230, 259.99, 260, 1e9, 1e9 + 59, 1e9 + 60)
        for number, now in enumerate(times):
            made.add(now, number + 1)
            all_that_came.append((max([int(now)] + [second for second, _ in all_that_came]), number + 1))
            last = all_that_came[-1][0]
            self.assertEqual(made.total(now), sum(count for second, count in all_that_came if second > last - 60))
        self.assertEqual(len(made.counts), 60)
