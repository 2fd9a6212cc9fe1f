"""Attacks on share and lab. docs/reference/attacks.csv has a row for each."""
import contextlib
import csv
import json
import os
import pathlib
import re
import resource
import signal
import socket
import subprocess
import sys
import threading
import time
import unittest

from attack_values import ODD_IDS, ODD_NOTES, WORDS, WORKER_ENVIRONMENT, prefixes
from attackers import (SOON, TWO, Attack, Until, Watch, answers, asked, entries, more_files, one_status, readable,
                       soon, statuses)
from bgptools.cli.share import parser
from bgptools.program.mistakes import Mistake
from bgptools.session.lifecycle import opened
from common import PATIENCE, TOOLBOX, TOP
from http_attacks import get, odd_heads, odd_targets, post, smuggled


class Proposed(Attack):
    """What a proposal is named, and what is in its lines."""

    def tree(self):
        """All files below the test's folder, but for what the server has to write."""
        return {str(path.relative_to(self.folder)) for path in self.folder.rglob("*")
                if path.name not in ("seen", "socket.log", "socket.log.seats")}

    def test_a_name_of_a_module_runs_nothing(self):
        """Python in the lines of proposals that are named as modules: nothing runs, and nothing is written."""
        marker, seen = self.folder / "marker", self.folder / "seen"
        code = "import pathlib; pathlib.Path(%r).write_text('here')" % str(marker)
        program = self.slow('(env; echo "CWD=$(pwd)") >> %s' % seen, 0)
        server = self.share(self.file("net.bgp", "\n".join(TWO)), PROGRAM=program, SECRET_OF_SERVER="s3cret",
                            PYTHONPATH=str(self.folder))
        anna = self.join(server, "anna")
        seen.write_text("")
        before = self.tree()
        for name in ("bgptools.py", "json.py", "sitecustomize.py", "usercustomize.py", "encodings.py", "../x",
                     "../../cwd/json.py", str(self.folder / "x"), "__main__.py", "bgptools/__init__.py", "x.pth"):
            for lines in ([code, "fail 1.0.0.1 2.0.0.1"], ["# " + code, "fail 1.0.0.1 2.0.0.1"]):
                with self.subTest(name=name, lines=lines):
                    told = anna.ask("propose", name=name, lines=lines)
                    if lines[0] == code:
                        self.assertRegex(told["error"], r"refused 1 |control characters")
                    else:
                        self.assertIn("Sessions that went down\n  1.0.0.1 and 2.0.0.1\n", told.get("text", told))
                        anna.ask("decline", number=told["number"])
                    self.assertFalse(marker.exists())
        self.assertEqual(self.tree(), before)
        given = dict(line.split("=", 1) for line in seen.read_text().splitlines() if "=" in line)
        self.assertEqual(set(given) - {"CWD"} - WORKER_ENVIRONMENT, set())
        self.assertIn("BGPSIM_JOB", given)
        # Its working directory is gone, or an empty one of its own.
        self.assertFalse(given["CWD"].startswith(str(TOP)) or (pathlib.Path(given["CWD"]) / "json.py").exists())
        self.assert_well(server, anna)

    def test_odd_names_of_proposals_are_refused_or_harmless(self):
        """The what-if is that of the lines, whatever the name is; no answer shows a path of the server."""
        server = self.share(self.file("net.bgp", "\n".join(TWO)))
        anna = self.join(server, "anna")
        good, bad = ["fail 1.0.0.1 2.0.0.1"], ["fail 1.0.0.1 9.9.9.9"]
        wanted = anna.ask("propose", name="usual", lines=good)["text"]
        self.assertIn("Sessions that went down\n", wanted)
        anna.ask("decline")
        for name in ("network.bgp", "proposed.change", "--help", "-", "--", "", ".", "..", "/", "~", "$HOME", "%s%n",
                     "n" * 80, "\u202e", "caf\u00e9 \udce9", "n" * 10000, "a\nb", "a\0b", "a\rb", "\x1b[2J", "\ud800",
                     "a\u2028b"):
            with self.subTest(name=name[:20]):
                told = anna.ask("propose", name=name, lines=good)
                if "error" in told:
                    self.assertIn("`name` of the request `propose` is expected to be a text of at most 80",
                                  told["error"])
                else:
                    self.assertEqual(told["text"], wanted)
                    anna.ask("decline")
                    failed = anna.ask("propose", name=name, lines=bad)
                    self.assertIn("refused 2 no-router", failed["error"])
                    told.update(failed)
                for secret in (str(TOP), str(self.folder), "/tmp", ".py", "Traceback"):
                    self.assertNotIn(secret, json.dumps(told))
        self.assert_well(server, anna)

    def test_clicks_on_accept_of_a_stale_proposal_show_it_once(self):
        """Sixty-four of them, over sixteen connections: at most two what-ifs run, and it is shown once more."""
        server = self.share(self.file("net.bgp", "\n".join(TWO)), PROGRAM=self.slow())
        anna = self.join(server, "anna")
        others = [self.join(server, "p%d" % number) for number in range(16)]
        made = anna.ask("propose", name="x", lines=["metric 1.0.0.1 2.0.0.1 5"])
        edits = others[0].until("proposal").get("edits")
        self.assertEqual(others[0].call("metric 1.0.0.1 2.0.0.1 9"), ["ok"])
        for each in others:
            for _ in range(4):
                each.send("accept", number=made["number"], edits=edits)
        most = 0
        with Until(lambda: [answers(each, 4) for each in others]) as told:
            while told.is_waiting(0.02):
                most = max(most, server.workers())
        told = [each.get("error", "accepted") for some in told.found for each in some]
        self.assertEqual(len(told), 64)
        self.assertEqual(set(told) - {"the network was edited since proposal 1 was shown: it is shown again",
                                      "the network was edited since proposal 1 was shown: it is being shown again",
                                      "proposal 1 was shown anew since you saw it: look at it again"}, set())
        self.assertIn(most, (1, 2))
        anna.ask("who")
        # The first one is her own, when it was proposed.
        self.assertEqual([each["event"] for each in anna.events].count("proposal"), 2)
        self.assertEqual(len(entries(self.folder / "socket.log", anna.seat)), 0)
        self.assert_well(server, anna, *others)


class Asked(Attack):
    """Requests that nobody makes."""

    def test_odd_ids_end_their_own_request_alone(self):
        """By both transports and at any moment: an error for that one, and the others go on."""
        lab = self.lab(self.file("net.bgp", "\n".join(TWO)))
        anna, page = self.join(lab, "anna"), self.page(lab, "ben")
        token = self.join(lab, "new").token
        for odd in ODD_IDS:
            with self.subTest(id=odd[:20]):
                line = b'{"id": %s, "do": "who"}' % odd.encode()
                new = self.join(lab)
                for _ in range(2):
                    new.line.sendall(line + b"\n")
                    self.assertIn("error", new.hear())
                self.assertIn("seat", new.ask("enter", **{"as": "new", "token": token}))
                anna.line.sendall(line + b"\n")
                told = anna.hear()
                while "event" in told:
                    told = anna.hear()
                self.assertEqual((told["id"], "error" in told), (None, True))
                if len(line) < 65536:
                    self.assertEqual(lab.post(page.page, line, lab.keys["to work"]), 200)
                    self.assertIn("error", page.until(lambda told: "id" in told and told["id"] is None))
        self.assertEqual(page.ask("call", line="quiet")["reply"], ["yes"])
        self.assert_well(lab, anna)

    def test_a_line_with_a_line_feed_or_too_many_bytes_restarts_nothing(self):
        """The shared program has the number that it had, and others are answered."""
        server = self.share(self.file("net.bgp", "\n".join(TWO)))
        anna, ben = self.join(server, "anna"), self.join(server, "ben")
        program = server.program()
        for line in ("quiet\nquiet", "quiet\n", "\nquiet", "quiet\r\nquiet", "quiet\0", "quiet\x0b", "quiet\x85",
                     "quiet\u2028quiet", "x" * 65536, "x" * 65537, "routes " + "1" * 70000, "\u00e9" * 40000, "\ud800",
                     "quiet " * 100000, "# name 1.0.0.1 a\nquiet", "trace 1.0.0.1 \n1.0.0.1"):
            for do, more in (("ask", {"line": line}), ("call", {"line": line}),
                             ("propose", {"name": "x", "lines": [line]})):
                with self.subTest(do=do, line=line[:20]):
                    sent = anna.send(do, **more)
                    watch = Watch(server)
                    self.assertEqual(ben.call("quiet"), ["yes"])
                    self.assertLess(watch.seconds(), SOON)
                    told = anna.answer(sent)
                    self.assertTrue("error" in told or told["reply"][0].startswith("refused 1 "), told)
        self.assertEqual(server.program(), program)
        self.assertNotIn(b"quiet\nquiet", (self.folder / "socket.log").read_bytes())
        self.assert_well(server, anna, ben)


class OverHttp(Attack):
    """Requests of HTTP that no browser sends: a defined answer, nothing in the log, no fault."""

    def attacked(self, made):
        """Sends each of the requests that are made for a lab and the key of a page."""
        lab = self.lab(self.file("net.bgp", "\n".join(TWO)))
        page = self.page(lab, "ben")
        size = (self.folder / "log").stat().st_size
        for name, content, fits in made(lab, page.page):
            with self.subTest(name=name):
                self.assertIn(statuses(lab, content, fits), fits)
                self.assertEqual((self.folder / "log").stat().st_size, size)
        self.assertEqual(page.until(lambda told: "what" in told)["what"], "all")
        page.heard.clear()
        # A request that was smuggled would have the same number.
        self.assertEqual(page.ask("call", line="quiet")["reply"], ["yes"])
        self.assertEqual([told for told in page.heard if "reply" in told or told.get("event") == "changes"], [])
        self.assertTrue(lab.is_alive())
        self.assertEqual(lab.told(), "")

    def test_smuggled_requests_do_nothing(self):
        self.attacked(smuggled)

    def test_odd_targets_hosts_methods_and_versions_are_refused(self):
        self.attacked(lambda lab, _: odd_targets(lab))

    def test_heads_and_bodies_that_are_too_long_or_odd_are_refused(self):
        self.attacked(odd_heads)

    def test_clients_that_go_in_the_midst_of_a_body_leave_nothing_behind(self):
        """Nothing that waits for the rest of it, which Python would tell of when it is thrown away."""
        lab = self.lab(self.file("net.bgp", "\n".join(TWO)))
        page = self.page(lab, "ben")
        for number in range(300):
            with lab.connected() as line:
                line.sendall(post(lab, b"{", page=page.page, length=100 + number))
        for _ in range(400):
            self.assertEqual(lab.get("forms")[0], 200)
        self.assertEqual(page.ask("call", line="quiet")["reply"], ["yes"])
        self.assertEqual(lab.told(), "")


class Kept(Attack):
    """The log and what stands beside it."""

    def refused(self, *words, is_inside=True):
        """The one line that a share tells which cannot begin: one in this process, or of its own."""
        if is_inside:
            with self.assertRaises(Mistake) as raised:
                opened(parser().parse_args(["--at", str(self.folder / "socket"), *map(str, words)]), []).close()
            told = str(raised.exception)
            self.assertEqual(told.count("\n"), 0, told)
            return told
        called = [sys.executable, "-B", str(TOOLBOX / "share"), "--at", str(self.folder / "socket"), *map(str, words)]
        ran = subprocess.run(called, capture_output=True, timeout=PATIENCE, stdin=subprocess.DEVNULL)
        self.assertEqual((ran.returncode, ran.stdout), (2, b""), ran.stderr)
        told = ran.stderr.decode()
        self.assertEqual((told.count("\n"), told[-1:]), (1, "\n"), told)
        self.assertLess(len(told), 1000)
        self.assertTrue(told.isprintable() or told[:-1].isprintable(), told)
        return told

    def test_odd_notes_beside_a_log_are_refused_in_one_line(self):
        log, notes = self.folder / "log", self.folder / "log.seats"
        log.write_text("bgpsim log 2\n@2 router 1.0.0.1 1\n= ok\n")
        log.chmod(0o600)
        for odd in ODD_NOTES:
            with self.subTest(odd=odd[:60]):
                notes.write_bytes(odd)
                notes.chmod(0o600)
                self.assertIn("log.seats", self.refused("--log", log, is_inside=odd[:1] != b"["))
                self.assertEqual(notes.read_bytes(), odd)
        self.assertEqual(log.read_text(), "bgpsim log 2\n@2 router 1.0.0.1 1\n= ok\n")

    def test_a_log_that_is_no_file_is_refused_in_one_line(self):
        os.mkfifo(self.folder / "fifo")
        (self.folder / "dir").mkdir()
        (self.folder / "dangling").symlink_to(self.folder / "nothing")
        (self.folder / "device").symlink_to("/dev/full")
        with socket.socket(socket.AF_UNIX) as made:
            made.bind(str(self.folder / "bound"))
        for name in ("fifo", "dir", "bound", "dangling", "device", "/dev/full", "/dev/null", "/dev/zero", "/dev/tty",
                     "no/such",
                     "", "x" * 300):
            with self.subTest(log=name[:20]):
                self.refused("--log", name if not name or name.startswith("/") else self.folder / name,
                             is_inside=name not in ("fifo", "/dev/tty", "/dev/zero"))
        (self.folder / "ok").write_text("bgpsim log 2\n")
        (self.folder / "ok").chmod(0o600)
        os.mkfifo(self.folder / "ok.seats")
        self.refused("--log", self.folder / "ok")

    def test_log_and_notes_are_for_their_owner_alone(self):
        """With no mask at all, also when they were there before and others could write them."""
        share = self.share(limits={"mask": 0})
        self.join(share, "anna").call("router 1.0.0.1 1")
        names = ("socket", "socket.log", "socket.log.seats")
        self.assertEqual([oct((self.folder / name).stat().st_mode & 0o777) for name in names], ["0o600"] * 3)
        self.assertEqual(share.end()[0], 0)
        for name in names[1:]:
            (self.folder / name).chmod(0o666)
        share = self.share("--log", self.folder / "socket.log", limits={"mask": 0})
        self.assertEqual([oct((self.folder / name).stat().st_mode & 0o777) for name in names], ["0o600"] * 3)
        self.assertEqual(share.told().count("others may read or write it"), 2)

    def test_a_link_that_was_planted_is_not_followed(self):
        """Beside the log, at each name that something may be written by first."""
        other = self.file("other", "precious\n")
        other.chmod(0o600)
        log = self.folder / "log"
        for name in ("log.seats.part", "log.part", "log.seats.tmp", "log.seats"):
            (self.folder / name).symlink_to(other)
            with contextlib.suppress(AssertionError):
                share = self.share("--log", log)
                anna = self.join(share, "anna")
                self.assertEqual(anna.call("router 1.0.0.1 1"), ["ok"])
                share.end()
            self.assertEqual(other.read_text(), "precious\n")
            for each in self.folder.glob("log*"):
                each.unlink()
        (self.folder / "log").symlink_to(other)
        self.assertIn("bgpsim log 2", self.refused("--log", log))
        self.assertEqual(other.read_text(), "precious\n")


class Loaded(Attack):
    """The disk gets full, the program dies, files are used up, while many work."""

    def writers(self, server, count=25):
        """So many people who write until the server goes: what each was answered."""
        people = [self.join(server, "p%d" % number) for number in range(count)]
        found = [[] for _ in people]

        def write(number):
            with contextlib.suppress(OSError, TypeError, KeyError, ValueError):
                person = people[number]
                for step in range(100000):
                    line = "metric 1.0.0.1 2.0.0.1 %d" % (step % 1000 + 1 + number)
                    found[number].append((line, person.ask("call", line=line)["reply"]))
        threads = [threading.Thread(target=write, args=(number,)) for number in range(count)]
        for each in threads:
            each.start()
        for each in threads:
            each.join(PATIENCE)
        return {person.seat: some for person, some in zip(people, found)}

    def assert_kept(self, log, answered):
        """Each call that was answered is in the log, with its answer."""
        self.assertGreater(sum(map(len, answered.values())), 100)
        for seat, calls in answered.items():
            there = entries(log, seat)
            self.assertEqual(there[:len(calls)], calls)
            # One more may have been written whose answer did not go out any more.
            self.assertLessEqual(len(there), len(calls) + 1)

    def full(self, tool, *words, log=None, told="", **more):
        """A server whose disk gets full while 25 write, and that ends with the true reason."""
        server = self.served(tool, self.file("net.bgp", "\n".join(TWO)), *words, **more)
        log = log or next(iter(sorted(self.folder.rglob("*.log"))))
        answered = self.writers(server)
        self.assertEqual(server.ended()[0], 2)
        self.assertIn("it cannot be written: " + told, server.told())
        self.assertNotIn("Traceback", server.told())
        self.assert_kept(log, answered)
        return server, log

    def test_a_file_of_the_largest_size_ends_a_share_with_the_reason(self):
        self.full("share", limits={"file_size": 100000}, told="File too large")

    def test_a_full_disk_ends_a_lab_with_the_reason_and_the_record_stays(self):
        place = self.folder / "small"
        place.mkdir()
        ran = subprocess.run(["mount", "-t", "tmpfs", "-o", "size=128k", "none", str(place)], capture_output=True)
        if ran.returncode:
            self.skipTest("no small file system can be mounted here")
        self.addCleanup(subprocess.run, ["umount", "-l", str(place)], check=True)
        self.full("lab", "--log", place / "log", log=place / "log", told="No space left on device")

    def test_a_lab_that_ends_so_keeps_its_record_and_says_where(self):
        """A lab that was given no place for its log."""
        server, tool = None, [sys.executable, "-B", str(TOOLBOX / "lab"), str(self.file("net.bgp", "\n".join(TWO)))]
        with open(self.folder / "stderr", "wb") as error:
            server = subprocess.Popen(tool, stdout=subprocess.PIPE, stderr=error,
                                      env=dict(os.environ, TMPDIR=str(self.folder)),
                                      preexec_fn=lambda: resource.setrlimit(resource.RLIMIT_FSIZE, (60000, 60000)))
        self.addCleanup(server.stdout.close)
        self.addCleanup(server.kill)
        line = b""
        while not line.startswith(b"`join "):
            line = server.stdout.readline()
            self.assertTrue(line)
        self.socket = line.split()[1].decode()
        answered = self.writers(self)
        self.assertEqual(server.wait(PATIENCE), 2)
        told = (self.folder / "stderr").read_text()
        found = re.search(r"the record is kept: (\S+) \(", told)
        self.assertIn("it cannot be written: File too large", told)
        self.assert_kept(pathlib.Path(found.group(1)), answered)

    def test_a_log_at_a_full_device_is_refused(self):
        ran = subprocess.run([sys.executable, "-B", str(TOOLBOX / "share"), "--at", str(self.folder / "s"), "--log",
                              "/dev/full"],
                             capture_output=True, timeout=PATIENCE)
        self.assertEqual((ran.returncode, ran.stderr.count(b"\n")), (2, 1), ran.stderr)

    def test_a_program_that_is_killed_again_and_again_is_run_anew(self):
        """Twice in a row, and ten times: calls are answered, and all that was answered is in the log."""
        share = self.share(self.file("net.bgp", "\n".join(TWO)), "--workers", 1)
        anna = self.join(share, "anna")
        done = []
        for number in range(10):
            os.kill(share.program(), signal.SIGKILL)
            if number < 2:
                told = asked(anna, "ask", line="quiet")
                self.assertTrue(isinstance(told, str) or told["reply"], told)
                os.kill(share.program(), signal.SIGKILL)
            line = "origin 1.0.0.1 10.%d.0.0/16" % number
            for _ in range(20):
                told = anna.ask("call", line=line)
                if "reply" in told:
                    break
            self.assertEqual(told["reply"], ["ok"])
            done.append((line, ["ok"]))
        self.assertEqual(entries(self.folder / "socket.log", anna.seat), done)
        # Workers under whom it died pause, and all are told so.
        anna.ask("go")
        told = anna.ask("wait")
        self.assertTrue(told.get("quiet"), told)
        status, out = share.end()
        self.assertEqual((status, "replay: ok " in out), (0, True))

    def test_a_program_that_cannot_be_run_for_a_while_ends_nothing(self):
        """It is killed, and so is each one that is run in its place; when one can be run again all goes on."""
        flag = self.folder / "flag"
        program = self.slow('[ ! -e %s ] || kill -9 $$' % flag)
        share = self.share(self.file("net.bgp", "\n".join(TWO)), PROGRAM=program)
        anna, ben = self.join(share, "anna"), self.join(share, "ben")
        self.assertEqual(anna.call("origin 1.0.0.1 10.1.0.0/16"), ["ok"])
        flag.write_text("")
        os.kill(share.program(), signal.SIGKILL)
        for person in (anna, ben) * 10:
            for do, line in (("call", "origin 1.0.0.1 10.2.0.0/16"), ("ask", "quiet")):
                self.assertIn("the program ended", person.ask(do, line=line)["error"])
        flag.unlink()
        last = time.monotonic() + PATIENCE
        while "error" in anna.ask("ask", line="quiet"):
            self.assertLess(time.monotonic(), last)
            time.sleep(0.1)
        self.assertEqual(ben.call("origin 1.0.0.1 10.3.0.0/16"), ["ok"])
        self.assertEqual(entries(self.folder / "socket.log", anna.seat), [("origin 1.0.0.1 10.1.0.0/16", ["ok"])])
        status, out = share.end()
        self.assertEqual((status, "replay: ok 6" in out), (0, True))

    def test_used_up_descriptors_are_told_in_few_bytes_and_it_recovers(self):
        lab = self.lab(self.file("net.bgp", "\n".join(TWO)), limits={"files": 64})
        anna = self.join(lab, "anna")
        held = []
        self.addCleanup(lambda: [each.close() for each in held])
        for number in range(150):
            made = socket.socket(socket.AF_UNIX if number % 2 else socket.AF_INET)
            held.append(made)
            made.settimeout(0.5)
            with contextlib.suppress(OSError):
                made.connect(lab.socket if number % 2 else ("127.0.0.1", lab.port))
        time.sleep(5)
        self.assertLess(len(lab.told()), 10000)
        self.assertNotIn("Traceback", lab.told())
        self.assertEqual(anna.call("quiet"), ["yes"])
        for each in held:
            each.close()
        self.join(lab, "ben").call("quiet")
        self.assertEqual(lab.get("forms")[0], 200)
        self.assertTrue(lab.is_alive())


class Crowds(Attack):
    """Many connections, by those who have no secret and those who only look."""

    def setUp(self):
        super().setUp()
        self.server = self.lab(self.file("net.bgp", "\n".join(TWO)))
        self.held = []
        self.addCleanup(lambda: [each.close() for each in self.held])

    def crowd(self, count, content):
        """So many more connections, each of which sends something first."""
        for _ in range(count):
            made = self.server.connected()
            self.held.append(made)
            with contextlib.suppress(OSError):
                made.sendall(content)
                made.setblocking(False)

    def drip(self):
        """One more byte of each; those that are closed come anew, some each time."""
        for at, each in enumerate(self.held):
            with contextlib.suppress(BlockingIOError):
                try:
                    each.send(b"x")
                except OSError:
                    if at % 8 == 0:
                        each.close()
                        self.held[at] = self.server.connected()
                        self.held[at].setblocking(False)

    def assert_served(self, page, person):
        """Who has a secret is answered: by a connection that is new, by one that was there, at the socket."""
        self.assertLess(soon(self.server, key=self.server.keys["to work"]), SOON)
        for ask in (page.ask, person.ask):
            watch = Watch(self.server)
            self.assertEqual(ask("call", line="quiet")["reply"], ["yes"])
            self.assertLess(watch.seconds(), SOON)

    def test_connections_without_the_secret_keep_nobody_out(self):
        """Five hundred, and then three thousand: idle, with slow heads, with slow bodies."""
        page, person = self.page(self.server, "ben"), self.join(self.server, "anna")
        host = b"Host: 127.0.0.1:%d\r\n" % self.server.port
        kinds = (b"", b"GET /", b"GET / HTTP/1.1\r\nX: ",
                 b"POST /x/do HTTP/1.1\r\n" + host + b"Content-Length: 60000\r\n\r\n",
                 b"\x16\x03\x01")
        for count in (500, more_files(3000) - 500):
            for kind in kinds:
                self.crowd(count // len(kinds), kind)
                self.assert_served(page, person)
            for _ in range(3):
                self.drip()
                self.assert_served(page, person)
        self.assert_well(self.server, person)

    def test_idle_connections_of_lookers_keep_nobody_out(self):
        """A thousand that asked for something once, by the secret of who looks."""
        more_files(1000)
        page, person = self.page(self.server, "ben"), self.join(self.server, "anna")
        asking = get(self.server, "forms", key="to look")
        for number in range(1000):
            made = self.server.connected()
            self.held.append(made)
            made.sendall(asking)
            if number % 50 == 0:
                self.assert_served(page, person)
        self.assert_served(page, person)
        self.assertLess(soon(self.server), SOON)
        self.assert_well(self.server, person)

    def test_two_hundred_and_one_streams_of_lookers_keep_the_teacher_in(self):
        asking = get(self.server, "events", key="to look")
        found = []
        for _ in range(201):
            made = self.server.connected()
            self.held.append(made)
            made.sendall(asking)
            found.append(made.recv(12).split(b" ")[1])
        self.assertEqual(found, [b"200"] * 200 + [b"400"])
        for _ in range(2):
            self.assertEqual(self.server.get("")[0], 200)
            page = self.page(self.server, "", "lab")
            self.assertEqual(page.ask("call", line="quiet")["reply"], ["yes"])
        self.assertTrue(self.server.is_alive())

    def test_long_and_ever_other_questions_of_lookers_stay_in_no_memory(self):
        """`from` of 64 KB, hundreds of names, and thousands of values: the memory stays as it is."""
        look = self.server.keys["to look"]
        self.server.get("picture", key=look)
        before = self.server.memory()
        for number in range(700):
            content = get(self.server, "picture?to=1.0.0.1&from=%s&n%d=1" % ("%05d" % number * 13000, number),
                          key="to look")
            with self.server.connected() as line, contextlib.suppress(OSError):
                line.sendall(content)
                one_status(line)
        lines = [self.server.connected() for _ in range(40)]
        self.held += lines
        found = set()
        for number in range(25):
            for at, line in enumerate(lines):
                odd = "%d.%d" % (number, at)
                line.sendall(get(self.server, "picture?prefix=10.%s.0/24&from=1.0.0.1&to=10.%s.7&%s=%s" % (
                    odd, odd, "k" * 100 + odd, "v" * 128), key="to look"))
            found |= {one_status(line) for line in lines}
        self.assertLessEqual(found, {200, 400, 429, 503})
        self.assertLess(self.server.memory() - before, 24 << 20)
        self.assert_well(self.server, self.join(self.server, "anna"))


class Looking(Attack):
    """What those who look ask much of."""

    def test_pictures_of_lookers_wait_behind_that_of_the_teacher(self):
        """Thirty ask for pictures of ever other steps and prefixes; the teacher's one comes before most of these."""
        lines = TWO + ["origin 1.0.0.1 10.%d.0.0/16" % number for number in range(60)]
        lab = self.lab(self.file("net.bgp", "\n".join(lines)), PROGRAM=self.slow("", 0.2))
        lookers = [lab.connected() for _ in range(30)]
        self.addCleanup(lambda: [each.close() for each in lookers])
        for number, line in enumerate(lookers):
            line.sendall(get(lab, "picture?step=%d&prefix=10.%d.0.0/16" % (60 - 2 * number, number), key="to look"))
        self.assertEqual(lab.get("picture?step=50&prefix=10.1.0.0/16")[0], 200)
        self.assertLess(sum(readable(each, 0) for each in lookers), 15)
        self.assertEqual(one_status(lookers[0]), 200)

    def test_records_and_scripts_of_many_at_once_stay_in_no_memory(self):
        """Twenty ask for each, and read nothing, of a log of 20 MB."""
        lines = prefixes(2500)
        lab = self.lab(self.file("net.bgp", "\n".join(lines)))
        anna = self.join(lab, "anna")
        for _ in range(130):
            anna.call("routes 1.0.0.1")
        self.assertGreater((self.folder / "log").stat().st_size, 15 << 20)
        before = lab.memory()
        held = [lab.connected() for _ in range(40)]
        self.addCleanup(lambda: [each.close() for each in held])
        for number, line in enumerate(held):
            line.sendall(get(lab, ("record", "script")[number % 2], key=("to look", "lab", "to work")[number % 3]))
        for line in held:
            readable(line, 20)
        self.assertLess(lab.memory() - before, 16 << 20)
        self.assertLess(soon(lab), SOON)
        self.assertEqual(anna.call("quiet"), ["yes"])
        # Who reads has all of it.
        for line in held:
            line.close()
        status, _, body = lab.get("record", key=lab.keys["to work"])
        self.assertEqual((status, len(body) > 15 << 20, body.endswith(b"\nend %d\n" % (2501 + 131))), (200, True, True))
        self.assertEqual(lab.told(), "")


class Growing(Attack):
    """What writes much to the log."""

    LINES = prefixes(2000)

    def test_a_log_stays_within_its_bound(self):
        """A short question with a long reply, in a loop; past the bound edits are refused with that reason."""
        share = self.share(self.file("net.bgp", "\n".join(self.LINES)), "--most-log", 1000000)
        anna, ben = self.join(share, "anna"), self.join(share, "ben")
        for _ in range(30):
            self.assertEqual(len(anna.call("routes 1.0.0.1")), 2001)
        number, told = 0, {}
        while "error" not in told:
            number += 1
            self.assertLess(number, 500)
            told = anna.ask("call", line="# name 1.0.0.1 %s%d" % ("x" * 4000, number))
        self.assertRegex(told["error"], "the log has [0-9,]+ bytes of at most 1,000,000: nothing can be changed")
        # A short one still had room. Where none has, all are told so.
        told = {}
        while "error" not in told:
            number += 1
            self.assertLess(number, 1500)
            told = ben.ask("call", line="origin 1.0.0.1 99.%d.%d.0/24" % divmod(number, 250))
        self.assertRegex(told["error"], "the log has [0-9,]+ bytes of at most 1,000,000")
        self.assertEqual(ben.call("cost 1.0.0.1 1.0.0.1"), ["0 via 1.0.0.1"])
        self.assertGreater(len(ben.ask("ask", line="routes 1.0.0.1")["reply"]), 2001)
        size = sum((self.folder / name).stat().st_size for name in ("socket.log", "socket.log.seats"))
        self.assertLessEqual(size, 1000000)
        status, out = share.end()
        self.assertEqual((status, "replay: ok " in out), (0, True))

    def test_one_person_writes_so_much_in_a_minute_and_not_more(self):
        """Of those who work each has 16 MiB a minute; others are not concerned, and questions are answered."""
        lab = self.lab(self.file("net.bgp", "\n".join(self.LINES)))
        page, other = self.page(lab, "ben"), self.page(lab, "carl")
        told, count = {"reply": 1}, 0
        while "reply" in told:
            told, count = page.ask("call", line="routes 1.0.0.1"), count + 1
            self.assertLess(count, 400)
            page.heard.clear()
        self.assertIn("which is the most: wait", told["error"])
        written = len("\n".join(line for call in entries(self.folder / "log", 2) for line in call[1]))
        self.assertLess(written, (16 << 20) + 200000)
        self.assertGreater(written, 10 << 20)
        self.assertIn("which is the most", page.ask("call", line="origin 1.0.0.1 99.0.0.0/8")["error"])
        self.assertEqual(other.ask("call", line="origin 1.0.0.1 99.0.0.0/8")["reply"], ["ok"])
        self.assertEqual(page.ask("ask", line="cost 1.0.0.1 1.0.0.1")["reply"], ["0 via 1.0.0.1"])
        self.assertEqual(lab.told(), "")


class Roles(Attack):
    """What each may do, and what nobody is told."""

    def setUp(self):
        super().setUp()
        self.net = self.file("net.bgp", "\n".join(TWO))

    def heard(self, lab, path):
        """The first answer of a stream of events, as a page begins with it: its answer to `enter`."""
        with lab.connected() as line:
            line.sendall(get(lab, path, key="to work"))
            content = b""
            while b'"id":0' not in content and line:
                part = line.recv(65536)
                if not part:
                    break
                content += part
        return re.search(rb'data: (\{"id":0.*?\})\n', content).group(1).decode()

    def test_nobody_enters_by_the_name_of_another(self):
        """Without a token, with that of another, with odd ones, at both doors, and after a restart, too."""
        lab = self.lab(self.net)
        anna, ben = self.join(lab, "anna"), self.join(lab, "ben")
        for _ in range(2):
            for token in (None, "", ben.token, anna.token[:-1], anna.token + "a", anna.token.upper(), "x" * 64,
                          "x" * 65, "\0", 5,
                          True, [], {}, [anna.token]):
                with self.subTest(token=token):
                    told = asked(self.join(lab), "enter", **{"as": "anna", "token": token})
                    self.assertRegex(str(told), "the name anna is taken|`token` of the request `enter` is expected")
            for token in ("", "&token=", "&token=" + ben.token, "&token=" + anna.token[:-1]):
                self.assertIn("the name anna is taken", self.heard(lab, "events?as=anna" + token))
            for name in ("the script", "worker 1", "seat 0", "anna ", " anna", "anna\u200b", "\u00a0anna", "an\u00adna",
                         "\u202eanna"):
                told = asked(self.join(lab), "enter", **{"as": name})
                self.assertIn("a name is 1 to 32 characters", str(told), name)
            self.assertEqual(self.join(lab, "anna", anna.token).seat, anna.seat)
            self.assertNotIn(anna.token, (self.folder / "log.seats").read_text())
            lab.end()
            lab = self.lab()
        self.assertEqual(lab.told(), "")

    def test_who_looks_can_do_nothing(self):
        """By no word, method or path, nor by the key of another page."""
        lab = self.lab(self.net)
        anna, page, teacher, look = (self.join(lab, "anna"), self.page(lab, "ben"), self.page(lab, "", "lab"),
                                     self.page(lab, "", "to look"))
        anna.ask("propose", name="x", lines=["fail 1.0.0.1 2.0.0.1"])
        before = (self.folder / "log").read_bytes(), (self.folder / "log.seats").read_bytes(), anna.ask("who")
        for key in (look.page, page.page, teacher.page, "", "x"):
            for word, more in WORDS.items():
                body = json.dumps({"id": 9, "do": word, **more}).encode()
                self.assertEqual(lab.post(key, body, lab.keys["to look"]), 403)
        for method in ("PUT", "DELETE", "PATCH", "POST", "HEAD", "OPTIONS"):
            for path in ("do?page=" + page.page, "events?as=anna&token=" + anna.token, "show", "free", "enter", "",
                         "record"):
                self.assertIn(lab.get(path, method, b"{}", lab.keys["to look"], Content_Type="application/json")[0],
                              (403, 404, 405))
        for path in ("do?page=%s&id=1&do=call&line=quiet" % page.page, "show?step=1", "call?line=quiet",
                     "accept?number=1"):
            self.assertEqual(lab.get(path, key=lab.keys["to look"])[0], 404)
        # By its own address `as` and a token make nobody of who looks.
        other = self.page(lab, "anna&token=" + anna.token, "to look")
        self.assertEqual(lab.post(other.page, b'{"id": 1, "do": "who"}', lab.keys["to look"]), 403)
        after = (self.folder / "log").read_bytes(), (self.folder / "log.seats").read_bytes(), anna.ask("who")
        self.assertEqual(after[:2], before[:2])
        self.assertEqual(after[2]["people"], before[2]["people"])
        self.assert_well(lab, anna)

    def test_who_works_neither_shows_nor_frees(self):
        """Nor by the key of the teacher's page, nor the teacher by a key without the secret."""
        lab = self.lab(self.net)
        anna, page, teacher, look = (self.join(lab, "anna"), self.page(lab, "ben"), self.page(lab, "", "lab"),
                                     self.page(lab, "", "to look"))
        for word in ("show", "free"):
            self.assertEqual(page.ask(word, **WORDS[word])["error"], "`%s` is not for those who work" % word)
            self.assertEqual(lab.post(teacher.page, json.dumps({"id": 1, "do": word, **WORDS[word]}).encode(),
                                      lab.keys["to work"]), 400)
        for key in ("to look", "lab"):
            self.assertIn(lab.post(page.page, b'{"id": 1, "do": "who"}', lab.keys[key]), (400, 403))
        self.assertTrue(teacher.ask("show", step=2)["shown"])
        self.assertEqual(look.until(lambda told: told.get("step") is not None)["step"], 2)
        self.assert_well(lab, anna)

    def test_nobody_accepts_a_proposal_of_his_own(self):
        """Nor by a second connection, nor by another name that was entered with the same token."""
        share = self.share(self.net)
        anna, ben = self.join(share, "anna"), self.join(share, "ben")
        self.assertIn("is taken", str(asked(self.join(share), "enter", **{"as": "ben", "token": anna.token})))
        again, other = self.join(share, "anna", anna.token), self.join(share)
        other.ask("enter", **{"as": "anna2", "token": anna.token})
        number = anna.ask("propose", name="x", lines=["fail 1.0.0.1 2.0.0.1"])["number"]
        late = self.join(share)
        late.ask("enter", **{"as": "anna3", "token": anna.token})
        for each in (anna, again, other, late):
            for more in ({"number": number}, {}, {"number": None}):
                self.assertEqual(each.ask("accept", **more)["error"], "proposal 1 is your own: another one accepts it")
        self.assertIn("1 command made", ben.ask("accept")["text"])
        self.assert_well(share, anna)

    def test_no_secret_of_another_is_told(self):
        """Answers, events, pictures, mistakes, records and standard error carry no token and no address of another."""
        lab = self.lab(self.net)
        people = {name: self.join(lab, name) for name in ("anna", "ben")}
        pages = {role: self.page(lab, role.replace(" ", "-"), role) for role in lab.keys}
        for each in people.values():
            each.ask("watch", what="all")
        told = {name: [] for name in (*people, *pages)}
        for word, more in sorted(WORDS.items()):
            for name in people:
                told[name].append(people[name].ask(word, **more))
            for role in ("to work", "lab"):
                told[role].append(pages[role].ask(word, **more))
        for role, key in lab.keys.items():
            for path in ("", "lab.js", "picture", "table?router=1.0.0.1&prefix=10.0.0.0/8", "steps", "forms", "script",
                         "record", "nothing",
                         "picture?step=x", "picture?from=1.0.0.1&to=1.0.0.1", "table?router=x"):
                told[role].append(str(lab.get(path, key=key)))
            told[role].append(str(lab.get("", key="x")))
        for name in people:
            told[name] += people[name].events
        for role in pages:
            told[role] += pages[role].heard
        secrets = {**{name: {each.token} for name, each in people.items()},
                   **{role: {key, pages[role].page} for role, key in lab.keys.items()}}
        for name, seen in told.items():
            text = str(seen)
            self.assertGreater(len(text), 1000)
            for other, some in secrets.items():
                found = {each for each in some if each in text} if other != name else set()
                self.assertEqual(found, set(), "%s was told a secret of %s" % (name, other))
        for text in (lab.told(), (self.folder / "log").read_text(), (self.folder / "log.seats").read_text()):
            self.assertEqual([each for some in secrets.values() for each in some if each in text], [])


class Table(unittest.TestCase):
    def test_each_attack_is_in_the_table_and_each_test_of_the_table_exists(self):
        """Rows of docs/reference/attacks.csv name tests, by file and name, or tools."""
        with (TOP / "docs" / "reference" / "attacks.csv").open(encoding="utf-8", newline="") as file:
            rows = list(csv.DictReader(file))
        self.assertTrue(all(row["attack"] for row in rows))
        self.assertTrue(all((TOP / row["file"]).exists() for row in rows if not row["test"]))
        named = [(row["file"], row["test"]) for row in rows if row["test"]]
        self.assertEqual(len(named), len(set(named)))
        for file in {file for file, _ in named} | {"test_attacks"}:
            loaded = [test for suite in unittest.TestLoader().loadTestsFromName(file) for test in suite]
            found = {".".join(test.id().split(".")[-2:]) for test in loaded} - {"Table." + self._testMethodName}
            of_table = {name for each, name in named if each == file}
            self.assertEqual(of_table - found, set(), file)
            if file == "test_attacks":
                self.assertEqual(found - of_table, set())
