"""What a page asks of lab's server beside its pictures: proposals, undo and blame, and who may ask for them."""
import json
import pathlib
import re
import socket
import time

from common import PATIENCE
from test_lab import AtServer
from test_share import Person

KIND = {"Content_Type": "application/json"}


class Together(AtServer):
    def test_a_proposal_of_one_page_is_accepted_by_another(self):
        anna, ben = self.page("anna"), self.page("ben")
        carl = Person(self.lab.socket, "carl")
        self.addCleanup(carl.close)
        made = anna.ask("propose", name="slower", lines=["metric 1.0.0.1 2.0.0.1 9"])
        self.assertEqual(made["number"], 1)
        for told in (ben.until(lambda told: told.get("event") == "proposal"), carl.until("proposal")):
            self.assertEqual([told[name] for name in ("number", "who", "name", "lines", "text")],
                             [1, "anna", "slower", ["metric 1.0.0.1 2.0.0.1 9"], made["text"]])
        # A page that comes late asks which are open.
        late = self.page("late")
        self.assertEqual(late.ask("proposals")["proposals"], [
            {"number": 1, "who": "anna", "name": "slower", "lines": ["metric 1.0.0.1 2.0.0.1 9"],
             "text": made["text"], "edits": 5}])
        self.assertEqual(anna.ask("accept", number=1)["error"], "proposal 1 is your own: another one accepts it")
        text = "ben accepts proposal 1 of anna, slower: 1 command made"
        self.assertEqual(ben.ask("accept", number=1)["text"], text)
        for told in (late.until(lambda told: told.get("closes")), carl.until("told")):
            self.assertEqual((told["event"], told["text"], told["closes"]), ("told", text, 1))
        self.assertEqual(late.ask("proposals")["proposals"], [])
        edits = late.ask("blame", router="1.0.0.1")["edits"]
        self.assertEqual([edits[-1][name] for name in ("who", "by", "line", "step")],
                         ["anna", "ben", "metric 1.0.0.1 2.0.0.1 9", 7])
        # What anna proposed is hers, and she takes it back.
        self.assertEqual(anna.ask("undo")["text"],
                         "undone: metric 1.0.0.1 2.0.0.1 9, by `metric 1.0.0.1 2.0.0.1 7`")
        self.assertEqual(ben.ask("undo")["error"], "there is nothing of yours to undo")
        self.assertEqual(late.ask("check")["verdict"], "ok 7")

    def test_a_proposal_that_is_stale_declined_or_bad(self):
        anna, ben = self.page("anna"), self.page("ben")
        self.assertIn("refused 2 no-router", anna.ask("propose", name="x", lines=["fail 1.0.0.1 9.0.0.1"])["error"])
        self.assertEqual(anna.ask("proposals")["proposals"], [])
        number = anna.ask("propose", name="y", lines=["fail 1.0.0.1 2.0.0.1"])["number"]
        ben.until(lambda told: told.get("event") == "proposal")
        self.assertEqual(ben.ask("call", line="origin 1.0.0.1 10.9.0.0/16")["reply"], ["ok"])
        self.assertIn("it is shown again", ben.ask("accept", number=number)["error"])
        self.assertEqual(ben.until(lambda told: told.get("event") == "proposal")["number"], number)
        self.assertEqual(ben.ask("decline", number=number)["text"], "ben declines proposal 2 of anna, y")
        self.assertEqual(anna.until(lambda told: told.get("closes"))["closes"], number)
        self.assertEqual(ben.ask("accept", number=number)["error"], "there is no proposal 2 that was shown")

    def test_an_undo_that_is_not_exact_says_why(self):
        anna, ben = self.page("anna"), self.page("ben")
        anna.ask("call", line="metric 1.0.0.1 2.0.0.1 9")
        ben.ask("call", line="metric 1.0.0.1 2.0.0.1 8")
        why = "`metric 1.0.0.1 2.0.0.1 9` cannot be undone exactly: `metric 1.0.0.1 2.0.0.1 8` of ben came since"
        self.assertEqual(anna.ask("undo")["error"], why)
        self.assertEqual(ben.ask("undo")["text"],
                         "undone: metric 1.0.0.1 2.0.0.1 8, by `metric 1.0.0.1 2.0.0.1 9`")


class Guarded(AtServer):
    """Each request is checked as all are: the secret, Host and Origin, who only looks, and the size."""
    asked = ({"do": "propose", "name": "x", "lines": ["fail 1.0.0.1 2.0.0.1"]}, {"do": "accept", "number": 1},
             {"do": "decline", "number": 1}, {"do": "undo"}, {"do": "blame", "router": "1.0.0.1"}, {"do": "proposals"})

    def test_who_may_not_ask(self):
        anna, look = self.page("anna"), self.page(key=self.look_key())
        self.assertEqual(anna.ask("call", line="metric 1.0.0.1 2.0.0.1 9")["reply"], ["ok"])
        anna.ask("propose", name="x", lines=["fail 1.0.0.1 2.0.0.1"])
        for asked in self.asked:
            body = json.dumps({"id": 1, **asked})
            for page in (anna.page, look.page):
                self.assertEqual(self.post(page, body, key=self.look_key()), 403, asked)
                self.assertEqual(self.post(page, body, key="x"), 403, asked)
            self.assertEqual(self.post(anna.page, body, Host="evil.example"), 403, asked)
            self.assertEqual(self.post(anna.page, body, Origin="http://evil.example"), 403, asked)
            self.assertEqual(self.lab.get("do?page=" + anna.page, "POST", body, Content_Type="text/plain")[0], 404)
            # Without a seat of its own a page asks for nothing.
            self.assertEqual(self.post(look.page, body), 400, asked)
            long = json.dumps({"id": 1, **asked, "more": "x" * 65536})
            self.assertEqual(self.post(anna.page, long), 413, asked)
        self.assertEqual([each["number"] for each in anna.ask("proposals")["proposals"]], [1])
        self.assertEqual(len(self.lab.value("steps")["steps"]), 7)

    def post(self, page, body, key=None, **headers):
        """The status of a request."""
        return self.lab.get("do?page=" + page, "POST", body, key, **KIND, **headers)[0]


class Deaf(AtServer):
    def test_a_page_that_reads_nothing_is_let_go(self):
        """What it is to be told is held for a while, and then not: the others are served all the time."""
        with socket.socket() as deaf:
            deaf.setsockopt(socket.SOL_SOCKET, socket.SO_RCVBUF, 4096)
            deaf.connect(("127.0.0.1", int(self.lab.port)))
            asked = "GET /%s/events?as=deaf HTTP/1.1\r\nHost: 127.0.0.1:%s\r\n\r\n" % (self.lab.key, self.lab.port)
            deaf.sendall(asked.encode())
            anna = Person(self.lab.socket, "anna")
            self.addCleanup(anna.close)
            anna.ask("watch", what="edits")
            before, last = self.size(), time.monotonic() + PATIENCE
            while not any("deaf has gone: " in each.get("text", "") for each in anna.events):
                for number in [anna.send("call", line="# name 1.0.0.1 %s" % ("n" * 4000)) for _ in range(50)]:
                    self.assertEqual(anna.answer(number)["reply"], [])
                self.assertLess(time.monotonic(), last)
            self.assertEqual(self.page("ben").ask("call", line="quiet")["reply"], ["no"])
            # The lines themselves, some copies of them, and what was held.
            self.assertLess(self.size() - before, 60000)

    def size(self):
        """How much memory the lab has, in kB."""
        status = pathlib.Path("/proc/%d/status" % self.lab.process.pid).read_text()
        return int(re.search(r"VmRSS:\s+([0-9]+) kB", status).group(1))
