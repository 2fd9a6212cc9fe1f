"""lab: its server by plain HTTP, and its page in a browser."""
import contextlib
import http.client
import json
import os
import re
import signal
import subprocess
import sys
import tempfile
import unittest

import pytest

from bgptools.program import provenance
from bgptools.program.script import lines_of
from bgptools.web.lesson import notes_of
from browser import CHROMIUM, Browser
from common import PATIENCE, TOOLBOX, TOP, Case
from test_share import Person

SCRIPT = """# step Two routers
router 1.0.0.1 1
# Says <script>document.title='owned'</script> & more.
router 2.0.0.1 2
# name 1.0.0.1 <b>west</b>&quot;
link 1.0.0.1 2.0.0.1 7
# step A session
join 1.0.0.1 2.0.0.1
# It is told to the other one.
origin 2.0.0.1 10.1.0.0/16
"""
# The steps of the script: its lines that make something, and the name.
STEPS = 6


class Lab:
    """A lab that runs as a process, and requests to it."""

    def __init__(self, folder, *words):
        self.socket = str(folder / "socket")
        self.process = subprocess.Popen([sys.executable, "-B", str(TOOLBOX / "lab"), *map(str, words), "--at", self.socket],
                                        stdout=subprocess.PIPE, stderr=subprocess.PIPE, cwd=str(TOP))
        self.urls = {}
        try:
            self._read()
        except BaseException:
            self.close()
            raise

    def _read(self):
        """Reads where the pages are."""
        line = self.process.stdout.readline().decode()
        while not line.startswith("`join"):
            if not line:
                raise AssertionError(self.process.stderr.read().decode())
            name, _, url = line.strip().partition(": ")
            self.urls[name] = url
            line = self.process.stdout.readline().decode()
        self.url = self.urls["lab"]
        self.port, self.key = re.fullmatch(r"http://127\.0\.0\.1:(\d+)/([\w-]+)/", self.url).groups()

    def get(self, path, method="GET", body=None, key=None, **headers):
        """The status, headers and body of an answer."""
        given = {name.replace("_", "-"): value for name, value in headers.items()}
        line = http.client.HTTPConnection("127.0.0.1", int(self.port), timeout=PATIENCE)
        with contextlib.closing(line):
            line.request(method, "/%s/%s" % (self.key if key is None else key, path), body, given)
            answer = line.getresponse()
            return answer.status, dict(answer.getheaders()), answer.read()

    def value(self, path, **more):
        """A JSON answer."""
        status, _, body = self.get(path, **more)
        if status != 200:
            raise AssertionError("%s: %d %s" % (path, status, body))
        return json.loads(body)

    def page(self, name="", key=None):
        return Page(self, name, key or self.key)

    def end(self):
        """Ctrl-C: the rest of what it prints, and its status."""
        self.process.send_signal(signal.SIGINT)
        out, err = self.process.communicate(timeout=PATIENCE)
        return self.process.returncode, out.decode(), err.decode()

    def close(self):
        if self.process.poll() is None:
            self.process.kill()
            self.process.communicate()
        self.process.stdout.close()
        self.process.stderr.close()


class Page:
    """What a page does, without a browser: it hears what happens, and asks."""

    def __init__(self, lab, name, key):
        self.lab, self.key, self.heard, self.number = lab, key, [], 0
        self.line = http.client.HTTPConnection("127.0.0.1", int(lab.port), timeout=PATIENCE)
        self.line.request("GET", "/%s/events?as=%s" % (key, name))
        self.answer = self.line.getresponse()
        self.first = self.until(lambda told: told.get("event") == "page")
        self.page = self.first["page"]

    def until(self, fits):
        """The first message that fits, of those that were heard, and will be."""
        for told in self.heard:
            if fits(told):
                self.heard.remove(told)
                return told
        while True:
            line = self.answer.readline()
            if not line:
                raise AssertionError("the lab has gone")
            if line.startswith(b"data: "):
                told = json.loads(line[6:])
                if fits(told):
                    return told
                self.heard.append(told)

    def ask(self, do, **more):
        self.number += 1
        body = json.dumps({"id": self.number, "do": do, **more})
        status, _, told = self.lab.get("do?page=" + self.page, "POST", body, self.key, Content_Type="application/json")
        if status != 200:
            raise AssertionError("%d %s" % (status, told))
        return self.until(lambda told: told.get("id") == self.number)

    def changed(self, line):
        """The change by this line, when it was heard."""
        told = self.until(lambda told: any(each["line"] == line for each in told.get("changes", ())))
        return next(each for each in told["changes"] if each["line"] == line)

    def close(self):
        self.answer.close()
        self.line.close()


class AtServer(Case):
    """Tests of one lab, which begins with the script above."""
    words = ("--present",)

    def setUp(self):
        super().setUp()
        script = self.folder / "script.bgp"
        script.write_text(SCRIPT)
        self.lab = Lab(self.folder, script, *self.words)
        self.addCleanup(self.lab.close)

    def page(self, name="", key=None):
        made = self.lab.page(name, key)
        self.addCleanup(made.close)
        return made

    def look_key(self):
        return self.lab.urls["to look"].split("/")[3]


class Served(AtServer):
    def test_it_listens_on_the_loopback_alone(self):
        with open("/proc/net/tcp") as table:
            local = [row.split()[1] for row in table.readlines()[1:] if row.split()[3] == "0A"]
        self.assertEqual([each for each in local if each.endswith(":%04X" % int(self.lab.port))],
                         ["0100007F:%04X" % int(self.lab.port)])

    def test_the_secret_is_wanted_for_every_request(self):
        for key in ("", "x", self.lab.key[:-1], self.lab.key + "x", "%s%%2f" % self.lab.key, "\u00e9".encode().hex(), self.lab.key[:-1] + "%e9"):
            for path in ("", "lab.js", "changes.js", "lab.css", "events", "picture", "script", "record", "steps"):
                self.assertEqual(self.lab.get(path, key=key)[0], 403, (key, path))
            self.assertEqual(self.lab.get("do", "POST", "{}", key)[0], 403)
        self.assertEqual(self.lab.get("")[0], 200)

    def test_another_host_or_origin(self):
        here = "127.0.0.1:" + self.lab.port
        for headers in ({"Host": "localhost:" + self.lab.port}, {"Host": "evil.example"}, {"Host": "127.0.0.1"},
                        {"Origin": "http://evil.example"}, {"Origin": "null"}, {"Origin": "https://" + here}):
            for path in ("", "picture", "script"):
                self.assertEqual(self.lab.get(path, **headers)[0], 403, headers)
            self.assertEqual(self.lab.get("do", "POST", "{}", **headers)[0], 403)
        self.assertEqual(self.lab.get("", Host=here, Origin="http://" + here)[0], 200)

    def test_the_policy_has_no_inline_script(self):
        for path in ("", "lab.js", "picture", "none"):
            policy = dict(each.strip().split(" ", 1) for each in self.lab.get(path)[1]["Content-Security-Policy"].split(";"))
            self.assertEqual((policy["default-src"], policy["script-src"], policy["style-src"]), ("'none'", "'self'", "'self'"))
        page = self.lab.get("")[2].decode()
        self.assertEqual(re.findall(r"<script[^>]*>(.*?)</script>", page), [""])
        self.assertEqual(re.findall(r" on\w+=| style=|https?://", page), [])

    def test_the_scripts_of_the_page_read_nothing_as_markup(self):
        for path in ("lab.js", "drawn.js", "moving.js", "changes.js", "language.js"):
            script = self.lab.get(path)[2].decode()
            self.assertEqual(re.findall(r"innerHTML|outerHTML|insertAdjacent|document\.write|eval\(|srcdoc|DOMParser", script), [])

    def test_no_path_leads_to_a_file(self):
        for path in ("../lab.py", "..%2flab.py", "lab.py", "page.html", "/etc/passwd", "%2e%2e/lab.py", "./lab.js/../web.py", "lab.html"):
            status, _, body = self.lab.get(path)
            self.assertEqual((status, b"import" in body), (404, False), path)

    def test_bodies_are_bounded(self):
        page = self.page()
        kind = {"Content_Type": "application/json"}
        self.assertEqual(self.lab.get("do?page=" + page.page, "POST", b"x" * 65537, **kind)[0], 413)
        self.assertEqual(self.lab.get("do?page=" + page.page, "POST", "{}", **kind, Transfer_Encoding="chunked")[0], 413)
        for length in ("-1", "99999999999", "1e3", ""):
            self.assertEqual(self.lab.get("do?page=" + page.page, "POST", None, **kind, Content_Length=length)[0], 413)
        self.assertEqual(self.lab.get("do?page=" + page.page, "POST", "{}", Content_Type="text/plain")[0], 404)
        self.assertEqual(self.lab.get("do?page=x", "POST", "{}", **kind)[0], 400)
        self.assertEqual(page.ask("call", line="quiet")["reply"], ["no"])

    def test_names_and_comments_with_markup_are_text(self):
        steps = self.lab.value("steps")["steps"]
        self.assertEqual([each["line"] for each in steps][2], "# name 1.0.0.1 <b>west</b>&quot;")
        self.assertEqual((steps[1]["says"], steps[1]["heading"]),
                         ("Says <script>document.title='owned'</script> & more.", "Two routers"))
        texts = [part[2] for part in _all(self.lab.value("picture")["parts"])]
        self.assertIn("<b>west</b>&quot;", texts)

    def test_pages_and_a_terminal_are_seats_of_one_log(self):
        anna, ben = self.page("anna"), self.page("ben")
        carl = Person(self.lab.socket, "carl")
        self.addCleanup(carl.close)
        carl.ask("watch", what="all")
        self.assertEqual(anna.ask("call", line="metric 1.0.0.1 2.0.0.1 9")["reply"], ["ok"])
        self.assertEqual(ben.changed("metric 1.0.0.1 2.0.0.1 9")["who"], "anna")
        self.assertEqual(carl.until("changes")["changes"][0]["who"], "anna")
        self.assertEqual(carl.call("fail 1.0.0.1 2.0.0.1"), ["ok"])
        self.assertEqual(ben.changed("fail 1.0.0.1 2.0.0.1")["who"], "carl")
        told = ben.ask("call", line="link 1.0.0.1 2.0.0.1 5")
        self.assertEqual((told["reply"], told["told"]),
                         (["refused 8 link-exists"], ["-- 1.0.0.1 and 2.0.0.1 have a link already, of cost 9"]))
        self.assertEqual(ben.ask("check")["verdict"], "ok 8")
        self.assertIn(b"fail 1.0.0.1 2.0.0.1\n", self.lab.get("script")[2])
        replay = subprocess.run([os.environ["PROGRAM"], "replay"], input=self.lab.get("record")[2], capture_output=True)
        self.assertEqual(replay.stdout, b"ok 8\n")
        status, out, err = self.lab.end()
        self.assertEqual((status, out.split("\n")[-2], err), (0, "replay: ok 8", ""))

    def test_a_page_and_the_notes_say_by_which_program(self):
        told = self.page("anna")
        program = told.first["program"]
        self.assertEqual(program, provenance.of(os.environ["PROGRAM"]).as_json())
        notes = [json.loads(line) for line in open(self.lab.socket + ".log.seats")]
        found = [each for each in notes if "program" in each]
        self.assertEqual(found, [{"program": program["digest"], **{name: program[name] for name in ("version", "commit", "kit", "is_proved")}}])

    def test_a_page_that_goes_has_left_its_seat(self):
        anna, ben = self.page("anna"), self.page("ben")
        self.assertEqual(ben.ask("who")["people"][1]["here"], 1)
        anna.close()
        for number in range(100):
            ben.ask("call", line="metric 1.0.0.1 2.0.0.1 %d" % (number + 1))
        ben.until(lambda told: told.get("text", "").startswith("anna has gone"))

    def test_who_looks_follows_and_changes_nothing(self):
        anna, key = self.page("anna"), self.look_key()
        look = self.page(key=key)
        look.until(lambda told: told.get("event") == "shown")
        anna.ask("show", step=3, prefix="10.1.0.0/16", way=None, router="1.0.0.1")
        self.assertEqual(look.until(lambda told: told.get("event") == "shown"),
                         {"event": "shown", "step": 3, "prefix": "10.1.0.0/16", "way": None, "router": "1.0.0.1"})
        late = self.page(key=key)
        self.assertEqual(late.until(lambda told: told.get("event") == "shown")["step"], 3)
        body = json.dumps({"id": 1, "do": "call", "line": "fail 1.0.0.1 2.0.0.1"})
        for page in (look.page, anna.page):
            self.assertEqual(self.lab.get("do?page=" + page, "POST", body, key, Content_Type="application/json")[0], 403)
        self.assertEqual(len(self.lab.value("steps")["steps"]), STEPS)
        self.assertEqual(self.lab.value("picture?step=3", key=key)["step"], 3)

    def test_who_looks_neither_proposes_nor_takes_back(self):
        anna, look = self.page("anna"), self.page(key=self.look_key())
        self.assertEqual(anna.ask("call", line="metric 1.0.0.1 2.0.0.1 9")["reply"], ["ok"])
        self.assertEqual(self.page("ben").ask("propose", name="it", lines=["fail 1.0.0.1 2.0.0.1"])["number"], 1)
        for request in ({"do": "propose", "name": "x", "lines": ["fail 1.0.0.1 2.0.0.1"]}, {"do": "accept", "number": 1}, {"do": "decline", "number": 1},
                        {"do": "undo"}, {"do": "blame", "router": "1.0.0.1"}):
            for page in (look.page, anna.page):
                body = json.dumps({"id": 1, **request})
                self.assertEqual(self.lab.get("do?page=" + page, "POST", body, self.look_key(), Content_Type="application/json")[0], 403, request)
        self.assertEqual([each["number"] for each in anna.ask("who")["proposals"]], [1])
        self.assertEqual(len(self.lab.value("steps")["steps"]), STEPS + 1)

    def test_thirty_pages_see_each_change(self):
        pages = [self.page("page%d" % number) for number in range(30)]
        looks = [self.page(key=self.look_key()) for _ in range(5)]
        lines = ["origin 1.0.0.1 10.%d.0.0/16" % (100 + number) for number in range(30)]
        for page, line in zip(pages, lines):
            self.assertEqual(page.ask("call", line=line)["reply"], ["ok"])
        for page in pages:
            self.assertEqual([page.changed(line)["who"] for line in lines], ["page%d" % number for number in range(30)])
        pages[0].ask("show", step=7)
        for page in looks:
            page.until(lambda told: told.get("step") == 7)

    def test_to_look_at_a_step_changes_nothing(self):
        steps = [self.lab.value("picture?step=%d" % step) for step in (6, 0, 3, 5, 6)]
        self.assertEqual([len(_places(each)) for each in steps], [2, 0, 2, 2, 2])
        self.assertEqual(steps[0], steps[4])
        self.assertEqual(_places(steps[2]), _places(steps[0]))
        self.assertEqual((steps[3]["waiting"], steps[4]["waiting"]), ([], [["2.0.0.1", "1.0.0.1"]]))
        self.assertEqual(len(self.lab.value("steps")["steps"]), STEPS)
        self.assertEqual(self.page().ask("who")["calls"], 5)

    def test_a_step_has_what_it_delivered(self):
        page = self.page()
        self.assertEqual(page.ask("next")["line"], "deliver 2.0.0.1 1.0.0.1")
        picture = self.lab.value("picture?step=7&prefix=10.1.0.0/16&from=1.0.0.1&to=10.1.0.1")
        self.assertEqual((picture["reply"], picture["waiting"]), ("took 10.1.0.0/16 update", []))
        self.assertEqual(picture["titles"][1], "A packet from <b>west</b>&quot; (1.0.0.1) to 10.1.0.1: reached at 2.0.0.1")
        texts = [part[2] for part in _all(picture["parts"])]
        self.assertIn("update", texts)
        self.assertIn("from 2.0.0.1", texts)

    def test_a_worker_converges_when_it_is_let_go(self):
        page = self.page("anna")
        self.assertEqual(page.ask("pace", a_second=100)["is_going"], False)
        self.assertEqual(page.ask("who")["quiet"], False)
        page.ask("go")
        self.assertEqual(page.changed("deliver 2.0.0.1 1.0.0.1")["who"], "worker 1")
        self.assertEqual(page.ask("wait")["quiet"], True)
        self.assertEqual(page.ask("pause")["is_going"], False)

    def test_the_tables_of_a_router(self):
        page = self.page()
        page.ask("next")
        told = self.lab.value("table?router=1.0.0.1&prefix=10.1.0.0/16")
        route = "path=2 origin=igp next=2.0.0.1 med=- pref=100 oid=- clusters=-"
        self.assertEqual((told["in"], told["loc"], told["out"]),
                         ([["2.0.0.1", route, "chosen", True]], route, [["2.0.0.1", "nothing"]]))
        before = self.lab.value("table?router=1.0.0.1&prefix=10.1.0.0/16&step=6")
        self.assertEqual((before["in"], before["loc"]), ([], "no route"))
        self.assertEqual(self.lab.get("table?router=9.9.9.9&prefix=10.1.0.0/16")[0], 400)
        self.assertEqual(self.lab.get("table?router=1.0.0.1&prefix=10.1.0.1/16")[0], 400)
        self.assertEqual(self.lab.get("picture?step=99")[0], 400)
        self.assertEqual(self.lab.get("picture?" + "a=1&" * 21)[0], 400)

    def test_a_router_that_comes_later_lets_the_others_be(self):
        page, before = self.page(), _places(self.lab.value("picture"))
        self.assertEqual(page.ask("call", line="join 1.0.0.1 2.0.0.1")["reply"][0].split()[0], "refused")
        page.ask("call", line="metric 1.0.0.1 2.0.0.1 100")
        self.assertEqual(_places(self.lab.value("picture")), before)
        self.assertEqual([page.ask("call", line=line)["reply"] for line in ("router 2.0.0.2 2", "link 2.0.0.1 2.0.0.2 1")], [["ok"], ["ok"]])
        after = _places(self.lab.value("picture"))
        self.assertEqual(sorted(after), ["1.0.0.1", "2.0.0.1", "2.0.0.2"])
        self.assertEqual(_places(self.lab.value("picture?step=6")), {a: after[a] for a in before})


def _places(picture):
    """Where each router is."""
    return {about[1]: [part[1][name] for part in _all([[about, shape]]) if part[0] == "rect" for name in ("x", "y")]
            for about, shape in picture["parts"] if about and about[0] == "router"}


def _all(parts):
    """All elements of a picture."""
    found = [shape for _, shape in parts]
    for each in found:
        found += each[3]
    return found


class Notes(unittest.TestCase):
    def notes(self, script, steps):
        return notes_of(lines_of(script.encode(), "a script"), steps)

    def test_what_is_said_before_a_question_is_said_at_the_step_before(self):
        first, one, two = self.notes("# In short.\n# More\n# of it.\n#\n# Another.\n# step One\n# A router.\nrouter 1.0.0.1 1\n"
                                     "# Its table.\nroutes 1.0.0.1\n# expect refused 3\nrouter 1.0.0.1 1\n# step Two\n# A prefix.\n"
                                     "origin 1.0.0.1 10.0.0.0/8\ntrace 1.0.0.1 10.0.0.1\n# The end.\n", ["router 1.0.0.1 1", "origin 1.0.0.1 10.0.0.0/8"])
        self.assertEqual((first["says"], first["heading"], first["asks"]), ("In short. More of it.\nAnother.", "", []))
        self.assertEqual((one["says"], one["heading"]), ("A router.", "One"))
        self.assertEqual(one["asks"], [{"says": "Its table.", "line": "routes 1.0.0.1"}, {"says": "", "line": "router 1.0.0.1 1"}])
        self.assertEqual((two["says"], two["heading"]), ("A prefix.", "Two"))
        self.assertEqual(two["asks"], [{"says": "", "line": "trace 1.0.0.1 10.0.0.1"}, {"says": "The end.", "line": ""}])
        self.assertEqual([each["view"] for each in (first, one, two)],
                         [{"prefix": "", "way": None, "router": None}, {"prefix": "", "way": None, "router": "1.0.0.1"},
                          {"prefix": "10.0.0.0/8", "way": ["1.0.0.1", "10.0.0.1"], "router": None}])

    def test_a_script_without_headings_shows_what_a_person_chooses(self):
        first, one = self.notes("# In short.\nrouter 1.0.0.1 1\nroutes 1.0.0.1\n", ["router 1.0.0.1 1"])
        self.assertEqual((first["says"], one["says"]), ("", "In short."))
        self.assertNotIn("view", one)
        self.assertEqual([each["says"] for each in self.notes("", [])], [""])


MISSING = "chromium is not installed: apt-get install chromium"


@pytest.mark.xdist_group("browsers")
@unittest.skipUnless(CHROMIUM, MISSING)
class InABrowser(Case):
    """Tests with two browsers, and a lab for each."""

    @classmethod
    def setUpClass(cls):
        cls.browsers = []
        for _ in range(2):
            folder = tempfile.TemporaryDirectory()
            cls.addClassCleanup(folder.cleanup)
            cls.browsers.append(Browser(folder.name, "about:blank#lab"))
            cls.addClassCleanup(cls.browsers[-1].close)

    def setUp(self):
        super().setUp()
        script = self.folder / "script.bgp"
        script.write_text(SCRIPT)
        self.lab = Lab(self.folder, script, "--present")
        self.addCleanup(self.lab.close)
        self.free = list(self.browsers)

    def browser(self, url):
        """A browser with the page, when it has drawn the last step."""
        browser = self.free.pop(0)
        browser.go(url)
        self.at(browser, STEPS)
        return browser

    def at(self, browser, step):
        """Waits until a step is drawn, with its tables, and nothing else is to be drawn."""
        browser.until("document.body.dataset.step === '%d' && document.body.dataset.state === 'drawn'" % step)

    def test_two_pages_and_a_terminal_see_one_change(self):
        one, other = self.browser(self.lab.url), self.browser(self.lab.url)
        person = Person(self.lab.socket, "anna")
        self.addCleanup(person.close)
        person.ask("watch", what="all")
        one.click("[data-about='link 1.0.0.1 2.0.0.1'] path:last-child")
        one.until("document.querySelectorAll('#forms form').length > 2")
        one.value("[...document.querySelectorAll('#forms button')].find((each) => each.textContent === 'fail').focus()")
        one.press("Enter")
        for browser in (one, other):
            self.at(browser, STEPS + 1)
            browser.until("document.getElementById('log').textContent.includes('page: fail 1.0.0.1 2.0.0.1')")
            browser.until("document.getElementById('picture').textContent.includes('7, failed')")
        self.assertEqual([each["line"] for each in person.until("changes")["changes"]], ["fail 1.0.0.1 2.0.0.1"])
        self.assertEqual(person.call("mend 1.0.0.1 2.0.0.1"), ["ok"])
        for browser in (one, other):
            browser.until("document.getElementById('log').textContent.includes('anna: mend 1.0.0.1 2.0.0.1')")

    def test_markup_is_text_in_the_page(self):
        browser = self.browser(self.lab.url)
        for step, text in ((2, "Says <script>document.title='owned'</script> & more."), (6, "It is told to the other one.")):
            browser.value("document.getElementById('slider').value = %d" % step)
            browser.value("document.getElementById('slider').dispatchEvent(new Event('input'))")
            self.at(browser, step)
            self.assertEqual(browser.value("document.getElementById('says').textContent"), text)
        browser.value("document.querySelector(\"[data-about='router 1.0.0.1']\").dispatchEvent(new Event('click'))")
        browser.until("document.getElementById('table').textContent.includes('Adj-RIB-Out')")
        browser.value("document.getElementById('command').value = '# name 2.0.0.1 <i>e</i>'")
        browser.value("document.getElementById('asked').requestSubmit()")
        browser.until("document.getElementById('picture').textContent.includes('<i>e</i>')")
        browser.until("document.getElementById('log').textContent.includes('<i>e</i>')")
        self.assertEqual(browser.value("document.querySelectorAll('b, i, img, script:not([src])').length"), 0)
        self.assertEqual(browser.value("document.title"), "lab")

    def test_keys_step_through_a_lesson_and_back(self):
        browser = self.browser(self.lab.url)
        shown = "[document.getElementById('heading').textContent, document.getElementById('line').textContent]"
        seen = []
        for key, step in [("ArrowLeft", step) for step in range(5, -1, -1)] + [("ArrowRight", step) for step in range(1, 7)]:
            browser.press(key)
            self.at(browser, step)
            seen.append(browser.value(shown))
        self.assertEqual(seen[:5], seen[6:11][::-1])
        self.assertEqual(seen[5], ["", ""])
        self.assertEqual(seen[6:], [["Two routers", "router 1.0.0.1 1"], ["Two routers", "router 2.0.0.1 2"],
                                    ["Two routers", "# name 1.0.0.1 <b>west</b>&quot;"], ["Two routers", "link 1.0.0.1 2.0.0.1 7"],
                                    ["A session", "join 1.0.0.1 2.0.0.1"], ["A session", "origin 2.0.0.1 10.1.0.0/16"]])
        self.assertEqual(browser.value("document.querySelectorAll('#log .refused').length"), 0)

    def test_a_click_on_a_waiting_message_delivers_it(self):
        browser = self.browser(self.lab.url)
        browser.click("[data-about='deliver 2.0.0.1 1.0.0.1'] circle")
        self.at(browser, 7)
        self.assertEqual(browser.value("document.getElementById('line').textContent"), "deliver 2.0.0.1 1.0.0.1")
        self.assertEqual(browser.value("document.getElementById('answer').textContent"), "took 10.1.0.0/16 update")

    def test_a_student_follows_the_teacher(self):
        teacher, student = self.browser(self.lab.url), self.browser(self.lab.urls["to look"])
        teacher.press("ArrowLeft")
        self.at(student, 5)
        student.until("document.getElementById('says').textContent === ''")
        teacher.press("n")
        self.at(student, 7)
        self.assertEqual(student.value("document.getElementById('line').textContent"), "deliver 2.0.0.1 1.0.0.1")
        self.assertEqual(student.value("[...document.querySelectorAll('.work')].filter((each) => each.offsetParent).length"), 0)
        student.press("n")
        student.press("s")
        self.assertEqual(len(self.lab.value("steps")["steps"]), 7)
