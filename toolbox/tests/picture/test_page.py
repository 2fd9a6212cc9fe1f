"""The page of steps in a browser: clicked and typed through, and printed."""
import pathlib
import tempfile
import unittest

from browser import CHROMIUM, Browser
from common import Case, needs_pictures, tool

SCRIPT = """# step Two routers
router 1.0.0.1 1
router 2.0.0.1 2
# name 1.0.0.1 west
link 1.0.0.1 2.0.0.1 7
join 1.0.0.1 2.0.0.1
# step A prefix
origin 2.0.0.1 10.1.0.0/16
# It is told to the other one.
deliver 2.0.0.1 1.0.0.1
routes 1.0.0.1
join 1.0.0.1 2.0.0.1 # expect refused 11
"""
SHIFT = 8


@needs_pictures
@unittest.skipUnless(CHROMIUM, "chromium is not installed")
class InABrowser(Case):
    @classmethod
    def setUpClass(cls):
        folder = tempfile.TemporaryDirectory()
        cls.addClassCleanup(folder.cleanup)
        script, page = pathlib.Path(folder.name) / "script.bgp", pathlib.Path(folder.name) / "page.html"
        script.write_text(SCRIPT)
        tool("draw", script, "--steps", "--prefix", "10.1.0.0/16", "-o", page, status=0)
        cls.browser = Browser(folder.name + "/profile", "file://%s" % page)
        cls.addClassCleanup(cls.browser.close)

    def setUp(self):
        """Each test begins with the first step, and nothing in focus."""
        super().setUp()
        self.browser.value("fold(false), show(0), document.body.className = '', document.activeElement.blur()")

    def text(self, selector):
        """What an element shows; nothing where it is not to be seen."""
        return self.browser.value("(document.querySelector('%s') || {}).innerText" % selector)

    def at(self):
        return self.text("#count").strip()

    def test_clicks_and_keys(self):
        press, click = self.browser.press, self.browser.click
        self.assertEqual((self.at(), self.text(".command"), self.text(".named")),
                         ("Step 1 of 8", "2  router 1.0.0.1 1", None))
        done = []
        for act, key, wanted in ((click, "#next", 2), (press, "ArrowRight", 3), (press, " ", 4),
                                 (press, "ArrowLeft", 3), (click, "#back", 2), (press, " ", 3),
                                 (press, "PageDown", 4), (click, "#side", 4), (press, "ArrowRight", 5), (press, "ArrowRight", 6), (click, "#picture", 6),
                                 (press, "End", 8), (press, "ArrowRight", 8), (press, "Home", 1), (click, "#last", 8), (click, "#first", 1), (press, " ", 2)):
            act(key)
            done.append(key)
            self.assertEqual(self.at(), "Step %d of 8" % wanted, done)
        press(" ", SHIFT)
        self.assertEqual(self.at(), "Step 1 of 8")

    def test_space_on_a_focused_button_does_one_thing(self):
        for button, key, wanted in (("next", " ", 4), ("back", " ", 2), ("next", "Enter", 4), ("last", " ", 8),
                                    ("back", "ArrowLeft", 2), ("back", "ArrowRight", 4),
                                    ("headings", "ArrowRight", 4), ("headings", "End", 8), ("fold", "ArrowLeft", 2)):
            self.browser.value("show(2), document.getElementById('%s').focus()" % button)
            self.browser.press(key)
            self.assertEqual(self.at(), "Step %d of 8" % wanted, (button, key))

    def test_what_a_step_shows(self):
        self.browser.value("show(5)")
        self.assertEqual([self.text(each) for each in ("h2", ".says", ".command", ".named", ".replies")],
                         ["A prefix", "It is told to the other one.", "10  deliver 2.0.0.1 1.0.0.1",
                          "deliver 2.0.0.1 west", "took 10.1.0.0/16 update"])
        shown = self.browser.value("[...document.querySelectorAll('#picture text')].map((each) => each.textContent)")
        for text in ("west", "1.0.0.1", "from 2.0.0.1", "path 2", "update 10.1.0.0/16", "AS 1",
                     "just delivered (a withdrawal dashed)"):
            self.assertIn(text, shown)
        self.browser.press("End")
        self.assertEqual(self.browser.value("getComputedStyle(document.querySelector('.replies')).color"),
                         "rgb(197, 48, 48)")

    def test_no_router_moves(self):
        where = ("JSON.stringify([...document.querySelectorAll('#picture title')].filter((each) => each.textContent.startsWith('2.0'))"
                 ".map((each) => each.parentNode.getBoundingClientRect()))")
        places = set()
        for step in range(1, 8):
            self.browser.value("show(%d)" % step)
            places.add(self.browser.value(where))
        self.assertEqual(len(places), 1)
        self.assertIn("width", places.pop())

    def test_steps_are_folded_by_headings(self):
        self.browser.press("f")
        count = "document.querySelectorAll('.command').length"
        self.assertEqual((self.at(), self.text("h2"), self.browser.value(count)), ("Step 1 of 2", "Two routers", 4))
        self.browser.press("ArrowRight")
        self.assertEqual((self.at(), self.text("h2"), self.browser.value(count)), ("Step 2 of 2", "A prefix", 4))
        self.browser.press("f")
        self.assertEqual(self.at(), "Step 8 of 8")
        self.browser.value("(() => { const box = document.getElementById('headings'); box.value = '4'; box.onchange(); })()")
        self.assertEqual((self.at(), self.text(".command")), ("Step 5 of 8", "8  origin 2.0.0.1 10.1.0.0/16"))

    def test_words_are_hidden(self):
        self.browser.press("w")
        self.assertEqual(self.browser.value("document.getElementById('side').getBoundingClientRect().width"), 0)
        self.browser.click("#words")
        self.assertGreater(self.browser.value("document.getElementById('side').getBoundingClientRect().width"), 200)

    def test_one_step_a_sheet(self):
        self.assertEqual(self.browser.sheets(), 8)
        self.browser.press("f")
        self.assertEqual(self.browser.sheets(), 2)
        self.assertEqual(self.at(), "Step 1 of 2")
