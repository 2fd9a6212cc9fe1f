"""The page of lab in a browser: what moves, what people do together, and whether everybody can read and work it."""
import itertools
import json
import math
import re
import unittest

from browser import CHROMIUM
from common import TOOLBOX
from lab_page import MISSING, PALE, InABrowser
from test_lab import SCRIPT, STEPS

SHIFT = 8
# Notes where the message is, whenever it is somewhere else.
NOTE = """window.moved = []; new MutationObserver(() => {
  const found = document.querySelector(".moving");
  if (found) window.moved.push(found.getAttribute("transform"));
}).observe(document.getElementById("picture"), { subtree: true, childList: true, attributes: true, attributeFilter: ["transform"] })"""
# Who steps on sooner, in milliseconds, sees no message move.
A_LOOK = 320
GONE = "!document.querySelector('.moving')"
# What a person sees of red, green and blue who has no cones for long waves, middle ones, or short ones (Machado and
# others, 2009), and who sees no color.
BLIND = {"protanopia": ((0.152286, 1.052583, -0.204868), (0.114503, 0.786281, 0.099216), (-0.003882, -0.048116, 1.051998)),
         "deuteranopia": ((0.367322, 0.860646, -0.227968), (0.280085, 0.672501, 0.047413), (-0.011820, 0.042940, 0.968881)),
         "tritanopia": ((1.255528, -0.076749, -0.178779), (-0.078411, 0.930809, 0.147602), (0.004733, 0.691367, 0.303900))}


def linear(color):
    """The light of a color #rrggbb, each of 0 to 1."""
    parts = [int(color[at:at + 2], 16) / 255 for at in (1, 3, 5)]
    return [each / 12.92 if each <= 0.04045 else ((each + 0.055) / 1.055) ** 2.4 for each in parts]


def lab_of(light):
    """Light as CIE L*a*b*, in which distances are about those that are seen."""
    rows = ((0.4124, 0.3576, 0.1805), (0.2126, 0.7152, 0.0722), (0.0193, 0.1192, 0.9505))
    xyz = [sum(a * b for a, b in zip(row, light)) / white for row, white in zip(rows, (0.9505, 1, 1.089))]
    x, y, z = (each ** (1 / 3) if each > 0.008856 else 7.787 * each + 16 / 116 for each in (max(each, 0) for each in xyz))
    return 116 * y - 16, 500 * (x - y), 200 * (y - z)


@unittest.skipUnless(CHROMIUM, MISSING)
class Messages(InABrowser):
    def moved(self):
        """The places of a message, those that follow one another once."""
        found = self.browser.value("window.moved.splice(0)")
        return [tuple(map(float, re.findall(r"-?[0-9.]+", each))) for each, _ in itertools.groupby(found)]

    def test_a_message_goes_along_its_session(self):
        lab = self.lab(SCRIPT + "deliver 2.0.0.1 1.0.0.1\nnoorigin 2.0.0.1 10.1.0.0/16\n")
        self.open(lab)
        self.browser.value(NOTE)
        self.wait(A_LOOK)
        self.press("n")
        self.at(STEPS + 3)
        self.browser.until("window.moved.length > 1 && " + GONE)
        places = self.moved()
        middles = self.browser.value("['2.0.0.1', '1.0.0.1'].map((name) => { const box = document.querySelector(`[data-about='router ${name}'] rect`).getBBox();"
                                     " return [box.x + box.width / 2, box.y + box.height / 2, Math.hypot(box.width, box.height) / 2]; })")
        for place, (x, y, reach) in zip((places[0], places[-1]), middles):
            self.assertLess(math.dist(place, (x, y)), reach + 5)
        away = [math.dist(each, middles[0][:2]) for each in places]
        self.assertEqual(away, sorted(away))
        # Back, and on to a delivery again; it is seen once more.
        self.press("ArrowLeft")
        self.at(STEPS + 2)
        self.assertEqual(self.moved(), [])
        self.wait(A_LOOK)
        self.press("ArrowRight")
        self.browser.until("window.moved.length > 1 && " + GONE)
        self.assertEqual(self.moved()[0], places[0])

    def test_nothing_moves_where_it_would_be_in_the_way(self):
        lab = self.lab(SCRIPT + "deliver 2.0.0.1 1.0.0.1\n")
        last = self.open(lab)
        self.browser.value(NOTE)
        slide = "(() => { const slider = document.getElementById('slider'); slider.value = %d; slider.dispatchEvent(new Event('input')); })()"
        key = "document.dispatchEvent(new KeyboardEvent('keydown', { key: '%s' }))"
        for act in (slide % last, key % "End", key % "ArrowRight"):
            # By the slider; by a jump; and by two steps at once, after which there is no time to look.
            self.wait(A_LOOK)
            back = last - 1 if act == slide % last else last - 2
            self.browser.value(slide % back)
            self.at(back)
            self.wait(A_LOOK)
            self.browser.value(act if "ArrowRight" not in act else "%s, %s" % (act, act))
            self.at(last)
            self.assertEqual((self.browser.value(GONE), self.moved()), (True, []), act)
        self.browser.media(prefers_reduced_motion="reduce")
        self.addCleanup(self.browser.media)
        self.press("ArrowLeft")
        self.at(last - 1)
        self.wait(A_LOOK)
        self.press("ArrowRight")
        self.at(last)
        self.assertEqual((self.browser.value(GONE), self.moved()), (True, []))


@unittest.skipUnless(CHROMIUM, MISSING)
class Together(InABrowser):
    def setUp(self):
        super().setUp()
        self.made = self.lab(SCRIPT)
        self.last = self.open(self.made)

    def person(self, name):
        made = self.made.page(name)
        self.addCleanup(made.close)
        return made

    def test_one_proposes_and_another_accepts(self):
        ben = self.person("ben")
        self.browser.value("document.getElementById('proposing').open = true")
        self.set("#change", "# slower\nmetric 1.0.0.1 2.0.0.1 900\n\n")
        self.set("#title", "slow")
        self.browser.value("document.querySelector('#propose button').focus()")
        self.press("Enter")
        told = ben.until(lambda told: told.get("event") == "proposal")
        self.assertEqual((told["who"], told["name"], told["lines"]), ("page", "slow", ["# slower", "metric 1.0.0.1 2.0.0.1 900"]))
        self.browser.until("document.querySelectorAll('.proposal').length === 1")
        self.assertEqual(self.text(".proposal h2"), "Proposal 1 of page: slow")
        self.assertEqual(self.text(".proposal .does"), told["text"].rstrip("\n"))
        self.assertEqual(self.browser.value("[...document.querySelectorAll('.proposal button')].map((each) => each.textContent)"), ["Take it back"])
        self.assertIn("slow: 1 command made", ben.ask("accept", number=1)["text"])
        self.at(self.last + 1)
        self.browser.until("document.querySelectorAll('.proposal').length === 0")
        self.assertEqual(self.text("#line"), "metric 1.0.0.1 2.0.0.1 900")

    def test_a_proposal_of_another_one_is_text_and_can_be_accepted(self):
        ben = self.person("ben")
        name, note = "<b>west</b>", "# <img src=x onerror=\"document.title='owned'\">"
        ben.ask("propose", name=name, lines=[note, "fail 1.0.0.1 2.0.0.1"])
        self.browser.until("document.querySelectorAll('.proposal').length === 1")
        self.assertEqual(self.text(".proposal h2"), "Proposal 1 of ben: " + name)
        self.assertEqual(self.text(".proposal .lines"), note + "\nfail 1.0.0.1 2.0.0.1")
        self.assertIn("Sessions that went down", self.text(".proposal .does"))
        # Who comes later sees it too.
        self.open(self.made)
        self.browser.until("document.querySelectorAll('.proposal').length === 1")
        self.assertIn("Sessions that went down", self.text(".proposal .does"))
        self.assertEqual(self.browser.value("document.querySelectorAll('b, img, script:not([src])').length"), 0)
        self.assertEqual(self.browser.value("document.title"), "lab")
        # Somebody edits meanwhile: it is shown again, and accepted when it was.
        self.assertEqual(ben.ask("call", line="metric 1.0.0.1 2.0.0.1 8")["reply"], ["ok"])
        self.at(self.last + 1)
        self.browser.click(".proposal .accept")
        self.browser.until("document.getElementById('answer').textContent.includes('it is shown again')")
        ben.until(lambda told: told.get("event") == "proposal")
        ben.until(lambda told: told.get("event") == "proposal")
        self.browser.click(".proposal .accept")
        self.at(self.last + 2)
        self.assertIn("page accepts proposal 1 of ben", self.text("#answer"))
        self.browser.until("document.querySelectorAll('.proposal').length === 0")

    def test_a_proposal_is_declined_and_forms_fill_one(self):
        ben = self.person("ben")
        self.browser.value("document.getElementById('proposing').open = true, document.getElementById('gather').click()")
        self.browser.value("document.querySelector(\"[data-about='link 1.0.0.1 2.0.0.1']\").dispatchEvent(new Event('click'))")
        self.browser.value("[...document.querySelectorAll('#forms button')].find((each) => each.textContent === 'fail').click()")
        self.assertEqual(self.browser.value("document.getElementById('change').value"), "fail 1.0.0.1 2.0.0.1\n")
        self.assertEqual(len(self.made.value("steps")["steps"]), self.last)
        self.browser.value("document.querySelector('#propose button').click()")
        ben.until(lambda told: told.get("event") == "proposal")
        ben.ask("decline", number=1)
        self.browser.until("document.querySelectorAll('.proposal').length === 0")
        self.assertEqual(len(self.made.value("steps")["steps"]), self.last)

    def test_who_looks_sees_a_proposal_and_no_button(self):
        made = self.lab(SCRIPT, "--present", folder="class")
        self.open(made, made.urls["to look"])
        anna, ben = (made.page(name) for name in ("anna", "ben"))
        self.addCleanup(anna.close)
        self.addCleanup(ben.close)
        anna.ask("propose", name="slow", lines=["metric 1.0.0.1 2.0.0.1 900"])
        self.browser.until("document.querySelectorAll('.proposal').length === 1")
        self.browser.go(made.urls["to look"])
        self.browser.until("document.querySelectorAll('.proposal').length === 1")
        self.assertIn("Nothing changed", self.text(".proposal .does"))
        self.assertEqual(self.browser.value("document.querySelectorAll('.proposal button').length"), 0)
        ben.ask("accept", number=1)
        self.browser.until("document.querySelectorAll('.proposal').length === 0")

    def command(self, line):
        """Types a command, and Enter."""
        self.set("#command", line)
        self.browser.value("document.getElementById('command').focus()")
        self.press("Enter", "Escape")

    def test_undo_of_ones_own_last_edit(self):
        ben = self.person("ben")
        self.command("metric 1.0.0.1 2.0.0.1 9")
        self.at(self.last + 1)
        self.press("u")
        self.at(self.last + 2)
        self.browser.until("document.getElementById('answer').textContent.startsWith('undone')")
        self.assertEqual(self.text("#answer"), "undone: metric 1.0.0.1 2.0.0.1 9, by `metric 1.0.0.1 2.0.0.1 7`")
        self.assertEqual(ben.changed("metric 1.0.0.1 2.0.0.1 7")["who"], "page")
        self.command("router 3.0.0.1 3")
        self.at(self.last + 3)
        self.browser.click("#undo")
        self.browser.until("document.getElementById('answer').className === 'work refused'")
        self.assertIn("`router 3.0.0.1 3` cannot be undone exactly", self.text("#answer"))
        self.assertEqual(len(self.made.value("steps")["steps"]), self.last + 3)

    def test_who_changed_what(self):
        ben = self.person("ben")
        ben.ask("call", line="metric 1.0.0.1 2.0.0.1 9")
        self.at(self.last + 1)
        self.browser.value("document.querySelector(\"[data-about='router 1.0.0.1']\").focus()")
        self.press("Enter", "b")
        self.browser.until("document.getElementById('table').innerText.includes('Who changed what about 1.0.0.1')")
        rows = self.browser.value("[...document.querySelectorAll('#table table:first-of-type tr')].slice(1).map((row) => [...row.cells].map((cell) => cell.innerText))")
        self.assertEqual([(row[0], row[2], row[3]) for row in rows],
                         [("7", "ben", "metric 1.0.0.1 2.0.0.1 9"), ("5", "the script", "join 1.0.0.1 2.0.0.1"),
                          ("4", "the script", "link 1.0.0.1 2.0.0.1 7"), ("1", "the script", "router 1.0.0.1 1")])
        self.assertRegex(rows[0][1], r"^\d{4}-\d\d-\d\d \d\d:\d\d:\d\d$")
        self.browser.click("#table table:first-of-type tr:nth-child(3) button")
        self.at(5)
        self.press("b")
        self.browser.until("!document.getElementById('table').innerText.includes('Who changed what')")

    def test_what_stays_is_not_made_anew(self):
        """A button that is pressed while others change something does what it says when it is let go, and what is in
        focus stays so."""
        ben = self.person("ben")
        self.browser.click("[data-about='router 1.0.0.1'] rect")
        self.press("b")
        to_the_session = "#table table:first-of-type tr:nth-child(2) button"
        self.browser.until("document.querySelector('%s') !== null" % to_the_session)

        def changed():
            ben.ask("call", line="origin 2.0.0.1 10.9.0.0/16")
            self.at(self.last + 1)
        self.browser.click(to_the_session, changed)
        self.at(5)
        self.browser.value("document.querySelector('%s').focus()" % to_the_session)
        ben.ask("propose", name="slow", lines=["metric 1.0.0.1 2.0.0.1 900"])
        self.browser.until("document.querySelector('.proposal .accept') !== null")
        self.assertEqual(self.browser.value("document.activeElement === document.querySelector('%s')" % to_the_session), True)
        self.browser.value("document.querySelector('.proposal .accept').focus()")
        ben.ask("propose", name="down", lines=["fail 1.0.0.1 2.0.0.1"])
        self.browser.until("document.querySelectorAll('.proposal').length === 2")
        self.assertEqual(self.browser.value("document.activeElement === document.querySelector('.proposal .accept')"), True)
        self.press("Enter")
        self.browser.until("document.getElementById('answer').textContent !== ''")
        self.assertEqual(self.text("#answer"), "page accepts proposal 1 of ben, slow: 1 command made")


@unittest.skipUnless(CHROMIUM, MISSING)
class ForEverybody(InABrowser):
    def test_words_have_contrast(self):
        lab = self.lab(SCRIPT + "deliver 2.0.0.1 1.0.0.1\nfail 1.0.0.1 2.0.0.1\nmend 1.0.0.1 2.0.0.1\ndeliver 2.0.0.1 1.0.0.1\norigin 1.0.0.1 10.2.0.0/16\n")
        last = self.open(lab)
        ben = lab.page("ben")
        self.addCleanup(ben.close)
        ben.ask("propose", name="slow", lines=["metric 1.0.0.1 2.0.0.1 9"])
        self.browser.value("document.getElementById('proposing').open = true")
        self.browser.value("document.querySelector(\"[data-about='router 1.0.0.1']\").dispatchEvent(new Event('click'))")
        self.browser.until("document.querySelectorAll('.proposal').length === 1 && !document.getElementById('table').hidden")
        self.set("#command", "join 1.0.0.1 2.0.0.1")
        self.browser.value("document.getElementById('asked').requestSubmit()")
        self.browser.until("document.getElementById('answer').className.includes('refused')")
        for step in (last, last - 1, last - 3, STEPS + 1):
            self.browser.value("document.getElementById('slider').value = %d, document.getElementById('slider').dispatchEvent(new Event('input'))" % step)
            self.at(step)
            found = self.browser.value("(%s)(4.5)" % PALE)
            self.assertGreater(found["count"], 60)
            self.assertEqual(found["pale"], [], "step %d" % step)

    def test_colors_are_told_apart_by_the_colour_blind(self):
        """Lines of the picture that mean something else differ in color for everybody, or in how they are drawn."""
        source = (TOOLBOX / "bgptools" / "web" / "static" / "drawn.js").read_text()
        colors = dict(re.findall(r'"(#[0-9a-f]{6})": "(#[0-9a-f]{6})"', source[source.index("const COLORS"):source.index("};", source.index("const COLORS"))]))
        internal, external, forwards, way, delivered = (colors[each] for each in ("#2b6cb0", "#c05621", "#2f855a", "#d53f8c", "#6b46c1"))
        for name, rows in BLIND.items():
            seen = {color: lab_of([sum(a * b for a, b in zip(row, linear(color))) for row in rows]) for color in colors.values()}
            for one, other in ((internal, external), (forwards, way), (forwards, delivered), (way, delivered), (internal, delivered), (external, delivered)):
                self.assertGreater(math.dist(seen[one], seen[other]), 15, (name, one, other))

    def test_a_keyboard_is_enough(self):
        lab = self.lab(SCRIPT)
        self.open(lab)
        ben = lab.page("ben")
        self.addCleanup(ben.close)
        ben.ask("propose", name="slow", lines=["metric 1.0.0.1 2.0.0.1 9"])
        self.browser.value("document.querySelector(\"[data-about='session 1.0.0.1 2.0.0.1']\").focus()")
        self.press("Enter")
        self.browser.until("document.querySelectorAll('.proposal').length === 1 && document.querySelectorAll('#forms form').length > 10")
        self.browser.value("document.activeElement.blur(), document.getElementById('proposing').open = true")
        # All that can be clicked or typed into, and is to be seen.
        wanted = self.browser.value("""(window.all = [...document.querySelectorAll("a[href], button, input, select, textarea, summary, g[role=button], [tabindex='0']")]
            .filter((each) => each.checkVisibility())).map((each) => each.id || each.dataset.about || each.tagName + each.textContent)""")
        self.assertGreater(len(wanted), 50)
        found = []
        for _ in range(len(wanted) + 4):
            self.press("Tab")
            found.append(self.browser.value("window.all.indexOf(document.activeElement)"))
        self.assertEqual([wanted[at] for at in set(range(len(wanted))) - set(found)], [])
        # As they stand in the page, from wherever it begins.
        order = [each for at, each in enumerate(found) if each >= 0 and each not in found[:at]]
        begin = order.index(0)
        self.assertTrue(order[begin:] + order[:begin] == list(range(len(wanted))), order)
        # Enter and space work what is in focus, and what is in focus is seen.
        for selector, key, wants in (("#last", "Enter", "document.body.dataset.step === '6'"), ("#back", " ", "document.body.dataset.step === '5'"),
                                     ("#forth", "Enter", "document.body.dataset.step === '6'"), ("#first", "Enter", "document.body.dataset.step === '0'"),
                                     ("#last", "Enter", "document.body.dataset.step === '6'"), ("#large", "Enter", "document.documentElement.className === 'large'"),
                                     ("#large", " ", "document.documentElement.className === ''"), ("summary", "Enter", "!document.getElementById('proposing').open"),
                                     ("[data-about='router 1.0.0.1']", " ", "document.getElementById('about').textContent === 'router 1.0.0.1'"),
                                     ("#check", "Enter", "document.getElementById('answer').textContent === 'ok 5'"),
                                     (".proposal .accept", "Enter", "document.body.dataset.step === '7'"),
                                     ("[data-about='deliver 2.0.0.1 1.0.0.1']", "Enter", "document.body.dataset.step === '8'")):
            self.browser.value("document.querySelector(%s).focus()" % json.dumps(selector))
            self.press("Tab")
            self.browser.press("Tab", SHIFT)
            self.assertEqual(self.browser.value("document.activeElement === document.querySelector(%s)" % json.dumps(selector)), True, selector)
            self.assertNotIn(self.browser.value("getComputedStyle(document.activeElement).outlineStyle"), ("none", ""), selector)
            self.press(key)
            self.browser.until(wants)
        # What was in focus is gone with its message: its session is.
        self.assertEqual(self.browser.value("document.activeElement.dataset.about"), "session 1.0.0.1 2.0.0.1")
        self.press("c")
        self.assertEqual(self.browser.value("document.activeElement.id"), "command")
        self.press("Escape", "ArrowLeft")
        self.at(7)

    def test_large_type(self):
        self.open(self.lab(SCRIPT))
        sizes = """["button", "#count", "#reply", "#picture text"].map((name) => document.querySelector(name))
            .map((each) => parseFloat(getComputedStyle(each).fontSize) * (each instanceof SVGElement ? each.getScreenCTM().a : 1))"""
        before = self.browser.value(sizes)
        self.press("l")
        after = self.browser.value(sizes)
        for one, other in zip(before[:3], after[:3]):
            self.assertAlmostEqual(other, one * 1.4)
        self.assertGreaterEqual(after[3], 16)
        self.assertEqual(self.browser.value("[document.documentElement.scrollWidth, document.getElementById('large').getAttribute('aria-pressed')]"), [1280, "true"])
        self.press("l")
        self.assertEqual(self.browser.value(sizes), before)

    def test_a_printed_step(self):
        self.open(self.lab("# step Two\n# What is said.\n" + SCRIPT + "deliver 2.0.0.1 1.0.0.1\nbest 1.0.0.1 10.1.0.0/16\n# The end.\n"))
        self.browser.until("!document.getElementById('table').hidden")
        self.browser.media("print")
        self.addCleanup(self.browser.media)
        seen = "[...document.querySelectorAll('header, button, form, #log, #picture, #table, #heading, #line, #reply')].filter((each) => each.checkVisibility()).map((each) => each.id || each.textContent)"
        self.assertEqual(self.browser.value(seen), ["picture", "table", "heading", "line", "reply", "best 1.0.0.1 10.1.0.0/16"])
        self.assertEqual(self.browser.sheets(), 1)
