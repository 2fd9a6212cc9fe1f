"""The lessons in the page of lab: each to its end and back, and looked at when it changes; and a large one that is
fluid."""
import os
import unittest

import look
from browser import CHROMIUM
from lab_page import MISSING, InABrowser
from bgptools.convergence.run import Run
from test_lab import Lab

AGAIN = "it looks otherwise than when somebody looked at it: `toolbox/tests/look.py %s` makes pictures; when they are well, `--seen` notes it"
# Presses a key for each step, and waits for the picture: the milliseconds of each until it is drawn, how many parts
# were made, and how many pictures were asked for. Whoever steps looks a moment before he goes on.
FLUID = """async (key, first, count, pause) => {
  const frame = () => new Promise((done) => requestAnimationFrame(() => setTimeout(done, 0)));
  const times = [], made = [];
  let turned = 0;
  const watch = new MutationObserver((all) => { turned += all.length; });
  watch.observe(document.querySelector("#picture svg"), { attributes: true });
  performance.clearResourceTimings();
  performance.setResourceTimingBufferSize(10000);
  for (let at = 1; at <= count; at += 1) {
    const step = String(key === "ArrowRight" ? first + at : first - at), start = performance.now();
    const drawn = new Promise((done) => {
      const look = () => (document.body.dataset.step === step ? done() : setTimeout(look, 0));
      document.dispatchEvent(new KeyboardEvent("keydown", { key }));
      look();
    });
    await drawn;
    await frame();
    times.push(performance.now() - start);
    made.push(Number(document.body.dataset.made));
    await new Promise((done) => setTimeout(done, pause));
  }
  watch.disconnect();
  return { times, made, turned, asked: performance.getEntriesByType("resource").filter((each) => each.name.includes("/picture?")).length,
    parts: document.querySelectorAll("#picture svg > *").length };
}"""


def large(routers, steps):
    """A script of so many routers in ASes of five, which ends after so many steps, mostly deliveries."""
    address = "{0}.0.0.{1}".format
    lines, size = ["# step A large network"], 5
    ases = routers // size
    places = [(asn, number) for asn in range(1, ases + 1) for number in range(1, size + 1)]
    lines += ["router %s %d" % (address(*each), each[0]) for each in places]
    for asn in range(1, ases + 1):
        for number in range(1, size + 1):
            lines.append("link %s %s 1" % (address(asn, number), address(asn, number % size + 1)))
        lines += ["join %s %s" % (address(asn, 1), address(asn, number)) for number in range(2, size + 1)]
        beside = address(asn % ases + 1, 1)
        lines += ["link %s %s 1" % (address(asn, 3), beside), "join %s %s" % (address(asn, 3), beside)]
        lines += ["client %s %s on" % (address(asn, 1), address(asn, number)) for number in range(2, size + 1)]
    lines += ["# step Prefixes"] + ["origin %s 10.%d.0.0/16" % (address(asn, 2), asn) for asn in range(1, ases + 1)]
    with Run() as run:
        for line in lines:
            run.say(line)
        converged = run.converge()
    made = [line for line in lines if not line.startswith("#")]
    lines += ["deliver %s %s" % way for way in converged.deliveries[:steps - len(made)]]
    return "\n".join(lines) + "\n"


@unittest.skipUnless(CHROMIUM, MISSING)
class Lessons(InABrowser):
    def test_each_lesson_to_its_end_and_back(self):
        known = look.seen()
        self.assertEqual(known[:len(look.FRAME)], look.frame(), "lab.html or lab.css changed: " + AGAIN % "")
        self.assertGreater(len(look.LESSONS), 9)
        for lesson in look.LESSONS:
            name = look.name_of(lesson)
            with self.subTest(lesson=name):
                folder = self.folder / lesson.stem
                folder.mkdir()
                made = Lab(folder, lesson)
                try:
                    steps = made.value("steps")["steps"]
                    self.open(made)
                    found = self.browser.call("(%s)(%d)" % (look.STEP_THROUGH, len(steps)))
                finally:
                    made.close()
                self.assertEqual((found["wrong"], len(found["there"])), ([], len(steps) + 1))
                self.assertEqual(found["there"], found["back"])
                self.assertGreater(len({each["heading"] for each in steps}), 2)
                self.assertGreater(sum(bool(each["says"]) + len(each["asks"]) for each in steps), 4)
                self.assertEqual(look.lines_of(name, steps, found["there"]), [line for line in known if " %s, " % name in line],
                                 AGAIN % lesson.stem)


@unittest.skipUnless(CHROMIUM, MISSING)
class Fluid(InABrowser):
    def test_a_step_of_a_large_network_does_little(self):
        """Of 60 routers after 500 steps, a step makes few parts of the picture anew, and asks for one that is kept."""
        made = self.lab(large(60, 500))
        self.assertEqual(self.open(made), 500)
        for key, first in (("ArrowLeft", 500), ("ArrowRight", 480), ("ArrowLeft", 500)):
            found = self.browser.call("(%s)('%s', %d, 20, 30)" % (FLUID, key, first))
            print_times(key, found)
            self.assertGreater(found["parts"], 300)
            self.assertLess(sorted(found["made"])[10], 20)
            self.assertLess(max(found["made"]), 60)
            self.assertLessEqual(found["asked"], 21)
            # All words would be measured again.
            self.assertEqual(found["turned"], 0)
        # All of them were seen before, and are kept.
        self.assertLessEqual(found["asked"], 2)


def print_times(key, found):
    """Tells how long steps took, which is the machine's, and no test."""
    times = sorted(found["times"])
    if not os.environ.get("VERBOSE"):
        return
    print("%s: %d steps, median %.0f ms, at most %.0f ms; made %s of %d parts; %d pictures asked for" % (
        key, len(times), times[len(times) // 2], times[-1], sorted(found["made"]), found["parts"], found["asked"]))
