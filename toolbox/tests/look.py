#!/usr/bin/env python3
"""Shows what `lab` draws of each lesson, so that somebody looks at it.

    toolbox/tests/look.py [NAME..] [--to FOLDER] [--seen]

Each lesson is stepped through to its end and back, and the last step under each heading becomes a picture in FOLDER
(/tmp/lab-lessons). What lies over something else or is cut is told, and so is which lessons look otherwise than in
data/lab-seen.txt. After you have looked at them, --seen writes that file anew: it has, for each lesson and heading, a
digest of what is drawn there, by which the tests know when to look again."""
import argparse
import hashlib
import json
import pathlib
import re
import sys
import tempfile

HERE = pathlib.Path(__file__).resolve().parent
sys.path[:0] = [str(HERE), *sorted({str(path.parent) for path in HERE.glob("*/test_*.py")}), str(HERE.parent)]

from browser import Browser  # noqa: E402
from common import DATA, TOOLBOX, TOP  # noqa: E402

SEEN = DATA / "lab-seen.txt"
LESSONS = sorted((TOOLBOX / "lessons").glob("*.lesson")) + sorted((TOP / "examples" / "lessons").glob("*.bgp"))
# What all lessons have in common.
FRAME = ("lab.html", "lab.css")
# Steps through all steps, to the end and back, by keys: of each, forward and back, a text that says what is drawn.
STEP_THROUGH = """async (last) => {
  const drawn = (step) => new Promise((done) => {
    const look = () => (document.body.dataset.step === String(step) && document.body.dataset.state === "drawn" ? done() : setTimeout(look, 4));
    look();
  });
  const press = async (key, step) => { document.dispatchEvent(new KeyboardEvent("keydown", { key })); await drawn(step); };
  const NAMES = ["x", "y", "cx", "cy", "r", "width", "height", "d", "points", "fill", "stroke", "stroke-width", "stroke-dasharray", "font-size"];
  const part = (each) => [each.tagName, ...NAMES.map((name) => each.getAttribute(name) || ""), each.children.length ? "" : each.textContent,
    ...[...each.children].map(part)].join(" ");
  const told = () => [...document.querySelectorAll("#heading, #says, #line, #reply, #asks, #table")].map((each) => each.textContent).join("\\n")
    + [...document.querySelectorAll("#picture svg > *:not(.moving)")].map(part).join("\\n");
  const there = [], back = [];
  await press("Home", 0);
  there.push(told());
  for (let step = 1; step <= last; step += 1) { await press("ArrowRight", step); there.push(told()); }
  back.push(told());
  for (let step = last - 1; step >= 0; step -= 1) { await press("ArrowLeft", step); back.unshift(told()); }
  return { there, back, wrong: [...document.querySelectorAll("#log .refused")].map((each) => each.textContent) };
}"""


def digest(text):
    return hashlib.sha256(text.encode()).hexdigest()[:12]


def name_of(lesson):
    return str(lesson.relative_to(TOP))


def frame():
    """The lines of the file that all lessons have in common."""
    return ["%s %s" % (digest((TOOLBOX / "bgptools" / "web" / "static" / name).read_text()), name) for name in FRAME]


def ends(steps):
    """The last step under each heading, with its heading."""
    headings = [each.get("heading", "") for each in steps]
    return [(step, heading) for step, heading in enumerate(headings, 1) if step == len(steps) or headings[step] != heading]


def lines_of(name, steps, told):
    """The lines of the file for a lesson: of each heading, what is drawn at all its steps."""
    lines, first = [], 0
    for last, heading in ends(steps):
        lines.append("%s %s, %s: steps %d to %d" % (digest("\n".join(told[first:last + 1])), name, heading or "no heading", first, last))
        first = last + 1
    return lines


def seen():
    return SEEN.read_text().splitlines() if SEEN.exists() else []


def main(words=None):
    from lab_page import CROWDED
    from test_lab import Lab
    parser = argparse.ArgumentParser(description=__doc__, formatter_class=argparse.RawDescriptionHelpFormatter)
    parser.add_argument("names", nargs="*", metavar="NAME", help="lessons whose name has one of these words (all)")
    parser.add_argument("--to", type=pathlib.Path, default=pathlib.Path("/tmp/lab-lessons"), metavar="FOLDER")
    parser.add_argument("--seen", action="store_true", help="write data/lab-seen.txt anew: you have looked at all of them")
    chosen = parser.parse_args(words)
    chosen.to.mkdir(parents=True, exist_ok=True)
    known, lines = seen(), frame()
    with tempfile.TemporaryDirectory() as folder, Browser(folder, "about:blank#lab") as browser:
        for lesson in LESSONS:
            name = name_of(lesson)
            if chosen.names and not any(word in name for word in chosen.names):
                lines += [each for each in known if " %s, " % name in each]
                continue
            with tempfile.TemporaryDirectory() as beside:
                lab = Lab(pathlib.Path(beside), lesson)
                try:
                    made = _looked(browser, lab, lesson, chosen.to, CROWDED)
                finally:
                    lab.close()
            for line in made:
                print("%s %s" % ("as seen" if line in known else "LOOK AT", line.split(" ", 1)[1]))
            lines += made
    if chosen.seen:
        SEEN.write_text("\n".join(lines) + "\n")


def _looked(browser, lab, lesson, folder, crowded):
    """Makes the pictures of a lesson: its lines for the file."""
    browser.go(lab.url)
    steps = lab.value("steps")["steps"]
    browser.until("document.body.dataset.step === '%d'" % len(steps))
    found = browser.call("(%s)(%d)" % (STEP_THROUGH, len(steps)))
    for step, heading in ends(steps):
        browser.value("document.getElementById('slider').value = %d, document.getElementById('slider').dispatchEvent(new Event('input'))" % step)
        browser.until("document.body.dataset.step === '%d' && document.body.dataset.state === 'drawn'" % step)
        browser.screenshot(folder / ("%s-%03d-%s.png" % (lesson.stem, step, re.sub("[^a-z]+", "-", heading.lower()))))
        for pair in browser.value("(%s)()" % crowded):
            print("%s, step %d: %s" % (lesson.name, step, json.dumps(pair)))
    for step, (there, back) in enumerate(zip(found["there"], found["back"])):
        if there != back:
            print("%s, step %d: it looks otherwise on the way back" % (lesson.name, step))
    for wrong in found["wrong"]:
        print("%s: %s" % (lesson.name, wrong))
    return lines_of(name_of(lesson), steps, found["there"])


if __name__ == "__main__":
    main()
