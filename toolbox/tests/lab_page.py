"""What the tests of the lab's page share: a browser for several labs, and what is asked of the page."""
import json
import tempfile

import pytest

from browser import Browser
from common import Case
from test_lab import Lab

MISSING = "chromium is not installed: apt-get install chromium"

# The words of the page with the contrast of each to what is behind it, those that have less than `least`.
PALE = """(least) => {
  const light = (color) => {
    const [r, g, b] = color.match(/[0-9.]+/g).slice(0, 3).map((each) => each / 255).map((each) => each <= 0.03928 ? each / 12.92 : ((each + 0.055) / 1.055) ** 2.4);
    return 0.2126 * r + 0.7152 * g + 0.0722 * b;
  };
  const ratio = (one, other) => { const [a, b] = [light(one), light(other)].sort((a, b) => b - a); return (a + 0.05) / (b + 0.05); };
  const isSeen = (color) => color !== "none" && !/, 0\\)$/.test(color) && color !== "transparent";
  const behind = (each) => {
    for (let one = each; one; one = one.parentElement) if (isSeen(getComputedStyle(one).backgroundColor)) return getComputedStyle(one).backgroundColor;
    return "rgb(255, 255, 255)";
  };
  // Of a word in the picture, the last shape with a filling that is under its middle and was drawn before it.
  const under = (text) => {
    const box = text.getBBox(), x = box.x + box.width / 2, y = box.y + box.height / 2;
    const shapes = [...text.ownerSVGElement.querySelectorAll("rect, circle")].filter((shape) => isSeen(getComputedStyle(shape).fill)
      && shape.compareDocumentPosition(text) & Node.DOCUMENT_POSITION_FOLLOWING);
    const found = shapes.filter((shape) => { const own = shape.getBBox(); return x >= own.x && x <= own.x + own.width && y >= own.y && y <= own.y + own.height; });
    return found.length ? getComputedStyle(found[found.length - 1]).fill : behind(text.ownerSVGElement);
  };
  const found = [];
  for (const each of document.querySelectorAll("body *")) {
    const own = [...each.childNodes].some((node) => node.nodeType === 3 && node.textContent.trim());
    const isText = own || each.matches("input:not([type=range]):not([type=checkbox]), textarea, select");
    if (!isText || !each.checkVisibility() || each.closest("title, option")) continue;
    const isDrawn = each instanceof SVGElement, style = getComputedStyle(each);
    const one = isDrawn ? style.fill : style.color, other = isDrawn ? under(each) : behind(each);
    if (ratio(one, other) < least) found.push([each.textContent || each.id, one, other, ratio(one, other)]);
    found.count = (found.count || 0) + 1;
  }
  return { count: found.count, pale: [...found] };
}"""

# The words of the picture that lie over one another, and those that are cut by the box that they stand in.
CROWDED = """() => {
  const texts = [...document.querySelectorAll("#picture text")].map((each) => [each, each.getBBox()]);
  const found = [];
  texts.forEach(([one, a], at) => {
    for (const [other, b] of texts.slice(at + 1)) {
      const across = Math.min(a.x + a.width, b.x + b.width) - Math.max(a.x, b.x), down = Math.min(a.y + a.height, b.y + b.height) - Math.max(a.y, b.y);
      if (across > 2 && down > 4) found.push([one.textContent, other.textContent]);
    }
    const box = one.parentNode.querySelector("rect");
    if (!box) return;
    const around = box.getBBox(), over = Math.max(around.x - a.x, a.x + a.width - around.x - around.width, around.y - a.y - 2, a.y + a.height - around.y - around.height - 2);
    if (over > 1) found.push([one.textContent, "is cut"]);
  });
  return found;
}"""


@pytest.mark.xdist_group("browsers")
class InABrowser(Case):
    """Tests with one browser, and a lab for each."""
    @classmethod
    def setUpClass(cls):
        folder = tempfile.TemporaryDirectory()
        cls.addClassCleanup(folder.cleanup)
        cls.browser = Browser(folder.name, "about:blank#lab")
        cls.addClassCleanup(cls.browser.close)

    def lab(self, script, *words, folder="lab"):
        """A lab with a script, in a folder of its own."""
        path = self.file(folder + "/script.bgp", script)
        made = Lab(path.parent, path, *words)
        self.addCleanup(made.close)
        return made

    def open(self, lab, url=None):
        """The page of a lab, when it has drawn its last step: how many steps there are."""
        self.browser.go(url or lab.url)
        steps = len(lab.value("steps")["steps"])
        self.at(steps)
        return steps

    def at(self, step):
        """Waits until a step is drawn, with its tables, and nothing else is to be drawn."""
        self.browser.until("document.body.dataset.step === '%d' && document.body.dataset.state === 'drawn'" % step)

    def text(self, selector):
        """What an element shows; nothing where there is none."""
        return self.browser.value("(document.querySelector(%s) || {}).innerText" % json.dumps(selector))

    def set(self, selector, value):
        """Types into a field."""
        self.browser.value("document.querySelector(%s).value = %s" % (json.dumps(selector), json.dumps(value)))

    def wait(self, milliseconds):
        """Lets the page have some time, as somebody who looks."""
        self.browser.call("new Promise((done) => setTimeout(done, %d))" % milliseconds)

    def press(self, *keys):
        for key in keys:
            self.browser.press(key)
