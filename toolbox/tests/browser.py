"""A browser without a window, for tests that click and type through a page. It is spoken to through two pipes, as
Chromium's DevTools have it."""
import base64
import contextlib
import json
import os
import select
import shutil
import signal
import subprocess
import sys
import time

from common import PATIENCE

CHROMIUM = os.environ.get("CHROMIUM") or shutil.which("chromium") or shutil.which("chromium-browser")
KEYS = {"ArrowRight": 39, "ArrowLeft": 37, " ": 32, "Home": 36, "End": 35, "PageDown": 34, "Tab": 9, "Enter": 13, "Escape": 27}
# Runs a command with two pipes where the browser wants them.
AT_3_AND_4 = """import fcntl, os, sys
given, told = (fcntl.fcntl(int(each), fcntl.F_DUPFD_CLOEXEC, 10) for each in sys.argv[1:3])
os.dup2(given, 3), os.dup2(told, 4)
os.execvp(sys.argv[3], sys.argv[3:])"""
# What a browser does beside its page, and tests have no use for.
QUIETLY = ("--no-first-run", "--no-default-browser-check", "--disable-extensions", "--disable-background-networking",
           "--disable-component-update", "--disable-default-apps", "--disable-sync", "--disable-breakpad",
           "--disable-dev-shm-usage", "--mute-audio")
# The middle of an element, where it is in view and nothing else lies over it; else nothing.
MIDDLE = """((selector) => {
  const found = document.querySelector(selector), acts = "button, a, summary, [data-about]";
  if (!found) return null;
  found.scrollIntoView({ block: "nearest" });
  const box = found.getBoundingClientRect(), middle = [box.x + box.width / 2, box.y + box.height / 2];
  const under = document.elementFromPoint(...middle);
  const isHit = under && (found.contains(under) || (found.closest(acts) && found.closest(acts) === under.closest(acts)));
  return isHit ? middle : null;
})"""


class Browser:
    """A browser with one page."""

    def __init__(self, folder, url):
        (given, self.writes), (self.reads, told) = os.pipe(), os.pipe()
        command = [CHROMIUM, "--headless", "--no-sandbox", "--disable-gpu", "--remote-debugging-pipe",
                   "--window-size=1280,720", "--user-data-dir=%s" % folder, *QUIETLY]
        self.process = subprocess.Popen([sys.executable, "-S", "-c", AT_3_AND_4, str(given), str(told), *command],
                                        pass_fds=(given, told), start_new_session=True,
                                        stdin=subprocess.DEVNULL, stdout=subprocess.DEVNULL, stderr=subprocess.DEVNULL)
        os.close(given)
        os.close(told)
        self.waiting, self.number, self.session = b"", 0, None
        try:
            target = self.ask("Target.createTarget", url=url)["targetId"]
            self.session = self.ask("Target.attachToTarget", targetId=target, flatten=True)["sessionId"]
            self._opened()
        except BaseException:
            self.close()
            raise

    def _opened(self):
        """Waits until the page is there. On the way to it there may be none, or the one before it."""
        self.until("(location.protocol !== 'about:' || location.hash) && document.readyState === 'complete'"
                   " && !window.isLeft", is_there=False)

    def ask(self, method, **values):
        """The result of a command."""
        self.number += 1
        asked = {"id": self.number, "method": method, "params": values,
                 **({"sessionId": self.session} if self.session else {})}
        os.write(self.writes, json.dumps(asked).encode() + b"\0")
        while True:
            told = self._message()
            if told.get("id") == self.number:
                if "error" in told:
                    raise AssertionError("%s: %s" % (method, told["error"]))
                return told["result"]

    def _message(self):
        while b"\0" not in self.waiting:
            if not select.select([self.reads], [], [], PATIENCE)[0]:
                raise AssertionError("the browser says nothing")
            part = os.read(self.reads, 1 << 20)
            if not part:
                raise AssertionError("the browser ended")
            self.waiting += part
        message, self.waiting = self.waiting.split(b"\0", 1)
        return json.loads(message)

    def value(self, expression):
        """The value of an expression in the page."""
        told = self.ask("Runtime.evaluate", expression=expression, returnByValue=True)
        if "exceptionDetails" in told:
            raise AssertionError("%s: %s" % (expression, told["exceptionDetails"]))
        return told["result"].get("value")

    def until(self, expression, is_there=True):
        """What something in the page comes to, once that is true. With `is_there=False` the page itself may still have
        to come."""
        end = time.monotonic() + PATIENCE
        while True:
            try:
                found = self.value(expression)
            except AssertionError as fault:
                if is_there or time.monotonic() > end or self.process.poll() is not None:
                    raise
                found = str(fault)
            else:
                if found:
                    return found
            if time.monotonic() > end:
                raise AssertionError("it never held that %s; the page: %s" % (expression, self._state(found)))
            time.sleep(0.02)

    def _state(self, found):
        """What the page shows of itself, for who reads why a test failed."""
        with contextlib.suppress(AssertionError):
            return self.value("[location.pathname.length, JSON.stringify(document.body.dataset), ...['count', 'line', 'answer', 'log']"
                              ".map((name) => (document.getElementById(name) || {}).innerText)]")
        return found

    def press(self, key, modifiers=0):
        """Presses a key and lets it go."""
        text = {"text": key} if len(key) == 1 else {"text": "\r"} if key == "Enter" else {}
        code = {"windowsVirtualKeyCode": KEYS.get(key, ord(key[0].upper())), "key": key,
                "code": "Space" if key == " " else key, "modifiers": modifiers}
        self.ask("Input.dispatchKeyEvent", type="keyDown", **code, **text)
        self.ask("Input.dispatchKeyEvent", type="keyUp", **code)

    def click(self, selector, meanwhile=None):
        """Clicks into the middle of an element, once that stands still and nothing lies over it. `meanwhile` is called
        between the press and the release."""
        asked = "%s(%s)" % (MIDDLE, json.dumps(selector))
        before, (x, y) = None, self.until(asked)
        while before != (x, y):
            time.sleep(0.02)
            before, (x, y) = (x, y), self.until(asked)
        given = {"x": x, "y": y, "button": "left", "clickCount": 1}
        self.ask("Input.dispatchMouseEvent", type="mousePressed", **given)
        if meanwhile is not None:
            meanwhile()
        self.ask("Input.dispatchMouseEvent", type="mouseReleased", **given)

    def go(self, url):
        """Goes to another page, and waits until it is there."""
        self.value("window.isLeft = true")
        self.ask("Page.navigate", url=url)
        self._opened()

    def call(self, expression):
        """The value that a promise of the page comes to."""
        told = self.ask("Runtime.evaluate", expression=expression, returnByValue=True, awaitPromise=True)
        if "exceptionDetails" in told:
            raise AssertionError("%s: %s" % (expression, told["exceptionDetails"]))
        return told["result"].get("value")

    def media(self, kind="", **features):
        """Lets the page believe that it is printed, or that its reader wants less motion; without words, neither."""
        wanted = [{"name": name.replace("_", "-"), "value": value} for name, value in features.items()]
        self.ask("Emulation.setEmulatedMedia", media=kind, features=wanted)

    def screenshot(self, path):
        """Writes a picture of what is to be seen of the page."""
        path.write_bytes(base64.b64decode(self.ask("Page.captureScreenshot", format="png")["data"]))

    def sheets(self):
        """How many sheets the page prints."""
        return base64.b64decode(self.ask("Page.printToPDF", preferCSSPageSize=True)["data"]).count(b"/Type /Page\n")

    def close(self):
        """Ends the browser with all of its processes."""
        self.session = None
        with contextlib.suppress(AssertionError, OSError):
            self.ask("Browser.close")
            self.process.wait(PATIENCE)
        with contextlib.suppress(ProcessLookupError):
            os.killpg(self.process.pid, signal.SIGKILL)
        self.process.wait()
        os.close(self.writes)
        os.close(self.reads)

    def __enter__(self):
        return self

    def __exit__(self, *_):
        self.close()
