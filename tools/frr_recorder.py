"""Runs FRR's own tests without routers: what they expect is noted, and what they ask is answered by somebody else.

A test of FRR's tests/topotests is a Python module that asks routers by `vtysh_cmd` and compares. Here its library
`lib`, and pytest, are stood in for. Nothing is started. The first change of a configuration, a link or a daemon ends
the run of a module: what is expected after it is about another network.
"""
import builtins
import importlib.util
import io
import json
import os
import signal
import sys
import time
import types
import unittest.mock
from dataclasses import dataclass
from typing import Any, Callable, List, Optional

LIBRARY = ("lib", "lib.topotest", "lib.topogen", "lib.topolog", "lib.common_config", "lib.bgp", "lib.topojson",
           "lib.ltemplate", "lib.snmptest", "lib.pim", "lib.ospf", "lib.micronet", "lib.lutil", "lib.bgprib", "pytest")
CHANGES = ("conf t", "configure", "conf\n", "clear ", " link set", " addr ", " route ", "kill", "sharp ")
LONGEST = 20


class Changed(Exception):
    """The test changes the network."""


class Unanswered(Exception):
    """The test asks what is not answered here."""


class Skipped(Exception):
    """The test skips itself."""


@dataclass
class Expectation:
    """What a test expects: where it says so, of which router's answer to which question.
    `wrong` is empty where it is met, and `unread` says why it cannot be judged."""
    place: str
    router: str
    question: str
    wrong: str = ""
    unread: str = ""


class Recorder:
    """What the tests of a module expect. `answer` gives a router's answer to a question, or None; `compare` tells what
    of an expected answer is not in another."""

    def __init__(self, routers: List[str], answer: Callable[[str, str], Optional[dict]],
                 compare: Callable[[Any, Any, str], str]) -> None:
        self.routers, self.answer, self.compare = routers, answer, compare
        self.found: List[Expectation] = []
        self.asked = ("", "")
        self.was_answered = True
        self.compared: List[str] = []

    def ask(self, router: str, question: str) -> dict:
        """A router's answer to a command of its shell."""
        is_question = question.split()[:1] == ["show"]
        if not is_question and any(word in question for word in CHANGES):
            raise Changed(question)
        said = self.answer(router, question) if is_question else {}
        self.asked, self.was_answered = (router, question), said is not None
        return said or {}

    def json_cmp(self, given: Any, expected: Any, *_: Any, **__: Any) -> Optional[str]:
        """What differs, or None."""
        if not self.was_answered:
            raise Unanswered(self.asked[1])
        wrong = self.compare(given, expected, self.asked[0])
        self.compared.append(wrong)
        return wrong or None

    def run_and_expect(self, function: Callable, wanted: Any = None, *_: Any, **__: Any) -> "tuple[bool, Any]":
        """One expectation; the test goes on as if it were met."""
        self.compared, self.was_answered, self.asked = [], True, ("", "")
        made = Expectation(place_of(), "", "")
        try:
            given = function()
            is_met = given == wanted or not given and not wanted
            told = "; ".join(filter(None, self.compared)) or "%s instead of %s" % (given, wanted)
            made.wrong = "" if is_met else told
            made.unread = "" if self.was_answered else "another question"
        except (Changed, Skipped):
            raise
        except Exception as error:
            made.unread = "%s: %s" % (type(error).__name__, error)
        made.router, made.question = self.asked
        if made.router:
            self.found.append(made)
        return True, wanted

    def run_test(self, name: str, test: Callable) -> None:
        """A test function; its own asserts are one expectation where it has no other."""
        before, self.asked, self.was_answered = len(self.found), ("", ""), True
        made = Expectation(name, "", "")
        try:
            words = test.__code__.co_varnames[:test.__code__.co_argcount]
            test(*[FakeNetwork(self) if word in ("tgen", "topo") else unittest.mock.MagicMock() for word in words])
        except (Changed, Skipped):
            raise
        except AssertionError as error:
            made.wrong = "an assert fails, %s: %s" % (line_of(error), str(error)[:200])
        except Exception as error:
            made.unread = "%s: %s" % (type(error).__name__, error)
        made.unread = made.unread if self.was_answered else "another question"
        made.router, made.question = self.asked
        if self.asked[0] and (made.wrong or len(self.found) == before):
            self.found.append(made)


def line_of(error: BaseException) -> str:
    trace = error.__traceback__
    while trace and trace.tb_next:
        trace = trace.tb_next
    return "line %d" % trace.tb_lineno if trace else ""


def place_of() -> str:
    """The line of the test that is run."""
    frame = sys._getframe(1)
    while frame.f_back and "topotests" not in frame.f_code.co_filename:
        frame = frame.f_back
    return "line %d" % frame.f_lineno


class FakeRouter:
    """A router that answers, and cannot be changed."""

    def __init__(self, recorder: Recorder, name: str) -> None:
        self.recorder, self.name = recorder, name
        self.net, self.logdir = self, "/nowhere"

    def vtysh_cmd(self, command: str, isjson: bool = False, daemon: Any = None) -> Any:
        said = self.recorder.ask(self.name, command)
        return said if isjson else json.dumps(said)

    def vtysh_multicmd(self, commands: Any, *_: Any, **__: Any) -> str:
        raise Changed(str(commands))

    def run(self, command: str, *_: Any, **__: Any) -> str:
        if "show" not in command and any(word in command for word in CHANGES):
            raise Changed(command)
        return ""

    cmd = cmd_raises = run

    def has_version(self, *_: Any) -> bool:
        return False

    def __getattr__(self, name: str) -> Callable:
        if any(word in name for word in ("enable", "stop", "start", "kill", "load")):
            raise Changed(name)
        return lambda *_, **__: ""


class FakeGears(dict):
    """A router of each name."""

    def __init__(self, recorder: Recorder) -> None:
        super().__init__((name, FakeRouter(recorder, name)) for name in recorder.routers)
        self.recorder = recorder

    def __missing__(self, name: str) -> FakeRouter:
        return FakeRouter(self.recorder, name)


class FakeNetwork:
    """The network of a test."""
    errors = ""

    def __init__(self, recorder: Recorder) -> None:
        self.gears = self.net = FakeGears(recorder)

    def routers(self) -> dict:
        return dict(self.gears)

    def routers_have_failure(self) -> bool:
        return False

    def __getattr__(self, name: str) -> Callable:
        return lambda *_, **__: {}


def skip(*_: Any, **__: Any) -> None:
    raise Skipped()


def changing(name: str) -> Callable:
    def change(*_: Any, **__: Any) -> None:
        raise Changed(name)
    return change


def fixture(*words: Any, **_: Any) -> Any:
    return words[0] if words and callable(words[0]) else lambda function: function


def stand_in(recorder: Recorder) -> None:
    """The library, and pytest, in sys.modules."""
    for name in LIBRARY:
        made = types.ModuleType(name)
        made.__getattr__ = lambda word: [] if word == "__all__" else unittest.mock.MagicMock()  # type: ignore
        made.__path__ = []  # type: ignore
        sys.modules[name] = made
    topotest, pytest = sys.modules["lib.topotest"], sys.modules["pytest"]
    topotest.json_cmp = recorder.json_cmp
    topotest.router_json_cmp = lambda router, command, expected, *_, **__: recorder.json_cmp(
        router.vtysh_cmd(command, isjson=True), expected)
    topotest.run_and_expect = topotest.run_and_expect_type = recorder.run_and_expect
    topotest.sleep = lambda *_, **__: None
    topotest.interface_set_status = changing("interface_set_status")
    for name in ("kill_router_daemons", "stop_router", "start_router", "shutdown_bringup_interface"):
        setattr(sys.modules["lib.common_config"], name, changing(name))
    sys.modules["lib"].topotest = topotest
    sys.modules["lib.topogen"].get_topogen = lambda *_: FakeNetwork(recorder)
    pytest.skip, pytest.fixture = skip, fixture


def guard() -> None:
    """No test writes a file, waits, or runs for long."""
    real_open, sleeps = builtins.open, [0]

    def reading(file: Any, mode: str = "r", *words: Any, **more: Any) -> Any:
        if set(mode) & set("wax+"):
            raise Changed("open %s" % file)
        return real_open(file, mode, *words, **more)

    def sleep(_: float) -> None:
        sleeps[0] += 1
        if sleeps[0] > 200:
            raise TimeoutError("it waits without end")

    def late(*_: Any) -> None:
        raise TimeoutError("it does not end")

    builtins.open, time.sleep = reading, sleep  # type: ignore
    signal.signal(signal.SIGALRM, late)


def expectations(path: str, recorder: Recorder) -> str:
    """Runs the tests of a module up to its first change; the change, or what kept it from being read."""
    stand_in(recorder)
    guard()
    sys.path.insert(0, os.path.dirname(path))
    sys.stdout = io.StringIO()
    try:
        spec = importlib.util.spec_from_file_location("frr_test", path)
        module = importlib.util.module_from_spec(spec)
        spec.loader.exec_module(module)
        tests = [each for name, each in vars(module).items() if name.startswith("test_") and hasattr(each, "__code__")]
        for test in sorted(tests, key=lambda each: each.__code__.co_firstlineno):
            signal.alarm(LONGEST)
            try:
                recorder.run_test(test.__name__, test)
            except Skipped:
                continue
    except Changed as change:
        return "ends at a change: %s" % " ".join(str(change).split())[:100]
    except Exception as error:
        return "cannot be run: %s: %s" % (type(error).__name__, error)
    finally:
        signal.alarm(0)
        sys.stdout = sys.__stdout__
    return ""
