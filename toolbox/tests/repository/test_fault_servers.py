"""The driver of faults of `share` and `lab`: what it finds wrong, and that it injects what it says."""
import importlib.util
import unittest

from common import Case

from simtools import fault_scenarios, fault_servers, faulty_server
from simtools.fault_clients import Entry, Outcome, Wrong, entries_in
from simtools.fault_words import SCRIPT, WORDS, Scene
from test_tools import called, command

METRIC = "metric 1.0.0.1 2.0.0.1 2"
MADE = [Entry(4, METRIC, ["ok"])]
HAS_TORNADO = importlib.util.find_spec("tornado") is not None


class Judging(unittest.TestCase):
    """What became of a request, and what stands in the log for it."""

    def judged(self, answer, entries, calls=((4, METRIC),), word="call"):
        return fault_servers.judged(None, WORDS[word], Outcome(answer), entries, list(calls))

    def test_an_answer_that_stands_in_the_log(self):
        self.assertEqual(self.judged({"reply": ["ok"], "told": []}, MADE), "")

    def test_an_answer_that_stands_in_no_log(self):
        self.assertIn("it was answered, and the log has []", self.judged({"reply": ["ok"], "told": []}, []))

    def test_an_answer_with_another_reply(self):
        self.assertEqual(self.judged({"reply": ["refused 2 no-router"], "told": []}, MADE), "the log has another reply")

    def test_an_error_that_says_that_nothing_was_done(self):
        error = {"error": "an error came up (MemoryError): the request was not done"}
        self.assertEqual(self.judged(error, []), "")
        self.assertIn("the error says that it was not done", self.judged(error, MADE))

    def test_an_error_that_says_what_was_done(self):
        error = {"error": "an error came up (MemoryError): call 11 was done and stands in the log"}
        self.assertEqual(self.judged(error, MADE), "")

    def test_a_connection_that_ended(self):
        for entries in ([], MADE):
            self.assertEqual(fault_servers.judged(None, WORDS["call"], Outcome(None), entries, [(4, METRIC)]), "")

    def test_a_call_of_another_one_or_twice(self):
        for entries in ([Entry(3, METRIC, ["ok"])], MADE + MADE):
            self.assertIn("was asked for", self.judged({"error": "x"}, entries))

    def test_deliveries_are_those_that_are_told(self):
        entries = [Entry(1, "deliver 1.0.0.1 2.0.0.1", ["took 10.9.0.0/16 update"])]
        told = [{"line": each.line, "reply": each.reply} for each in entries]
        for deliveries, is_well in ((told, True), ([], False), (told + told, False)):
            found = fault_servers.judged(None, WORDS["step"], Outcome({"deliveries": deliveries}), entries, None)
            self.assertEqual(found == "", is_well, found)

    def test_calls_in_a_log(self):
        text = "bgpsim log 2\n@4 %s\n= ok\n@1 routes 1.0.0.1\n= a\n= end 1\n" % METRIC
        self.assertEqual(entries_in(text), MADE + [Entry(1, "routes 1.0.0.1", ["a", "end 1"])])


class Lines(unittest.TestCase):
    """The lines that raise."""

    def test_lines_of_the_request_path(self):
        for name, is_well in (("session/hub.py", True), ("web/lab.py", True), ("jobs/pool.py", True), ("session/shared_network.py", True),
                              ("session/lifecycle.py", False), ("cli/draw.py", False),
                              ("program/streams.py", False)):
            self.assertEqual(faulty_server.is_traced(faulty_server.PACKAGE + name), is_well, name)
        self.assertFalse(faulty_server.is_traced("/usr/lib/python3/asyncio/events.py"))

    def test_lines_that_need_no_memory(self):
        for line, is_plain in (("    try:", True), ("except Mistake as x:", True), ("    return", True),
                               ("    return found", False), ("    raise Mistake(text)", False), ("tryst = 1", False),
                               ("    passed = 1", False), ("    finally:", True)):
            self.assertEqual(bool(faulty_server.PLAIN.match(line)), is_plain, line)

    def test_calls_that_fail(self):
        calls = faulty_server.Calls()
        calls.fail({"what": "write", "error": "ENOSPC", "path": ".seats", "times": 1})
        self.assertIsNone(calls.due("write", "/x/log"))
        fault = calls.due("write", "/x/log.seats")
        self.assertEqual((type(fault), fault.strerror), (OSError, "No space left on device"))
        self.assertIsNone(calls.due("write", "/x/log.seats"))
        calls.fail({"what": "decode", "error": "RecursionError"})
        self.assertIsInstance(calls.due("decode"), RecursionError)


class Servers(Case):
    """Tries on servers that run."""

    def scene(self, way="socket", tool="share"):
        scene = Scene(way, tool)
        self.addCleanup(scene.server.close)
        return scene

    def test_a_line_that_raises(self):
        scene = self.scene()
        found = fault_servers.tried(scene, fault_servers.Try("call", "socket", 300))
        self.assertEqual((found.lines >= 300, len(found.fired), found.wrong), (True, 1, ""))
        self.assertIn("MemoryError", scene.server.errors())
        found = fault_servers.tried(scene, fault_servers.Try("call", "socket", fault_servers.NEVER))
        self.assertEqual((found.fired, found.wrong), ([], ""))
        self.assertEqual(fault_servers.ended_well(scene), "")

    def test_lines_that_raise_for_a_while(self):
        scene = self.scene()
        found = fault_servers.tried(scene, fault_servers.Try("call", "socket", 300, 50))
        self.assertEqual((len(found.fired) > 1, found.wrong), (True, ""))

    def test_a_fault_that_is_not_told(self):
        scene = self.scene()
        self.assertEqual(fault_servers.untold(scene, ["session/hub.py:1 in x"]), "it is not told on standard error")
        self.assertEqual(fault_servers.untold(scene, []), "")

    def test_others_who_are_told_something_else(self):
        scene = self.scene()
        step = scene.other.ask("who")["step"]
        scene.other.heard()
        scene.edit(scene.actor, METRIC)
        self.assertEqual(fault_servers.others(scene, step, False), "")
        self.assertIn("another one is told of the steps []", fault_servers.others(scene, step, False))

    def test_a_server_that_was_killed(self):
        scene = self.scene()
        scene.server.process.kill()
        scene.server.process.wait()
        found = fault_servers.tried(scene, fault_servers.Try("who", "socket", 3))
        self.assertNotEqual(found.wrong, "")
        self.assertIn("status -9", fault_servers.ended_well(scene))

    def test_a_clock_that_stands_before_1970(self):
        fault_scenarios.clock()

    def test_a_program_that_is_killed(self):
        fault_scenarios.killed(2)

    @unittest.skipUnless(HAS_TORNADO, "tornado is not installed")
    def test_a_page(self):
        scene = self.scene("page", "lab")
        found = fault_servers.tried(scene, fault_servers.Try("call", "page", 500))
        self.assertEqual((len(found.fired), found.wrong), (1, ""))

    def test_what_has_to_hold(self):
        with self.assertRaises(Wrong):
            fault_scenarios.check(False, "x")
        self.assertIn("router 1.0.0.1 1\n", SCRIPT)


class Command(Case):
    """The command."""

    def test_one_try(self):
        status, told = called(fault_servers.main, "--only", "who-socket", "--at", "100")
        self.assertEqual(status, 0, told)
        self.assertTrue(told.endswith("2 passed, 0 failed\n"), told)

    def test_a_word_that_is_none(self):
        ran = command("tools/fault-servers", "nothing")
        self.assertEqual(ran.returncode, 2)
        self.assertIn("`nothing` is no request: --list has them", ran.stderr)

    def test_its_words(self):
        told = command("tools/fault-servers", "--list").stdout.split("\n")
        for name in ("call-socket", "call-page", "picture-get", "clock"):
            self.assertIn(name, told)
