"""Fault injection, stress tests and fuzzing: what each tool says of a program that forgets, loses, crashes or answers
otherwise."""
import collections
import os
import random
import re
import shutil
import subprocess
import unittest
import unittest.mock

from common import TOP, Case

import model
from simtools import (compile_fail, converge_scripts, fail_allocations, failing_streams, fuzz_logs, fuzz_scripts,
                      growth, line_faults, logs, programs, run_cases, script_faults, small_stacks, stress, team_logs,
                      try_mutants)
from simtools.running import Ran
from test_tools import called, command

NO_CC = "cc is not installed"
# A program that allocates WANTS times for each line, and is told by macros in what it is wrong.
SOURCE = r"""
    #include <stdio.h>
    #include <stdlib.h>
    #include <string.h>
    #include <unistd.h>
    static void *volatile kept;
    static int say(const char *text) { return write(1, text, strlen(text)) < 0; }
    static int allocates(void) { return (kept = malloc(1)) != 0; }
    int main(int count, char **words) {
        static char line[100000];
        char reply[40];
        int lines = 0;
        ssize_t n;
        while ((n = read(0, line, sizeof line - 1)) > 0) {
            line[n] = 0;
            if (!memcmp(line, "quiet", 5)) { say(INVENTS ? "refused 20 memory\n" : "yes\n"); continue; }
            if (CRASHES && lines == 2) abort();
            if (!allocates() || !allocates()) {
                lines += FORGETS;
                say(IGNORES ? "ok\n" : "refused 20 memory\n");
                continue;
            }
            sprintf(reply, "ok %d\n", ++lines);
            say(reply);
        }
        return count > 9 && words;
    }
"""


@unittest.skipUnless(shutil.which("cc"), NO_CC)
class FailAllocations(Case):
    def faults(self, *lines, **wrong):
        """What is told of the program, and how its runs ended."""
        flags = ["-D%s=%d" % (name, wrong.get(name, 0)) for name in ("FORGETS", "IGNORES", "INVENTS", "CRASHES")]
        path = str(self.folder / "program")
        subprocess.run(["cc", *flags, "-o", path, str(self.file("program.c", SOURCE))], check=True)
        replies = b"".join(b"yes\n" if line == b"quiet\n" else b"ok %d\n" % (n + 1) for n, line in enumerate(lines))
        with line_faults.library() as library:
            case = script_faults.Case("here", list(lines), replies)
            told, counts = script_faults.ScriptFaults(library, (path, "script"), case, None).faults()
        return told, {name: count for name, count in counts.items() if count}

    def test_each_growth_of_each_line(self):
        self.assertEqual(self.faults(b"a\n", b"b\n", b"quiet\n"),
                         ([], {"refused 20, and done when asked again": 4}))

    def test_a_refused_line_that_is_not_as_if_it_had_not_been(self):
        told, _ = self.faults(b"a\n", b"b\n", FORGETS=1)
        self.assertEqual(len(told), 4)
        self.assertIn("allocation 1 of b'a\\n' refused: status 0, b'refused 20 memory\\nyes\\nok 2\\nyes\\n'", told[0])

    def test_a_refusal_that_is_passed_over(self):
        self.assertIn("allocation 2 of b'a\\n' refused: status 0, b'ok\\nyes\\n", self.faults(b"a\n", IGNORES=1)[0][1])

    def test_a_memory_refusal_where_no_allocation_failed(self):
        told, _ = self.faults(b"a\n", b"quiet\n", INVENTS=1)
        self.assertEqual(told[0], "with nothing refused it does not answer what its case wants")
        self.assertIn("b'quiet\\n' is answered `refused 20 memory`, and no allocation failed", told)

    def test_a_crash(self):
        told, _ = self.faults(b"a\n", b"b\n", b"c\n", CRASHES=1)
        self.assertTrue(told[0].startswith("with nothing refused: status -6"), told)

    def test_what_a_copy_may_write(self):
        tried = script_faults.ScriptFaults("", (), script_faults.Case("here", [b"a\n"], b""), None)
        want = script_faults.WANT
        one = script_faults.Expected(b"a\n", 2, [want + b"x\n"], b"ok\nx\n")
        for out, is_refused, status, is_well in (
                (want + b"x\n", True, 0, True), (want + b"x\n", False, 0, False), (want + b"y\n", True, 0, False),
                (b"ok\nx\n", True, 0, True), (b"ok\nx\n", False, 0, True), (b"ok\ny\n", True, 0, False),
                (b"ok\nx\n", True, 11, False), (want + b"x\n", True, 11, False)):
            told = tried.judged(1, one, line_faults.Copy(b"", out, 2, is_refused, status))
            self.assertEqual(told == [], is_well, (out, is_refused, status))

    def test_who_may_want_memory(self):
        tried = script_faults.ScriptFaults("", (), script_faults.Case("here", [], b""), None)
        for line, reply, may in ((b"feed 1.0.0.1 2.0.0.1 update x", b"refused 19 limit\n", True),
                                 (b"feed 1.0.0.1 2.0.0.1 update x", b"refused 1 syntax\n", False),
                                 (b"feed 1.0.0.1 2.0.0.1 withdraw x", b"refused 2 no-router\n", False),
                                 (b"router x", b"refused 3 router-exists\n", False), (b"router x", b"ok\n", True),
                                 (b"quiet", b"yes\n", False)):
            self.assertEqual(tried.may_want(script_faults.Expected(line, 1, [], reply)), may, line)

    def test_calls_of_a_room(self):
        path = self.file("here.calls", "# a comment\njob\n> none\nopen\nbook\n> edits 0\n> ok\n")
        case = script_faults.calls_in(path)
        self.assertEqual(case.lines, [b"# a comment\n", b"job\n", b"open\n", b"book\n"])
        self.assertEqual(case.replies, b"none\nok\nedits 0\nok\n")
        room = script_faults.RoomFaults("", (), case, None)
        for reply, may in ((b"none\n", False), (b"stale: edits 1, now 2\n", False), (b"edits 0\n", False),
                           (b"refused 1 syntax\n", False), (b"refused 2 no-router\n", True), (b"yes\n", True),
                           (b"stale: no message\n", True), (b"done\n", True)):
            self.assertEqual(room.may_want(script_faults.Expected(b"x\n", 1, [], reply)), may, reply)

    def test_calls_that_are_made_together(self):
        """Of two deliveries none or one is made where memory was refused, or one is taken; the third is not there."""
        room = script_faults.RoomFaults("", (), script_faults.Case("here", [], b""), None)
        given = room.once(script_faults.TOGETHER)
        self.assertEqual([one.count(b"commit\n") for one in given], [0, 1, 2, 3])
        self.assertEqual([one.count(b"commit\n") for one in room.once(b"quiet\n")], [0])
        two = b"from a to b\ndone\ntook p update\n"
        once = [b"0\nok\n2\n", two + b"1\nok\n2\n", 2 * two + b"2\nok\n2\n", 2 * two + b"none\nnone\nnone\n2\nok\n2\n"]
        left = room.left(script_faults.TOGETHER, b"ok\n2\nok\n2\n", once)
        want = script_faults.WANT
        self.assertEqual(left, [want + b"0\nok\n2\n", want + b"1\nok\n2\n", b"ok\n1\nok\n2\n"])

    def test_deliveries_that_stand(self):
        """A line asks for fewer messages; those that were delivered before memory ran out stand, and are written."""
        for line, fewer in ((b"converge\n", b"converge 3\n"), (b"converge fair 9 echo\n", b"converge fair 3 echo\n"),
                            (b"converge  router\n", b"converge router 3\n"), (b"converge 7\n", b"converge 3\n"),
                            (b"converge random 5 9\n", b"converge random 5 3\n"),
                            (b"converge echo\n", b"converge 3 echo\n")):
            self.assertEqual(script_faults.fewer(line, 3), fewer)
        tried = script_faults.ConvergeFaults("", (), script_faults.Case("here", [], b""), None)
        want, counted = script_faults.WANT, b"not converged after 1 (1 updates, 0 withdrawals)\n"
        self.assertEqual(tried.left(b"converge\n", b"", [b"no\n", counted + b"yes\n"]),
                         [want + b"no\n", want + b"yes\n"])
        told = b"deliver a b\ntook p update\n"
        self.assertEqual(tried.left(b"converge echo\n", b"", [b"no\n", told + counted + b"yes\n"]),
                         [want + b"no\n", told + want + b"yes\n"])
        for line in (b"waiting", b"restore 1", b"restore 9"):
            self.assertFalse(tried.may_want(script_faults.Expected(line, 1, [], b"ok\n")), line)

    def test_snapshots_of_the_program(self):
        status, told = called(fail_allocations.main, "--on", "bgpsim", TOP / "cases" / "memory" / "snapshots.bgp")
        self.assertEqual((status, told.split("\n")[-2]), (0, "3 passed, 0 failed"), told)

    def test_questions_ask_for_all_there_is(self):
        asked = script_faults.questions([b"router 1.0.0.1 1\n", b"virtual 2.0.0.1 2\n", b"join 1.0.0.1 2.0.0.1\n",
                                          b"origin 1.0.0.1 10.0.0.0/8\n"]).decode().split("\n")
        for line in ("routes 1.0.0.1", "cost 1.0.0.1 2.0.0.1", "why 2.0.0.1 10.0.0.0/8", "trace 1.0.0.1 10.0.0.0",
                     "in 2.0.0.1 1.0.0.1", "out 1.0.0.1 2.0.0.1", "queue 2.0.0.1 1.0.0.1", "quiet"):
            self.assertIn(line, asked)

    def test_the_end_of_a_team(self):
        text = "router 1.0.0.1 1\nquiet\n"
        one, none = logs.log_of("router 1.0.0.1 1\n").encode(), logs.log_of(text).encode()
        told = b"file 1 line 2: refused 20 memory\n"
        for ran, is_well in ((Ran(none, b"", 0), True), (Ran(one, told, 0), True), (Ran(none, told, 0), False),
                             (Ran(one, b"", 0), False), (Ran(b"", b"memory\n", 5), True),
                             (Ran(none, b"memory\n", 5), False), (Ran(b"", told + b"memory\n", 5), True),
                             (Ran(b"", b"memory\nmore\n", 5), False), (Ran(b"", b"", -11), False)):
            self.assertEqual(fail_allocations.wrong_end(text, ran) is None, is_well, ran)

    def test_the_program_on_a_case(self):
        status, told = called(fail_allocations.main, TOP / "cases" / "memory" / "first-path.bgp")
        self.assertEqual(status, 0, told)
        self.assertGreater(int(re.search("done when asked again: ([0-9]+)", told)[1]), 50)


class StressTest(Case):
    def test_what_is_generated(self):
        for seed in (1, 2):
            test = stress.test_of(seed)
            lines = "".join(test.texts).split("\n")
            with self.subTest(seed=seed):
                self.assertGreaterEqual(sum(line.startswith("metric ") for line in test.texts[0].split("\n")), 200)
                for word in ("virtual", "stop", "start", "rule", "feed"):
                    self.assertTrue(any(line.startswith(word) for line in lines), word)
                self.assertGreater(sum(bool(team_logs.spelled(text).mistakes) for text in test.texts), 1)
        self.assertEqual(stress.test_of(1), stress.test_of(1))
        self.assertEqual({stress.test_of(seed).workers for seed in range(1, 5)}, {1, 2, 8, 64})

    def test_messages_that_are_left(self):
        net = model.Net()
        net.queues[1, 2] = [((0, 0), None)]
        test = stress.StressTest(["quiet\n"], 2)
        self.assertEqual(stress.lost(test, "bgpsim log 2\n@1 deliver 1.0.0.1 2.0.0.1\n", net), "1 messages are left")
        many = "@2 deliver 1.0.0.1 2.0.0.1\n" * test.turns()
        self.assertIsNone(stress.lost(test, many, net))
        self.assertIsNone(stress.lost(test, "", model.Net()))

    def test_a_stress_test(self):
        self.assertIsNone(stress.of_seed(2))

    def test_an_end_that_is_another_one(self):
        text = "router 1.0.0.1 1\norigin 1.0.0.1 10.1.0.0/16\n"
        reading = logs.Reading()
        log = logs.log_of(text)
        self.assertEqual(logs.verdict(log, reading), "ok 2")
        self.assertIsNone(stress.other_end(log, reading.net))
        self.assertIn("otherwise", stress.other_end(log.replace("10.1.0.0", "10.2.0.0"), reading.net))


class FuzzLogs(Case):
    def test_what_is_generated(self):
        found = [logs.verdict(one) for seed in range(1, 26) for one in fuzz_logs.fuzzed_of(seed)]
        self.assertEqual(fuzz_logs.fuzzed_of(7), fuzz_logs.fuzzed_of(7))
        for said in ("ok ", "bad line 1", "bad line", "differs at line"):
            self.assertGreater(sum(one.startswith(said) for one in found), 2, said)

    def test_the_end_is_made_right(self):
        lines = ["bgpsim log 2", "@0 quiet", "= yes", "end 5", ""]
        self.assertEqual(fuzz_logs.counted(lines)[3], "end 1")
        self.assertEqual(fuzz_logs.counted(lines[:3]), lines[:3])

    def test_a_program_that_finds_something_else(self):
        program = self.file("other", "#!/bin/sh\ncat > /dev/null\necho ok 3\n")
        program.chmod(0o755)
        ran = command("tools/fuzz-logs", "--logs", 12, PROGRAM=str(program))
        self.assertEqual(ran.returncode, 1)
        self.assertRegex(ran.stdout, r"\AFAILED seed 1, log [0-9]+: ok 3, and by the model (?:bad|differs)")

    def test_the_program(self):
        self.assertEqual(called(fuzz_logs.main, "--logs", 60, "--seed", 900), (0, "60 passed, 0 failed\n"))


class FuzzScripts(Case):
    def test_bytes_before_a_long_line(self):
        least = len(fuzz_scripts.NETWORK)
        for size in (least, least + 2, 4_042, 4_043, 4_044, 4_045, 8_044, 65_536):
            self.assertEqual(len(fuzz_scripts.filled(size)), size)
        self.assertEqual([fuzz_scripts.filled(size) for size in (22, least + 1)], [None, None])
        scripts = list(fuzz_scripts.long_scripts())
        whole = [one for one in scripts if one.name == "65537 bytes, begun at 131073"]
        self.assertEqual({fuzz_scripts.by_model(one.text).status for one in whole}, {3})
        self.assertEqual({one.text.index(b"\nquiet  ") + 1 for one in whole if b"quiet  " in one.text}, {131_073})

    def test_what_is_generated(self):
        kinds = dict(fuzz_scripts.KINDS)
        draw = random.Random(1)
        line = b"router 1.0.0.1 1"
        changed = {fuzz_scripts.with_a_byte_changed(draw, line) for _ in range(300)}
        self.assertTrue({len(one) - len(line) for one in changed} >= {-1, 0, 1})
        self.assertIn(b"\ndeliv\ndelive\ndeliver\ndeliver \n", kinds["cut"](1))
        self.assertIn(b"\0", kinds["random"](1))
        # each line is answered, but comments and blank lines
        self.assertGreater(fuzz_scripts.by_model(kinds["cut"](1)).out.count(b"refused 1 syntax"), 500)
        self.assertIn(b"\nsnapsho\nsnapshot\n", kinds["cut"](1, converge_scripts))

    def test_lines_without_end(self):
        """Two ASes change their minds for ever in the fair order, and not in that of this seed."""
        network = (TOP / "cases" / "converge" / "disagree.bgp").read_bytes().split(b"waiting\n")[0]
        left = b"converge  random 0\nconverge 60\nconverge router 1000 echo\r\nconverge 1000 loud\nconverge 01\nquiet\r"
        out = b"converge\nconverge fair 61\r\n  converge  fair  4294967295 echo \n"
        self.assertEqual(converge_scripts.bounded(network + out + left), network + left)

    def test_a_program_that_answers_otherwise(self):
        program = self.file("other", "#!/bin/sh\n%s %s | sed 's/^refused 1 .*/ok/'\n" % programs.MODEL)
        program.chmod(0o755)
        script = fuzz_scripts.Script("here", b"router 1.0.0.1 1\nquiet\0\nquiet\n")
        with unittest.mock.patch.dict(os.environ, {"PROGRAM": str(program)}):
            count, told = fuzz_scripts.compare(script)
        self.assertEqual(count, 3)
        self.assertEqual(told, "here, line 2: quiet\0\n    model: 'refused 1 syntax\\n'\n    script: 'ok\\n'")

    def test_the_program(self):
        scripts = list(fuzz_scripts.scripts_of(77))
        self.assertEqual(collections.Counter(script.subcommand for script in scripts), {"script": 3, "converge": 3})
        self.assertEqual([fuzz_scripts.compare(script)[1] for script in scripts], 6 * [None])


@unittest.skipUnless(shutil.which("cc"), NO_CC)
class Streams(Case):
    def test_a_program_that_does_not_notice(self):
        program = self.file("other", "#!/bin/sh\ncat > /dev/null 2>&1\necho yes\nexit 0\n")
        program.chmod(0o755)
        with unittest.mock.patch.dict(os.environ, {"PROGRAM": str(program)}), failing_streams.failing() as streams:
            reader = failing_streams.serving()
            tried = list(failing_streams.read_faults(streams, reader, b"quiet\n", b"yes\n"))
            self.assertEqual([wrong is None for _, wrong in tried], [True, True] + 7 * [False])
            with unittest.mock.patch.object(failing_streams, "PATIENCE", 1):
                self.assertIsNotNone(failing_streams.typed(reader, b"quiet\n")[1])
            tried = list(failing_streams.full_device(b"quiet\n", b"", []))
            self.assertFalse(any(wrong is None for _, wrong in tried))

    def test_some_streams(self):
        with failing_streams.failing() as streams:
            reader = failing_streams.serving()
            for tries in (failing_streams.read_faults(streams, reader, b"quiet\nrouter\n", b"yes\nrefused 1 syntax\n"),
                          failing_streams.write_faults(streams, reader, b"quiet\nquiet\n", b"yes\nyes\n"),
                          [failing_streams.typed(reader, b"quiet\nrouter\n")],
                          failing_streams.full_device(b"quiet\n", b"", list(map(str, failing_streams.TEAM)))):
                self.assertEqual([name for name, wrong in tries if wrong is not None], [])


class Stacks(Case):
    def test_a_crash_is_told(self):
        for ran, is_well in ((Ran(b"", b"memory\n", 5), True), (Ran(b"", b"", -11), False),
                             (Ran(b"", b"file 1 line 3: refused 20 memory\nmemory\n", 5), True),
                             (Ran(b"x", b"memory\n", 5), False), (Ran(logs.log_of("quiet\n").encode(), b"", 0), True)):
            self.assertEqual(small_stacks.wrong_end(ran) is None, is_well, ran)

    def test_the_least_stack(self):
        work = small_stacks.Work("here", lambda limit: limit(), lambda ran: None if ran >= 300 else "no")
        with unittest.mock.patch.object(small_stacks, "stack", lambda size: lambda: size):
            self.assertEqual(small_stacks.least(work), 384)


class WhatGrows(Case):
    """The table of bench/README.md is true within a factor of two."""

    def table(self):
        text = (TOP / "bench" / "README.md").read_text().split("## What one more costs")[1].split("\n## ")[0]
        rows = re.findall(r"^\| ([^|]+) \| ([0-9,]+) \| ([0-9,]+|-) \|", text, re.M)
        return {name: tuple(None if one == "-" else int(one.replace(",", "")) for one in more) for name, *more in rows}

    def test_each_row_is_measured(self):
        self.assertEqual(list(self.table()), [row.name for row in growth.ROWS])

    @unittest.skipUnless(shutil.which("valgrind"), "valgrind is not installed (apt-get install valgrind)")
    def test_the_figures(self):
        table = self.table()
        for name, steps, size in growth.measured():
            with self.subTest(row=name):
                self.assertTrue(table[name][0] / 2 <= steps <= table[name][0] * 2, (table[name], steps))
                self.assertEqual(table[name][1] is None, size is None)
                if size is not None:
                    self.assertTrue(table[name][1] / 2 <= size <= table[name][1] * 2, (table[name], size))


    def test_a_network_at_all_limits_at_once(self):
        """It is held in the memory that the page tells, whatever else runs."""
        script = run_cases.given(TOP / "cases" / "limits" / "all-at-once").decode().splitlines()
        told = re.search(r"at all limits at\s+once\b[^.]*\bin (\d+) MB", (TOP / "bench" / "README.md").read_text())
        most = int(told[1]) * 1_000_000
        self.assertTrue(most / 2 <= growth.memory(script) <= most)


class CompileFail(Case):
    def test_what_the_compiler_has_to_say(self):
        edit = self.file("seat.edit", "file: src/a.rt\nold: x\nnew: y\nsaid: expected `A<L>`, found `A<K>`\n"
                                      "said: expected `B`, found `C`\n")
        one, other = "error[mismatched-types]: expected `A<L>`, found `A<K>`", "error[mismatched-types]: expected `B`, found `C`"
        for told, missing in (("src/a.rt:7:3: %s\n./src/a.rt:9:3: %s\n" % (one, other), 0),
                              ("src/a.rt:7:3: %s\n" % one, 1), ("src/b.rt:7:3: %s\nsrc/a.rt:9:3: %s\n" % (one, other), 1),
                              ("src/a.rt:7:3: error: expected `A<L>`, found `A<K>`\n", 2), ("", 2)):
            self.assertEqual(len(compile_fail.wrong(edit, told)), missing, told)

    def test_each_edit_says_something(self):
        edits = list((TOP / "crates").glob("*/compile-fail/*.edit"))
        self.assertTrue(edits)
        for edit in edits:
            texts, why = try_mutants.texts_of(edit, edit.parent.parent)
            self.assertEqual((why, len(texts), len(compile_fail.lines_of(edit, "file"))), (None, 1, 1), edit)
            self.assertTrue(compile_fail.lines_of(edit, "said"), edit)


class Hooks(Case):
    @unittest.skipUnless(shutil.which("cc"), NO_CC)
    def test_lines_that_a_copy_tries(self):
        """The copy's own work is gone, and what stands behind its lines is read by the program."""
        program = str(self.folder / "counts")
        source = self.file("counts.c", r"""
            #include <unistd.h>
            int main(void) {
                char line[100], said[] = "0 x\n";
                while (read(0, line, sizeof line) > 0) {
                    said[0]++;
                    said[2] = line[0];
                    if (write(1, said, 4) < 4) return 1;
                }
                return 0;
            }
        """)
        subprocess.run(["cc", "-o", program, str(source)], check=True)
        with line_faults.library() as library:
            blocks = line_faults.block(0, b"b\nc\n") + line_faults.block(1, b"d\n")
            ran = line_faults.tried(library, (program,), b"a\n" + blocks + b"e\n")
        self.assertEqual([(copy.before, copy.out, copy.is_refused) for copy in ran.copies],
                         [(b"1 a\n", b"2 b\n3 c\n", False), (b"", b"2 d\n", False)])
        self.assertEqual((ran.rest, ran.status, ran.err, ran.own()), (b"2 e\n", 0, b"", b"1 a\n2 e\n"))
