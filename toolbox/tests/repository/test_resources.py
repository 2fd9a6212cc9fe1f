"""tools/resources: what it says of programs that take more, and of figures; the scripts that it measures."""
import contextlib
import io
import os
import shutil
import subprocess
import unittest
import unittest.mock

from common import PATIENCE, Case

from bgptools.program import location
from simtools import commands, resource_scripts, resources

# A program that takes more of something where a macro says so.
SOURCE = r"""
    #include <fcntl.h>
    #include <pthread.h>
    #include <stdlib.h>
    #include <unistd.h>
    static void *volatile kept;
    static void *nothing(void *given) { return given; }
    int main(void) {
        char text[4096];
        volatile int steps = 0;
        pthread_t thread;
        while (read(0, text, sizeof text) > 0) write(1, "ok\n", 3);
        for (int n = 0; n < 100 * (1 + SMALL); n++) free(kept = malloc(8));
        for (int n = 0; n < HELD; n++) kept = malloc(100000);
        free(kept = malloc(100 + 100000 * LARGE));
        for (int n = 0; n < 1000000 * SLOW; n++) steps++;
        for (int n = 0; n < READS; n++) read(0, text, 1);
        for (int n = 0; n < OPENS; n++) close(open("/dev/null", O_RDONLY));
        for (int n = 0; n < THREADS; n++) { pthread_create(&thread, 0, nothing, 0); pthread_join(thread, 0); }
        return FAILS;
    }
"""
MACROS = ("SMALL", "HELD", "LARGE", "SLOW", "READS", "OPENS", "THREADS", "FAILS")
# The scripts in which something is refused, as they are meant to.
REFUSED = {"tour", "three-ases", "refusals", "mistakes"}
FIGURES = dict(zip(resources.COLUMNS, (1_000, 100, 5_000, 800, 3, 2, 1, 4)))


class Judged(Case):
    def judged(self, percent, **changed):
        return resources.judged({**FIGURES, **changed}, FIGURES, percent)

    def test_the_same_and_a_little_more(self):
        self.assertEqual(self.judged(2), ([], []))
        self.assertEqual(self.judged(2, instructions=1_020, bytes=5_100), ([], []))
        self.assertEqual(self.judged(10, instructions=1_100), ([], []))

    def test_more_is_told_by_column(self):
        for column, count in (("instructions", 1_021), ("allocations", 103), ("bytes", 5_101), ("peak", 817),
                              ("reads", 4)):
            with self.subTest(column=column):
                worse, better = self.judged(2, **{column: count})
                self.assertEqual((len(worse), better), (1, []))
                self.assertIn("%s: %d, and %d are recorded" % (column, count, FIGURES[column]), worse[0])
        self.assertIn("(+2.1 percent); at most 2 percent", self.judged(2, instructions=1_021).worse[0])

    def test_less_is_no_fault(self):
        worse, better = self.judged(2, instructions=979)
        self.assertEqual(worse, [])
        self.assertIn("instructions: 979, and 1000 are recorded (-2.1 percent)", better[0])

    def test_fewer_threads_or_more_files_are(self):
        for changed in ({"threads": 3}, {"threads": 5}, {"opens": 0}, {"opens": 3}):
            with self.subTest(changed=changed):
                self.assertEqual(len(self.judged(10, **changed).worse), 1)

    def test_nothing_was_recorded(self):
        self.assertEqual(len(resources.judged({**FIGURES, "reads": 1}, {**FIGURES, "reads": 0}, 2).worse), 1)

    def test_keys_that_decide_nothing(self):
        for steps, is_well in ((1_000, False), (1_001, True), (999, True)):
            other = {**FIGURES, "instructions": steps}
            self.assertEqual(resources.keys_decide(lambda name, keys: other, resources.KEYED, FIGURES), is_well, steps)


class Table(Case):
    def test_what_is_written_is_read(self):
        path = self.folder / "figures.csv"
        figures = {"tour": FIGURES, "team": {**FIGURES, "threads": 9}}
        resources.write(path, {**figures, "a script that is no more": FIGURES})
        self.assertEqual(resources.read(path), figures)

    def test_what_is_no_table(self):
        for text in ("script,instructions\ntour,5\n", "script,%s\ntour,%s\n" % (
                ",".join(resources.COLUMNS), ",".join("x" * 8)), "a\nb\n"):
            with self.subTest(text=text), self.assertRaisesRegex(commands.Missing, "is no table of figures"):
                resources.read(self.file("figures.csv", text))
        with self.assertRaisesRegex(commands.Missing, "none.csv cannot be read"):
            resources.read(self.folder / "none.csv")

    def test_each_script_is_recorded(self):
        self.assertEqual(list(resources.read(resources.FIGURES)), list(resource_scripts.WORKS))


class Scripts(Case):
    def test_nothing_is_refused_that_is_to_be_measured(self):
        for name, work in resource_scripts.WORKS.items():
            given = self.file(resource_scripts.ENGINEER, work.text())
            with self.subTest(script=name), given.open("rb") as text:
                ran = subprocess.run([location.program(), *work.words], stdin=text, capture_output=True, cwd=self.folder,
                                     timeout=PATIENCE, check=True)
                self.assertEqual(ran.stderr, b"")
                self.assertGreater(len(ran.stdout), 5)
                self.assertEqual(b"\nrefused " in ran.stdout or b"\n= refused " in ran.stdout, name in REFUSED)


@unittest.skipUnless(shutil.which("cc") and shutil.which("valgrind"), "cc or valgrind is not installed")
class Programs(Case):
    def called(self, *words, **wrong):
        """The exit status and the output of the command, of the program that is wrong in this."""
        flags = ["-D%s=%d" % (name, wrong.get(name, 0)) for name in MACROS]
        path = str(self.folder / "program")
        subprocess.run(["cc", "-w", *flags, "-o", path, str(self.file("program.c", SOURCE))], check=True)
        told = io.StringIO()
        with unittest.mock.patch.dict(os.environ, {"PROGRAM": path}), contextlib.redirect_stdout(told):
            status = resources.main([*words, "--figures", str(self.folder / "figures.csv"), "tour"])
        return status, told.getvalue()

    def test_a_program_that_takes_more(self):
        self.assertEqual(self.called("--record")[0], 0)
        kept = (self.folder / "figures.csv").read_bytes()
        self.assertEqual(self.called(), (0, "1 passed, 0 failed\n"))
        for macro, columns in (("SMALL", {"instructions", "allocations", "bytes"}), ("LARGE", {"bytes", "peak"}),
                               ("HELD", {"bytes", "peak"}), ("SLOW", {"instructions"}), ("READS", {"reads"}),
                               ("OPENS", {"opens"}), ("THREADS", {"threads"})):
            with self.subTest(macro=macro):
                status, told = self.called(**{macro: 1})
                self.assertEqual(status, 1)
                found = {line.split(":")[1].strip() for line in told.splitlines() if line.startswith("FAILED tour: ")}
                self.assertLessEqual(columns, found, told)
                self.assertTrue(told.endswith("record it anew: tools/resources --record NAME\n0 passed, 1 failed\n"))
        self.assertEqual((self.folder / "figures.csv").read_bytes(), kept)

    def test_a_program_that_fails(self):
        status, told = self.called("--record", FAILS=3)
        self.assertEqual(status, 1)
        self.assertIn("FAILED tour: status 3: ", told)

    def test_no_figures(self):
        self.assertEqual(self.called()[0], 1)

    def test_a_script_that_is_not_there(self):
        with contextlib.redirect_stderr(io.StringIO()) as told, self.assertRaises(SystemExit):
            resources.main(["nowhere"])
        self.assertIn("there is no script `nowhere`: the scripts are tour, ", told.getvalue())
