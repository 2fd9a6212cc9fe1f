"""tools/build: in which order libraries are proved, in how many jobs, and what is told of one that is not; and ./bgpsim, which asks for it."""
import importlib.machinery
import importlib.util
import io
import os
import shutil
import subprocess
import sys
import threading
import unittest
import unittest.mock
from contextlib import redirect_stderr

from common import PATIENCE, TOP, Case


# What the kit's functions give the prover so that it keeps its work.
KEPT = ["--incremental", "out/incremental"]


def build_tool():
    """tools/build as a module."""
    loader = importlib.machinery.SourceFileLoader("build_tool", str(TOP / "tools" / "build"))
    module = importlib.util.module_from_spec(importlib.util.spec_from_loader("build_tool", loader))
    sys.modules["build_tool"] = module
    loader.exec_module(module)
    return module


class Library:
    """A library as the kit has it, of so many lines, over others; it notes when it is proved."""

    def __init__(self, folder, name, lines, deps=(), fails=False):
        self.folder, self.name, self.lines, self.deps, self.fails = str(folder / name), name, lines, list(deps), fails
        os.makedirs(self.folder + "/src")
        with open(self.folder + "/src/lib.rt", "w") as file:
            file.write("\n" * lines)
        self.order, self.lock, self.stamps = [], threading.Lock(), 0
        self.rlib, self.calls = "%s/out/rlib/%s.rlib" % (self.folder, name), []

    def below(self):
        found = []
        for low in self.deps:
            found += [it for it in [*low.below(), low] if it not in found]
        return found

    def stamp(self):
        self.stamps += 1
        return self.name + "".join(low.stamp() for low in self.deps)

    def count(self, _):
        return self.lines

    def is_built(self):
        return False

    def makes_rlib(self):
        return True

    def has_kept(self):
        return os.path.isdir(self.folder + "/out/incremental")

    def call(self, *words):
        self.calls.append(words)
        self.out.write("goal left open\n")
        return int(self.fails)

    def build_rlib(self, flags, anew):
        with self.lock:
            self.order.append((self.name, flags[1]))
        return self.call("rattle", "build", *flags, *KEPT, "-o", self.rlib)


class Building(Case):
    def setUp(self):
        super().setUp()
        self.tool = build_tool()

    def tower(self, **fails):
        """base, then low and side over it, then top over both; side is the shorter way."""
        made, shared = [], []
        for name, lines, deps in (("base", 10, ()), ("low", 50, (0,)), ("side", 5, (0,)), ("top", 20, (1, 2))):
            made.append(Library(self.folder, name, lines, [made[at] for at in deps], fails.get(name, False)))
            made[-1].order = shared
        return made

    def proved(self, libraries):
        """In which order they are proved, with their jobs, on four processors."""
        with redirect_stderr(io.StringIO()), unittest.mock.patch.object(os, "sched_getaffinity", lambda _: set(range(4))):
            self.tool.prove_libraries(libraries, KEPT, self.tool.Teller())
        return libraries[0].order

    def test_each_after_what_it_names_and_processors_are_shared(self):
        order = self.proved(self.tower())
        self.assertEqual([order[0], order[-1]], [("base", "4"), ("top", "4")])
        self.assertEqual(sorted(order[1:3]), [("low", "4"), ("side", "2")])

    def test_memory_is_not_exceeded(self):
        """Where there is none, libraries go one by one, in one job; where it holds two checks, in less jobs than processors."""
        with unittest.mock.patch.object(self.tool, "free_memory", lambda: 0):
            order = self.proved(self.tower())
        self.assertEqual((sorted(name for name, _ in order), {jobs for _, jobs in order}), (["base", "low", "side", "top"], {"1"}))
        for name in ("base", "low", "side", "top"):
            shutil.rmtree(str(self.folder / name))
        with unittest.mock.patch.object(self.tool, "free_memory", lambda: 4 << 30):
            self.assertEqual(self.proved(self.tower())[0], ("base", "3"))

    def test_what_was_never_proved_is_proved_in_one_go(self):
        """No work is kept of it, and its library has statements alone; of one that was proved work is kept as ever."""
        new, worked_on, built = (Library(self.folder, name, 1) for name in ("new", "worked_on", "built"))
        os.makedirs(worked_on.folder + "/out/incremental")
        os.makedirs(built.rlib)
        self.proved([new, worked_on, built])
        self.assertEqual(new.calls[0][4:], ("-o", new.rlib, "--statements"))
        for again in (worked_on, built):
            self.assertEqual(again.calls[0][-4:], (*KEPT, "-o", again.rlib))

    def test_what_nothing_waits_for_yet_is_proved_behind_the_rest(self):
        """side, for which top waits, is not; another, which stands on base alone too, is, and so is last over it."""
        made = self.tower()
        made += [Library(self.folder, "other", 2, [made[0]]), Library(self.folder, "peak", 90, [made[3]])]
        made += [Library(self.folder, "cap", 1, [made[5], made[4]])]
        for it in made:
            it.order = made[0].order
        self.proved(made)
        behind = {it.name: it.calls[0][:3] for it in made if it.calls[0][0] != "rattle"}
        self.assertEqual(behind, {"other": ("nice", "-n", "3")})

    def test_what_is_not_proved_is_told_and_nothing_above_it_is_tried(self):
        libraries = self.tower(low=True)
        with self.assertRaisesRegex(self.tool.Failed, "low is not proved\ngoal left open"):
            self.proved(libraries)
        self.assertNotIn("top", [name for name, _ in libraries[0].order])

    def test_what_is_edited_during_the_build_is_proved_again(self):
        class Edited(Library):
            def build_rlib(self, flags, anew):
                os.makedirs(self.folder + "/out/rlib")
                for name in ("/src/lib.rt", "/out/rlib/stamp"):
                    with open(self.folder + name, "w") as file:
                        file.write("another\n")
                return super().build_rlib(flags, anew)

        with self.assertRaisesRegex(self.tool.Failed, "a file of only was changed"):
            self.proved([Edited(self.folder, "only", 3)])
        self.assertFalse(os.path.exists(str(self.folder / "only/out/rlib/stamp")))

    def test_files_are_read_once_for_each_library(self):
        class Fresh(Library):
            pass
        self.tool.read_once(Fresh)
        base = Fresh(self.folder, "base", 1)
        sides = [Fresh(self.folder, name, 1, [base]) for name in ("one", "two", "three")]
        top = Fresh(self.folder, "top", 1, sides)
        self.assertEqual(top.stamp(), "topone" + "basetwo" + "basethree" + "base")
        self.assertEqual((base.stamps, [it.name for it in top.below()]), (1, ["base", "one", "two", "three"]))


class Running(Case):
    def test_another_program_is_run_as_it_is(self):
        for words in (["script"], ["--unproved", "script"]):
            ran = subprocess.run([str(TOP / "bgpsim"), *words], input=b"quiet\n", capture_output=True, timeout=PATIENCE)
            self.assertEqual((ran.returncode, ran.stdout, ran.stderr), (0, b"yes\n", b""))


class Layers(Case):
    def crate(self, name, source):
        folder = self.folder / "crates" / name / "src"
        folder.mkdir(parents=True)
        (folder / "lib.rt").write_text(source)

    def layers(self, text, page):
        words = [sys.executable, "-B", str(TOP / "tools" / "layers"), self.file("crates.txt", text), self.file("map.md", page)]
        ran = subprocess.run(words, capture_output=True, timeout=PATIENCE)
        return ran.returncode, ran.stdout.decode()

    def test_a_crate_names_what_stands_above_it(self):
        self.crate("side", "use low::Low;\nuse std_of_the_kit::{One, Two};\n")
        self.crate("top", "ghost use Rattle.low.specs.Low.{IsLow};\n\nfn of() -> side::Side {}\n")
        lists = "## Values\nlow:\nside: low std_of_the_kit\n\n## Rules\ntop: low side\n"
        page = "### Values\n| `low` | it |\n| `side` | it |\n| \u00b7 module `part` | it |\n### Rules\n| `top` | it |\n## Files\n| `other` | 7 |\n"
        self.assertEqual(self.layers(lists, page), (0, "3 crates, 7 ways down their lists\n5 passed, 0 failed\n"))
        for there, then in (("`side`", "`sidle`"), ("### Rules", "### Values"), ("| `top` | it |\n", "")):
            status, told = self.layers(lists, page.replace(there, then))
            self.assertEqual(status, 1)
            self.assertIn("map.md: `", told)

    def test_too_many_ways(self):
        names = ["c%d" % at for at in range(17)]
        for at, name in enumerate(names):
            self.crate(name, "".join("use %s::It;\n" % low for low in names[:at]))
        lists = "## Values\n" + "".join("%s: %s\n" % (name, " ".join(names[:at])) for at, name in enumerate(names))
        page = "### Values\n" + "".join("| `%s` | it |\n" % name for name in names)
        status, told = self.layers(lists, page)
        self.assertEqual(status, 1)
        self.assertIn("17 crates, 131071 ways down their lists\n", told)
        self.assertIn("at most 40000 ways", told)

    def test_a_crate_that_no_file_names(self):
        self.crate("low", "")
        self.crate("top", "//! It is not low::Low.\nuse below::low;\nuse lower::Low;\n// use low::Low;\n")
        status, told = self.layers("## Values\nlow:\ntop: low\n", "### Values\n| `low` | it |\n| `top` | it |\n")
        self.assertEqual(status, 1)
        self.assertIn(":3: top lists low, which no file of crates/top names: take it off the list\n", told)

    def test_faults(self):
        for text, said in (("low:\n", ":1: low stands under no heading"), ("## Values\nlow: top\n## Rules\ntop:\n", ":2: low lists top, which does not"),
                           ("## Values\nlow:\nlow:\n", ":3: low stands here a second time")):
            status, told = self.layers(text, "")
            self.assertEqual(status, 1)
            self.assertIn(said, told)
