"""Mutants of the gate: which are tried, what is kept of them, what counts; and definitions that are weakened."""
from __future__ import annotations

import contextlib
import hashlib
import io
import os
import re
import shutil
import subprocess
import types
import unittest.mock

from common import TOP, Case
from simtools import (
    commands, compile_fail, kept_libraries, left_out, mutants, trusted_base, try_mutants, verdicts, weaken)


def called(body):
    """What a command's body gives, and what it printed."""
    with contextlib.redirect_stdout(io.StringIO()) as told:
        status = body()
    return status, told.getvalue()


class Choice(Case):
    def edits(self, *names):
        return [self.file("crates/%s/mutants/%s.edit" % tuple(name.split("/")), "") for name in names]

    def test_forty_are_taken_in_the_order_of_their_sums_and_one_of_each_crate(self):
        names = ["%s/e%d" % (crate, number) for crate in ("low", "mid", "top") for number in range(9)]
        edits = self.edits(*names)

        def sum_of(name):
            path = "crates/%s.edit" % name.replace("/", "/mutants/")
            return hashlib.sha256(("abc " + path).encode()).hexdigest()

        in_order = sorted(names, key=sum_of)
        first = [next(name for name in in_order if name.startswith(crate)) for crate in ("low", "mid", "top")]
        rest = [name for name in in_order if name not in first]
        found = mutants.in_random_order(edits, "abc", self.folder, 5)
        self.assertEqual([self.name_of(edit) for edit in found], sorted(first, key=sum_of) + rest[:2])
        self.assertEqual(mutants.in_random_order(edits[::-1], "abc", self.folder, 5), found)
        self.assertNotEqual(mutants.in_random_order(edits, "abd", self.folder, 5), found)
        self.assertEqual(len(mutants.in_random_order(edits, "abc", self.folder, 2)), 3)

    @staticmethod
    def name_of(edit):
        return "%s/%s" % (edit.parent.parent.name, edit.stem)

    def test_mutants_of_changed_functions_come_first(self):
        edits = self.edits(*("low/e%d" % number for number in range(20)))
        owed = [mutants.in_random_order(edits, "abc", self.folder, 20)[-1]]
        self.assertEqual(mutants.in_random_order(edits, "abc", self.folder, 1, owed), owed)

    def test_the_list_names_an_edit_a_line(self):
        (edit,) = self.edits("low/late")
        found = mutants.chosen_mutants("# none\n\nlate-is-early: low/mutants/late # comes early\n", self.folder)
        self.assertEqual(found, [("late-is-early", edit, "comes early")])
        for line in ("late: low/mutants/gone # x", "late low/mutants/late # x", "late: # x",
                     "a b: low/mutants/late # x", "late: low/mutants/late", "late: low/mutants/late #"):
            wanted = "mutants.list:2: .*%s.* write one" % re.escape(line)
            with self.subTest(line=line), self.assertRaisesRegex(commands.Missing, wanted):
                mutants.chosen_mutants("# none\n%s\n" % line, self.folder)

    def test_thirty_are_chosen_that_apply_in_functions_alone(self):
        """The bodies that must not compile stand beside them."""
        chosen = mutants.chosen_mutants(mutants.LIST.read_text(), TOP)
        self.assertEqual(len({one.edit for one in chosen}), len(chosen))
        edits = [one.edit for one in chosen if one.edit.parent.name == "mutants" and one.name != mutants.OPEN]
        self.assertEqual(len(edits), 30)
        self.assertEqual({one.edit.parent.name for one in chosen}, {"mutants", "compile-fail"})
        for edit in edits:
            folder = edit.parent.parent
            applied, copied = try_mutants.Applied(), try_mutants.Copied(folder, left_out.bodies(folder))
            self.assertEqual((applied.add(edit, copied), bool(applied.functions[0])), (None, True), edit)

    def test_functions_that_differ(self):
        old = "fn a() { 1 }\nimpl T {\n    fn b() { 2 }\n    fn c()\n        ensures { x }\n    { 3 }\n}\n"
        new = old.replace("2", "4").replace("ensures { x }", "ensures { y }") + "fn d() { 5 }\n"
        self.assertEqual(mutants.changed_functions("a.rt", old, new), {"b", "c", "d"})
        self.assertEqual(mutants.changed_functions("a.rt", old, "\n" + old), set())
        self.assertEqual(mutants.changed_functions("a.rt", "", old), {"a", "b", "c"})

    def test_what_passes_and_what_fails(self):
        """A chosen mutant passes by a goal alone; another one fails where it is proved or does not apply."""
        edits = dict(zip("abcdefghij", self.edits(*("low/" + name for name in "abcdefghij"))))
        words = dict(zip("abcdefghij", (
            try_mutants.BY_GOAL, try_mutants.BESIDE, try_mutants.AT_LIMIT, try_mutants.BY_PROOF, try_mutants.PROVED,
            mutants.UNDECIDED, try_mutants.AT_LIMIT, try_mutants.ELSEWHERE, try_mutants.BAD, try_mutants.PROVED)))
        found = {edits[name]: verdicts.Verdict(word, "why", 1.0) for name, word in words.items()}
        with unittest.mock.patch.object(mutants, "TOP", self.folder):
            status, told = called(lambda: mutants.counted(found, [edits["a"], edits["g"]], [edits["j"]]))
        self.assertEqual((status, told), (1, (
            "FAILED crates/low/mutants/e.edit: PROVED: why\n"
            "FAILED crates/low/mutants/g.edit: refused at a limit: why\n"
            "FAILED crates/low/mutants/i.edit: BAD: why\n"
            "2 refused by a goal, 1 by a goal beside a hand proof that fits no more, 2 at a limit, which says nothing, "
            "1 by a hand proof alone, which shows nothing, 4 otherwise\n3 passed, 3 failed\n")))

    def test_the_table_has_the_chosen_ones(self):
        first, second = self.edits("low/a", "low/b")
        chosen = [mutants.Chosen("x", first, "does x"), mutants.Chosen("y", second, "does y")]
        rows = list(mutants.table(chosen, {first: verdicts.Verdict(try_mutants.BY_GOAL, "`g` of f", 12.3)}))
        self.assertEqual(rows, [mutants.HEAD, ("x", "low", "a", "does x", "refused by a goal", "`g` of f", "12")])


class Libraries(Case):
    """Mutants are tried over libraries that are proved; a run never proves one."""

    def setUp(self):
        super().setUp()
        self.edits = {crate: self.file("crates/%s/mutants/a.edit" % crate, "") for crate in ("low", "high")}
        self.trial = mutants.Trial({"low": set(), "high": {"low"}}, unittest.mock.Mock(), self.folder)
        self.lacking, self.seen = [], []

    def tried(self, until=None):
        def tries(crate, others, edits, alone, top):
            self.seen.append(crate)
            yield try_mutants.Tried(edits[0], try_mutants.BY_GOAL, "why", 2.0)

        libraries = unittest.mock.Mock(take=lambda: self.lacking.pop(0))
        with unittest.mock.patch.object(mutants.kept_libraries, "repository", return_value=libraries), \
                unittest.mock.patch.object(try_mutants, "tries", tries), \
                unittest.mock.patch.object(mutants.time, "sleep", lambda _: self.seen.append("waits")):
            self.trial.try_all(list(self.edits.values()), until)

    def test_what_was_not_kept_is_told_before_any_check(self):
        self.lacking = [["low"]]
        self.assertRaisesRegex(commands.Missing, "libraries are not proved on this machine, .*: low: run `rt ci`", self.tried)
        self.assertEqual(self.seen, [])

    def test_what_is_kept_is_tried_in_the_order_of_the_crates(self):
        self.lacking = [["high"]]
        self.tried()
        self.assertEqual((self.seen, self.trial.found[self.edits["high"]]),
                         (["low", "high"], verdicts.Verdict(try_mutants.BY_GOAL, "why", 2.0)))

    def test_libraries_are_waited_for_until_a_file_is_there(self):
        self.lacking = [["low", "high"], ["low"], []]
        self.tried(self.folder / "ended")
        self.assertEqual(self.seen, ["low", "waits", "high"])
        self.trial.found, self.lacking, self.seen = {}, [["low"]], []
        self.assertRaises(commands.Missing, self.tried, self.file("ended", ""))

    def test_a_verdict_that_is_kept_asks_for_no_library(self):
        self.trial.verdicts.kept = lambda crate, edit: verdicts.Verdict(try_mutants.AT_LIMIT, None, 3.0)
        called(lambda: self.trial.take_kept(self.edits.values()))
        self.tried()
        self.assertEqual((self.seen, len(self.trial.found)), ([], 2))


class BuiltHere(Case):
    """The libraries of a kit whose gate keeps none: `high` stands on `low`."""

    def setUp(self):
        super().setUp()
        self.is_over = True
        self.low = self.library("low", 100)
        self.high = self.library("high", 200, self.low)

    def library(self, name, at, *below):
        """A library that was built at this time, of a source from before."""
        self.at(self.file("crates/%s/src/lib.rt" % name, name), at - 50)
        self.at(self.file("crates/%s/out/rlib/%s.rlib/interface" % (name, name), "made of " + name), at)
        folder = self.folder / "room" / "crates" / name
        return types.SimpleNamespace(name=name, deps=below, below=lambda: list(below), stamp=lambda: "sum of " + name,
                                     folder=str(folder), rlib=str(folder / "out" / "rlib" / (name + ".rlib")))

    @staticmethod
    def at(path, time):
        os.utime(path, (time, time))

    def stamp(self, name, text):
        self.file("crates/%s/out/rlib/stamp" % name, text)

    def given(self):
        """The libraries that count, which are put into the room."""
        shutil.rmtree(self.folder / "room", ignore_errors=True)
        built = kept_libraries.BuiltHere(self.folder, lambda: self.is_over)
        found = [it.name for it in (self.low, self.high) if built.give(it, False, built.key(it))]
        made = {path.parent.name: path.read_text() for path in self.folder.glob("room/crates/*/out/rlib/*/interface")}
        self.assertEqual(made, {name + ".rlib": "made of " + name for name in found})
        self.assertEqual(list(self.folder.glob("room/crates/*/out/rlib/stamp")), [])
        return found

    def test_those_of_the_gate_count_when_it_has_ended(self):
        self.assertEqual(self.given(), ["low", "high"])
        self.is_over = False
        self.assertEqual(self.given(), [])

    def test_those_of_the_gate_are_newer_than_sources_and_than_libraries_below(self):
        self.at(self.folder / "crates/low/out/rlib/low.rlib/interface", 300)
        self.assertEqual(self.given(), ["low"])
        self.at(self.folder / "crates/low/src/lib.rt", 400)
        self.assertEqual(self.given(), [])

    def test_those_of_a_check_have_the_checksum_of_their_sources(self):
        self.is_over = False
        self.stamp("low", "sum of low")
        self.assertEqual(self.given(), ["low"])
        self.stamp("high", "sum of high")
        self.assertEqual(self.given(), ["low", "high"])
        self.stamp("low", "another")
        self.assertEqual(self.given(), [])

    def test_a_library_counts_over_those_that_it_was_built_over(self):
        self.stamp("low", "sum of low")
        self.assertEqual(self.given(), ["low"])
        (self.folder / "crates/low/out/rlib/stamp").unlink()
        self.stamp("high", "sum of high")
        self.assertEqual(self.given(), ["low"])


class Verdicts(Case):
    def test_a_verdict_is_kept_for_the_same_text_alone(self):
        self.file("crates.txt", "low:\nhigh: low\nbeside:\n")
        self.file("HANDLES", "")
        source = self.file("crates/low/src/lib.rt", "fn a() {}")
        beside = self.file("crates/beside/src/lib.rt", "fn a() {}")
        edit = self.file("crates/high/mutants/a.edit", "x")
        below = {"low": set(), "high": {"low"}, "beside": set()}

        def anew(kit="kit"):
            return verdicts.Verdicts(self.folder, kit, below, self.folder / "kept")

        self.assertIsNone(anew().kept("high", edit))
        anew().keep("high", edit, verdicts.Verdict("refused by a goal", "`x`", 1.5))
        beside.write_text("fn b() {}")
        self.assertEqual(anew().kept("high", edit), ("refused by a goal", "`x`", 1.5))
        self.assertIsNone(anew("another").kept("high", edit))
        for path, text in ((source, "fn b() {}"), (edit, "y"), (self.folder / "crates.txt", "low:\nhigh: low std\n")):
            was = path.read_text()
            path.write_text(text)
            self.assertIsNone(anew().kept("high", edit), path)
            path.write_text(was)
        for file in (self.folder / "kept").iterdir():
            file.write_text("{")
        self.assertIsNone(anew().kept("high", edit))

    def test_the_folder_is_one_of_the_users_caches(self):
        with unittest.mock.patch.dict(os.environ, {"XDG_CACHE_HOME": "/a/cache"}):
            self.assertEqual(str(verdicts.folder()), "/a/cache/bgpsim/mutants")


class CompileFail(Case):
    def test_an_error_of_another_kind(self):
        text = "file: src/a.rt\nold: x\nnew: y\nsaid: [private-field] field `f`\n"
        edit = self.file("room/compile-fail/a.edit", text)
        told = "/tmp/crates/room/src/a.rt:7:3: error[private-field]: field `f` of struct `D` is private\n"
        self.assertEqual(compile_fail.wrong(edit, told, True), [])
        for other in (told.replace("room", "desk"), told.replace("private-field", "unknown-field"), ""):
            self.assertEqual(len(compile_fail.wrong(edit, other, True)), 1)


class Constants(Case):
    def test_an_edit_of_a_constant_is_of_the_functions_that_name_it(self):
        self.file("low/src/limits.rt", "pub const MOST: usize = 9;\npub const LEAST: usize = 1;\n")
        self.file("low/src/lib.rt", "mod limits;\nfn a() -> usize { MOST + 1 }\nfn b() -> usize { LEAST }\n"
                                    "fn c() { a(); }\n")
        edit = self.file("low/mutants/a.edit", "file: src/limits.rt\nold: MOST: usize = 9\nnew: MOST: usize = 8\n")
        applied, folder = try_mutants.Applied(), self.folder / "low"
        self.assertIsNone(applied.add(edit, try_mutants.Copied(folder, left_out.bodies(folder))))
        self.assertEqual(applied.functions, [{"low::a"}])


class Weakened(Case):
    TEXT = """use A.B.{x}
-- whether it is good && right
abbrev pub is_good : N → Bool
is_good n = (low n && not (high n)) || same n  -- || never
abbrev pub IsGood : N → Type
IsGood n = (m : N) → IsLow n
    × (m < n → IsHigh m × IsSame n)
abbrev pub size : N → N
size n = if is_good n then 1 else if low n then 2 else 3
other n = low n && high n
"""

    def test_what_can_be_dropped(self):
        found = [(place.definition, place.line, place.said, self.changed(place))
                 for place in weaken.places(self.TEXT, {"is_good", "IsGood", "size"})]
        self.assertEqual(found, [
            ("is_good", 4, "`(low n && not (high n))` of `||`", "is_good n = same n"),
            ("is_good", 4, "`same n` of `||`", "is_good n = (low n && not (high n))"),
            ("is_good", 4, "`low n` of `&&`", "is_good n = ( not (high n)) || same n"),
            ("is_good", 4, "`not (high n)` of `&&`", "is_good n = (low n ) || same n"),
            ("IsGood", 6, "`IsLow n` of `×`", "IsGood n = (m : N) → (m < n → IsHigh m × IsSame n)"),
            ("IsGood", 7, "`(m < n → IsHigh m × IsSame n)` of `×`", "IsGood n = (m : N) → IsLow n"),
            ("IsGood", 7, "`IsHigh m` of `×`", "IsGood n = (m : N) → IsLow n × (m < n → IsSame n)"),
            ("IsGood", 7, "`IsSame n` of `×`", "IsGood n = (m : N) → IsLow n × (m < n → IsHigh m )"),
            ("size", 9, "the test `is_good n`, by its second branch", "size n = if low n then 2 else 3"),
            ("size", 9, "the test `is_good n`, by its first branch", "size n = 1"),
            ("size", 9, "the test `low n`, by its second branch", "size n = if is_good n then 1 else 3"),
            ("size", 9, "the test `low n`, by its first branch", "size n = if is_good n then 1 else 2")])

    def changed(self, place):
        """The definition as it then stands, on one line."""
        plain = re.sub(r"(?m)^(?=\s)", " ", weaken.cut(weaken.blanked(self.TEXT), place.spans))
        found = re.search(r"(?m)^%s [^:\n]* = .*(?:\n[ ].*)*" % place.definition, plain)
        return " ".join(found[0].split())

    def test_what_a_check_says(self):
        goal = "note: src/lib.rt:2:5: it is not proved that what the function ensures holds (`returns`)"
        closure = "fn low::fn::half::byte: no proof"
        for lines, word in (
                (["fn low::half: no holes"], weaken.NOTHING),
                (["fn low::half: depends on a hole in `Rattle.low.proofs.whole.Proof.whole_spec`"], weaken.NOTHING),
                ([goal, "fn low::half: no proof"], "by a goal"), ([goal, closure], "by a goal"),
                ([goal, "fn low::whole: no proof", "fn low::half: no holes"], weaken.NOTHING),
                ([goal + "; `search` gave up at its limit", "fn low::half: no proof"], "at a limit"),
                (["./proofs/A.antt:3:9: error: `a`: expected type `1 ≡ 2`", "fn low::half: not proved"],
                 "BY A PROOF FILE")):
            self.assertEqual(weaken.judged([*lines, "only=1"], {"low::half"})[0], word, lines)

    def made(self):
        """Two crates; the definitions of the lower one in the names of the kit."""
        self.file("crates.txt", "low:\nhigh: low\n")
        self.file("crates/low/specs/Good.antt", (
            "abbrev pub is_low : N → N\nis_low n = n && n\nabbrev pub is_good : N → N\nis_good n = is_low n && n\n"
            "abbrev pub is_far : N → N\nis_far n = n && n\n"))
        self.file("crates/low/src/lib.rt", (
            "ghost use Rattle.low.specs.Good.{is_good, is_far};\nfn a()\n    ensures { x }\n{ }\n"
            "fn far()\n    ensures { is_far }\n{ }\nfn good()\n    ensures { is_good }\n{ a() }\n"
            "fn both()\n    ensures { is_far }\n{ good() }\n"))
        self.file("crates/high/src/lib.rt", (
            "ghost use Rattle.low.specs.Good.{is_good};\nfn b()\n    ensures { is_good }\n{ }\n"
            "fn c()\n    ensures { x }\n{ }\n"))
        return {"low": set(), "high": {"low"}}

    def test_which_functions_and_crates_reach_a_definition(self):
        below = self.made()
        name, far = ("low", "Good", "is_low"), ("low", "Good", "is_far")
        with unittest.mock.patch.object(weaken, "TOP", self.folder):
            reach = weaken.Reach(trusted_base.Workspace(self.folder))
            found = {one.name: (name in one.cited, name in one.touched, far in one.touched)
                     for crate in below for one in reach.functions(crate)}
            self.assertEqual((reach.crates(name, below), reach.crates(far, below)), (["high"], []))
        self.assertEqual(found, {
            "low::a": (False, False, False), "low::far": (False, False, True), "low::good": (True, True, False),
            "low::both": (False, True, True), "high::b": (True, True, False), "high::c": (False, False, False)})

    def test_functions_that_hand_nothing_on_are_asked_first(self):
        """One that calls another whose clauses reach the definition may be proved whatever the definition says."""
        name = ("low", "Good", "is_good")
        some = [weaken.Function(one, {name}, handed_on, {name}, size) for one, handed_on, size in (
            ("low::hands_on", {name}, 1), ("low::long", set(), 9), ("low::short", set(), 2))]
        with unittest.mock.patch.object(weaken, "FUNCTIONS_A_PLACE", 2):
            self.assertEqual(weaken.Batch([], [name], [some]).asked(0), {"low::short", "low::long"})

    def test_places_share_a_check_where_functions_tell_them_apart(self):
        self.made()
        text = (self.folder / "crates/low/specs/Good.antt").read_text()
        found = [("Good", place) for place in weaken.places(text, {"is_low", "is_good", "is_far"})]
        with unittest.mock.patch.object(weaken, "TOP", self.folder):
            functions = weaken.Reach(trusted_base.Workspace(self.folder)).functions("low")
        made = list(weaken.batches("low", found, functions))
        self.assertEqual([[name[2] for name in batch.names] for batch in made],
                         [["is_low", "is_far"], ["is_low", "is_far"], ["is_good"], ["is_good"]])
        self.assertEqual([batch.asked(at) for batch in made[:1] for at in (0, 1)], [{"low::good"}, {"low::far"}])
        copied, seen = try_mutants.Copied(self.folder / "crates/low"), []

        def check(functions):
            seen.append((functions, (self.folder / "crates/low/specs/Good.antt").read_text()))
            return 1, ["note: src/lib.rt:2:5: it is not proved (`returns`)", "fn low::good: no proof",
                       "fn low::far: no holes", "only=2 holes=0"]

        with unittest.mock.patch.object(copied, "check", check):
            outcomes = weaken.tried(made[0], copied)
        self.assertEqual([word for word, _ in outcomes], ["by a goal", weaken.NOTHING])
        self.assertEqual(seen, [({"low::good", "low::far"}, text.replace("is_low n = n && n", "is_low n =  n").replace(
            "is_far n = n && n", "is_far n =  n"))])
        self.assertEqual((self.folder / "crates/low/specs/Good.antt").read_text(), text)


class TrustedBase(Case):
    def git(self, *words):
        names = ("-c", "user.name=a", "-c", "user.email=a@b", "-c", "commit.gpgsign=false")
        subprocess.run(["git", *names, *words], cwd=str(self.folder), check=True, stdout=subprocess.DEVNULL)

    def test_each_changed_line_since_a_commit(self):
        self.file("docs/explanation/trusted-base.md", "| `low`: `Kept`, `Gone` (for all) | 3 |\n")
        kept = self.file("crates/low/specs/Kept.antt", "-- is\nis_good n = low n && high n\nsame n = n\n")
        gone = self.file("crates/low/specs/Gone.antt", "is_gone = true\n")
        self.git("init", "-q")
        self.git("add", "-A")
        self.git("commit", "-q", "-m", "a")
        kept.write_text("-- is good\nuse A.{b}\nis_good n = low n\nsame n = n\n")
        gone.unlink()
        _, told = called(lambda: trusted_base.tell_since(self.folder, {("low", "Kept"), ("low", "New")}, "HEAD"))
        self.assertEqual(told, (
            "crates/low/specs/Gone.antt: -is_gone = true\n"
            "crates/low/specs/Kept.antt: -is_good n = low n && high n\ncrates/low/specs/Kept.antt: +is_good n = low n\n"
            "3 lines of the trusted base differ from those of HEAD\n"))
        with self.assertRaisesRegex(commands.Missing, "git knows no commit `nowhere` here: write another"):
            trusted_base.tell_since(self.folder, set(), "nowhere")

    def commit(self, *more):
        self.git("commit", "-q", "--allow-empty", "-m", "a", *more)
        return trusted_base.git(self.folder, "rev-parse", "HEAD").strip()

    def test_the_base_of_a_change(self):
        """Where the branch left origin/main; the last tag where it did not leave it; or the commit before."""
        self.assertIsNone(trusted_base.base(self.folder))
        self.git("init", "-q")
        first = self.commit()
        self.assertIsNone(trusted_base.base(self.folder))
        self.commit()
        self.assertEqual(trusted_base.base(self.folder), first)
        self.git("tag", "-m", "a", "v1")
        third = self.commit()
        self.assertEqual(trusted_base.base(self.folder), "v1")
        self.git("update-ref", "refs/remotes/origin/main", third)
        self.assertEqual(trusted_base.base(self.folder), "v1")
        self.commit()
        self.assertEqual(trusted_base.base(self.folder), third)
