"""The commands of tools/ and bench/, and simtools, which they are made of: what each says of a program that is not
there, or that does something else."""
import collections
import contextlib
import hashlib
import io
import os
import pathlib
import re
import shutil
import subprocess
import sys
import time
import unittest
import unittest.mock

from common import PATIENCE, TOP, Case

import model
from simtools import (allocation_faults, bench_tables, commands, converge_scripts, fail_script_allocations, language,
                      left_out, loads, logs, memory_refusals, programs, random_igp, random_scripts, real_routers,
                      running, speaker, stream_faults, teams, trusted_base, try_mutants)

NOWHERE = "/nowhere/bgpsim"
NOT_THERE = "there is no program %s: PROGRAM= names it\n" % NOWHERE
NAMED = re.compile(r"(?<![\w/.~-])(?:tools|bench)/[\w./-]*\w")


def command(name, *words, given=b"", **environment):
    """A command's run: its standard output and standard error as text, and its exit status."""
    ran = subprocess.run([sys.executable, "-B", str(TOP / name), *map(str, words)], input=given, capture_output=True,
                         timeout=PATIENCE, cwd=str(TOP), env={**os.environ, **environment})
    out, err = ran.stdout.decode("latin-1"), ran.stderr.decode("latin-1")
    return subprocess.CompletedProcess(ran.args, ran.returncode, out, err)


def commands_of(folder):
    """The commands of a folder that are made of simtools."""
    files = [path for path in sorted((TOP / folder).iterdir()) if path.is_file()]
    return [path for path in files if b"from simtools" in path.read_bytes()]


def sha256(text):
    return hashlib.sha256(text.encode("latin-1")).hexdigest()


def cells(net, router, prefixes):
    """Of each of these cells of a router in the model: how many routes may be chosen, of how many neighbours, and
    which is."""
    found = {}
    address = next((a for a in net.nodes if model.show(a) == router), None)
    for prefix in [] if address is None else prefixes:
        paths = [candidate["attr"]["path"] for _, _, candidate in net.routes(address, prefix) if candidate]
        found[prefix] = (len(paths), len(set(map(model.neighbour, paths))), net.best(address, prefix))
    return found


def called(main, *words):
    """The exit status of a command's body in this process, and what it printed."""
    with contextlib.redirect_stdout(io.StringIO()) as told:
        status = main(list(map(str, words)))
    return status, told.getvalue()


class Commands(Case):
    def test_each_has_help_and_stands_in_the_readme(self):
        found = commands_of("tools") + commands_of("bench")
        self.assertGreater(len(found), 15)
        for path in found:
            with self.subTest(path=path.name):
                ran = command(path.relative_to(TOP), "--help")
                self.assertEqual((ran.returncode, ran.stderr), (0, ""))
                self.assertIn("usage: %s " % path.name, ran.stdout)
                self.assertIn(str(path.relative_to(TOP)), ran.stdout)
                self.assertIn("%s/%s" % (path.parent.name, path.name), (path.parent / "README.md").read_text())

    def test_what_is_named_is_there(self):
        texts = [TOP / "README.md", TOP / ".ci/run", TOP / "cases/README.md"]
        texts += [*(TOP / "docs").rglob("*.md"), *(TOP / "toolbox/tests").rglob("*.py")]
        texts += [path for folder in ("tools", "bench", "tools/simtools") for path in (TOP / folder).iterdir()]
        texts = [path for path in texts if path.is_file()]
        named = {(name, path.name) for path in texts for name in NAMED.findall(path.read_text())}
        self.assertIn(("tools/run-cases", "run"), named)
        self.assertEqual([pair for pair in named if not (TOP / pair[0]).exists()], [])

    def test_parts_of_the_gate_count_a_program_that_is_not_there_as_failed(self):
        for call in ("run-cases cases/lines", "fail-script-allocations cases/memory", "fail-allocations",
                     "teams faults", "teams stress", "fuzz-logs", "fuzz-scripts", "failing-streams", "small-stacks",
                      "fault-servers", "resources", "run-toolbox-tests"):
            with self.subTest(call=call):
                name, *words = call.split()
                ran = command("tools/" + name, *words, PROGRAM=NOWHERE)
                self.assertEqual((ran.returncode, ran.stderr), (1, ""))
                self.assertEqual(ran.stdout, NOT_THERE + "0 passed, 1 failed\n")

    def test_others_say_that_a_program_is_not_there(self):
        for call in ("tools/agree --scripts 1", "tools/logs agree --scripts 1", "tools/logs refuse",
                     "tools/teams agree --scripts 1", "tools/fail-script-allocations examples/hijack.bgp",
                     "tools/real-routers examples/hijack.bgp", "bench/loads table 1", "bench/edits mesh 1",
                     "bench/teams reflect 1", "tools/growth", "tools/small-stacks --least"):
            with self.subTest(call=call):
                ran = command(*call.split(), PROGRAM=NOWHERE)
                self.assertEqual((ran.returncode, ran.stdout, ran.stderr), (2, "", NOT_THERE))

    def test_a_chosen_program_is_no_machine(self):
        ran = command("tools/fail-allocations", "--on", "machine_scripts", PROGRAM=NOWHERE)
        self.assertEqual((ran.returncode, ran.stdout), (2, ""))
        self.assertIn("PROGRAM= is tried alone", ran.stderr)

    def test_the_machines_that_are_not_there(self):
        with unittest.mock.patch.object(programs, "MACHINE_SCRIPTS", self.folder / "machine_scripts"):
            self.assertFalse(programs.has_machine_scripts())
            said = "there is no program .*/machine_scripts: rt run in its crate builds it"
            with self.assertRaisesRegex(commands.Missing, said):
                programs.machine_scripts()

    def test_mistakes_of_a_call(self):
        for call, said in (("tools/loads table -1", "-1"), ("tools/loads tables 1", "invalid choice: 'tables'"),
                           ("tools/random-scripts", "SEED"), ("bench/edits calm x", "expected, and not `x`"),
                           ("bench/teams reflect", "is one of mesh, mesh-heard, policies, reflect, and its N"),
                           ("bench/edits", "or --ratios"), ("tools/try-mutants none", "crates.txt has no none"),
                           ("tools/fail-script-allocations gone.bgp", "there is no script gone.bgp"),
                           ("tools/fail-allocations --on plain", "invalid choice: 'plain'")):
            with self.subTest(call=call):
                ran = command(*call.split())
                self.assertEqual((ran.returncode, ran.stdout), (2, ""))
                self.assertIn(said, ran.stderr)

    def test_counts(self):
        for counts, status in (((3, 0), 0), ((3, 1), 1), ((0, 0), 1), ((0, 0, 2), 0)):
            told = called(lambda _: commands.counted(*counts))
            self.assertEqual(told, (status, "%d passed, %d failed\n" % counts[:2]))

    def test_work_that_is_not_begun_is_left_out(self):
        done = []

        def work(number):
            time.sleep(0.01)
            done.append(number)
            return number

        self.assertEqual(next(number for number in running.side_by_side(work, range(1000))), 0)
        self.assertLess(len(done), 1000)


class Cases(Case):
    def test_what_differs_is_told(self):
        for name in ("well", "other", "ends", "errs"):
            self.file("cases/%s.bgp" % name, "quiet\n")
            self.file("cases/%s.out" % name, "no\n" if name == "other" else "yes\n")
        for name, text in (("ends.status", "3\n"), ("errs.err", "memory\n"), ("stray.txt", "")):
            self.file("cases/" + name, text)
        ran = command("tools/run-cases", self.folder / "cases")
        self.assertEqual((ran.returncode, ran.stderr), (1, ""))
        place = os.path.relpath(str(self.folder / "cases"), str(TOP))
        self.assertEqual(ran.stdout, (
            "FAILED {0}/stray.txt\n    no file of a case\nFAILED {0}/ends\n    status 0, and not 3\n"
            "FAILED {0}/errs\n    standard error, wanted - and written +:\n      @@ -1 +0,0 @@\n      -memory\n"
            "FAILED {0}/other\n    standard output, wanted - and written +:\n      @@ -1 +1 @@\n      -no\n      +yes\n"
            "1 passed, 4 failed\n").format(place))
        well = command("tools/run-cases", self.folder / "cases" / "well.out")
        self.assertEqual((well.returncode, well.stdout), (0, "1 passed, 0 failed\n"))

    def test_a_generator(self):
        self.file("made.make", "import sys\nprint('yes' if sys.argv[1:] == ['replies'] else 'quiet')\n")
        ran = command("tools/run-cases", self.folder / "made.make")
        self.assertEqual((ran.returncode, ran.stdout), (0, "1 passed, 0 failed\n"))


class MemoryRefusals(Case):
    """right.txt has each form that tools/memory-refusals lets pass; each edit beside it makes a memory refusal up."""
    DATA = TOP / "toolbox/tests/data/memory-refusals"

    def told(self, text, listed=None):
        """How many functions of the text make memory refusals, and what is printed of it, without the places."""
        self.file("crates/sample/src/right.rt", text)
        known = (self.DATA / "list.txt").read_text() if listed is None else listed
        made, told = memory_refusals.checked(self.folder, known, "list", [])
        return made, [re.sub(r"^[\w./]+:\d+: ", "", line) for line in told]

    def test_each_form_that_passes_it_on(self):
        self.assertEqual(self.told((self.DATA / "right.txt").read_text()), (16, []))

    def test_each_mutant_is_seen(self):
        edits = sorted(self.DATA.glob("*.edit"))
        self.assertEqual(len(edits), 17)
        for edit in edits:
            with self.subTest(edit=edit.stem):
                texts, why = try_mutants.texts_of(edit, self.DATA)
                self.assertIsNone(why)
                wanted = [line[6:] for line in edit.read_text().splitlines() if line.startswith("told: ")]
                self.assertEqual(self.told(*texts.values())[1], wanted)

    def test_a_list_that_is_no_longer_so(self):
        right = (self.DATA / "right.txt").read_text()
        for file, lines, told in (("gone", "in: f", "a stanza has `file:` of a source, and `why:`"),
                                  ("right", "in: gone", "crates/sample/src/right.rt has no such function"),
                                  ("right", "error: Gone", "crates/sample/src/right.rt has no struct Gone"),
                                  ("right", "hands back: work gone",
                                   "crates/sample/src/right.rt has no function gone with an error"),
                                  ("right", "in: trace\nwhere: if x", "trace makes nothing there")):
            stanza = "file: crates/sample/src/%s.rt\n%s\nwhy: it is so" % (file, lines)
            with self.subTest(stanza=stanza):
                whole = (self.DATA / "list.txt").read_text() + "\n" + stanza + "\n"
                self.assertIn(told, self.told(right, whole)[1])

    def test_a_source_that_cannot_be_read(self):
        self.assertEqual(self.told("fn f() {\n    (]\n}\n"), (0, ["`]` closes nothing"]))
        self.assertEqual(self.told("fn f() {\n"), (0, ["`{` is not closed"]))


class StreamFaults(Case):
    """The streams of the repository are as they have to be; each edit makes a failure up, or forgets one."""
    SOURCE, SINK = "source.rt", "sink.rt"

    def told(self, file, old, new):
        """What is told of the streams with one edit, without the places."""
        for name in (self.SOURCE, self.SINK):
            text = (TOP / "crates/watched/src" / name).read_text()
            if name == file:
                self.assertEqual(text.count(old), 1, old)
                text = text.replace(old, new)
            self.file("crates/watched/src/" + name, text)
        passed, told = stream_faults.checked(self.folder)
        self.assertEqual(passed + len(told), len(stream_faults.BODIES))
        return [re.sub(r"^[\w./]+:\d+: ", "", line) for line in told]

    def test_the_streams_as_they_are(self):
        self.assertEqual(self.told(self.SOURCE, "match self", "match self"), [])
        self.assertEqual(stream_faults.checked(TOP), (len(stream_faults.BODIES), []))

    def test_each_mutant_is_seen(self):
        for file, old, new, call in (
                (self.SOURCE, "self.reader.read(buffer)", "self.reader.read(&mut buffer[..1])", "Reader::read"),
                (self.SOURCE, "match self", "if buffer.len() == 3 { self.failed = true; } match self", "Reader::read"),
                (self.SOURCE, " failed: false,", " failed: true,", "Reader::new"),
                (self.SINK, "n > 0 ||", "n > 1 ||", "Writer::write"),
                (self.SINK, "Ok(()) => Ok(()),", "Ok(()) => Err(WriterFailed),", "Writer::flush")):
            with self.subTest(new=new):
                wanted = "the body of %s is not the one that tools/stream-faults knows" % call
                self.assertEqual(self.told(file, old, new), [wanted])

    def test_another_call_beside_the_field(self):
        more = "impl<R: Read> Reader<R> {\n    fn fail(&mut self) {\n        self.failed = true;\n    }\n"
        self.assertEqual(self.told(self.SOURCE, "impl<R: Read> Reader<R> {\n", more),
                         ["no call but those of Reader and Writer may stand beside `failed`"])

    def test_another_type_with_the_trait(self):
        self.file("crates/sample/src/lib.rt", "impl Source for Liar {\n    fn read(&mut self) {\n    }\n}\n")
        self.assertEqual(self.told(self.SOURCE, "match self", "match self"), ["Liar may not have the trait Source"])


class TrustedBase(Case):
    """A workspace of two crates: `low` has three files of definitions, one of which nothing of `high` leads to."""
    PAGE = "# Map\n\n%s\n\nSo many: %s.\n\n| Files | Lines |\n|---|---|\n| `low`: `Gone` | 7 |\n\n## More\n"
    SUMS = "{} for `bgpsim script`, {} with `replay` and `team`, {} with laws and the desk"

    def setUp(self):
        super().setUp()
        self.file("crates.txt", "## Values\nlow:\nhigh: low # the program\n")
        self.file("crates/low/specs/Costs.antt", (
            "-- Costs.\nuse Rattle.std.specs.Prelude.{ℕ}\n\nabbrev pub cost : ℕ → ℕ\ncost n = half n\n\n"
            "-- half of it\nabbrev pub half : ℕ → ℕ\nhalf n = n / 2\n"))
        self.file("crates/low/specs/Ways.antt", (
            "use Rattle.low.specs.Costs.{cost as weight}\npub record Way : Type 0 where\n  pub length : ℕ -- of all\n\n"
            "abbrev pub long : ℕ → Way\nlong n = record { length = weight n }\n"))
        self.file("crates/low/specs/Other.antt", "-- No public contract cites this file.\nother : ℕ\nother = 1\n")
        self.source("{ result ≡ long 3 }", "{ s.other ≡ 1 }")
        self.parts = (trusted_base.Part("", (trusted_base.Root("high/src/*.rt", ("run",)),)),
                      trusted_base.Part("for more", (trusted_base.Root("high/src/*.rt"),)),
                      trusted_base.Part("beside", ()))

    def source(self, run, more):
        self.file("crates/high/src/lib.rt", (
            "ghost use Rattle.low.specs.Ways.{long};\nghost use Rattle.low.specs.Other.{other};\nfn run() -> u8\n"
            "    ensures first %s\n{ 3 }\n\npub fn more()\n    ensures %s\n{}\n") % (run, more))

    def made(self, page, *flags):
        path = self.file("docs/explanation/trusted-base.md", page)
        with unittest.mock.patch.multiple(trusted_base, TOP=self.folder, PAGE=path, PARTS=self.parts):
            return (*called(trusted_base.main, *flags), path.read_text())

    def test_what_is_cited_is_followed_by_its_names(self):
        status, told, page = self.made(self.PAGE % (trusted_base.HEADING, self.SUMS.format(1, 2, 3)), "--write")
        self.assertEqual((status, told), (0, "2 passed, 0 failed\n"))
        self.assertIn("| `low`: `Costs`, `Ways` | 8 |\n\n## More", page)
        self.assertIn("So many: %s." % self.SUMS.format(8, 8, 8), page)
        self.assertNotIn("Gone", page)
        self.assertEqual(self.made(page), (0, "2 passed, 0 failed\n", page))

    def test_what_differs_is_told(self):
        page = self.made(self.PAGE % (trusted_base.HEADING, self.SUMS.format(1, 2, 3)), "--write")[2]
        self.source("{ result ≡ long 3 }", "{ result ≡ other }")
        status, told, same = self.made(page)
        self.assertEqual((status, same), (1, page))
        for line in ("docs/explanation/trusted-base.md: wanted: | `low`: `Other` (for more) | 2 |", "8 for `bgpsim script`",
                     "crates/low/specs/Other.antt:1: other is cited, by more of crates/high/src/lib.rt",
                     "0 passed, 3 failed"):
            self.assertIn(line, told)

    def test_calls_that_are_gone(self):
        self.parts = (trusted_base.Part("", (trusted_base.Root("high/src/*.rt", ("gone",)),)),)
        status, told, _ = self.made(self.PAGE % (trusted_base.HEADING, ""))
        self.assertEqual(status, 1)
        self.assertIn("crates/high/src/*.rt has no gone", told)


class RandomScripts(Case):
    def test_a_seed_gives_the_script_that_it_always_gave(self):
        ran = command("tools/random-scripts", 5, 300)
        self.assertEqual(ran.stdout, random_scripts.script(5, 300))
        self.assertEqual(sha256(ran.stdout), "dea87db406b17e535a46dc669487e70a4e164d1bb82272af0b262a6e96c4fdf1")

    def test_a_seed_gives_the_changes_of_an_interior_that_it_always_gave(self):
        text = "".join(random_igp.script(seed, 17) for seed in (3, 5))
        self.assertEqual(sha256(text), "33388e02958926dddccc916bdc9be9df189eccfb1d3bfc10bbe65a7c0bb0766c")

    def test_scripts_for_converge(self):
        """Few scripts have each order with and without a limit and an echo, and each answer of a line."""
        ran = command("tools/random-scripts", "--converge", 5, 300)
        self.assertEqual(ran.stdout, converge_scripts.script(5, 300))
        self.assertEqual(sha256(ran.stdout), "8ac4ac2e7aa90b5234969ef1cdc14f77c626d4efd8ebbbea460b4c3fe944f6e4")
        answers, forms = collections.Counter(), set()
        for seed in range(1, 31):
            net = model.Net()
            for line in converge_scripts.script(seed).split("\n")[:-1]:
                told = model.answer_converge(net, line.rstrip("\r"))
                if line.split()[:1] in (["converge"], ["waiting"], ["snapshot"], ["restore"]):
                    forms.add(re.sub("[0-9]+", "N", line))
                    answers[line.split()[0], re.sub(r"[0-9]+|syntax", "N", told[-1].split(" (")[0])] += 1
        forms_wanted = {"converge" + order + most + echo for order in ("", " fair", " router", " random N")
                        for most in ("", " N") for echo in ("", " echo")}
        self.assertEqual(forms_wanted - forms, set())
        for wanted in (("converge", "converged after N"), ("converge", "not converged after N"),
                       ("converge", "refused N N"), ("waiting", "end N"), ("waiting", "refused N N"),
                       ("snapshot", "snapshot N"), ("snapshot", "refused N N"), ("restore", "ok"),
                       ("restore", "no snapshot N"), ("restore", "refused N N")):
            self.assertGreater(answers[wanted], 0, wanted)

    def test_forms_of_communities(self):
        """All stand in few scripts."""
        lines = "".join(map(random_scripts.script, range(1, 41))).split("\n")
        feeds = [line for line in lines if line.startswith("feed ")]
        for form in ("comm=", *language.WELL_KNOWN):
            self.assertGreater(sum(form in line for line in feeds), 10)
        self.assertTrue(any(line.count(",") > 31 and "comm=" in line for line in feeds))
        for form in (r"rule \S+ \S+ in comm [0-9]+ ", r"rule \S+ \S+ out comm [0-9]+ ", r"rule .* in .* add=[0-9]+",
                     r"rule .* out .* add=[0-9]+", r"rule .* pref=.* add=", r"rule .* prepend=.* add="):
            self.assertTrue(any(re.match(form, line) for line in lines), form)


    def test_where_the_comparison_of_med_is_turned(self):
        """In few scripts it is so over cells that have no route, one, several of one neighbour and several of two, and
        by it other routes are chosen; and it is refused in each way."""
        replies, kinds, has_moved = set(), set(), False
        for seed in range(1, 41):
            net, heard = model.Net(), collections.defaultdict(set)
            for line in random_scripts.script(seed).split("\n"):
                words = line.rstrip("\r").split()
                if words[:1] != ["med"]:
                    for reply in model.answer(net, line):
                        if reply.startswith("took "):
                            heard[words[2]].add(model.prefix(reply.split()[1]))
                    continue
                router = words[1] if len(words) > 1 else ""
                before, setting = cells(net, router, heard[router]), len(net.med_always)
                replies.update(model.answer(net, line))
                after = cells(net, router, heard[router]) if len(net.med_always) != setting else {}
                kinds.update((min(routes, 2), min(neighbours, 2)) for routes, neighbours, _ in after.values())
                has_moved = has_moved or after not in ({}, before)
        self.assertEqual(replies, {"ok", "refused 1 syntax", "refused 2 no-router", "refused 5 bad-end"})
        self.assertEqual((kinds, has_moved), ({(0, 0), (1, 1), (2, 1), (2, 2)}, True))


class Logs(Case):
    FED = "router 9.0.0.1 9\nfeed 7.0.0.1 9.0.0.1 update 10.0.0.0/8 7 igp - comm=5\nquiet\n"

    def test_those_of_the_cases_are_found_to_be_what_they_are(self):
        found = sorted((TOP / "cases" / "logs").glob("*.log"))
        self.assertGreater(len(found), 70)
        for path in found:
            with self.subTest(log=path.name):
                said = logs.verdict(path.read_bytes().decode("latin-1"))
                self.assertEqual(said + "\n", path.with_suffix(".out").read_text())

    def test_versions(self):
        newest, first = logs.log_of(self.FED), logs.log_of(self.FED, version=1)
        self.assertEqual(newest.split("\n")[:4], [
            "bgpsim log 2", "@0 router 9.0.0.1 9", "= ok", "@0 feed 7.0.0.1 9.0.0.1 update 10.0.0.0/8 7 igp - comm=5"])
        self.assertEqual(first, "bgpsim log 1\n@0 router 9.0.0.1 9\n= ok\n@0 quiet\n= yes\nend 2\n")
        turned = logs.log_of("router 9.0.0.1 9\nmed 9.0.0.1 always\nmed 3.3.3.3 as\nmed 9.0.0.1 maybe\n")
        self.assertEqual(turned.split("\n")[3:8], [
            "@0 med 9.0.0.1 always", "= ok", "@0 med 3.3.3.3 as", "= refused 2 no-router", "end 3"])
        self.assertEqual(logs.log_of("router 9.0.0.1 9\nmed 9.0.0.1 as\n", version=1).split("\n")[-2], "end 1")
        for log, said in ((turned, "ok 3"), (logs.under(turned, 1), "bad line 4"), (newest, "ok 3"),
                          (first, "ok 2"), (logs.under(newest, 1), "bad line 4"),
                          (logs.under(first, 2), "ok 2"), (newest.replace("log 2", "log 3"), "bad line 1")):
            self.assertEqual(logs.verdict(log), said)


class RealRouters(Case):
    """The forms are those of FRR's documentation of route maps and community lists, and of RFC 1997."""

    def test_policies(self):
        self.assertEqual(real_routers.match("in-1", "comm", 4259840001), (
            ["bgp community-list standard in-1 permit 65000:1"], [" match community in-1"]))
        self.assertEqual(real_routers.settings(9, {"med": 3, "add": 4294967041}), [
            " set metric 3", " set community 65535:65281 additive"])

    def test_med_over_all_neighbours(self):
        net = model.Net()
        for line in ("router 9.0.0.1 9", "router 9.0.0.2 9", "med 9.0.0.1 always"):
            self.assertEqual(model.answer(net, line), ["ok"])
        texts = [real_routers.configuration(net, router).split("\n") for router in sorted(net.nodes)]
        self.assertEqual([" bgp always-compare-med" in lines for lines in texts], [True, False])

    def test_attributes(self):
        route = {"prefix": "10.0.0.0/8", "path": [("seq", [7])], "origin": 0, "med": None, "comms": [5, 4294967041]}
        self.assertIn(bytes.fromhex("c0080800000005ffffff01"), speaker.update("7.0.0.1", route))
        self.assertNotIn(b"\xc0\x08", speaker.update("7.0.0.1", {**route, "comms": []}))
        told = {"community": {"list": ["65000:1", "noExport", "0:5"]}}
        self.assertEqual(real_routers.show_communities(told), " comms=5,4259840001,4294967041")
        self.assertEqual(real_routers.show_communities({}), "")
        with self.assertRaises(ValueError):
            real_routers.show_communities({"community": {"list": ["blackhole"]}})


class Other(Case):
    def other(self, text):
        """Another program."""
        path = self.file("other", "#!/bin/sh\n%s\n" % text)
        path.chmod(0o755)
        return str(path)


class Comparing(Other):
    """What is told of a program that does something else than the model."""

    def test_a_script_that_is_answered_otherwise(self):
        ran = command("tools/agree", "--scripts", 1, PROGRAM=self.other("%s %s | sed 's/^ok$/well/'" % programs.MODEL))
        self.assertEqual((ran.returncode, ran.stderr), (1, ""))
        self.assertRegex(ran.stdout, (r"\Aseed 1, script, line 1: .*\n    model: 'ok\\n'\n    script: 'well\\n'\n"
                                      r"1 scripts, [0-9]+ lines, 1 differ\n\Z"))

    def test_a_script_for_converge_that_is_answered_otherwise(self):
        program = self.other("%s %s converge | sed 's/^converged/convergent/'" % programs.MODEL)
        ran = command("tools/agree", "--converge", "--scripts", 1, PROGRAM=program)
        self.assertEqual((ran.returncode, ran.stderr), (1, ""))
        self.assertRegex(ran.stdout, (r"\Aseed 1, converge, line [0-9]+: .*converge.*\n"
                                      r"    model: '.*converged after .*'\n    converge: '.*convergent after .*'\n"
                                      r"1 scripts, [0-9]+ lines, 1 differ\n\Z"))

    def test_a_log_that_is_found_to_be_something_else(self):
        ran = command("tools/logs", "agree", "--scripts", 1, PROGRAM=self.other("cat > /dev/null\necho ok 0"))
        self.assertEqual(ran.returncode, 1)
        self.assertRegex(ran.stdout, (r"\Aseed 1: ok 0, and by the model ok [1-9][0-9]*\n"
                                      r"(?:seed 1: ok 0, and by the model .*\n){14}15 logs, 15 differ\n\Z"))

    @unittest.skipUnless(shutil.which("cc"), "cc is not installed")
    def test_a_program_that_refuses_no_line(self):
        program = self.other("while read -r line; do echo ok; done")
        ran = command("tools/fail-script-allocations", "examples/hijack.bgp", PROGRAM=program)
        self.assertEqual(ran.returncode, 1)
        self.assertRegex(ran.stdout, r"\Aallocation [0-9]+ refused: status [1-9]")

    @unittest.skipUnless(shutil.which("cc"), "cc is not installed")
    def test_a_program_whose_allocations_cannot_be_refused(self):
        ran = command("tools/fail-script-allocations", "examples/hijack.bgp", PROGRAM=self.other("exec 2>&-"))
        self.assertEqual((ran.returncode, ran.stdout), (2, ""))
        self.assertEqual(ran.stderr, "the program prints no number of allocations: "
                                     "allocation_faults.c is not loaded into it\n")


@unittest.skipUnless(shutil.which("cc"), "cc is not installed")
class FailScriptAllocations(Case):
    """A program that allocates once, and once for each line; well, or so that it forgets after a refusal."""
    SOURCE = r"""
        #include <stdlib.h>
        #include <string.h>
        #include <unistd.h>
        static void *volatile kept;
        static int allocates(void) { return (kept = malloc(1)) != 0; }
        static int say(int to, const char *text) { return write(to, text, strlen(text)) < 0; }
        int main(int count, char **words) {
            char one;
            const char *reply = "ok\n";
            if (!allocates()) return say(2, "memory\n"), 5;
            if (!strcmp(words[1], "team")) return allocates(), say(1, "bgpsim log 2\nend 0\n");
            if (!strcmp(words[1], "replay")) return say(1, allocates() || WELL ? "ok 0\n" : "ok 1\n");
            while (read(0, &one, 1) == 1)
                if (one == '\n') {
                    if (allocates()) say(1, reply);
                    else { say(1, "refused 20 memory\n"); reply = WELL ? reply : "forgotten\n"; }
                }
            return count < 2;
        }
    """

    def program(self, is_well):
        """The program, which stands for the machines too."""
        source, path = self.file("program.c", self.SOURCE), str(self.folder / ("well" if is_well else "forgets"))
        subprocess.run(["cc", "-DWELL=%d" % is_well, "-o", path, str(source)], check=True)
        return path

    def refused(self, is_well, main, *words):
        path = self.program(is_well)
        machines = unittest.mock.patch.object(programs, "MACHINE_SCRIPTS", pathlib.Path(path))
        with unittest.mock.patch.dict(os.environ, {"PROGRAM": path}), machines:
            return called(main, *words)

    def test_a_line_that_is_refused_and_done_when_asked_again(self):
        script = self.file("three.bgp", "quiet\n" * 3)
        self.assertEqual(self.refused(True, fail_script_allocations.main, script), (
            0, "4 allocations refused in turn: refused 20, and done when asked again: 3, status 5: 1\n"))
        self.assertEqual(self.refused(True, fail_script_allocations.main, script, 2, 2), (
            0, "1 allocations refused in turn: refused 20, and done when asked again: 1\n"))

    def test_a_line_that_is_not_done_when_asked_again(self):
        status, told = self.refused(False, fail_script_allocations.main, self.file("three.bgp", "quiet\n" * 3))
        self.assertEqual(status, 1)
        self.assertIn("allocation 2 refused: status 0, b'refused 20 memory\\nforgotten\\nforgotten\\n', b''", told)
        # of one line alone it is only seen where it is asked again
        self.assertEqual(self.refused(False, fail_script_allocations.main, self.file("one.bgp", "quiet\n")), (
            1, "allocation 2 refused: status 0, b'refused 20 memory\\n', b''\n"))

    def test_deliveries_before_the_failure_stand(self):
        """Each delivery takes memory; the script is one for converge, as the file beside it says."""
        network = (TOP / "cases" / "converge" / "first.bgp").read_text().split("waiting\n")[0]
        script = self.file("waits.bgp", network + "snapshot\nconverge random 7\nwaiting\nrestore 1\nwaiting\nquiet\n")
        self.assertNotEqual(called(fail_script_allocations.main, script, 6)[0], 0)
        self.file("waits.args", "converge\n")
        status, told = called(fail_script_allocations.main, script, 6)
        self.assertRegex(told, r"\A[0-9]+ allocations refused in turn: (as ever: [0-9]+, )?refused 20, .*: [0-9]+\n\Z")
        self.assertEqual(status, 0)

    def test_a_folder(self):
        self.file("scripts/three.bgp", "quiet\n" * 3)
        each = ("three.bgp, well %s: 4 allocations refused in turn: "
                "refused 20, and done when asked again: 3, status 5: 1\n")
        said = "".join(each % on for on in ("script", "plain", "sorted", "trie")) + "4 passed, 0 failed\n"
        self.assertEqual(self.refused(True, fail_script_allocations.main, self.folder / "scripts"), (0, said))
        status, told = self.refused(False, fail_script_allocations.main, self.folder / "scripts")
        self.assertEqual((status, told.split("\n")[-2]), (1, "0 passed, 4 failed"))

    def test_a_log(self):
        for is_well, status, said in ((True, 0, {"memory: 1", "as ever: 1"}),
                                      (False, 1, {"memory: 1", "(0, b'ok 1\\n', b''): 1"})):
            ran = command("tools/logs", "refuse", PROGRAM=self.program(is_well))
            self.assertEqual((ran.returncode, ran.stdout[:33]), (status, "2 allocations refused in turn: me"))
            self.assertEqual(set(ran.stdout.rstrip("\n").split(": ", 1)[1].split(", ", 1)), said)

    def test_a_team(self):
        with unittest.mock.patch.dict(os.environ, {"PROGRAM": self.program(True)}), \
                allocation_faults.injector() as inject:
            self.assertEqual(list(teams.refused([], inject)), [("2 allocations refused in turn", True, {5: 1, 0: 1})])
            with unittest.mock.patch.object(teams, "is_well", lambda ran: ran.status == 0):
                self.assertEqual([tried[:2] for tried in teams.refused([], inject)], [
                    ("allocation 1 refused", False), ("2 allocations refused in turn", True)])


class Teams(Case):
    SCRIPT = "router 1.0.0.1 1\nquiet\n"

    def wrong(self, log, told=b"", text=SCRIPT, workers=1):
        """What is wrong with the log of a team of one engineer."""
        return teams.wrong([text], workers, running.Ran(log.encode(), told, 0))

    def test_a_team(self):
        files = teams.written(str(self.folder), [self.SCRIPT + "router\n"])
        ran = teams.team(files, 2)
        self.assertEqual((teams.wrong([self.SCRIPT + "router\n"], 2, ran), ran.status), (None, 0))

    def test_a_log_that_is_wrong_is_told(self):
        log = logs.log_of(self.SCRIPT)
        self.assertIsNone(self.wrong(log))
        other_reply, other_seat = log.replace("yes", "no"), log.replace("@0 quiet", "@1 quiet")
        other_order = logs.log_of("quiet\nrouter 1.0.0.1 1\n")
        for found, said in (
                (self.wrong(other_reply), "its log: differs at line 5, and by the model differs at line 5"),
                (self.wrong(other_order), "the calls of seat 0 are not the commands of its file"),
                (self.wrong(logs.under(log, 1)), "its header: 'bgpsim log 1'"),
                (self.wrong(other_seat, text="router 1.0.0.1 1\n"), "seats [1] made other calls than deliveries"),
                (self.wrong(log, text=self.SCRIPT + "router\n"), "of file 1 it told the lines [], and not [3]"),
                (self.wrong(log, b"file 1 line 3: refused 1 syntax\n"), "of file 1 it told the lines [3], and not []"),
                (self.wrong(log, b"memory\n"), "it told 'memory'")):
            self.assertEqual(found, said)
        self.assertEqual(teams.wrong([self.SCRIPT], 1, running.Ran(b"", b"memory\n", 5)), "status 5: memory\n")

    def test_a_team_out_of_memory(self):
        log = logs.log_of(self.SCRIPT).encode()
        told = b"file 1 line 2: refused 20 memory\n"
        for out, err, status, is_well in ((b"", b"memory\n", 5, True), (log, b"memory\n", 5, False),
                                          (log, b"", 0, True), (log, told, 0, True), (log[:-6], b"", 0, False)):
            self.assertEqual(teams.is_well(running.Ran(out, err, status)), is_well)


class TryMutants(Case):
    """A repository of one crate, and an rt that proves whatever has no `wrong` in it, and else prints what stands after
    that. It notes its words."""
    SOURCE = "fn half(n: u8) -> u8 {\n    good\n}\n\nfn whole(n: u8) -> u8 {\n    fair\n}\nconst MOST: u8 = 3;\n"
    GOAL = "note: src/lib.rt:2:5: it is not proved that what the function ensures holds when it returns (`returns`)"
    PROOF = "./proofs/half/Answers.antt:3:9: error: `returns`: expected type `1 ≡ 2`, but this has type `1 ≡ 1`"
    TOLD = {
        "a": (GOAL, "fn low::half: no proof: expected answers", "fn low::whole: proved"),
        "b": (GOAL, "fn low::fn::half::byte: no proof: expected answers"),
        "c": (PROOF, GOAL, "fn low::half: not proved"),
        "d": (GOAL, "fn low::whole: no proof: expected answers", "fn low::half: proved"),
        "e": (GOAL + "; `search` gave up at one of its limits", "fn low::half: no proof: expected answers"),
        "f": (PROOF, "fn low::half: not proved", "fn low::whole: no proof: it calls `low::half`, which is not proved"),
        "g": ("src/lib.rt:2:5: error: `half`: `wrong` is not in scope",),
    }

    def test_each_edit_has_to_be_refused(self):
        self.file("HANDLES", "")
        self.file("crates.txt", "low: # none\n")
        self.file("crates/low/src/lib.rt", self.SOURCE)
        edits = [(name, "good", "wrong " + name) for name in self.TOLD]
        for name, old, new in edits + [("h", "good", "better"), ("i", "bad", "wrong"), ("j", "= 3", "= 4; // wrong a")]:
            self.file("crates/low/mutants/%s.edit" % name, "file: src/lib.rt\nold: %s\nnew: %s\n" % (old, new))
        for name, lines in self.TOLD.items():
            self.file("bin/" + name, "\n".join(lines) + "\nlogic=not-proved\n")
        proves = ("#!/bin/sh\necho \"$*\" >>%s/words\n"
                  "for it in $(sed -n 's/.*wrong \\(.\\).*/\\1/p' src/lib.rt); do cat %s/$it; exit 1; done\n")
        self.file("bin/rt", proves % (self.folder, self.folder / "bin")).chmod(0o755)
        with unittest.mock.patch.object(try_mutants, "TOP", self.folder), \
                unittest.mock.patch.object(try_mutants, "RT", ["rt"]), \
                unittest.mock.patch.dict(os.environ, {"PATH": "%s:%s" % (self.folder / "bin", os.environ["PATH"])}):
            status, told = called(try_mutants.main)
        asked = (self.folder / "words").read_text().splitlines()
        alone = "check --jobs 1 --allow-holes --only low::half"
        self.assertEqual((asked.count("check --jobs 1"), asked.count(alone), len(asked)), (5, 8, 13))
        self.assertEqual((status, re.sub(r" \([0-9]+ s\)", "", told)), (1, (
            "low/a: refused by a goal: `returns` of low::half\n"
            "low/b: refused by a goal: `returns` of low::fn::half::byte\n"
            "low/c: refused by a goal, beside a proof file: `returns` of low::half\n"
            "low/as it is: proved\n"
            "low/d: refused elsewhere: `returns` of low::whole\n"
            "low/e: refused at a limit: `returns` of low::half\n"
            "low/f: refused BY A PROOF FILE alone: %s\n"
            "low/g: BAD: it did not reach the prover: src/lib.rt:2:5: error: `half`: `wrong` is not in scope\n"
            "low/h: PROVED: the crate is still proved with this edit\n"
            "low/i: BAD: an 'old:' text stands in src/lib.rt 0 times\n"
            "low/j: refused elsewhere: `returns` of low::half\n"
            "2 refused by a goal\n1 refused by a goal, beside a proof file\n2 refused elsewhere\n1 refused at a limit\n"
            "1 refused BY A PROOF FILE alone\n2 that show nothing\n7 refused, 1 proved\n") % self.PROOF))
        self.assertEqual((self.folder / "crates/low/src/lib.rt").read_text(), self.SOURCE)

    def test_edits_of_other_functions_share_a_check(self):
        edits = []
        for name, old, new in (("a", "good", "wrong a"), ("b", "fair", "wrong b"), ("c", "good", "better")):
            edits.append(self.file("low/mutants/%s.edit" % name, "file: src/lib.rt\nold: %s\nnew: %s\n" % (old, new)))
        self.file("low/src/lib.rt", self.SOURCE)
        low = try_mutants.Copied(self.folder / "low", left_out.bodies(self.folder / "low"))
        self.assertEqual(try_mutants.rounds_of(edits, low), [[edits[0], edits[1]], [edits[2]]])
        other = "note: src/lib.rt:6:5: it is not proved that what the function ensures holds when it returns (`gives`)"
        by_goal = {edits[0]: ("refused by a goal", "`returns` of low::half"),
                   edits[1]: ("refused by a goal", "`gives` of low::whole")}
        for lines, found, checks in (
                ((self.GOAL, "fn low::half: not proved", other, "fn low::whole: not proved"), by_goal, 1),
                ((other, "fn low::whole: not proved"), {edits[1]: by_goal[edits[1]]}, 1),
                ((self.PROOF, "fn low::half: not proved"),
                 {edits[0]: ("refused BY A PROOF FILE alone", self.PROOF)}, 1),
                ((self.PROOF, "fn low::half: proved"), {}, 1),
                (("fn low::half: no holes", "fn low::whole: depends on a hole in `Rattle.low.proofs.whole.Proof.f`"),
                 {edits[0]: ("PROVED", "its functions are proved as they are edited")}, 1),
                (("fn low::half: could not tell", "fn low::whole: depends on a hole in `Rattle.low.proofs.f.Proof.f`"),
                 {edits[1]: ("PROVED", "its functions are proved as they are edited")}, 1),
                (self.TOLD["g"], {}, 3)):
            seen = []

            def check(folder, functions, lines=lines, seen=seen):
                seen.append(((folder / "src/lib.rt").read_text(), functions))
                return 1, [*lines, "only=2 proved=0"]

            with self.subTest(lines=lines), unittest.mock.patch.object(try_mutants, "check", check):
                self.assertEqual(try_mutants.at_once(edits[:2], low), found)
            text = self.SOURCE.replace("good", "wrong a").replace("fair", "wrong b")
            self.assertEqual((seen[0], len(seen)), ((text, {"low::half", "low::whole"}), checks))
        self.assertEqual((self.folder / "low/src/lib.rt").read_text(), self.SOURCE)

    def test_proofs_that_are_left_out(self):
        self.file("low/src/lib.rt", "mod net;\nfn walk() { walk(); }\nfn main() { run(1); }\n#[test]\nfn t() {}\n")
        self.file("low/src/net.rt", "struct Net;\nimpl Net { fn get() {} fn put() { get(); } }\n"
                                    "impl Same for Net { fn is_same() {} }\nimpl Line<Held> for Net { fn at() {} }\n"
                                    "impl Same for Other { fn is_same() {} }\nfn free() {}\n#[cfg(test)]\nmod tests;\n")
        self.file("low/src/net/tests.rt", "fn helper() {}\n")
        answers = self.file("low/proofs/net/Net/get/Answers.antt", "")
        kept = self.file("low/proofs/net/Net/put/Answers.antt", "")
        left_out.leave_out(self.folder / "low", ["low::net::Net::put"])
        holes = sorted(str(path.relative_to(self.folder / "low/proofs"))
                       for path in (self.folder / "low").rglob("Proof.antt"))
        self.assertEqual(holes, ["net/Net/get/Proof.antt", "net/NetSame/is_same/Proof.antt", "net/free/Proof.antt"])
        self.assertEqual((answers.exists(), kept.exists()), (False, True))
        self.assertEqual((answers.parent / "Proof.antt").read_text(), (
            "use Rattle.low.proofs.net.Net.get.Statement.{statement}\n\npub get_spec : {M : Type 1} → statement M\n"
            "get_spec = ?\n"))

    def test_what_is_asked_for(self):
        edit = self.file("crates/low/mutants/a.edit", "")
        with unittest.mock.patch.object(try_mutants, "TOP", self.folder):
            self.assertEqual(try_mutants.asked_edits([str(edit)], ["low"]), {"low": [edit.resolve()]})
            for word in ("high", str(self.folder / "gone.edit")):
                self.assertRaises(ValueError, try_mutants.asked_edits, [word], ["low"])


class Bench(Other):
    def test_a_program_that_ends_with_another_status(self):
        program = self.other("exit 3")
        for call in ("bench/edits origins 5", "bench/teams reflect 1"):
            ran = command(*call.split(), PROGRAM=program)
            said = "%s script ended with status 3\n" % program
            self.assertEqual((ran.returncode, ran.stdout, ran.stderr), (1, "", said))

    def test_a_load(self):
        ran = command("bench/loads", "table", 3)
        # A router and four peers of three lines each. Of each prefix four feeds, each of which is delivered and then
        # chosen: it is told to the three others, and but for the first one withdrawn from who told it.
        self.assertTrue(ran.stdout.startswith("table 3: 82 lines, 57 deliveries, 0 refused\n"), ran)
        self.assertEqual((ran.returncode, ran.stdout.count("\n")), (0, 3))

    def test_a_load_of_communities(self):
        lines = loads.lines("tagged", 3)
        # As that of table, and two rules for each peer.
        self.assertEqual((len(lines), sum(line.startswith("deliver ") for line in lines)), (82 + 8, 57))
        feeds = [line for line in lines if line.startswith("feed ")]
        self.assertEqual([line.split("comm=")[1].count(",") for line in feeds], [7] * 12)

    def test_edits(self):
        ran = command("bench/edits", "--runs", 1, "origins", 5, "rules", 2)
        self.assertEqual(ran.returncode, 0, ran.stderr)
        self.assertRegex(ran.stdout, (r"\Aorigins 5: [0-9]+ processors: \S+ \(\S+\) s of a processor, .*"
                                      r" of one's time by the clock\nrules 2: .*\n\Z"))

    def test_teams(self):
        ran = command("bench/teams", "reflect", 1)
        self.assertEqual(ran.returncode, 0, ran.stderr)
        # Four who would make the reflector; a client of four lines and 20 prefixes; 20 deliveries, and none back to who
        # told them.
        self.assertEqual(re.findall("replay: (ok [0-9]+);", ran.stdout), ["ok 48"] * 3)

    def test_tables(self):
        self.file("table_bench/out/table_bench", "#!/bin/sh\n").chmod(0o755)
        rt = self.file("bin/rt", "#!/bin/sh\n")
        rt.chmod(0o755)
        with unittest.mock.patch.object(bench_tables, "CRATE", self.folder / "table_bench"), \
                unittest.mock.patch.dict(os.environ, {"PATH": "%s:%s" % (self.folder / "bin", os.environ["PATH"])}):
            status, told = called(bench_tables.main, 5, 7)
            rt.write_text("#!/bin/sh\nexit 3\n")
            with self.assertRaisesRegex(commands.Missing, "rt run in crates/table_bench ended with status 3"):
                called(bench_tables.main)
        self.assertEqual(status, 0)
        self.assertRegex(told, (r"\Atable, random keys: inserts a second; longest matches a second\n"
                                r"sorted, 5: [^;]+; [^;]+\ntrie, 5: [^;]+; [^;]+\n\Z"))
        self.assertEqual([bench_tables.a_second(10, used) for used in (0.5, 0)], ["20", "too fast to tell"])
