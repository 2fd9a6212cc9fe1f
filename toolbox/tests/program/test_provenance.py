"""Where a program comes from: its record, `--version` of the launcher and of each tool, what a sweep keeps of it."""
import hashlib
import json
import os
import shutil
import subprocess
import sys
import unittest.mock

from bgptools.cli.tools import TOOLS
from bgptools.program import location, provenance
from bgptools.program.mistakes import Mistake
from bgptools.program.provenance import Provenance
from bgptools.sweep import cluster
from common import TOOLBOX, TOP, Case, alone, inside, tool
from kit import Repository, executable
from simtools import build_record

THREE = TOOLBOX / "lessons" / "three-ases.bgp"
SCRIPT = "#!/bin/sh\necho bgpsim 0.1.0\n"
RECORD = {"version": "0.1.0", "commit": "c0ffee", "is_proved": True, "kit": "rattle-kit-1 logic 2", "digest": "77"}


def sum_of(content):
    """The SHA-256 of bytes, in hexadecimal."""
    return hashlib.sha256(content).hexdigest()


class Reading(Case):
    def program(self, name="bgpsim", **record):
        """A program with a record, as a build leaves it."""
        path = self.folder / name
        executable(path, SCRIPT)
        if record:
            self.file(name + ".json", json.dumps({"sha256": sum_of(SCRIPT.encode()), **record}))
        return str(path)

    def test_of_a_program_with_a_record(self):
        found = provenance.of(self.program(**RECORD))
        self.assertEqual(found, Provenance("0.1.0", "c0ffee", True, "rattle-kit-1 logic 2", "sources-sha256:77"))
        self.assertEqual(found.lines(), ["commit: c0ffee", "proved: yes, by rattle-kit-1 logic 2",
                                         "digest: sources-sha256:77"])
        self.assertEqual(found.as_json(), {**RECORD, "digest": "sources-sha256:77"})

    def test_of_one_that_is_not_proved(self):
        found = provenance.of(self.program(**{**RECORD, "is_proved": False}))
        self.assertEqual(found.lines()[1], "proved: no, compiled by rattle-kit-1 logic 2")

    def test_without_a_record_its_own_sum_tells_it_from_others(self):
        found, digest = provenance.of(self.program()), "program-sha256:" + sum_of(SCRIPT.encode())
        self.assertEqual(found, Provenance("unknown", "unknown", None, "unknown", digest))
        self.assertEqual(found.lines()[:2], ["commit: unknown", "proved: unknown"])

    def test_a_record_of_another_program_is_left_aside(self):
        path = self.program(**RECORD)
        self.assertTrue(provenance.of(path).is_proved)
        with open(path, "a") as file:
            file.write("# another\n")
        self.assertIsNone(provenance.of(path).is_proved)

    def test_what_is_no_record(self):
        path, total = self.program(), sum_of(SCRIPT.encode())
        for text in ("", "[]", "{}", "7", json.dumps({**RECORD, "sha256": total, "is_proved": "yes"})):
            self.file("bgpsim.json", text)
            provenance._of.cache_clear()
            self.assertEqual(provenance.of(path).commit, "unknown", text)

    def test_of_an_installed_program_and_of_a_link(self):
        """The package's script stands for the program that it runs."""
        path = self.program("usr/lib/bgpsim/bgpsim", **RECORD)
        script = self.folder / "usr/bin/bgpsim"
        self.file("usr/bin/bgpsim", (TOP / "debian/launcher/bgpsim").read_text()).chmod(0o755)
        for name, target in (("link", path), ("other", str(script))):
            (self.folder / name).symlink_to(target)
        for each in (path, str(script), str(self.folder / "link"), str(self.folder / "other")):
            self.assertEqual(provenance.of(each).commit, "c0ffee")
            self.assertEqual(str(provenance.record_of(each)), path + ".json")
        with unittest.mock.patch.dict(os.environ, {"PATH": str(self.folder / "usr/bin")}):
            self.assertEqual(provenance.of("bgpsim").commit, "c0ffee")

    def test_a_program_at_the_place_of_the_script_stands_for_itself(self):
        """Somebody has copied a program of their own over the package's script."""
        self.program("usr/lib/bgpsim/bgpsim", **RECORD)
        path = self.folder / "usr/bin/bgpsim"
        path.parent.mkdir()
        path.write_bytes(b"\x7fELF another")
        self.assertEqual(provenance.of(str(path)).digest, "program-sha256:" + sum_of(b"\x7fELF another"))
        self.assertIsNone(provenance.record_of(str(path)))

    def test_of_no_program(self):
        for path in (str(self.folder / "none"), "no-such-program", str(self.folder)):
            self.assertEqual(provenance.of(path).digest, "unknown")

    def test_a_program_is_read_once_as_long_as_it_stays(self):
        path = self.program(**RECORD)
        with unittest.mock.patch.object(provenance, "_sum", wraps=provenance._sum) as read:
            for _ in range(3):
                provenance.of(path)
            self.assertEqual(read.call_count, 1)
            os.utime(path, (1, 1))
            provenance.of(path)
            self.assertEqual(read.call_count, 2)

    def test_lines_of_a_version(self):
        path = self.program(**RECORD)
        self.assertEqual(provenance.version_lines(path)[:2], ["bgpsim 0.1.0", "commit: c0ffee"])
        executable(self.folder / "fails", "#!/bin/sh\nexit 7\n")
        for name, said in (("fails", "`--version` ended with status 7"),
                           ("none", "the program cannot be run: No such file or directory")):
            with self.assertRaises(Mistake) as caught:
                provenance.version_lines(str(self.folder / name))
            self.assertEqual(str(caught.exception), "%s: %s" % (self.folder / name, said))

    def test_asked_by_its_name(self):
        path = self.program(**RECORD)
        told = alone([sys.executable, "-B", "-m", "bgptools.program.provenance", path], TOOLBOX)
        self.assertEqual(told.stdout.decode().splitlines(), provenance.of(path).lines())
        told = alone([sys.executable, "-B", "-m", "bgptools.program.provenance"], TOOLBOX)
        self.assertEqual((told.returncode, told.stderr), (2, b"usage: python3 -m bgptools.program.provenance PROGRAM\n"))


class Writing(Case):
    def setUp(self):
        super().setUp()
        self.here = Repository(self.folder)

    def git(self, *words):
        """Runs git in the repository."""
        names = {"GIT_%s_%s" % (who, what): "a@b.example"
                 for who in ("AUTHOR", "COMMITTER") for what in ("NAME", "EMAIL")}
        ran = subprocess.run(["git", *words], cwd=str(self.here.top), env={**self.here.surroundings(), **names},
                             stdout=subprocess.PIPE, stderr=subprocess.DEVNULL, check=True)
        return ran.stdout.decode().strip()

    def version(self, **more):
        """What ./bgpsim --version prints."""
        status, out, _ = self.here.run("--version", **more)
        self.assertEqual(status, 0)
        return out

    def test_the_commit_is_gits(self):
        self.assertEqual(self.version()[:2], ["bgpsim 0.1.0", "commit: unknown"])
        self.file("tree/.gitignore", "out/\n")
        for words in (["init", "-q"], ["add", "-A"], ["commit", "-qm", "all"]):
            self.git(*words)
        head = self.git("rev-parse", "HEAD")
        self.here.write("crates/low/src/lib.rt", "changed")
        self.here.write("crates/low/src/untracked.rt", "new")
        self.assertEqual(self.version()[1], "commit: %s-dirty" % head)
        self.git("commit", "-qam", "changed")
        self.here.write("crates/low/src/lib.rt", "again")
        self.git("commit", "-qam", "again")
        self.assertEqual(self.version()[1], "commit: " + self.git("rev-parse", "HEAD"))
        self.here.write("crates/low/src/lib.rt", "without git")
        only = self.folder / "only"
        only.mkdir()
        for name in "bash sh env readlink find cat ls rm mv mkdir cp chmod sleep flock".split():
            (only / name).symlink_to(shutil.which(name))
        (only / "python3").symlink_to(sys.executable)
        self.assertEqual(self.version(PATH="%s:%s" % (self.here.kit / "bin", only))[1], "commit: unknown")

    def test_a_repository_around_this_one_is_not_its_own(self):
        subprocess.run(["git", "init", "-q", str(self.folder)], check=True, env=self.here.surroundings())
        self.assertEqual(build_record.commit_of(self.here.top), "unknown")

    def test_the_digest_is_of_sources_definitions_and_proofs(self):
        """A document, a comment of crates.txt and a crate beside keep it; the proved program has the same one."""
        first = self.version()[3]
        self.assertRegex(first, "^digest: sources-sha256:[0-9a-f]{64}$")
        for path, text in (("README.md", "words"), ("crates.txt", "low:\nbgpsim: low\n# said otherwise\n"),
                           ("crates/other/src/lib.rt", "x")):
            self.here.write(path, text)
            shutil.rmtree(str(self.here.out))
            self.assertEqual(self.version()[3], first, path)
        told = self.here.run("--prove")
        self.assertEqual(told[0], 0, told)
        self.assertEqual(self.version()[2:], ["proved: yes, by rattle-kit-test logic 0123", first])
        shutil.rmtree(str(self.here.out))
        found = {first}
        for path in ("crates/low/src/lib.rt", "crates/low/specs/Lib.antt", "crates/bgpsim/proofs/Lib.antt"):
            self.here.write(path, "changed")
            shutil.rmtree(str(self.here.out), ignore_errors=True)
            found.add(self.version()[3])
        os.rename(str(self.here.top / "crates/low/src/lib.rt"), str(self.here.top / "crates/low/src/other.rt"))
        shutil.rmtree(str(self.here.out))
        found.add(self.version()[3])
        self.assertEqual(len(found), 5)

    def test_both_ways_to_ask_for_a_version(self):
        self.assertEqual(self.version(), self.here.run("-V")[1])
        self.assertEqual(self.here.run("--version", "x")[1][:2], ["bgpsim 0.1.0", "ran --version x"])

    def test_of_a_named_program(self):
        path = self.folder / "named"
        executable(path, SCRIPT)
        self.assertEqual(self.version(PROGRAM=str(path)), ["bgpsim 0.1.0", "commit: unknown", "proved: unknown",
                                                           "digest: program-sha256:" + sum_of(SCRIPT.encode())])

    def test_the_crates_that_a_program_stands_on(self):
        text = "# a\nlow may_wait=2: std_of_kit # why\nside: low\n\nbgpsim:  low  mid\nmid: low\ntop: bgpsim\n"
        self.assertEqual(build_record.crate_lines(text), {
            "low": "low may_wait=2: std_of_kit", "bgpsim": "bgpsim:  low  mid", "mid": "mid: low"})


class Tools(Case):
    def test_each_tool_prints_what_the_launcher_does(self):
        wanted = "\n".join(provenance.version_lines(location.program())) + "\n"
        self.assertTrue(wanted.startswith("bgpsim "))
        for name in TOOLS:
            told = tool(name, "--version", status=0)
            self.assertEqual((told.stdout, told.stderr), (wanted, ""), name)

    def test_without_a_program(self):
        with unittest.mock.patch.dict(os.environ, {"PROGRAM": str(self.folder / "none")}):
            told = tool("converge", "--version", status=2)
        self.assertIn("none: the program cannot be run: No such file", told.stderr)


class Sweeps(Case):
    def sweep(self, *words, status=None):
        """A sweep of a lesson."""
        told = inside("sweep", THREE, "--fail-links", "--jobs", 1, *words)
        self.assertIn(told.returncode, (0, 1) if status is None else (status,), told.stderr)
        return told

    def as_if_of(self, **record):
        """Until the end of the test the program has another record."""
        made = provenance.of(location.program())
        made = Provenance(**{**made.as_json(), **record})
        patched = unittest.mock.patch.object(provenance, "of", lambda _: made)
        patched.start()
        self.addCleanup(patched.stop)
        return made

    def test_results_the_page_and_json_name_the_program(self):
        made = self.as_if_of(version="0.9", commit="c0ffee", is_proved=False, kit="a kit", digest="sources-sha256:7")
        results = self.folder / "results"
        page = self.sweep("--results", results, "--html").stdout
        self.assertEqual(json.loads(results.read_text().splitlines()[0])["program"], made.as_json())
        said = "bgpsim 0.9\ncommit: c0ffee\nproved: no, compiled by a kit\ndigest: sources-sha256:7"
        self.assertIn('<pre id="program">%s</pre>' % said, page)
        shown = {**made.as_json(), "proved": False}
        del shown["is_proved"]
        self.assertEqual(json.loads(self.sweep("--json").stdout)["program"], shown)

    def test_results_of_another_program_are_not_gone_on_with(self):
        results = self.folder / "results"
        self.as_if_of(digest="sources-sha256:7")
        self.sweep("--results", results)
        before = results.read_bytes()
        self.as_if_of(digest="sources-sha256:7", commit="another", is_proved=True)
        self.sweep("--results", results, "--resume")
        self.assertEqual(results.read_bytes(), before)
        self.as_if_of(digest="sources-sha256:8")
        told = self.sweep("--results", results, "--resume", status=2)
        self.assertIn("results:1: it has the results of another program, of digest sources-sha256:7, and this one has "
                      "sources-sha256:8: name that program by PROGRAM=, or begin another file", told.stderr)
        self.assertEqual(results.read_bytes(), before)

    def test_results_that_name_no_program_are_not_gone_on_with(self):
        results = self.folder / "results"
        self.sweep("--results", results)
        head, *rest = results.read_text().splitlines()
        told = json.loads(head)
        del told["program"]
        results.write_text("\n".join([json.dumps(told), *rest, ""]))
        said = self.sweep("--results", results, "--resume", status=2).stderr
        self.assertIn("another program, of digest unknown, and this one has ", said)

    def test_programs_that_cannot_be_told_apart_are_not_taken_for_one(self):
        results = self.folder / "results"
        self.as_if_of(digest="unknown")
        self.sweep("--results", results)
        self.sweep("--results", results, "--resume", status=2)

    def test_a_worker_of_a_cluster_with_other_sources(self):
        class Client:
            def run(self, asked, program):
                python, package, told, _ = cluster.version_of(None)
                return {"tcp://worker:1": (python, package, told, "sources-sha256:8")}

        self.as_if_of(digest="sources-sha256:7")
        with self.assertRaisesRegex(Mistake, "the worker tcp://worker:1 has another version of the program's sources: "
                                             "`sources-sha256:8`, and here it is `sources-sha256:7`$"):
            cluster._check_versions(Client(), "tcp://scheduler:1", None)
