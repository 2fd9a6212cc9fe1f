"""bundle: an archive of a study is the same bytes each time, is checked by a run, and can do nothing but call our tools."""
import gzip
import hashlib
import io
import json
import os
import subprocess
import tarfile

from bgptools.cli.tools import module_of
from bgptools.program import location
from bgptools.study.commands import TOOLS
from common import TOOLBOX, Case, files_of, inside, tool

LESSONS = TOOLBOX / "lessons"
COMMANDS = [["converge", "net.bgp", "--seed", "3", "-o", "made/converged.bgp"], ["what-if", "net.bgp", "fail.change"],
            ["sweep", "made/converged.bgp", "--changes", "changes", "--csv"],
            ["explain", "made/converged.bgp", "3.0.0.1", "198.51.100.0/24"]]


def tarred(*members):
    """An archive of these members, each a TarInfo with its content."""
    made = io.BytesIO()
    with tarfile.open(fileobj=made, mode="w:gz", format=tarfile.GNU_FORMAT) as archive:
        for member, content in members:
            if member.type == tarfile.REGTYPE:
                member.size = len(content)
            archive.addfile(member, io.BytesIO(content))
    return made.getvalue()


def member(name, content=b"", kind=tarfile.REGTYPE, link=""):
    """A member of an archive."""
    made = tarfile.TarInfo(name)
    made.type, made.linkname = kind, link
    return made, content


class Study(Case):
    def study(self, commands=COMMANDS, **fields):
        """The folder of a study on the network of three ASes."""
        self.file("study/net.bgp", (LESSONS / "three-ases.bgp").read_text())
        self.file("study/fail.change", (LESSONS / "three-ases-fail.change").read_text())
        self.file("study/changes/stop.change", "stop 1.0.0.1 2.0.0.1\n")
        self.file("study/changes/fail.change", "fail 1.0.0.1 3.0.0.1\n")
        self.file("study/study.json", json.dumps({"name": "three", "commands": commands, **fields}))
        return self.folder / "study"

    def bundle(self, name="a.tar.gz", **fields):
        """The archive of the study."""
        told = inside("bundle", self.study(**fields), "-o", self.folder / name)
        self.assertEqual((told.returncode, told.stdout), (0, ""), told.stderr)
        return self.folder / name

    def content(self, path):
        with tarfile.open(path) as archive:
            return {each.name: archive.extractfile(each).read() for each in archive.getmembers()}

    def packed(self, content, name="b.tar.gz"):
        """An archive of files, as another tool packs it."""
        path = self.folder / name
        path.write_bytes(tarred(*(member(each, content[each]) for each in sorted(content))))
        return path

    def check(self, path, *words):
        return inside("bundle", "--check", path, *words)


class Archive(Study):
    def test_it_has_what_the_tools_write_and_the_same_bytes_each_time(self):
        one = self.bundle(title="Three <ASes>", authors=["A. Student"])
        before = files_of(self.folder / "study")
        self.assertEqual(self.bundle("b.tar.gz", title="Three <ASes>", authors=["A. Student"]).read_bytes(), one.read_bytes())
        self.assertEqual(files_of(self.folder / "study"), before)
        found = self.content(one)
        self.assertEqual(list(found), sorted(found))
        for path, content in before.items():
            self.assertEqual(found["three/study/" + path], content)
        # What the tools say where a user calls them.
        folder = self.folder / "study"
        made = inside("converge", folder / "net.bgp", "--seed", 3).stdout
        self.assertEqual(found["three/outputs/made/converged.bgp"].decode(), made)
        said = inside("what-if", folder / "net.bgp", folder / "fail.change").stdout
        self.assertEqual(found["three/results/2-what-if.out"].decode(), said)
        made = self.file("made.bgp", made)
        said = inside("sweep", made, "--changes", folder / "changes", "--csv").stdout
        self.assertEqual(found["three/results/3-sweep.out"].decode(), said)
        self.assertEqual(found["three/results/4-explain.out"].decode(),
                         inside("explain", made, "3.0.0.1", "198.51.100.0/24").stdout)
        with tarfile.open(one) as archive:
            self.assertEqual({(each.mtime, each.uid, each.gid, each.uname, each.mode) for each in archive.getmembers()},
                             {(0, 0, 0, "", 0o644)})

    def test_the_manifest_and_the_readme(self):
        found = self.content(self.bundle(title="Three ASes", authors=["A. Student"]))
        manifest = json.loads(found["three/manifest.json"])
        self.assertEqual(manifest["commands"], [
            {"tool": "converge", "words": COMMANDS[0][1:], "order": "in the random order 3", "seed": "3", "status": 0},
            {"tool": "what-if", "words": COMMANDS[1][1:], "order": "in the fair order", "seed": None, "status": 1},
            {"tool": "sweep", "words": COMMANDS[2][1:], "order": "in the fair order", "seed": None, "status": 0},
            {"tool": "explain", "words": COMMANDS[3][1:], "order": "in the fair order", "seed": None, "status": 0}])
        sums = {path[len("three/"):]: hashlib.sha256(content).hexdigest() for path, content in found.items()
                if path not in ("three/manifest.json", "three/README.md")}
        self.assertEqual(manifest["files"], sums)
        version = subprocess.run([location.program(), "--version"], stdout=subprocess.PIPE, check=True).stdout.decode()
        self.assertIn(manifest["made_by"]["version"], version)
        readme = found["three/README.md"].decode()
        for text in ("# Three ASes\n", "A. Student", "bgpsim-what-if net.bgp fail.change\n", manifest["made_by"]["digest"],
                     "bgpsim-bundle --check three.tar.gz"):
            self.assertIn(text, readme)

    def test_logs_are_those_of_the_program(self):
        """`replay` takes each; that of a change goes on behind the network of the first one."""
        found = self.content(self.bundle())
        logs = {name: content for name, content in found.items() if name.endswith(".log")}
        self.assertEqual(sorted(logs), ["three/logs/%s.log" % each for each in ("1-converge", "2-what-if", "3-sweep")])
        for name, content in logs.items():
            said = subprocess.run([location.program(), "replay"], input=content, stdout=subprocess.PIPE, check=True).stdout
            self.assertEqual(found[name[:-len("log")] + "replay"], said)
            self.assertEqual(said, b"ok %d\n" % content.count(b"\n@"))
        change = (LESSONS / "three-ases-fail.change").read_text().split("\n")
        for line in (line for line in change if line and not line.startswith("#")):
            self.assertIn(("@0 %s\n= ok\n" % line).encode(), logs["three/logs/2-what-if.log"])

    def test_an_archive_is_checked_from_the_command_line(self):
        path = self.bundle(commands=COMMANDS[:2])
        told = tool("bundle", "--check", path, status=0)
        self.assertEqual((told.stdout, told.stderr), ("three: the same: %d files, of 2 commands\n" % len(self.content(path)), ""))


class Differences(Study):
    def test_each_is_told_with_its_file_and_line(self):
        content = self.content(self.bundle())
        self.assertEqual(self.check(self.packed(content)).returncode, 0)
        rows = content["three/results/3-sweep.out"].split(b"\n")
        rows[1] = rows[1].replace(b"fail.change", b"fall.change")
        planted = {**content, "three/results/3-sweep.out": b"\n".join(rows), "three/results/9-sweep.out": b"more\n"}
        del planted["three/logs/2-what-if.replay"]
        told = self.check(self.packed(planted))
        self.assertEqual(told.returncode, 1)
        lines = told.stdout.splitlines()
        self.assertEqual(lines[0], "logs/2-what-if.replay: this run has it, and the archive has not")
        self.assertEqual(lines[1], "results/3-sweep.out:2: the archive has `%s`, and this run has `%s`" % (
            rows[1].decode(), rows[1].decode().replace("fall", "fail")))
        self.assertEqual(lines[2:], ["results/9-sweep.out: the archive has it, and this run has not",
                                     "three: 3 of %d files differ" % (len(content) + 1)])

    def test_an_input_that_was_changed(self):
        content = self.content(self.bundle(commands=COMMANDS[:1]))
        content["three/study/net.bgp"] += b"fail 1.0.0.1 2.0.0.1\n"
        told = self.check(self.packed(content))
        self.assertEqual(told.returncode, 1)
        for text in ("outputs/made/converged.bgp:", "logs/1-converge.log:", "manifest.json:"):
            self.assertIn("\n" + text, "\n" + told.stdout)

    def test_what_made_it_is_told_where_it_is_another(self):
        content = self.content(self.bundle(commands=COMMANDS[:1]))
        made = json.loads(content["three/manifest.json"])
        digest = made["made_by"]["digest"]
        for name in ("manifest.json", "README.md"):
            content["three/" + name] = content["three/" + name].replace(digest.encode(), b"sources-sha256:7")
        told = self.check(self.packed(content))
        self.assertEqual((told.returncode, told.stdout), (0, "three: the same: %d files, of 1 commands\n" % len(content)))
        self.assertRegex(told.stderr, r"made by bgpsim \S+ of sources-sha256:7 .*, and checked by bgpsim \S+ of " + digest)


class Mistakes(Study):
    def refused(self, said, commands=None, **fields):
        folder = self.study(COMMANDS if commands is None else commands, **fields)
        told = inside("bundle", folder, "-o", self.folder / "a")
        self.assertEqual((told.returncode, told.stdout), (2, ""))
        self.assertIn(said, told.stderr)
        self.assertEqual(told.stderr.count("\n"), 1)
        self.assertFalse((self.folder / "a").exists())

    def test_commands_that_are_none_of_a_study(self):
        for words, said in (
                (["sh", "-c", "true"], "command 1: `sh` is no tool of a study"),
                (["play", "net.bgp"], "`play` is no tool of a study"), (["lab"], "`lab` is no tool"),
                (["converge", "/etc/passwd"], "`/etc/passwd` is no path inside of the study"),
                (["converge", "../net.bgp"], "`../net.bgp` is no path"), (["converge", "a/../../b"], "is no path"),
                (["converge", "-"], "`-` is no path"), (["converge", "net.bgp", "-o/tmp/x"], "`/tmp/x` is no path"),
                (["converge", "net.bgp", "-o", ".bashrc"], "`.bashrc` is no path"),
                (["converge", "net.bgp", "--jobs", "2"], "`--jobs` is none of a study"),
                (["sweep", "net.bgp", "--fail-links", "--sched", "tcp://h:1"], "unrecognized arguments: --sched"),
                (["sweep", "net.bgp", "--fail-links", "--scheduler", "tcp://h:1"], "`--scheduler` is none of a study"),
                (["sweep", "net.bgp", "--fail-links", "--results", "r"], "`--results` is none of a study"),
                (["sweep", "net.bgp", "--fail-links", "--json"], "`--json` is none of a study"),
                (["sweep", "net.bgp", "--changes", "../"], "`../` is no path"),
                (["converge", "--help"], "a call that prints no result"), (["converge"], "required: SCRIPT"),
                (["converge", "net.bgp\n"], "printable ASCII"), (["converge", 7], "printable ASCII"), ([], "printable ASCII"),
                (["converge", "net.bgp", "-o", "net.bgp"], "`-o net.bgp` would write over a file of the study"),
                (["converge", "net.bgp", "-o", "study.json"], "would write over a file of the study"),
                (["converge", "none.bgp"], "none.bgp: it cannot be read: No such file"),
                (["converge", "net.bgp", "--seed", "x"], "--seed x: a number is expected"),
                (["explain", "net.bgp", "9.9.9.9", "10.0.0.0/8"], "ends with status 2: there is no router 9.9.9.9")):
            with self.subTest(words=words):
                self.refused(said, [words])

    def test_files_that_are_no_study(self):
        for fields, said in (({"name": "../x"}, "`name`: small letters"), ({"name": None}, "`name`: small letters"),
                             ({"title": "a\nb"}, "`title` and `authors`: a line of text"), ({"more": 1}, "an object with"),
                             ({"commands": {}}, "a list of 1 to 100"), ({"commands": [["converge", "net.bgp"]] * 101}, "1 to 100")):
            with self.subTest(said=said):
                self.refused(said, **{"commands": None, **fields})
        self.file("study/study.json", "{")
        told = inside("bundle", self.folder / "study")
        self.assertIn("study.json: no JSON in UTF-8", told.stderr)

    def test_a_link_in_a_study_is_not_followed(self):
        folder = self.study([["converge", "link.bgp"]])
        (folder / "link.bgp").symlink_to(folder / "net.bgp")
        told = inside("bundle", folder, "-o", self.folder / "a")
        self.assertRegex(told.stderr, "link.bgp: a plain file is expected, and no link")

    def test_each_option_of_the_tools_is_known_or_refused(self):
        """A word of the list is one of the tool's parser; what writes or reads files, or works elsewhere, is a path or none."""
        for name, words in TOOLS.items():
            dests = {action.dest for action in module_of(name).parser()._actions} - {"help"}
            known = {*words.reads, *words.settings, *words.folders, *words.writes}
            self.assertEqual(known - dests, set(), name)
            self.assertEqual(known & {"jobs", "scheduler", "program", "results", "resume", "most_unpacked"}, set())
            self.assertEqual({"out", "file", "script", "base", "change", "changes"} & dests & set(words.settings), set())


class Malicious(Study):
    def refused(self, said, content, *words):
        path = self.folder / "evil.tar.gz"
        path.write_bytes(content)
        told = self.check(path, *words)
        self.assertEqual((told.returncode, told.stdout), (2, ""), told.stderr)
        self.assertIn(said, told.stderr)
        self.assertEqual(told.stderr.count("\n"), 1)

    def test_what_is_no_plain_file_of_a_plain_name(self):
        for each, said in (
                (member("/etc/evil", b"x"), "`/etc/evil` is no path of plain names"),
                (member("three/../../evil", b"x"), "`three/../../evil` is no path of plain names"),
                (member("three/study/.bashrc", b"x"), "is no path of plain names"),
                (member("three//evil", b"x"), "is no path"), (member("evil", b"x"), "`evil` is no path"),
                (member("three/a\nb", b"x"), r"`three/a\nb` is no path"),
                (member("three/link", kind=tarfile.SYMTYPE, link="/etc/passwd"), "`three/link` is a symbolic link"),
                (member("three/link", kind=tarfile.LNKTYPE, link="/etc/passwd"), "`three/link` is a link"),
                (member("three/device", kind=tarfile.CHRTYPE), "`three/device` is a device"),
                (member("three/fifo", kind=tarfile.FIFOTYPE), "`three/fifo` is a FIFO"),
                (member("three/folder", kind=tarfile.DIRTYPE), "`three/folder` is a folder"),
                (member("other/file", b"x"), "each once, in one folder"),
                (member("three/study/net.bgp", b"x"), "each once, in one folder"),
                (member("three/study/net.bgp/x", b"x"), "`study/net.bgp` is a file and a folder")):
            with self.subTest(said=said):
                self.refused(said, tarred(member("three/study/net.bgp", b"router 1.0.0.1 1\n"), each))

    def test_bombs(self):
        for kind in (tarfile.REGTYPE, tarfile.XHDTYPE, tarfile.GNUTYPE_LONGNAME):
            head = tarfile.TarInfo("three/bomb")
            head.type, head.size = kind, 40 * 10 ** 9
            begin = head.tobuf(tarfile.GNU_FORMAT)
            with self.subTest(kind=kind):
                self.refused("it unpacks to more than 1,000,000 bytes", gzip.compress(begin + bytes(3 * 10 ** 6)),
                             "--most-unpacked", "1M")
        sparse = tarfile.TarInfo("three/sparse")
        sparse.type = tarfile.GNUTYPE_SPARSE
        self.refused("`three/sparse` is no plain file", gzip.compress(sparse.tobuf(tarfile.GNU_FORMAT) + bytes(1024)))
        # A plain file of one byte, of which a header of POSIX makes three million.
        sparse.type, sparse.size = tarfile.REGTYPE, 1
        sparse.pax_headers = {"GNU.sparse.map": "0,1", "GNU.sparse.size": "3000000"}
        self.refused("`three/sparse` is no plain file", gzip.compress(
            sparse.tobuf(tarfile.PAX_FORMAT) + b"x" + bytes(511) + bytes(1024)), "--most-unpacked", "1M")

    def test_what_is_no_archive(self):
        for content in (b"", b"text\n", gzip.compress(b"text\n"), gzip.compress(bytes(1024)), gzip.compress(b"x" * 600)[:-9]):
            self.refused("no archive of `bundle`", content)
        whole = self.content(self.bundle(commands=COMMANDS[:1]))
        for name in ("three/study/study.json", "three/manifest.json"):
            some = {path: content for path, content in whole.items() if path != name}
            self.refused("no archive of `bundle`: it has no " + name[len("three/"):], self.packed(some).read_bytes())
        self.refused("no manifest of `bundle`", self.packed({**whole, "three/manifest.json": b"[]"}).read_bytes())

    def test_a_study_of_an_archive_calls_nothing_else_and_leaves_no_folder(self):
        whole = self.content(self.bundle(commands=COMMANDS[:1]))
        out = self.folder / "evil"
        for words, said in ((["sh", "-c", "touch %s" % out], "`sh` is no tool"),
                            (["converge", "net.bgp", "-o", str(out)], "is no path inside of the study"),
                            (["sweep", "net.bgp", "--fail-links", "--program", "/bin/sh"], "`--program` is none of a study")):
            study = json.dumps({"name": "three", "commands": [words]}).encode()
            self.refused(said, self.packed({**whole, "three/study/study.json": study}).read_bytes())
        self.assertFalse(out.exists())

    def test_no_module_of_an_archive_is_run(self):
        """A tool runs in the folder of the study, and finds its modules elsewhere."""
        content = self.content(self.bundle(commands=COMMANDS[:1]))
        out = self.folder / "evil"
        evil = ("open(%r, 'w')" % str(out)).encode()
        for name in ("json.py", "argparse.py", "sitecustomize.py", "bgptools/__init__.py"):
            content["three/study/" + name] = evil
        self.assertEqual(self.check(self.packed(content)).returncode, 1)
        self.assertFalse(out.exists())
        self.assertEqual(os.listdir(self.folder / "study").count("json.py"), 0)
