"""tools/package and debian/: what is in the package, what it says of itself, and what runs from an empty root."""
import gzip
import hashlib
import json
import os
import pathlib
import re
import shlex
import shutil
import subprocess
import sys
import tempfile
import time
import unittest

from bgptools import __version__
from bgptools.cli.tools import TOOLS
from bgptools.program import location
from common import PATIENCE, TOOLBOX, TOP, Case, alone, files_of
from pages import PAGES as DOCUMENTS_OF_USERS, blocks, examples, pattern
from simtools import site
from web_pages import dead, pages

# The program itself: usr/bin/bgpsim is a script that runs it.
PROGRAM = "usr/lib/bgpsim/bgpsim"
DOCUMENTS = "usr/share/doc/bgpsim"
PAGES = "usr/share/man/man1"
COMPLETION = "usr/share/bash-completion/completions"
# What tools/package reads.
PARTS = ("tools/package", "tools/simtools", "packaging", "debian", "mkdocs.yml", "docs", "examples", "toolbox", "README.md", "LICENSE", "crates.txt",
         ".gitignore")
GIT = shutil.which("git")
MAKERS = ("dpkg-buildpackage", "dh", "dh_python3", "help2man", "shtab", "mkdocs")
NEEDS_DEBIAN = unittest.skipUnless(all(map(shutil.which, MAKERS)), "no package can be made here: tools/setup")
SECONDS = 1700000000
STAND_IN = "#!/bin/sh\necho bgpsim 7.8\n"
# In the place of dpkg-buildpackage: the package is a text with what that was given.
BUILDER = """\
#!/bin/sh
{ echo "words $*"; echo "program $($PROGRAM)"; cat debian/changelog; echo "origin $(cat debian/origin)"
[ -f "$PROGRAM.json" ] && echo record there || echo record none; } > ../bgpsim_1_amd64.deb
"""
# In the place of mkdocs: pages that say when they were made, or what is wrong.
PAGES_MAKER = """\
#!/bin/sh
[ "$1 $2 $3" = "build --strict --site-dir" ] || exit 9
mkdir -p "$4/assets/javascripts/lunr" && echo "made at $SOURCE_DATE_EPOCH" > "$4/index.html"
touch "$4/404.html" "$4/sitemap.xml" "$4/sitemap.xml.gz" "$4/assets/a.js" "$4/assets/a.js.map"
"""
# Asks bash for the completion of its arguments, behind the script that defines it.
ASKS = """
COMP_WORDS=("$@"); COMP_CWORD=$(($# - 1))
called=$(complete -p "${1##*/}") || exit 9
[[ $called =~ -F\\ ([a-z_]+)\\  ]] || exit 8
"${BASH_REMATCH[1]}" "$1" "${COMP_WORDS[COMP_CWORD]}" "${COMP_WORDS[COMP_CWORD - 1]}"
printf "%s\\n" "${COMPREPLY[@]}"
"""


def tells_commit():
    """Whether git is there, and this is a clone."""
    return bool(GIT) and alone([GIT, "rev-parse", "HEAD"], TOP, HOME=os.environ.get("HOME", "")).returncode == 0


def fields_of(path):
    """What the package says of itself, by its fields."""
    told = alone(["dpkg-deb", "-f", path], path.parent, PATH=os.environ["PATH"]).stdout.decode()
    return dict(re.findall(r"^([A-Z][\w-]*): (.*(?:\n .*)*)$", told, re.M))


def packed(top, out, **surroundings):
    """A run of tools/package of a tree, and what it wrote, if it wrote one file."""
    told = alone([sys.executable, "-B", top / "tools" / "package", "-o", out], out, **surroundings)
    files = list(out.iterdir())
    return told, files[0] if len(files) == 1 else None


def recorded(program, is_proved):
    """Puts the record of a program beside it, as a build does; its text."""
    text = json.dumps({"version": "7.8", "commit": "0a1b", "is_proved": is_proved, "kit": "kit-9", "digest": "2c",
                       "sha256": hashlib.sha256(program.read_bytes()).hexdigest()})
    program.with_name(program.name + ".json").write_text(text)
    return text


def example_of(name):
    """The first example of the documents that calls this tool alone on files of the repository, what it shows, and
    whether that has standard error too; None where there is none."""
    for path in DOCUMENTS_OF_USERS:
        for kind, text in blocks(path):
            for command, shown in examples(text) if kind == "console" else ():
                called, *aside = command.replace("\\\n", " ").split(" 2> ")
                words_of = shlex.split(called)
                files = [word for word in words_of[1:] if "." in word and word[0].isalpha()]
                if words_of[0] == "toolbox/" + name and shown and not re.search(r"[|>]", called) \
                        and all((TOP / file).exists() for file in files):
                    return [name, *words_of[1:]], shown, not aside
    return None


@unittest.skipUnless(tells_commit(), "no git, or no clone")
@NEEDS_DEBIAN
class Package(Case):
    """The package of the program that was built, in an empty root."""

    @classmethod
    def setUpClass(cls):
        kept = tempfile.TemporaryDirectory()
        cls.addClassCleanup(kept.cleanup)
        cls.root, out = pathlib.Path(kept.name) / "root", pathlib.Path(kept.name) / "out"
        out.mkdir()
        cls.program = pathlib.Path(shutil.copy(location.program(), kept.name))
        cls.record = recorded(cls.program, False)
        cls.told, cls.path = packed(TOP, out, PATH=os.environ["PATH"], PROGRAM=cls.program)
        assert cls.path, cls.told
        subprocess.run(["dpkg-deb", "-x", str(cls.path), str(cls.root)], check=True, timeout=PATIENCE)
        listed = alone(["dpkg-deb", "-c", cls.path], out, PATH=os.environ["PATH"], TZ="UTC").stdout.decode()
        cls.entries = [line.split(None, 5) for line in listed.splitlines()]

    def run_there(self, called, given=b"", **more):
        """A run of what is in the root, in the folder of its documents, with nothing else on the path: only where the
        program is a script, so that what it needs is found."""
        program = (self.root / PROGRAM).read_bytes()
        path = [str(self.root / "usr/bin")] + ([os.environ["PATH"]] if program.startswith(b"#!") else [])
        words_of = [self.root / "usr/bin" / called[0], *called[1:]]
        return alone(words_of, self.root / DOCUMENTS, given, PATH=os.pathsep.join(path), **more)

    def test_it_is_named_and_told(self):
        self.assertEqual((self.told.returncode, self.told.stderr), (0, b""))
        self.assertEqual(self.told.stdout.decode(), "%s\n" % self.path)
        fields = fields_of(self.path)
        self.assertEqual(self.path.name, "bgpsim_%(Version)s_%(Architecture)s.deb" % fields)
        self.assertEqual((fields["Package"], fields["Section"]), ("bgpsim", "net"))
        depends = fields["Depends"].split(", ")
        for wanted in ("python3 (>= 3.8)", "python3-prompt-toolkit (>= 3.0.28)", "python3-tornado (>= 6.1)",
                       "python3-networkx (>= 2.4)", "python3-pygraphviz (>= 1.7)"):
            self.assertIn(wanted, depends)
        self.assertIn("python3-distributed (>= 2022.1)", fields["Suggests"].split(", "))
        if (self.root / PROGRAM).read_bytes().startswith(b"\x7fELF"):
            self.assertRegex(fields["Depends"], r"\blibc6 \(>= 2\.\d+\)")

    def test_what_it_says_of_its_origin_is_a_paragraph(self):
        lines = fields_of(self.path)["Description"].split("\n")
        at = next(number for number, line in enumerate(lines) if line.startswith(" The program is not proved."))
        self.assertEqual(lines[at - 1], " .")
        for line in lines[at:]:
            self.assertRegex(line, r"^ \S.{,78}$")

    def test_it_has_the_record_of_the_program(self):
        self.assertEqual((self.root / (PROGRAM + ".json")).read_text(), self.record)

    def test_its_version_says_what_the_record_says(self):
        """No Python is asked: there is only `cat` beside the program's own folder."""
        only = self.folder / "only"
        only.mkdir()
        (only / "cat").symlink_to(shutil.which("cat"))
        wanted = alone([self.program, "--version"], self.folder, PATH=os.environ["PATH"]).stdout
        wanted += b"commit: 0a1b\nproved: no, compiled by kit-9\ndigest: sources-sha256:2c\n"
        for word in ("--version", "-V"):
            told = alone([self.root / "usr/bin/bgpsim", word], self.folder, PATH=only)
            self.assertEqual((told.returncode, told.stdout, told.stderr), (0, wanted, b""))
        told = self.run_there(["bgpsim-converge", "--version"])
        self.assertEqual((told.returncode, told.stdout, told.stderr), (0, wanted, b""))

    def test_the_script_passes_words_streams_and_exit_statuses(self):
        (self.folder / "link").symlink_to(self.root / "usr/bin/bgpsim")
        for words_of in ([], ["--help"], ["script", "x y"], ["--version", "more"], ["none"], ["", "*"]):
            wanted = alone([self.program, *words_of], self.folder, PATH=os.environ["PATH"])
            for called in (self.root / "usr/bin/bgpsim", "./link"):
                told = alone([called, *words_of], self.folder, PATH=os.environ["PATH"])
                self.assertEqual((told.returncode, told.stdout, told.stderr),
                                 (wanted.returncode, wanted.stdout, wanted.stderr), words_of)

    def test_lintian_finds_nothing(self):
        self.assertTrue(shutil.which("lintian"), "lintian is not installed: tools/setup")
        told = alone(["lintian", "--allow-root", "--fail-on", "error,warning", self.path], self.folder,
                     PATH=os.environ["PATH"], HOME=self.folder, LC_ALL="C.UTF-8")
        self.assertEqual((told.returncode, told.stdout.decode(), told.stderr.decode()), (0, "", ""))

    def test_twice_the_same(self):
        kept = os.umask(0o077)
        try:
            told, path = packed(TOP, self.folder, PATH=os.environ["PATH"], PROGRAM=self.program, TZ="Asia/Tokyo")
        finally:
            os.umask(kept)
        self.assertTrue(path, told)
        self.assertEqual(path.read_bytes(), self.path.read_bytes())

    def test_a_lesson_is_answered(self):
        for name in ("hot-potato", "lessons/valley-free"):
            script = (self.root / DOCUMENTS / "examples" / (name + ".bgp")).read_bytes()
            told = self.run_there(["bgpsim", "script"], script)
            self.assertEqual(told.returncode, 0)
            self.assertEqual(told.stdout.decode(), (TOP / "examples" / (name + ".out")).read_text())

    def test_each_tool_does_what_its_document_shows(self):
        shown = {name: example_of(name) for name in TOOLS}
        # The others are called below.
        self.assertLessEqual({name for name in TOOLS if not shown[name]}, {"converge", "draw", "share", "join", "lab"})
        for called, output, has_errors in filter(None, shown.values()):
            with self.subTest(called=called):
                told = self.run_there(["bgpsim-" + called[0], *called[1:]])
                errors = has_errors * told.stderr
                # A note stands behind what was asked for, a mistake before it.
                shown = (errors + told.stdout, told.stdout + errors)
                self.assertTrue(any(re.search(pattern(output), each.decode()) for each in shown), shown)

    def test_converge_and_draw(self):
        told = self.run_there(["bgpsim-converge", "--at-end", "toolbox/lessons/three-ases.bgp"])
        self.assertEqual(told.returncode, 0, told.stderr)
        self.assertEqual(self.run_there(["bgpsim", "script"], told.stdout + b"quiet\n").stdout.splitlines()[-1], b"yes")
        told = self.run_there(["bgpsim-draw", "toolbox/lessons/three-ases.bgp"])
        self.assertEqual(set(re.findall(r"\d\.0\.0\.1", told.stdout.decode())), {"1.0.0.1", "2.0.0.1", "3.0.0.1"})

    def test_share_and_join(self):
        """A share that ends at a line that is refused has given the program those before it."""
        told = self.run_there(["bgpsim-share", "toolbox/lessons/refused.bgp", "--at", "shared"])
        line = b"toolbox/lessons/refused.bgp:7: refused 13 "
        self.assertEqual((told.returncode, told.stderr[:len(line)]), (2, line))
        told = self.run_there(["bgpsim-join", "shared", "--as", "anna"])
        self.assertEqual((told.returncode, told.stderr), (2, b"shared: there is no share: No such file or directory\n"))

    def test_lab(self):
        told = self.run_there(["bgpsim-lab", "toolbox/lessons/refused.bgp"])
        self.assertEqual(told.returncode, 2)
        self.assertIn(b"toolbox/lessons/refused.bgp:7: refused 13 ", told.stderr)

    def test_each_tool_has_its_name_and_its_page(self):
        month = time.strftime("%B %Y", time.gmtime(int(alone([GIT, "log", "-1", "--format=%ct"], TOP).stdout)))
        for name in TOOLS:
            told = self.run_there(["bgpsim-" + name, "--help"])
            self.assertTrue(told.stdout.decode().startswith("usage: bgpsim-%s [-h]" % name), told)
            page = gzip.decompress((self.root / PAGES / ("bgpsim-%s.1.gz" % name)).read_bytes()).decode()
            self.assertIn("\nbgpsim-%s \\- " % name, page)
            self.assertIn('.TH BGPSIM-%s "1" "%s" ' % (name.upper(), month), page)
            options = set(re.findall(r"(?m)^  (-[\w-]+)", told.stdout.decode()))
            named = set(re.findall(r"\\fB(-[\w-]+)\\fR", page.replace("\\-", "-")))
            self.assertLessEqual(options, named, name)
            self.assertRegex(page, r"(?m)^\.SH SYNOPSIS\n\.B bgpsim-%s\n" % name)

    def test_it_is_a_package_of_the_systems_python(self):
        told = alone([sys.executable, "-B", "-m", "bgptools", "converge", "-"], self.root, b"router 1.0.0.1 1\n",
                     PYTHONPATH=self.root / "usr/lib/python3/dist-packages", PATH=os.environ["PATH"])
        self.assertEqual((told.returncode, told.stdout, told.stderr), (0, b"router 1.0.0.1 1\n", b""))

    def test_a_study_in_python_runs_where_it_is_installed(self):
        called = [sys.executable, "-B", self.root / DOCUMENTS / "toolbox/lessons/python/lost_links.py"]
        told = alone(called, self.root, PYTHONPATH=self.root / "usr/lib/python3/dist-packages")
        wanted = (TOP / "toolbox" / "lessons" / "python" / "lost_links.out").read_text()
        self.assertEqual((told.stdout.decode(), told.stderr), (wanted, b""))

    def test_the_program_the_tools_and_the_documents_are_those_of_here(self):
        self.assertEqual((self.root / PROGRAM).read_bytes(), self.program.read_bytes())
        scripts = [*(TOP / "examples").rglob("*.bgp"), *(TOP / "toolbox/lessons").glob("*.*")]
        for path in (TOP / "README.md", *(TOP / "docs").rglob("*.md"), *scripts):
            self.assertEqual((self.root / DOCUMENTS / path.relative_to(TOP)).read_bytes(), path.read_bytes())
        self.assertEqual(files_of(self.root / "usr/share/bgpsim/bgptools"), files_of(TOOLBOX / "bgptools"))

    def test_it_has_the_documents_as_web_pages(self):
        """Each page, each link of which leads somewhere in the package, and nothing that is read from elsewhere."""
        found = pages(self.root / DOCUMENTS / "html")
        names = {path.relative_to(self.root / DOCUMENTS / "html").as_posix() for path in found}
        self.assertEqual(names, {re.sub("README.md$", "index.md", name)[:-2] + "html"
                                 for name in site.names_in(site.navigation())})
        self.assertEqual(list(dead(found)), [])
        read = {target for page in found.values() for target in page.sources if "//" in target}
        self.assertEqual(read, set())

    def test_what_the_page_on_installing_names_is_there(self):
        named = re.findall(r"`/(usr/[^`]*)`", (TOP / "docs" / "howto" / "install.md").read_text())
        self.assertGreater(len(named), 8)
        self.assertEqual([path for path in named if not (self.root / path).exists()], [])

    def test_what_its_readme_shows_can_be_called(self):
        text = (self.root / DOCUMENTS / "README.Debian").read_text()
        shown = re.findall("(?m)^    (bgpsim.*)$", text)
        self.assertEqual(len(shown), 2)
        self.assertIn("\n    cd /%s\n" % DOCUMENTS, text)
        for line in shown:
            called, _, given = line.partition(" < ")
            told = self.run_there(shlex.split(called), (self.root / DOCUMENTS / given).read_bytes() if given else b"")
            self.assertIn(told.returncode, (0, 1))
            self.assertTrue(told.stdout)
            self.assertEqual(told.stderr, b"")

    def test_modes_owners_and_times(self):
        self.assertEqual({entry[1] for entry in self.entries}, {"root/root"})
        modes = {kind: {entry[0] for entry in self.entries if entry[0][0] == kind} for kind in "d-l"}
        self.assertEqual((modes["d"], modes["l"]), ({"drwxr-xr-x"}, {"lrwxrwxrwx"}))
        programs = {entry[5] for entry in self.entries if entry[0] == "-rwxr-xr-x"}
        # The last one has Python compile the modules where the system gets another Python: dh_python3 puts it there.
        self.assertEqual({name for name in programs if not name.startswith("./usr/share/doc/")},
                         {"./usr/bin/bgpsim", "./" + PROGRAM, "./usr/share/bgpsim/launch",
                          "./usr/share/python3/runtime.d/bgpsim.rtupdate"})
        committed = alone([GIT, "log", "-1", "--format=%cd", "--date=format-local:%Y-%m-%d %H:%M"], TOP, TZ="UTC").stdout
        latest = max("%s %s" % (entry[3], entry[4]) for entry in self.entries)
        self.assertEqual(latest, committed.decode().strip())

    def test_its_licence(self):
        text = (self.root / DOCUMENTS / "copyright").read_text()
        self.assertIn("\nLicense: Apache-2.0\n", text)
        self.assertIn("Apache License\n                           Version 2.0", (TOP / "LICENSE").read_text())

    @unittest.skipUnless(shutil.which("man"), "man is not installed")
    def test_no_page_has_a_warning(self):
        pages = sorted((self.root / PAGES).iterdir())
        self.assertEqual(len(pages), len(TOOLS) + 1)
        told = alone(["man", "--warnings", "-l", *pages], self.folder, PATH=os.environ["PATH"], LC_ALL="C.UTF-8")
        self.assertEqual((told.returncode, told.stderr), (0, b""))


@NEEDS_DEBIAN
class Completion(Case):
    """What bash makes of a few words and the tab key."""

    @classmethod
    def setUpClass(cls):
        kept = tempfile.TemporaryDirectory()
        cls.addClassCleanup(kept.cleanup)
        cls.scripts = pathlib.Path(kept.name)
        told = alone([TOP / "debian/completion", cls.scripts], cls.scripts, PYTHONPATH=TOOLBOX, PYTHONDONTWRITEBYTECODE=1)
        assert told.returncode == 0, told
        shutil.copy(TOP / "debian/completions/bgpsim", cls.scripts / "bgpsim")

    def completed(self, *typed):
        """The words that bash offers for the last one of a line, in a folder with one script and one folder."""
        self.file("anna.bgp", "")
        (self.folder / "anna's").mkdir(exist_ok=True)
        script = (self.scripts / typed[0].rsplit("/")[-1]).read_text()
        told = alone([shutil.which("bash"), "--norc", "-c", script + ASKS, "bash", *typed], self.folder)
        self.assertEqual((told.returncode, told.stderr), (0, b""))
        return sorted(told.stdout.decode().split())

    def test_the_program(self):
        self.assertEqual(self.completed("bgpsim", "te"), ["team"])
        self.assertEqual(self.completed("bgpsim", "team", "--w"), ["--workers"])
        self.assertEqual(self.completed("bgpsim", "team", "--workers", ""), [])
        self.assertEqual(self.completed("bgpsim", "team", "--workers", "2", "anna."), ["anna.bgp"])
        self.assertEqual(self.completed("bgpsim", "team", "--workers", "2", "anna.bgp", "an"), ["anna's", "anna.bgp"])
        self.assertEqual(self.completed("bgpsim", "help", "re"), ["replay"])

    def test_each_word_of_the_programs_help(self):
        """What its --help says, which cases/ has byte for byte."""
        cases = TOP / "cases" / "command-line"
        for typed, name in (([], "help-option"), (["script"], "script-help"), (["replay"], "replay-help"),
                            (["team"], "team-help")):
            rows = re.findall(r"(?m)^ {2,6}(?:(-\w), )?(--[a-z]+|[a-z]+)\b", (cases / (name + ".out")).read_text())
            wanted = {word for row in rows for word in row if word}
            self.assertGreater(len(wanted), 1)
            offered = set(self.completed("bgpsim", *typed, "")) if typed != ["team"] else set()
            self.assertEqual(offered | set(self.completed("bgpsim", *typed, "-")), wanted)

    def test_the_tools(self):
        self.assertEqual(self.completed("bgpsim-converge", "--a"), ["--all", "--at-end"])
        self.assertEqual(self.completed("/usr/bin/bgpsim-draw", "--pr"), ["--prefix"])
        self.assertEqual(self.completed("bgpsim-what-if", "anna"), ["anna's", "anna.bgp"])
        self.assertEqual(self.completed("bgpsim-what-if", "anna.bgp", "anna."), ["anna.bgp"])
        self.assertEqual(self.completed("bgpsim-converge", "anna.bgp", "-o", "anna."), ["anna.bgp"])
        self.assertEqual(self.completed("bgpsim-converge", "--order", ""), ["fair", "random", "router"])
        self.assertEqual(self.completed("bgpsim-converge", "--seed", ""), [])
        self.assertEqual(self.completed("bgpsim-what-if", "--trace", "1.0.0.1", ""), [])
        self.assertEqual(self.completed("bgpsim-what-if", "--trace", "1.0.0.1", "10.0.0.1", "anna."), ["anna.bgp"])
        self.assertEqual(self.completed("bgpsim-from-frr", ""), ["anna's"])

    def test_each_option_of_each_tool(self):
        for name in TOOLS:
            told = alone([sys.executable, "-B", TOOLBOX / name, "--help"], self.folder).stdout.decode()
            heads = re.findall(r"(?m)^  (-.*?)(?:  |$)", told)
            typed = {part.split()[0] for head in heads for part in head.split(", ")}
            self.assertEqual(set(self.completed("bgpsim-" + name, "-")), typed, name)


@unittest.skipUnless(GIT, "git is not installed")
class Staged(Case):
    """What dpkg-buildpackage is given, of a tree of this test's own: the program and dpkg-buildpackage are stand-ins."""

    def setUp(self):
        super().setUp()
        self.top, self.bin, self.out = (self.folder / name for name in ("top", "bin", "out"))
        for name in PARTS:
            self.copy(name)
        self.out.mkdir()
        for name in MAKERS:
            self.file("bin/" + name, PAGES_MAKER if name == "mkdocs" else BUILDER).chmod(0o755)
        self.source = self.file("top/crates/sim_core/src/lib.rt", "")
        anna = ["-c", "user.name=Anna", "-c", "user.email=anna@ex"]
        for words_of in (["init", "-q"], ["add", "-A"], [*anna, "commit", "-qm", "All"]):
            told = alone([GIT, *words_of], self.top, GIT_COMMITTER_DATE="%d +0000" % SECONDS, HOME=self.folder)
            self.assertEqual(told.returncode, 0, told.stderr)
        self.commit = alone([GIT, "rev-parse", "HEAD"], self.top).stdout.decode().strip()
        self.program = self.file("top/crates/bgpsim/out/bgpsim", STAND_IN)
        self.program.chmod(0o755)
        self.path = os.pathsep.join([str(self.bin), os.path.dirname(GIT), "/usr/bin", "/bin"])

    def copy(self, name):
        """A file or a folder of the repository in the test's own."""
        source, target = TOP / name, self.top / name
        target.parent.mkdir(parents=True, exist_ok=True)
        ignored = shutil.ignore_patterns("__pycache__", "tests", "build", "*.egg-info", "built")
        if source.is_dir():
            shutil.copytree(source, target, ignore=ignored, symlinks=True)
        else:
            shutil.copy(source, target)

    def made(self, **more):
        """What the stand-in was given, as one line of words."""
        told, path = packed(self.top, self.out, **{"PATH": self.path, **more})
        self.assertEqual((told.returncode, told.stderr), (0, b""))
        text = path.read_text()
        path.unlink()
        return " ".join(text.replace("${Newline}", " ").split())

    def refused(self, **more):
        """What is told where no package is made."""
        told, path = packed(self.top, self.out, **{"PATH": self.path, **more})
        self.assertEqual((told.returncode, told.stdout, path), (2, b"", None))
        return told.stderr.decode()

    def test_the_commit_and_the_version(self):
        made = self.made()
        self.assertIn(" program bgpsim 7.8 bgpsim (7.8+20231114.221320.%s) unstable; urgency=medium * Commit %s. -- "
                      % (self.commit[:9], self.commit), made)
        self.assertIn("> Tue, 14 Nov 2023 22:13:20 +0000 bgpsim (%s) unstable; " % __version__, made)
        self.assertTrue(made.startswith("words --unsigned-source --unsigned-changes --build=binary "), made)

    def test_what_the_record_of_the_program_says(self):
        recorded(self.program, True)
        self.assertIn("origin The program was proved and built of commit 0a1b by kit-9. record there", self.made())
        recorded(self.program, False)
        self.assertIn("origin The program is not proved. It was compiled of commit 0a1b by kit-9. record there", self.made())

    def test_without_a_record_of_this_program_nothing_is_known(self):
        unknown = ("origin It is not known of which commit the program was built, and whether it was proved. "
                   "All else is of commit %s. record none" % self.commit)
        self.assertIn(unknown, self.made())
        recorded(self.program, True)
        self.program.write_text(STAND_IN + "\n")
        self.assertIn(unknown, self.made())
        for text in ("no JSON", "[1]", "{}"):
            self.file("top/crates/bgpsim/out/bgpsim.json", text)
            self.assertIn(unknown, self.made())

    def test_local_changes(self):
        self.file("top/docs/NEW.md", "")
        made = self.made()
        self.assertIn("All else is of commit %s with local changes." % self.commit, made)
        self.assertIn("* Commit %s with local changes. -- " % self.commit, made)
        self.assertIn(".%s.changed) unstable" % self.commit[:9], made)

    def test_files_that_are_new_or_gone(self):
        self.file("bin/dpkg-buildpackage", "#!/bin/sh\nfind . -type f > ../bgpsim_1_amd64.deb\n").chmod(0o755)
        self.file("top/docs/NEW.md", "")
        self.file("top/toolbox/build/old.py", "")
        (self.top / "docs/README.md").unlink()
        files = self.made().split()
        self.assertIn("./docs/NEW.md", files)
        self.assertNotIn("./docs/README.md", files)
        self.assertNotIn("./toolbox/build/old.py", files)

    def test_the_web_pages_are_dated_by_the_commit(self):
        listed = "#!/bin/sh\n{ cat html/index.html; find html; } > ../bgpsim_1_amd64.deb\n"
        self.file("bin/dpkg-buildpackage", listed).chmod(0o755)
        told, *files = self.made().split(" html")
        self.assertEqual(told, "made at %d" % SECONDS)
        self.assertEqual(set(files), {"", "/index.html", "/assets", "/assets/javascripts", "/assets/a.js"})

    def test_web_pages_with_a_fault(self):
        self.file("bin/mkdocs", "#!/bin/sh\necho WARNING - a.md: no such link; exit 1\n").chmod(0o755)
        self.assertEqual(self.refused(), "mkdocs: WARNING - a.md: no such link\n")

    def test_nothing_is_made_without_the_program(self):
        self.program.unlink()
        remedy = "`./bgpsim --prove` builds it, or name another one by PROGRAM="
        self.assertEqual(self.refused(), "%s: there is no program: %s\n" % (self.program, remedy))
        self.assertEqual(self.refused(PROGRAM="/none"), "/none: there is no program: PROGRAM= names it\n")

    def test_nothing_is_made_of_an_old_program(self):
        later = time.time() + 100
        os.utime(self.source, (later, later))
        why = "it is newer than the program: ./bgpsim --prove builds it"
        self.assertEqual(self.refused(), "crates/sim_core/src/lib.rt: %s\n" % why)

    def test_of_what_the_program_is_not_made_may_be_newer(self):
        later = time.time() + 100
        for path in (self.source, self.top / "crates.txt"):
            os.utime(path, (later, later))
        self.file("top/crates/bgpsim/out/bgpsim.crates", "seq:\nshared_map: seq\n")
        self.made()

    def test_nothing_is_made_of_a_program_of_other_crates(self):
        self.file("top/crates/bgpsim/out/bgpsim.crates", "seq:\nshared_map: seq decimal\n")
        told = "crates.txt: it is newer than the program: ./bgpsim --prove builds it\n"
        self.assertEqual(self.refused(), told)
        (self.top / "crates/bgpsim/out/bgpsim.crates").unlink()
        later = time.time() + 100
        os.utime(self.top / "crates.txt", (later, later))
        self.assertEqual(self.refused(), told)

    def test_another_program_is_refused(self):
        other = self.file("other", "#!/bin/sh\necho another 1\n")
        other.chmod(0o755)
        self.assertRegex(self.refused(PROGRAM=other), r"other: it is no bgpsim: to --version it says 'another 1\\n'\n$")

    def test_without_a_commit_nothing_is_made(self):
        shutil.rmtree(self.top / ".git")
        self.assertRegex(self.refused(GIT_CEILING_DIRECTORIES=self.folder), "^git: .*not a git repository")

    def test_without_debians_tools_nothing_is_made(self):
        alone_there = self.folder / "alone"
        alone_there.mkdir()
        (alone_there / "git").symlink_to(GIT)
        (alone_there / "dh").symlink_to(self.bin / "dh")
        said = "not installed: dpkg-buildpackage, dh_python3, help2man, shtab, mkdocs. `tools/setup` installs what a package is made with\n"
        self.assertEqual(self.refused(PATH=alone_there), said)

    def test_what_debians_tools_say_of_a_fault(self):
        self.file("bin/dpkg-buildpackage", "#!/bin/sh\necho dh: no compat level; exit 3\n").chmod(0o755)
        self.assertEqual(self.refused(), "dpkg-buildpackage: it ended with status 3:\ndh: no compat level\n")

    def test_without_a_folder_it_is_in_out_which_git_does_not_see(self):
        for _ in "ab":
            told = alone([sys.executable, "-B", self.top / "tools/package"], self.folder, PATH=self.path)
            self.assertEqual((told.returncode, told.stderr), (0, b""))
        [made] = (self.top / "out").iterdir()
        self.assertEqual(told.stdout.decode(), "%s\n" % made)
        self.assertNotIn(".changed", made.read_text())

    def test_no_such_folder(self):
        called = [sys.executable, "-B", self.top / "tools/package", "-o", self.folder / "none"]
        told = alone(called, self.folder, PATH=self.path)
        self.assertEqual((told.returncode, told.stderr.decode()), (2, "%s: it is no folder\n" % (self.folder / "none")))


@NEEDS_DEBIAN
class Rules(Case):
    def test_without_a_program_the_rules_say_so(self):
        for name in ("debian", "toolbox"):
            shutil.copytree(TOP / name, self.folder / name, symlinks=True,
                            ignore=shutil.ignore_patterns("__pycache__", "tests", "build", "built"))
        told = alone(["debian/rules", "override_dh_auto_build"], self.folder, PATH=os.environ["PATH"], PROGRAM="/none")
        self.assertEqual(told.stderr.decode().split("\n")[0], "/none: there is no program: PROGRAM= names one")
        self.assertEqual(told.returncode, 2)
