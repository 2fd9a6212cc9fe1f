"""tools/setup, with stand-ins for what it looks for, for Debian's Python and for apt-get."""
import re
import shutil

from bgptools.program import libraries
from common import TOP, Case, alone

SETUP = (TOP / "tools" / "setup").read_text()
# What it needs itself.
OWN = ("find", "bash", "awk", "cat", "cp", "dirname", "env", "mkdir", "readlink", "rm", "sed", "sort", "touch", "tr")
COMMANDS = [names.split(",")[0] for names in re.findall(r"(?m)^command (\S+) \S+$", SETUP)]
# A Python: the file `absent` has the libraries that it does not find, `calls` what its modules were called with.
PYTHON = """\
#!/bin/sh
case $1 in
-c) [ $# -lt 3 ] || [ ! -e "%(bin)s/absent" ] || cat "%(bin)s/absent" ;;
-m) echo "python $*" >> "%(bin)s/calls"
    for last; do :; done
    [ "$2" != venv ] || { mkdir -p "$last/bin" && cp "$0" "$last/bin/python"; }
    [ "$2 $3" != "pip install" ] || echo -n > "%(bin)s/absent" ;;
esac
"""
# An apt-get that puts commands there and takes away that libraries are absent; while `offline` is there it fails.
APT = """\
#!/bin/sh
echo "apt-get $*" >> "%(bin)s/calls"
[ "$1" != update ] || rm -f "%(bin)s/offline"
[ ! -e "%(bin)s/offline" ] || exit 100
[ "$1" != install ] || { for name in dot lintian; do cp "%(bin)s/git" "%(bin)s/$name"; done; echo -n > "%(bin)s/absent"; }
"""
NO_ENVIRONMENT = "missing: the Python environment .venv (tools/setup makes it)\n"
INSTALL = "apt-get install -y --no-install-recommends "


class Setup(Case):
    def setUp(self):
        super().setUp()
        self.bin, self.environment = self.folder / "bin", self.folder / "top/.venv"
        self.bin.mkdir()
        for name in OWN:
            (self.bin / name).symlink_to(shutil.which(name))
        for name in COMMANDS:
            self.program(name, "#!/bin/sh\n")
        self.program("python", PYTHON)
        self.program("apt-get", APT)
        self.user(0)
        text = SETUP.replace("debians_python=/usr/bin/python3\n", "debians_python='%s'\n" % (self.bin / "python"))
        text = text.replace("PATH=$PATH:/usr/sbin:/sbin\n", "")
        self.assertEqual(text.count(str(self.bin)), 1)
        self.file("top/tools/setup", text).chmod(0o755)

    def program(self, name, text):
        self.file("bin/" + name, text % {"bin": self.bin} if "%(" in text else text).chmod(0o755)

    def user(self, number):
        self.program("id", "#!/bin/sh\necho %d\n" % number)

    def setup_told(self, *words):
        """The exit status of tools/setup, and what it printed on each stream."""
        told = alone([self.folder / "top/tools/setup", *words], self.folder, PATH=self.bin)
        return told.returncode, told.stdout.decode(), told.stderr.decode()

    def calls(self):
        """What was called since this was asked, of apt-get and of Python's modules."""
        path = self.bin / "calls"
        text = path.read_text() if path.exists() else ""
        path.write_text("")
        return text.splitlines()

    def lacks(self, *commands, libraries=()):
        for name in commands:
            (self.bin / name).unlink()
        self.file("bin/absent", "".join("%s\n" % name for name in libraries))

    def test_an_environment_with_links_is_made_anew(self):
        """The kit's `rt` refuses a repository with links."""
        self.assertEqual(self.setup_told()[0], 0)
        (self.environment / "lib64").symlink_to("lib")
        self.calls()
        self.assertEqual(self.setup_told("--check"), (1, NO_ENVIRONMENT, ""))
        self.assertEqual(self.setup_told()[0], 0)
        self.assertEqual(self.calls(), [self.made()])
        self.assertFalse((self.environment / "lib64").is_symlink())

    def made(self):
        return "python -m venv --clear --copies --without-pip --system-site-packages %s" % self.environment

    def test_where_all_is_there_only_the_environment_is_made(self):
        self.assertEqual(self.setup_told("--check"), (1, NO_ENVIRONMENT, ""))
        self.assertEqual(self.setup_told(), (0, "", ""))
        self.assertEqual(self.calls(), [self.made()])
        self.assertEqual(self.setup_told("--check"), (0, "", ""))
        self.assertEqual(self.setup_told(), (0, "", ""))
        self.assertEqual(self.calls(), [])

    def test_what_is_missing_is_a_line_each(self):
        self.lacks("dot", "lintian", "chromium", libraries=["tornado", "shtab"])
        said = ("missing: the command dot (Debian package graphviz)\n"
                "missing: the command chromium or chromium-browser (Debian package chromium)\n"
                "missing: the command lintian (Debian package lintian)\n"
                "missing: the library tornado (Debian package python3-tornado)\n"
                "missing: the library shtab (Debian package python3-shtab)\n")
        self.assertEqual(self.setup_told("--check"), (1, said + NO_ENVIRONMENT, ""))
        self.assertEqual(self.calls(), [])
        self.program("chromium-browser", "#!/bin/sh\n")
        self.assertNotIn("chromium", self.setup_told("--check")[1])

    def test_a_compiler_without_headers_is_not_enough(self):
        self.program("cc", "#!/bin/sh\nexit 1\n")
        said = "missing: the header stdio.h (Debian package libc6-dev)\n"
        self.assertEqual(self.setup_told("--check"), (1, said + NO_ENVIRONMENT, ""))
        self.assertEqual(self.setup_told()[0], 1)
        self.assertIn(INSTALL + "libc6-dev", self.calls())

    def test_root_installs_it(self):
        self.lacks("dot", "lintian", libraries=["tornado"])
        self.assertEqual(self.setup_told(), (0, "", ""))
        self.assertEqual(self.calls(), [INSTALL + "graphviz lintian python3-tornado", self.made()])

    def test_without_lists_of_packages_they_are_fetched(self):
        self.lacks("dot")
        self.file("bin/offline", "")
        self.assertEqual(self.setup_told(), (0, "", ""))
        self.assertEqual(self.calls(), [INSTALL + "graphviz", "apt-get update", INSTALL + "graphviz", self.made()])

    def test_without_a_network_it_fails(self):
        self.lacks("dot")
        self.file("bin/offline", "")
        self.program("apt-get", APT.replace("rm -f", "test !"))
        self.assertEqual(self.setup_told(), (1, "", ""))
        self.assertFalse(self.environment.exists())

    def test_another_user_is_told_what_to_type(self):
        self.user(1000)
        self.lacks("lintian", libraries=["tornado"])
        said = "tools/setup: Debian packages are missing. Type: sudo " + INSTALL + "lintian python3-tornado\n"
        self.assertEqual(self.setup_told(), (1, "", said))
        self.assertEqual(self.calls(), [])

    def test_another_user_has_the_environment_made(self):
        self.user(1000)
        self.assertEqual(self.setup_told(), (0, "", ""))
        self.assertEqual(self.calls(), [self.made()])

    def test_what_is_missing_after_the_installation_is_told(self):
        self.lacks("help2man", "dot")
        self.assertEqual(self.setup_told(), (1, "", "missing: the command help2man (Debian package help2man)\n"))

    def test_an_environment_that_does_not_run_is_made_again(self):
        self.file("top/.venv/bin/python", "#!/bin/sh\nexit 1\n").chmod(0o755)
        self.assertEqual(self.setup_told("--check"), (1, NO_ENVIRONMENT, ""))
        self.assertEqual(self.setup_told(), (0, "", ""))
        self.assertEqual(self.calls(), [self.made()])

    def test_without_debians_python_pip_installs(self):
        (self.bin / "python").rename(self.bin / "python3")
        (self.bin / "apt-get").unlink()
        self.lacks(libraries=["tornado", "xdist"])
        self.assertEqual(self.setup_told(), (0, "", ""))
        self.assertEqual(self.calls(), ["python -m venv --clear --copies %s" % self.environment, "python -m pip --version",
                                        "python -m pip install pytest-xdist tornado"])

    def test_without_a_python(self):
        (self.bin / "python").unlink()
        (self.bin / "apt-get").unlink()
        said = "tools/setup: there is no Python 3.8 or later: install one, and call tools/setup again\n"
        self.assertEqual(self.setup_told(), (1, "", said))
        self.assertIn("missing: the command python3 (Debian package python3)\n", self.setup_told("--check")[1])

    def test_it_has_what_tools_and_packages_need(self):
        rows = dict(re.findall(r"(?m)^(?:command|library) (\S+) (\S+)$", SETUP))
        text = (TOP / "packaging/staging.py").read_text()
        makers = re.findall('"(.*?)"', re.search(r"(?m)^NEEDED = \((.*)\)$", text).group(1))
        self.assertIn("help2man", makers)
        self.assertLessEqual(set(makers) | set(libraries.LIBRARIES), set(rows))
        self.assertEqual({name: rows[name] for name in libraries.LIBRARIES},
                         {name: library.package for name, library in libraries.LIBRARIES.items()})
        depends = (TOP / "debian/control").read_text()
        for library in libraries.LIBRARIES.values():
            self.assertIn(" %s (>= %s)" % (library.package, ".".join(map(str, library.least))), depends)

    def test_it_has_what_the_tests_look_for(self):
        """A test that does not find it is skipped, and the gate counts that as failed."""
        rows = re.findall(r"(?m)^(?:command|library) (\S+) \S+$", SETUP)
        # Each Debian has the first ones; the others come with the kit, and with Graphviz.
        there = {name for names in rows for name in names.split(",")} | {"bash", "cat", "mount", "rt", "neato"}
        asked = set()
        for path in (TOP / "toolbox/tests").rglob("*.py"):
            asked.update(re.findall(r'\b(?:which|find_spec)\("([^"]+)"', path.read_text()))
        self.assertLessEqual({"chromium", "valgrind", "pandas"}, asked)
        self.assertEqual(asked - there, set())

    def test_mistakes_of_a_call_and_help(self):
        self.assertEqual(self.setup_told("--chek"), (2, "", "tools/setup: `--chek` is no option: there is --check\n"))
        self.assertEqual(self.setup_told("--check", "x"), (2, "", "tools/setup: at most one word is taken: --check\n"))
        status, told, _ = self.setup_told("--help")
        self.assertEqual(status, 0)
        self.assertIn("\n    tools/setup --check      names what is missing", told)
        self.assertEqual(self.calls(), [])
