"""A folder of which dpkg-buildpackage makes the package: the files of the repository, the documents as web pages, the
program, and what it is."""
from __future__ import annotations

import os
import pathlib
import shutil
import subprocess
import textwrap
import time
from typing import List

import origin
from bgptools.program.mistakes import Mistake
from origin import TOP, Commit, git
from simtools import site

# What goes into the package, and what makes it.
PARTS = ("debian", "docs", "examples", "toolbox", "README.md")
NEEDED = ("dpkg-buildpackage", "dh", "dh_python3", "help2man", "shtab", "mkdocs")
# What is left out of the web pages: what a server on the network shows, search in other languages, and maps of scripts.
LEFT_OUT = ("404.html", "sitemap.xml*", "assets/javascripts/lunr", "assets/**/*.map")
ENTRY = """\
bgpsim (%s) unstable; urgency=medium

  * Commit %s.

 -- %s  %s

"""


def files() -> List[pathlib.Path]:
    """The files of PARTS as they lie here, from the top of the repository: all but those that .gitignore names."""
    names = git("ls-files", "-z", "--cached", "--others", "--exclude-standard", "--", *PARTS).split("\0")
    paths = (pathlib.Path(name) for name in names if name)
    return sorted(path for path in paths if (TOP / path).is_file())


def require_tools() -> None:
    """Mistake where a tool is missing that a package is made with."""
    missing = [name for name in NEEDED if not shutil.which(name)]
    if missing:
        raise Mistake("not installed: %s. `tools/setup` installs what a package is made with" % ", ".join(missing))


def stage_pages(folder: pathlib.Path, commit: Commit) -> None:
    """Fills the folder with the documents as web pages, dated by the commit. Mistake where mkdocs finds a fault."""
    wrong = site.build(folder, commit.seconds)
    if wrong:
        raise Mistake("\n".join(wrong), "mkdocs")
    for path in [path for pattern in LEFT_OUT for path in folder.glob(pattern)]:
        shutil.rmtree(path) if path.is_dir() else path.unlink()


def stage(folder: pathlib.Path, program: pathlib.Path, version: str, commit: Commit) -> None:
    """Fills the folder. The first entry of its debian/changelog has the version and the time of the commit."""
    proved, record = origin.proved(program, commit), origin.record(program)
    for path in files():
        target = folder / path
        target.parent.mkdir(parents=True, exist_ok=True)
        shutil.copyfile(TOP / path, target)
        target.chmod(0o755 if os.access(TOP / path, os.X_OK) else 0o644)
    stage_pages(folder / "html", commit)
    shutil.copyfile(program, folder / "program")
    (folder / "program").chmod(0o755)
    if record:
        shutil.copyfile(record, folder / "program.json")
    changelog = folder / "debian" / "changelog"
    day = time.strftime("%a, %d %b %Y %H:%M:%S +0000", time.gmtime(commit.seconds))
    entry = ENTRY % (version, commit, _maintainer(folder), day)
    changelog.write_text(entry + changelog.read_text(encoding="utf-8"), encoding="utf-8")
    lines = textwrap.wrap(proved, 76, break_long_words=False, break_on_hyphens=False)
    (folder / "debian" / "origin").write_text("${Newline}".join(lines), encoding="utf-8")


def _maintainer(folder: pathlib.Path) -> str:
    control = (folder / "debian" / "control").read_text(encoding="utf-8")
    return next(line[12:] for line in control.split("\n") if line.startswith("Maintainer: "))


def build(folder: pathlib.Path) -> pathlib.Path:
    """The package that dpkg-buildpackage makes of the folder; it lies beside the folder.

    Raises Mistake if the build fails, with the end of what it printed."""
    # (Nothing is compiled: no compiler has to be installed, which the check of build dependencies asks for.)
    words = ["dpkg-buildpackage", "--unsigned-source", "--unsigned-changes", "--build=binary", "--no-check-builddeps"]
    surroundings = {**os.environ, "PROGRAM": str(folder / "program"), "LC_ALL": "C.UTF-8"}
    # (dpkg-buildpackage takes the time from the changelog)
    surroundings.pop("SOURCE_DATE_EPOCH", None)
    ran = subprocess.run(words, cwd=str(folder), env=surroundings, stdin=subprocess.DEVNULL, stdout=subprocess.PIPE,
                         stderr=subprocess.STDOUT)
    made = sorted(folder.parent.glob("bgpsim_*.deb"))
    if ran.returncode or len(made) != 1:
        end = ran.stdout.decode("utf-8", "replace").strip().split("\n")[-12:]
        raise Mistake("it ended with status %d:\n%s" % (ran.returncode, "\n".join(end)), "dpkg-buildpackage")
    return made[0]
