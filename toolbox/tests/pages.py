"""The pages for users, and the examples that they show."""
import re

from common import TOP

REFERENCE = TOP / "docs" / "reference"
PAGES = (TOP / "README.md", TOP / "bench" / "README.md", TOP / "docs" / "README.md",
         *sorted((TOP / "docs").glob("tutorial/*.md")), *sorted((TOP / "docs").glob("howto/*.md")),
         *sorted(REFERENCE.glob("*.md")))
# How a block begins, by what becomes of it: `console` is run, `pycon` is run by doctest, `share`, `anna` and `ben` are
# terminals of test_share, `text` is a form or an excerpt, and `sh` is not run.
KINDS = ("console", "pycon", "share", "anna", "ben", "text", "sh")


def blocks(path):
    """The fenced blocks of a page: of each its kind and its text."""
    return re.findall(r"(?m)^```(\w*)\n(.*?)^```$", path.read_text(), re.S | re.M)


def examples(text):
    """The commands of a block, each with what it shows. A command goes on after a backslash, and up to a mark, as
    that of `<<'END'`."""
    found, mark = [], None
    for line in text.splitlines(keepends=True):
        if mark:
            found[-1][0] += line
            mark = None if line.rstrip("\n") == mark else mark
        elif found and found[-1][0].endswith("\\\n"):
            found[-1][0] += line
        elif line.startswith("$ "):
            found.append([line[2:], ""])
            mark = (re.findall(r"<<'(\w+)'", line) or [None])[0]
        else:
            found[-1][1] += line
    return found


def pattern(shown):
    """The outputs that are shown so: `..` alone stands for any lines, and for some text at the end of one."""
    parts = re.split(r"(?m)^\.\.$\n?", shown)
    return r"\A%s\Z" % "(?:.*\n)*".join(re.sub(r"(?<=.)\\\.\\\.\\?\n", ".*\n", re.escape(part)) for part in parts)
