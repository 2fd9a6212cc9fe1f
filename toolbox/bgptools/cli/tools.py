"""The tools by their names, and how one is run."""
from __future__ import annotations

import argparse
import functools
import importlib
import os
import sys
from types import ModuleType
from typing import Any, Callable, List

from ..program import location, provenance
from ..program.mistakes import Mistake, ended
from . import interpreter

# Each is the name of a launcher in toolbox/, a copy of `launch`, and with `_` for `-` of the module beside this one with
# its `parser` and `main`. The list of tools, completion, manual pages, and what pip and the package install are made of
# these names.
TOOLS = ("play", "share", "join", "lab", "converge", "what-if", "sweep", "hijack", "explain", "timeline", "check", "draw",
         "bundle", "compare-live", "from-frr", "from-bird", "from-cbgp", "from-graph", "from-as-rel", "from-rib",
         "from-mrt")
# What stands before a tool's name where it is installed.
PREFIX = "bgpsim-"


def module_of(name: str) -> ModuleType:
    """The module of a tool; Mistake where there is no such tool."""
    if name not in TOOLS:
        raise Mistake("there is no tool `%s`: there are %s" % (name, ", ".join(TOOLS)))
    return importlib.import_module("." + name.replace("-", "_"), __package__)


def sentence_of(name: str) -> str:
    """What the tool does, in a sentence."""
    return (module_of(name).__doc__ or "").strip().split("\n")[0]


class Version(argparse.Action):
    """Prints what `bgpsim --version` prints, of the program that the tool would run, and ends."""

    def __call__(self, parser: argparse.ArgumentParser, *_: Any, **__: Any) -> None:
        print("\n".join(provenance.version_lines(location.program())))
        parser.exit()


def parser_of(name: str, called: str) -> argparse.ArgumentParser:
    """The words of a tool's command line, with --version; its usage and its mistakes name it as it was called."""
    return _named(module_of(name).parser, called)


def _named(parser: Callable[[], argparse.ArgumentParser], called: str) -> argparse.ArgumentParser:
    made = parser()
    made.prog = called
    made.add_argument("--version", action=Version, nargs=0, help=(
        "print the version of the program, its commit, whether it was proved, and of which sources, and end"))
    return made


def run(name: str, called: str, words: List[str]) -> int:
    """Runs a tool on the words of its command line, as it was called."""
    module = module_of(name)
    own = module.parser
    setattr(module, "parser", functools.partial(_named, own, called))
    try:
        status: int = module.main(words)
    finally:
        setattr(module, "parser", own)
    return status


def launched() -> int:
    """The exit status of the tool as which this was called: by its name, as `bgpsim-converge`, or by a link to it."""
    return ended(lambda words: _run_at(sys.argv[0], words))


def _run_at(path: str, words: List[str]) -> int:
    """Runs the tool that a launcher is named for, under a Python that has its libraries if there is one."""
    name = _tool_at(path)
    interpreter.restart(name, [path], words)
    return run(name, os.path.basename(path), words)


def _tool_at(path: str) -> str:
    """The tool that a launcher is named for; a link of another name is what it leads to."""
    called = os.path.basename(path)
    name = called[len(PREFIX):] if called.startswith(PREFIX) else called
    if name not in TOOLS and os.path.islink(path):
        return _tool_at(os.path.join(os.path.dirname(path), os.readlink(path)))
    return name
