"""What pytest does before the tests: it finds the modules and the program, and says which tests share a worker, how
the tools end by signals, and how many examples hypothesis makes."""
import os
import pathlib
import signal
import sys

import pytest

TESTS = pathlib.Path(__file__).resolve().parent
CACHE = pathlib.Path(os.environ.get("XDG_CACHE_HOME") or pathlib.Path.home() / ".cache") / "bgpsim" / "hypothesis"
# hypothesis makes this folder when it is imported.
os.environ.setdefault("HYPOTHESIS_STORAGE_DIRECTORY", str(CACHE))
sys.dont_write_bytecode = True
sys.path[:0] = [str(TESTS), *sorted({str(path.parent) for path in TESTS.glob("*/test_*.py")}), str(TESTS.parent)]
sys.path.append(str(TESTS.parent.parent / "tools"))

import hypothesis  # noqa: E402
from simtools import commands, programs  # noqa: E402

# The gate makes the same examples each time, and keeps none. `--hypothesis-profile long` draws new ones, and keeps
# those that fail.
hypothesis.settings.register_profile("gate", derandomize=True, database=None, deadline=None, max_examples=200)
hypothesis.settings.register_profile("long", deadline=None, max_examples=10000, print_blob=True)
hypothesis.settings.load_profile("gate")


def pytest_configure():
    """Has the tests find the program, and end by signals as in a terminal: what a shell runs in the background ignores
    Ctrl-C, under nohup the end of the session too, and so would the tools that the tests start."""
    try:
        os.environ["PROGRAM"] = programs.bgpsim()
    except commands.Missing as missing:
        raise pytest.UsageError(str(missing)) from None
    signal.signal(signal.SIGINT, signal.default_int_handler)
    signal.signal(signal.SIGHUP, signal.SIG_DFL)


def makes_once(kind):
    """Whether a class makes something once for all its tests."""
    return any("setUpClass" in vars(each) for each in kind.__mro__ if each.__module__ != "unittest.case")


@pytest.hookimpl(tryfirst=True)
def pytest_collection_modifyitems(items):
    """The tests of a class that makes something once for all of them share a worker. Those that share one, and long
    ones, come first, so that no worker is left with them in the end."""
    for item in items:
        if item.cls is not None and makes_once(item.cls) and item.get_closest_marker("xdist_group") is None:
            item.add_marker(pytest.mark.xdist_group(item.cls.__name__))
    items.sort(key=lambda item: not any(map(item.get_closest_marker, ("xdist_group", "long"))))


@pytest.hookimpl(optionalhook=True)
def pytest_xdist_make_scheduler(config, log):
    """A test that ends its worker has failed: the scheduler of xdist would run it again in the next one, and so on."""
    if config.getvalue("dist") != "loadgroup":
        return None
    from xdist.scheduler.loadgroup import LoadGroupScheduling

    class OnceEach(LoadGroupScheduling):
        """Runs no test twice."""

        def remove_node(self, node):
            waiting = [(unit, name) for unit in self.assigned_work[node].values()
                       for name, is_done in unit.items() if not is_done]
            if not waiting:
                return super().remove_node(node)
            unit, ended = waiting[0]
            unit[ended] = True
            super().remove_node(node)
            return ended

    return OnceEach(config, log)
