"""What gdb runs for tools/walk: it prints `walk DEPTH NAME` for each function of ours that one line of a script passes.

simtools/walk.py sets WALK_FUNCTIONS, a file with a line `START END IS_OURS NAME` for each function of the program, by
their offsets; WALK_SCRIPT; WALK_LINE, the name of the function that answers one line; and WALK_PASSED, how many lines
come before.
"""
import bisect
import os

import gdb  # type: ignore[import]  # pylint: disable=import-error


class Functions:
    """The functions of the program, as it lies in memory."""

    def __init__(self, path: str, base: int) -> None:
        with open(path, encoding="utf-8") as file:
            rows = [line.rstrip("\n").split(" ", 3) for line in file]
        self.rows = [(base + int(start), base + int(end), is_ours == "1", name) for start, end, is_ours, name in rows]
        self.starts = [row[0] for row in self.rows]

    def is_ours(self, address: int) -> bool:
        """Whether the address lies in a function of ours."""
        at = bisect.bisect_right(self.starts, address) - 1
        return at >= 0 and address < self.rows[at][1] and self.rows[at][2]


class Entry(gdb.Breakpoint):  # type: ignore[misc]
    """Where a function of ours begins."""

    def __init__(self, address: int, name: str, functions: Functions, back: int, found: "list[str]") -> None:
        super().__init__("*%d" % address, internal=True)
        self.called, self.functions, self.back, self.found = name, functions, back, found

    def stop(self) -> bool:
        """Writes down how many functions of ours lie below the one that answers the line, and goes on."""
        depth, frame = 0, gdb.newest_frame().older()
        while frame is not None and frame.pc() != self.back:
            depth += self.functions.is_ours(frame.pc())
            frame = frame.older()
        self.found.append("walk %d %s" % (depth, self.called))
        return False


def run_to_line(functions: Functions) -> int:
    """Runs the program to the line that is asked; where the program goes on after it."""
    start = next(row[0] for row in functions.rows if row[3].startswith(os.environ["WALK_LINE"]))
    line = gdb.Breakpoint("*%d" % start, internal=True)
    line.ignore_count = int(os.environ["WALK_PASSED"])
    gdb.execute("continue", to_string=True)
    line.delete()
    return int(gdb.newest_frame().older().pc())


def main() -> None:
    """The run."""
    gdb.execute("set confirm off")
    gdb.execute("starti script < %s > /dev/null" % os.environ["WALK_SCRIPT"], to_string=True)
    program = gdb.current_progspace().filename
    mappings = gdb.execute("info proc mappings", to_string=True).splitlines()
    functions = Functions(os.environ["WALK_FUNCTIONS"], min(int(at.split()[0], 16) for at in mappings if program in at))
    back = run_to_line(functions)
    found: "list[str]" = []
    entries = [Entry(row[0], row[3], functions, back, found) for row in functions.rows if row[2]]
    gdb.Breakpoint("*%d" % back, internal=True)
    gdb.execute("continue", to_string=True)
    gdb.execute("kill", to_string=True)
    print("\n".join(found), "\nwalked past %d functions" % len(entries))


main()
