"""Draws the network that a script ends with; or one page with a picture for each step."""
from __future__ import annotations

import argparse
import sys
from typing import List, Optional, Tuple

from ..convergence.run import Run, told_of
from ..picture.dot import dot_of
from ..picture.graphviz import rendered
from ..picture.observation import Known, View
from ..picture.page import page_of
from ..picture.renderer import Drawing
from ..picture.selection import MOST, Choice
from ..picture.shapes import dot_picture
from ..picture.steps import Steps, scene_of
from ..program import libraries, output
from ..program.mistakes import CHANGED, Mistake
from ..program.script import Line, read

FORMATS = ("svg", "png", "pdf")
DOTS_PER_INCH = 144


def _count(text: str) -> int:
    """A number of lines or hops."""
    if not text.isdigit():
        raise argparse.ArgumentTypeError("`%s`: a number is expected" % text)
    return int(text)


def parser() -> argparse.ArgumentParser:
    """The words of the command line."""
    made = argparse.ArgumentParser(prog="draw", description=(
        "Plays SCRIPT and draws the network: ASes, routers, virtual peers (boxes), links with their metrics, failed "
        "ones dashed, and sessions: internal blue, external red, an arrow from a reflector to its client, grey where "
        "they are down; and how many messages wait at their sender. "
        "A legend says what is what."),
        epilog="Without -o Graphviz DOT is written to standard output. In the page, keys go on and back: arrows, space, "
               "Home and End; `# step TEXT` in the script is a heading, and f makes one step of all under it; w hides "
               "the words. Exit status: 0; 1 where the network does not converge; 2 a mistake, or a line that was refused "
               "without the mark `# expect refused` (the picture is made all the same).")
    made.add_argument("script", metavar="SCRIPT", help="the script; - is standard input")
    made.add_argument("--prefix", metavar="P",
                      help="show who has which route to the prefix, by which value it was chosen, where each router "
                           "forwards, and the exit")
    made.add_argument("--trace", nargs=2, metavar=("R", "D"),
                      help="show the way of a packet from router R to address D")
    made.add_argument("--no-sessions", action="store_true", help="leave out sessions")
    made.add_argument("--only", metavar="AS,..", help="only these ASes")
    made.add_argument("--of", metavar="ROUTER", help="only what is near a router: within --hops links")
    made.add_argument("--hops", metavar="N", type=_count, help="how many; 1 where it is not given")
    made.add_argument("--whole", action="store_true",
                      help="all routers, also where there are more than %d; without it these are drawn as ASes" % MOST)
    made.add_argument("--converge", action="store_true",
                      help="empty all queues after the script (with --steps: after each command)")
    made.add_argument("--steps", action="store_true",
                      help="one HTML page with a picture, the command and its replies for each step")
    made.add_argument("--from", dest="start", metavar="LINE", type=_count,
                      help="with --steps: all up to this line is one step")
    made.add_argument("-o", dest="out", metavar="FILE",
                      help="a file, by its ending .svg, .png, .pdf, .dot, or .html with --steps")
    return made


def _kind(chosen: argparse.Namespace) -> str:
    """What is written: dot, html or a format of pictures."""
    ending: str = "dot" if chosen.out is None or "." not in chosen.out else chosen.out.rsplit(".", 1)[1].lower()
    if chosen.steps:
        if chosen.out is not None and ending not in ("html", "htm"):
            raise Mistake("-o %s: with --steps a file .html is expected" % chosen.out)
        return "html"
    if ending not in FORMATS + ("dot", "gv"):
        raise Mistake("-o %s: a file .svg, .png, .pdf or .dot is expected" % chosen.out)
    return ending if ending in FORMATS else "dot"


def _choice(chosen: argparse.Namespace, lines: List[Line]) -> Choice:
    """What is to be shown. Words that mean nothing without others are mistakes."""
    if chosen.hops is not None and chosen.of is None:
        raise Mistake("--hops %d: --of ROUTER is expected beside it" % chosen.hops)
    if chosen.start is not None and not chosen.steps:
        raise Mistake("--from %d: --steps is expected beside it" % chosen.start)
    if chosen.start is not None and chosen.start > len(lines):
        raise Mistake("--from %d: the script has %d lines" % (chosen.start, len(lines)), chosen.script)
    hops = 1 if chosen.hops is None else chosen.hops
    return Choice(chosen.prefix, chosen.trace, not chosen.no_sessions, chosen.only, chosen.of, hops, chosen.whole)


def _warn(view: View, file: str) -> None:
    """Says that ASes are drawn in place of routers."""
    if view.is_of_ases:
        print("%s: %s; --only AS,.. or --of ROUTER --hops N shows a part of them, --whole all" % (file, view.notes[-1]),
              file=sys.stderr)


def _page(lines: List[Line], choice: Choice, chosen: argparse.Namespace) -> Tuple[str, int]:
    """The page of steps, and the exit status. The script is played twice: its end says what there is to show."""
    with Run() as first:
        first.play(lines)
        view = choice.view(first.network)
    _warn(view, chosen.script)
    with Run(tries_others=True) as run:
        steps = Steps(run, view, chosen.converge, chosen.start or 0)
        steps.play(lines)
    for text in steps.told:
        print("%s: %s" % (chosen.script, text), file=sys.stderr)
    title = lines[0].file if lines else "an empty script"
    return page_of(title, steps.steps, steps.scenes), 0 if steps.is_converged else CHANGED


def _picture(lines: List[Line], choice: Choice, chosen: argparse.Namespace, kind: str) -> Tuple[bytes, int]:
    """The picture of the network at the end, and the exit status."""
    with Run(tries_others=True) as run:
        run.play(lines)
        view = choice.view(run.network)
        _warn(view, chosen.script)
        done = run.converge() if chosen.converge else None
        status = CHANGED if done and not done.is_converged else 0
        if done and told_of(done):
            print("%s: %s" % (chosen.script, told_of(done, run.network.names)), file=sys.stderr)
        scene = scene_of(run, view, view.way, {}, Known())
    if kind == "dot":
        return dot_of(scene).encode("utf-8"), status
    drawing = Drawing([scene])
    if kind == "svg":
        return drawing.svg(scene).encode("utf-8"), status
    dot = dot_picture(drawing.parts(scene), drawing.width, drawing.height)
    return rendered(dot, kind, DOTS_PER_INCH), status


def main(words: Optional[List[str]] = None) -> int:
    """The tool."""
    chosen = parser().parse_args(words)
    kind = _kind(chosen)
    if kind != "dot":
        libraries.need("pictures")
    lines = read(chosen.script)
    choice = _choice(chosen, lines)
    if kind == "html":
        page, status = _page(lines, choice, chosen)
        output.write(page, chosen.out)
    else:
        content, status = _picture(lines, choice, chosen, kind)
        output.write_bytes(content, chosen.out)
    return status
