"""The interface for Python: a network as an object, whose calls are the commands of the language and what tools do.

>>> from bgptools import Network
>>> with Network() as net:
...     net.router("1.0.0.1", 1)
...     net.router("2.0.0.1", 2)
...     net.link("1.0.0.1", "2.0.0.1", 10)
...     net.join("1.0.0.1", "2.0.0.1")
...     net.origin("1.0.0.1", "10.0.0.0/8")
...     len(net.converge().deliveries)
...     net.best("2.0.0.1", "10.0.0.0/8").path
1
'1'
"""
from __future__ import annotations

import contextlib
import os
from typing import Any, Callable, Dict, Iterable, Iterator, List, NoReturn, Optional, Tuple, Union

from ..change.comparison import compare
from ..change.effect import Outcome
from ..change.explanation import explain
from ..change.transients import Watch
from ..change.what_if import apply
from ..convergence.delivery import Convergence
from ..convergence.orders import NAMES, Order, named
from ..convergence.run import Run, told_of, not_converged
from ..network.configuration import ends, pair
from ..picture.dot import dot_of
from ..picture.observation import Known
from ..picture.renderer import Drawing
from ..picture.selection import Choice
from ..picture.steps import scene_of
from ..program import language, output, replies, script
from ..program.language import by_address, number
from ..program.mistakes import Mistake
from ..program.script import Line, lines_of, read
from . import copies, values
from .commands import Address, Commands, Prefix
from .effect import Effect, deliveries_of, effect_of
from .tables import Table
from .values import Explanation, Link, Node, Route, Session, Converged

Lines = Union[str, Iterable[str]]
# Where a packet starts, and where it goes.
Way = Tuple[Address, Address]
GIVEN = "lines"


class NotConverged(Mistake):
    """A network that does not converge: what was delivered, after how many deliveries the same state comes back (0 where
    that was not seen), and who keeps choosing anew: prefixes, each with its routers."""

    def __init__(self, text: str, done: Convergence):
        super().__init__(text.replace("--most N", "most=N"))
        self.deliveries, self.period, self.keeps_changing = deliveries_of(done), done.period, done.restless


class Network(Commands):
    """A network of the proved program: a run of it, which ends with `close`, or where a `with` does.

    It is its script: the lines that were accepted, deliveries and names among them. A name (`# name 10.0.4.1 y1`)
    stands wherever an address is wanted. Refusal, NotConverged and any other Mistake say what is wrong."""

    def __init__(self) -> None:
        super().__init__(Run())

    @classmethod
    def load(cls, path: Union[str, "os.PathLike[str]"]) -> "Network":
        """The network that a script ends with; `-` is standard input.

        A line that is refused, and not marked so, raises Refusal."""
        lines = read(os.fspath(path))
        return cls._made(lambda made: made.run.play(lines))

    @classmethod
    def from_lines(cls, lines: Lines) -> "Network":
        """The network that the lines of a script make, or a text of such lines; as `play` plays them."""
        return cls._made(lambda made: made.play(lines))

    @classmethod
    def _made(cls, play: "Callable[[Network], None]") -> "Network":
        """A network into which something was played."""
        made = cls()
        try:
            play(made)
        except BaseException:
            made.close()
            raise
        return made

    @classmethod
    def _around(cls, run: Run) -> "Network":
        """A network that a run has."""
        made = cls.__new__(cls)
        Commands.__init__(made, run)
        return made

    def __enter__(self) -> "Network":
        return self

    def __copy__(self) -> "Network":
        return self.copy()

    def __deepcopy__(self, _: Dict[int, Any]) -> NoReturn:
        raise Mistake("a network has a run of the program, and deepcopy makes no other: `net.copy()` does")

    def __reduce_ex__(self, _: object) -> NoReturn:
        raise Mistake("a network has a run of the program, and pickle keeps none: keep `net.script()`, from which "
                      "`Network.from_lines` makes the network again")

    def __repr__(self) -> str:
        if self._run is None:
            return "<Network: closed>"
        known = self._run.network
        counts = len(known.routers()), len(known.virtuals()), len(self._run.lines)
        return "<Network: %d routers, %d virtual peers, step %d>" % counts

    # Its script

    @property
    def step(self) -> int:
        """How many lines were accepted: edits, feeds, deliveries and names."""
        return len(self.run.lines)

    def play(self, lines: Lines) -> None:
        """Plays more lines of a script, in which names may stand for addresses.

        A line that is refused, and not marked so, raises Refusal; those before it have been played."""
        for line in map(self._named, _script(lines)):
            self.run.check(line, self.run.say(line.text))

    def name(self, address: Address, name: str) -> None:
        """Gives a router or virtual peer a name, by the comment of a script that does."""
        if not name or set(name) & set(" \n"):
            raise Mistake("a name is one word, and not %r" % name)
        self.run.say(self.run.network.naming(self._at(address), name.encode("utf-8").decode("latin-1")))

    def script(self) -> str:
        """The lines that were accepted: a script that makes this network."""
        return script.content_of(self.run.lines).decode("utf-8", "backslashreplace")

    def save(self, path: Union[str, "os.PathLike[str]"]) -> None:
        """Writes the script to a file, which is there whole or not at all."""
        output.write_bytes(script.content_of(self.run.lines), os.fspath(path))

    def copy(self) -> "Network":
        """Another network, the same as this one stands, with a program of its own that has played the same lines."""
        return self._around(copies.copy_of(self.run))

    @contextlib.contextmanager
    def checkpoint(self) -> Iterator[None]:
        """What is done inside is undone at the end: the network and its script are as they were. One may stand in
        another. The program keeps a snapshot meanwhile, and plays nothing again.

        >>> with Network.from_lines(["router 1.0.0.1 1", "origin 1.0.0.1 10.0.0.0/8"]) as net:
        ...     with net.checkpoint():
        ...         net.noorigin("1.0.0.1", "10.0.0.0/8")
        ...         len(net.routes("1.0.0.1")), net.step
        ...     len(net.routes("1.0.0.1")), net.step
        (0, 3)
        (1, 2)
        """
        run, lines = self.run, list(self.run.lines)
        kept = run.snapshot()
        try:
            yield
        finally:
            if self._run is run and not run.program.is_torn:
                run.restore(kept)
            elif self._run is not None:
                # What was stopped midway has no snapshot any more.
                torn, self._run = self._run, copies.played(lines)
                torn.close()

    def at(self, step: int) -> "Network":
        """Another network, as this one was when so many lines were accepted.

        >>> with Network.from_lines(["router 1.0.0.1 1", "origin 1.0.0.1 10.0.0.0/8"]) as net, net.at(1) as before:
        ...     len(net.routes("1.0.0.1")), len(before.routes("1.0.0.1")), before.script()
        (1, 0, 'router 1.0.0.1 1\\n')
        """
        if not 0 <= step <= self.step:
            raise Mistake("there is no step %s: the network has the steps 0 to %d" % (step, self.step))
        return self._around(copies.played(self.run.lines[:step]))

    # What is configured

    def nodes(self) -> Table[Node]:
        """The routers and virtual peers, in order of address."""
        known = self.run.network
        return Table((Node(where, known.nodes[where].asn, known.nodes[where].is_virtual, known.names.of.get(where))
                      for where in sorted(known.nodes, key=by_address)), Node)

    def links(self) -> Table[Link]:
        """The links, in order of their addresses."""
        known = self.run.network.links
        found = sorted(map(ends, known), key=lambda both: list(map(by_address, both)))
        return Table((Link(one, other, known[pair(one, other)].metric, known[pair(one, other)].is_up)
                      for one, other in found), Link)

    def sessions(self) -> Table[Session]:
        """The sessions, in order of their addresses."""
        known = self.run.network
        return Table((Session(one, other, known.is_external(one, other), known.enabled[pair(one, other)], is_up)
                      for (one, other), is_up in self.run.sessions_up().items()), Session)

    # What more it is asked

    def table(self, prefix: Optional[Prefix] = None) -> Table[Route]:
        """The chosen routes of all routers, in order of router and prefix; or those to one prefix."""
        wanted = _text(prefix)
        if wanted is not None and language.prefix(wanted) is None:
            raise Mistake("a prefix is expected, as 10.0.0.0/8, and not %r" % wanted)
        routers = self.run.network.routers()
        found = zip(routers, self.run.ask("routes " + router for router in routers))
        routes = [route for router, reply in found for route in values.routes_of(router, reply)]
        return Table((route for route in routes if wanted in (None, route.prefix)), Route)

    def explain(self, router: Address, prefix: Prefix) -> Table[Explanation]:
        """All routes of the router to the prefix, with the route and value by which each lost, as the tool tells it.

        The network is played once more beside this one; for `why` it is not."""
        where, to, network = self._at(router), str(prefix), self.run.network
        self.why(where, prefix)
        found = explain(self.run, where, to)
        return Table((values.explanation_of(where, to, each, found, network) for each in found), Explanation)

    def picture(self, kind: str = "svg", prefix: Optional[Prefix] = None, trace: Optional[Way] = None, *,
                sessions: bool = True, only: Optional[Iterable[int]] = None, of: Optional[Address] = None,
                hops: int = 1, whole: bool = False) -> str:
        """What the tool `draw` draws, as the text of an `svg` (with the extra `pictures`), or as `dot`.

        `prefix` shows who has which route to it, `trace` the way of a packet, from a router to an address; `only` these
        ASes, `of` what is within so many hops of a router, and `whole` each router also of a large network."""
        if kind not in ("svg", "dot"):
            raise Mistake("a picture is `svg` or `dot`, and not %r" % kind)
        ases = None if only is None else ",".join(map(str, only))
        way = None if trace is None else list(map(str, _way(trace)))
        choice = Choice(_text(prefix), way, sessions, ases, _text(of), hops, whole)
        view = choice.view(self.run.network)
        scene = scene_of(self.run, view, view.way, {}, Known())
        return dot_of(scene) if kind == "dot" else Drawing([scene]).svg(scene)

    def _repr_svg_(self) -> Optional[str]:
        """The picture for a notebook, which shows the text of `repr` if there is none: without Graphviz, and of a network
        that was closed or that is empty."""
        if self._run is None or not self._run.network.nodes:
            return None
        try:
            return self.picture()
        except Mistake:
            return None

    # Deliveries and changes

    def converge(self, order: Optional[str] = None, seed: Optional[int] = None, most: Optional[int] = None,
               tries_others: bool = False) -> Converged:
        """Delivers until all queues are empty, and says what was delivered.

        The order is `fair`, `router` or `random`, the last by a seed (1); a seed alone means it, too. Where that does
        not converge, NotConverged is raised, and the network stands where the deliveries stopped: `at` has it from before.
        With `tries_others` other orders are tried, from where it began. `most` deliveries are made at most.

        >>> net = Network.load("toolbox/lessons/disagree.bgp")
        >>> begin = net.step
        >>> try:
        ...     net.converge()
        ... except NotConverged as fault:
        ...     print(fault.period, fault.keeps_changing)
        8 {'203.0.113.0/24': ['1.0.0.1', '2.0.0.1']}
        >>> before = net.at(begin)
        >>> before.converge(seed=3).order
        'in the random order 3'
        >>> net.close(), before.close()
        (None, None)
        """
        self.run.follow(_order(order, seed), most, tries_others)
        done, names = self.run.converge(), self.run.network.names
        if not done.is_converged:
            raise NotConverged(not_converged(done, names), done)
        return Converged(done.order.words, deliveries_of(done), told_of(done, names))

    def what_if(self, lines: Lines, trace: Iterable[Way] = (), *, order: Optional[str] = None,
                seed: Optional[int] = None, most: Optional[int] = None, each: bool = False) -> Effect:
        """What a change of these lines would do, as the tool `what-if` tells it; this network stays as it is.

        They are tried on a copy, which is converged in an order by the words of `converge`, or in another where it does
        not; with `each` after each line. Where this network is not quiet, another copy is converged first, and is what
        they change. `trace` are packets that are followed, from a router to an address."""
        asked = [(self._at(router), self._at(to)) for router, to in map(_way, trace)]
        for router, to in asked:
            self.trace(router, to)
        changes = [self._named(line) for line in _script(lines)]
        base, converged = self._quiet(_order(order, seed), most)
        try:
            with Run(_order(order, seed), most, tries_others=True) as after:
                after.repeat(base.lines)
                watch = Watch(after)
                done = apply(watch, changes, each)
                return effect_of(Outcome(compare(base, after, asked), watch, converged, done))
        finally:
            if base is not self._run:
                base.close()

    def _named(self, line: Line) -> Line:
        """A line with addresses in the place of names."""
        if not line.is_command:
            return line
        return Line(line.file, line.number, self.run.network.names.in_line(line.text), line.expected)

    def _quiet(self, order: Order, most: Optional[int]) -> Tuple[Run, Convergence]:
        """This network's run where it is quiet, else that of a copy that was converged."""
        if self.quiet():
            return self.run, Convergence(order)
        base = copies.copy_of(self.run)
        base.follow(order, most, True)
        done = base.converge()
        if not done.is_converged:
            base.close()
            raise NotConverged("the base does not converge: " + not_converged(done, base.network.names), done)
        return base, done


def _order(name: Optional[str], seed: Optional[int]) -> Order:
    """The order of a name, or the random one of a seed."""
    if name not in (None, *NAMES):
        raise Mistake("an order is %s, and not %r" % (" or ".join(NAMES), name))
    chosen = None if seed is None else number(str(seed))
    if seed is not None and chosen is None:
        raise Mistake("a seed is a number of 0 to 4294967295, and not %r" % (seed,))
    if seed is not None and name not in (None, "random"):
        raise Mistake("one order is expected, and not random and %s: a seed is for the random one" % name)
    return named(name or ("fair" if seed is None else "random"), chosen)


def _text(given: Union[Address, Prefix, None]) -> Optional[str]:
    return None if given is None else str(given)


def _way(given: Way) -> Way:
    """A router, and an address. Mistake for what is no such pair."""
    if isinstance(given, (tuple, list)) and len(given) == 2:
        return given[0], given[1]
    raise Mistake("a packet goes from a router to an address, as `(\"1.0.0.1\", \"198.51.100.1\")`, and not %r" % (given,))


def _script(lines: Lines) -> List[Line]:
    """Lines of Python as those of a script, which has the bytes of UTF-8. Those of an open file have their ends."""
    if isinstance(lines, str):
        return lines_of(lines.encode("utf-8"), GIVEN)
    is_listed = isinstance(lines, Iterable) and not isinstance(lines, (bytes, bytearray))
    listed: List[Any] = list(lines) if is_listed else [lines]
    for line in listed:
        if not isinstance(line, str):
            raise Mistake("a text is expected, or its lines, each a text, and not %r" % (line,))
    return lines_of("\n".join(line[:-1] if line[-1:] == "\n" else line for line in listed).encode("utf-8"), GIVEN)
