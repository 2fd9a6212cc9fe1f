"""Conversations with `share` and `lab` that nobody holds: requests mutated, cut, interleaved, over all transports.

    tools/fuzz-servers [--cases N] [--seed S]    N cases (150), of the seeds from S (1) on. A case is a conversation of
                                                 some clients with a lab, or with a share: people at the socket, pages,
                                                 and connections of HTTP. They send valid requests of all words, mutated
                                                 ones, bytes at random and halves of requests, in any order, and go in
                                                 the midst

After each case the server lives, and was asked rightly by a person and a page of each role who behave; each request has
its answer, one JSON object with its `id` and with `error` or the fields of docs/reference/share.md; the shared program was not
restarted; standard error tells of no fault. In the end each call that was answered is in the log, in order and with its
reply, none is there more often than it was made, and `bgpsim replay` says ok.

The last line is `N passed, M failed`, a case being one, and the end of a server. A part of the gate. PROGRAM= is
another program than crates/bgpsim/out/bgpsim.
"""
from __future__ import annotations

import collections
import contextlib
import pathlib
import random
import re
import sys
import tempfile
import time
from typing import Any, Dict, List, Optional, Sequence, Tuple

from . import commands, programs
from .fuzz_clients import AtSocket, Client, Fault, Page, Peer, Server
from .fuzz_requests import NAMES, Request, garbage, head, mutated, query, valid
from .running import PATIENCE, run

# So many things are done in a case, and so many clients are there at once.
STEPS, CLIENTS = 60, 5
CALL = re.compile(r"^@([0-9]+) ([^\n]*)\n((?:= [^\n]*\n)+)", re.M)
ROLES = ("lab", "to work", "to look")
# A line that spells no command, or for which there was no memory, has no entry.
UNKEPT = ("refused 1 ", "refused 20 ")


class Honest:
    """A person and a page of each role who do nothing wrong."""

    def __init__(self, server: Server) -> None:
        self.server, self.count = server, 0
        self.person = AtSocket(server)
        self.person.ask({"do": "enter", "as": "honest"})
        self.pages = {role: Page(server, role, "honest-" + role.replace(" ", "-")) for role in server.keys}
        self.clients: List[Client] = [self.person, *self.pages.values()]

    def check(self) -> None:
        """Fault where one of them is answered wrongly."""
        self.server.check()
        for client in self.clients:
            while client.read():
                pass
        for client in [client for client in self.clients if client is not self.pages.get("to look")]:
            self.count += 1
            line = "router 172.16.%d.%d 9" % divmod(self.count, 250)
            for request, wanted in (({"do": "call", "line": line}, ["ok"]),
                                    ({"do": "ask", "line": "cost 1.0.0.1 1.0.0.1"}, ["0 via 1.0.0.1"])):
                answer = client.ask(request)
                if answer.get("reply") != wanted:
                    raise Fault("`%s` of one who behaves is answered %r" % (request["line"], answer))
        if self.pages:
            self._check_looking()

    def _check_looking(self) -> None:
        look = self.pages["to look"]
        if self.pages["lab"].ask({"do": "show", "step": self.count}).get("shown") is not True:
            raise Fault("the teacher shows nothing")
        shown = {"event": "shown", "step": self.count}
        last = time.monotonic() + PATIENCE
        while not any(shown.items() <= event.items() for event in look.events):
            if time.monotonic() > last or not look.is_open:
                raise Fault("who looks is not shown what the teacher shows")
            look.read(0.1)
        for role in ROLES:
            status, body = self.server.get("forms", self.server.keys[role])
            if (status, body[:2]) != (200, b"[["):
                raise Fault("`forms` is answered %d %r to %s" % (status, body[:80], role))


class Fuzzed:
    """A server with those who behave, and what all others did. `unique` counts the calls whose line nobody else has."""

    def __init__(self, tool: str, folder: pathlib.Path) -> None:
        self.server = Server(tool, folder)
        self.tokens: Dict[str, str] = {}
        self.count = 0
        self.peers: List[Peer] = []
        self.honest = Honest(self.server)
        self.peers += self.honest.clients

    def case(self, seed: int) -> None:
        """A conversation. Fault where something is wrong in it or after it."""
        draw = random.Random("%s %d" % (self.server.tool, seed))
        clients: List[Client] = []
        try:
            for _ in range(STEPS):
                if len(clients) < draw.randint(1, CLIENTS):
                    clients.append(self._come(draw))
                self._act(draw, clients, draw.choice(clients))
                for client in clients:
                    client.read()
            for client in clients:
                client.settle()
        finally:
            for client in clients:
                self.tokens.update({client.name: client.token} if client.token else {})
                client.close()
        self.honest.check()

    def _come(self, draw: random.Random) -> Client:
        client: Client
        name = draw.choice(NAMES)
        if self.server.keys and draw.random() < 0.4:
            client = Page(self.server, draw.choice(ROLES[:2]), name, self.tokens.get(name, ""))
        else:
            client = AtSocket(self.server)
            if draw.random() < 0.9:
                client.send(client.numbered(self._entering(draw, name)))
                client.read(0.05)
        self.peers.append(client)
        return client

    def _entering(self, draw: random.Random, name: str) -> Request:
        token = self.tokens.get(name) if draw.random() < 0.95 else "x"
        return {"do": "enter", "as": name, **({"token": token} if token else {})}

    def _act(self, draw: random.Random, clients: List[Client], client: Client) -> None:
        """One does something."""
        what = draw.random()
        if client.token:
            self.tokens[client.name] = client.token
        if what < 0.4:
            client.send(client.numbered(self._valid(draw)))
        elif what < 0.85:
            client.send(mutated(draw))
        elif what < 0.9 and isinstance(client, AtSocket):
            self._odd_bytes(draw, client)
        elif what < 0.96 and self.server.keys:
            self._odd_http(draw)
        else:
            self._go(draw, clients, client)

    def _valid(self, draw: random.Random) -> Request:
        """A request that fits. Some are calls that nobody else makes."""
        if draw.random() < 0.3:
            self.count += 1
            return {"do": "call", "line": "router 172.31.%d.%d 7" % divmod(self.count, 250)}
        return valid(draw)

    def _odd_bytes(self, draw: random.Random, client: AtSocket) -> None:
        """Bytes at random, as whole lines; or a line that is too long, after which the connection ends."""
        if draw.random() < 0.05:
            client.raw(b"x" * (1 << 20) + b"xx\n")
            client.owed = 0
            while client.is_open and client.read(PATIENCE):
                pass
            if client.is_open:
                raise Fault("who sends a line without an end is not let go")
        else:
            client.send(garbage(draw))

    def _odd_http(self, draw: random.Random) -> None:
        key = draw.choice([*self.server.keys.values(), "x"])
        if draw.random() < 0.5:
            self.server.get(query(draw), key)
            return
        with self.server.connected() as line, contextlib.suppress(OSError):
            body = draw.choice((b"", mutated(draw)[:1000], garbage(draw)[:1000]))
            line.sendall(head(draw, self.server.host, key, body))
            if draw.random() < 0.5:
                line.settimeout(draw.choice((0.001, 0.05)))
                line.recv(1000)

    def _go(self, draw: random.Random, clients: List[Client], client: Client) -> None:
        """One goes, in the midst of something as a rule."""
        with contextlib.suppress(Fault):
            if draw.random() < 0.5:
                client.send(client.numbered(self._valid(draw)))
        if isinstance(client, AtSocket) and draw.random() < 0.5:
            client.raw(mutated(draw)[:draw.randrange(50)])
        self.tokens.update({client.name: client.token} if client.token else {})
        client.close()
        clients.remove(client)

    # The end

    def end(self) -> None:
        """Ends the server. Fault where the log is not what was answered."""
        for client in self.honest.clients:
            client.close()
        self.server.end()
        said = run([programs.bgpsim(), "replay"], self.server.log.read_bytes()).out.decode()
        if not said.startswith("ok "):
            raise Fault("replay says " + said)
        text = self.server.log.read_text("latin-1")
        entries = [(int(seat), line, reply[2:-1].split("\n= ")) for seat, line, reply in CALL.findall(text)]
        self._check_order(entries)
        counts = collections.Counter(line for _, line,
                                     reply in entries if line.startswith("router 172.") and reply == ["ok"])
        twice = [line for line, count in counts.items() if count > 1]
        if twice:
            raise Fault("a call is in the log more than once: " + twice[0])

    def _check_order(self, entries: List[Tuple[int, str, List[str]]]) -> None:
        """Each call that somebody was answered is in the log, in order, with its reply."""
        for peer in [peer for peer in self.peers if peer.seat is not None]:
            there = iter([(line, reply) for seat, line, reply in entries if seat == peer.seat])
            for line, reply in peer.calls:
                if reply and not reply[0].startswith(UNKEPT) and not _is_found(there, (" ".join(line.split()), reply)):
                    raise Fault("`%s` of seat %d was answered %r, and is not in the log so" % (line, peer.seat or 0,
                                                                                               reply))


def _is_found(there: Any, wanted: Tuple[str, List[str]]) -> bool:
    """Whether something is behind those that were found before."""
    return any(each == wanted for each in there)


def try_cases(seeds: range) -> int:
    """Tries the cases, each with one of two servers; one that failed is replaced by a new one."""
    programs.bgpsim()
    passed = failed = 0
    with tempfile.TemporaryDirectory() as folder:
        fuzzed: Dict[str, Optional[Fuzzed]] = {"lab": None, "share": None}
        for seed in [*seeds, None]:
            for tool in ["lab" if seed % 3 else "share"] if seed is not None else [*fuzzed]:
                found = fuzzed[tool]
                try:
                    if seed is not None:
                        if found is None:
                            place = pathlib.Path(tempfile.mkdtemp(dir=folder))
                            found = fuzzed[tool] = Fuzzed(tool, place)
                        found.case(seed)
                    elif found is not None:
                        found.end()
                    passed += 1
                except (Fault, OSError, ValueError) as fault:
                    failed += 1
                    print("FAILED %s, %s: %s: %s" % (tool, "the end" if seed is None else "seed %d" % seed,
                                                     type(fault).__name__, fault), flush=True)
                    if found is not None:
                        found.server.close()
                        fuzzed[tool] = None
        for left in fuzzed.values():
            if left is not None:
                left.server.close()
    return commands.counted(passed, failed)


def main(words: Sequence[str]) -> int:
    """The command."""
    sys.dont_write_bytecode = True
    asked = commands.parser(__doc__)
    asked.add_argument("--cases", type=commands.number, default=150, metavar="N")
    asked.add_argument("--seed", type=int, default=1, metavar="S")
    given = asked.parse_args(words)
    return commands.as_part(lambda: try_cases(range(given.seed, given.seed + given.cases)))
