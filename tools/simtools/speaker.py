"""A BGP speaker that opens a session with each of its routers and tells it fixed routes (RFC 4271, 4), for
tools/real-routers.

    tools/speaker JSON        its address, its AS and, for each router, the routes: as tools/real-routers writes them
"""
from __future__ import annotations

import json
import socket
import struct
import threading
import time
from typing import Any, Dict, Iterator, List, Sequence

from . import commands

OPEN, UPDATE, KEEPALIVE = 1, 2, 4
Route = Dict[str, Any]


def message(kind: int, body: bytes = b"") -> bytes:
    return b"\xff" * 16 + struct.pack("!HB", 19 + len(body), kind) + body


def opening(me: str, asn: int) -> bytes:
    """An OPEN with the capabilities IPv4 unicast and AS numbers of four bytes."""
    capabilities = struct.pack("!BBHBB", 1, 4, 1, 0, 1) + struct.pack("!BBI", 65, 4, asn)
    parameters = struct.pack("!BB", 2, len(capabilities)) + capabilities
    head = struct.pack("!BHH4sB", 4, min(asn, 23456), 180, socket.inet_aton(me), len(parameters))
    return message(OPEN, head + parameters)


def attribute(flags: int, kind: int, value: bytes) -> bytes:
    if len(value) > 255:
        return struct.pack("!BBH", flags | 0x10, kind, len(value)) + value
    return struct.pack("!BBB", flags, kind, len(value)) + value


def segment(kind: str, numbers: List[int]) -> bytes:
    """A segment of an AS_PATH."""
    return struct.pack("!BB%dI" % len(numbers), 2 if kind == "seq" else 1, len(numbers), *numbers)


def update(me: str, route: Route) -> bytes:
    path = b"".join(segment(kind, numbers) for kind, numbers in route["path"])
    attributes = attribute(0x40, 1, bytes([route["origin"]])) + attribute(0x40, 2, path)
    attributes += attribute(0x40, 3, socket.inet_aton(me))
    if route["med"] is not None:
        attributes += attribute(0x80, 4, struct.pack("!I", route["med"]))
    if route.get("comms"):
        # COMMUNITIES (RFC 1997)
        attributes += attribute(0xc0, 8, struct.pack("!%dI" % len(route["comms"]), *route["comms"]))
    address, length = route["prefix"].split("/")
    prefix = bytes([int(length)]) + socket.inet_aton(address)[:(int(length) + 7) // 8]
    return message(UPDATE, struct.pack("!HH", 0, len(attributes)) + attributes + prefix)


def receive(sock: socket.socket, count: int) -> bytes:
    got = b""
    while len(got) < count:
        more = sock.recv(count - len(got))
        if not more:
            raise ConnectionError
        got += more
    return got


def messages(sock: socket.socket) -> Iterator[int]:
    """The kinds of the messages that come."""
    while True:
        size, kind = struct.unpack("!16xHB", receive(sock, 19))
        receive(sock, size - 19)
        yield kind


def speak(sock: socket.socket, me: str, asn: int, routes: List[Route]) -> None:
    """A session until its end: the routes are advertised at the first KEEPALIVE, and each one is answered."""
    sock.sendall(opening(me, asn))
    told = False
    for kind in messages(sock):
        if kind in (OPEN, KEEPALIVE):
            sock.sendall(message(KEEPALIVE))
        if kind == KEEPALIVE and not told:
            told = True
            sock.sendall(b"".join(update(me, route) for route in routes))


def keep_speaking(me: str, asn: int, router: str, routes: List[Route]) -> None:
    while True:
        try:
            with socket.create_connection((router, 179), 3, (me, 0)) as sock:
                sock.settimeout(None)
                speak(sock, me, asn, routes)
        except OSError:
            time.sleep(0.5)


def main(words: Sequence[str]) -> int:
    """The command."""
    asked = commands.parser(__doc__)
    asked.add_argument("said", type=json.loads, metavar="JSON")
    said = asked.parse_args(words).said
    threads = [threading.Thread(target=keep_speaking, args=(said["address"], said["asn"], router, routes))
               for router, routes in said["sessions"].items()]
    for thread in threads:
        thread.start()
    for thread in threads:
        thread.join()
    return 0
