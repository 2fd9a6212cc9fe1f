"""Requests of HTTP that no browser sends, each with the statuses that may answer it. A 0 is a closed connection."""
import gzip
import json

ASK = json.dumps({"id": 1, "do": "call", "line": "origin 1.0.0.1 66.6.0.0/16"}).encode()
BAD = [400, 0]
CLOSED = [0]


def post(server, body=ASK, *more, page="x", key="to work", length=None):
    """A request of a page, with more lines of a head."""
    head = ["POST /%s/do?page=%s HTTP/1.1" % (server.keys[key], page), "Host: 127.0.0.1:%d" % server.port,
            "Content-Type: application/json", *more]
    head += [] if length == "none" else ["Content-Length: %s" % (len(body) if length is None else length)]
    return ("\r\n".join(head) + "\r\n\r\n").encode("latin-1") + body


def get(server, path="forms", *more, method="GET", version="HTTP/1.1", host=None, key="lab", whole=None):
    """A request without a body, with more lines of a head; `whole` is another target."""
    target = "/%s/%s" % (server.keys[key], path) if whole is None else whole
    lines = ["%s %s %s" % (method, target, version)]
    lines += ["Host: " + (host or "127.0.0.1:%d" % server.port)] if host != "" else []
    return ("\r\n".join(lines + list(more)) + "\r\n\r\n").encode("latin-1")


def smuggled(server, page):
    """Lengths that two readers may understand otherwise: with another request in the body."""
    inner = post(server, page=page)
    chunked = b"5\r\nabcde\r\n0\r\n\r\n"
    yield "two lengths", post(server, b"{}" + inner, "Content-Length: 2", page=page), [[413, 0], BAD]
    yield "two equal lengths", post(server, b"{}", "Content-Length: 2", page=page), [[413, 0], BAD]
    yield "a list of lengths", post(server, b"{}" + inner, page=page, length="2, 2"), [[413, 0], BAD]
    yield "other lengths in a list", post(server, b"{}" + inner, page=page, length="2, 90"), [[413, 0], BAD]
    yield "chunks and a length", post(server, chunked + inner, "Transfer-Encoding: chunked", page=page), [[413, 0], BAD]
    yield "chunks", post(server, chunked + inner, "Transfer-Encoding: chunked", page=page, length="none"), [[413, 0]]
    for odd in ("chunked, identity", "xchunked", "CHUNKED", " chunked", "gzip, chunked", "identity"):
        sent = post(server, chunked + inner, "Transfer-Encoding:" + odd, page=page)
        yield "transfer encoding " + odd, sent, [[413, 0], BAD]
    for odd in ("+2", "-1", "0x2", "2_0", " ", "", "\u00b2", "1e1", "9" * 400, "2;q=1", "02x"):
        yield "length " + odd[:9], post(server, b"{}" + inner, page=page, length=odd), [[413, 0], BAD]
    yield "a length with a space before the colon", \
        post(server, b"{}" + inner, "Content-Length : 400", page=page, length=2), [[413, 0], BAD]
    yield "a folded head", post(server, b"{}", "X: a\r\n Content-Length: 90", page=page), [[200]]
    yield "a length by a bare carriage return", \
        post(server, b"{}", "X: a\rContent-Length: 90", page=page), [[413, 0], BAD]
    yield "a get with a body that is a request", get(server, "forms", "Content-Length: %d" % len(inner)) + inner, \
        [[200], [413, 0], BAD]


def odd_targets(server):
    """Targets, hosts, methods and versions."""
    here, key = "127.0.0.1:%d" % server.port, server.keys["lab"]
    for version, fits in (("HTTP/0.9", [BAD, CLOSED, [403, 0]]), ("HTTP/2.0", [BAD, CLOSED]),
                          ("HTTP/1.2", [[200], [200, 0], BAD]),
                          ("http/1.1", [BAD, CLOSED]), ("", [BAD, CLOSED]), ("HTTP/1.1 x", [BAD, CLOSED])):
        yield "version " + version, get(server, version=version), fits
    yield "version HTTP/1.0", get(server, version="HTTP/1.0"), [[200, 0]]
    yield "requests behind one another", get(server) * 3, [[200, 200, 200]]
    yield "a request behind one that is refused", get(server, "nothing") + get(server), [[404, 0]]
    yield "a plain line", b"GET /%s/forms\r\n\r\n" % key.encode(), [BAD, CLOSED]
    for whole in ("http://%s/%s/forms" % (here, key), "http://evil.example/%s/forms" % key, "//%s/forms" % key,
                  "//evil.example/%s/forms" % key, "/%s" % key[:-1], "/%s/../%s/record" % (key[:-2], key),
                  "/..%2f" + key,
                  "*", "/", "", "forms", "/%2e%2e/" + key,
                  "/" + key.replace(key[0], "%%%02x" % ord(key[0]), 1) + "/forms",
                  "/%s%%00/forms" % key, "/%s%%0d%%0aX/forms" % key, "/\xff/forms", "/" + "a" * 2000, "?" + key,
                  "#" + key):
        yield "target " + whole[:30], get(server, whole=whole), [[403, 0], BAD]
    for path in ("../record", "..%2frecord", "%2e%2e/record", "record%00", "./record", "/etc/passwd", "static/lab.js",
                 "lab.py", "record/../forms", "forms%2f", "FORMS", "forms;x", "do", "//record"):
        yield "path " + path, get(server, path), [[404, 0], [400, 0]]
    for host in ("evil.example", "localhost:%d" % server.port, "127.0.0.1", here + ".", "127.1:%d" % server.port,
                 here + ":1",
                 "[::1]:%d" % server.port, "127.0.0.1:%d@evil.example" % server.port, here + ", evil.example"):
        yield "host " + host, get(server, host=host), [[403, 0], BAD]
    yield "no host", get(server, host=""), [[403, 0], BAD]
    yield "two hosts", get(server, "forms", "Host: " + here), [[403, 0], BAD]
    for origin in ("null", "https://" + here, "http://evil.example", "http://localhost:%d" % server.port,
                   "http://" + here + "/",
                   "", "http://%s http://evil.example" % here):
        yield "origin " + origin, get(server, "forms", "Origin: " + origin), [[403, 0]]
    for method in ("HEAD", "PUT", "OPTIONS", "DELETE", "TRACE", "PATCH", "PROPFIND", "get", "G\xcbT", "GE T", ""):
        yield "method " + method, get(server, method=method), [[405, 0], [403, 0], BAD]
    yield "connect", b"CONNECT %s HTTP/1.1\r\nHost: %s\r\n\r\n" % (here.encode(), here.encode()), [[403, 0], [405, 0],
                                                                                                   BAD]
    yield "a websocket", get(server, "events", "Upgrade: websocket", "Connection: Upgrade", "Sec-WebSocket-Version: 13",
                             "Sec-WebSocket-Key: dGhlIHNhbXBsZSBub25jZQ==", "Origin: http://evil.example"), [[403, 0]]
    yield "http/2 by upgrade", b"PRI * HTTP/2.0\r\n\r\nSM\r\n\r\n", [BAD, CLOSED]
    yield "tls", b"\x16\x03\x01\x02\x00\x01\x00\x01\xfc\x03\x03" + bytes(500) + b"\r\n\r\n", [BAD, CLOSED]


def odd_heads(server, page):
    """Heads and bodies that are too long, or other than they say."""
    for name, head in (("long line", "X: " + "x" * 70000), ("10,000 lines", "\r\n".join(["X: y"] * 10000)),
                       ("20,000 names", "\r\n".join("X%d: y" % number for number in range(20000)))):
        yield name, get(server, "forms", head), [BAD, CLOSED, [431, 0], [-1]]
    for odd in ("no colon", ": x", "X\0: y", "X: \0", "\xff\xfe: y"):
        yield "head " + odd, get(server, "forms", odd), [BAD, CLOSED, [200]]
    yield "a body of 64 KiB", post(server, b"x" * 65536, page=page), [[200]]
    yield "a body of one byte more", post(server, b"x" * 65537, page=page), [[413, 0], [413, -1]]
    yield "a body of a gigabyte", post(server, b"x", page=page, length=1 << 30), [[413, 0], BAD, CLOSED]
    packed = gzip.compress(b"0" * 10000000)
    yield "gzip", post(server, packed, "Content-Encoding: gzip", page=page), [[200]]
    yield "another type", post(server, page=page).replace(b"application/json", b"text/plain"), [[404, 0]]
    yield "a form", post(server, page=page).replace(b"application/json",
                                                    b"application/x-www-form-urlencoded"), [[404, 0]]
    yield "an expected body that never comes", post(server, b"", "Expect: 100-continue", page=page, length=10), [[100],
                                                                                                                 []]
    yield "values", get(server, "picture?" + "&".join("a=%d" % each for each in range(200))), [[400, 0]]
    yield "a long value", get(server, "picture?from=" + "a" * 2000), [[400, 0]]
    yield "half a character", get(server, "picture?from=%ed%a0%80&to=%ff"), [[400, 0]]
    yield "control characters", get(server, "events?as=a%0ab&token=%00"), [[400, 0]]
