#!/usr/bin/env python3
"""An independent model of the machine, for comparing whole scripts: reads commands on standard input, prints the replies.

It shares nothing with the Rattle code: it is written from the rules alone, decides everything afresh at each step, and is slow.
"""
import copy
import sys

NAMES = ["", "syntax", "no-router", "router-exists", "same-router", "bad-end", "virtual-inside", "no-link", "link-exists",
         "not-linked", "no-session", "session-exists", "internal-only", "rule-not-allowed", "origin-exists", "no-origin",
         "session-down", "queue-empty", "first-as", "limit", "memory"]


class Bad(Exception):
    pass


class Refused(Exception):
    def __init__(self, number):
        self.number = number


def number(text, low=0, high=2 ** 32 - 1):
    if not text.isascii() or not text.isdigit() or (len(text) > 1 and text[0] == "0") or len(text) > 10:
        raise Bad
    value = int(text)
    if not low <= value <= high:
        raise Bad
    return value


def addr(text):
    parts = text.split(".")
    if len(parts) != 4:
        raise Bad
    value = 0
    for part in parts:
        value = value * 256 + number(part, 0, 255)
    return value


def show(a):
    return ".".join(str(a >> s & 255) for s in (24, 16, 8, 0))


def prefix(text):
    parts = text.split("/")
    if len(parts) != 2:
        raise Bad
    a, length = addr(parts[0]), number(parts[1], 0, 32)
    if a % 2 ** (32 - length):
        raise Bad
    return (a, length)


def show_prefix(p):
    return show(p[0]) + "/" + str(p[1])


def contains(p, a):
    return a >> (32 - p[1]) == p[0] >> (32 - p[1])


def path(text):
    if text == "-":
        return ()
    out = []
    for part in text.split("_"):
        if part.startswith("{"):
            if not part.endswith("}"):
                raise Bad
            ns = [number(n, 1) for n in part[1:-1].split(",")]
            if any(a >= b for a, b in zip(ns, ns[1:])):
                raise Bad
            out.append(("set", tuple(ns)))
        else:
            out.append(("seq", tuple(number(n, 1) for n in part.split(","))))
    return tuple(out)


def show_path(segments):
    if not segments:
        return "-"
    return "_".join(("{%s}" if kind == "set" else "%s") % ",".join(map(str, ns)) for kind, ns in segments)


def neighbour(segments):
    return segments[0][1][0] if segments and segments[0][0] == "seq" else None


def in_front(asn, segments):
    if segments and segments[0][0] == "seq" and len(segments[0][1]) < 255:
        return (("seq", (asn,) + segments[0][1]),) + segments[1:]
    return (("seq", (asn,)),) + segments


def length(segments):
    return sum(len(ns) if kind == "seq" else 1 for kind, ns in segments)


ORIGINS = {"igp": 0, "egp": 1, "inc": 2}

# The well-known communities of RFC 1997 that keep a route from being advertised.
NO_EXPORT, NO_ADVERTISE, NO_EXPORT_SUBCONFED = 0xFFFFFF01, 0xFFFFFF02, 0xFFFFFF03


def communities(text):
    ns = tuple(number(n) for n in text.split(","))
    if any(a >= b for a, b in zip(ns, ns[1:])):
        raise Bad
    return ns


def tagged(comms, act):
    """The communities with what a rule's action adds."""
    return tuple(sorted(set(comms) | ({act["add"]} if "add" in act else set())))


def attr(**over):
    base = dict(path=(), origin=0, next=0, med=None, pref=None, oid=None, clusters=(), comms=())
    base.update(over)
    return base


def show_attr(a):
    maybe = lambda v: "-" if v is None else str(v)
    text = "path=%s origin=%s next=%s med=%s pref=%s oid=%s clusters=%s" % (
        show_path(a["path"]), ["igp", "egp", "inc"][a["origin"]], show(a["next"]), maybe(a["med"]), maybe(a["pref"]),
        "-" if a["oid"] is None else show(a["oid"]), ",".join(map(show, a["clusters"])) or "-")
    return text + " comms=" + ",".join(map(str, a["comms"])) if a["comms"] else text


class Net:
    def __init__(self):
        self.nodes = {}      # address: (asn, virtual)
        self.links = {}      # frozenset: [metric, up]
        self.sessions = {}   # frozenset: enabled
        self.clients, self.own = set(), set()
        self.cluster = {}
        self.med_always = set()      # the routers that compare MED whatever the neighbouring AS
        self.rules = {}      # (router, peer, way): list
        self.origins = set()
        self.received = {}   # (to, prefix, from): attributes
        self.queues = {}     # (from, to): list
        self.trees = {}
        self.offered = {}    # what was offered after the last step
        self.kept = []       # snapshots: what all of these were

    # what follows from the configuration

    def external(self, a, b):
        return self.nodes[a][0] != self.nodes[b][0]

    def costs(self, r):
        if r not in self.trees:
            asn = self.nodes[r][0]
            best = {r: (0, r)}
            changed = True
            while changed:      # labels (cost, least first hop) until nothing moves
                changed = False
                for ends, (metric, up) in self.links.items():
                    if not up:
                        continue
                    for a in ends:
                        (b,) = ends - {a}
                        if a in best and self.nodes[a][0] == asn and b != r:
                            cost, hop = best[a]
                            offer = (cost + metric, b if a == r else hop)
                            if b not in best or offer < best[b]:
                                best[b] = offer
                                changed = True
            self.trees[r] = best
        return self.trees[r]

    def up(self, a, b):
        key = frozenset((a, b))
        if not self.sessions.get(key, False):
            return False
        if self.external(a, b):
            return key in self.links and self.links[key][1]
        return b in self.costs(a) and a in self.costs(b)

    def peers(self, r):
        return sorted(next(iter(k - {r})) for k in self.sessions if r in k)

    def reflector(self, r):
        return any(c[0] == r for c in self.clients)

    def cluster_id(self, r):
        return self.cluster.get(r, r)

    def judge(self, r, u, way, p, a):
        for cond, act in self.rules.get((r, u, way), []):
            kind, value = cond
            hit = {"any": lambda: True,
                   "is": lambda: p == value,
                   "under": lambda: p[1] >= value[1] and contains(value, p[0]),
                   "path": lambda: any(value in ns for _, ns in a["path"]),
                   "first": lambda: neighbour(a["path"]) == value,
                   "comm": lambda: value in a["comms"]}[kind]()
            if hit:
                return act
        return {}

    # decisions

    def routes(self, r, p):
        """[(source, exclusion or None, candidate or None)], the own one first, then by peer."""
        out = []
        if (r, p) in self.origins:
            out.append(("self", None, dict(source="self", attr=attr(next=r, pref=100), pref=100, external=True, cost=0, ident=r, peer=r)))
        for u in self.peers(r):
            a = self.received.get((r, p, u))
            if a is None or not self.up(r, u):
                continue
            act = self.judge(r, u, "in", p, a)
            why = None
            if any(self.nodes[r][0] in ns for _, ns in a["path"]):
                why = "loop"
            elif a["oid"] == r:
                why = "originator"
            elif self.reflector(r) and self.cluster_id(r) in a["clusters"]:
                why = "cluster"
            elif act is None:
                why = "denied"
            elif a["next"] not in self.costs(r):
                why = "unresolved"
            if why:
                out.append((u, why, None))
                continue
            external = self.external(r, u)
            pref = act.get("pref", 100) if external else (100 if a["pref"] is None else a["pref"])
            b = dict(a, pref=pref, med=act.get("med", a["med"]), comms=tagged(a["comms"], act))
            out.append((u, None, dict(source=u, attr=b, pref=pref, external=external, cost=self.costs(r)[a["next"]][0],
                                      ident=u if a["oid"] is None else a["oid"], peer=u)))
        return out

    FILTERS = ["pref", "length", "origin", "med", "external", "cost", "ident", "clusters", "peer"]

    @staticmethod
    def beats(name, n, m, always):
        """Whether the filter prefers n to m. MED counts within one neighbouring AS (RFC 4271, 9.1.2.2 c), or `always`."""
        if name in ("pref", "external"):
            return n[name] > m[name]
        if name == "length":
            return length(n["attr"]["path"]) < length(m["attr"]["path"])
        if name == "origin":
            return n["attr"]["origin"] < m["attr"]["origin"]
        if name == "med":
            same = always or neighbour(n["attr"]["path"]) == neighbour(m["attr"]["path"])
            return same and (n["attr"]["med"] or 0) < (m["attr"]["med"] or 0)
        if name == "clusters":
            return len(n["attr"]["clusters"]) < len(m["attr"]["clusters"])
        return n[name] < m[name]

    def decide(self, r, p):
        """(best candidate or None, [(source, reason)])"""
        routes = self.routes(r, p)
        reasons = {source: why for source, why, _ in routes if why}
        left = [c for _, _, c in routes if c]
        for name in self.FILTERS:
            if len(left) < 2:
                break       # one route has no other to lose against
            dropped = [m for m in left if any(self.beats(name, n, m, r in self.med_always) for n in left)]
            for m in dropped:
                reasons[m["source"]] = name
            left = [m for m in left if m not in dropped]
        for m in left:
            reasons[m["source"]] = "best"
        return (left[0] if left else None), [(source, reasons[source]) for source, _, _ in routes]

    def best(self, r, p):
        return self.decide(r, p)[0]

    def prefixes(self, r):
        return sorted({p for o, p in self.origins if o == r} | {p for to, p, _ in self.received if to == r})

    def is_kept(self, s, t, comms):
        """Whether a well-known community keeps the route from the peer."""
        return NO_ADVERTISE in comms or self.external(s, t) and (NO_EXPORT in comms or NO_EXPORT_SUBCONFED in comms)

    def out(self, s, t, p):
        return self.told(s, t, p, self.best(s, p)) if self.up(s, t) else None

    def told(self, s, t, p, b):
        """What is told over an up session of the candidate that was chosen, if there is one."""
        if b is None or b["source"] == t or self.is_kept(s, t, b["attr"]["comms"]):
            return None
        act = self.judge(s, t, "out", p, b["attr"])
        if act is None:
            return None
        a, asn = b["attr"], self.nodes[s][0]
        if self.external(s, t):
            longer = a["path"]
            for _ in range(1 + act.get("prepend", 0)):
                longer = in_front(asn, longer)
            return attr(path=longer, origin=a["origin"], next=s, med=act.get("med"), comms=tagged(a["comms"], act))
        if b["external"]:
            hop = s if (s, t) in self.own else a["next"]
            return attr(path=a["path"], origin=a["origin"], next=hop, med=a["med"], pref=b["pref"], comms=a["comms"])
        if (s, b["source"]) in self.clients or (s, t) in self.clients:
            return dict(a, oid=b["source"] if a["oid"] is None else a["oid"], clusters=(self.cluster_id(s),) + a["clusters"])
        return None

    # sending

    def offers(self):
        found = {}
        for s in {end for key in self.sessions for end in key if not self.nodes[end][1]}:
            ways = [t for t in self.peers(s) if self.up(s, t)]
            for p in self.prefixes(s):
                b = self.best(s, p)
                told = ((t, self.told(s, t, p, b)) for t in ways)
                found.update({(s, t, p): a for t, a in told if a is not None})
        return found

    def send(self):
        before, after = self.offered, self.offers()
        for s, t, p in sorted(set(before) | set(after)):
            if before.get((s, t, p)) != after.get((s, t, p)) and self.up(s, t):
                self.queues.setdefault((s, t), []).append((p, after.get((s, t, p))))
        self.offered = after

    def edit(self, change):
        change()
        self.trees = {}
        for key in self.sessions:
            a, b = key
            if not self.up(a, b):
                self.queues.pop((a, b), None)
                self.queues.pop((b, a), None)
                for k in [k for k in self.received if (k[0], k[2]) in ((a, b), (b, a))]:
                    del self.received[k]
        self.send()


def held(p, b):
    return "%s from %s %s" % (show_prefix(p), "self" if b["source"] == "self" else show(b["source"]), show_attr(b["attr"]))


def route(segments, origin, med, comms=None):
    """What a feed tells of a route: its path, origin, MED and communities."""
    if origin not in ORIGINS or comms is not None and not comms.startswith("comm="):
        wrong()
    return (path(segments), ORIGINS[origin], None if med == "-" else number(med),
            () if comms is None else communities(comms[len("comm="):]))


def parse(words):
    """A command's words as typed values, or Bad."""
    w = words[0]
    take = lambda *kinds: [k(x) for k, x in zip(kinds, words[1:])] if len(words) == 1 + len(kinds) else wrong()
    asn = lambda t: number(t, 1)
    metric = lambda t: number(t, 1, 65535)
    switch = lambda t: {"on": True, "off": False}[t] if t in ("on", "off") else wrong()
    way = lambda t: t if t in ("in", "out") else wrong()
    scope = lambda t: {"as": False, "always": True}[t] if t in ("as", "always") else wrong()
    if w in ("router", "virtual"):
        return take(addr, asn)
    if w in ("link", "metric"):
        return take(addr, addr, metric)
    if w in ("fail", "mend", "join", "stop", "start", "deliver", "in", "out", "queue", "cost", "trace", "cluster"):
        return take(addr, addr)
    if w in ("client", "self"):
        return take(addr, addr, switch)
    if w == "med":
        return take(addr, scope)
    if w == "clear":
        return take(addr, addr, way)
    if w in ("origin", "noorigin", "best", "why"):
        return take(addr, prefix)
    if w == "routes":
        return take(addr)
    if w == "quiet":
        return take()
    if w == "feed":
        if len(words) < 4:
            wrong()
        if words[3] == "update" and len(words) in (8, 9):
            return [addr(words[1]), addr(words[2]), prefix(words[4]), route(*words[5:])]
        if words[3] == "withdraw" and len(words) == 5:
            return [addr(words[1]), addr(words[2]), prefix(words[4]), None]
        wrong()
    if w == "rule":
        if len(words) < 6:
            wrong()
        head = [addr(words[1]), addr(words[2]), way(words[3])]
        rest = words[4:]
        kinds = {"any": None, "is": prefix, "under": prefix, "path": asn, "first": asn, "comm": number}
        if rest[0] not in kinds:
            wrong()
        if kinds[rest[0]] is None:
            cond, rest = ("any", None), rest[1:]
        else:
            if len(rest) < 2:
                wrong()
            cond, rest = (rest[0], kinds[rest[0]](rest[1])), rest[2:]
        if rest == ["deny"]:
            return head + [(cond, None)]
        if not rest or rest[0] != "permit":
            wrong()
        act, rest = {}, rest[1:]
        most = 2 ** 32 - 1
        for name, low, high in (("pref", 0, most), ("med", 0, most), ("prepend", 1, 16), ("add", 0, most)):
            if rest and rest[0].startswith(name + "="):
                act[name] = number(rest[0][len(name) + 1:], low, high)
                rest = rest[1:]
        if rest:
            wrong()
        return head + [(cond, act)]
    wrong()


def wrong():
    raise Bad


def tests(net, w, v):
    """Raises the first refusal of 2 to 19."""
    ends = ("link", "metric", "fail", "mend", "join", "stop", "start", "client", "self", "rule", "clear", "feed", "deliver", "in",
            "out", "queue", "cost")
    named = v[:2] if w in ends else v[:1] if w in ("cluster", "med", "origin", "noorigin", "routes", "best", "why", "trace") else []
    virtual = lambda a: net.nodes[a][1]
    key = frozenset(v[:2]) if w in ends else None
    if any(a not in net.nodes for a in named):
        raise Refused(2)
    if w in ("router", "virtual") and v[0] in net.nodes:
        raise Refused(3)
    if w in ("link", "join") and v[0] == v[1]:
        raise Refused(4)
    if w in ("link", "join") and virtual(v[0]) and virtual(v[1]):
        raise Refused(5)
    if w == "feed" and (not virtual(v[0]) or virtual(v[1])):
        raise Refused(5)
    of_a_router = ("client", "self", "cluster", "med", "rule", "clear", "origin", "noorigin", "routes", "best", "why", "out", "cost", "trace")
    if w in of_a_router and virtual(v[0]):
        raise Refused(5)
    if w in ("link", "join") and (virtual(v[0]) or virtual(v[1])) and not net.external(v[0], v[1]):
        raise Refused(6)
    if w in ("metric", "fail", "mend") and key not in net.links:
        raise Refused(7)
    if w == "link" and key in net.links:
        raise Refused(8)
    if w == "join" and net.external(v[0], v[1]) and key not in net.links:
        raise Refused(9)
    if w in ("stop", "start", "client", "self", "rule", "clear", "feed", "deliver", "in", "out", "queue") and key not in net.sessions:
        raise Refused(10)
    if w == "join" and key in net.sessions:
        raise Refused(11)
    if w in ("client", "self") and net.external(v[0], v[1]):
        raise Refused(12)
    if w == "rule" and v[3][1]:
        act = v[3][1]
        if not net.external(v[0], v[1]) or ("prepend" in act and v[2] == "in") or ("pref" in act and v[2] == "out"):
            raise Refused(13)
    if w == "origin" and (v[0], v[1]) in net.origins:
        raise Refused(14)
    if w == "noorigin" and (v[0], v[1]) not in net.origins:
        raise Refused(15)
    if w in ("feed", "deliver") and not net.up(v[0], v[1]):
        raise Refused(16)
    if w == "deliver" and not net.queues.get((v[0], v[1])):
        raise Refused(17)
    if w == "feed" and v[3] and neighbour(v[3][0]) != net.nodes[v[0]][0]:
        raise Refused(18)
    if w == "feed" and v[3] and (sum(len(ns) for _, ns in v[3][0]) > 255 or len(v[3][3]) > 32):
        raise Refused(19)
    if w in ("router", "virtual") and len(net.nodes) >= 4096 or w == "link" and len(net.links) >= 16384:
        raise Refused(19)
    if w == "join" and any(len(net.peers(a)) >= 256 for a in v):
        raise Refused(19)
    if w == "rule" and len(net.rules.get((v[0], v[1], v[2]), [])) >= 256:
        raise Refused(19)


def trace(net, r, d):
    lines, passed = [], []
    while True:
        if r in passed:
            return lines + ["loop " + show(r)]
        if net.nodes[r][1]:
            return lines + ["reached " + show(r)]
        found = [p for p in net.prefixes(r) if contains(p, d) and net.best(r, p)]
        if not found:
            return lines + ["noroute " + show(r)]
        p = max(found, key=lambda p: p[1])
        b = net.best(r, p)
        if b["source"] == "self":
            return lines + ["reached " + show(r)]
        lines.append("%s %s" % (show(r), show_prefix(p)))
        passed.append(r)
        r = net.costs(r)[b["attr"]["next"]][1]


def counted(lines):
    return lines + ["end %d" % len(lines)]


def run(net, w, v):
    tests(net, w, v)
    no_ends = ("router", "virtual", "cluster", "med", "origin", "noorigin", "best", "why", "trace")
    key = frozenset(v[:2]) if len(v) > 1 and w not in no_ends else None
    if w in ("router", "virtual"):
        net.edit(lambda: net.nodes.update({v[0]: (v[1], w == "virtual")}))
    elif w == "link":
        net.edit(lambda: net.links.update({key: [v[2], True]}))
    elif w == "metric":
        net.edit(lambda: net.links[key].__setitem__(0, v[2]))
    elif w in ("fail", "mend"):
        net.edit(lambda: net.links[key].__setitem__(1, w == "mend"))
    elif w in ("join", "stop", "start"):
        net.edit(lambda: net.sessions.update({key: w != "stop"}))
    elif w in ("client", "self"):
        marks = net.clients if w == "client" else net.own
        net.edit(lambda: (marks.add if v[2] else marks.discard)((v[0], v[1])))
    elif w == "cluster":
        net.edit(lambda: net.cluster.update({v[0]: v[1]}))
    elif w == "med":
        net.edit(lambda: (net.med_always.add if v[1] else net.med_always.discard)(v[0]))
    elif w == "rule":
        net.edit(lambda: net.rules.setdefault((v[0], v[1], v[2]), []).append(v[3]))
    elif w == "clear":
        net.edit(lambda: net.rules.pop((v[0], v[1], v[2]), None))
    elif w == "origin":
        net.edit(lambda: net.origins.add((v[0], v[1])))
    elif w == "noorigin":
        net.edit(lambda: net.origins.discard((v[0], v[1])))
    elif w == "feed":
        a = None if v[3] is None else attr(path=v[3][0], origin=v[3][1], next=v[0], med=v[3][2], comms=v[3][3])
        net.queues.setdefault((v[0], v[1]), []).append((v[2], a))
    elif w == "deliver":
        p, a = net.queues[v[0], v[1]][0]
        net.queues[v[0], v[1]].pop(0)
        if a is None:
            net.received.pop((v[1], p, v[0]), None)
        else:
            net.received[v[1], p, v[0]] = a
        net.send()
        return ["took %s %s" % (show_prefix(p), "withdraw" if a is None else "update")]
    elif w == "routes":
        chosen = [(p, net.best(v[0], p)) for p in net.prefixes(v[0])]
        return counted([held(p, b) for p, b in chosen if b])
    elif w == "best":
        b = net.best(v[0], v[1])
        return [held(v[1], b) if b else "none"]
    elif w == "why":
        return counted(["%s %s" % (s if s == "self" else show(s), r) for s, r in net.decide(v[0], v[1])[1]])
    elif w == "in":
        found = sorted(((p, a) for (to, p, u), a in net.received.items() if to == v[0] and u == v[1]), key=lambda e: e[0])
        return counted(["%s %s" % (show_prefix(p), show_attr(a)) for p, a in (found if net.up(v[0], v[1]) else [])])
    elif w == "out":
        found = [(p, net.out(v[0], v[1], p)) for p in net.prefixes(v[0])]
        return counted(["%s %s" % (show_prefix(p), show_attr(a)) for p, a in found if a])
    elif w == "queue":
        messages = net.queues.get((v[0], v[1]), []) if net.up(v[0], v[1]) else []
        return counted(["withdraw " + show_prefix(p) if a is None else "update %s %s" % (show_prefix(p), show_attr(a)) for p, a in messages])
    elif w == "quiet":
        return ["no" if any(net.queues.values()) else "yes"]
    elif w == "cost":
        label = net.costs(v[0]).get(v[1])
        return ["%d via %s" % (label[0], show(label[1])) if label else "none"]
    elif w == "trace":
        return counted(trace(net, v[0], v[1]))
    return ["ok"]


def answer(net, line):
    if len(line) > 4096:
        return ["refused 1 syntax"]
    words = [w for w in line.split(" ") if w]
    if not words or words[0].startswith("#"):
        return []
    try:
        if any(not 32 <= ord(c) < 127 for c in line):
            raise Bad
        return run(net, words[0], parse(words))
    except Bad:
        return ["refused 1 syntax"]
    except Refused as r:
        return ["refused %d %s" % (r.number, NAMES[r.number])]


# The lines that `bgpsim converge` reads beside commands

def waiting(net):
    """The directions in which a message waits, by sender, then by receiver."""
    return sorted(d for d, messages in net.queues.items() if messages)


def next_waiting(net, past):
    """The next of them behind one of them, and the first of all behind the last."""
    directions = waiting(net)
    return next((d for d in directions if past is None or d > past), directions[0] if directions else None)


def in_rounds(net):
    past = next_waiting(net, None)
    while past is not None:
        yield past
        past = next_waiting(net, past)


def by_router(net):
    begun = next_waiting(net, None)
    while begun is not None:
        while net.queues[begun]:
            yield begun
        for sender in [] if net.nodes[begun[1]][1] else net.peers(begun[1]):
            while net.queues.get((sender, begun[1])):
                yield sender, begun[1]
        begun = next_waiting(net, begun)


def words_of_pcg(state, stream):
    """The words of pcg32_srandom(state, stream) and pcg32_random of PCG's C code."""
    factor, increment, mask = 6364136223846793005, 2 * stream + 1, 2 ** 64 - 1
    state = ((increment + state) * factor + increment) & mask
    while True:
        shifted, turn = (state ^ state >> 18) >> 27 & 0xFFFFFFFF, state >> 59
        yield (shifted * 2 ** 32 + shifted) >> turn & 0xFFFFFFFF
        state = (state * factor + increment) & mask


def below(words, count):
    """A number below the count: the part of a word, with one more word where that could carry into the number."""
    product = next(words) * count
    if product % 2 ** 32 > 2 ** 32 - count:
        product += next(words) * count // 2 ** 32
    return product // 2 ** 32


def at_random(seed):
    def directions(net):
        words, noted = words_of_pcg(seed, 54), waiting(net)
        while noted:
            at = below(words, len(noted))
            a, b = noted[at]
            if not net.queues.get((a, b)):
                noted[at] = noted[-1]
                noted.pop()
                continue
            yield a, b
            if not net.nodes[b][1]:
                noted += [(b, c) for c in net.peers(b) if net.queues.get((b, c)) and (b, c) not in noted]
    return directions


ORDERS = {"fair": in_rounds, "router": by_router}


def converge(net, words):
    order, most, echo = in_rounds, 1000000, False
    if words and words[0] in ORDERS:
        order, words = ORDERS[words[0]], words[1:]
    elif len(words) > 1 and words[0] == "random":
        order, words = at_random(number(words[1])), words[2:]
    if words and words[0] != "echo":
        most, words = number(words[0]), words[1:]
    if words == ["echo"]:
        echo, words = True, []
    if words:
        raise Bad
    lines, kinds = [], []
    for a, b in order(net):
        if len(kinds) == most:
            break
        line = "deliver %s %s" % (show(a), show(b))
        reply, = answer(net, line)
        kinds.append(reply.split(" ")[2])
        lines += [line, reply] if echo else []
    counts = len(kinds), kinds.count("update"), kinds.count("withdraw")
    return lines + [("not " if waiting(net) else "") + "converged after %d (%d updates, %d withdrawals)" % counts]


def restored(net, n):
    if not 1 <= n <= len(net.kept):
        return ["no snapshot %d" % n]
    before, net.__dict__ = net.kept[:n - 1], net.kept[n - 1]
    net.kept = before
    return ["ok"]


def answer_converge(net, line):
    words = [w for w in line.split(" ") if w]
    try:
        if len(line) <= 4096 and words == ["snapshot"]:
            net.kept.append(copy.deepcopy({name: value for name, value in net.__dict__.items() if name != "kept"}))
            return ["snapshot %d" % len(net.kept)]
        if len(line) <= 4096 and words[:1] == ["restore"] and len(words) == 2:
            return restored(net, number(words[1]))
        if len(line) <= 4096 and words[:1] == ["converge"]:
            return converge(net, words[1:])
        if len(line) <= 4096 and words == ["waiting"]:
            return counted(["%s %s %d %s" % (show(a), show(b), len(net.queues[a, b]), show_prefix(net.queues[a, b][0][0]))
                            for a, b in waiting(net)])
    except Bad:
        return ["refused 1 syntax"]
    return answer(net, line)


class ReadFault(Exception):
    pass


def play(text, answered=answer):
    """The lines of the replies to a script, one after the other; ReadFault with the number of a line that is too long, or one too many."""
    net = Net()
    # A carriage return belongs to the end of a line only before a line feed, which the last line lacks.
    *ended, last = text.decode("latin-1").split("\n")
    lines = [line[:-1] if line.endswith("\r") else line for line in ended] + ([last] if last else [])
    for number, line in enumerate(lines, 1):
        if len(line) > 65536 or number > 1000000:
            raise ReadFault(number)
        yield from answered(net, line)


def main():
    try:
        for reply in play(sys.stdin.buffer.read(), answer_converge if sys.argv[1:] == ["converge"] else answer):
            print(reply)
    except ReadFault as fault:
        print("read fault at line %d" % fault.args[0], file=sys.stderr)
        return 3
    return 0


if __name__ == "__main__":
    sys.exit(main())
