"""The command language as data. Made by tools/language of language/language.toml: a change belongs there.

`grammar` has the types. Nothing here is written by hand."""
from typing import Dict, FrozenSet, Tuple

from .grammar import Attribute, Exclusion, Filter, Form, Kind, Limit, Match, RefusalKind, ReplyForm, Setting

FORMS: Tuple[Form, ...] = (
    Form("router A N", "a new router at address A in AS N", "make a network", refusals=(3, 19, 20), reply="done",
         scope="nobody"),
    Form("virtual A N", "a new virtual peer: a neighbour that is fed by hand", "make a network", refusals=(3, 19, 20),
         reply="done", scope="nobody"),
    Form("link A B M", "a new link of cost M, up", "make a network", refusals=(2, 4, 5, 6, 8, 19, 20), reply="done",
         scope="ases"),
    Form("join A B", "a new session, enabled", "make a network", refusals=(2, 4, 5, 6, 9, 11, 19, 20), reply="done",
         scope="ends"),
    Form("client A B on|off", "whether B is a client of A; a router with clients reflects", "make a network",
         refusals=(2, 5, 10, 12, 20), reply="done", scope="router"),
    Form("self A B on|off", "whether A is next hop of what it sends B, unless reflected", "make a network",
         refusals=(2, 5, 10, 12, 20), reply="done", scope="router", call="next_hop_self"),
    Form("cluster A ID", "the CLUSTER_ID of A", "make a network", refusals=(2, 5, 20), reply="done", scope="router"),
    Form("med A as|always", "A compares MED within a neighbouring AS (at first), or always", "make a network",
         refusals=(2, 5, 20), reply="done", scope="router"),
    Form("rule A B in|out MATCH ACT", "a rule at the end of A's policy for B", "make a network",
         refusals=(2, 5, 10, 13, 19, 20), reply="done", scope="router"),
    Form("origin A P", "A originates the prefix", "make a network", refusals=(2, 5, 14, 20), reply="done",
         scope="router", opposite="noorigin"),
    Form("metric A B M", "another cost of a link", "change it", refusals=(2, 7, 20), reply="done", scope="ases"),
    Form("fail A B", "a link goes down", "change it", refusals=(2, 7, 20), reply="done", scope="ases",
         opposite="mend"),
    Form("mend A B", "a link comes up", "change it", refusals=(2, 7, 20), reply="done", scope="ases", opposite="fail"),
    Form("stop A B", "a session is disabled", "change it", refusals=(2, 10, 20), reply="done", scope="ends",
         opposite="start"),
    Form("start A B", "a session is enabled", "change it", refusals=(2, 10, 20), reply="done", scope="ends",
         opposite="stop"),
    Form("clear A B in|out", "A's policy `in` from B, or `out` to B, is emptied", "change it", refusals=(2, 5, 10, 20),
         reply="done", scope="router"),
    Form("noorigin A P", "A stops originating the prefix", "change it", refusals=(2, 5, 15, 20), reply="done",
         scope="router", opposite="origin"),
    Form("feed V R update P PATH ORIGIN MED [comm=C,..]", "V sends R a route", "tell and deliver",
         refusals=(2, 5, 10, 16, 18, 19, 20), reply="done"),
    Form("feed V R withdraw P", "V withdraws the route", "tell and deliver", refusals=(2, 5, 10, 16, 20),
         reply="done"),
    Form("deliver A B", "B takes the next message from A", "tell and deliver", refusals=(2, 10, 16, 17, 20),
         reply="delivery"),
    Form("routes R", "the Loc-RIB: the chosen routes of R", "ask", refusals=(2, 5, 20), reply="routes"),
    Form("best R P", "the route that R chose for the prefix", "ask", refusals=(2, 5, 20), reply="choice"),
    Form("why R P", "all its routes, and why each was chosen or dropped", "ask", refusals=(2, 5, 20), reply="reasons"),
    Form("in R X", "the Adj-RIB-In: what R, a router or peer, holds as received from X", "ask", refusals=(2, 10, 20),
         reply="rib", call="received"),
    Form("out R X", "the Adj-RIB-Out: what R advertises to X", "ask", refusals=(2, 5, 10, 20), reply="rib",
         call="advertised"),
    Form("queue A B", "the messages from A to B that wait, the head first", "ask", refusals=(2, 10, 20),
         reply="queue"),
    Form("quiet", "are all queues empty?", "ask", reply="quiet"),
    Form("cost R X", "the IGP cost from R to X, and the first hop", "ask", refusals=(2, 5, 20), reply="cost"),
    Form("trace R D", "the routers that a packet from R to D passes", "ask", refusals=(2, 5, 20), reply="trace"),
)

KINDS: Tuple[Kind, ...] = (
    Kind("address", "an address, four numbers of 0 to 255 as in 1.0.0.1"),
    Kind("prefix", "a prefix with no bit set behind its length, as in 10.0.0.0/8"),
    Kind("as_number", "an AS number, 1 to 4294967295", low=1, high=4294967295),
    Kind("metric", "a metric, 1 to 65535", low=1, high=65535),
    Kind("path", "a path as in 7,21 or 7_{21,22}, or - for none"),
    Kind("origin", "an origin: igp, egp or inc"),
    Kind("med", "a MED, 0 to 4294967295, or - for none", low=0, high=4294967295),
    Kind("community", "a community, one number of 0 to 4294967295", low=0, high=4294967295),
)

MATCHES: Tuple[Match, ...] = (
    Match("any", "all"),
    Match("is", "to this prefix", argument="P"),
    Match("under", "to this prefix, and to longer ones inside it", argument="P"),
    Match("path", "with the AS anywhere in the path", argument="N"),
    Match("first", "from the neighbouring AS", argument="N"),
    Match("comm", "that carry the community", argument="C"),
)

SETTINGS: Tuple[Setting, ...] = (
    Setting("pref", "the preference", low=0, high=4294967295),
    Setting("med", "the MED", low=0, high=4294967295),
    Setting("prepend", "times of the own AS, put in front", low=1, high=16),
    Setting("add", "a community, unless the route has it", low=0, high=4294967295),
)

REFUSALS: Tuple[RefusalKind, ...] = (
    RefusalKind(1, "syntax", "the line spells no command, or is too long", instead="a command of the table"),
    RefusalKind(2, "no-router", "a router or peer that is named is not there", instead="`router A N` first"),
    RefusalKind(3, "router-exists", "the address is taken", instead="another address"),
    RefusalKind(4, "same-router", "both ends are one", instead="two addresses"),
    RefusalKind(5, "bad-end", "a peer where a router is needed, or the reverse; two peers",
                instead="a router, or a peer"),
    RefusalKind(6, "virtual-inside", "a virtual peer and a router of its own AS", instead="a peer of another AS"),
    RefusalKind(7, "no-link", "the two have no link", instead="`link A B M` first"),
    RefusalKind(8, "link-exists", "the two have a link", instead="`metric A B M`, or `mend A B`"),
    RefusalKind(9, "not-linked", "the two are in different ASes and have no link", instead="`link A B M` first"),
    RefusalKind(10, "no-session", "the two have no session", instead="`join A B` first"),
    RefusalKind(11, "session-exists", "the two have a session", instead="`start A B`"),
    RefusalKind(12, "internal-only", "`client` and `self` are for internal sessions", instead="two routers of one AS"),
    RefusalKind(13, "rule-not-allowed", "a setting on an internal session; `prepend` in, `pref` out",
                instead="without it"),
    RefusalKind(14, "origin-exists", "the router originates the prefix already", instead="another prefix"),
    RefusalKind(15, "no-origin", "the router does not originate the prefix", instead="`origin A P` first"),
    RefusalKind(16, "session-down", "the session is down", instead="`start A B`, or `mend A B`"),
    RefusalKind(17, "queue-empty", "no message waits", instead="`queue A B` shows what waits"),
    RefusalKind(18, "first-as", "the fed path does not begin with the peer's AS", instead="the peer's AS first"),
    RefusalKind(19, "limit", "a limit is reached", instead="less: see the limits"),
    RefusalKind(20, "memory", "there was no memory, and nothing was done", instead="the same again"),
)

REPLIES: Tuple[ReplyForm, ...] = (
    ReplyForm("done", one_of=("ok",)),
    ReplyForm("delivery", one_of=("took P update", "took P withdraw")),
    ReplyForm("routes", each="P from SOURCE ATTR", of="route, by prefix"),
    ReplyForm("choice", one_of=("P from SOURCE ATTR", "none")),
    ReplyForm("reasons", each="SOURCE REASON", of="route, the router's own first, then by peer address"),
    ReplyForm("rib", each="P ATTR", of="route, by prefix"),
    ReplyForm("queue", each="update P ATTR|withdraw P", of="message, the head first"),
    ReplyForm("quiet", one_of=("yes", "no")),
    ReplyForm("cost", one_of=("N via A", "none")),
    ReplyForm("trace", each="ROUTER P", of="hop", last=("reached A", "noroute A", "loop A")),
    ReplyForm("refusal", one_of=("refused NUMBER NAME",)),
)

ATTRIBUTES: Tuple[Attribute, ...] = (
    Attribute("path", "AS_PATH"),
    Attribute("origin", "ORIGIN"),
    Attribute("next", "NEXT_HOP"),
    Attribute("med", "MULTI_EXIT_DISC"),
    Attribute("pref", "LOCAL_PREF, or the preference after import"),
    Attribute("oid", "ORIGINATOR_ID"),
    Attribute("clusters", "CLUSTER_LIST"),
    Attribute("comms", "COMMUNITIES, ascending", optional=True),
)

LIMITS: Tuple[Limit, ...] = (
    Limit("nodes", most=4096, of="routers and virtual peers", commands=("router", "virtual")),
    Limit("links", most=16384, of="links", commands=("link",)),
    Limit("sessions", most=256, of="sessions of a router or virtual peer", commands=("join",)),
    Limit("rules", most=256, of="rules of a policy", commands=("rule",)),
    Limit("fed_numbers", most=255, of="AS numbers of a fed path", commands=("feed",)),
    Limit("fed_communities", most=32, of="communities of a fed route; rules may add more", commands=("feed",)),
    Limit("line", most=4096, of="bytes of a line that is a command"),
)

EXCLUSIONS: Tuple[Exclusion, ...] = (
    Exclusion("loop", "its path holds the AS of the router", test="its AS_PATH holds the router's AS",
              rfc="RFC 4271, 9.1.2"),
    Exclusion("originator", "it came from this router", test="its ORIGINATOR_ID is the router's address",
              rfc="RFC 4456, 8"),
    Exclusion("cluster", "it has been in this cluster",
              test="the router reflects, and its CLUSTER_ID is in the CLUSTER_LIST", rfc="RFC 4456, 8"),
    Exclusion("denied", "the import policy denies it", test="the import policy denies it", rfc="RFC 4271, 9.1.1"),
    Exclusion("unresolved", "there is no way to its next hop", test="its NEXT_HOP is not reachable inside the AS",
              rfc="RFC 4271, 9.1.2.1"),
)

FILTERS: Tuple[Filter, ...] = (
    Filter("pref", "another has a higher preference", test="a higher preference", value="preference",
           short="preference", rfc="RFC 4271, 9.1.2"),
    Filter("length", "another has a shorter path", test="a shorter AS_PATH, where a set counts 1", value="path length",
           short="length", rfc="RFC 4271, 9.1.2.2 a"),
    Filter("origin", "another has a lower origin", test="a lower ORIGIN: igp, egp, inc", value="origin",
           short="origin", rfc="RFC 4271, 9.1.2.2 b"),
    Filter("med", "another of the same neighbouring AS has a lower MED",
           always="another has a lower MED, compared over all neighbours",
           test="a lower MED, 0 where it is missing, and the same neighbouring AS", value="MED", short="MED",
           rfc="RFC 4271, 9.1.2.2 c"),
    Filter("external", "another came from another AS", test="come from another AS, and this one has not",
           short="external", rfc="RFC 4271, 9.1.2.2 d"),
    Filter("cost", "another has a nearer next hop", test="a lower IGP cost to its next hop",
           value="cost to the next hop", short="cost", rfc="RFC 4271, 9.1.2.2 e"),
    Filter("ident", "another has a lower identifier",
           test="a lower identifier: its ORIGINATOR_ID, else the peer's address", value="identifier",
           short="identifier", rfc="RFC 4271, 9.1.2.2 f"),
    Filter("clusters", "another has passed fewer clusters", test="a shorter CLUSTER_LIST", value="clusters passed",
           short="clusters", rfc="RFC 4456, 9"),
    Filter("peer", "another has a lower peer address", test="a lower peer address", value="peer address", short="peer",
           rfc="RFC 4271, 9.1.2.2 g"),
)

WORDS: Dict[str, str] = {
    "A": "address", "B": "address", "R": "address", "V": "address", "X": "address", "D": "address", "ID": "address",
    "P": "prefix", "N": "as_number", "M": "metric", "C": "community", "PATH": "path", "ORIGIN": "origin", "MED": "med"}
ORIGIN_NAMES: Dict[str, str] = {
    "igp": "IGP", "egp": "EGP", "inc": "INCOMPLETE"}
WELL_KNOWN: Dict[int, str] = {
    4294967041: "NO_EXPORT", 4294967042: "NO_ADVERTISE", 4294967043: "NO_EXPORT_SUBCONFED"}

NODES: FrozenSet[str] = frozenset(("A", "B", "R", "V", "X"))
ORIGINS: Tuple[str, ...] = tuple(ORIGIN_NAMES)
GROUPS: Tuple[str, ...] = ("make a network", "change it", "tell and deliver", "ask")
BEST: str = "best"
CHOSEN: str = "it is chosen"
