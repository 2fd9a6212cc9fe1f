"""BIRD's settings that are not taken over: those that decide no route, by what they are about, and what comes of
leaving out the others."""
from __future__ import annotations

from ..common.omission_table import COUNTED, TOLD, table

_SESSIONS = "how sessions are carried"
_ONE_WAY = "one route is chosen and packets go one way here"

COUNTED.update({
    "bird": table(
        ("log|debug|mrtdump|watchdog|cli|threads", "logs"), ("timeformat", "logs"), ("hostname", "names"),
        ("graceful restart", "restarts"),
        ("roa[46] table|ipv6( sadr)? table|vpn[46] table|flow[46] table|mpls table|eth table",
                                           "other families"), ("ipv4 table|table", "tables"),
        ("protocol device", "interfaces"), ("protocol (bfd|radv|rpki|mrt|perf)", "other protocols"),
        ("attribute", "attributes"), ("eval", "logs")),
    "bird bgp": table(
        ("description", "descriptions"), ("bfd", "bfd"), ("debug|mrtdump", "logs"), ("vrf default", "VRFs"),
        ("startup hold time|connect delay time|connect retry time|error wait time|error forget time|disable after "
         "error|disable after cease|send hold time",
         "timers"),
        ("graceful restart time|long lived graceful restart|long lived stale time", "restarts"),
        ("hostname|tx size warning", "names"),
        ("ipv6|vpn4|vpn6|flow4|flow6|mpls|evpn|ipv4 multicast|ipv6 multicast", "other families"),
        ("setkey|strict bind|check link|free bind|interface|dynamic name|dynamic name digits|enforce first as|"
         "allow local pref|allow bgp_local_pref|allow bgp_med|prefix limit action|require long lived graceful restart|"
         "authentication", _SESSIONS), ("tx class|tx priority", _SESSIONS)),
    "bird channel": table(
        ("table master4|import keep filtered|import table|export table|debug|rpki reload|receive limit|import keep|"
         "validate|base table|trusted|settle time|route refresh settle time", _SESSIONS),
        ("graceful restart|long lived graceful restart|long lived stale time", "restarts"),
        ("secondary", _SESSIONS), ("gateway direct|gateway recursive|link local next hop format|next hop "
                                   "prefer|mandatory|extended next hop|require extended next hop", "next hops")),
    "bird static": table(
        ("check link|igp table|disabled|description|debug|mrtdump|vrf|preference|igp_metric|gateway recursive",
         "settings of other protocols")),
    "bird direct": table(
        ("disabled|description|debug|mrtdump|vrf|check link|preference", "settings of other protocols")),
    "bird kernel": table(
        ("learn|persist|scan time|ipv4|ipv6|kernel table|metric|graceful restart|merge paths|device routes|netlink rx "
         "buffer|disabled|description|debug|mrtdump|vrf|preference", "settings of other protocols")),
    "bird ospf channel": table(
        ("table|preference|debug|import keep filtered", "OSPF settings")),
    "bird ospf": table(
        ("ipv4|ipv6|tick|graceful restart|graceful restart aware|graceful restart time|debug|mrtdump|"
         "description|vrf default|disabled", "OSPF settings")),
    "bird interface": table(
        ("poll|retransmit|wait|transmit delay|strict nonbroadcast|ptp netmask|ptp address|check link|bfd|ecmp weight|"
         "tx class|tx priority|tx length|rx buffer|secondary|eligible|link lsa suppression",
         "OSPF settings")),
})

TOLD.update({
    "bird": table(
        ("protocol (rip|babel|l3vpn|aggregator|isis)", "interior costs are those of OSPF alone, and no route comes of "
         "it here"),
        ("protocol pipe", "routes go from one table to another by it; here there is one table"),
        ("protocol kernel", "what the kernel has is in no file; routes that BIRD learns from it are not here"),
        ("router id", "a router is named by `router id ADDRESS`; BIRD takes this one from its interfaces")),
    "bird bgp": table(
        ("neighbor range", "BIRD takes sessions of any neighbour in the range; here they are not made. Write a "
         "protocol for each"),
        ("confederation", "there are no confederations here: paths, and what is told to whom, differ from BIRD's"),
        ("rs client", "BIRD puts neither its AS in the path nor itself as next hop; here a router does both"),
        ("allow local as", "BIRD takes routes with its own AS in their path; here they are dropped as a loop"),
        ("allow as sets", "BIRD takes or denies paths with sets by it; here they are taken"),
        ("path metric", "BIRD does not compare the lengths of paths then; here the shorter path wins"),
        ("igp metric", "BIRD does not compare costs to next hops then; here the lower one wins"),
        ("prefer older", "BIRD keeps the older of two routes that are alike; here the lower identifier wins"),
        ("default bgp_med", "BIRD takes a missing MED for that; here a missing one is 0"),
        ("default bgp_local_pref", "BIRD gives it to routes that come without a preference"),
        ("interpret communities", "BIRD then does not heed no-export and no-advertise; here they are heeded"),
        ("vrf", "the session is of a VRF, and no part of the default instance"),
        ("disable rx|multihop", "from-bird does not know this form")),
    "bird channel": table(
        ("table", "the session's routes are in another table than `master4`; here a router has one table"),
        ("import limit|export limit|receive limit", "BIRD ends the session, or blocks routes, when more come; here all "
         "are taken"),
        ("preference", "BIRD prefers by it before all else; here the preference of BGP decides first"),
        ("next hop keep", "BIRD leaves the next hop as it came; here the session gives it"),
        ("next hop address", "BIRD tells this next hop; here a router tells itself"),
        ("next hop self ibgp", "BIRD puts itself as next hop of routes from inside its AS alone; here of none"),
        ("missing lladdr|aigp|cost|igp table", "BIRD reckons costs to next hops by it; here the costs of links count"),
        ("add paths", "BIRD tells or takes several routes a prefix; here one is told, the chosen one")),
    "bird ospf": table(
        ("ecmp|merge external", _ONE_WAY),
        ("rfc1583compat|stub router", "BIRD's OSPF leads other ways by it; here the links keep their costs")),
    "bird area": table(
        ("stub|nssa|summary|default cost|default cost2|default nssa|translator|networks|external|virtual link",
         "areas are one here: all routers of an AS know all costs")),
})
