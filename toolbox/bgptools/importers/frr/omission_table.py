"""FRR's commands that are not taken over: those that decide no route, by what they are about, and what comes of
leaving out the others."""
from __future__ import annotations

import re
from typing import List, Pattern, Tuple

from ..common.omission_table import COUNTED, TOLD, table

# Lines that decide no route: what they are counted as.
COUNTED.update({
    "top": table(
        ("frr (version|defaults)", "versions"), ("hostname|domainname|banner|username", "names"),
        ("log|debug|dump|agentx", "logs"),
        ("service|zebra|fpm|mpls label|ip ssh|allow-external-route-update", "services"),
        ("password|enable|line", "passwords"), ("ipv6", "IPv6"),
        ("ip multicast", "multicast"), ("ip forwarding", "forwarding"),
        (r"ip prefix-list \S+ description|access-list \S+ remark|route-map \S+ optimization|ip prefix-list "
         r"sequence-number", "descriptions"),
        ("key chain|router-id|ip router-id|bgp community alias", "names")),
    "interface": table(
        ("description", "descriptions"), ("ipv6", "IPv6"), ("bfd|ip ospf bfd|isis bfd", "bfd"),
        ("(ip )?(pim|igmp|multicast|mroute)|multicast|ip pim", "multicast"),
        (r"(ip )?ospf (retransmit-interval|transmit-delay|prefix-suppression)", "timers"),
        (r"ip ospf (mtu-ignore|passive)", "OSPF settings"),
        (r"isis (hello-\S+|csnp-interval|psnp-interval|passive|priority|"
         r"fast-reroute)|ipv6 router isis", "IS-IS settings"),
        ("mpls|link-params|evpn|link-detect|mtu|ip nhrp", "settings of links")),
    "bgp": table(
        ("bgp (keepalive|update-delay|coalesce-time|route-map "
         "delay-timer|conditional-advertisement|nexthop-trigger)|update-delay|"
         "coalesce-time|write-quanta|read-quanta", "timers"),
        ("bgp (graceful-restart|long-lived-graceful-restart|hard-administrative-reset|fast-convergence|"
         "suppress-fib-pending|suppress-duplicates)", "restarts"),
        ("bgp (log-neighbor-changes|default show-hostname|default show-nexthop-hostname)", "logs"),
        (r"bgp default (ipv6|l2vpn|ipv4-(multicast|vpn|flowspec|labeled))\S*", "other families"),
        ("bgp (send-extra-data|session-dscp|retain|no-rib|default subgroup-pkt-queue-max|allow-martian-nexthop|listen "
         "limit|tcp-keepalive|input-queue-limit|output-queue-limit)|"
         "sid|srv6|import-vpn|rd|rt|label|nexthop vpn|advertise-all-vni|advertise|vni|mpls "
         "bgp|segment-routing|locator", "other families"),
        ("bgp (bestpath compare-routerid|deterministic-med|fast-external-failover|client-to-client "
         "reflection|enforce-first-as|bestpath peer-type|network import-check)",
         "what holds here always")),
    "neighbour": table(
        ("timers (connect|delayopen)|advertisement-interval|shutdown rtt", "timers"), ("bfd", "bfd"),
        ("description", "descriptions"), ("graceful-restart|graceful-restart-helper|graceful-restart-disable", "restarts"),
        ("soft-reconfiguration|send-community|solo|strict-capability-match|override-capability|"
         "dont-capability-negotiate|capability(?! orf)|disable-link-bw-encoding-ieee|extended-optional-parameters|"
         "disable-addpath-rx|tcp-mss|enforce-first-as|sender-as-path-loop-detection|extended-link-bandwidth",
         "how sessions are carried")),
    "ospf": table(
        ("timers|refresh", "timers"), ("log-adjacency-changes|log", "logs"),
        ("ospf (abr-type|rfc1583compatibility|opaque-lsa|write-multiplier|send-extra-data)|capability|"
         "compatible|maximum-paths|graceful-restart|mpls-te|router-info|segment-routing|bfd|distance|"
         "default-information|default-metric|proactive-arp|"
         r"area \S+ default-cost|fast-reroute|write-multiplier|summary-address|aggregation",
         "OSPF settings")),
    "isis": table(("log-adjacency-changes|lsp-\\S+|spf-\\S+|hostname|purge-originator|timers|set-\\S+|max-lsp|topology|"
                   "mpls|segment-routing|"
                    "attached-bit|fast-reroute|dynamic-hostname|default-information|advertise", "IS-IS settings")),
    "map": table(
        ("description", "descriptions"),
        ("set (tag|ipv6|vpn|l3vpn|evpn|label-index|aggregator|atomic-aggregate|table|sr-te|src|vpnv4|vpnv6|"
         "metric-type|forwarding-address)", "other families")),
})

_ONE_WAY = "one route is chosen and packets go one way here"
_FOR_WORST = "For a neighbour that sends no MED, write `med=4294967295` in its rules on the way in"
_OTHER_KINDS = "there are no large and no extended communities here"

# Lines that may decide a route: what comes of leaving them out.
TOLD.update({
    "top": table(
        ("ip protocol", "it keeps routes of BGP out of FRR's table of routes, or changes their source address; here "
         "all are used"),
        ("ip nht", "FRR then takes the default route for a way to a next hop; here the links lead there"),
        ("ip import-table", "routes of another table are in FRR's, and not here"),
        ("(bgp|ip) (large-|ext)community-list", _OTHER_KINDS),
        ("(bgp|ip) community-list", "FRR's lists are `standard` with communities or `expanded` with an expression; "
         "this is no entry of either, and is left out"),
        ("maximum-paths", _ONE_WAY)),
    "interface": table(
        ("bandwidth", "FRR reckons the OSPF cost from it; here the cost is 10 where no `ip ospf cost` stands"),
        (r"ip (rip|eigrp|router eigrp|router openfabric)|openfabric|eigrp",
         "interior costs are those of OSPF and IS-IS alone"),
        ("vrf", "FRR's interface is of a VRF; give `interface NAME vrf VRF`, so that it is left out"),
        ("pbr-policy", "packets follow the policy in FRR, and routes alone here")),
    "bgp": table(
        ("bgp bestpath med (confed missing-as-worst|missing-as-worst confed)", "FRR takes a missing MED for the "
         "highest, and compares MED inside a confederation; here a missing one is 0, and there are no confederations. "
         + _FOR_WORST),
        ("bgp bestpath med missing-as-worst", "FRR takes a missing MED for the highest; here a missing one is 0. "
         + _FOR_WORST),
        ("bgp bestpath med confed", "FRR compares MED between routes that come from inside its confederation; there "
         "are no confederations here"),
        ("bgp bestpath as-path (ignore|confed)", "FRR takes no path for shorter, or counts confederations; here the "
         "shorter path wins"),
        ("bgp bestpath (as-path multipath-relax|bandwidth|prefix-validate)|maximum-paths", _ONE_WAY),
        ("bgp default local-preference", "routes to which no policy gives a preference, and the router's own, have "
         "that one in FRR, and 100 here"),
        ("bgp confederation", "there are no confederations here: paths, and what is told to whom, differ from FRR's"),
        ("bgp dampening", "FRR keeps a route back that comes and goes; here it is used at once"),
        ("bgp graceful-shutdown", "FRR's neighbours give its routes preference 0; here they keep theirs. To drain it, "
         "write a policy"),
        ("bgp max-med", "FRR tells its routes with the highest MED; here the MED is what the policy sets"),
        ("bgp reject-as-sets", "FRR denies routes with a set in their path; here they are taken"),
        ("bgp route-reflector allow-outbound-policy", "FRR applies what a policy sets to reflected routes; here a "
         "rule of an internal session sets nothing"),
        ("bgp listen range", "FRR takes sessions of any neighbour in the range; here they are not made. Write a "
         "`neighbor` for each"),
        ("bgp rpki|rpki", "FRR knows which routes are valid; here all are alike"),
        ("aggregate-address", "FRR originates the aggregate while it has a part of it, and may keep the parts back; "
         "here it is not originated. Write `origin ROUTER PREFIX`"),
        ("import vrf|import vpn|export vpn|vrf-policy|redistribute vnc|vnc",
         "routes come from a VRF, or go to one, in FRR; here there are none"),
        ("table-map", "FRR's table of routes is not BGP's then; here packets follow the chosen routes"),
        ("distance", "FRR may use another protocol's route in place of BGP's; here packets follow the chosen routes"),
        ("bgp conditional-disaggregation|bgp bestpath", "FRR chooses by it; here the choice is that of RFC 4271"),
        ("no bgp client-to-client reflection", "FRR reflects no client's route to other clients; here a "
         "reflector does"),
        ("no bgp fast-external-failover", "FRR keeps the session until its hold time ends when its link goes down; "
         "here it goes down at once"),
        ("no bgp enforce-first-as", "FRR takes a path that does not begin with its neighbour's AS; here no "
         "such path is fed")),
    "neighbour": table(
        ("weight", "FRR prefers this neighbour's routes by weight before all else; here the preference decides first"),
        ("allowas-in", "FRR takes routes with its own AS in their path; here they are dropped as a loop"),
        ("as-override", "FRR writes its own AS over the neighbour's in the path; here the path stays, and the "
         "neighbour drops it as a loop"),
        ("remove-private-AS", "FRR takes private AS numbers out of the path; here the path stays"),
        ("local-as", "FRR speaks for another AS to this neighbour, and puts it in the path; here the AS is that of "
         "`router bgp`"),
        ("attribute-unchanged", "FRR leaves path, next hop or MED as they came; here the router puts its own AS in "
         "front and itself as next hop"),
        ("route-server-client", "FRR puts neither its AS in the path nor itself as next hop; here a router does both"),
        ("advertise-map", "FRR tells the routes only while others are there, or are not; here always"),
        ("unsuppress-map", "FRR tells parts of an aggregate to this neighbour; here no part is kept back from any"),
        ("maximum-prefix-out", "FRR tells no more prefixes than that; here all are told"),
        ("maximum-prefix", "FRR ends the session when more prefixes come; here all are taken. For what FRR does "
         "then, write `stop ROUTER NEIGHBOUR` with both addresses as the script has them"),
        ("addpath-tx-all-paths|addpath-tx-bestpath-per-AS", "FRR tells several routes a prefix; here one is told, "
         "the chosen one"),
        ("capability orf", "FRR's neighbour does not tell what the prefix list here denies; here it tells all, and the list "
         "denies it on the way in"),
        ("soo", "FRR does not tell routes back to where they come from by this mark; here there is none"),
        ("port", "FRR's session is to another port than 179, which must be that of the other end; here every "
         "session comes up")),
    "ospf": table(
        ("auto-cost", "FRR reckons the costs of interfaces without `ip ospf cost` from it; here they are 10"),
        ("max-metric", "OSPF leads around this router in FRR; here its links keep their costs"),
        (r"area \S+ (range|filter-list|export-list|import-list|stub|nssa|virtual-link|shortcut)",
         "areas are one here: all routers of an AS know all costs"),
        ("redistribute|distribute-list", "OSPF knows routes by it that have no cost here")),
    "isis": table(
        ("is-type level-1(-2)?", "levels are one here: all routers of an AS know all costs"),
        ("redistribute|summary-address|overload-bit|advertise-passive-only",
         "IS-IS knows ways by it, or avoids some; here the links and their costs alone count")),
    "map": table(
        ("match community", "a match is of one list, with `exact-match` or `any` behind it"),
        ("(match|set) (large-community|extcommunity)|set (large|extended)-comm-list", _OTHER_KINDS),
        ("match alias", "communities have no other names here; match a community list"),
        (r"match (metric|local-preference|origin|tag|peer|interface|source-\S+|probability|rpki|ip next-hop|ip "
         r"route-source|ip address prefix-len|ip6?|ipv6|evpn|rmap|weight|set|aspath|as-path)",
         "rules match by prefix, by an AS in the path, by the neighbouring AS and by a community; write one of these "
         "matches, as `match ip address prefix-list`"),
        ("call", "a rule calls no other policy"), ("on-match|continue", "the first rule that matches decides"),
        ("set ip next-hop", "the next hop is what the session gives"),
        ("set (origin|originator-id|distance|as-path (exclude|replace))",
         "a rule sets preference, MED and prepending, and adds one community; nothing else"),
        (r"set (local-preference|metric) ([+-]\S+|\S*rtt|igp|aigp)", "a rule sets a number, and none that is reckoned "
         "from the route's; write the number that comes of it"),
        ("set (local-preference|metric)", "a number from 0 to 4294967295 is expected; write one")),
})

# Blocks that are no part of the default instance, of IPv4 unicast or of OSPF: what is told of them, or nothing where
# they decide no route.
BLOCKS: List[Tuple[Pattern[str], str, str]] = [(re.compile(pattern), category, said) for pattern, category, said in (
    (r"interface \S+ vrf ", "", "it is of a VRF, and no part of the default instance"),
    (r"router bgp \S+ (vrf|view) ", "", "it is of a VRF or a view, and no part of the default instance"),
    (r"router \S+( \S+)* vrf ", "", "it is of a VRF, and no part of the default instance"),
    (r"router bgp( |$)", "", "a router is of one AS, that of its first `router bgp`"),
    (r"vrf ", "VRFs", "there are no VRFs here"),
    (r"router (ospf6|ripng)( |$)", "IPv6", ""), (r"router pim", "multicast", ""),
    (r"router ", "", "interior costs are those of OSPF and IS-IS alone"),
    (r"address-family ipv4 labeled-unicast", "", "FRR has these routes in its table of IPv4 unicast, too; here "
     "they are not"),
    (r"address-family ipv6( (unicast|multicast|vpn|labeled-unicast|flowspec|encap))?$", "IPv6", ""),
    (r"address-family (ipv4 (multicast|vpn|flowspec|encap)|(vpnv[46]|l2vpn evpn|encap|evpn)( \S+)?)$",
     "other families", ""),
    (r"bfd", "bfd", ""), (r"line |key chain", "passwords", ""), (r"rpki", "rpki", ""),
    (r"pbr-map|nexthop-group|segment-routing|mpls|l2vpn", "other forwarding", ""),
    (r"", "", "from-frr does not know what stands here"))]


def about_block(head: str) -> Tuple[str, str]:
    """What a block that is not taken over is counted as, or else what is told of it."""
    return next((counted, said) for pattern, counted, said in BLOCKS if pattern.match(head))
