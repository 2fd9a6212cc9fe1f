"""C-BGP's commands that are not taken over: those that decide no route, by what they are about, and what comes of
leaving out the others."""
from __future__ import annotations

from typing import Dict

SHOWS, CHECKS, LOGS, PLACES = "shows", "checks", "logs and options", "places on a map"
# What each line is counted as that begins so: it decides no route.
COUNTED: Dict[str, Dict[str, str]] = {
    "top": {"print": SHOWS, "show": SHOWS, "set": LOGS, "time": SHOWS, "pause": SHOWS, "define": LOGS,
            "require": CHECKS, "chdir": LOGS, "cd": LOGS, "pwd": SHOWS, "ls": SHOWS},
    "net": {"show": SHOWS, "export": SHOWS, "measure": SHOWS, "links": SHOWS},
    "node": {"ping": SHOWS, "traceroute": SHOWS, "record-route": SHOWS, "show": SHOWS, "coord": PLACES,
             "latitude": PLACES, "longitude": PLACES, "export": SHOWS},
    "link": {"show": SHOWS, "capacity": "capacities", "bandwidth": "capacities", "delay": "delays"},
    "domain": {"show": SHOWS, "check-deflection": CHECKS},
    "bgp": {"show": SHOWS, "assert": CHECKS},
    "as": {"show": SHOWS, "record-route": SHOWS},
    "options": {"show-mode": LOGS, "msg-monitor": LOGS, "auto-create": LOGS, "show": SHOWS},
    "router": {"show": SHOWS, "assert": CHECKS, "debug": SHOWS, "record-route": SHOWS, "save": SHOWS, "rerun": LOGS,
               "start": LOGS},
    "peer": {"show": SHOWS, "record": LOGS, "walton-limit": LOGS, "rescan": LOGS,
             "update-source": "sources of sessions", "source": "sources of sessions", "softrestart": LOGS,
             "soft-restart": LOGS},
    "filter": {"show": SHOWS}, "map": {"show": SHOWS}, "rule": {"show": SHOWS},
    "sim": {"options": LOGS, "debug": LOGS, "event": SHOWS, "queue": SHOWS, "show": SHOWS},
}
# What comes of leaving these out.
TOLD: Dict[str, Dict[str, str]] = {
    "net": {"ntf": "the links of the file are not read; give them as `net add link`",
            "traffic": "there is no load of links"},
    "node": {"tunnel": "there are no tunnels; packets follow the chosen routes",
             "ipip-enable": "there are no tunnels; packets follow the chosen routes",
             "iface": "a router has one address; links are of `net add link`",
             "add": "a router has one address; links are of `net add link`",
             "traffic": "there is no load of links"},
    "bgp": {"topology": "its file is not read; `from-as-rel` reads AS relationships",
            "cluster": "its setting is left out"},
    "options": {"walton-limit": "one route is told to a peer", "walton-convergence": "one route is told to a peer",
                "nlri": "routes are of prefixes"},
    "router": {"load": "the table is not read; `from-rib` reads one",
               "stop": "the router goes on; write `stop ROUTER PEER` for its sessions"},
    "peer": {"next-hop": "the next hop is the session's, or the router with `next-hop-self`"},
    "sim": {"stop": "deliveries go on until all queues are empty",
            "step": "deliveries go on until all queues are empty", "clear": "messages that wait are delivered"},
}
