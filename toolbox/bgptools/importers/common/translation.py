"""The script that is made of routers' configurations: what all kinds of these have in common."""
from __future__ import annotations

from typing import Dict, List, Optional, Set, Tuple

from ...program.language import address, by_address
from ...program.mistakes import Mistake
from ...program.names import mark
from . import igp_costs, origins, sessions
from .configuration import Config, Neighbour, Prefix, sets_some, short
from .network import Link, Network
from .opening import Opening
from .origins import Own
from .policy import ANY, DENY, MOST_RULES, PERMIT, Action, Match, Rules, is_, shortened, without_covered
from .regions import Place, World, shown

DEFAULT = (0, 0)
MOST_SESSIONS = 256
# Roles in which a route from the other end goes to customers alone (RFC 9234).
UPWARDS = ("customer", "peer", "rs-client")


class Translation:
    """The script that is made of all routers."""

    def __init__(self, network: Network, unsaid: str = "skip") -> None:
        self.network = network
        self.lines: List[str] = []
        self.world = self._world()
        self.world.unsaid = unsaid
        self.policies: Dict[Tuple[str, str, str], Rules[Action]] = {}
        self.owns = {name: self._owns(name) for name in network.routers}
        self.world.origins = self._origins()
        sessions.check(network, self._opening)
        self._routers()
        self._links_and_sessions()
        for name, config in network.routers.items():
            self._settings(name, config)
        self._check()
        igp_costs.check(network, {name for name, owns in self.owns.items() if owns})
        origins.tell_gateways(network)
        origins.tell_weights(network, self.owns, self.policies)

    # What each kind of configuration has of its own

    def _check(self) -> None:
        """Tells what routers of this kind do otherwise than a script says."""
        raise NotImplementedError

    def _opening(self, config: Config, each: Neighbour, is_external: bool) -> Opening:
        """What an end of a session sends first, and takes of the other one."""
        raise NotImplementedError

    def _owns(self, name: str) -> List[Own]:
        """What a router originates."""
        raise NotImplementedError

    def _policy(self, config: Config, each: Neighbour, way: str, place: Place) -> Optional[Rules[Action]]:
        """The rules of a policy; nothing where there is none."""
        raise NotImplementedError

    # The script

    def _world(self) -> World:
        network, world = self.network, World()
        for name, other in network.peers:
            if network.is_external(name, other):
                world.neighbours.setdefault(network.asn_of(name), set()).add(network.asn_of(other))
        world.fed.update(network.virtuals.values())
        world.prepending.update(config.asn or 0 for config in network.routers.values()
                                if any("prepend" in entry.settings for entries in config.maps.values()
                                       for entry in entries.values()))
        world.marking.update(self._marking())
        return world

    def _marking(self) -> Dict[int, Set[str]]:
        """Where maps of each AS set communities: on the way in or out, or inside it."""
        network = self.network
        used = [(name, way if network.is_external(name, other) else "inside", each.filters["route-map", way][0])
                for (name, other), each in network.peers.items() for way in ("in", "out")
                if ("route-map", way) in each.filters]
        used += [(name, "inside", origin.map) for name, config in network.routers.items() for origin in config.origins]
        found: Dict[int, Set[str]] = {}
        for name, way, map_name in used:
            if sets_some(network.routers[name], map_name):
                found.setdefault(network.asn_of(name), set()).add(way)
        return found

    def _origins(self) -> Dict[int, Set[Prefix]]:
        """The prefixes that routers of each AS originate, a default route that they tell among them."""
        found: Dict[int, Set[Prefix]] = {}
        for name, owns in self.owns.items():
            told = [DEFAULT for _, each in self.network.peers_of(name) if _tells(each)]
            found.setdefault(self.network.asn_of(name), set()).update([own.where for own in owns] + told)
        return found

    def _routers(self) -> None:
        for name in sorted(self.network.routers, key=by_address):
            config = self.network.routers[name]
            self.lines.append("router %s %d" % (name, config.asn or 0))
            self.lines += [mark(name, config.hostname)] if config.hostname and address(config.hostname) is None else []

    def _links_and_sessions(self) -> None:
        network = self.network
        links = sorted(network.links.values(), key=lambda link: [by_address(each)
            for each in ((link.other, link.one) if link.other in network.virtuals else (link.one, link.other))])
        links.sort(key=lambda link: link.other in network.virtuals)
        made: List[str] = []
        for link in links:
            if link.other in network.virtuals and link.other not in made:
                made.append(link.other)
                self.lines.append("virtual %s %d" % (link.other, network.virtuals[link.other]))
            self._link(link)
        for one, other in sessions.pairs(network):
            self.lines.append("join %s %s" % (one, other))
            self.lines += ["stop %s %s" % (one, other)] if frozenset((one, other)) in network.stopped else []

    def _link(self, link: Link) -> None:
        self.lines.append("link %s %s %d" % (link.one, link.other, link.here.cost))
        self.lines += ["fail %s %s" % (link.one, link.other)] if link.is_down else []

    # Settings of a router

    def _settings(self, name: str, config: Config) -> None:
        """What a router says of itself and of its neighbours; raises Mistake where they are too many."""
        how_many = len(self.network.peers_of(name))
        if how_many > MOST_SESSIONS:
            raise Mistake("it has %d sessions, and a router has at most %d" % (how_many, MOST_SESSIONS), config.name)
        self.lines += ["cluster %s %s" % (name, config.cluster)] if config.cluster else []
        self.lines += ["med %s always" % name] if config.is_on("bgp always-compare-med") else []
        for other, each in self.network.peers_of(name):
            self._peer(name, config, other, each)
        self.lines += ["origin %s %s" % (name, shown(own.where)) for own in self.owns[name]]
        if self._tells_default(name) and DEFAULT not in [own.where for own in self.owns[name]]:
            self.lines.append("origin %s 0.0.0.0/0" % name)

    def _peer(self, name: str, config: Config, other: str, each: Neighbour) -> None:
        is_external = self.network.is_external(name, other)
        for flag, word in (("route-reflector-client", "client"), ("next-hop-self", "self")):
            if each.has(flag) and not is_external:
                self.lines.append("%s %s %s on" % (word, name, other))
            elif each.has(flag) and word == "client":
                config.tell(each.at(flag), "%s: it is in another AS, and no client, in FRR neither" %
                            short(each.at(flag).text), False)
        line = each.at("send-community")
        is_sent = each.flags.get("send-community", (True, line))[0]
        places = {way: Place(config.asn or 0, self.network.asn_of(other), way, is_sent) for way in ("in", "out")}
        if not is_sent and not self.world.is_bare(places["out"]):
            config.tell(line, "%s: FRR tells routes to it without their communities; here they keep them" %
                        short(line.text))
        for way, place in places.items():
            rules = self._policy(config, each, way, place)
            rules = self._with_front(name, config, other, each, rules) if way == "out" else rules
            if rules is not None:
                self._rules(name, config, other, each, way, shortened(without_covered(rules)))

    def _rules(self, name: str, config: Config, other: str, each: Neighbour, way: str, rules: Rules[Action]) -> None:
        """Writes a policy; raises Mistake where it has too many rules."""
        if len(rules) > MOST_RULES:
            used = [(kind, *found) for (kind, at), found in each.filters.items() if at == way]
            named = " and ".join("%s %s" % (kind, wanted) for kind, wanted, _ in used) or "the policy"
            line = used[0][2] if used else each.line
            raise Mistake("%s takes %d rules on the way %s, and a policy has at most %d; make its lists shorter" % (
                named, len(rules), way, MOST_RULES), line.file, line.number)
        self.policies[name, other, way] = rules
        self.lines += ["rule %s %s %s %s %s" % (name, other, way, match, action) for match, action in rules]

    def _with_front(self, name: str, config: Config, other: str, each: Neighbour,
                    rules: Optional[Rules[Action]]) -> Optional[Rules[Action]]:
        """The rules on the way out behind those that a default route and a role ask for."""
        front: Rules[Action] = []
        if self._tells_default(name) and DEFAULT not in [own.where for own in self.owns[name]]:
            front.append((is_(DEFAULT), PERMIT if _tells(each) else DENY))
        elif _tells(each):
            front.append((is_(DEFAULT), PERMIT))
        front += [(Match("first", asn), DENY) for asn in self._from_above(config, name, other, each)]
        front += [(is_(where), DENY) for where in origins.own_next_hops(self.network, self.owns, name, other)]
        return front + (rules or [(ANY, PERMIT)]) if front else rules

    def _tells_default(self, name: str) -> bool:
        """Whether the router tells a default route to a neighbour; the first time it is told what that is here."""
        config, telling = self.network.routers[name], [each for _, each in self.network.peers_of(name)
                                                       if each.has("default-originate")]
        for each in telling:
            line = each.at("default-originate")
            if each.word("default-map"):
                config.tell(line, "%s: FRR tells the default route while the route-map permits some route; here it is "
                            "not told. Write `origin %s 0.0.0.0/0` with rules" % (short(line.text), name))
            else:
                config.tell(line, "%s: FRR tells the default route without having it; here %s originates it, has it "
                            "in its own table, and tells it to no other" % (short(line.text), name))
        return any(_tells(each) for each in telling)

    def _from_above(self, config: Config, name: str, other: str, each: Neighbour) -> List[int]:
        """The ASes whose routes do not go to this neighbour, by the roles of the sessions of this AS."""
        network = self.network
        if each.word("local-role").split(" ")[0] not in UPWARDS or not network.is_external(name, other):
            return []
        roles: Dict[int, Set[str]] = {}
        for (one, there), said in network.peers.items():
            if one in network.routers and network.routers[one].asn == config.asn and network.is_external(one, there):
                roles.setdefault(network.asn_of(there), set()).add(said.word("local-role").split(" ")[0])
        unknown = sorted(asn for asn, found in roles.items() if found != {"provider"} and not found <= set(UPWARDS))
        if unknown:
            config.tell(each.at("local-role"), "%s: routes of AS %d, towards which not all sessions have a role, may "
                        "be marked for customers alone in FRR, and are told here" % (
                short(each.at("local-role").text), unknown[0]))
        return sorted(asn for asn, found in roles.items() if found and found <= set(UPWARDS))


def _tells(each: Neighbour) -> bool:
    return each.has("default-originate") and not each.word("default-map")
