"""BIRD configurations as a script: the files that have them, their network, and its translation."""
from __future__ import annotations

import os
import re
from typing import Dict, List, Optional, Set, Tuple, cast

from ...program.language import address
from ...program.mistakes import Mistake
from ...program.names import MOST_BYTES, fits, mark
from ..common.configuration import Config, Neighbour, Origin, Prefix, Told, short
from ..common.network import Network
from ..common.opening import Opening
from ..common.origins import Own, is_active
from ..common.policy import ANY, DENY, PERMIT, Action, Rules, covers, is_
from ..common.regions import Place, World
from ..common.translation import Translation
from . import adjacencies, checks, links, reader
from .configuration import BirdConfig, OwnRoute, Session
from .files import files_of, name_of
from .filters import nodes_in
from .rules import Evaluation

NAME = re.compile("[!-~]+")


class BirdTranslation(Translation):
    """The script that is made of all routers."""

    def __init__(self, network: Network, unsaid: str = "skip") -> None:
        self.decided: Dict[Tuple[str, str], Dict[Prefix, Action]] = {}
        checks.stop(network)
        super().__init__(network, unsaid)

    def _world(self) -> World:
        world = super()._world()
        # Whether a filter prepends is not looked up for each of its ways.
        world.prepending.update(config.asn or 0 for config in self.network.routers.values()
                                if _prepends(cast(BirdConfig, config)))
        return world

    def _routers(self) -> None:
        super()._routers()
        taken = [config.hostname for config in self.network.routers.values()]
        said = [(other, cast(Session, each).protocol) for (_, other), each in self.network.peers.items()
                if other in self.network.virtuals]
        names = [protocol for _, protocol in said]
        self.virtual_names = {other: protocol for other, protocol in said
                              if names.count(protocol) == 1 and protocol not in taken and address(protocol) is None
                              and fits(protocol)}

    def _links_and_sessions(self) -> None:
        begin = len(self.lines)
        super()._links_and_sessions()
        made: List[str] = []
        for line in self.lines[begin:]:
            words = line.split(" ")
            made.append(line)
            if words[0] == "virtual" and words[1] in self.virtual_names:
                made.append(mark(words[1], self.virtual_names[words[1]]))
        self.lines[begin:] = made

    def _check(self) -> None:
        checks.check(self.network)
        for config in self.network.routers.values():
            checks.tell_unknown(cast(BirdConfig, config))

    def _opening(self, config: Config, each: Neighbour, is_external: bool) -> Opening:
        """What an end of a session sends first, and takes of the other one."""
        return adjacencies.opening(cast(BirdConfig, config), each, is_external)

    # Policies

    def _evaluation(self, config: Config, each: Neighbour, way: str, place: Place,
                    own: Optional[OwnRoute] = None) -> Optional[Rules[Action]]:
        """The rules of a session's policy; nothing where it has none."""
        bird, session = cast(BirdConfig, config), cast(Session, each)
        policy = session.policies.get(way)
        if policy is None:
            return None
        return Evaluation(bird, session, place, self.world, self._count_of(place.asn), own).rules(policy)

    def _count_of(self, asn: int) -> "CountOf":
        return CountOf(self.network, asn)

    def _policy(self, config: Config, each: Neighbour, way: str, place: Place) -> Optional[Rules[Action]]:
        rules = self._evaluation(config, each, way, place)
        if rules is None:
            if place.is_external:
                checks.tell_policy(cast(BirdConfig, config), cast(Session, each), way)
            rules = [(ANY, DENY)] if place.is_external or way == "out" else [(ANY, PERMIT)]
        if way == "in":
            return _without_all(rules)
        name, other = self._ends(config, each)
        front = [(is_(where), action) for where, action in self.decided.get((name, other), {}).items()
                 if _first(rules, where) != action]
        return _without_all(front + rules)

    def _ends(self, config: Config, each: Neighbour) -> Tuple[str, str]:
        return next(ends for ends, said in self.network.peers.items()
                    if said is each and self.network.routers[ends[0]] is config)

    # Own routes

    def _owns(self, name: str) -> List[Own]:
        """The routes that are not of BGP and that some session's policy lets out."""
        config = cast(BirdConfig, self.network.routers[name])
        found: Dict[Prefix, Own] = {}
        for route in config.routes:
            if route.where not in found and self._is_there(name, config, route):
                out = [other for other, each in self.network.peers_of(name) if self._lets_out(name, other, each, route)]
                if out:
                    found[route.where] = Own(route.where, route.line, True)
        kept = [(static.where, static) for static in config.statics if static.where in found]
        if kept:
            config.origins.append(Origin("static", kept[0][1].line))
        self._tell_learned(name, config)
        for (one, other), decided in self.decided.items():
            if one == name:
                self.decided[one, other] = {where: action for where, action in decided.items() if where in found}
        return list(found.values())

    def _is_there(self, name: str, config: BirdConfig, route: OwnRoute) -> bool:
        """Whether BIRD uses a static route; where no file shows its gateway it is taken for one."""
        static = next((each for each in config.statics if each.line is route.line), None)
        if static is None or is_active(self.network, name, static):
            return True
        if address(static.way) is not None and config.subnet_of(static.way) is None:
            config.tell(route.line, "%s: no file shows the subnet of its gateway; it is taken for there" % short(
                route.line.text), False)
            return True
        config.tell(route.line, "%s: its interface is down, so that BIRD does not use it, and neither is it here" %
                    short(route.line.text), False)
        return False

    def _lets_out(self, name: str, other: str, each: Neighbour, route: OwnRoute) -> bool:
        network = self.network
        config = network.routers[name]
        place = Place(config.asn or 0, network.asn_of(other), "out")
        rules = self._evaluation(config, each, "out", place, route)
        action = rules[0][1] if rules else DENY
        self.decided.setdefault((name, other), {}).setdefault(route.where, action)
        return action.is_permit

    def _tell_learned(self, name: str, config: BirdConfig) -> None:
        """What OSPF brings, where a policy lets it out: it is not originated here."""
        if not config.has_ospf:
            return
        asn = config.asn
        subnets = sorted({each.subnet for there in self.network.routers.values() if there.asn == asn
                          for interface in there.interfaces.values() if interface.interior
                          for each in interface.addresses if not each.opposite})
        for other, each in self.network.peers_of(name):
            let = [where for where in subnets if _is_let(self, name, other, each, where)]
            policy = cast(Session, each).policies.get("out")
            if let and policy is not None:
                config.tell(policy.line, "%s: BIRD tells %s its routes of OSPF, as %s; here they are not originated. "
                            "Write `origin %s P` for each that is meant" % (short(policy.line.text), other,
                                                                     checks.some_prefixes(let), name))


class CountOf:
    """How many sessions an AS has with another one."""

    def __init__(self, network: Network, asn: int) -> None:
        self.network, self.asn = network, asn

    def __call__(self, other: int) -> int:
        return len([1 for name, there in self.network.peers if self.network.asn_of(name) == self.asn
                    and self.network.asn_of(there) == other])


def _prepends(config: BirdConfig) -> bool:
    """Whether some filter or function puts the AS into paths."""
    bodies = [*config.filters.values(), *(each.body for each in config.functions.values()),
              *(policy.statements for each in config.sessions() for policy in each.policies.values())]
    return any("prepend" in node.of for body in bodies for node in nodes_in(body))


def _is_let(translation: BirdTranslation, name: str, other: str, each: Neighbour, where: Prefix) -> bool:
    config = translation.network.routers[name]
    place = Place(config.asn or 0, translation.network.asn_of(other), "out")
    route = OwnRoute(where, each.line, "RTS_OSPF", "ospf", "RTD_UNICAST")
    rules = translation._evaluation(config, each, "out", place, route)
    return bool(rules) and rules is not None and rules[0][1].is_permit


def _without_all(rules: Rules[Action]) -> Optional[Rules[Action]]:
    """The rules; nothing where they let all through as it came."""
    return None if rules == [(ANY, PERMIT)] else rules


def _first(rules: Rules[Action], where: Prefix) -> Optional[Action]:
    """What rules do with any route to a prefix, where one of them decides that."""
    for match, action in rules:
        if covers(match, is_(where)):
            return action
        if match.kind in ("path", "first", "comm"):
            return None
    return None


def configs_of(paths: List[str]) -> Tuple[List[BirdConfig], List[Told]]:
    """The configurations in files and folders, and what was left out: one bad file does not keep the others from being
    read."""
    files, told = files_of(paths)
    included: Set[str] = set()
    configs: List[BirdConfig] = []
    for path in files:
        try:
            configs.append(reader.read(path, included))
        except Mistake as mistake:
            told.append(Told(mistake.file or path, mistake.line or 0, mistake.text))
    told = [each for each in told if each.decides or os.path.realpath(each.file) not in included]
    return [config for config in configs if os.path.realpath(config.name) not in included], told


def network_of(configs: List[BirdConfig], told: List[Told]) -> Network:
    """The network of those that are a router's; raises Mistake where none is."""
    good = [config for config in configs if config.own_name() and (config.asn or config.has_ospf)]
    for config in configs:
        if config not in good:
            told.append(Told(config.name, 0, "`router id ADDRESS;` and a `protocol bgp` or `protocol ospf` are "
                             "expected; no router is made of it"))
        elif not config.identifier:
            config.tell(config.line, "%s: there is no `router id`, which BIRD takes from its interfaces; the router is "
                        "%s here" % (short(config.line.text), config.own_name()))
    if not good:
        raise Mistake(told[0].text, told[0].file, told[0].line or None)
    for config in good:
        if not config.hostname:
            config.hostname, config.hostname_line = name_of(config.name), config.line
        if not NAME.fullmatch(config.hostname) or not fits(config.hostname):
            config.tell(config.hostname_line, "%s: it is no name here, which has no space and at most %d bytes" % (
                short(config.hostname), MOST_BYTES), False)
            config.hostname = ""
        checks.settle(config)
    links.find(good)
    return Network([*good])
