"""FRR configurations as a script: the folder that has them, their network, and its translation."""
from __future__ import annotations

from typing import List, Optional, Tuple

from ...program.mistakes import Mistake
from ..common.configuration import Config, Neighbour, Told
from ..common.network import Network
from ..common.opening import Opening
from ..common.origins import Own
from ..common.policy import Action, Rules
from ..common.regions import Place
from ..common.translation import Translation
from . import checks, origins
from .files import routers_in
from .opening import opening
from .reader import read
from .rules import policy


class FrrTranslation(Translation):
    """The script that is made of FRR's configurations."""

    def _check(self) -> None:
        """Tells what FRR does otherwise than a script says."""
        checks.check(self.network)
        origins.tell_incomplete(self.network)

    def _opening(self, config: Config, each: Neighbour, is_external: bool) -> Opening:
        """What an end of a session sends first, and takes of the other one."""
        return opening(config, each, is_external)

    def _owns(self, name: str) -> List[Own]:
        """What a router originates."""
        return origins.origins_of(self.network, name)

    def _policy(self, config: Config, each: Neighbour, way: str, place: Place) -> Optional[Rules[Action]]:
        """The rules of a policy; nothing where there is none."""
        return policy(config, each, way, place, self.world)


def configs_in(directory: str) -> Tuple[List[Config], List[Told]]:
    """The configurations in a directory, and what was left out of it: one bad file does not keep the others from being
    read."""
    found = routers_in(directory)
    configs, told = [], list(found.told)
    for name, files in found.routers.items():
        try:
            config = read(name, files)
        except Mistake as mistake:
            told.append(Told(mistake.file or name, mistake.line or 0, mistake.text))
            continue
        configs.append(config)
    return configs, told


def network_of(configs: List[Config], told: List[Told], directory: str) -> Network:
    """The network of those that are a router's; raises Mistake where none is."""
    good = [config for config in configs if config.own_name() and (config.asn or config.interfaces)]
    if not good:
        _first_mistake(configs, told, directory)
    told += [Told(config.name, 0, "neither `router bgp N` with an address nor an interface with one is in it; no "
                  "router is made of it") for config in configs if config not in good]
    return Network(good)


def _first_mistake(configs: List[Config], told: List[Told], directory: str) -> None:
    if configs:
        Network(configs[:1])
    raise Mistake(told[0].text if told else "no router is in it", told[0].file if told else directory)
