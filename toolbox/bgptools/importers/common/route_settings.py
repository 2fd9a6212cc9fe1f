"""What comes of a setting of a policy that no rule has."""
from __future__ import annotations

from .configuration import Config
from .regions import Place

# What a setting that reaches no neighbour is counted as.
NO_NEIGHBOUR = "what goes to no neighbour"
INTERNAL = "a rule of an internal session sets nothing; preference, MED and communities stay as the border set them"


def unset(config: Config, name: str, said: str, place: Place) -> str:
    """Why a setting is none of the rule, or nothing."""
    if name == "weight":
        is_nothing = said == "0" or place.way == "out"
        return NO_NEIGHBOUR if is_nothing else "FRR prefers by weight before all; here preference decides first"
    if name == "ip next-hop":
        is_same = said == "peer-address" and place.is_from_outside
        return NO_NEIGHBOUR if is_same else "the next hop is the session's, or the router with `self ROUTER PEER on`"
    if not place.is_external:
        return INTERNAL
    if name == "pref" and place.way == "out":
        return NO_NEIGHBOUR
    numbers = said.split(" ")
    if name == "prepend" and (place.way == "in" or set(numbers) != {str(config.asn)} or len(numbers) > 16):
        return "a rule puts the own AS alone in front, on the way out, 1 to 16 times; here the path stays"
    return ""
