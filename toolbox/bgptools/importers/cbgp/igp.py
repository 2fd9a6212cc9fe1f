"""C-BGP's commands of nodes, links and domains."""
from __future__ import annotations

import functools
from typing import List

from ...network.configuration import pair
from ...program.language import address
from .filters import prefix_of
from .network import Domain, Link, Node, Static
from .reader import Reading

# So many nodes are read. Those on which BGP runs, or of an AS, are fewer.
MOST_NODES = 65536
# What a link may have that decides no route.
OF_LINK = ("--delay", "--bw", "--capacity", "--depth")


class Interior(Reading):
    """Takes them."""

    def _net(self, words: List[str]) -> bool:
        if words[0] == "add" and len(words) > 1:
            adds = {"domain": self._add_domain, "node": self._add_node, "link": self._add_link}
            if words[1] in adds:
                adds[words[1]](words[2:])
                return True
            if words[1] in ("subnet", "iface"):
                self.network.tell(self.line, "%s: there are no subnets and interfaces; a link has two ends" % (
                    self.line.text))
                return True
            return False
        if words[0] == "node" and len(words) > 1:
            return self._in_node(self._node(words[1]), words[2:])
        if words[0] == "domain" and len(words) > 1:
            return self._in_domain(self._domain(words[1]), words[2:])
        if words[0] == "link" and len(words) > 2:
            return self._in_link(self._link(words[1], words[2]), words[1:3], words[3:])
        return self._known("net", words)

    def _add_domain(self, words: List[str]) -> None:
        if not 1 <= len(words) <= 2 or words[1:] not in ([], ["igp"]):
            raise self.line.mistake("`net add domain N igp` is expected")
        found = self._number(words[0], "domain")
        if found in self.network.domains:
            raise self.line.mistake("there is a domain %d already" % found)
        self.network.domains[found] = Domain(found, self.line)

    def _domain(self, word: str) -> Domain:
        found = self._number(word, "domain")
        if found not in self.network.domains:
            raise self.line.mistake("there is no domain %d: `net add domain %d igp` is expected before" % (
                found, found))
        return self.network.domains[found]

    def _add_node(self, words: List[str]) -> None:
        plain = [word for word in words if not word.startswith("--")]
        where = self._address(self._wanted(plain, 1, "net add node A")[0])
        if where in self.network.nodes:
            raise self.line.mistake("there is a node %s already" % where)
        if len(self.network.nodes) == MOST_NODES:
            raise self.line.mistake("there are {:,} nodes, and no more are read".format(MOST_NODES))
        self.network.nodes[where] = Node(where, self.line)

    def _add_link(self, words: List[str]) -> None:
        plain = [word for word in words if not word.startswith("--")]
        options = [word.partition("=")[0] for word in words if word.startswith("--")]
        if set(options) <= set(OF_LINK):
            if options:
                self.network.left.count("capacities and delays", self.line.place)
        else:
            self.network.tell(self.line, "%s: the options of a link are %s" % (self.line.text, ", ".join(OF_LINK)))
        if not 2 <= len(plain) <= 3:
            raise self.line.mistake("`net add link A B`, with a delay in early versions, is expected")
        one = self._node(plain[0]).address
        if prefix_of(plain[1]) is not None:
            self.network.tell(self.line, "%s: there are no subnets; a link has two ends" % self.line.text)
            return
        other = self._node(plain[1]).address
        if one == other or pair(one, other) in self.network.links:
            raise self.line.mistake("the two are one" if one == other else "the two have a link already")
        delay = self._number(plain[2], "delay") if len(plain) > 2 else None
        self.network.add_link(Link(one, other, self.line, delay))
        self.network.changed((one, other), self.line)

    def _link(self, one: str, other: str) -> Link:
        found = self.network.link(self._node(one).address, self._node(other).address)
        if found is None:
            raise self.line.mistake("the two have no link: `net add link %s %s` is expected before" % (one, other))
        return found

    def _in_link(self, link: Link, ends: List[str], words: List[str]) -> bool:
        if not words:
            return self._enter(functools.partial(self._in_link, link, ends))
        one, other = ends
        if words[0] == "igp-weight":
            plain = [word for word in words[1:] if word not in ("--bidir", "--both")]
            if plain[0:1] and plain[0].startswith("--tos"):
                self.network.tell(self.line, "%s: a link has one weight, whatever the service" % self.line.text)
                return True
            weight = self._number(self._wanted(plain, 1, "net link A B igp-weight [--bidir] N")[0], "weight")
            for way in [(one, other)] + ([(other, one)] if len(plain) < len(words) - 1 else []):
                link.weights[way] = (weight, self.line)
        elif words in (["up"], ["down"]):
            link.is_up = words == ["up"]
        else:
            return self._known("link", words)
        self.network.changed((one, other), self.line)
        return True

    def _in_domain(self, domain: Domain, words: List[str]) -> bool:
        if not words:
            return self._enter(functools.partial(self._in_domain, domain))
        if words == ["compute"]:
            domain.computed, domain.stale = self.line, None
            domain.unscanned = self.line if self.network.has_run else None
            return True
        return self._known("domain", words)

    def _in_node(self, node: Node, words: List[str]) -> bool:
        if not words:
            return self._enter(functools.partial(self._in_node, node))
        if words[0] == "domain":
            node.domain = self._domain(self._wanted(words, 2, "net node A domain N")[1]).number
            self.network.changed((node.address,), self.line)
        elif words[0] == "name":
            node.name = self._wanted(words, 2, "net node A name NAME")[1]
        elif words[0] == "spf-prefix":
            found = prefix_of(self._prefix(self._wanted(words, 2, "net node A spf-prefix P")[1]))
            node.reaches += [found] if found else []
        elif words[0] == "route" and len(words) > 1:
            return self._route(node, words[1], words[2:])
        else:
            return self._known("node", words)
        return True

    def _route(self, node: Node, verb: str, words: List[str]) -> bool:
        """`route add P GATEWAY WAY N` or `P WAY N` in early versions, `--oif=WAY P N` in later ones."""
        options = dict(word[2:].partition("=")[::2] for word in words if word.startswith("--"))
        plain = [word for word in words if not word.startswith("--")]
        if verb not in ("add", "del") or not plain:
            return False
        where = prefix_of(self._prefix(plain[0]))
        assert where is not None
        if verb == "del":
            node.statics = [each for each in node.statics if each.where != where]
            return True
        way = options.get("oif") or options.get("gw") or (plain[-2] if len(plain) > 2 else "")
        if len(plain) < 2 or len(plain) > 4 or not way:
            raise self.line.mistake("`net node A route add P GATEWAY WAY N` or `route add --oif=WAY P N` is expected")
        if len(plain) == 4 and plain[1] != "*" and address(plain[1]) is None:
            raise self.line.mistake("the gateway `%s` is no address, or `*` for none" % plain[1][:60])
        static = Static(where, way, self._number(plain[-1], "metric"), self.line)
        node.statics.append(static)
        if address(way) is None or self.network.link(node.address, way) is None:
            self.network.note(self.line, "%s: packets follow the links, and %s is at the end of none" % (
                self.line.text, way))
        return True
