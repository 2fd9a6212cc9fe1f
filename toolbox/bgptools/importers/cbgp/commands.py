"""C-BGP's commands of BGP: routers, peers, filters, and what virtual peers tell."""
from __future__ import annotations

import functools
from typing import Dict, List

from ...program.language import number
from . import records
from .filters import Reader, Rule, deeds_of
from .igp import Interior
from .network import Node, Peer
from .reader import Context

# So many peers of routers are read: 256 of each of 4,096 routers.
MOST_PEERS = 1 << 20


class Commands(Interior):
    """Takes all commands. A line that is not known is told."""

    def _top(self, words: List[str]) -> bool:
        tables: Dict[str, Context] = {"net": self._net, "bgp": self._bgp, "sim": self._sim}
        if words[0] in tables:
            return tables[words[0]](words[1:]) if words[1:] else self._enter(tables[words[0]])
        return self._known("top", words)

    def _sim(self, words: List[str]) -> bool:
        if words == ["run"]:
            self.run(self.line)
            self.network.has_run = True
            return True
        return self._known("sim", words)

    # BGP

    def _bgp(self, words: List[str]) -> bool:
        if words[0] == "add" and len(words) > 1:
            if words[1] == "router":
                self._add_router(self._wanted(words[2:], 2, "bgp add router AS A"))
                return True
            return False
        if words[0] == "router" and len(words) > 1:
            node = self._node(words[1])
            if node.asn is None:
                raise self.line.mistake("BGP does not run there: `bgp add router AS %s` is expected before" % words[1])
            return self._in_router(node, words[2:])
        if words[0] == "domain" and len(words) > 1:
            return self._in_as(self._asn(words[1]), words[2:])
        if words[0] == "options":
            return self._in_options(words[1:])
        if words[0] == "route-map" and len(words) > 1:
            return self._in_filter("map", self.network.maps.setdefault(words[1], []), words[2:])
        return self._known("bgp", words)

    def _add_router(self, words: List[str]) -> None:
        node = self._node(words[1])
        if node.asn is not None:
            raise self.line.mistake("BGP runs there already, in AS %d" % node.asn)
        node.asn, node.line = self._asn(words[0]), self.line

    def _in_as(self, asn: int, words: List[str]) -> bool:
        if not words:
            return self._enter(functools.partial(self._in_as, asn))
        inside = [node for node in self.network.routers().values() if node.asn == asn]
        if not inside:
            self.network.tell(self.line, "%s: no router is in AS %d before it" % (self.line.text, asn))
        if words == ["full-mesh"]:
            if len(self.network.peers) + len(inside) ** 2 > MOST_PEERS:
                raise self.line.mistake("more than {:,} peers of routers are read".format(MOST_PEERS))
            for one in inside:
                for other in inside:
                    if one is not other:
                        new = Peer(asn, self.line, is_up=True)
                        self.network.peers.setdefault((one.address, other.address), new)
            return True
        if words == ["rescan"]:
            self._scanned(inside)
            return True
        return self._known("as", words)

    def _scanned(self, nodes: List[Node]) -> None:
        for node in nodes:
            if node.domain is not None:
                self.network.domains[node.domain].unscanned = None

    def _in_options(self, words: List[str]) -> bool:
        if not words:
            return self._enter(self._in_options)
        if words[0] == "local-pref":
            self.network.preference = self._number(self._wanted(words, 2, "bgp options local-pref N")[1], "preference")
        elif words[0] in ("med", "med-type"):
            if words[1:] not in (["always-compare"], ["deterministic"]):
                raise self.line.mistake("`bgp options med deterministic` or `always-compare` is expected")
            self.network.is_med_always = words[1] == "always-compare"
        else:
            return self._known("options", words)
        return True

    def _in_router(self, node: Node, words: List[str]) -> bool:
        if not words:
            return self._enter(functools.partial(self._in_router, node))
        if words[0] in ("add", "del") and words[1:2] == ["network"]:
            self._own(node, words[0], self._wanted(words[2:], 1, "%s network P" % words[0])[0])
        elif words[:2] == ["add", "peer"]:
            self._add_peer(node, self._wanted(words[2:], 2, "add peer AS P"))
        elif words[0] == "peer" and len(words) > 1:
            return self._in_peer(node, self._address(words[1]), words[2:])
        elif words[:2] == ["set", "cluster-id"]:
            word = self._wanted(words[2:], 1, "set cluster-id ID")[0]
            found = number(word)
            node.cluster = self._address(word) if found is None else ".".join(
                str(found >> shift & 255) for shift in (24, 16, 8, 0))
        elif words in (["rescan"], ["reset"]):
            self._scanned([node])
        else:
            return self._known("router", words)
        return True

    def _own(self, node: Node, verb: str, word: str) -> None:
        where = self._prefix(word)
        if (where in node.networks) == (verb == "add"):
            raise self.line.mistake("%s has it already" % node.address if verb == "add" else
                                    "%s has no such network" % node.address)
        if verb == "add":
            node.networks[where] = self.line
        else:
            node.networks.pop(where)

    def _add_peer(self, node: Node, words: List[str]) -> None:
        other = self._address(words[1])
        if other == node.address or (node.address, other) in self.network.peers:
            raise self.line.mistake("it is the router itself" if other == node.address else "it is a peer already")
        self.network.peers[node.address, other] = Peer(self._asn(words[0]), self.line)

    # A peer

    def _in_peer(self, node: Node, other: str, words: List[str]) -> bool:
        peer = self.network.peers.get((node.address, other))
        if peer is None:
            raise self.line.mistake("%s is no peer: `add peer AS %s` is expected before" % (other, other))
        if not words:
            return self._enter(functools.partial(self._in_peer, node, other))
        if words in (["up"], ["down"]):
            peer.is_up = words == ["up"]
            peer.fed = peer.fed if peer.is_up else {}
        elif words == ["reset"]:
            peer.fed = {}
        elif words in (["virtual"], ["rr-client"], ["next-hop-self"]):
            peer.flags[words[0]] = self.line
        elif words[0] == "filter" and words[1:2] and words[1] in ("in", "out"):
            return self._in_filter("filter", peer.filters[words[1]], words[2:])
        elif words[0] == "recv":
            self._receive(other, peer, self._wanted(words, 2, 'peer P recv "BGP4|..."')[1])
        else:
            return self._known("peer", words)
        return True

    def _receive(self, other: str, peer: Peer, text: str) -> None:
        """What a virtual peer tells, or takes back."""
        record = records.read(self.line, text)
        if not peer.is_up or "virtual" not in peer.flags:
            raise self.line.mistake("%s is no virtual peer that is up" % other)
        if not record.is_withdrawal:
            words = records.fed(self.network, self.line, record, peer, other)
            peer.fed.update({record.where: words} if words else {})
        elif record.parts[3] != other:
            self.network.tell(self.line, "it is told as of %s, and not of %s; it is left out" % (
                record.parts[3], other))
        elif peer.fed.pop(record.where, None) is None:
            self.network.note(self.line, "it takes back %s, which %s has not told" % (record.where, other))

    # Filters

    def _in_filter(self, kind: str, rules: List[Rule], words: List[str]) -> bool:
        if not words:
            return self._enter(functools.partial(self._in_filter, kind, rules))
        if words[0] == "add-rule":
            rules.append(Rule(self.line))
            return self._in_rule(rules[-1], words[1:])
        if words[0] in ("insert-rule", "remove-rule"):
            most = len(rules) if words[0] == "insert-rule" else len(rules) - 1
            at = number(words[1], 0, most) if len(words) > 1 else None
            if at is None or words[0] == "remove-rule" and len(words) > 2:
                raise self.line.mistake("`%s N` is expected, a number of 0 to %d" % (words[0], most))
            if words[0] == "remove-rule":
                rules.pop(at)
                return True
            rules.insert(at, Rule(self.line))
            return self._in_rule(rules[at], words[2:])
        return self._known(kind, words)

    def _in_rule(self, rule: Rule, words: List[str]) -> bool:
        if not words:
            return self._enter(functools.partial(self._in_rule, rule))
        if words[0] not in ("match", "action"):
            return self._known("rule", words)
        while words:
            if len(words) < 2 or words[0] not in ("match", "action"):
                raise self.line.mistake('`match "..."` or `action "..."` is expected')
            if words[0] == "match":
                rule.about = Reader(words[1], self.line).whole()
            else:
                rule.deeds = deeds_of(words[1], self.line)
            words = words[2:]
        return True
