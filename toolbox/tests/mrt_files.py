"""Files of MRT that tests make, by RFC 6396, 4271 and 6793: records, messages of BGP, tables."""
import ipaddress
import struct

COLLECTOR, COLLECTOR_SIX = "203.0.113.100", "2001:db8::ffff"
STATE, MESSAGE, MESSAGE_AS4, STATE_AS4 = 0, 1, 4, 5


def record(seconds, kind, subtype, content):
    """A record of these seconds since 1970."""
    return struct.pack(">IHHI", seconds, kind, subtype, len(content)) + content


def header(asn, address, width=4):
    """What stands before a message or the states: the peer and the collector, with AS numbers of so many bytes."""
    own = ipaddress.ip_address(address)
    other = ipaddress.ip_address(COLLECTOR if own.version == 4 else COLLECTOR_SIX)
    return asn.to_bytes(width, "big") + (64500).to_bytes(width, "big") + struct.pack(
        ">HH", 0, 1 if own.version == 4 else 2) + own.packed + other.packed


def prefix(text):
    """A prefix as messages have it."""
    found = ipaddress.ip_network(text)
    return bytes([found.prefixlen]) + found.network_address.packed[:(found.prefixlen + 7) // 8]


def attribute(kind, value, flags=0x40):
    return struct.pack(">BBH", flags | 0x10, kind, len(value)) + value


def path(numbers, width=4):
    """A path of one sequence."""
    return bytes([2, len(numbers)]) + b"".join(each.to_bytes(width, "big") for each in numbers)


def attributes(numbers, hop, med=None, communities=(), width=4):
    """ORIGIN IGP, a path, a next hop, perhaps a MED and communities."""
    found = attribute(1, b"\0") + attribute(2, path(numbers, width)) + attribute(3, ipaddress.ip_address(hop).packed)
    found += b"" if med is None else attribute(4, struct.pack(">I", med), 0x80)
    return found + (attribute(8, struct.pack(">%dI" % len(communities), *communities), 0xc0) if communities else b"")


def message(kind, content=b""):
    return b"\xff" * 16 + struct.pack(">HB", 19 + len(content), kind) + content


def update(announced=(), withdrawn=(), told=b""):
    """An UPDATE of prefixes, as texts, with these attributes."""
    gone = b"".join(map(prefix, withdrawn))
    return message(2, struct.pack(">H", len(gone)) + gone + struct.pack(">H", len(told)) + told
                   + b"".join(map(prefix, announced)))


def updates(seconds, asn, address, *words, width=4):
    """A record of BGP4MP with an UPDATE."""
    subtype = MESSAGE_AS4 if width == 4 else MESSAGE
    return record(seconds, 16, subtype, header(asn, address, width) + update(*words))


def state(seconds, asn, address, before, after):
    """A record of a session that changes its state."""
    return record(seconds, 16, STATE_AS4, header(asn, address) + struct.pack(">HH", before, after))


def peers(seconds, known):
    """The PEER_INDEX_TABLE of peers, each an AS number and an address."""
    said = b"".join(bytes([2 if ":" not in address else 3]) + b"\1\2\3\4" + ipaddress.ip_address(address).packed
                    + struct.pack(">I", asn) for asn, address in known)
    return record(seconds, 13, 1, struct.pack(">IHH", 0, 0, len(known)) + said)


def routes(seconds, number, where, told):
    """A record of routes to a prefix: each the place of a peer, and attributes."""
    said = b"".join(struct.pack(">HIH", at, seconds, len(each)) + each for at, each in told)
    return record(seconds, 13, 2, struct.pack(">I", number) + prefix(where) + struct.pack(">H", len(told)) + said)
