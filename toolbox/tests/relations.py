"""Draws AS relationships in CAIDA's form, for networks of any size: `python3 toolbox/tests/relations.py 1000 > FILE`;
and what their ASes choose, without the program.

The first eight ASes are peers of one another. Each later one buys from one to three of those before it, of which one
that has many customers is likely to get more; and one in eight peers with another AS."""
import random
import sys


def relations(count, seed=1):
    """The lines of so many ASes; the same for the same number. No AS has more than 200 relationships."""
    lots, top = random.Random(seed), min(8, count)
    lines = ["%d|%d|0" % (one, other) for other in range(2, top + 1) for one in range(1, other)]
    degree = {asn: top - 1 for asn in range(1, top + 1)}
    tickets = list(degree) * 3
    for asn in range(top + 1, count + 1):
        wanted = lots.choice((1, 2, 2, 2, 3))
        chosen = list(dict.fromkeys(each for each in lots.choices(tickets, k=12) if degree[each] < 200))[:wanted]
        lines += ["%d|%d|-1" % (provider, asn) for provider in chosen]
        if asn % 8 == 0:
            other = lots.randrange(1, asn)
            chosen += [other] if other not in chosen and degree[other] < 200 else []
            lines += ["%d|%d|0" % (other, asn)] if other in chosen[wanted:] else []
        degree[asn] = 0
        for each in chosen:
            degree[each] += 1
            degree[asn] += 1
        tickets += chosen + [asn]
    return lines


def internet(count, seed=1):
    """Lines of so many ASes, most of which have no customers, as in the Internet: 12 that are peers of one another, one
    in 13 that sells, and the rest, which buys from one to three of these. Three peerings an AS, of those that sell."""
    lots, sellers = random.Random(seed), max(13, count // 13)
    lines = ["%d|%d|0" % (one, other) for other in range(2, 13) for one in range(1, other)]
    known = {(one, other) for other in range(2, 13) for one in range(1, other)}
    for asn in range(13, count + 1):
        among = asn - 1 if asn <= sellers else sellers
        # The lower a number is, the more buy from it.
        chosen = {1 + int(among * lots.random() ** 2) for _ in range(lots.choice((1, 2, 2, 3)))}
        lines += ["%d|%d|-1" % (provider, asn) for provider in sorted(chosen)]
        known.update((provider, asn) for provider in chosen)
    for _ in range(2 * count):
        one, other = sorted(lots.randrange(1, sellers + 1) for _ in range(2))
        if one != other and (one, other) not in known:
            known.add((one, other))
            lines.append("%d|%d|0" % (one, other))
    return lines


def kinds_of(lines):
    """Lines as a table of pairs: -1 where the first one sells to the other, 0 for peers."""
    return {(int(one), int(other)): int(kind) for one, other, kind in (line.split("|") for line in lines)}


def fixpoint(kinds, origins):
    """The path that each AS chooses where these originate one prefix, by the rules of Gao and Rexford.

    An AS prefers routes of customers to those of peers, these to those of providers, then shorter paths, then the
    neighbour of the lower number. It tells customers all, others only its own routes and those of customers. Decided
    again and again until nothing changes."""
    ways = [way for (one, other), kind in kinds.items()
            for way in ((one, other, 2 if kind else 1), (other, one, 0 if kind else 1))]
    rank = {(here, to): kind for to, here, kind in ways}
    chosen, before = {asn: () for asn in origins}, None
    while chosen != before:
        before, offers = chosen, {asn: [(-1, 0, 0, ())] for asn in origins}
        for to, here, kind in ways:
            path = before.get(to)
            is_told = path is not None and here not in path and (kind == 2 or not path or rank[to, path[0]] == 0)
            if is_told:
                offers.setdefault(here, []).append((kind, len(path) + 1, to, (to,) + path))
        chosen = {asn: min(found)[3] for asn, found in offers.items()}
    return chosen


if __name__ == "__main__":
    print("\n".join(relations(int(sys.argv[1]))))
