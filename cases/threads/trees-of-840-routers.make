#!/usr/bin/env python3
"""A ring of 840 routers, each with two sessions, so that a change of one link moves 840 trees: costs before and after, by the two ways round.
ROUTERS= is another number of them, for a ring that the model can check."""
import os
import sys

ROUTERS = int(os.environ.get("ROUTERS", 840))
METRIC = 10
# From whom to whom, as places in the ring; no two ways are as long as each other.
ASKED = [(0, 1), (1, 0), (0, 2), (2, 0), (0, ROUTERS - 1), (5, ROUTERS - 4), (ROUTERS - 4, 5), (ROUTERS // 4, 3), (3, ROUTERS // 4), (1, ROUTERS // 2 - 3)]


def name(place):
    number = place % ROUTERS + 1
    return "5.0.%d.%d" % (number >> 8, number & 255)


def cost(first, source, target):
    """The reply, where the first link has this metric, or is down."""
    def over(places):
        metrics = [METRIC if place % ROUTERS else first for place in places]
        return None if None in metrics else sum(metrics)
    up = over(range(source, source + (target - source) % ROUTERS))
    down = over(range(target, target + (source - target) % ROUTERS))
    assert up != down
    if down is None or up is not None and up < down:
        return "%d via %s\n" % (up, name(source + 1))
    return "%d via %s\n" % (down, name(source - 1))


script, replies = [], []


def edit(line):
    script.append(line + "\n")
    replies.append("ok\n")


def ask(first):
    for source, target in ASKED:
        script.append("cost %s %s\n" % (name(source), name(target)))
        replies.append(cost(first, source, target))


for place in range(ROUTERS):
    edit("router %s 5" % name(place))
for place in range(ROUTERS):
    edit("link %s %s %d" % (name(place), name(place + 1), METRIC))
for place in range(ROUTERS):
    edit("join %s %s" % (name(place), name(place + 1)))
ask(METRIC)
edit("metric %s %s 1" % (name(0), name(1)))
ask(1)
edit("fail %s %s" % (name(0), name(1)))
ask(None)
edit("metric %s %s 7" % (name(0), name(1)))
ask(None)
edit("mend %s %s" % (name(0), name(1)))
ask(7)

sys.stdout.write("".join(replies if sys.argv[1:] else script))
