#!/usr/bin/env python3
"""A network at all limits at once: 4,096 routers and peers, 16,384 links, a router with 256 sessions, two policies of 256 rules, a path of 255
AS numbers with 32 communities. One more of each is refused; the route settles, and is told."""
import sys

# The router in the middle, the peer that feeds it, and the routers around, each in an AS of its own.
HUB, PEER = "9.0.0.1", "7.0.0.1"
ROUTERS = ["10.%d.%d.1" % divmod(n, 256) for n in range(4094)]
HEARING = ROUTERS[:255]
PATH = ",".join(["7"] * 255)
NUMBERS = [str(4294967000 - n) for n in range(32, 0, -1)]
COMMS = ",".join(NUMBERS)

script, replies = [], []


def say(line, *reply):
    script.append(line + "\n")
    replies.extend(one + "\n" for one in reply or ("ok",))


say("router %s 9" % HUB)
say("virtual %s 7" % PEER)
for n, router in enumerate(ROUTERS):
    say("router %s %d" % (router, 100 + n))
say("router 11.0.0.1 1", "refused 19 limit")
say("virtual 11.0.0.1 1", "refused 19 limit")
# One link more than sessions at the hub; the others along and across the row of routers.
links = [(HUB, PEER)] + [(HUB, router) for router in ROUTERS[:256]]
links += [(ROUTERS[n], ROUTERS[n + step]) for step in range(1, 5) for n in range(len(ROUTERS) - step)][:16384 - len(links)]
for one, other in links:
    say("link %s %s 7" % (one, other))
say("link %s %s 7" % (ROUTERS[0], ROUTERS[-1]), "refused 19 limit")
say("join %s %s" % (HUB, PEER))
for router in HEARING:
    say("join %s %s" % (router, HUB))
say("join %s %s" % (HUB, ROUTERS[255]), "refused 19 limit")
for n in range(256):
    say("rule %s %s in under 20.0.%d.0/24 deny" % (HUB, PEER, n))
    say("rule %s %s out is 20.0.%d.0/24 deny" % (HUB, ROUTERS[0], n))
say("rule %s %s in any deny" % (HUB, PEER), "refused 19 limit")
say("rule %s %s out any deny" % (HUB, ROUTERS[0]), "refused 19 limit")
say("feed %s %s update 10.0.0.0/8 7,%s igp 5 comm=%s" % (PEER, HUB, PATH, COMMS), "refused 19 limit")
say("feed %s %s update 10.0.0.0/8 %s igp 5 comm=%s,4294967295" % (PEER, HUB, PATH, COMMS), "refused 19 limit")
say("feed %s %s update 10.0.0.0/8 %s igp 5 comm=%s" % (PEER, HUB, PATH, COMMS))
say("feed %s %s update 20.0.255.0/24 %s igp 5" % (PEER, HUB, PATH))

# The first route settles; the second is denied on its way in.
say("deliver %s %s" % (PEER, HUB), "took 10.0.0.0/8 update")
say("deliver %s %s" % (PEER, HUB), "took 20.0.255.0/24 update")
for router in HEARING:
    say("deliver %s %s" % (HUB, router), "took 10.0.0.0/8 update")
say("quiet", "yes")
say("why %s 20.0.255.0/24" % HUB, "7.0.0.1 denied", "end 1")
TOLD = "10.0.0.0/8 from %s path=%s origin=igp next=%s med=%s pref=100 oid=- clusters=- comms=" + COMMS
say("routes " + HUB, TOLD % (PEER, PATH, PEER, 5), "end 1")
for router in (HEARING[0], HEARING[-1]):
    say("best %s 10.0.0.0/8" % router, TOLD % (HUB, "9_" + PATH, HUB, "-"))
    say("trace %s 10.0.0.1" % router, "%s 10.0.0.0/8" % router, "%s 10.0.0.0/8" % HUB, "reached " + PEER, "end 3")
say("cost %s %s" % (HUB, PEER), "7 via " + PEER)
say("cost %s %s" % (ROUTERS[1], ROUTERS[5]), "7 via " + ROUTERS[5])
say("cost %s %s" % (ROUTERS[1], ROUTERS[6]), "none")

# And a failed link withdraws it from all.
say("fail %s %s" % (HUB, PEER))
say("queue %s %s" % (HUB, HEARING[254]), "withdraw 10.0.0.0/8", "end 1")
for router in HEARING:
    say("deliver %s %s" % (HUB, router), "took 10.0.0.0/8 withdraw")
say("quiet", "yes")
say("best %s 10.0.0.0/8" % HEARING[254], "none")

sys.stdout.write("".join(replies if sys.argv[1:] else script))
