#!/usr/bin/env python3
"""Two edits that decide 2,100 cells of one router anew: MED is compared over all neighbours, by which every third cell chooses another route, and
then within one again."""
import sys

PREFIXES = ["10.%d.%d.0/24" % divmod(n, 256) for n in range(2100)]

SCRIPT = """router 9.0.0.1 9
virtual 6.0.0.1 6
virtual 7.0.0.1 7
virtual 8.0.0.1 8
link 9.0.0.1 6.0.0.1 1
link 9.0.0.1 7.0.0.1 1
link 9.0.0.1 8.0.0.1 1
join 9.0.0.1 6.0.0.1
join 9.0.0.1 7.0.0.1
join 9.0.0.1 8.0.0.1
""" + "".join("feed %s 9.0.0.1 update %s %d igp %d\ndeliver %s 9.0.0.1\n" % (peer, prefix, asn, med, peer)
              for n, prefix in enumerate(PREFIXES) for peer, asn, med in (("7.0.0.1", 7, 5), ("8.0.0.1", 8, 4 + n % 3))) + """med 9.0.0.1 always
why 9.0.0.1 10.0.0.0/24
why 9.0.0.1 10.0.1.0/24
why 9.0.0.1 10.0.2.0/24
routes 9.0.0.1
med 9.0.0.1 always
med 9.0.0.1 as
why 9.0.0.1 10.0.0.0/24
queue 9.0.0.1 6.0.0.1
"""

# The second route has a lower MED than the first, the same one, a higher one.
WHYS = ("7.0.0.1 med\n8.0.0.1 best\nend 2\n", "7.0.0.1 best\n8.0.0.1 ident\nend 2\n", "7.0.0.1 best\n8.0.0.1 med\nend 2\n")
ROUTE = "%s from {0} path={1} origin=igp next={0} med={2} pref=100 oid=- clusters=-\n"
UPDATE = "update %s path=9,{} origin=igp next=9.0.0.1 med=- pref=- oid=- clusters=-\n"


def of_each(thirds, others):
    """A line of each prefix: of those where MED over all neighbours chooses the second route, and of the others."""
    return "".join((others if n % 3 else thirds) % prefix for n, prefix in enumerate(PREFIXES))


REPLIES = 10 * "ok\n" + "".join(2 * ("ok\ntook %s update\n" % prefix) for prefix in PREFIXES) + "ok\n" + "".join(WHYS)
REPLIES += of_each(ROUTE.format("8.0.0.1", 8, 4), ROUTE.format("7.0.0.1", 7, 5)) + "end 2100\nok\nok\n" + WHYS[1]
# In the queue: the first routes as they were heard; each third one otherwise; and as it was.
REPLIES += of_each(*2 * [UPDATE.format(7)]) + of_each(UPDATE.format(8), "%.0s") + of_each(UPDATE.format(7), "%.0s") + "end 3500\n"

sys.stdout.write(REPLIES if sys.argv[1:] else SCRIPT)
