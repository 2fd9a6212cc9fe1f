#!/usr/bin/env python3
"""Three edits that decide 2,100 cells of one router anew: the first adds a community to each route as it is heard, the second withdraws
those with another one, the third takes both back."""
import sys

PREFIXES = ["10.%d.%d.0/24" % divmod(n, 256) for n in range(2100)]
NO_EXPORT = 4294967041

SCRIPT = """router 9.0.0.1 9
virtual 7.0.0.1 7
virtual 8.0.0.1 8
link 9.0.0.1 7.0.0.1 1
link 9.0.0.1 8.0.0.1 1
join 9.0.0.1 7.0.0.1
join 9.0.0.1 8.0.0.1
""" + "".join("feed 7.0.0.1 9.0.0.1 update %s 7 igp - comm=%d\ndeliver 7.0.0.1 9.0.0.1\n" % (prefix, 5 + n % 2)
              for n, prefix in enumerate(PREFIXES)) + """rule 9.0.0.1 7.0.0.1 in comm 5 permit add=7
routes 9.0.0.1
rule 9.0.0.1 7.0.0.1 in comm 6 permit add=%d
clear 9.0.0.1 7.0.0.1 in
queue 9.0.0.1 8.0.0.1
""" % NO_EXPORT

ROUTE = "%s from 7.0.0.1 path=7 origin=igp next=7.0.0.1 med=- pref=100 oid=- clusters=- comms="
UPDATE = "update %s path=9,7 origin=igp next=9.0.0.1 med=- pref=- oid=- clusters=- comms="


def of_each(fives, sixes):
    """A line of each prefix, by the community that was fed."""
    return "".join((sixes if n % 2 else fives) % prefix for n, prefix in enumerate(PREFIXES))


REPLIES = 7 * "ok\n" + of_each(*2 * ["ok\ntook %s update\n"]) + "ok\n" + of_each(ROUTE + "5,7\n", ROUTE + "6\n") + "end 2100\nok\nok\n"
# In the queue: what was heard; what the first rule changed; what the second one keeps; and all as it was.
REPLIES += of_each(UPDATE + "5\n", UPDATE + "6\n") + of_each(UPDATE + "5,7\n", "%.0s") + of_each("%.0s", "withdraw %s\n")
REPLIES += of_each(UPDATE + "5\n", UPDATE + "6\n") + "end 6300\n"

sys.stdout.write(REPLIES if sys.argv[1:] else SCRIPT)
