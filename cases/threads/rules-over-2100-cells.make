#!/usr/bin/env python3
"""Two edits that decide 2,100 cells of one router anew: the first moves no route, the second withdraws them all, by prefix."""
import sys

PREFIXES = ["10.%d.%d.0/24" % divmod(n, 256) for n in range(2100)]

SCRIPT = """router 9.0.0.1 9
virtual 7.0.0.1 7
virtual 8.0.0.1 8
link 9.0.0.1 7.0.0.1 1
link 9.0.0.1 8.0.0.1 1
join 9.0.0.1 7.0.0.1
join 9.0.0.1 8.0.0.1
""" + "".join("feed 7.0.0.1 9.0.0.1 update %s 7 igp -\ndeliver 7.0.0.1 9.0.0.1\n" % prefix for prefix in PREFIXES) + """rule 9.0.0.1 7.0.0.1 in any permit pref=5
routes 9.0.0.1
rule 9.0.0.1 8.0.0.1 out any deny
queue 9.0.0.1 8.0.0.1
"""

ROUTE = "%s from 7.0.0.1 path=7 origin=igp next=7.0.0.1 med=- pref=5 oid=- clusters=-\n"
UPDATE = "update %s path=9,7 origin=igp next=9.0.0.1 med=- pref=- oid=- clusters=-\n"


def of_each(line):
    return "".join(line % prefix for prefix in PREFIXES)


REPLIES = 7 * "ok\n" + of_each("ok\ntook %s update\n") + "ok\n" + of_each(ROUTE) + "end 2100\nok\n" + of_each(UPDATE) + of_each("withdraw %s\n") + "end 4200\n"

sys.stdout.write(REPLIES if sys.argv[1:] else SCRIPT)
