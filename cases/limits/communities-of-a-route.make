#!/usr/bin/env python3
"""A feed tells 32 communities at most, beside 255 AS numbers; rules add more to them."""
import sys

FEED = "feed 7.0.0.1 9.0.0.1 update %s %s igp - comm=%s\n"
NUMBERS = [str(4294967000 - n) for n in range(33, 0, -1)]
MOST, TOO_MANY = ",".join(NUMBERS[:32]), ",".join(NUMBERS)
LONGEST, TOO_LONG = (",".join(["7"] * count) for count in (255, 256))

NETWORK = """router 9.0.0.1 9
virtual 7.0.0.1 7
virtual 8.0.0.1 8
link 9.0.0.1 7.0.0.1 1
link 9.0.0.1 8.0.0.1 1
join 9.0.0.1 7.0.0.1
join 9.0.0.1 8.0.0.1
"""

# Each feed with its reply.
FEEDS = [
    (FEED % ("10.0.0.0/8", "7", MOST), "ok"),
    (FEED % ("11.0.0.0/8", "7", TOO_MANY), "refused 19 limit"),
    (FEED % ("11.0.0.0/8", "7", MOST + ",4294967295"), "refused 19 limit"),
    (FEED % ("11.0.0.0/8", LONGEST, MOST), "ok"),
    (FEED % ("12.0.0.0/8", LONGEST, TOO_MANY), "refused 19 limit"),
    (FEED % ("12.0.0.0/8", TOO_LONG, MOST), "refused 19 limit"),
    (FEED % ("12.0.0.0/8", TOO_LONG, TOO_MANY), "refused 19 limit"),
    # What comes before it: what is no list of communities, and a path that does not begin with the feeder's AS.
    (FEED % ("12.0.0.0/8", "7", ",".join(reversed(NUMBERS))), "refused 1 syntax"),
    (FEED % ("12.0.0.0/8", "7", TOO_MANY + "," + NUMBERS[32]), "refused 1 syntax"),
    (FEED % ("12.0.0.0/8", "7", TOO_MANY + ",4294967296"), "refused 1 syntax"),
    (FEED % ("12.0.0.0/8", "7", TOO_MANY + ","), "refused 1 syntax"),
    (FEED % ("12.0.0.0/8", "8", TOO_MANY), "refused 18 first-as"),
    (FEED % ("12.0.0.0/8", "{7}", TOO_MANY), "refused 18 first-as"),
]

ASKED = """deliver 7.0.0.1 9.0.0.1
queue 7.0.0.1 9.0.0.1
rule 9.0.0.1 7.0.0.1 in any permit add=4294967295
rule 9.0.0.1 8.0.0.1 out any permit add=0
best 9.0.0.1 10.0.0.0/8
out 9.0.0.1 8.0.0.1
"""

ANSWERED = """took 10.0.0.0/8 update
update 11.0.0.0/8 path=%s origin=igp next=7.0.0.1 med=- pref=- oid=- clusters=- comms=%s
end 1
ok
ok
10.0.0.0/8 from 7.0.0.1 path=7 origin=igp next=7.0.0.1 med=- pref=100 oid=- clusters=- comms=%s,4294967295
10.0.0.0/8 path=9,7 origin=igp next=9.0.0.1 med=- pref=- oid=- clusters=- comms=0,%s,4294967295
end 1
""" % (LONGEST, MOST, MOST, MOST)

SCRIPT = NETWORK + "".join(feed for feed, _ in FEEDS) + ASKED
REPLIES = 7 * "ok\n" + "".join(reply + "\n" for _, reply in FEEDS) + ANSWERED

sys.stdout.write(REPLIES if sys.argv[1:] else SCRIPT)
