#!/usr/bin/env python3
"""There are 16,384 links: here the first 127 of 128 routers are linked to 129 others each, and the last to one."""
import sys

ROUTERS = ["10.0.%d.1" % n for n in range(128)]
OTHERS = ["11.0.%d.1" % n for n in range(129)]

SCRIPT = "".join("router %s 1\n" % a for a in ROUTERS + OTHERS)
SCRIPT += "".join("link %s %s 1\n" % (a, b) for a in ROUTERS for b in OTHERS)
SCRIPT += "link 11.0.0.1 10.0.0.1 1\n"

REPLIES = (257 + 16384) * "ok\n" + 128 * "refused 19 limit\n" + "refused 8 link-exists\n"

sys.stdout.write(REPLIES if sys.argv[1:] else SCRIPT)
