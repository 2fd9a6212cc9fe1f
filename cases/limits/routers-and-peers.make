#!/usr/bin/env python3
"""There are 4,096 routers and virtual peers."""
import sys

ROUTERS = "".join("router 10.%d.%d.1 1\n" % divmod(n, 256) for n in range(4097))

SCRIPT = ROUTERS + "virtual 9.0.0.1 9\nrouter 10.0.0.1 1\n"

REPLIES = 4096 * "ok\n" + 2 * "refused 19 limit\n" + "refused 3 router-exists\n"

sys.stdout.write(REPLIES if sys.argv[1:] else SCRIPT)
