#!/usr/bin/env python3
"""An address has 256 sessions."""
import sys

OTHERS = ["10.%d.%d.1" % divmod(n, 256) for n in range(257)]

SCRIPT = "router 9.0.0.1 1\nrouter 2.0.0.1 2\n"
SCRIPT += "".join("router %s 1\n" % a for a in OTHERS)
SCRIPT += "".join("join 9.0.0.1 %s\n" % a for a in OTHERS)
SCRIPT += """join 10.1.0.1 9.0.0.1
join 10.0.0.1 9.0.0.1
join 9.0.0.1 2.0.0.1
join 10.0.0.1 10.1.0.1
"""

REPLIES = (2 + 257 + 256) * "ok\n" + """refused 19 limit
refused 19 limit
refused 11 session-exists
refused 9 not-linked
ok
"""

sys.stdout.write(REPLIES if sys.argv[1:] else SCRIPT)
