#!/usr/bin/env python3
"""A policy has 256 rules."""
import sys

SCRIPT = """router 1.0.0.1 1
router 2.0.0.1 2
link 1.0.0.1 2.0.0.1 1
join 1.0.0.1 2.0.0.1
""" + 257 * "rule 1.0.0.1 2.0.0.1 in any deny\n" + """rule 1.0.0.1 2.0.0.1 in any permit prepend=1
rule 1.0.0.1 2.0.0.1 out any deny
clear 1.0.0.1 2.0.0.1 in
rule 1.0.0.1 2.0.0.1 in any deny
"""

REPLIES = 260 * "ok\n" + "refused 19 limit\nrefused 13 rule-not-allowed\n" + 3 * "ok\n"

sys.stdout.write(REPLIES if sys.argv[1:] else SCRIPT)
