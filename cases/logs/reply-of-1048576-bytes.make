#!/usr/bin/env python3
import sys

sys.stdout.write("bgpsim log 1\n@0 quiet\n" + "= yes".ljust(1048576) + "\nend 1\n")
