#!/usr/bin/env python3
import sys

sys.stdout.write("router 1.0.0.1 1".ljust(65536))
