#!/usr/bin/env python3
import sys

sys.stdout.write(1000001 * "\n")
