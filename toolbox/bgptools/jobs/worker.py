"""Where a worker process begins: `python3 -I -B` runs this file by its absolute path.

Modules come from the folder that has the package, beside Python's own: never from a folder in which the process stands,
nor from what its environment names."""
from __future__ import annotations

import os
import sys

if __name__ == "__main__":
    sys.path.insert(0, os.path.dirname(os.path.dirname(os.path.dirname(os.path.abspath(__file__)))))
    from bgptools.jobs.executor import main
    main()
