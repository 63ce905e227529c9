#!/usr/bin/env python3
"""measured.py FILE COMMAND..: runs the command and adds the memory of its largest process, in KiB, to FILE as a line."""
import resource
import subprocess
import sys

status = subprocess.call(sys.argv[2:])
with open(sys.argv[1], 'a', encoding='utf-8') as f:
    f.write(f'{resource.getrusage(resource.RUSAGE_CHILDREN).ru_maxrss}\n')
sys.exit(status if status >= 0 else 128 - status)
