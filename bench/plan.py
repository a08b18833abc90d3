#!/usr/bin/env python3
"""Plans the reads of many items by modbus_poll and by the plain rule, and prints the seconds of each.

usage: bench/plan.py [items]

Without a number they are 1,000,000 items. Both must tell the same plan. Build the program first, by ./prove. It is no test; it needs
Python 3.9.
"""

import os
import subprocess
import sys
import time

TOP = os.path.dirname(os.path.dirname(os.path.abspath(__file__)))
PROGRAM = os.path.join(TOP, "crates", "modbus_bench", "out", "modbus_bench")
ITEMS = 1_000_000


def measure(*words):
    """What the program prints, and its seconds."""
    begun = time.monotonic()
    done = subprocess.run([PROGRAM, *map(str, words)], stdout=subprocess.PIPE, text=True, check=True)
    return done.stdout.strip(), time.monotonic() - begun


def main():
    if not os.access(PROGRAM, os.X_OK):
        sys.exit("bench: build the program first: ./prove")
    items = int(sys.argv[1]) if len(sys.argv) > 1 else ITEMS
    plans = {rule: measure(rule, items) for rule in ("sorted", "plain")}
    for rule, (text, seconds) in plans.items():
        print(f"{rule}: {items} items, {text}: {seconds:.2f} s")
    if len({text for text, _ in plans.values()}) != 1:
        sys.exit("bench: the plans differ")


if __name__ == "__main__":
    main()
