#!/usr/bin/env python3
"""Counts calls a second of a shared store, and the memory that calls leave.

usage: bench/store.py [milliseconds]

Each thread has a pass of its own, and writes and reads one register in turn. It prints the calls a second by 1, 8, 32 and 128 threads,
with those of the slowest and of the fastest thread, all from a common start; and then the largest resident memory after 1,000,000 and
after 10,000,000 calls of four threads. Build the program first, by ./prove. It is no test; it needs
Python 3.9.
"""

import os
import re
import subprocess
import sys

TOP = os.path.dirname(os.path.dirname(os.path.abspath(__file__)))
PROGRAM = os.path.join(TOP, "crates", "modbus_bench", "out", "modbus_bench")
THREADS = (1, 8, 32, 128)
MILLISECONDS = 1000


def calls(*words):
    """The calls of the slowest thread, of the fastest and of all, and the largest resident memory in KiB."""
    with subprocess.Popen([PROGRAM, *map(str, words)], stdout=subprocess.PIPE, text=True) as program:
        text = program.stdout.read()
        _, status, usage = os.wait4(program.pid, 0)
        program.returncode = os.waitstatus_to_exitcode(status)
    if program.returncode != 0:
        sys.exit(f"the program ended with status {program.returncode}")
    slowest, fastest, all_calls = map(int, re.fullmatch(r"slowest (\d+), fastest (\d+), all (\d+)\n", text).groups())
    return slowest, fastest, all_calls, usage.ru_maxrss


def main():
    if not os.access(PROGRAM, os.X_OK):
        sys.exit("bench: build the program first: ./prove")
    milliseconds = int(sys.argv[1]) if len(sys.argv) > 1 else MILLISECONDS
    for threads in THREADS:
        slowest, fastest, all_calls, _ = calls("rate", threads, milliseconds)
        print(f"{threads} threads: {all_calls * 1000 // milliseconds} calls a second, a thread from {slowest} to {fastest} calls")
    for each in (250_000, 2_500_000):
        _, _, all_calls, resident = calls("calls", 4, each)
        print(f"{all_calls} calls: {resident} KiB resident at most")


if __name__ == "__main__":
    main()
