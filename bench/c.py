#!/usr/bin/env python3
"""Counts what a request costs the library for C, in instructions, in memory and in size, and what it costs modbus_reply of libmodbus.

usage: bench/c.py

It serves 1,000 and 11,000 requests under callgrind, and prints the difference a request: reads and writes of ten registers, over Modbus TCP
and RTU, by the calls for a network and a shared line too, with malloc and with the arena of examples/c. libmodbus is given the same requests over TCP, without its receiving; its checks are
there, so they aren't counted. Then come the allocations a request, the most bytes of the arena, and the size of the archive without
symbols. It is no test; it needs gcc, valgrind and the built archive (tools/c/run builds it), and for libmodbus libmodbus-dev. MODBUS_ROOT
names a folder with its usr/, in place of the one that is installed.
"""

import os
import re
import subprocess
import sys
import tempfile

TOP = os.path.dirname(os.path.dirname(os.path.abspath(__file__)))
CRATE = os.path.join(TOP, "crates", "modbus_c")
ARCHIVE = os.path.join(CRATE, "out", "libmodbus_c.a")
ROOT = os.environ.get("MODBUS_ROOT", "/")
FEW, MANY = 1_000, 11_000


def run(*words, **options):
    """The text that a command writes."""
    done = subprocess.run(words, check=True, capture_output=True, text=True, **options)
    return done.stdout + done.stderr


def counted(program, *words):
    """The instructions a request."""
    found = []
    for times in FEW, MANY:
        told = run("valgrind", "--tool=callgrind", "--callgrind-out-file=/dev/null", program, str(times), *words)
        found.append(int(re.search(r"Collected : (\d+)", told)[1]))
    return (found[1] - found[0]) / (MANY - FEW)


def allocations(program, *words):
    """The allocations a request."""
    found = []
    for times in FEW, MANY:
        told = run("valgrind", program, str(times), *words)
        found.append(int(re.search(r"total heap usage: ([\d,]+) allocs", told)[1].replace(",", "")))
    return (found[1] - found[0]) / (MANY - FEW)


def main():
    kit = os.path.dirname(run("rt", "doc").strip())
    heap = os.path.join(kit, "c", "liblibc_c.a")
    if not os.path.exists(ARCHIVE):
        sys.exit("c.py: the archive is not built: run tools/c/run first")
    with tempfile.TemporaryDirectory() as work:
        gcc = ["gcc", "-O2", "-DMODBUS_UNCHECKED", "-I", os.path.join(CRATE, "include")]
        count, arena, reply = (os.path.join(work, name) for name in ("count", "arena", "reply"))
        source = os.path.join(TOP, "bench", "c", "count.c")
        run(*gcc, "-o", count, source, ARCHIVE, heap)
        run(*gcc, "-DARENA=8192", "-o", arena, source, os.path.join(TOP, "examples", "c", "arena.c"), ARCHIVE)
        for mode in "tcp", "rtu", "stream", "line":
            for kind in "read", "write":
                figures = f"{counted(count, mode, kind):.0f} with malloc, {counted(arena, mode, kind):.0f} with the arena"
                print(f"{mode} {kind}: {figures}; {allocations(count, mode, kind):.0f} allocations; {run(arena, '1', mode, kind).splitlines()[-1]}")
        header = os.path.join(ROOT, "usr", "include", "modbus", "modbus.h")
        library = [it for it in run("find", os.path.join(ROOT, "usr", "lib"), "-name", "libmodbus.so.5*").split() if it] if os.path.exists(header) else []
        if library:
            flags = ["-I", os.path.join(ROOT, "usr", "include"), library[0], f"-Wl,-rpath,{os.path.dirname(library[0])}"]
            run("gcc", "-O2", "-o", reply, os.path.join(TOP, "bench", "c", "reply.c"), *flags)
            for kind in "read", "write":
                print(f"libmodbus, tcp {kind}: {counted(reply, 'tcp', kind):.0f}")
        else:
            print("libmodbus is not installed")
        stripped = os.path.join(work, "stripped.a")
        run("strip", "--strip-unneeded", "-o", stripped, ARCHIVE)
        print(f"the archive without symbols: {os.path.getsize(stripped)} bytes")
        print(run("size", "--totals", stripped).splitlines()[-1])


if __name__ == "__main__":
    main()
