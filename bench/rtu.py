#!/usr/bin/env python3
"""Feeds the program RTU frames, and prints frames per second and the largest resident memory.

usage: bench/rtu.py [frames]

The frames are a mix of reads and writes of one and of many, made from a fixed seed. Each has an address inside the tables, so each
is answered.
"""

import os
import random
import subprocess
import sys
import tempfile
import time

TOP = os.path.dirname(os.path.dirname(os.path.abspath(__file__)))
sys.path.insert(0, os.path.join(TOP, "tools"))
from wire import framed

PROGRAM = os.path.join(TOP, "crates", "modbus", "out", "modbus")
FRAMES = 200_000
SEED = 1
TABLE = 1024


def word(number):
    return number.to_bytes(2, "big")


def request(rng):
    """The PDU of one request."""
    kind = rng.choice((0x01, 0x03, 0x05, 0x06, 0x0F, 0x10))
    address = rng.randrange(TABLE - 125)
    if kind == 0x01 or kind == 0x03:
        return bytes((kind,)) + word(address) + word(rng.randint(1, 125))
    if kind == 0x05:
        return bytes((kind,)) + word(address) + word(rng.choice((0x0000, 0xFF00)))
    if kind == 0x06:
        return bytes((kind,)) + word(address) + word(rng.randrange(0x10000))
    count = rng.randint(1, 64)
    size = (count + 7) // 8 if kind == 0x0F else 2 * count
    return bytes((kind,)) + word(address) + word(count) + bytes((size,)) + rng.randbytes(size)


def frames(count):
    """So many frames of slave 1, one after another."""
    rng = random.Random(SEED)
    for _ in range(count):
        body = b"\x01" + request(rng)
        yield framed(body)


def resident(pid):
    """The largest resident memory of a process so far, in KiB; 0 where it has ended."""
    try:
        with open(f"/proc/{pid}/status") as status:
            for line in status:
                if line.startswith("VmHWM:"):
                    return int(line.split()[1])
    except (FileNotFoundError, ProcessLookupError):
        pass
    return 0


def run(count):
    """The seconds that the program takes for so many frames, and its largest resident memory, in KiB."""
    most = 0
    with tempfile.TemporaryFile() as line:
        for frame in frames(count):
            line.write(frame)
        line.seek(0)
        begin = time.monotonic()
        program = subprocess.Popen([PROGRAM, "rtu"], stdin=line, stdout=subprocess.DEVNULL)
        while program.poll() is None:
            most = max(most, resident(program.pid))
            time.sleep(0.001)
        seconds = time.monotonic() - begin
    if program.returncode != 0:
        sys.exit(f"the program ended with status {program.returncode}")
    return seconds, most


def main():
    count = int(sys.argv[1]) if len(sys.argv) > 1 else FRAMES
    if not os.access(PROGRAM, os.X_OK):
        sys.exit("bench: build the program first: ./prove")
    for part in (count // 10, count):
        seconds, most = run(part)
        print(f"{part} frames in {seconds:.2f} s: {part / seconds:.0f} frames per second, {most} KiB resident at most")


if __name__ == "__main__":
    main()
