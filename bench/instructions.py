#!/usr/bin/env python3
"""Counts what a request costs the program, in instructions and in allocations.

usage: bench/instructions.py

It serves 1,000 and 100,000 requests over standard input and output under callgrind, and prints the difference a request: for RTU frames,
for Modbus TCP and for ASCII frames, and the ten functions that cost most. Then it does the same for `make`, which makes its requests
itself, and for RTU frames that read, and that write, one register. Last it serves frames of kinds that carry no list (05, 06) under
memcheck, and prints the allocations a request. The requests are those of bench/rtu.py, from a fixed seed. It is no test; it needs Python 3.9 and valgrind.

BENCH_PROGRAM names another program to measure in place of the built one.
"""

import os
import random
import re
import subprocess
import sys
import tempfile

import rtu

FEW, MANY = 1_000, 100_000
UNIT = 1
PROGRAM = os.environ.get("BENCH_PROGRAM", rtu.PROGRAM)


def adus(count):
    """So many Modbus TCP requests of unit 1, one after another."""
    rng = random.Random(rtu.SEED)
    for transaction in range(count):
        pdu = rtu.request(rng)
        header = rtu.word(transaction % 65536) + rtu.word(0) + rtu.word(len(pdu) + 1) + bytes((UNIT,))
        yield header + pdu


def texts(count):
    """So many frames of the ASCII transmission mode for slave 1, one after another."""
    rng = random.Random(rtu.SEED)
    for _ in range(count):
        body = b"\x01" + rtu.request(rng)
        body += bytes((-sum(body) % 256,))
        yield b":" + body.hex().upper().encode() + b"\r\n"


def single_writes(count):
    """So many frames that write one coil or one register."""
    rng = random.Random(rtu.SEED)
    for _ in range(count):
        address = rtu.word(rng.randrange(rtu.TABLE))
        if rng.random() < 0.5:
            pdu = b"\x05" + address + rtu.word(rng.choice((0x0000, 0xFF00)))
        else:
            pdu = b"\x06" + address + rtu.word(rng.randrange(0x10000))
        body = b"\x01" + pdu
        yield rtu.framed(body)


def one_register(function):
    """Makes frames that read (03) or write (06) one register."""

    def frames(count):
        rng = random.Random(rtu.SEED)
        for _ in range(count):
            address = rtu.word(rng.randrange(rtu.TABLE))
            body = b"\x01" + bytes((function,)) + address + rtu.word(1)
            yield rtu.framed(body)

    return frames


def serve(tool, words, requests):
    """The text that a tool of valgrind tells of the program with these words over these requests."""
    with tempfile.TemporaryFile() as line:
        for request in requests:
            line.write(request)
        line.seek(0)
        done = subprocess.run(
            ["valgrind", *tool, PROGRAM, *words], stdin=line, stdout=subprocess.DEVNULL, stderr=subprocess.PIPE, check=True
        )
    return done.stderr.decode()


def number(pattern, text):
    return int(re.search(pattern, text).group(1).replace(",", ""))


def instructions(words, requests, profile):
    text = serve(["--tool=callgrind", f"--callgrind-out-file={profile}"], words, requests)
    return number(r"Collected : (\d+)", text)


def fed(word, make):
    """The program serves so many requests of its standard input."""
    return lambda count: ([word], make(count))


def made(count):
    """The program makes so many requests."""
    return (["make", str(count)], ())


def costs(name, run, rows=10):
    """Prints the instructions a request, and where they go."""
    with tempfile.TemporaryDirectory() as folder:
        profile = os.path.join(folder, "profile")
        few = instructions(*run(FEW), profile)
        many = instructions(*run(MANY), profile)
        print(f"{name}: {(many - few) / (MANY - FEW):.0f} instructions a request")
        listing = subprocess.run(["callgrind_annotate", profile], stdout=subprocess.PIPE, check=True).stdout.decode()
    found = [row for row in listing.splitlines() if re.match(r"\s*[\d,]+ \(\s*[\d.]+%\)\s+\S*:", row)]
    for row in found[:rows]:
        cost, where = re.match(r"\s*([\d,]+) \(.*?\)\s+(.*)", row).groups()
        name = where.split(" [")[0].split(":", 1)[1]
        print(f"  {int(cost.replace(',', '')) / MANY:7.1f}  {name}")


def allocations():
    few = number(r"total heap usage: ([\d,]+) allocs", serve([], ["rtu"], single_writes(FEW)))
    many = number(r"total heap usage: ([\d,]+) allocs", serve([], ["rtu"], single_writes(10 * FEW)))
    print(f"rtu, writes of one coil or register: {(many - few) / (9 * FEW):.3f} allocations a request")


def main():
    if not os.path.exists(PROGRAM):
        sys.exit("bench: build the program first: ./prove")
    costs("rtu", fed("rtu", rtu.frames))
    costs("tcp", fed("tcp", adus))
    costs("ascii", fed("ascii", texts))
    costs("make", made)
    costs("rtu, reads of one register", fed("rtu", one_register(0x03)), rows=0)
    costs("rtu, writes of one register", fed("rtu", one_register(0x06)), rows=0)
    allocations()


if __name__ == "__main__":
    main()
