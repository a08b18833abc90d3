#!/usr/bin/env python3
"""Measures the built modbus_supervisor over 100, 1,000 and 5,000 connections to one built modbus_loop on the loopback interface.

usage: bench/supervisor.py [PROGRAM [LOOP]]

Prints for each number of devices how many polls it makes in a second at most, and how much processor time each takes, then and where each device
is polled once a second. A poll is one read of one register.
"""

import os
import resource
import socket
import subprocess
import sys
import tempfile
import time

TOP = os.path.dirname(os.path.dirname(os.path.abspath(__file__)))


def built(place, name):
    return sys.argv[place] if len(sys.argv) > place else os.path.join(TOP, "crates", name, "out", name)


PROGRAM, LOOP = built(1, "modbus_supervisor"), built(2, "modbus_loop")
DEVICES = (100, 1000, 5000)
# how many polls are made as fast as they can be
MOST_POLLS = 100_000


def processor_seconds():
    usage = resource.getrusage(resource.RUSAGE_CHILDREN)
    return usage.ru_utime + usage.ru_stime


def device(number, port):
    """A device of the map with one point."""
    points = f'[{{ name = "a", address = {number % 1024}, kind = "u16" }}]'
    return f'[[device]]\nname = "d{number}"\ntcp = "127.0.0.1:{port}"\npoints = {points}\n'


def measure(path, devices, every, count):
    """Prints what so many polls of each of so many devices take."""
    before, began = processor_seconds(), time.monotonic()
    words = ["--every", str(every), "--timeout", "5000", "--connections", str(devices), "--count", str(count)]
    done = subprocess.run([PROGRAM, path, *words], capture_output=True, text=True, check=True)
    took, used = time.monotonic() - began, processor_seconds() - before
    if "away" in done.stdout or len(done.stdout.splitlines()) != devices:
        sys.exit(f"a device was away: {done.stdout[:200]}")
    polls = devices * count
    print(f"{devices} devices every {every} ms: {polls} polls in {took:.1f} s, {polls / took:,.0f} a second, {1e6 * used / polls:.1f} us of processor time each")


def main():
    soft, hard = resource.getrlimit(resource.RLIMIT_NOFILE)
    resource.setrlimit(resource.RLIMIT_NOFILE, (min(hard, max(soft, 16384)), hard))
    with socket.create_server(("127.0.0.1", 0)) as listener:
        port = listener.getsockname()[1]
    loop = subprocess.Popen([LOOP, "tcp", str(port)], stderr=subprocess.PIPE, text=True)
    loop.stderr.readline()
    for devices in DEVICES:
        with tempfile.NamedTemporaryFile("w", suffix=".toml") as file:
            file.writelines(device(number, port) for number in range(devices))
            file.flush()
            measure(file.name, devices, 1, MOST_POLLS // devices)
            measure(file.name, devices, 1000, 10)
    loop.kill()
    loop.wait()


if __name__ == "__main__":
    main()
