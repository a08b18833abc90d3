#!/usr/bin/env python3
"""Requests a second through modbus_serial_gateway, and through a gateway over libmodbus beside it, by the number of masters.

usage: bench/gateway.py [requests]

socat makes a pair of pseudo-terminals, which stands for a serial line: a slave over libmodbus has one end, and each gateway in turn the
other. A load generator (listen/load.c beside this file) keeps 1, 8 and 32 connections busy with reads of ten registers, for so many
requests in all (5,000). A pseudo-terminal has no baud rate, so what is measured is what the programs and the system take. It prints
requests a second, the middle of three runs. Build the program first, by ./prove. It is no test; it needs gcc, libmodbus-dev, socat and
Python 3.9.
"""

import contextlib
import os
import socket
import subprocess
import sys
import tempfile
import time

from listen import built, free_port

HERE = os.path.dirname(os.path.abspath(__file__))
PROGRAM = os.path.join(os.path.dirname(HERE), "crates", "modbus_serial_gateway", "out", "modbus_serial_gateway")
CONNECTIONS = (1, 8, 32)
REQUESTS = 5_000
TURNS = 3


@contextlib.contextmanager
def started(command, **streams):
    with subprocess.Popen(command, **streams) as process:
        try:
            yield process
        finally:
            process.kill()


def wait_for(is_there):
    for _ in range(200):
        if is_there():
            return
        time.sleep(0.05)
    sys.exit("bench: a program does not begin")


def listens(port):
    with contextlib.suppress(OSError), socket.create_connection(("127.0.0.1", port)):
        return True
    return False


@contextlib.contextmanager
def line(folder):
    """The two ends of a line, of which the second has a slave."""
    ends = [os.path.join(folder, end) for end in ("near", "far")]
    with started(["socat", *(f"pty,raw,echo=0,link={end}" for end in ends)]):
        wait_for(lambda: all(map(os.path.exists, ends)))
        with started([built(folder, "gateway/slaves", "-lmodbus"), ends[1]], stdout=subprocess.PIPE, text=True) as slave:
            slave.stdout.readline()
            yield ends[0]


def measure(load, port):
    """Requests a second, by the number of masters."""
    wait_for(lambda: listens(port))
    for masters in CONNECTIONS:
        runs = []
        for _ in range(TURNS):
            done = subprocess.run([load, str(port), str(masters), str(requests())], capture_output=True, text=True, check=True)
            runs.append(requests() / float(done.stdout))
        yield sorted(runs)[TURNS // 2]


def requests():
    return int(sys.argv[1]) if len(sys.argv) > 1 else REQUESTS


def main():
    if not os.access(PROGRAM, os.X_OK):
        sys.exit("bench: build the program first: ./prove")
    with tempfile.TemporaryDirectory() as folder, line(folder) as end:
        load, peer = built(folder, "listen/load"), built(folder, "gateway/peer", "-lmodbus")
        port = free_port()
        subprocess.run(["stty", "-F", end, "raw", "-echo"], check=True)
        terminal = os.open(end, os.O_RDWR | os.O_NOCTTY)
        with started([PROGRAM, str(port), "500"], stdin=terminal, stdout=terminal, stderr=subprocess.DEVNULL):
            ours = list(measure(load, port))
        os.close(terminal)
        port = free_port()
        with started([peer, str(port), end]):
            theirs = list(measure(load, port))
    print("masters | modbus_serial_gateway: requests a second | a gateway over libmodbus")
    for row in zip(CONNECTIONS, ours, theirs):
        print("{:7} | {:9,.0f} | {:9,.0f}".format(*row))


if __name__ == "__main__":
    main()
