#!/usr/bin/env python3
"""Requests a second of the server of one thread, `modbus_loop`, of `listen-tcp`, and of a server over libmodbus beside them, by the number of
connections; and what idle connections cost.

usage: bench/listen.py [requests]

A load generator (listen/load.c beside this file) keeps 1, 8, 256, 1,000 and 4,000 connections busy with reads of ten registers, for so many
requests in all (200,000). It prints requests a second, the processor time of the server a request, in user and in system mode, and the KiB
that the server has resident, for each server in turn, the middle one of three runs. libmodbus waits by select, so it takes no more than some
1,000 connections. Then one connection is busy beside 10,000 idle ones. Each server has the first half of the processors, and the generator
the other half. Build the programs first, by ./prove. It is no test; it needs gcc, libmodbus-dev and Python 3.9.
"""

import contextlib
import os
import resource
import socket
import subprocess
import sys
import tempfile
import time

HERE = os.path.dirname(os.path.abspath(__file__))
TOP = os.path.dirname(HERE)
sys.path.insert(0, os.path.join(TOP, "tools"))
from wire import free_port

LOOP = os.path.join(TOP, "crates", "modbus_loop", "out", "modbus_loop")
THREADS = os.path.join(TOP, "crates", "modbus", "out", "modbus")
CONNECTIONS = (1, 8, 256, 1_000, 4_000)
IDLE = 10_000
MOST_BY_SELECT = 1_000
REQUESTS = 200_000
TURNS = 3


def halves():
    """The processors of the server and those of the generator."""
    all_of_them = sorted(os.sched_getaffinity(0))
    middle = max(1, len(all_of_them) // 2)
    return all_of_them[:middle], all_of_them[middle:] or all_of_them


def built(folder, place, *libraries):
    """The program of this C file, made in the folder."""
    program = os.path.join(folder, os.path.basename(place))
    source = os.path.join(HERE, place + ".c")
    subprocess.run(["gcc", "-O2", "-Wall", "-o", program, source, *libraries], check=True)
    return program


@contextlib.contextmanager
def started(command, processors, port=None):
    """A server and its port, which it prints where none is given."""
    with subprocess.Popen(
        command, stdout=subprocess.PIPE, stderr=subprocess.DEVNULL, text=True, preexec_fn=lambda: os.sched_setaffinity(0, processors)
    ) as server:
        try:
            port = port or int(server.stdout.readline())
            for _ in range(100):
                with contextlib.suppress(OSError), socket.create_connection(("127.0.0.1", port)):
                    break
                time.sleep(0.05)
            yield server.pid, port
        finally:
            server.kill()


def spent(pid):
    """Seconds of processor time in user mode and in system mode."""
    with open(f"/proc/{pid}/stat") as stat:
        fields = stat.read().rpartition(")")[2].split()
    return [int(fields[k]) / os.sysconf("SC_CLK_TCK") for k in (11, 12)]


def resident(pid):
    """The KiB that a process has resident."""
    with open(f"/proc/{pid}/status") as status:
        return next(int(line.split()[1]) for line in status if line.startswith("VmRSS"))


def run(load, processors, pid, port, connections, requests):
    """Requests a second, microseconds of the server a request in user and in system mode, and the most KiB that it had resident."""
    before, most = spent(pid), 0
    with subprocess.Popen(
        [load, str(port), str(connections), str(requests)],
        stdout=subprocess.PIPE,
        text=True,
        preexec_fn=lambda: os.sched_setaffinity(0, processors),
    ) as generator:
        while generator.poll() is None:
            most = max(most, resident(pid))
            time.sleep(0.02)
        seconds = generator.stdout.read()
    if generator.returncode:
        return None
    user, system = (1e6 * (after - at) / requests for at, after in zip(before, spent(pid)))
    return requests / float(seconds), user, system, most


def cell(load, processors, server, connections, requests):
    """The middle one of the runs, as text."""
    turns = [run(load, processors, *server, connections, requests) for _ in range(TURNS)]
    if None in turns:
        return f"{'none':>34}"
    rate, user, system, most = sorted(turns)[TURNS // 2]
    return f"{rate:9,.0f} {user:6.2f} {system:6.2f} {most:10,}"


@contextlib.contextmanager
def idle(port, count):
    """So many connections that send nothing."""
    with contextlib.ExitStack() as all_of_them:
        for _ in range(count):
            all_of_them.enter_context(socket.create_connection(("127.0.0.1", port)))
        yield


def main():
    for program in (LOOP, THREADS):
        if not os.access(program, os.X_OK):
            sys.exit("bench: build the programs first: ./prove")
    most = resource.getrlimit(resource.RLIMIT_NOFILE)[1]
    resource.setrlimit(resource.RLIMIT_NOFILE, (most, most))
    requests = int(sys.argv[1]) if len(sys.argv) > 1 else REQUESTS
    of_server, of_load = halves()
    with tempfile.TemporaryDirectory() as folder:
        load, peer = built(folder, "listen/load"), built(folder, "listen/peer", "-lmodbus")
        commands = (("modbus_loop", LOOP, "tcp"), ("listen-tcp", THREADS, "listen-tcp"), ("libmodbus", peer))
        print("each: requests a second, microseconds a request in user and in system mode, KiB resident")
        print("connections | " + " | ".join(f"{name:>34}" for name, *_ in commands), flush=True)
        for connections in CONNECTIONS:
            cells = []
            for name, *command in commands:
                if name == "libmodbus" and connections > MOST_BY_SELECT:
                    continue
                port = None if name == "libmodbus" else free_port()
                words = command if port is None else [*command, str(port)]
                with started(words, of_server, port) as server:
                    cells.append(cell(load, of_load, server, connections, max(requests, connections)))
            print(f"{connections:11,} | " + " | ".join(cells), flush=True)
        cells = []
        for name, *command in commands[:2]:
            port = free_port()
            with started([*command, str(port)], of_server, port) as server:
                try:
                    with idle(port, IDLE):
                        cells.append(cell(load, of_load, server, 1, requests // 10))
                except OSError as error:
                    cells.append(f"{str(error):>34}")
        print(f"  1, {IDLE:,} idle | " + " | ".join(cells), flush=True)


if __name__ == "__main__":
    main()
