#!/usr/bin/env python3
"""Counts what a call costs a client, in instructions.

usage: bench/calls.py

The forms of `modbus_bench watch` that connect, and a client over libmodbus, read one register after another of a server in this script that
answers at once; each read is printed on a line. Each does so 1,000 and 11,000 times under callgrind, and the difference a call is printed.
System calls are not counted, only what the program does around them. It is no test; it needs Python 3.9, valgrind, and gcc,
pkg-config and libmodbus-dev for the other client.

BENCH_PROGRAM names another program to measure in place of the built modbus_bench.
"""

import os
import re
import socket
import struct
import subprocess
import sys
import tempfile
import threading

HERE = os.path.dirname(os.path.abspath(__file__))
TOP = os.path.dirname(HERE)
sys.path.insert(0, os.path.join(TOP, "tools"))
from wire import adu, framed

PROGRAM = os.environ.get("BENCH_PROGRAM", os.path.join(TOP, "crates", "modbus_bench", "out", "modbus_bench"))
OTHER = os.path.join(TOP, "tools", "late", "libmodbus.c")
FEW, MANY = 1_000, 11_000
# how long a reply is waited for, in milliseconds
WAIT = 5_000
UNIT, FUNCTION = 1, 3


def by_adu(request):
    """The reply to an ADU that reads one register."""
    return adu(struct.unpack(">H", request[:2])[0], UNIT, bytes((FUNCTION, 2, 0, 7)))


def by_frame(request):
    """The reply to a frame that does."""
    return framed(bytes((UNIT, FUNCTION, 2, 0, 7)))


FORMS = {"tcp": by_adu, "patient": by_adu, "once-tcp": by_adu, "rtu": by_frame, "once-rtu": by_frame}


def answer(listener, reply):
    """Answers each request of each connection, one connection after another."""
    while True:
        connection, _ = listener.accept()
        connection.setsockopt(socket.IPPROTO_TCP, socket.TCP_NODELAY, 1)
        with connection:
            while request := connection.recv(300):
                connection.sendall(reply(request))


def instructions(command):
    """How many instructions a command takes."""
    counted = ["valgrind", "--tool=callgrind", "--callgrind-out-file=/dev/null", *command]
    done = subprocess.run(counted, stdout=subprocess.DEVNULL, stderr=subprocess.PIPE, text=True, check=True)
    return int(re.search(r"Collected : (\d+)", done.stderr).group(1))


def a_call(command, reply):
    """The instructions a call, of a command that takes a port and a count."""
    with socket.create_server(("127.0.0.1", 0)) as listener:
        threading.Thread(target=answer, args=(listener, reply), daemon=True).start()
        port = listener.getsockname()[1]
        few, many = (instructions(command(port, count)) for count in (FEW, MANY))
    return (many - few) / (MANY - FEW)


def watch(form):
    return lambda port, count: [PROGRAM, "watch", form, f"127.0.0.1:{port}", str(count), str(WAIT)]


def over_libmodbus(folder):
    """A client over libmodbus; none where it can't be built."""
    program = os.path.join(folder, "libmodbus")
    command = f"gcc -O2 -o {program} {OTHER} $(pkg-config --cflags --libs libmodbus)"
    built = subprocess.run(["sh", "-c", command], capture_output=True, check=False)
    return (lambda port, count: [program, str(port), str(count), str(WAIT)]) if built.returncode == 0 else None


def main():
    if not os.path.exists(PROGRAM):
        sys.exit("bench: build the program first: ./prove modbus_bench")
    for form, reply in FORMS.items():
        print(f"{form}: {a_call(watch(form), reply):.0f} instructions a call", flush=True)
    with tempfile.TemporaryDirectory() as folder:
        other = over_libmodbus(folder)
        if other is None:
            print("libmodbus: not installed: gcc, pkg-config, libmodbus-dev")
        else:
            print(f"libmodbus, TCP: {a_call(other, by_adu):.0f} instructions a call")


if __name__ == "__main__":
    main()
