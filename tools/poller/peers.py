"""What the poller meets: servers, slaves and ports, good ones and bad ones, on this machine alone."""

import contextlib
import os
import socket
import struct
import subprocess
import sys
import threading
import time
import tty

HERE = os.path.dirname(os.path.abspath(__file__))
sys.path[:0] = [HERE, os.path.dirname(HERE)]
import programs
from wire import framed, free_port

import device as devices

MODBUS = os.environ.get("MODBUS") or programs.path("modbus")
SECONDS = 30

# More connections than wait at a listener without room.
MOST_WAITING = 16


def wait_for(port):
    """Waits until a server listens there."""
    for _ in range(200):
        with contextlib.suppress(OSError), socket.create_connection(("127.0.0.1", port), timeout=1):
            return
        time.sleep(0.05)


@contextlib.contextmanager
def started(command):
    """The port of a server that prints it in its first line."""
    with subprocess.Popen(command, stdout=subprocess.PIPE, text=True) as server:
        try:
            port = int(server.stdout.readline())
            wait_for(port)
            yield port
        finally:
            server.kill()


@contextlib.contextmanager
def listening():
    """The port of the listener of this repository."""
    port = free_port()
    with subprocess.Popen([MODBUS, "listen-tcp", str(port)]) as server:
        try:
            wait_for(port)
            yield port
        finally:
            server.kill()


@contextlib.contextmanager
def served(handle):
    """The port of a server that hands each connection to a function."""
    with socket.create_server(("127.0.0.1", 0)) as listener:

        def accept():
            with contextlib.suppress(OSError):
                while True:
                    handle(listener.accept()[0])

        threading.Thread(target=accept, daemon=True).start()
        try:
            yield listener.getsockname()[1]
        finally:
            # so that no later server's connection goes to this one
            with contextlib.suppress(OSError):
                listener.shutdown(socket.SHUT_RDWR)


@contextlib.contextmanager
def refused():
    """A port where nothing listens."""
    with socket.socket() as bound:
        bound.bind(("127.0.0.1", 0))
        yield bound.getsockname()[1]


@contextlib.contextmanager
def full():
    """The port of a listener with room for no more connections: the next is not answered."""
    with socket.socket() as listener, contextlib.ExitStack() as waiting:
        listener.bind(("127.0.0.1", 0))
        listener.listen(0)
        with contextlib.suppress(TimeoutError):
            for _ in range(MOST_WAITING):
                link = waiting.enter_context(socket.socket())
                link.settimeout(0.2)
                link.connect(listener.getsockname())
        yield listener.getsockname()[1]


kept = []


def request_of(connection):
    """The transaction, the unit and the PDU of a request; None at the end."""
    header = connection.recv(7, socket.MSG_WAITALL)
    if len(header) < 7:
        return None
    transaction, _, length, unit = struct.unpack(">HHHB", header)
    return transaction, unit, connection.recv(length - 1, socket.MSG_WAITALL)


def reply(connection, transaction, unit, pdu):
    connection.sendall(struct.pack(">HHHB", transaction, 0, len(pdu) + 1, unit) + pdu)


def close_at_once(connection):
    request_of(connection)
    connection.close()


def close_midway(connection):
    """Closes after the front of a reply."""
    transaction, unit, _ = request_of(connection)
    connection.sendall(struct.pack(">HHHB", transaction, 0, 6, unit))
    connection.close()


def one_word_alone(connection):
    """Answers each read with one register."""
    with connection:
        while request := request_of(connection):
            transaction, unit, pdu = request
            reply(connection, transaction, unit, bytes([pdu[0], 2, 0, 7]))


def dribble(connection):
    """Answers each read with one register, a byte each tenth of a second."""
    with contextlib.suppress(OSError), connection:
        while request := request_of(connection):
            transaction, unit, pdu = request
            for byte in struct.pack(">HHHBBBH", transaction, 0, 5, unit, pdu[0], 2, 7):
                time.sleep(0.1)
                connection.sendall(bytes([byte]))


class Busy:
    """Answers the second read of those that come with an exception, and each other one with its number."""

    def __init__(self):
        self.reads = 0

    def __call__(self, connection):
        with connection:
            while request := request_of(connection):
                transaction, unit, pdu = request
                self.reads += 1
                answer = bytes([pdu[0], 2, 0, self.reads]) if self.reads != 2 else bytes([pdu[0] | 0x80, 6])
                reply(connection, transaction, unit, answer)


def by_table(connection):
    """Answers each read of a register with the number of its function: 3 of a holding register, 4 of an input register."""
    with connection:
        while request := request_of(connection):
            transaction, unit, pdu = request
            reply(connection, transaction, unit, bytes([pdu[0], 2, 0, pdu[0]]))


class Writes:
    """Keeps the PDUs of the writes that come, and confirms each after so many seconds."""

    def __init__(self, seconds=0):
        self.seconds = seconds
        self.pdus = []

    def __call__(self, connection):
        with contextlib.suppress(OSError), connection:
            while request := request_of(connection):
                transaction, unit, pdu = request
                self.pdus.append(pdu)
                time.sleep(self.seconds)
                reply(connection, transaction, unit, pdu[:5])

    def found(self):
        """The PDUs, once none can be under way any more."""
        time.sleep(3 * self.seconds)
        return self.pdus


def coils_of(port, first, count):
    """The states of at most eight coils, read by a plain socket."""
    with socket.create_connection(("127.0.0.1", port), timeout=SECONDS) as connection:
        reply(connection, 1, 1, struct.pack(">BHH", 1, first, count))
        _, _, pdu = request_of(connection)
        return [pdu[2] >> place & 1 for place in range(count)]


class Slave:
    """A slave with the registers of the small device, by RTU frames, over a connection or a pseudo-terminal."""

    # a request of these function codes has 8 bytes; the others tell behind 6 bytes how many follow
    SHORT = (1, 2, 3, 4, 5, 6)

    def __init__(self):
        self.device = devices.Device()
        self.units = []

    def size(self, held):
        """How many bytes the request has that these begin."""
        if len(held) < 7:
            return 8
        return 8 if held[1] in self.SHORT else 9 + held[6]

    def serve(self, read, write):
        held = b""
        with contextlib.suppress(OSError):
            while heard := read():
                held += heard
                while len(held) >= self.size(held):
                    frame, held = held[: self.size(held)], held[self.size(held) :]
                    self.units.append(frame[0])
                    write(framed(frame[:1] + self.device.answer(frame[1:-2])))

    def __call__(self, connection):
        """Serves a connection."""
        with connection:
            self.serve(lambda: connection.recv(300), connection.sendall)


class Port:
    """A pseudo-terminal with a slave behind it, at a path of its own, which can be pulled out."""

    def __init__(self, folder, name="ttyUSB0"):
        self.path = os.path.join(folder, name)
        self.slave = Slave()
        self.plug()

    def plug(self):
        self.end, self.terminal = os.openpty()
        tty.setraw(self.terminal)
        os.symlink(os.ttyname(self.terminal), self.path)
        end = self.end
        threading.Thread(target=self.slave.serve, args=(lambda: os.read(end, 300), lambda frame: os.write(end, frame)), daemon=True).start()

    def pull(self):
        """Takes the port away: who holds it reads its end."""
        os.unlink(self.path)
        os.close(self.terminal)
        os.close(self.end)


class Refusing:
    """Serves the small device, but for reads of registers from one address on, which have exception 02."""

    def __init__(self, address):
        self.address = address
        self.device = devices.Device()

    def __call__(self, connection):
        with contextlib.suppress(OSError), connection:
            while request := request_of(connection):
                transaction, unit, pdu = request
                is_refused = pdu[0] == 3 and struct.unpack(">H", pdu[1:3])[0] == self.address
                reply(connection, transaction, unit, b"\x83\x02" if is_refused else self.device.answer(pdu))


class Kept:
    """Serves the small device, which confirms writes of registers, and keeps what it held."""

    def __init__(self):
        self.device = devices.Device()

    def __call__(self, connection):
        with contextlib.suppress(OSError), connection:
            while request := request_of(connection):
                transaction, unit, pdu = request
                reply(connection, transaction, unit, pdu[:5] if pdu[0] in (6, 16) else self.device.answer(pdu))
