#!/usr/bin/python3
"""Calls a Modbus server on a loopback port with the client of pymodbus 3.0, and prints each call and its answer.

usage: client.py PORT [ascii]

It sends ADUs of Modbus TCP, or frames of the ASCII transmission mode. The server has four tables of 1024 entries that hold 0 at first, for
each connection its own. The status is 0 only where each answer was the one wanted. Numbers above 9 are printed in hexadecimal.
"""

import sys

from pymodbus.client import ModbusTcpClient
from pymodbus.exceptions import ModbusException
from pymodbus.file_message import ReadFifoQueueRequest
from pymodbus.framer.ascii_framer import ModbusAsciiFramer
from pymodbus.framer.socket_framer import ModbusSocketFramer

HOST = "127.0.0.1"
SECONDS = 10
EXCEPTIONS = {1: "IllegalFunction", 2: "IllegalDataAddress", 3: "IllegalDataValue"}
# What the answer to a write repeats of the call.
REPEATED = ("address", "value", "count", "and_mask", "or_mask")
# The calls of pymodbus 3.0 whose unit is named unit; elsewhere it is named slave.
NAME_UNIT = ("mask_write_register", "readwrite_registers", "read_fifo_queue")


def show(it):
    if isinstance(it, list):
        return "[" + ", ".join(show(part) for part in it) + "]"
    if isinstance(it, dict):
        return ", ".join(f"{name}={show(part)}" for name, part in it.items())
    return hex(it) if isinstance(it, int) and it > 9 else str(it)


def exception(code):
    return f"exception {code} ({EXCEPTIONS.get(code, 'another')})"


def meaning(answer, count):
    """What an answer says: a list of so many entries, what a write repeats, or the text of an exception or a fault."""
    if hasattr(answer, "exception_code"):
        return exception(answer.exception_code)
    if answer.isError():
        return str(answer)
    if hasattr(answer, "bits"):
        bits = [int(bit) for bit in answer.bits]
        # Zeros fill up the last byte of a list of bits.
        return bits if any(bits[count:]) else bits[:count]
    if hasattr(answer, "registers"):
        return answer.registers
    if hasattr(answer, "values"):
        return answer.values
    return {name: int(getattr(answer, name)) for name in REPEATED if hasattr(answer, name)}


class Connection:
    """One connection, whose calls are counted: over TCP pymodbus gives them the transaction numbers 1, 2 and so on."""

    def __init__(self, name, port, framer):
        self.name = name
        self.framer = framer
        self.calls = 0
        self.client = ModbusTcpClient(HOST, port=port, timeout=SECONDS, framer=framer)
        assert self.client.connect(), f"no connection to {HOST}:{port}"

    def call(self, wanted, name, *args, unit=1, **named):
        """Makes a call of pymodbus for a unit, prints it with its answer, and asserts that the answer is the one wanted."""
        self.calls += 1
        shown = ", ".join([show(it) for it in args] + [show(named)] * bool(named))
        text = f"connection {self.name}, unit {unit}: {name}({shown})"
        make = self.read_fifo_queue if name == "read_fifo_queue" else getattr(self.client, name)
        answer = make(*args, **named, **{"unit" if name in NAME_UNIT else "slave": unit})
        got = meaning(answer, len(wanted))
        print(f"{text} -> {show(got)}", flush=True)
        assert got == wanted, f"wanted {show(wanted)}"
        if self.framer is ModbusSocketFramer:
            assert answer.transaction_id == self.calls, f"transaction {self.calls} was answered as {answer.transaction_id}"
        assert answer.unit_id == unit, f"the answer is of unit {answer.unit_id}"

    def read_fifo_queue(self, address, unit):
        """pymodbus 3.0 has the request, and no call of that name."""
        return self.client.execute(ReadFifoQueueRequest(address, unit=unit))

    def close(self):
        self.client.close()


def registers(it):
    it.call([0, 0], "read_holding_registers", 0x10, 2)
    it.call({"address": 1, "value": 3}, "write_register", 1, 3)
    it.call([3], "read_holding_registers", 1, 1)
    it.call({"address": 6, "count": 2}, "write_registers", 6, [0xABCD, 0xEF12])
    it.call([0, 0xABCD, 0xEF12, 0], "read_holding_registers", 5, 4)
    it.call([0, 0, 0], "read_input_registers", 5, 3)


def coils(it):
    pattern = [1, 0, 1, 1, 0, 0, 1, 1, 1, 0]
    it.call({"address": 0x13, "count": 10}, "write_coils", 0x13, pattern)
    it.call([0, *pattern, 0], "read_coils", 0x12, 12)
    it.call({"address": 0x14, "value": 1}, "write_coil", 0x14, True)
    it.call([1, 1, 1], "read_coils", 0x13, 3)
    it.call([0] * 10, "read_discrete_inputs", 0x13, 10)


def changes(it):
    """A register is changed under a mask; others are written and read by one call, the write first."""
    it.call({"address": 4, "value": 0x0012}, "write_register", 4, 0x0012)
    it.call({"address": 4, "and_mask": 0x00F2, "or_mask": 0x0025}, "mask_write_register", 4, 0x00F2, 0x0025)
    it.call([0x0017], "read_holding_registers", 4, 1)
    both = {"read_address": 6, "read_count": 4, "write_address": 8, "write_registers": [1, 2]}
    it.call([0xABCD, 0xEF12, 1, 2], "readwrite_registers", **both)


def queues(it):
    """A count with its registers behind it. pymodbus 3.0 gives all but the last four, as it takes four from the count."""
    it.call({"address": 0x20, "count": 7}, "write_registers", 0x20, [6, 1, 2, 3, 4, 5, 6])
    it.call([1, 2], "read_fifo_queue", 0x20)
    it.call([], "read_fifo_queue", 0x3FF)
    it.call({"address": 0x20, "value": 32}, "write_register", 0x20, 32)
    it.call(exception(3), "read_fifo_queue", 0x20)
    it.call({"address": 0x3FF, "value": 1}, "write_register", 0x3FF, 1)
    it.call(exception(2), "read_fifo_queue", 0x3FF)
    it.call({"address": 0x3FF, "value": 0}, "write_register", 0x3FF, 0)
    it.call(exception(2), "read_fifo_queue", 0x400)


def exceptions(it):
    """The last entry can be read; a read or write past it is refused, and changes nothing."""
    it.call([0], "read_holding_registers", 1023, 1)
    it.call(exception(2), "read_holding_registers", 1023, 2)
    it.call(exception(2), "write_registers", 1023, [1, 2])
    it.call([0], "read_holding_registers", 1023, 1)


def units(it):
    """Units 0 and 255 are answered like any other, from the same tables; on a serial line 0 is all, and nobody answers."""
    least = 0 if it.framer is ModbusSocketFramer else 2
    it.call([3], "read_holding_registers", 1, 1, unit=least)
    it.call([3], "read_holding_registers", 1, 1, unit=255)
    it.call({"address": 2, "value": 7}, "write_register", 2, 7, unit=least)
    it.call({"address": 3, "value": 8}, "write_register", 3, 8, unit=255)
    it.call([3, 7, 8], "read_holding_registers", 1, 3)


def connections(first, port):
    """A second connection, while the first is open, sees zeros; the first doesn't see what it writes."""
    second = Connection("B", port, first.framer)
    second.call([0, 0, 0], "read_holding_registers", 1, 3)
    second.call([0] * 10, "read_coils", 0x13, 10)
    second.call({"address": 1, "value": 9}, "write_register", 1, 9)
    first.call([3, 7, 8], "read_holding_registers", 1, 3)
    second.close()


def main():
    if len(sys.argv) != 2 and sys.argv[2:] != ["ascii"]:
        sys.exit("usage: client.py PORT [ascii]")
    port = int(sys.argv[1])
    first = Connection("A", port, ModbusAsciiFramer if sys.argv[2:] else ModbusSocketFramer)
    for part in (registers, coils, changes, queues, exceptions, units):
        part(first)
    connections(first, port)
    first.close()


if __name__ == "__main__":
    try:
        main()
    except (AssertionError, ModbusException) as error:
        sys.exit(f"client.py: {error}")
