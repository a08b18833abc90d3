#!/usr/bin/env python3
"""A small Modbus TCP device, written from the standard with Python's library alone, for a client to be tried against.

usage: tools/poller/device.py PORT

It has 16 coils and 16 holding registers, which hold 0 at first, and serves functions 01, 03, 05, 06, 0F and 10 (MODBUS Application
Protocol V1.1b3, section 6). PORT 0 stands for any free port; the first line of its output is the port it listens on.
"""

import socketserver
import struct
import sys

SIZE = 16
ILLEGAL_FUNCTION, ILLEGAL_ADDRESS, ILLEGAL_VALUE = 1, 2, 3


class Refused(Exception):
    """An exception code in place of an answer."""


class Device:
    def __init__(self):
        self.coils = [False] * SIZE
        self.registers = [0] * SIZE

    def answer(self, pdu):
        """The PDU that answers this one."""
        function = pdu[0]
        served = {
            0x01: self.read_coils,
            0x03: self.read_registers,
            0x05: self.write_coil,
            0x06: self.write_register,
            0x0F: self.write_coils,
            0x10: self.write_registers,
        }
        try:
            if function not in served:
                raise Refused(ILLEGAL_FUNCTION)
            return bytes([function]) + served[function](pdu[1:])
        except Refused as refused:
            return bytes([function | 0x80, refused.args[0]])

    @staticmethod
    def span(data, most):
        """The first place and the one behind the last of a request that names an address and a quantity."""
        address, quantity = struct.unpack(">HH", data[:4])
        if not 1 <= quantity <= most:
            raise Refused(ILLEGAL_VALUE)
        if address + quantity > SIZE:
            raise Refused(ILLEGAL_ADDRESS)
        return address, address + quantity

    def read_coils(self, data):
        first, end = self.span(data, 2000)
        packed = bytearray((end - first + 7) // 8)
        for place, coil in enumerate(self.coils[first:end]):
            packed[place // 8] |= coil << place % 8
        return bytes([len(packed)]) + packed

    def read_registers(self, data):
        first, end = self.span(data, 125)
        return bytes([2 * (end - first)]) + struct.pack(f">{end - first}H", *self.registers[first:end])

    def write_coil(self, data):
        address, value = struct.unpack(">HH", data)
        if value not in (0x0000, 0xFF00):
            raise Refused(ILLEGAL_VALUE)
        if address >= SIZE:
            raise Refused(ILLEGAL_ADDRESS)
        self.coils[address] = value == 0xFF00
        return data

    def write_register(self, data):
        address, value = struct.unpack(">HH", data)
        if address >= SIZE:
            raise Refused(ILLEGAL_ADDRESS)
        self.registers[address] = value
        return data

    def write_coils(self, data):
        first, end = self.span(data, 1968)
        for place in range(end - first):
            self.coils[first + place] = bool(data[5 + place // 8] >> place % 8 & 1)
        return data[:4]

    def write_registers(self, data):
        first, end = self.span(data, 123)
        self.registers[first:end] = struct.unpack(f">{end - first}H", data[5:])
        return data[:4]


class Connection(socketserver.StreamRequestHandler):
    """Serves ADUs with an MBAP header until the client closes."""

    def handle(self):
        while len(header := self.rfile.read(7)) == 7:
            transaction, protocol, length, unit = struct.unpack(">HHHB", header)
            pdu = self.rfile.read(length - 1)
            reply = self.server.device.answer(pdu)
            self.wfile.write(struct.pack(">HHHB", transaction, protocol, len(reply) + 1, unit) + reply)


class Server(socketserver.ThreadingTCPServer):
    allow_reuse_address = True
    daemon_threads = True

    def __init__(self, port):
        super().__init__(("127.0.0.1", port), Connection)
        self.device = Device()


def main():
    with Server(int(sys.argv[1])) as server:
        print(server.server_address[1], flush=True)
        server.serve_forever()


if __name__ == "__main__":
    main()
