"""What a tool puts on a wire: frames of a serial line, ADUs of Modbus TCP, and a port to listen on."""

import socket
import struct


def crc(body):
    """The checksum of a frame, its low byte first (MODBUS over Serial Line V1.02, section 6.2.2)."""
    value = 0xFFFF
    for byte in body:
        value ^= byte
        for _ in range(8):
            value = (value >> 1) ^ 0xA001 if value & 1 else value >> 1
    return struct.pack("<H", value)


def framed(body):
    """A frame: slave address and PDU with their checksum."""
    return body + crc(body)


def adu(transaction, unit, pdu, protocol=0):
    """An ADU with its MBAP header (MODBUS Messaging on TCP/IP V1.0b, section 3.1.3)."""
    return struct.pack(">HHHB", transaction, protocol, len(pdu) + 1, unit) + pdu


def free_port():
    """A port of 127.0.0.1 that nothing listens on now."""
    with socket.create_server(("127.0.0.1", 0)) as it:
        return it.getsockname()[1]
