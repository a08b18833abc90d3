"""The package of this folder at work: a device, a line of two, and a client, with no port and no socket.

usage: modbus.py SHARED_LIBRARY
"""

import sys

from mudrezzi import DONE, EXCEPTION, FOREIGN, MISMATCH, SILENT, WAITING, Client, ClientLine, Device, Line, Modbus, PduCall, frame


def asks(modbus):
    """Calls of functions that have no struct, on a line whose client waits for what is owed."""
    line = ClientLine(modbus, 500)
    assert line.wait() == 500
    line.silent(500)
    assert line.wait() == 0
    echo = bytes.fromhex("08 0000 A537")
    call = PduCall(modbus, 17, echo)
    assert call.message == frame(modbus, 17, echo)
    assert call.answer() is None and call.owes()
    assert call.feed(call.message) == len(call.message)
    assert call.answer() == echo and not call.owes()
    line.ended(call)
    assert line.wait() == 0
    # a call that was given up, and its late reply
    lost = PduCall(modbus, 17, b"\x07")
    line.ended(lost)
    assert lost.owes() and line.wait() == 500
    line.silent(499)
    line.heard()
    assert line.wait() == 500
    line.silent(500)
    line.told(200)
    assert line.wait() == 200
    call = PduCall(modbus, 255, b"\x07", transaction=1)
    assert call.message == bytes.fromhex("0001 0000 0002 FF 07")
    call.feed(bytes.fromhex("0001 0000 0003 FF 87 01"))
    assert call.answer() == bytes.fromhex("87 01") and call.status == EXCEPTION and not call.owes()
    try:
        PduCall(modbus, 255, b"", transaction=2)
        raise AssertionError("a call of no PDU was begun")
    except ValueError:
        pass


def main(path):
    modbus = Modbus(path)
    device = Device(modbus)
    write = bytes.fromhex("0001 0000 0009 01 10 0002 0001 02 1234")
    assert device.serve(write) == (DONE, 15, bytes.fromhex("0001 0000 0006 01 10 0002 0001"))
    assert device.holding_registers[2] == 0x1234
    read = bytes.fromhex("0002 0000 0006 01 03 0002 0001")
    assert device.serve(read + read) == (DONE, 12, bytes.fromhex("0002 0000 0005 01 03 02 1234"))
    assert device.serve(read[:11]) == (WAITING, 0, b"")
    # an address past the end
    assert device.serve(bytes.fromhex("0003 0000 0006 01 03 0400 0001"))[2] == bytes.fromhex("0003 0000 0003 01 83 02")
    # a byte of noise before a frame
    heard = b"\xff" + frame(modbus, 1, bytes.fromhex("03 0002 0001"))
    assert device.serve(heard, "rtu") == (DONE, 9, frame(modbus, 1, bytes.fromhex("03 02 1234")))
    assert device.serve(b":010300020001F9\r\n", "ascii") == (DONE, 17, b":0103021234B4\r\n")
    # as a server of TCP takes it: what can't be read is answered, and another protocol is told at once
    assert device.answer(read) == (DONE, 12, bytes.fromhex("0002 0000 0005 01 03 02 1234"))
    assert device.answer(bytes.fromhex("0003 0000 0003 01 03 00"))[2] == bytes.fromhex("0003 0000 0003 01 83 03")
    assert device.answer(b"GET ") == (FOREIGN, 0, b"")
    # a line of two devices: the requests of neighbours are neither answered nor done
    other = Device(modbus)
    line = Line(modbus, {17: device, 18: other})
    assert line.hear(frame(modbus, 17, bytes.fromhex("03 0002 0001"))) == (DONE, frame(modbus, 17, bytes.fromhex("03 02 1234")))
    assert line.hear(frame(modbus, 18, bytes.fromhex("06 0003 0007"))) == (DONE, frame(modbus, 18, bytes.fromhex("06 0003 0007")))
    assert line.hear(frame(modbus, 19, bytes.fromhex("06 0003 0009"))) == (SILENT, b"")
    assert (device.holding_registers[3], other.holding_registers[3]) == (0, 7)
    # a client of the same device, whose answers come byte by byte, the late one of another transaction first
    late = bytes.fromhex("0000 0000 0005 01 03 02 FFFF")
    client = Client(modbus, 1, lambda sent: [bytes([it]) for it in late + device.serve(sent)[2]])
    assert client.holding_registers(2, 1) == [0x1234]
    assert client.holding_registers(1024, 1) == 2
    # a reply of two registers where one was asked for
    client = Client(modbus, 1, lambda sent: [bytes.fromhex("0001 0000 0007 01 03 04 1234 5678")])
    try:
        client.holding_registers(2, 1)
        raise AssertionError("a reply to another request was taken")
    except ValueError as error:
        assert str(error) == f"status {MISMATCH}"
    asks(modbus)
    print("each answer was the one wanted")


if __name__ == "__main__":
    main(sys.argv[1])
