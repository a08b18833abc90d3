#!/usr/bin/python3
"""A client over pymodbus 3.0 that is told what to do line by line, on one connection.

usage: pymodbus_client.py tcp|rtu PORT

The lines are `write ADDRESS VALUE` and `read ADDRESS`, of holding registers of unit 1. It prints `ok`, the value, or `fault`. With `rtu` it
sends RTU frames over its TCP connection.
"""

import sys

from pymodbus.client import ModbusTcpClient
from pymodbus.transaction import ModbusRtuFramer, ModbusSocketFramer


def answer(client, words):
    if words[0] == "write":
        return "fault" if client.write_register(int(words[1]), int(words[2]), slave=1).isError() else "ok"
    found = client.read_holding_registers(int(words[1]), 1, slave=1)
    return "fault" if found.isError() else found.registers[0]


def main():
    framer = ModbusRtuFramer if sys.argv[1] == "rtu" else ModbusSocketFramer
    client = ModbusTcpClient("127.0.0.1", port=int(sys.argv[2]), framer=framer, timeout=10)
    if not client.connect():
        sys.exit("no connection")
    for line in sys.stdin:
        print(answer(client, line.split()), flush=True)
    client.close()


if __name__ == "__main__":
    main()
