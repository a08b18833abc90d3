#!/usr/bin/python3
"""A client over pymodbus 3.0 that names no unit: pymodbus then asks unit 0.

usage: default_unit.py PORT

It writes registers and reads them again, a coil too, and prints what it read, or which call failed.
"""

import sys

from pymodbus.client import ModbusTcpClient


def found(name, answer):
    if answer.isError():
        sys.exit(f"{name}: {answer}")
    return answer


def main():
    client = ModbusTcpClient("127.0.0.1", port=int(sys.argv[1]), timeout=2, retries=0)
    if not client.connect():
        sys.exit("no connection")
    found("write one register", client.write_register(20, 5))
    found("write registers", client.write_registers(21, [6, 7]))
    found("write a coil", client.write_coil(20, True))
    print(found("read registers", client.read_holding_registers(20, 3)).registers, found("read coils", client.read_coils(20, 1)).bits[0])
    client.close()


if __name__ == "__main__":
    main()
