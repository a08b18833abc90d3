"""Reads registers of a device one after another by pymodbus, as modbus_bench does, and prints the same lines.

usage: pymodbus_client.py tcp|rtu PORT CALLS MILLISECONDS
"""

import logging
import sys

from pymodbus.client import ModbusTcpClient
from pymodbus.exceptions import ModbusException
from pymodbus.transaction import ModbusRtuFramer, ModbusSocketFramer


def line_of(client, register):
    """What one read gave."""
    try:
        answer = client.read_holding_registers(register, 1, unit=1)
    except (ModbusException, OSError) as fault:
        return " ".join(str(fault).split()) or "fault"
    return str(answer.registers) if not answer.isError() and len(answer.registers) == 1 else "fault"


def main():
    logging.disable(logging.CRITICAL)
    form, port, calls, wait = sys.argv[1], *map(int, sys.argv[2:])
    framer = ModbusRtuFramer if form == "rtu" else ModbusSocketFramer
    client = ModbusTcpClient("127.0.0.1", port=port, framer=framer, retries=0)
    # the constructor takes whole seconds alone
    client.params.timeout = wait / 1000
    client.connect()
    for register in range(calls):
        print(f"{register}: {line_of(client, register)}", flush=True)


if __name__ == "__main__":
    main()
