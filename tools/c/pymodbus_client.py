"""Asks the server of examples/c as pymodbus does. The status is 0 where each answer was the one wanted.

usage: pymodbus_client.py PORT
"""

import sys

from pymodbus.client import ModbusTcpClient


def main(port):
    client = ModbusTcpClient("127.0.0.1", port=int(port), timeout=5)
    assert client.connect()
    words = [1000 + i for i in range(123)]
    assert not client.write_registers(7, words).isError()
    assert client.read_holding_registers(7, 123).registers == words
    assert not client.write_register(9, 0xFFFF).isError()
    assert client.read_holding_registers(9, 1).registers == [0xFFFF]
    assert client.read_input_registers(0, 2).registers == [65535, 65534]
    coils = [i % 3 == 0 for i in range(20)]
    assert not client.write_coils(5, coils).isError()
    assert client.read_coils(5, 20).bits[:20] == coils
    assert not client.write_coil(6, True).isError()
    assert client.read_coils(6, 1).bits[0]
    assert client.read_discrete_inputs(0, 8).bits == [False, True] * 4
    refused = client.read_holding_registers(1000, 100)
    assert refused.isError() and refused.exception_code == 2
    client.close()
    print("each answer was the one wanted")


main(*sys.argv[1:])
