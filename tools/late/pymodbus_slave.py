"""A slave of pymodbus on a serial line: holding register n holds 1000 + n.

usage: pymodbus_slave.py rtu|ascii TERMINAL BAUD
"""

import asyncio
import logging
import sys

from pymodbus.datastore import ModbusSequentialDataBlock, ModbusServerContext, ModbusSlaveContext
from pymodbus.server import StartAsyncSerialServer
from pymodbus.transaction import ModbusAsciiFramer, ModbusRtuFramer

REGISTERS = 2000


async def main():
    logging.disable(logging.CRITICAL)
    form, terminal, baud = sys.argv[1:]
    # its tables begin at 1
    table = ModbusSequentialDataBlock(1, [1000 + n for n in range(REGISTERS)])
    context = ModbusServerContext(slaves={1: ModbusSlaveContext(hr=table)}, single=False)
    framer = ModbusAsciiFramer if form == "ascii" else ModbusRtuFramer
    print("ready", flush=True)
    await StartAsyncSerialServer(context, framer=framer, port=terminal, baudrate=int(baud), timeout=0.005)


if __name__ == "__main__":
    asyncio.run(main())
