/* Two devices on a line, one behind Modbus TCP, and calls of a client by PDUs, with no port and no socket: bytes in, and bytes out. */
#include "modbus.hpp"

#include <cstdio>

static int failed;

static void want(const char *what, bool holds) {
    if (!holds) {
        std::printf("FAILED: %s\n", what);
        failed++;
    }
}

/* Calls of functions that have no struct, on a line whose client waits for what is owed. */
static void asks() {
    modbus::ClientLine line(500);
    want("a line that was just opened", line.wait() == 500);
    line.silent(500);
    want("a line that was silent", line.wait() == 0);

    modbus::PduCall diagnosis = modbus::PduCall::rtu(17, {0x08, 0x00, 0x00, 0xA5, 0x37});
    const modbus::Bytes echo = modbus::frame(17, {0x08, 0x00, 0x00, 0xA5, 0x37});
    want("the frame of a PDU", diagnosis.message() == echo);
    want("a call without an answer", !diagnosis.answer() && diagnosis.owes());
    want("the reply is fed", diagnosis.feed(echo) == echo.size());
    const std::optional<modbus::Reply> echoed = diagnosis.answer();
    want("an echo", echoed && echoed->pdu == modbus::Bytes{0x08, 0x00, 0x00, 0xA5, 0x37} && echoed->exception == 0 && !diagnosis.owes());
    line.ended(diagnosis);
    want("nothing is owed", line.wait() == 0);

    modbus::PduCall lost = modbus::PduCall::rtu(17, {0x07});
    line.ended(lost);
    want("a call that was given up", lost.owes() && line.wait() == 500);
    line.silent(499);
    line.heard();
    want("its late reply", line.wait() == 500);
    line.silent(500);
    line.told(200);
    want("the turnaround behind a broadcast", line.wait() == 200);

    modbus::PduCall status = modbus::PduCall::tcp(1, 255, {0x07});
    status.feed({0, 1, 0, 0, 0, 3, 255, 0x87, 0x01});
    const std::optional<modbus::Reply> refused = status.answer();
    want("an exception", refused && refused->exception == MODBUS_ILLEGAL_FUNCTION && !status.owes());
    bool thrown = false;
    try {
        modbus::PduCall::tcp(2, 255, {});
    } catch (const std::runtime_error &) {
        thrown = true;
    }
    want("a call of no PDU", thrown);
}

int main() {
    asks();
    modbus::Device pump(16), valve(16);
    pump.holding_registers[2] = 0x1234;
    valve.coils[0] = true;
    modbus::Line line;
    line.add(17, pump);
    line.add(18, valve);

    modbus::Answer read = line.hear(modbus::frame(17, {0x03, 0x00, 0x02, 0x00, 0x01}));
    want("a register of the pump", read.status == MODBUS_DONE && read.reply == modbus::frame(17, {0x03, 0x02, 0x12, 0x34}));
    modbus::Answer coil = line.hear(modbus::frame(18, {0x01, 0x00, 0x00, 0x00, 0x01}));
    want("a coil of the valve", coil.reply == modbus::frame(18, {0x01, 0x01, 0x01}));
    modbus::Answer other = line.hear(modbus::frame(19, {0x06, 0x00, 0x02, 0x00, 0x07}));
    want("a write for a neighbour", other.status == MODBUS_SILENT && other.reply.empty() && pump.holding_registers[2] == 0x1234);
    modbus::Answer all = line.hear(modbus::frame(0, {0x06, 0x00, 0x03, 0x00, 0x07}));
    want("a broadcast", all.status == MODBUS_SILENT && pump.holding_registers[3] == 7 && valve.holding_registers[3] == 7);

    modbus::Answer tcp = modbus::answer(pump, {0, 1, 0, 0, 0, 6, 1, 3, 0, 2, 0, 1});
    want("a register over TCP", tcp.used == 12 && tcp.reply == modbus::Bytes{0, 1, 0, 0, 0, 5, 1, 3, 2, 0x12, 0x34});
    want("another protocol", modbus::answer(pump, {'G', 'E', 'T', ' '}).status == MODBUS_FOREIGN);
    if (!failed) {
        std::printf("each answer was the one wanted\n");
    }
    return failed != 0;
}
