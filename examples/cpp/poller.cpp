// Asks a server of Modbus TCP on the loopback address by the header for C++, as examples/c/poller.c does by the library alone.
// usage: poller PORT. The status is 0 where each answer was the one wanted.
#include "modbus_client.hpp"

#include <iostream>

static void want(bool holds, const char *what) {
    if (!holds) {
        throw modbus::Error(what);
    }
}

// The code of the exception that a call is answered by; 0 where it is answered otherwise.
template <typename Call> static int code_of(Call call) {
    try {
        call();
    } catch (const modbus::ExceptionAnswer &answer) {
        return answer.code();
    }
    return 0;
}

int main(int argc, char **argv) {
    if (argc != 2) {
        std::cerr << "usage: poller PORT\n";
        return 2;
    }
    try {
        modbus::Client device("127.0.0.1", argv[1], 1, 5000);
        using registers = std::vector<std::uint16_t>;
        using coils = std::vector<bool>;

        device.write_multiple_registers(4, {1000, 1001, 1002});
        want(device.read_holding_registers(4, 3) == registers{1000, 1001, 1002}, "registers read otherwise");
        device.write_single_register(5, 7);
        device.mask_write_register(4, 0x00F0, 0x0005);
        want(device.read_holding_registers(4, 2) == registers{0x00E5, 7}, "a register was masked otherwise");
        want(device.read_write_multiple_registers(9, 2, 10, {8, 9}) == registers{0, 8}, "registers were read before they were written");

        device.write_multiple_coils(20, {true, false, true});
        device.write_single_coil(21, true);
        want(device.read_coils(20, 3) == coils{true, true, true}, "coils read otherwise");
        want(device.read_discrete_inputs(0, 4) == coils{false, true, false, true}, "discrete inputs read otherwise");
        want(device.read_input_registers(0, 2) == registers{65535, 65534}, "input registers read otherwise");

        want(code_of([&] { device.read_input_registers(65535, 1); }) == MODBUS_ILLEGAL_DATA_ADDRESS, "an address past the end");
        want(code_of([&] { device.read_coils(0, 2001); }) == MODBUS_ILLEGAL_DATA_VALUE, "2,001 coils were answered");

        modbus::Client moved = std::move(device);
        want(moved.read_holding_registers(5, 1) == registers{7}, "a client that was moved reads otherwise");
        bool refused = false;
        try {
            moved.write_multiple_registers(0, {});
        } catch (const modbus::Error &) {
            refused = true;
        }
        want(refused, "a write of nothing was sent");
    } catch (const std::exception &fault) {
        std::cerr << "poller: " << fault.what() << '\n';
        return 1;
    }
    std::cout << "each answer was the one wanted\n";
    return 0;
}
