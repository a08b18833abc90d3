// A slave of libmodbus on a serial line: holding register n holds 1000 + n.
//
// usage: libmodbus_slave TERMINAL BAUD
#include <modbus.h>
#include <stdio.h>
#include <stdlib.h>

enum { UNIT = 1, REGISTERS = 2000 };

int main(int argc, char **argv) {
    if (argc != 3) {
        return 2;
    }
    modbus_t *line = modbus_new_rtu(argv[1], atoi(argv[2]), 'N', 8, 1);
    modbus_mapping_t *map = modbus_mapping_new(0, 0, REGISTERS, 0);
    if (!line || !map || modbus_set_slave(line, UNIT) || modbus_connect(line)) {
        return 1;
    }
    for (int n = 0; n < REGISTERS; n++) {
        map->tab_registers[n] = 1000 + n;
    }
    puts("ready");
    fflush(stdout);
    uint8_t request[MODBUS_RTU_MAX_ADU_LENGTH];
    for (;;) {
        int length = modbus_receive(line, request);
        if (length > 0) {
            modbus_reply(line, request, length, map);
        }
    }
}
