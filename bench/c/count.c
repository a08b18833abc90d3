/* Serves one request so many times, to be counted: count N [line|stream|rtu|tcp] [read|write], of ten registers. */
#include "modbus.h"

#include <stdio.h>
#include <stdlib.h>
#include <string.h>

enum { ENTRIES = 1024 };

static bool coils[ENTRIES], discrete_inputs[ENTRIES];
static uint16_t holding_registers[ENTRIES], input_registers[ENTRIES];
static modbus_unit unit = {1, {coils, ENTRIES, discrete_inputs, ENTRIES, holding_registers, ENTRIES, input_registers, ENTRIES}};

static modbus_served serve(const char *mode, const uint8_t *input, size_t input_len, uint8_t *output, size_t output_len) {
    switch (*mode) {
    case 'l':
        return modbus_line_serve(&unit, 1, input, input_len, output, output_len);
    case 's':
        return modbus_stream_serve(&unit.tables, input, input_len, output, output_len);
    case 'r':
        return modbus_rtu_serve(input, input_len, coils, ENTRIES, discrete_inputs, ENTRIES, holding_registers, ENTRIES, input_registers,
                                ENTRIES, false, output, output_len);
    default:
        return modbus_tcp_serve(input, input_len, coils, ENTRIES, discrete_inputs, ENTRIES, holding_registers, ENTRIES, input_registers,
                                ENTRIES, false, output, output_len);
    }
}

int main(int argc, char **argv) {
    long times = argc > 1 ? atol(argv[1]) : 1;
    const char *mode = argc > 2 ? argv[2] : "tcp";
    bool is_line = *mode == 'l' || *mode == 'r', is_write = argc > 3 && !strcmp(argv[3], "write");
    static const uint8_t read[] = {3, 0, 0, 0, 10}, write[26] = {16, 0, 0, 0, 10, 20};
    uint8_t input[MODBUS_LONGEST_REPLY], output[MODBUS_LONGEST_REPLY];
    const uint8_t *pdu = is_write ? write : read;
    size_t pdu_len = is_write ? sizeof write : sizeof read, replied = 0;
    modbus_done made = is_line ? modbus_rtu_wrap(1, pdu, pdu_len, input, sizeof input)
                               : modbus_tcp_wrap(1, 1, pdu, pdu_len, input, sizeof input);
    for (long i = 0; i < times; i++) {
        modbus_served served = serve(mode, input, made.written, output, sizeof output);
        if (served.status != MODBUS_DONE || served.used != made.written) {
            return 1;
        }
        replied += served.written;
    }
    printf("%zu bytes\n", replied);
#ifdef ARENA
    extern size_t arena_peak;
    printf("%zu bytes of the arena at most\n", arena_peak);
#endif
    return 0;
}
