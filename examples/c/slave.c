/* An RTU slave on a serial line that others share: all that comes between two silences of 3.5 characters is one burst for the library, which
 * passes by what is for others.
 * usage: slave ADDRESS PORT [BAUD [PARITY]] */
#include "line.h"

/* A burst has more than a frame where neighbours speak without a silence between them. */
enum { ENTRIES = 256, MOST_HEARD = 4096 };

static bool coils[ENTRIES], discrete_inputs[ENTRIES];
static uint16_t holding_registers[ENTRIES], input_registers[ENTRIES];

/* Reads until the line was silent. How many bytes came, or one more than there is room for. */
static size_t hear(const struct line *line, uint8_t *burst) {
    size_t len = 0;
    while (line_waits(line, len ? line->silence_us : -1)) {
        uint8_t piece[256];
        size_t got = line_read(line, piece, sizeof piece);
        if (len + got > MOST_HEARD) {
            line_quiet(line);
            return MOST_HEARD + 1;
        }
        memcpy(burst + len, piece, got);
        len += got;
    }
    return len;
}

int main(int argc, char **argv) {
    int address = argc > 2 ? atoi(argv[1]) : 0;
    if (address < 1 || address > 247) {
        line_stop("usage: slave ADDRESS PORT [BAUD [PARITY]]");
    }
    struct line line = line_of_words(argc, argv, 2);
    for (int i = 0; i < ENTRIES; i++) {
        input_registers[i] = (uint16_t)(65535 - i);
        discrete_inputs[i] = i % 2 == 1;
    }
    modbus_unit unit = {
        .unit = (uint8_t)address,
        .tables = {coils, ENTRIES, discrete_inputs, ENTRIES, holding_registers, ENTRIES, input_registers, ENTRIES},
    };
    printf("ready\n");
    fflush(stdout);
    for (;;) {
        uint8_t burst[MOST_HEARD], reply[MODBUS_LONGEST_REPLY];
        size_t len = hear(&line, burst);
        if (len > MOST_HEARD) {
            continue;
        }
        modbus_served served = modbus_line_serve(&unit, 1, burst, len, reply, sizeof reply);
        if (served.status == MODBUS_DONE) {
            line_send(&line, reply, served.written);
        } else if (served.status != MODBUS_SILENT) {
            fprintf(stderr, "slave: %s\n", modbus_status_text(served.status));
        }
    }
}
