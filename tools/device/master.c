/* A master of a serial line by libmodbus: it writes 120 registers of a unit, then reads 125 of the next one, unit after unit, and compares
 * what it reads with what it wrote.
 *
 * usage: master TERMINAL REQUESTS UNIT..
 *
 * A request that has no reply is made once more, as masters do. It prints how many were made again, how many had no reply or a wrong one
 * then too, and how many replies had other values, as "again A, lost L, other O".
 */
#include <errno.h>
#include <stdint.h>
#include <stdio.h>
#include <stdlib.h>
#include <string.h>

#include <modbus.h>

enum { MOST_UNITS = 8, WRITTEN = 120, READ = 125, SECONDS = 2 };

struct master {
    modbus_t *line;
    int again, lost, other;
};

static int write_once(struct master *it, const uint16_t *values) {
    return modbus_write_registers(it->line, 0, WRITTEN, values) == WRITTEN;
}

static int read_once(struct master *it, uint16_t *values) {
    return modbus_read_registers(it->line, 0, READ, values) == READ;
}

/* Writes the registers of a unit; 0 where it was not confirmed. */
static int write_unit(struct master *it, int unit, const uint16_t *values) {
    modbus_set_slave(it->line, unit);
    if (write_once(it, values))
        return 1;
    it->again++;
    if (write_once(it, values))
        return 1;
    it->lost++;
    return 0;
}

/* Reads the registers of a unit, and compares them with what it holds. */
static void read_unit(struct master *it, int unit, const uint16_t *held) {
    uint16_t values[READ];
    modbus_set_slave(it->line, unit);
    if (!read_once(it, values)) {
        it->again++;
        if (!read_once(it, values)) {
            it->lost++;
            return;
        }
    }
    it->other += memcmp(values, held, sizeof values) != 0;
}

int main(int count, char **words) {
    static uint16_t held[MOST_UNITS][READ];
    int units = count - 3;
    if (units < 1 || units > MOST_UNITS)
        return 2;
    struct master it = {.line = modbus_new_rtu(words[1], 115200, 'N', 8, 1)};
    if (it.line == NULL || modbus_set_response_timeout(it.line, SECONDS, 0) != 0 || modbus_connect(it.line) != 0) {
        fprintf(stderr, "master: %s\n", modbus_strerror(errno));
        return 1;
    }
    int requests = atoi(words[2]);
    unsigned value = 7;
    for (int turn = 0; 2 * turn < requests; turn++) {
        int writer = turn % units, reader = (turn + 1) % units;
        uint16_t values[WRITTEN];
        for (int at = 0; at < WRITTEN; at++) {
            value = value * 1103515245u + 12345u;
            values[at] = value >> 16;
        }
        if (write_unit(&it, atoi(words[3 + writer]), values))
            memcpy(held[writer], values, sizeof values);
        read_unit(&it, atoi(words[3 + reader]), held[reader]);
    }
    printf("again %d, lost %d, other %d\n", it.again, it.lost, it.other);
    modbus_close(it.line);
    modbus_free(it.line);
    return 0;
}
