/* A client by libmodbus that names no unit, as most are written over TCP: libmodbus then asks unit 255.
 *
 * usage: default_unit PORT
 *
 * It writes and reads again, and prints each check that failed, and last "N checks, M wrong".
 */
#include <errno.h>
#include <stdint.h>
#include <stdio.h>
#include <stdlib.h>
#include <string.h>

#include <modbus.h>

static int checks, wrong;

static void check(const char *name, int is_right) {
    checks++;
    if (!is_right) {
        wrong++;
        printf("wrong: %s\n", name);
    }
}

int main(int count, char **words) {
    static const uint16_t three[] = {0x022B, 0x0001, 0x0064};
    uint16_t registers[3] = {0};
    uint8_t coil = 0, identity[MODBUS_MAX_PDU_LENGTH];
    if (count != 2)
        return 2;
    modbus_t *line = modbus_new_tcp("127.0.0.1", atoi(words[1]));
    if (line == NULL || modbus_set_response_timeout(line, 2, 0) != 0 || modbus_connect(line) != 0) {
        fprintf(stderr, "default_unit: %s\n", modbus_strerror(errno));
        return 1;
    }
    check("it names unit 255", modbus_get_slave(line) == MODBUS_TCP_SLAVE);
    check("write three registers", modbus_write_registers(line, 10, 3, three) == 3);
    check("read three registers", modbus_read_registers(line, 10, 3, registers) == 3 && memcmp(registers, three, sizeof three) == 0);
    check("write a coil", modbus_write_bit(line, 10, 1) == 1);
    check("read a coil", modbus_read_bits(line, 10, 1, &coil) == 1 && coil == 1);
    check("report server id", modbus_report_slave_id(line, sizeof identity, identity) > 2);
    check("read past the end", modbus_read_registers(line, 1024, 1, registers) == -1 && errno == EMBXILADD);
    printf("%d checks, %d wrong\n", checks, wrong);
    modbus_close(line);
    modbus_free(line);
    return wrong != 0;
}
