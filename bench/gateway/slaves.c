/* A slave over libmodbus, number 1 of the serial line at a terminal: four tables of 1024 entries.
 *
 * usage: slaves TERMINAL
 */
#include <modbus/modbus.h>
#include <stdio.h>

enum { ENTRIES = 1024 };

int main(int count, char **words) {
    modbus_t *slave = count == 2 ? modbus_new_rtu(words[1], 115200, 'N', 8, 1) : NULL;
    modbus_mapping_t *tables = modbus_mapping_new(ENTRIES, ENTRIES, ENTRIES, ENTRIES);
    if (slave == NULL || tables == NULL || modbus_set_slave(slave, 1) != 0 || modbus_connect(slave) != 0)
        return 1;
    puts("ready");
    fflush(stdout);
    for (;;) {
        uint8_t request[MODBUS_RTU_MAX_ADU_LENGTH];
        int length = modbus_receive(slave, request);
        if (length > 0)
            modbus_reply(slave, request, length, tables);
    }
}
