/* A Modbus TCP client over libmodbus that is told what to do line by line, on one connection.
 *
 * usage: libmodbus_client PORT
 *
 * The lines are `write ADDRESS VALUE` and `read ADDRESS`, of holding registers of unit 1. It prints `ok`, the value, or `fault`.
 */
#include <modbus/modbus.h>
#include <stdint.h>
#include <stdio.h>
#include <stdlib.h>

int main(int count, char **words) {
    modbus_t *client = count == 2 ? modbus_new_tcp("127.0.0.1", atoi(words[1])) : NULL;
    if (client == NULL || modbus_set_slave(client, 1) != 0 || modbus_connect(client) != 0)
        return 1;
    char line[64];
    while (fgets(line, sizeof line, stdin) != NULL) {
        int address, value;
        uint16_t word;
        if (sscanf(line, "write %d %d", &address, &value) == 2)
            puts(modbus_write_register(client, address, value) == 1 ? "ok" : "fault");
        else if (sscanf(line, "read %d", &address) == 1 && modbus_read_registers(client, address, 1, &word) == 1)
            printf("%d\n", word);
        else
            puts("fault");
        fflush(stdout);
    }
    modbus_close(client);
    modbus_free(client);
    return 0;
}
