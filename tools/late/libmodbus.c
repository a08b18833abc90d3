/* Reads registers of a device one after another by libmodbus with its error recovery, as modbus_bench does, and prints the same lines.
 *
 * usage: libmodbus PORT CALLS MILLISECONDS
 */
#include <errno.h>
#include <stdio.h>
#include <stdlib.h>

#include <modbus.h>

int main(int count, char **words) {
    if (count != 4) {
        return 2;
    }
    modbus_t *device = modbus_new_tcp("127.0.0.1", atoi(words[1]));
    int calls = atoi(words[2]);
    unsigned wait = (unsigned)atoi(words[3]) * 1000;
    if (device == NULL) {
        return 1;
    }
    modbus_set_slave(device, 1);
    modbus_set_response_timeout(device, 0, wait);
    modbus_set_byte_timeout(device, 0, wait);
    modbus_set_error_recovery(device, MODBUS_ERROR_RECOVERY_LINK | MODBUS_ERROR_RECOVERY_PROTOCOL);
    /* With its recovery it connects anew by itself. */
    modbus_connect(device);
    for (int call = 0; call < calls; call++) {
        uint16_t value;
        if (modbus_read_registers(device, call, 1, &value) == 1) {
            printf("%d: [%d]\n", call, value);
        } else {
            printf("%d: %s\n", call, modbus_strerror(errno));
        }
    }
    modbus_close(device);
    modbus_free(device);
    return 0;
}
