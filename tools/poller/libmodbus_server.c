/* A Modbus TCP server over libmodbus with 32 entries in each table, which serves one connection after another: input registers hold their
 * address, all else holds 0 at first. The first line of its output is its port. */
#include <modbus/modbus.h>
#include <stdio.h>
#include <stdlib.h>
#include <unistd.h>

int main(int count, char **words)
{
    int port = count > 1 ? atoi(words[1]) : 0;
    modbus_t *server = modbus_new_tcp("127.0.0.1", port);
    modbus_mapping_t *tables = modbus_mapping_new(32, 32, 32, 32);
    unsigned char query[MODBUS_TCP_MAX_ADU_LENGTH];
    int listener, length, place;

    if (server == NULL || tables == NULL) return 1;
    for (place = 0; place < 32; place++) tables->tab_input_registers[place] = place;
    listener = modbus_tcp_listen(server, 1);
    if (listener == -1) return 1;
    printf("%d\n", port);
    fflush(stdout);
    while (modbus_tcp_accept(server, &listener) != -1) {
        while ((length = modbus_receive(server, query)) >= 0)
            if (length > 0) modbus_reply(server, query, length, tables);
        modbus_close(server);
    }
    return 0;
}
