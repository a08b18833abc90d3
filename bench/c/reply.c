/* The same requests as those of count.c, answered by modbus_reply of libmodbus into a pair of sockets: reply N [rtu|tcp] [read|write].
 * What it sends is read 32 replies at a time. */
#include <modbus/modbus.h>
#include <stdlib.h>
#include <string.h>
#include <sys/socket.h>
#include <unistd.h>

int main(int argc, char **argv) {
    long times = argc > 1 ? atol(argv[1]) : 1;
    int is_write = argc > 3 && !strcmp(argv[3], "write"), pair[2], len;
    unsigned char adu[300] = {0, 1, 0, 0, 0, 6, 1, 3, 0, 0, 0, 10}, sink[8192];
    static const unsigned char head[] = {0, 1, 0, 0, 0, 27, 1, 16, 0, 0, 0, 10, 20};
    modbus_t *context = modbus_new_tcp("127.0.0.1", 1502);
    modbus_mapping_t *mapping = modbus_mapping_new(1024, 1024, 1024, 1024);
    if (is_write) {
        memcpy(adu, head, sizeof head);
    }
    len = is_write ? 33 : 12;
    if (socketpair(AF_UNIX, SOCK_STREAM, 0, pair)) {
        return 1;
    }
    modbus_set_socket(context, pair[0]);
    for (long i = 0; i < times; i++) {
        if (modbus_reply(context, adu, len, mapping) < 0) {
            return 1;
        }
        if (i % 32 == 31 && read(pair[1], sink, sizeof sink) <= 0) {
            return 1;
        }
    }
    return 0;
}
