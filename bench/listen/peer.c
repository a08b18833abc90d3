/* A Modbus TCP server over libmodbus, to compare with: one thread that waits for all its connections by select.
 *
 * usage: peer
 *
 * It listens on a free port of 127.0.0.1, which it prints, and serves four tables of 1024 entries until it is ended.
 */
#include <modbus/modbus.h>
#include <netinet/in.h>
#include <stdio.h>
#include <stdlib.h>
#include <sys/select.h>
#include <sys/socket.h>
#include <unistd.h>

enum { ENTRIES = 1024, WAITING = 512 };

static int port_of(int listener) {
    struct sockaddr_in address;
    socklen_t size = sizeof address;
    return getsockname(listener, (struct sockaddr *)&address, &size) == 0 ? ntohs(address.sin_port) : -1;
}

int main(void) {
    modbus_t *server = modbus_new_tcp("127.0.0.1", 0);
    modbus_mapping_t *tables = modbus_mapping_new(ENTRIES, ENTRIES, ENTRIES, ENTRIES);
    if (server == NULL || tables == NULL)
        return 1;
    int listener = modbus_tcp_listen(server, WAITING);
    if (listener < 0)
        return 1;
    printf("%d\n", port_of(listener));
    fflush(stdout);

    fd_set open;
    FD_ZERO(&open);
    FD_SET(listener, &open);
    int highest = listener;
    for (;;) {
        fd_set ready = open;
        if (select(highest + 1, &ready, NULL, NULL, NULL) < 0)
            return 1;
        for (int stream = 0; stream <= highest; stream++) {
            if (!FD_ISSET(stream, &ready))
                continue;
            if (stream == listener) {
                int accepted = modbus_tcp_accept(server, &listener);
                if (accepted < 0)
                    return 1;
                FD_SET(accepted, &open);
                if (accepted > highest)
                    highest = accepted;
                continue;
            }
            uint8_t request[MODBUS_TCP_MAX_ADU_LENGTH];
            modbus_set_socket(server, stream);
            int length = modbus_receive(server, request);
            if (length > 0) {
                modbus_reply(server, request, length, tables);
            } else if (length < 0) {
                close(stream);
                FD_CLR(stream, &open);
            }
        }
    }
}
