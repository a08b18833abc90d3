/* A gateway over libmodbus, to compare with: one thread that waits for all its masters by select, and forwards one request after another.
 *
 * usage: peer PORT TERMINAL
 */
#include <modbus/modbus.h>
#include <stdio.h>
#include <stdlib.h>
#include <string.h>
#include <sys/select.h>
#include <unistd.h>

enum { WAITING = 512, MBAP = 7, TIMEOUT_US = 500000 };

/* Forwards the request of an ADU with an MBAP header, and sends the reply of the slave back under its header. */
static void forward(modbus_t *line, int stream, uint8_t *adu, int length) {
    uint8_t reply[MODBUS_TCP_MAX_ADU_LENGTH], frame[MODBUS_RTU_MAX_ADU_LENGTH];
    /* the unit and the PDU, to which libmodbus adds the CRC */
    modbus_set_slave(line, adu[MBAP - 1]);
    modbus_send_raw_request(line, adu + MBAP - 1, length - MBAP + 1);
    int count = modbus_receive_confirmation(line, frame);
    memcpy(reply, adu, MBAP);
    int pdu = count > 3 ? count - 3 : 2;
    if (count > 3) {
        memcpy(reply + MBAP, frame + 1, pdu);
    } else {
        reply[MBAP] = adu[MBAP] | 0x80;
        reply[MBAP + 1] = MODBUS_EXCEPTION_GATEWAY_TARGET;
        modbus_flush(line);
    }
    reply[4] = (pdu + 1) >> 8;
    reply[5] = (pdu + 1) & 0xFF;
    if (write(stream, reply, MBAP + pdu) != MBAP + pdu)
        perror("peer: write");
}

int main(int count, char **words) {
    modbus_t *server = count == 3 ? modbus_new_tcp("127.0.0.1", atoi(words[1])) : NULL;
    modbus_t *line = count == 3 ? modbus_new_rtu(words[2], 115200, 'N', 8, 1) : NULL;
    if (server == NULL || line == NULL || modbus_connect(line) != 0)
        return 1;
    modbus_set_response_timeout(line, 0, TIMEOUT_US);
    int listener = modbus_tcp_listen(server, WAITING);
    fd_set open;
    FD_ZERO(&open);
    FD_SET(listener, &open);
    int highest = listener;
    for (;;) {
        fd_set ready = open;
        if (listener < 0 || select(highest + 1, &ready, NULL, NULL, NULL) < 0)
            return 1;
        for (int stream = 0; stream <= highest; stream++) {
            if (!FD_ISSET(stream, &ready))
                continue;
            if (stream == listener) {
                int accepted = modbus_tcp_accept(server, &listener);
                FD_SET(accepted, &open);
                highest = accepted > highest ? accepted : highest;
                continue;
            }
            uint8_t adu[MODBUS_TCP_MAX_ADU_LENGTH];
            modbus_set_socket(server, stream);
            int length = modbus_receive(server, adu);
            if (length > MBAP) {
                forward(line, stream, adu, length);
            } else if (length < 0) {
                close(stream);
                FD_CLR(stream, &open);
            }
        }
    }
}
