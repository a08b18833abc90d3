/* A Modbus TCP server on the loopback address: sockets in C, every byte of the protocol by the library. It has room for 64 connections: one
 * more takes the place of that which was idle for longest, and one that does not take its replies is closed.
 * usage: server [PORT]; without a port, or with 0, any free one. It prints the port. */
#include "modbus.h"

#include <arpa/inet.h>
#include <errno.h>
#include <fcntl.h>
#include <poll.h>
#include <stdio.h>
#include <stdlib.h>
#include <string.h>
#include <sys/socket.h>
#include <unistd.h>

enum { CONNECTIONS = 64, HELD = 1024, ENTRIES = 1024 };

static bool coils[ENTRIES], discrete_inputs[ENTRIES];
static uint16_t holding_registers[ENTRIES], input_registers[ENTRIES];

struct connection {
    uint8_t held[HELD];
    size_t held_len;
    unsigned long long turn; /* when bytes came last, by the number of its turn */
};

static struct connection connections[CONNECTIONS + 1];
static struct pollfd polled[CONNECTIONS + 1];
static nfds_t count = 1; /* the listener, and the connections behind it */
static unsigned long long turns;

static modbus_tables tables = {coils, ENTRIES, discrete_inputs, ENTRIES, holding_registers, ENTRIES, input_registers, ENTRIES};

/* Answers all whole ADUs that are held, and keeps the rest. Whether the connection goes on: it does not where a reply is not taken at once,
 * and where the header is none of Modbus. */
static bool answer(int socket, struct connection *it) {
    size_t at = 0;
    bool goes_on = true;
    for (;;) {
        uint8_t reply[MODBUS_LONGEST_REPLY];
        modbus_served served = modbus_stream_serve(&tables, it->held + at, it->held_len - at, reply, sizeof reply);
        if (served.status == MODBUS_WAITING) {
            break;
        }
        if (served.status != MODBUS_DONE && served.status != MODBUS_SILENT) {
            goes_on = false;
            break;
        }
        if (served.written > 0 && send(socket, reply, served.written, MSG_NOSIGNAL) != (ssize_t)served.written) {
            goes_on = false;
            break;
        }
        at += served.used;
    }
    it->held_len -= at;
    memmove(it->held, it->held + at, it->held_len);
    return goes_on;
}

/* Reads what came, and answers it. Whether the connection goes on. */
static bool turn(int socket, struct connection *it) {
    ssize_t got = recv(socket, it->held + it->held_len, HELD - it->held_len, 0);
    if (got < 0 && (errno == EAGAIN || errno == EINTR)) {
        return true;
    }
    if (got <= 0) {
        return false;
    }
    it->held_len += (size_t)got;
    it->turn = ++turns;
    return answer(socket, it);
}

/* Closes a connection, and puts the last one at its place. */
static void drop(nfds_t i) {
    close(polled[i].fd);
    count--;
    polled[i] = polled[count];
    connections[i] = connections[count];
}

/* Takes a connection in; where there is no room, that which was idle for longest goes. */
static void take(int socket) {
    nfds_t idle = 1;
    if (count > CONNECTIONS) {
        for (nfds_t i = 2; i < count; i++) {
            idle = connections[i].turn < connections[idle].turn ? i : idle;
        }
        drop(idle);
    }
    fcntl(socket, F_SETFL, O_NONBLOCK);
    polled[count] = (struct pollfd){.fd = socket, .events = POLLIN};
    connections[count].held_len = 0;
    connections[count].turn = ++turns;
    count++;
}

int main(int argc, char **argv) {
    struct sockaddr_in here = {.sin_family = AF_INET};
    socklen_t size = sizeof here;
    int one = 1, listener = socket(AF_INET, SOCK_STREAM, 0);
    here.sin_addr.s_addr = htonl(INADDR_LOOPBACK);
    here.sin_port = htons((uint16_t)(argc > 1 ? atoi(argv[1]) : 0));
    setsockopt(listener, SOL_SOCKET, SO_REUSEADDR, &one, sizeof one);
    if (bind(listener, (struct sockaddr *)&here, sizeof here) || listen(listener, 16)) {
        perror("server");
        return 1;
    }
    getsockname(listener, (struct sockaddr *)&here, &size);
    printf("%d\n", ntohs(here.sin_port));
    fflush(stdout);
    for (int i = 0; i < ENTRIES; i++) {
        input_registers[i] = (uint16_t)(65535 - i);
        discrete_inputs[i] = i % 2 == 1;
    }
    polled[0] = (struct pollfd){.fd = listener, .events = POLLIN};
    for (;;) {
        poll(polled, count, -1);
        for (nfds_t i = count - 1; i > 0; i--) {
            if (polled[i].revents && !turn(polled[i].fd, &connections[i])) {
                drop(i);
            }
        }
        if (polled[0].revents) {
            int taken = accept(listener, NULL, NULL);
            if (taken >= 0) {
                take(taken);
            }
        }
    }
}
