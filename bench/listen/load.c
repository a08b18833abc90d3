/* Keeps a number of Modbus TCP connections busy with reads of ten holding registers, one request at a time on each.
 *
 * usage: load PORT CONNECTIONS REQUESTS
 *
 * It makes all connections to PORT of 127.0.0.1 first, then sends so many requests in all, the next one on a connection as soon as its
 * reply has come whole, and prints the seconds that they took. Each reply is looked at: its transaction, its length, its function and its
 * byte count. Its status is 0 only where each was the one wanted.
 */
#include <arpa/inet.h>
#include <errno.h>
#include <netinet/in.h>
#include <netinet/tcp.h>
#include <stdint.h>
#include <stdio.h>
#include <stdlib.h>
#include <string.h>
#include <sys/epoll.h>
#include <sys/socket.h>
#include <time.h>
#include <unistd.h>

enum { REGISTERS = 10, REQUEST = 12, REPLY = 9 + 2 * REGISTERS, EVENTS = 256 };

struct connection {
    int stream;
    uint16_t transaction;
    size_t received;
    uint8_t reply[REPLY];
};

static void fail(const char *what) {
    fprintf(stderr, "load: %s: %s\n", what, strerror(errno));
    exit(1);
}

static int connect_to(uint16_t port) {
    struct sockaddr_in address = {.sin_family = AF_INET, .sin_port = htons(port), .sin_addr.s_addr = htonl(INADDR_LOOPBACK)};
    int at_once = 1;
    int stream = socket(AF_INET, SOCK_STREAM, 0);
    if (stream < 0 || connect(stream, (struct sockaddr *)&address, sizeof address) != 0)
        fail("connect");
    if (setsockopt(stream, IPPROTO_TCP, TCP_NODELAY, &at_once, sizeof at_once) != 0)
        fail("TCP_NODELAY");
    return stream;
}

static void ask(struct connection *it) {
    uint16_t transaction = ++it->transaction;
    uint8_t request[REQUEST] = {transaction >> 8, transaction & 0xFF, 0, 0, 0, 6, 1, 3, 0, 0, 0, REGISTERS};
    it->received = 0;
    if (send(it->stream, request, sizeof request, MSG_NOSIGNAL) != REQUEST)
        fail("send");
}

/* Whether the whole reply is there. */
static int take(struct connection *it) {
    ssize_t count = recv(it->stream, it->reply + it->received, REPLY - it->received, 0);
    if (count <= 0)
        fail("recv");
    it->received += count;
    if (it->received < REPLY)
        return 0;
    uint8_t wanted[9] = {it->transaction >> 8, it->transaction & 0xFF, 0, 0, 0, 3 + 2 * REGISTERS, 1, 3, 2 * REGISTERS};
    if (memcmp(it->reply, wanted, sizeof wanted) != 0) {
        fprintf(stderr, "load: another reply than the one wanted\n");
        exit(1);
    }
    return 1;
}

static double now(void) {
    struct timespec time;
    clock_gettime(CLOCK_MONOTONIC, &time);
    return time.tv_sec + time.tv_nsec / 1e9;
}

int main(int count, char **words) {
    if (count != 4) {
        fprintf(stderr, "usage: load PORT CONNECTIONS REQUESTS\n");
        return 2;
    }
    size_t connections = strtoul(words[2], NULL, 10);
    unsigned long requests = strtoul(words[3], NULL, 10);
    struct connection *all = calloc(connections, sizeof *all);
    int events = epoll_create1(0);
    if (all == NULL || events < 0 || requests < connections)
        fail("begin");
    for (size_t i = 0; i < connections; i++) {
        struct epoll_event event = {.events = EPOLLIN, .data.ptr = &all[i]};
        all[i].stream = connect_to(atoi(words[1]));
        if (epoll_ctl(events, EPOLL_CTL_ADD, all[i].stream, &event) != 0)
            fail("epoll");
    }
    double begin = now();
    unsigned long asked = 0, answered = 0;
    for (; asked < connections; asked++)
        ask(&all[asked]);
    while (answered < requests) {
        struct epoll_event ready[EVENTS];
        int found = epoll_wait(events, ready, EVENTS, 10000);
        if (found <= 0)
            fail("no reply within ten seconds");
        for (int i = 0; i < found; i++) {
            struct connection *it = ready[i].data.ptr;
            if (!take(it))
                continue;
            answered++;
            if (asked < requests) {
                ask(it);
                asked++;
            }
        }
    }
    printf("%.6f\n", now() - begin);
    return 0;
}
