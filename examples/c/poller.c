/* A client of Modbus TCP on the loopback address: it writes registers and coils, reads them back, and asks what is refused.
 * usage: poller PORT. The status is 0 where each answer was the one wanted. */
#include "modbus.h"

#include <arpa/inet.h>
#include <stdio.h>
#include <stdlib.h>
#include <string.h>
#include <sys/socket.h>
#include <sys/time.h>
#include <unistd.h>

static uint16_t words[MODBUS_MOST_WORDS];
static bool coils[MODBUS_MOST_COILS];

static void stop(const char *why) {
    fprintf(stderr, "poller: %s\n", why);
    exit(1);
}

/* Asks, and waits for the answer of the same transaction and unit: one that comes too late belongs to the request before, and is dropped. */
static modbus_response ask(int socket, uint16_t transaction_id, const modbus_request *request) {
    uint8_t bytes[MODBUS_LONGEST_REPLY];
    modbus_call call;
    modbus_response response;
    modbus_done told = modbus_call_tcp(&call, transaction_id, 1, request, words, MODBUS_MOST_WORDS, coils, MODBUS_MOST_COILS, bytes,
                                       sizeof bytes);
    if (told.status != MODBUS_DONE) {
        stop(modbus_status_text(told.status));
    }
    if (send(socket, bytes, told.written, MSG_NOSIGNAL) != (ssize_t)told.written) {
        stop("the request was not sent");
    }
    do {
        ssize_t got = recv(socket, bytes, sizeof bytes, 0);
        if (got <= 0) {
            stop("no answer");
        }
        for (size_t fed = 0; fed < (size_t)got;) {
            fed += modbus_call_feed(&call, bytes + fed, (size_t)got - fed);
            told = modbus_call_answer(&call, &response, words, MODBUS_MOST_WORDS, coils, MODBUS_MOST_COILS);
            if (told.status != MODBUS_WAITING) {
                break;
            }
        }
    } while (told.status == MODBUS_WAITING);
    if (told.status != MODBUS_DONE) {
        stop(modbus_status_text(told.status));
    }
    return response;
}

static void want(bool holds, const char *what) {
    if (!holds) {
        stop(what);
    }
}

int main(int argc, char **argv) {
    struct sockaddr_in there = {.sin_family = AF_INET};
    struct timeval most = {.tv_sec = 5};
    int line = socket(AF_INET, SOCK_STREAM, 0);
    modbus_response answer;
    if (argc != 2) {
        stop("usage: poller PORT");
    }
    there.sin_addr.s_addr = htonl(INADDR_LOOPBACK);
    there.sin_port = htons((uint16_t)atoi(argv[1]));
    setsockopt(line, SOL_SOCKET, SO_RCVTIMEO, &most, sizeof most);
    if (connect(line, (struct sockaddr *)&there, sizeof there)) {
        stop("no connection");
    }

    for (uint16_t i = 0; i < 10; i++) {
        words[i] = (uint16_t)(1000 + i);
    }
    answer = ask(line, 1, &(modbus_request){.function = MODBUS_WRITE_MULTIPLE_REGISTERS, .address = 4, .count = 10});
    want(!answer.exception && answer.address == 4 && answer.quantity == 10, "registers were not written");
    memset(words, 0, sizeof words);
    answer = ask(line, 2, &(modbus_request){.function = MODBUS_READ_HOLDING_REGISTERS, .address = 4, .quantity = 10});
    want(!answer.exception && answer.count == 10 && words[0] == 1000 && words[9] == 1009, "registers read otherwise");

    coils[0] = true, coils[1] = false, coils[2] = true;
    answer = ask(line, 3, &(modbus_request){.function = MODBUS_WRITE_MULTIPLE_COILS, .address = 20, .count = 3});
    want(!answer.exception && answer.quantity == 3, "coils were not written");
    memset(coils, 0, sizeof coils);
    answer = ask(line, 4, &(modbus_request){.function = MODBUS_READ_COILS, .address = 20, .quantity = 3});
    want(!answer.exception && answer.count == 3 && coils[0] && !coils[1] && coils[2], "coils read otherwise");

    answer = ask(line, 5, &(modbus_request){.function = MODBUS_MASK_WRITE_REGISTER, .address = 4, .word = 0x00F0, .or_mask = 0x0005});
    want(!answer.exception && answer.word == 0x00F0 && answer.or_mask == 0x0005, "a register was not masked");
    answer = ask(line, 6, &(modbus_request){.function = MODBUS_READ_INPUT_REGISTERS, .address = 65535, .quantity = 1});
    want(answer.exception && answer.code == MODBUS_ILLEGAL_DATA_ADDRESS, "an address past the end was answered");
    answer = ask(line, 7, &(modbus_request){.function = MODBUS_READ_HOLDING_REGISTERS, .address = 0, .quantity = 126});
    want(answer.exception && answer.code == MODBUS_ILLEGAL_DATA_VALUE, "126 registers were answered");
    close(line);
    printf("each answer was the one wanted\n");
    return 0;
}
