/* Worked rows against the library: bytes in, and what it answers, writes and leaves alone. The last line is 'N passed, M failed'. */
#include "modbus.h"

#include <stdio.h>
#include <stdlib.h>
#include <string.h>

enum { ENTRIES = 64 };

static int passed, failed;

static void row(const char *name, bool holds) {
    if (holds) {
        passed++;
    } else {
        failed++;
        printf("FAILED: %s\n", name);
    }
}

struct device {
    bool coils[ENTRIES], discrete_inputs[ENTRIES];
    uint16_t holding_registers[ENTRIES], input_registers[ENTRIES];
};

/* The bytes of hexadecimal digits, on the heap with no byte to spare, so that the address sanitizer sees a read past them. */
static uint8_t *bytes_of(const char *digits, size_t *len) {
    uint8_t *made = malloc(strlen(digits) / 2 + 1), *exact;
    unsigned byte;
    size_t n = 0;
    while (*digits) {
        if (*digits == ' ') {
            digits++;
            continue;
        }
        if (sscanf(digits, "%2x", &byte) != 1) {
            abort();
        }
        made[n++] = (uint8_t)byte;
        digits += 2;
    }
    exact = malloc(n ? n : 1);
    memcpy(exact, made, n);
    free(made);
    *len = n;
    return exact;
}

typedef modbus_served serve_function(const uint8_t *, size_t, bool *, size_t, const bool *, size_t, uint16_t *, size_t, const uint16_t *,
                                     size_t, bool, uint8_t *, size_t);

/* One message: its status, detail, where it ends, the reply, and whether tables and output are as they were where they have to be. */
static void serves(const char *name, serve_function *serve, bool broadcast, const char *input, struct device *device, uint32_t status,
                   uint32_t detail, size_t used, const char *reply) {
    size_t input_len, reply_len;
    uint8_t *in = bytes_of(input, &input_len), *wanted = bytes_of(reply, &reply_len);
    uint8_t *output = malloc(MODBUS_LONGEST_REPLY), before[MODBUS_LONGEST_REPLY];
    struct device old = *device;
    modbus_served done;
    memset(output, 0xA5, MODBUS_LONGEST_REPLY);
    memcpy(before, output, sizeof before);
    memcpy(before, wanted, reply_len);
    done = serve(in, input_len, device->coils, ENTRIES, device->discrete_inputs, ENTRIES, device->holding_registers, ENTRIES,
                 device->input_registers, ENTRIES, broadcast, output, MODBUS_LONGEST_REPLY);
    row(name, done.status == status && done.detail == detail && done.used == used && done.written == reply_len &&
                  memcmp(output, before, sizeof before) == 0);
    if (status != MODBUS_DONE && status != MODBUS_SILENT) {
        row(name, memcmp(&old, device, sizeof old) == 0);
    }
    free(in);
    free(wanted);
    free(output);
}

static void serving(void) {
    struct device device = {0};
    device.input_registers[3] = 0xBEEF;
    device.discrete_inputs[1] = true;
    serves("write registers", modbus_tcp_serve, false, "0001 0000 000B 11 10 0001 0002 04 000A 0102", &device, MODBUS_DONE, 0, 17,
           "0001 0000 0006 11 10 0001 0002");
    row("the registers", device.holding_registers[1] == 10 && device.holding_registers[2] == 0x102);
    serves("read registers", modbus_tcp_serve, false, "0002 0000 0006 11 03 0001 0002 00 03", &device, MODBUS_DONE, 0, 12,
           "0002 0000 0007 11 03 04 000A 0102");
    serves("read an input register", modbus_tcp_serve, false, "0003 0000 0006 11 04 0003 0001", &device, MODBUS_DONE, 0, 12,
           "0003 0000 0005 11 04 02 BEEF");
    serves("read discrete inputs", modbus_tcp_serve, false, "0003 0000 0006 11 02 0000 0003", &device, MODBUS_DONE, 0, 12,
           "0003 0000 0004 11 02 01 02");
    serves("write coils", modbus_tcp_serve, false, "0004 0000 0009 11 0F 0003 000A 02 CD01", &device, MODBUS_DONE, 0, 15,
           "0004 0000 0006 11 0F 0003 000A");
    serves("an address past the end", modbus_tcp_serve, false, "0005 0000 0006 11 06 0040 0001", &device, MODBUS_DONE, 0, 12,
           "0005 0000 0003 11 86 02");
    serves("a quantity of 0", modbus_tcp_serve, false, "0005 0000 0006 11 03 0000 0000", &device, MODBUS_DONE, 0, 12,
           "0005 0000 0003 11 83 03");
    serves("a function that there is not", modbus_tcp_serve, false, "0006 0000 0003 11 64 00", &device, MODBUS_DONE, 0, 9,
           "0006 0000 0003 11 E4 01");
    serves("nothing", modbus_tcp_serve, false, "", &device, MODBUS_WAITING, 0, 0, "");
    serves("a front", modbus_tcp_serve, false, "0001 0000 0006 11 03 0000 00", &device, MODBUS_WAITING, 0, 0, "");
    serves("no length", modbus_tcp_serve, false, "0001 0000 0000 11", &device, MODBUS_NO_LENGTH, 0, 0, "");
    serves("another protocol", modbus_tcp_serve, false, "0001 0007 0002 11 03", &device, MODBUS_FOREIGN, 7, 0, "");
    serves("no request", modbus_tcp_serve, false, "0001 0000 0006 11 05 0000 1234", &device, MODBUS_REFUSED, 5, 12, "");
    serves("a broadcast", modbus_tcp_serve, true, "0001 0000 0006 00 06 0000 1234", &device, MODBUS_SILENT, 0, 12, "");
    row("its effect", device.holding_registers[0] == 0x1234);
    serves("a frame", modbus_rtu_serve, false, "11 06 0001 0003 9A9B", &device, MODBUS_DONE, 0, 8, "11 06 0001 0003 9A9B");
    serves("noise and a frame", modbus_rtu_serve, false, "FF FF 11 06 0001 0003 9A9B 11", &device, MODBUS_DONE, 0, 10,
           "11 06 0001 0003 9A9B");
    serves("noise and a front", modbus_rtu_serve, false, "FF FF 11 06 0001", &device, MODBUS_WAITING, 0, 2, "");
    serves("another checksum", modbus_rtu_serve, false, "11 06 0001 0003 9A9C FFFFFFFFFFFFFFFFFFFFFFFFFFFFFFFFFF", &device, MODBUS_CROWD, 0,
           20, "");
}

static void bad_lengths(void) {
    struct device device = {0}, old = device;
    static const uint8_t write[] = {0, 1, 0, 0, 0, 6, 1, 6, 0, 0, 0, 1};
    for (size_t room = 0; room < MODBUS_LONGEST_REPLY; room++) {
        uint8_t *output = malloc(room ? room : 1);
        modbus_served done;
        memset(output, 0xA5, room);
        done = modbus_tcp_serve(write, sizeof write, device.coils, ENTRIES, device.discrete_inputs, ENTRIES, device.holding_registers,
                                ENTRIES, device.input_registers, ENTRIES, false, output, room);
        bool is_kept = true;
        for (size_t i = 0; i < room; i++) {
            is_kept = is_kept && output[i] == 0xA5;
        }
        row("a short output", done.status == MODBUS_NO_ROOM && is_kept && memcmp(&device, &old, sizeof old) == 0);
        free(output);
    }
    uint8_t output[MODBUS_LONGEST_REPLY];
    modbus_served done = modbus_tcp_serve(write, sizeof write, device.coils, 0, device.discrete_inputs, 0, device.holding_registers, 0,
                                          device.input_registers, 0, false, output, sizeof output);
    row("tables of no entry", done.status == MODBUS_DONE && done.written == 9 && output[7] == 0x86 && output[8] == 2);
}

static void coding(void) {
    size_t len;
    uint8_t *pdu = bytes_of("17 0003 0006 000E 0003 06 00FF 00FF 00FF", &len), *made = malloc(len);
    uint16_t words[4] = {1, 2, 3, 4};
    bool coils[16] = {0};
    modbus_request request = {.function = 99};
    modbus_done done = modbus_request_decode(pdu, len, &request, words, 2, coils, 16);
    row("words that do not fit", done.status == MODBUS_NO_ROOM && request.function == 99 && words[0] == 1);
    done = modbus_request_decode(pdu, len, &request, words, 4, coils, 16);
    row("a request is read", done.status == MODBUS_DONE && request.function == 0x17 && request.address == 3 && request.quantity == 6 &&
                                 request.write_address == 14 && request.count == 3 && words[2] == 255 && words[3] == 4);
    done = modbus_request_encode(&request, words, 3, coils, 0, made, len);
    row("and written", done.status == MODBUS_DONE && done.written == len && memcmp(made, pdu, len) == 0);
    done = modbus_request_encode(&request, words, 2, coils, 0, made, len);
    row("a count past the list", done.status == MODBUS_NO_ROOM && done.written == 0);
    done = modbus_request_encode(&request, words, 3, coils, 0, made, len - 1);
    row("a short PDU", done.status == MODBUS_NO_ROOM && done.written == 0);
    done = modbus_request_encode(&(modbus_request){.function = 100}, words, 3, coils, 0, made, len);
    row("another function", done.status == MODBUS_UNTOLD && done.written == 0);
    done = modbus_request_decode((const uint8_t *)"\x2B\x0E\x01\x00", 4, &request, words, 4, coils, 16);
    row("device identification", done.status == MODBUS_UNTOLD && request.function == 0x17);
    done = modbus_request_decode((const uint8_t *)"\x03\x00", 2, &request, words, 4, coils, 16);
    row("no request", done.status == MODBUS_REFUSED && done.detail == MODBUS_UNEXPECTED_END);
    free(pdu);
    free(made);

    static uint16_t many[200];
    uint8_t room[600];
    done = modbus_request_encode(&(modbus_request){.function = 0x10, .count = 124}, many, 200, coils, 0, room, sizeof room);
    row("124 registers", done.status == MODBUS_TOO_LONG && done.written == 0);

    modbus_response response;
    done = modbus_response_decode((const uint8_t *)"\x01\x01\x05", 3, &response, words, 4, coils, 16);
    row("coils are read", done.status == MODBUS_DONE && response.function == 1 && response.count == 8 && coils[0] && !coils[1] && coils[2]);
    done = modbus_response_decode((const uint8_t *)"\x83\x02", 2, &response, words, 4, coils, 16);
    row("an exception", done.status == MODBUS_DONE && response.exception && response.function == 3 && response.code == 2);
    done = modbus_response_decode((const uint8_t *)"\x03\x04\x00\x01\x00\x02", 6, &response, words, 1, coils, 16);
    row("a list that does not fit", done.status == MODBUS_NO_ROOM && response.exception);
    done = modbus_response_decode((const uint8_t *)"\x03\x03\x00\x01\x00", 5, &response, words, 4, coils, 16);
    row("no response", done.status == MODBUS_REFUSED && done.detail == MODBUS_INVALID_QUANTITY);

    uint8_t answer[8] = {0};
    done = modbus_response_encode(&(modbus_response){.function = 3, .count = 2}, words, 4, coils, 16, answer, 5);
    row("a response past its room", done.status == MODBUS_NO_ROOM && done.written == 0 && answer[0] == 0);
    done = modbus_response_encode(&(modbus_response){.function = 3, .count = 2}, (uint16_t[]){10, 258}, 2, coils, 16, answer, 6);
    row("a response", done.status == MODBUS_DONE && done.written == 6 && memcmp(answer, "\3\4\0\12\1\2\0\0", 8) == 0);
    done = modbus_response_encode(&(modbus_response){.function = 3, .exception = true, .code = 2}, words, 0, coils, 0, answer, 8);
    row("an exception is written", done.status == MODBUS_DONE && done.written == 2 && answer[0] == 0x83 && answer[1] == 2);
    done = modbus_response_encode(&(modbus_response){.function = 0x83, .exception = true, .code = 2}, words, 0, coils, 0, answer, 8);
    row("an exception of no function", done.status == MODBUS_UNTOLD && done.written == 0);
}

static void wrapping(void) {
    static const uint8_t pdu[254] = {6, 0, 1, 0, 3};
    uint8_t output[300];
    modbus_done done = modbus_rtu_wrap(17, pdu, 5, output, 8);
    row("a frame of a PDU", done.status == MODBUS_DONE && done.written == 8 && memcmp(output, "\x11\x06\x00\x01\x00\x03\x9A\x9B", 8) == 0);
    row("its search", modbus_rtu_find_request(output, 8).used == 8 && modbus_rtu_find_response(output, 8).pdu_len == 5);
    done = modbus_rtu_wrap(17, pdu, 5, output, 7);
    row("no room", done.status == MODBUS_NO_ROOM && done.written == 0);
    done = modbus_tcp_wrap(258, 17, pdu, 5, output, 12);
    row("an ADU", done.status == MODBUS_DONE && done.written == 12 && memcmp(output, "\1\2\0\0\0\6\x11\6\0\1\0\3", 12) == 0);
    row("its search", modbus_tcp_find(output, 12).transaction_id == 258 && modbus_tcp_find(output, 11).status == MODBUS_WAITING);
    done = modbus_tcp_wrap(258, 17, pdu, 254, output, sizeof output);
    row("a PDU of 254 bytes", done.status == MODBUS_TOO_LONG && done.written == 0);
    row("a checksum of nothing", modbus_crc(pdu, 0) == 0xFFFF);
}

static void inbox(void) {
    struct device device = {0};
    modbus_inbox held;
    uint8_t output[MODBUS_LONGEST_REPLY];
    static const uint8_t noise_and_frame[] = {0xFF, 0x11, 0x06, 0x00, 0x01, 0x00, 0x03, 0x9A, 0x9B};
    static const uint8_t zeros[300];
    int answers = 0;
    modbus_inbox_open(&held);
    for (size_t i = 0; i < sizeof noise_and_frame; i++) {
        row("a byte is fed", modbus_inbox_feed(&held, noise_and_frame + i, 1) == 1);
        modbus_served done = modbus_inbox_next(&held, device.coils, ENTRIES, device.discrete_inputs, ENTRIES, device.holding_registers,
                                               ENTRIES, device.input_registers, ENTRIES, false, output, sizeof output);
        answers += done.status == MODBUS_DONE && done.written == 8;
    }
    row("one answer", answers == 1 && held.len == 0 && device.holding_registers[1] == 3);
    row("as much of a piece as there is room for", modbus_inbox_feed(&held, zeros, 300) == 268 && held.len == 268);
    row("no room for a byte", modbus_inbox_feed(&held, zeros, 1) == 0 && held.len == 268);
}

/* What is told of the answer of a call that was fed these bytes in pieces of so many, the first time that it is not waited for. */
static modbus_done answer_of(modbus_call *call, const char *input, size_t piece, modbus_response *response, uint16_t *words, size_t words_len,
                             bool *coils, size_t coils_len) {
    size_t len;
    uint8_t *in = bytes_of(input, &len);
    modbus_done told = {MODBUS_WAITING, 0, 0};
    for (size_t at = 0; told.status == MODBUS_WAITING && at < len;) {
        at += modbus_call_feed(call, in + at, len - at < piece ? len - at : piece);
        told = modbus_call_answer(call, response, words, words_len, coils, coils_len);
    }
    free(in);
    return told;
}

static void calling(void) {
    const modbus_request read = {.function = 3, .address = 1, .quantity = 2}, id = {.function = 0x11};
    modbus_call call;
    modbus_response response = {.function = 99};
    uint16_t words[4] = {0};
    bool coils[8] = {0};
    uint8_t output[MODBUS_LONGEST_REPLY], before[12];
    modbus_done told;

    memset(output, 0xA5, sizeof output);
    memset(before, 0xA5, sizeof before);
    told = modbus_call_tcp(&call, 258, 17, &read, words, 0, coils, 0, output, 11);
    row("no room for a request", told.status == MODBUS_NO_ROOM && told.written == 0 && memcmp(output, before, 12) == 0);
    told = modbus_call_tcp(&call, 258, 17, &(modbus_request){.function = 100}, words, 0, coils, 0, output, sizeof output);
    row("a call of another function", told.status == MODBUS_UNTOLD && told.written == 0);
    told = modbus_call_tcp(&call, 258, 17, &(modbus_request){.function = 16, .count = 5}, words, 4, coils, 0, output, sizeof output);
    row("a call with a count past the list", told.status == MODBUS_NO_ROOM && told.written == 0);
    for (size_t piece = 1; piece < 40; piece++) {
        told = modbus_call_tcp(&call, 258, 17, &read, words, 0, coils, 0, output, 12);
        row("a request over TCP", told.status == MODBUS_DONE && told.written == 12 && memcmp(output, "\1\2\0\0\0\6\x11\3\0\1\0\2", 12) == 0);
        told = modbus_call_answer(&call, &response, words, 4, coils, 8);
        row("nothing came", told.status == MODBUS_WAITING);
        /* those of another transaction, of another unit, and its own */
        told = answer_of(&call, "0101 0000 0005 11 03 02 FFFF 0102 0000 0005 12 03 02 FFFF 0102 0000 0007 11 03 04 000A 0102", piece, &response,
                         words, 4, coils, 8);
        row("its own answer", told.status == MODBUS_DONE && response.function == 3 && response.count == 2 && words[0] == 10 &&
                                  words[1] == 258 && call.inbox.len == 0);
    }
    modbus_call_tcp(&call, 258, 17, &read, words, 0, coils, 0, output, 12);
    response.function = 99;
    told = answer_of(&call, "0102 0000 0007 11 03 04 000A 0102", 99, &response, words, 1, coils, 8);
    row("words that do not fit", told.status == MODBUS_NO_ROOM && response.function == 99 && call.inbox.len == 13);
    told = modbus_call_answer(&call, &response, words, 4, coils, 8);
    row("again with room", told.status == MODBUS_DONE && response.count == 2 && call.inbox.len == 0);
    told = answer_of(&call, "0102 0000 0003 11 83 02", 99, &response, words, 4, coils, 8);
    row("an exception", told.status == MODBUS_DONE && response.exception && response.function == 3 && response.code == 2);
    told = answer_of(&call, "0102 0000 0005 11 04 02 0001", 99, &response, words, 4, coils, 8);
    row("another function", told.status == MODBUS_FUNCTION_MISMATCH && told.detail == 4 && response.exception);
    told = answer_of(&call, "0102 0000 0005 11 03 03 0001", 99, &response, words, 4, coils, 8);
    row("no response", told.status == MODBUS_REFUSED && call.inbox.len == 0);
    told = answer_of(&call, "0102 0000 0000 11", 99, &response, words, 4, coils, 8);
    row("no length", told.status == MODBUS_NO_LENGTH);
    modbus_call_tcp(&call, 258, 17, &read, words, 0, coils, 0, output, 12);
    told = answer_of(&call, "0102 0007 0002 11 03", 99, &response, words, 4, coils, 8);
    row("another protocol", told.status == MODBUS_FOREIGN && told.detail == 7);
    modbus_call_tcp(&call, 258, 17, &id, words, 0, coils, 0, output, 12);
    told = answer_of(&call, "0102 0000 0005 11 11 02 01 FF", 99, &response, words, 4, coils, 8);
    row("the id of a server", told.status == MODBUS_UNTOLD && call.inbox.len == 0);

    told = modbus_call_rtu(&call, 17, &(modbus_request){.function = 6, .address = 1, .word = 3}, words, 0, coils, 0, output, 8);
    row("a request of a line", told.status == MODBUS_DONE && told.written == 8 && memcmp(output, "\x11\6\0\1\0\3\x9A\x9B", 8) == 0);
    told = answer_of(&call, "11 06 0001 0003 9A9B", 1, &response, words, 0, coils, 0);
    row("its answer", told.status == MODBUS_DONE && response.function == 6 && response.address == 1 && response.word == 3);
    modbus_call_rtu(&call, 99, &(modbus_request){.function = 6, .address = 1, .word = 3}, words, 0, coils, 0, output, 8);
    told = answer_of(&call, "FF FF 63 06 0001 0003 9049", 1, &response, words, 0, coils, 0);
    row("its answer behind noise", told.status == MODBUS_DONE && response.function == 6 && response.address == 1 && response.word == 3);
    modbus_call_rtu(&call, 18, &(modbus_request){.function = 6, .address = 1, .word = 3}, words, 0, coils, 0, output, 8);
    told = answer_of(&call, "11 06 0001 0003 9A9B", 3, &response, words, 0, coils, 0);
    row("another slave", told.status == MODBUS_HEADER_MISMATCH && told.detail == 17 && call.inbox.len == 0);
    told = answer_of(&call, "FFFFFFFFFFFFFFFFFFFFFFFFFFFFFF FFFFFFFFFFFFFFFFFFFFFFFFFFFFFF", 99, &response, words, 0, coils, 0);
    row("noise", told.status == MODBUS_CROWD && call.inbox.len == 10);

    /* a header that tells more bytes than there is room for */
    uint8_t zeros[300] = {1, 2, 0, 0, 1, 44, 17, 3};
    modbus_call_tcp(&call, 258, 17, &read, words, 0, coils, 0, output, 12);
    row("as much as there is room for", modbus_call_feed(&call, zeros, 300) == 268 && modbus_call_feed(&call, zeros, 1) == 0);
    row("no room for more", modbus_call_answer(&call, &response, words, 4, coils, 8).status == MODBUS_FULL);
}

/* A request, and an answer under its header: what is told of it, and whether it is written to the struct and the lists. */
static void fits(const char *name, modbus_request request, const char *input, uint32_t status, size_t count) {
    enum { LISTED = 24 };
    uint16_t words[LISTED], words_before[LISTED];
    bool coils[LISTED] = {0};
    uint8_t output[MODBUS_LONGEST_REPLY];
    modbus_call call;
    modbus_response response;
    modbus_done told;
    memset(words, 0xA5, sizeof words);
    memcpy(words_before, words, sizeof words);
    memset(&response, 0xA5, sizeof response);
    told = modbus_call_tcp(&call, 1, 17, &request, words, LISTED, coils, LISTED, output, sizeof output);
    row("a request to be answered", told.status == MODBUS_DONE);
    told = answer_of(&call, input, 99, &response, words, LISTED, coils, LISTED);
    if (status == MODBUS_DONE) {
        row(name, told.status == MODBUS_DONE && response.function == request.function && response.count == count && call.inbox.len == 0);
        return;
    }
    modbus_response before;
    memset(&before, 0xA5, sizeof before);
    row(name, told.status == status && told.detail == request.function && call.inbox.len == 0 &&
                  memcmp(&response, &before, sizeof before) == 0 && memcmp(words, words_before, sizeof words) == 0);
    for (size_t i = 0; i < LISTED; i++) {
        row(name, !coils[i]);
    }
}

static void fitting(void) {
    const modbus_request coils = {.function = 1, .address = 1, .quantity = 3}, inputs = {.function = 2, .address = 1, .quantity = 9};
    const modbus_request registers = {.function = 3, .address = 1, .quantity = 2}, input = {.function = 4, .quantity = 1};
    const modbus_request coil = {.function = 5, .address = 1, .coil = true}, word = {.function = 6, .address = 1, .word = 3};
    const modbus_request write_coils = {.function = 15, .address = 1, .count = 10}, write = {.function = 16, .address = 1, .count = 2};
    const modbus_request mask = {.function = 22, .address = 4, .word = 0xF2, .or_mask = 0x25};
    const modbus_request both = {.function = 23, .address = 3, .quantity = 2, .write_address = 14, .count = 1}, queue = {.function = 24};
    fits("three coils", coils, "0001 0000 0004 11 01 01 FD", MODBUS_DONE, 3);
    fits("no byte of coils", coils, "0001 0000 0003 11 01 00", MODBUS_MISMATCH, 0);
    fits("a byte of coils too many", coils, "0001 0000 0005 11 01 02 FFFF", MODBUS_MISMATCH, 0);
    fits("nine inputs", inputs, "0001 0000 0005 11 02 02 FFFF", MODBUS_DONE, 9);
    fits("eight inputs", inputs, "0001 0000 0004 11 02 01 FF", MODBUS_MISMATCH, 0);
    fits("two registers", registers, "0001 0000 0007 11 03 04 0001 0002", MODBUS_DONE, 2);
    fits("a register too few", registers, "0001 0000 0005 11 03 02 0001", MODBUS_MISMATCH, 0);
    fits("a register too many", registers, "0001 0000 0009 11 03 06 0001 0002 0003", MODBUS_MISMATCH, 0);
    fits("an input register", input, "0001 0000 0005 11 04 02 0001", MODBUS_DONE, 1);
    fits("two input registers", input, "0001 0000 0007 11 04 04 0001 0002", MODBUS_MISMATCH, 0);
    fits("a coil", coil, "0001 0000 0006 11 05 0001 FF00", MODBUS_DONE, 0);
    fits("another coil", coil, "0001 0000 0006 11 05 0002 FF00", MODBUS_MISMATCH, 0);
    fits("another state", coil, "0001 0000 0006 11 05 0001 0000", MODBUS_MISMATCH, 0);
    fits("a register", word, "0001 0000 0006 11 06 0001 0003", MODBUS_DONE, 0);
    fits("another register", word, "0001 0000 0006 11 06 0002 0003", MODBUS_MISMATCH, 0);
    fits("another content", word, "0001 0000 0006 11 06 0001 0004", MODBUS_MISMATCH, 0);
    fits("written coils", write_coils, "0001 0000 0006 11 0F 0001 000A", MODBUS_DONE, 0);
    fits("other written coils", write_coils, "0001 0000 0006 11 0F 0002 000A", MODBUS_MISMATCH, 0);
    fits("fewer written coils", write_coils, "0001 0000 0006 11 0F 0001 0009", MODBUS_MISMATCH, 0);
    fits("written registers", write, "0001 0000 0006 11 10 0001 0002", MODBUS_DONE, 0);
    fits("other written registers", write, "0001 0000 0006 11 10 0003 0002", MODBUS_MISMATCH, 0);
    fits("more written registers", write, "0001 0000 0006 11 10 0001 0003", MODBUS_MISMATCH, 0);
    fits("a masked register", mask, "0001 0000 0008 11 16 0004 00F2 0025", MODBUS_DONE, 0);
    fits("another masked register", mask, "0001 0000 0008 11 16 0005 00F2 0025", MODBUS_MISMATCH, 0);
    fits("another AND mask", mask, "0001 0000 0008 11 16 0004 00F3 0025", MODBUS_MISMATCH, 0);
    fits("another OR mask", mask, "0001 0000 0008 11 16 0004 00F2 0024", MODBUS_MISMATCH, 0);
    fits("registers read after a write", both, "0001 0000 0007 11 17 04 0001 0002", MODBUS_DONE, 2);
    fits("a register of them", both, "0001 0000 0005 11 17 02 0001", MODBUS_MISMATCH, 0);
    fits("a queue", queue, "0001 0000 000A 11 18 0006 0002 0001 0002", MODBUS_DONE, 2);

    /* three coils are three: the fourth of the list stays, and a list of three is long enough */
    bool three[4] = {false, true, false, true};
    uint16_t words[4] = {0};
    uint8_t output[MODBUS_LONGEST_REPLY];
    modbus_call call;
    modbus_response response;
    modbus_done told;
    memset(&call, 0, sizeof call); /* it is compared whole below, with what lies between its fields */
    modbus_call_tcp(&call, 1, 17, &coils, words, 0, three, 0, output, sizeof output);
    told = answer_of(&call, "0001 0000 0004 11 01 01 05", 99, &response, words, 0, three, 2);
    row("two of three coils", told.status == MODBUS_NO_ROOM && three[1] && call.inbox.len == 10);
    told = modbus_call_answer(&call, &response, words, 0, three, 3);
    row("three coils of a byte", told.status == MODBUS_DONE && response.count == 3 && three[0] && !three[1] && three[2] && three[3]);

    /* behind an answer that does not fit comes that which does */
    modbus_call_rtu(&call, 17, &(modbus_request){.function = 6, .address = 1, .word = 3}, words, 0, three, 0, output, sizeof output);
    told = answer_of(&call, "11 06 0001 0004 DB59 11 06 0001 0003 9A9B", 99, &response, words, 0, three, 0);
    row("an answer to another request on a line", told.status == MODBUS_MISMATCH && told.detail == 6 && call.inbox.len == 8);
    told = modbus_call_answer(&call, &response, words, 0, three, 0);
    row("the answer behind it", told.status == MODBUS_DONE && response.word == 3 && call.inbox.len == 0);

    /* a write of nothing, as where `quantity` is told in place of `count` */
    modbus_call before = call;
    memset(output, 0xA5, sizeof output);
    for (size_t i = 0; i < 3; i++) {
        const modbus_request nothing = {.function = (uint8_t[]){15, 16, 23}[i], .quantity = 10};
        told = modbus_call_tcp(&call, 1, 17, &nothing, words, 4, three, 4, output, sizeof output);
        row("a write of nothing", told.status == MODBUS_REFUSED && told.detail == MODBUS_INVALID_QUANTITY && told.written == 0);
        told = modbus_call_rtu(&call, 17, &nothing, words, 4, three, 4, output, sizeof output);
        row("the same on a line", told.status == MODBUS_REFUSED && told.detail == MODBUS_INVALID_QUANTITY && told.written == 0);
    }
    row("nothing is sent", output[0] == 0xA5 && memcmp(&before, &call, sizeof call) == 0);
    for (uint32_t status = MODBUS_DONE; status <= MODBUS_MISMATCH; status++) {
        row("a text of a status", strcmp(modbus_status_text(status), modbus_status_text(1000)) != 0);
    }
}

static void texts(void) {
    struct device device = {0};
    static const char write[] = ":1106000100039A9B\r\n", request[] = "no text :1106:110600010003E5\r\n:11";
    uint8_t output[MODBUS_LONGEST_TEXT], noise[600];
    modbus_served done;
    memset(output, 0xA5, sizeof output);
    memset(noise, '0', sizeof noise);
    noise[0] = ':';
#define TEXT(bytes, len, room) \
    modbus_ascii_serve((const uint8_t *)(bytes), len, device.coils, ENTRIES, device.discrete_inputs, ENTRIES, device.holding_registers, \
                       ENTRIES, device.input_registers, ENTRIES, false, output, room)
    done = TEXT(request, sizeof request - 1, sizeof output - 1);
    row("a short output for a text", done.status == MODBUS_NO_ROOM && device.holding_registers[1] == 0 && output[0] == 0xA5);
    done = TEXT(request, sizeof request - 1, sizeof output);
    row("a text", done.status == MODBUS_DONE && done.used == 30 && done.written == 17 && memcmp(output, ":110600010003E5\r\n", 17) == 0 &&
                      output[17] == 0xA5 && device.holding_registers[1] == 3);
    done = TEXT(request, 20, sizeof output);
    row("a front of a text", done.status == MODBUS_WAITING && done.used == 13);
    done = TEXT(write, sizeof write - 1, sizeof output);
    row("another checksum", done.status == MODBUS_WAITING && done.used == sizeof write - 1);
    done = TEXT(noise, 513, sizeof output);
    row("a text as long as the longest", done.status == MODBUS_WAITING && done.used == 0);
    done = TEXT(noise, 514, sizeof output);
    row("a text that is too long", done.status == MODBUS_WAITING && done.used == 514);
    done = TEXT("", 0, sizeof output);
    row("no text", done.status == MODBUS_WAITING && done.used == 0);
}

/* Null pointers: an array of no entry, or a status and nothing written. */
static void nulls(void) {
    static const uint8_t read[] = {0, 1, 0, 0, 0, 6, 1, 4, 0, 0, 0, 1};
    uint16_t registers[4] = {7};
    uint8_t output[MODBUS_LONGEST_TEXT];
    const modbus_request request = {.function = 3, .quantity = 1};
    modbus_call call;
    modbus_inbox held;
    modbus_response response;
    modbus_served done;
    memset(output, 0xA5, sizeof output);
    done = modbus_tcp_serve(read, sizeof read, NULL, 0, NULL, 0, NULL, 0, registers, 4, false, output, sizeof output);
    row("tables that are null", done.status == MODBUS_DONE && done.written == 11 && output[10] == 7);
    memset(output, 0xA5, sizeof output);
    done = modbus_tcp_serve(read, sizeof read, NULL, 1, NULL, 0, NULL, 0, registers, 4, false, output, sizeof output);
    row("a null table of one entry", done.status == MODBUS_NULL && done.used == 0 && done.written == 0 && output[0] == 0xA5);
    done = modbus_tcp_serve(NULL, 12, NULL, 0, NULL, 0, NULL, 0, registers, 4, false, output, sizeof output);
    row("a null input", done.status == MODBUS_NULL && output[0] == 0xA5);
    done = modbus_rtu_serve(read, sizeof read, NULL, 0, NULL, 0, NULL, 0, registers, 4, false, NULL, 260);
    row("a null output", done.status == MODBUS_NULL);
    done = modbus_ascii_serve(NULL, 0, NULL, 0, NULL, 0, NULL, 0, NULL, 0, false, NULL, 0);
    row("a null output of no byte", done.status == MODBUS_NO_ROOM);
    row("a checksum of null", modbus_crc(NULL, 0) == 0xFFFF && modbus_crc(NULL, 9) == 0xFFFF);
    row("null bytes", modbus_tcp_find(NULL, 0).status == MODBUS_WAITING && modbus_tcp_find(NULL, 7).status == MODBUS_NULL &&
                          modbus_rtu_find_request(NULL, 0).status == MODBUS_WAITING &&
                          modbus_rtu_find_response(NULL, 1).status == MODBUS_NULL);
    row("a null struct", modbus_request_decode(read, 5, NULL, NULL, 0, NULL, 0).status == MODBUS_NULL &&
                             modbus_response_decode(read, 5, NULL, NULL, 0, NULL, 0).status == MODBUS_NULL &&
                             modbus_request_encode(NULL, NULL, 0, NULL, 0, output, 9).status == MODBUS_NULL &&
                             modbus_response_encode(NULL, NULL, 0, NULL, 0, output, 9).status == MODBUS_NULL && output[0] == 0xA5);
    row("null lists", modbus_request_encode(&request, NULL, 0, NULL, 0, output, 5).status == MODBUS_DONE && output[0] == 3 &&
                          modbus_request_encode(&request, NULL, 1, NULL, 0, output, 5).status == MODBUS_NULL);
    row("a null PDU", modbus_tcp_wrap(1, 1, NULL, 0, output, 7).status == MODBUS_DONE &&
                          modbus_rtu_wrap(1, NULL, 2, output, 9).status == MODBUS_NULL);
    modbus_inbox_open(NULL);
    modbus_inbox_open(&held);
    row("a null piece", modbus_inbox_feed(&held, NULL, 0) == 0 && modbus_inbox_feed(&held, NULL, 1) == 0 &&
                            modbus_inbox_feed(NULL, read, 1) == 0 && held.len == 0);
    done = modbus_inbox_next(NULL, NULL, 0, NULL, 0, NULL, 0, NULL, 0, false, output, 260);
    row("a null inbox", done.status == MODBUS_NULL);
    row("a null call", modbus_call_tcp(NULL, 1, 1, &request, NULL, 0, NULL, 0, output, 12).status == MODBUS_NULL &&
                           modbus_call_rtu(&call, 1, NULL, NULL, 0, NULL, 0, output, 12).status == MODBUS_NULL &&
                           modbus_call_feed(NULL, read, 1) == 0 &&
                           modbus_call_answer(NULL, &response, NULL, 0, NULL, 0).status == MODBUS_NULL);
    row("a call with null lists", modbus_call_tcp(&call, 1, 1, &request, NULL, 0, NULL, 0, output, 12).status == MODBUS_DONE &&
                                      modbus_call_feed(&call, NULL, 0) == 0 && modbus_call_feed(&call, NULL, 3) == 0 &&
                                      modbus_call_answer(&call, &response, NULL, 0, NULL, 0).status == MODBUS_WAITING &&
                                      modbus_call_answer(&call, NULL, NULL, 0, NULL, 0).status == MODBUS_NULL);
    row("null pointers of a call of a PDU", modbus_call_tcp_pdu(&call, 1, 1, NULL, 1, NULL, 0).status == MODBUS_NULL &&
                                                modbus_call_rtu_pdu(NULL, 1, NULL, 0, NULL, 0).status == MODBUS_NULL &&
                                                modbus_call_answer_pdu(&call, NULL, 1).status == MODBUS_NULL && modbus_line_wait(NULL) == 0);
}

/* The tables of a device. */
static modbus_tables tables_of(struct device *device) {
    const modbus_tables tables = {device->coils, ENTRIES, device->discrete_inputs, ENTRIES, device->holding_registers, ENTRIES,
                                  device->input_registers, ENTRIES};
    return tables;
}

/* Puts a frame behind others of a burst. How many bytes there are then. */
static size_t put(uint8_t *burst, size_t at, uint8_t slave, const char *pdu) {
    size_t len;
    uint8_t *bytes = bytes_of(pdu, &len);
    modbus_done done = modbus_rtu_wrap(slave, bytes, len, burst + at, MODBUS_LONGEST_REPLY);
    free(bytes);
    return at + done.written;
}

/* One burst: all of it is used, and the reply is the frame of this PDU, or none. The burst has no byte to spare. */
static void hears(const char *name, modbus_unit *units, size_t units_len, const uint8_t *burst, size_t len, uint8_t slave,
                  const char *reply) {
    uint8_t *exact = malloc(len ? len : 1), *output = malloc(MODBUS_LONGEST_REPLY), wanted[MODBUS_LONGEST_REPLY];
    size_t reply_len;
    modbus_served done;
    memcpy(exact, burst, len);
    memset(output, 0xA5, MODBUS_LONGEST_REPLY);
    memset(wanted, 0xA5, sizeof wanted);
    reply_len = *reply ? put(wanted, 0, slave, reply) : 0;
    done = modbus_line_serve(units, units_len, exact, len, output, MODBUS_LONGEST_REPLY);
    row(name, done.status == (reply_len ? MODBUS_DONE : MODBUS_SILENT) && done.detail == 0 && done.used == len && done.written == reply_len &&
                  memcmp(output, wanted, sizeof wanted) == 0);
    free(exact);
    free(output);
}

static void lines(void) {
    struct device one = {0}, other = {0}, before;
    modbus_unit units[2] = {{17, tables_of(&one)}, {18, tables_of(&other)}};
    modbus_unit bare = {17, {NULL, 0, NULL, 0, one.holding_registers, ENTRIES, NULL, 0}};
    modbus_served done;
    uint8_t burst[2048], output[MODBUS_LONGEST_REPLY];
    size_t len;
    one.holding_registers[2] = 0x1234;
    other.holding_registers[2] = 0x5678;
    hears("a request of a unit", units, 2, burst, put(burst, 0, 17, "03 0002 0001"), 17, "03 02 1234");
    hears("a request of the other unit", units, 2, burst, put(burst, 0, 18, "03 0002 0001"), 18, "03 02 5678");
    before = one;
    hears("a write of a neighbour", units, 2, burst, put(burst, 0, 19, "06 0002 0001"), 0, "");
    hears("a neighbour's answer to a read", units, 2, burst, put(burst, 0, 19, "03 02 0001"), 0, "");
    hears("an answer to a write of registers", units, 2, burst, put(burst, 0, 17, "10 0002 0001"), 17, "90 03");
    len = put(burst, put(burst, 0, 19, "10 0002 0001 02 4711"), 19, "10 0002 0001");
    hears("a neighbour's write and its answer", units, 2, burst, len, 0, "");
    len = put(burst, put(burst, 0, 17, "01 02 5555"), 19, "01 0000 0008");
    hears("an answer of the unit's address, and a request behind it", units, 2, burst, len, 0, "");
    row("neighbours change nothing", memcmp(&before, &one, sizeof one) == 0);
    len = put(burst, put(burst, 0, 19, "03 02 0001"), 17, "03 0002 0001");
    hears("a request behind a neighbour's answer", units, 2, burst, len, 17, "03 02 1234");
    len = put(burst, put(burst, 0, 17, "06 0003 0007"), 19, "03 0002 0001");
    hears("a write behind which its master spoke on", units, 2, burst, len, 0, "");
    row("it is done", one.holding_registers[3] == 7 && other.holding_registers[3] == 0);
    len = put(burst, put(burst, 0, 17, "03 0002 0001"), 18, "03 0002 0001");
    hears("two requests of two units", units, 2, burst, len, 18, "03 02 5678");
    hears("a frame that is cut", units, 2, burst, put(burst, 0, 17, "06 0003 0009") - 1, 0, "");
    hears("and what follows it", units, 2, burst, put(burst, 0, 17, "03 0003 0001"), 17, "03 02 0007");
    hears("a broadcast", units, 2, burst, put(burst, 0, 0, "06 0004 4711"), 0, "");
    row("all units do it", one.holding_registers[4] == 0x4711 && other.holding_registers[4] == 0x4711);
    hears("a request that is too short", units, 2, burst, put(burst, 0, 17, "03 00"), 17, "83 03");
    hears("a request of too many registers", units, 2, burst, put(burst, 0, 17, "03 0000 007E"), 17, "83 03");
    hears("a request past the table", units, 2, burst, put(burst, 0, 17, "03 003F 0002"), 17, "83 02");
    hears("a function that is not known", units, 2, burst, put(burst, 0, 17, "41 00"), 17, "C1 01");
    hears("a MEI type that is not known", units, 2, burst, put(burst, 0, 17, "2B 0D"), 17, "AB 01");
    hears("an exception", units, 2, burst, put(burst, 0, 17, "83 02"), 0, "");
    hears("noise", units, 2, (const uint8_t *)"\x11\x03\x00\x02\x00", 5, 0, "");
    hears("nothing", units, 2, burst, 0, 0, "");
    hears("a line of no unit", NULL, 0, burst, put(burst, 0, 17, "03 0002 0001"), 0, "");
    hears("tables that are null", &bare, 1, burst, put(burst, 0, 17, "01 0000 0001"), 17, "81 02");
    bare.tables.coils = NULL;
    bare.tables.coils_len = 1;
    len = put(burst, 0, 17, "06 0002 0001");
    memset(output, 0xA5, sizeof output);
    done = modbus_line_serve(&bare, 1, burst, len, output, sizeof output);
    row("a null table of one entry of a unit", done.status == MODBUS_NULL && done.written == 0 && one.holding_registers[2] == 0x1234);
    done = modbus_line_serve(units, 2, burst, len, output, MODBUS_LONGEST_REPLY - 1);
    row("an output of 259 bytes", done.status == MODBUS_NO_ROOM && done.used == 0 && one.holding_registers[2] == 0x1234 &&
                                      output[0] == 0xA5 && output[MODBUS_LONGEST_REPLY - 1] == 0xA5);
}

/* The front of a stream: its status, detail, where the message ends, and the reply. */
static void streams_by(const char *name, struct device *device, const char *input, uint32_t status, uint32_t detail, size_t used,
                       const char *reply) {
    size_t input_len, reply_len;
    uint8_t *in = bytes_of(input, &input_len), *answer = bytes_of(reply, &reply_len);
    uint8_t *output = malloc(MODBUS_LONGEST_REPLY), wanted[MODBUS_LONGEST_REPLY];
    modbus_tables tables = tables_of(device);
    modbus_served done;
    memset(output, 0xA5, MODBUS_LONGEST_REPLY);
    memset(wanted, 0xA5, sizeof wanted);
    memcpy(wanted, answer, reply_len);
    done = modbus_stream_serve(&tables, in, input_len, output, MODBUS_LONGEST_REPLY);
    row(name, done.status == status && done.detail == detail && done.used == used && done.written == reply_len &&
                  memcmp(output, wanted, sizeof wanted) == 0);
    free(in);
    free(answer);
    free(output);
}

static void streams(void) {
    struct device device = {0};
    modbus_tables tables = tables_of(&device);
    uint8_t output[MODBUS_LONGEST_REPLY] = {0};
    modbus_served done;
    device.holding_registers[2] = 0x1234;
    streams_by("a request of a stream", &device, "0001 0000 0006 11 03 0002 0001 0002 0000", MODBUS_DONE, 0, 12,
               "0001 0000 0005 11 03 02 1234");
    streams_by("unit 0", &device, "0001 0000 0006 00 06 0003 0007", MODBUS_DONE, 0, 12, "0001 0000 0006 00 06 0003 0007");
    streams_by("unit 255", &device, "0001 0000 0006 FF 03 0003 0001", MODBUS_DONE, 0, 12, "0001 0000 0005 FF 03 02 0007");
    streams_by("a PDU that is too short", &device, "0001 0000 0003 01 03 00", MODBUS_DONE, 0, 9, "0001 0000 0003 01 83 03");
    streams_by("a function that is not known over TCP", &device, "0001 0000 0002 01 41", MODBUS_DONE, 0, 8, "0001 0000 0003 01 C1 01");
    streams_by("a PDU of no byte", &device, "0001 0000 0001 01", MODBUS_SILENT, 0, 7, "");
    streams_by("the function code of an exception", &device, "0001 0000 0003 01 83 02", MODBUS_SILENT, 0, 9, "");
    streams_by("three bytes of a GET", &device, "474554", MODBUS_WAITING, 0, 0, "");
    streams_by("four bytes of a GET", &device, "47455420", MODBUS_FOREIGN, 0x5420, 0, "");
    streams_by("a length of 254", &device, "0001 0000 00FE", MODBUS_WAITING, 0, 0, "");
    streams_by("a length of 255", &device, "0001 0000 00FF", MODBUS_NO_LENGTH, 0, 0, "");
    streams_by("a length of 0", &device, "0001 0000 0000", MODBUS_NO_LENGTH, 0, 0, "");
    streams_by("five bytes of a header", &device, "0001 0000 FF", MODBUS_WAITING, 0, 0, "");
    done = modbus_stream_serve(NULL, output, 12, output, sizeof output);
    row("null tables", done.status == MODBUS_NULL);
    done = modbus_stream_serve(&tables, output, 0, output, 259);
    row("an output of 259 bytes over TCP", done.status == MODBUS_NO_ROOM);
}

/* A device whose tables begin at addresses of their own: its coils at 0100, 0104 of them read alone; its discrete inputs at 0200; its
 * holding registers at 9C40, 9C42 and 9C43 of them read alone; its input registers at 7530. */
static modbus_device placed(struct device *device) {
    const modbus_device made = {tables_of(device), {0x0100, 0x0200, 0x9C40, 0x7530}, {0x0104, 1}, {0x9C42, 2}};
    return made;
}

/* One request of a device over TCP: its answer, and whether it changed what it has to leave alone. */
static void places_by(const char *name, modbus_device *by, struct device *device, bool is_write, const char *request, const char *reply) {
    struct device before = *device;
    size_t len, reply_len;
    uint8_t *pdu = bytes_of(request, &len), *answer = bytes_of(reply, &reply_len), *input = malloc(7 + len);
    uint8_t *output = malloc(MODBUS_LONGEST_REPLY), wanted[MODBUS_LONGEST_REPLY];
    modbus_served done;
    modbus_tcp_wrap(1, 255, pdu, len, input, 7 + len);
    memset(output, 0xA5, MODBUS_LONGEST_REPLY);
    memset(wanted, 0xA5, sizeof wanted);
    modbus_tcp_wrap(1, 255, answer, reply_len, wanted, sizeof wanted);
    done = modbus_device_serve(by, input, 7 + len, output, MODBUS_LONGEST_REPLY);
    row(name, done.status == MODBUS_DONE && done.used == 7 + len && done.written == 7 + reply_len &&
                  memcmp(output, wanted, sizeof wanted) == 0 && (memcmp(device, &before, sizeof before) != 0) == is_write);
    free(pdu);
    free(answer);
    free(input);
    free(output);
}

static void places(void) {
    struct device it = {0};
    modbus_device device = placed(&it), high = placed(&it);
    uint8_t output[MODBUS_LONGEST_REPLY] = {0};
    modbus_served done;
    it.holding_registers[0] = 0x1234;
    it.holding_registers[2] = 0x0815;
    it.holding_registers[ENTRIES - 1] = 0x4711;
    it.input_registers[1] = 0xABCD;
    it.discrete_inputs[0] = true;
    it.coils[4] = true;
    places_by("the first register by its own address", &device, &it, false, "03 9C40 0001", "03 02 1234");
    places_by("the last", &device, &it, false, "03 9C7F 0001", "03 02 4711");
    places_by("one behind it", &device, &it, false, "03 9C80 0001", "83 02");
    places_by("one before the first", &device, &it, false, "03 9C3F 0001", "83 02");
    places_by("a place in the table in the place of an address", &device, &it, false, "03 0000 0001", "83 02");
    places_by("no register before the table", &device, &it, false, "03 0000 0000", "83 03");
    places_by("126 registers before the table", &device, &it, false, "03 0000 007E", "83 03");
    places_by("an input register by its own address", &device, &it, false, "04 7531 0001", "04 02 ABCD");
    places_by("a discrete input by its own address", &device, &it, false, "02 0200 0002", "02 01 01");
    places_by("coils by their own addresses", &device, &it, false, "01 0104 0001", "01 01 01");
    places_by("a write of a coil tells its own address", &device, &it, true, "05 0100 FF00", "05 0100 FF00");
    places_by("a write of coils", &device, &it, true, "0F 0102 0002 01 03", "0F 0102 0002");
    places_by("a write of coils up to one that is read alone", &device, &it, false, "0F 0103 0002 01 00", "8F 02");
    places_by("a write of a coil that is read alone", &device, &it, false, "05 0104 0000", "85 02");
    places_by("a read of registers that are read alone", &device, &it, false, "03 9C42 0002", "03 04 0815 0000");
    places_by("a write of the first of them", &device, &it, false, "06 9C42 0001", "86 02");
    places_by("a write of the last of them", &device, &it, false, "06 9C43 0001", "86 02");
    places_by("a write of the register before them", &device, &it, true, "06 9C41 4711", "06 9C41 4711");
    places_by("a write of the register behind them", &device, &it, true, "10 9C44 0001 02 0007", "10 9C44 0001");
    places_by("a write of registers up to the first of them", &device, &it, false, "10 9C41 0002 04 0001 0002", "90 02");
    places_by("a write of registers from the last of them on", &device, &it, false, "10 9C43 0002 04 0001 0002", "90 02");
    places_by("a masked write of one of them", &device, &it, false, "16 9C43 0000 FFFF", "96 02");
    places_by("a read and a write of one of them", &device, &it, false, "17 9C40 0001 9C43 0001 02 0001", "97 02");
    places_by("a read of one of them and a write", &device, &it, true, "17 9C42 0001 9C40 0001 02 0012", "17 02 0815");
    places_by("a masked write tells its own address", &device, &it, true, "16 9C40 00F2 0025", "16 9C40 00F2 0025");
    row("what the masked write made", it.holding_registers[0] == 0x0017);
    places_by("a function that is not known of a device", &device, &it, false, "41", "C1 01");
    high.starts.holding_registers = 0xFFFE;
    places_by("the last address of all", &high, &it, false, "03 FFFF 0001", "03 02 4711");
    places_by("one behind the last address of all", &high, &it, false, "03 FFFF 0002", "83 02");
    device.kept_registers.count = 0;
    places_by("a write over a range of no register", &device, &it, true, "10 9C41 0003 06 0001 0002 0003", "10 9C41 0003");
    done = modbus_device_serve(NULL, output, 12, output, sizeof output);
    row("a null device", done.status == MODBUS_NULL);
    device.tables.coils = NULL;
    done = modbus_device_serve(&device, output, 12, output, sizeof output);
    row("a null table of a device", done.status == MODBUS_NULL);
    done = modbus_device_serve(&high, output, 0, output, 259);
    row("an output of 259 bytes of a device", done.status == MODBUS_NO_ROOM);
}

/* The same devices on a line. */
static void slaves(void) {
    struct device one = {0}, other = {0};
    modbus_slave units[2] = {{17, placed(&one)}, {18, placed(&other)}};
    uint8_t burst[64], output[MODBUS_LONGEST_REPLY], wanted[64];
    modbus_served done;
    size_t len, wanted_len;
    len = put(burst, 0, 18, "06 9C40 1234");
    done = modbus_slaves_serve(units, 2, burst, len, output, sizeof output);
    wanted_len = put(wanted, 0, 18, "06 9C40 1234");
    row("a write of a slave by its own address", done.status == MODBUS_DONE && done.used == len && done.written == wanted_len &&
                                                     memcmp(output, wanted, wanted_len) == 0 && one.holding_registers[0] == 0 &&
                                                     other.holding_registers[0] == 0x1234);
    len = put(burst, 0, 19, "06 9C40 4711");
    done = modbus_slaves_serve(units, 2, burst, len, output, sizeof output);
    row("a write of a neighbour of slaves", done.status == MODBUS_SILENT && done.written == 0 && other.holding_registers[0] == 0x1234);
    units[1].device.kept_registers.count = 0;
    len = put(burst, 0, 0, "06 9C42 4711");
    done = modbus_slaves_serve(units, 2, burst, len, output, sizeof output);
    row("a write of all, of a register that one of them keeps", done.status == MODBUS_SILENT && done.written == 0 &&
                                                                    one.holding_registers[2] == 0 && other.holding_registers[2] == 0x4711);
    units[0].device.tables.coils = NULL;
    done = modbus_slaves_serve(units, 2, burst, len, output, sizeof output);
    row("a null table of a slave", done.status == MODBUS_NULL);
    done = modbus_slaves_serve(NULL, 0, burst, len, output, sizeof output);
    row("no slave", done.status == MODBUS_SILENT);
}

/* The PDU of an answer of a call that is fed in pieces, in an array with no byte to spare. */
static modbus_done pdu_of(modbus_call *call, const char *input, size_t piece, uint8_t *pdu, size_t pdu_len) {
    size_t len;
    uint8_t *bytes = bytes_of(input, &len);
    modbus_done told = {MODBUS_WAITING, 0, 0};
    for (size_t at = 0; at < len && told.status == MODBUS_WAITING; at += piece) {
        size_t most = len - at < piece ? len - at : piece;
        if (modbus_call_feed(call, bytes + at, most) != most) {
            abort();
        }
        told = modbus_call_answer_pdu(call, pdu, pdu_len);
    }
    free(bytes);
    return told;
}

/* A call with a PDU of its own over both framings: the message that is sent, and the PDU that is handed out of the message that comes. On a
 * serial line a reply without a length of its own comes as a whole. */
static void asks_by(const char *name, bool has_length, const char *pdu, const char *sum, const char *reply, const char *reply_sum) {
    char wanted[600], came[600];
    size_t len, wanted_len, reply_len;
    uint8_t *asked = bytes_of(pdu, &len), *back = bytes_of(reply, &reply_len), output[MODBUS_LONGEST_REPLY], *handed = malloc(reply_len);
    modbus_call call;
    modbus_done told;
    for (int tcp = 0; tcp < 2; tcp++) {
        snprintf(wanted, sizeof wanted, tcp ? "0102 0000 %04X 11 %s" : "%.0u11 %s %s", tcp ? (unsigned)len + 1 : 0, pdu, sum);
        snprintf(came, sizeof came, tcp ? "0102 0000 %04X 11 %s" : "%.0u11 %s %s", tcp ? (unsigned)reply_len + 1 : 0, reply, reply_sum);
        uint8_t *sent = bytes_of(wanted, &wanted_len);
        told = tcp ? modbus_call_tcp_pdu(&call, 258, 17, asked, len, output, wanted_len - 1)
                   : modbus_call_rtu_pdu(&call, 17, asked, len, output, wanted_len - 1);
        row(name, told.status == MODBUS_NO_ROOM && told.written == 0);
        for (size_t piece = 1; piece < 300; piece += 7) {
            told = tcp ? modbus_call_tcp_pdu(&call, 258, 17, asked, len, output, wanted_len)
                       : modbus_call_rtu_pdu(&call, 17, asked, len, output, wanted_len);
            row(name, told.status == MODBUS_DONE && told.written == wanted_len && memcmp(output, sent, wanted_len) == 0);
            told = pdu_of(&call, came, tcp || has_length ? piece : 300, handed, reply_len - 1);
            row(name, told.status == MODBUS_NO_ROOM && told.written == 0);
            memset(handed, 0xA5, reply_len);
            told = modbus_call_answer_pdu(&call, handed, reply_len);
            row(name, told.status == MODBUS_DONE && told.written == reply_len && memcmp(handed, back, reply_len) == 0 && call.inbox.len == 0);
        }
        free(sent);
    }
    free(asked);
    free(back);
    free(handed);
}

/* The messages are those of AP 6.7 to 6.21, and one of a maker's function. */
static void raw_calling(void) {
    modbus_call call;
    uint8_t pdu[MODBUS_LONGEST_PDU], output[MODBUS_LONGEST_REPLY], long_one[254] = {0x41};
    modbus_done told;
    asks_by("exception status", true, "07", "4C22", "07 6D", "E218");
    asks_by("diagnostics", false, "08 0000 A537", "D81D", "08 0000 A537", "D81D");
    asks_by("event counter", true, "0B", "4C27", "0B FFFF 0108", "A6E9");
    asks_by("event log", true, "0C", "0DE5", "0C 08 0000 0108 0121 2000", "5901");
    asks_by("server id", true, "11", "CDEC", "11 03 2A FF 07", "DEE7");
    asks_by("file records read", false, "14 0E 06 0004 0001 0002 06 0003 0009 0002", "F938", "14 0C 05 06 0DFE 0020 05 06 33CD 0040", "69AD");
    asks_by("a file record written", false, "15 0D 06 0004 0007 0003 06AF 04BE 100D", "DBC7", "15 0D 06 0004 0007 0003 06AF 04BE 100D", "DBC7");
    asks_by("device identification", true, "2B 0E 01 00", "B1B4", "2B 0E 01 01 00 00 01 02 05 56322E3131", "4589");
    asks_by("a maker's function", false, "41 010203", "DC9E", "41 0405", "97CF");

    told = modbus_call_tcp_pdu(&call, 258, 17, pdu, 0, output, sizeof output);
    row("no PDU", told.status == MODBUS_REFUSED && told.detail == MODBUS_UNEXPECTED_END && told.written == 0);
    told = modbus_call_rtu_pdu(&call, 17, (const uint8_t *)"\x83\x02", 2, output, sizeof output);
    row("a PDU of an exception", told.status == MODBUS_REFUSED && told.detail == MODBUS_INVALID_FUNCTION && told.written == 0);
    told = modbus_call_tcp_pdu(&call, 258, 17, long_one, sizeof long_one, output, sizeof output);
    row("a PDU of 254 bytes", told.status == MODBUS_TOO_LONG && told.written == 0);
    told = modbus_call_tcp_pdu(&call, 258, 17, long_one, 253, output, sizeof output);
    row("a PDU of 253 bytes", told.status == MODBUS_DONE && told.written == 260);
    told = pdu_of(&call, "0102 0000 0003 11 C1 02", 1, pdu, sizeof pdu);
    row("an exception as its PDU", told.status == MODBUS_EXCEPTION && told.detail == 2 && told.written == 2 && pdu[0] == 0xC1 && pdu[1] == 2);
    told = pdu_of(&call, "0102 0000 0003 11 42 02", 99, pdu, sizeof pdu);
    row("a PDU of another function", told.status == MODBUS_FUNCTION_MISMATCH && told.detail == 0x42 && told.written == 0 && pdu[0] == 0xC1);
    told = pdu_of(&call, "0102 0000 0003 11 C2 02", 99, pdu, sizeof pdu);
    row("an exception of another function", told.status == MODBUS_FUNCTION_MISMATCH && told.detail == 0x42);
    told = pdu_of(&call, "0102 0000 0001 11", 99, pdu, sizeof pdu);
    row("a reply of no PDU", told.status == MODBUS_REFUSED && told.detail == MODBUS_UNEXPECTED_END);
    told = pdu_of(&call, "0102 0000 0002 11 C1", 99, pdu, sizeof pdu);
    row("an exception of no code", told.status == MODBUS_REFUSED && told.detail == MODBUS_UNEXPECTED_END);
    told = pdu_of(&call, "0102 0000 0004 11 C1 02 02", 99, pdu, sizeof pdu);
    row("an exception of two codes", told.status == MODBUS_REFUSED && told.detail == MODBUS_UNDECODED_DATA && call.inbox.len == 0);
    told = pdu_of(&call, "0103 0000 0003 11 41 01 0102 0000 0003 12 41 01 0102 0000 0003 11 41 02", 99, pdu, sizeof pdu);
    row("behind others", told.status == MODBUS_DONE && told.written == 2 && pdu[1] == 2);
    modbus_call_rtu_pdu(&call, 17, (const uint8_t *)"\x07", 1, output, sizeof output);
    told = pdu_of(&call, "12 07 6D 1218", 99, pdu, sizeof pdu);
    row("a PDU of another slave", told.status == MODBUS_HEADER_MISMATCH && told.detail == 18);
    told = pdu_of(&call, "11 03 02 0001 B847", 99, pdu, sizeof pdu);
    row("a frame of another function", told.status == MODBUS_FUNCTION_MISMATCH && told.detail == 3);
    told = pdu_of(&call, "11 91 01 8D95", 99, pdu, sizeof pdu);
    row("a frame of another exception", told.status == MODBUS_FUNCTION_MISMATCH && told.detail == 0x11);
}

/* A line with one slave on it, in milliseconds: it works off what it is asked, one request after another, and one of them slowly. */
enum { CALLS = 200, SLOW = 20, WORK_MS = 10, SLOW_MS = 150, TIMEOUT_MS = 100, QUIET_MS = 100 };

struct simulation {
    unsigned now, busy_until, asked, first, count;
    struct device device;
    struct {
        unsigned at;
        size_t len;
        uint8_t bytes[16];
    } replies[CALLS];
};

static void sends(struct simulation *it, const uint8_t *frame, size_t len) {
    modbus_unit unit = {17, tables_of(&it->device)};
    uint8_t output[MODBUS_LONGEST_REPLY];
    modbus_served served = modbus_line_serve(&unit, 1, frame, len, output, sizeof output);
    it->busy_until = (it->now > it->busy_until ? it->now : it->busy_until) + (it->asked++ == SLOW ? SLOW_MS : WORK_MS);
    it->replies[it->count].at = it->busy_until;
    it->replies[it->count].len = served.written;
    memcpy(it->replies[it->count++].bytes, output, served.written);
}

/* Waits for bytes, at most until then. How many came. */
static size_t receives(struct simulation *it, unsigned until, uint8_t *bytes) {
    if (it->first == it->count || it->replies[it->first].at > until) {
        it->now = until;
        return 0;
    }
    it->now = it->replies[it->first].at > it->now ? it->replies[it->first].at : it->now;
    memcpy(bytes, it->replies[it->first].bytes, it->replies[it->first].len);
    return it->replies[it->first++].len;
}

/* Reads a register in each call; how many calls got a wrong one, and in `lost` how many got none. */
static unsigned wrong_answers(bool is_settled, unsigned *lost) {
    static struct simulation it;
    modbus_line line;
    unsigned wrong = 0;
    memset(&it, 0, sizeof it);
    for (uint16_t i = 0; i < ENTRIES; i++) {
        it.device.holding_registers[i] = (uint16_t)(1000 + i);
    }
    *lost = 0;
    modbus_line_open(&line, QUIET_MS);
    for (unsigned i = 0; i < CALLS; i++) {
        const modbus_request request = {.function = 3, .address = (uint16_t)(i % ENTRIES), .quantity = 1};
        uint8_t frame[MODBUS_LONGEST_REPLY], piece[16];
        uint32_t status = MODBUS_WAITING, wait;
        uint16_t word = 0;
        bool coil;
        modbus_call call;
        modbus_response response;
        while (is_settled && (wait = modbus_line_wait(&line)) > 0) {
            unsigned before = it.now;
            if (receives(&it, it.now + wait, piece)) {
                modbus_line_heard(&line);
            } else {
                modbus_line_silent(&line, it.now - before);
            }
        }
        modbus_done made = modbus_call_rtu(&call, 17, &request, &word, 0, &coil, 0, frame, sizeof frame);
        sends(&it, frame, made.written);
        for (unsigned end = it.now + TIMEOUT_MS; status == MODBUS_WAITING && it.now < end;) {
            size_t got = receives(&it, end, piece);
            modbus_call_feed(&call, piece, got);
            status = modbus_call_answer(&call, &response, &word, 1, &coil, 1).status;
        }
        row("a call owes where it was given up", modbus_call_owes(&call, status) == (status != MODBUS_DONE));
        modbus_line_ended(&line, &call, status);
        *lost += status != MODBUS_DONE;
        wrong += status == MODBUS_DONE && word != 1000 + i % ENTRIES;
    }
    return wrong;
}

static void late_replies(void) {
    unsigned lost, wrong = wrong_answers(false, &lost);
    row("one late reply makes each later answer wrong that is not waited for", wrong == CALLS - SLOW - 1);
    wrong = wrong_answers(true, &lost);
    row("and none on a line that falls silent before", wrong == 0 && lost == 1);

    modbus_line line;
    modbus_call call;
    uint8_t output[MODBUS_LONGEST_REPLY], pdu[8];
    modbus_line_open(&line, 100);
    row("a line at first", modbus_line_wait(&line) == 100);
    modbus_line_silent(&line, 60);
    row("a silence", modbus_line_wait(&line) == 40);
    modbus_line_heard(&line);
    modbus_line_silent(&line, 99);
    row("bytes without a call", modbus_line_wait(&line) == 1);
    modbus_line_silent(&line, UINT32_MAX);
    row("a long silence", modbus_line_wait(&line) == 0);
    modbus_line_told(&line, 150);
    row("a turnaround delay", modbus_line_wait(&line) == 150);
    modbus_line_silent(&line, 150);
    modbus_call_rtu_pdu(&call, 17, (const uint8_t *)"\x07", 1, output, sizeof output);
    row("a reply with a byte behind it is owed", pdu_of(&call, "11 07 6D E218 11", 99, pdu, sizeof pdu).status == MODBUS_DONE &&
                                                     modbus_call_owes(&call, MODBUS_DONE));
    modbus_line_ended(&line, &call, MODBUS_DONE);
    row("so the line is to fall silent", modbus_line_wait(&line) == 100);
    modbus_line_silent(&line, 100);
    modbus_call_rtu_pdu(&call, 17, (const uint8_t *)"\x07", 1, output, sizeof output);
    row("an exception is a reply", pdu_of(&call, "11 87 01 83F5", 99, pdu, sizeof pdu).status == MODBUS_EXCEPTION &&
                                       !modbus_call_owes(&call, MODBUS_EXCEPTION) && modbus_call_owes(&call, MODBUS_FUNCTION_MISMATCH));
    modbus_line_ended(&line, &call, MODBUS_EXCEPTION);
    row("and the line is free", modbus_line_wait(&line) == 0);
    modbus_call_rtu_pdu(&call, 0, (const uint8_t *)"\x07", 1, output, sizeof output);
    row("slave 0 owes nothing", !modbus_call_owes(&call, MODBUS_WAITING));
    modbus_call_tcp_pdu(&call, 1, 17, (const uint8_t *)"\x07", 1, output, sizeof output);
    row("nor does a unit over TCP", !modbus_call_owes(&call, MODBUS_WAITING));
}

int main(void) {
    lines();
    streams();
    places();
    slaves();
    serving();
    bad_lengths();
    coding();
    wrapping();
    inbox();
    calling();
    fitting();
    raw_calling();
    late_replies();
    texts();
    nulls();
    printf("%d passed, %d failed\n", passed, failed);
    return failed != 0;
}
