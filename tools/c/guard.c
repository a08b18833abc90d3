/* Has each export work over arrays that stand between pages which no one may touch: a read or a write past either end of one is a fault
 * of the processor, in the library's own code as in any other. The last line is 'N passed, M failed'; what ends past an array has none. */
#define _DEFAULT_SOURCE
#include "modbus.h"

#include <stdio.h>
#include <stdlib.h>
#include <string.h>
#include <sys/mman.h>
#include <unistd.h>

enum { ENTRIES = 40, ROOM = 65536 };

static int passed, failed;
static bool at_end; /* whether arrays end at a page that is not to be touched, or begin behind one */

static void row(const char *name, bool holds) {
    passed += holds;
    failed += !holds;
    if (!holds) {
        printf("FAILED: %s, arrays %s\n", name, at_end ? "that end at a guard" : "that begin at a guard");
    }
}

/* An array of so many bytes, all 0, with a page on each side that is not to be touched. It is never given back. */
static void *guarded(size_t size) {
    size_t page = (size_t)sysconf(_SC_PAGESIZE), inner = (size + page - 1) / page * page;
    uint8_t *all = mmap(NULL, inner + 2 * page, PROT_NONE, MAP_PRIVATE | MAP_ANONYMOUS, -1, 0);
    if (all == MAP_FAILED || (inner && mprotect(all + page, inner, PROT_READ | PROT_WRITE))) {
        perror("guard");
        exit(1);
    }
    return at_end ? all + page + inner - size : all + page;
}

static void *copy_of(const void *bytes, size_t size) {
    return size ? memcpy(guarded(size), bytes, size) : guarded(0);
}

typedef modbus_served serve_function(const uint8_t *, size_t, bool *, size_t, const bool *, size_t, uint16_t *, size_t, const uint16_t *,
                                     size_t, bool, uint8_t *, size_t);

struct device {
    bool *coils, *discrete_inputs;
    uint16_t *holding_registers, *input_registers;
};

static struct device device(void) {
    return (struct device){guarded(ENTRIES), guarded(ENTRIES), guarded(2 * ENTRIES), guarded(2 * ENTRIES)};
}

/* A request of each function, for the last entries of the tables and for those that are just past them. */
static const struct {
    const char *name;
    uint8_t len, pdu[24];
} requests[] = {
    {"read coils", 5, {1, 0, 30, 0, 10}},
    {"read coils past the end", 5, {1, 0, 30, 0, 11}},
    {"read discrete inputs", 5, {2, 0, 0, 0, 40}},
    {"read holding registers", 5, {3, 0, 0, 0, 40}},
    {"read holding registers past the end", 5, {3, 0, 39, 0, 2}},
    {"read input registers", 5, {4, 0, 39, 0, 1}},
    {"write the last coil", 5, {5, 0, 39, 0xFF, 0}},
    {"write a coil past the end", 5, {5, 0, 40, 0xFF, 0}},
    {"write the last register", 5, {6, 0, 39, 1, 3}},
    {"write a register past the end", 5, {6, 0xFF, 0xFF, 1, 2}},
    {"write the last coils", 8, {15, 0, 31, 0, 9, 2, 0xFF, 1}},
    {"write coils past the end", 8, {15, 0, 32, 0, 9, 2, 0xFF, 1}},
    {"write the last registers", 10, {16, 0, 38, 0, 2, 4, 1, 2, 3, 4}},
    {"write registers past the end", 10, {16, 0, 39, 0, 2, 4, 1, 2, 3, 4}},
    {"mask the last register", 7, {22, 0, 39, 0, 0xF2, 0, 0x25}},
    {"read and write the last registers", 14, {23, 0, 38, 0, 2, 0, 38, 0, 2, 4, 1, 2, 3, 4}},
    {"a function that there is not", 2, {100, 0}},
};

enum { REQUESTS = sizeof requests / sizeof requests[0] };

/* The text of a frame in Modbus ASCII (SL 2.5.2). */
static size_t text_of(const uint8_t *frame, size_t len, char *text) {
    uint8_t sum = 0;
    size_t at = (size_t)sprintf(text, ":");
    for (size_t i = 0; i < len; i++) {
        sum = (uint8_t)(sum + frame[i]);
        at += (size_t)sprintf(text + at, "%02X", frame[i]);
    }
    return at + (size_t)sprintf(text + at, "%02X\r\n", (uint8_t)-sum);
}

/* Serves a message, and each front of it, from arrays of just its bytes, to an output of just as many as there have to be. */
static void serves(const char *name, serve_function *serve, const void *message, size_t len, size_t output_len) {
    struct device it = device();
    uint8_t *output = guarded(output_len);
    modbus_served served = serve(copy_of(message, len), len, it.coils, ENTRIES, it.discrete_inputs, ENTRIES, it.holding_registers,
                                 ENTRIES, it.input_registers, ENTRIES, false, output, output_len);
    row(name, served.status == MODBUS_DONE && served.used == len && served.written > 0);
    for (size_t front = 0; front < len; front++) {
        served = serve(copy_of(message, front), front, it.coils, ENTRIES, it.discrete_inputs, ENTRIES, it.holding_registers, ENTRIES,
                       it.input_registers, ENTRIES, false, output, output_len);
        row(name, served.status == MODBUS_WAITING);
    }
    served = serve(copy_of(message, len), len, guarded(0), 0, guarded(0), 0, guarded(0), 0, guarded(0), 0, false, output, output_len);
    row(name, served.status == MODBUS_DONE);
    served = serve(copy_of(message, len), len, it.coils, ENTRIES, it.discrete_inputs, ENTRIES, it.holding_registers, ENTRIES,
                   it.input_registers, ENTRIES, false, guarded(output_len - 1), output_len - 1);
    row(name, served.status == MODBUS_NO_ROOM);
}

static void serving(void) {
    for (size_t i = 0; i < REQUESTS; i++) {
        uint8_t frame[64], message[64];
        char text[160];
        modbus_done made = modbus_tcp_wrap(1, 17, requests[i].pdu, requests[i].len, message, sizeof message);
        serves(requests[i].name, modbus_tcp_serve, message, made.written, MODBUS_LONGEST_REPLY);
        made = modbus_rtu_wrap(17, requests[i].pdu, requests[i].len, message, sizeof message);
        if (requests[i].pdu[0] < 100) { /* the length of an RTU frame of another function is not known */
            serves(requests[i].name, modbus_rtu_serve, message, made.written, MODBUS_LONGEST_REPLY);
        }
        frame[0] = 17;
        memcpy(frame + 1, requests[i].pdu, requests[i].len);
        serves(requests[i].name, modbus_ascii_serve, text, text_of(frame, requests[i].len + 1u, text), MODBUS_LONGEST_TEXT);
    }
}

/* Each request is read, written again and wrapped, from and to arrays of just the room that it takes. */
static void coding(void) {
    for (size_t i = 0; i + 1 < REQUESTS; i++) {
        size_t len = requests[i].len;
        modbus_request *request = guarded(sizeof *request);
        uint16_t *words = guarded(4);
        bool *coils = guarded(9);
        uint8_t *pdu = copy_of(requests[i].pdu, len), *made = guarded(len), *adu = guarded(len + 7), *frame = guarded(len + 3);
        modbus_done done = modbus_request_decode(pdu, len, request, words, 2, coils, 9);
        row(requests[i].name, done.status == MODBUS_DONE);
        done = modbus_request_encode(request, words, 2, coils, 9, made, len);
        row(requests[i].name, done.status == MODBUS_DONE && done.written == len && !memcmp(made, pdu, len));
        row(requests[i].name, modbus_request_encode(request, words, 2, coils, 9, guarded(len - 1), len - 1).status == MODBUS_NO_ROOM);
        row(requests[i].name, modbus_tcp_wrap(1, 17, pdu, len, adu, len + 7).written == len + 7);
        row(requests[i].name, modbus_tcp_find(adu, len + 7).status == MODBUS_DONE);
        row(requests[i].name, modbus_rtu_wrap(17, pdu, len, frame, len + 3).written == len + 3);
        row(requests[i].name, modbus_rtu_find_request(frame, len + 3).used == len + 3);
        row(requests[i].name, modbus_rtu_find_response(frame, len + 3).used <= len + 3);
        row(requests[i].name, modbus_crc(frame, len + 3) == 0);
        for (size_t front = 0; front < len; front++) {
            row(requests[i].name, modbus_request_decode(copy_of(pdu, front), front, request, words, 2, coils, 9).status != MODBUS_DONE);
        }
    }
}

/* A call is begun, fed with its reply byte by byte, and answered, in arrays of just the room that it takes. */
static void calling(void) {
    for (unsigned registers = 1; registers <= MODBUS_MOST_WORDS; registers += 31) {
        uint8_t reply[MODBUS_LONGEST_REPLY] = {0, 9, 0, 0, 0, 0, 1, 3};
        modbus_call *call = guarded(sizeof *call);
        modbus_request *request = guarded(sizeof *request);
        modbus_response *response = guarded(sizeof *response);
        uint16_t *words = guarded(2 * registers);
        size_t len = 9 + 2 * registers;
        modbus_done done;
        request->function = MODBUS_READ_HOLDING_REGISTERS;
        request->quantity = (uint16_t)registers;
        done = modbus_call_tcp(call, 9, 1, request, guarded(0), 0, guarded(0), 0, guarded(12), 12);
        row("begin a call", done.status == MODBUS_DONE && done.written == 12);
        reply[5] = (uint8_t)(3 + 2 * registers);
        reply[8] = (uint8_t)(2 * registers);
        for (size_t i = 0; i < len; i++) {
            row("feed a call", modbus_call_feed(call, copy_of(reply + i, 1), 1) == 1);
            if (i + 1 < len) {
                row("wait", modbus_call_answer(call, response, words, registers, guarded(0), 0).status == MODBUS_WAITING);
            }
        }
        row("no room", modbus_call_answer(call, response, guarded(2 * registers - 2), registers - 1, guarded(0), 0).status == MODBUS_NO_ROOM);
        row("answer", modbus_call_answer(call, response, words, registers, guarded(0), 0).status == MODBUS_DONE);
    }
}

/* A call with a PDU of its own, whose reply is as long as the longest PDU; and what it leaves owed on a line. */
static void raw_calling(void) {
    static const uint8_t asked[] = {0x41, 1, 2};
    modbus_call *call = guarded(sizeof *call);
    modbus_line *line = guarded(sizeof *line);
    uint8_t reply[MODBUS_LONGEST_REPLY] = {0, 9, 0, 0, 0, 254, 1, 0x41};
    modbus_done done = modbus_call_tcp_pdu(call, 9, 1, copy_of(asked, 3), 3, guarded(9), 9);
    row("no room for a PDU", done.status == MODBUS_NO_ROOM);
    done = modbus_call_tcp_pdu(call, 9, 1, copy_of(asked, 3), 3, guarded(10), 10);
    row("begin a call of a PDU", done.status == MODBUS_DONE && done.written == 10);
    row("feed it", modbus_call_feed(call, copy_of(reply, sizeof reply), sizeof reply) == sizeof reply);
    row("no room for its reply", modbus_call_answer_pdu(call, guarded(252), 252).status == MODBUS_NO_ROOM);
    done = modbus_call_answer_pdu(call, guarded(253), 253);
    row("its reply", done.status == MODBUS_DONE && done.written == 253);
    done = modbus_call_rtu_pdu(call, 1, copy_of(asked, 3), 3, guarded(6), 6);
    row("begin one of a line", done.status == MODBUS_DONE && done.written == 6);
    row("wait for it", modbus_call_answer_pdu(call, guarded(0), 0).status == MODBUS_WAITING);
    modbus_line_open(line, 100);
    modbus_line_silent(line, 100);
    modbus_line_ended(line, call, MODBUS_WAITING);
    row("it is owed", modbus_call_owes(call, MODBUS_WAITING) && modbus_line_wait(line) == 100);
    modbus_line_heard(line);
    modbus_line_told(line, 200);
    row("a line", modbus_line_wait(line) == 200);
}

/* An inbox is fed more than it has room for, and answers a frame to each request. */
static void inboxes(void) {
    struct device it = device();
    modbus_inbox *inbox = guarded(sizeof *inbox);
    uint8_t *noise = guarded(ROOM), *output = guarded(MODBUS_LONGEST_REPLY);
    modbus_inbox_open(inbox);
    row("more than an inbox has room for", modbus_inbox_feed(inbox, noise, ROOM) == sizeof inbox->bytes);
    for (size_t i = 0; i < REQUESTS; i++) {
        uint8_t frame[64];
        modbus_done made = modbus_rtu_wrap(17, requests[i].pdu, requests[i].len, frame, sizeof frame);
        modbus_served served = {0};
        if (requests[i].pdu[0] >= 100) {
            continue;
        }
        modbus_inbox_open(inbox);
        row("feed an inbox", modbus_inbox_feed(inbox, copy_of(frame, made.written), made.written) == made.written);
        served = modbus_inbox_next(inbox, it.coils, ENTRIES, it.discrete_inputs, ENTRIES, it.holding_registers, ENTRIES,
                                   it.input_registers, ENTRIES, false, output, MODBUS_LONGEST_REPLY);
        row("an inbox", served.status == MODBUS_DONE && served.used == made.written);
    }
}

/* A unit of a line is asked by a burst of just its bytes, and by each front of it; and one of TCP by a stream. */
static void units(void) {
    for (size_t i = 0; i < REQUESTS; i++) {
        uint8_t message[64];
        struct device it = device();
        modbus_unit *unit = guarded(sizeof *unit);
        uint8_t *output = guarded(MODBUS_LONGEST_REPLY);
        modbus_done made = modbus_rtu_wrap(17, requests[i].pdu, requests[i].len, message, sizeof message);
        modbus_served served;
        unit->unit = 17;
        unit->tables = (modbus_tables){it.coils, ENTRIES, it.discrete_inputs, ENTRIES, it.holding_registers, ENTRIES, it.input_registers, ENTRIES};
        served = modbus_line_serve(unit, 1, copy_of(message, made.written), made.written, output, MODBUS_LONGEST_REPLY);
        row(requests[i].name, served.status == MODBUS_DONE && served.used == made.written && served.written > 0);
        for (size_t front = 0; front < made.written; front++) {
            served = modbus_line_serve(unit, 1, copy_of(message, front), front, output, MODBUS_LONGEST_REPLY);
            row(requests[i].name, served.status == MODBUS_SILENT && served.written == 0);
        }
        served = modbus_line_serve(guarded(0), 0, copy_of(message, made.written), made.written, output, MODBUS_LONGEST_REPLY);
        row(requests[i].name, served.status == MODBUS_SILENT);
        made = modbus_tcp_wrap(1, 17, requests[i].pdu, requests[i].len, message, sizeof message);
        served = modbus_stream_serve(&unit->tables, copy_of(message, made.written), made.written, output, MODBUS_LONGEST_REPLY);
        row(requests[i].name, served.status == MODBUS_DONE && served.used == made.written);
        served = modbus_stream_serve(&unit->tables, copy_of(message, 5), 5, output, MODBUS_LONGEST_REPLY);
        row(requests[i].name, served.status == MODBUS_WAITING);
    }
}

/* The same of a device whose tables begin at address 0, and at 1, so that each entry is asked for by another address. */
static void slaves(void) {
    for (size_t i = 0; i < REQUESTS; i++) {
        uint8_t message[64];
        struct device it = device();
        modbus_slave *slave = guarded(sizeof *slave);
        uint8_t *output = guarded(MODBUS_LONGEST_REPLY);
        modbus_done made;
        modbus_served served;
        *slave = (modbus_slave){
            17,
            {{it.coils, ENTRIES, it.discrete_inputs, ENTRIES, it.holding_registers, ENTRIES, it.input_registers, ENTRIES},
             {0, 0, 0, 0},
             {0, 0},
             {0, 0}},
        };
        for (uint16_t start = 0; start < 2; start++) {
            slave->device.starts = (modbus_starts){start, start, start, start};
            made = modbus_rtu_wrap(17, requests[i].pdu, requests[i].len, message, sizeof message);
            served = modbus_slaves_serve(slave, 1, copy_of(message, made.written), made.written, output, MODBUS_LONGEST_REPLY);
            row(requests[i].name, served.status == MODBUS_DONE && served.used == made.written && served.written > 0);
            made = modbus_tcp_wrap(1, 17, requests[i].pdu, requests[i].len, message, sizeof message);
            served = modbus_device_serve(&slave->device, copy_of(message, made.written), made.written, output, MODBUS_LONGEST_REPLY);
            row(requests[i].name, served.status == MODBUS_DONE && served.used == made.written && served.written > 0);
        }
        made = modbus_rtu_wrap(17, requests[i].pdu, requests[i].len, message, sizeof message);
        served = modbus_slaves_serve(guarded(0), 0, copy_of(message, made.written), made.written, output, MODBUS_LONGEST_REPLY);
        row(requests[i].name, served.status == MODBUS_SILENT);
    }
}

int main(void) {
    for (int side = 0; side < 2; side++) {
        at_end = side;
        serving();
        coding();
        calling();
        raw_calling();
        inboxes();
        units();
        slaves();
    }
    printf("%d passed, %d failed\n", passed, failed);
    return failed ? 1 : 0;
}
