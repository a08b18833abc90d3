/* How many bytes of stack an export takes in a call that goes deep: it runs on a stack of its own, painted before. A line for each, and one that
 * tells the most. The status is 0 where that is within 8 KiB. */
#define MODBUS_UNCHECKED
#include "modbus.h"

#include <stdio.h>
#include <string.h>
#include <ucontext.h>

enum { STACK = 65536, MOST = 8192, PAINT = 0xA5, ENTRIES = 2048 };

static _Alignas(64) uint8_t stack[STACK];
static ucontext_t here, there;

static bool coils[ENTRIES], inputs[ENTRIES];
static uint16_t registers[ENTRIES], words[MODBUS_MOST_WORDS];
static uint8_t message[MODBUS_LONGEST_TEXT], output[MODBUS_LONGEST_TEXT];
static size_t len;
static modbus_unit unit = {17, {coils, ENTRIES, inputs, ENTRIES, registers, ENTRIES, registers, ENTRIES}};
static modbus_slave slave = {17, {{coils, ENTRIES, inputs, ENTRIES, registers, ENTRIES, registers, ENTRIES}, {0, 0, 0, 0}, {0, 0}, {0, 0}}};
static modbus_inbox inbox;
static modbus_call call;
static modbus_request request;
static modbus_response response;

static void nothing(void) {}
static void line_serve(void) { modbus_line_serve(&unit, 1, message, len, output, sizeof output); }
static void slaves_serve(void) { modbus_slaves_serve(&slave, 1, message, len, output, sizeof output); }
static void device_serve(void) { modbus_device_serve(&slave.device, message, len, output, sizeof output); }
static void stream_serve(void) { modbus_stream_serve(&unit.tables, message, len, output, sizeof output); }
static void tcp_serve(void) {
    modbus_tcp_serve(message, len, coils, ENTRIES, inputs, ENTRIES, registers, ENTRIES, registers, ENTRIES, false, output, sizeof output);
}
static void rtu_serve(void) {
    modbus_rtu_serve(message, len, coils, ENTRIES, inputs, ENTRIES, registers, ENTRIES, registers, ENTRIES, false, output, sizeof output);
}
static void ascii_serve(void) {
    modbus_ascii_serve(message, len, coils, ENTRIES, inputs, ENTRIES, registers, ENTRIES, registers, ENTRIES, false, output, sizeof output);
}
static void inbox_next(void) {
    modbus_inbox_next(&inbox, coils, ENTRIES, inputs, ENTRIES, registers, ENTRIES, registers, ENTRIES, false, output, sizeof output);
}
static void request_decode(void) { modbus_request_decode(message, len, &request, words, MODBUS_MOST_WORDS, coils, ENTRIES); }
static void request_encode(void) { modbus_request_encode(&request, words, MODBUS_MOST_WORDS, coils, ENTRIES, output, sizeof output); }
static void response_decode(void) { modbus_response_decode(message, len, &response, words, MODBUS_MOST_WORDS, coils, ENTRIES); }
static void response_encode(void) { modbus_response_encode(&response, words, MODBUS_MOST_WORDS, coils, ENTRIES, output, sizeof output); }
static void call_rtu(void) {
    modbus_call_rtu(&call, 17, &request, words, MODBUS_MOST_WORDS, coils, ENTRIES, output, sizeof output);
}
static void call_answer(void) { modbus_call_answer(&call, &response, words, MODBUS_MOST_WORDS, coils, ENTRIES); }
static void rtu_find(void) { modbus_rtu_find_response(message, len); }
static void rtu_wrap(void) { modbus_rtu_wrap(17, message, len < 253 ? len : 253, output, sizeof output); }

/* The bytes of the stack that a function changed. */
static size_t taken(void (*function)(void)) {
    size_t untouched = 0;
    memset(stack, PAINT, sizeof stack);
    getcontext(&there);
    there.uc_stack.ss_sp = stack;
    there.uc_stack.ss_size = sizeof stack;
    there.uc_link = &here;
    makecontext(&there, function, 0);
    swapcontext(&here, &there);
    while (untouched < STACK && stack[untouched] == PAINT) {
        untouched++;
    }
    return STACK - untouched;
}

static size_t base, most;

static void tell(const char *name, void (*function)(void)) {
    size_t bytes = taken(function) - base;
    printf("%s %zu\n", name, bytes);
    most = bytes > most ? bytes : most;
}

/* The PDU of the longest read and write, as a request of registers, in the message of a framing. */
static const uint8_t read_write[] = {0x17, 0, 0, 0, 0x7D, 0, 0, 0, 2, 4, 0, 1, 0, 2};

static void framed(void) { len = modbus_rtu_wrap(17, read_write, sizeof read_write, message, sizeof message).written; }

int main(void) {
    base = taken(nothing);
    framed();
    tell("modbus_line_serve", line_serve);
    tell("modbus_slaves_serve", slaves_serve);
    tell("modbus_rtu_serve", rtu_serve);
    modbus_inbox_open(&inbox);
    modbus_inbox_feed(&inbox, message, len);
    tell("modbus_inbox_next", inbox_next);
    tell("modbus_rtu_find_response", rtu_find);
    tell("modbus_rtu_wrap", rtu_wrap);
    len = modbus_tcp_wrap(1, 17, read_write, sizeof read_write, message, sizeof message).written;
    tell("modbus_stream_serve", stream_serve);
    tell("modbus_device_serve", device_serve);
    tell("modbus_tcp_serve", tcp_serve);
    memcpy(message, ":110300020001E9\r\n", len = 17);
    tell("modbus_ascii_serve", ascii_serve);
    memcpy(message, read_write, len = sizeof read_write);
    tell("modbus_request_decode", request_decode);
    tell("modbus_request_encode", request_encode);
    request = (modbus_request){.function = MODBUS_READ_HOLDING_REGISTERS, .quantity = 2};
    tell("modbus_call_rtu", call_rtu);
    memcpy(message, (const uint8_t[]){3, 4, 0, 1, 0, 2}, len = 6);
    tell("modbus_response_decode", response_decode);
    tell("modbus_response_encode", response_encode);
    len = modbus_rtu_wrap(17, (const uint8_t[]){3, 4, 0, 1, 0, 2}, 6, message, sizeof message).written;
    modbus_call_feed(&call, message, len);
    tell("modbus_call_answer", call_answer);
    printf("%zu bytes at most\n", most);
    return most > MOST;
}
