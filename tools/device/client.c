/* A client by libmodbus that asks a device what libmodbus's own client asks its own server: the same functions, at the same addresses where
 * the device has them, and past the end of its tables where it has not.
 *
 * usage: client tcp PORT ENTRIES | client rtu TERMINAL ENTRIES
 *
 * The device is unit 17, with four tables of so many entries that hold 0. It prints each check that failed, and last "N checks, M wrong".
 */
#include <errno.h>
#include <stdint.h>
#include <stdio.h>
#include <stdlib.h>
#include <string.h>

#include <modbus.h>

enum { UNIT = 17, OTHER_UNIT = 18, COILS_AT = 0x130, COILS = 37, INPUTS_AT = 0x1C4, INPUTS = 22, REGISTERS_AT = 0x160, INPUT_REGISTER_AT = 0x108 };
enum { UNKNOWN_FUNCTION = 0x42, EXCEPTION_PDU = 2 };

struct client {
    modbus_t *line;
    int is_rtu, entries, checks, wrong;
};

static void check(struct client *it, const char *name, int is_right) {
    it->checks++;
    if (!is_right) {
        it->wrong++;
        printf("wrong: %s\n", name);
    }
}

/* Whether a call failed so. */
static int failed(int answer, int error) {
    return answer == -1 && errno == error;
}

static void writes_are_read_again(struct client *it) {
    static const uint8_t pattern[] = {0xCD, 0x6B, 0xB2, 0x0E, 0x1B};
    static const uint16_t three[] = {0x022B, 0x0001, 0x0064};
    static const uint8_t off[INPUTS];
    uint8_t coils[COILS], got[COILS];
    uint16_t registers[3], zeros[2] = {0, 0};

    check(it, "write one coil", modbus_write_bit(it->line, COILS_AT, 1) == 1);
    check(it, "read one coil", modbus_read_bits(it->line, COILS_AT, 1, got) == 1 && got[0] == 1);
    modbus_set_bits_from_bytes(coils, 0, COILS, pattern);
    check(it, "write 37 coils", modbus_write_bits(it->line, COILS_AT, COILS, coils) == COILS);
    check(it, "read 37 coils", modbus_read_bits(it->line, COILS_AT, COILS, got) == COILS && memcmp(got, coils, COILS) == 0);
    if (INPUTS_AT + INPUTS <= it->entries)
        check(it, "read 22 discrete inputs", modbus_read_input_bits(it->line, INPUTS_AT, INPUTS, got) == INPUTS && memcmp(got, off, INPUTS) == 0);
    check(it, "write one register", modbus_write_register(it->line, REGISTERS_AT, 0x1234) == 1);
    check(it, "read one register", modbus_read_registers(it->line, REGISTERS_AT, 1, registers) == 1 && registers[0] == 0x1234);
    check(it, "write three registers", modbus_write_registers(it->line, REGISTERS_AT, 3, three) == 3);
    check(it, "read three registers", modbus_read_registers(it->line, REGISTERS_AT, 3, registers) == 3 && memcmp(registers, three, sizeof three) == 0);
    check(it, "write two registers and read three",
          modbus_write_and_read_registers(it->line, REGISTERS_AT + 1, 2, zeros, REGISTERS_AT, 3, registers) == 3
              && registers[0] == 0x022B && registers[1] == 0 && registers[2] == 0);
    check(it, "read an input register", modbus_read_input_registers(it->line, INPUT_REGISTER_AT, 1, registers) == 1 && registers[0] == 0);
    modbus_write_register(it->line, REGISTERS_AT, 0x12);
    check(it, "write a mask", modbus_mask_write_register(it->line, REGISTERS_AT, 0xF2, 0x25) != -1);
    check(it, "read what it made", modbus_read_registers(it->line, REGISTERS_AT, 1, registers) == 1 && registers[0] == 0x17);
}

/* One entry too many from an address near the end on, and what begins past the end. */
static void tables_end(struct client *it) {
    uint8_t bits[COILS + 1] = {0};
    uint16_t words[33] = {0};
    int end = it->entries;
    check(it, "read coils past the end", failed(modbus_read_bits(it->line, end - COILS, COILS + 1, bits), EMBXILADD));
    check(it, "read discrete inputs past the end", failed(modbus_read_input_bits(it->line, end - INPUTS, INPUTS + 1, bits), EMBXILADD));
    check(it, "read registers past the end", failed(modbus_read_registers(it->line, end - 32, 33, words), EMBXILADD));
    check(it, "read input registers past the end", failed(modbus_read_input_registers(it->line, end - 1, 2, words), EMBXILADD));
    check(it, "write one coil past the end", failed(modbus_write_bit(it->line, end, 1), EMBXILADD));
    check(it, "write coils past the end", failed(modbus_write_bits(it->line, end, COILS, bits), EMBXILADD));
    check(it, "write one register past the end", failed(modbus_write_register(it->line, end, 1), EMBXILADD));
    check(it, "write registers past the end", failed(modbus_write_registers(it->line, end, 3, words), EMBXILADD));
    check(it, "write a mask past the end", failed(modbus_mask_write_register(it->line, end, 0xF2, 0x25), EMBXILADD));
    check(it, "write and read past the end", failed(modbus_write_and_read_registers(it->line, end, 3, words, end, 3, words), EMBXILADD));
}

/* Report Server ID: its size is told whole, and no byte is written past the room that is given. */
static void identity_fits_its_room(struct client *it) {
    uint8_t data[MODBUS_MAX_PDU_LENGTH] = {0};
    int size = modbus_report_slave_id(it->line, sizeof data, data);
    check(it, "report server id: it runs", size > 2 && data[1] == 0xFF);
    data[size - 1] = 42;
    check(it, "report server id, with too little room", modbus_report_slave_id(it->line, size - 1, data) == size && data[size - 1] == 42);
}

/* Whether this request of raw bytes is answered by this exception. */
static int is_refused(struct client *it, const uint8_t *request, int size, int exception) {
    uint8_t reply[MODBUS_TCP_MAX_ADU_LENGTH];
    int at = it->is_rtu ? 1 : 7, around = it->is_rtu ? 3 : 7;
    if (modbus_send_raw_request(it->line, (uint8_t *)request, size) == -1)
        return 0;
    int got = modbus_receive_confirmation(it->line, reply);
    return got == around + EXCEPTION_PDU && reply[at] == (0x80 | request[1]) && reply[at + 1] == exception;
}

/* A request of this function for so many entries: with no value behind, or with this byte count and six bytes. */
static void counts_are_refused(struct client *it, int function, int count, int bytes) {
    uint8_t request[13] = {UNIT, function, REGISTERS_AT >> 8, REGISTERS_AT & 0xFF, count >> 8, count & 0xFF, bytes, 0x02, 0x2B, 0x00, 0x01, 0x00, 0x64};
    char name[80];
    snprintf(name, sizeof name, "function %02X for %d entries in %d bytes has exception 03", function, count, bytes);
    check(it, name, is_refused(it, request, bytes < 0 ? 6 : 13, MODBUS_EXCEPTION_ILLEGAL_DATA_VALUE));
}

static void raw_requests_are_answered(struct client *it) {
    static const uint8_t read_five[] = {UNIT, 0x03, REGISTERS_AT >> 8, REGISTERS_AT & 0xFF, 0, 5}, unknown[] = {UNIT, UNKNOWN_FUNCTION, 0, 0, 0, 0};
    static const int most_read[] = {MODBUS_MAX_READ_BITS, MODBUS_MAX_READ_BITS, MODBUS_MAX_READ_REGISTERS, MODBUS_MAX_READ_REGISTERS};
    uint8_t reply[MODBUS_TCP_MAX_ADU_LENGTH], both[] = {UNIT, 0x17, REGISTERS_AT >> 8, REGISTERS_AT & 0xFF, 0, 0, 0, 0, 0, 1, 2, 0x12, 0x34};
    int around = it->is_rtu ? 3 : 7;
    modbus_send_raw_request(it->line, (uint8_t *)read_five, sizeof read_five);
    check(it, "a raw request is answered", modbus_receive_confirmation(it->line, reply) == around + 12);
    for (int function = 1; function <= 4; function++) {
        counts_are_refused(it, function, 0, -1);
        counts_are_refused(it, function, most_read[function - 1] + 1, -1);
    }
    check(it, "function 17 for 0 entries has exception 03", is_refused(it, both, sizeof both, MODBUS_EXCEPTION_ILLEGAL_DATA_VALUE));
    both[5] = MODBUS_MAX_WR_READ_REGISTERS + 1;
    check(it, "function 17 for 126 entries has exception 03", is_refused(it, both, sizeof both, MODBUS_EXCEPTION_ILLEGAL_DATA_VALUE));
    counts_are_refused(it, 0x10, 0, 0);
    counts_are_refused(it, 0x10, MODBUS_MAX_WRITE_REGISTERS + 1, 6);
    counts_are_refused(it, 0x10, MODBUS_MAX_WRITE_REGISTERS, 6);
    counts_are_refused(it, 0x0F, 0, 0);
    counts_are_refused(it, 0x0F, MODBUS_MAX_WRITE_BITS + 1, 6);
    counts_are_refused(it, 0x0F, MODBUS_MAX_WRITE_BITS, 6);
    check(it, "an unknown function has exception 01", is_refused(it, unknown, sizeof unknown, MODBUS_EXCEPTION_ILLEGAL_FUNCTION));
}

/* On a shared line what is for another unit, and what is for all, has no answer. */
static void others_are_left_alone(struct client *it) {
    static const uint8_t request[] = {OTHER_UNIT, 0x03, 0x00, 0x01, 0x01, 0x01}, bad[] = {OTHER_UNIT, 0x03, 0x00, 0x01, 0xFF, 0xFF};
    static const uint8_t answer[] = {OTHER_UNIT, 0x03, 0x04, 0, 0, 0, 0};
    uint16_t registers[3];
    uint8_t reply[MODBUS_RTU_MAX_ADU_LENGTH];
    modbus_set_response_timeout(it->line, 0, 200000);
    modbus_set_slave(it->line, OTHER_UNIT);
    check(it, "another unit is not answered for", failed(modbus_read_registers(it->line, REGISTERS_AT, 3, registers), ETIMEDOUT));
    modbus_send_raw_request(it->line, (uint8_t *)request, sizeof request);
    check(it, "a request to another has no answer", failed(modbus_receive_confirmation(it->line, reply), ETIMEDOUT));
    modbus_send_raw_request(it->line, (uint8_t *)answer, sizeof answer);
    check(it, "nor has its answer", failed(modbus_receive_confirmation(it->line, reply), ETIMEDOUT));
    modbus_send_raw_request(it->line, (uint8_t *)bad, sizeof bad);
    check(it, "nor has a bad request to it", failed(modbus_receive_confirmation(it->line, reply), ETIMEDOUT));
    modbus_set_slave(it->line, MODBUS_BROADCAST_ADDRESS);
    check(it, "a read for all has no answer", failed(modbus_read_registers(it->line, REGISTERS_AT, 3, registers), ETIMEDOUT));
    modbus_set_slave(it->line, UNIT);
    modbus_set_response_timeout(it->line, 2, 0);
    check(it, "and the next request has", modbus_read_registers(it->line, REGISTERS_AT, 3, registers) == 3 && registers[0] == 0x17);
}

int main(int count, char **words) {
    if (count != 4)
        return 2;
    struct client it = {.is_rtu = strcmp(words[1], "rtu") == 0, .entries = atoi(words[3])};
    it.line = it.is_rtu ? modbus_new_rtu(words[2], 115200, 'N', 8, 1) : modbus_new_tcp("127.0.0.1", atoi(words[2]));
    if (it.line == NULL || modbus_set_slave(it.line, UNIT) != 0 || modbus_set_response_timeout(it.line, 2, 0) != 0 || modbus_connect(it.line) != 0) {
        fprintf(stderr, "client: %s\n", modbus_strerror(errno));
        return 1;
    }
    writes_are_read_again(&it);
    tables_end(&it);
    identity_fits_its_room(&it);
    raw_requests_are_answered(&it);
    if (it.is_rtu)
        others_are_left_alone(&it);
    printf("%d checks, %d wrong\n", it.checks, it.wrong);
    modbus_close(it.line);
    modbus_free(it.line);
    return it.wrong != 0;
}
