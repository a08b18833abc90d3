/* An RTU master on a serial line: it writes registers and coils of a slave, reads them back, tells all slaves, and asks what is refused and
 * what only a PDU tells. A reply that comes late is dropped before the next request is sent.
 * usage: master ADDRESS PORT [BAUD [PARITY]]. The status is 0 where each answer was the one wanted. */
#include "line.h"

/* How long a reply is waited for, and for how long the line has to be silent where one may still come: together longer than a slave ever takes.
 * How often a slave is asked. The turnaround delay: how long slaves have for what all were told (SL 2.4.1). In how long a line falls silent. */
enum { REPLY_US = 500000, QUIET_US = 500000, TRIES = 3, TURNAROUND_US = 100000, SETTLE_US = 10000000 };

static uint16_t words[MODBUS_MOST_WORDS];
static bool coils[MODBUS_MOST_COILS];
static uint8_t pdu[MODBUS_LONGEST_PDU];

/* What may still come on the line. */
static modbus_line owed;

/* Waits until a request may be sent: until the line was silent for as long as is wanted, and for a frame's end. What comes before that is
 * dropped. */
static void settle(const struct line *line) {
    long long end = line_now_us() + SETTLE_US;
    for (;;) {
        uint32_t wait = modbus_line_wait(&owed);
        uint32_t silence = wait > line->silence_us ? wait : (uint32_t)line->silence_us;
        uint8_t dropped[256];
        if (!line_waits(line, silence)) {
            modbus_line_silent(&owed, silence);
            return;
        }
        if (line_read(line, dropped, sizeof dropped)) {
            modbus_line_heard(&owed);
        }
        if (line_now_us() > end) {
            line_stop("the line does not fall silent");
        }
    }
}

/* Sends a request, once it may be sent. */
static void send_request(const struct line *line, modbus_call *call, uint8_t slave, const modbus_request *request) {
    uint8_t frame[MODBUS_LONGEST_REPLY];
    modbus_done made = modbus_call_rtu(call, slave, request, words, MODBUS_MOST_WORDS, coils, MODBUS_MOST_COILS, frame, sizeof frame);
    if (made.status != MODBUS_DONE) {
        line_stop(modbus_status_text(made.status));
    }
    settle(line);
    line_send(line, frame, made.written);
}

/* Whether that was no reply to the request, and used up: the reply may stand behind it (SL 2.4.1). */
static bool is_passed_by(uint32_t status) {
    return status == MODBUS_HEADER_MISMATCH || status == MODBUS_FUNCTION_MISMATCH || status == MODBUS_MISMATCH ||
           status == MODBUS_REFUSED || status == MODBUS_CROWD;
}

/* What a call tells of a piece that came. */
static uint32_t told_by(modbus_call *call, const uint8_t *piece, size_t len, modbus_response *response) {
    uint32_t status = MODBUS_WAITING;
    for (size_t fed = 0; fed < len && status == MODBUS_WAITING;) {
        fed += modbus_call_feed(call, piece + fed, len - fed);
        do {
            status = modbus_call_answer(call, response, words, MODBUS_MOST_WORDS, coils, MODBUS_MOST_COILS).status;
        } while (is_passed_by(status));
    }
    return status;
}

/* Waits for the reply of a call whose request was sent, and takes note of what is owed then. What the call told last. */
static uint32_t await(const struct line *line, modbus_call *call, modbus_response *response) {
    uint32_t status = MODBUS_WAITING;
    for (long long left, end = line_now_us() + REPLY_US; status == MODBUS_WAITING && (left = end - line_now_us()) > 0;) {
        uint8_t piece[256];
        size_t got = line_waits(line, left) ? line_read(line, piece, sizeof piece) : 0;
        status = told_by(call, piece, got, response);
    }
    modbus_line_ended(&owed, call, status);
    return status;
}

/* The same of a call that was begun by a PDU, which is looked for once the line fell silent: not each function has a length of its own. */
static uint32_t await_pdu(const struct line *line, modbus_call *call) {
    uint32_t status;
    bool came = false;
    for (long long left, end = line_now_us() + REPLY_US; (left = end - line_now_us()) > 0;) {
        uint8_t piece[256];
        if (!line_waits(line, came && line->silence_us < left ? line->silence_us : left)) {
            break;
        }
        size_t got = line_read(line, piece, sizeof piece);
        came = modbus_call_feed(call, piece, got) > 0 || came;
    }
    do {
        status = modbus_call_answer_pdu(call, pdu, sizeof pdu).status;
    } while (is_passed_by(status));
    modbus_line_ended(&owed, call, status);
    return status;
}

/* Asks a slave; where no reply comes in time it asks again. Whether it answered. */
static bool ask(const struct line *line, uint8_t slave, const modbus_request *request, modbus_response *response) {
    modbus_call call;
    for (int tries = 0; tries < TRIES; tries++) {
        send_request(line, &call, slave, request);
        if (await(line, &call, response) == MODBUS_DONE) {
            return true;
        }
    }
    return false;
}

/* Asks a slave by a PDU of one byte. What it told. */
static uint32_t ask_function(const struct line *line, uint8_t slave, uint8_t function) {
    uint8_t frame[MODBUS_LONGEST_REPLY];
    modbus_call call;
    modbus_done made = modbus_call_rtu_pdu(&call, slave, &function, 1, frame, sizeof frame);
    settle(line);
    line_send(line, frame, made.written);
    return await_pdu(line, &call);
}

/* Tells all slaves, which do not answer, and gives them the time to do it. */
static void tell_all(const struct line *line, const modbus_request *request) {
    modbus_call call;
    send_request(line, &call, 0, request);
    modbus_line_told(&owed, TURNAROUND_US);
}

static void want(bool holds, const char *what) {
    if (!holds) {
        line_stop(what);
    }
}

int main(int argc, char **argv) {
    modbus_response answer;
    int address = argc > 2 ? atoi(argv[1]) : 0;
    if (address < 1 || address > 247) {
        line_stop("usage: master ADDRESS PORT [BAUD [PARITY]]");
    }
    struct line line = line_of_words(argc, argv, 2);
    modbus_line_open(&owed, QUIET_US);
    uint8_t slave = (uint8_t)address;

    for (uint16_t i = 0; i < 100; i++) {
        words[i] = (uint16_t)(1000 + i);
    }
    modbus_request request = {.function = MODBUS_WRITE_MULTIPLE_REGISTERS, .address = 4, .count = 100};
    want(ask(&line, slave, &request, &answer) && !answer.exception && answer.quantity == 100, "registers were not written");
    memset(words, 0, sizeof words);
    request = (modbus_request){.function = MODBUS_READ_HOLDING_REGISTERS, .address = 4, .quantity = 100};
    want(ask(&line, slave, &request, &answer) && answer.count == 100 && words[0] == 1000 && words[99] == 1099,
         "registers read otherwise");

    coils[0] = true, coils[1] = false, coils[2] = true;
    request = (modbus_request){.function = MODBUS_WRITE_MULTIPLE_COILS, .address = 20, .count = 3};
    want(ask(&line, slave, &request, &answer) && answer.quantity == 3, "coils were not written");
    memset(coils, 0, sizeof coils);
    request = (modbus_request){.function = MODBUS_READ_COILS, .address = 20, .quantity = 3};
    want(ask(&line, slave, &request, &answer) && answer.count == 3 && coils[0] && !coils[1] && coils[2],
         "coils read otherwise");

    request = (modbus_request){.function = MODBUS_WRITE_SINGLE_REGISTER, .address = 7, .word = 0x1234};
    tell_all(&line, &request);
    request = (modbus_request){.function = MODBUS_READ_HOLDING_REGISTERS, .address = 7, .quantity = 1};
    want(ask(&line, slave, &request, &answer) && answer.count == 1 && words[0] == 0x1234, "a broadcast had no effect");

    request = (modbus_request){.function = MODBUS_READ_INPUT_REGISTERS, .address = 65535, .quantity = 1};
    want(ask(&line, slave, &request, &answer) && answer.exception && answer.code == MODBUS_ILLEGAL_DATA_ADDRESS,
         "an address past the end was answered");
    request = (modbus_request){.function = MODBUS_READ_INPUT_REGISTERS, .quantity = 1};
    want(ask_function(&line, slave, MODBUS_REPORT_SERVER_ID) == MODBUS_EXCEPTION && pdu[0] == 0x91 && pdu[1] == MODBUS_ILLEGAL_FUNCTION,
         "a function that the slave has not was answered");
    want(!ask(&line, slave == 1 ? 2 : 1, &request, &answer), "a slave that is not there answered");
    want(ask(&line, slave, &request, &answer) && words[0] == 65535, "no answer behind a silent slave");
    printf("each answer was the one wanted\n");
    return 0;
}
