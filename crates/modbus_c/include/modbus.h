/* SPDX-License-Identifier: MIT OR Apache-2.0 */
/*
 * The Modbus protocol, proved: libmodbus_c.a, which docs/C.md tells how to build and to link.
 *
 * No function reads or writes a file or a socket, starts a thread, or keeps anything between two calls. Every array is the caller's, and is
 * used during the call alone.
 *
 * What the caller owes, since no proof reaches it:
 *  - A pointer beside a length points to so many entries, and a pointer to a struct to one. A null pointer is told apart (at the end).
 *  - An array or a struct that a call writes overlaps no other of the same call.
 *  - A `bool`, also each of an array, is 0 or 1.
 *  - Arrays that a call is writing are used by nothing else until it returns. Calls over other arrays may run at the same time.
 *  - No call is made from a signal handler, nor in a forked child of a program of many threads before it executes another: the library
 *    takes memory, as malloc does.
 *  - malloc, realloc and free are those of one allocator, and malloc aligns as C demands; or the caller links three functions of its own
 *    (examples/c/arena.c), and then no malloc.
 *
 * A word is a number of the program, in the order of bytes of its host: the library alone puts it into the order of the wire.
 *
 * How large an array has to be: an output MODBUS_LONGEST_REPLY bytes, of Modbus ASCII MODBUS_LONGEST_TEXT, a PDU MODBUS_LONGEST_PDU;
 * `words` and `coils` that are written MODBUS_MOST_WORDS and MODBUS_MOST_COILS, or as many as were asked for. What is held of a TCP
 * connection has room for MODBUS_LONGEST_REPLY bytes: where it is full and MODBUS_WAITING is told, the header tells more than an ADU has,
 * and the connection is to be closed. What is held of Modbus ASCII has room for MODBUS_LONGEST_TEXT bytes and a piece.
 *
 * What the library owes, where that is kept: each comment below. Lengths may have any value, and so may the bytes. What is not told to be
 * written stays as it was.
 *
 * AP is the Modbus Application Protocol V1.1b3, SL MODBUS over Serial Line V1.02, TCP MODBUS Messaging on TCP/IP V1.0b.
 */
#ifndef MODBUS_PROVED_H
#define MODBUS_PROVED_H

#include <stdbool.h>
#include <stddef.h>
#include <stdint.h>

#ifdef __cplusplus
extern "C" {
#endif

/* The version of this header and of the library. */
#define MODBUS_VERSION_MAJOR 0
#define MODBUS_VERSION_MINOR 17
#define MODBUS_VERSION_PATCH 0
#define MODBUS_VERSION "0.17.0"

/* What a call tells. Each function names those that it may tell. */
enum modbus_status {
    MODBUS_DONE = 0,      /* a message was found, a request answered, a PDU read or written */
    MODBUS_WAITING = 1,   /* no whole message: more bytes are waited for */
    MODBUS_SILENT = 2,    /* what was asked has its effect, and no answer: a broadcast, or what is for others */
    MODBUS_REFUSED = 3,   /* the PDU is refused, for the reason that `detail` tells */
    MODBUS_NO_MEMORY = 4, /* memory was refused */
    MODBUS_NO_LENGTH = 5, /* the header of an ADU tells the length 0, to modbus_stream_serve one above 254 too: close the connection */
    MODBUS_FOREIGN = 6,   /* the header of an ADU tells another protocol: close the connection */
    MODBUS_CROWD = 7,     /* no frame stands at the first twenty offsets */
    MODBUS_NO_ROOM = 8,   /* an array of the caller is too short */
    MODBUS_UNTOLD = 9,    /* the struct does not tell such a function */
    MODBUS_TOO_LONG = 10, /* the PDU would have more than 253 bytes */
    MODBUS_HEADER_MISMATCH = 11,   /* the reply is of another slave than was asked */
    MODBUS_FUNCTION_MISMATCH = 12, /* the reply is of another function than was asked */
    MODBUS_FULL = 13, /* no whole message, and no room for more bytes: give the call up, and close the connection */
    MODBUS_NULL = 14, /* a pointer is null where there has to be something: nothing was done */
    MODBUS_MISMATCH = 15, /* the reply is of the slave and the function that were asked, and does not fit the request */
    MODBUS_EXCEPTION = 16 /* the reply is an exception of the code `detail` (modbus_call_answer_pdu; AP 7) */
};

/* Why a PDU is refused: `detail` beside MODBUS_REFUSED. Where several hold, the first that stands in the PDU is told. */
enum modbus_reason {
    MODBUS_UNEXPECTED_END = 1,         /* it ends within a field */
    MODBUS_SIZE_EXCEEDED = 2,          /* it has more than 253 bytes */
    MODBUS_TOO_SHORT = 3,              /* it has fewer bytes than its byte count tells */
    MODBUS_INVALID_QUANTITY = 4,       /* the byte count and the quantity do not belong together; a request to write nothing */
    MODBUS_INVALID_COIL = 5,           /* the word of a coil is neither FF00 nor 0000 hexadecimal */
    MODBUS_UNSUPPORTED_MEI = 6,        /* another MEI type than device identification */
    MODBUS_INVALID_READ_CODE = 7,      /* no read code of a device identification */
    MODBUS_INVALID_CONFORMITY = 8,     /* no conformity level of a device identification */
    MODBUS_INVALID_RUN_STATUS = 9,     /* a run status that is neither 00 nor FF hexadecimal */
    MODBUS_INVALID_OBJECT_LENGTH = 10, /* an object of a device identification ends past the PDU */
    MODBUS_INVALID_FUNCTION = 11,      /* a request's function code is above 127 */
    MODBUS_UNDECODED_DATA = 12         /* it goes on after its last field */
};

/* The functions of modbus_request and modbus_response, by the names of AP 6. */
enum modbus_function {
    MODBUS_READ_COILS = 0x01,
    MODBUS_READ_DISCRETE_INPUTS = 0x02,
    MODBUS_READ_HOLDING_REGISTERS = 0x03,
    MODBUS_READ_INPUT_REGISTERS = 0x04,
    MODBUS_WRITE_SINGLE_COIL = 0x05,
    MODBUS_WRITE_SINGLE_REGISTER = 0x06,
    MODBUS_WRITE_MULTIPLE_COILS = 0x0F,
    MODBUS_WRITE_MULTIPLE_REGISTERS = 0x10,
    MODBUS_REPORT_SERVER_ID = 0x11,
    MODBUS_MASK_WRITE_REGISTER = 0x16,
    MODBUS_READ_WRITE_MULTIPLE_REGISTERS = 0x17,
    MODBUS_READ_FIFO_QUEUE = 0x18
};

/* The codes of exceptions, by the names of AP 7. A server may tell another code. */
enum modbus_exception {
    MODBUS_ILLEGAL_FUNCTION = 0x01,
    MODBUS_ILLEGAL_DATA_ADDRESS = 0x02,
    MODBUS_ILLEGAL_DATA_VALUE = 0x03,
    MODBUS_SERVER_DEVICE_FAILURE = 0x04,
    MODBUS_ACKNOWLEDGE = 0x05,
    MODBUS_SERVER_DEVICE_BUSY = 0x06,
    MODBUS_MEMORY_PARITY_ERROR = 0x08,
    MODBUS_GATEWAY_PATH_UNAVAILABLE = 0x0A,
    MODBUS_GATEWAY_TARGET_DEVICE = 0x0B
};

/* What a status means, as a text that stands as long as the program does. */
static inline const char *modbus_status_text(uint32_t status) {
    switch (status) {
    case MODBUS_DONE:
        return "done";
    case MODBUS_WAITING:
        return "no whole message yet";
    case MODBUS_SILENT:
        return "nothing to be answered";
    case MODBUS_REFUSED:
        return "a PDU that is refused";
    case MODBUS_NO_MEMORY:
        return "memory was refused";
    case MODBUS_NO_LENGTH:
        return "a header of a length that is none";
    case MODBUS_FOREIGN:
        return "a header of another protocol";
    case MODBUS_CROWD:
        return "no frame in what was received";
    case MODBUS_NO_ROOM:
        return "an array is too short";
    case MODBUS_UNTOLD:
        return "a function that the struct does not tell";
    case MODBUS_TOO_LONG:
        return "a PDU of more than 253 bytes";
    case MODBUS_HEADER_MISMATCH:
        return "the reply of another slave";
    case MODBUS_FUNCTION_MISMATCH:
        return "the reply of another function";
    case MODBUS_FULL:
        return "no whole message, and no room for more";
    case MODBUS_NULL:
        return "a null pointer";
    case MODBUS_MISMATCH:
        return "a reply that does not fit the request";
    case MODBUS_EXCEPTION:
        return "an exception";
    default:
        return "no status of this library";
    }
}

/* The most bytes of a reply, and so what an output has room for (TCP 3.1.3: a header of 7 bytes, and a PDU of 253). */
#define MODBUS_LONGEST_REPLY 260

/* The most bytes of a reply of Modbus ASCII (SL 2.5.2): a `:`, two digits for each of 255 bytes, CR and LF. */
#define MODBUS_LONGEST_TEXT 513

/* The most bytes of a PDU (AP 4.1). */
#define MODBUS_LONGEST_PDU 253

/* The most registers, and the most coils, that a PDU of so many bytes tells. */
#define MODBUS_MOST_WORDS 125
#define MODBUS_MOST_COILS 2008

/* What modbus_rtu_find_request and modbus_rtu_find_response find. */
typedef struct {
    uint32_t status;
    size_t start;   /* where the slave address stands; the PDU stands behind it */
    size_t pdu_len; /* the bytes of the PDU */
    size_t used;    /* where the frame ends; else how many bytes are of no use */
} modbus_frame;

/* What modbus_tcp_find finds. */
typedef struct {
    uint32_t status;
    uint16_t transaction_id;
    uint16_t protocol; /* beside MODBUS_FOREIGN: the protocol that the header tells */
    uint8_t unit_id;
    size_t pdu_len; /* the bytes of the PDU, which stands from byte 7 on */
    size_t used;    /* where the ADU ends */
} modbus_adu;

/* What the reading or the writing of a PDU comes to. */
typedef struct {
    uint32_t status;
    uint32_t detail; /* beside MODBUS_REFUSED: one of modbus_reason */
    size_t written;  /* how many bytes were written */
} modbus_done;

/* What was done with the front of an input. */
typedef struct {
    uint32_t status;
    uint32_t detail; /* beside MODBUS_REFUSED: one of modbus_reason; beside MODBUS_FOREIGN: the protocol */
    size_t used;     /* where the message ends; without a message, how many bytes are of no use */
    size_t written;  /* how many bytes the reply has */
} modbus_served;

/* A request without its lists. A field that is not named beside a function is 0 when it is read, and is not looked at when it is written.
 *
 *   function (hexadecimal)                     fields                                       AP
 *   01, 02, 03, 04  read                       address, quantity                            6.1 to 6.4
 *   05  write a coil                           address, coil                                6.5
 *   06  write a register                       address, word                                6.6
 *   0F  write coils                            address, count: so many of the coils         6.11
 *   10  write registers                        address, count: so many of the words         6.12
 *   11  report the server's id                 none                                         6.13
 *   16  mask a register                        address, word: the AND mask, or_mask         6.16
 *   17  write registers, then read             address and quantity to read,                6.17
 *                                              write_address and count: so many of the words
 *   18  read a queue                           address                                      6.18
 */
typedef struct {
    uint8_t function;
    bool coil;
    uint16_t address;
    uint16_t quantity;
    uint16_t write_address;
    uint16_t word;
    uint16_t or_mask;
    size_t count;
} modbus_request;

/* A response without its lists, or an exception. A field that is not named is 0 when it is read, and is not looked at when it is written.
 *
 *   an exception                               exception: true, code, function: the request's   AP 7
 *   01, 02  coils, discrete inputs             count: so many coils; where a PDU alone is read, eight for each byte
 *   03, 04, 17, 18  registers                  count: so many words
 *   05  wrote a coil                           address, coil
 *   06  wrote a register                       address, word
 *   0F, 10  wrote coils, registers             address, quantity
 *   16  masked a register                      address, word: the AND mask, or_mask
 */
typedef struct {
    uint8_t function;
    bool exception;
    uint8_t code;
    bool coil;
    uint16_t address;
    uint16_t quantity;
    uint16_t word;
    uint16_t or_mask;
    size_t count;
} modbus_response;

/* The tables of a device in arrays of the caller, which requests read and write. A table may have any length; an address past its end is
 * answered by an exception. */
typedef struct {
    bool *coils;
    size_t coils_len;
    const bool *discrete_inputs;
    size_t discrete_inputs_len;
    uint16_t *holding_registers;
    size_t holding_registers_len;
    const uint16_t *input_registers;
    size_t input_registers_len;
} modbus_tables;

/* A device of a serial line: its address, 1 to 247, and its tables. Of two of one address the first is asked. Two may share arrays that are
 * read alone, and no other. */
typedef struct {
    uint8_t unit;
    modbus_tables tables;
} modbus_unit;

/* The address of the first entry of each table. */
typedef struct {
    uint16_t coils;
    uint16_t discrete_inputs;
    uint16_t holding_registers;
    uint16_t input_registers;
} modbus_starts;

/* So many addresses from one on. */
typedef struct {
    uint16_t address;
    uint32_t count;
} modbus_span;

/* A device whose tables begin at addresses of their own: the entry of an address is its distance from the start. Requests read the coils of
 * `kept_coils` and the holding registers of `kept_registers`, and don't write them; {0, 0} is none. An address before the start of its
 * table, past its end or above 65535 is answered by exception 02, as is a write of which an address is kept: of such a request nothing is
 * done. A count that the function does not allow is told first, by 03 (AP 4.4, 6). */
typedef struct {
    modbus_tables tables;
    modbus_starts starts;
    modbus_span kept_coils;
    modbus_span kept_registers;
} modbus_device;

/* Such a device of a serial line: its address, 1 to 247, and the device. Of two of one address the first is asked. Two may share arrays that
 * are read alone, and no other. */
typedef struct {
    uint8_t unit;
    modbus_device device;
} modbus_slave;

/* The bytes of a serial line that were fed and not used yet: the first `len`, of at most 268. Its fields are the library's. */
typedef struct {
    size_t len;
    uint8_t bytes[268];
} modbus_inbox;

/* A call of a client that was begun: what the reply has to be of, the request that it has to fit, and the bytes that were fed and not used
 * yet. Its fields are the library's; a later call may be begun with the same struct. */
typedef struct {
    bool tcp;
    uint16_t transaction_id;
    uint8_t slave;
    modbus_request request;
    modbus_inbox inbox;
} modbus_call;

/* A serial line of a client: for how long it has to be silent before the next request where a reply may still come, and for how long yet. Its
 * fields are the library's. Times are in one unit of the caller's, as microseconds. */
typedef struct {
    uint32_t quiet;
    uint32_t left;
} modbus_line;

/* The checksum of bytes, which a frame carries with its low byte first (SL 6.2.2). */
uint16_t modbus_crc(const uint8_t *bytes, size_t bytes_len);

/* The next frame of a request in the held bytes, as a server looks for it, or of a response, as a client does: the first offset of twenty
 * at which one stands (SL 2.5.1).
 * MODBUS_DONE; MODBUS_WAITING: none yet, and the first `used` bytes are of no use; MODBUS_CROWD: none at the first twenty offsets, and
 * these `used` bytes are of no use. */
modbus_frame modbus_rtu_find_request(const uint8_t *held, size_t held_len);
modbus_frame modbus_rtu_find_response(const uint8_t *held, size_t held_len);

/* The ADU at the front of the held bytes, of a request or a response (TCP 3.1.3).
 * MODBUS_DONE, MODBUS_WAITING, MODBUS_NO_LENGTH, MODBUS_FOREIGN. `used` is 0 where it is not done. */
modbus_adu modbus_tcp_find(const uint8_t *held, size_t held_len);

/* Reads the PDU of a request: its numbers go to `request`, what it writes to the fronts of `words` and `coils` (AP 6).
 * MODBUS_DONE; MODBUS_REFUSED; MODBUS_UNTOLD: another function than those of modbus_request; MODBUS_NO_ROOM: a list is longer than the
 * caller's; MODBUS_NO_MEMORY. Where it is not done nothing is written. `written` is 0. */
modbus_done modbus_request_decode(const uint8_t *pdu, size_t pdu_len, modbus_request *request, uint16_t *words, size_t words_len,
                                  bool *coils, size_t coils_len);

/* Writes the PDU of a request to the front of `pdu`.
 * MODBUS_DONE; MODBUS_UNTOLD; MODBUS_NO_ROOM: `count` is more than the list has, or `pdu` is too short; MODBUS_TOO_LONG;
 * MODBUS_NO_MEMORY. Where it is not done nothing is written, and `written` is 0. Quantities are not judged: the server does that. */
modbus_done modbus_request_encode(const modbus_request *request, const uint16_t *words, size_t words_len, const bool *coils,
                                  size_t coils_len, uint8_t *pdu, size_t pdu_len);

/* Reads the PDU of a response or an exception: its numbers go to `response`, what it tells to the fronts of `words` and `coils` (AP 6, 7).
 * Coils past the quantity of the request have no meaning.
 * MODBUS_DONE; MODBUS_REFUSED; MODBUS_UNTOLD: another function than those of modbus_response; MODBUS_NO_ROOM: a list is longer than the
 * caller's; MODBUS_NO_MEMORY. Where it is not done nothing is written. `written` is 0. */
modbus_done modbus_response_decode(const uint8_t *pdu, size_t pdu_len, modbus_response *response, uint16_t *words, size_t words_len,
                                   bool *coils, size_t coils_len);

/* Writes the PDU of a response or an exception to the front of `pdu`. The function of an exception is that of the request, below 128.
 * MODBUS_DONE; MODBUS_UNTOLD; MODBUS_NO_ROOM: `count` is more than the list has, or `pdu` is too short; MODBUS_TOO_LONG;
 * MODBUS_NO_MEMORY. Where it is not done nothing is written, and `written` is 0. */
modbus_done modbus_response_encode(const modbus_response *response, const uint16_t *words, size_t words_len, const bool *coils,
                                   size_t coils_len, uint8_t *pdu, size_t pdu_len);

/* Writes a PDU as the ADU or the frame that carries it to the front of the output (TCP 3.1.3, SL 2.5.1).
 * MODBUS_DONE; MODBUS_TOO_LONG: the PDU has more than 253 bytes; MODBUS_NO_ROOM. Where it is not done nothing is written, and `written` is
 * 0. */
modbus_done modbus_tcp_wrap(uint16_t transaction_id, uint8_t unit_id, const uint8_t *pdu, size_t pdu_len, uint8_t *output,
                            size_t output_len);
modbus_done modbus_rtu_wrap(uint8_t slave, const uint8_t *pdu, size_t pdu_len, uint8_t *output, size_t output_len);

/* A server on a serial line that others share: the units hear `burst`, which is all that came between two silences, and the answer to its
 * last frame goes to the front of the output (SL 2.5.1.1).
 * A burst is one frame where it ends with its checksum; else frames one after another, each as long as a request or a reply of its function,
 * with a right checksum. What is left, as a frame that was cut, is noise: it asks nothing, and nothing is kept of it for the next burst. A
 * frame with the length of a reply alone asks nothing. Each other is done by the unit of its address, one for slave 0 by all of them, one
 * for another address by nobody. Only the last frame is answered: behind an earlier one its master spoke on.
 * A PDU that can't be read is answered by exception 03, a function that is not known by 01 (AP 6, 7); a request for which there is no
 * memory by 04.
 * MODBUS_DONE: the reply has `written` bytes; MODBUS_SILENT: nothing is answered; MODBUS_NO_MEMORY: there was none for the frame at `used`:
 * those before it were done, and nothing is answered; MODBUS_NO_ROOM: the output has less than MODBUS_LONGEST_REPLY bytes, and nothing was
 * done. Else `used` is the length of the burst. */
modbus_served modbus_line_serve(modbus_unit *units, size_t units_len, const uint8_t *burst, size_t burst_len, uint8_t *output,
                                size_t output_len);

/* As modbus_line_serve, by devices whose tables begin at addresses of their own, and have entries that requests read alone. */
modbus_served modbus_slaves_serve(modbus_slave *slaves, size_t slaves_len, const uint8_t *burst, size_t burst_len, uint8_t *output,
                                  size_t output_len);

/* A server of Modbus TCP: answers what stands at the front of the input by the tables of the device, whatever unit identifier it has (TCP
 * 3.1.3, 4.4.1.2). It is one request: call again with the bytes from `used` on. What can't be read is answered as by modbus_line_serve.
 * MODBUS_DONE; MODBUS_WAITING; MODBUS_SILENT: the message has no function code of a request; MODBUS_NO_MEMORY; MODBUS_FOREIGN as soon as four
 * bytes tell another protocol, so at the first four of a `GET`; MODBUS_NO_LENGTH as soon as six bytes tell no byte or more than 254;
 * MODBUS_NO_ROOM: the output has less than MODBUS_LONGEST_REPLY bytes. Only where it is done or silent a table may change, and only where it
 * is done the output changes. */
modbus_served modbus_stream_serve(modbus_tables *tables, const uint8_t *input, size_t input_len, uint8_t *output, size_t output_len);

/* As modbus_stream_serve, by a device whose tables begin at addresses of their own, and have entries that requests read alone. */
modbus_served modbus_device_serve(modbus_device *device, const uint8_t *input, size_t input_len, uint8_t *output, size_t output_len);

/* For one device alone on a line or a connection, whose peer is known to send nothing but whole requests: on a line that others share take
 * modbus_line_serve, towards a network modbus_stream_serve. These two and the inbox answer each address, and so the requests of neighbours.
 *
 * Answers the ADU at the front of the input, or the next frame, by the caller's tables: the reply goes to the front of the output, and
 * what the request writes into the tables (AP 6, 7). It is one request: call again with the bytes from `used` on. Tables may have any
 * length; an address past the end is answered by an exception. Where `broadcast` is true, slave or unit 0 has its effect and no answer.
 * MODBUS_DONE; MODBUS_WAITING; MODBUS_SILENT; MODBUS_REFUSED: not answered; MODBUS_NO_MEMORY; MODBUS_NO_LENGTH and MODBUS_FOREIGN (TCP);
 * MODBUS_CROWD (RTU); MODBUS_NO_ROOM: the output has less than MODBUS_LONGEST_REPLY bytes. Only where it is done or silent a table may
 * change, and only where it is done the output changes. */
modbus_served modbus_tcp_serve(const uint8_t *input, size_t input_len, bool *coils, size_t coils_len, const bool *discrete_inputs,
                               size_t discrete_inputs_len, uint16_t *holding_registers, size_t holding_registers_len,
                               const uint16_t *input_registers, size_t input_registers_len, bool broadcast, uint8_t *output,
                               size_t output_len);
modbus_served modbus_rtu_serve(const uint8_t *input, size_t input_len, bool *coils, size_t coils_len, const bool *discrete_inputs,
                               size_t discrete_inputs_len, uint16_t *holding_registers, size_t holding_registers_len,
                               const uint16_t *input_registers, size_t input_registers_len, bool broadcast, uint8_t *output,
                               size_t output_len);

/* The same of the next text of Modbus ASCII that delivers a frame (SL 2.5.2). The output has room for MODBUS_LONGEST_TEXT bytes. All bytes
 * that are no part of such a text are skipped: MODBUS_WAITING tells by `used` that at least so many have no part in one, whatever follows
 * (of `:0G` it tells 0), and at most 513 are left then. MODBUS_NO_LENGTH, MODBUS_FOREIGN and MODBUS_CROWD are not told. */
modbus_served modbus_ascii_serve(const uint8_t *input, size_t input_len, bool *coils, size_t coils_len, const bool *discrete_inputs,
                                 size_t discrete_inputs_len, uint16_t *holding_registers, size_t holding_registers_len,
                                 const uint16_t *input_registers, size_t input_registers_len, bool broadcast, uint8_t *output,
                                 size_t output_len);

/* An inbox that holds no byte. There is nothing to close. */
void modbus_inbox_open(modbus_inbox *inbox);

/* Appends the first bytes of a piece, as many as there is room for, and tells how many: feed the others once the inbox was served. */
size_t modbus_inbox_feed(modbus_inbox *inbox, const uint8_t *piece, size_t piece_len);

/* Answers the next frame that is held, as modbus_rtu_serve does, and takes the first `used` bytes off. Call it until it tells
 * MODBUS_WAITING: fewer than 256 bytes are held then, so that 12 bytes more have room. */
modbus_served modbus_inbox_next(modbus_inbox *inbox, bool *coils, size_t coils_len, const bool *discrete_inputs,
                                size_t discrete_inputs_len, uint16_t *holding_registers, size_t holding_registers_len,
                                const uint16_t *input_registers, size_t input_registers_len, bool broadcast, uint8_t *output,
                                size_t output_len);

/* Begins a call of a unit over Modbus TCP, or of a slave over a serial line: the ADU or the frame of the request goes to the front of the
 * output, to be sent, and `call` keeps what the reply has to be of (TCP 3.1.3, 4.4.1.3; SL 2.5.1). Bytes that it held are dropped. Nothing
 * comes back from slave 0, which all slaves hear. 260 bytes are room for each request.
 * MODBUS_DONE; MODBUS_REFUSED: the request is to write coils or registers, and `count` is 0; MODBUS_UNTOLD; MODBUS_NO_ROOM: `count` is
 * more than the list has, or the output is too short; MODBUS_TOO_LONG; MODBUS_NO_MEMORY. Where it is not done nothing is written, and
 * `written` is 0. */
modbus_done modbus_call_tcp(modbus_call *call, uint16_t transaction_id, uint8_t unit_id, const modbus_request *request,
                            const uint16_t *words, size_t words_len, const bool *coils, size_t coils_len, uint8_t *output,
                            size_t output_len);
modbus_done modbus_call_rtu(modbus_call *call, uint8_t slave, const modbus_request *request, const uint16_t *words, size_t words_len,
                            const bool *coils, size_t coils_len, uint8_t *output, size_t output_len);

/* Appends the first bytes of a piece that was received, as many as there is room for, and tells how many: feed the others once the answer
 * was asked for again. */
size_t modbus_call_feed(modbus_call *call, const uint8_t *piece, size_t piece_len);

/* The answer of a call, as far as bytes were fed: its numbers go to `response`, what was asked for to the fronts of `words` and `coils`:
 * three coils are three. Over Modbus TCP, ADUs of other transactions and units are dropped. On a serial line the next frame is the reply.
 * MODBUS_DONE: a response that fits the request, or an exception of its function; MODBUS_WAITING: feed more; MODBUS_FULL;
 * MODBUS_HEADER_MISMATCH: a frame of the slave `detail`; MODBUS_FUNCTION_MISMATCH: an answer of the function `detail`; MODBUS_MISMATCH: a
 * response with another number of coils or registers than were asked for, or with another address, value or quantity than was written,
 * whose function is `detail`; MODBUS_REFUSED;
 * MODBUS_UNTOLD: another function than those of modbus_response; MODBUS_NO_ROOM: a list is longer than the caller's; MODBUS_NO_MEMORY;
 * MODBUS_CROWD: no frame at the first twenty offsets; MODBUS_NO_LENGTH; MODBUS_FOREIGN: `detail` is the protocol. Where it is not done
 * nothing is written, and `written` is 0 throughout. What was looked at is taken off what is held, but for MODBUS_NO_ROOM and
 * MODBUS_NO_MEMORY: so the call can be asked again, to go on behind a mismatch, or with longer lists. */
modbus_done modbus_call_answer(modbus_call *call, modbus_response *response, uint16_t *words, size_t words_len, bool *coils,
                               size_t coils_len);

/* Begins a call with a PDU of the caller's, so of any function: 07, 08, 0B, 0C, 11, 14, 15, 2B and those of a maker. Its ADU or frame goes to
 * the front of the output, to be sent, and `call` keeps what the reply has to be of. Bytes that it held are dropped.
 * MODBUS_DONE; MODBUS_REFUSED: the PDU is empty, or its function code is above 127; MODBUS_TOO_LONG: it has more than 253 bytes;
 * MODBUS_NO_ROOM. Where it is not done nothing is written, and `written` is 0. */
modbus_done modbus_call_tcp_pdu(modbus_call *call, uint16_t transaction_id, uint8_t unit_id, const uint8_t *pdu, size_t pdu_len,
                                uint8_t *output, size_t output_len);
modbus_done modbus_call_rtu_pdu(modbus_call *call, uint8_t slave, const uint8_t *pdu, size_t pdu_len, uint8_t *output, size_t output_len);

/* The PDU of the answer of a call, as far as bytes were fed: it goes to the front of `pdu`. It is one of the function that was asked, and that
 * alone is judged of it. A call that was begun by a struct may be asked so too.
 * MODBUS_DONE: the PDU has `written` bytes; MODBUS_EXCEPTION: it is an exception of the code `detail`, and is written too; MODBUS_REFUSED:
 * it is empty, or an exception without a code or with more bytes; MODBUS_NO_ROOM: it is longer than `pdu`; MODBUS_WAITING, MODBUS_FULL,
 * MODBUS_HEADER_MISMATCH, MODBUS_FUNCTION_MISMATCH, MODBUS_CROWD, MODBUS_NO_LENGTH and MODBUS_FOREIGN as modbus_call_answer tells them.
 * Where it is neither done nor an exception nothing is written, and `written` is 0. What was looked at is taken off what is held, but for
 * MODBUS_NO_ROOM.
 * On a serial line the frame of a function without a length of its own (08, 14, 15, another MEI type of 2B, a maker's) is all that is held,
 * where its checksum is right: so feed all of it, until the line has fallen silent, and only then ask. */
modbus_done modbus_call_answer_pdu(modbus_call *call, uint8_t *pdu, size_t pdu_len);

/* On a serial line a late reply can't be told from the next one. So a client keeps a modbus_line beside its port, and sends a request only where
 * modbus_line_wait tells 0: until then it reads what comes, drops it and tells that by modbus_line_heard, and tells each time without a byte
 * by modbus_line_silent. It looks once more before it sends, and tells by modbus_line_heard what had come.
 *
 * A line that has to be silent for `quiet` where a reply may still come, and so at first. `quiet` and the timeout of a call together are to be
 * longer than a slave ever takes. */
void modbus_line_open(modbus_line *line, uint32_t quiet);

/* Bytes came for no call: the line has to be silent for `quiet` from now on. */
void modbus_line_heard(modbus_line *line);

/* No byte came for so long. */
void modbus_line_silent(modbus_line *line, uint32_t time);

/* For how long the line has to be silent yet; 0: a request may be sent. */
uint32_t modbus_line_wait(const modbus_line *line);

/* Whether the reply of a call may still come where the call ends: on a serial line it was not taken, or bytes lie behind it. `status` is what its
 * answer told last, and MODBUS_WAITING where the call is given up. Nothing is owed where MODBUS_DONE, MODBUS_EXCEPTION or MODBUS_UNTOLD was told
 * with no byte behind it, nor by slave 0, nor over Modbus TCP, where the transaction tells a late reply. */
bool modbus_call_owes(const modbus_call *call, uint32_t status);

/* A call ended with this status: where its reply may still come, the line has to be silent for `quiet` from now on. */
void modbus_line_ended(modbus_line *line, const modbus_call *call, uint32_t status);

/* All slaves were told something: no request before the turnaround delay is over (SL 2.4.1), typically 100 to 200 milliseconds. */
void modbus_line_told(modbus_line *line, uint32_t turnaround);

/*
 * What the library wants of the program, beside memcpy, memmove and memset: three functions that give memory, take it back, and make it
 * longer, as malloc, free and realloc do. libmodbus_c_malloc.a has them over these, the shared library is linked with it, and a program
 * without malloc has its own (examples/c/arena.c). `at` is aligned to `align`, a power of two; where `is_given` is 0 memory was refused.
 */
typedef struct {
    size_t is_given;
    void *at;
} modbus_block;

modbus_block rattle_alloc(size_t size, size_t align);
void rattle_dealloc(void *at, size_t size, size_t align);
modbus_block rattle_realloc(void *at, size_t old, size_t size, size_t align);

/*
 * Null pointers. What stands here is compiled into the caller, and C gets it for each function above: a null pointer beside the length 0 is
 * an array of no entry (in modbus_tables it is put right); where a pointer is null that has to point to something, MODBUS_NULL is told, and
 * no table is read or written. Where
 * there is no status the answer is 0, or the checksum of no byte. Who defines MODBUS_UNCHECKED, or calls the library from another
 * language, owes that no pointer is null.
 */
#ifndef MODBUS_UNCHECKED

/* An entry of each kind, which an array of no entry may point to. */
typedef struct {
    uint8_t byte;
    bool coil;
    uint16_t word;
} modbus_none;

static inline uint16_t modbus_checked_crc(const uint8_t *bytes, size_t bytes_len) {
    modbus_none none = {0, false, 0};
    if (!bytes && bytes_len) {
        return 0xFFFF;
    }
    return modbus_crc(bytes ? bytes : &none.byte, bytes_len);
}

static inline modbus_frame modbus_checked_rtu_find_request(const uint8_t *held, size_t held_len) {
    modbus_none none = {0, false, 0};
    const modbus_frame refused = {MODBUS_NULL, 0, 0, 0};
    if (!held && held_len) {
        return refused;
    }
    return modbus_rtu_find_request(held ? held : &none.byte, held_len);
}

static inline modbus_frame modbus_checked_rtu_find_response(const uint8_t *held, size_t held_len) {
    modbus_none none = {0, false, 0};
    const modbus_frame refused = {MODBUS_NULL, 0, 0, 0};
    if (!held && held_len) {
        return refused;
    }
    return modbus_rtu_find_response(held ? held : &none.byte, held_len);
}

static inline modbus_adu modbus_checked_tcp_find(const uint8_t *held, size_t held_len) {
    modbus_none none = {0, false, 0};
    const modbus_adu refused = {MODBUS_NULL, 0, 0, 0, 0, 0};
    if (!held && held_len) {
        return refused;
    }
    return modbus_tcp_find(held ? held : &none.byte, held_len);
}

static inline modbus_done modbus_checked_request_decode(const uint8_t *pdu, size_t pdu_len, modbus_request *request, uint16_t *words,
                                                        size_t words_len, bool *coils, size_t coils_len) {
    modbus_none none = {0, false, 0};
    const modbus_done refused = {MODBUS_NULL, 0, 0};
    if ((!pdu && pdu_len) || !request || (!words && words_len) || (!coils && coils_len)) {
        return refused;
    }
    return modbus_request_decode(pdu ? pdu : &none.byte, pdu_len, request, words ? words : &none.word, words_len,
                                 coils ? coils : &none.coil, coils_len);
}

static inline modbus_done modbus_checked_request_encode(const modbus_request *request, const uint16_t *words, size_t words_len,
                                                        const bool *coils, size_t coils_len, uint8_t *pdu, size_t pdu_len) {
    modbus_none none = {0, false, 0};
    const modbus_done refused = {MODBUS_NULL, 0, 0};
    if (!request || (!words && words_len) || (!coils && coils_len) || (!pdu && pdu_len)) {
        return refused;
    }
    return modbus_request_encode(request, words ? words : &none.word, words_len, coils ? coils : &none.coil, coils_len,
                                 pdu ? pdu : &none.byte, pdu_len);
}

static inline modbus_done modbus_checked_response_decode(const uint8_t *pdu, size_t pdu_len, modbus_response *response, uint16_t *words,
                                                         size_t words_len, bool *coils, size_t coils_len) {
    modbus_none none = {0, false, 0};
    const modbus_done refused = {MODBUS_NULL, 0, 0};
    if ((!pdu && pdu_len) || !response || (!words && words_len) || (!coils && coils_len)) {
        return refused;
    }
    return modbus_response_decode(pdu ? pdu : &none.byte, pdu_len, response, words ? words : &none.word, words_len,
                                  coils ? coils : &none.coil, coils_len);
}

static inline modbus_done modbus_checked_response_encode(const modbus_response *response, const uint16_t *words, size_t words_len,
                                                         const bool *coils, size_t coils_len, uint8_t *pdu, size_t pdu_len) {
    modbus_none none = {0, false, 0};
    const modbus_done refused = {MODBUS_NULL, 0, 0};
    if (!response || (!words && words_len) || (!coils && coils_len) || (!pdu && pdu_len)) {
        return refused;
    }
    return modbus_response_encode(response, words ? words : &none.word, words_len, coils ? coils : &none.coil, coils_len,
                                  pdu ? pdu : &none.byte, pdu_len);
}

static inline modbus_done modbus_checked_tcp_wrap(uint16_t transaction_id, uint8_t unit_id, const uint8_t *pdu, size_t pdu_len,
                                                  uint8_t *output, size_t output_len) {
    modbus_none none = {0, false, 0};
    const modbus_done refused = {MODBUS_NULL, 0, 0};
    if ((!pdu && pdu_len) || (!output && output_len)) {
        return refused;
    }
    return modbus_tcp_wrap(transaction_id, unit_id, pdu ? pdu : &none.byte, pdu_len, output ? output : &none.byte, output_len);
}

static inline modbus_done modbus_checked_rtu_wrap(uint8_t slave, const uint8_t *pdu, size_t pdu_len, uint8_t *output, size_t output_len) {
    modbus_none none = {0, false, 0};
    const modbus_done refused = {MODBUS_NULL, 0, 0};
    if ((!pdu && pdu_len) || (!output && output_len)) {
        return refused;
    }
    return modbus_rtu_wrap(slave, pdu ? pdu : &none.byte, pdu_len, output ? output : &none.byte, output_len);
}

/* Whether tables have a pointer wherever they have an entry. Where they have none, a null pointer is put right. */
static inline bool modbus_checked_tables(modbus_tables *tables) {
    static modbus_none none;
    if ((!tables->coils && tables->coils_len) || (!tables->discrete_inputs && tables->discrete_inputs_len) ||
        (!tables->holding_registers && tables->holding_registers_len) || (!tables->input_registers && tables->input_registers_len)) {
        return false;
    }
    tables->coils = tables->coils ? tables->coils : &none.coil;
    tables->discrete_inputs = tables->discrete_inputs ? tables->discrete_inputs : &none.coil;
    tables->holding_registers = tables->holding_registers ? tables->holding_registers : &none.word;
    tables->input_registers = tables->input_registers ? tables->input_registers : &none.word;
    return true;
}

static inline modbus_served modbus_checked_line_serve(modbus_unit *units, size_t units_len, const uint8_t *burst, size_t burst_len,
                                                      uint8_t *output, size_t output_len) {
    modbus_none none = {0, false, 0};
    modbus_unit nobody = {0, {&none.coil, 0, &none.coil, 0, &none.word, 0, &none.word, 0}};
    const modbus_served refused = {MODBUS_NULL, 0, 0, 0};
    if ((!units && units_len) || (!burst && burst_len) || (!output && output_len)) {
        return refused;
    }
    for (size_t place = 0; place < units_len; place++) {
        if (!modbus_checked_tables(&units[place].tables)) {
            return refused;
        }
    }
    return modbus_line_serve(units ? units : &nobody, units_len, burst ? burst : &none.byte, burst_len, output ? output : &none.byte,
                             output_len);
}

static inline modbus_served modbus_checked_slaves_serve(modbus_slave *slaves, size_t slaves_len, const uint8_t *burst, size_t burst_len,
                                                        uint8_t *output, size_t output_len) {
    modbus_none none = {0, false, 0};
    modbus_slave nobody = {0, {{&none.coil, 0, &none.coil, 0, &none.word, 0, &none.word, 0}, {0, 0, 0, 0}, {0, 0}, {0, 0}}};
    const modbus_served refused = {MODBUS_NULL, 0, 0, 0};
    if ((!slaves && slaves_len) || (!burst && burst_len) || (!output && output_len)) {
        return refused;
    }
    for (size_t place = 0; place < slaves_len; place++) {
        if (!modbus_checked_tables(&slaves[place].device.tables)) {
            return refused;
        }
    }
    return modbus_slaves_serve(slaves ? slaves : &nobody, slaves_len, burst ? burst : &none.byte, burst_len, output ? output : &none.byte,
                               output_len);
}

static inline modbus_served modbus_checked_stream_serve(modbus_tables *tables, const uint8_t *input, size_t input_len, uint8_t *output,
                                                        size_t output_len) {
    modbus_none none = {0, false, 0};
    const modbus_served refused = {MODBUS_NULL, 0, 0, 0};
    if (!tables || (!input && input_len) || (!output && output_len) || !modbus_checked_tables(tables)) {
        return refused;
    }
    return modbus_stream_serve(tables, input ? input : &none.byte, input_len, output ? output : &none.byte, output_len);
}

static inline modbus_served modbus_checked_device_serve(modbus_device *device, const uint8_t *input, size_t input_len, uint8_t *output,
                                                        size_t output_len) {
    modbus_none none = {0, false, 0};
    const modbus_served refused = {MODBUS_NULL, 0, 0, 0};
    if (!device || (!input && input_len) || (!output && output_len) || !modbus_checked_tables(&device->tables)) {
        return refused;
    }
    return modbus_device_serve(device, input ? input : &none.byte, input_len, output ? output : &none.byte, output_len);
}

static inline modbus_served modbus_checked_tcp_serve(const uint8_t *input, size_t input_len, bool *coils, size_t coils_len,
                                                     const bool *discrete_inputs, size_t discrete_inputs_len, uint16_t *holding_registers,
                                                     size_t holding_registers_len, const uint16_t *input_registers,
                                                     size_t input_registers_len, bool broadcast, uint8_t *output, size_t output_len) {
    modbus_none none = {0, false, 0};
    const modbus_served refused = {MODBUS_NULL, 0, 0, 0};
    if ((!input && input_len) || (!coils && coils_len) || (!discrete_inputs && discrete_inputs_len) ||
        (!holding_registers && holding_registers_len) || (!input_registers && input_registers_len) || (!output && output_len)) {
        return refused;
    }
    return modbus_tcp_serve(input ? input : &none.byte, input_len, coils ? coils : &none.coil, coils_len,
                            discrete_inputs ? discrete_inputs : &none.coil, discrete_inputs_len,
                            holding_registers ? holding_registers : &none.word, holding_registers_len,
                            input_registers ? input_registers : &none.word, input_registers_len, broadcast, output ? output : &none.byte,
                            output_len);
}

static inline modbus_served modbus_checked_rtu_serve(const uint8_t *input, size_t input_len, bool *coils, size_t coils_len,
                                                     const bool *discrete_inputs, size_t discrete_inputs_len, uint16_t *holding_registers,
                                                     size_t holding_registers_len, const uint16_t *input_registers,
                                                     size_t input_registers_len, bool broadcast, uint8_t *output, size_t output_len) {
    modbus_none none = {0, false, 0};
    const modbus_served refused = {MODBUS_NULL, 0, 0, 0};
    if ((!input && input_len) || (!coils && coils_len) || (!discrete_inputs && discrete_inputs_len) ||
        (!holding_registers && holding_registers_len) || (!input_registers && input_registers_len) || (!output && output_len)) {
        return refused;
    }
    return modbus_rtu_serve(input ? input : &none.byte, input_len, coils ? coils : &none.coil, coils_len,
                            discrete_inputs ? discrete_inputs : &none.coil, discrete_inputs_len,
                            holding_registers ? holding_registers : &none.word, holding_registers_len,
                            input_registers ? input_registers : &none.word, input_registers_len, broadcast, output ? output : &none.byte,
                            output_len);
}

static inline modbus_served modbus_checked_ascii_serve(const uint8_t *input, size_t input_len, bool *coils, size_t coils_len,
                                                       const bool *discrete_inputs, size_t discrete_inputs_len,
                                                       uint16_t *holding_registers, size_t holding_registers_len,
                                                       const uint16_t *input_registers, size_t input_registers_len, bool broadcast,
                                                       uint8_t *output, size_t output_len) {
    modbus_none none = {0, false, 0};
    const modbus_served refused = {MODBUS_NULL, 0, 0, 0};
    if ((!input && input_len) || (!coils && coils_len) || (!discrete_inputs && discrete_inputs_len) ||
        (!holding_registers && holding_registers_len) || (!input_registers && input_registers_len) || (!output && output_len)) {
        return refused;
    }
    return modbus_ascii_serve(input ? input : &none.byte, input_len, coils ? coils : &none.coil, coils_len,
                              discrete_inputs ? discrete_inputs : &none.coil, discrete_inputs_len,
                              holding_registers ? holding_registers : &none.word, holding_registers_len,
                              input_registers ? input_registers : &none.word, input_registers_len, broadcast,
                              output ? output : &none.byte, output_len);
}

static inline void modbus_checked_inbox_open(modbus_inbox *inbox) {
    if (!inbox) {
        return;
    }
    modbus_inbox_open(inbox);
}

static inline size_t modbus_checked_inbox_feed(modbus_inbox *inbox, const uint8_t *piece, size_t piece_len) {
    modbus_none none = {0, false, 0};
    if (!inbox || (!piece && piece_len)) {
        return 0;
    }
    return modbus_inbox_feed(inbox, piece ? piece : &none.byte, piece_len);
}

static inline modbus_served modbus_checked_inbox_next(modbus_inbox *inbox, bool *coils, size_t coils_len, const bool *discrete_inputs,
                                                      size_t discrete_inputs_len, uint16_t *holding_registers,
                                                      size_t holding_registers_len, const uint16_t *input_registers,
                                                      size_t input_registers_len, bool broadcast, uint8_t *output, size_t output_len) {
    modbus_none none = {0, false, 0};
    const modbus_served refused = {MODBUS_NULL, 0, 0, 0};
    if (!inbox || (!coils && coils_len) || (!discrete_inputs && discrete_inputs_len) || (!holding_registers && holding_registers_len) ||
        (!input_registers && input_registers_len) || (!output && output_len)) {
        return refused;
    }
    return modbus_inbox_next(inbox, coils ? coils : &none.coil, coils_len, discrete_inputs ? discrete_inputs : &none.coil,
                             discrete_inputs_len, holding_registers ? holding_registers : &none.word, holding_registers_len,
                             input_registers ? input_registers : &none.word, input_registers_len, broadcast, output ? output : &none.byte,
                             output_len);
}

static inline modbus_done modbus_checked_call_tcp(modbus_call *call, uint16_t transaction_id, uint8_t unit_id,
                                                  const modbus_request *request, const uint16_t *words, size_t words_len,
                                                  const bool *coils, size_t coils_len, uint8_t *output, size_t output_len) {
    modbus_none none = {0, false, 0};
    const modbus_done refused = {MODBUS_NULL, 0, 0};
    if (!call || !request || (!words && words_len) || (!coils && coils_len) || (!output && output_len)) {
        return refused;
    }
    return modbus_call_tcp(call, transaction_id, unit_id, request, words ? words : &none.word, words_len, coils ? coils : &none.coil,
                           coils_len, output ? output : &none.byte, output_len);
}

static inline modbus_done modbus_checked_call_rtu(modbus_call *call, uint8_t slave, const modbus_request *request, const uint16_t *words,
                                                  size_t words_len, const bool *coils, size_t coils_len, uint8_t *output,
                                                  size_t output_len) {
    modbus_none none = {0, false, 0};
    const modbus_done refused = {MODBUS_NULL, 0, 0};
    if (!call || !request || (!words && words_len) || (!coils && coils_len) || (!output && output_len)) {
        return refused;
    }
    return modbus_call_rtu(call, slave, request, words ? words : &none.word, words_len, coils ? coils : &none.coil, coils_len,
                           output ? output : &none.byte, output_len);
}

static inline size_t modbus_checked_call_feed(modbus_call *call, const uint8_t *piece, size_t piece_len) {
    modbus_none none = {0, false, 0};
    if (!call || (!piece && piece_len)) {
        return 0;
    }
    return modbus_call_feed(call, piece ? piece : &none.byte, piece_len);
}

static inline modbus_done modbus_checked_call_answer(modbus_call *call, modbus_response *response, uint16_t *words, size_t words_len,
                                                     bool *coils, size_t coils_len) {
    modbus_none none = {0, false, 0};
    const modbus_done refused = {MODBUS_NULL, 0, 0};
    if (!call || !response || (!words && words_len) || (!coils && coils_len)) {
        return refused;
    }
    return modbus_call_answer(call, response, words ? words : &none.word, words_len, coils ? coils : &none.coil, coils_len);
}

static inline modbus_done modbus_checked_call_tcp_pdu(modbus_call *call, uint16_t transaction_id, uint8_t unit_id, const uint8_t *pdu,
                                                      size_t pdu_len, uint8_t *output, size_t output_len) {
    modbus_none none = {0, false, 0};
    const modbus_done refused = {MODBUS_NULL, 0, 0};
    if (!call || (!pdu && pdu_len) || (!output && output_len)) {
        return refused;
    }
    return modbus_call_tcp_pdu(call, transaction_id, unit_id, pdu ? pdu : &none.byte, pdu_len, output ? output : &none.byte, output_len);
}

static inline modbus_done modbus_checked_call_rtu_pdu(modbus_call *call, uint8_t slave, const uint8_t *pdu, size_t pdu_len, uint8_t *output,
                                                      size_t output_len) {
    modbus_none none = {0, false, 0};
    const modbus_done refused = {MODBUS_NULL, 0, 0};
    if (!call || (!pdu && pdu_len) || (!output && output_len)) {
        return refused;
    }
    return modbus_call_rtu_pdu(call, slave, pdu ? pdu : &none.byte, pdu_len, output ? output : &none.byte, output_len);
}

static inline modbus_done modbus_checked_call_answer_pdu(modbus_call *call, uint8_t *pdu, size_t pdu_len) {
    modbus_none none = {0, false, 0};
    const modbus_done refused = {MODBUS_NULL, 0, 0};
    if (!call || (!pdu && pdu_len)) {
        return refused;
    }
    return modbus_call_answer_pdu(call, pdu ? pdu : &none.byte, pdu_len);
}

static inline void modbus_checked_line_open(modbus_line *line, uint32_t quiet) {
    if (line) {
        modbus_line_open(line, quiet);
    }
}

static inline void modbus_checked_line_heard(modbus_line *line) {
    if (line) {
        modbus_line_heard(line);
    }
}

static inline void modbus_checked_line_silent(modbus_line *line, uint32_t time) {
    if (line) {
        modbus_line_silent(line, time);
    }
}

static inline uint32_t modbus_checked_line_wait(const modbus_line *line) {
    return line ? modbus_line_wait(line) : 0;
}

static inline bool modbus_checked_call_owes(const modbus_call *call, uint32_t status) {
    return call && modbus_call_owes(call, status);
}

static inline void modbus_checked_line_ended(modbus_line *line, const modbus_call *call, uint32_t status) {
    if (line && call) {
        modbus_line_ended(line, call, status);
    }
}

static inline void modbus_checked_line_told(modbus_line *line, uint32_t turnaround) {
    if (line) {
        modbus_line_told(line, turnaround);
    }
}

#define modbus_crc modbus_checked_crc
#define modbus_rtu_find_request modbus_checked_rtu_find_request
#define modbus_rtu_find_response modbus_checked_rtu_find_response
#define modbus_tcp_find modbus_checked_tcp_find
#define modbus_request_decode modbus_checked_request_decode
#define modbus_request_encode modbus_checked_request_encode
#define modbus_response_decode modbus_checked_response_decode
#define modbus_response_encode modbus_checked_response_encode
#define modbus_tcp_wrap modbus_checked_tcp_wrap
#define modbus_rtu_wrap modbus_checked_rtu_wrap
#define modbus_line_serve modbus_checked_line_serve
#define modbus_slaves_serve modbus_checked_slaves_serve
#define modbus_stream_serve modbus_checked_stream_serve
#define modbus_device_serve modbus_checked_device_serve
#define modbus_tcp_serve modbus_checked_tcp_serve
#define modbus_rtu_serve modbus_checked_rtu_serve
#define modbus_ascii_serve modbus_checked_ascii_serve
#define modbus_inbox_open modbus_checked_inbox_open
#define modbus_inbox_feed modbus_checked_inbox_feed
#define modbus_inbox_next modbus_checked_inbox_next
#define modbus_call_tcp modbus_checked_call_tcp
#define modbus_call_rtu modbus_checked_call_rtu
#define modbus_call_feed modbus_checked_call_feed
#define modbus_call_answer modbus_checked_call_answer
#define modbus_call_tcp_pdu modbus_checked_call_tcp_pdu
#define modbus_call_rtu_pdu modbus_checked_call_rtu_pdu
#define modbus_call_answer_pdu modbus_checked_call_answer_pdu
#define modbus_line_open modbus_checked_line_open
#define modbus_line_heard modbus_checked_line_heard
#define modbus_line_silent modbus_checked_line_silent
#define modbus_line_wait modbus_checked_line_wait
#define modbus_call_owes modbus_checked_call_owes
#define modbus_line_ended modbus_checked_line_ended
#define modbus_line_told modbus_checked_line_told

#endif

#ifdef __cplusplus
}
#endif
#endif
