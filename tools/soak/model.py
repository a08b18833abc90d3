"""A device with four tables, and what a server of it owes to a stream of bytes, by the Modbus specification and this repository's documents.

It is plain and slow on purpose, and shares nothing with the crates. Sections are those of the Modbus Application Protocol V1.1b3.
"""

ENTRIES = 1024
LONGEST_PDU = 253

ILLEGAL_FUNCTION, ILLEGAL_ADDRESS, ILLEGAL_VALUE = 1, 2, 3

# Statuses of the program (docs/PROGRAM.md)
OK, BYTES_REMAINING, INVALID_REQUEST, INVALID_LENGTH, INVALID_PROTOCOL = 0, 6, 7, 9, 10
TOO_MANY_RETRIES = 5


def checksums():
    table = []
    for byte in range(256):
        for _ in range(8):
            byte = byte >> 1 ^ 0xA001 if byte & 1 else byte >> 1
        table.append(byte)
    return table


CHECKSUMS = checksums()


def checksum(data):
    """The two bytes behind these in a frame, the low one first."""
    register = 0xFFFF
    for byte in data:
        register = register >> 8 ^ CHECKSUMS[(register ^ byte) & 0xFF]
    return register.to_bytes(2, "little")


def word(data, place):
    return int.from_bytes(data[place : place + 2], "big")


def words(numbers):
    return b"".join(number.to_bytes(2, "big") for number in numbers)


def packed(states):
    out = bytearray((len(states) + 7) // 8)
    for place, state in enumerate(states):
        out[place // 8] |= state << place % 8
    return bytes(out)


class Refused(Exception):
    """The bytes are no request."""


class Illegal(Exception):
    """The request gets an exception response with this code."""


class Device:
    """Four tables that hold 0 at first."""

    def __init__(self):
        self.coils = [0] * ENTRIES
        self.inputs = [0] * ENTRIES
        self.holding = [0] * ENTRIES
        self.input_registers = [0] * ENTRIES

    def answer(self, pdu):
        """The PDU of the response to a PDU of a request; Refused where that is none."""
        function = pdu[0]
        if function >= 0x80:
            raise Refused
        step = STEPS.get(function)
        try:
            if step is None:
                raise Illegal(ILLEGAL_FUNCTION)
            return bytes((function,)) + step(self, pdu)
        except Illegal as illegal:
            return bytes((function | 0x80, illegal.args[0]))


def size_is(pdu, size):
    if len(pdu) != size:
        raise Refused


def within(count, most):
    if not 1 <= count <= most:
        raise Illegal(ILLEGAL_VALUE)


def inside(address, count):
    if address + count > ENTRIES:
        raise Illegal(ILLEGAL_ADDRESS)


def read_bits(name):
    def step(device, pdu):
        size_is(pdu, 5)
        address, count = word(pdu, 1), word(pdu, 3)
        within(count, 2000)
        inside(address, count)
        bits = packed(getattr(device, name)[address : address + count])
        return bytes((len(bits),)) + bits

    return step


def read_words(name):
    def step(device, pdu):
        size_is(pdu, 5)
        address, count = word(pdu, 1), word(pdu, 3)
        within(count, 125)
        inside(address, count)
        return bytes((2 * count,)) + words(getattr(device, name)[address : address + count])

    return step


def write_coil(device, pdu):
    size_is(pdu, 5)
    if word(pdu, 3) not in (0x0000, 0xFF00):
        raise Refused
    inside(word(pdu, 1), 1)
    device.coils[word(pdu, 1)] = int(word(pdu, 3) == 0xFF00)
    return pdu[1:]


def write_register(device, pdu):
    size_is(pdu, 5)
    inside(word(pdu, 1), 1)
    device.holding[word(pdu, 1)] = word(pdu, 3)
    return pdu[1:]


def write_coils(device, pdu):
    if len(pdu) < 6 or word(pdu, 3) > 8 * pdu[5]:
        raise Refused
    size_is(pdu, 6 + pdu[5])
    address, count = word(pdu, 1), word(pdu, 3)
    within(count, 1968)
    inside(address, count)
    device.coils[address : address + count] = [pdu[6 + place // 8] >> place % 8 & 1 for place in range(count)]
    return pdu[1:5]


def write_registers(device, pdu):
    if len(pdu) < 6 or pdu[5] != 2 * word(pdu, 3):
        raise Refused
    size_is(pdu, 6 + pdu[5])
    address, count = word(pdu, 1), word(pdu, 3)
    within(count, 123)
    inside(address, count)
    device.holding[address : address + count] = [word(pdu, 6 + 2 * place) for place in range(count)]
    return pdu[1:5]


def mask_register(device, pdu):
    size_is(pdu, 7)
    address, and_mask, or_mask = word(pdu, 1), word(pdu, 3), word(pdu, 5)
    inside(address, 1)
    device.holding[address] = device.holding[address] & and_mask | or_mask & (0xFFFF ^ and_mask)
    return pdu[1:]


def read_and_write(device, pdu):
    if len(pdu) < 10 or pdu[9] != 2 * word(pdu, 7):
        raise Refused
    size_is(pdu, 10 + pdu[9])
    address, count, write_address, write_count = word(pdu, 1), word(pdu, 3), word(pdu, 5), word(pdu, 7)
    within(count, 125)
    within(write_count, 121)
    inside(address, count)
    inside(write_address, write_count)
    device.holding[write_address : write_address + write_count] = [word(pdu, 10 + 2 * place) for place in range(write_count)]
    return bytes((2 * count,)) + words(device.holding[address : address + count])


def read_queue(device, pdu):
    size_is(pdu, 3)
    address = word(pdu, 1)
    inside(address, 1)
    count = device.holding[address]
    if count > 31:
        raise Illegal(ILLEGAL_VALUE)
    inside(address + 1, count)
    return words((2 + 2 * count, count)) + words(device.holding[address + 1 : address + 1 + count])


def report_id(device, pdu):
    size_is(pdu, 1)
    raise Illegal(ILLEGAL_FUNCTION)


def identification(device, pdu):
    if len(pdu) < 4 or pdu[1] != 0x0E or not 1 <= pdu[2] <= 4:
        raise Refused
    size_is(pdu, 4)
    raise Illegal(ILLEGAL_FUNCTION)


STEPS = {
    0x01: read_bits("coils"),
    0x02: read_bits("inputs"),
    0x03: read_words("holding"),
    0x04: read_words("input_registers"),
    0x05: write_coil,
    0x06: write_register,
    0x0F: write_coils,
    0x10: write_registers,
    0x11: report_id,
    0x16: mask_register,
    0x17: read_and_write,
    0x18: read_queue,
    0x2B: identification,
}

# The length of a request's PDU by its function; for some a number and the place of a byte count that is added, counted from the slave address.
FIXED = {**dict.fromkeys(range(0x01, 0x07), 5), **dict.fromkeys((0x07, 0x0B, 0x0C, 0x11), 1), 0x16: 7, 0x18: 3}
COUNTED = {0x0F: (6, 6), 0x10: (6, 6), 0x17: (10, 10)}

GOOD, BAD, OPEN = "good", "bad", "open"


def verdict(stream, offset):
    """Whether a frame begins at an offset, and how long it is."""
    size = len(stream) - offset
    if size < 2:
        return OPEN, 0
    function = stream[offset + 1]
    if function in FIXED:
        length = FIXED[function]
    elif function in COUNTED:
        base, place = COUNTED[function]
        if size <= place:
            return OPEN, 0
        length = base + stream[offset + place]
    elif function == 0x2B:
        if size < 3:
            return OPEN, 0
        if stream[offset + 2] != 0x0E:
            return BAD, 0
        length = 4
    else:
        return BAD, 0
    if length > LONGEST_PDU:
        return BAD, 0
    if size < length + 3:
        return OPEN, 0
    end = offset + length + 1
    if checksum(stream[offset:end]) != stream[end : end + 2]:
        return BAD, 0
    return GOOD, length + 3


def serve_rtu(device, stream):
    """The replies to a stream of frames, the status behind them, and how many bad offsets there were in a row at most."""
    replies, offset, row, most = bytearray(), 0, 0, 0
    while offset < len(stream):
        found, size = verdict(stream, offset)
        if found == OPEN:
            return bytes(replies), BYTES_REMAINING, most
        if found == BAD:
            offset, row = offset + 1, row + 1
            most = max(most, row)
            continue
        slave, pdu = stream[offset], stream[offset + 1 : offset + size - 2]
        offset, row = offset + size, 0
        try:
            answer = device.answer(pdu)
        except Refused:
            return bytes(replies), INVALID_REQUEST, most
        if slave != 0:
            reply = bytes((slave,)) + answer
            replies += reply + checksum(reply)
    return bytes(replies), OK, most


HEXADECIMAL = frozenset(b"0123456789ABCDEFabcdef")
SHORTEST_TEXT, LONGEST_TEXT = 6, 2 * (LONGEST_PDU + 2)


def text_frame(text):
    """The bytes of a frame in the ASCII transmission mode between its `:` and its CR LF, without the LRC; none where they are no frame."""
    if len(text) % 2 or not SHORTEST_TEXT <= len(text) <= LONGEST_TEXT or not HEXADECIMAL.issuperset(text):
        return None
    body = bytes.fromhex(text.decode())
    return None if sum(body) % 256 else body[:-1]


def serve_ascii(device, stream):
    """The replies to a stream of characters, and the status behind them."""
    replies, begin = bytearray(), stream.find(b":")
    while begin >= 0:
        again, end = stream.find(b":", begin + 1), stream.find(b"\r\n", begin + 1)
        if again < 0 and end < 0:
            return bytes(replies), BYTES_REMAINING
        if end >= 0 and (again < 0 or end < again):
            body = text_frame(stream[begin + 1 : end])
            if body:
                try:
                    answer = device.answer(body[1:])
                except Refused:
                    return bytes(replies), INVALID_REQUEST
                if body[0] != 0:
                    reply = body[:1] + answer
                    reply += bytes((-sum(reply) % 256,))
                    replies += b":" + reply.hex().upper().encode() + b"\r\n"
        begin = again
    return bytes(replies), OK


def serve_tcp(device, stream):
    """The replies to a stream of ADUs, and the status behind them."""
    replies, offset = bytearray(), 0
    while offset < len(stream):
        header = stream[offset : offset + 7]
        if len(header) < 7:
            return bytes(replies), BYTES_REMAINING
        if word(header, 4) == 0:
            return bytes(replies), INVALID_LENGTH
        pdu = stream[offset + 7 : offset + 6 + word(header, 4)]
        if len(pdu) < word(header, 4) - 1:
            return bytes(replies), BYTES_REMAINING
        if word(header, 2) != 0:
            return bytes(replies), INVALID_PROTOCOL
        offset += 7 + len(pdu)
        try:
            answer = device.answer(pdu)
        except Refused:
            return bytes(replies), INVALID_REQUEST
        replies += header[:4] + words((len(answer) + 1,)) + header[6:7] + answer
    return bytes(replies), OK
