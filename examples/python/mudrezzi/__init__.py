"""The proved Modbus protocol from Python, by ctypes over a shared library of libmodbus_c.a (docs/C.md tells how it is made)."""

import ctypes

DONE, WAITING, SILENT, REFUSED = range(4)
NO_LENGTH, FOREIGN = 5, 6
MISMATCH, EXCEPTION = 15, 16
LONGEST_PDU = 253
LONGEST_REPLY = 260
LONGEST_TEXT = 513

Bytes = ctypes.c_char_p
Size = ctypes.c_size_t


class Served(ctypes.Structure):
    """What was done with the front of an input."""

    _fields_ = [("status", ctypes.c_uint32), ("detail", ctypes.c_uint32), ("used", Size), ("written", Size)]


class Tables(ctypes.Structure):
    """The tables of a device, in arrays of the caller."""

    _fields_ = [
        ("coils", ctypes.POINTER(ctypes.c_bool)),
        ("coils_len", Size),
        ("discrete_inputs", ctypes.POINTER(ctypes.c_bool)),
        ("discrete_inputs_len", Size),
        ("holding_registers", ctypes.POINTER(ctypes.c_uint16)),
        ("holding_registers_len", Size),
        ("input_registers", ctypes.POINTER(ctypes.c_uint16)),
        ("input_registers_len", Size),
    ]


class Unit(ctypes.Structure):
    """A device of a line, behind its address."""

    _fields_ = [("unit", ctypes.c_uint8), ("tables", Tables)]


class Done(ctypes.Structure):
    """What the beginning or the answer of a call comes to."""

    _fields_ = [("status", ctypes.c_uint32), ("detail", ctypes.c_uint32), ("written", Size)]


class Inbox(ctypes.Structure):
    """The bytes that were fed and not used yet."""

    _fields_ = [("len", Size), ("bytes", ctypes.c_uint8 * 268)]


class Request(ctypes.Structure):
    """A request without its lists."""

    _fields_ = [
        ("function", ctypes.c_uint8),
        ("coil", ctypes.c_bool),
        ("address", ctypes.c_uint16),
        ("quantity", ctypes.c_uint16),
        ("write_address", ctypes.c_uint16),
        ("word", ctypes.c_uint16),
        ("or_mask", ctypes.c_uint16),
        ("count", Size),
    ]


class Call(ctypes.Structure):
    """What the reply has to be of, and the request that it has to fit."""

    _fields_ = [
        ("tcp", ctypes.c_bool),
        ("transaction_id", ctypes.c_uint16),
        ("slave", ctypes.c_uint8),
        ("request", Request),
        ("inbox", Inbox),
    ]


class Response(ctypes.Structure):
    """A response without its lists, or an exception."""

    _fields_ = [
        ("function", ctypes.c_uint8),
        ("exception", ctypes.c_bool),
        ("code", ctypes.c_uint8),
        ("coil", ctypes.c_bool),
        ("address", ctypes.c_uint16),
        ("quantity", ctypes.c_uint16),
        ("word", ctypes.c_uint16),
        ("or_mask", ctypes.c_uint16),
        ("count", Size),
    ]


class Silence(ctypes.Structure):
    """For how long a line has to be silent where a reply may still come, and for how long yet."""

    _fields_ = [("quiet", ctypes.c_uint32), ("left", ctypes.c_uint32)]


class Modbus:
    """The functions of the library."""

    def __init__(self, path):
        library = ctypes.CDLL(path)
        written, coils, words = (ctypes.POINTER(it) for it in (ctypes.c_uint8, ctypes.c_bool, ctypes.c_uint16))
        call, request, response = (ctypes.POINTER(it) for it in (Call, Request, Response))
        tables = [coils, Size, coils, Size, words, Size, words, Size, ctypes.c_bool]
        for framing in "tcp", "rtu", "ascii":
            function = getattr(library, f"modbus_{framing}_serve")
            function.argtypes, function.restype = [Bytes, Size, *tables, written, Size], Served
            setattr(self, framing, function)
        self.stream = library.modbus_stream_serve
        self.stream.argtypes = [ctypes.POINTER(Tables), Bytes, Size, written, Size]
        self.line = library.modbus_line_serve
        self.line.argtypes = [ctypes.POINTER(Unit), Size, Bytes, Size, written, Size]
        self.stream.restype = self.line.restype = Served
        self.crc = library.modbus_crc
        self.crc.argtypes, self.crc.restype = [Bytes, Size], ctypes.c_uint16
        self.begin = library.modbus_call_tcp
        self.begin.argtypes = [call, ctypes.c_uint16, ctypes.c_uint8, request, words, Size, coils, Size, written, Size]
        self.feed = library.modbus_call_feed
        self.feed.argtypes, self.feed.restype = [call, Bytes, Size], Size
        self.answer = library.modbus_call_answer
        self.answer.argtypes = [call, response, words, Size, coils, Size]
        self.begin.restype = self.answer.restype = Done
        self.begin_tcp_pdu, self.begin_rtu_pdu, self.answer_pdu = (
            getattr(library, f"modbus_call_{it}_pdu") for it in ("tcp", "rtu", "answer")
        )
        self.begin_tcp_pdu.argtypes = [call, ctypes.c_uint16, ctypes.c_uint8, Bytes, Size, written, Size]
        self.begin_rtu_pdu.argtypes = [call, ctypes.c_uint8, Bytes, Size, written, Size]
        self.answer_pdu.argtypes = [call, written, Size]
        self.begin_tcp_pdu.restype = self.begin_rtu_pdu.restype = self.answer_pdu.restype = Done
        self.owes = library.modbus_call_owes
        self.owes.argtypes, self.owes.restype = [call, ctypes.c_uint32], ctypes.c_bool
        silence, time = ctypes.POINTER(Silence), ctypes.c_uint32
        for name, more, gives in (
            ("open", [time], None),
            ("heard", [], None),
            ("silent", [time], None),
            ("wait", [], time),
            ("ended", [call, ctypes.c_uint32], None),
            ("told", [time], None),
        ):
            function = getattr(library, f"modbus_line_{name}")
            function.argtypes, function.restype = [silence, *more], gives
            setattr(self, f"line_{name}", function)


class Device:
    """Four tables, and what requests do to them."""

    def __init__(self, modbus, entries=1024, broadcast=False):
        self.modbus, self.broadcast = modbus, broadcast
        self.coils, self.discrete_inputs = ((ctypes.c_bool * entries)() for _ in range(2))
        self.holding_registers, self.input_registers = ((ctypes.c_uint16 * entries)() for _ in range(2))
        self.output = (ctypes.c_uint8 * LONGEST_TEXT)()

    def serve(self, held, transport="tcp"):
        """Answers the message at the front of the bytes: its status, where it ends, and the reply."""
        tables = []
        for table in (self.coils, self.discrete_inputs, self.holding_registers, self.input_registers):
            tables += [table, len(table)]
        done = getattr(self.modbus, transport)(held, len(held), *tables, self.broadcast, self.output, LONGEST_TEXT)
        return done.status, done.used, bytes(self.output[: done.written])


    def lent(self):
        """Its tables, for as long as it lives."""
        fields = []
        for table in (self.coils, self.discrete_inputs, self.holding_registers, self.input_registers):
            fields += [table, len(table)]
        return Tables(*fields)

    def answer(self, held):
        """Answers the front of a connection of Modbus TCP, whatever stands there: its status, where it ends, and the reply."""
        done = self.modbus.stream(self.lent(), held, len(held), self.output, LONGEST_TEXT)
        return done.status, done.used, bytes(self.output[: done.written])


class Line:
    """The devices of a serial line by their addresses."""

    def __init__(self, modbus, devices):
        self.modbus, self.devices = modbus, devices
        self.units = (Unit * len(devices))(*(Unit(unit, device.lent()) for unit, device in devices.items()))
        self.output = (ctypes.c_uint8 * LONGEST_REPLY)()

    def hear(self, burst):
        """Hears all that came between two silences: its status, and the reply."""
        done = self.modbus.line(self.units, len(self.units), burst, len(burst), self.output, LONGEST_REPLY)
        return done.status, bytes(self.output[: done.written])


class Client:
    """Reads registers of a unit over Modbus TCP: `ask` sends bytes and gives those that come back, in pieces.

    A reply that does not fit the request, as one of more registers, is a ValueError with its status.
    """

    def __init__(self, modbus, unit_id, ask):
        self.modbus, self.unit_id, self.ask, self.transaction = modbus, unit_id, ask, 0
        self.words, self.coils, self.output = (ctypes.c_uint16 * 125)(), (ctypes.c_bool * 8)(), (ctypes.c_uint8 * LONGEST_REPLY)()

    def holding_registers(self, address, quantity):
        """The registers from an address on, or the code of the exception."""
        call, response = Call(), Response()
        lists = (self.words, len(self.words), self.coils, len(self.coils))
        self.transaction = (self.transaction + 1) % 2**16
        request = Request(function=3, address=address, quantity=quantity)
        begun = self.modbus.begin(call, self.transaction, self.unit_id, request, *lists, self.output, LONGEST_REPLY)
        assert begun.status == DONE
        for piece in self.ask(bytes(self.output[: begun.written])):
            while piece:
                piece = piece[self.modbus.feed(call, piece, len(piece)) :]
                told = self.modbus.answer(call, response, *lists)
                if told.status == DONE:
                    return response.code if response.exception else list(self.words[: response.count])
                if told.status != WAITING:
                    raise ValueError(f"status {told.status}")
        raise TimeoutError


class PduCall:
    """A call with a PDU of any function, of a unit over Modbus TCP where it has a transaction, else of a slave on a serial line.

    `message` is what is to be sent. A PDU that is none is a ValueError with its status.
    """

    def __init__(self, modbus, unit, pdu, transaction=None):
        self.modbus, self.call, self.status = modbus, Call(), WAITING
        output = (ctypes.c_uint8 * LONGEST_REPLY)()
        if transaction is None:
            begun = modbus.begin_rtu_pdu(self.call, unit, pdu, len(pdu), output, len(output))
        else:
            begun = modbus.begin_tcp_pdu(self.call, transaction, unit, pdu, len(pdu), output, len(output))
        if begun.status != DONE:
            raise ValueError(f"status {begun.status}")
        self.message = bytes(output[: begun.written])

    def feed(self, piece):
        """Takes the first of the bytes that came, as many as there is room for, and tells how many."""
        return self.modbus.feed(self.call, piece, len(piece))

    def answer(self):
        """The PDU of the answer, which may be an exception, or None where it has not come. What is none of this call is a ValueError."""
        pdu = (ctypes.c_uint8 * LONGEST_PDU)()
        told = self.modbus.answer_pdu(self.call, pdu, len(pdu))
        self.status = told.status
        if told.status == WAITING:
            return None
        if told.status not in (DONE, EXCEPTION):
            raise ValueError(f"status {told.status}")
        return bytes(pdu[: told.written])

    def owes(self):
        """Whether the reply may still come where the call ends now."""
        return self.modbus.owes(self.call, self.status)


class ClientLine:
    """A serial line of a client: when the next request may be sent, so that no late reply is taken for its own.

    It has to be silent for `quiet` where a reply may still come, and so at first. Times are in one unit of the caller's.
    """

    def __init__(self, modbus, quiet):
        self.modbus, self.silence = modbus, Silence()
        modbus.line_open(self.silence, quiet)

    def wait(self):
        """For how long it has to be silent yet; 0: a request may be sent."""
        return self.modbus.line_wait(self.silence)

    def heard(self):
        """Bytes came for no call."""
        self.modbus.line_heard(self.silence)

    def silent(self, time):
        """No byte came for so long."""
        self.modbus.line_silent(self.silence, time)

    def ended(self, call):
        """A call ended, by its answer or because it is given up."""
        self.modbus.line_ended(self.silence, call.call, call.status)

    def told(self, turnaround):
        """All slaves were told something: no request before the turnaround delay is over."""
        self.modbus.line_told(self.silence, turnaround)


def frame(modbus, slave, pdu):
    """The RTU frame of a PDU."""
    body = bytes([slave]) + pdu
    return body + modbus.crc(body, len(body)).to_bytes(2, "little")
