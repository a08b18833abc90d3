"""Peers that hold a call, and devices of a map that give nothing: what the poller makes of them."""

import contextlib
import os
import tempfile
import threading
import time
import tty

from peers import refused, request_of, served
from trial import bad, good, map_file, poll, run_poller, write
from wire import adu

LIMIT = 1000
# Above the limit, for a machine that is busy; well under what each of these peers would hold a call for.
LATEST = 5

# The front of a reply with 125 registers, whose rest takes 100 seconds at a byte each 400 milliseconds.
LONG = bytes([3, 250])
PAUSE = 0.4


def drips(read, give, front):
    """Answers a request with the front of a long reply, and then with a byte each 400 milliseconds."""
    with contextlib.suppress(OSError):
        read()
        give(front)
        for _ in range(250):
            time.sleep(PAUSE)
            give(b"\x00")


def drips_over_tcp(connection):
    with contextlib.suppress(OSError), connection:
        transaction, unit, _ = request_of(connection)
        drips(lambda: b"", connection.sendall, adu(transaction, unit, LONG + bytes(250))[:9])


def drips_over_rtu(connection):
    with connection:
        drips(lambda: connection.recv(300), connection.sendall, b"\x01" + LONG)


def babbles(read, give):
    """Gives a byte each 5 milliseconds once something came, so that the line never falls silent."""
    with contextlib.suppress(OSError):
        read()
        while True:
            time.sleep(0.005)
            give(b"\x00")


def takes(read, give):
    """Takes what comes over a line, and gives nothing."""
    with contextlib.suppress(OSError):
        while read():
            pass


def replies_of_others(connection):
    """Answers each request with replies of other transactions, one each 200 milliseconds."""
    with contextlib.suppress(OSError), connection:
        transaction, unit, _ = request_of(connection)
        for step in range(1, 500):
            time.sleep(0.2)
            connection.sendall(adu((transaction + step) % 0x10000, unit, b"\x03\x02\x00\x07"))


def one_slave_alone(connection):
    """A gateway to one slave: another's requests have the exception 0B."""
    with contextlib.suppress(OSError), connection:
        while request := request_of(connection):
            transaction, unit, pdu = request
            connection.sendall(adu(transaction, unit, b"\x03\x02\x00\x07" if unit == 1 else bytes([pdu[0] | 0x80, 0x0B])))


def silent(connection):
    """Takes requests, and gives nothing."""
    with contextlib.suppress(OSError), connection:
        while connection.recv(300):
            pass


def each_beside(handle):
    """Serves each connection beside the others."""
    return lambda connection: threading.Thread(target=handle, args=(connection,), daemon=True).start()


@contextlib.contextmanager
def port_of(serve):
    """The path of a serial port, whose far end a function serves by its reads and writes, which fail once the port is let go."""
    end, terminal = os.openpty()
    tty.setraw(terminal)
    gone = threading.Event()

    def give(data):
        if gone.is_set():
            raise OSError("the port is gone")
        os.write(end, data)

    serving = threading.Thread(target=serve, args=(lambda: os.read(end, 300), give), daemon=True)
    serving.start()
    try:
        yield os.ttyname(terminal)
    finally:
        gone.set()
        os.close(terminal)
        serving.join()
        os.close(end)


def in_time(run, *words):
    """What is found; where it came before the limit, with how long it took."""
    began = time.monotonic()
    status, output, text = run(*words, seconds=LATEST)
    took = time.monotonic() - began
    return status, output, text if LIMIT / 1000 <= took else f"{text!r} after {took:.1f} s"


def held_calls():
    """Peers that give bytes for ever: a call ends at its limit, whatever comes meanwhile."""
    late = bad(f"read of 125 holding registers from 0 for 0:text125: no answer within {LIMIT} ms")
    words = ("0:text125", "--retries", "0", "--timeout", str(LIMIT))
    with served(drips_over_tcp) as port:
        yield "a byte each 400 ms", late, in_time(poll, port, *words)
        yield "a write to it", bad(f"127.0.0.1:{port}: no answer within {LIMIT} ms"), in_time(write, port, "0", "1", "--timeout", str(LIMIT))
    with served(drips_over_rtu) as port:
        yield "a byte each 400 ms over RTU", late, in_time(poll, port, "--rtu", *words)
    with port_of(lambda read, give: drips(read, give, b"\x01" + LONG)) as path:
        status, output, _ = run_poller("poll", path, "1", *words, seconds=LATEST)
        yield "a byte each 400 ms over a line", (1, ""), (status, output)
    with port_of(babbles) as path:
        began = time.monotonic()
        status, output, _ = run_poller("poll", path, "1", *words, seconds=LATEST)
        yield "a byte each 5 ms over a line", (1, "", True), (status, output, time.monotonic() - began < 4 * LIMIT / 1000)
    with served(replies_of_others) as port:
        one = bad(f"read of 1 holding register from 0 for 0:u16: no answer within {LIMIT} ms")
        yield "replies of other transactions", one, in_time(poll, port, "0:u16", *words[1:])


DEVICE = """
[[device]]
name = "{name}"
tcp = "127.0.0.1:{port}"
unit = {unit}
timeout = "300ms"
retries = 0
points = [ {{ name = "level", address = 0, kind = "u16" }} ]
"""


def one_at_a_time():
    """Ten units behind a gateway that serves one connection at a time."""
    with tempfile.TemporaryDirectory() as folder, served(one_slave_alone) as gateway:
        text = "".join(DEVICE.format(name=f"tank{number}", port=gateway, unit=1) for number in range(10))
        lines = "".join(f"tank{number}.level     7\n" for number in range(10))
        yield "units of a gateway of one connection", good(lines), run_poller("poll", map_file(folder, "plant.toml", text))


def mute_lines():
    """A port that gives no answer: what sets it is told, a port that is not set being seen by nothing else."""
    words = ("0:u16", "--timeout", "300")
    late = "no answer within 300 ms; if the port is not set: stty -F"
    with port_of(takes) as path:
        read = f"read of 1 holding register from 0 for 0:u16: {late} {path} raw -echo clocal"
        yield "a line that is mute", bad(f"{read} 9600"), run_poller("poll", path, "1", *words)
        yield "a line of another speed that is mute", bad(f"{read} 19200"), run_poller("poll", path, "1", *words, "--baud", "19200")
        wanted = bad(f"{path}: {late} {path} raw -echo clocal 9600")
        yield "a write to it", wanted, run_poller("write", path, "1", "0", "1", *words[1:])


def of_ten():
    """Ten devices, of which one is dead, one gives no answer and one is no slave of the gateway that it stands behind."""
    with tempfile.TemporaryDirectory() as folder, refused() as dead, served(each_beside(silent)) as mute, served(each_beside(one_slave_alone)) as gateway:
        rest = {3: (dead, 1), 5: (mute, 1), 8: (gateway, 2)}
        devices = [(number, *rest.get(number, (gateway, 1))) for number in range(1, 11)]
        text = "".join(DEVICE.format(name=f"tank{number}", port=port, unit=unit) for number, port, unit in devices)
        plant = map_file(folder, "plant.toml", text)
        lines = "".join(f"{f'tank{number}.level':15} 7\n" for number, *_ in devices if number not in rest)
        read = "read of 1 holding register from 0 for level"
        told = (
            "modbus_poller: tank3: connection refused\n"
            f"modbus_poller: tank5: {read}: no answer within 300 ms\n"
            f"modbus_poller: tank8: {read}: exception 0B: gateway target device failed to respond\n"
        )
        yield "three of ten devices that give nothing", (1, lines, told), run_poller("poll", plant)
        yield "three of ten, twice", (1, f"{lines}\n{lines}", told * 2), run_poller("poll", plant, "--every", "10", "--count", "2")
        yield "one of them alone", good("tank9.level     7\n"), run_poller("poll", plant, "tank9")


def cases():
    yield from held_calls()
    yield from mute_lines()
    yield from one_at_a_time()
    yield from of_ten()
