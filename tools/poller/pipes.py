"""What others take of the poller's lines: a parser of InfluxDB's line protocol, a broker of MQTT, and readers that go away."""

import contextlib
import json
import os
import shutil
import subprocess
import sys
import tempfile
import threading
import time

from peers import HERE, SECONDS, started, wait_for
from trial import POLLER, map_file, run_poller, write, write_coils
from wire import free_port


class NoLine(Exception):
    """Why a text is no line of the line protocol."""


def is_escape(text, at, also):
    return text[at] == "\\" and text[at + 1 : at + 2] != "" and text[at + 1] in also


def name_at(text, at, ends, also=",= \\"):
    """The name from a place on, up to one of these characters that has no backslash before it, and the place of that one.

    Two backslashes are one, as InfluxDB 3 has it. Telegraf keeps both, and ends the name at the same place.
    """
    name = ""
    while at < len(text) and text[at] not in ends:
        if is_escape(text, at, also):
            at += 1
        elif text[at] in ",= ":
            raise NoLine(f"{text[at]!r} within a name at {at}")
        name += text[at]
        at += 1
    if not name:
        raise NoLine(f"no name at {at}")
    return name, at


def text_at(text, at):
    """The text in quotes from a place on, and the place behind it."""
    found = ""
    at += 1
    while text[at] != '"':
        if is_escape(text, at, '"\\'):
            at += 1
        found += text[at]
        at += 1
    return found, at + 1


def value_at(text, at):
    """The value of a field from a place on, and the place behind it."""
    if text[at] == '"':
        return text_at(text, at)
    end = min(place for sign in ", " if (place := text.find(sign, at)) >= 0)
    word = text[at:end]
    if word in ("true", "false"):
        return word == "true", end
    if word.endswith("i"):
        return int(word[:-1]), end
    if word.endswith("u"):
        return int(word[:-1]), end
    return float(word), end


def line_of(text):
    """The measurement, tags, fields and time of a line (https://docs.influxdata.com/influxdb/v2/reference/syntax/line-protocol)."""
    measurement, at = name_at(text, 0, ", ", ", \\")
    tags, fields = {}, {}
    while text[at] == ",":
        key, at = name_at(text, at + 1, "=")
        tags[key], at = name_at(text, at + 1, ", ")
    if text[at] != " ":
        raise NoLine(f"no space at {at}")
    while not fields or text[at] == ",":
        key, at = name_at(text, at + 1, "=")
        fields[key], at = value_at(text, at + 1)
    if text[at] != " ":
        raise NoLine(f"no space at {at}")
    return measurement, tags, fields, int(text[at + 1 :])


PLANT = r"""
[[device]]
name = 'hall 2, "east" = a'
tcp = "127.0.0.1:{port}"
points = [
  {{ name = 'level, north', address = 0, kind = "u16", factor = "0.1", unit = "m" }},
  {{ name = 'a=b', address = 1, kind = "i16" }},
  {{ name = 'Füllstand "1"', address = 2, kind = "f32", order = "CDAB" }},
  {{ name = 'path', address = 4, kind = "text 3" }},
  {{ name = 'on', address = 3, kind = "bool" }},
  {{ name = 'counter', address = 7, kind = "u64" }},
]

[[device]]
name = 'valve\'
tcp = "127.0.0.1:{port}"
points = [ {{ name = 'open\', address = 4, kind = "bool" }} ]
"""
HELD = [215, 0xFFFE, 0x0000, 0x41AC, 0x4122, 0x425C, 0x2C20, 0, 0, 0, 5]


@contextlib.contextmanager
def plant():
    """The file of a map whose names have signs that lines mean something by, and whose devices are there."""
    with started([sys.executable, os.path.join(HERE, "device.py"), "0"]) as port, tempfile.TemporaryDirectory() as folder:
        write(port, "0", *map(str, HELD))
        write_coils(port, "3", "1")
        yield map_file(folder, "plant.toml", PLANT.format(port=port))


POINTS = {"level, north": 21.5, "a=b": -2, 'Füllstand "1"': 21.5, "path": 'A"B\\x5c, ', "on": True, "counter": 5}
DEVICES = {'hall 2, "east" = a': POINTS, "valve\\": {"open\\": False}}


def lines():
    """Each line as its reader takes it: the same devices, points and values by both forms."""
    with plant() as path:
        status, output, text = run_poller("poll", path, "--format", "json")
        found = [json.loads(line) for line in output.splitlines()]
        yield "lines of JSON", (0, "", DEVICES), (status, text, {line["device"]: line["points"] for line in found})
        status, output, text = run_poller("poll", path, "--format", "influx")
        try:
            found = [line_of(line) for line in output.splitlines()]
        except (NoLine, ValueError, IndexError) as why:
            found = [(None, {"device": f"{why} in {output}"}, {}, 0)]
        yield "lines of the line protocol", (0, "", DEVICES), (status, text, {tags["device"]: fields for _, tags, fields, _ in found})
        yield "their measurement", {"modbus"}, {measurement for measurement, *_ in found}
        yield "their times", True, all(abs(nanos / 1e9 - time.time()) < SECONDS for *_, nanos in found)


@contextlib.contextmanager
def broker():
    """The port of mosquitto, and the messages that come to one who asked for all."""
    port = free_port()
    with tempfile.TemporaryDirectory() as folder, contextlib.ExitStack() as stack:
        settings = map_file(folder, "mosquitto.conf", f"listener {port} 127.0.0.1\nallow_anonymous true\nlog_dest none\n")
        server = stack.enter_context(subprocess.Popen(["mosquitto", "-c", settings], stderr=subprocess.DEVNULL))
        stack.callback(server.kill)
        wait_for(port)
        taking = ["mosquitto_sub", "-h", "127.0.0.1", "-p", str(port), "-t", "#", "-F", "%t %p"]
        reader = stack.enter_context(subprocess.Popen(taking, stdout=subprocess.PIPE, text=True))
        stack.callback(reader.kill)
        messages = []
        told = []

        def take():
            for line in reader.stdout:
                told.append(line)

        threading.Thread(target=take, daemon=True).start()
        begin = ["mosquitto_pub", "-h", "127.0.0.1", "-p", str(port), "-t", "begin", "-m", "now"]
        until(lambda: told or (subprocess.run(begin) and told))
        yield port, told


def until(is_so):
    """Waits until something is so; whether it is in time."""
    end = time.monotonic() + SECONDS
    while not is_so() and time.monotonic() < end:
        time.sleep(0.05)
    return is_so()


def messages():
    """Each line of a poll by a pipe into mosquitto_pub is a message to those who asked for its topic."""
    if not all(map(shutil.which, ("mosquitto", "mosquitto_pub", "mosquitto_sub"))):
        print("poller: the check against mosquitto is skipped; not installed: mosquitto, mosquitto-clients")
        return
    with plant() as path, broker() as (port, told):
        polling = subprocess.Popen([POLLER, "poll", path, "--every", "100", "--count", "3", "--format", "json"], stdout=subprocess.PIPE)
        publishing = subprocess.Popen(
            ["mosquitto_pub", "-h", "127.0.0.1", "-p", str(port), "-t", "plant/line1", "-l"], stdin=polling.stdout
        )
        polling.stdout.close()
        yield "a pipe into mosquitto_pub", (0, 0), (polling.wait(SECONDS), publishing.wait(SECONDS))
        topic = "plant/line1 "
        until(lambda: len([line for line in told if line.startswith(topic)]) >= 6)
        found = [json.loads(line[len(topic) :]) for line in told if line.startswith(topic)]
        yield "the messages that came", list(DEVICES.items()) * 3, [(line["device"], line["points"]) for line in found]


def readers_gone():
    """A poll without end, whose reader goes away: it ends by itself, with status 1."""
    with plant() as path:
        for form in ("table", "csv", "json", "influx"):
            polling = subprocess.Popen(
                [POLLER, "poll", path, "--every", "20", "--format", form], stdout=subprocess.PIPE, stderr=subprocess.DEVNULL
            )
            polling.stdout.readline()
            polling.stdout.close()
            try:
                status = polling.wait(SECONDS)
            except subprocess.TimeoutExpired:
                polling.kill()
                status = None
            yield f"a reader of {form} that goes away", 1, status


def cases():
    yield from lines()
    yield from messages()
    yield from readers_gone()
