"""Runs of the poller, and what is wanted of them."""

import calendar
import csv
import io
import os
import re
import subprocess
import time

import programs
from peers import SECONDS

POLLER = os.environ.get("POLLER") or programs.path("modbus_poller")

TIME = re.compile(r"\d{4}-\d\d-\d\dT\d\d:\d\d:\d\d\.\d{3}Z")
ABSENT = "exception 02: illegal data address"


def run_poller(*words, seconds=SECONDS):
    """The status, output and text of a run; no status where it doesn't end in time."""
    try:
        done = subprocess.run([POLLER, *words], capture_output=True, text=True, timeout=seconds)
    except subprocess.TimeoutExpired:
        return None, "", f"it took more than {seconds} s\n"
    return done.returncode, done.stdout, done.stderr


def poll(port, *words, **limits):
    return run_poller("poll", f"127.0.0.1:{port}", "1", *words, **limits)


def write(port, *words, **limits):
    return run_poller("write", f"127.0.0.1:{port}", "1", *words, **limits)


def write_coils(port, *words):
    return run_poller("write-coils", f"127.0.0.1:{port}", "1", *words)


def poll_for(least, port, *words):
    """What is found of a poll that takes so many seconds at least; else what was found, and after how long."""
    began = time.monotonic()
    status, output, text = poll(port, *words)
    took = time.monotonic() - began
    return status, output, text if took >= least else f"{text!r} after {took:.1f} s"


def csv_text(*records):
    with io.StringIO(newline="") as text:
        csv.writer(text, lineterminator="\n").writerows(records)
        return text.getvalue()


def good(output):
    return 0, output, ""


def bad(text, output=""):
    return 1, output, f"modbus_poller: {text}\n"


def timeless(found):
    """What was found, with the word TIME for each time that is near now."""
    status, output, text = found
    now = time.time()

    def told(match):
        then = time.strptime(match[0][:19], "%Y-%m-%dT%H:%M:%S")
        return "TIME" if abs(calendar.timegm(then) - now) < SECONDS else match[0]

    def nanos(match):
        return " TIME\n" if abs(int(match[1]) / 1e9 - now) < SECONDS else match[0]

    return status, re.sub(r" (\d{19})\n", nanos, TIME.sub(told, output)), text


def map_file(folder, name, text):
    path = os.path.join(folder, name)
    with open(path, "w", encoding="utf-8") as file:
        file.write(text)
    return path
