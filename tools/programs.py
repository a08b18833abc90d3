"""The programs of this checkout: which there are, and the file of each, proved or as written.

A proved program is what `rt ci` or ./prove left in its crate's out/. One as written is built of the sources alone, unproved, and kept in
the folder .programs of this checkout, or that of PROGRAMS_KEPT, beside the checksum of its sources.
"""

import contextlib
import fcntl
import hashlib
import os
import re
import shutil
import signal
import stat
import subprocess
import sys
import tempfile
import time

TOP = os.path.dirname(os.path.dirname(os.path.abspath(__file__)))
KEPT = os.environ.get("PROGRAMS_KEPT") or os.path.join(TOP, ".programs")
# What a build takes at most while it runs, in bytes.
ROOM = 300 * 1024 * 1024
# How often a program may end before its file is seen.
TRIES = 3


class Refused(Exception):
    """Why a program can't be started, in one line."""


def crates():
    """The libraries that each crate of crates.txt stands on."""
    below = {}
    with open(os.path.join(TOP, "crates.txt"), encoding="utf-8") as lines:
        for line in lines:
            name, colon, words = line.split("#")[0].partition(":")
            if colon:
                below[name.split()[0]] = words.split()
    return below


def folder(name):
    """The folder of a crate."""
    return os.path.join(TOP, "crates", name)


def is_program(name):
    """Whether a crate of this name is a program."""
    return name in crates() and os.path.isfile(os.path.join(folder(name), "src", "main.rt"))


def names():
    """The names of all programs."""
    return [name for name in crates() if is_program(name)]


def closure(name):
    """The crates of this checkout that a crate is built of, lowest first, itself last."""
    below, found = crates(), []

    def visit(crate):
        if crate in below and crate not in found:
            for it in below[crate]:
                visit(it)
            found.append(crate)

    visit(name)
    return found


def files(name, parts):
    """The files of these folders of all crates that a crate is built of."""
    yield os.path.join(TOP, "crates.txt")
    for crate in closure(name):
        for part in parts:
            for at, _, found in sorted(os.walk(os.path.join(folder(crate), part))):
                yield from (os.path.join(at, it) for it in sorted(found))


def proved(name):
    """The file of a proved program, or None where it isn't there or is older than a source."""
    path = os.path.join(folder(name), "out", name)
    if not os.access(path, os.X_OK):
        return None
    made = os.stat(path).st_mtime
    is_new = all(os.stat(it).st_mtime <= made for it in files(name, ("src", "specs", "proofs")))
    return path if is_new else None


def checksum(name):
    """The checksum of what a program as written is built of: its sources and the toolchain."""
    rt = os.path.realpath(shutil.which("rt") or "")
    sum = hashlib.sha256(f"{rt} {os.stat(rt).st_mtime_ns}\n".encode())
    for path in files(name, ("src",)):
        with open(path, "rb") as it:
            sum.update(f"{os.path.relpath(path, TOP)}\n".encode() + it.read())
    return sum.hexdigest()[:24]


def link_all(at, kept):
    """Gives each file that a trial makes for its program in its folder another name, as soon as it is there."""
    for place, _, found in os.walk(at):
        for it in found:
            if it.startswith("program"):
                with contextlib.suppress(FileNotFoundError, FileExistsError):
                    path = os.path.join(place, it)
                    os.link(path, os.path.join(kept, str(os.stat(path).st_ino)))


def whole(kept):
    """Of these files the program: the linker makes others on the way, which are no programs."""
    for it in sorted(os.listdir(kept), key=lambda it: -os.stat(os.path.join(kept, it)).st_size):
        with open(os.path.join(kept, it), "rb") as file:
            if file.read(4) == b"\x7fELF":
                return os.path.join(kept, it)
    return None


def is_running(at):
    """Whether a trial has begun to run its program, which is then whole."""
    return any("stdout" in found for _, _, found in os.walk(at))


def stop(trial):
    """Ends a trial, and waits until it has removed what it made."""
    if trial.poll() is None:
        trial.send_signal(signal.SIGTERM)
    trial.wait()


def trial_of(name, path):
    """Has the toolchain try a program, which it builds for that, and takes its file: whether it was seen, and what was told."""
    with tempfile.TemporaryDirectory(prefix="trial-", dir=KEPT) as room, open(os.path.join(room, "told"), "w+b") as told:
        at, kept = os.path.join(room, "made"), os.path.join(room, "kept")
        os.mkdir(at)
        os.mkdir(kept)
        trial = subprocess.Popen(
            ["rt", "try"], cwd=folder(name), env={**os.environ, "TMPDIR": at}, stdin=subprocess.DEVNULL, stdout=told, stderr=told
        )
        try:
            while trial.poll() is None and not (os.listdir(kept) and is_running(at)):
                link_all(at, kept)
                time.sleep(0.002)
        finally:
            stop(trial)
        made = whole(kept)
        if made:
            os.rename(made, path)
        told.seek(0)
        return made is not None, told.read().decode(errors="replace")


def build(name, path):
    """Builds a program as written."""
    if shutil.disk_usage(KEPT).free < ROOM:
        raise Refused(f"no room on the disk of {KEPT}: a build takes {ROOM // 1024 // 1024} MB")
    made = f"{path}.new"
    with contextlib.suppress(FileNotFoundError):
        os.unlink(made)
    for _ in range(TRIES):
        is_seen, told = trial_of(name, made)
        if is_seen:
            os.chmod(made, stat.S_IRWXU | stat.S_IRGRP | stat.S_IXGRP | stat.S_IROTH | stat.S_IXOTH)
            os.rename(made, path)
            return
        if "run=" not in told or "run=none" in told:
            break
    sys.stderr.write(told)
    raise Refused("the build failed")


def forget_others(name, path):
    """Removes what is kept of older sources of a program."""
    for it in os.listdir(KEPT):
        if it.rpartition("-")[0] == name and it != os.path.basename(path) and not it.endswith(".lock"):
            with contextlib.suppress(OSError):
                os.unlink(os.path.join(KEPT, it))


def written(name, say=lambda text: None):
    """The file of a program as written, which is built where it isn't kept; two who want it at once have it built once."""
    if shutil.which("rt") is None:
        raise Refused("the kit's command rt is not on the path")
    path = os.path.join(KEPT, f"{name}-{checksum(name)}")
    if os.access(path, os.X_OK):
        return path
    try:
        os.makedirs(KEPT, exist_ok=True)
        with open(os.path.join(KEPT, f"{name}-.lock"), "w", encoding="utf-8") as lock:
            fcntl.flock(lock, fcntl.LOCK_EX)
            if not os.access(path, os.X_OK):
                say("is built as written, which takes about a minute")
                build(name, path)
                forget_others(name, path)
    except OSError as error:
        raise Refused(f"{error.filename or KEPT}: {error.strerror}") from error
    return path


def version():
    """The version of the programs and of the library for C, and the toolchain that they are proved with."""
    with open(os.path.join(folder("modbus_about"), "src", "lib.rt"), encoding="utf-8") as it:
        return re.search(r'^pub const VERSION: &str = "(.*)";$', it.read(), re.M)[1]


def are_written():
    """Whether tools run programs as written: PROGRAMS in the environment is `written`."""
    return os.environ.get("PROGRAMS") == "written"


def path(name):
    """The file of a program for a tool: the proved one, or the one as written."""
    if are_written():
        return written(name)
    return os.path.join(folder(name), "out", name)
