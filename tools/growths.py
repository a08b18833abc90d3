"""Growths of a program's memory, which are counted, and of which one is refused. gcc compiles what is loaded ahead of its libraries."""

import mmap
import os
import struct
import subprocess

HERE = os.path.dirname(os.path.abspath(__file__))


class Growths:
    """The growths of a program: how many there were, and which one is refused."""

    def __init__(self, folder):
        library = os.path.join(folder, "refuse.so")
        source = os.path.join(HERE, "alloc", "refuse.c")
        subprocess.run(["gcc", "-O2", "-shared", "-fPIC", "-o", library, source], check=True)
        path = os.path.join(folder, "growths")
        with open(path, "wb") as file:
            file.write(bytes(16))
        with open(path, "r+b") as file:
            self.shared = mmap.mmap(file.fileno(), 16)
        self.env = {**os.environ, "LD_PRELOAD": library, "GROWTHS": path}

    def refuse(self, number):
        self.shared[:] = struct.pack("<QQ", 0, number)

    def count(self):
        return struct.unpack("<Q", self.shared[:8])[0]
