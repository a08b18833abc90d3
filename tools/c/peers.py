"""Asks the server of examples/c as more peers than it has room for, beside one that never reads and one that speaks HTTP. The status is 0 where each answer was the
one wanted.

usage: peers.py PORT
"""

import contextlib
import socket
import sys

READ = bytes.fromhex("0007 0000 0006 01 04 0000 0001")
ANSWER = bytes.fromhex("0007 0000 0005 01 04 02 FFFF")
LONG_READ = bytes.fromhex("0007 0000 0006 01 04 0000 007D")
MORE_THAN_THERE_IS_ROOM_FOR = 70
BYTES = 64 * 1024 * 1024


def asked(peer):
    """The answer that a peer gets, or nothing where it was closed."""
    peer.sendall(READ)
    found = b""
    while len(found) < len(ANSWER):
        piece = peer.recv(100)
        if not piece:
            break
        found += piece
    return found


def main(port):
    with contextlib.ExitStack() as all_of_them:

        def connected():
            return all_of_them.enter_context(socket.create_connection(("127.0.0.1", int(port)), timeout=10))

        first = connected()
        assert asked(first) == ANSWER
        for _ in range(MORE_THAN_THERE_IS_ROOM_FOR):
            assert asked(connected()) == ANSWER
        # the first was idle for longest
        with contextlib.suppress(ConnectionError):
            assert asked(first) == b""
        deaf, sent = connected(), 0
        with contextlib.suppress(ConnectionError):
            while sent < BYTES:
                sent += deaf.send(LONG_READ * 1000)
        assert sent < BYTES
        # another protocol is told by its first bytes, and ends the connection
        other = connected()
        other.sendall(b"GET / HTTP/1.1\r\n")
        with contextlib.suppress(ConnectionError):
            assert other.recv(100) == b""
        assert asked(connected()) == ANSWER
    print("each answer was the one wanted")


main(*sys.argv[1:])
