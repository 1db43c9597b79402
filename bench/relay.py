#!/usr/bin/env python3
"""Writes a capture of one session between a debugger and a target on this machine.

Listens at a port of 127.0.0.1 for a debugger, connects it to the target at another port, hands on what each of them sends, and writes a line of the capture for each read: `> HEX`
for the debugger's bytes, `< HEX` for the target's. A line is written before its bytes are handed on, so a command stands before its reply. It ends once both have ended.

    bench/relay.py LISTEN TARGET FILE
"""

import select
import socket
import sys


def read_some(end):
    """Some bytes that an end sent; none where it has ended."""
    try:
        return end.recv(65_536)
    except ConnectionResetError:
        return b""


def hand_on(debugger, target, capture):
    ways = {debugger: (">", target), target: ("<", debugger)}
    while ways:
        for end in select.select(list(ways), [], [])[0]:
            mark, other = ways[end]
            came = read_some(end)
            try:
                if came:
                    capture.write(f"{mark} {came.hex()}\n")
                    other.sendall(came)
                else:
                    del ways[end]
                    other.shutdown(socket.SHUT_WR)
            except OSError:  # the other has gone: what this one still sends goes nowhere
                pass


def main():
    if len(sys.argv) != 4:
        sys.exit("bench/relay.py LISTEN TARGET FILE")
    listens, asks = int(sys.argv[1]), int(sys.argv[2])
    with socket.create_server(("127.0.0.1", listens)) as listener, open(sys.argv[3], "w", encoding="ascii") as capture:
        debugger, _ = listener.accept()
        with debugger, socket.create_connection(("127.0.0.1", asks)) as target:
            for end in debugger, target:
                end.setsockopt(socket.IPPROTO_TCP, socket.TCP_NODELAY, 1)
            hand_on(debugger, target, capture)


if __name__ == "__main__":
    main()
