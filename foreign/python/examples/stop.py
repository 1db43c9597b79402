"""stop.py PORT CLASS METHOD INDEX: a debugger at a port of 127.0.0.1 that stops all threads at a place, and prints the frames of the one that got there."""

import socket
import sys

from milunovesk import Debugger, Heard

port, *place = (int(word) for word in sys.argv[1:5])


def ids(*numbers: int) -> bytes:
    return b"".join(number.to_bytes(8, "big") for number in numbers)


with Debugger() as debugger, socket.create_connection(("127.0.0.1", port)) as line:
    events: list[bytes] = []

    def hear() -> Heard:
        while True:
            line.sendall(debugger.take())
            heard = debugger.turn()
            if heard.kind in (Heard.SEEN, Heard.SIZES):
                events.extend(debugger.data(item) for item in range(heard.items))
            if heard.kind != Heard.NOTHING:
                return heard
            came = line.recv(debugger.waiting().room)
            if not came:
                raise EOFError
            debugger.feed(came)

    def ask(set: int, number: int, data: bytes = b"") -> bytes:
        ticket = debugger.ask(set, number, data)
        while (heard := hear()).ticket != ticket:
            pass
        if heard.error:
            raise RuntimeError(f"error {heard.error}")
        return debugger.data()

    debugger.attach()
    while debugger.widths() is None:
        hear()
    ask(15, 1, b"\2\2\0\0\0\1\7\1" + ids(*place))  # EventRequest.Set: a breakpoint there, which suspends all threads
    ask(1, 9)  # VirtualMachine.Resume
    while not events or events[-1][5] != 2:
        hear()
    thread = int.from_bytes(events[-1][10:18], "big")
    known = debugger.thread(thread)
    print(f"thread {thread}: count {known.count}, {'held' if known.held else 'running'}")
    frames = ask(11, 6, ids(thread) + b"\0\0\0\0\xff\xff\xff\xff")  # ThreadReference.Frames: all of them
    for at in range(4, len(frames), 33):
        frame, kind, *where = (int.from_bytes(frames[at + a : at + b], "big") for a, b in ((0, 8), (8, 9), (9, 17), (17, 25), (25, 33)))
        print(f"frame {frame} at {kind}:#{where[0]}:#{where[1]}:{where[2]}")
