#!/usr/bin/env python3
"""Makes a recording of the network (pcap) of a session, as tcpdump would write it: a segment for each line of a capture.

    bench/recording.py CAPTURE > FILE

The debugger connects from 127.0.0.1:40000 to the target at 127.0.0.1:8000. Of two segments of one side that follow each other the second is recorded first, and once more behind the first,
as segments are that were sent again; the target's numbers begin anew within the session. The same capture gives the same bytes.
"""

import struct
import sys

DEBUGGER, TARGET = 40_000, 8_000
SYN, ACK, PUSH = 2, 16, 8


def segment(source, to, sequence, acknowledged, flags, data=b""):
    """A TCP segment in a packet of IPv4, in a frame of Ethernet."""
    tcp = struct.pack(">HHIIBBHHH", source, to, sequence, acknowledged, 5 << 4, flags, 65_535, 0, 0) + data
    home = bytes([127, 0, 0, 1])
    internet = struct.pack(">BBHHHBBH", 0x45, 0, 20 + len(tcp), 0, 0, 64, 6, 0) + home + home
    return bytes(12) + b"\x08\x00" + internet + tcp


def segments(lines):
    """The segments of a session, in the order of the recording."""
    next_of = {DEBUGGER: 1_000, TARGET: 4_294_967_290}
    yield segment(DEBUGGER, TARGET, next_of[DEBUGGER] - 1, 0, SYN)
    yield segment(TARGET, DEBUGGER, next_of[TARGET] - 1, next_of[DEBUGGER], SYN | ACK)
    made = []
    for number, line in enumerate(lines, 1):
        source, to = (DEBUGGER, TARGET) if line[0] == ">" else (TARGET, DEBUGGER)
        data = bytes.fromhex(line[2:])
        made.append((source, segment(source, to, next_of[source], next_of[to], PUSH | ACK, data)))
        next_of[source] = (next_of[source] + len(data)) % 2**32
    while made:
        # two of one side that follow each other are recorded the other way round
        turned = len(made) > 1 and made[0][0] == made[1][0]
        first = made.pop(1 if turned else 0)[1]
        yield first
        if turned:
            yield made.pop(0)[1]
            yield first


def main():
    with open(sys.argv[1], encoding="utf-8") as file:
        lines = [it for it in file.read().splitlines() if it]
    out = sys.stdout.buffer
    out.write(struct.pack("<IHHiIII", 0xA1B2C3D4, 2, 4, 0, 0, 65_535, 1))
    for number, it in enumerate(segments(lines)):
        out.write(struct.pack("<IIII", 1_700_000_000, number * 1_000, len(it), len(it)) + it)


if __name__ == "__main__":
    main()
