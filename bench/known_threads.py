#!/usr/bin/env python3
"""How long a debugger takes to know many threads, and to forget them again.

Makes what a target sends in a session: THREAD_START of so many threads, whose ids are spread over all 64 bits, and in a second session also THREAD_DEATH of each of them, the first
one first; then runs `attach` on it, and prints the seconds (the best of three runs by the processor's time) for 25,000, 50,000 and 100,000 threads: until all have started, and how
much longer it takes until all have ended, too. Each message is printed, which is part of the time. To reach: twice the threads take about twice the time, and to end takes about as
long as to start.

    bench/known_threads.py [PROGRAM] [THREADS..]

PROGRAM is crates/jdwp/out/jdwp where none is given; `rt run` in crates/jdwp builds it.
"""

import os
import struct
import subprocess
import sys
import tempfile

ROOT = os.path.dirname(os.path.dirname(os.path.abspath(__file__)))
HANDSHAKE = b"JDWP-Handshake"
IDS_ARE_8_BYTES = struct.pack(">IIBHIIIII", 31, 1, 0x80, 0, 8, 8, 8, 8, 8)
DISPOSED = struct.pack(">IIBH", 11, 2, 0x80, 0)
THREAD_START, THREAD_DEATH = 6, 7
POLICY_NONE, POLICY_ALL = 0, 2
SPREAD = 0x9E3779B97F4A7C15


def event(number, kind, thread, policy):
    """A composite with one event of a thread."""
    return struct.pack(">IIBBBBIBIQ", 29, number, 0, 64, 100, policy, 1, kind, 1, thread)


def session(threads, kinds, policy):
    """What the target sends, and how many composites are in it."""
    parts = [HANDSHAKE, IDS_ARE_8_BYTES]
    for kind in kinds:
        for i in range(1, threads + 1):
            parts.append(event(len(parts), kind, i * SPREAD % 2**64, policy))
    composites = len(parts) - 2
    return b"".join(parts) + DISPOSED, composites


def seconds_of(program, folder, threads, kinds, policy=POLICY_NONE):
    given, plan, made = (os.path.join(folder, name) for name in ("from", "plan", "to"))
    content, composites = session(threads, kinds, policy)
    with open(given, "wb") as file:
        file.write(content)
    with open(plan, "w") as file:
        file.write(f"events {composites}\nask 1 6\n")
    words = [program, "attach", plan, "--from", given, "--to", made, "--turns", str(20 * composites + 100)]
    times = []
    for _ in range(3):
        process = subprocess.Popen(words, stdout=subprocess.PIPE)
        lines = process.stdout.read().count(b"\n")
        _, status, usage = os.wait4(process.pid, 0)
        # The handshake, the widths of ids, the composites and the reply to Dispose.
        if os.waitstatus_to_exitcode(status) != 0 or lines != composites + 3:
            sys.exit(f"status {os.waitstatus_to_exitcode(status)}, {lines} lines")
        times.append(usage.ru_utime + usage.ru_stime)
    return min(times)


def main():
    program = os.path.abspath(sys.argv[1] if len(sys.argv) > 1 else os.path.join(ROOT, "crates", "jdwp", "out", "jdwp"))
    counts = [int(word) for word in sys.argv[2:]] or [25_000, 50_000, 100_000]
    with tempfile.TemporaryDirectory() as folder:
        for threads in counts:
            start = seconds_of(program, folder, threads, [THREAD_START])
            both = seconds_of(program, folder, threads, [THREAD_START, THREAD_DEATH])
            print(f"{threads} threads: {start:.2f} s to start, {both - start:.2f} s more to end")
        for threads in [20_000, 80_000]:
            none = seconds_of(program, folder, threads, [THREAD_START])
            each = seconds_of(program, folder, threads, [THREAD_START], POLICY_ALL)
            print(f"{threads} threads: {none:.2f} s to start, {each:.2f} s where each suspends all")


if __name__ == "__main__":
    main()
