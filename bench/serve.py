#!/usr/bin/env python3
"""How fast the program serves a long session from a file.

Makes a session of the handshake, a million SuspendCount commands of thread 1 and Dispose, runs the program on it with every thread suspended, checks the answer and
prints messages a second (on a file, the best of three runs), the same by the processor time of the program, which other processes on the machine disturb less, and the peak of memory (on a pipe, before Dispose). To reach: 5 million messages a
second, and memory that doesn't grow with the session.

    bench/serve.py [PROGRAM] [COMMANDS]

PROGRAM is crates/jdwp/out/jdwp where none is given; `rt run` in crates/jdwp builds it.
"""

import os
import resource
import struct
import subprocess
import sys
import tempfile
import time

ROOT = os.path.dirname(os.path.dirname(os.path.abspath(__file__)))
HANDSHAKE = b"JDWP-Handshake"
VM_START = bytes.fromhex("0000001d 00000001 00 40 64 02 00000001 5a 00000000 0000000000000001")


def session(commands):
    parts = [HANDSHAKE]
    for i in range(1, commands + 1):
        parts.append(struct.pack(">IIBBBQ", 19, i, 0, 11, 12, 1))
    parts.append(struct.pack(">IIBBB", 11, commands + 1, 0, 1, 6))
    return b"".join(parts)


def answers(commands):
    parts = [HANDSHAKE, VM_START]
    for i in range(1, commands + 1):
        parts.append(struct.pack(">IIBHI", 15, i, 0x80, 0, 1))
    parts.append(struct.pack(">IIBH", 11, commands + 1, 0x80, 0))
    return b"".join(parts)


def words_of(program, folder, given, commands):
    # A round for each message and for each read; a pipe may give less than 4,096 bytes a read.
    turns = 20 * commands + 100
    machine, made = os.path.join(ROOT, "examples", "A.json"), os.path.join(folder, "to")
    return [program, "serve-script", machine, "--start", "all", "--from", given, "--to", made, "--turns", str(turns)], made


def check(made, commands):
    with open(made, "rb") as file:
        if file.read() != answers(commands):
            sys.exit("the answer is wrong")


def processor_time():
    """The processor time of the programs that were run, in seconds."""
    usage = resource.getrusage(resource.RUSAGE_CHILDREN)
    return usage.ru_utime + usage.ru_stime


def seconds_of(program, folder, commands, runs=3):
    """The seconds of the best of some runs on a file, and the least processor time of one."""
    given = os.path.join(folder, "from")
    with open(given, "wb") as file:
        file.write(session(commands))
    words, made = words_of(program, folder, given, commands)
    times, busy = [], []
    for _ in range(runs):
        start, used = time.perf_counter(), processor_time()
        status = subprocess.run(words).returncode
        times.append(time.perf_counter() - start)
        busy.append(processor_time() - used)
        if status != 0:
            sys.exit(f"status {status}")
        check(made, commands)
    return min(times), min(busy)


def peak_of(program, folder, commands):
    """The peak of memory in KiB once all commands but Dispose were answered."""
    given = os.path.join(folder, "pipe")
    os.mkfifo(given)
    words, made = words_of(program, folder, given, commands)
    process = subprocess.Popen(words)
    whole = session(commands)
    want = len(answers(commands)) - 11
    with open(given, "wb", buffering=0) as pipe:
        pipe.write(whole[:-11])
        while os.path.getsize(made) < want:
            time.sleep(0.01)
        with open(f"/proc/{process.pid}/status") as file:
            peak = next(int(line.split()[1]) for line in file if line.startswith("VmHWM:"))
        pipe.write(whole[-11:])
    if process.wait() != 0:
        sys.exit(f"status {process.returncode}")
    check(made, commands)
    os.remove(given)
    return peak


def main():
    program = sys.argv[1] if len(sys.argv) > 1 else os.path.join(ROOT, "crates", "jdwp", "out", "jdwp")
    program = os.path.abspath(program)
    commands = int(sys.argv[2]) if len(sys.argv) > 2 else 1_000_000
    with tempfile.TemporaryDirectory() as folder:
        for count in (1_000, commands):
            (seconds, busy), peak = seconds_of(program, folder, count), peak_of(program, folder, count)
            messages = count + 2
            rates = f"{messages / seconds / 1e6:.2f} million a second, {messages / busy / 1e6:.2f} million a second of processor time"
            print(f"{messages} messages in {seconds:.3f} s: {rates}; peak of memory {peak} KiB")


if __name__ == "__main__":
    main()
