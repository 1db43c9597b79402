#!/usr/bin/env python3
"""How fast the program judges and shows captures, and how much memory that takes.

Makes captures of sessions as inspectors meet them: many short packets (SuspendCount of thread 1), or packets of 60,000 bytes (the replies to
AllThreads, StringReference.Value and ArrayReference.GetValues in turn); each with one byte a line, with one packet a line, or with long lines; lists (the replies to
Method.Bytecodes, of 50,000 bytes, and to AllClasses, of 1,000 classes); and commands that all wait, under ids in order and under ids that collide in a hash map of fixed hashing
(`colliding_ids.c`, where there is a `cc`). Runs `check` and `show` on them, and prints MB of text a second (the best of three runs), and the peak of memory in MB and for each byte of text; beside them, how fast `cat`
gives the same file, and for short packets, where there is a `rustc`, how fast a plain program does the same (`plain_captures.rs`). All runs are
pinned to one processor, where `taskset` is there. To reach: 0.8 of the plain program's speed in both, but 0.6 with one byte a line, commands under ids
that collide above 35 MB a second, and at most 3 bytes of memory a byte of text, however short the lines are.

    bench/captures.py [PROGRAM] [MB..]
    bench/captures.py [PROGRAM] --stream GB     how fast `show -` tells a capture of so many GB from a pipe, and its peak of memory: below 64 MB

PROGRAM is crates/jdwp/out/jdwp where none is given (`rt run` in crates/jdwp builds it), and MB is 10 and 100.
"""

import itertools
import os
import shutil
import struct
import subprocess
import sys
import tempfile
import time

ROOT = os.path.dirname(os.path.dirname(os.path.abspath(__file__)))
HANDSHAKE = b"JDWP-Handshake"
SIZES = struct.pack(">IIIII", 8, 8, 8, 8, 8)
LONG_LINE = 100_000


def command(number, pair, data=b""):
    return struct.pack(">IIBBB", 11 + len(data), number, 0, *pair) + data


def reply(number, data=b""):
    return struct.pack(">IIBH", 11 + len(data), number, 0x80, 0) + data


def short_exchange(number):
    return command(number, (11, 12), struct.pack(">Q", 1)), reply(number, struct.pack(">I", 1))


def large_exchange(number):
    kind = number % 3
    if kind == 0:
        ids = b"".join(struct.pack(">Q", i) for i in range(1, 7499))
        return command(number, (1, 4)), reply(number, struct.pack(">I", 7498) + ids)
    if kind == 1:
        text = (b"a reply of some thousand words, " * 1_875)[:59_985]
        return command(number, (10, 1), struct.pack(">Q", 7)), reply(number, struct.pack(">I", len(text)) + text)
    elements = b"".join(struct.pack(">I", i) for i in range(14_996))
    return command(number, (13, 2), struct.pack(">QII", 9, 0, 14_996)), reply(number, b"I" + struct.pack(">I", 14_996) + elements)


def bytecodes_exchange(number):
    code = bytes(i % 256 for i in range(50_000))
    return command(number, (6, 3), struct.pack(">QQ", 1, 2)), reply(number, struct.pack(">I", len(code)) + code)


def classes_exchange(number):
    classes = b"".join(struct.pack(">BQI", 1, i, 24) + b"Ljava/lang/Class%07d;" % i + struct.pack(">I", 7) for i in range(1_000))
    return command(number, (1, 3)), reply(number, struct.pack(">I", 1_000) + classes)


def waiting_lines(ids):
    """Commands of which none is answered, in one line each thousand."""
    yield f"> {HANDSHAKE.hex()}\n< {HANDSHAKE.hex()}\n"
    ids = iter(ids)
    while some := list(itertools.islice(ids, 1_000)):
        yield "> " + "".join(command(number, (1, 8)).hex() for number in some) + "\n"


def colliding_ids(folder, count):
    """Ids that collide in a hash map of fixed hashing; none where they can't be found here."""
    compiler = shutil.which("cc")
    if compiler is None:
        return []
    finder = os.path.join(folder, "colliding_ids")
    subprocess.run([compiler, "-O2", "-o", finder, os.path.join(ROOT, "bench", "colliding_ids.c")], check=True)
    return [int(line) for line in subprocess.run([finder, str(count)], check=True, capture_output=True, text=True).stdout.split()]


def exchanges(make):
    yield HANDSHAKE, HANDSHAKE
    yield command(1, (1, 7)), reply(1, SIZES)
    for number in itertools.count(2):
        yield make(number)


def byte_lines(sides):
    """The bytes of each exchange, one a line."""
    for sent, answered in sides:
        yield "".join(f"> {byte:02x}\n" for byte in sent) + "".join(f"< {byte:02x}\n" for byte in answered)


def packet_lines(sides):
    """Each packet in a line of its own."""
    for sent, answered in sides:
        yield f"> {sent.hex()}\n< {answered.hex()}\n"


def long_lines(sides):
    """The commands of some exchanges in one line, and their replies in the next."""
    sent, answered = bytearray(), bytearray()
    for one, other in sides:
        sent += one
        answered += other
        if len(answered) >= LONG_LINE:
            yield f"> {sent.hex()}\n< {answered.hex()}\n"
            sent, answered = bytearray(), bytearray()


def write_capture(path, make, lines, size):
    made = 0
    with open(path, "w") as file:
        for text in lines(exchanges(make)):
            file.write(text)
            made += len(text)
            if made >= size:
                return made


def write_lines(path, lines):
    with open(path, "w") as file:
        return sum(file.write(text) for text in lines)


# Runs a program in a process of its own, so that the peak is the program's and not that of this one, which a child begins with.
RUNNER = """
import os, subprocess, sys, time
start = time.perf_counter()
process = subprocess.Popen(sys.argv[1:], stdout=subprocess.DEVNULL)
_, status, usage = os.wait4(process.pid, 0)
print(status, time.perf_counter() - start, usage.ru_maxrss * 1024)
"""


def run(words):
    """The status, the seconds and the peak of memory in bytes (that of the process that starts it, some 10 MB, where the program takes less)."""
    pinned = ["taskset", "-c", str(min(os.sched_getaffinity(0)))] if shutil.which("taskset") else []
    told = subprocess.run([sys.executable, "-S", "-c", RUNNER, *pinned, *words], check=True, capture_output=True, text=True)
    status, seconds, peak = told.stdout.split()
    return int(status), float(seconds), int(peak)


def plain_program(folder):
    """A plain program for the same job; none where it can't be built here."""
    compiler = shutil.which("rustc")
    if compiler is None:
        return None
    plain = os.path.join(folder, "plain_captures")
    subprocess.run([compiler, "-O", "-o", plain, os.path.join(ROOT, "bench", "plain_captures.rs")], check=True)
    return plain


def measure(program, path, made, name, plain=None):
    seconds = min(run(["cat", path])[1] for _ in range(3))
    print(f"{name}: cat {made / seconds / 1e6:.0f} MB/s", flush=True)
    for word in ("check", "show"):
        if plain:
            seconds = min(run([plain, word, path])[1] for _ in range(3))
            print(f"{name}: {word} by a plain program {made / seconds / 1e6:.0f} MB/s", flush=True)
        runs = [run([program, word, path]) for _ in range(3)]
        if any(status != 0 for status, _, _ in runs):
            sys.exit(f"{word} of {name}: status {runs[0][0]}")
        seconds = min(seconds for _, seconds, _ in runs)
        peak = max(peak for _, _, peak in runs)
        print(f"{name}: {word} {made / seconds / 1e6:.0f} MB/s, peak {peak / 1e6:.0f} MB, {peak / made:.1f} bytes a byte of text", flush=True)


def stream(program, size):
    """A capture of so many bytes comes from a pipe: exchanges under the same ids again and again."""
    sides = exchanges(short_exchange)
    head = "".join(packet_lines(itertools.islice(sides, 2))).encode()
    block = "".join(packet_lines(itertools.islice(sides, 20_000))).encode()
    start = time.perf_counter()
    process = subprocess.Popen([program, "show", "-"], stdin=subprocess.PIPE, stdout=subprocess.DEVNULL)
    process.stdin.write(head)
    for _ in range(-(-size // len(block))):
        process.stdin.write(block)
    process.stdin.close()
    _, status, usage = os.wait4(process.pid, 0)
    print(f"{size / 1e9:g} GB from a pipe: status {os.waitstatus_to_exitcode(status)}, {size / (time.perf_counter() - start) / 1e6:.0f} MB/s, peak {usage.ru_maxrss * 1024 / 1e6:.0f} MB")


def main():
    words = sys.argv[1:]
    program = os.path.join(ROOT, "crates", "jdwp", "out", "jdwp")
    if words and not words[0].isdigit():
        program = os.path.abspath(words.pop(0))
    if words[:1] == ["--stream"]:
        return stream(program, int(words[1]) * 1_000_000_000)
    sizes = [int(word) for word in words] or [10, 100]
    packets = {"short packets": short_exchange, "60,000-byte packets": large_exchange}
    forms = {"one byte a line": byte_lines, "one packet a line": packet_lines, "long lines": long_lines}
    with tempfile.TemporaryDirectory() as folder:
        path = os.path.join(folder, "capture")
        plain = plain_program(folder)
        for size, (packet, make), (form, lines) in itertools.product(sizes, packets.items(), forms.items()):
            made = write_capture(path, make, lines, size * 1_000_000)
            measure(program, path, made, f"{size} MB, {packet}, {form}", plain if make is short_exchange else None)
        for name, make in ("bytes", bytecodes_exchange), ("classes", classes_exchange):
            made = write_capture(path, make, long_lines, sizes[0] * 1_000_000)
            measure(program, path, made, f"{sizes[0]} MB, lists of {name}")
        count = 295_000
        for name, ids in ("in order", range(1, count + 1)), ("that collide", colliding_ids(folder, count)):
            if ids:
                made = write_lines(path, waiting_lines(ids))
                measure(program, path, made, f"commands that wait, ids {name}")


if __name__ == "__main__":
    main()
