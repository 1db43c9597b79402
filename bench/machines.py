#!/usr/bin/env python3
"""How fast the program reads a machine script, steps its threads, and answers questions about them.

Makes scripts and sessions, runs `jdwp serve-script` on them and prints, each the best of three runs by the processor's time (of the program and of the system for it), with the peak of memory:
- reading: scripts of about 1 and 16 MB, of 1,024 classes and 65,536 steps a thread, with a session that ends at once; MB of text a second, and the same without what the
  JSON itself takes: the time of a script that is refused as soon as its JSON is read, since its first member has another name. To reach: above 20 MB a second without the JSON;
- steps: 64 threads of 1,024 steps each, under 64 breakpoints that no thread reaches, until the machine dies; steps a second, less the time of a session that ends at once. Each step is compared with each breakpoint, and a round looks
  among all live threads for the next one;
- questions: a million Frames commands of a suspended thread; answers a second, less the same. To reach: above a million.

    bench/machines.py [PROGRAM]

PROGRAM is crates/jdwp/out/jdwp where none is given; `rt run` in crates/jdwp builds it.
"""

import json
import os
import struct
import subprocess
import sys
import tempfile

ROOT = os.path.dirname(os.path.dirname(os.path.abspath(__file__)))
HANDSHAKE = b"JDWP-Handshake"


def command(number, command_set, command_number, data=b""):
    return struct.pack(">IIBBB", 11 + len(data), number, 0, command_set, command_number) + data


DISPOSE = command(1, 1, 6)


def machine(classes, threads, steps):
    """A script whose threads each call a method and move to and fro in it."""
    method = {"name": "run", "signature": "()V", "modifiers": 1, "args": 0, "last": 9, "lines": [[0, 1], [3, 2], [4, 3]], "slots": []}
    return {
        "sizes": [8, 8, 8, 8, 8],
        "groups": [{"id": 1, "name": "main", "parent": 0}],
        "classes": [
            {"id": 1 + i, "tag": 1, "signature": f"Lbench/C{i};", "modifiers": 1, "super": 0, "interfaces": [], "source": None, "fields": [], "methods": [{"id": 1 + i, **method}]}
            for i in range(classes)
        ],
        "objects": [],
        "threads": [
            {"id": 2 + t, "name": f"t{t}", "group": 1, "steps": [["call", 1 + t, 1 + t % classes, 1 + t % classes, 0, []]] + [["go", 3 + i % 2] for i in range(steps - 1)]}
            for t in range(threads)
        ],
    }


def breakpoints(count):
    """Breakpoints at a place of the first class that no thread comes to."""
    place = struct.pack(">BQQQ", 1, 1, 1, 7)
    return b"".join(command(i, 15, 1, bytes([2, 0]) + struct.pack(">I", 1) + bytes([7]) + place) for i in range(count))


def frames_asked(count):
    """Commands for the newest frames of thread 2, all of them."""
    return b"".join(command(i, 11, 6, struct.pack(">QiI", 2, 0, 0xFFFFFFFF)) for i in range(1, count + 1))


def made(folder, name, make):
    """The path of a file of what `make` gives, made by a process of its own: the peak of a program's memory counts what its parent had."""
    path = os.path.join(folder, name)
    child = os.fork()
    if child == 0:
        with open(path, "wb") as file:
            file.write(make())
        os._exit(0)
    if os.waitpid(child, 0)[1] != 0:
        sys.exit("no file")
    return path


def script(folder, *parts, first="name"):
    def text():
        return json.dumps({first: "bench", **machine(*parts)}, separators=(",", ":")).encode()

    return made(folder, first + ".json", text)


def run(program, folder, machine, make, start, ends=0):
    """The processor's seconds of the best of three runs, the peak of memory in KiB, and the file of what was sent."""
    given, sent = made(folder, "from", make), os.path.join(folder, "to")
    words = [program, "serve-script", machine, "--start", start, "--from", given, "--to", sent, "--turns", "100000000"]
    times, peak = [], 0
    for _ in range(3):
        process = subprocess.Popen(words, stderr=None if ends == 0 else subprocess.DEVNULL)
        _, status, usage = os.wait4(process.pid, 0)
        times.append(usage.ru_utime + usage.ru_stime)
        peak = max(peak, usage.ru_maxrss)
        if os.waitstatus_to_exitcode(status) != ends:
            sys.exit(f"status {status}")
    return min(times), peak, sent


def main():
    program = os.path.abspath(sys.argv[1] if len(sys.argv) > 1 else os.path.join(ROOT, "crates", "jdwp", "out", "jdwp"))
    with tempfile.TemporaryDirectory() as folder:
        for threads in (1, 26):
            path = script(folder, 1_024, threads, 65_536)
            size = os.path.getsize(path)
            seconds, peak, _ = run(program, folder, path, lambda: HANDSHAKE + DISPOSE, "all")
            refused = script(folder, 1_024, threads, 65_536, first="nome")
            parsing, _, _ = run(program, folder, refused, lambda: HANDSHAKE + DISPOSE, "all", ends=1)
            print(f"reading {size / 1e6:.1f} MB: {seconds:.3f} s, {size / seconds / 1e6:.1f} MB a second; {size / (seconds - parsing) / 1e6:.1f} without the JSON; peak of memory {peak} KiB")
        path = script(folder, 64, 64, 1_024)
        idle, _, _ = run(program, folder, path, lambda: HANDSHAKE + DISPOSE, "all")
        seconds, peak, sent = run(program, folder, path, lambda: HANDSHAKE + breakpoints(64), "none")
        with open(sent, "rb") as file:
            if file.read()[-21:] != struct.pack(">IIBBBBIBI", 21, 2, 0, 64, 100, 0, 1, 99, 0):
                sys.exit("the machine did not die, or something was reported")
        print(f"65,536 steps in {seconds - idle:.3f} s: {65_536 / max(seconds - idle, 1e-9) / 1e6:.2f} million a second; peak of memory {peak} KiB")
        count = 1_000_000
        seconds, peak, sent = run(program, folder, path, lambda: HANDSHAKE + frames_asked(count) + DISPOSE, "all")
        if os.path.getsize(sent) != 14 + 29 + 15 * count + 11:
            sys.exit("the answers are wrong")
        print(f"{count} questions in {seconds - idle:.3f} s: {count / (seconds - idle) / 1e6:.2f} million a second; peak of memory {peak} KiB")


if __name__ == "__main__":
    main()
