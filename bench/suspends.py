#!/usr/bin/env python3
"""What suspending and resuming all threads costs, by how many live.

Serves a session over a script of 1, of 64 and of 1,024 threads, within limits that let so many live, and prints the processor's time for each of many commands, the best of five runs, less the
time of a session without them:
- no counts: HoldEvents again and again, which changes no count. Behind each read of 4,096 bytes is a round in which no thread steps, and which looks at all of them: that is in this time and in
  those below;
- all turn: Resume and Suspend in turn, so that each thread begins or ceases to be suspended at each;
- none turns: behind two Suspends of all, a Suspend and a Resume in turn, so that no thread does. To reach: about what a command takes that changes no count;
- one turns: behind a Suspend of each thread but the first, Resume and Suspend in turn, so that the first alone does. To reach: the same;
- an event: the same with an event in place of a Suspend: behind each Resume the first thread makes a step, which is reported with the policy ALL. A round in which threads step looks at all of
  them, which is in this time.

    bench/suspends.py [PROGRAM] [BEFORE]

PROGRAM is crates/jdwp/out/jdwp where none is given; `rt run` in crates/jdwp builds it. With BEFORE, another build of the program, both run in turn, and each line has the times of both.
"""

import json
import os
import struct
import sys
import tempfile

sys.dont_write_bytecode = True  # no folder of them beside the scripts

from limits import run, written

ROOT = os.path.dirname(os.path.dirname(os.path.abspath(__file__)))
HANDSHAKE = b"JDWP-Handshake"
SUSPEND, RESUME, HOLD_EVENTS, DISPOSE = (1, 8), (1, 9), (1, 15), (1, 6)
SUSPEND_THREAD = (11, 2)
SINGLE_STEP, ALL, STEP = 1, 2, 10
FIRST = 100_000
THREADS = (1, 64, 1024)
COMMANDS = 20_000
EVENTS = 500
READ = 4096
RUNS = 5


def command(number, which, data=b""):
    return struct.pack(">IIBBB", 11 + len(data), number, 0, *which) + data


def session(commands):
    """The handshake, these commands under the ids from 1 on, and Dispose."""
    return HANDSHAKE + b"".join(command(i, which, data) for i, (which, data) in enumerate(commands + [(DISPOSE, b"")], 1))


def filled(data):
    """The data, and a reply behind them, which means nothing to a target, up to the end of a read: what comes behind it comes after steps."""
    rest = -len(data) % READ
    if rest < 11:
        rest += READ
    return data + struct.pack(">IIBH", rest, 0, 0x80, 0) + bytes(rest - 11)


def apart(before, commands):
    """The handshake and the commands before; then each command in a read of its own, so that threads step between them; and Dispose."""
    front = HANDSHAKE + b"".join(command(i, which, data) for i, (which, data) in enumerate(before, 1))
    return filled(front) + b"".join(filled(command(1, which, data)) for which, data in commands) + command(1, DISPOSE)


def machine(threads, steps):
    """A script of so many threads, of which the first makes so many steps, and the others one that they never make."""
    method = {"id": 20, "name": "run", "signature": "()V", "modifiers": 1, "args": 0, "last": 9, "lines": [[0, 1], [3, 2]], "slots": []}
    return {
        "name": "suspends",
        "sizes": [8, 8, 8, 8, 8],
        "groups": [{"id": 5, "name": "main", "parent": 0}],
        "classes": [{"id": 10, "tag": 1, "signature": "LMain;", "modifiers": 1, "super": 0, "interfaces": [], "source": None, "fields": [], "methods": [method]}],
        "objects": [],
        "threads": [
            {"id": FIRST + i, "name": "", "group": 5, "steps": [["call", 1 + i, 10, 20, 0, []]] + [["go", 3 * (k % 2)] for k in range(steps if i == 0 else 0)]} for i in range(threads)
        ],
    }


def serve(program, folder, script, asked, threads):
    limits = f"65536,{threads},64,64"
    return run([program, "serve-script", script, "--from", asked, "--to", os.path.join(folder, "to"), "--start", "all", "--limits", limits, "--count-limit", "1000000", "--turns", "4000000000"])


def suspended_apart(threads):
    """Each thread but the first is suspended once more."""
    return [(SUSPEND_THREAD, struct.pack(">Q", FIRST + i)) for i in range(1, threads)]


def ways(threads):
    """The ways by name: the commands before, and those that are timed. All threads begin suspended, and events are held, so that none steps where it runs."""
    suspend, resume, hold = (SUSPEND, b""), (RESUME, b""), (HOLD_EVENTS, b"")
    yield "no counts", [hold], [hold] * COMMANDS
    yield "all turn", [hold], [resume, suspend] * (COMMANDS // 2)
    yield "none turns", [hold, suspend, suspend], [suspend, resume] * (COMMANDS // 2)
    yield "one turns", [hold] + suspended_apart(threads), [resume, suspend] * (COMMANDS // 2)


def timed(programs, folder, script, before, behind, threads):
    """Seconds for what stands behind, a program a place: the best of the runs, one program in turn with the others."""
    short, whole = written(folder, "short", before), written(folder, "whole", behind)
    best = [[], []]
    for _ in range(RUNS):
        for place, program in enumerate(programs):
            idle = serve(program, folder, script, short, threads)
            best[place].append(serve(program, folder, script, whole, threads) - idle)
    return [min(seconds) for seconds in best if seconds]


def told(name, threads, seconds, count):
    times = " and ".join(f"{1e9 * second / count:.0f} ns" for second in seconds)
    print(f"{threads} threads, {name}: {times} each")


def commands(programs, folder):
    for threads in THREADS:
        script = written(folder, f"{threads}.json", json.dumps(machine(threads, 0)).encode())
        for name, before, behind in ways(threads):
            told(name, threads, timed(programs, folder, script, session(before), session(before + behind), threads), len(behind))


def events(programs, folder):
    for threads in THREADS:
        script = written(folder, f"{threads}.steps.json", json.dumps(machine(threads, EVENTS + 1)).encode())
        request = ((15, 1), struct.pack(">BBIBQII", SINGLE_STEP, ALL, 1, STEP, FIRST, 0, 0))
        before = suspended_apart(threads) + [request]
        resumes = [(RESUME, b"")] * EVENTS
        told("an event", threads, timed(programs, folder, script, apart(before, []), apart(before, resumes), threads), EVENTS)


def main():
    programs = [os.path.abspath(word) for word in sys.argv[1:3]] or [os.path.join(ROOT, "crates", "jdwp", "out", "jdwp")]
    with tempfile.TemporaryDirectory() as folder:
        commands(programs, folder)
        events(programs, folder)


if __name__ == "__main__":
    main()
