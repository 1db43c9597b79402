#!/usr/bin/env python3
"""Whether one build of the programs is slower than another: both do the same in one run, one in turn with the other, so that whatever else the machine does disturbs both alike.

Each build is a folder of the repository, in which `crates/jdwp/out/jdwp` and `crates/both_ends/out/both_ends` stand; the first is the one that the others are compared with. Printed
is, of the others, the share of the first one's rate:
- file: `serve-script` on a file of a million SuspendCount commands (`serve.py`), by the processor's time, the best of the rounds;
- both ends: `both_ends` with a million commands (`both_ends.py`), the same;
- port, one at a time and 256 at once: a debugger at `serve-script --port` (`ports.py`), by the clock, the fastest tenth of many short rounds.

    bench/beside.py FOLDER FOLDER..
"""

import os
import sys
import tempfile

import both_ends
import ports
import serve

COMMANDS = 1_000_000
ROUNDS = 11


def jdwp(folder):
    return os.path.join(os.path.abspath(folder), "crates", "jdwp", "out", "jdwp")


def file_seconds(program, folder):
    return serve.seconds_of(program, folder, COMMANDS, 1)[1]


def both_seconds(folder):
    program = os.path.join(os.path.abspath(folder), "crates", "both_ends", "out", "both_ends")
    return both_ends.run(program, [], -(-COMMANDS // both_ends.AT_ONCE))[0]


def best_in_turn(folders, seconds_of):
    """The least of the seconds of each folder, of some rounds of all."""
    seconds = [[] for _ in folders]
    for _ in range(ROUNDS):
        for folder, found in zip(folders, seconds):
            found.append(seconds_of(folder))
    return [min(found) for found in seconds]


def told(what, folders, seconds, count):
    for folder, found in zip(folders, seconds):
        print(f"{what}: {folder}: {count / found / 1e6:.3f} million a second, {seconds[0] / found:.3f} of the first", flush=True)


def port_seconds(folders, client, rounds, commands, at_once):
    """The seconds of a round of each folder's target, of the fastest tenth."""
    script = os.path.join(ports.ROOT, "examples", "A.json")
    targets = [ports.target(jdwp(folder), script) for folder in folders]
    seconds = [[] for _ in folders]
    with ports.contextlib.ExitStack() as held:
        for target in targets:
            held.enter_context(target)
        asks = [held.enter_context(ports.debugger(client, target.port, "target")) for target in targets]
        for _ in range(rounds):
            for ask, found in zip(asks, seconds):
                found.append(ask(commands, at_once))
    return [sum(sorted(found)[: rounds // 10]) / (rounds // 10) for found in seconds]


def main():
    folders = sys.argv[1:]
    with tempfile.TemporaryDirectory() as room:
        told("file", folders, best_in_turn(folders, lambda folder: file_seconds(jdwp(folder), room)), COMMANDS)
        told("both ends", folders, best_in_turn(folders, both_seconds), COMMANDS)
        client = ports.built(room)["port_client"]
        told("port, one at a time", folders, port_seconds(folders, client, 1_000, 100, 1), 100)
        told("port, 256 at once", folders, port_seconds(folders, client, 200, 20_000, 256), 20_000)


if __name__ == "__main__":
    main()
