#!/usr/bin/env python3
"""How fast a client is: beside the same debugger whose bytes are moved by hand, and beside C; and a reply read typed, beside item by item.

Runs `both_ends`, whose words are in its first lines, and `serve-script` at ports of 127.0.0.1, each end pinned to a processor of its own where there are two and `taskset` is there. In
many short rounds, one in turn with the other, of which the fastest tenth counts:
- `Client::ask` of a suspend count, one after the other, at a port; beside it a debugger that is given the same commands and whose bytes are moved by hand, the bare engine's way; and
  `port_client.c`, which is no debugger at all. To reach: 0.9 of the bare engine's rate;
- the reply to AllClassesWithGeneric of 10,000 classes, read as structs (`Vec<GenericClass>`); beside it the same bytes read item by item. To reach: 0.5 of its rate.

    bench/client.py [BOTH_ENDS] [PROGRAM]

BOTH_ENDS is crates/both_ends/out/both_ends and PROGRAM crates/jdwp/out/jdwp where none is given; `rt run` in those folders builds them. `cc` has to be there.
"""

import contextlib
import json
import os
import subprocess
import sys
import tempfile

sys.dont_write_bytecode = True  # no folder of them beside the scripts

from ports import ROOT, debugger, machine_that_stands, pinned, target

ROUNDS, COMMANDS, READS = 400, 250, 2


@contextlib.contextmanager
def repeated(program, *words):
    """A process of `both_ends` that does its work so often as a call says, and answers the seconds."""
    process = subprocess.Popen([*pinned(1), program, *words], stdin=subprocess.PIPE, stdout=subprocess.PIPE, text=True)

    def work(times):
        process.stdin.write(f"{times}\n")
        process.stdin.flush()
        said = process.stdout.readline()
        if not said:
            sys.exit(f"it did not go on: {words}")
        return int(said) / 1e9

    try:
        yield work
        process.stdin.close()
        if process.wait(30) != 0:
            sys.exit(f"status {process.returncode}: {words}")
    finally:
        if process.poll() is None:
            process.kill()
            process.wait()
        process.stdout.close()


def rate(seconds, times):
    """The rate of the fastest tenth of rounds of so many times each."""
    fastest = sorted(seconds)[: max(1, len(seconds) // 10)]
    return times * len(fastest) / sum(fastest)


def asked(both_ends, program, client, script):
    """The rates of a client, of a debugger by hand, and of C, at a target of its own each, whose threads can't step."""
    targets = [target(program, script) for _ in range(3)]
    found = [[], [], []]
    with contextlib.ExitStack() as stack:
        for it in targets:
            it.__enter__()
            stack.callback(it.stop)
        address = [f"127.0.0.1:{it.port}" for it in targets]
        with (
            repeated(both_ends, "client", address[0]) as by_client,
            repeated(both_ends, "hand", address[1]) as by_hand,
            debugger(client, targets[2].port, "target") as by_c,
        ):
            for _ in range(ROUNDS):
                for seconds, work in zip(found, (by_client, by_hand, lambda times: by_c(times, 1))):
                    seconds.append(work(COMMANDS))
    return [rate(seconds, COMMANDS) for seconds in found]


def read(both_ends):
    """The rates of a long reply read typed, and item by item."""
    found = [[], []]
    with repeated(both_ends, "typed") as typed, repeated(both_ends, "untyped") as untyped:
        for _ in range(ROUNDS // 4):
            for seconds, work in zip(found, (typed, untyped)):
                seconds.append(work(READS))
    return [rate(seconds, READS) for seconds in found]


def main():
    words = [os.path.abspath(word) for word in sys.argv[1:]]
    places = [os.path.join(ROOT, "crates", name, "out", name) for name in ("both_ends", "jdwp")]
    both_ends, program = [*words, *places[len(words) :]]
    print(f"{os.cpu_count()} processors, load {os.getloadavg()[0]:.1f}", flush=True)
    with tempfile.TemporaryDirectory() as folder:
        client = os.path.join(folder, "port_client")
        subprocess.run(["cc", "-O2", "-o", client, os.path.join(ROOT, "bench", "port_client.c")], check=True)
        script = os.path.join(folder, "stands.json")
        with open(script, "w", encoding="ascii") as file:
            json.dump(machine_that_stands(), file)
        ours, by_hand, by_c = asked(both_ends, program, client, script)
    print(f"one at a time: a client {ours:,.0f} commands a second, by hand {by_hand:,.0f}, in C {by_c:,.0f}")
    print(f"one at a time: {ours / by_hand:.2f} of the bare engine's rate (to reach: 0.9), {ours / by_c:.2f} of C's", flush=True)
    typed, untyped = read(both_ends)
    print(f"10,000 classes: typed {typed:,.1f} replies a second, item by item {untyped:,.1f}")
    print(f"10,000 classes: {typed / untyped:.2f} of the rate item by item (to reach: 0.5); load {os.getloadavg()[0]:.1f}")


if __name__ == "__main__":
    main()
