#!/usr/bin/env python3
"""How many instructions of the processor a command takes, which no other process on the machine disturbs.

Runs SuspendCount commands of a thread under valgrind (callgrind), some and then twice as many, and prints the difference for each command: at a target (`serve-script` on a file,
and at a port, where one waits for its answer before the next, and where 256 do), and at both ends in one process (`both_ends`); what is between them is the debugger's. The
system's own instructions, which reading and writing take, are not among them.

    bench/instructions.py [JDWP BOTH_ENDS]

The programs are crates/jdwp/out/jdwp and crates/both_ends/out/both_ends where none are given; `rt run` in their folders builds them.
"""

import os
import re
import subprocess
import sys
import tempfile

sys.dont_write_bytecode = True  # no folder of them beside the scripts

import ports
import serve
from both_ends import AT_ONCE

FEW = 20 * AT_ONCE
# How many commands wait at a port, and how many are asked.
AT_A_PORT = {1: 2_000, 256: 25_600}


def instructions(words, folder):
    """How many a run takes; its own output is dropped."""
    valgrind = ["valgrind", "--tool=callgrind", f"--callgrind-out-file={folder}/callgrind", *words]
    ran = subprocess.run(valgrind, stdout=subprocess.DEVNULL, stderr=subprocess.PIPE, text=True)
    found = re.search(r"Collected : (\d+)", ran.stderr)
    if ran.returncode != 0 or not found:
        sys.exit(f"{words[0]}: {ran.stderr[-400:]}")
    return int(found[1])


def served(program, folder, commands):
    given = f"{folder}/from"
    with open(given, "wb") as file:
        file.write(serve.session(commands))
    words, made = serve.words_of(program, folder, given, commands)
    count = instructions(words, folder)
    serve.check(made, commands)
    return count


def at_port(program, folder, client, commands, at_once):
    """How many instructions `serve-script` takes to serve one debugger that asks so many commands, of which so many wait."""
    counts = f"{folder}/port"
    small = os.path.join(serve.ROOT, "examples", "A.json")
    words = ["valgrind", "--tool=callgrind", f"--callgrind-out-file={counts}", program, "serve-script", small, "--start", "none", "--turns", str(ports.TURNS)]
    with ports.Serving(words, lambda port: ["--port", str(port)]) as target:
        with ports.debugger(client, target.port, "target") as ask:
            ask(commands, at_once)
    with open(counts, encoding="utf-8") as file:
        return int(re.search(r"^(?:summary|totals): (\d+)", file.read(), re.M)[1])


def main():
    jdwp, both_ends = sys.argv[1:] or [f"{serve.ROOT}/crates/jdwp/out/jdwp", f"{serve.ROOT}/crates/both_ends/out/both_ends"]
    with tempfile.TemporaryDirectory() as folder:
        target = (served(jdwp, folder, 2 * FEW) - served(jdwp, folder, FEW)) / FEW
        rounds = FEW // AT_ONCE
        both = (instructions([both_ends, str(2 * rounds)], folder) - instructions([both_ends, str(rounds)], folder)) / FEW
        client = ports.built(folder)["port_client"]
        for at_once, count in AT_A_PORT.items():
            found = [at_port(jdwp, folder, client, times * count, at_once) for times in (1, 2)]
            print(f"a command at a port, {at_once} at once: {(found[1] - found[0]) / count:.0f} instructions at the target")
    print(f"a command: {target:.0f} instructions at the target, {both:.0f} at both ends")


if __name__ == "__main__":
    main()
