#!/usr/bin/env python3
"""How many commands a debugger and a target ask and answer in a second, both in one process, with no input or output between them.

Runs `both_ends`, whose debugger asks the suspend count of a thread, 64 commands at a time, and prints, each the best of three runs by the processor's time, commands asked and
answered in a second and the peak of memory, for a hundred thousand and a million of them. To reach: above 2 million a second, and memory that does not grow.

    bench/both_ends.py [PROGRAM]

PROGRAM is crates/both_ends/out/both_ends where none is given; `rt run` in crates/both_ends builds it.
"""

import os
import subprocess
import sys
import time

ROOT = os.path.dirname(os.path.dirname(os.path.abspath(__file__)))
AT_ONCE = 64


def peak_so_far(process):
    """The peak of a process's memory so far, in KiB; 0 once it has ended. Its ru_maxrss would count this script's own memory, too."""
    with open(f"/proc/{process.pid}/status", encoding="ascii") as status:
        return next((int(line.split()[1]) for line in status if line.startswith("VmHWM:")), 0)


def run(program, words, rounds):
    """The processor's seconds of a run, and the peak of memory in KiB, looked at every few milliseconds."""
    process = subprocess.Popen([program, *words, str(rounds)], stdout=subprocess.PIPE)
    peak, ended = 0, 0
    while not ended:
        peak = max(peak, peak_so_far(process))
        time.sleep(0.003)
        ended, status, usage = os.wait4(process.pid, os.WNOHANG)
    said = process.stdout.read()
    if os.waitstatus_to_exitcode(status) != 0 or said != b"%d answered\n" % (rounds * AT_ONCE):
        sys.exit(f"not all was answered: {said}")
    return usage.ru_utime + usage.ru_stime, peak


def told(way, runs, rounds):
    """Prints the best of some runs, and answers its seconds."""
    seconds, peak = min(it[0] for it in runs), max(it[1] for it in runs)
    asked = rounds * AT_ONCE
    print(f"{way}{asked} commands in {seconds:.3f} s: {asked / seconds / 1e6:.2f} million a second; peak of memory {peak} KiB")
    return seconds


def program():
    return os.path.abspath(sys.argv[1] if len(sys.argv) > 1 else os.path.join(ROOT, "crates", "both_ends", "out", "both_ends"))


def main():
    for count in (100_000, 1_000_000):
        rounds = -(-count // AT_ONCE)
        told("", [run(program(), [], rounds) for _ in range(3)], rounds)


if __name__ == "__main__":
    main()
