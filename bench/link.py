#!/usr/bin/env python3
"""How much slower a link is than the two ends of which it is made.

Runs `both_ends`, whose debugger asks the suspend count of a thread, 64 commands at a time: by hand, with a call of an end for each thing that happens, and by `Link::run`, with
an event for each. Prints, each the best of five runs by the processor's time, one way in turn with the other, commands asked and answered in a second and the peak of memory,
for a hundred thousand and a million of them, and how much of the bare ends' speed the link reaches. To reach: 0.7 of it, and memory that does not grow.

    bench/link.py [PROGRAM]

PROGRAM is crates/both_ends/out/both_ends where none is given; `rt run` in crates/both_ends builds it.
"""

import sys

sys.dont_write_bytecode = True  # no folder of them beside the scripts

from both_ends import AT_ONCE, program, run, told

RUNS = 5


def main():
    for count in (100_000, 1_000_000):
        rounds = -(-count // AT_ONCE)
        by_hand, by_link = [], []
        for _ in range(RUNS):
            by_hand.append(run(program(), [], rounds))
            by_link.append(run(program(), ["link"], rounds))
        share = told("bare ends: ", by_hand, rounds) / told("link: ", by_link, rounds)
        print(f"the link reaches {share:.2f} of the bare ends' speed")


if __name__ == "__main__":
    main()
