#!/usr/bin/env python3
"""Hands on what the gate prints, line by line, and tells behind it what is looked for first.

    rt ci | bench/gate_report.py

Of each crate that was not proved, the lines that say why; and `minutes: NAME 3.1 proof, 7.4 tests, 9.0 edits`: when a crate was proved, its tests were, and its edits began, by the clock, from the beginning, in the order of
the proofs. The gate's last line comes once more, so that it is the last.
"""

import re
import sys
import time

KINDS = [
    ("proof", re.compile(r"rt: (\w+) proved$")),
    ("tests", re.compile(r"rt: (\w+): its tests are proved$")),
    ("edits", re.compile(r"rt: (\w+): trying its must-fail edits")),
]
WHY = re.compile(r"error|warning: no call|not proved|no proof|could not tell|rattle: no verdict|^rt: |^logic=")
MOST = 40


def main():
    # what is not UTF-8 goes on as it is
    for stream in (sys.stdin, sys.stdout):
        stream.reconfigure(encoding="utf-8", errors="surrogateescape")
    begin = time.monotonic()
    told, block, failed, last = {}, [], [], ""
    for line in sys.stdin:
        print(line, end="", flush=True)
        last = line
        block = [] if line.startswith("== ") else block
        block.append(line)
        if line.rstrip().endswith("NOT PROVED"):
            failed += [it[:400] for it in block if WHY.search(it)][-MOST:]
        for kind, form in KINDS:
            found = form.match(line)
            if found:
                told.setdefault(found[1], {})[kind] = (time.monotonic() - begin) / 60
    for it in failed:
        print(f"why: {it.rstrip()}")
    for name, minutes in told.items():
        print(f"minutes: {name} {', '.join(f'{at:.1f} {kind}' for kind, at in minutes.items())}")
    print(f"minutes: {(time.monotonic() - begin) / 60:.1f} in all")
    print(last, end="", flush=True)


if __name__ == "__main__":
    main()
