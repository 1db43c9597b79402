#!/usr/bin/env python3
"""A plan in words at a Java machine: `jdwp attach` runs Counting.plan at Counting.java (Debian: openjdk-17-jdk-headless).

A breakpoint with Count, a step over a call, and an exception that is caught, as examples/*.plan have them at scripts; the machine's ids are
bound by `let`.

    bench/jvm_plan.py [PROGRAM]

PROGRAM is crates/jdwp/out/jdwp where none is given. What the plan prints is printed, and then how many of its expectations were met. Ends with
status 1 where one was not, or the plan did not come to its end.
"""

import os
import subprocess
import sys
import tempfile
import xml.etree.ElementTree

sys.dont_write_bytecode = True  # no folder of them beside the scripts

import jvm

PLAN = os.path.join(jvm.ROOT, "bench", "Counting.plan")
SECONDS = 60  # for a run


def run(program, folder):
    """The status of a run of the plan, and its test cases, met or not."""
    cases = os.path.join(folder, "cases.xml")
    with jvm.Machine(folder, 1, True) as machine:
        words = [program, "attach", PLAN, "--order", "apart", "--port", str(machine.port), "--junit", cases]
        ran = subprocess.run(words, stdin=subprocess.DEVNULL, timeout=SECONDS, check=False)
    suite = xml.etree.ElementTree.parse(cases).getroot()
    return ran.returncode, [(it.get("name"), len(it) == 0) for it in suite]


def main():
    program = os.path.abspath(sys.argv[1] if len(sys.argv) > 1 else os.path.join(jvm.ROOT, "crates", "jdwp", "out", "jdwp"))
    with tempfile.TemporaryDirectory() as folder:
        jvm.compiled(folder)
        status, cases = run(program, folder)
    for name, is_met in cases:
        if not is_met:
            print(f"not met: {name}")
    met = sum(is_met for _, is_met in cases)
    print(f"{jvm.version()}: {met} of {len(cases)} expectations met, status {status}")
    return 0 if status == 0 and met == len(cases) else 1


if __name__ == "__main__":
    sys.exit(main())
