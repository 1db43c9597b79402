#!/usr/bin/env python3
"""Builds the archive of crates/milunovesk_c over the libraries that `rt ci` proved and left in the crates' out/. `rt lib` would prove these anew, and
`rt ci` itself proves the crate and builds no archive. So this calls what `rt lib` calls last.

    archive.py [--during SAID]

Beside a run whose words go to the file SAID, it first waits until each of these libraries is proved, or the run has ended. It ends with 3 where one
of them is not there.
"""

import importlib.machinery
import importlib.util
import os
import re
import shutil
import sys
import time

ROOT = os.path.dirname(os.path.dirname(os.path.abspath(__file__)))
CRATE = f"{ROOT}/crates/milunovesk_c"
PROVED = re.compile(r"rt: (\w+) (?:proved$|is kept: )", re.M)
ENDED = re.compile(r"^\d+ passed, \d+ failed$", re.M)


def kit_library():
    """The part of the kit that `rt` itself stands on."""
    path = f"{os.path.dirname(os.path.realpath(shutil.which('rt')))}/rtlib.py"
    loader = importlib.machinery.SourceFileLoader("rtlib", path)
    made = sys.modules["rtlib"] = importlib.util.module_from_spec(importlib.util.spec_from_loader("rtlib", loader))
    sys.dont_write_bytecode = True
    loader.exec_module(made)
    return made


def yield_memory():
    """Where memory runs out, the system ends this before the run that it goes on beside."""
    with open("/proc/self/oom_score_adj", "w", encoding="utf-8") as it:
        it.write("1000")


def wait(names, said):
    """Waits until a run that says so much in this file has proved all of these, or has ended."""
    told = ""
    while not (names <= {*PROVED.findall(told)} or ENDED.search(told)):
        time.sleep(5)
        with open(said, encoding="utf-8", errors="replace") as it:
            told = it.read()


def main():
    said = os.path.abspath(sys.argv[2]) if sys.argv[1:2] == ["--during"] else None
    os.chdir(CRATE)
    crate = kit_library().Crate(CRATE, ROOT, {}, name="milunovesk_c")
    if said:
        wait({it.name for it in crate.below()}, said)
        yield_memory()
    lacking = [it.name for it in crate.below() if not os.path.isdir(it.rlib)]
    if lacking:
        print(f"archive.py: {lacking[0]} is not built: run rt ci in a fresh clone first, or rt lib in {CRATE}", file=sys.stderr)
        sys.exit(3)
    os.makedirs("out", exist_ok=True)
    sys.exit(1 if crate.build_static([]) else 0)


if __name__ == "__main__":
    main()
