#!/usr/bin/env python3
"""The example debuggers, crates/line_debugger and crates/frames_at, at two targets at a port: the scripted machine of crates/line_debugger/data/adding.json, served live by
`serve-script --live --port 0`, and a JVM that runs Adding.java, whose lines and variables are the same, where a JDK is there.

Each session gets the same command lines, and has to print the same: only ids of objects and the threads beside `main` may be others. Ten sessions are begun
at a JVM each, since its VM_START may come before or behind the first commands. Then `frames_at` stops at the first method of the class, in a session of its
own at each. Prints a line for each target, and the status is 1 where one is not as it has to be.

    bench/line_debugger.py [--no-java] [DEBUGGER] [FRAMES_AT] [PROGRAM]

With `--no-java` the JVM is left out: so the gate runs it.

DEBUGGER is crates/line_debugger/out/line_debugger, FRAMES_AT crates/frames_at/out/frames_at and PROGRAM crates/jdwp/out/jdwp where none is given; `rt run` in
those folders builds them.
"""

import os
import re
import shutil
import subprocess
import sys
import tempfile

sys.dont_write_bytecode = True  # no folder of them beside the scripts

ROOT = os.path.dirname(os.path.dirname(os.path.abspath(__file__)))
SCRIPT = os.path.join(ROOT, "crates", "line_debugger", "data", "adding.json")
JAVA = os.path.join(ROOT, "bench", "Adding.java")
PATIENCE = 30
SESSIONS = 10

# a command line, and what it prints; `#` stands for an id, and of the threads only the one named is looked at
LINES = [
    ("where", ["no thread has stopped: `stop at CLASS:LINE` and `cont` come first"]),
    ("stop at Adding", ["a place is a class and a line, as in: stop at Main:7"]),
    ("stop at Adding:11", ["  set at Adding:11"]),
    ("stop at Adding:99", ["no class of this name has code of line 99"]),
    ("cont", ["  Adding.main:11"]),
    ("where", ["  Adding.main:11"]),
    ("locals", ["  words = object #", "  total = -1", '  text = "so far"']),
    ("step", ["  Adding.more:4"]),
    ("where", ["  Adding.more:4", "  Adding.main:11"]),
    ("locals", ["  number = 7"]),
    ("next", ["  Adding.more:5"]),
    ("locals", ["  number = 7", "  sum = 8"]),
    ("next", ["  Adding.main:11"]),
    ("next", ["  Adding.main:12"]),
    ("threads", ["  main suspended"]),
    ("go on", ["stop at CLASS:LINE, cont, step, next, where, locals, threads, quit"]),
    ("cont", ["the session is over"]),
]


def printed(debugger, port):
    """What the debugger prints at a port, line by line."""
    asked = "".join(line + "\n" for line, _ in LINES)
    ran = subprocess.run([debugger, f"127.0.0.1:{port}"], input=asked, capture_output=True, text=True, timeout=PATIENCE, check=False)
    if ran.returncode != 0:
        sys.exit(f"status {ran.returncode}: {ran.stderr}")
    return ran.stdout.splitlines()


def is_thread(line):
    return re.fullmatch(r"  .* (suspended|runs)", line) is not None


def differences(lines):
    """What was printed and should not have been, beside what should have been."""
    wanted = [line for _, answers in LINES for line in answers]
    lines = [re.sub(r"object \d+", "object #", line) for line in lines if not is_thread(line) or line in wanted]
    return [] if lines == wanted else [f"printed {lines}", f"wanted  {wanted}"]


def frames(frames_at, port):
    """What `frames_at` prints at a port, and should not: it has to name the thread, that it is suspended, and one frame."""
    ran = subprocess.run([frames_at, f"127.0.0.1:{port}", "Adding"], capture_output=True, text=True, timeout=PATIENCE, check=False)
    is_fine = re.fullmatch(r"main is suspended: true\nAt \{ .* \}\n", ran.stdout)
    return [] if is_fine and ran.returncode == 0 else [f"status {ran.returncode}", ran.stdout, ran.stderr]


def judge(name, found):
    print(f"{name}: {'as it has to be' if not found else 'NOT as it has to be'}", *found, sep="\n  ", flush=True)
    return not found


class Served:
    """A process that listens at a port within a block, and is ended behind it."""

    def __init__(self, words):
        self.ran = subprocess.Popen(words, stdin=subprocess.DEVNULL, stdout=subprocess.PIPE, text=True)

    def __enter__(self):
        line = self.ran.stdout.readline()
        if not line.startswith("Listening for transport dt_socket at address: "):
            self.ran.kill()
            sys.exit(f"it does not listen: {line!r}")
        self.port = int(line.rpartition(" ")[2])
        return self

    def __exit__(self, *_):
        self.ran.kill()
        self.ran.communicate()


def main():
    words = [os.path.abspath(word) for word in sys.argv[1:] if word != "--no-java"]
    places = [os.path.join(ROOT, "crates", name, "out", name) for name in ("line_debugger", "frames_at", "jdwp")]
    debugger, frames_at, program = [*words, *places[len(words) :]]
    fine = True
    with Served([program, "serve-script", SCRIPT, "--port", "0", "--live"]) as target:
        fine &= judge("the scripted machine", differences(printed(debugger, target.port)))
    with Served([program, "serve-script", SCRIPT, "--port", "0", "--live"]) as target:
        fine &= judge("the scripted machine, frames", frames(frames_at, target.port))
    if "--no-java" in sys.argv or not shutil.which("javac"):
        print("the JVM is left out")
        sys.exit(not fine)
    with tempfile.TemporaryDirectory() as classes:
        subprocess.run(["javac", "-g", "-d", classes, JAVA], check=True)
        agent = "-agentlib:jdwp=transport=dt_socket,server=y,suspend=y,address=127.0.0.1:0"
        java = ["java", "-Xmx64m", "-XX:+UseSerialGC", agent, "-cp", classes, "Adding"]
        for session in range(SESSIONS):
            with Served(java) as target:
                fine &= judge(f"the JVM, session {session + 1}", differences(printed(debugger, target.port)))
        with Served(java) as target:
            fine &= judge("the JVM, frames", frames(frames_at, target.port))
    sys.exit(not fine)


if __name__ == "__main__":
    main()
