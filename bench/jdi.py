#!/usr/bin/env python3
"""A real jdb and a debugger over JDI at `serve-script --live --profile jdi`: what both print, but for ids, is what stands here.

    bench/jdi.py [--keep FOLDER] [--program PROGRAM]

jdb is given the commands of JDB below, one behind the other, each once the prompt is there again; `bench/JdiSteps.java` does what an IDE
does first, a line for each thing. Both are at the machine of examples/debug.json, each through `jdwp record`, and `jdwp check` is to judge what it
wrote: yes. With --keep what they printed, and the captures, are written to FOLDER. A
JDK is needed (Debian: openjdk-17-jdk-headless), and the program (crates/jdwp/out/jdwp where none is named). Ends with status 1 where
anything is printed otherwise, which is told.
"""

import argparse
import difflib
import os
import re
import subprocess
import sys
import tempfile
import threading
import time

sys.dont_write_bytecode = True  # no folder of them beside the scripts

import jvm
from examples import free_port, is_listening

MACHINE = os.path.join(jvm.ROOT, "examples", "debug.json")
PATIENCE = 15  # seconds
PROMPT = re.compile(r"(?:^|\n)(?:(?:>|[\w-]+\[\d+\]) )+$")  # jdb may print it twice
IDS = ((re.compile(r"0x[0-9a-f]+"), "#"), (re.compile(r"(?<=\))\d+"), "#"), (re.compile(r"\(id=\d+\)"), "(id=#)"), (re.compile(r"instance of ([\w.\[\]]+) ?\(id=#\)"), r"instance of \1(id=#)"))

# what is said to jdb, and a text that it then prints, among others
JDB = (
    ("threads", "main"),
    ("threadgroups", "system"),
    ("classes", "Counter"),
    ("methods Counter", "add(int)"),
    ("fields Counter", "label"),
    ("stop at Main:5", "Set breakpoint Main:5"),
    ("stop in Counter.add", "Set breakpoint Counter.add"),
    ("run", "Breakpoint hit"),
    ("where", "Main.main (Main.java:5)"),
    ("where all", "main:"),
    ("locals", 'greeting = "hello"'),
    ("print greeting", 'greeting = "hello"'),
    ("dump counter", 'label: "the counter"'),
    ("print counter", 'counter = "the counter"'),
    ("print counter.sum()", "counter.sum() = 6"),
    ('set greeting = "good day"', 'greeting = "good day" = "good day"'),
    ("print greeting", 'greeting = "good day"'),
    ("cont", "Breakpoint hit"),
    ("where", "Counter.add (Counter.java:11)"),
    ("locals", "by = 2"),
    ("print this.label", 'this.label = "the counter"'),
    ("dump this", "made: 1"),
    ("print by", "by = 2"),
    ("set by = 7", "by = 7 = 7"),
    ("print by", "by = 7"),
    ("step", "Step completed"),
    ("next", "Step completed"),
    ("step up", "Step completed"),
    ("suspend 0xb", ""),
    ("resume 0xb", ""),
    ("catch Overflow", "Set all Overflow"),
    ("cont", "Exception occurred: Overflow"),
    ("where", "Main.main (Main.java:7)"),
    ("ignore Overflow", "Removed: all Overflow"),
    ("clear", "breakpoint Main:5"),
    ("clear Main:5", "Removed: breakpoint Main:5"),
    ("next", "Step completed"),
)

# what JdiSteps prints
STEPS = (
    "name: debug",
    "threads: main/main/suspended worker/main/suspended",
    "class of a thread: java.lang.Thread",
    "class of a group: java.lang.ThreadGroup",
    "groups: main",
    "modules: 1",
    "module of a class: null",
    "methods: add(int) toString() sum()",
    "fields: made label steps",
    "class loader: null",
    "lines of 5: Main:5",
    "class unload: asked",
    "class path: []",
    "breakpoint: Main:5",
    "frames: Main:5",
    'locals: greeting="hello" counter=instance of Counter',
    'invoked: "the counter"',
    'string: "a text"',
    "suspended: true",
    "monitors: []",
    "step: Main:6",
    "set: 6",
    "exception: Overflow",
    "dispose: done",
)


def without_ids(text):
    for what, instead in IDS:
        text = what.sub(instead, text)
    return text


class Server:
    """The program, at a free port."""

    def __init__(self, program, port):
        self.port = port
        self.ran = subprocess.Popen([program, "serve-script", MACHINE, "--port", str(port), "--live", "--profile", "jdi"],
                                    stdout=subprocess.PIPE, stderr=subprocess.STDOUT, text=True)
        end = time.time() + PATIENCE
        while not is_listening(port) and time.time() < end:
            time.sleep(0.05)

    def end(self):
        self.ran.terminate()
        return self.ran.communicate(timeout=PATIENCE)[0]


class Recorder:
    """`jdwp record` before a port, for one session."""

    def __init__(self, program, port, file):
        self.program, self.file, self.port = program, file, free_port()
        self.ran = subprocess.Popen([program, "record", "--listen", str(self.port), "--port", str(port), "--to", file, "--once"],
                                    stdout=subprocess.PIPE, stderr=subprocess.STDOUT, text=True)
        end = time.time() + PATIENCE
        while not is_listening(self.port) and time.time() < end:
            time.sleep(0.05)

    def judged(self):
        """The verdict on what was recorded."""
        try:
            self.ran.communicate(timeout=PATIENCE)
        except subprocess.TimeoutExpired:
            self.ran.kill()
            return "the recorder did not end"
        return subprocess.run([self.program, "check", self.file], capture_output=True, text=True).stdout.strip()


class Jdb:
    """A jdb whose output is read as it comes."""

    def __init__(self, port):
        words = [jvm.tool("jdb"), "-attach", f"127.0.0.1:{port}"]
        self.ran = subprocess.Popen(words, stdin=subprocess.PIPE, stdout=subprocess.PIPE, stderr=subprocess.STDOUT, text=True)
        self.said = []
        threading.Thread(target=lambda: self.said.extend(iter(lambda: self.ran.stdout.read(1), "")), daemon=True).start()

    def text(self, since=0):
        return "".join(self.said[since:])

    def waits_for(self, wanted, since):
        """Whether this is printed, and then a prompt, in time."""
        end = time.time() + PATIENCE
        while time.time() < end:
            text = self.text(since)
            if wanted in without_ids(text) and PROMPT.search(text):
                return True
            if self.ran.poll() is not None:
                break
            time.sleep(0.05)
        return False

    def asks(self, command, wanted):
        since = len(self.said)
        self.ran.stdin.write(command + "\n")
        self.ran.stdin.flush()
        return self.waits_for(wanted, since)

    def end(self):
        try:
            self.ran.stdin.write("exit\n")
            self.ran.stdin.flush()
            self.ran.wait(PATIENCE)
        except (BrokenPipeError, subprocess.TimeoutExpired):
            self.ran.kill()
            self.ran.wait()


def run_jdb(port, keep):
    """What jdb did not print."""
    jdb = Jdb(port)
    wrong = []
    if not jdb.waits_for("", 0):
        wrong.append("jdb gives no prompt")
    for command, wanted in JDB:
        if not jdb.asks(command, wanted):
            wrong.append(f"jdb: `{command}` prints no `{wanted}`")
            if jdb.ran.poll() is not None:
                break
    jdb.end()
    kept(keep, "jdb.txt", without_ids(jdb.text()))
    return wrong


def run_steps(port, keep):
    """Where JdiSteps prints otherwise."""
    with tempfile.TemporaryDirectory() as folder:
        source = os.path.join(jvm.ROOT, "bench", "JdiSteps.java")
        subprocess.run([jvm.tool("javac"), "--add-modules", "jdk.jdi", "-d", folder, source], check=True)
        ran = subprocess.run([jvm.tool("java"), "--add-modules", "jdk.jdi", "-cp", folder, "JdiSteps", str(port)],
                             capture_output=True, text=True, timeout=PATIENCE * 4)
    printed = without_ids(ran.stdout + ran.stderr)
    kept(keep, "steps.txt", printed)
    return list(difflib.unified_diff(STEPS, printed.splitlines(), "wanted", "printed", lineterm=""))


def kept(folder, name, text):
    if folder is not None:
        os.makedirs(folder, exist_ok=True)
        with open(os.path.join(folder, name), "w", encoding="utf-8") as file:
            file.write(text)


def main():
    words = argparse.ArgumentParser(description=__doc__, formatter_class=argparse.RawDescriptionHelpFormatter)
    words.add_argument("--keep")
    words.add_argument("--program", default=os.path.join(jvm.ROOT, "crates", "jdwp", "out", "jdwp"))
    words = words.parse_args()
    wrong = []
    for run in (run_jdb, run_steps):
        with tempfile.TemporaryDirectory() as folder:
            server = Server(words.program, free_port())
            recorder = Recorder(words.program, server.port, os.path.join(folder, "session.capture"))
            try:
                wrong += run(recorder.port, words.keep)
                judged = recorder.judged()
                if judged != "yes":
                    wrong.append(f"{run.__name__}: the capture is judged `{judged}`")
                with open(recorder.file, encoding="ascii") as capture:
                    kept(words.keep, f"{run.__name__}.capture", capture.read())
            finally:
                told = server.end()
                kept(words.keep, f"server_of_{run.__name__}.txt", told)
    for line in wrong:
        print(line)
    print("jdi: as it stands" if not wrong else f"jdi: {len(wrong)} lines otherwise")
    sys.exit(1 if wrong else 0)


if __name__ == "__main__":
    main()
