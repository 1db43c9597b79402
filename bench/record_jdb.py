#!/usr/bin/env python3
"""Records sessions of a real jdb at a real Java machine, for bench/replay.py.

Each session runs `Counting.java` and gives jdb a list of commands that a seed chooses: stop, clear, cont, suspend and resume of all and
of a thread, step, next, where, locals, print (with invocations of methods), dump, threads, catch, and exit at the end; some at once
behind one another, others after a while. What goes to and fro is written by bench/relay.py.

    bench/record_jdb.py [--sessions N] [--commands C] [--seed K] FOLDER

22 sessions of 60 commands where none are given; the captures are FOLDER/jdb-SEED.capture. A JDK is needed, and no library.
"""

import argparse
import os
import random
import re
import subprocess
import sys
import tempfile
import threading
import time

sys.dont_write_bytecode = True  # no folder of them beside the scripts

import jvm
from examples import free_port, is_listening

RELAY = os.path.join(jvm.ROOT, "bench", "relay.py")
PATIENCE = 10  # seconds
THREAD = re.compile(r"\)(0x[0-9a-f]+|\d+)\s+(?:counter|main)\b")
METHODS = ("first", "second", "third", "throwsOne")


class Terminal:
    """A jdb whose output is read as it comes."""

    def __init__(self, port):
        words = [jvm.tool("jdb"), "-sourcepath", os.path.join(jvm.ROOT, "bench"), "-attach", f"127.0.0.1:{port}"]
        self.ran = subprocess.Popen(words, stdin=subprocess.PIPE, stdout=subprocess.PIPE, stderr=subprocess.STDOUT, text=True)
        self.said = []
        self.reader = threading.Thread(target=lambda: self.said.extend(iter(lambda: self.ran.stdout.read(1), "")), daemon=True)
        self.reader.start()

    def say(self, line):
        try:
            self.ran.stdin.write(line + "\n")
            self.ran.stdin.flush()
        except BrokenPipeError:
            pass  # it has ended

    def threads(self):
        return THREAD.findall("".join(self.said))

    def end(self):
        self.say("exit")
        try:
            self.ran.wait(PATIENCE)
        except subprocess.TimeoutExpired:
            self.ran.kill()
            self.ran.wait()
        self.ran.stdin.close()


def command(choose, terminal, lines):
    """A command of jdb at random."""
    thread = choose.choice(terminal.threads() or ["1"])
    place = f"Counting.{choose.choice(METHODS)}"
    ways = (
        (f"stop in {place}", 6),
        (f"stop at Counting:{choose.choice(lines)}", 4),
        (f"stop thread in {place}", 2),
        (f"clear {place}", 3),
        ("cont", 14),
        ("run", 1),
        ("suspend", 3),
        (f"suspend {thread}", 3),
        ("resume", 4),
        (f"resume {thread}", 4),
        ("step", 4),
        ("next", 4),
        ("step up", 2),
        ("where", 3),
        ("where all", 1),
        ("locals", 3),
        ("print Counting.passed", 2),
        ("print Counting.twice(21)", 3),
        ("print Counting.third(4)", 1),
        ("dump Counting.memory", 1),
        ("threads", 3),
        (f"thread {thread}", 2),
        ("catch java.lang.IllegalStateException", 1),
        ("ignore java.lang.IllegalStateException", 1),
    )
    return choose.choices([it for it, _ in ways], [weight for _, weight in ways])[0]


def record(classes, seed, commands, capture):
    choose, lines = random.Random(seed), jvm.lines_marked()
    with jvm.Machine(classes, seed, suspend=choose.random() < 0.7) as machine:
        port = free_port()
        relay = subprocess.Popen([sys.executable, RELAY, str(port), str(machine.port), capture])
        try:
            until = time.monotonic() + PATIENCE
            while not is_listening(port) and time.monotonic() < until:
                time.sleep(0.01)
            terminal = Terminal(port)
            time.sleep(1)  # it reads no command before it is attached
            for line in ["threads", f"stop in Counting.{choose.choice(METHODS)}", "cont"]:
                terminal.say(line)
                time.sleep(0.3)
            for _ in range(commands):
                terminal.say(command(choose, terminal, lines))
                time.sleep(choose.choice((0, 0, 0.01, 0.05, 0.2)))
            terminal.end()
            relay.wait(PATIENCE)
        finally:
            relay.kill()
            relay.wait()


def main():
    parser = argparse.ArgumentParser(description=__doc__.splitlines()[0])
    parser.add_argument("--sessions", type=int, default=22)
    parser.add_argument("--commands", type=int, default=60)
    parser.add_argument("--seed", type=int, default=1)
    parser.add_argument("folder")
    words = parser.parse_args()
    print(jvm.version())
    os.makedirs(words.folder, exist_ok=True)
    with tempfile.TemporaryDirectory() as classes:
        jvm.compiled(classes)
        for seed in range(words.seed, words.seed + words.sessions):
            capture = os.path.join(words.folder, f"jdb-{seed}.capture")
            record(classes, seed, words.commands, capture)
            print(f"{capture}: {os.path.getsize(capture)} bytes", flush=True)


if __name__ == "__main__":
    main()
