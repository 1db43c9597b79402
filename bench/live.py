#!/usr/bin/env python3
"""A live target at a port, as a debugger finds it: `serve-script --port 0 --live`, which tells its port on standard output.

A machine with a thread that moves in its method, 60,000 steps of it, is served with a millisecond between two steps. On 127.0.0.1:
- in a first session the thread runs while nothing is asked, stands from a Suspend on, and runs again behind a Resume; another debugger is refused meanwhile;
- a peer that says nothing is let go behind two seconds, and told;
- the processor's time that the target takes in ten seconds, with all threads suspended in a session, and with nobody there. To reach: none;
- 10,000 sessions one after the other (handshake, IDSizes, AllThreads, Suspend, SuspendCount, Dispose), and the peak of its memory behind the first 1,000 of them and behind all. To
  reach: no growth.

Prints a line for each, and the status is 1 where one is not as it has to be.

    bench/live.py [PROGRAM]

PROGRAM is crates/jdwp/out/jdwp where none is given; `rt run` in crates/jdwp builds it.
"""

import contextlib
import json
import os
import socket
import struct
import subprocess
import sys
import tempfile
import time

ROOT = os.path.dirname(os.path.dirname(os.path.abspath(__file__)))
EXAMPLE = os.path.join(ROOT, "examples", "A.json")
HANDSHAKE = b"JDWP-Handshake"
LISTENING = b"Listening for transport dt_socket at address: "
PATIENCE = 30
STEPS = 60_000
IDLE = 10
SESSIONS = 10_000
FIRST = 1_000
THREAD = struct.pack(">Q", 1)


def machine():
    """The script of the example, whose first thread moves in its method for a long time, from each place to the next."""
    with open(EXAMPLE, encoding="utf-8") as it:
        script = json.load(it)
    script["classes"][0]["methods"][0]["last"] = STEPS
    script["threads"][0]["steps"] = [["call", 30, 10, 20, 0, []]] + [["go", place] for place in range(1, STEPS)]
    return script


class Target:
    """A live target within a block, which is ended behind it."""

    def __init__(self, program, script):
        words = [program, "serve-script", script, "--port", "0", "--live", "--pace", "1", "--start", "none"]
        self.process = subprocess.Popen(words, stdin=subprocess.DEVNULL, stdout=subprocess.PIPE, stderr=subprocess.PIPE)
        line = self.process.stdout.readline()
        if not line.startswith(LISTENING):
            self.process.kill()
            sys.exit(f"it does not listen: {line!r} {self.process.stderr.read()!r}")
        self.port = int(line[len(LISTENING):])

    def __enter__(self):
        return self

    def __exit__(self, *_):
        self.process.kill()
        self.process.communicate()

    def ticks(self):
        """The processor's time that it took, its own and the system's, in ticks of the system's clock."""
        with open(f"/proc/{self.process.pid}/stat", encoding="ascii") as it:
            fields = it.read().rpartition(")")[2].split()
        return int(fields[11]) + int(fields[12])

    def peak(self):
        """The peak of its memory so far, in KiB."""
        with open(f"/proc/{self.process.pid}/status", encoding="ascii") as it:
            return next(int(line.split()[1]) for line in it if line.startswith("VmHWM:"))


def connection(port):
    """A connection to the port, which is not listened on for a moment behind each session."""
    until = time.monotonic() + PATIENCE
    while True:
        try:
            return socket.create_connection(("127.0.0.1", port), PATIENCE)
        except ConnectionRefusedError:
            if time.monotonic() > until:
                raise
            time.sleep(0.001)


class Debugger:
    """A session. Composites that come are passed over."""

    def __init__(self, port):
        self.socket = connection(port)
        self.socket.setsockopt(socket.IPPROTO_TCP, socket.TCP_NODELAY, 1)
        self.stream = self.socket.makefile("rb")
        self.number = 0
        self.socket.sendall(HANDSHAKE)
        if self.read(len(HANDSHAKE)) != HANDSHAKE:
            sys.exit("another handshake")

    def __enter__(self):
        return self

    def __exit__(self, *_):
        self.stream.close()
        self.socket.close()

    def read(self, count):
        data = self.stream.read(count)
        if len(data) < count:
            sys.exit("the target closed the connection")
        return data

    def ask(self, command_set, command, data=b""):
        """The data of the reply."""
        self.number += 1
        self.socket.sendall(struct.pack(">IIBBB", 11 + len(data), self.number, 0, command_set, command) + data)
        while True:
            length, number, flags, error = struct.unpack(">IIBH", self.read(11))
            answer = self.read(length - 11)
            if flags != 0x80:
                continue
            if number != self.number or error != 0:
                sys.exit(f"command {command_set} {command}: reply {number}, error {error}")
            return answer

    def suspend(self):
        self.ask(1, 8)

    def resume(self):
        self.ask(1, 9)

    def count(self):
        return struct.unpack(">I", self.ask(11, 12, THREAD))[0]

    def place(self):
        """Where the thread stands in its method; it is suspended."""
        frames = self.ask(11, 6, THREAD + struct.pack(">ii", 0, 1))
        return struct.unpack(">Q", frames[-8:])[0]

    def dispose(self):
        self.ask(1, 6)


def is_refused(port):
    try:
        socket.create_connection(("127.0.0.1", port), PATIENCE).close()
        return False
    except ConnectionRefusedError:
        return True


def runs_and_stands(target):
    """Whether the thread runs, stands behind a Suspend, and runs again behind a Resume, and another debugger is refused."""
    with Debugger(target.port) as it:
        time.sleep(0.1)
        free = it.count()
        it.suspend()
        first = it.place()
        time.sleep(0.1)
        second = it.place()
        held = it.count()
        alone = is_refused(target.port)
        it.resume()
        time.sleep(0.1)
        it.suspend()
        third = it.place()
        it.dispose()
    return (free, held) == (0, 1) and 0 < first == second < third and alone


def lets_go(target):
    """How long a peer that says nothing is waited for, and what is told."""
    with connection(target.port) as it:
        begun = time.monotonic()
        it.recv(1)
        waited = time.monotonic() - begun
    return waited, target.process.stderr.readline()


def idle_ticks(target):
    before = target.ticks()
    time.sleep(IDLE)
    return target.ticks() - before


def session(port):
    with Debugger(port) as it:
        sizes = it.ask(1, 7)
        threads = it.ask(1, 4)
        it.suspend()
        count = it.count()
        it.dispose()
    return sizes == struct.pack(">5I", 8, 8, 8, 8, 8) and threads.endswith(THREAD) and count == 1


def told(what, found, is_good):
    print(f"{what}: {found}{'' if is_good else ' - NOT AS IT HAS TO BE'}", flush=True)
    return is_good


def main():
    program = sys.argv[1] if len(sys.argv) > 1 else os.path.join(ROOT, "crates", "jdwp", "out", "jdwp")
    good = []
    with contextlib.ExitStack() as held:
        script = held.enter_context(tempfile.NamedTemporaryFile("w", suffix=".json", encoding="utf-8"))
        json.dump(machine(), script)
        script.flush()
        target = held.enter_context(Target(program, script.name))
        good.append(told("runs, stands and runs, alone", *[runs_and_stands(target)] * 2))
        waited, line = lets_go(target)
        good.append(told("a silent peer", f"{waited:.2f} s, {line!r}", 1.9 < waited < 3 and b"no handshake came" in line))
        with Debugger(target.port) as it:
            it.suspend()
            it.count()
            ticks = idle_ticks(target)
            it.dispose()
        good.append(told(f"ticks in {IDLE} s, all suspended", ticks, ticks == 0))
        ticks = idle_ticks(target)
        good.append(told(f"ticks in {IDLE} s, nobody there", ticks, ticks == 0))
        begun = time.monotonic()
        answered = sum(session(target.port) for _ in range(FIRST))
        before = target.peak()
        answered += sum(session(target.port) for _ in range(SESSIONS - FIRST))
        seconds = time.monotonic() - begun
        good.append(told("sessions", f"{answered} of {SESSIONS} in {seconds:.1f} s", answered == SESSIONS))
        good.append(told("memory", f"{before} KiB, {target.peak()} KiB", target.peak() <= before))
    return 0 if all(good) else 1


if __name__ == "__main__":
    sys.exit(main())
