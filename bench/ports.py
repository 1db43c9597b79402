#!/usr/bin/env python3
"""How the program serves debuggers at a port of this machine, measured beside what a connection alone and a plain target do.

Runs `serve-script --port`, and debuggers and baselines that it builds (`cc` and `rustc` have to be there), on 127.0.0.1 alone, each end pinned to a processor of its own where there
are two and `taskset` is there. All of it is TCP_NODELAY. What is measured, in many short rounds at each, one in turn with the other, of which the fastest tenth
counts, so that other processes of the machine disturb both alike, and little:
- one at a time: a debugger (`port_client.c`) asks the suspend count of a thread and waits for the answer before it asks again; beside it, the same debugger at an echo that reads 19
  bytes and writes 15 (`port_echo.c`). To reach: 0.9 of the echo's rate; and the same at a live target, whose threads can't step;
- 256 at once: the same debugger, of whose commands 256 wait for their answers; beside it, a plain target that knows little more than that (`plain_target.rs`). To reach: 0.5 of
  its rate;
- memory: the peak of the target's memory in one session behind 100,000 commands, and behind as many more as make a million;
- sessions: the same, and how many files the target has open, behind 10,000 sessions at one port, when each of its rings was gone round once and so is in use as a whole, and behind as
  many more as make 20,000: in turn one that is disposed of, one that the debugger leaves behind the handshakes, one that begins with no handshake, and one that says nothing. The
  machine's threads can't step: each would start one too many. To reach: no growth in either.

A rate is by the clock; behind it stand the microseconds of processor time (with that of the system) that the end which serves took for a command, over all rounds. Each run is bounded, and
the machine that is served exits behind it.

    bench/ports.py [--long] [PROGRAM]

With `--long` the memory is looked at behind ten million commands and 100,000 sessions. PROGRAM is crates/jdwp/out/jdwp where none is given; `rt run` in crates/jdwp builds it.
"""

import contextlib
import json
import os
import shutil
import socket
import struct
import subprocess
import sys
import tempfile
import time

ROOT = os.path.dirname(os.path.dirname(os.path.abspath(__file__)))
HANDSHAKE = b"JDWP-Handshake"
NO_HANDSHAKE = b"JDWP-HandshakE"
LISTENS = "0A"
PATIENCE = 60
TURNS = 4_000_000_000
THREADS = 64


def pinned(place):
    """The words that pin a command to a processor, one for each end."""
    processors = sorted(os.sched_getaffinity(0))
    if len(processors) < 2 or not shutil.which("taskset"):
        return []
    return ["taskset", "-c", str(processors[place])]


def free_port():
    with socket.socket() as it:
        it.bind(("127.0.0.1", 0))
        return it.getsockname()[1]


def is_listening(port):
    """Whether somebody listens at a port of 127.0.0.1: no connection is made, which would be a session."""
    with open("/proc/net/tcp", encoding="ascii") as table:
        return any(line.split()[1:4:2] == [f"0100007F:{port:04X}", LISTENS] for line in table)


class Serving:
    """A process that listens at a port of its own within a block, and has to end by itself behind it, with status 0: then it has the processor's seconds that it took."""

    def __init__(self, words, of_port):
        self.port = free_port()
        self.words = [*pinned(0), *words, *of_port(self.port)]
        self.seconds = 0.0

    def __enter__(self):
        self.process = subprocess.Popen(self.words, stdout=subprocess.DEVNULL, stderr=subprocess.DEVNULL)
        until = time.monotonic() + PATIENCE
        while not is_listening(self.port):
            if self.process.poll() is not None or time.monotonic() > until:
                self.stop()
                sys.exit(f"nobody listens: {self.words}")
            time.sleep(0.01)
        return self

    def stop(self):
        self.process.kill()
        self.process.wait()

    def __exit__(self, kind, *_):
        ended, until = 0, time.monotonic() + PATIENCE
        while kind is None and not ended and time.monotonic() < until:
            ended, status, usage = os.wait4(self.process.pid, os.WNOHANG)
            time.sleep(0.005)
        if not ended:
            self.stop()
            if kind is None:
                sys.exit(f"it did not end: {self.words}")
            return
        self.process.returncode = os.waitstatus_to_exitcode(status)
        self.seconds = usage.ru_utime + usage.ru_stime
        if self.process.returncode != 0:
            sys.exit(f"status {self.process.returncode}: {self.words}")

    def peak(self):
        """The peak of its memory so far, in KiB."""
        with open(f"/proc/{self.process.pid}/status", encoding="ascii") as status:
            return next(int(line.split()[1]) for line in status if line.startswith("VmHWM:"))

    def files(self, wanted=0):
        """How many files it has open. Where more than are wanted are, it is looked again for a second: the last connection may not be closed yet."""
        until = time.monotonic() + 1
        while (found := len(os.listdir(f"/proc/{self.process.pid}/fd"))) > wanted and time.monotonic() < until:
            time.sleep(0.01)
        return found


def target(program, machine):
    return Serving([program, "serve-script", machine, "--start", "none", "--turns", str(TURNS)], lambda port: ["--port", str(port)])


def live_target(program, machine):
    return Serving([program, "serve-script", machine, "--start", "none", "--live"], lambda port: ["--port", str(port)])


def baseline(program):
    return Serving([program], lambda port: [str(port)])


@contextlib.contextmanager
def debugger(client, port, way):
    """A debugger that asks at a port: a call has it ask so many commands, so many of them at once, and answers the seconds."""
    process = subprocess.Popen([*pinned(1), client, str(port), way], stdin=subprocess.PIPE, stdout=subprocess.PIPE, text=True)

    def ask(commands, at_once):
        process.stdin.write(f"{commands} {at_once}\n")
        process.stdin.flush()
        said = process.stdout.readline()
        if not said:
            sys.exit("the debugger was not answered")
        return float(said)

    try:
        yield ask
        process.stdin.close()
        if process.wait(PATIENCE) != 0:
            sys.exit("the debugger's session ended otherwise")
    finally:
        if process.poll() is None:
            process.kill()
            process.wait()
        process.stdout.close()


def told(name, seconds, commands, serving):
    """Prints the rate of the fastest tenth of some rounds of so many commands each, and answers it."""
    fastest = sorted(seconds)[: len(seconds) // 10]
    rate = commands * len(fastest) / sum(fastest)
    busy = serving.seconds / len(seconds) / commands
    print(f"{name}: {rate:,.0f} commands a second, {busy * 1e6:.2f} µs of processor time each", flush=True)
    return rate


def compare(name, rounds, commands, at_once, client, ours, baseline, way):
    """Asks the program and a baseline in turn, so many rounds of so many commands at each, prints both, and answers the share."""
    here, there = [], []
    with ours, baseline:
        with debugger(client, ours.port, "target") as ask_ours, debugger(client, baseline.port, way) as ask_baseline:
            for _ in range(rounds):
                there.append(ask_baseline(commands, at_once))
                here.append(ask_ours(commands, at_once))
    return told(f"{name}, the program", here, commands, ours) / told(f"{name}, the baseline", there, commands, baseline)


def memory_of_commands(serving, client, counts):
    """The peak of memory in one session behind each of these numbers of commands."""
    with serving:
        with debugger(client, serving.port, "target") as ask:
            asked, peaks = 0, []
            for count in counts:
                ask(count - asked, 256)
                asked = count
                peaks.append(serving.peak())
                print(f"memory: {count:,} commands in one session: peak {peaks[-1]} KiB", flush=True)
    print(f"memory: {peaks[-1] - peaks[0]} KiB more behind {counts[-1]:,} commands than behind {counts[0]:,} (to reach: 0)", flush=True)


def machine_that_stands():
    """A script of as many threads as may live, of which each would start another: none of them can step, so the machine lives as long as debuggers come."""
    starts = [{"id": 1 + i, "name": f"t{i}", "group": 1_001, "steps": [["start", 1 + THREADS + i]]} for i in range(THREADS)]
    others = [{"id": 1 + THREADS + i, "name": f"u{i}", "group": 1_001, "steps": []} for i in range(THREADS)]
    groups = [{"id": 1_001, "name": "main", "parent": 0}]
    return {"name": "stands", "sizes": [8, 8, 8, 8, 8], "groups": groups, "classes": [], "objects": [], "threads": starts + others}


def command(number, command_set, command_number, data=b""):
    return struct.pack(">IIBBB", 11 + len(data), number, 0, command_set, command_number) + data


def reply(number, data=b""):
    return struct.pack(">IIBH", 11 + len(data), number, 0x80, 0) + data


VM_START = struct.pack(">IIBBBBIBIQ", 29, 1, 0, 64, 100, 0, 1, 90, 0, 1)
SUSPEND_COUNT = command(1, 11, 12, struct.pack(">Q", 1))
DISPOSE, EXIT = command(2, 1, 6), command(2, 1, 10, bytes(4))
VM_DEATH = struct.pack(">IIBBBBIBI", 21, 2, 0, 64, 100, 0, 1, 99, 0)
COUNTED = reply(1, bytes(4))


def session(port, sent, want, is_ended):
    """One session at a port: what is sent at once, all that has to come, and whether the target ends it, which the debugger waits for."""
    with socket.create_connection(("127.0.0.1", port), PATIENCE) as it:
        it.setsockopt(socket.IPPROTO_TCP, socket.TCP_NODELAY, 1)
        it.sendall(sent)
        came = b""
        while is_ended or len(came) < len(want):
            more = it.recv(4_096)
            if not more:
                break
            came += more
        if came != want:
            sys.exit(f"not the answer: {came.hex()}")


DISPOSED = HANDSHAKE + SUSPEND_COUNT + DISPOSE, HANDSHAKE + COUNTED + reply(2), True
LEFT = HANDSHAKE + SUSPEND_COUNT, HANDSHAKE + COUNTED, False
REFUSED = NO_HANDSHAKE, b"", True
SILENT = b"", b"", False
SESSIONS = DISPOSED, LEFT, REFUSED, SILENT


def memory_of_sessions(serving, counts):
    """The peak of memory, and how many files are open, behind each of these numbers of sessions."""
    with serving:
        at_first = serving.files()
        session(serving.port, HANDSHAKE + SUSPEND_COUNT + DISPOSE, HANDSHAKE + VM_START + COUNTED + reply(2), True)
        held, found = 1, []
        for count in counts:
            start = time.perf_counter()
            for i in range(held, count):
                session(serving.port, *SESSIONS[i % len(SESSIONS)])
            seconds, more, held = time.perf_counter() - start, count - held, count
            found.append((serving.peak(), serving.files(at_first)))
            print(f"sessions: {count:,} at one port: peak {found[-1][0]} KiB, {found[-1][1]} files open; {more / seconds:,.0f} sessions a second", flush=True)
        session(serving.port, HANDSHAKE + SUSPEND_COUNT + EXIT, HANDSHAKE + COUNTED + reply(2) + VM_DEATH, True)
    peak, files = found[-1][0] - found[0][0], found[-1][1] - at_first
    print(f"sessions: {peak} KiB more behind {counts[-1]:,} sessions than behind {counts[0]:,}, {files} files more than before the first (to reach: 0 and 0)")


def built(folder):
    """The debugger and the baselines."""
    paths = {name: os.path.join(folder, name) for name in ("port_client", "port_echo", "plain_target")}
    for name in ("port_client", "port_echo"):
        subprocess.run(["cc", "-O2", "-o", paths[name], os.path.join(ROOT, "bench", name + ".c")], check=True)
    subprocess.run(["rustc", "--edition", "2021", "-O", "-o", paths["plain_target"], os.path.join(ROOT, "bench", "plain_target.rs")], check=True)
    return paths


def main():
    words = sys.argv[1:]
    long = "--long" in words
    words = [word for word in words if word != "--long"]
    program = os.path.abspath(words[0] if words else os.path.join(ROOT, "crates", "jdwp", "out", "jdwp"))
    small = os.path.join(ROOT, "examples", "A.json")
    with tempfile.TemporaryDirectory() as folder:
        paths = built(folder)
        client = paths["port_client"]
        stands = os.path.join(folder, "stands.json")
        with open(stands, "w", encoding="ascii") as file:
            json.dump(machine_that_stands(), file)
        share = compare("one at a time", 1_000, 100, 1, client, target(program, small), baseline(paths["port_echo"]), "echo")
        print(f"one at a time: {share:.2f} of the rate of an echo (to reach: 0.9)", flush=True)
        share = compare("one at a time, live", 1_000, 100, 1, client, live_target(program, stands), baseline(paths["port_echo"]), "echo")
        print(f"one at a time, live: {share:.2f} of the rate of an echo (to reach: 0.9)", flush=True)
        share = compare("256 at once", 100, 20_000, 256, client, target(program, small), baseline(paths["plain_target"]), "target")
        print(f"256 at once: {share:.2f} of the rate of a plain target (to reach: 0.5)", flush=True)
        memory_of_commands(target(program, small), client, [100_000, 10_000_000 if long else 1_000_000])
        memory_of_sessions(target(program, stands), [10_000, 100_000 if long else 20_000])


if __name__ == "__main__":
    main()
