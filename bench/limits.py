#!/usr/bin/env python3
"""What the limits of a session cost: memory for small and large ones, and the speed of replies that only a large packet holds.

Runs the program within three limits, the least, the standard and the greatest, and prints
- memory: what `serve-script` and `attach` asked for and what they used at the peak, in a session at a port in which a message as long as a packet may be came, at each of the limits: the
  program's own, with that of the C library. To reach: in proportion to the packets (each end has room for a packet that came and for two that leave);
- classes: AllClassesWithGeneric of a script of 1,024 classes with signatures of 500 bytes, half a megabyte a reply, within the greatest limits; beside it a script of 120 such classes, whose
  reply fits a packet of 65,536 bytes, asked so often that as many bytes are answered. All of the small script fits a processor's own cache, and the large one's doesn't.
- methods: MethodsWithGeneric of 1,024 methods, each of a name and a signature of 500 bytes, which are the same in both: of 4 classes with 256 each, a quarter of a megabyte a reply, within the
  greatest limits; beside it of 18 classes with 57 each or fewer, whose replies fit a packet of 65,536 bytes. So the same data are answered in large packets and in small ones.
The small packets go within the standard limits and within the greatest ones.
Of either it tells, the best of some runs, one in turn with the other, less the best time of a session that ends at once,
- the bytes that a session comes to a second, by the clock: `serve-script` and `attach`, two processes, over a port of this machine, where the one asks and tells and the other answers;
- the bytes that `serve-script` answers a second, and those that `attach` reads a second and tells in lines, each by itself from files, by the processor's time.
To reach: no fewer bytes a second in the large packets.

    bench/limits.py [PROGRAM]

PROGRAM is crates/jdwp/out/jdwp where none is given; `rt run` in crates/jdwp builds it.
"""

import contextlib
import json
import os
import socket
import struct
import subprocess
import sys
import tempfile
import time

ROOT = os.path.dirname(os.path.dirname(os.path.abspath(__file__)))
HANDSHAKE = b"JDWP-Handshake"
LIMITS = ("2048,2,1,1", "65536,64,64,64", "1048576,1024,1024,1024")
SIGNATURE = 500
METHODS = 1024
ANSWERED = 200_000_000
READ = 50_000_000
BOTH = 100_000_000
RUNS = 15
WHAT = ("answered and read", "answered", "read")


def command(number, command_set, command_number, data=b""):
    return struct.pack(">IIBBB", 11 + len(data), number, 0, command_set, command_number) + data


def class_of(number, signature, methods=()):
    """A class of a script, with these methods."""
    return {"id": number, "tag": 1, "signature": signature, "modifiers": 1, "super": 0, "interfaces": [], "source": None, "fields": [], "methods": list(methods)}


def method(number):
    """A method of a script, whose name and signature are of this number alone."""
    text = f"{number:0{SIGNATURE}}"
    return {"id": 10_000 + number, "name": text, "signature": text, "modifiers": 1, "args": 0, "last": 0, "lines": [], "slots": []}


def script_of(classes):
    """A script of these classes, and of one thread that has run out."""
    return {
        "name": "limits",
        "sizes": [8, 8, 8, 8, 8],
        "groups": [{"id": 1, "name": "main", "parent": 0}],
        "classes": classes,
        "objects": [],
        "threads": [{"id": 2, "name": "main", "group": 1, "steps": []}],
    }


def of_classes(count):
    """A script of so many classes without methods, and the command that asks for all of them."""
    return script_of([class_of(10 + i, f"L{i:0{SIGNATURE - 2}};") for i in range(count)]), [(1, 20, b"")]


def of_methods(most):
    """A script of 1,024 methods, so many a class at most, and the commands that ask each class for its own."""
    numbers = range(0, METHODS, most)
    classes = [class_of(10 + first, f"L{first};", [method(i) for i in range(first, min(first + most, METHODS))]) for first in numbers]
    return script_of(classes), [(2, 15, struct.pack(">Q", 10 + first)) for first in numbers]


def run(words):
    """Runs the words; the processor's seconds."""
    process = subprocess.Popen(words, stdout=subprocess.DEVNULL, stderr=subprocess.PIPE)
    told = process.stderr.read().decode()
    _, ended, usage = os.wait4(process.pid, 0)
    if os.waitstatus_to_exitcode(ended) != 0:
        sys.exit(f"{words}: status {os.waitstatus_to_exitcode(ended)}: {told}")
    return usage.ru_utime + usage.ru_stime


def written(folder, name, data):
    path = os.path.join(folder, name)
    with open(path, "wb") as file:
        file.write(data)
    return path


def serve(program, folder, script, session, limits):
    made = os.path.join(folder, "to")
    return run([program, "serve-script", script, "--from", session, "--to", made, "--limits", limits, "--turns", "4000000000"])


def of_process(pid):
    """How many KB of memory a process asked for, and how many it used at the peak."""
    with open(f"/proc/{pid}/status", encoding="ascii") as status:
        lines = {line.split(":")[0]: line.split()[1] for line in status if line.startswith(("VmData:", "VmHWM:"))}
    return int(lines["VmData"]), int(lines["VmHWM"])


def receive(connection, count):
    came = b""
    while len(came) < count:
        part = connection.recv(count - len(came))
        if not part:
            sys.exit("the connection was closed")
        came += part
    return came


def is_listening(port):
    """Whether somebody listens at a port of 127.0.0.1: no connection is made, which would be a session."""
    with open("/proc/net/tcp", encoding="ascii") as table:
        return any(line.split()[1:4:2] == [f"0100007F:{port:04X}", "0A"] for line in table)


def connected(port):
    until = time.monotonic() + 10
    while True:
        try:
            return socket.create_connection(("127.0.0.1", port))
        except ConnectionRefusedError:
            if time.monotonic() > until:
                raise
            time.sleep(0.01)


def free_port():
    with socket.socket() as it:
        it.bind(("127.0.0.1", 0))
        return it.getsockname()[1]


def target_memory(program, limits):
    """Of a target in a session, behind a command as long as a packet may be."""
    port, packet = free_port(), int(limits.split(",")[0])
    script = os.path.join(ROOT, "examples", "A.json")
    process = subprocess.Popen([program, "serve-script", script, "--port", str(port), "--limits", limits])
    with connected(port) as debugger:
        debugger.sendall(HANDSHAKE + command(1, 77, 77, bytes(packet - 11)))
        receive(debugger, 14 + 29 + 11)
        memory = of_process(process.pid)
        debugger.sendall(command(2, 1, 10, bytes(4)))
    if process.wait() != 0:
        sys.exit("the target did not end")
    return memory


def debugger_memory(program, folder, limits):
    """Of a debugger in a session, behind a reply as long as a packet may be."""
    packet = int(limits.split(",")[0])
    plan = written(folder, "plan", b"ask 1 4\nanswers\nevents 1\n")
    with socket.create_server(("127.0.0.1", 0)) as listener:
        process = subprocess.Popen([program, "attach", plan, "--port", str(listener.getsockname()[1]), "--limits", limits], stdout=subprocess.DEVNULL)
        with listener.accept()[0] as target:
            receive(target, 14)
            target.sendall(HANDSHAKE)
            receive(target, 11)
            target.sendall(struct.pack(">IIBHIIIII", 31, 1, 0x80, 0, 8, 8, 8, 8, 8))
            receive(target, 11)
            threads = (packet - 15) // 8
            target.sendall(struct.pack(">IIBHI", 15 + 8 * threads, 2, 0x80, 0, threads) + b"".join(struct.pack(">Q", 1 + i) for i in range(threads)))
            time.sleep(0.5)
            memory = of_process(process.pid)
            target.sendall(struct.pack(">IIBBBBIBI", 21, 1, 0, 64, 100, 0, 1, 99, 0))
        if process.wait() != 0:
            sys.exit("the debugger did not end")
    return memory


def memory(program, folder):
    for limits in LIMITS:
        asked_for, used = target_memory(program, limits)
        print(f"{limits}: serve-script asked for {asked_for} KB and used {used} KB")
        asked_for, used = debugger_memory(program, folder, limits)
        print(f"{limits}: attach asked for {asked_for} KB and used {used} KB")


def asked(commands, times):
    """A session in which these commands are asked so often, behind the widths of ids, as `attach` asks them."""
    all_asked = [*(commands * times), (1, 6, b"")]
    return HANDSHAKE + command(1, 1, 7) + b"".join(command(2 + i, *it) for i, it in enumerate(all_asked))


def plan(commands, times):
    lines = [f"ask {it[0]} {it[1]} {it[2].hex()}".rstrip() + "\nanswers\n" for it in commands * times]
    return "".join([*lines, "ask 1 6\nanswers\n"]).encode()


def answered(folder, program, script, session, limits):
    """What a session's target writes."""
    serve(program, folder, script, session, limits)
    with open(os.path.join(folder, "to"), "rb") as file:
        return file.read()


def attach(program, lines, came, limits):
    return run([program, "attach", lines, "--from", came, "--to", os.devnull, "--limits", limits, "--turns", "4000000000"])


class Replies:
    """Sessions of one size of replies: the script, and by how often its commands are asked the debugger's bytes, the target's, and the plan."""

    def __init__(self, program, folder, name, script, commands, limits):
        self.program, self.folder, self.name, self.commands, self.limits = program, folder, name, commands, limits
        self.script = written(folder, name, json.dumps(script).encode())
        self.size = len(self.made(1)[1]) - len(self.made(0)[1])
        self.none = self.files(0)
        self.both, self.answers, self.reads = (self.files(count // self.size) for count in (BOTH, ANSWERED, READ))
        self.seconds = {what: ([], []) for what in WHAT}

    def made(self, times):
        session = written(self.folder, f"{self.name}.asked", asked(self.commands, times))
        return session, answered(self.folder, self.program, self.script, session, self.limits)

    def files(self, times):
        session, came = self.made(times)
        kept = f"{session}.{times}"
        os.rename(session, kept)
        return times, kept, written(self.folder, f"{self.name}.came.{times}", came), written(self.folder, f"{self.name}.plan.{times}", plan(self.commands, times))

    @contextlib.contextmanager
    def target(self):
        """A target that serves a session at a port."""
        port = free_port()
        words = [self.program, "serve-script", self.script, "--port", str(port), "--limits", self.limits, "--turns", "4000000000"]
        process = subprocess.Popen(words, stdout=subprocess.DEVNULL, stderr=subprocess.DEVNULL)
        try:
            until = time.monotonic() + 10
            while not is_listening(port):
                if time.monotonic() > until:
                    sys.exit("the target does not listen")
                time.sleep(0.01)
            yield port
        finally:
            process.kill()
            process.wait()

    def session(self, lines):
        """A session at a port: the seconds by the clock until all is told."""
        with self.target() as port:
            begun = time.perf_counter()
            run([self.program, "attach", lines, "--port", str(port), "--limits", self.limits, "--turns", "4000000000"])
            return time.perf_counter() - begun

    def run(self):
        """Each session, and beside it the one that ends at once."""
        for kept, files in zip(self.seconds["answered and read"], (self.both, self.none)):
            kept.append(self.session(files[3]))
        for kept, files in zip(self.seconds["answered"], (self.answers, self.none)):
            kept.append(serve(self.program, self.folder, self.script, files[1], self.limits))
        for kept, files in zip(self.seconds["read"], (self.reads, self.none)):
            kept.append(attach(self.program, files[3], files[2], self.limits))

    def rate(self, what):
        times = {"answered and read": self.both, "answered": self.answers, "read": self.reads}[what][0]
        sessions, none = self.seconds[what]
        return times, times * self.size / (min(sessions) - min(none))


def replies(program, folder, name, small, large):
    """Prints what two scripts with their commands come to: the small packets of one within the standard limits and the greatest, and the large ones of the other."""
    ways = [
        Replies(program, folder, f"{name}.standard", *small, LIMITS[1]),
        Replies(program, folder, f"{name}.small", *small, LIMITS[2]),
        Replies(program, folder, f"{name}.large", *large, LIMITS[2]),
    ]
    for _ in range(RUNS):
        for way in ways:
            way.run()
    for what in WHAT:
        rates = []
        for way in ways:
            times, rate = way.rate(what)
            rates.append(rate)
            print(f"{name}, {way.limits}: {times * len(way.commands)} replies of {way.size // len(way.commands)} bytes, {rate / 1e6:.0f} MB {what} a second")
        standard, small_ones, large_ones = rates
        print(f"{name} {what}: the large packets reach {large_ones / small_ones:.2f} of the bytes a second of the small ones, and {large_ones / standard:.2f} of those within the standard limits")


def main():
    program = os.path.abspath(sys.argv[1] if len(sys.argv) > 1 else os.path.join(ROOT, "crates", "jdwp", "out", "jdwp"))
    with tempfile.TemporaryDirectory() as folder:
        memory(program, folder)
        replies(program, folder, "classes", of_classes(120), of_classes(1024))
        replies(program, folder, "methods", of_methods(57), of_methods(256))


if __name__ == "__main__":
    main()
