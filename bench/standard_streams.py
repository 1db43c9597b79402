#!/usr/bin/env python3
"""What becomes of the program where standard streams are closed, or take nothing.

Runs it with each of the eight choices of standard input, output and error closed (`<&-`, `>&-`, `2>&-`):
- `check` and `show` of examples/session.capture, and `check` of a file that is not there;
- `pair` of examples/A.json and examples/numbers.plan, over a connection and in memory;
- `serve-script` at a port, to which an `attach` connects whose streams are closed in the same way. What goes over the connection is written down by a relay in between.
Each run has to end with the status that it has with all streams open, and to print the same on those that are open; and over the connection has to go, byte for byte, what goes over it with all open: so nothing
that was to be printed is sent to the other end, and no file or connection is taken for standard input.

Then `serve-script` at a port tells what goes wrong on a pipe that is full, and nobody reads there: a hundred debuggers whose bytes are refused come one after the other, and then one whose plan is run, which has to end as it
does else. Then the pipe is read, and one more debugger comes: the machine's threads, which run again, end with it, and the server has to say how many lines it dropped.

Prints a line for each command, and the status is 1 where a run differs.

    bench/standard_streams.py [PROGRAM]

PROGRAM is crates/jdwp/out/jdwp where none is given (`rt run` in crates/jdwp builds it).
"""

import fcntl
import itertools
import os
import socket
import subprocess
import sys
import tempfile
import threading
import time

ROOT = os.path.dirname(os.path.dirname(os.path.abspath(__file__)))
EXAMPLES = os.path.join(ROOT, "examples")
PATIENCE = 30
STRANGERS = 100
CHOICES = [it for n in range(4) for it in itertools.combinations((0, 1, 2), n)]


def closing(numbers):
    """What a child does before it becomes the program."""

    def close():
        for number in numbers:
            os.close(number)

    return close


def begin(program, words, numbers):
    return subprocess.Popen([program, *words], stdin=subprocess.DEVNULL, stdout=subprocess.PIPE, stderr=subprocess.PIPE, preexec_fn=closing(numbers), cwd=EXAMPLES)


def ran(program, words, numbers):
    """The status, and what was printed on the streams that are open."""
    child = begin(program, words, numbers)
    out, err = child.communicate(timeout=PATIENCE)
    return child.returncode, None if 1 in numbers else out, None if 2 in numbers else err


def free_port():
    with socket.socket() as it:
        it.bind(("127.0.0.1", 0))
        return it.getsockname()[1]


class Relay:
    """A connection from its own port on to another, and what went over it each way."""

    def __init__(self, to):
        self.listener = socket.create_server(("127.0.0.1", 0))
        self.port = self.listener.getsockname()[1]
        self.went = [b"", b""]
        self.to = to
        self.thread = threading.Thread(target=self.run)
        self.thread.start()

    def run(self):
        near, _ = self.listener.accept()
        far = socket.create_connection(("127.0.0.1", self.to))
        ways = [threading.Thread(target=self.pass_on, args=it) for it in ((0, near, far), (1, far, near))]
        for it in ways:
            it.start()
        for it in ways:
            it.join()
        near.close()
        far.close()
        self.listener.close()

    def pass_on(self, way, source, sink):
        try:
            while data := source.recv(4096):
                self.went[way] += data
                sink.sendall(data)
            sink.shutdown(socket.SHUT_WR)
        except OSError:
            pass


def is_listening(port):
    with open("/proc/net/tcp", encoding="ascii") as lines:
        return any(line.split()[3] == "0A" and int(line.split()[1].rsplit(":", 1)[1], 16) == port for line in list(lines)[1:])


def session(program, plan, numbers):
    """How both ends at a port ended, what they printed, and what went over the connection."""
    port = free_port()
    target = begin(program, ["serve-script", "A.json", "--port", str(port)], numbers)
    for _ in range(PATIENCE * 100):
        if is_listening(port):
            break
        time.sleep(0.01)
    relay = Relay(port)
    debugger = ran(program, ["attach", plan, "--port", str(relay.port)], numbers)
    relay.thread.join(PATIENCE)
    target.kill()
    _, err = target.communicate()
    return debugger, relay.went, None if 2 in numbers else err


def fill(pipe):
    """Fills a pipe, and lets its writers wait as before."""
    flags = fcntl.fcntl(pipe, fcntl.F_GETFL)
    fcntl.fcntl(pipe, fcntl.F_SETFL, flags | os.O_NONBLOCK)
    size = 65536
    while size:
        try:
            os.write(pipe, b"." * size)
        except BlockingIOError:
            size //= 2
    fcntl.fcntl(pipe, fcntl.F_SETFL, flags)


def drain(pipe, seconds):
    """What stands in a pipe, and what comes in so many seconds."""
    os.set_blocking(pipe, False)
    said, end = b"", time.monotonic() + seconds
    while time.monotonic() < end:
        try:
            said += os.read(pipe, 1 << 20)
        except BlockingIOError:
            time.sleep(0.01)
    return said


def refused(port):
    """A debugger that says no handshake."""
    with socket.create_connection(("127.0.0.1", port), timeout=PATIENCE) as it:
        it.sendall(b"GET / HTTP/1.1\r\n\r\n")
        it.shutdown(socket.SHUT_WR)
        while it.recv(4096):
            pass


def full_pipe(program, plan):
    """How a debugger's run ended at a server whose standard error is full, and what the server told when that was read again."""
    near, far = os.pipe()
    fill(far)
    port = free_port()
    words = ["serve-script", "A.json", "--port", str(port)]
    target = subprocess.Popen([program, *words], stdin=subprocess.DEVNULL, stdout=subprocess.DEVNULL, stderr=far, cwd=EXAMPLES)
    try:
        for _ in range(PATIENCE * 100):
            if is_listening(port):
                break
            time.sleep(0.01)
        for _ in range(STRANGERS):
            refused(port)
        run = ran(program, ["attach", plan, "--port", str(port)], ())
        drain(near, 0.1)
        refused(port)
        said = drain(near, 1).decode()
    finally:
        target.kill()
        target.wait()
        os.close(near)
        os.close(far)
    return run, said


def without(told, numbers):
    """What is told with all streams open, of those that are open."""
    status, out, err = told
    return status, None if 1 in numbers else out, None if 2 in numbers else err


def main():
    program = os.path.abspath(sys.argv[1] if len(sys.argv) > 1 else f"{ROOT}/crates/jdwp/out/jdwp")
    wrong = 0
    commands = [
        ["check", "session.capture"],
        ["show", "session.capture"],
        ["check", "absent.capture"],
        ["pair", "A.json", "numbers.plan"],
        ["pair", "A.json", "numbers.plan", "--memory"],
    ]
    for words in commands:
        whole = ran(program, words, ())
        bad = [it for it in CHOICES if ran(program, words, it) != without(whole, it)]
        wrong += len(bad)
        print(f"{' '.join(words)}: status {whole[0]}, {len(CHOICES)} runs, {len(bad)} differ {bad or ''}")
    with tempfile.TemporaryDirectory() as room:
        plan = f"{room}/plan"
        with open(plan, "w", encoding="ascii") as it:
            it.write("ask 1 8\nask 1 4\nanswers\nask 1 6\nanswers\n")
        whole, went, told = session(program, plan, ())
        bad = []
        for numbers in CHOICES:
            seen, passed, err = session(program, plan, numbers)
            if seen != without(whole, numbers) or passed != went or err != (None if 2 in numbers else told):
                bad.append(numbers)
        wrong += len(bad)
        print(f"attach and serve-script at a port: status {whole[0]}, {sum(map(len, went))} bytes, {len(CHOICES)} sessions, {len(bad)} differ {bad or ''}")
        run, said = full_pipe(program, plan)
        lines = said.splitlines()
        is_told = lines == [f"jdwp: lines before this one that were dropped: {STRANGERS}"]
        wrong += run != whole or not is_told
        print(f"serve-script whose standard error is full: {STRANGERS} debuggers refused, and a plan run with status {run[0]}; then it told: {' / '.join(lines)}")
    print("0 runs differ" if not wrong else f"{wrong} runs differ")
    return 1 if wrong else 0


if __name__ == "__main__":
    sys.exit(main())
