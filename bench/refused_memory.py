#!/usr/bin/env python3
"""What becomes of the program where requests for memory are refused.

Runs each command of the program with the C library's heap of `refuse_memory.c` before it (it is built here; `cc` has to be there), in two ways: the N-th request for memory in the
process is refused and no other, and the N-th and all behind it are. N rises from 1 until a run meets no refusal. Then it runs the program with ever less address space (`ulimit -v`),
down to where the system can't start it. Each run has to end with status 3 and `jdwp: no memory` on standard error, what it printed and wrote being a beginning of what it has to print and
write, or as it ends with ample memory: the same status, and the same bytes on standard output, on standard error and in the file that is written. Prints of each command how many
requests it makes, how many runs of each kind ended so and so, and each run that ended otherwise; the status is 1 where there is one. Only of a script that is refused something else may
come: its fault with its number and words, but not where it stands, which is looked for with the memory that is left (`placeless`).

    bench/refused_memory.py [--each] [PROGRAM]
    bench/refused_memory.py --tests [--each] [TESTS]

With --tests it runs in the same way the tests of crates/link_tests whose names end in `bears_one_refusal`, each in a process of its own: worked sessions, of which each call that was refused
is done again. Each has to pass, whichever request is refused. With --each a line for each N says what came. PROGRAM is crates/jdwp/out/jdwp where none is given (`rt run` in crates/jdwp
builds it), and TESTS is crates/link_tests/out/link_tests_tests (`rt test` there builds it).
"""

import contextlib
import os
import resource
import shutil
import signal
import socket
import subprocess
import sys
import tempfile
import threading

ROOT = os.path.dirname(os.path.dirname(os.path.abspath(__file__)))
EXAMPLES = os.path.join(ROOT, "examples")
PATIENCE = 20
MOST_REQUESTS = 100_000
MOST_SPACE = 256 << 20
PAGE = 4096
NO_MEMORY = b"jdwp: no memory\n"
SAID = ("no memory", "right", "placeless")
HELLO = b"JDWP-Handshake"
PLACELESS = b"jdwp: refused.json: fault 22: the member last is missing or of another type\n"
# The handshake, IDSizes and Exit, by which the machine dies and the server ends.
ASKS_EXIT = HELLO + bytes.fromhex("0000000b 00000001 00 0101 0000000f 00000002 00 010a 00000000")
# The handshake, Signature and Status of a class, and AllThreads.
ASKS_TO_DEFER = HELLO + bytes.fromhex("00000013 00000002 00 0201 000000000000000a 00000013 00000003 00 0209 000000000000000a 0000000b 00000004 00 0104")


class Ran:
    """How a run ended: its status, what it printed, and what it wrote or sent; None in place of a status where it had to be killed."""

    def __init__(self, status, out, err, written):
        self.status, self.out, self.err, self.written = status, out, err, written

    def __eq__(self, other):
        return vars(self) == vars(other)

    def ended_without_memory(self, whole):
        begins = whole.out.startswith(self.out) and whole.written.startswith(self.written)
        return self.status == 3 and self.err == NO_MEMORY and begins

    def was_not_started(self):
        """Whether the system had no room for the program and its libraries."""
        return self.status == 127 or (self.status == -signal.SIGKILL and not self.out + self.err)

    def __str__(self):
        if self.status is None:
            ended = "was killed after its time"
        elif self.status < 0:
            ended = f"was ended by signal {-self.status}"
        else:
            ended = f"ended with status {self.status}"
        return f"{ended}, printed {self.out[-160:]!r}, told {self.err[-240:]!r}, wrote {self.written[-80:].hex()!r}"


class Command:
    """Words of a command, the status of a run with ample memory, who is at the other end of a port, and what is told of a fault without its place."""

    def __init__(self, name, words, status=0, peer=None, placeless=None):
        self.name, self.words, self.status, self.peer, self.placeless = name, words, status, peer, placeless


def free_port():
    with socket.socket() as probe:
        probe.bind(("127.0.0.1", 0))
        return probe.getsockname()[1]


def received(connection):
    """All that comes until the other end closes."""
    came = b""
    with contextlib.suppress(OSError):
        while piece := connection.recv(65536):
            came += piece
    return came


class Debugger:
    """One that connects to a target that listens, once it does, and sends these bytes."""

    def __init__(self, sent):
        self.sent, self.port, self.came, self.is_over = sent, free_port(), b"", False

    def run(self):
        while not self.is_over:
            try:
                connection = socket.create_connection(("127.0.0.1", self.port), 1)
            except OSError:
                continue
            with connection:
                connection.settimeout(PATIENCE)
                with contextlib.suppress(OSError):
                    connection.sendall(self.sent)
                self.came = received(connection)
            return

    def close(self):
        self.is_over = True


class Target:
    """One that listens, and sends these bytes to the debugger that connects."""

    def __init__(self, sent):
        self.sent, self.came = sent, b""
        self.listener = socket.create_server(("127.0.0.1", 0))
        self.port = self.listener.getsockname()[1]

    def run(self):
        with contextlib.suppress(OSError):
            connection, _ = self.listener.accept()
            with connection:
                connection.settimeout(PATIENCE)
                with contextlib.suppress(OSError):
                    connection.sendall(self.sent)
                self.came = received(connection)

    def close(self):
        # It wakes the thread that waits for a connection.
        with contextlib.suppress(OSError):
            self.listener.shutdown(socket.SHUT_RDWR)
        self.listener.close()


def run(words, folder, peer=None, space=None, **variables):
    """Runs words in a folder; what is written is the file OUT, or what came to the peer."""
    with contextlib.suppress(FileNotFoundError):
        os.remove(f"{folder}/OUT")
    end = peer() if peer else None
    words = [word.replace("PORT", str(end.port)) if end else word for word in words]
    talks = threading.Thread(target=end.run, daemon=True) if end else None
    if talks:
        talks.start()
    limit = (lambda: resource.setrlimit(resource.RLIMIT_AS, (space, space))) if space else None
    environment = {**os.environ, **{name: str(value) for name, value in variables.items()}}
    how = {"cwd": folder, "env": environment, "preexec_fn": limit, "stdin": subprocess.DEVNULL, "timeout": PATIENCE}
    try:
        ran = subprocess.run(words, capture_output=True, check=False, **how)
        status, out, err = ran.returncode, ran.stdout, ran.stderr
    except subprocess.TimeoutExpired as late:
        status, out, err = None, late.stdout or b"", late.stderr or b""
    if end:
        end.close()
        talks.join(PATIENCE)
    written = b""
    with contextlib.suppress(FileNotFoundError), open(f"{folder}/OUT", "rb") as file:
        written = file.read()
    return Ran(status, out, err, written + (end.came if end else b""))


def refused(folder, heap, way, request, words, peer):
    """A run in which this request is refused, and whether it was one that was made."""
    told = f"{folder}/told"
    with open(told, "wb"):
        pass
    ran = run(words, folder, peer, LD_PRELOAD=heap, REFUSE_TOLD=told, **{way: request})
    return ran, os.path.getsize(told) > 0


def each_request(folder, heap, way, words, peer, judge, prints):
    """Refuses one request after the other; how many there are, how often each judgement came, and what is wrong."""
    counts, wrong = {}, []
    for request in range(1, MOST_REQUESTS):
        ran, was_refused = refused(folder, heap, way, request, words, peer)
        said = judge(ran)
        if prints:
            print(f"    {way}={request}: {said or ran}{'' if was_refused else ' (no request was refused)'}", flush=True)
        if said is None:
            wrong.append(f"{way}={request}: it {ran}")
        if not was_refused:
            return request - 1, counts, wrong
        counts[said] = counts.get(said, 0) + 1
    return MOST_REQUESTS, counts, wrong + ["requests do not end"]


def each_space(folder, words, peer, judge, prints):
    """Runs with ever less address space; how often each judgement came, and what is wrong."""
    counts, wrong, space = {}, [], MOST_SPACE
    while space > 0:
        ran = run(words, folder, peer, space)
        if ran.was_not_started():
            break
        said = judge(ran)
        if prints:
            print(f"    {space // 1024} KiB: {said or ran}", flush=True)
        if said is None:
            wrong.append(f"ulimit -v {space // 1024}: it {ran}")
        counts[said] = counts.get(said, 0) + 1
        space -= max(space // 64 // PAGE, 1) * PAGE
    return counts, wrong


def judged(whole, placeless=None):
    """What is said of a run of which this one is with ample memory: None where it ended as none may."""

    def judge(ran):
        if ran == whole:
            return "right"
        if placeless and ran == Ran(whole.status, whole.out, placeless, whole.written):
            return "placeless"
        return "no memory" if ran.ended_without_memory(whole) else None

    return judge


def in_columns(counts):
    return " ".join(f"{counts.get(said, 0):>{len(said)}}" for said in SAID)


def tell(name, requests, columns, wrong):
    print(f"{name:<44}{requests:>9}  {columns}".rstrip(), flush=True)
    for line in wrong[:20]:
        print(f"    WRONG {line}")
    if len(wrong) > 20:
        print(f"    and {len(wrong) - 20} more")


def try_command(command, program, folder, heap, prints):
    words = [program, *command.words]
    whole = run(words, folder, command.peer)
    if whole.status != command.status:
        tell(command.name, 0, "", [f"with ample memory: it {whole}"])
        return False
    judge = judged(whole, command.placeless)
    columns, wrong, requests = [], [], 0
    for way in ("REFUSE_AT", "REFUSE_FROM"):
        requests, counts, more = each_request(folder, heap, way, words, command.peer, judge, prints)
        columns.append(in_columns(counts))
        wrong += more
    counts, more = each_space(folder, words, command.peer, judge, prints)
    columns.append(in_columns(counts))
    wrong += more
    tell(command.name, requests, "   ".join(columns), wrong)
    return not wrong


def bytes_of(name):
    with open(os.path.join(EXAMPLES, name), "rb") as file:
        return file.read()


def commands():
    serves = ["serve-script", "A.json"]
    files = ["--from", "session.bin", "--to", "OUT"]
    attaches = ["attach", "attach.plan"]
    return [
        Command("show", ["show", "session.capture"]),
        Command("show, a fault", ["show", "faulty.capture"], 1),
        Command("check", ["check", "session.capture"]),
        Command("check, a fault", ["check", "faulty.capture"], 1),
        Command("serve-script, files", [*serves, *files]),
        Command("serve-script, the tour", ["serve-script", "tour.json", "--from", "tour.bin", "--to", "OUT"]),
        Command("serve-script, a refused script", ["serve-script", "refused.json", *files], 1, None, PLACELESS),
        Command("serve-script, bytes of no protocol", [*serves, "--from", "A.json", "--to", "OUT"], 1),
        Command("serve-script, deferred replies", [*serves, "--defer", "--from", "deferred.bin", "--to", "OUT"], 2),
        Command("serve-script, a port", [*serves, "--port", "PORT"], 0, lambda: Debugger(ASKS_EXIT)),
        Command("attach, files", [*attaches, "--from", "attach.bin", "--to", "OUT"]),
        Command("attach, a refused plan", ["attach", "refused.plan", "--from", "attach.bin", "--to", "OUT"], 1),
        Command("attach, a command that is refused", ["attach", "unfit.plan", "--from", "attach.bin", "--to", "OUT"], 1),
        Command("attach, a session that is lost", [*attaches, "--from", "short.bin", "--to", "OUT"], 2),
        Command("attach, a port", [*attaches, "--port", "PORT"], 0, lambda: Target(bytes_of("attach.bin"))),
        Command("pair --memory", ["pair", "A.json", "numbers.plan", "--memory"]),
        Command("pair", ["pair", "A.json", "numbers.plan"]),
        Command("pair, losses", ["pair", "A.json", "losses.plan", "--start", "none"]),
        Command("pair, deferred replies", ["pair", "A.json", "deferred.plan", "--defer"]),
        Command("no words", [], 1),
        Command("--help", ["--help"], 1),
        Command("pair --help", ["pair", "--help"], 1),
        Command("a number that is none", [*serves, *files, "--turns", "+5"], 1),
        Command("a word too many", ["show", "session.capture", "more"], 1),
        Command("a file that is not there", ["check", "nowhere.capture"], 1),
    ]


def prepare(folder):
    """The examples, and files that are refused."""
    for name in os.listdir(EXAMPLES):
        shutil.copy(os.path.join(EXAMPLES, name), folder)
    capture = bytes_of("session.capture") + b"> 0000000b00000009000108\n> 0000000b00000009000109\n"
    script = bytes_of("A.json").replace(b'"last"', b'"least"')
    losses = b"ask 1 8\nanswers\nlose target\nlose debugger\nattach\nask 11 12 0000000000000001\nanswers\nmirror\n"
    texts = {
        "faulty.capture": capture,
        "refused.json": script,
        "refused.plan": b"ask 1 8\nask 1\n",
        "unfit.plan": b"ask 1 8\nask 11 12 00\n",
        "losses.plan": losses,
        "deferred.plan": b"ask 2 1 000000000000000a\nask 2 9 000000000000000a\nask 1 4\nanswers\n",
        "deferred.bin": ASKS_TO_DEFER,
        "short.bin": bytes_of("attach.bin")[:43],
    }
    for name, text in texts.items():
        with open(os.path.join(folder, name), "wb") as file:
            file.write(text)


def try_commands(program, folder, heap, prints):
    prepare(folder)
    said = " ".join(SAID)
    kinds = ("the N-th is refused", "from the N-th on", "ulimit -v")
    print(f"{'':<44}{'requests':>9}  " + "   ".join(f"{kind:<{len(said)}}" for kind in kinds))
    print(f"{'':<44}{'':>9}  " + "   ".join([said] * len(kinds)))
    return all([try_command(command, program, folder, heap, prints) for command in commands()])


def try_tests(tests, folder, heap, prints):
    listed = subprocess.run([tests, "--list"], capture_output=True, check=True).stdout.decode().splitlines()
    names = [line.removesuffix(": test") for line in listed if line.endswith("bears_one_refusal: test")]
    print(f"{'':<64}{'requests':>9}")
    fine = bool(names)
    for name in names:
        whole = run([tests, name], folder)
        wrong = [] if whole.status == 0 else [f"with ample memory: it {whole}"]
        requests, _, more = each_request(folder, heap, "REFUSE_AT", [tests, name], None, judged(whole), prints)
        wrong += more
        print(f"{name:<64}{requests:>9}", flush=True)
        for line in wrong[:20]:
            print(f"    WRONG {line}")
        fine = fine and not wrong
    return fine


def main():
    words = sys.argv[1:]
    prints = "--each" in words
    of_tests = "--tests" in words
    named = [word for word in words if not word.startswith("--")]
    home = "link_tests/out/link_tests_tests" if of_tests else "jdwp/out/jdwp"
    program = os.path.abspath(named[0] if named else os.path.join(ROOT, "crates", home))
    if not os.path.isfile(program):
        sys.exit(f"there is no {program}")
    with tempfile.TemporaryDirectory(prefix="refused-memory-") as folder:
        heap = f"{folder}/refuse_memory.so"
        source = os.path.join(ROOT, "bench", "refuse_memory.c")
        subprocess.run(["cc", "-O2", "-shared", "-fPIC", "-o", heap, source], check=True)
        tries = try_tests if of_tests else try_commands
        sys.exit(0 if tries(program, folder, heap, prints) else 1)


if __name__ == "__main__":
    main()
