#!/usr/bin/env python3
"""How `jdwp record` hands on what a debugger and a target send, measured beside a relay that writes nothing down; and a real jdb recorded.

On 127.0.0.1 alone, each process pinned to a processor of its own where there are three and `taskset` is there (`cc` and `rustc` have to be
there). A debugger (`port_client.c`) asks a plain target (`plain_target.rs`) through the recorder and, in turn with it, through
`plain_relay.c`, in many short rounds, of which the fastest tenth counts:
- one at a time: it waits for each answer before it asks again. To reach: 0.9 of the plain relay's rate;
- 256 at once: so many commands wait for their answers. To reach: 0.5 of its rate;
- memory: the recorder's peak in one session behind 100,000 commands and behind a million. To reach: no growth.
Then a real jdb debugs a real Java machine through `record --once --show` (a JDK has to be there): the capture is judged `yes`, what was
shown is what `show` prints of it, and most of that was shown before the session ended.

    bench/record.py [--no-java] [--keep FOLDER] [PROGRAM]

With --keep the capture of jdb's session stays in FOLDER. PROGRAM is crates/jdwp/out/jdwp where none is given; `rt run` in crates/jdwp builds
it. Ends with status 1 where something is not as it has to be.
"""

import argparse
import os
import subprocess
import sys
import tempfile
import time

sys.dont_write_bytecode = True  # no folder of them beside the scripts

import ports
from ports import ROOT, Serving, compare, pinned

LISTENING = "Listening for transport dt_socket at address: "
PATIENCE = 30  # seconds
JDB = ("threads", "stop in Counting.first", "cont", "where all", "locals", "step", "next", "print Counting.twice(21)", "clear Counting.first", "cont", "suspend", "threads", "resume")


class At(Serving):
    """A process that serves on the processor of this place."""

    def __init__(self, place, words, of_port):
        super().__init__(words, of_port)
        place = place if len(os.sched_getaffinity(0)) > place else 0
        self.words = [*pinned(place), *words, *of_port(self.port)]


def target(paths):
    return At(2, [paths["plain_target"]], lambda port: [str(port)])


def recorder(program, to, port):
    return At(0, [program, "record", "--once", "--port", str(port), "--to", to], lambda listen: ["--listen", str(listen)])


def plain_relay(paths, port):
    return At(0, [paths["plain_relay"]], lambda listen: [str(listen), str(port)])


def share(name, rounds, commands, at_once, program, paths, to):
    mine, theirs = target(paths), target(paths)
    with mine, theirs:
        ours, plain = recorder(program, to, mine.port), plain_relay(paths, theirs.port)
        return compare(name, rounds, commands, at_once, paths["port_client"], ours, plain, "target")


def is_reached(name, found, wanted):
    print(f"{name}: {found:.2f} of the rate of a plain relay (to reach: {wanted})", flush=True)
    return found >= wanted


def speed(program, paths, folder):
    """Whether both shares are reached."""
    to = os.path.join(folder, "speed.capture")
    one = is_reached("one at a time", share("one at a time", 1_000, 100, 1, program, paths, to), 0.9)
    many = is_reached("256 at once", share("256 at once", 100, 20_000, 256, program, paths, to), 0.5)
    return one and many


def memory(program, paths, folder):
    """Tells the peak behind many commands, and many more."""
    mine = target(paths)
    with mine:
        ports.memory_of_commands(recorder(program, os.path.join(folder, "memory.capture"), mine.port), paths["port_client"], [100_000, 1_000_000])


def printed(program, word, capture):
    return subprocess.run([program, word, capture], capture_output=True, text=True, check=False).stdout


def so_far(stream):
    """What can be read of a stream at once."""
    os.set_blocking(stream.fileno(), False)
    found = stream.read() or b""
    os.set_blocking(stream.fileno(), True)
    return found


def jdb_session(program, capture):
    """A session of jdb through the recorder: what it printed behind its first line, before the session ended and in all, and its status."""
    import jvm
    from record_jdb import Terminal

    with tempfile.TemporaryDirectory() as classes:
        jvm.compiled(classes)
        with jvm.Machine(classes, 1, suspend=True) as machine:
            words = [program, "record", "--listen", "0", "--port", str(machine.port), "--to", capture, "--once", "--show"]
            ran = subprocess.Popen(words, stdout=subprocess.PIPE, bufsize=0)
            try:
                line = ran.stdout.readline().decode()
                if not line.startswith(LISTENING):
                    sys.exit(f"it does not listen: {line!r}")
                terminal = Terminal(int(line[len(LISTENING) :]))
                time.sleep(1)  # it reads no command before it is attached
                meanwhile = b""
                for command in JDB:
                    terminal.say(command)
                    time.sleep(0.3)
                    meanwhile += so_far(ran.stdout)
                terminal.end()
                rest = ran.communicate(timeout=PATIENCE)[0]
                return meanwhile.decode(), (meanwhile + rest).decode(), ran.returncode
            finally:
                ran.kill()
                ran.wait()


def java(program, folder):
    """Whether a session of jdb is recorded, judged and shown as it has to be."""
    capture = os.path.join(folder, "jdb.capture")
    meanwhile, shown, status = jdb_session(program, capture)
    verdict = printed(program, "check", capture)
    is_same = shown == printed(program, "show", capture)
    counts = f"{len(shown.splitlines()):,} lines shown, {len(meanwhile.splitlines()):,} of them before the session ended"
    print(f"jdb: {counts}, status {status}, judged {verdict.strip()}; they are those of show: {is_same}", flush=True)
    return status == 0 and verdict == "yes\n" and is_same and " reply " in shown and 2 * len(meanwhile) > len(shown)


def built(folder):
    """The debugger, the plain target and the plain relay."""
    paths = ports.built(folder)
    paths["plain_relay"] = os.path.join(folder, "plain_relay")
    subprocess.run(["cc", "-O2", "-o", paths["plain_relay"], os.path.join(ROOT, "bench", "plain_relay.c")], check=True)
    return paths


def main():
    words = argparse.ArgumentParser(description=__doc__, formatter_class=argparse.RawDescriptionHelpFormatter)
    words.add_argument("--no-java", action="store_true")
    words.add_argument("--keep")
    words.add_argument("program", nargs="?", default=os.path.join(ROOT, "crates", "jdwp", "out", "jdwp"))
    words = words.parse_args()
    program = os.path.abspath(words.program)
    with tempfile.TemporaryDirectory() as folder:
        paths = built(folder)
        is_right = speed(program, paths, folder)
        memory(program, paths, folder)
        if not words.no_java:
            keep = words.keep or folder
            os.makedirs(keep, exist_ok=True)
            is_right = java(program, keep) and is_right
    sys.exit(0 if is_right else 1)


if __name__ == "__main__":
    main()
