"""Java machines for the scripts beside this one: a program that counts, compiled and run by a JDK, and the package that debugs it.

The JDK is that of JAVA_HOME, or else the `java` and `javac` of the path (Debian: openjdk-17-jdk-headless). The package is foreign/python
over foreign/out/libmilunovesk.so (`make -C foreign` builds it), where PYTHONPATH and MILUNOVESK_LIBRARY name no other.
"""

import mmap
import os
import shutil
import struct
import subprocess
import sys
import time

sys.dont_write_bytecode = True  # no folder of them beside the scripts

from examples import free_port, is_listening

ROOT = os.path.dirname(os.path.dirname(os.path.abspath(__file__)))
SOURCE = os.path.join(ROOT, "bench", "Counting.java")
PLACES, LINE, STAY = 1 << 14, 64, 7  # as in Counting.java
SECONDS = 20  # until a machine listens


def package():
    """The module `milunovesk`."""
    sys.path.append(os.path.join(ROOT, "foreign", "python"))
    os.environ.setdefault("MILUNOVESK_LIBRARY", os.path.join(ROOT, "foreign", "out", "libmilunovesk.so"))
    import milunovesk

    return milunovesk


def tool(name):
    """A program of the JDK."""
    home = os.environ.get("JAVA_HOME")
    found = shutil.which(name, path=os.path.join(home, "bin") if home else None)
    if not found:
        sys.exit(f"there is no {name}: a JDK is needed (Debian: openjdk-17-jdk-headless)")
    return found


def version():
    told = subprocess.run([tool("java"), "-version"], capture_output=True, text=True, check=True)
    return " ".join(told.stderr.splitlines()[1:2])


def compiled(folder):
    subprocess.run([tool("javac"), "-g", "-d", folder, SOURCE], check=True)


def lines_marked():
    """The lines of the source where a breakpoint may stand."""
    with open(SOURCE, encoding="ascii") as source:
        return [number for number, line in enumerate(source, 1) if "// a place" in line]


class Machine:
    """A machine that runs the program, and waits for a debugger at a port; its counters are a file that lies in memory here, too."""

    def __init__(self, classes, seed, suspend):
        self.port = free_port()
        self.file = os.path.join(classes, f"counters-{self.port}")
        with open(self.file, "wb") as it:
            it.truncate(PLACES * LINE)
        with open(self.file, "rb") as it:
            self.memory = mmap.mmap(it.fileno(), 0, prot=mmap.PROT_READ)
        self.numbers = memoryview(self.memory).cast("Q")
        agent = f"transport=dt_socket,server=y,suspend={'y' if suspend else 'n'},address=127.0.0.1:{self.port},quiet=y"
        words = [tool("java"), "-Xmx64m", "-XX:+UseSerialGC", f"-agentlib:jdwp={agent}", "-cp", classes, "Counting", self.file, str(seed)]
        self.ran = subprocess.Popen(words, stdin=subprocess.DEVNULL, stdout=subprocess.DEVNULL, stderr=subprocess.DEVNULL)
        self.wait()

    def wait(self):
        until = time.monotonic() + SECONDS
        while not is_listening(self.port):
            if self.ran.poll() is not None or time.monotonic() > until:
                raise RuntimeError("the Java machine does not listen")
            time.sleep(0.01)

    def counter(self, place):
        """How far the thread of a place has counted. Eight bytes that lie at eight are read at once."""
        return self.numbers[place * LINE // 8]

    def is_alive(self):
        return self.ran.poll() is None

    def __enter__(self):
        return self

    def __exit__(self, *_):
        self.ran.kill()
        self.ran.wait()
        self.numbers.release()
        self.memory.close()
        os.unlink(self.file)


# ---- what stands in JDWP's data, of a machine whose ids have eight bytes

BREAKPOINT, THREAD_START, THREAD_DEATH, VM_START, VM_DEATH = 2, 6, 7, 90, 99
NONE, EVENT_THREAD, ALL = 0, 1, 2
LOCATION = 25


def number(data, at, size=8):
    return int.from_bytes(data[at : at + size], "big")


def ids(*numbers):
    return b"".join(it.to_bytes(8, "big") for it in numbers)


def string(data, at):
    """The string there, and where it ends."""
    size = number(data, at, 4)
    return data[at + 4 : at + 4 + size].decode(), at + 4 + size


def events_in(data):
    """The policy of a composite, and of each event its kind, its request and its thread; of the kinds above alone."""
    at, found = 5, []
    for _ in range(number(data, 1, 4)):
        kind, request = data[at], number(data, at + 1, 4)
        at += 5
        thread = None
        if kind != VM_DEATH:
            thread = number(data, at)
            at += 8 + (LOCATION if kind == BREAKPOINT else 0)
        found.append((kind, request, thread))
    return data[0], found


def breakpoint_at(policy, declared, method, index=0):
    """The data of EventRequest.Set for a breakpoint."""
    return struct.pack(">BBIBBQQQ", BREAKPOINT, policy, 1, 7, 1, declared, method, index)
