#!/usr/bin/env python3
"""Whether what a stranger sends costs in proportion to its bytes: captures, scripts, plans, packets, events of many threads and event requests.

Each row is an input of a size and one four times as long, run by the program: a line of very many digits, lines of a byte, commands that all wait, a script that is deep,
or has a long number, many members, or long texts, a plan of many lines, packets that are no command or whose data do not read, events of threads whose ids are spread, what
suspends and resumes all of them, and event requests, most of which are refused, or that a debugger keeps, makes anew or clears. Prints of each the processor's seconds of the best of three runs at both sizes, how often the shorter one's the longer one took, and the peaks
of memory. What a run answers is checked. To reach: at most six times as long where the input is four times as long, and for sessions memory that does not grow; the status is 1
where a row takes longer.

    bench/stranger.py [PROGRAM] [SCALE]

PROGRAM is crates/jdwp/out/jdwp where none is given; `rt run` in crates/jdwp builds it. SCALE, 1 where none is given, makes each input so many times as long: with 1 the line of very
many digits has 25 and 100 million.
"""

import json
import os
import struct
import subprocess
import sys
import tempfile

ROOT = os.path.dirname(os.path.dirname(os.path.abspath(__file__)))
HANDSHAKE = b"JDWP-Handshake"
# Runs a program in a process of its own, so that the peak is the program's and not that of this one, which a child begins with.
RUNNER = """
import os, subprocess, sys
with open(sys.argv[1], "wb") as out, open(sys.argv[2], "wb") as error:
    process = subprocess.Popen(sys.argv[3:], stdin=subprocess.DEVNULL, stdout=out, stderr=error)
    _, status, usage = os.wait4(process.pid, 0)
print(os.waitstatus_to_exitcode(status), usage.ru_utime + usage.ru_stime, usage.ru_maxrss)
"""
IDS_ARE_8_BYTES = struct.pack(">IIBHIIIII", 31, 1, 0x80, 0, 8, 8, 8, 8, 8)
SPREAD = 0x9E3779B97F4A7C15
MOST = 6.0
LEAST_SECONDS = 0.02  # below it a run is mostly its start
MACHINE = os.path.join(ROOT, "examples", "A.json")


def command(number, command_set, command_number, data=b""):
    return struct.pack(">IIBBB", 11 + len(data), number, 0, command_set, command_number) + data


def event(number, thread, policy=0):
    """THREAD_START, with policy NONE where none is given."""
    return struct.pack(">IIBBBBIBIQ", 29, number, 0, 64, 100, policy, 1, 6, 1, thread)


# Captures: the text, and what `check` prints.


def one_line(count):
    """A line of `count` digits: Suspend under one id after the other, none of which is answered."""
    packets = b"".join(command(i, 1, 8) for i in range(1, count // 22 + 1))
    return f"> {HANDSHAKE.hex()}\n< {HANDSHAKE.hex()}\n> {packets.hex()}\n".encode(), b"yes\n"


def no_handshake(count):
    return b"> " + b"4a" * (count // 2), b"no: line 1: fault 4\n"


def byte_lines(count):
    """A handshake and commands, with one byte a line."""
    whole = HANDSHAKE + b"".join(command(i, 1, 8) for i in range(1, count // 55 + 1))
    return "".join(f"> {byte:02x}\n" for byte in whole).encode(), b"yes\n"


# Scripts: the text, and what is told of it.


def script(**members):
    with open(MACHINE, encoding="ascii") as file:
        return {**json.load(file), **members}


def edited(name, text):
    """Machine A, with this text in place of its member's value."""
    return json.dumps(script(**{name: "HERE"})).replace('"HERE"', text, 1).encode()


def deep(count):
    return edited("name", "[" * (count // 2) + "]" * (count // 2)), b"fault 21"


def long_number(count):
    return edited("name", "1" * count), b"fault 21"


def long_fraction(count):
    return edited("name", "0." + "1" * count), b"fault 22"


def many_members(count):
    return json.dumps(script(**{f"m{i}": i for i in range(count // 16)})).encode(), b""


def long_text(count):
    return edited("name", '"' + "x" * count + '"'), b"fault 26"


def many_groups(count):
    return edited("groups", "[" + ",".join('{"id":7,"name":"","parent":0}' for _ in range(count // 30)) + "]"), b"fault 26"


# Sessions of a target: what the debugger sends, and how many bytes it is answered.


def session(packets):
    return HANDSHAKE + b"".join(packets) + command(0, 1, 6)


def unknown_commands(count):
    number = count // 11
    return session(command(i, 77, 77) for i in range(number)), 14 + 29 + 11 * number + 11


def short_data(count):
    number = count // 15
    return session(command(i, 1, 2, b"\xff\xff\xff\xff") for i in range(number)), 14 + 29 + 11 * number + 11


def long_data(count):
    number = count // 65_536
    return session(command(i, 1, 2, b"\x00\x00\xff\xf1" + b"\xff" * 65_521) for i in range(number)), 14 + 29 + 11 * number + 11


def replies(count):
    number = count // 11
    return session(struct.pack(">IIBH", 11, i, 0x80, 0) for i in range(number)), 14 + 29 + 11


def requests(count):
    """Sets of METHOD_ENTRY without a modifier: 64 are granted, all others refused."""
    number = count // 17
    data = bytes([40, 0]) + struct.pack(">I", 0)
    return session(command(i, 15, 1, data) for i in range(number)), 14 + 29 + 15 * 64 + 11 * (number - 64) + 11


def wide_requests(count):
    """Sets with as many modifiers as a packet holds, all of which are granted and cleared."""
    number = count // 65_543
    data = bytes([40, 0]) + struct.pack(">I", 13_101) + b"\x01\x00\x00\x00\x01" * 13_101
    packets = (command(2 * i, 15, 1, data) + command(2 * i + 1, 15, 2, bytes([40]) + struct.pack(">I", i + 1)) for i in range(number))
    return session(packets), 14 + 29 + (15 + 11) * number + 11


# Sessions of a debugger: the plan, and what the target sends.


def many_threads(count, policy=0):
    number = count // 29
    events = b"".join(event(i, i * SPREAD % 2**64, policy) for i in range(1, number + 1))
    return f"events {number}\nask 1 6\n".encode(), HANDSHAKE + IDS_ARE_8_BYTES + events + struct.pack(">IIBH", 11, 2, 0x80, 0), 0


def threads_that_suspend_all(count):
    """Each composite has policy ALL, so each raises the counts of all threads before it."""
    return many_threads(count, policy=2)


def moved_threads(count, commands):
    """Events of many threads, and then these commands in turn, each answered: as many in all as there are threads. A quarter of the packets' bytes are the commands' replies."""
    number = count // 40
    events = b"".join(event(i, i * SPREAD % 2**64) for i in range(1, number + 1))
    answered = b"".join(struct.pack(">IIBH", 11, i, 0x80, 0) for i in range(2, number + 3))
    asked = "".join(f"ask 1 {commands[i % len(commands)]}\nanswers\n" for i in range(number))
    return f"events {number}\n{asked}ask 1 6\n".encode(), HANDSHAKE + IDS_ARE_8_BYTES + events + answered, 0


def resumes(count):
    return moved_threads(count, [9])


def suspends_and_resumes(count):
    """Each thread begins or ceases to be suspended at each."""
    return moved_threads(count, [8, 9])


def asked(asks):
    """Commands that are asked one after the other, each once the one before it is answered: its words in the plan, and the data that answer it."""
    plan = "".join(f"ask {words}\nanswers\n" for words, _ in asks)
    answered = b"".join(struct.pack(">IIBH", 11 + len(data), place + 2, 0x80, 0) + data for place, (_, data) in enumerate(asks))
    return f"{plan}ask 1 6\n".encode(), HANDSHAKE + IDS_ARE_8_BYTES + answered + struct.pack(">IIBH", 11, len(asks) + 2, 0x80, 0), 0


METHOD_ENTRY = 40
BREAKPOINT = 2


def set_as(it, kind=METHOD_ENTRY):
    """A Set of a kind, without modifiers, that is granted under an id."""
    return f"15 1 {kind:02x}0000000000", struct.pack(">I", it)


def clear_of(it):
    return f"15 2 {METHOD_ENTRY:02x}{it:08x}", b""


CLEAR_ALL_BREAKPOINTS = ("15 3", b"")


def kept_requests(count):
    """Sets of METHOD_ENTRY, each granted under an id of its own."""
    return asked([set_as(it) for it in range(1, count // 15 + 1)])


def requests_made_anew(count):
    """The same, and then each once more under an id that was given, the oldest first."""
    ids = range(1, count // 30 + 1)
    return asked([set_as(it) for it in [*ids, *ids]])


def one_id_again(count):
    """Sets that are granted under ids of their own, and then as many, each of which is granted under one and the same of these ids."""
    number = count // 30
    return asked([set_as(it) for it in [*range(1, number + 1), *[number // 2 + 1] * number]])


def cleared_requests(count):
    """Sets that are granted under ids of their own, and then, for each, a Clear of an id that was never given and one of its own, the newest first."""
    number = count // 37
    clears = [clear_of(it) for kept in range(number, 0, -1) for it in (number + kept, kept)]
    return asked([set_as(it) for it in range(1, number + 1)] + clears)


def cleared_breakpoints(count):
    """Sets that are granted under ids of their own, and then, as often, a breakpoint and ClearAllBreakpoints twice, of which the second finds none."""
    number = count // 52
    again = [set_as(number + 1, BREAKPOINT), CLEAR_ALL_BREAKPOINTS, CLEAR_ALL_BREAKPOINTS]
    return asked([set_as(it) for it in range(1, number + 1)] + again * number)


def one_thread(count):
    number = count // 29
    events = b"".join(event(i, 1) for i in range(1, number + 1))
    return f"events {number}\nask 1 6\n".encode(), HANDSHAKE + IDS_ARE_8_BYTES + events + struct.pack(">IIBH", 11, 2, 0x80, 0), 0


def many_lines(count):
    """A plan whose last line is none."""
    return b"mirror\n" * (count // 7) + b"look", HANDSHAKE, 1


def many_asks(count):
    """A plan that asks more than may wait."""
    return b"ask 1 8\n" * (count // 8), HANDSHAKE + IDS_ARE_8_BYTES, 1


def one_ask(count):
    """A plan whose one line asks with more than a packet holds."""
    return b"ask 3 3 " + b"00" * (count // 2) + b"\n", HANDSHAKE + IDS_ARE_8_BYTES, 1


class Bench:
    def __init__(self, program, folder):
        self.program, self.folder = program, folder

    def file(self, name, content):
        path = os.path.join(self.folder, name)
        with open(path, "wb") as file:
            file.write(content)
        return path

    def run(self, words):
        """The processor's seconds of the best of three runs, the peak of memory in KiB (that of the process that starts it, some 10 MB, where the program takes less), and what came
        of the last."""
        times, peaks = [], []
        out, error = os.path.join(self.folder, "out"), os.path.join(self.folder, "error")
        for _ in range(3):
            told = subprocess.run([sys.executable, "-S", "-c", RUNNER, out, error, self.program, *words], check=True, capture_output=True, text=True).stdout
            status, seconds, peak = told.split()
            times.append(float(seconds))
            peaks.append(int(peak))
        with open(out, "rb") as told, open(error, "rb") as refused:
            return min(times), max(peaks), (int(status), told.read(), refused.read())

    def capture(self, make, count):
        text, wanted = make(count)
        seconds, peak, came = self.run(["check", self.file("capture", text)])
        return seconds, peak, came[1] == wanted, came

    def script(self, make, count):
        text, fault = make(count)
        given, machine = self.file("from", session([])), self.file("machine", text)
        seconds, peak, came = self.run(["serve-script", machine, "--from", given, "--to", os.path.join(self.folder, "to")])
        return seconds, peak, came[0] == (1 if fault else 0) and fault in came[2], came

    def target(self, make, count):
        content, answered = make(count)
        given, sent = self.file("from", content), os.path.join(self.folder, "to")
        seconds, peak, came = self.run(["serve-script", MACHINE, "--start", "all", "--from", given, "--to", sent, "--turns", "4000000000"])
        return seconds, peak, came[0] == 0 and os.path.getsize(sent) == answered, came

    def debugger(self, make, count):
        plan, content, status = make(count)
        words = ["attach", self.file("plan", plan), "--from", self.file("from", content), "--to", os.path.join(self.folder, "to"), "--turns", "4000000000"]
        seconds, peak, came = self.run(words)
        return seconds, peak, came[0] == status, (came[0], came[1][:200], came[2])

    def row(self, name, way, make, count):
        """Prints a row, and answers whether it takes in proportion."""
        shorter, longer = way(make, count), way(make, 4 * count)
        for _, _, is_answered, came in (shorter, longer):
            if not is_answered:
                print(f"{name}: {came[0]} {came[1][:200]} {came[2][:200]}")
                return False
        times = longer[0] / max(shorter[0], LEAST_SECONDS)
        print(f"{name:28} {count / 1e6:6.1f} MB {shorter[0]:7.3f} s {longer[0]:7.3f} s, {times:4.1f} times; {shorter[1]} and {longer[1]} KiB")
        return times <= MOST


def main():
    program = os.path.abspath(sys.argv[1] if len(sys.argv) > 1 else os.path.join(ROOT, "crates", "jdwp", "out", "jdwp"))
    scale = float(sys.argv[2]) if len(sys.argv) > 2 else 1.0
    with tempfile.TemporaryDirectory() as folder:
        bench = Bench(program, folder)
        rows = [
            ("a line of digits", bench.capture, one_line, 25_000_000),
            ("no handshake", bench.capture, no_handshake, 25_000_000),
            ("lines of a byte", bench.capture, byte_lines, 5_000_000),
            ("a deep script", bench.script, deep, 2_000_000),
            ("a long number", bench.script, long_number, 2_000_000),
            ("a long fraction", bench.script, long_fraction, 2_000_000),
            ("many members", bench.script, many_members, 2_000_000),
            ("a long text", bench.script, long_text, 5_000_000),
            ("many groups", bench.script, many_groups, 2_000_000),
            ("unknown commands", bench.target, unknown_commands, 5_000_000),
            ("data that do not read", bench.target, short_data, 5_000_000),
            ("long data that do not read", bench.target, long_data, 20_000_000),
            ("replies to a target", bench.target, replies, 5_000_000),
            ("requests refused", bench.target, requests, 5_000_000),
            ("wide requests", bench.target, wide_requests, 5_000_000),
            ("events of many threads", bench.debugger, many_threads, 1_000_000),
            ("threads that suspend all", bench.debugger, threads_that_suspend_all, 1_000_000),
            ("Resumes of many threads", bench.debugger, resumes, 1_000_000),
            ("Suspends and Resumes", bench.debugger, suspends_and_resumes, 1_000_000),
            ("requests kept", bench.debugger, kept_requests, 500_000),
            ("requests made anew", bench.debugger, requests_made_anew, 500_000),
            ("an id again and again", bench.debugger, one_id_again, 500_000),
            ("requests cleared", bench.debugger, cleared_requests, 500_000),
            ("breakpoints cleared", bench.debugger, cleared_breakpoints, 500_000),
            ("events of one thread", bench.debugger, one_thread, 1_000_000),
            ("a plan of many lines", bench.debugger, many_lines, 2_000_000),
            ("a plan that asks too much", bench.debugger, many_asks, 2_000_000),
            ("a line that asks too much", bench.debugger, one_ask, 5_000_000),
        ]
        within = [bench.row(name, way, make, int(scale * count)) for name, way, make, count in rows]
    sys.exit(0 if all(within) else 1)


if __name__ == "__main__":
    main()
