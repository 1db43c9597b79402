#!/usr/bin/env python3
"""How the debugger takes recorded sessions of others: whether it refuses anything, and how often it shows a thread as suspended.

A capture is what went between some debugger and a Java machine (bench/relay.py writes one; bench/record_jdb.py records some of jdb). The
target's side of it is read by a debugger of `Order::Apart` through its package for Python, packet by packet, and what the other debugger
asked is asked by this one at the same place of the capture; the ids of replies are those under which it asked. Prints for each capture
whether it was refused, how often threads began to be shown as suspended, at how many of the composites that stopped a thread it was shown
at once, and by which fault a debugger of `Order::One` refuses the same. Ends with status 1 where the first refused one, or where a reply
to SuspendCount or ThreadReference.Status says that less was so than what was sure when it was asked (of a thread whose THREAD_DEATH does
not follow).

    bench/replay.py CAPTURE..

`make -C foreign` builds the library.
"""

import collections
import struct
import sys

sys.dont_write_bytecode = True  # no folder of them beside the scripts

import jvm
from jvm import number

milunovesk = jvm.package()
Heard = milunovesk.Heard

HANDSHAKE = b"JDWP-Handshake"
HEADER = 11
ID_SIZES, STATUS, SUSPEND_COUNT = (1, 7), (11, 4), (11, 12)
THREAD_SET = 11
CLASS_UNLOAD = 9
BAD_EVENT = 45


def messages(capture):
    """The line in which each message of a capture ends, which end sent it, and its bytes."""
    waits = {">": b"", "<": b""}
    with open(capture, encoding="ascii") as lines:
        for place, line in enumerate(lines, 1):
            mark, _, text = line.partition(" ")
            waits[mark] += bytes.fromhex(text)
            while (size := size_in_front(waits[mark])) and size <= len(waits[mark]):
                yield place, mark, waits[mark][:size]
                waits[mark] = waits[mark][size:]


def size_in_front(data):
    if data.startswith(HANDSHAKE[:4]):
        return len(HANDSHAKE)
    return number(data, 0, 4) if len(data) >= HEADER else 0


def thread_of_events(data):
    """The thread of a composite, where it has one."""
    if number(data, 1, 4) == 0 or data[5] in (jvm.VM_DEATH, CLASS_UNLOAD):
        return None
    return number(data, 10)


class Replay:
    """One debugger that reads what the target of a capture sent."""

    def __init__(self, apart):
        self.debugger = milunovesk.Debugger(apart=apart)
        self.ids = {}  # of a command in the capture: under which it was asked here
        self.early = []  # commands that the other asked before the widths of ids were known
        self.asked = {}  # by ticket: what is judged as its answer comes, the thread, and what was sure
        self.threads = set()
        self.shown = set()
        self.begun = collections.Counter()
        self.figures = collections.Counter()
        self.doubts = {}

    def sent(self):
        """The ids of the packets that leave."""
        data, found = self.debugger.take().removeprefix(HANDSHAKE), []
        while data:
            found.append(number(data, 4, 4))
            data = data[number(data, 0, 4) :]
        return found

    def refresh(self):
        now = {it for it in self.threads if (known := self.debugger.thread(it)) and known.held}
        self.begun.update(now - self.shown)
        self.shown = now

    def sure(self, thread):
        known = self.debugger.thread(thread)
        return known.count if known else 0

    def ask(self, packet):
        """What the other debugger asked."""
        if packet == HANDSHAKE:
            self.debugger.attach()
            self.sent()
            return
        name, which, data = number(packet, 4, 4), (packet[9], packet[10]), packet[HEADER:]
        if which == ID_SIZES and name not in self.ids and not self.ids:
            self.ids[name] = None  # it is asked by the debugger itself, as the handshake was read
            return
        if self.debugger.widths() is None:
            self.early.append(packet)
            return
        if which[0] == THREAD_SET:
            self.threads.add(number(data, 0))
        ticket = self.debugger.ask(*which, data)
        (self.ids[name],) = self.sent()
        self.figures["commands"] += 1
        if which in (SUSPEND_COUNT, STATUS):
            self.asked[ticket] = which, number(data, 0), self.sure(number(data, 0))
        self.refresh()

    def read(self, packet):
        """What the target sent."""
        if packet != HANDSHAKE and packet[8] == 0x80:
            name = number(packet, 4, 4)
            packet = packet[:4] + (self.own if self.ids[name] is None else self.ids[name]).to_bytes(4, "big") + packet[8:]
        if self.debugger.feed(packet) != len(packet):
            raise RuntimeError("the debugger takes no more")
        while (heard := self.debugger.turn()).kind != Heard.NOTHING:
            if heard.kind == Heard.HELLO:
                (self.own,) = self.sent()
            elif heard.kind in (Heard.SEEN, Heard.SIZES):
                for item in range(heard.items):
                    self.see(self.debugger.data(item))
            elif heard.ticket in self.asked and not heard.error:
                self.judge(*self.asked.pop(heard.ticket), self.debugger.data())
            self.refresh()
        if self.debugger.widths() is not None:
            early, self.early = self.early, []
            for command in early:
                self.ask(command)

    def see(self, data):
        thread = thread_of_events(data)
        self.figures["composites"] += 1
        if thread is None:
            return
        self.threads.add(thread)
        if data[0] != jvm.NONE:
            self.figures["stops"] += 1
            self.figures["shown at once"] += self.sure(thread) > 0
        if data[5] == jvm.THREAD_DEATH:
            self.doubts.pop(thread, None)

    def judge(self, which, thread, sure, data):
        """An answer about a thread beside what was sure as it was asked."""
        told = struct.unpack(">i", data)[0] if which == SUSPEND_COUNT else number(data, 4, 4) & 1
        self.figures["answers compared"] += 1
        if told < (sure if which == SUSPEND_COUNT else min(sure, 1)):
            self.doubts[thread] = f"thread {thread}: {which} tells {told}, and {sure} was sure"

    def run(self, capture):
        """None, or the fault by which a packet was refused, and its line."""
        try:
            for line, mark, packet in messages(capture):
                if mark == ">":
                    self.ask(packet)
                else:
                    self.read(packet)
        except milunovesk.Fault as fault:
            return fault.number, line
        finally:
            self.debugger.close()
        return None


def main():
    if len(sys.argv) < 2:
        sys.exit("bench/replay.py CAPTURE..")
    totals, failed, by_event = collections.Counter(), 0, 0
    for capture in sys.argv[1:]:
        apart, one = Replay(apart=True), Replay(apart=False)
        fault, other = apart.run(capture), one.run(capture)
        print(f"{capture}: {told(fault)}; {shown(apart)}; of Order::One {told(other)}", *apart.doubts.values(), sep="\n  ")
        totals.update(apart.figures)
        failed += fault is not None or bool(apart.doubts)
        by_event += other is not None and other[0] == BAD_EVENT
    print(
        f"{len(sys.argv) - 1} captures: {failed} wrong; {totals['shown at once']} of {totals['stops']} stops shown at once,",
        f"{totals['answers compared']} answers compared; {by_event} end with {BAD_EVENT} of Order::One",
    )
    return 1 if failed else 0


def told(fault):
    return f"fault {fault[0]} at line {fault[1]}" if fault else "no fault"


def shown(replay):
    figures, times = replay.figures, sum(replay.begun.values())
    return (
        f"{figures['commands']} commands, {figures['composites']} composites; {len(replay.begun)} threads shown {times} times,"
        f" {figures['shown at once']} of {figures['stops']} stops at once"
    )


if __name__ == "__main__":
    sys.exit(main())
