#!/usr/bin/env python3
"""Whether a thread of a Java machine that the debugger shows as suspended is: eight threads count in memory that this script reads, too.

The debugger is the product's own, of `Order::Apart`, through its package for Python; the machine is that of a JDK (Debian:
openjdk-17-jdk-headless), which runs `Counting.java`. In each session random commands are asked, many before the first is answered:
Suspend and Resume of all and of a thread, SuspendCount, breakpoints of each policy set and cleared in the way of one thread, and
invocations in it, of that thread alone and of all. What is judged:
- no session ends with a fault (43 is a reply that does not read, 45 an event that is refused);
- a thread that is shown as suspended does not count: from the moment on in which it begins to be shown, and as long as it is;
- a SuspendCount never tells less than what was sure when it was asked, of a thread that lives. Where it does, and the end of the thread
  is told later, it had ended: such are counted.

A thread is taken as ended from its THREAD_DEATH on. In one half of the sessions each Suspend has its Resume, and threads are resumed as
Java's own debugger interface does it: the thread behind an event that stopped it, and all behind one that stopped all ("matched"); in the
other half all is random ("wild"). In some the session is ended amid, and another is begun at the same machine.

    bench/java.py [--sessions N] [--seconds S] [--seed K]

30 sessions of 30 seconds where none are given. Each prints its seed: `--sessions 1 --seed K` asks the same of the machine again, whose own
timing is another. Ends with status 1 where anything was judged wrong, which is told whole. `make -C foreign` builds the library.
"""

import argparse
import collections
import random
import select
import socket
import struct
import sys
import tempfile
import time

sys.dont_write_bytecode = True  # no folder of them beside the scripts

import jvm
from jvm import ALL, EVENT_THREAD, NONE, ids, number, string

milunovesk = jvm.package()
Heard = milunovesk.Heard

SUSPEND, RESUME, DISPOSE, ALL_THREADS, CLASSES_BY_SIGNATURE = (1, 8), (1, 9), (1, 6), (1, 4), (1, 2)
METHODS, INVOKE = (2, 5), (3, 3)
NAME, SUSPEND_THREAD, RESUME_THREAD, SUSPEND_COUNT = (11, 1), (11, 2), (11, 3), (11, 12)
SET, CLEAR, CLEAR_BREAKPOINTS = (15, 1), (15, 2), (15, 3)
SINGLE_THREADED = 1
MOST_WAITING = 24  # commands that wait
STUCK = 0.05  # seconds without an event
PATIENCE = 20  # seconds
REMEMBERED = 60  # lines of what was asked and read that are told with a failure
TOLD_WHOLE = 3  # failures of a session that are told with them
POLICIES = {NONE: "NONE", EVENT_THREAD: "EVENT_THREAD", ALL: "ALL"}


class Looks:
    """Which threads are shown as suspended, and that they do not count."""

    def __init__(self, machine, debugger, told, figures):
        self.machine, self.debugger, self.told, self.figures = machine, debugger, told, figures
        self.places = {}  # of threads that live
        self.shown = {}  # how far a thread had counted when it began to be shown, and when that was
        self.others = {}  # how far one had counted at the last look that is not shown

    def sure(self, thread):
        known = self.debugger.thread(thread)
        return known.count if known else 0

    def is_shown(self, thread):
        known = self.debugger.thread(thread)
        return known is not None and known.held

    def begin(self, thread, place):
        self.places[thread] = place

    def end(self, thread):
        self.look()
        for table in self.places, self.shown, self.others:
            table.pop(thread, None)

    def look(self):
        """Looks at each thread that is shown since the last refresh."""
        for thread, (before, since) in self.shown.items():
            now = self.machine.counter(self.places[thread])
            self.figures["looks"] += 1
            if now != before:
                self.figures["moved"] += 1
                place, seconds = self.places[thread], time.monotonic() - since
                self.told(f"counter {place} (thread {thread}) is shown for {seconds:.6f} s and went from {before} to {now}")
                self.shown[thread] = now, since

    def refresh(self):
        """Whom the debugger shows now: behind each call that may change it."""
        for thread, place in self.places.items():
            if not self.is_shown(thread):
                self.shown.pop(thread, None)
            elif thread not in self.shown:
                self.shown[thread] = self.machine.counter(place), time.monotonic()
                self.figures["times shown"] += 1

    def see_others(self):
        """Looks at those that are not shown, too: most move."""
        for thread, place in self.places.items():
            now = self.machine.counter(place)
            if thread not in self.shown and thread in self.others:
                self.figures["other looks"] += 1
                self.figures["others moved"] += now != self.others[thread]
            self.others[thread] = now


class Talk:
    """A session of the debugger over a connection. Each call of the debugger that may change whom it shows is between two looks."""

    def __init__(self, session, port):
        self.session, self.debugger, self.looks = session, session.debugger, session.looks
        self.line = socket.create_connection(("127.0.0.1", port))
        self.line.setsockopt(socket.IPPROTO_TCP, socket.TCP_NODELAY, 1)
        self.debugger.attach()

    def send(self):
        waits = self.debugger.take()
        if waits:
            self.line.sendall(waits)

    def ask(self, which, data=b"", why=""):
        """Asks a command, and gives its ticket."""
        self.looks.look()
        ticket = self.debugger.ask(*which, data)
        self.looks.refresh()
        self.session.figures["asked"] += 1
        self.session.waiting += 1
        self.session.note(f"asked {ticket}: {which} {data.hex()} {why}")
        return ticket

    def hear(self, seconds):
        """Sends what waits, and handles what comes within so many seconds, or what has come."""
        self.send()
        if select.select([self.line], [], [], seconds)[0]:
            came = self.line.recv(self.debugger.waiting().room)
            if not came:
                raise EOFError("the machine closed the connection")
            self.debugger.feed(came)
        self.looks.look()
        while (heard := self.debugger.turn()).kind != Heard.NOTHING:
            self.looks.refresh()
            self.session.take_in(heard)
            self.looks.look()
            self.send()
        self.looks.see_others()

    def call(self, which, data=b""):
        """Asks a command, and hears on until it is answered: its data, or None where it is an error."""
        ticket = self.ask(which, data)
        self.session.wanted[ticket] = None
        until = time.monotonic() + PATIENCE
        while (answer := self.session.wanted[ticket]) is None:
            if time.monotonic() > until:
                raise TimeoutError(f"no answer to {which} within {PATIENCE} seconds")
            self.hear(0.1)
        del self.session.wanted[ticket]
        return None if answer[0] else answer[1]

    def leave(self, disposes):
        if disposes:
            self.call(DISPOSE)
        self.looks.look()
        self.debugger.lose()
        self.looks.refresh()
        self.line.close()


class Session:
    """Random commands at one machine."""

    def __init__(self, machine, seed, seconds, figures):
        self.machine, self.seed, self.figures = machine, seed, figures
        self.random = random.Random(seed)
        self.is_matched = self.random.random() < 0.5
        self.until = time.monotonic() + seconds
        self.notes = collections.deque(maxlen=REMEMBERED)
        self.failures = []
        self.debugger = milunovesk.Debugger(apart=True)
        self.looks = Looks(machine, self.debugger, self.fail, figures)
        self.begin_anew()

    def begin_anew(self):
        """Nothing is known, as a session begins."""
        for thread in list(self.looks.places):
            self.looks.end(thread)
        self.wanted = {}  # the answers of commands that are waited for
        self.tickets = {}  # what other commands were: a kind of question and what it is about
        self.requests = []  # breakpoints that stand
        self.due = []  # what is to be asked, and when
        self.stopped = set()  # threads that an event stopped, and that were not resumed since
        self.invoked = set()  # threads of which an invocation is not answered
        self.doubts = []  # a thread, and why it had ended unless something is wrong
        self.balance = 0  # Suspends of all less Resumes of all
        self.waiting = 0  # commands that are not answered
        self.heard = time.monotonic()

    def note(self, text):
        self.notes.append(f"{time.monotonic():.6f} {text}")

    def fail(self, text):
        self.failures.append(text)
        whole = len(self.failures) <= TOLD_WHOLE
        print(f"seed {self.seed}: {text}", *(["before it:", *self.notes] if whole else []), sep="\n  ", flush=True)

    # ---- what is read

    def take_in(self, heard):
        if heard.kind in (Heard.SEEN, Heard.SIZES):
            for item in range(heard.items):
                self.see(self.debugger.data(item))
        elif heard.kind == Heard.ANSWERED:
            self.waiting -= 1
            data = self.debugger.data() if heard.items else b""
            self.note(f"read the answer to {heard.ticket}: {heard.error} {data[:40].hex()}")
            if heard.ticket in self.wanted:
                self.wanted[heard.ticket] = heard.error, data
            kind, about = self.tickets.pop(heard.ticket, (None, None))
            if kind is not None:
                kind(about, heard.error, data)

    def see(self, data):
        """A composite."""
        policy, found = jvm.events_in(data)
        self.note(f"read a composite: {POLICIES[policy]} {found}")
        self.heard = time.monotonic()
        self.figures["composites", policy] += 1
        for kind, _, thread in found:
            if kind == jvm.THREAD_START:
                self.learn(thread)
            elif kind == jvm.THREAD_DEATH:
                self.forget(thread)
        kinds = {kind for kind, _, _ in found}
        thread = found[0][2]
        if policy != NONE and thread is not None:
            self.see_stop(policy, thread, kinds)

    def see_stop(self, policy, thread, kinds):
        """A composite that stopped its thread, or all."""
        self.figures["stops", policy, self.is_matched] += 1
        if self.looks.is_shown(thread):
            self.figures["at once", policy, self.is_matched] += 1
        else:
            self.figures["needed", self.is_matched] += 1
            self.ask_count(thread, is_needed=True)
        if jvm.VM_START in kinds:
            self.due.append((time.monotonic(), self.resume_all))
        elif self.is_matched and jvm.BREAKPOINT in kinds and self.random.random() < 0.3:
            self.invoke_before_resume(policy, thread)
        else:
            if jvm.BREAKPOINT in kinds:
                self.stopped.add(thread)
            self.plan_resume(policy, thread)

    def learn(self, thread):
        if thread not in self.looks.places:
            self.ask(NAME, ids(thread), self.take_name, thread)

    def take_name(self, thread, error, data):
        if error:
            return
        name, _ = string(data, 0)
        if name.startswith("counter "):
            self.looks.begin(thread, int(name.split()[1]))

    def forget(self, thread):
        """A thread ended: what was told of it as of one that does not live is right."""
        self.figures["ended"] += 1
        self.looks.end(thread)
        self.stopped.discard(thread)
        before = len(self.doubts)
        self.doubts = [it for it in self.doubts if it[0] != thread]
        self.figures["below, ended"] += before - len(self.doubts)

    def take_count(self, about, error, data):
        thread, sure, is_needed = about
        if error or thread not in self.looks.places:
            return
        told = struct.unpack(">i", data)[0]
        self.figures["compared"] += 1
        self.figures["above 0"] += told > 0
        self.figures["above 0 and sure"] += told > 0 and told == sure
        if told < sure:
            why = f"SuspendCount of counter {self.looks.places[thread]} (thread {thread}) is {told}, and {sure} was sure"
            self.doubts.append((thread, why))
            self.note(why)
        if is_needed and self.looks.is_shown(thread):
            self.figures["shown once asked"] += 1

    def take_request(self, _, error, data):
        if not error:
            self.requests.append(number(data, 0, 4))

    def take_invocation(self, about, error, data):
        thread, policy = about
        self.invoked.discard(thread)
        self.figures["refused" if error else "invoked"] += 1
        if policy is not None:
            self.plan_resume(policy, thread)

    # ---- what is asked

    def ask(self, which, data=b"", kind=None, about=None):
        """Asks a command, whose answer goes to a method of this."""
        ticket = self.talk.ask(which, data)
        if kind is not None:
            self.tickets[ticket] = kind, about

    def ask_count(self, thread, is_needed=False):
        ticket = self.talk.ask(SUSPEND_COUNT, ids(thread))
        self.tickets[ticket] = self.take_count, (thread, self.looks.sure(thread), is_needed)

    def resume_all(self):
        self.balance -= 1
        self.stopped.clear()
        self.ask(RESUME)

    def resume(self, thread):
        self.stopped.discard(thread)
        self.ask(RESUME_THREAD, ids(thread))

    def plan_resume(self, policy, thread):
        """What a client does behind an event that stopped."""
        roll = self.random.random()
        after = time.monotonic() + (0 if roll < 0.5 else self.random.random() ** 3 * 0.01)
        if self.is_matched:
            self.due.append((after, self.resume_all if policy == ALL else lambda: self.resume(thread)))
            return
        for _ in range(self.random.choice((0, 1, 1, 1, 2))):
            by_all = self.random.random() < 0.5
            self.due.append((after, self.resume_all if by_all else lambda: self.resume(thread)))

    def do_what_is_due(self):
        now = time.monotonic()
        for entry in [it for it in self.due if it[0] <= now]:
            if self.waiting < MOST_WAITING:
                self.due.remove(entry)
                entry[1]()

    def set_breakpoint(self):
        if len(self.requests) < 6:
            policy = self.random.choice((NONE, EVENT_THREAD, EVENT_THREAD, ALL))
            method = self.methods[self.random.choice(("first", "second", "third"))]
            self.ask(SET, jvm.breakpoint_at(policy, self.counting, method), self.take_request)

    def clear_breakpoint(self):
        if self.requests:
            request = self.requests.pop(self.random.randrange(len(self.requests)))
            self.ask(CLEAR, struct.pack(">BI", jvm.BREAKPOINT, request))

    def clear_breakpoints(self):
        self.requests = []
        self.ask(CLEAR_BREAKPOINTS)

    def suspend_all(self):
        if self.balance < 3:
            self.balance += 1
            self.ask(SUSPEND)
            if self.is_matched:
                self.due.append((time.monotonic() + self.random.random() * 0.01, self.resume_all))

    def suspend_one(self):
        thread = self.any_thread()
        self.ask(SUSPEND_THREAD, ids(thread))
        self.due.append((time.monotonic() + self.random.random() * 0.01, lambda: self.resume(thread)))

    def any_thread(self):
        return self.random.choice(list(self.looks.places))

    def invoke(self, thread, method, options, policy=None):
        """A method in a thread that an event stopped; where a policy is given, that of the event, all goes on once it is answered."""
        self.invoked.add(thread)
        data = ids(self.counting, thread, self.methods[method]) + struct.pack(">IBqI", 1, ord("J"), 21, options)
        self.ask(INVOKE, data, self.take_invocation, (thread, policy))

    def invoke_before_resume(self, policy, thread):
        """All threads run in an invocation where all were stopped."""
        options = SINGLE_THREADED if policy == EVENT_THREAD else self.random.choice((0, SINGLE_THREADED))
        self.invoke(thread, "twice", options, policy)

    def invoke_at_random(self):
        ready = [it for it in self.stopped - self.invoked if self.looks.is_shown(it)]
        if ready and not self.is_matched:
            method = self.random.choice(("twice", "twice", "third"))
            self.invoke(self.random.choice(ready), method, self.random.choice((0, SINGLE_THREADED)))

    def act(self):
        """A random command, or a rest."""
        wild = 0 if self.is_matched else 1
        ways = (
            (self.suspend_all, 2),
            (self.resume_all, 3 * wild),
            (self.suspend_one, 4),
            (lambda: self.resume(self.any_thread()), 4 * wild),
            (lambda: self.ask_count(self.any_thread()), 8),
            (self.set_breakpoint, 8),
            (self.clear_breakpoint, 5),
            (self.clear_breakpoints, 0.5),
            (self.invoke_at_random, 8),
        )
        self.random.choices([way for way, _ in ways], [weight for _, weight in ways])[0]()

    def go_on(self):
        """Asks what is due; and where nothing is reported for a while, all that was suspended goes on, unless each Resume is matched."""
        self.do_what_is_due()
        if not self.is_matched and time.monotonic() - self.heard > STUCK:
            self.heard = time.monotonic()
            for _ in range(3):
                self.resume_all()
            for thread in list(self.looks.places):
                if self.looks.is_shown(thread):
                    self.resume(thread)

    # ---- the whole

    def find(self):
        """The class, its methods and the threads, once they are there."""
        while True:
            self.go_on()
            found = self.talk.call(CLASSES_BY_SIGNATURE, struct.pack(">I", 10) + b"LCounting;")
            if number(found, 0, 4) == 1:
                break
            time.sleep(0.02)
        self.counting = number(found, 5)
        told, at, self.methods = self.talk.call(METHODS, ids(self.counting)), 4, {}
        for _ in range(number(told, 0, 4)):
            method = number(told, at)
            name, at = string(told, at + 8)
            _, at = string(told, at)
            self.methods[name], at = method, at + 4
        for kind in jvm.THREAD_START, jvm.THREAD_DEATH:
            policy = self.random.choice((NONE, NONE, EVENT_THREAD, ALL))
            self.ask(SET, struct.pack(">BBI", kind, policy, 0))
        until = time.monotonic() + PATIENCE
        while len(self.looks.places) < jvm.STAY:
            if time.monotonic() > until:
                raise TimeoutError(f"not {jvm.STAY} counters within {PATIENCE} seconds")
            self.go_on()
            told = self.talk.call(ALL_THREADS)
            for at in range(4, len(told), 8):
                self.learn(number(told, at))
            self.talk.hear(0.02)

    def talk_until(self, until):
        self.talk = Talk(self, self.machine.port)
        while self.debugger.widths() is None:
            self.talk.hear(0.1)
        self.find()
        while time.monotonic() < until:
            self.go_on()
            for _ in range(self.random.choice((0, 1, 1, 2, 5))):
                if self.waiting < MOST_WAITING:
                    self.act()
            self.talk.hear(self.random.choice((0, 0, 0.0005, 0.002, 0.005)))
        self.talk.leave(self.random.random() < 0.5)
        for _, why in self.doubts:
            self.fail(why)

    def run(self):
        begun = time.monotonic()
        try:
            if self.random.random() < 0.3:
                self.talk_until(begun + (self.until - begun) / 2)
                self.begin_anew()
                self.machine.wait()
            self.talk_until(self.until)
        except milunovesk.Fault as fault:
            self.fail(f"the session ended with {fault}")
        except (EOFError, OSError) as why:
            self.fail(f"the session ended: {why}; the machine {'lives' if self.machine.is_alive() else 'ended'}")
        finally:
            self.debugger.close()


def told(figures):
    """What was counted, in lines."""
    yield f"{figures['looks']} looks at threads shown as suspended, in {figures['times shown']} stretches: {figures['moved']} moved"
    yield f"{figures['other looks']} looks at others: {figures['others moved']} moved"
    composites = ", ".join(f"{figures['composites', policy]} of {name}" for policy, name in POLICIES.items())
    yield f"{figures['asked']} commands; composites: {composites}"
    for is_matched, way in (True, "matched"), (False, "wild"):
        stops = ", ".join(
            f"{figures['at once', policy, is_matched]} of {figures['stops', policy, is_matched]} by {POLICIES[policy]}"
            for policy in (EVENT_THREAD, ALL)
        )
        yield f"{way}: shown at once at an event that stopped it: {stops}; SuspendCounts needed: {figures['needed', is_matched]}"
    yield f"SuspendCounts needed that showed the thread: {figures['shown once asked']}"
    yield (
        f"SuspendCounts compared: {figures['compared']}; above 0: {figures['above 0']}, just what was sure: {figures['above 0 and sure']};"
        f" less, of threads that had ended: {figures['below, ended']}"
    )
    yield f"invocations: {figures['invoked']} answered, {figures['refused']} refused; threads that ended: {figures['ended']}"


def main():
    parser = argparse.ArgumentParser(description=__doc__.splitlines()[0])
    parser.add_argument("--sessions", type=int, default=30)
    parser.add_argument("--seconds", type=float, default=30)
    parser.add_argument("--seed", type=int, default=1)
    words = parser.parse_args()
    figures, failed = collections.Counter(), 0
    print(jvm.version())
    with tempfile.TemporaryDirectory() as folder:
        jvm.compiled(folder)
        for seed in range(words.seed, words.seed + words.sessions):
            looks = figures["looks"]
            with jvm.Machine(folder, seed, suspend=seed % 2 == 0) as machine:
                session = Session(machine, seed, words.seconds, figures)
                session.run()
            failed += len(session.failures)
            print(f"seed {seed}: {figures['looks'] - looks} looks, {len(session.failures)} failures", flush=True)
    print(*told(figures), f"{words.sessions} sessions of {words.seconds:g} seconds: {failed} failures", sep="\n")
    return 1 if failed else 0


if __name__ == "__main__":
    sys.exit(main())
