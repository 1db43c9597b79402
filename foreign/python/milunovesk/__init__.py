"""Both ends of Java Debug Wire Protocol sessions, without IO: a debugger, a target that runs a machine script, and captures.

It stands on the proved static library, linked into a shared object, which is looked for under the name that the environment variable
MILUNOVESK_LIBRARY has, and else as libmilunovesk.so beside this file. What the library's C header asks of its caller is kept here: handles are
neither copied nor taken to another thread, and lengths are true.
"""

from __future__ import annotations

from struct import Struct
from threading import get_ident
from types import TracebackType
from typing import List, NamedTuple, Optional, Type, TypeVar

from . import _library as c
from ._faults import (
    Closed,
    Error,
    Fault,
    NotUtf8,
    OutOfMemory,
    Refused,
    text_of,
)

__all__ = [
    "Closed",
    "Debugger",
    "Error",
    "Fault",
    "Handled",
    "Heard",
    "NotUtf8",
    "OutOfMemory",
    "Packet",
    "Packets",
    "Refused",
    "Request",
    "Target",
    "Thread",
    "Unanswered",
    "Verdict",
    "Waiting",
    "Widths",
    "check",
    "command_name",
    "error_name",
    "fault_text",
    "packets",
    "show",
]


class Verdict(NamedTuple):
    """How a capture is judged: by its first fault, 0 for none, and the line, from 1, in which the fault's last byte stands."""

    fault: int
    line: int

    def __bool__(self) -> bool:
        return self.fault == 0

    @property
    def text(self) -> str:
        return text_of(self.fault)


class Packet(NamedTuple):
    """A packet. Of a command `set` and `number` say which, of a reply `error` is its error code, 0 for none; what it lacks is None."""

    id: int
    set: Optional[int]
    number: Optional[int]
    error: Optional[int]
    data: bytes


class Packets(NamedTuple):
    """Packets that stand one behind the other, how many bytes they take, and what is left behind them, one of the constants: no bytes, the
    beginning of a packet, which calls for more, or the beginning of no packet, and then `fault` says why: 1 to 3."""

    packets: List[Packet]
    used: int
    left: int
    fault: int

    NOTHING = 0
    BEGINNING = 1
    FAULT = 3


class Waiting(NamedTuple):
    """How many bytes `feed` would take, how many wait to leave, and whether a session is open."""

    room: int
    waiting: int
    open: bool


class Widths(NamedTuple):
    """How many bytes each kind of id has."""

    field: int
    method: int
    object: int
    reference: int
    frame: int


class Thread(NamedTuple):
    """A thread as the debugger knows it: its suspend count, or what that is surely no less than, and whether the debugger holds it for suspended."""

    count: int
    held: bool


class Unanswered(NamedTuple):
    """A command that was asked under a ticket and is neither answered nor lost."""

    ticket: int
    set: int
    number: int


class Request(NamedTuple):
    """An event request that the target has: the id in its reply, and the event kind and the suspend policy as they were asked."""

    id: int
    kind: int
    policy: int


class Heard(NamedTuple):
    """What a turn of a debugger read. `kind` is one of the constants; `error` is the JDWP error code of an answer, 0 for none; `items` tells
    how many data there are for `Debugger.data`: that of the reply, or one for each composite event."""

    kind: int
    ticket: int
    error: int
    items: int

    NOTHING = 0
    HELLO = 1
    PARKED = 2
    SIZES = 3
    ANSWERED = 4
    SEEN = 5


class Handled(NamedTuple):
    """What a turn of a target did. `error` is the JDWP error code of the reply to the command of `id`, 0 for none."""

    kind: int
    id: int
    error: int

    NOTHING = 0
    HELLO = 1
    REPLIED = 2
    IGNORED = 3
    DEFERRED = 4


def check(text: str | bytes) -> Verdict:
    """Judges a capture. Raises `NotUtf8` and `OutOfMemory`."""
    given = _bytes(text)
    out = c.Judged()
    _done(c.library.mv_check(given, len(given), out))
    return Verdict(out.fault, out.line)


def show(text: str | bytes) -> tuple[str, Verdict]:
    """A capture in words, a line a message, and how it is judged. Raises `NotUtf8` and `OutOfMemory`."""
    given = _bytes(text)
    needed, out = c.size_t(), c.Judged()
    room = 0
    while True:
        buffer = c.buffer(room)
        answer = c.library.mv_show(given, len(given), buffer, room, needed, out)
        if answer != c.SHORT_BUFFER:
            break
        room = needed.value
    _done(answer)
    return buffer.raw[: needed.value].decode(), Verdict(out.fault, out.line)


def packets(data: bytes) -> Packets:
    """The packets in front of the bytes, which begin behind the handshakes: each exactly where one stands."""
    given = bytes(data)
    places, out = c.places(256), c.Found()
    found: List[Packet] = []
    used = 0
    while True:
        c.next_packets(given, used, places, out)
        found.extend(_packet(given, used + place) for place in places[: out.count])
        used += out.used
        if out.left != c.LEFT_PACKET:
            return Packets(found, used, out.left, out.fault)


# a packet's length, id and flags, and the set and number of a command or the two bytes of a reply's error code
_HEADER = Struct(">IIBBB")


def _packet(given: bytes, begin: int) -> Packet:
    """The whole packet that begins at this place."""
    length, id, flags, first, second = _HEADER.unpack_from(given, begin)
    data = given[begin + _HEADER.size : begin + length]
    if flags == 0:
        return Packet(id, first, second, None, data)
    return Packet(id, None, None, first << 8 | second, data)


def command_name(set: int, number: int) -> Optional[str]:
    """The name of a command, as `show` has it: `VirtualMachine.Suspend`. None where there is no such command."""
    return c.text("mv_command_name", _within(set, 8), _within(number, 8))


def error_name(error: int) -> Optional[str]:
    """The name of an error code: `INVALID_THREAD`. None where the specification has no such code."""
    return c.text("mv_error_name", _within(error, 16))


def fault_text(number: int) -> Optional[str]:
    """What the fault of this number is, in words. None where there is no such fault."""
    return c.text("mv_fault_text", _within(number, 16))


End = TypeVar("End", bound="_End")


class _End:
    """What keeps a handle. It is neither copied nor pickled, and each call comes from the thread that made it: `RuntimeError` from another."""

    def __init__(self) -> None:
        self._thread = get_ident()
        self._kept = c.Handle()

    @property
    def _handle(self) -> c.Handle:
        if get_ident() != self._thread:
            raise RuntimeError("an end is used by the thread that made it")
        return self._kept

    def __enter__(self: End) -> End:
        return self

    def __exit__(
        self,
        kind: Optional[Type[BaseException]],
        value: Optional[BaseException],
        trace: Optional[TracebackType],
    ) -> None:
        self.close()

    def __del__(self) -> None:
        # where another thread collects it, it is not freed: `close` and `with` are the ways to free it
        if getattr(self, "_thread", None) == get_ident():
            self.close()

    def __copy__(self) -> "_End":
        raise TypeError("an end is not copied")

    def __deepcopy__(self, memo: object) -> "_End":
        raise TypeError("an end is not copied")

    def __reduce__(self) -> str:
        raise TypeError("an end is not pickled")

    def close(self) -> None:
        """Frees the end. Each later call raises `Closed`, but this one, which does nothing."""
        c.library.mv_free(self._handle)

    def _call(self, name: str, *arguments: object) -> None:
        _done(getattr(c.library, name)(self._handle, *arguments))

    def _feed(self, name: str, data: bytes) -> int:
        count = c.size_t()
        self._call(name, data, len(data), count)
        return count.value

    def _take(self, name: str, most: int) -> bytes:
        buffer, count = c.buffer(most), c.size_t()
        self._call(name, buffer, most, count)
        return buffer.raw[: count.value]

    def _opened(self, name: str) -> bool:
        opened = c.flag()
        self._call(name, opened)
        return opened.value

    def _waiting(self, name: str) -> Waiting:
        room, waiting, opened = c.size_t(), c.size_t(), c.flag()
        self._call(name, room, waiting, opened)
        return Waiting(room.value, waiting.value, opened.value)


class Debugger(_End):
    """The debugger's end."""

    def __init__(self, first_id: int = 1, *, apart: bool = False) -> None:
        """Before its first session; its first packet has this id. `apart`: of a target that sends replies and composite events by threads of
        their own, as Java machines do; then `thread` tells what is surely so. Raises `OutOfMemory`."""
        super().__init__()
        self._call("mv_debugger_new_apart" if apart else "mv_debugger_new", _within(first_id, 32))

    def attach(self) -> bool:
        """Begins a session. False where one is open, or tickets of the last one wait for `lose`."""
        return self._opened("mv_debugger_attach")

    def feed(self, data: bytes) -> int:
        """Takes as many of the bytes that came as fit, and tells how many."""
        return self._feed("mv_debugger_feed", bytes(data))

    def take(self, most: int = 65536) -> bytes:
        """The bytes that are to be sent, or as many of them."""
        return self._take("mv_debugger_take", most)

    def waiting(self) -> Waiting:
        return self._waiting("mv_debugger_waiting")

    def ask(self, set: int, number: int, data: bytes = b"") -> int:
        """Asks a command by its data, and gives its ticket. Raises `Refused` with a number of 31 to 36, and `OutOfMemory`."""
        ticket, reason = c.number(64), c.number(16)
        answer = c.library.mv_debugger_ask(
            self._handle, _within(set, 8), _within(number, 8), bytes(data), len(data), ticket, reason
        )
        _done(answer, reason.value)
        return ticket.value

    def turn(self) -> Heard:
        """Handles the message in front. What it read is kept until a turn reads again. Raises `Fault` with a number of 41 to 45, or that of
        the frame's fault, 1 to 4, and the session is closed; and `OutOfMemory`, and nothing changed."""
        out = c.Heard()
        answer = c.library.mv_debugger_turn(self._handle, out)
        _done(answer, out.frame or out.fault)
        return Heard(out.kind, out.ticket, out.error, out.items)

    def data(self, item: int = 0) -> bytes:
        """The data of an item of what the last turn read. Raises `IndexError` where there is none, and `OutOfMemory`."""
        needed = c.size_t()
        room = 256
        while True:
            buffer = c.buffer(room)
            answer = c.library.mv_debugger_data(self._handle, _within(item, 64), buffer, room, needed)
            if answer == c.NO_ITEM:
                raise IndexError(item)
            if answer != c.SHORT_BUFFER:
                break
            room = needed.value
        _done(answer)
        return buffer.raw[: needed.value]

    def lines(self) -> List[str]:
        """What the last turn read, as `show` has it, a line a message; none where it read nothing. Raises `OutOfMemory`."""
        needed = c.size_t()
        room = 256
        while True:
            buffer = c.buffer(room)
            answer = c.library.mv_debugger_lines(self._handle, buffer, room, needed)
            if answer != c.SHORT_BUFFER:
                break
            room = needed.value
        _done(answer)
        return buffer.raw[: needed.value].decode().split("\n")[:-1]

    def widths(self) -> Optional[Widths]:
        """The widths of ids; None until they are known."""
        known, out = c.flag(), c.IdWidths()
        self._call("mv_debugger_widths", known, out)
        if not known.value:
            return None
        return Widths(out.field, out.method, out.object, out.reference, out.frame)

    def thread(self, thread: int) -> Optional[Thread]:
        """What is known of a thread; None where it is not. Of a debugger that is `apart`: None where the thread was not named, by a composite of
        its own or an answer without an error about it; else what is sure of it as long as it lives, with the count 0 and not held where nothing
        is. It is no longer sure from the end of the thread on, which THREAD_DEATH tells."""
        known, count, held = c.flag(), c.number(32), c.flag()
        self._call("mv_debugger_thread", _within(thread, 64), known, count, held)
        return Thread(count.value, held.value) if known.value else None

    def unanswered(self) -> list[Unanswered]:
        """The commands that are neither answered nor lost, in the order asked."""
        found: list[Unanswered] = []
        while True:
            out = c.Asked()
            self._call("mv_debugger_unanswered", len(found), out)
            if out.ticket == 0:
                return found
            found.append(Unanswered(out.ticket, out.set, out.number))

    def requests(self) -> list[Request]:
        """The event requests that the target has by all that was read in the session, the last one asked last."""
        found: list[Request] = []
        while True:
            out = c.Request()
            answer = c.library.mv_debugger_request(self._handle, len(found), out)
            if answer == c.NO_ITEM:
                return found
            _done(answer)
            found.append(Request(out.id, out.kind, out.policy))

    def lose(self) -> list[int]:
        """The connection is lost: the tickets that will never be answered."""
        tickets, count = c.tickets(), c.size_t()
        self._call("mv_debugger_lose", tickets, c.MOST_TICKETS, count)
        return list(tickets[: count.value])


class Target(_End):
    """The target's end, over the machine of a script."""

    FROZEN = 0
    QUIET = 1
    REPORTED = 2
    ENDED = 3

    def __init__(self, script: str | bytes, start_all: bool = True, count_limit: int = 2147483647) -> None:
        """All threads begin suspended where `start_all`; no Suspend raises a count above `count_limit`. Raises `Fault` with the number of
        the script's first fault, 21 to 26, `ValueError` where the limit is outside 1 to 2,147,483,647, `NotUtf8` and `OutOfMemory`."""
        super().__init__()
        given = _bytes(script)
        out = c.Judged()
        answer = c.library.mv_target_new(self._handle, given, len(given), start_all, _within(count_limit, 32), out)
        if answer == c.REFUSED:
            raise ValueError(count_limit)
        _done(answer, out.fault)

    def accept(self) -> bool:
        """Begins a session. False where one is open, or the machine is dead."""
        return self._opened("mv_target_accept")

    def feed(self, data: bytes) -> int:
        """Takes as many of the bytes that came as fit, and tells how many."""
        return self._feed("mv_target_feed", bytes(data))

    def take(self, most: int = 65536) -> bytes:
        """The bytes that are to be sent, or as many of them."""
        return self._take("mv_target_take", most)

    def waiting(self) -> Waiting:
        return self._waiting("mv_target_waiting")

    def turn(self) -> Handled:
        """Handles the message in front. Raises `Fault` with a number of 1 to 4, and the session is lost; and `OutOfMemory`."""
        out = c.Handled()
        answer = c.library.mv_target_turn(self._handle, out)
        _done(answer, out.fault)
        return Handled(out.kind, out.id, out.error)

    def step(self, thread: int) -> int:
        """Lets a thread make a step: `FROZEN`, `QUIET`, `REPORTED` or `ENDED`."""
        stepped = c.number(8)
        self._call("mv_target_step", _within(thread, 64), stepped)
        return stepped.value

    def live(self) -> list[int]:
        """The threads that live."""
        found: list[int] = []
        while True:
            lives, thread = c.flag(), c.number(64)
            self._call("mv_target_live", len(found), lives, thread)
            if not lives.value:
                return found
            found.append(thread.value)

    def count(self, thread: int) -> Optional[int]:
        """The suspend count of a thread; None where it does not live."""
        lives, count = c.flag(), c.number(32)
        self._call("mv_target_thread", _within(thread, 64), lives, count)
        return count.value if lives.value else None

    def lose(self) -> None:
        """The connection is lost."""
        self._call("mv_target_lose")


def _bytes(text: str | bytes) -> bytes:
    return text.encode() if isinstance(text, str) else bytes(text)


def _within(number: int, bits: int) -> int:
    """The number, where it has so many bits. ctypes would cut it off."""
    if not 0 <= number < 1 << bits:
        raise ValueError(number)
    return number


def _done(answer: int, number: int = 0) -> None:
    """Raises what an answer says, but for one that is done."""
    if answer == c.DONE:
        return
    if answer == c.EMPTY:
        raise Closed(0)
    if answer == c.NO_MEMORY:
        raise OutOfMemory(0)
    if answer == c.NOT_UTF8:
        raise NotUtf8(0)
    if answer == c.REFUSED:
        raise Refused(number)
    if answer == c.FAULT:
        raise Fault(number)
    raise Error(number)
