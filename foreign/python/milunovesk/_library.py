"""The shared object: its structs and the signatures of its calls, as `milunovesk.h` has them."""

from __future__ import annotations

import ctypes as c
import os
from typing import Optional

DONE, EMPTY, LIVE, OTHER_KIND, NO_MEMORY, NOT_UTF8, SHORT_BUFFER, REFUSED, FAULT, NO_ITEM = range(10)
LEFT_PACKET = 2
MOST_TICKETS = 1024

size_t = c.c_size_t
flag = c.c_bool


class Handle(c.Structure):
    _fields_ = [("live", c.c_bool), ("at", c.c_void_p)]


class Found(c.Structure):
    _fields_ = [("count", c.c_size_t), ("used", c.c_size_t), ("left", c.c_uint8), ("fault", c.c_uint16)]


class Judged(c.Structure):
    _fields_ = [("yes", c.c_bool), ("fault", c.c_uint16), ("line", c.c_size_t)]


class Heard(c.Structure):
    _fields_ = [
        ("kind", c.c_uint8),
        ("error", c.c_uint16),
        ("fault", c.c_uint16),
        ("frame", c.c_uint16),
        ("ticket", c.c_uint64),
        ("items", c.c_size_t),
    ]


class IdWidths(c.Structure):
    _fields_ = [(name, c.c_uint8) for name in ("field", "method", "object", "reference", "frame")]


class Asked(c.Structure):
    _fields_ = [("ticket", c.c_uint64), ("set", c.c_uint8), ("number", c.c_uint8)]


class Request(c.Structure):
    _fields_ = [("id", c.c_int32), ("kind", c.c_uint8), ("policy", c.c_uint8)]


class Handled(c.Structure):
    _fields_ = [("kind", c.c_uint8), ("error", c.c_uint16), ("fault", c.c_uint16), ("id", c.c_uint32)]


def number(bits: int) -> c._SimpleCData:
    return {8: c.c_uint8, 16: c.c_uint16, 32: c.c_uint32, 64: c.c_uint64}[bits]()


def buffer(room: int) -> c.Array:
    """So many bytes, and one that no call is told of, so that its address is never null."""
    return c.create_string_buffer(room + 1)


def tickets() -> c.Array:
    return (c.c_uint64 * MOST_TICKETS)()


def places(room: int) -> c.Array:
    return (c.c_size_t * room)()


_P = c.POINTER
_H, _FLAG, _SIZE, _U8, _U16, _U32, _U64 = (
    _P(t) for t in (Handle, c.c_bool, c.c_size_t, c.c_uint8, c.c_uint16, c.c_uint32, c.c_uint64)
)
_IN, _OUT = c.c_char_p, c.c_char_p

_SIGNATURES: dict[str, list[object]] = {
    "mv_version": [],
    "mv_kind": [_H, _U8],
    "mv_free": [_H],
    "mv_next_packets": [c.c_void_p, c.c_size_t, _SIZE, c.c_size_t, _P(Found)],
    "mv_command_name": [c.c_uint8, c.c_uint8, _OUT, c.c_size_t, _SIZE],
    "mv_error_name": [c.c_uint16, _OUT, c.c_size_t, _SIZE],
    "mv_fault_text": [c.c_uint16, _OUT, c.c_size_t, _SIZE],
    "mv_check": [_IN, c.c_size_t, _P(Judged)],
    "mv_show": [_IN, c.c_size_t, _OUT, c.c_size_t, _SIZE, _P(Judged)],
    "mv_debugger_new": [_H, c.c_uint32],
    "mv_debugger_new_apart": [_H, c.c_uint32],
    "mv_debugger_attach": [_H, _FLAG],
    "mv_debugger_feed": [_H, _IN, c.c_size_t, _SIZE],
    "mv_debugger_take": [_H, _OUT, c.c_size_t, _SIZE],
    "mv_debugger_waiting": [_H, _SIZE, _SIZE, _FLAG],
    "mv_debugger_ask": [_H, c.c_uint8, c.c_uint8, _IN, c.c_size_t, _U64, _U16],
    "mv_debugger_turn": [_H, _P(Heard)],
    "mv_debugger_data": [_H, c.c_size_t, _OUT, c.c_size_t, _SIZE],
    "mv_debugger_lines": [_H, _OUT, c.c_size_t, _SIZE],
    "mv_debugger_widths": [_H, _FLAG, _P(IdWidths)],
    "mv_debugger_thread": [_H, c.c_uint64, _FLAG, _U32, _FLAG],
    "mv_debugger_unanswered": [_H, c.c_size_t, _P(Asked)],
    "mv_debugger_request": [_H, c.c_size_t, _P(Request)],
    "mv_debugger_lose": [_H, _U64, c.c_size_t, _SIZE],
    "mv_target_new": [_H, _IN, c.c_size_t, c.c_bool, c.c_uint32, _P(Judged)],
    "mv_target_accept": [_H, _FLAG],
    "mv_target_feed": [_H, _IN, c.c_size_t, _SIZE],
    "mv_target_take": [_H, _OUT, c.c_size_t, _SIZE],
    "mv_target_waiting": [_H, _SIZE, _SIZE, _FLAG],
    "mv_target_turn": [_H, _P(Handled)],
    "mv_target_step": [_H, c.c_uint64, _U8],
    "mv_target_live": [_H, c.c_size_t, _FLAG, _U64],
    "mv_target_thread": [_H, c.c_uint64, _FLAG, _U32],
    "mv_target_lose": [_H],
}


def _open() -> c.CDLL:
    beside = os.path.join(os.path.dirname(__file__), "libmilunovesk.so")
    found = c.CDLL(os.environ.get("MILUNOVESK_LIBRARY", beside))
    for name, arguments in _SIGNATURES.items():
        call = getattr(found, name)
        call.argtypes = arguments
        call.restype = None if name == "mv_free" else c.c_uint32
    if found.mv_version() != 1:
        raise ImportError("another version of the library")
    return found


library = _open()


def next_packets(given: bytes, used: int, places: c.Array, out: Found) -> None:
    """Tells the places of packets, counted from a place of the bytes on."""
    at = c.cast(c.c_char_p(given), c.c_void_p).value
    library.mv_next_packets(at + used, len(given) - used, places, len(places), out)


def text(name: str, *arguments: int) -> Optional[str]:
    """What a call for a name or a text gives; None where there is none."""
    needed, room = size_t(), 128
    while True:
        out = buffer(room)
        answer = getattr(library, name)(*arguments, out, room, needed)
        if answer == NO_ITEM:
            return None
        if answer == DONE:
            return out.raw[: needed.value].decode()
        room = needed.value
