"""What goes wrong, by numbers and in words."""

from __future__ import annotations

from . import _library as c

def text_of(number: int) -> str:
    """The fault in words."""
    if number == 0:
        return "no fault"
    return c.text("mv_fault_text", number) or f"fault {number}"


class Error(Exception):
    """A call did not do what it says."""

    what = "not done"

    def __init__(self, number: int) -> None:
        self.number = number
        self.text = text_of(number) if number else self.what
        super().__init__(f"fault {number}: {self.text}" if number else self.text)


class Closed(Error):
    """The end was closed."""

    what = "the end is closed"


class OutOfMemory(Error, MemoryError):
    """An allocation was refused; nothing changed."""

    what = "no memory"


class NotUtf8(Error, ValueError):
    """A text is not UTF-8."""

    what = "not UTF-8"


class Refused(Error):
    """A command was not asked, for the reason `number`, 31 to 36."""


class Fault(Error):
    """What came is refused, for the fault `number`."""
