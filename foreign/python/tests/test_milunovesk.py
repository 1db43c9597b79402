"""Each call of the package once on its way, and each exception."""

import copy
import os
import pickle
import threading
import unittest

import milunovesk
from milunovesk import Debugger, Handled, Heard, Packets, Target

EXAMPLES = os.path.join(os.path.dirname(__file__), "..", "..", "..", "examples")


def example(name: str) -> bytes:
    with open(os.path.join(EXAMPLES, name), "rb") as file:
        return file.read()


def hear(debugger: Debugger, target: Target) -> Heard:
    """Carries bytes, and makes the target's turns, until the debugger reads something."""
    for _ in range(100):
        heard = debugger.turn()
        if heard.kind != Heard.NOTHING:
            return heard
        target.feed(debugger.take())
        target.turn()
        debugger.feed(target.take())
    raise AssertionError("nothing is read")


def ids(*numbers: int) -> bytes:
    return b"".join(number.to_bytes(8, "big") for number in numbers)


class Captures(unittest.TestCase):
    def test_sound(self) -> None:
        capture = example("session.capture")
        self.assertTrue(milunovesk.check(capture))
        lines, verdict = milunovesk.show(capture.decode())
        self.assertEqual(verdict, (0, 0))
        # the lines that README.md shows
        self.assertEqual(
            lines,
            "> hello\n< hello\n> 1 VirtualMachine.IDSizes\n< 1 reply VirtualMachine.IDSizes 0 8 8 8 8 8\n"
            "> 3 ThreadReference.SuspendCount #1\n< 3 reply ThreadReference.SuspendCount 0 1\n",
        )

    def test_faults(self) -> None:
        twice = "> 4a4457502d48616e647368616b65\n< 4a4457502d48616e647368616b65\n" + "> 0000000b00000001000107\n" * 2
        self.assertEqual(milunovesk.check(twice), (53, 4))
        self.assertEqual(milunovesk.check("hello").fault, 51)
        self.assertEqual(milunovesk.check("hello").text, "not a line of a capture")

    def test_names_and_texts(self) -> None:
        self.assertEqual(milunovesk.command_name(11, 6), "ThreadReference.Frames")
        self.assertIsNone(milunovesk.command_name(0, 1))
        self.assertEqual(milunovesk.error_name(13), "THREAD_NOT_SUSPENDED")
        self.assertIsNone(milunovesk.error_name(1))
        self.assertEqual(milunovesk.fault_text(33), "the session is closed")
        self.assertIsNone(milunovesk.fault_text(99))
        with self.assertRaises(milunovesk.NotUtf8):
            milunovesk.check(b"\xff")


class Bytes(unittest.TestCase):
    # length, id, flags, and a command's set and number or a reply's error code, as the specification's "Packets" has them
    COMMAND = bytes.fromhex("0000000c 01020304 00 0b 06 63")
    REPLY = bytes.fromhex("0000000b 00000005 80 0014")

    def test_packets(self) -> None:
        found = milunovesk.packets(self.COMMAND + self.REPLY + b"\0\0\0")
        self.assertEqual(found.packets, [(0x01020304, 11, 6, None, b"c"), (5, None, None, 20, b"")])
        self.assertEqual(found[1:], (23, Packets.BEGINNING, 0))
        self.assertEqual(milunovesk.packets(b""), ([], 0, Packets.NOTHING, 0))
        self.assertEqual(milunovesk.packets(self.REPLY + b"\0\0\0\n")[1:], (11, Packets.FAULT, 1))
        # more than one call tells
        many = milunovesk.packets(self.COMMAND * 257)
        self.assertEqual((len(many.packets), many.used, many.left), (257, 257 * 12, Packets.NOTHING))
        self.assertEqual(many.packets[256].data, b"c")


class Sessions(unittest.TestCase):
    def test_breakpoint(self) -> None:
        with Debugger() as debugger, Target(example("A.json")) as target:
            self.assertTrue(target.accept())
            self.assertFalse(target.accept())
            with self.assertRaises(milunovesk.Refused) as refused:
                debugger.ask(1, 1)
            self.assertEqual(refused.exception.number, 33)
            self.assertEqual(str(refused.exception), "fault 33: the session is closed")
            self.assertTrue(debugger.attach())
            self.assertIsNone(debugger.widths())
            self.assertEqual(hear(debugger, target).kind, Heard.HELLO)
            self.assertEqual(hear(debugger, target).kind, Heard.PARKED)
            self.assertEqual(hear(debugger, target), (Heard.SIZES, 0, 0, 1))
            self.assertEqual(debugger.data(), bytes.fromhex("02000000015a00000000") + ids(1))
            self.assertEqual(debugger.lines(), ["< 1 Event.Composite 2 [(90, 0, #1)]", "< 1 reply VirtualMachine.IDSizes 0 8 8 8 8 8"])
            self.assertEqual(debugger.widths(), (8, 8, 8, 8, 8))
            self.assertEqual(debugger.thread(1), (1, True))
            self.assertIsNone(debugger.thread(7))
            self.assertEqual(target.live(), [1, 2])
            self.assertEqual(target.step(1), Target.FROZEN)
            place = b"\x01" + ids(10, 20, 3)
            self.assertEqual(debugger.ask(15, 1, bytes.fromhex("02020000000107") + place), 1)
            self.assertEqual(debugger.unanswered(), [(1, 15, 1)])
            self.assertEqual(debugger.requests(), [])
            self.assertEqual(hear(debugger, target), (Heard.ANSWERED, 1, 0, 1))
            self.assertEqual(debugger.data(), b"\0\0\0\x01")
            self.assertEqual(debugger.requests(), [(1, 2, 2)])
            with self.assertRaises(IndexError):
                debugger.data(1)
            self.assertEqual(debugger.ask(1, 9), 2)
            self.assertEqual(hear(debugger, target).ticket, 2)
            self.assertEqual(debugger.data(), b"")
            self.assertEqual([target.step(1), target.step(1)], [Target.QUIET, Target.REPORTED])
            self.assertEqual(target.count(1), 1)
            self.assertIsNone(target.count(9))
            self.assertEqual(hear(debugger, target).kind, Heard.SEEN)
            self.assertEqual(debugger.data(), bytes.fromhex("02000000010200000001") + ids(1) + place)
            self.assertEqual(debugger.thread(1), (1, True))
            self.assertEqual(debugger.ask(11, 6, ids(1) + bytes.fromhex("00000000ffffffff")), 3)
            self.assertEqual(hear(debugger, target).ticket, 3)
            self.assertEqual(debugger.data(), bytes.fromhex("00000001") + ids(30) + place)
            self.assertEqual(debugger.ask(11, 6, ids(9) + bytes.fromhex("00000000ffffffff")), 4)
            self.assertEqual(hear(debugger, target), (Heard.ANSWERED, 4, 10, 0))
            self.assertEqual(debugger.ask(1, 1), 5)
            self.assertEqual(debugger.waiting()[1:], (11, True))
            self.assertEqual(debugger.lose(), [5])
            target.lose()
            self.assertEqual(target.waiting(), (0, 0, False))

    def test_apart(self) -> None:
        with Debugger(apart=True) as debugger, Target(example("A.json")) as target:
            target.accept()
            debugger.attach()
            while hear(debugger, target).kind != Heard.SIZES:
                pass
            self.assertEqual(debugger.thread(1), (1, True))
            self.assertIsNone(debugger.thread(2))
            debugger.ask(1, 9)  # Resume: nothing is sure from the asking on, of a thread that was named
            self.assertEqual((debugger.thread(1), debugger.thread(2)), ((0, False), None))
            self.assertEqual(hear(debugger, target).ticket, 1)
            debugger.ask(11, 2, ids(1))  # Suspend of the thread, twice
            debugger.ask(11, 2, ids(1))
            self.assertEqual(debugger.thread(1), (0, False))
            self.assertEqual((hear(debugger, target).ticket, debugger.thread(1)), (2, (1, True)))
            self.assertEqual((hear(debugger, target).ticket, debugger.thread(1)), (3, (2, True)))
            self.assertEqual(target.count(1), 2)
            debugger.ask(1, 6)  # Dispose
            self.assertIsNone(debugger.thread(1))

    def test_turns_of_a_target(self) -> None:
        with Target(example("A.json"), start_all=False, count_limit=5) as target:
            target.accept()
            self.assertEqual(target.feed(b"JDWP-Handshake" + bytes.fromhex("0000000b00000007000101")), 25)
            self.assertEqual(target.turn().kind, Handled.HELLO)
            self.assertEqual(target.turn(), (Handled.REPLIED, 7, 0))
            self.assertEqual(target.turn(), (Handled.NOTHING, 0, 0))
            self.assertEqual(target.take(14), b"JDWP-Handshake")

    def test_faults(self) -> None:
        with Debugger(first_id=9) as debugger:
            debugger.attach()
            debugger.feed(b"nonsense")
            with self.assertRaises(milunovesk.Fault) as fault:
                debugger.turn()
            self.assertEqual(str(fault.exception), "fault 4: not the handshake")
        with self.assertRaises(milunovesk.Closed):
            debugger.turn()
        debugger.close()
        with Target(example("A.json")) as target:
            target.accept()
            target.feed(b"nonsense")
            with self.assertRaises(milunovesk.Fault):
                target.turn()

    def test_what_is_not_given(self) -> None:
        with self.assertRaises(milunovesk.Fault) as fault:
            Target("{}")
        self.assertEqual(fault.exception.number, 22)
        with self.assertRaises(milunovesk.NotUtf8):
            Target(b"\xff")
        with self.assertRaises(ValueError):
            Target(example("A.json"), count_limit=0)
        with Debugger() as debugger:
            with self.assertRaises(ValueError):
                debugger.ask(256, 1)
            with self.assertRaises(TypeError):
                copy.copy(debugger)
            with self.assertRaises(TypeError):
                pickle.dumps(debugger)
            raised: list[BaseException] = []

            def use() -> None:
                try:
                    debugger.attach()
                except RuntimeError as error:
                    raised.append(error)

            thread = threading.Thread(target=use)
            thread.start()
            thread.join()
            self.assertEqual(len(raised), 1)


if __name__ == "__main__":
    unittest.main()
