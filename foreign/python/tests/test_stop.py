"""The example, at a port where a target of this package listens."""

import os
import socket
import subprocess
import sys
import threading
import unittest

from milunovesk import Handled, Target

HERE = os.path.dirname(os.path.abspath(__file__))


def serve(listener: socket.socket) -> None:
    """One session: what came is handled, and the threads of the machine make their steps."""
    with open(os.path.join(HERE, "..", "..", "..", "examples", "A.json"), "rb") as file:
        script = file.read()
    line, _ = listener.accept()
    with line, Target(script) as target:
        target.accept()
        line.settimeout(0.05)
        while target.waiting().open:
            try:
                came = line.recv(4096)
                if not came:
                    return
                target.feed(came)
            except TimeoutError:
                pass
            while target.turn().kind != Handled.NOTHING:
                pass
            for thread in target.live():
                if thread == 1:
                    target.step(thread)
            line.sendall(target.take())


class Stop(unittest.TestCase):
    def test_prints_the_frames(self) -> None:
        with socket.create_server(("127.0.0.1", 0)) as listener:
            thread = threading.Thread(target=serve, args=(listener,), daemon=True)
            thread.start()
            port = str(listener.getsockname()[1])
            stop = os.path.join(HERE, "..", "examples", "stop.py")
            path = {**os.environ, "PYTHONPATH": os.path.join(HERE, "..")}
            done = subprocess.run([sys.executable, stop, port, "10", "20", "3"], env=path, capture_output=True, text=True, timeout=60)
            thread.join(10)
        self.assertEqual(done.stderr, "")
        self.assertEqual(done.stdout, "thread 1: count 1, held\nframe 30 at 1:#10:#20:3\n")


if __name__ == "__main__":
    unittest.main()
