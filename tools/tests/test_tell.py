"""What `tell` makes of a service that answers, stops a script, or ends in the middle of it."""
import contextlib
import socket
import subprocess
import sys
import tempfile
import threading
import unittest
from collections.abc import Callable, Iterator
from pathlib import Path

from uptane_tools import RUN

PATIENCE = 60


def lines_of(peer: socket.socket) -> Iterator[bytes]:
    """The lines that come, until the other side ends its half."""
    with peer.makefile("rb") as file:
        yield from file


def answers(peer: socket.socket) -> None:
    """Answers each line, but no empty one."""
    for number, line in enumerate(lines_of(peer), 1):
        if line != b"\n":
            peer.sendall(b"%d %s" % (number, line))


def ends(peer: socket.socket) -> None:
    """Answers two lines and a half of the next one's answer, and ends."""
    asked = (line for line in lines_of(peer) if line != b"\n")
    for number, line in enumerate(asked, 1):
        peer.sendall(b"done\n" if number < 3 else b"do")
        if number == 3:
            return


def stops(peer: socket.socket) -> None:
    """Stops the script behind a line."""
    for _ in lines_of(peer):
        peer.sendall(b"done\nuptane_desk: stopped after 1 lines: memory\n")
        return


class Tell(unittest.TestCase):
    """The answers, the message and the status."""

    @contextlib.contextmanager
    def service(self, serve: Callable[[socket.socket], None]) -> Iterator[Path]:
        """A socket at which a connection is served so."""
        with tempfile.TemporaryDirectory() as own, socket.socket(socket.AF_UNIX) as listener:
            path = Path(own) / "socket"
            listener.bind(str(path))
            listener.listen()
            listener.settimeout(PATIENCE)

            def run() -> None:
                with listener.accept()[0] as peer:
                    serve(peer)

            running = threading.Thread(target=run)
            running.start()
            yield path
            running.join(PATIENCE)

    def told(self, path: Path, script: bytes, *words: str) -> tuple[int, bytes, str]:
        ran = subprocess.run(
            [sys.executable, str(RUN), "tell", str(path), *words], input=script,
            capture_output=True, check=False, timeout=PATIENCE)
        return ran.returncode, ran.stdout, ran.stderr.decode("ascii")

    def test_each_line_is_answered(self) -> None:
        with self.service(answers) as path:
            self.assertEqual(self.told(path, b"a\n\nb\nc"), (0, b"1 a\n3 b\n4 c\n", ""))

    def test_a_long_script(self) -> None:
        script = b"".join(b"%d %s\n" % (at, 200 * b"x") for at in range(20_000))
        with self.service(answers) as path:
            status, out, err = self.told(path, script)
        self.assertEqual((status, err), (0, ""))
        self.assertEqual(out.count(b"\n"), 20_000)

    def test_a_line_is_answered_at_once(self) -> None:
        with self.service(answers) as path:
            with subprocess.Popen(
                [sys.executable, str(RUN), "tell", str(path)], stdin=subprocess.PIPE,
                    stdout=subprocess.PIPE) as asks:
                assert asks.stdin and asks.stdout
                for number in (1, 2):
                    asks.stdin.write(b"show\n")
                    asks.stdin.flush()
                    self.assertEqual(asks.stdout.readline(), b"%d show\n" % number)
                asks.stdin.close()
                self.assertEqual(asks.wait(PATIENCE), 0)

    def test_lines_from_one_on(self) -> None:
        with self.service(answers) as path:
            self.assertEqual(self.told(path, b"a\n\nb\nc\n", "--from", "3"), (0, b"1 b\n2 c\n", ""))

    def test_a_service_that_ends(self) -> None:
        script = b"a\n\nc\nd\ne\n"
        for first, line in ((1, 4), (2, 5)):
            with self.service(ends) as path:
                status, out, err = self.told(path, script, "--from", str(first))
            self.assertEqual((status, out), (4, b"done\ndone\n"))
            self.assertIn("lines answered: 2", err)
            self.assertIn("--from %d;" % line, err)

    def test_a_service_that_ends_while_a_line_is_typed(self) -> None:
        with self.service(lambda peer: None) as path:
            with subprocess.Popen(
                [sys.executable, str(RUN), "tell", str(path)], stdin=subprocess.PIPE,
                    stdout=subprocess.PIPE, stderr=subprocess.PIPE) as asks:
                self.assertEqual(asks.wait(PATIENCE), 4)
                assert asks.stderr
                self.assertIn(b"--from 1;", asks.stderr.read())

    def test_a_script_that_is_stopped(self) -> None:
        with self.service(stops) as path:
            self.assertEqual(self.told(path, b"a\nb\n"),
                             (4, b"done\n", "uptane_desk: stopped after 1 lines: memory\n"))

    def test_no_service(self) -> None:
        with tempfile.TemporaryDirectory() as own, socket.socket(socket.AF_UNIX) as left:
            left.bind(own + "/left")
            for name, words in (("none", "isn't there"), ("left", "no service listens")):
                status, out, err = self.told(Path(own) / name, b"a\n")
                self.assertEqual((status, out), (3, b""))
                self.assertIn(words, err)
