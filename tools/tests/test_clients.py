"""What the clients that are measured send at once, and what they tell."""
import shutil
import socketserver
import tempfile
import threading
import unittest
from pathlib import Path

from uptane_tools.measure import clients


class Answers(socketserver.StreamRequestHandler):
    """Answers a request of a line by the status that it names, once all that are awaited came."""

    def handle(self) -> None:
        line = self.rfile.readline()
        assert isinstance(self.server, Service)
        with self.server.lock:
            self.server.came.append(line)
        self.server.together.wait(60)
        self.wfile.write(b"HTTP/1.1 %s OK\r\n\r\n" % line[:3] + 100_000 * b"x")


class Service(socketserver.ThreadingTCPServer):
    """Answers so many at once, never fewer."""

    def __init__(self, many: int) -> None:
        super().__init__(("127.0.0.1", 0), Answers)
        self.came: list[bytes] = []
        self.lock, self.together = threading.Lock(), threading.Barrier(many)


@unittest.skipUnless(shutil.which("cc"), "there is no C compiler")
class Clients(unittest.TestCase):
    """Each request is sent once, so many at a time, and told in its place."""

    def test_statuses_in_order(self) -> None:
        requests = [b"%d %d\n" % (200 + at % 7, at) for at in range(40)]
        with tempfile.TemporaryDirectory() as own, Service(8) as service:
            threading.Thread(target=service.serve_forever, daemon=True).start()
            client = clients.clients_in(Path(own))
            told = clients.asked(client, service.server_address[1], 8, requests)
            service.shutdown()
        self.assertEqual([it.status for it in told], [200 + at % 7 for at in range(40)])
        self.assertEqual(sorted(service.came), sorted(requests))
        self.assertTrue(all(0 <= it.begun <= it.ended for it in told))

    def test_no_answer(self) -> None:
        with tempfile.TemporaryDirectory() as own, Service(1) as service:
            threading.Thread(target=service.serve_forever, daemon=True).start()
            client = clients.clients_in(Path(own))
            port = service.server_address[1]
            self.assertEqual(clients.asked(client, port, 4, []), [])
            service.shutdown()
            service.server_close()
            with self.assertRaises(clients.subprocess.CalledProcessError):
                clients.asked(client, port, 4, [b"200 0\n"])
