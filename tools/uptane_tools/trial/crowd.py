"""Many clients at once, of one process: each has a connection, sends on it what is asked, reads to
its end, and goes on with the next one.
"""
import contextlib
import random
import selectors
import socket
import time
from collections import deque
from collections.abc import Iterator
from dataclasses import dataclass, field
from typing import Any

# seconds that an exchange may take on a busy machine
PATIENCE = 120
AT_ONCE = 65_536


@dataclass
class Exchange:
    """What one connection sends, in pieces of these sizes where there are any, and what came.

    It ends its half where `ends` says so. Of one that is cut off so many bytes are sent, and then
    it leaves. `name` is its asker's. Times are those of the clock that only counts on.
    """

    sent: bytes
    name: Any = None
    cut: int | None = None
    ends: bool = False
    pieces: list[int] = field(default_factory=list)
    came: bytes = b""
    begun: float = 0
    ended: float = 0
    broke: bool = False

    def is_answered(self) -> bool:
        """Whether one whole answer came, and no more."""
        head, blank, body = self.came.partition(b"\r\n\r\n")
        length = head.lower().partition(b"\r\ncontent-length: ")[2].split(b"\r\n")[0]
        return bool(blank) and length.isdigit() and len(body) == int(length)

    def status(self) -> int:
        """That of the first answer; 0 where there is none."""
        words = self.came[:12].split(b" ")
        return int(words[1]) if len(words) == 2 and words[1].isdigit() else 0


class Client:
    """A connection, and how far it is."""

    def __init__(self, port: int, asked: Exchange) -> None:
        self.asked, self.at, self.came, self.places = asked, 0, bytearray(), iter(asked.pieces)
        self.end = len(asked.sent) if asked.cut is None else asked.cut
        self.socket = socket.socket()
        self.socket.setblocking(False)
        self.socket.setsockopt(socket.IPPROTO_TCP, socket.TCP_NODELAY, 1)
        asked.begun = time.monotonic()
        with contextlib.suppress(BlockingIOError):
            self.socket.connect(("127.0.0.1", port))

    def write(self) -> bool:
        """Sends a piece; whether all is sent."""
        size = next(self.places, AT_ONCE)
        self.at += self.socket.send(self.asked.sent[self.at:min(self.end, self.at + size)])
        if self.at < self.end:
            return False
        if self.asked.ends:
            self.socket.shutdown(socket.SHUT_WR)
        return True

    def read(self) -> bool:
        """Takes what came; whether that was all."""
        piece = self.socket.recv(AT_ONCE)
        self.came += piece
        return not piece

    def close(self) -> Exchange:
        self.socket.close()
        self.asked.came, self.asked.ended = bytes(self.came), time.monotonic()
        return self.asked


class Crowd:
    """So many clients at once. What waits is asked in its order while there is a port."""

    def __init__(self, port: int | None, clients: int) -> None:
        self.port, self.clients = port, clients
        self.waiting: deque[Exchange] = deque()
        self.open: dict[socket.socket, Client] = {}
        self.events = selectors.DefaultSelector()

    def __enter__(self) -> "Crowd":
        return self

    def __exit__(self, *_: object) -> None:
        for client in list(self.open.values()):
            self.left(client)
        self.events.close()

    def ask(self, *asked: Exchange) -> None:
        self.waiting.extend(asked)

    def left(self, client: Client) -> Exchange:
        del self.open[client.socket]
        self.events.unregister(client.socket)
        return client.close()

    def begin(self) -> None:
        while self.port and self.waiting and len(self.open) < self.clients:
            client = Client(self.port, self.waiting.popleft())
            self.open[client.socket] = client
            self.events.register(client.socket, selectors.EVENT_WRITE | selectors.EVENT_READ)

    def step(self, client: Client, ready: int) -> bool:
        """Whether this client is at its end."""
        if ready & selectors.EVENT_WRITE and client.write():
            if client.asked.cut is not None:
                return True
            self.events.modify(client.socket, selectors.EVENT_READ)
        return bool(ready & selectors.EVENT_READ) and client.read()

    def took(self) -> Iterator[Exchange]:
        """The exchanges that end, until none is left; those that are asked meanwhile too."""
        self.begin()
        while self.open:
            for key, ready in self.events.select(PATIENCE):
                client = self.open.get(key.fileobj)  # type: ignore[call-overload]
                if client is None:
                    continue
                try:
                    if not self.step(client, ready):
                        continue
                except BlockingIOError:
                    continue
                except OSError:
                    client.asked.broke = True
                yield self.left(client)
            self.begin()
            if any(time.monotonic() - it.asked.begun > PATIENCE for it in self.open.values()):
                raise TimeoutError("a client waits longer than %d seconds" % PATIENCE)


def all_of(port: int, clients: int, asked: list[Exchange]) -> list[Exchange]:
    """The same exchanges, each with what came."""
    with Crowd(port, clients) as crowd:
        crowd.ask(*asked)
        for _ in crowd.took():
            pass
    return asked


def cut_anywhere(rng: random.Random, size: int) -> list[int]:
    """Sizes of pieces in which so many bytes may be sent."""
    pieces = []
    while size > 0:
        pieces.append(rng.choice([1, 2, 7, 100, 1000, 10_000]))
        size -= pieces[-1]
    return pieces
