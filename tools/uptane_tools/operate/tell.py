"""Gives a script to a service that runs, through its operators' socket, and prints the answers.

    tools/run tell SOCKET [--from LINE] < script

Vehicles are served meanwhile. Each answer is printed once it comes, as `uptane_desk run` prints it:
of a line that is typed, at once. The line `{"do":"status"}` asks for what only the service knows.
With --from the lines before LINE are left out. The status is

    0   each line was answered, some by a refusal perhaps
    3   no service listens at SOCKET, or it can't be reached: nothing was given
    4   the service stopped the script (`uptane_desk: stopped after N lines: CAUSE`, N as `run`
        counts), or ended in the middle of it

Where it ended in the middle, the message says how many lines were answered, and with which LINE to
go on once it runs again. Some of the lines from there on may have been carried out: they are
answered `already` then, refused, or by the kept reply.
"""
import argparse
import os
import select
import socket
import sys
from collections.abc import Iterator

from uptane_tools import arguments

PIECE = 65_536
# what begins the line that ends a stopped script: no answer does
STOPPED = b"uptane_desk: stopped after "
GO_ON = (
    "once it runs again, go on with --from %d; what was done is answered `already`, refused, or "
    "by the kept reply (look at rotate, refresh, replace_ecu and open_campaign first)")


class Given:
    """A script while it is given: its bytes that aren't sent yet, and the numbers of the lines
    that wait for an answer.
    """

    def __init__(self, first: int) -> None:
        self.first, self.number, self.left = first, 0, b""
        self.asked, self.answered, self.begun, self.is_sent = list[int](), 0, b"", False

    def take(self, piece: bytes) -> None:
        """Bytes of the script; none where it is at its end. A line ends with the script too."""
        text = self.begun + (piece or b"\n" * bool(self.begun))
        *lines, self.begun = text.split(b"\n")
        for line in lines:
            self.number += 1
            if self.number >= self.first:
                self.left += line + b"\n"
                self.asked += [self.number] * bool(line)

    def waits(self) -> int:
        """The line that has no answer, of those that are known."""
        if self.answered < len(self.asked):
            return self.asked[self.answered]
        return max(self.number + 1, self.first)


def whole_lines(came: bytes, given: Given) -> tuple[list[bytes], bytes, bytes]:
    """The answers, the message that ends them or none, and what has begun behind."""
    *lines, rest = came.split(b"\n")
    message = next((it for it in lines if it.startswith(STOPPED)), b"")
    answers = lines[:lines.index(message)] if message else lines
    given.answered += len(answers)
    return answers, message, rest


def exchanged(peer: socket.socket, given: Given, script: int) -> Iterator[list[bytes] | bytes]:
    """The answers as they come, and at last the message where there is one."""
    is_open, rest = True, b""
    while True:
        reads: list[int] = [peer.fileno(), *([script] if is_open and not given.left else [])]
        ready, writes, _ = select.select(reads, [peer] if given.left else [], [])
        if script in ready:
            piece = os.read(script, PIECE)
            given.take(piece)
            is_open = bool(piece)
        try:
            if writes:
                given.left = given.left[peer.send(given.left[:PIECE]):]
            if not is_open and not given.left and not given.is_sent:
                given.is_sent = True
                peer.shutdown(socket.SHUT_WR)
            if peer.fileno() not in ready:
                continue
            came = peer.recv(PIECE)
        except BlockingIOError:
            continue
        except OSError:
            came = b""
        answers, message, rest = whole_lines(rest + came, given)
        yield answers
        if message or not came:
            yield message
            return


def said(words: str) -> None:
    print("tell: " + words, file=sys.stderr)


def told(peer: socket.socket, given: Given, script: int) -> int:
    """Gives it, prints the answers, and tells how it ended."""
    peer.setblocking(False)
    message = b""
    try:
        for it in exchanged(peer, given, script):
            if isinstance(it, list):
                sys.stdout.buffer.write(b"".join(line + b"\n" for line in it))
                sys.stdout.buffer.flush()
            else:
                message = it
    except KeyboardInterrupt:
        said("interrupted after %d answers: %s" % (given.answered, GO_ON % given.waits()))
        return 130
    except BrokenPipeError:
        os.dup2(os.open(os.devnull, os.O_WRONLY), sys.stdout.fileno())
        said("the answers can't be written: %s" % (GO_ON % given.waits()))
        return 4
    if message:
        print(message.decode("ascii", "replace"), file=sys.stderr)
        return 4
    if not given.is_sent or given.answered < len(given.asked):
        said("the service ended; lines answered: %d, the next one is line %d: %s" %
             (given.answered, given.waits(), GO_ON % given.waits()))
        return 4
    return 0


def reached(path: str) -> socket.socket | None:
    """A connection to the service; none, with why, where there is none."""
    peer = socket.socket(socket.AF_UNIX)
    try:
        peer.connect(path)
        return peer
    except FileNotFoundError:
        said("%s isn't there: does the service run? Nothing was given" % path)
    except ConnectionRefusedError:
        said("no service listens at %s, which one left that was killed. Nothing was given" % path)
    except OSError as error:
        said("%s: %s. Nothing was given" % (path, error.strerror or error))
    peer.close()
    return None


def parsed(words: arguments.Words) -> argparse.Namespace:
    parser = arguments.parser(__doc__)
    parser.add_argument("socket", metavar="SOCKET")
    parser.add_argument("--from", dest="first", metavar="LINE", default=1,
                        type=arguments.number(100_001))
    return parser.parse_args(words)


def main(words: arguments.Words = None) -> int:
    """Gives the script on standard input."""
    asked = parsed(words)
    peer = reached(asked.socket)
    if peer is None:
        return 3
    with peer:
        return told(peer, Given(asked.first), sys.stdin.fileno())
