"""The program's words, exit statuses and messages: what `docs/use/PROGRAM.md` says, tried.

promise: digest, exit-status, messages, script-ends-well, file-names, digest-line,
words-after-the-name, version
"""
import hashlib
import os
import re
import resource
import shutil
import subprocess
import tempfile
from pathlib import Path
from typing import Any

from uptane_tools import TOP
from uptane_tools.oracle import reference
from uptane_tools.trial import trials

USAGE = b"usage: uptane_desk run FILE | serve FILE PORT COUNT [SOCKET] | digest FILE\n"
NO_PATH = trials.UNOPENED["path"]
UNREAD = b"uptane_desk: cannot read the file\n"
RUN = ["run", ":memory:"]
NOT_JSON = b"refused 5 NotJson\n"
# SHA-256 and SHA-512 of `abc`, by FIPS 180-4
ABC = (b"3 ba7816bf8f01cfea414140de5dae2223b00361a396177a9cb410ff61f20015ad "
       b"ddaf35a193617abacc417349ae20413112e6fa4e89a97ea20a9eeee64b55d39a"
       b"2192992a274fc1a836ba3c23a3feebbd454d4423643ce80e2a9ac94fa54ca49f\n")
LONGEST_LINE = 2_097_152
LARGEST_FILE = 1_073_741_824
MEBIBYTE = 1 << 20


def stopped(lines: Any, cause: Any) -> bytes:
    return b"uptane_desk: stopped after %d lines: %s\n" % (lines, cause)


def answers(program: str | Path, words: Any, given: Any, status: int, out: bytes,
            err: bytes) -> bool:
    """Whether the program ends so and prints just this: `given` are the bytes of its standard
    input, or a file that is it.
    """
    source: dict[str, Any] = {"input": given} if isinstance(given, bytes) else {"stdin": given}
    ran = subprocess.run([program, *words], capture_output=True, check=False, **source)
    return (ran.returncode, ran.stdout, ran.stderr) == (status, out, err)


def words(program: str | Path) -> trials.Cases:
    yield "no words", answers(program, [], b"", 2, b"", USAGE)
    yield "a word alone", answers(program, ["run"], b"", 2, b"", USAGE)
    yield "another word", answers(program, ["walk", ":memory:"], b"", 2, b"", USAGE)
    yield "three words", answers(program, [*RUN, "more"], b"", 2, b"", USAGE)
    yield "a word that isn't UTF-8", answers(program, ["run", b"\xff"], b"", 2, b"", USAGE)
    yield "no UTF-8 behind other words", answers(program, ["walk", "on", b"\xff"], b"", 2, b"",
                                                 USAGE)
    for port, count in (("0", "1"), ("65536", "1"), ("080", "1"), ("+80", "1"), ("80", "0"),
                        ("80", "1000001"), ("80", "")):
        yield "serve at port %s for %s" % (port, count or "nothing"), answers(
            program, ["serve", ":memory:", port, count], b"", 2, b"", USAGE)
    yield "serve without a count", answers(program, ["serve", ":memory:", "80"], b"", 2, b"", USAGE)
    yield "a word behind the socket", answers(program,
                                              ["serve", ":memory:", "80", "1", "socket", "more"],
                                              b"", 2, b"", USAGE)
    for path in ("/dev/null", "file:desk.db"):
        yield "run over " + path, answers(program, ["run", path], b"nope\n", 3, b"", NO_PATH)
        yield "serve over " + path, answers(program, ["serve", path, "80", "1"], b"", 3, b"",
                                            NO_PATH)


def version(program: str | Path) -> trials.Cases:
    """What the program says of itself is what the project and the kit say, and what its file's
    end says of a proof.
    """
    told = subprocess.run([program, "--version"], capture_output=True, check=False)
    proof = "without" if b"\nUNPROVED: " in Path(program).read_bytes()[-200:] else "with"
    project = (TOP / "VERSION").read_text("ascii").strip()
    line = re.fullmatch(r"uptane_desk (\S+), (\S+), kit (\S+), built (\w+) a proof\n",
                        told.stdout.decode("ascii"))
    yield "the version", told.returncode == 0 and told.stderr == b"" and line and line.groups() == (
        project, reference.METHOD, line[3], proof)
    kit = shutil.which("rt") and subprocess.run(["rt", "version"], capture_output=True,
                                                check=False).stdout.decode("ascii").split()[0]
    if kit:
        yield "and the kit", bool(line) and line[3] == kit
    yield "with a word behind it", answers(program, ["--version", "x"], b"", 2, b"", USAGE)


def names(program: str | Path) -> trials.Cases:
    """Names of files at their limit: a journal's has eight bytes more, and a file system takes 255.
    """
    with tempfile.TemporaryDirectory() as folder:
        for length in (248, 251, 252, 255, 256):
            path = str(Path(folder) / (length * "n"))
            yield "run over a name of %d bytes" % length, answers(program, ["run", path], b"nope\n",
                                                                  3, b"", NO_PATH)
            yield "serve over a name of %d bytes" % length, answers(
                program, ["serve", path, "80", "1"], b"", 3, b"", NO_PATH)
        yield "and no file is left", os.listdir(folder) == []
        longest = 247 * "n"
        yield "run over the longest name", answers(
            program, ["run", str(Path(folder) / longest)], b"nope\n", 0, NOT_JSON, b"")
        yield "and it is there", longest in os.listdir(folder)


def scripts(program: str | Path) -> trials.Cases:
    yield "a script without lines", answers(program, RUN, b"\n\n", 0, b"", b"")
    yield "a refused line", answers(program, RUN, b"nope\n", 0, NOT_JSON, b"")
    yield "the longest line", answers(program, RUN, LONGEST_LINE * b" ", 0, NOT_JSON, b"")
    longer = b"nope\n" + (LONGEST_LINE + 1) * b" "
    yield "a line too long", answers(program, RUN, longer, 4, NOT_JSON, stopped(1, b"line limit"))
    folder = os.open("/", os.O_RDONLY)
    yield "a directory as standard input", answers(program, RUN, folder, 4, b"", stopped(
        0, b"read"))
    os.close(folder)
    yield "a full disk as standard output", into_full(program, RUN, b"nope\n") == (4,
                                                                                   stopped(
                                                                                       0, b"write"))
    yield "too little memory for a line", told_memory(program)


def into_full(program: str | Path, words: Any, given: Any) -> tuple[int, Any]:
    """The status and the message where standard output takes nothing."""
    with open("/dev/full", "wb") as full:
        ran = subprocess.run([program, *words], input=given, stdout=full, stderr=subprocess.PIPE,
                             check=False)
    return ran.returncode, ran.stderr


def within(program: str | Path, limit: int, given: Any) -> tuple[int, Any, Any]:
    """The status, output and message of a script under a limit of address space, in bytes
    (`ulimit -v`).
    """

    def most() -> Any:
        return resource.setrlimit(resource.RLIMIT_AS, (limit, limit))

    ran = subprocess.run([program, *RUN], input=given, capture_output=True, check=False,
                         preexec_fn=most)
    return ran.returncode, ran.stdout, ran.stderr


def told_memory(program: str | Path) -> bool:
    """Whether a run ends with that message before its first line, under some limit that leaves
    no room for the longest line there may be: the room is made at the first byte, and takes two
    mebibytes of those that a short script needs.
    """
    short, enough = b"nope\n", (0, NOT_JSON, b"")
    low, high = 0, 4096
    if within(program, high * MEBIBYTE, short) != enough:
        return False
    while high - low > 1:
        middle = (low + high) // 2
        low, high = (low, middle) if within(program, middle *
                                            MEBIBYTE, short) == enough else (middle, high)
    lacking = range(MEBIBYTE // 4, 3 * MEBIBYTE, MEBIBYTE // 4)
    return any(
        within(program, high * MEBIBYTE - size, short) == (4, b"", stopped(0, b"memory"))
        for size in lacking)


def digests_of(given: Any) -> bytes:
    """The line of a file of these bytes."""
    return b"%d %s %s\n" % (len(given), hashlib.sha256(given).hexdigest().encode(),
                            hashlib.sha512(given).hexdigest().encode())


def digests(program: str | Path) -> trials.Cases:
    with tempfile.TemporaryDirectory() as folder:
        path = str(Path(folder) / "abc")
        yield "no file to digest", answers(program, ["digest", path], b"", 4, b"", UNREAD)
        Path(path).write_bytes(b"abc")
        yield "the digest of abc", answers(program, ["digest", path], b"", 0, ABC, b"")
        for given in (b"", 2_000_000 * b"a"):
            Path(path).write_bytes(given)
            yield "the digest of %d bytes" % len(given), answers(program, ["digest", path], b"", 0,
                                                                 digests_of(given), b"")
        yield "a directory to digest", answers(program, ["digest", folder], b"", 4, b"", UNREAD)
        yield "a digest that can't be printed", into_full(program, ["digest", path],
                                                          b"") == (0, b"")
        os.truncate(path, LARGEST_FILE + 1)
        yield "a file too large to digest", answers(program, ["digest", path], b"", 4, b"", UNREAD)


def cases(program: str | Path) -> trials.Cases:
    """Each case with whether the program does as the page says."""
    yield from words(program)
    yield from version(program)
    yield from names(program)
    yield from scripts(program)
    yield from digests(program)
