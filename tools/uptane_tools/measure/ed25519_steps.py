"""Counts the instructions of Ed25519's calls, by valgrind's callgrind, and tells whether those
with a secret depend on it.

    tools/run ed25519_steps PROGRAM [N]

PROGRAM is that of up_test_ed25519. It gets N secrets, a hundred if none are said: 32 zeros, 32
bytes of 255, and others that are drawn. Messages have one length. Each call with a secret takes
as many instructions as the others, or this fails: `public_of`, and `sign_with`, which has the
public key at hand. `sign` is the one and then the other. How many a verification takes depends
on what is verified, which is no secret: what is told is the mean, without what the program takes
for rows whose key is a byte short.
"""
import random
import re
import subprocess
import sys
import tempfile
from pathlib import Path
from typing import Any

from uptane_tools import arguments
from uptane_tools.rows import ed25519_cases as rows

MESSAGE = b"a message of 32 bytes, as any is"


def symbol(program: str | Path, name: str) -> Any:
    """The name of the crate's function in the program."""
    told = subprocess.run(["nm", str(program)], capture_output=True, text=True, check=True).stdout
    found = re.findall(r" [tT] (up_ed25519::signing::%s)$" % name, told, re.M)
    if len(found) != 1:
        sys.exit("the program has %d functions %s" % (len(found), name))
    return found[0]


def answered(words: Any, parts: Any) -> str:
    """What a run of the program says beside its answers to the rows, which have to be right."""
    ran = subprocess.run(words, input=rows.stdin(parts), capture_output=True, text=True,
                         check=False)
    if ran.stdout != rows.stdout(parts):
        sys.exit("the program tells:\n" + ran.stdout[:2000])
    return ran.stderr


def callgrind(program: str | Path, parts: Any, folder: Path, *more: Any) -> Any:
    """What callgrind says of the program."""
    words = [
        "valgrind", "--tool=callgrind",
        "--callgrind-out-file=%s" % (folder / "told"), *more,
        str(program)]
    return answered(words, parts)


def each(program: str | Path, name: str, parts: Any, folder: Path) -> list[int]:
    """The instructions of each call of a function."""
    function = symbol(program, name)
    callgrind(program, parts, folder, "--collect-atstart=no", "--toggle-collect=" + function,
              "--dump-after=" + function)
    counts = [
        re.search(r"^totals: (\d+)", path.read_text(encoding="utf-8", errors="replace"), re.M)
        for path in folder.glob("told.*")]
    return [int(count[1]) for count in counts if count and int(count[1])]


def whole(program: str | Path, parts: Any, folder: Path) -> int:
    """The instructions of a run of the program."""
    return int(re.search(r"Collected : (\d+)", callgrind(program, parts, folder))[1])


def verification(program: str | Path, secrets: Any, folder: Path) -> Any:
    triples = [(rows.public_of(secret), MESSAGE, rows.sign(secret, MESSAGE)) for secret in secrets]
    taken = [("verified", [rows.verified_row(*triple) for triple in triples])]
    refused = [("verified", [
        rows.verified_row(public[:31], message, tag) for public, message, tag in triples])]
    return (whole(program, taken, folder) - whole(program, refused, folder)) // len(secrets)


def main(words: arguments.Words = None) -> int:
    """Counts them."""
    asked = arguments.given(__doc__, words, "program", count=100)
    program, count = asked.program, asked.count
    draw = random.Random("steps")
    secrets = [bytes(32), b"\xff" * 32, *(draw.randbytes(32) for _ in range(count - 2))]
    parts = [("signature", [rows.signature_row(secret, MESSAGE) for secret in secrets])]
    failed = 0
    for name in ("public_of", "sign_with"):
        with tempfile.TemporaryDirectory() as folder:
            counts = each(program, name, parts, Path(folder))
        few, most = min(counts), max(counts)
        print("%s: %d calls, %s instructions" %
              (name, len(counts), few if few == most else "%d to %d" % (few, most)))
        failed += int(len(counts) < count or few != most)
    with tempfile.TemporaryDirectory() as folder:
        print("verify: %d calls, %d instructions in the mean" %
              (count, verification(program, secrets, Path(folder))))
    print("%d passed, %d failed" % (2 - failed, failed))
    return 1 if failed else 0
