"""Measures Ed25519's calls in microseconds of a processor, and OpenSSL's on the same machine in
the same run.

    tools/run ed25519_speed PROGRAM [N]

PROGRAM is that of up_test_ed25519. It carries out N rows of each call, 2,000 if none are said,
and then as many that do the rest without the call: the difference is the call's. It does so five
times, and the least counts. OpenSSL's figures are those of `openssl speed`; it signs with the
public key at hand.
"""
import random
import re
import resource
import subprocess
from pathlib import Path
from typing import Any

from uptane_tools import arguments
from uptane_tools.measure.ed25519_steps import MESSAGE, answered
from uptane_tools.rows import ed25519_cases as rows


def seconds(program: str | Path, parts: Any) -> float:
    """The processor seconds of a run, which has to answer the rows."""
    before = resource.getrusage(resource.RUSAGE_CHILDREN)
    answered([str(program)], parts)
    after = resource.getrusage(resource.RUSAGE_CHILDREN)
    return after.ru_utime + after.ru_stime - before.ru_utime - before.ru_stime


def each(program: str | Path, words: Any, full: Any, bare: Any) -> Any:
    """Microseconds of a call: rows with it, without those that lack it."""
    taken = min(seconds(program, [(words, full)]) for _ in range(5)) - min(
        seconds(program, [(words, bare)]) for _ in range(5))
    return 1e6 * taken / len(full)


def by_openssl() -> list[float]:
    told = subprocess.run(["openssl", "speed", "-seconds", "2", "ed25519"], capture_output=True,
                          text=True, check=False).stdout
    found = re.search(r"\(Ed25519\)\s+\S+\s+\S+\s+([\d.]+)\s+([\d.]+)", told)
    return [1e6 / float(it) for it in found.groups()] if found else []


def main(words: arguments.Words = None) -> int:
    """Measures both."""
    asked = arguments.given(__doc__, words, "program", count=2000)
    program, count = asked.program, asked.count
    draw = random.Random("speed")
    secrets = [draw.randbytes(32) for _ in range(count)]
    triples = [(rows.public_of(it), MESSAGE, rows.sign(it, MESSAGE)) for it in secrets]
    public = each(program, "key", [rows.key_row(it) for it in secrets],
                  [rows.key_row(it[:31]) for it in secrets])
    verify = each(program, "verified", [rows.verified_row(*it) for it in triples],
                  [rows.verified_row(it[0][:31], *it[1:]) for it in triples])
    signed = [rows.signature_row(it, MESSAGE) for it in secrets]
    # (a row signs twice, and computes the public key for each)
    sign = each(program, "signature", signed, signed[:1]) * count / (count - 1) / 2
    print("| Call | Microseconds |\n|---|---|")
    print("| `public_of` | %.0f |\n| `sign` | %.0f |\n| `sign_with`, the public key at hand | %.0f "
          "|\n| `verify` | %.0f |" % (public, sign, sign - public, verify))
    for name, it in zip(("signing, the public key at hand", "verifying"), by_openssl()):
        print("| OpenSSL, %s | %.0f |" % (name, it))
    return 0
