"""Runs the examples and the worked rows with the program, tries its words and limits, and sees
that it answers the small Primary as the page for integrators shows. What needs no program is
compared by `tools/run check_rows`.

    tools/run check_examples PROGRAM [ROWS]    PROGRAM is uptane_desk, ROWS the program of the crate
                                               that carries the rows out, which is given the page's
                                               reply, and a changed one, too

With SCHEME=ed25519 the program is uptane_desk_ed25519, and scripts that aren't of that scheme
are translated to it.

promise: script-ends
"""
import json
import stat
import subprocess
from pathlib import Path
from typing import Any

from uptane_tools import arguments
from uptane_tools.measure import fleet
from uptane_tools.oracle import reference
from uptane_tools.rows import translated
from uptane_tools.rows.check_rows import EXAMPLES, PRIMARY, ROWS, ran, read
from uptane_tools.trial import http_cases, program_cases, trials


def printed(program: str | Path, script: Any, path: str = ":memory:") -> str:
    done = subprocess.run([program, "run", path], input=script.encode(), capture_output=True,
                          check=False)
    if done.returncode or done.stderr:
        return "status %d: %s" % (done.returncode, done.stderr.decode())
    return done.stdout.decode("ascii")


def scripts(program: str | Path) -> trials.Cases:
    """Each script over memory and over a new file: under the scheme that is tried as it stands,
    or translated to it. HMAC stands in for no other.
    """
    for script in sorted([*EXAMPLES.glob("*/script"), *ROWS.glob("*/script")]):
        if reference.METHOD == "hmac-sha256" and (script.parent / "under").exists():
            continue
        name, (lines, wanted) = str(script.parent.relative_to(trials.TOP)), translated.under(
            script.parent, reference.METHOD)
        yield name, translated.are_as(wanted, trials.printed(program, ":memory:", lines))
        with trials.folder() as own:
            over_file = translated.are_as(wanted, trials.printed(program, own / "desk", lines))
            yield name + " over a file", over_file and trials.faults(own / "desk") == []


def by_socket(program: str | Path) -> trials.Cases:
    """Each example's script through the socket of a service over a new file, and what is said of
    one that is cut off or that nobody answers.
    """
    for script in sorted(EXAMPLES.glob("*/script")):
        if reference.METHOD == "hmac-sha256" and (script.parent / "under").exists():
            continue
        lines, wanted = translated.under(script.parent, reference.METHOD)
        given = "".join(line + "\n" for line in lines).encode("ascii")
        with trials.folder() as own:
            path, operators = own / "desk", own / "socket"
            with http_cases.served(program, path, 1, operators=operators) as running:
                mode = stat.S_IMODE(operators.stat().st_mode)
                told = trials.tool("tell", operators, given=given)
                known = json.loads(trials.tool("tell", operators, given=b'{"do":"status"}\n')[1][0])
                ends = http_cases.told(running, b"") == b"" and http_cases.ended(running)
            yield "%s through a socket" % script.parent.relative_to(trials.TOP), translated.are_as(
                wanted, told[1]) and (told[0], told[2]) == (0, "")
            yield "of its owner alone, which goes with the service", mode == 0o600 and ends and (
                not operators.exists())
            yield "which says what it did", sorted(known) == [
                "commands", "groups", "open", "seconds", "served"]
            yield "and nobody answers then", trials.tool("tell", operators,
                                                         given=given)[:2] == (3, [])


def limits(program: str | Path) -> trials.Cases:
    """1,024 images and 64 root versions over a file, which another start opens before one more
    of each; and bodies of 262,144 bytes and of one more.
    """
    row = read(ROWS / "kept_reply_after_a_rotation" / "script").split("\n")
    rotate = next(line for line in row if '"do":"rotate"' in line)
    image = ('{"at":1767225600,"do":"add_image","file":"%d.bin","hardware":["HS"],"length":0,'
             '"release":1,"sha256":"%s"}')
    most = [row[0], *63 * [rotate], *(image % (number, 64 * "0") for number in range(1024))]
    with trials.folder() as folder:
        well = trials.printed(program, folder / "most", most, 600) == len(most) * ["done"]
        more = trials.printed(program, folder / "most",
                              [image % (1024, 64 * "0"), rotate, image % (3, 64 * "0")])
        yield "images and root versions at their limits", well and more == [
            "refused 20 RegisterFull", "refused 30 RootFull", "already"]
    body = '{"at":1767225600,"body":"%s","do":"deliver"}\n'
    bodies = body % (262144 * " ") + body % (262145 * " ")
    yield "bodies at their limit", printed(program,
                                           bodies) == "refused 5 NotJson\nrefused 4 TooLarge\n"


def first_reply(rows: Any, given: Any, reply: str) -> list[str]:
    """What is said of a row in which the desk answers the Primary's manifest by this text: a
    line over memory, and one over files.
    """
    found, vehicle = read(EXAMPLES / "first_path" / "script").split("\n")[:2]
    manifest = ran(PRIMARY / "primary.py", "line", "1767225600", given=given)[1].strip()
    row = ["", "row reply", "@ hmac-sha256", "> " + found, "< done", "> " + vehicle, "< done"]
    row += ["> " + manifest, "< reply V1 version 1 targets 0", "= " + reply.strip(), ""]
    done = subprocess.run([rows], input="\n".join(row).encode(), capture_output=True, check=False)
    return done.stdout.decode("utf-8", "replace").splitlines() if done.returncode == 0 else []


def primaries(program: str | Path, rows: Any) -> trials.Cases:
    given, reply = (read(PRIMARY / name) for name in ("manifest-input.json", "reply.json"))
    # the bench line of the first path builds the same manifest: delivered again it is a repeat, and
    # the version stays
    again = read(EXAMPLES / "first_path" / "script") + ran(PRIMARY / "primary.py", "line",
                                                           "1767225600", given=given)[1]
    wanted = ["done", "done"] + 2 * ["reply V1 version 1 targets 0"] + [""]
    yield "the Primary's manifest is the bench line's", printed(program, again) == "\n".join(wanted)
    if rows:
        broken = reply.replace('"version":1}', '"version":2}', 1)
        had, of_changed = first_reply(rows, given, reply), first_reply(rows, given, broken)
        scripts_run = ["reply in %s: script 3, by bytes 3, run " % it for it in ("memory", "files")]
        yield "the desk answers the reply that the page shows", had == [
            it + "4, calls 4, in turns 4" for it in scripts_run]
        differs = [line.startswith(it + "DIFFERS: ") for line, it in zip(of_changed, scripts_run)]
        yield "the desk doesn't answer a changed reply", differs == [True, True]


def primary_of_ed25519(program: str | Path) -> trials.Cases:
    """The Primary's messages under Ed25519 are what the program takes and answers."""
    folder = PRIMARY / "ed25519"
    given, body, reply, root = (read(folder / name)
                                for name in ("manifest-input.json", "manifest.json", "reply.json",
                                             "director-root.json"))
    tool, broken = PRIMARY / "primary.py", reply.replace('"version":1}', '"version":2}', 1)
    yield "the Primary builds the manifest that the page shows", ran(tool, "build",
                                                                     given=given) == (0, body)
    yield "the Primary checks the reply that the page shows", ran(
        tool, "check", folder / "director-root.json", given=reply)[0] == 0
    yield "the Primary refuses a changed reply", broken != reply and ran(
        tool, "check", folder / "director-root.json", given=broken)[0] == 1
    first = read(EXAMPLES / "first_path_ed25519" / "script").split("\n")
    script = [
        *first[:2],
        ran(tool, "line", "1767225600", given=given)[1].strip(), first[2],
        fleet.line("fetch", repository="director", file="root.json")]
    with trials.folder() as own:
        wanted = ["done", "done", *2 * ["reply V1 version 1 targets 0"], "file " + root.strip()]
        yield "the program takes it as the bench line's", trials.printed(
            program, own / "desk", script) == wanted
        with trials.read(own / "desk") as db:
            yield "the program answers the reply that the page shows", db.execute(
                "SELECT reply FROM kept").fetchall() == [(reply.strip(), )]


def cases(program: str | Path, rows: Any) -> trials.Cases:
    missing = [it for it in (program, rows) if it and not Path(it).is_file()]
    yield from (("%s is built" % it, False) for it in missing)
    if not missing:
        yield from scripts(program)
        yield from by_socket(program)
        yield from program_cases.cases(program)
        yield from limits(program)
        yield from primaries(
            program, rows) if reference.METHOD == "hmac-sha256" else primary_of_ed25519(program)


def main(words: arguments.Words = None) -> int:
    """Tries the program that is named, and the rows by the other one."""
    asked = arguments.given(__doc__, words, "program", rows="")
    return trials.judged("example", cases(asked.program, asked.rows or None))
