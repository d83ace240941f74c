"""Computes the cases of streams and what they want, from the formats in docs/integrate/FORMATS.md
and docs/integrate/HTTP.md and from rows/ alone. `computed` gives them all to the program of the
crate `up_test_service`, whose input has the short ones. In a case `|` stands for the end of a line
of HTTP, `\\n` for that of a script.
"""
import json
from collections.abc import Iterator
from typing import Any

from uptane_tools import TOP
from uptane_tools.rows import row_texts

AT, PIECE, MOST = 1767225600, 8192, 262144
canon = row_texts.canonical


def key(byte: int) -> dict[str, Any]:
    return {"keys": [32 * ("%02x" % byte)], "threshold": 1}


def roles(first: int) -> dict[str, dict[str, Any]]:
    return {
        role: key(first + place)
        for place, role in enumerate(("root", "targets", "snapshot", "timestamp"))}


FOUND = canon({"at": AT, "director": roles(1), "do": "found", "image": roles(5)})
P1 = bytes(32 * [0x11])
ECU = {"ecu": "P1", "hardware": "HP", "key": P1.hex()}
VEHICLE = canon({"at": AT, "do": "add_vehicle", "ecus": [ECU], "primary": "P1", "vehicle": "V1"})
ITEM = {
    "attack": "", "counter": 1, "ecu": "P1", "time": AT, "key": P1.hex(), "file": "factory.bin",
    "length": 0, "sha256": row_texts.NOTHING}
SHOW = canon({"at": AT, "do": "show", "vehicle": "V1"})
BENCH = canon({
    "at": AT, "counter": 1, "do": "bench", "key": P1.hex(), "primary": "P1", "reports": [ITEM],
    "vehicle": "V1"})


def manifest() -> str:
    image = {"file": "factory.bin", "hashes": {"sha256": row_texts.NOTHING}, "length": 0}
    report = {
        "attack": "", "counter": 1, "ecu": "P1", "image": image, "time": "2026-01-01T00:00:00Z",
        "type": "report"}
    reports = [json.loads(row_texts.envelope(row_texts.HmacSha256, [P1], report))]
    payload = {
        "counter": 1, "primary": "P1", "reports": reports, "type": "manifest", "vehicle": "V1"}
    return row_texts.envelope(row_texts.HmacSha256, [P1], payload)


CLOSE = "Connection: close|"


def length(text: str) -> int:
    return len(text.replace("|", "\r\n"))


def answer(status: str, body: str, more: str = '', sent: bool = True) -> Any:
    return ("HTTP/1.1 %s|Content-Type: application/json|Content-Length: %d|%s|%s" %
            (status, len(body), more, body if sent else ""))


def error(number: int, text: str) -> str:
    return '{"error":%d,"text":"%s"}' % (number, text)


def post(more: str = '') -> str:
    return "POST /director/manifest HTTP/1.1|Host: d|%s|" % more


def posted(body: str) -> str:
    return post("Content-Length: %d|" % len(body)) + body


def spaces(number: int) -> str:
    return post("Content-Length: %d|" % number) + "<*%d* *>" % number


NO_FILE = "GET /image/nofile HTTP/1.1|Host: d||"
NO_FILE_ANSWER = answer("404 Not Found", error(29, "UnknownFile"))
NO_FILE_LAST = answer("404 Not Found", error(29, "UnknownFile"), CLOSE)
NOT_FOUNDED = answer("503 Service Unavailable", error(8, "NotFounded"))
NOT_JSON = answer("400 Bad Request", error(5, "NotJson"))
TOO_LARGE = answer("413 Payload Too Large", error(4, "TooLarge"), CLOSE)
BAD = answer("400 Bad Request", error(0, "bad request"), CLOSE)
NO_HOST, ALLOW_POST, NO_LENGTH = "GET /image/root.json HTTP/1.1||", ("GET /director/manifest "
                                                                     "HTTP/1.1|Host: d||"), post()
NOT_ALLOWED = answer("405 Method Not Allowed", error(0, "method not allowed"), "Allow: POST|")
LENGTH_REQUIRED = answer("411 Length Required", error(0, "length required"), CLOSE)
SHORT = [(NO_HOST, BAD), (NO_FILE, NO_FILE_ANSWER), (ALLOW_POST, NOT_ALLOWED),
         (NO_LENGTH, LENGTH_REQUIRED),
         ("GET /director/b*d HTTP/1.1|Host: d||", answer("404 Not Found", error(0, "not found"))),
         (post("Content-Length: 0|Connection: close|") + "GET",
          answer("400 Bad Request", error(5, "NotJson"), CLOSE)),
         ("HEAD /image/root.json HTTP/1.1|Host: d||",
          answer("405 Method Not Allowed", error(0, "method not allowed"), "Allow: GET|", False)),
         ("GET /image/root.json HTTP/1.1|Host: d|Transfer-Encoding: chunked||",
          answer("501 Not Implemented", error(0, "not implemented"), CLOSE))]
MANIFEST = manifest()
TWICE = 2 * posted(MANIFEST)
FILES = {
    "director": ["root", "1.root"], "image": ["root", "1.root", "targets", "snapshot", "timestamp"]}


def get(repository: str, name: Any) -> str:
    return "GET /%s/%s.json HTTP/1.1|Host: d||" % (repository, name)


REPLY = answer("200 OK", row_texts.replies("first_manifest").split("\n")[0])


def file_answer(repository: str, name: str) -> str:
    """The answer with a file of version 1, made at the founding."""
    which = repository if name.endswith("root") else name
    return answer("200 OK", row_texts.file(row_texts.HmacSha256, which, 1, 0, 1, []))


def sweep(step: int, input: str, requests: Any, size: int | None = None) -> tuple[str, str]:
    """The row of a sweep. A request is where it is whole, or None where only the input's end
    makes it one, its answer, and whether it is handed to the desk. A read that fails comes after
    all requests that were whole before it; a write that fails leaves the answers before it. The
    read after the last byte tells the end, unless a request ended the stream.
    """
    size = length(input) if size is None else size
    ends = bool(requests) and requests[-1][0] is not None and CLOSE in requests[-1][1]

    def told(cause: str, called: int, answered: int) -> str:
        return (" %s %d %d %d," % (cause, sum(it[2] for it in requests[:called]), answered,
                                   sum(len(it[1]) for it in requests[:answered])))

    reads = []
    for had in range(0, size + step, step):
        whole = sum(1 for request in requests if request[0] is not None and request[0] <= had)
        if ends and whole == len(requests):
            break
        reads.append(told("Read", whole, whole))
        if had >= size:
            break
    writes = [told("Write", place + 1, place) for place in range(len(requests))]
    return "sweep %d %s" % (step, input), "reads:%s writes:%s" % ("".join(reads), "".join(writes))


def worked(row: str) -> Iterator[Any]:
    """The lines of a worked row, and those that it has printed."""
    return ((TOP / "rows" / row / name).read_text(encoding="ascii").rstrip("\n").split("\n")
            for name in ("script", "printed"))


def lines_sweep(step: int, script: list[str], printed: list[str]) -> tuple[str, str]:
    """The same of the lines of a script, of which the last ends with the input, and what they
    have printed. Sent once more, the lines that were carried out are answered as before, but
    those that were `done`.
    """
    ends = [sum(len(line) + 1 for line in script[:place + 1]) for place in range(len(script) - 1)]

    def told(cause: str, called: int, answered: int) -> str:
        return (" %s %d %d %d again," %
                (cause, answered, sum(
                    len(line) + 2 for line in printed[:answered]), printed[:called].count("done")))

    reads, size = [], len("\n".join(script))
    for had in range(0, size + step, step):
        whole = sum(1 for end in ends if end <= had)
        reads.append(told("Read", whole, whole))
        if had >= size:
            break
    writes = [told("Write", place + 1, place) for place in range(len(printed))]
    return "lines_sweep %d %s" % (step, "\\n".join(script)), "reads:%s writes:%s" % (
        "".join(reads), "".join(writes))


def sections() -> Any:
    founded = [("do " + FOUND, "1: done\\n")]
    vehicle = founded + [("do " + VEHICLE, "1: done\\n")]

    def both(input: str, wanted: str) -> list[tuple[str, str]]:
        return [("whole " + input, wanted), ("slow " + input, wanted)]

    short = [row for input, wanted in SHORT for row in both(input, "1: " + wanted)]
    yield "short requests", founded + both("", "0: ") + short
    yield "requests before the founding", both(NO_FILE, "1: " + NOT_FOUNDED) + [
        ("whole " + posted(MANIFEST), "1: " + NOT_FOUNDED)]
    named = [(repository, name) for repository, names in FILES.items() for name in names]
    files = [("whole " + get(*it), "1: " + file_answer(*it)) for it in named]
    all_files = "".join(get(*it) for it in named), "%d: %s" % (len(named), "".join(
        file_answer(*it) for it in named))
    yield "files of both repositories", founded + files + both(*all_files)
    unknown = answer("404 Not Found", error(10, "UnknownVehicle"))
    yield "a manifest of an unknown vehicle", founded + both(posted(MANIFEST), "1: " + unknown)
    large = both(spaces(MOST), "1: " + NOT_JSON) + both(spaces(MOST + 1), "1: " + TOO_LARGE)
    yield "largest bodies", founded + large + [
        ("whole " + spaces(MOST) + NO_FILE, "2: " + NOT_JSON + NO_FILE_ANSWER)]
    cut = [("cut " + 2 * NO_FILE, "2: " + 2 * NO_FILE_ANSWER)]
    yield "two requests cut anywhere", founded + cut + both(2 * NO_FILE,
                                                            "2: " + 2 * NO_FILE_ANSWER)[::-1]
    yield "a manifest twice", vehicle + [("whole " + TWICE, "2: " + 2 * REPLY)]
    yield "a manifest twice a byte at a time", vehicle + [("slow " + TWICE, "2: " + 2 * REPLY)]
    yield "a manifest cut anywhere", vehicle + [("cut " + posted(MANIFEST), "1: " + REPLY)]
    yield "a hundred requests", founded + [
        ("whole <*101*%s*>" % NO_FILE, "100: " + 99 * NO_FILE_ANSWER + NO_FILE_LAST)]
    three = "<*3*%s*>" % NO_FILE
    yield "one call that fails", founded + [
        ("fails 1000 0 2 0 " + three, "Write 2 1: " + NO_FILE_ANSWER),
        ("fails 1000 0 0 2 " + three, "Write 2 1: " + NO_FILE_ANSWER),
        ("fails 50 3 0 0 " + three, "Read 2 2: " + 2 * NO_FILE_ANSWER),
        ("fails 1000 1 0 0 " + three, "Read 0 0: "),
        ("fails 1000 2 0 0 " + three, "Read 3 3: " + 3 * NO_FILE_ANSWER)]
    stands = ("do " + SHOW, "1: vehicle V1 version 1 P1=factory.bin\\n")
    unwritten = [("fails 1000 0 1 0 " + TWICE, "Write 1 0: "), stands,
                 ("whole " + posted(MANIFEST), "1: " + REPLY), stands]
    yield "an unwritten reply", vehicle + unwritten
    head = length(post("Content-Length: %d|" % MOST))
    once, twice = length(NO_FILE), 2 * length(NO_FILE)
    yield "each read and write fails in turn", founded + [
        sweep(20, NO_HOST, [(length(NO_HOST), BAD, 0)]),
        sweep(20, NO_FILE, [(once, NO_FILE_ANSWER, 1)]),
        sweep(20, ALLOW_POST, [(length(ALLOW_POST), NOT_ALLOWED, 0)]),
        sweep(PIECE, spaces(MOST), [(head + MOST, NOT_JSON, 1)], head + MOST),
        sweep(20, post("Content-Length: %d|" % (MOST + 1)), [(head, TOO_LARGE, 0)]),
        sweep(20, NO_LENGTH, [(length(NO_LENGTH), LENGTH_REQUIRED, 0)]),
        sweep(7, 2 * NO_FILE, [(once, NO_FILE_ANSWER, 1), (twice, NO_FILE_ANSWER, 1)]),
        sweep(10, "", [])]
    yield "each read and write fails in turn before the founding", [
        sweep(20, NO_FILE, [(once, NOT_FOUNDED, 1)])]
    first = length(posted(MANIFEST))
    accepted = [(first, REPLY, 1), (2 * first, REPLY, 1)]
    rest = [(2 * first + once, NO_FILE_ANSWER, 1), (None, BAD, 0)]
    sweeps = [sweep(400, TWICE + NO_FILE + "GET", accepted + rest), sweep(100, TWICE, accepted)]
    none_fails = "whole " + TWICE + NO_FILE + "GET", "4: " + 2 * REPLY + NO_FILE_ANSWER + BAD
    yield "each read and write fails in turn over manifests", vehicle + sweeps + [none_fails]
    script, printed = worked("equal_and_greater_releases")
    none_fails = "lines 100 0 0 0 " + "\\n".join(script), "%d: %s" % (len(printed), "".join(
        line + "\\n" for line in printed))
    yield "each read and write fails in turn over lines", [
        lines_sweep(100, script, printed), none_fails]
    refused = "refused 5 NotJson\\n"
    yield "scripts that end early", [
        ("lines 1000 0 0 0 nope\\n<*2097153* *>", "TooLong 1: " + refused),
        ("lines 1000 0 0 0 nope\\n<*2097152* *>", "2: " + 2 * refused)]
    script = "lines 1000 0 3 0 " + "\\n".join((FOUND, VEHICLE, BENCH))
    again = ("do " + BENCH, "1: reply V1 version 1 targets 0\\n")
    yield "an unwritten line", [(script, "Write 2: done\\ndone\\n"), stands, again, stands]
    group = "lines 65536 0 1 0 " + "\\n".join((FOUND, VEHICLE, BENCH)) + "\\n"
    yield "a group of lines that isn't written", [(group, "Write 0: "), again, stands]
    stays = "stays GET /image/nofile HTTP/1.1|Host: d|Connection: close||"
    clients = [("ends " + posted(MANIFEST), "1: " + REPLY), (stays, "1: " + NO_FILE_LAST)]
    yield "sockets of two clients", [("do " + FOUND, "kept"), ("do " + VEHICLE, "kept")] + clients


WRONG = "rows that are wrong on purpose"


def parts() -> Iterator[tuple[str, list[tuple[str, str]], str]]:
    """Each section: its words, what its cases are given and want, and what is told of it."""
    rows = [("whole " + NO_HOST, "1: " + NO_FILE_ANSWER, "1: " + BAD),
            ("dance", "0: ", "no such row")]
    differing = "".join("%s of %s is %s, in place of %s\n" % (WRONG, asked, had, wanted)
                        for asked, wanted, had in rows)
    yield WRONG, [row[:2] for row in rows], differing + WRONG + ": 0\n"
    for words, of in sections():
        yield words, of, "%s: %d\n" % (words, len(of))


def media(words: str) -> list[str]:
    """Each section is told over both media, but those of sockets."""
    return [""] if words.startswith("sockets") else ["in memory, ", "in files, "]


def texts(most: int | None = None) -> tuple[str, str]:
    """The input and what is told, two cases wrong on purpose among them; of the sections that have
    at most so many characters, if any are said.
    """
    given, told = "", ""
    for words, of, says in parts():
        text = "\n# %s\n%s" % (words, "".join("%s => %s\n" % row for row in of))
        if most is None or len(text) <= most:
            given += text
            told += "".join(medium + says for medium in media(words))
    return given, told
