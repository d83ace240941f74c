"""Test vectors of the service's answers, and of what a Primary does behind each."""
import json
from collections.abc import Iterator
from typing import Any

from uptane_tools.operate.formats import MOST


def told(error: int, text: str) -> str:
    return json.dumps({"error": error, "text": text}, separators=(",", ":"))


# status, body, what follows, and the value that it needs
ANSWERS = [
    ("a reply, whatever its verdict", 200, '{"root":1}', "read", None),
    ("a reply with an error and a text", 200, told(13, "Stale 7"), "read", None),
    ("a proxy's page with status 200", 200, "<html>200 OK</html>", "again", None),
    ("a reply that was cut", 200, '{"root":1', "again", None),
    ("a list with status 200", 200, "[5]", "again", None),
    ("want of memory", 503, told(1, "Memory"), "again", None),
    ("the same with another status", 400, told(1, "Memory"), "again", None),
    ("a fault of the database", 503, told(2, "Store"), "again", None),
    ("a clock that is wrong", 503, told(3, "MomentOutOfRange"), "again", None),
    ("a service that isn't founded yet", 503, told(8, "NotFounded"), "again", None),
    ("a request that was changed on its way", 400, told(0, "bad request"), "again", None),
    ("a path that was changed on its way", 404, told(0, "not found"), "again", None),
    ("another method than was sent", 405, told(0, "method not allowed"), "again", None),
    ("no length, though one was sent", 411, told(0, "length required"), "again", None),
    ("a body in chunks, though none was sent", 501, told(0, "not implemented"), "again", None),
    ("a proxy's page", 502, "<html>502 Bad Gateway</html>", "again", None),
    ("a proxy's page of another status", 413, "<html>413</html>", "again", None),
    ("a redirect, which isn't followed", 307, "", "again", None),
    ("a proxy's own JSON", 403, '{"message":"forbidden"}', "again", None),
    ("JSON that is no object", 400, "[5]", "again", None),
    ("JSON whose error is a text", 409, '{"error":"13","text":"Stale 7"}', "again", None),
    ("a body that was cut", 409, '{"error":13,"te', "again", None),
    ("an error without a text", 409, '{"error":13}', "again", None),
    ("an error whose text is a number", 409, '{"error":13,"text":7}', "again", None),
    ("a busy proxy's JSON with a number of the service", 503, told(12, "Busy"), "again", None),
    ("a number of the service with a status of 500", 500, told(13, "Stale 7"), "again", None),
    ("a counter that was used", 409, told(13, "Stale 7"), "counter", 7),
    ("a counter near the greatest", 409, told(13, "Stale %d" % (MOST - 1)), "counter", MOST - 1),
    ("the greatest counter", 409, told(13, "Stale %d" % MOST), "counter", MOST),
    ("a counter above the greatest", 409, told(13, "Stale %d" % (MOST + 1)), "mend", 13),
    ("a counter that was used, without a number", 409, told(13, "Stale"), "mend", 13),
    ("a counter that was used, with two numbers", 409, told(13, "Stale 7 8"), "mend", 13),
    ("a counter that was used, under another name", 409, told(13, "Other 7"), "counter", 7),
    ("a counter that was used, with zeros before it", 409, told(13, "Stale 007"), "counter", 7),
    ("a counter that was used, of 17 digits", 409, told(13, "Stale %017d" % 7), "mend", 13),
    ("a counter that was used, behind two spaces", 409, told(13, "Stale  7"), "mend", 13),
    ("a report that was used", 409, told(18, "ReportReplayed left"), "report", "left"),
    ("a report that was used, under another name", 409, told(18, "Other left"), "report", "left"),
    ("a report that was used, without an ECU", 409, told(18, "ReportReplayed"), "mend", 18)]
# those after which a body has to be put right: status, number, text, and the name
MENDED = """
413 4 TooLarge: a body that is too large
400 5 NotJson: a body that is no JSON
400 6 NotCanonical: a body without a canonical text
400 7 BadShape counter: a member of another form
404 10 UnknownVehicle: a vehicle that the inventory hasn't
403 11 WrongPrimary: another Primary than the inventory has
403 12 BadManifestSignature: another key than the inventory has
409 14 UnknownEcu left: a report of an ECU that was replaced
403 14 UnknownEcu left: the same with another status below 500
409 15 DuplicateEcu left: two reports of an ECU
409 16 MissingEcu left-2: no report of an ECU that was put in
403 17 BadReportSignature left: a report under another key
"""


def answers() -> Iterator[dict[str, Any]]:
    for name, status, body, then, value in ANSWERS:
        yield {"name": name, "status": status, "body": body, "then": then, "value": value}
    for line in MENDED.split("\n")[1:-1]:
        words, name = line.split(": ", 1)
        code, number, text = words.split(" ", 2)
        yield {
            "name": name, "status": int(code), "body": told(int(number), text), "then": "mend",
            "value": int(number)}


# the same of a GET
FILES = [
    ("a file", 200, '{"signatures":[],"signed":{}}', "read"),
    ("a file that isn't there", 404, told(29, "UnknownFile"), "none"),
    ("the same with another status", 400, told(29, "UnknownFile"), "end"),
    ("the same with status 503", 503, told(29, "UnknownFile"), "again"),
    ("a file with an error and a text", 200, told(29, "UnknownFile"), "read"),
    ("a path that was changed on its way", 404, told(0, "not found"), "again"),
    ("a proxy's page of that status", 404, "<html>404</html>", "again"),
    ("a proxy's page with status 200", 200, "<html>200 OK</html>", "again"),
    ("a file that was cut", 200, '{"signatures":[],"signed":{', "again"),
    ("a list with status 200", 200, "[5]", "again"),
    ("a service that isn't founded yet", 503, told(8, "NotFounded"), "again"),
    ("that with status 404", 404, told(8, "NotFounded"), "again"),
    ("a refusal of manifests", 403, told(12, "BadManifestSignature"), "end"), ]


def files() -> Iterator[dict[str, Any]]:
    for name, status, body, then in FILES:
        yield {"name": name, "status": status, "body": body, "then": then}
