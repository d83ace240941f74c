"""Draws how the crates of the program stand on one another, from crates.txt: `docs/parts.svg`.

    tools/run parts            tells whether the picture is that of crates.txt
    tools/run parts write      draws it

A crate stands above those that it uses. A line leads to each that it uses, but for those that
another of them uses too.
"""
import html
import re
from typing import Any

from uptane_tools import arguments
from uptane_tools.trial import trials
from uptane_tools.trial.trials import TOP

PICTURE = TOP / "docs" / "parts.svg"
WIDTH, HEIGHT, ROW, GAP = 128, 40, 74, 12
# the lanes from left to right, and what a crate is for in three words
LANES = {
    "the rules": {
        "up_canon": "canonical text, names",
        "up_curve": "RFC 8032's rules",
        "up_field": "numbers, points",
        "up_ed25519": "Ed25519",
        "up_sign": "signatures",
        "up_shown": "shown keys",
        "up_brought": "files signed elsewhere",
        "up_offline": "laws of offline keys",
        "up_roles": "role files",
        "up_metadata": "keys and files",
        "up_manifest": "manifests",
        "up_plan": "plans",
        "up_machine": "state, decisions",
        "up_laws": "laws of replies",
        "up_verify": "a Primary's checks",
        "up_primary": "a Primary's laws",
        "up_uptane": "Uptane's laws", }, "the database": {
            "up_tables": "tables, statements", "up_columns": "lists in columns",
            "up_rows": "rows of a state", "up_records": "store and cache",
            "up_store": "reads, writes", "up_file": "database files"},
    "the program": {
        "up_desk": "commands, the headline", "up_service": "scripts, streams",
        "up_shipped": "what ships", "up_main": "the programs' parts", "uptane_desk": "under HMAC",
        "uptane_desk_ed25519": "under Ed25519", "up_primary_files": "a Primary's files",
        "uptane_primary": "a Primary"}, "bytes and HTTP": {
            "up_pieces": "bytes in pieces", "up_lines": "lines", "up_script": "lines of scripts",
            "up_heads": "heads, routes", "up_http": "requests", "up_connections": "many at once",
            "up_sockets": "their sockets", "up_program": "statuses, messages"}}


def used() -> dict[str, list[str]]:
    """For each crate of the program those of the program that it uses."""
    text = (TOP / "crates.txt").read_text(encoding="utf-8").split("\n# crates of tests")[0]
    rows = dict(re.findall(r"^(up\w+)[^:\n]*:(.*)$", text, re.MULTILINE))
    return {name: [it for it in row.split() if it in rows] for name, row in rows.items()}


def nearest(crates: dict[str, list[str]]) -> dict[str, list[str]]:
    """The same without those that another of them uses."""

    def below(name: str) -> set[str]:
        return {it for direct in crates[name] for it in (direct, *below(direct))}

    return {
        name: [it for it in direct if not any(it in below(other) for other in direct)
               ] for name, direct in crates.items()}


def lane_of(name: str) -> int:
    return next((at for at, crates in enumerate(LANES.values()) if name in crates), 0)


def placed(
    crates: dict[str,
                 list[str]]) -> tuple[dict[str, int], dict[str, int], dict[tuple[int, int], int]]:
    """The row of each crate, from below, and its place in its lane."""
    rows: Any = {}
    for name in crates:
        rows[name] = 1 + max((rows[it] for it in crates[name]), default=-1)
    counts: Any
    places, counts = {}, {}
    for name in crates:
        key = rows[name], lane_of(name)
        places[name] = counts.get(key, 0)
        counts[key] = places[name] + 1
    return rows, places, counts


def drawn() -> str:
    crates = nearest(used())
    rows, places, counts = placed(crates)
    wide = [
        max((count for (_, lane), count in counts.items() if lane == at), default=1)
        for at in range(len(LANES))]
    starts = [28 + sum(wide[:at]) * (WIDTH + GAP) + at * 22 for at in range(len(LANES))]
    width = starts[-1] + wide[-1] * (WIDTH + GAP) + 16
    height = (max(rows.values()) + 1) * ROW + 46
    words = {name: what for lane in LANES.values() for name, what in lane.items()}

    def corner(name: str) -> tuple[float, int]:
        lane, count = lane_of(name), counts[rows[name], lane_of(name)]
        x = starts[lane] + (wide[lane] - count) * (WIDTH + GAP) / 2 + places[name] * (WIDTH + GAP)
        return x, height - 16 - rows[name] * ROW - HEIGHT

    out = [
        '<svg xmlns="http://www.w3.org/2000/svg" viewBox="0 0 %d %d" font-family="sans-serif" '
        'font-size="12">' % (width, height)]
    out.append("<title>How the crates of uptane_desk stand on one another</title>")
    out.append('<rect width="100%" height="100%" fill="#ffffff"/>')
    for lane, start, many in zip(LANES, starts, wide):
        out.append('<rect x="%d" y="24" width="%d" height="%d" rx="6" fill="#f3f5f8"/>' %
                   (start - 8, many * (WIDTH + GAP) + 4, height - 32))
        out.append('<text x="%d" y="17" fill="#5b6775">%s</text>' % (start - 4, lane))
    for name, direct in crates.items():
        x, y = corner(name)
        for it in direct:
            to_x, to_y = corner(it)
            from_x, from_y = x + WIDTH / 2, y + HEIGHT
            to_x, middle = to_x + WIDTH / 2, (from_y + to_y) / 2
            line = "M%d %d C%d %d %d %d %d %d" % (from_x, from_y, from_x, middle, to_x, middle,
                                                  to_x, to_y)
            out.append('<path d="%s" fill="none" stroke="#8796a8" stroke-width="1.2"/>' % line)
    for name in crates:
        x, y = corner(name)
        strong = name in ("up_desk", "uptane_desk")
        fill = "#dbe9ff" if strong else "#ffffff"
        out.append(
            '<rect x="%d" y="%d" width="%d" height="%d" rx="5" fill="%s" stroke="#33506f"/>' %
            (x, y, WIDTH, HEIGHT, fill))
        out.append('<text x="%d" y="%d" text-anchor="middle" font-family="monospace" '
                   'fill="#10233a">%s</text>' % (x + WIDTH / 2, y + 17, name))
        out.append(
            '<text x="%d" y="%d" text-anchor="middle" font-size="10" fill="#5b6775">%s</text>' %
            (x + WIDTH / 2, y + 32, html.escape(words.get(name, ""))))
    return "\n".join([*out, "</svg>"]) + "\n"


def cases() -> trials.Cases:
    yield "the picture is that of crates.txt", PICTURE.is_file() and PICTURE.read_text(
        encoding="utf-8") == drawn()
    known = {name for lane in LANES.values() for name in lane}
    yield from (("%s has its lane in the picture" % name, name in known) for name in used())


def main(words: arguments.Words = None) -> int:
    """Compares the picture, or draws it."""
    if arguments.given(__doc__, words, order=["tell", "write"]).order == "write":
        PICTURE.write_text(drawn(), encoding="utf-8")
    return trials.judged("picture", cases())
